#!/usr/bin/env python3
"""Runs a command and tells what each crate's checks and tests took, in seconds of a processor.

    python3 tools/gate_times.py FILE bash .ci/run      FILE: where the table goes, written anew every minute

It looks at the running processes twice a second: what a process and its children used is counted to the crate that the prover was called for, its tests
and the wrong bodies apart. What begins and ends between two looks is missed, so the sum is a little less than the whole, which stands in the last line."""
import collections
import os
import resource
import subprocess
import sys
import time

TICK = os.sysconf("SC_CLK_TCK")


def children(pid):
    found = []
    try:
        for task in os.listdir(f"/proc/{pid}/task"):
            with open(f"/proc/{pid}/task/{task}/children", encoding="ascii") as it:
                found += [int(word) for word in it.read().split()]
    except OSError:
        pass
    return found


def used(pid):
    """The seconds that a process, its ended children and its living ones used."""
    try:
        with open(f"/proc/{pid}/stat", encoding="utf-8", errors="replace") as it:
            own = sum(int(word) for word in it.read().rsplit(")", 1)[1].split()[11:15]) / TICK
    except OSError:
        return 0.0
    return own + sum(used(it) for it in children(pid))


def label(pid):
    """For which crate the prover was called, if this is the prover: its check, its tests, or its wrong bodies."""
    try:
        with open(f"/proc/{pid}/cmdline", "rb") as it:
            words = it.read().decode(errors="replace").split("\0")
        place = os.readlink(f"/proc/{pid}/cwd")
    except OSError:
        return None
    if "--crate-name" not in words:
        return None
    crate = words[words.index("--crate-name") + 1]
    if "wrong-bodies-" in place:
        return f"{crate}, wrong bodies"
    return f"{crate}, tests" if any(it.endswith("_tests.o") or it == "--test" for it in words) else crate


def look(pid, seen):
    """Notes what each prover below a process used so far."""
    name = label(pid)
    if name:
        seen[pid, name] = max(seen.get((pid, name), 0.0), used(pid))
        return
    for it in children(pid):
        look(it, seen)


def table(seen, began):
    sums = collections.Counter()
    for (_, name), seconds in seen.items():
        sums[name] += seconds
    lines = [f"{seconds:8.0f} {name}" for name, seconds in sums.most_common()]
    usage = resource.getrusage(resource.RUSAGE_CHILDREN)
    whole = f"{usage.ru_utime + usage.ru_stime:.0f} in all" if usage.ru_utime else "not ended"
    return "\n".join([*lines, f"{sum(sums.values()):8.0f} seen, {whole}, {time.monotonic() - began:.0f} by the clock"]) + "\n"


def main(file, *words):
    began, seen, told = time.monotonic(), {}, 0.0
    with subprocess.Popen(words) as command:
        while command.poll() is None:
            look(command.pid, seen)
            if time.monotonic() - told > 60:
                told = time.monotonic()
                with open(file, "w", encoding="utf-8") as it:
                    it.write(table(seen, began))
            time.sleep(0.5)
    with open(file, "w", encoding="utf-8") as it:
        it.write(table(seen, began))
    return command.returncode


if __name__ == "__main__":
    if len(sys.argv) < 3:
        sys.exit(__doc__)
    sys.exit(main(*sys.argv[1:]))
