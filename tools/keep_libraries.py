#!/usr/bin/env python3
"""Lets the checks that come after `rt ci` stand on the libraries that it built.

    python3 tools/keep_libraries.py --begin      before `rt ci`
    python3 tools/keep_libraries.py              after it passed

`rt ci` leaves each library in crates/NAME/out/rlib without the stamp by which other commands know that it is built of these sources, so that they
would prove all of them again: more than an hour of a processor. This writes the stamps, as the kit itself makes them.

A stamp is the sum of all that a library is built from: the kit, its own files, and those of the libraries below it. What stands without a stamp before `rt ci`
may be built of other sources, and `rt ci` would put it back: --begin removes it, and records each library's sum and the time. So what stands there afterwards `rt ci` built, or took from what it
keeps of its own runs by the sums of all that they read: a library gets its stamp where its sum is the recorded one, all of its files were put there since, and so it is of each library below it.
Whatever else is found, and where the kit has another form, no stamp is written, and the library is built again.

Run at the top of the repository."""
import glob
import json
import os
import shutil
import sys
import time

RECORD = ".git/libraries-begun.json"
KEPT = ("crates/*/out/rlib", ".git/rt-aside/*/rlib")


def stamps():
    """The sum of each library's sources, as the kit makes it."""
    sys.path.insert(0, os.path.dirname(os.path.realpath(shutil.which("rt"))))
    import rtlib

    known, found = {}, {}
    for name in sorted(os.listdir("crates")):
        folder = os.path.abspath(f"crates/{name}")
        if os.path.isfile(f"{folder}/src/lib.rt"):
            crate = known[folder] = known.get(folder) or rtlib.Crate(folder, rtlib.root_above(folder), known)
            found[name] = crate.stamp()
    return found


def oldest(folder):
    """When the first file below a folder was put there, whenever it was written."""
    return min((os.stat(f"{at}/{it}").st_ctime_ns for at, _, names in os.walk(folder) for it in names), default=0)


def stamp_of(folder):
    """The stamp of a library, if it has one."""
    if not os.path.exists(f"{folder}/stamp"):
        return None
    with open(f"{folder}/stamp", encoding="utf-8") as it:
        return it.read()


def below():
    """The libraries of this repository that each crate stands on."""
    found = {}
    with open("crates.txt", encoding="utf-8") as it:
        for line in it:
            head, _, uses = line.partition(":")
            found[head.split()[0]] = uses.split()
    return {name: [it for it in uses if it in found] for name, uses in found.items()}


def begin():
    """Removes what has no stamp, and records the sums and the time."""
    if os.path.exists(RECORD):
        os.remove(RECORD)
    for folder in (it for kept in KEPT for it in glob.glob(kept)):
        if not os.path.exists(f"{folder}/stamp"):
            shutil.rmtree(folder)
    record = {"time": time.time_ns(), "stamps": stamps()}
    with open(RECORD, "w", encoding="utf-8") as it:
        json.dump(record, it)


def end():
    """Writes the stamp of each library that was built since of the sources that are recorded, with all that it stands on."""
    with open(RECORD, encoding="utf-8") as it:
        record = json.load(it)
    os.remove(RECORD)
    sums, uses, stands = stamps(), below(), {}

    def is_built(name):
        """Whether a library was put there by this run for these sources, or has their stamp, and so it is of each that it stands on."""
        if name not in stands:
            folder = f"crates/{name}/out/rlib"
            there = os.path.isdir(f"{folder}/{name}.rlib") and all(is_built(it) for it in uses.get(name, []))
            built = record["stamps"].get(name) == sums.get(name) and oldest(folder) >= record["time"]
            stands[name] = there and (stamp_of(folder) == sums.get(name) or stamp_of(folder) is None and built)
        return stands[name]

    for name, stamp in sums.items():
        folder = f"crates/{name}/out/rlib"
        if not os.path.isdir(f"{folder}/{name}.rlib") or stamp_of(folder) is not None:
            continue
        if not is_built(name):
            print(f"library {name}: not built of these sources in this run: it is built again for the wrong bodies", flush=True)
            continue
        with open(f"{folder}/stamp", "w", encoding="utf-8") as it:
            it.write(stamp)
        print(f"library {name}: kept for the wrong bodies", flush=True)


if __name__ == "__main__":
    try:
        begin() if sys.argv[1:] == ["--begin"] else end()
    except Exception as why:
        print(f"libraries are built again for the wrong bodies: {why!r}", flush=True)
