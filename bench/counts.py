#!/usr/bin/env python3
"""Counts what a run of a workload executes, here and in the Rust program, by valgrind's model of a processor: instructions, reads and writes of data that miss the first
cache (32 KB) and the second (1 MB), and jumps that are foretold wrongly. It tells where time goes whatever else the machine does, and says nothing of how long it takes.

    python3 bench/counts.py [N=10000] NAME..      NAME: a workload of this repository, as o_join3+default

Prints for each a row with the counts of one run here and how they stand to those of the Rust program's workload, the name up to its plus sign: those of twelve runs without those of two, by ten, so that what is done once
is not in them; what a workload does before each run, untimed, is. It needs valgrind, and the two programs as bench/compare.sh leaves them."""
import os
import re
import subprocess
import sys
import tempfile

SCRATCH = os.environ.get("TMPDIR", "/tmp")
RUST = os.environ.get("BASELINE_BUILD", f"{SCRATCH}/specs-baseline-{os.getuid()}") + "/target/release/bench"
OURS = os.environ.get("BENCH_ROOM", f"{SCRATCH}/specs-bench-{os.getuid()}") + "/crates/bench/out/bench"
WANTED = ("I +refs", "D1 +misses", "LLd misses", "Mispredicts")
FEW, MANY = 2, 12


def counted(program, count, runs, prefix):
    """What valgrind counts of a program that runs the workloads of a prefix so often, and the names of these."""
    with tempfile.TemporaryFile("w+") as said:
        words = ["valgrind", "--tool=cachegrind", "--cache-sim=yes", "--branch-sim=yes", "--LL=1048576,16,64", "--cachegrind-out-file=/dev/null"]
        ran = subprocess.run([*words, program, str(count), str(runs), prefix], stdout=subprocess.PIPE, stderr=said, text=True, check=True)
        said.seek(0)
        text = said.read()
    found = [re.search(rf"{it}: +([\d,]+)", text) for it in WANTED]
    if not all(found):
        raise SystemExit(f"bench/counts.py: valgrind counted nothing:\n{text}")
    return [int(it[1].replace(",", "")) for it in found], [it.split("\t")[0] for it in ran.stdout.splitlines()]


def of_prefix(program, count, prefix):
    """The counts of one run of all workloads of a prefix, and their names."""
    few, _ = counted(program, count, FEW, prefix)
    many, names = counted(program, count, MANY, prefix)
    return [(b - a) / (MANY - FEW) for a, b in zip(few, many)], names


def of_workload(program, count, name):
    """The counts of one run of a workload: those of its name as a prefix, without those of the workloads whose names are longer."""
    counts, names = of_prefix(program, count, name)
    if name not in names:
        raise SystemExit(f"bench/counts.py: {program} has no workload {name}")
    for other in names:
        if other != name and not any(other.startswith(it) for it in names if it not in (name, other)):
            counts = [a - b for a, b in zip(counts, of_prefix(program, count, other)[0])]
    return counts


def main(words):
    count = int(words.pop(0)) if words and words[0].isdigit() else 10_000
    if not words:
        raise SystemExit(__doc__)
    print("| Workload | Instructions | Ratio | Misses of the first cache | Ratio | Of the second | Ratio | Jumps foretold wrongly | Ratio |")
    print("|---|---|---|---|---|---|---|---|---|")
    for name in words:
        ours, rust = of_workload(OURS, count, name), of_workload(RUST, count, name.partition("+")[0])
        cells = [f"{a:,.0f} | {f'{a / b:.2f}' if b >= 1 else '-'}" for a, b in zip(ours, rust)]
        print(f"| {name} | {' | '.join(cells)} |", flush=True)


if __name__ == "__main__":
    main(sys.argv[1:])
