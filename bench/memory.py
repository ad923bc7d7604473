#!/usr/bin/env python3
"""Measures the most memory that each program of the comparison held at any time of a workload, the Rust program and this repository's, and prints a table. What is asked
for and not touched counts too, though it takes no page of real memory.

    python3 bench/memory.py [N=100000] [NAME..]      NAME: a workload of both, or one of this repository's that does one of the others' in another way, with a plus sign; no workload's name may begin with it

It needs what bench/compare.sh needs, whose folders it takes; BASELINE_BUILD and BENCH_ROOM name them. Each workload is run once, after two runs that are not timed; each run makes all of its own and gives it up.
Run at the top of the repository."""
import os
import struct
import subprocess
import sys
import tempfile

HERE = os.path.dirname(os.path.abspath(__file__))
NAMES = ("a_create2_vec", "a_create2_dense", "b_join_vec+default", "b_join_dense", "c_join_sparse64+default", "d_join_frag8+default", "e_get_rand_hash", "k_deserialize_json", "k_serialize_json",
         "l_atomic_create_t1+phase", "m_lazy_create_maintain", "m_lazy_insert_maintain", "n_change_set", "o_drain")


def programs():
    """Both programs, as bench/compare.sh leaves them."""
    place = f"{os.environ.get('TMPDIR', '/tmp')}/specs-{{}}-{os.getuid()}"
    rust = f"{os.environ.get('BASELINE_BUILD', place.format('baseline'))}/target/release/bench"
    ours = f"{os.environ.get('BENCH_ROOM', place.format('bench'))}/crates/bench/out/bench"
    for path in (rust, ours):
        if not os.access(path, os.X_OK):
            raise SystemExit(f"bench/memory.py: there is no {path}: bench/compare.sh builds both programs")
    return rust, ours


def most_held(program, count, name, counter, folder):
    """How many bytes a program had asked for at most in a workload."""
    file = f"{folder}/most"
    ran = subprocess.run([program, str(count), "1", name], env={**os.environ, "LD_PRELOAD": counter, "MEMORY_FILE": file}, stdout=subprocess.PIPE, text=True, check=True)
    names = [it.split("\t")[0] for it in ran.stdout.split("\n") if it]
    if names != [name]:
        raise SystemExit(f"bench/memory.py: {program} ran {', '.join(names) or 'nothing'} for {name}")
    with open(file, "rb") as it:
        return struct.unpack("q", it.read())[0]


def main(words):
    count = int(words.pop(0)) if words and words[0].isdigit() else 100_000
    rust, ours = programs()
    print(f"N = {count:,}\n\n| Workload | Rust, bytes | Here, bytes | Ratio |\n|---|---|---|---|")
    with tempfile.TemporaryDirectory() as folder:
        counter = f"{folder}/count.so"
        subprocess.run(["cc", "-O2", "-shared", "-fPIC", "-o", counter, f"{HERE}/count_memory.c"], check=True)
        for name in words or NAMES:
            there, here = most_held(rust, count, name.partition("+")[0], counter, folder), most_held(ours, count, name, counter, folder)
            print(f"| {name} | {there:,} | {here:,} | {here / there:.2f} |")
    return 0


if __name__ == "__main__":
    sys.exit(main(sys.argv[1:]))
