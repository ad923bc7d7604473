#!/usr/bin/env python3
"""Takes the figures of docs/BENCHMARKS.md anew: compares the benchmark with the Rust program, with 100,000 entities and with 10,000, puts each workload's times and ratios into its row, and makes the picture.

    python3 bench/table.py [--from FOLDER] [ROUNDS=5] [NAME-PREFIX..]      NAME-PREFIX: as for bench/compare.sh, which it calls; all, where none is given

It needs what bench/compare.sh needs, and a machine on which nothing else runs: other programs make the times of both longer, and not by as much. What the comparisons printed is kept in FOLDER, where one is given, and is
taken from there where it stands there already. A row that was not measured keeps its figures, and the letter by which the page says when they were taken. Where a workload has no row, it tells so and ends with status 1: a row wants words.
Run at the top of the repository."""
import datetime
import os
import re
import subprocess
import sys

PAGE = "docs/BENCHMARKS.md"
COUNTS = (100_000, 10_000)
RUNS = {100_000: 15, 10_000: 40}
PREFIXES = ("i_", "l_atomic_create", "l_atomic_maintain", "a_", "g_", "m_", "z_", "k_", "e_", "f_", "b_", "c_", "d_", "h_", "n_", "o_", "p_",
            "j_par_heavy_seq", "j_par_heavy_t1", "j_par_heavy_t2", "j_par_heavy_t4", "j_par_light_seq", "j_par_light_t1", "j_par_light_t2", "j_par_light_t4")
COMPARED = re.compile(r"^\| (\S+) \| ([\d.]+) \| ([\d.]+) \| [\d.]+ \| (equal|DIFFER) \|$", re.M)
HEAD = ["Workload", "What one operation is", "Rust, ns", "Here, ns", "Ratio", "At 10,000", "Goal", "Taken"]
# the texts of saves are laid out otherwise
OTHER_SUMS = ("k_serialize_json",)


def compared(count, rounds, prefixes, folder):
    """The times of both programs by workload, with so many entities."""
    path = folder and f"{folder}/{count}"
    if path and os.path.isfile(path):
        with open(path, encoding="utf-8") as it:
            said = it.read()
    else:
        words = ["bash", "bench/compare.sh", str(count), str(RUNS[count]), str(rounds), *prefixes]
        said = subprocess.run(words, stdout=subprocess.PIPE, text=True, check=True).stdout
        if path:
            os.makedirs(folder, exist_ok=True)
            with open(path, "w", encoding="utf-8") as it:
                it.write(said)
    rows = COMPARED.findall(said)
    differ = [name for name, _, _, sums in rows if sums != "equal" and name not in OTHER_SUMS]
    if not rows or differ:
        raise SystemExit(f"bench/table.py: the checksums of {', '.join(differ)} differ" if differ else "bench/table.py: nothing was compared")
    return {name: (float(rust), float(ours)) for name, rust, ours, _ in rows}


def number(time):
    """A time in nanoseconds, by three digits at least."""
    return f"{time:,.0f}" if time >= 1000 else f"{time:.{2 if time < 10 else 1 if time < 100 else 0}f}"


def ratio(times):
    return f"{times[1] / times[0]:.2f}"


def machine():
    """Its processors, and the commit that was measured."""
    with open("/proc/cpuinfo", encoding="utf-8") as it:
        name = re.search(r"^model name\s*: (.*)$", it.read(), re.M)
    commit = subprocess.run(["git", "rev-parse", "--short", "HEAD"], stdout=subprocess.PIPE, text=True, check=True).stdout.strip()
    return f"{os.cpu_count()} processors ({name[1].replace('(R)', '').replace(' CPU', '') if name else 'of an unknown kind'}), commit {commit}"


def letters(lines):
    """The letters of the rows of workloads."""
    found = [it.split("|") for it in lines if it.count("|") == len(HEAD) + 1]
    return {it[-2].strip() for it in found if re.fullmatch(r"[A-Z]", it[-2].strip())}


def with_figures(line, found, letter):
    """A row of the page with the figures that were taken, if it is one of these workloads."""
    cells = [it.strip() for it in line.strip().strip("|").split("|")]
    if len(cells) != len(HEAD) or cells[0] not in found[COUNTS[0]]:
        return line, None
    times = found[COUNTS[0]][cells[0]]
    few = found[COUNTS[1]].get(cells[0])
    cells[2:6] = [number(times[0]), number(times[1]), ratio(times), ratio(few) if few else "-"]
    cells[7] = letter
    return f"| {' | '.join(cells)} |", cells[0]


def with_taken(lines, letter, rounds):
    """The page with a row that says when and where they were taken, and without the rows of letters that no workload has any more."""
    at = next(k for k, it in enumerate(lines) if it.startswith("| Taken | Day |")) + 2
    end = next(k for k in range(at, len(lines)) if not lines[k].startswith("|"))
    page = "\n".join(lines[:at] + lines[end:])
    kept = [it for it in lines[at:end] if (old := it.split("|")[1].strip()) != letter and re.search(rf"\| {old} \|$|[Tt]aken {old}\b|\bB?y {old}\b|\bsince {old}\b", page, re.M)]
    runs = " and ".join(f"{RUNS[it]} with {it:,}" for it in COUNTS)
    row = f"| {letter} | {datetime.date.today()} | {machine()}, nothing else running | best of {rounds} rounds of {runs} |"
    return [*lines[:at], *kept, row, *lines[end:]]


def main(words):
    folder = None
    if words[:1] == ["--from"]:
        folder, words = words[1], words[2:]
    rounds = int(words.pop(0)) if words and words[0].isdigit() else 5
    found = {it: compared(it, rounds, words or PREFIXES, folder) for it in COUNTS}
    with open(PAGE, encoding="utf-8") as it:
        lines = it.read().split("\n")
    used = letters(lines) | {it.split("|")[1].strip() for it in lines if re.match(r"^\| [A-Z] \| \d{4}-", it)}
    letter = next(it for it in "ABCDEFGHIJKLMNOPQRSTUVWXYZ" if it not in used)
    rows = [with_figures(it, found, letter) for it in lines]
    missing = sorted({*found[COUNTS[0]]} - {name for _, name in rows})
    with open(PAGE, "w", encoding="utf-8") as it:
        it.write("\n".join(with_taken([line for line, _ in rows], letter, rounds)))
    for it in missing:
        print(f"{PAGE} has no row for {it}: {' '.join(map(str, found[COUNTS[0]][it]))}")
    return subprocess.run(["python3", "tools/chart.py"], check=False).returncode or bool(missing)


if __name__ == "__main__":
    sys.exit(main(sys.argv[1:]))
