#!/usr/bin/env python3
"""Makes docs/benchmarks.svg of the tables in docs/BENCHMARKS.md: for each workload the time here in proportion to that of specs in Rust, in the groups of that page.

    python3 tools/chart.py [--check]

A workload whose ratio is above its goal has to stand in marks in the page's table of reasons: those that do not are told, and the status is 1.
--check writes nothing: it fails too where the picture is not what this makes, or a row of the page has another form. Run at the top of the repository."""
import math
import re
import sys

# A workload: its name, what one operation is, the times of both, their ratio, that of 10,000 entities, the goal, and the letter of the measurement. Those of an index (p_) are no part of the picture.
ROW = re.compile(r"^\| (?!p_)[a-z]\w*(?:\+\w+)? \| ([^|]+) \| [\d.,]+ \| [\d.,]+ \| ([\d.]+) \| [^|]+ \| [^|]+ \| ([A-Z]) \|$")
# A workload, its ratio with 100,000 entities and with 10,000, and the goals of both, or of the two as one.
GOAL = re.compile(r"^\| ([a-z]\w*(?:\+\w+)?) \| [^|]+ \| [\d.,]+ \| [\d.,]+ \| ([\d.]+) \| ([\d.]+) \| ([\d.]+)(?:, ([\d.]+))? \| [A-Z] \|$")
# The head of the table of reasons, and a row of it: the workloads, then why.
REASONS = "| Workload | What the built code shows |"
REASON = re.compile(r"^\| (`[a-z][\w+]*`(?:, `[a-z][\w+]*`)*) \| ")
HEAD = re.compile(r"^\| Workload \| .* \| Rust, ns \|")
GROUP = re.compile(r"^## (.+)$")
MEASURED = re.compile(r"^\| ([A-Z]) \| (\d{4}-\d\d-\d\d) \| ([^|]*) \|")
LEFT, WIDTH, STEP, TOP = 380, 480, 18, 120
LEAST, MOST = 0.125, 8.0
FASTER, SLOWER = "#2a7f62", "#b5482f"

def groups(page):
    """The groups of the page: each its title, the days and machines of its rows, and its rows of words and ratio. A row whose time is nothing has no ratio."""
    found, taken, in_table = [], {}, False
    for line in page.split("\n"):
        in_table = line.startswith("|") and (in_table or HEAD.match(line) is not None)
        if it := GROUP.match(line):
            found.append((it[1], [], []))
        elif it := MEASURED.match(line):
            taken[it[1]] = (it[2], it[3])
        elif it := ROW.match(line):
            if it[3] not in taken:
                raise SystemExit(f"docs/BENCHMARKS.md does not say what was taken {it[3]}: {line}")
            if float(it[2]) > 0:
                found[-1][1].append(taken[it[3]])
                found[-1][2].append((it[1], float(it[2])))
        elif in_table and not HEAD.match(line) and not line.startswith("|-"):
            raise SystemExit(f"docs/BENCHMARKS.md has a row in another form: {line}")
    return [it for it in found if it[2]]


def unexplained(page):
    """The workloads that miss a goal, and of which no row says why."""
    lines = page.split("\n")
    told, among_reasons = set(), False
    for line in lines:
        among_reasons = line == REASONS or among_reasons and line.startswith("|")
        if among_reasons and (it := REASON.match(line)):
            told.update(it[1].strip("`").split("`, `"))
    rows = [it for it in map(GOAL.match, lines) if it and it[1] not in told]
    return [it[1] for it in rows if float(it[2]) > float(it[4]) or float(it[3]) > float(it[5] or it[4])]


def at(ratio):
    """Where a ratio lies on the scale, which doubles at each line."""
    return LEFT + WIDTH * math.log2(min(max(ratio, LEAST), MOST) / LEAST) / math.log2(MOST / LEAST)


def text(x, y, words, anchor="start", size=12, weight="normal", fill="black"):
    return f'<text x="{x:.1f}" y="{y:.1f}" font-size="{size}" font-weight="{weight}" text-anchor="{anchor}" fill="{fill}">{words}</text>'


def head(rows, taken):
    """Title and legend, with the day and the machine, where all was taken at once."""
    mean = math.exp(sum(math.log(it) for it in rows) / len(rows))
    slower = sum(it > 1 for it in rows)
    told = [text(12, 24, "Time here over time of specs 0.17.0 in Rust, 100,000 entities", size=15, weight="bold")]
    told.append(text(12, 44, f"Geometric mean of {len(rows)} workloads {mean:.2f}; {slower} are slower here. The scale doubles at each line."))
    when = f"Taken on {taken[0][0]}: {taken[0][1]}." if len(taken) == 1 else "Each group has the dates at which it was taken."
    told.append(text(12, 60, "The Rust side is specs' own sources over stand-ins for the crates that it rests on."))
    told.append(text(12, 76, when))
    told.append(f'<rect x="{LEFT + 60}" y="82" width="14" height="12" fill="{FASTER}"/>' + text(LEFT + 80, 92, "to the left: faster here"))
    told.append(f'<rect x="{LEFT + 300}" y="82" width="14" height="12" fill="{SLOWER}"/>' + text(LEFT + 320, 92, "to the right: slower here"))
    return told


def bar(y, words, ratio):
    """One workload, from 1.0 to the left where this repository is faster, else to the right."""
    x, one = at(ratio), at(1.0)
    told = [text(LEFT - 10, y + 13, words, "end"), f'<rect x="{min(x, one):.1f}" y="{y + 3}" width="{abs(x - one):.1f}" height="{STEP - 5}" fill="{FASTER if ratio <= 1 else SLOWER}"/>']
    told.append(text(x + 6, y + 13, f"{ratio:.2f}") if ratio > 1 else text(x - 6, y + 13, f"{ratio:.2f}", "end"))
    return told


def picture(found):
    """The bars in their groups."""
    lines = sum(len(rows) for _, _, rows in found) + 2 * len(found)
    wide, high = LEFT + WIDTH + 70, TOP + STEP * lines + 20
    told = [f'<svg xmlns="http://www.w3.org/2000/svg" width="{wide}" height="{high}" font-family="sans-serif">', f'<rect width="{wide}" height="{high}" fill="white"/>']
    all_taken = sorted({it for _, taken, _ in found for it in taken})
    told += head([ratio for _, _, rows in found for _, ratio in rows], all_taken)
    for power in range(-3, 4):
        x = at(2.0**power)
        told.append(f'<line x1="{x:.1f}" y1="{TOP - 4}" x2="{x:.1f}" y2="{high - 16}" stroke="{"#444" if power == 0 else "#ddd"}"/>')
        told.append(text(x, TOP - 10, f"{2.0**power:g}", "middle"))
    y = TOP
    for title, taken, rows in found:
        days = sorted({day for day, _ in taken})
        told.append(text(12, y + 2 * STEP - 6, title if len(all_taken) == 1 else f"{title} ({', '.join(days)})", size=13, weight="bold"))
        y += 2 * STEP
        for words, ratio in rows:
            told += bar(y, words, ratio)
            y += STEP
    return "\n".join([*told, "</svg>", ""])


def main(words):
    with open("docs/BENCHMARKS.md", encoding="utf-8") as it:
        page = it.read()
    made, lacking = picture(groups(page)), unexplained(page)
    if lacking:
        print(f"docs/BENCHMARKS.md says by no row why a goal is missed of {', '.join(lacking)}")
    if words != ["--check"]:
        with open("docs/benchmarks.svg", "w", encoding="utf-8") as it:
            it.write(made)
        return 1 if lacking else 0
    with open("docs/benchmarks.svg", encoding="utf-8") as it:
        same = it.read() == made
    if not same:
        print("docs/benchmarks.svg is not what tools/chart.py makes of docs/BENCHMARKS.md: run it again")
    return 0 if same and not lacking else 1


if __name__ == "__main__":
    sys.exit(main(sys.argv[1:]))
