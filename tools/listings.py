#!/usr/bin/env python3
"""Puts listings of proved code into pages: the block of code behind a line `<!-- listing FILE: NAME -->` is the item NAME of FILE (of an impl 'TRAIT for TYPE'), with its lines before it.
The block behind `<!-- file FILE -->` is the whole file, and that behind `<!-- output NAME -->` what the example NAME prints; the picture docs/orbits.svg is what `orbits` prints.
The lines that docs/SCRIPT.md shows below `./specs-run < examples/NAME.script`: are those of that script, each with its reply in examples/NAME.expected.

    python3 tools/listings.py [--check]      writes README and each page of docs/ anew; --check only says whether that would change one

A comment of another form is refused, and in README, TUTORIAL and USING each block that is no `sh` has such a comment before it.

An item begins at the first of its comment and attribute lines, and ends at the first line that is `}` or ends with `;` at its own depth.
What the examples print is crates/examples/stdout, which the gate compares with what they do."""
import glob
import os
import re
import sys

os.chdir(os.path.join(os.path.dirname(os.path.abspath(__file__)), ".."))
LISTING = re.compile(r"^<!-- listing (\S+): (.+) -->$")
FILE = re.compile(r"^<!-- file (\S+) -->$")
OUTPUT = re.compile(r"^<!-- output (\S+) -->$")
SESSION = re.compile(r"^`\./specs-run < (examples/\w+)\.script`:$")
ALL_LISTED = ("README.md", "docs/TUTORIAL.md", "docs/USING.md")
PRINTED = "crates/examples/stdout"
PICTURES = {"docs/orbits.svg": "orbits"}


def read(path):
    with open(path, encoding="utf-8") as it:
        return it.read()


def item(path, name):
    """The lines of an item of a file."""
    lines = read(path).split("\n")
    head = re.compile(rf"(pub )?(fn|struct|enum|type|trait|const) {re.escape(name)}\b|impl\b.* {re.escape(name)} {{")
    found = [k for k, line in enumerate(lines) if head.match(line)]
    if not found:
        raise SystemExit(f"{path} has no item {name}")
    first = last = found[0]
    while re.match(r"(///|#\[)", lines[first - 1]):
        first -= 1
    while not (lines[last] == "}" or re.match(r"\S.*;$", lines[last])):
        last += 1
    return lines[first : last + 1]


def output(name):
    """The lines that an example prints."""
    lines = read(PRINTED).split("\n")
    if f"== {name}" not in lines:
        raise SystemExit(f"{PRINTED} has nothing of {name}")
    rest = lines[lines.index(f"== {name}") + 1 :]
    return rest[: next((k for k, line in enumerate(rest) if line.startswith("== ") or not line), len(rest))]


def block(line):
    """The block that belongs behind a line of a page, or none."""
    if mark := LISTING.match(line):
        return ["```rust", *item(mark[1], mark[2]), "```"]
    if mark := FILE.match(line):
        return ["```", *read(mark[1]).rstrip("\n").split("\n"), "```"]
    if mark := OUTPUT.match(line):
        return ["```", *output(mark[1]), "```"]
    return None


def session(name):
    """The lines of a script, each with its reply."""
    lines, replies = (read(f"{name}.{it}").rstrip("\n").split("\n") for it in ("script", "expected"))
    if len(lines) != len(replies):
        raise SystemExit(f"{name}.script has {len(lines)} lines, and {name}.expected {len(replies)}")
    wide = max(map(len, lines)) + 3
    return [f"    {line:{wide}}{reply}" for line, reply in zip(lines, replies)]


def after_block(lines, k):
    """The place behind the block of code that begins at a place."""
    return next(j for j in range(k + 1, len(lines)) if lines[j] == "```") + 1


def made(page, text):
    """The page with its listings made anew."""
    lines, out, k = text.split("\n"), [], 0
    while k < len(lines):
        line = lines[k]
        out.append(line)
        new = block(line)
        k += 1
        if new:
            if k < len(lines) and lines[k].startswith("```"):
                k = after_block(lines, k)
            out += new
        elif mark := SESSION.match(line):
            while k < len(lines) and (not lines[k] or lines[k].startswith("    ")):
                k += 1
            out += ["", *session(mark[1]), ""]
        elif "<!--" in line:
            raise SystemExit(f"{page}: this comment is no listing, file or output: {line}")
        elif line.startswith("```"):
            if page in ALL_LISTED and line != "```sh":
                raise SystemExit(f"{page}: line {k}: no comment says of which file this block is")
            end = after_block(lines, k - 1)
            out += lines[k:end]
            k = end
    return "\n".join(out)


def main():
    pages = {page: made(page, read(page)) for page in ["README.md", *sorted(glob.glob("docs/*.md"))]}
    pages |= {picture: "\n".join(output(name)) + "\n" for picture, name in PICTURES.items()}
    changed = [page for page, new in pages.items() if not os.path.exists(page) or read(page) != new]
    if "--check" in sys.argv[1:]:
        if changed:
            print(f"listings of {', '.join(changed)} are not those of the code: python3 tools/listings.py writes them anew")
        return 1 if changed else 0
    for page in changed:
        with open(page, "w", encoding="utf-8") as it:
            it.write(pages[page])
    return 0


if __name__ == "__main__":
    sys.exit(main())
