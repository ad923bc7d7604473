#!/usr/bin/env python3
"""Whether a crate cites what another crate of this repository keeps for itself: its proofs/, and its structs' fields. What others may cite stands in specs/.

    python3 tools/citations.py

A line that names `Rattle.CRATE.proofs` of another crate here is told, and the check fails. What the prover itself makes of a type, that threads may share or
send it, has no other place (`TheSendSync`). So is a private field of another crate's struct, in a file that imports the struct for clauses or proofs. Run at the
top of the repository."""
import glob
import os
import re
import sys

STRUCT = re.compile(r"pub struct (\w+)[^{;]*?\{(.*?)\n\}", re.S)
FIELD = re.compile(r"^\s*(pub )?(?:pub\([a-z]+\) )?(\w+):", re.M)
DECLARED = re.compile(r"use Rattle\.(\w+)\.specs\.declared\.[\w.]+\.\{([^}]*)\}")
CITED = re.compile(r"\bRattle\.(\w+)\.proofs\b([\w.]*)")
MADE = ".TheSendSync"


def texts(*ends):
    """The files of the crates and of the benchmark with one of these endings, each with its crate and its text."""
    places = [place for it in ends for place in (f"crates/*/**/*.{it}", f"bench/**/*.{it}.src")]
    for path in sorted(it for place in places for it in glob.glob(place, recursive=True)):
        folders = path.split(os.sep)
        if folders[2] != "out":
            with open(path, encoding="utf-8") as it:
                yield path, folders[1] if folders[0] == "crates" else "bench", it.read()


def citations():
    """The lines of proofs, definitions and sources that cite the proofs of another crate here."""
    crates = set(os.listdir("crates"))
    for path, own, text in texts("antt", "rt"):
        for number, line in enumerate(text.split("\n"), 1):
            for crate, rest in CITED.findall(line):
                if crate in crates and crate != own and not rest.endswith(MADE):
                    yield f"{path}:{number}: cites the proofs of {crate}: {line.strip()}"


def private_fields():
    """The private fields of each public struct, by crate and name."""
    found = {}
    for _, crate, text in texts("rt"):
        for name, body in STRUCT.findall(text):
            found[crate, name] = [field for is_public, field in FIELD.findall(body) if not is_public]
    return found


def fields():
    """The private fields of other crates' structs that are named where such a struct is imported."""
    known = private_fields()
    for path, own, text in texts("antt", "rt"):
        for crate, names in DECLARED.findall(text):
            for name in (it.split(" as ")[0].strip() for it in names.split(",") if crate != own):
                for field in known.get((crate, name), ()):
                    if re.search(rf"(?<!Rattle)\.{field}\b|\b{field} = ", text):
                        yield f"{path}: names the field {field} of {crate}::{name}"


if __name__ == "__main__":
    found = [*citations(), *fields()]
    print("\n".join(found) or "no crate cites the proofs of another, or a field")
    sys.exit(1 if found else 0)
