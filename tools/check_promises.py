#!/usr/bin/env python3
"""Looks up each row of docs/PROMISES.md in the sources.

    python3 tools/check_promises.py [--without]      --without lists the rows of chief promises that have no wrong body

A row is  | promise | function | clause | status | wrong body |.  The function is `crate::Type::function`, where the path may lack the type, or have a module in its place, and the type may
be a trait; or `Trait for crate::Type`, an `impl` block. The clause is the name of an `ensures`, or of a ghost member that the `impl` gives; `-` stands for the one `ensures` of a function that has no
other, and for an `impl` as a whole. The status is one of those below; of a row that is not promised function and clause are `-`.
The wrong body is `-`, or, of a chief promise, the edit `crate/NAME` in which the prover refuses this clause of this function: `through crate/NAME` where it
is an edit of another function, on which this one rests, or of this one where all its clauses are one goal, and `none yet` where there is none.

Run at the top of the repository; it prints each row that does not hold, and ends with status 1 if there is one."""
import glob
import os
import sys

from contracts import impls, in_file, is_empty
from edits import edits_of

PAGE = "docs/PROMISES.md"
HEAD = ["Promise", "Function", "Clause", "Status", "Wrong body"]
STATUSES = ("proved", "tested", "not promised", "by the check that every function is safe and returns")


def found_functions(where):
    """The public functions of a path."""
    crate, *owner, name = where.split("::")
    module = owner.pop() if owner and owner[-1].islower() else "*"
    here = []
    for path in sorted(glob.glob(f"crates/{crate}/src/**/{module}.rt", recursive=True)):
        for f in in_file(path):
            names = [it.removeprefix("trait ") for it in f.owners]
            # a program has no public function
            is_public = f.public or os.path.isfile(f"crates/{crate}/src/main.rt")
            if len(owner) < 2 and f.name == name and is_public and (owner[0] in names if owner else not names):
                here.append(f)
    return here


def fault_of_impl(where, clause):
    """What is wrong with a row of an `impl`, if anything is."""
    trait, _, of = where.partition(" for ")
    crate, _, type_name = of.partition("::")
    ghosts = impls(crate).get((trait, type_name))
    if ghosts is None:
        return f"there is no impl {where}"
    if clause != "-" and (clause not in ghosts or is_empty(ghosts[clause])):
        return f"{where} gives no {clause}, or one that says nothing"
    return None


def fault_of_clause(where, clause):
    """What is wrong with what is proved of a row, if anything is."""
    if " for " in where:
        return fault_of_impl(where, clause)
    here = found_functions(where)
    if not here:
        return f"there is no public function {where}"
    if clause == "-":
        named = [f.ensures[""] for f in here if list(f.ensures) == [""]]
    else:
        named = [f.ensures[clause] for f in here if clause in f.ensures]
    if not named:
        return f"{where} has not just one clause" if clause == "-" else f"{where} has no clause {clause}"
    return f"the clause {clause} of {where} says nothing" if any(is_empty(it) for it in named) else None


def fault_of_edit(where, clause, cell, edits):
    """What is wrong with the wrong body of a row, if anything is."""
    name = cell.removeprefix("through ")
    edit = edits.get(name)
    if edit is None or edit.is_right:
        return f"there is no wrong body {name}"
    if cell != name:
        return None
    is_named = clause in edit.clauses if clause != "-" else any(it.split("-")[0] == "returns" for it in edit.clauses)
    if not is_named or edit.function.split("::")[-1] != where.split("::")[-1]:
        return f"the wrong body {name} does not name {clause} of {where}"
    return None


def fault_of(cells, edits):
    """What is wrong with a row, if anything is."""
    promise, where, clause, status, edit = cells
    if not promise or status not in STATUSES:
        return f"its status is none of {', '.join(STATUSES)}: {status}" if promise else "it has no promise"
    if status == "not promised":
        return None if (where, clause, edit) == ("-", "-", "-") else "what is not promised has a function, a clause or a wrong body"
    if where in ("-", ""):
        return "it names no function, and no impl"
    why = fault_of_clause(where, clause) if status == "proved" else None if found_functions(where) else f"there is no public function {where}"
    if not why and edit not in ("-", "none yet"):
        why = fault_of_edit(where, clause, edit, edits)
    return why


def rows():
    """The cells of each line that begins as a row of a table, with its number."""
    with open(PAGE, encoding="utf-8") as page:
        for number, line in enumerate(page, 1):
            if line.lstrip().startswith("|") or line.count("|") > 1:
                yield number, [cell.strip().replace("`", "") for cell in line.strip().split("|")]


def main(words):
    found, _ = edits_of()
    edits = {it.name: it for them in found.values() for it in them}
    count, faults, without = 0, [], []
    for number, (first, *cells, last) in rows():
        if cells == HEAD or all(it and not it.strip("-") for it in cells) and len(cells) == len(HEAD) and len(cells[0]) > 1:
            continue
        count += 1
        why = f"it has {len(cells)} cells, and not {len(HEAD)}" if len(cells) != len(HEAD) or first or last else fault_of(cells, edits)
        if why:
            faults.append(f"{PAGE}:{number}: {why}")
        elif cells[4] == "none yet":
            without.append(f"{PAGE}:{number}: {cells[1]}: {cells[2]}: {cells[0]}")
    if count == 0:
        faults.append(f"{PAGE} has no row")
    for it in [*faults, *(without if "--without" in words else [])]:
        print(it)
    return 1 if faults else 0


if __name__ == "__main__":
    sys.exit(main(sys.argv[1:]))
