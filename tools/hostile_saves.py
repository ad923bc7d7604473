#!/usr/bin/env python3
"""Loads damaged texts of a saved list by ./specs-run, and judges the replies by the plain model of script_model.py.

    python3 tools/hostile_saves.py [--built | --unproved]

--built runs crates/specs_run_main/out/specs_run_main as it stands, as `rt ci` leaves it; --unproved runs one `rt try`, which proves nothing.

A list of two linked entities with positions is saved. Each text is loaded that comes of it by one byte replaced, dropped or doubled, or by two
neighbours swapped, and so is each of its beginnings. The model reads a text by Python's json: where it finds a list, the load has to do what the model does,
as a save shows; any other text is refused as not the form, and nobody is born. The texts of one kind of damage are loaded in one world, in which
nobody dies, so the model knows each birth.

The last line is 'N passed, M failed', of the texts, of the save, and of the registrations before each."""
import os
import subprocess
import sys

from random_scripts import TOP, judged, text_of, unproved_runs
from script_model import SAVED, World

OTHERS = '0 9 - . , : " [ ] { } x'.split(" ")
MADE = ["create", "create", "insert pos 0:1 5", "insert pos 1:1 -7", "insert link 0:1 1:1", "insert link 1:1 0:1", "label 0:1", "label 1:1", "save"]
BUILT = "crates/specs_run_main/out/specs_run_main"


class Script:
    """Cases one after another in one world: each is a name, with its lines and what they print."""

    def __init__(self):
        self.world, self.lines, self.cases = World(), [], []
        self.case("registers", [f"register {name}" for name in SAVED])

    def case(self, name, lines):
        """One case more, with its replies. Nobody dies, so one entity alone may come next."""
        replies = []
        for line in lines:
            (self.world, reply), = judged(self.world, line, f"{self.world.next_born()[0]}:1")
            replies.append(reply)
        self.lines += lines
        self.cases.append((name, lines, replies))
        return replies

    def load(self, text):
        """The load of a text, who lives then, and what is saved if anything was loaded."""
        (_, reply), = judged(self.world, f"load {text}", "")
        self.case(text, [f"load {text}", "select living"] + (["save"] if reply == "ok" else []))


def damaged(text):
    """The texts that come of one, by the kind of damage."""
    places = range(len(text))
    return {
        "replaced": [text[:k] + other + text[k + 1:] for other in OTHERS for k in places if text[k] != other],
        "dropped": [text[:k] + text[k + 1:] for k in places],
        "doubled": [text[:k] + text[k] * 2 + text[k + 1:] for k in places],
        "swapped": [text[:k] + text[k + 1] + text[k] + text[k + 2:] for k in places[:-1]],
        "cut": [text[:k] for k in places[1:]],
    }


def all_scripts():
    first = Script()
    text = first.case("the saved list", MADE)[-1]
    scripts = [first]
    for texts in damaged(text).values():
        script = Script()
        for it in texts:
            script.load(it)
        scripts.append(script)
    return scripts


def runs(scripts, how):
    """Each script with its run."""
    if how == "--unproved":
        return unproved_runs([[it] for it in scripts])
    program = os.path.join(TOP, BUILT if how == "--built" else "specs-run")
    return ((it, subprocess.run([program], input=text_of(it), capture_output=True, text=True, check=False)) for it in scripts)


def failures(script, ran):
    """The names of the cases that went otherwise than the model, with what they printed; a run that ends badly is one of them."""
    printed, found = ran.stdout.split("\n")[:-1], []
    for name, lines, replies in script.cases:
        said, printed = printed[:len(lines)], printed[len(lines):]
        if said != replies:
            found.append(f"{name}: wanted {replies}, printed {said}")
    if printed or ran.returncode or ran.stderr:
        found.append(f"{script.cases[-1][0]}: {len(printed)} replies more than lines, status {ran.returncode}, told {ran.stderr!r}")
    return found


def judged_all(runs_of_all):
    """How many cases went as the model, how many otherwise, and some of these."""
    passed = failed = 0
    faults = []
    for script, ran in runs_of_all:
        found = failures(script, ran)
        faults += found[:3]
        failed += len(found)
        passed += max(0, len(script.cases) - len(found))
    return passed, failed, faults


def main(words):
    if words not in ([], ["--built"], ["--unproved"]):
        sys.exit(__doc__)
    passed, failed, faults = judged_all(runs(all_scripts(), "".join(words)))
    print(*faults, f"{passed} passed, {failed} failed", sep="\n")
    return 0 if passed and not failed else 1


if __name__ == "__main__":
    sys.exit(main(sys.argv[1:]))
