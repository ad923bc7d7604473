#!/usr/bin/env python3
"""Tests of tools/refusals.py, tools/refused_tests.py, tools/refused_steps.py and tools/refusable.py: what their judges let pass, and what they tell.

    python3 tools/test_refusals.py"""
import os
import re
import shutil
import subprocess
import tempfile
import types
import unittest
from unittest import mock

from refusals import LINES, REFUSED, Refuser, disagreement, read, wrong_talk
from refusable import TAKES_NONE, calls, made_by, missing, steps_in_sources
from refused_steps import THREADED, Found, Part, fault_of
from refused_tests import Test
import unproved

SAID = [("register hp", "ok"), ("create", "0:1"), ("insert hp 0:1 5", "none"), ("count hp", "1")]


def talk(said, status=0, rest="", met=4):
    return types.SimpleNamespace(said=said, status=status, rest=rest, met=met)


def judged(said, status=0, met=4):
    return wrong_talk(talk(SAID), talk(said, status, met=met))


class ScriptsAreJudged(unittest.TestCase):
    def test_a_refused_line_that_is_given_again_passes(self):
        self.assertIsNone(judged([*SAID[:2], ("insert hp 0:1 5", REFUSED), *SAID[2:]]))

    def test_a_refused_line_that_changed_something_is_told(self):
        changed = [*SAID[:2], ("insert hp 0:1 5", REFUSED), ("insert hp 0:1 5", "5"), SAID[3]]
        self.assertIn("wanted 'none', printed '5'", judged(changed))

    def test_two_refused_lines_are_told(self):
        twice = [*SAID[:2], ("insert hp 0:1 5", REFUSED), ("insert hp 0:1 5", REFUSED), *SAID[2:]]
        self.assertIn("2 lines", judged(twice))

    def test_a_run_without_a_refusal_ends_early_with_status_1(self):
        self.assertIsNone(judged(SAID[:2], 1))
        self.assertIn("no refusal", judged(SAID, 0))
        self.assertIsNone(judged(SAID, 0, 5))
        self.assertIn("no refusal", judged(SAID[:2], -6))

    def test_a_part_of_a_load_is_let_pass_and_another_is_told(self):
        saved = [(f"register {it}", "ok") for it in ("pos", "link", "id")]
        load = 'load [{"components":[[5],null],"marker":7},{"components":[[6],null],"marker":8}]'
        for count, is_right in (("0", True), ("1", True), ("2", True), ("3", False)):
            fault = disagreement([*saved, (load, REFUSED), ("count pos", count)])
            self.assertEqual(fault is None, is_right, count)

    def test_labels_of_a_refused_save_are_let_pass_and_others_are_told(self):
        begun = [("register pos", "ok"), ("register link", "ok"), ("register id", "ok"), *[("create", f"{i}:1") for i in range(3)]]
        begun += [("insert link 0:1 1:1", "none"), ("insert link 1:1 2:1", "none"), ("label 0:1", "0"), ("save-all", REFUSED)]
        for listed, is_right in (("[0]", True), ("[0, 1]", True), ("[0, 1, 2]", True), ("[0, 2]", False)):
            self.assertEqual(disagreement([*begun, ("select id", listed)]) is None, is_right, listed)

    def test_a_stopped_maintain_did_the_jobs_before_one(self):
        begun = [("register pos", "ok"), ("create", "0:1"), ("job insert pos 0:1 5", "ok"), ("job insert pos 0:1 6", "ok")]
        stopped = ("maintain 2", "deleted [] ran 1 refused 0 left 1 stopped")
        self.assertIsNone(disagreement([*begun, stopped, ("get pos 0:1", "5"), ("maintain 2", "deleted [] ran 1 refused 0 left 0")]))
        self.assertIsNotNone(disagreement([*begun, stopped, ("get pos 0:1", "none")]))

    def test_a_refused_index_leaves_the_earlier_one(self):
        begun = [("register hp", "ok"), ("create", "0:1"), ("index hp", "ok"), ("insert hp 0:1 81", "none")]
        whole = talk([*begun, ("index hp", "ok")])
        for found, is_right in (("[0]", True), ("[]", False), ("error: no index", False)):
            said = talk([*begun, ("index hp", REFUSED), ("find 81", found), ("index hp", "ok")])
            self.assertEqual(wrong_talk(whole, said) is None, is_right, found)
        self.assertIsNotNone(wrong_talk(whole, talk([*begun, ("index hp", REFUSED), ("index hp", "ok")])))


class TheScriptHasAllLines(unittest.TestCase):
    def test_each_line_of_the_document_stands_in_the_script(self):
        table = read(LINES.replace("tools/all_lines.script", "docs/SCRIPT.md")).split("## Lines")[1].split("## Refusals")[0]
        forms = [form for row in table.split("\n") if row.startswith("| `") for form in re.findall(r"`([a-z][^`]*)`", row.split("|")[1])]
        self.assertGreater(len(forms), 20)
        lines = read(LINES).split("\n")
        for form in forms:
            words = re.match(r"[a-z -]*[a-z]", form)[0]
            self.assertTrue(any(line == words or line.startswith(words + " ") for line in lines), form)


class TestsAreRefused(unittest.TestCase):
    """tools/refused_tests.py, over a stand-in for a program of tests that tells how many requests it met, and fails where some are refused."""

    def tried(self, failing, refusals=1, requests=5):
        """What is told of a test that fails where just these requests are refused."""
        folder = tempfile.mkdtemp(prefix="test-refused-")
        self.addCleanup(shutil.rmtree, folder)
        with open(f"{folder}/tests", "w", encoding="utf-8") as it:
            it.write("#!/usr/bin/env python3\nimport os, sys\nrefused = tuple(int(os.environ[it]) for it in ('REFUSED_REQUEST', 'REFUSED_TOO'))\n"
                     f"with open(os.environ['REQUESTS_FILE'], 'wb') as it:\n    it.write(({requests}).to_bytes(8, sys.byteorder))\n"
                     f"sys.exit(sys.argv[1:] != ['a_test'] or refused in {failing})\n")
        os.chmod(it.name, 0o700)
        refuser = Refuser.__new__(Refuser)
        refuser.folder, refuser.library = folder, ""
        return Test(refuser, it.name, "a_test", refusals).tried()

    def test_each_request_of_a_test_that_passes_counts(self):
        self.assertEqual(self.tried([]), (5, []))

    def test_a_request_at_which_it_fails_is_told(self):
        passed, wrong = self.tried([(3, 0)])
        self.assertEqual(passed, 4)
        self.assertIn("request 3: status 1", wrong[0])

    def test_a_second_request_is_refused_where_two_are_to_be_stood(self):
        self.assertEqual(self.tried([(2, 4)]), (5, []))
        passed, wrong = self.tried([(2, 4)], 2)
        self.assertEqual(passed, 4)
        self.assertIn("request 2 and 4", wrong[0])

    def test_one_that_fails_by_itself_or_asks_for_no_memory_is_told(self):
        self.assertIn("status 1", self.tried([(0, 0)])[1][0])
        self.assertIn("no memory", self.tried([], requests=0)[1][0])


def run(refused=("a step",), told=None, status=0, printed="one\ntwo\n"):
    """A run in which steps were refused."""
    told = [f"refused {it}" for it in refused] if told is None else told
    return types.SimpleNamespace(refused=list(refused), told=told, status=status, printed=printed)


class StepsAreJudged(unittest.TestCase):
    whole = run(())

    def test_one_refused_step_with_the_same_output_passes(self):
        self.assertIsNone(fault_of(self.whole, run()))

    def test_any_other_is_told(self):
        for other in (run(()), run(("a", "b")), run(told=["refused a step", "changed a step"]), run(status=1), run(told=["refused a step", "failed a step"])):
            self.assertIsNotNone(fault_of(self.whole, other))
        self.assertIn("printed 'three' in place of 'two'", fault_of(self.whole, run(printed="one\nthree\n")))
        self.assertIn("in place of 'nothing'", fault_of(self.whole, run(printed="one\ntwo\nthree\n")))


# a program of steps with this many requests, of which some do something else
STEPS = """#!/usr/bin/env python3
import os, sys
others, requests, lost, part = {others}, {requests}, {lost}, sys.stdin.read()

def write(path, text):
    with open(path, "a") as it:
        it.write(text)

def tell(at, count):
    return others.get((at, count), ("refused a step", requests))

print("a step: | 1", flush=True)
folder, at = os.environ.get("REFUSE_EACH"), int(os.environ["REFUSED_REQUEST"])
for n in range(1, requests + 1) if folder else []:
    write(folder + "/" + str(n) + ".out", "the end\\n")
    write(folder + "/" + str(n) + ".err", tell(n, 1)[0])
    if n != lost:
        write(folder + "/ends", " ".join([str(n), "0", str(tell(n, 1)[1]), str(len("a step: | 1\\n"))]) + "\\n")
told, met = tell(at, int(os.environ.get("REFUSED_COUNT", "0"))) if at else ("", requests)
with open(os.environ["REQUESTS_FILE"], "wb") as it:
    it.write((requests if at > requests else met).to_bytes(8, sys.byteorder))
print("the end")
print(told if at <= requests else "", end="", file=sys.stderr)
"""


class PartsAreTried(unittest.TestCase):
    """Parts over a stand-in for the program of steps, of which some requests do something else."""

    def tried(self, others="{}", requests=5, part="a", lost=0):
        """What is told of a part, where `others` has for a request, and a count in a row, what is told and how many requests are met; the end of one request may be lost."""
        folder = tempfile.mkdtemp(prefix="test-steps-")
        self.addCleanup(shutil.rmtree, folder)
        with open(f"{folder}/steps", "w", encoding="utf-8") as it:
            it.write(STEPS.format(others=others, requests=requests, lost=lost))
        os.chmod(it.name, 0o700)
        refuser = Refuser.__new__(Refuser)
        refuser.folder, refuser.library = folder, ""
        found = Found()
        found.take(Part(refuser, it.name, part), types.SimpleNamespace(map=map))
        return found

    def test_each_request_of_a_step_counts(self):
        for part in "a", THREADED:
            found = self.tried(part=part)
            self.assertEqual((found.passed, found.absorbed, found.steps, found.wrong, found.given), (5, 0, {"a step"}, [], 1))

    def test_a_request_that_a_smaller_one_makes_up_for_is_refused_with_that(self):
        found = self.tried("{(2, 1): ('', 6)}")
        self.assertEqual((found.passed, found.absorbed, found.wrong), (5, 1, []))
        found = self.tried("{(2, 1): ('', 6), (2, 2): ('', 7)}")
        self.assertEqual((found.passed, len(found.wrong)), (4, 1))

    def test_a_refusal_that_nobody_tells_is_told(self):
        found = self.tried("{(2, 1): ('', 5)}")
        self.assertEqual((found.passed, found.absorbed, len(found.wrong)), (4, 0, 1))

    def test_a_request_that_no_child_was_refused_is_told(self):
        with self.assertRaises(SystemExit) as refusal:
            self.tried(lost=3)
        self.assertIn("4 of its 5 requests were refused", str(refusal.exception))

    def test_a_part_that_is_wrong_by_itself_is_told(self):
        found = Found()
        found.take(types.SimpleNamespace(letter="a", whole=run((), ["failed a step"])), None)
        self.assertIn("part a, without a refusal", found.wrong[0])


CHILDREN = """
#include <stdio.h>
#include <stdlib.h>
#include <string.h>
#include <unistd.h>
static void say(int to, const char *text) { if (write(to, text, strlen(text)) < 0) _exit(3); }
static void *volatile kept;
int main(void)
{
    char word[2] = "";
    if (read(0, word, 1) != 1) _exit(4);
    for (int n = 1; n < 4; n++) {
        char line[32];
        kept = malloc(16 + n);
        snprintf(line, sizeof line, kept ? "%s %d\\n" : "%s %d is lost\\n", word, n);
        say(1, line);
        if (!kept) say(2, "refused\\n");
    }
    _exit(0);
}
"""


class RequestsAreRefusedInChildren(unittest.TestCase):
    """tools/refuse_memory.c, over a program in C that asks three times for memory and ends by `_exit`."""

    def test_each_request_has_a_child_that_goes_on_from_there(self):
        folder = tempfile.mkdtemp(prefix="test-children-")
        self.addCleanup(shutil.rmtree, folder)
        refuser = Refuser(folder)
        with open(f"{folder}/program.c", "w", encoding="utf-8") as it:
            it.write(CHILDREN)
        subprocess.run([refuser.compiler, "-O0", "-o", f"{folder}/program", it.name], check=True)
        part = Part(refuser, f"{folder}/program", "a")
        self.assertEqual((part.whole.printed, part.whole.met), ("a 1\na 2\na 3\n", 3))
        runs = part.forked()
        self.assertEqual([it.printed for it in runs], [part.whole.printed.replace(f"a {n}\n", f"a {n} is lost\n") for n in (1, 2, 3)])
        self.assertEqual([(it.status, it.told, it.met) for it in runs], [(0, ["refused"], 3)] * 3)


class ProgramsAreBuilt(unittest.TestCase):
    """tools/unproved.py, over stand-ins for `rt try`."""

    def built(self, rt):
        """What is built where `rt` is this script, which is given the name of the file as its standard input."""
        folder = tempfile.mkdtemp(prefix="test-unproved-")
        self.addCleanup(shutil.rmtree, folder)
        with open(f"{folder}/rt", "w", encoding="utf-8") as it:
            it.write(f"#!/bin/sh\n{rt}\n")
        os.chmod(it.name, 0o700)
        path = {"PATH": f"{folder}:{os.environ['PATH']}"}
        with mock.patch.object(unproved, "make_room", lambda room, *_: room), mock.patch.dict(os.environ, path):
            return unproved.build(f"{folder}/program", "refusals", "refusals")

    def refuses(self, rt, text):
        with self.assertRaises(SystemExit) as refusal:
            self.built(rt)
        self.assertIn(text, str(refusal.exception))

    ENDS = "echo 'run=ended status=0 runners=1 proved=no' >&2"

    def test_a_program_that_wrote_itself_is_built(self):
        self.assertTrue(os.access(self.built(f"printf '\\177ELF' >$(cat)\n{self.ENDS}"), os.X_OK))

    def test_one_that_did_not_end_or_printed_something_is_refused(self):
        self.refuses("printf '\\177ELF' >$(cat)\necho 'run=none proved=no' >&2", "run=none")
        self.refuses(f"printf '\\177ELF' >$(cat)\n{self.ENDS}\nexit 1", "is not built")
        self.refuses(f"printf '\\177ELF' >$(cat)\necho a step\n{self.ENDS}", "a step")

    def test_one_that_wrote_nothing_or_something_else_is_refused(self):
        self.refuses(self.ENDS, "it wrote itself nowhere")
        self.refuses(f"echo text >$(cat)\n{self.ENDS}", "what wrote itself is no program")


class CallsAreListed(unittest.TestCase):
    TEXT = """### enum `Loss`

- `OutOfMemory`: None is left.

### enum `Trouble`

- `Lost(Loss)`: It was lost.
- `Other`: Anything else.

### struct `Thing`

- `pub fn made(f: fn() -> Loss) -> Thing`: It is made.
- `pub fn put(&mut self) -> Result<(), Trouble>`: It is put.
- `pub fn get<F: Fn() -> Loss>(&self, f: F) -> bool`: It is got.

### fn `take`

`pub fn take(from: &Thing) -> Result<Thing, (AllocError, u8)>`

### fn `take`

`pub fn take(from: u8) -> Result<Thing, Loss>`
"""

    def test_calls_whose_result_can_say_want_of_memory_are_listed(self):
        self.assertEqual(calls(self.TEXT), ["Thing::put", "take", "take"])

    def test_a_call_in_no_refused_step_is_told(self):
        wanted = calls(self.TEXT)
        self.assertEqual(missing(wanted, {"Thing::put once", "here::take", "there::take twice"}), [])
        self.assertIn("Thing::put was refused in no step", missing(wanted, {"here::take", "there::take"}))
        self.assertIn("stands 2 times", missing(wanted, {"Thing::put", "here::take", "here::take again"})[0])
        self.assertEqual(made_by("take", {"here::take it", "Thing::take", "here::taken"}), {"here::take"})

    def test_a_call_that_is_said_to_take_none_is_told_where_it_was_refused(self):
        call = "JoinParIter::count"
        self.assertIn(call, TAKES_NONE)
        self.assertEqual(missing([call], set()), [])
        self.assertIn("was refused memory", missing([call], {f"{call} of three"})[0])

    def test_each_call_of_the_document_has_a_step(self):
        wanted, steps = calls(), steps_in_sources()
        self.assertGreater(len(wanted), 180)
        self.assertEqual([it for it in dict.fromkeys(wanted) if len(made_by(it, steps)) < wanted.count(it)], [])
        self.assertEqual([it for it in TAKES_NONE if it not in wanted], [])


if __name__ == "__main__":
    unittest.main()
