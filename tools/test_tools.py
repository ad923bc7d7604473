#!/usr/bin/env python3
"""Tests of the gate's scripts: each of them refuses what it has to. The trees are made up, and `rt` is a stand-in that proves nothing.

    python3 tools/test_tools.py

Run at the top of the repository; it takes seconds, and ends with status 1 if a test fails."""
import json
import os
import shutil
import stat
import subprocess
import sys
import tempfile
import unittest

TOP = os.path.dirname(os.path.dirname(os.path.abspath(__file__)))
sys.path.insert(0, os.path.join(TOP, "tools"))

from contracts import is_empty, is_nothing
from verdicts import Said, stands_for, without

PASSES = "#!/bin/sh\nexit 0\n"


class Tree(unittest.TestCase):
    """A folder with some of the repository's scripts, in which a test stands."""

    def setUp(self):
        self.top = tempfile.mkdtemp(prefix="test-tools-")
        self.addCleanup(shutil.rmtree, self.top)

    def write(self, path, text, runs=False):
        path = os.path.join(self.top, path)
        os.makedirs(os.path.dirname(path), exist_ok=True)
        with open(path, "w", encoding="utf-8") as it:
            it.write(text)
        if runs:
            os.chmod(path, os.stat(path).st_mode | stat.S_IXUSR)
        return path

    def take(self, *paths):
        for path in paths:
            to = os.path.join(self.top, path)
            os.makedirs(os.path.dirname(to), exist_ok=True)
            shutil.copy2(os.path.join(TOP, path), to)

    def run_in(self, *words):
        path = f"{self.top}/bin:{os.environ['PATH']}"
        return subprocess.run(words, cwd=self.top, env={**os.environ, "PATH": path, "XDG_CACHE_HOME": f"{self.top}/cache"}, stdin=subprocess.DEVNULL,
                              stdout=subprocess.PIPE, stderr=subprocess.STDOUT, text=True, check=False)

    def refuses(self, ran, text):
        self.assertNotEqual(ran.returncode, 0, ran.stdout)
        self.assertIn(text, ran.stdout)

    def accepts(self, ran):
        self.assertEqual(ran.returncode, 0, ran.stdout)


GATE_TOOLS = ("test_tools.py", "test_bench.py", "test_refusals.py", "citations.py", "api.py", "chart.py", "listings.py", "wrong_bodies.py", "keep_libraries.py", "hostile_saves.py")


class Gate(Tree):
    """.ci/run, over scripts that pass."""

    def setUp(self):
        super().setUp()
        self.take(".ci/run")
        self.write("HANDLES", "Handles allowed: Threads, Wait.\n")
        self.write("crates/low/proofs/f/Answers.antt", "pub returns : goal.returns\nreturns c = refl\n")
        self.write("tools/check_promises.sh", PASSES)
        self.write("tools/layout.sh", PASSES)
        self.write("bench/try.sh", "echo '1 passed, 0 failed'\n")
        for name in (*GATE_TOOLS, "refusals.py"):
            self.write(f"tools/{name}", "print('3 passed, 0 failed')\n")
        self.write("specs-try", "#!/bin/sh\ncat\n", runs=True)
        for name in ("script", "expected"):
            self.write(f"examples/session.{name}", "create\n")
        self.write("tools/refused_tests.py", "")
        self.write("tools/refused_steps.py", "print('4 passed, 0 failed')\n")
        self.rt("echo '5 passed, 0 failed'")
        self.commit()

    def rt(self, body):
        self.write("bin/rt", f"#!/bin/sh\n{body}\n", runs=True)

    def commit(self):
        for words in (["init", "-q"], ["add", "-A"], ["-c", "user.name=a", "-c", "user.email=a@b", "commit", "-qm", "all"]):
            subprocess.run(["git", *words], cwd=self.top, check=True)

    def gate(self):
        return self.run_in("bash", ".ci/run")

    def test_it_adds_up(self):
        ran = self.gate()
        self.accepts(ran)
        self.assertEqual(ran.stdout.split("\n")[-2], "16 passed, 0 failed")

    def test_it_refuses_memory_to_a_built_program(self):
        self.write("crates/specs_run_main/out/specs_run_main", "#!/bin/sh\ncat\n", runs=True)
        ran = self.gate()
        self.accepts(ran)
        self.assertEqual(ran.stdout.split("\n")[-2], "19 passed, 0 failed")
        self.write("tools/refusals.py", "print('3 passed, 1 failed')\n")
        self.refuses(self.gate(), "the refusals failed")

    def test_a_session_that_is_printed_otherwise(self):
        self.write("examples/session.expected", "0:1\n")
        self.refuses(self.gate(), "the session of docs/SCRIPT.md is printed otherwise")

    def test_it_refuses_memory_to_built_tests(self):
        listing = "import sys\nif '--list' in sys.argv:\n    print('low_tests a')\nelse:\n"
        self.write("tools/refused_tests.py", f"{listing}    print('2 passed, 0 failed')\n")
        ran = self.gate()
        self.accepts(ran)
        self.assertEqual(ran.stdout.split("\n")[-2], "18 passed, 0 failed")
        self.write("tools/refused_tests.py", f"{listing}    print('2 passed, 1 failed')\n")
        self.refuses(self.gate(), "the tests with refused memory failed")
        self.write("tools/refused_tests.py", "raise SystemExit(1)\n")
        self.refuses(self.gate(), "are not listed")

    def test_no_git(self):
        shutil.rmtree(f"{self.top}/.git")
        self.refuses(self.gate(), "no folder .git")

    def test_git_that_lists_nothing(self):
        shutil.rmtree(f"{self.top}/.git")
        os.mkdir(f"{self.top}/.git")
        self.refuses(self.gate(), "git")

    def test_tracked_outputs(self):
        self.write("crates/low/out/it", "")
        self.commit()
        self.refuses(self.gate(), "files under out/ are tracked")

    def test_a_hole(self):
        for path in ("crates/low/proofs/f/Answers.antt", "bench/proofs/f/Answers.antt.src"):
            self.write(path, "returns c = ?\n")
            self.commit()
            self.refuses(self.gate(), "a hole stands in a proof")
            self.write(path, "returns c = refl\n")

    def test_another_handle(self):
        self.write("HANDLES", "Handles allowed: Net.\n")
        self.refuses(self.gate(), "HANDLES must hold one line")

    def test_failures_that_end_well(self):
        self.rt("echo '19 passed, 3 failed'")
        ran = self.gate()
        self.refuses(ran, "rt ci failed")
        self.assertEqual(ran.stdout.split("\n")[-2], "24 passed, 3 failed")

    def test_a_bad_end_of_a_good_count(self):
        self.rt("echo '19 passed, 0 failed'; exit 1")
        self.refuses(self.gate(), "24 passed, 1 failed")

    def test_no_count(self):
        self.rt("echo done")
        self.refuses(self.gate(), "rt ci gave no count")

    def test_nothing_proved(self):
        self.rt("echo '0 passed, 0 failed'")
        self.refuses(self.gate(), "rt ci failed")

    def test_a_benchmark_that_fails(self):
        self.write("bench/try.sh", "echo '0 passed, 1 failed'\nexit 1\n")
        self.refuses(self.gate(), "the benchmark failed")
        self.write("bench/try.sh", "exit 0\n")
        self.refuses(self.gate(), "the benchmark gave no count")
        os.remove(f"{self.top}/bench/try.sh")
        self.refuses(self.gate(), "the benchmark gave no count")

    def test_steps_that_fail(self):
        self.write("tools/refused_steps.py", "print('4 passed, 1 failed')\nraise SystemExit(1)\n")
        ran = self.gate()
        self.refuses(ran, "the refusals of steps failed")
        self.assertEqual(ran.stdout.split("\n")[-2], "5 passed, 1 failed")
        self.write("tools/refused_steps.py", "print('0 passed, 0 failed')\n")
        self.refuses(self.gate(), "the refusals of steps failed")
        os.remove(f"{self.top}/tools/refused_steps.py")
        self.refuses(self.gate(), "the refusals of steps gave no count")

    def test_wrong_bodies_that_fail(self):
        self.write("tools/wrong_bodies.py", "import sys\nprint('3 passed, 1 failed')\nsys.exit('--list' not in sys.argv)\n")
        ran = self.gate()
        self.refuses(ran, "the wrong bodies failed")
        self.assertEqual(ran.stdout.split("\n")[-2], "16 passed, 1 failed")

    def test_no_wrong_body_tried(self):
        self.write("tools/wrong_bodies.py", "print('0 passed, 0 failed')\n")
        self.refuses(self.gate(), "the wrong bodies failed")

    def test_each_quick_check(self):
        for name in GATE_TOOLS:
            if name != "keep_libraries.py":
                self.write(f"tools/{name}", "import sys\nsys.exit(1)\n")
                self.assertNotEqual(self.gate().returncode, 0, name)
                self.write(f"tools/{name}", "print('3 passed, 0 failed')\n")
        for name in ("check_promises.sh", "layout.sh"):
            self.write(f"tools/{name}", "exit 1\n")
            self.assertNotEqual(self.gate().returncode, 0, name)
            self.write(f"tools/{name}", PASSES)


class HostileSaves(Tree):
    """tools/hostile_saves.py, over a stand-in for the program that answers by the model itself."""

    def setUp(self):
        super().setUp()
        self.take("tools/hostile_saves.py", "tools/random_scripts.py", "tools/rooms.py", "tools/script_model.py")

    def judged_of(self, said, then=""):
        """A run over a program that says this of each reply, and does that at its end."""
        self.write("crates/specs_run_main/out/specs_run_main", "#!/usr/bin/env python3\nimport sys\n"
                   f"sys.path.insert(0, '{self.top}/tools')\nfrom random_scripts import judged\nfrom script_model import World\nworld = World()\n"
                   "for line in sys.stdin.read().split('\\n')[:-1]:\n    (world, reply), = judged(world, line, f'{world.next_born()[0]}:1')\n"
                   f"    print({said})\n{then}\n", runs=True)
        return self.run_in("python3", "tools/hostile_saves.py", "--built")

    def test_replies_of_the_model(self):
        ran = self.judged_of("reply")
        self.accepts(ran)
        self.assertRegex(ran.stdout, r"^\d{4} passed, 0 failed\n$")

    def test_a_text_that_is_taken(self):
        self.refuses(self.judged_of("'ok' if '[5[' in line else reply"), "[5[")

    def test_a_list_that_is_refused(self):
        self.refuses(self.judged_of("'error: not the form' if '[55]' in line else reply"), "[55]")

    def test_somebody_who_is_born(self):
        self.refuses(self.judged_of("'[0]' if reply == '[]' else reply"), "wanted")

    def test_a_run_that_ends_badly(self):
        self.refuses(self.judged_of("reply", "sys.exit(1)"), "status 1")
        self.refuses(self.judged_of("reply", "print('more')"), "1 replies more than lines")


SOURCE = "pub fn one() -> u32\n    ensures { result ≡ 1 }\n{\n    1\n}\n"
WRONG = "# two is not one\nfile: src/lib.rt\nfn: one\nclause: returns\nold:     1\nnew:     2\n"
CHIEF = WRONG.replace("fn: one\n", "fn: one\nalways: two for one\n")
RIGHT = "# the sum is one\nfile: src/lib.rt\nfn: one\nbeside: two\nold:     1\nnew:     0 + 1\n"


class WrongBodies(Tree):
    """tools/wrong_bodies.py, over a stand-in for `rt check` that says what a test has put down: of the body with `2`, with `0 + 1`, and with an answer taken out."""

    def setUp(self):
        super().setUp()
        self.take("tools/wrong_bodies.py", "tools/kept_trials.py", "tools/edits.py", "tools/verdicts.py")
        self.write("crates.txt", "low: thiserror\n")
        self.write("crates/low/src/lib.rt", SOURCE)
        self.write("crates/low/wrong/two.edit", WRONG)
        self.write("bin/rt", "#!/bin/sh\n[ \"$1\" = check ] || { echo rattle; exit 0; }\nnext=wrong\ngrep -q '0 + 1' src/lib.rt && next=right\n"
                   f"[ -f proofs/one/Answers.antt ] && ! grep -q 'pub returns' proofs/one/Answers.antt && next=$next-again\ncat {self.top}/said/$next\n", runs=True)

    def says(self, which, *lines):
        self.write(f"said/{which}", "".join(f"{it}\n" for it in lines))

    def tried(self, *words):
        return self.run_in("python3", "tools/wrong_bodies.py", *words)

    OPEN = "fn low::one: no proof: expected answers in ./proofs/one/Answers.antt; `search` did not prove `returns`"
    BY_HAND = "./proofs/one/Answers.antt:3:5: error: `returns`: the two types differ"

    def answer(self):
        self.write("crates/low/proofs/one/Answers.antt", "pub other : goal.other\nother c = refl\n\npub returns : goal.returns\nreturns c = refl\n")

    def test_a_clause_that_is_left_open(self):
        self.says("wrong", self.OPEN)
        ran = self.tried()
        self.accepts(ran)
        self.assertIn("1 passed, 0 failed", ran.stdout)
        self.assertIn("as kept", self.tried().stdout)

    def test_a_body_that_is_proved(self):
        self.says("wrong", "fn low::one: proved")
        self.refuses(self.tried(), "NOT REFUSED")

    def test_a_caller_of_what_is_not_proved(self):
        self.says("wrong", "fn low::one: not proved: it calls `low::two`")
        self.refuses(self.tried(), "NOT REFUSED")

    def test_another_clause_that_is_left_open(self):
        self.write("crates/low/wrong/two.edit", WRONG.replace("clause: returns", "clause: value"))
        self.says("wrong", self.OPEN.replace("`returns`", "`returns-clause-other`"))
        self.refuses(self.tried(), "NOT SHOWN: value")

    def test_each_clause_that_is_named(self):
        self.write("crates/low/wrong/two.edit", WRONG.replace("clause: returns", "clause: value\nclause: other"))
        self.says("wrong", self.OPEN.replace("`returns`", "`returns-clause-other`"))
        self.refuses(self.tried(), "NOT SHOWN: value;")
        self.says("wrong", self.OPEN.replace("`returns`", "`returns-clause-other`, `returns-clause-value`"))
        self.accepts(self.tried())

    def test_returns_for_a_promise_with_names(self):
        self.says("wrong", self.OPEN.replace("`returns`", "`returns-clause-value`"))
        self.refuses(self.tried(), "NOT SHOWN: returns")

    def test_a_name_that_is_lost(self):
        self.answer()
        self.says("wrong", "./proofs/one/Answers.antt:3:5: error: `returns`: record `c.put`", "  has no field `look`", "fn low::one: not proved")
        self.says("wrong-again", "fn low::one: proved")
        self.refuses(self.tried(), "NOT REFUSED")

    def test_an_answer_that_no_longer_fits(self):
        self.answer()
        self.says("wrong", self.BY_HAND, "fn low::one: not proved")
        self.says("wrong-again", "fn low::one: proved")
        self.refuses(self.tried(), "NOT REFUSED")
        self.says("wrong-again", self.OPEN)
        self.accepts(self.tried())

    def test_a_name_that_is_lost_in_an_invariant(self):
        self.says("wrong", "./proofs/one/Invariants.antt:3:5: error: `returns` is not in scope", "fn low::one: not proved")
        self.refuses(self.tried(), "NOT SHOWN")

    def test_a_text_that_is_not_read(self):
        self.says("wrong", "src/lib.rt:4:5: error: expected an expression")
        self.refuses(self.tried(), "NOT SHOWN: the check has no line for its function")

    def test_a_text_that_no_program_may_have(self):
        self.write("crates/low/wrong/two.edit", WRONG.replace("clause: returns", "says: there is no method `two`"))
        for said, is_shown in (("src/lib.rt:4:5: error[unknown-method]: there is no method `two`", True), ("src/lib.rt:4:5: error: there is no method `two`", False),
                               ("src/lib.rt:4:5: error[unknown-method]: another", False)):
            self.says("wrong", said)
            if is_shown:
                self.accepts(self.tried("--anew"))
            else:
                self.refuses(self.tried("--anew"), "NOT SHOWN: it does not say")

    def test_a_right_variant(self):
        self.write("crates/low/right/sum.edit", RIGHT)
        self.says("wrong", self.OPEN)
        for said in ("fn low::one: proved", "fn low::one: no proof: it calls `low::two`, which is not proved"):
            self.says("right", said)
            ran = self.tried("--anew")
            self.accepts(ran)
            self.assertIn("2 passed, 0 failed", ran.stdout)

    def test_a_right_variant_that_is_refused(self):
        self.write("crates/low/right/sum.edit", RIGHT)
        self.says("wrong", self.OPEN)
        for said in ([self.OPEN], [self.BY_HAND, "fn low::one: not proved"], ["src/lib.rt:4:5: error: expected an expression"]):
            self.says("right", *said)
            self.refuses(self.tried(), "NOT ACCEPTED")

    def test_a_right_variant_by_the_search(self):
        self.answer()
        self.write("crates/low/right/sum.edit", RIGHT)
        self.says("wrong", self.OPEN)
        self.says("right", self.BY_HAND, "fn low::one: not proved")
        self.says("right-again", "fn low::one: proved")
        self.says("wrong-again", self.OPEN)
        self.accepts(self.tried())

    def test_a_right_variant_beside_nothing(self):
        self.write("crates/low/right/sum.edit", RIGHT.replace("two", "three"))
        self.refuses(self.tried(), "three is no wrong body of its function")

    def within(self, *words, said=OPEN, records=False):
        """Runs those that a promise names, `three`, and the others, `two`, as the gate does; where it is wanted after all were tried and that was put down."""
        self.take("tools/check_promises.py", "tools/contracts.py")
        self.write("docs/PROMISES.md", "| Promise | Function | Clause | Status | Wrong body |\n|---|---|---|---|---|\n| It is one | `low::one` | - | proved | `low/three` |\n")
        self.write("crates/low/wrong/three.edit", WRONG.replace("not one", "no one"))
        self.says("wrong", said)
        if records:
            self.accepts(self.tried("--record"))
            shutil.rmtree(f"{self.top}/cache")
        self.commit()
        return self.tried("--within", *words)

    def commit(self):
        for git in (["init", "-q"], ["add", "-A"], ["-c", "user.name=a", "-c", "user.email=a@b", "commit", "-q", "--allow-empty", "-m", "all"]):
            subprocess.run(["git", *git], cwd=self.top, check=True)

    def test_all_within_the_time(self):
        ran = self.within("600")
        self.accepts(ran)
        self.assertIn("2 passed, 0 failed", ran.stdout)
        self.assertNotIn("were not tried", ran.stdout)

    def test_what_no_promise_names_where_time_is_over(self):
        ran = self.within("0")
        self.accepts(ran)
        self.assertIn("1 of 2 wrong bodies and right variants were not tried, for want of time: low/two", ran.stdout)
        self.assertIn("wrong body low/three: refused", ran.stdout)
        self.assertIn("1 passed, 0 failed", ran.stdout)

    def test_a_quarter_of_what_was_tried_as_it_stands(self):
        self.write("crates/low/wrong/two.edit", CHIEF)
        for number in range(4):
            self.write(f"crates/low/wrong/other{number}.edit", WRONG)
        for seconds, passed in (("600", 3), ("0", 1)):
            ran = self.within(seconds, records=True)
            self.accepts(ran)
            self.assertIn("wrong body low/two: refused", ran.stdout)
            self.assertIn("3 of 6 wrong bodies and right variants have their turn with another commit", ran.stdout)
            self.assertIn(f"{passed} passed, 0 failed", ran.stdout)
            shutil.rmtree(f"{self.top}/cache")

    def test_all_of_what_changed_since_it_was_tried(self):
        for number in range(4):
            self.write(f"crates/low/wrong/other{number}.edit", WRONG)
        self.accepts(self.within("600", records=True))
        for path, text in (("crates/low/src/lib.rt", f"// one\n{SOURCE}"), ("crates/low/wrong/other0.edit", WRONG.replace("2", "3")), ("crates.txt", "low: serde_json\n")):
            with open(f"{self.top}/{path}", encoding="utf-8") as it:
                was = it.read()
            self.write(path, text)
            shutil.rmtree(f"{self.top}/cache")
            self.assertIn("6 passed, 0 failed", self.within("600").stdout)
            self.write(path, was)
            shutil.rmtree(f"{self.top}/cache")
            self.assertIn("4 of 6 wrong bodies", self.within("600").stdout)

    def test_a_comment_of_an_edit_changes_nothing(self):
        self.accepts(self.within("600", records=True))
        self.write("crates/low/wrong/two.edit", CHIEF.replace("# two is", "# three is"))
        shutil.rmtree(f"{self.top}/cache")
        self.assertIn("2 passed, 0 failed", self.within("600").stdout)
        self.assertNotIn("their turn", self.within("600").stdout)

    def checks(self):
        """How many checks there were since this was asked."""
        with open(f"{self.top}/checks", encoding="utf-8") as it:
            lines = it.readlines()
        os.remove(f"{self.top}/checks")
        return len(lines)

    def test_answers_that_are_known_not_to_fit(self):
        self.answer()
        with open(f"{self.top}/bin/rt", encoding="utf-8") as it:
            self.write("bin/rt", it.read().replace("next=wrong\n", f"next=wrong\necho check >>{self.top}/checks\n"), runs=True)
        self.says("wrong-again", self.OPEN)
        self.says("wrong", self.BY_HAND, "fn low::one: not proved")
        self.accepts(self.tried("--record"))
        with open(f"{self.top}/tools/tried.txt", encoding="utf-8") as it:
            self.assertEqual(it.read().split("\n")[2:], ["low/two returns", ""])
        self.take("tools/check_promises.py", "tools/contracts.py")
        self.write("docs/PROMISES.md", "")
        self.assertEqual(self.checks(), 2)
        for source, count in ((SOURCE, 1), (f"// one\n{SOURCE}", 2)):
            self.write("crates/low/src/lib.rt", source)
            shutil.rmtree(f"{self.top}/cache")
            self.commit()
            self.assertIn("1 passed, 0 failed", self.tried("--within", "600").stdout)
            self.assertEqual(self.checks(), count)

    def test_what_failed_is_not_put_down(self):
        self.says("wrong", "fn low::one: proved")
        self.refuses(self.tried("--record"), "NOT REFUSED")
        with open(f"{self.top}/tools/tried.txt", encoding="utf-8") as it:
            self.assertNotIn("low", it.read().split("\n", 1)[1])

    def test_one_edit_is_not_put_down_alone(self):
        self.refuses(self.tried("--record", "low/two"), "Tries the wrong bodies")

    def test_those_and_a_quarter_together_where_time_is_ample(self):
        both = f"{self.OPEN}\n{self.OPEN.replace('low::one', 'low::other::one')}"
        self.write("crates/low/src/other.rt", SOURCE)
        self.write("crates/low/wrong/two.edit", WRONG.replace("src/lib.rt", "src/other.rt").replace("fn: one", "fn: other::one"))
        self.write("bin/rt", f"#!/bin/sh\n[ \"$1\" = check ] || {{ echo rattle; exit 0; }}\necho check >>{self.top}/checks\ncat {self.top}/said/wrong\n", runs=True)
        for seconds, checks in (("100", 2), ("9000", 1)):
            self.write("again", seconds)
            ran = self.within(seconds, said=both)
            self.accepts(ran)
            self.assertIn("2 passed, 0 failed", ran.stdout)
            with open(f"{self.top}/checks", encoding="utf-8") as it:
                self.assertEqual(len(it.readlines()), checks)
            os.remove(f"{self.top}/checks")
            shutil.rmtree(f"{self.top}/cache")

    def test_another_quarter_with_another_commit(self):
        for number in range(8):
            self.write(f"crates/low/wrong/other{number}.edit", WRONG)
        drawn = set()
        for text in "abcdefgh":
            self.write("again", text)
            drawn.add(frozenset(it for it in self.within("600", records=True).stdout.split("\n") if it.startswith("wrong body")))
            shutil.rmtree(f"{self.top}/cache")
        self.assertGreater(len(drawn), 1)

    def test_what_a_promise_names_where_time_is_over(self):
        self.refuses(self.within("0", said="fn low::one: proved"), "three: NOT REFUSED")

    def test_a_time_that_is_none(self):
        self.refuses(self.within("low"), "Tries the wrong bodies")

    def test_no_wrong_body(self):
        os.remove(f"{self.top}/crates/low/wrong/two.edit")
        self.refuses(self.tried(), "there is no wrong body")

    def test_another_suffix(self):
        os.rename(f"{self.top}/crates/low/wrong/two.edit", f"{self.top}/crates/low/wrong/two.edits")
        self.write("crates/low/wrong/three.edit", WRONG)
        self.refuses(self.tried("--list"), "two.edits")

    def test_a_name_of_nothing(self):
        self.refuses(self.tried("low/three"), "low/three: there is no such crate or edit")

    def test_edits_that_do_not_hold(self):
        for new, why in ((WRONG.replace("old:     1", "old:     3"), "its old text stands 0 times"), (WRONG.replace("clause: returns\n", ""), "a wrong body has lines"),
                         (WRONG.replace("returns", "invariant_of"), "is no name of a clause"), (WRONG.replace("clause:", "claus:"), "a line is none of"),
                         (WRONG.replace("src/lib.rt", "proofs/one/Answers.antt"), "is no code"), (WRONG.replace("new:     2", "new:     1"), "it changes nothing"), (WRONG.replace("# two is not one\n", ""), "its first line is no comment")):
            self.write("crates/low/wrong/two.edit", new)
            self.refuses(self.tried("--list"), why)


class Refusals(unittest.TestCase):
    """What a goal's name stands for."""

    def test_clauses(self):
        for clause, goal in (("room", "returns-in-Ok-clause-room"), ("returns", "returns"), ("returns", "returns-then-f"), ("returns-then-f", "returns-then-f-2"),
                             ("f-requires", "f-requires-clause-end"), ("invariant_of-self", "invariant_of-self-else-f"), ("value", "returns-clause-value-left")):
            self.assertTrue(stands_for(clause, goal), (clause, goal))
        for clause, goal in (("room", "f-requires-clause-room"), ("returns", "returns-clause-room"), ("room", "returns-clause-had_room"), ("returns-then-f", "returns-then-f-clause-was"),
                             ("room", "returns-room"), ("clause", "returns-clause-room")):
            self.assertFalse(stands_for(clause, goal), (clause, goal))

    def test_goals_of_the_function_alone(self):
        text = ("note: src/a.rt:1:2: it is not proved that it holds (`returns-clause-theirs`)\nfn low::two: not proved\n"
                "note: src/a.rt:1:2: it is not proved that it holds (`returns-clause-own`); `search` gave up\nfn low::one: not proved\n")
        self.assertEqual(Said(text, "low", "one").open, ["returns-clause-own"])
        self.assertEqual(Said("fn low::one: no proof: `search` did not prove `a`; it calls `low::two`\n", "low", "one").open, ["a"])

    def test_answers_out(self):
        text = "use it\n\npub a : goal.a\na c = refl\n\npub ab : goal.ab\nab c = refl\n"
        self.assertEqual(without(text, {"a"}), "use it\n\npub ab : goal.ab\nab c = refl\n")

    def test_an_answer_below_a_comment_is_taken_out(self):
        text = "use it\n\n-- why\npub a : goal.a\na c = refl\n\npub b : goal.b\nb c = refl\n"
        self.assertEqual(without(text, {"a"}), "use it\n\npub b : goal.b\nb c = refl\n")

    def test_what_an_answer_rests_on_is_taken_out(self):
        text = "use it\n\n-- why\na : goal.In\na c = refl\n\npub b : goal.b\nb c = a c\n"
        self.assertEqual(without(text, {"a"}), "use it\n\npub b : goal.b\nb c = a c\n")


ROW = "| It is one | `low::one` | - | proved | `low/two` |\n"
PAGE = "# Promises\n\n| Promise | Function | Clause | Status | Wrong body |\n|---|---|---|---|---|\n"


class Promises(Tree):
    """tools/check_promises.py."""

    def setUp(self):
        super().setUp()
        self.take("tools/check_promises.py", "tools/contracts.py", "tools/edits.py")
        self.write("crates/low/src/lib.rt", SOURCE + "pub fn none()\n    ensures a { Unit {0} }\n    ensures b { AllRead }\n    ensures c { 1 ≡ 1 }\n{\n}\nimpl Two for One {\n    ghost gives = { Pairs };\n    ghost takes = { Unit };\n}\n")
        self.write("crates/low/specs/Reads.antt", "abbrev pub AllRead : Type 0\nAllRead = ⊤\n")
        self.write("crates/low/wrong/two.edit", WRONG)

    def check(self, row, *words):
        self.write("docs/PROMISES.md", PAGE + row)
        return self.run_in("python3", "tools/check_promises.py", *words)

    def test_rows_that_hold(self):
        for row in (ROW, ROW.replace("`low/two`", "-"), ROW.replace("`low/two`", "through `low/two`"), "| Later | - | - | not promised | - |\n",
                    "| Two | `Two for low::One` | - | proved | - |\n", "| Two | `Two for low::One` | `gives` | proved | - |\n"):
            self.accepts(self.check(row))

    def test_rows_that_do_not(self):
        for row, why in (("", "has no row"), (ROW.replace("one |", "one | or two |"), "cells"), (ROW.replace("| `low/two` ", ""), "cells"), (ROW[2:], "cells"),
                         (ROW.replace("proved", "Proved"), "its status is none of"), (ROW.replace("`low::one`", "-"), "it names no function"),
                         (ROW.replace("::one", "::two"), "no public function"), (ROW.replace("| - |", "| `value` |"), "no clause value"),
                         ("| It | `low::none` | `a` | proved | - |\n", "says nothing"), ("| It | `low::none` | `b` | proved | - |\n", "says nothing"),
                         ("| It | `low::none` | `c` | proved | - |\n", "says nothing"), (ROW.replace("low/two", "low/three"), "there is no wrong body"),
                         ("| Two | `Three for low::One` | - | proved | - |\n", "there is no impl"), ("| Two | `Two for low::One` | `takes` | proved | - |\n", "says nothing"),
                         ("| It | `low::none` | `a` | tested | `low/two` |\n", "does not name")):
            self.refuses(self.check(row), why)

    def test_rows_without_a_wrong_body(self):
        ran = self.check(ROW.replace("`low/two`", "none yet"), "--without")
        self.accepts(ran)
        self.assertIn("low::one", ran.stdout)

    def test_clauses_that_say_nothing(self):
        for clause in ("", "Unit", "⊤", "Unit {0}", "λ x. Unit {0}", "a ≡ a"):
            self.assertTrue(is_nothing(clause), clause)
        self.assertFalse(is_empty("MatchOption result (Unit {0}) (λ x. x ≡ e)"))


class Citations(Tree):
    """tools/citations.py."""

    def check(self, line):
        self.take("tools/citations.py")
        self.write("crates/low/proofs/Sums.antt", "pub sum_is : 1 ≡ 1\nsum_is = refl\n")
        self.write("crates/high/specs/Words.antt", f"use Rattle.std.proofs.Common.{{refl}}\n{line}\n")
        return self.run_in("python3", "tools/citations.py")

    def test_words_and_own_proofs(self):
        for line in ("use Rattle.low.specs.Sums.{sum_is}", "use Rattle.high.proofs.Sums.{sum_is}", "use Rattle.low.proofs.board.Board.TheSendSync as board", "use Rattle.json.proofs.Sums.{sum_is}"):
            self.accepts(self.check(line))

    def test_the_proofs_of_another(self):
        for line in ("use Rattle.low.proofs.Sums.{sum_is}", "use Rattle.low.proofs.Sums as sums", "use Rattle.low.proofs.TheSendSync.Sums.{sum_is}"):
            self.refuses(self.check(line), "crates/high/specs/Words.antt:2: cites the proofs of low")

    def test_a_field_of_anothers_struct(self):
        self.write("crates/low/src/lib.rt", "/// A place.\npub struct Spot {\n    /// Where: not told.\n    at: u32,\n    /// What.\n    pub name: u32,\n}\n")
        declared = "use Rattle.low.specs.declared.Spot.{Spot}\n"
        for line in ("abbrev pub here : Spot → ℕ\nhere s = s.at", "here = record { at = 0; name = 1 }"):
            self.refuses(self.check(declared + line), "crates/high/specs/Words.antt: names the field at of low::Spot")
        for line in ("here s = s.name", "use Rattle.at.specs.Sums.{sum_is}"):
            self.accepts(self.check(declared + line))


class Listings(Tree):
    """tools/listings.py."""

    def setUp(self):
        super().setUp()
        self.take("tools/listings.py")
        self.write("src/a.rt", "fn one() {\n}\n")
        self.write("crates/examples/stdout", "== orbits\n<svg/>\n")
        self.write("docs/orbits.svg", "<svg/>\n")
        self.write("examples/a.script", "create\nalive 0:1\n")
        self.write("examples/a.expected", "0:1\ntrue\n")
        self.write("docs/SCRIPT.md", "`./specs-run < examples/a.script`:\n\n    create      0:1\n    alive 0:1   true\n\nEnd.\n")
        self.write("README.md", "<!-- listing src/a.rt: one -->\n```rust\nfn one() {\n}\n```\n")
        self.page("<!-- listing src/a.rt: one -->")

    def page(self, mark):
        self.write("docs/USING.md", f"{mark}\n```rust\nfn one() {{\n}}\n```\n")

    def check(self):
        return self.run_in("python3", "tools/listings.py", "--check")

    def test_it_holds(self):
        self.accepts(self.check())

    def test_a_marker_misspelt(self):
        for mark in ("<!-- listed src/a.rt: one -->", "<!--listing src/a.rt: one -->", "listing src/a.rt: one"):
            self.page(mark)
            self.assertNotEqual(self.check().returncode, 0, mark)

    def test_another_listing(self):
        self.write("src/a.rt", "fn one() {\n    two()\n}\n")
        self.refuses(self.check(), "docs/USING.md")

    def test_another_listing_in_the_readme(self):
        self.write("README.md", "<!-- listing src/a.rt: one -->\n```rust\nfn two() {\n}\n```\n")
        self.refuses(self.check(), "README.md")

    def test_code_in_the_readme_of_no_file(self):
        self.write("README.md", "```rust\nfn two() {\n}\n```\n")
        self.refuses(self.check(), "README.md")

    def test_another_session(self):
        self.write("examples/a.expected", "0:1\nfalse\n")
        self.refuses(self.check(), "docs/SCRIPT.md")
        self.write("examples/a.expected", "0:1\n")
        self.refuses(self.check(), "lines")


class Program(Tree):
    """specs-run, over a stand-in for `rt` that writes a program which tells how often one was built."""

    def setUp(self):
        super().setUp()
        self.take("specs-run", "tools/sources.sh")
        self.write("crates.txt", "low: thiserror\nspecs_run_main: low\n")
        self.write("crates/low/src/lib.rt", "fn low() {}\n")
        self.write("crates/low/src/more.rt", "fn more() {}\n")
        self.write("crates/low/proofs/f/Answers.antt", "use it\n")
        self.write("crates/specs_run_main/src/main.rt", "fn main() {}\n")
        self.write("bin/rt", "#!/bin/sh\n[ \"$1\" = run ] || exit 0\nmkdir -p out\necho built >>out/builds\n"
                   "printf '#!/bin/sh\\necho \"builds: $(grep -c . %s/out/builds)\"\\n' \"$PWD\" >out/specs_run_main\nchmod +x out/specs_run_main\n", runs=True)

    def builds(self, count):
        ran = self.run_in("./specs-run")
        self.accepts(ran)
        self.assertIn(f"builds: {count}", ran.stdout)

    def test_it_builds_once(self):
        self.builds(1)
        self.builds(1)

    def test_it_builds_after_each_change(self):
        self.builds(1)
        os.remove(f"{self.top}/crates/low/src/more.rt")
        self.builds(2)
        os.remove(f"{self.top}/crates/low/proofs/f/Answers.antt")
        self.builds(3)
        self.write("crates.txt", "low: thiserror json\nspecs_run_main: low\n")
        self.builds(4)
        # a change that is older than the program, as `cp -a` leaves it
        path = self.write("crates/low/src/lib.rt", "fn other() {}\n")
        os.utime(path, (0, 0))
        self.builds(5)
        os.rename(path, path.replace("lib", "library"))
        self.builds(6)

    def test_a_build_that_fails(self):
        self.write("bin/rt", "#!/bin/sh\nexit 1\n", runs=True)
        self.refuses(self.run_in("./specs-run"), "was not built")


class Rooms(Tree):
    """tools/rooms.py, over a tree in which the crate `high` hands on what `low` and `left` have, and `top` what `high` hands on."""

    def setUp(self):
        super().setUp()
        self.take("tools/rooms.py")
        self.write("crates.txt", "low:\nleft: low\nhigh: low left thiserror # both\ntop: high\n")
        self.write("crates/low/src/lib.rt", "pub struct Low;\n")
        self.write("crates/low/specs/Lib.antt", "pub mod Low\n")
        self.write("crates/left/src/lib.rt", "mod part;\n\npub use part::Part;\n")
        self.write("crates/high/src/lib.rt", "mod own;\n\npub use left::Part;\npub use low::Low;\npub use own::Own;\n")
        self.write("crates/top/src/lib.rt", "mod more;\n\npub use high::Low;\npub use high::Own;\npub use high::Part;\n")
        self.write("crates/top/src/more.rt", "use high::Part;\n")
        self.write("program/main.rt.src", "fn main() {}\n")

    def room(self, without):
        """What stands in each file of a room."""
        made = f"make_room('room', 'program', ['top', 'anyhow'], {{'main.rt': 'program/main.rt.src'}}, {without})"
        self.accepts(self.run_in("python3", "-c", f"import sys\nsys.path.insert(0, 'tools')\nfrom rooms import make_room\n{made}"))
        found = {}
        for at, _, names in os.walk(f"{self.top}/room"):
            for name in names:
                with open(f"{at}/{name}", encoding="utf-8") as it:
                    found[os.path.relpath(it.name, f"{self.top}/room")] = it.read()
        return found

    def test_the_sources_are_copied_as_they_stand(self):
        room = self.room([])
        self.assertEqual(room.pop("crates/program/src/main.rt"), "fn main() {}\n")
        self.assertEqual(room.pop("crates.txt").split("\n")[2:], ["high: low left thiserror", "top: high", "program: top anyhow", ""])
        for path, text in room.items():
            with open(f"{self.top}/{path}", encoding="utf-8") as it:
                self.assertEqual(text, it.read(), path)
        self.assertNotIn("crates/low/specs/Lib.antt", room)

    def test_a_crate_that_is_left_out(self):
        room = self.room(["left"])
        self.assertNotIn("crates/left/src/lib.rt", room)
        self.assertEqual(room["crates.txt"], "low: \nhigh: low thiserror\ntop: high\nprogram: top anyhow\n")
        self.assertEqual(room["crates/high/src/lib.rt"], "mod own;\n\npub use low::Low;\npub use own::Own;\n")
        self.assertEqual(room["crates/top/src/lib.rt"], "mod more;\n\npub use high::Low;\npub use high::Own;\n")
        self.assertEqual(room["crates/top/src/more.rt"], "use high::Part;\n")


class Tried(Tree):
    """specs-try, over a stand-in for tools/unproved.py that makes a program which prints its script, and ends with the status that this begins with."""

    BUILDS = """import os, sys
with open("builds", "a") as it:
    it.write("built\\n")
with open(sys.argv[1], "w") as it:
    it.write("#!/bin/sh\\nread status\\ncat\\nexit $status\\n")
os.chmod(sys.argv[1], 0o700)
"""

    def setUp(self):
        super().setUp()
        self.take("specs-try", "tools/rooms.py", "tools/sources.sh")
        self.write("crates.txt", "specs_run_main:\n")
        self.write("crates/specs_run_main/src/main.rt", "fn main() {}\n")
        self.write("tools/script/uses", "specs_run\n")
        self.write("tools/script/without", "joins\n")
        self.write("tools/script/src/main.rt.src", "fn main() {}\n")
        self.write("tools/unproved.py", self.BUILDS)
        self.write("bin/rt", "#!/bin/sh\n", runs=True)
        self.write("one.script", "0\ncreate\n")
        self.write("two.script", "2\nbirth\n")

    def builds(self):
        with open(f"{self.top}/builds", encoding="utf-8") as it:
            return len(it.readlines())

    def test_it_runs_each_script_and_tells_the_status(self):
        ran = self.run_in("./specs-try", "one.script")
        self.accepts(ran)
        self.assertIn("== one.script\ncreate\n", ran.stdout)
        ran = self.run_in("./specs-try", "one.script", "two.script", "one.script")
        self.assertEqual(ran.returncode, 2)
        self.assertIn("== one.script\ncreate\n== two.script\nbirth\n", ran.stdout)
        self.assertTrue(ran.stdout.endswith("== one.script\ncreate\n"), ran.stdout)

    def test_it_builds_after_a_change_alone(self):
        for _ in range(2):
            self.accepts(self.run_in("./specs-try", "one.script"))
        self.assertEqual(self.builds(), 1)
        self.write("crates/specs_run_main/src/main.rt", "fn main() { other() }\n")
        self.accepts(self.run_in("./specs-try", "one.script"))
        self.write("tools/script/src/main.rt.src", "fn main() { other() }\n")
        self.accepts(self.run_in("./specs-try", "one.script"))
        self.write("tools/script/without", "joins joins_parallel\n")
        self.accepts(self.run_in("./specs-try", "one.script"))
        self.assertEqual(self.builds(), 4)

    def test_a_build_that_fails_is_no_program(self):
        self.write("tools/unproved.py", "import sys\nsys.exit('it is not built')\n")
        for _ in range(2):
            self.refuses(self.run_in("./specs-try", "one.script"), "it is not built")


TRIES = """import sys
import rtlib
def main(words):
    print("looked for names by", rtlib.RATTLE, "before", *words)
    return 4
if __name__ == "__main__":
    print("by itself:", *sys.argv[1:])
"""
LOOKS = """RATTLE = "/kit/rattle"
class Crate:
    def try_unproved(self): return RATTLE
"""


class TriedWithoutNames(Tree):
    """tools/rt_try.py, over a stand-in for the kit."""

    def setUp(self):
        super().setUp()
        self.take("tools/rt_try.py")
        self.write("bin/rt", f"#!{sys.executable}\n{TRIES}", runs=True)
        self.write("bin/rtlib.py", LOOKS)

    def ran(self):
        return self.run_in("python3", "tools/rt_try.py", "--steps", "1")

    def test_a_try_whose_second_process_ends_at_once(self):
        self.assertEqual((self.ran().stdout, self.ran().returncode), ("looked for names by true before try --steps 1\n", 4))

    def test_a_kit_of_another_form_is_called_as_it_is(self):
        for text in ("", 'RATTLE = ""\nclass Crate: pass\n', LOOKS.replace("return RATTLE", "return 1")):
            self.write("bin/rtlib.py", text)
            self.assertEqual(self.ran().stdout, "by itself: try --steps 1\n")
        os.remove(f"{self.top}/bin/rtlib.py")
        self.write("bin/rt", "#!/bin/sh\necho by itself: $*\n", runs=True)
        self.assertEqual(self.ran().stdout, "by itself: try --steps 1\n")


KIT = """import hashlib, os
def root_above(folder): return folder
class Crate:
    def __init__(self, folder, root, known): self.folder = folder
    def stamp(self): return hashlib.sha256(open(f"{self.folder}/src/lib.rt", "rb").read()).hexdigest()
"""


class KeptLibraries(Tree):
    """tools/keep_libraries.py, over a stand-in for the kit."""

    def setUp(self):
        super().setUp()
        self.take("tools/keep_libraries.py")
        os.mkdir(f"{self.top}/.git")
        self.write("crates.txt", "low:\nhigh: low\n")
        self.write("crates/low/src/lib.rt", SOURCE)
        self.write("crates/high/src/lib.rt", SOURCE)
        self.write("bin/rt", PASSES, runs=True)
        self.write("bin/rtlib.py", KIT)

    def keep(self, *words):
        return self.run_in("python3", "tools/keep_libraries.py", *words)

    def build(self, name="low"):
        self.write(f"crates/{name}/out/rlib/{name}.rlib/format", "built\n")

    def is_stamped(self, name="low"):
        return os.path.exists(f"{self.top}/crates/{name}/out/rlib/stamp")

    def test_what_stands_on_what_was_built(self):
        self.keep("--begin")
        self.build()
        self.build("high")
        self.keep()
        self.assertTrue(self.is_stamped("high"))

    def test_what_stands_on_what_has_the_stamp_of_other_sources(self):
        self.keep("--begin")
        self.build()
        self.write("crates/low/out/rlib/stamp", "other sources")
        self.build("high")
        self.keep()
        self.assertFalse(self.is_stamped("high"))

    def test_what_was_kept_of_an_earlier_run_and_put_there(self):
        self.keep("--begin")
        for name in "low", "high":
            self.build(name)
            os.utime(f"{self.top}/crates/{name}/out/rlib/{name}.rlib/format", (0, 0))
        self.keep()
        self.assertTrue(self.is_stamped("low") and self.is_stamped("high"))

    def test_what_was_built_of_these_sources(self):
        self.keep("--begin")
        self.build()
        self.keep()
        self.assertTrue(self.is_stamped())

    def test_what_stood_before(self):
        self.build()
        self.write(".git/rt-aside/low/rlib/low.rlib/format", "older\n")
        self.keep("--begin")
        self.assertFalse(os.path.exists(f"{self.top}/crates/low/out/rlib"))
        self.assertFalse(os.path.exists(f"{self.top}/.git/rt-aside/low/rlib"))

    def test_what_is_older_than_the_run(self):
        self.keep("--begin")
        self.build()
        record = f"{self.top}/.git/libraries-begun.json"
        with open(record, encoding="utf-8") as it:
            begun = json.load(it)
        with open(record, "w", encoding="utf-8") as it:
            json.dump({**begun, "time": begun["time"] + 10**12}, it)
        self.keep()
        self.assertFalse(self.is_stamped())

    def test_sources_that_changed_meanwhile(self):
        self.keep("--begin")
        self.build()
        self.write("crates/low/src/lib.rt", "fn other() {}\n")
        self.keep()
        self.assertFalse(self.is_stamped())

    def test_a_run_that_was_not_begun(self):
        self.build()
        self.keep()
        self.assertFalse(self.is_stamped())

    def test_a_kit_of_another_form(self):
        self.write("bin/rtlib.py", "")
        self.keep("--begin")
        self.build()
        self.keep()
        self.assertFalse(self.is_stamped())


if __name__ == "__main__":
    unittest.main(verbosity=0)
