#!/usr/bin/env python3
"""Tests of the benchmark's scripts, as tools/test_tools.py is of the gate's.

    python3 tools/test_bench.py

Run at the top of the repository; it takes seconds, and ends with status 1 if a test fails."""
import os
import subprocess
import unittest

from test_tools import SOURCE, Tree

BENCH = {"args": "--check\n50\n", "stdout": "a\t01\n", "stdout.5000": "a\t02\n", "uses": "bench: low thiserror\n", "src/main.rt.src": "a\t01\n",
         "src/a/b.rt.src": "fn b() {}\n", "proofs/b/Answers.antt.src": "use it\n"}


class Benchmark(Tree):
    """The scripts of bench/, over a stand-in for `rt` whose `try` and `run` print what stands in src/main.rt, if they are called as they should be, and whose `fmt` writes a file."""

    def setUp(self):
        super().setUp()
        self.take("bench/try.sh", "bench/room.sh", "bench/prove.sh", "tools/rt_try.py")
        self.write("HANDLES", "Handles allowed: Threads, Wait.\n")
        self.write("crates.txt", "low: thiserror\nlower: low\n")
        self.write("crates/low/src/lib.rt", SOURCE)
        self.write("crates/low/out/rlib/stamp", "sum\n")
        self.write("crates/low/out/other", "")
        for path, text in BENCH.items():
            self.write(f"bench/{path}", text)
        self.write("bin/rt", "#!/bin/sh\ncase \"$*\" in\nfmt) touch src/laid.rt ;;\nlib) touch built ;;\n'run -- --check') printf 'a\\t02\\n' ;;\n"
                   "'try --seconds 3600 -- --check 50' | 'run -- --check 50') [ -f src/a/b.rt ] && cat src/main.rt ;;\n*) exit 1 ;;\nesac\n", runs=True)

    def tried(self):
        return self.run_in("bash", "bench/try.sh")

    def room(self, *words):
        return self.run_in("bash", "bench/room.sh", *words, "room")

    def text(self, path):
        with open(f"{self.top}/{path}", encoding="utf-8") as it:
            return it.read()

    def test_it_passes(self):
        ran = self.tried()
        self.accepts(ran)
        self.assertEqual(ran.stdout, "1 passed, 0 failed\n")

    def test_another_checksum(self):
        for path in ("stdout", "src/main.rt.src"):
            for text in ("a\t02\n", "a\t01\nb\t01\n", ""):
                self.write(f"bench/{path}", text)
                self.refuses(self.tried(), "0 passed, 1 failed")
                self.write(f"bench/{path}", BENCH[path])

    def test_no_checksum_at_all(self):
        self.write("bench/stdout", "")
        self.write("bench/src/main.rt.src", "")
        self.refuses(self.tried(), "has no checksum")

    def test_a_lost_file(self):
        for path in BENCH:
            if not path.startswith("proofs"):
                os.remove(f"{self.top}/bench/{path}")
                self.refuses(self.tried(), "0 passed, 1 failed")
                self.write(f"bench/{path}", BENCH[path])
        os.remove(f"{self.top}/bench/room.sh")
        self.refuses(self.tried(), "there is no room")

    def test_a_library_that_is_not_named(self):
        self.write("crates.txt", "lower: low\n")
        self.refuses(self.tried(), "there is no room")

    def test_a_run_that_fails(self):
        self.write("bin/rt", "#!/bin/sh\ncat src/main.rt\nexit 1\n", runs=True)
        self.refuses(self.tried(), "the run failed")

    def test_a_proof(self):
        self.accepts(self.run_in("bash", "bench/prove.sh", "room"))
        self.assertTrue(os.path.exists(f"{self.top}/crates/low/built"))
        for path in ("stdout", "stdout.5000"):
            self.write(f"bench/{path}", "a\t03\n")
            self.refuses(self.run_in("bash", "bench/prove.sh", "room"), "a\t03")
            self.write(f"bench/{path}", BENCH[path])

    def test_a_room(self):
        self.accepts(self.room())
        self.assertEqual(self.text("room/crates.txt"), "low: thiserror\nbench: low thiserror\n")
        self.assertEqual(self.text("room/crates/low/out/rlib/stamp"), "sum\n")
        self.assertFalse(os.path.exists(f"{self.top}/room/crates/low/out/other"))
        self.write("room/crates/bench/out/kept", "")
        self.write("room/crates/low/src/more.rt", "")
        self.write("bench/src/a/b.rt.src", "fn c() {}\n")
        self.accepts(self.room())
        self.assertEqual(self.text("room/crates/bench/src/a/b.rt"), "fn c() {}\n")
        self.assertTrue(os.path.exists(f"{self.top}/room/crates/bench/out/kept"))
        self.assertFalse(os.path.exists(f"{self.top}/room/crates/low/src/more.rt"))

    def test_edits_in_a_room(self):
        self.accepts(self.room())
        self.write("room/crates/bench/src/a/b.rt", "fn c() {}\n")
        os.remove(f"{self.top}/room/crates/bench/proofs/b/Answers.antt")
        self.refuses(self.room(), "was edited")
        self.accepts(self.room("--back"))
        self.assertEqual(self.text("bench/src/a/b.rt.src"), "fn c() {}\n")
        self.assertTrue(os.path.exists(f"{self.top}/bench/src/laid.rt.src"))
        self.assertFalse(os.path.exists(f"{self.top}/bench/proofs/b/Answers.antt.src"))
        self.assertEqual(self.text("bench/args"), BENCH["args"])
        self.accepts(self.room())

    def test_edits_in_a_room_and_in_the_repository(self):
        self.accepts(self.room())
        self.write("room/crates/bench/src/a/b.rt", "fn c() {}\n")
        self.write("bench/src/main.rt.src", "a\t02\n")
        self.refuses(self.room("--back"), "has changed since")
        self.assertEqual(self.text("bench/src/main.rt.src"), "a\t02\n")

    def compared(self, ours, *words):
        """What the comparison prints where specs in Rust, the index by hand and this repository print these lines."""
        self.take("bench/compare.sh")
        self.write("bench/twin/main.rs", "fn main() {}\n")
        self.write("rust/assemble.sh", "mkdir -p \"$1/target/release\"\nprintf '#!/bin/sh\\n[ $3 = p_ ] || printf \"a_one\\\\t4.000\\\\t01\\\\n\"\\n' >\"$1/target/release/bench\"\n"
                   "chmod +x \"$1/target/release/bench\"\n")
        self.write("bin/rustc", "#!/bin/sh\nwhile [ $# -gt 1 ]; do [ \"$1\" != -o ] || to=$2; shift; done\n"
                   "printf '#!/bin/sh\\n[ $3 = a_ ] || printf \"p_index\\\\t2.000\\\\t05\\\\n\"\\n' >\"$to\"\nchmod +x \"$to\"\n", runs=True)
        self.write("room/crates/bench/out/bench", f"#!/bin/sh\ncase $3 in\n{ours}esac\n", runs=True)
        self.write("bench/prove.sh", "exit 0\n")
        names = {"SPECS_BASELINE": f"{self.top}/rust", "BASELINE_BUILD": f"{self.top}/build", "BENCH_ROOM": f"{self.top}/room"}
        return self.run_in("env", *[f"{name}={value}" for name, value in names.items()], "bash", "bench/compare.sh", "10", "1", "2", *words)

    def test_a_comparison_with_specs_and_with_an_index_by_hand(self):
        ran = self.compared("a_) printf 'a_one\\t1.000\\t01\\n' ;;\np_) printf 'p_index\\t3.000\\t05\\n' ;;\n", "a_", "p_")
        self.accepts(ran)
        self.assertEqual(ran.stdout.split("\n")[-3:-1], ["| a_one | 4.000 | 1.000 | 0.25 | equal |", "| p_index | 2.000 | 3.000 | 1.50 | equal |"])

    def test_a_comparison_whose_checksums_differ(self):
        ran = self.compared("a_) printf 'a_one\\t1.000\\t02\\n' ;;\np_) printf 'p_index\\t1.000\\t06\\n' ;;\n")
        self.assertEqual(ran.stdout.count("DIFFER"), 2, ran.stdout)

    PAGE = ("| Taken | Day | Machine | Runs |\n|---|---|---|---|\n| A | 2026-11-22 | one | best of 8 |\n| B | 2026-11-23 | two | best of 4 |\n\n## Worlds\n\n"
            "| Workload | What one operation is | Rust, ns | Here, ns | Ratio | At 10,000 | Goal | Taken |\n|---|---|---|---|---|---|---|---|\n"
            "| a_one | a birth | 1.00 | 9.00 | 9.00 | 9.00 | 0.5 | A |\n| b_two | a join | 3.00 | 1.50 | 0.50 | 0.40 | 0.5 | B |\n")

    def table(self, few="| a_one | 2.000 | 3.000 | 1.50 | equal |\n", many="| a_one | 1234.500 | 12.340 | 0.01 | equal |\n"):
        """Puts what two comparisons printed into a page."""
        self.take("bench/table.py")
        self.write("docs/BENCHMARKS.md", self.PAGE)
        self.write("tools/chart.py", "open('made', 'w')\n")
        self.write("taken/100000", many)
        self.write("taken/10000", few)
        for git in (["init", "-q"], ["add", "-A"], ["-c", "user.name=a", "-c", "user.email=a@b", "commit", "-qm", "all"]):
            subprocess.run(["git", *git], cwd=self.top, check=True)
        return self.run_in("python3", "bench/table.py", "--from", "taken", "3")

    def test_figures_that_are_taken_anew(self):
        self.accepts(self.table())
        page = self.text("docs/BENCHMARKS.md").split("\n")
        self.assertIn("| a_one | a birth | 1,234 | 12.3 | 0.01 | 1.50 | 0.5 | C |", page)
        self.assertIn("| b_two | a join | 3.00 | 1.50 | 0.50 | 0.40 | 0.5 | B |", page)
        taken = [it for it in page if it.startswith(("| A | ", "| B | ", "| C | "))]
        self.assertEqual(len(taken), 2, taken)
        self.assertRegex(taken[1], r"^\| C \| \d{4}-\d\d-\d\d \| .*commit \w+, nothing else running \| best of 3 rounds of 15 with 100,000 and 40 with 10,000 \|$")
        self.assertTrue(os.path.exists(f"{self.top}/made"))

    def test_figures_without_a_row(self):
        self.refuses(self.table(many="| a_one | 4.000 | 1.000 | 0.25 | equal |\n| c_three | 4.000 | 1.000 | 0.25 | equal |\n"), "has no row for c_three")

    def test_figures_of_other_work(self):
        self.refuses(self.table(few="| a_one | 4.000 | 1.000 | 0.25 | DIFFER |\n"), "the checksums of a_one differ")
        self.refuses(self.table(few=""), "nothing was compared")

    def test_a_goal_that_is_missed_has_a_reason(self):
        self.take("tools/chart.py")
        rows = self.PAGE.replace("| 9.00 | 9.00 | 0.5 | A |", "| 0.70 | 0.50 | 0.7, 0.6 | A |")
        why = "\n| Workload | What the built code shows |\n|---|---|\n| `a_one`, `b_two` | as many misses |\n"
        wants = "says by no row why a goal is missed of a_one\n"
        for page, told in ((rows, ""), (rows.replace("| 0.70 | 0.50 |", "| 0.71 | 0.50 |"), wants), (rows.replace("| 0.70 | 0.50 |", "| 0.70 | 0.61 |"), wants),
                           (self.PAGE, wants), (self.PAGE + why, ""), (self.PAGE + why.replace("`a_one`, ", ""), wants),
                           (self.PAGE + why.replace("| What", "| How"), wants)):
            self.write("docs/BENCHMARKS.md", page)
            for words in ((), ("--check",)):
                ran = self.run_in("python3", "tools/chart.py", *words)
                self.assertEqual((ran.stdout.removeprefix("docs/BENCHMARKS.md "), ran.returncode), (told, 1 if told else 0))

    def test_another_folder(self):
        self.write("room/letter", "")
        self.refuses(self.room(), "has something else in it")
        self.refuses(self.room("--back"), "is no room")


if __name__ == "__main__":
    unittest.main(verbosity=0)
