#!/usr/bin/env python3
"""Runs built tests while requests for memory are refused. Each of them has to pass whatever is refused.

    python3 tools/refused_tests.py [--list]

Of the tests named in TESTS, each request of a run is refused in turn, by tools/refuse_memory.c; of those that are to stand two refusals, each request and
one of the next NEAR after it. The tests are run as `rt ci` built them, in crates/NAME/out/NAME_tests; --list prints those that are there.

It prints what was wrong, if anything was, how many requests of each test were refused, and last 'N passed, M failed', of the requests."""
import concurrent.futures
import os
import subprocess
import sys
import tempfile

from refusals import Refuser

TOP = os.path.dirname(os.path.dirname(os.path.abspath(__file__)))
SECONDS = 60
NEAR = 64
# crate, test, and how many refusals it has to stand
TESTS = (
    ("pages_tests", "tables::a_refused_page_leaves_the_others", 1),
    ("key_index_tests", "refusals::a_refused_refresh_leaves_the_index_stale_until_the_next", 1),
    ("key_index_tests", "refusals::a_stale_index_whose_refresh_is_refused_stays_stale", 2),
)


def program_of(crate):
    return f"{TOP}/crates/{crate}/out/{crate}_tests"


def built(tests):
    return [it for it in tests if os.access(program_of(it[0]), os.X_OK)]


class Test:
    """A test of a built program of tests, of which requests are refused."""

    def __init__(self, refuser, program, name, refusals):
        self.refuser, self.program, self.name, self.refusals = refuser, program, name, refusals

    def ran(self, number, too=0):
        """How many requests a run met in which these two were refused, and what was wrong with it, if anything was."""
        environment = {**self.refuser.environment(number), "REFUSED_TOO": str(too)}
        words = {"stdin": subprocess.DEVNULL, "stdout": subprocess.PIPE, "stderr": subprocess.STDOUT, "text": True, "errors": "replace"}
        it = subprocess.run([self.program, self.name], env=environment, timeout=SECONDS, check=False, **words)
        fault = None if it.returncode == 0 else f"status {it.returncode}: {it.stdout[-500:]}"
        return self.refuser.met(number), fault and f"{self.name}, request {number}{f' and {too}' if too else ''}: {fault}"

    def judge(self, number):
        """How many requests a run met in which this one was refused, and what was wrong with it, or with one in which another was refused too."""
        met, fault = self.ran(number)
        if self.refusals == 1 or fault or met < number:
            return met, fault
        for too in range(number + 1, min(number + NEAR, met) + 1):
            fault = fault or self.ran(number, too)[1]
        return met, fault

    def tried(self):
        """How many requests were refused rightly, and what was wrong."""
        met, fault = self.ran(0)
        if fault or not met:
            return 0, [fault or f"{self.name} asks for no memory"]
        passed, wrong, number, step = 0, [], 1, min(met, 64)
        with concurrent.futures.ProcessPoolExecutor(len(os.sched_getaffinity(0))) as pool:
            while True:
                numbers = range(number, number + step)
                for n, (met, fault) in zip(numbers, pool.map(self.judge, numbers)):
                    if met < n:
                        return passed, wrong
                    passed += fault is None
                    wrong += [fault] if fault else []
                number += step


def main(words):
    if words not in ([], ["--list"]):
        sys.exit(__doc__)
    found = built(TESTS)
    if words:
        print("".join(f"{crate} {name}\n" for crate, name, _ in found), end="")
        return 0
    all_passed, all_wrong = 0, []
    with tempfile.TemporaryDirectory(prefix="refused-tests-") as folder:
        for crate, name, refusals in found:
            passed, wrong = Test(Refuser(folder), program_of(crate), name, refusals).tried()
            print(*wrong, f"{crate} {name}: {passed} requests refused", sep="\n", flush=True)
            all_passed, all_wrong = all_passed + passed, all_wrong + wrong
    print(f"{all_passed} passed, {len(all_wrong)} failed")
    return 1 if all_wrong or not all_passed else 0


if __name__ == "__main__":
    sys.exit(main(sys.argv[1:]))
