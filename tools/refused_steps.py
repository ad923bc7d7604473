#!/usr/bin/env python3
"""Refuses each request for memory of a program of steps in turn, and judges what it tells.

    python3 tools/refused_steps.py [--parts LETTERS] [PROGRAM]      LETTERS: the parts that are tried, else all, and then each call is looked for;
                                                                    PROGRAM: one that was built before, else it is built, without a proof

The program of refusals/ gives steps, each of which is a call that takes memory, or a few; they stand in parts, one of which is run at a time. A step
that is refused memory tells it on standard error, and is given again. So, whichever request is refused: standard output is the same, one step was refused, nothing has changed that may not, and the status is 0.

Growing lists ask for more room than they need, and for less where that is refused: then nothing is told, and the two requests are refused together, upon which
one step has to be refused. More than ABSORBED such requests are a fault. In the part THREADED, where the order of the requests is another from run to run, a thread
that finds no memory is done without, and nothing is told: more than UNTHREADED such requests are a fault.

A part is run once, and at each request a child goes on from there of which this one is refused, as tools/refuse_memory.c does it; a program of several threads can't be
forked so, and the part THREADED is run anew for each request.

Each public call of docs/API.md that can answer want of memory has to be refused in a step of its name (tools/refusable.py).

It prints what was wrong, if anything was, how much was refused, and last 'N passed, M failed', of the requests and of the calls that no step was refused in."""
import concurrent.futures
import os
import string
import subprocess
import sys
import tempfile

import refusable
from refusals import Refuser, read
from unproved import build

SECONDS = 60
# requests whose refusal a smaller one makes up for
ABSORBED = 320
# the part whose calls make threads, and requests whose refusal leaves a thread out
THREADED, UNTHREADED = "w", 40
# what the program says of a letter that asks for no part
NO_PART = "Error: Kind(NotFound)"
# how many runs are given out at a time
BATCH = 32


class Run:
    """What a run of one part printed and told, how it ended, and how many requests it met."""

    def __init__(self, status, printed, told, met):
        self.status, self.printed, self.told, self.met = status, printed, told.splitlines(), met
        self.refused = [line.removeprefix("refused ") for line in self.told if line.startswith("refused ")]


def fault_of(whole, run):
    """What is wrong with a run in which a request was refused, if anything is."""
    fault = differs(whole, run)
    if len(run.refused) != 1 or len(run.told) != 1:
        return f"it tells {run.told[:2]}, and ends with status {run.status}{fault and f': {fault}' or ''}"
    if run.status != 0:
        return f"status {run.status}, after {run.told}"
    return fault and f"{run.told}: {fault}"


def differs(whole, run):
    """The first line in which a run is another than the whole, or none."""
    if run.printed == whole.printed:
        return None
    pairs = zip(whole.printed.splitlines() + ["nothing"], run.printed.splitlines() + ["nothing"])
    return next((f"printed {b!r} in place of {a!r}" for a, b in pairs if a != b), "another length is printed")


class Part:
    """A part of the program of steps."""

    def __init__(self, refuser, program, letter):
        self.refuser, self.program, self.letter = refuser, program, letter
        self.whole = self.run(0)

    def run(self, number, count=1):
        """A run in which so many requests in a row are refused from one on, none where its number is 0."""
        file = f"{number}{self.letter}"
        environment = {**self.refuser.environment(number), "REFUSED_COUNT": str(count), "REQUESTS_FILE": f"{self.refuser.folder}/{file}"}
        words = {"input": self.letter, "capture_output": True, "text": True, "errors": "replace"}
        it = subprocess.run([self.program], env=environment, timeout=SECONDS, check=False, **words)
        return Run(it.returncode, it.stdout, it.stderr, self.refuser.met(file))

    def runs(self, pool):
        """A run for each request, in which that one is refused."""
        if self.letter != THREADED:
            return self.forked()
        found, number = [], 1
        while True:
            for run in pool.map(self.run, range(number, number + BATCH)):
                if run.met <= len(found):
                    return found
                found.append(run)
            number += BATCH

    def forked(self):
        """The same, where one run does for all: of each request a child of it is refused."""
        folder = f"{self.refuser.folder}/{self.letter}"
        os.mkdir(folder)
        lanes = len(os.sched_getaffinity(0))
        environment = {**self.refuser.environment(0), "REFUSE_EACH": folder, "REFUSED_AT_ONCE": str(lanes), "REQUESTS_FILE": f"{folder}/met"}
        with open(f"{folder}/given", "w+", encoding="utf-8") as given, open(f"{folder}/printed", "w", encoding="utf-8") as printed:
            given.write(self.letter)
            given.seek(0)
            it = subprocess.run([self.program], stdin=given, stdout=printed, env=environment, timeout=SECONDS * BATCH, check=False)
        ends = {int(line.split()[0]): [int(word) for word in line.split()[1:]] for line in read(f"{folder}/ends").splitlines()}
        whole = read(f"{folder}/printed")
        if it.returncode != 0 or whole != self.whole.printed or sorted(ends) != list(range(1, self.whole.met + 1)):
            raise SystemExit(f"part {self.letter} ends with status {it.returncode}, and {len(ends)} of its {self.whole.met} requests were refused")
        return [self.child(folder, whole, number, *ends[number]) for number in sorted(ends)]

    def child(self, folder, whole, number, status, met, written):
        """The run that a child ended."""
        printed = whole.encode()[:written].decode(errors="replace") + read(f"{folder}/{number}.out")
        return Run(os.waitstatus_to_exitcode(status), printed, read(f"{folder}/{number}.err"), met)

    def judge(self, number, run):
        """The step in which a request was refused, whether something made up for it, and what was wrong, if anything was."""
        is_silent = run.status == 0 and not run.told and run.printed == self.whole.printed
        if is_silent and self.letter == THREADED:
            return None, True, None
        is_absorbed = is_silent and run.met > self.whole.met
        if is_absorbed:
            run = self.run(number, 2)
        fault = fault_of(self.whole, run)
        return (run.refused or [None])[0], is_absorbed, fault and f"part {self.letter}, request {number}: {fault}"


class Found:
    """What became of all requests: how many were judged right, how many of these something made up for, the steps in which, and what was wrong."""

    def __init__(self):
        self.passed, self.absorbed, self.unthreaded, self.steps, self.wrong, self.given = 0, 0, 0, set(), [], 0

    def take(self, part, pool):
        """Judges each request of a part in turn."""
        self.given += sum("|" in line for line in part.whole.printed.splitlines())
        if part.whole.told or part.whole.status != 0:
            self.wrong.append(f"part {part.letter}, without a refusal: {part.whole.told[:4]}, status {part.whole.status}")
            return
        runs = part.runs(pool)
        for step, is_absorbed, fault in pool.map(part.judge, range(1, len(runs) + 1), runs):
            self.passed += fault is None
            self.absorbed += is_absorbed and part.letter != THREADED
            self.unthreaded += is_absorbed and part.letter == THREADED
            self.steps |= {step} - {None}
            self.wrong += [fault] if fault else []


def tried(refuser, program, letters=string.ascii_lowercase):
    """What became of all requests of some parts."""
    found = Found()
    with concurrent.futures.ProcessPoolExecutor(len(os.sched_getaffinity(0))) as pool:
        for letter in letters:
            part = Part(refuser, program, letter)
            if part.whole.told == [NO_PART] and not part.whole.printed:
                return found
            found.take(part, pool)
    return found


def report(found, is_whole):
    """Tells of all requests, and answers what was wrong. Each call is looked for where each part was tried."""
    wrong = list(found.wrong)
    for count, most, what in ((found.absorbed, ABSORBED, "a smaller one makes up for"), (found.unthreaded, UNTHREADED, "left a thread out")):
        if count > most:
            wrong.append(f"{count} requests that {what}, of {most} at most")
    wrong += refusable.missing(refusable.calls(), found.steps) if is_whole else []
    made_up = f"a smaller one made up for {found.absorbed} of them, and {found.unthreaded} left a thread out"
    print(*wrong, f"{found.passed} requests refused, of {len(found.steps)} steps of {found.given}; {made_up}", sep="\n")
    return wrong


def main(words):
    letters = words[1:2] if words[:1] == ["--parts"] else []
    words = words[2:] if letters else words
    if len(words) > 1 or any(it.startswith("-") for it in words):
        sys.exit(__doc__)
    with tempfile.TemporaryDirectory(prefix="refused-steps-") as folder:
        program = os.path.abspath(words[0]) if words else build(f"{folder}/program", "refusals", "refusals")
        found = tried(Refuser(folder), program, *letters)
    wrong = report(found, not letters)
    print(f"{found.passed} passed, {len(wrong)} failed")
    return 1 if wrong or not found.passed else 0


if __name__ == "__main__":
    sys.exit(main(sys.argv[1:]))
