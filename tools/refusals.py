#!/usr/bin/env python3
"""Refuses each request for memory of the built program of scripts in turn, and judges what is left.

    python3 tools/refusals.py [PROGRAM]      PROGRAM: crates/specs_run_main/out/specs_run_main

A library that counts requests (tools/refuse_memory.c) is loaded before the program; the Nth is refused, N = 1, 2, .. until a run meets fewer.

The program is given tools/all_lines.script a line at a time. A line that is refused memory is given again, and the plain model of
tools/script_model.py judges each reply, with the refused line as one that changed nothing, or that kept the part that docs/SCRIPT.md names.

Before a refused line of ASKED is given again, another is given that asks what stands.

Where more room than a line needs is refused, it asks for less: then nothing is told, and the output is the same with one request more.
Where the program finds no memory for itself (its streams, the text of a line), it ends with status 1, and what it wrote is a beginning of the whole.

It prints what was wrong, if anything was, and last 'N passed, M failed', of the requests."""
import concurrent.futures
import copy
import os
import re
import subprocess
import sys
import tempfile
import threading

from random_scripts import judged
from script_model import World, records_of

TOP = os.path.dirname(os.path.dirname(os.path.abspath(__file__)))
SCRIPT = f"{TOP}/crates/specs_run_main/out/specs_run_main"
LINES = f"{TOP}/tools/all_lines.script"
SECONDS = 120
REFUSED = "error: out of memory"
ASKED = {"index hp": "find 81"}


class Refuser:
    """What a run is given so that one request is refused."""

    def __init__(self, folder):
        self.folder, self.library = folder, f"{folder}/refuse_memory.so"
        kit = os.path.realpath(subprocess.run(["sh", "-c", "command -v rt"], capture_output=True, text=True, check=False).stdout.strip())
        compilers = ["cc", "clang", f"{os.path.dirname(os.path.dirname(kit))}/toolchain/bin/clang"]
        for compiler in compilers:
            words = [compiler, "-O1", "-shared", "-fPIC", "-o", self.library, f"{TOP}/tools/refuse_memory.c", "-ldl"]
            try:
                if subprocess.run(words, check=False).returncode == 0:
                    self.compiler = compiler
                    return
            except OSError:
                continue
        raise SystemExit("refusals: no compiler of C builds tools/refuse_memory.c")

    def environment(self, number):
        return {**os.environ, "LD_PRELOAD": self.library, "REFUSED_REQUEST": str(number), "REQUESTS_FILE": f"{self.folder}/{number}"}

    def met(self, number):
        with open(f"{self.folder}/{number}", "rb") as it:
            met = int.from_bytes(it.read(), sys.byteorder)
        os.remove(it.name)
        return met


def each_in_turn(judge):
    """Judges N = 1, 2, .. until a run meets fewer requests. It answers how many were judged right, and what was wrong."""
    passed, wrong, number, step = 0, [], 1, 64
    with concurrent.futures.ProcessPoolExecutor(len(os.sched_getaffinity(0))) as pool:
        while True:
            numbers = range(number, number + step)
            for n, (met, fault) in zip(numbers, pool.map(judge, numbers)):
                if met < n:
                    return passed, wrong
                passed += fault is None
                if fault:
                    wrong.append(f"request {n}: {fault}")
            number += step


class Talk:
    """A script that is given a line at a time: the lines, with the reply to each, and how it ended. A refused line is given again."""

    def __init__(self, refuser, program, lines, number):
        self.said, self.refused = [], 0
        words = {"stdin": subprocess.PIPE, "stdout": subprocess.PIPE, "stderr": subprocess.DEVNULL, "text": True, "env": refuser.environment(number)}
        with subprocess.Popen([program], **words) as it:
            guard = threading.Timer(SECONDS, it.kill)
            guard.start()
            self.give(it, lines)
            try:
                it.stdin.close()
            except BrokenPipeError:
                pass
            self.rest = it.stdout.read()
            self.status = it.wait()
            guard.cancel()
        self.met = refuser.met(number)

    def give(self, it, lines):
        left = list(reversed(lines))
        while left:
            line = left.pop()
            try:
                it.stdin.write(line + "\n")
                it.stdin.flush()
            except BrokenPipeError:
                return
            reply = it.stdout.readline()
            if not reply.endswith("\n"):
                return
            self.said.append((line, reply[:-1]))
            if reply == REFUSED + "\n" or reply.endswith(" stopped\n"):
                self.refused += 1
                if self.refused < 3:
                    left += [line, ASKED[line]] if line in ASKED else [line]


def kept(world, line):
    """Each world that a line that was refused memory may leave."""
    if line == "save-all":
        return labelled(world)
    return begun(world, line[len("load "):]) if line.startswith("load ") else [world]


def labelled(world):
    """This world, and those in which a `save-all` gave the first labels that it would give."""
    found, last = [world], copy.deepcopy(world)
    while not last.save_all().startswith("error"):
        before, last = found[-1], copy.deepcopy(found[-1])
        new = [i for i in reached(before) if i not in before.slots["id"].values]
        if not new:
            break
        last.label(f"{new[0]}:{last.births[new[0]]}")
        found.append(last)
        last = copy.deepcopy(last)
    return found


def reached(world):
    """The indices that have labels, and behind them those that they lead to, as they are first mentioned."""
    indices = sorted(world.slots["id"].values)
    for i in indices:
        target = world.link_of(i)
        if target and target[0] not in indices:
            indices.append(target[0])
    return indices


def made(world):
    """Each world in which an entity was made that got no label, and is marked."""
    worlds = [world.with_pending(i) for i in world.next_born()]
    for after in worlds:
        after.marked.update(after.pending - world.pending)
    return worlds


def begun(world, text):
    """Each world in which the records before one are loaded, and of that one some are named, or all are and the places before one are stored."""
    found, last = [world], [world]
    for place, link, number in records_of(text) or []:
        named = [it for before in last for it in before.named(number)]
        found += [it for before in last for it in made(before)] + [after for after, _ in named]
        if link is not None:
            found += [it for before, _ in named for it in made(before)]
        pairs = [(after, e) for before, e in named for after, _ in (before.named(link) if link is not None else [(before, None)])]
        for after, e in pairs:
            stored = copy.deepcopy(after)
            stored.slots["pos"].values.pop(e[0], None)
            if place is not None:
                stored.slots["pos"].values[e[0]] = str(place)
            found += [after, stored]
        last = [after for before in last for after in before.with_record(place, link, number)]
        found += last
    return found


def disagreement(said):
    """What is wrong with the replies, by the model, if anything is."""
    worlds = [World()]
    for line, reply in said:
        if reply == REFUSED:
            worlds = [after for world in worlds for after in kept(world, line)]
            continue
        if reply.endswith(" stopped"):
            line, reply = f"maintain {re.search(r' ran ([0-9]+) ', reply)[1]}", reply.removesuffix(" stopped")
        outcomes = [it for world in worlds for it in judged(world, line, reply)]
        worlds = [world for world, wanted in outcomes if wanted == reply]
        if not worlds:
            return f"line {line!r}: wanted {' or '.join(sorted({repr(wanted) for _, wanted in outcomes}))}, printed {reply!r}"
    return None


def wrong_talk(whole, talk):
    """What is wrong with a script in which a request was refused, if anything is."""
    fault = disagreement(talk.said)
    if fault or talk.rest:
        return fault or f"it says {talk.rest!r} unasked"
    refused = [number for number, (_, reply) in enumerate(talk.said) if reply == REFUSED or reply.endswith(" stopped")]
    if not refused:
        is_begun = talk.status == 1 and whole.said[: len(talk.said)] == talk.said
        # more room than a line needs was refused, and less asked for
        is_begun = is_begun or talk.status == 0 and talk.said == whole.said and talk.met > whole.met
        return None if is_begun else f"no refusal is told, status {talk.status}"
    if len(refused) > 1:
        return f"{len(refused)} lines are refused"
    line, reply = talk.said[refused[0]]
    again = refused[0] + 1 + (line in ASKED)
    if talk.status != 0 or len(talk.said) != len(whole.said) + again - refused[0]:
        return f"status {talk.status} after {len(talk.said)} replies"
    keeps = line.startswith(("load", "save-all", "maintain"))
    rest = talk.said[: refused[0]] + talk.said[again:]
    return None if keeps or rest == whole.said else f"after {line!r}, refused, the replies are others"


class Scripts:
    """The program of scripts, with the lines of a script."""

    def __init__(self, refuser, program, lines):
        self.refuser, self.program, self.lines = refuser, program, lines
        self.whole = Talk(refuser, program, lines, 0)

    def judge(self, number):
        talk = Talk(self.refuser, self.program, self.lines, number)
        return talk.met, wrong_talk(self.whole, talk)

    def tried(self):
        fault = disagreement(self.whole.said)
        if fault or self.whole.status != 0 or len(self.whole.said) != len(self.lines):
            return 0, [f"without a refusal: {fault or f'status {self.whole.status} after {len(self.whole.said)} replies'}"]
        return each_in_turn(self.judge)


def read(path):
    with open(path, encoding="utf-8", errors="replace") as it:
        return it.read()


def main(words):
    program = words[0] if words else SCRIPT
    if len(words) > 1 or not os.access(program, os.X_OK):
        sys.exit(__doc__ if len(words) > 1 else f"refusals: there is no program {program}")
    with tempfile.TemporaryDirectory(prefix="refusals-") as folder:
        passed, wrong = Scripts(Refuser(folder), program, read(LINES).split("\n")[:-1]).tried()
    for fault in wrong:
        print(fault)
    print(f"{passed} passed, {len(wrong)} failed")
    return 1 if wrong or not passed else 0


if __name__ == "__main__":
    sys.exit(main(sys.argv[1:]))
