#!/usr/bin/env python3
"""Runs random scripts by ./specs-run, and judges each reply by a plain model of sets, dictionaries and lists.

    python3 tools/random_scripts.py [--unproved] [COUNT] [SEED]      COUNT: how many scripts (10000); SEED: that of the first (1)

--unproved runs them by one `rt try`, which proves nothing, in place of ./specs-run.

Script k is made from seed SEED + k. A birth may take any free index, so the model follows the entity that the program printed, if the rule
allows it. A job that creates an entity does not tell which, nor does a load: the model keeps every world that the replies so far allow. A reply that none of
them gives is printed, with its script and its seed, and the status is 1."""
import os
import random
import re
import subprocess
import sys
import tempfile

from rooms import TOP, TRY, make_room, words_of
from script_model import IDS, LAST_GENERATION, LIMIT, SAVED, SLOTS, World

UNREADABLE = ["frob", "create ", " create", "delete", "delete 0", "insert pos 0:1", "insert tag 0:1 5", "select", "select and pos",
              "select pos pos", "emit hp", "maintain -1", "reader", "entity 4294967296", "alive 0:0", "insert id 0:1 0", "delete-all 0:1",
              "job", "job again 1", "job create pending", "job remove pos", "job insert tag 0:1 5", "job delete 0:1", "maintain",
              "label", "label 0:1 1:1", "index", "index pos", "index hp 0", "find", "find 0:1", "find -0", "find 9223372036854775808", "job label", "save 0", "save-all ", "load", "load ", "load  []", "load [] "]


# what stands between the scripts that one process runs, as tools/many_scripts.rt.src has it
END = "\x1e"


class Script:
    """Lines, of which each is made as if the program had taken the least free index at each birth."""

    def __init__(self, seed):
        self.random, self.world, self.lines = random.Random(seed), World(), []
        self.saving = self.random.randrange(2) == 0
        for name in SAVED if self.saving else []:
            self.add(f"register {name}")
        for _ in range(self.random.randrange(60)):
            self.add(self.line())
        self.unreadable = self.random.randrange(8) == 0
        if self.unreadable:
            self.lines.append(self.random.choice(UNREADABLE))

    def add(self, line):
        self.lines.append(line)
        if line.startswith("create"):
            free = [i for i in self.world.births if i not in self.world.living()]
            i = min(free) if free else len(self.world.births)
            judged(self.world, line, f"{i}:{self.world.births.get(i, 0) + 1}")
        elif line:
            self.world = judged(self.world, line, "")[0][0]

    def an_entity(self):
        known = self.world.births
        if known and self.random.randrange(12):
            i = self.random.choice(sorted(known))
            return f"{i}:{known[i] if self.random.randrange(5) else self.random.choice([1, 2, -1, known[i] + 1])}"
        return f"{self.random.choice([0, 1, 7, LIMIT - 1, LIMIT, (1 << 32) - 1])}:{self.random.choice([1, 2, -1, LAST_GENERATION])}"

    def a_value(self, slot):
        if slot == "tag":
            return "tag"
        if slot == "link":
            return self.an_entity()
        return str(self.random.choice([0, 5, -7, 63, -(1 << 63), (1 << 63) - 1, self.random.randrange(1000)]))

    def a_held_value(self):
        """A value that hp has somewhere, or any."""
        held = sorted(self.world.slots["hp"].values.values()) if "hp" in self.world.slots else []
        return self.random.choice(held) if held and self.random.randrange(4) else self.a_value("hp")

    def a_set(self, depth):
        kind = self.random.randrange(9 if depth else 4)
        if kind < 4:
            return "living" if kind == 0 else self.a_slot()
        if kind == 4:
            return "not " + self.a_set(depth - 1)
        return f"{self.random.choice(['and', 'or', 'xor'])} {self.a_set(depth - 1)} {self.a_set(depth - 1)}"

    def a_selection(self):
        line = self.a_set(4)
        members, _ = self.world.members(line.split())
        return f"select and living {line}" if members and members.inverted else f"select {line}"

    def a_slot(self):
        return self.random.choice(["pos", "link", "link", "id", "hp"] if self.saving else ["hp", "hp", self.random.choice(SLOTS)])

    def a_written_slot(self):
        slot = self.a_slot()
        return "link" if slot == "id" else slot

    def a_record(self):
        place, link = self.random.choice(["null", "[5]", "[-7]"]), self.random.choice(["null", f"[{self.an_id()}]", f"[{self.an_id()}]"])
        return f'{{"components":[{place},{link}],"marker":{self.an_id()}}}'

    def an_id(self):
        return self.random.choice([0, 0, 1, 1, 2, 3, self.random.randrange(9), IDS - 1 if self.random.randrange(9) == 0 else 4])

    def a_text(self):
        """A saved list, or one with a character that is changed, dropped or doubled."""
        text = f"[{','.join(self.a_record() for _ in range(self.random.randrange(4)))}]"
        if self.random.randrange(4) == 0:
            k = self.random.randrange(len(text))
            text = text[:k] + self.random.choice(["", text[k] * 2, self.random.choice('0-.e,:[]{}"n 9')]) + text[k + 1:]
        return text.strip(" ") or "[]"

    def a_limit(self):
        """How many jobs may run: few, where one queues itself."""
        endless = ["again"] in self.world.jobs
        return self.random.choice([0, 1, 2, 3, 9 if endless else (1 << 64) - 1])

    def a_job(self):
        slot, e = self.a_written_slot(), self.an_entity()
        return "job " + self.random.choice([f"label {e}", f"insert {slot} {e} {self.a_value(slot)}", f"insert {slot} {e} {self.a_value(slot)}", f"remove {slot} {e}",
                                            "create", "again"])

    def line(self):
        slot, e, r = self.a_slot(), self.an_entity(), self.random
        if self.saving and r.randrange(3) == 0:
            return r.choice([f"label {e}", f"label {e}", "save", "save-all", f"load {self.a_text()}", f"insert link {e} {self.an_entity()}"])
        written = self.a_written_slot()
        return r.choice(["create", "create", "create pending", f"register {slot}", f"register {slot}", f"insert {written} {e} {self.a_value(written)}",
                         f"insert {written} {e} {self.a_value(written)}", f"insert {written} {e} {self.a_value(written)}", f"label {e}", f"get {slot} {e}", f"remove {slot} {e}",
                         f"clear {slot}", f"count {slot}", f"mark {e}", f"alive {e}", f"living {e}", f"maintain {self.a_limit()}", self.a_job(), self.a_job(),
                         f"entity {r.choice([0, 1, 2, 3, LIMIT, (1 << 32) - 1])}", "delete " + " ".join([e] + [self.an_entity() for _ in range(r.randrange(3))]),
                         "delete-all" if r.randrange(4) == 0 else "", self.a_selection(), self.a_selection(), f"reader {slot}", f"events {slot} {r.randrange(3)}",
                         f"events {slot} 0", f"emit {slot} {r.choice(['on', 'on', 'off'])}", "index hp", f"find {self.a_held_value()}", f"find {self.a_held_value()}"])


def judged(world, line, printed):
    """Each world that may come of a line, with its reply."""
    words = line.split(" ")
    if words[0] == "maintain":
        return world.maintained(words[1])
    if words[0] == "load":
        return world.loaded(line[len("load "):])
    if words[0] == "create":
        return [(world, world.create(*words[1:], printed=printed))]
    name = {"living": "living_line", "delete-all": "delete_all", "save-all": "save_all"}.get(words[0], words[0])
    return [(world, getattr(world, name)(*words[1:]))]


def disagreement(script, ran):
    """What is wrong with a run, if anything is."""
    worlds, replies, number = [World()], ran.stdout.split("\n")[:-1], 0
    readable = script.lines[:-1] if script.unreadable else script.lines
    for line in filter(None, readable):
        printed = replies[number] if number < len(replies) else "(nothing)"
        outcomes = [it for world in worlds for it in judged(world, line, printed)]
        worlds = [world for world, reply in outcomes if reply == printed]
        if not worlds:
            return f"line {line!r}: wanted {' or '.join(sorted({repr(reply) for _, reply in outcomes}))}, printed {printed!r}"
        number += 1
    faults = f"line {len(script.lines)}: cannot read\n" if script.unreadable else ""
    if len(replies) != number or ran.stderr != faults or ran.returncode != (2 if script.unreadable else 0):
        return f"{len(replies) - number} replies more than lines, status {ran.returncode}, told {ran.stderr!r}"
    return None


def text_of(script):
    return "".join(line + "\n" for line in script.lines)


def proved_runs(scripts):
    """Each script with its run by ./specs-run, which is built first, so that no run tells of it."""
    program = os.path.join(TOP, "specs-run")
    subprocess.run([program], stdin=subprocess.DEVNULL, check=False)
    for script in scripts:
        yield script, subprocess.run([program], input=text_of(script), capture_output=True, text=True, check=False)


def groups_of(scripts):
    """The scripts, so many in a group that a run of them prints less than `rt try` takes, which is 1 MiB."""
    return [scripts[k:k + 250] for k in range(0, len(scripts), 250)]


def unproved_runs(groups):
    """Each script of some groups with its run. Each group is run by one process of the program of tools/many_scripts.rt.src, which `rt try` builds once, in a room of its own."""
    with tempfile.TemporaryDirectory(prefix="many-scripts-") as room:
        crate = make_room(room, "many_scripts", ["specs_run"], {"main.rt": "tools/many_scripts.rt.src"}, words_of("tools/script/without"))
        os.mkdir(f"{room}/cases")
        for k, group in enumerate(groups):
            with open(f"{room}/cases/{k:06}", "w", encoding="utf-8") as it:
                it.write(END.join(text_of(script) for script in group))
        # with a step alone the interpreter leaves each run to the program that is built with checks
        words = [*TRY, "--seconds", "3600", "--steps", "1", "--cases", f"{room}/cases"]
        ran = subprocess.run(words, cwd=crate, stdin=subprocess.DEVNULL, capture_output=True, text=True, check=False)
    printed = re.split(r"== (\d{6})\n", ran.stdout)[1:]
    printed = dict(zip(printed[::2], printed[1::2]))
    for k, group in enumerate(groups):
        parts = iter(printed.get(f"{k:06}", "").split(END)[:-1])
        for script in group:
            # a run that did not end has no status that fits
            replies, told, status = next(parts, ""), next(parts, ran.stderr[-1000:]), next(parts, "-1")
            yield script, subprocess.CompletedProcess(words, int(status), replies, told)


def first_fault(runs, seed):
    """What is wrong with the first of the runs that the model does not allow, if there is one; the first script's seed is given."""
    for k, (script, ran) in enumerate(runs):
        fault = disagreement(script, ran)
        if fault:
            return f"{text_of(script)}seed {seed + k}: {fault}"
    return None


def main():
    words = [it for it in sys.argv[1:] if it != "--unproved"]
    count = int(words[0]) if words else 10000
    seed = int(words[1]) if len(words) > 1 else 1
    scripts = [Script(seed + k) for k in range(count)]
    runs = unproved_runs(groups_of(scripts)) if "--unproved" in sys.argv[1:] else proved_runs(scripts)
    fault = first_fault(runs, seed)
    print(fault or f"{count} scripts agreed ({sum(len(it.lines) for it in scripts)} lines, seeds {seed} to {seed + count - 1})")
    return 1 if fault else 0


if __name__ == "__main__":
    sys.exit(main())
