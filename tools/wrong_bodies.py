#!/usr/bin/env python3
"""Tries the wrong bodies crates/NAME/wrong/*.edit and the right ones crates/NAME/right/*.edit, several in a check: the prover must refuse each wrong one
for the clauses that it breaks, and accept each right one by the same means.

    python3 tools/wrong_bodies.py [--anew | --record | --alone | --explain | --list | --within SECONDS] [NAME..]      NAME: a crate, or a crate and an edit, as hibits or hibits/add_of_a_neighbour

An edit has the lines of a must-fail edit ('file: src/FILE', 'old: TEXT', 'new: TEXT', each TEXT once in the file), a comment ('# TEXT') that says why
it breaks what it names, and 'fn: PATH', the function that has to be refused, as the check names it without its crate. Then, as often as it is so,
'clause: WORD', a clause that the body breaks: each has to be left open by the prover's search. WORD is the name of a clause that the function promises; of a promise without
a name `returns`, or the goal as it begins, as `returns-then-contains`; of what a call wants or a type keeps the goal's name, as `f-requires` or `invariant_of-self`.
Where the check refuses a function before it looks at its clauses (a loop without an end, a step that a table of shared words forbids, a call that the types
do not allow), 'says: TEXT' stands in the place of the clause: what the check must say. An edit that reaches beyond its function (a constant, or a call by
which no function of the crate is looked at) has a line 'alone: WHY', and is tried alone. A line 'always: TEXT' makes an edit a chief one: what a reader would fear first.

A right variant is the same function in another right form. It has lines 'beside: NAME' in the place of clauses: the wrong bodies of its function beside which
it stands. None of the clauses that these name may be left open of it: so what refuses them is the clause, and not that the body is another.

An answer by hand (Answers.antt) fits the body for which it was written. Where one no longer fits, that shows nothing: it is taken out, and the function is checked
again, three times at most. Only a goal that the search then leaves open counts. A name that is lost, an answer that no longer fits or a text that is not read counts nothing.

Edits of one crate that change different functions are applied together, so that one check tries up to a hundred of them. It checks the functions of
the edits and what these call, and no other (`rt check --only`), once it has read the libraries below. The next check tries those that need another look, and with them edits of functions that are free
again. Each edit is judged by itself, and what a check of several did not show is tried again alone.

First the libraries below the edited crates are built in the tree, lowest first, each once: what `rt ci` leaves of them may not serve another check, and each room
would build them again. There are as many lanes as processors, or RT_JOBS. A lane takes the edits of one crate, of which there are most,
makes a room for the crate (a copy of the tree), and makes one check after another there: in two rooms twice as many checks would read the libraries below. What a check proved and the next did not change is kept in the room. The
verdicts come as they are found.

What an edit showed is kept on this machine, by the checksum of all that decides it: the kit, these scripts, the edit but for its comments, and the files of its crate and of
those below. So a later run tries what changed, and what stands above it, as `rt ci` proves it; --anew tries all. --record tries what is not kept, and puts each crate of which every edit showed what it must
into tools/tried.txt, with the checksum of what they were tried on, and with the answers by hand that had to be taken out.

With --within, as the gate calls it, the chief ones (`always:`) are tried whatever it takes, with the right variants of their functions. Of a crate that tools/tried.txt names as it stands a quarter of the others is
tried, which the last commit draws, so that each has its turn, the answers that the record names being out from the beginning. Of any other crate all are: those that docs/PROMISES.md names beside a promise
whatever it takes too. Of what is left no check begins after so many seconds; where that is time enough for all, they are tried together with the first, in fewer checks. How many are not tried is told, and they
count neither as passed nor as failed.

Run at the top of the repository; --alone tries each edit alone, --explain only tells which goals each leaves open, for writing its lines 'clause:', and --list
only reads the edits. It fails where there is no edit, or another file among them."""
import concurrent.futures
import hashlib
import os
import shutil
import subprocess
import sys
import tempfile
import threading
import time

from edits import applied, edits_of
from kept_trials import below, keep, kept, outs_of, write_record
from verdicts import Said, answers_of, judge, without

MOST = 100
# where time may run out, so that no check takes long
MOST_WITHIN = 40
# of those that were all tried as they stand, but for the chief ones, one in so many is tried for a commit
TURNS = 4
# so many seconds of a processor are time for both: 288 of 377 took 7,660
AMPLE = 12000
ROUNDS = 3


def checked(room, crate, edits, out=None):
    """What the check says of the edits' functions and what they call, with the edits, and without the answers by hand that are named, by function."""
    folder, out = f"{room}/crates/{crate}", out or {}
    texts = {f"{folder}/{file}": text for file, text in applied(folder, edits).items()}
    for function, names in out.items():
        path = answers_of(folder, function)
        with open(path, encoding="utf-8") as it:
            texts[path] = without(it.read(), names)
    kept = {}
    for path, text in texts.items():
        with open(path, encoding="utf-8") as it:
            kept[path] = it.read()
        with open(path, "w", encoding="utf-8") as it:
            it.write(text)
    words = [word for edit in edits for word in ("--only", edit.function)]
    try:
        ran = subprocess.run(["rt", "check", "--jobs", "1", *words], cwd=folder, stdin=subprocess.DEVNULL, stdout=subprocess.PIPE, stderr=subprocess.STDOUT, errors="replace")
    finally:
        for path, text in kept.items():
            with open(path, "w", encoding="utf-8") as it:
                it.write(text)
    return ran.stdout


class Trial:
    """An edit that is tried, and the answers by hand that were found not to fit it, which are taken out."""

    def __init__(self, edit):
        self.edit, self.out, self.rounds = edit, set(edit.out), 0
        self.told = self.said = None

    def is_judged(self, text, folder):
        """Judges the edit by what the check says; whether it is for good. If it isn't, more answers are out."""
        self.rounds += 1
        said = self.said = Said(text, self.edit.crate, self.edit.function)
        if self.edit.says:
            does = self.edit.says in text and (said.is_refused or said.is_no_program)
            self.told = does, f"refused: {self.edit.says}" if does else f"NOT SHOWN: it does not say {self.edit.says}"
            return True
        self.told = judge(said, self.edit)
        new = said.erring - self.out
        if self.rounds == ROUNDS or not new or self.told[0] and not self.edit.is_right or not answers_of(folder, self.edit.function):
            return True
        self.out |= new
        return False


def build_below(crates):
    """Builds the libraries below these crates, lowest first, and leaves what was proved for the rooms. A library that is built as it stands takes no time."""
    libraries = {name for it in crates for name in below(it)}
    for name in sorted(libraries, key=lambda it: (len(below(it)), it)):
        ran = subprocess.run(["rt", "lib"], cwd=f"crates/{name}", stdin=subprocess.DEVNULL, stdout=subprocess.PIPE, stderr=subprocess.STDOUT, errors="replace")
        if ran.returncode:
            print(f"{ran.stdout}wrong bodies: {name} was not built", flush=True)


def linked(old, new):
    """One file under two names, or a copy where the disk is another."""
    try:
        os.link(old, new)
    except OSError:
        shutil.copy2(old, new)


def room_for(crate, top):
    """A copy of the tree: its texts, what is built of the crates below this one, and what is kept of this one."""
    shutil.copytree(".", top, ignore=lambda at, names: [it for it in names if it in (".git", "out") and (at == "." or at.startswith("./crates"))], dirs_exist_ok=True)
    for name in below(crate):
        if os.path.isdir(f"crates/{name}/out/rlib"):
            shutil.copytree(f"crates/{name}/out/rlib", f"{top}/crates/{name}/out/rlib", copy_function=linked)
    if os.path.isdir(f"crates/{crate}/out/incremental"):
        shutil.copytree(f"crates/{crate}/out/incremental", f"{top}/crates/{crate}/out/incremental")


def next_wave(pending, most):
    """The first trials that stand together: of different functions, as many as one check takes."""
    wave = []
    for it in pending:
        if it.edit.alone and not wave:
            return [it]
        is_free = not it.edit.alone and len(wave) < most and all(it.edit.function != other.edit.function for other in wave)
        if is_free and applied(f"crates/{it.edit.crate}", [*(other.edit for other in wave), it.edit]) is not None:
            wave.append(it)
    return wave


def tried(room, edits, most, tell, until=None, may_wait=()):
    """Tries edits of one crate, a wave in each check, until each is judged for good, but where the time is over gives those that may wait. What a wave did not show is tried
    again alone; a wave of which the check looked at no function, in halves."""
    pending, left = [Trial(it) for it in edits], []
    while pending:
        if until is not None and time.monotonic() > until:
            left = [it.edit for it in pending if it.edit in may_wait]
            pending, until = [it for it in pending if it.edit not in may_wait], None
            continue
        wave = next_wave(pending, most)
        pending = [it for it in pending if it not in wave]
        crate, out = wave[0].edit.crate, {it.edit.function: it.out for it in wave if it.out}
        text = checked(room, crate, [it.edit for it in wave], out)
        ended = [it for it in wave if it.is_judged(text, f"{room}/crates/{crate}")]
        if len(wave) > 1 and all(it.said.line is None for it in wave):
            half = (len(wave) + 1) // 2
            for part in wave[:half], wave[half:]:
                tried(room, [it.edit for it in part], half, tell)
            continue
        pending += [it for it in wave if it not in ended]
        for it in ended:
            if it.told[0] or len(wave) == 1:
                tell(it)
            else:
                tried(room, [it.edit], 1, tell)
    return left


class Work:
    """The shares of edits that no lane has taken yet, each of one crate, and how many edits one check takes: first those of the first part, and of each part first what takes longest.
    A crate has one room, a folder below the given one, in which one lane works at a time."""

    def __init__(self, first, later, most, below):
        self.shares = [it for part in (later, first) for it in sorted(part.items(), key=lambda it: len(it[1]))]
        self.most, self.below, self.busy, self.free = most, below, set(), threading.Condition()

    def share(self):
        """The next share, as soon as no other lane works in its room; nothing where none is left."""
        with self.free:
            while self.shares:
                for it in reversed(self.shares):
                    if it[0] not in self.busy:
                        self.shares.remove(it)
                        self.busy.add(it[0])
                        return it
                self.free.wait()
        return None

    def end(self, crate):
        with self.free:
            self.busy.discard(crate)
            self.free.notify_all()

    def room(self, crate):
        top = f"{self.below}/{crate}"
        if not os.path.isdir(top):
            room_for(crate, top)
        return top


def lane(work, tell, until, may_wait):
    """Tries one share after another, until none is left, and gives the edits for which there was no time."""
    left = []
    while share := work.share():
        crate, edits = share
        try:
            left += tried(work.room(crate), edits, work.most, tell, until, may_wait)
        finally:
            work.end(crate)
    return left


def read_edits(wanted, explains):
    """The edits by crate; nothing where one is at fault, or there is none."""
    found, faults = edits_of(wanted)
    for edits in found.values():
        faults += [f"{it.label}: BAD EDIT: {why}" for it in edits if (why := it.fault(explains))]
    if not wanted and not any(not it.is_right for edits in found.values() for it in edits):
        faults.append("there is no wrong body")
    for it in faults:
        print(it)
    if faults:
        print(f"0 passed, {len(faults)} failed")
    return None if faults else found


def not_kept(found, verdicts, shown):
    """The edits of which nothing is kept; of the others it is told, and noted which answers were taken out."""
    rest = {}
    for crate, edits in found.items():
        told = {it: known for it in edits if (known := kept(it))}
        for edit, (text, out) in told.items():
            print(f"{edit.label}: {text}, as kept", flush=True)
            shown[edit] = out
        verdicts += [True] * len(told)
        if left := [it for it in edits if it not in told]:
            rest[crate] = left
    return rest


def named_beside_promises():
    """The wrong bodies that docs/PROMISES.md names."""
    import check_promises

    return {cells[-1].removeprefix("through ") for _, (_, *cells, _) in check_promises.rows() if cells}


def parted(found, tried_before):
    """The edits that are tried whatever it takes, by crate, those that may wait, and how many others have their turn with another commit."""
    names, first, later, others = named_beside_promises(), {}, {}, 0
    commit = subprocess.run(["git", "rev-parse", "HEAD"], stdout=subprocess.PIPE, check=True).stdout
    for crate, edits in found.items():
        outs = tried_before[crate]
        wanted = {it.name for it in edits if it.always or outs is None and it.name in names}
        functions = {it.function for it in edits if it.name in wanted}
        parts = [[it for it in edits if (it.function in functions if it.is_right else it.name in wanted) == is_first] for is_first in (True, False)]
        if outs is None:
            print(f"{crate} or what it rests on is not as it was when all of its wrong bodies were tried, so that all are tried", flush=True)
        else:
            parts[1].sort(key=lambda it: hashlib.sha256(commit + it.name.encode()).digest())
            count = -(-len(parts[1]) // TURNS)
            others += len(parts[1]) - count
            parts[1] = parts[1][:count]
            for it in edits:
                it.out = outs.get(it.name, frozenset())
        for part, into in zip(parts, (first, later)):
            if part:
                into[crate] = part
    return first, later, others


def in_lanes(first, later, most, tell, until):
    """Tries all edits, in as many lanes as there are processors, and gives those for which there was no time, of those that may wait: where time is ample a crate's are tried together, in fewer checks."""
    lanes = int(os.environ.get("RT_JOBS") or len(os.sched_getaffinity(0)))
    may_wait = {it for edits in later.values() for it in edits}
    if until is not None and (until - time.monotonic()) * lanes >= AMPLE:
        first, later = {crate: first.get(crate, []) + later.get(crate, []) for crate in {**first, **later}}, {}
    with tempfile.TemporaryDirectory(prefix="wrong-bodies-") as rooms, concurrent.futures.ThreadPoolExecutor(lanes) as pool:
        work = Work(first, later, most, rooms)
        return [it for ran in [pool.submit(lane, work, tell, until, may_wait) for _ in range(lanes)] for it in ran.result()]


def tell_of_the_rest(left, others, tried_ones):
    """Tells how many were not tried, and why."""
    total = tried_ones + len(left) + others
    if others:
        print(f"{others} of {total} wrong bodies and right variants have their turn with another commit")
    if left:
        print(f"{len(left)} of {total} wrong bodies and right variants were not tried, for want of time: {', '.join(sorted(it.name for it in left))}")
    if others or left:
        print("python3 tools/wrong_bodies.py tries all")


def main(words):
    begun = time.monotonic()
    how = next((it for it in words if it.startswith("--")), "")
    names = [it for it in words if not it.startswith("--")]
    if how not in ("", "--anew", "--record", "--alone", "--explain", "--list", "--within") or how == "--within" and not (names and names[0].isdigit()) or how == "--record" and any("/" in it for it in names):
        print(__doc__)
        return 2
    until = begun + int(names.pop(0)) if how == "--within" else None
    found = read_edits(names, how == "--explain")
    if found is None:
        return 1
    if how == "--list":
        for edit in (it for edits in found.values() for it in edits):
            print(f"{edit.label}: {edit.function}: {', '.join(edit.clauses) or edit.says}")
        return 0
    verdicts, shown, all_found = [], {}, found

    def tell(trial):
        well, text = trial.told
        if how == "--explain":
            well, text = True, f"{text} [open: {', '.join(trial.said.open) or 'none'}; {trial.said.line}]"
        print(f"{trial.edit.label}: {text}", flush=True)
        verdicts.append(well)
        if well:
            shown[trial.edit] = trial.out
        if well and how != "--explain":
            keep(trial.edit, text, trial.out)

    tried_before = {crate: outs_of(crate, edits) for crate, edits in found.items()}
    if how in ("", "--within", "--record"):
        found = not_kept(found, verdicts, shown)
    build_below(found)
    first, later, others = parted(found, tried_before) if how == "--within" else (found, {}, 0)
    left = in_lanes(first, later, 1 if how == "--alone" else MOST if until is None else MOST_WITHIN, tell, until)
    tell_of_the_rest(left, others, len(verdicts))
    if how == "--record":
        write_record({crate: {it: shown[it] for it in edits} for crate, edits in all_found.items() if all(it in shown for it in edits)})
    passed = sum(verdicts)
    print(f"{passed} passed, {len(verdicts) - passed} failed")
    return 0 if passed == len(verdicts) else 1


if __name__ == "__main__":
    sys.exit(main(sys.argv[1:]))
