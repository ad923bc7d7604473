"""What a check says of a function: which goals the search left open, and which answers by hand no longer fit."""
import os
import re

LEFT_OPEN = re.compile(r"^note: \S+ it is not proved that .*?\(`([^`]+)`\)", re.M)


def stands_for(clause, goal):
    """Whether a goal is of the clause: a clause's name, where the goal is of the function's own promise, or the name of a goal without one.

    The goal of a promise with names is `returns-..-clause-NAME..`, of one without `returns..`; `f-requires..` is what a call of f wants, and
    `invariant_of-self` what a type keeps: of these the clause is the goal's name as it begins."""
    place, _, name = goal.rpartition("-clause-")
    if re.fullmatch(r"\w+", clause) and place:
        return goal.startswith("returns") and name.split("-")[0] == clause
    if goal == clause or place == clause and "-" in clause and not goal.startswith("returns"):
        return True
    return not place and goal.startswith(clause + "-")


class Said:
    """What a check said of one function, whose line is `fn CRATE::PATH: ..`."""

    def __init__(self, text, crate, function):
        head = re.compile(rf"^fn {re.escape(crate)}::{re.escape(function)}: (.*)$", re.M)
        lines = list(head.finditer(text))
        self.line = lines[-1][1] if lines else None
        self.is_proved = self.line is not None and re.match(r"proved\b", self.line) is not None
        # for itself, and not for a function that it calls
        is_own = self.line is not None and re.match(r"(not proved|no proof)(?!: it calls)(?!; it waits)", self.line) is not None
        self.open = []
        if is_own:
            listed = [it for it in re.findall(r"`([^`]+)`", self.line.partition("did not prove")[2]) if "::" not in it]
            before = text[: lines[-1].start()]
            before = before[before.rfind("\nfn ") + 1 :]
            self.open = list(dict.fromkeys([*listed, *LEFT_OPEN.findall(before)]))
        self.is_refused = is_own
        # the sources themselves are refused, so that no function is looked at
        self.is_no_program = self.line is None and re.search(r"^src/\S+: error\[", text, re.M) is not None
        self.erring, self.errors = errors_in(text, function)
        # only then is what is not open proved; a function that is not proved for one that it calls has all of its own goals
        waits = self.line is not None and re.match(r"(not proved|no proof): it calls ", self.line) is not None
        self.is_whole = self.is_proved or not self.errors and (is_own and "did not prove" in self.line or waits)


def errors_in(text, function):
    """The answers of the function that no longer fit, and all errors in its files of proofs, each with the lines that go on."""
    folder = r"/\+?".join(re.escape(it) for it in function.split("::"))
    head = re.compile(rf"^\./proofs/\+?{folder}/(\w+)\.antt:\d+:\d+: error: (?:`([^`]+)`)?")
    erring, errors = set(), []
    for line in text.split("\n"):
        if found := head.match(line):
            errors.append(line)
            if found[1] == "Answers" and found[2]:
                erring.add(found[2])
    return erring, errors


def answers_of(crate_folder, function):
    """The file of the function's answers by hand, if it has one."""
    wanted = [it.lstrip("+") for it in function.split("::")]
    for at, _, names in os.walk(f"{crate_folder}/proofs"):
        if "Answers.antt" in names:
            path = os.path.relpath(at, f"{crate_folder}/proofs").split("/")
            if [it.lstrip("+") for it in path] == wanted:
                return f"{at}/Answers.antt"
    return None


def without(text, names):
    """A file of answers without those of these names, what they rest on among them, and without what is said directly above them."""
    parts = text.rstrip("\n").split("\n\n")
    kept = [it for it in parts if not any(re.search(rf"^(?:pub )?{re.escape(name)} :", it, re.M) for name in names)]
    return "\n\n".join(kept) + "\n"


def judge(said, edit):
    """Whether a wrong body is refused as it must be, or a right one accepted, and what to say; nothing where a further look may tell more."""
    if said.line is None:
        return False, f"NOT {'ACCEPTED' if edit.is_right else 'SHOWN'}: the check has no line for its function"
    if edit.is_right:
        return judge_right(said, edit)
    if said.is_proved or not said.is_refused:
        return False, f"NOT REFUSED: {said.line}"
    kept = [it for it in edit.clauses if not any(stands_for(it, goal) for goal in said.open)]
    if kept:
        return False, f"NOT SHOWN: {', '.join(kept)}; open: {', '.join(said.open) or 'none'}{'; ' + said.errors[0] if said.errors else ''}"
    return True, f"refused: {', '.join(dict.fromkeys(goal for it in edit.clauses for goal in said.open if stands_for(it, goal)))}"


def judge_right(said, edit):
    """Whether the right variant is accepted: no clause that the wrong bodies beside it break is left open."""
    broken = [goal for goal in said.open if any(stands_for(it, goal) for it in edit.clauses)]
    if broken or not said.is_whole:
        return False, f"NOT ACCEPTED: {', '.join(broken) or said.line}{'; ' + said.errors[0] if said.errors else ''}"
    return True, "accepted" + (f", but for: {', '.join(said.open)}" if said.open else "")
