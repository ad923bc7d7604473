"""The edits that the gate tries on bodies: wrong ones in crates/NAME/wrong/, right ones in crates/NAME/right/."""
import os
import re

LINES = ("file", "fn", "clause", "says", "alone", "always", "beside", "old", "new")
FOLDERS = ("wrong", "right")


class Edit:
    """An edit of one crate. A wrong one names the clauses that it breaks, a right one the wrong ones beside which it stands, whose clauses it keeps."""

    def __init__(self, path):
        self.path = path
        _, self.crate, self.kind, file = path.split("/")
        self.name = f"{self.crate}/{file.removesuffix('.edit')}"
        self.changes, self.clauses, self.beside, self.strange = [], [], [], []
        self.function = self.says = None
        self.alone = self.always = self.tells = False
        # the answers by hand that are known not to fit
        self.out = frozenset()
        with open(path, encoding="utf-8") as it:
            lines = it.read().split("\n")
        self.tells = re.match(r"# \w+ \w+", lines[0]) is not None
        self.read(lines)
        self.own_clauses = list(self.clauses)

    def read(self, lines):
        file = old = None
        for line in lines:
            word, _, text = line.partition(":")
            text = text.removeprefix(" ")
            if word == "file":
                file = text.strip()
            elif word == "fn":
                self.function = text.strip()
            elif word == "clause":
                self.clauses.append(text.strip())
            elif word == "beside":
                self.beside.append(text.strip())
            elif word == "alone":
                self.alone = True
            elif word == "always":
                self.always = True
            elif word == "says":
                self.says = text.strip()
            elif word == "old":
                old = text
            elif word == "new":
                self.changes.append((file, old, text))
            elif line.strip() and not line.startswith("#"):
                self.strange.append(line)

    @property
    def is_right(self):
        return self.kind == "right"

    @property
    def label(self):
        return f"{'right variant' if self.is_right else 'wrong body'} {self.name}"

    def meaning(self):
        """All that decides what the edit shows."""
        return self.kind, self.crate, self.function, self.clauses, self.says, self.alone, self.changes

    def fault(self, explains=False):
        """Why the edit cannot be tried, if it cannot."""
        if self.strange:
            return f"a line is none of {', '.join(LINES)} or a comment: {self.strange[0]}"
        if not self.changes or any(None in it for it in self.changes):
            return "it lacks a line 'file:', 'old:' or 'new:'"
        if not explains and (why := self.fault_of_names()):
            return why
        for file, old, new in self.changes:
            source = f"crates/{self.crate}/{file}"
            if not file.startswith("src/"):
                return f"{file} is no code: an edit of a proof or a definition shows nothing"
            if not os.path.isfile(source):
                return f"there is no {source}"
            with open(source, encoding="utf-8") as it:
                count = it.read().count(old)
            if count != 1:
                return f"its old text stands {count} times in {source}"
            if old == new:
                return "it changes nothing"
        return None

    def fault_of_names(self):
        """Why what the edit names is not enough, if it is not."""
        if not self.function:
            return "it lacks a line 'fn:'"
        if not self.tells:
            return "its first line is no comment that says why"
        if self.is_right:
            return None if self.beside and not self.own_clauses and not self.says else "a right variant has lines 'beside:', and no 'clause:' or 'says:'"
        if self.beside or bool(self.clauses) == bool(self.says):
            return "a wrong body has lines 'clause:', or else one 'says:', and no 'beside:'"
        if "invariant_of" in self.clauses:
            return "`invariant_of` is no name of a clause: invariant_of-self or so is"
        return None


def edits_of(wanted=()):
    """The edits of each crate, or those that are wanted, and what is wrong with the folders."""
    found, faults = {}, []
    for crate in sorted(os.listdir("crates")):
        edits = []
        for kind in FOLDERS:
            folder = f"crates/{crate}/{kind}"
            for name in sorted(os.listdir(folder)) if os.path.isdir(folder) else []:
                if name.endswith(".edit"):
                    edits.append(Edit(f"{folder}/{name}"))
                else:
                    faults.append(f"{folder}/{name}: no file here ends otherwise than with .edit")
        faults += linked(edits)
        edits = [it for it in edits if not wanted or crate in wanted or it.name in wanted]
        if edits:
            found[crate] = edits
    named = {*found, *(it.name for edits in found.values() for it in edits)}
    faults += [f"{it}: there is no such crate or edit" for it in wanted if it not in named]
    return found, faults


def linked(edits):
    """Gives each right variant the clauses of the wrong bodies beside which it stands; tells what names none, and names that stand twice."""
    wrong, faults = {it.name: it for it in edits if not it.is_right}, []
    for edit in (it for it in edits if it.is_right):
        if edit.name in wrong:
            faults.append(f"{edit.path}: a wrong body has this name")
        for name in edit.beside:
            other = wrong.get(f"{edit.crate}/{name}")
            if other is None or other.function != edit.function or not other.clauses:
                faults.append(f"{edit.path}: {name} is no wrong body of its function that names a clause")
            else:
                edit.clauses += other.clauses
    return faults


def applied(folder, edits):
    """The texts of the crate's files that the edits change, by file; nothing where the edits cannot stand together."""
    texts = {}
    for edit in edits:
        for file, old, new in edit.changes:
            if file not in texts:
                with open(f"{folder}/{file}", encoding="utf-8") as it:
                    texts[file] = it.read()
            if texts[file].count(old) != 1:
                return None
            texts[file] = texts[file].replace(old, new)
    return texts
