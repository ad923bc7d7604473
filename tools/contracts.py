"""The functions of the sources with the clauses of their contracts, and what `impl` blocks there are."""
import functools
import glob
import re

COMMENT = re.compile(r'//[^\n]*|"(?:\\.|[^"\\])*"|b?\'(?:\\.|[^\'\\])\'')
ITEM = re.compile(r"\b(impl|trait|fn)\b|[{}]")
CLAUSE = re.compile(r"\b(requires|ensures)\*?\s*(\w*)\s*$")
OTHER_CLAUSE = re.compile(r"\b(decreases|ghost\s+\w+)\s*$")


class Function:
    """A function, with the type or trait that it stands in, if any, and the texts of its `ensures` by their names, '' for one without."""

    def __init__(self, owners, name, public, ensures):
        self.owners, self.name, self.public, self.ensures = owners, name, public, ensures


def after_braces(text, at):
    """The place after the '}' that closes the '{' at a place."""
    depth = 0
    for k in range(at, len(text)):
        depth += (text[k] == "{") - (text[k] == "}")
        if depth == 0:
            return k + 1
    return len(text)


def without_generics(text):
    """A text without what stands in angle brackets; '->' closes none."""
    kept, depth = [], 0
    for k, c in enumerate(text):
        if c == "<":
            depth += 1
        elif c == ">" and text[k - 1] != "-":
            depth -= 1
        elif depth == 0:
            kept.append(c)
    return "".join(kept)


def owners_of(header):
    """The names of the trait and the type of `impl Trait for Type`, `impl Type` or `trait Trait`."""
    parts = re.split(r"\bfor\b", re.split(r"\bwhere\b", without_generics(header))[0])
    names = [re.findall(r"\w+", re.split(r":(?!:)", part)[0]) for part in parts]
    return [words[-1] for words in names if words]


def signature(text, at):
    """The clauses of a function whose name ends at a place, and the place after its body or its ';'."""
    ensures, start, depth, k = {}, at, 0, at
    while k < len(text):
        c = text[k]
        depth += (c in "([") - (c in ")]")
        if c == ";" and depth == 0:
            return ensures, k + 1
        if c == "{" and depth == 0:
            clause = CLAUSE.search(text, start, k)
            end = after_braces(text, k)
            if not clause and not OTHER_CLAUSE.search(text, start, k):
                return ensures, end
            if clause and clause[1] == "ensures":
                ensures[clause[2]] = text[k + 1 : end - 1].strip()
            start = k = end
            continue
        k += 1
    return ensures, k


def functions(text):
    """The functions of a source file."""
    text = COMMENT.sub(lambda m: " " * len(m[0]), text)
    found, stack, at = [], [], 0
    while item := ITEM.search(text, at):
        at = item.end()
        if item[0] == "{":
            stack.append([])
        elif item[0] == "}":
            if stack:
                stack.pop()
        elif item[1] == "fn":
            name = re.compile(r"\s*(\w+)").match(text, at)
            if not name:
                continue
            owners = stack[-1] if stack else []
            line = text[text.rfind("\n", 0, item.start()) + 1 : item.start()]
            ensures, at = signature(text, name.end())
            public = "pub" in line.split() or len(owners) == 2 or bool(owners) and owners[0].startswith("trait ")
            found.append(Function(owners, name[1], public, ensures))
        else:
            brace = text.find("{", at)
            if brace < 0:
                break
            owners = owners_of(text[at:brace])
            stack.append([f"trait {owners[0]}"] if item[1] == "trait" and owners else owners)
            at = brace + 1
    return found


@functools.cache
def in_file(path):
    """The functions of a file."""
    with open(path, encoding="utf-8") as source:
        return functions(source.read())


@functools.cache
def impls(crate):
    """Each `impl Trait for Type` of a crate, with the ghost members that it gives and their texts."""
    found = {}
    for path in glob.glob(f"crates/{crate}/src/**/*.rt", recursive=True):
        with open(path, encoding="utf-8") as source:
            text = COMMENT.sub(lambda m: " " * len(m[0]), source.read())
        for head in re.finditer(r"^impl\b[^{;]*\bfor\b[^{;]*\{", text, re.M):
            owners = owners_of(head[0][len("impl") : -1])
            body = text[head.end() : after_braces(text, head.end() - 1)]
            ghosts = {it[1]: it[2].strip() for it in re.finditer(r"\bghost (\w+) = \{([^}]*)\}", body)}
            if len(owners) == 2:
                found.setdefault(tuple(owners), {}).update(ghosts)
    return found


@functools.cache
def empty_words():
    """The words of specs/ whose one equation says nothing."""
    texts = {}
    for path in glob.glob("crates/*/specs/**/*.antt", recursive=True):
        with open(path, encoding="utf-8") as source:
            for line in re.finditer(r"^(\w+)\b[^\n:]*=\s*(.*)$", source.read(), re.M):
                texts.setdefault(line[1], []).append(line[2])
    return {name for name, found in texts.items() if all(is_nothing(it) for it in found)}


def is_nothing(text):
    """Whether a clause says nothing: no text, `Unit`, `⊤`, or an equation of one thing with itself."""
    text = re.sub(r"^\(?λ[^.]*\.", "", text.strip()).strip()
    left, equals, right = text.partition("≡")
    return re.fullmatch(r"(Unit|⊤|True|tt)?( *\{0\})?\)*", text) is not None or equals == "≡" and left.strip() == right.strip()


def is_empty(clause):
    """Whether a clause of a contract says nothing, of itself or by the one word that it has."""
    return is_nothing(clause) or re.match(r"\w*", clause)[0] in empty_words()
