#!/usr/bin/env python3
"""Makes docs/API.md of the public items of the libraries: their `///`, their signatures, what a call requires, and what a trait asks of who implements it, without
what is ensured and without bodies.

    python3 tools/api.py [--check]

--check writes nothing: it fails where a public item has no `///`, or where docs/API.md is not what this makes. Run at the top of the repository."""
import os
import re
import sys

LIBRARIES = ["pages", "hibits", "entities", "storages", "joins", "joins_parallel", "phase_threads", "key_index", "saveload", "specs", "composed", "script_slots", "specs_run"]
ITEM = re.compile(r"pub (?:(?:unsafe|const|final) )*(struct|enum|trait|fn|const|type) (\w+)")
METHOD = re.compile(r"(?:pub )?(?:(?:unsafe|const|final) )*(fn|type|const) (\w+)")
GHOST = re.compile(r"ghost (\w+): \{ (.*) \};$")
REQUIRES = re.compile(r"requires(?: (\w+))? \{ (.*) \}$")
STOPS = ("requires", "ensures", "ghost ", "{", "#[")


class Item:
    """A public item: what it is, its name, its `///`, its signature, and the items inside it."""

    def __init__(self, kind, name, doc, signature, where):
        self.kind, self.name, self.doc, self.signature, self.where = kind, name, doc, signature, where
        self.inside, self.impls, self.requires = [], [], []


def sources(crate):
    for top, folders, names in os.walk(f"crates/{crate}/src"):
        folders.sort()
        for name in sorted(names):
            if name.endswith(".rt"):
                yield os.path.join(top, name)


def signature(lines, at, deep):
    """What stands from a line on up to the clauses or the body, in one line."""
    words = []
    for line in lines[at:]:
        text = line.strip()
        if words and (text.startswith(STOPS) or text.startswith("///")):
            break
        words.append(re.sub(r"\s*[{;]$", "", text.removesuffix("{}").rstrip()))
        if text.endswith(("{", ";", "{}")) and not text.endswith("({"):
            break
    told = re.sub(r"\s+", " ", " ".join(it for it in words if it)).replace("( ", "(").replace(",)", ")").replace(", )", ")").replace(", >", ">")
    return told.rstrip(" ,")


def requires(lines, at):
    """What a call of the function that begins at a line requires."""
    found = []
    for line in lines[at + 1 :]:
        text = line.strip()
        if it := REQUIRES.match(text):
            found.append(it[2])
        elif text in ("{", "}", "") or text.startswith(("///", "pub fn", "fn ", "final fn")):
            break
    return found


def body(lines, at, indent):
    """The lines of the block that begins at a line, up to the brace that ends it."""
    first = at
    while not lines[first].rstrip().endswith(("{", "{}", ";", "}")):
        first += 1
    if lines[first].rstrip().endswith(("{}", ";", "}")):
        return []
    found = []
    for line in lines[first + 1 :]:
        if line.startswith(indent + "}"):
            break
        found.append(line)
    return found


def pieces(lines, indent):
    """Each line of an indent that begins something, with the `///` before it; at what a trait asks in its own words the `//` before it."""
    doc, plain = [], []
    for number, line in enumerate(lines):
        text = line[len(indent) :]
        if not line.startswith(indent) or text.startswith((" ", "}", ")")):
            continue
        if text.startswith("///"):
            doc.append(re.sub(r"\[(`\w+`)\]\(crate::[\w:]+\)", r"\1", text[3:].removeprefix(" ")))
        elif text.startswith("//"):
            plain.append(text[2:].removeprefix(" "))
        elif text.startswith("#["):
            continue
        elif text:
            yield number, text, doc or (plain if GHOST.match(text) else [])
            doc, plain = [], []


def inside(kind, lines, at, where):
    """The fields, variants or methods of an item."""
    found = []
    for number, text, doc in pieces(body(lines, at, ""), "    "):
        block = body(lines, at, "")
        if kind == "trait":
            it = METHOD.match(text)
            if it:
                found.append(Item(it[1], it[2], doc, signature(block, number, 4), where))
                found[-1].requires = requires(block, number)
            elif it := GHOST.match(text):
                found.append(Item("ghost", it[1], doc, f"ghost {it[1]}: {it[2]}", where))
        elif kind == "enum":
            it = re.match(r"([A-Z]\w*)", text)
            if it and not text.startswith("ghost"):
                found.append(Item("variant", it[1], doc, text.rstrip(",").rstrip(" {"), where))
        elif kind == "struct":
            it = re.match(r"pub (\w+): ", text)
            if it:
                found.append(Item("field", it[1], doc, text.rstrip(","), where))
    return found


def module_of(crate, path):
    """The module that a file is, as `a::b`."""
    name = os.path.relpath(path, f"crates/{crate}/src")[: -len(".rt")]
    return name.replace("/", "::").removesuffix("::mod")


def read(crate):
    """Each public item of a crate by module and name, and the blocks `impl` of its files."""
    items, blocks = {}, []
    for path in sources(crate):
        with open(path, encoding="utf-8") as it:
            lines = it.read().split("\n")
        for at, text, doc in pieces(lines, ""):
            found = ITEM.match(text)
            if found:
                item = Item(found[1], found[2], doc, signature(lines, at, 0), path)
                item.requires = requires(lines, at) if found[1] == "fn" else []
                item.inside = inside(found[1], lines, at, path) if found[1] in ("struct", "enum", "trait") else []
                items[module_of(crate, path), found[2]] = item
            elif text.startswith(("impl", "unsafe impl")):
                blocks.append((signature(lines, at, 0), body(lines, at, ""), path))
    return items, blocks


def exported(crate, items):
    """The items that `lib.rt` makes public, in its order, and what it takes from other crates."""
    with open(f"crates/{crate}/src/lib.rt", encoding="utf-8") as it:
        text = it.read()
    own, others = [], []
    modules = set(re.findall(r"^(?:pub )?mod (\w+);", text, re.M))
    for name in re.findall(r"^pub mod (\w+);", text, re.M):
        own += [item for (module, _), item in items.items() if module == name or module.startswith(name + "::")]
    for path, names, alone in re.findall(r"^pub use ([\w:]+)::(?:\{([^}]*)\}|(\w+));", text, re.M):
        for name in [it.strip() for it in (names or alone).split(",") if it.strip()]:
            if path.split("::")[0] not in modules:
                others.append(f"{path}::{name}")
                continue
            near = [item for (module, at), item in items.items() if at == name and (module == path or module.startswith(path + "::"))]
            own += near[:1] or [item for (module, _), item in items.items() if module == f"{path}::{name}"]
    return own, others


def with_impls(own, blocks):
    """Puts the public methods of each type at its item, and the traits that it has."""
    named = {it.name: it for it in own}
    for header, block, path in blocks:
        found = re.match(r"(?:unsafe )?impl(?:<.*?>(?= [A-Z&(]))? (?:(.+?) for )?(.+?)(?: where .*)?$", header)
        if not found:
            continue
        target = re.match(r"&?(?:'\w+ )?(?:mut )?(?:\w+::)*(\w+)", found[2])
        item = named.get(target[1]) if target else None
        if item is None:
            continue
        if found[1]:
            item.impls.append(found[1])
            continue
        for number, text, doc in pieces(block, "    "):
            if text.startswith("pub ") and METHOD.match(text):
                it = METHOD.match(text)
                item.inside.append(Item(it[1], it[2], doc, signature(block, number, 4), path))
                item.inside[-1].requires = requires(block, number)


def page():
    """The page, and the public items that have no `///`."""
    told, bare = [], []
    told += ["# The public items", "", "Made by `python3 tools/api.py` from the sources; what each ensures stands in its clauses there, and docs/PROMISES.md says which carries what. A `ghost` line of a trait is what who implements it states: a word that its clauses use, or a law.", ""]
    for crate in LIBRARIES:
        if not os.path.isdir(f"crates/{crate}/src"):
            continue
        items, blocks = read(crate)
        own, others = exported(crate, items)
        with_impls(own, blocks)
        with open(f"crates/{crate}/src/lib.rt", encoding="utf-8") as it:
            told += [f"## `{crate}`", "", " ".join(line[3:].strip() for line in it.read().split("\n") if line.startswith("//!")), ""]
        for item in own:
            told += entry(item)
            bare += [f"{it.where}: {it.name}" for it in [item, *item.inside] if not it.doc and it.kind not in ("type", "ghost")]
        if others:
            told += ["It gives again, from the crates below: " + ", ".join(f"`{it}`" for it in others) + ".", ""]
    return "\n".join(told), bare


def asked(item):
    """What a call requires, in a sentence."""
    return "It requires " + ", and ".join(f"`{it}`" for it in item.requires) + "."


def entry(item):
    """The lines of one item."""
    told = [f"### {item.kind} `{item.name}`", "", f"`{item.signature}`", ""]
    told += [" ".join(item.doc).replace("  ", " "), ""] if item.doc else []
    told += [asked(item), ""] if item.requires else []
    told += [f"- `{it.signature}`" + (f": {' '.join(it.doc)}" if it.doc else "") + (f" {asked(it)}" if it.requires else "") for it in item.inside]
    told += [""] if item.inside else []
    traits = sorted({re.sub(r"<.*", "", it) for it in item.impls})
    told += ["Has the traits " + ", ".join(f"`{it}`" for it in traits) + ".", ""] if traits else []
    return told


def main(words):
    made, bare = page()
    for it in bare:
        print(f"a public item has no `///`: {it}")
    if words != ["--check"]:
        with open("docs/API.md", "w", encoding="utf-8") as it:
            it.write(made)
        return 1 if bare else 0
    with open("docs/API.md", encoding="utf-8") as it:
        same = it.read() == made
    if not same:
        print("docs/API.md is not what tools/api.py makes of the sources: run it again")
    return 0 if same and not bare else 1


if __name__ == "__main__":
    sys.exit(main(sys.argv[1:]))
