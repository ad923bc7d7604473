#!/usr/bin/env python3
"""The public calls that can answer want of memory, by docs/API.md, and the steps of refusals/ that make them.

    python3 tools/refusable.py      lists the calls, each with how many steps are named after it; the status is 1 where a call has none

A call can answer want of memory if its result names `AllocError`, `AllocFailed`, or a type that has `OutOfMemory` or holds such a type.
A step is named after the call that it makes: `ITEM::CALL ..`, or of a function in no item, `MODULE::CALL ..`."""
import os
import re
import sys

TOP = os.path.dirname(os.path.dirname(os.path.abspath(__file__)))
# calls that take no memory, whatever their type allows, and why: they have steps, of which none can be refused
TAKES_NONE = {
    "TryDefault::try_default": "each kind of storages begins without memory",
    "register": "each kind of storages begins without memory",
    "empty": "each kind of storages begins without memory",
    "Core::register": "each kind of storages begins without memory",
    "Storages::register": "each kind of storages begins without memory",
    "get": "a copy of a component takes none",
    "events": "the list of the events is handed over",
    "Storages::read": "the list of the events is handed over",
    "drop_reader": "a reader is taken out",
    "Storages::drop_reader": "a reader is taken out",
    "emit": "a flag is set",
    "Storages::set_event_emission": "a flag is set",
    "ConvertSaveload::convert_from": "no conversion back makes a list or a text",
    "JsonData::take": "numbers alone are taken off a text",
    "JsonPlaces::take": "numbers alone are taken off a text",
    "JoinParIter::count": "it walks the mask in the caller's thread",
}


def result_of(signature):
    """What stands behind the arrow of a function, outside of every bracket."""
    depth, at = 0, 0
    while at < len(signature):
        if signature.startswith("->", at):
            if depth == 0:
                return signature[at + 2:].strip()
            at += 2
            continue
        depth += {"(": 1, "<": 1, "[": 1, ")": -1, ">": -1, "]": -1}.get(signature[at], 0)
        at += 1
    return ""


def wanting(text):
    """The types that can say that memory was refused."""
    sections = re.split(r"^### ", text, flags=re.M)
    types = {"AllocError", "AllocFailed"}
    bodies = {m[1]: body for body in sections if (m := re.match(r"(?:enum|struct) `(\w+)`", body))}
    for name, body in bodies.items():
        if re.search(r"^- `OutOfMemory\b", body, re.M):
            types.add(name)
    while True:
        more = {name for name, body in bodies.items() if name not in types and set(re.findall(r"\w+", " ".join(held_in(body)))) & types}
        if not more:
            return types
        types |= more


def held_in(body):
    """The lines of the variants and the public fields of a type, without its functions."""
    return [it for it in re.findall(r"^- `([^`]*)`", body, re.M) if "fn " not in it]


def read(path):
    with open(f"{TOP}/{path}", encoding="utf-8") as it:
        return it.read()


def calls(text=None):
    """The calls, in the order of the document: `ITEM::CALL`, or the name of a function in no item, which may stand several times."""
    text = text or read("docs/API.md")
    types, item, found = wanting(text), None, []
    for line in text.split("\n"):
        if head := re.match(r"### (\w+) `(\w+)`", line):
            item = None if head[1] == "fn" else head[2]
        call = re.match(r"(- )?`(?:pub |final )*fn (\w+)([^`]*)`", line)
        if call and (set(re.findall(r"\w+", result_of(call[3]))) & types or re.search(r"Self::Refused|Result<Self, String>", result_of(call[3]))):
            found.append(f"{item}::{call[2]}" if call[1] else call[2])
    return found


def made_by(call, steps):
    """The first words of the steps that are named after a call."""
    words = {it.split(" ")[0] for it in steps if it}
    return {it for it in words if it == call or "::" not in call and it.split("::")[-1] == call and it.split("::")[0][0].islower()}


def missing(wanted, refused):
    """What is wrong, where these steps were refused: a call that no refused step is named after."""
    faults = []
    for call in dict.fromkeys(wanted):
        made, asked = len(made_by(call, refused)), wanted.count(call)
        if call not in TAKES_NONE and made < asked:
            faults.append(f"{call} was refused in no step" if asked == 1 else f"{call} stands {asked} times in docs/API.md, and was refused in the steps of {made}")
        if call in TAKES_NONE and made:
            faults.append(f"{call} was refused memory: tools/refusable.py says that {TAKES_NONE[call]}")
    return faults


def steps_in_sources():
    """The names of the steps, as they stand in the sources."""
    folder = f"{TOP}/refusals/src"
    texts = [read(f"refusals/src/{it}") for it in sorted(os.listdir(folder))]
    return [name for text in texts for name in re.findall(r'"((?:\w+::)+\w+ [^"\n]*|(?:\w+::)+\w+)"', text)]


def main():
    wanted, steps, status = calls(), steps_in_sources(), 0
    for call in dict.fromkeys(wanted):
        made = len(made_by(call, steps))
        print(call, sum(it.split(" ")[0] in made_by(call, steps) for it in steps))
        status = status or int(made < wanted.count(call))
    print(f"{len(wanted)} calls")
    return status


if __name__ == "__main__":
    sys.exit(main())
