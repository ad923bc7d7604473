"""What earlier trials of edits are known to have shown: on this machine, and in the repository.

On this machine what an edit showed is kept by the checksum of all that decides it: the kit, the scripts, the edit but for its comments, and the files of its crate and of those below.

In tools/tried.txt, which is committed, stands of each crate whose edits were all tried and judged right (`python3 tools/wrong_bodies.py --record`) the checksum of what they were tried on:
the edits but for their comments, and the files of the crate and of those below. Below it stand the answers by hand that no longer fitted an edit and were taken out, by the edit's name."""
import functools
import hashlib
import os
import subprocess
import tempfile

RECORD = "tools/tried.txt"
HEAD = "# Which crates' wrong bodies and right variants were all tried as they stand, and judged right; written by `python3 tools/wrong_bodies.py --record`"


@functools.cache
def uses():
    """What each crate of the repository uses."""
    found = {}
    with open("crates.txt", encoding="utf-8") as it:
        for line in it:
            left, _, right = line.partition("#")[0].partition(":")
            if left.strip():
                found[left.split()[0]] = right.split()
    return found


@functools.cache
def below(crate):
    """The crates of the repository that this one uses, and those that they use."""
    found, next_ones = set(), [crate]
    while next_ones:
        for it in uses().get(next_ones.pop(), []):
            if it in uses() and it not in found:
                found.add(it)
                next_ones.append(it)
    return found


@functools.cache
def kit():
    """The kit's own name, with its logic."""
    return subprocess.run(["rt", "version"], stdout=subprocess.PIPE, check=True).stdout


@functools.cache
def files_of(crate):
    """A checksum of what stands in the crate's folders of code, definitions and proofs."""
    sums = hashlib.sha256()
    for part in ("src", "specs", "proofs"):
        for at, folders, names in os.walk(f"crates/{crate}/{part}"):
            folders.sort()
            for name in sorted(names):
                with open(f"{at}/{name}", "rb") as it:
                    sums.update(f"{at}/{name}\0{hashlib.sha256(it.read()).hexdigest()}\n".encode())
    return sums.hexdigest()


def texts_of(crate):
    """What the crate and those below it use, and the checksums of their files."""
    return "".join(f"{it}: {' '.join(uses()[it])}\n{files_of(it)}\n" for it in sorted({crate, *below(crate)})).encode()


def place_of(edit):
    """Where it is kept what the edit showed."""
    sums = hashlib.sha256(kit() + repr(edit.meaning()).encode())
    here = os.path.dirname(os.path.abspath(__file__))
    for path in (f"{here}/{it}.py" for it in ("wrong_bodies", "kept_trials", "edits", "verdicts")):
        with open(path, "rb") as it:
            sums.update(hashlib.sha256(it.read()).digest())
    sums.update(texts_of(edit.crate))
    home = os.environ.get("XDG_CACHE_HOME") or os.path.expanduser("~/.cache")
    return f"{home}/wrong-bodies/{sums.hexdigest()}"


def kept(edit):
    """What was said of the edit when it showed what it must here, and the answers that were taken out, if it did."""
    try:
        with open(place_of(edit), encoding="utf-8") as it:
            text, _, names = it.read().partition("\n")
            return text, frozenset(names.split())
    except OSError:
        return None


def keep(edit, text, out):
    """Keeps that the edit showed what it must, without these answers."""
    place = place_of(edit)
    try:
        os.makedirs(os.path.dirname(place), exist_ok=True)
        with tempfile.NamedTemporaryFile("w", encoding="utf-8", dir=os.path.dirname(place), delete=False) as it:
            it.write(f"{text}\n{' '.join(sorted(out))}")
        os.replace(it.name, place)
    except OSError as why:
        print(f"wrong bodies: what was found is not kept: {why}", flush=True)


def sum_of(crate, edits):
    """The checksum of what these edits of the crate are tried on."""
    sums = hashlib.sha256(repr(sorted((it.name, repr(it.meaning())) for it in edits)).encode())
    sums.update(texts_of(crate))
    return sums.hexdigest()


@functools.cache
def record():
    """What stands in the record: of each crate its checksum, and of its edits the answers that are taken out."""
    found = {}
    if os.path.exists(RECORD):
        with open(RECORD, encoding="utf-8") as it:
            for line in it:
                name, _, rest = line.rstrip("\n").partition(" ")
                crate, is_edit, _ = name.partition("/")
                if is_edit:
                    found[crate][1][name] = frozenset(rest.split())
                elif name != "#":
                    found[crate] = rest, {}
    return found


def outs_of(crate, edits):
    """The answers that are taken out for each of the crate's edits that lacks some, by name, where all edits were tried as they stand; else nothing."""
    was, outs = record().get(crate, ("", {}))
    return outs if was == sum_of(crate, edits) else None


def write_record(of_crates):
    """Puts into the record the edits of these crates, each with the answers that were taken out."""
    all_of = {**record(), **{crate: (sum_of(crate, outs), {it.name: names for it, names in outs.items() if names}) for crate, outs in of_crates.items()}}
    lines = [HEAD]
    for crate, (was, outs) in sorted(all_of.items()):
        lines += [f"{crate} {was}", *(f"{name} {' '.join(sorted(names))}" for name, names in sorted(outs.items()))]
    with open(RECORD, "w", encoding="utf-8") as it:
        it.write("\n".join(lines) + "\n")
