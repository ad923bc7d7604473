"""Rooms for programs that are tried and not proved: copies of the sources of the repository's crates with one crate more, whose sources stand outside of
crates/ and end in .src, since `rt ci` proves each .rt file of the repository."""
import os
import re
import shutil
import sys

TOP = os.path.dirname(os.path.dirname(os.path.abspath(__file__)))
# the words of `rt try`, as these tools call it
TRY = (sys.executable, f"{TOP}/tools/rt_try.py")


def words_of(file):
    """The words of a file of the repository, none where it is not there."""
    if not os.path.exists(f"{TOP}/{file}"):
        return []
    with open(f"{TOP}/{file}", encoding="utf-8") as it:
        return it.read().split()


def copy_crates(room):
    """Copies the repository's crates, and what names them, into a folder."""
    shutil.copytree(f"{TOP}/crates", f"{room}/crates", ignore=lambda _, names: [it for it in names if it == "out"])
    for it in ("crates.txt", "HANDLES"):
        shutil.copy(f"{TOP}/{it}", room)


def make_room(room, name, uses, sources, without=()):
    """Makes a room in a folder, and answers the folder of its crate. The sources are files of the repository, by the name of each in src/.

    Crates that the program does without can be left out: no crate of the room stands on them, and where a crate hands on something of theirs (`pub use`),
    that line is left out too, and so it is in the crates above. What else names them is refused by `rt try`."""
    with open(f"{TOP}/crates.txt", encoding="utf-8") as it:
        lines = [line.partition("#")[0].partition(":") for line in it]
    below = {head: [it for it in words.split() if it not in without] for head, colon, words in lines if colon and head.split()[0] not in without}
    crates = [head.split()[0] for head in below]
    for it in crates:
        shutil.copytree(f"{TOP}/crates/{it}/src", f"{room}/crates/{it}/src")
    with open(f"{room}/crates.txt", "w", encoding="utf-8") as it:
        it.writelines(f"{head}: {' '.join(words)}\n" for head, words in (*below.items(), (name, uses)))
    if without:
        hand_nothing_on([f"{room}/crates/{it}/src/lib.rt" for it in crates], crates, without)
    for to, path in sources.items():
        place = f"{room}/crates/{name}/src/{to}"
        os.makedirs(os.path.dirname(place), exist_ok=True)
        shutil.copy(f"{TOP}/{path}", place)
    return f"{room}/crates/{name}"


def hand_nothing_on(paths, crates, without):
    """Takes out of these files the lines that hand on what is of crates that are left out. Each word of another crate that is handed on has a line of its own."""
    texts = {}
    for path in filter(os.path.exists, paths):
        with open(path, encoding="utf-8") as it:
            texts[path] = it.read()
    of_those = rf"^pub use (?:{'|'.join(without)})::(\w+);$"
    words = {it for text in texts.values() for it in re.findall(of_those, text, re.M)}
    for path, text in texts.items():
        lines = re.sub(r"^pub use (\w+)::(\w+);\n", lambda it: "" if it[2] in words and it[1] in {*crates, *without} else it[0], text, flags=re.M)
        with open(path, "w", encoding="utf-8") as it:
            it.write(lines)
