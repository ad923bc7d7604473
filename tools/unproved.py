"""Programs that are built without a proof, to be run by themselves: `rt try` runs what it makes, and keeps nothing of it.

    python3 tools/unproved.py TO FOLDER NAME      makes the program of FOLDER/src, over the libraries that FOLDER/uses names, which is given its word

FOLDER/without, where there is one, names crates of which the program calls nothing, though a library that it uses hands them on: they are not read."""
import os
import re
import shutil
import subprocess
import sys
import tempfile

from rooms import TOP, TRY, make_room, words_of

# `rt try` ends with this line where the program ran to its end
ENDED = re.compile(r"^run=ended status=0 .*proved=no\n\Z", re.M)


def build(to, folder, name, by_word=False):
    """Makes the program of the sources in a folder of the repository, as a file, or says why there is none.

    The program is one that writes itself to the file that its standard input names, or its first word. It is built with checks, and brings an allocator of its own."""
    if os.path.exists(to):
        os.remove(to)
    uses, without = words_of(f"{folder}/uses"), words_of(f"{folder}/without")
    sources = {it.removesuffix(".src"): f"{folder}/src/{it}" for it in sorted(os.listdir(f"{TOP}/{folder}/src")) if it.endswith(".src")}
    room = tempfile.mkdtemp(prefix="unproved-")
    try:
        crate = make_room(room, name, uses, sources, without)
        words, told = (["--", to], "") if by_word else ([], to)
        it = subprocess.run([*TRY, "--steps", "1", *words], cwd=crate, input=told, capture_output=True, text=True, errors="replace", check=False)
    finally:
        shutil.rmtree(room)
    if it.returncode != 0 or not ENDED.search(it.stderr) or it.stdout:
        raise SystemExit(f"{name} is not built:\n{it.stdout}{it.stderr}"[-4000:])
    if not os.path.exists(to):
        raise SystemExit(f"{name} is not built: it wrote itself nowhere")
    with open(to, "rb") as program:
        if program.read(4) != b"\x7fELF":
            raise SystemExit(f"{name} is not built: what wrote itself is no program")
    os.chmod(to, 0o700)
    return to


if __name__ == "__main__":
    build(os.path.abspath(sys.argv[1]), sys.argv[2], sys.argv[3], by_word=True)
