#!/usr/bin/env python3
"""`rt try` without the second process that it starts beside each: that one reads all sources once more, only to tell early of a name that a check will refuse,
and takes about as much of a processor as the first. What is tried by these tools is checked by the gate.

    python3 tools/rt_try.py WORD..      as rt try WORD..

Where the kit has another form, it is `rt try` itself."""
import importlib.machinery
import importlib.util
import os
import shutil
import sys


def command():
    """The kit's command rt as a module, whose main takes the words."""
    path = os.path.realpath(shutil.which("rt") or sys.exit("the command rt is not on the PATH"))
    if not os.path.isfile(f"{os.path.dirname(path)}/rtlib.py"):
        raise ImportError
    sys.path.insert(0, os.path.dirname(path))
    loader = importlib.machinery.SourceFileLoader("rt", path)
    found = importlib.util.module_from_spec(importlib.util.spec_from_loader("rt", loader))
    loader.exec_module(found)
    return found


def main_without_names():
    """The main of rt, whose `try` starts that process as one that ends at once."""
    rt = command()
    if not callable(rt.main) or "RATTLE" not in rt.rtlib.Crate.try_unproved.__code__.co_names:
        raise AttributeError
    rt.rtlib.RATTLE = "true"
    return rt.main


if __name__ == "__main__":
    sys.dont_write_bytecode = True
    words = ["try", *sys.argv[1:]]
    try:
        main = main_without_names()
    except (AttributeError, ImportError, SyntaxError):
        os.execvp("rt", ["rt", *words])
    sys.exit(main(words))
