"""The toolchain's command `rt` as a module, for the scripts beside this file.

As a program it runs `rt ci` here, with two things changed. `rt ci` gives a crate that others wait for each processor
that is free, if the memory suffices. It reckons with five times the memory that the crates here take, so the last
ones, each of which waits for the one before, would be proved on one processor. And a crate keeps the processors that it
began with to its end, though its last functions need one: so half as many more are given out as there are.
"""
import importlib.machinery
import importlib.util
import os
import shutil
import sys
from pathlib import Path

ROOM_FOR_A_PROOF = 5 << 29  # Bytes of memory. With one job no crate was seen to take two thirds of it.


def command():
    """Returns the command `rt` as a module."""
    path = Path(os.path.realpath(shutil.which("rt")))
    loader = importlib.machinery.SourceFileLoader("rt_command", str(path))
    made = importlib.util.module_from_spec(importlib.util.spec_from_loader("rt_command", loader))
    loader.exec_module(made)
    return made


def main():
    rt = command()
    there = rt.processors()
    rt.need, rt.processors = lambda crate: ROOM_FOR_A_PROOF, lambda: there + there // 2
    return rt.main(["ci"])


if __name__ == "__main__":
    sys.exit(main())
