"""Proves a program or a static library with all that it stands on, as the gate does, for the scripts beside this file.

`rt ci` runs in a copy of these crates alone, without their wrong bodies. It takes what an earlier run on this machine
proved of the same files, so after `make test` nothing is left to prove.
"""
import os
import re
import shutil
import subprocess
import sys
import tempfile
import time
from pathlib import Path

import sources
import toolchain

RUN = ("stdin", "stdout", "args", "status", "data")  # What the gate runs a program on.
ROOM_FOR_A_JOB = 5 << 30  # Bytes of memory: the largest crates take some four gigabytes.
SAID = re.compile(r"rt: (\w+) (?:(proved)$|is (kept):)")


def jobs():
    memory = os.sysconf("SC_PAGE_SIZE") * os.sysconf("SC_PHYS_PAGES")
    return max(1, min(len(os.sched_getaffinity(0)), memory // ROOM_FOR_A_JOB))


def prove(room, crate):
    """Proves a crate and those that it stands on, in this folder. Prints how far it is, and what was said if it fails.
    Returns the crate's folder, or None."""
    crates, start, done, said = sources.below([crate]), time.time(), 0, []
    sources.copied(room, crates, RUN)
    (room / ".git").mkdir()  # It is the top of a repository.
    words = {"cwd": room, "stdin": subprocess.DEVNULL}
    with subprocess.Popen([sys.executable, toolchain.__file__], stdout=subprocess.PIPE, stderr=subprocess.STDOUT, text=True, errors="replace", **words) as ran:
        for line in ran.stdout:
            said.append(line)
            if found := SAID.match(line):
                done += 1
                how = "proved" if found[2] else "proved by an earlier run"
                print(f"{done} of {len(crates)}: {found[1]} {how}, after {time.time() - start:.0f} s", flush=True)
    if ran.returncode:
        print(f"NOT PROVED\n{''.join(said)[-5000:]}")
        return None
    return room / "crates" / crate


def build_program(crate, to):
    """Proves a program, and leaves it there. Whether it is proved."""
    sources.need_rt()
    with tempfile.TemporaryDirectory(prefix="proved-") as room:
        folder = prove(Path(room), crate)
        if folder:
            to.parent.mkdir(exist_ok=True)
            shutil.copy2(folder / "out" / crate, f"{to}.new")
            os.replace(f"{to}.new", to)
    return folder is not None


def build_library(crate, to):
    """Proves a static library, and leaves its archive there. Returns what the prover said of it, or None.

    `rt ci` leaves no archive, and `rt lib` would prove all below once more. So the library alone is proved again, over those that
    `rt ci` proved, by the compiler, which then writes it.
    """
    sources.need_rt()
    with tempfile.TemporaryDirectory(prefix="proved-") as room:
        folder = prove(Path(room), crate)
        if not folder:
            return None
        to.parent.mkdir(exist_ok=True)
        ran = subprocess.run([sources.kit() / "bin" / "rattle", *words_for(crate, to)], cwd=folder, stdin=subprocess.DEVNULL, capture_output=True, text=True)
    said = (ran.stdout + ran.stderr).strip()
    if ran.returncode:
        print(f"{crate}: NOT BUILT\n{said[-3000:]}")
        return None
    return said.splitlines()[-1]


def words_for(crate, to):
    """Yields the words with which `rattle` proves and builds a static library in its folder."""
    made, own, below = sources.kit(), sources.rows()[crate][1], sources.below([crate])
    yield from ("build", "--crate-name", crate, "src/lib.rt", "--crate-type", "staticlib", "--links", f"{crate}=")
    for name in ["std", *own]:
        yield from ("--extern", f"{name}={f'../{name}/out' if name in below else made}/{'rlib' if name in below else 'rlibs'}/{name}.rlib")
    for place in (made / "rlibs", *(f"../{it}/out/rlib" for it in below if it != crate)):
        yield from ("-L", f"dependency={place}")
    yield from ("--antt-project", made / "rattle/logic/antt-project.json", "--logic-built", made / "logic_built")
    yield from ("--jobs", str(jobs()), "--toolchain", made / "toolchain", "--backend", "llvm", "-o", to)
