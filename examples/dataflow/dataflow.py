"""Runs a program of programs.py on the machine. It may be killed at any moment, and is simply run again.

usage: dataflow.py PROGRAM IMAGE [--size N] [--serve IMEM | --sqlite] [--time]      PROGRAM is wavefront, histogram,
roots, sorting or product

IMAGE is made if there is none. It is opened by the library, or with --serve by the program IMEM; with --sqlite it is a
database in place of an image. It needs the package luntrebis: pip install packages/python, or
PYTHONPATH=packages/python. It prints each result, and whether plain Python has the same; with --time also how
long the machine took.
"""
import argparse
import asyncio
import os
import subprocess
import time

import luntrebis.aio
import machine
from programs import PROGRAMS

SECONDS = 5


def report_of(path, imem):
    """Returns the report of an image, which a program that was killed may still have for a moment."""
    if not os.path.exists(path):
        return ""
    if imem:
        told = subprocess.run([imem, "inspect", path, "--wait", str(SECONDS)], capture_output=True, text=True)
        if told.returncode:
            raise OSError(told.stderr.strip() or told.stdout.strip())
        return told.stdout
    for _ in range(100 * SECONDS):
        try:
            return luntrebis.inspect(path)
        except BlockingIOError:
            time.sleep(0.01)
    return luntrebis.inspect(path)


async def opened(path, graph, imem, by_sqlite):
    """Returns the memory, and the report of what it was before."""
    if by_sqlite:
        from sqlite_memory import SqliteMemory

        memory = SqliteMemory(path)
        return memory, memory.report()
    report, sizes = report_of(path, imem), {"cells": graph.arcs + graph.accumulators, "elements": 16, "slots": 1024}
    if imem:
        return await luntrebis.aio.serve(path, imem, **sizes), report
    return await luntrebis.aio.open_or_create(path, **sizes), report


async def main():
    taken = argparse.ArgumentParser(usage=argparse.SUPPRESS, description=__doc__)
    taken.add_argument("program", choices=PROGRAMS)
    taken.add_argument("image")
    taken.add_argument("--size", type=int)
    taken.add_argument("--serve")
    taken.add_argument("--sqlite", action="store_true")
    taken.add_argument("--time", action="store_true")
    words = taken.parse_args()
    graph, wanted = PROGRAMS[words.program](*([words.size] if words.size else []))
    memory, report = await opened(words.image, graph, words.serve, words.sqlite)
    start = time.perf_counter()
    results = await machine.run(graph, memory, report)
    took = time.perf_counter() - start
    await memory.close()
    for name, value in results.items():
        print(name, value)
    print("as plain Python has it" if results == wanted else f"PLAIN PYTHON HAS {wanted}")
    if words.time:
        print(f"seconds {took:.3f}")
    return 0 if results == wanted else 1


raise SystemExit(asyncio.run(main()))
