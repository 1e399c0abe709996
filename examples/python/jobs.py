"""Three workers take numbers out of a queue and add their squares, from Python, with the helpers of the package. The
program may be killed at any moment, and is simply run again: each number is added once.

usage: jobs.py IMAGE [JOBS]      It makes the image where there is none. There are JOBS numbers (40), from 1 on.
"""
import contextlib
import sys
import threading
from concurrent.futures import CancelledError

import luntrebis
from luntrebis import Counter, Queue

WORKERS = range(2, 5)


def make(one, blocks, jobs):
    """Puts the numbers that weren't put yet. Each is a unit of work."""
    made = Counter(one, blocks.made)
    while (last := made.read()) < jobs:
        Queue(one, blocks.queue).put(last + 1)
        made.add()
        one.done()
    one.done()


def work(one, blocks, jobs):
    """Adds squares until the image is closed. Whoever adds the last one says so."""
    with contextlib.suppress(CancelledError, ValueError):
        while True:
            job = Queue(one, blocks.queue).get()
            Counter(one, blocks.total).add(job * job)
            if Counter(one, blocks.over).add() == jobs:
                one.store(blocks.end[0], jobs).result()
            one.done()


def report(image, blocks):
    """Keeps a text with the result twenty times, once all is added, and returns a line of it."""
    with image.lease() as one:
        jobs = one.fetch(blocks.end[0]).result()
    reader, writer = image.element(5), image.element(6)
    text = f"the squares of {jobs} numbers are {Counter(reader, blocks.total).read()}\n" * 20
    reader.done()
    luntrebis.store_bytes(writer, blocks.text, blocks.stored, text.encode())
    with image.lease() as one:
        kept = luntrebis.fetch_bytes(one, blocks.text).decode()
    assert kept == text, kept
    return kept.splitlines()[0]


def main(path, jobs="40"):
    with luntrebis.Shared.open_or_create(path, cells=512, elements=16, slots=64) as image:
        counters = {it: Counter.cells() for it in ("made", "total", "over", "stored")}
        blocks = luntrebis.layout(image, queue=Queue.cells(8), text=("i", 256), end=("i", 1), **counters)
        calls = [(make, 1), *((work, it) for it in WORKERS)]
        for call, number in calls:
            threading.Thread(target=call, args=(image.element(number), blocks, int(jobs)), daemon=True).start()
        print(report(image, blocks))


main(*sys.argv[1:])
