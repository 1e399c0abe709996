"""Five threads add to one counter, from Python. The program may be killed at any moment, and is simply run again.

usage: restarted.py IMAGE [UNITS]      It makes the image where there is none. Each thread adds 1 to the counter UNITS
times (20), whatever was killed in between; a unit is a take, a put, and `done`.
"""
import sys
from concurrent.futures import ThreadPoolExecutor

import luntrebis

THREADS = 5


def add(image, number, counter, units):
    """Adds 1 until this element has done all its units: each made two requests, and was confirmed."""
    one = image.element(number)
    for _ in range(image.window(number).base // 2, units):
        value = one.take(counter).result()
        one.put(counter, value + 1).result()
        one.done()


def main(path, units="20"):
    with luntrebis.Shared.open_or_create(path, cells=16, elements=2 + THREADS, slots=64) as image:
        maker, reader = image.element(0), image.element(1 + THREADS)
        counter = maker.alloc_m(1).result()  # The same block in each run, as maker calls no `done`.
        maker.put(counter, 0).result()
        with ThreadPoolExecutor(THREADS) as pool:
            list(pool.map(lambda number: add(image, number, counter, int(units)), range(1, 1 + THREADS)))
        count = reader.take(counter).result()
        reader.put(counter, count).result()
        reader.done().result()
        print("counted", count)


main(*sys.argv[1:])
