"""A wavefront by the tasks of an event loop over one image: each cell is the sum of the cell above and the cell to the
left, and 1 at the upper and left edges. Each row is an element with a task of its own, which awaits the row above. Its
requests don't wait for each other: what is there at the same time is put on the disk together.

usage: wavefront.py IMAGE      It makes the image where there is none. It may be killed at any moment, and is simply run
again: a request has the same number in each run, so what was asked before is answered as before.
"""
import asyncio
import sys

from luntrebis import Request, Tag, aio

SIDE = 6


async def fill(image, row):
    """Fills a row, as the row above comes to be there: by SIDE fetches from 1 on, and as many stores behind them."""
    above = [image.ask(Request(Tag.FETCH, row, 1 + at, (row - 1) * SIDE + at)) for at in range(SIDE)]
    cells, stored = [], []
    for at in range(SIDE):
        cells.append((await above[at]).get() + cells[-1] if cells else 1)
        stored.append(image.ask(Request(Tag.STORE, row, 1 + SIDE + at, row * SIDE + at, cells[-1])))
    for reply in await asyncio.gather(*stored):
        reply.get()
    return cells


async def begin(image):
    """Makes the block, whose base is 0, and fills its first row."""
    asked = [image.ask(Request(Tag.ALLOC_I, 0, 1, SIDE * SIDE))]
    asked += [image.ask(Request(Tag.STORE, 0, 2 + at, at, 1)) for at in range(SIDE)]
    for reply in await asyncio.gather(*asked):
        reply.get()
    return [1] * SIDE


async def main(path):
    async with await aio.open_or_create(path, cells=SIDE * SIDE, elements=SIDE, slots=64) as image:
        rows = [await begin(image), *await asyncio.gather(*(fill(image, row) for row in range(1, SIDE)))]
        for row in rows:
            print(*row)


asyncio.run(main(*sys.argv[1:]))
