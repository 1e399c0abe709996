"""A thousand waits of each kind that time out: no value is lost, and no element's window is filled.

usage: time_outs.py IMAGE [IMEM]      IMAGE is new. By the library; with IMEM by that program, and with no library.
"""
import asyncio
import random
import sys
import time

import luntrebis.aio
from luntrebis import Counter, Queue, Request, Tag, Waiting, layout

TIMES, SOON, LATE = 1000, 0.0005, 60


async def times_out(make):
    """Gives up so many waits, each by a time-out."""
    for _ in range(TIMES):
        try:
            await asyncio.wait_for(make(), SOON)
            raise AssertionError("there is a value")
        except asyncio.TimeoutError:
            pass


async def by_number(image, cell, put):
    """A request that the program numbers, or that gets its number at first."""
    request = Request(Tag.TAKE, 1, 0, cell)
    for _ in range(TIMES):
        try:
            await image.wait(request, SOON / 10)
            raise AssertionError("there is a value")
        except Waiting as late:
            request = late.request
    assert request.number == 1 and await image.window(1) == (1, 2)
    await put(5)
    assert (await image.wait(request, LATE)).value == 5


async def by_element(image, cell, put):
    """The same call of an element finds what was given up, and `done` doesn't forget it."""
    one = image.element(2)
    await times_out(lambda: one.take(cell))
    assert await image.window(2) == (1, 2), "each is the same request"
    try:
        await one.done()
        raise AssertionError("a take was given up")
    except luntrebis.NotAnswered:
        pass
    await put(6)
    assert await asyncio.wait_for(one.take(cell), LATE) == 6
    await one.done()


async def by_new_numbers(image, cell, put):
    """Who waits behind one that was given up gets the value."""
    await times_out(lambda: image.element_anew(3).take(cell))
    behind = image.element_anew(4).take(cell)
    await put(7)
    assert await asyncio.wait_for(behind, LATE) == 7


async def by_lease(image, cell, put):
    """An element isn't leased while one of its takes waits."""
    with await image.lease() as one:
        (number,) = one.numbers
        await times_out(lambda: one.take(cell))
    with await image.lease(2) as others:
        assert number not in others.numbers
    await put(8)
    assert await asyncio.wait_for(image.element_anew(4).take(cell), LATE) == 8, "it was put back"
    with await image.lease() as one:
        assert one.numbers == [number]


async def by_many(image, cell, put):
    """Tasks that add to a cell, and are cancelled at random."""
    end = time.time() + 2

    async def add():
        added = 0
        with await image.lease() as one:
            while time.time() < end:
                try:
                    value = await asyncio.wait_for(one.take(cell), random.uniform(0, 20 * SOON))
                except asyncio.TimeoutError:
                    continue
                await one.put(cell, value + 1)
                added += 1
        return added

    await put(0)
    added = await asyncio.gather(add(), add(), add())
    assert await asyncio.wait_for(image.element_anew(4).take(cell), LATE) == sum(added) > 0


async def by_lanes(image, cells):
    """More waits than a window has: each is answered."""
    with await image.lease(4) as lanes:
        fetches = [lanes.fetch(it) for it in cells]
        for at in range(0, len(cells), 50):
            await asyncio.gather(*(lanes.store(it, it) for it in cells[at : at + 50]))
        assert await asyncio.gather(*fetches) == list(cells)
        try:
            waits = asyncio.gather(*(lanes.fetch(cells[-1] + 1) for _ in range(200)))
            await asyncio.wait_for(waits, LATE)
            raise AssertionError("there is room")
        except luntrebis.WindowFull:
            pass


async def by_helpers(image, blocks):
    counter = Counter(image.element(5), blocks.total)
    assert [await counter.add(5), await counter.add(), await counter.read()] == [5, 6, 6]
    one, two = Queue(image.element_anew(3), blocks.jobs), Queue(image.element_anew(4), blocks.jobs)

    async def put():
        for at in range(20):
            await one.put(at)

    putting = asyncio.ensure_future(put())
    assert [await two.get() for _ in range(20)] == list(range(20))
    await putting
    text = bytes(range(256)) * 3
    await luntrebis.store_bytes(image.element(6), blocks.text, blocks.stored, text)
    with await image.lease() as lease:
        assert await luntrebis.fetch_bytes(lease, blocks.text) == text


async def by_next_run(image, cell, number):
    """What waited by a lease at the end of the run before is taken over."""
    with await image.lease() as one:
        assert one.numbers != [number]
        await image.element_anew(4).put(cell, 9)
        assert await asyncio.wait_for(one.take(cell), LATE) == 9
    with await image.lease() as one:
        assert one.numbers == [number]


async def main(path, imem=None):
    sizes = {"cells": 512, "elements": 16, "slots": 256}

    def opened():
        return luntrebis.aio.serve(path, imem, **sizes) if imem else luntrebis.aio.open_or_create(path, **sizes)

    async with await opened() as image:
        counters = {it: Counter.cells() for it in ("total", "stored")}
        blocks = await layout(image, cell=("m", 1), i=("i", 201), jobs=Queue.cells(4), text=("i", 100), **counters)
        putter, cell = image.element_anew(4), blocks.cell[0]
        for trial in (by_number, by_element, by_new_numbers, by_lease, by_many):
            await trial(image, cell, lambda value: putter.put(cell, value))
        await by_helpers(image, blocks)
        await by_lanes(image, range(blocks.i[0], blocks.i[0] + 150))
    async with await opened() as image:  # The fetches of `by_lanes` still wait.
        lease = await image.lease()
        window = await image.window(*lease.numbers)
        lease.take(cell)
        while await image.window(*lease.numbers) == window:
            await asyncio.sleep(SOON)
    async with await opened() as image:
        await by_next_run(image, cell, *lease.numbers)
    print("nothing lost")


asyncio.run(main(*sys.argv[1:]))
