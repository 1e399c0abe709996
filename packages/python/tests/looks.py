"""What an image shows without a request, by each kind of image: cells, blocks, who waits, who is stuck, numbers, copies.

usage: looks.py IMAGE [IMEM]      IMAGE is new. By the library; with IMEM by that program, and with no library.
       looks.py --work IMAGE UNITS      Five threads count, as in restarted.py, and copies IMAGE.copy1 and so on are made: for
       ever, unless UNITS is 0.
"""
import asyncio
import inspect
import itertools
import os
import sys
import threading
import time

import luntrebis.aio
from luntrebis import Block, Cell, Request, Stat, State, Tag, Waiting

SIZES = {"cells": 128, "elements": 4, "slots": 256}
REQUESTS = [
    Request(Tag.ALLOC_I, 0, 1, 3),
    Request(Tag.ALLOC_M, 0, 2, 64),
    Request(Tag.STORE, 0, 3, 0, 7),
    Request(Tag.PUT, 0, 4, 3, 8),
    Request(Tag.PUT, 0, 5, 3, 9),  # A clash.
    Request(Tag.FETCH, 2, 1, 2),
    Request(Tag.FETCH, 3, 1, 2),
    *(Request(Tag.TAKE, 1, it + 1, 4 + it % 63) for it in range(64)),  # Element 1 is stuck.
]
NUMBERS = Stat(blocks=2, empty=1, awaited=64, full=1, clashed=1, kept=71, waiting=66, full_windows=1, stuck=1)


async def get(value):
    """Returns a value, or what it is awaited for."""
    return await value if inspect.isawaitable(value) else value


async def look(image, copied):
    """Looks at everything, after these requests."""
    clash, awaited = Cell("m", State.CLASHED, 8), Cell("m", State.AWAITED)
    assert await get(image.cell(0)) == Cell("i", State.FULL, 7)
    assert await get(image.cell(1)) == Cell("i", State.EMPTY)
    assert await get(image.cell(67)) is None and await get(image.cell(4000000000)) is None
    assert await get(image.cells(2, 3)) == [Cell("i", State.AWAITED), clash, awaited]
    assert await get(image.cells(126, 9)) == [None, None] and await get(image.cells(128, 1)) == []
    assert await get(image.cells(0, 128)) == [await get(image.cell(it)) for it in range(128)]
    assert await get(image.block(66)) == Block(3, 64) and await get(image.block(67)) is None
    assert await get(image.waiters(2)) == [(2, 1), (3, 1)] and await get(image.waiters(0)) == []
    assert await get(image.waiters(4)) == [(1, 1), (1, 64)]
    assert await get(image.stuck()) == [Request(Tag.TAKE, 1, 1, 4)]
    assert await get(image.stat()) == NUMBERS, await get(image.stat())
    assert await get(image.entry(0, 3)) == REQUESTS[2] and await get(image.entry(0, 1)) == REQUESTS[0]
    assert await get(image.entry(0, 9)) is None and await get(image.entry(9, 1)) is None
    assert (await get(image.collect(0, 2))).value == 3
    try:
        (await get(image.collect(1, 1))).get()
        raise AssertionError("it is answered")
    except Waiting:
        pass
    try:
        await get(image.collect(9, 1))
        raise AssertionError("there is such an element")
    except luntrebis.NoElement:
        pass
    assert await get(image.window(1)) == (1, 65)
    assert await get(image.count) == len(REQUESTS) and await get(image.limits) == (128, 4, 256)
    assert 0 < await get(image.room) <= 256
    await copied(image)


async def copied_to(image, path, named, opened):
    """Copies the image, and looks at the copy, which has no more copies."""
    await get(image.backup(named))
    try:
        await get(image.backup(named))
        raise AssertionError("there is no such file")
    except OSError:
        pass

    async def nothing(_):
        pass

    await opened(path, lambda copy: look(copy, nothing))
    os.unlink(path)


async def by_library(path):
    async def opened(path, tried):
        with luntrebis.open(path) as image:
            await tried(image)

    def copied(image):
        return copied_to(image, f"{path}.copy", f"{path}.copy", opened)

    with luntrebis.create(path, **SIZES) as image:
        image.ask_all(REQUESTS)
        await look(image, copied)
    with luntrebis.Shared.open(path) as image:
        await asyncio.to_thread(asyncio.run, look(image, copied))
    async with await luntrebis.aio.open(path) as image:
        await look(image, copied)
    with luntrebis.Memory(128, 4) as memory:
        for request in REQUESTS:
            memory.ask(request)
        assert memory.cell(0) == Cell("i", State.FULL, 7) and memory.cell(2) == Cell("i", State.AWAITED)
        assert memory.cell(3) == Cell("m", State.CLASHED, 8) and memory.cell(127) is memory.cell(128) is None


async def by_program(path, imem):
    folder = f"{path}.copies"
    os.mkdir(folder)

    async def opened(path, tried):
        async with await luntrebis.aio.serve(path, imem) as image:
            await tried(image)

    async with await luntrebis.aio.serve(path, imem, backups=folder, **SIZES) as image:
        asked = [image._asked(it, False) for it in REQUESTS]
        await asyncio.gather(*asked)
        await look(image, lambda image: copied_to(image, f"{folder}/copy", "copy", opened))


def work(path, units):
    with luntrebis.Shared.open_or_create(path, cells=16, elements=7, slots=64) as image:
        maker = image.element(0)
        counter = maker.alloc_m(1).result()
        maker.put(counter, 0).result()
        if units == "0":
            print("counted 0")
            return
        for number in range(1, 6):
            threading.Thread(target=count, args=(image, number, counter), daemon=True).start()
        seen = 0
        for copy in (f"{path}.copy{at}" for at in itertools.count()):
            cell = image.cell(counter)
            assert cell and cell.state != State.CLASHED and (cell.value is None or cell.value >= seen), cell
            seen = cell.value or seen
            if not os.path.exists(copy):
                image.backup(copy)
                time.sleep(0.01)


def count(image, number, counter):
    one = image.element(number)
    while True:
        value = one.take(counter).result()
        one.put(counter, value + 1).result()
        one.done()


if sys.argv[1] == "--work":
    work(*sys.argv[2:])
else:
    asyncio.run(by_program(*sys.argv[1:]) if len(sys.argv) > 2 else by_library(sys.argv[1]))
    print("all is shown")
