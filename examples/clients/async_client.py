"""Five tasks add to one counter behind `imem serve`, with asyncio and no library. The program that serves may be killed
at any moment, and this one too, which is simply run again.

usage: async_client.py IMAGE [UNITS] [IMEM]      It makes the image where there is none. Each task adds 1 to the counter
UNITS times (20), whatever was killed in between; a unit is a take, a put, and `done`. It needs the package luntrebis:
pip install packages/python, or PYTHONPATH=packages/python.

Requests that stand in the pipe together are put on the disk as groups. A program that ends is started again, and what
isn't answered is sent again, in the order in which it was asked. Like `client.py` this one keeps no file: an element
begins at the first request that it hasn't confirmed.
"""
import asyncio
import sys

import luntrebis.aio

TASKS = 5


async def add(image, number, counter, units):
    """Adds 1 until this element has done all its units: each made two requests, and was confirmed."""
    one = image.element(number)
    for _ in range((await image.window(number)).base // 2, units):
        value = await one.take(counter)
        await one.put(counter, value + 1)
        one.done()


async def main(path, units="20", imem=None):
    sizes = {"cells": 16, "elements": 2 + TASKS, "slots": 64}
    async with await luntrebis.aio.serve(path, imem, **sizes) as image:
        maker, reader = image.element(0), image.element(1 + TASKS)
        counter = await maker.alloc_m(1)  # The same block in each run, as maker calls no `done`.
        await maker.put(counter, 0)
        await asyncio.gather(*[add(image, 1 + at, counter, int(units)) for at in range(TASKS)])
        count = await reader.take(counter)
        await reader.put(counter, count)
        await reader.done()
        print("counted", count)


asyncio.run(main(*sys.argv[1:]))
