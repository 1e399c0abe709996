"""A histogram by six elements over `imem serve`, which is killed at random moments and started again. Each element
takes eight counters at once, adds one to each as it comes, and puts them back.

usage: async_histogram.py KILLS SEED IMEM IMAGE      IMAGE is new, or left by a run that was killed

The program keeps nothing but the image: an element's number tells which round comes next. The status is 0 where each
count comes out exact. It needs the package luntrebis, as `async_client.py` does.
"""
import asyncio
import random
import sys
import time
from collections import Counter

import luntrebis.aio

COUNTERS, ELEMENTS, WORDS = 24, 6, 8


def words(element, at):
    """What an element counts in a round: in rising order, so that elements never wait for each other in a circle."""
    return sorted((element + 7 * at + 11 * it) % COUNTERS for it in range(WORDS))


class Killer:
    """Kills the program so many times, each at a random moment of its opening or of its work."""

    def __init__(self, image, kills, opening):
        self.image, self.left, self.opening = image, kills, opening

    async def kill(self):
        while self.left:
            program = self.image.dialogue.program
            await asyncio.sleep(random.uniform(0.0001, 4 * self.opening))
            if program is self.image.dialogue.program and program.returncode is None:
                self.left -= 1
                program.kill()


async def rounds_of(image, element):
    """How many rounds an element has confirmed."""
    return (await image.window(element)).base // (2 * WORDS)


async def count(image, number, base, goes_on):
    """Counts in rounds of takes and puts, which are confirmed together, along with the next round's requests."""
    element, at = image.element(number), await rounds_of(image, number)
    while goes_on():
        places = [base + it for it in words(number, at)]
        takes = [element.take(place) for place in places]
        puts = [element.put(place, await take + 1) for place, take in zip(places, takes)]
        await asyncio.gather(*puts)
        element.done()
        at += 1
    await element.done()
    return at


async def main(kills, seed, imem, path):
    random.seed(int(seed))
    start = time.time()
    async with await luntrebis.aio.serve(path, imem) as image:
        killer = Killer(image, int(kills), time.time() - start)
        killing = asyncio.create_task(killer.kill())
        maker = image.element(0)  # It calls no `done`, so its requests are the same each time.
        base = await maker.alloc_m(COUNTERS)
        await asyncio.gather(*[maker.put(base + at, 0) for at in range(COUNTERS)])
        elements = range(1, 1 + ELEMENTS)
        rounds = await asyncio.gather(*[count(image, it, base, lambda: killer.left) for it in elements])
        await killing
        counts = Counter(word for it, made in zip(elements, rounds) for at in range(made) for word in words(it, at))
        kept = [await maker.take(base + at) for at in range(COUNTERS)]
        lines, again = image.dialogue.asked, image.dialogue.asked_again
    losses = sum(abs(kept[at] - counts[at]) for at in range(COUNTERS))
    made = int(kills) - killer.left
    print(f"kills {made} rounds {sum(rounds)} lines {lines} again {again} losses {losses}")
    return 0 if losses == 0 else 1


sys.exit(asyncio.run(main(*sys.argv[1:])))
