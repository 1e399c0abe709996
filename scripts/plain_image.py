"""The plain memory of images.py as the dataflow machine of examples/dataflow asks it, for the scripts beside this file."""
import asyncio
import sys

import images
from sources import TOP

sys.path[:0] = [str(TOP / "examples" / "dataflow"), str(TOP / "packages" / "python")]

from luntrebis import Answer, Reply, Tag  # noqa: E402

CODES = {Tag.ALLOC_I: images.ALLOC_I, Tag.ALLOC_M: images.ALLOC_M, Tag.FETCH: images.FETCH, Tag.STORE: images.STORE, Tag.TAKE: images.TAKE, Tag.PUT: images.PUT}
ANSWERS = {images.BASE: Answer.BASE, images.VALUE: Answer.VALUE, images.STORED: Answer.STORED, images.CLASH: Answer.CLASH}


class PlainImage:
    """A memory that takes so many commands, and after that answers nobody, as if it was killed."""

    def __init__(self, memory, most=None):
        self.memory, self.most, self.count, self.waiting = memory, most, 0, {}

    def is_killed(self):
        return self.most is not None and self.count >= self.most

    def step(self, element, number, op):
        base, entries = self.memory.windows[element]
        if op[0] != images.CONFIRM and number < base + len(entries):
            if entries[number - base][0] != op:
                raise ValueError(f"{element}.{number} was {entries[number - base][0]} before, and is {op}")
        elif not self.memory.step(element, number, op):
            raise ValueError(f"{element}.{number} {op} is refused")
        else:
            self.count += 1

    def ask(self, request):
        future = asyncio.get_running_loop().create_future()
        if not self.is_killed():
            self.step(request.element, request.number, (CODES[request.tag], request.address, request.value))
            self.waiting[request.element, request.number] = future
            asyncio.get_running_loop().call_soon(self.tell)
        return future

    def confirm(self, element, upto):
        if not self.is_killed():
            self.step(element, upto, (images.CONFIRM, 0, 0))

    def tell(self):
        """Tells all that are answered."""
        for (element, number), future in list(self.waiting.items()):
            base, entries = self.memory.windows[element]
            if reply := entries[number - base][1]:
                del self.waiting[element, number]
                if not future.done():
                    future.set_result(Reply(ANSWERS[reply[0]], reply[1], f"{element}.{number}"))


def report(memory):
    """What the machine reads of a report."""
    lines = [f"cell {at} full {cell.value}" for at, cell in enumerate(memory.cells) if cell and cell.tag == images.FULL]
    for element, (base, entries) in enumerate(memory.windows):
        lines += [f"element {element} base {base} kept {len(entries)}"] if base > 1 or entries else []
        waits = [(number, op) for number, (op, reply) in enumerate(entries, base) if reply is None and op[0] == images.FETCH]
        lines += [f"entry {element}.{number} fetch {op[1]} -> waiting" for number, op in waits]
    return "\n".join(lines)


async def live(graph, memory, most=None):
    """Runs the machine on a memory for so many commands. Returns its results, or None if it was stopped before."""
    import machine

    image = PlainImage(memory, most)
    running = asyncio.ensure_future(machine.run(graph, image, report(memory)))
    still = 0
    while not running.done() and not image.is_killed() and still < 1_000:  # So many turns of the loop with no command.
        count = image.count
        await asyncio.sleep(0)
        still = still + 1 if image.count == count else 0
    if running.done():
        return running.result()
    running.cancel()
    await asyncio.gather(running, return_exceptions=True)
    if still >= 1_000:
        raise ValueError(f"the machine makes no command any more, after {image.count}")
    return None


def run(graph, memory, most=None):
    return asyncio.run(live(graph, memory, most))
