"""A dataflow machine whose token store is a memory in a file.

A processing element is an element of the memory. It sends a fetch for each operand of a node and goes on: a request is
split phase. The element and the number of the fetch are its continuation, the place where the answer goes on (Arvind,
Nikhil 1990). If the operand isn't there, the fetch is a token that waits: the memory keeps it in the file, with its
continuation, until the operand is stored (Arvind, Nikhil, Pingali 1989). When all operands of a node have come, the
node fires and stores its result. An accumulator is an M cell: whoever has taken it has it alone (Barth, Nikhil, Arvind
1991).

The machine keeps no file of its own. One that was killed is run again: a node whose arc is written is over, and each
read that waits is asked again under its number, so that its answer goes on here.
"""
import asyncio
from collections import defaultdict, deque

from luntrebis import Request, Tag

KEPT = 64  # So many of its requests the memory keeps for an element, from the oldest that isn't confirmed on.
STEPS = 5  # The requests of an addition.


class Left:
    """What a run before has left, by the report of its image: the cells that are full, the fetches that wait, and the
    window of each element."""

    def __init__(self, report):
        self.full, self.waiting, self.windows = {}, defaultdict(list), defaultdict(lambda: (1, 1))
        for word, *words in map(str.split, report.splitlines()):
            if word == "cell" and words[1] == "full":
                self.full[int(words[0])] = int(words[2])
            elif word == "element":
                self.windows[int(words[0])] = int(words[2]), int(words[2]) + int(words[4])
            elif word == "entry" and words[1] == "fetch" and words[-1] == "waiting":
                element, number = map(int, words[0].split("."))
                self.waiting[element].append((number, int(words[2])))


class Element:
    """An element: each of its requests gets the next number."""

    def __init__(self, image, number, following):
        self.image, self.number, self.next = image, number, following

    def send(self, tag, at, value=0):
        """Sends a request. Awaiting it gives its reply; that of a fetch or a take comes once its cell is full."""
        self.next += 1
        return self.image.ask(Request(tag, self.number, self.next - 1, at, value))

    async def ask(self, tag, at, value=0):
        return (await self.send(tag, at, value)).get()


class Processor(Element):
    """A processing element. Its nodes are begun in the graph's order, as far as its window has room, and fire in any
    order. Room is set aside for all requests of a node before it is begun. So the first node that isn't over can
    always be begun, and its operands come: the machine makes no standstill."""

    def __init__(self, image, number, nodes, arcs, left):
        self.base, following = left.windows[number]
        super().__init__(image, number, following)
        self.nodes, self.arcs, self.full = nodes, arcs, left.full
        self.aside, self.moved = 0, asyncio.Event()
        self.open = {old for old, _ in left.waiting[number]}  # The numbers that aren't answered.
        self.tokens = defaultdict(deque)  # Of each arc the reads of a run before that wait for it.
        for old, at in left.waiting[number]:
            again = image.ask(Request(Tag.FETCH, number, old, at))
            self.tokens[at].append(asyncio.ensure_future(self.answer(old, again)))

    async def answer(self, number, sent):
        """Awaits the answer to the request with this number."""
        self.open.add(number)
        reply = await sent
        self.open.discard(number)
        self.moved.set()
        return reply.get()

    async def room(self, requests):
        """Sets room aside in the window. If there is none, what is answered at its beginning is confirmed."""
        while self.next + self.aside + requests > self.base + KEPT:
            upto = min(self.open, default=self.next)
            if upto > self.base:
                self.base = upto
                self.image.confirm(self.number, upto)
            else:
                self.moved.clear()
                await self.moved.wait()
        self.aside += requests

    def found(self, arc):
        """Returns what a run before has left of a read: the value, or the read itself, which waits; or None."""
        at = self.arcs + arc
        return self.full[at] if at in self.full else self.tokens[at].popleft() if self.tokens[at] else None

    async def read(self, arc, found):
        if found is None:
            self.aside -= 1
            return await self.answer(self.next, self.send(Tag.FETCH, self.arcs + arc))
        return found if isinstance(found, int) else await found

    async def fire(self, node, gate, operands):
        """Reads the operands of a node, each with what was found of it, and stores its result."""
        value, unused = node.otherwise, operands.count(None)
        if node.gate is None or await self.read(node.gate, gate):
            values = await asyncio.gather(*map(self.read, node.reads, operands))
            value, unused = node.does(*values), 0
        self.aside -= unused + 1
        if value is not None:
            await self.answer(self.next, self.send(Tag.STORE, self.arcs + node.writes, value))
        self.moved.set()

    async def run(self):
        async with asyncio.TaskGroup() as group:
            for node in self.nodes:
                if self.arcs + node.writes not in self.full:
                    gate = 0 if node.gate is None else self.found(node.gate)
                    operands = [self.found(arc) for arc in node.reads]
                    await self.room([gate, *operands].count(None) + 1)
                    group.create_task(self.fire(node, gate, operands))


class Adder(Element):
    """An element that makes additions, one after another. Each has the same number of requests and is confirmed as a
    whole. So the window's base says how many are over, and one that was stopped is asked again under its numbers."""

    def __init__(self, image, number, additions, arcs, accumulators, left):
        super().__init__(image, number, left.windows[number][0])
        self.additions, self.arcs, self.accumulators = additions, arcs, accumulators

    async def run(self):
        for which, value, written in self.additions[(self.next - 1) // STEPS :]:
            operands = [self.ask(Tag.FETCH, self.arcs + arc) for arc in (which, value)]
            at, addend = await asyncio.gather(*operands)
            before = await self.ask(Tag.TAKE, self.accumulators + at)
            put = self.ask(Tag.PUT, self.accumulators + at, before + addend)
            await asyncio.gather(put, self.ask(Tag.STORE, self.arcs + written, 1))
            self.image.confirm(self.number, self.next)


async def run(graph, image, report="", processors=8, adders=4):
    """Runs a program on an image, of which the report was made before it was opened. Returns the program's results and
    its accumulators. Element 0 confirms nothing, so it gets the same blocks and the same answers in each run."""
    left, maker = Left(report), Element(image, 0, 1)
    arcs = await maker.ask(Tag.ALLOC_I, graph.arcs)
    sums = await maker.ask(Tag.ALLOC_M, graph.accumulators) if graph.accumulators else 0
    for at in range(graph.accumulators):
        await maker.ask(Tag.PUT, sums + at, 0)
    each = [Processor(image, 1 + at, graph.nodes[at::processors], arcs, left) for at in range(processors)]
    adds = [Adder(image, 1 + processors + at, graph.additions[at::adders], arcs, sums, left) for at in range(adders)]
    async with asyncio.TaskGroup() as group:
        for one in [*each, *adds]:
            group.create_task(one.run())
    results = {}
    for name, arc in graph.results.items():
        found = each[0].found(arc)
        await each[0].room(found is None)
        results[name] = await each[0].read(arc, found)
    for at in range(graph.accumulators):
        results[f"sum {at}"] = await maker.ask(Tag.TAKE, sums + at)
        await maker.ask(Tag.PUT, sums + at, results[f"sum {at}"])
    return results
