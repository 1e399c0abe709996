"""Named blocks, a counter, a queue and bytes, over the requests of an element.

They work with each kind of element and of image. With those of `luntrebis.aio`, await what they return. Each is a few
requests of the element that is given: with `image.element(n)`, a program that was killed makes them again, and they act
once. So a unit of work may hold several of them, up to 64 requests, before its `done`.
"""
from __future__ import annotations

import asyncio
import types
from concurrent.futures import Future
from typing import Any, Generator, Iterable

from ._memories import Deferred
from ._requests import KEPT
from ._words import Block

Steps = Generator[Any, Any, Any]  # Gives what was asked, and is sent the values.
AT_ONCE, WORD = 48, 8


def settled(asked: Any) -> Any:
    """Returns the value of what was asked, or the values of a list, once they are there."""
    if isinstance(asked, list):
        return [settled(it) for it in asked]
    if isinstance(asked, Future):
        return asked.result()
    return asked.get() if isinstance(asked, Deferred) else asked


def run(one: Any, steps: Steps) -> Any:
    """Makes the steps of an element. Returns what comes of them, or a coroutine if the element's requests are awaited."""
    if getattr(one, "_is_awaited", False):
        return run_later(steps)
    try:
        asked = next(steps)
        while True:
            asked = steps.send(settled(asked))
    except StopIteration as ended:
        return ended.value


async def run_later(steps: Steps) -> Any:
    try:
        asked = next(steps)
        while True:
            asked = steps.send(await asyncio.gather(*asked) if isinstance(asked, list) else await asked)
    except StopIteration as ended:
        return ended.value


def layout(image: Any, /, **blocks: tuple[Any, ...]) -> Any:
    """Makes named blocks, or finds them again: `layout(image, queue=("i", 200), state=("m", 2))`. Returns them as
    attributes: `layout.state[1]` is an address. A third part has values for the first cells: `total=("m", 1, [0])`.

    Element 0 asks for them, under the numbers from 1 on, and confirms nothing. So each run gets the same blocks, if it
    names the same ones in the same order; new ones come last. Ask nothing else of element 0. A block is a request, and
    so is each value: 64 in all."""
    count = sum(1 + len(it[2] if len(it) > 2 else ()) for it in blocks.values())
    if count > KEPT:
        raise ValueError(f"{count} blocks and values, where 64 requests are kept")
    return run(one := image.element(0), made(one, blocks))


def made(one: Any, blocks: dict[str, tuple[Any, ...]]) -> Steps:
    found = {}
    for name, (kind, length, *values) in blocks.items():
        alloc, fill = {"i": (one.alloc_i, one.store), "m": (one.alloc_m, one.put)}[kind]
        found[name] = block = Block((yield alloc(length)), length)
        yield [fill(block[at], value) for at, value in enumerate(*values or [()])]
    return types.SimpleNamespace(**found)


class Counter:
    """A number in an M cell, to which any number of elements add: `Counter(one, layout.total).add(5)`."""

    def __init__(self, one: Any, block: Block) -> None:
        self.one, self.block = one, block

    @staticmethod
    def cells() -> tuple[Any, ...]:
        """Returns what `layout` is given for a counter."""
        return "m", 1, (0,)

    def add(self, amount: int = 1) -> Any:
        """Adds to the number. Gives what it is then. It is two requests."""
        return run(self.one, self._add(amount))

    def _add(self, amount: int) -> Steps:
        value = (yield self.one.take(self.block[0])) + amount
        yield self.one.put(self.block[0], value)
        return value

    def read(self) -> Any:
        """Gives the number. It is two requests."""
        return self.add(0)


class Queue:
    """A queue of numbers, for any number of elements that put and get: `Queue(one, layout.jobs)`.

    A `put` waits while all places are taken, a `get` while there is nothing. Each is at most four requests, and one that
    has begun has its place in the queue. So don't give it up half way; for a time-out keep its task (`asyncio.wait`).
    """

    def __init__(self, one: Any, block: Block) -> None:
        self.one, self.block, self.places = one, block, len(block) // 2 - 1

    @staticmethod
    def cells(places: int) -> tuple[Any, ...]:
        """Returns what `layout` is given for a queue with so many places."""
        return "m", 2 * places + 2, (0, 0)

    def put(self, value: int) -> Any:
        """Puts a number behind the others. Gives its place, counted from 0."""
        return run(self.one, self._put(value))

    def get(self) -> Any:
        """Takes the first number out."""
        return run(self.one, self._get())

    # The block has the next place to get, the next one to put, a mark for each place that was emptied, and the places.

    def _put(self, value: int) -> Steps:
        at = yield self.one.take(self.block[1])
        yield self.one.put(self.block[1], at + 1)
        if at >= self.places:
            yield self.one.take(self.block[2 + at % self.places])
        yield self.one.put(self.block[2 + self.places + at % self.places], value)
        return at

    def _get(self) -> Steps:
        at = yield self.one.take(self.block[0])
        yield self.one.put(self.block[0], at + 1)
        value = yield self.one.take(self.block[2 + self.places + at % self.places])
        yield self.one.put(self.block[2 + at % self.places], 0)
        return value


def fetch_range(one: Any, base: int, count: int) -> Any:
    """Fetches so many I cells, each once it is stored, and gives their values. With a lease or `element_anew` there may
    be any number of them."""
    return run(one, fetched(one, base, count))


def fetched(one: Any, base: int, count: int) -> Steps:
    values: list[int] = []
    for at in range(base, base + count, AT_ONCE):
        values += yield [one.fetch(it) for it in range(at, min(at + AT_ONCE, base + count))]
    return values


def words_of(data: bytes) -> list[int]:
    """Returns a length, and the bytes in words of eight."""
    parts: Iterable[int] = range(0, len(data), WORD)
    return [len(data), *(int.from_bytes(data[at : at + WORD], "little") for at in parts)]


def store_bytes(one: Any, block: Block, place: Block, data: bytes) -> Any:
    """Stores bytes in an I block: their length, and eight in each cell behind it. `place` is a counter's block
    of its own, which says how many cells are stored. So there may be any number of them, and after a kill the same call goes
    on. It calls `done` of the element: use one that has nothing else to confirm."""
    words = words_of(data)
    if len(words) > len(block):
        raise ValueError(f"{len(data)} bytes need {len(words)} cells, and the block has {len(block)}")
    return run(one, stored(one, block, place, words))


def stored(one: Any, block: Block, place: Block, words: list[int]) -> Steps:
    at = -1
    while at < len(words):
        at = yield one.take(place[0])
        part = words[at : at + AT_ONCE]
        yield [one.store(block[at + it], word) for it, word in enumerate(part)]
        at += len(part)
        yield one.put(place[0], at)
        yield one.done()


def fetch_bytes(one: Any, block: Block) -> Any:
    """Fetches the bytes of `store_bytes`, once they are there. With a lease or `element_anew` there may be any number of
    them."""
    return run(one, read(one, block))


def read(one: Any, block: Block) -> Steps:
    length = yield one.fetch(block[0])
    words = yield from fetched(one, block[0] + 1, -(-length // WORD))
    return b"".join(it.to_bytes(WORD, "little") for it in words)[:length]
