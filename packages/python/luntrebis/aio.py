"""Luntrebis for asyncio. Each request can be awaited, a fetch or a take until its cell is full.

    async with await luntrebis.aio.serve("a.img") as image:      # asks the program imem; `open` asks the library
        maker, one = image.element(0), image.element(1)
        counter = await maker.alloc_m(1)
        await maker.put(counter, 0)
        for _ in range(10):
            value = await one.take(counter)
            await one.put(counter, value + 1)
            await one.done()

Kill it at any moment and run it again: each element begins at its last `done`, asks the same again, gets the same
answers, and goes on. `maker` calls no `done`, so it gets the same block each time. `serve` starts the program again, if
that is killed. `connect` has the same calls over the socket of a server, and needs no program.

Time-outs: a request that waits can't be withdrawn, and stays in the memory. If `asyncio.wait_for` gives up a fetch or a
take, the same call of the element gets its answer; ask nothing else of the element before. Of a lease the value goes to
the next take of the cell, or is put back. Give up one wait at a time: a `gather` loses what was answered, and a helper
isn't given up half way. `image.wait` is for requests that you number.
"""
from __future__ import annotations

import asyncio
import ssl
from typing import Awaitable, Callable, TypeVar

from . import _connection, _memories
from ._dialogue import Path, Served, awaited, begin, waited
from ._requests import Asking, Lanes
from ._shared import Shared, SharedElement, SharedElementAnew
from ._words import Block, Cell, Reply, Request, Stat, Tag, Window

T = TypeVar("T")


class ElementAnew(Asking["Awaitable[int]"]):
    """Makes requests of an element, under new numbers. Each is sent at its call; awaiting it gives its value, its base,
    or 0."""

    _is_awaited = True

    def __init__(self, element: SharedElement | SharedElementAnew) -> None:
        self.number, self._element = element.number, element
        self._left, self._goes_back = element._left, element._goes_back

    def _send(self, tag: Tag, address: int, value: int) -> object:
        return self._element._send(tag, address, value)

    def _future(self) -> Awaitable[int]:
        return awaited()


class Element(ElementAnew):
    """Makes the requests of an element from the first that isn't confirmed on. Each is sent at its call; awaiting it
    gives its value, its base, or 0."""

    def done(self) -> Awaitable[int]:
        """A unit of work is over: the next run begins here. All that was asked has to be answered. Nobody has to await
        it."""
        self._left.check(f"element {self.number}")
        return self._ask(Tag.CONFIRM, 0)


class Image:
    """An image for the tasks of an event loop. It uses `Shared`."""

    def __init__(self, shared: Shared) -> None:
        self.shared = shared

    async def __aenter__(self) -> Image:
        return self

    async def __aexit__(self, *fault: object) -> None:
        await self.close()

    def ask(self, request: Request) -> Awaitable[Reply]:
        """Sends a request under its own number at this call. Awaiting it gives the answer. The same request again is
        answered as before."""
        return asyncio.wrap_future(self.shared.submit(request))

    def confirm(self, element: int, upto: int) -> Awaitable[Reply]:
        """Drops the entries of the element below the number. It is sent at this call, and nobody has to await it."""
        return self.ask(Request(Tag.CONFIRM, element, upto))

    def _now(self, call: Callable[[_memories.Image], T]) -> Awaitable[T]:
        return asyncio.wrap_future(self.shared.call(call))

    def window(self, element: int) -> Awaitable[Window]:
        """Gives the window of an element: which of its numbers are kept. This and what follows makes no request. It
        shows what is on the disk, once what was sent before is."""
        return self._now(lambda image: image.window(element))

    def entry(self, element: int, number: int) -> Awaitable[Request | None]:
        """Gives the request that is kept under an element's number, or None."""
        return self._now(lambda image: image.entry(element, number))

    def collect(self, element: int, number: int) -> Awaitable[Reply]:
        """Gives the reply that is kept under an element's number."""
        return self._now(lambda image: image.collect(element, number))

    def cell(self, address: int) -> Awaitable[Cell | None]:
        """Gives what a cell holds, or None if it lies in no block."""
        return self._now(lambda image: image.cell(address))

    def cells(self, start: int, count: int) -> Awaitable[list[Cell | None]]:
        """Gives what so many cells hold at one time, from an address on: fewer at the end of the memory."""
        return self._now(lambda image: image.cells(start, count))

    def block(self, address: int) -> Awaitable[Block | None]:
        """Gives the block that an address lies in, or None."""
        return self._now(lambda image: image.block(address))

    def waiters(self, address: int) -> Awaitable[list[tuple[int, int]]]:
        """Gives the requests that wait at a cell, in the order in which they came: each an element and a number."""
        return self._now(lambda image: image.waiters(address))

    def stuck(self) -> Awaitable[list[Request]]:
        """Gives the oldest request of each element that is stuck: 64 of its requests are kept, and that one waits. It
        asks nothing more before that is answered."""
        return self._now(_memories.Image.stuck)

    def stat(self) -> Awaitable[Stat]:
        """Gives the numbers of the image: its blocks, cells, entries, and elements that are stuck."""
        return self._now(_memories.Image.stat)

    @property
    def room(self) -> Awaitable[int]:
        """The number of commands that the journal still has room for."""
        return self._now(lambda image: image.room)

    @property
    def count(self) -> Awaitable[int]:
        """The number of commands that have been accepted since the image was made."""
        return self._now(lambda image: image.count)

    @property
    def limits(self) -> Awaitable[tuple[int, int, int]]:
        """The numbers of cells, elements, and journal slots."""
        return self._now(lambda image: image.limits)

    def backup(self, path: Path) -> Awaitable[None]:
        """Copies the image to a path where nothing exists, between two groups. Others may ask meanwhile. The copy is on
        the disk, and was seen to open as an image, before this is done."""
        return self._now(lambda image: image.backup(path))

    def element(self, number: int) -> Element:
        """Returns the element, whose requests are numbered here from the first that isn't confirmed on: a program that
        was killed makes them again and goes on where it was. It is the same at each call."""
        return Element(self.shared.element(number))

    def element_anew(self, number: int) -> ElementAnew:
        """Returns an element whose requests get new numbers. What a run before asked is not asked again, so a value
        that it had taken when it was killed is lost to the program."""
        return ElementAnew(self.shared.element_anew(number))

    async def lease(self, count: int = 1, first: int | None = None) -> Lanes[Awaitable[int]]:
        """Leases elements of the upper half, or from the number `first` on: none that is leased, or of which a request
        waits. The program uses none of these by its number, in no run. Use `with await image.lease() as one`, or
        `give_back`. Raises `NoElement` if there aren't so many. Of several, each fetch or take goes to the one with the
        most room."""
        shared = self.shared
        found = shared.call(lambda image: shared._reserve(image, count, first))
        return shared._lend(await asyncio.wrap_future(found), awaited)

    async def wait(self, request: Request, timeout: float | None = None) -> Reply:
        """Sends a request, and waits for its answer, so many seconds once the request is on the disk. If there is none
        then, raises `Waiting`, whose `request` has the number: wait for that again, as often as you like, also after a
        kill. A request with the number 0 gets the element's next one."""
        self.shared._use(request.element)
        reply = await asyncio.wrap_future(self.shared._submit(request, False))
        return await waited(reply, request, timeout, self.ask)

    async def close(self) -> None:
        """Serves the requests that were sent, and closes the image. Those that still wait are cancelled."""
        await asyncio.to_thread(self.shared.close)


async def create(path: Path, cells: int = 4096, elements: int = 16, slots: int = 256) -> Image:
    """Makes the image of an empty memory. Raises `FileExistsError` if something is at the path."""
    return Image(await asyncio.to_thread(Shared.create, path, cells, elements, slots))


async def open_or_create(path: Path, cells: int = 4096, elements: int = 16, slots: int = 256) -> Image:
    """Opens the image of an existing file, or makes it if nothing is at the path."""
    return Image(await asyncio.to_thread(Shared.open_or_create, path, cells, elements, slots))


async def open(path: Path) -> Image:  # noqa: A001
    """Opens the image of an existing file."""
    return Image(await asyncio.to_thread(Shared.open, path))


async def serve(
    path: Path,
    imem: Path | None = None,
    *,
    cells: int = 4096,
    elements: int = 16,
    slots: int = 256,
    backups: Path | None = None,
) -> Served:
    """Starts `imem serve` on an image, which is made if nothing is at the path. It needs no library, and has the calls
    of `Image`. The program is the one that is named, the one in this package, `imem` on the PATH, or that in out/ of
    this checkout. If it ends, it is started again, and asked again what isn't answered. `backups` is the folder of
    `backup`."""
    return await begin(path, imem, cells, elements, slots, backups)


async def connect(address: str, *, tls: ssl.SSLContext | None = None, patience: float | None = None) -> Served:
    """Connects to a server: `unix:/run/imem.sock`, `tcp:127.0.0.1:7070` or `tls:HOST:PORT`. It needs no library and no
    program, and has the calls of `Image`. If the server isn't there, it is tried for `patience` seconds (5 at the beginning
    and 60 later, if that isn't given), and what isn't answered is asked again. `tls` has the client's certificate and whom it trusts."""
    return await _connection.begin(address, tls, patience)
