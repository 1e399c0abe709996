"""The requests of an element, whatever serves them, and who is to have each answer (decision 880)."""
from __future__ import annotations

import asyncio
import collections
import concurrent.futures
import contextlib
import threading
from concurrent.futures import InvalidStateError
from typing import Any, Callable, Generator, Generic, Optional, TypeVar

from ._words import Answer, NotAnswered, Request, Tag

T = TypeVar("T")
KEPT = 64
ALL_TAKEN = "each element for leases is leased, or a request of it waits"
FOR_LEASES = "it is for leases, of which `lease` was called"
WAITS = (Tag.FETCH, Tag.TAKE)
FULL = "64 of its requests aren't confirmed: call `done` once a unit of work is over, and let no request wait that long"


def give(future: Any, value: Any) -> None:
    """Gives the future its value or its exception. A future that was cancelled gets neither."""
    with contextlib.suppress(InvalidStateError, asyncio.InvalidStateError):
        if isinstance(value, BaseException):
            future.set_exception(value)
        else:
            future.set_result(value)


def hand_over(asked: Any, holder: Any) -> None:
    """Gives a future the value of a reply, or why there is none."""
    if asked.cancelled():
        holder.cancel()
        return
    try:
        give(holder, asked.result().get())
    except Exception as fault:
        give(holder, fault)


def deliver(asked: Any, holder: Any) -> None:
    """The same, in the thread of the future's loop if it has one and another thread asks."""
    if isinstance(holder, asyncio.Future) and isinstance(asked, concurrent.futures.Future):
        with contextlib.suppress(RuntimeError):  # Its loop is closed.
            holder.get_loop().call_soon_threadsafe(hand_over, asked, holder)
    else:
        hand_over(asked, holder)


class Left:
    """The fetches and takes that were given up: the future was cancelled, or the task that awaited it. They stay in the
    memory. The same request, made again, is one of these."""

    def __init__(self) -> None:
        self.lock = threading.RLock()
        self._kept: dict[tuple[Tag, int], collections.deque[Open]] = {}

    def keep(self, opened: Open, key: tuple[Tag, int]) -> None:
        self._kept.setdefault(key, collections.deque()).append(opened)

    def find(self, key: tuple[Tag, int]) -> Optional[Open]:
        """Takes out the oldest of these requests, if there is one."""
        if not self._kept:
            return None
        with self.lock:
            kept = self._kept.get(key)
            opened = kept.popleft() if kept else None
            if not kept:
                self._kept.pop(key, None)
        return opened

    def drop(self, opened: Open) -> bool:
        """Takes out a request. Returns whether it was there."""
        with self.lock:
            for key, kept in list(self._kept.items()):
                if opened in kept:
                    kept.remove(opened)
                    if not kept:
                        del self._kept[key]
                    return True
        return False

    def adopt(self, request: Request, asked: Any, back: Callable[[int], object]) -> None:
        """Keeps a fetch or a take of an earlier run, whose lease ended with it."""
        opened = Open(self, (request.tag, request.address), asked, back)
        with self.lock:
            self.keep(opened, (request.tag, request.address))
        asked.add_done_callback(opened.tell)

    def check(self, of: str) -> None:
        """Raises `NotAnswered` if a request was given up: its answer would be lost."""
        if self._kept:
            raise NotAnswered(None, of, "a fetch or a take was given up: ask the same again before `done`")


class Open:
    """A fetch or a take, and the future that is to have its answer."""

    def __init__(
        self, left: Left, key: tuple[Tag, int], asked: Any, back: Optional[Callable[[int], object]]
    ) -> None:
        self.left, self.key, self.asked, self.back = left, key, asked, back
        self.holder: Any = None

    def held_by(self, holder: Any) -> None:
        self.holder = holder
        if isinstance(holder, Awaited):
            holder.opened = self
        holder.add_done_callback(lambda it: self.give_up(it) if it.cancelled() else None)
        if self.asked.done():
            self.tell()

    def give_up(self, holder: Any) -> None:
        """Keeps a fetch or a take for whoever asks the same. Does nothing if another future has it by now."""
        with self.left.lock:
            if self.holder is not holder:
                return
            self.holder = None
            self.left.keep(self, self.key)
        if self.asked.done():
            self.tell()

    def tell(self, _: Any = None) -> None:
        """Gives the answer to the future. If nobody is to have it, a value that was taken is put back."""
        holder = self.holder
        if holder is None:
            if self.back and self.left.drop(self):
                self._put_back(self.back)
        else:
            deliver(self.asked, holder)

    def _put_back(self, back: Callable[[int], object]) -> None:
        if not self.asked.cancelled() and not self.asked.exception():
            reply = self.asked.result()
            if reply.answer == Answer.VALUE:
                with contextlib.suppress(ValueError):  # The image is closed.
                    back(reply.value)


class Awaited(asyncio.Future[int]):
    """A value that comes later. If the task that awaits it is cancelled, the request is given up."""

    opened: Optional[Open] = None

    def __await__(self) -> Generator[Any, None, int]:
        try:
            return (yield from super().__await__())
        except asyncio.CancelledError:
            if self.opened:
                self.opened.give_up(self)
            raise

    __iter__ = __await__


class Requests(Generic[T]):
    """Makes all requests of one element."""

    def _ask(self, tag: Tag, address: int, value: int = 0) -> T:
        raise NotImplementedError

    def alloc_i(self, length: int) -> T:
        """Makes a block of I cells, to be fetched and stored. Gives its base."""
        return self._ask(Tag.ALLOC_I, length)

    def alloc_m(self, length: int) -> T:
        """Makes a block of M cells, to be taken and put. Gives its base."""
        return self._ask(Tag.ALLOC_M, length)

    def fetch(self, address: int) -> T:
        """Reads an I cell, once it is stored."""
        return self._ask(Tag.FETCH, address)

    def store(self, address: int, value: int) -> T:
        """Writes an I cell, once."""
        return self._ask(Tag.STORE, address, value)

    def take(self, address: int) -> T:
        """Empties an M cell, once it is full."""
        return self._ask(Tag.TAKE, address)

    def put(self, address: int, value: int) -> T:
        """Fills an empty M cell."""
        return self._ask(Tag.PUT, address, value)

    def release(self, base: int) -> T:
        """Gives a block back."""
        return self._ask(Tag.RELEASE, base)

    def reset(self, base: int) -> T:
        """Empties the cells of a block."""
        return self._ask(Tag.RESET, base)


class Asking(Requests[T]):
    """Makes requests by futures, each a future of its value."""

    _left: Left
    _goes_back = False  # Whether a value that was taken for nobody is put back.
    _is_awaited = False  # Whether the futures are those of asyncio.

    def _send(self, tag: Tag, address: int, value: int) -> Any:
        """Sends a request. Returns a future of its reply."""
        raise NotImplementedError

    def _future(self) -> T:
        raise NotImplementedError

    def _ask(self, tag: Tag, address: int, value: int = 0) -> T:
        holder = self._future()
        if tag not in WAITS:
            self._send(tag, address, value).add_done_callback(lambda asked: deliver(asked, holder))
            return holder
        found = self._left.find((tag, address))
        opened = found or Open(self._left, (tag, address), self._send(tag, address, value), self._back(tag, address))
        opened.held_by(holder)
        if not found:
            opened.asked.add_done_callback(opened.tell)
        return holder


    def _back(self, tag: Tag, address: int) -> Optional[Callable[[int], object]]:
        """Returns what is done with a value that nobody is to have, or None if it is kept."""
        if not self._goes_back:
            return None
        return lambda value: self._send(Tag.PUT, address, value) if tag == Tag.TAKE else None


class Lane:
    """A leased element, with the futures of its requests from the oldest that isn't answered on."""

    def __init__(self, number: int) -> None:
        self.number = number
        self.asked: collections.deque[Any] = collections.deque()

    def used(self) -> int:
        """Returns how many entries can't be confirmed yet."""
        while self.asked and self.asked[0].done():
            self.asked.popleft()
        return len(self.asked)


class Lanes(Asking[T]):
    """Elements by lease: nobody else gets them before they are given back. Their requests get new numbers.

    If there are several, the first has what is answered at once, and the others share what may wait: a fetch or a take
    goes to the one with the most room in its window. If a take is given up, the next take of its cell by a lease gets the
    value. If none is made before the value comes, it is put back. So a time-out loses nothing, and of what waited when
    the program was killed nothing is lost either. A value that it had by then is lost to it.
    """

    _goes_back = True

    def __init__(
        self,
        numbers: list[int],
        left: Left,
        submit: Callable[[Request], Any],
        future: Callable[[], T],
        free: Callable[[list[int]], None],
    ) -> None:
        """Use `lease` of the image instead."""
        self.numbers, self._submit, self._new, self._free = numbers, submit, future, free
        self._lanes, self._left, self._is_over = [Lane(it) for it in numbers], left, False
        self._held: set[Any] = set()
        self._is_awaited = future is not concurrent.futures.Future

    def __enter__(self) -> Lanes[T]:
        return self

    def __exit__(self, *fault: object) -> None:
        self.give_back()

    def _future(self) -> T:
        return self._new()

    def _send(self, tag: Tag, address: int, value: int) -> Any:
        with self._left.lock:
            lane = min(self._lanes[1:] or self._lanes, key=Lane.used) if tag in WAITS else self._lanes[0]
            lane.used()
            lane.asked.append(self._submit(Request(tag, lane.number, 0, address, value)))
            return lane.asked[-1]

    def _ask(self, tag: Tag, address: int, value: int = 0) -> T:
        if self._is_over:
            raise ValueError("given back")
        holder = super()._ask(tag, address, value)
        held: Any = holder
        self._held.add(held)
        held.add_done_callback(self._held.discard)
        return holder

    def give_back(self) -> None:
        """Lets others lease the elements, each as soon as none of its requests waits. What isn't answered is given up:
        its future is cancelled."""
        was_over, self._is_over = self._is_over, True
        for holder in list(self._held):
            holder.cancel()
        if not was_over:
            self._free(self.numbers)
