"""An image for many threads. A thread of its own makes all calls."""
from __future__ import annotations

import collections
import itertools
import queue
import threading
from concurrent.futures import Future
from concurrent.futures import TimeoutError as TimedOut
from typing import Any, Callable, NamedTuple, Optional, TypeVar, Union

from . import _memories
from ._memories import Image, Path
from ._requests import ALL_TAKEN, FOR_LEASES, FULL, KEPT, Asking, Lanes, Left, give
from ._words import Answer, Block, Cell, Device, NoElement, Refused, Reply, Request, Stat, Tag, Waiting, Window
from ._words import WindowFull, spelled

T = TypeVar("T")
MOST = 16  # The most members of a group.


class Counted:
    """The numbers of an element that asks again what isn't confirmed: the next one, once its window was read."""

    next: Optional[int] = None


class Asked(NamedTuple):
    """A request or a confirmation that is to be served."""

    request: Request
    future: Future[Reply]
    waits: bool  # Whether its future is done only once it is answered.
    is_numbered: bool  # Whether it came with a number; else it gets the element's next one.
    counted: Optional[Counted] = None  # Of an element that numbers from its window's base on.


class Called(NamedTuple):
    """Any other call of the image."""

    call: Callable[[Image], Any]
    future: Future[Any]


class SharedElement(Asking["Future[int]"]):
    """Makes the requests of an element, each with a future of its value, its base, or 0. Any thread may ask.

    The numbers begin at the first that isn't confirmed. So a program that was killed makes the same requests again from
    its last `done` on. They are answered as before, and act once. It goes on where it was, if it asks the same whenever
    it gets the same answers. At most 64 requests may follow a `done`. If the future of a fetch or a take is cancelled,
    the request stays, and the same call gets its answer; ask nothing else of the element before.
    """

    def __init__(self, shared: Shared, number: int) -> None:
        self.shared, self.number, self._counted, self._left = shared, number, Counted(), Left()

    def _future(self) -> Future[int]:
        return Future()

    def _send(self, tag: Tag, address: int, value: int) -> Future[Reply]:
        request, future = Request(tag, self.number, 0, address, value), Future[Reply]()
        spelled(request)
        self.shared._send(Asked(request, future, True, True, self._counted))
        return future

    def done(self) -> Future[int]:
        """A unit of work is over: the next run begins here. All that was asked has to be answered. Nobody has to wait
        for the future."""
        self._left.check(f"element {self.number}")
        return self._ask(Tag.CONFIRM, 0)


class SharedElementAnew(Asking["Future[int]"]):
    """Makes requests of an element under new numbers, each with a future of its value, its base, or 0. Answered entries
    are confirmed when the window is full. Any thread may ask. If the future of a take is cancelled, the next take of
    the cell gets the value, or it is put back."""

    _goes_back = True

    def __init__(self, shared: Shared, number: int) -> None:
        self.shared, self.number, self._left = shared, number, shared._left.setdefault(number, Left())

    def _future(self) -> Future[int]:
        return Future()

    def _send(self, tag: Tag, address: int, value: int) -> Future[Reply]:
        return self.shared._submit(Request(tag, self.number, 0, address, value), True)


def waiting(image: Image, element: int) -> list[Request]:
    """Returns the requests of an element that wait."""
    numbers = (it for it in range(*image.window(element)) if image.collect(element, it).answer == Answer.WAITING)
    return [asked for asked in (image.entry(element, it) for it in numbers) if asked]


class Shared:
    """An image for any number of threads.

    What is sent is done in the order in which it came. Up to sixteen commands that stand there together are put on the
    disk together: requests, of one element or several, and confirmations. A future is done when the answer to its
    request is on the disk. For a fetch or a take that is as soon as its cell is full. What still waits at `close` is
    cancelled. It isn't lost, and is answered under its number after the next opening. After a lost step all futures
    raise `Device`, or why the step failed: close, open again, and ask again under the same numbers.
    """

    def __init__(self, make: Callable[[], Image]) -> None:
        """Use `create`, `open` or `open_or_create` instead."""
        self._asked: queue.SimpleQueue[Union[Asked, Called, None]] = queue.SimpleQueue()
        self._closed, self._lock = False, threading.Lock()
        self._elements: dict[int, SharedElement] = {}
        self._used: set[int] = set()  # The elements that the program uses by number.
        self._pool: set[int] = set()  # Those for leases.
        self._leased: set[int] = set()
        self._lent = Left()
        self._left: dict[int, Left] = {}  # Of the elements that number anew.
        began: Future[None] = Future()
        owner = Owner(self._asked)
        self._thread = threading.Thread(target=owner.run, args=(make, began), name="luntrebis", daemon=True)
        self._thread.start()
        began.result()

    @classmethod
    def create(cls, path: Path, cells: int = 4096, elements: int = 16, slots: int = 256) -> Shared:
        """Makes the image of an empty memory. Raises `FileExistsError` if something is at the path."""
        return cls(lambda: _memories.create(path, cells, elements, slots))

    @classmethod
    def open(cls, path: Path) -> Shared:
        """Opens the image of an existing file."""
        return cls(lambda: _memories.open(path))

    @classmethod
    def open_or_create(cls, path: Path, cells: int = 4096, elements: int = 16, slots: int = 256) -> Shared:
        """Opens the image of an existing file, or makes it if nothing is at the path."""
        return cls(lambda: _memories.open_or_create(path, cells, elements, slots))

    def __enter__(self) -> Shared:
        return self

    def __exit__(self, *fault: object) -> None:
        self.close()

    def _send(self, asked: Union[Asked, Called]) -> None:
        with self._lock:
            if self._closed:
                raise ValueError("closed")
            self._asked.put(asked)

    def submit(self, request: Request) -> Future[Reply]:
        """Sends a request, and returns a future of its answer. A request with the number 0 gets the element's next one.
        Answered entries of that element are then confirmed when its window is full, together with other requests."""
        self._use(request.element)
        return self._submit(request, True)

    def _use(self, element: int) -> None:
        if element in self._pool:
            raise ValueError(f"element {element}: {FOR_LEASES}")
        self._used.add(element)

    def _submit(self, request: Request, waits: bool) -> Future[Reply]:
        spelled(request)
        is_numbered = Tag(request.tag) == Tag.CONFIRM or request.number > 0
        future: Future[Reply] = Future()
        self._send(Asked(request, future, waits, is_numbered))
        return future

    def ask(self, request: Request) -> Reply:
        """Sends a request, and returns its reply once that is on the disk. WAITING is a reply, too."""
        self._use(request.element)
        return self._submit(request, False).result()

    def wait(self, request: Request, timeout: Optional[float] = None) -> Reply:
        """Sends a request, and waits for its answer, so many seconds once the request is on the disk. If there is none
        then, raises `Waiting`, whose `request` has the number: wait for that again, as often as you like, also after a
        kill. A request with the number 0 gets the element's next one."""
        reply = self.ask(request)
        if reply.answer != Answer.WAITING:
            return reply
        named = request._replace(number=reply.number)
        later = self.submit(named)
        try:
            return later.result(timeout)
        except TimedOut:
            later.cancel()
            raise Waiting(reply.of, named) from None

    def confirm(self, element: int, upto: int) -> None:
        """Drops the entries of the element below the number. `submit` takes a request with the tag CONFIRM and that
        number, too, so that nobody has to wait for it."""
        self.ask(Request(Tag.CONFIRM, element, upto))

    def call(self, call: Callable[[Image], T]) -> Future[T]:
        """Makes a call of the image in its thread, after what was sent before. An example is `lambda it: it.count`."""
        future: Future[T] = Future()
        self._send(Called(call, future))
        return future

    def _now(self, call: Callable[[Image], T]) -> T:
        return self.call(call).result()

    def window(self, element: int) -> Window:
        """Returns the window of an element: which of its numbers are kept. This and what follows makes no request. It
        shows what is on the disk, once what was sent before is."""
        return self._now(lambda image: image.window(element))

    def entry(self, element: int, number: int) -> Optional[Request]:
        """Returns the request that is kept under an element's number, or None."""
        return self._now(lambda image: image.entry(element, number))

    def collect(self, element: int, number: int) -> Reply:
        """Returns the reply that is kept under an element's number."""
        return self._now(lambda image: image.collect(element, number))

    def cell(self, address: int) -> Optional[Cell]:
        """Returns what a cell holds, or None if it lies in no block."""
        return self._now(lambda image: image.cell(address))

    def cells(self, start: int, count: int) -> list[Optional[Cell]]:
        """Returns what so many cells hold at one time, from an address on: fewer at the end of the memory."""
        return self._now(lambda image: image.cells(start, count))

    def block(self, address: int) -> Optional[Block]:
        """Returns the block that an address lies in, or None."""
        return self._now(lambda image: image.block(address))

    def waiters(self, address: int) -> list[tuple[int, int]]:
        """Returns the requests that wait at a cell, in the order in which they came: each an element and a number."""
        return self._now(lambda image: image.waiters(address))

    def stuck(self) -> list[Request]:
        """Returns the oldest request of each element that is stuck: 64 of its requests are kept, and that one waits. It
        asks nothing more before that is answered."""
        return self._now(Image.stuck)

    def stat(self) -> Stat:
        """Returns the numbers of the image: its blocks, cells, entries, and elements that are stuck."""
        return self._now(Image.stat)

    @property
    def room(self) -> int:
        """The number of commands that the journal still has room for."""
        return self._now(lambda image: image.room)

    @property
    def count(self) -> int:
        """The number of commands that have been accepted since the image was made."""
        return self._now(lambda image: image.count)

    @property
    def limits(self) -> tuple[int, int, int]:
        """The numbers of cells, elements, and journal slots."""
        return self._now(lambda image: image.limits)

    def backup(self, path: Path) -> None:
        """Copies the image to a path where nothing exists, between two groups. Others may ask meanwhile. The copy is on
        the disk, and was seen to open as an image, before this returns."""
        self._now(lambda image: image.backup(path))

    def element(self, number: int) -> SharedElement:
        """Returns the element, whose requests are numbered here from the first that isn't confirmed on: a program that
        was killed makes them again and goes on where it was. It is the same at each call."""
        self._use(number)
        return self._elements.setdefault(number, SharedElement(self, number))

    def element_anew(self, number: int) -> SharedElementAnew:
        """Returns an element whose requests get new numbers. What a run before asked is not asked again, so a value
        that it had taken when it was killed is lost to the program."""
        self._use(number)
        return SharedElementAnew(self, number)

    def lease(self, count: int = 1, first: Optional[int] = None) -> Lanes[Future[int]]:
        """Leases elements of the upper half, or from the number `first` on: none that is leased, or of which a request
        waits. The program uses none of these by its number, in no run. Use `with image.lease() as one`, or `give_back`.
        Raises `NoElement` if there aren't so many. Of several, each fetch or take goes to the one with the most room."""
        return self._lend(self.call(lambda image: self._reserve(image, count, first)).result(), Future)

    def _lend(self, numbers: list[int], future: Callable[[], T]) -> Lanes[T]:
        return Lanes(numbers, self._lent, self._lent_asks, future, self._leased.difference_update)

    def _lent_asks(self, request: Request) -> Future[Reply]:
        return self._submit(request, True)

    def _reserve(self, image: Image, count: int, first: Optional[int]) -> list[int]:
        """Finds elements for a lease. Takes over what waited at the end of an earlier run."""
        elements = image.limits[1]
        pool = [it for it in reversed(range(elements // 2 if first is None else first, elements)) if it not in self._used]
        for request in (asked for it in pool if it not in self._pool for asked in waiting(image, it)):
            self._lent.adopt(request, self._submit(request, True), self._back(request))
        self._pool.update(pool)
        free = (it for it in pool if it not in self._leased and not waiting(image, it))
        numbers = list(itertools.islice(free, max(1, count)))
        if len(numbers) < count:
            raise NoElement(None, image.path, ALL_TAKEN)
        self._leased.update(numbers)
        return numbers

    def _back(self, taken: Request) -> Callable[[int], object]:
        put = taken._replace(tag=Tag.PUT, number=0)
        return lambda value: self._submit(put._replace(value=value), True) if taken.tag == Tag.TAKE else None

    def close(self) -> None:
        """Serves the requests that were sent, and closes the image."""
        with self._lock:
            if not self._closed:
                self._closed = True
                self._asked.put(None)
        if threading.current_thread() is not self._thread:
            self._thread.join()


class Group:
    """Commands that are served together, each with who asked for it. A confirmation that is made here has nobody."""

    def __init__(self, image: Image) -> None:
        self.image = image
        self.commands: list[Request] = []
        self.asked: list[Optional[Asked]] = []
        self.windows: dict[int, Window] = {}  # As the requests that are numbered here leave them.
        self.others: set[int] = set()  # The elements of the other commands.
        self.confirmed: set[int] = set()  # The elements of confirmations.

    def takes(self, asked: Asked) -> bool:
        """Adds a command, under its number. Returns False if it has to wait for the next group."""
        request = asked.request
        if asked.counted:
            counted = self.count(asked.counted, request)
            if counted is None:
                return False
            request = counted
        if asked.is_numbered:
            self.others.add(request.element)
        else:
            number = self.number(request.element)
            if number is None:
                return False
            request = request._replace(number=number)
        self.add(asked, request)
        return True

    def count(self, counted: Counted, request: Request) -> Optional[Request]:
        """Returns a request under the next number of its element, or a confirmation of all before. Returns None if it
        has to wait until the confirmation in this group is served."""
        element = request.element
        if counted.next is None:
            counted.next = self.image.window(element).base
        if request.tag == Tag.CONFIRM:
            self.confirmed.add(element)
            return request._replace(number=counted.next)
        if counted.next - self.image.window(element).base >= KEPT:
            if element in self.confirmed:
                return None
            named = request._replace(number=counted.next)
            raise WindowFull(None, f"{self.image.path}: {named}", FULL)
        counted.next += 1
        return request._replace(number=counted.next - 1)

    def add(self, asked: Optional[Asked], command: Request) -> None:
        self.asked.append(asked)
        self.commands.append(command)

    def number(self, element: int) -> Optional[int]:
        """Returns the number of an element's next request. Before that it adds a confirmation if the window is full.
        Returns None if the request has to wait until the commands so far are served."""
        if element in self.others:
            return None
        base, after = self.windows.get(element) or self.image.window(element)
        if after - base >= KEPT:
            upto = self.first_that_waits(element, base)
            if self.commands and (upto == base or len(self.commands) + 2 > MOST):
                return None
            if upto > base:
                self.add(None, Request(Tag.CONFIRM, element, upto))
            base = upto
        self.windows[element] = Window(base, after + 1)
        return after

    def first_that_waits(self, element: int, number: int) -> int:
        """Returns the first number from this one on that waits, or wasn't asked before this group."""
        after = self.image.window(element).next
        while number < after and self.image.collect(element, number).answer != Answer.WAITING:
            number += 1
        return number


def again(asked: Asked, command: Request) -> Asked:
    """Returns what comes first in the next group: a counted request keeps its number."""
    return asked._replace(request=command, counted=None) if asked.counted else asked


class Owner:
    """The thread that makes the calls."""

    image: Image

    def __init__(self, asked: queue.SimpleQueue[Union[Asked, Called, None]]) -> None:
        self.asked = asked
        self.ready: collections.deque[Union[Asked, Called]] = collections.deque()  # What came, in its order.
        self.waiting: dict[tuple[int, int], list[Future[Reply]]] = {}  # Who waits, by element and number.
        self.ends = False

    def run(self, make: Callable[[], Image], began: Future[None]) -> None:
        try:
            self.image = make()
        except BaseException as fault:
            began.set_exception(fault)
            return
        with self.image:
            began.set_result(None)
            while self.take_in():
                self.do_next()
        for futures in self.waiting.values():
            for future in futures:
                future.cancel()

    def take_in(self) -> bool:
        """Takes what was sent, and makes room while there is nothing. Returns whether there is more to do."""
        while not self.ends:
            try:
                one = self.asked.get(block=not self.ready and not self.make_room())
            except queue.Empty:
                if self.ready:
                    break
                continue
            if one is None:
                self.ends = True
            else:
                self.ready.append(one)
        return bool(self.ready)

    def make_room(self) -> bool:
        """Makes room in the journal while nobody asks. Returns whether there was anything to do."""
        try:
            return self.image.make_room()
        except (OSError, Refused):
            self.tell_lost()
            return False

    def do_next(self) -> None:
        """Makes the call that came first, or serves a group of the commands that came first."""
        first = self.ready[0]
        if isinstance(first, Called):
            self.ready.popleft()
            self.call(first)
        else:
            self.serve(self.gather())

    def call(self, called: Called) -> None:
        try:
            give(called.future, called.call(self.image))
        except BaseException as fault:
            give(called.future, fault)
        for of in list(self.waiting):  # The call may have answered anyone.
            self.tell_resumed(of)

    def gather(self) -> Group:
        """Takes the commands that came first, in their order, up to a group."""
        group = Group(self.image)
        while self.ready and len(group.commands) < MOST:
            asked = self.ready[0]
            if isinstance(asked, Called):
                break
            try:
                if not group.takes(asked):
                    break
            except BaseException as fault:
                give(asked.future, fault)
            self.ready.popleft()
        return group

    def serve(self, group: Group) -> None:
        """Serves a group. What isn't served with it comes first in the next one."""
        if not group.commands:
            return
        try:
            replies = self.image.ask_group(group.commands)
        except BaseException as fault:
            for failed in filter(None, group.asked):
                give(failed.future, fault)
            self.tell_lost()
            return
        left = list(zip(group.asked, group.commands))[len(replies) :]
        self.ready.extendleft(again(asked, command) for asked, command in reversed(left) if asked)
        for asked, command, reply in zip(group.asked, group.commands, replies):
            if asked:
                self.tell(asked, command, reply)
        for of in self.image.woken():
            self.tell_resumed(of)

    def tell(self, asked: Asked, command: Request, reply: Union[Reply, Refused]) -> None:
        """Gives a request its reply. If the request waits, its future is kept instead."""
        if isinstance(reply, Reply) and reply.answer == Answer.WAITING and asked.waits:
            of = command.element, command.number
            before = self.waiting.get(of, [])
            self.waiting[of] = [*(it for it in before if not it.cancelled()), asked.future]
            self.tell_resumed(of)  # It may have been answered with its group.
        else:
            give(asked.future, reply)

    def tell_lost(self) -> None:
        """Fails all futures that wait, because a step was lost: no answer comes any more."""
        for futures in self.waiting.values():
            for future in futures:
                give(future, Device(None, self.image.path))
        self.waiting.clear()

    def tell_resumed(self, of: tuple[int, int]) -> None:
        """Gives the reply to those who waited for an entry that is answered now."""
        reply: Union[Reply, Exception]
        try:
            reply = self.image.collect(*of)
        except (Refused, ValueError) as fault:
            reply = fault
        if not isinstance(reply, Reply) or reply.answer != Answer.WAITING:
            for future in self.waiting.pop(of, []):
                give(future, reply)
