"""A memory without a disk, and an image in its file."""
from __future__ import annotations

import ctypes as c
import errno
import fcntl
import io
import os
import threading
from typing import Any, Iterable, Iterator, Optional, Sequence, Union

from ._calls import LTF_UNSYNCED, lt_command, lt_memory, lt_outcome, lt_presence, lt_waiter, ltf
from ._library import LIB
from ._requests import FULL, KEPT
from ._words import Answer, BadLimits, Block, Cell, Device, Forgotten, Gap, Mismatch, NoElement, Refused, Reply, Request
from ._words import Stat, SyncFailed, Tag, Waiting, Window, WindowFull, Work, passed, refusal, seen, spelled, told

Path = Union[str, "os.PathLike[str]"]
LIMITS = "there are 1 to 1048576 cells, 1 to 64 elements and 16 to 4096 slots"
IN_USE = "the image is in use by another program"
RULE = "a sync failed: mount the file system anew, or restart, before the image is opened again"


def addressed(address: int) -> int:
    """Returns an address, or raises why it is none."""
    if not 0 <= address < 1 << 32:
        raise ValueError(f"an address is at least 0 and below 2^32, and not {address}")
    return address


def named(path: Path) -> str:
    """Returns the name of a path, or raises why it has none."""
    name = os.fsdecode(path)
    if "\0" in name:
        raise ValueError("embedded null byte")
    return name


def opened(answer: int, name: str) -> None:
    """Raises why a file isn't opened or made, if it isn't."""
    if answer < 0:
        raise OSError(-answer, IN_USE if answer == -errno.EWOULDBLOCK else os.strerror(-answer), name)
    if answer == LTF_UNSYNCED:
        raise SyncFailed(0, f"{RULE} (the note is {name}.unsynced)")
    passed(answer, name, LIMITS if answer == BadLimits.number else "")


class Held:
    """A memory that the library holds until `close`. Calls from several threads run one after another."""

    def __init__(self) -> None:
        self._lock, self._is_closed = threading.RLock(), False

    def __exit__(self, *fault: object) -> None:
        self.close()

    def close(self) -> None:
        """Frees the memory. Nothing that was answered is lost."""
        with self._lock:
            if not self._is_closed:
                self._is_closed = True
                self._free()

    def _free(self) -> None:
        raise NotImplementedError

    def _check(self) -> None:
        if self._is_closed:
            raise ValueError("closed")

    def _serve(self, command: lt_command) -> lt_outcome:
        raise NotImplementedError

    def _of(self, request: Request) -> str:
        """Returns how an exception names a request."""
        return str(request)

    def _why(self, request: Request, refused: int) -> str:
        """Returns what else an exception says about a refused request."""
        return ""

    def ask(self, request: Request) -> Reply:
        """Sends one request and returns its reply. The same request again is answered as before, without acting."""
        outcome = self._serve(spelled(request))
        if outcome.refusal:
            raise refusal(outcome.refusal, self._of(request), self._why(request, outcome.refusal))
        return told(outcome, lambda: self._of(request), request.number)

    def confirm(self, element: int, upto: int) -> None:
        """Drops the entries of the element below the number. Their replies can't be asked for again."""
        self.ask(Request(Tag.CONFIRM, element, upto))

    def cell(self, address: int) -> Optional[Cell]:
        """Returns what a cell holds, or None if it lies in no block. This and what follows makes no request."""
        return seen(self._cell(addressed(address)))

    def _cell(self, address: int) -> lt_presence:
        raise NotImplementedError


class Memory(Held):
    """A memory with no disk. Its contents end with it."""

    def __init__(self, cells: int, elements: int) -> None:
        super().__init__()
        self._handle = lt_memory(None)
        passed(LIB.lt_memory_new(cells, elements, self._handle), f"{cells} cells, {elements} elements", LIMITS)

    def __enter__(self) -> Memory:
        return self

    def _free(self) -> None:
        LIB.lt_memory_free(self._handle)

    def _serve(self, command: lt_command) -> lt_outcome:
        outcome, handle = lt_outcome(), lt_memory(None)
        with self._lock:
            self._check()
            LIB.lt_memory_step(self._handle, command, handle, outcome)
            self._handle = handle
        return outcome

    def collect(self, element: int, number: int) -> Reply:
        """Returns the reply that is kept under an element's number."""
        outcome = lt_outcome()
        with self._lock:
            self._check()
            LIB.lt_memory_collect(self._handle, element, number, outcome)
        return told(outcome, lambda: f"{element}.{number}", number)

    def _cell(self, address: int) -> lt_presence:
        with self._lock:
            self._check()
            found: lt_presence = LIB.lt_memory_cell(self._handle, address)
        return found


class Image(Held):
    """A memory in an image file, which this program has for itself. Each reply is on the disk before it is returned.

    `Shared` is for several threads, which then share the syncs. After a step that couldn't be carried out, each call
    raises the reason: close the image, open it again, and ask again under the same numbers.
    """

    def __init__(self, call: str, path: Path, *limits: int) -> None:
        """Use `create`, `open` or `open_or_create` of this module instead."""
        super().__init__()
        self._file, self.path = c.POINTER(ltf)(), named(path)
        self._elements: dict[int, Element] = {}
        answer = getattr(LIB, call)(os.fsencode(self.path), *limits, c.byref(self._file))
        self._is_closed = answer != 0
        opened(answer, self.path)

    def __enter__(self) -> Image:
        return self

    def _free(self) -> None:
        LIB.ltf_close(self._file)

    def _of(self, request: Request) -> str:
        return f"{self.path}: {request}"

    def _why(self, request: Request, refused: int) -> str:
        if refused == NoElement.number:
            return f"its elements are 0 to {self.limits[1] - 1}"
        if refused == Mismatch.number:
            before = self.entry(request.element, request.number)
            return f"under this number it asked before: {before}" if before else ""
        if refused in (Gap.number, Forgotten.number):
            base, after = self.window(request.element)
            return f"the numbers {base} to {after - 1} are kept, and {after} is the next"
        return FULL if refused == WindowFull.number else ""

    def _call(self, name: str, *words: Any) -> Any:
        with self._lock:
            self._check()
            return getattr(LIB, name)(self._file, *words)

    def _carried_out(self, answer: int) -> int:
        """Returns the answer, or raises why a step was lost."""
        if answer == Device.number:
            fault = self._call("ltf_failure")
            if fault.sync:
                raise SyncFailed(fault.error, f"{self.path}: {RULE}")
            if fault.error:
                raise OSError(fault.error, os.strerror(fault.error), self.path)
        return answer

    def _serve(self, command: lt_command) -> lt_outcome:
        outcome = lt_outcome()
        self._carried_out(self._call("ltf_serve", command, outcome))
        return outcome

    def ask_all(self, requests: Iterable[Request]) -> list[Union[Reply, Refused]]:
        """Sends any requests, in their order. Returns the reply or the refusal of each. Up to sixteen neighbours are
        put on the disk together: of one element or several, with confirmations (the tag CONFIRM) among them."""
        named = list(requests)
        asked = [spelled(it) for it in named]
        commands, outcomes = (lt_command * len(asked))(*asked), (lt_outcome * len(asked))()
        passed(self._carried_out(self._call("ltf_serve_all", commands, len(asked), outcomes)), self.path)
        return [self._reply(*it) for it in zip(named, outcomes)]

    def ask_group(self, requests: Sequence[Request]) -> list[Union[Reply, Refused]]:
        """Sends the first of these requests, at most sixteen, and puts them on the disk together. Returns the reply or
        the refusal of each that was served: at least one if there is any. The others changed nothing, and are sent
        again. It is for a program to which requests keep coming."""
        asked = [spelled(it) for it in requests]
        commands, outcomes, served = (lt_command * len(asked))(*asked), (lt_outcome * len(asked))(), c.c_size_t()
        passed(self._carried_out(self._call("ltf_serve_group", commands, len(asked), outcomes, served)), self.path)
        return [self._reply(*it) for it in zip(requests, outcomes[: served.value])]

    def _reply(self, request: Request, outcome: lt_outcome) -> Union[Reply, Refused]:
        if outcome.refusal:
            return refusal(outcome.refusal, self._of(request), self._why(request, outcome.refusal))
        return told(outcome, lambda: self._of(request), request.number)

    def woken(self) -> list[tuple[int, int]]:
        """Returns the requests that the last `ask`, `ask_all` or `ask_group` resumed: they waited before, and are
        answered now. Each is an element and a number. Those of one cell are in the order in which they came."""
        count = c.c_size_t()
        with self._lock:
            waiters = self._call("ltf_woken", count)
            return [(waiters[at].element, waiters[at].number) for at in range(count.value)]

    def collect(self, element: int, number: int) -> Reply:
        """Returns the reply that is kept under an element's number."""
        outcome = lt_outcome()
        self._call("ltf_collect", element, number, outcome)
        return told(outcome, lambda: f"{self.path}: {self.entry(element, number) or f'{element}.{number}'}", number)

    def entry(self, element: int, number: int) -> Optional[Request]:
        """Returns the request that is kept under an element's number, or None."""
        asked = self._call("ltf_entry", element, number)
        if not asked.tag:
            return None
        return Request(Tag(asked.tag), asked.element, asked.number, asked.address, asked.value)

    def _look(self, name: str, *words: Any) -> Any:
        """Makes a call that shows nothing after a lost step, and raises why then."""
        with self._lock:
            shown = self._call(name, *words)
            self._carried_out(Device.number if self._call("ltf_failure").error else 0)
        return shown

    def _cell(self, address: int) -> lt_presence:
        found: lt_presence = self._look("ltf_cell", address)
        return found

    def cells(self, start: int, count: int) -> list[Optional[Cell]]:
        """Returns what so many cells hold, from an address on: fewer at the end of the memory."""
        places = (lt_presence * min(count, self.limits[0]))()
        return [seen(it) for it in places[: self._look("ltf_cells", addressed(start), places, len(places))]]

    def block(self, address: int) -> Optional[Block]:
        """Returns the block that an address lies in, or None."""
        found = self._cell(addressed(address))
        return Block(found.base, found.length) if found.kind else None

    def waiters(self, address: int) -> list[tuple[int, int]]:
        """Returns the requests that wait at a cell, in the order in which they came: each an element and a number."""
        return self._waiters("ltf_waiters", addressed(address))

    def stuck(self) -> list[Request]:
        """Returns the oldest request of each element that is stuck: 64 of its requests are kept, and that one waits. It
        asks nothing more before that is answered."""
        found = (self.entry(*it) for it in self._waiters("ltf_stuck"))
        return [it for it in found if it]

    def _waiters(self, name: str, *words: Any) -> list[tuple[int, int]]:
        room = KEPT * self.limits[1]
        places = (lt_waiter * room)()
        return [(it.element, it.number) for it in places[: self._look(name, *words, places, room)]]

    def stat(self) -> Stat:
        """Returns the numbers of the image: its blocks, cells, entries, and elements that are stuck."""
        found = self._look("ltf_stat")
        return Stat(*(getattr(found, it) for it in Stat._fields))

    def backup(self, path: Path) -> None:
        """Copies the image to a path where nothing exists, with all that was answered. The copy is on the disk, and was
        seen to open as an image, before this returns."""
        name = named(path)
        opened(self._carried_out(self._call("ltf_backup", os.fsencode(name))), name)

    def make_room(self) -> bool:
        """Makes room in the journal, by a sweep or a turn of a checkpoint, if less than half of it is free. Returns
        whether there was anything to do. Each request does it, too; this is for a program that is idle."""
        answer = self._carried_out(self._call("ltf_tidy"))
        if answer > 1:
            passed(answer, self.path)
        return answer == 1

    def window(self, element: int) -> Window:
        """Returns the window of an element: which of its numbers are kept."""
        bounds = self._call("ltf_window", element)
        if bounds.refusal:
            why = f"its elements are 0 to {self.limits[1] - 1}"
            raise refusal(bounds.refusal, f"{self.path}: element {element}", why if bounds.refusal == 5 else "")
        return Window(bounds.base, bounds.next)

    @property
    def room(self) -> int:
        """The number of commands that the journal still has room for."""
        return int(self._call("ltf_room"))

    @property
    def count(self) -> int:
        """The number of commands that have been accepted since the image was made."""
        return int(self._call("ltf_count"))

    @property
    def limits(self) -> tuple[int, int, int]:
        """The numbers of cells, elements, and journal slots."""
        sizes = self._call("ltf_limits")
        return sizes.cells, sizes.elements, sizes.slots

    @property
    def work(self) -> Work:
        """The work that was done since the image was opened."""
        counts = self._call("ltf_work")
        return Work(counts.groups, counts.syncs, counts.writes, counts.sweeps, counts.turns)

    def element(self, number: int) -> Element:
        """Returns the element, whose requests are numbered here from the first that isn't confirmed on: a program that
        was killed makes them again and goes on where it was. It is the same at each call."""
        return self._elements.get(number) or self._elements.setdefault(number, Element(self, number))

    def element_anew(self, number: int) -> ElementAnew:
        """Returns an element whose requests get new numbers. What a run before asked is not asked again, so a value
        that it had taken when it was killed is lost to the program."""
        return ElementAnew(self, number)


class Deferred:
    """A fetch or a take, which is answered or waits for its cell."""

    def __init__(self, image: Image, element: int, number: int) -> None:
        self.image, self.element, self.number = image, element, number

    def __repr__(self) -> str:
        return f"Deferred({self.element}.{self.number})"

    def ready(self) -> bool:
        """Whether it is answered."""
        return self.image.collect(self.element, self.number).answer != Answer.WAITING

    def get(self) -> int:
        """Returns the value. Raises `Waiting` if there is none yet."""
        reply = self.image.collect(self.element, self.number)
        return reply.get()


class Asking:
    """Makes the requests of one element."""

    def __init__(self, image: Image, number: int) -> None:
        self.image, self.number = image, number
        self.base, self.next = image.window(number)

    def _ask(self, tag: Tag, address: int, value: int = 0) -> tuple[int, Reply]:
        number = self.next
        reply = self.image.ask(Request(tag, self.number, number, address, value))
        self.next += 1
        return number, reply

    def alloc_i(self, length: int) -> int:
        """Makes a block of I cells, to be fetched and stored. Returns its base."""
        return self._ask(Tag.ALLOC_I, length)[1].get()

    def alloc_m(self, length: int) -> int:
        """Makes a block of M cells, to be taken and put. Returns its base."""
        return self._ask(Tag.ALLOC_M, length)[1].get()

    def fetch(self, address: int) -> Deferred:
        """Reads an I cell, or waits until it is stored."""
        return self._later(Tag.FETCH, address)

    def take(self, address: int) -> Deferred:
        """Empties an M cell, or waits until it is full."""
        return self._later(Tag.TAKE, address)

    def _later(self, tag: Tag, address: int) -> Deferred:
        number, reply = self._ask(tag, address)
        if reply.answer != Answer.WAITING:
            reply.get()
        return Deferred(self.image, self.number, number)

    def store(self, address: int, value: int) -> None:
        """Writes an I cell, once."""
        self._ask(Tag.STORE, address, value)[1].get()

    def put(self, address: int, value: int) -> None:
        """Fills an empty M cell."""
        self._ask(Tag.PUT, address, value)[1].get()

    def release(self, base: int) -> None:
        """Gives a block back."""
        self._ask(Tag.RELEASE, base)[1].get()

    def reset(self, base: int) -> None:
        """Empties the cells of a block."""
        self._ask(Tag.RESET, base)[1].get()


class Element(Asking):
    """Makes the requests of one element, under the numbers from the first that isn't confirmed on.

    A program that was killed makes the same requests again from its last `done` on. They are answered as before, and
    act once. So it goes on where it was, if it asks the same whenever it gets the same answers. At most 64 requests
    may follow a `done`.
    """

    def __init__(self, image: Image, number: int) -> None:
        super().__init__(image, number)
        self.next = self.base

    def done(self) -> None:
        """A unit of work is over: the next run begins here. All that was asked has to be answered."""
        self.image.confirm(self.number, self.next)
        self.base = self.next


class ElementAnew(Asking):
    """Makes requests of one element, under new numbers. When its window is full, answered entries are confirmed."""

    def _ask(self, tag: Tag, address: int, value: int = 0) -> tuple[int, Reply]:
        if self.next - self.base >= KEPT:
            self.confirm()
        return super()._ask(tag, address, value)

    def confirm(self) -> None:
        """Drops all entries before the first that waits. A `Deferred` of one of them then raises `Forgotten`."""
        upto = self.base
        while upto < self.next and self.image.collect(self.number, upto).answer != Answer.WAITING:
            upto += 1
        if upto > self.base:
            self.image.confirm(self.number, upto)
            self.base = upto


def create(path: Path, cells: int = 4096, elements: int = 16, slots: int = 256) -> Image:
    """Makes the image of an empty memory. Raises `FileExistsError` if something is at the path."""
    return Image("ltf_create", path, cells, elements, slots)


def open(path: Path) -> Image:  # noqa: A001
    """Opens the image of an existing file. Raises `BlockingIOError` if another program has it."""
    return Image("ltf_open", path)


def open_or_create(path: Path, cells: int = 4096, elements: int = 16, slots: int = 256) -> Image:
    """Opens the image of an existing file, or makes it if nothing is at the path."""
    return Image("ltf_open_or_create", path, cells, elements, slots)


def inspect(path: Path) -> str:
    """Returns what `imem inspect` prints for a file. A shared lock keeps others from writing the file meanwhile."""
    with io.open(path, "rb") as file:
        fcntl.flock(file, fcntl.LOCK_SH | fcntl.LOCK_NB)
        data = file.read()
    room, length = c.create_string_buffer(1), c.c_size_t()
    for _ in range(2):  # The first call returns the length.
        answer = LIB.lt_inspect(data, len(data), room, len(room), length)
        passed(answer, f"{os.fsdecode(path)}, which has {len(data)} bytes")
        room = room if length.value <= len(room) else c.create_string_buffer(length.value)
    return room.raw[: length.value].decode()


def answered(held: Union[Memory, Image], asked: Iterable[tuple[int, int]]) -> Iterator[tuple[int, int, Reply]]:
    """Yields those of the pairs of an element and a number that are answered, with the reply."""
    for element, number in asked:
        reply = held.collect(element, number)
        if reply.answer != Answer.WAITING:
            yield element, number, reply
