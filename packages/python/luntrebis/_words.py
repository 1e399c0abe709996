"""Requests, replies, and the exceptions for refusals."""
from __future__ import annotations

from dataclasses import dataclass, field
from typing import Callable, NamedTuple

from ._calls import lt_answer, lt_command, lt_outcome, lt_presence, lt_state, lt_tag

Answer = lt_answer
State = lt_state
Tag = lt_tag


def said_of(kind: type[Exception]) -> str:
    """Returns the first sentence about a kind of exception, to stand behind a colon."""
    sentence = " ".join((kind.__doc__ or "").split()).split(". ")[0].rstrip(".")
    return sentence[:1].lower() + sentence[1:]


class Refused(Exception):
    """A call was refused. Each refusal that the library returns has a subclass of its own."""

    number = 0

    def __init__(self, number: int | None = None, of: str = "", why: str = "") -> None:
        self.number = type(self).number if number is None else number
        said = f"refused {self.number} {type(self).__name__}"
        super().__init__(": ".join(filter(None, [of, said, why or said_of(type(self))])))


class Gap(Refused):
    """A number beyond the element's next one."""

    number = 1


class Forgotten(Refused):
    """A number below the window: its entry was confirmed."""

    number = 2


class WindowFull(Refused):
    """64 entries of the element are kept: confirm some."""

    number = 3


class Mismatch(Refused):
    """The number was used for another request."""

    number = 4


class NoElement(Refused):
    """The image has no such element."""

    number = 5


class NotAnswered(Refused):
    """A confirmation of an entry that waits."""

    number = 6


class JournalFull(Refused):
    """The journal has no room. `Image` and `Shared` then make turns of a checkpoint."""

    number = 7


class Device(Refused):
    """A step was lost: close the image and open it again (after a failed sync, see `SyncFailed`)."""

    number = 8


class Failed(Refused):
    """An earlier call failed."""

    number = 9


class NoMemory(Refused):
    """There wasn't enough memory."""

    number = 10


class WrongLength(Refused):
    """The file doesn't have the length of an image."""

    number = 12


class NoHeader(Refused):
    """The image was never finished, is damaged, or is none. The file is left as it is."""

    number = 13


class BadHeader(Refused):
    """The image is damaged in a header."""

    number = 14


class BadPage(Refused):
    """The image is damaged in a page."""

    number = 15


class BadRecord(Refused):
    """The image is damaged in a record."""

    number = 16


class BadLimits(Refused):
    """A number of cells, elements or slots is out of its range."""

    number = 17


class OldVersion(Refused):
    """An image of the first layout: `imem migrate` makes one of this layout from it."""

    number = 21


class Unserved(Refused):
    """A command of a group that wasn't served, and changed nothing. No call of this package raises it."""

    number = 254


class NoCall(Refused):
    """An unknown tag, or commands that make no group."""

    number = 255


REFUSALS = {it.number: it for it in Refused.__subclasses__()}


class SyncFailed(OSError):
    """A sync failed: what was written may not be on the disk, whatever is read now. Don't open the image before its
    file system is mounted anew or the machine is restarted."""


class Answered(Exception):
    """The memory's reply says that the program asked for something impossible. `reply` has the reply."""

    def __init__(self, reply: Reply) -> None:
        self.reply = reply
        said = reply.answer.name.lower().replace("_", "-")
        super().__init__(": ".join(filter(None, [reply.of, said, said_of(type(self))])))


class Clash(Answered):
    """The cell was full at a store or a put, now or before."""


class NoSpace(Answered):
    """There is no place for a block of this length."""


class BadLength(Answered):
    """A block needs at least one cell."""


class NoCell(Answered):
    """The address lies in no block."""


class WrongKind(Answered):
    """A fetch or store at an M block, or a take or put at an I block."""


class NoBlock(Answered):
    """No block begins at the address."""


class StillWaiting(Answered):
    """A request waits at a cell of the block. The block stays as it is."""


class Waiting(Exception):
    """The request isn't answered yet. After a time-out `request` has its number: wait for it again."""

    def __init__(self, of: str = "", request: Request | None = None) -> None:
        self.request = request
        super().__init__(": ".join(filter(None, [of, said_of(type(self))])))


ERRORS: dict[Answer, type[Answered]] = {
    Answer.CLASH: Clash,
    Answer.NO_SPACE: NoSpace,
    Answer.BAD_LENGTH: BadLength,
    Answer.NO_CELL: NoCell,
    Answer.WRONG_KIND: WrongKind,
    Answer.NO_BLOCK: NoBlock,
    Answer.STILL_WAITING: StillWaiting,
}


class Request(NamedTuple):
    """A request of an element, under a number of its own: 1, 2, 3 and so on. `address` is a block's length at an alloc.
    Or a confirmation, with the tag CONFIRM: the entries below `number` are dropped.

    If the same request is sent again under its number, it is answered as before, and doesn't act again.
    """

    tag: Tag
    element: int
    number: int
    address: int = 0
    value: int = 0

    def __str__(self) -> str:
        """The request as a line of the program's dialogue, such as `2.7 store 1 2`."""
        if self.tag == Tag.CONFIRM:
            return f"confirm {self.element} {self.number}"
        value = f" {self.value}" if self.tag in (Tag.STORE, Tag.PUT) else ""
        word = self.tag.name.lower().replace("_", " ") if isinstance(self.tag, Tag) else f"tag {self.tag}"
        return f"{self.element}.{self.number} {word} {self.address}{value}"


class Window(NamedTuple):
    """An element's window. Its entries are kept from `base` on; `next` is the number of its next new request."""

    base: int
    next: int


@dataclass(frozen=True)
class Block:
    """Cells in a row. `block[3]` is the address of its cell 3, and `len(block)` says how many there are."""

    base: int
    length: int

    def __len__(self) -> int:
        return self.length

    def __getitem__(self, at: int) -> int:
        if not 0 <= at < self.length:
            raise IndexError(f"the block has the cells 0 to {self.length - 1}, and not {at}")
        return self.base + at


class Cell(NamedTuple):
    """What a cell holds. `kind` is "i" or "m". It has a `value` in the states FULL and CLASHED."""

    kind: str
    state: State
    value: int | None = None


class Stat(NamedTuple):
    """The numbers of an image: its blocks, their cells in each state, the entries that are kept and those that wait, the
    elements whose windows are full, and those of them that are stuck, since their oldest entry waits."""

    blocks: int
    empty: int
    awaited: int
    full: int
    clashed: int
    kept: int
    waiting: int
    full_windows: int
    stuck: int


class Work(NamedTuple):
    """How many groups were served, a command alone being one, and how many syncs and writes were made. Sweeps and turns
    make room in the journal."""

    groups: int
    syncs: int
    writes: int
    sweeps: int
    turns: int


@dataclass(frozen=True)
class Reply:
    """The reply to a request. It has a `value` if the answer is VALUE or BASE. `of` says which request of which file,
    and `number` is the request's number."""

    answer: Answer
    value: int = 0
    of: str = field(default="", compare=False, repr=False)
    number: int = field(default=0, compare=False, repr=False)

    def get(self) -> int:
        """Returns the value, the base, or 0. Raises `Waiting`, or the subclass of `Answered` for the reply."""
        if self.answer == Answer.WAITING:
            raise Waiting(self.of)
        if self.answer in ERRORS:
            raise ERRORS[self.answer](self)
        return self.value


def seen(cell: lt_presence) -> Cell | None:
    """Returns a cell, or None if it lies in no block."""
    if not cell.kind:
        return None
    state = State(cell.state)
    return Cell(kind_of(cell.kind), state, cell.value if state in (State.FULL, State.CLASHED) else None)


def kind_of(tag: int) -> str:
    return "i" if tag == Tag.ALLOC_I else "m"


def refusal(number: int, of: str = "", why: str = "") -> Refused:
    """Returns the exception for a refusal."""
    return REFUSALS[number](None, of, why) if number in REFUSALS else Refused(number, of, why)


def passed(number: int, of: str = "", why: str = "") -> None:
    """Raises the exception if the number is that of a refusal."""
    if number:
        raise refusal(number, of, why)


def checked(what: str, value: int, bits: int, request: Request) -> None:
    if not isinstance(value, int):
        raise TypeError(f"{what} is a whole number, and not {value!r}, in {request}")
    if not 0 <= value < 1 << bits:
        raise ValueError(f"{what} is at least 0 and below 2^{bits}, and not {value}, in {request}")


def spelled(request: Request) -> lt_command:
    """Returns the request in the library's form."""
    checked("an element", request.element, 16, request)
    checked("a number", request.number, 64, request)
    checked("an address or a length", request.address, 32, request)
    checked("a value", request.value, 64, request)
    return lt_command(request.tag, request.element, request.address, request.number, request.value)


def told(outcome: lt_outcome, of: Callable[[], str], number: int = 0) -> Reply:
    """Returns the reply, or raises the refusal. What it is of is looked up only if it may be said."""
    if outcome.refusal:
        raise refusal(outcome.refusal, of())
    answer = Answer(outcome.tag)
    return Reply(answer, outcome.value, of() if answer in ERRORS or answer == Answer.WAITING else "", number)
