"""A durable memory of I-structures and M-structures, in an image file.

    with luntrebis.Shared.open_or_create("a.img") as image:
        maker, one = image.element(0), image.element(1)
        counter = maker.alloc_m(1).result()
        maker.put(counter, 0).result()
        for _ in range(10):
            value = one.take(counter).result()
            one.put(counter, value + 1).result()
            one.done().result()               # a unit of work is over

Kill it at any moment and run it again: each element begins at its last `done`, asks the same again, gets the same
answers, and goes on. `maker` calls no `done`, so it gets the same block each time.

`layout` makes blocks with names. `Counter`, `Queue`, `store_bytes`, `fetch_bytes` and `fetch_range` work on them.

A wait can't be withdrawn. After `result(0.2)` keep the future, or cancel it: then the same call of the element gets the
answer. `Shared.wait` says after a time under which number to wait again. `Shared.lease` gives elements that nobody else
has, and what one of these takes after a time-out is put back.

`Shared` is for many threads, with futures. `luntrebis.aio` is for tasks of an event loop, and its `serve` needs the
program `imem` alone, no library. `Image` is for one thread. `Memory` has no disk. `element_anew` numbers anew: it
doesn't ask again. A refusal raises a subclass of `Refused`. A reply which says that the program asked for something
impossible raises a subclass of `Answered`. A file's errors are `OSError`. `version()` says which library it is, and
whether it was proved.
"""
from ._helpers import Counter, Queue, fetch_bytes, fetch_range, layout, store_bytes
from ._library import version
from ._memories import Deferred, Element, ElementAnew, Image, Memory, answered, create, inspect, open, open_or_create
from ._requests import Lanes
from ._shared import Shared, SharedElement, SharedElementAnew
from ._words import (
    Answer,
    Answered,
    BadHeader,
    BadLength,
    BadLimits,
    BadPage,
    BadRecord,
    Block,
    Cell,
    Clash,
    Device,
    Failed,
    Forgotten,
    Gap,
    JournalFull,
    Mismatch,
    NoBlock,
    NoCall,
    NoCell,
    NoElement,
    NoHeader,
    NoMemory,
    NoSpace,
    NotAnswered,
    OldVersion,
    Refused,
    Reply,
    Request,
    Stat,
    State,
    StillWaiting,
    SyncFailed,
    Tag,
    Unserved,
    Waiting,
    Window,
    WindowFull,
    Work,
    WrongKind,
    WrongLength,
)

__all__ = [
    "Answer", "Answered", "BadHeader", "BadLength", "BadLimits", "BadPage", "BadRecord", "Block", "Cell", "Clash",
    "Counter", "Deferred", "Device", "Element", "ElementAnew", "Failed", "Forgotten", "Gap", "Image", "JournalFull",
    "Lanes", "Memory", "Mismatch", "NoBlock", "NoCall", "NoCell", "NoElement", "NoHeader", "NoMemory", "NoSpace",
    "NotAnswered", "OldVersion", "Queue", "Refused", "Reply", "Request", "Shared", "SharedElement",
    "SharedElementAnew", "Stat", "State", "StillWaiting", "SyncFailed", "Tag", "Unserved", "Waiting", "Window",
    "WindowFull", "Work", "WrongKind", "WrongLength", "answered", "create", "fetch_bytes", "fetch_range", "inspect",
    "layout", "open", "open_or_create", "store_bytes", "version",
]
