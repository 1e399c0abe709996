"""The calls of luntrebis.h and luntrebis_file.h, as ctypes has them: scripts/bindings writes this file."""
import ctypes as c
import enum
from typing import Any


LT_VERSION = "0.1.0"


LT_VERSION_NUMBER = 100


class lt_tag(enum.IntEnum):
    """What a command asks for, by `tag`."""

    ALLOC_I = 1  # a block of `address` cells, to be fetched and stored
    ALLOC_M = 2  # a block of `address` cells, to be taken and put
    RELEASE = 3  # the block with the base `address` is given back
    FETCH = 4
    STORE = 5
    TAKE = 6
    PUT = 7
    CONFIRM = 8  # the entries below `number` may be forgotten
    RESET = 9  # the cells of the block with the base `address` are emptied


class lt_answer(enum.IntEnum):
    """The outcome of a command, by `tag`."""

    WAITING = 0  # deferred: its answer is collected later
    BASE = 1  # the base of the new block, in `value`
    NO_SPACE = 2
    BAD_LENGTH = 3
    VALUE = 4  # what was read, in `value`
    STORED = 5
    CLASH = 6
    NO_CELL = 7
    WRONG_KIND = 8
    RELEASED = 9
    NO_BLOCK = 10
    STILL_WAITING = 11
    CLEARED = 12
    CONFIRMED = 128


class lt_refusal(enum.IntEnum):
    OK = 0
    GAP = 1  # a number beyond the next one
    FORGOTTEN = 2  # a number below the window
    WINDOW_FULL = 3  # 64 entries are kept: confirm some
    MISMATCH = 4  # a number that was used, for another request
    NO_ELEMENT = 5
    NOT_ANSWERED = 6  # a confirmation of an entry that waits
    JOURNAL_FULL = 7  # the journal has no room: turns make some
    # the steps couldn't be listed, or the caller lost one. Open the image again; if a sync failed, not before its
    # file system is mounted anew or the machine is restarted
    DEVICE = 8
    FAILED = 9  # an earlier call failed; no call here returns it, because LT_DEVICE is returned again
    NO_MEMORY = 10  # of lt_memory_new, lt_format, lt_open and lt_inspect
    WRONG_LENGTH = 12  # of lt_open and lt_inspect, as the next four: the image's first fault
    NO_HEADER = 13  # never finished, or damaged; this is no reason to call lt_format on an existing file
    BAD_HEADER = 14
    BAD_PAGE = 15
    BAD_RECORD = 16
    BAD_LIMITS = 17  # of lt_memory_new and lt_format
    OLD_VERSION = 21  # of lt_open: an image of the first layout; `imem migrate` makes one of this layout
    # of a member of lt_serve_group: it isn't served, and changed nothing; put it again. Of lt_front_submit and
    # lt_front_next: it isn't asked; ask again after lt_front_advance
    UNSERVED = 254
    NO_CALL = 255  # an unknown tag, no such write, or no group


class lt_command(c.Structure):
    """A request of an element, under a number of its own: 1, 2, 3 and so on. Or a confirmation."""

    _fields_ = [
        ("tag", c.c_uint8),
        ("element", c.c_uint16),
        ("address", c.c_uint32),
        ("number", c.c_uint64),
        ("value", c.c_uint64),
    ]
    tag: Any
    element: Any
    address: Any
    number: Any
    value: Any


class lt_outcome(c.Structure):
    """If `refusal` isn't 0, the rest is 0."""

    _fields_ = [
        ("refusal", c.c_uint8),
        ("tag", c.c_uint8),
        ("value", c.c_uint64),
    ]
    refusal: Any
    tag: Any
    value: Any


class lt_state(enum.IntEnum):
    """What a cell holds, by `state`."""

    NOWHERE = 0  # the address lies in no block
    EMPTY = 1
    AWAITED = 2  # requests wait for it
    FULL = 3  # it has `value`
    CLASHED = 4  # it had `value` when it was written once more


class lt_presence(c.Structure):
    """A cell, and the block that it lies in. If it lies in none, all is 0."""

    _fields_ = [
        ("kind", c.c_uint8),
        ("state", c.c_uint8),
        ("base", c.c_uint32),
        ("length", c.c_uint32),
        ("value", c.c_uint64),
    ]
    kind: Any
    state: Any
    base: Any
    length: Any
    value: Any


class lt_memory(c.Structure):
    """A handle of a memory. Zero bytes hold nothing."""

    _fields_ = [
        ("block", c.c_void_p),
    ]
    block: Any


class lt_image(c.Structure):
    """A handle of an image. Zero bytes hold nothing."""

    _fields_ = [
        ("block", c.c_void_p),
    ]
    block: Any


class lt_bounds(c.Structure):
    _fields_ = [
        ("refusal", c.c_uint8),
        ("base", c.c_uint64),
        ("next", c.c_uint64),
    ]
    refusal: Any
    base: Any
    next: Any


class lt_advanced(c.Structure):
    """What lt_front_advance did. If `refusal` isn't 0, nothing is ahead."""

    _fields_ = [
        ("refusal", c.c_uint8),
        ("ahead", c.c_uint8),
        ("answered", c.c_uint8),
    ]
    refusal: Any
    ahead: Any
    answered: Any


class lt_told(c.Structure):
    """A command that was asked, by its ticket, and its outcome."""

    _fields_ = [
        ("ticket", c.c_uint64),
        ("outcome", lt_outcome),
    ]
    ticket: Any
    outcome: Any


class lt_asked_state(enum.IntEnum):
    """Where a command stands that is asked, by `state`."""

    NONE_ASKED = 0  # there is none
    ASKED = 1
    AHEAD = 2  # it acts with the next lt_front_advance


class lt_asked(c.Structure):
    _fields_ = [
        ("ticket", c.c_uint64),
        ("command", lt_command),
        ("state", c.c_uint8),
    ]
    ticket: Any
    command: Any
    state: Any


class lt_sizes(c.Structure):
    """The sizes of an image."""

    _fields_ = [
        ("cells", c.c_uint32),
        ("elements", c.c_uint16),
        ("slots", c.c_uint32),
    ]
    cells: Any
    elements: Any
    slots: Any


class lt_waiter(c.Structure):
    """A request that waits."""

    _fields_ = [
        ("element", c.c_uint16),
        ("number", c.c_uint64),
    ]
    element: Any
    number: Any


class lt_figures(c.Structure):
    """The numbers of an image."""

    _fields_ = [
        ("blocks", c.c_uint64),
        ("empty", c.c_uint64),
        ("awaited", c.c_uint64),
        ("full", c.c_uint64),
        ("clashed", c.c_uint64),
        ("kept", c.c_uint64),
        ("waiting", c.c_uint64),
        ("full_windows", c.c_uint64),
        ("stuck", c.c_uint64),
    ]
    blocks: Any
    empty: Any
    awaited: Any
    full: Any
    clashed: Any
    kept: Any
    waiting: Any
    full_windows: Any
    stuck: Any


class lt_kind(enum.IntEnum):
    """What a step does on the file, by `kind`."""

    NO_STEP = 0  # there is no such step
    WRITE = 1  # `length` bytes from the offset `place` on
    SYNC = 2  # all that was written is put on the disk, as by fsync, before any later step


class lt_step(c.Structure):
    _fields_ = [
        ("kind", c.c_uint8),
        ("place", c.c_uint64),
        ("length", c.c_uint64),
    ]
    kind: Any
    place: Any
    length: Any


class lt_turn_tag(enum.IntEnum):
    """What a turn of a checkpoint or a sweep did, by `tag` of its outcome."""

    IDLE = 0
    BEGAN = 1
    PAGE = 2  # the page with the number `value` was written
    SYNCED = 3
    IN_FORCE = 4
    SWEPT = 5


class ltf(c.Structure):
    pass


LTF_UNSYNCED = 300


class ltf_counts(c.Structure):
    """The work that was done since the file was opened."""

    _fields_ = [
        ("groups", c.c_uint64),
        ("syncs", c.c_uint64),
        ("writes", c.c_uint64),
        ("sweeps", c.c_uint64),
        ("turns", c.c_uint64),
    ]
    groups: Any
    syncs: Any
    writes: Any
    sweeps: Any
    turns: Any


class ltf_fault(c.Structure):
    _fields_ = [
        ("error", c.c_int),
        ("sync", c.c_int),
        ("noted", c.c_int),
    ]
    error: Any
    sync: Any
    noted: Any


# What each gives, and what it is given.
CALLS: dict[str, tuple[Any, ...]] = {
    "lt_version": (c.c_uint32,),
    "lt_version_text": (c.c_char_p,),
    "lt_layout_version": (c.c_uint16,),
    "lt_is_error": (c.c_int, c.c_uint8),
    "lt_memory_new": (c.c_uint8, c.c_uint32, c.c_uint16, c.POINTER(lt_memory)),
    "lt_memory_step": (c.c_uint8, lt_memory, c.POINTER(lt_command), c.POINTER(lt_memory), c.POINTER(lt_outcome)),
    "lt_memory_collect": (c.c_uint8, c.POINTER(lt_memory), c.c_uint16, c.c_uint64, c.POINTER(lt_outcome)),
    "lt_memory_cell": (lt_presence, c.POINTER(lt_memory), c.c_uint32),
    "lt_memory_free": (None, lt_memory),
    "lt_image_length": (c.c_uint64, c.c_uint32, c.c_uint16, c.c_uint32),
    "lt_limits": (c.c_uint8, c.c_char_p, c.c_size_t, c.POINTER(lt_sizes)),
    "lt_format": (c.c_uint8, c.c_uint32, c.c_uint16, c.c_uint32, c.POINTER(lt_image)),
    "lt_open": (c.c_uint8, c.c_char_p, c.c_size_t, c.POINTER(lt_image)),
    "lt_serve": (c.c_uint8, lt_image, c.POINTER(lt_command), c.POINTER(lt_image), c.POINTER(lt_outcome)),
    "lt_serve_group": (
        c.c_uint8,
        lt_image,
        c.POINTER(lt_command),
        c.c_size_t,
        c.POINTER(lt_image),
        c.POINTER(lt_outcome),
        c.c_size_t,
    ),
    "lt_first_unknown": (c.c_size_t, c.POINTER(lt_command), c.c_size_t),
    "lt_front_submit": (c.c_uint8, lt_image, c.c_uint64, c.POINTER(lt_command), c.POINTER(lt_image)),
    "lt_front_next": (c.c_uint8, lt_image, c.c_uint64, c.POINTER(lt_command), c.c_uint64, c.POINTER(lt_image)),
    "lt_front_advance": (
        c.c_uint8,
        lt_image,
        c.POINTER(lt_image),
        c.POINTER(lt_advanced),
        c.POINTER(lt_told),
        c.c_size_t,
    ),
    "lt_front_asked": (lt_asked, c.POINTER(lt_image), c.c_size_t),
    "lt_turn": (c.c_uint8, lt_image, c.POINTER(lt_image), c.POINTER(lt_outcome)),
    "lt_sweep": (c.c_uint8, lt_image, c.c_uint32, c.POINTER(lt_image), c.POINTER(lt_outcome)),
    "lt_failed": (None, lt_image, c.POINTER(lt_image)),
    "lt_steps": (c.c_size_t, c.POINTER(lt_image)),
    "lt_step_at": (lt_step, c.POINTER(lt_image), c.c_size_t),
    "lt_step_bytes": (c.c_uint8, c.POINTER(lt_image), c.c_size_t, c.c_char_p, c.c_size_t),
    "lt_collect": (c.c_uint8, c.POINTER(lt_image), c.c_uint16, c.c_uint64, c.POINTER(lt_outcome)),
    "lt_entry": (lt_command, c.POINTER(lt_image), c.c_uint16, c.c_uint64),
    "lt_waiters": (c.c_size_t, c.POINTER(lt_image), c.c_uint32, c.POINTER(lt_waiter), c.c_size_t),
    "lt_cell": (lt_presence, c.POINTER(lt_image), c.c_uint32),
    "lt_cells": (c.c_size_t, c.POINTER(lt_image), c.c_uint32, c.POINTER(lt_presence), c.c_size_t),
    "lt_stat": (lt_figures, c.POINTER(lt_image)),
    "lt_stuck": (c.c_size_t, c.POINTER(lt_image), c.POINTER(lt_waiter), c.c_size_t),
    "lt_window": (c.c_uint8, c.POINTER(lt_image), c.c_uint16, c.POINTER(lt_bounds)),
    "lt_room": (c.c_uint32, c.POINTER(lt_image)),
    "lt_count": (c.c_uint64, c.POINTER(lt_image)),
    "lt_close": (None, lt_image),
    "lt_inspect": (c.c_uint8, c.c_char_p, c.c_size_t, c.c_char_p, c.c_size_t, c.POINTER(c.c_size_t)),
    "lt_refusal_name": (c.c_size_t, c.c_uint8, c.c_char_p, c.c_size_t),
    "lt_answer_name": (c.c_size_t, c.c_uint8, c.c_char_p, c.c_size_t),
    "lt_tell": (c.c_size_t, c.POINTER(lt_command), c.POINTER(lt_outcome), c.c_char_p, c.c_size_t),
    "ltf_create": (c.c_int, c.c_char_p, c.c_uint32, c.c_uint16, c.c_uint32, c.POINTER(c.POINTER(ltf))),
    "ltf_open": (c.c_int, c.c_char_p, c.POINTER(c.POINTER(ltf))),
    "ltf_open_or_create": (c.c_int, c.c_char_p, c.c_uint32, c.c_uint16, c.c_uint32, c.POINTER(c.POINTER(ltf))),
    "ltf_serve": (c.c_int, c.POINTER(ltf), c.POINTER(lt_command), c.POINTER(lt_outcome)),
    "ltf_serve_all": (c.c_int, c.POINTER(ltf), c.POINTER(lt_command), c.c_size_t, c.POINTER(lt_outcome)),
    "ltf_serve_group": (
        c.c_int,
        c.POINTER(ltf),
        c.POINTER(lt_command),
        c.c_size_t,
        c.POINTER(lt_outcome),
        c.POINTER(c.c_size_t),
    ),
    "ltf_front_submit": (c.c_int, c.POINTER(ltf), c.c_uint64, c.POINTER(lt_command)),
    "ltf_front_next": (c.c_int, c.POINTER(ltf), c.c_uint64, c.POINTER(lt_command), c.c_uint64),
    "ltf_front_advance": (c.c_int, c.POINTER(ltf), c.POINTER(lt_told), c.POINTER(c.c_size_t)),
    "ltf_woken": (c.POINTER(lt_waiter), c.POINTER(ltf), c.POINTER(c.c_size_t)),
    "ltf_tidy": (c.c_int, c.POINTER(ltf)),
    "ltf_collect": (c.c_int, c.POINTER(ltf), c.c_uint16, c.c_uint64, c.POINTER(lt_outcome)),
    "ltf_entry": (lt_command, c.POINTER(ltf), c.c_uint16, c.c_uint64),
    "ltf_waiters": (c.c_size_t, c.POINTER(ltf), c.c_uint32, c.POINTER(lt_waiter), c.c_size_t),
    "ltf_window": (lt_bounds, c.POINTER(ltf), c.c_uint16),
    "ltf_cell": (lt_presence, c.POINTER(ltf), c.c_uint32),
    "ltf_cells": (c.c_size_t, c.POINTER(ltf), c.c_uint32, c.POINTER(lt_presence), c.c_size_t),
    "ltf_stat": (lt_figures, c.POINTER(ltf)),
    "ltf_stuck": (c.c_size_t, c.POINTER(ltf), c.POINTER(lt_waiter), c.c_size_t),
    "ltf_room": (c.c_uint32, c.POINTER(ltf)),
    "ltf_count": (c.c_uint64, c.POINTER(ltf)),
    "ltf_limits": (lt_sizes, c.POINTER(ltf)),
    "ltf_backup": (c.c_int, c.POINTER(ltf), c.c_char_p),
    "ltf_work": (ltf_counts, c.POINTER(ltf)),
    "ltf_failure": (ltf_fault, c.POINTER(ltf)),
    "ltf_say": (c.c_size_t, c.c_int, c.c_char_p, c.c_size_t),
    "ltf_close": (None, c.POINTER(ltf)),
}
