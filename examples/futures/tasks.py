"""Tasks of asyncio over one image: a request is awaited, and the loop learns of the answers by the queue's descriptor. Each row
of a wavefront is a task, which fetches what the row above stores.

usage: python3 tasks.py LIBRARY IMAGE      The library as a shared one; the image is made, so nothing may have its name.
"""
import asyncio
import ctypes
import sys

WAITING, ALLOC_I, FETCH, STORE = 0, 1, 4, 5
SIDE = 6


class Command(ctypes.Structure):
    _fields_ = [("tag", ctypes.c_uint8), ("element", ctypes.c_uint16), ("address", ctypes.c_uint32),
                ("number", ctypes.c_uint64), ("value", ctypes.c_uint64)]


class Outcome(ctypes.Structure):
    _fields_ = [("refusal", ctypes.c_uint8), ("tag", ctypes.c_uint8), ("value", ctypes.c_uint64)]


class Answer(ctypes.Structure):
    _fields_ = [("command", Command), ("outcome", Outcome), ("mark", ctypes.c_void_p), ("later", ctypes.c_int)]


class Shared:
    """An image, to be awaited: `await shared.ask(..)`."""

    def __init__(self, library, path):
        self.calls = calls = ctypes.CDLL(library)
        pointer = ctypes.c_void_p
        calls.lts_create.argtypes = [ctypes.c_char_p, ctypes.c_uint32, ctypes.c_uint16, ctypes.c_uint32, ctypes.POINTER(pointer)]
        calls.lts_queue_make.argtypes = [ctypes.POINTER(pointer)]
        calls.lts_queue_submit.argtypes = [pointer, pointer, ctypes.POINTER(Command), ctypes.c_size_t, pointer]
        calls.lts_queue_take.argtypes = [pointer, ctypes.POINTER(Answer), ctypes.c_size_t]
        calls.lts_queue_take.restype = ctypes.c_size_t
        calls.lts_lease.argtypes = [pointer, ctypes.POINTER(ctypes.c_uint16)]
        for name in ("lts_queue_descriptor", "lts_queue_free", "lts_close"):
            getattr(calls, name).argtypes = [pointer]
        self.held, self.queue = pointer(), pointer()
        if calls.lts_create(path.encode(), 64, 16, 256, self.held) or calls.lts_queue_make(self.queue):
            raise OSError(f"{path}: no image is made")
        self.waiting, self.last, self.answers = {}, 0, (Answer * 64)()
        asyncio.get_running_loop().add_reader(calls.lts_queue_descriptor(self.queue), self.take)

    def lease(self):
        element = ctypes.c_uint16()
        if self.calls.lts_lease(self.held, element):
            raise RuntimeError("each element is leased")
        return element.value

    def ask(self, tag, element, address, value=0):
        """The future of the last answer's value."""
        self.last += 1
        future = self.waiting[self.last] = asyncio.get_running_loop().create_future()
        command = Command(tag, element, address, 0, value)
        if self.calls.lts_queue_submit(self.held, self.queue, command, 1, self.last):
            raise RuntimeError("the file is lost")
        return future

    def take(self):
        while some := self.calls.lts_queue_take(self.queue, self.answers, len(self.answers)):
            for answer in self.answers[:some]:
                if answer.outcome.refusal:
                    self.waiting.pop(answer.mark).set_exception(RuntimeError(f"refused {answer.outcome.refusal}"))
                elif answer.outcome.tag != WAITING:
                    self.waiting.pop(answer.mark).set_result(answer.outcome.value)

    def close(self):
        asyncio.get_running_loop().remove_reader(self.calls.lts_queue_descriptor(self.queue))
        self.calls.lts_close(self.held)
        self.calls.lts_queue_free(self.queue)


async def fill(shared, element, row):
    cell = 1
    for column in range(SIDE):
        if row > 0:
            above = await shared.ask(FETCH, element, (row - 1) * SIDE + column)
            cell = cell + above if column > 0 else above
        await shared.ask(STORE, element, row * SIDE + column, cell)
    return cell


async def main(library, path):
    shared = Shared(library, path)
    rows = [shared.lease() for _ in range(SIDE)]
    await shared.ask(ALLOC_I, rows[0], SIDE * SIDE)
    print("ends of rows", *await asyncio.gather(*(fill(shared, rows[row], row) for row in reversed(range(SIDE)))))
    shared.close()


asyncio.run(main(*sys.argv[1:]))
