"""A dialogue: lines that are asked of the program `imem serve`, or of a server. No library is needed."""
from __future__ import annotations

import asyncio
import collections
import contextlib
import errno
import os
import pathlib
import shutil
from typing import Awaitable, Callable, Optional, Union

from ._requests import ALL_TAKEN, FOR_LEASES, FULL, KEPT, Asking, Awaited, Lanes, Left, give
from ._words import Answer, Block, Cell, NoElement, Reply, Request, Stat, State, SyncFailed, Tag, Waiting, Window
from ._words import Refused, WindowFull, refusal, spelled

Path = Union[str, "os.PathLike[str]"]
ANSWERS = {it.name.lower().replace("_", ""): it for it in Answer}
STATES = {"empty": State.EMPTY, "waiting": State.AWAITED, "full": State.FULL, "clashed": State.CLASHED}
HERE = pathlib.Path(__file__).resolve()
NONE = (
    "there is no imem: `make try` builds one with no proof in two or three minutes, and `make imem` a proved one; then "
    "install this package again, put the program on the PATH, or name it"
)
HOPELESS = (2, 4, 5)  # Another start doesn't help: a bad call, a file in use for long, no good image.
TRIES, PAUSE = 10, 1.0  # How often a program that ends by itself is started again with no answer between, and when.


def find_program(imem: Optional[Path] = None) -> str:
    """Returns the program: the one that is named here or by LUNTREBIS_IMEM, the one in this package, `imem` on the
    PATH, or that in out/ of this checkout."""
    below = [it / "out" / name for it in HERE.parents[3:4] for name in ("imem", "imem-unproved")]
    named = imem or os.environ.get("LUNTREBIS_IMEM")
    there = [str(HERE.with_name("imem")), shutil.which("imem") or "", *map(str, below)]
    found = [it for it in there if it and os.access(it, os.X_OK)]
    if not named and not found:
        raise FileNotFoundError(NONE)
    return os.fspath(named) if named else found[0]


class Line:
    """A line that was asked, and a future of its answer. A program that is started again gets it again, if need be."""

    def __init__(self, text: str, future: asyncio.Future[list[str]], waits: bool) -> None:
        self.text, self.future, self.waits = text, future, waits


class Dialogue:
    """The lines that aren't answered yet, in the order in which they were asked, and whoever answers them: a program
    (`Program`), or a server (`Connection`).

    Lines that are asked before the event loop goes on are written together, so they stand in the pipe together and
    share their syncs. If the other end goes away, it is opened again, and what isn't answered is sent again, in its
    order.
    """

    reader: asyncio.StreamReader

    def __init__(self) -> None:
        self.is_closed = False
        self.writer: Optional[asyncio.StreamWriter] = None
        self.under_way: dict[Line, None] = {}
        self.sent: collections.deque[Line] = collections.deque()
        self.waiting: dict[str, list[Line]] = {}
        self.refused, self.failures, self.starts, self.asked, self.asked_again = "", 0, 0, 0, 0
        self.unwritten: list[Line] = []
        self.fault: Optional[BaseException] = None

    async def _open(self) -> None:
        """Opens the other end: sets the reader and the writer."""
        raise NotImplementedError

    async def _ended(self) -> Optional[Exception]:
        """Is called when nothing more is heard. Returns why it is of no use to open it again, or None."""
        raise NotImplementedError

    def _say_end(self) -> None:
        """Says that no line follows."""
        raise NotImplementedError

    async def begin(self) -> None:
        await self._start()
        self.serving = asyncio.create_task(self._serve())

    async def end(self) -> None:
        """Lets what was sent be answered, and ends."""
        self._write()
        self.is_closed = True
        self._say_end()
        await asyncio.gather(self.serving, return_exceptions=True)
        self._fail(asyncio.CancelledError())

    def ask(self, text: str, waits: bool = True) -> asyncio.Future[list[str]]:
        """Sends a line. Returns a future of the words of its answer, of a request that waits once that is answered."""
        future: asyncio.Future[list[str]] = asyncio.get_running_loop().create_future()
        if self.is_closed or self.fault:
            future.set_exception(ValueError("closed") if self.is_closed or not self.fault else self.fault)
            return future
        self.asked += 1
        line = Line(text, future, waits)
        self.under_way[line] = None
        if not self.unwritten:
            asyncio.get_running_loop().call_soon(self._write)
        self.unwritten.append(line)
        return future

    def _write(self) -> None:
        lines, self.unwritten = self.unwritten, []
        if lines and self.writer and not self.writer.is_closing():  # Else they are sent at the next start.
            self.sent.extend(lines)
            self.writer.write("".join(f"{it.text}\n" for it in lines).encode())

    async def _start(self) -> None:
        await self._open()
        self.sent, self.waiting, self.refused = collections.deque(), {}, ""
        self.asked_again += len(self.under_way) if self.starts else 0
        self.starts += 1
        self.unwritten = list(self.under_way)
        self._write()

    async def _serve(self) -> None:
        """Hears answers, and opens the other end again if it went away."""
        try:
            while True:
                with contextlib.suppress(ConnectionError):
                    while (answer := await self.reader.readline()).endswith(b"\n"):
                        self._hear(answer.decode().split())
                fault = await self._ended()
                if self.is_closed and not self._is_any_unserved():
                    return
                if fault:
                    self._fail(fault)
                    return
                await self._start()
                if self.is_closed:
                    self._say_end()  # It answers what was sent, and ends.
        except OSError as fault:
            self._fail(fault)

    def _is_any_unserved(self) -> bool:
        """Whether a line has no answer, not even that it waits."""
        return len(self.under_way) > sum(map(len, self.waiting.values()))

    def _fail(self, fault: BaseException) -> None:
        """Gives all who wait the fault. Those who are cancelled ask again under their numbers, once it is opened."""
        self.fault = fault
        for line in self.under_way:
            if isinstance(fault, asyncio.CancelledError):
                line.future.cancel()
            else:
                give(line.future, fault)
        self.under_way.clear()

    def _hear(self, words: list[str]) -> None:
        """Hears an answer: of requests that waited, or of the oldest line that was sent."""
        if words[:1] == ["refused"] or words[:2] == ["error", "0:"]:
            self.refused = " ".join(words[1:])
            return  # The other end goes away.
        self.failures = 0
        if words[1:2] == ["now"]:
            for line in self.waiting.pop(words[0], []):  # None, if it was sent again just now, and answered so.
                self._answer(line, [words[0], *words[2:]])
        elif words[1:] == ["waiting"] and self.sent[0].waits:
            self.waiting.setdefault(words[0], []).append(self.sent.popleft())
        else:
            self._answer(self.sent.popleft(), words)

    def _answer(self, line: Line, words: list[str]) -> None:
        self.under_way.pop(line, None)
        give(line.future, words)


class Program(Dialogue):
    """The program `imem serve`, behind two pipes. If it ends, it is started again."""

    program: asyncio.subprocess.Process

    def __init__(self, words: list[str]) -> None:
        super().__init__()
        self.words = words
        self.said: collections.deque[str] = collections.deque(maxlen=5)  # The last lines of standard error.

    async def _open(self) -> None:
        pipe = asyncio.subprocess.PIPE
        self.program = await asyncio.create_subprocess_exec(*self.words, stdin=pipe, stdout=pipe, stderr=pipe)
        assert self.program.stdout
        self.reader, self.writer = self.program.stdout, self.program.stdin
        self.said.clear()
        self.hearing = asyncio.create_task(self._hear_errors(self.program.stderr))

    def _say_end(self) -> None:
        if self.writer:
            self.writer.close()

    async def _hear_errors(self, stream: Optional[asyncio.StreamReader]) -> None:
        while stream and (line := await stream.readline()):
            self.said.append(line.decode(errors="replace").strip())

    async def _ended(self) -> Optional[Exception]:
        status = await self.program.wait()
        await self.hearing
        self.failures += status >= 0
        if status in HOPELESS or self.failures > TRIES or "unsynced" in "".join(self.said):
            return self._why(status)
        if not self.is_closed or self._is_any_unserved():
            await asyncio.sleep(PAUSE if status >= 0 else 0)
        return None

    def _why(self, status: int) -> Exception:
        said = "; ".join(it for it in self.said if it)
        words = self.refused.split()
        if words and words[0] != "8":
            return refusal(int(words[0]), "", said)
        if status == 4:
            return BlockingIOError(errno.EWOULDBLOCK, said)
        if "unsynced" in said:
            return SyncFailed(0, said)
        return OSError(f"imem ended with status {status}: {said or self.refused or 'it said nothing'}")


class Numbers:
    """The numbers of an element: what was asked before its window was known is asked then, in its order."""

    def __init__(self, window: asyncio.Future[Window], anew: bool) -> None:
        self.base = self.next = 0
        self.answered: set[int] = set()
        self.left = Left()
        self.held: Optional[list[Callable[[Optional[BaseException]], None]]] = []
        self.anew = anew
        window.add_done_callback(self._know)

    def _know(self, window: asyncio.Future[Window]) -> None:
        fault = asyncio.CancelledError() if window.cancelled() else window.exception()
        if not fault:
            base, after = window.result()
            self.base, self.next = base, after if self.anew else base
        held, self.held = self.held or [], None
        for one in held:
            one(fault)

    def when_known(self, one: Callable[[Optional[BaseException]], None]) -> None:
        if self.held is None:
            one(None)
        else:
            self.held.append(one)


class Served:
    """An image behind the program or a server, for the tasks of an event loop. Use `luntrebis.aio.serve` or
    `luntrebis.aio.connect`."""

    def __init__(self, path: str, dialogue: Dialogue) -> None:
        self.path, self.dialogue = path, dialogue
        self.elements = 0
        self._numbers: dict[tuple[int, bool], Numbers] = {}
        self._used: set[int] = set()  # The elements that the program uses by number.
        self._pool: set[int] = set()  # Those for leases.
        self._leased: set[int] = set()
        self._lent = Left()
        self._later: dict[tuple[int, int], asyncio.Future[Reply]] = {}  # What `wait` waits for.

    async def __aenter__(self) -> Served:
        return self

    async def __aexit__(self, *fault: object) -> None:
        await self.close()

    async def close(self) -> None:
        """Serves the requests that were sent, and closes the image. Those that still wait are cancelled."""
        await self.dialogue.end()

    async def line(self, text: str) -> list[str]:
        """Sends any other line of the dialogue, such as `cell 3` or `stat`. Returns the words of its answer."""
        if text.split()[:1] in ([], ["help"], ["quit"]) or "\n" in text:
            raise ValueError(f"{text!r} isn't a line that is answered by one")
        words = await self.dialogue.ask(text, False)
        if words[0] == "error":
            raise ValueError(" ".join(words))
        return words

    def ask(self, request: Request) -> Awaitable[Reply]:
        """Sends a request under its own number at this call. Awaiting it gives the answer. The same request again is
        answered as before. A request with the number 0 gets the element's next one."""
        self._use(request.element)
        return self._asked(request, True)

    def _use(self, element: int) -> None:
        if element in self._pool:
            raise ValueError(f"element {element}: {FOR_LEASES}")
        self._used.add(element)

    def _asked(self, request: Request, waits: bool) -> asyncio.Future[Reply]:
        if request.tag != Tag.CONFIRM and request.number == 0:
            return self._counted(request, True, waits)
        spelled(request)
        reply: asyncio.Future[Reply] = asyncio.get_running_loop().create_future()
        self._send(request, reply, waits)
        return reply

    async def wait(self, request: Request, timeout: Optional[float] = None) -> Reply:
        """Sends a request, and waits for its answer, so many seconds once the request is on the disk. If there is none
        then, raises `Waiting`, whose `request` has the number: wait for that again, as often as you like, also after a
        kill. A request with the number 0 gets the element's next one."""
        self._use(request.element)
        return await waited(await self._asked(request, False), request, timeout, self._ask_once)

    def _ask_once(self, request: Request) -> Awaitable[Reply]:
        """Asks for the answer to a request that waits, once for all who want it."""
        of = request.element, request.number
        if of not in self._later:
            self._later[of] = self._asked(request, True)
            self._later[of].add_done_callback(lambda _: self._later.pop(of, None))
        return asyncio.shield(self._later[of])

    async def lease(self, count: int = 1, first: Optional[int] = None) -> Lanes[Awaitable[int]]:
        """Leases elements of the upper half, or from the number `first` on: none that is leased, or of which a request
        waits. The program uses none of these by its number, in no run. Use `with await image.lease() as one`, or
        `give_back`. Raises `NoElement` if there aren't so many. Of several, each fetch or take goes to the one with the
        most room. Other clients of a server don't know of the lease, and have to use other elements."""
        numbers: list[int] = []
        for number in reversed(range(self.elements // 2 if first is None else first, self.elements)):
            if number in self._used | self._leased or len(numbers) == count:
                continue
            self._leased.add(number)  # Another task may ask meanwhile.
            if await self._is_waiting(number):
                self._leased.remove(number)
            else:
                numbers.append(number)
        if len(numbers) < count:
            self._leased.difference_update(numbers)
            raise NoElement(None, self.path, ALL_TAKEN)
        return Lanes(numbers, self._lent, self._lent_asks, awaited, self._leased.difference_update)

    def _lent_asks(self, request: Request) -> asyncio.Future[Reply]:
        return self._asked(request, True)

    async def _is_waiting(self, element: int) -> bool:
        """Whether a request of an element waits. Takes over what waited at the end of an earlier run."""
        kept = range(*await self.window(element))
        waiting = await self._waiting(*((element, it) for it in kept))
        if element not in self._pool:
            self._pool.add(element)
            for asked in waiting:
                self._lent.adopt(asked, self._asked(asked, True), self._back(asked))
        return bool(waiting)

    def _back(self, taken: Request) -> Callable[[int], object]:
        put = taken._replace(tag=Tag.PUT, number=0)
        return lambda value: self._asked(put._replace(value=value), True) if taken.tag == Tag.TAKE else None

    def confirm(self, element: int, upto: int) -> Awaitable[Reply]:
        """Drops the entries of the element below the number. It is sent at this call, and nobody has to await it."""
        return self.ask(Request(Tag.CONFIRM, element, upto))

    def element(self, number: int) -> ServedElement:
        """Returns the element, whose requests are numbered here from the first that isn't confirmed on: a program that
        was killed makes them again and goes on where it was. It is the same at each call."""
        self._use(number)
        return ServedElement(self, number, False)

    def element_anew(self, number: int) -> ServedElement:
        """Returns an element whose requests get new numbers. What a run before asked is not asked again, so a value
        that it had taken when it was killed is lost to the program."""
        self._use(number)
        return ServedElement(self, number, True)

    async def _waiting(self, *asked: tuple[int, int]) -> list[Request]:
        """Returns those of these requests, each an element and a number, that wait."""
        told = await asyncio.gather(*(self.line(f"entry {element}.{number}") for element, number in asked))
        found = (request_of(words) for words in told if words[-1] == "waiting")
        return [it for it in found if it]

    async def entry(self, element: int, number: int) -> Optional[Request]:
        """Returns the request that is kept under an element's number, or None."""
        return request_of(await self.line(f"entry {element}.{number}"))

    async def collect(self, element: int, number: int) -> Reply:
        """Returns the reply that is kept under an element's number."""
        return self._told(await self.line(f"collect {element}.{number}"), f"{self.path}: {element}.{number}", number)

    async def cell(self, address: int) -> Optional[Cell]:
        """Returns what a cell holds, or None if it lies in no block."""
        return cell_of(await self.line(f"cell {address}"))

    async def cells(self, start: int, count: int) -> list[Optional[Cell]]:
        """Returns what so many cells hold, one after another, from an address on: fewer at the end of the memory."""
        cells, *_ = await self.limits
        told = await asyncio.gather(*(self.line(f"cell {it}") for it in range(start, min(start + count, cells))))
        return [cell_of(words) for words in told]

    async def block(self, address: int) -> Optional[Block]:
        """Returns the block that an address lies in, or None."""
        words = await self.line(f"block {address}")
        return None if words[2] == "noblock" else Block(int(words[1]), int(words[3]))

    async def waiters(self, address: int) -> list[tuple[int, int]]:
        """Returns the requests that wait at a cell, in the order in which they came: each an element and a number."""
        words = await self.line(f"cell {address}")
        told = words[4:] if words[3:4] == ["waiting"] else []
        return [(int(element), int(number)) for element, number in (it.split(".") for it in told)]

    async def stuck(self) -> list[Request]:
        """Returns the oldest request of each element that is stuck: 64 of its requests are kept, and that one waits. It
        asks nothing more before that is answered."""
        return await self._waiting(*await self._full())

    async def _full(self) -> list[tuple[int, int]]:
        """Returns the elements whose windows are full, each with the number of its oldest request."""
        windows = await asyncio.gather(*(self.window(it) for it in range(self.elements)))
        return [(element, base) for element, (base, after) in enumerate(windows) if after - base >= KEPT]

    async def stat(self) -> Stat:
        """Returns the numbers of the image: its blocks, cells, entries, and elements that are stuck."""
        words = await self.line("stat")
        told = dict(zip(words[1::2], map(int, words[2::2])))
        names = ("blocks", "empty", "waiting", "full", "clashed", "kept", "deferred")
        full = await self._full()
        return Stat(*(told[it] for it in names), len(full), len(await self._waiting(*full)))

    async def _about(self, *names: str) -> list[int]:
        words = await self.line("about")
        return [int(words[words.index(it) + 1]) for it in names]

    @property
    def room(self) -> Awaitable[int]:
        """The number of commands that the journal still has room for."""
        return self._one("room")

    @property
    def count(self) -> Awaitable[int]:
        """The number of commands that have been accepted since the image was made."""
        return self._one("count")

    async def _one(self, name: str) -> int:
        return (await self._about(name))[0]

    @property
    def limits(self) -> Awaitable[tuple[int, int, int]]:
        """The numbers of cells, elements, and journal slots."""
        return self._limits()

    async def _limits(self) -> tuple[int, int, int]:
        cells, elements, slots = await self._about("cells", "elements", "slots")
        return cells, elements, slots

    async def backup(self, name: str) -> None:
        """Copies the image into the folder for backups, under a name that no file there has. The copy is on the disk
        before this returns."""
        words = await self.line(f"backup {name}")
        if words[2] != "count":
            raise OSError(f"{self.path}: {' '.join(words)}")

    async def window(self, element: int) -> Window:
        """Returns the window of an element: which of its numbers are kept. This and what follows makes no request."""
        words = await self.line(f"window {element}")
        if words[1] == "refused":
            raise refusal(int(words[2]), f"{self.path}: element {element}", self._why(int(words[2])))
        return Window(int(words[2]), int(words[3]))

    def _told(self, words: list[str], of: str, number: int) -> Reply:
        """Returns the reply of an answer, or raises the refusal."""
        _, word, *value = words
        if word == "refused":
            raise refusal(int(value[0]), of, self._why(int(value[0])))
        return Reply(ANSWERS[word], int(value[0]) if value else 0, of, number)

    def _why(self, refused: int) -> str:
        if refused == NoElement.number:
            return f"its elements are 0 to {self.elements - 1}"
        return FULL if refused == WindowFull.number else ""

    def _send(self, request: Request, reply: asyncio.Future[Reply], waits: bool = True) -> None:
        is_confirm = request.tag == Tag.CONFIRM
        asked = self.dialogue.ask(str(request), waits)

        def tell(done: asyncio.Future[list[str]]) -> None:
            numbers = self._numbers.get((request.element, True))
            is_over = not done.cancelled() and not done.exception() and done.result()[1:] != ["waiting"]
            if numbers and is_over and not is_confirm:
                numbers.answered.add(request.number)  # Also if it was given up.
            if done.cancelled():
                reply.cancel()
            elif fault := done.exception():
                give(reply, fault)
            elif done.result()[0] == "error":  # A line of requests is well-formed: it isn't allowed here.
                give(reply, PermissionError(f"{self.path}: {' '.join(done.result()[2:])}"))
            else:
                words = done.result()[:2] if is_confirm and done.result()[1] != "refused" else done.result()
                try:
                    give(reply, self._told(words, f"{self.path}: {request}", request.number))
                except Refused as fault:
                    give(reply, fault)

        asked.add_done_callback(tell)

    def _numbers_of(self, element: int, anew: bool) -> Numbers:
        if (element, anew) not in self._numbers:
            window = asyncio.ensure_future(self.window(element))
            self._numbers[element, anew] = Numbers(window, anew)
        return self._numbers[element, anew]

    def _counted(self, request: Request, anew: bool, waits: bool = True) -> asyncio.Future[Reply]:
        """Sends a request under its element's next number, or a confirmation of all that it asked."""
        spelled(request)
        numbers = self._numbers_of(request.element, anew)
        reply: asyncio.Future[Reply] = asyncio.get_running_loop().create_future()

        def send(fault: Optional[BaseException]) -> None:
            if isinstance(fault, asyncio.CancelledError):
                reply.cancel()
            elif fault:
                give(reply, fault)
            else:
                self._send_next(request, numbers, reply, waits)

        numbers.when_known(send)
        return reply

    def _send_next(self, request: Request, numbers: Numbers, reply: asyncio.Future[Reply], waits: bool) -> None:
        if request.tag == Tag.CONFIRM:
            numbers.base = numbers.next  # If it is refused, the next request says why.
            self._send(request._replace(number=numbers.next), reply)
            return
        if numbers.anew:
            self._make_room(request.element, numbers)
        named = request._replace(number=numbers.next)
        if numbers.next - numbers.base >= KEPT:
            give(reply, WindowFull(None, f"{self.path}: {named}", FULL))
            return
        numbers.next += 1
        self._send(named, reply, waits)

    def _make_room(self, element: int, numbers: Numbers) -> None:
        """Confirms what is answered, if the window is full."""
        base = numbers.base
        if numbers.next - base < KEPT:
            return
        while numbers.base in numbers.answered:
            numbers.answered.discard(numbers.base)
            numbers.base += 1
        if numbers.base > base:
            confirmed: asyncio.Future[Reply] = asyncio.get_running_loop().create_future()
            confirmed.add_done_callback(lambda it: it.cancelled() or it.exception())
            self._send(Request(Tag.CONFIRM, element, numbers.base), confirmed)


class ServedElement(Asking["Awaitable[int]"]):
    """Makes the requests of an element. Each is sent at its call; awaiting it gives its value, its base, or 0."""

    _is_awaited = True

    def __init__(self, image: Served, number: int, anew: bool) -> None:
        self.image, self.number, self._goes_back = image, number, anew
        self._left = image._numbers_of(number, anew).left

    def _send(self, tag: Tag, address: int, value: int) -> asyncio.Future[Reply]:
        return self.image._counted(Request(tag, self.number, 0, address, value), self._goes_back)

    def _future(self) -> Awaitable[int]:
        return awaited()

    def done(self) -> Awaitable[int]:
        """A unit of work is over: the next run begins here. All that was asked has to be answered. Nobody has to await
        it."""
        self._left.check(f"{self.image.path}: element {self.number}")
        return self._ask(Tag.CONFIRM, 0)


def cell_of(words: list[str]) -> Optional[Cell]:
    """Returns the cell of an answer such as `cell 3 i full 7`, or None if there is none."""
    if words[2] == "nocell":
        return None
    state = STATES[words[3]]
    return Cell(words[2], state, int(words[4]) if state in (State.FULL, State.CLASHED) else None)


def request_of(words: list[str]) -> Optional[Request]:
    """Returns the request of an answer such as `2.7 entry store 1 2 -> stored`, or None if none is kept."""
    if words[1] == "refused":
        return None
    element, number = map(int, words[0].split("."))
    word, *numbers = words[2 : words.index("->")]
    if word == "alloc":
        word = f"alloc_{numbers.pop(0)}"
    return Request(Tag[word.upper()], element, number, *map(int, numbers))


def awaited() -> Awaited:
    """Returns a future of a value, for a task of this loop."""
    return Awaited(loop=asyncio.get_running_loop())


async def waited(
    reply: Reply, request: Request, timeout: Optional[float], ask: Callable[[Request], Awaitable[Reply]]
) -> Reply:
    """Returns the answer to a request with this first reply. Raises `Waiting` if there is none in time."""
    if reply.answer != Answer.WAITING:
        return reply
    named = request._replace(number=reply.number)
    try:
        return await asyncio.wait_for(ask(named), timeout)
    except asyncio.TimeoutError:
        raise Waiting(reply.of, named) from None


async def make(program: str, name: str, sizes: list[str]) -> None:
    """Makes an image under another name, and gives it its own once it is whole: a kill leaves none that is half made."""
    fresh, pipe = f"{name}.new", asyncio.subprocess.PIPE
    made = await asyncio.create_subprocess_exec(program, "format", fresh, *sizes, stdout=pipe, stderr=pipe)
    told, said = await made.communicate()
    if os.path.exists(name):  # Another program was first.
        return
    if made.returncode:
        raise OSError(f"{name}: {(said or told).decode(errors='replace').strip()}")
    with contextlib.suppress(FileExistsError):
        os.link(fresh, name)
    os.unlink(fresh)
    folder = os.open(os.path.dirname(name) or ".", os.O_RDONLY)
    try:
        os.fsync(folder)
    finally:
        os.close(folder)


async def begin(
    path: Path, imem: Optional[Path], cells: int, elements: int, slots: int, backups: Optional[Path]
) -> Served:
    """Starts the program on an image, which is made if nothing is at the path."""
    program, name = find_program(imem), os.fsdecode(path)
    if not os.path.exists(name):
        await make(program, name, ["--cells", str(cells), "--elements", str(elements), "--slots", str(slots)])
    kept = ["--backups", os.fsdecode(backups)] if backups else []
    return await served_by(name, Program([program, "serve", name, "--watch", "--statuses", "--wait", "5", *kept]))


async def served_by(name: str, dialogue: Dialogue) -> Served:
    """Begins a dialogue, and asks how many elements there are."""
    await dialogue.begin()
    served = Served(name, dialogue)
    try:
        served.elements = await served._one("elements")
    except BaseException:
        await dialogue.end()
        raise
    return served
