"""What programs do while scripts/power-cut cuts the power: random scripts of few elements on a small image, and the scenes over them."""
import base64
import gzip
import random

import images

CELLS, ELEMENTS, SLOTS = 24, 3, 16
COUNTED = 24  # What the threads of scripts/power/asks.c count up to.
SIZES = f"--cells {CELLS} --elements {ELEMENTS} --slots {SLOTS}"
OF_WORD = {"fetch": images.FETCH, "store": images.STORE, "take": images.TAKE, "put": images.PUT, "release": images.RELEASE, "reset": images.RESET}


def operation_of(words):
    """Returns the operation of a line of a script; of none a confirmation."""
    word, *given = words.split() if words else ["confirm"]
    if word == "confirm":
        return images.CONFIRM, 0, 0
    if word == "alloc":
        return images.ALLOC_I if given[0] == "i" else images.ALLOC_M, int(given[1]), 0
    return OF_WORD[word], int(given[0]), int(given[1]) if given[1:] else 0


class Failed(Exception):
    """A program or a command of a guest ended otherwise than it has to."""


class Asking:
    """Requests in an order that never ends in a full window. `lines` has each one's element, number and words, and the confirmations between
    them, each with its element, number and None."""

    def __init__(self, dice, count):
        self.dice, self.memory, self.lines = dice, images.Memory(CELLS, ELEMENTS), []
        self.ask(0, "alloc i 4")
        self.ask(0, "alloc m 4")
        while sum(words is not None for _, _, words in self.lines) < count:
            self.ask_any()

    def ask(self, element, words):
        base, entries = self.memory.windows[element]
        if len(entries) == images.WINDOWS[2]:
            answered = next((at for at, (_, reply) in enumerate(entries) if reply is None), len(entries))
            if answered == 0:
                return
            self.memory.step(element, base + answered, (images.CONFIRM, 0, 0))
            self.lines.append((element, base + answered, None))
        base, entries = self.memory.windows[element]
        number = base + len(entries)
        if self.memory.step(element, number, operation_of(words)):
            self.lines.append((element, number, words))

    def ask_any(self):
        """Asks for something. Where many wait, one is answered more often."""
        dice, element = self.dice, self.dice.randrange(ELEMENTS)
        cells = [(at, it) for at, it in enumerate(self.memory.cells) if it]
        waiting = [(at, it) for at, it in cells if it.waiters]
        value, chance = dice.randrange(1 << 64), dice.random()
        if waiting and dice.random() < (0.9 if len(waiting) > 3 else 0.15):
            at, cell = dice.choice(waiting)
            self.ask(element, f"{'store' if cell.kind == 1 else 'put'} {at} {value}")
        elif not cells or chance < 0.1:
            self.ask(element, f"alloc {dice.choice('im')} {dice.choice([1, 2, 3, 4, CELLS + 1, 0])}")
        else:
            at, cell = dice.choice(cells)
            if chance < 0.2:
                self.ask(element, f"{dice.choice(['release', 'reset'])} {cell.base}")
            elif chance < 0.6:
                self.ask(element, f"{'fetch' if cell.kind == 1 else 'take'} {at}")
            else:
                self.ask(element, f"{'store' if cell.kind == 1 else 'put'} {at} {value}")

    def script(self, upto=None):
        asked = [it for it in self.lines if it[2] is not None]
        return "".join(f"element {element}\n{words}\n" for element, _, words in asked[:upto])

    def dialogue(self):
        """Returns the same requests as lines of a dialogue, with more confirmations between them, and the memory behind it."""
        memory, lines = images.Memory(CELLS, ELEMENTS), []
        for element, number, words in self.lines:
            base, entries = memory.windows[element]
            answered = next((at for at, (_, reply) in enumerate(entries) if reply is None), len(entries))
            if answered and words and self.dice.random() < 0.1:
                memory.step(element, base + answered, (images.CONFIRM, 0, 0))
                lines.append(f"confirm {element} {base + answered}")
            memory.step(element, number, operation_of(words))
            lines.append(f"confirm {element} {number}" if words is None else f"{element}.{number} {words}")
        return "".join(f"{it}\n" for it in lines), memory


def script_of_threads(dice):
    """Returns a script for threads in which each reply is the same in all orders."""
    half, asked = CELLS // 2, []
    for cell in range(half):
        asked += [f"store a+{cell} {dice.randrange(1000)}\n"] + [f"fetch a+{cell}\n"] * dice.randrange(3)
        asked += [f"put b+{cell} {dice.randrange(1000)}\n", f"take b+{cell}\n"]
    dice.shuffle(asked)
    lines = [f"element {1 + at % (ELEMENTS - 1)}\n{it}" for at, it in enumerate(asked)]
    return f"setup\nalloc a i {half}\nalloc b m {half}\n" + "".join(lines)


class Stage:
    """A guest in which a program works on /m, whose calls and prints are recorded."""

    def __init__(self, machine, dice):
        self.machine, self.dice = machine, dice

    def shell(self, words):
        status, said = self.machine.ask(words, 600)
        if status:
            raise Failed(f"{words}: {status} {said[-200:]}")
        return said

    def put(self, path, text):
        raw = base64.b64encode(gzip.compress(text if isinstance(text, bytes) else text.encode())).decode()
        self.shell("rm -f /t/raw")
        for at in range(0, len(raw), 3000):
            self.shell(f"echo {raw[at : at + 3000]} >> /t/raw")
        self.shell(f"base64 -d < /t/raw | gunzip > {path}")

    def run(self, words, given="/dev/null", more="", program="/imem", out="/dev/ttyS0"):
        """Runs the program. It prints to a terminal, so that it prints each line at once. Returns its status and what it says of errors."""
        line = f"{more} LD_PRELOAD=/calls.so {program} {words} < {given} > {out} 2> /t/errors; s=$?; cat /t/errors; exit $s"
        return self.machine.ask(line, 600)

    def imem(self, words, given="/dev/null", more=""):
        status, said = self.run(words, given, more)
        if status:
            raise Failed(f"imem {words}: {status} {said[-200:]}")


def serial(stage, begin, asking, path="/m/a.img", more=""):
    stage.put("/t/script", asking.script())
    begin()
    stage.imem(f"format --new {path} {SIZES}", more=more)
    stage.imem(f"serial --once {path} /t/script", more=more)


def serve(stage, begin, asking):
    """Lines stand in the pipe together, so that they are served in groups."""
    stage.put("/t/lines", asking.dialogue()[0])
    begin()
    stage.imem(f"format --new /m/a.img {SIZES}")
    stage.imem("serve /m/a.img", given="/t/lines")


def groups(stage, begin, asking):
    """The same with more lines: chains of groups, and a checkpoint behind every 16 commands."""
    serve(stage, begin, Asking(stage.dice, 120))


def run(stage, begin, asking):
    stage.put("/t/script", script_of_threads(stage.dice))
    begin()
    stage.imem(f"format --new /m/a.img {SIZES}")
    stage.imem("run --once /m/a.img /t/script")


def folders(stage, begin, asking):
    """The image is made in folders that were just made and never synced."""
    stage.put("/t/script", asking.script())
    begin()
    stage.shell("mkdir /m/x; mkdir /m/x/y")
    stage.imem(f"format --new /m/x/y/a.img {SIZES}")
    stage.imem("serial --once /m/x/y/a.img /t/script")


def over(stage, begin, asking):
    """Another image is made in place of one."""
    stage.put("/t/script", asking.script())
    stage.imem(f"format --new /m/a.img --cells {2 * CELLS} --elements {ELEMENTS} --slots 64")
    begin()
    stage.imem(f"format /m/a.img {SIZES}")
    stage.imem("serial --once /m/a.img /t/script")


def moves(stage, begin, asking):
    """Copies, backups, a dump that is loaded."""
    stage.put("/t/script", asking.script())
    stage.imem(f"format --new /m/a.img {SIZES}")
    stage.imem("serial /m/a.img /t/script")
    stage.put("/t/lines", "backup one\n0.900 fetch 0\nbackup two\n")
    stage.shell("mkdir /m/k; sync")
    begin()
    stage.imem("copy /m/a.img /m/b.img --slots 17")
    stage.imem("serve /m/a.img --backups /m/k", given="/t/lines")
    stage.shell("/imem dump /m/a.img > /t/dump")
    stage.imem("load /t/dump /m/c.img")


def migrate(stage, begin, asking):
    """An image of the first version is moved on."""
    limits = images.Limits(CELLS, ELEMENTS, 64, 1)
    memory, raw = images.Memory(CELLS, ELEMENTS, 1), bytearray(limits.length())
    memory.step(0, 1, (images.ALLOC_M, 4, 0))
    for number, cell in enumerate([0, 1, 1, 2], 1):
        memory.step(1, number, (images.TAKE if number < 3 else images.PUT, cell, number if number >= 3 else 0))
    images.spell_area(raw, 0, limits, memory, stage.dice)
    raw[: images.HEADER.size] = images.spell_header(images.OPEN, 0, 1, 5, limits)
    stage.put("/m/old.img", bytes(raw))
    begin()
    stage.imem("migrate /m/old.img /m/a.img")


def library(stage, begin, asking):
    """A C program with threads, over luntrebis_shared.h."""
    begin()
    status, said = stage.run("/m/a.img", program="/asks")
    if status:
        raise Failed(f"asks: {status} {said[-200:]}")


def no_sync(stage, begin, asking):
    """A control: the program's syncs are left out."""
    serial(stage, begin, asking, more="NO_SYNC=all")


def no_gates_sync(stage, begin, asking):
    """A control: the syncs behind gates are left out."""
    serial(stage, begin, asking, more="NO_SYNC=gates")


SCENES = {it.__name__.replace("_", "-"): it for it in (serial, serve, run, groups, folders, over, moves, migrate, library)}
CONTROLS = {it.__name__.replace("_", "-"): it for it in (no_sync, no_gates_sync)}


def asking_of(seed, count=40):
    return Asking(random.Random(f"requests {seed}"), count)
