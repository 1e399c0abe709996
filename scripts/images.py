"""Images of either version as docs/FORMAT.md describes them, for the scripts beside this file: a plain memory, the
bytes of its image, and what any bytes mean.

It is written from that page alone and shares nothing with the program. It is plain rather than fast.
"""
import random
import struct
from dataclasses import dataclass

NONE, LAST, OPEN = 0xFFFFFFFF, 1 << 62, 0xA5
PAGE, SLOT, GROUP = 4_096, 64, 16
WINDOWS, MOST_CELLS = {1: 16, 2: 64}, {1: 65_536, 2: 1_048_576}  # Of each version.
CELL, NODE, PLACE = struct.Struct("<BBHIIIIIQ"), struct.Struct("<IHHQ"), struct.Struct("<BBBBIQQQ")
HEADER, RECORD = struct.Struct("<BBH4sQQIHHI28s"), struct.Struct("<BBBBHHQQIIQ24s")
FREE, EMPTY, WAITING, FULL, CLASHED = range(5)
ALLOC_I, ALLOC_M, RELEASE, FETCH, STORE, TAKE, PUT, CONFIRM, RESET = range(1, 10)
BASE, NO_SPACE, BAD_LENGTH, VALUE, STORED, CLASH, NO_CELL, WRONG_KIND, RELEASED, NO_BLOCK, STILL_WAITING, CLEARED = range(1, 13)
REPLIES = "base nospace badlength value stored clash nocell wrongkind released noblock stillwaiting cleared".split()
FAULTS = {12: "WrongLength", 13: "NoHeader", 14: "BadHeader", 15: "BadPage", 16: "BadRecord", 21: "OldVersion"}


class Fault(Exception):
    """The first fault of an image, with its number."""

    def __str__(self):
        return f"refused {self.args[0]} {FAULTS[self.args[0]]}"


def need(holds, fault):
    if not holds:
        raise Fault(fault)


@dataclass
class Cell:
    base: int
    length: int
    kind: int  # 1 I, 2 M
    tag: int
    value: int
    waiters: list  # each an element and a number


# A plain memory.


class Memory:
    """The state of a memory: for each address its cell, or None; for each element its base number and its entries, each
    [operation, reply]. An operation is (code, address or length, value). A reply is (code, value), or None if the
    request waits. A memory of the first version has shorter windows and no reset."""

    def __init__(self, cells, elements, version=2):
        self.version = version
        self.cells = [None] * cells
        self.windows = [[1, []] for _ in range(elements)]

    def step(self, element, number, op):
        """Takes one command. Returns whether it was accepted."""
        if element >= len(self.windows):
            return False
        window = self.windows[element]
        base, entries = window
        if op[0] == CONFIRM:
            if not base < number <= base + len(entries) or any(reply is None for _, reply in entries[: number - base]):
                return False
            window[:] = [number, entries[number - base :]]
            return True
        if number != base + len(entries) or number > LAST or len(entries) == WINDOWS[self.version] or (op[0] == RESET and self.version == 1):
            return False
        entries.append([op, None])
        for (whose, sent), reply in self.act((element, number), *op):
            self.windows[whose][1][sent - self.windows[whose][0]][1] = reply
        return True

    def act(self, who, code, at, value):
        """Does an operation on the cells. Returns who is answered, and with what."""
        if code in (ALLOC_I, ALLOC_M):
            return [(who, self.allocate(code, at))]
        cell = self.cells[at] if at < len(self.cells) else None
        if code in (RELEASE, RESET):
            return [(who, self.end_lives(code, at, cell))]
        if cell is None or cell.kind != (1 if code in (FETCH, STORE) else 2) or cell.tag == CLASHED:
            return [(who, (NO_CELL if cell is None else CLASH if cell.kind == (1 if code in (FETCH, STORE) else 2) else WRONG_KIND, 0))]
        return self.read(who, code, cell) if code in (FETCH, TAKE) else self.write(who, code, cell, value)

    def allocate(self, code, length):
        if length == 0:
            return BAD_LENGTH, 0
        for base in range(len(self.cells) - length + 1):
            if not any(self.cells[base : base + length]):
                self.cells[base : base + length] = [Cell(base, length, code, EMPTY, 0, []) for _ in range(length)]
                return BASE, base
        return NO_SPACE, 0

    def end_lives(self, code, at, cell):
        """Gives a block back, or empties all of its cells."""
        if cell is None or cell.base != at:
            return NO_BLOCK, 0
        cells = self.cells[at : at + cell.length]
        if any(it.waiters for it in cells):
            return STILL_WAITING, 0
        if code == RELEASE:
            self.cells[at : at + cell.length] = [None] * cell.length
            return RELEASED, 0
        for it in cells:
            it.tag, it.value = EMPTY, 0
        return CLEARED, 0

    def read(self, who, code, cell):
        if cell.tag == FULL:
            reply = VALUE, cell.value
            if code == TAKE:
                cell.tag, cell.value = EMPTY, 0
            return [(who, reply)]
        cell.tag = WAITING
        cell.waiters.append(who)
        return []

    def write(self, who, code, cell, value):
        if cell.tag == FULL:
            cell.tag = CLASHED
            return [(who, (CLASH, 0))]
        answered = cell.waiters if code == STORE else cell.waiters[:1]
        cell.waiters = cell.waiters[len(answered) :]
        if code == STORE or not answered:
            cell.tag, cell.value = FULL, value
        else:
            cell.tag = WAITING if cell.waiters else EMPTY
        return [*((it, (VALUE, value)) for it in answered), (who, (STORED, 0))]


# Places.


@dataclass(frozen=True)
class Limits:
    cells: int
    elements: int
    slots: int
    version: int = 2

    @property
    def window(self):
        return WINDOWS[self.version]

    @property
    def session(self):
        """Returns the bytes of a session record."""
        return 64 * self.window

    @property
    def nodes(self):
        return self.window * self.elements

    def parts(self):
        """Returns the parts of an area: pages of cells, of nodes, and of sessions."""
        return -(-self.cells // 128), -(-self.nodes * NODE.size // PAGE), -(-self.elements * self.session // PAGE)

    def pages(self):
        return sum(self.parts())

    def area_at(self, area):
        return 2 * PAGE + area * PAGE * self.pages()

    def cell_at(self, area, a):
        return self.area_at(area) + CELL.size * a

    def node_at(self, area, node):
        return self.area_at(area) + PAGE * self.parts()[0] + NODE.size * node

    def session_at(self, area, element):
        return self.area_at(area) + PAGE * sum(self.parts()[:2]) + self.session * element

    def slot_at(self, sequence):
        return self.area_at(2) + SLOT * (sequence % self.slots)

    def length(self):
        return self.area_at(2) + SLOT * self.slots


# Spelling.


def spell_header(gate, area, generation, count, limits):
    return HEADER.pack(gate, area, limits.version, b"IMEM", generation, count, limits.cells, limits.elements, 0, limits.slots, bytes(28))


def spell_slot(gate, group, sequence, element, number, op):
    return RECORD.pack(gate, group, op[0], 0, element, 0, sequence, number, op[1], 0, op[2], bytes(24))


def spell_area(data, area, limits, memory, dice):
    """Writes the pages of a memory into an image, with nodes and links of what is free as `dice` chooses."""
    free = list(range(limits.nodes))
    dice.shuffle(free)
    for node in free:
        NODE.pack_into(data, limits.node_at(area, node), dice.choice([NONE, dice.choice(free)]), 0, 0, 0)
    for a, cell in enumerate(memory.cells):
        at = limits.cell_at(area, a)
        if cell is None:
            CELL.pack_into(data, at, 0, 0, 0, dice.randint(0, limits.cells), dice.choice([NONE, dice.randrange(limits.cells)]), NONE, NONE, 0, 0)
            continue
        nodes = [free.pop() for _ in cell.waiters]
        for node, after, (element, number) in zip(nodes, [*nodes[1:], NONE], cell.waiters):
            NODE.pack_into(data, limits.node_at(area, node), after, element, 1, number)
        first, last = (nodes[0], nodes[-1]) if nodes else (NONE, NONE)
        CELL.pack_into(data, at, cell.tag, cell.kind, 0, cell.base, cell.length, first, last, 0, cell.value)
    for element, (base, entries) in enumerate(memory.windows):
        at = limits.session_at(area, element)
        data[at : at + limits.session] = struct.pack("<QB", base, len(entries)).ljust(limits.session, b"\0")
        for number, (op, reply) in enumerate(entries, base):
            code, value = reply or (0, 0)
            PLACE.pack_into(data, at + 32 + 32 * (number % limits.window), op[0], 0, code, 0, op[1], op[2], value, 0)


def new(limits):
    """Makes a new image."""
    data = bytearray(limits.length())
    spell_area(data, 0, limits, Memory(limits.cells, limits.elements, limits.version), random.Random(1))
    data[: HEADER.size] = spell_header(OPEN, 0, 1, 0, limits)
    return bytes(data)


def new_with_a_block(limits):
    """Makes a new image on which element 0 has made a block of all cells."""
    data, memory = bytearray(limits.length()), Memory(limits.cells, limits.elements, limits.version)
    memory.step(0, 1, (ALLOC_I, limits.cells, 0))
    spell_area(data, 0, limits, memory, random.Random(1))
    data[: HEADER.size] = spell_header(OPEN, 0, 1, 1, limits)
    return bytes(data)


# Reading.


@dataclass
class Meaning:
    area: int
    generation: int
    count: int  # of commands that the area has
    run: int
    room: int
    memory: Memory


def read(data):
    """Returns what the bytes of a file mean, by the rules of its version. Raises the first `Fault` if they mean
    nothing."""
    area, generation, count, limits = read_header(data)
    need(len(data) == limits.length(), 12)
    memory = read_area(data, area, limits)
    run = read_run(data, count, limits, memory)
    slots = [data[limits.slot_at(count + it) :][:SLOT] for it in range(run, limits.slots)]
    room = next((at for at, slot in enumerate(slots) if slot[0] == OPEN), len(slots))
    need(all(struct.unpack_from("<Q", slot, 8)[0] < count for slot in slots[room:]), 16)
    return Meaning(area, generation, count, run, 0 if count + run == LAST else room, memory)


def read_to_open(data):
    """Returns what the bytes of a file mean that is to be opened. A file of the first version is refused, whatever
    follows its header."""
    need(read_header(data)[3].version == 2, 21)
    return read(data)


def read_header(data):
    need(len(data) >= 2 * PAGE, 12)
    headers = [HEADER.unpack_from(data, at) for at in (0, PAGE)]
    opened = [area for area in (0, 1) if headers[area][0] == OPEN]
    need(opened, 13)
    need(len(opened) == 1 or headers[0][4] != headers[1][4], 14)
    area = max(opened, key=lambda it: headers[it][4])
    _, own, version, mark, generation, count, cells, elements, zero, slots, rest = headers[area]
    spelled = own == area and version in MOST_CELLS and mark == b"IMEM" and zero == 0 and not any(rest)
    need(spelled and 1 <= generation <= LAST and count <= LAST and 1 <= cells <= MOST_CELLS[version] and 1 <= elements <= 64 and 16 <= slots <= 4_096, 14)
    return area, generation, count, Limits(cells, elements, slots, version)


def read_area(data, area, limits):
    memory = Memory(limits.cells, limits.elements, limits.version)
    ends = read_cells(data, area, limits, memory)
    read_nodes(data, area, limits, memory, ends)
    at = limits.session_at(area, limits.elements)
    need(not any(data[at : limits.area_at(area + 1)]), 15)
    for element in range(limits.elements):
        memory.windows[element] = read_session(data[limits.session_at(area, element) :][: limits.session], limits)
    waiting = sorted((element, number, a) for a, cell in enumerate(memory.cells) if cell for element, number in cell.waiters)
    kept = [(element, number, op) for element, (base, entries) in enumerate(memory.windows) for number, (op, reply) in enumerate(entries, base) if reply is None]
    need(waiting == [(element, number, op[1]) for element, number, op in kept], 15)
    need(all(op[0] == (FETCH if memory.cells[op[1]].kind == 1 else TAKE) for _, _, op in kept), 15)
    return memory


def read_cells(data, area, limits, memory):
    """Returns the first and the last node of each waiting cell."""
    need(not any(data[limits.cell_at(area, limits.cells) : limits.node_at(area, 0)]), 15)
    ends, block, end = {}, None, 0
    for a in range(limits.cells):
        tag, kind, zero, base, length, first, last, more, value = CELL.unpack_from(data, limits.cell_at(area, a))
        need(zero == more == 0 and tag <= CLASHED, 15)
        need(a >= end or (tag != FREE and (base, length, kind) == block), 15)
        if tag == FREE:
            need(kind == value == 0 and base <= limits.cells and (length == NONE or length < limits.cells) and first == last == NONE, 15)
            continue
        if a >= end:
            need(kind in (1, 2) and base == a and 1 <= length <= limits.cells - a, 15)
            block, end = (base, length, kind), a + length
        need(value == 0 or tag in (FULL, CLASHED), 15)
        if tag == WAITING:
            need(first < limits.nodes and last < limits.nodes, 15)
            ends[a] = first, last
        else:
            need(first == last == NONE, 15)
        memory.cells[a] = Cell(base, length, kind, tag, value, [])
    return ends


def read_nodes(data, area, limits, memory, ends):
    count = limits.nodes
    need(not any(data[limits.node_at(area, count) : limits.session_at(area, 0)]), 15)
    nodes = list(NODE.iter_unpack(data[limits.node_at(area, 0) : limits.node_at(area, count)]))
    for after, element, mark, number in nodes:
        need((after == NONE or after < count) and mark <= 1 and (mark == 1 or element == number == 0), 15)
    met = set()
    for a, (node, last) in ends.items():
        before = None
        while node != NONE:
            after, element, mark, number = nodes[node]
            need(mark == 1 and node not in met, 15)
            met.add(node)
            memory.cells[a].waiters.append((element, number))
            before, node = node, after
        need(before == last, 15)
    need(len(met) == sum(mark for _, _, mark, _ in nodes), 15)


def read_session(record, limits):
    base, count = struct.unpack_from("<QB", record)
    need(1 <= base <= LAST + 1 and count <= limits.window and base + count <= LAST + 1 and not any(record[9:32]) and not any(record[32 + 32 * limits.window :]), 15)
    numbers = {number % limits.window: number for number in range(base, base + count)}
    entries = [None] * count
    for place in range(limits.window):
        raw = record[32 + 32 * place :][:32]
        if place not in numbers:
            need(not any(raw), 15)
            continue
        code, zero, reply, more, at, value, given, last = PLACE.unpack(raw)
        need(1 <= code <= PUT or (code == RESET and limits.version == 2), 15)
        need(reply <= (STILL_WAITING if limits.version == 1 else CLEARED), 15)
        need(zero == more == last == 0 and (value == 0 or code in (STORE, PUT)), 15)
        need(reply == VALUE or given == 0 or (reply == BASE and given <= NONE), 15)
        entries[numbers[place] - base] = [(code, at, value), (reply, given) if reply else None]
    return [base, entries]


def read_run(data, count, limits, memory):
    """Takes the commands of the run. Returns how many there are."""
    run, left = 0, 0  # left: how many of this group are to come
    while run < limits.slots and count + run < LAST:
        gate, group, code, zero, element, more, sequence, number, at, last, value, rest = RECORD.unpack_from(data, limits.slot_at(count + run))
        if left == 0:
            if gate != OPEN or sequence != count + run:
                break
            need(1 <= group <= GROUP and run + group <= limits.slots and count + run + group <= LAST, 16)
            left = group
        else:
            need(group == 0 and sequence == count + run, 16)
        need(zero == more == last == 0 and not any(rest) and 1 <= code <= (CONFIRM if limits.version == 1 else RESET), 16)
        need((value == 0 or code in (STORE, PUT)) and (at == 0 or code != CONFIRM), 16)
        need(memory.step(element, number, (code, at, value)), 16)
        run, left = run + 1, left - 1
    return run
