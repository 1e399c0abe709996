"""Whether a run of threads, or a dialogue, was right: for the scripts beside this file.

The order in which its commands were accepted is read off the writes that its disk was given. The plain memory of images.py takes the same
commands in that order. Then

- each command on the disk is the one that the script, or the dialogue, has under its number;
- each printed line is what that memory keeps, or kept when it was confirmed; nothing is printed before a sync put it down;
- the glances of an element see that memory at moments of which none is before an earlier one, nor before what the element was answered;
- the image that was left means that memory; what a crash leaves at moments that a seed gives means it after a prefix of its commands,
  with all that was put down and printed by then.
"""
import copy
import random
import struct
from dataclasses import dataclass, replace

import images


class Wrong(Exception):
    """What isn't as it has to be."""


def need(holds, why):
    if not holds:
        raise Wrong(why)


def told(record):
    """What a disk and the output were told, one after another: `w` with a place and bytes, `s`, `f` of a call that failed, `o` with bytes."""
    at = 0
    while at < len(record):
        what, at = record[at : at + 1], at + 1
        place = length = 0
        if what == b"w":
            place, length = struct.unpack_from("<QQ", record, at)
            at += 16
        elif what == b"o":
            (length,) = struct.unpack_from("<Q", record, at)
            at += 8
        yield what, place, record[at : at + length]
        at += length


@dataclass
class Moment:
    """How things stood once a disk was told something: how many groups of commands were put down and how many written, whether something was
    written since the last sync, how many bytes were printed, and whether a call of the disk has failed."""

    groups_down: int = 0
    groups: int = 0
    written: bool = False
    printed: int = 0
    failed: bool = False


class Account:
    """What a record tells of a disk that held these bytes: each group of commands, each an element, a number and an operation; the file at
    the end; what was printed; the moments, from the beginning on."""

    def __init__(self, before, record):
        self.before, self.start = before, images.read(before)
        self.told, self.found, self.output, self.moments = list(told(record)), [], b"", [Moment()]
        file, limits = bytearray(before), images.read_header(before)[3]
        following = self.start.count + self.start.run
        for what, place, raw in self.told:
            now = replace(self.moments[-1])
            need(not now.failed or what == b"o", "the disk was told something after a call of it had failed")
            if what == b"w":
                file[place : place + len(raw)] = raw
                now.written = True
                while commands := group_at(file, limits, following):
                    self.found.append(commands)
                    following += len(commands)
                now.groups = len(self.found)
            elif what == b"s":
                now.groups_down, now.written = now.groups, False
            elif what == b"o":
                self.output += raw
                now.printed = len(self.output)
            else:
                now.failed = True
            self.moments.append(now)
        self.file, self.end = bytes(file), self.moments[-1]

    def crashed(self, at, dice):
        """What a crash leaves of the file at a moment: of each byte that wasn't put down what was written there, what was before, or anything."""
        syncs = [it for it in range(at) if self.told[it][0] == b"s"]
        file = bytearray(self.before)
        for count, (what, place, raw) in enumerate(self.told[:at]):
            if what == b"w":
                kept = bytes(file[place : place + len(raw)])
                file[place : place + len(raw)] = raw if syncs and count < syncs[-1] else mixed(kept, raw, dice)
        return bytes(file)


def mixed(kept, raw, dice):
    """Some of the bytes that were kept and some of these, or others."""
    way, other, ways = dice.randrange(4), dice.randbytes(len(raw)), dice.randbytes(len(raw))
    if way < 3:
        return (kept, raw, other)[way]
    return bytes((one, two, three)[it % 3] for one, two, three, it in zip(kept, raw, other, ways))


def group_at(file, limits, sequence):
    """The group that begins with the slot of this sequence number, where its gate is open."""
    gate, length, *_, own = images.RECORD.unpack_from(file, limits.slot_at(sequence))[:7]
    if gate != images.OPEN or own != sequence:
        return []
    slots = [images.RECORD.unpack_from(file, limits.slot_at(sequence + it)) for it in range(length)]
    return [(element, number, (code, at, value)) for _, _, code, _, element, _, _, number, at, _, value, _ in slots]


def text_of(reply):
    """A reply, as it is printed."""
    if reply is None:
        return "waiting"
    name = images.REPLIES[reply[0] - 1]
    return f"{name} {reply[1]}" if reply[0] in (images.BASE, images.VALUE) else name


def same(one, other):
    return one.cells == other.cells and one.windows == other.windows


class History:
    """The memory after all groups; how many commands there were after each group; of each request its operation, after how many commands it
    was sent and answered, and what was kept when it was confirmed; the values of each cell, each with the count of commands after which
    it had it."""

    def __init__(self, start, found):
        self.start, self.memory = start, copy.deepcopy(start)
        self.asked, self.sent, self.answered, self.confirmed, self.values = {}, {}, {}, {}, {}
        self.count, self.after = 0, [0]
        for address in range(len(self.memory.cells)):
            self.note(address)
        for commands in found:
            for element, number, op in commands:
                self.take(element, number, op)
            self.after.append(self.count)
        self.commands = [it for commands in found for it in commands]

    def take(self, element, number, op):
        need(element < len(self.memory.windows), f"{element}.{number} {op} was put on the disk, and there is no such element")
        base, entries = self.memory.windows[element]
        self.count += 1
        if op[0] == images.CONFIRM:
            self.confirmed.update({(element, base + at): reply for at, (_, reply) in enumerate(entries[: number - base])})
        else:
            self.asked[element, number], self.sent[element, number] = op, self.count
        waiters = list(self.memory.cells[op[1]].waiters) if op[0] in (images.STORE, images.PUT) and op[1] < len(self.memory.cells) and self.memory.cells[op[1]] else []
        need(self.memory.step(element, number, op), f"{element}.{number} {op} was put on the disk, and the memory refuses it")
        if op[0] != images.CONFIRM:
            for who, its in [*waiters, (element, number)]:
                if self.kept(self.memory, who, its) != "waiting":
                    self.answered.setdefault((who, its), self.count)
        for address in range(len(self.memory.cells)) if op[0] in (images.RELEASE, images.RESET, images.ALLOC_I, images.ALLOC_M) else [op[1]]:
            self.note(address)

    def note(self, address):
        """Notes what a reading of a cell sees: the value of a full I cell, or none."""
        if address < len(self.memory.cells):
            cell = self.memory.cells[address]
            value = cell.value if cell is not None and cell.kind == 1 and cell.tag == images.FULL else None
            values = self.values.setdefault(address, [])
            if not values or values[-1][1] != value:
                values.append((self.count, value))

    def seen_from(self, address, value, since):
        """After how many commands at the least, and not before so many, a reading of a cell sees this; None where none does."""
        values = self.values.get(address, [(0, None)])
        for at, (start, found) in enumerate(values):
            end = values[at + 1][0] if at + 1 < len(values) else self.count + 1
            if found == value and end > since:
                return max(start, since)
        return None

    def kept(self, memory, element, number):
        """What a memory keeps for a request, or what was kept when it was confirmed; "" where there is none."""
        base, entries = memory.windows[element]
        if base <= number < base + len(entries):
            return text_of(entries[number - base][1])
        return text_of(self.confirmed[element, number]) if (element, number) in self.confirmed else ""

    def see(self, wanted):
        """Sees that each of these memories is the one after so many groups, or so many more, and says why it isn't else. They are in the order of the
        groups."""
        memory, at, seen = copy.deepcopy(self.start), 0, set()
        for groups, end in enumerate(self.after):
            for element, number, op in self.commands[at:end]:
                memory.step(element, number, op)
            at = end
            seen |= {it for it, (meant, first, last, _) in enumerate(wanted) if first <= groups <= last and same(meant, memory)}
        for it, (*_, why) in enumerate(wanted):
            need(it in seen, why)


def judge_images(account, history, left, dice):
    """Sees what the image that was left means, and what crashes leave at two moments, one of which has something that wasn't put down, if any has."""
    wanted = [(images.read(left).memory, account.end.groups_down, account.end.groups, "the image doesn't mean the memory after the commands that were put on it")]
    moments = range(len(account.moments))
    for some in ([it for it in moments if account.moments[it].written], moments):
        if not some:
            continue
        at = dice.choice(some)
        try:
            meant = images.read(account.crashed(at, dice)).memory
        except images.Fault as fault:
            raise Wrong(f"a crash leaves what is no image: {fault}") from fault
        moment = account.moments[at]
        wanted.append((meant, moment.groups_down, moment.groups, "a crash leaves a memory that isn't one of those before and after the last group"))
    history.see(wanted)


def judge_output(account, history, needs):
    """Sees that each printed line was on the disk before it was printed. `needs` has of each line how many commands."""
    for before, moment in zip(account.moments, account.moments[1:]):
        if moment.printed == before.printed:
            continue
        lines, down = account.output.count(b"\n", 0, moment.printed), history.after[before.groups_down]
        most = max(needs[:lines], default=0)
        need(most <= down, f"{lines} lines were printed that need {most} commands, and {down} were put down")


# Runs.


def judge_run(case, before, record, left, printed, status, seed=0):
    """Raises Wrong where a run of a case, a script on this image, wasn't right."""
    account = Account(before, record.read_bytes())
    need(account.file == left, "the file isn't what was written")
    history = History(account.start.memory, account.found)
    judge_commands(case, history)
    lines = printed.splitlines()
    refused = lines.pop() if lines and lines[-1].startswith("refused ") else None
    met = account.end.failed
    ends = [(1, "refused 8 Device"), (1, "refused 9 Failed")] if met else [(0, None), (3, "refused 19 Stalled")]
    need((status, refused) in ends, f"status {status}, {refused}, and {'a' if met else 'no'} call of the disk failed")
    need(met or account.end.groups_down == account.end.groups, "it ended before all was put down")
    judge_images(account, history, left, random.Random(seed))
    sent, needs = seen_lines(case, lines, history, images.read(left).memory, met)
    judge_output(account, history, needs)
    if status == 0:
        need(sent == case.counts(), f"status 0, and of {case.counts()} lines {sent} were printed")
    judge_sent(history, lines, history.after[account.end.groups_down])
    if status == 3:
        judge_standstill(case, history.memory)
    return met


def judge_commands(case, history):
    """Sees that each request on the disk is the script's under its number."""
    own = {element: [op for op in asked if op[0] != "glance"] for element, asked in case.asks()}
    for (element, number), op in history.asked.items():
        need(own.get(element, [])[number - 1 : number] == [op], f"{element}.{number} {op} was put on the disk, and isn't asked")


def judge_sent(history, lines, down):
    """Sees that each request that was put down has its line."""
    printed = {line.split(" ", 1)[0] for line in lines}
    for (element, number), since in history.sent.items():
        need(since > down or f"{element}.{number}" in printed, f"{element}.{number} was put down, and has no line")


def seen_lines(case, lines, history, meant, failed):
    """Sees that each line is right, and that they are a prefix of each element's own. How many each has, and after how many commands at
    the least each may be printed."""
    sent, needs = {}, []
    for element, asked in case.asks():
        number, since = 1, 0  # Each image is new.
        for op in asked:
            if len(needs) == len(lines):
                break
            line = lines[len(needs)]
            own, value, reply = line_of(element, number, op, line)
            if not own:
                break
            if op[0] == "glance":
                since = history.seen_from(op[1], value, since)
                need(since is not None, f"{line}: the cell wasn't so then")
                needs.append(since)
            else:
                kept = history.kept(meant, element, number)
                need(reply == kept or (failed and reply == "waiting" and kept), f"{line}: {kept or 'nothing'} is kept")
                since = max(since, history.sent[element, number])
                needs.append(since if reply == "waiting" else history.answered[element, number])
                number += 1
            sent[element] = sent.get(element, 0) + 1
    need(len(needs) == len(lines), f"{lines[len(needs)] if len(needs) < len(lines) else ''}: no such line was due")
    return sent, needs


def line_of(element, number, op, line):
    """Whether a line is that of this request or glance, what a glance saw, and the reply."""
    if op[0] != "glance":
        head = f"{element}.{number} "
        return line.startswith(head), None, line.removeprefix(head)
    head = f"{element} glance {op[1]} "
    seen = line.removeprefix(head).split()
    good = line.startswith(head) and (seen == ["none"] or (len(seen) == 2 and seen[0] == "value" and seen[1].isdigit()))
    return good, int(seen[1]) if good and len(seen) == 2 else None, ""


def judge_standstill(case, memory):
    """Sees that nobody could have gone on: somebody waits, and who has more to ask has a full window, whose first request waits."""
    need(any(reply is None for _, entries in memory.windows for _, reply in entries), "it stalled, and nobody waits")
    for element, asked in case.asks():
        base, entries = memory.windows[element]
        sent = base + len(entries) - 1
        if sent < sum(op[0] != "glance" for op in asked):
            need(len(entries) == images.WINDOWS[memory.version] and entries[0][1] is None, f"it stalled, and element {element} could have gone on")


# Dialogues.


def judge_dialogue(case, before, record, left, printed, status, seed=0):
    """Raises Wrong where a dialogue of a case's lines wasn't right. `case.answers` has of each line its answer, and how many commands were
    accepted by then; `case.commands` has these."""
    account = Account(before, record.read_bytes())
    need(account.file == left, "the file isn't what was written")
    met = account.end.failed
    need((status, met) in ((0, False), (1, True)), f"status {status}, and {'a' if met else 'no'} call of the disk failed")
    history = History(account.start.memory, account.found)
    answered, needs = whole_answers(case, printed, met)
    need(history.commands == case.commands[: history.count], "the commands on the disk aren't those of the lines, one after another")
    if not met:
        need(answered == len(case.answers), f"{answered} of {len(case.answers)} lines were answered")
        need(history.count == len(case.commands), f"{history.count} of {len(case.commands)} commands are on the disk")
    asked = case.answers[answered - 1][1] if answered else 0
    need(history.after[-2:][0] <= asked <= history.count, f"{answered} lines were answered, {asked} commands, and {history.after} were put on the disk")
    judge_images(account, history, left, random.Random(seed))
    judge_output(account, history, needs)
    return met


def whole_answers(case, printed, met):
    """How many of the lines were answered, one after another, and of each printed line how many commands it needs."""
    rest, needs, answered = printed, [], 0
    for answer, count in case.answers:
        if not rest.startswith(answer) or (met and rest == "refused 8 Device\n"):
            break
        rest, answered = rest[len(answer) :], answered + 1
        needs += [count] * answer.count("\n")
    need(rest == ("refused 8 Device\n" if met else ""), f"the answers aren't those of the lines, one after another: {rest[:100]!r} behind {answered} of them")
    return answered, [*needs, 0] if met else needs
