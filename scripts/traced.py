"""Reads the trace of a run, for the scripts beside this file, and judges it by the plain memory of images.py.

A line is `K.N OPERATION -> REPLY`, `confirm K UPTO -> confirmed` or `collect K.N -> REPLY`. What stands before the arrow is a line of a
dialogue. With --json each line is an object that says the same.
"""
import json
import re
import subprocess
from dataclasses import dataclass

import images
from judging import need, text_of

CODES = {"fetch": images.FETCH, "store": images.STORE, "take": images.TAKE, "put": images.PUT, "release": images.RELEASE, "reset": images.RESET, "alloc i": images.ALLOC_I, "alloc m": images.ALLOC_M}
REQUEST, CONFIRM, COLLECT = re.compile(r"(\d+)\.(\d+) (alloc [im]|[a-z]+) (\d+)(?: (\d+))?"), re.compile(r"confirm (\d+) (\d+)"), re.compile(r"collect (\d+)\.(\d+)")


@dataclass
class Call:
    """A line: what was asked, as a dialogue has it, and the reply. `op` is the operation, images.CONFIRM's, or None of a collect."""

    asked: str
    reply: str
    element: int
    number: int
    op: tuple | None

    @property
    def answer(self):
        """What a dialogue answers."""
        if self.op is not None and self.op[0] == images.CONFIRM:
            return f"{self.element} {self.reply} {self.number}" if self.reply == "confirmed" else f"{self.element} {self.reply}"
        return f"{self.element}.{self.number} {self.reply}"


def call_of(line):
    asked, arrow, reply = line.partition(" -> ")
    if arrow and (met := REQUEST.fullmatch(asked)):
        return Call(asked, reply, int(met[1]), int(met[2]), (CODES[met[3]], int(met[4]), int(met[5] or 0)))
    if arrow and (met := CONFIRM.fullmatch(asked)):
        return Call(asked, reply, int(met[1]), int(met[2]), (images.CONFIRM, 0, 0))
    met = COLLECT.fullmatch(asked)
    need(arrow and met, f"{line!r} is no line of a trace")
    return Call(asked, reply, int(met[1]), int(met[2]), None)


OPERANDS = {"alloc": ("kind", "length"), "store": ("address", "value"), "put": ("address", "value"), "confirm": (), "collect": ()}
OTHERS = {"group", "checkpoint"}  # What an object may have besides.


def line_of(text):
    """The line that an object stands for."""
    try:
        it = json.loads(text)
        element, number, call, reply = it["element"], it["number"], it["call"], it["reply"]
        operands = [it[key] for key in OPERANDS.get(call, ("address",))]
        answer = " ".join([reply, *([it[reply]] if reply in ("value", "base", "refused") else [])])
    except (ValueError, KeyError, TypeError):
        need(False, f"{text!r} is no object of a trace")
    wanted = {"element", "number", "call", "reply", *OPERANDS.get(call, ("address",)), *({reply} if " " in answer else ())}
    need(set(it) - OTHERS == wanted, f"{text!r} has other keys than {sorted(wanted)}")
    need(type(element) is int and all(isinstance(it[key], str) for key in ("number", "value", "base") if key in it), f"{text!r} has a number of another kind")
    asked = {"confirm": f"confirm {element} {number}", "collect": f"collect {element}.{number}"}
    return f"{asked.get(call) or ' '.join([f'{element}.{number}', call, *map(str, operands)])} -> {answer}"


def lines_of(text):
    """The lines of a trace, be they objects or not."""
    need(not text or text.endswith("\n"), "the last line of the trace is cut off")
    return [line_of(it) if it.startswith("{") else it for it in text.splitlines()]


def marks_of(text):
    """Of each line whether it begins a group, and whether a checkpoint came before it, where the objects say so."""
    found = [json.loads(it) if it.startswith("{") else {} for it in text.splitlines()]
    return [(bool(it.get("group")), bool(it.get("checkpoint"))) for it in found]


def calls_of(text):
    return [call_of(line) for line in lines_of(text)]


def kept(memory, element, number):
    base, entries = memory.windows[element]
    need(base <= number < base + len(entries), f"{element}.{number} is looked for, and isn't kept")
    return text_of(entries[number - base][1])


def replay(memory, calls):
    """Lets the plain memory take these calls, and sees that it gives the same replies. What it kept of each request when that was confirmed."""
    dropped = {}
    for call in calls:
        if call.op is None:
            reply = kept(memory, call.element, call.number)
        else:
            if call.op[0] == images.CONFIRM and call.element < len(memory.windows):
                base, entries = memory.windows[call.element]
                dropped.update({(call.element, base + at): text_of(it) for at, (_, it) in enumerate(entries[: call.number - base])})
            need(memory.step(call.element, call.number, call.op), f"{call.asked}: the plain memory refuses it")
            reply = "confirmed" if call.op[0] == images.CONFIRM else kept(memory, call.element, call.number)
        need(reply == call.reply, f"{call.asked} -> {call.reply}: the plain memory says {reply}")
    return dropped


def call(program, *words, **more):
    return subprocess.run([program, *map(str, words)], capture_output=True, text=True, **more)


def report(program, image):
    """What an image means, and how many commands it counts."""
    said = call(program, "inspect", image)
    need(said.returncode == 0, f"{image.name} isn't opened: {said.stdout[-60:]!r}")
    words = [it.split() for it in said.stdout.splitlines()]
    count = sum(int(it[7]) if it[0] == "header" else int(it[1]) for it in words if it[0] in ("header", "journal"))
    return [it for it in words if it[0] not in ("header", "journal")], count


def judge_served(program, before, after, calls):
    """Serves the calls on the image as it was before, and compares the replies, and then the images if there is one to compare with."""
    said = call(program, "serve", before, input="".join(f"{it.asked}\n" for it in calls))
    answers = [" ".join(it.split()[:3]) if " refused " in it else it for it in said.stdout.splitlines()]
    need(said.returncode == 0 and len(answers) == len(calls), f"{len(calls)} calls were served with status {said.returncode}, and {len(answers)} answered")
    for it, answer in zip(calls, answers):
        need(it.answer == answer, f"{it.asked} -> {it.reply}: served again it is answered {answer}")
    if after:
        need(report(program, before) == report(program, after), "the image isn't as the one on which the trace was served again")
