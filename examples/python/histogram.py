"""A histogram by three elements, each of which takes a counter, adds one and puts it back: a counter that is away is
waited for. The memory has no disk.

usage: histogram.py
"""
from luntrebis import Answer, Memory, Refused, Request, Tag, answered

WORDS = ["to be or not", "or to be to", "not to or to"]
NAMES = ["to", "be", "or", "not"]


class Element:
    """An element that counts words. Each step is one request, or a look at the one that waits."""

    def __init__(self, memory, element, base, words):
        self.memory, self.element, self.base, self.words, self.number = memory, element, base, words, 1

    def step(self, tag, at, value=0):
        reply = self.memory.ask(Request(tag, self.element, self.number, self.base + at, value))
        self.number += 1
        self.memory.confirm(self.element, self.number if reply.answer != Answer.WAITING else self.number - 1)
        return reply

    def run(self):
        for word in self.words:
            at = NAMES.index(word)
            reply = self.step(Tag.TAKE, at)
            while reply.answer == Answer.WAITING:
                yield
                reply = self.memory.collect(self.element, self.number - 1)
            yield
            self.step(Tag.PUT, at, reply.get() + 1)


def main():
    with Memory(16, 4) as memory:
        base = memory.ask(Request(Tag.ALLOC_M, 0, 1, 4)).get()
        print("base", base)
        for at in range(len(NAMES)):
            memory.ask(Request(Tag.PUT, 0, 2 + at, base + at, 0))
        runs = [Element(memory, 1 + at, base, words.split()).run() for at, words in enumerate(WORDS)]
        while runs:
            for run in list(runs):
                if next(run, "end") == "end":
                    runs.remove(run)
        for at, name in enumerate(NAMES):
            print(name, memory.ask(Request(Tag.TAKE, 0, 6 + at, base + at)).get())
        print("reset", memory.ask(Request(Tag.RESET, 0, 10, base)).answer.name.lower())
        kept = answered(memory, [(0, 1), (0, 9)])
        print("kept", [(reply.answer.name.lower(), reply.value) for _, _, reply in kept])
        requests = [lambda: memory.ask(Request(Tag.TAKE, 0, 99)), lambda: memory.ask(Request(77, 0, 10))]
        for call in (*requests, lambda: memory.collect(9, 1)):
            try:
                call()
            except Refused as refusal:
                print("refused", type(refusal).__name__)


main()
