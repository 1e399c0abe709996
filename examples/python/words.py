"""A count of words by three elements, in an image file: each takes a counter, adds one and puts it back, and a counter
that is away is waited for. Each answer is printed as the file has it.

usage: words.py IMAGE      It makes the image where there is none. A run that was stopped is simply run again: each
element asks the same under the same numbers, 64 at most, and what was asked before is answered as before.
"""
import sys

import luntrebis
from luntrebis import Answer, Request, Tag

WORDS = ["to be or not", "or to be to", "not to or to"]
NAMES = ["to", "be", "or", "not"]


def tell(element, number, reply):
    word = reply.answer.name.lower()
    print(f"{element}.{number} {word}{f' {reply.value}' if reply.answer in (Answer.BASE, Answer.VALUE) else ''}", flush=True)
    return reply.value


class Element:
    """An element that counts words. Each step is one request, or a look at the one that waits."""

    def __init__(self, image, element, base, words):
        self.image, self.element, self.base, self.words, self.number = image, element, base, words, 1

    def ask(self, tag, at, value=0):
        reply = self.image.ask(Request(tag, self.element, self.number, self.base + at, value))
        self.number += 1
        return reply

    def run(self):
        for word in self.words:
            at = NAMES.index(word)
            reply = self.ask(Tag.TAKE, at)
            while reply.answer == Answer.WAITING:
                yield
                reply = self.image.collect(self.element, self.number - 1)
            count = tell(self.element, self.number - 1, reply)
            yield
            tell(self.element, self.number, self.ask(Tag.PUT, at, count + 1))


def main(path):
    with luntrebis.open_or_create(path, cells=16, elements=4, slots=16) as image:
        base = tell(0, 1, image.ask(Request(Tag.ALLOC_M, 0, 1, 4)))
        for at in range(len(NAMES)):
            tell(0, 2 + at, image.ask(Request(Tag.PUT, 0, 2 + at, base + at, 0)))
        starts = [base + NAMES.index(words.split()[0]) for words in WORDS]
        # On the disk together. Who asks again below is answered as it was here.
        image.ask_all(Request(Tag.TAKE, 1 + at, 1, start) for at, start in enumerate(starts))
        runs = [Element(image, 1 + at, base, words.split()).run() for at, words in enumerate(WORDS)]
        while runs:
            for run in list(runs):
                if next(run, "end") == "end":
                    runs.remove(run)
        for at, name in enumerate(NAMES):
            print(name, tell(0, 6 + at, image.ask(Request(Tag.TAKE, 0, 6 + at, base + at))))
    print(luntrebis.inspect(path).splitlines()[4])


main(*sys.argv[1:])
