"""A histogram by three elements over `imem serve`, which is killed at random moments and started again. Each element
takes a counter, adds one and puts it back: a counter that is away is waited for.

usage: histogram.py KILLS SEED IMEM IMAGE      IMAGE is new, or left by a run that was killed

The program keeps nothing but the image: an element's number tells which word comes next. The status is 0 where each
count comes out exact.
"""
import random
import signal
import sys
import time
from collections import Counter

from client import Element, Memory, finish

LINES = ["to be or not", "or to be to", "not to or to"]
NAMES = ["to", "be", "or", "not"]


class Killed(Memory):
    """A memory whose program is killed so many times, at a random moment of its opening or of its work."""

    def __init__(self, words, kills):
        super().__init__(words)
        self.left, self.kills = 0, kills
        start = time.time()
        self.ask("count")
        self.opening = time.time() - start
        self.left = kills
        signal.signal(signal.SIGALRM, self.on_alarm)
        self.wait()

    def wait(self):
        if self.left:
            signal.setitimer(signal.ITIMER_REAL, random.uniform(0.0001, 4 * self.opening))

    def start(self):
        super().start()
        self.wait()

    def on_alarm(self, _number, _frame):
        if self.program and self.left:
            self.left -= 1
            self.kill()


def words_counted(element, line):
    """The words that an element has counted: each took two requests, and was confirmed then."""
    words = line.split()
    return [words[it % len(words)] for it in range(element.number // 2)]


def count_words(element, base, line, goes_on):
    """Counts the words of a line, again and again."""
    words = line.split()
    while goes_on():
        at = base + NAMES.index(words[element.number // 2 % len(words)])
        value = int((yield from element.request(f"take {at}"))[1])
        yield
        yield from element.request(f"put {at} {value + 1}")
        element.confirm()


def main(kills, seed, imem, image):
    random.seed(int(seed))
    memory = Killed([imem, "serve", image], int(kills))
    maker = Element(memory, 0)  # It confirms nothing, so its requests are the same each time.
    base = int(finish(maker.request(f"alloc m {len(NAMES)}"))[1])
    for at in range(len(NAMES)):
        finish(maker.request(f"put {base + at} 0"))
    elements = [Element(memory, 1 + at) for at in range(len(LINES))]
    runs = [count_words(element, base, line, lambda: memory.left) for element, line in zip(elements, LINES)]
    while runs:
        runs = [run for run in runs if next(run, "end") != "end"]
    counts = Counter(word for element, line in zip(elements, LINES) for word in words_counted(element, line))
    kept = {name: int(finish(maker.request(f"take {base + at}"))[1]) for at, name in enumerate(NAMES)}
    memory.close()
    losses = sum(abs(kept[name] - counts[name]) for name in NAMES)
    print(f"kills {memory.kills} requests {memory.asked} again {memory.again} losses {losses}")
    for name in NAMES:
        print(name, kept[name], "of", counts[name])
    return 0 if losses == 0 else 1


sys.exit(main(*sys.argv[1:]))
