"""The program that walks all stories: its words, and what it prints for each."""
import re
import subprocess

from sources import TOP

STORIES = TOP / "crates" / "im_stories"
DATA = STORIES / "data"
PROGRAM = TOP / "out" / "im_stories"


def parts():
    """Returns for each word of the gate's run what is printed for it."""
    text, starts = (STORIES / "stdout").read_text(), []
    words = (STORIES / "args").read_text().split()
    for word in words:
        begin = starts[-1] if starts else 0
        starts.append(begin + re.search(rf"^{re.escape(word)}:", text[begin:], re.M).start())
    return {word: text[start:end] for word, start, end in zip(words, starts, [*starts[1:], len(text)])}


def build():
    """Builds the program that the gate proves, unless it is there."""
    if not PROGRAM.exists():
        subprocess.run([TOP / "scripts" / "build-imem", "im_stories"], stdout=subprocess.DEVNULL, check=True)
