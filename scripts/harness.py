"""What the trials that kill programs have in common: their figures, and what an image holds by `imem inspect`."""
import importlib.machinery
import importlib.util
import re
import subprocess
import sys
from dataclasses import dataclass, field

from sources import TOP

sys.dont_write_bytecode = True
IMEM = TOP / "out" / "imem"


def script(name):
    """Returns a script of this folder as a module."""
    loader = importlib.machinery.SourceFileLoader(name.replace("-", "_"), str(TOP / "scripts" / name))
    module = importlib.util.module_from_spec(importlib.util.spec_from_loader(loader.name, loader))
    sys.modules[loader.name] = module
    loader.exec_module(module)
    return module


class Lost(Exception):
    """Something isn't as it has to be."""


@dataclass
class Figures:
    """What a trial did. Figures of several trials can be added."""

    kills: int = 0
    told: int = 0  # kills of runs that had printed something
    found: int = 0  # lines that were looked for in an image
    whole: int = 0  # runs that ended before they were killed
    commands: int = 0
    checkpoints: int = 0

    def __add__(self, more):
        return Figures(*(getattr(self, it) + getattr(more, it) for it in self.__dataclass_fields__))


@dataclass
class Image:
    """An image, by its report."""

    count: int = 0
    generation: int = 0
    once: set = field(default_factory=set)  # the cells of I blocks
    full: set = field(default_factory=set)
    waiting: list = field(default_factory=list)  # each cell as often as somebody waits there
    base: dict = field(default_factory=dict)
    entries: dict = field(default_factory=dict)


def report(imem, path):
    """Returns the lines of an image's report."""
    ran = subprocess.run([imem, "inspect", path], capture_output=True, text=True)
    if ran.returncode:
        raise Lost(f"the image isn't opened: {ran.stdout[-100:]!r}")
    return ran.stdout.splitlines()


def meaning(imem, path):
    """Returns what an image means, without the places of its commands."""
    return [it for it in report(imem, path) if not it.startswith(("header ", "journal "))]


def inspect(imem, path):
    image = Image()
    for line in report(imem, path):
        words = line.split(" ")
        if words[0] == "header":
            image.count += int(words[7])
            image.generation = int(words[3])
        elif words[0] == "journal":
            image.count += int(words[1])
        elif words[0] == "block" and words[2] == "i":
            image.once.update(range(int(words[1]), int(words[1]) + int(words[3])))
        elif words[0] == "cell" and words[2] == "waiting":
            image.waiting += [int(words[1])] * len(words[3:])
        elif words[0] == "cell":
            image.full.add(int(words[1]))
        elif words[0] == "element":
            image.base[words[1]] = int(words[3])
        elif words[0] == "entry":
            image.entries[words[1]] = line.split(" -> ")[1]
    return image


def seen(output, image):
    """Checks that each line that was printed is in the image. Returns how many lines there were."""
    if output and not output.endswith("\n"):
        raise Lost(f"a line was cut: {output[-40:]!r}")
    lines = output.splitlines()
    numbers = set()
    for line in lines:
        if line.startswith("refused "):
            continue
        element, number, now, reply = re.fullmatch(r"(\d+)\.(\d+)( now)? (.*)", line).groups()
        name = f"{element}.{number}"
        if not now and name in numbers:
            raise Lost(f"{name} was printed twice")
        numbers.add(name)
        kept = image.entries.get(name)
        if kept is None and int(number) >= image.base.get(element, 1):
            raise Lost(f"{line!r} was printed, and isn't in the image")
        if kept is not None and kept != reply and reply != "waiting":
            raise Lost(f"{line!r} was printed, and the image has {kept!r}")
    if image.count < len(numbers):
        raise Lost(f"{len(numbers)} requests were printed, and the image counts {image.count} commands")
    return len(lines)


def killed(words, within, **more):
    """Runs a program, and kills it after the given seconds (None: never). Returns what it printed, and its status, which
    is below 0 if it was killed."""
    ran = subprocess.Popen([str(it) for it in words], stdout=subprocess.PIPE, **{"stderr": subprocess.DEVNULL, **more})
    try:
        output = ran.communicate(timeout=within)
    except subprocess.TimeoutExpired:
        ran.kill()
        output = ran.communicate()
    return (*output, ran.returncode)
