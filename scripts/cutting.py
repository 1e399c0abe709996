"""What a cut of the power may leave of an image, for scripts/power-cut: by the calls that the program made, as docs/CRASH.md says, and by the
bytes and the memory of images.py.

A file's bytes at its last sync are known, and the ranges that were written since. What a cut leaves has to have the length; every other byte has
to be the synced one; it has to mean the memory of the last sync, or the one with all that was written since. Each printed line has to be on the
disk before it is printed.
"""
import functools
import re
from collections import Counter

import disks
import images
import judging

MADE = re.compile(r"(?:(?:copied|loaded|migrated) (\d+)|backup (\w+) count (\d+))")
ANSWER = re.compile(r"(\d+)\.(\d+) (?:now )?(.*)")
WAYS = ["none", "all", "one", "all but one", "coin", "torn", "last torn"]


@functools.lru_cache(maxsize=400)
def meaning(raw):
    """Returns how many commands a file has, and their memory; of one that means nothing None, and the number of its fault."""
    try:
        found = images.read(raw)
        return found.count + found.run, found.memory
    except images.Fault as fault:
        return None, fault.args[0]


def is_same(one, other):
    return one[0] == other[0] and (one[1] == other[1] if one[0] is None else judging.same(one[1], other[1]))


def difference(one, other):
    """Returns how many bytes differ, and the places of the first and the last of them."""
    places = [it for it, (a, b) in enumerate(zip(one, other)) if a != b]
    return f"{len(places)} bytes outside the ranges, from {places[0]} to {places[-1]}"


class File:
    """What is known of a file: `synced` are its bytes at the last good sync, None before the first; `since` the writes since then."""

    def __init__(self, name, synced=None):
        self.name, self.synced, self.since = name, synced, []
        self.is_named = synced is not None  # Its folder was synced since it was made.
        self.old, self.length = synced, len(synced or b"")
        self.lengths = {self.length}

    @property
    def is_settled(self):
        return self.synced is not None and self.length == len(self.synced)

    def now(self):
        raw = bytearray(self.synced if self.is_settled else bytes(self.length))
        for at, more in self.since:
            raw[at : at + len(more)] = more
        return bytes(raw)

    def cut_to(self, length):
        self.synced, self.since, self.length = None, [], length
        self.lengths.add(length)

    def sync(self):
        self.synced, self.since = self.now(), []
        self.length = len(self.synced)
        self.lengths = {self.length}

    def without_ranges(self, raw):
        """Returns these bytes with the synced ones in the ranges that were written since."""
        raw = bytearray(raw)
        for at, more in self.since:
            raw[at : at + len(more)] = self.synced[at : at + len(more)]
        return bytes(raw)

    def judge(self, found, count):
        """Returns what is wrong with a file as a cut left it, or None. `found` is bytes, None if it isn't there, or an error's number."""
        if isinstance(found, int):
            return f"unreadable, error {found}"
        if found is None:
            count["absent, as it may be"] += not self.is_named
            return "missing" if self.is_named else None
        if not self.is_settled:
            return self.judge_unmade(found, count)
        if len(found) != len(self.synced):
            return f"a length of {len(found)}"
        wrong = self.judge_meaning(found, count)
        if (others := self.without_ranges(found)) != self.synced:
            return f"{wrong or 'the meaning kept'}; {difference(others, self.synced)}"
        return wrong

    def judge_unmade(self, found, count):
        if len(found) not in self.lengths | {0}:
            return f"a length of {len(found)}"
        count["being made"] += 1
        return "an image before it was made" if found and self.old is None and meaning(found)[0] is not None and not self.may_be_whole() else None

    def may_be_whole(self):
        """Whether all of an image was written, though it isn't synced."""
        return meaning(self.now())[0] is not None

    def judge_meaning(self, found, count):
        left, before, after = meaning(found), meaning(self.synced), meaning(self.now())
        if is_same(left, before):
            count["as synced" if is_same(before, after) else "before what was in doubt"] += 1
            return None
        if is_same(left, after):
            count["after what was in doubt"] += 1
            return None
        if before[0] is None and left == (None, 13):
            count["no image yet"] += 1
            return None
        if left[0] is None:
            return f"no meaning: {images.FAULTS[left[1]]}"
        return f"lost {before[0] - left[0]} commands" if before[0] is not None and left[0] < before[0] else "another memory"


class Known:
    """What is known of all files below /m of a guest, by its records, and what was printed."""

    def __init__(self, files):
        self.files = {name: File(name, raw) for name, raw in files.items()}
        self.opened, self.text, self.image, self.wrong, self.count = {}, "", None, [], Counter()

    def note(self, record):
        kind, at, raw, number = record
        if kind == "O":
            path = raw.decode()
            self.opened[number] = self.files.setdefault(path[3:], File(path[3:])) if path.startswith("/m/") and not path.endswith(" (deleted)") else None
        elif kind == "D":
            for file in self.files.values():
                file.is_named = file.is_named or file.synced is not None
        elif kind == "N":  # The older name is taken away then.
            old, new = raw.decode().split("\0")
            if old[3:] in self.files:
                self.files[new[3:]] = self.files.pop(old[3:])
                self.files[new[3:]].is_named = False
        elif kind == "P":
            self.print(raw.decode("ascii", "replace"))
        elif (file := self.opened.get(number)) is not None:
            self.note_call(file, kind, at, raw)

    def note_call(self, file, kind, at, raw):
        if kind == "T":
            file.cut_to(at)
        elif kind == "W":
            file.since.append((at, raw))
            self.image = file
        elif kind == "S":
            file.sync()
            if file.synced[:1] == b"\xa5" or file.synced[images.PAGE :][:1] == b"\xa5":
                self.image = file

    def print(self, text):
        """Judges the lines that are complete now."""
        *lines, self.text = (self.text + text).split("\n")
        for line in lines:
            if wrong := self.judge_line(line.rstrip("\r")):
                self.wrong.append(f"{line!r}: {wrong}")

    def judge_line(self, line):
        """Returns what is wrong with a line that is printed now, or None: what it says has to be on the disk."""
        if made := MADE.fullmatch(line):
            self.count["made"] += 1
            file = self.files.get(f"k/{made[2]}") or self.files.get(f"k/{made[2]}.img") if made[2] else self.image
            is_there = file and file.is_settled and meaning(file.synced)[0] == int(made[1] or made[3])
            return None if is_there else "it isn't on the disk"
        answer = ANSWER.fullmatch(line)
        if not answer or answer[3].startswith(("refused", "cell", "done")) or self.image is None or not self.image.is_settled:
            return None
        self.count["lines"] += 1
        commands, memory = meaning(self.image.synced)
        if commands is None:
            return "there is no image"
        base, entries = memory.windows[int(answer[1])]
        at = int(answer[2]) - base
        if at >= len(entries):
            return "it isn't on the disk"
        kept = judging.text_of(entries[at][1]) if at >= 0 else None
        return None if kept is None or answer[3] in (kept, "waiting") else f"the disk has {kept!r}"


def reached(dice, writes, number, grain, has_noise=False):
    """Returns a way, and the sectors of these writes that reach the medium in it; each write is its sectors. The first two ways are none and all;
    others are by the dice. A torn write keeps blocks of `grain` bytes whole; with `has_noise` one of its sectors is noise."""
    way = WAYS[number] if number < 2 else dice.choice(WAYS[2:])
    chosen, alone = {}, dice.randrange(len(writes)) if writes else None
    for at, found in enumerate(writes):
        if way == "none" or (way == "one" and at != alone) or (way == "all but one" and at == alone) or (way == "coin" and dice.random() < 0.5):
            continue
        if way == "torn" or (way == "last torn" and at == len(writes) - 1):
            blocks = {}
            found = {n: raw for n, raw in found.items() if blocks.setdefault(n * disks.SECTOR // grain, dice.random() < 0.5)}
            if has_noise and found:
                found[dice.choice(list(found))] = dice.randbytes(disks.SECTOR)
        chosen.update(found)
    return way, chosen
