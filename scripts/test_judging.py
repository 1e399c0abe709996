#!/usr/bin/env python3
"""Tests that judging.py takes a run and a dialogue that are right, and no other.

usage: scripts/test_judging.py      from anywhere in a checkout
"""
import struct
import tempfile
import unittest
from pathlib import Path
from types import SimpleNamespace

import images
import judging

LIMITS = images.Limits(8, 3, 16)
ALLOC, FETCH, STORE = (images.ALLOC_I, 1, 0), (images.FETCH, 0, 0), (images.STORE, 0, 5)
GROUPS = [[(0, 1, ALLOC)], [(1, 1, FETCH), (2, 1, STORE)], [(2, 2, (images.CONFIRM, 0, 0))]]
PRINTED = "0.1 base 0\n1.1 value 5\n2.1 stored\n"
STOPPED = "refused 8 Device\n"


def case(own, fault=None):
    asks = [(0, [ALLOC]), *sorted(own.items())]
    return SimpleNamespace(asks=lambda: iter(asks), counts=lambda: {it: len(asked) for it, asked in asks}, fault=fault)


CASE = case({1: [FETCH], 2: [STORE]})


class Disk:
    """A disk and an output that note what they are told."""

    def __init__(self):
        self.file, self.record, self.sequence = bytearray(images.new(LIMITS)), bytearray(), 0

    def put(self, place, raw, synced=True):
        self.file[place : place + len(raw)] = raw
        self.record += b"w" + struct.pack("<QQ", place, len(raw)) + raw
        self.record += b"s" if synced else b""

    def group(self, commands, first=True, last=True):
        """Puts a group down: its slots, then its gate, each with a sync or without one."""
        for at, (element, number, op) in enumerate(commands):
            slot = images.spell_slot(0, 0 if at else len(commands), self.sequence + at, element, number, op)
            self.put(LIMITS.slot_at(self.sequence + at), slot, first and at + 1 == len(commands))
        self.put(LIMITS.slot_at(self.sequence), bytes([images.OPEN]), last)
        self.sequence += len(commands)
        return self

    def groups(self, groups=GROUPS):
        for commands in groups:
            self.group(commands)
        return self

    def says(self, text):
        self.record += b"o" + struct.pack("<Q", len(text)) + text.encode()
        return self

    def fails(self):
        self.record += b"f"
        return self


class Judging(unittest.TestCase):
    def judge(self, printed=PRINTED, disk=None, status=0, case=CASE, left=None, judge=judging.judge_run, seeds=20):
        disk = disk or Disk().groups().says(printed)
        with tempfile.NamedTemporaryFile() as kept:
            kept.write(disk.record)
            kept.flush()
            for seed in range(seeds):
                judge(case, images.new(LIMITS), Path(kept.name), left or bytes(disk.file), printed, status, seed)

    def wrong(self, word, **given):
        with self.assertRaisesRegex(judging.Wrong, word):
            self.judge(**given)


class Runs(Judging):
    def test_right(self):
        self.judge()

    def test_lines(self):
        self.wrong("value 5 is kept", printed=PRINTED.replace("value 5", "value 6"))
        self.wrong("value 5 is kept", printed=PRINTED.replace("value 5", "waiting"))
        self.wrong("lines", printed="0.1 base 0\n1.1 value 5\n", case=case({1: [FETCH], 2: [STORE, FETCH]}), disk=Disk().groups(GROUPS[:2]))
        self.wrong("no such line", printed=PRINTED + "2.1 stored\n")
        self.wrong("no such line", printed="0.1 base 0\n2.1 stored\n1.1 value 5\n")
        self.wrong("2.1 was put down, and has no line", printed="0.1 base 0\n1.1 value 5\n" + STOPPED, disk=Disk().groups().fails(), status=1)

    def test_commands(self):
        self.wrong("isn't asked", case=case({1: [FETCH], 2: [(images.STORE, 0, 7)]}))
        self.wrong("isn't asked", disk=Disk().groups([*GROUPS, [(1, 2, FETCH)]]))
        self.wrong("refuses", disk=Disk().groups([*GROUPS, [(1, 3, FETCH)]]))
        self.wrong("refuses", disk=Disk().groups([*GROUPS, [(2, 2, (images.CONFIRM, 0, 0))]]))

    def test_images(self):
        self.wrong("isn't what was written", left=bytes(Disk().groups(GROUPS[:2]).file))
        wrong = Disk().groups()
        wrong.put(LIMITS.cell_at(0, 3), images.CELL.pack(images.EMPTY, 1, 0, 3, 1, images.NONE, images.NONE, 0, 0))
        self.wrong("doesn't mean", disk=wrong)

    def test_lost(self):
        """A store that was acknowledged and isn't kept."""
        lost = Disk().groups(GROUPS[:1]).group([(2, 1, STORE)], last=False).says("2.1 stored\n")
        self.wrong("before all was put down", printed="0.1 base 0\n2.1 stored\n", disk=lost, case=case({2: [STORE]}))
        self.wrong("need 2 commands, and 1 were put down", printed="0.1 base 0\n2.1 stored\n" + STOPPED, disk=Disk().groups(GROUPS[:1]).group([(2, 1, STORE)], last=False).says("0.1 base 0\n2.1 stored\n").fails(), status=1, case=case({2: [STORE]}))
        self.wrong("nothing is kept", printed="0.1 base 0\n2.1 stored\n" + STOPPED, disk=Disk().groups(GROUPS[:1]).fails(), status=1, case=case({2: [STORE]}))
        late = Disk().groups(GROUPS[:1]).group([(2, 1, STORE)], last=False).says("0.1 base 0\n2.1 stored\n")
        late.record += b"s"
        self.wrong("need 2 commands, and 1 were put down", printed="0.1 base 0\n2.1 stored\n", disk=late, case=case({2: [STORE]}))
        early = Disk().says("0.1 ba").groups(GROUPS[:1]).says("se 0\n")
        self.judge(printed="0.1 base 0\n", disk=early, case=case({}))

    def test_crashes(self):
        """A gate that is written beside its slots, and pages that are written before the image has others."""
        self.wrong("a crash leaves", disk=Disk().group(GROUPS[0]).group(GROUPS[1], first=False).group(GROUPS[2]))
        bare = Disk().groups()
        bare.put(LIMITS.cell_at(0, 0), bytes(32))
        bare.put(LIMITS.cell_at(0, 0), images.new(LIMITS)[LIMITS.cell_at(0, 0) :][:32])
        self.wrong("a crash leaves", disk=bare, seeds=200)

    def test_ends(self):
        self.wrong("status", status=1)
        self.wrong("status", printed=PRINTED + "refused 19 Stalled\n")
        self.wrong("status", disk=Disk().groups().says(PRINTED).fails())
        self.wrong("nobody waits", printed=PRINTED + "refused 19 Stalled\n", status=3)
        more = case({1: [FETCH, FETCH], 2: [(images.FETCH, 0, 0)]})
        waiting = [[(0, 1, ALLOC)], [(1, 1, FETCH), (2, 1, FETCH)]]
        self.wrong("could have gone on", printed="0.1 base 0\n1.1 waiting\n2.1 waiting\nrefused 19 Stalled\n", disk=Disk().groups(waiting), status=3, case=more)
        self.wrong("has no line", printed="0.1 base 0\n1.1 waiting\nrefused 19 Stalled\n", disk=Disk().groups(waiting), status=3, case=more)

    def test_faults(self):
        failing = case({1: [FETCH], 2: [STORE]}, fault=3)
        doubtful = Disk().groups([GROUPS[0], [(1, 1, FETCH)]]).group([(2, 1, STORE)], last=False).fails()
        self.judge(printed="0.1 base 0\n1.1 waiting\n" + STOPPED, disk=doubtful, status=1, case=failing)
        self.wrong("is kept", printed="0.1 base 0\n1.1 value 6\n" + STOPPED, disk=doubtful, status=1, case=failing)
        after = Disk().groups([GROUPS[0]]).fails().groups(GROUPS[1:2])
        self.wrong("after a call of it had failed", printed="0.1 base 0\n" + STOPPED, disk=after, status=1, case=failing)

    def test_glances(self):
        seen = case({1: [FETCH, ("glance", 0, 0), ("glance", 0, 0)], 2: [STORE]})
        apart = [[(0, 1, ALLOC)], [(1, 1, FETCH)], [(2, 1, STORE)]]
        lines = "0.1 base 0\n1.1 value 5\n1 glance 0 {}\n1 glance 0 {}\n2.1 stored\n"
        for one, other in (("value 5", "value 5"), ("none", "value 5"), ("none", "none")):
            self.judge(printed=lines.format(one, other), case=seen, disk=Disk().groups(apart))
        self.wrong("wasn't so then", printed=lines.format("value 6", "value 5"), case=seen, disk=Disk().groups(apart))
        self.wrong("wasn't so then", printed=lines.format("value 5", "none"), case=seen, disk=Disk().groups(apart))
        stored = case({1: [STORE, ("glance", 0, 0)]})
        self.wrong("wasn't so then", printed="0.1 base 0\n1.1 stored\n1 glance 0 none\n", case=stored, disk=Disk().groups([[(0, 1, ALLOC)], [(1, 1, STORE)]]))


class Dialogues(Judging):
    TALK = SimpleNamespace(commands=[(0, 1, ALLOC), (1, 1, FETCH), (2, 1, STORE)], answers=[("0.1 base 0\n", 1), ("1.1 waiting\n", 2), ("2.1 stored\n", 3), ("1.1 value 5\n", 3)])
    SAID = "".join(answer for answer, _ in TALK.answers)

    def talk(self, printed=SAID, groups=GROUPS[:2], status=0, disk=None):
        self.judge(printed=printed, disk=disk or Disk().groups(groups).says(printed), status=status, case=self.TALK, judge=judging.judge_dialogue)

    def odd(self, word, **given):
        with self.assertRaisesRegex(judging.Wrong, word):
            self.talk(**given)

    def test_right(self):
        self.talk()
        self.talk("0.1 base 0\n" + STOPPED, status=1, disk=Disk().groups(GROUPS[:1]).says("0.1 base 0\n").fails())
        self.talk("0.1 base 0\n" + STOPPED, status=1, disk=Disk().groups(GROUPS[:1]).says("0.1 base 0\n").group(GROUPS[1], last=False).fails())

    def test_answers(self):
        self.odd("aren't those", printed=self.SAID.replace("value 5", "value 6"))
        self.odd("aren't those", printed=self.SAID + "1.1 value 5\n")
        self.odd("aren't those", printed=self.SAID + STOPPED)
        self.odd("3 of 4 lines", printed=self.SAID.removesuffix("1.1 value 5\n"))
        self.odd("status", status=1)

    def test_commands(self):
        self.odd("of the lines", groups=[[(0, 1, ALLOC)], [(2, 1, STORE), (1, 1, FETCH)]])
        self.odd("2 of 3 commands", groups=[[(0, 1, ALLOC)], [(1, 1, FETCH)]])

    def test_lost(self):
        self.odd("were answered", printed="0.1 base 0\n1.1 waiting\n" + STOPPED, status=1, disk=Disk().groups(GROUPS[:1]).says("0.1 base 0\n1.1 waiting\n").fails())
        self.odd("need 3 commands, and 1 were put down", disk=Disk().groups(GROUPS[:1]).says(self.SAID).group(GROUPS[1]))
        unanswered = Disk().groups(GROUPS[:2]).fails()
        self.odd("were answered", printed=STOPPED, status=1, disk=unanswered)


if __name__ == "__main__":
    unittest.main()
