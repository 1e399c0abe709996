"""Power cuts of a member of a module on several hosts, for `scripts/power-cut --log`: a machine in which its log grows by
numbers is killed at a random request of its disk, and any part of the unflushed writes stays. The next one has to find each
number that was said, in order."""
import hashlib
import random
import re
import subprocess
from collections import Counter
from pathlib import Path

import cutting
import disks
import guests
import otp
from sources import TOP

ROOT = Path("/usr/lib/erlang")
PARTS = ["kernel", "stdlib", "sasl", "crypto"]
EVERY = 12  # cuts of one disk
PATIENCE = 240  # seconds in which a machine's member says what it finds


def erlang(room, source):
    """Returns the files of Erlang, of Ra and of the server that a machine needs, with a module of scripts/power; the command that starts a node;
    and the folder of what was compiled."""
    ebin = otp.compile_server(room / "ebin", TOP / "scripts" / "power" / source)
    folders = [next(ROOT.glob(f"lib/{part}-*")) for part in PARTS]
    found = [it for folder in folders for it in [*folder.glob("ebin/*"), *folder.glob("priv/lib/*.so")]]
    erts = next(ROOT.glob("erts-*")) / "bin"
    found += [erts / it for it in ("beam.smp", "erlexec", "erl_child_setup", "inet_gethost")]
    found += [ROOT / "bin" / it for it in ("start.boot", "start_clean.boot")]
    named = {str(it)[1:]: it.resolve() for it in found}
    paths = [f"/ebin/{at}" for at in range(1 + len(otp.ra()))]
    for path, folder in zip(paths, [ebin, *otp.ra()]):
        named |= {f"{path[1:]}/{it.name}": it for it in Path(folder).iterdir() if it.is_file()}
    start = f"ROOTDIR={ROOT} BINDIR={erts} EMU=beam PROGNAME=erl HOME=/t {erts}/erlexec -noshell -noinput +S 1:1 +sbwt none"
    return named, " ".join([start, *(f"-pa {it}" for it in paths)]), ebin


def machine(workshop, room, memory=384):
    """Returns a machine as it is behind its boot, with the first files of a room."""
    kept, socket = room / "kept", workshop.room / "socket"
    if not kept.exists():
        guests.Machine(room, workshop.kernel, socket, memory=memory).keep(kept)
    return guests.Machine(room, workshop.kernel, socket, kept, memory)


class Cuts:
    """One disk, cut again and again."""

    def __init__(self, workshop, room, name, system, seed, command):
        self.workshop, self.room, self.system, self.command = workshop, room, system, command
        self.dice, self.count = random.Random(f"log {name} {seed}"), Counter()
        self.safe, self.said = {}, 0
        self.disk, _, self.server = workshop.served(workshop.base(name, system), self.dice)

    def play_once(self):
        """Lets the member work until the power goes. Returns what is wrong, or None."""
        self.disk.layers, self.disk.top, self.server.dead = [self.safe], {}, False
        at = machine(self.workshop, self.room)
        left, self.disk.log = [1 + int(self.dice.expovariate(1 / 150))], []

        def notice():
            if self.is_on:
                left[0] -= 1
                if left[0] == 0:
                    self.server.dead = True
                    at.process.kill()

        self.is_on, self.disk.noticed = False, notice
        try:
            status, said = at.ask(f"mount {self.system.type} {self.system.options}")
            if status:
                return f"not mounted: {said.strip()}"
            at.ask("mkdir -p /m/log; sync")
            self.is_on = self.dice.random() < 0.3  # Else once it has found its log.
            return self.listen(at)
        except guests.Off:
            return None
        finally:
            self.disk.noticed, self.server.dead = None, True
            at.cut()
            self.take_what_stays()

    def listen(self, at):
        """Hears what the member says until the power goes."""
        at.send(self.command.encode() + b"\n")
        heard, found = b"", None
        while more := at.hear(PATIENCE):
            *lines, heard = (heard + more).split(b"\n")
            for line in lines:
                words = line.decode("latin-1").split()
                if words[:1] == ["found"]:
                    found = int(words[1])
                    self.is_on = True
                    self.count["found"] += 1
                    if found < self.said:
                        return f"{found} was found, and {self.said} was said"
                    self.said = found
                elif found is not None and re.fullmatch(r"\d+", line.decode("latin-1").strip()):
                    self.said = int(line)
                    self.count["numbers"] += 1
                elif words and words[0] != "dets:":  # OTP says there that it repairs a table that wasn't closed.
                    return f"the member says {line[:300]!r}"
        if more is None:
            return f"nothing was said in {PATIENCE} s, behind {heard[-300:]!r}"
        self.count["cuts"] += 1
        return None

    def take_what_stays(self):
        writes = []
        for entry in self.disk.log:
            if isinstance(entry, disks.Write):
                writes.append(disks.sectors(entry))
            elif entry == disks.FLUSH:
                for it in writes:
                    self.safe.update(it)
                writes = []
        self.disk.log = None
        self.safe.update(cutting.reached(self.dice, writes, self.dice.randrange(6), 4096)[1])


def judge(workshop, systems, cuts, seed):
    """Cuts members so often in all. Returns what was counted."""
    room = workshop.room / "log"
    room.mkdir()
    files, start, _ = erlang(room, "imem_log_cut.erl")
    command = f"{start} -s imem_log_cut main /m/log"
    (room / "first").write_bytes(guests.first_files(workshop.modules, {"init": workshop.room / "agent", **files}))
    total, number = Counter(), 0
    while total["cuts"] < cuts:
        name, system = list(systems.items())[number % len(systems)]
        disk = Cuts(workshop, room, name, system, seed + number, command)
        while disk.count["cuts"] < min(EVERY, cuts - total["cuts"]) and not disk.count["wrong"]:
            if wrong := disk.play_once():
                disk.count["wrong"] += 1
                print(f"  log {name} seed {seed + number}: {wrong}", flush=True)
        print(f"log {name} seed {seed + number}:", ", ".join(f"{disk.count[it]} {it}" for it in ("cuts", "found", "numbers", "wrong")), flush=True)
        total, number = total + disk.count, number + 1
    print(f"log: {total['cuts']} cuts, {total['numbers']} numbers, {total['wrong']} wrong", flush=True)
    return total
