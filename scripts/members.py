"""Power cuts of all of a member of a module on three hosts, for `scripts/power-cut --members`. Members a, b and c run in a
machine; the log of a is on the disk that is recorded, those of b and c in memory, which no cut takes. c ends early, so what is
answered then is on the disks of a and b alone. a is killed and started once more.

Behind a place of the recording the disk of a is cut. There, a starts on this machine with what the cut left and c with its old
log: both together are most members, so all that was answered by then has to be there, and both images have to be alike. Each
fourth time a starts with b instead, as that one ended, and has to get all that came later."""
import io
import json
import os
import random
import re
import shutil
import signal
import subprocess
import tarfile
import tempfile
import time
from collections import Counter
from concurrent.futures import ThreadPoolExecutor
from pathlib import Path

import cutting
import disks
import guests
import harness
import logs
import otp
from otp import atom
from sources import TOP

HOSTS = {"a": 10, "b": 11, "c": 12}
NODES = {it: f"{it}@127.0.66.{number}" for it, number in HOSTS.items()}
SIZES = ["--cells", "64", "--elements", "8", "--slots", "64"]
EVERY = 40  # lines between two snapshots
EARLY, RESTART, END = 12, 120, 300  # answers behind which c ends, a is started once more, and the recording ends
PATIENCE = 1200  # seconds for a step of the machine
WITHIN = 600  # seconds in which members that were cut are alike
CONTROL = "LD_PRELOAD=/calls.so NO_SYNC=data "  # The log of a isn't synced as it grows.


def config(host, where, imem):
    """Returns the configuration of a member in a folder. Ra keeps the paths of its files, so it is the same on the machine and here."""
    nodes = [atom(it) for it in NODES.values()]
    module = {"module": 0, "nodes": nodes, "sizes": SIZES, "snapshot_every": EVERY}
    return otp.config(imem=imem, log=where / host, memory=where / "memory", modules=[module], listeners=[])


def words(host, port):
    """Returns the words of a node, behind those that start Erlang."""
    address = f"{{127,0,66,{HOSTS[host]}}}"
    named = ["-name", NODES[host], "-setcookie", "member", "-connect_all", "false", "-start_epmd", "false", "-erl_epmd_port", str(port)]
    return [*named, "-kernel", "inet_dist_use_interface", address]


def is_answer(entry):
    return isinstance(entry, disks.Record) and entry.kind == "M"


class Recording:
    """What the disk of a was asked, with the answers that were told meanwhile, and the logs of b and c at their ends."""

    def __init__(self, workshop, room, where, start, name, system, seed, is_control):
        self.name, self.system, self.seed, self.where = name, system, seed, where
        self.workshop, self.start, self.is_control = workshop, start, is_control
        self.disk, self.records, _ = workshop.served(workshop.base(name, system), random.Random(f"member {name} {seed}"))
        self.machine = logs.machine(workshop, room, 768)
        try:
            self.play()
        finally:
            self.machine.cut()

    def play(self):
        status, said = self.machine.ask(f"mount {self.system.type} {self.system.options}")
        if status:
            raise RuntimeError(f"not mounted: {said.strip()}")
        self.do(f"ifconfig lo up; mkdir -p /m/log {self.where}; cd {self.where}; mkdir b c memory; ln -s /m/log a; sync")
        for host in "bc":
            self.do(f"echo 00000000000000{HOSTS[host]} > {self.where}/{host}/member")
        self.layer, self.disk.log = dict(self.disk.top), []
        self.do(f"{self.start} -config /a -s imem_members ask make")
        self.begin("a", *("-s", "imem_server"))
        self.begin("c", *("-s", "imem_server"))
        self.begin("b", *("-s", "imem_server", "-s", "imem_member_cut", "work", NODES["a"], NODES["b"]))
        self.do(f"until grep -q 'is open' /t/c.out; do sleep 1; done")
        self.reach(EARLY)
        self.kill("c")
        self.begin_at = len(self.disk.log)
        self.reach(RESTART)
        self.kill("a")
        self.begin("a", *("-s", "imem_server"))
        self.reach(END)
        self.kill("b")  # And with it those who ask.
        self.log, self.disk.log = self.disk.log, None
        if bad := next((it.raw for it in self.log if is_answer(it) and it.raw.startswith(b"wrong")), None):
            raise RuntimeError(bad.decode())
        self.do(f"cd {self.where} && tar cf /m/b.tar b && tar cf /m/c.tar c && sync")
        shown = guests.shown(self.machine, self.records, ["b.tar", "c.tar"])
        self.others = {it: shown[f"{it}.tar"] for it in "bc"}

    def do(self, line):
        status, said = self.machine.ask(line, PATIENCE)
        if status:
            raise RuntimeError(f"{line}: {status} {said[-300:]}; {self.logged()}")

    def begin(self, host, *more):
        control = CONTROL * (host == "a" and self.is_control)
        node = " ".join(f"'{it}'" for it in [*words(host, 4711), "-config", f"/{host}", *more])
        self.do(f"{control}{self.start} {node} >> /t/{host}.out 2>&1 & echo $! > /t/{host}.pid")

    def kill(self, host):
        ended = "grep -q Z /proc/$it/stat && [ $(ls /proc/$it/task | wc -l) = 1 ]"  # With all threads, so that its port is free.
        self.do(f"it=$(cat /t/{host}.pid); kill -9 $it; until {ended}; do sleep 0.1; done")

    def reach(self, number):
        """Waits for so many answers."""
        end = time.time() + PATIENCE
        while self.answers() < number:
            if time.time() > end:
                raise RuntimeError(f"{self.answers()} answers in {PATIENCE} s: {self.logged()}")
            time.sleep(0.2)

    def answers(self):
        return sum(map(is_answer, list(self.disk.log)))

    def logged(self):
        return self.machine.ask("tail -n 4 /t/*.out; true", 60)[1]


class States:
    """The disk of a recording, cut behind some of its entries. Several states are started at once, each in mounts of its own."""

    def __init__(self, recording, ebin):
        self.it, self.ebin, self.count = recording, ebin, Counter()
        self.dice = random.Random(f"members {recording.name} {recording.seed}")
        self.mounter = recording.workshop.mounter(recording.workshop.base(recording.name, recording.system), recording.layer)
        self.folder, self.room = recording.where, Path(tempfile.mkdtemp(prefix="members-", dir="/dev/shm"))
        self.port, self.seen, self.found = self.dice.randrange(20000, 30000), {}, []

    def judge(self, most):
        """Cuts so often behind an answer or before a flush, from the end of c on. Returns what was counted."""
        log, told, writes = self.it.log, Counter(), []
        places = [at for at in range(self.it.begin_at, len(log) - 1) if is_answer(log[at]) or log[at + 1] == disks.FLUSH]
        chosen = set(self.dice.sample(places, min(most, len(places))))
        last = self.told(log)
        self.folder.mkdir()
        try:
            with ThreadPoolExecutor(os.cpu_count()) as pool:
                for place, entry in enumerate(log):
                    if entry == disks.FLUSH:
                        self.mounter.advance({number: raw for it in writes for number, raw in it.items()})
                        writes, self.seen = [], {}
                    elif isinstance(entry, disks.Write):
                        writes.append(disks.sectors(entry))
                    elif is_answer(entry):
                        told |= self.told([entry])
                    if place in chosen:
                        self.cut(place, writes, Counter(told), last, pool)
                for it in self.found:
                    self.look(*it)
        finally:
            shutil.rmtree(self.room, ignore_errors=True)
            self.folder.rmdir()
        return self.count

    @staticmethod
    def told(entries):
        """Returns the last request of each element that was answered."""
        found = Counter()
        for it in filter(is_answer, entries):
            element, number = it.raw.decode().split()
            found[element] = max(found[element], int(number))
        return found

    def cut(self, place, writes, told, last, pool):
        """One state. Members are started once for each disk."""
        way, layer = cutting.reached(self.dice, writes, self.dice.choice([0, 0, 2]), 4096)
        other = self.dice.choice("bccc")
        key = hash(frozenset(layer.items())), other
        self.count["states"] += 1
        if key not in self.seen:
            self.count["disks"] += 1
            room = self.room / str(self.count["disks"])
            status, said, packed = self.mounter.packed(self.it.system.type, self.it.system.options, "log", layer)
            wrong = f"not mounted: {said.strip()}" if status else None
            self.seen[key] = pool.submit(self.started, room, packed, other, wrong), packed, room
        self.found.append((f"entry {place}, {way}, with {other}", last if other == "b" else told, *self.seen[key]))

    def look(self, state, told, started, packed, room):
        """Compares what members have with what was told by then."""
        self.count["answers"] += sum(told.values())
        if wrong := self.lacking(started.result(), told):
            self.count["wrong"] += 1
            kept = "" if self.it.is_control else self.keep(packed, room)
            print(f"  member {self.it.name} seed {self.it.seed}, {state}: {wrong}{kept}", flush=True)

    def keep(self, packed, room):
        """Keeps what a cut left that is wrong."""
        kept = TOP / "out" / "power" / "bad" / f"member-{self.it.name}-{self.it.seed}-{room.name}"
        kept.mkdir(parents=True, exist_ok=True)
        for name, raw in (("a", packed), *self.it.others.items()):
            (kept / f"{name}.tar").write_bytes(raw)
        for it in room.glob("*.out"):
            shutil.copy2(it, kept)
        return f"\n    {kept.relative_to(TOP)}"

    def started(self, room, packed, other, wrong):
        """Starts what the cut left, with another member. Returns what both have, or what is wrong."""
        if wrong:
            return wrong
        room.mkdir()
        tarfile.open(fileobj=io.BytesIO(packed)).extractall(room)
        (room / "log").rename(room / "a")
        tarfile.open(fileobj=io.BytesIO(self.it.others[other])).extractall(room)
        (room / "memory").mkdir()
        nodes = [self.node(room, other), self.node(room, "a", "-s", "imem_member_cut", "judge", NODES[other])]
        try:
            found = self.hear(room, nodes)
        finally:
            for it in nodes:
                os.killpg(it.pid, signal.SIGKILL)
                it.wait()
            for it in ("a", other, "memory"):
                shutil.rmtree(room / it, ignore_errors=True)
        return found

    def node(self, room, host, *more):
        """Starts a member. Its folder stands where it stood on the machine, as Ra keeps the paths of its files."""
        file = room / f"{host}.config"
        file.write_text(config(host, self.folder, harness.IMEM))
        paths = [word for it in (self.ebin, *otp.ra()) for word in ("-pa", it)]
        start = ["unshare", "-rm", "sh", "-c", "mount --bind $0 $1 && shift && exec \"$@\"", room, self.folder]
        start += ["erl", "-noshell", "-noinput", "+S", "1:1", "+sbwt", "none", *paths, *words(host, self.port + int(room.name))]
        start += ["-config", file, "-s", "imem_server", *more]
        env = {**os.environ, "HOME": str(room)}
        with open(room / f"{host}.out", "w") as out:
            return subprocess.Popen(list(map(str, start)), env=env, stdout=out, stderr=subprocess.STDOUT, start_new_session=True)

    def hear(self, room, nodes):
        """Returns what the judge finds, or what there is in its place."""
        end = time.time() + WITHIN
        while time.time() < end:
            has_ended = any(it.poll() is not None for it in nodes)
            text = (room / "a.out").read_text(errors="replace")
            if found := re.search("^found (.*)\n", text, re.M):
                return found[1]
            if has_ended:
                return "a node ended"
            if self.it.is_control and "no_member" in text:  # Else it may be tried again.
                return "its log isn't read"
            time.sleep(0.05)
        return f"not alike in {WITHIN} s"

    def lacking(self, found, told):
        """Returns what isn't as it was told, or None. One request of each element was under way."""
        if ";" not in found:
            return found
        lines = found.split(";")
        for window, cell in zip(lines[::2], lines[1::2]):
            if not (met := re.fullmatch(r"(\d+) window \d+ (\d+)", window)):
                return window
            element, done = met[1], int(met[2]) - 1
            if not told[element] <= done <= told[element] + 1:
                return f"{window}, and {told[element]} was told"
            wanted = f"full {done}" if done % 2 else "empty"
            if cell != f"cell {int(element) - 1} m {wanted}":
                return f"{cell}, and not {wanted}"
        return None


def judge(workshop, systems, most, seed):
    """Records members on these file systems, and cuts them so often in all. Returns what was counted."""
    room = workshop.room / "member"
    room.mkdir()
    files, start, ebin = logs.erlang(room, "imem_member_cut.erl")
    where = Path(f"/tmp/members-{os.getpid()}")
    for host in HOSTS:
        (room / f"{host}.config").write_text(config(host, where, Path("/imem")))
        files[f"{host}.config"] = room / f"{host}.config"
    files |= {"init": workshop.room / "agent", "imem": harness.IMEM, "calls.so": workshop.room / "calls"}
    (room / "first").write_bytes(guests.first_files(workshop.modules, files))
    total = Counter()
    controls = {"ext4, log not synced": (systems.get("ext4"), True, 20)} if "ext4" in systems else {}
    trials = {**controls, **{it: (system, False, -(-most // len(systems))) for it, system in systems.items()}}
    for name, (system, is_control, share) in trials.items():
        begin = time.time()
        recording = Recording(workshop, room, where, start, name.partition(",")[0], system, seed, is_control)
        count = States(recording, ebin).judge(share)
        entries, answers = len(recording.log), sum(States.told(recording.log).values())
        spent = time.time() - begin
        print(f"member {name} seed {seed}: {entries} entries, {answers} answers:", json.dumps(count), f"{spent:.0f} s", flush=True)
        if not is_control:
            total += count
        elif not count["wrong"]:
            print("the control lost nothing", flush=True)
            total["wrong"] += 1
    print(f"members: {total['states']} states, {total['answers']} answers looked for, {total['wrong']} wrong", flush=True)
    return total
