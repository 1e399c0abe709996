"""Clusters of the server of server/ with the elements of examples/otp, for `scripts/cluster`: nodes of Erlang/OTP on
loopback addresses, in a folder of their own, whose processes can be killed and frozen."""
import math
import os
import random
import signal
import subprocess
import threading
import time
from collections import Counter
from pathlib import Path
from typing import NamedTuple

import otp
from otp import Term, atom
from sources import TOP

OTP = TOP / "examples" / "otp"
CLIENTS = 3
TRIAL = "trial@127.0.66.1"  # the node that is told who is done
CELL = 3  # the first cell after those that say which module this is


class Run(NamedTuple):
    program: tuple
    modules: int
    twice: bool = False  # each element on two nodes at once
    elements: int = 12
    kills: int = 0
    loss: float = 0.02
    slots: int = 32
    sync: int = 0  # microseconds; 0: the disk's own


def rounds(program, element, elements):
    """Yields the addresses of each round's requests. Those of a histogram are asked for twice, to take and to put."""
    if program[0] == "wavefront":
        side = program[1]
        for row in range(element - 1, side, elements):
            yield [row * side + x for x in range(side)] + [(row - 1) * side + x for x in range(side) if row]
    else:
        _, counters, count, words = program
        yield range(element - 1, counters, elements)
        for at in range(1, count + 1):
            yield 2 * list({(element + 7 * at + 11 * x) % counters for x in range(words)})


def wanted_cells(run):
    """Returns what each cell has to hold: in a wavefront a binomial number, else how often the counter was asked
    for."""
    if run.program[0] == "wavefront":
        side = run.program[1]
        return [math.comb(row + column, row) % 1000003 for row in range(side) for column in range(side)]
    counts = Counter()
    for element in range(1, run.elements + 1):
        _fill, *others = rounds(run.program, element, run.elements)
        counts.update(it for addresses in others for it in set(addresses))
    return [counts[it] for it in range(run.program[1])]


def asked(run, element):
    """Returns how many requests an element has for each module."""
    return Counter(it % run.modules for addresses in rounds(run.program, element, run.elements) for it in addresses)


def pids_of(*words):
    """Returns the processes whose command lines have all these words. One word is of this run alone."""
    found = []
    for it in Path("/proc").glob("[0-9]*/cmdline"):
        try:
            line = it.read_bytes().split(b"\0")
        except OSError:
            continue
        if all(os.fsencode(word) in line for word in words):
            found.append(int(it.parent.name))
    return found


class Cluster:
    """The nodes of a run, in a folder of their own. A node ends once the folder's file `running` is gone."""

    PAUSE, FREEZE = (0.05, 0.6), (0.2, 2)  # seconds between two strikes, and for which a process halts

    def __init__(self, run, imem, folder, seconds):
        self.run, self.imem, self.folder = run, imem, Path(folder)
        self.port, self.until = random.randrange(20000, 30000), time.time() + seconds
        self.ebin, self.file = self.folder / "ebin", self.folder / "running"
        self.modules = [f"m{it}@127.0.66.{10 + it}" for it in range(run.modules)]
        self.clients = [f"c{it}@127.0.66.{20 + it}" for it in range(CLIENTS)]
        self.images = [self.folder / f"module-{it}.img" for it in range(run.modules)]
        self.done, self.kills, self.frozen, self.freezes = {}, Counter(), {}, 0
        self.trial = None

    def seats(self, element):
        """Returns the nodes on which an element runs."""
        return [self.clients[(element + it) % CLIENTS] for it in range(1 + self.run.twice)]

    def make(self):
        """Compiles the modules of Erlang and makes the images."""
        self.compile()
        for image in self.images:
            subprocess.run([self.imem, "format", image, *self.sizes()], check=True)

    def compile(self):
        otp.compile_server(self.ebin, *sorted(OTP.glob("*.erl")))
        cookie = self.folder / ".erlang.cookie"
        cookie.write_text(self.folder.name)
        cookie.chmod(0o400)

    def sizes(self):
        """Returns the words by which an image is formatted."""
        run = self.run
        cells = CELL + -(-len(wanted_cells(run)) // run.modules)
        sizes = ["--cells", max(cells, 16), "--elements", run.elements + 1, "--slots", run.slots]
        return [str(it) for it in sizes]

    def write(self):
        """Writes the configuration of each node. They differ in where they log."""
        for node in self.modules + self.clients:
            (self.folder / f"{node}.config").write_text(otp.config(self.folder / f"{node}.log", **self.given(node)))
        self.file.touch()

    def even(self):
        """Returns what makes each sync take the same time, if it has to."""
        return {"LD_PRELOAD": f"{self.folder}/even_sync.so", "EVEN_SYNC_US": str(self.run.sync)} if self.run.sync else {}

    def placed(self, _node):
        """Returns where each module is, as a node is told."""
        even = list(self.even().items())
        places = enumerate(zip(self.modules, self.images))
        return {"modules": [{"module": at, "node": atom(node), "image": image, "env": even} for at, (node, image) in places]}

    def given(self, node):
        """Returns what a node is told."""
        run = self.run
        elements = [(it, [atom(node) for node in self.seats(it)]) for it in range(1, run.elements + 1)]
        name, *sizes = run.program
        program = (atom(f"imem_{name}"), tuple(sizes))
        lossy = {"program": program, "node": atom(TRIAL), "lose": float(run.loss), "double": float(run.loss)}
        cluster = {"number": 66, "elements": elements, "program": (atom("imem_trial"), lossy)}
        return {
            **{"imem": self.imem, **self.placed(node), "cluster": cluster},
            **{"send": Term("{imem_trial, send}"), "repeats_waiting": 1000},
        }

    def words(self, node):
        """Returns the command of a node of this run: it has one address and one port, and no other process says where
        nodes are."""
        address = node.split("@")[1].replace(".", ",")
        return [
            *["erl", "-name", node, "-connect_all", "false", "-pa", str(self.ebin)],
            *["-start_epmd", "false", "-erl_epmd_port", str(self.port)],
            *["-kernel", "inet_dist_use_interface", f"{{{address}}}"],
            *["+S", "2:2", "+sbwt", "none", "+sbwtdcpu", "none", "+sbwtdio", "none"],
        ]

    def start(self):
        self.write()
        env = {**os.environ, "HOME": str(self.folder)}
        guarded = [str(self.file), str(int(self.until))]
        trial = [*self.words(TRIAL), "-noshell", "-s", "imem_trial", "hear", *guarded]
        self.trial = subprocess.Popen(trial, env=env, cwd=self.folder, stdout=subprocess.PIPE, text=True)
        threading.Thread(target=self.hear, daemon=True).start()
        starts = []
        for node in self.modules + self.clients:
            begins = ["-config", f"{self.folder}/{node}.config", "-s", "imem_trial", "guard", *guarded, "-s", "imem_server"]
            words = [*self.words(node), "-detached", "-heart", *begins]
            start = self.folder / f"{node}.sh"
            start.write_text("#!/bin/sh\nexec " + " ".join(f"'{it}'" for it in words) + "\n")
            start.chmod(0o755)
            starts.append(self.start_node(node))
        for it in starts:
            it.wait(60)

    def start_node(self, node):
        start = str(self.folder / f"{node}.sh")
        env = {**os.environ, "HEART_NO_KILL": "TRUE", "HOME": str(self.folder), "HEART_COMMAND": start}
        return subprocess.Popen([start], env={**env, **self.environment(node)}, cwd=self.folder)

    def environment(self, _node):
        """Returns the environment of a node beside its home."""
        return {}

    def hear(self):
        """Keeps what the trial's node says about each element on each of its nodes."""
        for line in self.trial.stdout:
            words = line.split()
            if words[:1] == ["done"]:
                returns = [(by, int(ms) / 1000) for by, ms in (it.split(":") for it in words[5:])]
                self.done[int(words[1]), words[2]] = int(words[3]) / 1000, int(words[4]) / 1000, returns

    def all_done(self):
        return len(self.done) == sum(len(self.seats(it)) for it in range(1, self.run.elements + 1))

    def node_of(self, name):
        """Returns the process of a node, or None. A start is watched once heart runs."""
        return next((it for it in pids_of(name, "-heart", self.ebin) if pids_of("heart", "-pid", str(it))), None)

    def victim(self):
        """Returns a process of this run, and what it is."""
        kind = random.choice(["program", "module's node", "elements' node"])
        if kind == "program":
            return next(iter(pids_of("serve", random.choice(self.images))), None), kind
        return self.node_of(random.choice(self.modules if kind == "module's node" else self.clients)), kind

    def strike(self):
        """Ends a process, or at each third time halts it for a while."""
        self.thaw(time.time())
        pid, kind = self.victim()
        by = signal.SIGSTOP if random.random() < 1 / 3 else signal.SIGKILL
        if self.hit(pid, by) and by == signal.SIGKILL:
            self.kills[kind] += 1

    def hit(self, pid, by):
        """Returns whether there was a process to be killed, or to be halted for a while, by this signal."""
        if pid is None or pid in self.frozen:
            return False
        try:
            os.kill(pid, by)
        except ProcessLookupError:
            return False
        if by == signal.SIGSTOP:
            self.frozen[pid] = time.time() + random.uniform(*self.FREEZE)
            self.freezes += 1
        return True

    def thaw(self, now):
        for pid in [it for it, until in self.frozen.items() if until <= now]:
            del self.frozen[pid]
            try:
                os.kill(pid, signal.SIGCONT)
            except ProcessLookupError:
                pass

    def wait(self):
        """Waits until all is done, with kills meanwhile. Returns whether it was done in time."""
        begin = time.time()
        due = begin + 2
        while not self.all_done() and time.time() < self.until:
            time.sleep(0.02)
            self.thaw(time.time())
            if time.time() > due and self.kills.total() < self.run.kills:
                self.strike()
                due = time.time() + random.uniform(*self.PAUSE)
        self.thaw(math.inf)
        self.seconds = time.time() - begin
        return self.all_done()

    def stop(self):
        """Lets all nodes end. They end by themselves once their file is gone."""
        self.file.unlink(missing_ok=True)
        end = time.time() + 30
        while pids_of(self.ebin) and time.time() < end:
            time.sleep(0.1)
        for pid in pids_of(self.ebin):
            os.kill(pid, signal.SIGKILL)
        if self.trial:
            self.trial.wait(10)

    def faults(self):
        """Yields what is wrong in the images."""
        for at, image in enumerate(self.images):
            yield from self.faults_of(at, image)

    def faults_of(self, at, image):
        """Yields what is wrong in an image of a module."""
        report = subprocess.run([self.imem, "inspect", image], stdout=subprocess.PIPE, text=True).stdout
        found, windows = {}, {}
        for words in map(str.split, report.splitlines()):
            if words[0] == "cell":
                found[int(words[1])] = " ".join(words[2:])
            elif words[0] == "element":
                windows[int(words[1])] = f"base {words[3]} kept {words[5]}"
        for address, value in enumerate(wanted_cells(self.run)):
            told = found.get(CELL + address // self.run.modules, "empty")
            if address % self.run.modules == at and told != f"full {value}":
                yield f"cell {address}: {told}, not {value}"
        for element in range(1, self.run.elements + 1):
            many, told = asked(self.run, element)[at], windows.get(element)
            if many and told != f"base {many + 1} kept 0":
                yield f"element {element} at module {at}: {told}, not base {many + 1} kept 0"

    def is_logged(self, word):
        time.sleep(0.1)
        return any(word in log.read_text(errors="replace") for log in self.folder.glob("*.log"))

    def log_ends(self):
        for log in sorted(self.folder.glob("*.log")):
            yield f"{log.name}: .. {log.read_text(errors='replace')[-300:]}"


def took(cluster):
    """Returns the seconds from the first element's start to the last one's end."""
    return max(it[1] for it in cluster.done.values()) - min(it[0] for it in cluster.done.values())


def requests(run):
    return sum(asked(run, it).total() for it in range(1, run.elements + 1))
