"""Measures this store beside SQLite, LMDB and RocksDB, for `scripts/bench --peers`: what each does is timed by one
program (baselines/peers). Each sync takes the same time, by a library that counts them, and files are in memory, so the
machine's disk doesn't count. What a peer needs to be built is Debian's libsqlite3-dev, liblmdb-dev, librocksdb-dev."""
import os
import shutil
import subprocess
import tempfile
from pathlib import Path

from sources import TOP

PEERS = TOP / "scripts" / "baselines" / "peers"
LIBRARY = TOP / "out" / "libluntrebis.a"
OTHERS = {"SQLite": ("sqlite", "sqlite3"), "LMDB": ("lmdb", "lmdb"), "RocksDB": ("rocksdb", "rocksdb")}
SYNC_US = "300"
ROUNDS = 3

# What is done, by how many, and how it is called. 12,288 commands are three journals of 4,096 slots.
KINDS = {
    "a number put": ("single", 2_000),
    "16 together": ("together", 1_000),
    "a number, by 16 threads": ("threads", 4_000),
    "the same, past a full journal": ("threads", 12_288),
}
OPENED = 4_000


class Peers:
    """The programs, in a folder, and where their files are."""

    def __init__(self, folder):
        self.folder = Path(folder)
        self.files = Path(tempfile.mkdtemp(prefix="peers-", dir="/dev/shm" if Path("/dev/shm").is_dir() else folder))
        self.sync = self.folder / "sync.so"
        self.compile(["-shared", "-fPIC", PEERS / "sync.c"], self.sync).check_returncode()
        self.programs = {"this": self.build("this", [f"-I{TOP}/include", LIBRARY])}
        self.programs |= {name: self.build(source, [f"-l{library}"]) for name, (source, library) in OTHERS.items()}
        self.programs = {name: program for name, program in self.programs.items() if program}

    def compile(self, words, to):
        words = ["gcc", "-O2", "-Wall", "-Wextra", "-D_GNU_SOURCE", *words, "-pthread", "-o", to]
        return subprocess.run([str(it) for it in words], capture_output=True, text=True)

    def build(self, name, more):
        """Returns the program of a store, or None if the store isn't installed."""
        made = self.folder / f"peer_{name}"
        ran = self.compile([PEERS / "main.c", PEERS / f"{name}.c", *more], made)
        if ran.returncode and name == "this":
            raise RuntimeError(f"scripts/baselines/peers/this.c over out/libluntrebis.a: {ran.stderr[-1000:]}")
        return None if ran.returncode else made

    def fresh(self):
        """Returns a path at which nothing exists."""
        shutil.rmtree(self.files, ignore_errors=True)
        self.files.mkdir()
        return self.files / "it"

    def run(self, name, kind, count, path, sync):
        """Returns the nanoseconds and the syncs of what a store did."""
        environment = {**os.environ, "LD_PRELOAD": str(self.sync), "SYNC_US": sync}
        ran = subprocess.run([self.programs[name], kind, str(count), path], env=environment, capture_output=True, text=True, timeout=300)
        if ran.returncode:
            raise RuntimeError(f"{name} {kind}: status {ran.returncode} {ran.stderr[-300:]}")
        return [float(it) for it in ran.stdout.split()]

    def opened(self, name, sync):
        """Returns the same of an opening behind a kill."""
        path = self.fresh()
        self.run(name, "fill", OPENED, path, "0")
        return self.run(name, "open", OPENED, path, sync)

    def least(self, do):
        """Returns the least time of some rounds of all stores in turn, and the syncs, by the stores' names."""
        rounds = [{name: do(name) for name in self.programs} for _ in range(ROUNDS)]
        return {name: min(it[name] for it in rounds) for name in self.programs}


def told(found):
    """Returns this store's time with its syncs, and the parts of the others' times that it is."""
    mine, syncs = found["this"]
    others = [f"{mine / time:.2f} of {name}'s ({theirs:.2f})" for name, (time, theirs) in found.items() if name != "this"]
    return "; ".join([f"{mine / 1000:.1f} us ({syncs:.2f})", *others])


def rows(folder):
    """Yields what was done, and what was measured: the time and the syncs of this store, and of the others."""
    peers = Peers(folder)
    try:
        for sync, how in ((SYNC_US, f"each sync {SYNC_US} us"), ("0", "syncs that take no time")):
            for what, (kind, count) in KINDS.items():
                yield f"{what}, {how}", told(peers.least(lambda name: peers.run(name, kind, count, peers.fresh(), sync)))
            yield f"opening behind {OPENED:,} puts, {how}", told(peers.least(lambda name: peers.opened(name, sync)))
    finally:
        shutil.rmtree(peers.files, ignore_errors=True)
