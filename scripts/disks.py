"""A disk with a volatile cache, for the virtual machines of scripts/power-cut: served over NBD by a thread of this process.

A second, small export takes records of the guest: calls of the program and lines that it prints. One thread serves both, so writes, flushes
and records stand in one order, the log. An entry of the log is one of

  Write(at, raw)    a write of the disk that was answered
  FLUSH             a flush that was answered: all that was answered before it is on the medium
  Record(..)        what the guest noted
"""
import mmap
import random
import selectors
import socket
import struct
import threading
from collections import namedtuple

SECTOR = 512
FLUSH = "flush"
Write = namedtuple("Write", "at raw")
Record = namedtuple("Record", "kind at raw file")
HEAD = struct.Struct("<4Q")  # of a record: its kind, a place, the length, the descriptor.

OPTION, REQUEST = struct.Struct(">8sII"), struct.Struct(">IHHQQI")
REPLIES_MAGIC, ANSWER_MAGIC, INFO, ACKNOWLEDGED, UNKNOWN = 0x3E889045565A9, 0x67446698, 3, 1, 1 << 31 | 1
READ, WRITE, DISCONNECT, SYNC, TRIM = range(5)
FLAGS = 1 | 4 | 32  # There are flags; flushes and trims are known. Instead of a forced write a client sends a write and a flush.
EIO = 5


def sectors(write):
    """Returns the sectors of a write, by their numbers."""
    return {(write.at + it) // SECTOR: write.raw[it : it + SECTOR] for it in range(0, len(write.raw), SECTOR)}


class Disk:
    """The sectors of a file, with layers of sectors above it: the uppermost that has one counts. `refuses`, if it is set, says of a request
    whether it fails; `noticed`, if it is set, is called behind each entry of the log."""

    def __init__(self, base, size):
        self.size, self.layers, self.top, self.log = size, [], {}, None
        self.refuses = self.noticed = None
        self.take(base)

    def take(self, base):
        with open(base, "rb") as file:
            self.base = mmap.mmap(file.fileno(), self.size, prot=mmap.PROT_READ)

    def note(self, entry):
        if self.log is not None:
            self.log.append(entry)
        if self.noticed:
            self.noticed()

    def read(self, at, length):
        if self.refuses and self.refuses(READ, at, b""):
            return None
        found = bytearray(self.base[at : at + length])
        for layer in filter(None, [*self.layers, self.top]):
            for it in range(0, length, SECTOR):
                if (sector := layer.get((at + it) // SECTOR)) is not None:
                    found[it : it + SECTOR] = sector
        return bytes(found)

    def write(self, at, raw):
        if self.refuses and self.refuses(WRITE, at, raw):
            return False
        write = Write(at, raw)
        self.top.update(sectors(write))
        self.note(write)
        return True

    def flush(self):
        if self.refuses and self.refuses(SYNC, 0, b""):
            return False
        self.note(FLUSH)
        return True


class Records:
    """The disk to which the guest writes records; each write is one."""

    size = 1 << 20

    def __init__(self, disk):
        self.disk, self.got = disk, []

    def read(self, at, length):
        return bytes(length)

    def write(self, at, raw):
        kind, place, length, file = HEAD.unpack_from(raw)
        record = Record(chr(kind), place, raw[HEAD.size : HEAD.size + length], file)
        self.got.append(record)
        self.disk.note(record)
        return True

    def flush(self):
        return True


class Server(threading.Thread):
    """Serves disks by their names over one socket. Requests that are there together are served flushes first, writes in an order of the
    dice: a drive may, as none of them was answered yet. Once `dead`, it answers nothing: the power is gone."""

    def __init__(self, path, disks, dice=None):
        super().__init__(daemon=True)
        self.disks, self.dice, self.dead, self.lock = disks, dice or random.Random(0), False, threading.RLock()
        path.unlink(missing_ok=True)
        self.listener = socket.socket(socket.AF_UNIX)
        self.listener.bind(str(path))
        self.listener.listen(8)
        self.waiting = selectors.DefaultSelector()
        self.waiting.register(self.listener, selectors.EVENT_READ)
        self.start()

    def run(self):
        while True:
            for key, _ in self.waiting.select():
                if key.data is None:
                    threading.Thread(target=self.greet, args=(self.listener.accept()[0],), daemon=True).start()
                else:
                    self.hear(*key.data)

    def hear(self, client, disk, heard):
        try:
            more = client.recv(1 << 20)
            heard += more
            if more:
                self.serve(client, disk, heard)
                return
        except OSError:
            pass
        self.waiting.unregister(client)
        client.close()

    def greet(self, client):
        """Agrees with a client on the disk that it wants."""
        def take(length):
            taken = b""
            while len(taken) < length:
                more = client.recv(length - len(taken))
                if not more:
                    raise ConnectionError
                taken += more
            return taken

        def tell(option, kind, raw=b""):
            client.sendall(struct.pack(">QIII", REPLIES_MAGIC, option, kind, len(raw)) + raw)

        try:
            client.sendall(b"NBDMAGICIHAVEOPT" + struct.pack(">H", 3))
            take(4)
            while True:
                _, option, length = OPTION.unpack(take(OPTION.size))
                raw = take(length)
                if option not in (6, 7):  # Neither a question about a disk nor the wish to go.
                    tell(option, UNKNOWN)
                    continue
                disk = self.disks[raw[4 : 4 + struct.unpack_from(">I", raw)[0]].decode()]
                tell(option, INFO, struct.pack(">HQH", 0, disk.size, FLAGS))
                tell(option, INFO, struct.pack(">HIII", 3, SECTOR, 4096, 1 << 25))
                tell(option, ACKNOWLEDGED)
                if option == 7:
                    break
        except (OSError, KeyError):
            client.close()
            return
        self.waiting.register(client, selectors.EVENT_READ, (client, disk, bytearray()))

    def serve(self, client, disk, heard):
        """Serves the whole requests that were heard of a client."""
        asked = []
        while len(heard) >= REQUEST.size:
            _, _, kind, handle, at, length = REQUEST.unpack_from(heard)
            end = REQUEST.size + (length if kind == WRITE else 0)
            if len(heard) < end:
                break
            asked.append((kind, handle, at, length, bytes(heard[REQUEST.size : end])))
            del heard[:end]
        self.dice.shuffle(asked)
        asked.sort(key=lambda it: it[0] != SYNC)
        with self.lock:
            for kind, handle, at, length, raw in asked:
                if self.dead:
                    return
                if kind == DISCONNECT:
                    raise ConnectionError
                found, well = b"", kind == TRIM  # A trim is advice; it changes nothing here.
                if kind == READ:
                    found = disk.read(at, length)
                    well = found is not None
                elif kind == WRITE:
                    well = disk.write(at, raw)
                elif kind == SYNC:
                    well = disk.flush()
                if not self.dead:
                    client.sendall(struct.pack(">IIQ", ANSWER_MAGIC, 0 if well else EIO, handle) + (found or b""))
