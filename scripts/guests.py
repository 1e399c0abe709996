"""The virtual machines of scripts/power-cut: their first file system, and two kinds of machine.

`Machine` is a kernel of Debian's in qemu, with the disks of a `disks.Server`: its programs are recorded, cut and refused there. `Mounter` is a
user-mode Linux, whose disk is a file in memory: it mounts one state of a disk after another, quickly. Both run scripts/power/agent.c as their
first process. Neither needs root, a module or a mount of the host.
"""
import ctypes
import mmap
import os
import re
import select
import shutil
import signal
import socket
import stat
import subprocess
import tempfile
import time
from pathlib import Path

import disks

MODULES = ["crc32c_generic", "crc32_generic", "xxhash_generic", "blake2b_generic", "sha256_generic", "virtio_pci", "virtio_blk", "ext4", "xfs", "btrfs", "f2fs"]
BUSYBOX = Path("/bin/busybox")
READY = re.compile(rb"(?:^|\n)#(\w+)\r?\n")
CHUNK = 1 << 16


def ends_with_us():
    """Has a child end when this process does, in whatever way."""
    ctypes.CDLL(None).prctl(1, signal.SIGKILL)


class Off(Exception):
    """The machine is off, or doesn't answer."""


def modules_in(folder):
    """Returns the modules of a kernel that are wanted, each behind those that it needs."""
    paths = {it.stem.replace("-", "_"): it for it in folder.rglob("*.ko")}
    order = []

    def add(name):
        path = paths.get(name.replace("-", "_"))
        if path is None or path in order:
            return
        for needed in re.findall(rb"\0(?:softdep=pre: |depends=)([^\0]*)", path.read_bytes()):
            for it in filter(None, re.split("[, ]+", needed.decode())):
                add(it)
        if path not in order:
            order.append(path)

    for name in MODULES:
        add(name)
    return order


def archive(entries):
    """Returns a cpio archive of entries, each a name, a mode and bytes."""
    parts = []
    for number, (name, mode, raw) in enumerate([*entries, ("TRAILER!!!", 0, b"")], 1):
        fields = (number, mode, 0, 0, 1, 0, len(raw), 0, 0, 0, 0, len(name) + 1, 0)
        head = ("070701" + "".join(f"{it:08x}" for it in fields)).encode() + name.encode() + b"\0"
        parts += [head, bytes(-len(head) % 4), raw, bytes(-len(raw) % 4)]
    return b"".join(parts)


def first_files(kernel, files):
    """Returns the archive of a guest's first file system: busybox, the modules of a kernel, and these files with the libraries that they need."""
    entries = {"bin/busybox": (stat.S_IFREG | 0o755, BUSYBOX.read_bytes())}
    for name in subprocess.run([BUSYBOX, "--list"], capture_output=True, text=True, check=True).stdout.split():
        entries.setdefault(f"bin/{name}", (stat.S_IFLNK | 0o777, b"busybox"))
    modules = modules_in(kernel)
    for path in modules:
        entries[f"mod/{path.name}"] = (stat.S_IFREG | 0o644, path.read_bytes())
    entries["modules.list"] = (stat.S_IFREG | 0o644, "".join(f"/mod/{it.name}\n" for it in modules).encode())
    for name, path in files.items():
        raw = Path(path).read_bytes()
        entries[name] = (stat.S_IFREG | 0o755, raw)
        needs = subprocess.run(["ldd", path], capture_output=True, text=True).stdout if raw.startswith(b"\x7fELF") else ""
        for library in re.findall(r"(/\S+) \(", needs):
            entries[library[1:]] = (stat.S_IFREG | 0o755, Path(library).read_bytes())
    folders = {"m", "t", "dev", "proc", "sys"} | {"/".join(it.split("/")[:at]) for it in entries for at in range(1, it.count("/") + 1)}
    return archive([(it, stat.S_IFDIR | 0o755, b"") for it in sorted(folders)] + [(name, *rest) for name, rest in entries.items()])


class Line:
    """Lines to a guest's first process, and what it answers."""

    def __init__(self):
        self.heard = b""

    def wait(self, seconds):
        """Returns the status of the line that was sent, and what was printed."""
        end = time.time() + seconds
        while not (met := READY.search(self.heard)):
            if time.time() > end:
                raise Off(f"no answer in {seconds} seconds: {self.heard[-200:]!r}")
            more = self.hear(max(0.1, end - time.time()))
            if more == b"":
                raise Off("the machine is off")
            self.heard += more or b""
        printed, self.heard = self.heard[: met.start()], self.heard[met.end() :]
        return met[1].decode(), printed.decode("latin-1")

    def ask(self, words, seconds=300):
        self.send(words.encode() + b"\n")
        status, printed = self.wait(seconds)
        return int(status), printed


class Machine(Line):
    """A machine in qemu. With `kept` it continues from the state that `keep` left there, else it boots."""

    def __init__(self, room, kernel, server, kept=None, memory=384):
        super().__init__()
        self.room, self.place = room, room / f"line{os.getpid()}-{id(self)}"
        self.monitored = Path(f"{self.place}m")
        words = ["qemu-system-x86_64", "-accel", "tcg,thread=single", "-cpu", "max", "-m", str(memory), "-M", "q35", "-display", "none", "-nodefaults", "-no-reboot"]
        words += ["-kernel", kernel, "-initrd", room / "first", "-append", "console=ttyS0 panic=-1 quiet mitigations=off tsc=reliable"]
        words += ["-chardev", f"file,id=console,path={room}/console,append=on", "-serial", "chardev:console"]
        words += ["-chardev", f"socket,id=line,path={self.place},server=on,wait=off", "-serial", "chardev:line"]
        words += ["-chardev", f"socket,id=monitor,path={self.monitored},server=on,wait=off", "-mon", "chardev=monitor,mode=readline"]
        for name in ("disk", "records"):
            words += ["-drive", f"if=none,id={name},file=nbd+unix:///{name}?socket={server},format=raw,cache=writeback", "-device", f"virtio-blk-pci,drive={name}"]
        words += ["-incoming", f"exec:cat {kept}"] if kept else []
        with open(room / "qemu.err", "a") as errors:
            self.process = subprocess.Popen(list(map(str, words)), stdin=subprocess.DEVNULL, stdout=subprocess.DEVNULL, stderr=errors, preexec_fn=ends_with_us)
        self.line = self.reach(self.place)
        if not kept:
            self.wait(300)
            return
        while "inmigrate" in (said := self.monitor("info status")) or "paused" not in said:
            time.sleep(0.05)
        self.monitor("cont")
        self.ask("blockdev --flushbufs /dev/vda")

    def reach(self, path):
        end = time.time() + 300
        while time.time() < end and self.process.poll() is None:
            try:
                reached = socket.socket(socket.AF_UNIX)
                reached.connect(str(path))
                return reached
            except OSError:
                reached.close()
                time.sleep(0.02)
        raise Off((self.room / "qemu.err").read_text()[-300:])

    def monitor(self, words):
        with self.reach(self.monitored) as monitor:
            monitor.settimeout(300)
            for sent in (None, words.encode() + b"\n"):
                if sent:
                    monitor.sendall(sent)
                said = b""
                while b"(qemu)" not in said:
                    said += monitor.recv(CHUNK)
        return said.decode("latin-1")

    def keep(self, path):
        """Keeps the running machine, so that others needn't boot, and ends it."""
        self.ask("echo 3 > /proc/sys/vm/drop_caches")
        self.monitor("stop")
        self.monitor(f'migrate "exec:cat > {self.place}.new"')
        while "completed" not in self.monitor("info migrate"):
            time.sleep(0.1)
        os.replace(f"{self.place}.new", path)
        self.cut()

    def hear(self, seconds):
        self.line.settimeout(seconds)
        try:
            return self.line.recv(CHUNK)
        except TimeoutError:
            return None
        except OSError:
            return b""

    def send(self, raw):
        try:
            self.line.sendall(raw)
        except OSError as error:
            raise Off("the machine is off") from error

    def cut(self):
        """The power goes."""
        self.process.send_signal(signal.SIGKILL)
        self.process.wait()
        self.line.close()
        for path in (self.place, self.monitored):
            path.unlink(missing_ok=True)


class Mounter(Line):
    """A user-mode Linux that mounts states of a disk. What a mount writes is taken back. Into it scripts/power/registers.c is preloaded."""

    def __init__(self, room, program, preloaded, size):
        super().__init__()
        self.room, self.program, self.preloaded, self.size = room, program, preloaded, size
        self.folder = Path(tempfile.mkdtemp(prefix="power-", dir="/dev/shm"))
        self.files = [open(self.folder / name, "w+b") for name in ("state", "kept")]
        for file in self.files:
            file.truncate(size)
        self.maps = [mmap.mmap(file.fileno(), size) for file in self.files]
        self.places = [ctypes.addressof(ctypes.c_char.from_buffer(it)) for it in self.maps]
        self.c, self.process = ctypes.CDLL(None), None
        self.boot()

    def boot(self):
        self.stop()
        words = [self.program, "mem=256M", f"initrd={self.room}/first.uml", f"ubd0={self.folder}/state", "con=null", "con0=null", "ssl=null"]
        words += ["ssl0=fd:0,fd:1", f"uml={self.folder}", "quiet"]
        with open(self.room / "uml.err", "a") as errors:
            more = {"stdin": subprocess.PIPE, "stdout": subprocess.PIPE, "stderr": errors, "env": {**os.environ, "LD_PRELOAD": str(self.preloaded)}}
            self.process = subprocess.Popen(list(map(str, words)), start_new_session=True, preexec_fn=ends_with_us, **more)
        self.heard = b""
        self.wait(120)

    def stop(self):
        if self.process:
            try:
                os.killpg(self.process.pid, signal.SIGKILL)
            except ProcessLookupError:
                pass
            self.process.wait()

    def end(self):
        self.stop()
        shutil.rmtree(self.folder)

    def hear(self, seconds):
        out = self.process.stdout.fileno()
        return os.read(out, CHUNK) if select.select([out], [], [], seconds)[0] else None

    def send(self, raw):
        try:
            self.process.stdin.write(raw)
            self.process.stdin.flush()
        except OSError as error:
            raise Off("the machine is off") from error

    def parts(self, file):
        """Yields the places and lengths of a file's bytes that aren't holes."""
        at = 0
        while at < self.size:
            try:
                start = os.lseek(file, at, os.SEEK_DATA)
            except OSError:
                return
            at = os.lseek(file, start, os.SEEK_HOLE)
            yield from ((it, min(CHUNK, at - it)) for it in range(start, at, CHUNK))

    def load(self, base, layer):
        """Takes a file with these sectors above it for the disk."""
        for file in self.files:
            file.truncate(0)
            file.truncate(self.size)
        with open(base, "rb") as file:
            for at, length in self.parts(file.fileno()):
                raw = os.pread(file.fileno(), length, at)
                if raw.strip(b"\0"):
                    for it in self.maps:
                        it[at : at + length] = raw
        self.advance(layer)

    def advance(self, layer):
        """Puts these sectors on the disk for good."""
        for number, raw in layer.items():
            for it in self.maps:
                it[number * disks.SECTOR : (number + 1) * disks.SECTOR] = raw

    def take_back(self):
        """Takes back what was written since `advance`, also where a discard made a hole."""
        one, other = self.places
        for file in self.files:
            for at, length in self.parts(file.fileno()):
                if self.c.memcmp(ctypes.c_void_p(one + at), ctypes.c_void_p(other + at), ctypes.c_size_t(length)):
                    ctypes.memmove(one + at, other + at, length)

    def lay(self, layer):
        """Puts these sectors on the disk until `take_back`."""
        for number, raw in layer.items():
            self.maps[0][number * disks.SECTOR : (number + 1) * disks.SECTOR] = raw

    def packed(self, system, options, folder, layer):
        """Mounts the disk with these sectors above it. Returns the status, what was said, and a folder as an archive of tar."""
        self.lay(layer)
        raw = b""
        try:
            status, said = self.ask(f"mount {system} {options}", 120)
            if status == 0:
                status, said = self.ask(f"tar cf /h/out -C /m {folder}", 120)
                raw = (self.folder / "out").read_bytes()
                if self.ask("umount", 120)[0]:
                    self.boot()
        except Off as off:
            self.boot()
            status, said = -1, f"the machine that mounts it fell: {off}"
        self.take_back()
        return status, said, raw

    def probe(self, system, options, names, layer, mended_by=()):
        """Mounts the disk with these sectors above it, mended by a command first. Returns the status, what was said, and the files: bytes, None, or
        an error's number."""
        self.lay(layer)
        if mended_by:
            subprocess.run([*mended_by, self.folder / "state"], stdin=subprocess.DEVNULL, stdout=subprocess.DEVNULL, stderr=subprocess.DEVNULL)
        found = {}
        try:
            status, said = self.ask(f"probe {system} {options}|{' '.join(names)}", 120)
        except Off as off:
            self.boot()
            status, said = -1, f"the machine that mounts it fell: {off}"
        if "umount failed" in said:
            self.boot()
        if status == 0:
            raw, at = (self.folder / "out").read_bytes(), 0
            for name in names:
                end = raw.index(b"\n", at)
                _, error, length = raw[at:end].split()
                at = end + 1 + int(length)
                found[name] = file_of(int(error), raw[end + 1 : at])
        self.take_back()
        return status, said, found


def file_of(error, raw):
    """What a guest says of a file: its bytes, None if it isn't there, or else the number of an error."""
    return raw if error == 0 else None if error == 2 else error


def shown(machine, records, names):
    """Has a machine show files of its disk, by records. Returns them as `Mounter.probe` does."""
    if not names:
        return {}
    records.got.clear()
    status, said = machine.ask("show " + " ".join(names))
    if status:
        raise Off(said)
    found, name = {}, None
    for kind, at, raw, _ in records.got:
        if kind == "R":
            found[name] += raw
        else:
            name = raw.decode()
            found[name] = b"" if kind == "L" else file_of(at, b"")
    return found
