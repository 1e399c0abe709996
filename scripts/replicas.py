"""Modules that are on three hosts or five, for `scripts/cluster --replicas`. A host is a node on a loopback address of a
network namespace of this run alone, with a small disk for its log. They are killed, halted, parted from one another, find
their disk full, or lose it; at the end each cell and window of each member is compared."""
import os
import random
import shutil
import signal
import subprocess
import tempfile
import time
import urllib.request
from collections import Counter
from pathlib import Path

import otp
from clusters import Cluster, Run, pids_of
from otp import atom
from sources import TOP

RATES = TOP / "scripts" / "baselines" / "imem_rates.erl"
CLIENTS, SECONDS = (1, 8, 32), 10  # of a rate

DISK = 192  # megabytes of a host's disk
ALIKE = 120  # seconds in which all members have to be alike once all is done
BAD = ["unexpected", "older_image", "wrong_log", "other_sizes", "unasked"]
KINDS = [
    *["leader's node", "a follower's node", "a program", "a program's freeze", "a node's freeze", "all nodes"],
    *["an element's node", "parted from all", "parted from the members", "deaf", "mute", "two parted", "halves", "full", "lost"],
]
WEIGHTS = [5, 5, 6, 3, 5, 1, 2, 3, 3, 3, 3, 3, 2, 2, 2]


def inside(script, words):
    """Starts a script anew in namespaces of its own for the network and for what is mounted."""
    start = "ip link set lo up && exec \"$@\""
    os.execvp("unshare", ["unshare", "-n", "-m", "sh", "-c", start, "sh", script, *words, "--inside"])


class Replicas(Cluster):
    """The nodes of a run. Each host has each module, and a disk of its own."""

    PAUSE, FREEZE = (0.1, 1.5), (0.3, 6)
    EVERY = 256  # lines between two snapshots

    def __init__(self, run, imem, folder, seconds, members):
        super().__init__(run, imem, folder, seconds)
        self.modules = [f"r{it}@127.0.66.{10 + it}" for it in range(members)]
        self.images = []
        self.memory = Path(tempfile.mkdtemp(prefix="imem-", dir="/dev/shm"))
        self.parted, self.full, self.unlike = [], {}, []

    def log(self, host):
        return self.folder / "logs" / host

    def make(self):
        self.compile()
        for host in self.modules:
            self.log(host).mkdir(parents=True)
            mount = ["mount", "-t", "tmpfs", "-o", f"size={DISK}m", "none", self.log(host)]
            subprocess.run(mount, check=True)
        self.write()
        for host in self.modules:
            self.member(host, "make")

    def placed(self, node):
        nodes = [atom(it) for it in self.modules]
        each = {"nodes": nodes, "sizes": self.sizes(), "snapshot_every": self.EVERY}
        modules = [{"module": at, **each} for at in range(self.run.modules)]
        here = {"log": self.log(node), "memory": self.memory} if node in self.modules else {}
        return {"modules": modules, **here}

    def environment(self, node):
        return self.even() if node in self.modules else {}

    def words(self, node):
        address = node.split("@")[1].replace(".", ",")
        more = ["-kernel", "inet_dist_connect_options", f"[{{ip,{{{address}}}}}]"]
        return super().words(node) + more + [word for it in otp.ra() for word in ("-pa", it)]

    def member(self, host, *words):
        """Does what is done by hand, `imem-member`, at a host. Returns its status and what it says."""
        flags = " ".join(f"'{it}'" for it in self.words("hand@127.0.66.5")[1:])
        env = {**os.environ, "HOME": str(self.folder), "IMEM_SERVER": str(self.folder), "ERL_FLAGS": flags}
        env["IMEM_CONFIG"] = str(self.folder / f"{host}.config")
        command = [TOP / "server" / "bin" / "imem-member", *words]
        try:
            ran = subprocess.run(command, env=env, cwd=self.folder, capture_output=True, text=True, timeout=60)
        except subprocess.TimeoutExpired:
            return 1, "nothing in a minute"
        return ran.returncode, ran.stdout + ran.stderr

    def leader(self, module):
        """Returns the host that was the last to lead a module, as the logs have it."""
        led = []
        for host in self.modules:
            try:
                text = (self.folder / f"{host}.log").read_text(errors="replace")
            except OSError:
                continue
            led += [(line.split()[0], host) for line in text.splitlines() if "leads a module" in line and f"module: {module}" in line]
        return max(led)[1] if led else self.modules[0]

    def program_of(self, host, module):
        image = self.image(host, module)
        return next(iter(pids_of("serve", image)), None)

    def image(self, host, module):
        return self.memory / f"imem-{host}" / str(module) / "image"

    # Strikes

    def strike(self):
        self.thaw(time.time())
        kind = random.choices(KINDS, WEIGHTS)[0]
        module = random.randrange(self.run.modules)
        leader = self.leader(module)
        followers = [it for it in self.modules if it != leader]
        host = leader if random.random() < 0.5 else random.choice(followers)
        if self.struck(kind, host, leader, followers, module):
            self.kills[kind] += 1

    def struck(self, kind, host, leader, followers, module):
        """Returns whether there was something to strike."""
        if kind == "leader's node":
            return self.hit(self.node_of(leader), signal.SIGKILL)
        if kind == "a follower's node":
            return self.hit(self.node_of(random.choice(followers)), signal.SIGKILL)
        if kind == "a program":
            return self.hit(self.program_of(host, module), signal.SIGKILL)
        if kind == "an element's node":
            return self.hit(self.node_of(random.choice(self.clients)), signal.SIGKILL)
        if kind == "all nodes":
            return any([self.hit(self.node_of(it), signal.SIGKILL) for it in self.modules])
        if kind == "a program's freeze":
            return self.hit(self.program_of(host, module), signal.SIGSTOP)
        if kind == "a node's freeze":
            return self.hit(self.node_of(host), signal.SIGSTOP)
        if kind == "full":
            return self.filled(host)
        if kind == "lost":
            return self.lost(random.choice(followers))
        return self.part(kind, host)

    def part(self, kind, host):
        """Parts hosts: each rule drops what comes from an address to another."""
        others = [it for it in self.modules if it != host]
        if kind == "parted from all":
            pairs = [pair for it in others + self.clients for pair in ((host, it), (it, host))]
        elif kind == "parted from the members":
            pairs = [pair for it in others for pair in ((host, it), (it, host))]
        elif kind == "deaf":
            pairs = [(it, host) for it in others + self.clients]
        elif kind == "mute":
            pairs = [(host, it) for it in others + self.clients]
        elif kind == "two parted":
            other = random.choice(others)
            pairs = [(host, other), (other, host)]
        else:
            half = {host, *random.sample(others, len(self.modules) // 2 - 1)}
            rest = [it for it in self.modules if it not in half]
            pairs = [pair for one in half for it in rest for pair in ((one, it), (it, one))]
        rules = [["-s", one.split("@")[1], "-d", other.split("@")[1], "-j", "DROP"] for one, other in pairs]
        for rule in rules:
            subprocess.run(["iptables", "-w", "-A", "INPUT", *rule], check=True)
        self.parted.append((time.time() + random.uniform(1, 12), rules))
        return True

    def filled(self, host):
        """Leaves a host's disk no room for a while."""
        if host in self.full:
            return False
        try:
            with open(self.log(host) / "filler", "wb") as file:
                while file.write(bytes(1 << 20)):
                    file.flush()
        except OSError:
            pass
        self.full[host] = time.time() + random.uniform(2, 10)
        return True

    def lost(self, host):
        """A host loses its disk: it is refused, and replaced by hand."""
        self.healed(time.time() + 3600)
        self.thaw(time.time() + 3600)
        if not self.hit(self.node_of(host), signal.SIGKILL):
            return False
        self.full.pop(host, None)
        for it in self.log(host).iterdir():
            shutil.rmtree(it) if it.is_dir() else it.unlink()
        begin = len(self.text(host))
        end = time.time() + 60
        while "no_name" not in self.text(host)[begin:] and time.time() < end:
            time.sleep(0.2)
        if "no_name" not in self.text(host)[begin:]:
            self.unlike.append(f"{host}: a host that lost its disk wasn't refused")
        for words in (("remove", host), ("make",), ("add", host)):
            self.by_hand(host, words)
        if not self.hit(self.node_of(host), signal.SIGKILL):  # It has ended, as it had nothing else to do.
            self.start_node(host).wait(60)
        return True

    def by_hand(self, host, words):
        """Does a step, again where no leader was there to do it."""
        for _ in range(8):
            status, said = self.member(host, *words)
            if status == 0 or "not_member" in said or "already_member" in said:
                return
            time.sleep(1)
        self.unlike.append(f"{host}: {' '.join(words)}: {said}")

    def text(self, host):
        try:
            return (self.folder / f"{host}.log").read_text(errors="replace")
        except OSError:
            return ""

    def thaw(self, now):
        super().thaw(now)
        self.healed(now)

    def healed(self, now):
        for it in [it for it in self.parted if it[0] <= now]:
            self.parted.remove(it)
            for rule in it[1]:
                subprocess.run(["iptables", "-w", "-D", "INPUT", *rule], check=True)
        for host in [it for it, until in self.full.items() if until <= now]:
            del self.full[host]
            (self.log(host) / "filler").unlink(missing_ok=True)

    # The end

    def stop(self):
        super().stop()
        for host in self.modules:
            subprocess.run(["umount", "-l", self.log(host)], stderr=subprocess.DEVNULL)
        shutil.rmtree(self.memory, ignore_errors=True)

    def faults(self):
        """Yields what is wrong in the members' images once all have had the time to be alike."""
        begin = time.time()
        while (found := list(self.unequal())) and time.time() < begin + ALIKE:
            time.sleep(0.5)
        self.alike_after = time.time() - begin
        yield from found
        yield from self.unlike
        for node in self.modules + self.clients:
            text = self.text(node)
            yield from (f"{node}: {text[text.index(it) :][:200]}" for it in BAD if it in text)

    def unequal(self):
        for host in self.modules:
            for module in range(self.run.modules):
                copy = self.folder / "copy"
                try:
                    shutil.copy(self.image(host, module), copy)
                except OSError:
                    yield f"{host}: no image of module {module}"
                    continue
                yield from (f"{host}: {fault}" for fault in self.faults_of(module, copy))
                copy.unlink()


def ran(run, imem, seconds, members):
    """Runs modules on several hosts to the end. Returns the nodes, and whether each member is exact."""
    folder = tempfile.mkdtemp(prefix="cluster-", dir=TOP / "out")
    nodes = Replicas(run, imem, folder, seconds, members)
    faults = []
    try:
        nodes.make()
        nodes.start()
        ended = nodes.wait()
        faults = list(nodes.faults()) if ended else [f"not done in {seconds} s: {len(nodes.done)} are", *nodes.unequal()]
    finally:
        nodes.stop()
    for line in [*faults[:20], *(nodes.log_ends() if faults else [])]:
        print(line, flush=True)
    if faults:
        print(f"what is left: {folder}")
    else:
        shutil.rmtree(folder)
    return nodes, not faults


def told(run, nodes, well, requests):
    many = f"{run.modules} module{'s' * (run.modules > 1)} on {len(nodes.modules)} hosts"
    twice = ", each twice at once" if run.twice else ""
    strikes = ", ".join(f"{count} {kind}" for kind, count in sorted(nodes.kills.items())) or "none"
    away = max((seconds for _, _, returns in nodes.done.values() for _, seconds in returns), default=0)
    end = f"each member exact {nodes.alike_after:.0f} s later" if well else "NOT AS IT SHOULD BE"
    return (
        f"{run.program[0]}, {many}, {run.elements} elements{twice}: {nodes.kills.total()} strikes ({strikes});"
        f" {requests:,} requests in {nodes.seconds:.0f} s; longest away {away:.1f} s: {end}"
    )


def summed(all_kills):
    return ", ".join(f"{count} {kind}" for kind, count in sorted(sum(all_kills, Counter()).items()))


# Rates


class Rated(Replicas):
    """Nodes that serve a module and have no elements, with logs and images on one disk: a copy on one host, or several."""

    EVERY = 4096

    def __init__(self, imem, folder, hosts):
        super().__init__(Run(("histogram", 64, 1, 1), 1, elements=64, loss=0, slots=4096), imem, folder, 600, hosts)
        self.clients = []

    def make(self):
        self.compile()
        subprocess.run(["erlc", "-pa", self.ebin, "-o", self.ebin, RATES], check=True)
        for host in self.modules:
            self.log(host).mkdir(parents=True)
        self.write()
        for host in self.modules if len(self.modules) > 1 else ():
            self.member(host, "make")
        subprocess.run([self.imem, "format", self.folder / "one.img", *self.sizes()], check=True)

    def given(self, node):
        several = {**self.placed(node), "listeners": []}
        one = {"modules": [{"node": atom(self.modules[0]), "image": self.folder / "one.img"}], "listeners": []}
        return {"imem": self.imem, **(several if len(self.modules) > 1 else one)}

    def sizes(self):
        return ["--cells", "4096", "--elements", "64", "--slots", "4096"]

    def rate(self, what, clients, where):
        words = [*self.words("rates@127.0.66.5"), "-noshell", "-s", "imem_rates", what, str(clients), str(SECONDS), *where]
        env = {**os.environ, "HOME": str(self.folder)}
        ran = subprocess.run(words, env=env, cwd=self.folder, capture_output=True, text=True, timeout=60 + SECONDS)
        found = ran.stdout.split()
        if found[:1] != ["rate"]:
            raise RuntimeError(f"{what}, {clients} clients: {(ran.stdout + ran.stderr)[-1000:]}")
        return [int(it) for it in found[1:]]


def etcd_started(folder, hosts):
    """Starts members of etcd on ports of this machine. Returns the processes, and the clients' ports."""
    ports = [2379 + 10 * it for it in range(hosts)]
    cluster = ",".join(f"e{it}=http://127.0.0.1:{port + 1}" for it, port in enumerate(ports))
    members = []
    for it, port in enumerate(ports):
        here, peer = f"http://127.0.0.1:{port}", f"http://127.0.0.1:{port + 1}"
        words = ["etcd", "--name", f"e{it}", "--data-dir", f"{folder}/e{it}", "--listen-client-urls", here, "--advertise-client-urls", here]
        words += ["--listen-peer-urls", peer, "--initial-advertise-peer-urls", peer, "--initial-cluster", cluster, "--log-level", "error"]
        members.append(subprocess.Popen(words, cwd=folder, stdout=subprocess.DEVNULL, stderr=subprocess.DEVNULL))
    for port in ports:
        wait_for(lambda port=port: b"true" in urllib.request.urlopen(f"http://127.0.0.1:{port}/health", timeout=2).read())
    return members, ports


def wait_for(is_so):
    end = time.time() + 60
    while time.time() < end:
        try:
            if is_so():
                return
        except OSError:
            pass
        time.sleep(0.2)
    raise RuntimeError("nothing answers")


def rates(imem, hosts):
    """Prints requests a second and latencies of one copy, of several, and of etcd, by as many clients."""
    print(f"| clients | one copy | {hosts} members | `etcd`, {hosts} members |\n|---|---|---|---|")
    found = {}
    for many in (1, hosts):
        folder = tempfile.mkdtemp(prefix="cluster-", dir=TOP / "out")
        nodes = Rated(imem, folder, many)
        members = []
        try:
            nodes.make()
            nodes.start()
            if many > 1:
                wait_for(lambda nodes=nodes: nodes.member(nodes.modules[0], "list")[1].count("open") == many)
            for clients in CLIENTS:
                found[many, clients] = nodes.rate("module", clients, nodes.modules)
            if many > 1 and shutil.which("etcd"):
                nodes.stop()
                members, ports = etcd_started(folder, hosts)
                for clients in CLIENTS:
                    found["etcd", clients] = nodes.rate("etcd", clients, map(str, ports))
        finally:
            nodes.stop()
            for it in members:
                it.kill()
                it.wait()
        shutil.rmtree(folder)
    for clients in CLIENTS:
        cells = [found.get((it, clients)) for it in (1, hosts, "etcd")]
        print(f"| {clients} |", " | ".join(f"{it[0]:,}; {it[1]:,} us, {it[2]:,}" if it else "-" for it in cells), "|")
    return True
