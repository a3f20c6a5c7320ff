"""Members of etcd, daemons and their links on this machine, in a folder of their own: what cluster and torture start and end."""
import os
import random
import shlex
import shutil
import signal
import socket
import subprocess
import sys
import time

from lib import ROOT, client
from lib.batches import look
from lib.daemon import DAEMON, LINK, TOOL, is_open
from lib.gateway import Gateway
from lib.store import Unknown
from pibranog.door import program

ETCD = shlex.split(os.environ.get("ETCD", "etcd"))
QUORUM = f"{ROOT}/tools/quorum"
LEASE = 5                # seconds, as a link takes it by itself
SOON = 30                # seconds after which what hasn't come counts as lost
PREFIX = b"/pibranog/"   # of the keys, as a link takes it by itself
CLUSTER, SALT = "c1", 7


class Patience:
    """How long it is waited for what is to come."""
    seconds = SOON


patience = Patience()


class Failed(Exception):
    """Something didn't hold, or not in time."""


def missing_program(wants_etcd=True):
    """What isn't there to start with, in words; None where nothing lacks."""
    if wants_etcd and not shutil.which(ETCD[0]):
        return "etcd isn't on the PATH: install it (Debian: apt-get install etcd-server) and run this again"
    for name in (DAEMON[0], TOOL[0], program()[0]):
        if not shutil.which(name):
            return f"{name} isn't there: make build makes it; or name another one by DAEMON, TOOL and KR_DOOR"
    return None


def end_by_signals():
    """SIGTERM and SIGINT end this program as an exit does, so that what it started is ended too."""
    for ending in (signal.SIGTERM, signal.SIGINT):
        signal.signal(ending, lambda number, _: sys.exit(128 + number))


def free_ports(count):
    """Ports that nobody has, below those that the system gives to connections of its own."""
    found = []
    for port in random.sample(range(20000, 32000), 2000):
        with socket.socket() as one:
            if one.connect_ex(("127.0.0.1", port)):
                found.append(port)
        if len(found) == count:
            return found
    raise Failed("no ports are free")


def until(what, holds):
    """How long it took until it held."""
    began = time.monotonic()
    while time.monotonic() - began < patience.seconds:
        if holds():
            return time.monotonic() - began
        time.sleep(0.02)
    raise Failed(f"not within {patience.seconds} seconds: {what}")


class Processes:
    """What was started, with its lines in files of the folder."""

    def __init__(self, folder):
        self.folder, self.all = folder, []

    def start(self, name, command):
        with open(f"{self.folder}/{name}.log", "ab") as log:
            one = subprocess.Popen(command, stdin=subprocess.DEVNULL, stdout=log, stderr=subprocess.STDOUT, cwd=self.folder)
        self.all.append(one)
        return one

    def said(self, name):
        if not os.path.exists(f"{self.folder}/{name}.log"):
            return ""
        with open(f"{self.folder}/{name}.log", encoding="utf-8", errors="replace") as log:
            return log.read()

    def end(self):
        for one in self.all:
            if one.poll() is None:
                one.kill()
        for one in self.all:
            one.wait()


class Members:
    """The members of one etcd. A member that was killed can be started again, over what it had on its disk."""

    def __init__(self, processes, count=3):
        ports = free_ports(2 * count)
        self.processes = processes
        self.clients = [f"127.0.0.1:{port}" for port in ports[:count]]
        self.peers = [f"http://127.0.0.1:{port}" for port in ports[count:]]
        self.all = [self._started(at) for at in range(count)]

    def _started(self, at):
        every = ",".join(f"m{other}={peer}" for other, peer in enumerate(self.peers))
        return self.processes.start(f"member{at}", ETCD + [
            "--name", f"m{at}", "--data-dir", f"{self.processes.folder}/m{at}", "--initial-cluster", every,
            "--listen-client-urls", f"http://{self.clients[at]}", "--advertise-client-urls", f"http://{self.clients[at]}",
            "--listen-peer-urls", self.peers[at], "--initial-advertise-peer-urls", self.peers[at]])

    def start(self, at):
        self.all[at] = self._started(at)

    def until_they_answer(self):
        etcd = Gateway(self.clients)

        def answers():
            try:
                look(etcd, PREFIX)
                return True
            except Unknown:
                return False
        return until("the members answer", answers)

    def leader(self):
        """The number of the member that leads the others."""
        for at, address in enumerate(self.clients):
            try:
                status = Gateway([address]).call("maintenance/status", {})
                if status.get("leader") == status["header"]["member_id"]:
                    return at
            except Unknown:
                pass
        return 0


class Node:
    """A daemon and its link. The daemon connects to `dial`, which is its link where nothing is set between them; the link to
    `members`, addresses of etcd's members, or to a file, whose path these are then."""

    def __init__(self, number, processes, members, link=LINK, lease=LEASE, daemon=DAEMON):
        self.number, self.processes, self.members, self.lease = number, processes, members, lease
        self.link_command, self.daemon_command = link, daemon
        port, link_port = free_ports(2)
        self.address, self.link_address = f"127.0.0.1:{port}", f"127.0.0.1:{link_port}"
        self.dial, self.daemon, self.link = self.link_address, None, None

    def start_link(self):
        """Until it listens, or has ended: a fault may end it at once, and who looks after it starts it again."""
        store = ["--file", self.members] if isinstance(self.members, str) else ["--etcd", ",".join(self.members)]
        words = ["--listen", self.link_address, *store, "--name", f"node {self.number}"]
        name = f"link{self.number}"
        before = self.processes.said(name).count("listening")
        self.link = self.processes.start(name, self.link_command + words + ["--lease", str(self.lease)])
        until(f"link {self.number} listens", lambda: self.link.poll() is not None or self.processes.said(name).count("listening") > before)

    def start_daemon(self):
        """Until it listens, or has ended, as start_link."""
        words = ["--listen", self.address, "--node", str(self.number), "--cluster", CLUSTER, "--salt", str(SALT)]
        words += ["--link", self.dial, "--clients", "16"]
        self.daemon = self.processes.start(f"daemon{self.number}", self.daemon_command + words)
        until(f"daemon {self.number} listens", lambda: self.daemon.poll() is not None or is_open(self.address))

    def ask(self, words):
        """The reply to a request of tools/client: each line of it, with its error."""
        asked = client.request_of(words)
        return asked.told(client.Connection(self.address, SOON).ask(asked.message()))

    def leads(self):
        try:
            return self.ask("alter x=y --dry")[0][0] == 0
        except client.NoReply:
            return False

    def shows(self):
        """Brokers, topics and partitions, in words."""
        return "\n".join(line for _, line in self.ask("describe"))
