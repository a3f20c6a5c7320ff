"""The daemon and the tool that make build leaves, or DAEMON and TOOL from the environment, and the link; a daemon that is started
and ended, and a quorum at the other end of its link."""
import os
import shlex
import socket
import struct
import subprocess
import sys
import threading
import time

from lib import ROOT, client
from lib.frames import end_of, frame

DAEMON = shlex.split(os.environ.get("DAEMON", f"{ROOT}/bin/kr_daemon"))
LINK = [sys.executable, f"{ROOT}/tools/quorum/link"]
TOOL = shlex.split(os.environ.get("TOOL", f"{ROOT}/bin/kr_tool"))


def free_port():
    with socket.socket() as one:
        one.bind(("127.0.0.1", 0))
        return one.getsockname()[1]


def is_open(address):
    """Whether somebody listens there."""
    host, _, port = address.rpartition(":")
    with socket.socket() as one:
        return one.connect_ex((host, int(port))) == 0


class Daemon:
    """A daemon that is started with these further words, with the lines of its standard error."""

    def __init__(self, more):
        self.address = f"127.0.0.1:{free_port()}"
        words = DAEMON + ["--listen", self.address, "--node", "1", "--cluster", "c1", "--salt", "7"] + more
        self.process = subprocess.Popen(words, stdout=subprocess.PIPE, stderr=subprocess.PIPE, text=True)
        self.lines = []
        if self.process.stdout.readline() != "listening\n":
            raise SystemExit("the daemon doesn't listen")
        threading.Thread(target=self.listen, daemon=True).start()

    def listen(self):
        for line in self.process.stderr:
            self.lines.append(line.rstrip("\n"))

    def told(self, text):
        """How many lines told this so far."""
        return sum(text in line for line in self.lines)

    def memory(self, name="VmRSS"):
        """A number of /proc/PID/status, in KiB."""
        with open(f"/proc/{self.process.pid}/status") as status:
            return next(int(line.split()[1]) for line in status if line.startswith(name + ":"))

    def __enter__(self):
        return self

    def __exit__(self, *_):
        self.process.kill()
        self.process.wait()


def with_daemon(more, use):
    """What `use` makes of the address of a daemon that is started with these further words."""
    address = f"127.0.0.1:{free_port()}"
    words = DAEMON + ["--listen", address, "--node", "1", "--cluster", "c1", "--salt", "7"] + more
    daemon = subprocess.Popen(words, stdout=subprocess.PIPE)
    try:
        if daemon.stdout.readline() != b"listening\n":
            raise SystemExit("the daemon doesn't listen")
        return use(address)
    finally:
        daemon.kill()
        daemon.wait()


def ask_all(address, messages):
    """The replies to the messages, once the daemon leads."""
    one = client.Connection(address)
    until_it_leads(one)
    return [one.ask(message) for message in messages]


def until_it_leads(connection):
    """A write that changes nothing is refused on standby."""
    asked = client.request_of("alter x=y --dry")
    message = asked.message()
    while asked.told(connection.ask(message))[0][0] == client.NOT_CONTROLLER:
        time.sleep(0.01)


def epoch_of(broker, connection):
    """The epoch of a broker, which is registered."""
    asked = client.request_of(f"register {broker}")
    return asked.response(connection.ask(asked.message()))["brokerEpoch"]


class Quorum(threading.Thread):
    """The other end of a link: leads, commits each append, and keeps what it sent and what it got, in order."""

    def __init__(self):
        super().__init__(daemon=True)
        self.listener = socket.create_server(("127.0.0.1", 0))
        self.address = "127.0.0.1:%d" % self.listener.getsockname()[1]
        self.batches, self.refused = [], []

    def run(self):
        link = self.listener.accept()[0]
        link.sendall(frame(2, struct.pack(">iqq", 1, 0, int(time.time() * 1000))))
        data = b""
        while True:
            while len(data) >= 4 and len(data) >= 4 + struct.unpack_from(">I", data)[0]:
                size = 4 + struct.unpack_from(">I", data)[0]
                self.take(link, data[4], data[5:size])
                data = data[size:]
            try:
                piece = link.recv(65536)
            except OSError:
                return
            if not piece:
                return
            data += piece

    def take(self, link, kind, body):
        if kind == 0x81:
            self.batches.append(body)
            link.sendall(frame(3, struct.pack(">iq", 1, end_of(body))))
        else:
            self.refused.append(body)
