"""A node that keeps its log in a file of this machine: a link with a file (tools/quorum/link) and the daemon over it, started and
ended together; what ends by itself is started again."""
import os
import random
import signal
import subprocess
import threading
import time

from lib.daemon import LINK, free_port, is_open

PAUSE = 0.5              # seconds before what ended is started again
GRACE = 5                # seconds in which a link that is told to end does


def settings(folder, **asked):
    """What the node is, as the folder keeps it from its first start on (meta.properties): node, cluster and salt."""
    path = f"{folder}/meta.properties"
    if os.path.exists(path):
        with open(path, encoding="utf-8") as file:
            kept = dict(line.rstrip("\n").split("=", 1) for line in file if "=" in line)
        for name, value in asked.items():
            if value is not None and str(value) != kept[name]:
                raise SystemExit(f"{path} has {name}={kept[name]}, and {value} was asked for")
        return kept
    kept = {"node": str(asked["node"] or 1), "cluster": asked["cluster"] or "c1", "salt": str(asked["salt"] or random.randrange(1, 1 << 63))}
    with open(f"{path}.new", "w", encoding="utf-8") as file:
        file.writelines(f"{name}={value}\n" for name, value in kept.items())
        file.flush()
        os.fsync(file.fileno())
    os.rename(f"{path}.new", path)
    return kept


def send(one, number):
    """A signal to a process and what it started."""
    try:
        os.killpg(one.pid, number)
    except ProcessLookupError:
        pass


class Node:
    """The two processes, each with its lines handed to `say`."""

    def __init__(self, daemon, folder, address, kept, say):
        self.address, self.say = address, say
        self.folder = folder = os.path.abspath(folder)
        self.link = f"127.0.0.1:{free_port()}"
        self.commands = {
            "link": LINK + ["--listen", self.link, "--file", f"{folder}/log", "--name", f"node {kept['node']}",
                             "--status", f"{folder}/status.json"],
            "daemon": daemon + ["--listen", address, "--node", kept["node"], "--cluster", kept["cluster"], "--salt", kept["salt"], "--link", self.link],
        }
        self.running, self.listening = {}, threading.Event()

    def start(self):
        """The link first, until it listens: the daemon connects once."""
        self.listening.clear()
        for name in self.commands:
            self.start_one(name)
            while name == "link" and self.running[name].poll() is None and not self.listening.wait(0.1):
                pass

    def start_one(self, name):
        # A group of its own: Ctrl-C is for who started them, and whatever a command starts ends with it.
        one = subprocess.Popen(self.commands[name], stdin=subprocess.DEVNULL, stdout=subprocess.PIPE, stderr=subprocess.STDOUT,
                               text=True, start_new_session=True)
        self.running[name] = one
        self._note()
        threading.Thread(target=self._tell, args=(name, one), daemon=True).start()

    def _note(self):
        """The numbers of all processes stand in the folder."""
        try:
            with open(f"{self.folder}/pids.new", "w", encoding="ascii") as file:
                file.writelines(f"{number}\n" for number in (os.getpid(), *(one.pid for one in self.running.values() if one.poll() is None)))
            os.rename(f"{self.folder}/pids.new", f"{self.folder}/pids")
        except OSError as fault:
            self.say(f"the process numbers aren't written: {fault}")

    def _tell(self, name, one):
        for line in one.stdout:
            self.say(f"{name}: {line.rstrip()}")
            if name == "link" and line == "listening\n":
                self.listening.set()

    def revive(self):
        """Starts again what ended; a daemon ends with its link."""
        for name, one in self.running.items():
            if one.poll() is not None:
                self.say(f"{name}: ended with status {one.returncode}, and is started again")
        if self.running["link"].poll() is not None:
            self.end()
            time.sleep(PAUSE)
            self.start()
        elif self.running["daemon"].poll() is not None:
            time.sleep(PAUSE)
            self.start_one("daemon")

    def is_up(self):
        return all(one.poll() is None for one in self.running.values()) and is_open(self.address)

    def kill(self):
        """As a crash does: nothing is said to anybody."""
        for one in self.running.values():
            send(one, signal.SIGKILL)
        for one in self.running.values():
            one.wait()

    def end(self):
        """The daemon first: what it answered is in the file."""
        for name in ("daemon", "link"):
            one = self.running.get(name)
            if one and one.poll() is None:
                send(one, signal.SIGTERM)
                try:
                    one.wait(GRACE)
                except subprocess.TimeoutExpired:
                    send(one, signal.SIGKILL)
                    one.wait()
        if os.path.exists(f"{self.folder}/pids"):
            os.remove(f"{self.folder}/pids")                 # other processes get these numbers
