"""What a daemon and its link say to each other, kept by who stands between them: for torture.

A daemon's committed log is what its link handed in by Batch, and what it wrote itself and its link committed."""
import collections
import hashlib
import struct
import threading
import time
from typing import NamedTuple

from lib.batches import span
from between import Between, shut

LEAD, COMMIT, LOST, BATCH, LOAD, IMAGE = 2, 3, 4, 5, 6, 9
APPEND, REFUSED = 0x81, 0x83
NOT_LEADING = 2          # the reason for which a ping is refused
NOBODY = -1              # the epoch of a ping


class Entry(NamedTuple):
    """A batch of a daemon's committed log, when it came there, and whether by a commit."""
    place: int
    end: int
    epoch: int
    digest: bytes
    when: float
    by_commit: bool


def digest(batch):
    return hashlib.sha1(batch).digest()


class Life:
    """One daemon, from its connection on: its committed log as it has to see it, its leaderships, and what went wrong between
    it and its link."""

    def __init__(self, number):
        self.number, self.began, self.over = number, time.monotonic(), False
        self.end = self.taken = self.events = 0              # of its committed log; how much of it it has answered; events handed in
        self.led = None                                      # the epoch in which it leads
        self.entries = collections.deque()                   # of its committed log, those that nobody took yet
        self.written, self.leads, self.loads, self.faults = [], [], [], []
        self.pings = {}                                      # the log's end at each ping that wasn't answered, by its number

    def hand_in(self, kind, body):
        """A frame of the link: an event, or a question for an image."""
        self.events += kind != IMAGE
        if kind == BATCH:
            self._batch(body)
        elif kind == COMMIT:
            self._commit(*struct.unpack(">iq", body))
        elif kind == LEAD:
            self._lead(*struct.unpack_from(">iq", body))
        elif kind == LOST and struct.unpack(">i", body)[0] == NOBODY:
            self.pings[self.events] = self.end
        elif kind == LOST:
            self.led = None
        elif kind == LOAD:
            self.end = struct.unpack_from(">q", body)[0]
            self.loads.append((self.end, digest(body)))

    def give_out(self, kind, body):
        """A frame of the daemon."""
        if kind == APPEND:
            self.written.append((*span(body), digest(body)))
        elif kind == REFUSED:
            event, reason = struct.unpack_from(">QB", body)
            if event not in self.pings or reason != NOT_LEADING:
                self.faults.append(f"event {event} was refused for reason {reason}")
            self.taken = self.pings.pop(event, self.taken)

    def _batch(self, batch):
        place, end, epoch = span(batch)
        if place != self.end:
            self.faults.append(f"a batch of place {place} came where its log ended at {self.end}")
        self.entries.append(Entry(place, end, epoch, digest(batch), time.monotonic(), False))
        self.end = end

    def _commit(self, epoch, end):
        """What it wrote in this epoch, up to the end. A batch of an epoch that is over may come out late, and is never committed."""
        now = time.monotonic()
        for place, behind, own, what in [it for it in self.written if it[2] == epoch and it[1] <= end]:
            self.entries.append(Entry(place, behind, own, what, now, True))
            self.end = behind
        self.written = [it for it in self.written if it[2] != epoch or it[1] > end]
        if self.end != end:
            self.faults.append(f"{end} was committed in epoch {epoch}, where no batch of its own ends")

    def _lead(self, epoch, start):
        self.led = epoch
        self.leads.append((time.monotonic(), epoch))
        if start != self.end:
            self.faults.append(f"it was to lead from {start} where its log ended at {self.end}")


class Tape(Between):
    """Where a node's daemon connects to in its link's place: passes each frame on, once it is kept."""

    def __init__(self, node):
        self.node, self.lives = node, []
        self.at = {}                                         # what to call before the next frame of a kind goes to the daemon, once
        super().__init__()
        node.dial = self.address

    def other(self):
        return self.node.link_address

    def join(self, daemon, link):
        life = Life(self.node.number)
        self.lives.append(life)
        for words in ((link, daemon, life, True), (daemon, link, life, False)):
            threading.Thread(target=self._pass_on, args=words, daemon=True).start()

    def _keep(self, life, is_inward, kind, body):
        """Whether the frame goes on: what is called before may say that it doesn't."""
        if is_inward and kind in self.at and not self.at.pop(kind)():
            return False
        (life.hand_in if is_inward else life.give_out)(kind, body)
        return True

    def _pass_on(self, source, sink, life, is_inward):
        stream = source.makefile("rb")
        try:
            while len(head := stream.read(5)) == 5:
                size, kind = struct.unpack(">IB", head)
                body = stream.read(size - 1)
                if len(body) < size - 1 or not self._keep(life, is_inward, kind, body):
                    break
                sink.sendall(head + body)
        except (OSError, ValueError):
            pass
        life.over = True
        shut(source)
        shut(sink)

    def now(self):
        """The daemon that is connected, None where none is."""
        return self.lives[-1] if self.lives and not self.lives[-1].over else None

    def has(self, end):
        """Whether a daemon is connected that was handed in the log up to there, and has answered since."""
        life = self.now()
        return life is not None and life.taken >= end
