"""One node's link to a log in a store, etcd or a file of this machine: listens for the daemon (`kr_daemon --link ADDR`), feeds it
the log (the image that stands for its beginning, and the batches behind), campaigns for the leadership under a lease, and appends its
batches by one transaction at a time. Nothing of it is proved; transactions.py beside it says what keeps the log one. A line for each
change of state goes to standard output. docs/ETCD.md and docs/OPERATING.md have what an operator needs.

usage: tools/quorum/link --listen ADDR (--etcd ADDR,ADDR,.. | --file LOG) [--name NAME] [--prefix TEXT] [--lease SECONDS] [--images PLACES]
                         [--status FILE]"""
import argparse
import http.client
import os
import queue
import signal
import socket
import struct
import sys
import threading
import time
import uuid

from lib.batches import PART, TOGETHER, Broken, Dropped, look, offset_of, read, read_image, span
from lib.file_store import FileStore, Unusable
from lib.gateway import Gateway
from lib.store import NoLease, Unknown
from status import Status
from transactions import append, campaign, drop

LEAD, COMMIT, LOST, BATCH, LOAD, TICK, IMAGE = 2, 3, 4, 5, 6, 7, 9
APPEND, REFUSED, IMAGED = 0x81, 0x83, 0x84
NOT_LEADING = 2          # the reason for which a ping is refused
NOBODY = -1              # the epoch of a ping, which nobody ever leads
BEAT = 1.0               # seconds between two ticks, pings and looks at the log
AHEAD = 1 << 20          # bytes that are fed between two pings; no more is fed while two are unanswered
EACH = 1 << 10           # bytes for which a batch counts besides: it takes its time however short it is
MOST_IMAGE = 67_108_863  # bytes of an image that a daemon can be handed in


def say(line):
    print(line, flush=True)


class Daemon:
    """A daemon's connection. Frames go out by a thread, so that nobody waits for a stopped daemon; others come to `line`."""

    def __init__(self, stream, line):
        self.stream, self.line, self.out = stream, line, queue.SimpleQueue()
        self.fed, self.events, self.unpinged = 0, 0, 0       # its committed end; events sent; bytes fed since the last ping
        self.pings, self.heard = {}, None                    # event number: (when, epoch that is led); when it last answered
        self.is_asked = False                                # an image that hasn't come
        self.vain = 0                                        # the end at which an image was asked for that dropped nothing
        for work in (self._write, self._read):
            threading.Thread(target=work, daemon=True).start()

    def send(self, kind, body):
        self.events += kind != IMAGE                         # a question for an image is no event: no refusal tells its number
        self.out.put(struct.pack(">IB", len(body) + 1, kind) + body)

    def feed(self, batch):
        self.send(BATCH, batch)
        self.fed, self.unpinged = span(batch)[1], self.unpinged + len(batch) + EACH

    def load(self, image):
        self.send(LOAD, image)
        self.fed, self.unpinged = offset_of(image), self.unpinged + len(image)

    def ask_image(self):
        self.send(IMAGE, b"")
        self.is_asked, self.asked = True, self.fed

    def ping(self, led):
        """Lost of an epoch that nobody leads: refused always, and the refusal tells the epoch that the daemon leads."""
        self.send(LOST, struct.pack(">i", NOBODY))
        self.pings[self.events], self.unpinged = (time.monotonic(), led), 0

    def silent(self):
        """For how long the oldest ping has had no answer."""
        return time.monotonic() - min(self.pings.values())[0] if self.pings else 0.0

    def close(self):
        try:
            self.stream.shutdown(socket.SHUT_RDWR)
        except OSError:
            pass
        self.out.put(b"")

    def _write(self):
        try:
            while piece := self.out.get():
                self.stream.sendall(piece)
        except OSError:
            pass                                             # the reader sees the end
        self.stream.close()

    def _read(self):
        source = self.stream.makefile("rb")
        try:
            while len(head := source.read(5)) == 5:
                size, kind = struct.unpack(">IB", head)
                body = source.read(size - 1)
                if len(body) < size - 1:
                    break
                self.line.put(("frame", self, kind, body))
        except (OSError, ValueError):
            pass
        self.line.put(("gone", self))


class Leadership:
    """A leader key that was taken: a thread keeps its lease, another one appends."""

    def __init__(self, options, line, won, lease, asked):
        self.options, self.line, self.lease, self.asked = options, line, lease, asked
        self.epoch, self.mark, self.start = won
        self.over = self.lapsed = False
        self.batches, self.kept = queue.SimpleQueue(), None
        for work in (self._renew, self._append):
            threading.Thread(target=work, daemon=True).start()

    def _renew(self):
        """The lease counts as lost once it may have run out, from before the call that renewed it last."""
        store = self.options.store()
        while not self.over and time.monotonic() - self.asked < self.options.lease:
            began = time.monotonic()
            try:
                if not store.renew(self.lease):
                    break
                self.asked = began
            except Unknown:
                pass
            except NoLease:
                break
            time.sleep(max(0.05, self.options.lease / 4 - (time.monotonic() - began)))
        self.lapsed = True
        self.batches.put(None)                               # behind the appends in hand, which are settled first

    def _group(self):
        """The batches that wait, in the order in which they were written, as many as go together; none at the end."""
        group, size = [], 0
        while not group or (len(group) < TOGETHER and not self.batches.empty()):
            batch = self.kept or self.batches.get()
            self.kept = None
            if batch is None or (group and size + len(batch) > PART):
                self.kept = batch
                if batch is None:
                    self.batches.put(None)
                break
            group.append(batch)
            size += len(batch)
        return group

    def _append(self):
        store = self.options.store(lambda: self.lapsed or self.over)
        while group := self._group():
            stands = self._settle(store, group)
            self.line.put(("settled", self, stands, span(group[-1])[1]))
            if not stands:
                return
        self.line.put(("lapsed", self))

    def _settle(self, store, group):
        """True, False, or None where it stays unknown as long as the lease may stand. The same again does no harm."""
        is_told = False
        while True:
            try:
                return append(store, self.options.prefix, self.mark, group)
            except Unknown as fault:
                if self.lapsed or self.over:
                    return None
                if not is_told:
                    say(f"an append has no answer, and is tried again: {fault}")
                is_told = True
                time.sleep(0.05)

    def end(self):
        self.over = True
        self.batches.put(None)
        threading.Thread(target=self.give_back).start()

    def give_back(self):
        try:
            self.options.store().revoke(self.lease)
        except (Unknown, NoLease):
            pass                                             # it runs out


class Link:
    """What the threads tell comes by `line`, and is taken one by one."""

    def __init__(self, options):
        self.options, self.line = options, queue.SimpleQueue()
        self.store, self.daemon, self.lead, self.woken, self.quorum = options.store(), None, None, False, True

    # ---- the daemon

    def on_joined(self, stream):
        if self.daemon:
            self.part("another daemon connected")
        self.daemon = Daemon(stream, self.line)
        say("a daemon connected")
        self.daemon.ping(NOBODY)

    def on_gone(self, daemon):
        if daemon is self.daemon:
            self.part("the daemon ended")

    def part(self, why):
        """Nothing of a daemon is kept: the next one is fed from the start."""
        say(why)
        if self.lead:
            self.lead.end()
        self.daemon.close()
        self.daemon = self.lead = None

    def on_frame(self, daemon, kind, body):
        if daemon is not self.daemon:
            return
        if kind == REFUSED:
            self.refused(*struct.unpack(">QBqqq", body))
        elif kind == APPEND and self.lead and span(body)[2] == self.lead.epoch:
            self.lead.batches.put(body)                      # one of another epoch comes from a leadership that is over
        elif kind == IMAGED:
            threading.Thread(target=self.keep, args=(daemon, body), daemon=True).start()

    def refused(self, event, reason, _, led, third):
        sent, expected = self.daemon.pings.pop(event, (None, None))
        if sent is None or reason != NOT_LEADING or led != expected:
            return self.part(f"the daemon refused event {event} for reason {reason} ({led}, {third}): it is let go")
        self.daemon.heard = time.monotonic()
        self.follow()

    # ---- standby

    def follow(self):
        """Reads the log to its end; campaigns where nobody leads and the daemon answers."""
        if self.lead or not self.daemon:
            return
        end, is_led, image = look(self.store, self.options.prefix)
        heard = self.daemon.heard
        if self.catch_up(end, image) and not is_led and heard and time.monotonic() - heard < 2 * BEAT and self.daemon.silent() < 2 * BEAT:
            self.campaign()

    def catch_up(self, end, image=0):
        """Whether the daemon was fed up to the end: the image, where it has less than that, and the batches behind. It isn't fed
        further than it answers; its answer brings the link back here, as does the next beat where batches were dropped meanwhile."""
        if len(self.daemon.pings) > 2:
            return False
        if self.daemon.fed < image:
            self.daemon.load(read_image(self.store, self.options.prefix))
        try:
            for batch in read(self.store, self.options.prefix, self.daemon.fed, end):
                self.daemon.feed(batch)
                if self.daemon.unpinged >= AHEAD:
                    self.daemon.ping(NOBODY)
                    if len(self.daemon.pings) > 2:
                        break
        except Dropped:
            pass
        return self.daemon.fed >= end

    def on_woken(self):
        self.woken = False
        self.follow()

    # ---- leading

    def campaign(self):
        asked = time.monotonic()
        lease = self.store.grant(self.options.lease)
        token = f"{self.options.name} {uuid.uuid4().hex}".encode()
        try:
            won = campaign(self.store, self.options.prefix, token, lease)
            if not won:
                return self.store.revoke(lease)
        except NoLease:
            return                                           # it ran out before the key was taken
        lead = Leadership(self.options, self.line, won, lease, asked)
        try:
            is_fed = self.catch_up(lead.start)               # nobody else moves the end from here on
        except Unknown:
            lead.end()
            raise
        if not is_fed:
            return lead.end()
        self.lead = lead
        self.daemon.send(LEAD, struct.pack(">iqq", lead.epoch, lead.start, int(time.time() * 1000)))
        say(f"leads in epoch {lead.epoch} from place {lead.start}")

    def on_settled(self, lead, stands, end):
        if lead is not self.lead:
            return                                           # it comes back as a batch of the log
        if stands:
            self.daemon.send(COMMIT, struct.pack(">iq", lead.epoch, end))
            self.daemon.fed = end
        else:
            self.lost("an append was refused" if stands is False else "it isn't known whether an append stands")

    def on_lapsed(self, lead):
        if lead is self.lead:
            self.lost("the lease may have run out")

    def lost(self, why):
        """What was settled was committed before; the daemon answers 41 to the writes that wait."""
        lead, self.lead = self.lead, None
        self.daemon.send(LOST, struct.pack(">i", lead.epoch))
        lead.end()
        say(f"leads no more in epoch {lead.epoch}: {why}")

    # ---- images

    def consider_image(self):
        """An image is asked for once the daemon is far enough past the last one, of who leads only where nobody else gave one."""
        _, _, image = look(self.store, self.options.prefix)
        grown = self.daemon.fed - max(image, self.daemon.vain)
        if not self.daemon.is_asked and grown >= self.options.images * (2 if self.lead else 1):
            self.daemon.ask_image()

    def keep(self, daemon, image):
        """In a thread of its own: the image takes the place of the batches for which it stands."""
        try:
            if len(image) > MOST_IMAGE:
                say(f"an image of {len(image)} bytes is more than a daemon can be handed in: no batch is dropped")
                return                                       # none is asked for any more
            if drop(self.options.store(), self.options.prefix, image):
                say(f"an image of {len(image)} bytes stands for the log up to place {offset_of(image)}")
            else:                                            # of the begin of a transaction that is open long, or another node gave one
                daemon.vain = daemon.asked
        except Unknown as fault:
            say(f"an image has no place: {fault}")
        daemon.is_asked = False

    # ---- time

    def beat(self):
        if not self.daemon:
            return
        silent = self.daemon.silent()
        if self.lead:
            self.daemon.send(TICK, struct.pack(">q", int(time.time() * 1000)))
            if silent > self.options.lease:
                self.lost("the daemon doesn't answer")
        if silent > 4 * self.options.lease:
            return self.part("the daemon doesn't answer: it is let go")
        if len(self.daemon.pings) < 64:
            self.daemon.ping(self.lead.epoch if self.lead else NOBODY)
        if self.options.images:
            self.consider_image()

    # ---- threads

    def accept(self, server):
        while True:
            stream, _ = server.accept()
            stream.setsockopt(socket.IPPROTO_TCP, socket.TCP_NODELAY, 1)
            self.line.put(("joined", stream))

    def watch(self):
        """Changes only wake the link: what is fed comes from reads, and a look each beat makes up for a change that gets lost."""
        store = self.options.store()
        while True:
            try:
                for _ in store.changes(self.options.prefix, self.options.prefix[:-1] + bytes([self.options.prefix[-1] + 1])):
                    if not self.woken:
                        self.woken = True
                        self.line.put(("woken",))
            except (OSError, http.client.HTTPException, ValueError):
                pass                                         # of etcd, another member next
            time.sleep(0.2)

    def run(self, server):
        for work, words in ((self.accept, (server,)), (self.watch, ())):
            threading.Thread(target=work, args=words, daemon=True).start()
        if self.options.status:
            Status(self, self.options, say).start()
        beat = time.monotonic()
        while True:
            try:
                self.step(max(0.001, beat - time.monotonic()))
                if time.monotonic() >= beat:
                    beat = time.monotonic() + BEAT
                    self.beat()
                if not self.quorum and self.store.answers:
                    self.quorum = True
                    say(self.options.again)
            except Unknown as fault:
                if self.quorum:
                    say(f"{self.options.nobody}: {fault}")
                self.quorum = False
            except Broken as fault:
                say(f"the log in the store is broken: {fault}")
                return 1

    def step(self, seconds):
        try:
            what, *parts = self.line.get(timeout=seconds)
        except queue.Empty:
            return
        getattr(self, "on_" + what)(*parts)


def end_with(fault):
    """A thread's fault that nothing takes ends the link: a link without one of its threads would hold its lease and do nothing."""
    say(f"the link fails: {fault.exc_type.__name__}: {fault.exc_value}")
    os._exit(1)


def words(text):
    p = argparse.ArgumentParser(prog="tools/quorum/link", description=__doc__.split("\n\n")[0])
    p.add_argument("--listen", required=True, metavar="ADDR", help="where the daemon connects: its --link")
    where = p.add_mutually_exclusive_group(required=True)
    where.add_argument("--etcd", metavar="ADDR,..", type=lambda word: word.split(","), help="the members' client addresses, host:port")
    where.add_argument("--file", metavar="LOG", help="a file of this machine, for a node that keeps the log alone; it is made where there is none")
    p.add_argument("--name", default=socket.gethostname(), help="stands in the leader key while this node leads (default %(default)s)")
    p.add_argument("--prefix", default="/pibranog/", type=str.encode, help="of its keys in the store (default /pibranog/)")
    p.add_argument("--lease", type=int, default=5, metavar="SECONDS", help="2 to 7; with a tick it is below a broker's session of 9 (default %(default)s)")
    p.add_argument("--images", type=int, default=10000, metavar="PLACES", help="asks the daemon for an image, and drops the batches before it, each time the "
                   "log has grown by so many places; 0: never (default %(default)s)")
    p.add_argument("--status", metavar="FILE", help="keeps what the link knows there, for machines (default none)")
    options = p.parse_args(text)
    if not 2 <= options.lease <= 7 or not options.prefix or options.images < 0:
        p.error("a lease of 2 to 7 seconds, a prefix, and places from 0 on are wanted")
    return options


def open_store(options):
    """Sets what gives each thread its store, and what is said where none answers."""
    if options.file:
        file = FileStore(options.file)
        options.store = lambda gives_up=None: file
        options.nobody, options.again = "the file takes nothing", "the file takes writes again"
    else:
        options.store = lambda gives_up=lambda: False: Gateway(options.etcd, gives_up)
        options.nobody, options.again = "no member answers", "the members answer again"


def main():
    options = words(sys.argv[1:])
    host, _, port = options.listen.rpartition(":")
    try:
        server = socket.create_server((host.strip("[]"), int(port)))
    except (OSError, ValueError) as error:
        say(f"can't listen on {options.listen}: {error}")
        return 1
    threading.excepthook = end_with
    try:
        open_store(options)
    except Unusable as fault:
        say(f"no store: {fault}")
        return 1
    link = Link(options)
    signal.signal(signal.SIGTERM, lambda *_: sys.exit(0))
    say("listening")
    try:
        return link.run(server)
    except KeyboardInterrupt:
        return 0
    finally:
        if link.lead:
            link.lead.give_back()
