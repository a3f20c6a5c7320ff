"""What must hold behind each round of torture: of the writes that were answered, of each daemon's committed log, of etcd's keys,
and of what the nodes show."""
import struct
import subprocess

from history import History
from tape import digest
from lib import client
from lib.daemon import TOOL
from lib.nodes import CLUSTER, PREFIX, SALT, SOON, Failed, until

OPEN, LOAD, REQUEST, END, REPLY = 0x01, 0x06, 0x08, 0x0A, 0x82


def messages():
    """Reads of all brokers and topics, and of all reassignments."""
    return [client.message_of("describe"), client.REASSIGNMENTS.message()]


def shown_by(node):
    one = client.Connection(node.address, SOON)
    try:
        return [one.ask(message) for message in messages()]
    finally:
        one.socket.close()


def fold(log):
    """The image of a log's batches."""
    return subprocess.run(TOOL + ["fold"], input=log, stdout=subprocess.PIPE, check=True).stdout


def shown_by_tool(log):
    """What a controller answers that was handed in the image of the folded log."""
    frames = [(OPEN, struct.pack(">iQIihi", 1, SALT, 9000, 1, 1, 1) + CLUSTER.encode()), (LOAD, fold(log))]
    frames += [(REQUEST, struct.pack(">Iq", at, 0) + message) for at, message in enumerate(messages())] + [(END, b"")]
    data = b"".join(struct.pack(">IB", len(body) + 1, kind) + body for kind, body in frames)
    out = subprocess.run(TOOL + ["session"], input=data, stdout=subprocess.PIPE, check=True).stdout
    replies, at = [], 0
    while at < len(out):
        size, kind = struct.unpack_from(">IB", out, at)
        if kind != REPLY:
            raise Failed(f"kr_tool session gave a frame of kind {kind:02x} for the image of the folded log")
        replies.append(out[at + 9:at + 4 + size])
        at += 4 + size
    return replies


class Judge:
    """What was found wrong so far, how much was lost, and the times that were measured on the way."""

    def __init__(self, members, nodes, tapes, path):
        self.nodes, self.tapes = nodes, tapes
        self.history = History(members.clients, PREFIX, path)
        self.faults, self.lost = [], 0
        self.images, self.loads = {}, 0                      # digests of the images that were kept, by their places; loads of them
        self.writes = []                                     # (error, seconds, whether it stands) of each
        self.last_place = {}                                 # of what a client wrote, by the client's number
        self.committed, self.lags = {}, []                   # when a place was committed; how long after that a standby was fed it

    def judge(self, writers, hit):
        """Of all that came about until now. `hit` are the nodes of which something was hit in this round."""
        done = [(writer.number, writer.done.popleft()) for writer in writers for _ in range(len(writer.done))]
        entries = [(life, life.entries.popleft()) for life in self._lives() for _ in range(len(life.entries))]
        self.history.catch_up()                              # later than all of these
        self.faults += self.history.faults
        self.history.faults = []
        for number, write in done:
            place = write.stands_at(self.history.records)
            self.writes.append((write.error, write.over - write.asked, place is not None))
            if write.error == 0:
                self._success(number, write, place)
        self._logs(entries, hit)
        self._images()
        for life in self._lives():
            self.faults += [f"node {life.number}: {fault}" for fault in life.faults]
            life.faults = []

    def _lives(self):
        return [life for tape in self.tapes for life in tape.lives]

    def _success(self, number, write, place):
        """What was answered with success stands where it was told, behind what its client wrote before."""
        before = self.last_place.get(number, -1)
        if place is None:
            self.lost += 1
            told = "" if write.told is None else f" at place {write.told}"
            self.faults.append(f"answered with success, and not in the log{told}: {write.words[:60]}")
        elif place <= before:
            self.faults.append(f"at place {place}, where its client was told {before} before: {write.words[:60]}")
        self.last_place[number] = before if place is None else place

    def _logs(self, entries, hit):
        """Each daemon's committed log is a beginning of the log in etcd."""
        for life, entry in entries:
            if self.history.log.get(entry.place) != (entry.end, entry.epoch, entry.digest):
                self.faults.append(f"node {life.number} has a committed batch of epoch {entry.epoch} at place {entry.place} that isn't the log's")
            if entry.by_commit:
                self.committed[entry.place] = entry.when
        for life, entry in entries:
            committed = self.committed.get(entry.place)
            if committed and not entry.by_commit and life.began < committed and life.number not in hit:
                self.lags.append(entry.when - committed)

    def _images(self):
        """Each image that was kept is the fold of the log up to its place, to the byte, and what was loaded was one of them."""
        for place, image in self.history.images:
            self.images[place] = digest(image)
            if image != fold(self.history.bytes()[:self.history.size_at.get(place, 0)]):
                self.faults.append(f"the image of place {place} isn't the fold of the log up to there")
        self.history.images = []
        for life in self._lives():
            self.loads += len(life.loads)
            self.faults += [f"node {life.number} was handed in an image of place {place} that isn't the one that was kept"
                            for place, loaded in life.loads if self.images.get(place) != loaded]
            life.loads = []

    def compare(self):
        """While nobody writes: each node shows what the folded log shows, once it has taken all of it."""
        seen = {}

        def agree():
            self.history.catch_up()
            if not all(tape.has(self.history.end) for tape in self.tapes):
                return False
            seen["model"] = shown_by_tool(self.history.bytes())
            seen["nodes"] = [shown_by(node) for node in self.nodes]
            return all(shown == seen["model"] for shown in seen["nodes"])
        try:
            until("each node shows what the folded log shows", agree)
        except Failed:
            if "model" not in seen:
                raise
            differ = [str(node.number) for node, shown in zip(self.nodes, seen["nodes"]) if shown != seen["model"]]
            self.faults.append(f"not what the folded log shows is shown by node {' and '.join(differ)}")
