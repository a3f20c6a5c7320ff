"""What can be seen of a cluster from outside: each daemon's Metadata and reassignments, which of them takes writes, and, where the
status of a link is given (`--status FILE` of tools/quorum/link), the log's end, who leads in which epoch, how far each node is, and
what the log tells of brokers and settings. For tools/watch."""
import json
import time
from concurrent.futures import ThreadPoolExecutor
from typing import NamedTuple

from lib import client
from lib.batches import Broken
from lib.file_store import FileStore, Unusable
from lib.gateway import Gateway
from lib.log_state import LogState
from lib.store import Unknown

SECONDS = 2              # for which a daemon may keep a reply back
STALE = 5                # seconds after which a link that writes nothing counts as silent
FORMAT = 1               # of a status


# ---- replies

class Partition(NamedTuple):
    topic: str
    index: int
    leader: int
    epoch: int
    replicas: list
    in_sync: list
    offline: list


class Metadata(NamedTuple):
    cluster: str
    addresses: dict      # of brokers that aren't fenced: (host, port, rack) by id
    topics: list
    partitions: list


def metadata_of(r):
    partitions = [Partition(topic["name"], p["partitionIndex"], p["leaderId"], p["leaderEpoch"], p["replicaNodes"], p["isrNodes"], p["offlineReplicas"])
                  for topic in r["topics"] for p in topic["partitions"]]
    addresses = {broker["nodeId"]: (broker["host"], broker["port"], broker["rack"]) for broker in r["brokers"]}
    return Metadata(r["clusterId"], addresses, [topic["name"] for topic in r["topics"]], partitions)


def moves_of(r):
    """The (adding, removing) replicas of each partition under reassignment, by topic and index."""
    return {(topic["name"], p["partitionIndex"]): (p["addingReplicas"], p["removingReplicas"]) for topic in r["topics"] for p in topic["partitions"]}


# ---- one node

READS = client.request_of("describe"), client.REASSIGNMENTS
WRITE = client.request_of("alter x=y --dry")     # changes nothing, and is refused on standby


class Node(NamedTuple):
    """A daemon as it was seen, and the status of its link where one is told."""
    address: str
    replies: list | None = None  # the bodies of those to READS; None where none came
    leads: bool | None = None    # whether it takes writes; None where it doesn't say
    fault: str | None = None     # why it doesn't answer
    status: dict | None = None
    silent: str | None = None    # why its link's status counts for nothing

    @property
    def end(self):
        """How far its link has handed it the log; None where that isn't told."""
        daemon = self.status and self.status["daemon"]
        return daemon["end"] if daemon else None

    @property
    def answered(self):
        """How many seconds ago it answered its link; None where that isn't told."""
        daemon = self.status and self.status["daemon"]
        return None if not daemon or daemon["answered"] is None else daemon["answered"] + max(0, time.time() - self.status["time"])


def look_at(address, path):
    status, silent = status_of(path) if path else (None, None)
    replies = leads = fault = None
    try:
        line = client.Connection(address, SECONDS)
        try:
            replies = [read.response(line.ask(read.message())) for read in READS]
            leads = WRITE.told(line.ask(WRITE.message()))[0][0] == 0
        finally:
            line.socket.close()
    except client.NoReply as found:
        fault = str(found)
    return Node(address, replies, leads, fault, status, silent)


def status_of(path):
    """What a link wrote last, and what is wrong with it: it isn't there, isn't whole, or is old, and counts for nothing then."""
    try:
        with open(path, encoding="utf-8") as file:
            status = json.load(file)
        old = time.time() - status["time"]
        if status["format"] != FORMAT:
            return None, f"{path} has another format"
        return (status, None) if old < STALE else (None, f"its link wrote nothing for {old:.0f} s")
    except (OSError, ValueError, KeyError, TypeError) as fault:
        return None, f"{path}: {fault}"


# ---- the cluster

class Seen(NamedTuple):
    """What one look showed. None stands for what isn't told."""
    when: float
    nodes: list
    shows: Node | None       # whose replies these are
    metadata: Metadata | None
    moves: dict
    log: dict | None         # end, image, epoch, leader
    registered: dict | None  # brokers by id, as the log has them
    minimum: dict | None     # by topic
    fault: str | None        # why the log isn't told

    @property
    def leaders(self):
        return [node for node in self.nodes if node.leads]

    @property
    def partitions(self):
        return self.metadata.partitions if self.metadata else []

    @property
    def active(self):
        """The addresses of brokers that aren't fenced, by id."""
        return self.metadata.addresses if self.metadata else {}

    @property
    def brokers(self):
        """All that are registered where the log is told, and those that Metadata or a partition has."""
        return sorted(set(self.registered or ()) | set(self.active) | {broker for one in self.partitions for broker in one.replicas})

    def state_of(self, broker):
        if self.registered is not None:
            return self.registered[broker].state if broker in self.registered else "not registered"
        return "not fenced" if broker in self.active else "fenced, or not registered"

    def loads(self):
        """Of each broker: how many partitions it leads, is in sync in, and has."""
        found = {broker: [0, 0, 0] for broker in self.brokers}
        for one in self.partitions:
            for broker in one.replicas:
                found[broker][0] += one.leader == broker
                found[broker][1] += broker in one.in_sync
                found[broker][2] += 1
        return found

    def behind(self, node):
        return None if node.end is None or not self.log else max(0, self.log["end"] - node.end)

    def without_leader(self):
        return [one for one in self.partitions if one.leader < 0]

    def under_minimum(self):
        """Those with fewer replicas in sync than their topic wants; None where the log isn't told."""
        return None if self.minimum is None else [one for one in self.partitions if len(one.in_sync) < self.minimum[one.topic]]

    def reassigned(self):
        return [one for one in self.partitions if (one.topic, one.index) in self.moves]

    def not_led_by_first(self):
        return [one for one in self.partitions if one.leader >= 0 and one.leader != one.replicas[0]]


class Observer:
    """Looks at the same daemons again and again, in one thread."""

    def __init__(self, daemons, statuses):
        self.pairs = list(zip(daemons, statuses or [None] * len(daemons)))
        self.pool = ThreadPoolExecutor(len(self.pairs))
        self.store = self.where = self.fault = None
        self.state = LogState()

    def look(self):
        nodes = list(self.pool.map(lambda pair: look_at(*pair), self.pairs))
        shows = max((node for node in nodes if node.replies), key=rank, default=None)
        try:
            metadata, moves = (metadata_of(shows.replies[0]), moves_of(shows.replies[1])) if shows else (None, {})
        except KeyError:                                            # an error alone: who answers there is no controller
            shows, metadata, moves = None, None, {}
        log = self._follow(next((node.status["store"] for node in nodes if node.status), None)) or log_of(nodes)
        is_told = self.store is not None
        minimum = {topic: self.state.minimum(topic) for topic in metadata.topics} if is_told and metadata else None
        registered = dict(self.state.brokers) if is_told else None
        return Seen(time.time(), nodes, shows, metadata, moves, log, registered, minimum, self.fault)

    def _follow(self, told):
        """Takes the log where a link told that it is: how it stands, None where it can't be read; what was taken stays then."""
        place = told and {name: told[name] for name in told if name != "answers"}
        try:
            if place and place != self.where:
                self.store = FileStore(told["file"], reads=True) if "file" in told else Gateway(told["etcd"])
                self.state.close()
                self.where, self.state = place, LogState()
            if self.store is None:
                self.fault = "no link tells where the log is"
                return None
            log = self.state.follow(self.store, self.where["prefix"].encode())
            self.fault = None
            return log
        except Unknown as fault:
            self.fault = f"the log can't be read: {fault}"
        except (Unusable, Broken) as fault:
            self.fault, self.store, self.where = f"the log can't be read: {fault}", None, None
        return None


def rank(node):
    """Whose replies count most: who leads, in the latest epoch where two say so, and else who has most of the log."""
    epoch = node.status and node.status["leads"]
    return bool(node.leads), -1 if epoch is None else epoch, -1 if node.end is None else node.end


def log_of(nodes):
    """How the log stood when a link saw it last; of each number the greatest, since none of them ever falls."""
    told = [node.status["log"] for node in nodes if node.status and node.status["log"]["end"] is not None]
    if not told:
        return None
    latest = max(told, key=lambda log: (log["epoch"], log["end"]))
    return {**latest, **{name: max(log[name] for log in told) for name in ("end", "image", "epoch")}}
