"""Requests in words, as tools/client takes them, and what tells their replies in lines; and a connection."""
import argparse
import functools
import socket
import struct
from typing import Callable, NamedTuple

from lib.door import NO_ID, door, id_text, message
from pibranog import Refused

ERRORS = {
    3: "unknown topic or partition", 5: "no leader", 17: "invalid topic name", 35: "unsupported version",
    36: "the topic exists", 37: "invalid number of partitions", 38: "invalid replication factor",
    39: "invalid replica assignment", 40: "invalid configuration", 41: "not the controller", 42: "invalid request",
    44: "past a limit", 74: "fenced leader epoch", 75: "unknown leader epoch", 77: "stale broker epoch",
    80: "the preferred leader isn't available", 83: "no eligible leader is available", 84: "election not needed",
    85: "no reassignment is in progress", 95: "invalid update version", 100: "unknown topic id",
    101: "the broker is registered already", 102: "the broker isn't registered", 104: "another cluster's id",
    107: "ineligible replica", 108: "new leader elected",
}

NOT_CONTROLLER = 41


class NoReply(Exception):
    """Nobody answers, or what comes isn't a reply."""


class Connection:
    """A client's connection: messages behind their sizes out, replies behind theirs in."""

    def __init__(self, address, seconds=10):
        host, _, port = address.rpartition(":")
        try:
            self.socket = socket.create_connection((host.strip("[]"), int(port)), timeout=seconds)
        except (OSError, ValueError) as error:
            raise NoReply(f"nobody answers at {address}: {error}")

    def some(self, count):
        data = b""
        while len(data) < count:
            try:
                piece = self.socket.recv(count - len(data))
            except OSError as error:
                raise NoReply(f"the connection failed: {error}")
            if not piece:
                raise NoReply("the connection was closed before the reply")
            data += piece
        return data

    def ask(self, request):
        """The whole reply to a message, without its size."""
        try:
            self.socket.sendall(struct.pack(">I", len(request)) + request)
        except OSError as error:
            raise NoReply(f"the connection failed: {error}")
        return self.some(struct.unpack(">I", self.some(4))[0])


WHAT = """Speaks to a running kr_daemon: one request, and its reply in words. The status is 0 where nothing was refused, 1 where
something was, 2 where the words are wrong or nobody answers."""


class Request(NamedTuple):
    """A request by the names of Kafka's schemas, and what tells the errors and lines of its reply's body."""
    key: int
    version: int
    body: dict
    tell: Callable

    def message(self):
        """Without its size."""
        return message(self.key, self.version, self.body)

    def response(self, reply):
        """The body of a reply, which has an error alone where the message was no call."""
        try:
            return door().reply(self.key, self.version, reply)["response"]
        except Refused:
            raise NoReply("what came is no reply")

    def lines(self, response):
        """Each error and its line."""
        alone = response["errorCode"] if list(response) == ["errorCode"] else None
        return list(self.tell(response)) if alone is None else [(alone, said(alone))]

    def told(self, reply):
        return self.lines(self.response(reply))


# ---- requests

def said(error):
    return "done" if error == 0 else f"refused: {ERRORS.get(error, 'error')} ({error})"


def register(o):
    listener = {"name": "PLAINTEXT", "host": o.host, "port": o.port, "securityProtocol": 0}
    body = {"brokerId": o.broker, "clusterId": o.cluster, "incarnationId": id_text(o.broker if o.incarnation is None else o.incarnation),
            "listeners": [listener], "features": [], "rack": o.rack, "isMigratingZkBroker": False, "logDirs": [],
            "previousBrokerEpoch": o.previous}

    def tell(r):
        error = r["errorCode"]
        yield error, f"broker {o.broker}: " + (f"registered, epoch {r['brokerEpoch']}" if error == 0 else said(error))
    return Request(62, 3, body, tell)


def heartbeat(o):
    body = {"brokerId": o.broker, "brokerEpoch": o.epoch, "currentMetadataOffset": o.epoch if o.offset is None else o.offset,
            "wantFence": o.fence, "wantShutDown": o.stop}

    def tell(r):
        error = r["errorCode"]
        state = ["fenced" if r["isFenced"] else "active", "caught up" if r["isCaughtUp"] else "behind"] + ["may stop"] * r["shouldShutDown"]
        yield error, f"broker {o.broker}: " + (", ".join(state) if error == 0 else said(error))
    return Request(63, 0, body, tell)


def create(o):
    topic = {"name": o.topic, "numPartitions": -1 if o.on else o.partitions, "replicationFactor": -1 if o.on else o.factor,
             "assignments": [{"partitionIndex": at, "brokerIds": brokers} for at, brokers in enumerate(o.on or [])],
             "configs": [{"name": key, "value": value} for key, value in o.set]}

    def tell(r):
        for t in r["topics"]:
            made = f"created, {t['numPartitions']} partitions of {t['replicationFactor']} replicas, id {t['topicId']}"
            yield t["errorCode"], f"topic {t['name']}: " + (made if t["errorCode"] == 0 else said(t["errorCode"]))
    return Request(19, 7, {"topics": [topic], "timeoutMs": 30000, "validateOnly": o.dry}, tell)


def told_topic(topic, *further):
    """A topic and its partitions, with these lists of replicas where there are any in them."""
    def line(p):
        led = "no leader" if p["leaderId"] < 0 else f"led by {p['leaderId']}"
        more = [f", {what} {listed(p[name])}" for what, name in further if p[name]]
        return (f"  partition {p['partitionIndex']}: {led} in epoch {p['leaderEpoch']}, replicas {listed(p['replicaNodes'])}, "
                f"in sync {listed(p['isrNodes'])}" + "".join(more))
    error = topic["errorCode"]
    head = f"topic {topic['name']}: " + (f"id {topic['topicId']}" if error == 0 else said(error))
    return error, "\n".join([head, *map(line, topic["partitions"])])


def describe(o):
    if o.limit is not None:
        return page(o)
    topics = [{"topicId": NO_ID, "name": name} for name in o.topics] or None

    def tell(r):
        for b in r["brokers"]:
            yield 0, f"broker {b['nodeId']}: at {b['host']}:{b['port']}" + ("" if b["rack"] is None else f", rack {b['rack']}")
        yield 0, f"cluster {r['clusterId']}"
        yield from map(told_topic, r["topics"])
    return Request(3, 12, {"topics": topics, "allowAutoTopicCreation": False, "includeTopicAuthorizedOperations": False}, tell)


def page(o, cursor=None):
    """A page of topics, from a cursor on."""
    body = {"topics": [{"name": name} for name in o.topics], "responsePartitionLimit": o.limit, "cursor": cursor}
    further = ("eligible", "eligibleLeaderReplicas"), ("last known", "lastKnownElr"), ("offline", "offlineReplicas")
    return Request(75, 0, body, lambda r: (told_topic(topic, *further) for topic in r["topics"]))


def alter(o):
    kind, name = (4, "" if o.broker is None else str(o.broker)) if o.topic is None else (2, o.topic)
    changes = [{"name": key, "configOperation": int(value is None), "value": value} for key, value in o.set]

    def tell(r):
        for one in r["responses"]:
            name = one["resourceName"]
            what = f"topic {name}" if one["resourceType"] == 2 else f"broker {name}" if name else "every broker"
            yield one["errorCode"], f"settings of {what}: {said(one['errorCode'])}"
    return Request(44, 1, {"resources": [{"resourceType": kind, "resourceName": name, "configs": changes}], "validateOnly": o.dry}, tell)


def told_errors(what, r, partitions):
    """The error of a reply, where it has one, and that of each partition: topic, index and error."""
    if r["errorCode"]:
        yield r["errorCode"], f"{what}: {said(r['errorCode'])}"
    for topic, index, error in partitions:
        yield error, f"topic {topic} partition {index}: {said(error)}"


def elect(o):
    body = {"electionType": int(o.unclean), "topicPartitions": [{"topic": o.topic, "partitions": o.partitions}], "timeoutMs": 30000}
    return Request(43, 2, body, lambda r: told_errors("election", r, (
        (topic["topic"], p["partitionId"], p["errorCode"]) for topic in r["replicaElectionResults"] for p in topic["partitionResult"])))


def reassign(o):
    body = {"timeoutMs": 30000, "topics": [{"name": o.topic, "partitions": [{"partitionIndex": o.partition, "replicas": o.brokers}]}]}
    return Request(45, 0, body, lambda r: told_errors("reassignment", r, (
        (topic["name"], p["partitionIndex"], p["errorCode"]) for topic in r["responses"] for p in topic["partitions"])))


# Reads all reassignments; no words ask for it.
REASSIGNMENTS = Request(46, 0, {"timeoutMs": 0, "topics": None}, None)


def answers(connection, o):
    """Each error and its line, as they come: of a page, and of the next ones to the last."""
    asked = o.request(o)
    while asked:
        response = asked.response(connection.ask(asked.message()))
        yield from asked.lines(response)
        cursor = response.get("nextCursor")
        asked = page(o, cursor) if cursor else None


# ---- words

def listed(numbers):
    return ",".join(map(str, numbers)) or "-"


def numbers(word):
    return [int(number) for number in word.split(",")]


def lists(word):
    return [numbers(part) for part in word.split("/")]


def setting(word):
    key, found, value = word.partition("=")
    return key, value if found else None


@functools.cache
def parser():
    p = argparse.ArgumentParser(prog="tools/client", description=WHAT)
    p.add_argument("--at", default="127.0.0.1:9093", metavar="ADDR", help="the daemon's address (default %(default)s)")
    each = p.add_subparsers(required=True, metavar="REQUEST")

    def add(name, request, what):
        one = each.add_parser(name, help=what, description=what)
        one.set_defaults(request=request)
        return one
    one = add("register", register, "registers a broker, and tells its epoch")
    one.add_argument("broker", type=int)
    one.add_argument("--cluster", default="c1", help="the cluster id (default %(default)s)")
    one.add_argument("--host", default="localhost", help="where it listens (default %(default)s)")
    one.add_argument("--port", type=int, default=9092, help="and the port (default %(default)s)")
    one.add_argument("--rack", help="its rack (default none)")
    one.add_argument("--incarnation", type=int, metavar="N", help="the number of this start of the broker (default its id)")
    one.add_argument("--previous", type=int, default=-1, metavar="EPOCH", help="the epoch before (default %(default)s)")
    one = add("heartbeat", heartbeat, "tells that a broker is alive, and what it wants")
    one.add_argument("broker", type=int)
    one.add_argument("epoch", type=int, help="what the registration told")
    one.add_argument("--offset", type=int, help="how far it has read the metadata log (default its epoch)")
    one.add_argument("--fence", action="store_true", help="it wants to be fenced")
    one.add_argument("--stop", action="store_true", help="it wants to shut down")
    one = add("create", create, "creates a topic")
    one.add_argument("topic")
    one.add_argument("--partitions", type=int, default=-1, metavar="N", help="how many (default the daemon's, 1)")
    one.add_argument("--factor", type=int, default=-1, metavar="N", help="how many replicas (default the daemon's, 1)")
    one.add_argument("--on", type=lists, metavar="1,2/2,3", help="the brokers of each partition, in place of both")
    one.add_argument("--set", type=setting, action="append", default=[], metavar="KEY=VALUE", help="a setting of it")
    one.add_argument("--dry", action="store_true", help="only asks whether it could be")
    one = add("describe", describe, "shows active brokers, the cluster id and topics")
    one.add_argument("topics", nargs="*", help="which (default all)")
    one.add_argument("--limit", type=int, metavar="N", help="topics alone, by pages of N lines of one place of the log (1 to 2,000)")
    one = add("alter", alter, "sets settings, KEY=VALUE, or removes them, KEY")
    one.add_argument("set", type=setting, nargs="+", metavar="KEY[=VALUE]")
    one.add_argument("--topic", help="of this topic (default of every broker)")
    one.add_argument("--broker", type=int, help="of this broker")
    one.add_argument("--dry", action="store_true", help="only asks whether they could be")
    one = add("elect", elect, "elects the preferred leaders of partitions")
    one.add_argument("topic")
    one.add_argument("partitions", type=numbers, help="their numbers, as 0,1")
    one.add_argument("--unclean", action="store_true", help="elects where there is no leader, also out of sync")
    one = add("reassign", reassign, "moves a partition to other brokers, or cancels that")
    one.add_argument("topic")
    one.add_argument("partition", type=int)
    one.add_argument("brokers", type=numbers, nargs="?", help="as 1,2,3; none to cancel")
    return p


def request_of(words):
    """The request that the words ask."""
    options = parser().parse_args(words.split())
    return options.request(options)


def message_of(words):
    """Its message, without its size."""
    return request_of(words).message()
