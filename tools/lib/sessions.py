"""Sessions of many events, made frame by frame, and what a run of one costs. Linux only."""
import functools
import struct
import subprocess
import sys
import tempfile

from lib.door import NO_ID, id_text, message
from lib.frames import frame

CLUSTER = "bench"
SALT = 1


def topic_id(place):
    """The id of the topic whose record stands there."""
    return id_text((SALT << 64) + place + 1)


# ---- frames

def opened(session_ms=9_000):
    return frame(0x01, struct.pack(">iQIihi", 1, SALT, session_ms, 1, 1, 1) + CLUSTER.encode())


def lead(epoch, place, now=0):
    return frame(0x02, struct.pack(">iqq", epoch, place, now))


def commit(epoch, end):
    return frame(0x03, struct.pack(">iq", epoch, end))


def lost(epoch):
    return frame(0x04, struct.pack(">i", epoch))


def tick(now):
    return frame(0x07, struct.pack(">q", now))


def request(key, version, body, now=0):
    return frame(0x08, struct.pack(">Iq", 1, now) + message(key, version, body))


def registration(broker, incarnation=None, listeners=1, features=0, previous=-1):
    listener = {"name": "PLAINTEXT", "host": "localhost", "port": 9000, "securityProtocol": 0}
    feature = {"name": "f", "minSupportedVersion": 0, "maxSupportedVersion": 0}
    return request(62, 3, {
        "brokerId": broker, "clusterId": CLUSTER, "incarnationId": id_text(incarnation or broker), "listeners": [listener] * listeners,
        "features": [feature] * features, "rack": None, "isMigratingZkBroker": False, "logDirs": [], "previousBrokerEpoch": previous})


@functools.cache
def heartbeat(broker, epoch, offset, now=0, fence=False, stop=False):
    body = {"brokerId": broker, "brokerEpoch": epoch, "currentMetadataOffset": offset, "wantFence": fence, "wantShutDown": stop}
    return request(63, 0, body, now)


def unregistration(broker):
    return request(64, 0, {"brokerId": broker})


def new_topic(name, partitions=1, factor=1, assignments=(), settings=()):
    """A topic to create, which one request may have many of."""
    return {"name": name, "numPartitions": -1 if assignments else partitions, "replicationFactor": -1 if assignments else factor,
            "assignments": [{"partitionIndex": at, "brokerIds": list(ids)} for at, ids in enumerate(assignments)],
            "configs": [{"name": key, "value": value} for key, value in settings]}


def topics(*some):
    return request(19, 7, {"topics": some, "timeoutMs": 0, "validateOnly": False})


def topic(name, partitions, factor, assignments=()):
    return topics(new_topic(name, partitions, factor, assignments))


def operation(key, value, number=0):
    """A change of a setting: 0 sets it, 1 deletes it, 2 adds to a list, 3 takes away."""
    return {"name": key, "configOperation": number, "value": value}


def alterations(*resources):
    """Of each resource its type, its name and what is set."""
    each = [{"resourceType": kind, "resourceName": name, "configs": operations} for kind, name, operations in resources]
    return request(44, 1, {"resources": each, "validateOnly": False})


@functools.cache
def setting(value):
    return alterations((4, "", [operation("note", value)]))


def election(*asked):
    """Of each topic its name and the indexes; all partitions where none is asked."""
    each = [{"topic": name, "partitions": indexes} for name, indexes in asked] or None
    return request(43, 2, {"electionType": 0, "topicPartitions": each, "timeoutMs": 0})


def metadata(names=None):
    asked = None if names is None else [{"topicId": NO_ID, "name": name} for name in names]
    return request(3, 12, {"topics": asked, "allowAutoTopicCreation": False, "includeTopicAuthorizedOperations": False})


class Session:
    """A session under way: its frames, its events, and the end of its log."""

    def __init__(self, session_ms=9_000):
        self.frames, self.events, self.end = [opened(session_ms)], 0, 0
        self.epoch, self.asked = 0, 0
        self.lead()

    def add(self, one, records=0):
        self.frames.append(one)
        self.events += 1
        self.asked += one[4] == 0x08
        self.end += records

    def lead(self):
        self.epoch += 1
        self.add(lead(self.epoch, self.end + 1), 1)

    def commit(self, end=None):
        self.add(commit(self.epoch, self.end if end is None else end))

    def lose(self, end):
        self.add(lost(self.epoch))
        self.end = end
        self.lead()

    def brokers(self, count):
        """Brokers 1 to count, registered and unfenced. The epoch of each is its number, since the control record of the leader has place 0."""
        assert self.end == 1
        for broker in range(1, count + 1):
            self.add(registration(broker), 1)
        self.commit()
        for broker in range(1, count + 1):
            self.add(heartbeat(broker, broker, self.end), 1)
        self.commit()

    def bytes(self):
        return b"".join(self.frames + [frame(0x0A)])


def look_at(told, asked):
    """A refused event, and another number of replies than of requests, end this."""
    at, found = 0, 0
    while at < len(told):
        size, kind = struct.unpack_from(">IB", told, at)
        if kind == 0x83:
            number, reason = struct.unpack_from(">QB", told, at + 5)
            sys.exit(f"event {number} was refused for reason {reason}")
        found += kind == 0x82
        at += 4 + size
    if found != asked:
        sys.exit(f"{found} replies to {asked} requests")


# Runs a program over the standard input and output of this one, and tells its seconds of processor time and its peak of memory
# in KiB; past so many seconds, where there are some, it ends it. An interpreter of its own, since a process begins with the peak of the one that started it.
LAUNCHER = """
import os, resource, sys
limit = int(sys.argv[1])
child = os.fork()
if child == 0:
    if limit:
        resource.setrlimit(resource.RLIMIT_CPU, (limit, limit + 1))
    os.execv(sys.argv[2], sys.argv[2:])
_, status, usage = os.wait4(child, 0)
sys.stderr.write(f"{os.waitstatus_to_exitcode(status)} {usage.ru_utime + usage.ru_stime} {usage.ru_maxrss}")
"""


class TooSlow(Exception):
    """A run was ended past the seconds of processor time that it was given."""


def run(tool, data, limit=0, words=("session",)):
    """Seconds of processor time, the peak of resident memory in bytes (some 10 MB where it is less), and what was written."""
    with tempfile.TemporaryFile() as given, tempfile.TemporaryFile() as told:
        given.write(data)
        given.seek(0)
        words = [sys.executable, "-I", "-S", "-c", LAUNCHER, str(limit), tool, *words]
        done = subprocess.run(words, stdin=given, stdout=told, stderr=subprocess.PIPE, check=True)
        status, seconds, peak = done.stderr.decode().split()[-3:]
        if limit and status == "-24":  # SIGXCPU
            raise TooSlow
        if status != "0":
            sys.exit(f"{tool} {words[0]} ended with {status}")
        told.seek(0)
        return float(seconds), int(peak) * 1024, told.read()
