"""Clients that write what nobody else writes, and remember what they were told: for torture."""
import collections
import itertools
import random
import threading
import time

from lib import client
from lib.client import NOT_CONTROLLER
from lib.door import id_number, id_text
from lib.nodes import SOON

LARGE, MANY = "x" * 8_000, 140   # the value of a large setting, and how many go in one request: above what stands in one piece
PAUSE = 0.4              # seconds between two writes of a client, at most


class Write:
    """One request that writes, what is to stand in the log for it, and what came of it."""

    def __init__(self, words, records, place=None):
        self.words, self.records = words, records            # the type of each of its records, and fields of it
        self.place = place                                   # takes the place out of the reply's line, where that tells it
        self.asked = self.over = 0.0
        self.error = self.told = None                        # None where no reply came; the place that was told

    def take(self, error, line):
        self.error = error
        if error == 0 and self.place:
            self.told, self.records = self.place(line)

    def stands_at(self, standing):
        """The place of its first record; None where it doesn't stand."""
        places = [standing.has(record, self.told) for record in self.records]
        return None if None in places else places[0]


def topic(name):
    def place(line):
        number = line.split("id ")[1]
        # The least number above the place that no topic has: where each topic has a request of its own, the next one.
        return id_number(number) % (1 << 64) - 1, [("TOPIC_RECORD", {"name": name, "topicId": number})]
    return Write(f"create {name} --partitions 1 --factor 2", [("TOPIC_RECORD", {"name": name})], place)


def registration(broker, incarnation):
    records = [("REGISTER_BROKER_RECORD", {"brokerId": broker, "incarnationId": id_text(incarnation)})]
    return Write(f"register {broker} --incarnation {incarnation}", records, lambda line: (int(line.split("epoch ")[1]), records))


def config(key, value):
    return "CONFIG_RECORD", {"resourceType": 4, "resourceName": "", "name": key, "value": value}


def setting(key, value):
    return Write(f"alter {key}={value}", [config(key, value)])


def many(start):
    pairs = [(f"large-{at}", f"{start}-{at}-{LARGE}") for at in range(MANY)]
    return Write("alter " + " ".join(f"{key}={value}" for key, value in pairs), [config(key, value) for key, value in pairs])


class Writer(threading.Thread):
    """Writes one thing after the other at the node that answered last, until it is told to stop."""

    def __init__(self, number, nodes, large):
        super().__init__(daemon=True)
        self.number, self.nodes, self.at, self.stop = number, nodes, number % len(nodes), False
        self.large = large                                   # each so many of its writes is a large one, none where it is 0
        self.done, self.open = collections.deque(), None     # writes that nobody looked at yet; the connection
        self.hand = threading.Lock()                         # taken while a write waits for its answer; who has it holds the writer
        self.draw = random.Random(number)

    def run(self):
        for count in itertools.count(1):
            with self.hand:
                if self.stop:
                    return
                self.ask(self.next(count))
            time.sleep(self.draw.uniform(0, PAUSE))

    def next(self, count):
        name = f"w{self.number}-{count}"
        if self.large and count % self.large == 50:
            return many(name)
        if count % 10 == 3:
            return topic(name)
        if count % 10 == 7:
            return registration(100 + self.number, count)
        return setting(f"key-{self.number}", name)

    def ask(self, write):
        asked = client.request_of(write.words)
        message = asked.message()
        write.asked = time.monotonic()
        try:
            self.open = self.open or client.Connection(self.nodes[self.at].address, SOON)
            write.take(*asked.told(self.open.ask(message))[0])
        except client.NoReply:
            pass
        write.over = time.monotonic()
        self.done.append(write)
        if write.error in (None, NOT_CONTROLLER):
            self.leave()

    def leave(self):
        """The other node next. The connection is closed, since it has one of the daemon's seats."""
        if self.open:
            self.open.socket.close()
        self.open, self.at = None, (self.at + 1) % len(self.nodes)
        time.sleep(0.05)
