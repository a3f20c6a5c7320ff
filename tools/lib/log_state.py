"""What the log tells and no reply shows: each registered broker with its state, and how many replicas a topic wants in sync. It is
read from a store as the log grows, and anew from an image where one took the place of what wasn't read yet. Its records are those that
`kr_door` shows; what isn't needed here is passed over, and what a record may be was judged by the controller that wrote it. What stands
inside a metadata transaction counts once it is ended."""
from typing import NamedTuple

from lib.batches import Broken, Dropped, offset_of, read, read_image, span, standing
from pibranog import Closed, Door, Missing, Refused

BEGIN, END, ABORT = "BEGIN_TRANSACTION_RECORD", "END_TRANSACTION_RECORD", "ABORT_TRANSACTION_RECORD"
MINIMUM = "min.insync.replicas"
TOPIC_KIND, BROKER_KIND = 2, 4
GREATEST = 2147483647


class Broker(NamedTuple):
    """A registration; `since` is when its state became what it is, in milliseconds since 1970, None where an image tells of it."""
    epoch: int
    fenced: bool
    stopping: bool
    since: int | None

    @property
    def state(self):
        return "fenced" if self.fenced else "stopping" if self.stopping else "active"


class LogState:
    def __init__(self):
        self.door = None                                     # kr_door, once it is needed
        self.forget()

    def forget(self):
        self.end, self.brokers, self.names, self.minimums = 0, {}, {}, {}
        self.pending = None                                  # what a transaction that is open has so far

    def close(self):
        if self.door:
            self.door.close()
        self.door = None

    def follow(self, store, prefix):
        """Takes the log up to its end, as it is now: its end, the place of an image, the greatest epoch, and who leads by name."""
        end, leader, epoch, image = standing(store, prefix)
        if self.end < image:
            self.take_image(read_image(store, prefix))
        try:
            for batch in read(store, prefix, self.end, end):
                self.take_batch(batch)
        except Dropped:
            pass                                             # from the image, the next time
        return {"end": end, "image": image, "epoch": epoch, "leader": leader}

    def shown(self, ask, data):
        """The records that the door shows."""
        try:
            self.door = self.door or Door()
            return ask(self.door, data)
        except (Closed, Missing) as fault:
            self.door = None
            raise Broken(f"kr_door doesn't answer: {fault}")
        except Refused as refused:
            raise Broken(f"a batch is refused: {refused}")

    def take_image(self, image):
        """An image has no times: since when a broker's state is what it is stays known where it is the same as before."""
        records, before = self.shown(Door.image_records, image), self.brokers
        self.forget()
        for record in records:
            self.take(record, None)
        self.end = offset_of(image)
        for number, broker in self.brokers.items():
            if number in before and before[number]._replace(since=None) == broker:
                self.brokers[number] = before[number]

    def take_batch(self, batch):
        for record in self.shown(Door.log_records, batch):
            self.take(record, record["timestamp"])
        self.end = span(batch)[1]

    def take(self, record, when):
        kind = record.get("type")
        if kind == BEGIN:
            self.pending = []
        elif kind in (END, ABORT):
            ended, self.pending = self.pending or [], None
            for one in ended if kind == END else []:
                self.take_now(*one)
        elif kind in TAKERS and self.pending is not None:
            self.pending.append((record, when))
        elif kind in TAKERS:
            self.take_now(record, when)

    def take_now(self, record, when):
        TAKERS[record["type"]](self, record["data"], when)

    def minimum(self, topic, otherwise=1):
        """How many replicas of the topic have to be in sync: its own setting, else that of all brokers, else the daemon's."""
        return self.minimums.get((TOPIC_KIND, topic)) or self.minimums.get((BROKER_KIND, "")) or otherwise

    # ---- records

    def _register(self, data, when):
        self.brokers[data["brokerId"]] = Broker(data["brokerEpoch"], data["fenced"], data.get("inControlledShutdown", False), when)

    def _unregister(self, data, _):
        self.brokers.pop(data["brokerId"], None)

    def _change(self, number, fenced, stopping, when):
        """1 fences, -1 unfences, 0 leaves; 1 stops."""
        before = self.brokers[number]
        after = before._replace(fenced=fenced > 0 if fenced else before.fenced, stopping=before.stopping or stopping > 0)
        self.brokers[number] = before if after == before else after._replace(since=when)

    def _registration_change(self, data, when):
        self._change(data["brokerId"], data.get("fenced", 0), data.get("inControlledShutdown", 0), when)

    def _fence(self, data, when):
        self._change(data["id"], 1, 0, when)

    def _unfence(self, data, when):
        self._change(data["id"], -1, 0, when)

    def _topic(self, data, _):
        self.names[data["topicId"]] = data["name"]

    def _remove_topic(self, data, _):
        self.minimums.pop((TOPIC_KIND, self.names.pop(data["topicId"])), None)

    def _config(self, data, _):
        if data["name"] == MINIMUM:
            self.minimums[data["resourceType"], data["resourceName"]] = minimum_of(data["value"])


def minimum_of(value):
    """A decimal number from 1 without leading zeros, else None."""
    is_one = value is not None and value.isascii() and value.isdigit() and value[0] != "0" and int(value) <= GREATEST
    return int(value) if is_one else None


TAKERS = {"REGISTER_BROKER_RECORD": LogState._register, "UNREGISTER_BROKER_RECORD": LogState._unregister, "TOPIC_RECORD": LogState._topic,
          "CONFIG_RECORD": LogState._config, "FENCE_BROKER_RECORD": LogState._fence, "UNFENCE_BROKER_RECORD": LogState._unfence,
          "REMOVE_TOPIC_RECORD": LogState._remove_topic, "BROKER_REGISTRATION_CHANGE_RECORD": LogState._registration_change}
