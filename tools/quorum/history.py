"""The log as all changes of its keys made it, one revision of etcd after the other, each held against the rules of
transactions.py: for torture. etcd keeps what its keys were until it is told to compact."""
import http.client
import itertools
import json
import time
from typing import NamedTuple

from tape import digest
from lib.batches import Broken, span, whole
from lib.door import records
from lib.gateway import Gateway, unpacked
from lib.store import Unknown
from pibranog import Refused

TRIES = 60               # of a call of etcd


def patiently(call):
    """What a call of etcd gives in the end: members may be down or slow for a while."""
    for _ in range(TRIES):
        try:
            return call()
        except (Unknown, OSError, http.client.HTTPException) as error:
            fault = error
            time.sleep(0.5)
    raise Unknown(f"{type(fault).__name__}: {fault}")


# What tells a record of each type from the others, where writers.py writes it.
FIELDS = {"TOPIC_RECORD": ("name",), "REGISTER_BROKER_RECORD": ("brokerId", "incarnationId"),
          "CONFIG_RECORD": ("resourceType", "resourceName", "name", "value")}


class Records:
    """What writers wrote, as the log has it, by places."""

    def __init__(self):
        self.at, self.place_of = {}, {}

    def take(self, place, batch):
        for at, (kind, data) in enumerate(records(batch), place):
            if kind in FIELDS:
                self.at[at] = kind, data
                self.place_of[kind, *(data[name] for name in FIELDS[kind])] = at

    def has(self, record, place=None):
        """The place of a record of this type with these fields, at the place that was told, or anywhere; None where it doesn't stand."""
        kind, fields = record
        if place is None:
            place = self.place_of.get((kind, *(fields[name] for name in FIELDS[kind])))
        found, data = self.at.get(place, (None, {}))
        return place if found == kind and fields.items() <= data.items() else None


class Standing(NamedTuple):
    """A batch of the log."""
    end: int
    epoch: int
    digest: bytes


class History:
    """The log at the revision that was reached, with its records, and what broke a rule on the way."""

    def __init__(self, members, prefix, path):
        self.etcd, self.prefix, self.path = Gateway(members), prefix, path
        self.revision = self.end = self.epoch = self.image = 0
        self.is_led = False
        self.log, self.records, self.parts, self.faults = {}, Records(), {}, []
        self.size, self.size_at, self.images = 0, {}, []     # bytes of the log, up to each end; images that nobody looked at yet

    def catch_up(self):
        """Takes all changes up to now, from one member after the other where one fails."""
        now = patiently(lambda: self.etcd.revision(self.prefix + b"end"))
        patiently(lambda: self._take_up_to(now))

    def _take_up_to(self, now):
        if self.revision >= now:
            return
        behind = self.prefix[:-1] + bytes([self.prefix[-1] + 1])
        for line in self.etcd.changes(self.prefix, behind, self.revision + 1):
            events = json.loads(line)["result"].get("events", [])
            for revision, changes in itertools.groupby(events, lambda event: int(event["kv"]["mod_revision"])):
                self._take(revision, list(changes))
            if self.revision >= now:
                return
        raise OSError("the changes ended")

    def _take(self, revision, changes):
        puts, gone = {}, set()
        for change in changes:
            key = unpacked(change["kv"]["key"])[len(self.prefix):]
            if change.get("type") == "DELETE":
                gone.add(key)
            else:
                puts[key] = unpacked(change["kv"].get("value", ""))
        self.revision = revision
        self.parts.update({key: value for key, value in puts.items() if key.startswith(b"parts/")})
        self._lead(puts, gone)
        self._append([puts[key] for key in sorted(puts) if key.startswith(b"log/")], puts.get(b"end"))
        self._drop(puts.get(b"image"), {int(key[4:], 16) for key in gone if key.startswith(b"log/")})

    def _fault(self, text):
        self.faults.append(f"revision {self.revision}: {text}")

    def _lead(self, puts, gone):
        """A leadership takes the key that nobody has, and raises the epoch by one."""
        if b"leader" in puts:
            if self.is_led or int(puts.get(b"epoch", b"0")) != self.epoch + 1:
                self._fault(f"a leadership began in epoch {puts.get(b'epoch')}, where the greatest is {self.epoch}, which leads: {self.is_led}")
            self.is_led, self.epoch = True, int(puts.get(b"epoch", b"0"))
        if b"leader" in gone:
            self.is_led = False

    def _append(self, found, end):
        """An append is of the epoch that leads, begins at the end, has no gaps, and moves the end behind it."""
        for value in found:
            try:
                batch = whole(value, lambda *part: self.parts.get(b"parts/%016x/%d/%08x" % part))
            except Broken as fault:
                self._fault(str(fault))
                continue
            place, behind, epoch = span(batch)
            if epoch != self.epoch or not self.is_led:
                self._fault(f"a batch of epoch {epoch} was appended where {f'epoch {self.epoch} leads' if self.is_led else 'nobody leads'}")
            if place != self.end or place in self.log:
                self._fault(f"a batch was put at place {place} where the log ends at {self.end}")
            self._keep(place, behind, epoch, batch)
        if end is not None and int(end) != self.end:
            self._fault(f"the end became {int(end)} where the log ends at {self.end}")

    def _keep(self, place, behind, epoch, batch):
        self.log[place], self.end = Standing(behind, epoch, digest(batch)), behind
        try:
            self.records.take(place, batch)
        except Refused as refused:
            self._fault(f"the batch at place {place} is refused: {refused}")
        with open(self.path, "ab") as file:
            file.write(batch)
        self.size += len(batch)
        self.size_at[behind] = self.size

    def _drop(self, image, gone):
        """Batches go only with an image that stands for all before its place, where a batch ends."""
        if image is None:
            if gone:
                self._fault(f"{len(gone)} batches were dropped, and no image came")
            return
        before, self.image = self.image, int(image.split()[0])
        if self.image <= before or self.image not in self.size_at:
            self._fault(f"an image of place {self.image} came, behind one of {before}, of the log up to {self.end}")
        if gone != {place for place in self.log if before <= place < self.image}:
            self._fault(f"an image of place {self.image} dropped {len(gone)} batches, which aren't those before it")
        start = b"parts/image/%016x/" % self.image
        self.images.append((self.image, b"".join(self.parts[key] for key in sorted(self.parts) if key.startswith(start))))

    def bytes(self):
        """All batches of the log, one behind the other."""
        if not self.size:
            return b""
        with open(self.path, "rb") as file:
            return file.read()
