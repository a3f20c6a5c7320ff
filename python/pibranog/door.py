"""The door to the crates' own calls: frames to and from the program `kr_door`."""
import json
import os
import shutil
import struct
import subprocess
import threading
from types import TracebackType
from typing import Any, Iterable, List, Optional, Sequence, Tuple, Type

from pibranog.values import Elected, Partition
from pibranog.wire import Reading, array, ids, text

LOG_LINES, IMAGE_LINES, FOLD, IMAGE_BATCHES, ELECT, PLACE, PLAN, REPLY, REQUEST = range(1, 10)
CHOICES = ("InSync", "Eligible", "Unclean", "Nobody")
HERE = os.path.dirname(os.path.dirname(os.path.dirname(os.path.abspath(__file__))))


class Refused(Exception):
    """A question that isn't answered: the place in its body that is at fault, 0 where that is none, and the refusal's name."""

    def __init__(self, place: int, name: str) -> None:
        super().__init__(f"{name} at {place}")
        self.place, self.name = place, name


class Closed(Exception):
    """The program ended, with this status."""

    def __init__(self, status: int) -> None:
        super().__init__(f"kr_door ended with status {status}")
        self.status = status


class Missing(Exception):
    """The program isn't there."""

    def __init__(self, name: str) -> None:
        super().__init__(f"{name} isn't there: make build leaves kr_door in bin/; or name another one by KR_DOOR")
        self.name = name


def program() -> List[str]:
    """The program: that of KR_DOOR, else the one that make build leaves, else the one on the PATH."""
    built = os.path.join(HERE, "bin", "kr_door")
    return [os.environ.get("KR_DOOR") or (built if os.path.exists(built) else shutil.which("kr_door") or "kr_door")]


class Door:
    """The program `kr_door`, which answers one question after the other, of any thread, until it is closed. Missing is raised where it
    isn't there."""

    def __init__(self, words: Optional[Sequence[str]] = None) -> None:
        words = words or program()
        try:
            self.process = subprocess.Popen(words, stdin=subprocess.PIPE, stdout=subprocess.PIPE)
        except OSError:
            raise Missing(words[0]) from None
        self.turn = threading.Lock()

    def __enter__(self) -> "Door":
        return self

    def __exit__(self, kind: Optional[Type[BaseException]], fault: Optional[BaseException], trace: Optional[TracebackType]) -> None:
        self.close()

    def close(self) -> int:
        """Ends the program, and gives its status: 0 where all questions were whole."""
        assert self.process.stdin and self.process.stdout
        try:
            self.process.stdin.close()
        except BrokenPipeError:
            pass
        status = self.process.wait()
        self.process.stdout.close()
        return status

    def ask(self, kind: int, body: bytes) -> bytes:
        """The answer to a question of the kind with this number. Refused is raised with its refusal, Closed where the program
        ended."""
        with self.turn:
            return self._answer(kind, body)

    def _answer(self, kind: int, body: bytes) -> bytes:
        assert self.process.stdin and self.process.stdout
        try:
            self.process.stdin.write(struct.pack(">IB", len(body) + 1, kind) + body)
            self.process.stdin.flush()
        except BrokenPipeError:
            raise Closed(self.process.wait()) from None
        head = self.process.stdout.read(5)
        size = struct.unpack(">I", head[:4])[0] if len(head) == 5 else 0
        answer = self.process.stdout.read(size - 1) if size else b""
        if size == 0 or len(answer) < size - 1:
            raise Closed(self.process.wait())
        if head[4] == 1:
            raise Refused(struct.unpack_from(">Q", answer)[0], answer[8:].decode())
        return answer

    def log_records(self, batches: bytes) -> List[dict[str, Any]]:
        """The records of a log's batches, as `kafka-dump-log --cluster-metadata-decoder` shows them."""
        return [json.loads(line) for line in self.ask(LOG_LINES, batches).splitlines()]

    def image_records(self, image: bytes) -> List[dict[str, Any]]:
        """The records of an image."""
        return [json.loads(line) for line in self.ask(IMAGE_LINES, image).splitlines()]

    def fold(self, batches: bytes) -> bytes:
        """The image that a log's batches make, from place 0 on."""
        return self.ask(FOLD, batches)

    def image_batches(self, image: bytes) -> bytes:
        """The batches of an image: a log that makes it."""
        return self.ask(IMAGE_BATCHES, image)

    def elect(self, partition: Partition, active: Iterable[int], preferred: bool = False, unclean: bool = False,
              restarted: int = -1) -> Elected:
        """Who leads the partition once these brokers alone are active (KIP-966): with `preferred` the first replica where it can,
        with `unclean` any active replica in the end; `restarted` is a broker that has restarted uncleanly."""
        answer = Reading(self.ask(ELECT, b"".join((
            ids(partition.replicas), ids(partition.in_sync), ids(partition.eligible), struct.pack(">i", partition.leader),
            ids(active), bytes([preferred, unclean]), struct.pack(">i", restarted), b"\0"))))
        leader = answer.number(4)
        return Elected(leader, CHOICES[answer.number(1)])

    def place(self, brokers: Iterable[Tuple[int, Optional[str]]], factor: int, start: int = 0, index: int = 0) -> List[int]:
        """The brokers of a partition's replicas, of these with their racks, the first one preferred."""
        listed = array(struct.pack(">i", broker) + text(rack) + b"\0" for broker, rack in brokers)
        answer = Reading(self.ask(PLACE, struct.pack(">qih", start, index, factor) + listed + b"\0"))
        return answer.ids()

    def plan(self, image: bytes, percent: int) -> List[Tuple[str, int]]:
        """The partitions that a round of the balancer gives back to their preferred leaders, where more than so many of a hundred
        of a broker's are led by others: each by its topic's name and its index."""
        answer = Reading(self.ask(PLAN, bytes([percent]) + image))
        return answer.many(lambda: (answer.text(), answer.number(4)))

    def reply(self, key: int, version: int, message: bytes) -> dict[str, Any]:
        """A reply's message, without its size, to a request of this key and version: `responseHeader` and `response`, each as Kafka's
        JSON converters of the message schemas show it."""
        return json.loads(self.ask(REPLY, struct.pack(">hh", key, version) + message))

    def request(self, request: dict[str, Any]) -> bytes:
        """The message, without its size, of a request: `requestHeader`, which names its key and version, and `request`, each as
        Kafka's JSON converters of the message schemas read it. Refused is raised as `UnknownRequest` where that key and version
        are neither served nor 75 and 0, as `BadField` where a field is absent or has no value of its type."""
        return self.ask(REQUEST, json.dumps(request).encode())
