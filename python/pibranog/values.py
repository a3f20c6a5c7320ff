"""Partitions, and who leads them."""
from typing import Any, Iterable, Iterator, NamedTuple, Tuple


class Partition(NamedTuple):
    """What an election reads of a partition."""
    topic: str
    index: int
    replicas: Tuple[int, ...]
    in_sync: Tuple[int, ...]
    eligible: Tuple[int, ...]
    leader: int

    @property
    def is_under_replicated(self) -> bool:
        """Some replica isn't in sync."""
        return len(self.in_sync) < len(self.replicas)


class Elected(NamedTuple):
    """Who leads, -1 for nobody, and among whom a leader was found: `InSync`, `Eligible`, `Unclean` or `Nobody`."""
    leader: int
    choice: str


def partitions_of(records: Iterable[dict[str, Any]]) -> Iterator[Partition]:
    """The partitions of an image, by the records that `Door.image_records` gives."""
    names: dict[str, str] = {}
    for record in records:
        data = record.get("data", {})
        if record.get("type") == "TOPIC_RECORD":
            names[data["topicId"]] = data["name"]
        if record.get("type") == "PARTITION_RECORD":
            yield Partition(names[data["topicId"]], data["partitionId"], tuple(data["replicas"]), tuple(data["isr"]),
                            tuple(data.get("eligibleLeaderReplicas") or ()), data["leader"])
