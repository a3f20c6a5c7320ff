"""Values as Kafka's protocol has them: numbers with the high byte first, compact texts and lists (docs/FORMATS.md)."""
import struct
from typing import Callable, Iterable, List, Optional, TypeVar

Item = TypeVar("Item")


def uvarint(number: int) -> bytes:
    """A number in groups of seven bits, the lowest first."""
    out = b""
    while number > 127:
        out += bytes([number & 127 | 128])
        number >>= 7
    return out + bytes([number])


def text(value: Optional[str]) -> bytes:
    """A text behind its length, or null."""
    if value is None:
        return b"\0"
    data = value.encode()
    return uvarint(len(data) + 1) + data


def array(items: Iterable[bytes]) -> bytes:
    """A list of items, each in bytes."""
    parts = list(items)
    return uvarint(len(parts) + 1) + b"".join(parts)


def ids(numbers: Iterable[int]) -> bytes:
    """A list of ids of brokers."""
    return array(struct.pack(">i", number) for number in numbers)


class Reading:
    """Takes values off the front of bytes."""

    def __init__(self, data: bytes) -> None:
        self.data, self.at = data, 0

    def take(self, count: int) -> bytes:
        """So many bytes."""
        piece = self.data[self.at:self.at + count]
        if len(piece) < count:
            raise ValueError("what comes is too short")
        self.at += count
        return piece

    def number(self, size: int) -> int:
        """A number with a sign, of so many bytes."""
        return int.from_bytes(self.take(size), "big", signed=True)

    def uvarint(self) -> int:
        """A number in groups of seven bits."""
        number, shift = 0, 0
        while True:
            byte = self.take(1)[0]
            number |= (byte & 127) << shift
            shift += 7
            if byte < 128:
                return number

    def count(self) -> int:
        """How many items of a list follow."""
        return max(self.uvarint() - 1, 0)

    def text(self) -> str:
        """A text behind its length."""
        return self.take(self.count()).decode()

    def ids(self) -> List[int]:
        """A list of ids of brokers."""
        return [self.number(4) for _ in range(self.count())]

    def many(self, read: Callable[[], Item]) -> List[Item]:
        """A list of structures, each read so and followed by its tagged fields."""
        found = []
        for _ in range(self.count()):
            found.append(read())
            self.tags()
        return found

    def tags(self) -> None:
        """The tagged fields at the end of a structure, which are passed over."""
        for _ in range(self.uvarint()):
            self.uvarint()
            self.take(self.uvarint())
