"""Batches and images in bytes (docs/FORMATS.md), as another controller may have written them: for trials and measures alone. No program
of this repository makes a batch of records that somebody names."""
import struct

from pibranog.wire import array, ids, text, uvarint

TABLE = []
for number in range(256):
    for _ in range(8):
        number = number >> 1 ^ (0x82F63B78 if number & 1 else 0)
    TABLE.append(number)


def crc32c(data):
    rest = 0xFFFFFFFF
    for byte in data:
        rest = TABLE[(rest ^ byte) & 255] ^ rest >> 8
    return rest ^ 0xFFFFFFFF


def varint(number):
    return uvarint(number << 1 if number >= 0 else -number * 2 - 1)


def value(key, version, fields):
    """A record's value, without tagged fields."""
    return uvarint(1) + uvarint(key) + uvarint(version) + fields + b"\0"


def broker(broker_id, epoch):
    """An active broker with no listener, no feature and no rack."""
    return value(0, 1, struct.pack(">iQQq", broker_id, 0, broker_id, epoch) + array([]) + array([]) + b"\0" + b"\0\0")


def topic(name, number):
    return value(2, 0, text(name) + struct.pack(">QQ", 0, number))


def partition(index, number, replicas, leader):
    """All replicas are in sync, and none is added or removed; both epochs are 0."""
    lists = ids(replicas) + ids(replicas) + ids([]) + ids([])
    directories = array([bytes(16)] * len(replicas))
    return value(3, 2, struct.pack(">iQQ", index, 0, number) + lists + struct.pack(">iii", leader, 0, 0) + directories)


def setting(key, text_of_it):
    """Of every broker."""
    return value(4, 0, b"\4" + text("") + text(key) + text(text_of_it))


# of a metadata transaction (KIP-868)
BEGIN, END = value(23, 0, b""), value(24, 0, b"")


def batch(base, values):
    records = b""
    for at, one in enumerate(values):
        record = b"\0" + varint(0) + varint(at) + varint(-1) + varint(len(one)) + one + varint(0)
        records += varint(len(record)) + record
    body = struct.pack(">hiqqqhii", 0, len(values) - 1, 0, 0, -1, -1, -1, len(values)) + records
    return struct.pack(">qiibI", base, len(body) + 9, 0, 2, crc32c(body)) + body


def image(offset, values):
    parts = [batch(at, values[at:at + 1_000]) for at in range(0, len(values), 1_000)]
    return struct.pack(">qq", offset, len(values)) + b"".join(parts)
