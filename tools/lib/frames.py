"""Frames of sessions and of the link, and sessions made of them."""
import struct


def frame(kind, body=b""):
    return struct.pack(">IB", len(body) + 1, kind) + body


def frames(data):
    """The kind and the body of each whole frame."""
    at = 0
    while at + 4 <= len(data):
        size = struct.unpack_from(">I", data, at)[0]
        yield data[at + 4], data[at + 5:at + 4 + size]
        at += 4 + size


def bytes_of(path):
    """A session's bytes: as they are, or of lines in hexadecimal."""
    with open(path, "rb") as file:
        data = file.read()
    try:
        lines = [line for line in data.decode("ascii").split("\n") if line and not line.startswith("#")]
        return b"".join(bytes.fromhex(line) for line in lines)
    except (UnicodeDecodeError, ValueError):
        return data


def end_of(batch):
    return struct.unpack_from(">q", batch)[0] + struct.unpack_from(">i", batch, 57)[0]


def session_of(messages, ends):
    """The messages as a session: each is followed by all commits that the link saw, of which those in time are taken."""
    parts = [frame(1, struct.pack(">iQIihi", 1, 7, 9000, 1, 1, 1) + b"c1"), frame(2, struct.pack(">iqq", 1, 0, 0))]
    for message in messages:
        parts.append(frame(8, struct.pack(">Iq", 1, 0) + message))
        parts += [frame(3, struct.pack(">iq", 1, end)) for end in ends]
    return b"".join(parts) + frame(10, b"")


def timeless(batch):
    """A batch without its check sum and its two times."""
    return batch[:17] + batch[21:27] + batch[43:]
