"""The log as it stands in etcd: batches by the place of the first record, and the image of those that were dropped; in parts where
they are larger than etcd takes at once."""
import hashlib
import struct

from lib.store import Get, MadeAt, Put, ValueIs

PART = 1 << 20           # bytes; etcd takes 1.5 MiB in a request, all keys and values together
TOGETHER = 100           # batches in an append, of a part's bytes together; etcd takes 128 operations
READ = 50                # batches in a read
HEAD = 61                # bytes of a batch before its records
IN_PARTS = 0xFF          # what stands for a batch of several parts begins with this, and no batch does


class Broken(Exception):
    """What stands in etcd isn't the log that the transactions leave."""


class Dropped(Exception):
    """An image stands for the batches that were to be read."""


def at_place(place):
    return b"log/%016x" % place


def span(batch):
    """Where a batch begins, where it ends, and its epoch."""
    base, _, epoch = struct.unpack_from(">qii", batch)
    return base, base + struct.unpack_from(">i", batch, 23)[0] + 1, epoch


def part_key(prefix, place, epoch, at):
    return prefix + b"parts/%016x/%d/%08x" % (place, epoch, at)


def value_for(etcd, prefix, compare, batch):
    """What is put at a batch's place: itself, or its head where it was put in parts, as far as the comparison held."""
    if len(batch) <= PART:
        return batch
    place, _, epoch = span(batch)
    count = -(-len(batch) // PART)
    for at in range(count):
        etcd.transact([compare], [Put(part_key(prefix, place, epoch, at), batch[at * PART:(at + 1) * PART])], [])
    return struct.pack(">BI", IN_PARTS, count) + batch[:HEAD]


def whole(value, part):
    """The batch for which a value stands, where `part` gives the parts by place, epoch and number."""
    if value[0] != IN_PARTS:
        return value
    count, head = struct.unpack_from(">I", value, 1)[0], value[5:]
    place, _, epoch = span(head)
    batch = b"".join(part(place, epoch, at) or b"" for at in range(count))
    if batch[:HEAD] != head or len(batch) != 12 + struct.unpack_from(">i", batch, 8)[0]:
        raise Broken(f"the parts of the batch at place {place} aren't whole")
    return batch


def batch_of(etcd, prefix, value):
    """The batch for which a value stands in etcd."""
    def part(place, epoch, at):
        _, (read,) = etcd.transact([], [Get(part_key(prefix, place, epoch, at))], [])
        return read[0][1] if read else None
    return whole(value, part)


def number(read):
    """The number with which the value begins that was read, 0 where there is none."""
    return int(read[0][1].split()[0]) if read else 0


def look(etcd, prefix):
    """The log's end, whether somebody leads, and the place up to which an image stands for it: one linearizable read."""
    _, (end, leader, image) = etcd.transact([], [Get(prefix + b"end"), Get(prefix + b"leader"), Get(prefix + b"image")], [])
    return number(end), bool(leader), number(image)


def standing(etcd, prefix):
    """The log's end, the name of who leads or None, the greatest epoch that was led, and the place of an image: one such read."""
    keys = (b"end", b"leader", b"epoch", b"image")
    _, (end, leader, epoch, image) = etcd.transact([], [Get(prefix + key) for key in keys], [])
    name = leader[0][1].decode(errors="replace").rpartition(" ")[0] if leader else None
    return number(end), name, number(epoch), number(image)


def read(etcd, prefix, start, end):
    """The batches from `start` up to `end`, which is no later than an end that was read before. Dropped is raised where an image
    stands for some of them by now."""
    while start < end:
        found = etcd.range(prefix + at_place(start), prefix + at_place(end), READ)
        if not found:
            raise missing(etcd, prefix, start, f"no batch at place {start}, below the end {end}")
        for key, value, _ in found:
            try:
                batch = batch_of(etcd, prefix, value)
            except Broken as fault:
                raise missing(etcd, prefix, start, str(fault))
            if key != prefix + at_place(start) or span(batch)[0] != start:
                raise missing(etcd, prefix, start, f"another batch than the one of place {start}")
            yield batch
            start = span(batch)[1]


def missing(etcd, prefix, start, what):
    """Why a batch isn't there."""
    return Dropped() if look(etcd, prefix)[2] > start else Broken(what)


# ---- images

def image_part_key(prefix, offset, at):
    return prefix + b"parts/image/%016x/%08x" % (offset, at)


def offset_of(image):
    """The place up to which an image stands for the log."""
    return struct.unpack_from(">q", image)[0]


def digest(image):
    return hashlib.sha256(image).hexdigest().encode()


def image_value(image):
    """What is put for an image beside its parts: its place, its size, and a digest of it."""
    return b"%d %d %s" % (offset_of(image), len(image), digest(image))


def put_image_parts(etcd, prefix, compare, image):
    for at in range(-(-len(image) // PART)):
        part = Put(image_part_key(prefix, offset_of(image), at), image[at * PART:(at + 1) * PART])
        etcd.transact([compare], [part], [])


def same_image(prefix, read):
    """Holds as long as the image is the one that was read."""
    return ValueIs(prefix + b"image", read[0][1]) if read else MadeAt(prefix + b"image", 0)


def read_image(etcd, prefix):
    """The image that stands for the beginning of the log, None where there is none."""
    while True:
        _, (value,) = etcd.transact([], [Get(prefix + b"image")], [])
        if not value:
            return None
        offset, size, its_digest = value[0][1].split()
        parts = (etcd.transact([], [Get(image_part_key(prefix, int(offset), at))], [])[1][0] for at in range(-(-int(size) // PART)))
        image = b"".join(part[0][1] for part in parts if part)
        if digest(image) == its_digest:
            return image
        if etcd.transact([same_image(prefix, value)], [], [])[0]:
            raise Broken(f"the image of place {int(offset)} isn't whole")
