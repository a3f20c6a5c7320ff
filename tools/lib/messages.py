"""Messages of requests: one of each kind, and those of a stored session."""
from lib import client
from lib.frames import bytes_of, frames

# One request of each kind, and what is none.
WORDS = """register 1 --cluster c1
register 2 --cluster c1 --host h2 --rack a
register 3 --cluster other
register 3 --cluster c1
heartbeat 1 0
heartbeat 2 1
heartbeat 3 2
heartbeat 3 9
create orders --on 1,2/2,3 --set note=x
create orders --partitions 2
create sales --partitions 3 --factor 2
create dry --partitions 1 --dry
describe
describe orders nothing
alter min.insync.replicas=2
alter --topic orders note
alter --topic orders retention=1 --dry
alter --broker 1 x=y
elect orders 0,1,5
reassign orders 0 3,1
reassign orders 0
reassign orders 1 9
heartbeat 1 0 --offset 99 --fence
elect orders 0
describe orders sales""".split("\n")


def messages_of(path):
    """The requests of a session, up to where another leads, in order."""
    found = []
    for kind, body in frames(bytes_of(path)):
        if kind in (4, 5, 6):
            break
        if kind == 8:
            found.append(body[12:])
    return found


def own_messages():
    found = [client.message_of(words) for words in WORDS]
    # A key that isn't served, a version that isn't, a message that is cut off, and an empty one.
    return found + [bytes.fromhex(text) for text in ("0012000300000001ffff00", "003e000200000001ffff00", "003e000300000001ff", "")]
