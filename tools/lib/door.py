"""The door that the scripts share: messages of requests from JSON, and replies and records as JSON (python/pibranog)."""
import base64
import functools
import os

from pibranog import Door

NO_ID = "A" * 22         # sixteen bytes of zero


@functools.cache
def door_of(process):
    return Door()


def door():
    """This process's own, started once it is needed."""
    return door_of(os.getpid())


def message(key, version, body, correlation=1):
    """A request's message, without its size."""
    header = {"requestApiKey": key, "requestApiVersion": version, "correlationId": correlation, "clientId": None}
    return door().request({"requestHeader": header, "request": body})


def id_text(number):
    """An id of this number, as Kafka's JSON has it."""
    return base64.urlsafe_b64encode(number.to_bytes(16, "big")).decode().rstrip("=")


def id_number(text):
    return int.from_bytes(base64.urlsafe_b64decode(text + "=="), "big")


def records(batch):
    """The type and the data of each record of a batch, in order."""
    return [(record.get("type"), record.get("data")) for record in door().log_records(batch)]
