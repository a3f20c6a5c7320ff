"""Brokers that register with whichever node leads, and are heard of each second as long as one does."""
import threading
import time

from lib import client
from lib.client import NOT_CONTROLLER
from lib.nodes import until

ACTIVE = (1, 2, 3)


class Brokers(threading.Thread):
    """Brokers that are active as long as somebody leads."""

    def __init__(self, nodes):
        super().__init__(daemon=True)
        self.nodes, self.at, self.epochs, self.stop = nodes, 0, {}, False

    def register(self):
        for broker in ACTIVE:
            until(f"broker {broker} is registered", lambda: self.is_registered(broker))

    def is_registered(self, broker):
        try:
            error, line = self.nodes[self.at].ask(f"register {broker} --host h{broker}")[0]
        except client.NoReply:
            error = NOT_CONTROLLER
        if error:
            self.at = (self.at + 1) % len(self.nodes)
            return False
        self.epochs[broker] = int(line.split("epoch ")[1])
        return True

    def run(self):
        while not self.stop:
            try:
                errors = [self.heartbeat(broker, epoch) for broker, epoch in list(self.epochs.items())]
            except client.NoReply:
                errors = [NOT_CONTROLLER]
            if any(errors):
                self.at = (self.at + 1) % len(self.nodes)
            time.sleep(0.1 if any(errors) else 1.0)

    def heartbeat(self, broker, epoch):
        asked = client.request_of(f"heartbeat {broker} {epoch}")
        one = client.Connection(self.nodes[self.at].address, 3)
        try:
            return asked.told(one.ask(asked.message()))[0][0]
        finally:
            one.socket.close()
