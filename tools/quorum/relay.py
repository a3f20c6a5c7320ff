"""A network between a link and the members of etcd that can be cut, or hold back what the link sends: for torture."""
import threading
import time

from between import Between, shut

LINGER = 5.0             # seconds for which a member's answer is waited for that nobody takes any more


class Relay(Between):
    """One way to one member."""

    def __init__(self, member):
        self.member, self.is_cut, self.flows = member, False, threading.Event()
        self.flows.set()
        self.open = []
        super().__init__()

    def other(self):
        if self.is_cut:
            raise OSError("the network is cut")
        return self.member

    def join(self, near, far):
        self.open = [pair for pair in self.open if pair[0].fileno() >= 0] + [(near, far)]
        threading.Thread(target=self._send, args=(near, far), daemon=True).start()
        threading.Thread(target=self._answer, args=(near, far), daemon=True).start()

    def _send(self, near, far):
        """What the link sends goes on once it flows, even where the link is gone by then."""
        try:
            while piece := near.recv(1 << 16):
                self.flows.wait()
                far.sendall(piece)
            time.sleep(LINGER)
        except OSError:
            pass
        shut(far)

    def _answer(self, near, far):
        try:
            while piece := far.recv(1 << 16):
                near.sendall(piece)
        except OSError:
            pass
        shut(near)
        near.close()

    def hold(self):
        self.flows.clear()

    def release(self):
        self.flows.set()

    def cut(self):
        self.is_cut = True
        for pair in self.open:
            for one in pair:
                shut(one)

    def mend(self):
        self.is_cut = False
