"""What a link knows, for machines (`--status FILE`): one object of JSON, which is written anew twice a second and put in its place
whole. docs/OPERATING.md has its fields. A thread of its own does it, which only reads what the link has."""
import json
import os
import threading
import time

from lib.batches import standing
from lib.store import Unknown

FORMAT = 1
EACH = 0.5               # seconds between two writings


class Status(threading.Thread):
    def __init__(self, link, options, say):
        super().__init__(daemon=True)
        self.link, self.options, self.say, self.store = link, options, say, options.store()
        self.log, self.fails = (None, None, None, None), False

    def run(self):
        while True:
            try:
                self.write(self.known())
                self.fails = False
            except OSError as fault:
                if not self.fails:
                    self.say(f"the status isn't written: {fault}")
                self.fails = True
            time.sleep(EACH)

    def known(self):
        """The log as the store showed it last, and this node."""
        try:
            self.log, answers = standing(self.store, self.options.prefix), self.link.quorum
        except Unknown:
            answers = False
        end, leader, epoch, image = self.log
        daemon, lead = self.link.daemon, self.link.lead
        where = {"file": os.path.abspath(self.options.file)} if self.options.file else {"etcd": self.options.etcd}
        return {
            "format": FORMAT, "time": time.time(), "name": self.options.name,
            "store": {**where, "prefix": self.options.prefix.decode(errors="replace"), "answers": answers},
            "log": {"end": end, "image": image, "epoch": epoch, "leader": leader},
            "leads": lead.epoch if lead else None,
            "daemon": {"end": daemon.fed, "answered": ago(daemon.heard)} if daemon else None,
        }

    def write(self, known):
        with open(f"{self.options.status}.new", "w", encoding="utf-8") as file:
            json.dump(known, file)
            file.write("\n")
        os.replace(f"{self.options.status}.new", self.options.status)


def ago(heard):
    """How many seconds ago a time of the steady clock was; None for none."""
    return None if heard is None else round(time.monotonic() - heard, 3)
