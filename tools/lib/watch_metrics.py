"""What a look showed (observed.py), for Prometheus by its own client library (Debian: python3-prometheus-client)."""
from prometheus_client.core import GaugeMetricFamily

STATES = ("active", "stopping", "fenced", "not registered")
UNTOLD = ("not fenced", "fenced, or not registered")     # where the log isn't told


class Collector:
    """Gives the latest look's figures at each scrape; what isn't told has no sample."""

    def __init__(self, latest):
        self.latest = latest

    def describe(self):
        return []

    def collect(self):
        seen = self.latest()
        yield gauge("looked_timestamp_seconds", "When the daemons were looked at.", seen.when)
        yield from nodes(seen)
        yield from log(seen)
        if seen.metadata:
            yield from cluster(seen)


def gauge(name, what, value=None):
    return GaugeMetricFamily(f"pibranog_{name}", what, value=value)


def by(name, what, label, pairs):
    family = GaugeMetricFamily(f"pibranog_{name}", what, labels=[label])
    for value, number in pairs:
        if number is not None:
            family.add_metric([value], number)
    return family


def nodes(seen):
    every = seen.nodes
    yield by("node_up", "Whether the daemon answers a read.", "node", [(it.address, bool(it.replies)) for it in every])
    yield by("node_leads", "Whether the daemon takes writes.", "node", [(it.address, it.leads) for it in every])
    yield by("node_link_up", "Whether the daemon's link writes its status.", "node", [(it.address, it.status is not None) for it in every if it.status or it.silent])
    yield by("node_store_up", "Whether the link's store answers.", "node", [(it.address, it.status["store"]["answers"]) for it in every if it.status])
    yield by("node_end", "The place up to which the node has the log.", "node", [(it.address, it.end) for it in every])
    yield by("node_behind", "How many places of the log the node lacks.", "node", [(it.address, seen.behind(it)) for it in every])
    yield by("node_answered_seconds", "How long ago the daemon answered its link.", "node", [(it.address, it.answered) for it in every])


def log(seen):
    told = seen.log or {}
    for name, key, what in (("log_end", "end", "The place behind the log's last record."), ("image_end", "image", "The place up to which an image stands for the log."),
                            ("leader_epoch", "epoch", "The greatest epoch that was led.")):
        if key in told:
            yield gauge(name, what, told[key])
    yield gauge("leaders", "How many daemons take writes.", len(seen.leaders))


def cluster(seen):
    states = [seen.state_of(broker) for broker in seen.brokers]
    told = STATES if seen.registered is not None else UNTOLD
    yield by("brokers", "Brokers by their state.", "state", [(state, states.count(state)) for state in told])
    yield by("broker_active", "Whether the broker is neither fenced nor stopping.", "broker",
             [(str(broker), state in ("active", "not fenced")) for broker, state in zip(seen.brokers, states)])
    yield by("broker_partitions_led", "How many partitions the broker leads.", "broker",
             [(str(broker), leads) for broker, (leads, _, _) in seen.loads().items()])
    yield gauge("topics", "Topics.", len(seen.metadata.topics))
    yield gauge("partitions", "Partitions of all topics.", len(seen.partitions))
    for name, what, found in (("without_leader", "Partitions that nobody leads.", seen.without_leader()),
                              ("under_minimum", "Partitions with fewer replicas in sync than their topic wants.", seen.under_minimum()),
                              ("reassigned", "Partitions under reassignment.", seen.reassigned()),
                              ("not_led_by_first", "Partitions that another broker leads than their first replica.", seen.not_led_by_first())):
        if found is not None:
            yield gauge(f"partitions_{name}", what, len(found))
