"""The page of tools/watch: what a look showed (observed.py), in HTML that fetches itself anew."""
import html
import time

MOST_ROWS = 500          # of partitions that are listed one by one

STYLE = """
body { font: 15px/1.45 system-ui, "DejaVu Sans", sans-serif; margin: 1.5rem auto; max-width: 62rem; padding: 0 1rem; color: #1c2430; background: #fff; }
h1 { font-size: 1.35rem; margin: 0; } h2 { font-size: 1.05rem; margin: 1.6rem 0 .4rem; }
p { margin: .3rem 0; } .quiet { color: #687386; }
.tiles { display: flex; flex-wrap: wrap; gap: .6rem; margin: .7rem 0; }
.tile { border: 1px solid #d9dee6; border-radius: .5rem; padding: .4rem .7rem; min-width: 5.5rem; font-size: .9rem; }
.tile b { display: block; font-size: 1.25rem; }
table { border-collapse: collapse; width: 100%; } th { text-align: left; font-weight: 600; color: #687386; }
th, td { padding: .25rem .7rem .25rem 0; border-bottom: 1px solid #e6eaf0; vertical-align: top; }
#nodes td:nth-child(-n+2) { white-space: nowrap; }
.good { color: #14713d; } .bad { color: #b3261e; font-weight: 600; }
"""


def text(value, otherwise="not told"):
    return html.escape(otherwise if value is None else f"{value:,}" if isinstance(value, int) else str(value))


def cell(value, kind="", otherwise="not told"):
    """A cell's text and its class."""
    return text(value, otherwise), kind


def table(name, heads, rows):
    body = "".join("<tr>" + "".join(f'<td class="{kind}">{said}</td>' for said, kind in row) + "</tr>\n" for row in rows)
    return f'<table id="{name}"><thead><tr>{"".join(f"<th>{head}</th>" for head in heads)}</tr></thead>\n<tbody>\n{body}</tbody></table>\n'


def tile(name, label, value, is_bad=False):
    return f'<div class="tile"><b id="{name}" class="{"bad" if is_bad else ""}">{text(value)}</b>{html.escape(label)}</div>\n'


def moment(milliseconds):
    return time.strftime("%Y-%m-%d %H:%M:%S", time.gmtime(milliseconds / 1000))


def ids(numbers):
    return ",".join(map(str, numbers)) or "-"


# ---- parts

def leader_line(seen):
    if len(seen.leaders) == 1:
        name = seen.leaders[0].status["name"] if seen.leaders[0].status else None
        return f"{seen.leaders[0].address}{f' ({name})' if name else ''}", False
    return ("nobody", True) if not seen.leaders else (" and ".join(node.address for node in seen.leaders), True)


def tiles(seen):
    leader, is_bad = leader_line(seen)
    log = seen.log or {}
    under = seen.under_minimum()
    counts = [("without-leader", "without leader", seen.without_leader()), ("under-minimum", "under their minimum", under),
              ("reassigned", "under reassignment", seen.reassigned()), ("not-led-by-first", "not led by their first", seen.not_led_by_first())]
    state = tile("leader", "leads", leader, is_bad) + tile("epoch", "epoch", log.get("epoch")) + tile("end", "end of the log", log.get("end"))
    state += tile("image", "an image stands up to", log.get("image"))
    size = tile("topics", "topics", len(seen.metadata.topics) if seen.metadata else None) + tile("partitions", "partitions", len(seen.partitions) if seen.metadata else None)
    of_partitions = "".join(tile(name, label, len(found) if seen.metadata and found is not None else None, bool(found)) for name, label, found in counts)
    return f'<div class="tiles">\n{state}</div>\n<div class="tiles">\n{size}{of_partitions}</div>\n'


def node_row(seen, node):
    role = None if node.leads is None else "leads" if node.leads else "standby"
    behind, answered, store = seen.behind(node), node.answered, node.status and node.status["store"]["answers"]
    link = node.silent or (None if not node.status else "no daemon" if not node.status["daemon"] else "its store doesn't answer" if not store else "answers")
    return [cell(node.address), cell(node.status["name"] if node.status else None),
            cell("answers" if node.replies else node.fault or "doesn't answer", "good" if node.replies else "bad"),
            cell(role, "good" if node.leads else "", "doesn't say" if node.replies else "-"),
            cell(link, "bad" if node.silent or (node.status and not store) else ""), cell(node.end), cell(behind, "bad" if behind else ""),
            cell(None if answered is None else f"{answered:.1f} s ago")]


def broker_row(seen, broker, loads):
    state, record = seen.state_of(broker), (seen.registered or {}).get(broker)
    host, port, rack = seen.active.get(broker, (None, None, None))
    return [cell(str(broker)), cell(state, "good" if state in ("active", "not fenced") else "bad"),
            cell(moment(record.since) if record and record.since is not None else None), cell(str(record.epoch) if record else None),
            cell(f"{host}:{port}" if host is not None else None, otherwise="-"), cell(rack, otherwise="-"),
            *map(cell, loads)]


def what_is(seen):
    """The partitions to look at, in Metadata's order, with what is to be looked at in each."""
    found = {}
    for words, ones in (("without leader", seen.without_leader()), ("under its minimum", seen.under_minimum() or []),
                        ("under reassignment", seen.reassigned()), ("not led by its first", seen.not_led_by_first())):
        for one in ones:
            found.setdefault((one.topic, one.index), []).append(words)
    return [(one, found[one.topic, one.index]) for one in seen.partitions if (one.topic, one.index) in found]


def partition_row(seen, one, words):
    adding, removing = seen.moves.get((one.topic, one.index), ([], []))
    return [cell(one.topic), cell(str(one.index)), cell(", ".join(words), "bad" if one.leader < 0 else ""),
            cell("nobody" if one.leader < 0 else str(one.leader), "bad" if one.leader < 0 else ""), cell(ids(one.replicas)), cell(ids(one.in_sync)),
            cell(None if seen.minimum is None else str(seen.minimum[one.topic])), cell(ids(adding)), cell(ids(removing))]


def page(seen, every, is_still):
    """The whole page; it isn't fetched anew where it is still."""
    listed = what_is(seen)
    age = f"looked at {time.strftime('%Y-%m-%d %H:%M:%S', time.gmtime(seen.when))} UTC"
    shown = f"as {seen.shows.address} shows it" if seen.shows else "no daemon answers"
    refresh = "" if is_still else f'<meta http-equiv="refresh" content="{max(1, round(every))}">'
    more = f"<p>.. and {len(listed) - MOST_ROWS:,} more</p>" if len(listed) > MOST_ROWS else ""
    return f"""<!doctype html>
<html lang="en"><head><meta charset="utf-8"><title>Pibranog</title>{refresh}<style>{STYLE}</style></head><body>
<h1>Cluster <span id="cluster">{text(seen.metadata.cluster if seen.metadata else None)}</span></h1>
<p class="quiet"><span id="looked">{age}</span>, <span id="shown">{html.escape(shown)}</span></p>
{f'<p class="bad" id="fault">{html.escape(seen.fault)}</p>' if seen.fault else ""}
{tiles(seen)}
<h2>Nodes</h2>
{table("nodes", ["daemon", "name", "clients", "role", "link", "has up to", "behind", "heard of"], [node_row(seen, node) for node in seen.nodes])}
<h2>Brokers</h2>
{table("brokers", ["id", "state", "since (UTC)", "epoch", "address", "rack", "leads", "in sync", "replicas"], [broker_row(seen, *one) for one in seen.loads().items()])}
<h2>Partitions to look at</h2>
{table("listed", ["topic", "partition", "what", "leader", "replicas", "in sync", "minimum", "adding", "removing"],
       [partition_row(seen, *one) for one in listed[:MOST_ROWS]])}{more}
{"" if listed else "<p>None.</p>" if seen.metadata else "<p>Not told.</p>"}
</body></html>
"""
