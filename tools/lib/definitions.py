"""Files of definitions (crates/NAME/specs): what they cite, how long they are, what each begins with; and the part of
docs/DEFINITIONS.md that is written from this. What stands in specs/inner is left out, since private clauses alone cite it."""
import glob
import os
import re

from lib import ROOT

CRATES = os.path.join(ROOT, "crates")
PAGE = os.path.join(ROOT, "docs/DEFINITIONS.md")
USE = re.compile(r"^(?:pub |ghost )?use Rattle\.((?:kr|law)_\w+)\.specs\.([\w.]+)", re.M)
PROGRAM = "kr_words/src/running.rt"
# The files whose contracts are to be believed by who relies on a call.
CALLS = {
    "the program: `kr_words::run`": [PROGRAM],
    "a planner: `kr_change::elect`, `build`": ["kr_change/src/electing.rt", "kr_change/src/building.rt"],
    "a planner: `kr_place::place`": ["kr_place/src/placing.rt"],
    "a tool: `kr_record::decode`": ["kr_record/src/reading.rt"],
    "a tool: `kr_batch::decode`": ["kr_batch/src/decoding.rt"],
    "a tool: `kr_snapshot::write`, `Reader`, `Writer`": ["kr_snapshot/src/writing.rt", "kr_snapshot/src/reader.rt", "kr_snapshot/src/writer.rt"],
    "a tool: `kr_dump::dump`": ["kr_dump/src/dumping.rt"],
    "a host: `kr_engine::Engine`": ["kr_engine/src/engine.rt"],
    "`kr_stream::Reader`, `write_frame`": ["kr_stream/src/reader.rt", "kr_stream/src/output.rt"],
}


def text_of(path):
    with open(os.path.join(CRATES, path), encoding="utf-8") as file:
        return file.read()


def cited(text):
    """The files that a text's `use` lines name, but for inner ones; a module of types that the code declares is none."""
    for crate, module in USE.findall(text):
        parts = [part for part in module.split(".") if part]
        while parts and parts[0] not in ("declared", "inner"):
            path = f"{crate}/specs/{'/'.join(parts)}.antt"
            if os.path.exists(os.path.join(CRATES, path)):
                yield path
                break
            parts.pop()


def lines_of(path):
    """Its lines, without comments, blank lines and imports."""
    kept = (line.strip() for line in text_of(path).split("\n"))
    return sum(1 for line in kept if line and not line.startswith(("--", "use ", "pub mod ")))


def walk(path, by, order, seen):
    """Puts a file behind all that it cites."""
    if path in seen:
        return
    seen[path] = by
    for other in cited(text_of(path)):
        walk(other, path, order, seen)
    order.append(path)


def reached(starts):
    """The files that the contracts of these sources reach, in reading order, and the file that first brings each."""
    order, seen = [], {}
    for start in starts:
        for path in cited(text_of(start)):
            walk(path, start, order, seen)
    return order, seen


# ---- the page


def first_comment(path):
    """The comment that a file begins with, in one line."""
    found = re.match(r"(?:--[^\n]*\n)+", text_of(path))
    said = " ".join(line[2:].strip() for line in found[0].strip().split("\n")) if found else ""
    return re.sub(r"\bthis project's own\b", "own", re.sub(r"\bThis project's own\b", "Own", said))


def crates():
    with open(os.path.join(ROOT, "crates.txt"), encoding="utf-8") as file:
        return re.findall(r"^((?:kr|law)_\w+)[^\n#]*:", file.read(), re.M)


def files_of(crate):
    found = glob.glob(f"{CRATES}/{crate}/specs/**/*.antt", recursive=True)
    paths = sorted(os.path.relpath(path, CRATES) for path in found)
    return [path for path in paths if "/inner" not in path and not path.endswith("/Lib.antt")]


def counts():
    """The table of what has to be believed by call."""
    lines = ["| call | files | lines |", "|---|---|---|"]
    for call, starts in CALLS.items():
        order, _ = reached(starts)
        lines.append(f"| {call} | {len(order)} | {sum(map(lines_of, order)):,} |")
    return "\n".join(lines) + "\n"


def shared_end(comments):
    """What three comments or more all end with, from a comma on; nothing where they don't."""
    if len(comments) < 3:
        return ""
    end = os.path.commonprefix([comment[::-1] for comment in comments])[::-1]
    found = re.search(r", (.*)", end, re.S)
    return found[0] if found else ""


def without_own(comment):
    """A comment without what it ends with where the file is this project's own, and whether it is."""
    told = re.sub(r"(?: Own\.| \(own\)\.)$", "", comment).rstrip(".") + "."
    return told, told != comment


def listing():
    """A heading for each crate with definitions, and a line for each of its files; what all of these end with stands once."""
    program = set(reached([PROGRAM])[0])
    parts = []
    for crate in crates():
        said = {path: first_comment(path) for path in files_of(crate)}
        end = shared_end(list(said.values()))
        lines = [f"Each {end[2:]}\n\n"] if end else []
        for path, comment in said.items():
            name = path.split("/specs/")[1][:-len(".antt")]
            told, is_own = without_own(comment[:len(comment) - len(end)] + "." if end else comment)
            lines.append(f"- `{name}` ({lines_of(path)}{'*' if path in program else ''}{'°' if is_own else ''}): {told}\n")
        if said:
            parts.append(f"### {crate}\n\n" + "".join(lines))
    return "\n".join(parts)


MARK = "<!-- written by tools/check/believed: {} -->\n"
WRITTEN = {"counts": counts, "files": listing}


def written(page):
    """The page with its written parts as they are to be."""
    for name, make in WRITTEN.items():
        begin, end = MARK.format(name), MARK.format("end of " + name)
        before, _, rest = page.partition(begin)
        _, found, after = rest.partition(end)
        if not found:
            raise SystemExit(f"docs/DEFINITIONS.md has no part {name!r}")
        page = f"{before}{begin}\n{make()}\n{end}{after}"
    return page
