"""What the code is to have less of, counted; docs/TESTING.md ("What may only fall") has the numbers that none may pass."""
import os
import re

from lib import ROOT, sources
from lib.sources import files_of, short, text_of

PAGE = "docs/TESTING.md"
COLUMNS = 100
BODY_LINES = 40
NAME = re.compile(r"^(?:\s*(?:abbrev|unfoldable) pub (\S+) :|pub ([^\s:]+) :|\s*pub (?:record|data) (\S+))", re.M)
BARE = re.compile(r"^\s*(?:pub(?:\(\w+\))? )?fn ([a-z]+(?:ing|ed))\b", re.M)
# These end so, and are no participles or name a thing.
OTHERS = {"feed", "need", "seed", "exceed", "proceed", "bring", "ring", "string", "nothing", "setting"}
# Public calls that hosts know by these names: the committed end, the closed end, the led epoch.
KNOWN = {"kr_engine/src/engine.rt: committed", "kr_engine/src/engine.rt: closed", "kr_engine/src/engine.rt: leading"}
# What a trait's implementations are named, the trait says.
IMPLEMENTATION = re.compile(r"^impl\b[^\n]* for [^\n]*\{$.*?^\}$", re.M | re.S)
# What a number is of; a number that stands for one of a few things says which is which.
UNIT = re.compile(r"\b(?:places?|epochs?|ids?|UUID|numbers?|how many|how often|counts?|factor|milliseconds|bytes|bits|offset|index|"
                  r"port|level|version|tip|at least \d|\d or \d|0 |1 |2 )", re.I)


def shared_names():
    """Names of definitions that stand in several files, each with these."""
    where = {}
    for path in files_of("specs/**/*.antt"):
        for found in NAME.findall(text_of(path)):
            where.setdefault("".join(found), set()).add(short(path))
    return several(where)


def shared_types():
    """The same of public structs, enums and traits."""
    where = {}
    for item in sources.all_items():
        if item.kind in ("struct", "enum", "trait"):
            where.setdefault(item.name, set()).add(short(item.path))
    return several(where)


def several(where):
    return [f"{name}: {', '.join(sorted(paths))}" for name, paths in sorted(where.items()) if len(paths) > 1]


def bare_functions():
    own = ((path, IMPLEMENTATION.sub("", text_of(path))) for path in files_of("src/**/*.rt"))
    found = [f"{short(path)}: {name}" for path, text in own for name in BARE.findall(text) if name not in OTHERS]
    return [one for one in found if one not in KNOWN]


def long_functions():
    return [f"{short(path)}:{at + 1}: {name}, {lines} lines" for path in files_of("src/**/*.rt")
            for at, name, _, lines in sources.functions_of(path) if lines > BODY_LINES]


def long_lines():
    """Lines of clauses, from `requires` or `ensures` to the brace that ends it."""
    found = []
    for path in files_of("src/**/*.rt"):
        depth = None
        for at, line in enumerate(text_of(path).split("\n"), 1):
            if depth is None and re.match(r"\s*(?:requires|ensures)\b", line):
                depth = 0
            if depth is not None:
                if len(line) > COLUMNS:
                    found.append(f"{short(path)}:{at}: {len(line)} columns")
                depth += line.count("{") - line.count("}")
                if depth <= 0 and "}" in line:
                    depth = None
    return found


def numbers_by_reference():
    """Public functions that take a number by reference."""
    found = []
    for path in files_of("src/**/*.rt"):
        for at, name, head, _ in sources.functions_of(path):
            if head.lstrip().startswith("pub fn"):
                taken = re.findall(rf"(\w+): &(?:'\w+ )?({sources.NUMBER})\b", re.split(r"\b(?:requires|ensures)\b", head)[0])
                if taken:
                    found.append(f"{short(path)}:{at + 1}: {name} ({', '.join(f'{one}: &{type_}' for one, type_ in taken)})")
    return found


def bare_items():
    return [str(item) for item in sources.all_items() if not item.said]


def bare_numbers():
    """Fields of public structs that are numbers, and whose docstring doesn't say of what."""
    numbers = (item for item in sources.all_items() if item.kind == "field" and re.search(rf"\b{sources.NUMBER}\b", item.type))
    return [f"{item} ({item.type}): {item.said or 'no docstring'}" for item in numbers if not UNIT.search(item.said)]


# What is counted, by the word of tools/check/house or tools/check/docstrings that lists it.
COUNTS = {
    "names": ("names of definitions in several files of specs/", shared_names),
    "types": ("names of public types in several files", shared_types),
    "participles": ("functions named by a participle alone", bare_functions),
    "functions": (f"functions with more than {BODY_LINES} lines in their body", long_functions),
    "lines": (f"lines of clauses over {COLUMNS} columns", long_lines),
    "references": ("public functions that take a number by reference", numbers_by_reference),
}
DOCSTRINGS = {
    "items": ("public items, variants, methods and fields without a docstring", bare_items),
    "units": ("fields of public structs that are numbers without a unit", bare_numbers),
}


def bounds():
    """The numbers that the page has."""
    table = text_of(os.path.join(ROOT, PAGE)).split("## What may only fall", 1)[-1].split("\n## ", 1)[0]
    return {what: int(number.replace(",", "")) for what, number in re.findall(r"^\| ([^|]+?) \| ([\d,]+) \|$", table, re.M)}


def counted(counts):
    """Of each that is counted what it is, its number, and the page's; none where the page has none."""
    known = bounds()
    return [(what, len(found()), known.get(what)) for what, found in counts.values()]


def run(counts, words, usage):
    """What a script over these counts prints, and its status."""
    if words:
        if len(words) > 1 or words[0] not in counts:
            raise SystemExit(usage)
        print("\n".join(counts[words[0]][1]()))
        return 0
    told = counted(counts)
    for what, number, bound in told:
        print(f"{what}: {number} ({'none' if bound is None else bound} in {PAGE})")
    return 1 if any(bound is None or number > bound for _, number, bound in told) else 0
