"""What stands in the sources of the crates (crates/NAME/src): functions with the lines of their bodies, public items, variants,
methods and fields, and what the docstring of each says. Sources are read as `rt fmt` leaves them."""
import functools
import glob
import os
import re

from lib import ROOT

CRATES = os.path.join(ROOT, "crates")
NUMBER = r"[iu](?:8|16|32|64|128|size)"
ITEM = re.compile(r"^( *)pub (?:const fn|fn|struct|enum|trait|const|type) (\w+)")
FUNCTION = re.compile(r"^( *)(?:pub(?:\(\w+\))? )?(?:const )?fn (\w+)")
FIELD = re.compile(r"^    pub (\w+): (.+?),?$")
VARIANT = re.compile(r"^    ([A-Z]\w*)(?: \{.*|\(.*|,)?$")
BLOCK = re.compile(r"^pub (struct|enum|trait) (\w+)[^;]*$")


def files_of(kind):
    """The files below crates/NAME of this form, in order."""
    return sorted(glob.glob(os.path.join(CRATES, "*", kind), recursive=True))


@functools.cache
def text_of(path):
    with open(path, encoding="utf-8") as file:
        return file.read()


def short(path):
    return os.path.relpath(path, CRATES)


def top_of(lines, at):
    """The first line of what stands in this one, its attributes included, of which one may have several lines."""
    top = at
    while True:
        begin = next((n for n in range(top - 1, max(top - 8, -1), -1) if lines[n].strip().startswith("#[")), None)
        attribute = [] if begin is None else [line.strip() for line in lines[begin:top]]
        text = " ".join(attribute)
        if not all(attribute) or not text.endswith("]") or text.count("[") != text.count("]"):
            return top
        top = begin


def said_of(lines, at):
    """The docstring of what stands in this line, in one line; nothing where it is bare. The text of an error says what it is."""
    top = top_of(lines, at)
    error = re.search(r'#\[error\("(.*?)"', "\n".join(lines[top:at]), re.S)
    said = []
    while top > 0 and lines[top - 1].strip().startswith("///"):
        top -= 1
        said.insert(0, lines[top].strip()[3:].strip())
    return " ".join(said) or (error[1] if error else "")


def end_of(lines, at):
    """The line in which what begins in this one is closed by a brace of the same indent."""
    indent = re.match(" *", lines[at])[0]
    return next((n for n in range(at + 1, len(lines)) if lines[n].startswith(indent + "}")), at)


class Item:
    """A public item, a variant of a public enum, a method of a public trait, or a public field."""

    def __init__(self, path, at, kind, name, type_, said):
        self.path, self.at, self.kind, self.name, self.type, self.said = path, at, kind, name, type_, said

    def __str__(self):
        return f"{short(self.path)}:{self.at + 1}: {self.kind} {self.name}"


def items_of(path):
    """What is public there."""
    lines = text_of(path).split("\n")
    for at, line in enumerate(lines):
        found = ITEM.match(line)
        if found:
            kind = "function" if " fn " in line else line.split()[1]
            yield Item(path, at, kind, found[2], "", said_of(lines, at))
        block = BLOCK.match(line)
        if block and not line.endswith("}"):
            yield from parts_of(path, lines, at, block[1], block[2])


def parts_of(path, lines, start, kind, owner):
    """The public fields of a struct, the variants of an enum, the methods of a trait."""
    for at in range(start + 1, end_of(lines, start)):
        line = lines[at]
        if kind == "struct":
            found = FIELD.match(line)
            if found:
                yield Item(path, at, "field", f"{owner}.{found[1]}", found[2], said_of(lines, at))
        elif kind == "enum":
            found = VARIANT.match(line)
            if found:
                yield Item(path, at, "variant", f"{owner}::{found[1]}", "", said_of(lines, at))
        elif re.match(r"    fn \w", line):
            yield Item(path, at, "function", f"{owner}::{FUNCTION.match(line)[2]}", "", said_of(lines, at))


@functools.cache
def all_items():
    return [item for path in files_of("src/**/*.rt") for item in items_of(path)]


def functions_of(path):
    """Each function: its line, its name, what stands before its body, and how many lines the body has."""
    lines = text_of(path).split("\n")
    for at, line in enumerate(lines):
        found = FUNCTION.match(line)
        if not found:
            continue
        head = head_end(lines, at, found[1])
        if lines[head].endswith("{"):
            yield at, found[2], "\n".join(lines[at:head + 1]), end_of(lines, head) - head - 1


def head_end(lines, at, indent):
    """The line in which the body of a function begins, or that ends a function without one."""
    for head in range(at, len(lines)):
        if not lines[head].startswith(indent) or not lines[head].strip():
            return at
        if lines[head][len(indent):][:1].strip() and lines[head].endswith(("{", ";")):
            return head
    return at
