"""docs/BENCH.md has a section for each measure, with the commit, the day and the machine that it is of. Who measures puts its own
section; the others stay as they are."""
import datetime
import os
import re
import subprocess

from lib import ROOT

PAGE = os.path.join(ROOT, "docs/BENCH.md")


def commit():
    """The commit that stands here, with a `+` where something differs from it."""
    def git(*words):
        return subprocess.run(["git", *words], cwd=ROOT, stdout=subprocess.PIPE, text=True).stdout.strip()
    return git("rev-parse", "--short=8", "HEAD") + ("+" if git("status", "--porcelain", "--", "crates", "crates.txt") else "")


def machine():
    with open("/proc/cpuinfo", encoding="utf-8") as file:
        model = re.search(r"^model name\s*:\s*(.*)$", file.read(), re.M)
    with open("/proc/loadavg", encoding="ascii") as file:
        load = file.read().split()[0]
    return f"{os.cpu_count()} processors ({model[1] if model else 'of no told model'}), a load of {load}"


def put(name, text):
    """The section of that name becomes this text, behind a line that says of what and on what."""
    said = f"Commit `{commit()}`, {datetime.date.today()}, {machine()}.\n\n"
    section = f"## {name}\n\n{said}" + "".join(f"    {line}".rstrip() + "\n" for line in text.rstrip("\n").split("\n"))
    with open(PAGE, encoding="utf-8") as file:
        head, *others = re.split(r"^(?=## )", file.read(), flags=re.M)
    names = [one.split("\n", 1)[0] for one in others]
    if f"## {name}" in names:
        others[names.index(f"## {name}")] = section
    else:
        others.append(section)
    with open(PAGE, "w", encoding="utf-8") as file:
        file.write("\n".join(part.rstrip("\n") + "\n" for part in [head, *others]))
