"""The repository: where it stands, and which crates it has."""

import functools
import re
import sys
from pathlib import Path

TOP = Path(__file__).resolve().parents[2]


@functools.cache
def uses_of_each():
    """Returns of each crate what it stands on directly, in the order of crates.txt: lowest first."""
    listed = re.findall(r"(?m)^(\w+)[^:\n]*:(.*)$", (TOP / "crates.txt").read_text())
    return {name: words.split() for name, words in listed}


def crates():
    return [*uses_of_each()]


def crates_below(name):
    """Returns the crates that this one stands on, each behind those that it uses, and then this one."""
    uses, found = uses_of_each(), []

    def add(crate):
        for used in uses[crate]:
            if used in uses and used not in found:
                add(used)
        found.append(crate)

    if name not in uses:
        sys.exit(f"crates.txt has no crate {name}")
    add(name)
    return found


def floors():
    """Returns each floor: its name, what it has, and its crates, lowest first."""
    found = []
    for line in (TOP / "crates.txt").read_text().split("\n"):
        if line.startswith("# "):
            name, _, has = line[2:].partition(": ")
            found.append((name, has, []))
        elif line:
            found[-1][2].append(line.split(":")[0].split()[0])
    return found
