"""Edits: files that say what a text of a source is to be turned into.

An edit has lines `file: PATH`, and behind each such line pairs of lines `old: TEXT` and `new: TEXT`. Each old text
stands in its file once. It begins with a line `crime: ..` (or `# crime: ..`) that says what it does. All other lines
are no part of it: a line `# tried by the gate`, those that name the row, the law or the test that refuses it, one that
names what tries it.
"""

import re
from pathlib import Path

from .tree import TOP

BODIES = TOP / "scripts/wrong_bodies"
DEFINITIONS = TOP / "scripts/wrong_definitions"
BY_TESTS = TOP / "scripts/refused_by_tests"
MARK = "# tried by the gate"
SIZES = "scripts/replay sizes"  # which tries a body that wants memory at some size


class Edit:
    """Texts to turn, each a file, an old text and a new one."""

    def __init__(self, path):
        self.path, self.changes = path, []
        self.lines = path.read_text().split("\n")
        crime = re.fullmatch(r"(?:# )?crime: (.+)", self.lines[0])
        self.crime = crime[1] if crime else ""
        self.is_of_gate = MARK in self.lines
        for line in self.lines:
            key, _, rest = line.partition(":")
            rest = rest.removeprefix(" ")
            if key == "file":
                file = rest
            elif key == "old":
                old = rest
            elif key == "new":
                self.changes.append((file, old, rest))

    def named(self, key):
        """Returns what a line `KEY: TEXT` says, or None."""
        said = [line.removeprefix(f"{key}: ") for line in self.lines if line.startswith(f"{key}: ")]
        return said[-1] if said else None

    def applied(self, folder):
        """Returns the texts of the files in this folder that it changes, as they are after it, and what is wrong with
        it.
        """
        texts, faults = {}, []
        for file, old, new in self.changes:
            at = Path(folder, file)
            text = texts.get(file, at.read_text() if at.is_file() else "")
            if (times := text.count(old)) != 1:
                faults.append(f"its old text stands {times} times in {file}: {old.strip()}")
            texts[file] = text.replace(old, new)
        return texts, faults
