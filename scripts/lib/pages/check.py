"""Answers: which pages went stale? Looked at are README.md, docs/*.md, examples/README.md and crates/*/README.md.

- A name in backticks stands in a source, comments apart, or in the name of a file; all parts of `a::b` in one file or
  its path. A word all in capitals, as NAME, stands for something else. A path leads to a file, a link to a file and to
  a heading if it names one.
- The text of a fenced block stands in one source or example, blanks and ends of lines apart; so does each column of a
  block of columns.
- A row of a table that ends with a constant has its number in the cell before. README has the line of `rt version`.
- No line of a source, a proof, a script or a page's sentences is wider than 120 columns, and no public type, function,
  constant or static stands in two crates.
- Each crate has a README, each example its place, and each crate its minutes in docs/SPEED.md.
- No sentence, cell of a table or page is longer than its limit, and a number that is quoted with docs/SPEED.md stands
  there.
- Another kind of controller touches at most ten files, which `scripts/pages kinds` prints and docs/CHANGING.md lists.
- What `scripts/pages contracts` finds, and what the pages lack that `scripts/pages write` makes.
Prints a line a finding, and last how many. The exit status is 1 if there is one.
"""

import re
import shutil
import subprocess
from pathlib import Path

from ..tree import TOP, crates
from . import contracts, kinds, lengths, names, write
from .repository import Repository

WIDEST = 120  # columns
PUBLIC = re.compile(r"(?m)^pub (?:(?:const )?fn|struct|enum|trait|type|const|static) (\w+)")
PASSED_ON = re.compile(r"(?m)^pub use (\w+)::")
APART = re.compile(r'^\s*#!?\[|".{60,}"')  # lines that may be wider: attributes, which rt fmt joins, and long texts
SOURCES = re.compile(r".*\.(rt|antt|py)|(\.ci/|scripts/)?\w+")
PAGES = re.compile(r"README\.md|docs/\w+\.md|examples/README\.md|crates/\w+/README\.md")
UNWRAPPED = re.compile(r"(?ms)^```.*?^```|^(?:\||!\[|\[!\[).*?$")  # what a page shows as it stands, tables and pictures


def kit_missing():
    text = (TOP / "README.md").read_text()
    if shutil.which("rt"):
        kit = subprocess.run(["rt", "version"], stdout=subprocess.PIPE, text=True).stdout.strip()
        if f"`{kit}`" not in text:
            yield f"README.md: the kit is {kit}, which is not said"


def examples_listed_wrong(repository):
    listed = set(re.findall(r"`([a-z]\w*\.cm)`", (TOP / "examples/README.md").read_text()))
    there = {Path(name).name for name in repository.texts if re.fullmatch(r"examples/[^/]*\.cm", name)}
    yield from (f"examples/README.md: lacks {name}" for name in sorted(there - listed))
    yield from (f"examples/README.md: has {name}, which is not there" for name in sorted(listed - there))


def minutes_missing():
    rows = re.findall(r"(?m)^\|((?: `\w+`,?)+) \| (?:[\d.]+\*?|not timed|none) \|", (TOP / "docs/SPEED.md").read_text())
    timed = {crate for row in rows for crate in re.findall(r"`(\w+)`", row)}
    yield from (f"docs/SPEED.md: the gate's table lacks {crate}" for crate in crates() if crate not in timed)


def too_wide(repository):
    for name in repository.texts:
        if SOURCES.fullmatch(name):
            yield from wide_lines(name, (TOP / name).read_text(), lambda line: not APART.search(line))
        elif PAGES.fullmatch(name):
            text = UNWRAPPED.sub(lambda it: "\n" * it[0].count("\n"), (TOP / name).read_text())
            yield from wide_lines(name, text)


def wide_lines(name, text, counts=lambda line: True):
    for number, line in enumerate(text.split("\n"), 1):
        if len(line) > WIDEST and counts(line):
            yield f"{name}:{number}: is wider than {WIDEST} columns"


def homes_shared(repository):
    """A public name stands in one crate, so that a reader of an import knows where to look.

    What is `pub(crate)`, or stands within a type or a block, has no import in another crate.
    """
    homes = {}
    for name, text in repository.texts.items():
        found = re.fullmatch(r"crates/(\w+)/src/.*\.rt", name)
        if not found:
            continue
        yield from (f"{name}: passes on a name of {it}" for it in PASSED_ON.findall(text) if it in crates())
        for word in PUBLIC.findall(text):
            homes.setdefault(word, set()).add(found[1])
    yield from (
        f"`{word}` is public in {' and '.join(sorted(it))}" for word, it in sorted(homes.items()) if len(it) > 1
    )


def findings():
    repository = Repository()
    yield from lengths.findings(repository)
    yield from too_wide(repository)
    yield from homes_shared(repository)
    yield from examples_listed_wrong(repository)
    yield from minutes_missing()
    yield from kinds.findings(repository)
    for page in repository.pages:
        yield from (f"{page}: {it}" for it in names.findings(repository, page))
    yield from kit_missing()
    yield from (
        f"crates/{crate}: has no README.md" for crate in crates() if f"crates/{crate}/README.md" not in repository.pages
    )
    yield from contracts.findings()
    yield from write.findings()


def main(asked):
    found = list(findings())
    print("\n".join([*found, f"{len(found)} findings"]))
    return int(bool(found))
