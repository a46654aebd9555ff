"""Answers: do the tests refuse the wrong bodies that no contract can? Those that want memory though there is some, and
what no clause speaks of.

Each file of scripts/refused_by_tests/CRATE turns one body of that crate, on a copy, and says what refuses it there,
unproved. With a line `by: CRATE` the tests of that crate are run, and the one of the line `test: ..` has to fail. With
a line `by: scripts/replay sizes` the program is compiled, and it has to want memory for a document of the line `row:
..`. Prints a line a body; one takes a minute or two. The exit status is 1 if one was not refused so.
"""

import re
import subprocess
import sys
import tempfile
from pathlib import Path

from ..build.compiler import compiled, kit_words
from ..build.shorter_kit import marks, name_of, reached, shorter_kit, sources
from ..build.unproved import compile_program
from ..copies import put_sources
from ..edits import BY_TESTS, SIZES, Edit
from ..kit import crate, kit
from ..tree import TOP

MOST = 3  # names of what refuses a body that its line tells
LIST = Path(__file__).with_name("reached_by_tests")  # the sources of the kit that tests reach and the programs do not
lacked = set()  # those of them that the list lacks


def options(parser):
    parser.add_argument("--look", action="store_true", help="only sees that each edit still applies")
    parser.add_argument("names", nargs="*", metavar="NAME", help="an edit: these alone")


def compile_tests(of, keep):
    """Compiles the tests of a crate over the sources of the kit that programs and tests reach. If the lists lack one,
    it is compiled once more, and a line on standard error says which. Returns what the compiler said."""
    words = kit_words(of)
    while True:
        with tempfile.TemporaryDirectory(prefix="try-") as folder:
            whole = {*reached(), *LIST.read_text().split(), *lacked}
            short = shorter_kit(words, Path(folder, "kit"), whole, bodied=False)
            said = compiled(of, folder, keep, short, what=("--test", "src/lib.rt"))
        if not keep.exists():
            return said
        found = marks(keep)
        lacking = {place for place in sources(words) if name_of(place) in found}
        if not lacking:
            return said
        print(f"{LIST.relative_to(TOP)} lacks {' '.join(sorted(lacking))}", file=sys.stderr)
        lacked.update(lacking)
        keep.unlink()


def failed_tests(copy, rows, test):
    """Those of the tests of this name in this crate that fail on the copy, or None where they could not be compiled."""
    program = Path(copy, "tests")
    said = compile_tests(crate(rows, copy), program)
    if not program.exists():
        print(said, file=sys.stderr)
        return None
    run = subprocess.run([kit().RUNNER, "--filter", test, program], capture_output=True, text=True)
    return re.findall(r"(?m)^test (\S+) \.\.\. (?!ok)", run.stdout)


def failed_documents(copy, row):
    """The documents of this row for which the program of the copy wants memory, or None if it does not compile."""
    program = Path(copy, "cm_main")
    said = compile_program(crate(program.name, copy), program)
    if not program.exists():
        print(said, file=sys.stderr)
        return None
    run = subprocess.run([TOP / "scripts/replay", "sizes", "--program", program, row], capture_output=True, text=True)
    return re.findall(r"(?m)^(.*): WANTS MEMORY$", run.stdout)


def turned(edit, folder):
    """Returns the texts of the crate of this folder that the edit changes, as they are after it."""
    texts, faults = edit.applied(folder)
    if faults:
        sys.exit(f"{edit.path}: {faults[0]}")
    return texts


def verdict(edit, name):
    """Plants the body of this edit on a copy. Returns whether it was refused as the edit says, and in words by what."""
    with tempfile.TemporaryDirectory() as copy:
        put_sources(copy)
        for file, text in turned(edit, Path(copy, "crates", name)).items():
            Path(copy, "crates", name, file).write_text(text)
        by = edit.named("by")
        failed = (
            failed_documents(copy, edit.named("row")) if by == SIZES else failed_tests(copy, by, edit.named("test"))
        )
    if failed is None:
        return False, "could not be compiled"
    more = f" and {len(failed) - MOST} more" if len(failed) > MOST else ""
    return bool(failed), f"refused by {'; '.join(failed[:MOST])}{more}" if failed else "NOT REFUSED"


def main(asked):
    passed = True
    for path in sorted(BY_TESTS.glob("*/*.edit")):
        name, edit = path.parent.name, Edit(path)
        if asked.names and path.stem not in asked.names:
            continue
        if asked.look:
            turned(edit, TOP / "crates" / name)
            continue
        is_refused, told = verdict(edit, name)
        passed = passed and is_refused
        print(f"{name}/{path.name}: {told}", flush=True)
    return 0 if passed else 1
