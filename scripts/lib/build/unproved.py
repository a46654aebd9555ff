"""Answers: is the program NAME there, compiled without a proof? If it is missing, or older than a source or the kit,
both programs are compiled first, and a line on standard error says so. They stand in crates/NAME/out/try.

The program stops at an index out of bounds, an overflow or a failed unwrap. `rt try` says where, has it checked for bad
accesses besides, and has a prover look at the names meanwhile, which takes several times as long. lib/build/compiler.py
says how it is compiled. The exit status is 1 if it could not be compiled; only then what the compiler says is shown.
"""

import os
import sys
import tempfile
import time
from concurrent.futures import ThreadPoolExecutor
from pathlib import Path

from ..kit import crate, kit
from ..tree import TOP
from .compiler import compiled, kit_words, read_ahead
from .shorter_kit import LIST, marks, reached, shorter_kit

PROGRAMS = ("cm_main", "cm_draw")
OF_COMPILER = Path(__file__).parent
LAST = 20  # lines of the compiler that are shown if it fails


def options(parser):
    parser.add_argument("name", metavar="NAME", choices=PROGRAMS, help="cm_main or cm_draw")


def say(line):
    print(f"./try: {line}", file=sys.stderr, flush=True)


def place_of(name):
    return TOP / "crates" / name / "out/try" / name


def whole_kit_note(name):
    """The file that stands beside a program if it had to be compiled over the whole kit."""
    return place_of(name).with_suffix(".over_the_whole_kit")


def is_current(of):
    """Whether the program is newer than its sources, than the kit, and than what says how it is compiled."""
    built = place_of(of.name)
    sources = [Path(kit().KIT, "KIT-ID"), TOP / "crates.txt", LIST, *OF_COMPILER.glob("*.py")]
    for it in [of, *of.below()]:
        sources += Path(it.folder, "src").rglob("*.rt")
    return built.exists() and built.stat().st_mtime > max(it.stat().st_mtime for it in sources)


def compile_program(of, keep):
    """Compiles the program over the shorter kit, or over the whole if that lacks something, and notes which. Returns
    what was said.
    """
    whole_kit_note(of.name).unlink(missing_ok=True)
    with read_ahead(), tempfile.TemporaryDirectory(prefix="try-") as folder:
        short, words = Path(folder, "kit"), kit_words(of)
        said = compiled(of, folder, keep, shorter_kit(words, short, reached(), bodied=False))
        if not (marks(keep) if keep.exists() else str(short) in said):
            return said
    say(f"{LIST.relative_to(TOP)} lacks something, so it compiles over the whole kit")
    keep.unlink(missing_ok=True)
    whole_kit_note(of.name).touch()
    with tempfile.TemporaryDirectory(prefix="try-") as folder:
        return compiled(of, folder, keep, words)


def made(of):
    """Compiles the program, and puts it in its place. Returns what the compiler said if it failed, else None."""
    begun, built = time.time(), place_of(of.name)
    built.parent.mkdir(parents=True, exist_ok=True)
    with tempfile.TemporaryDirectory(prefix="new-", dir=built.parent) as folder:
        new = Path(folder, built.name)
        said = compile_program(of, new)
        if not new.exists():
            return said
        os.utime(new, (begun, begun))  # a source that was changed meanwhile is newer
        os.replace(new, built)
        return None


def main(asked):
    crates = [crate(it) for it in PROGRAMS]
    if all(is_current(it) for it in crates if it.name == asked.name):
        return 0
    say("compiles both programs, which takes about a minute the first time, and proves nothing")
    with ThreadPoolExecutor() as both:
        said = dict(zip(PROGRAMS, both.map(made, crates)))
    if said[asked.name] is None:
        return 0
    print(*said[asked.name].splitlines()[-LAST:], sep="\n", file=sys.stderr)
    say("it could not be compiled")
    return 1
