"""Answers: how long does the first `./try` take? It compiles both programs side by side, as `./try` does, and prints
the seconds.

- short: over the kit without the bodies that the programs do not reach, the code made by the linker, as `./try` does
  it.
- whole: the same over the whole kit.
- plain: over the whole kit with the code made as `rt try` makes it, with checks of addresses.
Nothing of it is kept. The machine has to have nothing else to do.
"""

import tempfile
import time
from concurrent.futures import ThreadPoolExecutor
from pathlib import Path

from ..build.compiler import PASSES, compiled, kit_words
from ..build.shorter_kit import reached, shorter_kit
from ..build.unproved import PROGRAMS
from ..kit import crate

WAYS = ("short", "whole", "plain")


def options(parser):
    parser.add_argument("ways", nargs="*", metavar="WAY", help=f"of {', '.join(WAYS)}: these alone")


def compile_one(name, way):
    """Compiles the program in this way, and returns whether it could be."""
    of = crate(name)
    with tempfile.TemporaryDirectory(prefix="try-") as folder:
        words, keep = kit_words(of), Path(folder, name)
        if way == "short":
            words = shorter_kit(words, Path(folder, "kit"), reached(), bodied=False)
        compiled(of, folder, keep, words, () if way == "plain" else PASSES)
        return keep.exists()


def main(asked):
    for way in asked.ways or WAYS:
        begun = time.monotonic()
        with ThreadPoolExecutor() as both:
            made = list(both.map(lambda name: compile_one(name, way), PROGRAMS))
        print(
            f"{way:<6} {time.monotonic() - begun:6.1f} s{'' if all(made) else ', and it could not be compiled'}",
            flush=True,
        )
    return 0
