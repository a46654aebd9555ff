"""Makes lib/build/reached_in_kit anew, the list of the kit's sources in which `cm` or the program that draws calls a
function.

Unproved programs are compiled over these alone. If the list lacks one, they are compiled twice, and `./try` says so.
It takes a minute or two.
"""

import sys
import tempfile
from pathlib import Path

from ..kit import crate
from .compiler import compiled, kit_words
from .shorter_kit import LIST, marks, name_of, shorter_kit, sources
from .unproved import PROGRAMS


def reached_by(name):
    """Returns the sources of the kit, by their places, in which the program of this name calls a function."""
    of = crate(name)
    with tempfile.TemporaryDirectory(prefix="try-") as folder:
        words, program = kit_words(of), Path(folder, "program")
        said = compiled(of, folder, program, shorter_kit(words, Path(folder, "kit"), [], bodied=True))
        if not program.exists():
            sys.exit(f"{said}\n{name} could not be compiled")
        found = marks(program)
    return {place for place in sources(words) if name_of(place) in found}


def main(asked):
    LIST.write_text("".join(f"{place}\n" for place in sorted(set().union(*map(reached_by, PROGRAMS)))))
    return 0
