"""Programs to which memory is refused: `refusing.c`, loaded into them before all else, counts what they ask for."""

import subprocess
import tempfile
from pathlib import Path

from ..kit import kit
from . import programs

SOURCE = Path(__file__).with_suffix(".c")
ALONE, ON = "REFUSED_AT", "REFUSED_FROM"  # one allocation is refused, or all from one on
WAYS = {ALONE: "alone", ON: "and all behind it"}


def library(folder):
    """Compiles the library in this folder by the kit's own compiler, and returns its path."""
    tools = Path(kit().KIT, "toolchain/bin")
    compiled, linked = Path(folder, "refusing.o"), Path(folder, "refusing.so")
    for words in ("clang", "-O1", "-fPIC", "-c", SOURCE, "-o", compiled), ("ld.lld", "-shared", compiled, "-o", linked):
        subprocess.run([tools / words[0], *words[1:]], check=True)
    return linked


class Refusing:
    """Runs of a command on this document, in which memory is refused."""

    def __init__(self, command, given, loaded):
        self.command, self.given, self.loaded = command, given, loaded

    def came(self, way, number):
        """Returns what a run comes to in which the allocation of this number is refused in this way."""
        return programs.came(self.command, self.given, LD_PRELOAD=self.loaded, **{way: number})

    def whole(self):
        """Returns how many allocations a run asks for to which none is refused, and what it comes to."""
        with tempfile.NamedTemporaryFile() as file:
            came = programs.came(self.command, self.given, LD_PRELOAD=self.loaded, COUNT_INTO=file.name)
            return int(Path(file.name).read_text()), came
