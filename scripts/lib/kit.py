"""The kit's own library, which knows how a crate is handed to the prover."""

import functools
import importlib.machinery
import re
import shutil
import subprocess
import sys
import types
from pathlib import Path

from .tree import TOP


@functools.cache
def kit():
    place = shutil.which("rt")
    if not place:
        sys.exit("there is no rt on the path: README.md says which kit has it")
    folder = str(Path(place).resolve().parent)
    sys.path.insert(0, folder)
    module = types.ModuleType("rtlib")
    module.__file__ = f"{folder}/rtlib.py"
    sys.modules["rtlib"] = module
    importlib.machinery.SourceFileLoader("rtlib", module.__file__).exec_module(module)
    return module


@functools.cache
def guard():
    """Returns the words before a command that let it end when this process does. The first call sets a signal's
    handler, which only the main thread may."""
    return kit().guarded()


def crate(name, top=TOP):
    """Returns the crate of this name, of this checkout or of a copy of it."""
    return kit().Crate(str(Path(top) / "crates" / name), str(top), {}, name=None)


@functools.cache
def changed_at(folder):
    """When the last source of the crate in this folder changed."""
    files = (it for part in kit().PARTS for it in Path(folder, part).rglob("*") if it.suffix in (".rt", ".antt"))
    return max((it.stat().st_mtime for it in files), default=0)


def is_there(library):
    """Whether a library is built of the sources as they are: by `rt lib`, which leaves a stamp, or by `rt ci`.

    To compare a stamp the kit reads what is below a crate once for each way down to it: a minute for `cm_top`.
    """
    built = Path(library.rlib)
    if (built.parent / "stamp").exists() and library.is_built():
        return True
    return built.is_dir() and built.stat().st_mtime > max(changed_at(it.folder) for it in [library, *library.below()])


def are_below(of):
    """Whether all libraries below the crate are built: else it is asked over their sources."""
    return all(is_there(below) for below in of.below())


def asked(of, words, kept):
    """Returns status and words of the prover about the crate.

    What it keeps goes to that folder if the words name none.
    """
    if "--incremental" not in words:
        words = [*words, "--incremental", str(kept)]
    ran = subprocess.run(
        [*guard(), kit().RATTLE, "check", *words],
        cwd=of.folder,
        stdin=subprocess.DEVNULL,
        stdout=subprocess.PIPE,
        stderr=subprocess.STDOUT,
        text=True,
        errors="replace",
    )
    return ran.returncode, ran.stdout


def has_verdict(said):
    """Whether the prover came so far that it says something of what it was asked."""
    return re.search(r"(?m)^only=", said) is not None
