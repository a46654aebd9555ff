"""Copies of the crates, on which sources are turned and asked about."""

import shutil
import tempfile
from pathlib import Path

from .kit import crate
from .tree import TOP

LISTS = ("crates.txt", "HANDLES")  # without which the kit reads no crate


def put_lists(copy):
    for part in LISTS:
        shutil.copy(TOP / part, copy)


def put_sources(copy):
    """Puts all crates on a copy as they are here, without what is built of them."""
    shutil.copytree(TOP / "crates", Path(copy, "crates"), ignore=shutil.ignore_patterns("out"))
    put_lists(copy)


def put(name, copy):
    """Puts a crate on a copy as it is here, with what is built of it."""
    folder = copy / "crates" / name
    shutil.copytree(TOP / "crates" / name, folder, ignore=shutil.ignore_patterns("out"))
    if (TOP / "crates" / name / "out").is_dir():
        (folder / "out").symlink_to(TOP / "crates" / name / "out")


def copy_of(name):
    """Returns a folder with a copy of this crate and of those below it, by whose name it is seen that a check there is
    of wrong bodies.
    """
    folder = tempfile.TemporaryDirectory(prefix="wrong-bodies-")
    put_lists(folder.name)
    of = crate(name)
    needed = {it.name for it in [of, *of.below()]}
    for it in (TOP / "crates").iterdir():
        if it.name in needed:
            put(it.name, Path(folder.name))
        else:
            # (each name of crates.txt has to have a folder)
            Path(folder.name, "crates", it.name, "src").mkdir(parents=True)
    return folder
