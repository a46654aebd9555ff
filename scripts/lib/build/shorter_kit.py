"""The kit's sources without the bodies that a program does not reach.

Of a source that is not on the list `reached_in_kit` the compiler gets the functions without their bodies, which it
would check for nothing. In place of a body stands the call of a function whose name marks that source. A program that
has a mark is compiled again, over the whole kit: a list that went stale costs time, and changes nothing. A mark has a
number of its own in it, so that no function says the same.

The list is made by a compilation over the whole kit in which each body calls its source's mark first.
"""

import hashlib
import re
from pathlib import Path

from ..kit import kit

LIST = Path(__file__).resolve().with_name("reached_in_kit")
MARK = "kit_source_"  # so the names of the functions begin that mark a source of the kit
FUNCTION = re.compile(r"( *)(?:pub(?:\([^)]*\))? )?(?:const )?(?:unsafe )?fn \w")
BLOCK = re.compile(r"( *)(?:pub(?:\([^)]*\))? )?(?:macro_rules! \w+|mod \w+) \{$")


def closed(rows, indent):
    """Returns at which of the rows, places with lines, the block of that indent ends."""
    return next(place for place, line in rows if line == f"{indent}}}")


def opened(rows, place, line, indent):
    """Returns at which of the rows the function's body begins that is declared at the first, or None where it has none
    to take.
    """
    while not line.endswith(";"):
        if line.startswith(indent) and line[len(indent) : len(indent) + 1].strip():
            if line.endswith(("{", "}")):
                return place if line.endswith("{") else None
        place, line = next(rows)
    return None


def bodies(lines):
    """Yields of functions in a source the places of the line that opens the body and of the one that closes it. The
    source is laid out as `rt fmt` does. Passed over are those in macros and in modules inside a source."""
    rows = enumerate(lines)
    for place, line in rows:
        if found := BLOCK.match(line):
            closed(rows, found[1])
        elif found := FUNCTION.match(line):
            first = opened(rows, place, line, found[1])
            if first is not None:
                yield first, closed(rows, found[1])


def marked(text, name, bodied):
    """Returns the source with a call of a function of this name at the begin of each body, or in its place."""
    lines, made, at = text.split("\n"), [], 0
    for first, last in bodies(lines):
        made += [*lines[at : first + 1], *([f"let _ = {name}(0);"] if bodied else [f"let _ = {name}(1);", "loop {}"])]
        at = first + 1 if bodied else last
    made += lines[at:]
    number = int(hashlib.sha256(name.encode()).hexdigest()[:15], 16)
    return "\n".join(made) + (f"\nconst fn {name}(it: usize) -> usize {{\n    [it, {number}][it]\n}}\n" if at else "")


def sources(words):
    """Returns the sources of the kit's crates that are named, by their places below those of the kit."""
    kept = Path(kit().KIT, "rattle")
    folders = [Path(word.split("=", 1)[1]).parent for word in words if "=" in word]
    return {str(it.relative_to(kept)): it for folder in folders for it in folder.rglob("*.rt")}


def name_of(place):
    return MARK + re.sub(r"\W", "_", place)


def reached():
    """Returns the sources of the kit that are on the list."""
    return LIST.read_text().split()


def shorter_kit(words, folder, whole, bodied):
    """Copies the named crates of the kit, and marks in the sources that are not in `whole` the bodies.

    Returns the words for the copy.
    """
    for place, source in sources(words).items():
        copy = Path(folder, place)
        copy.parent.mkdir(parents=True, exist_ok=True)
        if place in whole:
            copy.symlink_to(source)
        else:
            copy.write_text(marked(source.read_text(), name_of(place), bodied))
    return [word.replace(f"={kit().KIT}/rattle/", f"={folder}/") for word in words]


def marks(program):
    """Returns the marks of sources that the program has."""
    return {it.decode() for it in re.findall(rb"%s\w+" % MARK.encode(), program.read_bytes())}
