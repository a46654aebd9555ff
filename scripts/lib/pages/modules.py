"""The tables of a crate's README: its modules, and its files of definitions in reading order.

A module has what its file says at its top, in the first sentence, with the names in it that callers see. A file of
definitions has what its first comment says. A README has the tables for which it has a place, from `<!-- modules, by
scripts/pages write -->` to `<!-- end of modules -->`, and the same with `specs`.
"""

import functools
import re

from ..tree import TOP, crates

SOURCE = "the crate's modules and definitions say"
PLACE = re.compile(r"(?s)(<!-- (modules|specs), by scripts/pages write -->\n).*?(<!-- end of \2 -->)")
NAMED = re.compile(r"(?m)^pub (?:struct|enum|trait|const|type|fn) (\w+)")


def sentence(text, mark):
    """Returns the first sentence of the comment with which the file begins, without its point."""
    lines = re.match(rf"(?:{mark} ?.*\n)*", text)[0].splitlines()
    says = " ".join(line.removeprefix(mark).strip() for line in lines)
    return re.split(r"(?<=\.)\s+(?=[A-Z`])", says)[0].rstrip(".").replace("|", "\\|")


def root_of(crate):
    folder = TOP / "crates" / crate / "src"
    return next(it for it in (folder / "lib.rt", folder / "main.rt") if it.exists()).read_text()


def roots(crate):
    """Gives each module of the crate's root with its text, in the root's order."""
    for module in re.findall(r"(?m)^(?:pub )?mod (\w+);", root_of(crate)):
        yield module, (TOP / "crates" / crate / "src" / f"{module}.rt").read_text()


@functools.cache
def passed_on(crate):
    """Returns the names that the crate's root passes on."""
    used = re.findall(r"(?s)pub use (?:crate::|self::)?\w+::(\{.*?\}|\w+);", root_of(crate))
    return {name for it in used for name in re.findall(r"\w+", it)}


def seen(crate, module, name):
    """Whether callers see what has this name in the module: they see the module, or the root passes the name on."""
    return name in passed_on(crate) or re.search(rf"(?m)^pub mod {module};", root_of(crate)) is not None


def modules(crate):
    rows = []
    for module, text in roots(crate):
        names = [it for it in NAMED.findall(text) if module != "laws" and seen(crate, module, it)]
        rows.append((f"`{module}`", sentence(text, "//!"), ", ".join(f"`{it}`" for it in names)))
    head = ("Module", "Has", "Callers see") if any(names for _, _, names in rows) else ("Module", "Has")
    return [f"| {' | '.join(row[:len(head)])} |\n" for row in (head, ["---"] * len(head), *rows)]


def specs(crate):
    folder = TOP / "crates" / crate / "specs"
    yield "| Definitions | Say |\n|---|---|\n"
    for name in re.findall(r"(?m)^pub mod (\w+)", (folder / "Lib.antt").read_text()):
        says = sentence((folder / f"{name}.antt").read_text(), "--")
        yield f"| [{name}](specs/{name}.antt) | {says or 'What the calls of each module ask and promise'} |\n"


def made():
    """Returns each page with its text."""
    tables = {"modules": modules, "specs": specs}
    pages = {crate: TOP / "crates" / crate / "README.md" for crate in crates()}
    return {
        page: PLACE.sub(lambda it, crate=crate: f"{it[1]}{''.join(tables[it[2]](crate))}{it[3]}", page.read_text())
        for crate, page in pages.items()
        if page.exists() and PLACE.search(page.read_text())
    }


def findings():
    return []
