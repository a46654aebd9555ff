"""The page of wrong bodies, docs/WRONG_BODIES.md: which edits there are, and what each does.

Those of scripts/wrong_bodies are tried by hand, but for the ones with a line `# tried by the gate`, which `.ci/run`
tries. Those of scripts/wrong_definitions name a row, a law or both, which are there, and those of
scripts/refused_by_tests a test, or a row of `scripts/replay sizes`.
"""

import functools
import re

from ..edits import BODIES, BY_TESTS, DEFINITIONS, SIZES, Edit
from ..replay.sizes.table import table as rows_of_sizes
from ..tree import TOP, crates
from .parts import rewritten

SOURCE = "the edits say"
PAGE = TOP / "docs/WRONG_BODIES.md"
FEWEST = 5  # of each crate, in every run of the checks


class WrongBody(Edit):
    """An edit of a body, with what is wrong with it."""

    def __init__(self, path, folder, tried_by):
        super().__init__(path)
        self.name, self.title = path.relative_to(TOP), path.stem
        self.tried_by = ".ci/run" if self.is_of_gate else tried_by
        self.texts, faults = self.applied(folder)
        self.faults = [*([] if self.crime else ["does not begin with a line 'crime: '"]), *faults]

    def row(self):
        tried_by = "hand" if self.tried_by == "hand" else f"`{self.tried_by}`"
        return f"| {self.crime} | `{self.title}` | {tried_by} | {', '.join(f'`{file}`' for file in self.texts)} |"


class WrongDefinition(WrongBody):
    """An edit of definitions, with the row and the law that it names."""

    def __init__(self, path):
        super().__init__(path, TOP, "row or law")
        self.row_named, self.law_named = self.named("row"), self.named("law")
        if not (self.row_named or self.law_named):
            self.faults.append("names neither a row nor a law")
        for kind, at, pattern in (("row", self.row_named, "^{} :"), ("law", self.law_named, r"\bfn {}\b")):
            if at and not re.search("(?m)" + pattern.format(at.split("::")[-1]), self.source(kind, at)):
                self.faults.append(f"there is no {kind} {at}")

    def source(self, kind, at):
        """The text in which a row or a law should stand."""
        first, *_ = at.split("::")
        files = (
            [TOP / f"crates/cm_model/proofs/{first}.antt"]
            if kind == "row"
            else (TOP / "crates" / first).glob("src/**/*.rt")
        )
        return "".join(it.read_text() for it in files if it.is_file())

    def row(self):
        named = [f"`{it}`" if it else "" for it in (self.row_named, self.law_named)]
        return f"| {self.crime} | `{self.title}` | {named[0]} | {named[1]} |"


class RefusedByTests(WrongBody):
    """An edit of a body, with the test that refuses it, or the row of the sweep of sizes."""

    def __init__(self, path):
        self.crate = path.parent.name
        super().__init__(path, TOP / "crates" / self.crate, "tests")
        self.by, self.at = self.named("by"), self.named("row") if self.named("by") == SIZES else self.named("test")
        if not self.is_there():
            self.faults.append(f"{self.by} has no {self.at}")

    def is_there(self):
        """Whether what it names is there."""
        if self.by == SIZES:
            return self.at in rows_of_sizes()
        return any(
            re.search(rf"\bfn {self.at}\b", it.read_text()) for it in (TOP / f"crates/{self.by}/src").rglob("*.rt")
        )

    def row(self):
        at = self.at if self.by == SIZES else f"`{self.at}`"
        return f"| `{self.crate}` | {self.crime} | `{self.title}` | `{self.by}`: {at} |"


def edits_of(crate):
    return [WrongBody(path, TOP / "crates" / crate, "hand") for path in sorted((BODIES / crate).glob("*.edit"))]


@functools.cache
def every_edit():
    """Returns the wrong bodies of each crate, those that tests refuse, and the wrong definitions."""
    bodies = {crate: of_crate for crate in crates() if (of_crate := edits_of(crate))}
    by_tests = [RefusedByTests(path) for path in sorted(BY_TESTS.glob("*/*.edit"))]
    return bodies, by_tests, [WrongDefinition(path) for path in sorted(DEFINITIONS.glob("*.edit"))]


def tables(edits):
    every = [edit for of_crate in edits.values() for edit in of_crate]
    of_gate = sum(edit.is_of_gate for edit in every)
    yield f"\n{len(every)} wrong bodies: {of_gate} are tried by `.ci/run`, {len(every) - of_gate} by hand.\n\n"
    for crate, of_crate in edits.items():
        rows = "\n".join(edit.row() for edit in of_crate)
        yield f"## `{crate}`\n\n| What the body does | Edit | Tried by | Changes |\n|---|---|---|---|\n{rows}\n\n"


def table_of_tests(edits):
    by_sizes = sum(edit.by == SIZES for edit in edits)
    rows = "\n".join(edit.row() for edit in edits)
    yield (
        f"## Refused by tests\n\n{len(edits)} wrong bodies: {len(edits) - by_sizes} are refused by tests, {by_sizes} "
        "by documents of some size.\n\n"
    )
    yield f"| Crate | What the body does | Edit | Refused by |\n|---|---|---|---|\n{rows}\n\n"


def table_of_definitions(edits):
    by_row, by_law = sum(bool(edit.row_named) for edit in edits), sum(bool(edit.law_named) for edit in edits)
    rows = "\n".join(edit.row() for edit in edits)
    yield (
        f"## Definitions\n\n{len(edits)} wrong definitions: {by_row} are tried by `.ci/run`, by their rows, and "
        f"{by_law} by hand, by their laws.\n\n"
    )
    yield f"| What the definitions say | Edit | Row | Law |\n|---|---|---|---|\n{rows}\n\n"


def made():
    bodies, by_tests, definitions = every_edit()
    every_table = [*tables(bodies), *table_of_tests(by_tests), *table_of_definitions(definitions)]
    return {PAGE: rewritten(PAGE, every_table)}


def findings():
    bodies, by_tests, definitions = every_edit()
    every = [*(edit for of_crate in bodies.values() for edit in of_crate), *by_tests, *definitions]
    yield from (f"{edit.name}: {fault}" for edit in every for fault in edit.faults)
    for crate, of_crate in bodies.items():
        if sum(edit.tried_by != "hand" for edit in of_crate) < FEWEST:
            yield f"{crate}: fewer than {FEWEST} of its wrong bodies are tried in every run"
    for folder in (BODIES, BY_TESTS):
        for name in sorted({path.parent.name for path in folder.glob("*/*.edit")} - set(crates())):
            yield f"{folder.relative_to(TOP)}/{name}: no crate has this name"
