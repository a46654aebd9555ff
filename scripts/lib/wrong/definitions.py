"""Answers: are wrong definitions refused?

Each file of scripts/wrong_definitions turns equations of the written manager, and names what refuses it: a row of the
proofs of cm_model, a law, or both. A row computes: by the definitions alone its two sides are one. All rows are asked
in one check, on a copy, each over the definitions as its edit leaves them, and must be refused because their sides
differ. The same rows over the definitions as they are must be proved. A law is asked on a copy of the crates with the
edit, and must not be proved there; some minutes each. Prints a line a row, a law and an edit, and last how many passed
and how many failed. The exit status is 1 if one failed.
"""

import re
import shutil
import sys
import tempfile
from pathlib import Path

from ..copies import copy_of, put_sources
from ..edits import DEFINITIONS, Edit
from ..kit import are_below, asked, crate, guard, has_verdict
from ..tree import TOP
from .layers import CRATE, Layer, plant, texts_of


def options(parser):
    parser.add_argument("--gate", action="store_true", help="asks rows alone")
    parser.add_argument("names", nargs="*", metavar="NAME", help="an edit: these alone")


class WrongDefinition(Edit):
    """An edit of definitions, with the row and the law that are to refuse it."""

    def __init__(self, path):
        super().__init__(path)
        self.name, self.row, self.law = path.stem, self.named("row"), self.named("law")
        self.texts, faults = self.applied(TOP)
        if faults:
            sys.exit(f"{path.name}: {faults[0]}")


class NoEdit:
    """A row over the definitions as they are."""

    def __init__(self, number, row):
        self.name, self.row, self.texts = f"as_it_is_{number}", row, {}


def ask(of, words, kept):
    """What the prover says, asked by these words."""
    status, said = asked(of, words, kept)
    if status not in (0, 1) or not has_verdict(said):
        sys.exit("\n".join(["no verdict", *said.rstrip().split("\n")[-20:]]))
    return said


def try_rows(edits):
    """Tries these by their rows, all in one check, prints a line each, and tells of each if it is as it has to be."""
    with copy_of(CRATE) as copy, tempfile.TemporaryDirectory() as kept:
        folder = Path(copy) / "crates" / CRATE
        texts = texts_of(folder)
        unedited = [NoEdit(*it) for it in enumerate(sorted({edit.row for edit in edits}))]
        layers = [Layer(it, texts) for it in [*unedited, *edits]]
        plant(folder, layers)
        of = crate(CRATE, copy)
        words = of.words(["--jobs", "2", "--allow-holes", "--only", f"{CRATE}::tried"], as_source=not are_below(of))
        said = ask(of, words, kept)
    for layer in layers:
        became = layer.verdict(said)
        if layer.edit in unedited:
            print(f"{layer.edit.row}: {became}")
            yield became == "proved"
        else:
            by = "" if became.startswith("no verdict") else f" by {layer.edit.row}"
            print(f"{layer.name}: {'LET THROUGH' if became == 'proved' else became}{by}")
            yield became == "refused"


def is_proved(copy, law, kept):
    """Whether the law is proved over the crates of this copy, and the first thing that is said against it."""
    of = crate(law.split("::")[0], copy)
    said = ask(of, of.words(["--jobs", "2", "--only", law, "--allow-holes"], as_source=True), kept)
    errors = re.findall(r"(?m)^\S+:\d+:\d+: error.*", said)
    if any("/specs/" in line for line in errors):
        sys.exit("\n".join([f"{law}: no verdict", *errors[:3]]))
    return f"fn {law}: no holes" in said, (errors or [""])[0][:180]


def try_laws(edits):
    """Tries these by their laws, one after the other, prints a line each, and tells of each whether it is as it has to
    be. The crates below a law are read as source, so rows that would refuse an edit sooner are not asked."""
    with tempfile.TemporaryDirectory() as room:
        kept, copy = Path(room) / "kept", Path(room) / "copy"
        kept.mkdir()
        put_sources(copy)
        for law in sorted({edit.law for edit in edits}):
            proved, first = is_proved(copy, law, kept)
            print(f"{law}: {'proved' if proved else 'NOT PROVED: ' + first}", flush=True)
            yield proved
        for edit in edits:
            for file, text in edit.texts.items():
                (copy / file).write_text(text)
            proved, first = is_proved(copy, edit.law, kept)
            for file in edit.texts:
                shutil.copy(TOP / file, copy / file)
            print(
                f"{edit.name}: {'LET THROUGH by ' + edit.law if proved else 'refused by ' + edit.law + ': ' + first}",
                flush=True,
            )
            yield not proved


def main(asked_for):
    guard()
    names = asked_for.names
    edits = [WrongDefinition(it) for it in sorted(DEFINITIONS.glob("*.edit")) if not names or it.stem in names]
    by_row, by_law = [it for it in edits if it.row], [it for it in edits if it.law and not asked_for.gate]
    passed = [*(try_rows(by_row) if by_row else []), *(try_laws(by_law) if by_law else [])]
    print(f"{sum(passed)} passed, {len(passed) - sum(passed)} failed")
    return 0 if all(passed) and passed else 1
