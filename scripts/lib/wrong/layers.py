"""Folders in which definitions stand a second time, turned by an edit, with the row that is to refuse it."""

import re
from pathlib import Path

CRATE = "cm_model"
OWN = re.compile(rf"\bRattle\.{CRATE}\.(specs|proofs)\.(?!declared\b)(\w+)")
ROW = re.compile(r"(?m)^(\w+) = refl\n*\Z")
LAYERS = "turned"  # the folder, below proofs, in which the folders of the edits stand


def alone(text, row):
    """A file of rows with this one alone, which others can name."""
    kept = [it for it in text.split("\n\n") if not (found := ROW.search(it)) or found[1] == row]
    return re.sub(rf"(?m)^{row} :", f"pub {row} :", "\n\n".join(kept))


class Layer:
    """The files of an edit, as they stand in a folder of its own."""

    def __init__(self, edit, texts):
        self.edit, self.name = edit, edit.name
        self.file, self.row = edit.row.split("::")
        if ("proofs", self.file) not in texts:
            raise SystemExit(f"{edit.name}: there is no file of rows {self.file}")
        turned = {(Path(file).parent.name, Path(file).stem): text for file, text in edit.texts.items()}
        own = ("proofs", self.file)
        self.modules = {own} | {it for it in reached([own], texts) if reached([it], texts) & turned.keys()}
        self.files = {it[1]: self.moved(turned.get(it, texts[it])) for it in self.modules}
        self.files[self.file] = alone(self.files[self.file], self.row)

    def moved(self, text):
        """A file's text, in which the files of this folder are named in place of the real ones."""
        here = f"Rattle.{CRATE}.proofs.{LAYERS}.{self.name}"
        return OWN.sub(lambda found: f"{here}.{found[2]}" if found.groups() in self.modules else found[0], text)

    def put(self, folder):
        """Puts the files there, and a function whose proof cites the row."""
        own = folder / "proofs" / LAYERS / self.name
        own.mkdir(parents=True)
        for name, text in self.files.items():
            (own / f"{name}.antt").write_text(text)
        own.with_suffix(".antt").write_text("".join(f"pub mod {name}\n" for name in sorted(self.files)))
        answers = folder / "proofs/tried" / self.name / "Answers.antt"
        answers.parent.mkdir(parents=True)
        answers.write_text(
            f"use Rattle.std.proofs.Common.{{refl}}\nuse "
            f"Rattle.{CRATE}.proofs.{LAYERS}.{self.name}.{self.file}.{{{self.row}}}\n"
            f"use Rattle.{CRATE}.proofs.tried.{self.name}.Goals as goal\n\n"
            f"pub returns : goal.returns\nreturns c = let it = {self.row} in λ n. refl\n"
        )

    def verdict(self, said):
        """What becomes of the row, by what the prover said: proved, refused, or why neither can be told."""
        errors = re.findall(
            rf"(?m)^(?:\./)?proofs/(?:{LAYERS}|tried)/{self.name}[/.](\S+?):\d+:\d+: error: (.*)$", said
        )
        of_row = [what for file, what in errors if file == f"{self.file}.antt" and what.startswith(f"`{self.row}`")]
        others = [": ".join(it) for it in errors if it[1] not in of_row]
        if others:
            return f"no verdict: {others[0][:300]}"
        if of_row:
            return "refused" if "differ" in of_row[0] else f"no verdict: {of_row[0][:300]}"
        return "proved" if f"fn {CRATE}::tried::{self.name}: no holes" in said else "no verdict"


def imports(text):
    return {found.groups() for found in OWN.finditer(text)}


def reached(modules, texts):
    """These files, and all that they import."""
    seen, ahead = set(), list(modules)
    while ahead:
        module = ahead.pop()
        if module in texts and module not in seen:
            seen.add(module)
            ahead += imports(texts[module])
    return seen


def plant(folder, layers):
    """Plants the layers in a copy of the crate."""
    for layer in layers:
        layer.put(folder)
    (folder / "proofs" / LAYERS).with_suffix(".antt").write_text("".join(f"pub mod {layer.name}\n" for layer in layers))
    with open(folder / "proofs/Lib.antt", "a") as root:
        root.write(f"mod {LAYERS}\n")
    with open(folder / "src/lib.rt", "a") as root:
        root.write("\nmod tried;\n")
    head = "//! Each cites a row.\n\nghost use Rattle.std.specs.Prelude.{◌≡◌, ℕ};\n"
    one = "\n/// Its proof cites a row.\npub fn {}()\n    ensures {{ (n : ℕ) → n ≡ n }}\n{{}}\n"
    (folder / "src/tried.rt").write_text(head + "".join(one.format(layer.name) for layer in layers))


def texts_of(folder):
    """The specs and proofs of a copy of the crate, each by its folder and its name."""
    return {(part, it.stem): it.read_text() for part in ("specs", "proofs") for it in (folder / part).glob("*.antt")}
