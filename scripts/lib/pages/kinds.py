"""Prints which files name each kind of controller, outside the crates of kinds: those that another kind like it would
touch.

A file names a kind by its variant among kinds, parameters, running parts or unboxed controllers, where these are
declared too, or by the arm of a match in an answer. Left out are tests, worked rows and the documents of these. A
picture that shows one kind more closely is told apart, because another kind needs none. A proof that has one case for
all kinds names a forward for it, and a mock stands in for all kinds in tests: `scripts/pages check` watches every other
kind, of which each is named in at most ten files, and docs/CHANGING.md lists these.
"""

import re
from pathlib import Path

from ..tree import TOP, uses_of_each
from .repository import Repository

MOST_FILES, ANY_KIND = 10, {"Forward", "Mock"}
NO_KINDS = {"ctl_trait", "ctl_any"}  # crates of the family ctl_ that have no kind
APART = re.compile(r"crates/(?:rows|pages)_|crates/made_laws/|(?:Rows|/Worked\w*)\.antt$")
PICTURES = re.compile(r"crates/draw_")
TYPES = "CtlKind|Params|AnyKind|RunData"
BY_KIND = rf"declared\.(?:description|any_kind|data)\.(?:{TYPES})\.TheVariants"
PAGE, SECTION = "docs/CHANGING.md", r"(?s)## A kind of controller\n(.*?)\n## "


def kinds():
    table = re.search(r"CONTROLLER_KINDS: .*?\n\];", (TOP / "crates/cm_document/src/description.rt").read_text(), re.S)[
        0
    ]
    return re.findall(r"CtlKind::(\w+)", table)


def names_kind(text, kind):
    """A source or a proof tells the kind apart by its variant, declares it, imports it, or answers for its arm of a
    match.
    """
    aliases = "|".join(re.findall(rf"{BY_KIND} as (\w+)", text))
    named = rf"\b(?:{TYPES})::{kind}\b|{BY_KIND}\.\{{[^}}]*\b{kind}\b|\bin-{kind}\b"
    declared = any(
        re.search(rf"(?m)^    {kind}\b", body) for body in re.findall(rf"(?s)enum (?:{TYPES}) \{{(.*?)\n\}}", text)
    )
    return declared or bool(re.search(named, text)) or bool(aliases and re.search(rf"\b(?:{aliases})\.{kind}\b", text))


def files_of(repository, kind):
    """Returns the files that name this kind, and those of pictures apart."""
    own = {crate for crate in uses_of_each() if crate.startswith("ctl_")} - NO_KINDS
    found, pictures = [], []
    for name, text in repository.texts.items():
        source = re.fullmatch(r"crates/(\w+)/(?:src|specs|proofs)/.*\.(?:rt|antt)", name)
        if source and source[1] not in own and not APART.search(name) and names_kind(text, kind):
            (pictures if PICTURES.match(name) else found).append(name)
    return sorted(found), sorted(pictures)


def findings(repository):
    listed = re.search(SECTION, (TOP / PAGE).read_text())[1]
    for kind in set(kinds()) - ANY_KIND:
        files, _ = files_of(repository, kind)
        if len(files) > MOST_FILES:
            yield f"{kind} is named in {len(files)} files outside the crates of kinds, more than {MOST_FILES}"
        for name in files:
            if Path(name).stem not in listed:
                yield f"{PAGE}: does not list {name}, which names {kind}"


def main(asked):
    repository = Repository()
    for kind in kinds():
        files, pictures = files_of(repository, kind)
        print(f"{kind}: {len(files)}", *files, *(f"{name} (a picture)" for name in pictures), sep="\n    ")
    return 0
