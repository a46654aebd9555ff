"""Writes what is made of pages, and what is not kept by hand:

- crates/README.md and the picture of the floors, from crates.txt;
- the tables of modules and of definitions in the crates' READMEs, from what the sources say at their tops;
- the tables of docs/WORDS.md, where the rule of a printed word is, from definitions, rules, examples and tests;
- the tables of docs/FAULTS_BY_EXAMPLE.md, from examples/faults.txt, and of docs/WRONG_BODIES.md, from the edits;
- the tables of docs/LAWS.md and docs/TESTS.md, from the sources, and the limits of docs/FORMATS.md;
- the longest chain of crates in docs/SPEED.md, from crates.txt and that page's minutes;
- the tables of docs/ANSWERS.md, and the causes of answers in docs/PROVED.md, from the calls and their clauses.
`scripts/pages check` finds which of them are not what this would write.
"""

from ..tree import TOP
from . import calls, chain, crates, edits, faults, laws, limits, modules, words

MAKERS = (modules, crates, edits, faults, words, laws, limits, calls, chain)


def stale():
    """Returns the pages that are not what is made of them: of each its text, and what says so."""
    for maker in MAKERS:
        for page, text in maker.made().items():
            if not page.exists() or page.read_text() != text:
                yield page, text, maker.SOURCE


def findings():
    for maker in MAKERS:
        yield from maker.findings()
    for page, _, source in stale():
        yield f"{page.relative_to(TOP)}: is not what {source}; scripts/pages write makes it so"


def main(asked):
    for page, text, _ in list(stale()):
        page.write_text(text)
        print(f"written {page.relative_to(TOP)}")
    return 0
