"""The page of faults by example, docs/FAULTS_BY_EXAMPLE.md, from examples/faults.txt: each row changes an example so
that it is refused.
"""

from ..faults import faults
from ..tree import TOP
from .parts import rewritten

SOURCE = "examples/faults.txt says"
PAGE = TOP / "docs/FAULTS_BY_EXAMPLE.md"
OF_WORDS = ("Words", "Refused, because", "Mend")
OF_DOCUMENTS = ("Example", "In place of", "Stands", "Line", "Mend")


def tables():
    for heading, rows in faults().items():
        head = OF_WORDS if rows[0].words is not None else OF_DOCUMENTS
        lines = [head, ["---"] * len(head), *(row.cells() for row in rows)]
        yield f"\n## {heading}\n\n" + "".join(f"| {' | '.join(line)} |\n" for line in lines)
    yield "\n"


def made():
    return {PAGE: rewritten(PAGE, tables())}


def findings():
    return []
