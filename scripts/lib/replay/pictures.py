"""Answers: does the drawing program draw what the pictures show?

Each docs/pictures/NAME.svg is the page of examples/NAME.cm, and a document that is refused has no page. Of an example
that is run live it is the page of its stored trace, which the job `steps` makes again; of one with a trace to judge,
that of the trace as far as it is legal, and what `--why` says of the first wrong line is looked at too. With `--write`
the pictures are made anew. Prints a line a picture and a refused document, and last `N passed, M failed`. The exit
status is 1 if one differs, if the program has no page for it, or has one that it should not.
"""

from ..tool import Tally
from ..tree import TOP
from . import programs
from .examples import LIVE, beside, words_of
from .traces import scheduled

PICTURES = TOP / "docs/pictures"
# Documents that are refused by their description.
REFUSED = {
    "an empty document": b"",
    "a document without an update rate": b"version = 1\n--- script ---\n",
}
REFUSED_STATUS = 3
# What is said of the first wrong line of a stored trace.
WRONG_LINES = {
    "exchanged_lines": b"""\
the trace goes wrong at its line 9, and is drawn as far as it is legal
    came: loop begin 2: none
    to come: loop end 1: run fwd ok unset; joint j1 0.000000 0.000000 0.000000
""",
}


def options(parser):
    parser.add_argument("--write", action="store_true", help="makes the pictures anew")
    parser.add_argument("--unproved", action="store_true", help="the program that ./try draw compiled")
    programs.drawer_option(parser)


def page(document, drawer):
    """Returns the status of drawing an example, and its page."""
    if not document.exists():
        return 1, b""
    job, *_ = words_of(document)
    if job == "check":
        return programs.ran([drawer, job], document.read_bytes())[:2]
    if job == LIVE:
        trace = beside(document, ".stdout").read_bytes().splitlines()
        return programs.ran([drawer, "steps"], scheduled(document.read_bytes(), trace))[:2]
    return programs.ran([drawer], document.read_bytes())[:2]


def reason(picture, drawer, writes):
    """Returns what is wrong with a picture, or None."""
    document = TOP / "examples" / f"{picture.stem}.cm"
    status, drawn = page(document, drawer)
    if status:
        return f"there is no page of {document.relative_to(TOP)}"
    if writes and drawn != picture.read_bytes():
        picture.write_bytes(drawn)
        print(f"written {picture.name}")
    differs = drawn != picture.read_bytes()
    return (
        f"the page of {document.name} is another one; scripts/replay pictures --write makes it anew"
        if differs
        else None
    )


def wrong_line_fault(name, told, drawer):
    """Returns what is wrong with what is said of an example's wrong line, or None."""
    status, said, _ = programs.ran([drawer, "check", "--why"], (TOP / "examples" / f"{name}.cm").read_bytes())
    return (
        None if status == 0 and said.startswith(told) else f"status {status}, and {said[:300].decode(errors='replace')}"
    )


def main(asked):
    drawer, tally = programs.drawer(asked), Tally()
    for picture in sorted(PICTURES.glob("*.svg")):
        tally.tell(picture.relative_to(TOP), reason(picture, drawer, asked.write))
    for name, told in WRONG_LINES.items():
        tally.tell(f"./draw check --why < examples/{name}.cm", wrong_line_fault(name, told, drawer))
    for name, document in REFUSED.items():
        status, drawn, _ = programs.ran([drawer], document)
        is_so = status == REFUSED_STATUS and not drawn
        tally.tell(f"{name} has no page", None if is_so else "it is to write nothing and end with status 3")
    return tally.end()
