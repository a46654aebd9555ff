"""Answers: is what pictures show right, and does it fit? Draws all examples, made documents, and random documents, and
looks at each page:

- each text, line and mark lies on the page and within its section, and no text lies on another or on a mark;
- each interface that is named is one that `list interfaces` prints, and each reference that this prints is named;
- the counts of the heading are those of the trace that `cm` prints;
- the log has each request and each refused call of the trace, in that order, with ticket, cycle, session, call, the
  members of the groups that it names, and what became of it, or says how many it leaves out;
- `--why` tells each refusal, each name that was left out, each failure and each stop of the trace, in that order.
Prints a line for each fault, and last `N passed, M failed`. The exit status is 1 if a page is wrong.
"""

import concurrent.futures
import re
import sys
import tomllib
from pathlib import Path

from ..documents import made
from ..tree import TOP
from . import programs
from .layout import names, places
from .log import Told, log, whys
from .other import STAGE, other_option
from .page import Page

SEPARATOR = re.compile(rb"(?m)^--- script ---\r?$")
SHOWN = 6  # faults of one page that are told
AT_ONCE = 4  # pages
LIMIT = 600  # seconds
RUNS = (["run"], ["steps"])


def options(parser):
    other_option(parser, "which makes random documents")
    parser.add_argument("--count", type=int, default=200, help="so many random documents, 200 if it is not said")
    parser.add_argument("--keep", type=Path, metavar="FOLDER", help="where the pages are put")
    programs.options(parser, drawer=True)


def examples():
    for document in sorted(TOP.glob("examples/*.cm")):
        words = Path(f"{document}.args").read_text().split()
        if words in RUNS:
            yield str(document.relative_to(TOP)), words, document.read_bytes()


def random_documents(folder, program, count):
    """So many random documents that the program runs, with number and words; none if nothing makes them."""
    if not folder or not folder.is_dir():
        print("no other implementation is named that makes random documents: none are drawn")
        return
    sys.path.insert(0, str(folder))
    from cm_oracle.gen import case

    seed = 0
    while count > 0:
        seed += 1
        one = case(STAGE, seed)
        if one.words in RUNS and ran(program, one.words, one.document)[0] == 0:
            count -= 1
            yield f"random document {seed}", one.words, one.document


def ran(program, words, document):
    status, printed, _ = programs.ran([program, *words], document, LIMIT)
    return status, printed.decode(errors="replace")


class Looker:
    def __init__(self, drawer, program, keep):
        self.draw, self.cm, self.keep = drawer, program, keep

    def faults(self, case):
        """The name of a document with the faults of its page, or None where it has none as it is refused."""
        name, words, document = case
        status, svg = ran(self.draw, [*words, "--name", name], document)
        if status != 0:
            return name, None if ran(self.cm, words, document)[0] == status and not svg else [
                f"there is no page: {status}"
            ]
        if self.keep:
            self.keep.mkdir(exist_ok=True)
            Path(self.keep, re.sub(r"\W+", "_", name) + ".svg").write_text(svg)
        _, trace = ran(self.cm, words, document)
        page = Page(svg)
        cycles = int(re.search(r"run of (\d+) cycle", page.texts[0].words)[1])
        told = Told(trace, cycles, self.groups(document) if "@" in trace else {})
        _, text = ran(self.draw, [*words, "--why"], document)
        return name, [*places(page), *names(page, self.interfaces(document)), *log(page, told), *whys(text, told)]

    def groups(self, document):
        """The members of each described group, by its name."""
        _, printed = ran(self.cm, ["upgrade"], document)
        return {group["name"]: group["members"] for group in tomllib.loads(printed).get("group", [])}

    def interfaces(self, document):
        """The interfaces that `list interfaces` prints of a document's description."""
        description = SEPARATOR.split(document, maxsplit=1)[0]
        _, trace = ran(self.cm, ["run"], description + b"--- script ---\nsession a\nlist interfaces\n")
        listed = trace.splitlines()[0].split(": ", 1)[1]
        return {it.split(" ")[1] for it in listed.split("; ")} if listed != "none" else set()


def main(asked):
    looker = Looker(programs.drawer(asked), programs.program(asked), asked.keep)
    cases = [*examples(), *[(f"the made document of {it} rounds", ["run"], made(it).encode()) for it in (1, 12, 70)]]
    cases += random_documents(asked.other, looker.cm, asked.count)
    passed = failed = 0
    with concurrent.futures.ThreadPoolExecutor(AT_ONCE) as pool:
        for name, faults in pool.map(looker.faults, cases):
            passed += faults == []
            failed += bool(faults)
            for fault in (faults or [])[:SHOWN]:
                print(f"FAILED  {name}: {fault}")
    print(f"{passed} passed, {failed} failed")
    return int(failed > 0 or passed == 0)
