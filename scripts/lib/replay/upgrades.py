"""Answers: does an upgraded description run as the one that it was made of?

Each NAME.cm of examples/ and scripts/cases without a trace is upgraded, and its script put behind what is printed. The
new document is run with the words of the old one, as `scripts/replay examples` does, and must print the same. One that
is refused must be refused so by `upgrade`, too. A live run prints another trace each time, so those documents are run
by `run`. The description must end with a line feed, hold no separator, and be printed again as it is. So are the
documents at all limits of `scripts/replay limits` upgraded, and random documents, if another implementation is named
that makes them. One that would be longer than a document may be, upgraded, is passed over. Prints a line a document,
but of random ones for those alone that fail, and last `N passed, M failed`. The exit status is 1 if one failed.
"""

import functools
import os
import sys
from collections import Counter
from concurrent.futures import ProcessPoolExecutor

from ..tool import Tally
from . import programs
from .examples import LIVE, read_documents, words_of
from .limits import FEW, VERSIONS, Limits
from .other import JUDGED, judge, other_option
from .traces import LONGEST

SEPARATOR = b"--- script ---"
RUNS = (["run"], ["steps"], [LIVE])
LIMIT = 60  # seconds
RAN, REFUSED, TOO_LONG = "that run", "that are refused", "that are too long when they are upgraded"
AT_ONCE = 400  # random documents, before it is looked whether there are enough


def options(parser):
    other_option(parser, "which makes random documents")
    parser.add_argument(
        "--count", type=int, default=2000, help="so many random documents that run, 2,000 if it is not said"
    )
    parser.add_argument(
        "--jobs", type=int, default=os.cpu_count(), help="how many random documents are run side by side"
    )
    programs.options(parser)


def split(document):
    """Returns the description's lines and the script's, and the separator between them."""
    lines = document.split(b"\n")
    at = next(k for k, line in enumerate(lines) if line.removesuffix(b"\r") == SEPARATOR)
    return b"\n".join(lines[:at]), b"\n".join(lines[at:])


def answer(program, words, document):
    came = programs.came([program, *words], document, LIMIT)
    return came.status, came.printed, came.told


def tried(document, program, words):
    """Upgrades a document. Returns which kind of document it is, and what is wrong with its upgrade, or None."""
    words = ["run"] if words == [LIVE] else words
    status, printed, told = answer(program, ["upgrade"], document)
    wanted = answer(program, words, document)
    if status != 0:
        is_refused = (status, printed, told) == wanted and status in (3, 4, 6)
        return REFUSED, None if is_refused else f"status and line are: {status} {told!r}"
    if not printed.endswith(b"\n") or SEPARATOR in printed.split(b"\n"):
        return RAN, "the description ends without a line feed, or has a separator"
    again = printed + split(document)[1]
    if len(again) > LONGEST:
        return TOO_LONG, None
    if answer(program, ["upgrade"], again)[1] != printed:
        return RAN, "it is printed in another way when it is upgraded again"
    return RAN, None if answer(program, words, again) == wanted else "the upgraded document does not print the same"


def tried_at_random(program, folder, seed):
    """The same of the random document of a seed; of one that no job runs, None."""
    sys.path.insert(0, str(folder))
    from cm_oracle.gen import case

    made = case(JUDGED, seed)
    return tried(made.document, program, made.words) if made.words in RUNS else None


def random_documents(asked, program, tally):
    """Upgrades as many random documents as run, and says how many of the others stand between them."""
    one, seed, counts = functools.partial(tried_at_random, program, asked.other), 1, Counter()
    with ProcessPoolExecutor(asked.jobs) as pool:
        while counts[RAN] < asked.count:
            seeds = range(seed, seed + AT_ONCE)
            for number, came in zip(seeds, pool.map(one, seeds, chunksize=8)):
                if came and came[1]:
                    tally.tell(f"random document {number}", came[1])
                counts.update([came[0]] if came else [])
            seed += AT_ONCE
    tally.tell(f"random documents: {', '.join(f'{counts[kind]:,} {kind}' for kind in (RAN, REFUSED, TOO_LONG))}")


def main(asked):
    program, tally = programs.program(asked), Tally()
    for document in read_documents():
        words = words_of(document)
        if "check" not in words:
            tally.tell(document.name, tried(document.read_bytes(), program, words)[1])
    for version in VERSIONS:
        kind, why = tried(Limits(version).document("run", FEW)[0], program, ["run"])
        tally.tell(
            f"the document at all limits of version {version}",
            why or (None if kind == RAN else f"it is one of those {kind}"),
        )
    if judge(asked.other):
        random_documents(asked, program, tally)
    else:
        print("no other implementation is named that makes random documents: none are upgraded")
    return tally.end()
