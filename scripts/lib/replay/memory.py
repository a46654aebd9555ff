"""Answers: what comes of a run to which memory is refused?

The program runs each document of scripts/cases and the made one of three rounds once for each allocation that it asks
for: that one is refused alone, and then all from that one on. It is to end with status 0 and the whole trace, or with
status 7, its line, and a front of the trace. Live runs have many traces: one that ends well is judged as
`scripts/replay live` does, and a front of one by the job `steps`. Then the tests below are run with each of their
allocations refused alone. A test may say that it wants memory itself. Else it must pass, and it fails if a call that
was refused memory has changed the history, or has another answer when it is made again. One that never goes on behind a
refusal shows nothing, and fails.

A library that is loaded before all else refuses memory. It is compiled here, by the kit. It does not reach the program
that ./try compiled, whose memory is watched by a library of its own. The test programs are those that the gate built: a
test without one fails. With `--tests` another program is named for a crate. Prints a line for each run that is not so,
one for each document and test, and last `N passed, M failed`. The exit status is 1 if one failed.
"""

import collections
import concurrent.futures
import functools
import os
import re
import tempfile
from pathlib import Path

from ..tool import Tally
from ..tree import TOP
from . import live, programs
from .examples import CASES, EXAMPLES, LIVE, beside, words_of
from .refusing import ALONE, ON, WAYS, Refusing, library

RUN_LIVE = (CASES / "every_cause.cm", EXAMPLES / "operators.cm")
MADE, SUMMARY = ["run", "--make", "3"], TOP / "examples/made.cm.stdout"
WELL, WANT = (0, b""), (7, b"cm: out of memory\n")
# The tests to which memory is refused, by their full names, each with its crate.
TESTS = (
    ("rows_program", "memory::memory_is_wanted_only_where_it_was_refused"),
    ("rows_desk", "refused::a_call_that_was_refused_memory_is_made_again"),
    ("rows_desk", "desks::a_desk_answers_several_sessions"),
    ("rows_desk", "shared::passes::sessions_are_answered_while_a_flight_is_out"),
    ("rows_desk", "shared::passes::each_call_is_answered_at_each_lifecycle_state"),
)
FAILED = 101  # the status of a test
# What a test says that has no memory for itself.
OWN_WANT = re.compile(rb"error: (AllocError|AllocFailed { .. }|Memory|Error|\w+\(Memory\))\n")
SHOWN = 5  # runs of one document that are told


def options(parser):
    programs.tests_option(parser)
    parser.add_argument("--jobs", type=int, default=os.cpu_count(), help="how many runs are made side by side")
    parser.add_argument("--program", type=Path, metavar="PATH", help="another program than the built cm_main")
    parser.set_defaults(unproved=False)


def is_fair(came, whole):
    """Whether a run went well and printed all, or wants memory and printed a front of it."""
    ended = came.status, came.told
    return ended == WELL and came.printed == whole or ended == WANT and whole.startswith(came.printed)


def is_fair_live(program, document, came, _):
    """Whether a live run went well and printed a trace, or wants memory and printed the first lines of one, and perhaps
    a part of a line.
    """
    ended = came.status, came.told
    if ended == WELL:
        return live.reason(program, document, came.printed) is None
    return ended == WANT and not live.differs_in_steps(program, document, came.printed.split(b"\n")[:-1])


def is_right_or_wants(came, _):
    """Whether a test passed, or has no memory for itself."""
    return came.status == 0 or came.status == FAILED and bool(OWN_WANT.match(came.told))


def documents():
    """Gives of each document its name, its words, its bytes and what is to be printed, if that is left to nothing."""
    for document in sorted(CASES.glob("*.cm")):
        words = words_of(document)
        whole = None if words[0] == LIVE else beside(document, ".stdout").read_bytes()
        yield f"{document.stem} {words[0]}", words, document.read_bytes(), whole
    for document in RUN_LIVE:
        yield f"{document.stem} {LIVE}", [LIVE], document.read_bytes(), None
    yield " ".join(MADE), MADE, b"", SUMMARY.read_bytes()


class Tried:
    """A document or a test to whose runs memory is refused."""

    def __init__(self, name, runs, ways, is_so, whole=None):
        self.name, self.runs, self.ways, self.is_so, self.whole = name, runs, ways, is_so, whole

    def tell(self, tally, pool):
        """Refuses each allocation in each way, and tells how many runs ended with which status, and the first that are
        not so.
        """
        count, came = self.runs.whole()
        if came.status or self.whole not in (None, came.printed):
            tally.tell(self.name, f"ends with status {came.status} though nothing is refused: {came.told[-200:]!r}")
            return
        if not count:
            tally.tell(self.name, "no allocation was seen")
            return
        tried = [(way, number) for way in self.ways for number in range(1, count + 1)]
        all_came = list(pool.map(lambda it: self.runs.came(*it), tried))
        odd = [
            f"allocation {number} {WAYS[way]}: status {came.status}, {came.told[-200:]!r}, {came.printed[-80:]!r}"
            for (way, number), came in zip(tried, all_came)
            if not self.is_so(came, self.whole)
        ]
        if all(came.status == FAILED for came in all_came):
            odd.append("no run goes on behind a refusal")
        ended = sorted(collections.Counter(came.status for came in all_came).items(), key=str)
        said = ", ".join(f"{many} with status {status}" for status, many in ended)
        tally.tell(f"{self.name}: {len(tried)} runs, {said}", "; ".join(odd[:SHOWN]))


def documents_tried(program, loaded):
    for name, words, given, whole in documents():
        is_so = is_fair if whole is not None else functools.partial(is_fair_live, program, given)
        yield Tried(name, Refusing([program, *words], given, loaded), (ALONE, ON), is_so, whole)


def tests_tried(asked, loaded, tally):
    """Gives the tests. One whose program is not there fails."""
    for crate, test in TESTS:
        name, (built, why) = f"{crate}: {test}", programs.tests(asked, crate)
        if why:
            tally.tell(name, why)
        else:
            yield Tried(name, Refusing([built, test], b"", loaded), (ALONE,), is_right_or_wants)


def main(asked):
    program, tally = programs.program(asked), Tally()
    with tempfile.TemporaryDirectory() as folder, concurrent.futures.ThreadPoolExecutor(asked.jobs) as pool:
        loaded = library(folder)
        for tried in (*documents_tried(program, loaded), *tests_tried(asked, loaded, tally)):
            tried.tell(tally, pool)
    return tally.end()
