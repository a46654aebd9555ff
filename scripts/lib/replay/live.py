"""Answers: is what a live run prints always the trace of one legal history?

Each document is run live, so many times, and each trace is judged. The program's own job `steps` makes the calls of the
trace again, in their order: it has to print the same lines, up to the close of the loop. (It goes on otherwise: before
its close sessions settle.) Each session has to have made the calls that it makes in the job `run`, in their order. The
job `check` judges the whole trace, and so does another implementation, if one is named.

The documents are the examples that run and have no schedule, and others that are made here: four sessions list, send,
wait and switch beside 300 cycles. Every other one of these comes from the maker of the other implementation, if one is
named. Then each test of the crates that have live runs is run once, pinned to one processor. The test programs are
those that the gate built: one that is not there fails. With `--tests` another program is named for a crate.

Last it says how many different traces the documents gave, and how many lines of sessions came while a cycle was aloft.
The exit status is 1 if a trace is wrong, a run hangs or a test fails. On more processors than one it is 1 too if no
document gave a second trace, or no line came while a cycle was aloft.
"""

import collections
import concurrent.futures
import contextlib
import functools
import itertools
import os
import random
import re

from ..documents import component, controller, document, head, joint, named
from ..tree import TOP
from . import programs
from .other import JUDGED, STAGE, judge, other_option
from .traces import LONGEST, SEPARATOR, aloft, before_close, calls_of, scheduled, with_trace

LIMIT = 60  # seconds; a run takes some hundredths of one
CYCLES, SESSIONS, LINES, JOINTS = 300, 4, 20, 3
MOST_TURNS = 10_000  # calls and turns of a script
PINNED = ("rows_program", "rows_callers")  # the crates whose tests are run on one processor
TEST_LIMIT = 300  # seconds; a test takes some seconds of a processor
LISTED = ": test"  # what stands behind the name of each test that a program of tests lists


def options(parser):
    parser.add_argument("--runs", type=int, default=1000, help="how many in all, 1,000 if it is not said")
    parser.add_argument("--times", type=int, default=4, help="how often a document is run, 4 if it is not said")
    parser.add_argument("--first", type=int, default=1, help="the seed of the first document that is made")
    parser.add_argument("--processors", type=int, help="on so many processors alone")
    other_option(parser, "which judges and makes documents too")
    programs.options(parser)
    programs.tests_option(parser)


# ---- The documents


def made(number):
    """The document of this number: each joint has two controllers, which sessions load, switch, send to and list."""
    by = random.Random(number)
    names = [f"{letter}{k}" for k in range(JOINTS) for letter in "ab"]
    controllers = (controller(name, "forward", [f"j{name[1:]}/position"]) for name in names)
    described = head(CYCLES, 1000) + component("arm", map(joint, named("j", JOINTS))) + "".join(controllers)
    script = [line for k in range(SESSIONS) for line in [f"session s{k}", *(call(by, names) for _ in range(LINES))]]
    return document(described, script).encode()


def call(by, names):
    name, other = by.choice(names), by.choice(names)
    return by.choice(
        [
            f"load {name}",
            f"load {name}",
            f"configure {name}",
            f"configure {name}",
            f"switch best +{name}",
            f"switch strict +{name} -{other}",
            f"send {name} 0.{by.randrange(10)}",
            f"await {by.randrange(CYCLES)}",
            "list controllers",
            "list interfaces",
            f"unload {name}",
            f"hw arm {by.choice(['inactive', 'active'])}",
        ]
    )


def can_be_run_live(program, document):
    """Whether a document is accepted, runs and has no schedule."""
    script = document.split(SEPARATOR, 1)[1:]
    has_schedule = script and re.search(rb"(?m)^\s*schedule", script[0])
    return bool(script) and not has_schedule and programs.came([program, "run"], document, LIMIT).status == 0


def examples(program):
    for path in sorted((TOP / "examples").glob("*.cm")):
        document = path.read_bytes()
        if can_be_run_live(program, document):
            yield f"examples/{path.name}", document


def documents_of_other(program, first):
    """Documents of the other implementation's maker from this seed on."""
    from cm_oracle.gen import case

    for seed in itertools.count(first):
        document = case(STAGE, seed).document
        if can_be_run_live(program, document):
            yield f"random document {seed}", document


def made_documents(asked, program):
    others = documents_of_other(program, asked.first) if judge(asked.other) else None
    for number in itertools.count(asked.first):
        yield next(others) if others and number % 2 else (f"made document {number}", made(number))


def documents(asked, program):
    """Gives of each document its name and its bytes: the examples first."""
    return itertools.islice(
        itertools.chain(examples(program), made_documents(asked, program)), max(1, asked.runs // asked.times)
    )


# ---- How a trace is judged


@functools.lru_cache(maxsize=64)
def calls_in_run(program, document):
    return calls_of(programs.came([program, "run"], document, LIMIT).printed.splitlines())


def differs_in_steps(program, document, lines):
    """Where the job `steps` prints otherwise if it makes these calls in their order, up to the close of the loop, or
    None.
    """
    came = programs.came([program, "steps"], scheduled(document, lines), LIMIT)
    again = came.printed.splitlines()
    if came.status != 0:
        return f"the job steps ends with status {came.status} {came.told[:200]!r}"
    pairs = enumerate(zip(before_close(lines), again + [b""]), 1)
    return next(
        (f"line {number} is {was!r}, and the job steps prints {now!r}" for number, (was, now) in pairs if was != now),
        None,
    )


def reason(program, document, printed):
    """What is wrong with what a live run printed, by the program's own other jobs, or None."""
    lines = printed.splitlines()
    if len(before_close(lines)) == len(lines):
        return "the loop does not close"
    if calls_of(lines) != calls_in_run(program, document):
        return "a session's calls are not all there, in their order"
    return differs_in_steps(program, document, lines) if 2 * len(lines) < MOST_TURNS else None


def is_refused(program, document, printed):
    """How the job `check` refuses what a live run printed, or None.

    A document with its trace may be too long for it.
    """
    text = with_trace(document, printed)
    if len(text) > LONGEST:
        return None
    judged = programs.came([program, "check"], text, LIMIT)
    return (
        None
        if (judged.status, judged.printed) == (0, b"legal\n")
        else f"the job check refuses it: {judged.told[:200]!r}"
    )


def finding(program, other, document, came):
    """What is wrong with a live run of the document, or None."""
    if came.status is None:
        return "it hangs"
    if came.status or came.told:
        return f"status {came.status} {came.told[:200]!r}"
    disagreement = judge(other)
    wrong = reason(program, document, came.printed) or is_refused(program, document, came.printed)
    return wrong or disagreement and disagreement(document, ["live"], JUDGED, came.status, came.printed, came.told)


# ---- The runs


Tried = collections.namedtuple("Tried", "name traces aloft longest wrong")


def tried(program, other, times, document):
    name, text = document
    all_came = [programs.came([program, "live"], text, LIMIT) for _ in range(times)]
    wrong = [why for came in all_came if (why := finding(program, other, text, came))]
    lines = sum(aloft(came.printed.splitlines()) for came in all_came)
    return Tried(name, len({came.printed for came in all_came}), lines, max(came.seconds for came in all_came), wrong)


def sums(asked, all_tried):
    """Prints what the runs of all documents came to together, and returns whether they are as they should be."""
    many, failed = sum(it.traces > 1 for it in all_tried), sum(len(it.wrong) for it in all_tried)
    traces, lines = sum(it.traces for it in all_tried), sum(it.aloft for it in all_tried)
    most, longest = max(it.traces for it in all_tried), max(it.longest for it in all_tried) * 1000
    print(
        f"{asked.times * len(all_tried):,} live runs of {len(all_tried):,} documents gave {traces:,} different "
        f"traces, {many:,} documents more than one, and {most:,} the most of one; {lines:,} lines of sessions came while "
        f"a cycle was aloft; the longest took {longest:.0f} ms of processors; {failed} wrong"
    )
    odd = [*alone(asked, many, lines)] if len(os.sched_getaffinity(0)) > 1 else []
    for why in odd:
        print(f"FAILED  all documents: {why}")
    return not failed and not odd


def alone(asked, many, lines):
    """Gives what shows that nothing went on beside the loop, by the documents with several traces and the lines that
    came while a cycle was aloft.
    """
    if not many and asked.times > 1:
        yield "none gave a second trace"
    if not lines:
        yield "no line of a session came while a cycle was aloft"


# ---- The tests on one processor


@contextlib.contextmanager
def on_one_processor():
    """Pins what is begun here to one processor."""
    before = os.sched_getaffinity(0)
    os.sched_setaffinity(0, {min(before)})
    try:
        yield
    finally:
        os.sched_setaffinity(0, before)


def run_of_test(program, test):
    """What is wrong with a run of a test, or None."""
    came = programs.came([program, test], limit=TEST_LIMIT)
    if came.status is None:
        return "it hangs"
    return None if came.status == 0 else f"status {came.status}, {came.told[-200:]!r}"


def pinned(asked):
    """Runs each test on one processor. Gives its name, and what is wrong, or None."""
    for crate in PINNED:
        program, why = programs.tests(asked, crate)
        listed = [] if why else programs.came([program, "--list"]).printed.decode().splitlines()
        tests = [line.removesuffix(LISTED) for line in listed if line.endswith(LISTED)]
        if not tests:
            yield crate, why or "it lists no test"
        for test in tests:
            yield f"{crate}: {test}", run_of_test(program, test)


def pinned_are_right(asked):
    """Prints which tests failed on one processor, and how many were run. Returns whether none failed."""
    with on_one_processor():
        wrong = dict(pinned(asked))
    failed = {name: why for name, why in wrong.items() if why}
    for name, why in failed.items():
        print(f"FAILED  {name}: {why}")
    print(f"{len(wrong)} tests on one processor, {len(failed)} failed")
    return not failed


def main(asked):
    program = programs.program(asked)
    if asked.processors:
        os.sched_setaffinity(0, sorted(os.sched_getaffinity(0))[: asked.processors])
    one = functools.partial(tried, program, asked.other, asked.times)
    with concurrent.futures.ProcessPoolExecutor(max(1, (os.cpu_count() or 2) // 2)) as pool:
        all_tried = list(pool.map(one, documents(asked, program)))
    for it in all_tried:
        if it.wrong:
            print(f"FAILED  {it.name}: {it.wrong[0]}", flush=True)
    are_right = [sums(asked, all_tried), pinned_are_right(asked)]
    return int(not all(are_right))
