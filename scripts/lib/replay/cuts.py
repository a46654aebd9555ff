"""Answers: what does the program make of documents and schedules that end too early?

- The first document of scripts/cases, cut behind each of its lines, and within the first: docs/FAULTS.md has a row for
  each cut.
- The schedule of ten turns, cut behind each turn: the run goes well, and cut behind the sixth it prints what stands
  here.
- Each document of examples/ and scripts/cases, cut behind each byte. Cut within the description it is refused. Cut
  behind the separator it goes well, or its last line is refused if it is not whole. A document with a trace goes wrong
  where it ends, or where the whole one does.

If another implementation is named, its answer is compared too, byte by byte: of the cuts behind a byte one of STRIDE,
by turns from document to document, and each that is behind a line. With `--whole` all are compared. No run is to take a
tenth of a second of the processor. Prints a line for each cut of which something else comes, and last `N passed, M
failed`. The exit status is 1 if there is one.
"""

import functools
import itertools
import os
import re
from concurrent.futures import ProcessPoolExecutor

from ..tool import Tally
from ..tree import TOP
from . import programs
from .examples import CASES, read_documents, words_of
from .other import JUDGED, judge, other_option

PAGE = TOP / "docs/FAULTS.md"
SEPARATOR, TRACE = b"--- script ---", b"--- trace ---"
STRIDE = 7
SECONDS = 0.1
TURNS = 10
# What the schedule of ten turns prints behind its first begin, if it ends behind the sixth turn.
SIX_TURNS = b"""loop begin 0: 0 done
loop end 0: run fwd ok unset; joint j1 0.000000 0.000000 0.000000
a told 0: done
a unload fwd: active
b unload traj2: ok
loop close: none
"""


def options(parser):
    other_option(parser, "with whose answers these are compared")
    parser.add_argument("--whole", action="store_true", help="each cut is compared with it, which takes minutes")
    parser.add_argument("--jobs", type=int, default=os.cpu_count(), help="how many documents are run side by side")
    programs.options(parser)


# ---- By lines and by turns


def rows():
    """Gives of each row of the page how many lines are left, or how many bytes; the status with the line that is told;
    and how many lines are printed."""
    below = re.search(r"(?ms)^## A document that ends too early$(.*?)(?=^## |\Z)", PAGE.read_text())[1]
    for left, unit, status, line, printed in re.findall(
        r"(?m)^\| (\d+)( bytes)? \| (\d) \| (?:`(.+?)`)? ?\| (\d+) \|$", below
    ):
        yield int(left), bool(unit), int(status), f"cm: {line}\n".encode() if line else b"", int(printed)


def by_lines(program):
    document = (CASES / "first.cm").read_bytes()
    lines = document.splitlines(keepends=True)
    seen = set()
    for left, are_bytes, *wanted in rows():
        seen |= set() if are_bytes else {left}
        came = programs.came([program, "run"], document[:left] if are_bytes else b"".join(lines[:left]))
        differs = [came.status, came.told, came.printed.count(b"\n")] != wanted
        said = f"status {came.status}, {came.told!r}, {came.printed!r}"
        yield f"{left} {'bytes' if are_bytes else 'lines'}", said if differs else None
    missing = [str(left) for left in range(len(lines) + 1) if left not in seen]
    yield "the page", f"has no row for {', '.join(missing)} lines" if missing else None


def by_turns(program, other):
    document = CASES / "ten_turns.cm"
    lines = document.read_bytes().splitlines(keepends=True)
    for turns in range(TURNS + 1):
        cut = b"".join(lines[: len(lines) - TURNS + turns])
        came = programs.came([program, *words_of(document)], cut)
        is_so = (came.status, came.told) == (0, b"") and (turns != 6 or came.printed.endswith(b"\n" + SIX_TURNS))
        disagreement = judge(other)
        why = None if is_so else f"status {came.status}, {came.told!r}, {came.printed!r}"
        if is_so and disagreement:
            why = disagreement(cut, words_of(document), JUDGED, came.status, came.printed, came.told)
        yield f"{turns} turns", why


# ---- By bytes


def is_compared(number, text, left):
    """Whether the document of this number is compared if it is cut behind so many bytes and not all are compared."""
    return left % STRIDE == number % STRIDE or text[left - 1 : left] == b"\n"


def wrong_by_rules(cut, refused, came):
    """What is wrong with how a document ended that was cut here, or None.

    The whole one is refused with this line, or goes well.
    """
    lines = cut.splitlines()
    if came.status not in (0, 3, 4) or came.status and came.printed:
        return "this is no end of a cut document"
    if SEPARATOR not in lines:
        missing = b"cm: script: bad_line %d\n" % (len(lines) + 1)
        is_so = came.status == 3 or (came.status, came.told) == (4, missing)
        return None if is_so else f"{missing!r} or a fault of the description is to come"
    if refused:
        return None if (came.status, came.told) == (3, refused) else f"{refused!r} is to come"
    # A step whose session's name is cut steps none that is there.
    faults = (b"bad_line", b"no_session") if lines[-1].startswith(b"step ") else (b"bad_line",)
    of_last = [b"cm: script: %s %d\n" % (fault, len(lines)) for fault in faults]
    is_so = came.status == 0 or came.told in of_last and not cut.endswith(b"\n")
    return None if is_so else f"only {of_last[0]!r} can be told"


def wrong_with_trace(cut, refused, came):
    """The same of a document with a trace, which the job `check` judges. A script that was cut lacks the trace. Behind
    that the trace goes wrong where it ends, or where the whole one does."""
    lines, ends = cut.splitlines(), cut.endswith(b"\n")
    if SEPARATOR not in lines:
        return wrong_by_rules(cut, b"", came)
    if TRACE not in lines:
        wanted = (4, {b"cm: script: bad_line %d\n" % line for line in range(len(lines) + ends, len(lines) + 2)})
    else:
        line = max(1, len(lines) - lines.index(TRACE) - 1 + ends)
        whole = int(refused.split()[-1]) if refused else line
        wanted = (9, {b"cm: trace: line %d\n" % min(line, whole)})
    is_so = came.status == wanted[0] and came.told in wanted[1] and not came.printed
    return None if is_so else f"status {wanted[0]} and one of {wanted[1]} is to come"


def tried(program, other, is_whole, numbered):
    """Runs all cuts of a document, and gives how many there are, and what is wrong with each that is."""
    number, document = numbered
    words, text, found = words_of(document), document.read_bytes(), []
    refused = programs.came([program, *words], text).told
    for left in range(len(text)):
        came = programs.came([program, *words], text[:left])
        why = (wrong_with_trace if words == ["check"] else wrong_by_rules)(text[:left], refused, came)
        if not why and came.seconds >= SECONDS:
            why = "it takes too long"
        if not why and judge(other) and (is_whole or is_compared(number, text, left)):
            why = judge(other)(text[:left], words, JUDGED, came.status, came.printed, came.told)
        if why:
            said = f"status {came.status}, {came.told!r}, {came.seconds:.3f} s"
            found.append((f"{document.relative_to(TOP)}, {left} bytes", f"{why}: {said}"))
    return len(text), found


def main(asked):
    program, tally = programs.program(asked), Tally(tells_all=False)
    for name, why in itertools.chain(by_lines(program), by_turns(program, asked.other)):
        tally.tell(name, why)
    if not judge(asked.other):
        print("no other implementation is named: the program is not compared with one")
    one = functools.partial(tried, program, asked.other, asked.whole)
    with ProcessPoolExecutor(asked.jobs) as pool:
        for count, found in pool.map(one, enumerate(read_documents())):
            tally.passed += count - len(found)
            for name, why in found:
                tally.tell(name, why)
    return tally.end()
