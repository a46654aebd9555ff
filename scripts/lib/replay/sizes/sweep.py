"""Answers: does the program answer at each size? No contract can refuse a body that wants memory from some size on. So
for each count that the formats limit, and for each number in a line, documents are made at the least size, the next
two, each tenth of the limit, the limit, and one more, which is refused with its fault; of a count up to 130 at each
number. The program runs them all.

It must end with the status and the line on standard error that docs/TRACE.md has, and print as many lines as the rules
say. The answer of another implementation, if one is named, is compared too, byte by byte, but for documents that take
it long. Status 7 fails. Prints a line for each document that the program answers otherwise, and last how many it
answered. The exit status is 1 if there is one, or if a limit of cm_document has no row.
"""

import functools
import os
import re
import sys
import time
from concurrent.futures import ProcessPoolExecutor

from .. import programs
from ..other import JUDGED, PLANNED, judge, other_option
from .parts import without_row
from .table import table

# The other implementation takes seconds for what is larger: there the status and the count of lines decide.
COMPARED_BYTES, COMPARED_CYCLES = 120_000, 10_000
STATUSES = {"usage": 2, "description": 3, "script": 4, "document longer than": 6}


def options(parser):
    other_option(parser, "with whose answers these are compared")
    parser.add_argument("--jobs", type=int, default=os.cpu_count(), help="how many documents are run side by side")
    parser.add_argument("rows", nargs="*", metavar="ROW", help="of the table, by its name: these alone")
    programs.options(parser)


def finding(made, status, output, line):
    """What is wrong with this answer by the rules, or None."""
    wanted = "" if made.fault is None else f"cm: {made.fault}\n"
    wanted_status = (
        0 if made.fault is None else next(it for start, it in STATUSES.items() if made.fault.startswith(start))
    )
    lines = 0 if made.fault else made.lines
    if status == 7:
        return "WANTS MEMORY"
    if (status, line.decode()) != (wanted_status, wanted):
        return f"status {status} {line[:200]!r}, and not {wanted_status} {wanted[:200]!r}"
    if output.count(b"\n") != lines:
        return f"{output.count(chr(10).encode())} lines, and not {lines}"
    ends = ((text, len(re.findall(rb"(?m)%s$" % text.encode(), output)), times) for text, times in made.told.items())
    return next(
        (
            f"{is_} lines end with {text}, and not {times}"
            for text, is_, times in ends
            if is_ != times and not made.fault
        ),
        None,
    )


def tried(program, other, document):
    """Runs the program on the document of this size, and gives what it is called, what is wrong, and whether it was
    compared.
    """
    what, size = document
    made = table()[what].case(size)
    status, output, line = programs.ran([program, *made.words], made.text.encode())
    wrong = finding(made, status, output, line)
    disagreement = judge(other)
    is_compared = disagreement is not None and len(made.text) <= COMPARED_BYTES and made.cycles <= COMPARED_CYCLES
    if not wrong and is_compared:
        stage = PLANNED if STATUSES["usage"] == status else JUDGED
        wrong = disagreement(made.text.encode(), list(made.words), stage, status, output, line)
    return f"{what}, {size:,}", wrong, is_compared


def documents(names):
    """The documents of these rows, each by its row and its size. Those that take longest come first."""
    found = [(name, size) for name in names for size in table()[name].sizes()]
    return sorted(found, key=lambda it: cost(table()[it[0]].case(it[1])), reverse=True)


def cost(made):
    return len(made.text) + 100 * made.cycles


def main(asked):
    program, rows = programs.program(asked), table()
    if any(name not in rows for name in asked.rows):
        sys.exit("the rows are: " + "; ".join(rows))
    if not judge(asked.other):
        print("no other implementation is named: the program is not compared with one")
    begun, compared, answered, wrong = time.time(), 0, 0, [f"no row has {name}" for name in without_row()]
    with ProcessPoolExecutor(asked.jobs) as pool:
        for name, why, is_compared in pool.map(
            functools.partial(tried, program, asked.other), documents(asked.rows or rows)
        ):
            answered, compared = answered + 1, compared + is_compared
            if why:
                wrong.append(name)
                print(f"{name}: {why}", flush=True)
    print("".join(f"{line}\n" for line in wrong if line.startswith("no row")), end="")
    print(f"{answered:,} documents, {compared:,} of them compared, in {time.time() - begun:.0f} s; {len(wrong)} wrong")
    return int(bool(wrong))
