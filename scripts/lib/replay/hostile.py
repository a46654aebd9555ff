"""Answers: what do documents cost that were made to cost much? Each has at most a mebibyte, the longest that is read.

Prints a line for each: its bytes, the status and the line on standard error that the program ends with, the processor's
time and the peak memory of the program's process. The peak counts what launched it too, so some 20 MiB is the least
that it shows.

The exit status is 1 if one took a second or more, or more memory than 32 MiB and 64 times its bytes. Two kinds of
documents have bounds of their own. In many small tables the tree that `toml` makes keeps room for fifteen keys each.
And a history keeps each list that was asked for, of 7 KB for 288 interfaces, where the script has 16 bytes.
"""

import itertools
import os
import subprocess
import tempfile

from . import programs
from .costly import (
    documents,
    documents_of_checks,
    documents_of_fallbacks,
    documents_of_lists,
    documents_of_mocks,
    documents_of_plans,
    documents_of_requests,
    documents_of_small_tables,
)

SECONDS = 1.0
# How many times a document's bytes its reading may take, beside 32 MiB; if its tables are many and small; if its script
# asks for lists.
TIMES = 64
TIMES_IN_SMALL_TABLES = 640
TIMES_IN_LISTS = 320
# The jobs of documents whose names begin so; `run` of all others.
JOBS = {"plans": "plan", "checks": "check"}


def options(parser):
    parser.add_argument("names", nargs="*", metavar="NAME", help="a document: these alone")
    programs.options(parser)


def run(program, job, text):
    """Returns status, standard error, processor seconds and peak memory in bytes of the program's process for this job
    and document.
    """
    with tempfile.TemporaryFile() as source, tempfile.TemporaryFile() as errors, open(os.devnull, "w") as nothing:
        source.write(text.encode())
        source.seek(0)
        child = subprocess.Popen([program, job], stdin=source, stdout=nothing, stderr=errors)
        _, status, usage = os.wait4(child.pid, 0)
        errors.seek(0)
        return (
            os.waitstatus_to_exitcode(status),
            errors.read().decode(),
            usage.ru_utime + usage.ru_stime,
            usage.ru_maxrss * 1024,
        )


def is_dear(program, name, text, times, seconds_allowed):
    """Runs the program on the document, prints its line, and returns whether it took more than it may."""
    status, line, seconds, peak = run(program, JOBS.get(name.split()[0], "run"), text)
    most = 32 * 2**20 + times * len(text)
    dear = seconds >= seconds_allowed or peak > most
    shown = line.strip() if len(line) < 60 else f"{line[:40]}.. ({len(line):,} characters)"
    print(
        f"{'DEAR ' if dear else ''}{name}: {len(text):,} bytes, status {status}, {seconds * 1000:.0f} ms, "
        f"{peak / 2**20:.1f} MiB of {most / 2**20:.0f}; {shown or 'no line'}"
    )
    return dear


def main(asked):
    program, wanted = programs.program(asked), set(asked.names)
    # One document at a time, since what is held here would count as the program's.
    makers = (
        documents(),
        documents_of_requests(),
        documents_of_mocks(),
        documents_of_fallbacks(),
        documents_of_plans(),
        documents_of_checks(),
    )
    usual = ((name, text, TIMES, SECONDS) for maker in makers for name, text in maker)
    small_tables = ((name, text, TIMES_IN_SMALL_TABLES, 3 * SECONDS) for name, text in documents_of_small_tables())
    lists = ((name, text, TIMES_IN_LISTS, SECONDS) for name, text in documents_of_lists())
    made = itertools.chain(usual, lists, small_tables)
    dear = sum(is_dear(program, *document) for document in made if not wanted or document[0] in wanted)
    print(f"{dear} dear")
    return int(dear > 0)
