"""Answers: what do a live run and a shared desk cost? Prints what docs/SPEED.md has between its marks.

First it runs the built program with `run` and with `live`, in turns, on documents of 100,000 cycles in which no session
waits: `bare` has neither a joint nor a controller, and the others are those of `scripts/times program`. Then eight
sessions wait for the last cycle of `bare`, on two processors, in turns with eight that list once and end, because a
loop beside sessions takes turns. Then it runs cm_bench: as `scripts/times bodies` does, for the callers of one desk,
which have passes or lock std's mutex round the same boxed desk; and with `live`, for how long a cycle takes from before
its begin until it has landed. If cm_bench is missing, it is proved and built first.
"""

import re
import resource
import statistics
import subprocess
import tempfile
from pathlib import Path

from ..documents import document, named
from . import bodies
from .program import CYCLES, DOCUMENTS, HEAD, tell_table, time_of_a_run

RUNS = 9
WAITING_RUNS = 99  # one takes a tenth of a second, and what it takes of a processor differs by half
LIVE_RUNS = 201  # of 499 measured cycles each
SESSIONS = 8
TWO = ["taskset", "-c", "0,1"]  # on two processors
CALLERS = {
    "desk": "a look, nobody else calls",
    "one_caller": "1",
    "two_callers": "2",
    "four_callers": "4",
    "eight_callers": "8",
}
LENGTHS = re.compile(r"(.*): (\d+) cycles, median (\d+) ns, hundredth greatest (\d+) ns, greatest (\d+) ns")
options = bodies.options_of_both


def bare():
    return document(HEAD, [])


def each_session(line):
    """Returns `bare` with sessions of this one line."""
    lines = ([f"session {name}", line] for name in named("s", SESSIONS))
    return document(HEAD, [line for each in lines for line in each])


def waiting():
    return each_session(f"await {CYCLES}")


def ended():
    return each_session("list controllers")


def by_both_jobs(program, name, document):
    """Returns the row of a document: the least time of a cycle by each job. They take turns."""
    both = [[time_of_a_run(program, [job], document) for job in ("run", "live")] for _ in range(RUNS)]
    alone, live = (min(times) / CYCLES * 1e6 for times in zip(*both))
    return name, f"{alone:.2f} us", f"{live:.2f} us", f"{live / alone:.2f}"


def time_on_two(program, document):
    """Returns how long a live run on two processors takes, and how much of them."""
    before = resource.getrusage(resource.RUSAGE_CHILDREN)
    took = time_of_a_run(TWO[0], [*TWO[1:], program, "live"], document)
    after = resource.getrusage(resource.RUSAGE_CHILDREN)
    return took, after.ru_utime + after.ru_stime - before.ru_utime - before.ru_stime


def tell_waiting(program, document, without):
    """Prints how long a run takes in which all sessions wait, and which part of a processor they take."""
    took, busy, took_without, busy_without = zip(
        *((*time_on_two(program, document), *time_on_two(program, without)) for _ in range(WAITING_RUNS))
    )
    part = (sum(busy) - sum(busy_without)) / sum(took)
    print(
        f"On two processors a live run of `bare` with eight sessions that list once took {in_ms(took_without)}.\n"
        f"With eight that wait for its last cycle it took {in_ms(took)}.\n"
        f"To wait took {part:.2f} of a processor."
    )


def in_ms(times):
    """Returns the median and the greatest of these times, in words."""
    return f"{statistics.median(times) * 1000:.0f} ms in the median and {max(times) * 1000:.0f} ms at most"


def of_callers(bench):
    """Returns the rows of the callers: the least times of a call."""
    runs = [bodies.measured(bench) for _ in range(bodies.RUNS)]
    for name, callers in CALLERS.items():
        mutex, passes = bodies.least(runs, name)
        yield callers, f"{mutex:.0f} ns", f"{passes:.0f} ns", f"{1e9 / mutex:,.0f}", f"{1e9 / passes:,.0f}"


def of_cycles(bench):
    """Returns the rows of the lengths of cycles."""
    told = subprocess.run([bench, "live", str(LIVE_RUNS)], stdout=subprocess.PIPE, text=True, check=True).stdout
    for line in told.splitlines():
        name, _, *lengths = LENGTHS.fullmatch(line).groups()
        yield name, *(f"{int(length) / 1000:,.1f} us" for length in lengths)


def main(asked):
    program, bench = bodies.programs_of(asked)
    with tempfile.TemporaryDirectory() as folder:
        made = {"bare": bare, "waiting": waiting, "ended": ended}
        made |= {name: make for name, (make, _) in DOCUMENTS.items()}
        paths = {name: Path(folder, name) for name in made}
        for name, path in paths.items():
            path.write_text(made[name]())
        rows = [by_both_jobs(program, name, paths[name]) for name in ["bare", *DOCUMENTS]]
        tell_table(("Document", "A cycle of `run`", "Of `live`", "Ratio"), *rows)
        tell_waiting(program, paths["waiting"], paths["ended"])
    head = "Callers of one desk", "A call under std's mutex", "By passes", "Calls a second under the mutex", "By passes"
    tell_table(head, *of_callers(bench))
    tell_table(("Sessions beside the loop", "Median of a cycle", "Hundredth greatest", "Greatest"), *of_cycles(bench))
    return 0
