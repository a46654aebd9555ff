"""Answers: what do several workers cost, and from which work on do they pay? Prints what docs/SPEED.md has between its
marks.

First it runs the built program with 1, 2, 4 and 8 workers on documents of 5,000 cycles, each with 16 controllers of one
kind, of which none has to do with another. The least of three runs counts. Then it runs cm_bench with `workers`: eight
controllers compute for 0, 20, 100 and 500 microseconds in each cycle. Between these works it tells from which one on a
number of workers pays. If cm_bench is missing, it is proved and built first.
"""

import re
import subprocess
import tempfile
from pathlib import Path

from ..documents import component, controller, document, every, head, joint, named
from . import bodies
from .program import tell_table, time_of_a_run

BY = (1, 2, 4, 8)
MANY, CYCLES, RUNS, BENCH_RUNS = 16, 5_000, 3, 20
TOLD = re.compile(r"(\d+) of (\d+) us by (\d+): (\d+) ns a cycle")
CLAIMS, READS = 'claims = ["l{0}/position"]\n', 'reads = ["l{0}/position"]\n'
KINDS = {
    "forward": CLAIMS,
    "passthrough": CLAIMS,
    "pid": 'claims = ["l{0}/velocity"]\n' + READS + "kp = 2\nomax = 10\n",
    "trajectory": CLAIMS + READS,
    "broadcaster": READS,
    "mock": CLAIMS,
    "transmission": CLAIMS + "reduction = 2\n",
    "differential": 'claims = ["l{0}/position", "r{0}/position"]\nreduction1 = 2\nreduction2 = 2\n',
    "limiter": CLAIMS + READS + "min = -1\nmax = 1\nvmax = 1\namax = 100\n",
}
options = bodies.options_of_both


def of_one_kind(kind):
    """A document with as many controllers of a kind as components, which one session switches on."""
    described = head(CYCLES, 1000)
    for k in range(MANY):
        described += component(f"c{k}", [joint(f"{side}{k}", ("position", "velocity")) for side in "lr"])
    for k, name in enumerate(named("m", MANY)):
        described += controller(name, kind, more=KINDS[kind].format(k))
    loaded = [line for name in named("m", MANY) for line in (f"load {name}", f"configure {name}")]
    return document(described, ["session a", *loaded, "switch strict " + " ".join(every("+{}", named("m", MANY)))])


def of_kind(program, kind, path):
    """Returns the row of a kind: the least time of a cycle by each number of workers."""
    times = (min(time_of_a_run(program, ["run", "--workers", str(n)], path) for _ in range(RUNS)) for n in BY)
    return kind, *(f"{it / CYCLES * 1e6:.2f} us" for it in times)


def of_work(bench):
    """Returns for each work, in microseconds, the nanoseconds of a cycle by each number of workers; and how many
    controllers work.
    """
    told = subprocess.run([bench, "workers", str(BENCH_RUNS)], stdout=subprocess.PIPE, text=True, check=True).stdout
    times, count = {}, 0
    for line in told.splitlines():
        count, micros, workers, nanos = map(int, TOLD.fullmatch(line).groups())
        times.setdefault(micros, {})[workers] = nanos
    return times, count


def pays_from(times, workers):
    """Returns from which work on so many workers take less time than one, between the works that were measured, or None
    if they never do.
    """
    for less, more in zip(times, [*times][1:]):
        lost, gained = times[less][workers] - times[less][1], times[more][1] - times[more][workers]
        if lost > 0 and gained >= 0:
            return less + (more - less) * lost / (lost + gained)
    return None


def main(asked):
    program, bench = bodies.programs_of(asked)
    with tempfile.TemporaryDirectory() as folder:
        rows = []
        for kind in KINDS:
            path = Path(folder, kind)
            path.write_text(of_one_kind(kind))
            rows.append(of_kind(program, kind, path))
    tell_table((f"{MANY} controllers", *(f"By {n}" for n in BY)), *rows)
    times, count = of_work(bench)
    tell_table(
        (f"{count} controllers that compute", *(f"By {n}" for n in BY)),
        *((f"{micros} us", *(f"{times[micros][n] / 1000:.1f} us" for n in BY)) for micros in times),
        (
            "pay from some",
            "",
            *("never" if (work := pays_from(times, n)) is None else f"{work:.0f} us" for n in BY[1:]),
        ),
    )
    return 0
