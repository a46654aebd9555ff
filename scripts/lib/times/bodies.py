"""Answers: what do the program's fast bodies gain? As docs/SPEED.md has it.

It runs cm_bench seven times, with 2,000,000 turns for each body and a seed from the clock. For each pair it prints the
least time of a turn of the plain body and of the fast one, and how many times the fast one goes into the plain one. If
cm_bench is missing, it is proved and built first.
"""

import os
import re
import subprocess
import sys
import time
from pathlib import Path

from ..replay import programs
from ..tree import TOP

NAME = "cm_bench"
RUNS = 7
TURNS = 2_000_000
LAST = 20  # lines of the prover that are shown if it fails
PAIR = re.compile(r"(\w+): same \w+, ([0-9.]+) ns plain, ([0-9.]+) ns")


def options_of_both(parser):
    """Lets the words of a command that runs cm_bench beside the program name others than the built ones."""
    parser.add_argument("--bench", type=Path, metavar="PATH", help="another program than the built cm_bench")
    programs.options(parser)


def programs_of(asked):
    """Returns the program and cm_bench, of a command with these options."""
    return programs.program(asked), str(asked.bench or measuring())


def measuring():
    """Returns the program that measures, which is built if it is missing."""
    program = programs.built(NAME)
    if program.exists():
        return str(program)
    print(f"{program} is missing: it is proved and built first", file=sys.stderr)
    ran = subprocess.run(
        ["rt", "run", "--", "1", "1"],
        cwd=TOP / "crates" / NAME,
        stdout=subprocess.PIPE,
        stderr=subprocess.STDOUT,
        text=True,
    )
    if ran.returncode:
        print(*ran.stdout.splitlines()[-LAST:], sep="\n", file=sys.stderr)
        sys.exit(f"{program} could not be built")
    return str(program)


def measured(program):
    """Returns what one run tells: of each body its times."""
    told = subprocess.run([program, str(TURNS), str(time.time_ns())], stdout=subprocess.PIPE, text=True)
    pairs = [PAIR.fullmatch(line) for line in told.stdout.splitlines()]
    if told.returncode != 0 or not pairs or not all(pairs):
        sys.exit(f"{program} ended with status {told.returncode}: {told.stdout}")
    return {it[1]: tuple(float(number) for number in it.groups()[1:]) for it in pairs}


def least(runs, name):
    """Returns the least time of a turn of each body of a pair."""
    return [min(times) for times in zip(*(it[name] for it in runs))]


def main(asked):
    program, load = measuring(), os.getloadavg()[0]
    runs = [measured(program) for _ in range(RUNS)]
    print(f"load             {load:.1f}")
    print(f"{'body':<14} {'plain':>10} {'fast':>10} {'ratio':>7}")
    for name in runs[0]:
        plain, fast = least(runs, name)
        print(f"{name:<14} {plain:>7.1f} ns {fast:>7.1f} ns {plain / fast:>7.1f}")
    return 0
