"""Answers: where does the gate's time go? Prints processor minutes by crate, as a table for docs/SPEED.md, and their
sum. Without a command it runs the gate from nothing (`rt ci --anew`), which takes two to three hours on four cores.

Behind that gate it runs the wrong bodies that `.ci/run` tries after it. A command that is given, as `.ci/run` or `rt ci
cm_desk`, runs in their place. What they print goes to standard error.

It looks four times a second at the prover's processes among its descendants. The prover's words say which crate it is
at, and whether with its tests; that it tries a wrong body shows in the folder that it works in, which `rt` and
scripts/wrong name for that. The sum is the system's own, so the last row has all else: what `rt` itself, linking and
the programs took, and what was too short to be seen. The exit status is the command's.
"""

import argparse
import os
import re
import resource
import subprocess
import sys
import time
from collections import defaultdict
from pathlib import Path

from ..tree import TOP, crates

BUDGET = 240  # processor minutes, from nothing
TICKS = os.sysconf("SC_CLK_TCK")
KINDS = ("proof", "tests", "wrong bodies")
OF_WRONG_BODIES = re.compile(r"/(rt-edit|wrong-bodies)-")


def options(parser):
    parser.add_argument(
        "command", nargs=argparse.REMAINDER, metavar="COMMAND", help="in place of the gate and the wrong bodies"
    )


class Process:
    def __init__(self, pid):
        name, rest = re.fullmatch(r"(?s)\d+ \((.*)\) (.*)", Path(f"/proc/{pid}/stat").read_text()).groups()
        fields = rest.split()
        self.pid, self.name, self.parent, self.begun = pid, name, int(fields[1]), fields[19]
        self.seconds = sum(int(field) for field in fields[11:15]) / TICKS  # its own, and of children that have ended

    def label(self):
        """Returns crate and kind of a process of the prover."""
        words = Path(f"/proc/{self.pid}/cmdline").read_text().split("\0")
        crate = words[words.index("--crate-name") + 1] if "--crate-name" in words else "no crate"
        is_edit = OF_WRONG_BODIES.search(os.readlink(f"/proc/{self.pid}/cwd"))
        return crate, "wrong bodies" if is_edit else "tests" if "--test" in words else "proof"


def children_of_each():
    """Returns the processes that there are, by the number of their parent."""
    children = defaultdict(list)
    for pid in sorted(int(name) for name in os.listdir("/proc") if name.isdigit()):
        try:
            process = Process(pid)
            children[process.parent].append(process)
        except OSError:
            pass  # it has ended since
    return children


def provers(children, root):
    """Gives the topmost processes of the prover below this one: such a process starts others of its name."""
    for child in children[root]:
        if child.name == "rattle":
            yield child
        else:
            yield from provers(children, child.pid)


def seconds_below(children, process):
    return process.seconds + sum(seconds_below(children, child) for child in children[process.pid])


def gate():
    """Returns the words for the gate from nothing. A kit that keeps what it proved before has a flag for that."""
    told = subprocess.run(["rt", "help"], stdout=subprocess.PIPE, stderr=subprocess.STDOUT, text=True).stdout
    anew = " --anew" * ("--anew" in told)
    return ["sh", "-c", f"rt ci{anew} && scripts/wrong bodies --gate"]


def watched(command):
    """Runs the command. Returns its status, and of each process of the prover its label and its seconds."""
    labels, seconds = {}, defaultdict(float)
    running = subprocess.Popen(command, cwd=TOP, stdout=sys.stderr)
    while running.poll() is None:
        children = children_of_each()
        for prover in provers(children, running.pid):
            key = prover.pid, prover.begun
            try:
                labels[key] = labels.get(key) or prover.label()
            except OSError:
                continue
            seconds[key] = max(seconds[key], seconds_below(children, prover))
        time.sleep(0.25)
    return running.returncode, [(labels[key], seconds[key]) for key in labels]


def tell(minutes):
    """Prints the table of minutes by crate and kind, and returns their sum."""
    timed = [it for it in crates() if any(crate == it for crate, _ in minutes)]
    print("| Crate | Proof | Proof with its tests | Wrong bodies |\n|---|---|---|---|")
    for crate in timed:
        cells = (f"{minutes[crate, kind]:.1f}" if (crate, kind) in minutes else "none" for kind in KINDS)
        print(f"| `{crate}` | {' | '.join(cells)} |")
    sums = [sum(minutes[crate, kind] for crate in timed) for kind in KINDS]
    print(f"| together | {' | '.join(f'{it:.1f}' for it in sums)} |")
    return sum(sums)


def main(asked):
    begun = time.monotonic()
    status, seen = watched(asked.command or gate())
    used = resource.getrusage(resource.RUSAGE_CHILDREN)
    total = used.ru_utime + used.ru_stime
    minutes = defaultdict(float)
    for (crate, kind), seconds in seen:
        minutes[crate, kind] += seconds / 60
    timed = tell(minutes)
    print(f"\nall else: {total / 60 - timed:.1f} processor minutes")
    print(
        f"sum: {total / 60:.1f} of {BUDGET} processor minutes, in {(time.monotonic() - begun) / 60:.1f} minutes on "
        f"{os.cpu_count()} cores"
    )
    return status
