"""Says a live run again: prints its document with a schedule by which the job `steps` makes the calls of its trace, in
their order.

    ./try live < examples/operators.cm > trace
    scripts/replay again examples/operators.cm trace > again.cm
    ./try steps < again.cm

The last command prints the same lines up to the close of the loop. What sessions called behind it comes before it if it
can, in the order of the sessions. `./try draw steps < again.cm` draws that run. The document must have no schedule of
its own.
"""

import sys
from pathlib import Path

from .traces import scheduled


def options(parser):
    parser.add_argument("document", type=Path, metavar="DOCUMENT")
    parser.add_argument("trace", type=Path, metavar="TRACE", help="what a live run of it printed")


def main(asked):
    sys.stdout.buffer.write(scheduled(asked.document.read_bytes(), asked.trace.read_bytes().splitlines()))
    return 0
