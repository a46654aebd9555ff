"""Answers: what of a crate takes its prover longest? Checks the crate from nothing, on a copy and with one job, and
prints the seconds of each function, type, specification and proof file, the dearest first, and their sum.

The crates below have to be built (`rt lib`, or scripts/build proved of a program above). The prover keeps a file of
each module that it has checked, one after the other, so the time between two such files is what the later one took.
What a function takes is mostly the borrow checker's part of its proof, which grows with the places of a body times the
variables that live there. Other work is in the times.
"""

import re
import shutil
import subprocess
import sys
import tempfile
from collections import Counter
from pathlib import Path

from .. import kit
from ..tree import TOP

PRINTED = 30
# The modules that a function's proof consists of come behind its name.
PART = re.compile(r"\.(Lts|Proof|Tie|Goals|Answers|Invariants|Mir|Links|TheLinks|Key|Kinds[-\d]*)\b.*")


def options(parser):
    parser.add_argument("crate", metavar="CRATE")
    parser.add_argument(
        "count",
        nargs="?",
        type=int,
        default=PRINTED,
        metavar="COUNT",
        help=f"so many are printed, {PRINTED} if it is not said",
    )


def check(name, copy):
    """Checks a copy of the crate over what is built of those below. Returns where the prover keeps its work."""
    rt, crate = kit.kit(), kit.crate(name)
    lacking = [below.name for below in crate.below() if not below.is_built()]
    if lacking:
        sys.exit(f"{lacking[0]} is not built: rt lib in its folder does so")
    for part in rt.PARTS:
        if (TOP / "crates" / name / part).is_dir():
            shutil.copytree(TOP / "crates" / name / part, copy / part)
    kept = copy / "kept"
    words = [*crate.words(["--jobs", "1"], keeps=False), "--incremental", str(kept)]
    ran = subprocess.run(
        [*kit.guard(), rt.RATTLE, "check", *words],
        cwd=copy,
        stdin=subprocess.DEVNULL,
        stdout=subprocess.PIPE,
        stderr=subprocess.STDOUT,
        text=True,
        errors="replace",
    )
    if ran.returncode:
        print(*ran.stdout.splitlines()[-10:], sep="\n", file=sys.stderr)
        sys.exit(f"{name} is not proved")
    return kept


def seconds_of_each(name, kept):
    """Returns the seconds of each thing, by the moments at which its files were written."""
    files = sorted((file.stat().st_mtime, file.name) for file in kept.rglob("*.oantt"))
    taken, before = Counter(), files[0][0]
    for moment, file in files:
        module = re.sub(r"(\.decls)?\.oantt$", "", file).removeprefix(f"Rattle-{name}-")
        module = re.sub(r"^(proofs|specs\.contracts|specs\.declared)\.", "", PART.sub("", module))
        taken[module] += moment - before
        before = moment
    return taken


def main(asked):
    with tempfile.TemporaryDirectory(prefix="proof-times-") as copy:
        taken = seconds_of_each(asked.crate, check(asked.crate, Path(copy)))
    for thing, seconds in taken.most_common(asked.count):
        print(f"{seconds:7.1f} {thing}")
    print(f"{sum(taken.values()):7.1f} together, of {len(taken)}")
    return 0
