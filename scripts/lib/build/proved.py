"""Answers: is the built program NAME there? If it is missing, or older than a source of it or of a crate below it, that
is proved and built first, with as many crates side by side as there are processors and memory holds.

Meanwhile it says on standard error how many crates are proved, which it is at, and about how long is left, by the
minutes of docs/SPEED.md. What the prover says is shown only if it fails. The program stands in crates/NAME/out, and is
run once as the gate runs it, on crates/NAME/args and stdin. Nothing is read from its own standard input. The exit
status is 1 if it could not be built.
"""

import copy
import os
import re
import subprocess
import sys
import tempfile
import time
from concurrent.futures import FIRST_COMPLETED, ThreadPoolExecutor, wait
from pathlib import Path

from ..kit import guard, kit
from ..tree import TOP, crates_below

EVERY = 60  # seconds: so often it says how far it is, beside each crate's end
TRUSTED = 4  # minutes of the table: with so many proved, the pace of this machine counts as much as the table's
UNTIMED = 1.0  # minutes, of a crate that the table has no number for
MEMORY = 2.5e9  # bytes: so much a proof takes at most, of nearly all crates
LAST = 20  # lines of the prover that are shown where it fails


def options(parser):
    parser.add_argument("name", metavar="NAME", help="cm_main or cm_draw")


def newest_source(crate):
    """Returns when a source of the crate was last written, in seconds."""
    folder, files = TOP / "crates" / crate, []
    for part in ("src", "specs", "proofs"):
        for place, _, names in os.walk(folder / part):
            files += [f"{place}/{name}" for name in names if name.endswith((".rt", ".antt"))]
    return max(os.stat(file).st_mtime for file in files)


def written(file):
    return file.stat().st_mtime if file.exists() else 0


def is_current(program, crates):
    return written(program) >= max(written(TOP / "crates.txt"), *map(newest_source, crates))


def stale(crates):
    """Returns those without a library as new as their sources, those above them, and the program, which is the last."""
    found = []
    for crate in crates:
        is_new = written(TOP / "crates" / crate / "out/rlib/stamp") >= newest_source(crate)
        if not is_new or crate == crates[-1] or set(crates_below(crate)) & set(found):
            found.append(crate)
    return found


def minutes_of_proofs():
    """Returns the minutes of each crate's proof, by the gate's table. A row of several crates is shared evenly."""
    minutes = {}
    for names, cell in re.findall(r"(?m)^\|((?: `\w+`,?)+) \| ([\d.]+)\*? \|", (TOP / "docs/SPEED.md").read_text()):
        crates = re.findall(r"`(\w+)`", names)
        minutes.update({crate: float(cell) / len(crates) for crate in crates})
    return minutes


def lanes():
    """Returns how many crates may be proved side by side."""
    memory = int(re.search(r"MemAvailable:\s+(\d+)", Path("/proc/meminfo").read_text())[1]) * 1024
    return max(1, min(len(os.sched_getaffinity(0)), int(memory / MEMORY)))


def say(line):
    print(line, file=sys.stderr, flush=True)


class Progress:
    """Which crates are proved, which the prover is at, and how long the rest takes at its pace."""

    def __init__(self, name, crates):
        table = minutes_of_proofs()
        self.name, self.crates, self.lanes = name, crates, lanes()
        self.minutes = {crate: table.get(crate, UNTIMED) for crate in crates}
        self.above = {crate: [it for it in crates if crate in crates_below(it)[:-1]] for crate in crates}
        self.since, self.taken, self.proved = {}, 0.0, []

    def begin(self, crate):
        self.since[crate] = time.monotonic()

    def end(self, crate):
        self.taken += (time.monotonic() - self.since.pop(crate)) / 60
        self.proved.append(crate)
        self.tell()

    def way(self, crate):
        """Returns how many minutes the longest way takes that begins with this crate."""
        return self.minutes[crate] + max(map(self.way, self.above[crate]), default=0)

    def left(self):
        """Returns about how many minutes are left: the longest way, or all that is left on all lanes, whichever is
        more.
        """
        rest = [crate for crate in self.crates if crate not in self.proved]
        pace = (self.taken + TRUSTED) / (sum(self.minutes[it] for it in self.proved) + TRUSTED)
        begun = sum((time.monotonic() - it) / 60 for it in self.since.values())
        whole = pace * sum(self.minutes[it] for it in rest) - begun
        return max(pace * max(map(self.way, rest), default=0) - begun / max(len(self.since), 1), whole / self.lanes, 0)

    def tell(self):
        if not self.since:
            return
        minutes = round(self.left())
        left = f"about {minutes} minute{'s' * (minutes > 1)} left" if minutes else "less than a minute left"
        say(f"{self.name}: {len(self.proved)} of {len(self.crates)} crates proved, at {', '.join(self.since)}: {left}")


def prove_library(crate):
    """Proves a crate and keeps its library. Returns the status, and the last that was said."""
    crate = copy.copy(crate)
    with tempfile.TemporaryFile("w+", errors="replace") as crate.out:
        try:
            status = crate.build_rlib(["--jobs", "1"], anew=False)
        except SystemExit as stopped:
            status = stopped.code or 1
        crate.out.seek(0)
        return status, crate.out.read().splitlines()[-LAST:]


def prove_libraries(crates, progress):
    """Proves the crates and keeps their libraries. Returns whether all were proved."""
    guard()
    # `rt lib` is not run here: two at once would wait for each other wherever both stand on one crate.
    known = {it.name: it for it in kit().crates_below(str(TOP)) if it.name in crates}
    held = kit().lock([*known.values()])
    try:
        return prove_side_by_side(crates, known, progress)
    finally:
        for it in held:
            os.close(it)


def prove_side_by_side(crates, known, progress):
    """Proves the crates, each once those below it are, and first those with the longest way above. `known` has what the
    kit knows of each.

    Returns whether all were proved.
    """
    waiting, running = sorted(crates, key=progress.way, reverse=True), {}
    with ThreadPoolExecutor(progress.lanes) as pool:
        while waiting or running:
            for crate in ready(waiting, running)[: progress.lanes - len(running)]:
                waiting.remove(crate)
                progress.begin(crate)
                running[pool.submit(prove_library, known[crate])] = crate
            ended = wait(running, EVERY, FIRST_COMPLETED).done
            if not ended:
                progress.tell()
            for it in ended:
                crate, (status, said) = running.pop(it), it.result()
                if status:
                    say("\n".join([*said, f"{progress.name}: {crate} could not be proved"]))
                    return False  # those that run come to their end
                progress.end(crate)
    return True


def ready(waiting, running):
    """Returns those that wait for no crate below them."""
    left = {*waiting, *running.values()}
    return [it for it in waiting if not left & {*crates_below(it)[:-1]}]


def run_program(name, progress):
    """Proves and builds the program, and runs it; what it prints is let go. Returns whether it ended as it should."""
    folder = TOP / "crates" / name
    words = (folder / "args").read_text().split("\n") if (folder / "args").exists() else []
    wanted = int((folder / "status").read_text()) if (folder / "status").exists() else 0
    given = (folder / "stdin").open() if (folder / "stdin").exists() else subprocess.DEVNULL
    progress.begin(name)
    progress.tell()
    ran = subprocess.run(
        ["rt", "run", "--", *filter(None, words)],
        cwd=folder,
        stdin=given,
        stdout=subprocess.DEVNULL,
        stderr=subprocess.PIPE,
        text=True,
        errors="replace",
    )
    if ran.returncode != wanted:
        say("\n".join(ran.stderr.splitlines()[-LAST:]))
    return ran.returncode == wanted


def main(asked):
    name = asked.name
    program, crates, begun = TOP / "crates" / name / "out" / name, crates_below(name), time.time()
    if is_current(program, crates):
        return 0
    try:
        return build(name, program, crates, begun)
    except KeyboardInterrupt:
        os._exit(130)  # the prover's processes end with this one


def build(name, program, crates, begun):
    todo = stale(crates)
    progress = Progress(name, todo)
    many = f"{len(todo)} crates are" if len(todo) > 1 else "its crate is"
    say(f"{name}: missing, or older than a source: {many} proved, {progress.lanes} at a time, and then it is built")
    if not (prove_libraries(todo[:-1], progress) and run_program(name, progress) and program.exists()):
        say(f"{name}: it could not be built")
        return 1
    os.utime(program, (begun, begun))
    say(f"{name}: built in {round(time.time() - begun)} seconds")
    return 0
