"""The programs that are replayed, and how they are run."""

import os
import select
import signal
import subprocess
import sys
from dataclasses import dataclass
from pathlib import Path

from ..tree import TOP

PROGRAM, DRAWER = "cm_main", "cm_draw"


def built(name, unproved=False):
    return TOP / "crates" / name / ("out/try" if unproved else "out") / name


def options(parser, drawer=False):
    """Lets the words name other programs than the built ones."""
    parser.add_argument("--unproved", action="store_true", help="the programs that ./try compiled")
    parser.add_argument("--program", type=Path, metavar="PATH", help="another program than the built cm_main")
    if drawer:
        drawer_option(parser)


def drawer_option(parser):
    parser.add_argument("--drawer", type=Path, metavar="PATH", help="another program than the built cm_draw")


def program(asked):
    return there(asked.program or built(PROGRAM, asked.unproved), "./try" if asked.unproved else "./cm")


def drawer(asked):
    return there(asked.drawer or built(DRAWER, asked.unproved), "./try draw" if asked.unproved else "./draw")


def tests_option(parser):
    parser.add_argument(
        "--tests", action="append", default=[], metavar="CRATE=PATH", help="another program of a crate's tests"
    )


def tests(asked, crate):
    """The program of a crate's tests, and why it can't be run, or None."""
    named = dict(it.split("=", 1) for it in asked.tests)
    path = Path(named.get(crate, TOP / f"crates/{crate}/out/{crate}_tests"))
    return path.resolve(), None if path.exists() else f"{path} is not there: `rt test {crate}` builds it"


def there(path, maker):
    if not path.exists():
        sys.exit(f"{path} is not there: {maker} builds it")
    return str(path.resolve())


def ran(command, given=b"", limit=None):
    """Returns status, standard output and standard error of a command with this on its standard input."""
    done = subprocess.run([str(word) for word in command], input=given, capture_output=True, cwd=TOP, timeout=limit)
    return done.returncode, done.stdout, done.stderr


@dataclass(frozen=True)
class Came:
    """What a run came to: its status, what it printed, what it told on standard error, and the processor's seconds that
    it took. A run that did not end in time has no status."""

    status: int | None
    printed: bytes
    told: bytes
    seconds: float


def came(command, given=b"", limit=60, **more):
    """Returns what a command comes to with this on its standard input, which is a file, as what it prints. `more` is
    set in its environment. It costs less than `ran`, for thousands of runs."""
    files = [os.memfd_create(name) for name in ("given", "printed", "told")]
    try:
        os.write(files[0], given)
        os.lseek(files[0], 0, os.SEEK_SET)
        words = [str(word) for word in command]
        ends = [(os.POSIX_SPAWN_DUP2, file, number) for number, file in enumerate(files)]
        child = os.posix_spawn(
            words[0], words, {**os.environ, **{name: str(value) for name, value in more.items()}}, file_actions=ends
        )
        in_time = has_ended(child, limit)
        if not in_time:
            os.kill(child, signal.SIGKILL)
        _, status, usage = os.wait4(child, 0)
        printed, told = (os.pread(file, os.fstat(file).st_size, 0) for file in files[1:])
        ended = os.waitstatus_to_exitcode(status) if in_time else None
        return Came(ended, printed, told, usage.ru_utime + usage.ru_stime)
    finally:
        for file in files:
            os.close(file)


def has_ended(child, limit):
    """Waits until a child has ended, so many seconds at most, and says whether it has."""
    ending = os.pidfd_open(child)
    try:
        poll = select.poll()
        poll.register(ending, select.POLLIN)
        return bool(poll.poll(limit * 1000))
    finally:
        os.close(ending)


def first_difference(was, now):
    """Returns the number of the first line that differs, with what stands there in each."""
    pairs = zip(was.split(b"\n") + [b""], now.split(b"\n") + [b""])
    return next(((number, *pair) for number, pair in enumerate(pairs, 1) if pair[0] != pair[1]), None)
