"""Answers: what does the program make of a standard input and a standard output that end, fail or would wait?

It is run over each, by the jobs run and live. Its status, the line on standard error and what it printed are compared
with what docs/TRACE.md says of these.
- Standard input: nothing, the ends of pieces, an end that a terminal tells once, a folder, a pipe that would block.
- Standard output: a full device, a full pipe, one that nobody reads; of a short trace, a long one, and a summary. Then
  of the long one a pipe that is full in its middle, and a file that may not grow so long.
- With `--memory` also less and less of that, for a document and for long words, of a program without checks of
  addresses. Whatever there is, it ends well and has printed all, or tells want of memory and has printed a front of it.
Prints a line for each case that differs, and last `N passed, M failed`. The exit status is 1 if one differs.
"""

import fcntl
import functools
import os
import pty
import resource
import signal
import subprocess
import tempfile
import termios
import tty

from ..tool import Tally
from ..tree import TOP
from . import programs
from .traces import LONGEST

LIMIT = 60  # seconds
JOBS = ("run", "live")  # without sessions both print the same
PIECE = 8192  # so many bytes are read and written at a time
LEAST = b"version = 1\nupdate_rate = 1\ncycles = 0\n--- script ---\n"
LEAST_TRACE = b"loop close: none\n"
ROOM = 20_000  # bytes of a file that may not grow longer
CYCLES = 2_000
LONG = LEAST.replace(b"cycles = 0", b"cycles = %d" % CYCLES)
LONG_TRACE = b"".join(b"loop begin %d: none\nloop end %d: none\n" % (k, k) for k in range(CYCLES)) + LEAST_TRACE
WELL, READ, MEMORY, WRITE = (0, b""), (5, b"cm: read fault\n"), (7, b"cm: out of memory\n"), (8, b"cm: write fault\n")
USAGE = (2, b"cm: usage: cm run|steps|live|upgrade|check|plan [--make N] [--workers N]\n")
MISSING = (3, b"cm: description: bad_key version\n")


def options(parser):
    parser.add_argument("--memory", action="store_true", help="gives it less and less memory, too")
    programs.options(parser)


def run(program, words=("run",), document=LEAST, stdin=None, stdout=None, data=None, room=None):
    """Returns how a run ends, its status and its line, and what it printed, where that is not printed elsewhere. With
    `data` it has so many bytes of memory, with `room` a file may have so many."""
    given = {"stdin": stdin} if stdin is not None else {"input": document}

    def limit():
        for kind, most in ((resource.RLIMIT_DATA, data), (resource.RLIMIT_FSIZE, room)):
            if most is not None:
                resource.setrlimit(kind, (most, most))
        if room is not None:
            signal.signal(signal.SIGXFSZ, signal.SIG_IGN)

    try:
        ran = subprocess.run(
            [program, *words],
            **given,
            stdout=subprocess.PIPE if stdout is None else stdout,
            stderr=subprocess.PIPE,
            timeout=LIMIT,
            preexec_fn=limit,
        )
    except subprocess.TimeoutExpired:
        return ("no end", b""), b""
    return (ran.returncode, ran.stderr), ran.stdout or b""


def pipe(blocking=True):
    ends = os.pipe()
    for end in ends if not blocking else ():
        fcntl.fcntl(end, fcntl.F_SETFL, fcntl.fcntl(end, fcntl.F_GETFL) | os.O_NONBLOCK)
    return ends


def of_length(count):
    """Returns the least document with a comment, so many bytes long."""
    head, script = LEAST.split(b"---", 1)
    return head + b"#" * (count - len(LEAST) - 1) + b"\n---" + script


def over_terminal(run, document):
    """Runs a document that is typed, with the sign of the end behind it once."""
    ours, theirs = pty.openpty()
    settings = termios.tcgetattr(theirs)
    settings[tty.LFLAG] = settings[tty.LFLAG] & ~termios.ECHO | termios.ICANON
    termios.tcsetattr(theirs, termios.TCSANOW, settings)
    os.write(ours, document + settings[tty.CC][termios.VEOF])
    try:
        return run(stdin=theirs)
    finally:
        os.close(theirs)
        os.close(ours)


def inputs(run):
    """Gives of each case its name, how it ended and what was printed, and what was to come."""
    yield "nothing is given", run(document=b""), (MISSING, b"")
    for count in (PIECE - 1, PIECE, PIECE + 1, 2 * PIECE, LONGEST - 1, LONGEST):
        yield f"{count} bytes are given", run(document=of_length(count)), (WELL, LEAST_TRACE)
    yield "an end is told once", over_terminal(run, LEAST), (WELL, LEAST_TRACE)
    yield "an end is told once, behind nothing", over_terminal(run, b""), (MISSING, b"")
    folder = os.open(TOP, os.O_RDONLY)
    yield "a folder is read", run(stdin=folder), (READ, b"")
    theirs, ours = pipe(blocking=False)
    yield "a read would block", run(stdin=theirs), (READ, b"")
    os.write(ours, LEAST)
    yield "the second read would block", run(stdin=theirs), (READ, b"")


def full_pipe():
    theirs, ours = pipe(blocking=False)
    try:
        while True:
            os.write(ours, b"x" * PIECE)
    except BlockingIOError:
        return theirs, ours


def outputs(run):
    kinds = {"a short trace": {}, "a long trace": {"document": LONG}, "a summary": {"words": ["run", "--make", "9"]}}
    for name, given in kinds.items():
        with open("/dev/full", "wb") as full:
            yield f"{name} goes where no room is left", run(stdout=full, **given), (WRITE, b"")
        theirs, ours = full_pipe()
        yield f"{name} would block", run(stdout=ours, **given), (WRITE, b"")
        os.close(theirs)
        yield f"{name} goes where nobody reads", run(stdout=ours, **given), (WRITE, b"")
        os.close(ours)


def full_within(run):
    """Gives the same of a long trace for which there is room at first: what was printed is a front of it."""
    theirs, ours = pipe(blocking=False)
    ended, _ = run(document=LONG, stdout=ours)
    os.close(ours)
    with os.fdopen(theirs, "rb") as file:
        printed = file.read()
    is_front = LONG_TRACE.startswith(printed) and 0 < len(printed) < len(LONG_TRACE)
    yield "a long trace would block within", (ended, is_front), (WRITE, True)
    with tempfile.TemporaryFile() as file:
        ended, _ = run(document=LONG, stdout=file, room=ROOM)
        file.seek(0)
        yield "a long trace goes where there is room for some", (ended, file.read()), (WRITE, LONG_TRACE[:ROOM])


def least_data(run, words, well):
    """Returns about the least memory, in bytes, with which the words end so over the least document."""
    low, high = 0, 1 << 26
    while high - low > 4096:
        middle = (low + high) // 2
        low, high = (low, middle) if run(words, data=middle)[0] == well else (middle, high)
    return high


def ends_fairly(ended, printed, whole):
    """Whether a run went well and printed all, or wants memory and printed a front of it.

    One that did not begin ends by a signal.
    """
    if ended == WELL:
        return printed == whole
    return ended == MEMORY and whole.startswith(printed) or isinstance(ended[0], int) and ended[0] < 0 and not printed


def memories(run):
    enough = least_data(run, ["run"], WELL)
    usage = least_data(run, [], USAGE)
    yield "a stock takes room", (usage < enough, b""), (True, b"")
    for data in range(usage, enough, 4096):
        ended, printed = run(data=data)
        yield f"{data} bytes of memory for the least document", ((ended in (WELL, MEMORY)), printed), (
            True,
            LEAST_TRACE if ended == WELL else b"",
        )
    for data in range(enough, enough + (4 << 20), 1 << 16):
        ended, printed = run(document=LONG, data=data)
        yield f"{data} bytes of memory for a long trace", (ends_fairly(ended, printed, LONG_TRACE), b""), (True, b"")
    words = ["run", *["x" * 100_000] * 10]
    yield "long words with enough memory", run(words, data=usage + (1 << 23)), (USAGE, b"")
    for share in range(1, 9):
        yield f"long words with room for {share} tenths of them", run(words, data=usage + share * 100_000), (
            MEMORY,
            b"",
        )


def main(asked):
    """What runs the program is handed to each of the makers of cases."""
    tally, program = Tally(tells_all=False), programs.program(asked)
    runs = [
        (cases, job, functools.partial(run, program, words=(job,)))
        for job in JOBS
        for cases in (inputs, outputs, full_within)
    ]
    runs += [(memories, "run", functools.partial(run, program))] * asked.memory
    for cases, job, one in runs:
        for name, came, want in cases(one):
            tally.tell(f"{job}: {name}", str(came)[:300] if came != want else None)
    return tally.end()
