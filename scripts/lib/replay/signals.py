"""Answers: what is left of a run that a signal ends, that is stopped for a while, or whose reader stops?

The program is run over pipes and files, by the jobs run and live. A signal comes while it reads, or while it writes a
long trace that its reader does not take. What it printed is to be a front of the trace: of its lines each is whole but
the last, and that one is whole if it has its line feed. A run that is stopped and goes on prints the whole trace, and
so does one whose reader waits. docs/FAULTS.md says what a user sees. Prints a line a case, and last `N passed, M
failed`. The exit status is 1 if one failed.
"""

import signal
import subprocess
import tempfile
import time

from ..tool import Tally
from . import programs
from .streams import JOBS, LEAST, LEAST_TRACE, LIMIT, LONG, LONG_TRACE, WELL, WRITE

options = programs.options
ENDING = (signal.SIGINT, signal.SIGTERM, signal.SIGHUP, signal.SIGQUIT, signal.SIGALRM, signal.SIGUSR1)
UNMINDED = (signal.SIGCONT, signal.SIGCHLD, signal.SIGWINCH, signal.SIGURG)  # nothing comes of them
TAKEN = 100  # bytes that a reader takes before it stops
SOON = 0.1  # seconds in which a run that does not wait has gone on
SLEEPS, STOPPED = "S", "T"  # states of a process


def mind_each():
    """A shell lets what it runs in the background ignore some signals, which a child then ignores too: here each has
    its effect again.
    """
    for number in ENDING:
        signal.signal(number, signal.SIG_DFL)


class Run:
    """A run that is under way, over a pipe that gives its document and one that takes its trace."""

    def __init__(self, command, document=b"", is_whole=True, stdout=subprocess.PIPE):
        self.child = subprocess.Popen(
            command, stdin=subprocess.PIPE, stdout=stdout, stderr=subprocess.PIPE, bufsize=0, preexec_fn=mind_each
        )
        self.give(document)
        if is_whole:
            self.child.stdin.close()

    def give(self, document):
        self.child.stdin.write(document)

    def take(self, count):
        return self.child.stdout.read(count)

    def state(self):
        with open(f"/proc/{self.child.pid}/stat") as file:
            return file.read().rsplit(")", 1)[1].split()[0]

    def comes_to(self, state):
        """Whether the process comes to this state and stays there."""
        until = time.monotonic() + LIMIT
        while time.monotonic() < until and self.child.poll() is None:
            if self.state() == state:
                time.sleep(SOON)
                if self.child.poll() is None and self.state() == state:
                    return True
            time.sleep(SOON / 10)
        return False

    def send(self, number):
        self.child.send_signal(number)

    def pause(self):
        """Stops the run, and lets it go on."""
        self.send(signal.SIGSTOP)
        is_stopped = self.comes_to(STOPPED)
        self.send(signal.SIGCONT)
        return is_stopped

    def end(self):
        """Takes the rest, and returns how the run ended, and what was taken."""
        if self.child.stdin.closed:
            self.child.stdin = None
        try:
            rest, told = self.child.communicate(timeout=LIMIT)
        except subprocess.TimeoutExpired:
            self.child.kill()
            return ("no end", b""), b""
        return (self.child.returncode, told), rest or b""


def front_of(trace, printed):
    """What was printed if it is a front of the trace and not all of it, or what is wrong."""
    return "a front" if trace.startswith(printed) and len(printed) < len(trace) else f"no front: {printed[-80:]!r}"


def while_it_reads(command):
    """The document is given in part. So nothing is printed."""
    for number in ENDING:
        run = Run(command, LEAST[:20], is_whole=False)
        waited = run.comes_to(SLEEPS)
        run.send(number)
        yield f"{number.name} while it reads", (waited, *run.end()), (True, (-number, b""), b"")
    for number in UNMINDED:
        run = Run(command, LEAST[:20], is_whole=False)
        waited = run.comes_to(SLEEPS)
        run.send(number)
        run.give(LEAST[20:])
        yield f"{number.name} while it reads", (waited, *run.end()), (True, WELL, LEAST_TRACE)
    run = Run(command, LEAST[:20], is_whole=False)
    paused = run.comes_to(SLEEPS) and run.pause()
    run.give(LEAST[20:])
    yield "it is stopped while it reads, and goes on", (paused, *run.end()), (True, WELL, LEAST_TRACE)


def while_it_writes(command):
    """The trace is longer than what a pipe holds, so the run waits until its reader takes it."""
    for number in ENDING:
        run = Run(command, LONG)
        waited = run.comes_to(SLEEPS)
        run.send(number)
        ended, printed = run.end()
        yield f"{number.name} while it writes", (waited, ended, front_of(LONG_TRACE, printed)), (
            True,
            (-number, b""),
            "a front",
        )
    for number in UNMINDED:
        run = Run(command, LONG)
        waited = run.comes_to(SLEEPS)
        run.send(number)
        yield f"{number.name} while it writes", (waited, *run.end()), (True, WELL, LONG_TRACE)
    run = Run(command, LONG)
    paused = run.comes_to(SLEEPS) and run.pause()
    yield "it is stopped while it writes, and goes on", (paused, *run.end()), (True, WELL, LONG_TRACE)


def readers_that_stop(command):
    run = Run(command, LONG)
    first = run.take(TAKEN)
    waited = run.comes_to(SLEEPS)
    ended, rest = run.end()
    yield "its reader stops for a while", (waited, ended, first + rest), (True, WELL, LONG_TRACE)
    run = Run(command, LONG)
    first = run.take(TAKEN)
    waited = run.comes_to(SLEEPS)
    run.child.stdout.close()
    run.child.stdout = None
    ended, _ = run.end()
    yield "its reader goes away", (waited, ended, front_of(LONG_TRACE, first)), (True, WRITE, "a front")


def into_a_file(command):
    """A run that is ended at once, and one that is ended late, leave a front of the trace in a file."""
    for delay in (0, 0.001, 0.003, 0.01, 0.03):
        with tempfile.TemporaryFile() as file:
            run = Run(command, LONG, stdout=file)
            time.sleep(delay)
            run.send(signal.SIGINT)
            ended, _ = run.end()
            file.seek(0)
            printed = file.read()
        is_so = (
            ended == WELL and printed == LONG_TRACE or ended == (-signal.SIGINT, b"") and LONG_TRACE.startswith(printed)
        )
        yield f"SIGINT behind {delay} s, into a file", is_so or (ended, printed[-80:]), True


def main(asked):
    program, tally = programs.program(asked), Tally()
    for job in JOBS:
        for cases in (while_it_reads, while_it_writes, readers_that_stop, into_a_file):
            for name, came, want in cases([program, job]):
                tally.tell(f"{job}: {name}", None if came == want else str(came)[:300])
    return tally.end()
