"""Answers: does the program run what is at all limits at once? `scripts/replay sizes` has each limit by itself, and one
more of each.

There is such a document of each version. It has as many components, joints, states, commands, controllers, references,
claims, reads, fallbacks, groups and members as it may have, names as long as names may be, as many sessions, calls and
turns as a script may have, with as many words in a switch, values in a list and points in a send, a line as long as
lines may be, and as many bytes as a document may have. It is run by each job that the program has: for a few cycles,
compared with another implementation if one is named, and for many, of which the lines are counted. With `--whole` it is
also run for as many cycles as there may be, which takes gigabytes. Prints a line a run, with the processor's seconds,
and last `N passed, M failed`. The exit status is 1 if one failed.
"""

from dataclasses import dataclass

from ..documents import KINDS, component, controller, document, group, head, joint, listed
from ..tool import Tally
from . import programs
from .other import JUDGED, judge, other_option
from .sizes.parts import (
    BLANKS,
    CALLS,
    CLAIMS_OF_ONE,
    CYCLES,
    LINE,
    LONGEST,
    NAME,
    RATE,
    SESSIONS,
    limit,
    of_version,
)
from .streams import LEAST, USAGE

VERSIONS = (1, 2)
FEW, MANY = 20, 2_000  # cycles
LIMIT = 600  # seconds
JOBS = ("run", "steps", "live")
NAMES, VALUES = limit("cm_document::MOST_NAMES"), limit("cm_document::MOST_VALUES")
POINTS, FALLBACKS = limit("cm_document::MOST_POINTS"), limit("cm_document::MOST_FALLBACKS")
MEMBERS = limit("cm_document::MOST_MEMBERS")


def options(parser):
    other_option(parser, "with whose answers these are compared")
    parser.add_argument("--whole", action="store_true", help="for as many cycles as there may be, too")
    programs.options(parser)


def named(letter, count):
    return [f"{letter}{k}".ljust(NAME, "_") for k in range(count)]


@dataclass(frozen=True)
class Limits:
    """What a description of a version has at all of its limits."""

    version: int

    def most(self, what):
        return of_version(self.version, what)

    def controllers(self):
        """The names of the passthroughs, forwards, broadcasters and mocks."""
        passthroughs, readers = self.most("references") // CLAIMS_OF_ONE, self.most("reads") // CLAIMS_OF_ONE
        forwards = self.most("claims") // CLAIMS_OF_ONE - passthroughs
        mocks = self.most("controllers") - passthroughs - forwards - readers
        return named("p", passthroughs), named("f", forwards), named("b", readers), named("m", mocks)

    def loaded(self):
        """As many of these as there are blanks for."""
        return [name for names in self.controllers() for name in names[:BLANKS]]

    def joints(self):
        return named("j", self.most("joints"))

    def groups(self):
        return named("g", self.most("groups"))

    def described(self, cycles):
        """The description. The text of an interface is as long as two names, so lists of them stand once each."""
        count, joints = self.most("components"), self.joints()
        share = len(joints) // count
        parts = [
            component(name, [joint(it, KINDS, KINDS) for it in joints[k * share : (k + 1) * share]])
            for k, name in enumerate(named("c", count))
        ]
        positions = [f"{name}/position" for name in joints[:CLAIMS_OF_ONE]]
        passthroughs, forwards, readers, mocks = self.controllers()
        by_mocks, by_readers = (listed("fallback", names[:FALLBACKS]) for names in (mocks, readers))
        parts += [controller(name, "passthrough", positions, more=by_readers) for name in passthroughs]
        parts += [controller(name, "forward", positions, more=by_readers) for name in forwards]
        parts += [controller(name, "broadcaster", reads=positions, more=by_mocks) for name in readers]
        parts += [controller(name, "mock", more=by_readers) for name in mocks]
        parts += [group(name, self.loaded()[:MEMBERS]) for name in self.groups()]
        return head(cycles, RATE).replace("version = 1", f"version = {self.version}") + "".join(parts)

    def first_session(self):
        """Loads and configures as many as there are blanks for, asks for all that it may name, and sends all that it
        may send.
        """
        loaded, groups = self.loaded(), self.groups()
        yield from (f"{verb} {name}" for name in loaded for verb in ("load", "configure"))
        unknown = [f"-x{k}" for k in range(NAMES - len(loaded) - len(groups))]
        yield "switch best " + " ".join([*unknown, *(f"+{name}" for name in loaded), *(f"+@{name}" for name in groups)])
        yield f"send {loaded[0]} " + " ".join(["0.5"] * VALUES)
        yield f"send {loaded[0]} " + " ".join(f"@{k + 1}{' 0.5' * VALUES}" for k in range(POINTS))
        yield from ("list controllers", "list interfaces", "list" + "components".rjust(LINE - len("list")))

    def script(self, job):
        """As many sessions, calls and turns as there may be. Those behind the first session list the components."""
        first = [*self.first_session()]
        turns = (
            ["begin", "step " + named("s", 1)[0], "end", "step " + named("s", 2)[1]] * (CALLS // 16)
            if job == "steps"
            else []
        )
        left = CALLS - len(first) - len(turns)
        share = left // (SESSIONS - 1)
        sessions = named("s", SESSIONS)
        lines = [f"session {sessions[0]}", *first]
        for k, name in enumerate(sessions[1:]):
            lines += [
                f"session {name}",
                *["list components"] * (share if k < SESSIONS - 2 else left - share * (SESSIONS - 2)),
            ]
        return lines + ["schedule", *turns] * bool(turns), CALLS - len(turns)

    def document(self, job, cycles):
        """The document, and how many lines are printed of it beside what is told of the switch."""
        lines, calls = self.script(job)
        return document(self.described(cycles), lines).encode(), calls + 2 * cycles + 1  # the last is the close


def lengthened(document):
    """The document with a comment that makes it as long as it may be."""
    room = LONGEST - len(document)
    return document + b"".join(b"#" * (min(room - at, 50_000) - 1) + b"\n" for at in range(0, room, 50_000))


def jobs(program):
    return [job for job in JOBS if programs.came([program, job], LEAST).status != USAGE[0]]


def told(job, printed):
    """How many lines tell what became of the switch.

    A loop that has ended refuses it at once, and only a live run may end so early.
    """
    return int(job != "live" or b": queued 0\n" in printed)


def wrong(came, lines, judged):
    """What is wrong with an answer of so many lines, or None; `judged` says what the other implementation finds."""
    if (came.status, came.told) != (0, b""):
        return f"status {came.status}, {came.told!r}"
    if came.printed.count(b"\n") != lines:
        return f"{came.printed.count(10):,} lines, and not {lines:,}"
    return judged()


def main(asked):
    program, tally = programs.program(asked), Tally()
    cases = [(version, job) for version in VERSIONS for job in jobs(program)]
    for version, job in cases:
        for cycles in (FEW, MANY, *([CYCLES] if asked.whole else [])):
            document, lines = Limits(version).document(job, cycles)
            given = lengthened(document)
            came = programs.came([program, job], given, LIMIT)
            compares = judge(asked.other) if cycles == FEW else None
            judged = lambda: compares and compares(given, [job], JUDGED, came.status, came.printed, came.told)
            why = wrong(came, lines + told(job, came.printed), judged)
            tally.tell(
                f"version {version}, {job}, {cycles:,} cycles: {len(came.printed):,} bytes in {came.seconds:.1f} s", why
            )
    return tally.end()
