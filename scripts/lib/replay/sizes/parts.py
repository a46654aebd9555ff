"""The limits by their names, and the cases that documents of some size are."""

import functools
import re
from dataclasses import dataclass, field
from typing import Optional

from ...documents import KINDS, component, controller, document, joint
from ...tree import TOP

REQUESTS, NO_CALLS = ("switch ", "hw "), ("session ", "schedule", "step ", "begin", "end", "#")
TYPES = (
    "forward",
    "passthrough",
    "pid",
    "trajectory",
    "broadcaster",
    "mock",
    "transmission",
    "differential",
    "limiter",
)
REQUIRED = {
    "transmission": "reduction = 1\n",
    "differential": "reduction1 = 1\nreduction2 = 1\n",
    "limiter": "min = 0\nmax = 1\nvmax = 1\namax = 1\n",
}
cited = set()


@functools.cache
def limit(path):
    """The constant of this path, as `cm_document::MOST_CALLS`, by the sources of its crate."""
    crate, name = path.split("::")
    cited.add(path)
    texts = (it.read_text() for it in sorted((TOP / "crates" / crate / "src").rglob("*.rt")))
    (value,) = [it for text in texts for it in re.findall(rf"(?m)^pub const {name}: \w+ = ([\d_]+);", text)]
    return int(value)


@functools.cache
def of_version(version, what):
    """How much of this a description of this version may have, by the record of its limits; `MOST_` of it is the most
    in any.
    """
    cited.add(f"cm_document::MOST_{what.upper()}")
    limits = (TOP / "crates/cm_document/src/limits.rt").read_text()
    (said,) = re.findall(
        rf"(?ms)^pub const LIMITS_{version}: VersionLimits = VersionLimits {{.*?^    {what}: (\w+),$", limits
    )
    return int(said) if said.isdecimal() else limit(f"cm_document::{said}")


def of_first(what):
    return of_version(1, what)


def without_row():
    """The limits on documents that no row cites."""
    names = re.findall(r"(?m)^pub const (\w+): \w+ = [\d_]+;", (TOP / "crates/cm_document/src/limits.rt").read_text())
    return [name for name in names if f"cm_document::{name}" not in cited]


JOINTS, STATES, COMMANDS, CYCLES = (
    of_first("joints"),
    of_first("states"),
    of_first("commands"),
    limit("cm_document::MOST_CYCLES"),
)
CONTROLLERS, CLAIMS_OF_ONE = limit("cm_document::MOST_CONTROLLERS"), limit("cm_document::MOST_CLAIMS_OF_ONE")
CALLS, SESSIONS = limit("cm_document::MOST_CALLS"), limit("cm_document::MOST_SESSIONS")
LONGEST, LINE = limit("cm_document::LONGEST_DOCUMENT"), limit("cm_document::LONGEST_LINE")
RATE, DIGITS = limit("cm_document::HIGHEST_RATE"), limit("cm_document::MOST_DIGITS_OF_WHOLE")
WAITING, BLANKS = limit("cm_model::MOST_WAITING"), limit("cm_program::BLANKS")
UNITS, DECIMALS = limit("fixed_num::MOST_UNITS"), limit("fixed_num::DECIMALS")
NAME, ROUNDS = limit("iface_names::LONGEST_NAME"), limit("cm_words::MOST_ROUNDS")


@dataclass
class Case:
    """A document with what the program must answer: so many lines, and so many of them that end with a text; or its
    fault.
    """

    text: str
    lines: int = 0
    told: dict = field(default_factory=dict)
    fault: Optional[str] = None
    cycles: int = 0
    words: tuple = ("run",)


def case(described, script=(), untold=0, told=None, fault=None, words=("run",)):
    """The case of a description and a script's lines, all of whose requests but `untold` get a ticket."""
    cycles = int(re.search(r"(?m)^cycles = (\d+)", described)[1])
    calls = sum(bool(line.strip()) and not line.startswith(NO_CALLS) for line in script)
    tickets = sum(line.startswith(REQUESTS) for line in script) - untold
    return Case(document(described, script), calls + tickets + 2 * cycles + 1, told or {}, fault, cycles, words)


def arm(joints=1, command=KINDS[:1], state=KINDS[:1]):
    """A component of so many joints, j0 and on."""
    return component("arm", [joint(f"j{k}", command, state) for k in range(joints)])


def of_joints(places, kinds=KINDS):
    """So many interfaces of joints: the positions of all first, then the velocities, then the efforts."""
    return [f"j{k % JOINTS}/{kinds[k // JOINTS % len(kinds)]}" for k in range(places)]


def of_type(kind, name, claims=1):
    """A controller of this type with so many claims, where its type lets it choose."""
    claims = 2 if kind == "differential" else claims
    wanted = [f"j{k}/position" if k < JOINTS else f"j{k - JOINTS}/velocity" for k in range(claims)]
    has_claims, has_reads = kind != "broadcaster", kind in ("pid", "trajectory", "broadcaster", "limiter")
    more = REQUIRED.get(kind, "")
    return controller(name, kind, wanted if has_claims else None, wanted if has_reads else None, more)
