"""What is counted, up to which limit, in which documents, and what is told of one more."""

import functools
import re
from dataclasses import dataclass
from typing import Callable, Optional

from ..faults import USAGE
from . import calls, descriptions
from .parts import (
    BLANKS,
    CALLS,
    CLAIMS_OF_ONE,
    COMMANDS,
    CONTROLLERS,
    CYCLES,
    DECIMALS,
    DIGITS,
    JOINTS,
    LINE,
    LONGEST,
    NAME,
    RATE,
    ROUNDS,
    SESSIONS,
    STATES,
    TOP,
    TYPES,
    UNITS,
    Case,
    limit,
    of_first,
    of_version,
)

EACH = 130  # up to this limit each size is tried
WHOLE = 2**32 - 1  # the largest whole of a description


@dataclass(frozen=True)
class Row:
    """What is counted; the most that there may be of it; the document of a size; the least size; and what is told of
    one more, and of one less than the least. With `None` for that, no such document can be written. In it `{last}` is
    the number of the document's last line, and `{session}` of the last one that begins a session."""

    what: str
    most: int
    make: Callable[[int], Case]
    above: Optional[str] = None
    least: int = 0
    below: Optional[str] = None

    def sizes(self):
        steps = (self.least + (self.most - self.least) * tenth // 10 for tenth in range(11))
        all_of_it = (
            range(self.least, self.most + 1)
            if self.most <= EACH
            else (self.least, self.least + 1, self.least + 2, *steps)
        )
        beyond = [self.least - 1] * (self.below is not None) + [self.most + 1] * (self.above is not None)
        return sorted({*all_of_it, *beyond})

    def case(self, size):
        made = self.make(size)
        fault = self.above if size > self.most else self.below if size < self.least else None
        if fault is not None:
            lines = made.text.splitlines()
            of_session = max((k for k, line in enumerate(lines, 1) if line.startswith("session")), default=0)
            made.fault = fault.format(last=len(lines), session=of_session)
        return made


BAD_LINE, TOO_MANY = "script: bad_line {last}", "script: too_many {last}"
PATHS = {key: f"component[0].joint[0].{key}" for key in ("vmax", "gain", "damping", "position", "velocity")}
PATHS |= {key: f"controller[0].{key}" for key in ("kp", "ki", "kd", "imax", "omax")}
LISTS = {
    "fail_read": "component[0]",
    "fail_write": "component[0]",
    "not_ready": "controller[0]",
    "fail_update": "controller[0]",
}
NESTING = int(re.search(r"nesting\s+deeper\s+than\s+(\d+)", (TOP / "docs/FORMATS.md").read_text())[1])


def too_many(what):
    return f"description: too_many {what}"


def bad_range(path):
    return f"description: bad_range {path}"


def bad_value(path):
    return f"description: bad_value {path}"


def of(made, *given):
    return functools.partial(made, *given)


def rows_of_counts():
    yield Row("components", limit("cm_document::MOST_COMPONENTS"), descriptions.components, too_many("components"))
    yield Row("failing components", limit("cm_document::MOST_COMPONENTS"), descriptions.failing_components)
    yield Row("joints", JOINTS, descriptions.joints, too_many("joints"), 1, bad_range("component[0].joint"))
    yield Row("states", STATES, descriptions.states)
    yield Row("commands", COMMANDS, descriptions.commands)
    yield Row("controllers", CONTROLLERS, descriptions.controllers, too_many("controllers"))
    yield Row("stopped controllers", CONTROLLERS, descriptions.stopped_controllers)
    yield Row("failing controllers", BLANKS, descriptions.failing_controllers)
    yield Row("chained controllers", CONTROLLERS, descriptions.chained_controllers, least=1)
    yield Row("leaders", CLAIMS_OF_ONE, descriptions.leaders, least=1)
    yield Row("references", of_first("references"), descriptions.references, too_many("references"))
    yield Row("claims", of_first("claims"), descriptions.claims, too_many("claims"))
    yield Row("reads", of_first("reads"), descriptions.reads, too_many("reads"))


def rows_of_one_controller():
    out_of_range = bad_range("controller[0].claims")
    for kind in ("forward", "passthrough", "trajectory"):
        yield Row(
            f"claims of a {kind}", CLAIMS_OF_ONE, of(descriptions.claims_of_one, kind), out_of_range, 1, out_of_range
        )
    yield Row("claims of a mock", CLAIMS_OF_ONE, of(descriptions.claims_of_one, "mock"), out_of_range)
    too_many_of_one = bad_range("controller[0].fallback")
    yield Row("fallbacks", limit("cm_document::MOST_FALLBACKS"), descriptions.fallbacks, too_many_of_one)


def rows_of_numbers():
    yield Row("manager's rate", RATE, descriptions.manager_rate, bad_range("update_rate"), 1, bad_range("update_rate"))
    yield Row("described rate", RATE, descriptions.described_rate, bad_range("controller[0].update_rate"))
    yield Row("cycles", CYCLES, descriptions.cycles, bad_range("cycles"))
    yield Row("cycle of failures", CYCLES - 1, descriptions.cycle_of_failures)
    first, second = limit("cm_document::FIRST_VERSION"), limit("cm_document::SECOND_VERSION")
    yield Row("version", second, descriptions.version, bad_range("version"), first, bad_range("version"))


def rows_of_groups():
    yield Row("groups", limit("cm_document::MOST_GROUPS"), descriptions.groups, too_many("groups"))
    out_of_group = bad_range("group[0].members")
    yield Row("members", limit("cm_document::MOST_MEMBERS"), descriptions.members, out_of_group, 1, out_of_group)


def rows_of_quantities():
    for name, path in PATHS.items():
        yield Row(f"{name} in units", UNITS, of(descriptions.quantity, name), bad_value(path))
    yield Row("decimals", DECIMALS, descriptions.decimals, bad_value("component[0].joint[0].vmax"))
    for name, path in LISTS.items():
        yield Row(f"a cycle in {name}", WHOLE, of(descriptions.whole, name), bad_value(f"{path}.{name}[0]"))
        yield Row(f"length of {name}", (LONGEST - 1_000) // 2, of(descriptions.listed_cycles, name))


def rows_of_texts():
    joint, above, below = "component[0].joint[0]", "controller[0]", "controller[1]"
    names = {
        "a component": "component[0]",
        "a joint": joint,
        "a passthrough": above,
        "a forward": below,
        "all": "component[0]",
    }
    for whose, path in names.items():
        fault = bad_value(f"{path}.name")
        yield Row(f"name of {whose}", NAME, of(descriptions.names_in_a_description, whose.split()[-1]), fault, 1, fault)
    yield Row("an unlisted key", LINE, descriptions.key, least=1)
    yield Row("nested arrays", NESTING, descriptions.nested_arrays, "description: not_toml", 1)
    yield Row("bytes of a document", LONGEST, descriptions.document_bytes, f"document longer than {LONGEST} bytes")


def rows_of_second():
    """What a description of the second version may have more of."""
    most = functools.partial(of_version, 2)
    second = functools.partial(of, descriptions.in_second)
    out_of_range = bad_range("component[0].joint")
    yield Row(
        "joints of the second version", most("joints"), second(descriptions.joints), too_many("joints"), 1, out_of_range
    )
    for what, make in (("states", descriptions.states), ("commands", descriptions.commands)):
        yield Row(f"{what} of the second version", most(what), functools.partial(second(make), joints=most("joints")))
    for what, make in (
        ("references", descriptions.references),
        ("claims", descriptions.claims),
        ("reads", descriptions.reads),
    ):
        yield Row(f"{what} of the second version", most(what), second(make), too_many(what))


def rows_of_scripts():
    yield Row("bytes of a line", LINE, calls.line_bytes, BAD_LINE, len("list controllers"))
    yield Row("bytes of a comment", 2 * LINE, calls.comment_bytes, least=1)
    yield Row("digits of a number", DIGITS, calls.digits, BAD_LINE, 1, BAD_LINE)
    yield Row("digits of a value", LINE - len("send f "), calls.digits_of_a_value, BAD_LINE, 1)
    begun = "script: bad_line {session}"
    yield Row("name of a session", NAME, of(descriptions.names_in_a_description, "session"), begun, 1, begun)
    yield Row("sessions", SESSIONS, calls.sessions, "script: too_many {session}")
    yield Row("waiting requests", SESSIONS, calls.waiting_requests)
    yield Row("calls", CALLS, calls.calls, TOO_MANY)
    yield Row("calls and turns", CALLS, of(calls.calls_and_turns, 0.5), TOO_MANY)
    yield Row("turns", CALLS, of(calls.calls_and_turns, 0), TOO_MANY)
    yield Row("requests", CALLS, calls.ticket)
    yield Row("moves", CALLS, calls.moves)
    yield Row("loads", len(TYPES) * BLANKS, calls.serial)
    for kind in TYPES:
        most = of_first("references") // 2 if kind == "differential" else CONTROLLERS
        yield Row(f"blanks of {kind}", most, of(calls.blanks, kind))
    names = limit("cm_document::MOST_NAMES")
    yield Row("dropped names", names, calls.unknown_names, TOO_MANY)
    yield Row("names in conflict", names, calls.conflicts, TOO_MANY)
    yield Row("names of a strict restart", names, of(calls.restarts, "strict"), TOO_MANY)
    yield Row("names of a best restart", names, of(calls.restarts, "best"), TOO_MANY)
    yield Row("points", limit("cm_document::MOST_POINTS"), calls.points, TOO_MANY, 1, BAD_LINE)
    most = limit("cm_document::MOST_VALUES")
    yield Row("values", most, calls.values, TOO_MANY, 1, BAD_LINE)
    yield Row("values of a point", most, calls.values_of_a_point, TOO_MANY, 1, BAD_LINE)
    yield Row("rate of a line", RATE, calls.rate, BAD_LINE)
    yield Row("rate in use", RATE, calls.rate_in_use)
    yield Row("cycles of an await", 10**DIGITS - 1, calls.await_of, BAD_LINE)
    yield Row("time of a point", 10**DIGITS - 1, calls.time_of_a_point, BAD_LINE, 1, BAD_LINE)
    yield Row("a value in units", UNITS, of(calls.value, ""), BAD_LINE)
    yield Row("a negative value in units", UNITS, of(calls.value, "-"), BAD_LINE)


def rows_of_words():
    yield Row("rounds", ROUNDS, calls.rounds, USAGE, 1, USAGE)
    yield Row("digits of rounds", limit("cm_words::MOST_DIGITS_OF_ROUNDS"), calls.digits_of_rounds, USAGE, 1, USAGE)


@functools.cache
def table():
    """The rows by what they count."""
    makers = (
        rows_of_counts,
        rows_of_one_controller,
        rows_of_numbers,
        rows_of_second,
        rows_of_groups,
        rows_of_quantities,
        rows_of_texts,
        rows_of_scripts,
        rows_of_words,
    )
    return {row.what: row for maker in makers for row in maker()}
