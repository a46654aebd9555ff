"""The tables of limits in docs/FORMATS.md, from crates/cm_document/src/limits.rt: of each constant its docstring and
its number. Those that a version has its own of come first, with the number of each version."""

import re

from ..tree import TOP
from .parts import rewritten

SOURCE = "the constants of cm_document say"
PAGE, LIMITS = TOP / "docs/FORMATS.md", TOP / "crates/cm_document/src/limits.rt"
CONSTANT = re.compile(r"(?m)^/// (?:The|An) (.*)\.\npub const (\w+): \w+ = ([\d_]+);$")
VERSIONED = re.compile(r"(?ms)^pub const LIMITS_(\d): VersionLimits = VersionLimits {\n(.*?)^};$")
APART = ("FIRST_VERSION", "SECOND_VERSION")  # no limits


def by_version(text):
    """The fields of the record of each version: a number, or the constant that has it."""
    return [dict(re.findall(r"(\w+): (\w+),", fields)) for _, fields in VERSIONED.findall(text)]


def rows():
    text = LIMITS.read_text()
    constants = {
        name: (what.removesuffix(", in any version"), int(number)) for what, name, number in CONSTANT.findall(text)
    }
    versions = by_version(text)
    named = {key: f"MOST_{key.upper()}" for key in versions[0]}
    yield (
        f"| What | {' | '.join(f'In version {k}' for k in range(1, len(versions) + 1))} | Constant of the most |\n"
        f"|---|{'---|' * len(versions)}---|\n"
    )
    for key, name in named.items():
        numbers = (fields[key] for fields in versions)
        cells = (f"{constants[it][1] if it in constants else int(it):,}" for it in numbers)
        yield f"| {constants[name][0]} | {' | '.join(cells)} | `cm_document::{name}` |\n"
    yield "\n| What, in any version | At most | Constant |\n|---|---|---|\n"
    for name, (what, number) in constants.items():
        if name not in APART and name not in named.values():
            yield f"| {what} | {number:,} | `cm_document::{name}` |\n"


def made():
    return {PAGE: rewritten(PAGE, rows(), "limits")}


def findings():
    many = len(re.findall(r"(?m)^pub const (?!LIMITS_)", LIMITS.read_text()))
    if len(CONSTANT.findall(LIMITS.read_text())) != many:
        yield f"{LIMITS.relative_to(TOP)}: a constant has no docstring of one line with an article, or no plain number"
