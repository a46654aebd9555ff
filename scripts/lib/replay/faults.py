"""Answers: is each fault told as examples/faults.txt shows it?

Makes the document of each from the example that it names, runs the program on it, and compares the status, the line on
standard error, and that nothing is printed. Prints a line for each fault that differs, and last `N as shown, M not`.
The exit status is 1 if a fault differs, or names a line that its example has not.
"""

import re

from ..faults import faults
from ..tree import TOP
from . import programs

options = programs.options
LIMIT = 60  # seconds
USAGE = re.search(r"(?m)^    cm: (usage: .*)$", (TOP / "docs/TRACE.md").read_text())[1]


def changed(example, before, instead):
    """Returns the example's bytes with the lines in place of the first that is `before`; nothing if it has none."""
    lines = (TOP / "examples" / example).read_text().split("\n")
    at = next((k for k, line in enumerate(lines) if line.strip() == before), None)
    return None if at is None else "\n".join([*lines[:at], *instead, *lines[at + 1 :]]).encode()


def cases():
    """Gives what each fault is called, its words, its document, and the status and line that it shows."""
    for heading, of_heading in faults().items():
        status = int(heading[-1])
        for fault in of_heading:
            if fault.words is not None:
                yield f"words {fault.words}", fault.words.split(), b"", status, USAGE
            else:
                document = changed(fault.example, fault.before, fault.instead())
                words = (TOP / "examples" / f"{fault.example}.args").read_text().split()
                yield f"{fault.example} {fault.before} -> {fault.instead()[:9]}", words, document, status, fault.line


def differs(program, words, document, status, line):
    if document is None:
        return "the example has no such line"
    ended, printed, said = programs.ran([program, *words], document, LIMIT)
    told = (ended, said.decode(errors="replace"), printed)
    return "" if told == (status, f"cm: {line}\n", b"") else f"told is {told[1]!r} with status {told[0]}"


def main(asked):
    program, shown, failed = programs.program(asked), 0, 0
    for name, *case in cases():
        reason = differs(program, *case)
        shown, failed = shown + (not reason), failed + bool(reason)
        if reason:
            print(f"FAILED  {name}: {reason}")
    print(f"{shown} as shown, {failed} not")
    return int(failed > 0 or not shown)
