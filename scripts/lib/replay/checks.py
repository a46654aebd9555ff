"""Answers: does the job `check` judge stored traces right?

What each example prints is judged, and must be legal. Then each line of it is left out, doubled, exchanged with the
next, cut, and changed in one byte. Another implementation, if one is named, judges each of these traces too; without
one they must be refused at a line that is not before the change, or be legal. A document with its trace that is too
long is left out. Prints a line an example, and last `N passed, M failed`. The exit status is 1 if one failed.
"""

import re

from ..tool import Tally
from . import programs
from .examples import EXAMPLES, words_of
from .other import JUDGED, judge, other_option
from .traces import LONGEST, SEPARATOR, with_trace

MOST_LINES = 40  # of a trace that are changed, spread over all of them
WRONG = re.compile(rb"cm: trace: line ([0-9]+)\n")


def options(parser):
    other_option(parser, "which judges each trace too")
    programs.options(parser)


def changed(lines):
    """Gives of each line what was done to it, its number, and the trace then."""
    step = max(1, len(lines) // MOST_LINES)
    for k in range(0, len(lines), step):
        before, line, after = lines[:k], lines[k], lines[k + 1 :]
        yield "left out", k, before + after
        yield "doubled", k, before + [line, line] + after
        if after and after[0] != line:
            yield "exchanged", k, before + [after[0], line] + after[1:]
        yield "cut", k, before + [line[: len(line) // 2]]
        at = len(line) // 3
        yield "changed", k, before + [line[:at] + bytes([line[at] ^ 1]) + line[at + 1 :]] + after


def is_right(status, printed, told, least):
    """Whether a trace that goes well before this line is legal, or is refused at this line or behind it."""
    if (status, printed, told) == (0, b"legal\n", b""):
        return True
    wrong = WRONG.fullmatch(told)
    return status == 9 and not printed and wrong is not None and int(wrong[1]) >= least


def fault(program, disagreement, text, least):
    """What is wrong with how this trace is judged, or None."""
    came = programs.ran([program, "check"], text)
    if disagreement:
        return disagreement(text, ["check"], JUDGED, *came)
    return None if is_right(*came, least) else f"status and line are: {came[0]} {came[2]!r}"


def reason(document, program, disagreement, words):
    """What is wrong with how the traces of an example are judged, or None."""
    status, printed, _ = programs.ran([program, *words], document)
    if status or len(document) + len(printed) + 100 > LONGEST:
        return None
    if programs.ran([program, "check"], with_trace(document, printed)) != (0, b"legal\n", b""):
        return "its own trace is refused"
    lines = printed.splitlines(keepends=True)
    for what, k, then in changed(lines):
        why = fault(program, disagreement, with_trace(document, b"".join(then)), k + 1)
        if why:
            return f"line {k + 1} {what}: {why}"
    return None


def main(asked):
    program, disagreement, tally = programs.program(asked), judge(asked.other), Tally()
    for document in sorted(EXAMPLES.glob("*.cm")):
        words, text = words_of(document), document.read_bytes()
        if "--make" not in words and words[0] in ("run", "steps", "live") and SEPARATOR in text:
            tally.tell(document.name, reason(text, program, disagreement, words))
    return tally.end()
