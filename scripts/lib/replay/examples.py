"""Answers: does the program print what the examples say?

Each NAME.cm of the folder is run with the words of NAME.cm.args, one a line, or with `run` if there is no such file.
Its output must be NAME.cm.stdout, its status 0, and standard error empty, but for the examples that are refused. A live
run prints another trace each time, so what it prints and what is stored (NAME.cm.stdout.2 too) are judged each, as
`scripts/replay live` does. With `--write` the output of a document that ends with status 0 is stored, if it differs or
is not there yet: read it first. That of a live run is stored if there is none. With `--workers N` the jobs that run a
document have so many workers, and print the same. Prints a line an example, and last `N passed, M failed`. The exit
status is 1 if one failed, or if the folder has no document.
"""

from pathlib import Path

from ..tool import Tally
from ..tree import TOP
from . import live, programs

EXAMPLES, CASES = TOP / "examples", TOP / "scripts/cases"
LIVE = "live"
# The jobs that may have several workers.
SHARED = ("run", "steps", LIVE)
# The examples that are refused: the status, and the line on standard error.
REFUSED = {
    "a_float.cm": (3, b"cm: description: float_given component[0].joint[0].vmax\n"),
    "a_wrong_key.cm": (3, b"cm: description: bad_key controller[1].p\n"),
    "changed_digit.cm": (9, b"cm: trace: line 11\n"),
    "exchanged_lines.cm": (9, b"cm: trace: line 9\n"),
}


def options(parser):
    parser.add_argument(
        "folder", nargs="?", type=Path, default=EXAMPLES, metavar="FOLDER", help="in place of examples/"
    )
    parser.add_argument("--write", action="store_true", help="stores the output of each that differs")
    parser.add_argument("--workers", metavar="N", help="how many workers share a cycle, from 1 to 8")
    programs.options(parser)


def beside(document, ending):
    return document.with_name(document.name + ending)


def words_of(document):
    args = beside(document, ".args")
    return args.read_text().split("\n")[:-1] if args.exists() else ["run"]


def read_documents():
    """Returns the examples and cases that are read, and not made."""
    every = [*sorted(EXAMPLES.glob("*.cm")), *sorted(CASES.glob("*.cm"))]
    return [document for document in every if "--make" not in words_of(document)]


def reason(document, program, writes, workers=None):
    """Returns what is wrong with the run of an example, or None."""
    words = words_of(document)
    if workers and words[0] in SHARED:
        words += ["--workers", workers]
    status, output, told = programs.ran([program, *words], document.read_bytes())
    wanted = REFUSED.get(document.name, (0, b"")) if document.parent == EXAMPLES else (0, b"")
    if (status, told) != wanted:
        return f"status and line are: {status} {told.decode(errors='replace').strip()}"
    stored, is_live = beside(document, ".stdout"), words[0] == LIVE
    if writes and not (stored.exists() and (is_live or stored.read_bytes() == output)):
        stored.write_bytes(output)
        print(f"written {stored.name}")
    if not stored.exists():
        return f"{stored.name} is not there; with --write it is made of what is printed"
    if is_live:
        return wrong_trace(program, document, output)
    differs = programs.first_difference(stored.read_bytes(), output)
    return f"line {differs[0]} is {differs[2][:200]!r}, and not {differs[1][:200]!r}" if differs else None


def wrong_trace(program, document, output):
    """What is wrong with the trace of a live run, or with one that is stored, or None."""
    stored = {it.name: it.read_bytes() for it in sorted(document.parent.glob(f"{document.name}.stdout*"))}
    traces = {"what it prints": output, **stored}
    wrong = ((what, live.reason(program, document.read_bytes(), trace)) for what, trace in traces.items())
    return next((f"{what}: {why}" for what, why in wrong if why), None)


def main(asked):
    program, tally, folder = programs.program(asked), Tally(), asked.folder.resolve()
    for document in sorted(folder.glob("*.cm")):
        name = document.relative_to(TOP) if TOP in document.parents else document
        tally.tell(name, reason(document, program, asked.write, asked.workers))
    return tally.end()
