"""Answers: can contracts and definitions be read? A function has at most four clauses, `requires` and `ensures`
together: what needs more is a record in the crate's specs/Calls. No line of a clause and no line of specs is wider than
120 columns, texts between quotation marks apart. Prints a line for each that is longer. The exit status is 1 if there
is one.
"""

import re

from ..tree import TOP

MOST = 4  # clauses
WIDEST = 120  # columns

COMMENT = re.compile(r"\s*//")
FUNCTION = re.compile(r"\s*(?:pub(?:\([^)]*\))? )?(?:(?:const|unsafe|ghost) )*fn (\w+)")
CLOSURE = re.compile(r"\s*(?:let (?:mut )?\w+ = )?(?:&(?:mut )?)?(?:move )?\|[^|]*\|")  # it has clauses of its own
CLAUSE = re.compile(r"\s*(requires|ensures)\b")
QUOTED = re.compile(r'"(?:[^"\\]|\\.)*"')


def clauses_of(text):
    """Yields the number of each clause's line, the function that has it, and the lines of the clause."""
    function, depth, clause = None, 0, []
    for number, line in enumerate(text.split("\n"), 1):
        if COMMENT.match(line):
            continue
        if depth == 0:
            found = FUNCTION.match(line)
            function = (number, found[1]) if found else function
            if function and CLOSURE.match(line):
                function = (number, f"{function[1]} (a closure)")
            if not CLAUSE.match(line):
                continue
            clause = []
        clause.append(line)
        depth += line.count("{") - line.count("}")
        if depth == 0:
            yield number, function, clause


def of_clauses(name, text):
    counts = {}
    for number, function, clause in clauses_of(text):
        kinds = counts.setdefault(function, [0, 0])
        kinds["ensures" in clause[0].split()[0]] += 1
        if max(map(len, clause)) > WIDEST:
            yield f"{name}:{number}: a clause of `{function[1]}` is wider than {WIDEST} columns"
    for (number, function), (requires, ensures) in counts.items():
        if requires + ensures > MOST:
            yield (
                f"{name}:{number}: `{function}` has {requires} requires and {ensures} ensures, more than {MOST} "
                "together"
            )


def wide_lines(name, text):
    for number, line in enumerate(text.split("\n"), 1):
        if len(line) > WIDEST and not (QUOTED.search(line) and len(QUOTED.sub("", line)) <= WIDEST):
            yield f"{name}:{number}: is wider than {WIDEST} columns"


def findings():
    for path in sorted(TOP.glob("crates/*/src/**/*.rt")):
        yield from of_clauses(str(path.relative_to(TOP)), path.read_text())
    for path in sorted(TOP.glob("crates/*/specs/**/*.antt")):
        yield from wide_lines(str(path.relative_to(TOP)), path.read_text())


def main(asked):
    told = list(findings())
    print("\n".join([*told, f"{len(told)} findings"]))
    return int(bool(told))
