"""The faults by example, examples/faults.txt: each changes an example so that it is refused, with the line that tells
the fault and the mend.
"""

import re
from dataclasses import dataclass, field
from typing import Optional

from .tree import TOP

SOURCE = TOP / "examples/faults.txt"
TIMES = re.compile(r"(\d+) times(?: on that line: (.*))?")
LABELS = {"refused": "why", "cm": "line", "mend": "mend"}


@dataclass
class Piece:
    """What stands in place of the line: lines so many times, or words so many times on the line before."""

    times: int = 1
    lines: list = field(default_factory=list)
    on_one_line: bool = False

    def spelled(self):
        return [
            line.replace("#", str(k)) if self.times > 1 else line
            for k in range(1, self.times + 1)
            for line in self.lines
        ]

    def cell(self):
        told = f"{'with ' * self.on_one_line}{self.times} times " if self.times > 1 else ""
        return told + ", ".join(f"`{line}`" for line in self.lines)


@dataclass
class Fault:
    """A fault: the words of the command, or the example with the line that is replaced; and what the paragraph says of
    it.
    """

    words: Optional[str] = None
    example: str = ""
    before: str = ""
    pieces: list = field(default_factory=list)
    why: str = ""
    line: str = ""
    mend: str = ""

    def instead(self):
        lines = []
        for piece in self.pieces:
            lines = [" ".join([*lines, *piece.spelled()])] if piece.on_one_line else [*lines, *piece.spelled()]
        return lines

    def cells(self):
        if self.words is not None:
            return [f"`{self.words}`" if self.words else "nothing", self.why, self.mend]
        stands = "; ".join(piece.cell() for piece in self.pieces) or "nothing"
        return [f"`{self.example}`", f"`{self.before}`", stands, f"`{self.line}`", self.mend]


def fault_of(paragraph):
    first, *rest = paragraph.split("\n")
    fault = Fault(words=first[6:]) if first.startswith("words") else Fault(example=first)
    for line in rest:
        mark, _, says = line.partition(" ")
        times = TIMES.fullmatch(line)
        if mark == "-":
            fault.before = says
        elif times:
            fault.pieces.append(Piece(int(times[1]), [*filter(None, [times[2]])], on_one_line=bool(times[2])))
        elif line == "once":
            fault.pieces.append(Piece())
        elif mark == "+":
            if not fault.pieces:
                fault.pieces.append(Piece())
            fault.pieces[-1].lines.append(says)
        else:
            setattr(fault, LABELS[mark.rstrip(":")], says)
    return fault


def faults():
    """Returns the faults below each heading of the file."""
    found = {}
    for paragraph in SOURCE.read_text().strip("\n").split("\n\n")[1:]:
        if paragraph.startswith("# "):
            of_heading = found.setdefault(paragraph[2:], [])
        else:
            of_heading.append(fault_of(paragraph))
    return found
