"""The longest chain of crates in docs/SPEED.md, from crates.txt and the minutes in that page's table of the gate.

A crate is proved once all that it stands on is. So of all chains of crates, each standing on the one before, the one
whose proofs take longest together, with the tests of its last, is the shortest time in which any number of processors
prove the whole.
"""

import re
import textwrap

from ..tree import TOP, crates, uses_of_each
from .parts import rewritten

SOURCE = "crates.txt and its table say"
PAGE = TOP / "docs/SPEED.md"
ROW = re.compile(r"(?m)^\| `(\w+)` \| ([\w. ]+) \| ([\w. ]+) \| [\w. ]+ \|$")
WIDE = 120


def minutes():
    """Returns of each crate in the table the minutes of its proof and of its tests.

    What was not timed counts nothing.
    """
    number = re.compile(r"[\d.]+")
    return {
        crate: tuple(float(cell) if number.fullmatch(cell) else 0.0 for cell in cells)
        for crate, *cells in ROW.findall(PAGE.read_text())
    }


def longest():
    """Returns the longest chain, lowest first, and its minutes."""
    timed, uses, best = minutes(), uses_of_each(), {}
    for crate in crates():  # each stands behind those that it uses
        below = max((best[used] for used in uses[crate] if used in best), default=(0.0, []), key=lambda it: it[0])
        best[crate] = below[0] + timed.get(crate, (0.0, 0.0))[0], [*below[1], crate]
    ends = [(sum_of + timed.get(chain[-1], (0.0, 0.0))[1], chain) for sum_of, chain in best.values()]
    return max(ends, key=lambda it: it[0])


def sentence():
    timed, (together, chain) = minutes(), longest()
    names = ", ".join(f"`{crate}` {timed.get(crate, (0.0,))[0]:.1f}" for crate in chain)
    return (
        f"The longest chain of crates takes {together:.1f} of these minutes, with the tests of its last crate. It "
        f"has these, with the minutes of their proofs: {names}."
    )


def made():
    lines = textwrap.wrap(sentence(), WIDE, break_long_words=False, break_on_hyphens=False)
    return {PAGE: rewritten(PAGE, (f"{line}\n" for line in lines), "chain")}


def findings():
    for crate in sorted(set(minutes()) - set(crates())):
        yield f"{PAGE.relative_to(TOP)}: the table of the gate has `{crate}`, which crates.txt has not"
