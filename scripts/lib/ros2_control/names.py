"""Names as our documents write them: a letter, then letters, digits and `_`, at most 64 in all."""

import re

from .listing import Refused, quoted
from .quantities import hint

LONGEST_NAME = 64
NAME = re.compile(r"[A-Za-z][A-Za-z0-9_]{0,63}", re.ASCII)


class Names:
    """The names of one family, as of all joints: each that is given gets one of ours, and each of ours stands once."""

    def __init__(self, family, listing):
        self.family, self.listing = family, listing
        self.given, self.taken = set(), set()

    def add(self, given, place):
        """Returns our name for a name that is given. If it is another one, the pair is listed."""
        if not given or "${" in given or "$(" in given:
            raise Refused(place, f"the {self.family}'s name is {quoted(given)}, which is no name{hint(given)}")
        if given in self.given:
            raise Refused(place, f"there are two {self.family}s named {quoted(given)}")
        self.given.add(given)
        name = self.make(given)
        if name != given:
            self.listing.renamed(place, f"{self.family} {quoted(given)} is {name}")
        return name

    def make(self, wanted):
        """Returns a name that is like the one that is wanted, and that no other has."""
        nearest_one = wanted if NAME.fullmatch(wanted) else nearest(wanted)
        name, count = nearest_one, 1
        while name in self.taken:
            count += 1
            ending = f"_{count}"
            name = nearest_one[: LONGEST_NAME - len(ending)] + ending
        self.taken.add(name)
        return name


def nearest(given):
    """Returns a name of ours that is like the given: `left/arm-1` becomes `left_arm_1`, and `2nd` becomes `n2nd`."""
    name = re.sub(r"[^A-Za-z0-9_]", "_", given).lstrip("_")
    return (name if name[:1].isalpha() else f"n{name}")[:LONGEST_NAME]
