"""Values and points that are made up, so that something moves: out and back, within what the joints may do."""

from dataclasses import dataclass
from decimal import Decimal

from .quantities import rounded_down, script_text

LONGEST_TIME = 999_999_999  # microseconds that a script can say
FEWEST_CYCLES = 10  # that a motion takes
FASTEST = Decimal(1)  # units a second of a joint without a limit
MOST_EFFORT = Decimal(1)
FARTHEST = Decimal(1)  # units of a way without an end
MICROSECONDS = 1_000_000


@dataclass
class Motion:
    """How much time there is: cycles of so many microseconds, from the one that takes the points on."""

    cycles: int
    period: int

    def is_long_enough(self):
        return self.cycles >= FEWEST_CYCLES

    def out(self):
        """Returns the cycles of the way out, which the way back takes as well. Between them is a rest."""
        return min(self.cycles, LONGEST_TIME // self.period) * 2 // 5

    def rest(self):
        return max(self.out() // 4, 1)

    def seconds(self):
        return Decimal(self.out() * self.period) / MICROSECONDS

    def points(self, claims):
        """Returns the points of a trajectory, as a script has them."""
        starts = [claim.joint.position for claim in claims]
        ends = [self.far(claim.joint) for claim in claims]
        back = 2 * self.out() + self.rest()
        times = ((self.out(), ends), (self.out() + self.rest(), ends), (back, starts))
        return " ".join(f"@{cycles * self.period} {texts(values)}" for cycles, values in times)

    def values(self, claims):
        """Returns the values that go out, and those that go back."""
        pairs = [self.pair(claim.joint, claim.kind) for claim in claims]
        return texts(out for out, _ in pairs), texts(back for _, back in pairs)

    def pair(self, joint, kind):
        if kind == "position":
            return self.far(joint), joint.position
        if kind == "velocity":
            return rounded_down(speed(joint) / 2), rounded_down(-speed(joint) / 2)
        effort = MOST_EFFORT if joint.limits.effort is None else min(abs(joint.limits.effort), MOST_EFFORT)
        return rounded_down(effort), rounded_down(-effort)

    def far(self, joint):
        """Returns where a joint goes: half way to its farther limit, or less if it is not there at half its speed."""
        limits, start = joint.limits, joint.position
        up, down = FARTHEST, Decimal(0)
        if limits.upper is not None:
            up, down = limits.upper - start, start - limits.lower
        room = max(up, down, Decimal(0)) / 2
        way = rounded_down(min(room, speed(joint) * self.seconds() / 2), 4)
        return rounded_down(start + way if up >= down else start - way)


def speed(joint):
    return FASTEST if joint.limits.velocity is None else joint.limits.velocity


def texts(values):
    return " ".join(script_text(value) for value in values)
