"""The numbers of a pid, from the gains of a joint."""

from decimal import Decimal

from .listing import quoted
from .quantities import MOST_UNITS, plain_number, quotient, rounded

ENDLESS = (".inf", "+.inf", ".Inf", "+.Inf", "-.inf", "-.Inf")


def tuning(whose, gains, listing):
    """Returns `kp`, `ki`, `kd`, `imax` and `omax` of a pid, without those that are as if they were not said."""
    numbers = Numbers(whose, gains, listing)
    found = {ours: numbers.take(theirs) for ours, theirs in (("kp", "p"), ("ki", "i"), ("kd", "d"))}
    integral, output = numbers.bound("i_clamp"), numbers.bound("u_clamp")
    stops = gains["antiwindup"].boolean(f"antiwindup of {whose}") if "antiwindup" in gains else False
    if found["ki"]:
        place, bound = integral or (gains["i"].place, Decimal(0))
        what = f"the limit of the integral for {whose}"
        found["imax"] = rounded(min(quotient(bound, abs(found["ki"])), Decimal(MOST_UNITS)), place, what, listing)
        if not bound:
            listing.changed(place, f"the gain i for {whose} does nothing, because i_clamp is not given or 0")
        elif not stops:
            listing.changed(place, f"{whose}: the integral itself stops at its limit, as if antiwindup were on")
    if output:
        found["omax"] = rounded(output[1], output[0], f"the limit of the output for {whose}", listing)
    for name in gains:
        if name not in numbers.known:
            listing.left_out(gains[name].place, f"the gain {quoted(name)} for {whose}")
    return {name: value for name, value in found.items() if value or name == "omax"}


class Numbers:
    def __init__(self, whose, gains, listing):
        self.whose, self.gains, self.listing = whose, gains, listing
        self.known = {"p", "i", "d", "antiwindup"}

    def take(self, name):
        node, what = self.gains.get(name), f"the gain {name} for {self.whose}"
        return rounded(node.number(what), node.place, what, self.listing) if node else None

    def bound(self, name):
        """Returns the bound on both sides with its place, or nothing: the larger of both, or the one for both."""
        both = {key: self.gains[key] for key in (name, f"{name}_max", f"{name}_min") if key in self.gains}
        self.known |= both.keys()
        bounded = {key: node for key, node in both.items() if node.value not in ENDLESS}
        found = [(node.place, node.number(f"{key} for {self.whose}")) for key, node in bounded.items()]
        if not found:
            return None
        place, largest = max(found, key=lambda pair: abs(pair[1]))
        uneven = len(found) < len(both) or {abs(value) for _, value in found} != {abs(largest)}
        if uneven or len(both) == 1 and name not in both:
            self.listing.changed(place, f"{name} for {self.whose} is {plain_number(abs(largest))} on both sides")
        return place, abs(largest)
