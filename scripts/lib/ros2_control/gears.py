"""Transmissions of the URDF: a simple one becomes a controller between a joint and those who command it."""

from dataclasses import dataclass
from decimal import Decimal

from .controllers import Controller
from .listing import Place, quoted
from .names import Names
from .quantities import number, rounded

SIMPLE = "SimpleTransmission"


@dataclass
class Gear:
    """A simple transmission, with the joint as the URDF names it."""

    place: Place
    given: str
    joint: str
    reduction: Decimal
    offset: Decimal

    def controller(self, linked):
        """Returns the controller that it becomes."""
        names = Names("controller", linked.listing)
        names.taken |= {it.name for it in linked.controllers}
        it = Controller(self.place, self.given, names.make(self.given), "transmission")
        for key, value in (("reduction", self.reduction), ("offset", self.offset)):
            if value or key == "reduction":
                what = f"{key} of transmission {quoted(self.given)}"
                it.numbers[key] = rounded(value, self.place, what, linked.listing)
        return it


def gear_of(tag):
    """Returns the simple transmission of one joint that this tag is, or nothing."""
    plugin, joints = tag.first("plugin"), tag.all("joint")
    if plugin is None or plugin.text.rpartition("/")[2] != SIMPLE or len(joints) != 1:
        return None
    given = tag.get("name")

    def quantity(key, usual):
        what, element = f"{key} of transmission {quoted(given)}", joints[0].first(key)
        return usual if element is None else number(element.content(what), element.place, what)

    reduction, offset = quantity("mechanical_reduction", Decimal(1)), quantity("offset", Decimal(0))
    return Gear(tag.place, given, joints[0].get("name"), reduction, offset)
