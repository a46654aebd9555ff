"""A page of SVG as it lies: of each text, line and mark what it says, and the box round it.

How wide a text is, is reckoned from its font and its letters.
"""

import re
import sys
import xml.etree.ElementTree as ElementTree
from dataclasses import dataclass

MONO, SANS, BOLD_SANS = 0.6025, 0.56, 0.63  # how wide a letter is, in parts of its size
NUMBER = r"-?\d+(?:\.\d+)?"


@dataclass(frozen=True)
class Box:
    left: float
    top: float
    right: float
    bottom: float

    def lies_on(self, other):
        """Whether both share more than a pixel."""
        return (
            min(self.right, other.right) - max(self.left, other.left) > 1
            and min(self.bottom, other.bottom) - max(self.top, other.top) > 1
        )

    def is_within(self, other):
        return (
            self.left >= other.left - 0.5
            and self.right <= other.right + 0.5
            and self.top >= other.top - 0.5
            and self.bottom <= other.bottom + 0.5
        )

    def __str__(self):
        return f"x {self.left:.0f} to {self.right:.0f}, y {self.top:.0f} to {self.bottom:.0f}"


@dataclass(frozen=True)
class Item:
    kind: str
    words: str  # of a text what it says
    title: str
    box: Box
    order: int
    element: str


class Style:
    """The sizes, families and anchors of the page's classes."""

    def __init__(self, text):
        self.rules = re.findall(r"([^{}]+)\{([^{}]*)\}", text.split("@media")[0])

    def of(self, kind, key, default):
        found = default
        for names, rule in self.rules:
            if f".{kind}" in names.strip().split(",") and (given := re.search(rf"(?:^|;){key}:([^;]+)", rule)):
                found = given[1]
        return found

    def width(self, kind, words):
        size = float(self.of(kind, "font-size", "12px")[:-2])
        sans = "sans-serif" in self.of(kind, "font-family", "")
        bold = self.of(kind, "font-weight", "400") != "400"
        return size, size * len(words) * (MONO if not sans else BOLD_SANS if bold else SANS)

    def box(self, kind, x, y, words):
        size, width = self.width(kind, words)
        left = x - {"start": 0, "middle": width / 2, "end": width}[self.of(kind, "text-anchor", "start")]
        return Box(left, y - 0.74 * size, left + width, y + 0.22 * size)


def box_of_path(steps):
    """The box round the points of a path, those included that only draw its curves."""
    xs, ys, x, y = [], [], 0.0, 0.0
    for letter, text in re.findall(r"([A-Za-z])([^A-Za-z]*)", steps):
        numbers = [float(it) for it in re.findall(NUMBER, text)]
        base = (x, y) if letter.islower() else (0.0, 0.0)
        if letter in "Hh":
            points = [(base[0] + it, y) for it in numbers]
        elif letter in "Vv":
            points = [(x, base[1] + it) for it in numbers]
        else:
            points = [(base[0] + a, base[1] + b) for a, b in zip(numbers[::2], numbers[1::2])]
        for x, y in points:
            xs.append(x)
            ys.append(y)
    return Box(min(xs), min(ys), max(xs), max(ys))


def box_of(style, kind, element, words):
    name, given = element.tag.split("}")[1], element.attrib
    number = lambda *keys: [float(given[key]) for key in keys]
    if name == "text":
        return style.box(kind, *number("x", "y"), words)
    if name == "rect":
        x, y, width, height = number("x", "y", "width", "height")
        return Box(x, y, x + width, y + height)
    if name == "line":
        x, y, end_x, end_y = number("x1", "y1", "x2", "y2")
        return Box(min(x, end_x), min(y, end_y), max(x, end_x), max(y, end_y))
    if name == "circle":
        x, y, radius = number("cx", "cy", "r")
        return Box(x - radius, y - radius, x + radius, y + radius)
    return box_of_path(given["d"])


class Page:
    def __init__(self, svg):
        root = ElementTree.fromstring(svg)
        self.whole = Box(0, 0, float(root.get("width")), float(root.get("height")))
        style = Style(root.find("{*}style").text)
        self.items = []
        for order, element in enumerate(root):
            kind = element.get("class", "")
            if element.tag.endswith("style") or kind == "page":
                continue
            title = element.find("{*}title")
            words = (element.text or "") + (title.tail or "" if title is not None else "")
            name = element.tag.split("}")[1]
            box = box_of(style, kind, element, words)
            self.items.append(Item(kind, words, "" if title is None else title.text, box, order, name))
        self.texts = [it for it in self.items if it.element == "text"]

    def sections(self):
        """The items of each section with its heading's words and its area; the page's head is the first."""
        heads = [it for it in self.items if it.kind == "section"]
        tops = [0.0, *[it.box.top for it in heads], self.whole.bottom]
        for place, (top, bottom) in enumerate(zip(tops, tops[1:])):
            first = heads[place - 1].order if place else 0
            last = heads[place].order if place < len(heads) else sys.maxsize
            items = [it for it in self.items if first <= it.order < last]
            yield heads[place - 1].words if place else "head", Box(0, top, self.whole.right, bottom), items

    def section(self, name):
        return next((items for head, _, items in self.sections() if head == name), [])
