"""Places in files, and what is said of them on standard error: a line each, `FILE:LINE: WORD: ..`."""

from dataclasses import dataclass, field

LONGEST_SHOWN = 80  # characters of a text from a file that a line shows


@dataclass(frozen=True)
class Place:
    """A line of a file, counted from 1."""

    file: str
    line: int

    def __str__(self):
        return f"{plain(self.file)}:{self.line}"


class Refused(Exception):
    """The input is refused: where, and why."""

    def __init__(self, place, why):
        super().__init__(f"{place}: refused: {why}")


@dataclass
class Listing:
    """What becomes of the input otherwise than it says."""

    found: list = field(default_factory=list)  # each with its place

    def left_out(self, place, what):
        self.found.append((place, f"left out: {what}"))

    def renamed(self, place, what):
        self.found.append((place, f"renamed: {what}"))

    def rounded(self, place, what):
        self.found.append((place, f"rounded: {what}"))

    def made_up(self, place, what):
        self.found.append((place, f"made up: {what}"))

    def changed(self, place, what):
        self.found.append((place, f"changed: {what}"))

    def lines(self):
        """Returns all of it, file by file as they were read, and in each as it stands there."""
        files = list(dict.fromkeys(place.file for place, _ in self.found))
        in_order = sorted(self.found, key=lambda pair: (files.index(pair[0].file), pair[0].line))
        return [f"{place}: {what}" for place, what in in_order]


def plain(text):
    """Returns the text on one line, without what a terminal obeys, and not too long."""
    safe = "".join(it if it.isprintable() else ascii(it)[1:-1] for it in text)
    return safe if len(safe) <= LONGEST_SHOWN else f"{safe[:LONGEST_SHOWN]}.."


def quoted(text):
    return f'"{plain(text)}"'


def read_bytes(path, most):
    """Returns what the file has, which is refused if it cannot be read or is longer than `most` bytes."""
    try:
        with open(path, "rb") as file:
            data = file.read(most + 1)
    except OSError as error:
        raise Refused(Place(path, 1), f"the file cannot be read: {error.strerror}") from None
    if len(data) > most:
        raise Refused(Place(path, 1), f"the file is longer than {most} bytes")
    return data
