"""Answers: do the robots of examples/ros2_control still go from their files to a trace and a picture?

Of each NAME.urdf and NAME.yaml there scripts/from_ros2_control is to make NAME.cm, and to list NAME.cm.listed on
standard error. Of NAME.cm the program `cm` is to print NAME.cm.stdout, and the one that draws is to draw NAME.svg. Each
change of changes.txt is to come to what stands below it; what is accepted with it, `cm` is to accept too. Without
PyYAML and defusedxml no document is made, which a line says; the traces and pictures are looked at all the same. With
`--write` the files of the robots are made anew. Prints a line each, and last `N passed, M failed`. The exit status is 1
if one fails.
"""

import sys
import tempfile
from pathlib import Path

from ..ros2_control import packages
from ..tool import Tally
from ..tree import TOP
from . import programs, upgrades
from .plans import active
from .traces import SEPARATOR, with_trace

FOLDER = "examples/ros2_control"
CONVERTER = "scripts/from_ros2_control"


def options(parser):
    parser.add_argument("--write", action="store_true", help="makes the files of the robots anew")
    programs.options(parser, drawer=True)


def compared(name, made, writes):
    """Answers how what was made differs from the file, if it does; with `writes` the file becomes it."""
    path = TOP / name
    if writes:
        path.write_bytes(made)
    if not path.exists():
        return f"{name} is not there"
    differs = programs.first_difference(path.read_bytes(), made)
    return f"{name} differs, from line {differs[0]} on" if differs else None


def upgrade_fault(program, document):
    """What is wrong with a document whose description is upgraded, or None."""
    return upgrades.tried(document, program, ["run"])[1]


def check_fault(program, document):
    """What is wrong with how the trace of a document is judged, or None."""
    trace = programs.ran([program, "run"], document)[1]
    status, judged, said = programs.ran([program, "check"], with_trace(document, trace))
    return None if (status, judged, said) == (0, b"legal\n", b"") else f"status {status}: {said.decode()}"


def plan_fault(program, document):
    """What is wrong with the planned start of what a document's script switches on first, or None."""
    description, _, script = document.partition(SEPARATOR)
    switch = next(line for line in script.split(b"\n") if line.startswith(b"switch strict"))
    status, planned, said = programs.ran(
        [program, "plan"], description + SEPARATOR + b"session spawner\n" + switch + b"\n"
    )
    if status:
        return f"status {status}: {said.decode()}"
    printed = programs.ran([program, "run"], description + SEPARATOR + planned + b"list controllers\n")[1]
    wanted, there = {word[1:] for word in switch.decode().split()[2:]}, active(printed, "spawner")
    return None if there == wanted else f"active are {there}"


JOBS = {"upgrade": upgrade_fault, "check": check_fault, "plan": plan_fault}


class Robots:
    """The programs that are run over robots, and what came of it."""

    def __init__(self, asked):
        self.program, self.drawer, self.writes = programs.program(asked), programs.drawer(asked), asked.write
        self.tally = Tally()

    def compare(self, what, status, said, *files):
        """Tells a case: the status of a run, what it said if that is a fault, and files with what was made of each."""
        if status or said:
            self.tally.tell(what, f"status {status}: {said.decode()}")
        else:
            differs = (compared(name, made, self.writes) for name, made in files)
            self.tally.tell(what, next(filter(None, differs), None))

    def try_robot(self, name, has_packages):
        base = f"{FOLDER}/{name}"
        if has_packages:
            status, text, listed = programs.ran([sys.executable, CONVERTER, f"{base}.urdf", f"{base}.yaml"])
            files = ((f"{base}.cm", text), (f"{base}.cm.listed", listed))
            self.compare(f"{base}.urdf and {base}.yaml", status, listed if status else b"", *files)
        document = (TOP / f"{base}.cm").read_bytes()
        status, text, said = programs.ran([self.program, "run"], document)
        self.compare(f"{base}.cm", status, said, (f"{base}.cm.stdout", text))
        status, text, said = programs.ran([self.drawer], document)
        self.compare(f"{base}.svg", status, said, (f"{base}.svg", text))
        for job, fault in JOBS.items():
            self.tally.tell(f"{base}.cm, {job}", fault(self.program, document))


class Change:
    """A change of a robot's files, with the lines that are to come of it."""

    def __init__(self, title):
        self.title, self.robot, self.replaced, self.more, self.wanted = title, "", {"urdf": [], "yaml": []}, {}, []

    def take(self, line):
        word, _, rest = line.partition(" ")
        if line.startswith("    "):
            self.wanted.append(line.strip())
        elif word == "robot":
            self.robot = rest
        elif word in ("rate", "cycles"):
            self.more[word] = int(rest)
        elif word in self.replaced:
            was, becomes = (side.replace("\\n", "\n") for side in rest.split(" => "))
            self.replaced[word].append((was, becomes))
        elif line:
            sys.exit(f"{FOLDER}/changes.txt: {line}")

    def file(self, ending, folder):
        """Writes the changed file, and returns its path."""
        name = f"{self.robot}.{ending}"
        text = (TOP / FOLDER / name).read_text()
        for was, becomes in self.replaced[ending]:
            if was not in text:
                sys.exit(f"{FOLDER}/changes.txt, {self.title}: {name} has no {was!r}")
            text = text.replace(was, becomes)
        path = Path(folder, name)
        path.write_text(text)
        return str(path)

    def wrong(self, program, converted, refused_as):
        """Returns what is not as it is to be, if something is."""
        with tempfile.TemporaryDirectory() as folder:
            try:
                files = [self.file(ending, folder) for ending in self.replaced]
                text, listing = converted(*files, **{"cycles": 60, **self.more})
            except refused_as as refused:
                lines = [str(refused)]
            else:
                lines = [*text.split("\n"), *listing.lines()]
                status, _, said = programs.ran([program, "run"], text.encode())
                if status:
                    return f"cm ends with {status}: {said.decode()}"
            lines = [line.replace(f"{folder}/", "").strip() for line in lines]
        lacking = [line for line in self.wanted if line not in lines]
        if not self.wanted:
            return "no line is wanted"
        return f"no line is: {lacking[0]}{' but: ' + lines[0] if len(lines) == 1 else ''}" if lacking else None


def changes():
    found = []
    for line in (TOP / FOLDER / "changes.txt").read_text().split("\n"):
        if line.startswith("## "):
            found.append(Change(line[3:]))
        elif found:
            found[-1].take(line)
    return found


def main(asked):
    robots = Robots(asked)
    lacking = packages.go_on_with_packages()
    if lacking:
        print(*packages.advice(lacking), sep="\n")
        print("so no document is made of the robots' files here")
    for path in sorted((TOP / FOLDER).glob("*.urdf")):
        robots.try_robot(path.stem, not lacking)
    if not lacking:
        from ..ros2_control.conversion import converted
        from ..ros2_control.listing import Refused

        for change in changes():
            robots.tally.tell(change.title, change.wrong(robots.program, converted, Refused))
    return robots.tally.end()
