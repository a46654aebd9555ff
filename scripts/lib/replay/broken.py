"""Answers: is each broken variant of the robots' files refused, at the place where it is broken?

The variants are made here of examples/ros2_control/NAME.urdf and NAME.yaml, always the same ones: a tag that is not
closed, a name that is misspelled or stands twice, a text in place of a number, a file that ends too early, entities and
includes, and the like. scripts/from_ros2_control is to refuse each in one line, `FILE:LINE: refused: ..`: with the file
that is broken, with the line at which it is, if the fault shows there and nowhere else, and with the broken word. A few
are tried by the command itself, for its status and for an empty standard output. Without PyYAML and defusedxml a line
says that nothing was tried. Prints a line for each that is not refused so, and last how many were. The exit status is 1
if one was not.
"""

import re
import subprocess
import sys
import tempfile
from pathlib import Path

from ..ros2_control import broken, packages
from ..tree import TOP

FOLDER = TOP / "examples/ros2_control"
FEWEST = 200  # variants
BY_COMMAND = 50  # each variant whose number divides by this is tried by the command too


def reason(line, path, variant):
    """Returns what is wrong with the line by which the variant was refused, or nothing."""
    _, data, at, word = variant
    found = re.fullmatch(re.escape(str(path)) + r":(\d+): refused: .+", line)
    if not found:
        return f"the line is: {line}"
    if not 1 <= int(found[1]) <= data.count(b"\n") + 1:
        return f"there is no such line: {line}"
    if at and at != int(found[1]):
        return f"it is broken at line {at}, and refused with: {line}"
    return None if word in line else f"{word!r} is not named: {line}"


def by_command(urdf, yaml):
    command = [sys.executable, str(TOP / "scripts/from_ros2_control"), urdf, yaml]
    done = subprocess.run(command, capture_output=True, text=True)
    if done.returncode != 1 or done.stdout:
        return f"status {done.returncode}, with {len(done.stdout)} characters on standard output"
    return done.stderr.rstrip("\n")


def try_file(folder, robot, ending, variants, converted, refused_as):
    """Tries the variants of one file beside the robot's other one. Returns how many there are, and what is wrong."""
    wrong, tried = [], set()
    for variant in variants.found:
        if variant[1] in tried or variant[1] == variants.text.encode():
            continue
        tried.add(variant[1])
        path = folder / f"{robot}.{ending}"
        path.write_bytes(variant[1])
        files = {"urdf": FOLDER / f"{robot}.urdf", "yaml": FOLDER / f"{robot}.yaml", ending: path}
        try:
            converted(str(files["urdf"]), str(files["yaml"]), 60)
            said = "it is accepted"
        except refused_as as error:
            said = str(error)
        found = reason(said, path, variant)
        if not found and len(tried) % BY_COMMAND == 0:
            found = reason(by_command(str(files["urdf"]), str(files["yaml"])), path, variant)
        if found:
            wrong.append(f"FAILED  {robot}.{ending}, {variant[0]}: {found}")
    return len(tried), wrong


def main(asked):
    if lacking := packages.go_on_with_packages():
        print(*packages.advice(lacking), sep="\n")
        print("so no broken file is tried here")
        return 0
    from ..ros2_control.conversion import converted
    from ..ros2_control.listing import Refused

    count, wrong = 0, []
    with tempfile.TemporaryDirectory() as folder:
        for urdf in sorted(FOLDER.glob("*.urdf")):
            yaml = urdf.with_suffix(".yaml")
            for ending, variants in (("urdf", broken.broken_urdf(urdf)), ("yaml", broken.broken_yaml(yaml))):
                tried, found = try_file(Path(folder), urdf.stem, ending, variants, converted, Refused)
                count += tried
                wrong += found
    print(*wrong, sep="\n", end="\n" * bool(wrong))
    print(f"{count - len(wrong)} of {count} broken files are refused at their place, of at least {FEWEST}")
    return bool(wrong) or count < FEWEST
