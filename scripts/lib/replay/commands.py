"""Answers: do README's first commands do what it says of them? Nothing that they run is proved.

`./try run < examples/switch.cm` is to print the example's trace, and `./try draw < examples/failures.cm` the picture.
The first of them may say in one line on standard error that it compiles. The second command says nothing. Neither
program was compiled over the whole kit, which takes minutes: else the list of the kit's sources went stale
(`scripts/build reached`). Then each command, and each tool of scripts, helps who asks for it. Last come lines for a
shell, each with what it prints and tells: over links to the commands, a folder in place of a document, wrong words and
the like. Prints a line for each, and last `N passed, M failed`. The exit status is 1 if one failed.
"""

import tempfile
from pathlib import Path

from ..build.shorter_kit import LIST
from ..build.unproved import PROGRAMS, whole_kit_note
from ..documents import SEPARATOR
from ..tool import Tally
from ..tree import TOP
from . import programs

ANSWERS = (
    ("run", "examples/switch.cm", "examples/switch.cm.stdout", 1),
    ("draw", "examples/failures.cm", "docs/pictures/failures.svg", 0),
)
COMMANDS = ("cm", "try", "draw", "spawn", "test")
LINES_OF_HELP = 15

LINKED = ("cm", "try", "draw", "spawn")
# TOML 1.1 behind a byte order mark: line feeds stand in an inline table. Its mock is never ready.
NEVER_READY = b"""\xef\xbb\xbfversion = 1
update_rate = 100
cycles = 2
controller = [{
    name = "mk", type = "mock", not_ready = [0, 1],
}]
"""
WHY_NEVER = "cm: plan: no_cycle\nspawn: mk is not ready in the cycles 0, 1\nspawn: the run has 2 cycles\n"
# Lines for a shell that print nothing, each with its status and what it tells on standard error. {at} is a folder with
# links to the commands, with this description, and with the script of the first document above.
FAULTS = (
    ("./try run < scripts", 5, "cm: read fault\n"),
    ("./try draw < scripts", 5, "cm: read fault\n"),
    ("CM=./try ./spawn {at}/never_ready +mk", 10, WHY_NEVER),
    ("CM=./none ./spawn {at}/never_ready +mk", 1, "spawn: ./none: No such file or directory\n"),
    *(
        (f"CM=./try ./spawn {{at}}/never_ready {word}", 2, f"spawn: {word} is no +NAME of a controller\n")
        for word in ("+1a", "+@motion", "mk", f"+{'k' * 65}")
    ),
)
# Lines that tell nothing and end well, each with another line that prints the same.
SAME = (
    ("./try -h", "scripts/help try"),
    ("./try --help", "scripts/help try"),
    ("./try draw -h", "scripts/help draw"),
    ("./try draw --help", "scripts/help draw"),
    ("{at}/cm -h", "scripts/help cm"),
    ("{at}/draw -h", "scripts/help draw"),
    ("{at}/try run < examples/switch.cm", "cat examples/switch.cm.stdout"),
    ("CM={at}/try {at}/spawn examples/chain.cm +traj +pid", "CM=./try ./spawn examples/chain.cm +traj +pid"),
    ("CM=./try scripts/check_trace examples/switch.cm {at}/script examples/switch.cm.stdout", "echo legal"),
)


def reason(word, document, expected, lines):
    """Returns what is wrong with the command's answer, or None. It may say so many lines on standard error."""
    status, output, said = programs.ran([TOP / "try", word], (TOP / document).read_bytes())
    is_so = status == 0 and output == (TOP / expected).read_bytes() and said.count(b"\n") <= lines
    return None if is_so else f"status {status}, and {said[:300].decode(errors='replace')}"


def is_stale(name):
    """Returns what is wrong if the program had to be compiled over the whole kit, or None."""
    return "scripts/build reached makes it anew" if whole_kit_note(name).exists() else None


def lacks_help(command):
    """Whoever asks for help gets a usage line and up to fourteen more on standard output."""
    status, output, said = programs.ran([TOP / command, "--help"])
    is_so = (
        status == 0 and not said and f"usage: ./{command}".encode() in output and output.count(b"\n") <= LINES_OF_HELP
    )
    return None if is_so else "it does not help"


def tool_lacks_help(tool):
    status, output, said = programs.ran([tool, "--help"])
    return None if status == 0 and output and not said else "it does not help"


def fill(at):
    """Puts into the folder what the lines use."""
    for command in LINKED:
        (at / command).symlink_to(TOP / command)
    (at / "never_ready").write_bytes(NEVER_READY)
    (at / "script").write_text((TOP / ANSWERS[0][1]).read_text().partition(SEPARATOR)[2])


def differs(line, wanted):
    """Returns what is wrong with the status, the output and the standard error of a line, or None."""
    came = programs.ran(["sh", "-c", line])
    return None if came == wanted else f"it comes to {str(came)[:300]}"


def try_lines(at, tally):
    for line, status, told in FAULTS:
        tally.tell(line, differs(line.format(at=at), (status, b"", told.encode())))
    for line, other in SAME:
        tally.tell(line, differs(line.format(at=at), (0, programs.ran(["sh", "-c", other])[1], b"")))


def main(asked):
    tally = Tally()
    for word, document, *expected in ANSWERS:
        tally.tell(f"./try {word} < {document}", reason(word, document, *expected))
    for name in PROGRAMS:
        tally.tell(f"{LIST.relative_to(TOP)} has all that {name} reaches", is_stale(name))
    for command in COMMANDS:
        tally.tell(f"./{command} --help", lacks_help(command))
    for tool in sorted(it for it in (TOP / "scripts").iterdir() if it.is_file()):
        tally.tell(f"scripts/{tool.name} --help", tool_lacks_help(tool))
    with tempfile.TemporaryDirectory() as at:
        fill(Path(at))
        try_lines(at, tally)
    return tally.end()
