"""Answers: does the prover refuse wrong bodies?

Each file of scripts/wrong_bodies/CRATE turns one body of that crate, few turn several. On a copy each stands beside the
function that it turns, and all of a crate are asked for in one check, over what `rt lib` or `rt ci` left in the folders
`out`. Of the functions that it calls the contracts alone count, so their bodies and proofs are left open. A body is
refused if a goal of its contract does not hold. A method of a trait cannot stand twice, so it is turned where it
stands, and a second turn of it takes a second check. Prints a line an edit, and last how many passed, because they are
refused, and how many failed. The exit status is 1 if one failed.
"""

import shutil
import subprocess
import tempfile
from concurrent.futures import ThreadPoolExecutor
from pathlib import Path

from ..copies import copy_of
from ..edits import BODIES
from ..kit import crate, guard, has_verdict, kit
from .planted import PlantedCrate, WrongBody, verdict

BYTES_A_CHECK = 4_000_000_000  # that of cm_top takes as much


def options(parser):
    parser.add_argument("--gate", action="store_true", help="those alone that have a line `# tried by the gate`")
    parser.add_argument("wanted", nargs="*", metavar="CRATE[/EDIT]", help="those alone of a crate, or one of them")


def try_one_by_one(edits):
    """Tries these with `rt must-fail`, and tells what it said of each."""
    name = edits[0].crate
    with copy_of(name) as copy:
        for it in Path(copy, "crates").iterdir():
            it.joinpath("out").unlink(missing_ok=True)
        for edit in edits:
            folder = Path(copy) / "crates" / name / "must-fail"
            shutil.rmtree(folder, ignore_errors=True)
            folder.mkdir()
            shutil.copy(edit.path, folder)
            ran = subprocess.run(
                ["rt", "must-fail", name], cwd=copy, stdout=subprocess.PIPE, stderr=subprocess.STDOUT, text=True
            )
            yield edit, ran.returncode == 0, "by rt must-fail: " + ran.stdout.strip().split("\n")[-1]


def try_planted(name, edits, jobs, alone=False):
    """Tries these in one check, and gives those that it could not plant to others."""
    with copy_of(name) as copy, tempfile.TemporaryDirectory() as kept:
        planted = PlantedCrate(Path(copy), name)
        planted.plant(edits, alone)
        said = planted.check(kept, jobs) if planted.asked else ""
    asked = [*planted.asked]
    if not asked or has_verdict(said):
        for edit, names in planted.asked.items():
            yield edit, *verdict(names, said)
    elif len(asked) == 1:
        yield asked[0], False, "no verdict: " + " | ".join(it for it in said.split("\n") if "error" in it)[:1000]
    else:
        # One that does not compile takes the others' verdicts.
        yield from try_planted(name, asked[: len(asked) // 2], jobs)
        yield from try_planted(name, asked[len(asked) // 2 :], jobs)
    if planted.later:
        yield from try_planted(name, planted.later, jobs)
    for edit in planted.alone:
        (told,) = try_planted(name, [edit], jobs, alone=True)
        # Where definitions cite the constant too, the rows that pin them refuse it, and not a function.
        yield from [told] if told[1] else try_one_by_one([edit])
    if planted.others:
        yield from try_one_by_one(planted.others)


def try_all(name, edits, jobs):
    """Tries the edits of a crate, prints a line each, and returns of each whether it is refused."""
    told = [*try_planted(name, edits, jobs)]
    print("".join(f"{edit.title}: {why}\n" for edit, _, why in told), end="", flush=True)
    return [refused for _, refused, _ in told]


def wanted(words, is_gate):
    """The edits that the words ask for, by crate: what stands highest takes longest to read and to ask, so it comes
    first.
    """
    crates = {}
    for word in words or sorted(it.name for it in BODIES.iterdir()):
        name, _, title = word.partition("/")
        edits = [WrongBody(it) for it in sorted((BODIES / name).glob(f"{title or '*'}.edit"))]
        crates.setdefault(name, []).extend(it for it in edits if it.is_of_gate or not is_gate)
    below = {name: len(crate(name).below()) for name in crates}
    return {name: crates[name] for name in sorted(crates, key=below.get, reverse=True) if crates[name]}


def side_by_side(crates):
    """How many crates are tried at one time."""
    free = 1024 * kit().number_in("/proc/meminfo", r"MemAvailable:\s+(\d+)")
    return max(min(len(crates), kit().cores(), free // BYTES_A_CHECK), 1)


def main(asked):
    guard()
    crates = wanted(asked.wanted, asked.gate)
    at_once = side_by_side(crates)
    with ThreadPoolExecutor(at_once) as pool:
        tried = pool.map(lambda it: try_all(*it, jobs=1 if at_once > 1 else 2), crates.items())
        refused = [it for of_crate in tried for it in of_crate]
    print(f"{sum(refused)} passed, {len(refused) - sum(refused)} failed")
    return 0 if all(refused) else 1
