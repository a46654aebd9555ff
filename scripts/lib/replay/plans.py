"""Answers: do planned scripts do what they are for?

Every set of at most four of the controllers below is planned, in both orders. If a script comes, the document that it
makes is run, and at the end of the script exactly the wanted controllers must be active. If the plan says never, each
order of their loads is tried, with a strict switch and with one of best effort, and in none are exactly they active.
Another implementation, if one is named, plans each set too. Prints how many sets were planned, and last `N passed, M
failed`. The exit status is 1 if one failed.
"""

import itertools
import os
from concurrent.futures import ThreadPoolExecutor

from ..documents import SEPARATOR
from ..tool import Tally
from . import programs
from .other import PLANNED, judge, other_option

MOST = 4  # controllers that are wanted together

ROBOT = """\
version = 1
update_rate = 100
cycles = 6
component = [{ name = "arm", kind = "system", fail_read = [5], joint = [
    { name = "j1", vmax = 1, command = ["position", "velocity"], state = ["position", "velocity"] },
] }]
controller = [
    { name = "fwd", type = "forward", claims = ["j1/position"] },
    { name = "pid", type = "pid", claims = ["j1/velocity"], reads = ["j1/position"], kp = 2, omax = 10 },
    { name = "traj", type = "trajectory", claims = ["pid/j1/position"], reads = ["j1/position"] },
    { name = "traj2", type = "trajectory", claims = ["j1/position"], reads = ["j1/position"] },
    { name = "jsb", type = "broadcaster", reads = "all" },
    { name = "mk", type = "mock", not_ready = [0, 2], fail_update = [5] },
    { name = "late", type = "mock", not_ready = [0, 1, 3] },
    { name = "pt", type = "passthrough", claims = ["pid/j1/position"] },
]
"""
NAMES = ("fwd", "pid", "traj", "traj2", "jsb", "mk", "late", "pt")


def options(parser):
    other_option(parser, "which plans each set too")
    programs.options(parser)


def document(script):
    return (ROBOT + SEPARATOR + script).encode()


def wish(wanted):
    return document("session me\nswitch strict" + "".join(f" +{name}" for name in wanted) + "\n")


def active(printed, session):
    """The controllers that are active in the last list of a session."""
    lines = [line for line in printed.decode().splitlines() if line.startswith(f"{session} list controllers: ")]
    items = lines[-1].partition(": ")[2].split("; ")
    return {item.split()[0] for item in items if len(item.split()) > 2 and item.split()[2] == "active"}


def active_after(program, script):
    """Which controllers are active behind the lines of a script, or none if its run is refused."""
    came = programs.came([program, "run"], document(script + "list controllers\n"))
    return active(came.printed, script.split()[1]) if came.status == 0 else None


def tried(wanted):
    """Scripts that load these in every order, and then ask for all of them at once."""
    names = "".join(f" +{name}" for name in wanted)
    for order in itertools.permutations(wanted):
        calls = "".join(f"load {name}\n" for name in order) + "".join(f"configure {name}\n" for name in order)
        for kind, cycle in itertools.product(("strict", "best"), (0, 1, 4)):
            yield f"session a\n{calls}await {cycle}\nswitch {kind}{names}\n"


def reason(program, disagreement, wanted):
    """What is wrong with how this set is planned, or None."""
    came = programs.ran([program, "plan"], wish(wanted))
    if disagreement and (why := disagreement(wish(wanted), ["plan"], PLANNED, *came)):
        return why
    status, printed, told = came
    if status == 0:
        there = active_after(program, printed.decode())
        return None if there == set(wanted) else f"active are {there}"
    if status != 10 or printed:
        return f"status {status}: {told!r}"
    if told.startswith(b"cm: plan: never "):
        for script in tried(wanted):
            if active_after(program, script) == set(wanted):
                return f"never, though they are active behind {script!r}"
    return None


def main(asked):
    program, disagreement, tally = programs.program(asked), judge(asked.other), Tally(tells_all=False)
    sets = [wanted for count in range(MOST + 1) for wanted in itertools.combinations(NAMES, count)]
    orders = [order for wanted in sets for order in sorted({wanted, wanted[::-1]})]
    with ThreadPoolExecutor(os.cpu_count()) as pool:
        reasons = pool.map(lambda order: reason(program, disagreement, order), orders)
        for order, why in zip(orders, reasons):
            tally.tell(" ".join(order) or "nobody", why)
    return tally.end()
