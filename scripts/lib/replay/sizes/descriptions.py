"""The documents of a size that has to do with a description: a count of its parts, or a number in it."""

from ...documents import KINDS, activated, component, controller, every, group, head, joint, listed, named
from .parts import (
    CLAIMS_OF_ONE,
    COMMANDS,
    CYCLES,
    DECIMALS,
    JOINTS,
    RATE,
    STATES,
    Case,
    arm,
    case,
    of_joints,
    of_type,
)


def components(size):
    names = named("c", size)
    parts = [component(name, [joint(f"j{k}", KINDS, KINDS)]) for k, name in enumerate(names)]
    moves = every("hw {} inactive", names[-1:])
    return case(head() + "".join(parts), ["session a", "list components", "list interfaces", *moves, "list interfaces"])


def failing_components(size):
    """Half of them cannot be read in cycle 1, half cannot be written; a mock of each that uses it is stopped."""
    parts = [component(f"c{k}", [joint(f"j{k}")], f"fail_{('read', 'write')[k % 2]} = [1]\n") for k in range(size)]
    mocks = [controller(f"m{k}", "mock", reads=[f"j{k}/position"]) for k in range(size)]
    back = every("hw {} active", named("c", size)[-1:])
    lines = [*activated(named("m", size)), "await 2", "list controllers", "list components", *back, "list interfaces"]
    return case(head(5) + "".join(parts + mocks), lines)


def joints(size):
    return case(head() + arm(size), ["session a", "list interfaces", "list components"])


def states(size, joints=JOINTS):
    parts = [joint(f"j{k}", (), KINDS[: max(0, min(3, size - 3 * k))]) for k in range(joints)]
    reader = controller("b", "broadcaster", more='reads = "all"\n')
    return case(head() + component("arm", parts) + reader, [*activated(["b"]), "list interfaces"])


def commands(size, joints=JOINTS):
    parts = [joint(f"j{k}", KINDS[: max(0, min(3, size - 3 * k))], ()) for k in range(joints)]
    return case(head() + component("arm", parts), ["session a", "list interfaces"])


def controllers(size):
    """All are loaded, are active, and are updated together."""
    names = named("c", size)
    parts = [
        controller(name, "mock") if k % 2 else controller(name, "broadcaster", reads=[]) for k, name in enumerate(names)
    ]
    return case(head() + "".join(parts), [*activated(names), "list controllers"])


def stopped_controllers(size):
    parts = [controller(f"c{k}", "mock" if k % 2 else "broadcaster", reads=["j0/position"]) for k in range(size)]
    failing = component("arm", [joint("j0")], "fail_read = [1]\n")
    return case(head() + failing + "".join(parts), [*activated(named("c", size)), "await 2", "list controllers"])


def failing_controllers(size):
    parts = [controller(f"m{k}", "mock", more="fail_update = [1]\n") for k in range(size)]
    return case(head() + "".join(parts), [*activated(named("m", size)), "await 2", "list controllers"])


def chained_controllers(size):
    """Pids and passthroughs by turns, each above the one before it, so that there are blanks for all."""
    claims = ["j0/position", *every("c{}/j0/position", range(size))]
    parts = [
        controller(f"c{k}", "passthrough", [claims[k]])
        if k % 2
        else controller(f"c{k}", "pid", [claims[k]], ["j0/position"], "kp = 1\n")
        for k in range(size)
    ]
    lines = [
        *activated(named("c", size)),
        "list controllers",
        "list interfaces",
        "switch best -c0",
        "switch strict -c0",
    ]
    return case(head(5) + arm() + "".join(parts), lines)


def leaders(size):
    """Forwards that claim one reference each of one passthrough."""
    parts = [
        controller("p", "passthrough", of_joints(size)),
        *(controller(f"f{k}", "forward", [f"p/j{k}/position"]) for k in range(size)),
    ]
    lines = [
        *activated(["p", *named("f", size)]),
        *every("send {} 0.5", named("f", size)[-1:]),
        "switch best -p",
        "switch strict -p",
    ]
    return case(head(5) + arm(JOINTS) + "".join(parts), lines)


def references(size):
    """Passthroughs of as many references as one may have, each above the one before it."""
    parts, below = [], of_joints(CLAIMS_OF_ONE)
    for first in range(0, size, CLAIMS_OF_ONE):
        claims = below[: size - first]
        parts.append(controller(f"p{len(parts)}", "passthrough", claims))
        below = [f"p{len(parts) - 1}/{'/'.join(it.split('/')[-2:])}" for it in claims]
    return case(head() + arm(JOINTS) + "".join(parts), [*activated(named("p", len(parts)), "best"), "list interfaces"])


def claims(size):
    """Forwards of as many claims as one may have, two of each kind of interface: one of them can be active."""
    wanted = [of_joints(COMMANDS)[k % COMMANDS] for k in range(size)]
    parts = [
        controller(f"f{k // CLAIMS_OF_ONE}", "forward", wanted[k : k + CLAIMS_OF_ONE])
        for k in range(0, size, CLAIMS_OF_ONE)
    ]
    return case(
        head() + arm(JOINTS, KINDS) + "".join(parts), [*activated(named("f", len(parts)), "best"), "list interfaces"]
    )


def claims_of_one(kind, size):
    mail = {"trajectory": "@5000 " + "0.5 " * size, "mock": "-0.5 " * size}.get(kind, "0.000001 " * size)
    described = head() + arm(JOINTS, KINDS[:2], KINDS[:2]) + of_type(kind, "x", size)
    return case(
        described, [*activated(["x"]), *([f"send x {mail}"] if 0 < size <= CLAIMS_OF_ONE else []), "list interfaces"]
    )


def reads(size):
    parts = [
        controller(f"b{k // STATES}", "broadcaster", reads=of_joints(min(size - k, STATES)))
        for k in range(0, size, STATES)
    ]
    return case(head() + arm(JOINTS, (), KINDS) + "".join(parts), activated(named("b", len(parts))))


def fallbacks(size):
    """A mock that names others, all configured, and whose update fails in cycle 1."""
    names = named("m", size)
    failing = controller("x", "mock", more=listed("fallback", names) + "fail_update = [1]\n")
    ready = [line for name in ["x", *names] for line in (f"load {name}", f"configure {name}")]
    lines = ["session a", *ready, "switch strict +x", "await 3", "list controllers"]
    return case(head(4) + failing + "".join(controller(name, "mock") for name in names), lines)


def manager_rate(size):
    pid = controller("p", "pid", ["j0/position"], ["j0/position"], "kp = 1\nki = 1\nkd = 1\nimax = 5\n")
    return case(head(4, size) + arm() + pid, [*activated(["p"]), "send p 0.5"])


def described_rate(size):
    return case(
        head(4, RATE) + controller("m", "mock", more=f"update_rate = {size}\n"), [*activated(["m"]), "list controllers"]
    )


def cycles(size):
    return case(head(size), ["session a", f"await {size}", "list controllers"])


def cycle_of_failures(size):
    failing = component("arm", [joint("j0")], f"fail_read = [{size}]\nfail_write = [{size + 1}]\n")
    mock = controller("m", "mock", more=f"not_ready = [0, {size}]\nfail_update = [{size + 1}]\n")
    lines = [
        "session a",
        "load m",
        "configure m",
        f"await {size}",
        "switch strict +m",
        "switch strict +m",
        "list components",
    ]
    return case(head(min(size + 3, CYCLES)) + failing + mock, lines)


def version(size):
    return case(head().replace("version = 1", f"version = {size}"))


def of_second(described):
    return described.replace("version = 1", "version = 2", 1)


def in_second(make, size, **more):
    """What is made of this size, as a document of the second version."""
    made = make(size, **more)
    made.text = of_second(made.text)
    return made


def groups(size):
    return case(of_second(head()) + controller("m", "mock") + "".join(group(name, ["m"]) for name in named("g", size)))


def members(size):
    names = named("m", size)
    return case(of_second(head()) + "".join(controller(name, "mock") for name in names) + group("g", names))


def quantity(key, size):
    """A joint that has it, and a controller; where it may, another with the opposite."""
    pid = key in ("kp", "ki", "kd", "imax", "omax")
    may_be_negative = key not in ("vmax", "gain", "damping", "imax", "omax")
    values = [size, -size if may_be_negative else size]
    more = ["" if pid else f"{key} = {it}\n" for it in values]
    parts = [joint(f"j{k}", more=it if key == "vmax" else f"vmax = 1\n{it}") for k, it in enumerate(more)]
    pids = [
        controller(f"p{k}", "pid", [f"j{k}/position"], [f"j{k}/position"], f"{key} = {values[k]}\n" if pid else "")
        for k in range(2)
    ]
    return case(
        head() + component("arm", parts) + "".join(pids), [*activated(["p0", "p1"]), "send p0 0.5", "send p1 -0.5"]
    )


def decimals(size):
    value = "0." + "1" * size if size else "1"
    described = head() + component("arm", [joint("j0", more=f'vmax = "{value}"\n')]) + of_type("forward", "f")
    return case(described, [*activated(["f"]), f"send f -{value if size <= DECIMALS else 0}", "list interfaces"])


def whole(key, size):
    if key.startswith("fail_") and key != "fail_update":
        return case(head() + component("arm", [joint("j0")], f"{key} = [{size}]\n"))
    return case(head() + controller("m", "mock", more=f"{key} = [{size}]\n"), [*activated(["m"]), "list controllers"])


def listed_cycles(key, size):
    """As many numbers, of which none is a cycle of the run."""
    numbers = f"{key} = [{'7,' * size}]\n"
    if key in ("fail_read", "fail_write"):
        return case(head() + component("arm", [joint("j0")], numbers))
    return case(head() + controller("m", "mock", more=numbers), activated(["m"]))


def names_in_a_description(what, size):
    """One of the names is so long, or all of them are."""
    names = {
        it: it[0] * (size if what in (it, "all") else 1)
        for it in ("component", "joint", "passthrough", "forward", "session")
    }
    part, whose, above, below, who = names.values()
    described = head(4) + component(part, [joint(whose)]) + controller(above, "passthrough", [f"{whose}/position"])
    described += controller(below, "forward", [f"{above}/{whose}/position"])
    lines = [*activated([above, below]), f"send {below} 1", "list controllers", "list interfaces", "list components"]
    lines += [
        f"hw {part} inactive",
        f"switch strict -{above}",
        f"switch best -{below} -{above}",
        f"switch best +{below} -nosuch",
    ]
    return case(described, [f"session {who}", *lines[1:]])


def key(size):
    return Case("k" * size + " = 1\n" + head(), fault="description: bad_key " + "k" * size)


def nested_arrays(size):
    return Case(f"k = {'[' * size}{']' * size}\n" + head(), fault="description: bad_key k")


def document_bytes(size):
    """A comment in the description and one in the script, or as much of a comment as there is room for."""
    made = case(head() + "#\n", ["#"])
    room = size - len(made.text)
    if room < 0:
        return Case("#" * size, fault="description: bad_key version")
    made.text = made.text.replace("#", "#" * (1 + room // 2), 1)[:-1] + "#" * (room - room // 2) + "\n"
    return made
