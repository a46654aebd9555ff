"""The documents of a size that has to do with a script, or with the words: a count of lines or words, or a number in a
line.
"""

from ...documents import activated, controller, every, head, named
from .parts import (
    BLANKS,
    CLAIMS_OF_ONE,
    CONTROLLERS,
    JOINTS,
    RATE,
    ROUNDS,
    TYPES,
    WAITING,
    Case,
    arm,
    case,
    of_type,
)

MOCK = controller("m", "mock")
FORWARD = arm() + of_type("forward", "f")
TRAJECTORY = arm() + of_type("trajectory", "t")


def line_bytes(size):
    return case(head(), ["session a", "list" + " " * (size - 15) + "controllers"])


def comment_bytes(size):
    return case(head(), ["session a", "list controllers", "#" * size])


def digits(size):
    return case(head(), ["session a", "await " + "0" * (size - 1) + "3" * bool(size)])


def digits_of_a_value(size):
    return case(head() + FORWARD, [*activated(["f"]), "send f " + "0" * (size - 1) + "3"])


def sessions(size):
    parts = [controller(f"m{k}", "mock") for k in range(size)]
    lines = []
    for k in range(size):
        lines += [
            f"session s{k}",
            f"load m{k}",
            f"configure m{k}",
            f"await {k}",
            f"switch strict +m{k}",
            "list controllers",
        ]
    return case(head(size + 2) + "".join(parts), lines)


def waiting_requests(size):
    """As many as may wait are queued, and those of further sessions are refused."""
    refused = max(0, size - WAITING)
    own = [[f"session s{k}", "switch best " + "+m " * (k + 1), "switch strict"] for k in range(size)]
    return case(
        head(size + 2) + MOCK, [line for lines in own for line in lines], 2 * refused, {"queue_full": 2 * refused}
    )


def calls(size):
    return case(head(), ["session a", *["list controllers"] * size] if size else [])


def calls_and_turns(share, size):
    """A schedule whose steps make some of the calls, and a session that has so large a share of both."""
    made = int(size * share)
    turns = ["begin", "step a", "end", "step a"]
    lines = ["session a", *["list components"] * made, "schedule", *(turns[k % 4] for k in range(size - made))]
    return case(head(size - made), lines, words=("steps",))


def ticket(size):
    return case(head(size), ["session a", *["switch strict"] * size])


def moves(size):
    return case(head(size) + arm(), ["session a", *(f"hw arm {('inactive', 'active')[k % 2]}" for k in range(size))])


def serial(size):
    """Loads until no blank is left of any type, each unloaded before the next."""
    parts = [of_type(kind, f"x{k}") for k, kind in enumerate(TYPES)]
    own = [[f"load x{k % len(TYPES)}", "list controllers", f"unload x{k % len(TYPES)}"] for k in range(size)]
    return case(head() + arm(2) + "".join(parts), ["session a", *(line for lines in own for line in lines)])


def blanks(kind, size):
    names = named("x", size)
    out = max(0, size - BLANKS)
    parts = "".join(of_type(kind, name) for name in names)
    return case(
        head() + arm(2) + parts, ["session a", *every("load {}", names), "list controllers"], told={"stock_empty": out}
    )


def unknown_names(size):
    words = [f"{'+-'[k % 2]}x{k}" for k in range(size)]
    return case(head(), ["session a", f"switch best {' '.join(words)}"])


def conflicts(size):
    """One joins, and each of the others claims what it has."""
    names = named("f", min(size, BLANKS))
    words = [f"+{names[k % BLANKS]}" for k in range(size)]
    parts = "".join(of_type("forward", name) for name in names)
    return case(head() + arm() + parts, [*activated(names)[:-1], f"switch best {' '.join(words)}"])


def restarts(how, size):
    """Half of the names to deactivate, and the same to activate."""
    names = named("m", CONTROLLERS // 2)
    words = [f"-m{k % len(names)}" for k in range(size // 2)] + [f"+m{k % len(names)}" for k in range(size - size // 2)]
    parts = "".join(controller(name, "mock") for name in names)
    return case(head() + parts, [*activated(names), f"switch {how} {' '.join(words)}"])


def points(size):
    return case(
        head(3, 1) + TRAJECTORY,
        [*activated(["t"]), "send t " + " ".join(f"@{50_000 * (k + 1)} 0.{k}" for k in range(size))],
    )


def values(size):
    described = head() + arm(JOINTS) + of_type("forward", "f", min(max(size, 1), CLAIMS_OF_ONE))
    return case(described, [*activated(["f"]), "send f " + "0.5 " * size])


def values_of_a_point(size):
    described = head() + arm(JOINTS) + of_type("trajectory", "t", min(max(size, 1), CLAIMS_OF_ONE))
    return case(described, [*activated(["t"]), "send t @5000 " + "0.5 " * size])


def rate(size):
    return case(
        head(4, RATE) + MOCK, ["session a", "load m", "rate m 5", "configure m", "list controllers", f"rate m {size}"]
    )


def rate_in_use(size):
    lines = ["session a", "load m", f"rate m {size}", "configure m", "switch strict +m", "list controllers"]
    return case(head(4, RATE) + MOCK, lines)


def await_of(size):
    return case(head(), ["session a", f"await {size}"])


def time_of_a_point(size):
    return case(head(3, 1) + TRAJECTORY, [*activated(["t"]), f"send t @{size} 0.5"])


def value(sign, size):
    return case(head() + FORWARD, [*activated(["f"]), "list interfaces", f"send f {sign}{size}"])


def rounds(size):
    made = 10 * min(size, ROUNDS)
    return Case("", 4 + 8, {f"cycles {made}": 1}, cycles=made, words=("run", "--make", str(size)))


def digits_of_rounds(size):
    return Case("", 4 + 8, {"cycles 10": 1}, words=("run", "--make", "1".zfill(size) if size else ""))
