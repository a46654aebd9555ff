"""The document: a description of the robot, and a script that brings its controllers up and moves it."""

from textwrap import wrap

from .listing import plain
from .motion import MICROSECONDS, Motion
from .quantities import MOST_UNITS, rounded_down, toml_text

WIDEST = 120  # columns of a comment or a list
SESSION = "operator"


def document(robot, linked, found, rate, cycles, names):
    """Returns the text of the document. `found` says who is switched on, and `names` are those of both files."""
    head = comment(
        f"Made by scripts/from_ros2_control of {plain(names[0])} and {plain(names[1])}. What these files "
        "say, and this document does not, stood on standard error."
    )
    parts = [f"{head}\nversion = 1\nupdate_rate = {rate}\ncycles = {cycles}"]
    parts += [component(it) for it in robot.components]
    parts += [controller(it, linked) for it in linked.controllers]
    return "\n\n".join(parts) + "\n--- script ---\n" + script(robot, linked, found, rate, cycles, names)


def comment(text):
    return "\n".join(wrap(text, WIDEST, initial_indent="# ", subsequent_indent="# ", break_on_hyphens=False))


def component(it):
    lines = ["[[component]]", f'name = "{it.name}"', f'kind = "{it.kind}"']
    if it.initial != "active":
        lines.append(f'initial = "{it.initial}"')
    return "\n\n".join(["\n".join(lines), *(joint(one) for one in it.joints)])


def joint(it):
    vmax = MOST_UNITS if it.limits.velocity is None else toml_text(of_actuator(it.limits.velocity, it))
    lines = ["[[component.joint]]", f'name = "{it.name}"', f"vmax = {vmax}"]
    begins = (("position", of_actuator(it.position - it.offset, it)), ("velocity", of_actuator(it.velocity, it)))
    lines += [f"{key} = {toml_text(value)}" for key, value in begins if value]
    lines += [listed(key, kinds) for key, kinds in (("command", it.command), ("state", it.state)) if kinds]
    return "\n".join(lines)


def of_actuator(value, joint):
    """Returns what is described of an actuator for this of its joint, with no more than six decimals."""
    return value if joint.turns == 1 else min(rounded_down(value * joint.turns), MOST_UNITS)


def controller(it, linked):
    lines = ["[[controller]]", f'name = "{it.name}"', f'type = "{it.kind}"']
    if it.rate:
        lines.append(f"update_rate = {it.rate}")
    if it.stand_ins:
        lines.append(listed("fallback", it.stand_ins))
    claims, reads = linked.claims[it.name], linked.reads[it.name]
    if claims:
        lines.append(listed("claims", (claim.text() for claim in claims)))
    if reads is None:
        lines.append('reads = "all"')
    elif reads:
        lines.append(listed("reads", (read.text() for read in reads)))
    return "\n".join([*lines, *(f"{key} = {toml_text(value)}" for key, value in it.numbers.items())])


def listed(key, items):
    items = [f'"{item}"' for item in items]
    line = f"{key} = [{', '.join(items)}]"
    if len(line) <= WIDEST:
        return line
    indent = "    "
    lines = wrap(
        ", ".join(items) + ",",
        WIDEST,
        initial_indent=indent,
        subsequent_indent=indent,
        break_long_words=False,
        break_on_hyphens=False,
    )
    return "\n".join([f"{key} = [", *lines, "]"])


def script(robot, linked, found, rate, cycles, names):
    lines = [f"session {SESSION}"]
    lines += [f"load {it.name}" for it in linked.controllers]
    lines += [f"configure {it.name}" for it in linked.controllers]
    woken = [it for it in robot.components if it.initial != "active"]
    if woken:
        lines.append(comment("Made up: the components that do not start active are brought up first."))
        lines += [f"hw {it.name} active" for it in woken]
    lines += resting(linked, found)
    if found.active:
        lines.append(
            comment(
                "One request for all: it is done whole or not at all, and those that are led come on "
                "before those that lead."
            )
        )
        lines.append("switch strict " + " ".join(f"+{it.name}" for it in found.active))
    begun = len(woken) + 2
    lines += [f"await {begun}", "list controllers", "list interfaces"]
    return "\n".join([*lines, *moves(linked, found, rate, cycles, begun, names)]) + "\n"


def resting(linked, found):
    """Returns comments on those that are not switched on."""
    lines = []
    for it in linked.controllers:
        if it.name in found.resting:
            joint_name, user = found.resting[it.name]
            why = "it has two commands for" if user == it.name else f"{user} has"
            lines.append(comment(f"{it.name} stays inactive, because {why} {joint_name}."))
    return lines


def moves(linked, found, rate, cycles, begun, names):
    motion = Motion(cycles - begun, MICROSECONDS // rate)
    leaders = [it for it in found.active if linked.claims[it.name] and not found.is_led(it)]
    if not leaders or not motion.is_long_enough():
        why = "there are too few cycles" if leaders else "no controller is active that commands a joint"
        return [comment(f"Nothing moves: {why}.")]
    lines = [
        comment(
            f"Made up from the limits in {plain(names[0])}: each joint goes out and back. A position is half "
            "the way to the joint's farther limit, or as far as half its velocity takes it; a velocity is "
            "half of what it may have; an effort is 1 at most."
        )
    ]
    later = []
    for it in leaders:
        claims = linked.claims[it.name]
        if it.kind == "trajectory":
            lines.append(f"send {it.name} {motion.points(claims)}")
        else:
            out, back = motion.values(claims)
            lines.append(f"send {it.name} {out}")
            later.append(f"send {it.name} {back}")
    return [*lines, *([f"await {begun + motion.out() + motion.rest()}", *later] if later else [])]
