"""The parts of which documents are made: a description's tables, and a script's lines."""

SEPARATOR = "--- script ---\n"
KINDS = ("position", "velocity", "effort")
MADE_JOINTS = 8  # of the made document


def head(cycles=3, rate=100):
    return f"version = 1\nupdate_rate = {rate}\ncycles = {cycles}\n"


def quoted(texts):
    return [f'"{it}"' for it in texts]


def listed(key, texts):
    return f"{key} = [{', '.join(quoted(texts))}]\n"


def joint(name, command=KINDS[:1], state=KINDS[:1], more="vmax = 1\n"):
    return f'[[component.joint]]\nname = "{name}"\n{more}{listed("command", command)}{listed("state", state)}'


def component(name, joints, more=""):
    return f'[[component]]\nname = "{name}"\nkind = "system"\n{more}' + ("".join(joints) or "joint = []\n")


def controller(name, kind, claims=None, reads=None, more=""):
    lists = [listed(key, texts) for key, texts in (("claims", claims), ("reads", reads)) if texts is not None]
    return f'[[controller]]\nname = "{name}"\ntype = "{kind}"\n' + "".join(lists) + more


def group(name, members):
    return f'[[group]]\nname = "{name}"\n' + listed("members", members)


def document(described, script):
    """A description with a script of these lines."""
    return "".join([described, SEPARATOR, *(f"{line}\n" for line in script)])


def named(letter, count):
    return [f"{letter}{k}" for k in range(count)]


def every(line, names):
    return [line.format(name) for name in names]


def activated(names, how="strict"):
    """The lines of a script that loads these, configures them and switches them on together."""
    return [
        "session a",
        *every("load {}", names),
        *every("configure {}", names),
        f"switch {how} " + " ".join(every("+{}", names)),
    ]


def made(rounds):
    """The made document of so many rounds, as docs/TRACE.md has it."""
    joints, forwards = named("j", MADE_JOINTS), named("f", MADE_JOINTS)
    described = head(10 * rounds) + component("sys", map(joint, joints))
    described += "".join(controller(name, "forward", [f"{moved}/position"]) for name, moved in zip(forwards, joints))
    lines = activated(forwards)
    for k in range(1, rounds + 1):
        one, other = forwards[k % MADE_JOINTS], forwards[(k + 1) % MADE_JOINTS]
        lines += [f"send {one} 0.{37 * k % 100:02}", f"switch strict -{other}", f"switch strict +{other}"]
        lines.append(f"await {10 * k}")
    return document(described, lines)
