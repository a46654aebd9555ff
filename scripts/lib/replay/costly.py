"""Documents that were made to cost much."""

import itertools
import string

from ..documents import SEPARATOR, head
from .traces import LONGEST

HEAD, END = head(1), SEPARATOR
COMPONENT = '[[component]]\nname = "c"\nkind = "system"\n'
JOINT = '[[component.joint]]\nname = "{}"\nvmax = 1\n'
LONG = "n" * 64
LETTERS = string.ascii_letters


def filled(head, item, tail="", bytes_=LONGEST):
    """Returns the head, as many items as there is room for, and the tail. An item is a text, or made of its number."""
    made, length, index = [head], len(head) + len(tail), 0
    while True:
        piece = item if isinstance(item, str) else item(index)
        if length + len(piece) > bytes_:
            return "".join(made) + tail
        made.append(piece)
        length += len(piece)
        index += 1


def readers(joints, readers_):
    states = 'state = ["position", "velocity", "effort"]\n'
    text = HEAD + COMPONENT + "".join(JOINT.format(f"j{i}") + states for i in range(joints))
    return (
        text + "".join(f'[[controller]]\nname="b{i}"\ntype="broadcaster"\nreads="all"\n' for i in range(readers_)) + END
    )


def controller(kind, rest):
    return f'{HEAD}[[controller]]\nname = "x"\ntype = "{kind}"\n{rest}'


def documents():
    yield "many joints and many readers", readers(3_000, 4_000)
    yield "as many joints and readers as fit", readers(6_400, 8_300)
    yield "claims", filled(controller("forward", "claims = ["), '"a/effort",', "]\n" + END)
    yield "claims of references", filled(controller("forward", "claims = ["), '"a/b/effort",', "]\n" + END)
    yield "reads", filled(controller("mock", "reads = ["), '"a/effort",', "]\n" + END)
    yield "cycles of failing reads", filled(HEAD + COMPONENT + "fail_read = [", "1,", "]\n" + JOINT.format("j") + END)
    yield "cycles before which a mock is not ready", filled(controller("mock", "not_ready = ["), "1,", "]\n" + END)
    yield "kinds of commands", filled(HEAD + COMPONENT + JOINT.format("j") + "command = [", '"effort",', "]\n" + END)
    yield "joints", filled(HEAD + COMPONENT, lambda i: JOINT.format(f"j{i}"), END)
    yield "components", filled(HEAD, lambda i: f'[[component]]\nname="c{i}"\nkind="sensor"\njoint=[]\n', END)
    yield "controllers", filled(HEAD, lambda i: f'[[controller]]\nname="m{i}"\ntype="mock"\n', END)
    yield "passthroughs in one chain", filled(
        HEAD, lambda i: f'[[controller]]\nname="p{i}"\ntype="passthrough"\nclaims=["p{i + 1}/j/effort"]\n', END
    )
    yield "joints without a key", filled(
        HEAD + 'component = [{name = "c", kind = "system", joint = [', "{},", "]}]\n" + END
    )
    yield "a name", HEAD + '[[controller]]\nname = "' + "n" * (LONGEST - 200) + '"\ntype = "mock"\n' + END
    yield "a key", "k" * (LONGEST - 200) + " = 1\n" + HEAD + END
    yield "a key of control characters", '"' + "\\u001b" * ((LONGEST - 200) // 6) + '" = 1\n' + HEAD + END
    yield "a text", HEAD + 'component = "' + "t" * (LONGEST - 200) + '"\n' + END
    yield "keys", filled(HEAD, lambda i: f"k{i}=1\n", END)
    yield "tables", filled(HEAD, lambda i: f"[t{i}]\n", END)
    yield "arrays in arrays", filled(HEAD, lambda i: f"k{i}={'[' * 75}{']' * 75}\n", END)
    yield "empty arrays", filled(HEAD + "component = [", "[],", "]\n" + END)
    yield "comments", filled(HEAD, "#\n", END)
    yield "lines of a script", filled(HEAD + END + "session a\n", "load a\n")
    yield "values of one send", filled(HEAD + END + "session a\nsend a ", "1 ", "\n", 70_000)
    yield "empty lines of a script", filled(HEAD + END, "\n")


def documents_of_small_tables():
    yield "joints of one wrong key", filled(
        HEAD + 'component = [{name = "c", kind = "system", joint = [', "{a=1},", "]}]\n" + END
    )
    yield "dotted keys", filled(HEAD, lambda i: f"k{i}{'.a' * 75}=1\n", END)


def with_cycles(count, text):
    return text.replace("cycles = 1\n", f"cycles = {count}\n", 1)


def documents_of_requests():
    """Requests that are done without each of their names, so the history keeps all names and why each was left out."""
    pairs = map("".join, itertools.product(LETTERS[:26], repeat=2))
    names = itertools.islice(itertools.chain(LETTERS[:26], pairs), 128)
    unknown = with_cycles(100_000, HEAD) + END + "session a\n"
    yield "requests of 128 unknown names", filled(unknown, f"switch best {' '.join(f'+{name}' for name in names)}\n")
    yield "requests of one unknown name 128 times", filled(unknown, f"switch best {' '.join(['+a'] * 128)}\n")
    yield "conflicts on a reference of long names", rivals(f"{LONG}/{LONG}/effort", f"+{LONG} +a")
    yield "missing followers of long names", rivals(f"{LONG}/{LONG}/effort", "")
    yield "modes of one joint of a long name", rivals(f"{LONG}/velocity", f"+{LONG}")


def rivals(claim, first):
    """Returns a document of 52 controllers with this claim, and of one of a long name that claims the effort of a
    joint. A strict switch activates the first ones, and best efforts ask for the 51 others, as often as there is
    room."""
    text = with_cycles(10_000, HEAD) + COMPONENT + JOINT.format(LONG) + 'command = ["effort", "velocity"]\n'
    text += f'[[controller]]\nname = "{LONG}"\ntype = "passthrough"\nclaims = ["{LONG}/effort"]\n'
    kinds = ["forward"] * 26 + ["mock"] * 26
    for it, kind in zip(LETTERS, kinds):
        text += f'[[controller]]\nname = "{it}"\ntype = "{kind}"\nclaims = ["{claim}"]\n'
    text += END + "session a\n" + "".join(f"load {it}\nconfigure {it}\n" for it in [LONG, *LETTERS])
    text += f"switch strict {first}\n" if first else ""
    return filled(text, f"switch best {' '.join(f'+{it}' for it in LETTERS[1:])}\n")


def documents_of_mocks():
    """Mocks that list cycles, in room that leaves enough for a script that looks them up or configures a mock."""
    begun = "session a\nload x\nconfigure x\nawait 3\nswitch strict +x\n"
    yield "updates of a mock that lists failures", filled(
        with_cycles(100_000, controller("mock", "fail_update = [")), "1,", "]\n" + END + begun
    )
    for request in ("switch strict", "switch strict -x +x", "hw nobody active"):
        script = "session a\nload x\nconfigure x\n" + f"{request}\n" * 8_800
        yield f"requests beside a mock that lists cycles: {request}", filled(
            with_cycles(100_000, controller("mock", "not_ready = [")), "9999,", "]\n" + END + script
        )
    yield "configures of a mock that lists many cycles", filled(
        controller("mock", "not_ready = ["), "1,", "]\n" + END + "session a\nload x\n" + "configure x\n" * 9_999
    )


def documents_of_plans():
    """Wanted controllers that can start in no cycle, or in one of the last: the lists are looked through for it."""
    wish = "session a\nswitch strict +x\n"
    long_run = with_cycles(100_000, HEAD)
    yield "plans of a mock that lists cycles", filled(
        with_cycles(100_000, controller("mock", "not_ready = [")), lambda i: f"{i % 99_999},", "]\n" + END + wish
    )
    yield "plans beside a component that lists failures", filled(
        long_run + COMPONENT + "fail_read = [",
        lambda i: f"{99_999 - i % 90_000},",
        "]\n"
        + JOINT.format("j")
        + 'state = ["effort"]\n[[controller]]\nname = "x"\ntype = "mock"\nreads = ["j/effort"]\n'
        + END
        + wish,
    )
    mocks = "".join(
        f'[[controller]]\nname = "{it}"\ntype = "mock"\nnot_ready = '
        f'[{",".join(str(k) for k in range(at, 100_000, 52))}]\n'
        for at, it in enumerate(LETTERS)
    )
    wanted = " ".join(f"+{it}" for it in LETTERS[:32])
    yield "plans of 32 mocks that list cycles", long_run + mocks + END + f"session a\nswitch strict {wanted}\n"


def documents_of_checks():
    """Stored traces as long as fit: of cycles in which nothing happens, legal and wrong at the end, and of calls that
    load nothing.
    """
    cycles = 23_000
    lines = "".join(f"loop begin {k}: none\nloop end {k}: none\n" for k in range(cycles))
    quiet = with_cycles(cycles, HEAD) + END + "--- trace ---\n" + lines
    yield "checks of a long trace", quiet + "loop close: none\n"
    yield "checks of a long trace that ends early", quiet
    calls = 9_000
    line = f"load {LONG}"
    waits = HEAD + END + "session a\n" + calls * f"{line}\n" + "--- trace ---\n"
    yield "checks of many calls", waits + filled("", f"a {line}: not_described\n", bytes_=LONGEST - len(waits))


def documents_of_lists():
    kinds = '["position", "velocity", "effort"]'
    lists = f"state = {kinds}\ncommand = {kinds}\n"
    text = HEAD + COMPONENT + "".join(JOINT.format(f"j{i}") + lists for i in range(32))
    for kind in ("position", "velocity", "effort"):
        claims = ", ".join(f'"j{i}/{kind}"' for i in range(32))
        text += f'[[controller]]\nname = "{kind}"\ntype = "passthrough"\nclaims = [{claims}]\n'
    text += END + "session a\n"
    yield "lists of 288 interfaces", text + "list interfaces\n" * 9_990
    yield "lists of 288 interfaces, and of components between", text + "list interfaces\nlist components\n" * 4_995


def documents_of_fallbacks():
    """Mocks that fail in each cycle and start one another: each begin asks for 256 names, and 224 of them stand there
    before.
    """
    yield "fallbacks of mocks that fail in each cycle", failing(LETTERS[:32], 6_750)


def failing(names, cycles):
    """Returns a document whose mocks fail in each of these cycles. Each names the eight behind it, round about."""
    listed = ",".join(str(cycle) for cycle in range(1, cycles + 1))
    text = with_cycles(cycles + 2, HEAD)
    for place, name in enumerate(names):
        behind = ",".join(f'"{names[(place + 1 + step) % len(names)]}"' for step in range(8))
        text += f'[[controller]]\nname="{name}"\ntype="mock"\nfallback=[{behind}]\nfail_update=[{listed}]\n'
    text += END + "session a\n" + "".join(f"load {name}\nconfigure {name}\n" for name in names)
    return text + f"switch strict {' '.join(f'+{name}' for name in names)}\n"
