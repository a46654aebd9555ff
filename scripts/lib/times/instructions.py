"""Answers: how many instructions does a cycle take, and has that grown? As docs/SPEED.md has it.

It counts the instructions of the built program by `valgrind --tool=callgrind`, over six jobs, each with few cycles and
with more, and prints what a cycle more takes: reading and start are in both, and go. A count does not move with the
load of the machine, as a time does; what it leaves out is what the system does, above all memory that is touched for
the first time.

- bare: neither a joint nor a controller: the turn of the loop alone.
- idle: one joint that stands, and no controller.
- full: 32 joints and 64 controllers: 31 chains of a trajectory over a pid, all of which move, a forward, and a
  broadcaster of 96 states.
- switches: 16 chains of three controllers, and in each cycle a request that stops, starts or restarts some of them.
- lists: 32 controllers that are loaded and listed; what is counted is a list more.
- made: `run --make`, a round more of which is ten cycles.

Beside each stands what the page has. The exit status is 1 if a job takes more than that by over a twentieth; the page
is then to say why, or the program to be mended. With `--parts` it also prints how many of them the begin, the flight,
the landing and the trace take.
"""

import re
import subprocess
import sys
import tempfile

from ..documents import KINDS, activated, component, controller, document, every, head, joint, named
from ..replay import programs
from ..tree import TOP

PAGE = TOP / "docs/SPEED.md"
WORSE = 1.05  # times what the page has
POINTS = 16  # of each trajectory
CHAINS = 31
SWITCHED = 16  # chains that are switched
LOADED = 32  # controllers that are listed
CYCLES_OF_A_ROUND = 10  # of a made document
# The functions of the parts of a cycle, each with all that it calls. The end is the flight and its landing.
PARTS = {
    "begin": "cm_desk::desk::Desk::begin::",
    "end": "desk_turns::jobs::RunningJob::end::",
    "landing": "cm_desk::desk::Desk::land::",
    "trace": "cm_top::accepted::write_out::",
}


def options(parser):
    parser.add_argument("--parts", action="store_true", help="tells the parts of a cycle, too")
    programs.options(parser)


def started(described, names, lines=()):
    """A document with a session, which switches these on together if there are any, and then has these lines."""
    return document(described, [*(activated(names) if names else ["session a"]), *lines])


def bare(cycles):
    return started(head(cycles, 1000), [])


def idle(cycles):
    return started(head(cycles, 1000) + component("arm", [joint("j1")]), [])


def full(cycles):
    both = ("velocity", "position")
    joints = [joint(f"joint_{k}", both, KINDS, f"vmax = {2 + k % 3}\n") for k in range(CHAINS + 1)]
    described = [controller("broadcaster", "broadcaster", more='reads = "all"\n')]
    for k in range(CHAINS):
        gains = f'kp = {4 + k % 5}\nki = "0.3"\nkd = "0.02"\nimax = 1\nomax = 3\n'
        described.append(pid(f"pid_{k}", f"joint_{k}", gains))
    described += [trajectory(f"traj_{k}", f"pid_{k}", f"joint_{k}") for k in range(CHAINS)]
    described.append(controller("forward", "forward", [f"joint_{CHAINS}/position"]))
    names = ["broadcaster", *named("pid_", CHAINS), *named("traj_", CHAINS), "forward"]
    sends = [f"send traj_{k}{moves(k, cycles * 1000)}" for k in range(CHAINS)]
    robot = head(cycles, 1000) + component("robot", joints) + "".join(described)
    return started(robot, names, [*sends, "send forward 0.75"])


def pid(name, moved, gains):
    return controller(name, "pid", [f"{moved}/velocity"], [f"{moved}/position"], gains)


def trajectory(name, below, moved):
    return controller(name, "trajectory", [f"{below}/{moved}/position"], [f"{moved}/position"])


def moves(k, span):
    """The points of a trajectory to and fro, over so many microseconds."""
    sizes = [0.1 * (k % 7) + 0.05 * i + 0.123 for i in range(1, POINTS + 1)]
    return "".join(f" @{span * i // POINTS} {(-1) ** (i + k) * size:.6f}" for i, size in enumerate(sizes, 1))


def switches(cycles):
    joints = [joint(name, ("velocity", "position")) for name in named("j", SWITCHED)]
    described, names = [], []
    for k in range(SWITCHED):
        described.append(pid(f"pid{k}", f"j{k}", "kp = 2\n"))
        described.append(controller(f"pass{k}", "passthrough", [f"pid{k}/j{k}/position"]))
        described.append(trajectory(f"traj{k}", f"pass{k}", f"j{k}"))
        names += [f"pid{k}", f"pass{k}", f"traj{k}"]
    requests = [request(i % SWITCHED, i // SWITCHED % 4) for i in range(cycles - 1)]
    return started(head(cycles) + component("robot", joints) + "".join(described), names, requests)


def request(k, turn):
    return (
        f"switch strict -traj{k} +traj{k}",
        f"switch strict -pid{k}",
        f"switch best -pass{k} -traj{k} +pass{k} +nosuch",
        f"switch best +traj{k} +traj{(k + 1) % SWITCHED}",
    )[turn]


def lists(count):
    mocks = named("mock_", LOADED)
    described = head(1) + "".join(controller(name, "mock") for name in mocks)
    return started(described, [], [*every("load {}", mocks), *["list controllers"] * count])


def made(cycles):
    """No document: that many cycles are made."""
    return cycles // CYCLES_OF_A_ROUND


# Each with few cycles and with more, or few lists and more. The requests of `switches` come in rounds of 64.
JOBS = {
    "bare": (bare, 1_000, 11_000),
    "idle": (idle, 1_000, 11_000),
    "full": (full, 200, 1_200),
    "switches": (switches, 65, 385),
    "lists": (lists, 500, 2_500),
    "made": (made, 500, 2_500),
}


def counted(program, document, profile="/dev/null"):
    """The instructions of a run over the document, or of so many made rounds.

    They are told by function in the file `profile`.
    """
    words = ["run"] if isinstance(document, str) else ["run", "--make", str(document)]
    counter = ["valgrind", "--tool=callgrind", f"--callgrind-out-file={profile}", program, *words]
    with tempfile.TemporaryFile("w+") as given:
        given.write(document if isinstance(document, str) else "")
        given.seek(0)
        ran = subprocess.run(counter, stdin=given, stdout=subprocess.DEVNULL, stderr=subprocess.PIPE, text=True)
    found = re.search(r"Collected : (\d+)", ran.stderr)
    if ran.returncode or not found:
        sys.exit(f"{program} was not counted: {ran.stderr.strip()[-300:]}")
    return int(found[1])


def parts(program, document):
    """The instructions of each part in a run over the document, by the part's name."""
    with tempfile.NamedTemporaryFile() as profile:
        counted(program, document, profile.name)
        told = subprocess.run(
            ["callgrind_annotate", "--inclusive=yes", "--threshold=100", profile.name],
            stdout=subprocess.PIPE,
            text=True,
            check=True,
        ).stdout
    lines = {part: re.findall(rf"(?m)^ *([\d,]+) \(.*:{name}", told) for part, name in PARTS.items()}
    return {part: sum(int(count.replace(",", "")) for count in counts) for part, counts in lines.items()}


def print_parts(program):
    print("| Job | The begin | The flight | The landing | The trace |\n|---|---|---|---|---|")
    for job, (document, few, more) in JOBS.items():
        less, all_of_it = parts(program, document(few)), parts(program, document(more))
        begin, end, landing, trace = ((all_of_it[part] - less[part]) / (more - few) for part in PARTS)
        print(f"| {job} | {begin:,.0f} | {end - landing:,.0f} | {landing:,.0f} | {trace:,.0f} |", flush=True)


def on_page(job):
    found = re.search(rf"(?m)^\| {job} \| ([\d,]+) \|", PAGE.read_text())
    return int(found[1].replace(",", "")) if found else None


def main(asked):
    program, worse = programs.program(asked), []
    print("| Job | Instructions a cycle, a list | On the page |\n|---|---|---|")
    for job, (document, few, more) in JOBS.items():
        each = (counted(program, document(more)) - counted(program, document(few))) / (more - few)
        known = on_page(job)
        print(f"| {job} | {each:,.0f} | {f'{known:,}' if known else 'none'} |", flush=True)
        if known and each > WORSE * known:
            worse.append(f"{job} takes {each / known:.2f} times what {PAGE.name} has")
    if asked.parts:
        print_parts(program)
    for line in worse:
        print(line, file=sys.stderr)
    return 1 if worse else 0
