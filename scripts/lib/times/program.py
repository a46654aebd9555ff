"""Answers: how fast is the built program? Prints what docs/SPEED.md has between its marks.

It runs the program seven times on each of three documents of 100,000 cycles, its output to the null device, and then
with the words `run --make 1000`, and prints of each the least time and the peak memory, and of a document the time a
cycle and the lines a second.
- controllers: 64 described controllers, and a session that loads 32 of them and lists them.
- components: 32 joints in 16 components, read, written, stepped and told of in each cycle, and a session that lists
  them.
- updates: the same joints, each commanded by a forward; a session switches the 32 on together and sends each a value.
- made: no document; 10,000 cycles, of which the program prints a summary alone.
"""

import os
import subprocess
import sys
import tempfile
import time
from pathlib import Path

from ..documents import KINDS, component, controller, document, every, head, joint, named
from ..replay import programs

CYCLES = 100_000
RUNS = 7
MADE = ["run", "--make", "1000"]
MADE_CYCLES, MADE_ENTRIES, MADE_UPDATES = 10_000, 26_019, 79_000
CONTROLLERS, LOADED, COMPONENTS, SIDES = 64, 32, 16, "lr"
HEAD = head(CYCLES, 1000)
options = programs.options


def controllers():
    described = "".join(controller(name, "mock") for name in named("c", CONTROLLERS))
    return document(HEAD + described, ["session a", *every("load {}", named("c", LOADED)), "list controllers"])


def robot():
    joints = ([joint(f"{side}{k}", KINDS[:1], KINDS[:2]) for side in SIDES] for k in range(COMPONENTS))
    return HEAD + "".join(component(f"c{k}", each) for k, each in enumerate(joints))


def components():
    return document(robot(), ["session a", "list components", "list interfaces"])


def updates():
    joints = [f"{side}{k}" for k in range(COMPONENTS) for side in SIDES]
    described = robot() + "".join(controller(f"f{it}", "forward", [f"{it}/position"]) for it in joints)
    lines = ["session a"]
    for k in range(COMPONENTS):
        lines += [f"load fl{k}", f"load fr{k}", f"configure fl{k}", f"configure fr{k}"]
    lines.append("switch strict " + " ".join(f"+f{it}" for it in joints))
    for k in range(COMPONENTS):
        lines += [f"send fl{k} 0.5", f"send fr{k} -0.5"]
    return document(described, lines)


# Each document, with the lines of its trace.
DOCUMENTS = {
    "controllers": (controllers, 2 * CYCLES + 34),
    "components": (components, 2 * CYCLES + 3),
    "updates": (updates, 2 * CYCLES + 99),
}


def time_of_a_run(program, words, document):
    with open(document, "rb") as given:
        begun = time.perf_counter()
        subprocess.run([program, *words], stdin=given, stdout=subprocess.DEVNULL, check=True)
        return time.perf_counter() - begun


def peak_of_a_run(program, words, document):
    """In kilobytes, as the system tells it of the running program: for one that has ended it counts the launcher's own
    too.
    """
    peak = 0
    with open(document, "rb") as given:
        running = subprocess.Popen([program, *words], stdin=given, stdout=subprocess.DEVNULL)
    while running.poll() is None:
        try:
            with open(f"/proc/{running.pid}/status") as told:
                peak = max([peak, *(int(line.split()[1]) for line in told if line.startswith("VmHWM"))])
        except OSError:
            pass  # it has ended since
    return peak


def tell_table(*rows):
    """Prints a table, whose first row is its head, between empty lines."""
    head, *others = ("| " + " | ".join(row) + " |" for row in rows)
    print("", head, "|---" * len(rows[0]) + "|", *others, "", sep="\n", flush=True)


def best_of_runs(program, words, document):
    """Returns the least time of runs with these words, in seconds, and their peak memory, in MiB."""
    least = min(time_of_a_run(program, words, document) for _ in range(RUNS))
    return least, max(peak_of_a_run(program, words, document) for _ in range(RUNS)) / 1024


def of_document(program, name, document, lines):
    """Returns the row of a document, whose trace has so many lines."""
    least, peak = best_of_runs(program, ["run"], document)
    return (
        name,
        f"{least * 1000:.1f} ms",
        f"{least / CYCLES * 1e6:.2f} us",
        f"{lines:,}",
        f"{lines / least:,.0f}",
        f"{peak:.1f} MiB",
    )


def see_counts(program, folder):
    """Ends if a trace has other lines, or the summary other counts, than those by which the time is divided."""
    for name, (_, lines) in DOCUMENTS.items():
        printed = programs.ran([program, "run"], Path(folder, name).read_bytes())[1].count(b"\n")
        if printed != lines:
            sys.exit(f"the trace of {name} has {printed} lines in place of {lines}")
    summary = programs.ran([program, *MADE])[1].decode().split("\n")[:3]
    if summary != [f"cycles {MADE_CYCLES}", f"entries {MADE_ENTRIES}", f"updates {MADE_UPDATES}"]:
        sys.exit("the summary of 'run --make 1000' begins with\n" + "\n".join(summary))


def main(asked):
    program = programs.program(asked)
    with tempfile.TemporaryDirectory() as folder:
        for name, (document, _) in DOCUMENTS.items():
            Path(folder, name).write_text(document())
        see_counts(program, folder)
        rows = [of_document(program, name, Path(folder, name), lines) for name, (_, lines) in DOCUMENTS.items()]
    tell_table(("Document", "Least time", "Time a cycle", "Lines of trace", "Lines a second", "Peak memory"), *rows)
    least, peak = best_of_runs(program, MADE, os.devnull)
    print(f"`{' '.join(MADE)}` took {least * 1000:.1f} ms and {peak:.1f} MiB.")
    return 0
