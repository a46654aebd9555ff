"""The pages of answers. docs/ANSWERS.md has each public call of the libraries, with what it may answer besides its
value, its clauses with the definitions that they name, whether it may want memory, and whether it may wait.
docs/PROVED.md has the rows of causes.txt: when each answer comes, with the clause that says so.

A call is a public function or method, or a method of a public trait. What implements a trait answers as the trait says.
Laws, tests and the crates of tests are apart. A call whose answer may be a refusal needs a clause that speaks of its
result, and a row of causes.txt for each refusal, but for the crates that draw: they promise that they return, and no
more.
"""

import functools
import re
from dataclasses import dataclass

from ..tree import TOP, floors
from .laws import every_law
from .parts import rewritten

SOURCE = "the calls say"
PAGE, PROVED = TOP / "docs/ANSWERS.md", TOP / "docs/PROVED.md"
CAUSES = TOP / "scripts/lib/pages/causes.txt"
APART = ("Tests", "Beside cm")  # floors whose crates are no libraries of the program
DRAWS = ("Pictures",)  # floors whose crates promise only that they return
HEAD = re.compile(r"(?P<indent> {0}| {4})(?P<public>pub )?(?:const |unsafe )*fn (?P<name>\w+)")
BLOCK = re.compile(r"(?:pub )?(?:unsafe )?(?P<kind>impl|trait)\b(?P<rest>.*)")
MEMORY = ("Memory", "AllocError")
TOLD = ("Status", "Progress", "Done")  # types whose cases are answers,
WELL = ("Ok", "Ran")  # but for those that tell that all went well
NONE, UNNAMED = "None", "-"
MOST_DEFINITIONS = 3  # of a clause that are told


@dataclass(frozen=True)
class Call:
    crate: str
    owner: str  # the type or the trait, or nothing
    name: str
    head: str  # from its name to its body, with its clauses
    definitions: frozenset  # those that its file imports

    @property
    def path(self):
        return f"{self.owner}::{self.name}" if self.owner else self.name

    @property
    def returned(self):
        """The type that it returns."""
        found = re.search(
            r"(?s)->\s*(.*?)(?=\n\s*(?:where|requires|ensures)\b|\s*;$|\s*\{\}?$|\Z)",
            self.head.split("\n    requires")[0],
        )
        return " ".join(found[1].split()) if found else ""

    @property
    def clauses(self):
        """What it promises: the text of each clause by its name."""
        found = re.findall(r"(?ms)^\s*ensures\s+(\w+)?\s*\{(.*?)(?=^\s*(?:requires|ensures)\b|\Z)", self.head)
        return {name or UNNAMED: text for name, text in found}

    @property
    def is_answered(self):
        """Whether a clause speaks of its result."""
        return any(re.search(r"\bresult\b", text) for text in self.clauses.values())

    def clause(self, name):
        """A clause as a page tells it: its name, and the first definitions that it names."""
        words = dict.fromkeys(
            it for it in re.findall(r"\w+", self.clauses[name]) if it in self.definitions and not it.endswith("_facts")
        )
        named = ", ".join(f"`{it}`" for it in [*words][:MOST_DEFINITIONS])
        return (
            " ".join(
                [
                    *([f"`{name}`"] if name != UNNAMED else []),
                    *([f"({named})" if name != UNNAMED else named] if named else []),
                ]
            )
            or "unnamed"
        )

    @property
    def waits(self):
        return bool(re.search(r"\bWait\b", self.head.split("ensures")[0]))

    def answers(self):
        """What it may answer besides its value, want of memory apart."""
        return [it for it in answers_in(self.returned) if it not in (*MEMORY, *WELL)]

    def wants_memory(self):
        return any(it in MEMORY for it in answers_in(self.returned))


def arguments(text):
    """Cuts the arguments of a type at the commas that stand outside of brackets."""
    found, depth = [""], 0
    for letter in text:
        depth += (letter in "<([") - (letter in ">)]")
        if letter == "," and not depth:
            found.append("")
        else:
            found[-1] += letter
    return [it.strip() for it in found if it.strip()]


def answers_in(returned):
    """The refusals in a type that is returned: the cases of its error, None, and the cases of what tells how something
    ended.
    """
    name, _, rest = returned.partition("<")
    inside = arguments(rest.rstrip()[:-1]) if rest else []
    if returned.startswith("("):
        return [it for part in arguments(returned[1:-1]) for it in answers_in(part) if it != NONE]
    if name == "Result":
        return [*answers_in(inside[0]), *(cases_of(inside[1]) if len(inside) > 1 else [])]
    if name == "Option":
        return [NONE]
    return cases_of(name) if name in TOLD else []


@functools.cache
def enums():
    """The cases of each enum of the libraries."""
    found = {}
    for crate in libraries():
        for file in sources(crate):
            for name, body in re.findall(r"(?ms)^pub enum (\w+)[^{]*\{\n(.*?)^\}", uncommented(file.read_text())):
                found.setdefault(name, re.findall(r"(?m)^    (\w+)", body))
    return found


def cases_of(fault):
    return enums().get(fault.split("::")[-1].split("<")[0], [fault])


# ---- Where calls are


def libraries():
    return {crate: name for name, _, crates in floors() if name not in APART for crate in crates}


def sources(crate):
    folder = TOP / "crates" / crate / "src"
    return [
        it
        for it in sorted(folder.rglob("*.rt"))
        if "tests" not in it.relative_to(folder).parts and it.name != "tests.rt"
    ]


def uncommented(text):
    return re.sub(r"(?m)^\s*//.*\n|(?<=\s)//.*$", "", text)


def public_in(file):
    """The names that a module passes on, and the modules in it that are public."""
    text = uncommented(file.read_text())
    names = set()
    for path, many in re.findall(r"(?m)^pub use (?!Rattle)([\w:]+?)(?:::\{([^}]*)\})?;", text):
        names |= set(re.findall(r"\w+", many)) if many else {path.split("::")[-1]}
    return names, re.findall(r"(?m)^pub mod (\w+);", text)


@functools.cache
def reached(crate):
    """The files whose public names are public in the crate, and the names that are passed on from others."""
    folder, files, names = TOP / "crates" / crate / "src", [], set()

    def follow(file, below):
        if not file.exists():
            return
        files.append(file)
        passed_on, modules = public_in(file)
        names.update(passed_on)
        for module in modules:
            follow(below / f"{module}.rt", below / module)

    follow(folder / "lib.rt", folder)
    return files, names


def heads(text):
    """Gives of each function its owner, whether it is public, its name and its head."""
    owner, of_trait, lines = "", None, iter(uncommented(text).split("\n"))
    for line in lines:
        if line.startswith("}"):
            owner, of_trait = "", None
        block = BLOCK.match(line)
        if block:
            owner, of_trait = owner_of(block, line, lines)
            continue
        found = HEAD.match(line)
        if not found:
            continue
        head = line
        while not is_whole(head):
            head += "\n" + next(lines)
        if found["indent"] and of_trait == "given":
            continue
        yield owner if found["indent"] else "", bool(found["public"] or of_trait == "trait"), found["name"], head


def is_whole(head):
    """Whether a head goes on to its body, or to the semicolon in its place.

    A clause may have braces and semicolons within its own.
    """
    end = re.search(r"(\{\}|[{;])\s*\Z", head)
    before = head[: end.start()] if end else "{"
    return before.count("{") == before.count("}")


def owner_of(block, line, lines):
    """The type or the trait of a block, and whether the block is a trait's, or gives a type a trait."""
    head = line
    while not head.rstrip().endswith(("{", "}")):
        head += " " + next(lines).strip()
    words = re.sub(r"<[^<>]*(?:<[^<>]*(?:<[^<>]*>[^<>]*)*>[^<>]*)*>", "", head.split("where")[0])
    if block["kind"] == "trait":
        return re.search(r"trait (\w+)", words)[1], "trait"
    parts = words.replace("impl", "", 1).rstrip("{ ").split(" for ")
    return (
        re.findall(r"\w+", parts[-1])[-1] if re.findall(r"\w+", parts[-1]) else "",
        "given" if len(parts) > 1 else None,
    )


@functools.cache
def imported(text):
    """The definitions of the repository that a file imports into its clauses."""
    found = re.findall(r"ghost use Rattle\.(?!std\b)\w+\.specs\.(?!declared\b)[\w.]*?(?:\.\{([^}]*)\}|\.?(\w+));", text)
    return frozenset(it for many, one in found for it in re.findall(r"\w+", many or one))


def calls_of(crate):
    laws = {place.split("::")[-1] for place, _ in every_law().get(crate, [])}
    files, names = reached(crate)
    for file in sources(crate):
        text = file.read_text()
        for owner, is_public, name, head in heads(text):
            is_reached = file in files or (owner or name) in names
            if is_public and is_reached and name not in laws and file.stem != "laws" and "#[test]" not in head:
                yield Call(crate, owner, name, head, imported(text))


@functools.cache
def every_call():
    return {crate: found for crate in libraries() if (found := list(calls_of(crate)))}


# ---- The pages


def row(call):
    said = ", ".join(f"`{it}`" for it in call.answers())
    clauses = "; ".join(call.clause(name) for name in call.clauses)
    return (
        f"| `{call.path}` | {said} | {clauses} | {'yes' if call.wants_memory() else ''} | "
        f"{'yes' if call.waits else ''} |"
    )


def tables(calls):
    every = [call for of_crate in calls.values() for call in of_crate]
    counts = len(every), sum(map(Call.wants_memory, every)), sum(call.waits for call in every)
    yield "\n{} calls: {} may want memory, {} may wait.\n\n".format(*counts)
    for crate, of_crate in calls.items():
        rows = "\n".join(map(row, of_crate))
        yield f"## `{crate}`\n\n| Call | May answer | Clauses | Memory | Waits |\n|---|---|---|---|---|\n{rows}\n\n"


def causes():
    """Gives of each row of causes.txt its cells, and the call that it names, or None."""
    for line in CAUSES.read_text().split("\n"):
        if line and not line.startswith("#"):
            answer, comes, place, clause = (cell.strip() for cell in line.split(" | "))
            crate, _, path = place.partition("::")
            yield answer, comes, place, clause, next(
                (it for it in every_call().get(crate, []) if it.path == path), None
            )


def table_of_causes():
    yield "\n| Answer | Comes | Call | Clause |\n|---|---|---|---|\n"
    for answer, comes, place, clause, call in causes():
        if call and clause in call.clauses:
            yield f"| {answer} | {comes} | `{place}` | {call.clause(clause)} |\n"
    yield "\n"


def made():
    return {PAGE: rewritten(PAGE, tables(every_call())), PROVED: rewritten(PROVED, table_of_causes())}


def findings():
    draws = {crate for name, _, crates in floors() if name in DRAWS for crate in crates}
    for crate, of_crate in every_call().items():
        for call in of_crate:
            if call.answers() and not call.is_answered and crate not in draws:
                yield f"{crate}: no clause says when {call.path} answers {', '.join(call.answers())}"
    causes_of = {}
    for answer, _, place, clause, call in causes():
        causes_of.setdefault(place, set()).update(re.findall(r"`(\w+)`", answer))
        if not call or clause not in call.clauses:
            yield f"{CAUSES.relative_to(TOP)}: {answer} names {place} and its clause {clause}, which is not there"
    for crate, of_crate in every_call().items():
        for call in of_crate if crate not in draws else []:
            if missing := [it for it in call.answers() if it not in causes_of.get(f"{crate}::{call.path}", ())]:
                yield f"{CAUSES.relative_to(TOP)}: has no row for {', '.join(missing)} of {crate}::{call.path}"
