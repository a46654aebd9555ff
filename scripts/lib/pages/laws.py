"""The pages of laws and tests, docs/LAWS.md and docs/TESTS.md: which there are, and what each says.

A law is a public function whose contract is all that it is for: it takes nothing and its body is empty, or it stands in
a file laws.rt and returns nothing. What it says is the first sentence of its docstring. A test is a function with
`#[test]`, whose name is what it shows. What the page says of it beside its name is kept.
"""

import functools
import re

from ..tree import TOP, crates
from .parts import rewritten

SOURCE = "laws and tests say"
LAWS, TESTS = TOP / "docs/LAWS.md", TOP / "docs/TESTS.md"
TEST = re.compile(r"(?m)^[ \t]*#\[test\]\n(?:[ \t]*#\[.*\n)*[ \t]*(?:pub )?fn (\w+)\(")
COUNTED = re.compile(r"\b([\d,]+) laws\b")


def sources(crate):
    return sorted((TOP / "crates" / crate / "src").rglob("*.rt"))


def first_sentence(doc):
    text = " ".join(line.removeprefix("///").strip() for line in doc.splitlines()).strip()
    return re.split(r"(?<=\.)\s+(?=[A-Z`])", text)[0]


def public_functions(text):
    """Gives of each public function outside a type its docstring, its head with the contract, and whether its body is
    empty.
    """
    doc, lines = [], iter(text.split("\n"))
    for line in lines:
        if line.startswith("///"):
            doc.append(line)
        elif line.startswith("pub fn "):
            head = [line]
            while not head[-1].rstrip().endswith(("{", "{}")):
                head.append(next(lines))
            is_empty = head[-1].rstrip().endswith("{}") or next(lines) == "}"
            yield "\n".join(doc), "\n".join(head), is_empty
            doc = []
        elif not line.startswith(("#", " ", ")")):
            doc = []


def laws_of(crate):
    """Gives the place, the name and the sentence of each law."""
    for file in sources(crate):
        inside = file.relative_to(TOP / "crates" / crate / "src").with_suffix("").as_posix().replace("/", "::")
        for doc, head, is_empty in public_functions(file.read_text()):
            name, taken = re.match(r"pub fn (\w+)[^(]*\(([^)]*)", head).groups()
            is_law = (is_empty and not taken) or file.stem == "laws"
            if is_law and "ensures" in head and "->" not in head.split("ensures")[0]:
                yield f"{crate}::{inside}::{name}", first_sentence(doc)


def tests_of(crate):
    """Gives the name of each test, and the file in which it stands."""
    for file in sources(crate):
        yield from (
            (name, file.relative_to(TOP / "crates" / crate).as_posix()) for name in TEST.findall(file.read_text())
        )


def counted(many, what):
    return f"\n{many} {what}.\n\n"


def tables_of_laws(laws):
    yield counted(sum(map(len, laws.values())), "laws")
    for crate, of_crate in laws.items():
        rows = "\n".join(f"| `{place.removeprefix(crate + '::')}` | {says} |" for place, says in of_crate)
        yield f"## `{crate}`\n\n| Law | Says |\n|---|---|\n{rows}\n\n"


def tables_of_tests(tests, page):
    kept = dict(re.findall(r"(?m)^\| `(\w+)` \| `src/[^`]*` \| ?(.*?) ?\|$", page))
    yield counted(sum(map(len, tests.values())), "tests")
    for crate, of_crate in tests.items():
        rows = "\n".join(f"| `{name}` | `{file}` | {kept.get(name, '')} |" for name, file in of_crate)
        yield f"## `{crate}`\n\n| Test | Stands in | Shows besides |\n|---|---|---|\n{rows}\n\n"


def miscounts(many):
    """A page that says how many laws there are says so rightly."""
    for page in sorted([TOP / "README.md", *TOP.glob("docs/*.md"), *TOP.glob("crates/*/README.md")]):
        for told in COUNTED.findall(page.read_text()):
            if told.replace(",", "") != str(many) and page != LAWS:
                yield f"{page.relative_to(TOP)}: says {told} laws, and there are {many}"


@functools.cache
def every_law():
    return {crate: of_crate for crate in crates() if (of_crate := list(laws_of(crate)))}


def made():
    tests = {crate: of_crate for crate in crates() if (of_crate := list(tests_of(crate)))}
    return {
        LAWS: rewritten(LAWS, tables_of_laws(every_law())),
        TESTS: rewritten(TESTS, tables_of_tests(tests, TESTS.read_text())),
    }


def findings():
    laws = every_law()
    yield from (
        f"{place}: a law without a docstring" for of_crate in laws.values() for place, says in of_crate if not says
    )
    yield from miscounts(sum(map(len, laws.values())))
