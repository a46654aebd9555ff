"""The page of words, docs/WORDS.md: where the rule of a printed word is.

The words are those that the definitions print of a refusal, of a request's outcome and of a fault. Of each a row says
- at which heading of docs/RULES.md, docs/FORMATS.md or docs/SCRIPT.md its rule stands: there the word stands in
  backticks, and so does
- the definition in a crate's specs that answers the word, with its file;
- an example that prints it, or the table of docs/FAULTS_BY_EXAMPLE.md that does;
- a page of tests that has it: the one that the table has already, where that still has it, else the one with the most
  lines of it in the crate of tests that is nearest.
"""

import functools
import re

from ..tree import TOP
from .answering import Definitions, read
from .names import anchor
from .parts import rewritten

SOURCE = "the definitions, rules and tests say"
PAGE = TOP / "docs/WORDS.md"
SPAN = re.compile(r"`([^`\n]+)`")
TABLE = "| Word | Rule | Definition | Example | Tests |\n|---|---|---|---|---|\n"
# The items of cycles and lists, whose printing decides nothing, with the definition of what each tells.
ITEMS = {
    "queued": "request_reply",
    "fail": "failed_in",
    "run": "updated_in",
    "error": "fails",
    "joint": "components_stepped",
    "stop": "stops",
    "unset": "after_moves",
    "unavailable": "available",
    "free": "owner",
    "every": "divisor",
    "chained": "is_chained",
}


class Family:
    """Words of one kind: the heading of their table, the type whose cases print them, the case of each word, the page
    with their rules, how a line looks that has the word, and the crate of tests to look in first. Where there is no
    type the definition stands in place of the case."""

    def __init__(self, heading, kind, words, line, tests="", crate="cm_model", page="RULES"):
        self.heading, self.kind, self.words, self.line = heading, kind, words, line
        self.tests, self.crate, self.page = tests, crate, page

    def is_in(self, text, word):
        return len(re.findall(rf"(?m){self.line.replace('WORD', re.escape(word))}", text))


def printed_by(file, definition):
    """Returns the case of each word that a definition prints: `definition (alias.Case ..) = codes "word .."`."""
    equations = re.findall(
        rf'(?m)^{definition} \(?\w+\.(\w+)[^=\n]*= codes "(\w+)', read(f"crates/cm_model/specs/{file}.antt")
    )
    return {word: case for case, word in equations}


def printed_of_errors(kind):
    """Returns the same of an enum of faults, whose cases have their words in an attribute; want of memory has its own
    status.
    """
    body = re.search(rf"(?s)pub enum {kind} \{{(.*?)\n\}}", read("crates/cm_document/src/faults.rt"))[1]
    return {word: case for word, case in re.findall(r'#\[error\("(\w+)[^"]*"\)\]\n\s*(\w+)', body) if case != "Memory"}


def families():
    yield Family("Replies that refuse a call", "Why", printed_by("Trace", "why_word"), r"(?:=>|:) WORD(?:$|[;,\"\\])")
    yield Family(
        "What becomes of a request", "Outcome", printed_by("Causes", "outcome_text"), r"(?:=>|:|; \d+|: \d+) WORD\b"
    )
    cause = r"(?:(?:refused|dropped) |, )\w+ WORD\b"
    yield Family(
        "Why a request is refused, or a name dropped", "Cause", printed_by("Causes", "cause_text"), cause, "rows_switch"
    )
    yield Family("Items of cycles and lists", "", ITEMS, r"(?:=>|:|;) (?:[a-z_0-9/]+ )*WORD\b")
    fault = r"(?:=> |: |^|\")WORD"
    for kind, heading, line, page in (
        ("DescFault", "Faults in the text of a description", rf"{fault}\b", "FORMATS"),
        ("CheckFault", "Faults of a description that was read", rf"{fault} [a-z]", "FORMATS"),
        ("ScriptFault", "Faults of a script", rf"{fault} \d", "SCRIPT"),
    ):
        yield Family(heading, kind, printed_of_errors(kind), line, "rows_text", "cm_document", page)


def sections(page):
    """Returns the text below each heading of a page."""
    parts = re.split(r"(?m)^(#{2,3} .*)$", read(f"docs/{page}.md"))
    return dict(zip(parts[1::2], parts[2::2]))


def plain(heading):
    return re.sub(r" \(.*\)$", "", heading.lstrip("# "))


def best(family, word, files, before):
    """Returns the file that has the word: the one that was said before, where it has, else the one with most lines of
    it.
    """
    many = {name: family.is_in(text, word) for name, text in files.items()}
    there = [name for name in files if many[name]]
    return (
        before
        if many.get(before)
        else max(there, key=lambda name: (f"/{family.tests}/" in name, many[name]), default=None)
    )


class Words:
    def __init__(self):
        said = re.compile(r"(?m)^\| `(.+?)` \|.*\]\(\.\./(crates/[^)]*)\) \|$")
        self.before = {heading: dict(said.findall(rows)) for heading, rows in sections("WORDS").items()}
        self.definitions = {crate: Definitions(crate) for crate in ("cm_model", "cm_document")}
        self.sections = {page: sections(page) for page in ("RULES", "FORMATS", "SCRIPT")}
        self.pages = {str(it.relative_to(TOP)): it.read_text() for it in sorted(TOP.glob("crates/rows_*/src/**/*.rt"))}
        self.examples = {
            it.name.removesuffix(".stdout"): it.read_text() for it in sorted(TOP.glob("examples/*.stdout"))
        }
        self.faults = []

    def headings_of_names(self, page, word):
        """Returns the names in backticks at the headings of the page where the word stands so too, each with the first
        such heading.
        """
        spans = {heading: SPAN.findall(text) for heading, text in self.sections[page].items()}
        having = [heading for heading, of_it in spans.items() if re.search(rf"\b{word}\b", " ".join(of_it))]
        return {name: heading for heading in reversed(having) for name in spans[heading]}

    def row(self, family, case, word):
        named = self.headings_of_names(family.page, word)
        definitions = self.definitions[family.crate]
        answering = definitions.answering(family.kind, case, named)
        page = best(family, word, self.pages, self.before.get(f"## {family.heading}", {}).get(word))
        if not answering:
            self.faults.append(
                f"docs/{family.page}.md: {word} ({family.heading}) stands at no heading with its definition"
            )
        if not page:
            self.faults.append(f"docs/WORDS.md: {word} ({family.heading}) is in no page of tests")
        if not (answering and page):
            return ""
        headings = [*dict.fromkeys(named[name] for name in answering)]
        rules = ", ".join(f"[{plain(it)}]({family.page}.md#{anchor(it.lstrip('# '))})" for it in headings)
        files = [*dict.fromkeys(definitions.file[name] for name in answering)]
        places = "; ".join(
            self.place(family.crate, file, [it for it in answering if definitions.file[it] == file]) for file in files
        )
        return (
            f"| `{word}` | {rules} | {places} | {self.example(family, word)} | "
            f"[{page.removeprefix('crates/')}](../{page}) |\n"
        )

    @staticmethod
    def place(crate, file, names):
        return (
            f"{', '.join(f'`{name}`' for name in names)} in "
            f"[{file.removesuffix('.antt')}](../crates/{crate}/specs/{file})"
        )

    def example(self, family, word):
        if family.page != "RULES":
            status = "script-status-4" if family.kind == "ScriptFault" else "description-status-3"
            return f"[status {status[-1]}](FAULTS_BY_EXAMPLE.md#{status})"
        having = [name for name, text in self.examples.items() if family.is_in(text, word)]
        return f"`{min(having, key=lambda name: len(self.examples[name]))}`" if having else "none"

    def tables(self):
        for family in families():
            rows = (self.row(family, case, word) for word, case in family.words.items())
            yield f"\n## {family.heading}\n\n{TABLE}{''.join(rows)}"
        yield "\n"


@functools.cache
def words_made():
    """Returns the page's text, and the faults that were found on the way."""
    words = Words()
    return rewritten(PAGE, words.tables()), words.faults


def made():
    return {PAGE: words_made()[0]}


def findings():
    return words_made()[1]
