"""Prints what the rows of STILL_LONG would be now: the pages that are longer than the limits allow, with how much; and
at last how many words all pages have together.

No sentence, cell of a table or page is to be longer than the limits, but for what STILL_LONG allows, and no page may
get worse: `scripts/pages check` finds which did. Neither may all pages together. What a script writes or prints is
apart and counts nowhere: the tables between its marks, and those of docs/SPEED.md. Blocks of code are apart, too.
"""

import re

from ..tree import TOP
from .repository import Repository

LONGEST_SENTENCE, LONGEST_CELL = 35, 25  # words
LONGEST_PAGE = 150  # lines
LONGEST_FIRST_PAGE, WIDEST_FIRST_PAGE = 75, 100  # lines and columns of README.md: two screens
MOST_WORDS = 30_000  # of all pages together

# How many sentences and cells above the limits a page still has, and how many lines. No page may get worse. A page that
# meets all three limits needs no row; `scripts/pages lengths` prints what the rows would be now.
STILL_LONG = {}
MEASURED = "docs/SPEED.md"  # its tables have what scripts print
GATE = r"\|(?: `\w+`,?)+ \| (?:[\d.]+\*?|not timed|none) \|"  # a row of the gate's table
WRITTEN = {"crates/README.md", "docs/WORDS.md"}  # by scripts


def by_hand(page):
    """What a person wrote of the page: no block of code, and no table that a script writes."""
    text = re.sub(r"(?ms)^ *```.*?^ *```", "", (TOP / page).read_text())
    text = re.sub(r"(?<=\n\n)(?: {4}.*\n)+", "\n", text)
    text = re.sub(
        r"(?s)<!-- made by .*?<!-- made until here -->|<!-- (\w+), by scripts/pages write.*?<!-- end of \1 -->",
        "",
        text,
    )
    return [line for line in text.rstrip("\n").split("\n") if not (page == "docs/SPEED.md" and re.match(GATE, line))]


def words_in(text):
    return sum(bool(re.search(r"\w", word)) for word in re.sub(r"\]\([^)]*\)", "]", text).split())


def cells_of(lines):
    return [cell for line in lines if line.startswith("|") for cell in line.strip("|").split(" | ")]


def paragraphs_of(lines):
    """The paragraphs, of which each item of a list is one."""
    text = "\n".join("" if line.lstrip().startswith(("|", "#")) else re.sub(r"^\s*(> ?)", "", line) for line in lines)
    return re.split(r"\n\s*\n|\n(?=\s*(?:- |\d+\. ))", text)


def sentences_of(lines):
    return [it for paragraph in paragraphs_of(lines) for it in re.split(r"(?<=[.?!])[*)]*\s+(?=[A-Z`*\[(])", paragraph)]


def long_of(page):
    """Returns the sentences and the cells of a page that are too long, and how many lines it has."""
    lines = by_hand(page)
    sentences = [it for it in sentences_of(lines) if words_in(it) > LONGEST_SENTENCE]
    return sentences, [it for it in cells_of(lines) if words_in(it) > LONGEST_CELL], len(lines)


def lengths(repository):
    """Gives each page with how many sentences and cells are too long, and how many lines it has."""
    for page in repository.pages:
        if page not in WRITTEN:
            sentences, cells, lines = long_of(page)
            yield page, len(sentences), len(cells), lines


def too_long(repository):
    kinds = (f"sentence of more than {LONGEST_SENTENCE} words", f"cell of more than {LONGEST_CELL} words")
    for page, *counts in lengths(repository):
        allowed = STILL_LONG.get(page, (0, 0, LONGEST_PAGE))
        for kind, found, few in zip(kinds, long_of(page), allowed):
            if len(found) > few:
                first = " ".join(found[0].split())[:60]
                yield f"{page}: has {len(found)} times a {kind}, where {few} may be; the first is '{first} ..'"
        if counts[2] > allowed[2]:
            yield f"{page}: has {counts[2]} lines, where {allowed[2]} may be"


def words_together(repository):
    """How many words persons wrote on all pages."""
    pages = {page: by_hand(page) for page in repository.pages if page not in WRITTEN}
    pages[MEASURED] = [line for line in pages[MEASURED] if not line.startswith("|")]
    return sum(words_in("\n".join(lines)) for lines in pages.values())


def times_differ(repository):
    """A number that is quoted with a link to the page of numbers stands there."""
    measured = re.compile(r"\b\d[\d,.]* (?:ns|us|ms|MiB|MB)\b")
    speed = set(measured.findall((TOP / "docs/SPEED.md").read_text()))
    for page in repository.pages:
        if page != "docs/SPEED.md":
            lines = by_hand(page)
            for text in [*paragraphs_of(lines), *cells_of(lines)]:
                if "SPEED.md" in text:
                    yield from (
                        f"{page}: {it} is no number of docs/SPEED.md"
                        for it in measured.findall(text)
                        if it not in speed
                    )


def first_page_too_large():
    lines = (TOP / "README.md").read_text().rstrip("\n").split("\n")
    widest = max(map(len, lines))
    if len(lines) > LONGEST_FIRST_PAGE or widest > WIDEST_FIRST_PAGE:
        yield (
            f"README.md: has {len(lines)} lines of up to {widest} columns, where {LONGEST_FIRST_PAGE} of "
            f"{WIDEST_FIRST_PAGE} may be"
        )


def findings(repository):
    yield from too_long(repository)
    yield from first_page_too_large()
    together = words_together(repository)
    if together > MOST_WORDS:
        yield f"all pages together have {together:,} words, where {MOST_WORDS:,} may be"
    yield from times_differ(repository)


def main(asked):
    repository = Repository()
    for page, *counts in lengths(repository):
        if counts[0] or counts[1] or counts[2] > LONGEST_PAGE:
            print(f'    "{page}": ({counts[0]}, {counts[1]}, {max(counts[2], LONGEST_PAGE)}),')
    print(f"all pages together: {words_together(repository):,} words, of at most {MOST_WORDS:,}")
    return 0
