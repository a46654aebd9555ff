"""What a page names: sources, files, headings of pages, and constants with their numbers."""

import re

from ..tree import TOP

CONSTANT = re.compile(r"(?m)\| `((?:\w+::)+[A-Z][A-Z_]*)` \|$")
FENCED = re.compile(r"(?ms)^ *```\w*\n(.*?)^ *```")
ESCAPES = re.compile(r"\\(u[0-9A-Fa-f]{4}|[nrt])")


def findings(repository, page):
    """Returns what the page says that is not so."""
    whole = (TOP / page).read_text()
    text = FENCED.sub("", whole)
    told = [it for span in spans_of(CONSTANT.sub("|", text)) for it in names_missing(repository, page, span)]
    blocks = (column for block in FENCED.findall(whole) for column in columns_of(block))
    told += [
        f"the block that begins with '{it.split(chr(10))[0]}' stands in no file"
        for it in blocks
        if not repository.has_block(it)
    ]
    return dict.fromkeys([*told, *links_missing(page, text), *limits_wrong(repository, text)])


def spans_of(text):
    """Returns what stands in backticks, and the lines of indented blocks.

    What the kit says of itself is not of the repository.
    """
    spans = re.findall(r"`([^`\n]+)`", text) + re.findall(r"(?m)^ {4}(?=\S)(.+)", text)
    return [span for span in spans if not re.match(r"rt \w+$|rattle-kit-", span)]


def names_missing(repository, page, span):
    for word in ESCAPES.sub(" ", span).split():
        if repository.looks_like_a_path(word):
            if not repository.has_path(page, word):
                yield f"`{span}` names {word}, which is not there"
            continue
        for name in re.findall(r"(?<!\w)[A-Za-z_]\w*(?:::\w+)*", word):
            if not repository.has_together(name.split("::")) and not re.fullmatch(r"[A-Z]+", name):
                yield f"`{span}`: no source has {name}"


def columns_of(block):
    """The columns of a block that has lines between them, and else the block."""
    rows = [row.split("│") for row in block.rstrip("\n").split("\n")]
    return ["\n".join(column) for column in zip(*rows)] if len({len(row) for row in rows}) == 1 else [block]


def anchor(heading):
    """Returns what links call a heading."""
    return re.sub(r"[^\w\- ]", "", heading.lower()).replace(" ", "-")


def links_missing(page, text):
    for link, heading in re.findall(r"\]\(([^)#\s]*)#?([^)\s]*)\)", text):
        file = (TOP / page).parent.joinpath(link) if link else TOP / page
        if "://" in link:
            continue
        if not file.exists():
            yield f"links {link}, which is not there"
        elif heading and heading not in map(anchor, re.findall(r"(?m)^#+ (.*)$", file.read_text())):
            yield f"links {link}#{heading}, and that page has no such heading"


def value_of(repository, path):
    """Returns the number of the constant `crate::NAME` or `crate::Type::NAME`, written in numbers and constants of its
    crate.
    """
    crate, *_, name = path.split("::")
    of_crate = "\n".join(text for file, text in repository.texts.items() if file.startswith(f"crates/{crate}/src/"))
    found = re.search(rf"\bconst {name}\s*:[^=;]+=([^;]+);", of_crate)
    if not found:
        raise ValueError(f"no constant {path} in a source")
    written = re.sub(r"\bas \w+|(?<=\d)_(?=\d)|(?<=\d)_?[iu](8|16|32|64|128|size)\b", "", found[1]).strip()
    written = re.sub(r"(?:\w+::)*([A-Z][A-Z_]+)", lambda it: str(value_of(repository, f"{crate}::{it[1]}")), written)
    if not re.fullmatch(r"[-\d\s*+()<]+", written):
        raise ValueError(f"{path} is no number that can be read: {written}")
    return eval(written)


def limits_wrong(repository, text):
    """A row that ends with a constant has the constant's number in the cell before it."""
    for row in text.split("\n"):
        for name in CONSTANT.findall(row):
            _, what, *_, number, _, _ = (cell.strip() for cell in row.split("|"))
            try:
                value = value_of(repository, name)
                if number != f"{value:,}":
                    yield f"the limit of {what} is {value:,} ({name}), and not {number}"
            except ValueError as error:
                yield f"the limit of {what}: {error}"
