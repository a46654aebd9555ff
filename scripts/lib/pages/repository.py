"""The files of the repository, and what they say."""

import os
import re
from collections import defaultdict
from fnmatch import fnmatch
from pathlib import Path

from ..tree import TOP

PAGE = re.compile(r"README\.md|docs/[^/]*\.md|(examples|crates/[^/]*)/README\.md")
WORD = re.compile(r"(?<!\w)[A-Za-z_]\w*")
OF_SCRIPTS = re.compile(r"(?m)(^|\s)#.*")
COMMENTS = {
    ".rt": re.compile(r"(?m)(^|\s)//.*"),
    ".antt": re.compile(r"(?m)(^|\s)--\s.*"),
    ".py": OF_SCRIPTS,
    "": OF_SCRIPTS,
}


class Repository:
    """The files but for what is built, what they say, and the places that there are."""

    def __init__(self):
        files = sorted(walked())
        self.pages = [name for name in files if PAGE.fullmatch(name)]
        self.texts = {name: self.text(name) for name in files if not name.endswith((".md", ".edit"))}
        self.squeezed = [squeezed(text) for text in self.texts.values()]
        places = {f"/{place}" for name in files for place in (Path(name), *Path(name).parents)}
        self.places = {place[at:] for place in places for at, letter in enumerate(place) if letter == "/"}
        self.folders = {part for place in places for part in Path(place).parent.parts} | {".", ".."}
        self.endings = {Path(name).suffix for name in files} - {""}
        self.having = defaultdict(set)
        for name in files:
            for word in WORD.findall(f"{name} {self.texts.get(name, '')}"):
                self.having[word].add(name)

    def text(self, name):
        """Returns what a file says, without its comments."""
        text = (TOP / name).read_text(errors="replace")
        comment = COMMENTS.get(Path(name).suffix)
        return comment.sub("", text) if comment else text

    def has_together(self, words):
        """Whether one file has all of these words, in its text or in its name."""
        return bool(set.intersection(*(self.having.get(word, set()) for word in words)))

    def has_block(self, block):
        """Whether one file has this text, blanks and ends of lines apart."""
        return any(squeezed(block) in text for text in self.squeezed)

    def looks_like_a_path(self, word):
        first, slash, _ = word.partition("/")
        return slash and (first in self.folders or Path(word).suffix in self.endings)

    def has_path(self, page, path):
        """A path is meant from the page, from the top, or from a folder that the page spoke of."""
        name = path.removeprefix("./").rstrip("/")
        if (TOP / page).parent.joinpath(path).exists() or f"/{name}" in self.places:
            return True
        return re.search(r"[*?[]", name) is not None and any(fnmatch(place, f"*/{name}") for place in self.places)


def walked():
    for folder, below, names in os.walk(TOP):
        below[:] = [name for name in below if name not in (".git", "out")]
        yield from (os.path.relpath(os.path.join(folder, name), TOP) for name in names)


def squeezed(text):
    return re.sub(r"\s+", "", text).replace(",)", ")")
