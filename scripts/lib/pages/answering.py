"""Which definitions of a crate's specs answer a printed word."""

import re

from ..tree import TOP

HEAD = re.compile(r"(?m)^(?:abbrev |unfoldable )?pub (?!use |mod )(?:record )?(\w+)\b.*$")
PRINTING = ("Trace.antt", "Causes.antt")  # what stands there answers nothing


def read(name):
    return (TOP / name).read_text()


class Definitions:
    """The definitions of a crate's specs: of each its file, and what stands right of the equality signs."""

    def __init__(self, crate):
        self.file, self.body, self.cases = {}, {}, {}
        for path in sorted((TOP / f"crates/{crate}/specs").glob("*.antt")):
            text = re.sub(r"(?m)(^|\s)--\s.*", "", path.read_text())
            self.cases[path.name] = self.names_of_cases(text)
            parts = [(it[1], it.start()) for it in HEAD.finditer(text)]
            for (name, begin), (_, end) in zip(parts, [*parts[1:], ("", len(text))]):
                self.file[name] = path.name
                equations = re.split(rf"\n(?={name} )", text[begin:end])[1:]
                self.body[name] = "\n".join(it.split(" = ", 1)[-1] for it in equations)

    @staticmethod
    def names_of_cases(text):
        """Returns, of each type, how the file writes its cases: behind this word, or as they are."""
        found = {kind: f"{alias}." for kind, alias in re.findall(r"(?m)^use .*\.(\w+)\.TheVariants as (\w+)$", text)}
        found.update({kind: "" for kind in re.findall(r"(?m)^use .*\.(\w+)\.TheVariants\.\{", text)})
        return found

    def answering(self, kind, case, named):
        """Returns the definitions that answer the case and are named, or else those of their file that use them."""
        if not kind:
            return [case] if case in self.body and case in named else []
        found = [name for name in self.body if self.file[name] not in PRINTING and self.has_case(name, kind, case)]
        reached = set()
        while unnamed := [name for name in found if name not in named and name not in reached]:
            reached.update(unnamed)
            above = [other for other in self.body for name in unnamed if self.uses(other, name)]
            found = [*dict.fromkeys([name for name in found if name not in unnamed] + above)]
        return [name for name in found if name in named]

    def has_case(self, name, kind, case):
        prefix = self.cases[self.file[name]].get(kind)
        return prefix is not None and re.search(rf"(?<![\w.]){re.escape(prefix)}{case}\b", self.body[name])

    def uses(self, other, name):
        return self.file[other] == self.file[name] and re.search(rf"\b{name}\b", self.body[other])
