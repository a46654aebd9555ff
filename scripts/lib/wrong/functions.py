"""Where functions and constants stand in the sources of a crate, and what the prover calls them."""

import re

TYPE = r"(?m)^ *(?:pub(?:\([a-z]+\))? )?(?:struct|enum) {}\b"
FUNCTION = re.compile(r"(?m)^(?P<indent> *)(?:pub(?:\([a-z]+\))? )?(?:const |unsafe )*fn (?P<name>\w+)")
BLOCK = re.compile(r"(?m)^impl\b(?P<head>[^{;]*)\{$")
CONSTANT = re.compile(r"(?m)^(?:pub(?:\([a-z]+\))? )?const (?P<name>\w+): (?:.|\n)*?;$")


class Function:
    """A function as it stands in the text of a file, which is in rt fmt's layout: it ends with a bracket that is set in
    as it is.
    """

    def __init__(self, file, texts, found):
        text, indent = texts[file], found["indent"]
        self.name, self.named = found["name"], found.span("name")
        last = re.compile(rf"(?m)^{indent}\{{?\}}$").search(text, found.end())
        self.end = last.end()
        first = re.compile(rf"(?m)^{indent}\{{$").search(text, found.end(), self.end)
        first = first or re.compile(r"(?m)\{$").search(text, found.end(), self.end)
        self.body = (first.end(), last.start()) if first else None  # None if it is empty
        lines = text[: found.start()].split("\n")
        while len(lines) > 1 and lines[-2].startswith((f"{indent}#[", f"{indent}///")):
            lines.pop(-2)
        self.start = len("\n".join(lines))
        self.calls_itself = "#[cycle" in text[self.start : found.start()]
        self.trait = False
        self.path = [*(self.owner(file, texts, found.start()) if indent else module(file)), self.name]

    def owner(self, file, texts, at):
        """Where the prover has the block that a method stands in: a trait's in the file, by the type and behind it the
        trait, and any other where its type is declared."""
        head = [*BLOCK.finditer(texts[file], 0, at)][-1]["head"].split(" where")[0]
        generics = re.match(r"<(.*?)>(?= )", head)
        head = head.removeprefix(generics[0] if generics else "")
        trait, _, ty = head.rpartition(" for ")
        self.trait = bool(trait)
        if not trait:
            name = re.match(r"\s*(?:\w+::)*(\w+)", ty)[1]
            homes = [it for it in [file, *texts] if re.search(TYPE.format(name), texts[it])]
            return [*module(homes[0] if homes else file), name]
        words = re.findall(r"(?<!')\b\w+\b(?!::)", f"{ty} {trait}")
        own = re.findall(r"(\w+)(?:: [^,]*)?(?:, |$)", generics[1] if generics else "")
        return [*module(file), "".join(it[0].upper() + it[1:] for it in words if it not in [*own, "mut"])]


def module(file):
    """The path of a file's module below its crate."""
    return [*filter(None, re.sub(r"^src/|(?:/?(?:lib|main))?\.rt$", "", file).split("/"))]


def functions(file, texts):
    text = texts[file]
    for found in FUNCTION.finditer(text):
        # A signature in a trait has no body.
        head = text[found.end() : text.find("\n\n", found.end())]
        ends = f"\n{found['indent']}}}\n" in text[found.end() :]
        if ends and re.search(rf"(?m)\{{$|^{found['indent']}\{{", head):
            yield Function(file, texts, found)


def function_at(file, at, texts):
    """Returns the function that has this place in its text, or None."""
    return next((it for it in functions(file, texts) if it.start <= at < it.end), None)


def citing_constant_at(file, at, texts):
    """Returns the functions that cite the constant that has this place in its text."""
    constants = [it["name"] for it in CONSTANT.finditer(texts[file]) if it.start() <= at < it.end()]
    if not constants:
        return []
    cited = re.compile(rf"\b{constants[0]}\b")
    each = [(it, texts[name]) for name in texts if cited.search(texts[name]) for it in functions(name, texts)]
    return [it for it, text in each if cited.search(text, it.start, it.end)]
