"""A copy of a crate in which wrong bodies are planted, and what the prover says of them."""

import re
import shutil
import sys

from ..edits import Edit
from ..kit import are_below, asked, crate
from .functions import citing_constant_at, function_at, functions

# A proof that leaves all open. Callers may rest on the function's contract all the same.
OPEN = """use {module}.Statement.{{statement}}

pub {name}_spec : {{M : Type 1}} → statement M
{name}_spec = ?
"""

# What is said where a proof file names what the wrong body does not have: that shows nothing of a contract.
OF_NAMES = re.compile(r"has no field|is not in scope|has no `|was not admitted|no goal|is not declared|unknown")


class WrongBody(Edit):
    """An edit of one body, or of a constant that bodies cite."""

    def __init__(self, path):
        super().__init__(path)
        self.crate, self.title = path.parent.name, f"{path.parent.name}/{path.stem}"

    def functions(self, texts):
        """The functions that it turns; none if it changes something else too."""
        found = {}
        for file, old, _ in self.changes:
            if texts[file].count(old) != 1:
                sys.exit(f"{self.path}: its old text stands {texts[file].count(old)} times in {file}")
            function = function_at(file, texts[file].index(old), texts)
            if function is None:
                return []
            found[file, function.start] = function
        return [*found.values()]

    def citing(self, texts):
        """The functions that cite the one constant that it changes."""
        (file, old, _), *more = self.changes
        return [] if more else citing_constant_at(file, texts[file].index(old), texts)

    def turned(self, text):
        for _, old, new in self.changes:
            text = text.replace(old, new)
        return text


class PlantedCrate:
    """A copy of a crate, in which wrong bodies are planted."""

    def __init__(self, copy, name):
        self.copy, self.folder = copy, copy / "crates" / name
        self.name, self.asked, self.others, self.later, self.alone = name, {}, [], [], []
        self.texts = {str(it.relative_to(self.folder)): it.read_text() for it in self.folder.glob("src/**/*.rt")}
        self.inserts, self.in_place = {}, {}

    def plant(self, edits, alone):
        for number, edit in enumerate(edits):
            function, *more = edit.functions(self.texts) or [None]
            file = edit.changes[0][0]
            if function is None or more:
                self.turn_together(edit, [function, *more] if more else edit.citing(self.texts), alone)
            elif function.trait or function.calls_itself:
                self.turn(edit, file, function)
            else:
                self.add(edit, file, function, f"{function.name}_{number}")
        for file, text in self.texts.items():
            added = [(end, end, new) for end, new in self.inserts.get(file, [])]
            for start, end, new in sorted([*added, *self.left_open(file)], reverse=True):
                text = text[:start] + new + text[end:]
            for edit in self.in_place.get(file, {}).values():
                text = edit.turned(text)
            (self.folder / file).write_text(text)

    def turn(self, edit, file, function):
        taken = self.in_place.setdefault(file, {})
        if function.start in taken:
            self.later.append(edit)
            return
        taken[function.start] = edit
        self.asked[edit] = ["::".join([self.name, *function.path])]

    def turn_together(self, edit, functions, alone):
        """Turns several functions where they stand, or a constant that these cite."""
        if not functions:
            self.others.append(edit)
        elif alone:
            self.in_place = {file: {0: edit} for file, _, _ in edit.changes}
            self.asked[edit] = ["::".join([self.name, *it.path]) for it in functions]
        else:
            self.alone.append(edit)

    def add(self, edit, file, function, name):
        """Plants the wrong body under this name beside its function."""
        text, (first, end) = self.texts[file], function.named
        text = text[function.start : first] + name + text[end : function.end]
        self.inserts.setdefault(file, []).append((function.end, "\n" + edit.turned(text)))
        *above, _ = function.path
        self.asked[edit] = ["::".join([self.name, *above, name])]
        was, new = (self.folder.joinpath("proofs", *above, it) for it in (function.name, name))
        if was.is_dir():
            shutil.copytree(was, new)
            for proof in new.glob("**/*.antt"):
                old_path, new_path = (".".join(["", "proofs", *above, it, ""]) for it in (function.name, name))
                proof.write_text(proof.read_text().replace(old_path, new_path))

    def left_open(self, file):
        """Leaves bodies and proofs of a file's other functions open: the gate has proved them, and to do so again takes
        longest. Those that call one another stay, because their proof is one. Yields what is put where.
        """
        asked = {name for names in self.asked.values() for name in names}
        for function in functions(file, self.texts):
            if function.calls_itself or "::".join([self.name, *function.path]) in asked:
                continue
            place = self.folder.joinpath("proofs", *function.path)
            shutil.rmtree(place, ignore_errors=True)
            place.mkdir(parents=True)
            module = ".".join(["Rattle", self.name, "proofs", *function.path])
            (place / "Proof.antt").write_text(OPEN.format(module=module, name=function.name))
            if function.body:
                yield *function.body, "\nunreachable!()\n"

    def check(self, kept, jobs):
        """What the prover says of the planted bodies."""
        of = crate(self.name, self.copy)
        only = [word for names in self.asked.values() for name in names for word in ("--only", name)]
        words = of.words(["--jobs", str(jobs), "--allow-holes", *only], as_source=not are_below(of))
        return asked(of, words, kept)[1]


def verdict(names, said):
    """Whether a wrong body is refused, by one of the functions that were asked for it, and by what."""
    each = [verdict_of(it, said) for it in names]
    return next((it for it in each if it[0]), each[0])


def verdict_of(name, said):
    own = re.escape(name.split("::", 1)[1].replace("::", "/"))
    closures = "::(?:fn::)?".join(map(re.escape, name.split("::")))
    line = re.search(rf"(?m)^fn {re.escape(name)}: (.*)", said)
    if not line:
        return False, "the prover says nothing of it"
    errors = re.findall(rf"(?m)^(?:\./)?proofs/{own}/(\w+)\.antt:\S+ (error.*(?:\n  .*)*)", said)
    if any(file == "Invariants" and OF_NAMES.search(it) for file, it in errors):
        # Without its invariant each goal of a loop fails, whatever the body does.
        return False, "refused by a name of an invariant alone"
    # Goals stand above the line of their function. Those of its closures are its own.
    lines = [*re.finditer(rf"(?m)^fn {closures}::\S+: ", said), line]
    above = "\n".join(said[: it.start()].rpartition("\nfn ")[2] for it in lines)
    goals = re.findall(r"(?m)^note: \S+: .* \(`(\S+)`\)", above)
    if goals:
        return True, f"refused at {', '.join(dict.fromkeys(goals[:3]))}"
    if any(not OF_NAMES.search(it) for _, it in errors):
        return True, f"refused at {', '.join(re.findall(r'Answers.([^`]+)`', line[1])) or 'an answer'}"
    if errors:
        return False, "refused by a name alone"
    return False, "LET THROUGH" if line[1].startswith(("no holes", "depends on a hole")) else line[1]
