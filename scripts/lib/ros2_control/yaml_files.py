"""YAML as parameters that know their lines, in the manner of ROS 2: `NODE: ros__parameters: a: b: 1` is `a.b` of NODE.

Anchors, aliases, tags and a second document are refused, as is a key that stands twice."""

import re
from dataclasses import dataclass, field

import yaml

from .listing import Place, Refused, plain, quoted, read_bytes
from .quantities import FORM, number, whole

MOST_BYTES = 1_048_576
DEEPEST = 32  # mappings and lists in one another
PARAMETERS = "ros__parameters"
# What YAML reads as a number, a boolean or nothing, unless it stands in quotes.
NO_TEXT = re.compile(
    rf"{FORM.pattern}|0[xo][0-9a-f]+|[-+]?\.inf|\.nan|true|false|yes|no|y|n|on|off|null|~|", re.IGNORECASE | re.ASCII
)
BOOLEANS = {"true": True, "false": False}


@dataclass
class Node:
    """A value: a text, a list of nodes, or a mapping from keys to nodes. A mapping knows the place of each key."""

    place: Place
    value: object
    is_plain: bool = False  # without quotes
    keys: dict = field(default_factory=dict)

    def is_mapping(self):
        return isinstance(self.value, dict)

    def text(self, what):
        if not isinstance(self.value, str) or self.is_plain and NO_TEXT.fullmatch(self.value):
            raise Refused(self.place, f"{what} is {self.shown()}, and not a text")
        return self.value

    def texts(self, what):
        if not isinstance(self.value, list):
            raise Refused(self.place, f"{what} is {self.shown()}, and not a list")
        return [(node.place, node.text(f"an item of {what}")) for node in self.value]

    def number(self, what):
        return number(self.bare(what, "a number"), self.place, what)

    def whole(self, what, least, most):
        return whole(self.bare(what, "a whole number"), self.place, what, least, most)

    def boolean(self, what):
        text = self.bare(what, "true or false").lower()
        if text not in BOOLEANS:
            raise Refused(self.place, f"{what} is {self.shown()}, and not true or false")
        return BOOLEANS[text]

    def bare(self, what, wanted):
        if not isinstance(self.value, str) or not self.is_plain:
            raise Refused(self.place, f"{what} is {self.shown()}, and not {wanted}")
        return self.value

    def shown(self):
        if not isinstance(self.value, str):
            return "a mapping" if self.is_mapping() else "a list"
        return plain(self.value) if self.is_plain and self.value else quoted(self.value)


class Tree:
    """Makes the tree of a file as it is read, event by event."""

    def __init__(self, file):
        self.file, self.root, self.open, self.documents = file, None, [], 0

    def take(self, event):
        place = Place(self.file, event.start_mark.line + 1)
        if isinstance(event, yaml.DocumentStartEvent):
            self.documents += 1
            if self.documents > 1:
                raise Refused(place, "a second document begins")
        elif isinstance(event, yaml.AliasEvent) or getattr(event, "anchor", None):
            raise Refused(place, "anchors and aliases are not followed")
        elif getattr(event, "tag", None):
            raise Refused(place, f"the tag {quoted(event.tag)} is not followed")
        elif isinstance(event, yaml.ScalarEvent):
            self.put(Node(place, event.value, is_plain=event.style is None))
        elif isinstance(event, (yaml.MappingStartEvent, yaml.SequenceStartEvent)):
            node = Node(place, {} if isinstance(event, yaml.MappingStartEvent) else [])
            self.put(node)
            self.open.append((node, []))
            if len(self.open) > DEEPEST:
                raise Refused(place, f"there are more than {DEEPEST} mappings and lists in one another")
        elif isinstance(event, (yaml.MappingEndEvent, yaml.SequenceEndEvent)):
            self.open.pop()

    def put(self, node):
        """Puts the node where it stands: at the root, at the end of a list, or as a key or a value of a mapping."""
        if not self.open:
            self.root = node
            return
        holder, waiting = self.open[-1]
        if not holder.is_mapping():
            holder.value.append(node)
        elif waiting:
            holder.value[waiting.pop()] = node
        elif not isinstance(node.value, str):
            raise Refused(node.place, "a key is no text")
        elif node.value in holder.value:
            raise Refused(node.place, f"the key {quoted(node.value)} stands twice")
        else:
            waiting.append(node.value)
            holder.keys[node.value] = node.place


def yaml_file(path):
    """Returns the root of the file's tree."""
    data = read_bytes(path, MOST_BYTES)
    try:
        text = data.decode("utf-8")
    except UnicodeDecodeError as error:
        raise Refused(Place(path, data[: error.start].count(b"\n") + 1), "this is no UTF-8") from None
    tree = Tree(path)
    try:
        for event in yaml.parse(text, Loader=yaml.SafeLoader):
            tree.take(event)
    except yaml.MarkedYAMLError as error:
        mark = error.problem_mark or error.context_mark
        place = Place(path, mark.line + 1 if mark else 1)
        raise Refused(place, f"this is no YAML: {plain(error.problem or 'broken')}") from None
    except yaml.reader.ReaderError as error:
        line = text[: error.position].count("\n") + 1
        raise Refused(Place(path, line), "this is no YAML: a character that it may not have") from None
    if tree.root is None or not tree.root.is_mapping():
        raise Refused(tree.root.place if tree.root else Place(path, 1), "there are no nodes with parameters")
    return tree.root


@dataclass
class Parameters:
    """The parameters of a node: each by its name with dots, with its place and its value."""

    node: str
    place: Place
    values: dict


def value_of(values, name):
    """Returns the value of this name, if there is one. Parameters below the name are refused: it is to have a value."""
    below = next((other for other in values if other.startswith(f"{name}.")), None)
    if below:
        raise Refused(values[below].place, f"{quoted(name)} is a mapping, and not a value")
    return values.get(name)


def nodes_of(root, before=""):
    """Returns the parameters of each node of the file, whatever namespace it is in."""
    found = []
    for key, node in root.value.items():
        place, name = root.keys[key], f"{before}/{key.strip('/')}"
        if not node.is_mapping():
            raise Refused(place, f"{quoted(key)} stands before {PARAMETERS}")
        if PARAMETERS not in node.value:
            found += nodes_of(node, name)
            continue
        for other, at in node.keys.items():
            if other != PARAMETERS:
                raise Refused(at, f"{quoted(other)} stands beside {PARAMETERS}")
        inner = node.value[PARAMETERS]
        if not inner.is_mapping():
            raise Refused(inner.place, f"{PARAMETERS} of {quoted(key)} is {inner.shown()}, and not a mapping")
        found.append(Parameters(name, place, flat(inner)))
    return found


def flat(mapping, before=""):
    """Returns the values below a mapping by their names with dots. A value's place is that of its key."""
    found = {}
    for key, node in mapping.value.items():
        name = before + key
        leaf = {name: Node(mapping.keys[key], node.value, node.is_plain)}
        for other, value in (flat(node, f"{name}.") if node.is_mapping() else leaf).items():
            if other in found:
                raise Refused(value.place, f"the parameter {quoted(other)} stands twice")
            found[other] = value
    return found
