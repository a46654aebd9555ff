"""XML as a tree whose elements know their lines. Entities, document types and includes are refused, never followed."""

from dataclasses import dataclass, field
from io import BytesIO
from xml.sax import SAXParseException
from xml.sax.handler import ContentHandler
from xml.sax.xmlreader import InputSource

from defusedxml.common import DefusedXmlException
from defusedxml.expatreader import DefusedExpatParser

from .listing import Place, Refused, plain, quoted, read_bytes
from .quantities import hint

MOST_BYTES = 8 * 1_048_576
DEEPEST = 64  # elements in one another
MOST_ELEMENTS = 200_000


@dataclass
class Element:
    place: Place
    tag: str
    attributes: dict
    children: list = field(default_factory=list)
    pieces: list = field(default_factory=list)

    @property
    def text(self):
        """The text between the tags, children apart, without blanks around it."""
        return "".join(self.pieces).strip()

    def all(self, tag):
        return [child for child in self.children if child.tag == tag]

    def first(self, tag):
        return next(iter(self.all(tag)), None)

    def get(self, name):
        """Returns the attribute, which is required."""
        if name not in self.attributes:
            raise Refused(self.place, f"<{plain(self.tag)}> lacks the attribute {name}")
        return self.attributes[name]

    def content(self, what):
        """Returns the text between the tags, which is required."""
        text = self.text
        if not text or self.children:
            raise Refused(self.place, f"{what} is {quoted(text)}, and not a text{hint(text)}")
        return text


class Builder(ContentHandler):
    """Makes the tree of a file as it is read."""

    def __init__(self, file):
        super().__init__()
        self.file, self.root, self.open, self.count = file, None, [], 0

    def place(self):
        return Place(self.file, self.locator.getLineNumber())

    def setDocumentLocator(self, locator):
        self.locator = locator

    def startElement(self, tag, attributes):
        place = self.place()
        if tag.partition(":")[2] == "include" and tag != "xacro:include":
            raise Refused(place, f"<{plain(tag)}>: what is included elsewhere is not read")
        if len(self.open) == DEEPEST:
            raise Refused(place, f"there are more than {DEEPEST} elements in one another")
        self.count += 1
        if self.count > MOST_ELEMENTS:
            raise Refused(place, f"there are more than {MOST_ELEMENTS} elements")
        element = Element(place, tag, dict(attributes.items()))
        if self.open:
            self.open[-1].children.append(element)
        else:
            self.root = element
        self.open.append(element)

    def endElement(self, tag):
        self.open.pop()

    def characters(self, content):
        self.open[-1].pieces.append(content)


def xml_file(path):
    """Returns the root of the file's tree."""
    builder, parser = Builder(path), DefusedExpatParser(forbid_dtd=True)
    parser.setContentHandler(builder)
    source = InputSource()
    source.setByteStream(BytesIO(read_bytes(path, MOST_BYTES)))
    try:
        parser.parse(source)
    except SAXParseException as error:
        place = Place(path, max(error.getLineNumber() or 1, 1))
        raise Refused(place, f"this is no XML: {error.getMessage()}") from None
    except DefusedXmlException:
        raise Refused(builder.place(), "a document type, in which entities are declared, is not read") from None
    except (LookupError, ValueError):
        raise Refused(Place(path, 1), "its encoding is not known") from None
    return builder.root
