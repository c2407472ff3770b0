"""Documents of the API in XML, as editors send them. They come from the network, so they are read piece by piece, and
reading ends at the first piece that is too much."""
import contextlib
from collections.abc import Iterator, Sequence
from typing import Generic, TypeVar
from xml.etree.ElementTree import Element, ParseError, tostring

from defusedxml import DefusedXmlException
from defusedxml.ElementTree import DefusedXMLParser

from ..xml_elements import MOST_CHARACTERS, XmlMember
from .documents import Change, ChangeAction, GivenElement, GivenMember
from .errors import ApiError, bad_request, too_many_changes
from .ids import KINDS_BY_WORD, Kind, number_of
from .planner import MOST_ACTIONS

# How many changes an upload has at most. Those that do nothing count, too.
MOST_STEPS = MOST_ACTIONS

# How many elements a document has at most, with its comments, and how many levels. An upload needs four levels.
MOST_ELEMENTS, MOST_DEPTH = 250_000, 10

# How many names of elements and attributes a document has at most. The parser keeps each of them.
MOST_NAMES = 1_000

# How many bytes a tag with its attributes, or a comment, has at most. The parser reads an unfinished one again with
# each piece.
MOST_TAG_BYTES = 65_536

# How many bytes are read at once, which takes about 5 milliseconds.
PIECE_BYTES = 8_192

# How many tags a changeset has at most.
MOST_CHANGESET_TAGS = 200

MOST_SOURCE = 200
ACTIONS = {action.value: action for action in ChangeAction}

Content = TypeVar("Content")


class Document(Generic[Content]):
    """What a parser has found in a document. A subclass says what its elements are by `opened` and `closed`."""

    def __init__(self) -> None:
        self._depth = self._count = 0
        self._names: set[str] = set()

    def opened(self, depth: int, tag: str, attributes: dict[str, str]) -> None:
        """Takes the beginning of an element. The root has the depth 0."""

    def closed(self, depth: int) -> None:
        """Takes the end of an element."""

    def content(self) -> Content:
        """Returns what the whole document says. Raises ApiError 400."""
        raise NotImplementedError

    # what the parser calls

    def start(self, tag: str, attributes: dict[str, str]) -> None:
        """Takes the beginning of an element. Raises ApiError."""
        self._count_one()
        self._note_names({tag, *attributes})
        if self._depth == MOST_DEPTH:
            raise bad_request(f"The document has more than {MOST_DEPTH} levels")
        self.opened(self._depth, tag, attributes)
        self._depth += 1

    def end(self, tag: str) -> None:
        """Takes the end of an element. Raises ApiError."""
        self._depth -= 1
        self.closed(self._depth)

    def start_ns(self, prefix: str, address: str) -> None:
        """Takes a namespace, which no document of the API has."""
        self._note_names({f"xmlns:{prefix}", address})

    def data(self, text: str) -> None:
        """Passes text over, since no document of the API has any."""

    def comment(self, text: str) -> None:
        """Counts a comment."""
        self._count_one()

    def pi(self, target: str, text: str) -> None:
        """Counts an instruction."""
        self._count_one()

    def _count_one(self) -> None:
        """Counts an element. Raises ApiError 413."""
        self._count += 1
        if self._count > MOST_ELEMENTS:
            raise ApiError(413, f"The document has more than {MOST_ELEMENTS:,} elements. Nothing was uploaded.")

    def _note_names(self, names: set[str]) -> None:
        """Notes names. Raises ApiError 400 if there are too many."""
        if not names <= self._names:
            self._names |= names
            if len(self._names) > MOST_NAMES:
                raise bad_request(f"The document has more than {MOST_NAMES:,} names of elements and attributes")


class Reader(Generic[Content]):
    """Reads a document.

    Its calls raise ApiError 400 if the document is not well-formed, or has a document type, which no editor sends, and
    what the document raises."""

    def __init__(self, document: Document[Content]) -> None:
        self._document = document
        self._parser = DefusedXMLParser(target=document, forbid_dtd=True)
        self._length = 0

    def feed(self, piece: bytes) -> None:
        """Reads the next piece, of `PIECE_BYTES` at most."""
        with refused():
            self._parser.feed(piece)
        self._length += len(piece)
        if self._length - self._parser.parser.CurrentByteIndex > MOST_TAG_BYTES:
            raise bad_request(f"A tag of the document has more than {MOST_TAG_BYTES // 1024} KiB")

    def end(self) -> Content:
        """Ends the document, and returns what it says."""
        with refused():
            self._parser.close()
        return self._document.content()


@contextlib.contextmanager
def refused() -> Iterator[None]:
    """Has the exceptions of the parser be refusals."""
    try:
        yield
    except DefusedXmlException as fault:
        raise bad_request("Document types and entities are not accepted") from fault
    except (ParseError, LookupError, ValueError) as fault:
        raise bad_request(f"Cannot parse valid XML: {fault}") from fault


class ElementContent:
    """An element whose content is being read."""

    def __init__(self, kind: Kind, attributes: dict[str, str]) -> None:
        self._kind, self._attributes = kind, attributes
        self._references: list[GivenMember] = []
        self._tags: list[tuple[str, str]] = []

    def add(self, tag: str, attributes: dict[str, str]) -> None:
        """Takes an element right below this one. Raises ApiError 400 for a member of an unknown type."""
        if tag == "tag":
            self._tags.append((attributes.get("k", ""), attributes.get("v", "")))
        elif tag == "nd" and self._kind is Kind.WAY:
            self._references.append(GivenMember(Kind.NODE, number_of(attributes.get("ref"))))
        elif tag == "member" and self._kind is Kind.RELATION:
            given = XmlMember(attributes.get("type"), attributes.get("ref"), attributes.get("role", ""))
            self._references.append(member_of(given))

    def whole(self) -> GivenElement:
        """Returns the element."""
        attributes = self._attributes
        return GivenElement(
            self._kind,
            number_of(attributes.get("id")),
            number_of(attributes.get("version")),
            number_of(attributes.get("changeset")),
            attributes.get("lat"),
            attributes.get("lon"),
            self._references,
            self._tags,
            source_of(self._kind.value, attributes),
        )


def member_of(member: XmlMember) -> GivenMember:
    """Returns a member of a relation. Raises ApiError 400 if its type is not a kind."""
    kind = KINDS_BY_WORD.get((member.kind or "").lower())
    if kind is None:
        raise bad_request(f"Unknown member type {member.kind}, choices are node, way, relation")
    return GivenMember(kind, number_of(member.ref), member.role)


def source_of(tag: str, attributes: dict[str, str]) -> str:
    """Returns the beginning of the text of an element, which errors show."""
    text = tostring(Element(tag, attributes), "unicode")
    return text if len(text) <= MOST_SOURCE else f"{text[:MOST_SOURCE]}.."


class Changes(Document[Sequence[Change]]):
    """An osmChange: its steps, in its order."""

    def __init__(self) -> None:
        super().__init__()
        self._changes: list[Change] = []
        self._action, self._if_unused = ChangeAction.CREATE, False
        self._element = ElementContent(Kind.NODE, {})

    def opened(self, depth: int, tag: str, attributes: dict[str, str]) -> None:
        """Takes the root, a block, an element, or what an element has."""
        if depth == 0 and tag != "osmChange":
            raise bad_request(f"Document element should be 'osmChange', and not '{tag}'")
        if depth == 1:
            if tag not in ACTIONS:
                raise bad_request(f"Unknown action {tag}, choices are create, modify, delete")
            self._action, self._if_unused = ACTIONS[tag], "if-unused" in attributes
        elif depth == 2:
            if tag not in KINDS_BY_WORD:
                raise bad_request(f"Unexpected element type {tag}, expected node, way or relation.")
            if len(self._changes) == MOST_STEPS:
                raise too_many_changes(MOST_STEPS)
            self._element = ElementContent(KINDS_BY_WORD[tag], attributes)
        elif depth == 3:
            self._element.add(tag, attributes)

    def closed(self, depth: int) -> None:
        """Takes a step when its element ends."""
        if depth == 2:
            self._changes.append(Change(self._action, self._element.whole(), self._if_unused))

    def content(self) -> Sequence[Change]:
        """Returns the steps."""
        return self._changes


class SingleElement(Document[GivenElement]):
    """The first element of a kind in a document, which is its root or right below it."""

    def __init__(self, kind: Kind) -> None:
        super().__init__()
        self._kind, self._at = kind, -1
        self._element: ElementContent | None = None
        self._is_open = False

    def opened(self, depth: int, tag: str, attributes: dict[str, str]) -> None:
        """Takes the element, or what it has."""
        if self._is_open and depth == self._at + 1 and self._element:
            self._element.add(tag, attributes)
        elif self._element is None and tag == self._kind.value and depth <= 1:
            self._element, self._at, self._is_open = ElementContent(self._kind, attributes), depth, True

    def closed(self, depth: int) -> None:
        """Passes over what comes after the element."""
        if depth == self._at:
            self._is_open = False

    def content(self) -> GivenElement:
        """Returns the element. Raises ApiError 400 if there is none."""
        if self._element is None:
            word = self._kind.value
            raise bad_request(f"Cannot parse valid {word} from xml string. XML doesn't contain an osm/{word} element.")
        return self._element.whole()


class ChangesetTags(Document[dict[str, str]]):
    """The tags of a changeset."""

    def __init__(self) -> None:
        super().__init__()
        self._tags: dict[str, str] = {}

    def opened(self, depth: int, tag: str, attributes: dict[str, str]) -> None:
        """Takes a tag. Raises ApiError 400 if it is too long, or one too many."""
        if tag != "tag":
            return
        key, value = attributes.get("k", ""), attributes.get("v", "")
        if max(len(key), len(value)) > MOST_CHARACTERS:
            raise bad_request(f"A key and a value of a changeset have at most {MOST_CHARACTERS} characters")
        self._tags[key] = value
        if len(self._tags) > MOST_CHANGESET_TAGS:
            raise bad_request(f"A changeset has at most {MOST_CHANGESET_TAGS} tags")

    def content(self) -> dict[str, str]:
        """Returns the tags."""
        return self._tags


def pieces_of(data: bytes) -> Iterator[bytes]:
    """Yields bytes in pieces that are read at once."""
    for start in range(0, len(data), PIECE_BYTES):
        yield data[start : start + PIECE_BYTES]


def read_whole(document: Document[Content], data: bytes) -> Content:
    """Returns what a document says that is there as a whole. Raises ApiError."""
    reader = Reader(document)
    for piece in pieces_of(data):
        reader.feed(piece)
    return reader.end()
