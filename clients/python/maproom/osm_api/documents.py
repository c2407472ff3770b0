"""What the documents of the API say, in whichever format they are written."""
import enum
from collections.abc import Mapping, Sequence
from dataclasses import dataclass, field
from datetime import datetime, timezone

from .elements import Row
from .ids import Kind


class ChangeAction(enum.Enum):
    """What an upload does with an element."""

    CREATE = "create"
    MODIFY = "modify"
    DELETE = "delete"


@dataclass(frozen=True, slots=True)
class GivenMember:
    """A member of a relation, or a node of a way, as an editor refers to it."""

    kind: Kind
    number: int | None
    role: str = ""


@dataclass(frozen=True, slots=True)
class GivenElement:
    """An element as an editor sends it. Coordinates are texts, since only some actions need them."""

    kind: Kind
    number: int | None
    version: int | None = None
    changeset: int | None = None
    latitude: str | None = None
    longitude: str | None = None
    references: Sequence[GivenMember] = ()
    tags: Sequence[tuple[str, str]] = ()
    source: str = ""

    @property
    def within(self) -> str:
        """How errors name the element."""
        return f"{self.kind.value} {self.number}"


@dataclass(frozen=True, slots=True)
class Change:
    """One step of an upload."""

    action: ChangeAction
    element: GivenElement
    if_unused: bool = False


@dataclass(frozen=True)
class ElementState:
    """An element as editors see it. A deleted element has no row."""

    name: str
    row: Row | None
    version: int
    changeset: int
    time: int
    author: str


@dataclass(frozen=True)
class Bounds:
    """A bounding box in ten-millionths of a degree."""

    south: int
    west: int
    north: int
    east: int

    def holds(self, latitude: int, longitude: int) -> bool:
        """Returns whether a position lies in the box, also on its border."""
        return self.south <= latitude <= self.north and self.west <= longitude <= self.east


@dataclass
class Changeset:
    """A changeset, which groups the uploads of a mapper. Times are seconds since 1970."""

    number: int
    author: str
    opened: float
    tags: Mapping[str, str] = field(default_factory=dict)
    closed: float | None = None
    count: int = 0


@dataclass(frozen=True, slots=True)
class ResultRow:
    """What became of an element of an upload. A deleted element has neither a new id nor a new version."""

    kind: Kind
    old_id: int
    new_id: int | None = None
    new_version: int | None = None


@dataclass(frozen=True)
class Limits:
    """What the capabilities report."""

    nodes: int
    members: int
    changes: int
    seconds: int


def instant(seconds: float) -> str:
    """Returns a time in the form of the API."""
    return datetime.fromtimestamp(seconds, timezone.utc).strftime("%Y-%m-%dT%H:%M:%SZ")
