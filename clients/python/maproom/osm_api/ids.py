"""The room's names of elements, such as ``n-7``, and the numeric ids of the OpenStreetMap API."""
import enum
import re

# An element with a negative id gets an id from here on: n-7 is node 1000000000000007. An editor takes a negative id
# for an element that was never uploaded. OpenStreetMap has no ids this large, and JavaScript holds them exactly.
FIRST_NEW_ID: int = 10**15

# The ids that a room can hold.
LEAST_ID: int = -(2**63)
GREATEST_ID: int = 2**63 - 1

ID = re.compile(r"-?[0-9]{1,19}")


class Kind(enum.Enum):
    """The kind of an element, by its word in the API."""

    NODE = "node"
    WAY = "way"
    RELATION = "relation"

    @property
    def letter(self) -> str:
        """The letter with which the room's names of this kind begin."""
        return self.value[0]

    @property
    def title(self) -> str:
        """The word that the API's errors have for this kind."""
        return self.value.capitalize()


KINDS_BY_LETTER = {kind.letter: kind for kind in Kind}
KINDS_BY_WORD = {kind.value: kind for kind in Kind}
KIND_ORDER = {"n": 0, "w": 1, "r": 2}


def kind_of(name: str) -> Kind:
    """Returns the kind of a name."""
    return KINDS_BY_LETTER[name[0]]


def number_of(text: str | None) -> int | None:
    """Returns the number that a text spells, if a room can hold it as an id."""
    if text is None or not ID.fullmatch(text):
        return None
    number = int(text)
    return number if LEAST_ID <= number <= GREATEST_ID else None


def api_id(name: str) -> int:
    """Returns the id under which the API shows the element with a name."""
    number = int(name[1:])
    return number if number > 0 else FIRST_NEW_ID - number


def has_api_id(name: str) -> bool:
    """Returns whether an element has an id in the API that is its own. A greater number is the id of an element with a
    negative number, and the id of a lower number does not fit into 64 bits, as editors read it."""
    return FIRST_NEW_ID - GREATEST_ID <= int(name[1:]) <= FIRST_NEW_ID


def room_name(kind: Kind, number: int) -> str:
    """Returns the room's name of the element that the API shows under an id."""
    return f"{kind.letter}{number if number <= FIRST_NEW_ID else FIRST_NEW_ID - number}"


def api_order(name: str) -> tuple[int, int]:
    """Sorts names in the API's order: nodes, ways, relations, each by id."""
    return KIND_ORDER[name[0]], api_id(name)
