"""Plans an upload: turns the steps of an osmChange into actions of the room.

The plan makes each of the API's checks on the map as the earlier steps leave it, in the order of the document. It
changes nothing. All actions together go to the room as one group, which the room accepts or refuses as a whole."""
from collections.abc import Collection, Iterable, Iterator, Sequence
from dataclasses import dataclass, field
from typing import Protocol

from ..xml_elements import LEAST_NODES, MOST_CHARACTERS, MOST_MEMBERS, MOST_NODES, MOST_TAGS
from . import errors
from .connection import Action
from .documents import Change, ChangeAction, GivenElement, GivenMember
from .elements import Row, compact, coordinate_text, digest, is_in_world, references, sayable, text_units, units_of
from .ids import Kind, api_id, api_order, kind_of, room_name

# How many actions a group holds at most.
MOST_ACTIONS = 10_000

# Up to how many elements an upload always fits: an element takes two actions at most, such as a retag and a move.
MOST_CHANGES = MOST_ACTIONS // 2

# A message to the room holds 64 MiB at most.
MOST_BYTES = 60 * 2**20


class MapView(Protocol):
    """What a plan asks of a map."""

    @property
    def first_new_number(self) -> int:
        """A number such that it and all lower numbers above -2^52 were never in a name."""

    def row(self, name: str) -> Row | None:
        """Returns an element, or None if it is not there."""

    def users(self, name: str) -> Collection[str]:
        """Returns the names of the elements that refer to an element."""

    def version(self, name: str) -> int | None:
        """Returns the version of an element, also of a deleted element; None if it was never known."""


@dataclass(frozen=True)
class Planned:
    """What becomes of an element of the document: `name` is None if the element is deleted."""

    kind: Kind
    old_id: int
    name: str | None


@dataclass
class Plan:
    """What an upload takes. `rows` has the elements that it touches, as the upload leaves them, and `digests` the
    digest of each element of the results."""

    actions: list[Action] = field(default_factory=list)
    results: list[Planned] = field(default_factory=list)
    rows: dict[str, Row | None] = field(default_factory=dict)
    created: list[str] = field(default_factory=list)
    digests: dict[str, str] = field(default_factory=dict)


def plan_upload(
    changes: Sequence[Change], view: MapView, changeset: int | None = None, most_actions: int = MOST_ACTIONS
) -> Plan:
    """Returns the plan of an upload on a map.

    Raises ApiError: 400 for what a document or a room cannot hold, 404 for elements that the room never had, 409 for
    outdated versions and another changeset, 410 for deleted elements, 412 for references that would dangle, and 413
    for more actions than a group holds."""
    planner = Planner(view, changeset, most_actions)
    planner.add_all(changes)
    return planner.whole()


class Planner:
    """Plans an upload step by step. Its calls raise what `plan_upload` raises.

    No step costs more than its own content and the elements that it changes: `_linked` has the users of each element
    in the plan, and `_users_before` those in the map, which are not counted again for each step.

    New elements get numbers from `first_number` on, or else from the map's first new number."""

    def __init__(
        self,
        view: MapView,
        changeset: int | None = None,
        most_actions: int = MOST_ACTIONS,
        first_number: int | None = None,
    ) -> None:
        self.plan = Plan()
        self._view, self._changeset, self._most_actions = view, changeset, most_actions
        self._placeholders: dict[tuple[Kind, int], str] = {}
        self._versions: dict[str, int] = {}
        self._linked: dict[str, set[str]] = {}
        self._users_before: dict[str, tuple[str, ...]] = {}
        self._moves: dict[tuple[int, int], Action] = {}
        self._next_number = view.first_new_number if first_number is None else first_number

    def add_all(self, changes: Iterable[Change]) -> None:
        """Plans some steps."""
        for change in changes:
            self.add(change)
            if len(self.plan.actions) > self._most_actions:
                raise errors.too_large(self._most_actions)

    def whole(self) -> Plan:
        """Returns the plan of all steps."""
        if sum(len(compact(action)) for action in self.plan.actions) > MOST_BYTES:
            raise errors.ApiError(
                413, "This upload is larger than a room accepts at once. Nothing was uploaded. Upload in smaller parts."
            )
        names = {each.name for each in self.plan.results if each.name}
        self.plan.digests = {name: digest(self._row(name)) for name in names}
        return self.plan

    def add(self, change: Change) -> None:
        """Plans a step."""
        given, changeset = change.element, change.element.changeset
        if self._changeset is not None and changeset is not None and changeset != self._changeset:
            raise errors.changeset_mismatch(changeset, self._changeset)
        if change.action is ChangeAction.CREATE:
            self._create(given)
        elif change.action is ChangeAction.MODIFY:
            self._modify(given)
        else:
            self._delete(given, change.if_unused)

    # the map as the plan leaves it

    def _row(self, name: str) -> Row | None:
        """Returns an element as the plan leaves it, or None."""
        return self.plan.rows[name] if name in self.plan.rows else self._view.row(name)

    def _users(self, name: str) -> Iterator[str]:
        """Yields the other elements that refer to an element as the plan leaves it."""
        yield from (user for user in self._linked.get(name, ()) if user != name)
        if name not in self._users_before:
            self._users_before[name] = tuple(self._view.users(name))
        rows = self.plan.rows
        yield from (user for user in self._users_before[name] if user != name and user not in rows)

    def _version(self, name: str) -> int | None:
        """Returns the version that an editor has to give for an element."""
        return self._versions.get(name, self._view.version(name))

    def _put(self, name: str, row: Row | None) -> None:
        """Notes what an element is to be."""
        self._raise_version(name)
        for used in references(self.plan.rows.get(name)):
            self._linked[used].discard(name)
        self.plan.rows[name] = row
        for used in references(row):
            self._linked.setdefault(used, set()).add(name)

    # names

    def _new_name(self, kind: Kind) -> str:
        """Returns a name that no element had."""
        while True:
            name = f"{kind.letter}{self._next_number}"
            self._next_number -= 1
            if self._version(name) is None:
                return name

    def _name_of(self, member: GivenMember, within: str) -> str:
        """Returns the room's name of a reference in the document."""
        if not member.number:
            raise errors.bad_request(f"The reference to a {member.kind.value} in {within} has no id")
        if member.number > 0:
            return room_name(member.kind, member.number)
        if (member.kind, member.number) not in self._placeholders:
            raise errors.placeholder_not_found(member.kind, member.number, within)
        return self._placeholders[member.kind, member.number]

    def _existing(self, given: GivenElement) -> str:
        """Returns the name of an element that is to be changed, which is there or was."""
        if not given.number:
            raise errors.bad_element(given.kind, given.source, "ID is required when updating.")
        name = self._name_of(GivenMember(given.kind, given.number), given.within)
        if self._version(name) is None:
            raise errors.not_found(given.kind, given.number)
        return name

    def _raise_version(self, name: str) -> None:
        """Notes that a later step of the document has to give the next version, as in the API."""
        self._versions[name] = (self._version(name) or 0) + 1

    def _check_version(self, name: str, given: int) -> None:
        """Refuses the change of another state than the present one."""
        present = self._version(name)
        if present is not None and given != present:
            raise errors.version_mismatch(name, given, present)

    # content

    def _content(self, name: str, given: GivenElement) -> Row:
        """Returns the content of an element of the document, with the room's names."""
        row: Row = {"el": name, "tags": self._tags(given)}
        if given.kind is Kind.NODE:
            row["lat"], row["lon"] = self._position(given)
        elif given.kind is Kind.WAY:
            self._check_length(given)
            row["nodes"] = [int(self._name_of(each, given.within)[1:]) for each in given.references]
        else:
            self._check_length(given)
            row["members"] = [[self._name_of(each, given.within), each.role] for each in given.references]
        self._check_references(row, given)
        return row

    @staticmethod
    def _tags(given: GivenElement) -> dict[str, str]:
        """Returns the tags of an element of the document."""
        tags: dict[str, str] = {}
        for key, value in given.tags:
            if key in tags:
                element = f"{given.kind.value}/{given.number}"
                raise errors.bad_request(f"Element {element} has duplicate tags with key {key}")
            if not 1 <= len(key) <= MOST_CHARACTERS or len(value) > MOST_CHARACTERS:
                raise errors.bad_request(
                    f"A tag of {given.within} is too long or has no key: a key has 1 to "
                    f"{MOST_CHARACTERS} characters, and a value at most {MOST_CHARACTERS}"
                )
            tags[key] = value
        if len(tags) > MOST_TAGS:
            count = len(tags)
            raise errors.bad_request(f"The {given.within} has {count:,} tags, however only {MOST_TAGS:,} are allowed")
        return tags

    @staticmethod
    def _position(given: GivenElement) -> tuple[str, str]:
        """Returns the position of a node of the document."""
        latitude, longitude = units_of(given.latitude), units_of(given.longitude)
        for word, text, units in (("lat", given.latitude, latitude), ("lon", given.longitude, longitude)):
            if units is None:
                why = "missing" if text is None else "not a number"
                raise errors.bad_element(given.kind, given.source, f"{word} {why}")
        assert latitude is not None and longitude is not None
        if not is_in_world(latitude, longitude):
            raise errors.bad_request("The node is outside this world")
        return coordinate_text(latitude), coordinate_text(longitude)

    @staticmethod
    def _check_length(given: GivenElement) -> None:
        """Refuses a way or relation of too few or too many references, or with a role that is too long."""
        count, is_way = len(given.references), given.kind is Kind.WAY
        if is_way and not count:
            raise errors.invalid_way(given.number if given.number and given.number > 0 else None)
        if is_way and count < LEAST_NODES:
            text = f"The {given.within} has {count} node, and a room holds ways of at least {LEAST_NODES}"
            raise errors.bad_request(text)
        most, what = (MOST_NODES, "nodes") if is_way else (MOST_MEMBERS, "members")
        if count > most:
            text = f"You tried to add {count} {what} to {given.within}, however only {most} are allowed"
            raise errors.bad_request(text)
        if any(len(each.role) > MOST_CHARACTERS for each in given.references):
            raise errors.bad_request(f"A role in {given.within} is longer than {MOST_CHARACTERS} characters")

    def _check_references(self, row: Row, given: GivenElement) -> None:
        """Refuses an element that refers to an element that is not there."""
        used = {name for name in references(row) if name != row["el"] and self._row(name) is None}
        for kind in Kind:
            missing = sorted(api_id(name) for name in used if kind_of(name) is kind)
            if missing:
                raise errors.missing_references(given.within.capitalize(), kind, missing)

    # steps

    def _create(self, given: GivenElement) -> None:
        """Plans a new element."""
        number = given.number
        if number is None or number >= 0:
            raise errors.bad_request(f"Placeholder IDs must be below 0 for created elements: {given.within}")
        if (given.kind, number) in self._placeholders:
            raise errors.bad_request("Placeholder IDs must be unique for created elements.")
        name = self._new_name(given.kind)
        self._placeholders[given.kind, number] = name
        row = self._content(name, given)
        self._put(name, row)
        self.plan.actions.append(create_action(row))
        self.plan.created.append(name)
        self.plan.results.append(Planned(given.kind, number, name))

    def _modify(self, given: GivenElement) -> None:
        """Plans the change of an element. A deleted element comes back, as in the API."""
        if given.version is None:
            raise errors.bad_element(given.kind, given.source, "Version is required when updating")
        name = self._existing(given)
        self._check_version(name, given.version)
        row, before = self._content(name, given), self._row(name)
        if before is None:
            self.plan.actions.append(create_action(row))
            self._put(name, row)
        elif self._plan_changes(name, before, row):
            self._put(name, row)
        else:
            self._raise_version(name)
        assert given.number is not None
        self.plan.results.append(Planned(given.kind, given.number, name))

    def _plan_changes(self, name: str, before: Row, row: Row) -> bool:
        """Plans the actions from one content of an element to another, and returns whether it takes any. What XML
        cannot hold stays, if the editor returns what it got."""
        count = len(self.plan.actions)
        tags = changed_tags(before["tags"], row["tags"])
        row["tags"] = with_tags(before["tags"], tags)
        if tags:
            self.plan.actions.append({"do": "retag", "el": name, "tags": tags})
        if "nodes" in row and row["nodes"] != before["nodes"]:
            self.plan.actions.append({"do": "nodes", "el": name, "nodes": row["nodes"]})
        if "members" in row:
            if row["members"] == [[used, sayable(role)] for used, role in before["members"]]:
                row["members"] = before["members"]
            else:
                self.plan.actions.append({"do": "members", "el": name, "members": row["members"]})
        is_moved = "lat" in row and self._plan_move(name, before, row)
        return is_moved or len(self.plan.actions) > count

    def _plan_move(self, name: str, before: Row, row: Row) -> bool:
        """Plans the move of a node, together with the nodes that move as far."""
        north = text_units(row["lat"]) - text_units(before["lat"])
        east = text_units(row["lon"]) - text_units(before["lon"])
        if (north, east) == (0, 0):
            return False
        if (north, east) not in self._moves or name in self.plan.rows:
            action: Action = {"do": "move", "els": [], "dlat": north, "dlon": east}
            self.plan.actions.append(action)
            self._moves[north, east] = action
        self._moves[north, east]["els"].append(name)
        return True

    def _delete(self, given: GivenElement, if_unused: bool) -> None:
        """Plans that an element goes. With `if_unused` an element stays that is used or already deleted."""
        name = self._existing(given)
        assert given.number is not None
        if if_unused and self._stays(name, given):
            self.plan.results.append(Planned(given.kind, given.number, name))
            return
        self._check_delete(name, given)
        if name in references(self._row(name)):  # the room refuses to delete a relation that names itself
            self.plan.actions.append({"do": "members", "el": name, "members": []})
        self._put(name, None)
        self.plan.actions.append({"do": "delete", "el": name})
        self.plan.results.append(Planned(given.kind, given.number, None))

    def _stays(self, name: str, given: GivenElement) -> bool:
        """Returns whether an element is deleted already, or used. Refuses what is outdated."""
        if self._row(name) is None:
            return True
        self._check_version(name, given.version or 0)
        return next(self._users(name), None) is not None

    def _check_delete(self, name: str, given: GivenElement) -> None:
        """Refuses to delete what is deleted, outdated or used."""
        if self._row(name) is None:
            raise errors.already_deleted(given.kind, api_id(name))
        self._check_version(name, given.version or 0)
        users = sorted(self._users(name), key=api_order)
        for kind in (Kind.WAY, Kind.RELATION):
            of_kind = [user for user in users if kind_of(user) is kind]
            if of_kind:
                raise errors.still_used(name, kind, of_kind)


def create_action(row: Row) -> Action:
    """Returns the action that creates an element, with its members in the protocol's order."""
    return {"do": "create", **{key: value for key, value in row.items() if key != "tags"}, "tags": row["tags"]}


def changed_tags(before: dict[str, str], after: dict[str, str]) -> dict[str, str | None]:
    """Returns the tags that differ, with None for those that go. Editors see texts as XML can hold them."""
    keys = {sayable(key): key for key in before}
    tags: dict[str, str | None] = {}
    for shown, key in keys.items():
        if shown not in after:
            tags[key] = None
        elif after[shown] != sayable(before[key]):
            tags[key] = after[shown]
    return tags | {key: value for key, value in after.items() if key not in keys}


def with_tags(before: dict[str, str], changed: dict[str, str | None]) -> dict[str, str]:
    """Returns tags after a retag."""
    merged: dict[str, str | None] = {**before, **changed}
    return {key: value for key, value in merged.items() if value is not None}
