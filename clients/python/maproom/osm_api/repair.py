"""Plans what takes a group back where the room refuses to undo it.

A detail of an element is one of its tags, its position, its list of nodes or members, or whether it is there at all. A
repair gives each detail that the group changed the value from right before the group, if it still has the group's
value. What others changed after the group stays."""
from collections.abc import Collection, Iterable
from dataclasses import dataclass, field

from .connection import Action
from .elements import Row, Rows, is_same, references, text_units
from .ids import api_order
from .planner import MapView, create_action, with_tags

# The detail of an element that appears or disappears.
EXISTENCE = "existence"
LISTS = ("nodes", "members")


@dataclass
class Repair:
    """What a repair takes. `rows` has the elements that it changes, as it leaves them. The elements in `stays` keep
    something of the group that nobody else changed: others use it, or it needs elements that others deleted."""

    actions: list[Action] = field(default_factory=list)
    rows: dict[str, Row | None] = field(default_factory=dict)
    stays: list[str] = field(default_factory=list)


def plan_repair(before: Rows, after: Rows, view: MapView) -> Repair:
    """Returns the repair of a group on a map. `before` and `after` have each element that the group changed, right
    before it and right after it."""
    planner = RepairPlanner(before, after, view)
    planner.bring_back()
    planner.write_back()
    planner.remove()
    planner.repair.stays.sort(key=api_order)
    return planner.repair


def details(before: Row | None, after: Row | None) -> set[str]:
    """Returns the details in which two rows of an element differ."""
    if before is None or after is None:
        return set() if before is after else {EXISTENCE}
    found = {f"tag {key}" for key in changed_keys(before, after)}
    if position(before) != position(after):
        found.add("position")
    return found | {word for word in LISTS if before.get(word) != after.get(word)}


def meet(one: Collection[str], other: Collection[str]) -> bool:
    """Returns whether two changes of an element have a detail in common. To create or delete it is a change of all."""
    return bool(one and other) and (EXISTENCE in one or EXISTENCE in other or not set(one).isdisjoint(other))


def changed_keys(before: Row, after: Row) -> list[str]:
    """Returns the keys whose values differ between two rows of an element."""
    one, other = before["tags"], after["tags"]
    return sorted(key for key in one.keys() | other.keys() if one.get(key) != other.get(key))


def position(row: Row) -> tuple[str | None, str | None]:
    """Returns the position of a row, which ways and relations do not have."""
    return row.get("lat"), row.get("lon")


class RepairPlanner:
    """Plans a repair step by step, each on the map as the earlier ones leave it."""

    def __init__(self, before: Rows, after: Rows, view: MapView) -> None:
        self.repair = Repair()
        self._before, self._after, self._view = before, after, view
        self._moves: dict[tuple[int, int], Action] = {}

    # the map as the repair leaves it

    def _row(self, name: str) -> Row | None:
        """Returns an element as the repair leaves it, or None."""
        return self.repair.rows[name] if name in self.repair.rows else self._view.row(name)

    def _put(self, name: str, row: Row | None, *actions: Action) -> None:
        """Notes what an element is to be, and the actions that make it so."""
        self.repair.rows[name] = row
        self.repair.actions.extend(actions)

    def _users(self, name: str) -> set[str]:
        """Returns the other elements that refer to a created element as the repair leaves it. A repair makes no new
        references to it, because it was not there before."""
        return {user for user in self._view.users(name) if user != name and name in references(self._row(user))}

    def _lacks(self, name: str, row: Row) -> bool:
        """Returns whether an element would refer to another that is not there."""
        return any(used != name and self._row(used) is None for used in references(row))

    def _changed(self) -> Iterable[tuple[str, Row | None, Row | None]]:
        """Yields the elements of the group in the order in which they can be created, with both rows."""
        for name in sorted(self._after, key=api_order):
            yield name, self._before.get(name), self._after[name]

    # steps

    def bring_back(self) -> None:
        """Creates the elements again that the group deleted. What others created again since stays theirs."""
        gone = {
            name: before
            for name, before, after in self._changed()
            if before is not None and after is None and self._row(name) is None
        }
        found = {name for name in gone if self._can_come_back(name, gone)}
        self.repair.stays += gone.keys() - found
        incomplete = []
        for name in gone:
            if name in found:
                row = gone[name]
                if self._lacks(name, row):  # a relation that refers to a later one
                    incomplete.append(name)
                    row = without_members(row)
                self._put(name, row, create_action(row))
        for name in incomplete:
            self._put(name, gone[name], list_action(gone[name]))

    def _can_come_back(self, name: str, gone: dict[str, Row]) -> bool:
        """Returns whether all that an element needs is there, or can come back itself."""
        reached, waiting = {name}, [name]
        while waiting:
            for used in references(gone[waiting.pop()]):
                if used not in reached and self._row(used) is None:
                    if used not in gone:
                        return False
                    reached.add(used)
                    waiting.append(used)
        return True

    def write_back(self) -> None:
        """Writes the details back of the elements that were there before and after the group, and are there now."""
        for name, before, after in self._changed():
            now = self._row(name)
            if before is not None and after is not None and now is not None:
                self._write_back(name, before, after, now)

    def _write_back(self, name: str, before: Row, after: Row, now: Row) -> None:
        """Writes the details of an element back."""
        row = now.copy()
        tags = {
            key: before["tags"].get(key)
            for key in changed_keys(before, after)
            if now["tags"].get(key) == after["tags"].get(key)
        }
        if tags:
            row["tags"] = with_tags(now["tags"], tags)
            self._put(name, row, {"do": "retag", "el": name, "tags": tags})
        if position(now) == position(after) != position(before):
            row["lat"], row["lon"] = before["lat"], before["lon"]
            self._put(name, row, *self._moved(name, now, before))
        if any(now.get(word) == after.get(word) != before.get(word) for word in LISTS):
            if self._lacks(name, before):
                self.repair.stays.append(name)
            else:
                put_list(row, before)
                self._put(name, row, list_action(row))

    def _moved(self, name: str, row: Row, back: Row) -> list[Action]:
        """Moves a node back, together with the nodes that move as far. Returns the action if it is a new one."""
        north = text_units(back["lat"]) - text_units(row["lat"])
        east = text_units(back["lon"]) - text_units(row["lon"])
        is_new = (north, east) not in self._moves
        move = self._moves.setdefault((north, east), {"do": "move", "els": [], "dlat": north, "dlon": east})
        move["els"].append(name)
        return [move] if is_new else []

    def remove(self) -> None:
        """Deletes the elements that the group created, and that nobody uses or changed."""
        created = [name for name, before, after in self._changed() if before is None and self._row(name) is not None]
        unused = {name for name in created if is_same(self._row(name), self._after[name])}
        while used := {name for name in unused if not self._users(name) <= unused}:
            unused -= used
        self.repair.stays += [name for name in created if name not in unused]
        relations = [name for name in created if name in unused and name[0] == "r"]
        for name in relations:  # which may refer to one another, or to themselves
            row = self._row(name)
            if row and any(used[0] == "r" for used in references(row)):
                row = without_members(row)
                self._put(name, row, list_action(row))
        for name in reversed(created):
            if name in unused:
                self._put(name, None, {"do": "delete", "el": name})


def without_members(row: Row) -> Row:
    """Returns a relation with no members."""
    row = row.copy()
    row["members"] = []
    return row


def put_list(row: Row, other: Row) -> None:
    """Gives a way the nodes of another row, or a relation its members."""
    if "nodes" in other:
        row["nodes"] = other["nodes"]
    else:
        row["members"] = other["members"]


def list_action(row: Row) -> Action:
    """Returns the action that gives a way its nodes, or a relation its members."""
    if "nodes" in row:
        return {"do": "nodes", "el": row["el"], "nodes": row["nodes"]}
    return {"do": "members", "el": row["el"], "members": row["members"]}
