"""Plans of uploads, as texts, and documents that are refused."""
from __future__ import annotations

import json

from lib import texts
from lib.cases import each_case, want
from maproom.core import Element
from editor_cases.shared import HAS_ALL, MARK, NOW, NOW_VERSION, by_name, has_packages, needed, node
from typing import Any

if HAS_ALL:
    from maproom.osm_api.planner import Plan
    from maproom.osm_api import elements, ids, osm_reading, planner
    from maproom.osm_api.connection import Accepted, Refusal, Welcome
    from maproom.osm_api.errors import ApiError
    from maproom.osm_api.ledger import Ledger
    from maproom.osm_api.memory_room import MemoryRoom
    from maproom.osm_api.room_map import RoomMap


class TextMap:
    """The map of a text: below each line `= VERSION ROW`, where a row may be gone."""

    def __init__(self, path: str) -> None:
        with open(path, encoding="utf-8") as file:
            lines = [line[len(MARK) :].split(" ", 1) for line in file if line.startswith(MARK)]
        rows = [(int(version), json.loads(row)) for version, row in lines]
        self.versions = {row["el"]: version for version, row in rows}
        self.rows: dict[str, Element] = {row["el"]: row for _, row in rows if "gone" not in row}
        self.first_new_number = min([0, *(int(name[1:]) for name in self.versions)]) - 1

    def row(self, name: str) -> Element | None:
        """An element."""
        return self.rows.get(name)

    def version(self, name: str) -> int | None:
        """The version of an element."""
        return self.versions.get(name)

    def users(self, name: str) -> list[str]:
        """The elements that refer to an element, by looking at each."""
        return [user for user, row in self.rows.items() if name in elements.references(row)]


def planned(view: TextMap, document: str) -> tuple[list[str], Plan | None]:
    """What a plan of a document says, in lines, and the plan if there is one."""
    body = f"<osmChange>{document}</osmChange>".encode()
    try:
        plan = planner.plan_upload(osm_reading.read_whole(osm_reading.Changes(), body), view, 7)
    except ApiError as refusal:
        return [f"{refusal.status} {refusal.text}"], None
    lines = [json.dumps(action, separators=(",", ":"), ensure_ascii=True) for action in plan.actions]
    lines += [f"{each.kind.value} {each.old_id} is {each.name or 'gone'}" for each in plan.results]
    return [*lines, " ".join(["touches", *sorted(plan.rows)])], plan


def goes_as_planned(path: str) -> None:
    """Each document of a text has the plan of the text, and a room that is asked so has the rows of the plan."""
    text, view = texts.read(path), TextMap(path)
    for at, document in enumerate(text.lines):
        lines, plan = planned(view, document)
        want(lines, text.blocks[at], text.place(at))
        if plan and plan.actions:
            room = MemoryRoom(list(view.rows.values()))
            differs = any(not elements.is_same(row, view.row(name)) for name, row in plan.rows.items())
            reported = Accepted(1) if differs else Refusal("nothing")
            want(room.group("lina", plan.actions), reported, text.place(at))
            want({name: room.elements.get(name) for name in plan.rows}, plan.rows, text.place(at))
            others = {name: row for name, row in view.rows.items() if name not in plan.rows}
            want({name: room.elements.get(name) for name in others}, others, text.place(at))


PLANS = texts.files_in("editors/plans")


each_case(goes_as_planned, {f"plans {name}": path for name, path in PLANS.items()}, has_packages)


def refused_plan(document: str, rows: Any = (), **how: Any) -> Any:
    """How a plan is refused."""
    room_map = RoomMap(Ledger(), lambda: NOW)
    room_map.on_welcome(Welcome(by_name(rows), 0, 1))
    try:
        body = f"<osmChange>{document}</osmChange>".encode()
        planner.plan_upload(osm_reading.read_whole(osm_reading.Changes(), body), room_map, **how)
    except ApiError as refusal:
        return refusal.status, refusal.text
    return None


@needed
def limits_of_a_room() -> None:
    """What is longer than a room holds is refused with 400, and what is as long is planned."""
    rows = [node("n1")]
    too_many = (400, "You tried to add 2001 nodes to way -1, however only 2000 are allowed")
    for count, refusal in ((2000, None), (2001, too_many)):
        nodes = count * '<nd ref="1"/>'
        want(refused_plan(f'<create><way id="-1">{nodes}</way></create>', rows), refusal)
    member = '<member type="node" ref="1" role=""/>'
    too_many = (400, "You tried to add 32001 members to relation -1, however only 32000 are allowed")
    for count, refusal in ((32000, None), (32001, too_many)):
        want(refused_plan(f'<create><relation id="-1">{count * member}</relation></create>', rows), refusal)
    long_role = member.replace('role=""', f'role="{"r" * 256}"')
    want(
        refused_plan(f'<create><relation id="-1">{long_role}</relation></create>', rows),
        (400, "A role in relation -1 is longer than 255 characters"),
    )
    too_long = (
        400,
        "A tag of relation -1 is too long or has no key: a key has 1 to 255 characters, and a value at " "most 255",
    )
    for key, value, refusal in ((255, 255, None), (256, 1, too_long), (1, 256, too_long)):
        tag = f'<tag k="{"ä" * key}" v="{"𝄞" * value}"/>'
        want(refused_plan(f'<create><relation id="-1">{tag}</relation></create>'), refusal)
    too_many = (400, "The relation -1 has 1,001 tags, however only 1,000 are allowed")
    for count, refusal in ((1000, None), (1001, too_many)):
        tags = "".join(f'<tag k="{number}" v=""/>' for number in range(count))
        want(refused_plan(f'<create><relation id="-1">{tags}</relation></create>'), refusal)


@needed
def limits_of_a_group() -> None:
    """An upload of more actions than a group holds is refused with 413. As many elements as the capabilities say fit,
    even if each takes two actions."""
    rows = [node(f"n{number}") for number in range(1, planner.MOST_CHANGES + 1)]
    tag = '<tag k="a" v="b"/>'
    steps = "".join(
        f'<node id="{number}" version="{NOW_VERSION}" lat="{number / 1e6}" lon="2">{tag}</node>'
        for number in range(1, planner.MOST_CHANGES + 1)
    )
    want(refused_plan(f"<modify>{steps}</modify>", rows), None)
    more = f'<node id="1" version="{NOW_VERSION + 1}" lat="1" lon="2"/>'
    status, text = refused_plan(f"<modify>{steps}{more}</modify>", rows)
    want((status, text.startswith("This upload takes more than 10,000 actions")), (413, True))
    news = [f'<node id="-{number}" lat="0" lon="0"/>' for number in range(1, planner.MOST_ACTIONS + 2)]
    want(refused_plan(f"<create>{''.join(news[:-1])}</create>"), None)
    many = (413, "This upload has more than 10,000 changes. Nothing was uploaded. Upload in smaller parts.")
    want(refused_plan(f"<create>{''.join(news)}</create>"), many)


NO_TYPES = "Document types and entities are not accepted"
NO_DOCUMENTS = {
    "not XML": (b"highway", "Cannot parse valid XML: syntax error: line 1, column 0"),
    "a part": (b"<osmChange><create>", "Cannot parse valid XML: no element found: line 1, column 19"),
    "nothing": (b"", "Cannot parse valid XML: no element found: line 1, column 0"),
    "another root": (b"<osm/>", "Document element should be 'osmChange', and not 'osm'"),
    "a document type": (b"<!DOCTYPE osmChange><osmChange/>", NO_TYPES),
    "an entity": (b'<!DOCTYPE a [<!ENTITY b "c">]><osmChange>&b;</osmChange>', NO_TYPES),
    "a file": (b'<!DOCTYPE a [<!ENTITY b SYSTEM "file:///etc/passwd">]><a>&b;</a>', NO_TYPES),
    "an unknown entity": (b"<osmChange>&b;</osmChange>", "Cannot parse valid XML: undefined entity: line 1, column 11"),
    "an unknown encoding": (
        b'<?xml version="1.0" encoding="x-y"?><osmChange/>',
        "Cannot parse valid XML: unknown encoding: x-y",
    ),
    "UTF-7": (b'<?xml version="1.0" encoding="utf-7"?><osmChange/>', None),
    "not UTF-8": (
        b"<osmChange>\xff</osmChange>",
        "Cannot parse valid XML: not well-formed (invalid token): line 1, column 11",
    ),
}


def is_no_document(refused: tuple[bytes, str | None]) -> None:
    """What is no document is refused with 400."""
    body, wanted = refused
    try:
        osm_reading.read_whole(osm_reading.Changes(), body)
        raise AssertionError("it was read")
    except ApiError as refusal:
        want((refusal.status, wanted in (None, refusal.text) or refusal.text), (400, True))


each_case(is_no_document, {f"refused is {what}": refused for what, refused in NO_DOCUMENTS.items()}, has_packages)


@needed
def ids_go_there_and_back() -> None:
    """Negative ids are shown from 10^15 on, and named so again."""
    for name, number in (
        ("n-7", 10**15 + 7),
        ("w5", 5),
        ("r-1", 10**15 + 1),
        ("n999999999999999", 10**15 - 1),
        ("n1000000000000000", 10**15),
    ):
        want((ids.api_id(name), ids.room_name(ids.kind_of(name), number)), (number, name))
    want(sorted(["r1", "w-2", "n-1", "w3", "n5"], key=ids.api_order), ["n5", "n-1", "w3", "w-2", "r1"])
    least = 10**15 - 2**63 + 1
    want((ids.api_id(f"w{least}"), ids.room_name(ids.Kind.WAY, 2**63 - 1)), (2**63 - 1, f"w{least}"))
    numbers = (-(2**63), least - 1, least, -1, 1, 10**15, 10**15 + 1, 2**63 - 1)
    want([ids.has_api_id(f"n{number}") for number in numbers], [False, False, True, True, True, True, False, False])
