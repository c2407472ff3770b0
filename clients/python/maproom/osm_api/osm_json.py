"""Documents of the API in JSON, which only the bridge writes."""
from collections.abc import Iterable, Mapping
from typing import Any

from ..authors import user_id
from .documents import Bounds, Changeset, ElementState, Limits, instant
from .elements import DEGREE, compact
from .ids import api_id, kind_of
from .osm_xml import ACCOUNT_CREATED, GENERATOR, PERMISSIONS

Value = dict[str, Any]
LINE_END = "\n"


def document(content: Value) -> str:
    """Returns a document of the API."""
    return compact({"version": "0.6", "generator": GENERATOR, **content}) + LINE_END


def elements(texts: Iterable[str], bounds: Bounds | None = None) -> str:
    """Returns a document with elements, of which each is a text."""
    head = document({"bounds": bounds_value(bounds)} if bounds else {})
    return f'{head.removesuffix("}" + LINE_END)},"elements":[{",".join(texts)}]}}{LINE_END}'


def element_texts(states: Iterable[ElementState]) -> list[str]:
    """Returns elements, each as a text."""
    return [compact(element_value(state, user_id(state.author) if state.author else None)) for state in states]


def bounds_value(bounds: Bounds) -> Value:
    """Returns a bounding box."""
    return {
        "minlat": bounds.south / DEGREE,
        "minlon": bounds.west / DEGREE,
        "maxlat": bounds.north / DEGREE,
        "maxlon": bounds.east / DEGREE,
    }


def element_value(state: ElementState, author_id: int | None) -> Value:
    """Returns an element, also a deleted one."""
    row = state.row
    value: Value = {"type": kind_of(state.name).value, "id": api_id(state.name)}
    if row and "lat" in row:
        value |= {"lat": float(row["lat"]), "lon": float(row["lon"])}
    value |= {"timestamp": instant(state.time), "version": state.version, "changeset": state.changeset}
    if author_id is not None:
        value |= {"user": state.author, "uid": author_id}
    if row is None:
        return value | {"visible": False}
    if "nodes" in row:
        value["nodes"] = [api_id(f"n{number}") for number in row["nodes"]]
    if "members" in row:
        value["members"] = [
            {"type": kind_of(name).value, "ref": api_id(name), "role": role} for name, role in row["members"]
        ]
    if row["tags"]:
        value["tags"] = row["tags"]
    return value


def capabilities(limits: Limits) -> str:
    """Returns what a room can do."""
    return document(
        {
            "api": {
                "version": {"minimum": "0.6", "maximum": "0.6"},
                "area": {"maximum": 64800},
                "waynodes": {"maximum": limits.nodes},
                "relationmembers": {"maximum": limits.members},
                "changesets": {
                    "maximum_elements": limits.changes,
                    "default_query_limit": 100,
                    "maximum_query_limit": 100,
                },
                "timeout": {"seconds": limits.seconds},
                "status": {"database": "online", "api": "online", "gpx": "offline"},
            },
            "policy": {"imagery": {"blacklist": []}},
        }
    )


def changeset_value(given: Changeset) -> Value:
    """Returns a changeset."""
    value: Value = {
        "id": given.number,
        "created_at": instant(given.opened),
        "open": given.closed is None,
        "comments_count": 0,
        "changes_count": given.count,
    }
    if given.closed is not None:
        value["closed_at"] = instant(given.closed)
    return value | {"user": given.author, "uid": user_id(given.author), "tags": dict(given.tags)}


def changeset(given: Changeset) -> str:
    """Returns a document with one changeset."""
    return document({"changeset": changeset_value(given)})


def changesets(given: Iterable[Changeset]) -> str:
    """Returns a document with changesets."""
    return document({"changesets": [changeset_value(each) for each in given]})


def preferences(values: Mapping[str, str]) -> str:
    """Returns a mapper's preferences."""
    return document({"preferences": dict(values)})


def versions() -> str:
    """Returns the versions of the API."""
    return document({"api": {"versions": ["0.6"]}})


def permissions() -> str:
    """Returns what a mapper may do."""
    return document({"permissions": list(PERMISSIONS)})


def user(name: str) -> str:
    """Returns a mapper's details."""
    return document(
        {
            "user": {
                "id": user_id(name),
                "display_name": name,
                "account_created": ACCOUNT_CREATED,
                "description": "",
                "contributor_terms": {"agreed": True, "pd": False},
                "roles": [],
                "changesets": {"count": 0},
                "traces": {"count": 0},
                "blocks": {"received": {"count": 0, "active": 0}},
                "languages": ["en"],
                "messages": {"received": {"count": 0, "unread": 0}, "sent": {"count": 0}},
            }
        }
    )
