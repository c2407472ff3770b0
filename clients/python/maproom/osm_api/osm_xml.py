"""Documents of the API in XML, as editors get them. `osm_reading` reads those that they send."""
from collections.abc import Iterable, Mapping, Sequence
from xml.sax.saxutils import quoteattr

from ..authors import user_id
from .documents import Bounds, Changeset, ElementState, Limits, ResultRow, instant
from .elements import coordinate_text, sayable
from .ids import api_id, kind_of

GENERATOR = "maproom"
HEAD = '<?xml version="1.0" encoding="UTF-8"?>'
PERMISSIONS = ("allow_read_prefs", "allow_write_prefs", "allow_write_api")
ACCOUNT_CREATED = "2020-01-01T00:00:00Z"


def attribute(text: str) -> str:
    """Returns a text as the value of an attribute, with its quotes."""
    return quoteattr(sayable(text))


def document(parts: Iterable[str]) -> str:
    """Returns a document of the API."""
    return "\n".join([HEAD, f'<osm version="0.6" generator="{GENERATOR}">', *parts, "</osm>", ""])


def tags_text(tags: Iterable[tuple[str, str]]) -> str:
    """Tags."""
    return "".join(f"<tag k={attribute(key)} v={attribute(value)}/>" for key, value in tags)


def element_text(state: ElementState, author_id: int | None) -> str:
    """Returns an element, also a deleted one."""
    word, row = kind_of(state.name).value, state.row
    head = (
        f'{word} id="{api_id(state.name)}" version="{state.version}" changeset="{state.changeset}" '
        f'timestamp="{instant(state.time)}" visible="{"true" if row else "false"}"'
    )
    if author_id is not None:
        head += f' user={attribute(state.author)} uid="{author_id}"'
    if row is None:
        return f"<{head}/>"
    if "lat" in row:
        head += f' lat="{row["lat"]}" lon="{row["lon"]}"'
    content = "".join(f'<nd ref="{api_id(f"n{number}")}"/>' for number in row.get("nodes", ()))
    content += "".join(
        f'<member type="{kind_of(name).value}" ref="{api_id(name)}" role={attribute(role)}/>'
        for name, role in row.get("members", ())
    )
    content += tags_text(row["tags"].items())
    return f"<{head}>{content}</{word}>" if content else f"<{head}/>"


def element_texts(states: Iterable[ElementState]) -> list[str]:
    """Returns elements, each as a text."""
    return [element_text(state, user_id(state.author) if state.author else None) for state in states]


def elements(texts: Iterable[str], bounds: Bounds | None = None) -> str:
    """Returns a document with elements, of which each is a text."""
    return document([*([bounds_text(bounds)] if bounds else []), *texts])


def bounds_text(bounds: Bounds) -> str:
    """Returns a bounding box."""
    south, west, north, east = map(coordinate_text, (bounds.south, bounds.west, bounds.north, bounds.east))
    return f'<bounds minlat="{south}" minlon="{west}" maxlat="{north}" maxlon="{east}"/>'


def capabilities(limits: Limits) -> str:
    """Returns what a room can do. It has no limit of area, so the area is that of the world."""
    return document(
        [
            "<api>",
            '<version minimum="0.6" maximum="0.6"/>',
            '<area maximum="64800"/>',
            f'<waynodes maximum="{limits.nodes}"/>',
            f'<relationmembers maximum="{limits.members}"/>',
            f'<changesets maximum_elements="{limits.changes}" default_query_limit="100" maximum_query_limit="100"/>',
            f'<timeout seconds="{limits.seconds}"/>',
            '<status database="online" api="online" gpx="offline"/>',
            "</api>",
            "<policy><imagery/></policy>",
        ]
    )


def versions() -> str:
    """Returns the versions of the API."""
    return document(["<api><version>0.6</version></api>"])


def permissions() -> str:
    """Returns what a mapper may do."""
    return document(["<permissions>", *(f'<permission name="{name}"/>' for name in PERMISSIONS), "</permissions>"])


def user(name: str) -> str:
    """Returns a mapper's details."""
    return document(
        [
            f'<user id="{user_id(name)}" display_name={attribute(name)} account_created="{ACCOUNT_CREATED}">',
            "<description></description>",
            '<contributor-terms agreed="true" pd="false"/>',
            "<roles/>",
            '<changesets count="0"/>',
            '<traces count="0"/>',
            '<blocks><received count="0" active="0"/></blocks>',
            '<messages><received count="0" unread="0"/><sent count="0"/></messages>',
            "</user>",
        ]
    )


def preferences(values: Mapping[str, str]) -> str:
    """Returns a mapper's preferences."""
    parts = [f"<preference k={attribute(key)} v={attribute(value)}/>" for key, value in values.items()]
    return document(["<preferences>", *parts, "</preferences>"] if parts else ["<preferences/>"])


def changeset(given: Changeset) -> str:
    """Returns a document with one changeset."""
    return changesets([given])


def changesets(given: Iterable[Changeset]) -> str:
    """Returns a document with changesets."""
    return document(map(changeset_text, given))


def changeset_text(given: Changeset) -> str:
    """Returns a changeset."""
    head = (
        f'changeset id="{given.number}" created_at="{instant(given.opened)}" '
        f'open="{"true" if given.closed is None else "false"}" user={attribute(given.author)} '
        f'uid="{user_id(given.author)}" comments_count="0" changes_count="{given.count}"'
    )
    if given.closed is not None:
        head += f' closed_at="{instant(given.closed)}"'
    content = tags_text(given.tags.items())
    return f"<{head}>{content}</changeset>" if content else f"<{head}/>"


def diff_result(results: Sequence[ResultRow]) -> str:
    """Returns what became of the elements of an upload."""
    return "\n".join(
        [HEAD, f'<diffResult version="0.6" generator="{GENERATOR}">', *map(result_text, results), "</diffResult>", ""]
    )


def result_text(result: ResultRow) -> str:
    """Returns what became of an element."""
    text = f'<{result.kind.value} old_id="{result.old_id}"'
    if result.new_id is not None:
        text += f' new_id="{result.new_id}" new_version="{result.new_version}"'
    return f"{text}/>"
