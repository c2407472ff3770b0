"""The refusals of the OpenStreetMap API. JOSM and osmapi read these texts, so each is spelled as the API spells it."""
from collections.abc import Iterable

from .ids import Kind, api_id, kind_of


class ApiError(Exception):
    """A request is refused with a status of HTTP and a text."""

    def __init__(self, status: int, text: str) -> None:
        super().__init__(text)
        self.status, self.text = status, text


def ids_text(numbers: Iterable[int]) -> str:
    """Returns ids as the API lists them."""
    return ",".join(map(str, numbers))


def bad_request(text: str) -> ApiError:
    """400: the request is not understood."""
    return ApiError(400, text)


def bad_element(kind: Kind, text: str, why: str) -> ApiError:
    """400: an element of a document lacks something."""
    return bad_request(f"Cannot parse valid {kind.value} from xml string {text}. {why}")


def placeholder_not_found(kind: Kind, number: int, within: str) -> ApiError:
    """400: a placeholder is used before its element is created."""
    return bad_request(f"Placeholder {kind.value} not found for reference {number} in {within}.")


def not_found(kind: Kind, number: int) -> ApiError:
    """404: the room never had the element."""
    return ApiError(404, f"The {kind.value} with the id {number} was not found")


def version_mismatch(name: str, given: int, present: int) -> ApiError:
    """409: the element has changed since the editor read it."""
    text = f"Version mismatch: Provided {given}, server had: {present} of {kind_of(name).title} {api_id(name)}"
    return ApiError(409, text)


def changeset_missing() -> ApiError:
    """409: an element does not name its changeset."""
    return ApiError(409, "You need to supply a changeset to be able to make a change")


def changeset_mismatch(given: int, allowed: int) -> ApiError:
    """409: an element names another changeset than the one that it is uploaded to."""
    return ApiError(409, f"Changeset mismatch: Provided {given} but only {allowed} is allowed")


def changeset_closed(number: int, when: str) -> ApiError:
    """409: the changeset is closed."""
    return ApiError(409, f"The changeset {number} was closed at {when}")


def changeset_not_owned() -> ApiError:
    """409: the changeset is another mapper's."""
    return ApiError(409, "The user doesn't own that changeset")


def already_deleted(kind: Kind, number: int) -> ApiError:
    """410: the element is deleted."""
    return ApiError(410, f"The {kind.value} with the id {number} has already been deleted")


def missing_references(within: str, kind: Kind, numbers: Iterable[int]) -> ApiError:
    """412: an element refers to elements that are not there."""
    text = (
        f"Precondition failed: {within} requires the {kind.value}s with id in {ids_text(numbers)}, "
        "which either do not exist, or are not visible."
    )
    return ApiError(412, text)


def still_used(name: str, kind: Kind, users: Iterable[str]) -> ApiError:
    """412: an element cannot be deleted, since elements of a kind refer to it."""
    what, ids = f"{kind_of(name).title} {api_id(name)}", ids_text(map(api_id, users))
    if kind_of(name) is Kind.RELATION:
        return ApiError(412, f"Precondition failed: The relation {api_id(name)} is used in {kind.value}s {ids}.")
    return ApiError(412, f"Precondition failed: {what} is still used by {kind.value}s {ids}.")


def invalid_way(number: int | None) -> ApiError:
    """412: a way has no nodes."""
    doing = "create way" if number is None else f"update way {number}"
    return ApiError(412, f"Precondition failed: Cannot {doing}: data is invalid.")


def too_large(most: int) -> ApiError:
    """413: an upload takes more actions than a group may hold."""
    return ApiError(
        413,
        f"This upload takes more than {most:,} actions, which is the most that a room accepts at "
        "once. Nothing was uploaded. Upload in smaller parts.",
    )


def too_many_changes(most: int) -> ApiError:
    """413: an upload has more changes than the program plans at once, also if they would do nothing."""
    return ApiError(413, f"This upload has more than {most:,} changes. Nothing was uploaded. Upload in smaller parts.")


def body_too_large(most: int) -> ApiError:
    """413: a body has more bytes than its call takes."""
    mebibytes, rest = divmod(most, 2**20)
    size = f"{most // 2**10} KiB" if rest else f"{mebibytes} MiB"
    return ApiError(413, f"The body of the request is larger than {size}. Nothing was uploaded.")


def no_connection(text: str) -> ApiError:
    """503: the room cannot be reached. Editors repeat such a request, so nothing may have been done."""
    return ApiError(503, text)
