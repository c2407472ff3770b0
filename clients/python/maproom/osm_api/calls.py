"""The calls of the OpenStreetMap API 0.6 that editors make. It knows of requests and responses, and not of sockets."""
import asyncio
import contextlib
import hashlib
import re
import time
import weakref
from collections.abc import AsyncIterable, AsyncIterator, Awaitable, Callable, Iterable, Mapping, Sequence
from dataclasses import dataclass, field, replace
from pathlib import Path
from typing import TypeVar

from ..authors import user_id
from ..missing import MissingPackage
from ..xml_elements import MOST_MEMBERS, MOST_NODES
from . import osm_json, osm_xml
from .changesets import Changesets
from .connection import RoomConnection
from .documents import Bounds, Change, ChangeAction, Changeset, ElementState, Limits, ResultRow
from .elements import is_in_world, units_of
from .errors import ApiError, already_deleted, bad_request, body_too_large, no_connection, not_found
from .ids import KINDS_BY_WORD, Kind, api_order, room_name
from .measures import EXPOSITION, Measures
from .osm_reading import Changes, ChangesetTags, Document, Reader, SingleElement, pieces_of
from .page import MOST_ENTRIES, page
from .planner import MOST_CHANGES
from .preferences import Preferences
from .room_map import Entry, Held, RoomMap, state_of
from .uploads import BUSY, Upload, Uploads
from .working import looked_up, worked

XML, JSON, TEXT, HTML = "application/xml", "application/json", "text/plain", "text/html"
PREFIX = "/api"

# The paths of what operators watch.
HEALTH, METRICS = "health", "metrics"

# How many changesets a list has at most, the latest.
MOST_LISTED = 100

# How many seconds a new connection to the room usually takes at most.
RECONNECTION_SECONDS = 3

# How many bytes a body has at most: that of an upload, of an element alone, of a changeset, and of a preference.
KIBIBYTE, MEBIBYTE = 2**10, 2**20
MOST_UPLOAD, MOST_ELEMENT, MOST_CHANGESET, MOST_PREFERENCE = 64 * MEBIBYTE, 4 * MEBIBYTE, 256 * KIBIBYTE, 4 * KIBIBYTE

# How many elements are written as text at once, which takes a few milliseconds.
ELEMENTS_AT_ONCE = 500

# Up to how many nodes are looked up at once, and how often more nodes are looked up while others may change the map.
FEW_NODES, MOST_LOOKS = 2_000, 3

UNREACHABLE = "The room cannot be reached at the moment. Nothing was done."
NO_NAME = "Give your name by HTTP Basic: 1 to 32 characters of a-z, 0-9 and _"
NO_LOGIN_NAME = "Your login has no name in the room. Ask the operator to give it one."
BAD_BOX = "The parameter bbox is required, and must be of the form min_lon,min_lat,max_lon,max_lat."
FALSE_BOX = (
    "The latitudes must be between -90 and 90, longitudes between -180 and 180 and the minima must be less "
    "than the maxima."
)


Content = TypeVar("Content")


async def no_pieces() -> AsyncIterator[bytes]:
    """Yields nothing, as a request without a body."""
    nothing: tuple[bytes, ...] = ()
    for piece in nothing:
        yield piece


@dataclass(frozen=True)
class Request:
    """A request. `body` yields its pieces, and may raise ApiError, and `length` is how many bytes it announces. `author`
    is None if it names nobody, and `base` the URL of the root as the client knows it. `is_named_by_proxy` says whether a
    proxy names the author."""

    method: str
    path: str
    query: Mapping[str, str] = field(default_factory=dict)
    body: AsyncIterable[bytes] = field(default_factory=no_pieces)
    author: str | None = None
    wants_json: bool = False
    wants_page: bool = False
    base: str = ""
    length: int = 0
    is_named_by_proxy: bool = False

    @property
    def named_author(self) -> str:
        """The author. Raises ApiError 401 if the request names nobody, or 403 if another login would not help."""
        if self.author is None and self.is_named_by_proxy:
            raise ApiError(403, NO_LOGIN_NAME)
        if self.author is None:
            raise ApiError(401, NO_NAME)
        return self.author

    @property
    def head(self) -> bytes:
        """What a repeated request has in common with this one, besides its body."""
        return f"{self.author} {self.method} {self.path}\0".encode()


@dataclass(frozen=True)
class Given:
    """An upload as a request gives it: its steps, and a text that is the same if the request is repeated, and differs
    between requests."""

    changes: Sequence[Change]
    identity: str


@dataclass(frozen=True)
class Response:
    """A response. `results` and `identity` belong to the upload that it answers, so that its answer can be kept if it is
    lost."""

    text: str
    kind: str = TEXT
    status: int = 200
    location: str = ""
    results: list[ResultRow] | None = None
    identity: str = ""


Handler = Callable[..., Response | Awaitable[Response]]


@dataclass(frozen=True)
class Route:
    """A call: its method, the form of its path, and what answers it for the groups of the path. If it `writes`, the
    request has to name its author before its body is read. If it `waits`, it waits a moment for a lost connection."""

    method: str
    path: re.Pattern[str]
    handler: Handler
    waits: bool = True

    @property
    def writes(self) -> bool:
        """Whether it may change something."""
        return self.method not in ("GET", "HEAD")


class Calls:
    """Answers requests. One that reads waits for nobody. Of those that write, one of each author is answered at a
    time, so that no author's requests take more memory than one upload."""

    def __init__(
        self,
        room: RoomConnection,
        room_map: RoomMap,
        seconds: float = 60,
        clock: Callable[[], float] = time.time,
        note: Callable[[str], None] = lambda line: None,
        kept: Path | None = None,
    ) -> None:
        self.measures = Measures(room, room_map, kept, clock)
        self.uploads = Uploads(room, room_map, seconds, note)
        self._room, self._map, self._seconds, self._note = room, room_map, seconds, note
        self._changesets, self._preferences = Changesets(clock), Preferences()
        self._limits = Limits(MOST_NODES, MOST_MEMBERS, MOST_CHANGES, max(1, int(seconds)))
        # those who hold or await a lock keep it
        self._turns: weakref.WeakValueDictionary[str, asyncio.Lock] = weakref.WeakValueDictionary()
        self._routes = self._all_routes()

    def _all_routes(self) -> list[Route]:
        """Returns all calls."""
        kind, number = r"(node|way|relation)", r"(\d{1,19})"
        calls: list[tuple[str, str, Handler]] = [
            ("GET", r"(?:0\.6/)?capabilities", self._capabilities),
            ("GET", r"versions", self._versions),
            ("GET", r"0\.6/permissions", self._permissions),
            ("GET", r"0\.6/user/details", self._user),
            ("GET", r"0\.6/user/preferences", self._all_preferences),
            ("GET", r"0\.6/user/preferences/([^/]+)", self._preference),
            ("PUT", r"0\.6/user/preferences/([^/]+)", self._put_preference),
            ("DELETE", r"0\.6/user/preferences/([^/]+)", self._delete_preference),
            ("GET", r"0\.6/notes", self._notes),
            ("GET", r"0\.6/map", self._whole_map),
            ("GET", rf"0\.6/{kind}s", self._several),
            ("GET", rf"0\.6/{kind}/{number}", self._single),
            ("GET", rf"0\.6/{kind}/{number}/full", self._full),
            ("GET", rf"0\.6/{kind}/{number}/history", self._history),
            ("GET", rf"0\.6/{kind}/{number}/{number}", self._version),
            ("GET", rf"0\.6/{kind}/{number}/(ways|relations)", self._users),
            ("PUT", rf"0\.6/{kind}/create", self._create),
            ("PUT", rf"0\.6/{kind}/{number}", self._modify),
            ("DELETE", rf"0\.6/{kind}/{number}", self._delete),
            ("PUT", r"0\.6/changeset/create", self._open_changeset),
            ("GET", rf"0\.6/changeset/{number}", self._changeset),
            ("PUT", rf"0\.6/changeset/{number}", self._tag_changeset),
            ("PUT", rf"0\.6/changeset/{number}/close", self._close_changeset),
            ("POST", rf"0\.6/changeset/{number}/upload", self._upload),
            ("GET", r"0\.6/changesets", self._list_changesets),
            ("GET", r"", self._page),
            ("POST", r"undo", self._undo),
            ("POST", r"redo", self._redo),
        ]
        watched: list[tuple[str, str, Handler]] = [
            ("GET", HEALTH, self._health),
            ("HEAD", HEALTH, self._health),
            ("GET", METRICS, self._metrics),
        ]
        return [
            *(Route(method, re.compile(path), handler) for method, path, handler in calls),
            *(Route(method, re.compile(path), handler, waits=False) for method, path, handler in watched),
        ]

    async def start(self) -> None:
        """Asks the room about the uploads that a killed bridge had sent, and opens their changesets again."""
        for pending in await self.uploads.recover():
            self._changesets.reopen(pending.changeset, pending.author)
            self._note(f"{pending.author}'s upload to changeset {pending.changeset} was accepted before the restart")

    async def answer(self, request: Request) -> Response:
        """Answers a request. Raises ApiError for a refusal."""
        path = self._inner_path(request.path)
        if path is None:
            return Response("", status=301, location="api/")
        request = replace(request, wants_json=request.wants_json or path.endswith(".json"))
        path = path.removesuffix(".json").removesuffix(".xml")
        for route in self._routes:
            found = route.path.fullmatch(path)
            if found and route.method == request.method:
                return await self._called(route, request, found.groups())
        raise ApiError(404, f"{request.method} {request.path} is not a call that this API has")

    @staticmethod
    def _inner_path(path: str) -> str | None:
        """Returns the path below the API's, or None if it is the API's without its slash.

        The page is at both roots."""
        if path == PREFIX:
            return None
        return path.removeprefix(f"{PREFIX}/") if path.startswith(f"{PREFIX}/") else path.removeprefix("/")

    async def _called(self, route: Route, request: Request, groups: Iterable[str]) -> Response:
        """Has a call answered."""
        turn = self._turn(request.named_author) if route.writes else contextlib.nullcontext()
        if route.waits:
            await self._reached()
        async with turn:
            answered = route.handler(request, *groups)
            return await answered if isinstance(answered, Awaitable) else answered

    @contextlib.asynccontextmanager
    async def _turn(self, author: str) -> AsyncIterator[None]:
        """Lets one request of an author write at a time. Raises ApiError 503."""
        turn = self._turns.setdefault(author, asyncio.Lock())
        try:
            async with asyncio.timeout(self._seconds):
                await turn.acquire()
        except TimeoutError:
            raise no_connection(BUSY) from None
        try:
            yield
        finally:
            turn.release()

    async def _reached(self) -> None:
        """Waits a moment for a connection that is being made anew. Raises ApiError 503 if there is none."""
        deadline = time.monotonic() + min(RECONNECTION_SECONDS, self._seconds)
        while not self._room.is_open:
            if time.monotonic() > deadline:
                raise no_connection(UNREACHABLE)
            await asyncio.sleep(0.02)

    def lost(self, response: Response) -> None:
        """Keeps the answer of an upload, since the connection broke before the editor had it."""
        if response.results is not None:
            self.uploads.keep(response.identity, response.results)

    # what a request has

    @staticmethod
    async def _limited(request: Request, most: int) -> AsyncIterator[bytes]:
        """Yields the body of a request in small pieces. Raises ApiError 413 if it has more bytes than `most`."""
        length = 0
        if request.length > most:
            raise body_too_large(most)
        async for part in request.body:
            length += len(part)
            if length > most:
                raise body_too_large(most)
            for piece in pieces_of(part):
                yield piece

    async def _read(self, request: Request, document: Document[Content], most: int) -> tuple[Content, str]:
        """Reads a document of `most` bytes at most. Returns what it says, and the identity of the request."""
        reader, identity = Reader(document), hashlib.blake2b(request.head, digest_size=16)
        async for piece in self._limited(request, most):
            identity.update(piece)
            await worked(reader.feed, piece)
        return await worked(reader.end), identity.hexdigest()

    # what operators watch

    def _health(self, request: Request) -> Response:
        """Returns whether the room can be reached. It asks nothing of the server."""
        return Response("ok\n") if self._room.is_open else Response(f"{UNREACHABLE}\n", status=503)

    def _metrics(self, request: Request) -> Response:
        """Returns figures for Prometheus. It asks nothing of the server. Raises ApiError 501 without the library."""
        try:
            return Response(self.measures.text(), EXPOSITION)
        except MissingPackage as fault:
            raise ApiError(501, str(fault)) from None

    # what the room can do, and who asks

    def _capabilities(self, request: Request) -> Response:
        """Returns what a room can do."""
        return self._either(request, osm_json.capabilities, osm_xml.capabilities, self._limits)

    def _versions(self, request: Request) -> Response:
        """Returns the versions of the API."""
        return self._either(request, osm_json.versions, osm_xml.versions)

    def _permissions(self, request: Request) -> Response:
        """Returns what a mapper may do."""
        return self._either(request, osm_json.permissions, osm_xml.permissions)

    def _user(self, request: Request) -> Response:
        """Returns the details of the author, who has to be named."""
        return self._either(request, osm_json.user, osm_xml.user, request.named_author)

    def _all_preferences(self, request: Request) -> Response:
        """Returns what editors keep for the author."""
        values = self._preferences.all_of(request.author or "")
        return self._either(request, osm_json.preferences, osm_xml.preferences, values)

    def _preference(self, request: Request, key: str) -> Response:
        """Returns a value that an editor keeps for the author."""
        return Response(self._preferences.get(request.named_author, key))

    async def _put_preference(self, request: Request, key: str) -> Response:
        """Keeps a value for the author."""
        value = b"".join([piece async for piece in self._limited(request, MOST_PREFERENCE)])
        self._preferences.put(request.named_author, key, value)
        return Response("")

    def _delete_preference(self, request: Request, key: str) -> Response:
        """Forgets a value of the author."""
        self._preferences.delete(request.named_author, key)
        return Response("")

    def _notes(self, request: Request) -> Response:
        """Returns an empty list: a room has no notes."""
        return Response(osm_xml.document([]), XML)

    @staticmethod
    def _either(
        request: Request, in_json: Callable[..., str], in_xml: Callable[..., str], *content: object
    ) -> Response:
        """Returns a document in the format that the client wants."""
        return Response(in_json(*content), JSON) if request.wants_json else Response(in_xml(*content), XML)

    # elements

    async def _whole_map(self, request: Request) -> Response:
        """Returns the map of a bounding box."""
        bounds = bounds_of(request.query.get("bbox", ""))
        await self._caught_up()
        return await self._held_elements(request, await self._held_within(bounds), bounds)

    async def _held_within(self, bounds: Bounds) -> list[Held]:
        """Returns the elements of a bounding box as of one moment. If there are many, it looks again if the map changes
        meanwhile. At last nobody else has a turn until it has them."""
        for _ in range(MOST_LOOKS if self._map.grid.has_many_within(bounds, FEW_NODES) else 0):
            changes = self._map.changes
            with contextlib.suppress(KeyError, RuntimeError):  # so Python says that a set or a dictionary has changed
                held = await looked_up(self._map.held_within, bounds)
                if self._map.changes == changes:
                    return held
        return self._map.held_within(bounds)

    async def _several(self, request: Request, word: str) -> Response:
        """Returns the named elements, also deleted ones.

        An element that is named with a version is left out if it has another version now."""
        given = request.query.get(f"{word}s", "")
        asked = re.findall(r"(?:^|,)(\d{1,19})(?:v(\d{1,19}))?(?=,|$)", given)
        if not asked:
            raise bad_request(f"The parameter {word}s is required, and must be of the form {word}s=id[,id[,id...]]")
        await self._caught_up()
        states = {}
        for number, version in asked:
            state = self._map.state(room_name(KINDS_BY_WORD[word], int(number)))
            if not version or int(version) == state.version:
                states[state.name] = state
        return await self._states(request, states.values())

    async def _single(self, request: Request, word: str, number: str) -> Response:
        """Returns an element that is there."""
        return await self._elements(request, [await self._visible(word, number)])

    async def _full(self, request: Request, word: str, number: str) -> Response:
        """Returns an element with its nodes or members."""
        return await self._elements(request, self._map.whole(await self._visible(word, number)))

    async def _history(self, request: Request, word: str, number: str) -> Response:
        """Returns an element's present state alone, since a room keeps no earlier states."""
        return await self._elements(request, [await self._known(word, number)])

    async def _version(self, request: Request, word: str, number: str, version: str) -> Response:
        """Returns an element at a version, if that is the present one."""
        name = await self._known(word, number)
        if int(version) != self._map.version(name):
            text = f"Version {version} of {word} {number} was not found: only the present version is kept"
            raise ApiError(404, text)
        return await self._elements(request, [name])

    async def _users(self, request: Request, word: str, number: str, kinds: str) -> Response:
        """Returns the ways or relations that refer to an element."""
        name = await self._known(word, number)
        return await self._elements(request, [user for user in self._map.users(name) if user[0] == kinds[0]])

    async def _known(self, word: str, number: str) -> str:
        """Returns the name of an element that is there or was. Raises ApiError 404."""
        await self._caught_up()
        name = self._map.named(KINDS_BY_WORD[word], int(number))
        if name is None:
            raise not_found(KINDS_BY_WORD[word], int(number))
        return name

    async def _visible(self, word: str, number: str) -> str:
        """Returns the name of an element that is there. Raises ApiError 404 and 410."""
        name = await self._known(word, number)
        if self._map.row(name) is None:
            raise already_deleted(KINDS_BY_WORD[word], int(number))
        return name

    async def _caught_up(self) -> None:
        """Waits until the map has all that the room has now. Raises ApiError 503."""
        try:
            async with asyncio.timeout(self._seconds):
                await self._room.catch_up()
        except TimeoutError:
            raise no_connection(UNREACHABLE) from None

    async def _elements(self, request: Request, names: Iterable[str], bounds: Bounds | None = None) -> Response:
        """Returns a document with elements, and with the bounding box in which they were asked for."""
        return await self._held_elements(request, self._map.held(names), bounds)

    async def _held_elements(self, request: Request, held: list[Held], bounds: Bounds | None) -> Response:
        """Returns a document with elements that the map has."""
        self._map.note_shown(held)
        states: list[ElementState] = []
        for start in range(0, len(held), ELEMENTS_AT_ONCE):
            states += await worked(states_of, held[start : start + ELEMENTS_AT_ONCE])
        return await self._states(request, states, bounds)

    @staticmethod
    async def _states(request: Request, states: Iterable[ElementState], bounds: Bounds | None = None) -> Response:
        """Returns a document with elements that were looked up."""
        found = list(states)
        ordered = await looked_up(in_api_order, found) if len(found) > FEW_NODES else in_api_order(found)
        write = osm_json.element_texts if request.wants_json else osm_xml.element_texts
        parts: list[str] = []
        for start in range(0, len(ordered), ELEMENTS_AT_ONCE):
            parts += await worked(write, ordered[start : start + ELEMENTS_AT_ONCE])
        if request.wants_json:
            return Response(await worked(osm_json.elements, parts, bounds), JSON)
        return Response(await worked(osm_xml.elements, parts, bounds), XML)

    # changesets

    async def _open_changeset(self, request: Request) -> Response:
        """Opens a changeset, and gives its number."""
        tags, _ = await self._read(request, ChangesetTags(), MOST_CHANGESET)
        return Response(str(self._changesets.open(request.named_author, tags).number))

    def _changeset(self, request: Request, number: str) -> Response:
        """Returns a changeset."""
        changeset = self._changesets.get(int(number))
        return self._either(request, osm_json.changeset, osm_xml.changeset, changeset)

    async def _tag_changeset(self, request: Request, number: str) -> Response:
        """Gives a changeset other tags."""
        changeset = self._changesets.writable(int(number), request.named_author)
        tags, _ = await self._read(request, ChangesetTags(), MOST_CHANGESET)
        self._changesets.tag(changeset, tags)
        return self._either(request, osm_json.changeset, osm_xml.changeset, changeset)

    def _close_changeset(self, request: Request, number: str) -> Response:
        """Closes a changeset."""
        self._changesets.close(int(number), request.named_author)
        return Response("")

    def _list_changesets(self, request: Request) -> Response:
        """Returns the changesets that a query asks for. Other parameters than these are passed over."""
        query, found = request.query, list(self._changesets.latest_first())
        if "changesets" in query:
            found = [each for each in found if str(each.number) in query["changesets"].split(",")]
        if "user" in query:
            found = [each for each in found if str(user_id(each.author)) == query["user"]]
        if "display_name" in query:
            found = [each for each in found if each.author == query["display_name"]]
        if query.get("open", "false") != "false":
            found = [each for each in found if each.closed is None]
        if query.get("closed", "false") != "false":
            found = [each for each in found if each.closed is not None]
        return self._either(request, osm_json.changesets, osm_xml.changesets, found[:MOST_LISTED])

    # uploads

    async def _upload(self, request: Request, number: str) -> Response:
        """Carries out an osmChange."""
        changeset = self._changesets.writable(int(number), request.named_author)
        given = Given(*await self._read(request, Changes(), MOST_UPLOAD))
        results = await self._carry_out(given, changeset)
        text = await worked(osm_xml.diff_result, results)
        return Response(text, XML, results=results, identity=given.identity)

    async def _create(self, request: Request, word: str) -> Response:
        """Creates an element, and gives its id."""
        results, identity = await self._write(request, ChangeAction.CREATE, KINDS_BY_WORD[word], None)
        return Response(str(results[0].new_id), results=results, identity=identity)

    async def _modify(self, request: Request, word: str, number: str) -> Response:
        """Changes an element, and gives its version."""
        results, identity = await self._write(request, ChangeAction.MODIFY, KINDS_BY_WORD[word], int(number))
        return Response(str(results[0].new_version), results=results, identity=identity)

    async def _delete(self, request: Request, word: str, number: str) -> Response:
        """Deletes an element, and gives the version of the deleted element."""
        results, identity = await self._write(request, ChangeAction.DELETE, KINDS_BY_WORD[word], int(number))
        version = self._map.version(room_name(KINDS_BY_WORD[word], int(number)))
        return Response(str(version), results=results, identity=identity)

    async def _write(
        self, request: Request, action: ChangeAction, kind: Kind, number: int | None
    ) -> tuple[list[ResultRow], str]:
        """Writes one element, which is an upload of one step. Returns what became of it, and the request's identity."""
        element, identity = await self._read(request, SingleElement(kind), MOST_ELEMENT)
        if number is not None and element.number != number:
            raise bad_request(f"The id in the url ({number}) is not the same as provided in the xml ({element.number})")
        changeset = self._changesets.writable(element.changeset, request.named_author)
        element = replace(element, number=-1) if number is None else element
        return await self._carry_out(Given([Change(action, element)], identity), changeset), identity

    async def _carry_out(self, given: Given, changeset: Changeset) -> list[ResultRow]:
        """Carries out an upload."""
        upload = Upload(changeset.author, changeset.number, given.changes, given.identity)
        results = await self.uploads.upload(upload)
        changeset.count += len(results)
        self._note(f"{changeset.author} uploaded {len(results)} elements in changeset {changeset.number}")
        return results

    # undo, redo and the page

    def _page(self, request: Request, message: str = "", status: int = 200) -> Response:
        """Returns the page, with what a button did."""
        author, room_map = request.named_author, self._map
        others: list[Entry] = []
        for entry in reversed(room_map.recent):
            if len(others) == MOST_ENTRIES:
                break
            if entry.author != author:
                others.insert(0, entry)
        text = page(
            self._room.room,
            author,
            request.base,
            len(room_map.elements),
            others,
            self.uploads.done_by(author),
            self.uploads.undone_by(author),
            self._changesets.comments(),
            message,
        )
        return Response(text, HTML, status)

    async def _undo(self, request: Request) -> Response:
        """Undoes the author's last upload."""
        return await self._pressed(request, self.uploads.undo(request.named_author))

    async def _redo(self, request: Request) -> Response:
        """Redoes what the author undid last."""
        return await self._pressed(request, self.uploads.redo(request.named_author))

    async def _pressed(self, request: Request, done: Awaitable[str]) -> Response:
        """Waits for what a button does. Returns the page with its text, or for a program the text alone."""
        try:
            message, status = await done, 200
        except ApiError as refusal:
            if not request.wants_page:
                raise
            message, status = refusal.text, refusal.status
        return self._page(request, message, status) if request.wants_page else Response(f"{message}\n")


def states_of(elements: list[Held]) -> list[ElementState]:
    """Returns elements as editors see them."""
    return [state_of(held) for held in elements]


def in_api_order(states: list[ElementState]) -> list[ElementState]:
    """Returns elements in the API's order."""
    return sorted(states, key=lambda state: api_order(state.name))


def bounds_of(text: str) -> Bounds:
    """Returns a bounding box as the parameter spells it. Raises ApiError 400."""
    fields = [units_of(each.strip()) for each in text.split(",")]
    if len(fields) != 4 or None in fields:
        raise bad_request(BAD_BOX)
    west, south, east, north = (each or 0 for each in fields)
    if not (is_in_world(south, west) and is_in_world(north, east) and west <= east and south <= north):
        raise bad_request(FALSE_BOX)
    return Bounds(south, west, north, east)
