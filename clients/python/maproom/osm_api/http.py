"""The application that listens: it guards the calls, and speaks HTTP."""
import asyncio
import base64
import binascii
import logging
import re
import time
import traceback
import zlib
from collections.abc import AsyncIterator, Callable, Sequence
from dataclasses import dataclass

from aiohttp import web

from .calls import HEALTH, HTML, JSON, METRICS, NO_LOGIN_NAME, NO_NAME, TEXT, XML, Calls, Request, Response
from .errors import ApiError, bad_request
from .osm_reading import PIECE_BYTES

NAME = re.compile(r"[a-z0-9_]{1,32}")
LOOPBACK = ("127.0.0.1", "localhost", "[::1]")

# The encodings of a body, besides none. zlib recognizes which one it is.
ENCODINGS, ANY_FORMAT = ("gzip", "deflate"), zlib.MAX_WBITS | 32

# Programs ask for these every few seconds, so the log has only what is not well.
WATCHED = (f"/{HEALTH}", f"/{METRICS}")

# How many characters the header Error has at most. nginx refuses responses whose headers are longer than 4 KiB.
MOST_HEADER = 1_000

# With these statuses the connection is closed, since the rest of the request may not have been read. The header says
# so to the client. Otherwise Java would use the closed connection again, and send the request a second time.
CLOSING = frozenset((400, 401, 403, 408, 413, 415, 500))


@dataclass(frozen=True)
class Settings:
    """How clients reach the application. `hosts` are the accepted values of the header Host. `fixed_name` is the author
    of all requests. Without it, each request names its author by HTTP Basic, and a proxy in front of the application
    has checked the password. If there is an `author_header`, the proxy names the author in it, and HTTP Basic does not
    count. `public_url` is the root as clients know it."""

    hosts: frozenset[str]
    fixed_name: str | None = None
    public_url: str = ""
    body_seconds: float = 60
    author_header: str | None = None


def loopback_hosts(port: int) -> frozenset[str]:
    """Returns the values of the header Host for a port of this machine."""
    return frozenset(f"{host}:{port}" for host in LOOPBACK)


def runner(calls: Calls, settings: Settings, note: Callable[[str], None] = lambda line: None) -> web.AppRunner:
    """Returns what runs the application, which answers every request by itself."""
    quiet = logging.getLogger(__name__)  # aiohttp reports each request that is not HTTP, with a traceback
    quiet.addHandler(logging.NullHandler())
    quiet.propagate = False
    app = web.Application()
    app.router.add_route("*", "/{path:.*}", RequestHandler(calls, settings, note).handle)
    # aiohttp would decompress 32 MiB at once, before a call is known
    return web.AppRunner(app, logger=quiet, access_log=None, auto_decompress=False)


class RequestHandler:
    """Reads requests and writes responses."""

    def __init__(self, calls: Calls, settings: Settings, note: Callable[[str], None]) -> None:
        self._calls, self._settings, self._note = calls, settings, note

    async def handle(self, request: web.Request) -> web.Response:
        """Answers a request. A client that goes away does not stop an upload."""
        started = time.monotonic()
        response = await asyncio.shield(asyncio.ensure_future(self._answer(request)))
        agent = request.headers.get("User-Agent", "-").split(" ")[0]
        took = 1000 * (time.monotonic() - started)
        self._calls.measures.count_response(response.status)
        if request.path in WATCHED and response.status == 200:
            return response
        self._note(f"{response.status} {took:.0f} ms {agent} {request.method} {request.path_qs}")
        return response

    async def _answer(self, request: web.Request) -> web.Response:
        """Answers a request, also if a call raises an exception."""
        try:
            if request.path != f"/{HEALTH}":  # a load balancer may name no host, and learns nothing else
                self._guard(request)
            response = await self._calls.answer(self._asked(request))
            if request.transport is None or request.transport.is_closing():
                self._calls.lost(response)
            return written(response)
        except ApiError as refusal:
            return written(Response(refusal.text, status=refusal.status))
        except Exception:  # an editor waits for an answer, and the program goes on
            self._note(traceback.format_exc())
            return written(Response("The program failed. Its log has more.", status=500))

    def _guard(self, request: web.Request) -> None:
        """Refuses requests that a page of another site made in the mapper's browser: such a page names itself in
        Origin, or reached the program by another host's name."""
        hosts, headers = self._settings.hosts, request.headers
        if headers.getall("Host", []) not in [[host] for host in hosts]:
            raise ApiError(403, "This program is not known by that host name")
        origin = headers.get("Origin")
        if origin is not None and origin.partition("://")[2] not in hosts:
            raise ApiError(403, "Pages of other sites are not let in")
        if headers.get("Sec-Fetch-Site", "none") == "cross-site":
            raise ApiError(403, "Pages of other sites are not let in")

    def _asked(self, request: web.Request) -> Request:
        """Returns a request for the calls, whose body is not read yet. Raises ApiError 401."""
        accepted = request.headers.get("Accept", "")
        return Request(
            request.method,
            request.path,
            dict(request.query),
            self._body(request),
            self._author(request),
            wants_json(accepted),
            HTML in accepted,
            self._base(request),
            request.content_length or 0,
            self._settings.author_header is not None,
        )

    def _base(self, request: web.Request) -> str:
        """Returns the URL of the root as the client knows it. Behind a proxy, only an option can give it."""
        if request.host.rpartition(":")[0] in LOOPBACK:
            return self._settings.public_url or f"http://{request.host}"
        return self._settings.public_url

    async def _body(self, request: web.Request) -> AsyncIterator[bytes]:
        """Yields the body of a request, decompressed, as it comes. Raises ApiError 400, 408 and 415."""
        encoding = request.headers.get("Content-Encoding", "identity").strip().lower()
        if encoding == "identity":
            async for part in self._parts(request):
                yield part
        elif encoding in ENCODINGS:
            decompressor = zlib.decompressobj(ANY_FORMAT)
            async for part in self._parts(request):
                while part and not decompressor.eof:
                    yield decompressed(decompressor, part)
                    part = decompressor.unconsumed_tail
            if not decompressor.eof:
                raise bad_request("The body of the request cannot be read: its compression has no end")
        else:
            raise ApiError(415, f"The program does not know the encoding {encoding}")

    async def _parts(self, request: web.Request) -> AsyncIterator[bytes]:
        """Yields the body of a request as it comes. Raises ApiError 400 and 408."""
        left = self._settings.body_seconds
        while True:
            began = time.monotonic()
            try:
                async with asyncio.timeout(left):
                    part = await request.content.readany()
            except TimeoutError:
                raise ApiError(408, "The body of the request came too slowly") from None
            except (OSError, ValueError, EOFError, web.RequestPayloadError) as fault:
                raise bad_request(f"The body of the request cannot be read: {fault}") from fault
            left -= time.monotonic() - began
            if not part:
                return
            yield part

    def _author(self, request: web.Request) -> str | None:
        """Returns the author of a request, or None if it names nobody. Raises ApiError 401 for an invalid name."""
        if self._settings.fixed_name is not None:
            return self._settings.fixed_name
        if self._settings.author_header is not None:
            return self._author_by_proxy(request.headers.getall(self._settings.author_header, []))
        scheme, _, given = request.headers.get("Authorization", "").partition(" ")
        if not scheme:
            return None
        try:
            name = base64.b64decode(given, validate=True).partition(b":")[0].decode()
        except (binascii.Error, ValueError):
            name = ""
        if scheme.lower() != "basic" or not NAME.fullmatch(name):
            raise ApiError(401, NO_NAME)
        return name

    @staticmethod
    def _author_by_proxy(values: Sequence[str]) -> str | None:
        """Returns the author whom the proxy names, or None if it names nobody. Raises ApiError 403 for what is no name:
        another password would not help."""
        if not values or values == [""]:
            return None
        if len(values) > 1 or not NAME.fullmatch(values[0]):
            raise ApiError(403, NO_LOGIN_NAME)
        return values[0]


def wants_json(accepted: str) -> bool:
    """Returns whether a header Accept names JSON, and no XML in front of it."""
    kinds = [kind.split(";")[0].strip() for kind in accepted.split(",")]
    found = [kind for kind in kinds if kind in (JSON, XML, "text/xml")]
    return found[:1] == [JSON]


def written(response: Response) -> web.Response:
    """Returns a response of HTTP. JOSM shows the header Error of a refusal."""
    headers = {"Content-Type": f"{response.kind}; charset=utf-8", "Cache-Control": "no-store"}
    if response.status >= 400 and response.kind == TEXT:
        headers["Error"] = header_text(response.text)
    if response.status == 401:
        headers["WWW-Authenticate"] = 'Basic realm="maproom"'
    if response.location:
        headers["Location"] = response.location
    if response.kind == HTML:
        headers |= {
            "Content-Security-Policy": "default-src 'none'; style-src 'unsafe-inline'; form-action 'self'; "
            "frame-ancestors 'none'",
            "X-Content-Type-Options": "nosniff",
        }
    answer = web.Response(status=response.status, body=response.text.encode("utf-8", "replace"), headers=headers)
    if response.status in CLOSING:
        answer.force_close()
    return answer


def decompressed(decompressor: "zlib._Decompress", part: bytes) -> bytes:
    """Returns the beginning of what a part of a body says. Raises ApiError 400."""
    try:
        return decompressor.decompress(part, PIECE_BYTES)
    except zlib.error as fault:
        raise bad_request(f"The body of the request cannot be read: {fault}") from fault


def header_text(text: str) -> str:
    """Returns the beginning of a text as a header can hold it."""
    return re.sub(r"[^\x20-\x7e]", "?", text[:MOST_HEADER].replace("\n", " "))
