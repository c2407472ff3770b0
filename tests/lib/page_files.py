"""Serves the map page with its files, Leaflet as Debian has it, and tiles that it draws itself.

The web server refuses the paths that a test chooses, each with a status, and passes WebSockets on to rooms.
"""
from __future__ import annotations

import contextlib
import http.server
import os
import select
import socket
import ssl
import struct
import threading
import urllib.parse
import zlib
from collections.abc import Mapping

from .cases import TOP

LEAFLET = "/usr/share/javascript/leaflet"

KINDS = {".html": "text/html", ".js": "text/javascript", ".css": "text/css"}


def is_leaflet_there() -> bool:
    """Whether Debian's libjs-leaflet is installed."""
    return os.path.isfile(f"{LEAFLET}/leaflet.js")


def tile_of(red: int, green: int, blue: int, size: int = 256) -> bytes:
    """A picture of one colour, as PNG."""

    def part(name: bytes, data: bytes) -> bytes:
        return struct.pack(">I", len(data)) + name + data + struct.pack(">I", zlib.crc32(name + data))

    head = struct.pack(">IIBBBBB", size, size, 8, 2, 0, 0, 0)
    lines = (b"\0" + bytes((red, green, blue)) * size) * size
    return b"\x89PNG\r\n\x1a\n" + part(b"IHDR", head) + part(b"IDAT", zlib.compress(lines)) + part(b"IEND", b"")


class PageFiles:
    """The server, on a free port. `statuses` has a status for each path that it refuses, and `rooms` the port of the
    server for each path of a room. `asked` has the requested paths of tiles. Without `has_leaflet` it has no
    Leaflet."""

    def __init__(
        self,
        has_leaflet: bool = True,
        statuses: Mapping[str, int] = {},
        folder: str = f"{TOP}/clients/page",
        rooms: Mapping[str, int] = {},
    ) -> None:
        self.has_leaflet, self.statuses, self.folder, self.rooms = has_leaflet, dict(statuses), folder, dict(rooms)
        self.asked: list[str] = []
        self.server = http.server.ThreadingHTTPServer(("127.0.0.1", 0), self.handler())
        self.server.daemon_threads = True
        self.port = self.server.server_address[1]
        self.url = f"http://127.0.0.1:{self.port}"

    def __enter__(self) -> PageFiles:
        threading.Thread(target=self.server.serve_forever, daemon=True).start()
        return self

    def __exit__(self, *_: object) -> None:
        self.server.shutdown()
        self.server.server_close()

    def use_tls(self, key: str, certificate: str) -> None:
        """Answers over TLS from now on."""
        context = ssl.SSLContext(ssl.PROTOCOL_TLS_SERVER)
        context.load_cert_chain(certificate, key)
        self.server.socket = context.wrap_socket(self.server.socket, server_side=True)
        self.url = f"https://127.0.0.1:{self.port}"

    def answer(self, path: str) -> tuple[int, str, bytes]:
        """The status, the kind and the content for a path."""
        if path in self.statuses:
            return self.statuses[path], "text/plain", b"refused"
        if path.startswith("/tiles/"):
            self.asked.append(path)
            return 200, "image/png", tile_of(160, 190, 210)
        name = path.lstrip("/") or "map.html"
        if name.startswith(("javascript/leaflet/", "leaflet@")):
            name = f"{LEAFLET}/{name.rpartition('/')[2]}" if self.has_leaflet else "/nowhere"
        else:
            is_beside = name.startswith("js/") and not os.path.isdir(f"{self.folder}/js")
            name = os.path.normpath(f"{self.folder}/{'../' if is_beside else ''}{name}")
        kind = KINDS.get(os.path.splitext(name)[1])
        if kind is None or not os.path.isfile(name):
            return 404, "text/plain", b"not there"
        with open(name, "rb") as file:
            return 200, f"{kind}; charset=utf-8", file.read()

    @staticmethod
    def pass_on(request: http.server.BaseHTTPRequestHandler, port: int) -> None:
        """Passes a request on to a server, and then all that either side sends, until one of them ends."""
        lines = [request.requestline, *(f"{name}: {value}" for name, value in request.headers.items()), "", ""]
        with socket.create_connection(("127.0.0.1", port)) as server:
            server.sendall("\r\n".join(lines).encode())
            others: dict[socket.socket, socket.socket]
            others = {server: request.connection, request.connection: server}
            while True:
                for each in select.select(list(others), [], [])[0]:
                    data = each.recv(1 << 16)
                    if not data:
                        return
                    others[each].sendall(data)

    def handler(self) -> type[http.server.BaseHTTPRequestHandler]:
        """What answers the requests of this server."""
        owner = self

        class Handler(http.server.BaseHTTPRequestHandler):
            """Answers a request."""

            protocol_version = "HTTP/1.1"

            def handle(self) -> None:
                """Answers, and says nothing if the browser breaks the connection."""
                with contextlib.suppress(ConnectionError):
                    super().handle()

            def do_GET(self) -> None:
                """Hands out a file, or passes a WebSocket on."""
                path = urllib.parse.urlsplit(self.path).path
                if path in owner.rooms and "Upgrade" in self.headers:
                    self.close_connection = True
                    owner.pass_on(self, owner.rooms[path])
                    return
                status, kind, content = owner.answer(path)
                self.send_response(status)
                self.send_header("Content-Type", kind)
                self.send_header("Content-Length", str(len(content)))
                self.send_header("Access-Control-Allow-Origin", "*")
                self.end_headers()
                self.wfile.write(content)

            def log_message(self, *_: object) -> None:
                """Says nothing."""

        return Handler
