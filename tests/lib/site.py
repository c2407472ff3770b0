"""nginx with the configuration of docs/RUNNING.md, in front of two rooms, on ports of this machine."""
from __future__ import annotations

import base64
import contextlib
import os
import re
import shutil
import socket
import ssl
import subprocess
import tempfile
from collections.abc import Iterator, Sequence
from typing import Any

from .cases import TOP, given, want
from .programs import PATIENCE, run_soon, wait_for
from .serving import free_port
from .talk import serving
from .websocket import Broken, Client, head_of_request, make_key

PASSWORD = "rosesandlilies"

# The users of nginx, who all have this password. Some have no author's name.
USERS = (
    "lina",
    "mika",
    "anna",
    "bob",
    "zoe",
    "Mika",
    "Lina.Meier@example.org",
    "lina.meier@example.org",
    "nobody@x.org",
)

# How a server takes names from nginx.
NAMED = ("--name-header", "X-Maproom-Name")

# How many connections nginx allows for an address at the same time, and how many new ones at once.
MOST, NEW = 24, 40


def page() -> str:
    """The text of the page."""
    with open(f"{TOP}/docs/RUNNING.md", encoding="utf-8") as file:
        return file.read()


def blocks_of(*kinds: str) -> list[tuple[str, str]]:
    """The blocks of the page of some kinds, in order, each with its kind."""
    return re.findall(rf"^```({'|'.join(kinds)})\n(.*?)^```$", page(), re.MULTILINE | re.DOTALL)


@contextlib.contextmanager
def folder() -> Iterator[str]:
    """A folder that is removed with all its files."""
    path = tempfile.mkdtemp(prefix="maproom-running-")
    try:
        yield path
    finally:
        shutil.rmtree(path, ignore_errors=True)


def has_nginx() -> bool:
    """Whether nginx is there, with what makes its certificate."""
    return bool(shutil.which("nginx") and shutil.which("openssl"))


def login_of(user: str, password: str | None) -> str:
    """The value of the header Authorization for a user."""
    return "Basic " + base64.b64encode(f"{user}:{password}".encode()).decode()


class Nginx:
    """nginx with the configuration of docs/RUNNING.md, in which some texts can be replaced, in front of two rooms. With
    `has_list` it finds the rooms by the maps of packaging/rooms. `options` are those of the servers, `names` the lines
    of maproom_names.conf, and `locations` further locations. It ends with the block."""

    def __init__(
        self,
        kept: contextlib.ExitStack,
        replaced: Any = None,
        has_list: bool = False,
        options: Sequence[str] = NAMED,
        names: str = "",
        locations: str = "",
    ) -> None:
        self.path, self.port, self.replaced = kept.enter_context(folder()), free_port(), replaced or {}
        self.has_list, self.names, self.locations = has_list, names, locations
        self.api_port = free_port()
        how = {"workers": MOST + 4, "sessions": None, "options": options}
        self.rooms = [kept.enter_context(serving(room, **how)) for room in ("hamlet", "valley")]
        self.write()
        log = kept.enter_context(open(f"{self.path}/log", "wb"))
        arguments = ["nginx", "-p", self.path, "-c", f"{self.path}/nginx.conf"]
        self.process = subprocess.Popen(arguments, stdout=log, stderr=log)
        kept.callback(self.process.wait)
        kept.callback(self.process.terminate)
        wait_for("nginx does not listen", self.is_listening)

    def write(self) -> None:
        """Writes what nginx is given: its configuration, a certificate, a file of users and the page for browsers."""
        arguments = [
            "req",
            "-x509",
            "-newkey",
            "rsa:2048",
            "-nodes",
            "-keyout",
            "key",
            "-out",
            "certificate",
            "-days",
            "2",
        ]
        arguments += ["-subj", "/CN=maps.example.org", "-addext", "subjectAltName=DNS:maps.example.org,IP:127.0.0.1"]
        want(run_soon("openssl", *arguments, cwd=self.path).status, 0)
        hashed = run_soon("openssl", "passwd", "-apr1", PASSWORD).output.decode().strip()
        replaced = {
            "443 ssl ": f"127.0.0.1:{self.port} ssl ",
            "/etc/ssl/maps.example.org.pem": f"{self.path}/certificate",
            "/etc/ssl/maps.example.org.key": f"{self.path}/key",
            "/etc/nginx/maproom.users": f"{self.path}/users",
            "9001": str(self.rooms[0].port),
            "9002": str(self.rooms[1].port),
            "8110": str(self.api_port),
        }
        (_, (_, site)) = blocks_of("nginx")
        for one, other in replaced.items():
            want((one, site.count(one)), (one, 1))
            site = site.replace(one, other)
        if self.has_list:
            site = self.with_list(site)
        rooms = "    # each room has a server" if not self.has_list else "    include /usr/share/maproom/nginx/rooms"
        site = site.replace(rooms, f"{self.locations}\n{rooms}")
        for one, other in (("page", "page"), ("js", "page/js")):
            shutil.copytree(f"{TOP}/clients/{one}", f"{self.path}/{other}")
        site = site.replace("/usr/share/maproom/nginx", self.path).replace(
            "/usr/share/maproom/page", f"{self.path}/page"
        )
        parts = ("client_body", "proxy", "fastcgi", "uwsgi", "scgi")
        places = "".join(f"{part}_temp_path {self.path}/{part};" for part in parts)
        user = "user root;" if os.geteuid() == 0 else ""
        conf = f"{user} daemon off; pid {self.path}/pid; error_log {self.path}/log; events {{}}"
        conf += f" http {{ access_log off; {places}\n{site} }}"
        conf = conf.replace("PORT", str(self.rooms[0].port))
        files = {"users": "".join(f"{user}:{hashed}\n" for user in USERS), "nginx.conf": conf}
        files["maproom_names.conf"] = self.names
        for name in ("zones.conf", "room.conf", "rooms.conf", "socket.conf", "watch.conf"):
            with open(f"{TOP}/packaging/nginx/{name}", encoding="utf-8") as file:
                text = file.read().replace("/usr/share/maproom/nginx", self.path)
                files[name] = text.replace("/etc/nginx/maproom_", f"{self.path}/maproom_")
        for one, other in self.replaced.items():
            want((one, sum(text.count(one) for text in files.values())), (one, 1))
            files = {name: text.replace(one, other) for name, text in files.items()}
        for name, text in files.items():
            with open(f"{self.path}/{name}", "w", encoding="utf-8") as file:
                file.write(text)

    def with_list(self, site: str) -> str:
        """The configuration with the maps of a list, and one line for the locations of the rooms, as the page says."""
        with open(f"{self.path}/rooms.list", "w", encoding="utf-8") as file:
            file.writelines(f"{name} 127.0.0.1 {room.port} -\n" for name, room in zip(("hamlet", "valley"), self.rooms))
        want(run_soon(f"{TOP}/packaging/rooms", "write", f"{self.path}/rooms.list").status, 0)
        (line,) = re.findall(r"`(include /usr/share/maproom/nginx/rooms\.conf;)`", page())
        rooms = re.compile(r"^ *# each room has(?:.*\n)+? *location = /valley .*$", re.MULTILINE)
        site, count = rooms.subn(f"    {line}", site)
        zones = "include /usr/share/maproom/nginx/zones.conf;"
        want((count, site.count(zones)), (1, 1))
        return site.replace(zones, f"{zones}\ninclude {self.path}/rooms.map;")

    def is_listening(self) -> bool:
        """Whether nginx takes connections."""
        if self.process.poll() is not None:
            with open(f"{self.path}/log", encoding="utf-8") as log:
                raise Broken(f"nginx ended: {log.read()}")
        with socket.socket() as probe:
            return probe.connect_ex(("127.0.0.1", self.port)) == 0

    def connected(self) -> Client:
        """A client that is connected by TLS, and has sent nothing yet."""
        client = Client(self.port, PATIENCE * given.slow)
        context = ssl.create_default_context(cafile=f"{self.path}/certificate")
        client.socket = context.wrap_socket(client.socket, server_hostname="maps.example.org")
        return client

    def client(
        self, path: str, password: str | None = PASSWORD, user: str = "lina", **fields: str | None
    ) -> tuple[Client, str]:
        """A client that is connected by TLS, and has sent the head of its request, and its key."""
        client, key = self.connected(), make_key()
        token = login_of(user, password)
        host = f"maps.example.org:{self.port}"
        fields = {"host": host, "authorization": token if password else None, **fields}
        client.send_bytes(head_of_request(key, first=f"GET {path} HTTP/1.1", **fields))
        return client, key

    def session(self, path: str, **how: Any) -> Client:
        """A client that has shaken hands."""
        client, key = self.client(path, **how)
        client.read_answer(key)
        return client

    def status(self, path: str, **how: Any) -> int:
        """The number that a request is answered with."""
        client, _ = self.client(path, **how)
        with client:
            while b"\r\n" not in client.came:
                client.wait(client.deadline())
            return int(client.came.split(b" ")[1])
