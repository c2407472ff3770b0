"""Runs many rooms on several machines. A list has a line for each room: ROOM MACHINE PORT API

    %(prog)s write --site maps.example.org rooms.list
    %(prog)s move rooms.list hamlet 10.0.0.2 9002 8102

MACHINE is an IP address, PORT that of the server, and API that of the editors' API, or `-` if the room has none.

`write` writes env/MACHINE/ROOM.env for each room: copy it to /etc/maproom/ROOM.env on the machine. It also writes
rooms.map for nginx, which sends /ROOM and /ROOM/api to the processes of the room.

`move` moves a room to another machine, and reports each step on standard error. It closes the room in nginx, stops its
services, and copies what its keeper saved, and ROOM.env with the new addresses. Then it starts the services on the new
machine, and opens the room again when its keeper is connected there. No change is lost that the room answered: the
room has no clients when its keeper stops, and its server stops only if the keeper saved everything. If a step fails, or
if you press Ctrl-C, close the terminal or send SIGTERM, the room goes on where it was. ssh has to log in without a
question, and gives up a silent machine. Of several moves with one list, each waits for the one before.
"""
from __future__ import annotations

import argparse
import contextlib
import fcntl
import ipaddress
import os
import re
import shlex
import signal
import socket
import subprocess
import sys
import time
import types
from typing import Dict, Iterable, Iterator, List, Mapping, NamedTuple, Optional, Tuple

STATE, SETTINGS = "/var/lib/maproom", "/etc/maproom"

# The workers of a room, and the host name of nginx, if no option gives them.
WORKERS, SITE = 32, "localhost"

# How many seconds after the last change the keeper has its news, which the server sends within 50 ms.
NEWS = 1

# How `move` runs a command on a machine. ssh asks nothing while the room is closed. It gives up a machine that it
# cannot reach within 10 seconds, or that is silent for 30 seconds.
SSH = "ssh -o BatchMode=yes -o ConnectTimeout=10 -o ServerAliveInterval=10 -o ServerAliveCountMax=3"

# The condition of a shell that a unit runs.
RUNS = "systemctl is-active --quiet"

# The signals that end a move, which goes back first.
SIGNALS = (signal.SIGINT, signal.SIGTERM, signal.SIGHUP)

# How often `move` looks whether a signal came, or the room runs, in seconds.
LOOK = 0.1

LINE = re.compile(r"([a-z0-9_]{1,32})\s+(\S+)\s+([0-9]{1,5})\s+([0-9]{1,5}|-)")


class BadList(Exception):
    """The list is not of its form."""


class Failed(Exception):
    """A step of a move failed."""


class Stopped(Exception):
    """A signal ends a move."""

    def __init__(self, number: int) -> None:
        super().__init__(f"stopped by {signal.Signals(number).name}")
        self.number = number


class Place(NamedTuple):
    """Where a room is: its machine, the port of its server, and that of its editors' API, if it has one."""

    machine: str
    port: int
    api: Optional[int]

    def address(self, port: int) -> str:
        """An address on the machine."""
        return f"[{self.machine}]:{port}" if ":" in self.machine else f"{self.machine}:{port}"


def note(step: str) -> None:
    """Reports a step of a move, if somebody still listens: a move also goes back if its terminal was closed."""
    with contextlib.suppress(OSError):
        print(f"rooms: {step}", file=sys.stderr, flush=True)


def lines_of(path: str) -> List[str]:
    """The lines of a list."""
    with open(path, encoding="utf-8") as file:
        return file.readlines()


def read_list(name: str, lines: Iterable[str]) -> Dict[str, Place]:
    """The rooms of a list, each with its place. Raises BadList with the name of the list."""
    rooms: Dict[str, Place] = {}
    used: Dict[Tuple[str, int], str] = {}
    for number, line in enumerate(lines, 1):
        if not line.strip() or line.startswith("#"):
            continue
        where = f"{name}:{number}"
        room, place = room_of(line, where)
        if room in rooms:
            raise BadList(f"{where}: {room} is there twice")
        for port in filter(None, (place.port, place.api)):
            if used.setdefault((place.machine, port), room) != room or place.port == place.api:
                raise BadList(f"{where}: {place.address(port)} is there twice")
        rooms[room] = place
    return rooms


def room_of(line: str, where: str) -> Tuple[str, Place]:
    """The room of a line, and its place. Raises BadList."""
    found = LINE.fullmatch(line.strip())
    if not found:
        raise BadList(f"{where}: a line is ROOM MACHINE PORT API")
    room, machine, port, api = found.groups()
    try:
        # The maps of nginx cannot have the name of a machine.
        machine = str(ipaddress.ip_address(machine))
    except ValueError as fault:
        raise BadList(f"{where}: {machine} is no IP address") from fault
    place = Place(machine, int(port), None if api == "-" else int(api))
    for number in (place.port, place.api):
        if number is not None and not 1 <= number <= 65535:
            raise BadList(f"{where}: {number} is no port")
    return room, place


def with_line(lines: Iterable[str], room: str, line: str) -> List[str]:
    """A list in which a room has another line."""
    return [f"{line}\n" if each.split()[:1] == [room] else each for each in lines]


class Signals:
    """Notes the signals that end a move, for a block. A step ends before the move does: otherwise a machine could still
    be at that step while the move goes back."""

    def __init__(self) -> None:
        self._number: Optional[int] = None
        self._is_held = False

    def __enter__(self) -> Signals:
        self._before = {each: signal.signal(each, self._note) for each in SIGNALS}
        return self

    def __exit__(self, *_: object) -> None:
        for each, handler in self._before.items():
            signal.signal(each, handler)

    def _note(self, number: int, frame: Optional[types.FrameType]) -> None:
        """Notes a signal."""
        self._number = number
        if not self._is_held:
            note(f"{signal.Signals(number).name} came: ending after this command")

    def hold(self) -> None:
        """Has signals end nothing from now on."""
        self._is_held = True

    def check(self) -> None:
        """Raises Stopped if a signal came."""
        if self._number is not None and not self._is_held:
            raise Stopped(self._number)

    def pause(self, seconds: float) -> None:
        """Waits. Raises Stopped if a signal comes."""
        deadline = time.monotonic() + seconds
        while (left := deadline - time.monotonic()) > 0:
            self.check()
            time.sleep(min(left, LOOK))
        self.check()


def listens(machine: str, port: int) -> bool:
    """Whether a program listens at a port of a machine."""
    try:
        socket.create_connection((machine, port), 5).close()
    except OSError:
        return False
    return True


def replace(path: str, text: str) -> None:
    """Replaces a file in one step."""
    os.makedirs(os.path.dirname(path) or ".", exist_ok=True)
    with open(f"{path}.new", "w", encoding="utf-8") as file:
        file.write(text)
    os.rename(f"{path}.new", path)


@contextlib.contextmanager
def locked(path: str, signals: Signals) -> Iterator[None]:
    """Has this program be the only one that works on a list, for a block. It locks the folder of the list, because the
    list is replaced. Raises Stopped or OSError."""
    folder = os.open(os.path.dirname(os.path.abspath(path)), os.O_RDONLY | os.O_DIRECTORY | os.O_CLOEXEC)
    try:
        if not is_taken(folder):
            note(f"waiting for another program that works on {path}")
            while not is_taken(folder):
                signals.pause(LOOK)
        yield
    finally:
        os.close(folder)


def is_taken(file: int) -> bool:
    """Takes the lock of a file, if nobody else holds it. Returns whether it did."""
    try:
        fcntl.flock(file, fcntl.LOCK_EX | fcntl.LOCK_NB)
        return True
    except BlockingIOError:
        return False


def environment(room: str, place: Place, options: argparse.Namespace, old: str = "") -> str:
    """The environment file of a room. The lines of an old file stay, but for the addresses and what an option gives."""
    site = options.site or SITE
    values = {"ADDR": place.address(place.port), "WORKERS": str(options.workers or WORKERS)}
    if place.api:
        api_options = f"--trust-header --host {site} --public-url https://{site}/{room}"
        values |= {"API": place.address(place.api), "API_OPTIONS": api_options}
    stays = {
        "ADDR": False,
        "API": False,
        "WORKERS": not options.workers,
        "API_OPTIONS": bool(place.api) and not options.site,
    }
    kept = [line for line in old.splitlines() if stays.get(line.partition("=")[0], True)]
    names = {line.partition("=")[0] for line in kept}
    new = [f"{name}={value}" for name, value in values.items() if name not in names]
    return "".join(f"{line}\n" for line in [*new, *kept])


def nginx_map(rooms: Mapping[str, Place], closed: Optional[str] = None) -> str:
    """The maps of nginx, in which one room can be closed."""
    servers, apis = [], []
    for room, place in sorted(rooms.items()):
        is_closed = room == closed
        servers.append(f"    /{room} {'closed' if is_closed else place.address(place.port)};\n")
        if place.api:
            apis.append(f"    ~^/{room}/ {'closed' if is_closed else place.address(place.api)};\n")
    return "".join(
        f'map $uri {name} {{\n    default "";\n{"".join(lines)}}}\n'
        for name, lines in (("$maproom_server", servers), ("$maproom_api", apis))
    )


def write(rooms: Mapping[str, Place], options: argparse.Namespace) -> None:
    """Writes the environment files and the maps of nginx."""
    for room, place in rooms.items():
        replace(f"{options.to}/env/{place.machine}/{room}.env", environment(room, place, options))
    replace(f"{options.to}/rooms.map", nginx_map(rooms))


class Move:
    """A room that is moved, while its list is locked. Each step raises Failed, Stopped, BadList or OSError."""

    def __init__(self, options: argparse.Namespace, signals: Signals) -> None:
        """Reads the list. Raises BadList or OSError."""
        self.room, self.options, self.signals = options.room, options, signals
        self.settings, self.runs, self.is_configured = "", True, False
        self.line = f"{options.room} {options.machine} {options.port} {options.api}"
        self.rooms = self.read()
        if self.room not in self.rooms:
            raise BadList(f"{options.list} has no room {self.room}")
        self.old, self.new = self.rooms[self.room], self.read(moved=True)[self.room]

    def read(self, moved: bool = False) -> Dict[str, Place]:
        """The rooms of the list as it is now, or with the room at its new place."""
        lines = lines_of(self.options.list)
        if moved:
            return read_list("the new list", with_line(lines, self.room, self.line))
        return read_list(self.options.list, lines)

    def on(self, place: Place, command: str, data: bytes = b"") -> bytes:
        """Runs a command on a machine, and gives what it prints. A signal to this program does not end it. Raises
        Failed, and Stopped if a signal came before."""
        self.signals.check()
        command_line = [*shlex.split(self.options.remote), place.machine, command]
        ran = subprocess.run(command_line, input=data, stdout=subprocess.PIPE, check=False, start_new_session=True)
        if ran.returncode:
            raise Failed(f"on {place.machine}: {command} failed")
        return ran.stdout

    @property
    def keeper(self) -> str:
        """The unit of the room's keeper."""
        return f"maproom-keep@{self.room}"

    @property
    def is_kept(self) -> str:
        """The condition of a shell that the room's keeper is connected, for which it locks a file."""
        session = f"{STATE}/{self.room}/session"
        return f"{RUNS} {self.keeper} && test -e {session} && ! flock --nonblock --shared {session} true"

    def services(self, place: Place) -> str:
        """The units of the room that are enabled."""
        return f"maproom@{self.room}" + (f" maproom-osm-api@{self.room}" if place.api else "")

    def ask(self) -> None:
        """Raises Failed if the room cannot go: its name or a port is taken there, or its keeper does not save it."""
        note(f"asking {self.new.machine} whether {self.room} can go there")
        if b"free" not in self.on(self.new, f"test -e {STATE}/{self.room} || echo free"):
            raise Failed(f"{STATE}/{self.room} is there already on {self.new.machine}: nothing was done")
        for port in filter(None, (self.new.port, self.new.api)):
            if listens(self.new.machine, port):
                raise Failed(f"{self.new.address(port)} is taken: nothing was done")
        note(f"asking {self.old.machine} whether {self.room} is saved")
        if not self.is_saved():
            raise Failed(f"{self.keeper} does not save the room on {self.old.machine}: nothing was done")
        self.runs = b"runs" in self.on(self.old, f"if {RUNS} maproom@{self.room}; then echo runs; fi")

    def is_saved(self) -> bool:
        """Whether the room's keeper is connected, or the room does not run."""
        stopped = f"! {RUNS} maproom@{self.room}"
        return b"saved" in self.on(self.old, f"if {{ {self.is_kept}; }} || {stopped}; then echo saved; fi")

    def show(self, rooms: Mapping[str, Place], closed: Optional[str] = None) -> None:
        """Has nginx send the paths to these places."""
        replace(f"{self.options.to}/rooms.map", nginx_map(rooms, closed))
        if subprocess.run(self.options.reload, shell=True, check=False, start_new_session=True).returncode:
            raise Failed(f"{self.options.reload} failed")

    def close(self) -> None:
        """Closes the room in nginx, and waits until nginx has ended the connections of its old workers."""
        note(f"closing {self.room} in nginx")
        self.show(self.read(), closed=self.room)
        self.signals.pause(self.options.drain)

    def stop(self) -> None:
        """Stops the editors' API, which makes the last changes, and then the keeper. If that saved everything, stops
        the server."""
        note(f"stopping {self.room} on {self.old.machine}")
        if self.old.api:
            self.on(self.old, f"systemctl stop maproom-osm-api@{self.room}")
        self.signals.pause(NEWS)
        if not self.is_saved():
            raise Failed(f"{self.keeper} does not save the room on {self.old.machine}")
        self.on(self.old, f"systemctl stop {self.keeper}")
        self.on(self.old, f"! systemctl is-failed --quiet {self.keeper}")
        self.on(self.old, f"systemctl stop maproom@{self.room}")

    def copy(self) -> None:
        """Copies the keeper's folder, and the versions of the editors' API."""
        note(f"copying {self.room} to {self.new.machine}")
        names = f"{self.room} $(test ! -e {self.room}.ledger || echo {self.room}.ledger)"
        saved = self.on(self.old, f"cd {STATE} && tar -c {names}")
        self.on(self.new, f"mkdir -p {STATE} && cd {STATE} && test ! -e {self.room} && tar -x", saved)

    def configure(self) -> None:
        """Copies the environment file with the new addresses. One that was there before is kept next to it."""
        old = self.on(self.old, f"cat {SETTINGS}/{self.room}.env").decode()
        self.settings = environment(self.room, self.new, self.options, old)
        path = f"{SETTINGS}/{self.room}.env"
        keep = f"rm -f {path}.before && if test -e {path}; then cp -p {path} {path}.before; fi"
        self.on(self.new, f"mkdir -p {SETTINGS} && {keep}")
        self.is_configured = True
        self.on(self.new, f"cat >{path}", self.settings.encode())

    def start(self) -> None:
        """Starts the services on the new machine, and waits until the server listens and its keeper is connected. So
        it is this room that answers, and no other program."""
        note(f"starting {self.room} on {self.new.machine}")
        self.on(self.new, f"systemctl enable --now {self.services(self.new)}")
        deadline = time.monotonic() + self.options.wait
        while fault := self.fault():
            if time.monotonic() > deadline:
                raise Failed(fault)
            self.signals.pause(LOOK)

    def fault(self) -> Optional[str]:
        """Why the room cannot be opened on the new machine yet, or None."""
        if not listens(self.new.machine, self.new.port):
            return f"no server listens at {self.new.address(self.new.port)}"
        if b"kept" not in self.on(self.new, f"if {self.is_kept}; then echo kept; fi"):
            return f"{self.keeper} does not save the room on {self.new.machine}"
        return None

    def open(self) -> None:
        """Opens the room at its new place, in the list and in nginx. From here on the move only goes forward."""
        note(f"opening {self.room} in nginx")
        if self.read()[self.room] != self.old:
            raise Failed(f"{self.options.list} has another place of {self.room} now")
        self.signals.check()
        self.signals.hold()
        self.show(self.read(moved=True))
        replace(self.options.list, "".join(with_line(lines_of(self.options.list), self.room, self.line)))

    def finish(self) -> None:
        """Leaves nothing of the room on the old machine but its saves, under another name."""
        self.on(
            self.old,
            f"systemctl disable {self.services(self.old)}; "
            f"cd {STATE} && mv {self.room} {self.room}.moved.{int(time.time())}",
        )
        self.on(self.new, f"rm -f {SETTINGS}/{self.room}.env.before")
        replace(f"{self.options.to}/env/{self.new.machine}/{self.room}.env", self.settings)
        with contextlib.suppress(FileNotFoundError):
            os.remove(f"{self.options.to}/env/{self.old.machine}/{self.room}.env")
        note(f"{self.room} is on {self.new.machine}")

    # what takes a step back

    def take_back(self, place: Place, command: str) -> None:
        """Runs a command that takes a step back. The others follow, even if it fails."""
        try:
            self.on(place, command)
        except Failed as fault:
            note(str(fault))

    def open_again(self) -> None:
        """Opens the room in nginx where it was, also if somebody spoiled the list meanwhile."""
        with contextlib.suppress(BadList, OSError):
            self.rooms = self.read()
        self.show({**self.rooms, self.room: self.old})

    def start_again(self) -> None:
        """Starts the services where they were, if they ran."""
        if self.runs:
            self.take_back(self.old, f"systemctl start {self.services(self.old)} {self.keeper}")

    def remove_copy(self) -> None:
        """Removes the copy on the new machine."""
        self.take_back(self.new, f"rm -rf {STATE}/{self.room}")

    def restore_settings(self) -> None:
        """Removes the environment file on the new machine, or puts that back which was there before."""
        if self.is_configured:
            path = f"{SETTINGS}/{self.room}.env"
            command = f"if test -e {path}.before; then mv {path}.before {path}; else rm -f {path}; fi"
            self.take_back(self.new, command)

    def stop_new(self) -> None:
        """Stops the services on the new machine."""
        self.take_back(self.new, f"systemctl disable --now {self.services(self.new)} {self.keeper}")

    def run(self) -> None:
        """Moves the room. Whatever ends a step, the steps so far are taken back, the last one first."""
        self.ask()
        with contextlib.ExitStack() as back:
            for step, takes_back in (
                (self.close, self.open_again),
                (self.stop, self.start_again),
                (self.copy, self.remove_copy),
                (self.configure, self.restore_settings),
                (self.start, self.stop_new),
                (self.open, None),
            ):
                if takes_back:
                    back.callback(takes_back)
                try:
                    step()
                except BaseException:
                    self.signals.hold()
                    note(f"a step failed: {self.room} stays on {self.old.machine}")
                    raise
            back.pop_all()
        self.finish()


def arguments() -> argparse.Namespace:
    """Reads the command line."""
    parser = argparse.ArgumentParser(description=__doc__, formatter_class=argparse.RawDescriptionHelpFormatter)
    shared = argparse.ArgumentParser(add_help=False)
    shared.add_argument(
        "--to", metavar="FOLDER", help="the folder in which to write the files; default: that of the list"
    )
    shared.add_argument(
        "--workers",
        type=int,
        metavar="N",
        help=f"the workers of each room; default: {WORKERS}, or those that a moved room has",
    )
    shared.add_argument(
        "--site",
        metavar="HOST",
        help=f"the host name of nginx, to which the editors' API answers; default: {SITE}, or that of a moved room",
    )
    does = parser.add_subparsers(dest="does", required=True)
    writing = does.add_parser("write", parents=[shared], help="write the environment files and the maps of nginx")
    moving = does.add_parser("move", parents=[shared], help="move a room to another machine")
    for each in (writing, moving):
        each.add_argument("list", metavar="LIST", help="the list of the rooms")
    moving.add_argument("room", metavar="ROOM", help="the room to move")
    moving.add_argument("machine", metavar="MACHINE", help="the IP address of its new machine")
    moving.add_argument("port", metavar="PORT", help="the port of its server there")
    moving.add_argument("api", metavar="API", help="the port of its editors' API there, or `-` if it has none")
    moving.add_argument(
        "--remote",
        default=SSH,
        metavar="COMMAND",
        help=f"the command that gets a machine and a command to run there; default: {SSH}",
    )
    moving.add_argument(
        "--reload",
        default="systemctl reload nginx",
        metavar="COMMAND",
        help="the command that makes nginx read its configuration; default: systemctl reload nginx",
    )
    moving.add_argument(
        "--drain",
        type=float,
        default=3,
        metavar="SECONDS",
        help="how long to wait until nginx has closed the room's connections; default: 3",
    )
    moving.add_argument(
        "--wait", type=float, default=60, metavar="SECONDS", help="how long the room may take to start; default: 60"
    )
    options = parser.parse_args()
    options.to = options.to or os.path.dirname(os.path.abspath(options.list))
    return options


def main() -> int:
    """Does what the command line says. Returns the status."""
    options = arguments()
    try:
        with Signals() as signals, locked(options.list, signals):
            if options.does == "write":
                write(read_list(options.list, lines_of(options.list)), options)
            else:
                Move(options, signals).run()
        return 0
    except Stopped as fault:
        note(str(fault))
        return 128 + fault.number
    except (BadList, Failed) as fault:
        note(str(fault))
    except OSError as fault:
        note(f"{fault.filename or options.list}: {fault.strerror}")
    return 1
