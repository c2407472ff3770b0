"""Starts a server of PostgreSQL with PostGIS in a folder of its own, which programs reach by a socket in that folder."""
from __future__ import annotations

import contextlib
import functools
import glob
import os
import pwd
import shutil
import subprocess
import tempfile
from collections.abc import Iterator

from .programs import Ran, run_soon, wait_for

# The user who runs PostgreSQL if the tests run as root, whom it refuses.
USER = "postgres"


@functools.lru_cache(maxsize=None)
def programs_of_postgres() -> str:
    """The folder with the programs of the newest PostgreSQL that has PostGIS, or an empty text."""
    found = []
    for folder in glob.glob("/usr/lib/postgresql/*/bin"):
        version = folder.split("/")[-2]
        if os.path.exists(f"/usr/share/postgresql/{version}/extension/postgis.control"):
            found.append((float(version), folder))
    return max(found)[1] if found else ""


def has_postgis() -> bool:
    """Whether PostgreSQL with PostGIS is there, and a user who may run it."""
    if not programs_of_postgres() or not shutil.which("psql"):
        return False
    if os.getuid():
        return True
    with contextlib.suppress(KeyError):
        return bool(pwd.getpwnam(USER) and shutil.which("setpriv"))
    return False


class Postgres:
    """A server with one database. `environment` has programs connect to it."""

    def __init__(self, folder: str) -> None:
        """`folder` is the folder of its files, which is there."""
        self.folder, self.data = folder, f"{folder}/data"
        self.user = USER if os.getuid() == 0 else pwd.getpwuid(os.getuid()).pw_name
        self.environment = {**os.environ, "PGHOST": folder, "PGUSER": self.user, "PGDATABASE": "room", "LC_ALL": "C"}
        self.process: subprocess.Popen[bytes] | None = None

    def command(self, program: str, *words: str) -> list[str]:
        """A command of PostgreSQL, as its user."""
        user = ["setpriv", f"--reuid={USER}", f"--regid={USER}", "--clear-groups"] if os.getuid() == 0 else []
        return [*user, f"{programs_of_postgres()}/{program}", *words]

    def create(self) -> None:
        """Makes the files and the database, and starts the server."""
        if os.getuid() == 0:
            shutil.chown(self.folder, USER, USER)
        # Debian's own configuration is not used. The test needs no durable writes, but it kills the server.
        made = run_soon(*self.command("initdb", "-D", self.data, "-A", "trust", "-E", "UTF8", "--no-locale"), cwd="/")
        if made.status:
            raise AssertionError(f"initdb failed: {made.errors!r}")
        self.start()
        environment = {**self.environment, "PGDATABASE": "postgres"}
        self.want_done(run_soon("psql", "-qc", "CREATE DATABASE room", env=environment))
        self.sql("CREATE EXTENSION postgis; CREATE EXTENSION hstore")

    def start(self) -> None:
        """Starts the server, and waits until it answers."""
        how = ["-D", self.data, "-k", self.folder, "-c", "listen_addresses="]
        with open(f"{self.folder}/log", "ab") as log:
            self.process = subprocess.Popen(self.command("postgres", *how), stdout=log, stderr=log, cwd="/")
        environment = {**self.environment, "PGDATABASE": "postgres"}
        wait_for("PostgreSQL does not answer", lambda: run_soon("psql", "-qc", "SELECT 1", env=environment).status == 0)

    def kill(self) -> None:
        """Kills the server, which then has to recover."""
        if self.process:
            self.process.kill()
            self.process.wait()
            self.process = None
            # Its children end by themselves when they notice, and only then can another server start.
            wait_for("the children of PostgreSQL stay", lambda: not self.has_children())

    def has_children(self) -> bool:
        """Whether a process of the server still runs in its files."""
        for path in glob.glob("/proc/[0-9]*/cwd"):
            with contextlib.suppress(OSError):
                if os.readlink(path) == self.data:
                    return True
        return False

    def sql(self, statement: str) -> list[str]:
        """The lines of the result of a statement, without titles. The columns are separated by tabs."""
        ran = run_soon("psql", "-qAt", "-F", "\t", "-v", "ON_ERROR_STOP=1", "-c", statement, env=self.environment)
        self.want_done(ran)
        return ran.lines()

    @staticmethod
    def want_done(ran: Ran) -> None:
        """Fails if a command failed."""
        if ran.status:
            raise AssertionError(f"status {ran.status}: {ran.errors.decode()}")


@contextlib.contextmanager
def postgres() -> Iterator[Postgres]:
    """A server with an empty database that has PostGIS, for a block."""
    with tempfile.TemporaryDirectory(prefix="maproom-postgres-") as folder:
        server = Postgres(folder)
        try:
            server.create()
            yield server
        finally:
            server.kill()
