"""A PostgreSQL server for tests: in a folder of its own, on a socket there, run by an ordinary user."""
import os
import pwd
import shutil
import subprocess
import tempfile
from pathlib import Path


class NoServer(Exception):
    """There is no PostgreSQL to be tested with."""


def programs() -> Path:
    """The folder with initdb and pg_ctl, which Debian doesn't have on the PATH."""
    found = shutil.which("initdb") or ""
    folders = sorted(Path("/usr/lib/postgresql").glob("*/bin"), key=lambda it: int(it.parent.name))
    if folders:
        return folders[-1]
    if not found:
        raise NoServer("there is no initdb: run tools/packages")
    return Path(found).resolve().parent


def ordinary() -> list:
    """The words before a command that make an ordinary user run it, if root runs the tests."""
    return ["setpriv", "--reuid=nobody", "--regid=nogroup", "--clear-groups"] if os.geteuid() == 0 else []


class Postgres:
    """A server. At the end of `with` it is gone, and with it its folder."""

    SETTINGS = {
        "listen_addresses": "",
        "max_connections": 60,
        "shared_buffers": "16MB",
        "logging_collector": "off",
        "autovacuum_naptime": "5s",
    }

    def __init__(self, folder: Path = None, **settings) -> None:
        self.place = tempfile.TemporaryDirectory(prefix="markring-pg-", dir=folder)
        self.folder = Path(self.place.name)
        self.folder.chmod(0o755)
        self.data, self.sockets = self.folder / "data", self.folder / "s"
        self.programs, self.before, self.port = programs(), ordinary(), settings.get("port", 5432)
        for it in (self.data, self.sockets):
            it.mkdir()
            if self.before:
                user = pwd.getpwnam("nobody")
                os.chown(it, user.pw_uid, user.pw_gid)
            it.chmod(0o700 if it is self.data else 0o755)
        self.log = self.sockets / "log"
        self.call("initdb", "-D", self.data, "-A", "trust", "-U", "markring", "--no-sync", "-E", "UTF8", "--locale=C")
        self.configure(**{**self.SETTINGS, "unix_socket_directories": self.sockets, **settings})

    def call(self, program: str, *words, check: bool = True, data: str = None) -> str:
        command = [*self.before, str(self.programs / program), *map(str, words)]
        variables = {**os.environ, "PGHOST": str(self.sockets), "PGPORT": str(self.port), "PGUSER": "markring"}
        done = subprocess.run(
            command, input=data, capture_output=True, text=True, check=False, cwd="/", timeout=120, env=variables
        )
        if check and done.returncode != 0:
            raise RuntimeError(f"{program}: {done.stderr.strip()}")
        return done.stdout

    def configure(self, **settings) -> None:
        with (self.data / "postgresql.auto.conf").open("a") as to:
            to.writelines(f"{name} = '{value}'\n" for name, value in settings.items())

    def start(self) -> "Postgres":
        self.call("pg_ctl", "-D", self.data, "-w", "-t", 60, "-l", self.log, "start")
        return self

    def stop(self, how: str = "immediate") -> None:
        self.call("pg_ctl", "-D", self.data, "-w", "-m", how, "stop", check=False)

    def reload(self) -> None:
        self.call("pg_ctl", "-D", self.data, "reload")

    def __enter__(self) -> "Postgres":
        return self.start()

    def __exit__(self, kind, error, trace) -> None:
        self.stop()
        self.place.cleanup()

    def sql(self, text: str, database: str = "postgres", check: bool = True) -> str:
        return self.call(
            "psql", "-d", database, "-qAtX", "-v", "ON_ERROR_STOP=1", check=check, data=text
        ).strip()

    def make(self, database: str) -> None:
        self.sql(f"create database {database}")

    def url(self, database: str, node: str = "", **more) -> str:
        """The address of a database, or of a node in it."""
        words = "".join(f"&{name}={it}" for name, it in more.items())
        return f"postgresql://markring@/{database}?host={self.sockets}&port={self.port}{words}" + (f"#{node}" if node else "")

    def dump(self, database: str, to: Path) -> None:
        text = self.call("pg_dump", "-n", "markring", database)
        to.write_text(text)

    def restore(self, dump: Path, database: str) -> None:
        self.make(database)
        self.sql(dump.read_text(), database)
