"""A separate PostgreSQL for tests and measuring: in a fresh folder, on a free port of 127.0.0.1."""
import os
import pathlib
import pwd
import shutil
import signal
import subprocess
import tempfile
import time
from collections.abc import Sequence
from typing import TypeAlias

from harness import free_port, in_memory

# An argument of a program.
Word: TypeAlias = str | int | pathlib.Path

# How many seconds it may take to begin and to end.
PATIENCE = 60


def programs() -> pathlib.Path | None:
    """The folder of Debian's programs of PostgreSQL, the newest one, or None."""
    found = sorted(pathlib.Path("/usr/lib/postgresql").glob("*/bin/initdb"), key=lambda path: int(path.parts[-3]))
    return found[-1].parent if found else None


def why_not() -> str | None:
    """Why there can be none here, or None."""
    if programs() is None:
        return "PostgreSQL isn't here (apt-get install postgresql)"
    if os.geteuid() == 0 and not (shutil.which("setpriv") and has_user()):
        return "PostgreSQL doesn't run as root, and there is no setpriv or no user postgres"
    return None


def has_user() -> bool:
    try:
        return pwd.getpwnam("postgres") is not None
    except KeyError:
        return False


class Cluster:
    """A running PostgreSQL. For tests its data is in memory where there is a folder for that, and isn't synced: none of
    them takes the machine's power away. Below a folder that is named it is as Debian has it."""

    def __init__(self, below: pathlib.Path | None = None, before: Sequence[str] = ()) -> None:
        # Its log of changes takes up to 1 GB, and its data as much.
        self.folder = pathlib.Path(tempfile.mkdtemp(prefix="network-postgres-", dir=below or in_memory(3000)))
        quick = [] if below else ["-c", "fsync=off", "-c", "autovacuum=off"]
        self.before = [*before]
        if os.geteuid() == 0:
            shutil.chown(self.folder, "postgres", "postgres")
            self.before += ["setpriv", "--reuid=postgres", "--regid=postgres", "--init-groups"]
        self.run("initdb", "-D", self.folder / "data", "-A", "trust", "-U", "postgres", "-E", "UTF8", "--locale=C",
                 "--no-sync")
        self.port = free_port()
        self.log = open(self.folder / "log", "wb")
        self.process = subprocess.Popen(
            self.words("postgres", "-D", self.folder / "data", "-p", self.port, "-c", "listen_addresses=127.0.0.1", "-c",
                       f"unix_socket_directories={self.folder}", *quick),
            stdin=subprocess.DEVNULL, stdout=self.log, stderr=self.log, cwd="/", start_new_session=True)
        self.wait()

    def words(self, name: str, *words: Word) -> list[str]:
        folder = programs()
        assert folder, "why_not() says that it is there"
        return [*self.before, str(folder / name), *map(str, words)]

    def run(self, name: str, *words: Word) -> None:
        subprocess.run(self.words(name, *words), check=True, capture_output=True, timeout=PATIENCE, cwd="/")

    def wait(self) -> None:
        """Waits until it takes connections."""
        limit = time.monotonic() + PATIENCE
        while True:
            try:
                self.run("pg_isready", "-h", "127.0.0.1", "-p", self.port)
                return
            except subprocess.CalledProcessError:
                if self.process.poll() is not None or time.monotonic() > limit:
                    raise RuntimeError((self.folder / "log").read_text()) from None
                time.sleep(0.05)

    def database(self, name: str) -> str:
        """The URL of a new database."""
        self.run("createdb", "-h", "127.0.0.1", "-p", self.port, "-U", "postgres", name)
        return f"postgresql://postgres@127.0.0.1:{self.port}/{name}"

    def stop(self) -> None:
        self.process.send_signal(signal.SIGINT)
        try:
            self.process.wait(PATIENCE)
        except subprocess.TimeoutExpired:
            self.process.kill()
            self.process.wait()
        self.log.close()
        shutil.rmtree(self.folder)
