# SPDX-License-Identifier: Apache-2.0
"""What the scripts that run a station share: the program, the scripts beside them, a server's settings, owners, and
files that are written whole.
"""
import argparse
import contextlib
import fcntl
import os
import pathlib
import pwd
import re
import shutil
import stat
import subprocess
import sys
from collections.abc import Callable, Iterable
from typing import Any, NoReturn, Self

from bovtrila import codec, places, settings, wire
from bovtrila.wire import Wrong

# For the scripts that have no other need of `settings`.
words_of = settings.words_of
# What is put before a program, so that the system kills it when the script that started it dies.
BESIDE = ["setpriv", "--pdeathsig", "KILL", "--"]


def program(asked: str | pathlib.Path | None = None) -> str:
    """The path of the program: the one that is asked for, that of the repository, or the one that is installed."""
    for place in (asked,) if asked else (places.PROGRAM, shutil.which("bovtrila")):
        if place and os.access(place, os.X_OK) and pathlib.Path(place).is_file():
            return str(pathlib.Path(place).resolve())
    raise Wrong(f"{asked or 'bovtrila'}: there is no such program; name it by --program")


def run(words: Iterable[object], **options: Any) -> tuple[int, str, str]:
    """Runs a program that only reads to its end: its status, its output, and what stands on standard error."""
    done: subprocess.CompletedProcess[str] = subprocess.run(
        [str(word) for word in words], stdin=subprocess.DEVNULL, capture_output=True, text=True, **options)
    return done.returncode, done.stdout, done.stderr


class Owner:
    """Whose files they are, and how the program is started as this user."""

    def __init__(self, name: str | None) -> None:
        # The user and the group by their numbers, where root starts this.
        self.ids: tuple[int, int] | None = None
        self.name = name or "bovtrila"
        # The options of `subprocess` by which a program is started as this user.
        self.start: dict[str, Any] = {"umask": 0o027}
        if os.geteuid() != 0:
            if name and name != pwd.getpwuid(os.geteuid()).pw_name:
                raise Wrong(f"only root makes files of the user {name}")
            return
        try:
            found = pwd.getpwnam(name or "bovtrila")
        except KeyError:
            raise Wrong(f"there is no user {name or 'bovtrila'}; make it, as OPERATING.md says, or name "
                        "another by --user") from None
        self.ids = found.pw_uid, found.pw_gid
        self.start.update(user=found.pw_uid, group=found.pw_gid, extra_groups=[])

    def take(self, path: pathlib.Path, mode: int) -> None:
        """Makes a file or a folder this user's."""
        os.chmod(path, mode)
        if self.ids:
            os.chown(path, *self.ids)

    def make(self, folder: pathlib.Path) -> bool:
        """Makes a folder of this user's, where it isn't there: whether it was made."""
        if folder.is_dir():
            return False
        try:
            folder.mkdir(parents=True)
        except FileExistsError:
            if not folder.is_dir():
                raise
            return False  # another run has made it meanwhile
        self.take(folder, 0o750)
        return True

    def work_in(self, folder: pathlib.Path) -> None:
        """Goes on as this user, in a folder that is made where it isn't there. What root has left in it becomes the
        user's, and so does a folder of root's that lies in one of the user's."""
        self.make(folder)
        if not self.ids:
            return
        if folder.parent.stat().st_uid == self.ids[0]:
            self.give(folder, stat.S_ISDIR)
        for path in folder.iterdir():
            self.give(path, stat.S_ISREG)
        os.initgroups(pwd.getpwuid(self.ids[0]).pw_name, self.ids[1])
        os.setgid(self.ids[1])
        os.setuid(self.ids[0])
        os.umask(self.start["umask"])
        if not os.access(folder, os.W_OK | os.X_OK):
            raise Wrong(f"{folder}: the user {self.name} may not write there: chown {self.name}: {folder}")

    def give(self, path: pathlib.Path, is_such: Callable[[int], bool]) -> None:
        """Gives the user what root has of such a kind. A link, or one of several links of a file, stays root's."""
        with contextlib.suppress(OSError):
            opened = os.open(path, os.O_RDONLY | os.O_NOFOLLOW | os.O_NONBLOCK)
            status = os.fstat(opened)
            is_one = status.st_nlink == 1 or stat.S_ISDIR(status.st_mode)
            if self.ids and status.st_uid == 0 and is_one and is_such(status.st_mode):
                os.fchown(opened, *self.ids)
            os.close(opened)


class Started:
    """A server that runs for as long as the script needs it, on a free port of this machine."""

    def __init__(self, words: Iterable[object], **options: Any) -> None:
        self.process: subprocess.Popen[str] = subprocess.Popen(
            [*BESIDE, *map(str, words)], stdin=subprocess.DEVNULL, stderr=subprocess.PIPE, stdout=subprocess.DEVNULL,
            text=True, **options)
        assert self.process.stderr  # it is a pipe
        self.errors = self.process.stderr
        said = [self.errors.readline()]
        # What it tells of its journal comes first.
        while said[-1] and not said[-1].startswith("listening "):
            said.append(self.errors.readline())
        if not said[-1]:
            self.process.wait()
            self.errors.close()
            status = self.process.returncode
            raise Wrong("".join(said).strip() or f"the server ended with status {status}, and said nothing")
        host, _, port = said[-1].split()[1].rpartition(":")
        self.address = host, int(port)

    def __enter__(self) -> Self:
        return self

    def __exit__(self, *_: object) -> None:
        self.process.kill()
        self.process.wait()
        self.errors.close()


def whole(least: int, most: int) -> Callable[[str], int]:
    """What reads a number of the command line."""
    def read(text: str) -> int:
        if not re.fullmatch("[0-9]{1,10}", text, re.ASCII) or not least <= int(text) <= most:
            raise argparse.ArgumentTypeError(f"'{text}' is no number from {least} to {most}")
        return int(text)
    return read


def fail(text: str) -> NoReturn:
    """Ends with this text and status 1. Under systemd its lines are errors there."""
    if "JOURNAL_STREAM" in os.environ:
        text = "\n".join(f"<3>{line}" for line in text.split("\n"))
    sys.exit(text)


def has_server(journal: str | pathlib.Path) -> bool:
    """Whether a server, or another run, has a journal: its lock is taken."""
    with open(journal, "rb") as file:
        try:
            fcntl.flock(file, fcntl.LOCK_EX | fcntl.LOCK_NB)
        except BlockingIOError:
            return True
    return False


def front_of(words: settings.Words) -> int | None:
    """How many touches the server with these settings has, or None where none answers."""
    return front_at(words["listen"], words.header())


def front_at(listen: str, header: bytes = b"") -> int | None:
    """How many touches the server that listens at an address has, or None where none answers. The connection begins with
    this header."""
    try:
        with wire.Connection(reached_at(listen), 5, header=header) as line:
            line.send(codec.enquiry(1))
            answer = line.take()
    except OSError:
        return None
    return wire.fields_of(answer)["front"] if answer and answer[2] == codec.HOLDING else None


def reached_at(listen: str) -> wire.Address:
    """Where a server that listens at this address is reached from its own machine."""
    host, port = wire.address(listen)
    return {"0.0.0.0": "127.0.0.1", "::": "::1"}.get(host, host), port


def folder_of(asked: str | None, name: str | None) -> pathlib.Path:
    """The folder of a server: the one that is asked for, or that of its unit."""
    return pathlib.Path(asked or f"/var/lib/bovtrila/{name or ''}").absolute()


def config_of(asked: str | None, name: str | None) -> pathlib.Path:
    """The file of a server's words: the one that is asked for, or that of its unit."""
    return pathlib.Path(asked or f"/etc/bovtrila/{name or 'serve'}.conf").absolute()


def names(folder: str | pathlib.Path = "/etc/bovtrila") -> list[str | None]:
    """The names of the servers of this machine: `None` is that of serve.conf, and each other one is that of its file of
    words. stunnel's own configuration lies there too."""
    found = {path.stem for path in pathlib.Path(folder).glob("*.conf")}
    others = sorted(name for name in found if name != "serve" and not name.startswith("stunnel"))
    return [None, *others] if "serve" in found else [*others]


def sync(path: str | pathlib.Path) -> None:
    """Sees to it that a file, or the names of a folder, are on the disk."""
    opened = os.open(path, os.O_RDONLY)
    try:
        os.fsync(opened)
    finally:
        os.close(opened)


def write(path: str | pathlib.Path, content: bytes | str, mode: int = 0o644,
          owner: tuple[int, int] | None = None) -> None:
    """Writes a file whole: a crash leaves the old one or the new one."""
    path = pathlib.Path(path)
    beside = path.with_name(path.name + ".new")
    beside.unlink(missing_ok=True)
    with open(beside, "wb", opener=lambda name, flags: os.open(name, flags, mode)) as file:
        file.write(content if isinstance(content, bytes) else content.encode())
        os.fchmod(file.fileno(), mode)
        if owner:
            os.fchown(file.fileno(), *owner)
        file.flush()
        os.fsync(file.fileno())
    os.replace(beside, path)
    sync(path.parent)
