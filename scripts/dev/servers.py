"""The two servers that are measured, and the gates that ask them: for the measuring scripts."""
from __future__ import annotations

import os
import pathlib
import shutil
import signal
import socket
import subprocess
import sys
import tempfile
import time
from collections.abc import Callable, Iterator, Sequence
from typing import Protocol, TypeAlias

from harness import EXAMPLE, PROGRAM, TOP, first_line
from measuring import Asked

# The cards and the capacity of a server under load, and how many requests a load makes at most.
CARDS, CAPACITY, MOST = 1000, 400_000, {"touch": 300_000, "enquiry": 4_000_000}
# A folder in memory, where there is one.
FAST = "/dev/shm" if os.access("/dev/shm", os.W_OK) else None
# How many seconds a server may take to open or to end, and a load beyond its own seconds.
PATIENCE = 120

# What starts a server for so many connections.
Start: TypeAlias = "Callable[[int], Server]"


class Starter(Protocol):
    """The same, after other words of the command, as those of strace."""

    def __call__(self, connections: int, /, *, before: Sequence[object] = ...) -> Server: ...


class HasAddress(Protocol):
    """A server, or what leads to one: a host and a port."""

    @property
    def address(self) -> tuple[str, int]: ...


class Bench:
    """The built programs of bench/ in a folder that goes with it, and how programs are started. Where a script measures an
    older build too, `older` is that; and `touches` are the most of a journal."""

    older: str | None
    touches: int

    def __init__(self, options: Asked) -> None:
        self.rounds, self.seconds = options.rounds, options.seconds
        self.before = ["chrt", "-r", "5"] if options.realtime else []
        self.holder = tempfile.TemporaryDirectory(prefix="measure-serve-", dir=options.folder)
        self.folder = self.journals = pathlib.Path(self.holder.name)
        self.in_memory = tempfile.TemporaryDirectory(prefix="measure-serve-", dir=FAST) if FAST else self.holder
        self.memory = pathlib.Path(self.in_memory.name)
        for name in ("bare_server", "load"):
            self.build(name)

    def build(self, name: str, *flags: str, to: str | None = None) -> pathlib.Path:
        """Builds a program of bench/ in the folder, with further words for the compiler: its path."""
        compiler = next((name for name in ("cc", "gcc", "clang") if shutil.which(name)), None)
        if compiler is None:
            sys.exit("measure-serve: bench/ needs a C compiler (on Debian: apt-get install gcc libc6-dev)")
        built = self.folder / (to or name)
        subprocess.run([compiler, "-O2", "-pthread", "-o", built, TOP / "bench" / f"{name}.c", *flags], check=True)
        return built

    def places(self) -> Iterator[str]:
        """Has new journals on the disk, and then in memory, where there is a folder for that: the name of each place."""
        for name, self.journals in (("on a disk", self.folder), ("in memory", self.memory))[: 2 if FAST else 1]:
            yield name

    def bovtrila(self, connections: int, cards: int = CARDS, capacity: int = CAPACITY, journal: pathlib.Path | None = None,
                 before: Sequence[object] = (), revised: Sequence[object] = (),
                 program: str | pathlib.Path = PROGRAM) -> Server:
        """Starts Bovtrila's server for so many connections, on a new journal where none is given, with further tables."""
        if journal is None:
            journal = self.journals / "journal"
            journal.unlink(missing_ok=True)
        words: list[object] = ["serve", "--table", EXAMPLE, "--journal", journal, "--cards", cards, "--capacity", capacity,
                               "--listen", "127.0.0.1:0", "--lines", connections, "--connections", 2, *revised]
        return Server([*self.before, *before, program, *words])

    def bare(self, connections: int, before: Sequence[object] = (), longer: int | str = 0) -> Server:
        """Starts the minimal server for so many connections, which holds its lock so many nanoseconds longer for a touch, or writes
        the next touch ahead where `longer` is "ahead"."""
        words: list[object] = [self.folder / "bare_server", self.journals / "bare", connections, 2, longer]
        return Server([*self.before, *before, *words])

    def load(self, server: HasAddress, kind: str, connections: int, first: int = 1, seconds: float | None = None,
             most: int | None = None) -> subprocess.Popen[str]:
        """Starts gates that ask a server, of numbers from the first on."""
        words: list[object] = [*self.before, self.folder / "load", server.address[1], kind, connections, most or MOST[kind],
                               seconds or self.seconds, first]
        return subprocess.Popen([str(word) for word in words], stdout=subprocess.PIPE, text=True)


class Server:
    """A running server. Each of its lines has a connection to spare, so that it is there until it is let go."""

    def __init__(self, words: Sequence[object]) -> None:
        start = time.monotonic()
        # A group of its own, so that what strace started ends with it.
        self.process = subprocess.Popen([str(word) for word in words], stdin=subprocess.DEVNULL, stdout=subprocess.PIPE,
                                        stderr=subprocess.PIPE, text=True, start_new_session=True)
        assert self.process.stderr, "a pipe"
        said = first_line(self.process.stderr)
        self.opening = time.monotonic() - start
        if not said.startswith("listening "):
            self.kill()
            sys.exit(f"measure-serve: {' '.join(map(str, words))} said {said!r}")
        host, _, port = said.split()[1].rpartition(":")
        self.address = host, int(port)

    def __enter__(self) -> Server:
        return self

    def __exit__(self, *_: object) -> None:
        self.kill()

    def spent(self) -> float:
        """The seconds of processor time so far."""
        fields = pathlib.Path(f"/proc/{self.process.pid}/stat").read_text().rpartition(")")[2].split()
        return (int(fields[11]) + int(fields[12])) / os.sysconf("SC_CLK_TCK")

    def resident(self) -> int:
        """The bytes of memory that it holds now."""
        return int(pathlib.Path(f"/proc/{self.process.pid}/statm").read_text().split()[1]) * os.sysconf("SC_PAGE_SIZE")

    def let_go(self) -> list[str]:
        """Uses the spare connections up, each by a byte of a request, and gives what the server printed."""
        limit = time.monotonic() + PATIENCE
        while self.process.poll() is None and time.monotonic() < limit:
            try:
                with socket.create_connection(self.address, PATIENCE) as gate:
                    gate.sendall(b"\0")
            except OSError:
                # It listens no more.
                pass
            time.sleep(0.001)
        out, err = self.process.communicate(timeout=PATIENCE)
        if self.process.returncode != 0:
            sys.exit(f"measure-serve: a server ended with status {self.process.returncode}: {err}")
        return out.splitlines()

    def kill(self) -> None:
        if self.process.poll() is None:
            os.killpg(self.process.pid, signal.SIGKILL)
        self.process.communicate()


class Figures:
    """What a load was answered: how many requests, the rate, and the times of an answer in microseconds. `work` are the
    microseconds of the server's processor for a touch, and `touches` what other gates were answered meanwhile, where a
    script measures these."""

    work: float
    touches: Figures

    def __init__(self, load: subprocess.Popen[str]) -> None:
        out, _ = load.communicate(timeout=PATIENCE)
        if load.returncode != 0:
            sys.exit("measure-serve: a load had no right answer")
        self.requests, self.seconds, self.rate, self.median, self.high = map(float, out.split())
