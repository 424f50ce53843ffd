"""Shared by the scripts: paths, running the program, and the tests' last line 'N passed, M failed'.

A test that the machine can't run is skipped, and a line reports the reason: it counts as neither.
"""
import atexit
import collections
import contextlib
import hashlib
import os
import pathlib
import random
import re
import socket
import subprocess
import sys
import tempfile
import time
import unittest
from collections.abc import Callable, Iterable, Sequence
from types import TracebackType
from typing import IO, Any, TypeAlias

TOP = pathlib.Path(__file__).resolve().parents[2]
# Tests and developers' scripts import this module first: it finds for them the package of the commands, and one another.
sys.path[1:1] = [str(TOP / folder) for folder in ("tools", "scripts/tests", "scripts/dev")]

from bovtrila import vector_file

# The commands bovtrila-NAME.
BIN = TOP / "bin"
CRATES = TOP / "crates"
PROGRAM = CRATES / "tap_server" / "out" / "tap_server"
# The program of replay and check alone.
TRIAL = CRATES / "table_trial" / "out" / "table_trial"
EXAMPLE = TOP / "docs" / "example.toml"
# The example table with two other prices, for revisions.
REVISED = TOP / "docs" / "vectors-revised.toml"

# An argument of a program, and what a run of it gives: the status, the output, and what stands on standard error.
Word: TypeAlias = str | bytes | os.PathLike[str]
Ran: TypeAlias = tuple[int, bytes, str]
# What a test failed by, as unittest has it.
Error: TypeAlias = tuple[type[BaseException], BaseException, TracebackType] | tuple[None, None, None]

# How many seconds a run of the program may take.
TIME = 60

# What is left to the end of a process: it removes folders, and ends servers that many tests use.
AT_END = contextlib.ExitStack()
atexit.register(AT_END.close)


# From this port on the system hands them out by itself, also to those who connect.
HANDED_OUT = int(pathlib.Path("/proc/sys/net/ipv4/ip_local_port_range").read_text().split()[0])


# Each worker of pytest-xdist has ports of its own, so that none takes a port that another one was given and doesn't use yet.
WORKER = int(os.environ.get("PYTEST_XDIST_WORKER", "gw0").removeprefix("gw"))
WORKERS = int(os.environ.get("PYTEST_XDIST_WORKER_COUNT", "1"))
# The ports that were given last.
GIVEN: collections.deque[int] = collections.deque(maxlen=1000)


def free_port() -> int:
    """A port of 127.0.0.1 on which nobody listens, and which the system hands to nobody who doesn't name it: a server can
    take it later, whatever others do meanwhile. The next 1000 calls give others."""
    while True:
        port = random.randrange(10_000 + WORKER, max(HANDED_OUT, 20_000), WORKERS)
        with contextlib.suppress(OSError), socket.create_server(("127.0.0.1", port)):
            if port not in GIVEN:
                GIVEN.append(port)
                return port


def until(holds: Callable[[], object], seconds: float = TIME) -> bool:
    """Waits until this holds, or for so many seconds: whether it holds."""
    limit = time.monotonic() + seconds
    while time.monotonic() < limit:
        if holds():
            return True
        time.sleep(0.01)
    return bool(holds())


def in_memory(megabytes: int) -> str | None:
    """A folder in memory with so much room, if there is one. That of a container may have 64 MB."""
    with contextlib.suppress(OSError):
        room = os.statvfs("/dev/shm")
        if os.access("/dev/shm", os.W_OK) and room.f_bavail * room.f_frsize >= megabytes << 20:
            return "/dev/shm"
    return None


def begin_in_day(day_of: Callable[[int], object]) -> None:
    """Waits, if a new day begins within a minute: a test that takes less has one day from its beginning to its end.
    `day_of` gives the day of a moment."""
    while day_of(int(time.time())) != day_of(int(time.time()) + TIME):
        time.sleep(0.5)


def kit() -> pathlib.Path:
    """The folder of the toolchain's kit."""
    said = subprocess.run(["rt", "doc"], capture_output=True, check=True, text=True)
    return pathlib.Path(said.stdout.strip()).parent


def library(folder: pathlib.Path, name: str, source: str) -> pathlib.Path:
    """Builds a library that is put before the C library's, from this text, in the folder."""
    text, built = folder / f"{name}.c", folder / f"{name}.so"
    text.write_text(source)
    clang = kit() / "toolchain" / "bin" / "clang"
    subprocess.run([clang, "-shared", "-fPIC", "-O1", "-nostdlib", "-fuse-ld=lld", "-o", built, text], check=True)
    return built


# What stands on standard error beside the line of a fault and beside a table's report.
BESIDE = re.compile(r"^(?:  .*|note: .*|new journal .*|(?:pairs|interchanges|holidays) \d+)\n", re.M)


def run(words: Sequence[Word], given: bytes = b"", **options: Any) -> Ran:
    """Runs the program: its status, its output, and what stands on standard error, but for what
    scripts/tests/test_told_faults.py looks at: the line behind that of a fault, and the notes on a table."""
    status, out, err = run_whole(words, given, **options)
    return status, out, fault_of(err)


def run_whole(words: Sequence[Word], given: bytes = b"", program: Word = PROGRAM, **options: Any) -> Ran:
    """Runs the program: its status, its output, and all that stands on standard error."""
    words = [os.fsencode(word) for word in (program, *words)]
    done = subprocess.run(words, input=given, capture_output=True, timeout=TIME, **options)
    return done.returncode, done.stdout, done.stderr.decode()


def fault_of(err: str) -> str:
    """What stands on standard error without the line behind that of a fault, and without notes."""
    return BESIDE.sub("", err)


def first_line(stream: IO[str] | IO[bytes]) -> str:
    """The first line that a server says on this stream, but for the one of a journal that it has made: 'listening ADDR',
    where it serves."""
    line = stream.readline()
    text = line.decode() if isinstance(line, bytes) else line
    return first_line(stream) if text.startswith("new journal ") else text


def check(table: bytes, path: str | bytes = "table.toml", **options: Any) -> Ran:
    """Checks a fare table of these bytes, in a file of this name."""
    with tempfile.TemporaryDirectory() as folder:
        file = os.path.join(os.fsencode(folder), os.fsencode(path))
        with open(file, "wb") as writer:
            writer.write(table)
        return run([b"check", b"--table", file], **options)


def valid(stations: int, singles: int, caps: int, table: bytes) -> Ran:
    """What is written for a valid fare table."""
    digest = hashlib.sha256(table).hexdigest()
    return 0, f"stations {stations}\nsingles {singles}\ncaps {caps}\ndigest {digest}\n".encode(), ""


def lines(texts: Iterable[str]) -> bytes:
    """The bytes of a text of these lines."""
    return "".join(text + "\n" for text in texts).encode()


def vectors(server: str = "example") -> dict[str, list[tuple[str, str]]]:
    """The frames of a server of docs/vectors.txt: pairs of a request and its answer, by the section that they stand
    in."""
    station = next(station for station in vector_file.read() if station.name == server)
    sections: dict[str, list[tuple[str, str]]] = {name: [] for name in station.sections}
    for vector in station.vectors:
        sections[vector.section].append((vector.request.hex(), vector.answer.hex()))
    return sections


class Result(unittest.TextTestResult):
    """Counts each subtest as one, and prints what fails as soon as it does."""

    def __init__(self, *words: Any, **options: Any) -> None:
        super().__init__(*words, **options)
        self.passed = 0
        self.failed = 0

    def addSuccess(self, test: unittest.TestCase) -> None:
        super().addSuccess(test)
        self.passed += 1

    def addError(self, test: unittest.TestCase, error: Error) -> None:
        super().addError(test, error)
        self.tell(test, error)

    def addFailure(self, test: unittest.TestCase, error: Error) -> None:
        super().addFailure(test, error)
        self.tell(test, error)

    def addSkip(self, test: unittest.TestCase, reason: str) -> None:
        """Tells each reason once."""
        if reason not in (told for _, told in self.skipped):
            print(f"not run: {reason}", flush=True)
        super().addSkip(test, reason)

    def addSubTest(self, test: unittest.TestCase, subtest: unittest.TestCase, error: Error | None) -> None:
        super().addSubTest(test, subtest, error)
        if error is None:
            self.passed += 1
        else:
            self.tell(subtest, error)

    def tell(self, test: unittest.TestCase, error: Error) -> None:
        self.failed += 1
        print(f"{test}: {error[0].__name__ if error[0] else ''}: {error[1]}", flush=True)


class ProgramTest(unittest.TestCase):
    """Tests that need the built program."""

    @classmethod
    def setUpClass(cls) -> None:
        if not PROGRAM.is_file():
            raise FileNotFoundError(f"{PROGRAM} isn't there: run 'rt run' in crates/tap_server, or 'rt ci'")


def main() -> None:
    """Runs the tests of the script that was started, and ends with its status. With --help it prints the script's first
    lines instead."""
    if {"-h", "--help"} & {*sys.argv[1:]}:
        print(sys.modules["__main__"].__doc__)
        sys.exit()
    tests = unittest.defaultTestLoader.loadTestsFromModule(sys.modules["__main__"])
    if len(sys.argv) > 1:
        tests = unittest.defaultTestLoader.loadTestsFromNames(sys.argv[1:], sys.modules["__main__"])
    with open(os.devnull, "w") as silent:
        result = unittest.TextTestRunner(silent, resultclass=Result).run(tests)
    assert isinstance(result, Result)
    print(f"{result.passed} passed, {result.failed} failed")
    sys.exit(1 if result.failed or not (result.passed or result.skipped) else 0)
