"""For scripts/tests/test_gate_library.py: the built programs of clients/c, a gate that asks on request, and readers of a
gate's file and of its calls, written from docs/reference/GATE_LIBRARY.md and docs/reference/JOURNAL.md."""
import contextlib
import functools
import os
import pathlib
import re
import shutil
import socket
import struct
import subprocess
import tempfile
import time
import unittest
from collections.abc import Callable, Iterable, Iterator, Sequence
from typing import Any, Protocol, TypeAlias, TypeVar

import harness
import test_gate_makers as makers
from bovtrila import codec, layout, model, vector_file, wire
from harness import EXAMPLE, PROGRAM, TIME, TOP
from listening import Door
from planted import Planted

# An argument of a command; what a gate says on a line, where long words are digests; and an opening's cause, its place and
# the touches' frames.
Word: TypeAlias = str | int | pathlib.Path
Line: TypeAlias = list[Any]
Opening: TypeAlias = tuple[int, int, list[bytes]]
# Times of a gate in milliseconds: of a call, of an answer, of the first and of the longest wait before a repeat.
Times: TypeAlias = tuple[int, int, int, int]

CLIENT = TOP / "clients" / "c"
TESTS = CLIENT / "tests"
HEADER = CLIENT / "bovtrila_gate.h"
SOURCE = CLIENT / "bovtrila_gate.c"
WARNINGS = ["-std=c99", "-Wall", "-Wextra", "-Wpedantic", "-Werror"]
# A folder in memory, where there is one: each touch syncs the gate's file twice.
FAST = harness.in_memory(200)
PATIENT, QUICK = (20_000, 10_000, 1, 4), (20_000, 150, 1, 4)


def there(*names: str) -> bool:
    """Whether these programs are on the machine."""
    return all(shutil.which(name) for name in names)


FIRST = [bytes.fromhex(asked) for asked, _ in harness.vectors()["first example"]]
# Where programs are built for all tests.
BUILT = tempfile.TemporaryDirectory(prefix="gate-library-")


def numbers_of(kind: str, prefix: str = "") -> dict[str, int]:
    """The numbers that the header gives to the names of an enum, without their prefix."""
    [block] = re.findall(rf"enum bovtrila_{kind} {{(.*?)\n}};", HEADER.read_text(), re.S)
    found = re.findall(rf"\bBOVTRILA_{prefix}([A-Z_]+) = (\d+)", block)
    return {name: int(number) for name, number in found}


RESULT, CAUSE = numbers_of("result"), numbers_of("file_cause", "FILE_")
REPLIES = RESULT["ACCEPTED"], RESULT["REFUSED"]
# The same of a touch that was made before the gate was opened.
EARLIER = RESULT["ACCEPTED_EARLIER"], RESULT["REFUSED"]
WAITS = RESULT["NO_ANSWER"], RESULT["FAULT"], RESULT["STRAY"], RESULT["CANCELLED"]


def built(to: pathlib.Path, sources: Iterable[str | pathlib.Path], compiler: str = "gcc", flags: Iterable[str] = ("-O2",),
          include: str | pathlib.Path = CLIENT) -> pathlib.Path:
    """Builds a program of these sources, with the header's folder."""
    words: list[str | pathlib.Path] = [compiler, *WARNINGS, *flags, "-I", include, "-o", to, *sources]
    done = subprocess.run(words, capture_output=True, text=True)
    if done.returncode != 0:
        raise AssertionError(f"{compiler} says of {to}:\n{done.stderr}")
    return to


def calls_library(to: pathlib.Path) -> pathlib.Path:
    """Builds the library that stands before the C library's calls."""
    words: list[str | pathlib.Path] = ["gcc", "-Wall", "-Wextra", "-Werror", "-O1", "-shared", "-fPIC", "-o", to,
                                       TESTS / "calls.c", "-ldl"]
    subprocess.run(words, check=True)
    return to


class Gone(Exception):
    """The asker has ended, or the gate has to be opened again."""


class Asking(Protocol):
    """A running gate, or what stands before one. `opened` is what its opening came to."""

    opened: Line

    def ask(self, line: str, /) -> Line:
        """Writes a line: the line that it is answered by."""


class Asker:
    """A running gate. `opened` is what its opening came to."""

    def __init__(self, program: Word, file: pathlib.Path, gate: int, addresses: Sequence[str], times: Times = PATIENT,
                 run: Iterable[Word] = (), **options: Any) -> None:
        words = [*run, program, "open", file, gate, ",".join(addresses), *times]
        self.process = subprocess.Popen([str(word) for word in words], stdin=subprocess.PIPE, stdout=subprocess.PIPE,
                                        text=True, bufsize=1, **options)
        self.opened = self.line()

    def __enter__(self) -> "Asker":
        return self

    def __exit__(self, *_: object) -> None:
        self.end()

    def line(self) -> Line:
        """The numbers of the next line, or no numbers where it has none."""
        assert self.process.stdout, "a pipe"
        text = self.process.stdout.readline()
        if not text.endswith("\n"):
            raise Gone(f"the gate ended by status {self.process.wait(TIME)}")
        return [] if text == "none\n" else [int(word) if len(word) < 30 else word for word in text.split()]

    def write(self, text: str) -> None:
        assert self.process.stdin, "a pipe"
        try:
            self.process.stdin.write(text + "\n")
        except OSError:
            raise Gone("the gate takes no line") from None

    def ask(self, text: str) -> Line:
        self.write(text)
        return self.line()

    def kill(self) -> None:
        self.process.kill()
        self.end()

    def end(self) -> int:
        """Its status, once it has ended."""
        assert self.process.stdin and self.process.stdout, "pipes"
        with contextlib.suppress(OSError):
            self.process.stdin.close()
        if not self.process.stdout.closed:
            self.process.stdout.read()
            self.process.stdout.close()
        return self.process.wait(TIME)


def create(program: Word, file: pathlib.Path, gate: int, capacity: int, **options: Any) -> Line:
    """Makes a gate's file: the numbers that were told."""
    words = [str(word) for word in (program, "create", file, gate, capacity)]
    done = subprocess.run(words, capture_output=True, text=True, timeout=TIME, **options)
    return [int(word) for word in done.stdout.split()] or [None, 0, done.returncode]


def act_of(frame: bytes) -> str:
    """The line that asks for the touch of a frame, or for an enquiry."""
    kind, *values = struct.unpack(codec.FORMS[frame[2]], frame[2:])
    if kind == codec.ENQUIRE:
        return f"enquire {values[0]}"
    card, *more = values[2:]
    if kind == codec.REVISE:
        return f"revise {more[0].hex()} {more[1]} {more[2]}"
    word = {codec.ENTER: "in", codec.LEAVE: "out", codec.TOP_UP: "top-up", codec.ISSUE: "issue"}[kind]
    return " ".join(map(str, (word, card, *more)))


def told_by(answer: bytes, number: int) -> Line:
    """What the gate says of an answer's frame to its touch of this number, or to an enquiry."""
    if answer[2] == codec.HOLDING:
        state, balance, front = struct.unpack(">BqI", answer[3:])
        return [RESULT["SHOWN"], state, 0, balance, front]
    if answer[2] == codec.FAULT:
        return [RESULT["FAULT"], number, 0, answer[3], 0, 0]
    verdict, change, balance = struct.unpack(">Biq", answer[9:])
    return [REPLIES[verdict >= 20], number, verdict, 0, change, balance]


def earlier(told: Line) -> Line:
    """What the gate says of the same reply, where the touch was made before the gate was opened."""
    return [EARLIER[REPLIES.index(told[0])], *told[1:]]


def worked_out(frames: Iterable[bytes]) -> list[Line]:
    """What a gate is told of these touches, the first ones of the example's server, by the model."""
    station = vector_file.read()[0].model()
    return [told_by(station.answer(frame), number) for number, frame in enumerate(frames, 1)]


class Careful:
    """A gate's program that does what the header says: it goes by replies alone, and settles what waits first. It asks
    for the touches of these frames, in their order."""

    def __init__(self, frames: Sequence[bytes]) -> None:
        self.frames = frames
        self.replies: dict[int, Line] = {}
        self.opens: list[int] = []

    def note(self, told: Line, replies: Sequence[int]) -> None:
        """Keeps a reply. One that was told before has to be the same."""
        reply = [REPLIES[replies.index(told[0])], *told[1:]]
        first = self.replies.setdefault(told[1], reply)
        assert first == reply, f"touch {told[1]} was answered by {first}, and then by {told}"
        is_travel = self.frames[told[1] - 1][2] in (codec.ENTER, codec.LEAVE)
        if first is reply and is_travel and told[0] == RESULT["ACCEPTED"]:
            self.opens.append(told[1])

    def settle(self, asker: Asking, told: Line, replies: Sequence[int] = REPLIES) -> None:
        """Sends what waits again, until there is a reply. A server that is gone doesn't hold it up for good."""
        until = time.monotonic() + TIME
        while told[0] in WAITS:
            if time.monotonic() > until:
                raise Gone(f"no reply within {TIME} seconds, and the gate says {told}")
            told = asker.ask("resend")
        if told[0] not in replies:
            raise Gone(f"the gate says {told}")
        self.note(told, replies)

    def begin(self, asker: Asking) -> int:
        """Settles what waits after an opening: how many touches were asked."""
        assert asker.opened == [CAUSE["OK"], 0, 0], asker.opened
        waiting = asker.ask("waiting")
        if not waiting:
            return 0
        self.settle(asker, asker.ask("resend"), EARLIER)
        return int(waiting[1])

    def run(self, asker: Asking, ask: Callable[[str], Line] | None = None) -> None:
        """Asks what is left."""
        for place in range(self.begin(asker), len(self.frames)):
            told = (ask or asker.ask)(act_of(self.frames[place]))
            assert told[1] in (place + 1, 0), f"touch {place + 1} was asked under number {told[1]}"
            self.settle(asker, told)

    def told(self) -> list[Line | None]:
        """What was told of each touch, in their order."""
        return [self.replies.get(number) for number in range(1, len(self.frames) + 1)]


def tag(gate: int, text: bytes = b"touches of one gate, by number") -> bytes:
    """What stands in a gate's file where a station's journal has a digest (docs/reference/JOURNAL.md, "A gate's file")."""
    return text + struct.pack(">H", gate)


def old_tag(gate: int) -> bytes:
    """What stood there before version 1.1 of the library (docs/reference/GATE_LIBRARY.md)."""
    return tag(gate, b"Bovtrila: the touches of gate ")


def file_of(frames: Sequence[bytes], capacity: int, gate: int) -> bytes:
    """The bytes of a gate's file with the touches of these frames."""
    content = layout.journal_of(frames, capacity, 1, tag(gate))
    return content if len(frames) < capacity else content[:-1]


def reading(content: bytes, gate: int) -> Opening:
    """What opening a file comes to: the cause, the place, and the touches' frames (docs/reference/GATE_LIBRARY.md)."""
    if len(content) < 65 or content[0] != 0xA5 or content[1:8] != b"OYSTERJ":
        return CAUSE["NOT_A_JOURNAL"], 0, []
    if content[8:9] != b"2":
        return CAUSE["OTHER_VERSION"], 0, []
    capacity, cards = struct.unpack(">II", content[9:17])
    if not 1 <= capacity <= 1_000_000 or not 1 <= cards <= 100_000:
        return CAUSE["BAD_LIMIT"], 0, []
    if cards == 1 and content[17:49] == old_tag(gate):
        return CAUSE["OLD_TAG"], 0, []
    if cards != 1 or content[17:49] != tag(gate):
        return CAUSE["ANOTHER"], 0, []
    touches: list[bytes] = []
    while len(touches) < capacity:
        slot = content[64 + 64 * len(touches):][:64]
        if slot and slot[0] != 0xA5:
            break
        if len(slot) < 64 or slot[1] not in (1, 2, 3, 4, 6):
            return CAUSE["DAMAGED"], len(touches), []
        size = struct.calcsize(codec.FORMS[slot[1]])
        touches.append(struct.pack(">H", size) + slot[1:1 + size])
    for place, frame in enumerate(touches):
        is_own = frame[3:9] == struct.pack(">HI", gate, place + 1)
        if not is_own and (place == 0 or frame != touches[place - 1] or frame[3:9] != struct.pack(">HI", gate, place)):
            return CAUSE["FOREIGN"], place, []
    return CAUSE["OK"], 0, touches


def waiting_in(touches: Sequence[bytes]) -> int:
    """The number of the touch that waits after an opening, 0 where there is none, or where the last one is given up."""
    return 0 if list(touches[-2:-1]) == list(touches[-1:]) else len(touches)


class Log:
    """The calls that a gate makes, by the library that stands before them."""

    def __init__(self, library: pathlib.Path, **more: object) -> None:
        self.library, self.more = library, more
        self.file = tempfile.TemporaryFile("w+")

    def options(self) -> dict[str, Any]:
        number = self.file.fileno()
        settings = {f"CALLS_{name}": str(value) for name, value in self.more.items()}
        return {"env": dict(os.environ, LD_PRELOAD=str(self.library), CALLS_LOG=str(number), **settings),
                "pass_fds": [number]}

    def lines(self) -> list[list[str]]:
        self.file.seek(0)
        return [line.rstrip("\n").split(" ", 3) for line in self.file]

    def calls(self) -> list[tuple[str, int, bytes]]:
        """Each call's name, place and bytes."""
        return [(name, int(at), bytes.fromhex(digits)) for name, _, at, digits in self.lines()]

    def numbers(self, wanted: str) -> list[int]:
        """Which calls of their process those of a name are, from 1 on."""
        return [int(number) for name, number, _, _ in self.lines() if name == wanted]


wait_for = harness.until


def address_text(address: Sequence[Any]) -> str:
    host, port = address[:2]
    return f"{host}:{port}"


def needs(*names: str) -> Callable[[Any], Any]:
    """Skips a test for which these programs have to be there."""
    lacking = [name for name in names if not there(name)]
    return unittest.skipIf(bool(lacking), f"{', '.join(lacking)}: not installed (packaging/debian-packages)")


@functools.cache
def program(name: str) -> pathlib.Path:
    """A program of the tests, built once: the asker, or the library that stands before the calls of the system."""
    if not there("gcc"):
        raise unittest.SkipTest("gcc: not installed (packaging/debian-packages)")
    to = pathlib.Path(BUILT.name) / name
    return calls_library(to) if name == "calls" else built(to, [TESTS / "asker.c", SOURCE])


class GateTest(unittest.TestCase):
    """Each test has a folder of its own in memory, and what it starts is ended with it."""

    def setUp(self) -> None:
        folder = tempfile.TemporaryDirectory(dir=FAST)
        self.addCleanup(folder.cleanup)
        self.folder, self.asker = pathlib.Path(folder.name), program("asker")
        self.file = self.folder / "7"

    def start(self, *words: object) -> Any:
        running = makers.Running(*words)
        self.addCleanup(running.kill)
        return running

    def serve(self, cards: int = 10, capacity: int = 1000, lines: int = 4, name: str = "journal") -> Any:
        """A real server, on a port that another one can have after it."""
        if not PROGRAM.is_file():
            raise FileNotFoundError(f"{PROGRAM} isn't there: run bin/bovtrila, or 'rt ci'")
        return self.start(PROGRAM, "serve", "--table", EXAMPLE, "--journal", self.folder / name, "--cards",
                          cards, "--capacity", capacity, "--listen", f"127.0.0.1:{harness.free_port()}", "--lines", lines,
                          "--connections", 1_000_000)

    def recorded(self, cards: int = 10, name: str = "journal") -> list[bytes]:
        """The touches of the real server's journal."""
        table = model.Table(EXAMPLE.read_text())
        return model.journal((self.folder / name).read_bytes(), table, cards)[0]

    def planted(self) -> Planted:
        """A server over the model."""
        server = Planted()
        self.addCleanup(server.end)
        return server

    def create(self, gate: int = 7, capacity: int = 1000, **options: Any) -> Line:
        return create(self.asker, self.file, gate, capacity, **options)

    def open(self, addresses: str | Sequence[str], gate: int = 7, times: Times = PATIENT, **options: Any) -> Asker:
        """A gate that is open, or what its opening came to."""
        addresses = [addresses] if isinstance(addresses, str) else addresses
        asker = Asker(self.asker, self.file, gate, addresses, times, **options)
        self.addCleanup(asker.kill)
        return asker

    def write(self, content: bytes) -> None:
        self.file.write_bytes(content)


def replied_to(frame: bytes) -> bytes:
    """A reply to a touch."""
    return codec.framed(">BHIBiq", codec.REPLY, *struct.unpack(">HI", frame[3:9]), 8, 0, 0)


class Told:
    """A server that gives the answers of a list, one for each request, and keeps what it was asked. Where none is left,
    it hangs up."""

    def __init__(self, test: unittest.TestCase, answers: Iterable[bytes] = (), host: str = "127.0.0.1") -> None:
        self.answers = list(answers)
        self.asked: list[bytes] = []
        door = Door(self.serve, (host, 0))
        self.text = door.text
        test.addCleanup(door.shut)

    def serve(self, connection: socket.socket) -> None:
        with connection:
            while len(head := connection.recv(2, socket.MSG_WAITALL)) == 2:
                self.asked.append(head + connection.recv(wire.number_at(head, 0, 2), socket.MSG_WAITALL))
                answer = self.answer(self.asked[-1])
                if answer is None:
                    return
                connection.sendall(answer)

    def answer(self, frame: bytes) -> bytes | None:
        return self.answers.pop(0) if self.answers else None


def journey(gate: int, cards: Any) -> Any:
    """Touches of a gate's cards, numbered from 1 on."""
    return makers.touches_of(gate, cards)


Case = TypeVar("Case", bound=GateTest)


@contextlib.contextmanager
def of(owner: Callable[[], Case], program: pathlib.Path) -> Iterator[Case]:
    """A test of a class that asks with another program."""
    case = owner()
    case.setUp()
    case.asker = program
    try:
        yield case
    finally:
        case.doCleanups()
