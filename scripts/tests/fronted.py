"""A server behind a real HAProxy with packaging/haproxy, a gate that behaves, and connections of one that doesn't: for
scripts/tests/test_gate_front.py and scripts/tests/test_door_front.py.
"""
import contextlib
import pathlib
import re
import shutil
import socket
import tempfile
import threading
import time
import unittest
from collections.abc import Iterable, Iterator
from typing import Any

import harness
from bovtrila import codec, model, secured, table_file, wire
from doors import Haproxy, Relay, authority
from harness import EXAMPLE, TIME
from running import Server

# Where the gate that behaves connects from, and where an attack does.
GOOD, BAD = "127.0.0.1", "127.0.0.2"
# How many seconds an answer to the gate that behaves may take at most on a busy machine, which may stop for some of them.
# Its own time limit is longer.
SOON = 8
ENQUIRY = codec.enquiry(1)


class Line(wire.Connection):
    """A gate's connection from an address of this machine."""

    def __init__(self, port: int, tls: secured.Tls | None, source: str, timeout: float = TIME) -> None:
        self.timeout = timeout
        plain = socket.create_connection((GOOD, port), timeout, source_address=(source, 0))
        plain.setsockopt(socket.IPPROTO_TCP, socket.TCP_NODELAY, 1)
        self.socket = plain if tls is None else tls.over(plain, GOOD)

    def ask(self, frame: bytes = ENQUIRY) -> bytes:
        """The answer, or no bytes if the connection has ended."""
        try:
            self.send(frame)
            return self.take()
        except ConnectionError:
            return b""


class Steady:
    """Gate 8, which sends a touch every 20 ms over one connection, as long as an attack lasts."""

    def __init__(self, line: Line) -> None:
        self.line, self.station = line, model.Station(table_file.read(EXAMPLE), 10)
        self.count, self.slowest, self.wrong = 0, 0.0, ""
        self.stopped = threading.Event()
        self.thread = threading.Thread(target=self.run, daemon=True)
        self.thread.start()

    def run(self) -> None:
        frame = codec.touch(codec.ISSUE, 8, 1, 1, 1)
        while not self.stopped.is_set() and not self.wrong:
            begun = time.monotonic()
            try:
                got, wanted = self.line.ask(frame), self.station.answer(frame)
                self.wrong = "" if got == wanted else f"{frame.hex()}: {got.hex()}, and not {wanted.hex()}"
            except (OSError, wire.Wrong) as error:
                self.wrong = f"{frame.hex()}: {error}"
            self.slowest, self.count = max(self.slowest, time.monotonic() - begun), self.count + 1
            frame = codec.touch(codec.TOP_UP, 8, self.count + 1, 1, 5, self.count + 1)
            self.stopped.wait(0.02)


class Behind(harness.ProgramTest):
    """A server behind an HAProxy, with an authority that has made certificates of gates 7, 8 and 9."""

    made: pathlib.Path
    # Whether the server gets the name of each connection's certificate.
    has_names = False
    # How many enquiries of a flood were answered.
    flooded = 0

    @classmethod
    def setUpClass(cls) -> None:
        super().setUpClass()
        for program in ("haproxy", "openssl", "socat"):
            if shutil.which(program) is None:
                raise unittest.SkipTest(f"TLS with limits: {program} isn't installed")
        room = tempfile.TemporaryDirectory(prefix="gate-front-")
        cls.addClassCleanup(room.cleanup)
        cls.made = pathlib.Path(room.name)
        for name in ("tls", "other"):
            authority("begin", cls.made / name, "--name", "localhost", "--name", GOOD)
            authority("gate", cls.made / name, "7", "8", "9")

    def setUp(self) -> None:
        room = tempfile.TemporaryDirectory(prefix="gate-front-")
        self.addCleanup(room.cleanup)
        self.folder = pathlib.Path(room.name)
        self.tls = pathlib.Path(shutil.copytree(self.made / "tls", self.folder / "tls"))
        self.gates = pathlib.Path(shutil.copytree(self.tls / "gates", self.folder / "gates"))

    def serve(self, server: dict[str, Any] | None = None, **values: Any) -> None:
        """A server, a relay to it and an HAProxy with these values in front."""
        options: dict[str, Any] = {"connections": None, "lines": 8, "capacity": 5000, **(server or {})}
        if self.has_names:
            options["more"], values = (*options.get("more", ()), "--proxy"), {"PROXY": "yes", **values}
        self.server = Server(self.folder, **options)
        self.addCleanup(self.server.kill)
        self.relay = Relay(self.server.address)
        self.addCleanup(self.relay.door.shut)
        self.front = Haproxy(self.folder, self.tls, self.relay.port, **values)
        self.addCleanup(self.front.end)

    def known(self, name: str, folder: pathlib.Path | None = None) -> secured.Tls:
        """The certificate of a gate, as it was before any revocation."""
        folder = folder or self.gates
        return secured.Tls(*map(str, (self.tls / "authority.pem", folder / f"{name}.pem", folder / f"{name}.key")))

    def line(self, name: str = "7", source: str = BAD) -> Line:
        line = Line(self.front.port, self.known(name), source)
        self.addCleanup(line.close)
        return line

    def answered(self, name: str = "7", source: str = BAD) -> Line | None:
        """A new connection whose enquiry was answered, or none."""
        with contextlib.suppress(OSError, wire.Wrong):
            line = self.line(name, source)
            if line.ask()[2:3] == bytes([codec.HOLDING]):
                return line
        return None

    def ended(self, line: Line) -> float:
        """When the connection ended."""
        with contextlib.suppress(ConnectionError), line:
            self.assertEqual(line.read(1), b"")
        return time.monotonic()

    @contextlib.contextmanager
    def steady(self) -> Iterator[Steady]:
        """Gate 8 sends touches beside what is in the block: all are answered, and soon. Afterwards gate 9 connects."""
        gate = Steady(self.line("8", GOOD))
        # Its own connection to the server is counted before the attack's are.
        limit = time.monotonic() + TIME
        while gate.count < 2 and time.monotonic() < limit:
            time.sleep(0.05)
        yield gate
        time.sleep(0.2)
        harness.until(lambda: gate.count > 5 or gate.wrong)
        gate.stopped.set()
        gate.thread.join(TIME)
        self.assertEqual(gate.wrong, "")
        self.assertGreater(gate.count, 5)
        self.assertLess(gate.slowest, SOON)
        self.assertIsNotNone(self.answered("9", GOOD))

    def logged(self, form: str, source: str = BAD) -> list[str]:
        """The lines of the log about a connection from this address, of this form after the address."""
        text = self.front.log.read_text()
        return re.findall(rf"^gate (\S+) at {re.escape(source)}:\d+: {form}", text, re.M)

    def until(self, form: str, count: int = 1, source: str = BAD) -> list[str]:
        """The same, once there are so many of them."""
        limit = time.monotonic() + TIME
        while len(found := self.logged(form, source)) < count and time.monotonic() < limit:
            time.sleep(0.05)
        self.assertGreaterEqual(len(found), count, f"{form}\n{self.front.log.read_text()}")
        return found

    def comes_and_goes(self) -> bool:
        """Whether a new connection was answered, which is closed then."""
        line = self.answered()
        if line:
            line.close()
        return line is not None

    def passed_in(self, seconds: float, most: int, lines: Iterable[Line]) -> int:
        """How many bytes of enquiries come through over these connections in so many seconds, which is never more than
        this for each of them."""
        begun = time.monotonic()
        floods = [threading.Thread(target=self.flood, args=(line, begun + seconds)) for line in lines]
        self.flooded = 0
        for thread in floods:
            thread.start()
        for thread in floods:
            thread.join(TIME)
        passed = self.flooded * len(ENQUIRY)
        # A second's bytes are saved up at the beginning, and HAProxy's clock may lag a little on a busy machine.
        self.assertLessEqual(passed, most * (time.monotonic() - begun + 1.5))
        return passed

    def flood(self, line: Line, limit: float) -> None:
        """Sends 100 enquiries at a time, and counts the answers."""
        while time.monotonic() < limit:
            line.send(ENQUIRY * 100)
            for _ in range(100):
                self.assertEqual(line.take()[2], codec.HOLDING)
                self.flooded += 1
