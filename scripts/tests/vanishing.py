"""Tests that the server notices a gate which vanishes without closing its connection, and that its line serves the next gate
within two minutes. scripts/tests/test_vanished_gate.py runs these tests in a network namespace.

They need crates/tap_server/out/tap_server, which `rt ci` leaves there, and take two minutes of real time. The servers and
the gates are in two network namespaces with a virtual cable between them. A gate vanishes like one that has lost its power
behind a switch: packets to it go to an address of the cable that nobody has, and nothing comes from it, not even the end of
the connection. All tests run in parallel.
"""
import contextlib
import ctypes
import os
import pathlib
import signal
import subprocess
import sys
import tempfile
import threading
import time
import unittest
from collections.abc import Callable, Iterator
from typing import ClassVar

import harness
from bovtrila import codec
from harness import TIME
from running import Gate, Server

FIRST = [(bytes.fromhex(asked), bytes.fromhex(answered)) for asked, answered in harness.vectors()["first example"]]
# The two ends of the cable, and a hardware address that nobody has.
SERVERS, GATES, NOBODY = "10.90.0.1", "10.90.0.2", "02:00:00:00:00:99"
# Within how many seconds a line has to serve the next gate, and before which one nothing but an end of the connection
# that the gate has sent would have freed it: the system asks after 60 seconds, five times.
NOTICED, HELD = 120, 100
# How many enquiries a gate sends whose answers it never acknowledges.
ENQUIRIES = 50
LIBRARY = ctypes.CDLL(None, use_errno=True)


def command(*words: str) -> None:
    """Runs a command that has to succeed."""
    done = subprocess.run(words, capture_output=True, text=True, timeout=TIME)
    if done.returncode != 0:
        raise OSError(f"{' '.join(words)}: {done.stderr.strip()}")


class Cable:
    """The cable from this namespace, where the servers stand, to another one, where the gates stand."""

    def __init__(self) -> None:
        # The other namespace lasts as long as this command, which ends with this script.
        self.holder = subprocess.Popen(["unshare", "--net", "cat"], stdin=subprocess.PIPE, stdout=subprocess.DEVNULL)
        self.other = f"/proc/{self.holder.pid}/ns/net"
        self.home = os.open("/proc/self/ns/net", os.O_RDONLY)
        limit = time.monotonic() + TIME
        while os.readlink(self.other) == os.readlink("/proc/self/ns/net") and time.monotonic() < limit:
            time.sleep(0.01)
        command("ip", "link", "add", "dev", "servers", "type", "veth", "peer", "name", "gates", "netns",
                str(self.holder.pid))
        command("ip", "link", "set", "lo", "up")
        command("ip", "address", "add", f"{SERVERS}/24", "dev", "servers")
        command("ip", "link", "set", "servers", "up")
        self.beyond("ip", "address", "add", f"{GATES}/24", "dev", "gates")
        self.beyond("ip", "link", "set", "gates", "up")

    def beyond(self, *words: str) -> None:
        """Runs a command where the gates stand."""
        command("nsenter", f"--net={self.other}", *words)

    @contextlib.contextmanager
    def gates(self) -> Iterator[None]:
        """What is connected in here stands where the gates stand."""
        other = os.open(self.other, os.O_RDONLY)
        try:
            self.enter(other)
            yield
        finally:
            self.enter(self.home)
            os.close(other)

    def enter(self, namespace: int) -> None:
        """Has this thread make its sockets in a namespace."""
        if LIBRARY.setns(namespace, 0x40000000) != 0:
            raise OSError(ctypes.get_errno(), "setns")

    def drop_to_gates(self) -> None:
        """What the servers' side sends reaches no gate from now on."""
        command("ip", "neighbour", "replace", GATES, "lladdr", NOBODY, "nud", "permanent", "dev", "servers")

    def drop_to_servers(self) -> None:
        """What a gate sends reaches no server from now on."""
        self.beyond("ip", "neighbour", "replace", SERVERS, "lladdr", NOBODY, "nud", "permanent", "dev", "gates")

    def remove(self) -> None:
        self.holder.kill()
        self.holder.communicate()
        os.close(self.home)


def unacknowledged(server: Server) -> int:
    """How many bytes a server has sent to gates beyond the cable that they haven't acknowledged, by the system."""
    port, sent = f":{server.address[1]:04X}", 0
    for line in pathlib.Path("/proc/thread-self/net/tcp").read_text().split("\n")[1:]:
        # Behind the line's number stand both addresses, the state, and the bytes to be acknowledged and to be read.
        fields = line.split()
        if len(fields) > 4 and fields[1].endswith(port) and fields[3] == "01":
            sent += int(fields[4].split(":")[0], 16)
    return sent


class Next:
    """The next gate of a server with one line: it sends a touch at once, and waits until it is answered."""

    def __init__(self, server: Server, gone: float) -> None:
        self.server, self.gone = server, gone
        self.answer: bytes | None = None
        self.waited: float | None = None
        self.thread = threading.Thread(target=self.ask, daemon=True)
        self.thread.start()

    def ask(self) -> None:
        with self.server.connect() as gate:
            gate.socket.settimeout(NOTICED + TIME)
            self.answer = gate.ask(FIRST[0][0])
            self.waited = time.monotonic() - self.gone


class Vanished(harness.ProgramTest):
    """Servers of one line each, without --idle, whose gates vanish at one moment."""

    cable: ClassVar[Cable]
    room: ClassVar[pathlib.Path]
    present: ClassVar[Gate]
    answers: ClassVar[list[list[bytes]]]
    unanswered: ClassVar[list[int]]
    next: ClassVar[list[Next]]

    @classmethod
    def setUpClass(cls) -> None:
        super().setUpClass()
        room = tempfile.TemporaryDirectory(prefix="vanished-gate-")
        cls.addClassCleanup(room.cleanup)
        try:
            cls.cable = Cable()
        except OSError as error:
            raise cls.skipped(f"a cable between two namespaces ({error})") from None
        cls.addClassCleanup(cls.cable.remove)
        cls.room = pathlib.Path(room.name)
        cls.let_vanish(cls.serve("silent"), cls.serve("deaf"), cls.serve("present"))

    @staticmethod
    def skipped(needed: str) -> unittest.SkipTest:
        return unittest.SkipTest(f"a gate that vanishes needs {needed}")

    @classmethod
    def serve(cls, name: str) -> Server:
        """A server that never ends by itself."""
        folder = cls.room / name
        folder.mkdir()
        server = Server(folder, connections=None, listen=f"{SERVERS}:0")
        cls.addClassCleanup(server.kill)
        return server

    @classmethod
    def connect(cls, server: Server) -> Gate:
        gate = Gate(server.address)
        cls.addClassCleanup(gate.socket.close)
        return gate

    @staticmethod
    def wait_until(holds: Callable[[], bool]) -> None:
        limit = time.monotonic() + TIME
        while not holds() and time.monotonic() < limit:
            time.sleep(0.01)

    @classmethod
    def let_vanish(cls, silent: Server, deaf: Server, present: Server) -> None:
        """Two gates vanish: one that has all its answers, and one that sent enquiries whose answers it never
        acknowledges. A third is silent and stays."""
        with cls.cable.gates():
            gates = [cls.connect(silent), cls.connect(deaf)]
        cls.present = cls.connect(present)
        cls.answers = [[gate.ask(asked) for asked, _ in FIRST] for gate in (*gates, cls.present)]
        # A gate's system acknowledges its last answer some milliseconds after it.
        cls.wait_until(lambda: unacknowledged(silent) == unacknowledged(deaf) == 0)
        cls.cable.drop_to_gates()
        gates[1].send(codec.enquiry(1) * ENQUIRIES)
        cls.wait_until(lambda: unacknowledged(deaf) >= 16 * ENQUIRIES)
        cls.unanswered = [unacknowledged(server) for server in (silent, deaf)]
        cls.cable.drop_to_servers()
        cls.next = [Next(server, time.monotonic()) for server in (silent, deaf, present)]

    def assert_noticed(self, place: int) -> None:
        """The gate was answered as long as it was there, and the next one is answered once it is noticed as gone."""
        self.assertEqual(self.answers[place], [answered for _, answered in FIRST])
        following = self.next[place]
        following.thread.join(NOTICED + TIME)
        # A repeat has its first answer.
        self.assertEqual(following.answer, FIRST[0][1])
        assert following.waited is not None, "it was answered"
        self.assertTrue(HELD < following.waited < NOTICED, following.waited)

    def test_a_silent_gate_that_vanishes_is_noticed(self) -> None:
        self.assertEqual(self.unanswered[0], 0)
        self.assert_noticed(0)

    def test_a_gate_that_vanishes_before_it_has_acknowledged_its_answers_is_noticed(self) -> None:
        self.assertGreaterEqual(self.unanswered[1], 16 * ENQUIRIES)
        self.assert_noticed(1)

    def test_a_silent_gate_that_is_there_keeps_its_line(self) -> None:
        for following in self.next[:2]:
            following.thread.join(NOTICED + TIME)
        self.assertIsNone(self.next[2].answer)
        self.assertEqual([self.present.ask(asked) for asked, _ in FIRST], [answered for _, answered in FIRST])
        self.present.socket.close()
        self.next[2].thread.join(TIME)
        self.assertEqual(self.next[2].answer, FIRST[0][1])


if __name__ == "__main__":
    # Ended from outside, it takes its servers with it as well.
    signal.signal(signal.SIGTERM, lambda *_: sys.exit(1))
    harness.main()
