"""Kills a server under load, round after round, and tests that another one with the same journal takes over.

Two servers have one journal on one disk: one serves, and the other waits for the journal's lock (`serve --standby`). Gates
that know both addresses send touches one after the other, and repeat each until it has its reply. In each round the
server is killed (`kill -9`); the other must answer within two seconds. Every answered touch must be in
the journal, once and in its gate's order, and a repeat must get the first reply. Then the killed one is started again,
to wait. The replies are worked out here, by the rules of docs/reference/FARES.md for issues and top-ups.

A server whose journal's file is replaced after it was opened and before it was locked must serve the file that the path
names then: a library in front of the C library's delays the lock's call meanwhile.

    pytest-3 scripts/tests/test_take_over.py                five rounds
    ROUNDS=100 pytest-3 scripts/tests/test_take_over.py     a hundred

It needs crates/tap_server/out/tap_server, which `rt ci` leaves there. All traffic stays on 127.0.0.1.
"""
import hashlib
import os
import pathlib
import random
import subprocess
import tempfile
import threading
import time
from collections.abc import Callable, Sequence
from typing import Any

import harness
import topups
from bovtrila import layout
from harness import EXAMPLE, PROGRAM, TIME
from holding import Held
from running import Gate
from shown import free_ports

# How many gates send touches, and their cards.
GATES, OF_GATES = 4, topups.Cards(2_500)
CARDS, CAPACITY = GATES * OF_GATES.each, GATES * OF_GATES.most()
# Within how many seconds the other server answers where nothing else holds the machine up, and how long a server is under
# load before it is killed.
SOON, LOAD = 2.0, 0.8

ROUNDS = int(os.environ.get("ROUNDS", 5))

# How often a journal is opened at most whose path is given to another file each time, and what is printed of it then.
OPENINGS, PASSED = 100, "removed or replaced while it was opened"


class SendingGate(threading.Thread):
    """A gate with two addresses, which sends touches until it is stopped."""

    def __init__(self, number: int, addresses: Sequence[tuple[str, int]]) -> None:
        super().__init__(daemon=True)
        self.gate, self.addresses, self.place = number, addresses, 0
        self.line: Gate | None = None
        self.stopped = threading.Event()
        # How many touches were answered, when the last one was and at which address, and answers that were wrong.
        self.answered, self.last = 0, (0.0, 0)
        self.wrong: list[tuple[int, str]] = []

    def run(self) -> None:
        while not self.stopped.is_set() and self.answered < OF_GATES.most():
            number = self.answered + 1
            answer = self.ask(OF_GATES.touch(self.gate, number))
            if answer is None:
                break
            if answer != OF_GATES.reply(self.gate, number):
                self.wrong.append((number, answer.hex()))
            self.answered, self.last = number, (time.monotonic(), self.place)
            # So that a hundred rounds don't fill the journal.
            time.sleep(0.001)

    def ask(self, frame: bytes) -> bytes | None:
        """The answer to a frame, from whichever server gives it, or None where the gate was stopped before."""
        while not self.stopped.is_set():
            try:
                if self.line is None:
                    self.line = Gate(self.addresses[self.place])
                answer = self.line.ask(frame)
                if len(answer) > 2:
                    return answer
            except OSError:
                pass
            if self.line is not None:
                self.line.socket.close()
            self.line, self.place = None, 1 - self.place
            time.sleep(0.005)
        return None


class TakeOver(harness.ProgramTest):
    """Two servers of one journal."""

    def setUp(self) -> None:
        room = tempfile.TemporaryDirectory(prefix="take-over-")
        self.addCleanup(room.cleanup)
        self.journal = pathlib.Path(room.name) / "station.journal"
        digest = hashlib.sha256(EXAMPLE.read_bytes()).digest()
        self.journal.write_bytes(layout.journal_of([], CAPACITY, CARDS, digest))
        self.addresses = [("127.0.0.1", int(port)) for port in free_ports(2)]
        self.servers: dict[int, subprocess.Popen[str]] = {}
        self.strict = ["--strict"]

    def words(self, place: int, *more: str) -> list[str]:
        host, port = self.addresses[place]
        return ["serve", "--table", str(EXAMPLE), "--journal", str(self.journal), "--cards", str(CARDS),
                "--capacity", str(CAPACITY), "--listen", f"{host}:{port}", "--lines", str(GATES + 1), *self.strict, *more]

    def start(self, place: int) -> str:
        """Starts the server of a place, on standby, and gives the first line that it says."""
        errors = self.launch(place, "--standby").stderr
        assert errors, "a pipe"
        return errors.readline()

    def launch(self, place: int, *more: str, **options: Any) -> subprocess.Popen[str]:
        """Starts the server of a place."""
        self.servers[place] = subprocess.Popen([PROGRAM, *self.words(place, *more)], stdin=subprocess.DEVNULL,
                                               stdout=subprocess.DEVNULL, stderr=subprocess.PIPE, text=True, **options)
        self.addCleanup(self.end, self.servers[place])
        return self.servers[place]

    def held(self) -> tuple[subprocess.Popen[str], Callable[[], None]]:
        """A server that has opened the journal's file, and whose lock is held up; and what lets it go on."""
        held = Held(self.journal.parent, HOLD_LOCK="1")
        server = self.launch(0, env=held.env)
        held.wait(server)
        return server, held.let_go

    def end(self, server: subprocess.Popen[str]) -> None:
        server.kill()
        server.wait(TIME)
        if server.stderr:
            server.stderr.close()

    def listening(self, place: int) -> str:
        return "listening %s:%d\n" % self.addresses[place]

    def frames(self) -> list[str]:
        """The touches of the journal, as the program tells its history."""
        done = subprocess.run([PROGRAM, "history", "--table", EXAMPLE, "--journal", self.journal, "--format", "frames"],
                              capture_output=True, check=True, text=True, timeout=TIME)
        return done.stdout.split()

    def assert_kept(self, gates: Sequence[SendingGate], answered: Sequence[int]) -> None:
        """The journal has the touches of each gate in their order, each once, those that were answered and at most one
        more."""
        names: dict[int, list[bytes]] = {gate.gate: [] for gate in gates}
        for line in self.frames():
            frame = bytes.fromhex(line)
            names[int.from_bytes(frame[3:5], "big")].append(frame)
        for gate, count in zip(gates, answered):
            kept = names[gate.gate]
            self.assertGreaterEqual(len(kept), count, f"gate {gate.gate}")
            self.assertEqual(kept, OF_GATES.touches(gate.gate, len(kept)))

    def assert_repeated(self, place: int, gates: Sequence[SendingGate], answered: Sequence[int]) -> None:
        """Repeats get the first replies: of each gate's last touches, and of some before them."""
        with Gate(self.addresses[place]) as line:
            for gate, count in zip(gates, answered):
                for number in {*range(max(1, count - 2), count + 1), *random.choices(range(1, count + 1), k=5)}:
                    self.assertEqual(line.ask(OF_GATES.touch(gate.gate, number)), OF_GATES.reply(gate.gate, number), number)

    def wait_for(self, gates: Sequence[SendingGate], place: int) -> float:
        """When the first touch was answered by the server of this place, once each gate has an answer of it."""
        limit = time.monotonic() + TIME
        first: float | None = None
        while time.monotonic() < limit:
            last = [gate.last for gate in gates]
            times = [at for at, where in last if where == place]
            first = min(times, default=None) if first is None else first
            if first is not None and len(times) == len(gates):
                return first
            time.sleep(0.001)
        self.fail(f"not every gate had an answer within {TIME} s")

    def take_over(self, gates: Sequence[SendingGate], serving: int) -> float:
        """Kills the server of the one place under load, and sees that the other's takes over."""
        time.sleep(LOAD)
        answered = [gate.answered for gate in gates]
        killed = time.monotonic()
        os.kill(self.servers[serving].pid, 9)
        self.servers[serving].wait(TIME)
        spare = 1 - serving
        took = self.wait_for(gates, spare) - killed
        # It said once that it waits.
        errors = self.servers[spare].stderr
        assert errors, "a pipe"
        self.assertEqual(errors.readline(), self.listening(spare))
        self.assert_repeated(spare, gates, answered)
        self.assert_kept(gates, answered)
        self.assertEqual([gate.wrong for gate in gates], [[]] * len(gates))
        return took

    def test_the_other_server_answers_and_nothing_is_lost(self) -> None:
        self.assertEqual(self.start(0), self.listening(0))
        self.assertEqual(self.start(1), f"waiting for {self.journal}\n")
        gates = [SendingGate(number, self.addresses) for number in range(1, GATES + 1)]
        for gate in gates:
            gate.start()
        took = []
        try:
            self.assertTrue(harness.until(lambda: all(gate.answered for gate in gates)))
            for number in range(ROUNDS):
                serving = number % 2
                with self.subTest(round=number + 1):
                    took.append(self.take_over(gates, serving))
                    self.assertEqual(self.start(serving), f"waiting for {self.journal}\n")
        finally:
            for gate in gates:
                gate.stopped.set()
            for gate in gates:
                gate.join(TIME)
        # On a machine that is busy with something else, one of them may come late.
        self.assertLess(min(took), SOON)
        # What was answered since the last kill stands there too.
        self.assert_kept(gates, [gate.answered for gate in gates])
        self.assertEqual([gate.wrong for gate in gates], [[]] * len(gates))

    def test_a_journal_that_is_replaced_before_its_lock_is_the_one_that_is_served(self) -> None:
        server, let_go = self.held()
        old, fresh = self.journal.with_name("old"), self.journal.with_name("fresh")
        digest = hashlib.sha256(EXAMPLE.read_bytes()).digest()
        fresh.write_bytes(layout.journal_of([OF_GATES.touch(1, 1)], CAPACITY, CARDS, digest))
        os.link(self.journal, old)
        before = old.read_bytes()
        os.replace(fresh, self.journal)
        let_go()
        assert server.stderr, "a pipe"
        self.assertEqual(server.stderr.readline(), self.listening(0))
        with Gate(self.addresses[0]) as line:
            self.assertEqual(line.ask(OF_GATES.touch(1, 2)), OF_GATES.reply(1, 2))
        self.assertEqual(self.frames(), [OF_GATES.touch(1, 1).hex(), OF_GATES.touch(1, 2).hex()])
        self.assertEqual(old.read_bytes(), before)

    def test_a_journal_that_is_replaced_before_each_lock_is_refused(self) -> None:
        held = Held(self.journal.parent, REPLACED=str(self.journal))
        server = self.launch(0, env=held.env)
        self.assertEqual(server.communicate(timeout=TIME)[1], f"fault file\n  {self.journal}: {PASSED}\n")
        self.assertEqual((server.returncode, held.held.stat().st_size, self.journal.read_bytes()), (1, OPENINGS, b""))

    def assert_not_made(self) -> None:
        """A journal that is taken away before its lock isn't made."""
        server, let_go = self.held()
        old = self.journal.with_name("old")
        os.rename(self.journal, old)
        before = old.read_bytes()
        let_go()
        self.assertEqual(server.communicate(timeout=TIME)[1], f"fault file\n  {self.journal}: {PASSED}\n")
        self.assertEqual(server.returncode, 1)
        self.assertFalse(self.journal.exists())
        self.assertEqual(old.read_bytes(), before)

    def test_a_journal_that_is_taken_away_before_its_lock_is_not_made(self) -> None:
        self.assert_not_made()

    def test_a_server_that_may_make_its_journal_does_not_make_it_then(self) -> None:
        self.strict = []
        self.assert_not_made()

    def test_without_standby_a_second_server_is_refused(self) -> None:
        self.assertEqual(self.start(0), self.listening(0))
        done = subprocess.run([PROGRAM, *self.words(1)], capture_output=True, text=True, timeout=TIME)
        self.assertEqual((done.returncode, done.stdout, done.stderr),
                         (1, "", f"fault file\n  {self.journal}: another server or run has it\n"))

    def test_a_server_on_standby_is_refused_for_anything_else(self) -> None:
        self.journal.unlink()
        done = subprocess.run([PROGRAM, *self.words(1, "--standby")], capture_output=True, text=True, timeout=TIME)
        self.assertEqual((done.returncode, done.stdout, done.stderr),
                         (1, "", f"fault file\n  {self.journal}: no such file\n"))
        self.assertFalse(self.journal.exists())
