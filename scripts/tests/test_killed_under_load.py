"""Kills a server while 8 to 64 gates send touches, and takes the power of its disk away.

A library slows flushes down, so that the server writes the next touch ahead (docs/develop/OFFICE.md, "Turns"); each test
requires that it did. The server's calls are recorded, and from them and docs/reference/JOURNAL.md follows what a file may
contain:

Kills   the server is killed (`kill -9`) at random moments, and before each of its writes and flushes in turn. The journal
        must contain each answered touch, and the others that were recorded, with the one in flight or without; then the
        next server must open it with these, and give each repeat its first reply.
Power   each file that a loss of power may leave at each moment of a run: writes that weren't flushed are there, aren't
        there, are cut, or are other bytes. Each file must contain the same, with at most two open slots after its end. The
        server opens some of them, and `verify` reads others. Then the power is lost again, up to twice, in servers of
        files that have open slots.

    pytest-3 scripts/tests/test_killed_under_load.py                1 min
    ROUNDS=100 pytest-3 scripts/tests/test_killed_under_load.py     100 kills at random moments, and files of each kind

It needs crates/tap_server/out/tap_server, which `rt ci` leaves there. All traffic stays on 127.0.0.1.
"""
import collections
import os
import pathlib
import random
import tempfile
import threading
from collections.abc import Callable, Iterable, Iterator, Sequence
from typing import Any, ClassVar, TypeAlias

import harness
import topups
from bovtrila import codec, layout, model
from harness import EXAMPLE, TIME
from noted import Event, Libraries, Notes
from running import Gate, Server
from walked import Held, Walk, name_of

# Files, each with its touches, by how many touches they have, and which slots after the end are open.
Kinds: TypeAlias = dict[tuple[int, tuple[int, ...]], list[tuple[bytes, list[bytes]]]]

# The most gates, and the cards of each of them.
GATES, OF_GATES = 64, topups.Cards(20)
CARDS, CAPACITY = GATES * OF_GATES.each, 100_000
TABLE = model.Table(EXAMPLE.read_text())
# How many microseconds a flush takes at least: turns begin where it takes 50.
DELAY = 1000
# How many kills there are at random moments; and for each, of how many kinds of files that a run may leave the program
# reads some.
ROUNDS, FILES = int(os.environ.get("ROUNDS", 12)), 3
# How many touches each of 8 gates sends in a run that is killed at a call, and in one whose power is lost.
FEW, MORE = 3, 5
# A run with FEW touches makes fewer calls.
MOST = 200
# Within how many events it has to be seen that a flush was left out.
SOON = 25
# At which bytes a write is cut.
STEP = 16
# What a server notes of so many open slots behind the end.
NOTES: tuple[list[str], ...] = [], ["note: 1 open slot behind the end"], ["note: 2 open slots behind the end"]
# A folder in memory, where there is one: the library makes flushes slow.
ROOM = harness.in_memory(200)


class LoadedGate(threading.Thread):
    """A gate that sends its touches one after the other, from the first without a reply on, until it has those up to the
    last one or the server is gone."""

    def __init__(self, server: Server, gate: int, answered: int, more: int) -> None:
        super().__init__(daemon=True)
        self.address, self.gate, self.answered = server.address, gate, answered
        self.wrong: str | None = None
        self.last = min(answered + more, OF_GATES.most())

    def run(self) -> None:
        try:
            with Gate(self.address) as line:
                # A connection counts from its first byte on: without a touch to send it asks for a card.
                line.ask(codec.enquiry(1))
                while self.answered < self.last:
                    answer = line.ask(OF_GATES.touch(self.gate, self.answered + 1))
                    if len(answer) < 3:
                        return
                    if answer != OF_GATES.reply(self.gate, self.answered + 1):
                        self.wrong = f"gate {self.gate}, touch {self.answered + 1}: {answer.hex()}"
                        return
                    self.answered += 1
        except OSError:
            pass


class Loaded(harness.ProgramTest):
    """A journal in a folder of its own, and servers of it under load."""

    libraries: ClassVar[Libraries]

    @classmethod
    def setUpClass(cls) -> None:
        super().setUpClass()
        folder = tempfile.TemporaryDirectory(prefix="killed-under-load-")
        cls.addClassCleanup(folder.cleanup)
        cls.libraries = Libraries(folder.name)

    def setUp(self) -> None:
        room = tempfile.TemporaryDirectory(prefix="killed-under-load-", dir=ROOM)
        self.addCleanup(room.cleanup)
        self.folder = pathlib.Path(room.name)
        self.journal = self.folder / "journal"
        self.draw = random.Random(5)
        self.begin()

    def begin(self, content: bytes | None = None) -> None:
        """Puts a journal there: these bytes, or one of no touches. Each gate has the replies to its touches in it."""
        self.journal.write_bytes(content or layout.journal_of([], CAPACITY, CARDS, TABLE.digest))
        found = topups.by_gate(Walk(self.journal.read_bytes(), TABLE, CARDS).recorded)
        self.answered = {gate: len(found.get(gate, [])) for gate in range(1, GATES + 1)}

    def serve(self, lines: int, **options: Any) -> Server:
        server = Server(self.folder, lines=lines, connections=1, cards=CARDS, capacity=CAPACITY, more=["--strict"],
                        **options)
        self.addCleanup(server.kill)
        return server

    def load(self, gates: int, more: int, kill_at: int = 0, after: float | None = None) -> tuple[Walk, list[Event], int]:
        """Serves gates under load until each has so many more replies, the server is killed before the call of this number,
        or it is killed after so many seconds: the journal before it, what the server did, and its status."""
        walk = Walk(self.journal.read_bytes(), TABLE, CARDS)
        notes = Notes(self.libraries, DELAY, kill_at)
        self.addCleanup(notes.close)
        server = self.serve(gates, **notes.options)
        threads = [LoadedGate(server, gate, self.answered[gate], more) for gate in range(1, gates + 1)]
        for thread in threads:
            thread.start()
        if after is not None:
            # However late the gates of a busy machine begin, the load is there from the first reply on.
            harness.until(lambda: any(thread.answered > self.answered[thread.gate] for thread in threads))
            threading.Event().wait(after)
            server.process.kill()
        for thread in threads:
            thread.join(TIME)
        self.assertEqual([thread.wrong for thread in threads if thread.wrong], [])
        self.answered.update({thread.gate: thread.answered for thread in threads})
        server.process.communicate(timeout=TIME)
        return walk, list(notes.events()), server.process.returncode

    def assert_of_gates(self, frames: Iterable[bytes]) -> None:
        """The touches are those of the gates, each gate's in its order, each once; all that had a reply, and at most one
        more of each gate."""
        found = topups.by_gate(frames)
        for gate, answered in self.answered.items():
            kept = found.pop(gate, [])
            self.assertEqual(kept, OF_GATES.touches(gate, len(kept)))
            self.assertIn(len(kept) - answered, (0, 1), f"gate {gate}")
        self.assertEqual(found, {})

    def assert_opened(self, frames: Sequence[bytes], behind: Sequence[int] = ()) -> None:
        """A server opens the journal with these touches and so many open slots behind its end, and gives repeats their first
        replies: of each gate's last touches, and of some before them."""
        server = self.serve(1)
        self.assertEqual(server.notes, NOTES[len(behind)])
        with server.connect() as line:
            line.ask(codec.enquiry(1))
            for gate, kept in topups.by_gate(frames).items():
                for number in {len(kept), max(1, len(kept) - 1), self.draw.randint(1, len(kept))}:
                    self.assertEqual(line.ask(OF_GATES.touch(gate, number)), OF_GATES.reply(gate, number), (gate, number))
        status, out, err = server.end()
        self.assertEqual((status, out[0], out[-1]), (0, f"opened {len(frames)}", f"closed {len(frames)}"), err)


class Kills(Loaded):
    """Kills of the server's process."""

    def killed(self, gates: int, more: int, **when: Any) -> tuple[bool, int]:
        """Kills a server under load: whether a touch was written ahead then, and its status."""
        walk, events, status = self.load(gates, more, **when)
        for event in events:
            walk.take(event)
        held = walk.held(self.journal.read_bytes())
        walk.judge(held)
        self.assertEqual(held.behind, ())
        self.assert_of_gates(held.frames)
        return walk.ahead is not None, status

    def test_kills_at_random_moments_lose_no_answer(self) -> None:
        met = 0
        for number in range(ROUNDS):
            gates = (8, 16, 64)[number % 3]
            with self.subTest(round=number + 1, gates=gates):
                was_ahead, status = self.killed(gates, OF_GATES.most(), after=self.draw.uniform(0.1, 0.4))
                self.assertEqual(status, -9)
                met += was_ahead
        self.assertGreater(met, ROUNDS // 2, "a touch was written ahead at most kills")
        self.assert_opened(Walk(self.journal.read_bytes(), TABLE, CARDS).recorded)

    def test_a_kill_before_each_call_loses_no_answer(self) -> None:
        """Each run goes on from the file that the kill before it left, and each gate first repeats what has no reply."""
        met, calls = 0, 0
        for number in range(2, MOST):
            with self.subTest(call=number):
                was_ahead, status = self.killed(8, FEW, kill_at=number)
                met += was_ahead
            if status == 0:
                calls = number
                break
        # Each touch takes two calls at least.
        self.assertGreater(calls, 2 * 8 * FEW)
        self.assertGreater(met, 8 * FEW // 2, "a touch was written ahead at many calls")
        self.assert_opened(Walk(self.journal.read_bytes(), TABLE, CARDS).recorded)


class Power(Loaded):
    """Losses of power of the server's disk."""

    def moments(self, start: bytes | None = None) -> Iterator[Walk]:
        """The moments of a run from a file with these bytes: before its first event, and after each one."""
        self.begin(start)
        walk, events, status = self.load(8, MORE)
        self.assertEqual(status, 0)
        yield walk
        for event in events:
            walk.take(event)
            yield walk
        self.assertGreater(walk.met, 8 * MORE // 3, "many touches were written ahead")
        self.assertEqual(len(walk.answered), 8 * MORE)

    def files(self, start: bytes | None = None) -> Kinds:
        """The files that a loss of power may leave in such a run, with their touches, by their kind: how many touches they
        have, and which slots behind the end are open."""
        found: dict[bytes, Held] = {}
        draw = random.Random(1)
        for walk in self.moments(start):
            for image in walk.disk.images(draw, STEP):
                if image not in found:
                    found[image] = walk.held(image)
                # Bytes that were right before may lack an answer that came since.
                walk.judge(found[image])
        kinds: Kinds = collections.defaultdict(list)
        for image, held in found.items():
            kinds[len(held.frames), held.behind].append((image, held.frames))
        return kinds

    def assert_read(self, kinds: Kinds, most: int) -> None:
        """The server opens a file of each of so many kinds at most, and `verify` finds another one sound."""
        for count, behind in self.draw.sample([*kinds], min(most, len(kinds))):
            checks: tuple[Callable[[list[bytes], tuple[int, ...]], None], ...] = (self.assert_verified, self.assert_opened)
            for check in checks:
                image, frames = self.draw.choice(kinds[count, behind])
                self.begin(image)
                check(frames, behind)

    def assert_verified(self, frames: Sequence[bytes], behind: Sequence[int]) -> None:
        status, out, err = harness.run(["verify", "--journal", str(self.journal)])
        *lines, last = out.decode().splitlines()
        said = dict(line.split(" ", 1) for line in lines)
        self.assertEqual((status, said["touches"], said.get("behind", "0"), last, err),
                         (0, str(len(frames)), str(len(behind)), "sound", ""))

    def test_each_file_of_a_run_has_what_was_answered(self) -> None:
        kinds = self.files()
        self.assertGreater(sum(map(len, kinds.values())), 5000)
        self.assertEqual({count for count, _ in kinds}, set(range(8 * MORE + 1)))
        # The body of a touch ends with the mark behind its slot: that one is directly behind the end. The body that is
        # written ahead leaves the one behind it, where the mark of the touch in flight isn't there.
        self.assertEqual({behind for _, behind in kinds}, {(), (1,), (2,)})
        self.assert_read(kinds, ROUNDS * FILES)

    def test_further_losses_of_power_leave_two_open_slots_at_most(self) -> None:
        kinds = self.files()
        for behind in ((2,), (1, 2)):
            with self.subTest(before=behind):
                image, _ = self.draw.choice([file for kind, files in kinds.items() if kind[1] == behind for file in files])
                kinds = self.files(image)
                self.assertEqual({behind for _, behind in kinds}, {(), (1,), (2,), (1, 2)})
                self.assert_read({kind: files for kind, files in kinds.items() if kind[1] == (1, 2)}, ROUNDS)

    def test_a_run_without_one_of_its_flushes_would_be_seen(self) -> None:
        start = self.journal.read_bytes()
        events = answered_at_once(start, self.load(8, MORE)[1])
        flushes = [at for at, event in enumerate(events) if event.name == "fdatasync"]
        self.assertGreater(len(flushes), 8 * MORE)
        # Nothing rests on that of the opening.
        self.assertEqual([at for at in flushes if not is_seen(start, events, at)], flushes[:1])


def answered_at_once(start: bytes, events: Iterable[Event]) -> list[Event]:
    """The events of a run, with each reply directly after the flush that it waits for: as early as the server may send
    it."""
    replies = {name_of(event.data): event for event in events if event.name == "send" and event.data[2] == codec.REPLY}
    walk = Walk(start, TABLE, CARDS)
    found: list[Event] = []
    for event in events:
        if event.name != "send":
            count = len(walk.recorded)
            walk.take(event)
            found += [event, *(replies[name_of(frame)] for frame in walk.recorded[count:])]
    return found


def is_seen(start: bytes, events: Iterable[Event], without: int) -> bool:
    """Whether a run is found wrong where the flush at this place is left out."""
    walk, draw = Walk(start, TABLE, CARDS), random.Random(1)
    try:
        for at, event in enumerate(events):
            if at == without:
                continue
            walk.take(event)
            if at > without:
                for image in walk.disk.images(draw, 4 * STEP):
                    walk.judge(walk.held(image))
            if at > without + SOON:
                return False
    except (AssertionError, IndexError, KeyError):
        return True
    return False
