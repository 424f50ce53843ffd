"""Migrates journals of the first format on real files, and serves the new ones.

Old journals are made here, and new ones read here, from docs/reference/JOURNAL.md alone: with no touch, with 4, and
with up to 1,000,000. The new server must find each touch, and give each repeat the reply that the old server gave. For
4 touches that is worked out by hand; for more it is the answer of `replay`. Then the command is killed at each of its
calls of the system: the new file must be the whole journal or none, and the old one unchanged. Every fault is tested.
The script needs `strace` and the built program.
"""
import hashlib
import os
import pathlib
import random
import re
import socket
import subprocess
import tempfile
from collections.abc import Iterable, Sequence
from typing import Any

import harness
from bovtrila import codec, layout

CARDS = 1000
FOUR = [bytes.fromhex(line) for line in (harness.CRATES / "tap_server" / "stdin").read_text().split()]
# The replies of the four touches of crates/tap_server/stdin, which README.md has in words.
FOUR_REPLIES = [
    "00148100070000000108000000000000000000000000",
    "00148100070000000207000007d000000000000007d0",
    "00148100070000000301fffffc7c000000000000044c",
    "00148100070000000404000002260000000000000672",
]
# The bytes of a reply's frame.
REPLY = 22
CALL = re.compile(r"^\d+ +(\w+)\((.*)\) += (-?\d+|\?)")


def journal(version: bytes, frames: Iterable[bytes], capacity: int) -> bytes:
    """The bytes of a journal of the touches of these frames, in the format of this version, as a server leaves them."""
    return layout.journal_of(frames, capacity, CARDS, hashlib.sha256(harness.EXAMPLE.read_bytes()).digest(), version)


def many(count: int) -> list[bytes]:
    """So many touches of generated journeys, each of another gate and number."""
    chance, moment = random.Random(20250106), 1_736_121_600
    found: list[bytes] = []
    values: tuple[int, ...]
    states = [0] * (CARDS + 1)
    for number in range(count):
        card = chance.randrange(1, CARDS + 1)
        moment += chance.randrange(3)
        state, states[card] = states[card], states[card] + 1
        if state == 0:
            kind, values = codec.ISSUE, (moment,)
        elif state % 9 == 1:
            kind, values = codec.TOP_UP, (chance.randrange(2_000, 5_000), moment)
        else:
            kind = codec.ENTER if state % 2 == 0 else codec.LEAVE
            values = chance.randrange(1, 6), moment
        found.append(codec.touch(kind, number % 60_000, number, card, *values))
    return found


def replies_of(frames: Iterable[bytes]) -> bytes:
    """The answers of `replay` to these frames."""
    given = b"".join(frame.hex().encode() + b"\n" for frame in frames)
    status, out, _ = harness.run(["replay", "--cards", str(CARDS)], given)
    assert status == 0
    return bytes.fromhex(out.decode())


def answers(address: tuple[str, int], frames: Sequence[bytes], size: int) -> bytes:
    """What a server answers to these frames, so many bytes to each, over one connection, a thousand at a time."""
    found = bytearray()
    with socket.create_connection(address, harness.TIME) as gate:
        if not frames:
            # A connection counts from its first byte on.
            gate.sendall(b"\0")
        for first in range(0, len(frames), 1000):
            piece = frames[first : first + 1000]
            gate.sendall(b"".join(piece))
            wanted = len(found) + size * len(piece)
            while len(found) < wanted:
                more = gate.recv(1 << 16)
                if not more:
                    return bytes(found)
                found += more
    return bytes(found)


class Migration(harness.ProgramTest):
    def setUp(self) -> None:
        room = tempfile.TemporaryDirectory(prefix="migrate-journals-")
        self.addCleanup(room.cleanup)
        self.old = pathlib.Path(room.name) / "old.journal"
        self.new = pathlib.Path(room.name) / "new.journal"

    def words(self, cards: int = CARDS, table: pathlib.Path = harness.EXAMPLE, old: pathlib.Path | None = None,
              new: pathlib.Path | None = None) -> list[object]:
        return ["migrate", "--table", table, "--from", old or self.old, "--to", new or self.new, "--cards", cards]

    def migrate(self, **changed: Any) -> harness.Ran:
        return harness.run([str(word) for word in self.words(**changed)])

    def put(self, frames: Iterable[bytes], capacity: int) -> None:
        """Makes the old journal, which has to stay, of the touches of these frames."""
        self.old.write_bytes(journal(b"OYSTERJ1", frames, capacity))
        # A time of its own, to see that the file isn't touched.
        os.utime(self.old, ns=(10**18, 10**18))
        self.bytes = self.old.read_bytes()
        self.addCleanup(self.stays)

    def stays(self) -> None:
        """The old journal is what it was, and so is the time of its last change."""
        self.assertEqual(self.old.read_bytes(), self.bytes)
        self.assertEqual(self.old.stat().st_mtime_ns, 10**18)

    def served(self, frames: Sequence[bytes], opened: int, size: int = REPLY) -> bytes:
        """What a server of the new journal answers to these frames, having found so many touches."""
        words = ["serve", "--table", harness.EXAMPLE, "--journal", self.new, "--cards", CARDS, "--capacity", 1, "--listen",
                 "127.0.0.1:0", "--lines", 1, "--connections", 1]
        with subprocess.Popen([harness.PROGRAM, *map(str, words)], stdin=subprocess.DEVNULL, stdout=subprocess.PIPE,
                              stderr=subprocess.PIPE, text=True) as server:
            assert server.stderr, "a pipe"
            host, _, port = server.stderr.readline().split()[1].rpartition(":")
            found = answers((host, int(port)), frames, size)
            try:
                out, _ = server.communicate(timeout=harness.TIME)
            except subprocess.TimeoutExpired:
                server.kill()
                raise
            self.assertEqual(out.splitlines()[0], f"opened {opened}")
        return found

    def test_a_journal_keeps_each_touch_and_reply(self) -> None:
        for count, capacity in ((0, 5), (4, 5), (4, 4), (100_000, 100_001), (1_000_000, 1_000_000)):
            with self.subTest(touches=count, capacity=capacity):
                self.carried(count, capacity)

    def carried(self, count: int, capacity: int) -> None:
        frames = FOUR if count == 4 else many(count)
        self.put(frames, capacity)
        self.new.unlink(missing_ok=True)
        self.assertEqual(self.migrate(), (0, f"migrated {count}\n".encode(), ""))
        self.assertEqual(self.new.read_bytes(), journal(b"OYSTERJ2", frames, capacity))
        replies = bytes.fromhex("".join(FOUR_REPLIES)) if count == 4 else replies_of(frames)
        self.assertTrue(self.served(frames, count) == replies, "a repeat got another reply")
        self.stays()

    def test_a_full_journal_stays_full(self) -> None:
        self.put(FOUR, 4)
        self.assertEqual(self.migrate()[0], 0)
        further = codec.touch(codec.ISSUE, 7, 5, 2, 1_736_150_400)
        full = codec.fault(codec.FULL, 7, 5)
        self.assertEqual(self.served([further], 4, len(full)), full)

    def test_a_fault_is_told_and_leaves_the_files(self) -> None:
        damaged = journal(b"OYSTERJ1", [FOUR[0][:2] + b"\x06" + FOUR[0][3:], *FOUR[1:]], 5)
        rows: list[tuple[bytes, dict[str, Any], str]] = [
            (journal(b"OYSTERJ2", FOUR, 5), {}, "3 Old 4 WrongVersion"),
            (b"\xa5OYSTERJ3" + journal(b"OYSTERJ1", FOUR, 5)[9:], {}, "3 Old 4 WrongVersion"),
            (b"", {}, "3 Old 3 NotAJournal"),
            (b"\0" + journal(b"OYSTERJ1", FOUR, 5)[1:], {}, "3 Old 3 NotAJournal"),
            (journal(b"OYSTERJ1", FOUR, 0), {}, "3 Old 10 BadLimit"),
            (journal(b"OYSTERJ1", FOUR, 5), {"table": harness.REVISED}, "3 Old 5 WrongTable"),
            (journal(b"OYSTERJ1", FOUR, 5), {"cards": 10}, "3 Old 6 WrongCards"),
            (damaged, {}, "3 Old 7 Damaged 0"),
            (journal(b"OYSTERJ1", FOUR, 5)[:-1], {}, "3 Old 7 Damaged 4"),
        ]
        for old, changed, cause in rows:
            with self.subTest(cause=cause):
                self.old.write_bytes(old)
                self.new.unlink(missing_ok=True)
                self.assertEqual(self.migrate(**changed), (1, b"", f"fault migrate {cause}\n"))
                self.assertEqual(self.old.read_bytes(), old)
                self.assertEqual(self.new.read_bytes(), b"")

    def test_a_file_that_holds_something_is_left(self) -> None:
        self.put([], 5)
        self.new.write_bytes(b"x")
        self.assertEqual(self.migrate(), (1, b"", "fault migrate 4 NotEmpty\n"))
        self.assertEqual(self.new.read_bytes(), b"x")

    def test_a_file_that_cannot_be_had_is_a_fault(self) -> None:
        self.put([], 5)
        nowhere = self.old.parent / "none" / "journal"
        for changed in ({"old": nowhere}, {"new": nowhere}, {"new": self.old}, {"table": nowhere}):
            with self.subTest(**changed):
                self.assertEqual(self.migrate(**changed), (1, b"", "fault file\n"))
                self.stays()

    def test_a_server_that_has_a_file_keeps_it(self) -> None:
        self.put([], 5)
        self.assertEqual(self.migrate()[0], 0)
        words = ["serve", "--table", harness.EXAMPLE, "--journal", self.new, "--cards", CARDS, "--capacity", 1, "--listen",
                 "127.0.0.1:0", "--lines", 1, "--connections", 1]
        with subprocess.Popen([harness.PROGRAM, *map(str, words)], stdin=subprocess.DEVNULL, stdout=subprocess.DEVNULL,
                              stderr=subprocess.PIPE, text=True) as server:
            self.addCleanup(server.kill)
            assert server.stderr, "a pipe"
            server.stderr.readline()
            runs: tuple[dict[str, Any], ...] = ({}, {"old": self.new, "new": self.old.parent / "third"})
            for changed in runs:
                with self.subTest(**changed):
                    self.assertEqual(self.migrate(**changed), (1, b"", "fault file\n"))
            server.kill()

    def traced(self, more: Iterable[str] = ()) -> tuple[int, list[str]]:
        """Runs the command under strace: its status, and the name of each call of the system."""
        trace = self.old.parent / "trace"
        words = ["strace", "-f", "-qq", "-e", "signal=none", "-s", "0", *more, "-o", trace, harness.PROGRAM, *self.words()]
        done = subprocess.run([str(word) for word in words], capture_output=True, timeout=harness.TIME)
        return done.returncode, [call[1] for line in trace.read_text().split("\n") if (call := CALL.match(line))]

    def test_a_kill_at_any_call_leaves_the_journal_or_none(self) -> None:
        self.put(FOUR, 5)
        status, names = self.traced()
        self.assertEqual(status, 0)
        for name in sorted(set(names) - {"execve", "exit_group"}):
            for number in range(1, names.count(name) + 1):
                with self.subTest(call=name, number=number):
                    self.kill(name, number, journal(b"OYSTERJ2", FOUR, 5))

    def kill(self, name: str, number: int, whole: bytes) -> None:
        self.new.unlink(missing_ok=True)
        status, _ = self.traced(["-e", f"inject={name}:signal=KILL:when={number}"])
        self.assertNotEqual(status, 0, "it was killed")
        self.stays()
        left = self.new.read_bytes() if self.new.is_file() else b""
        if left != whole:
            self.assertNotEqual(left[:1], b"\xa5", "a journal that isn't whole")
            self.new.unlink(missing_ok=True)
            self.assertEqual(self.migrate(), (0, b"migrated 4\n", ""))
            self.assertEqual(self.new.read_bytes(), whole)
