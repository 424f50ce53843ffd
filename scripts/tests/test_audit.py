"""Tests the command verify of the built program over journals made by hand: sound ones of each format, each byte of a
small one changed in turn, copies cut at each length, seals, and the journal of a running server.

The expected result of an opening comes from a simple reader of docs/reference/JOURNAL.md, and for some of the files
from the server.
"""
import datetime
import hashlib
import os
import pathlib
import shutil
import struct
import subprocess
import tempfile
from collections.abc import Iterator, Sequence
from typing import Any

import harness
from bovtrila import codec, layout, model
from harness import EXAMPLE, PROGRAM, REVISED, TIME, run_whole
from holding import Held
from running import Server

TABLE, OTHER = model.Table(EXAMPLE.read_text()), model.Table(REVISED.read_text())
FOUR = [bytes.fromhex(line) for line in (harness.CRATES / "tap_server" / "stdin").read_text().split()]
VERSIONS = {b"OYSTERJ1": (1, 32), b"OYSTERJ2": (2, 64)}
# How many bytes a touch of each kind has.
SIZES = {1: 17, 2: 17, 3: 19, 4: 15, 6: 51}
# How many open slots crashes leave behind a journal's end at most.
BEHIND = 2
# A user who is refused what root is not.
NOBODY = 65534


def named(number: int, digest: bytes, gate: int = 9, day: int = 20454) -> bytes:
    """The frame of a revision to the table of this digest."""
    touch = struct.pack(">BHII32siI", 6, gate, number, 0, digest, day, 1736150400)
    return struct.pack(">H", len(touch)) + touch


def changes_of(content: bytes, by_bits: bool = False) -> Iterator[bytes]:
    """The content with each of its bytes changed in turn: in its lowest bit or its two lowest, which may make one
    touch's number another's, and where not by bits alone, to what a disk may leave there and to a mark."""
    for place, was in enumerate(content):
        for byte in sorted({was ^ 1, was ^ 3, *(() if by_bits else (0x00, 0xff, 0xa5))} - {was}):
            yield content[:place] + bytes([byte]) + content[place + 1:]


def fault_of(content: bytes, schedule: model.Schedule | None = None) -> str | None:
    """What is wrong with a journal's file, read alone: a fault's number, name and place, or None. The tables are a
    model's schedule, where they are named."""
    if len(content) < 65 or content[0] != 0xa5 or content[1:8] != b"OYSTERJ":
        return "3 NotAJournal"
    if content[1:9] not in VERSIONS:
        return "4 WrongVersion"
    capacity, cards, digest = struct.unpack(">II32s", content[9:49])
    if not (1 <= capacity <= 1_000_000 and 1 <= cards <= 100_000):
        return "10 BadLimit"
    if schedule is not None and digest != TABLE.digest:
        return "5 WrongTable"
    touches: list[bytes] = []
    size = VERSIONS[content[1:9]][1]
    while len(touches) < capacity:
        slot = content[64 + size * len(touches):][:size]
        if slot and slot[0] != 0xa5:
            break
        if len(slot) < size or SIZES.get(slot[1], size) >= size:
            return f"7 Damaged {len(touches)}"
        touches.append(struct.pack(">H", SIZES[slot[1]]) + slot[1:1 + SIZES[slot[1]]])
    fault = model.fault_of(touches, schedule)
    return " ".join(map(str, fault)) if fault else None


def frames_of(content: bytes) -> list[bytes]:
    """The request frames of the touches of a sound journal's file."""
    size = VERSIONS[content[1:9]][1]
    frames: list[bytes] = []
    while len(frames) < int.from_bytes(content[9:13], "big"):
        slot = content[64 + size * len(frames):][:size]
        if slot[:1] != b"\xa5":
            break
        frames.append(struct.pack(">H", SIZES[slot[1]]) + slot[1:1 + SIZES[slot[1]]])
    return frames


def revisions_of(content: bytes, schedule: model.Schedule | None = None) -> list[str]:
    """The lines of the revisions among the touches of a sound journal's file, with their verdicts where tables are named,
    as a model's schedule."""
    frames = frames_of(content)
    said: list[str] = []
    if not any(frame[2] == codec.REVISE for frame in frames):
        return said
    station = schedule and model.Station(TABLE, int.from_bytes(content[13:17], "big"),
                                         supplied=[table for table in schedule.tables.values() if table is not TABLE])
    for place, frame in enumerate(frames):
        answer = station.answer(frame) if station else None
        if frame[2] == codec.REVISE:
            digest, day = struct.unpack(">32si", frame[13:49])
            date = datetime.date(1970, 1, 1) + datetime.timedelta(days=day)
            verdict = [model.VERDICTS[answer[9]]] if answer else []
            said.append(" ".join(["revision", str(place), str(date), digest.hex(), *verdict]))
    return said


def lines_of(content: bytes, seal: int | None = None, schedule: model.Schedule | None = None) -> bytes:
    """The lines that are written of a sound journal's file, with the seal of so many touches, by the tables of a model's
    schedule where some are named."""
    version, size = VERSIONS[content[1:9]]
    capacity, cards = struct.unpack(">II", content[9:17])
    marks = [content[64 + size * place:][:1] == b"\xa5" for place in range(capacity)]
    touches = marks.index(False) if False in marks else capacity
    said = [f"version {version}", f"capacity {capacity}", f"cards {cards}", f"digest {content[17:49].hex()}",
            f"touches {touches}", f"room {capacity - touches}", f"trailing {len(content) - 64 - size * touches}"]
    if behind(content):
        said.append(f"behind {behind(content)}")
    said += revisions_of(content, schedule)
    if seal is not None:
        said.append(f"sealed {seal} {seal_of(content, seal)}")
    return harness.lines([*said, last_of(content)])


def behind(content: bytes) -> int:
    """How many open slots stand behind the end of a sound journal's file."""
    size = VERSIONS[content[1:9]][1]
    marks = [content[64 + size * place:][:1] == b"\xa5" for place in range(int.from_bytes(content[9:13], "big"))]
    return sum(marks[marks.index(False):]) if False in marks else 0


def last_of(content: bytes) -> str:
    """The last line of a sound journal's."""
    return "sound, but look behind" if behind(content) > BEHIND else "sound"


def status_of(content: bytes) -> int:
    """The status of a verification of a sound journal."""
    return 3 if behind(content) > BEHIND else 0


def seal_of(content: bytes, touches: int) -> str:
    """The digest of the header and so many slots."""
    return hashlib.sha256(content[:64 + VERSIONS[content[1:9]][1] * touches]).hexdigest()


class Audit(harness.ProgramTest):
    """Each test has a folder of its own, with a journal in it."""

    def setUp(self) -> None:
        room = tempfile.TemporaryDirectory(prefix="audit-")
        self.addCleanup(room.cleanup)
        self.folder = pathlib.Path(room.name)
        self.journal = self.folder / "station.journal"

    def verify(self, *more: object, journal: object = None, **options: Any) -> harness.Ran:
        """Status, standard output and standard error of a verification."""
        words = ["verify", "--journal", journal or self.journal, *more]
        return run_whole([str(word) for word in words], **options)

    def verified(self, content: bytes, *more: object) -> harness.Ran:
        """What is said of a file of this content, which stays as it is."""
        self.journal.write_bytes(content)
        before = self.journal.stat().st_mtime_ns
        said = self.verify(*more)
        self.assertEqual((self.journal.read_bytes(), self.journal.stat().st_mtime_ns), (content, before))
        return said

    def assert_right(self, content: bytes, *more: object, schedule: model.Schedule | None = None) -> bool:
        """It is sound, with its lines, or has the fault that an opening would give. It answers whether it is sound.
        What stands behind the fault's line is looked at by scripts/tests/test_told_faults.py."""
        fault = fault_of(content, schedule)
        wanted = (1, b"", f"fault journal {fault}\n") if fault else (
            status_of(content), lines_of(content, schedule=schedule), "")
        status, out, err = self.verified(content, *more)
        self.assertEqual((status, out, harness.fault_of(err)), wanted)
        return fault is None


class Journals(Audit):
    """Journals, alone and by their tables."""

    def test_a_sound_journal_of_each_format_is_told_in_lines(self) -> None:
        for version in VERSIONS:
            for count in range(5):
                with self.subTest(version, touches=count):
                    content = layout.journal_of(FOUR[:count], 5, 10, TABLE.digest, version)
                    self.assertTrue(self.assert_right(content))
                    self.assertTrue(self.assert_right(content, "--table", EXAMPLE,
                                                      schedule=model.Schedule(TABLE, [])))
        full = layout.journal_of(FOUR, 4, 100_000, TABLE.digest)
        self.assertTrue(self.assert_right(full))
        self.assertTrue(self.assert_right(full[:-1]))
        self.assertTrue(self.assert_right(full + bytes(range(256))))

    def test_open_slots_behind_the_end_are_counted(self) -> None:
        content = layout.journal_of(FOUR, 6, 10, TABLE.digest).ljust(64 + 64 * 6, b"\0")
        for places, count in (((), 0), ((5,), 1), ((3,), 0), ((2,), 1), ((1,), 2), ((0,), 3), ((1, 5), 3)):
            changed = bytearray(content)
            for place in places:
                changed[64 + 64 * place] ^= 0xa5
            with self.subTest(places):
                status, out, _ = self.verified(bytes(changed))
                counted = b"behind %d\n" % count if count else b""
                last = b"sound, but look behind\n" if count > 2 else b"sound\n"
                self.assertEqual((status, out.partition(b"trailing ")[2].partition(b"\n")[2]),
                                 (3 if count > 2 else 0, counted + last))
                self.assertTrue(self.assert_right(bytes(changed)))

    def test_each_changed_byte_is_told_as_an_opening_would(self) -> None:
        sound = 0
        for version in VERSIONS:
            for changed in changes_of(layout.journal_of(FOUR[:2], 5, 10, TABLE.digest, version)):
                sound += self.assert_right(changed, "--table", EXAMPLE, schedule=model.Schedule(TABLE, []))
        self.assertGreater(sound, 0)

    def test_each_changed_byte_is_told_without_tables_too(self) -> None:
        """As by the tables, but for the digest of the first one, which is then any."""
        told = set()
        for version in VERSIONS:
            for changed in changes_of(layout.journal_of(FOUR[:2], 5, 10, TABLE.digest, version), by_bits=True):
                self.assert_right(changed)
                told.add((fault_of(changed), fault_of(changed, model.Schedule(TABLE, []))))
        self.assertEqual({(alone, tables) for alone, tables in told if alone != tables}, {(None, "5 WrongTable")})
        self.assertIn(("7 Damaged 1", "7 Damaged 1"), told)

    def test_a_copy_cut_at_each_length_is_told_as_an_opening_would(self) -> None:
        for version in VERSIONS:
            content = layout.journal_of(FOUR, 5, 10, TABLE.digest, version)
            for size in range(len(content)):
                self.assertFalse(self.assert_right(content[:size]))

    def test_nothing_is_sound_that_a_server_refuses(self) -> None:
        """The plain reader, which a verification is held against above, says of each changed byte what `serve` says.
        That opens no journal of the first format, and is given the cards of the header, where so many may be."""
        for changed in changes_of(layout.journal_of(FOUR[:2], 5, 10, TABLE.digest), by_bits=True):
            fault = fault_of(changed, model.Schedule(TABLE, []))
            if changed[1:9] == b"OYSTERJ1":
                fault = "4 WrongVersion"
            self.journal.write_bytes(changed)
            cards = int.from_bytes(changed[13:17], "big")
            words = ["serve", "--table", EXAMPLE, "--journal", self.journal, "--capacity", 5, "--listen", "nonsense",
                     "--cards", cards if 1 <= cards <= 100_000 else 10, "--lines", 1, "--connections", 1]
            status, _, told = harness.run([str(word) for word in words])
            self.assertEqual((status, told), (1, f"fault journal {fault}\n" if fault else "fault listen\n"))
            self.assertEqual(self.journal.read_bytes(), changed)

    def test_a_gate_and_number_that_stand_twice_are_told_without_tables_too(self) -> None:
        issue, top_up, enter, leave = FOUR
        # The name of the issue on another touch.
        other = top_up[:3] + issue[3:9] + top_up[9:]
        for frames, place in (([issue, issue], 1), ([*FOUR, issue], 4), ([issue, top_up, other, enter], 2),
                              ([*FOUR, leave, issue], 4)):
            for version in VERSIONS:
                self.journal.write_bytes(layout.journal_of(frames, 9, 10, TABLE.digest, version))
                for words in ((), ("--table", EXAMPLE), ("--seal",), ("--sealed", 1, "0" * 64)):
                    with self.subTest(version, place=place, words=words):
                        wanted = (1, b"", f"fault journal 7 Damaged {place}\n  {self.journal}\n")
                        self.assertEqual(self.verify(*words), wanted)

    def test_tables_are_held_against_what_the_touches_name(self) -> None:
        revision, unknown = named(1, OTHER.digest), named(2, bytes(32))
        schedules = {(): model.Schedule(TABLE, []), (REVISED,): model.Schedule(TABLE, [OTHER])}
        for frames in ([revision], [*FOUR, revision], [*FOUR, unknown], [revision, unknown], [revision, revision],
                       [*FOUR, FOUR[0], unknown], [*FOUR, named(3, TABLE.digest)]):
            content = layout.journal_of(frames, 10, 10, TABLE.digest)
            for revised, schedule in schedules.items():
                with self.subTest(frames=len(frames), revised=len(revised)):
                    self.assert_right(content, "--table", EXAMPLE, *revised, schedule=schedule)
            self.assert_right(content)

    def test_revisions_are_listed(self) -> None:
        # Travel was on 2025-01-06. The second revision begins on the day of the first.
        frames = [*FOUR, named(1, OTHER.digest), named(2, TABLE.digest)]
        first, second = (f"revision {place} 2026-01-01 {table.digest.hex()}" for place, table in ((4, OTHER), (5, TABLE)))
        for version in VERSIONS:
            if version == b"OYSTERJ1":
                continue  # Its slots have no room for a revision.
            for words, lines in (((), [first, second]),
                                 (("--table", EXAMPLE, REVISED), [f"{first} Revised", f"{second} BadDay"])):
                with self.subTest(version, words=len(words)):
                    status, out, err = self.verified(layout.journal_of(frames, 10, 10, TABLE.digest, version), *words)
                    self.assertEqual((status, out.decode().splitlines()[7:], err), (0, [*lines, "sound"], ""))

    def test_tables_are_looked_at_before_the_journal(self) -> None:
        rows: tuple[tuple[list[object], str], ...] = (
            (["--table", "/nowhere/table"], "fault file\n  /nowhere/table: no such file\n"),
            (["--table", EXAMPLE, EXAMPLE], f"fault supply 2 Twice 1\n  {EXAMPLE}\n"))
        for words, told in rows:
            with self.subTest(told):
                status, out, err = self.verify(*words, journal="/nowhere/journal")
                self.assertEqual((status, out), (1, b""))
                self.assertTrue(err.startswith(told.split("\n")[0]), err)
        self.journal.write_bytes(layout.journal_of(FOUR, 5, 10, TABLE.digest))
        status, out, err = self.verify("--table", REVISED)
        self.assertEqual((status, out, harness.fault_of(err)), (1, b"", "fault journal 5 WrongTable\n"))

    def test_a_wrong_command_line_is_refused(self) -> None:
        digest = "0" * 64
        rows: tuple[Sequence[harness.Word], ...] = (
            ["verify"], ["verify", "--journal", "a", "b.toml"], ["verify", "--journal", "a", "--sealed", "1"],
            ["verify", "--journal", "a", "--sealed", "1000001", digest],
            ["verify", "--journal", "a", "--sealed", "1", digest[1:]],
            ["verify", "--journal", "a", "--expect-cards", "0"],
            ["verify", "--journal", "a", "--expect-capacity", "1000001"],
            ["verify", "--journal", "a", "--gate", "65536"],
            ["verify", "--journal", "a", "--gate", "7", "--table", EXAMPLE])
        for words in rows:
            with self.subTest(words):
                status, out, _ = run_whole(words)
                self.assertEqual((status, out), (2, b""))


class Headers(Audit):
    """What a header is expected to say."""

    def test_a_header_that_says_what_is_expected_is_sound(self) -> None:
        content = layout.journal_of(FOUR, 5, 10, TABLE.digest)
        for words in (("--expect-cards", 10), ("--expect-capacity", 5), ("--expect-cards", 10, "--expect-capacity", 5),
                      ("--table", EXAMPLE, "--expect-cards", 10)):
            with self.subTest(words):
                self.assertEqual(self.verified(content, *words), (0, lines_of(content), ""))

    def test_a_lowered_capacity_that_hides_touches_is_told(self) -> None:
        content = layout.journal_of(FOUR, 1000, 10, TABLE.digest)
        for capacity in (1, 2, 4, 999, 1001):
            changed = layout.header_of(capacity, 10, TABLE.digest) + content[64:]
            with self.subTest(capacity):
                self.assertEqual(self.verified(changed), (0, lines_of(changed), ""))
                said = self.verified(changed, "--expect-capacity", 1000, "--expect-cards", 10)
                self.assertEqual(said, (1, b"", f"fault header 1 Capacity {capacity}, not 1000\n"))

    def test_lowered_cards_that_hide_cards_are_told(self) -> None:
        content = layout.journal_of([*FOUR, codec.touch(codec.ISSUE, 7, 9, 10, 1736150000)], 1000, 10, TABLE.digest)
        changed = layout.header_of(1000, 9, TABLE.digest) + content[64:]
        self.assertEqual(self.verified(changed, "--table", EXAMPLE), (0, lines_of(changed), ""))
        for words in ((), ("--table", EXAMPLE), ("--seal",)):
            said = self.verified(changed, *words, "--expect-cards", 10)
            self.assertEqual(said, (1, b"", "fault header 2 Cards 9, not 10\n"))

    def test_the_header_stands_between_the_touches_and_the_seal(self) -> None:
        content = layout.journal_of(FOUR[:2], 5, 10, TABLE.digest)
        expected = ("--expect-capacity", 9, "--expect-cards", 8)
        said = self.verified(content, *expected, "--sealed", 2, "0" * 64)
        self.assertEqual(said, (1, b"", "fault header 1 Capacity 5, not 9\n"))
        said = self.verified(content[:-1], *expected, "--sealed", 2, "0" * 64)
        self.assertEqual(said, (1, b"", f"fault journal 7 Damaged 2\n  {self.journal}\n"))


class GateFiles(Audit):
    """The files of gates (docs/reference/JOURNAL.md, "A gate's file")."""

    def of_gate(self, frames: Sequence[bytes], gate: int = 7, capacity: int = 9, cards: int = 1,
                version: bytes = layout.VERSION) -> bytes:
        """The file of a gate with the touches of these frames, written from that page."""
        tag = b"touches of one gate, by number" + struct.pack(">H", gate)
        return layout.journal_of(frames, capacity, cards, tag, version)

    def lines(self, content: bytes, gate: int = 7, *seals: str) -> bytes:
        """The lines of a sound file, with these lines of seals."""
        told = lines_of(content).decode().splitlines()
        return harness.lines([*told[:2], f"gate {gate}", *told[4:-1], *seals, told[-1]])

    def test_a_gates_file_is_told_in_lines(self) -> None:
        for gate, count in ((7, 0), (7, 1), (7, 4)):
            content = self.of_gate(FOUR[:count], gate)
            with self.subTest(touches=count):
                self.assertEqual(self.verified(content, "--gate", gate), (0, self.lines(content), ""))
        content = self.of_gate([codec.touch(codec.ISSUE, 65535, 1, 1, 0)], 65535, 1)
        self.assertEqual(self.verified(content, "--gate", 65535), (0, self.lines(content, 65535), ""))

    def test_open_slots_behind_its_end_are_told(self) -> None:
        content = bytearray(self.of_gate(FOUR))
        content[64] = 0
        said = self.verified(bytes(content), "--gate", 7)
        self.assertEqual(said, (3, self.lines(bytes(content)), ""))
        self.assertIn(b"behind 3\n", said[1])

    def test_what_is_no_file_of_the_gate_is_told_by_its_cause(self) -> None:
        whole = self.of_gate(FOUR)
        swapped = self.of_gate([FOUR[0], FOUR[2], FOUR[1]])
        stranger = self.of_gate([*FOUR, codec.touch(codec.ISSUE, 8, 5, 1, 0)])
        for name, content, fault in (
                ("empty", b"", "1 NoFile"), ("cut", whole[:64], "1 NoFile"), ("unmade", b"\0" + whole[1:], "1 NoFile"),
                ("a station's", layout.journal_of(FOUR, 9, 10, TABLE.digest), "2 AnotherFile"),
                ("gate 8's", self.of_gate(FOUR, 8), "2 AnotherFile"),
                ("two cards", self.of_gate(FOUR, cards=2), "2 AnotherFile"),
                ("two cards and damage", self.of_gate(FOUR, cards=2)[:-1], "2 AnotherFile"),
                ("no capacity", self.of_gate([], capacity=0), "2 AnotherFile"),
                ("the first format", self.of_gate(FOUR, version=b"OYSTERJ1"), "2 AnotherFile"),
                ("version 3", whole[:8] + b"3" + whole[9:], "2 AnotherFile"),
                ("a damaged slot", whole[:129] + b"\x09" + whole[130:], "3 Damaged 1"),
                ("a missing end", whole[:-1], "3 Damaged 4"),
                ("a cut slot", whole[:300], "3 Damaged 3"),
                ("a wrong number", swapped, "4 Foreign 1"),
                ("another gate's touch", stranger, "4 Foreign 4"),
                ("numbers from 2 on", self.of_gate(FOUR[1:]), "4 Foreign 0")):
            with self.subTest(name):
                self.assertEqual(self.verified(content, "--gate", 7), (1, b"", f"fault gate {fault}\n"))

    def test_each_changed_byte_is_seen_or_a_seal_sees_it(self) -> None:
        content = self.of_gate(FOUR[:2])
        sealed = ("--sealed", 2, seal_of(content, 2))
        for changed in changes_of(content, by_bits=True):
            status, out, err = self.verified(changed, "--gate", 7, *sealed)
            if changed[:192] == content[:192]:
                self.assertEqual((status, err), (0, ""))
            else:
                self.assertEqual((status, out), (1, b""))
                self.assertRegex(err, r"^fault (gate|seal) [1-4] ")

    def test_a_gates_file_has_a_seal_and_an_expected_header(self) -> None:
        content = self.of_gate(FOUR[:3])
        for count in range(4):
            digest = seal_of(content, count)
            said = self.verified(content, "--gate", 7, "--sealed", count, digest, "--seal")
            seals = f"sealed {count} {digest}", f"sealed 3 {seal_of(content, 3)}"
            self.assertEqual(said, (0, self.lines(content, 7, *seals), ""))
        said = self.verified(content, "--gate", 7, "--expect-capacity", 9, "--expect-cards", 1)
        self.assertEqual(said, (0, self.lines(content), ""))
        said = self.verified(content, "--gate", 7, "--expect-capacity", 10)
        self.assertEqual(said, (1, b"", "fault header 1 Capacity 9, not 10\n"))
        said = self.verified(content, "--gate", 7, "--sealed", 4, "0" * 64)
        self.assertEqual(said, (1, b"", "fault seal 1 Shorter 3, not 4\n"))


class Files(Audit):
    """The journal's file."""

    def test_a_file_that_may_not_be_written_is_verified(self) -> None:
        content = layout.journal_of(FOUR, 5, 10, TABLE.digest)
        self.journal.write_bytes(content)
        self.journal.chmod(0o444)
        self.assertEqual(self.verify(), (0, lines_of(content), ""))
        if os.geteuid() == 0:
            # A user who may not write the file has to reach the program too.
            self.folder.chmod(0o755)
            program = self.folder / "program"
            shutil.copy(PROGRAM, program)
            done = subprocess.run([program, "verify", "--journal", self.journal], capture_output=True, timeout=TIME,
                                  user=NOBODY, group=NOBODY, extra_groups=[])
            self.assertEqual((done.returncode, done.stdout, done.stderr), (0, lines_of(content), b""))

    def test_a_file_that_is_not_had_is_told(self) -> None:
        for path, why in ((self.folder / "none", "no such file"), (self.folder, "is a folder"),
                          (self.folder / "none" / "journal", "no such folder")):
            with self.subTest(path=path):
                self.assertEqual(self.verify(journal=path), (1, b"", f"fault file\n  {path}: {why}\n"))
        self.assertFalse((self.folder / "none").exists())

    def test_the_journal_of_a_running_server_is_verified(self) -> None:
        server = Server(self.folder)
        self.addCleanup(server.kill)
        with server.connect() as gate:
            for count, frame in enumerate(FOUR, 1):
                gate.send(frame)
                gate.take()
                said = self.verify("--table", EXAMPLE, "--seal", journal=server.journal)
                self.assertEqual(said, (0, lines_of(server.journal.read_bytes(), count), ""))
            # The server goes on.
            gate.send(FOUR[0])
            self.assertEqual(gate.take()[:9], bytes.fromhex("001481") + FOUR[0][3:9])
        status, out, _ = server.end()
        self.assertEqual((status, out[-1]), (0, "closed 4"))

    def test_a_journal_that_grows_while_it_is_read_is_read_again(self) -> None:
        server = Server(self.folder, cards=1)
        self.addCleanup(server.kill)
        touches = [codec.touch(codec.ISSUE, 7, 1, 1, 1736121600),
                   *(codec.touch(codec.TOP_UP, 7, number, 1, 100, 1736121600) for number in range(2, 19))]
        with server.connect() as gate:
            # The first read ends with the mark of the end, or with the slot behind it, and the next one is held up.
            for touch in touches[:14]:
                gate.ask(touch)
            held = Held(pathlib.Path(self.folder), HOLD_READ="961")
            words = [str(PROGRAM), "verify", "--journal", str(server.journal)]
            with subprocess.Popen(words, stdout=subprocess.PIPE, stderr=subprocess.PIPE, env=held.env) as verify:
                held.wait(verify)
                for touch in touches[14:]:
                    gate.ask(touch)
                held.let_go()
                out, err = verify.communicate(timeout=TIME)
        said = b"note: the file changed while it was read; it is read again\n"
        self.assertEqual((verify.returncode, out, err), (0, lines_of(server.journal.read_bytes()), said))


class Seals(Audit):
    """Seals."""

    def test_a_seal_is_of_all_touches(self) -> None:
        for version in VERSIONS:
            for count in range(5):
                content = layout.journal_of(FOUR[:count], 5, 10, TABLE.digest, version)
                with self.subTest(version, touches=count):
                    self.assertEqual(self.verified(content, "--seal"), (0, lines_of(content, count), ""))

    def test_a_journal_that_has_grown_still_has_its_seal(self) -> None:
        for version in VERSIONS:
            content = layout.journal_of(FOUR, 5, 10, TABLE.digest, version)
            for count in range(5):
                with self.subTest(version, touches=count):
                    digest = seal_of(content, count)
                    for written in (digest, digest.upper()):
                        said = self.verified(content, "--sealed", count, written)
                        self.assertEqual(said, (0, lines_of(content, count), ""))

    def test_a_changed_byte_in_a_sealed_slot_is_seen(self) -> None:
        content = layout.journal_of(FOUR[:2], 5, 10, TABLE.digest)
        digest = seal_of(content, 2)
        for place in range(len(content)):
            changed = content[:place] + bytes([content[place] ^ 1]) + content[place + 1:]
            status, out, err = self.verified(changed, "--sealed", 2, digest)
            if place >= 192:
                self.assertEqual((status, out, err), (0, lines_of(changed, 2), ""))
                continue
            self.assertEqual((status, out), (1, b""))
            fault = fault_of(changed)
            if fault:
                self.assertEqual(harness.fault_of(err), f"fault journal {fault}\n")
            else:
                shorter = {64: "fault seal 1 Shorter 0, not 2\n", 128: "fault seal 1 Shorter 1, not 2\n"}
                self.assertEqual(err, shorter.get(place, "fault seal 2 Changed\n"))

    def test_what_is_seen_with_a_seal_alone(self) -> None:
        """The rows of docs/audit/AUDIT.md, "What can't be seen without a seal", but for lost marks."""
        content = layout.journal_of(FOUR, 1000, 10, TABLE.digest)
        paid = codec.touch(codec.TOP_UP, 7, 9, 1, 5000, 1736150000)
        more = FOUR[1][:-5] + b"\xd1" + FOUR[1][-4:]
        for name, changed, fault in (
                ("a byte of a touch", layout.journal_of([FOUR[0], more, *FOUR[2:]], 1000, 10, TABLE.digest),
                 "2 Changed"),
                ("the capacity", layout.header_of(2, 10, TABLE.digest) + content[64:], "1 Shorter 2, not 4"),
                ("the capacity, above the seal", layout.header_of(999, 10, TABLE.digest) + content[64:], "2 Changed"),
                ("the cards", layout.header_of(1000, 5, TABLE.digest) + content[64:], "2 Changed"),
                ("two slots", layout.journal_of([*FOUR[:2], FOUR[3], FOUR[2]], 1000, 10, TABLE.digest), "2 Changed"),
                ("a touch between", layout.journal_of([*FOUR[:2], paid, *FOUR[2:]], 1000, 10, TABLE.digest),
                 "2 Changed"),
                ("a touch taken out", layout.journal_of([FOUR[0], *FOUR[2:]], 1000, 10, TABLE.digest), "1 Shorter 3, not 4"),
                ("a touch taken out, and a later one", layout.journal_of([FOUR[0], *FOUR[2:], paid], 1000, 10, TABLE.digest),
                 "2 Changed"),
                ("touches cut off", layout.journal_of(FOUR[:3], 1000, 10, TABLE.digest), "1 Shorter 3, not 4")):
            with self.subTest(name):
                self.assertNotEqual(changed, content)
                self.assertEqual(self.verified(changed, "--table", EXAMPLE), (0, lines_of(changed), ""))
                said = self.verified(changed, "--sealed", 4, seal_of(content, 4))
                self.assertEqual(said, (1, b"", f"fault seal {fault}\n"))
        longer = layout.journal_of([*FOUR, paid], 1000, 10, TABLE.digest)
        self.assertEqual(self.verified(longer, "--sealed", 4, seal_of(content, 4)), (0, lines_of(longer, 4), ""))

    def test_a_new_seal_is_made_where_the_old_one_holds(self) -> None:
        for version in VERSIONS:
            content = layout.journal_of(FOUR, 5, 10, TABLE.digest, version)
            for count in range(5):
                with self.subTest(version, touches=count):
                    told = lines_of(content, count).decode().splitlines()
                    wanted = harness.lines([*told[:-1], f"sealed 4 {seal_of(content, 4)}", told[-1]])
                    for words in (("--seal", "--sealed", count, seal_of(content, count)),
                                  ("--sealed", count, seal_of(content, count), "--seal")):
                        self.assertEqual(self.verified(content, *words), (0, wanted, ""))
        for sealed, fault in (((4, "0" * 64), "2 Changed"), ((5, "0" * 64), "1 Shorter 4, not 5")):
            said = self.verified(content, "--seal", "--sealed", *sealed)
            self.assertEqual(said, (1, b"", f"fault seal {fault}\n"))

    def test_fewer_touches_are_told_before_others(self) -> None:
        content = layout.journal_of(FOUR[:2], 5, 10, TABLE.digest)
        self.assertEqual(self.verified(content, "--sealed", 3, "0" * 64), (1, b"", "fault seal 1 Shorter 2, not 3\n"))
        self.assertEqual(self.verified(content, "--sealed", 2, "0" * 64), (1, b"", "fault seal 2 Changed\n"))
        # The journal's own faults come before them.
        self.assertEqual(self.verified(content[:-1], "--sealed", 3, "0" * 64),
                         (1, b"", f"fault journal 7 Damaged 2\n  {self.journal}\n"))
