"""Tests bovtrila-compare-gate, without the program: over gates' files and journals that bovtrila.model writes, with one
difference of each kind planted, over generated ones with many, and over files that are none.

Expected lines were worked out by hand; of generated ones the counts are those that were planted.
"""
import csv
import io
import os
import pathlib
import random
import re
import resource
import struct
import subprocess
import tempfile
import unittest
from collections.abc import Iterable
from typing import Any

from bovtrila import codec, layout, wire
from bovtrila.commands import compare_gate
from harness import TIME, TOP

SCRIPT = TOP / "bin" / "bovtrila-compare-gate"
# Monday 2025-01-06, 08:00 UTC.
EIGHT = 1736150400
DIGEST = bytes(range(32))
# What stands behind a touch that lacks.
NOWHERE, YET = "no journal has this number", "no journal has it yet: it waits for its reply"
CLEAN = {"other": 0, "more": 0, "order": 0, "twice": 0, "lacks": 0, "waits": 0, "given-up": 0}
# The findings that are no difference.
HARMLESS = "waits", "given-up"


def tag(gate: int, text: bytes = b"touches of one gate, by number") -> bytes:
    """What a gate's file has in the place of a digest (docs/reference/JOURNAL.md, "A gate's file")."""
    return text + struct.pack(">H", gate)


def entering(number: int, gate: int = 7, card: int = 5, station: int = 2, moment: int | None = None) -> bytes:
    return codec.touch(codec.ENTER, gate, number, card, station, EIGHT + 60 * number if moment is None else moment)


def row(numbers: Iterable[int], gate: int = 7) -> list[bytes]:
    """Touches of a gate by their numbers."""
    return [entering(number, gate) for number in numbers]


class FilesTest(unittest.TestCase):
    """Each test has a folder of its own, with the gate's file and the station's journal in it."""

    def setUp(self) -> None:
        folder = tempfile.TemporaryDirectory()
        self.addCleanup(folder.cleanup)
        self.folder = pathlib.Path(folder.name)

    def gate(self, frames: Iterable[bytes], capacity: int = 1000, gate: int = 7, **more: bytes) -> None:
        (self.folder / "gate").write_bytes(layout.journal_of(frames, capacity, 1, tag(gate, **more)))

    def station(self, frames: Iterable[bytes], name: str = "journal", capacity: int = 1000, version: bytes = layout.VERSION,
                cards: int = 10) -> None:
        (self.folder / name).write_bytes(layout.journal_of(frames, capacity, cards, DIGEST, version))

    def compare(self, *words: str, journals: Iterable[str] = ("journal",),
                **options: Any) -> subprocess.CompletedProcess[str]:
        """Runs the script to its end."""
        done = subprocess.run([SCRIPT, "gate", *journals, *words], capture_output=True, text=True, timeout=TIME,
                              cwd=self.folder, **options)
        self.assertNotIn("Traceback", done.stderr)
        return done

    def told(self, **more: Any) -> tuple[int, list[str], str]:
        """The status, the findings and the counts."""
        done = self.compare(**more)
        self.assertEqual(done.stderr, "")
        *findings, last = done.stdout.split("\n")[:-1]
        return done.returncode, findings, last

    def check(self, findings: list[str], file: int, journal: int, alike: int, **more: Any) -> None:
        """Compares, and wants these findings and counts."""
        status, lines, last = self.told(**more)
        self.assertEqual(lines, findings)
        counts = CLEAN | {name: sum(line.startswith(name) for line in findings) for name in CLEAN}
        wanted = {"gate": 7, "file": file, "journal": journal, "alike": alike} | counts
        self.assertEqual(last, ", ".join(f"{name} {count}" for name, count in wanted.items()))
        self.assertEqual(status, 0 if all(line.startswith(HARMLESS) for line in findings) else 1)


class Findings(FilesTest):
    """One difference of each kind, between touches of two gates."""

    def mixed(self, frames: Iterable[bytes]) -> list[bytes]:
        """The touches of gate 7, with one of gate 8 before each."""
        return [each for place, frame in enumerate(frames) for each in (entering(place, 8), frame)]

    def test_files_that_agree(self) -> None:
        for count in (0, 1, 5):
            with self.subTest(count):
                self.gate(row(range(1, count + 1)))
                self.station(self.mixed(row(range(1, count + 1))))
                self.check([], count, count, count)

    def test_the_last_touch_may_lack(self) -> None:
        self.gate(row(range(1, 6)))
        self.station(self.mixed(row(range(1, 5))))
        self.check([f"waits  number 5 card 5 in at 2 of 2025-01-06T08:05:00Z: {YET}"],
                   5, 4, 4)
        self.gate(row([1]))
        self.station([])
        self.check([f"waits  number 1 card 5 in at 2 of 2025-01-06T08:01:00Z: {YET}"],
                   1, 0, 0)

    def test_a_touch_that_the_journal_lacks(self) -> None:
        self.gate(row(range(1, 6)))
        self.station(self.mixed(row([1, 2, 4, 5])))
        self.check([f"lacks  number 3 card 5 in at 2 of 2025-01-06T08:03:00Z: {NOWHERE}"], 5, 4, 4)
        # The last two: only the last may lack.
        self.station(self.mixed(row([1, 2, 3])))
        self.check([f"lacks  number 4 card 5 in at 2 of 2025-01-06T08:04:00Z: {NOWHERE}",
                    f"waits  number 5 card 5 in at 2 of 2025-01-06T08:05:00Z: {YET}"],
                   5, 3, 3)

    def test_a_touch_that_the_file_has_not(self) -> None:
        self.gate(row([1, 2, 3]))
        self.station(self.mixed(row([1, 2, 3, 4])))
        self.check(["more   number 4 card 5 in at 2 of 2025-01-06T08:04:00Z: place 7 of journal, "
                    "the gate's file has no such number"], 3, 4, 3)
        self.gate([])
        self.station([entering(1)])
        self.check(["more   number 1 card 5 in at 2 of 2025-01-06T08:01:00Z: place 0 of journal, "
                    "the gate's file has no such number"], 0, 1, 0)

    def test_numbers_that_no_file_can_have(self) -> None:
        self.gate(row([1, 2, 3]))
        self.station([entering(0), *row([1, 2, 3]), entering(4294967295, moment=EIGHT)])
        more = [f"more   number {number} card 5 in at 2 of 2025-01-06T08:00:00Z: place {place} of journal, "
                "the gate's file has no such number" for number, place in ((0, 0), (4294967295, 4))]
        self.check(more, 3, 5, 3)

    def test_another_order(self) -> None:
        self.gate(row(range(1, 7)))
        self.station(self.mixed(row([1, 2, 4, 3, 5, 6])))
        self.check(["order  number 3 card 5 in at 2 of 2025-01-06T08:03:00Z: place 7 of journal, behind number 4"], 6, 6, 6)
        # One that was moved to the end, and one that was moved to the front: one break each.
        self.station(row([1, 3, 4, 5, 6, 2]))
        self.check(["order  number 2 card 5 in at 2 of 2025-01-06T08:02:00Z: place 5 of journal, behind number 6"], 6, 6, 6)
        self.station(row([5, 1, 2, 3, 4, 6]))
        self.check(["order  number 1 card 5 in at 2 of 2025-01-06T08:01:00Z: place 1 of journal, behind number 5"], 6, 6, 6)

    def test_other_bytes_under_a_number(self) -> None:
        self.gate([entering(1), codec.touch(codec.TOP_UP, 7, 2, 5, 2000, EIGHT), entering(3)])
        # Each field by itself, and the kind.
        for wrong, words in ((codec.touch(codec.TOP_UP, 7, 2, 6, 2000, EIGHT),
                              "card 6 top-up of 2000 of 2025-01-06T08:00:00Z"),
                             (codec.touch(codec.TOP_UP, 7, 2, 5, 2001, EIGHT),
                              "card 5 top-up of 2001 of 2025-01-06T08:00:00Z"),
                             (codec.touch(codec.TOP_UP, 7, 2, 5, 2000, EIGHT + 1),
                              "card 5 top-up of 2000 of 2025-01-06T08:00:01Z"),
                             (codec.touch(codec.ISSUE, 7, 2, 5, EIGHT), "card 5 issue of 2025-01-06T08:00:00Z"),
                             (codec.touch(codec.LEAVE, 7, 2, 5, 3, EIGHT), "card 5 out at 3 of 2025-01-06T08:00:00Z"),
                             (codec.touch(codec.REVISE, 7, 2, 0, DIGEST, 20_458, EIGHT),
                              f"card 0 revision to {DIGEST.hex()} from day 20458 of 2025-01-06T08:00:00Z")):
            with self.subTest(words):
                self.station(self.mixed([entering(1), wrong, entering(3)]))
                self.check([f"other  number 2 {words}: place 3 of journal, the gate's file has card 5 top-up of 2000 of "
                            "2025-01-06T08:00:00Z"], 3, 3, 2)

    def test_a_number_that_stands_twice(self) -> None:
        self.gate(row([1, 2, 3]))
        self.station(row([1, 2, 2, 3]))
        self.check(["twice  number 2 card 5 in at 2 of 2025-01-06T08:02:00Z: place 2 of journal, and place 1 of journal"],
                   3, 4, 3)

    def test_all_at_once_in_the_order_of_the_page(self) -> None:
        self.gate(row(range(1, 9)))
        wrong = entering(2, card=6)
        self.station([entering(1), wrong, entering(4), entering(3), entering(3), entering(60)])
        self.check(["other  number 2 card 6 in at 2 of 2025-01-06T08:02:00Z: place 1 of journal, "
                    "the gate's file has card 5 in at 2 of 2025-01-06T08:02:00Z",
                    "order  number 3 card 5 in at 2 of 2025-01-06T08:03:00Z: place 3 of journal, behind number 4",
                    "twice  number 3 card 5 in at 2 of 2025-01-06T08:03:00Z: place 4 of journal, and place 3 of journal",
                    "more   number 60 card 5 in at 2 of 2025-01-06T09:00:00Z: place 5 of journal, "
                    "the gate's file has no such number",
                    *[f"lacks  number {number} card 5 in at 2 of 2025-01-06T08:0{number}:00Z: {NOWHERE}"
                      for number in (5, 6, 7)],
                    f"waits  number 8 card 5 in at 2 of 2025-01-06T08:08:00Z: {YET}"],
                   8, 6, 3)

    def test_other_bytes_behind_a_touch_are_no_difference(self) -> None:
        """A slot's bytes behind its touch aren't looked at (docs/reference/JOURNAL.md, "The format")."""
        self.gate(row([1, 2, 3]))
        content = layout.journal_of(row([1, 2, 3]), 1000, 10, DIGEST)
        (self.folder / "journal").write_bytes(content[:64 + 64 + 40] + b"\x99" + content[64 + 64 + 41:])
        self.check([], 3, 3, 3)

    def test_nothing_is_written(self) -> None:
        self.gate(row([1, 2, 3]))
        self.station(row([1, 3]))
        before = {file: (file.read_bytes(), file.stat().st_mtime_ns) for file in self.folder.iterdir()}
        for file in before:
            file.chmod(0o400)
        self.told()
        self.assertEqual({file: (file.read_bytes(), file.stat().st_mtime_ns) for file in self.folder.iterdir()}, before)


class Journals(FilesTest):
    """Several journals, full files, and those of the first format."""

    def test_a_journal_behind_a_full_one_goes_on(self) -> None:
        self.gate(row(range(1, 8)))
        self.station(row([1, 2, 3]), "old", capacity=3)
        carried = [codec.touch(codec.ISSUE, 65_535, 100_000, 5, EIGHT)]
        self.station(carried + row([4, 5, 6]), "new")
        self.check([f"waits  number 7 card 5 in at 2 of 2025-01-06T08:07:00Z: {YET}"],
                   7, 6, 6, journals=("old", "new"))
        # Named the other way round, the order is another; without the first, its touches lack.
        self.check(["order  number 1 card 5 in at 2 of 2025-01-06T08:01:00Z: place 0 of old, behind number 6",
                    f"waits  number 7 card 5 in at 2 of 2025-01-06T08:07:00Z: {YET}"],
                   7, 6, 6, journals=("new", "old"))
        self.check([f"lacks  number {number} card 5 in at 2 of 2025-01-06T08:0{number}:00Z: {NOWHERE}"
                    for number in (1, 2, 3)]
                   + [f"waits  number 7 card 5 in at 2 of 2025-01-06T08:07:00Z: {YET}"],
                   7, 3, 3, journals=("new",))

    def test_a_touch_that_the_new_journal_judged_anew_stands_twice(self) -> None:
        self.gate(row(range(1, 5)))
        self.station(row([1, 2, 3]), "old", capacity=3)
        self.station(row([3, 4]), "new")
        self.check(["twice  number 3 card 5 in at 2 of 2025-01-06T08:03:00Z: place 0 of new, and place 2 of old"],
                   4, 5, 4, journals=("old", "new"))

    def test_journals_of_one_name_are_told_apart_by_their_folders(self) -> None:
        self.gate(row([1, 2]))
        (self.folder / "after").mkdir()
        self.station(row([1, 2]), "after/journal")
        self.station(row([2]))
        self.check(["twice  number 2 card 5 in at 2 of 2025-01-06T08:02:00Z: place 0 of journal, and place 1 of "
                    "after/journal"], 2, 3, 2, journals=("after/journal", "journal"))

    def test_full_files_end_without_a_mark(self) -> None:
        self.gate(row([1, 2]), capacity=2)
        self.station(row([1, 2]), capacity=2)
        for name in ("gate", "journal"):
            file = self.folder / name
            file.write_bytes(file.read_bytes()[:-1])
        self.check([], 2, 2, 2)
        # What stands behind is none of it.
        for name in ("gate", "journal"):
            with open(self.folder / name, "ab") as writer:
                writer.write(b"\xa5" * 100)
        self.check([], 2, 2, 2)

    def test_a_journal_of_the_first_format(self) -> None:
        self.gate(row([1, 2, 3, 4]))
        self.station(row([1, 3, 4]), version=b"OYSTERJ1")
        self.check([f"lacks  number 2 card 5 in at 2 of 2025-01-06T08:02:00Z: {NOWHERE}"], 4, 3, 3)

    def test_generated_differences_are_counted(self) -> None:
        """Two gates' touches in pieces of some thousand, with planted differences of each kind: each is found, and
        nothing else."""
        draw = random.Random(71)
        count = 12_000
        frames = [entering(number, card=draw.randint(1, 9), station=draw.randint(1, 5)) for number in range(1, count + 1)]
        self.gate(frames, capacity=20_000)
        # Numbers far from one another, so that no difference meets another one.
        drawn = iter(draw.sample(range(20, count - 20, 20), 250))
        less, other, swapped, twice = ({next(drawn) for _ in range(size)} for size in (60, 70, 50, 70))
        kept: list[bytes] = []
        for number, frame in enumerate(frames, 1):
            if number in swapped:
                kept.insert(-1, frame)
            elif number in other:
                kept.append(entering(number, card=10))
            elif number not in less:
                kept += [frame, frame] if number in twice else [frame]
            kept += [entering(number, 8)] * draw.randint(0, 2)
        kept += row(range(count + 5, count + 45))
        # In the journal a swapped touch stands before its neighbour, which is then the one behind a higher number.
        self.station(kept, capacity=100_000)
        status, lines, last = self.told()
        found = {name: [int(line.split()[2]) for line in lines if line.startswith(name)] for name in CLEAN}
        self.assertEqual((status, found["lacks"], found["other"], found["twice"]), (
            1, sorted(less), sorted(other), sorted(twice)))
        self.assertEqual((found["more"], found["waits"]), (list(range(count + 5, count + 45)), []))
        self.assertEqual(last, f"gate 7, file {count}, journal {count - 60 + 70 + 40}, alike {count - 60 - 70}, other 70, "
                               f"more 40, order {len(found['order'])}, twice 70, lacks 60, waits 0, given-up 0")
        self.assertEqual(set(found["order"]), {number - 1 for number in swapped if self.is_swapped(kept, number)})

    @staticmethod
    def is_swapped(kept: Iterable[bytes], number: int) -> bool:
        """Whether a touch of gate 7 stands right before the one with the number below its own."""
        own = [struct.unpack(">I", frame[5:9])[0] for frame in kept if frame[3:5] == b"\0\7"]
        return own.index(number) < own.index(number - 1)


class Csv(FilesTest):
    """The findings as comma-separated values."""

    def test_rows_have_the_fields_of_a_history(self) -> None:
        frames = [entering(1), codec.touch(codec.TOP_UP, 7, 2, 5, 2000, EIGHT), codec.touch(codec.ISSUE, 7, 3, 9, EIGHT),
                  codec.touch(codec.REVISE, 7, 4, 0, DIGEST, -5, EIGHT), codec.touch(codec.LEAVE, 7, 5, 5, 1, EIGHT)]
        self.gate(frames)
        self.station([frames[0], entering(2), entering(9)])
        done = self.compare("--csv")
        self.assertEqual(done.returncode, 1)
        rows = list(csv.reader(io.StringIO(done.stdout, newline="")))
        self.assertEqual(rows[0], ["finding", "number", "card", "act", "station", "pence", "day", "moment", "journal",
                                   "place", "note"])
        at = "2025-01-06T08:00:00Z"
        self.assertEqual([each[:-1] for each in rows[1:]], [
            ["other", "2", "5", "in", "2", "", "", "2025-01-06T08:02:00Z", "journal", "1"],
            ["more", "9", "5", "in", "2", "", "", "2025-01-06T08:09:00Z", "journal", "2"],
            ["lacks", "3", "9", "issue", "", "", "", at, "", ""],
            ["lacks", "4", "", "revision", DIGEST.hex(), "", "-5", at, "", ""],
            ["waits", "5", "5", "out", "1", "", "", at, "", ""]])
        self.assertEqual(rows[1][-1], "the gate's file has card 5 top-up of 2000 of 2025-01-06T08:00:00Z")
        self.assertEqual(done.stderr, "gate 7, file 5, journal 3, alike 1, other 1, more 1, order 0, twice 0, lacks 2, "
                                      "waits 1, given-up 0\n")
        raw = subprocess.run([SCRIPT, "gate", "journal", "--csv"], capture_output=True, cwd=self.folder, timeout=TIME)
        self.assertEqual((raw.stdout.count(b"\r\n"), raw.stdout.count(b"\n")), (6, 6))


class Wrong(FilesTest):
    """Files that are none of these, and wrong command lines."""

    def refused(self, said: str, **more: Any) -> None:
        done = self.compare(**more)
        self.assertEqual((done.returncode, done.stdout, done.stderr), (2, "", f"compare-gate: {said}\n"))

    def test_a_file_that_is_no_gates(self) -> None:
        self.station(row([1]))
        whole = layout.journal_of(row([1, 2]), 10, 1, tag(7))
        for content, said in ((b"", "gate: this is no journal"), (b"\0" + whole[1:], "gate: this is no journal"),
                              (whole[:64], "gate: slot 0 is damaged: the file ends before its mark"),
                              (whole[:8] + b"3" + whole[9:], "gate: this is no journal"),
                              (layout.header_of(0, 1, tag(7)) + b"\0",
                               "gate: its header has a capacity of 0 and 1 cards, which can't be"),
                              (layout.header_of(10, 100_001, tag(7)) + b"\0",
                               "gate: its header has a capacity of 10 and 100001 cards, which can't be"),
                              (layout.journal_of([], 10, 1, DIGEST),
                               "gate: this is no gate's file; name that first, and then the journals"),
                              (layout.journal_of([], 10, 2, tag(7)),
                               "gate: this is no gate's file; name that first, and then the journals"),
                              (layout.journal_of([], 10, 1, tag(7, b"Bovtrila: the touches of gate ")),
                               "gate: a gate's file of an older library; change a copy over "
                               "(GATE_LIBRARY.md, \"To change an old file over\")")):
            with self.subTest(said):
                (self.folder / "gate").write_bytes(content)
                self.refused(said)

    def test_a_damaged_slot(self) -> None:
        whole = layout.journal_of(row(range(1, 6)), 10, 1, tag(7))
        third = 64 + 64 * 2
        cases = ((whole[:third + 1] + b"\5" + whole[third + 2:], "slot 2 is damaged: it has kind 5, which no touch has"),
                 (whole[:third + 1] + b"\0" + whole[third + 2:], "slot 2 is damaged: it has kind 0, which no touch has"),
                 (whole[:third + 20], "slot 2 is damaged: it is cut short"),
                 (whole[:third], "slot 2 is damaged: the file ends before its mark"))
        for content, said in cases:
            for name, other in (("gate", "journal"), ("journal", "gate")):
                with self.subTest(name=name, said=said):
                    self.gate(row(range(1, 6)), 10)
                    self.station(row(range(1, 6)))
                    if name == "journal":
                        content = content[:17] + DIGEST + content[49:]
                    (self.folder / name).write_bytes(content)
                    done = self.compare()
                    self.assertEqual((done.returncode, done.stderr), (2, f"compare-gate: {name}: {said}\n"))
                    self.assertNotIn("alike", done.stdout)
        # A revision doesn't fit a slot of the first format.
        self.station([codec.touch(codec.ISSUE, 8, 1, 1, EIGHT)] * 2, version=b"OYSTERJ1")
        file = self.folder / "journal"
        file.write_bytes(file.read_bytes()[:97] + b"\6" + file.read_bytes()[98:])
        self.refused("journal: slot 1 is damaged: it has kind 6, which no touch has")

    def test_a_slot_far_behind_is_named_by_its_place(self) -> None:
        frames = row(range(1, 9001))
        content = bytearray(layout.journal_of(frames, 10_000, 1, tag(7)))
        self.station(frames, capacity=10_000)
        content[64 + 64 * 8191 + 1] = 9
        (self.folder / "gate").write_bytes(content)
        self.refused("gate: slot 8191 is damaged: it has kind 9, which no touch has")

    def test_a_file_with_foreign_touches(self) -> None:
        self.station(row([1]))
        for frames, said in (([entering(0)], "slot 0 holds number 0 of gate 7, and has to hold number 1 of gate 7"),
                             (row([1, 2, 1]), "slot 2 holds number 1 of gate 7, and has to hold number 3 of gate 7"),
                             ([entering(1), entering(2, 8)],
                              "slot 1 holds number 2 of gate 8, and has to hold number 2 of gate 7")):
            with self.subTest(said):
                self.gate(frames)
                self.refused(f"gate: {said}")

    def test_journals_that_are_none(self) -> None:
        self.gate(row([1]))
        self.station(row([1]))
        self.refused("none: No such file or directory", journals=("none",))
        self.refused(".: Is a directory", journals=(".",))
        (self.folder / "empty").write_bytes(b"")
        self.refused("empty: this is no journal", journals=("journal", "empty"))
        self.refused("gate: this is a gate's file; name one of them, and behind it the station's journals",
                     journals=("journal", "gate"))
        self.refused("./journal: this is journal, which is named before it", journals=("journal", "./journal"))

    def test_a_wrong_command_line(self) -> None:
        self.gate(row([1]))
        self.station(row([1]))
        for words in ((), ("gate",), ("gate", "journal", "--most"), ("--csv",)):
            done = subprocess.run([SCRIPT, *words], capture_output=True, text=True, cwd=self.folder, timeout=TIME)
            self.assertEqual((done.returncode, done.stdout), (2, ""), words)
        said = subprocess.run([SCRIPT, "--help"], capture_output=True, text=True, timeout=TIME)
        self.assertEqual((said.returncode, said.stderr), (0, ""))
        self.assertEqual(len(re.findall(r"(?m)^    bovtrila-compare-gate .+ .+$", said.stdout)), 3)

    def test_output_that_nobody_takes(self) -> None:
        self.gate(row(range(1, 501)))
        self.station([])
        with open("/dev/full", "w", encoding="ascii") as full:
            done = subprocess.run([SCRIPT, "gate", "journal"], stdout=full, stderr=subprocess.PIPE, text=True,
                                  cwd=self.folder, timeout=TIME)
        self.assertEqual((done.returncode, done.stderr),
                         (2, "compare-gate: standard output: No space left on device; the lines aren't whole\n"))
        reading, writing = os.pipe()
        os.close(reading)
        with open(writing, "w", encoding="ascii") as gone:
            done = subprocess.run([SCRIPT, "gate", "journal"], stdout=gone, stderr=subprocess.PIPE, text=True,
                                  cwd=self.folder, timeout=TIME)
        self.assertEqual((done.returncode, done.stderr), (2, ""))


class Running(FilesTest):
    """A gate that goes on while it is compared."""

    def test_what_comes_meanwhile_is_no_difference(self) -> None:
        self.gate(row(range(1, 4)))
        file = compare_gate.GateFile(str(self.folder / "gate"))
        # The gate has its third answer, and three more; the fifth is answered when the journal is looked at.
        self.gate(row(range(1, 7)))
        self.station(row(range(1, 6)))
        told = compare_gate.Told(False)
        comparison = compare_gate.Comparison(file, [compare_gate.Journal(str(self.folder / "journal"))], told)
        self.assertFalse(comparison.run())
        self.assertEqual(comparison.counts(), "gate 7, file 5, journal 5, alike 5, other 0, more 0, order 0, twice 0, "
                                              "lacks 0, waits 0, given-up 0")

    def test_a_file_that_became_another_is_told(self) -> None:
        self.gate(row([1]))
        self.station(row([1]))
        file = compare_gate.GateFile(str(self.folder / "gate"))
        self.gate(row([1]), capacity=900)
        with self.assertRaisesRegex(wire.Wrong, "it is another file than before; compare copies"):
            compare_gate.Comparison(file, [], compare_gate.Told(False))


class Large(FilesTest):
    """A file of a million touches, within 100 MB of memory for all of Python."""

    MEMORY = 100_000_000

    def test_a_million_touches(self) -> None:
        count = 1_000_000
        slots = [layout.slot_of(entering(number, moment=EIGHT)) for number in range(1, count + 1)]
        head = layout.header_of(count, 1, tag(7))
        (self.folder / "gate").write_bytes(head + b"".join(slots))
        slots[400_000], slots[400_001] = slots[400_001], slots[400_000]
        slots[700_000] = layout.slot_of(entering(700_001, card=6, moment=EIGHT))
        del slots[999_990]
        (self.folder / "journal").write_bytes(layout.header_of(count, 10, DIGEST) + b"".join(slots) + b"\0")
        done = self.compare(preexec_fn=lambda: resource.setrlimit(resource.RLIMIT_AS, (self.MEMORY, self.MEMORY)))
        self.assertEqual((done.returncode, done.stderr), (1, ""))
        self.assertEqual([line.split()[:3] for line in done.stdout.split("\n")[:-2]],
                         [["order", "number", "400001"], ["other", "number", "700001"], ["lacks", "number", "999991"]])
        self.assertEqual(done.stdout.split("\n")[-2], "gate 7, file 1000000, journal 999999, alike 999998, other 1, more 0, "
                                                      "order 1, twice 0, lacks 1, waits 0, given-up 0")
