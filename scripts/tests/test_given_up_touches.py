"""Tests how bovtrila-compare-gate compares the file of a gate that gave touches up, without the program. The files are those
of scripts/tests/test_gate_files.py.

Expected lines were worked out by hand; of generated ones the counts are those that were planted.
"""
import csv
import io
import random
import unittest.mock

from bovtrila import codec
from bovtrila.commands import compare_gate
from test_gate_files import CLEAN, EIGHT, NOWHERE, YET, FilesTest, entering, row

# What the counts of no other finding are.
NONE = "other 0, more 0, order 0, twice 0, lacks 0, waits 0, given-up "
# How the line of number 2 begins.
SECOND = "given-up  number 2 card 5 in at 2 of 2025-01-06T08:02:00Z: "


class GivenUp(FilesTest):
    """The gate gave its second touch up, so that number 3 was never used, and went on."""

    def setUp(self) -> None:
        super().setUp()
        self.gate(row([1, 2, 2, 4, 5]))

    def test_it_may_lack(self) -> None:
        self.station(row([1, 4, 5]))
        self.check([SECOND + NOWHERE], 4, 3, 3)

    def test_it_may_stand_in_the_journal(self) -> None:
        self.station([entering(1, 8), *row([1, 2, 4, 5])])
        self.check([SECOND + "place 2 of journal, the gate gave it up"], 4, 4, 4)

    def test_it_may_be_recorded_after_later_ones(self) -> None:
        self.station(row([1, 4, 2, 5]))
        self.check([SECOND + "place 2 of journal, the gate gave it up"], 4, 4, 4)
        # The order of the others counts as ever.
        self.station(row([1, 5, 2, 4]))
        self.check([SECOND + "place 2 of journal, the gate gave it up",
                    "order  number 4 card 5 in at 2 of 2025-01-06T08:04:00Z: place 3 of journal, behind number 5"], 4, 4, 4)

    def test_another_touch_under_its_number(self) -> None:
        self.station([entering(1), entering(2, card=6), *row([4, 5])])
        self.check(["other  number 2 card 6 in at 2 of 2025-01-06T08:02:00Z: place 1 of journal, the gate's file has card 5 "
                    "in at 2 of 2025-01-06T08:02:00Z, given up"], 4, 4, 3)

    def test_the_number_behind_it_is_never_used(self) -> None:
        self.station(row([1, 2, 3, 4, 5]))
        self.check([SECOND + "place 1 of journal, the gate gave it up",
                    "more   number 3 card 5 in at 2 of 2025-01-06T08:03:00Z: place 2 of journal, the gate's file has no "
                    "such number"], 4, 5, 4)
        # The same touch as in both slots of the file is no touch of that number either.
        self.station(row([1, 2, 2, 4, 5]))
        self.check([SECOND + "place 1 of journal, the gate gave it up",
                    "twice  number 2 card 5 in at 2 of 2025-01-06T08:02:00Z: place 2 of journal, and place 1 of journal"],
                   4, 5, 4)

    def test_a_last_touch_that_is_given_up_does_not_wait(self) -> None:
        self.gate(row([1, 2, 2]))
        self.station(row([1]))
        self.check([SECOND + NOWHERE], 2, 1, 1)
        self.gate(row([1, 2, 2, 4]))
        self.check([SECOND + NOWHERE, f"waits  number 4 card 5 in at 2 of 2025-01-06T08:04:00Z: {YET}"], 3, 1, 1)
        self.gate(row([1, 1]), capacity=2)
        self.station([])
        self.check([f"given-up  number 1 card 5 in at 2 of 2025-01-06T08:01:00Z: {NOWHERE}"], 1, 0, 0)

    def test_among_other_findings(self) -> None:
        self.gate(row([1, 2, 2, 4, 5, 5, 7, 8]))
        self.station(row([1, 5, 8]))
        self.check(["given-up  number 5 card 5 in at 2 of 2025-01-06T08:05:00Z: place 1 of journal, the gate gave it up",
                    SECOND + NOWHERE, f"lacks  number 4 card 5 in at 2 of 2025-01-06T08:04:00Z: {NOWHERE}",
                    f"lacks  number 7 card 5 in at 2 of 2025-01-06T08:07:00Z: {NOWHERE}"], 6, 3, 3)

    def test_in_a_later_journal(self) -> None:
        self.station(row([1]), "old", capacity=1)
        self.station(row([4, 5]), "new")
        self.check([SECOND + NOWHERE], 4, 3, 3, journals=("old", "new"))
        self.station(row([1, 2]), "old", capacity=2)
        self.check([SECOND + "place 1 of old, the gate gave it up"], 4, 4, 4, journals=("old", "new"))

    def test_rows_of_values(self) -> None:
        for numbers, where in (([1, 4, 5], ["", "", NOWHERE]), ([1, 2, 4, 5], ["journal", "1", "the gate gave it up"])):
            self.station(row(numbers))
            done = self.compare("--csv")
            rows = list(csv.reader(io.StringIO(done.stdout, newline="")))
            self.assertEqual(rows[1:], [["given-up", "2", "5", "in", "2", "", "", "2025-01-06T08:02:00Z", *where]])
            self.assertEqual((done.returncode, done.stderr.split(", ")[-1]), (0, "given-up 1\n"))

    def test_what_gives_nothing_up(self) -> None:
        self.station(row([1]))
        revised = [codec.touch(codec.REVISE, 7, 2, 0, bytes(31) + bytes([last]), 20_458, EIGHT) for last in (0, 1)]
        for name, frames, place, number, gate in (
                ("twice", row([1, 2, 2, 2]), 3, 2, 7), ("before the first", row([0]), 0, 0, 7),
                ("an older one", row([1, 2, 1]), 2, 1, 7), ("a touch of the next number", row([1, 2, 2, 3]), 3, 3, 7),
                ("another card", [*row([1, 2]), entering(2, card=6)], 2, 2, 7),
                ("another station", [*row([1, 2]), entering(2, station=3)], 2, 2, 7),
                ("another moment", [*row([1, 2]), entering(2, moment=EIGHT)], 2, 2, 7),
                ("another act", [*row([1, 2]), codec.touch(codec.LEAVE, 7, 2, 5, 2, EIGHT + 120)], 2, 2, 7),
                ("another digest", [entering(1), *revised], 2, 2, 7),
                ("another gate", [*row([1, 2]), entering(2, 8)], 2, 2, 8)):
            with self.subTest(name):
                self.gate(frames)
                done = self.compare()
                self.assertEqual((done.returncode, done.stdout, done.stderr), (
                    2, "", f"compare-gate: gate: slot {place} holds number {number} of gate {gate}, and has to hold number "
                           f"{place + 1} of gate 7\n"))

    def test_bytes_behind_the_touch_are_no_difference(self) -> None:
        file = self.folder / "gate"
        content = file.read_bytes()
        file.write_bytes(content[:64 + 3 * 64 - 1] + b"\x99" + content[64 + 3 * 64:])
        self.station(row([1, 4, 5]))
        self.check([SECOND + NOWHERE], 4, 3, 3)


class Long(FilesTest):
    """Files that are read in several pieces, and files that grow meanwhile."""

    def test_where_a_piece_begins(self) -> None:
        for last in (4095, 4096, 4097, 8192):
            numbers = [*range(1, last + 1), *range(last + 2, last + 100)]
            with self.subTest(last):
                self.gate(row([*numbers[:last], last, *numbers[last:]]), capacity=10_000)
                self.station(row(numbers), capacity=10_000)
                status, lines, counts = self.told()
                self.assertEqual((status, [line.split()[:3] for line in lines]), (0, [["given-up", "number", str(last)]]))
                self.assertEqual(counts, f"gate 7, file {last + 98}, journal {last + 98}, alike {last + 98}, {NONE}1")
                self.gate(row([*numbers[:last], last, last]), capacity=10_000)
                self.assertIn(f"slot {last + 1} holds number {last}", self.compare().stderr)

    def test_generated_ones_are_counted(self) -> None:
        draw = random.Random(72)
        slots: list[bytes] = []
        given_up, recorded, lacking = [], [], []
        while len(slots) < 20_000:
            number = len(slots) + 1
            slots.append(entering(number, card=draw.randint(1, 9)))
            if draw.random() < 0.02:
                given_up.append(number)
                slots.append(slots[-1])
            elif draw.random() < 0.01:
                lacking.append(number)
        slots.append(entering(len(slots) + 1))
        self.gate(slots, capacity=30_000)
        kept: list[bytes] = []
        for before, frame in zip([b"", *slots], slots):
            number = int.from_bytes(frame[5:9], "big")
            if frame != before and number not in lacking and (number not in given_up or draw.random() < 0.5):
                recorded += [number] if number in given_up else []
                kept += [frame, *[entering(number, 8)] * draw.randint(0, 2)]
        self.station(kept, capacity=100_000)
        status, lines, counts = self.told()
        found = {name: [int(line.split()[2]) for line in lines if line.startswith(name)] for name in CLEAN}
        wanted = recorded + [number for number in given_up if number not in recorded]
        self.assertEqual((status, found), (1, {**{name: [] for name in CLEAN}, "lacks": lacking, "given-up": wanted}))
        touches = len(slots) - len(given_up)
        alike = touches - len(lacking) - len(given_up) + len(recorded)
        nothing = NONE.replace("lacks 0", f"lacks {len(lacking)}")
        self.assertEqual(counts, f"gate 7, file {touches}, journal {alike}, alike {alike}, {nothing}{len(given_up)}")
        self.assertGreater(min(len(recorded), len(given_up) - len(recorded), len(lacking)), 50)

    def test_a_touch_that_is_given_up_meanwhile(self) -> None:
        for later, journal, counts in (([1, 2, 2], [1], "file 2, journal 1, alike 1"),
                                       ([1, 2, 2, 4, 5, 5], [1, 4], "file 3, journal 2, alike 2")):
            with self.subTest(later):
                self.gate(row([1, 2]))
                file = compare_gate.GateFile(str(self.folder / "gate"))
                self.gate(row(later))
                self.station(row(journal))
                comparison = compare_gate.Comparison(file, [compare_gate.Journal(str(self.folder / "journal"))],
                                                     compare_gate.Told(False))
                with unittest.mock.patch("sys.stdout", io.StringIO()) as said:
                    self.assertFalse(comparison.run())
                self.assertEqual(said.getvalue(), SECOND + NOWHERE + "\n")
                self.assertEqual(comparison.counts(), f"gate 7, {counts}, {NONE}1")
