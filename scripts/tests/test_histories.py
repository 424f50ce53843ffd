"""Tests the commands history and balances of the built program: worked rows, journals that are generated from
the requests of scripts/tests/test_compare_model.py and judged by bovtrila.model, damaged journals, and the journal of a
running server.
"""
import csv
import datetime
import io
import os
import pathlib
import random
import shutil
import signal
import struct
import subprocess
import tempfile
import threading
from collections.abc import Iterable, Sequence
from typing import Any

import harness
import test_compare_model
from bovtrila import codec, layout, model
from harness import EXAMPLE, PROGRAM, REVISED, TIME, run_whole
from running import Server

TABLE, OTHER = model.Table(EXAMPLE.read_text()), model.Table(REVISED.read_text())
FOUR = [bytes.fromhex(line) for line in (harness.CRATES / "tap_server" / "stdin").read_text().split()]
HEADING = "place,moment,day,gate,number,card,act,station,pence,verdict,change,balance"
STATEMENT = "card,state,balance,paid_in,charged"
EPOCH = datetime.datetime(1970, 1, 1)
# Midnight of the first example's day, Monday 2025-01-06.
MONDAY = 1736121600
# A user who is refused what root is not.
NOBODY = 65534


def date_of(day: int) -> str:
    """What is printed of a day: its date, or its number where Python's calendar has none."""
    try:
        return str(EPOCH.date() + datetime.timedelta(days=day))
    except OverflowError:
        return str(day)


def row_of(place: int, frame: bytes, answer: bytes, schedule: model.Schedule) -> str:
    """The row of a touch with its answer, by the fare days of a model's schedule."""
    kind, gate, number, card, *act = struct.unpack(codec.FORMS[frame[2]], frame[2:])
    verdict, change, balance = struct.unpack(">Biq", answer[9:])
    day = act[1] if kind == codec.REVISE else schedule.stamp(act[-1]).day
    station = {codec.ENTER: act[0], codec.LEAVE: act[0]}.get(kind, "")
    if kind == codec.REVISE:
        station = act[0].hex()
    moment = (EPOCH + datetime.timedelta(seconds=act[-1])).isoformat() + "Z"
    pence = act[0] if kind == codec.TOP_UP else ""
    card = "" if kind == codec.REVISE else card
    return ",".join(map(str, (place, moment, date_of(day), gate, number, card, codec.ACTS[kind], station, pence,
                              model.VERDICTS[verdict], change, balance)))


def answer_of(station: model.Station, frame: bytes) -> bytes:
    """The answer that a model's station gave to a touch of its history."""
    gate, number = struct.unpack(">HI", frame[3:9])
    return station.named[gate, number][1]


def csv_of(heading: str, rows: Iterable[str]) -> bytes:
    """The text of rows below their heading, each ended by carriage return and line feed."""
    return "".join(row + "\r\n" for row in [heading, *rows]).encode()


def statement_of(station: model.Station) -> tuple[list[str], str]:
    """The rows of the issued cards of a model's station, by its answers alone, and the sums."""
    paid: dict[int, int] = {}
    charged: dict[int, int] = {}
    held: dict[int, int] = {}
    state: dict[int, str] = {}
    for frame in station.history:
        kind, _, _, card, *act = struct.unpack(codec.FORMS[frame[2]], frame[2:])
        verdict, change, balance = struct.unpack(">Biq", answer_of(station, frame)[9:])
        if kind == codec.REVISE or verdict >= 20:
            continue
        held[card] = balance
        if kind == codec.ISSUE:
            paid[card], charged[card], state[card] = 0, 0, "outside"
        elif kind == codec.TOP_UP:
            paid[card] += act[0]
        else:
            charged[card] -= change
            state[card] = "inside" if kind == codec.ENTER else "outside"
    rows = [f"{card},{state[card]},{held[card]},{paid[card]},{charged[card]}" for card in sorted(paid)]
    return rows, (f"cards {len(rows)}\nbalance {sum(held.values())}\npaid_in {sum(paid.values())}\n"
                  f"charged {sum(charged.values())}\nbalanced\n")


class Reading(harness.ProgramTest):
    """Each test has a folder of its own, with a journal in it."""

    def setUp(self) -> None:
        room = tempfile.TemporaryDirectory(prefix="histories-")
        self.addCleanup(room.cleanup)
        self.folder = pathlib.Path(room.name)
        self.journal = self.folder / "station.journal"

    def write(self, frames: Sequence[bytes], cards: int = 10, version: bytes = layout.VERSION,
              table: model.Table = TABLE) -> None:
        """Makes the journal of these frames."""
        self.journal.write_bytes(layout.journal_of(frames, len(frames) + 5, cards, table.digest, version))

    def ask(self, command: str, *more: object, table: object = EXAMPLE, journal: pathlib.Path | str | None = None,
            **options: Any) -> harness.Ran:
        """Status, standard output and standard error of a command on the journal, which stays as it is."""
        before = self.journal.read_bytes() if self.journal.is_file() else None
        words = [command, "--table", table, "--journal", journal or self.journal, *more]
        said = run_whole([str(word) for word in words], **options)
        if before is not None:
            self.assertEqual(self.journal.read_bytes(), before)
        return said

    def refused(self, command: str, *more: object, **options: Any) -> str:
        """The fault of a command that writes nothing, without the line behind it (scripts/tests/test_told_faults.py)."""
        status, out, err = self.ask(command, *more, **options)
        self.assertEqual((status, out), (1, b""))
        return harness.fault_of(err)

    def told(self, rows: Iterable[str], *more: object) -> None:
        """The history has these rows."""
        self.assertEqual(self.ask("history", *more), (0, csv_of(HEADING, rows), ""))


class History(Reading):
    """The command history."""

    def test_the_first_example(self) -> None:
        rows = ["0,2025-01-06T07:50:00Z,2025-01-06,7,1,1,issue,,,Issued,0,0",
                "1,2025-01-06T07:55:00Z,2025-01-06,7,2,1,top-up,,2000,ToppedUp,2000,2000",
                "2,2025-01-06T08:00:00Z,2025-01-06,7,3,1,in,2,,Entered,-900,1100",
                "3,2025-01-06T08:25:00Z,2025-01-06,7,4,1,out,1,,Exited,550,1650"]
        for version in layout.SLOTS:
            for count in range(5):
                with self.subTest(version, touches=count):
                    self.write(FOUR[:count], version=version)
                    self.told(rows[:count])
                    said = self.ask("history", "--format", "frames")
                    self.assertEqual(said, (0, harness.lines(frame.hex() for frame in FOUR[:count]), ""))

    def test_each_verdict(self) -> None:
        """Worked by hand from the rows of docs/reference/FARES.md, "Worked examples"."""
        touches: list[bytes] = []
        rows: list[str] = []

        def at(hour: int, minute: int = 0, second: int = 0) -> int:
            return MONDAY + 3600 * hour + 60 * minute + second

        def add(card: int, kind: int, act: tuple[int, ...], moment: int, *reply: str | int, station: int | str = "",
                pence: int | str = "", day: str = "2025-01-06") -> None:
            place = len(rows)
            touches.append(codec.touch(kind, 3, 100 + place, card, *act, moment))
            time = (EPOCH + datetime.timedelta(seconds=moment)).strftime("%Y-%m-%dT%H:%M:%SZ")
            rows.append(f"{place},{time},{day},3,{100 + place},{card},{codec.ACTS[kind]},{station},{pence},"
                        f"{reply[0]},{reply[1]},{reply[2]}")

        def travel(card: int, kind: int, station: int, moment: int, *reply: str | int) -> None:
            add(card, kind, (station,), moment, *reply, station=station)

        def pay(card: int, pence: int, moment: int, *reply: str | int) -> None:
            add(card, codec.TOP_UP, (pence,), moment, *reply, pence=pence)

        travel(1, codec.ENTER, 9, at(7), "UnknownCard", 0, 0)
        add(1, codec.ISSUE, (), at(7), "Issued", 0, 0)
        add(1, codec.ISSUE, (), at(7), "AlreadyIssued", 0, 0)
        pay(1, 9001, at(7), "OverLimit", 0, 0)
        pay(1, 50_001, at(7), "BadAmount", 0, 0)
        travel(1, codec.ENTER, 2, at(7), "LowBalance", 0, 0)
        pay(1, 2000, at(7), "ToppedUp", 2000, 2000)
        travel(1, codec.ENTER, 9, at(7), "UnknownStation", 0, 2000)
        travel(1, codec.ENTER, 2, at(8), "Entered", -900, 1100)
        travel(1, codec.LEAVE, 1, at(8, 25), "Exited", 550, 1650)
        travel(1, codec.ENTER, 4, at(8, 33), "EnteredContinued", -900, 750)
        travel(1, codec.LEAVE, 3, at(9), "Exited", 1010, 1760)
        travel(1, codec.LEAVE, 3, at(8, 59), "Backwards", 0, 1760)
        add(2, codec.ISSUE, (), at(7), "Issued", 0, 0)
        pay(2, 2000, at(7), "ToppedUp", 2000, 2000)
        travel(2, codec.ENTER, 2, at(8), "Entered", -900, 1100)
        travel(2, codec.ENTER, 2, at(8, 10), "EnteredOverOpen", -900, 200)
        travel(2, codec.LEAVE, 1, at(8, 30), "Exited", 550, 750)
        add(3, codec.ISSUE, (), at(7), "Issued", 0, 0)
        pay(3, 2000, at(7), "ToppedUp", 2000, 2000)
        travel(3, codec.LEAVE, 1, at(8), "ExitedUnstarted", -900, 1100)
        add(4, codec.ISSUE, (), at(7), "Issued", 0, 0)
        pay(4, 2000, at(7), "ToppedUp", 2000, 2000)
        travel(4, codec.ENTER, 2, at(8), "Entered", -900, 1100)
        travel(4, codec.LEAVE, 1, at(9, 30, 1), "ExitedLate", -700, 400)
        self.write(touches)
        self.told(rows)
        # All but those of revisions, which have a test of their own.
        self.assertEqual(set(model.VERDICTS.values()) - {row.split(",")[9] for row in rows}, {"Revised", "BadDay"})
        # What the rows come to, worked by hand too: of what was paid in, card 1 has spent the 240 of one journey from 2
        # to 3, card 2 a maximum and 350, card 3 a maximum, and card 4 both maxima.
        statement = ["1,outside,1760,2000,240", "2,outside,750,2000,1250", "3,outside,1100,2000,900",
                     "4,outside,400,2000,1600"]
        self.assertEqual(self.ask("balances"), (0, csv_of(STATEMENT, statement),
                                                "cards 4\nbalance 4010\npaid_in 8000\ncharged 3990\nbalanced\n"))

        # After midnight and before 04:30 the fare day is the one before.
        with self.subTest("the fare day"):
            touches, rows = [], []
            add(5, codec.ISSUE, (), at(24 + 4, 29, 59), "Issued", 0, 0)
            add(6, codec.ISSUE, (), at(24 + 4, 30), "Issued", 0, 0, day="2025-01-07")
            self.write(touches)
            self.told(rows)

    def test_a_revision(self) -> None:
        """A revision is told with the day from which its table counts, its digest and its moment. It is of no card: the
        number that stands in its frame isn't told in its row."""
        digest = OTHER.digest
        touches = [*FOUR, codec.touch(codec.REVISE, 9, 1, 5, digest, 20095, 0),
                   codec.touch(codec.REVISE, 9, 2, 0, TABLE.digest, 20095, 2**32 - 1),
                   codec.touch(codec.REVISE, 9, 3, 0, digest, 2**31 - 1, 1)]
        self.write(touches)
        rows = [f"4,1970-01-01T00:00:00Z,2025-01-07,9,1,,revision,{digest.hex()},,Revised,0,0",
                f"5,2106-02-07T06:28:15Z,2025-01-07,9,2,,revision,{TABLE.digest.hex()},,BadDay,0,0",
                f"6,1970-01-01T00:00:01Z,2147483647,9,3,,revision,{digest.hex()},,Revised,0,0"]
        status, out, err = self.ask("history", REVISED)
        self.assertEqual((status, err), (0, ""))
        self.assertEqual(out.decode().split("\r\n")[5:], [*rows, ""])
        self.assertEqual(self.ask("history", REVISED, "--day", "2025-01-07"), (0, csv_of(HEADING, rows[:2]), ""))
        self.assertEqual(self.ask("history", REVISED, "--card", 5), (0, csv_of(HEADING, []), ""))
        self.assertEqual(self.refused("history"), "fault journal 13 MissingTable 4\n")

    def test_a_day_of_new_fares(self) -> None:
        """Worked by hand from docs/reference/FARES.md, "Revision": the first table's 700 and 290 count for a journey that
        begins before 04:30, and the revised table's 1000 and 380 for one that begins on the day from which it counts."""
        digest = "96cc50b0396b0e933971ad2464a508f630c6463f90c322da8393bcc1a546a9be"
        tuesday = MONDAY + 86_400
        revising = [codec.touch(codec.REVISE, 7, number, 0, bytes.fromhex(digest), day, MONDAY + 28_800)
                    for number, day in ((5, 20094), (6, 20095))]
        travel = [codec.touch(kind, 7, number, 1, station, tuesday + 60 * minute)
                  for kind, number, station, minute in ((codec.ENTER, 7, 2, 265), (codec.LEAVE, 8, 1, 290),
                                                        (codec.ENTER, 9, 2, 480), (codec.LEAVE, 10, 1, 505))]
        rows = [f"4,2025-01-06T08:00:00Z,2025-01-06,7,5,,revision,{digest},,BadDay,0,0",
                f"5,2025-01-06T08:00:00Z,2025-01-07,7,6,,revision,{digest},,Revised,0,0",
                "6,2025-01-07T04:25:00Z,2025-01-06,7,7,1,in,2,,Entered,-700,950",
                "7,2025-01-07T04:50:00Z,2025-01-07,7,8,1,out,1,,Exited,410,1360",
                "8,2025-01-07T08:00:00Z,2025-01-07,7,9,1,in,2,,Entered,-1000,360",
                "9,2025-01-07T08:25:00Z,2025-01-07,7,10,1,out,1,,Exited,620,980"]
        self.write([*FOUR, *revising, *travel])
        status, out, err = self.ask("history", REVISED)
        self.assertEqual((status, out.decode().split("\r\n")[5:], err), (0, [*rows, ""], ""))
        self.assertEqual(self.ask("history", REVISED, "--day", "2025-01-07"),
                         (0, csv_of(HEADING, [rows[1], *rows[3:]]), ""))
        # The first example's 350 is spent before, then the maximum of a card that is inside, and then each fare.
        for place, row, held, charged in ((6, "1,outside,1650,2000,350", 1650, 350),
                                          (7, "1,inside,950,2000,1050", 950, 1050),
                                          (8, "1,outside,1360,2000,640", 1360, 640),
                                          (9, "1,inside,360,2000,1640", 360, 1640),
                                          (10, "1,outside,980,2000,1020", 980, 1020)):
            with self.subTest(place=place):
                said = self.ask("balances", REVISED, "--at", place)
                sums = f"cards 1\nbalance {held}\npaid_in 2000\ncharged {charged}\nbalanced\n"
                self.assertEqual(said, (0, csv_of(STATEMENT, [row]), sums))

    def test_a_card_and_a_day(self) -> None:
        station = model.Station(TABLE, 5)
        requests = test_compare_model.Requests(5, TABLE, 5)
        while len(station.history) < 300:
            station.answer(requests.next())
        self.write(station.history, cards=5)
        rows = self.rows_of(station)
        self.told(rows)
        # Number and day stand in the fields that the heading names.
        fields = HEADING.split(",")
        card, day = fields.index("card"), fields.index("day")
        days = {row.split(",")[day] for row in rows}
        for number in range(1, 6):
            mine = [row for row in rows if row.split(",")[card] == str(number)]
            self.assertTrue(mine)
            self.told(mine, "--card", number)
            for date in days:
                self.told([row for row in mine if row.split(",")[day] == date], "--card", number, "--day", date)
        self.told([], "--day", "2030-01-01")

    def rows_of(self, station: model.Station) -> list[str]:
        """The rows of a model's whole history."""
        return [row_of(place, frame, answer_of(station, frame), station.schedule)
                for place, frame in enumerate(station.history)]

    def generated(self, count: int) -> tuple[model.Station, list[pathlib.Path]]:
        """A station that has taken so many requests, with revisions, its journal, and the files of its tables."""
        texts = test_compare_model.revised(EXAMPLE.read_text(), test_compare_model.CHANGES)
        random.Random(21).shuffle(texts)
        texts = [EXAMPLE.read_text(), *texts[1:]]
        files = [self.folder / f"table{number}.toml" for number in range(len(texts))]
        for file, text in zip(files, texts):
            file.write_text(text)
        tables = [model.Table(text) for text in texts]
        station = model.Station(tables[0], 4000, supplied=tables[1:])
        requests = test_compare_model.Revising(21, tables, 4000, count)
        for _ in range(count):
            station.answer(requests.next())
        self.write(station.history, cards=4000)
        return station, files

    def test_a_generated_journal_with_revisions(self) -> None:
        station, files = self.generated(100_000)
        rows = self.rows_of(station)
        self.assertGreater(len(rows), 85_000)
        self.assertEqual(set(model.VERDICTS.values()), {row.split(",")[9] for row in rows})
        said = self.ask("history", *files[1:], table=files[0])
        self.assertEqual((said[0], said[2]), (0, ""))
        self.assertEqual(list(csv.reader(io.StringIO(said[1].decode(), newline="")))[1:], [row.split(",") for row in rows])
        self.assertEqual(said[1], csv_of(HEADING, rows))

        # The frames, put through replay, come to the same replies.
        with self.subTest("frames"):
            words: list[str | pathlib.Path] = [PROGRAM, "history", "--format", "frames", "--journal", self.journal,
                                               "--table", *files]
            first = subprocess.Popen(words, stdout=subprocess.PIPE)
            second = subprocess.run([PROGRAM, "replay", "--cards", "4000", "--table", *files], stdin=first.stdout,
                                    capture_output=True, timeout=TIME)
            self.assertEqual((first.wait(TIME), second.returncode, second.stderr), (0, 0, b""))
            wanted = (answer_of(station, frame).hex() for frame in station.history)
            self.assertEqual(second.stdout, harness.lines(wanted))

        with self.subTest("balances"):
            rows, sums = statement_of(station)
            said = self.ask("balances", *files[1:], table=files[0])
            self.assertEqual(said, (0, csv_of(STATEMENT, rows), sums))
            for row in rows:
                number, state, balance, _, _ = row.split(",")
                held = station.cards[int(number)]
                self.assertEqual((("vacant", "outside", "inside")[held.state()], held.balance()), (state, int(balance)))

    def issued(self) -> None:
        """A journal whose history and balances don't fit into a pipe."""
        self.write([codec.touch(codec.ISSUE, 1, number, number, MONDAY) for number in range(1, 5001)], cards=5000)

    def test_a_full_disk_is_told_with_the_reason(self) -> None:
        self.issued()
        for command in ("history", "balances"):
            words: list[str | pathlib.Path] = [PROGRAM, command, "--table", EXAMPLE, "--journal", self.journal]
            with self.subTest(command), open("/dev/full", "w") as full:
                done = subprocess.run(words, stdout=full, stderr=subprocess.PIPE, timeout=TIME)
                self.assertEqual((done.returncode, done.stderr),
                                 (1, b"fault run 3 Write\n  standard output: no room on the disk\n"))

    def test_what_is_written_goes_into_a_pipe_that_ends(self) -> None:
        """As the shell's own tools, which SIGPIPE ends: no line, and the status that the shell has for that."""
        self.issued()
        for command in ("history", "balances"):
            words: list[str | pathlib.Path] = [PROGRAM, command, "--table", EXAMPLE, "--journal", self.journal]
            with self.subTest(command):
                running = subprocess.Popen(words, stdout=subprocess.PIPE, stderr=subprocess.PIPE)
                assert running.stdout and running.stderr, "pipes"
                self.addCleanup(running.stderr.close)
                heading = running.stdout.readline()
                running.stdout.close()
                self.assertEqual((running.wait(TIME), running.stderr.read()), (128 + signal.SIGPIPE, b""))
                self.assertIn(heading.decode(), (f"{HEADING}\r\n", f"{STATEMENT}\r\n"))


class Cards(Reading):
    """The card that a history is asked for."""

    def test_a_card_above_those_of_the_journal_is_a_fault(self) -> None:
        self.write(FOUR)
        self.assertEqual(self.ask("history", "--card", 10), (0, csv_of(HEADING, []), ""))
        for more in ((), ("--day", "2025-01-06"), ("--format", "frames")):
            for card in (11, 100_000):
                with self.subTest(card=card, more=more):
                    said = self.ask("history", "--card", card, *more)
                    self.assertEqual(said, (1, b"", f"fault card {card} above 10\n"))
        # The journal's own faults come before it.
        self.write([*FOUR, FOUR[0]])
        self.assertEqual(self.refused("history", "--card", 11), "fault journal 7 Damaged 4\n")


class Balances(Reading):
    """The command balances."""

    def test_sums_that_are_not_taken_end_it_with_a_fault(self) -> None:
        self.write(FOUR)
        words: list[str | pathlib.Path] = [PROGRAM, "balances", "--table", EXAMPLE, "--journal", self.journal]
        rows = csv_of(STATEMENT, ["1,outside,1650,2000,350"])
        with open("/dev/full", "w") as full:
            done = subprocess.run(words, stdout=subprocess.PIPE, stderr=full, timeout=TIME)
        self.assertEqual((done.returncode, done.stdout), (1, rows))
        # Where it takes some, what is missing is told behind them.
        limited: list[str | pathlib.Path] = ["prlimit", "--fsize=16", "--", *words]
        if not shutil.which("prlimit"):
            self.skipTest("not run: there is no prlimit")
        with open(self.folder / "sums", "w") as sums:
            done = subprocess.run(limited, stdout=subprocess.PIPE, stderr=sums, timeout=TIME)
        self.assertNotEqual(done.returncode, 0)
        self.assertNotIn("balanced", (self.folder / "sums").read_text())

    def test_each_place_of_the_first_example(self) -> None:
        rows: list[list[str]] = [[], ["1,outside,0,0,0"], ["1,outside,2000,2000,0"], ["1,inside,1100,2000,900"],
                                 ["1,outside,1650,2000,350"]]
        sums = ["cards 0\nbalance 0\npaid_in 0\ncharged 0\nbalanced\n",
                "cards 1\nbalance 0\npaid_in 0\ncharged 0\nbalanced\n",
                "cards 1\nbalance 2000\npaid_in 2000\ncharged 0\nbalanced\n",
                "cards 1\nbalance 1100\npaid_in 2000\ncharged 900\nbalanced\n",
                "cards 1\nbalance 1650\npaid_in 2000\ncharged 350\nbalanced\n"]
        for version in layout.SLOTS:
            self.write(FOUR, version=version)
            for place in range(5):
                with self.subTest(version, place=place):
                    said = self.ask("balances", "--at", place)
                    self.assertEqual(said, (0, csv_of(STATEMENT, rows[place]), sums[place]))
            self.assertEqual(self.ask("balances"), (0, csv_of(STATEMENT, rows[4]), sums[4]))
            self.assertEqual(self.ask("balances", "--at", 5), (1, b"", "fault place 4\n"))
            self.assertEqual(self.ask("balances", "--at", 1_000_000), (1, b"", "fault place 4\n"))

    def test_a_debt_is_told(self) -> None:
        """The row of docs/reference/FARES.md with 190 pence on the card, that goes in at 2."""
        touches = [codec.touch(codec.ISSUE, 1, 1, 3, MONDAY), codec.touch(codec.TOP_UP, 1, 2, 3, 190, MONDAY),
                   codec.touch(codec.TOP_UP, 1, 3, 3, 0, MONDAY), codec.touch(codec.ENTER, 1, 4, 3, 2, MONDAY + 28_800),
                   codec.touch(codec.ISSUE, 1, 5, 2, MONDAY)]
        self.write(touches)
        self.assertEqual(self.ask("balances"), (0, csv_of(STATEMENT, ["2,outside,0,0,0", "3,inside,-710,190,900"]),
                                                "cards 2\nbalance -710\npaid_in 190\ncharged 900\nbalanced\n"))

    def test_touches_behind_the_place_are_not_looked_at(self) -> None:
        self.write([*FOUR, codec.touch(codec.REVISE, 9, 1, 0, bytes(32), 20095, 0)])
        self.assertEqual(self.refused("balances"), "fault journal 13 MissingTable 4\n")
        said = self.ask("balances", "--at", 4)
        self.assertEqual(said[:2], (0, csv_of(STATEMENT, ["1,outside,1650,2000,350"])))


class Files(Reading):
    """Journals that are damaged or in use, and command lines."""

    def test_open_slots_behind_the_end_are_noted(self) -> None:
        """What is read are the touches before the end. Where more slots behind it are open than crashes leave, others that
        were answered may be lost."""
        touches = [codec.touch(codec.ISSUE, 1, number, number, MONDAY) for number in range(1, 8)]
        for version, size in layout.SLOTS.items():
            for behind, note in ((2, ""), (3, "note: 3 open slots behind the end: verify ends with status 3\n"),
                                 (6, "note: 6 open slots behind the end: verify ends with status 3\n")):
                content = bytearray(layout.journal_of(touches[:behind + 1], 12, 10, TABLE.digest, version))
                # The mark of the first touch is lost: those behind it are no touches any more.
                content[layout.HEADER] = 0
                self.journal.write_bytes(content)
                with self.subTest(version, behind=behind):
                    self.assertEqual(self.ask("history"), (0, csv_of(HEADING, []), note))
                    self.assertEqual(self.ask("balances"), (0, csv_of(STATEMENT, []), f"{note}cards 0\nbalance 0\n"
                                                            "paid_in 0\ncharged 0\nbalanced\n"))
                    self.assertEqual(self.ask("verify")[0], 3 if note else 0)
        # A fault has its own line alone.
        self.assertEqual(self.refused("history", table=REVISED), "fault journal 5 WrongTable\n")
        self.assertEqual(self.ask("history", "--card", 11), (1, b"", "fault card 11 above 10\n"))

    def test_each_changed_byte_is_told_as_verify_tells_it(self) -> None:
        content = layout.journal_of(FOUR[:2], 5, 10, TABLE.digest)
        cuts = [content[:size] for size in range(len(content))]
        changed = [content[:place] + bytes([byte]) + content[place + 1:] for place in range(len(content))
                   for byte in {0x00, 0xff, 0xa5, content[place] ^ 1} - {content[place]}]
        sound = 0
        for each in cuts + changed:
            self.journal.write_bytes(each)
            status, _, told = self.ask("verify")
            for command in ("history", "balances"):
                got, out, err = self.ask(command)
                self.assertEqual(got, status)
                if status:
                    self.assertEqual((out, err), (b"", told))
            sound += status == 0
        self.assertGreater(sound, 0)

    def test_a_file_that_may_not_be_written_is_read(self) -> None:
        self.write(FOUR)
        self.journal.chmod(0o444)
        self.assertEqual(self.ask("history")[0], 0)
        if os.geteuid() == 0:
            # A user who may not write the file has to reach the program and the table too.
            self.folder.chmod(0o755)
            program, table = self.folder / "program", self.folder / "table"
            shutil.copy(PROGRAM, program)
            shutil.copy(EXAMPLE, table)
            for command in ("history", "balances"):
                words: list[str | pathlib.Path] = [program, command, "--table", table, "--journal", self.journal]
                done = subprocess.run(words, capture_output=True, timeout=TIME, user=NOBODY, group=NOBODY, extra_groups=[])
                self.assertEqual((done.returncode, done.stdout), self.ask(command)[:2])

    def test_the_journal_of_a_running_server_is_read(self) -> None:
        server = Server(self.folder)
        self.addCleanup(server.kill)
        with server.connect() as gate:
            for count, frame in enumerate(FOUR, 1):
                gate.ask(frame)
                status, out, _ = self.ask("history", "--format", "frames", journal=server.journal)
                self.assertEqual((status, out), (0, harness.lines(sent.hex() for sent in FOUR[:count])))
                copy = self.folder / "copy"
                shutil.copy(server.journal, copy)
                self.assertEqual(self.ask("balances", journal=copy)[:2], self.ask("balances", journal=server.journal)[:2])
        ended, said, _ = server.end()
        self.assertEqual((ended, said[-1]), (0, "closed 4"))

    def test_a_copy_that_is_taken_under_load_is_read(self) -> None:
        """Each copy holds all touches that were answered before it was begun, and maybe later ones. Where its later bytes
        were copied long after its first ones, it has open slots behind its end, which are told."""
        frames = [codec.touch(codec.ISSUE, 1, number, number, MONDAY) for number in range(1, 8001)]
        server = Server(self.folder, cards=8000, capacity=8000)
        self.addCleanup(server.kill)
        answered: list[bytes] = []
        seen: list[int] = []

        def send() -> None:
            with server.connect() as gate:
                for place, frame in enumerate(frames):
                    # However fast the server is beside what reads the copies, one is read at each thousand touches.
                    if place % 1000 == 999:
                        had = len(seen)
                        harness.until(lambda: len(seen) > had)
                    answered.append(gate.ask(frame))

        sender = threading.Thread(target=send)
        sender.start()
        copy = self.folder / "copy"
        while sender.is_alive():
            least = len(answered)
            shutil.copy(server.journal, copy)
            status, out, err = self.ask("history", "--format", "frames", journal=copy)
            self.assertEqual(status, 0)
            self.assertRegex(err, r"\A(note: \d+ open slots behind the end: verify ends with status 3\n)?\Z")
            found = out.decode().split("\n")[:-1]
            self.assertEqual(found, [frame.hex() for frame in frames[:len(found)]])
            self.assertGreaterEqual(len(found), least)
            self.assertEqual(run_whole(["verify", "--journal", str(copy)])[0], 3 if err else 0)
            seen.append(len(found))
        sender.join(TIME)
        self.assertEqual(len(answered), len(frames))
        self.assertGreater(len({count for count in seen if 0 < count < len(frames)}), 3)
        self.assertEqual(server.end()[1][-1], f"closed {len(frames)}")

    def test_tables_and_files_are_looked_at_in_turn(self) -> None:
        self.write(FOUR)
        for command in ("history", "balances"):
            with self.subTest(command):
                self.assertEqual(self.refused(command, table=REVISED), "fault journal 5 WrongTable\n")
                self.assertEqual(self.ask(command, EXAMPLE)[2].split("\n")[0], "fault supply 2 Twice 1")
                self.assertEqual(self.ask(command, table="/nowhere/table", journal="/nowhere/journal"),
                                 (1, b"", "fault file\n  /nowhere/table: no such folder\n"))
                self.assertEqual(self.ask(command, journal=self.folder / "none"),
                                 (1, b"", f"fault file\n  {self.folder / 'none'}: no such file\n"))

    def test_a_wrong_command_line_is_refused(self) -> None:
        whole = ["--table", "a", "--journal", "b"]
        for words in (["history"], ["history", "--table", "a"], ["history", "--journal", "b"],
                      ["history", *whole, "--card", "0"], ["history", *whole, "--card", "+1"],
                      ["history", *whole, "--day", "2025-02-29"], ["history", *whole, "--day", "today"],
                      ["history", *whole, "--format", "json"], ["history", *whole, "--at", "1"],
                      ["balances"], ["balances", "--table", "a"], ["balances", *whole, "--at", "-1"],
                      ["balances", *whole, "--at", "1000001"], ["balances", *whole, "--at", "+1"],
                      ["balances", *whole, "--card", "1"]):
            with self.subTest(words):
                status, out, _ = run_whole(words)
                self.assertEqual((status, out), (2, b""))
