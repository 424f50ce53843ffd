"""Tests bovtrila-carry-over, bovtrila-day-report and bovtrila-gaps, without the program: over files that were written by
hand from the worked rows of docs/reference/FARES.md, and over a day that is generated from a fixed seed and judged by
bovtrila.model.

Pages are tested if matplotlib and Jinja2 are installed; otherwise their tests are skipped, and a line reports that.
"""
import collections
import contextlib
import datetime
import io
import pathlib
import random
import re
import struct
import subprocess
import sys
import tempfile
import time
import unittest
import unittest.mock
import xml.etree.ElementTree
import zoneinfo
from collections.abc import Iterable, Iterator
from typing import Any

from bovtrila import codec, day_charts, day_page, day_tally, history_rows, model, report_page, wire
from bovtrila.commands import day_report
from harness import BIN, EXAMPLE, TIME, TOP, begin_in_day

LONDON = zoneinfo.ZoneInfo("Europe/London")
# Monday 2025-01-06, 00:00 UTC.
MONDAY = 1736121600
ACTS = {codec.ENTER: "in", codec.LEAVE: "out", codec.TOP_UP: "top-up", codec.ISSUE: "issue", codec.REVISE: "revision"}
# The verdicts by their codes, as docs/reference/FARES.md has them.
VERDICTS = {int(code): name for code, name in
            re.findall(r"^\| (\d\d?) \| ([A-Z]\w+)", (TOP / "docs" / "reference" / "FARES.md").read_text(), re.M)}
HISTORY = "place,moment,day,gate,number,card,act,station,pence,verdict,change,balance"
BALANCES = "card,state,balance,paid_in,charged"


REPORT_REASONS = day_tally.REASONS


def has_libraries() -> bool:
    """Whether a Python that day-report looks for has them."""
    asked = [sys.executable, *([report_page.SYSTEM] if pathlib.Path(report_page.SYSTEM).exists() else [])]
    code = f"import {', '.join(report_page.LIBRARIES)}"
    return any(subprocess.run([each, "-c", code], capture_output=True).returncode == 0 for each in asked)


def script(name: str, *words: object, **options: Any) -> subprocess.CompletedProcess[str]:
    """Runs a script to its end."""
    return subprocess.run([BIN / f"bovtrila-{name}", *map(str, words)], capture_output=True, text=True, timeout=TIME,
                          **options)


def csv(heading: str, rows: Iterable[str]) -> str:
    """A file of these rows, as the program writes it."""
    return "".join(row + "\r\n" for row in (heading, *rows))


def moment_text(moment: int) -> str:
    return f"{datetime.datetime.fromtimestamp(moment, datetime.timezone.utc):%Y-%m-%dT%H:%M:%SZ}"


def date_of(day: int) -> str:
    return (datetime.date(1970, 1, 1) + datetime.timedelta(day)).isoformat()


def row_of(station: model.Station, place: int) -> str:
    """The row of the touch at this place of a model's history."""
    frame = station.history[place]
    name = wire.number_at(frame, 3, 2), wire.number_at(frame, 5, 4)
    answer = station.named[name][1]
    kind, gate, number, card, *act = struct.unpack(codec.FORMS[frame[2]], frame[2:])
    verdict, change, balance = struct.unpack(">Biq", answer[9:])
    day = act[1] if kind == codec.REVISE else station.schedule.stamp(act[-1]).day
    where = act[0].hex() if kind == codec.REVISE else act[0] if kind in (codec.ENTER, codec.LEAVE) else ""
    pence = act[0] if kind == codec.TOP_UP else ""
    card = "" if kind == codec.REVISE else card
    fields = (place, moment_text(act[-1]), date_of(day), gate, number, card, ACTS[kind], where, pence,
              VERDICTS[verdict], change, balance)
    return ",".join(map(str, fields))


def history_of(station: model.Station) -> str:
    """What `history` writes of a model's station."""
    return csv(HISTORY, [row_of(station, place) for place in range(len(station.history))])


def balances_of(station: model.Station) -> str:
    """What `balances` writes of a model's station."""
    return csv(BALANCES, [f"{number},{('vacant', 'outside', 'inside')[card.state()]},{card.balance()},{card.paid},"
                          f"{card.charged()}" for number, card in station.cards.items() if card.issued])


class Day:
    """A station's two days, by a seed: cards are issued and topped up on Sunday, and travel on Monday. Some forget a
    touch, some are late, some are refused; and some are still inside at the end. Of more days than Monday each has
    journeys of its own."""

    def __init__(self, seed: int, cards: int, days: Iterable[int] = (0,)) -> None:
        self.random, self.number = random.Random(seed), 0
        self.station = model.Station(model.Table(EXAMPLE.read_text()), cards)
        touches: list[tuple[int, ...]] = []
        for card in range(1, cards + 1):
            touches += [(MONDAY - 40_000 + card, codec.ISSUE, card)] if card % 50 else []
            first = self.random.choice((0, 500, 2000, 4000, 4000, 9000, 9500))
            touches.append((MONDAY - 30_000 + card, codec.TOP_UP, card, first))
            for day in days:
                for hour in self.hours(card):
                    touches += self.journey(card, MONDAY + 86_400 * day + int(3600 * hour))
        turned_away: set[int] = set()
        for moment, kind, card, *more in sorted(touches):
            if kind == codec.LEAVE and card in turned_away:
                turned_away.remove(card)
                continue
            self.number += 1
            frame = codec.touch(kind, self.random.randint(1, 6), self.number, card, *more, moment)
            if self.station.answer(frame)[9] >= 20 and kind == codec.ENTER:
                turned_away.add(card)

    def hours(self, card: int) -> list[float]:
        """When the journeys of a card begin."""
        commutes = [self.random.gauss(8.2, 0.8), self.random.gauss(17.6, 0.9)]
        return commutes + [self.random.uniform(9, 23.5) for _ in range(self.random.randint(0, 2))] if card % 7 else []

    def journey(self, card: int, begins: int) -> list[tuple[int, ...]]:
        """The touches of a journey, with one of the two forgotten or too late now and then."""
        draw, start, finish = self.random.random(), self.random.randint(1, 5), self.random.randint(1, 5)
        ends = begins + self.random.randint(600, 4200) + (6000 if draw > 0.97 else 0)
        touches: list[tuple[int, ...]] = [
            (begins, codec.ENTER, card, start), (ends, codec.LEAVE, card, finish if draw > 0.01 else 9)]
        if self.random.random() < 0.15:
            touches.append((ends + 60, codec.TOP_UP, card, self.random.choice((1000, 2000, 60_000))))
        if 0.01 < draw < 0.08:
            touches.pop(draw < 0.05)
        return touches


class ReportsTest(unittest.TestCase):
    """Each test has a folder of its own."""

    def setUp(self) -> None:
        room = tempfile.TemporaryDirectory(prefix="audit-reports-")
        self.addCleanup(room.cleanup)
        self.folder = pathlib.Path(room.name)

    def write(self, name: str, text: str | bytes) -> pathlib.Path:
        path = self.folder / name
        path.write_bytes(text if isinstance(text, bytes) else text.encode())
        return path


class CarryOver(ReportsTest):
    """bovtrila-carry-over."""

    # 2025-01-06T07:50:00Z, as the issue of docs/reference/PROTOCOL.md has it.
    AT = "2025-01-06T07:50:00Z"
    DAYS = ("days under way aren't carried: what was charged on them doesn't count towards caps in the new journal, "
            "and no journey goes on at an interchange")

    def carry(self, rows: str | bytes | list[str], *words: object) -> tuple[int, list[str], list[str]]:
        """The status, the lines and the lines of standard error for a file of these rows."""
        text = csv(BALANCES, rows) if isinstance(rows, list) else rows
        done = script("carry-over", self.write("old.csv", text), "--moment", self.AT, *words)
        self.assertNotIn("Traceback", done.stderr)
        return done.returncode, done.stdout.split("\n")[:-1], done.stderr.split("\n")[:-1]

    def test_the_frames_are_those_of_the_protocol(self) -> None:
        status, lines, told = self.carry(["1,outside,1650,2000,350"], "--gate", 7)
        self.assertEqual((status, lines), (0, ["000f0400070000000100000001677b8b28",
                                               "001303000700000002000000010000" "0672677b8b28"]))
        self.assertEqual(told, [self.DAYS, "gate 7 numbers 1 to 2", "cards 1", "balances 1650", "carried 1650",
                                "left 0", "owed 0"])

    def test_what_is_not_carried_is_told_card_by_card(self) -> None:
        # Card 2 is at 0. Card 4 owes after the worked row 'top up 189, .. top up 1, 08:00 in 2', and is inside. Card 5
        # paid in up to the limit while it was inside, and had 550 given back.
        status, lines, told = self.carry(["1,inside,1100,2000,900", "2,outside,0,0,0", "4,inside,-710,190,900",
                                          "5,outside,9550,9900,350"])
        self.assertEqual(status, 0)
        self.assertEqual([line[4:6] + line[18:26] + line[26:-8] for line in lines],
                         ["0400000001", "0300000001" "0000044c", "0400000002", "0400000004", "0400000005",
                          "0300000005" "00002328"])
        self.assertEqual([line[6:18] for line in lines], [f"ffff{number:08x}" for number in range(1, 7)])
        inside = "it is inside: its journey isn't carried, and its touch out will be one without a touch in"
        self.assertEqual(told, [f"card 1: {inside}", f"card 4: {inside}",
                                "card 4: it owes 710: it is issued, and nothing is paid in",
                                "card 5: 550 of its 9550 are left: the balance limit is 9000", self.DAYS,
                                "gate 65535 numbers 1 to 6", "cards 4", "balances 9940", "carried 10100", "left 550",
                                "owed 710"])

    def test_a_debt_hides_nothing_that_is_left(self) -> None:
        _, _, told = self.carry(["1,outside,-500,400,900", "2,outside,9500,9500,0"])
        self.assertEqual(told[-4:], ["balances 9000", "carried 9000", "left 500", "owed 500"])

    def test_a_high_balance_is_carried_by_several_top_ups(self) -> None:
        for balance, limit, paid in ((50_000, 1_000_000, [50_000]), (50_001, 1_000_000, [50_000, 1]),
                                     (120_000, 1_000_000, [50_000, 50_000, 20_000]),
                                     (120_000, 60_000, [50_000, 10_000]), (1_000_001, 1_000_000, [50_000] * 20),
                                     (1, 1_000_000, [1]), (9001, None, [9000])):
            with self.subTest(balance, limit=limit):
                words = [] if limit is None else ["--limit", limit]
                _, lines, told = self.carry([f"7,outside,{balance},{balance},0"], *words)
                self.assertEqual([int(line[26:34], 16) for line in lines[1:]], paid)
                self.assertEqual(told[-3:], [f"carried {sum(paid)}", f"left {balance - sum(paid)}", "owed 0"])

    def test_a_generated_day_comes_to_the_same_balances(self) -> None:
        old = Day(1, 400).station
        held = {card: each.balance() for card, each in old.cards.items() if each.issued}
        self.assertLess(min(held.values()), 0)
        self.assertIn(2, [card.state() for card in old.cards.values()])
        status, lines, told = self.carry(balances_of(old), "--first", 100_000)
        self.assertEqual(status, 0)
        (self.folder / "lines").write_text("".join(line + "\n" for line in lines))
        frames = [frame for _, frame in wire.requests(self.folder / "lines")]
        new = model.Station(old.schedule.first, 400)
        answers = [new.answer(frame) for frame in frames]
        self.assertEqual({answer[9] for answer in answers}, {7, 8})
        self.assertEqual({card: each.balance() for card, each in new.cards.items() if each.issued},
                         {card: max(balance, 0) for card, balance in held.items()})
        # Sent again, they change nothing.
        self.assertEqual([new.answer(frame) for frame in frames], answers)
        sums = dict(line.split() for line in told[-4:])
        self.assertEqual(int(sums["balances"]), sum(held.values()))
        self.assertEqual(int(sums["carried"]), sum(each.balance() for each in new.cards.values()))
        self.assertEqual(int(sums["balances"]), int(sums["carried"]) + int(sums["left"]) - int(sums["owed"]))

    def test_the_same_command_makes_the_same_bytes(self) -> None:
        text = csv(BALANCES, ["1,outside,1650,2000,350", "3,outside,60000,60000,0"])
        first = self.carry(text, "--limit", 70_000)
        self.assertEqual(self.carry(text, "--limit", 70_000), first)
        self.assertEqual(self.carry(text.replace("\r\n", "\n"), "--limit", 70_000), first)
        piped = script("carry-over", "-", "--moment", self.AT, "--limit", 70_000, input=text)
        self.assertEqual((piped.returncode, piped.stdout.split("\n")[:-1]), first[:2])

    def test_a_journal_with_no_card_has_nothing_to_carry(self) -> None:
        self.assertEqual(self.carry([]), (0, [], [self.DAYS, "cards 0", "balances 0", "carried 0", "left 0", "owed 0"]))

    def test_numbers_of_revisions_are_noted(self) -> None:
        # 2025-01-06 is the day 20094.
        for first, noted in ((20_092, False), (20_093, True), (30_000, True)):
            _, _, told = self.carry(["1,outside,1,1,0"], "--first", first)
            self.assertEqual(any(line.startswith("note: bovtrila-gate --revise") for line in told), noted, first)
        _, _, told = self.carry(["1,outside,1,1,0"], "--first", 20_094, "--gate", 9)
        self.assertIn("gate 9 numbers 20094 to 20095", told)
        self.assertFalse(any(line.startswith("note") for line in told))

    def test_a_fault_of_the_file_is_told_with_its_line_and_nothing_is_written(self) -> None:
        good = "1,outside,1650,2000,350"
        rows: tuple[tuple[str | bytes, str], ...] = (
            (b"", "line 1: '' isn't the heading card,state,balance,paid_in,charged"),
            ("card,state,balance\r\n", "line 1: 'card,state,balance' isn't the heading"),
            (BALANCES, "line 1: no end of the line stands behind it"),
            (csv(BALANCES, [good])[:-2], "line 2: no end of the line stands behind it"),
            (csv(BALANCES, [good, ""]), "line 3: it has 1 fields, and the heading 5"),
            (csv(BALANCES, [good + ",0"]), "line 2: it has 6 fields, and the heading 5"),
            (csv(BALANCES, ["x,outside,0,0,0"]), "line 2: the card 'x' is no whole number"),
            (csv(BALANCES, ["1,outside,01,1,0"]), "line 2: the balance '01' is no whole number"),
            (csv(BALANCES, ["1,outside,-0,0,0"]), "line 2: the balance '-0' is no whole number"),
            (csv(BALANCES, ["1,outside,1,1.0,0"]), "line 2: the paid_in '1.0' is no whole number"),
            (csv(BALANCES, ["1,outside,1,1,"]), "line 2: the charged '' is no whole number"),
            (csv(BALANCES, ["1,outside,-1,-1,0"]), "line 2: the paid_in -1 is below 0"),
            (csv(BALANCES, ["0,outside,0,0,0"]), "line 2: card 0 is none from 1 to 100000"),
            (csv(BALANCES, ["100001,outside,0,0,0"]), "line 2: card 100001 is none from 1 to 100000"),
            (csv(BALANCES, [good, good]), "line 3: card 1 stands behind card 1"),
            (csv(BALANCES, ["2,inside,0,0,0", good]), "line 3: card 1 stands behind card 2"),
            (csv(BALANCES, ["1,vacant,0,0,0"]), "line 2: the state 'vacant' is neither"),
            (csv(BALANCES, ["1,outside,1651,2000,350"]),
             "line 2: paid_in less charged is 1650, and the balance is 1651"),
            (b"\xff\n", "this is no text file"))
        for text, said in rows:
            with self.subTest(said):
                status, lines, told = self.carry(text)
                self.assertEqual((status, lines, len(told)), (1, [], 1))
                self.assertIn(said, told[0])
        done = script("carry-over", "/nowhere/old.csv", "--moment", self.AT)
        self.assertEqual((done.returncode, done.stdout), (1, ""))
        self.assertIn("/nowhere/old.csv: No such file or directory", done.stderr)

    def test_numbers_do_not_run_out_silently(self) -> None:
        last = 2**32 - 1
        self.assertEqual(self.carry(["1,outside,0,0,0"], "--first", last)[:2],
                         (0, ["000f04ffffffffffff00000001677b8b28"]))
        status, lines, told = self.carry(["1,outside,1,1,0"], "--first", last)
        self.assertEqual((status, lines), (1, []))
        self.assertIn("card 1 would need number 4294967296", told[0])

    def test_a_wrong_command_line_is_told(self) -> None:
        rows: tuple[tuple[list[str], str], ...] = (
            ([], "--moment"), (["old.csv"], "--moment"), (["--moment", self.AT], "OLD.csv"),
            (["old.csv", "--moment", "2025-01-06"], "'2025-01-06' is no moment"),
            (["old.csv", "--moment", "2025-01-06T07:50:00+00:00"], "is no moment"),
            (["old.csv", "--moment", "2025-02-29T07:50:00Z"], "is no moment"),
            (["old.csv", "--moment", "1969-12-31T23:59:59Z"], "is no moment"),
            (["old.csv", "--moment", "2106-02-07T06:28:16Z"], "is no moment"),
            (["old.csv", "--moment", self.AT, "--gate", "65536"], "'65536' is no number from 0 to"),
            (["old.csv", "--moment", self.AT, "--first", "-1"], "--first"),
            (["old.csv", "--moment", self.AT, "--limit", "0"], "'0' is no number from 1 to 1000000"),
            (["old.csv", "--moment", self.AT, "--limit", "9e3"], "'9e3' is no number"))
        for words, said in rows:
            with self.subTest(words):
                done = script("carry-over", *words)
                self.assertEqual((done.returncode, done.stdout), (2, ""))
                self.assertIn(said, done.stderr)

    def test_lines_that_could_not_be_written_are_not_told_as_carried(self) -> None:
        old = self.write("old.csv", csv(BALANCES, ["1,outside,1650,2000,350"]))
        with open("/dev/full", "w", encoding="ascii") as full:
            words = [str(BIN / "bovtrila-carry-over"), str(old), "--moment", self.AT]
            done = subprocess.run(words, stdout=full, stderr=subprocess.PIPE, text=True, timeout=TIME)
        self.assertEqual((done.returncode, done.stderr),
                         (1, "carry-over: standard output: No space left on device; the lines aren't whole\n"))


class Worked:
    """Rows of a day, written from the worked rows of docs/reference/FARES.md: Monday 2025-01-06 unless a row says
    otherwise."""

    ROWS = """
        07:40:00 1 issue Issued 0 0 | 07:41:00 1 top-up 2000 ToppedUp 2000 2000
        07:42:00 2 issue Issued 0 0 | 07:42:00 2 top-up 2000 ToppedUp 2000 2000
        07:43:00 3 issue Issued 0 0 | 07:43:00 3 top-up 2000 ToppedUp 2000 2000
        07:44:00 4 issue Issued 0 0 | 07:44:00 4 top-up 189 ToppedUp 189 189
        07:44:00 5 issue Issued 0 0 | 07:50:00 4 in 2 LowBalance 0 189
        07:51:00 4 top-up 1 ToppedUp 1 190 | 08:00:00 1 in 2 Entered -900 1100
        08:00:00 2 in 2 Entered -900 1100 | 08:00:00 3 out 1 ExitedUnstarted -900 1100
        08:00:00 4 in 2 Entered -900 -710 | 07:59:00 4 out 2 Backwards 0 -710
        08:05:00 3 in 4 Entered -900 200 | 08:10:00 2 in 2 EnteredOverOpen -900 200
        08:30:00 2 out 1 Exited 550 750 | 09:30:01 1 out 1 ExitedLate -700 400
        10:00:00 5 top-up 9001 OverLimit 0 0 | 10:00:00 5 top-up 50000 OverLimit 0 0
        10:00:00 5 top-up 50001 BadAmount 0 0 | 10:00:00 5 top-up 0 BadAmount 0 0
        10:00:00 5 top-up 9000 ToppedUp 9000 9000 | 10:00:00 5 top-up 1 OverLimit 0 9000
        10:00:00 5 issue AlreadyIssued 0 9000 | 10:00:00 5 in 9 UnknownStation 0 9000
        10:00:00 6 in 9 UnknownCard 0 0
    """

    @classmethod
    def rows(cls, text: str = ROWS, date: str = "2025-01-06", first: int = 0) -> list[str]:
        """The rows of a text like this one, from this place on."""
        made = []
        for place, words in enumerate((each.split() for each in re.split(r"[|\n]", text.strip())), first):
            clock, card, act, *where, verdict, change, balance = words
            station, pence = (*where, "") if act in ("in", "out") else ("", *where) if act == "top-up" else ("", "")
            made.append(f"{place},{date}T{clock}Z,{date},7,{place + 1},{card},{act},{station},{pence},{verdict},"
                        f"{change},{balance}")
        return made

    @classmethod
    def revision(cls, place: int, day: str, verdict: str, digest: str = "96" * 32) -> str:
        return f"{place},2025-01-06T08:00:00Z,{day},65535,1,,revision,{digest},,{verdict},0,0"


class Counting(ReportsTest):
    """What bovtrila-day-report counts; this needs neither matplotlib nor Jinja2."""

    def read(self, rows: str | bytes | list[str], day: str | None = None, zone: str = "Europe/London",
             is_part: bool = False) -> Any:
        """What is counted of the touches that the page is of."""
        return self.report(rows, day, zone, is_part).tally

    def report(self, rows: str | bytes | list[str], day: str | None = None, zone: str = "Europe/London",
               is_part: bool = False) -> Any:
        path = self.write("history.csv", rows if isinstance(rows, (str, bytes)) else csv(HISTORY, rows))
        return day_tally.read(str(path), day, zoneinfo.ZoneInfo(zone), is_part)[0]

    def test_the_verdicts_are_those_of_the_rules(self) -> None:
        by_act = *history_rows.ACCEPTED.values(), *history_rows.REFUSED.values()
        named = {name for names in by_act for name in names}
        self.assertEqual(named, set(VERDICTS.values()))
        self.assertEqual(list(day_tally.REFUSALS), [VERDICTS[code] for code in range(20, 28)])

    def test_the_worked_rows_are_counted(self) -> None:
        tally = self.read([*Worked.rows(), Worked.revision(29, "2025-01-06", "BadDay")])
        self.assertEqual(tally.refused(), {"UnknownCard": 1, "AlreadyIssued": 1, "UnknownStation": 1, "Backwards": 1,
                                           "LowBalance": 1, "BadAmount": 2, "OverLimit": 3, "BadDay": 1})
        self.assertEqual(tally.money(), (15_190, 5550))
        self.assertEqual(tally.most_charged(), [(3, (2000, 1800)), (1, (2000, 1600)), (2, (2000, 1250)),
                                                (4, (190, 900))])
        self.assertEqual([tally.maxima_of(verdict) for verdict in day_tally.MAXIMA],
                         [(1, 0, 900, 0), (1, 0, 0, 900), (1, 0, 900, 700)])
        self.assertEqual(tally.inside, {3: 900, 4: 900})
        quarters = {act: {day_charts.clock(place): count for place, count in enumerate(counts) if count}
                    for act, counts in tally.touches.items()}
        self.assertEqual(quarters, {"in": {"07:45": 1, "08:00": 5, "10:00": 2},
                                    "out": {"07:45": 1, "08:00": 1, "08:30": 1, "09:30": 1},
                                    "top-up": {"07:30": 4, "07:45": 1, "10:00": 6}, "issue": {"07:30": 5, "10:00": 1}})
        self.assertEqual([(label, str(value)) for label, value in day_page.figures(tally)],
                         [("Touches of cards", "29"), ("of these accepted", "19"), ("and refused", "10"),
                          ("Cards with an accepted touch", "5"), ("Paid in", "£151.90"), ("Charged", "£55.50"),
                          ("Journeys found to cost a maximum", "3"), ("Cards inside at the end", "2"),
                          ("Entry charges that these hold", "£18.00")])
        self.assertEqual([row.verdict for row in tally.revisions], ["BadDay"])

    def test_money_is_summed_by_quarters_of_an_hour(self) -> None:
        tally = self.read(Worked.rows())
        eight = (MONDAY + 8 * 3600) // 900
        self.assertEqual({place - eight: pair for place, pair in tally.by_quarter.items() if pair != (0, 0)},
                         {-2: (6189, 0), -1: (1, 0), 0: (0, 5400), 2: (0, -550), 6: (0, 700), 8: (9000, 0)})

    def test_a_generated_day_is_counted_as_the_model_has_it(self) -> None:
        station = Day(2, 300).station
        tally, answers = self.read(history_of(station)), [answer for _, answer in station.named.values()]
        self.assertEqual(+tally.verdicts, +collections.Counter(VERDICTS[answer[9]] for answer in answers))
        self.assertEqual(tally.money(), (sum(card.paid for card in station.cards.values()),
                                         sum(card.charged() for card in station.cards.values())))
        self.assertEqual(set(tally.inside), {number for number, card in station.cards.items() if card.state() == 2})
        charged = sorted((-card.charged(), number) for number, card in station.cards.items())[:10]
        self.assertEqual([(-pair[1], card) for card, pair in tally.most_charged()], charged)
        by_quarter = {act: [0] * 96 for act in day_charts.COLOURS}
        for frame in station.history:
            moment = struct.unpack(">I", frame[-4:])[0]
            by_quarter[ACTS[frame[2]]][(moment % 86_400 // 60 - 270) % 1440 // 15] += 1
        self.assertEqual((tally.touches, tally.strange), (by_quarter, 0))
        kept = late = 0
        for card in station.cards.values():
            for place, tap in enumerate(card.taps[:-1] if card.state() == 2 else card.taps):
                if tap.is_entry and not card.ends_leg(place + 1):
                    start = card.first(place)
                    kept += card.of_entry(start, tap).maximum(start.stamp.window)
                elif not tap.is_entry and not card.ends_leg(place):
                    late += card.of_late(tap).maximum(tap.stamp.window)
        sums = [tally.maxima_of(verdict) for verdict in day_tally.MAXIMA]
        self.assertEqual((sum(each[2] for each in sums), sum(each[3] for each in sums)), (kept, late))
        self.assertTrue(all(count and not lost for count, lost, _, _ in sums), sums)

    def test_a_day_of_the_file_is_that_of_the_history_of_the_day(self) -> None:
        text = history_of(Day(3, 100).station)
        rows = text.split("\r\n")[1:-1]
        for day in ("2025-01-05", "2025-01-06"):
            one = self.read(text, day)
            two = self.read([row for row in rows if row.split(",")[2] == day], is_part=True)
            self.assertEqual(day_page.figures(one), day_page.figures(two))
            self.assertEqual((one.touches, one.by_quarter, one.maxima), (two.touches, two.by_quarter, two.maxima))
        self.assertEqual(self.read(text, "2025-01-07").rows, 0)

    def test_what_the_rows_do_not_tell_is_not_told(self) -> None:
        """The touch in before is on another day, or wasn't written: its charge isn't known."""
        rows = Worked.rows()
        lost = self.read([row for row in rows if ",1,in," not in row], is_part=True)
        self.assertEqual(lost.maxima_of("ExitedLate"), (1, 1, 0, 700))
        alone = self.read([rows[-10]], is_part=True)
        self.assertEqual((alone.maxima[0].row.verdict, alone.maxima_of("ExitedLate")), ("ExitedLate", (1, 1, 0, 700)))
        # Behind the touch in on Monday a touch out and another touch in are left out, so the balances don't agree.
        cut = Worked.rows("07:40:00 1 issue Issued 0 0 | 07:41:00 1 top-up 2000 ToppedUp 2000 2000 | "
                          "08:00:00 1 in 2 Entered -900 1100")
        cut += Worked.rows("09:30:01 1 out 1 ExitedLate -700 50", "2025-01-08", 5)
        self.assertEqual(self.read(cut, is_part=True).maxima_of("ExitedLate"), (1, 1, 0, 700))
        # In on Monday at 23:50 and out on Tuesday after 04:30: the charge of the touch in is of the day before.
        day = Worked.rows("07:40:00 1 issue Issued 0 0 | 07:41:00 1 top-up 2000 ToppedUp 2000 2000 | "
                          "23:50:00 1 in 2 Entered -700 1300")
        day += Worked.rows("05:00:00 1 out 1 ExitedLate -700 600", "2025-01-07", 3)
        both, one = self.read(day, "2025-01-07"), self.read(day[3:], "2025-01-07")
        self.assertEqual((both.maxima_of("ExitedLate"), both.money()), ((1, 0, 700, 700), (0, 700)))
        self.assertEqual((one.maxima_of("ExitedLate"), one.money()), ((1, 1, 0, 700), (0, 700)))
        self.assertEqual(self.read(day, "2025-01-06").inside, {1: 700})

    def test_the_clock_is_that_of_the_zone(self) -> None:
        # 05:30 UTC is 06:30 in London in July; 03:45 is 04:45 there, of the new fare day, and of the old one in UTC.
        rows = ["0,2025-07-07T05:30:00Z,2025-07-07,7,1,1,issue,,,Issued,0,0",
                "1,2025-07-07T03:45:00Z,2025-07-07,7,2,2,issue,,,Issued,0,0"]
        for zone, clocks, strange in (("Europe/London", ["04:45", "06:30"], 0), ("UTC", ["05:30", "03:45"], 1)):
            tally = self.read(rows, zone=zone)
            self.assertEqual([day_charts.clock(place) for place in range(96) if tally.touches["issue"][place]], clocks)
            self.assertEqual(tally.strange, strange)

    def maxima(self, report: Any, day: str | None = None) -> list[tuple[int, str, int, str]]:
        return [(each.touch.card, each.touch.act, each.pence, REPORT_REASONS[each.told.verdict, each.touch.act])
                for each in report.maxima(day)]

    def test_a_maximum_stands_on_the_day_of_the_touch_that_was_charged(self) -> None:
        left, late = "no touch out followed: the next was another touch in", "its touch out came too late"
        self.assertEqual(self.maxima(self.report(Worked.rows())), [
            (1, "in", 900, late), (2, "in", 900, left), (3, "out", 900, "no touch in before it"),
            (1, "out", 700, "too late for its touch in")])
        begun = "07:40:00 1 issue Issued 0 0 | 07:41:00 1 top-up 2000 ToppedUp 2000 2000 | 23:50:00 1 in 2 Entered -700 1300"
        for more, monday, tuesday in (
                ("05:00:00 1 out 1 ExitedLate -700 600", [(1, "in", 700, late)],
                 [(1, "out", 700, "too late for its touch in")]),
                ("08:00:00 1 in 2 EnteredOverOpen -900 400", [(1, "in", 700, left)], []),
                ("05:00:00 1 out 1 Exited 350 1650", [], [])):
            rows = Worked.rows(begun) + Worked.rows(more, "2025-01-07", 3)
            for day, wanted in (("2025-01-06", monday), ("2025-01-07", tuesday)):
                report = self.report(rows, day)
                self.assertEqual((self.maxima(report), report.lost), (wanted, 0), (more, day))
            # Without the day that tells it nothing is known.
            self.assertEqual(self.maxima(self.report(Worked.rows(begun), "2025-01-06")), [])
            # Without the touch in its charge isn't in the file.
            report = self.report(rows[3:], "2025-01-07")
            self.assertEqual((self.maxima(report), report.lost), (tuesday, "Exited " not in more))

    def test_what_becomes_of_cards_that_were_inside_is_told(self) -> None:
        text = " | ".join(f"07:40:0{card} {card} issue Issued 0 0 | 07:41:0{card} {card} top-up 2000 ToppedUp 2000 2000 | "
                          f"23:50:00 {card} in 2 Entered -700 1300" for card in range(1, 5))
        more = Worked.rows("00:10:00 1 out 3 Exited 350 1650 | 05:00:00 2 out 1 ExitedLate -700 600 | "
                           "08:00:00 3 in 2 EnteredOverOpen -900 400", "2025-01-07", 12)
        # Ten minutes past midnight is of the day before.
        more[0] = more[0].replace("Z,2025-01-07", "Z,2025-01-06")
        report = self.report(Worked.rows(text) + more, "2025-01-06")
        names = day_page.stations_of(str(EXAMPLE))
        self.assertEqual([(row.card, day_page.becomes(after, LONDON, names)) for row, after in report.open()],
                         [(2, "out too late, a maximum: 2025-01-07 05:00:00, Alder (1)"),
                          (3, "left open, a maximum: in 2025-01-07 08:00:00, Birch (2)"),
                          (4, "the file has no later touch of this card")])
        self.assertEqual(self.report(Worked.rows(text) + more, "2025-01-07").tally.open.keys(), {3})

    def test_silent_gates_are_those_of_the_week_before(self) -> None:
        def touch(place: int, date: str, gate: int) -> str:
            return f"{place},{date}T08:00:00Z,{date},{gate},{place + 1},6,issue,,,UnknownCard,0,0"
        rows = [touch(place, *each) for place, each in enumerate([
            ("2024-12-29", 1), ("2024-12-30", 2), ("2025-01-05", 3), ("2025-01-05", 4), ("2025-01-06", 4),
            ("2025-01-06", 5), ("2025-01-07", 3)])]
        # Gate 1's last touch is eight days old, gate 2's seven.
        for day, silent, gates in (("2025-01-06", [2, 3], 2), ("2025-01-07", [4, 5], 1), ("2025-01-08", [3, 4, 5], 0),
                                   (None, [4, 5], 1)):
            report = self.report(rows, day)
            self.assertEqual(([gate for gate, _ in report.silent()], report.gates()), (silent, gates), day)
        days = "2024-12-29", "2024-12-30", "2025-01-12", "2025-01-20"
        self.assertEqual([self.report(rows, day).has_week() for day in days], [False, True, True, False])
        self.assertEqual([row.place for _, row in self.report(rows, "2025-01-06").silent()], [1, 2])

    def model_of(self, station: model.Station, day: int) -> tuple[tuple[int, ...], int, dict[int, int], set[int]]:
        """The numbers of the tiles of a fare day, by the plain model's touches and cards."""
        verdicts, paid, charged, gates = [], 0, 0, set()
        for frame in station.history:
            if station.schedule.stamp(struct.unpack(">I", frame[-4:])[0]).day == day:
                name = wire.number_at(frame, 3, 2), wire.number_at(frame, 5, 4)
                verdict, change, _ = struct.unpack(">Biq", station.named[name][1][9:])
                verdicts.append(verdict)
                gates.add(struct.unpack(">H", frame[3:5])[0])
                paid += change if frame[2] == codec.TOP_UP else 0
                charged -= change if frame[2] in (codec.ENTER, codec.LEAVE) else 0
        maxima, inside = [], {}
        for number, card in station.cards.items():
            for place, tap in enumerate(card.taps):
                if tap.is_entry and place + 1 < len(card.taps) and not card.ends_leg(place + 1) and tap.stamp.day == day:
                    start = card.first(place)
                    maxima.append(card.of_entry(start, tap).maximum(start.stamp.window))
                elif not tap.is_entry and not card.ends_leg(place) and tap.stamp.day == day:
                    maxima.append(card.of_late(tap).maximum(tap.stamp.window))
            taps = [tap for tap in card.taps if tap.stamp.day <= day]
            if taps and taps[-1].is_entry and taps[-1].stamp.day == day:
                inside[number] = taps[-1].station
        refused = sum(verdict >= 20 for verdict in verdicts)
        return (len(verdicts), charged, paid, refused, len(maxima)), sum(maxima), inside, gates

    def test_the_tiles_of_generated_weeks_are_those_of_the_model(self) -> None:
        """A Monday, and a week later three days: the maxima of the second Monday are told by the Tuesday too."""
        station = Day(7, 120, (0, 6, 7, 8)).station
        text = history_of(station)
        days = [20_094, 20_101, 20_102]
        found = {day: self.model_of(station, day) for day in days}
        for day in days:
            report = self.report(text, date_of(day))
            tiles, (numbers, pence, inside, gates) = day_page.glance(report), found[day]
            self.assertEqual(tuple(int(tile[0]) for tile in tiles[:5]), numbers)
            self.assertEqual(tiles[4][2], str(day_charts.Pence(pence)))
            self.assertEqual((tiles[5][0], report.gates()), (len(inside), len(gates)))
            self.assertEqual({row.card: int(row.station) for row, _ in report.open()}, inside)
        # The second Monday beside the first; the first and the Tuesday beside days without touches.
        week = [tile[3] for tile in day_page.glance(self.report(text, "2025-01-13"))[:5]]
        self.assertEqual(tuple(week), found[20_094][0])
        for day in (20_094, 20_102):
            self.assertEqual({tile[3] for tile in day_page.glance(self.report(text, date_of(day)))}, {None})
        # Some of the second Monday's are told by a touch of the Tuesday, which its own rows don't have.
        told = [each.told.day for each in self.report(text, "2025-01-13").maxima()]
        self.assertIn("2025-01-14", told)

    def test_a_number_is_compared_with_that_of_the_week_before(self) -> None:
        for number, before, said in ((110, 100, "Mon 30 Dec: 100 (+10 %)"), (1, 3, "Mon 30 Dec: 3 (-67 %)"),
                                     (5, 0, "Mon 30 Dec: 0"), (5, None, ""),
                                     (day_charts.Pence(50), day_charts.Pence(100), "Mon 30 Dec: £1.00 (-50 %)")):
            self.assertEqual(day_page.compared(number, before, "Mon 30 Dec"), said)

    def test_yesterday_is_the_last_whole_fare_day(self) -> None:
        # 2025-01-07 at 04:29 and at 04:30, and 2025-07-08 at 03:29 and at 03:30 UTC, half past four in London.
        for moment, day in ((MONDAY + 86_400 + 16_140, "2025-01-05"), (MONDAY + 86_400 + 16_200, "2025-01-06"),
                            (20_277 * 86_400 + 12_540, "2025-07-06"), (20_277 * 86_400 + 12_600, "2025-07-07")):
            self.assertEqual(day_report.yesterday(moment, LONDON), day)

    def test_rows_that_are_missing_are_a_fault_with_their_place(self) -> None:
        rows = Worked.rows()
        for text, day, said in (
                (rows[:5] + rows[6:], None, "line 7: place 5 is missing before place 6; "),
                (rows[:5] + rows[9:], None, "line 7: places 5 to 8 are missing before place 9; one from which rows"),
                (rows[:5] + rows[9:], "2025-01-06", "line 7: places 5 to 8 are missing before place 9"),
                (rows[3:], None, "line 2: places 0 to 2 are missing before place 3; a history of one day needs --day"),
                (rows[3:5] + rows[6:], "2025-01-06", "line 4: place 5 is missing before place 6"),
                # What stands behind a gap goes on by itself: a balance is held against the one before.
                (rows[3:12] + [rows[12].replace(",-900,1100", ",-900,1101")], "2025-01-06",
                 "line 11: card 2 had 2000, and a change of -900 doesn't make it 1101")):
            with self.subTest(said), self.assertRaises(history_rows.Wrong) as caught:
                self.read(text, day)
            self.assertIn(said, str(caught.exception))
        # On purpose: of one day, or as a part.
        self.assertEqual(self.read(rows[3:], "2025-01-06").rows, 26)
        self.assertEqual(self.read(rows[3:5] + rows[6:], is_part=True).rows, 25)

    def test_a_file_with_quotes_is_read(self) -> None:
        rows = Worked.rows()
        plain = self.read(rows)
        quoted = [",".join(f'"{field}"' for field in row.split(",")) for row in (HISTORY, *rows)]
        texts: tuple[str | bytes, ...] = (
            csv(quoted[0], quoted[1:]), csv(HISTORY, quoted[1:]).replace("\r\n", "\n"),
            b"\xef\xbb\xbf" + csv(HISTORY, quoted[1:]).encode())
        for text in texts:
            self.assertEqual(day_page.figures(self.read(text)), day_page.figures(plain))
        for row, said in (('"0,2025', "line 2: its quotes don't go together"), ('"0""",1', "line 2: it has 2 fields")):
            with self.assertRaises(history_rows.Wrong) as caught:
                self.read([row])
            self.assertIn(said, str(caught.exception))

    def test_a_long_file_says_how_far_it_is(self) -> None:
        rows = Worked.rows("07:40:00 1 issue Issued 0 0 | " + " | ".join(["07:41:00 1 top-up 0 BadAmount 0 0"] * 2998))
        with unittest.mock.patch.object(history_rows, "TOLD", 0), contextlib.redirect_stderr(io.StringIO()) as told:
            self.read(rows)
        self.assertRegex(told.getvalue(), r"^day-report: 1,000 lines of history.csv, 3[2-4] %\n"
                         r"day-report: 2,000 lines of history.csv, 6[5-7] %\nday-report: 3,000 lines .*, 99 %\n$")
        with contextlib.redirect_stderr(io.StringIO()) as told:
            self.read(rows)
        self.assertEqual(told.getvalue(), "")

    def test_an_hour_that_comes_twice_is_marked(self) -> None:
        """On 2025-10-26 the clock of London shows 01:00 at 00:00 UTC, and again at 01:00 UTC."""
        rows = Worked.rows("00:20:00 1 issue Issued 0 0 | 00:59:59 2 issue Issued 0 0 | 01:20:00 3 issue Issued 0 0 | "
                           "01:30:00 4 out 1 UnknownCard 0 0 | 02:00:00 5 issue Issued 0 0", "2025-10-26")
        tally = self.read([row.replace("Z,2025-10-26", "Z,2025-10-25") for row in rows])
        self.assertEqual(tally.strange, 0)
        with unittest.mock.patch.object(day_charts, "drawn", lambda *_: ""):
            section = day_page.touches_section(tally)
            paid = self.read([row.replace("Z,2025-10-26", "Z,2025-10-25") for row in Worked.rows(
                "00:20:00 1 issue Issued 0 0 | 00:30:00 1 top-up 5 ToppedUp 5 5 | 01:30:00 1 top-up 5 ToppedUp 5 10 | "
                "02:30:00 1 issue AlreadyIssued 0 10 | 03:30:00 1 top-up 5 ToppedUp 5 15", "2025-10-26")])
            money = day_page.money_section(paid)
        self.assertEqual([table.rows for table in section.tables],
                         [[("01:15", 0, 0, 0, 1), ("01:45", 0, 0, 0, 1), ("01:15 (second)", 0, 0, 0, 1),
                           ("01:30 (second)", 0, 1, 0, 0), ("02:00", 0, 0, 0, 1)]])
        self.assertIn("The clock went back", section.text)
        # The hour from 02:00 had no money.
        self.assertEqual([row[0] for table in money.tables for row in table.rows],
                         ["Sun 01:00", "Sun 01:00 (second)", "Sun 03:00"])
        late = history_rows.row_of(rows[3])
        names = day_page.Stations()
        self.assertEqual(names.where(late, LONDON), "2025-10-26 01:30:00 (second), station 1")
        self.assertNotIn("second", names.where(history_rows.row_of(Worked.rows()[11]), LONDON))

    def test_where_equal_cards_are_cut_off_is_said(self) -> None:
        def charged(*amounts: int) -> str:
            text = " | ".join(f"07:40:00 {card} issue Issued 0 0 | 08:00:00 {card} out 1 ExitedUnstarted -{pence} "
                              f"-{pence}" for card, pence in enumerate(amounts, 1))
            with unittest.mock.patch.object(day_charts, "drawn", lambda *_: ""):
                return day_page.cards_section(self.read(Worked.rows(text))).text
        ten = "The ten highest, less what was given back."
        self.assertEqual(charged(*[900] * 10), ten)
        self.assertEqual(charged(*[900] * 9, 700), ten)
        self.assertEqual(charged(*[900] * 12), f"{ten} 12 cards were charged £9.00: of these the 10 with the lowest "
                         "numbers stand here.")
        self.assertEqual(charged(*[900] * 8, *[700] * 5, 100), f"{ten} 5 cards were charged £7.00: of these the 2 "
                         "with the lowest numbers stand here.")

    def test_a_fault_of_the_file_is_told_with_its_line(self) -> None:
        rows = Worked.rows()
        wrong: tuple[tuple[str | bytes | list[str], str], ...] = (
            (b"", "line 1: the file is empty"),
            ("card,state\r\n", "line 1: 'card,state' isn't the heading"),
            (csv(HISTORY, rows)[:-2], "line 30: no end of the line stands behind it"),
            ([rows[0] + ",0"], "line 2: it has 13 fields, and the heading 12"),
            ([""], "line 2: it has 1 fields"),
            (b"\xc3\xa9\n", "line 1: it has characters that no history has"),
            ([rows[0].replace("0,", "00,", 1)], "line 2: the place '00' can't be one"),
            ([rows[0].replace("07:40", "7:40")], "line 2: the moment '2025-01-06T7:40:00Z' can't be"),
            ([rows[0].replace("01-06T", "02-30T")], "line 2: the calendar has no moment"),
            ([rows[0].replace("2025-01-06,", "20094,")], "line 2: the calendar has no"),
            ([rows[0].replace("issue", "sale")], "line 2: the act 'sale' can't be one"),
            ([rows[0].replace("issue,,", "issue,2,")],
             "line 2: card '1', station '2' and pence '' don't go with"),
            ([rows[1].replace(",2000,T", ",,T")], "line 2: card '1', station '' and pence '' don't go with"),
            ([rows[1].replace(",1,top-up", ",,top-up")], "line 2: card '', station '' and pence '2000' don't"),
            ([Worked.revision(0, "2025-01-07", "Revised").replace(",,revision", ",5,revision")],
             "line 2: card '5', station '969696969696' and pence '' don't go with revision"),
            ([rows[0].replace("Issued", "Entered")], "line 2: the verdict Entered is none of issue"),
            ([rows[0].replace("Issued", "Sold")], "line 2: the verdict Sold is none of issue"),
            ([rows[0].replace(",0,0", ",1,1")], "line 2: a change of 1 doesn't go with Issued"),
            ([rows[0], rows[1].replace(",2000,2000", ",1999,1999")],
             "line 3: a change of 1999 doesn't go with ToppedUp"),
            ([rows[0], rows[1].replace(",2000,2000", ",2000,2001")],
             "line 3: card 1 had 0, and a change of 2000 doesn't make it 2001"),
            ([rows[0], rows[0]], "line 3: place 0 stands behind place 0"),
            (rows[:9] + [rows[9].replace("LowBalance", "Backwards").replace(",0,189", ",-1,188")],
             "line 11: a change of -1 doesn't go with Backwards"),
            (Worked.rows("07:40:00 1 issue Issued 0 0 | 08:00:00 1 out 2 Exited 0 0"),
             "line 3: Exited doesn't go with card 1, which is outside"),
            (Worked.rows("07:40:00 1 issue Issued 0 0 | 08:00:00 1 in 2 Entered -900 -900 | "
                         "08:01:00 1 in 2 Entered -900 -1800"),
             "line 4: Entered doesn't go with card 1, which is inside"))
        for text, said in wrong:
            with self.subTest(said):
                with self.assertRaises(history_rows.Wrong) as caught:
                    self.read(text)
                self.assertIn(said, str(caught.exception))

    def test_a_revision_stands_under_any_day(self) -> None:
        for day in ("2025-01-07", "0001-01-01", "-009999-01-01", "2147483647", "-2147483648"):
            tally = self.read([Worked.revision(0, day, "Revised")])
            self.assertEqual([row.day for row in tally.revisions], [day])

    def test_money_has_thousands_and_a_sign(self) -> None:
        for pence, text in ((0, "£0.00"), (5, "£0.05"), (-71, "−£0.71"), (123_456_789, "£1,234,567.89")):
            self.assertEqual(str(day_charts.Pence(pence)), text)

    def test_numbers_have_thousands_and_money_has_pounds(self) -> None:
        rows: tuple[tuple[report_page.Cell, str], ...] = (
            (1234, "1,234"), (day_charts.Pence(123_400), "£1,234.00"), ("1234", "1234"))
        for value, text in rows:
            self.assertEqual(report_page.words(value), text)

    def test_a_long_table_is_shown_as_several(self) -> None:
        for count, sizes in ((0, [0]), (8, [8]), (9, [8, 1]), (24, [8, 8, 8]), (25, [9, 9, 7])):
            rows = [(place,) for place in range(count)]
            parts = report_page.Table(["Place"], rows, columns=3).parts()
            self.assertEqual([len(part) for part in parts], sizes)
            self.assertEqual([row for part in parts for row in part], rows)
            self.assertEqual(report_page.Table(["Place"], rows).parts(), [rows])

    def test_without_a_library_it_says_what_to_install(self) -> None:
        rows: tuple[tuple[list[str], str], ...] = (
            (["matplotlib"], "matplotlib: apt-get install python3-matplotlib"),
            (["jinja2"], "jinja2: apt-get install python3-jinja2"),
            (["matplotlib", "jinja2"], "matplotlib and jinja2: apt-get install python3-matplotlib python3-jinja2"))
        for missing, said in rows:
            with self.subTest(missing):
                code = ("import importlib.util as util, runpy, sys; find = util.find_spec; "
                        f"util.find_spec = lambda name, *more: name not in {missing} if name in {report_page.LIBRARIES} "
                        "else find(name, *more); "
                        "sys.executable = '/usr/bin/python3'; "
                        f"sys.argv = ['day-report', 'history.csv', '-o', '{self.folder}/page']; "
                        f"runpy.run_path('{BIN / 'bovtrila-day-report'}', run_name='__main__')")
                done = subprocess.run([sys.executable, "-c", code], capture_output=True, text=True, timeout=TIME)
                self.assertEqual((done.returncode, done.stdout, done.stderr), (1, "", f"day-report needs {said}\n"))

    def test_a_wrong_command_line_is_told(self) -> None:
        rows: tuple[tuple[list[str], str], ...] = (
            ([], "HISTORY.csv"), (["history.csv"], "-o"), (["-o", "page"], "HISTORY.csv"),
            (["history.csv", "-o", "page", "--day", "2025-02-29"], "'2025-02-29' is no date"),
            (["history.csv", "-o", "page", "--day", "20250106"], "'20250106' is no date"),
            (["history.csv", "-o", "page", "--zone", "Europe/Nowhere"], "'Europe/Nowhere' is no zone"),
            (["history.csv", "-o", "page", "--zone", "../etc"], "'../etc' is no zone"))
        for words, said in rows:
            with self.subTest(words):
                done = script("day-report", *words, cwd=self.folder)
                self.assertEqual((done.returncode, done.stdout), (2, ""))
                self.assertIn(said, done.stderr)
                self.assertFalse((self.folder / "page").exists())


class Gaps(ReportsTest):
    """bovtrila-gaps."""

    HEADING = "gate,first,last,touches,missing,numbers"

    def gaps(self, rows: str | list[str], *words: object) -> tuple[int, list[str], str]:
        """The status, the lines and standard error for a file of these rows."""
        text = rows if isinstance(rows, str) else csv(HISTORY, rows)
        done = script("gaps", self.write("history.csv", text), *words)
        self.assertNotIn("Traceback", done.stderr)
        return done.returncode, done.stdout.split("\n")[:-1], done.stderr

    def numbered(self, *names: tuple[int, int]) -> list[str]:
        """Rows of issues that were refused, of these gates and numbers."""
        return [f"{place},2025-01-06T07:40:00Z,2025-01-06,{gate},{number},0,issue,,,UnknownCard,0,0"
                for place, (gate, number) in enumerate(names)]

    def test_a_gate_that_counts_up_has_no_gap(self) -> None:
        # In any order, from any number on.
        rows = self.numbered((7, 2), (9, 100), (7, 1), (7, 3), (9, 101))
        self.assertEqual(self.gaps(rows), (0, [self.HEADING, "7,1,3,3,0,", "9,100,101,2,0,"], ""))
        self.assertEqual(self.gaps(Worked.rows())[:2], (0, [self.HEADING, "7,1,29,29,0,"]))
        self.assertEqual(self.gaps([]), (0, [self.HEADING], ""))

    def test_missing_numbers_are_listed_by_gate(self) -> None:
        rows = self.numbered((9, 10), (9, 12), (9, 24), (9, 27), (7, 0), (7, 4294967295), (8, 5))
        self.assertEqual(self.gaps(rows), (3, [self.HEADING, "7,0,4294967295,2,4294967294,1-4294967294", "8,5,5,1,0,",
                                               "9,10,27,4,14,11 13-23 25-26"], ""))
        self.assertEqual(self.gaps(rows, "--gate", 9, "--most", 1)[:2],
                         (3, [self.HEADING, "9,10,27,4,14,11 and 13 more"]))
        self.assertEqual(self.gaps(rows, "--gate", 8, "--gate", 6),
                         (0, [self.HEADING, "8,5,5,1,0,"], "gaps: history.csv: no touch of gate 6\n"))

    def test_revisions_of_gate_65535_are_numbered_by_days_and_are_no_gap(self) -> None:
        digest = "96" * 32
        rows = [f"{place},2025-01-06T08:00:00Z,{day},65535,{number},,revision,{digest},,Revised,0,0"
                for place, (day, number) in enumerate((("2025-01-07", 20095), ("2025-02-01", 20120)))]
        self.assertEqual(self.gaps(rows), (0, [self.HEADING], ""))
        # Asked for by its number, that gate is listed with them.
        self.assertEqual(self.gaps(rows, "--gate", 65535),
                         (3, [self.HEADING, "65535,20095,20120,2,24,20096-20119"], ""))
        # Its other touches count up one by one.
        rows += [f"{place},2025-01-06T07:40:00Z,2025-01-06,65535,{number},{place},issue,,,Issued,0,0"
                 for place, number in ((2, 100000), (3, 100002))]
        self.assertEqual(self.gaps(rows)[:2], (3, [self.HEADING, "65535,100000,100002,2,1,100001"]))

    def test_touches_that_were_taken_out_of_a_journal_show(self) -> None:
        """A station's day without three touches of one gate: what is written of the others is judged anew."""
        whole = Day(6, 60).station
        gate = collections.Counter(wire.number_at(frame, 3, 2) for frame in whole.history).most_common(1)[0][0]
        of_it = [place for place, frame in enumerate(whole.history) if wire.number_at(frame, 3, 2) == gate]
        less = model.Station(whole.schedule.first, 60)
        for place, frame in enumerate(whole.history):
            if place not in of_it[3:6]:
                less.answer(frame)
        before, after = (self.gaps(history_of(each), "--most", 1000)[1] for each in (whole, less))
        missing = [{line.split(",")[0]: set(self.spread(line.split(",")[5])) for line in lines[1:]}
                   for lines in (before, after)]
        taken = {wire.number_at(whole.history[place], 5, 4) for place in of_it[3:6]}
        self.assertEqual(missing[1].pop(str(gate)) - missing[0].pop(str(gate)), taken)
        self.assertEqual(missing[0], missing[1])

    @staticmethod
    def spread(text: str) -> Iterator[int]:
        """All numbers of a text like '11 25-26'."""
        for part in text.split():
            low, _, high = part.partition("-")
            yield from range(int(low), int(high or low) + 1)

    def test_what_is_wrong_with_the_file_is_told_in_a_line(self) -> None:
        rows = self.numbered((7, 1), (7, 2), (7, 3))
        wrong: tuple[tuple[str | list[str], str], ...] = (
            ("", "line 1: the file is empty"), (csv(BALANCES, []), "line 1: 'card,state,"),
            (rows[:1] + rows[2:], "line 3: place 1 is missing before place 2"),
            (self.numbered((7, 1), (7, 1)), "place 1: gate 7 has number 1 twice"))
        for text, said in wrong:
            with self.subTest(said):
                status, lines, told = self.gaps(text)
                self.assertEqual((status, lines), (1, []))
                self.assertTrue(told.startswith(f"gaps: history.csv: {said}"), told)
        done = script("gaps", self.folder / "none")
        self.assertEqual((done.returncode, done.stdout, done.stderr),
                         (1, "", "gaps: none: No such file or directory; name a file that can be read\n"))
        with open("/dev/full", "w", encoding="ascii") as full:
            done = subprocess.run([BIN / "bovtrila-gaps", self.write("history.csv", csv(HISTORY, rows))], stdout=full,
                                  stderr=subprocess.PIPE, text=True, timeout=TIME)
        self.assertEqual((done.returncode, done.stderr),
                         (1, "gaps: standard output: No space left on device; the lines aren't whole\n"))

    def test_a_wrong_command_line_and_standard_input(self) -> None:
        for words in ((), ("history.csv", "--gate", "-1"), ("history.csv", "--most", "x"), ("a", "b")):
            done = script("gaps", *words)
            self.assertEqual((done.returncode, done.stdout), (2, ""), words)
        done = script("gaps", "-", input=csv(HISTORY, self.numbered((7, 1), (7, 3))))
        self.assertEqual((done.returncode, done.stdout, done.stderr), (3, f"{self.HEADING}\n7,1,3,2,1,2\n", ""))
        self.assertIn("bovtrila-gaps history.csv --gate 7", script("gaps", "--help").stdout)


@unittest.skipUnless(has_libraries(), "the tests of pages need libraries: apt-get install python3-matplotlib python3-jinja2")
class Pages(ReportsTest):
    """The pages that bovtrila-day-report makes, charts and all."""

    def made(self, rows: str | list[str], *words: object, name: str = "history.csv", told: str = "") -> str:
        """The page of a file of these rows."""
        path, page = self.write(name, rows if isinstance(rows, str) else csv(HISTORY, rows)), self.folder / "page.html"
        done = script("day-report", path, "-o", page, *words)
        self.assertEqual((done.returncode, done.stdout, done.stderr), (0, "", told))
        return page.read_text(encoding="utf-8")

    def assert_stands_alone(self, page: str, charts: int) -> None:
        """The page names no other file, its charts are whole, and no id stands in it twice."""
        self.assertEqual(re.findall(r'(?:src|href)="(?!#)[^"]*"|@import|<script|<link|url\((?!#)', page), [])
        drawn = re.findall(r"<svg.*?</svg>", page, re.S)
        self.assertEqual(len(drawn), charts)
        for svg in drawn:
            xml.etree.ElementTree.fromstring(svg)
        ids = re.findall(r'\sid="([^"]*)"', page)
        self.assertEqual(len(ids), len(set(ids)))
        self.assertEqual(set(re.findall(r'(?:href="|url\()#([^")]*)', page)) - set(ids), set())

    def test_a_day_has_its_charts_and_numbers(self) -> None:
        page = self.made([*Worked.rows(), Worked.revision(29, "2025-01-06", "BadDay")], "--day", "2025-01-06",
                         "--table", EXAMPLE)
        self.assert_stands_alone(page, 4)
        self.assertIn("<h1>Station report: Monday 2025-01-06</h1>\n<p class=\"of\">history.csv</p>", page)
        for text in ('<div class="tile"><strong>29</strong><span>touches of cards</span>'
                     '<small>5 cards, 1 gate</small></div>',
                     '<strong>£55.50</strong><span>charged</span>', '<strong>£151.90</strong><span>paid in</span>',
                     '<strong>10</strong><span>refused</span><small>34.5 % of the touches</small>',
                     '<strong>4</strong><span>maximum charges</span><small>£34.00</small>',
                     '<strong>2</strong><span>cards inside at the end</span><small>hold £18.00</small>',
                     '<strong>?</strong><span>silent gates</span><small>the file has no touch of the week before</small>',
                     "The file has no touch of 2024-12-30, the same weekday before.",
                     '<td>OverLimit</td><td>above the balance limit</td><td class="n">3</td>',
                     '<td>08:00</td><td class="n">5</td><td class="n">1</td><td class="n">0</td><td class="n">0</td>',
                     '<td>3</td><td class="n">£18.00</td><td class="n">£20.00</td><td class="n">4</td>',
                     '<td>touch in: its touch out came too late</td><td class="n">1</td><td class="n">£9.00</td>',
                     '<td>1</td><td>in</td><td>2025-01-06 08:00:00, Birch (2)</td><td>its touch out came too late</td>'
                     '<td>2025-01-06 09:30:01, Alder (1)</td><td>19</td><td class="n">£9.00</td>',
                     '<td>3</td><td>out</td><td>2025-01-06 08:00:00, Alder (1)</td><td>no touch in before it</td>'
                     '<td>itself</td><td>13</td><td class="n">£9.00</td>',
                     '<td>4</td><td>2025-01-06 08:00:00, Birch (2)</td><td class="n">£9.00</td>'
                     '<td>the file has no later touch of this card</td>',
                     '<td>Mon 08:00</td><td class="n">£0.00</td><td class="n">£48.50</td><td class="n">£61.90</td>'
                     '<td class="n">£48.50</td>',
                     f'<td class="d">{"96" * 32}</td><td>BadDay</td>'):
            self.assertIn(text, page)
        # Rows are folded up, but for the sums of the maxima.
        unfolded = re.sub("<details>.*?</details>", "", page, flags=re.S)
        self.assertEqual(unfolded.count("<table>"), 1)

    def test_what_is_nothing_has_no_row(self) -> None:
        """One touch is refused, no hour but one has money, and no maximum and no card inside is left."""
        page = self.made(Worked.rows("07:40:00 1 issue Issued 0 0 | 07:41:00 1 top-up 2000 ToppedUp 2000 2000 | "
                                     "08:00:00 1 issue AlreadyIssued 0 2000 | 09:00:00 1 in 2 Entered -900 1100 | "
                                     "09:10:00 1 out 1 Exited 550 1650"), "--day", "2025-01-06")
        self.assertIn("AlreadyIssued", page)
        for name in ("UnknownCard", "LowBalance", "Mon 08:00", "EnteredOverOpen"):
            self.assertNotIn(name, page)
        for text in ("No card was inside.", "No touch was charged a maximum, as far as the file tells.",
                     "<strong>0</strong><span>maximum charges</span>"):
            self.assertIn(text, page)

    def test_a_page_of_a_week_has_the_week_before_and_the_silent_gates(self) -> None:
        rows = [row.replace(",7,", ",8,", 1) if place < 9 else row for place, row in enumerate(Worked.rows())]
        later = ("08:00:00 1 top-up 1000 ToppedUp 1000 1400 | 08:10:00 1 in 2 Entered -900 500 | "
                 "09:00:00 6 in 9 UnknownCard 0 0")
        page = self.made(rows + Worked.rows(later, "2025-01-13", 29), "--day", "2025-01-13")
        for text in ("<strong>3</strong><span>touches of cards</span><small>1 card, 1 gate</small>"
                     "<small>Mon 06 Jan: 29 (-90 %)</small>",
                     "<strong>£10.00</strong><span>paid in</span><small>Mon 06 Jan: £151.90 (-93 %)</small>",
                     "<strong>1</strong><span>refused</span><small>33.3 % of the touches</small>"
                     "<small>Mon 06 Jan: 10 (-90 %)</small>",
                     "<strong>0</strong><span>maximum charges</span><small>£0.00</small>"
                     "<small>Mon 06 Jan: 4 (-100 %)</small>",
                     "<strong>1</strong><span>silent gate</span><small>gate 8</small>",
                     "<td>8</td><td>Mon 2025-01-06 07:44:00</td><td>9</td>"):
            self.assertIn(text, page)

    def test_stations_without_a_table_have_their_numbers(self) -> None:
        page = self.made(Worked.rows())
        self.assertIn("<td>2025-01-06 08:00:00, station 2</td>", page)
        for text, said in ((None, "No such file or directory; name a fare table that can be read"),
                           ("zone = ", "this is no fare table"), ("zone = 1", "this is no fare table")):
            path = self.folder / "table.toml"
            if text is not None:
                path.write_text(text)
            done = script("day-report", self.folder / "history.csv", "-o", self.folder / "other", "--table", path)
            self.assertEqual((done.returncode, done.stdout), (1, ""))
            self.assertIn(f"day-report: {path}: {said}", done.stderr)
            self.assertNotIn("Traceback", done.stderr)
        self.assertFalse((self.folder / "other").exists())

    def test_several_days_are_added_up(self) -> None:
        page = self.made(history_of(Day(4, 60).station))
        self.assert_stands_alone(page, 4)
        self.assertIn("Station report: 2025-01-05 to 2025-01-06", page)
        self.assertIn("The 2 fare days are added up.", page)

    def test_the_same_file_makes_the_same_page(self) -> None:
        text = history_of(Day(5, 40).station)
        self.assertEqual(self.made(text), self.made(text))

    def test_a_day_with_nothing_says_so(self) -> None:
        last = "the last touch of the file is of 2025-01-06"
        days: tuple[tuple[list[str], list[str], str, str], ...] = (
            (Worked.rows(), ["--day", "2025-01-07"], "bears the fare day 2025-01-07.",
             f"no touch of the fare day 2025-01-07; {last}"),
            ([], [], "bears any day: the file has none.", "no touch of a card"),
            ([Worked.revision(0, "2025-01-07", "Revised")], ["--day", "2025-01-07"],
             "bears the fare day 2025-01-07.",
             "no touch of the fare day 2025-01-07; the file has no touch at all"))
        for rows, words, said, told in days:
            with self.subTest(said):
                page = self.made(rows, *words, told=f"day-report: history.csv: {told}\n")
                self.assert_stands_alone(page, 0)
                self.assertIn(said, page)
                self.assertEqual("96" * 32 in page, len(rows) == 1)
        # A day without a touch has silent gates.
        page = self.made(Worked.rows(), "--day", "2025-01-07",
                         told=f"day-report: history.csv: no touch of the fare day 2025-01-07; {last}\n")
        self.assertIn("<h2>Silent gates</h2>", page)

    def test_yesterday_is_taken_for_a_day(self) -> None:
        """The touch was yesterday whatever the clock shows: at noon 24 hours ago, by this machine's clock."""
        def day_before(moment: float) -> str:
            """The fare day before that of a moment."""
            begins = datetime.timedelta(days=1, hours=4, minutes=30)
            return (datetime.datetime.fromtimestamp(moment, LONDON) - begins).date().isoformat()

        begin_in_day(day_before)
        date = day_before(time.time())
        row = f"0,{date}T12:00:00Z,{date},7,1,6,issue,,,UnknownCard,0,0"
        self.assertIn(f" {date}</h1>", self.made([row], "--day", "yesterday"))

    def test_small_days_are_drawn(self) -> None:
        rows = Worked.rows()
        for count in (1, 2, 12):
            self.assert_stands_alone(self.made(rows[:count]), {1: 2, 2: 2, 12: 4}[count])

    def test_names_are_escaped(self) -> None:
        table = self.folder / "table.toml"
        table.write_text(EXAMPLE.read_text().replace('"Birch"', "'<b>\"&$x$'"))
        page = self.made(Worked.rows(), "--table", table, name="<b>&$x$.csv")
        self.assertEqual(page.count("&lt;b&gt;&amp;$x$.csv"), 3)
        self.assertIn("<td>2025-01-06 08:00:00, &lt;b&gt;&#34;&amp;$x$ (2)</td>", page)
        self.assertNotIn("<b>", page)

    def test_standard_input_is_read(self) -> None:
        page = self.folder / "page.html"
        done = script("day-report", "-", "-o", page, input=csv(HISTORY, Worked.rows()))
        self.assertEqual((done.returncode, done.stderr), (0, ""))
        self.assertIn('<p class="of">standard input</p>', page.read_text(encoding="utf-8"))

    def test_a_fault_is_told_and_no_page_is_made(self) -> None:
        bad, good = self.write("bad.csv", csv(HISTORY, [""])), self.write("good.csv", csv(HISTORY, Worked.rows()))
        for words, said in (([bad, "-o", self.folder / "page"], "day-report: bad.csv: line 2: it has 1 fields"),
                            ([self.folder / "none", "-o", self.folder / "page"], "none: No such file or directory"),
                            ([good, "-o", self.folder / "none" / "page"], "No such file or directory; name a file")):
            with self.subTest(said):
                done = script("day-report", *words)
                self.assertEqual((done.returncode, done.stdout), (1, ""))
                self.assertIn(said, done.stderr)
                self.assertNotIn("Traceback", done.stderr)
        self.assertFalse((self.folder / "page").exists())
