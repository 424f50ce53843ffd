"""Compares the built program with a reference model of the station (bovtrila.model), answer by answer.

It needs crates/tap_server/out/tap_server, which `rt ci` leaves there. The requests are generated from a fixed seed. The
model itself is checked with examples that were worked out by hand (`Worked`), and the generated requests with models with
wrong rules, each of which must answer one of them differently (`Wrong`); neither needs the program.
"""
import pathlib
import random
import struct
import tempfile
import unittest
import unittest.mock
from collections.abc import Iterable, Sequence
from typing import Any, TypeAlias

import harness
from bovtrila import codec, model
from harness import EXAMPLE, REVISED, lines, run

# Two-zone stations, named pairs with minutes of their own, caps of both kinds, and a clock that goes back from 06:00 to
# 00:00 on 2025-01-07, over the beginning of the fare day.
OTHER = """zone = "STD0DST-6,J6/12,J7/6"
entry_minimum = 150
balance_limit = 20000
leg_minutes = 45
evening_rule = true
maximum_peak = 800
maximum_off_peak = 600
holidays = ["2025-01-08"]
station = [
  {id = 10, name = "Ash", zones = [1]},
  {id = 11, name = "Beech", zones = [1, 2]},
  {id = 12, name = "Cherry", zones = [2, 3]},
  {id = 13, name = "Elm", zones = [3]},
  {id = 14, name = "Fir", zones = [2]},
]
single = [
  {low = 1, high = 1, peak = 280, off_peak = 270},
  {low = 1, high = 2, peak = 340, off_peak = 280},
  {low = 1, high = 3, peak = 380, off_peak = 300},
  {low = 2, high = 2, peak = 200, off_peak = 200},
  {low = 2, high = 3, peak = 200, off_peak = 180},
  {low = 3, high = 3, peak = 210, off_peak = 190},
]
pair = [
  {from = 10, to = 13, lo = 1, hi = 3, peak = 330, off_peak = 250, minutes = 60},
  {from = 14, to = 11, lo = 2, hi = 2, peak = 150, off_peak = 120},
]
cap = [
  {lo = 1, hi = 3, kind = "anytime", price = 900},
  {lo = 1, hi = 3, kind = "off-peak", price = 700},
  {lo = 2, hi = 3, kind = "anytime", price = 450},
  {lo = 2, hi = 2, kind = "off-peak", price = 250},
]
interchange = [{a = 10, b = 11, minutes = 15}, {a = 13, b = 14, minutes = 20}]
"""

# Revised tables: of a table's text these are replaced, in the example and in the one above. Each has at least one other
# rule that the fares of a journey, the entry charges, the limits, the caps or the windows go by.
CHANGES = [
    [("maximum_peak = 900", "maximum_peak = 1000"),
     ("high = 2, peak = 350, off_peak = 290", "high = 2, peak = 380, off_peak = 300")],
    [("price = 850", "price = 500"), ("price = 600", "price = 350"),
     ("maximum_off_peak = 700", "maximum_off_peak = 450")],
    [("leg_minutes = 90", "leg_minutes = 45"), ("off_peak = 200}]", "off_peak = 200, minutes = 60}]")],
    [("minutes = 10", "minutes = 15"), ("b = 4", "b = 3")],
    [("evening_rule = true", "evening_rule = false"),
     ('["2025-12-25"]', str([f"2025-01-{day:02}" for day in range(7, 32)]).replace("'", '"'))],
    [("entry_minimum = 190", "entry_minimum = 1500"), ("balance_limit = 9000", "balance_limit = 5000")],
    [('"Birch", zones = [2]', '"Birke", zones = [1, 2]'), ('"Damson", zones = [1]', '"Damson", zones = [3]')],
    [("pair = [{from = 2, to = 4", "pair = [{from = 3, to = 1"), ("lo = 1, hi = 3", "lo = 2, hi = 3"),
     ('lo = 1, hi = 2, kind = "off-peak"', 'lo = 2, hi = 3, kind = "off-peak"')],
    [("peak = 300, off_peak = 250", "peak = 310, off_peak = 310"), ("minutes = 10", "minutes = 20"),
     ("leg_minutes = 90", "leg_minutes = 60"), ("maximum_off_peak = 700", "maximum_off_peak = 900")],
]
OTHER_CHANGES = [
    [("maximum_peak = 800", "maximum_peak = 950"), ("maximum_off_peak = 600", "maximum_off_peak = 400")],
    [("leg_minutes = 45", "leg_minutes = 90"), ("minutes = 15", "minutes = 10"), ("price = 900", "price = 600")],
    [("entry_minimum = 150", "entry_minimum = 2000"), ("balance_limit = 20000", "balance_limit = 9000"),
     ("evening_rule = true", "evening_rule = false")],
    [("price = 450", "price = 300"), ("price = 700", "price = 350"), ("minutes = 20", "minutes = 10"),
     ('["2025-01-08"]', '["2025-01-07", "2025-01-10", "2025-01-15"]')],
]

MONDAY = 1736121600
# The texts that each of some revised tables replaces.
Changes: TypeAlias = Iterable[Iterable[tuple[str, str]]]
# Of a run with revisions the days that it lasts, and how many revisions it has.
DAYS, REVISIONS = 45, 400


def revised(text: str, changes: Changes) -> list[str]:
    """The texts of the tables that these changes make of a table's."""
    texts: list[str] = []
    for pairs in changes:
        texts.append(text)
        for old, new in pairs:
            assert texts[-1].count(old) == 1, old
            texts[-1] = texts[-1].replace(old, new)
    return texts


class Requests:
    """Requests of a busy station: travel, gaps, repeats, conflicts, enquiries, and what is refused."""

    # Seconds since the card's last touch: around the limits of interchanges and legs, and over the fare day's end.
    GAPS = (-60, 0, 1, 300, 599, 600, 601, 899, 900, 901, 1200, 1201, 1500, 2700, 2701, 3600, 3601, 5400, 5401, 20_000)

    def __init__(self, seed: int, table: model.Table, cards: int) -> None:
        self.random = random.Random(seed)
        self.stations = [*table.stations]
        self.cards = cards
        self.clock = {card: MONDAY + 4 * 3600 for card in range(1, cards + 1)}
        self.inside: set[int] = set()
        self.sent: list[bytes] = []

    def next(self) -> bytes:
        draw = self.random.random()
        card = self.random.randint(0, self.cards + 1) if draw < 0.01 else self.random.randint(1, self.cards)
        if draw > 0.95:
            return codec.enquiry(card)
        if draw > 0.90 and self.sent:
            frame = self.random.choice(self.sent)
            # The last byte is of the moment.
            return frame if draw > 0.92 else frame[:-1] + bytes([frame[-1] ^ 1])
        frame = self.touch(draw, card, (self.random.randint(1, 5), len(self.sent) + 1, card))
        self.sent.append(frame)
        return frame

    def touch(self, draw: float, card: int, name: tuple[int, int, int]) -> bytes:
        moment = self.clock.get(card, MONDAY)
        if card not in self.clock or (moment == MONDAY + 4 * 3600 and draw < 0.8) or draw < 0.03:
            self.clock[card] = moment + 60
            return codec.touch(codec.ISSUE, *name, moment)
        if draw < 0.30:
            pence = self.random.choice((0, 1, 500, 4000, 4000, 5000, 9000, 9000, 50_000, 50_001))
            return codec.touch(codec.TOP_UP, *name, pence, self.paid_at(moment))
        moment += self.random.choice(self.gaps(card))
        self.clock[card] = max(moment, self.clock[card])
        # Nine times in ten a card goes out where it went in.
        enters = (card in self.inside) == (self.random.random() < 0.1)
        self.inside ^= {card} if enters != (card in self.inside) else set()
        station = 9999 if self.random.random() < 0.02 else self.random.choice(self.near(card))
        return codec.touch(codec.ENTER if enters else codec.LEAVE, *name, station, moment)

    def paid_at(self, moment: int) -> int:
        """The moment of a top-up of a card whose last touch had this one."""
        return moment

    def gaps(self, _: int) -> Sequence[int]:
        """The seconds that there may be before a card's next touch."""
        return self.GAPS

    def near(self, _: int) -> Sequence[int]:
        """The stations that a card's next touch may be at; the card is inside where it is a touch in."""
        return self.stations


class Revising(Requests):
    """Requests of a station whose fares are revised, over some weeks: the time goes on with each request, cards travel
    around the end of the fare day, and revisions are of good and bad days, and of tables that are there or aren't."""

    def __init__(self, seed: int, tables: Sequence[model.Table], cards: int, count: int) -> None:
        super().__init__(seed, tables[0], cards)
        self.digests = [table.digest for table in tables]
        pairs = [tuple(pair) for table in tables for pair in table.interchanges]
        self.partners = {station: [sum(pair) - station for pair in pairs if station in pair]
                         for station in self.stations}
        self.now, self.step, self.rate = MONDAY + 4 * 3600, DAYS * 86_400 // count, REVISIONS / count
        self.revisions: list[bytes] = []
        self.last: dict[int, int] = {}

    def next(self) -> bytes:
        self.now += self.step
        draw = self.random.random()
        if draw > 1.2 * self.rate:
            return super().next()
        if draw > self.rate and self.revisions:
            frame = self.random.choice(self.revisions)
            # Again, or with another digest or another day under the same name.
            place = self.random.choice((0, 13, 48))
            return frame[:place] + bytes([frame[place] ^ 1]) + frame[place + 1:] if place else frame
        frame = self.revision()
        self.revisions.append(frame)
        self.sent.append(frame)
        return frame

    def revision(self) -> bytes:
        """A revision to one of the tables, or to none that is there, from a day around the present one on."""
        known = self.random.random() < 0.85
        digest = self.random.choice(self.digests) if known else self.random.randbytes(32)
        day = self.now // 86_400 + self.random.choice((-400, -1, -1, 0, 0, 0, 0, 1, 1, 2))
        name = self.random.randint(1, 5), len(self.sent) + 1, self.random.randint(0, self.cards + 1)
        return codec.touch(codec.REVISE, *name, digest, day, self.random.choice((0, self.now, 2**32 - 1)))

    def touch(self, draw: float, card: int, name: tuple[int, int, int]) -> bytes:
        moment, jump = self.clock.get(card, MONDAY), self.random.random()
        if card in self.clock and moment != MONDAY + 4 * 3600 and jump < 0.3:
            # To the present, or to the last hour before the end of the last fare day.
            end = self.now // 86_400 * 86_400 + 4 * 3600 + 1800
            self.clock[card] = max(moment, self.now if jump < 0.15 else end - self.random.randrange(3600))
        return super().touch(draw, card, name)

    def gaps(self, card: int) -> Sequence[int]:
        outside = card in self.last and card not in self.inside
        return (300, 599, 600, 601, 899, 900, 901, 1200, 1201) if outside and self.random.random() < 0.5 else self.GAPS

    def near(self, card: int) -> Sequence[int]:
        """Half of the touches in are where the card may go on with its journey by some table."""
        partners = self.partners[self.last[card]] if card in self.last and card in self.inside else []
        self.last[card] = self.random.choice(partners if partners and self.random.random() < 0.5 else self.stations)
        return [self.last[card]]

    def paid_at(self, moment: int) -> int:
        """Top-ups have any moment."""
        return self.random.choice((moment, moment, moment - 10 * 86_400, moment + 10 * 86_400, 0, 2**32 - 1))


# The first example: card 1 is issued and paid 2000, goes in at 2 on Monday 2025-01-06 at 08:00 and out at 1 at 08:25.
FIRST = [bytes.fromhex(asked) for asked, _ in harness.vectors()["first example"]]
# The fare day of the first example, and 04:30 on the morning of the next one, a Tuesday.
DAY, MORNING = 20094, MONDAY + 86_400 + 4 * 3600 + 1800


class Worked(unittest.TestCase):
    """The model, by examples that were worked out by hand from the rules."""

    def table(self, *changes: tuple[str, str]) -> model.Table:
        """The example table with these texts replaced."""
        text, = revised(EXAMPLE.read_text(), [changes])
        return model.Table(text)

    def answered(self, station: model.Station, frame: bytes) -> tuple[Any, ...]:
        """The verdict, the change and the balance that a station answers."""
        answer = station.answer(frame)
        self.assertEqual(answer[2], codec.REPLY, answer.hex())
        return struct.unpack(">Biq", answer[9:])

    def judged(self, changes: Iterable[tuple[str, str]], *touches: tuple[int, ...], first: int = DAY + 1) -> None:
        """Revises the table from a fare day on, and compares what touches of card 1 with 2000 pence are answered: each
        is a kind, its station or pence, its seconds behind 04:30 on Tuesday, and the answer."""
        table = self.table(*changes)
        station = model.Station(self.table(), 10, supplied=[table])
        for frame in FIRST[:2]:
            station.answer(frame)
        self.assertEqual(self.answered(station, codec.touch(codec.REVISE, 8, 0, 0, table.digest, first, 0)), (9, 0, 0))
        for number, (kind, value, seconds, *wanted) in enumerate(touches, 1):
            frame = codec.touch(kind, 8, number, 1, value, MORNING + seconds)
            self.assertEqual(self.answered(station, frame), tuple(wanted), f"touch {number}")

    def test_a_revision_counts_from_its_fare_day_on(self) -> None:
        table = model.Table(REVISED.read_text())
        station = model.Station(self.table(), 10, supplied=[table])
        digest = table.digest.hex()
        for frame in FIRST:
            station.answer(frame)
        for asked, answered in (
                (f"0033 06 0007 00000005 00000000 {digest} 00004e7e 677b8d80",
                 "0014 81 0007 00000005 1b 00000000 0000000000000000"),
                (f"0033 06 0007 00000006 00000000 {digest} 00004e7f 677b8d80",
                 "0014 81 0007 00000006 09 00000000 0000000000000000"),
                # Tuesday 04:25 in at 2, 04:50 out at 1; 08:00 in at 2, 08:25 out at 1.
                ("0011 01 0007 00000007 00000001 0002 677cac9c", "0014 81 0007 00000007 01 fffffd44 00000000000003b6"),
                ("0011 02 0007 00000008 00000001 0001 677cb278", "0014 81 0007 00000008 04 0000019a 0000000000000550"),
                ("0011 01 0007 00000009 00000001 0002 677cdf00", "0014 81 0007 00000009 01 fffffc18 0000000000000168"),
                ("0011 02 0007 0000000a 00000001 0001 677ce4dc", "0014 81 0007 0000000a 04 0000026c 00000000000003d4")):
            self.assertEqual(station.answer(bytes.fromhex(asked)).hex(), answered.replace(" ", ""))
        self.assertEqual(model.fault_of(station.history, model.Schedule(self.table())), (13, "MissingTable", 4))
        self.assertIsNone(model.fault_of(station.history, model.Schedule(self.table(), [table])))

    def test_an_unknown_table_is_no_entry(self) -> None:
        table = model.Table(REVISED.read_text())
        revision = bytes.fromhex(f"0033060007000000060000000{0}{table.digest.hex()}00004e7f677b8d80")
        station, full = model.Station(self.table(), 10), model.Station(self.table(), 10, 4)
        for frame in FIRST:
            self.assertEqual(station.answer(frame), full.answer(frame))
        for each in (station, full):
            self.assertEqual(each.answer(revision).hex(), "0008ff06000700000006")
            self.assertEqual(each.history, FIRST)
        known = model.Station(self.table(), 10, 4, [table])
        for frame in FIRST:
            known.answer(frame)
        self.assertEqual(known.answer(revision).hex(), "0008ff05000700000006")
        # Under a number that is used already it is a conflict.
        used = revision[:5] + FIRST[0][5:9] + revision[9:]
        self.assertEqual(station.answer(used).hex(), "0008ff02000700000001")

    def test_a_table_is_supplied_or_refused_by_the_first_cause(self) -> None:
        schedule = model.Schedule(self.table())
        zone = 'zone = "GMT0BST,M3.5.0/1,M10.5.0"', 'zone = "GMT0"'
        fewer = '  {id = 5, name = "Elder", zones = [2, 3]},\n', ""
        self.assertEqual(schedule.supply(self.table()), (2, "Twice"))
        self.assertEqual(schedule.supply(self.table(zone)), (3, "OtherZone"))
        self.assertEqual(schedule.supply(self.table(zone, fewer)), (3, "OtherZone"))
        self.assertEqual(schedule.supply(self.table(fewer)), (4, "OtherStations"))
        self.assertIsNone(schedule.supply(model.Table(REVISED.read_text())))
        for price in range(1, 15):
            self.assertIsNone(schedule.supply(self.table(("price = 850", f"price = {price}"))))
        self.assertEqual(schedule.supply(self.table(("price = 850", "price = 15"))), (5, "TooMany"))
        self.assertEqual(schedule.supply(self.table(fewer)), (4, "OtherStations"))
        self.table()

    def test_a_legs_limit_is_that_of_its_own_touch_in(self) -> None:
        shorter = [("leg_minutes = 90", "leg_minutes = 45")]
        # In at 04:00, of the day before: 90 minutes. In at 04:30: 45, so an hour is too long, and 700 are paid twice.
        self.judged(shorter, (codec.ENTER, 2, -1800, 1, -700, 1300), (codec.LEAVE, 1, 1800, 4, 410, 1710))
        self.judged(shorter, (codec.ENTER, 2, 0, 1, -700, 1300), (codec.LEAVE, 1, 3600, 6, -700, 600))

    def test_an_interchange_goes_by_the_touch_in_that_goes_on(self) -> None:
        longer = [("minutes = 10", "minutes = 15")]
        # In 2 at 04:00, out 1 at 04:20: 290. In 4 at 04:34, after 14 minutes: the new table's 15 allow it. It takes the
        # first table's 700. Out 3 at 05:00: 210 from 2 to 3 in place of 290.
        self.judged(longer, (codec.ENTER, 2, -1800, 1, -700, 1300), (codec.LEAVE, 1, -600, 4, 410, 1710),
                    (codec.ENTER, 4, 240, 2, -700, 1010), (codec.LEAVE, 3, 1800, 4, 780, 1790))
        # In 4 at 04:29, after 12 minutes, of the day before: the first table's 10 don't.
        self.judged(longer, (codec.ENTER, 2, -1800, 1, -700, 1300), (codec.LEAVE, 1, -780, 4, 410, 1710),
                    (codec.ENTER, 4, -60, 1, -700, 1010))

    def test_a_journey_that_goes_on_is_charged_by_the_table_of_its_first_touch_in(self) -> None:
        dearer = [("maximum_off_peak = 700", "maximum_off_peak = 800"),
                  ("peak = 240, off_peak = 210", "peak = 240, off_peak = 150")]
        # In 2 at 04:10, out 1 at 04:25, on in 4 at 04:30: the first table's 700 and not 800. Out 3 at 05:00: its 210
        # from 2 to 3 in place of 290, and not 150.
        self.judged(dearer, (codec.ENTER, 2, -1200, 1, -700, 1300), (codec.LEAVE, 1, -300, 4, 410, 1710),
                    (codec.ENTER, 4, 0, 2, -700, 1010), (codec.LEAVE, 3, 1800, 4, 780, 1790))

    def test_an_incomplete_touch_is_charged_by_its_own_fare_day(self) -> None:
        dearer = [("maximum_off_peak = 700", "maximum_off_peak = 800")]
        # In at 04:25 and again at 04:35: 700 by the first table, and 800.
        self.judged(dearer, (codec.ENTER, 2, -300, 1, -700, 1300), (codec.ENTER, 2, 300, 3, -800, 500))
        # Out without a touch in at 04:25: 700; and at 04:35: 800. Late at 06:01 after 04:25: 700, and 800 beside them.
        self.judged(dearer, (codec.LEAVE, 2, -300, 5, -700, 1300), (codec.LEAVE, 2, 300, 5, -800, 500))
        self.judged(dearer, (codec.ENTER, 2, -300, 1, -700, 1300), (codec.LEAVE, 1, 5460, 6, -800, 500))

    def test_the_entry_minimum_and_the_balance_limit_are_those_of_the_touchs_own_day(self) -> None:
        other = [("entry_minimum = 190", "entry_minimum = 2001"), ("balance_limit = 9000", "balance_limit = 5000")]
        self.judged(other, (codec.ENTER, 2, 0, 24, 0, 2000), (codec.ENTER, 2, -1, 1, -700, 1300))
        self.judged(other, (codec.TOP_UP, 3001, 0, 26, 0, 2000), (codec.TOP_UP, 3001, -1, 7, 3001, 5001),
                    (codec.TOP_UP, 1, 0, 26, 0, 5001), (codec.TOP_UP, 1, -1, 7, 1, 5002))

    def test_windows_have_the_holidays_of_the_touchs_own_day(self) -> None:
        # Tuesday at 08:00 is off-peak where it is a holiday. The holiday is of the table that counts on it.
        holiday = [('["2025-12-25"]', '["2025-01-07"]')]
        self.judged(holiday, (codec.ENTER, 2, 12_600, 1, -700, 1300), (codec.LEAVE, 1, 14_100, 4, 410, 1710))
        self.judged(holiday, (codec.ENTER, 2, 12_600, 1, -900, 1100), first=DAY + 2)

    def test_caps_are_those_of_the_journeys_fare_day(self) -> None:
        # In 2 and out 1 at 04:00 to 04:10, 04:15 to 04:25 and 04:28 to 04:40, all of Monday's fare day: 290, 290 and
        # 20, by the first table's off-peak cap of 600. Then 05:00 to 05:10 of Tuesday's: 100, by the new table's cap.
        capped = [("price = 600", "price = 100")]
        self.judged(capped, (codec.ENTER, 2, -1800, 1, -700, 1300), (codec.LEAVE, 1, -1200, 4, 410, 1710),
                    (codec.ENTER, 2, -900, 1, -700, 1010), (codec.LEAVE, 1, -300, 4, 410, 1420),
                    (codec.ENTER, 2, -120, 1, -700, 720), (codec.LEAVE, 1, 600, 4, 680, 1400),
                    (codec.ENTER, 2, 1800, 1, -700, 700), (codec.LEAVE, 1, 2400, 4, 600, 1300))

    def test_a_revision_looks_at_the_travel_of_every_card_and_at_the_last_revision(self) -> None:
        table = self.table(("price = 850", "price = 800"))
        station = model.Station(self.table(), 10, supplied=[table])

        def revise(number: int, day: int, digest: bytes = table.digest) -> int:
            verdict: int = self.answered(station, codec.touch(codec.REVISE, 9, number, 99, digest, day, 0))[0]
            return verdict

        # Without travel any day is good: also one below 0.
        self.assertEqual(revise(1, -5), 9)
        self.assertEqual([revise(2, -5), revise(3, -6), revise(4, -4)], [27, 27, 9])
        for frame in FIRST[:2]:
            station.answer(frame)
        # A touch in that is refused is no travel: at 08:00 of Monday at no station.
        self.assertEqual(self.answered(station, codec.touch(codec.ENTER, 9, 5, 1, 9, MONDAY + 8 * 3600))[0], 22)
        self.assertEqual(revise(6, DAY), 9)
        for frame in FIRST[2:]:
            station.answer(frame)
        # Another card travels on the Wednesday, and card 1 on the Tuesday behind it.
        for number, kind, values in ((7, codec.ISSUE, (0,)), (8, codec.LEAVE, (1, MORNING + 86_400))):
            station.answer(codec.touch(kind, 9, number, 2, *values))
        station.answer(codec.touch(codec.LEAVE, 9, 9, 1, 1, MORNING))
        first = self.table().digest
        self.assertEqual([revise(9 + later, DAY + later, first) for later in (1, 2, 3)], [27, 27, 9])


class Wrong(unittest.TestCase):
    """Models with a wrong rule, each of which answers one of the generated requests otherwise than the right one."""

    RULES = {
        "a fare by the table at the touch out": (
            model.Card, "of_fare", lambda card, start, finish: card.schedule.of(finish.stamp)),
        "an entry charge by the table of its own touch in": (
            model.Card, "of_entry", lambda card, start, tap: card.schedule.of(tap.stamp)),
        "caps by the first table": (model.Card, "of_day", lambda card, day: card.schedule.first),
        "caps by the last table": (model.Card, "of_day", lambda card, day: card.schedule.on(2**31)),
        "a leg's limit by the table at its touch out": (
            model.Card, "of_leg", lambda card, start, finish: card.schedule.of(finish.stamp)),
        "an interchange by the table at the touch out before it": (
            model.Card, "of_interchange", lambda card, before, start: card.schedule.of(before.stamp)),
        "a late touch out by the table of the day before": (
            model.Card, "of_late", lambda card, finish: card.schedule.on(finish.stamp.day - 1)),
        "a limit by the last table": (model.Card, "of_refusal", lambda card, moment: card.schedule.on(2**31)),
        "a limit by the table of the last travel": (
            model.Card, "of_refusal",
            lambda card, moment: card.schedule.of(card.taps[-1].stamp) if card.taps else card.schedule.first),
        "the last table on every day": (
            model.Schedule, "on",
            lambda schedule, day: schedule.tables[schedule.revisions[-1][0]] if schedule.revisions else schedule.first),
        "a revision that counts a day too late": (
            model.Schedule, "on", lambda schedule, day, on=model.Schedule.on: on(schedule, day - 1)),
        "windows by the first table's holidays": (
            model.Schedule, "stamp",
            lambda schedule, moment, stamp=model.Schedule.stamp: stamp(model.Schedule(schedule.first), moment)),
        "a revision of a day with travel": (
            model.Station, "travelled", lambda station: []),
        "a revision that looks at one card's travel": (
            model.Station, "travelled", lambda station: [tap.stamp.day for tap in station.cards[1].taps]),
        "a revision from the day of the last one": (model.Station, "revised", lambda station: []),
        "a revision of a card that isn't issued": (
            model.Station, "judge",
            lambda station, kind, card, act, judge=model.Station.judge: (20, 0, 0) if kind == codec.REVISE and not (
                card in station.cards and station.cards[card].issued) else judge(station, kind, card, act)),
    }

    def test_each_wrong_rule_is_told_by_some_answer(self) -> None:
        texts = [EXAMPLE.read_text(), *revised(EXAMPLE.read_text(), CHANGES)]
        tables = [model.Table(text) for text in texts]
        requests = Revising(21, tables, 400, 20_000)
        asked = [requests.next() for _ in range(20_000)]
        right = model.Station(tables[0], 400, supplied=tables[1:])
        wanted = [right.answer(frame) for frame in asked]
        for name, (owner, rule, wrong) in self.RULES.items():
            with self.subTest(name), unittest.mock.patch.object(owner, rule, wrong):
                station = model.Station(tables[0], 400, supplied=tables[1:])
                self.assertTrue(any(station.answer(frame) != answer for frame, answer in zip(asked, wanted)))


class Answers(harness.ProgramTest):
    """Replays of generated requests."""

    def compare(self, station: model.Station, requests: Requests, count: int, texts: Sequence[str]) -> list[str]:
        """Replays so many requests by the tables of these texts, and compares each answer with the station's."""
        asked = [requests.next() for _ in range(count)]
        wanted = [station.answer(frame).hex() for frame in asked]
        with tempfile.TemporaryDirectory() as name:
            files = [pathlib.Path(name) / f"table{number}.toml" for number in range(len(texts))]
            for file, text in zip(files, texts):
                file.write_text(text)
            words = ["replay", "--cards", str(len(station.cards)), "--table", *map(str, files)]
            status, out, err = run(words, lines(frame.hex() for frame in asked))
        self.assertEqual((status, err), (0, ""))
        for place, (request, got, want) in enumerate(zip(asked, out.decode().split("\n"), wanted)):
            self.assertEqual(got, want, f"request {place}: {request.hex()}")
        return wanted

    def assertAsked(self, wanted: Iterable[str], *more: str | tuple[str, str]) -> None:
        """Every kind of answer was asked for: those of a station without revisions, and these."""
        seen = {(frame[4:6], frame[18:20]) if frame[4:6] == "81" else frame[4:8] for frame in wanted}
        verdicts = {("81", f"{verdict:02x}") for verdict in {*model.VERDICTS} - {codec.REVISED, codec.BAD_DAY}}
        self.assertLessEqual({*verdicts, "ff02", "8500", "8501", "8502", *more}, seen)

    def plain(self, text: str, seed: int, cards: int, count: int) -> None:
        """A run by one table."""
        table = model.Table(text)
        self.assertAsked(self.compare(model.Station(table, cards), Requests(seed, table, cards), count, [text]))

    def revised(self, text: str, changes: Changes, seed: int, cards: int, count: int) -> None:
        """A run with revisions to all but one of the changed tables, in an order by the seed."""
        texts = revised(text, changes)
        random.Random(seed).shuffle(texts)
        texts = [text, *texts[1:]]
        tables = [model.Table(each) for each in texts]
        station = model.Station(tables[0], cards, supplied=tables[1:])
        wanted = self.compare(station, Revising(seed, tables, cards, count), count, texts)
        self.assertAsked(wanted, ("81", "09"), ("81", "1b"), "ff06")
        # Each table came to count.
        self.assertEqual({digest for digest, _ in station.schedule.revisions}, {table.digest for table in tables})

    def test_a_hundred_thousand_requests_on_the_example_table(self) -> None:
        self.plain(EXAMPLE.read_text(), 1, 4_000, 100_000)

    def test_requests_on_a_table_whose_clock_goes_back_over_the_fare_day(self) -> None:
        for seed in range(2, 8):
            with self.subTest(seed):
                self.plain(OTHER, seed, 150, 6_000)

    def test_a_hundred_thousand_requests_with_revisions_of_the_example_table(self) -> None:
        self.revised(EXAMPLE.read_text(), CHANGES, 11, 4_000, 100_000)

    def test_requests_with_revisions_of_a_table_whose_clock_goes_back_over_the_fare_day(self) -> None:
        for seed in range(12, 18):
            with self.subTest(seed):
                self.revised(OTHER, OTHER_CHANGES, seed, 150, 8_000)
