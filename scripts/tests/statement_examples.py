"""Statements that were worked out by hand from docs/reference/FARES.md and docs/example.toml, with the touches of each: the
card's number is 1. For scripts/tests/test_statements.py."""
from collections.abc import Sequence
from typing import NamedTuple

from bovtrila import codec, model
from harness import EXAMPLE, REVISED

# Monday 2025-01-06 at 00:00 UTC, with the number of its fare day. In winter London's clock is that of UTC.
MONDAY, DAY, FARE_DAY = 1736121600, 86_400, 20_094
# The revised table of docs/reference/FARES.md, "Revision", with another name of station 3.
RENAMED = REVISED.read_text().replace('"Cedar"', '"Zeder"')
# A touch: its kind, its moment, and what a frame has of it beside its card.
Touch = tuple[int, int, tuple[int | bytes, ...]]


def at(clock: str, day: int = 0) -> int:
    """The moment of a clock time HH:MM or HH:MM:SS in UTC, so many days after Monday 2025-01-06."""
    hour, minute, second = map(int, f"{clock}:00".split(":")[:3])
    return MONDAY + day * DAY + 3600 * hour + 60 * minute + second


def enter(station: int, clock: str, day: int = 0) -> Touch:
    return codec.ENTER, at(clock, day), (station,)


def leave(station: int, clock: str, day: int = 0) -> Touch:
    return codec.LEAVE, at(clock, day), (station,)


def top_up(pence: int, clock: str = "06:30", day: int = 0) -> Touch:
    return codec.TOP_UP, at(clock, day), (pence,)


def issue(clock: str = "06:30", day: int = 0) -> Touch:
    return codec.ISSUE, at(clock, day), ()


def revise(text: str, first: int) -> Touch:
    """A revision to the table of this text from a fare day on, so many days after 2025-01-06."""
    return codec.REVISE, at("04:00"), (model.Table(text).digest, FARE_DAY + first)


def travel(*rows: str, day: int = 0) -> list[Touch]:
    """The touches of journeys of one leg, each as `2 1 08:00 08:25`."""
    made: list[Touch] = []
    for start, finish, begins, ends in map(str.split, rows):
        made += [enter(int(start), begins, day), leave(int(finish), ends, day)]
    return made


class Example(NamedTuple):
    """Touches of card 1, and its statement with these options."""

    about: str
    touches: Sequence[Touch]
    text: str
    options: Sequence[str] = ()


PAID = [issue(), top_up(2000)]
THREE = travel("2 1 06:40 07:05", "2 1 07:40 08:05", "2 1 08:40 09:05")
# Monday 2 to 1; on Tuesday 2 to 1 before 04:30 and at 08:00, with new fares from Tuesday on.
REVISION = [*PAID, *travel("2 1 08:00 08:25"), revise(RENAMED, 1), *travel("2 1 04:25 04:50", "2 1 08:00 08:25", day=1)]
# A touch in on Monday's fare day, and one out on Tuesday's, too late; then a top-up on Wednesday.
OVER_NIGHT = [*PAID, enter(2, "03:00", 1), leave(1, "04:30:01", 1), top_up(300, "12:00", 2)]
PAID_ROW = """
top-ups
     20.00  2025-01-06 06:30
"""

EXAMPLES = [
    Example("three journeys and the cap, and a touch in that is open", [*PAID, *THREE, enter(2, "10:00")], f"""\
card 1

2025-01-06
      3.50  06:40 to 07:05  zones 1 to 2  peak, capped: Birch to Alder
      3.50  07:40 to 08:05  zones 1 to 2  peak, capped: Birch to Alder
      3.50  08:40 to 09:05  zones 1 to 2  peak, capped: Birch to Alder
     10.50  fares
      8.50  daily cap of zones 1 to 2, anytime
      8.50  journeys
      7.00  10:00  maximum: touched in at Birch, and no touch in or out followed
     15.50  charged for 2025-01-06
{PAID_ROW}
     20.00  paid in
     15.50  charged
      4.50  balance
"""),
    Example("an interchange", [*PAID, *travel("2 1 08:00 08:25", "4 3 08:33 09:00")], f"""\
card 1

2025-01-06
      2.40  08:00 to 09:00  zones 2 to 3  peak: Birch to Cedar
      2.40  fares
            no daily cap
      2.40  journeys
      2.40  charged for 2025-01-06
{PAID_ROW}
     20.00  paid in
      2.40  charged
     17.60  balance
"""),
    Example("a second too late for the interchange", [*PAID, *travel("2 1 08:00 08:25", "4 3 08:35:01 09:00")], f"""\
card 1

2025-01-06
      3.50  08:00 to 08:25  zones 1 to 2  peak: Birch to Alder
      4.00  08:35 to 09:00  zones 1 to 3  peak: Damson to Cedar
      7.50  fares
            no daily cap
      7.50  journeys
      7.50  charged for 2025-01-06
{PAID_ROW}
     20.00  paid in
      7.50  charged
     12.50  balance
"""),
    # The entry charge is that of the journey's first touch in, which was early.
    Example("an interchange that is open", [*PAID, *travel("2 1 09:20 09:29"), enter(4, "09:35")], f"""\
card 1

2025-01-06
      3.50  09:20 to 09:29  zones 1 to 2  peak: Birch to Alder
      3.50  fares
            no daily cap
      3.50  journeys
      9.00  09:35  maximum: touched in at Damson, and no touch in or out followed
     12.50  charged for 2025-01-06
{PAID_ROW}
     20.00  paid in
     12.50  charged
      7.50  balance
"""),
    Example("a leg that is a second too long", [*PAID, enter(2, "08:00"), leave(1, "09:30:01")], f"""\
card 1

2025-01-06
      0.00  fares
            no daily cap
      0.00  journeys
      9.00  08:00  maximum: touched in at Birch, and touched out after the time limit
      7.00  09:30  maximum: touched out at Alder after the time limit
     16.00  charged for 2025-01-06
{PAID_ROW}
     20.00  paid in
     16.00  charged
      4.00  balance
"""),
    Example("a touch in over an open one", [*PAID, enter(2, "08:00"), *travel("2 1 08:10 08:30")], f"""\
card 1

2025-01-06
      3.50  08:10 to 08:30  zones 1 to 2  peak: Birch to Alder
      3.50  fares
            no daily cap
      3.50  journeys
      9.00  08:00  maximum: touched in at Birch, and the next touch was another touch in
     12.50  charged for 2025-01-06
{PAID_ROW}
     20.00  paid in
     12.50  charged
      7.50  balance
"""),
    Example("a touch out without a touch in", [*PAID, leave(1, "08:00"), leave(3, "19:00")], f"""\
card 1

2025-01-06
      0.00  fares
            no daily cap
      0.00  journeys
      9.00  08:00  maximum: touched out at Alder without a touch in
      7.00  19:00  maximum: touched out at Cedar without a touch in
     16.00  charged for 2025-01-06
{PAID_ROW}
     20.00  paid in
     16.00  charged
      4.00  balance
"""),
    # 600 for the off-peak journeys, and 210 beside them, is less than 850, 1000 and 1080.
    Example("a journey that the cap doesn't cover",
            [*PAID, *travel("2 2 08:00 08:10", "2 1 10:00 10:20", "2 1 11:00 11:20", "2 1 12:00 12:20")], f"""\
card 1

2025-01-06
      2.10  08:00 to 08:10  zones 2 to 2  peak: Birch to Birch
      2.90  10:00 to 10:20  zones 1 to 2  off-peak, capped: Birch to Alder
      2.90  11:00 to 11:20  zones 1 to 2  off-peak, capped: Birch to Alder
      2.90  12:00 to 12:20  zones 1 to 2  off-peak, capped: Birch to Alder
     10.80  fares
      6.00  daily cap of zones 1 to 2, off-peak
      8.10  journeys
      8.10  charged for 2025-01-06
{PAID_ROW}
     20.00  paid in
      8.10  charged
     11.90  balance
"""),
    # 1000, and 600 + 400: the second cap of the table and the third.
    Example("of two caps with the same charge the first one of the table",
            [*PAID, *travel("3 1 08:00 08:40", "2 1 10:00 10:20", "2 1 11:00 11:20", "2 1 12:00 12:20")], f"""\
card 1

2025-01-06
      4.00  08:00 to 08:40  zones 1 to 3  peak, capped: Cedar to Alder
      2.90  10:00 to 10:20  zones 1 to 2  off-peak, capped: Birch to Alder
      2.90  11:00 to 11:20  zones 1 to 2  off-peak, capped: Birch to Alder
      2.90  12:00 to 12:20  zones 1 to 2  off-peak, capped: Birch to Alder
     12.70  fares
     10.00  daily cap of zones 1 to 3, anytime
     10.00  journeys
     10.00  charged for 2025-01-06
{PAID_ROW}
     20.00  paid in
     10.00  charged
     10.00  balance
"""),
    # 350 + 290 + 210 is the price of the first cap.
    Example("fares that are as high as a cap",
            [*PAID, *travel("2 2 08:00 08:10", "2 1 08:30 08:50", "2 1 11:00 11:20")], f"""\
card 1

2025-01-06
      2.10  08:00 to 08:10  zones 2 to 2  peak: Birch to Birch
      3.50  08:30 to 08:50  zones 1 to 2  peak: Birch to Alder
      2.90  11:00 to 11:20  zones 1 to 2  off-peak: Birch to Alder
      8.50  fares
            no daily cap
      8.50  journeys
      8.50  charged for 2025-01-06
{PAID_ROW}
     20.00  paid in
      8.50  charged
     11.50  balance
"""),
    Example("a revision between two days", REVISION, f"""\
card 1

2025-01-06
      3.50  08:00 to 08:25  zones 1 to 2  peak: Birch to Alder
      2.90  04:25 (+1) to 04:50 (+1)  zones 1 to 2  off-peak: Birch to Alder
      6.40  fares
            no daily cap
      6.40  journeys
      6.40  charged for 2025-01-06

2025-01-07
      3.80  08:00 to 08:25  zones 1 to 2  peak: Birch to Alder
      3.80  fares
            no daily cap
      3.80  journeys
      3.80  charged for 2025-01-07
{PAID_ROW}
     20.00  paid in
     10.20  charged
      9.80  balance
"""),
    # The first table's 210, and the revised table's name of the station at which the card left on Tuesday's fare day.
    Example("a revision between two legs",
            [*PAID, revise(RENAMED, 1), *travel("2 1 04:10 04:25", "4 3 04:30 05:00", day=1)], f"""\
card 1

2025-01-06
      2.10  04:10 (+1) to 05:00 (+1)  zones 2 to 3  off-peak: Birch to Zeder
      2.10  fares
            no daily cap
      2.10  journeys
      2.10  charged for 2025-01-06
{PAID_ROW}
     20.00  paid in
      2.10  charged
     17.90  balance
"""),
    Example("what was before a day", REVISION, """\
card 1
before 2025-01-07
     20.00  paid in
      6.40  charged

2025-01-07
      3.80  08:00 to 08:25  zones 1 to 2  peak: Birch to Alder
      3.80  fares
            no daily cap
      3.80  journeys
      3.80  charged for 2025-01-07

     20.00  paid in
     10.20  charged
      9.80  balance
""", ("--from", "2025-01-07")),
    Example("up to a day", REVISION, f"""\
card 1

2025-01-06
      3.50  08:00 to 08:25  zones 1 to 2  peak: Birch to Alder
      2.90  04:25 (+1) to 04:50 (+1)  zones 1 to 2  off-peak: Birch to Alder
      6.40  fares
            no daily cap
      6.40  journeys
      6.40  charged for 2025-01-06
{PAID_ROW}
     20.00  paid in
      6.40  charged
     13.60  balance
""", ("--to", "2025-01-06")),
    Example("after the last day", REVISION, """\
card 1
before 2025-01-08
     20.00  paid in
     10.20  charged

     20.00  paid in
     10.20  charged
      9.80  balance
""", ("--from", "2025-01-08", "--to", "9999-12-31")),
    Example("before the first day", REVISION, """\
card 1
before 0001-01-01
      0.00  paid in
      0.00  charged

      0.00  paid in
      0.00  charged
      0.00  balance
""", ("--from", "0001-01-01", "--to", "2025-01-05")),
    # The touch out of the next day decides why the touch in is incomplete, also where it isn't printed.
    Example("a leg that is too long, up to the day of its touch in", OVER_NIGHT, f"""\
card 1

2025-01-06
      0.00  fares
            no daily cap
      0.00  journeys
      7.00  03:00 (+1)  maximum: touched in at Birch, and touched out after the time limit
      7.00  charged for 2025-01-06
{PAID_ROW}
     20.00  paid in
      7.00  charged
     13.00  balance
""", ("--to", "2025-01-06")),
    Example("a leg that is too long, from the day of its touch out on", OVER_NIGHT, """\
card 1
before 2025-01-07
     20.00  paid in
      7.00  charged

2025-01-07
      0.00  fares
            no daily cap
      0.00  journeys
      7.00  04:30  maximum: touched out at Alder after the time limit
      7.00  charged for 2025-01-07

top-ups
      3.00  2025-01-08 12:00

     23.00  paid in
     14.00  charged
      9.00  balance
""", ("--from", "2025-01-07")),
    Example("a debt", [issue(), top_up(190), enter(2, "08:00")], """\
card 1

2025-01-06
      0.00  fares
            no daily cap
      0.00  journeys
      9.00  08:00  maximum: touched in at Birch, and no touch in or out followed
      9.00  charged for 2025-01-06

top-ups
      1.90  2025-01-06 06:30

      1.90  paid in
      9.00  charged
     -7.10  balance
"""),
    Example("a card that was only issued", [issue()], """\
card 1

      0.00  paid in
      0.00  charged
      0.00  balance
"""),
    Example("each refusal", [enter(2, "04:30"), issue(), issue("06:31"), top_up(9001), top_up(0), top_up(50_001),
                             enter(2, "07:00"), top_up(2000, "07:01"), enter(9, "07:02"), *travel("2 1 08:00 08:25"),
                             leave(1, "08:24:59"), enter(2, "04:00", 1)], """\
card 1

2025-01-06
      3.50  08:00 to 08:25  zones 1 to 2  peak: Birch to Alder
      3.50  fares
            no daily cap
      3.50  journeys
      7.00  04:00 (+1)  maximum: touched in at Birch, and no touch in or out followed
     10.50  charged for 2025-01-06

top-ups
     20.00  2025-01-06 07:01

refused
            2025-01-06 04:30  UnknownCard: touch in at Birch
            2025-01-06 06:31  AlreadyIssued: issue
            2025-01-06 06:30  OverLimit: top-up of 90.01
            2025-01-06 06:30  BadAmount: top-up of 0.00
            2025-01-06 06:30  BadAmount: top-up of 500.01
            2025-01-06 07:00  LowBalance: touch in at Birch
            2025-01-06 07:02  UnknownStation: touch in at station 9
            2025-01-06 08:24  Backwards: touch out at Alder

     20.00  paid in
     10.50  charged
      9.50  balance
"""),
    # In summer the clock is an hour ahead of UTC: 05:30 UTC is the beginning of the early window. 182 days after
    # 2025-01-06 is Monday 2025-07-07.
    Example("a clock in summer", [*PAID, *travel("2 1 05:29:59 05:50", "2 1 07:30 08:29", day=182)], f"""\
card 1

2025-07-07
      2.90  06:29 to 06:50  zones 1 to 2  off-peak: Birch to Alder
      3.50  08:30 to 09:29  zones 1 to 2  peak: Birch to Alder
      6.40  fares
            no daily cap
      6.40  journeys
      6.40  charged for 2025-07-07
{PAID_ROW}
     20.00  paid in
      6.40  charged
     13.60  balance
"""),
    # 83 days after 2025-01-06 is Sunday 2025-03-30, whose 01:00 is 02:00, and 293 days is Sunday 2025-10-26, whose 02:00
    # is 01:00. Both journeys are of the Saturday's fare day; they take twenty and fifteen minutes.
    Example("clocks that go forward and back",
            [*PAID, *travel("2 1 00:50 01:10", day=83), *travel("2 1 00:50 01:05", day=293)], f"""\
card 1

2025-03-29
      2.90  00:50 (+1) to 02:10 (+1)  zones 1 to 2  off-peak: Birch to Alder
      2.90  fares
            no daily cap
      2.90  journeys
      2.90  charged for 2025-03-29

2025-10-25
      2.90  01:50 (+1) to 01:05 (+1)  zones 1 to 2  off-peak: Birch to Alder
      2.90  fares
            no daily cap
      2.90  journeys
      2.90  charged for 2025-10-25
{PAID_ROW}
     20.00  paid in
      5.80  charged
     14.20  balance
"""),
]


def station_of(touches: Sequence[Touch], cards: int = 20) -> model.Station:
    """A model's station that has judged these touches of card 1, under numbers of their own."""
    tables = [model.Table(text) for text in (RENAMED, EXAMPLE.read_text())]
    station = model.Station(tables[1], cards, supplied=tables[:1])
    for number, (kind, moment, values) in enumerate(touches, 1):
        station.answer(codec.touch(kind, 7, number, 1, *values, moment))
    return station
