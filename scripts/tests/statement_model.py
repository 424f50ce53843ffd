"""A card's statement by the rules of docs/reference/FARES.md, "Statement", from the touches that a model's station has
accepted (bovtrila.model). It is written from that page, and for comparisons: scripts/tests/test_statements.py checks it with
statements that were worked out by hand."""
import collections
import struct
from collections.abc import Iterator, Sequence
from typing import Literal, NamedTuple

from bovtrila import codec, model, table_rows
from bovtrila.model import Card, Day, Fare, Moment, Pence, Tap

Reason = Literal["Open", "EnteredOver", "NotLeftInTime", "Late", "Unstarted"]


class Journey(NamedTuple):
    """A journey: its touches in and out, oldest first, its fare, and whether the day's named cap covers it."""

    taps: Sequence[Tap]
    fare: Fare
    is_covered: bool


class Incomplete(NamedTuple):
    """A touch in or out that is in no leg, its reason and its charge."""

    tap: Tap
    reason: Reason
    pence: Pence


class DayRow(NamedTuple):
    """What a fare day is charged: for its journeys, by the named cap if there is one, and for its incomplete touches."""

    day: Day
    journeys: Sequence[Journey]
    fares: Pence
    cap: table_rows.Cap | None
    charge: Pence
    incomplete: Sequence[Incomplete]
    missing: Pence


class TopUp(NamedTuple):
    """An accepted top-up."""

    day: Day
    moment: Moment
    pence: Pence


class Refused(NamedTuple):
    """A refused touch: its verdict and its act, with the station of a touch in or out, and the pence of a top-up."""

    day: Day
    moment: Moment
    verdict: str
    act: str
    station: int | None
    pence: Pence | None


class Statement(NamedTuple):
    """What a card's statement has from a fare day to another, and the sums of the days up to its last one. If it begins
    with a day, it has what was paid in and charged before."""

    card: int
    first: Day | None
    last: Day | None
    before: tuple[Pence, Pence] | None
    days: Sequence[DayRow]
    top_ups: Sequence[TopUp]
    refused: Sequence[Refused]
    paid_in: Pence
    charged: Pence

    @property
    def balance(self) -> Pence:
        return self.paid_in - self.charged


def covers(cap: table_rows.Cap, fare: Fare) -> bool:
    """Whether a cap covers a journey of this fare: by its zones, and an off-peak cap by its band too."""
    return cap["lo"] <= fare.low and fare.high <= cap["hi"] and (cap["kind"] == "anytime" or fare.off_peak)


def sum_under(cap: table_rows.Cap, fares: Sequence[Fare]) -> Pence:
    """What a day's journeys come to under a cap: its price, and the fares of those that it doesn't cover."""
    return cap["price"] + sum(fare.pence for fare in fares if not covers(cap, fare))


def named_cap(caps: Sequence[table_rows.Cap], fares: Sequence[Fare]) -> table_rows.Cap | None:
    """The cap that lowers the charge for a day's journeys: the first of those with the lowest charge, if it is below the
    fares."""
    lowest = min(caps, key=lambda cap: sum_under(cap, fares), default=None)
    return lowest if lowest and sum_under(lowest, fares) < sum(fare.pence for fare in fares) else None


def journeys(card: Card) -> Iterator[list[Tap]]:
    """The card's journeys, each with its touches in and out in their order."""
    made: list[Tap] = []
    for place, tap in enumerate(card.taps):
        if not card.ends_leg(place):
            continue
        if made and not card.continues(place - 1):
            yield made
            made = []
        made += [card.taps[place - 1], tap]
    if made:
        yield made


def reason_of(before: Tap | None, tap: Tap, after: Tap | None) -> Reason:
    """Why a touch that is in no leg is incomplete, by the card's touches before and after it."""
    if not tap.is_entry:
        return "Late" if before and before.is_entry else "Unstarted"
    if after is None:
        return "Open"
    return "EnteredOver" if after.is_entry else "NotLeftInTime"


def incompletes(card: Card) -> Iterator[Incomplete]:
    """The card's touches that are in no leg."""
    for place, tap in enumerate(card.taps):
        before, after = (card.taps[other] if 0 <= other < len(card.taps) else None for other in (place - 1, place + 1))
        if card.ends_leg(place) or after and card.ends_leg(place + 1):
            continue
        start = card.first(place) if tap.is_entry else tap
        table = card.of_entry(start, tap) if tap.is_entry else card.of_late(tap)
        yield Incomplete(tap, reason_of(before, tap, after), table.maximum(start.stamp.window))


def day_row(card: Card, day: Day, made: Sequence[tuple[Sequence[Tap], Fare]], missed: Sequence[Incomplete]) -> DayRow:
    """The row of a fare day with these journeys and incomplete touches."""
    fares = [fare for _, fare in made]
    cap, sum_of_fares = named_cap(card.of_day(day).caps, fares), sum(fare.pence for fare in fares)
    rows = [Journey(taps, fare, cap is not None and covers(cap, fare)) for taps, fare in made]
    charge = sum_under(cap, fares) if cap else sum_of_fares
    return DayRow(day, rows, sum_of_fares, cap, charge, missed, sum(row.pence for row in missed))


def day_rows(card: Card) -> list[DayRow]:
    """The rows of a card's fare days with a journey or an incomplete touch, oldest first."""
    made: dict[Day, list[tuple[Sequence[Tap], Fare]]] = collections.defaultdict(list)
    missed: dict[Day, list[Incomplete]] = collections.defaultdict(list)
    for taps in journeys(card):
        start, finish = taps[0], taps[-1]
        fare = card.of_fare(start, finish).fare(start.station, finish.station, start.stamp.window)
        made[start.stamp.day].append((taps, fare))
    for row in incompletes(card):
        missed[row.tap.stamp.day].append(row)
    return [day_row(card, day, made[day], missed[day]) for day in sorted({*made, *missed})]


def others(station: model.Station, number: int) -> Iterator[TopUp | Refused]:
    """The accepted top-ups and the refused touches of a card, in the order of the history."""
    for frame in station.history:
        kind, gate, touch, card, *act = struct.unpack(codec.FORMS[frame[2]], frame[2:])
        verdict, = struct.unpack(">B", station.named[gate, touch][1][9:10])
        if kind == codec.REVISE or card != number:
            continue
        day, value = station.schedule.stamp(act[-1]).day, act[0]
        if verdict >= 20:
            at, pence = (value if kind in kinds else None for kinds in ((codec.ENTER, codec.LEAVE), (codec.TOP_UP,)))
            yield Refused(day, act[-1], model.VERDICTS[verdict], codec.ACTS[kind], at, pence)
        elif kind == codec.TOP_UP:
            yield TopUp(day, act[-1], value)


def statement(station: model.Station, number: int, first: Day | None = None, last: Day | None = None) -> Statement:
    """The statement of an issued card, from a fare day to another, or without a first or a last day."""
    days, rows = day_rows(station.cards[number]), list(others(station, number))
    top_ups = [row for row in rows if isinstance(row, TopUp)]

    def is_before(day: Day) -> bool:
        return first is not None and day < first

    def is_until(day: Day) -> bool:
        return last is None or day <= last

    def is_in(day: Day) -> bool:
        return is_until(day) and not is_before(day)

    earlier = (sum(row.pence for row in top_ups if is_before(row.day)),
               sum(row.charge + row.missing for row in days if is_before(row.day)))
    return Statement(number, first, last, None if first is None else earlier, [row for row in days if is_in(row.day)],
                     [row for row in top_ups if is_in(row.day)],
                     [row for row in rows if isinstance(row, Refused) and is_in(row.day)],
                     sum(row.pence for row in top_ups if is_until(row.day)),
                     sum(row.charge + row.missing for row in days if is_until(row.day)))
