"""The journeys that the reference model makes of the touches of cards, and generated cards: for
scripts/tests/test_network.py.

The rows are made from the taps of bovtrila.model and its rules alone: a journey's fare, and what the day's charge with it
is more than without it.
"""
import collections
import functools
import heapq
import random
import struct
from collections.abc import Collection, Sequence
from typing import Any, NamedTuple

import town
from bovtrila import codec, layout, model
from harness import EXAMPLE, REVISED


class Row(NamedTuple):
    """A row of journeys."""

    place: int
    kind: str
    card: int
    day: str
    began: str | None
    ended: str | None
    origin: int | None
    destination: int | None
    legs: int
    changes: str | None
    band: str
    fare: int | None
    charged: int


def band_of(is_off_peak: bool) -> str:
    return "off-peak" if is_off_peak else "peak"


def places_of(station: model.Station, front: int) -> dict[int, list[int]]:
    """The places of each card's accepted touches in and out, among the first ones of a history."""
    places: dict[int, list[int]] = collections.defaultdict(list)
    for place, frame in enumerate(station.history[:front]):
        kind, gate, number, card, *_ = struct.unpack(codec.FORMS[frame[2]], frame[2:])
        answer = station.named[gate, number][1]
        if kind in (codec.ENTER, codec.LEAVE) and answer[9] < 20:
            places[card].append(place)
    return places


class Travel:
    """The rows of a card whose first taps have these places."""

    def __init__(self, number: int, card: model.Card, places: Sequence[int]) -> None:
        self.number, self.places, self.card = number, places, model.Card(card.schedule)
        self.card.taps = card.taps[:len(places)]
        self.fares: dict[int, list[model.Fare]] = collections.defaultdict(list)

    def first(self, place: int) -> int:
        """The place in the card's taps of the first touch in of a journey."""
        while self.card.continues(place):
            place -= 2
        return place

    def row(self, place: int, kind: str, start: model.Tap | None, finish: model.Tap | None, *rest: Any) -> Row:
        first = start or finish
        assert first, "a row has a touch"
        day = town.date_text(first.stamp.day)
        ends = [(town.moment_text(tap.stamp.moment), tap.station) if tap else (None, None) for tap in (start, finish)]
        return Row(self.places[place], kind, self.number, day, ends[0][0], ends[1][0], ends[0][1], ends[1][1], *rest)

    def journey(self, begins: int, legs: Sequence[int]) -> Row:
        """The row of a journey: its share is what the day's charge with it is more than without it."""
        taps = self.card.taps
        start, finish = taps[begins], taps[legs[-1] + 1]
        fare = self.card.of_fare(start, finish).fare(start.station, finish.station, start.stamp.window)
        table, fares = self.card.of_day(start.stamp.day), self.fares[start.stamp.day]
        share = table.day_charge([*fares, fare]) - table.day_charge(fares)
        fares.append(fare)
        changes = " ".join(f"{taps[leg - 1].station}-{taps[leg].station}" for leg in legs[1:]) or None
        return self.row(begins, "journey", start, finish, len(legs), changes, band_of(fare.off_peak), fare.pence, share)

    def rows(self) -> list[Row]:
        card, taps = self.card, self.card.taps
        legs: dict[int, list[int]] = collections.defaultdict(list)
        for place in range(1, len(taps)):
            if card.ends_leg(place):
                legs[self.first(place - 1)].append(place - 1)
        found = [self.journey(begins, of) for begins, of in legs.items()]
        ended = {leg for of in legs.values() for leg in of}
        for place, tap in enumerate(taps):
            later = taps[place + 1] if place + 1 < len(taps) else None
            if tap.is_entry and place not in ended:
                start = taps[self.first(place)]
                charge = card.of_entry(start, tap).maximum(start.stamp.window)
                late = later if later and not later.is_entry else None
                charge += card.of_late(late).maximum(late.stamp.window) if late else 0
                kind = "late" if late else "unfinished" if later else "inside"
                found.append(self.row(place, kind, tap, late, 0, None,
                                      band_of(start.stamp.window == model.OFF), None, charge))
            elif not tap.is_entry and not (place and taps[place - 1].is_entry):
                found.append(self.row(place, "unstarted", None, tap, 0, None, band_of(tap.stamp.window == model.OFF), None,
                                      card.of_late(tap).maximum(tap.stamp.window)))
        return found


def journeys(station: model.Station, front: int) -> list[Row]:
    """The rows of all cards after so many touches of a history."""
    return sorted(row for number, places in places_of(station, front).items()
                  for row in Travel(number, station.cards[number], places).rows())


def charged_by_day(station: model.Station, front: int) -> dict[tuple[int, str], int]:
    """What each card's journeys of a fare day are charged, by the fares of that day as a whole."""
    charged: dict[tuple[int, str], int] = {}
    for number, places in places_of(station, front).items():
        travel = Travel(number, station.cards[number], places)
        travel.rows()
        for day, fares in travel.fares.items():
            charged[number, town.date_text(day)] = travel.card.of_day(day).day_charge(fares)
    return charged


class Takings:
    """What the queries return of the journeys of a network on some fare days, where all tables have the same names."""

    def __init__(self, network: town.Town, days: Collection[str], table: model.Table) -> None:
        self.rows = [(name, row) for name, server in network.servers.items()
                     for row in journeys(server.station, network.fronts[name]) if row.day in days]
        # The model reads no names.
        stations: list[Any] = list(table.table["station"])
        self.stations: dict[int | None, tuple[str | None, str | None]] = {
            row["id"]: (row["name"], "/".join(map(str, row["zones"]))) for row in stations}
        self.stations[None] = (None, None)

    def fares(self) -> list[tuple[Any, ...]]:
        sums: dict[tuple[Any, Any], list[int]] = collections.defaultdict(lambda: [0, 0, 0])
        for _, row in self.rows:
            if row.kind == "journey":
                of = sums[row.origin, row.destination]
                of[:] = of[0] + 1, of[1] + (row.fare or 0), of[2] + row.charged
        return [(origin, *self.stations[origin], destination, *self.stations[destination], *of)
                for (origin, destination), of in sorted(sums.items())]

    def by(self, name: str) -> list[tuple[Any, ...]]:
        """The sums by origin or by destination."""
        sums: dict[int | None, list[int]] = collections.defaultdict(lambda: [0, 0, 0, 0, 0])
        for _, row in self.rows:
            if row.kind != "inside":
                of, is_journey = sums[getattr(row, name)], row.kind == "journey"
                of[0] += is_journey
                of[1] += row.fare or 0
                of[2 if is_journey else 4] += row.charged
                of[3] += not is_journey
        return [(station, *self.stations[station], *of) for station,
                of in sorted(sums.items(), key=lambda item: item[0] or 0)]

    def caps(self) -> list[tuple[str, int, int, int, int, int]]:
        days: dict[str, dict[tuple[str, int], list[int]]] = collections.defaultdict(
            lambda: collections.defaultdict(lambda: [0, 0, 0]))
        for server, row in self.rows:
            if row.kind == "journey":
                of = days[row.day][server, row.card]
                of[:] = of[0] + 1, of[1] + (row.fare or 0), of[2] + row.charged
        sums = [(day, [*cards.values()], *(sum(column) for column in zip(*cards.values()))) for day,
                cards in sorted(days.items())]
        return [(day, count, fares, charged, fares - charged, sum(charge < fare for _, fare, charge in of))
                for day, of, count, fares, charged in sums]


def tables() -> list[str]:
    """Three tables: the example, the revised one, and one with other caps, interchanges, minutes and zones."""
    text = EXAMPLE.read_text()
    for old, new in (("minutes = 10", "minutes = 5"), ("price = 850", "price = 500"),
                     ("evening_rule = true", "evening_rule = false"), ("leg_minutes = 90", "leg_minutes = 60"),
                     ('["2025-12-25"]', '["2025-03-31", "2025-10-27"]'),
                     ('"Birch", zones = [2]', '"Birke", zones = [1, 2]')):
        assert text.count(old) == 1
        text = text.replace(old, new)
    return [EXAMPLE.read_text(), REVISED.read_text(), text]


class Generated:
    """Cards that travel around the clock changes of 2025, with revisions between legs. Seconds between touches are around
    the limits of legs and interchanges. The fare day is changed at 04:30 and the clock at 01:00 UTC."""

    CARDS = 24
    # The fare days 2025-03-29 and 2025-10-25 begin at these moments; each time three days are travelled on.
    BEGINS = (1743222600, 1761366600)
    GAPS = (0, 60, 299, 300, 301, 599, 600, 601, 900, 1800, 3599, 3600, 3601, 5399, 5400, 5401, 9000)
    NEAR: dict[int, tuple[int, ...]] = {1: (4, 4, 4, 1), 4: (1, 1, 1, 4)}

    def __init__(self, seed: int) -> None:
        self.random, self.texts = random.Random(seed), tables()
        of = [model.Table(text) for text in self.texts]
        self.station, self.digests = model.Station(of[0], self.CARDS, supplied=of[1:]), [table.digest for table in of]
        self.number = 0
        self.place: dict[int, int] = {}
        for card in range(1, self.CARDS + 1):
            self.send(codec.ISSUE, card, self.BEGINS[0] - 9000)
        for begins, turn in zip(self.BEGINS, (1, 2)):
            self.travel(begins, turn)

    def send(self, kind: int, card: int, *act: int | bytes) -> int:
        self.number += 1
        answer = self.station.answer(codec.touch(kind, 7, self.number, card, *act))
        return answer[9]

    def travel(self, begins: int, turn: int) -> None:
        """Three days. Before the second and the third one a revision counts from that day on."""
        waiting = [(begins + self.random.randrange(80_000), card) for card in self.station.cards]
        heapq.heapify(waiting)
        revised, day = 0, self.station.schedule.stamp(begins).day
        while waiting:
            moment, card = heapq.heappop(waiting)
            while revised < 2 and self.station.schedule.stamp(moment).day > day + revised:
                revised += 1
                table = self.digests[turn * revised % 3]
                self.send(codec.REVISE, 0, table, day + revised, moment)
            self.touch(card, moment)
            quiet = self.random.random() < 0.06
            moment += self.random.randrange(20_000, 40_000) if quiet else self.random.choice(self.GAPS)
            if moment < begins + 3 * town.DAY:
                heapq.heappush(waiting, (moment, card))

    def touch(self, card: int, moment: int) -> None:
        """A touch in or out, mostly the one that a passenger makes, at a station that is near the last one."""
        if self.station.cards[card].balance() < 2500:
            self.send(codec.TOP_UP, card, 5000, moment)
        inside = self.station.cards[card].state() == 2
        near = (1, 4, 1, 4, 2, 3, 5) if inside else self.NEAR.get(self.place.get(card, 0), (1, 2, 3, 4, 5))
        station = self.random.choice(near)
        leaves = inside != (self.random.random() < 0.08)
        self.place[card] = station
        self.send(codec.LEAVE if leaves else codec.ENTER, card, station, moment)

    def content(self, front: int) -> bytes:
        """The journal's file after so many touches."""
        return layout.journal_of(self.station.history[:front], 100_000, self.CARDS, self.digests[0])


@functools.cache
def generated() -> Generated:
    """Those cards, for both databases."""
    return Generated(1)
