"""Touches of cards that travel often, from a fixed seed: days with caps, interchanges, legs that are too late, missing
touches, refusals, and revisions at night. For scripts/tests/test_statements.py."""
import random
from collections.abc import Iterable, Iterator, Sequence
from typing import NamedTuple

from bovtrila import codec, model

# Monday 2025-01-06 at 00:00 UTC, and the seconds of a day.
MONDAY, DAY = 1736121600, 86_400
# Seconds after 00:00 at which a card's day begins: before and after the fare day's beginning, in and out of windows.
BEGINS = (3 * 3600, 4 * 3600 + 1500, 6 * 3600, 7 * 3600, 9 * 3600, 15 * 3600, 17 * 3600)
# Seconds between a journey and the next one: around the minutes of interchanges.
PAUSES = (300, 600, 601, 900, 901, 1200, 1201, 3000)
# Seconds of a leg: around the limits.
LEGS = (600, 600, 1200, 1200, 1500, 2699, 2701, 5400, 5401)
# The gate of the staff, who revise fares, and the number of no station.
STAFF, NOWHERE = 65_535, 9999
FIRST_REFUSAL = 20


class Touch(NamedTuple):
    """A touch, with the moment at which a station gets it."""

    sent: int
    kind: int
    card: int
    values: tuple[int, ...]


class Travellers:
    """The touches of so many cards over so many days. The last card is never issued."""

    def __init__(self, seed: int, tables: Sequence[model.Table], cards: int, days: int) -> None:
        self.random = random.Random(seed)
        self.tables, self.cards, self.days = tables, cards, days
        self.stations = [*tables[0].stations]
        self.partners = {start: [other for other in self.stations
                                 if any(frozenset((start, other)) in table.interchanges for table in tables)]
                         for start in self.stations}
        self.numbers, self.turned_away = 0, set[int]()

    def travel(self, station: model.Station) -> None:
        """Has a station judge all touches, in their order, with revisions at night."""
        self.judge(station, self.issues())
        for day in range(self.days):
            if day % 3 == 2:
                self.revise(station, MONDAY // DAY + day)
            made = [touch for card in range(1, self.cards + 1) for touch in self.day_of(card, MONDAY + day * DAY)]
            self.judge(station, sorted(made, key=lambda touch: touch.sent))
        last = MONDAY + self.days * DAY + 7 * 3600
        self.judge(station, (Touch(last, codec.ENTER, card, (self.stations[0], last)) for card in range(1, self.cards, 2)))

    def judge(self, station: model.Station, touches: Iterable[Touch]) -> None:
        """Has a station judge touches. Who isn't let in goes out again in one case of five."""
        for touch in touches:
            if touch.kind == codec.LEAVE and touch.card in self.turned_away and self.random.random() < 0.8:
                continue
            self.numbers += 1
            frame = codec.touch(touch.kind, self.random.randint(1, 5), self.numbers, touch.card, *touch.values)
            is_refused = station.answer(frame)[9] >= FIRST_REFUSAL
            if touch.kind == codec.ENTER:
                self.turned_away = self.turned_away | {touch.card} if is_refused else self.turned_away - {touch.card}

    def revise(self, station: model.Station, day: int) -> None:
        """Revises the fares from a fare day that was reached, and from this one on."""
        for first in (day - 1, day):
            self.numbers += 1
            digest, moment = self.random.choice(self.tables).digest, self.random.choice((0, MONDAY))
            station.answer(codec.touch(codec.REVISE, STAFF, self.numbers, 1, digest, first, moment))

    def issues(self) -> Iterator[Touch]:
        """Issues of all cards but the last. Some pay in before they are issued, and some are issued twice."""
        for card in range(1, self.cards):
            if card % 5 == 0:
                yield Touch(MONDAY, codec.TOP_UP, card, (500, MONDAY))
            for _ in range(1 + (card % 4 == 0)):
                yield Touch(MONDAY, codec.ISSUE, card, (MONDAY,))

    def day_of(self, card: int, midnight: int) -> Iterator[Touch]:
        """A card's touches on a day."""
        moment = midnight + self.random.choice(BEGINS) + self.random.randrange(900)
        for paid_in in self.random.choices((0, 1000, 2000, 4000, 60_000), k=2):
            yield Touch(moment - 60, codec.TOP_UP, card, (paid_in, moment - 60))
        station = self.random.choice(self.stations)
        for _ in range(self.random.choice((0, 1, 2, 4, 6, 8))):
            finish, ended = self.random.choice(self.stations), moment + self.random.choice(LEGS)
            for kind, each, at in ((codec.ENTER, station, moment), (codec.LEAVE, finish, ended)):
                if self.random.random() < 0.95:
                    yield Touch(at, kind, card, (each if self.random.random() < 0.98 else NOWHERE, at))
            if self.random.random() < 0.02:
                # By a clock that is behind.
                yield Touch(ended + 1, codec.LEAVE, card, (finish, moment - 1))
            station = self.random.choice([*self.partners[finish], finish, *self.stations[:2]])
            moment = ended + self.random.choice(PAUSES)
