# SPDX-License-Identifier: Apache-2.0
"""The journeys of the network's database (NETWORK.md, "Journeys"): how they follow the touches, and how they
are checked.

A row of `journeys` is settled: no later touch can change it. A card's journey that its next touch may continue, and a touch
in that waits for its touch out, are rows of `last_journeys`.
"""
import dataclasses
from collections.abc import Callable, Iterable, Iterator, Sequence
from typing import Literal, TypeAlias, TypedDict

from bovtrila.network import compare, fares
from bovtrila.network.database import Database
from bovtrila.network.fields import Breach, Field, Stage

NAMES = ("place", "kind", "card", "day", "began", "ended", "origin", "destination", "legs", "changes", "band", "fare",
         "charged")
COLUMNS = ("journal", "settled", *NAMES)
LAST = ("journal", "stage", *NAMES)
# The rows of the cards that have touches from the place :first on.
MOVED = """
journal = :journal AND stage = :stage AND card IN (SELECT card FROM touches WHERE journal = :journal AND place >= :first)
"""
STORED = """
SELECT journal, settled, place, kind, card, day, {began}, {ended}, origin, destination, legs, changes, band, fare, charged
FROM journeys WHERE journal = {journal} AND settled >= {first} ORDER BY settled, place
"""
# The cards whose last journeys after the load aren't those that follow from the touches.
DIFFERENT = f"""
SELECT min(place) AS place
FROM (SELECT {', '.join(NAMES)} FROM last_journeys WHERE journal = :journal AND stage IN ('loaded', 'checked')
      GROUP BY {', '.join(NAMES)} HAVING count(*) <> 2) AS unlike
GROUP BY card ORDER BY place
"""
BREACH = "the journey is not that of its touches"

Kind: TypeAlias = Literal["journey", "inside", "unfinished", "late", "unstarted"]
# A station by its number, or as a line of a touch has that.
Station: TypeAlias = int | str


class Place(TypedDict):
    """The place of a touch in its journal."""

    place: int


@dataclasses.dataclass(slots=True, eq=False)
class Journey:
    """A row: a journey, or a touch that is of none. Its fields are those of NAMES, in pence, and days and moments as text.
    Only a row that is unstarted has no `began` and no `origin`."""

    place: int
    kind: Kind
    card: int
    day: str
    began: str | None
    ended: str | None
    origin: Station | None
    destination: Station | None
    legs: int
    changes: str | None
    band: fares.Band | None
    fare: int | None
    charged: int

    def start(self) -> tuple[str, int]:
        """The moment and the station with which it begins."""
        assert self.began is not None and self.origin is not None, "only a row that is unstarted has none"
        return self.began, int(self.origin)

    def line(self, *first: Field) -> str:
        """The row with these values before it, as comma-separated values."""
        values = (*first, self.place, self.kind, self.card, self.day, self.began, self.ended, self.origin, self.destination,
                  self.legs, self.changes, self.band, self.fare, self.charged)
        return ",".join(["" if value is None else str(value) for value in values]) + "\n"


class Last:
    """What a card's next touch may still change: the journey that it may continue, and the touch in that it may end. If
    there are both, the touch in has continued the journey."""

    def __init__(self) -> None:
        self.journey: Journey | None = None
        self.entry: Journey | None = None

    def rows(self) -> list[Journey]:
        return [row for row in (self.journey, self.entry) if row]

    def settle(self) -> list[Journey]:
        """The rows, which the next touch leaves as they are."""
        rows = self.rows()
        self.journey, self.entry = None, None
        return rows


class Travel:
    """The journeys of a journal's touches, which are taken one by one. A touch whose journey began in a detached month has
    no row: that of its journey went with the month."""

    def __init__(self, journal: int, tables: fares.Fares, cards: dict[int, Last]) -> None:
        self.journal, self.tables, self.cards = journal, tables, cards
        self.taken: dict[str, Callable[[Last, Journey], Sequence[Journey]]] = {
            "Entered": self.enter, "EnteredOverOpen": self.enter, "EnteredContinued": self.go_on,
            "Exited": self.end_leg, "ExitedLate": self.end_late, "ExitedUnstarted": self.end_unstarted}

    def settled(self, lines: Iterable[str]) -> Iterator[str]:
        """The rows that touches settle. Each touch is a line of the table `touches`."""
        for line in lines:
            _, place, moment, day, _, _, card, _, station, _, verdict, change, _ = line.split(",")
            take = self.taken.get(verdict)
            if take:
                number = int(card)
                last = self.cards.get(number) or self.cards.setdefault(number, Last())
                touch = Journey(int(place), "inside", number, day, moment, None, station, None, 0, None, None, None,
                                -int(change))
                for row in take(last, touch):
                    yield row.line(self.journal, place)

    def enter(self, last: Last, touch: Journey) -> Sequence[Journey]:
        """A touch in that begins a journey. One that waited for its touch out waits no longer."""
        if last.entry:
            last.entry.kind = "unfinished"
        rows = last.settle()
        touch.band = self.tables.entry_band(touch.day, touch.start()[0])
        last.entry = touch
        return rows

    def go_on(self, last: Last, touch: Journey) -> Sequence[Journey]:
        """A touch in that continues a journey. Its charge goes by the band of the journey's first touch in."""
        if last.journey:
            touch.band = self.tables.entry_band(last.journey.day, last.journey.start()[0])
            last.entry = touch
        return ()

    def end_leg(self, last: Last, touch: Journey) -> Sequence[Journey]:
        """A touch out that ends a leg, and so makes a journey, or a longer one."""
        leg, journey = last.entry, last.journey
        if leg is None:
            return ()
        if journey is None:
            journey = last.journey = leg
            journey.kind = "journey"
        else:
            change = f"{journey.destination}-{leg.origin}"
            journey.changes = f"{journey.changes} {change}" if journey.changes else change
            journey.charged += leg.charged
        last.entry = None
        journey.ended, journey.destination, journey.legs = touch.began, touch.origin, journey.legs + 1
        journey.charged += touch.charged
        began, origin = journey.start()
        journey.band, journey.fare = self.tables.of_journey(journey.day, began, origin, touch.start()[1])
        return ()

    def end_late(self, last: Last, touch: Journey) -> Sequence[Journey]:
        """A touch out that is too late for its touch in: both cost a maximum."""
        if last.entry:
            last.entry.kind, last.entry.ended, last.entry.destination = "late", touch.began, touch.origin
            last.entry.charged += touch.charged
        return last.settle()

    def end_unstarted(self, last: Last, touch: Journey) -> Sequence[Journey]:
        """A touch out without a touch in."""
        touch.kind, touch.ended, touch.destination = "unstarted", touch.began, touch.origin
        touch.band = self.tables.entry_band(touch.day, touch.start()[0])
        touch.began, touch.origin = None, None
        return [*last.settle(), touch]

    def last_lines(self, stage: Stage) -> Iterator[str]:
        """The rows of `last_journeys`."""
        for card in sorted(self.cards):
            for row in self.cards[card].rows():
                yield row.line(self.journal, stage)


def last_of(base: Database, journal: int, stage: Stage, first: int) -> dict[int, Last]:
    """The last journeys of the cards that have touches from a place on."""
    found: dict[int, Last] = {}
    text = f"SELECT {', '.join(NAMES)} FROM last_journeys WHERE {MOVED}"
    for row in base.rows(Journey, text, journal=journal, stage=stage, first=first):
        last = found.setdefault(row.card, Last())
        if row.kind == "inside":
            last.entry = row
        else:
            last.journey = row
    return found


def advance(base: Database, journal: int, stage: Stage, first: int, lines: Iterable[str],
            take: Callable[[Iterator[str]], object]) -> None:
    """Adds a journal's touches from a place on, given as lines, to the last journeys of a stage. `take` is called with the
    lines of the rows that are settled."""
    made = Travel(journal, fares.Fares(base, journal), last_of(base, journal, stage, first))
    take(made.settled(lines))
    base.execute(f"DELETE FROM last_journeys WHERE {MOVED}", journal=journal, stage=stage, first=first)
    base.copy(made.last_lines(stage), "last_journeys", LAST)


def load(base: Database, journal: int, first: int, lines: Iterable[str]) -> None:
    """Adds the journeys of touches that are loaded."""
    advance(base, journal, "loaded", first, lines, lambda settled: base.copy(settled, "journeys", COLUMNS))


def breaches(base: Database, journal: int, first: int, end: int) -> list[Breach]:
    """Makes the journeys of the touches from a place on once more: the breaches where those of the database are others."""
    asked = STORED.format(journal=journal, first=first, began=base.MOMENT.replace("moment", "began"),
                          ended=base.MOMENT.replace("moment", "ended"))
    found: list[Breach] = []

    def order(line: str) -> tuple[int, ...]:
        return (*map(int, line.split(",", 3)[1:3]),)

    def take(settled: Iterator[str]) -> None:
        for pair in compare.paired(base.lines(asked), settled, order):
            found.append((int(pair.line().split(",", 3)[2]), BREACH))
    advance(base, journal, "checked", first, compare.stored(base, journal, first, end), take)
    return found + [(row["place"], BREACH) for row in base.rows(Place, DIFFERENT, journal=journal)]
