# SPDX-License-Identifier: Apache-2.0
"""The sums of a fare day that the page of bovtrila-network-report shows, as the database counts them.

The database adds the touches up, so the memory taken here goes by the servers and the quarters of an hour, and not by the
touches.
"""
import collections
import datetime
import zoneinfo
from collections.abc import Callable
from typing import TypedDict

from bovtrila.day_charts import Pence
from bovtrila.day_tally import BEGINS, MAXIMA, REFUSALS, Tally
from bovtrila.network import queries
from bovtrila.network.database import Database
from bovtrila.network.fields import Field, Row, made

# A day's touches and money, by server, quarter of an hour, act and verdict.
QUARTERS = """
SELECT station, server, seconds - seconds % 900 AS quarter, act, verdict, transfer, count(*) AS touches,
       sum(change) AS change
FROM history WHERE day = :day AND act <> 'revision'
GROUP BY station, server, seconds - seconds % 900, act, verdict, transfer
"""
CARDS = """
SELECT server, card, sum(CASE WHEN act = 'top-up' AND NOT transfer THEN change ELSE 0 END) AS paid_in,
       -sum(CASE WHEN act IN ('in', 'out') THEN change ELSE 0 END) AS charged, count(*) AS touches
FROM history WHERE day = :day AND act <> 'revision' AND accepted
GROUP BY server, card
"""
# How many cards had an accepted touch; those that were charged most; and how many were charged as much as the last of these.
COUNTED = f"SELECT count(*) AS cards FROM ({CARDS}) AS carded"
MOST = f"""
SELECT card, paid_in, charged, touches FROM ({CARDS}) AS carded WHERE charged > 0 ORDER BY charged DESC, card LIMIT :most
"""
EQUAL = f"SELECT count(*) AS cards FROM ({CARDS}) AS carded WHERE charged = :charged"
# The cards whose last accepted touch in or out of the day is one in, by server, with what they were charged there.
INSIDE = """
SELECT servers.name AS server, count(*) AS cards, -sum(change) AS held
FROM touches
JOIN (SELECT journal, max(place) AS place FROM touches
      WHERE day = :day AND verdict IN ('Entered', 'EnteredContinued', 'EnteredOverOpen', 'Exited', 'ExitedUnstarted',
                                       'ExitedLate')
      GROUP BY journal, card) AS latest ON latest.journal = touches.journal AND latest.place = touches.place
JOIN journals ON journals.journal = touches.journal
JOIN servers ON servers.name = journals.server
WHERE day = :day AND act = 'in'
GROUP BY servers.name
"""
JOURNALS = """
SELECT servers.station, servers.name AS server, journals.name, journals.touches, journals.seal
FROM journals JOIN servers ON servers.name = journals.server ORDER BY servers.station, servers.name, journals.name
"""


class Quarter(TypedDict):
    """A row of QUARTERS. The quarter of an hour is in seconds since 1970-01-01 00:00:00 UTC, and `change` in pence."""

    station: str
    server: str
    quarter: int
    act: str
    verdict: str
    transfer: bool
    touches: int
    change: int


class Cards(TypedDict):
    """How many cards there are."""

    cards: int


class Inside(Cards):
    """The cards that are inside at the end, and what the entry charges come to that they hold, in pence."""

    server: str
    held: int


class Charged(TypedDict):
    """A card with an accepted touch, and its sums in pence."""

    card: int
    paid_in: int
    charged: int
    touches: int


class Maximum(TypedDict):
    """A row of the query maxima, in pence. The touch in may be in a month that was detached."""

    station: str
    server: str
    place: int
    card: int
    verdict: str
    moment: str
    at_entry: int | None
    at_exit: int


class Fresh(TypedDict):
    """A row of the query freshness."""

    station: str
    server: str
    journal: str | None
    last_touch: str | None
    loaded: str | None
    state: str


class Revised(TypedDict):
    """A row of the query revisions. first_day is in days since 1970-01-01."""

    first_day: int
    digest: str
    station: str
    server: str
    state: str


class Clock(TypedDict):
    """A row of the query clocks."""

    station: str
    server: str
    gate: int
    times: int
    most_seconds: int
    first_place: int


class Journal(TypedDict):
    """A journal, and what was loaded of it."""

    station: str
    server: str
    name: str
    touches: int
    seal: str


class Server:
    """What one server's touches of the day come to."""

    def __init__(self, station: str) -> None:
        self.station, self.touches, self.refused, self.paid, self.charged, self.transferred = station, 0, 0, 0, 0, 0
        self.maxima, self.inside, self.held = 0, 0, 0


class Sums(Tally):
    """A tally of bovtrila-day-report that takes sums. The cards that were charged most come from the database."""

    def __init__(self, zone: zoneinfo.ZoneInfo) -> None:
        super().__init__(zone)
        self.most: list[Charged] = []
        self.equal = 0

    def most_charged(self) -> list[tuple[int, tuple[int, int]]]:
        return [(row["card"], (row["paid_in"], row["charged"])) for row in self.most]

    def cut_off(self) -> tuple[int, int] | None:
        among = sum(row["charged"] == self.most[-1]["charged"] for row in self.most) if self.most else 0
        return (self.equal, among) if self.equal > among else None


class Day:
    """What is counted of a fare day: over all stations, and by server."""

    def __init__(self, base: Database, day: str, zone: zoneinfo.ZoneInfo, shown: int) -> None:
        self.day, self.shown = day, shown
        self.all = Sums(zone)
        self.servers: dict[str, Server] = {}
        for quarter in base.rows(Quarter, QUARTERS, day=day):
            self.add(quarter)
        for inside in base.rows(Inside, INSIDE, day=day):
            server = self.servers[inside["server"]]
            server.inside, server.held = inside["cards"], inside["held"]
        self.cards = base.one(Cards, COUNTED, day=day)["cards"]
        self.take_most(base)
        self.take_maxima(base)
        self.silent = [row for row in asked(Fresh, base, "freshness", first=day, last=day) if row["state"] == "no touches"]
        self.revisions = [row for row in asked(Revised, base, "revisions") if row["state"] == "lacks it"]
        self.clocks = asked(Clock, base, "clocks", first=day, last=day)
        self.journals = base.rows(Journal, JOURNALS)

    def take_most(self, base: Database) -> None:
        """The cards that were charged most."""
        tally = self.all
        tally.most = base.rows(Charged, MOST, day=self.day, most=10)
        if len(tally.most) == 10:
            tally.equal = base.one(Cards, EQUAL, day=self.day, charged=tally.most[-1]["charged"])["cards"]
        tally.touches_by_card = collections.Counter({row["card"]: row["touches"] for row in tally.most})

    def add(self, row: Quarter) -> None:
        """Adds the touches of a server in a quarter of an hour, of one act and verdict."""
        server = self.servers.setdefault(row["server"], Server(row["station"]))
        count, change, verdict = row["touches"], row["change"], row["verdict"]
        server.touches += count
        server.refused += count if verdict in REFUSALS else 0
        server.maxima += count if verdict in MAXIMA else 0
        if row["transfer"]:
            server.transferred += change
        paid = change if row["act"] == "top-up" and not row["transfer"] else 0
        charged = -change if row["act"] in ("in", "out") else 0
        server.paid, server.charged = server.paid + paid, server.charged + charged
        self.place(row, paid, charged)

    def place(self, row: Quarter, paid: int, charged: int) -> None:
        """Adds them to the sums of the day."""
        tally, count = self.all, row["touches"]
        shown = datetime.datetime.fromtimestamp(row["quarter"], tally.zone)
        begun = shown - BEGINS
        quarter = 4 * begun.hour + begun.minute // 15
        tally.touches[row["act"]][quarter] += count
        tally.second[row["act"]][quarter] += count * shown.fold
        tally.verdicts[row["verdict"]] += count
        tally.touches_by_day[self.day] += count
        before = tally.by_quarter.get(row["quarter"] // 900, (0, 0))
        tally.by_quarter[row["quarter"] // 900] = before[0] + paid, before[1] + charged
        before = tally.by_day.get(self.day, (0, 0))
        tally.by_day[self.day] = before[0] + paid, before[1] + charged

    def take_maxima(self, base: Database) -> None:
        """The sums of the journeys that cost a maximum by station and verdict, and the first of them."""
        self.maxima: list[Maximum] = []
        # By station and verdict: how many, and the pence at the touch in and at the touch out.
        self.maxima_sums: dict[tuple[str, str], list[int]] = collections.defaultdict(lambda: [0, 0, 0])
        names, rows = queries.stream(base, "maxima", first=self.day, last=self.day)
        for row in made(Maximum, names, rows):
            if len(self.maxima) < self.shown:
                self.maxima.append(row)
            # The touch in may be in a month that was detached.
            for place, number in enumerate((1, row["at_entry"] or 0, row["at_exit"])):
                self.maxima_sums[row["station"], row["verdict"]][place] += number

    def figures(self, station: str | None = None) -> dict[str, int]:
        """The figures at the head of a page, of a station's servers or of all."""
        servers = [server for server in self.servers.values() if station in (None, server.station)]
        touches, refused = sum(each.touches for each in servers), sum(each.refused for each in servers)
        return {"Touches of cards": touches, "of these accepted": touches - refused, "and refused": refused,
                "Cards with an accepted touch": self.cards, "Paid in": Pence(sum(each.paid for each in servers)),
                "Transferred from the journal before": Pence(sum(each.transferred for each in servers)),
                "Charged": Pence(sum(each.charged for each in servers)),
                "Journeys found to cost a maximum": sum(each.maxima for each in servers),
                "Cards inside at the end": sum(each.inside for each in servers),
                "Entry charges that these hold": Pence(sum(each.held for each in servers))}


def asked(kind: Callable[..., Row], base: Database, name: str, **values: Field) -> list[Row]:
    """The rows of a query, by their columns."""
    return [*made(kind, *queries.ask(base, name, **values))]
