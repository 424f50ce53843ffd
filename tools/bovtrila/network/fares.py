# SPDX-License-Identifier: Apache-2.0
"""The fare tables of a journal, out of the network's database: a journey's band and single fare (FARES.md,
"Stamp", "Band" and "Fare by a table"), and the names of stations.

A table has its text in TOML 1.1, and Python reads TOML 1.0. Of a table that Python can't read nothing is known.
"""
import datetime
import functools
import io
import struct
import tomllib
import zoneinfo
from collections.abc import Callable, Mapping
from typing import Final, Literal, TypeAlias, TypedDict

from bovtrila.network.database import Database
from bovtrila.network.fields import Count

Window: TypeAlias = Literal["Early", "Evening", "Off"]
Band: TypeAlias = Literal["peak", "off-peak"]
EARLY: Final = "Early"
EVENING: Final = "Evening"
OFF: Final = "Off"
PEAK: Final = "peak"
OFF_PEAK: Final = "off-peak"
# The minutes of the civil day with which the windows begin, and with which they end.
HOURS: dict[Window, tuple[int, int]] = {EARLY: (390, 570), EVENING: (960, 1140)}
# The tables that a journal's fare days may go by: the first one, and those of its revisions, with their first days.
TABLES = """
SELECT 0 AS place, NULL AS first_day, content FROM journals JOIN fare_tables ON fare_tables.digest = journals.digest
WHERE journal = :journal
UNION ALL
SELECT 1, first_day, content FROM revisions JOIN fare_tables ON fare_tables.digest = revisions.digest
WHERE journal = :journal AND verdict = 'Revised'
ORDER BY 1, 2
"""
EPOCH = datetime.date(1970, 1, 1).toordinal()
# How many moments' windows are remembered.
MOST = 50_000


class Station(TypedDict):
    """A station of a fare table."""

    id: int
    name: str
    zones: list[int]


# The single fares between two zones, or of a pair of stations, in pence; with what they are of.
Prices: TypeAlias = Mapping[str, int]


class Table(TypedDict):
    """A journal's fare table, with its first fare day in days since 1970-01-01: None for the journal's first table."""

    place: int
    first_day: int | None
    content: bytes


def zone_of(rule: str) -> zoneinfo.ZoneInfo:
    """The clock of a POSIX TZ rule, by a file of a zone that has this rule alone. Its moments are all after its last
    transition, as there is none."""
    header = struct.pack(">5s15x6l", b"TZif2", 0, 0, 0, 0, 1, 4)
    block = header + struct.pack(">lbb4s", 0, 0, 0, b"UTC\0")
    return zoneinfo.ZoneInfo.from_file(io.BytesIO(2 * block + f"\n{rule}\n".encode()))


class FareTable:
    """A fare table. ValueError means that Python can't read it."""

    def __init__(self, content: bytes) -> None:
        table = tomllib.loads(content.decode())
        self.zone, self.evening_rule = zone_of(table["zone"]), table["evening_rule"]
        self.stations: dict[int, Station] = {row["id"]: row for row in table["station"]}
        self.singles: dict[tuple[int, int], Prices] = {(row["low"], row["high"]): row for row in table["single"]}
        self.pairs: dict[frozenset[int], Prices] = {frozenset((row["from"], row["to"])): row
                                                    for row in table.get("pair", ())}
        self.holidays: set[str] = {*table.get("holidays", ())}
        # A journey's first moment is asked for at each of its touches.
        self.window: Callable[[str, str], Window] = functools.lru_cache(MOST)(self.window_of)
        self.fare: Callable[[int, int, Window], tuple[Band, int]] = functools.cache(self.fare_of)

    def window_of(self, day: str, moment: str) -> Window:
        """The window of a moment of a fare day, both as text. No window reaches into the hours that belong to the fare day
        before."""
        if datetime.date.fromisoformat(day).weekday() > 4 or day in self.holidays:
            return OFF
        clock = datetime.datetime.fromisoformat(moment).astimezone(self.zone)
        minute = 60 * clock.hour + clock.minute
        return next((window for window, (begins, ends) in HOURS.items() if begins <= minute < ends), OFF)

    def fare_of(self, origin: int, destination: int, window: Window) -> tuple[Band, int]:
        """The band and the single fare of a journey."""
        zones, others = (self.stations[number]["zones"] for number in (origin, destination))
        inwards = self.evening_rule and 1 not in zones and 1 in others
        band: Band = OFF_PEAK if window == OFF or window == EVENING and inwards else PEAK
        name = band.replace("-", "_")
        pair = self.pairs.get(frozenset((origin, destination)))
        prices = [pair[name]] if pair else [self.singles[min(one, other), max(one, other)][name]
                                            for one in zones for other in others]
        return band, min(prices)


def table_of(content: bytes) -> FareTable | None:
    """The fare table of these bytes, or None where Python can't read it."""
    try:
        return FareTable(content)
    except ValueError:
        return None


class Fares:
    """The fare tables of a journal by the fare days on which they are in force."""

    def __init__(self, base: Database, journal: int) -> None:
        first, *later = base.rows(Table, TABLES, journal=journal)
        self.first = table_of(first["content"])
        self.later = [((row["first_day"] or 0) + EPOCH, table_of(row["content"])) for row in reversed(later)]
        self.on: Callable[[str], FareTable | None] = functools.cache(self.table_on)

    def table_on(self, day: str) -> FareTable | None:
        """The table in force on a fare day."""
        number = datetime.date.fromisoformat(day).toordinal()
        return next((table for begins, table in self.later if begins <= number), self.first)

    def entry_band(self, day: str, moment: str) -> Band | None:
        """The band of the maximum that a touch in or out at a moment is charged."""
        table = self.on(day)
        if table is None:
            return None
        return OFF_PEAK if table.window(day, moment) == OFF else PEAK

    def of_journey(self, day: str, moment: str, origin: int, destination: int) -> tuple[Band | None, int | None]:
        """The band and the single fare of a journey that began at a moment."""
        table = self.on(day)
        return table.fare(origin, destination, table.window(day, moment)) if table else (None, None)


def keep_stations(base: Database, digest: str, content: bytes) -> bool:
    """Enters the stations of a fare table: whether Python can read it."""
    if base.row(Count, "SELECT 1 AS found FROM fare_stations WHERE digest = :digest LIMIT 1", digest=digest):
        return True
    table = table_of(content)
    for number, station in sorted(table.stations.items()) if table else ():
        base.execute("INSERT INTO fare_stations (digest, number, name, zones) VALUES (:digest, :number, :name, :zones)"
                     " ON CONFLICT DO NOTHING", digest=digest, number=number, name=station["name"],
                     zones="/".join(map(str, station["zones"])))
    return table is not None
