"""Tests of the journeys in the network's database: worked examples, and generated cards beside the reference model. For
scripts/tests/test_network.py."""
import contextlib
import datetime
import hashlib
import os
import pathlib
import random
import subprocess
import time
import unittest
import unittest.mock
from collections.abc import Iterator, Sequence

import network_travel
import town
from bovtrila import codec, layout, model
from bovtrila.network import database, fares
from harness import EXAMPLE, PROGRAM
from network_base import TABLES, BaseTest, OnPostgres, OnSqlite, OverBoth, call, room

ROWS = """
SELECT place, kind, server_card, day, began, ended, origin, destination, legs, changes, band, fare, charged
FROM travel WHERE server = 'Alder' ORDER BY place
"""
# Monday 2025-01-06 at 00:00 UTC.
MONDAY = 1736121600
IN, OUT = codec.ENTER, codec.LEAVE
# The touches of cards by the clock of that Monday, and the rows that follow from docs/reference/FARES.md, "Worked examples".
WORKED = {
    # Three journeys reach a cap of 850.
    1: [("06:40", IN, 2), ("07:05", OUT, 1), ("07:40", IN, 2), ("08:05", OUT, 1), ("08:40", IN, 2), ("09:05", OUT, 1)],
    # A journey of two legs, for 240.
    2: [("08:00", IN, 2), ("08:25", OUT, 1), ("08:33", IN, 4), ("09:00", OUT, 3)],
    # A touch out that is a second too late: 900 for the touch in, and 700 for the touch out.
    3: [("08:00", IN, 2), ("09:30:01", OUT, 1)],
    # A touch in without a touch out, and a journey.
    4: [("08:00", IN, 2), ("08:10", IN, 2), ("08:30", OUT, 1)],
    # A touch out without a touch in, and a card that is inside.
    5: [("08:00", OUT, 1), ("08:05", IN, 4)]}
JOURNEYS = [
    ("journey", 1, "06:40:00", "07:05:00", 2, 1, 1, None, "peak", 350, 350),
    ("journey", 1, "07:40:00", "08:05:00", 2, 1, 1, None, "peak", 350, 350),
    ("journey", 1, "08:40:00", "09:05:00", 2, 1, 1, None, "peak", 350, 150),
    ("journey", 2, "08:00:00", "09:00:00", 2, 3, 2, "1-4", "peak", 240, 240),
    ("late", 3, "08:00:00", "09:30:01", 2, 1, 0, None, "peak", None, 1600),
    ("unfinished", 4, "08:00:00", None, 2, None, 0, None, "peak", None, 900),
    ("journey", 4, "08:10:00", "08:30:00", 2, 1, 1, None, "peak", 350, 350),
    ("unstarted", 5, None, "08:00:00", None, 1, 0, None, "peak", None, 900),
    ("inside", 5, "08:05:00", None, 4, None, 0, None, "peak", None, 900)]


def seconds(clock: str) -> int:
    parts = [*map(int, clock.split(":")), 0][:3]
    return 3600 * parts[0] + 60 * parts[1] + parts[2]


def worked_frames() -> list[bytes]:
    """The touches of the worked examples, each card with 5000 pence."""
    frames: list[bytes] = []
    for card, touches in WORKED.items():
        acts = [(codec.ISSUE, ()), (codec.TOP_UP, (5000,)), *((kind, (station,)) for _, kind, station in touches)]
        moments = [0, 0, *(seconds(clock) for clock, *_ in touches)]
        for (kind, act), moment in zip(acts, moments):
            frames.append(codec.touch(kind, 7, len(frames) + 1, card, *act, MONDAY + moment))
    return frames


class Journeys(OverBoth):
    """Over both databases."""

    def loaded(self, base: str, journal: pathlib.Path, *tables: pathlib.Path) -> subprocess.CompletedProcess[str]:
        return call("load", "--station", "Alder", "--journal", journal, "--database", base, "--program", PROGRAM,
                    "--table", *(tables or TABLES[1:]))

    def of_database(self, base: str) -> list[network_travel.Row]:
        return [network_travel.Row(*row) for row in self.asked(base, ROWS)]

    def test_the_worked_examples(self) -> None:
        base, journal = self.fresh("worked"), room("network-worked-") / "alder"
        journal.write_bytes(layout.journal_of(worked_frames(), 1000, 10, model.Table(EXAMPLE.read_text()).digest))
        done = self.loaded(base, journal)
        self.assertEqual((done.returncode, done.stderr), (0, ""))
        found = [(row.kind, row.card, row.began and row.began[11:-1], row.ended and row.ended[11:-1], *row[6:])
                 for row in self.of_database(base)]
        self.assertEqual(found, JOURNEYS)
        self.assertEqual(self.asked(base, "SELECT number, name, zones FROM fare_stations ORDER BY number"),
                         [(1, "Alder", "1"), (2, "Birch", "2"), (3, "Cedar", "3"), (4, "Damson", "1"), (5, "Elder", "2/3")])

    def test_generated_journeys_are_those_of_the_model(self) -> None:
        """In four loads, which cut legs and journeys apart."""
        made, home = network_travel.generated(), room("network-generated-")
        tables = [home / f"{place}.toml" for place in range(3)]
        for path, text in zip(tables, made.texts):
            path.write_text(text)
        base, history = self.fresh("generated"), made.station.history
        fronts = [*sorted(random.Random(2).sample(range(1, len(history)), 3)), len(history)]
        self.assert_is_varied(made, network_travel.journeys(made.station, len(history)))
        for front in fronts:
            (home / "alder").write_bytes(made.content(front))
            self.assertEqual(self.loaded(base, home / "alder", *tables).stderr, "")
            self.assertEqual(self.of_database(base), network_travel.journeys(made.station, front))
            self.assert_sums(base, made, front)
            self.assertEqual(call("check", "--database", base).stdout.count("\n"), 1)
        self.assertEqual(call("check", "--all", "--database", base).stdout.count("\n"), 1)
        # The names are those of the last revision's table.
        names = "SELECT name, zones FROM fare_stations WHERE number = 2 AND digest {} (SELECT last_table FROM journals)"
        self.assertEqual(self.asked(base, names.format("=")), [("Birch", "2")])
        self.assertIn(("Birke", "1/2"), self.asked(base, names.format("<>")))

    def assert_sums(self, base: str, made: network_travel.Generated, front: int) -> None:
        """The sums by card and day, and by card, are what the card was charged."""
        days = self.asked(base, "SELECT server_card, day, sum(charged) FROM travel WHERE kind = 'journey'"
                                " GROUP BY server_card, day")
        self.assertEqual({row[:2]: row[2] for row in days}, network_travel.charged_by_day(made.station, front))
        unlike = self.asked(base, "SELECT card, held.charged FROM held WHERE held.charged <> coalesce("
                                  "(SELECT sum(travel.charged) FROM travel WHERE travel.card = held.card), 0)")
        self.assertEqual(unlike, [])

    def assert_is_varied(self, made: network_travel.Generated, rows: Sequence[network_travel.Row]) -> None:
        """The generated cards have what a rule could get wrong."""
        self.assertEqual({row.kind for row in rows}, {"journey", "inside", "unfinished", "late", "unstarted"})
        journeys = [row for row in rows if row.kind == "journey"]
        self.assertLessEqual({1, 2, 3}, {row.legs for row in journeys})
        self.assertGreater(sum(row.charged < (row.fare or 0) for row in journeys), 100)
        self.assertGreater(sum(row.charged == 0 for row in journeys), 20)
        # The second leg began on a day of another table.
        revised = [town.date_text(day) for _, day in made.station.schedule.revisions]
        over = [row for row in journeys if row.legs > 1 and row.day < self.day_of(made, row.ended or "") in revised]
        self.assertGreater(len(over), 0)
        for moment in ("2025-03-30T01:00:00Z", "2025-10-26T01:00:00Z"):
            self.assertGreater(sum((row.began or "") < moment <= (row.ended or "") for row in journeys), 1)
        self.assertEqual({row.band for row in journeys}, {"peak", "off-peak"})

    @staticmethod
    def day_of(made: network_travel.Generated, moment: str) -> str:
        """The fare day of a moment."""
        return town.date_text(made.station.schedule.stamp(int(datetime.datetime.fromisoformat(moment).timestamp())).day)

    def test_a_table_that_python_cant_read_has_no_fares_and_no_names(self) -> None:
        base, home = self.fresh("newer_toml"), room("network-newer-toml-")
        # TOML 1.1 allows a comma after the last value of an inline table.
        text = EXAMPLE.read_text().replace("minutes = 10}", "minutes = 10,}")
        (home / "newer.toml").write_text(text)
        digest = hashlib.sha256(text.encode()).digest()
        (home / "alder").write_bytes(layout.journal_of(worked_frames(), 1000, 10, digest))
        done = self.loaded(base, home / "alder", home / "newer.toml")
        self.assertEqual((done.returncode, done.stdout), (0, "Alder alder: 27 touches loaded, 27 in all\n"))
        self.assertEqual(done.stderr, f"load: {home}/newer.toml: note: Python's module tomllib can't read this table: the "
                                      "database has no names of its stations, and no fares of its journeys\n")
        wanted = [(*row[:2], *row[4:8], None, None, row[10]) for row in JOURNEYS]
        self.assertEqual([(*row[1:3], *row[6:]) for row in self.of_database(base)], wanted)
        self.assertEqual(self.asked(base, "SELECT count(*) FROM fare_stations"), [(0,)])
        self.assertEqual(call("check", "--database", base).returncode, 0)

    def test_a_changed_journey_is_found_by_a_check(self) -> None:
        base, journal = self.fresh("changed_journeys"), room("network-changed-") / "alder"
        journal.write_bytes(layout.journal_of(worked_frames(), 1000, 10, model.Table(EXAMPLE.read_text()).digest))
        self.loaded(base, journal)
        place = JOURNEYS.index(("journey", 1, "06:40:00", "07:05:00", 2, 1, 1, None, "peak", 350, 350)) + 2
        of, breach = f"WHERE place = {place}", f"Alder,Alder,alder,{place},the journey is not that of its touches"
        last = "Alder,Alder,alder,{},the journey is not that of its touches"
        changes = [(f"UPDATE journeys SET {what} {of}", breach) for what in (
            "charged = 349", "fare = 351", "origin = 3", "destination = 3", "card = 2", "day = '2025-01-07'",
            "band = 'off-peak'", "ended = '2025-01-06T07:06:00Z'", "legs = 2, changes = '1-4'",
            "kind = 'late', fare = NULL, legs = 0")]
        changes += [(f"DELETE FROM journeys {of}", breach),
                    ("UPDATE last_journeys SET charged = charged - 1 WHERE kind = 'inside'", last.format(26)),
                    ("DELETE FROM last_journeys WHERE kind = 'inside'", last.format(26)),
                    ("UPDATE last_journeys SET destination = 5 WHERE card = 2 AND stage = 'loaded'", last.format(10))]
        for words in ((), ("--all",)):
            for change, said in changes:
                with self.subTest(change, words=words), self.changed(base, change):
                    done = call("check", *words, "--database", base)
                    self.assertEqual((done.returncode, done.stdout.splitlines()[1:]), (3, [said]))
            self.assertEqual(call("check", "--database", base).returncode, 0)

    @contextlib.contextmanager
    def changed(self, base: str, change: str) -> Iterator[None]:
        """A change of rows, which is taken back."""
        tables = ("journeys", "last_journeys")
        with contextlib.closing(database.connect(base)) as opened:
            before = {table: opened.table(f"SELECT * FROM {table}") for table in tables}
            opened.begin()
            opened.execute(change)
            opened.commit()
        yield
        with contextlib.closing(database.connect(base)) as opened:
            opened.begin()
            for table, (columns, rows) in before.items():
                opened.execute(f"DELETE FROM {table}")
                for row in rows:
                    named = ", ".join(f":{column}" for column in columns)
                    opened.execute(f"INSERT INTO {table} ({', '.join(columns)}) VALUES ({named})", **dict(zip(columns, row)))
            opened.commit()


class SqliteJourneys(Journeys, OnSqlite, BaseTest):
    """In SQLite."""


class PostgresJourneys(Journeys, OnPostgres, BaseTest):
    """In PostgreSQL."""


class Zones(unittest.TestCase):
    """The clock of a POSIX TZ rule, beside that of the C library."""

    def test_a_clock_is_that_of_its_rule(self) -> None:
        self.addCleanup(time.tzset)
        environment = unittest.mock.patch.dict(os.environ)
        environment.start()
        self.addCleanup(environment.stop)
        draw = random.Random(3)
        for rule in ("GMT0BST,M3.5.0/1,M10.5.0", "GMT0BST,M3.5.0/1,M10.5.0/5", "STD0DST-6,J6/12,J7/6", "<+0330>-3:30",
                     "UTC0",
                     "NZST-12NZDT,M9.5.0,M4.1.0/3", "<-02>2<-01>,M3.5.0/-1,M10.5.0/0", "IST-1GMT0,M10.5.0,M3.5.0/1"):
            os.environ["TZ"] = rule
            time.tzset()
            zone = fares.zone_of(rule)
            with self.subTest(rule):
                for moment in (draw.randrange(2**32) for _ in range(2000)):
                    self.assertEqual(datetime.datetime.fromtimestamp(moment, zone).timetuple()[:6],
                                     time.localtime(moment)[:6])
