"""Tests of the queries over a loaded network, of its constraints, and of PostgreSQL's plans. For
scripts/tests/test_network.py."""
import contextlib
import re
import signal
import tempfile
import unittest
from collections.abc import Iterable, Iterator
from typing import Any, ClassVar
from unittest import mock

import network_travel
import town
from bovtrila import model
from bovtrila.network import accounts, database, queries
from harness import EXAMPLE
from network_base import (AT, DAYS, FLIPPED, NETWORK, TIME, VALUES, DatabaseTest, OnPostgres, OnSqlite, OverBothWithTown,
                          call, driven, everything, load, words_of)

TABLE = model.Table(EXAMPLE.read_text())


class Queries(OverBothWithTown):
    """The queries, over the loaded network."""

    base: ClassVar[str]
    ended: ClassVar[list[int]]
    killed: ClassVar[int]
    again: ClassVar[list[int]]

    @classmethod
    def setUpClass(cls) -> None:
        super().setUpClass()
        cls.base = cls.fresh("network")
        cls.ended = [load(name, "friday", cls.base).returncode for name in town.SERVERS]
        killed = driven("copy", "kill", words_of("birch-2", "end", cls.base))
        killed.communicate(timeout=TIME)
        cls.killed = killed.returncode
        cls.again = [load(name, "end", cls.base).returncode for name in town.SERVERS]

    def answered(self, name: str, **more: Any) -> list[tuple[Any, ...]]:
        """A query's rows."""
        with contextlib.closing(database.reading(self.base)) as opened:
            rows: list[tuple[Any, ...]] = queries.ask(opened, name, **VALUES, **more)[1]
            return rows

    def twice(self, of: str, free: int) -> Iterable[tuple[str, ...]]:
        """A touch that stands in two places, each with the breach that a check has to report."""
        raise NotImplementedError

    def test_the_network_was_loaded_and_once_more_changes_nothing(self) -> None:
        self.assertEqual((self.ended, self.killed), ([0] * 6, -signal.SIGKILL))
        refused = [int(name == FLIPPED) for name in town.SERVERS]
        self.assertEqual(self.again, refused)
        old = everything(self.base)
        self.assertEqual([load(name, "end", self.base).returncode for name in town.SERVERS], refused)
        self.assertEqual(everything(self.base), old)
        self.assertEqual(len(old["touches"]), sum(self.town.fronts.values()))

    def test_the_servers_answered_as_the_plain_program_does(self) -> None:
        self.assertEqual(self.others, [])

    def test_each_touch_stands_there_with_its_reply(self) -> None:
        def in_order(row: tuple[Any, ...]) -> tuple[str, int]:
            return row[1], row[2]
        rows = self.asked(self.base, "SELECT station, server, place, moment, day, gate, number, card, server_card, act,"
                                     " station_number, pence, verdict, change, balance, accepted FROM history")
        wanted = [(*touch[:3], town.moment_text(touch.moment), *touch[4:]) for touch in self.town.touches()]
        self.assertEqual(sorted(rows, key=in_order), sorted(wanted, key=in_order))
        self.assertEqual(sum(touch.act == "revision" for touch in self.town.touches()), 5)

    def test_what_a_card_holds(self) -> None:
        for card in (1, 40, 5 * town.CARDS, 6 * town.CARDS, 6 * town.CARDS + 1):
            with self.subTest(card=card):
                self.assertEqual(self.answered("held", card=card), self.town.held(card))

    def test_what_all_cards_hold(self) -> None:
        self.assertEqual(self.answered("holdings"), self.town.holdings())

    def test_journeys_and_takings_by_station_and_quarter_of_an_hour(self) -> None:
        self.assertEqual(self.answered("journeys"), self.town.journeys(DAYS))

    def test_refusals_by_gate_and_verdict(self) -> None:
        # PostgreSQL has verdicts in the order of their codes, and SQLite by their names.
        self.assertEqual(sorted(self.answered("refusals")), self.town.refusals(DAYS))

    def test_journeys_that_cost_a_maximum(self) -> None:
        wanted = self.town.maxima(DAYS)
        self.assertEqual({row[4] for row in wanted}, set(town.MAXIMA))
        self.assertEqual(self.answered("maxima"), wanted)

    def test_cards_that_are_inside_longer_than_a_day(self) -> None:
        wanted = self.town.inside(DAYS[0], AT - town.DAY)
        self.assertGreater(len(wanted), 3)
        self.assertEqual(self.answered("inside"), wanted)

    def test_a_server_that_lacks_a_revision(self) -> None:
        # The refused journal's revision came on Friday, so its rows have it.
        wanted = self.town.revisions()
        self.assertEqual([row[3] for row in wanted if row[4] == "lacks it"], [town.LACKS])
        self.assertEqual(self.answered("revisions"), wanted)

    def test_a_gate_whose_moments_go_back(self) -> None:
        wanted = self.town.clocks(DAYS)
        self.assertEqual([row[1:3] for row in wanted], [(town.WRONG, town.GATE)])
        self.assertEqual(self.answered("clocks"), wanted)

    def test_takings_of_journeys_and_caps(self) -> None:
        takings = network_travel.Takings(self.town, DAYS, TABLE)
        self.assertEqual(self.answered("fares"), takings.fares())
        self.assertEqual(self.answered("origins"), takings.by("origin"))
        self.assertEqual(self.answered("destinations"), takings.by("destination"))
        self.assertEqual(self.answered("caps"), takings.caps())
        # There is something of each kind to be counted.
        self.assertEqual(takings.by("origin")[0][:4], (None, None, None, 0))
        self.assertGreater(sum(row[5] for row in takings.caps()), 0)
        self.assertEqual({row.kind for _, row in takings.rows}, {"journey", "unfinished", "late", "unstarted", "inside"})
        self.assertGreater(sum(row.legs > 1 for _, row in takings.rows), 0)

    def test_rows_one_by_one_are_those_at_once(self) -> None:
        with contextlib.closing(database.reading(self.base)) as opened:
            for name in queries.known():
                with self.subTest(name):
                    names, rows = queries.stream(opened, name, **VALUES, card=1)
                    self.assertEqual((names, [*rows]), queries.ask(opened, name, **VALUES, card=1))
            text = "SELECT 2 AS number, NULL AS missing, 'one, \"two\"\n%s' AS words WHERE :card = 1;"
            names, rows = opened.stream(text, card=1)
            self.assertEqual((names, [*rows]), (["number", "missing", "words"], [(2, None, 'one, "two"\n%s')]))

    def test_nothing_breaks_a_promise(self) -> None:
        for words in ((), ("--all",)):
            done = call("check", *words, "--database", self.base)
            self.assertEqual((done.returncode, done.stdout, done.stderr), (0, "station,server,journal,place,breach\n", ""))

    def test_the_script_writes_the_answer_in_lines(self) -> None:
        done = call("query", "journeys", "--from", DAYS[0], "--to", DAYS[1], "--database", self.base)
        rows = [",".join(map(str, row)) for row in self.town.journeys(DAYS)]
        self.assertEqual((done.returncode, done.stdout.splitlines()),
                         (0, ["station,quarter,journeys,paid_in,transferred,taken", *rows]))
        done = call("query", "inside", "--from", DAYS[0], "--at", town.moment_text(AT), "--database", self.base)
        self.assertEqual(len(done.stdout.splitlines()), 1 + len(self.town.inside(DAYS[0], AT - town.DAY)))

    def test_each_planted_breach_is_found(self) -> None:
        last = self.town.fronts["birch-1"] - 1
        for breach, *changes in self.breaches(last):
            with self.subTest(breach):
                with contextlib.closing(database.connect(self.base)) as opened:
                    opened.begin()
                    for change in changes:
                        opened.execute(change)
                    [(journal,)] = opened.table("SELECT journal FROM journals WHERE server = 'birch-1'")[1]
                    assert isinstance(journal, int), journal
                    found = accounts.check(opened, journal, everything=True)
                self.assertIn(breach, {row[1] for row in found})

    def breaches(self, last: int) -> Iterator[tuple[str, ...]]:
        """Changes of rows that pass every constraint, each with the breach that a check has to report."""
        of = "journal = (SELECT journal FROM journals WHERE server = 'birch-1')"
        touches = [*self.town.servers["birch-1"].touches(self.town.fronts["birch-1"])]
        into, out, issue, revision = (next(touch.place for touch in touches if touch.verdict == verdict)
                                      for verdict in ("Entered", "Exited", "Issued", "Revised"))
        set_to = f"UPDATE touches SET {{what}} WHERE {of} AND place = {{place}}"
        yield "the journal has another number of touches than was loaded", \
            f"DELETE FROM touches WHERE {of} AND place = {last}"
        yield "a place before this one is missing", f"DELETE FROM touches WHERE {of} AND place = 50"
        yield from self.twice(of, last + 1)
        yield "the balance is not the sum of the changes", set_to.format(what="balance = balance + 1", place=into)
        yield "a card was issued that the journal has not", set_to.format(what="card = 37", place=issue)
        yield "the verdict does not go with whether the card was issued", set_to.format(
            what="verdict = 'AlreadyIssued'", place=issue)
        yield "the verdict does not go with whether the card is inside", set_to.format(
            what="verdict = 'EnteredOverOpen'", place=into)
        yield "the balance of the card was changed after its load", \
            f"UPDATE balances SET balance = balance + 5, paid_in = paid_in + 5 WHERE {of} AND card = 1"
        yield "the balance of the card was removed after its load", f"DELETE FROM balances WHERE {of} AND card = 1"
        for change in (f"UPDATE gates SET times_back = times_back + 1 WHERE {of}", f"DELETE FROM gates WHERE {of}",
                       f"UPDATE gates SET moment = '2030-01-01T00:00:00Z' WHERE {of}",
                       f"UPDATE gates SET gate = 9 WHERE {of} AND gate = {town.GATE}"):
            yield f"the row of gate {town.GATE} in gates was changed or removed after its load", change
        for change in (f"UPDATE journeys SET charged = charged - 1 WHERE {of} AND charged > 0",
                       f"DELETE FROM journeys WHERE {of}",
                       f"UPDATE last_journeys SET charged = charged - 1 WHERE {of} AND stage = 'loaded'"):
            yield "the journey is not that of its touches", change
        yield "travel of the card goes back", set_to.format(what="moment = '2025-01-31T00:00:00Z'", place=out)
        yield "a revision counts from a day with travel, or not above the last one", \
            f"UPDATE revisions SET first_day = 20119 WHERE {of}"
        yield "a revision and its touch do not go together", f"DELETE FROM revisions WHERE {of}"
        yield "a revision and its touch do not go together", f"UPDATE revisions SET verdict = 'BadDay' WHERE {of}"
        self.assertGreater(revision, 0)

    def test_what_no_row_may_say_is_refused(self) -> None:
        of = "journal = (SELECT journal FROM journals WHERE server = 'birch-1')"
        for change in (
                "UPDATE touches SET verdict = 'Exited' WHERE act = 'in' AND verdict = 'Entered'",
                "UPDATE touches SET verdict = 'Opened' WHERE act = 'in'", "UPDATE touches SET act = 'ride'",
                "UPDATE touches SET change = change + 1 WHERE act = 'top-up' AND change > 0",
                "UPDATE touches SET change = 1 WHERE verdict = 'LowBalance'",
                "UPDATE touches SET change = -1 WHERE verdict = 'Exited'",
                "UPDATE touches SET change = 1 WHERE verdict = 'Entered'",
                "UPDATE touches SET station_number = NULL WHERE act = 'out'",
                "UPDATE touches SET pence = 5 WHERE act = 'issue'", "UPDATE touches SET gate = 65536",
                "UPDATE touches SET number = -1", "UPDATE touches SET place = -1", "UPDATE touches SET journal = 99",
                f"UPDATE touches SET place = 1 WHERE {of} AND place = 0",
                f"UPDATE touches SET gate = 1, number = 1 WHERE {of} AND place < 40", "DELETE FROM journals",
                "UPDATE journals SET cards = 0", "UPDATE journals SET touches = capacity + 1",
                "UPDATE journals SET version = 3", "UPDATE servers SET station = 'Nowhere'",
                "UPDATE journeys SET charged = -1", "UPDATE journeys SET kind = 'ride'", "UPDATE journeys SET journal = 99",
                "UPDATE journeys SET charged = fare + 1 WHERE kind = 'journey'",
                "UPDATE journeys SET legs = 0 WHERE kind = 'journey'",
                "UPDATE journeys SET destination = NULL WHERE kind = 'journey'", "UPDATE journeys SET settled = place - 1",
                "UPDATE journeys SET band = 'Early'", "UPDATE journeys SET fare = 350 WHERE kind = 'late'",
                "UPDATE last_journeys SET kind = 'late'", "UPDATE fare_stations SET zones = ''",
                "UPDATE revisions SET digest = 'none'", "UPDATE revisions SET verdict = 'Entered'",
                "INSERT INTO fare_tables (digest, content) VALUES ('12', '12')",
                "INSERT INTO journals (server, name, version, capacity, cards, digest, touches, seal)"
                " SELECT server, 'other', version, capacity, cards, digest, touches, seal FROM journals"):
            with self.subTest(change):
                with contextlib.closing(database.connect(self.base)) as opened:
                    opened.execute("BEGIN")
                    self.assertRaises(database.ERRORS, opened.execute, change)


class PostgresQueries(Queries, OnPostgres, DatabaseTest):
    """The same in PostgreSQL."""

    def test_rows_one_by_one_are_read_by_several_processes(self) -> None:
        with contextlib.closing(database.connect(self.base)) as opened:
            opened.execute("CREATE FUNCTION process() RETURNS integer PARALLEL SAFE LANGUAGE plpgsql"
                           " AS 'BEGIN RETURN pg_backend_pid(); END'")
            for setting in ("parallel_setup_cost = 0", "parallel_tuple_cost = 0", "min_parallel_table_scan_size = 0",
                            "parallel_leader_participation = off"):
                opened.execute(f"SET {setting}")
            found = [*opened.stream("SELECT DISTINCT process() AS process FROM touches")[1]]
            self.assertGreater(len(found), 0)
            assert isinstance(opened, database.Postgres), "a base of PostgreSQL"
            self.assertNotIn((opened.connection.get_backend_pid(),), found)

    def test_a_full_disk_is_told(self) -> None:
        with contextlib.closing(database.connect(self.base)) as opened:
            with mock.patch("tempfile.TemporaryFile", lambda *_, **__: open("/dev/full", "w+", encoding="utf-8")):
                with self.assertRaisesRegex(database.Unfit,
                                            f"^{tempfile.gettempdir()}: No space left on device; .* TMPDIR$"):
                    opened.stream("SELECT * FROM history")

    def test_no_plan_is_compiled(self) -> None:
        with contextlib.closing(database.connect(self.base)) as opened:
            opened.rollback()
            self.assertEqual(opened.table("SHOW jit")[1], [("off",)])

    def twice(self, of: str, free: int) -> Iterator[tuple[str, ...]]:
        """A touch is copied into another month, where no key sees it."""
        for breach, place, number in (("the gate and number stand twice", free, "number"),
                                      ("the place stands twice", 3, "number + 100000")):
            yield breach, "SELECT make_month('2030-01-01')", (
                f"INSERT INTO touches SELECT journal, {place}, moment, DATE '2030-01-01', gate, {number}, card, act,"
                f" station_number, pence, verdict, change, balance FROM touches WHERE {of} AND place = 3")


class Words(unittest.TestCase):
    """What bovtrila-network-query says of wrong words and of no database."""

    def test_a_wrong_command_line_is_told(self) -> None:
        asked: list[tuple[list[str], str]] = [([], "name a query, or --list"), (["held"], "held needs --card"),
                                              (["journeys"], "journeys needs --from"),
                                              (["inside", "--from", "2025-01-06"], "needs --at"),
                                              (["rides"], "invalid choice"),
                                              (["clocks", "--from", "6 Jan"], "'6 Jan' is no date"),
                                              (["inside", "--at", "8:00"], "'8:00' is no moment")]
        for words, said in asked:
            with self.subTest(words):
                done = call("query", *words)
                self.assertEqual((done.returncode, done.stdout), (2, ""))
                self.assertIn(said, done.stderr)

    def test_a_database_that_is_not_there_is_told(self) -> None:
        for base, said in (("/nowhere/network.db", "/nowhere/network.db: no such file"),
                           ("postgresql://127.0.0.1:1/none", "")):
            with self.subTest(base):
                done = call("query", "holdings", "--database", base)
                self.assertEqual((done.returncode, done.stdout, "Traceback" in done.stderr), (1, "", False))
                self.assertTrue(done.stderr.startswith(f"query: {said}"), done.stderr)

    def test_the_list_has_each_query(self) -> None:
        done = call("query", "--list")
        self.assertEqual([line.split(":")[0] for line in done.stdout.splitlines()], [*queries.known()])


class SqliteQueries(Queries, OnSqlite, DatabaseTest):
    """The same in SQLite."""

    def twice(self, *_: object) -> tuple[()]:
        """SQLite's keys refuse that."""
        return ()


# Rows of 60 fare days of so many servers, made by the database itself: for plans, which go by how much there is.
MANY = """
INSERT INTO stations (name) VALUES ('Many');
INSERT INTO servers (name, station, first_card)
    SELECT 'server ' || n, 'Many', 1 + 100 * (n - 1) FROM generate_series(1, 30) AS n;
INSERT INTO fare_tables (digest, content) VALUES (encode(sha256('table'), 'hex'), 'table');
INSERT INTO journals (server, name, version, capacity, cards, digest, touches, seal)
    SELECT name, 'journal', 2, 1000000, 100, (SELECT digest FROM fare_tables), 3000, (SELECT digest FROM fare_tables)
    FROM servers;
SELECT make_month('2025-01-01'), make_month('2025-02-01');
INSERT INTO touches
    SELECT journal, place, '2025-01-01T08:00:00Z'::timestamptz + place * interval '28 minutes',
           DATE '2025-01-01' + place / 51, 1 + place % 8, place, 1 + place % 100, kind::act, 1 + place % 5, NULL,
           verdict::verdict, change, 0
    FROM journals, generate_series(0, 2999) AS place,
         LATERAL (SELECT * FROM (VALUES (0, 'in', 'Entered', -700), (1, 'out', 'Exited', 400), (2, 'in', 'LowBalance', 0),
                                        (3, 'out', 'ExitedUnstarted', -700)) AS given (turn, kind, verdict, change)
                  WHERE turn = place / 100 % 4) AS turned;
INSERT INTO balances (journal, stage, card, place, state, balance, transferred, paid_in, charged)
    SELECT journal, 'loaded', card, 2999, 'outside', 0, 0, 0, 0 FROM journals, generate_series(1, 1000) AS card;
INSERT INTO gates (journal, stage, gate, moment, times_back)
    SELECT journal, 'loaded', gate, now(), gate % 2 FROM journals, generate_series(1, 8) AS gate;
INSERT INTO fare_stations SELECT digest, number, 'Station ' || number, '1' FROM fare_tables, generate_series(1, 5) AS number;
INSERT INTO journeys (journal, settled, place, kind, card, day, began, ended, origin, destination, legs, band, fare, charged)
    SELECT journal, place, place, 'journey', card, day, moment, moment, station_number, 1, 1, 'peak', 350, 350
    FROM touches WHERE act = 'in';
INSERT INTO last_journeys (journal, stage, place, kind, card, day, began, origin, legs, band, charged)
    SELECT journal, 'loaded', 2999, 'inside', card, DATE '2025-02-28', now(), 1, 0, 'peak', 900
    FROM journals, generate_series(1, 1000) AS card;
ANALYZE;
"""


# What is asked of each query for its plan: of a recent fare day.
PLANNED: dict[str, int | str] = {"card": 1234, "first": "2025-02-27", "last": "2025-02-27",
                                 "day_before": "2025-02-28T00:00:00Z"}
# The queries that read the touches of some fare days in one pass, and no other touches.
ONE_PASS = ("journeys", "refusals", "clocks")
# The queries that read the journeys of some fare days, and no others.
OF_TRAVEL = ("fares", "origins", "destinations", "caps")


class SqlitePlans(OnSqlite, unittest.TestCase):
    """Each query uses the indexes that it names, in SQLite."""

    def test_each_query_uses_the_indexes_that_it_names(self) -> None:
        with contextlib.closing(database.connect(self.fresh("plans"))) as opened:
            opened.make_tables()
            for name, query in queries.known().items():
                plan = "; ".join(str(row[3]) for row in opened.table(
                    f"EXPLAIN QUERY PLAN {opened.own(query.text)}",
                    **{wanted: PLANNED[wanted] for wanted in query.wanted})[1])
                with self.subTest(name):
                    for index in query.indexes:
                        self.assertIn(f"INDEX {index.replace('balances_pkey', 'sqlite_autoindex_balances_1')}", plan)
                    self.assertNotRegex(plan, r"SCAN (touches|entry|later)\b")
                    if name in ONE_PASS:
                        self.assertEqual(re.findall(r"\btouches USING .*?(?=;)", plan),
                                         ["touches USING INDEX touches_day (day>? AND day<?)"])
                    if name in OF_TRAVEL:
                        self.assertEqual({*re.findall(r"\b(?:SCAN|SEARCH) journeys.*?(?=;)", plan)},
                                         {"SEARCH journeys USING INDEX journeys_day (day>? AND day<?)"})


class Plans(OnPostgres, DatabaseTest):
    """Each query goes by the indexes that it names, by PostgreSQL's own choice."""

    base: ClassVar[str]

    @classmethod
    def setUpClass(cls) -> None:
        super().setUpClass()
        cls.base = cls.fresh("plans")
        with contextlib.closing(database.connect(cls.base)) as opened:
            opened.make_tables()
            assert isinstance(opened, database.Postgres), "a base of PostgreSQL"
            opened.connection.cursor().execute(MANY)
            opened.commit()

    def parents(self) -> dict[str, str]:
        """The index of `touches` that each partition's index is a part of."""
        rows = self.asked(self.base, "SELECT part.relname, parent.relname FROM pg_inherits"
                                     " JOIN pg_class AS part ON part.oid = inhrelid"
                                     " JOIN pg_class AS parent ON parent.oid = inhparent WHERE parent.relkind = 'I'")
        return {part: parent for part, parent in rows}

    def indexes_of(self, query: queries.Query) -> set[str]:
        """The names of the indexes in the plan of a query of a recent fare day."""
        plan = self.asked(self.base, f"EXPLAIN (FORMAT JSON) {query.text}",
                          **{name: PLANNED[name] for name in query.wanted})[0][0]
        parents = self.parents()
        return {parents.get(name, name) for name in re.findall(r"'Index Name': '(\w+)'", str(plan))}

    def test_each_query_goes_by_the_indexes_that_it_names(self) -> None:
        for name, query in queries.known().items():
            with self.subTest(name):
                self.assertLessEqual(set(query.indexes), self.indexes_of(query))

    def test_a_sum_over_fare_days_is_one_pass(self) -> None:
        for name in ONE_PASS:
            query = queries.known()[name]
            plan = self.asked(self.base, f"EXPLAIN {query.text}", **{wanted: PLANNED[wanted] for wanted in query.wanted})
            with self.subTest(name):
                self.assertEqual(re.findall(r" on (touches\w+)", str(plan)).count("touches_2025_02"), 1, plan)

    def test_a_sum_over_journeys_reads_the_partition_of_its_month_alone(self) -> None:
        for name in OF_TRAVEL:
            query = queries.known()[name]
            plan = self.asked(self.base, f"EXPLAIN {query.text}", **{wanted: PLANNED[wanted] for wanted in query.wanted})
            with self.subTest(name):
                self.assertEqual({*re.findall(r" on (journeys_\d\w+)", str(plan))}, {"journeys_2025_02"}, plan)

    def test_there_is_no_index_but_keys_and_those_that_queries_name(self) -> None:
        named = {index for query in queries.known().values() for index in query.indexes}
        text = (NETWORK / "schema.sql").read_text()
        made = set(re.findall(r"^CREATE INDEX (\w+)", text, re.M))
        # The balances of the cards have their key alone.
        self.assertEqual(made, named - {"balances_pkey"})
        # Each is above the words that name its queries.
        for index in made:
            above = re.search(rf"((?:^-- .*\n)+)CREATE INDEX {index} ", text, re.M)
            assert above, index
            words = above[1]
            for name, query in queries.known().items():
                self.assertEqual(index in query.indexes, re.search(rf"\b{name}\b", words) is not None, (index, name))

    def test_a_days_query_reads_the_partition_of_its_month_alone(self) -> None:
        query = queries.known()["journeys"]
        plan = self.asked(self.base, f"EXPLAIN {query.text}", first="2025-02-20", last="2025-02-20")
        read = set(re.findall(r"\btouches_\d{4}_\d\d\b", str(plan)))
        self.assertEqual(read, {"touches_2025_02"})
