"""Tests of bovtrila-network-load: once, again, killed, two at once, and of a journal that was changed. For
scripts/tests/test_network.py."""
import contextlib
import pathlib
import signal
import subprocess
import time

import postgres
from bovtrila import codec, layout, model
from bovtrila.network import database
from harness import EXAMPLE, PROGRAM, REVISED
from network_base import (FLIPPED, NETWORK, TABLES, TIME, DatabaseTest, OnPostgres, OnSqlite, OverBothWithTown, call,
                          driven, everything, load, words_of)


class Loads(OverBothWithTown):
    """bovtrila-network-load: once, again, killed at each step, two at once, and of a journal that was changed."""

    def waits(self, base: str, second: subprocess.Popen[str]) -> None:
        """Until the second load waits for another one."""
        raise NotImplementedError

    def test_a_load_that_is_killed_at_any_step_leaves_all_or_nothing(self) -> None:
        base = self.fresh("killed")
        self.assertEqual(load("birch-1", "friday", base).returncode, 0)
        words = words_of("birch-1", "end", base)
        old, step, kills = everything(base), 0, []
        while True:
            step += 1
            ended = driven(step, "kill", words)
            out, err = ended.communicate(timeout=TIME)
            if ended.returncode == 0:
                break
            self.assertEqual((ended.returncode, err), (-signal.SIGKILL, ""))
            kills.append(everything(base))
            if kills[-1] != old:
                break
        # Whatever came before the commit has left nothing, and the one behind it everything.
        self.assertGreater(len(kills), 12)
        self.assertEqual([each == old for each in kills], [True] * (len(kills) - 1) + [False])
        self.assertEqual(len(kills[-1]["touches"]), self.town.servers["birch-1"].fronts[1])
        self.assertEqual(load("birch-1", "end", base).stdout,
                         f"birch-1 station.journal: 0 touches loaded, {self.town.fronts['birch-1']} in all\n")
        self.assertEqual(everything(base), kills[-1])

    def test_a_first_load_that_is_killed_makes_nothing(self) -> None:
        base, step = self.fresh("first"), 0
        while True:
            step += 1
            ended = driven(step, "kill", words_of("alder-1", "friday", base))
            ended.communicate(timeout=TIME)
            found = everything(base)
            if ended.returncode == 0 or found:
                break
            self.assertEqual(ended.returncode, -signal.SIGKILL)
        # It was killed behind the commit.
        self.assertEqual((ended.returncode, len(found["touches"])),
                         (-signal.SIGKILL, self.town.servers["alder-1"].fronts[0]))
        self.assertGreater(step, 12)

    def test_two_loads_of_a_server_wait_for_each_other(self) -> None:
        base = self.fresh("two")
        load("birch-1", "friday", base)
        words = words_of("birch-1", "end", base)
        first = driven("commit", "hold", words)
        assert first.stdin and first.stdout, "pipes"
        self.assertEqual(first.stdout.readline(), "holding\n")
        second = driven("never", "hold", words)
        self.waits(base, second)
        first.stdin.write("\n")
        first.stdin.close()
        assert second.stdout, "a pipe"
        out = [pipe.read() for pipe in (first.stdout, second.stdout)]
        self.assertEqual([each.wait(TIME) for each in (first, second)], [0, 0])
        added = self.town.servers["birch-1"].fronts[1] - self.town.servers["birch-1"].fronts[0]
        self.assertIn(f"{added} touches loaded", out[0])
        self.assertIn(" 0 touches loaded", out[1])
        for each in (first, second):
            for pipe in (each.stdin, each.stdout, each.stderr):
                assert pipe, "a pipe"
                pipe.close()

    def test_a_journal_that_was_changed_behind_its_seal_is_refused_and_its_rows_stay(self) -> None:
        base = self.fresh("changed")
        load(FLIPPED, "friday", base)
        old = everything(base)
        done = load(FLIPPED, "end", base)
        self.assertEqual((done.returncode, done.stdout), (1, ""))
        self.assertRegex(done.stderr, rf"^load: {FLIPPED}: .*station\.journal: fault seal 2 Changed\n$")
        self.assertEqual(everything(base), old)
        # An older copy has fewer touches than its seal.
        load("birch-1", "end", base)
        old = everything(base)
        done = load("birch-1", "friday", base)
        self.assertEqual(done.returncode, 1)
        self.assertRegex(done.stderr, r": fault seal 1 Shorter \d+, not \d+\n$")
        self.assertEqual(everything(base), old)

    def test_open_slots_behind_the_end_are_noted(self) -> None:
        """The mark of the fourth of twelve touches was lost."""
        frames = [codec.touch(codec.ISSUE, 7, number, number, 60 * number) for number in range(1, 13)]
        content = bytearray(layout.journal_of(frames, 1000, 20, model.Table(EXAMPLE.read_text()).digest))
        content[64 + 64 * 3] = 0
        journal = self.folder / "behind.journal"
        journal.write_bytes(content)
        done = call("load", "--station", "Alder", "--journal", journal, "--database", self.fresh("behind"), "--program",
                    PROGRAM, *TABLES)
        self.assertEqual((done.returncode, done.stdout, done.stderr),
                         (0, "Alder behind.journal: 3 touches loaded, 3 in all\n",
                          f"load: Alder: {journal}: note: 8 open slots behind the end\n"))

    def test_a_revision_may_name_any_day(self) -> None:
        base, table = self.fresh("days"), model.Table(REVISED.read_text())
        days = [20095, -2**31, -1, 0, -719_162, -719_163, -719_528, -719_529, -4_371_222, 2_932_896, 2_932_897, 2**31 - 1]
        frames = [codec.touch(codec.REVISE, 9, number, 0, table.digest, day, 7 * number) for number, day in enumerate(days)]
        journal = self.folder / "days.journal"
        journal.write_bytes(layout.journal_of(frames, 1000, 10, model.Table(EXAMPLE.read_text()).digest))
        done = call("load", "--station", "Alder", "--journal", journal, "--database", base, "--program", PROGRAM, *TABLES)
        self.assertEqual((done.returncode, done.stderr), (0, ""))
        self.assertEqual(self.asked(base, "SELECT first_day FROM revisions ORDER BY place"), [(day,) for day in days])
        self.assertEqual(self.asked(base, "SELECT place, moment, day FROM history WHERE place = 3"),
                         [(3, "1970-01-01T00:00:21Z", "1970-01-01")])
        self.assertEqual(call("check", "--all", "--database", base).returncode, 0)

    def test_what_cant_be_loaded_is_told_in_a_line(self) -> None:
        base = self.fresh("wrong")
        load("alder-1", "friday", base)
        old, broken = everything(base), self.folder / "broken"
        broken.write_bytes(b"no journal")
        missing = self.folder / "alder-1" / "end" / "station.journal"
        runs: tuple[tuple[list[str | int | pathlib.Path], str], ...] = (
                (["--station", "Birch", "--server", "alder-1", "--journal", missing, *TABLES],
                 "the server alder-1 belongs to the station Alder"),
                (["--station", "Alder", "--server", "alder-1", "--first-card", 2, "--journal", missing, *TABLES],
                 "the cards of the server alder-1 begin with 1"),
                (["--station", "Alder", "--server", "alder-1", "--name", "next", "--journal", missing, *TABLES],
                 "the server alder-1 has the open journal station.journal"),
                (["--station", "Alder", "--journal", missing, "--table", EXAMPLE], "fault journal 13 MissingTable"),
                (["--station", "Alder", "--journal", missing, "--table", REVISED], "fault journal 5 WrongTable"),
                (["--station", "Alder", "--journal", broken, *TABLES], "fault journal 3 NotAJournal"),
                (["--station", "Alder", "--journal", "/nowhere", *TABLES], "/nowhere: No such file or directory"),
                (["--station", "Alder", "--journal", missing, "--table", "/nowhere"], "/nowhere: No such file"))
        for words, said in runs:
            with self.subTest(said):
                done = call("load", *words, "--database", base, "--program", PROGRAM)
                self.assertEqual((done.returncode, done.stdout), (1, ""))
                self.assertIn(said, done.stderr)
                self.assertEqual(done.stderr.count("\n"), 1, done.stderr)
        self.assertEqual(everything(base), old)

    def test_a_journal_that_follows_another_is_taken_once_that_one_is_closed(self) -> None:
        base = self.fresh("follows")
        self.assertEqual(load("alder-1", "friday", base).returncode, 0)
        self.assertEqual(load("alder-1", "end", base, "--closed").returncode, 0)
        self.assertEqual(self.asked(base, "SELECT count(*) FROM held"), [(0,)])
        # The touches of another server stand for those of the next journal.
        other = self.folder / "cedar-1" / "end" / "station.journal"
        self.assertEqual(load("alder-1", "end", base, "--name", "next.journal", "--journal", other).returncode, 0)
        held = self.asked(base, "SELECT server_card, balance FROM held ORDER BY server_card")
        self.assertEqual(held, [(row[3], row[5]) for row in sorted(self.town.all_held()) if row[2] == "cedar-1"])


class PostgresLoads(Loads, OnPostgres, DatabaseTest):
    """The same in PostgreSQL, and what it alone has."""

    def waits(self, base: str, _: subprocess.Popen[str], lock: str = "locktype = 'advisory'") -> None:
        """Until a load waits for another one's lock."""
        limit = time.monotonic() + TIME
        while not self.asked(base, f"SELECT 1 FROM pg_locks WHERE {lock} AND NOT granted"):
            self.assertLess(time.monotonic(), limit)
            time.sleep(0.05)

    def test_loads_of_different_servers_go_on_side_by_side(self) -> None:
        base = self.fresh("beside")
        load("alder-2", "friday", base)
        # The first one has made February's partition, and holds its transaction open. Who reads goes on.
        first = driven("commit", "hold", words_of("alder-2", "end", base))
        assert first.stdout, "a pipe"
        self.assertEqual(first.stdout.readline(), "holding\n")
        self.assertEqual(self.asked(base, "SELECT count(*) FROM history"), [(self.town.servers["alder-2"].fronts[0],)])
        # The months are there, so another one doesn't wait.
        self.assertEqual(load("cedar-1", "end", base).returncode, 0)
        first.communicate("\n", TIME)
        self.assertEqual(first.returncode, 0)
        self.assertEqual(call("check", "--all", "--database", base).returncode, 0)

    def test_two_first_loads_make_the_tables_once(self) -> None:
        base = self.fresh("tables")
        # Whoever makes the tables holds this lock.
        with contextlib.closing(database.connect(base)) as opened:
            opened.alone()
            both = [driven("never", "hold", words_of(name, "friday", base)) for name in ("alder-1", "birch-1")]
            for each in both:
                self.waits(base, each)
        for each in both:
            each.communicate(timeout=TIME)
        self.assertEqual([each.returncode for each in both], [0, 0])
        self.assertEqual(self.asked(base, "SELECT server FROM journals ORDER BY server"), [("alder-1",), ("birch-1",)])

    def test_a_load_whose_connection_is_cut_off_leaves_nothing(self) -> None:
        base = self.fresh("cut")
        load("alder-1", "friday", base)
        old = everything(base)
        ended = driven("commit", "hold", words_of("alder-1", "end", base))
        assert ended.stdout, "a pipe"
        self.assertEqual(ended.stdout.readline(), "holding\n")
        self.asked(base, "SELECT pg_terminate_backend(pid) FROM pg_locks WHERE locktype = 'advisory' AND granted")
        _, err = ended.communicate("\n", TIME)
        self.assertEqual((ended.returncode, err.count("Traceback")), (1, 0))
        self.assertEqual(everything(base), old)

    def test_a_month_has_a_partition_with_keys_of_its_own(self) -> None:
        base = self.fresh("months")
        load("birch-1", "end", base)
        self.assertEqual(self.asked(base, "SELECT relid::text FROM pg_partition_tree('touches') WHERE isleaf ORDER BY 1"),
                         [("touches_2025_01",), ("touches_2025_02",), ("touches_other",)])
        keys = self.asked(base, "SELECT indexdef FROM pg_indexes WHERE tablename = 'touches_2025_02'"
                                " AND indexdef LIKE 'CREATE UNIQUE%' ORDER BY 1")
        self.assertEqual([text.rpartition(" (")[2] for text, in keys], ["journal, gate, number)", "journal, place)"])

    def test_the_schema_is_what_psql_takes(self) -> None:
        base = self.fresh("by_psql")
        programs = postgres.programs()
        assert programs, "PostgreSQL is here"
        subprocess.run([programs / "psql", base, "-q", "-v", "ON_ERROR_STOP=1", "-f", NETWORK / "schema.sql", "-f",
                        NETWORK / "views.sql"], check=True, capture_output=True, timeout=TIME)
        self.assertEqual(load("alder-1", "end", base).returncode, 0)


class SqliteLoads(Loads, OnSqlite, DatabaseTest):
    """The same in SQLite."""

    def waits(self, _: str, second: subprocess.Popen[str]) -> None:
        """A load that waits says nothing, so some time has to do."""
        self.assertRaises(subprocess.TimeoutExpired, second.wait, 1)
