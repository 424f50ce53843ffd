"""Tests that the network's database gives no wrong answer without saying so: months that are detached, transfers, servers
that weren't loaded, journals that were loaded twice, and rows that were changed. For scripts/tests/test_network.py."""
import contextlib
import os
import pathlib
import signal
import subprocess
from collections.abc import Iterable

import town
from bovtrila import codec, layout, model
from bovtrila.network import database
from harness import BIN, EXAMPLE, PROGRAM
from network_base import (TABLES, TIME, BaseTest, OnPostgres, OnSqlite, OverBoth, call, driven, load, network, room,
                          words_of)

# Monday 2025-01-06 at 08:00 UTC. From station 1 to station 2 the example table charges 900 at the touch in, and gives 550
# back at the touch out (docs/operate/NETWORK.md, "From two servers to the first query").
MONDAY = 1736150400
TABLE = model.Table(EXAMPLE.read_text())


def travel(gate: int, first: int, card: int, moment: int) -> list[bytes]:
    """An issue, a top-up of 2000 pence and a journey, after which the card holds 1650."""
    return [codec.touch(codec.ISSUE, gate, first, card, moment),
            codec.touch(codec.TOP_UP, gate, first + 1, card, 2000, moment + 60),
            codec.touch(codec.ENTER, gate, first + 2, card, 1, moment + 120),
            codec.touch(codec.LEAVE, gate, first + 3, card, 2, moment + 900)]


def journal_of(path: pathlib.Path, frames: Iterable[bytes]) -> pathlib.Path:
    """A journal of these touches."""
    path.write_bytes(layout.journal_of(frames, 10_000, 20, TABLE.digest))
    return path


def loaded(server: str, journal: pathlib.Path, base: str, *words: object) -> subprocess.CompletedProcess[str]:
    return call("load", "--station", server, "--journal", journal, "--database", base, "--program", PROGRAM, *words, *TABLES)


class Answers(OverBoth):
    """Over both databases."""

    def asked_of(self, name: str, base: str, *words: object) -> tuple[int, list[tuple[str, ...]]]:
        done = call("query", name, "--database", base, *words)
        return done.returncode, [tuple(line.split(",")) for line in done.stdout.splitlines()[1:]]

    def test_a_server_that_was_not_loaded_is_in_the_answer(self) -> None:
        base, home = self.fresh("fresh"), room("network-fresh-")
        self.assertEqual(loaded("Alder", journal_of(home / "alder", travel(7, 1, 1, MONDAY)), base).returncode, 0)
        day_before = travel(7, 1, 1, MONDAY - town.DAY)
        self.assertEqual(loaded("Birch", journal_of(home / "birch", day_before), base).returncode, 0)
        status, rows = self.asked_of("freshness", base, "--from", "2025-01-06")
        self.assertEqual((status, [(row[:4], row[5]) for row in rows]),
                         (3, [(("Alder", "Alder", "alder", "2025-01-06T08:15:00Z"), "has touches"),
                              (("Birch", "Birch", "birch", "2025-01-05T08:15:00Z"), "no touches")]))
        self.assertEqual(self.asked_of("freshness", base, "--from", "2025-01-05", "--to", "2025-01-06")[0], 0)

    def test_a_journal_is_refused_under_another_name(self) -> None:
        base, home = self.fresh("twice"), room("network-twice-")
        frames = [frame for card in range(1, 11) for frame in travel(7, 4 * card - 3, card, MONDAY + 1000 * card)]
        self.assertEqual(loaded("Alder", journal_of(home / "alder", frames[:30]), base).returncode, 0)
        old = self.asked(base, "SELECT sum(balance) FROM held")
        for name, count in (("same", 30), ("longer", 40), ("shorter", 11)):
            with self.subTest(name):
                done = loaded("Birch", journal_of(home / name, frames[:count]), base)
                self.assertEqual((done.returncode, done.stdout), (1, ""))
                self.assertIn(": its touches were loaded as the journal alder of the server Alder; name that server",
                              done.stderr)
        self.assertEqual(self.asked(base, "SELECT sum(balance) FROM held"), old)
        # A journal that begins otherwise is another one.
        other = journal_of(home / "other", travel(7, 1, 1, MONDAY + 5))
        self.assertEqual(loaded("Birch", other, base).returncode, 0)

    def test_a_change_of_balances_and_top_ups_is_found_by_comparing(self) -> None:
        base, home = self.fresh("lifted"), room("network-lifted-")
        frames = travel(7, 1, 1, MONDAY) + travel(7, 5, 2, MONDAY + 2000)
        journal = journal_of(home / "alder", frames)
        self.assertEqual(loaded("Alder", journal, base).returncode, 0)
        done = loaded("Alder", journal, base, "--compare")
        self.assertEqual((done.returncode, done.stdout), (0, "Alder alder: 8 touches compared, 0 differences\n"))
        with contextlib.closing(database.connect(base)) as opened:
            opened.begin()
            opened.execute("UPDATE touches SET pence = 2500, change = 2500, balance = 2500 WHERE place = 1")
            opened.execute("UPDATE touches SET balance = balance + 500 WHERE card = 1 AND place > 1")
            opened.commit()
        done = loaded("Alder", journal, base, "--compare")
        self.assertEqual((done.returncode, done.stdout.count("\n")), (3, 4))
        self.assertIn("Alder alder: place 1: the database has '1,1,2025-01-06T08:01:00Z,2025-01-06,7,2,1,top-up,,2500,"
                      "ToppedUp,2500,2500', the journal '1,1,2025-01-06T08:01:00Z,2025-01-06,7,2,1,top-up,,2000,ToppedUp,"
                      "2000,2000'\n", done.stdout)
        self.assertTrue(done.stdout.endswith("Alder alder: 8 touches compared, 3 differences\n"))

    def test_an_audit_compares_the_database(self) -> None:
        base, home = self.fresh("audited"), room("network-audited-")
        journals = [journal_of(home / name, travel(7, 1, 1, moment)) for name, moment in (("alder", MONDAY), ("birch", 60))]
        loaded("Alder", journals[0], base)
        words = [*journals, *TABLES, "--program", PROGRAM, "--report", home / "report", "--database", base]
        done = call("audit", *words)
        self.assertEqual((done.returncode, [line.split(",")[0] for line in done.stdout.splitlines()[:2]]),
                         (1, ["alder: sound", "birch: the database has none of its touches"]), done.stderr)
        with contextlib.closing(database.connect(base)) as opened:
            opened.begin()
            opened.execute("UPDATE touches SET balance = balance + 1 WHERE place = 3")
            opened.commit()
        done = call("audit", *words)
        self.assertEqual(done.returncode, 1)
        self.assertTrue(done.stdout.startswith("alder: place 3: the database has '1,3,2025-01-06T08:15:00Z,2025-01-06,7,4,1,"
                                               "out,2,,Exited,550,1651', the journal '1,3,"), done.stdout)

    def test_missing_rows_and_changed_cards_are_found_by_comparing(self) -> None:
        for change, said in (("DELETE FROM touches WHERE place = 3", "place 3: the database has nothing, the journal '1,3,"),
                             ("UPDATE balances SET balance = 1651, paid_in = 2001", "card 1: the database has '1,outside,"
                              "1651,2001,350', the journal '1,outside,1650,2000,350'"),
                             ("DELETE FROM balances", "card 1: the database has nothing, the journal '1,outside,")):
            with self.subTest(change):
                base, home = self.fresh(f"missing{len(change)}"), room("network-missing-")
                journal = journal_of(home / "alder", travel(7, 1, 1, MONDAY))
                loaded("Alder", journal, base)
                with contextlib.closing(database.connect(base)) as opened:
                    opened.begin()
                    opened.execute(change)
                    opened.commit()
                done = loaded("Alder", journal, base, "--compare")
                self.assertEqual(done.returncode, 3)
                self.assertIn(f"Alder alder: {said}", done.stdout)
                self.assertTrue(done.stdout.endswith(": 4 touches compared, 1 differences\n"), done.stdout)

    def test_transferred_balances_are_not_paid_in(self) -> None:
        base, home = self.fresh("transfers"), room("network-transfers-")
        self.assertEqual(loaded("Alder", journal_of(home / "old", travel(7, 1, 1, MONDAY)), base, "--closed").returncode, 0)
        later = MONDAY + town.DAY
        new = journal_of(home / "new", [codec.touch(codec.ISSUE, 65535, 100000, 1, later),
                                        codec.touch(codec.TOP_UP, 65535, 100001, 1, 1650, later),
                                        codec.touch(codec.TOP_UP, 7, 5, 1, 500, later + 60)])
        self.assertEqual(loaded("Alder", new, base).returncode, 0)
        # 2150 is held: 1650 that came from the old journal, and 500 that were paid in here.
        self.assertEqual(self.asked_of("held", base, "--card", "1"),
                         (0, [("1", "Alder", "Alder", "1", "outside", "2150", "1650", "500", "0")]))
        self.assertEqual(self.asked_of("holdings", base), (0, [("1", "1", "0", "2150", "1650", "500", "0")]))
        # Over both journals 2500 were paid in, 350 were taken, and 2150 are left.
        rows = self.asked_of("journeys", base, "--from", "2025-01-06", "--to", "2025-01-07")[1]
        self.assertEqual([sum(int(row[place]) for row in rows) for place in (3, 4, 5)], [2500, 1650, 350])
        self.assertEqual(self.asked_of("transfers", base),
                         (0, [("Alder", "Alder", "old", "new", "1650", "1650", "0")]))

    def test_transfers_of_another_gate_are_named(self) -> None:
        base, home = self.fresh("gate"), room("network-gate-")
        new = journal_of(home / "new", [codec.touch(codec.ISSUE, 900, 1, 1, MONDAY),
                                        codec.touch(codec.TOP_UP, 900, 2, 1, 1650, MONDAY)])
        self.assertEqual(loaded("Alder", new, base, "--transfer-gate", 900).returncode, 0)
        self.assertEqual(self.asked_of("held", base, "--card", "1")[1][0][6:8], ("1650", "0"))
        done = loaded("Alder", new, base, "--transfer-gate", 901)
        self.assertEqual(done.returncode, 1)
        self.assertIn("its transfers were loaded as those of gate 900", done.stderr)

    def test_a_killed_load_leaves_no_file(self) -> None:
        base, left = self.fresh("left"), room("network-left-")
        for where in ("copy", "commit"):
            ended = driven(where, "kill", words_of("birch-1", "friday", base), env={**os.environ, "TMPDIR": str(left)})
            ended.communicate(timeout=TIME)
            self.assertEqual((ended.returncode, [*left.iterdir()]), (-signal.SIGKILL, []))

    def test_a_reader_that_has_gone_ends_a_command(self) -> None:
        base, home = self.fresh("gone"), room("network-gone-")
        loaded("Alder", journal_of(home / "alder", travel(7, 1, 1, MONDAY)), base)
        for words in (["query", "holdings", "--database", base], ["query", "--list"], ["query", "--help"],
                      ["check", "--database", base], ["check", "--help"]):
            with self.subTest(words):
                read, write = os.pipe()
                os.close(read)
                done = subprocess.run([BIN / f"bovtrila-network-{words[0]}", *words[1:]], stdout=write,
                                      stderr=subprocess.PIPE, timeout=TIME)
                os.close(write)
                self.assertEqual((done.returncode, done.stderr), (141, b""))

    def test_a_reader_may_go_in_the_middle_of_an_answer(self) -> None:
        base, home = self.fresh("middle"), room("network-middle-")
        loaded("Alder", journal_of(home / "alder", travel(7, 1, 1, MONDAY)), base)
        with contextlib.closing(database.connect(base)) as opened:
            opened.begin()
            # More than a pipe and the buffers beside it take.
            for card in range(2, 20_000):
                opened.execute("INSERT INTO balances (journal, stage, card, place, state, balance, transferred, paid_in,"
                               " charged) VALUES (1, 'loaded', :card, 0, 'outside', 0, 0, 0, 0)", card=card)
            opened.commit()
        asked = subprocess.Popen([BIN / "bovtrila-network-query", "holdings", "--database", base], stdout=subprocess.PIPE,
                                 stderr=subprocess.PIPE)
        assert asked.stdout and asked.stderr, "pipes"
        self.assertEqual(asked.stdout.readline(), b"card,servers,inside,balance,transferred,paid_in,charged\r\n")
        asked.stdout.close()
        self.assertEqual((asked.stderr.read(), asked.wait(TIME)), (b"", 141))
        asked.stderr.close()


class SqliteAnswers(Answers, OnSqlite, BaseTest):
    """In SQLite."""


class PostgresAnswers(Answers, OnPostgres, BaseTest):
    """In PostgreSQL."""

    def partitions(self, base: str) -> list[str]:
        return [name for name, in self.asked(base, "SELECT relid::text FROM pg_partition_tree('touches') WHERE isleaf"
                                                   " ORDER BY 1")]

    def test_what_cards_hold_stays_when_a_month_is_detached(self) -> None:
        base = self.fresh("detached")
        self.assertEqual(load("alder-1", "end", base).returncode, 0)
        held = self.asked(base, "SELECT card, state, balance, paid_in, charged FROM held ORDER BY card")
        rows = sorted(network()[0].all_held())
        wanted = [(row[0], row[4], row[5], *row[7:]) for row in rows if row[2] == "alder-1"]
        self.assertEqual(held, wanted)
        with contextlib.closing(database.connect(base)) as opened:
            opened.execute("ALTER TABLE touches DETACH PARTITION touches_2025_01")
            opened.commit()
        self.assertEqual(self.asked(base, "SELECT card, state, balance, paid_in, charged FROM held ORDER BY card"), wanted)

    def test_a_gate_with_random_moments_makes_no_partition_for_each(self) -> None:
        base, home = self.fresh("random"), room("network-random-")
        frames = travel(7, 1, 1, MONDAY) + [codec.touch(codec.ISSUE, 8, number, 3, 86_400 * 30 * number)
                                            for number in range(1, 400)]
        frames[200:200] = [codec.touch(codec.ISSUE, 7, number, 2, MONDAY + number) for number in range(5, 1000)]
        self.assertEqual(loaded("Alder", journal_of(home / "alder", frames), base).returncode, 0)
        # The 399 moments are of 393 months from 1970 to 2002, more than a year before the others.
        self.assertEqual(self.partitions(base), ["touches_2025_01", "touches_other"])
        self.assertEqual(call("check", "--database", base).returncode, 0)
        count = self.asked(base, "SELECT count(*) FROM touches")
        # The month of the 300th moment gets a partition once a load is near it: rows move there.
        later = 86_400 * 30 * 300
        self.assertEqual(loaded("Birch", journal_of(home / "birch", travel(7, 1, 1, later)), base).returncode, 0)
        self.assertIn("touches_1994_08", self.partitions(base))
        self.assertEqual(self.asked(base, "SELECT count(*) FROM touches"), [(count[0][0] + 4,)])
        self.assertEqual(call("check", "--all", "--database", base).returncode, 0)
        self.assertGreater(self.asked(base, "SELECT count(*) FROM touches_1994_08")[0][0], 4)
