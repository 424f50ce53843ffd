"""Tests of bovtrila-network-export: files of fare days, and a ledger that the real hledger checks. For
scripts/tests/test_network.py."""
import contextlib
import csv
import io
import os
import pathlib
import shutil
import signal
import subprocess
import unittest
from typing import ClassVar

import town
from bovtrila import codec
from bovtrila.network import database, output
from harness import PROGRAM
from network_answers import MONDAY, journal_of, loaded, travel
from network_base import (FLIPPED, TABLES, TIME, BaseTest, DatabaseTest, OnPostgres, OnSqlite, OverBoth, OverBothWithTown,
                          call, load, room)

COLUMNS = ("station", "server", "journal", "place", "moment", "day", "gate", "number", "card", "server_card", "act",
           "station_number", "pence", "verdict", "change", "balance", "transfer")


def hledger(file: pathlib.Path, *words: str) -> tuple[int, str]:
    """A run of hledger that ended: its status, and what it wrote."""
    if shutil.which("hledger") is None:
        raise unittest.SkipTest("hledger isn't here (apt-get install hledger)")
    done = subprocess.run(["hledger", "-f", file, *words], capture_output=True, text=True, timeout=TIME)
    return done.returncode, done.stdout + done.stderr


def pence(file: pathlib.Path, *accounts: str) -> dict[str, int]:
    """The pence in each of these accounts and of those below."""
    status, out = hledger(file, "balance", "--flat", "-N", "-E", "-O", "csv", *accounts)
    if status:
        raise AssertionError(out)
    rows = list(csv.reader(io.StringIO(out)))[1:]
    return {account: round(100 * float(amount.removeprefix("GBP ").replace(",", "") or 0)) for account, amount in rows}


class Exports(OverBothWithTown):
    """Over the loaded network."""

    base: ClassVar[str]
    room: ClassVar[pathlib.Path]

    @classmethod
    def setUpClass(cls) -> None:
        super().setUpClass()
        cls.base, cls.room = cls.fresh("exports"), room("network-exports-")
        for stage in ("friday", "end"):
            for name in town.SERVERS:
                load(name, stage, cls.base)

    def ledger(self, name: str, *more: str) -> pathlib.Path:
        file = self.room / name
        done = call("export", "ledger", "-o", file, "--database", self.base, *more)
        self.assertEqual((done.returncode, done.stdout, done.stderr), (0, "", ""))
        return file

    def balances(self) -> dict[tuple[str, int], int]:
        """What `balances` writes of each journal as it was loaded: the cards' balances, by server and card."""
        found: dict[tuple[str, int], int] = {}
        for name in town.SERVERS:
            journal = self.folder / name / ("friday" if name == FLIPPED else "end") / "station.journal"
            done = subprocess.run([PROGRAM, "balances", "--journal", journal, *TABLES[:1], *self.tables_of(name)],
                                  capture_output=True, text=True, timeout=TIME, check=True)
            for row in csv.DictReader(io.StringIO(done.stdout)):
                found[name, int(row["card"])] = int(row["balance"])
        return found

    @staticmethod
    def tables_of(name: str) -> list[str | pathlib.Path]:
        return TABLES[1:2] if name == town.LACKS else TABLES[1:]

    def test_the_ledger_is_checked_by_hledger_and_has_the_balances_of_each_card(self) -> None:
        file, balances = self.ledger("cards.journal", "--cards"), self.balances()
        self.assertEqual(hledger(file, "check", "--strict", "ordereddates"), (0, ""))
        firsts = {name: server.first_card for name, server in self.town.servers.items()}
        self.assertEqual(pence(file, "liabilities:cards"), {
            f"liabilities:cards:{name}:station.journal:{firsts[name] + card - 1}": -balance
            for (name, card), balance in balances.items()})

    def test_the_ledger_of_sums_has_the_same_sums(self) -> None:
        file, balances = self.ledger("sums.journal"), self.balances()
        self.assertEqual(hledger(file, "check", "--strict", "ordereddates"), (0, ""))
        self.assertEqual(pence(file, "liabilities:cards"), {
            f"liabilities:cards:{name}:station.journal": -sum(balance for (server, _), balance in balances.items()
                                                              if server == name) for name in town.SERVERS})
        touches = [touch for touch in self.town.touches() if touch.accepted]
        days = {touch.day for touch in touches}
        inside = self.town.inside("2025-01-01", 1 << 32)
        wanted = {"income:maxima": -sum(row[6] + row[7] for row in self.town.maxima(days)),
                  "assets:cash from top-ups": sum(touch.change for touch in touches if touch.act == "top-up"),
                  "liabilities:entry charges": -sum(row[6] for row in inside)}
        for account, total in wanted.items():
            self.assertEqual(sum(pence(file, account).values()), total, account)
        self.assertEqual(sum(pence(file).values()), 0)

    def test_a_changed_touch_fails_an_assertion(self) -> None:
        for change in ("UPDATE touches SET pence = pence + 100, change = change + 100"
                       " WHERE verdict = 'ToppedUp' AND card = 2",
                       "UPDATE touches SET balance = balance + 100 WHERE card = 2"):
            with self.subTest(change):
                base, home = self.fresh(f"changed{len(change)}"), room("network-changed-")
                frames = travel(7, 1, 1, MONDAY) + travel(7, 5, 2, MONDAY + 2000)
                loaded("Alder", journal_of(home / "alder", frames), base)
                with contextlib.closing(database.connect(base)) as opened:
                    opened.begin()
                    opened.execute(change)
                    opened.commit()
                self.assertEqual(call("export", "ledger", "-o", home / "ledger", "--database", base).returncode, 0)
                status, said = hledger(home / "ledger", "check")
                self.assertEqual((status, "assertion" in said), (1, True), said)

    def test_a_file_of_a_day_has_its_touches(self) -> None:
        days = sorted({touch.day for touch in self.town.touches()})
        done = call("export", "days", "--from", days[0], "--to", days[-1], "--folder", self.room, "--database", self.base)
        self.assertEqual((done.returncode, done.stderr), (0, ""))
        for day in days:
            with open(self.room / f"{day}.csv", newline="", encoding="utf-8") as file:
                names, *rows = csv.reader(file)
            wanted = [(touch.station, touch.server, "station.journal", touch.place, town.moment_text(touch.moment),
                       *touch[4:15], 0) for touch in self.town.touches() if touch.day == day]
            self.assertEqual(tuple(names), COLUMNS)
            self.assertEqual([tuple(row) for row in rows],
                             [tuple("" if field is None else str(field) for field in row) for row in wanted])
            self.assertIn(f"{day}.csv: {len(rows)} touches\n", done.stdout)

    def test_wrong_words_and_folders_are_told(self) -> None:
        for words, status, said in ((["days"], 2, "days needs --from and --folder"), (["ledger"], 2, "ledger needs -o"),
                                    (["days", "--from", "2025-01-02", "--to", "2025-01-01", "--folder", "."], 2,
                                     "--to is before --from"),
                                    (["days", "--from", town.FRIDAY, "--folder", "/nowhere"], 1,
                                     f"export: /nowhere/{town.FRIDAY}.csv.new: No such file or directory")):
            with self.subTest(words):
                done = call("export", *words, "--database", self.base)
                self.assertEqual((done.returncode, done.stdout, "Traceback" in done.stderr), (status, "", False))
                self.assertIn(said, done.stderr)


class Whole(unittest.TestCase):
    """Files that are written whole or not at all."""

    def test_what_fails_or_is_killed_leaves_the_old_file(self) -> None:
        path = room("network-whole-") / "day.csv"
        path.write_text("old")
        for error in (OSError, KeyboardInterrupt):
            with self.assertRaises(error), output.whole(path) as file:
                file.write("new")
                raise error
            self.assertEqual((path.read_text(), [*path.parent.iterdir()]), ("old", [path]))
        child = os.fork()
        if not child:
            with output.whole(path) as file:
                file.write("new")
                file.flush()
                os.kill(os.getpid(), signal.SIGKILL)
        self.assertEqual((os.waitpid(child, 0)[1], path.read_text()), (signal.SIGKILL, "old"))
        # What a killed run has left is overwritten.
        with output.whole(path) as file:
            file.write("new")
        self.assertEqual((path.read_text(), [*path.parent.iterdir()]), ("new", [path]))


class Others(OverBoth):
    """Over databases of other journals."""

    def test_a_closed_journal_is_emptied_into_the_next(self) -> None:
        base, home = self.fresh("ledgerclosed"), room("network-closed-")
        inside = [codec.touch(codec.ENTER, 7, 5, 1, 1, MONDAY + 5000)]
        loaded("Alder", journal_of(home / "old", travel(7, 1, 1, MONDAY) + inside), base, "--closed")
        later = MONDAY + town.DAY
        # 1650 less the 900 of a journey that wasn't ended.
        loaded("Alder", journal_of(home / "new", [codec.touch(codec.ISSUE, 65535, 100000, 1, later),
                                                  codec.touch(codec.TOP_UP, 65535, 100001, 1, 750, later),
                                                  codec.touch(codec.TOP_UP, 7, 5, 1, 500, later + 60)]), base)
        for more in ((), ("--cards",)):
            file = home / f"ledger{len(more)}"
            self.assertEqual(call("export", "ledger", "-o", file, "--database", base, *more).returncode, 0)
            self.assertEqual(hledger(file, "check", "--strict", "ordereddates"), (0, ""))
            sums = {account: sum(pence(file, account).values()) for account in (
                "assets", "liabilities:cards", "liabilities:entry charges", "equity", "income:fares", "income:maxima")}
            self.assertEqual(sums, {"assets": 2500, "liabilities:cards": -1250, "liabilities:entry charges": 0, "equity": 0,
                                    "income:fares": -350, "income:maxima": -900})

    def test_detached_months_are_refused(self) -> None:
        base, home = self.fresh("ledgerdetached"), room("network-gone-")
        loaded("Alder", journal_of(home / "alder", travel(7, 1, 1, MONDAY)), base)
        with contextlib.closing(database.connect(base)) as opened:
            opened.begin()
            opened.execute("INSERT INTO detached_months (month) VALUES ('2025-01-01')")
            opened.commit()
        for words in (["days", "--from", "2025-01-06", "--folder", home], ["ledger", "-o", home / "ledger"]):
            done = call("export", *words, "--database", base)
            self.assertEqual((done.returncode, done.stdout), (1, ""))
            self.assertTrue(done.stderr.startswith("export: the month 2025-01 was detached (bovtrila-network-detach)"),
                            done.stderr)
        self.assertEqual([path.name for path in home.iterdir()], ["alder"])
        done = call("export", "days", "--from", "2025-02-01", "--folder", home, "--database", base)
        self.assertEqual((done.returncode, done.stdout), (0, "2025-02-01.csv: 0 touches\n"))


class SqliteExports(Exports, OnSqlite, DatabaseTest):
    """In SQLite."""


class PostgresExports(Exports, OnPostgres, DatabaseTest):
    """In PostgreSQL."""


class SqliteLedgers(Others, OnSqlite, BaseTest):
    """In SQLite."""


class PostgresLedgers(Others, OnPostgres, BaseTest):
    """In PostgreSQL."""
