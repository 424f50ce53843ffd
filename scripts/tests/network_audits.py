"""Tests of bovtrila-network-report and bovtrila-network-audit. For scripts/tests/test_network.py."""
import contextlib
import json
import os
import pathlib
import re
import shutil
import signal
import subprocess
import time
import unittest
from collections.abc import Callable, Iterable
from typing import Any, ClassVar, TypeAlias

import harness
import town
from harness import BIN, PROGRAM
from network_base import (FLIPPED, PYTHON, TABLES, TIME, DatabaseTest, OnSqlite, call, flip, load, network, room)

from bovtrila.network import seals

# What a report has of each server.
Facts: TypeAlias = dict[str, dict[str, Any]]

# What a traceback of bovtrila-network-audit has. Dask's own workers may write some as they end.
FROM_AUDIT = f'File "{BIN / "bovtrila-network-audit"}"'


class Reports(OnSqlite, DatabaseTest):
    """bovtrila-network-report, whose charts are day-report's."""

    base: ClassVar[str]
    page: ClassVar[pathlib.Path]
    done: ClassVar[subprocess.CompletedProcess[str]]
    text: ClassVar[str]

    @classmethod
    def setUpClass(cls) -> None:
        super().setUpClass()
        if subprocess.run([PYTHON, "-c", "import jinja2, matplotlib"], capture_output=True).returncode:
            raise unittest.SkipTest("libraries aren't here (apt-get install python3-matplotlib python3-jinja2)")
        cls.base, cls.page = cls.fresh("report"), room("network-report-") / "day.html"
        for stage in ("friday", "end"):
            for name in town.SERVERS:
                load(name, stage, cls.base)
        cls.done = call("report", "--day", town.SATURDAY, "-o", cls.page, "--database", cls.base)
        cls.text = cls.page.read_text() if cls.page.exists() else ""

    def cells(self, section: str) -> list[tuple[str, ...]]:
        """The rows of the tables of a section, as text."""
        part = self.text.partition(f"<h2>{section}</h2>")[2].partition("</section>")[0]
        rows = (re.findall(r"<t[dh][^>]*>(.*?)</t[dh]>", row) for row in re.findall(r"<tr>(.*?)</tr>", part))
        return [tuple(row) for row in rows]

    def test_each_station_has_its_touches_and_its_money(self) -> None:
        self.assertEqual((self.done.returncode, self.done.stderr), (3, ""))
        # The journal that is refused has no touch of Saturday: it is the first that the page shows.
        last = [*self.town.servers[FLIPPED].touches(self.town.fronts[FLIPPED])][-1].moment
        rows = self.cells("Servers without touches of the day")[1:]
        self.assertEqual([row[:3] for row in rows],
                         [("Cedar", FLIPPED, f"no touches since {town.moment_text(last)}")])
        self.assertRegex(rows[0][3], r"^loaded at 20\d\d-\d\d-\d\dT\d\d:\d\d:\d\dZ$")
        self.assertLess(self.text.index("Servers without touches"), self.text.index("<h2>Stations</h2>"))
        wanted = []
        for station in sorted(set(town.SERVERS.values())):
            touches = [touch for touch in self.town.touches()
                       if touch.station == station and touch.day == town.SATURDAY and touch.act != "revision"]
            paid = sum(touch.change for touch in touches if touch.act == "top-up")
            charged = -sum(touch.change for touch in touches if touch.act in ("in", "out"))
            acts = {touch.card: touch.act for touch in touches if touch.accepted and touch.act in ("in", "out")}
            wanted.append((station, str(len({touch.server for touch in touches})), str(len(touches)),
                           str(sum(not touch.accepted for touch in touches)), pounds(paid), pounds(charged),
                           str(sum(touch.verdict in town.MAXIMA for touch in touches)),
                           str(sum(act == "in" for act in acts.values()))))
        self.assertEqual(self.cells("Stations")[1:], wanted)

    def test_maxima_revisions_and_clocks_are_those_of_the_queries(self) -> None:
        maxima = self.town.maxima([town.SATURDAY])
        self.assertEqual(sum(row[0] in town.SERVERS for row in self.cells("Journeys that cost a maximum")), len(maxima))
        self.assertEqual([row[1] for row in self.cells("Revisions that a server lacks")[1:]], [town.LACKS])
        self.assertEqual([row[:4] for row in self.cells("Gates whose moments go back")[1:]],
                         [(*row[:2], str(row[2]), str(row[3])) for row in self.town.clocks([town.SATURDAY])])
        self.assertEqual([row[1] for row in self.cells("Journals")[1:]], list(town.SERVERS))

    def test_it_is_the_same_page_for_the_same_rows_and_needs_nothing_else(self) -> None:
        again = self.page.with_name("again.html")
        self.assertEqual(call("report", "--day", town.SATURDAY, "-o", again, "--database", self.base).returncode, 3)
        self.assertEqual(again.read_text(), self.text)
        self.assertEqual(re.findall(r"(?:src|href)=\"(?!#)[^\"]*\"", self.text), [])
        self.assertEqual(self.text.count("<svg"), 5)

    def test_a_day_without_touches_and_a_missing_database_are_told(self) -> None:
        empty = self.page.with_name("empty.html")
        self.assertEqual(call("report", "--day", "2024-01-01", "-o", empty, "--database", self.base).returncode, 3)
        self.assertIn("No touch of a card bears this day.", empty.read_text())
        done = call("report", "--day", "2024-01-01", "-o", empty, "--database", "/nowhere/network.db")
        self.assertEqual((done.returncode, done.stderr.count("\n")), (1, 1))


def pounds(pence: int) -> str:
    return f"{'−' if pence < 0 else ''}£{abs(pence) // 100:,}.{abs(pence) % 100:02}"


class Audits(harness.ProgramTest):
    """bovtrila-network-audit: on processes of its own, and on workers of a scheduler of which one is killed."""

    town: ClassVar[town.Town]
    folder: ClassVar[pathlib.Path]

    # Stands for the program: of one server's journal the first call waits until its worker was killed, and on another's it
    # ends by a signal.
    STAND_IN = """#!/bin/sh
case "$*" in
*birch-1*)
    if mkdir FOLDER/first 2>/dev/null; then
        echo "$PPID" > FOLDER/worker.new
        mv FOLDER/worker.new FOLDER/worker
        while [ -e FOLDER/first ]; do sleep 0.1; done
        exit 1
    fi ;;
*alder-2*) kill -SEGV $$ ;;
esac
exec PROGRAM "$@"
"""

    @classmethod
    def setUpClass(cls) -> None:
        super().setUpClass()
        if subprocess.run([PYTHON, "-c", "import distributed"], capture_output=True).returncode:
            raise unittest.SkipTest("Dask isn't here (apt-get install python3-distributed)")
        cls.town, cls.folder, _ = network()

    def setUp(self) -> None:
        self.room = room("network-audit-")
        self.report = self.room / "audit.json"

    def copies(self, stage: str) -> list[pathlib.Path]:
        """A copy of each server's journal, in the same places each time."""
        for name in town.SERVERS:
            (self.room / name).mkdir(exist_ok=True)
            shutil.copy(self.folder / name / stage / "station.journal", self.room / name)
        return [self.room / name / "station.journal" for name in town.SERVERS]

    def audit(self, journals: Iterable[str | pathlib.Path], *words: object,
              program: pathlib.Path = PROGRAM) -> tuple[subprocess.CompletedProcess[str], Facts]:
        done = call("audit", *journals, *TABLES, "--report", self.report, "--program", program, *words)
        self.assertNotIn(FROM_AUDIT, done.stderr)
        return done, self.reported()

    def reported(self) -> Facts:
        """What the report has of each server."""
        servers = json.loads(self.report.read_text())["servers"] if self.report.exists() else {}
        return {name: server["facts"] for name, server in servers.items()}

    def sums(self, name: str, front: int) -> dict[str, int]:
        """What the model has of a server: how many touches, and the cards' sums."""
        server = self.town.servers[name]
        self.addCleanup(self.town.fronts.update, {name: self.town.fronts[name]})
        self.town.fronts[name] = server.fronts[front]
        rows = [row[5:] for row in self.town.all_held() if row[2] == name]
        balance, _, paid_in, charged = (sum(column) for column in zip(*rows))
        return {"cards": len(rows), "balance": balance, "paid_in": paid_in, "charged": charged}

    def test_sums_seals_and_what_changed_since_the_last_report(self) -> None:
        done, first = self.audit(self.copies("friday"), "--workers", 2)
        self.assertEqual(done.returncode, 0, done.stderr)
        self.assertIn("audited 6 of 6 journals", done.stderr)
        for name, facts in first.items():
            self.assertEqual((facts["touches"], facts["sums"]), (self.town.servers[name].fronts[0], self.sums(name, 0)))
        strange = self.room / "strange"
        strange.write_text("no journal")
        # A journal of which the mark of the first touch was lost.
        journals, behind = self.copies("end"), self.room / "behind"
        content = bytearray(journals[0].read_bytes())
        content[64] = 0
        behind.write_bytes(content)
        slots = self.town.servers[next(iter(town.SERVERS))].fronts[1] - 1
        done, second = self.audit([*journals, strange, "/nowhere", behind], "--workers", 2)
        self.assertEqual(done.returncode, 1)
        for name in town.SERVERS:
            if name != FLIPPED:
                facts = second[name]
                self.assertEqual((facts["touches"], facts["sums"]), (self.town.servers[name].fronts[1], self.sums(name, 1)))
        flipped = str(self.room / FLIPPED / "station.journal")
        self.assertEqual({name: facts["fault"] for name, facts in second.items() if "fault" in facts},
                         {FLIPPED: "fault seal 2 Changed", "strange": "fault journal 3 NotAJournal",
                          "nowhere": "No such file or directory", "behind": f"{slots} open slots behind the end"})
        for line in (f"  {FLIPPED}: was sound", "  journals 6 -> 9", "  sound 6 -> 5", "  strange: new"):
            self.assertIn(line, done.stdout.splitlines())
        # It stays a fault, by the seal of before; put right, it is sound again.
        done, third = self.audit([flipped], "--workers", 1)
        self.assertEqual((done.returncode, third[FLIPPED]["fault"]), (1, "fault seal 2 Changed"))
        flip(pathlib.Path(flipped))
        done, _ = self.audit([flipped], "--workers", 1)
        self.assertEqual(done.returncode, 0)
        self.assertIn(f"  {FLIPPED}: is sound again", done.stdout.splitlines())

    def start(self, *words: object) -> subprocess.Popen[bytes]:
        """A part of Dask, ended with the test by its id."""
        log = open(self.room / "log", "ab")
        started = subprocess.Popen([PYTHON, "-m", f"distributed.cli.{words[0]}", *map(str, words[1:])], cwd=self.room,
                                   stdin=subprocess.DEVNULL, stdout=log, stderr=log, start_new_session=True)
        log.close()
        self.addCleanup(started.wait)
        self.addCleanup(started.kill)
        return started

    def scheduled(self, workers: int, *words: object, nanny: str = "--no-nanny") -> tuple[str,
                                                                                          list[subprocess.Popen[bytes]]]:
        """A scheduler with so many workers: its address, and their processes. A nanny starts its worker again."""
        scheduler = self.room / "scheduler.json"
        self.start("dask_scheduler", "--host", "127.0.0.1", "--port", 0, "--no-dashboard", "--scheduler-file", scheduler,
                   *words)
        started = [self.start("dask_worker", "--scheduler-file", scheduler, "--host", "127.0.0.1", "--nthreads", 1,
                              nanny, "--no-dashboard", "--name", f"worker-{place}", "--local-directory",
                              self.room / f"worker-{place}", *words) for place in range(workers)]
        return self.found(scheduler, json.loads)["address"], started

    def stand_in(self, text: str) -> pathlib.Path:
        """A program of this text in the place of the real one."""
        stand_in = self.room / "stand-in"
        stand_in.write_text(text.replace("FOLDER", str(self.room)).replace("PROGRAM", str(PROGRAM)))
        stand_in.chmod(0o755)
        return stand_in

    def test_the_journals_of_a_killed_worker_are_done_by_others(self) -> None:
        address, workers = self.scheduled(3)
        stand_in = self.stand_in(self.STAND_IN)
        asked = subprocess.Popen(
            [str(word) for word in (BIN / "bovtrila-network-audit", *self.copies("friday"), *TABLES, "--report", self.report,
                                    "--program", stand_in, "--scheduler", address)],
            stdout=subprocess.PIPE, stderr=subprocess.PIPE, text=True)
        worker = self.found(self.room / "worker", int)
        self.assertIn(worker, [each.pid for each in workers])
        os.kill(worker, signal.SIGKILL)
        out, err = asked.communicate(timeout=TIME)
        (self.room / "first").rmdir()
        self.assertEqual((asked.returncode, FROM_AUDIT in err), (1, False), err)
        for name, facts in self.reported().items():
            if name == "alder-2":
                self.assertEqual(facts["fault"], f"{stand_in} was ended by signal 11")
            else:
                self.assertEqual((facts["touches"], facts["sums"]),
                                 (self.town.servers[name].fronts[0], self.sums(name, 0)))
        self.assertIn("in all: journals 6, sound 5", out)

    def found(self, path: pathlib.Path, read: Callable[[str], Any]) -> Any:
        """What is read in a file, once another process has made it and has written all of it."""
        limit = time.monotonic() + TIME
        while True:
            with contextlib.suppress(FileNotFoundError, ValueError):
                return read(path.read_text())
            self.assertLess(time.monotonic(), limit, (self.room / "log").read_text())
            time.sleep(0.05)

    def test_a_journal_that_costs_each_worker_its_life_is_a_line(self) -> None:
        address, _ = self.scheduled(2, nanny="--nanny")
        stand_in = self.stand_in('#!/bin/sh\ncase "$*" in *alder-2*) kill -KILL "$PPID" ;; esac\nexec PROGRAM "$@"\n')
        done, found = self.audit(self.copies("friday")[:2], "--scheduler", address, program=stand_in)
        faults = {name: facts["fault"] for name, facts in found.items() if "fault" in facts}
        self.assertEqual((done.returncode, [*faults]), (1, ["alder-2"]))
        [fault] = faults.values()
        self.assertRegex(fault, "^its task was lost: KilledWorker: ")

    def test_the_page_s_certificates_secure_a_scheduler(self) -> None:
        """By the commands of docs/operate/NETWORK.md: one who has no certificate gets no answer."""
        subprocess.run(["openssl", "req", "-x509", "-newkey", "ec", "-pkeyopt", "ec_paramgen_curve:P-256", "-nodes", "-days",
                        "7", "-subj", "/CN=audit", "-keyout", "audit.key", "-out", "audit.crt"], cwd=self.room, check=True,
                       capture_output=True, timeout=TIME)
        words = ["--tls-ca-file", "audit.crt", "--tls-cert", "audit.crt", "--tls-key", "audit.key", "--protocol", "tls"]
        address, _ = self.scheduled(1, *words)
        self.assertTrue(address.startswith("tls://127.0.0.1:"))
        settings = {"DASK_DISTRIBUTED__COMM__TLS__CA_FILE": "audit.crt",
                    "DASK_DISTRIBUTED__COMM__TLS__CLIENT__CERT": "audit.crt",
                    "DASK_DISTRIBUTED__COMM__TLS__CLIENT__KEY": "audit.key"}
        journal = self.copies("friday")[0]
        runs: list[tuple[dict[str, str], int, int]] = [(settings, TIME, 0), ({}, 5, 1)]
        for more, patience, status in runs:
            done = call("audit", journal, *TABLES, "--report", self.report, "--program", PROGRAM, "--scheduler", address,
                        "--patience", patience, cwd=self.room, env={**os.environ, **more})
            self.assertEqual((done.returncode, FROM_AUDIT in done.stderr), (status, False), done.stderr)
        self.assertTrue(done.stderr.startswith(f"audit: {address} needs certificates in Dask's configuration"))

    def test_a_scheduler_that_is_not_there_is_told(self) -> None:
        done = call("audit", *self.copies("friday"), *TABLES, "--report", self.report, "--program", PROGRAM, "--patience", 1,
                    "--scheduler", f"tcp://127.0.0.1:{harness.free_port()}")
        self.assertEqual((done.returncode, done.stdout, self.report.exists()), (1, "", False))
        self.assertRegex(done.stderr, r"^audit: ")

    def flat(self, *names: str) -> None:
        """Copies of two servers' journals in one folder, by these names."""
        for name, server in zip(names, ("alder-1", "birch-1")):
            shutil.copy(self.folder / server / "friday" / "station.journal", self.room / name)

    def audited(self, *journals: str) -> tuple[int, list[str]]:
        """The status of an audit in the folder of the copies, and the lines that it prints."""
        done = call("audit", *journals, *TABLES, "--report", self.report, "--program", PROGRAM, "--workers", 1,
                    cwd=self.room)
        self.assertNotIn(FROM_AUDIT, done.stderr)
        return done.returncode, done.stdout.splitlines()

    def test_a_seal_outlives_an_audit_that_leaves_its_server_out(self) -> None:
        self.flat("x01", "x02")
        self.assertEqual([self.audited(*asked)[0] for asked in (("x01", "x02"), ("x01",))], [0, 0])
        flip(self.room / "x02")
        status, lines = self.audited("x01", "x02")
        self.assertEqual((status, lines[1]), (1, "x02: fault seal 2 Changed"))

    def test_a_seal_belongs_to_a_server_and_not_to_a_path(self) -> None:
        self.flat("x03")
        self.assertEqual(self.audited("x03")[0], 0)
        flip(self.room / "x03")
        shutil.copy(self.room / "x03", self.room / "x03-20260105.journal")
        (self.room / "other" / "x03").mkdir(parents=True)
        shutil.copy(self.room / "x03", self.room / "other" / "x03" / "station.journal-20260105T033000Z")
        for path in ("./x03", "x03-20260105.journal", "other/x03/station.journal-20260105T033000Z"):
            with self.subTest(path):
                status, lines = self.audited(path)
                self.assertEqual((status, lines[0]), (1, "x03: fault seal 2 Changed"))

    def test_another_journal_of_a_server_is_a_warning(self) -> None:
        self.flat("first", "second")
        self.assertEqual(self.audited("x04=first")[0], 0)
        status, lines = self.audited("x04=second")
        self.assertEqual(status, 3)
        self.assertRegex(lines[1], r"^x04: warning: another journal than the one audited on 20\d\d-")
        # From now on it has a seal, and the first one keeps its own.
        self.assertEqual([self.audited("x04=second")[0], self.audited("x04=first")[0]], [0, 0])
        for name in ("first", "second"):
            flip(self.room / name)
            status, lines = self.audited(f"x04={name}")
            self.assertEqual((status, lines[0]), (1, "x04: fault seal 2 Changed"))

    def test_a_journal_of_another_server_is_a_fault(self) -> None:
        self.flat("x05")
        self.assertEqual(self.audited("x05")[0], 0)
        status, lines = self.audited("x06=x05")
        self.assertEqual(status, 1)
        self.assertRegex(lines[0], r"^x06: it is the journal of x05, as it was audited on 20\d\d-")

    def test_two_journals_of_one_name_are_a_wrong_command_line(self) -> None:
        self.flat("x07", "x07-20260105.journal")
        done = call("audit", self.room / "x07", self.room / "x07-20260105.journal", *TABLES, "--report", self.report)
        self.assertEqual((done.returncode, done.stdout, self.report.exists()), (2, "", False))
        self.assertIn("are both of the server x07; name each as SERVER=FILE", done.stderr)

    def test_a_line_break_in_a_file_s_name_is_a_part_of_its_server_s(self) -> None:
        self.assertEqual(seals.server_of("a\nb-20260105.journal"), ("a\nb", "a\nb-20260105.journal"))

    def test_the_report_of_an_older_version_keeps_its_seals(self) -> None:
        self.flat("x08")
        self.assertEqual(self.audited("x08")[0], 0)
        server = json.loads(self.report.read_text())["servers"]["x08"]
        seal = server["seals"][0]
        self.report.write_text(json.dumps({"made": "2026-01-05T04:00:00Z", "journals": {
            "./x08": {**server["facts"], "sealed": [seal["touches"], seal["seal"]]}}}))
        old = self.report.read_text()
        self.assertEqual(self.audited("x08")[0], 0)
        self.report.write_text(old)
        flip(self.room / "x08")
        status, lines = self.audited("x08")
        self.assertEqual((status, lines[0]), (1, "x08: fault seal 2 Changed"))
