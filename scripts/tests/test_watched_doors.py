"""Tests what bovtrila-exporter shows of the requests that a server's door refused, in its metrics and on its page. The files
of systemd's journal are made of lines that are written here. All traffic stays on 127.0.0.1.
"""
import argparse
import contextlib
import io
import os
import pathlib
import re
import shutil
import subprocess
import sys
import tempfile
import time
import unittest
import unittest.mock
from collections.abc import Iterator

import harness
import logged
import paged
import planted
import test_watched_servers as watched
from bovtrila import codec, door_reports, serving
from bovtrila.commands import exporter
from bovtrila.door_reports import Found, Refused, Reports
from harness import TIME, TOP
from logged import EARLIER_BOOT, Line

# Monday 2025-01-06 at 04:30 in London.
BEGIN = 1736137800
# A user who owns nothing.
NOBODY = 65_534
REMEDY = "run the exporter as a user of the group systemd-journal"
# Runs a program that sees of /proc only the processes.
HIDING = ["unshare", "--mount", "--pid", "--fork", "sh", "-c", 'mount -t proc -o subset=pid proc /proc && exec "$@"', "sh"]
READING = """import pathlib, sys
from bovtrila import door_reports
door_reports.SECONDS = 60
print(door_reports.Reports(pathlib.Path(sys.argv[1])).read("bovtrila").refused["hall", "gate"].times)
"""
SETTINGS = "table = t\njournal = j\ncards = 10\ncapacity = 9\nlisten = 127.0.0.1:1\nlines = 2\n"


def lacking() -> str | None:
    """Why these tests can't run here, or nothing."""
    if not door_reports.HAS_PACKAGE or not logged.REMOTE.exists():
        return "what a door refused: python3-systemd and systemd-journal-remote aren't installed"
    return None if watched.has_client() else "what a door refused: python3-prometheus-client isn't installed"


def hall(times: int, gate: int, moment: float) -> Found:
    """What is found if only the rule `hall` has refused gate numbers."""
    return Found({("hall", "gate"): Refused(times, gate, "hall", moment)}, 0, 0)


@contextlib.contextmanager
def as_nobody() -> Iterator[None]:
    """Has this process be one of a user who owns nothing. Without root, its own user has no right to a file of mode 0."""
    if os.geteuid():
        yield
        return
    os.setresuid(NOBODY, NOBODY, 0)
    try:
        yield
    finally:
        os.setresuid(0, 0, 0)


class InAFolder(unittest.TestCase):
    """Tests with a folder for the files of systemd's journal."""

    def setUp(self) -> None:
        if why := lacking():
            self.skipTest(why)
        room = tempfile.TemporaryDirectory(prefix="watched-doors-")
        self.addCleanup(room.cleanup)
        self.folder = pathlib.Path(room.name)
        self.logs = self.folder / "logs"
        self.logs.mkdir()
        # What is read here is read to its end at once, however busy the machine is.
        self.enterContext(unittest.mock.patch.object(door_reports, "SECONDS", TIME))

    def write(self, *texts: str, begin: float = BEGIN, unit: str = "bovtrila.service") -> None:
        """Adds lines, a minute after another."""
        logged.write(self.logs, [Line(begin + 60 * place, text, unit) for place, text in enumerate(texts)])


class Lines(InAFolder):
    """What is read of systemd's journal."""

    def read(self, since: float | None = None) -> Found | None:
        """What a new exporter would read."""
        return Reports(self.logs).read("bovtrila", since)

    def test_the_counts_of_a_rule_and_a_reason_are_added(self) -> None:
        self.write("not allowed gate 8 12 barrier-7", "not allowed rate 7 40 barrier-7", "not allowed gate 9 5 barrier-7",
                   "not allowed gate 65535 1 hall", "not allowed kind 0 2 *", "not allowed ahead 7 3 hall",
                   "not allowed reserve 7 4 hall", "not allowed connections 0 6 hall",
                   "not allowed kind 7 18446744073709551615 hall")
        self.assertEqual(self.read(), Found({
            ("barrier-7", "gate"): Refused(17, 9, "barrier-7", BEGIN + 120),
            ("barrier-7", "rate"): Refused(40, 7, "barrier-7", BEGIN + 60),
            ("hall", "gate"): Refused(1, 65_535, "hall", BEGIN + 180),
            ("*", "kind"): Refused(2, 0, "*", BEGIN + 240),
            ("hall", "ahead"): Refused(3, 7, "hall", BEGIN + 300),
            ("hall", "reserve"): Refused(4, 7, "hall", BEGIN + 360),
            ("hall", "connections"): Refused(6, 0, "hall", BEGIN + 420),
            ("hall", "kind"): Refused(18_446_744_073_709_551_615, 7, "hall", BEGIN + 480)}, 0, 0))

    def test_connections_without_a_rule_have_one_count(self) -> None:
        """A line counts those of all names, and has the last name."""
        self.write("not allowed rule 0 3 gate-70", "not allowed rule 0 1 gate-71", "not allowed rule 0 2 -")
        self.assertEqual(self.read(), Found({("", "rule"): Refused(6, 0, "-", BEGIN + 120)}, 0, 0))

    def test_connections_without_a_header_are_counted_by_their_lines(self) -> None:
        self.write("no proxy header: version 1, not 2", "no proxy header: the connection ended inside the header")
        self.assertEqual(self.read(), Found({}, 2, BEGIN + 60))

    def test_each_line_is_read_once(self) -> None:
        self.write("not allowed gate 8 12 hall")
        reports = Reports(self.logs)
        for _ in range(3):
            self.assertEqual(reports.read("bovtrila"), hall(12, 8, BEGIN))
        self.write("not allowed gate 9 5 hall", "opened 4", begin=BEGIN + 60)
        for _ in range(3):
            self.assertEqual(reports.read("bovtrila"), hall(17, 9, BEGIN + 60))
        # journald renames a file that is large enough, and begins another one.
        (self.logs / "system.journal").rename(self.logs / "system@1.journal")
        self.write("not allowed gate 7 3 hall", begin=BEGIN + 180)
        for _ in range(3):
            self.assertEqual(reports.read("bovtrila"), hall(20, 7, BEGIN + 180))
        # A new exporter has the same counts.
        self.assertEqual(self.read(), hall(20, 7, BEGIN + 180))

    def test_a_journal_without_such_a_line_reports_nothing(self) -> None:
        self.write("opened 4")
        reports = Reports(self.logs)
        self.assertEqual(reports.read("bovtrila"), Found({}, 0, 0))
        self.write("not allowed gate 8 12 hall", begin=BEGIN + 60)
        self.assertEqual(reports.read("bovtrila"), hall(12, 8, BEGIN + 60))

    def test_lines_of_others_do_not_count(self) -> None:
        text = "not allowed gate 8 12 hall"
        logged.write(self.logs, [
            Line(BEGIN, text, boot=EARLIER_BOOT), Line(BEGIN + 1, text, unit="bovtrila@alder-1.service"),
            Line(BEGIN + 2, text, unit="bovtrila-exporter.service"), Line(BEGIN + 3, text, transport="syslog"),
            Line(BEGIN + 4, "not allowed gate 9 1 hall"), Line(BEGIN + 5, text, unit="cron.service")])
        self.assertEqual(self.read(), hall(1, 9, BEGIN + 4))
        self.assertEqual(Reports(self.logs).read("bovtrila@alder-1"), hall(12, 8, BEGIN + 1))

    def test_the_number_of_the_start_may_be_hidden(self) -> None:
        """The exporter's unit hides what the library would read it from (`ProcSubset=pid`)."""
        if not shutil.which("unshare") or subprocess.run([*HIDING, "true"], capture_output=True).returncode:
            self.skipTest("a hidden /proc/sys: this machine lets nobody mount such a /proc")
        logged.write(self.logs, [Line(BEGIN, "not allowed gate 8 1 hall", boot=EARLIER_BOOT),
                                 Line(BEGIN + 60, "not allowed gate 8 12 hall")])
        done = subprocess.run([*HIDING, "/usr/bin/python3", "-c", READING, self.logs], capture_output=True, text=True,
                              env={**os.environ, "PYTHONPATH": str(TOP / "tools")}, timeout=TIME)
        self.assertEqual((done.stdout, done.stderr), ("12\n", ""))

    def test_lines_of_another_form_do_not_count(self) -> None:
        texts: tuple[str | bytes, ...] = (
            "", "opened 4", "not allowed", "not allowed gate 8 12", "not allowed gate 8 12 ", "not allowed gate 8 x hall",
            "not allowed gate -8 12 hall", "not allowed gate 8  12 hall", "not allowed gate 123456 12 hall",
            "not allowed other 8 12 hall", "Not allowed gate 8 12 hall", " not allowed gate 8 12 hall",
            "not allowed gate 8 12 two\nlines", f"not allowed gate 8 12 {65 * 'x'}", "not allowed gate \u0668 12 hall",
            b"not allowed gate 8 12 hall\xff", "no proxy header", "touches 4711 room 995289 taken 3 of 8 connections 17")
        logged.write(self.logs, [Line(BEGIN + place, text) for place, text in enumerate(texts)])
        self.assertEqual(self.read(), Found({}, 0, 0))

    def test_a_name_is_the_rest_of_its_line(self) -> None:
        names = ("barrier 7", 64 * "x", 32 * "\u00e9", 'a"b<c>&\\', "*", "not allowed gate 8 12 hall", "7", "\u202eabc")
        self.write(*(f"not allowed gate 8 {place} {name}" for place, name in enumerate(names, 1)))
        self.assertEqual(self.read(), Found({(name, "gate"): Refused(place, 8, name, BEGIN + 60 * place - 60)
                                             for place, name in enumerate(names, 1)}, 0, 0))

    def test_lines_since_a_moment(self) -> None:
        """Those of an earlier start of the machine too."""
        logged.write(self.logs, [Line(BEGIN - 1, "not allowed gate 8 1 hall", boot=EARLIER_BOOT),
                                 Line(BEGIN, "not allowed gate 8 2 hall", boot=EARLIER_BOOT)])
        self.write("not allowed gate 8 4 hall", "not allowed gate 8 8 hall", begin=BEGIN + 60)
        reports = Reports(self.logs)
        for since, times in ((BEGIN, 14), (BEGIN + 1, 12), (BEGIN + 61, 8), (BEGIN - 1, 15)):
            found = hall(times, 8, BEGIN + 120)
            self.assertEqual((reports.read("bovtrila", since), reports.read("bovtrila", since)), (found, found), since)
        self.assertEqual(reports.read("bovtrila", BEGIN + 121), Found({}, 0, 0))
        self.write("not allowed gate 8 16 hall", begin=BEGIN + 180)
        self.assertEqual(reports.read("bovtrila", BEGIN + 121), hall(16, 8, BEGIN + 180))

    def test_many_lines_are_read_one_after_the_other(self) -> None:
        """Until they are all read, nothing is known: a part of a count would look like another start of the machine."""
        self.write(*["not allowed gate 8 2 hall"] * 500)
        reports = Reports(self.logs)
        with unittest.mock.patch.object(door_reports, "SECONDS", 0):
            self.assertEqual((reports.read("bovtrila"), reports.trouble), (None, None))
        self.assertTrue(harness.until(lambda: reports.read("bovtrila")))
        self.assertEqual(reports.read("bovtrila"), hall(1000, 8, BEGIN + 29_940))

    def test_the_reasons_are_those_of_the_page(self) -> None:
        part = (TOP / "docs" / "reference" / "FAULTS.md").read_text().partition("### What a door refuses\n")[2]
        rows = re.findall(r"^\| `(\w+)` \|", part.partition("\n## ")[0], re.M)
        self.assertEqual(rows, ["kind", "gate", "rate", "ahead", "reserve", "connections", "rule"])
        self.assertEqual(list(door_reports.REASONS), rows)


class Troubles(InAFolder):
    """What can't be read isn't known, and the reader goes on."""

    def assert_unknown(self, reports: Reports, trouble: str) -> None:
        for _ in range(2):
            self.assertEqual((reports.read("bovtrila"), reports.trouble), (None, trouble))

    def test_a_folder_without_a_journal(self) -> None:
        self.assert_unknown(Reports(self.folder / "none"),
                            f"systemd's journal in {self.folder}/none can't be read: No such file or directory")
        reports = Reports(self.logs)
        self.assert_unknown(reports, f"systemd's journal in {self.logs} has no line that this user may read: {REMEDY}")
        self.write("not allowed gate 8 12 hall")
        self.assertEqual((reports.read("bovtrila"), reports.trouble), (hall(12, 8, BEGIN), None))

    def test_files_that_this_user_may_not_read(self) -> None:
        """The library would leave them out without a word. The lines of people are in other files, and may stay hidden."""
        self.write("not allowed gate 8 12 hall")
        logged.write(self.logs, [Line(BEGIN, "not allowed gate 8 1 hall")], "user-1000.journal")
        self.folder.chmod(0o755)
        for file, mode in (("system.journal", 0o644), ("user-1000.journal", 0)):
            (self.logs / file).chmod(mode)
        reports = Reports(self.logs)
        with as_nobody():
            self.assertEqual(reports.read("bovtrila"), hall(12, 8, BEGIN))
        (self.logs / "system.journal").chmod(0)
        with as_nobody():
            self.assert_unknown(Reports(self.logs), f"{self.logs}/system.journal: this user may not read it: {REMEDY}")
        self.logs.chmod(0)
        with as_nobody():
            self.assert_unknown(Reports(self.logs), f"systemd's journal in {self.logs} can't be read: Permission denied")
        self.logs.chmod(0o755)

    def test_a_missing_package(self) -> None:
        with unittest.mock.patch.object(door_reports, "HAS_PACKAGE", False):
            self.assert_unknown(Reports(None), "python3-systemd isn't there: apt-get install python3-systemd, and start the "
                                               "exporter again")

    def test_a_library_that_fails(self) -> None:
        """Afterwards all lines are read again, and none is counted twice."""
        self.write("not allowed gate 8 12 hall")
        reports = Reports(self.logs)
        reports.read("bovtrila")
        for error, said in ((RuntimeError("broken"), "broken"), (OSError(74, "Bad message"), "Bad message")):
            with unittest.mock.patch("systemd.journal.Reader.get_next", side_effect=error):
                self.assert_unknown(reports, f"systemd's journal in {self.logs} can't be read: {said}")
            self.assertEqual((reports.read("bovtrila"), reports.trouble), (hall(12, 8, BEGIN), None))


class Metrics(InAFolder):
    """The counters of a running exporter."""

    def export(self, *words: object, logs: pathlib.Path | None = None) -> watched.Exporter:
        made = watched.Exporter("--server", "127.0.0.1:1", "--logs", logs or self.logs, *words)
        self.addCleanup(made.end)
        return made

    @staticmethod
    def counters(found: dict[str, float]) -> dict[str, float]:
        return {name: value for name, value in found.items() if name.startswith(("not_allowed", "no_proxy"))}

    def test_the_counters(self) -> None:
        self.write("not allowed gate 8 12 barrier-7", "not allowed rate 7 40 barrier-7", "not allowed rule 0 3 gate-70",
                   'not allowed gate 8 1 a"b<c>\\', "no proxy header: version 1, not 2", unit="trial.service")
        rows = {'not_allowed_total{reason="gate",rule="barrier-7"}': 12,
                'not_allowed_total{reason="rate",rule="barrier-7"}': 40, 'not_allowed_total{reason="rule",rule=""}': 3,
                'not_allowed_total{reason="gate",rule="a\\"b<c>\\\\"}': 1, "no_proxy_header_total": 1}
        made = self.export("--unit", "trial")
        # Not all lines may be read at its first look.
        made.until(no_proxy_header_total=1)
        for _ in range(3):
            self.assertEqual(self.counters(made.now()), rows)
        self.write("not allowed gate 9 5 barrier-7", begin=BEGIN + 600, unit="trial.service")
        rows['not_allowed_total{reason="gate",rule="barrier-7"}'] = 17
        made.until(**{'not_allowed_total{reason="gate",rule="barrier-7"}': 17})
        self.assertEqual(self.counters(made.now()), rows)
        # Another exporter has the same counts.
        made.end()
        self.assertEqual(self.counters(self.export("--unit", "trial.service").until(no_proxy_header_total=1)), rows)

    def test_without_a_unit_there_are_no_counters(self) -> None:
        self.write("not allowed gate 8 12 barrier-7")
        made = self.export()
        self.assertEqual(self.counters(made.now()), {})
        self.assertNotIn("door", "".join(made.said))

    def test_what_cannot_be_read_is_reported_once_and_left_out(self) -> None:
        made = self.export("--unit", "trial", logs=self.folder / "none")
        said = (f"what the server's door refused isn't known: systemd's journal in {self.folder}/none can't be read: "
                "No such file or directory\n")
        found = made.now()
        self.assertEqual((self.counters(found), found["up"], made.said.count(said)), ({}, 0, 1))
        self.write("not allowed gate 8 12 barrier-7", unit="trial.service")
        self.logs.rename(self.folder / "none")
        self.assertEqual(self.counters(made.until(**{'not_allowed_total{reason="gate",rule="barrier-7"}': 12})),
                         {'not_allowed_total{reason="gate",rule="barrier-7"}': 12, "no_proxy_header_total": 0})
        self.assertNotIn("isn't known", made.end())

    def test_the_other_metrics_are_there_without_the_package(self) -> None:
        (self.folder / "systemd.py").write_text("raise ImportError('none')\n")
        made = paged.Exporter("--server", "127.0.0.1:1", "--unit", "trial", "--logs", self.logs,
                              env={**os.environ, "PYTHONPATH": str(self.folder)})
        self.addCleanup(made.end)
        status, text = made.ask("/metrics")
        self.assertEqual((status, self.counters(watched.metrics_of(text)), watched.metrics_of(text)["up"]), (200, {}, 0))
        self.assertEqual(made.ask("/")[0], 200)
        self.assertIn("what the server's door refused isn't known: python3-systemd isn't there: apt-get install "
                      "python3-systemd, and start the exporter again\n", made.said)
        self.assertNotIn("python3-systemd", made.end())

    def options(self, *words: str) -> argparse.Namespace:
        with unittest.mock.patch.object(sys, "argv", ["bovtrila-exporter", *words]):
            return exporter.options()

    def test_the_settings_decide_what_is_read(self) -> None:
        """The unit's name is that of the server, and only a server with a door or with a header has lines to read."""
        self.write("not allowed gate 8 12 hall", unit="bovtrila@alder-1.service")
        config, found_all = self.folder / "alder-1.conf", hall(12, 8, BEGIN)
        rows: tuple[tuple[str, tuple[str, ...], Found | None], ...] = (
            ("door = d\n", (), found_all), ("proxy = yes\n", (), found_all), ("", (), None),
            ("", ("--unit", "bovtrila@alder-1"), found_all), ("door = d\n", ("--unit", "x"), Found({}, 0, 0)))
        for more, words, found in rows:
            config.write_text(SETTINGS + more)
            with (self.subTest(more, words=words), unittest.mock.patch.object(serving, "config_of", lambda *_: config),
                  contextlib.redirect_stderr(io.StringIO())):
                watch = exporter.Watch(self.options("--name", "alder-1", "--logs", str(self.logs), *words))
                watch.look()
                self.assertEqual(watch.refused, found)


class WithDoor(planted.Planted):
    """A server whose door refuses revisions."""

    def answer(self, frame: bytes) -> bytes:
        return codec.fault(codec.NOT_ALLOWED) if frame[2] == codec.REVISE else super().answer(frame)


class Pages(InAFolder):
    """The page of a running exporter."""

    def setUp(self) -> None:
        super().setUp()
        # Without a table a fare day begins at 04:30 of UTC.
        harness.begin_in_day(lambda moment: (moment - 16_200) // 86_400)

    def shown(self, server: planted.Planted) -> tuple[paged.Page, str]:
        """The page, and its text."""
        self.addCleanup(server.end)
        made = paged.Exporter("--server", server.text, "--unit", "bovtrila", "--logs", self.logs)
        self.addCleanup(made.end)
        made.whole()
        harness.until(lambda: "the server are still being read" not in made.ask("/")[1])
        return made.page(), made.ask("/")[1]

    def test_the_table_has_what_was_refused_today(self) -> None:
        now = int(time.time())
        self.write("not allowed gate 8 7 hall", begin=now - 86_400)
        self.write("not allowed gate 8 12 hall", begin=now)
        self.write("not allowed kind 0 1 <b>x</b>", begin=now + 1)
        self.write("not allowed gate 9 1000 hall", begin=now + 2)
        clock = [time.strftime("%Y-%m-%d %H:%M:%S UTC", time.gmtime(now + more)) for more in (1, 2)]
        page, text = self.shown(WithDoor())
        self.assertEqual(page.tables["door-rows"], [
            ["Rule, or name without a rule", "Reason", "Last gate", "Count", "Last report"],
            ["hall", "a gate number that isn't in the rule", "9", "1,012", clock[1]],
            ["<b>x</b>", "a kind of request that the rule doesn't allow", "", "1", clock[0]]])
        self.assertNotIn("<b>", text)

    def test_a_door_that_refused_nothing_has_one_line(self) -> None:
        self.write("opened 4")
        page, text = self.shown(WithDoor())
        self.assertEqual(page.texts["nothing-refused"], "The server has reported no refused request or connection today.")
        self.assertNotIn("door-rows", page.texts)
        self.assertIn('<a href="#door">Door</a>', text)

    def test_lines_that_cannot_be_read_are_reported(self) -> None:
        _, text = self.shown(WithDoor())
        self.assertIn(f"What the door refused today isn't known: systemd&#39;s journal in {self.logs} has no line", text)

    def test_a_server_without_a_door_has_no_such_part(self) -> None:
        self.write("not allowed gate 8 12 hall")
        page, text = self.shown(planted.Planted())
        self.assertEqual(("door" in page.texts, 'href="#door"' in text, page.texts["now"]),
                         (False, False, "✓ The server is up"))
