"""The pages of bovtrila-exporter, made from facts: their numbers, their warnings, and that each value is escaped."""
import dataclasses
import datetime
import pathlib
import re
import socket
import subprocess
import tempfile
import unittest
import unittest.mock
import zoneinfo
from collections.abc import Mapping, Sequence
from typing import Any

import paged
from bovtrila import codec, layout, overview, table_file, wire
from bovtrila.day_charts import Pence
from bovtrila.day_page import Stations
from bovtrila.door_reports import Found, Refused
from bovtrila.history_rows import Row
from bovtrila.journal_view import Journal, Tables
from bovtrila.web import facts as web_facts, history as web_history, view as web_view
from bovtrila.web.facts import Gate, Now, Since, Slots
from bovtrila.web.history import Day, Touches
from harness import EXAMPLE, TOP

# Monday 2025-01-06 at 04:30, when a fare day begins in London, and half past two on its afternoon.
BEGIN, NOW = 1736137800, 1736173800
LONDON = zoneinfo.ZoneInfo("Europe/London")
HOSTILE = "<script>alert(1)</script>\"'&--><img src=x onerror=alert(1)>"
FOUND = {**overview.nothing(NOW), "server": "bovtrila", "address": "127.0.0.1:4014", "answers": True, "up": True,
         "touches": 4321, "room": 95679, "capacity": 100000, "cards": 1000, "cards_inside": 17, "days_until_full": 22.2,
         "full_on": "2025-01-28"}


def pages(names: Mapping[int, str] = {}) -> web_view.Pages:
    return web_view.Pages(LONDON, Stations(names.items()), 15)


def now_of(**changes: Any) -> Now:
    found = {**FOUND, **changes.pop("found", {})}
    gates = [Gate(7, "number 4, touch out, 2025-01-06T14:20:00Z, 10 minutes ago", -600.0)]
    made = Now(NOW, found, [("touches", "4,321")], Since(BEGIN, False), "2025-01-06", 1234, Slots(8, 3, 0), gates, [])
    return dataclasses.replace(made, **changes)


def day_of(**changes: Any) -> Day:
    counts = [0] * 96
    ins, outs = [*counts], [*counts]
    ins[13], ins[14], outs[15] = 40, 7, 20
    return dataclasses.replace(Day("2025-01-06", NOW, 0.1, {"in": ins, "out": outs}, [("Touches of cards", "67")],
                                   [("no such station", 9), ("the balance is below the entry minimum", 3)],
                                   [("touch out: no touch in before it", 2, Pence(1800))], {7: (60, 12)}, []), **changes)


class Views(unittest.TestCase):
    """The pages, over facts that are written here."""

    def shown(self, now: Now | None, day: Day | None, trouble: str | None = None) -> paged.Page:
        return paged.Page(pages().station(now, day, trouble))

    def test_the_page_has_the_numbers_of_its_facts(self) -> None:
        page = self.shown(now_of(), day_of())
        self.assertEqual({name: page.texts[name] for name in ("touches-today", "room", "slots", "inside")},
                         {"touches-today": "1,234", "room": "95,679", "slots": "3 of 8", "inside": "17"})
        self.assertEqual(page.tables["facts"], [["touches", "4,321"]])
        self.assertEqual(page.numbers("quarter-rows"), {"From": ["In", "Out"], "07:45": ["40", "0"], "08:00": ["7", "0"],
                                                        "08:15": ["0", "20"]})
        self.assertEqual(page.numbers("refusals"), {"Reason": ["Touches"], "no such station": ["9"],
                                                    "the balance is below the entry minimum": ["3"]})
        self.assertEqual(page.numbers("maxima")["touch out: no touch in before it"], ["2", "£18.00"])
        self.assertEqual(page.tables["gate-rows"][1][:5], ["7", "⚠ many refusals", "60", "12", "20 %"])

    def test_each_value_is_escaped(self) -> None:
        """Whatever a journal, a table, a log or a program says, no element or attribute more is on the page."""
        refused = Found({("x", "gate"): Refused(1, 7, "x", NOW)}, 0, 0)
        plain = self.shown(now_of(found={"up": False, "why": "x"}, warnings=["x"], refused=refused),
                           day_of(notes=["x"]), "x")
        gates = [Gate(7, HOSTILE, 0.0)]
        found = {"up": False, "why": HOSTILE, "server": HOSTILE, "address": HOSTILE}
        refused = Found({(HOSTILE, "gate"): Refused(1, 7, HOSTILE, NOW)}, 0, 0)
        page = pages().station(now_of(found=found, gates=gates, rows=[(HOSTILE, HOSTILE)], warnings=[HOSTILE],
                                      refused=refused),
                               day_of(notes=[HOSTILE], refusals=[(HOSTILE, 1)], maxima=[(HOSTILE, 1, Pence(1))],
                                      figures=[(HOSTILE, HOSTILE)]), HOSTILE)
        self.assertEqual((paged.Page(page).kinds, paged.Page(page).attributes), (plain.kinds, plain.attributes))
        self.assertNotIn("<script", page)
        self.assertGreater(page.count("&lt;script&gt;"), 10)
        row = Row(0, NOW, "2025-01-06", 7, 1, 1, "in", "2", "", HOSTILE, 0, 0)
        touches = Touches(1, [row], 2, Pence(0), Pence(0), Pence(0), True)
        card = pages({2: HOSTILE}).card("/touches", HOSTILE, touches, None, HOSTILE)
        self.assertNotIn("<script", card)
        self.assertEqual(card.count("&lt;script&gt;"), 4)

    def test_what_the_door_refused_is_shown_with_the_last_report_first(self) -> None:
        refused = {("barrier 7", "gate"): Refused(1012, 65_535, "barrier 7", NOW - 60),
                   ("", "rule"): Refused(3, 0, "gate-70", NOW - 1), ("*", "kind"): Refused(1, 0, "*", BEGIN)}
        page = self.shown(now_of(refused=Found(refused, 2, NOW - 30)), None)
        self.assertEqual(page.tables["door-rows"][1:], [
            ["gate-70", "a connection whose name has no rule", "", "3", "2025-01-06 14:29:59 GMT"],
            ["", "connections without HAProxy's header", "", "2 or more", "2025-01-06 14:29:30 GMT"],
            ["barrier 7", "a gate number that isn't in the rule", "65535", "1,012", "2025-01-06 14:29:00 GMT"],
            ["*", "a kind of request that the rule doesn't allow", "", "1", "2025-01-06 04:30:00 GMT"]])
        page = self.shown(now_of(refused=Found({}, 0, 0)), None)
        self.assertEqual(("door-rows" in page.texts, page.texts["nothing-refused"]),
                         (False, "The server has reported no refused request or connection today."))
        page = self.shown(now_of(unread=HOSTILE), None)
        self.assertEqual([name in page.texts for name in ("door", "door-rows", "nothing-refused")], [True, False, False])
        # A server without a door has no such part.
        self.assertNotIn("door", self.shown(now_of(), None).texts)

    def test_what_is_not_known_is_shown_so(self) -> None:
        page = self.shown(None, None)
        self.assertNotIn("touches-today", page.texts)
        page = self.shown(now_of(slots=None, today=None, found={"touches": None, "cards_inside": None}), None, "no table")
        self.assertEqual([page.texts[name] for name in ("touches-today", "slots", "inside")], ["?", "not known", "?"])
        self.assertNotIn("quarters", page.texts)
        self.assertEqual(page.tables["gate-rows"][1][:4], ["7", "", "?", "?"])
        # The touches of another fare day aren't shown as today's.
        self.assertNotIn("quarters", self.shown(now_of(day="2025-01-07"), day_of()).texts)

    def test_a_server_that_is_down_is_seen_first(self) -> None:
        text = pages().station(now_of(found={"up": False, "why": "it is halted"}), None, None)
        self.assertIn("<title>DOWN: bovtrila</title>", text)
        self.assertEqual(paged.Page(text).texts["why"], "it is halted")

    def test_it_refreshes_itself_unless_that_is_off(self) -> None:
        self.assertIn('<meta http-equiv="refresh" content="15">', pages().station(now_of(), None, None))
        self.assertNotIn("http-equiv", pages().station(now_of(), None, None, False))

    def test_the_bars_are_as_long_as_their_numbers(self) -> None:
        """In above the middle and out below it: the largest number fills its half, and half of it half of that."""
        chart = web_view.chart(day_of().touches["in"], day_of().touches["out"])
        bars = {bar.words: bar for bar in chart.bars}
        self.assertEqual(set(bars), {"07:45: 40 in", "08:00: 7 in", "08:15: 20 out"})
        self.assertEqual([(bars[name].y, bars[name].height) for name in ("07:45: 40 in", "08:15: 20 out")],
                         [(0, chart.half), (chart.middle, chart.half / 2)])
        self.assertTrue(all(chart.left <= bar.x and bar.x + bar.width <= chart.width for bar in chart.bars))
        self.assertEqual([row.length for row in web_view.lengths([("a", 8, ""), ("b", 2, ""), ("c", 0, "")])], [100, 25, 0])
        self.assertEqual(web_view.chart([0] * 96, [0] * 96).bars, [])

    def test_a_gate_is_remarked(self) -> None:
        rows: tuple[tuple[int, int, float, bool, list[str]], ...] = (
            (0, 9, 0, True, []), (5, 25, 0, True, ["many refusals"]), (4, 4, 0, True, []), (5, 26, 0, True, []),
            (0, 0, 0, True, ["no touch today"]), (0, 0, 0, False, []), (0, 9, 299, True, []),
            (0, 9, 300, True, ["clock ahead"]))
        for refused, touches, ahead, is_known, said in rows:
            self.assertEqual(web_view.remarks_of(refused, touches, ahead, is_known), said, (refused, touches, ahead))

    def test_a_card_with_more_touches_than_a_page_has_names_the_command(self) -> None:
        row = Row(0, NOW, "2025-01-06", 7, 1, 1, "top-up", "", "100", "ToppedUp", 100, 100)
        found = Touches(1, [row] * 3, 5, Pence(100), Pence(500), Pence(400), False)
        page = pages().card("/touches", "1", found, None, "bovtrila history --card 1")
        self.assertIn("The newest 3 touches are here. This command prints all: <code>bovtrila history", page)
        self.assertEqual(paged.Page(page).texts["balance"], "£1.00")


class Picture(unittest.TestCase):
    """The pictures of pages in the documents."""

    def test_each_is_that_of_todays_page_and_is_shown(self) -> None:
        done = subprocess.run([TOP / "scripts" / "dev" / "page-picture", "--check"], capture_output=True, text=True)
        self.assertEqual((done.returncode, done.stderr), (0, ""))
        for name, page in (("page", "OPERATING"), ("statement", "OPERATING"), ("report", "AUDIT")):
            found, = (TOP / "docs").glob(f"**/{page}.md")
            self.assertRegex(found.read_text(), rf"\]\((?:\.\./)?pictures/{name}\.png\)\n")
            self.assertLess((TOP / "docs" / "pictures" / f"{name}.png").stat().st_size, 60_000)


class Facts(unittest.TestCase):
    """What is worked out of a journal and of the system's files."""

    def setUp(self) -> None:
        room = tempfile.TemporaryDirectory(prefix="page-views-")
        self.addCleanup(room.cleanup)
        self.folder = pathlib.Path(room.name)

    def journal(self, moments: Sequence[int]) -> Journal:
        frames = [codec.touch(codec.TOP_UP, 7, number, 1, 1, moment) for number, moment in enumerate(moments)]
        (self.folder / "journal").write_bytes(layout.journal_of(frames, 1000, 10, bytes(32)))
        journal = Journal(str(self.folder / "journal"))
        journal.read()
        return journal

    def test_touches_count_on_their_fare_day(self) -> None:
        """It begins at 04:30 of the station's clock."""
        tables = Tables([EXAMPLE])
        journal = self.journal([BEGIN - 1, BEGIN, NOW, NOW + 900, BEGIN + 86_399, BEGIN + 86_400])
        for now, count in ((NOW, 4), (BEGIN - 1, 1), (BEGIN, 4), (BEGIN + 86_400, 1), (BEGIN + 3 * 86_400, 0)):
            self.assertEqual(web_facts.today(journal, tables, now), count, now)

    def test_the_balances_of_the_journal_before_are_no_touches_of_a_day(self) -> None:
        begun = [codec.touch(codec.ISSUE, 65_535, 1, 1, NOW), codec.touch(codec.TOP_UP, 65_535, 2, 1, 1000, NOW)]
        later = [codec.touch(codec.TOP_UP, 7, 1, 1, 1, NOW), codec.touch(codec.TOP_UP, 65_535, 3, 1, 1000, NOW)]
        gates = {"gates": [{"gate": gate, "number": 1, "kind": "top-up", "moment": "2025-01-06T08:25:00Z"}
                           for gate in (7, 65_535)]}
        for frames, count, cards, own in (([*begun, *later], 2, {1: 1}, [7]), (begun, 0, {1: 1}, [7]),
                                          (later, 2, {}, [7, 65_535])):
            (self.folder / "journal").write_bytes(layout.journal_of(frames, 1000, 10, bytes(32)))
            journal = Journal(str(self.folder / "journal"))
            journal.read()
            self.assertEqual((web_facts.today(journal, Tables([EXAMPLE]), NOW), journal.carried.top_ups), (count, cards))
            self.assertEqual([gate.number for gate in web_facts.gates_of(gates, journal, NOW)], own)

    def test_slots_are_the_connections_at_the_servers_port(self) -> None:
        with socket.create_server(("127.0.0.1", 0)) as server, socket.create_connection(server.getsockname()) as own:
            port, here = server.getsockname()[1], own.getsockname()[1]
            row = "   0: 0100007F:{:04X} 0100007F:{:04X} {} 00000000:00000000 00:00000000 00000000 0 0 1\n"
            rows = [(port, 0, "0A"), (port, here, "01"), (here, port, "01"), (port, 5, "01"), (port, 6, "08"),
                    (port, 7, "06"), (port + 1, 8, "01")]
            (self.folder / "tcp").write_text("heading\n" + "".join(row.format(*each) for each in rows))
            files = [str(self.folder / "tcp"), str(self.folder / "none")]
            for lines, found in ((8, Slots(8, 3, 0)), (3, Slots(3, 3, 0)), (2, Slots(2, 2, 1)), (None, Slots(None, 3, 0))):
                self.assertEqual(web_facts.slots_of(own, lines, files), found)
            # The system's own list has this connection too.
            self.assertEqual(web_facts.slots_of(own, 8), Slots(8, 1, 0))
            (self.folder / "tcp").write_text("heading\n" + row.format(port, 5, "01"))
            self.assertIsNone(web_facts.slots_of(own, 8, files), "a server of another machine")

    def test_warnings(self) -> None:
        gate = Gate(9, "..", 720.0)
        (self.folder / "next-journal.failed").touch()
        found = {"notes": ["a note"], "copy_age_seconds": None, "seal_age_seconds": 259_200, "remote_copy_age_seconds": 60}
        said = web_facts.warnings_of(found, [gate, Gate(7, "..", 299.0)], Slots(8, 8, 2), self.folder)
        self.assertEqual(said, ["a note", "the clock of gate 9 is ahead of this machine's clock by 12 minutes or more",
                                "there is no copy of the journal", "the newest seal of the journal is 3 days old",
                                "all 8 slots of connections are in use, and 2 connections wait",
                                "the last unattended change to a new journal failed: the server runs on the old journal"])
        self.assertEqual(web_facts.warnings_of({"notes": [], "copy_age_seconds": 86_400}, [], Slots(8, 8, 0), None), [])

    def test_copies_are_late_when_the_alerts_are(self) -> None:
        text = (TOP / "packaging" / "alerts.yml").read_text()
        for name, age in (("copy", web_facts.COPY_AGE), ("seal", web_facts.COPY_AGE), ("remote_copy", web_facts.REMOTE_AGE)):
            self.assertEqual(re.findall(rf"expr: bovtrila_{name}_age_seconds > (\d+)", text), [str(age)])

    def test_the_reason_is_the_last_one_of_the_log(self) -> None:
        tool = self.folder / "journalctl"
        tool.write_text("#!/bin/sh\necho opened 3; echo halted 3; echo '  journal: no room on the disk'; echo listening\n")
        tool.chmod(0o755)
        with unittest.mock.patch.dict("os.environ", {"PATH": f"{self.folder}:/usr/bin:/bin"}):
            self.assertEqual(web_facts.reason_of("bovtrila"), "halted 3: journal: no room on the disk")
            self.assertIsNone(web_facts.reason_of(None))
            tool.write_text("#!/bin/sh\necho listening 127.0.0.1:1\n")
            self.assertIsNone(web_facts.reason_of("bovtrila"))

    def test_a_tables_zone_is_its_clock(self) -> None:
        zone = web_history.zone_of(table_file.read(EXAMPLE).table["zone"])
        for moment in range(1_700_000_000, 1_800_000_000, 999_983):
            ours, londons = (datetime.datetime.fromtimestamp(moment, each) for each in (zone, LONDON))
            self.assertEqual(f"{ours:%c %Z}", f"{londons:%c %Z}")
        with self.assertRaises(wire.Wrong):
            web_history.zone_of("no zone")
