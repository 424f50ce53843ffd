"""The page of a running exporter over a journal that bovtrila.model has judged. No server runs, and a program that a test
can make hang or fail prints the histories."""
import concurrent.futures
import os
import pathlib
import struct
import tempfile
import time
import unittest
from collections.abc import Iterator

import harness
import paged
from bovtrila import codec, model, table_file, wire
from bovtrila.web import history as web_history, statement as web_statement
from harness import EXAMPLE

# A program that lasts 60 seconds, one that needs 8 GB, and one that fails as bovtrila does.
HANGS, NEEDS = "time.sleep(60)", "held = bytearray(8 * 2**30)"
FAILS = "sys.exit('fault journal 5 WrongTable\\n  digest of another table')"


class Running(unittest.TestCase):
    """Tests with an exporter over today's journal of a town."""

    def setUp(self) -> None:
        room = tempfile.TemporaryDirectory(prefix="page-stand-ins-")
        self.addCleanup(room.cleanup)
        self.folder = pathlib.Path(room.name)
        # The fare day that is under way at this moment, and until the end of the test.
        self.clock = model.Schedule(table_file.read(EXAMPLE))
        harness.begin_in_day(lambda moment: self.clock.stamp(moment).day)
        now = int(time.time())
        self.day = self.clock.stamp(now).day
        begin = next(moment for moment in range(now - now % 900, 0, -900) if self.clock.stamp(moment - 1).day < self.day)
        self.town = paged.Town(begin, max(now, begin + 60))
        self.town.lay(self.folder)

    def export(self, env: dict[str, str] | None = None) -> paged.Exporter:
        """An exporter over the town's journal."""
        words = ["--server", "127.0.0.1:1", "--journal", self.folder / "journal", "--table", EXAMPLE, "--program",
                 self.folder / "stand-in"]
        exporter = paged.Exporter(*words, env=env)
        self.addCleanup(exporter.end)
        return exporter


class StandIns(Running):
    """What the page shows, and what a program that fails does to it."""

    def judged(self) -> Iterator[tuple[int, ...]]:
        """The town's touches: kind, gate, card, moment, verdict and balance of each."""
        for frame, answer in zip(self.town.frames, self.town.answers):
            kind, gate, _, card, *act = struct.unpack(codec.FORMS[frame[2]], frame[2:])
            verdict, _, balance = struct.unpack(">Biq", answer[9:])
            yield kind, gate, card, act[-1], verdict, balance

    def test_the_page_has_the_numbers_of_the_model(self) -> None:
        page = self.export().whole()
        today = [touch for touch in self.judged() if self.clock.stamp(touch[3]).day == self.day]
        self.assertEqual(page.texts["touches-today"], f"{len(today):,}")
        self.assertEqual(page.texts["room"], f"{1000 - len(self.town.frames):,}")
        counts = {kind: sum(touch[0] == kind for touch in today) for kind in (codec.ENTER, codec.LEAVE)}
        rows = page.tables.get("quarter-rows", [[]])[1:]
        self.assertEqual([sum(int(row[place]) for row in rows) for place in (1, 2)], list(counts.values()))
        refused = sum(touch[4] >= wire.FIRST_REFUSAL for touch in today)
        self.assertEqual(sum(int(row[1]) for row in page.tables.get("refusals", [[]])[1:]), refused)
        # Early in the day not every gate has a touch.
        gates = sorted({touch[1] for touch in self.judged()} & set(range(1, 8)))
        for gate, row in zip(gates, page.tables["gate-rows"][1:]):
            own = [touch for touch in today if touch[1] == gate]
            self.assertEqual((row[0], row[2], row[3]), (str(gate), str(len(own)),
                                                        str(sum(touch[4] >= wire.FIRST_REFUSAL for touch in own))))
        self.assertIn("Connection refused", page.texts["why"])

    def test_the_touches_of_a_card_are_opened(self) -> None:
        exporter = self.export()
        for card in (1, 7, 40):
            own = [touch for touch in self.judged() if touch[2] == card]
            page = exporter.page(f"/touches?number={card}")
            self.assertEqual((page.texts["balance"].replace("£", "").replace(".", ""), page.texts["count"]),
                             (str(own[-1][5]), str(len(own))))
            self.assertEqual([row[-1] for row in page.tables["touches"][1:]], [str(touch[5]) for touch in reversed(own)])
        page = exporter.page("/touches")
        self.assertNotIn("balance", page.texts)
        page = exporter.page("/touches?number=999")
        self.assertIn("no touch of this card", page.texts["none"])

    def test_hostile_numbers_reach_no_command(self) -> None:
        (self.folder / "stand-in").write_text(f"#!/bin/sh\ntouch {self.folder}/called\n")
        exporter = self.export()
        for query in ("number=-1", "number=--table", "number=7;touch", "number=7%00", "number=7&number=8", "x=7",
                      "number=<b>", "number=99999999999", "number=%F0%9F%98%80", "number"):
            for path in ("/card", "/touches"):
                status, text = exporter.ask(f"{path}?{query}")
                self.assertEqual((status, "<b>" in text), (400, False), query)
        self.assertEqual(exporter.ask("/?refresh=now")[0], 400)
        self.assertFalse((self.folder / "called").exists())

    def test_a_program_that_fails_or_takes_too_much_is_reported(self) -> None:
        exporter = self.export()
        for line, said in ((FAILS, "fault journal 5 WrongTable; digest of another table"), (NEEDS, "MemoryError")):
            paged.stand_in(self.folder, begin=line)
            for path in ("/card", "/touches"):
                status, text = exporter.ask(f"{path}?number=1")
                self.assertEqual(status, 500)
                self.assertIn(said, paged.Page(text).texts["fault"])
        paged.stand_in(self.folder, end="sys.stdout.write('1,2,3')")
        for path, what in (("/card", "statement"), ("/touches", "history")):
            self.assertIn(f"isn&#39;t a {what}", exporter.ask(f"{path}?number=1")[1])
        # The metrics, and the rest of the page, are there all the same.
        exporter.whole()
        self.assertIn("Today's touches aren't known", exporter.ask("/")[1])
        self.assertEqual(exporter.ask("/metrics")[0], 200)

    def test_a_program_that_hangs_is_ended(self) -> None:
        source = web_history.Source(str(paged.stand_in(self.folder, begin=HANGS)), str(self.folder / "journal"),
                                    [str(EXAMPLE)], 0.3)
        for command, read in (("history", web_history.touches_of), ("statement", web_statement.statement_of)):
            begun = time.monotonic()
            with self.assertRaisesRegex(wire.Wrong, f"bovtrila {command} took more than 0.3 seconds"):
                read(source, 1)
            self.assertLess(time.monotonic() - begun, 20)

    def test_two_cards_are_read_at_once_and_no_more(self) -> None:
        """Others wait, and are refused after some seconds."""
        note = f"open({str(self.folder / 'log')!r}, 'a').write"
        paged.stand_in(self.folder, begin=f"{note}('+')\ntime.sleep(0.6)", end=f"{note}('-')")
        exporter = self.export()
        with concurrent.futures.ThreadPoolExecutor(6) as pool:
            found = list(pool.map(lambda card: exporter.ask(f"/card?number={card}")[0], range(1, 7)))
        marks = (self.folder / "log").read_text()
        self.assertLessEqual(set(found), {200, 503})
        self.assertEqual((marks.count("+"), marks.count("-")), (found.count(200),) * 2)
        self.assertEqual(max(marks[:place].count("+") - marks[:place].count("-") for place in range(len(marks) + 1)), 2)

    def test_many_readers_share_one_reading(self) -> None:
        paged.stand_in(self.folder, begin=f"open(f'{self.folder}/run-{{time.time_ns()}}', 'w')")
        exporter = self.export()
        with concurrent.futures.ThreadPoolExecutor(50) as pool:
            found = list(pool.map(lambda _: exporter.ask("/")[0], range(200)))
        exporter.whole()
        self.assertEqual(found, [200] * 200)
        self.assertEqual(len(list(self.folder.glob("run-*"))), 1)

    def test_without_a_program_or_a_table_the_reason_is_shown(self) -> None:
        exporter = paged.Exporter("--server", "127.0.0.1:1", "--journal", self.folder / "journal")
        self.addCleanup(exporter.end)
        exporter.whole()
        self.assertIn("name them by --journal and --table", exporter.ask("/")[1])
        exporter = paged.Exporter("--server", "127.0.0.1:1")
        self.addCleanup(exporter.end)
        self.assertEqual(exporter.whole().texts["touches-today"], "?")

    def test_metrics_are_served_without_the_library_of_templates(self) -> None:
        (self.folder / "jinja2.py").write_text("raise ImportError('none')\n")
        exporter = self.export(env={**os.environ, "PYTHONPATH": str(self.folder)})
        status, text = exporter.ask("/")
        self.assertEqual((status, "apt-get install python3-jinja2" in text), (503, True))
        self.assertEqual((exporter.ask("/metrics")[0], exporter.ask("/health")[0]), (200, 503))
