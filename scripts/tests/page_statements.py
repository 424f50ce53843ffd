"""The statement of a card on the page of bovtrila-exporter: its lines are those of the text that `bovtrila statement`
prints, worked out by hand, by the model, by the built program, and in a real browser."""
import json
import pathlib
import shutil
import subprocess
import tempfile
import unittest
import unittest.mock
import zoneinfo
from typing import Any

import harness
import page_browser
import page_stand_ins
import paged
from bovtrila import codec, layout, table_file, wire
from bovtrila.day_page import Stations
from bovtrila.journal_view import date
from bovtrila.web import history as web_history, statement as web_statement, view as web_view
from harness import EXAMPLE, PROGRAM, REVISED, TIME
from statement_examples import EXAMPLES, station_of
from statement_forms import Forms
from statement_model import statement

LONDON = zoneinfo.ZoneInfo("Europe/London")
HOSTILE = "<script>alert(1)</script>\"'&--><img src=x onerror=alert(1)>"
# What the page leaves out of a day without a journey.
NO_JOURNEY = "      0.00  fares\n            no daily cap\n      0.00  journeys\n"
# A program that prints without end.
PRINTS = "while True: sys.stdout.write('[' * 65536)"


def amount(text: str) -> str:
    """An amount of the page, as it begins a line of the text."""
    return text.replace("−", "-").replace("£", "").replace(",", "").rjust(10) + "  "


def line_of(cells: list[str]) -> str:
    """A line of the text by the cells of a row of the page."""
    *words, pence = (" ".join(cell.split()) for cell in cells)
    if len(words) == 4:
        clock, route, zones, band = words
        return f"{amount(pence)}{clock}  {zones}  {band}: {route}"
    return amount(pence) + "  ".join(words)


def days_of(page: paged.Page) -> str:
    """The days of a page, the oldest first, as the text has them."""
    names = [name for name in page.tables if name.startswith("day-")]
    return "\n".join("".join(f"{line}\n" for line in [name.removeprefix("day-"), *map(line_of, page.tables[name])])
                     for name in reversed(names))


def sums_of(page: paged.Page) -> str:
    """The sums of a page, as the text has them."""
    return "".join(f"{amount(page.texts[name])}{name.replace('-', ' ')}\n" for name in ("paid-in", "charged", "balance"))


def parts_of(text: str) -> tuple[str, str]:
    """The days of a text, without what a page leaves out, and its sums."""
    *days, sums = text.replace(NO_JOURNEY, "").split("\n\n")
    return "\n".join(f"{day}\n" for day in days[1:] if day[0].isdigit()), sums


def pages() -> web_view.Pages:
    return web_view.Pages(LONDON, Stations([(1, "Alder"), (2, "Birch")]), 15)


class Worked(unittest.TestCase):
    """The page, over statements that are written here."""

    def shown(self, found: dict[str, Any]) -> paged.Page:
        return paged.Page(pages().card("/card", "1", web_statement.read(found), None, "bovtrila statement"))

    def test_the_page_has_the_lines_that_were_worked_out(self) -> None:
        for example in EXAMPLES:
            if example.options:
                continue
            with self.subTest(example.about):
                station = station_of(example.touches)
                page = self.shown(Forms(station.schedule).json(statement(station, 1)))
                days, sums = parts_of(example.text)
                self.assertEqual((days_of(page), sums_of(page)), (days, sums))
                self.assertEqual(page.texts["state"], "inside" if station.cards[1].state() == 2 else "outside")
                self.assertEqual("none" in page.texts, not days)

    def test_top_ups_and_refused_touches_are_the_newest_first(self) -> None:
        example = next(each for each in EXAMPLES if each.about == "each refusal")
        station = station_of(example.touches)
        page = self.shown(Forms(station.schedule).json(statement(station, 1)))
        self.assertEqual(page.tables["top-ups"], [["2025-01-06 07:01:00 GMT", "£20.00"]])
        card, no_amount = "no such card, or it wasn't issued", "no amount that can be paid in"
        self.assertEqual(page.tables["refused"], [["2025-01-06 " + row[0], *row[1:]] for row in (
            ["08:24:59 GMT", "touch out at Alder (1)", "earlier than the card's last touch in or out"],
            ["07:02:00 GMT", "touch in at station 9", "no such station"],
            ["07:00:00 GMT", "touch in at Birch (2)", "the balance is below the entry minimum"],
            ["06:30:00 GMT", "top-up of £500.01", no_amount], ["06:30:00 GMT", "top-up of £0.00", no_amount],
            ["06:30:00 GMT", "top-up of £90.01", "above the balance limit"],
            ["06:31:00 GMT", "issue", "the card was issued before"], ["04:30:00 GMT", "touch in at Birch (2)", card])])

    def test_each_value_is_escaped(self) -> None:
        """Whatever a table or the program says, no element or attribute more is on the page."""
        station = station_of(EXAMPLES[0].touches)
        found = Forms(station.schedule).json(statement(station, 1))
        found["refused"] = [{"day": "2025-01-06", "moment": "2025-01-06T08:00:00Z", "verdict": "x", "act": "x", "station": 2,
                             "pence": None}]
        plain = pages().card("/card", "1", web_statement.read(found), None, "x")
        text = json.dumps(found).replace('"Birch"', json.dumps(HOSTILE)).replace('"x"', json.dumps(HOSTILE))
        hostile = web_view.Pages(LONDON, Stations([(2, HOSTILE)]), 15).card(
            "/card", "1", web_statement.read(json.loads(text)), None, HOSTILE)
        self.assertEqual((paged.Page(hostile).kinds, paged.Page(hostile).attributes),
                         (paged.Page(plain).kinds, paged.Page(plain).attributes))
        self.assertNotIn("<script", hostile)
        self.assertEqual(hostile.count("&lt;script&gt;"), 8)
        fault = pages().card("/card", HOSTILE, None, HOSTILE, None)
        self.assertEqual(("<script" in fault, fault.count("&lt;script&gt;")), (False, 2))

    def test_the_newest_days_are_shown_and_the_command_is_named(self) -> None:
        example = next(each for each in EXAMPLES if each.about == "a revision between two days")
        station = station_of(example.touches)
        with unittest.mock.patch.object(web_statement, "SHOWN", 1):
            found = web_statement.read(Forms(station.schedule).json(statement(station, 1)))
        text = pages().card("/card", "1", found, None, "bovtrila statement")
        page = paged.Page(text)
        self.assertEqual([name for name in page.tables if name.startswith("day-")], ["day-2025-01-07"])
        self.assertIn("The newest 1 of 2 fare days are here. The command below prints all.", text)
        # The sums are those of all days.
        self.assertEqual((page.texts["charged"], page.texts["command"]), ("£10.20", "bovtrila statement"))

    def test_what_is_no_statement_is_refused(self) -> None:
        station = station_of(EXAMPLES[0].touches)
        found = Forms(station.schedule).json(statement(station, 1))
        wrong: list[Any] = [[], 7, None, {}, {**found, "days": 7}, {**found, "days": [{}]}, {**found, "balance": "x"},
                            {**found, "top_ups": [{"pence": 1, "moment": "today"}]}]
        for each in wrong:
            with unittest.mock.patch.object(web_statement, "printed", lambda *_: json.dumps(each).encode()):
                with self.subTest(str(each)[:40]), self.assertRaisesRegex(wire.Wrong, "printed isn't a statement"):
                    web_statement.statement_of(web_history.Source("none", "none", ["none"]), 1)


class Statements(page_stand_ins.Running):
    """The page of a running exporter, by a program in the place of bovtrila."""

    def test_the_statements_are_those_of_the_model(self) -> None:
        exporter, forms = self.export(), Forms(self.town.station.schedule)
        for number in (1, 7, 9, 40):
            page = exporter.page(f"/card?number={number}")
            days, sums = parts_of(forms.text(statement(self.town.station, number)))
            self.assertEqual((days_of(page), sums_of(page)), (days, sums), number)
            self.assertIn(f"statement --table {EXAMPLE} --journal", page.texts["command"])
            self.assertIn(f"--card {number} --format text", page.texts["command"])
        self.assertNotIn("balance", exporter.page("/card").texts)

    def test_an_unknown_card_is_told_in_words(self) -> None:
        exporter = self.export()
        found = json.loads((self.folder / "statements.json").read_text())
        del found["statements"]["5"]
        (self.folder / "statements.json").write_text(json.dumps(found))
        above = "no card has the number {}: the cards of this server have the numbers 1 to {}"
        for number, said in ((5, "card 5 was never issued: this journal has no accepted issue of it"),
                             (41, above.format(41, 40)), (0, above.format(0, 100_000)),
                             (100_001, above.format(100_001, 100_000)), (4294967295, above.format(4294967295, 100_000))):
            status, text = exporter.ask(f"/card?number={number}")
            self.assertEqual((status, paged.Page(text).texts["fault"]), (404, said))
            self.assertNotIn("balance", paged.Page(text).texts)

    def test_a_statement_without_end_is_ended(self) -> None:
        program = str(paged.stand_in(self.folder, begin=PRINTS))
        source = web_history.Source(program, str(self.folder / "journal"), [str(EXAMPLE)])
        with self.assertRaisesRegex(wire.Wrong, "of more than 1,000 bytes is too long for this page"):
            web_statement.printed(source, web_statement.words_of(source, 1, "json"), 1000)


class Printed(page_stand_ins.Running):
    """The page of a running exporter over the built program: each line is one that the command prints."""

    def setUp(self) -> None:
        if not PROGRAM.is_file():
            raise FileNotFoundError(f"{PROGRAM} isn't there: run 'rt run' in crates/tap_server, or 'rt ci'")
        super().setUp()
        self.exporter = self.started()

    def started(self) -> paged.Exporter:
        """An exporter over the journal that is there."""
        exporter = paged.Exporter("--server", "127.0.0.1:1", "--journal", self.folder / "journal", "--table", EXAMPLE,
                                  "--program", PROGRAM)
        self.addCleanup(exporter.end)
        return exporter

    def text(self, number: int) -> str:
        """What the command prints of a card of the town."""
        words = ["statement", "--table", str(EXAMPLE), "--journal", str(self.folder / "journal"), "--card", str(number)]
        status, out, err = harness.run_whole(words)
        self.assertEqual((status, err), (0, ""))
        return out.decode()

    def test_each_line_is_the_commands(self) -> None:
        for number in range(1, 41):
            page = self.exporter.page(f"/card?number={number}")
            self.assertEqual((days_of(page), sums_of(page)), parts_of(self.text(number)), number)
            said = subprocess.run(page.texts["command"], shell=True, capture_output=True, text=True, timeout=TIME)
            self.assertEqual(said.stdout, self.text(number))

    def test_a_browser_shows_each_line_of_the_command(self) -> None:
        if shutil.which("chromium") is None:
            self.skipTest("the page in a browser: chromium isn't installed")
        for number in (1, 7, 9):
            url = "http://%s:%d/card?number=%d" % (*self.exporter.address, number)
            with tempfile.TemporaryDirectory(prefix="page-statements-") as room:
                page = paged.Page(page_browser.browse(pathlib.Path(room), url, "--dump-dom"))
            self.assertEqual((days_of(page), sums_of(page)), parts_of(self.text(number)), number)
            self.assertFalse(page.kinds & {"script", "iframe", "object", "embed", "img"})

    def test_a_journal_that_follows_another_one(self) -> None:
        """The balances that it began with are paid in by nobody, and are no touches of today."""
        at = self.town.begin + 60
        frames = [codec.touch(codec.ISSUE, 65_535, 1, 1, at), codec.touch(codec.TOP_UP, 65_535, 2, 1, 5000, at),
                  codec.touch(codec.TOP_UP, 65_535, 3, 1, 1000, at), codec.touch(codec.ISSUE, 65_535, 4, 2, at),
                  codec.touch(codec.ISSUE, 7, 1, 3, at), codec.touch(codec.TOP_UP, 7, 2, 1, 500, at)]
        (self.folder / "journal").write_bytes(layout.journal_of(frames, 1000, 40, table_file.read(EXAMPLE).digest))
        exporter = self.started()
        for number, paid, balance, begun, top_ups in (
                (1, "£5.00", "£65.00", "£60.00", ["£5.00"]), (2, "£0.00", "£0.00", "£0.00", []),
                (3, "£0.00", "£0.00", None, [])):
            page = exporter.page(f"/card?number={number}")
            self.assertEqual((page.texts["paid-in"], page.texts["balance"]), (paid, balance))
            self.assertEqual([row[1] for row in page.tables.get("top-ups", [])], top_ups)
            said = f" with a balance of {begun} from the journal before. Charges from before are in that journal."
            self.assertEqual(page.texts.get("begun", "").endswith(said), begun is not None)
            self.assertIn("The card was charged nothing" + (" in this journal." if begun else "."), page.texts["none"])
            touches = exporter.page(f"/touches?number={number}")
            self.assertEqual((touches.texts["paid"], "begun" in touches.texts), (paid, begun is not None))
        page = exporter.whole()
        self.assertEqual((page.texts["touches-today"], "begun" in page.texts), ("2", True))
        self.assertEqual([row[:4] for row in page.tables["gate-rows"][1:]], [["7", "", "2", "0"]])
        self.assertEqual(page.numbers("figures")["Paid in"], ["£5.00"])

    def test_touches_of_other_days_may_lie_between_those_of_a_day(self) -> None:
        """A late touch of a gate, of the day before, and a revision for a later day: `history --day` leaves both out."""
        town = paged.Town(self.town.begin - 7 * paged.DAY, self.town.begin - 6 * paged.DAY)
        digest, number = table_file.read(EXAMPLE).digest, self.day - 7
        source = web_history.Source(str(PROGRAM), str(self.folder / "journal"), [str(EXAMPLE), str(REVISED)])
        between = [codec.touch(codec.TOP_UP, 8, 1, 1, 500, town.begin - 7200),
                   codec.touch(codec.REVISE, 65_535, 1, 0, table_file.read(REVISED).digest, number + 9, town.begin)]
        found, at = [], len(town.frames) // 2
        for frames in (town.frames, [*town.frames[:at], *between, *town.frames[at:]]):
            (self.folder / "journal").write_bytes(layout.journal_of(frames, 1000, town.cards, digest))
            found.append(web_history.day_of(source, date(number), LONDON))
        before, after = found
        self.assertGreater(sum(sum(counts) for counts in before.touches.values()), 100)
        self.assertEqual((after.touches, after.figures, after.refusals, after.maxima, after.gates),
                         (before.touches, before.figures, before.refusals, before.maxima, before.gates))

    def test_a_card_that_the_program_does_not_know(self) -> None:
        journal = layout.journal_of(self.town.frames[1:], 1000, 40, table_file.read(EXAMPLE).digest)
        (self.folder / "journal").write_bytes(journal)
        card = int.from_bytes(self.town.frames[0][9:13], "big")
        for number, said in ((card, f"card {card} was never issued"), (41, "no card has the number 41")):
            status, text = self.exporter.ask(f"/card?number={number}")
            self.assertEqual(status, 404)
            self.assertIn(said, paged.Page(text).texts["fault"])
