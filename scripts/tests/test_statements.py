"""Tests the command statement of the built program: statements that were worked out by hand, and those of generated cards,
compared with a model that is written from docs/reference/FARES.md, "Statement" (scripts/tests/statement_model.py). The model
itself is compared with the worked statements too, which needs no program (`Model`).
"""
import collections
import csv
import datetime
import io
import json
import pathlib
import random
import shutil
import signal
import subprocess
import tempfile
import threading
import unittest
from collections.abc import Iterable, Sequence
from typing import Any

import harness
import statement_model
import test_compare_model
from bovtrila import codec, layout, model
from harness import EXAMPLE, PROGRAM, TIME, run_whole
from running import Server
from statement_examples import EXAMPLES, FARE_DAY, MONDAY, OVER_NIGHT, PAID, RENAMED, REVISION, Example, station_of
from statement_forms import HEADING, SENTENCES, Forms, date
from statement_model import Statement, statement
from travellers import Travellers

FORMATS = ("text", "csv", "json")
# How many cards the journals of worked statements have.
CARDS = 20


def day_of(options: Sequence[str], name: str) -> int | None:
    """The day that an option names."""
    if name not in options:
        return None
    return codec.days(datetime.date.fromisoformat(options[options.index(name) + 1]))


def of_example(example: Example) -> tuple[Statement, Forms]:
    """The model's statement of an example, and its formats."""
    station = station_of(example.touches, CARDS)
    found = statement(station, 1, day_of(example.options, "--from"), day_of(example.options, "--to"))
    return found, Forms(station.schedule)


class Model(unittest.TestCase):
    """The model, without the program."""

    def test_its_statements_are_those_that_were_worked_out(self) -> None:
        for example in EXAMPLES:
            with self.subTest(example.about):
                found, forms = of_example(example)
                self.assertEqual(forms.text(found), example.text)

    def test_the_examples_have_each_reason_and_each_refusal(self) -> None:
        texts = "".join(example.text for example in EXAMPLES)
        for sentence in SENTENCES.values():
            self.assertRegex(texts, sentence.format("[A-Z][a-z]+"))
        refused = {row.verdict for example in EXAMPLES for row in of_example(example)[0].refused}
        self.assertEqual(refused, {name for code, name in model.VERDICTS.items() if code >= 20} - {"BadDay"})


class Reading(harness.ProgramTest):
    """Each test has a folder of its own, with a journal and tables in it."""

    def setUp(self) -> None:
        room = tempfile.TemporaryDirectory(prefix="statements-")
        self.addCleanup(room.cleanup)
        self.folder = pathlib.Path(room.name)
        self.journal, self.renamed = self.folder / "station.journal", self.folder / "renamed.toml"
        self.renamed.write_text(RENAMED)
        # The zone of this process is that of the table that was read last.
        self.table = model.Table(EXAMPLE.read_text())

    def write(self, frames: Sequence[bytes], cards: int = CARDS, version: bytes = layout.VERSION) -> None:
        """Makes the journal of these frames."""
        self.journal.write_bytes(layout.journal_of(frames, len(frames) + 5, cards, self.table.digest, version))

    def ask(self, *more: object, command: str = "statement", table: object = EXAMPLE, journal: object = None,
            **options: Any) -> harness.Ran:
        """Status, standard output and standard error of a command on the journal."""
        words = [command, "--table", table, "--journal", journal or self.journal, *more]
        return run_whole([str(word) for word in words], **options)

    def printed(self, *more: object, **options: Any) -> str:
        """What a command prints that ends well."""
        status, out, err = self.ask(*more, **options)
        self.assertEqual((status, err), (0, ""))
        return out.decode()

    def compare(self, found: Statement, forms: Forms, *more: object, **options: Any) -> None:
        """The command prints a statement of the model in each format."""
        words = ["--card", found.card, *more]
        self.assertEqual(self.printed(*words, **options), forms.text(found))
        self.assertEqual(self.printed(*words, "--format", "text", **options), forms.text(found))
        self.assertEqual(self.printed(*words, "--format", "csv", **options), forms.csv(found))
        self.assertEqual(json.loads(self.printed(*words, "--format", "json", **options)), forms.json(found))


class Worked(Reading):
    """Statements that were worked out by hand."""

    def test_each_example_in_each_format(self) -> None:
        for example in EXAMPLES:
            found, forms = of_example(example)
            for version in layout.SLOTS:
                with self.subTest(example.about, version=version):
                    is_revised = any(kind == codec.REVISE for kind, *_ in example.touches)
                    if is_revised and version != layout.VERSION:
                        continue
                    self.write(station_of(example.touches).history, version=version)
                    before = self.journal.read_bytes()
                    self.assertEqual(self.printed("--card", 1, *example.options, self.renamed), example.text)
                    self.compare(found, forms, *example.options, self.renamed)
                    self.assertEqual(self.journal.read_bytes(), before)

    def test_the_rows_and_the_fields_of_the_first_example(self) -> None:
        """Worked by hand, so that no other word of a row or a field is right."""
        self.write(station_of(EXAMPLES[0].touches).history)
        rows = ["journey,2025-01-06,350,1,2,peak,2,2025-01-06T06:40:00Z,1,2025-01-06T07:05:00Z,yes",
                "journey,2025-01-06,350,1,2,peak,2,2025-01-06T07:40:00Z,1,2025-01-06T08:05:00Z,yes",
                "journey,2025-01-06,350,1,2,peak,2,2025-01-06T08:40:00Z,1,2025-01-06T09:05:00Z,yes",
                "fares,2025-01-06,1050,,,,,,,,", "cap,2025-01-06,850,1,2,anytime,,,,,", "journeys,2025-01-06,850,,,,,,,,",
                "touch,2025-01-06,700,,,Open,2,2025-01-06T10:00:00Z,,,", "charge,2025-01-06,1550,,,,,,,,",
                "top_up,2025-01-06,2000,,,,,2025-01-06T06:30:00Z,,,", "paid_in,,2000,,,,,,,,", "charged,,1550,,,,,,,,",
                "balance,,450,,,,,,,,"]
        self.assertEqual(self.printed("--card", 1, "--format", "csv"), "".join(f"{row}\r\n" for row in [HEADING, *rows]))
        alder: dict[str, Any] = {"station": 1, "name": "Alder"}
        birch: dict[str, Any] = {"station": 2, "name": "Birch"}
        journeys = [{"pence": 350, "low": 1, "high": 2, "off_peak": False, "covered": True,
                     "from": {**birch, "moment": f"2025-01-06T{start}:00Z", "time": start},
                     "to": {**alder, "moment": f"2025-01-06T{end}:00Z", "time": end}}
                    for start, end in (("06:40", "07:05"), ("07:40", "08:05"), ("08:40", "09:05"))]
        touch = {"pence": 700, "reason": "Open", "at": {**birch, "moment": "2025-01-06T10:00:00Z", "time": "10:00"}}
        day = {"day": "2025-01-06", "journeys": journeys, "fares": 1050, "charge_for_journeys": 850, "touches": [touch],
               "cap": {"pence": 850, "low": 1, "high": 2, "off_peak": False}, "charge": 1550}
        self.assertEqual(json.loads(self.printed("--card", 1, "--format", "json")), {
            "card": 1, "from": None, "to": None, "before": None, "days": [day], "refused": [], "paid_in": 2000,
            "top_ups": [{"day": "2025-01-06", "pence": 2000, "moment": "2025-01-06T06:30:00Z"}], "charged": 1550,
            "balance": 450})

    def test_a_name_with_marks_is_printed_as_it_is(self) -> None:
        """In JSON it is escaped."""
        text = EXAMPLE.read_text().replace('"Birch"', "'B\"i\\r, ch\u00e9 <b>\u5c71'")
        table = self.folder / "names.toml"
        table.write_text(text)
        self.table = model.Table(text)
        self.write(station_of(EXAMPLES[0].touches).history)
        name = "B\"i\\r, ch\u00e9 <b>\u5c71"
        self.assertEqual(self.printed("--card", 1, table=table), EXAMPLES[0].text.replace("Birch", name))
        found = json.loads(self.printed("--card", 1, "--format", "json", table=table))
        self.assertEqual(found["days"][0]["journeys"][0]["from"]["name"], name)
        rows = csv.reader(io.StringIO(self.printed("--card", 1, "--format", "csv", table=table), newline=""))
        self.assertEqual({len(row) for row in rows}, {11})

    def test_the_parts_of_a_history_add_up(self) -> None:
        """What is before a day, and what is from that day on, is the whole."""
        self.write(station_of(OVER_NIGHT).history)
        whole = json.loads(self.printed("--card", 1, "--format", "json"))
        for first in ("2025-01-05", "2025-01-06", "2025-01-07", "2025-01-08", "2025-01-09"):
            part = json.loads(self.printed("--card", 1, "--format", "json", "--from", first))
            for name, rows, pence in (("paid_in", "top_ups", "pence"), ("charged", "days", "charge")):
                self.assertEqual(part["before"][name] + sum(row[pence] for row in part[rows]), whole[name], first)
                self.assertEqual(part[name], whole[name], first)


class Generated(Reading):
    """Statements of cards that travel often, compared with the model."""

    def judged(self, text: str, changes: Any, seed: int, days: int) -> tuple[model.Station, list[pathlib.Path]]:
        """A station that has judged the touches of travellers, by tables that are revised, with the files of the tables."""
        texts = test_compare_model.revised(text, changes)
        random.Random(seed).shuffle(texts)
        texts = [text, *texts[1:]]
        tables = [model.Table(each) for each in texts]
        station = model.Station(tables[0], 14, supplied=tables[1:])
        Travellers(seed, tables, 12, days).travel(station)
        files = [self.folder / f"table{number}.toml" for number in range(len(texts))]
        for file, each in zip(files, texts):
            file.write_text(each)
        self.table = tables[0]
        self.write(station.history, cards=14)
        return station, files

    def compared(self, station: model.Station, files: Sequence[pathlib.Path], seed: int) -> list[Statement]:
        """Compares the statement of each card, whole and in part, with the model's. The whole ones are returned."""
        draw, forms, found = random.Random(seed), Forms(station.schedule), list[Statement]()
        for number, card in station.cards.items():
            if not card.issued:
                said = self.ask("--card", number, *files[1:], table=files[0])
                self.assertEqual((said[0], said[1], harness.fault_of(said[2])),
                                 (1, b"", f"fault card {number} not issued\n"))
                continue
            found.append(statement(station, number))
            with self.subTest(card=number):
                self.compare(found[-1], forms, *files[1:], table=files[0])
            first, last = sorted(FARE_DAY + draw.randint(-1, 15) for _ in range(2))
            for begin, end in ((first, last), (first, None), (None, last)):
                options = [*(("--from", date(begin)) if begin else ()), *(("--to", date(end)) if end else ())]
                with self.subTest(card=number, options=options):
                    self.compare(statement(station, number, begin, end), forms, *options, *files[1:], table=files[0])
        return found

    def assert_sums(self, station: model.Station, found: Iterable[Statement], files: Sequence[pathlib.Path]) -> None:
        """Each statement's sums are the card's row of balances, and the balance that a server reports."""
        out = self.balances(files)
        for each in found:
            self.assertEqual(out[each.card], (each.balance, each.paid_in, each.charged), each.card)
            self.assertEqual(each.balance, station.cards[each.card].balance(), each.card)
        self.assertEqual(len(out), len(list(found)))

    def balances(self, files: Sequence[pathlib.Path]) -> dict[int, tuple[int, int, int]]:
        """The rows of balances by card: the balance, and what was paid in and charged."""
        status, out, _ = self.ask(*files[1:], command="balances", table=files[0])
        self.assertEqual(status, 0)
        rows = csv.DictReader(io.StringIO(out.decode(), newline=""))
        return {int(row["card"]): (int(row["balance"]), int(row["paid_in"]), int(row["charged"])) for row in rows}

    def seen(self, station: model.Station, found: Iterable[Statement]) -> collections.Counter[Any]:
        """How often the cases came that a comparison has to have."""
        seen: collections.Counter[Any] = collections.Counter()
        for row in (row for each in found for row in each.days):
            seen.update(each.reason for each in row.incomplete)
            for each in row.journeys:
                seen["cap", row.cap["kind"] if row.cap else None, each.is_covered] += 1
                seen["legs", min(2, len(each.taps) // 2)] += 1
                seen["over night", each.taps[-1].stamp.day != row.day] += 1
                ended = station.schedule.on(each.taps[-1].stamp.day)
                seen["over a revision", ended is not station.schedule.on(row.day)] += 1
            if row.cap:
                fares, caps = [each.fare for each in row.journeys], station.schedule.on(row.day).caps
                seen["same charge", sum(statement_model.sum_under(cap, fares) == row.charge for cap in caps) > 1] += 1
        seen.update(row.verdict for each in found for row in each.refused)
        return seen

    def run_of(self, text: str, changes: Any, seeds: Iterable[int], days: int) -> collections.Counter[Any]:
        """Compares the statements of runs, and counts their cases."""
        seen: collections.Counter[Any] = collections.Counter()
        for seed in seeds:
            with self.subTest(seed):
                station, files = self.judged(text, changes, seed, days)
                found = self.compared(station, files, seed)
                self.assert_sums(station, found, files)
                seen += self.seen(station, found)
        return seen

    def assert_seen(self, seen: collections.Counter[Any]) -> None:
        """Each case came."""
        refusals = {name for code, name in model.VERDICTS.items() if code >= 20} - {"BadDay"}
        wanted = {*SENTENCES, *refusals, ("cap", None, False), ("cap", "anytime", True), ("cap", "anytime", False),
                  ("cap", "off-peak", True), ("cap", "off-peak", False), ("legs", 2), ("over night", True),
                  ("over a revision", True)}
        self.assertEqual(wanted - set(seen), set())

    def test_cards_on_the_example_table_with_revisions(self) -> None:
        self.assert_seen(self.run_of(EXAMPLE.read_text(), test_compare_model.CHANGES, (31, 33), 14))

    def test_cards_on_a_table_whose_clock_goes_back_over_the_fare_day(self) -> None:
        seen = self.run_of(test_compare_model.OTHER, test_compare_model.OTHER_CHANGES, (32, 34), 14)
        self.assert_seen(seen)
        self.assertGreater(seen["same charge", True], 0)
        self.table = model.Table(EXAMPLE.read_text())

    def test_cards_of_the_requests_with_which_answers_are_compared(self) -> None:
        """Around the limits of legs and interchanges, with many revisions."""
        texts = [EXAMPLE.read_text(), *test_compare_model.revised(EXAMPLE.read_text(), test_compare_model.CHANGES)[1:]]
        tables = [model.Table(text) for text in texts]
        station = model.Station(tables[0], 14, supplied=tables[1:])
        requests = test_compare_model.Revising(35, tables, 14, 3000)
        for _ in range(3000):
            station.answer(requests.next())
        files = [self.folder / f"table{number}.toml" for number in range(len(texts))]
        for file, text in zip(files, texts):
            file.write_text(text)
        self.write(station.history, cards=14)
        self.assert_sums(station, self.compared(station, files, 35), files)


class Files(Reading):
    """Cards and journals that are refused, in use or damaged, pipes, and command lines."""

    def many(self) -> None:
        """A journal of a card whose statement doesn't fit into a pipe in any format."""
        frames = [codec.touch(codec.ISSUE, 1, 1, 1, MONDAY)]
        frames += [codec.touch(codec.TOP_UP, 1, number, 1, 1, MONDAY) for number in range(2, 5002)]
        self.write(frames)

    def test_a_card_that_is_not_there(self) -> None:
        self.write(station_of(PAID).history)
        for options in ((), ("--from", "2025-01-07"), ("--format", "csv"), ("--format", "json")):
            for card, line in ((2, "fault card 2 not issued\n"), (20, "fault card 20 not issued\n"),
                               (21, "fault card 21 above 20\n"), (100_000, "fault card 100000 above 20\n")):
                with self.subTest(card=card, options=options):
                    status, out, err = self.ask("--card", card, *options)
                    self.assertEqual((status, out, harness.fault_of(err)), (1, b"", line))
        # The journal's own faults come before it.
        history = station_of(PAID).history
        self.write([*history, history[0]])
        status, out, err = self.ask("--card", 21)
        self.assertEqual((status, out, harness.fault_of(err)), (1, b"", "fault journal 7 Damaged 2\n"))

    def test_tables_and_files_are_refused_as_by_history(self) -> None:
        self.write(station_of(REVISION).history)
        wrong: list[dict[str, Any]] = [{"table": "/nowhere/table"}, {"journal": self.folder / "none"},
                                       {"table": self.renamed}, {}]
        for options in wrong:
            with self.subTest(options):
                said = self.ask("--card", 1, **options)
                self.assertEqual(said, self.ask("--card", 1, command="history", **options))
                self.assertEqual(said[:2], (1, b""))
        self.assertEqual(harness.fault_of(self.ask("--card", 1)[2]), "fault journal 13 MissingTable 4\n")
        self.assertEqual(self.ask("--card", 1, EXAMPLE)[2].split("\n")[0], "fault supply 2 Twice 1")

    def test_open_slots_after_the_end_are_noted(self) -> None:
        """As by history: the touches before the end count."""
        frames = [codec.touch(codec.ISSUE, 1, number, number, MONDAY) for number in range(1, 9)]
        content = bytearray(layout.journal_of(frames, 12, 20, self.table.digest))
        content[layout.HEADER + layout.SLOT] = 0
        self.journal.write_bytes(content)
        status, out, err = self.ask("--card", 1)
        self.assertEqual((status, out.decode()), (0, self.issued_text()))
        self.assertEqual(err, "note: 6 open slots behind the end: verify ends with status 3\n")
        self.assertEqual(harness.fault_of(self.ask("--card", 2)[2]), "fault card 2 not issued\n")

    def issued_text(self) -> str:
        """The statement of a card that was only issued."""
        return next(example.text for example in EXAMPLES if example.about == "a card that was only issued")

    def test_a_closed_pipe_and_a_full_disk(self) -> None:
        """As history: the shell's status of a program that SIGPIPE ends, and no line; and a fault with the reason."""
        self.many()
        for form in FORMATS:
            words = [str(PROGRAM), "statement", "--table", str(EXAMPLE), "--journal", str(self.journal), "--card", "1",
                     "--format", form]
            with self.subTest(form, closed="pipe"):
                running = subprocess.Popen(words, stdout=subprocess.PIPE, stderr=subprocess.PIPE)
                assert running.stdout and running.stderr, "pipes"
                self.addCleanup(running.stderr.close)
                self.assertTrue(running.stdout.readline())
                running.stdout.close()
                self.assertEqual((running.wait(TIME), running.stderr.read()), (128 + signal.SIGPIPE, b""))
            with self.subTest(form, disk="full"), open("/dev/full", "w") as full:
                done = subprocess.run(words, stdout=full, stderr=subprocess.PIPE, timeout=TIME)
                self.assertEqual((done.returncode, done.stderr),
                                 (1, b"fault run 3 Write\n  standard output: no room on the disk\n"))

    def test_the_journal_of_a_running_server_is_read(self) -> None:
        server = Server(self.folder, cards=CARDS)
        self.addCleanup(server.kill)
        station = model.Station(self.table, CARDS)
        with server.connect() as gate:
            for frame in station_of(EXAMPLES[0].touches).history:
                self.assertEqual(gate.ask(frame), station.answer(frame))
                self.compare(statement(station, 1), Forms(station.schedule), journal=server.journal)
        self.assertEqual(server.end()[0], 0)

    def test_statements_under_load_are_those_of_some_moment(self) -> None:
        """Each has all top-ups that were answered before it was begun, and none that came after it ended."""
        self.many()
        frames, _ = model.journal(self.journal.read_bytes(), self.table, CARDS)
        server = Server(self.folder, cards=CARDS, capacity=len(frames))
        self.addCleanup(server.kill)
        answered: list[bytes] = []

        def send() -> None:
            with server.connect() as gate:
                for frame in frames:
                    answered.append(gate.ask(frame))

        sender = threading.Thread(target=send)
        sender.start()
        seen: list[int] = []
        while sender.is_alive():
            least = len(answered)
            if least == 0:
                continue
            status, out, _ = self.ask("--card", 1, "--format", "json", journal=server.journal)
            # One that is sent may be on the disk before its answer is counted here.
            most, found = len(answered) + 1, json.loads(out)
            self.assertEqual((status, found["balance"]), (0, len(found["top_ups"])))
            self.assertLessEqual(least - 1, found["balance"])
            self.assertLessEqual(found["balance"], most)
            seen.append(found["balance"])
        sender.join(TIME)
        self.assertEqual((len(answered), seen), (len(frames), sorted(seen)))
        self.assertGreater(len(set(seen)), 1)
        self.assertEqual(server.end()[1][-1], f"closed {len(frames)}")

    def test_a_file_that_may_not_be_written_is_read(self) -> None:
        self.write(station_of(PAID).history)
        copy = self.folder / "copy.journal"
        shutil.copy(self.journal, copy)
        copy.chmod(0o444)
        self.assertEqual(self.printed("--card", 1, journal=copy), self.printed("--card", 1))

    def test_a_wrong_command_line_is_refused(self) -> None:
        self.write(station_of(PAID).history)
        whole = ["statement", "--table", str(EXAMPLE), "--journal", str(self.journal), "--card", "1"]
        self.assertEqual(run_whole(whole)[0], 0)
        for words in (whole[:1], whole[:-2], [*whole[:1], *whole[3:]], [*whole[:3], *whole[5:]], [*whole[:-1], "0"],
                      [*whole[:-1], "+1"], [*whole[:-1], "100001"], [*whole[:-1], "one"], [*whole, "--from", "2025-02-29"],
                      [*whole, "--from", "today"], [*whole, "--to", "2025-1-6"], [*whole, "--to", "20250106"],
                      [*whole, "--to", ""], [*whole, "--from", "2025-01-07", "--to", "2025-01-06"],
                      [*whole, "--format", "html"], [*whole, "--at", "1"], [*whole, "--day", "2025-01-06"],
                      [*whole, "--from"], [*whole, "--card", "1"]):
            with self.subTest(words[1:]):
                status, out, err = run_whole(words)
                self.assertEqual((status, out), (2, b""))
                self.assertTrue(err)
        # A single day is no wrong order.
        self.assertEqual(run_whole([*whole, "--from", "2025-01-06", "--to", "2025-01-06"])[0], 0)
