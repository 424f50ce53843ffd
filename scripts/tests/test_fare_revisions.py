"""Tests what bovtrila-gate --revise shows before it sends a revision, and that it asks. The program compares the
tables. All traffic stays on 127.0.0.1.
"""
import argparse
import datetime
import os
import pathlib
import pty
import subprocess
import tempfile
import unittest

from bovtrila import fare_changes, wire
from harness import EXAMPLE, PROGRAM, REVISED, TIME, TOP, ProgramTest, begin_in_day
from planted import Planted

GATE = TOP / "bin" / "bovtrila-gate"
TODAY = datetime.date(2026, 1, 1)


class InAFolder(unittest.TestCase):
    def setUp(self) -> None:
        room = tempfile.TemporaryDirectory(prefix="fare-revisions-")
        self.addCleanup(room.cleanup)
        self.folder = pathlib.Path(room.name)

    def table(self, *changes: tuple[str, str], name: str = "new.toml") -> pathlib.Path:
        """A file of the example table with these texts replaced."""
        text = EXAMPLE.read_text()
        for old, new in changes:
            self.assertEqual(text.count(old), 1, old)
            text = text.replace(old, new)
        path = self.folder / name
        path.write_text(text)
        return path


class Comparing(InAFolder, ProgramTest):
    """Two tables, as the program compares them."""

    def preview(self, new: pathlib.Path, old: pathlib.Path, program: str | pathlib.Path = PROGRAM) -> list[str]:
        return fare_changes.preview(argparse.Namespace(first=TODAY, revise=new, against=old, program=program), TODAY)[2:]

    def test_what_changes_is_what_the_program_prints(self) -> None:
        # An optional key of a row, a list that may be left out, and a row that is named the other way round.
        for changes, lines in (
                ([("off_peak = 200}]", "off_peak = 200, minutes = 60}]")],
                 ["pair of stations 2 and 4: lo 2, hi 2, peak 230, off_peak 200 -> lo 2, hi 2, peak 230, off_peak 200, "
                  "minutes 60"]),
                ([("interchange = [{a = 1, b = 4, minutes = 10}]\n", "")],
                 ["interchange of stations 1 and 4: minutes 10 -> none"]),
                ([("a = 1, b = 4", "a = 4, b = 1")], [f"nothing changes against {EXAMPLE}: only their texts are others"]),
                ([('["2025-12-25"]', '["2026-12-25"]')],
                 ["holiday 2025-12-25: yes -> none", "holiday 2026-12-25: none -> yes"])):
            with self.subTest(lines):
                self.assertEqual(self.preview(self.table(*changes), EXAMPLE), [f"  {line}" for line in lines])

    def test_a_program_that_is_not_there_or_prints_something_else(self) -> None:
        with self.assertRaises(wire.Wrong) as caught:
            self.preview(REVISED, EXAMPLE, self.folder / "none")
        self.assertEqual(str(caught.exception), f"{self.folder / 'none'}: there is no such program; name it by --program")
        for status, printed in ((0, "maximum_peak: 900 -> 1000"), (1, "may revise"), (0, ""),
                                (2, "may not revise: no reason")):
            other = self.folder / "other"
            other.write_text(f"#!/bin/sh\necho '{printed}'\nexit {status}\n")
            other.chmod(0o755)
            with self.subTest(printed, status=status), self.assertRaises(wire.Wrong) as caught:
                self.preview(REVISED, EXAMPLE, other)
            self.assertIn(f"{REVISED} can't be compared with {EXAMPLE}", str(caught.exception))

    def test_the_day_has_its_weekday_and_how_far_off_it_is(self) -> None:
        for day, said in (("2026-01-05", "From Monday 2026-01-05 at 04:30 on, 4 days ahead, the fare table"),
                          ("2026-01-02", "From Friday 2026-01-02 at 04:30 on, 1 day ahead, the"),
                          ("2026-01-01", "From Thursday 2026-01-01 at 04:30 on, today, the"),
                          ("2025-12-31", "From Wednesday 2025-12-31 at 04:30 on, 1 day ago, the"),
                          ("2062-01-05", "From Thursday 2062-01-05 at 04:30 on, 13,153 days ahead, the")):
            asked = argparse.Namespace(first=datetime.date.fromisoformat(day), revise=REVISED, against=EXAMPLE,
                                       program=PROGRAM)
            lines = fare_changes.preview(asked, TODAY)
            self.assertTrue(lines[0].startswith(said), lines[0])
            self.assertEqual(lines[1:], [
                "  digest 96cc50b0396b0e933971ad2464a508f630c6463f90c322da8393bcc1a546a9be",
                "  maximum_peak: 900 -> 1000",
                "  single of zones 1 to 2: peak 350, off_peak 290 -> peak 380, off_peak 300"])

    def test_a_table_that_changes_nothing_is_told(self) -> None:
        self.assertEqual(self.preview(EXAMPLE, EXAMPLE),
                         [f"  nothing changes against {EXAMPLE}: the two are the same, to the byte"])
        other = self.table(("evening_rule = true", "evening_rule   = true"))
        self.assertEqual(self.preview(other, EXAMPLE),
                         [f"  nothing changes against {EXAMPLE}: only their texts are others"])

    def test_a_table_that_can_not_follow_is_refused(self) -> None:
        for changes, said in (
                ([('zone = "GMT0BST,M3.5.0/1,M10.5.0"', 'zone = "GMT0"')],
                 "it has another zone\n  zone: \"GMT0BST,M3.5.0/1,M10.5.0\" -> \"GMT0\""),
                ([('  {id = 5, name = "Elder", zones = [2, 3]},\n', "")],
                 "it has other stations\n  station 5: name \"Elder\", zones 2 and 3 -> none")):
            new = self.table(*changes)
            with self.assertRaises(wire.Wrong) as caught:
                self.preview(new, EXAMPLE)
            self.assertEqual(str(caught.exception), f"{new} can't follow {EXAMPLE}: {said}")

    def test_a_file_that_is_no_table_is_told(self) -> None:
        broken = self.folder / "broken.toml"
        for content, said in ((b"zone", "this is no fare table"), (b"\xff", "this is no fare table"),
                              (b'zone = "GMT0"', "this is no fare table"), (None, "No such file or directory")):
            broken.unlink(missing_ok=True)
            if content is not None:
                broken.write_bytes(content)
            for new, old in ((broken, EXAMPLE), (EXAMPLE, broken)):
                with self.assertRaises(wire.Wrong) as caught:
                    self.preview(new, old)
                self.assertIn(f"{broken}: {said}", str(caught.exception))

    def test_a_table_that_the_program_refuses_is_told_with_its_fault(self) -> None:
        new = self.table(("entry_minimum = 190", "entry_minimum = -1"))
        with self.assertRaises(wire.Wrong) as caught:
            self.preview(new, EXAMPLE)
        self.assertIn(f"{new} can't be compared with {EXAMPLE}; correct the table that has the fault:\nfault table 5 Range "
                      f"entry_minimum", str(caught.exception))


class Asking(InAFolder, ProgramTest):
    """bovtrila-gate, which sends a revision or doesn't."""

    def setUp(self) -> None:
        super().setUp()
        self.server = Planted(None, "revised")
        self.addCleanup(self.server.end)

    def revise(self, *words: object, days: int = 10, typed: str | None = None,
               new: pathlib.Path = REVISED) -> tuple[int, str]:
        """The status and standard error of a revision so many days ahead. What is typed goes to a terminal."""
        begin_in_day(datetime.date.fromtimestamp)
        first = datetime.date.today() + datetime.timedelta(days)
        ours = theirs = None
        if typed is not None:
            ours, theirs = pty.openpty()
            os.write(ours, typed.encode())
        whole = (GATE, self.server.text, "--revise", new, "--from", first, *words)
        done = subprocess.run(list(map(str, whole)), stdin=subprocess.DEVNULL if theirs is None else theirs,
                              capture_output=True, text=True, timeout=TIME)
        for end in (ours, theirs):
            if end is not None:
                os.close(end)
        self.assertNotIn("Traceback", done.stderr)
        return done.returncode, done.stderr

    def sent(self) -> int:
        return len(self.server.station.history)

    def test_it_asks_and_sends_only_for_a_yes(self) -> None:
        for typed in ("no\n", "y\n", "\n", "Yes\n", "\4"):
            with self.subTest(typed):
                status, said = self.revise("--against", EXAMPLE, "--program", PROGRAM, typed=typed)
                self.assertEqual((status, self.sent()), (1, 0))
                self.assertIn("It can't be taken back. Send it? Type yes: ", said)
                self.assertIn("  maximum_peak: 900 -> 1000\n", said)
                self.assertTrue(said.endswith("gate: nothing was sent\n"))
        status, said = self.revise("--against", EXAMPLE, "--program", PROGRAM, typed="yes\n")
        self.assertEqual((status, self.sent()), (0, 1))

    def test_yes_is_not_asked(self) -> None:
        status, said = self.revise("--yes")
        self.assertEqual((status, self.sent()), (0, 1))
        self.assertIn("10 days ahead", said)
        self.assertIn("what changes is shown with --against FILE", said)
        self.assertNotIn("Type yes", said)

    def test_without_a_terminal_and_a_yes_nothing_is_sent(self) -> None:
        status, said = self.revise("--against", EXAMPLE, "--program", PROGRAM)
        self.assertEqual((status, self.sent()), (1, 0))
        self.assertIn("standard input is no terminal to ask at: say --yes. Nothing was sent", said)

    def test_a_far_day_takes_far_as_well(self) -> None:
        for days, words, wanted in ((90, ["--yes"], 1), (91, ["--yes"], 0), (91, ["--far"], 0),
                                    (91, ["--yes", "--far"], 1), (13_000, ["--yes"], 0), (-400, ["--yes"], 1)):
            with self.subTest(days, words=words):
                before = self.sent()
                _, said = self.revise(*words, days=days)
                self.assertEqual(self.sent() - before, wanted, said)
                if days > 90 and "--far" not in words:
                    self.assertIn(f"is {days:,} days ahead, and no earlier day could have other prices any more: say "
                                  "--far as well where that is meant. Nothing was sent", said)

    def test_a_table_that_can_not_follow_is_not_sent(self) -> None:
        new = self.table(('zone = "GMT0BST,M3.5.0/1,M10.5.0"', 'zone = "GMT0"'))
        status, said = self.revise("--yes", "--against", EXAMPLE, "--program", PROGRAM, new=new)
        self.assertEqual((status, self.sent()), (1, 0))
        self.assertIn("can't follow", said)
