"""Tests bovtrila-status: with a running server (crates/tap_server/out/tap_server), and over journals that are made by
bovtrila.model. All traffic stays on 127.0.0.1.
"""
import json
import os
import pathlib
import resource
import signal
import subprocess
import tempfile
import time
import unittest
import unittest.mock
from collections.abc import Iterable, Sequence
from typing import Any

import harness
from bovtrila import codec, layout, model, serving, table_file, wire
from bovtrila.commands import status as commands_status
from bovtrila.journal_view import Journal, Tables
from bovtrila.overview import Target, look, screen
from harness import EXAMPLE, REVISED, TIME, TOP
from running import Server

STATUS = TOP / "bin" / "bovtrila-status"
# Monday 2025-01-06, 00:00 UTC, and its fare day.
MONDAY, DAY = 1736121600, 20094
TABLE, OTHER = (table_file.read(path) for path in (EXAMPLE, REVISED))
FIRST = [bytes.fromhex(asked) for asked, _ in harness.vectors()["first example"]]


def free() -> tuple[str, int]:
    """An address on which nobody listens."""
    return "127.0.0.1", harness.free_port()


def status(address: tuple[str, int], *words: object) -> tuple[int, list[str], str]:
    """Runs the script to its end: its status, its lines, and standard error."""
    # A server that is there has answered by then, however busy the machine is. A later word counts.
    patient: list[str | pathlib.Path] = [STATUS, "%s:%d" % address, "--timeout", "30"]
    done = subprocess.run([*patient, *map(str, words)], capture_output=True, text=True, timeout=TIME)
    return done.returncode, done.stdout.split("\n")[:-1], done.stderr


def paid(number: int, moment: int, card: int = 1) -> bytes:
    return codec.touch(codec.TOP_UP, 7, number, card, 1, moment)


def revision(number: int, day: int, table: model.Table = OTHER) -> bytes:
    return codec.touch(codec.REVISE, 65_535, number, 0, table.digest, day, 0)


class InAFolder(unittest.TestCase):
    def setUp(self) -> None:
        room = tempfile.TemporaryDirectory(prefix="status-screens-")
        self.addCleanup(room.cleanup)
        self.folder = pathlib.Path(room.name)


class Journals(InAFolder):
    """What is told of a journal; nobody listens at the address."""

    address = free()

    def looked(self, frames: Iterable[bytes], now: int = MONDAY + 86_400,
               tables: Sequence[pathlib.Path] = (EXAMPLE, REVISED), capacity: int = 1000, version: bytes = layout.VERSION,
               copies: pathlib.Path | None = None) -> dict[str, Any]:
        """What is found of a journal of these touches."""
        path = self.folder / "journal"
        path.write_bytes(layout.journal_of(frames, capacity, 10, TABLE.digest, version))
        target = Target(None, self.address, str(path), tuple(map(str, tables)), copies)
        found: dict[str, Any] = look(target, 1, Journal(path), Tables(tables), now)
        screen(found, now)
        return found

    def test_an_empty_journal_has_room_and_no_pace(self) -> None:
        found = self.looked([])
        self.assertEqual((found["touches"], found["room"], found["last"]), (0, 1000, None))
        self.assertIsNone(found["days_until_full"])
        lines = screen(found, MONDAY)
        self.assertIn("full        not known: no touch yet", lines)
        self.assertIn("last touch  none", lines)

    def test_both_formats_are_read(self) -> None:
        for version in layout.SLOTS:
            found = self.looked(FIRST, version=version)
            self.assertEqual((found["touches"], found["room"], found["capacity"], found["cards"]), (4, 996, 1000, 10))
            self.assertEqual(found["last"], {"kind": "touch out", "gate": 7, "number": 4, "card": 1, "station": 1,
                                             "moment": "2025-01-06T08:25:00Z"})

    def test_the_pace_is_that_of_the_last_seven_days(self) -> None:
        """20 touches a day for ten days: after 200 of 1000 there is room for 40 days."""
        frames = [paid(20 * day + place, MONDAY + 86_400 * day + 4000 * place)
                  for day in range(10) for place in range(20)]
        now = MONDAY + 10 * 86_400
        found = self.looked(frames, now)
        self.assertEqual((found["touches_a_day"], found["days_until_full"]), (20.0, 40.0))
        self.assertEqual(found["full_on"], "2025-02-25")
        self.assertIn("full        in 40 days, on 2025-02-25, at 20 touches a day (the last 7 days)",
                      screen(found, now))
        # A touch of a clock that is ahead doesn't change it, and one of 1970 makes no week longer.
        found = self.looked([*frames, paid(900, now + 86_400 * 900)], now)
        self.assertEqual((found["touches_a_day"], found["days_until_full"]), (20.0, 40.0))
        self.assertEqual(self.looked([*frames, paid(900, 0)], now)["touches_a_day"], 20.0)
        # The first day counts as a whole one.
        self.assertEqual(self.looked(frames[:10], MONDAY + 40_000)["touches_a_day"], 10.0)

    def test_the_balances_of_the_journal_before_have_no_pace(self) -> None:
        """They are the first issues and top-ups of gate 65535, with one moment."""
        begun = [frame for card in range(1, 9) for frame in (
            codec.touch(codec.ISSUE, 65_535, 2 * card, card, MONDAY),
            codec.touch(codec.TOP_UP, 65_535, 2 * card + 1, card, 100, MONDAY))]
        self.assertIn("full        not known: no touch yet", screen(self.looked(begun), MONDAY))
        for frames, count in (([*begun, *FIRST], 4), ([*begun, paid(1, MONDAY + 60), *begun[:2]], 3), ([*FIRST, *begun], 20),
                              ([*begun, codec.touch(codec.TOP_UP, 65_535, 99, 1, 100, MONDAY + 60)], 1)):
            found = self.looked(frames, MONDAY + 86_400)
            self.assertEqual((found["touches"], found["touches_a_day"]), (len(frames), count))

    def test_a_journal_that_lasts_for_long_has_no_day(self) -> None:
        found = self.looked(FIRST[:3], MONDAY + 6 * 86_400, capacity=1_000_000)
        self.assertIn("full        not before 2100, at 0.5 touches a day (the last 7 days)", screen(found, MONDAY))
        # In 2099 it has one.
        found.update(full_on="2099-12-31", days_until_full=27_000.0, touches_a_day=36.4)
        self.assertIn("full        in 27,000 days, on 2099-12-31, at 36 touches a day (the last 7 days)",
                      screen(found, MONDAY))

    def test_a_pace_that_ended_long_ago_tells_nothing_of_now(self) -> None:
        frames = [paid(20 * day + place, MONDAY + 86_400 * day + 4000 * place)
                  for day in range(10) for place in range(20)]
        # Of the last seven days three had touches: 60 in a week.
        self.assertEqual(self.looked(frames, MONDAY + 14 * 86_400)["touches_a_day"], 8.6)
        now = MONDAY + 40 * 86_400
        found = self.looked(frames, now)
        self.assertEqual((found["touches_a_day"], found["days_until_full"], found["full_on"]), (None, None, None))
        self.assertIn("full        not known: no touch in the last 7 days, the newest is from 2025-01-15",
                      screen(found, now))

    def test_each_gate_has_its_last_touch(self) -> None:
        frames = [*FIRST, codec.touch(codec.ISSUE, 9, 12, 2, MONDAY + 30_000),
                  codec.touch(codec.ENTER, 9, 11, 2, 3, MONDAY + 40_000), revision(1, DAY + 2)]
        now = MONDAY + 47_200
        found = self.looked(frames, now)
        # Each in the journal's order: the touch with the lower number came later.
        self.assertEqual([(one["gate"], one["number"], one["kind"], one["moment"]) for one in found["gates"]],
                         [(7, 4, "touch out", "2025-01-06T08:25:00Z"), (9, 11, "touch in", "2025-01-06T11:06:40Z")])
        lines = screen(found, now)
        self.assertIn("gate 7      number 4, touch out, 2025-01-06T08:25:00Z, 5 hours ago", lines)
        self.assertIn("gate 9      number 11, touch in, 2025-01-06T11:06:40Z, 2 hours ago", lines)

    def test_the_disk_is_held_against_what_the_journal_lacks(self) -> None:
        """A journal of 1000 touches has 64065 bytes; a disk gives it 512 at a time."""
        with unittest.mock.patch.object(os, "statvfs") as disk, unittest.mock.patch.object(os, "stat") as file:
            for free, blocks, missing, is_noted, shown in (
                    (40_000_000_000, 16, 55_873, False, "40.0 GB free; the journal needs 55.9 kB more"),
                    (40_000_000_000, 126, 0, False, "40.0 GB free; the journal has its whole size"),
                    (50_000, 16, 55_873, True, "50.0 kB free; the journal needs 55.9 kB more"),
                    (0, 126, 0, False, "0 bytes free; the journal has its whole size"),
                    (0, 16, 55_873, False, "0 bytes free; the journal needs 55.9 kB more")):
                with self.subTest(shown):
                    disk.return_value.f_bavail, disk.return_value.f_frsize = free, 1
                    file.return_value.st_blocks = blocks
                    found = self.looked(FIRST)
                    self.assertEqual((found["disk_free_bytes"], found["journal_missing_bytes"]), (free, missing))
                    self.assertIn(f"disk        {shown}", screen(found, MONDAY))
                    self.assertEqual(any("less room than the journal needs" in note for note in found["notes"]),
                                     is_noted)

    def test_the_ages_of_copies_and_seals(self) -> None:
        copies = self.folder / "copies"
        copies.mkdir()
        found = self.looked(FIRST, copies=copies)
        self.assertEqual((found["copy_age_seconds"], found["seal_age_seconds"]), (None, None))
        self.assertIn("copy        none; seal none", screen(found, MONDAY))
        moment = time.strftime("%Y%m%dT%H%M%SZ", time.gmtime(time.time() - 19 * 3600))
        (copies / f"journal-{moment}").write_bytes(layout.journal_of(FIRST[:2], 1000, 10, TABLE.digest))
        found = self.looked(FIRST, copies=copies)
        self.assertLess(abs(found["copy_age_seconds"] - 19 * 3600), TIME)
        self.assertIn("copy        19 hours old; seal none", screen(found, MONDAY))

    def test_copies_of_another_journal_do_not_count(self) -> None:
        """Those of the journal before have another name; those of one that had the same name begin otherwise."""
        copies, remote = self.folder / "copies", self.folder / "remote"
        copies.mkdir()
        remote.mkdir()
        moment = time.strftime("%Y%m%dT%H%M%SZ", time.gmtime(time.time() - 300))
        for name, frames in (("old.journal", FIRST), ("journal", [paid(1, MONDAY)])):
            for path in copies.iterdir():
                path.unlink()
            (copies / f"{name}-{moment}").write_bytes(layout.journal_of(frames, 1000, 10, TABLE.digest))
            (copies / "seals").write_text(f"{moment} old.journal-{moment} sealed 4 {'0' * 64}\n")
            (remote / "sent").write_text(f"{moment} old.journal-{moment} sealed 4 {'0' * 64}\n")
            found = self.looked(FIRST, copies=copies)
            self.assertIn("copy        none; seal none; on another computer none", screen(found, MONDAY))

    def test_a_copy_that_was_refused_is_noted_until_a_good_one(self) -> None:
        copies = self.folder / "copies"
        copies.mkdir()
        bad = copies / "journal-20250107T033000Z.refused"
        for name, is_noted in ((bad.name, True), ("journal-20250106T033000Z", True), ("other-20250108T033000Z", True),
                               ("journal-20250108T033000Z", False)):
            (copies / name).write_bytes(layout.journal_of(FIRST, 1000, 10, TABLE.digest))
            self.assertEqual(self.looked(FIRST, copies=copies)["notes"], [
                f"the last copy was refused: {bad} (FAULTS.md, 'Faults of a copy')"] if is_noted else [], name)

    def test_a_journal_with_fewer_touches_than_its_last_seal_is_noted(self) -> None:
        copies = self.folder / "copies"
        copies.mkdir()
        note = "the last seal covers 5 touches, the journal has 4: touches are lost (OPERATING.md, 'A journal from a copy')"
        for line, is_noted in (("journal-{} sealed 4", False), ("journal-{} sealed 5", True), ("other-{} sealed 9", True),
                               ("journal-{} restored 4", False)):
            with open(copies / "seals", "a") as seals:
                seals.write(f"20250107T033000Z {line.format('20250107T033000Z')} {'0' * 64}\n")
            self.assertEqual(note in self.looked(FIRST, copies=copies)["notes"], is_noted, line)

    def test_the_age_of_copies_on_another_computer(self) -> None:
        copies, remote = self.folder / "copies", self.folder / "remote"
        copies.mkdir()
        remote.mkdir()
        found = self.looked(FIRST, copies=copies)
        self.assertIsNone(found["remote_copy_age_seconds"])
        self.assertIn("copy        none; seal none; on another computer none", screen(found, MONDAY))
        moment = time.strftime("%Y%m%dT%H%M%SZ", time.gmtime(time.time() - 300))
        (remote / "sent").write_text(f"{moment} journal-{moment} sealed 4 {'0' * 64}\n")
        found = self.looked(FIRST, copies=copies)
        self.assertLess(abs(found["remote_copy_age_seconds"] - 300), TIME)
        self.assertIn("copy        none; seal none; on another computer 5 minutes old", screen(found, MONDAY))

    def test_the_servers_of_a_machine_are_those_of_its_files_of_words(self) -> None:
        self.assertEqual(serving.names(self.folder), [])
        for name in ("alder-2.conf", "alder-1.conf", "stunnel.conf", "stunnel-alder-1.conf", "serve.conf.new"):
            (self.folder / name).touch()
        self.assertEqual(serving.names(self.folder), ["alder-1", "alder-2"])
        (self.folder / "serve.conf").touch()
        self.assertEqual(serving.names(self.folder), [None, "alder-1", "alder-2"])

    def test_files_that_this_user_may_not_read_leave_the_server_unknown(self) -> None:
        server = commands_status.Server("bovtrila", lambda: Target(None, self.address, None, (str(EXAMPLE),), None))
        with unittest.mock.patch.object(pathlib.Path, "read_bytes", side_effect=PermissionError(13, "Permission denied")):
            with self.assertRaises(wire.Wrong) as caught:
                server.look(1, MONDAY)
        self.assertIn(f"up          not known: {EXAMPLE}: you may not read this file: root and the group bovtrila may read "
                      "a station's files", screen(server.missing(caught.exception, MONDAY), MONDAY))

    def test_a_journal_that_is_nearly_full_is_noted(self) -> None:
        frames = [paid(number, MONDAY + number) for number in range(10)]
        self.assertEqual(self.looked(frames[:8], capacity=10)["notes"], [])
        self.assertIn("nine tenths of the journal are used", self.looked(frames[:9], capacity=10)["notes"][0])
        found = self.looked(frames, capacity=10)
        self.assertIn("full        now", screen(found, MONDAY))

    def test_the_tables_in_force_and_the_next(self) -> None:
        started = {"file": str(EXAMPLE), "digest": TABLE.digest.hex(), "from": None}
        rows: tuple[tuple[list[bytes], int, object, list[str]], ...] = (
                ([], DAY, started, []),
                ([revision(1, DAY + 2)], DAY + 1, started, ["2025-01-08"]),
                ([revision(1, DAY + 2)], DAY + 2, "2025-01-08", []),
                # From an earlier day, or the same: refused. To the first table again.
                ([revision(1, DAY + 2), revision(2, DAY + 2), revision(3, DAY + 1)], DAY + 1, started, ["2025-01-08"]),
                ([revision(1, DAY + 2), revision(2, DAY + 9, TABLE)], DAY + 3, "2025-01-08", ["2025-01-15"]))
        for frames, day, table, following in rows:
            found = self.looked([*FIRST, *frames], MONDAY + (day - DAY) * 86_400 + 12 * 3600)
            other = {"file": str(REVISED), "digest": OTHER.digest.hex(), "from": table}
            self.assertEqual(found["table"], table if isinstance(table, dict) else other)
            self.assertEqual([each["from"] for each in found["next"]], following)
            self.assertEqual(found["notes"], [])

    def test_a_revision_behind_travel_of_its_day_is_not_sure(self) -> None:
        found = self.looked([*FIRST, revision(1, DAY)])
        self.assertEqual((found["table"]["from"], found["next"]), (None, []))
        self.assertIn("whether the revision at place 4 was accepted isn't known here", found["notes"][0])

    def test_a_fare_day_begins_at_half_past_four_by_the_tables_clock(self) -> None:
        # 2025-07-08 is the day 20277; 04:30 in summer is 03:30 UTC.
        for second, table in ((-1, None), (0, "2025-07-08")):
            found = self.looked([revision(1, 20_277)], 20_277 * 86_400 + 3 * 3600 + 1800 + second)
            self.assertEqual(found["table"]["from"], table)

    def test_a_clock_that_is_ahead_and_a_far_revision_are_noted(self) -> None:
        ahead = codec.touch(codec.ENTER, 9, 5, 1, 2, MONDAY + 100 * 86_400)
        self.assertEqual(self.looked([*FIRST, ahead], MONDAY + 2 * 86_400)["notes"],
                         ["a clock is ahead: gate 9, number 5, 2025-04-16T00:00:00Z"])
        self.assertEqual(self.looked([*FIRST, ahead], MONDAY + 99 * 86_400)["notes"], [])
        self.assertEqual(self.looked([revision(1, DAY + 13_000)])["notes"],
                         ["the last revision counts from 2060-08-10: none from an earlier day can be made"])

    def test_a_table_that_is_not_named_is_told_by_its_digest(self) -> None:
        found = self.looked([*FIRST, revision(1, DAY + 2)], tables=())
        self.assertEqual((found["table"]["file"], found["table"]["digest"]), (None, TABLE.digest.hex()))
        self.assertIn("without --table fare days go by the clock of UTC", found["notes"])

    def test_a_file_that_is_no_journal_is_told(self) -> None:
        for name, content, said in (("none", None, "No such file or directory"), ("empty", b"", "this is no journal"),
                                    ("table", EXAMPLE.read_bytes(), "this is no journal")):
            path = self.folder / name
            if content is not None:
                path.write_bytes(content)
            code, lines, told = status(self.address, "--journal", path)
            self.assertEqual((code, lines), (1, []))
            self.assertTrue(told.startswith(f"status: {path}: {said}"), told)
            self.assertNotIn("Traceback", told)

    def test_a_wrong_command_line_is_told(self) -> None:
        lines: list[list[object]] = [["--table", EXAMPLE], ["--watch", "0"], ["--timeout", "x"], ["more"],
                                     ["--name", "alder-1"],
                                     ["--config", "serve.conf"]]
        for words in lines:
            self.assertEqual(status(self.address, *words)[:2], (2, []), words)
        done = subprocess.run([STATUS, "nowhere"], capture_output=True, text=True, timeout=TIME)
        self.assertEqual(done.returncode, 2)


class Servers(InAFolder, harness.ProgramTest):
    """Running servers."""

    def serve(self, **words: Any) -> Server:
        options: dict[str, Any] = {"connections": None, "lines": 2, **words}
        server = Server(self.folder, **options)
        self.addCleanup(server.kill)
        return server

    def test_a_server_by_an_enquiry_alone(self) -> None:
        server = self.serve()
        with server.connect() as gate:
            for frame in FIRST:
                gate.ask(frame)
            code, lines, told = status(server.address)
        self.assertEqual((code, told), (0, ""))
        self.assertRegex(lines[0], r"^time        \d{4}-\d\d-\d\dT\d\d:\d\d:\d\dZ$")
        self.assertEqual(lines[1], "server      127.0.0.1:%d" % server.address[1])
        self.assertRegex(lines[2], r"^up          yes, answered in [\d.]+ ms$")
        self.assertEqual(lines[3:], ["touches     4", "room        not known without --journal FILE"])

    def test_a_server_with_its_journal_and_its_tables(self) -> None:
        server = self.serve(revised=[REVISED])
        with server.connect() as gate:
            for frame in [*FIRST, revision(1, DAY + 3)]:
                gate.ask(frame)
        code, lines, told = status(server.address, "--journal", server.journal, "--table", EXAMPLE, "--table", REVISED)
        self.assertEqual((code, told), (0, ""))
        self.assertEqual(lines[3:6], ["touches     5", "room        995 of 1,000 (0.5 % used)",
                                      "full        not known: no touch in the last 7 days, the newest is from 2025-01-06"])
        self.assertEqual(lines[7], "inside      0 of 10 cards")
        self.assertRegex(lines[8], r"^last touch  touch out, 2025-01-06T08:25:00Z, \d+ days ago$")
        self.assertEqual(lines[9], "            gate 7, number 4, card 1, station 1")
        self.assertRegex(lines[10], r"^gate 7      number 4, touch out, 2025-01-06T08:25:00Z, \d+ days ago$")
        self.assertEqual(lines[11:], [f"table       {REVISED} (96cc50b0396b0e93.., from 2025-01-09)"])

    def test_cards_inside_are_counted_by_the_server(self) -> None:
        """Card 2 has no way in: its balance is too low."""
        server = self.serve()
        frames = [*FIRST[:3], codec.touch(codec.ISSUE, 7, 50, 2, MONDAY), codec.touch(codec.ENTER, 7, 51, 2, 2, MONDAY)]
        with server.connect() as gate:
            for frame in frames:
                gate.ask(frame)
        self.assertIn("inside      1 of 10 cards", status(server.address, "--journal", server.journal)[1])
        with server.connect() as gate:
            gate.ask(FIRST[3])
        self.assertIn("inside      0 of 10 cards", status(server.address, "--journal", server.journal)[1])

    def test_a_halted_server_is_not_up(self) -> None:
        """Behind the header and two slots the file can't grow."""
        server = self.serve(more=["--stay-halted"], restore_signals=False, preexec_fn=lambda: resource.setrlimit(
            resource.RLIMIT_FSIZE, (65 + 2 * 64, 65 + 2 * 64)))
        self.assertEqual(status(server.address)[0], 0)
        with server.connect() as gate:
            for frame in FIRST[:3]:
                gate.ask(frame)
        why = "it is halted: the journal's disk has failed, and no touch is recorded"
        asked: tuple[tuple[object, ...], ...] = ((), ("--journal", server.journal))
        for words in asked:
            code, lines, _ = status(server.address, *words)
            self.assertEqual((code, lines[2]), (1, f"up          NO: {why}"))
        found = json.loads(status(server.address, "--json")[1][0])
        self.assertEqual((found["up"], found["answers"], found["halted"], found["why"]), (False, True, True, why))

    def test_a_full_journal_is_not_up(self) -> None:
        server = self.serve(capacity=4)
        with server.connect() as gate:
            for frame in FIRST:
                gate.ask(frame)
        code, lines, _ = status(server.address, "--journal", server.journal)
        self.assertEqual((code, lines[2]), (1, "up          NO: the journal is full: it takes no new touch"))

    def test_a_full_disk_is_not_up(self) -> None:
        """The next touch halts a server whose journal lacks a part of its size on a disk without room."""
        server = self.serve()
        journal = Journal(str(server.journal))
        target = Target(None, server.address, str(server.journal), (), None)
        with unittest.mock.patch.object(os, "statvfs") as disk:
            disk.return_value.f_bavail, disk.return_value.f_frsize = 0, 4096
            found = look(target, TIME, journal, Tables(()), time.time())
        self.assertFalse(found["up"])
        self.assertRegex(found["why"], r"^the disk is full: 0 bytes are free, and the journal needs [\d,]+ more\. The "
                         "next touch halts the server$")

    def test_a_server_by_its_words(self) -> None:
        server = self.serve(revised=[REVISED])
        config, words = self.folder / "serve.conf", 'SERVE="--table {} --journal {} --cards 10 --capacity 1000 {}"\n'
        config.write_text(words.format(EXAMPLE, server.journal.name, f"--listen 0.0.0.0:{server.address[1]} --lines 2 "
                                       f"--strict {REVISED}"))
        with server.connect() as gate:
            for frame in FIRST:
                gate.ask(frame)
        done = subprocess.run([STATUS, "--config", config, "--folder", self.folder], capture_output=True, text=True,
                              timeout=TIME)
        lines = done.stdout.splitlines()
        self.assertEqual((done.returncode, done.stderr, lines[1]),
                         (0, "", "server      127.0.0.1:%d" % server.address[1]))
        for line in ("touches     4", "copy        none; seal none", f"table       {EXAMPLE} (1708bef1d8124f49.., "
                     "the first)"):
            self.assertIn(line, lines)
        # A wrong line doesn't stop the server: it is a note, and what the other lines name is shown.
        config.write_text(f"table = {EXAMPLE}\njournal = {server.journal}\nlines: 2\n"
                          "listen = %s:%d\n" % server.address)
        done = subprocess.run([STATUS, "--config", config, "--folder", self.folder], capture_output=True, text=True,
                              timeout=TIME)
        self.assertEqual((done.returncode, done.stderr), (0, ""))
        lines = done.stdout.splitlines()
        self.assertRegex(lines[2], "^up          yes")
        self.assertIn("touches     4", lines)
        self.assertIn(f"note        {config}: line 3: 'lines: 2' is no setting; write NAME = VALUE, or '#' before a "
                      "comment. The running server still has its earlier settings; correct this before it is started "
                      "again", lines)
        config.unlink()
        done = subprocess.run([STATUS, "--config", config, "--folder", self.folder], capture_output=True, text=True,
                              timeout=TIME)
        self.assertEqual((done.returncode, done.stderr), (1, ""))
        self.assertIn(f"up          NO: {config}: there is no such file; bovtrila-setup makes it",
                      done.stdout.splitlines())

    def test_json_has_all_that_is_known(self) -> None:
        server = self.serve()
        code, lines, _ = status(server.address, "--journal", server.journal, "--json")
        found = json.loads(lines[0])
        self.assertEqual((code, len(lines), found["up"], found["touches"], found["room"], found["last"], found["next"]),
                         (0, 1, True, 0, 1000, None, []))
        code, lines, _ = status(free(), "--json")
        found = json.loads(lines[0])
        self.assertEqual((code, found["up"], found["touches"], found["why"]), (1, False, None, "Connection refused"))

    def test_a_server_that_does_not_answer(self) -> None:
        code, lines, _ = status(free())
        self.assertEqual((code, lines[2]), (1, "up          NO: Connection refused"))
        server = self.serve(lines=1)
        with server.connect() as gate:
            gate.ask(FIRST[0])
            code, lines, _ = status(server.address, "--timeout", 0.3, "--journal", server.journal)
        self.assertEqual((code, lines[2:4]), (1, [
            "up          NO: no answer within 0.3 s: all its lines are taken, or it hangs", "touches     1"]))

    def test_another_servers_journal_is_noted(self) -> None:
        server = self.serve()
        with server.connect() as gate:
            gate.ask(FIRST[0])
        other = self.folder / "other"
        other.write_bytes(layout.journal_of([], 1000, 10, TABLE.digest))
        lines = status(server.address, "--journal", other)[1]
        self.assertIn("note        the journal has 0 touches, and the server 1: it's another's journal", lines)

    def test_it_is_watched_until_it_is_ended(self) -> None:
        server = self.serve()
        words: list[str | pathlib.Path] = [STATUS, "%s:%d" % server.address, "--journal", str(server.journal), "--json",
                                           "--watch", "0.05", "--timeout", "30"]
        # A shell has what it starts in the background ignore the signal.
        watching = subprocess.Popen(words, stdout=subprocess.PIPE, text=True,
                                    preexec_fn=lambda: signal.signal(signal.SIGINT, signal.SIG_DFL))
        self.addCleanup(watching.kill)
        assert watching.stdout, "a pipe"
        limit = time.monotonic() + TIME
        with server.connect() as gate:
            for count, frame in enumerate(FIRST, 1):
                gate.ask(frame)
                shown, wanted = (0, 0, 0), (count, 1000 - count, count)
                # What was written before the touch, and while the server and the journal were asked, is read first.
                while shown != wanted and time.monotonic() < limit:
                    seen: dict[str, Any] = json.loads(watching.stdout.readline())
                    self.assertIn(seen["touches"], (count - 1, count))
                    shown = (seen["touches"], seen["room"], (seen["last"] or {"number": 0})["number"])
                self.assertEqual(shown, wanted)
        watching.send_signal(signal.SIGINT)
        watching.communicate(timeout=TIME)
        self.assertEqual(watching.returncode, 0)
