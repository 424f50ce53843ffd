"""Runs of bovtrila-next-journal that nobody attends: for scripts/tests/test_full_journals.py."""
import datetime
import resource
import shutil
import signal
import subprocess
import time
import unittest
from collections.abc import Sequence
from typing import Any
from unittest import mock

import killing
from bovtrila import codec, due, handover, serving, wire
from bovtrila.commands import next_journal
from full_station import FAR, FIRST, MORNING, RUN, SCRIPT, Station, Stations, Word
from harness import BIN, PROGRAM


# What `balances` prints of two cards, of which the second one owes 7.10 pounds, and the sums of the requests that carry it.
TABLE = "card,state,balance,paid_in,charged\r\n1,outside,1650,2000,350\r\n2,inside,-710,190,900\r\n"
SUMS = "cards 2\nbalance 940\npaid_in 2190\ncharged 1250\nbalanced\n"
CARRYING = {"balances": 940, "carried": 1500, "left": 150, "owed": 710}


class Sums(unittest.TestCase):
    """The sums that a run compares before it uses a new journal."""

    def test_printed_sums_are_those_of_their_lines(self) -> None:
        handover.check_printed(SUMS, TABLE)
        handover.check_printed("note: 3 open slots behind the end: verify ends with status 3\n" + SUMS, TABLE)
        for line in SUMS.splitlines()[:4]:
            name, _, value = line.partition(" ")
            for other in (f"{name} {int(value) + 1}", f"{name} {int(value) - 1}", ""):
                with self.subTest(other), self.assertRaisesRegex(wire.Wrong, f"balances: {name} is "):
                    handover.check_printed(SUMS.replace(line, other), TABLE)

    def test_the_requests_carry_what_the_old_journal_holds(self) -> None:
        held = handover.balances_of(TABLE)
        handover.check_sums(held, CARRYING)
        for name in CARRYING:
            with self.subTest(name), self.assertRaisesRegex(wire.Wrong, "the old journal's balances come to 940"):
                handover.check_sums(held, {**CARRYING, name: CARRYING[name] + 1})


class Unattended(Stations):
    """Runs that nobody attends."""

    def assert_back(self, station: Station, status: int, err: str, said: str) -> None:
        """The run has failed with one line, and the old server runs as before."""
        self.assertEqual((status, err.count("\n"), said in err), (1, 1, True), err)
        self.assertEqual(serving.words_of(station.config)["journal"], "station.journal")
        self.assertTrue(serving.has_server(station.old))
        self.assertEqual(serving.front_at(station.listen), 18)
        failed = (station.folder / "next-journal.failed").read_text()
        self.assertEqual(failed.partition(" ")[2], err.removeprefix("next-journal: "))

    def test_below_nothing_is_changed(self) -> None:
        station = self.station(capacity=20)
        station.start()
        before = station.tree()
        status, out, err = station.alone(percent="91")
        self.assertEqual((status, out, err), (0, "station.journal is 90.0 % full, with 18 of 20 touches: a new journal "
                                              "follows from 91 % on\n", ""))
        self.assertEqual((station.tree(), serving.front_at(station.listen)), (before, 18))
        self.assertEqual(station.alone(percent="90")[0], 0)
        self.assertEqual(serving.words_of(station.config)["journal"], "next.journal")

    def test_above_a_new_journal_follows(self) -> None:
        station = self.station()
        station.start()
        kept = codec.touch(codec.TOP_UP, 7, 900, 5, 300, MORNING + 900)
        self.assertEqual(station.ask(kept), codec.fault(codec.FULL, 7, 900))
        status, out, err = station.alone()
        self.assertEqual((status, err), (0, ""))
        self.assert_carried(station, 9)
        for line in ("revision  to first.toml from 2099-01-05 on: it was sent again", "          card 2: 700",
                     "new       next.journal: 10 cards, room for 4991 more touches, fare table prices.toml",
                     *handover.UNATTENDED):
            self.assertIn(f"\n{line}\n", out)
        # `bovtrila-gate --revise` sends these bytes, and the gates go on.
        revision = codec.touch(codec.REVISE, 65_535, FAR, 0, FIRST.digest, FAR, min(86_400 * FAR, 2**32 - 1))
        self.assertEqual(wire.in_words(revision, station.ask(revision)), "revised; change 0, balance 0")
        self.assertEqual(wire.in_words(kept, station.ask(kept)), "topped up; change 300, balance 300")
        status, out, _ = station.alone()
        self.assertEqual((status, out), (0, "next.journal is 0.2 % full, with 10 of 5000 touches: a new journal follows "
                                         "from 90 % on\n"))

    def test_a_failure_leaves_the_old_server_running(self) -> None:
        station = self.station()
        station.start()
        starts = station.other_start
        falsified = station.other_program(f"{PROGRAM} \"$@\" | sed 's/^1,outside,1650,1650/1,outside,1640,1640/; "
                                          "s/^5,outside,0,0/5,outside,10,10/'")
        again = "; the server runs on station.journal again\n"
        limits: dict[str, Any] = {"preexec_fn": lambda: resource.setrlimit(resource.RLIMIT_FSIZE, (10**6, 10**6))}
        runs: tuple[tuple[Sequence[Word], dict[str, Any], str], ...] = (
                (["--stop", "false"], {}, "'false' failed: stop the server, and name --stop ''" + again),
                (["--capacity", "9"], {}, "9 requests leave no room in a journal of 9 touches"),
                (["--capacity", "10"], {}, "9 requests fill a journal of 10 touches to 90 % or more"),
                (["--capacity", "1000000"], limits, "File too large" + again),
                (falsified, {}, "card 1 held 1650, and holds 1640 in the new journal; card 5 held 0, and holds 10"),
                (starts("exit 7"), {}, "failed, so no server has next.journal"),
                ((*starts("exit 0"), "--patience", "3"), {}, "the server of next.journal at"))
        for more, options, said in runs:
            with self.subTest(said):
                status, _, err = station.alone(*more, **options)
                self.assert_back(station, status, err, said)
        # A file that is missing is found before the server is stopped.
        (station.folder / "prices.toml").rename(station.folder / "aside")
        process = station.pid.read_text()
        status, _, err = station.alone()
        self.assert_back(station, status, err, "prices.toml: no such file")
        self.assertEqual(station.pid.read_text(), process)
        (station.folder / "aside").rename(station.folder / "prices.toml")
        self.assertEqual(station.alone()[::2], (0, ""))
        self.assert_carried(station, 9)
        self.assertFalse((station.folder / "next-journal.failed").exists())

    def test_by_hand_a_failure_leaves_it_running_too(self) -> None:
        station = self.station()
        station.start()
        (station.folder / "prices.toml").rename(station.folder / "aside")
        start = station.words[station.words.index("--start") + 1]
        mended = f"mv {station.folder}/aside {station.folder}/prices.toml; {start}"
        status, _, err = station.run("--start", mended)
        self.assertEqual((status, err.endswith("; the server runs on station.journal again\n")), (1, True), err)
        self.assertEqual(serving.front_at(station.listen), 18)
        self.assertEqual(station.run("--start", start)[0], 0)
        self.assert_carried(station)

    def test_a_run_that_is_ended_leaves_it_running(self) -> None:
        """By a signal, while the balances are compared."""
        station = self.station()
        station.start()
        words = ["--when-above", "90", *station.words[1:], *station.other_program("exec sleep 600")]
        with subprocess.Popen([str(word) for word in (SCRIPT, *words)], stdout=subprocess.PIPE, stderr=subprocess.PIPE,
                              text=True) as running:
            assert running.stdout, "a pipe"
            while not running.stdout.readline().startswith("step 7"):
                self.assertIsNone(running.poll())
            running.terminate()
            _, err = running.communicate(timeout=RUN)
        self.assert_back(station, running.returncode, err, "ended by SIGTERM; the server runs on station.journal again")

    def test_a_touch_that_comes_while_it_is_stopped_gets_its_answer(self) -> None:
        station = self.station(capacity=20)
        station.start()
        lines = station.folder.parent / "lines"
        lines.write_text(codec.touch(codec.TOP_UP, 7, 900, 5, 300, MORNING + 900).hex() + "\n")
        stop = station.words[station.words.index("--stop") + 1]
        status, _, err = station.alone("--stop", f"{BIN / 'bovtrila-gate'} {station.listen} {lines} >/dev/null; {stop}")
        self.assertEqual((status, serving.front_at(station.listen)), (1, 19))
        self.assertIn("1 touches came while the server was being stopped", err)
        self.assertEqual(station.alone()[::2], (0, ""))
        self.assertEqual(wire.in_words(codec.enquiry(5), station.ask(codec.enquiry(5))),
                         "card 5 outside; balance 300, after 10 touches")

    def test_a_station_without_a_quiet_time_is_left_alone(self) -> None:
        station = self.station(capacity=1000)
        station.start()
        words = ["--when-above", "1", *station.words[1:], "--watch", "30", "--within", "1"]
        with subprocess.Popen([str(word) for word in (SCRIPT, *words)], stdout=subprocess.DEVNULL,
                              stderr=subprocess.PIPE, text=True) as running:
            limit, number = time.monotonic() + RUN, 500
            while running.poll() is None and time.monotonic() < limit:
                number += 1
                station.ask(codec.touch(codec.TOP_UP, 7, number, 5, 1, MORNING + number))
                time.sleep(0.05)
            assert running.stderr, "a pipe"
            err = running.stderr.read()
        self.assertEqual(running.returncode, 1)
        self.assertIn("for 1 s there were never 30 s without a touch: choose another hour. Nothing was changed", err)
        self.assertTrue(serving.has_server(station.old))

    def test_the_server_is_stopped_after_a_time_without_a_touch(self) -> None:
        station, watch, limit = self.station(capacity=20), 8, time.monotonic() + RUN
        station.start()
        stopped = station.folder.parent / "stopped-at"
        stop = station.words[station.words.index("--stop") + 1]
        words = ["--when-above", "90", *station.words[1:], "--watch", watch, "--stop", f"date +%s.%N >{stopped}; {stop}"]
        with subprocess.Popen([str(word) for word in (SCRIPT, *words)], stdout=subprocess.DEVNULL,
                              stderr=subprocess.PIPE, text=True) as running:
            # What is calculated while the server runs is there last.
            while not (station.folder / "after-station.journal" / "left").exists():
                self.assertIsNone(running.poll())
                self.assertLess(time.monotonic(), limit)
            time.sleep(watch / 4)
            sent = time.time()
            touch = codec.touch(codec.TOP_UP, 7, 900, 5, 300, MORNING + 900)
            self.assertEqual(wire.in_words(touch, station.ask(touch)), "topped up; change 300, balance 300")
            self.assertEqual((running.communicate(timeout=RUN)[1], running.returncode), ("", 0))
        # The touch began the time anew.
        self.assertGreaterEqual(float(stopped.read_text()) - sent, watch)
        self.assertEqual(wire.in_words(codec.enquiry(5), station.ask(codec.enquiry(5))),
                         "card 5 outside; balance 300, after 10 touches")

    def test_a_gate_with_two_addresses_repeats_in_the_time_if_nobody_attends(self) -> None:
        for words, seconds in ((["--when-above", "90%"], 130), (["station.journal", "--settled"], 5),
                               (["--when-above", "90%", "--watch", "7"], 7)):
            with self.subTest(words), mock.patch("sys.argv", ["next-journal", *words]):
                self.assertEqual(next_journal.options().watch, seconds)

    def test_a_touch_that_comes_while_balances_are_calculated_is_carried(self) -> None:
        station = self.station(capacity=20)
        station.start()
        lines, seen, program = (station.folder.parent / name for name in ("lines", "seen", "program"))
        lines.write_text(codec.touch(codec.TOP_UP, 7, 900, 5, 300, MORNING + 900).hex() + "\n")
        program.write_text(f'#!/bin/sh\ncase "$*" in\nbalances*lib/station.journal*) {PROGRAM} "$@" || exit\n'
                           f"test -e {seen} || {BIN / 'bovtrila-gate'} {station.listen} {lines} >{seen} ;;\n"
                           f'*) exec {PROGRAM} "$@" ;;\nesac\n')
        program.chmod(0o755)
        status, _, err = station.alone("--program", program)
        self.assertEqual((status, err, "topped up" in seen.read_text()), (0, "", True))
        self.assertEqual(wire.in_words(codec.enquiry(5), station.ask(codec.enquiry(5))),
                         "card 5 outside; balance 300, after 10 touches")

    def test_a_disk_without_room_is_found_before_the_server_is_stopped(self) -> None:
        """The new journal has a header of 64 bytes, 5000 slots of 64, and a byte; the old one has 18 slots."""
        station, needed = self.station(), 320_065 + 1_217
        station.start()
        process = station.pid.read_text()
        status, _, err = station.alone(env=self.free(needed - 1))
        self.assert_back(station, status, err,
                         f"{station.folder}: {needed - 1} bytes are free, and the new journal and a copy "
                         f"of the old one need {needed}: make room. Nothing was changed\n")
        self.assertEqual(station.pid.read_text(), process)
        self.assertEqual(station.alone(env=self.free(needed))[::2], (0, ""))
        self.assert_carried(station, 9)

    def free(self, count: int) -> dict[str, str]:
        """The environment in which Python finds so many free bytes on each disk, and more for root alone."""
        folder = self.room / f"free-{count}"
        folder.mkdir()
        (folder / "sitecustomize.py").write_text(
            f"import os\nos.statvfs = lambda _: os.statvfs_result((4096, 1, 10**12, 10**12, {count}, 0, 0, 0, 0, 255))\n")
        return {"PYTHONPATH": str(folder)}

    def test_a_server_that_could_not_be_started_again_is_started_by_the_next_run(self) -> None:
        station = self.station()
        station.start()
        status, _, err = station.alone("--start", "exit 3", *station.other_program("exit 5"))
        self.assertEqual((status, err.count("\n"), serving.has_server(station.old)), (1, 1, False))
        self.assertIn("; and 'exit 3' failed, so no server has station.journal: start it by hand\n", err)
        self.assertEqual(station.alone(percent="99")[::2], (0, ""))
        self.assert_carried(station, 9)

    def test_a_server_that_was_stopped_stays_so(self) -> None:
        station = self.station()
        status, _, err = station.alone(env={"JOURNAL_STREAM": "9:9"})
        self.assertEqual((status, serving.has_server(station.old), err.count("\n")), (1, False, 1))
        # systemd shows this as an error.
        self.assertTrue(err.startswith(f"<3>next-journal: no server answers at {station.listen}, or all its"), err)

    def test_a_server_that_shares_its_journal_is_refused(self) -> None:
        station = self.station()
        station.config.write_text(station.config.read_text() + "standby = yes\n")
        status, _, err = station.alone()
        self.assertEqual((status, "has standby = yes: the other computer would take over" in err), (1, True), err)

    def test_a_new_journal_with_touches_of_gates_stays(self) -> None:
        """It answered a gate, and then its start was said to have failed."""
        station = self.station()
        station.start()
        lines = station.folder.parent / "lines"
        lines.write_text(codec.touch(codec.TOP_UP, 7, 900, 5, 300, MORNING + 900).hex() + "\n")
        start = station.words[station.words.index("--start") + 1]
        seen = station.folder.parent / "seen"
        status, _, err = station.alone(*station.other_start(
            f"{start}\ntest -e {seen} && exit 0\ntouch {seen}\n"
            f"{BIN / 'bovtrila-gate'} {station.listen} {lines} >{seen} 2>&1\n"
            "exit 1"))
        self.assertEqual((status, err.count("\n")), (1, 1))
        self.assertIn("; next.journal has 1 touches of gates already, so the server stays on it\n", err)
        self.assertTrue(serving.has_server(station.folder / "next.journal"))
        self.assertIn("topped up", seen.read_text())
        # The next run finishes it.
        self.assertEqual(station.alone()[::2], (0, ""))
        self.assertTrue((station.folder / "after-station.journal" / "page").exists())
        self.assertEqual(serving.front_at(station.listen), 10)

    def test_a_run_that_was_cut_off_is_finished_by_the_next(self) -> None:
        """Killed before some of its calls that change a disk, start a program or connect."""
        for place in range(2, 300, 12):
            station = self.station()
            station.start()
            words = killing.words(place, SCRIPT, "--when-above", "90", *station.words[1:])
            done = subprocess.run(words, capture_output=True, text=True, timeout=RUN)
            if done.returncode == 0:
                break
            with self.subTest(place, step=done.stdout.count("step ")):
                self.assertEqual(done.returncode, -signal.SIGKILL, done.stderr)
                status, _, err = station.alone()
                self.assertEqual((status, err), (0, ""))
                self.assert_carried(station, 9)
            station.stop()
            shutil.rmtree(station.folder)
        self.assertGreater(place, 50)

    def test_a_run_that_was_cut_off_at_its_very_end_is_finished_too(self) -> None:
        station = self.station()
        station.start()
        self.assertEqual(station.alone()[::2], (0, ""))
        # What is removed last.
        (station.folder / "after-station.journal" / "stopped").touch()
        self.assertEqual(station.alone()[::2], (0, ""))
        self.assert_carried(station, 9)

    def test_what_was_begun_by_hand_is_left_to_a_person(self) -> None:
        station = self.station()
        station.start()
        self.assertEqual(station.run("--stop", "false")[0], 1)
        status, _, err = station.alone()
        self.assert_back(station, status, err, "a run that was started by hand isn't finished")

    def test_the_new_journal_has_the_day_in_its_name(self) -> None:
        now = datetime.datetime(2026, 3, 1)
        for old, new in (("station.journal", "station-20260301.journal"), ("a-20260105.journal", "a-20260301.journal"),
                         ("station-20260301.journal", "station-20260301-2.journal")):
            (self.room / old).touch()
            self.assertEqual(due.name_after(self.room, self.room / old, now), new)
            (self.room / old).unlink()

    def test_a_wrong_command_line_is_refused(self) -> None:
        station = self.station()
        for words, said in ((["--when-above", "0"], "'0' is no whole number from 1 to 99, as 90 or 90%"),
                            (["--when-above", "100"], "'100' is no whole number"),
                            (["station.journal", "--when-above", "90"], "name OLD with --settled or --dry-run"),
                            (["--settled"], "name OLD with --settled or --dry-run")):
            status, _, err = station.ended(*words)
            self.assertEqual((status, said in err), (2, True), err)
