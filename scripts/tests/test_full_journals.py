"""Tests bovtrila-next-journal with the built program: the transferred balances, a kill at each of its calls that change
something with another start, runs that nobody attends, and its refusals.
"""
import csv
import json
import os
import pathlib
import pwd
import shutil
import signal
import subprocess
import time

import killing
from bovtrila import codec, layout, model, serving, wire
from full_station import CARRIED, HELD, MORNING, PRICES, RUN, SCRIPT, Station, Stations
from harness import BIN, PROGRAM, TIME
# A class of tests that is run here too.
from unattended import Sums, Unattended  # noqa: F401


class Steps(Stations):
    def test_a_new_journal_follows_a_full_one(self) -> None:
        station = self.station()
        station.start()
        kept = codec.touch(codec.TOP_UP, 7, 900, 5, 300, MORNING + 900)
        self.assertEqual(station.ask(kept), codec.fault(codec.FULL, 7, 900))
        status, out, err = station.run()
        self.assertEqual((status, err), (0, ""))
        self.assert_carried(station)
        # What was carried, what wasn't and why.
        seal = (station.folder / "after-station.journal" / "seal").read_text().split()
        self.assertEqual(seal[1], "18")
        for line in ("carried   11750 pence to 5 cards, by 8 requests of gate 65535, numbers 100000 to 100007, of 20",
                     "balances  11600 pence in station.journal: ",
                     f"old       station.journal: 18 touches, sealed {seal[2]}",
                     "new       next.journal: 10 cards, room for 4992 more touches, fare table prices.toml",
                     "owed      700 pence of 1 card: a debt isn't carried", "          card 2: 700\n",
                     "left      550 pence of 1 card: above the balance limit", "          card 3: 550\n",
                     "inside    1 card: the journey isn't carried", "          card 4, which holds 1100\n",
                     "revision  to first.toml from 2099-01-05 on: send it again: "):
            self.assertIn("\n" + line, out)
        # The new journal lacks the fares to come, until the command is given that the page names, in any folder.
        command = (f"bovtrila-new-fares {station.folder}/first.toml --from 2099-01-05 --folder {station.folder} --config "
                   f"{station.config}")
        self.assertIn(f"\nNext: send the new fares again, which the new journal doesn't have:\n      {command}\nThen start "
                      "the gates. ", out)
        self.assertIn(f"on: send it again: {command}\n", out)
        user = pwd.getpwuid(os.geteuid()).pw_name
        done = subprocess.run(f"{BIN}/{command} --yes --far --program {PROGRAM} --user {user}", shell=True, cwd="/",
                              capture_output=True, text=True, timeout=RUN)
        self.assertEqual((done.returncode, done.stderr), (0, ""))
        self.assertIn("from Monday 2099-01-05 at 04:30 on first.toml counts\n", done.stdout)
        # The gates go on: the touch that was refused is taken now.
        self.assertEqual(wire.in_words(kept, station.ask(kept)), "topped up; change 300, balance 300")
        # The same command once more changes nothing.
        before = station.tree()
        status, again, _ = station.run()
        self.assertEqual((status, again.partition("follows")[2]), (0, out.partition("follows")[2]))
        self.assertEqual(station.tree(), before)

    def test_a_dry_run_changes_nothing(self) -> None:
        station = self.station()
        station.start()
        before = station.tree()
        status, out, err = station.run(how="--dry-run")
        self.assertEqual((status, err), (0, ""))
        for line in ("now it has 18 touches", "5 cards hold 11600 pence; the fare table is prices.toml",
                     "8 requests carry 11750 pence", "make next.journal for 10 cards and 5000 touches",
                     'write the settings --table prices.toml --journal next.journal', "          card 2: 700\n",
                     "Nothing was changed."):
            self.assertIn(line, out)
        self.assertEqual((station.tree(), serving.has_server(station.old)), (before, True))
        self.assertEqual(serving.front_at(station.listen), 18)

    def test_a_run_that_was_killed_goes_on(self) -> None:
        """Killed before each of its calls that change a disk, start a program or connect, and started again."""
        for place in range(1, 200):
            station = self.station()
            station.start()
            words = killing.words(place, SCRIPT, *station.words, "--settled")
            done = subprocess.run(words, capture_output=True, text=True, timeout=RUN)
            if done.returncode == 0:
                break
            with self.subTest(place, step=done.stdout.count("step ")):
                self.assertEqual(done.returncode, -signal.SIGKILL, done.stderr)
                status, _, err = station.run()
                self.assertEqual((status, err), (0, ""))
                self.assert_carried(station)
            station.stop()
            shutil.rmtree(station.folder)
        self.assertGreater(place, 30)
        self.assert_carried(station)

    def test_a_server_of_the_old_journal_that_came_up_again_is_stopped_again(self) -> None:
        """As after a loss of power between the steps, where the machine starts the server by the words that are
        there."""
        station = self.station()
        station.start()
        place = next(place for place in range(20, 200) if self.killed_with(station, place, "next.journal"))
        self.assertGreater(place, 20)
        station.start()
        self.assertTrue(serving.has_server(station.old))
        self.assertEqual(station.run()[0], 0)
        self.assert_carried(station)
        self.assertFalse(serving.has_server(station.old))

    def killed_with(self, station: Station, place: int, name: str) -> bool:
        """Whether a run that is killed at this place leaves this file, under the old server's words."""
        subprocess.run(killing.words(place, SCRIPT, *station.words, "--settled"), capture_output=True, timeout=RUN)
        self.assertEqual(serving.words_of(station.config)["journal"], "station.journal")
        if (station.folder / name).exists():
            return True
        shutil.rmtree(station.folder / "after-station.journal", ignore_errors=True)
        return False

    def test_touches_that_still_come_are_told(self) -> None:
        station = self.station(capacity=1000)
        station.start()
        words = [str(word) for word in (SCRIPT, *station.words, "--settled", "--watch", "5")]
        with subprocess.Popen(words, stdout=subprocess.PIPE, stderr=subprocess.PIPE, text=True) as running:
            assert running.stderr, "a pipe"
            limit = time.monotonic() + TIME
            number = 500
            while running.poll() is None and time.monotonic() < limit:
                number += 1
                station.ask(codec.touch(codec.TOP_UP, 7, number, 5, 1, MORNING + number))
                time.sleep(0.05)
            err = running.stderr.read()
        self.assertEqual(running.returncode, 1)
        self.assertRegex(err, r"^next-journal: \d+ touches came within 5 s: wait until each gate has its answers")
        self.assertTrue(serving.has_server(station.old))

    def test_an_old_journal_that_grew_in_between_is_told(self) -> None:
        station = self.station(capacity=1000)
        for place in range(8, 200):
            subprocess.run(killing.words(place, SCRIPT, *station.words, "--settled"), capture_output=True, timeout=RUN)
            if (station.folder / "after-station.journal" / "old.csv").exists():
                break
        station.start()
        station.ask(codec.touch(codec.TOP_UP, 7, 500, 5, 1, MORNING))
        status, _, err = station.run()
        self.assertEqual(status, 1)
        self.assertIn("has 19 touches, and 18 were copied: a server was started with it since", err)
        self.assertFalse((station.folder / "next.journal").exists())

    def test_open_slots_behind_the_end_are_told(self) -> None:
        """The mark of the eleventh of 18 touches was lost."""
        station = self.station()
        content = bytearray(station.old.read_bytes())
        content[64 + 64 * 10] = 0
        station.old.write_bytes(content)
        before = station.config.read_bytes()
        for how in ("--dry-run", "--settled"):
            with self.subTest(how):
                status, _, err = station.run(how=how)
                said = f'{station.old} has 7 open slots behind its end: FAULTS.md, "Notes"'
                self.assertEqual((status, err), (1, f"next-journal: {said}\n"))
                self.assertEqual((station.old.read_bytes(), station.config.read_bytes()), (content, before))
                self.assertFalse((station.folder / "next.journal").exists())

    def test_a_wrong_answer_starts_nothing(self) -> None:
        """Another touch has the number of the third request."""
        station = self.station()
        for place in range(1, 200):
            subprocess.run(killing.words(place, SCRIPT, *station.words, "--settled"), capture_output=True, timeout=RUN)
            work = station.folder / "after-station.journal"
            if (work / "new.journal").exists():
                break
        other = codec.touch(codec.ISSUE, 65_535, 100_002, 9, MORNING)
        (work / "new.journal").write_bytes(layout.journal_of([other], 5000, 10, PRICES.digest))
        before = station.config.read_bytes()
        status, _, err = station.run()
        self.assertEqual(status, 1)
        self.assertIn("line 3 of the requests, ", err)
        self.assertIn("conflict: the number stands for another touch", err)
        self.assertEqual((station.config.read_bytes(), (station.folder / "next.journal").exists()), (before, False))

    def test_a_card_that_holds_something_else_starts_nothing(self) -> None:
        """A card was topped up in the new journal before it was compared."""
        station = self.station()
        for place in range(1, 200):
            subprocess.run(killing.words(place, SCRIPT, *station.words, "--settled"), capture_output=True, timeout=RUN)
            work = station.folder / "after-station.journal"
            if (work / "answers").exists():
                break
        frames = model.journal((work / "new.journal").read_bytes(), PRICES, 10)[0]
        frames.append(codec.touch(codec.TOP_UP, 9, 1, 5, 70, MORNING))
        (work / "new.journal").write_bytes(layout.journal_of(frames, 5000, 10, PRICES.digest))
        status, _, err = station.run()
        self.assertEqual(status, 1)
        self.assertIn("card 5 held 0, and holds 70 in the new journal. Its sum is 11820, and 11750 was carried", err)
        self.assertFalse((station.folder / "next.journal").exists())

    def test_what_does_not_go_together_is_refused(self) -> None:
        station = self.station()
        before = station.tree()
        rows: tuple[tuple[list[str | pathlib.Path], str], ...] = (
            (["--capacity", "8"], "8 requests leave no room in a journal of 8 touches"),
            (["--cards", "9"], "--cards 9 is below the 10 of station.journal"),
            (["--journal", "station.journal"], "the new journal can't have the name station.journal"),
            (["--journal", "first.toml"], "first.toml is there already"),
            (["--config", station.folder / "first.toml"], "first.toml: line 1: there is no setting 'zone'"))
        for more, said in rows:
            with self.subTest(more):
                status, _, err = station.run(*more)
                self.assertEqual((status, said in err), (1, True), err)
                shutil.rmtree(station.folder / "after-station.journal", ignore_errors=True)
                self.assertEqual(station.tree(), before)
        self.assertEqual(station.run("--stop", "false")[0], 1)
        # It was begun, and goes on with the same words alone.
        status, _, err = station.run("--capacity", "6000")
        self.assertIn("was begun with capacity 5000, not 6000: give the same words", err)
        self.assertEqual(station.run()[0], 0)
        self.assert_carried(station)

    def test_by_hand_it_waits_for_both_ends(self) -> None:
        station = self.station()
        station.start()
        hands = ["--stop", "", "--start", ""]
        status, _, err = station.run(*hands)
        self.assertEqual((status, "a server has" in err), (1, True), err)
        station.stop()
        status, out, err = station.run(*hands)
        self.assertEqual((status, err), (0, ""))
        self.assertIn(f"start the server now, by the settings in {station.config}", out)
        station.start()
        self.assert_carried(station)

    def test_more_cards_and_another_table_may_be_named(self) -> None:
        station = self.station(more=("--cards", "40", "--table", "first.toml", "--gate", "9", "--first", "3"))
        status, out, err = station.run()
        self.assertEqual((status, err), (0, ""))
        self.assertIn("gate 9, numbers 3 to 10, ", out)
        self.assertTrue(str(serving.words_of(station.config)).startswith("--table first.toml --journal next.journal "
                                                                         "--cards 40 "))

    def test_a_station_without_cards_is_followed(self) -> None:
        station = self.station(frames=[], capacity=1)
        status, out, err = station.run()
        self.assertEqual((status, err), (0, ""))
        self.assertIn("carried   0 pence to 0 cards, by 0 requests of gate 65535, of ", out)
        self.assertEqual(serving.front_at(station.listen), 0)

    def test_what_is_kept_says_it_all(self) -> None:
        station = self.station()
        self.assertEqual(station.run()[0], 0)
        work = station.folder / "after-station.journal"
        with open(work / "new.csv", newline="") as file:
            self.assertEqual({int(row["card"]): int(row["balance"]) for row in csv.DictReader(file)}, CARRIED)
        with open(work / "old.csv", newline="") as file:
            self.assertEqual({int(row["card"]): int(row["balance"]) for row in csv.DictReader(file)}, HELD)
        self.assertEqual(len((work / "answers").read_text().splitlines()), 8)
        self.assertEqual(json.loads((work / "tables.json").read_text()),
                         {"now": "prices.toml", "later": [["first.toml", "2099-01-05"]], "limit": 9000})
