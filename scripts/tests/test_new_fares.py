"""Tests bovtrila-new-fares with the built program: that it revises fares, also after a run that was killed before each
of its calls and started again; that it refuses what can't be done before anything changes; and that a server that
doesn't start with the new table runs again with its old settings.
"""
import datetime
import os
import pathlib
import pty
import pwd
import shutil
import signal
import subprocess
import tempfile
import time
from typing import Any

import harness
import killing
from bovtrila import codec, layout, model, serving, settings
from harness import EXAMPLE, PROGRAM, REVISED, TIME, TOP

SCRIPT, START = TOP / "bin" / "bovtrila-new-fares", TOP / "bin" / "bovtrila-start"
FIRST = model.Table(EXAMPLE.read_text())
# A card's first morning, on 2025-01-06, as docs/reference/PROTOCOL.md has it.
MORNING = [codec.touch(codec.ISSUE, 7, 1, 1, 1736149800), codec.touch(codec.TOP_UP, 7, 2, 1, 2000, 1736150100),
           codec.touch(codec.ENTER, 7, 3, 1, 2, 1736150400), codec.touch(codec.LEAVE, 7, 4, 1, 1, 1736151900)]
USER = pwd.getpwuid(os.geteuid()).pw_name
# A server that is ended and started again, as a unit does: $1 the folder with its files, $2 the command that starts it.
RESTART = """\
cd {top}
if [ -e pid ]; then
    kill $(cat pid) 2>/dev/null
    while kill -0 $(cat pid) 2>/dev/null; do sleep 0.01; done
fi
{hindrance}
setsid {start} --config {config} --folder {folder} --program {program} --user {user} >log 2>&1 </dev/null &
echo $! >pid
MAINPID=$! {start} --config {config} --user {user} --wait
"""


class Station:
    """A station in a folder, whose server runs on the example table."""

    def __init__(self, top: pathlib.Path) -> None:
        self.top, self.folder, self.config = top, top / "lib", top / "serve.conf"
        self.folder.mkdir(parents=True)
        shutil.copy(EXAMPLE, self.folder / "first.toml")
        (self.folder / "station.journal").write_bytes(layout.journal_of(MORNING, 1000, 10, FIRST.digest))
        self.listen = f"127.0.0.1:{harness.free_port()}"
        self.before = (f"# Ours.\ntable = first.toml\njournal = station.journal\ncards = 10\ncapacity = 1000\n"
                       f"listen = {self.listen}\nlines = 2\nstrict = yes\n")
        self.config.write_text(self.before)
        self.table = top / "prices-2026.toml"
        shutil.copy(REVISED, self.table)
        self.restarted = self.restart_command("")

    def restart_command(self, hindrance: str, name: str = "restart") -> str:
        (self.top / name).write_text(RESTART.format(top=self.top, start=START, config=self.config, folder=self.folder,
                                                    program=PROGRAM, user=USER, hindrance=hindrance))
        return f"sh {self.top}/{name}"

    def start(self) -> None:
        subprocess.run(["sh", "-c", self.restarted], check=True, timeout=TIME)

    def stop(self) -> None:
        subprocess.run(["sh", "-c", f"test ! -e {self.top}/pid || kill $(cat {self.top}/pid) 2>/dev/null"])

    def words(self, *more: object, first: object = "2026-01-05", table: str | pathlib.Path | None = None,
              restart: str | None = None) -> list[str]:
        return [str(word) for word in (table or self.table, "--from", first, "--folder", self.folder, "--config",
                                       self.config, "--user", USER, "--program", PROGRAM, "--restart",
                                       restart or self.restarted, "--far", *more)]

    def run(self, *more: object, **options: Any) -> tuple[int, str, str]:
        """Status, standard output and standard error of a run to its end."""
        done = subprocess.run([SCRIPT, *self.words(*more, **options)], capture_output=True, text=True, timeout=TIME,
                              stdin=subprocess.DEVNULL)
        if "Traceback" in done.stderr:
            raise AssertionError(done.stderr)
        return done.returncode, done.stdout, done.stderr

    def revisions(self) -> list[tuple[str, str, str]]:
        """The revisions of the journal: day, table and verdict."""
        words = settings.words_of(self.config)
        asked: list[str | pathlib.Path] = [PROGRAM, "history", "--table", words["table"], "--journal", words["journal"],
                                           *words.revised]
        said = subprocess.run(asked, capture_output=True, text=True, cwd=self.folder, check=True).stdout
        rows = [line.split(",") for line in said.splitlines() if ",revision," in line]
        return [(row[2], row[7][:8], row[9]) for row in rows]

    def process(self) -> int:
        return int((self.top / "pid").read_text())

    def is_good(self) -> bool:
        """Whether a server starts by the settings that are there."""
        words: list[str | pathlib.Path] = [START, "--check", "--config", self.config, "--folder", self.folder, "--program",
                                           PROGRAM, "--user",
                                           USER]
        return subprocess.run(words, capture_output=True, timeout=TIME).returncode == 0


class Fares(harness.ProgramTest):
    def setUp(self) -> None:
        room = tempfile.TemporaryDirectory(prefix="new-fares-")
        self.addCleanup(room.cleanup)
        self.room, self.made = pathlib.Path(room.name), 0
        self.room.chmod(0o755)

    def station(self) -> Station:
        self.made += 1
        station = Station(self.room / str(self.made))
        self.addCleanup(station.stop)
        station.start()
        return station

    def assert_revised(self, station: Station) -> None:
        self.assertEqual(station.revisions(), [("2026-01-05", "96cc50b0", "Revised")])
        self.assertEqual(station.config.read_text(), f"{station.before}revised = prices-2026.toml\n")
        installed = station.folder / "prices-2026.toml"
        self.assertEqual((installed.read_bytes(), installed.stat().st_mode & 0o777), (REVISED.read_bytes(), 0o640))
        self.assertEqual(serving.front_at(station.listen), 5)
        self.assertEqual([path.name for path in station.folder.iterdir() if path.name.endswith(".new")], [])

    def assert_unchanged(self, station: Station, process: int) -> None:
        """Nothing was changed, and the server goes on."""
        self.assertEqual(station.config.read_text(), station.before)
        self.assertEqual({path.name for path in station.folder.iterdir()}, {"first.toml", "station.journal"})
        self.assertEqual((station.process(), station.revisions()), (process, []))
        self.assertEqual(serving.front_at(station.listen), 4)

    def test_fares_are_revised_in_one_command(self) -> None:
        station = self.station()
        status, out, err = station.run("--yes")
        self.assertEqual((status, err), (0, ""))
        for line in ("          first.toml is in force until 2026-01-05; what changes:\n",
                     "          maximum_peak: 900 -> 1000\n",
                     "          a server with it, on a copy of the journal, said: revised; change 0, balance 0\n",
                     "          from Monday 2026-01-05 at 04:30 on prices-2026.toml counts\n"):
            self.assertIn(line, out)
        self.assert_revised(station)
        # Again it changes nothing.
        process = station.process()
        status, out, _ = station.run("--yes")
        self.assertEqual((status, station.process()), (0, process))
        self.assertIn("the fares are revised to prices-2026.toml from 2026-01-05 on already\n", out)
        self.assert_revised(station)

    def test_a_dry_run_changes_nothing(self) -> None:
        station = self.station()
        process = station.process()
        status, out, err = station.run("--dry-run")
        self.assertEqual((status, err), (0, ""))
        self.assertIn("          next: the same command without --dry-run\n          Nothing was changed.\n", out)
        self.assert_unchanged(station, process)

    def test_the_table_in_force_is_that_of_the_last_revision(self) -> None:
        station = self.station()
        self.assertEqual(station.run("--yes")[0], 0)
        process = station.process()
        # Back to the first table: it is known, so the server isn't started again. The dry run names the same command.
        status, out, _ = station.run("--dry-run", first="2026-03-02", table=station.folder / "first.toml")
        self.assertEqual((status, "next: the same command without --dry-run\n" in out), (0, True))
        status, out, err = station.run("--yes", first="2026-03-02", table=station.folder / "first.toml")
        self.assertEqual((status, err, station.process()), (0, "", process))
        self.assertIn("prices-2026.toml is in force until 2026-03-02; what changes:\n"
                      "          maximum_peak: 1000 -> 900\n", out)
        self.assertEqual(station.revisions(), [("2026-01-05", "96cc50b0", "Revised"),
                                               ("2026-03-02", "1708bef1", "Revised")])
        # No day before the last revision, and not that day.
        for day in ("2026-03-02", "2026-02-01"):
            status, _, err = station.run("--yes", first=day)
            self.assertEqual(status, 1)
            self.assertIn("the fares are revised from 2026-03-02 on already, to first.toml: name a later day", err)

    def test_what_can_not_be_is_refused_before_anything_changes(self) -> None:
        station = self.station()
        process, text = station.process(), REVISED.read_text()

        def table(name: str, content: str) -> pathlib.Path:
            (station.top / name).write_text(content)
            return station.top / name

        taken = station.folder / "taken.toml"
        runs: tuple[tuple[dict[str, Any], str], ...] = (
                ({"table": station.top / "none.toml"}, "none.toml: No such file or directory"),
                ({"table": table("broken.toml", "zone = 7\n")}, "isn't as it has to be; mend it:\nfault table"),
                ({"table": table("noted.toml", f"leg_minuts = 9\n{text}")}, "note: leg_minuts isn't known"),
                ({"table": table("other.toml", text.replace("id = 5", "id = 6"))}, "can't follow first.toml"),
                ({"table": table("it's \"new\".toml\"", text)}, "has quotes"),
                ({"first": "2025-01-06"}, "the server would refuse the revision; nothing was changed:\nrefused: a day with"),
                ({"table": table("first.toml", text)}, "first.toml is there already, and is another table"))
        for options, said in runs:
            with self.subTest(said):
                status, _, err = station.run("--yes", **options)
                self.assertEqual(status, 1)
                self.assertIn(said, err)
                self.assert_unchanged(station, process)
        self.assertFalse(taken.exists())
        station.config.write_text(station.before + "standby = yes\n")
        self.assertIn("standby = yes: the other computer would take over", station.run("--yes")[2])

    def test_without_a_yes_nothing_is_changed(self) -> None:
        station = self.station()
        process = station.process()
        self.assertIn("standard input is no terminal to ask at", station.run()[2])
        self.assert_unchanged(station, process)
        for word, wanted in (("no", 1), ("yes", 0)):
            ours, theirs = pty.openpty()
            os.write(ours, f"{word}\n".encode())
            done = subprocess.run([SCRIPT, *station.words()], stdin=theirs, capture_output=True, text=True, timeout=TIME)
            os.close(ours)
            os.close(theirs)
            self.assertEqual(done.returncode, wanted, done.stderr)
            self.assertIn("It can't be taken back. Send it? Type yes: ", done.stderr)
            if wanted:
                self.assert_unchanged(station, process)
        self.assert_revised(station)

    def test_a_far_day_takes_a_word_of_its_own(self) -> None:
        station = self.station()
        harness.begin_in_day(datetime.date.fromtimestamp)
        day = datetime.date.today() + datetime.timedelta(91)
        words = [word for word in station.words("--yes", first=day) if word != "--far"]
        done = subprocess.run([SCRIPT, *words], capture_output=True, text=True, timeout=TIME)
        self.assertEqual(done.returncode, 1)
        self.assertIn("say --far as well", done.stderr)
        self.assert_unchanged(station, station.process())

    def test_a_server_that_is_down_is_started_first(self) -> None:
        station = self.station()
        station.stop()
        while serving.has_server(station.folder / "station.journal"):
            time.sleep(0.02)
        status, _, err = station.run("--yes")
        self.assertEqual(status, 1)
        self.assertIn(f"no server answers at {station.listen}: start it", err)
        self.assertEqual(station.config.read_text(), station.before)

    def test_a_server_that_does_not_start_again_gets_its_old_settings_back(self) -> None:
        """The restart fails as long as the settings name the new table."""
        for hindrance, said in (("grep -q revised {config} && exit 7", "ended with status 7"),
                                ("grep -q revised {config} && rm -f {folder}/prices-2026.toml", "ended with status 1")):
            station = self.station()
            hindrance = hindrance.format(config=station.config, folder=station.folder)
            restart = station.restart_command(hindrance, "hindered")
            status, _, err = station.run("--yes", restart=restart)
            self.assertEqual(status, 1)
            self.assertIn(f"with prices-2026.toml the server wasn't started: '{restart}' {said}", err)
            self.assertIn("it runs again without it", err)
            self.assertEqual((station.revisions(), serving.front_at(station.listen)), ([], 4))
            self.assertEqual(station.config.read_text(), station.before)
            # Once the cause has gone the same command does it.
            self.assertEqual(station.run("--yes")[0], 0)
            self.assertEqual(serving.front_at(station.listen), 5)

    def test_a_file_of_root_in_the_folder_becomes_the_servers(self) -> None:
        """As `cp` leaves it there."""
        if os.geteuid() != 0:
            self.skipTest("files of another user: this needs root")
        station = self.station()
        place = station.folder / "prices-2026.toml"
        shutil.copy(REVISED, place)
        place.chmod(0o600)
        for path in (station.folder, *station.folder.iterdir()):
            if path != place:
                shutil.chown(path, "nobody", "nogroup")
        restart = station.restart_command("", "as-nobody")
        script = station.top / "as-nobody"
        script.write_text(script.read_text().replace(f"--user {USER}", "--user nobody"))
        words = [word if word != USER else "nobody" for word in station.words("--yes", table=place, restart=restart)]
        done = subprocess.run([SCRIPT, *words], capture_output=True, text=True, timeout=TIME)
        self.assertEqual((done.returncode, done.stderr), (0, ""))
        self.assertEqual((place.owner(), place.stat().st_mode & 0o777), ("nobody", 0o640))
        self.assertEqual(station.revisions(), [("2026-01-05", "96cc50b0", "Revised")])

    def killed(self, station: Station, place: int) -> str | None:
        """What a run had printed that was killed at this place, or nothing where it came to its end."""
        words = killing.words(place, SCRIPT, *station.words("--yes"))
        done = subprocess.run(words, capture_output=True, text=True, timeout=TIME)
        if done.returncode == 0:
            return None
        self.assertEqual(done.returncode, -signal.SIGKILL, done.stderr)
        return done.stdout

    def test_a_run_that_is_killed_before_the_file_is_there_changes_nothing(self) -> None:
        station = self.station()
        process: int | None = None
        for place in range(1, 200, 5):
            process = process or station.process()
            with self.subTest(place):
                if "step 5 of 7" in (said := self.killed(station, place) or "step 5 of 7"):
                    break
                self.assert_unchanged(station, process)
        # The programs that check, compare, rehearse and send, the copy, and each connection.
        self.assertGreater(place, 15)
        self.assertIn("step 5 of 7", said)

    def test_a_run_that_is_killed_later_is_made_whole_by_the_next(self) -> None:
        places, station = 0, self.station()
        for place in range(10, 200):
            said = self.killed(station, place)
            if said is None:
                break
            if "step 5 of 7" not in said:
                continue
            places += 1
            with self.subTest(place):
                # The server runs on, or starts by what is there.
                self.assertTrue(station.is_good())
                self.assertIsNotNone(serving.front_at(station.listen))
                status, _, err = station.run("--yes")
                self.assertEqual((status, err), (0, ""))
                self.assert_revised(station)
            station.stop()
            station = self.station()
        # The file and the settings, each written beside and moved, the start, a connection, and the program that sends.
        self.assertGreaterEqual(places, 8)
        self.assert_revised(station)
