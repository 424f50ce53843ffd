"""Tests the file of a server's settings: the values that are read, the refused ones with their lines, and the
conversion of an earlier version's file; and bovtrila-start with the built program: what --check finds before a server
is stopped, and how long --wait waits.
"""
import os
import pathlib
import pwd
import shutil
import signal
import socket
import subprocess
import tempfile
import unittest
from collections.abc import Callable, Iterable
from typing import Any

import harness
from bovtrila import codec, layout, model, serving, settings
from bovtrila.wire import Wrong
from harness import EXAMPLE, PROGRAM, REVISED, TIME, TOP

START = TOP / "bin" / "bovtrila-start"
LINES = ["table = first.toml", "journal = station.journal", "cards = 10", "capacity = 100", "listen = 127.0.0.1:4014",
         "lines = 2"]
# A file of an earlier version, with a line that the staff has written.
EARLIER = """\
# The words of the server behind `bovtrila serve` (man bovtrila-serve); paths are below /var/lib/bovtrila.
# Revised tables are the last words, and only ever grow: .. --lines 8 prices-2026.toml
# Asked for by the depot: twelve lines.
SERVE="--table first.toml --journal station.journal --cards 10 --capacity 100 --listen 127.0.0.1:4014 --lines 12 --strict \\
 --idle 90 prices.toml"
#SERVE="--table first.toml"
"""


def text(*more: str, without: Iterable[str] = ()) -> str:
    return "".join(f"{line}\n" for line in [*(line for line in LINES if line.split()[0] not in without), *more])


class Reading(unittest.TestCase):
    """The file's text, without the program."""

    def test_each_setting_is_an_argument(self) -> None:
        words = settings.read(text("strict = yes", "standby = no", "# a comment", "", " idle=60 ", "revised = a.toml",
                                   "stay-halted = yes", "report = 9", "connections = 3", "revised = b.toml",
                                   "proxy = yes", "door = door.toml"))
        self.assertEqual(words.arguments(), [
            "--table", "first.toml", "--journal", "station.journal", "--cards", "10", "--capacity", "100", "--listen",
            "127.0.0.1:4014", "--lines", "2", "--connections", "3", "--idle", "60", "--report", "9", "--door",
            "door.toml", "--strict", "--stay-halted", "--proxy", "a.toml", "b.toml"])

    def test_spaces_and_marks_in_a_name_stay(self) -> None:
        words = settings.read(text("revised = prices of 2026.toml", "revised = o'hare.toml", "revised = a=b;$c\\.toml"))
        self.assertEqual(words.arguments()[-3:], ["prices of 2026.toml", "o'hare.toml", "a=b;$c\\.toml"])

    def test_what_can_not_be_is_refused_with_its_line(self) -> None:
        rows: tuple[tuple[list[str], Iterable[str], str], ...] = (
                (["revised = \"prices.toml\""], (), "line 7: revised: \"prices.toml\" has quotes; write the value without"),
                (["revised = 'prices.toml"], (), "line 7: revised: 'prices.toml has quotes"),
                (["revised = prices.toml\""], (), "line 7: revised: prices.toml\" has quotes"),
                (["cards = 1,000"], ["cards"], "line 6: cards: '1,000' is no number from 1 to 100000; write it in digits"),
                (["cards = 100001"], ["cards"], "line 6: cards: '100001' is no number from 1 to 100000"),
                (["lines = 0"], ["lines"], "line 6: lines: '0' is no number from 1 to 64; write it in digits alone, as 64"),
                (["capacity = 5 # many"], ["capacity"], "line 6: capacity: '5 # many' is no number"),
                (["revised = a.toml # new"], (), "a comment has a line of its own"),
                (["listen = 4014"], ["listen"], "line 6: listen: "),
                (["strict = true"], (), "line 7: strict: 'true' is neither yes nor no"),
                (["card = 10"], (), "line 7: there is no setting 'card'; there are table, journal, cards, "),
                (["--strict"], (), "line 7: '--strict' is no setting; write NAME = VALUE"),
                (["", "# one", "cards = 9"], (), "line 9: line 3 has 'cards' already; remove one of the two"),
                (["revised = --strict"], (),
                 "line 7: revised: '--strict' begins like an option; name the file as ./--strict"),
                (["idle ="], (), "line 7: idle: it has no value"),
                ([], ["journal"], "it has no line 'journal = ..'"), ([], ["table"], "it has no line 'table = ..'"))
        for more, without, said in rows:
            with self.subTest(more=more, without=without):
                with self.assertRaises(Wrong) as caught:
                    settings.read(text(*more, without=without))
                self.assertTrue(str(caught.exception).startswith(said) or said.startswith("a comment"),
                                str(caught.exception))
                self.assertIn(said, str(caught.exception))

    def test_a_file_that_can_not_be_read_is_told(self) -> None:
        with tempfile.TemporaryDirectory() as folder:
            none, latin = pathlib.Path(folder) / "none", pathlib.Path(folder) / "latin"
            latin.write_bytes(b"table = caf\xe9\n")
            for path, said in ((none, "there is no such file; bovtrila-setup makes it"), (latin, "can't decode byte"),
                               (pathlib.Path(folder), "Is a directory")):
                with self.assertRaises(Wrong) as caught:
                    settings.words_of(path)
                self.assertIn(said, str(caught.exception))

    def test_the_sample_shows_each_setting_of_a_station(self) -> None:
        self.assertEqual(str(settings.sample()), "--table first.toml --journal station.journal --cards 1000 --capacity "
                         "1000000 --listen 127.0.0.1:4014 --lines 8 --strict")
        shown = {match[2] for match in map(settings.LINE.fullmatch, settings.sample_text().splitlines()) if match}
        # Two are for tests, and one leaves a server halted.
        self.assertEqual(set(settings.NAMES) - shown, {"connections", "report", "stay-halted"})


class Changing(unittest.TestCase):
    """A file that scripts change."""

    def test_only_the_lines_of_a_change_change(self) -> None:
        before = text("# Ours.", "strict = yes", "# idle = 300", "revised = a.toml", "", "# The end.")
        words = settings.read(before)
        self.assertEqual(settings.written(words, before), before)
        words.revised.append("b c.toml")
        words.options.update({"--idle": "60", "--cards": "11"})
        self.assertEqual(settings.written(words, before), before.replace("cards = 10", "cards = 11").replace(
            "# idle = 300", "idle = 60").replace("revised = a.toml\n", "revised = a.toml\nrevised = b c.toml\n"))
        words = settings.read(before)
        words.revised, words.flags = [], []
        self.assertEqual(settings.written(words, before), before.replace("strict = yes", "#strict = yes").replace(
            "revised = a.toml", "#revised = a.toml"))

    def test_a_setting_without_a_place_comes_at_the_end(self) -> None:
        words = settings.read(text())
        words.revised = ["a.toml"]
        self.assertEqual(settings.written(words, text()), text("revised = a.toml"))

    def test_each_change_is_read_back(self) -> None:
        changes: list[list[str]] = [[], ["strict = yes"], ["idle = 9", "revised = a b"],
                                    ["revised = a", "revised = b", "standby = yes"]]
        for more in changes:
            wanted = settings.read(text(*more))
            for before in (None, text(), text("revised = z", "revised = y"), EARLIER, settings.sample_text()):
                self.assertEqual(settings.read(settings.written(wanted, before)), wanted)


class Earlier(unittest.TestCase):
    """A file of an earlier version, with all arguments in one line."""

    def setUp(self) -> None:
        room = tempfile.TemporaryDirectory(prefix="station-settings-")
        self.addCleanup(room.cleanup)
        self.config = pathlib.Path(room.name) / "serve.conf"

    def rewrite(self) -> tuple[int, str]:
        words: list[str | pathlib.Path] = [START, "--rewrite", "--config", self.config, "--user",
                                           pwd.getpwuid(os.geteuid()).pw_name]
        done = subprocess.run(words, capture_output=True, text=True, timeout=TIME)
        return done.returncode, done.stdout + done.stderr

    def test_it_is_read_and_written_anew_with_its_comments(self) -> None:
        self.config.write_text(EARLIER)
        before = settings.words_of(self.config).arguments()
        self.assertEqual(before, ["--table", "first.toml", "--journal", "station.journal", "--cards", "10", "--capacity",
                                  "100", "--listen", "127.0.0.1:4014", "--lines", "12", "--idle", "90", "--strict",
                                  "prices.toml"])
        self.assertEqual(self.rewrite()[0], 0)
        after = self.config.read_text()
        self.assertEqual(settings.words_of(self.config).arguments(), before)
        self.assertNotIn("SERVE", after)
        self.assertNotIn("paths are below", after)
        self.assertTrue(after.startswith("# Asked for by the depot: twelve lines.\n# The settings of a server, one a line"))
        self.assertEqual(self.config.stat().st_mode & 0o777, 0o644)
        status, said = self.rewrite()
        self.assertEqual((status, "has a setting a line already" in said, self.config.read_text()), (0, True, after))

    def test_one_that_can_not_be_read_stays(self) -> None:
        for line, said in (('SERVE="--table first.toml', "line 2: No closing quotation"),
                           ('SERVE="--table first.toml --tabel x"', "line 2: '--tabel' is no option of serve"),
                           ('SERVE="--table first.toml"', "line 2: the arguments of serve lack --journal")):
            self.config.write_text(f"# One line.\n{line}\n")
            before = self.config.read_bytes()
            status, told = self.rewrite()
            self.assertEqual((status, self.config.read_bytes()), (1, before))
            self.assertIn(f"{self.config}: {said}", told)


class Trying(harness.ProgramTest):
    """bovtrila-start with the built program."""

    def setUp(self) -> None:
        room = tempfile.TemporaryDirectory(prefix="station-settings-")
        self.addCleanup(room.cleanup)
        self.top = pathlib.Path(room.name)
        self.top.chmod(0o755)
        self.folder, self.config = self.top / "lib", self.top / "serve.conf"
        self.folder.mkdir()
        shutil.copy(EXAMPLE, self.folder / "first.toml")
        shutil.copy(REVISED, self.folder / "prices of 2026.toml")
        self.listen = f"127.0.0.1:{harness.free_port()}"
        self.journal = self.folder / "station.journal"
        self.journal.write_bytes(layout.journal_of([codec.touch(codec.ISSUE, 7, 1, 1, 1736149800)], 100, 10,
                                                   model.Table(EXAMPLE.read_text()).digest))
        self.user = pwd.getpwuid(os.geteuid()).pw_name
        self.write("strict = yes", "revised = prices of 2026.toml")

    def write(self, *more: str, without: Iterable[str] = ()) -> None:
        self.config.write_text(text(f"listen = {self.listen}", *more, without=("listen", *without)))

    def words(self, *more: object, user: str | None = None) -> list[str]:
        return [str(word) for word in (START, "--config", self.config, "--folder", self.folder, "--program", PROGRAM,
                                       "--user", user or self.user, *more)]

    def check(self, **options: Any) -> tuple[int, str, str]:
        """Status, standard output and standard error of a check, which changes no file."""
        before = {path: (path.read_bytes(), path.stat().st_mtime_ns) for path in self.folder.iterdir()}
        done = subprocess.run(self.words("--check", **options), capture_output=True, text=True, timeout=TIME)
        self.assertNotIn("Traceback", done.stderr)
        self.assertEqual({path: (path.read_bytes(), path.stat().st_mtime_ns) for path in self.folder.iterdir()}, before)
        return done.returncode, done.stdout, done.stderr

    def started(self) -> subprocess.Popen[str]:
        server = subprocess.Popen(self.words(), stdout=subprocess.DEVNULL, stderr=subprocess.PIPE, text=True)
        self.addCleanup(server.communicate)
        self.addCleanup(server.kill)
        return server

    def wait(self, process: int) -> subprocess.CompletedProcess[str]:
        return subprocess.run(self.words("--wait"), capture_output=True, text=True, timeout=TIME,
                              env={**os.environ, "MAINPID": str(process)})

    def test_it_becomes_the_server(self) -> None:
        server = self.started()
        self.assertEqual(self.wait(server.pid).returncode, 0)
        self.assertEqual(serving.front_at(self.listen), 1)
        assert server.stderr, "a pipe"
        self.assertIn(f"listening {self.listen}\n", server.stderr.readline())
        line = pathlib.Path(f"/proc/{server.pid}/cmdline").read_bytes().split(b"\0")
        self.assertIn(b"prices of 2026.toml", line)
        # While it runs its settings are good, and so are those of a second address.
        self.assertEqual(self.check()[::2], (0, ""))
        server.send_signal(signal.SIGTERM)
        server.wait(TIME)

    def test_good_settings_are_said_to_be_good(self) -> None:
        status, out, err = self.check()
        self.assertEqual((status, err), (0, ""))
        self.assertIn(f"good     a server starts with these settings, and listens at {self.listen}\n", out)
        self.journal.unlink()
        self.write()
        self.assertIn(f"note     {self.journal}: there is no such journal; the server makes one\n", self.check()[1])
        self.assertFalse(self.journal.exists())

    def test_what_a_server_refuses_is_found_with_its_line(self) -> None:
        (self.folder / "broken.toml").write_text("zone = 7\n")
        other = "listen = 192.0.2.7:4014"
        changes: tuple[tuple[Callable[[], object], str], ...] = (
                (lambda: self.write("table = frist.toml", without=["table"]),
                 "line 6: the server refuses these settings:\nfault file\n  frist.toml: no such file\n"),
                (lambda: self.write("revised = broken.toml"), "line 7: the server refuses these settings:\nfault table"),
                (lambda: self.write("revised = first.toml"), "fault supply 2 Twice 1"),
                (lambda: self.write("cards = 11", without=["cards"]), "fault journal 6 WrongCards\n"),
                (lambda: self.write("journal = none.journal", "strict = yes", without=["journal"]),
                 "line 6: the server refuses these settings:\nfault file\n  none.journal: no such file\n"),
                (lambda: self.config.write_text(text(other, without=["listen"])),
                 "line 6: listen: 192.0.2.7:4014: Cannot assign requested address"),
                (lambda: self.write("lines = 65", without=["lines"]), "line 6: lines: '65' is no number from 1 to 64"),
                (lambda: self.write('revised = "a.toml'), 'line 7: revised: "a.toml has quotes'))
        for change, said in changes:
            change()
            with self.subTest(said):
                status, out, err = self.check()
                self.assertEqual((status, out), (1, ""), err)
                self.assertTrue(err.startswith(f"start: {self.config}: "), err)
                self.assertIn(said, err)

    def test_a_taken_port_is_found(self) -> None:
        host, port = self.listen.split(":")
        with socket.create_server((host, int(port))):
            status, _, err = self.check()
        self.assertEqual(status, 1)
        self.assertIn(f"line 6: listen: {self.listen}: Address already in use", err)

    def test_a_table_that_the_servers_user_may_not_read_is_found(self) -> None:
        if os.geteuid() != 0:
            self.skipTest("files of another user: this needs root")
        for path in (self.folder, *self.folder.iterdir()):
            shutil.chown(path, "nobody")
        self.assertEqual(self.check(user="nobody")[0], 0)
        table = self.folder / "prices of 2026.toml"
        shutil.chown(table, "root")
        table.chmod(0o640)
        status, _, err = self.check(user="nobody")
        self.assertEqual(status, 1)
        self.assertIn("line 8: the server refuses these settings:\nfault file\n  prices of 2026.toml: Permission denied\n",
                      err)

    def test_wrong_settings_start_nothing(self) -> None:
        self.write("cards = 1,000", without=["cards"])
        done = subprocess.run(self.words(), capture_output=True, text=True, timeout=TIME)
        self.assertEqual((done.returncode, done.stdout), (2, ""))
        self.assertIn("line 6: cards: '1,000' is no number from 1 to 100000; write it in digits alone, as 1000\n",
                      done.stderr)

    def test_a_server_that_ends_is_not_waited_for(self) -> None:
        self.write("cards = 11", without=["cards"])
        server = self.started()
        done = self.wait(server.pid)
        self.assertEqual(done.returncode, 1)
        self.assertIn("the server has ended before it served", done.stderr)
        # Nor one that ended before, or one on standby.
        server.wait(TIME)
        self.assertEqual(self.wait(server.pid).returncode, 1)
        self.write("strict = yes", "standby = yes")
        self.assertEqual(self.wait(server.pid).returncode, 0)

    def test_another_listener_at_the_address_is_not_the_server(self) -> None:
        host, port = self.listen.split(":")
        with socket.create_server((host, int(port))):
            server = self.started()
            self.assertEqual(self.wait(server.pid).returncode, 1)
