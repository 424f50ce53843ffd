"""Tests bovtrila-setup with the built program: its files serve gates, existing files stay, and after a run that was
killed the next run makes what is missing.
"""
import os
import pathlib
import pwd
import re
import resource
import shutil
import signal
import socket
import subprocess
import tempfile
import unittest
import unittest.mock

import harness
import killing
from bovtrila import layout, model, serving, settings
from harness import CRATES, EXAMPLE, PROGRAM, REVISED, TIME, TOP

SETUP = TOP / "bin" / "bovtrila-setup"
FOUR = [bytes.fromhex(line) for line in (CRATES / "tap_server" / "stdin").read_text().split()]
# The word by which a server makes no journal, where the program knows it.
STRICT = " --strict" if PROGRAM.is_file() and "--strict" in serving.run([PROGRAM, "serve", "--help"])[1] else ""
# The journal of 100 cards with room for 5000 touches, before its first touch: its header, and its whole size.
DIGEST = model.Table(EXAMPLE.read_text()).digest
EMPTY = layout.header_of(5000, 100, DIGEST) + bytes(1 + 64 * 5000)


class Setup(harness.ProgramTest):
    """Each test has a folder of its own."""

    def setUp(self) -> None:
        room = tempfile.TemporaryDirectory(prefix="first-start-")
        self.addCleanup(room.cleanup)
        self.top = pathlib.Path(room.name)
        # The user of the server looks for its folder there.
        self.top.chmod(0o755)
        self.folder, self.config = self.top / "lib", self.top / "etc" / "serve.conf"
        self.table = self.top / "first.toml"
        shutil.copy(EXAMPLE, self.table)

    def words(self, *more: object, **other: object) -> list[str]:
        asked = {"table": self.table, "cards": 100, "capacity": 5000, "listen": "127.0.0.1:4914", "program": PROGRAM,
                 "folder": self.folder, "config": self.config, "user": pwd.getpwuid(os.geteuid()).pw_name, **other}
        return [str(word) for name, value in asked.items() for word in (f"--{name}", value)] + [*map(str, more)]

    def setup_runs(self, *more: object, **other: object) -> tuple[int, str, str]:
        """Status, standard output and standard error of a run."""
        done = subprocess.run([SETUP, *self.words(*more, **other)], capture_output=True, text=True, timeout=TIME)
        self.assertNotIn("Traceback", done.stderr)
        return done.returncode, done.stdout, done.stderr

    def there(self) -> dict[str, tuple[bytes, int, int]]:
        """Each file of the station, with its bytes, its mode and the time of its last change."""
        return {str(path.relative_to(self.top)): (path.read_bytes(), path.stat().st_mode, path.stat().st_mtime_ns)
                for path in sorted(self.top.rglob("*")) if path.is_file() and path != self.table}

    def assert_set_up(self) -> None:
        self.assertEqual((self.folder / "station.journal").read_bytes(), EMPTY)
        self.assertEqual((self.folder / "first.toml").read_bytes(), EXAMPLE.read_bytes())
        self.assertEqual(str(settings.words_of(self.config)), "--table first.toml --journal station.journal --cards 100 "
                         f"--capacity 5000 --listen 127.0.0.1:4914 --lines 8 --idle 300{STRICT}")
        self.assertEqual(set(self.there()), {"lib/station.journal", "lib/first.toml", "etc/serve.conf"})

    def served(self) -> serving.Started:
        """A server by the words that were written, on a free port."""
        words = settings.words_of(self.config)
        words.options["--listen"] = "127.0.0.1:0"
        return serving.Started([PROGRAM, "serve", *words.arguments()], cwd=self.folder)

    def test_what_is_made_serves_gates(self) -> None:
        status, out, err = self.setup_runs()
        self.assertEqual((status, err), (0, ""))
        self.assert_set_up()
        self.assertIn(f"table    {self.table}: stations 5, singles 6, caps 3\n", out)
        self.assertIn(f"journal  {self.folder}/station.journal: 100 cards, room for 5000 touches, 320065 bytes\n", out)
        # All of its room is taken on the disk.
        self.assertGreaterEqual(512 * (self.folder / "station.journal").stat().st_blocks, 320065)
        for _ in range(2):
            with self.served() as server:
                gate = f"127.0.0.1:{server.address[1]}"
                done = subprocess.run([TOP / "bin" / "bovtrila-gate", gate, CRATES / "tap_server" / "stdin"],
                                      capture_output=True, text=True, timeout=TIME)
            self.assertEqual([line.split("  ")[1] for line in done.stdout.splitlines()],
                             ["issued; change 0, balance 0", "topped up; change 2000, balance 2000",
                              "in; change -900, balance 1100", "out; change 550, balance 1650"])
        whole = EMPTY[:64] + b"".join(map(layout.slot_of, FOUR))
        self.assertEqual((self.folder / "station.journal").read_bytes(), whole + bytes(len(EMPTY) - len(whole)))

    def test_what_is_there_stays(self) -> None:
        self.assertEqual(self.setup_runs()[0], 0)
        with self.served() as server:
            subprocess.run([TOP / "bin" / "bovtrila-gate", f"127.0.0.1:{server.address[1]}",
                            CRATES / "tap_server" / "stdin"],
                           capture_output=True, timeout=TIME, check=True)
            before = self.there()
            # While the server runs, and after it.
            self.assertIn("made     nothing: all of it is there already\n", self.setup_runs()[1])
            self.assertEqual(self.there(), before)
        status, out, _ = self.setup_runs()
        self.assertEqual((status, "nothing: all of it is there already" in out), (0, True))
        self.assertEqual(self.there(), before)

    def test_what_is_otherwise_is_told_and_stays(self) -> None:
        self.assertEqual(self.setup_runs()[0], 0)
        before = self.there()
        other, following = self.top / "other" / "first.toml", self.top / "other" / "next.toml"
        other.parent.mkdir()
        shutil.copy(REVISED, other)
        shutil.copy(REVISED, following)
        rows: tuple[tuple[dict[str, object], str], ...] = (
            ({"cards": 101}, "station.journal is there, and has cards 100, not 101"),
            ({"capacity": 5001}, "and has a capacity of 5000, not 5001"),
            ({"lines": 9}, "serve.conf is there, with other settings: --table first.toml"),
            ({"listen": "127.0.0.1:4915"}, "serve.conf is there, with other settings: "),
            ({"table": other}, "first.toml is there, and is another table"),
            ({"revised": following}, "with other settings"))
        for asked, said in rows:
            with self.subTest(asked):
                status, out, err = self.setup_runs(**asked)
                self.assertEqual((status, out), (1, ""))
                self.assertIn(said, err)
                self.assertTrue(err.endswith("setup: nothing was changed\n"), err)
                self.assertEqual({name: self.there()[name] for name in before}, before)

    def test_a_file_that_is_no_journal_stays(self) -> None:
        self.folder.mkdir()
        for content in (b"\0", b"a letter" * 20, b"\0" + EMPTY[1:], EMPTY[:8] + b"1" + EMPTY[9:]):
            (self.folder / "station.journal").write_bytes(content)
            status, _, err = self.setup_runs()
            self.assertEqual(status, 1)
            self.assertIn("is there, and is no journal of today's format", err)
            self.assertEqual((self.folder / "station.journal").read_bytes(), content)
            self.assertFalse(self.config.exists())

    def test_the_settings_of_the_package_are_replaced_as_long_as_there_is_no_journal(self) -> None:
        packaged = TOP / "packaging" / "serve.conf"
        self.assertTrue(settings.words_of(packaged).is_sample())
        self.config.parent.mkdir()
        shutil.copy(packaged, self.config)
        self.assertEqual(self.setup_runs()[0], 0)
        self.assert_set_up()
        # A server that has begun by the package's settings keeps them.
        shutil.copy(packaged, self.config)
        status, _, err = self.setup_runs()
        self.assertEqual((status, "is there, with other settings" in err), (1, True))
        self.assertEqual(self.config.read_bytes(), packaged.read_bytes())

    def test_settings_of_somebody_else_are_not_replaced(self) -> None:
        self.config.parent.mkdir()
        self.config.write_text("table = a.toml\njournal = b\ncards = 1\ncapacity = 2\nlisten = 127.0.0.1:1\nlines = 1\n")
        before = self.there()
        self.assertEqual(self.setup_runs()[0], 1)
        self.config.write_text("# Nothing yet\n")
        status, _, err = self.setup_runs()
        self.assertEqual((status, "it has no line 'table = ..'" in err), (1, True))
        self.assertEqual(set(self.there()), set(before))

    def test_a_run_that_was_killed_is_made_whole_by_the_next(self) -> None:
        places = 0
        for place in range(1, 100):
            shutil.rmtree(self.folder, ignore_errors=True)
            shutil.rmtree(self.config.parent, ignore_errors=True)
            done = subprocess.run(killing.words(place, SETUP, *self.words()), capture_output=True, text=True,
                                  timeout=TIME)
            if done.returncode == 0:
                break
            places += 1
            with self.subTest(place):
                self.assertEqual(done.returncode, -signal.SIGKILL, done.stderr)
                self.assertEqual(self.setup_runs()[0], 0)
                self.assert_set_up()
        # A file of each table, the words, the journal, the programs that check and serve, and each name's change.
        self.assertGreater(places, 8)
        self.assert_set_up()

    def test_what_is_refused_leaves_nothing(self) -> None:
        draft = self.top / "draft.toml"
        draft.write_text(EXAMPLE.read_text().replace("id = 3,", "id = 0,"))
        twice = self.top / "twice.toml"
        shutil.copy(EXAMPLE, twice)
        same = self.top / "same" / "first.toml"
        same.parent.mkdir()
        shutil.copy(REVISED, same)
        before = self.there()
        rows: tuple[tuple[dict[str, object], str], ...] = (
            ({"table": draft}, "fault table 5 Range station.id 3"),
            ({"table": self.top / "none.toml"}, "No such file or directory"),
            ({"revised": twice}, "fault supply 2 Twice 1"),
            ({"revised": draft}, "fault table 5 Range station.id 3"),
            ({"revised": same}, "two tables have this name"),
            ({"program": self.top / "none"}, "there is no such program"),
            ({"user": "nobody-of-that-name"}, "user nobody-of-that-name"))
        for asked, said in rows:
            with self.subTest(asked):
                status, _, err = self.setup_runs(**asked)
                self.assertEqual((status, said in err), (1, True), err)
                self.assertTrue(err.endswith("setup: nothing was changed\n"), err)
                self.assertEqual((self.there(), self.folder.exists()), (before, False))

    def test_a_disk_without_room_leaves_nothing(self) -> None:
        done = subprocess.run([SETUP, *self.words()], capture_output=True, text=True, timeout=TIME,
                              preexec_fn=lambda: resource.setrlimit(resource.RLIMIT_FSIZE, (100_000, 100_000)))
        self.assertEqual(done.returncode, 1)
        self.assertIn("File too large", done.stderr)
        self.assertEqual((self.there(), self.folder.exists()), ({}, False))

    def test_two_runs_at_once_make_one_station(self) -> None:
        runs = [subprocess.Popen([SETUP, *self.words()], stdout=subprocess.DEVNULL, stderr=subprocess.PIPE, text=True)
                for _ in range(4)]
        ended = [(run.communicate(timeout=TIME)[1], run.returncode) for run in runs]
        self.assertIn(("", 0), ended)
        for err, status in ended:
            self.assertTrue((status, err) == (0, "") or "another run sets it up" in err, err)
        self.assert_set_up()

    def test_a_folder_that_another_run_makes_meanwhile_is_no_fault(self) -> None:
        owner = serving.Owner(pwd.getpwuid(os.geteuid()).pw_name)
        self.folder.mkdir()
        with unittest.mock.patch.object(pathlib.Path, "is_dir", side_effect=[False, True]):
            self.assertFalse(owner.make(self.folder))
        file = self.top / "file"
        file.touch()
        with self.assertRaises(FileExistsError):
            owner.make(file)

    def test_revised_tables_are_among_the_settings(self) -> None:
        shutil.copy(REVISED, self.top / "prices-2026.toml")
        self.assertEqual(self.setup_runs(revised=self.top / "prices-2026.toml")[0], 0)
        self.assertEqual(settings.words_of(self.config).tables(), ["first.toml", "prices-2026.toml"])
        with self.served():
            pass

    def test_one_of_several_servers_has_a_name(self) -> None:
        text = subprocess.run([SETUP, "--help"], capture_output=True, text=True, check=True).stdout
        self.assertIn("/etc/bovtrila/NAME.conf", text)
        for name in ("a/b", "..", "-x", ""):
            self.assertEqual(self.setup_runs(name=name)[0], 2)

    def test_files_are_those_of_the_server_user(self) -> None:
        if os.geteuid() != 0:
            self.skipTest("making files of another user: this needs root")
        self.assertEqual(self.setup_runs(user="nobody")[0], 0)
        owner = pwd.getpwnam("nobody")
        for path, mode in (("lib", 0o750), ("lib/first.toml", 0o640), ("lib/station.journal", 0o640)):
            found = (self.top / path).stat()
            self.assertEqual((found.st_uid, found.st_gid, found.st_mode & 0o777), (owner.pw_uid, owner.pw_gid, mode),
                             path)
        self.assertEqual((self.config.stat().st_uid, self.config.stat().st_mode & 0o777), (0, 0o644))

    def test_silent_gates_lose_their_line_after_the_time_that_is_asked_for(self) -> None:
        self.assertEqual(self.setup_runs(idle=90)[0], 0)
        self.assertEqual(settings.words_of(self.config).options["--idle"], "90")
        # What stands there stays, whether it is the usual number or none.
        before = self.there()
        self.assertEqual(self.setup_runs()[0], 0)
        self.assertEqual(self.there(), before)
        status, _, err = self.setup_runs(idle=91)
        self.assertEqual((status, "is there, with other settings" in err, self.there()), (1, True, before))
        self.config.write_text(re.sub("(?m)^idle = .*\n", "", self.config.read_text()))
        self.assertEqual(self.setup_runs()[0], 0)
        self.assertNotIn("--idle", settings.words_of(self.config).options)

    def test_it_says_where_the_server_listens(self) -> None:
        for listen, said in (("127.0.0.1:4914", "127.0.0.1:4914: only programs on this machine reach it, as HAProxy "
                              "and stunnel do. Gates need an address of this machine"),
                             ("0.0.0.0:4914", "0.0.0.0:4914: at each address of this machine"),
                             ("192.0.2.7:4914", "192.0.2.7:4914")):
            shutil.rmtree(self.folder, ignore_errors=True)
            self.config.unlink(missing_ok=True)
            place, rest = said[:len(listen)], said[len(listen):]
            self.assertIn(f"\nlistens  {place}, once it is started{rest}\n", self.setup_runs(listen=listen)[1])

    def test_an_address_of_another_machine_is_noted(self) -> None:
        status, out, _ = self.setup_runs(listen="192.0.2.7:4014")
        self.assertEqual(status, 0)
        self.assertRegex(out, re.compile("^note     192.0.2.7:4014: Cannot assign requested address", re.M))

    def test_an_address_where_another_program_listens_is_refused(self) -> None:
        """As where HAProxy has the port, at this address or at each one."""
        for host in ("127.0.0.1", "0.0.0.0"):
            with socket.create_server((host, 0)) as other:
                listen = f"127.0.0.1:{other.getsockname()[1]}"
                status, out, err = self.setup_runs(listen=listen)
                self.assertEqual((status, out, self.there()), (1, "", {}))
                self.assertRegex(err, f"^setup: --listen {listen}: another program listens there; choose another port. ")
                self.assertIn("setup: nothing was changed\n", err)
        # The server's own running one has the address, and what is there stays.
        self.assertEqual(self.setup_runs(listen=listen)[0], 0)
        words = settings.words_of(self.config)
        with serving.Started([PROGRAM, "serve", *words.arguments()], cwd=self.folder):
            status, out, _ = self.setup_runs(listen=listen)
            self.assertEqual((status, "\nnote" in out), (0, False))

    def test_a_name_that_another_folder_or_file_has_is_refused(self) -> None:
        for name in ("copies", "remote", "serve", "stunnel", "stunnel-alder-1"):
            status, _, err = self.setup_runs(name=name)
            self.assertEqual((status, f"'{name}' can't be a server's name" in err, self.there()), (2, True, {}))
        self.assertEqual(self.setup_runs(name="copies-1")[0], 0)

    def test_a_wrong_command_line_changes_nothing(self) -> None:
        rows: tuple[dict[str, object], ...] = (
            {"cards": 0}, {"cards": 100_001}, {"capacity": 1_000_001}, {"lines": 65}, {"listen": "nowhere"})
        for asked in rows:
            self.assertEqual(self.setup_runs(**asked)[0], 2, asked)
        self.assertEqual(self.there(), {})


class Units(unittest.TestCase):
    """The units of packaging/, by systemd itself."""

    def setUp(self) -> None:
        if shutil.which("systemd-analyze") is None:
            self.skipTest("units: systemd isn't installed")
        room = tempfile.TemporaryDirectory(prefix="first-start-")
        self.addCleanup(room.cleanup)
        self.units = []
        for path in sorted(file for kind in ("service", "timer") for file in (TOP / "packaging").rglob(f"*.{kind}")):
            # The programs lie elsewhere once they are installed.
            text = re.sub(r"/usr/bin/(bovtrila-[a-z-]+)", rf"{TOP}/bin/\1", path.read_text())
            text = re.sub(r"(@PREFIX@|/usr)/bin/bovtrila ", "/bin/true ", text).replace("@PREFIX@", "/usr")
            self.units.append(pathlib.Path(room.name) / path.name)
            self.units[-1].write_text(re.sub("=/usr/(bin/stunnel4|sbin/haproxy) ", "=/bin/true ", text))

    def test_systemd_has_nothing_to_say_of_them(self) -> None:
        self.assertGreaterEqual(len(self.units), 16)
        self.assertEqual(sum("network" in unit.name for unit in self.units), 10)
        done = subprocess.run(["systemd-analyze", "verify", "--man=no", *self.units], capture_output=True, text=True)
        self.assertEqual((done.returncode, done.stdout + done.stderr), (0, ""))

    def test_those_of_the_scripts_may_do_little(self) -> None:
        """At most 1.5 of 10, where 10 is all. The one that restarts the server and writes its settings is root, and has
        at most 2.7."""
        for unit in self.units:
            if re.fullmatch("bovtrila-.*[.]service", unit.name):
                most = 27 if unit.name.startswith("bovtrila-next-journal") else 15
                words = ["systemd-analyze", "security", "--offline=yes", f"--threshold={most}", str(unit)]
                done = subprocess.run(words, capture_output=True, text=True)
                self.assertEqual(done.returncode, 0, f"{unit.name}: {done.stdout[-200:]}{done.stderr}")
