"""Tests the file of the fleet, and bovtrila-network-fetch with a real rsync: from folders, and over a stand-in for ssh that
starts the other end on this machine."""
import os
import pathlib
import re
import shutil
import signal
import subprocess
import tempfile
import time
import unittest

from harness import TIME, TOP

from bovtrila.network import fleet_file

FETCH, PYTHON = TOP / "bin" / "bovtrila-network-fetch", "/usr/bin/python3"
OLD, NEW = "station.journal-20260104T033000Z", "station.journal-20260105T033000Z"
FLEET = """\
tables = ["first.toml", "prices-2026.toml"]
database = "service=bovtrila"
folder = "{folder}"

[[server]]
name = "alder"
station = "Alder"
from = "{alder}"

[[server]]
name = "birch"
station = "Birch"
first_card = 100001
from = "{birch}"
"""
# What starts the other end as ssh would: after its options there are the host and the command.
STAND_IN = """#!/bin/sh
echo "$*" >>{folder}/asked
while [ "$1" = -o ]; do shift 2; done
[ "$1" != away.example ] || {{ echo "ssh: connect to host away.example port 22: Connection refused" >&2; exit 255; }}
shift
{start}
"""
PLAIN = 'exec "$@"'
# What a key in ~/.ssh/authorized_keys starts that may only read one folder.
READING = 'SSH_ORIGINAL_COMMAND="$*" exec rrsync -ro {folder}/there'
SLOW = '#!/bin/sh\nexec {rsync} --bwlimit=50 "$@"\n'


class FleetFile(unittest.TestCase):
    """What is read, and what is refused."""

    TEXT = FLEET.format(folder="/srv/network", alder="/srv/copies/alder/", birch="bovtrila@birch.example:copies")
    # A text of the file, what is in its place, and the fault.
    FAULTS = [
        ('tables = ["first.toml", "prices-2026.toml"]\n', "",
         "the file has no setting 'tables'; write a list of the files of all fare tables, as [\"first.toml\", "
         '"prices-2026.toml"]'),
        ('["first.toml", "prices-2026.toml"]', '"first.toml"',
         "line 1: tables: 'first.toml' isn't allowed; write a list of the files of all fare tables, as [\"first.toml\", "
         '"prices-2026.toml"]'),
        ('database = "service=bovtrila"', 'database = "bovtrila"',
         "line 2: database: 'bovtrila' isn't allowed; write \"service=bovtrila\" or a URL of PostgreSQL, or SQLite's file "
         'from / on, as "/var/lib/bovtrila-network/network.db"'),
        ('"/srv/network"', '"network"', "line 3: folder: 'network' isn't allowed; write a folder from / on, as "
         '"/var/lib/bovtrila-network"'),
        ("folder =", "folders =", "line 3: there is no setting 'folders' here; there are folder, database, tables, "
         "[[server]]"),
        ("folder =", '"[[server]]" =', "[[server]]: '/srv/network' isn't allowed; begin each server with a line [[server]], "
         "without quotes"),
        ('name = "alder"', 'name = "alder/1"', "line 6: name: 'alder/1' isn't allowed; write up to 63 letters, digits, "
         'dots, dashes and underscores, as "alder-2"'),
        ('name = "birch"', 'name = "alder"', "line 11: name: line 6 has 'alder' already; each server has a different one"),
        ('station = "Birch"', "station = 7", "line 12: station: 7 isn't allowed; write the station's name, as \"Alder\""),
        ("100001", '"100001"', "line 13: first_card: '100001' isn't allowed; write the network's number of the server's "
         "card 1, a number from 1 on without quotes, as 100001"),
        ("100001", "0", "line 13: first_card: 0 isn't allowed; write the network's number of the server's card 1, a number "
         "from 1 on without quotes, as 100001"),
        ("first_card", "first", "line 13: there is no setting 'first' here; there are name, station, first_card, from"),
        ("/srv/copies/alder/", "copies/alder", "line 8: from: 'copies/alder' isn't allowed; write a folder from / on, as "
         '"/srv/copies/alder", or "HOST:FOLDER" or "USER@HOST:FOLDER"'),
        ("/srv/copies/alder/", "-e:x", "line 8: from: '-e:x' isn't allowed; write a folder from / on, as "
         '"/srv/copies/alder", or "HOST:FOLDER" or "USER@HOST:FOLDER"'),
        *(("/srv/copies/alder/", other, f"line 8: from: '{other}' isn't allowed; write a folder from / on, as "
           '"/srv/copies/alder", or "HOST:FOLDER" or "USER@HOST:FOLDER"')
          for other in ("rsync://alder.example/copies", "alder.example::copies", "alder.example:")),
        ('from = "/srv/copies/alder/"\n', "", "line 5: this [[server]] has no setting 'from'; write a folder from / on, as "
         '"/srv/copies/alder", or "HOST:FOLDER" or "USER@HOST:FOLDER"'),
        ('station = "Birch"', "station = Birch", "line 12, column 11: Invalid value; write NAME = VALUE, with text in "
         "quotes")]

    def fault(self, text: str) -> str:
        with self.assertRaises(fleet_file.Wrong) as raised:
            fleet_file.parsed(pathlib.Path("fleet.toml"), text)
        return str(raised.exception)

    def test_what_a_file_has(self) -> None:
        fleet = fleet_file.parsed(pathlib.Path("/etc/bovtrila-network/fleet.toml"), self.TEXT)
        self.assertEqual((str(fleet.copies), fleet.database), ("/srv/network/copies", "service=bovtrila"))
        self.assertEqual(fleet.tables, [f"/etc/bovtrila-network/{name}" for name in ("first.toml", "prices-2026.toml")])
        self.assertEqual([(server.name, server.station, server.first_card, server.source) for server in fleet.servers],
                         [("alder", "Alder", 1, "/srv/copies/alder"),
                          ("birch", "Birch", 100_001, "bovtrila@birch.example:copies")])

    def test_the_file_of_the_package_is_one(self) -> None:
        fleet = fleet_file.read(TOP / "packaging" / "fleet.toml")
        self.assertEqual([server.name for server in fleet.servers], ["alder", "birch"])
        # Its comments show the defaults.
        self.assertIn(f'#folder = "{fleet.folder}"\n', (TOP / "packaging" / "fleet.toml").read_text())
        self.assertEqual(fleet.database, f"{fleet.folder}/network.db")

    def test_each_fault_names_its_place_the_value_and_what_is_allowed(self) -> None:
        for old, new, fault in self.FAULTS:
            with self.subTest(fault):
                self.assertEqual(self.TEXT.count(old), 1, old)
                self.assertEqual(self.fault(self.TEXT.replace(old, new)), fault)

    def test_a_file_without_servers(self) -> None:
        text = self.TEXT.partition("[[server]]")[0]
        self.assertEqual(self.fault(text), "there is no server; begin each with a line [[server]]")
        self.assertEqual(self.fault(f"{text}server = 7\n"), "line 5: there is no server; begin each with a line [[server]]")


class Fetches(unittest.TestCase):
    """What is fetched of two servers' folders, the one here and the other over ssh."""

    def setUp(self) -> None:
        if not (shutil.which("rsync") and pathlib.Path(PYTHON).exists()):
            self.skipTest("copies are fetched by rsync: not installed")
        room = tempfile.TemporaryDirectory(prefix="network-fleet-")
        self.addCleanup(room.cleanup)
        self.room = pathlib.Path(room.name)
        self.here, self.there, self.bin = self.room / "here", self.room / "there", self.room / "bin"
        for folder in (self.here, self.there, self.bin):
            folder.mkdir()
        for folder, byte in ((self.here, b"a"), (self.there, b"b")):
            (folder / OLD).write_bytes(byte * 1000)
            (folder / NEW).write_bytes(byte * 2000)
        self.stand_in(PLAIN)
        self.write(birch=f"birch.example:{self.there}")
        self.copies = self.room / "network" / "copies"

    def stand_in(self, start: str) -> None:
        ssh = self.bin / "ssh"
        ssh.write_text(STAND_IN.format(folder=self.room, start=start.format(folder=self.room)))
        ssh.chmod(0o755)

    def write(self, birch: str, alder: str | pathlib.Path | None = None) -> None:
        text = FLEET.format(folder=self.room / "network", alder=alder or self.here, birch=birch)
        (self.room / "fleet.toml").write_text(text)

    def words(self, *words: str) -> list[str | pathlib.Path]:
        return [FETCH, "--fleet", self.room / "fleet.toml", *words]

    @property
    def env(self) -> dict[str, str]:
        return {**os.environ, "PATH": f"{self.bin}:{os.environ['PATH']}"}

    def fetch(self, *words: str) -> tuple[int, str, str]:
        done = subprocess.run(self.words(*words), capture_output=True, text=True, timeout=TIME, env=self.env)
        self.assertNotIn("Traceback", done.stderr)
        return done.returncode, done.stdout, done.stderr

    def have(self) -> dict[str, bytes]:
        """The files that were fetched, with their bytes."""
        return {str(path.relative_to(self.copies)): path.read_bytes()
                for path in sorted(self.copies.rglob("*")) if path.is_file()}

    BOTH = f"alder station.journal: {NEW}, 2000 bytes\nbirch station.journal: {NEW}, 2000 bytes\n"

    def test_the_newest_copy_of_each_server(self) -> None:
        for _ in range(2):
            self.assertEqual(self.fetch(), (0, self.BOTH, ""))
            self.assertEqual(self.have(), {"alder/station.journal": b"a" * 2000, "birch/station.journal": b"b" * 2000})
        self.assertEqual([path.name for path in (self.copies / "alder").iterdir()], ["station.journal"])
        self.assertIn("-o BatchMode=yes", (self.room / "asked").read_text())

    def test_each_journal_and_no_other_file(self) -> None:
        for name in ("first.toml", "seals", f"{NEW}.refused", "station-20260105.journal-20260106T033000Z",
                     "station-20260105.journal-20260107T033000Z", "notes.journal"):
            (self.here / name).write_bytes(name.encode())
        (self.here / "folder.journal").mkdir()
        self.assertEqual(self.fetch("alder")[0], 0)
        self.assertEqual(self.have(), {
            "alder/notes.journal": b"notes.journal", "alder/station.journal": b"a" * 2000,
            "alder/station-20260105.journal": b"station-20260105.journal-20260107T033000Z"})

    def test_a_key_that_may_only_read_one_folder(self) -> None:
        if not shutil.which("rrsync"):
            self.skipTest("a key that may only read: rrsync isn't there")
        self.stand_in(READING)
        self.write(birch="birch.example:/")
        self.assertEqual(self.fetch(), (0, self.BOTH, ""))

    def test_a_server_that_fails_is_named_and_the_others_are_fetched(self) -> None:
        self.assertEqual(self.fetch()[0], 0)
        (self.here / "station.journal-20260106T033000Z").write_bytes(b"c")
        self.write(birch="away.example:/srv")
        status, out, err = self.fetch()
        self.assertEqual((status, out), (1, "alder station.journal: station.journal-20260106T033000Z, 1 bytes\n"))
        self.assertIn("fetch: birch: away.example:/srv: ssh: connect to host away.example port 22: Connection refused; ",
                      err)
        self.assertEqual(len(err.splitlines()), 1)
        self.assertEqual(self.have(), {"alder/station.journal": b"c", "birch/station.journal": b"b" * 2000})

    def test_a_folder_without_copies_and_none(self) -> None:
        empty = self.room / "empty"
        empty.mkdir()
        self.write(birch=f"{empty}/", alder="/gone")
        status, out, err = self.fetch()
        self.assertEqual((status, out), (1, ""))
        alder, birch = err.splitlines()
        self.assertRegex(alder, r'^fetch: alder: /gone: rsync: .*change_dir "/gone" failed: No such file or directory')
        self.assertEqual(birch, f"fetch: birch: {empty}: it has no copy of a journal: a file that ends in .journal or "
                                ".journal-20260105T033000Z")

    def test_a_run_that_is_killed_leaves_the_copy_before(self) -> None:
        self.assertEqual(self.fetch("alder")[0], 0)
        newer = os.urandom(1 << 20)
        (self.here / "station.journal-20260106T033000Z").write_bytes(newer)
        slow = self.bin / "rsync"
        slow.write_text(SLOW.format(rsync=shutil.which("rsync")))
        slow.chmod(0o755)
        started = subprocess.Popen(self.words("alder"), stdout=subprocess.DEVNULL, stderr=subprocess.DEVNULL, env=self.env,
                                   start_new_session=True)
        end = time.monotonic() + TIME
        while not list((self.copies / "alder").glob(".unfinished/*")):
            self.assertIsNone(started.poll())
            self.assertLess(time.monotonic(), end)
            time.sleep(0.02)
        os.killpg(started.pid, signal.SIGKILL)
        started.wait()
        slow.unlink()
        self.assertEqual((self.copies / "alder" / "station.journal").read_bytes(), b"a" * 2000)
        self.assertEqual(self.fetch("alder")[0], 0)
        self.assertEqual(self.have(), {"alder/station.journal": newer})
        self.assertEqual([path.name for path in (self.copies / "alder").iterdir()], ["station.journal"])

    def test_the_moment_of_each_server_s_last_fetch(self) -> None:
        def moments() -> dict[str, int]:
            text = (self.room / "network" / "metrics" / "bovtrila-network-fetch.prom").read_text()
            return {server: int(moment) for server, moment in re.findall(r'_seconds{server="(\w+)",.*} (\d+)', text)}
        begun = int(time.time())
        self.assertEqual(self.fetch("alder")[0], 0)
        first = moments()
        self.assertTrue(begun <= first["alder"] <= time.time(), first)
        self.assertEqual(first["birch"], 0)
        self.write(alder="/gone", birch=f"birch.example:{self.there}")
        self.assertEqual(self.fetch()[0], 1)
        second = moments()
        self.assertEqual(second["alder"], first["alder"])
        self.assertTrue(begun <= second["birch"] <= time.time(), second)

    def test_two_runs_at_once(self) -> None:
        self.assertEqual(self.fetch()[0], 0)
        holder = subprocess.Popen(["flock", self.copies, "sh", "-c", "echo held; read line"], stdin=subprocess.PIPE,
                                  stdout=subprocess.PIPE, text=True)
        assert holder.stdout, "a pipe"
        self.assertEqual(holder.stdout.readline(), "held\n")
        said = self.fetch()
        holder.communicate("\n", timeout=TIME)
        self.assertEqual(said, (1, "", f"fetch: {self.copies}: another run fetches copies; wait for its end\n"))

    def test_what_is_asked_wrong(self) -> None:
        status, out, err = self.fetch("cedar")
        self.assertEqual((status, out), (2, ""))
        self.assertTrue(err.endswith(f"error: {self.room}/fleet.toml has no server cedar\n"), err)
        (self.room / "fleet.toml").unlink()
        self.assertEqual(self.fetch(), (1, "", f"fetch: {self.room}/fleet.toml: there is no such file; copy "
                                               "/usr/share/bovtrila/fleet.toml, and write your servers into it\n"))

    def test_the_file_alone_is_checked(self) -> None:
        status, out, err = self.fetch("--check")
        self.assertEqual((status, err), (0, ""))
        self.assertEqual(out, f"alder: station Alder, cards from 1 on, from {self.here}\n"
                              f"birch: station Birch, cards from 100001 on, from birch.example:{self.there}\n")
        self.assertFalse(self.copies.exists())
        text = (self.room / "fleet.toml").read_text()
        (self.room / "fleet.toml").write_text(re.sub("first_card = .*", "first_card = -1", text))
        self.assertEqual(self.fetch("--check"), (1, "", f"fetch: {self.room}/fleet.toml: line 13: first_card: -1 isn't "
                         "allowed; write the network's number of the server's card 1, a number from 1 on without quotes, "
                                                 "as 100001\n"))
