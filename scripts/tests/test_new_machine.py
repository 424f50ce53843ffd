"""Installs the package on a new machine, as docs/operate/OPERATING.md describes, and tests the server and its
journal: a touch is answered; an upgrade, also from the version with the settings in one line, asks nothing, and the
settings and the journal stay; a removal and a purge leave the journal. The package of a network's tools is installed
beside it, as docs/operate/NETWORK.md describes, upgraded and removed.

The machine is this one's file system below a separate layer, with a separate systemd (scripts/tests/machine.py):
systemd starts the unit as its user and with all its restrictions. It needs root, the built program, and the packages of
packaging/debian-packages.
"""
import functools
import pathlib
import re
import shutil
import tempfile
import time

import harness
import debs
import machine
from harness import TIME, TOP

PAGE = (TOP / "docs" / "operate" / "OPERATING.md").read_text()
NETWORK = (TOP / "docs" / "operate" / "NETWORK.md").read_text()
JOURNAL = "/var/lib/bovtrila/station.journal"
WORDS = "/etc/bovtrila/serve.conf"
# A file of the fleet with the station alone.
FLEET = """\
tables = ["/usr/share/bovtrila/docs/example.toml"]

[[server]]
name = "alder"
station = "Alder"
from = "/srv/copies/alder"
"""
# What a package leaves that was purged: what staff made, and what the system notes of users, packages and its own
# running.
OWN = ("/var/lib/bovtrila/", "/etc/bovtrila/alder-", "/var/cache/man/")
LEFT = (*OWN, "/root/", "/var/log/", "/var/cache/", "/var/lib/dpkg/", "/var/lib/apt/",
        "/var/lib/systemd/", "/etc/passwd", "/etc/group", "/etc/shadow", "/etc/gshadow", "/etc/subuid", "/etc/subgid",
        "/etc/.pwd.lock", "/etc/mtab")


@functools.cache
def made() -> pathlib.Path:
    """The station's package of this tree, with that of the network's tools beside it."""
    room = tempfile.TemporaryDirectory(prefix="bovtrila-made-")
    harness.AT_END.callback(room.cleanup)
    return debs.make(pathlib.Path(room.name))[0]


def block(page: str, heading: str, place: int) -> list[str]:
    """The lines of a block of code below a heading of a page."""
    return page.partition(f"\n## {heading}\n")[2].split("\n```\n")[1 + 2 * place].splitlines()


class NewMachine(harness.ProgramTest):
    """A machine on which nothing of Bovtrila was ever installed."""

    words: str
    answers: list[str]

    def setUp(self) -> None:
        if lacking := machine.lacking():
            self.skipTest(lacking)
        room = tempfile.TemporaryDirectory(prefix="bovtrila-packages-")
        self.addCleanup(room.cleanup)
        self.packages = pathlib.Path(room.name)
        self.first, self.tools = (pathlib.Path(shutil.copy(package, self.packages))
                                  for package in (made(), debs.of_network(made())))
        try:
            self.machine = machine.Machine(self.packages)
        except machine.NotHere as hindered:
            self.skipTest(str(hindered))
        self.addCleanup(self.machine.end)

    def ask(self, *words: object) -> str:
        """What a command of the machine writes; it has to succeed."""
        done = self.machine.run(*words)
        self.assertEqual(done.returncode, 0, f"{words}: {done.stdout}{done.stderr}")
        return done.stdout

    def shell(self, text: str) -> str:
        return self.ask("bash", "-ec", text)

    def refused_start(self) -> str:
        """What is told of a start that has to fail."""
        self.assertNotEqual(self.machine.run("systemctl", "start", "bovtrila").returncode, 0)
        self.ask("systemctl", "stop", "bovtrila")
        self.ask("systemctl", "reset-failed", "bovtrila")
        return self.told()

    def is_active(self, unit: str) -> str:
        return self.machine.run("systemctl", "is-active", unit).stdout.strip()

    def wait_for(self, port: int = 4014) -> None:
        """Waits until a server of the machine listens."""
        begun = time.monotonic()
        while f":{port} " not in self.ask("ss", "-ltn"):
            self.assertLess(time.monotonic(), begun + TIME, self.ask("journalctl", "--no-pager", "--lines=8"))
            time.sleep(0.05)

    def touches(self, port: int = 4014) -> list[str]:
        """The answers to the touches of the first try."""
        self.wait_for(port)
        return self.ask("bovtrila-gate", f"127.0.0.1:{port}", "/usr/share/bovtrila/requests.txt").splitlines()

    def test_a_station_from_its_first_to_its_last_day(self) -> None:
        before = set(self.machine.changed())
        for step in (self.install, self.look_at_the_unit, self.start, self.look_at_the_server, self.start_instances,
                     self.upgrade, self.upgrade_a_stopped_one, self.remove, self.install_again, self.purge):
            done = False
            with self.subTest(step.__name__):
                step()
                done = True
            # Without this step the later ones say nothing.
            if not done:
                return
        left = sorted(set(self.machine.changed()) - before)
        self.assertEqual([path for path in left if not path.startswith(LEFT)], [])
        self.assertEqual([path for path in left if "bovtrila" in path and not path.startswith(OWN)], [])

    def install(self) -> None:
        """The page's first command, in the folder of the package."""
        command, *self.others = block(PAGE, "From an empty machine to an answered touch", 0)
        self.assertTrue(command.startswith("apt-get install ./"), command)
        self.assertLessEqual(len(self.others), 3)
        said = self.shell(f"cd /packages; {command}")
        self.assertIn("bovtrila is installed. Next, as root: bovtrila-setup --table FILE --cards N --listen HOST:PORT\n",
                      said)
        self.assertEqual(self.ask("stat", "-c", "%U %G %a", "/var/lib/bovtrila"), "bovtrila bovtrila 750\n")
        self.assertIn(":/var/lib/bovtrila:/usr/sbin/nologin\n", self.ask("getent", "passwd", "bovtrila"))
        # No file of the package is one that the staff changes, so no upgrade asks about it.
        self.assertEqual(self.ask("dpkg-query", "--show", "--showformat=${Conffiles}", "bovtrila"), "")
        self.assertIn("there is no such file; bovtrila-setup makes it", self.refused_start())
        self.assertEqual(self.machine.run("systemctl", "is-enabled", "bovtrila").stdout, "disabled\n")
        self.assertEqual(self.is_active("bovtrila"), "inactive")
        self.assertEqual(self.ask("dpkg", "--verify", "bovtrila"), "")

    def look_at_the_unit(self) -> None:
        """systemd has nothing to say against it, and rates it as the page says."""
        done = self.machine.run("systemd-analyze", "verify", "bovtrila.service", "bovtrila@alder-1.service")
        self.assertEqual((done.returncode, done.stdout + done.stderr), (0, ""))
        told = re.search(r"`systemd-analyze security bovtrila` reports an exposure\s+level\s+of (\d+\.\d),", PAGE)
        assert told, "the page names the level"
        for unit in ("bovtrila.service", "bovtrila@alder-1.service"):
            said = self.ask("systemd-analyze", "security", "--no-pager", unit)
            self.assertIn(f"Overall exposure level for {unit}: {told[1]} ", said)

    def start(self) -> None:
        """The page's other commands."""
        *commands, last = self.others
        for command in commands:
            self.shell(command)
        self.wait_for()
        said = self.shell(last).splitlines()
        self.assertEqual(said, block(PAGE, "From an empty machine to an answered touch", 1))
        shown = re.search(r"^\$ bovtrila-gate .*\n((?:[0-9a-f]{44}  .*\n){4})", (TOP / "README.md").read_text(), re.M)
        assert shown, "README.md shows the answers"
        self.assertEqual(said, shown[1].splitlines())
        self.shell(f"echo '# Changed by the staff.' >>{WORDS}")
        self.words, self.answers = self.ask("cat", WORDS), said

    def look_at_the_server(self) -> None:
        """It runs as its user, and the user's group may read the journal."""
        process = self.ask("systemctl", "show", "--property=MainPID", "--value", "bovtrila").strip()
        self.assertEqual(self.ask("ps", "-o", "user=", "-p", process), "bovtrila\n")
        self.assertEqual(self.ask("stat", "-c", "%U %G %a", JOURNAL), "bovtrila bovtrila 640\n")
        for line in ("listening 127.0.0.1:4014\n", "opened 0\n"):
            self.assertIn(line, self.told())
        self.assertIn("touches     4\n", self.ask("bovtrila-status", "127.0.0.1:4014", "--journal", JOURNAL))
        self.assertIn("\nsound\n", self.ask("bovtrila", "verify", "--journal", JOURNAL))
        # It has no rights beyond those of its user, its calls are filtered, and its file system is one that it can't
        # write.
        status = self.ask("cat", f"/proc/{process}/status")
        for line in ("CapEff:\t0000000000000000\n", "CapBnd:\t0000000000000000\n", "NoNewPrivs:\t1\n", "Seccomp:\t2\n"):
            self.assertIn(line, status)
        tried = self.machine.run("nsenter", "--target", process, "--mount", "--root", "--wd", "touch", "/etc/tried",
                                 f"{JOURNAL}.tried")
        self.assertEqual(tried.stderr, "touch: cannot touch '/etc/tried': Read-only file system\n")

    def start_instances(self) -> None:
        """Two servers more, by the commands of docs/operate/NETWORK.md."""
        self.shell("cp /usr/share/bovtrila/docs/example.toml /root/first.toml")
        self.shell("cd /root\n" + "\n".join(block(NETWORK, "Several servers on a machine", 0)))
        for port in (4016, 4017):
            self.assertEqual(self.touches(port), self.answers)

    def told(self) -> str:
        """What the server has told so far."""
        self.ask("journalctl", "--sync")
        return self.ask("journalctl", "--no-pager", "--output=cat", "--unit=bovtrila")

    def running(self) -> list[str]:
        """The processes of the servers."""
        return [self.ask("systemctl", "show", "--property=MainPID", "--value", unit).strip()
                for unit in ("bovtrila", "bovtrila@alder-1", "bovtrila@alder-2")]

    def upgrade(self) -> None:
        """A higher version: the station's settings stay, and each server goes on, on its journal."""
        before, second = self.running(), debs.remade(self.first, "9.0.0-1")
        self.ask("apt-get", "install", f"/packages/{second.name}")
        self.assertEqual(self.ask("dpkg-query", "--show", "--showformat=${Version}", "bovtrila"), "9.0.0-1")
        self.assertEqual(self.ask("cat", WORDS), self.words)
        for port in (4014, 4016, 4017):
            self.assertEqual(self.touches(port), self.answers)
        self.assertFalse(set(before) & set(self.running()))
        self.assertEqual(re.findall(r"^opened (\d+)$", self.told(), re.M), ["0", "4"])

    def upgrade_a_stopped_one(self) -> None:
        """A server that was stopped stays so."""
        self.ask("systemctl", "stop", "bovtrila")
        self.last = debs.remade(self.first, "9.0.0-2")
        self.ask("apt-get", "install", f"/packages/{self.last.name}")
        self.assertEqual(self.is_active("bovtrila"), "inactive")
        self.assertEqual(self.is_active("bovtrila@alder-1"), "active")
        self.ask("systemctl", "start", "bovtrila")
        self.assertEqual(self.touches(), self.answers)
        self.kept = self.ask("sha256sum", JOURNAL)

    def remove(self) -> None:
        """The servers end; words, tables and journals stay."""
        self.ask("apt-get", "remove", "bovtrila")
        self.assertEqual([self.is_active(unit) for unit in ("bovtrila", "bovtrila@alder-1")], ["inactive", "inactive"])
        self.assertEqual(self.ask("sha256sum", JOURNAL), self.kept)
        self.assertEqual(self.ask("cat", WORDS), self.words)
        self.assertNotEqual(self.machine.run("test", "-e", "/usr/bin/bovtrila").returncode, 0)

    def install_again(self) -> None:
        """The same journal, words and answers."""
        self.ask("apt-get", "install", f"/packages/{self.last.name}")
        self.ask("systemctl", "enable", "--now", "bovtrila")
        self.assertEqual(self.touches(), self.answers)
        self.assertEqual(self.ask("sha256sum", JOURNAL), self.kept)

    def purge(self) -> None:
        """The settings go, and the journals stay, with their owner."""
        self.ask("apt-get", "purge", "bovtrila")
        self.assertNotEqual(self.machine.run("test", "-e", WORDS).returncode, 0)
        self.assertEqual(self.ask("sha256sum", JOURNAL), self.kept)
        self.assertEqual(self.ask("stat", "-c", "%U %G %a", JOURNAL), "bovtrila bovtrila 640\n")
        self.assertEqual(self.shell("find /etc/systemd -name '*bovtrila*'"), "")
        self.assertEqual(self.is_active("bovtrila"), "inactive")

    def test_the_tools_of_a_network(self) -> None:
        """By the commands of docs/operate/NETWORK.md, on a machine that has a station as well."""
        before = set(self.machine.changed())
        command, = block(NETWORK, "Installing", 0)
        self.shell(f"cd /packages; {command}")
        self.assertEqual(self.ask("dpkg", "--verify", "bovtrila-network"), "")
        setup, start = block(PAGE, "From an empty machine to an answered touch", 0)[1:3]
        self.shell(f"{setup} --capacity 1000\n{start}")
        self.touches()
        load = ("bovtrila-network-load", "--station", "Alder", "--journal", JOURNAL, "--table",
                "/usr/share/bovtrila/docs/example.toml", "--database", "/root/network.db")
        self.assertEqual(self.ask(*load), "Alder station.journal: 4 touches loaded, 4 in all\n")
        shown = re.search(r"^\$ bovtrila-network-query held --card 1\n((?:.+\n){2})", NETWORK, re.M)
        assert shown, "the page shows the answer"
        self.assertEqual(self.ask("bovtrila-network-query", "held", "--card", "1", "--database", "/root/network.db")
                         .splitlines(), shown[1].splitlines())
        self.assertIn("bovtrila-network-load", self.ask("man", "--path", "bovtrila-network-load"))
        self.run_the_units()
        # The tools need the program of their own version.
        both = [debs.remade(package, "9.0.0-1").name for package in (self.first, self.tools)]
        self.assertNotEqual(self.machine.run("apt-get", "install", f"/packages/{both[1]}").returncode, 0)
        self.ask("apt-get", "install", *(f"/packages/{name}" for name in both))
        self.assertEqual(self.ask("dpkg-query", "--show", "--showformat=${Version}", "bovtrila-network"), "9.0.0-1")
        self.assertEqual(self.ask(*load), "Alder station.journal: 0 touches loaded, 4 in all\n")
        self.ask("apt-get", "remove", "bovtrila-network")
        self.assertNotEqual(self.machine.run("test", "-e", "/usr/bin/bovtrila-network-load").returncode, 0)
        self.assertEqual([self.is_active(unit) for unit in ("bovtrila", "bovtrila-network-fetch.timer")],
                         ["active", "inactive"])
        self.ask("apt-get", "purge", "bovtrila-network", "bovtrila")
        self.shell("test -f /var/lib/bovtrila-network/network.db; ! test -e /etc/bovtrila-network")
        left = {path for path in self.machine.changed()
                if not path.startswith((*LEFT, "/var/lib/bovtrila-network/", "/srv/copies/"))}
        self.assertEqual(sorted(left - before), [])

    def run_the_units(self) -> None:
        """The daily units, under systemd as their user, with a copy of the station's journal."""
        self.shell(f"install -D -m 644 {JOURNAL} /srv/copies/alder/station.journal")
        fleet = self.machine.path("/etc/bovtrila-network/fleet.toml")
        fleet.parent.mkdir()
        fleet.write_text(FLEET)
        units = [f"bovtrila-network-{act}" for act in ("fetch", "load", "check", "audit", "report")]
        done = self.machine.run("systemd-analyze", "verify", *(f"{unit}.{kind}" for unit in units
                                                               for kind in ("service", "timer")))
        self.assertEqual((done.returncode, done.stdout + done.stderr), (0, ""))
        for unit in units[:-1]:
            self.ask("systemctl", "start", unit)
        self.assertEqual(self.ask("stat", "-c", "%U %a", "/var/lib/bovtrila-network/copies/alder/station.journal"),
                         "bovtrila-network 640\n")
        database = "/var/lib/bovtrila-network/network.db"
        said = self.ask("bovtrila-network-query", "freshness", "--from", "2025-01-06", "--database", database)
        self.assertRegex(said, r"\nAlder,alder,station\.journal,2025-01-06T.*,has touches")
        metrics = "/var/lib/bovtrila-network/metrics"
        self.assertEqual(self.ask("stat", "-c", "%a", metrics, f"{metrics}/bovtrila-network-audit.prom"), "755\n644\n")
        # The station had no touch yesterday: the page shows that, and the unit reports it.
        self.assertNotEqual(self.machine.run("systemctl", "start", units[-1]).returncode, 0)
        self.assertIn("Result=exit-code\nExecMainStatus=3\n",
                      self.ask("systemctl", "show", "--property=Result,ExecMainStatus",
                               units[-1]))
        self.assertEqual(self.shell("ls /var/lib/bovtrila-network/pages | wc -l"), "1\n")
        self.ask("systemctl", "enable", "--now", *(f"{unit}.timer" for unit in units))
        self.assertEqual(self.is_active(f"{units[0]}.timer"), "active")

    def test_an_upgrade_from_the_version_of_one_line(self) -> None:
        """The settings of servers that run, one of them as it came with the package, get a line each."""
        earlier = debs.remade(self.first, "1.0.0-1", debs.as_earlier)
        self.ask("apt-get", "install", f"/packages/{earlier.name}")
        self.assertEqual(self.ask("cat", WORDS), debs.EARLIER)
        line = debs.EARLIER.splitlines()[-1].lstrip("#").replace(":4014", ":4015")
        for folder in ("", "/alder-1"):
            self.ask("install", "-d", "-o", "bovtrila", "-g", "bovtrila", "-m", "750", f"/var/lib/bovtrila{folder}")
            self.ask("install", "-o", "bovtrila", "-g", "bovtrila", "-m", "640", "/usr/share/bovtrila/docs/example.toml",
                     f"/var/lib/bovtrila{folder}/first.toml")
        instance = line.replace(" --strict", " --idle 90")
        self.machine.path("/etc/bovtrila/alder-1.conf").write_text(f"# Platform 2.\n{instance}\n")
        self.machine.path("/etc/bovtrila/alder-9.conf").write_text('SERVE="--table first.toml\n')
        self.ask("systemctl", "enable", "--now", "bovtrila", "bovtrila@alder-1")
        answers = [self.touches(4014), self.touches(4015)]
        self.ask("apt-get", "install", f"/packages/{self.first.name}")
        self.assertEqual([self.touches(4014), self.touches(4015)], answers)
        servers: list[tuple[str, list[str]]] = [("serve", []), ("alder-1", ["idle = 90"])]
        for name, more in servers:
            settings = self.ask("cat", f"/etc/bovtrila/{name}.conf").splitlines()
            for wanted in ("table = first.toml", "cards = 1000", "#strict = yes", *more):
                self.assertIn(wanted, settings)
            self.assertNotIn("SERVE", "".join(settings))
        self.assertEqual(settings[0], "# Platform 2.")
        self.assertEqual(self.ask("cat", "/etc/bovtrila/alder-9.conf"), 'SERVE="--table first.toml\n')
        done = self.machine.run("bovtrila-start", "--check", "--name", "alder-9")
        self.assertEqual((done.returncode, done.stderr),
                         (1, "start: /etc/bovtrila/alder-9.conf: line 1: No closing quotation\n"))
        self.ask("bovtrila-start", "--check")
        self.ask("apt-get", "purge", "bovtrila")
        self.assertNotEqual(self.machine.run("test", "-e", WORDS).returncode, 0)
