"""Sets up a station on a new machine from its package, by the commands that docs/operate/OPERATING.md names, under a
separate systemd: the server, the exporter, copies by the clock, stunnel, HAProxy, and a new journal after the first.
Therefore each unit is tested with all its restrictions.

It needs root, the built program, and the packages of packaging/debian-packages.
"""
import pathlib
import re
import tempfile
import time
from collections.abc import Callable
from typing import TypeVar

import harness
import debs
import machine
from bovtrila import codec
from harness import TIME, TOP

# What a look finds that is repeated until it finds something.
Found = TypeVar("Found")

PAGE = (TOP / "docs" / "operate" / "OPERATING.md").read_text()
FOLDER = "/var/lib/bovtrila"
ANSWERS = ["issued; change 0, balance 0", "topped up; change 2000, balance 2000", "in; change -900, balance 1100",
           "out; change 550, balance 1650"]
REQUESTS = "/usr/share/bovtrila/requests.txt"
# What asks for the metrics, from within the machine.
FETCH = "import urllib.request; print(urllib.request.urlopen('http://127.0.0.1:9814/metrics').read().decode())"

# What shows the connections of each certificate, as the page has it.
STATUS = "echo 'show table gates' | socat - /run/bovtrila-haproxy/status"


class NewStation(harness.ProgramTest):
    """A machine on which the package is installed, and nothing else of Bovtrila."""

    def setUp(self) -> None:
        if lacking := machine.lacking():
            self.skipTest(lacking)
        room = tempfile.TemporaryDirectory(prefix="bovtrila-packages-")
        self.addCleanup(room.cleanup)
        package, _ = debs.make(pathlib.Path(room.name))
        try:
            self.machine = machine.Machine(pathlib.Path(room.name))
        except machine.NotHere as hindered:
            self.skipTest(str(hindered))
        self.addCleanup(self.machine.end)
        self.ask("apt-get", "install", f"/packages/{package.name}")
        self.put_off_timers()

    def put_off_timers(self) -> None:
        """Has the timers of copies and of new journals elapse twelve hours from now, and not in the middle of a step that
        counts what it made itself."""
        moment = time.strftime("*-*-* %H:%M UTC", time.gmtime(time.time() + 12 * 3600))
        for name in ("copies", "copies@", "next-journal", "next-journal@"):
            drop = self.machine.path(f"/etc/systemd/system/bovtrila-{name}.timer.d/later.conf")
            drop.parent.mkdir()
            drop.write_text(f"[Timer]\nOnCalendar=\nOnCalendar={moment}\n")
        self.ask("systemctl", "daemon-reload")

    def ask(self, *words: object) -> str:
        """What a command of the machine writes; it has to succeed."""
        done = self.machine.run(*words)
        self.assertEqual(done.returncode, 0, f"{words}: {done.stdout}{done.stderr}")
        return done.stdout

    def told(self, unit: str) -> str:
        """What a unit has told so far."""
        self.ask("journalctl", "--sync")
        return self.ask("journalctl", "--no-pager", "--output=cat", f"--unit={unit}")

    def reports(self, unit: str, form: str) -> None:
        """Waits until a unit has reported something of this form. It may do so after the gate that it is about has ended."""
        self.until(lambda: re.search(form, self.told(unit)), f"{unit} never reports {form}")

    def shown(self, unit: str, name: str) -> str:
        """What systemd shows of a unit under a name."""
        return self.ask("systemctl", "show", "--value", f"--property={name}", unit).strip()

    def until(self, looks: Callable[[], Found | None], what: str) -> Found:
        """What a look gives, once it gives something that counts, or a failure after a minute."""
        begun = time.monotonic()
        while not (found := looks()):
            self.assertLess(time.monotonic(), begun + TIME, what)
            time.sleep(0.1)
        return found

    def listens(self, port: int) -> None:
        self.until(lambda: f":{port} " in self.ask("ss", "-ltn"), f"nobody listens at {port}")

    def touches(self, address: str = "127.0.0.1:4014", *more: object) -> list[str]:
        """What is answered to the touches of the first try, in words."""
        said = self.ask("bovtrila-gate", address, REQUESTS, "--tries", "3", *more)
        return [line.partition("  ")[2] for line in said.splitlines()]

    def metrics(self, **wanted: float) -> dict[str, float]:
        """The metrics, once these have these values."""
        def look() -> dict[str, float] | None:
            lines = self.ask("/usr/bin/python3", "-c", FETCH).splitlines()
            found = {name.removeprefix("bovtrila_"): float(value) for name, _, value in
                     (line.rpartition(" ") for line in lines if line and not line.startswith("#"))}
            return found if all(found.get(name) == value for name, value in wanted.items()) else None
        return self.until(look, f"the metrics never were {wanted}: {self.told('bovtrila-exporter')}")

    def test_a_station_is_run(self) -> None:
        for step in (self.begin, self.refuse, self.stand_by, self.export, self.read_pages, self.watch, self.stop_a_start,
                     self.fill_a_disk, self.copy, self.copy_by_root, self.find_a_change, self.restore_a_copy,
                     self.send_copies, self.secure, self.revoke, self.limit, self.revoke_beside, self.follow,
                     self.follow_alone, self.begin_several, self.revise):
            done = False
            with self.subTest(step.__name__):
                step()
                done = True
            # Without this step the later ones say nothing.
            if not done:
                return

    def begin(self) -> None:
        """One command to begin, and the one that it names next."""
        self.ask("cp", "/usr/share/bovtrila/docs/example.toml", "/root/first.toml")
        said = self.ask("bovtrila-setup", "--table", "/root/first.toml", "--cards", "100", "--capacity", "1000",
                        "--listen", "127.0.0.1:4014")
        self.assertIn("next     systemctl enable --now bovtrila\n", said)
        self.assertIn("         bovtrila-status\n", said)
        self.ask("systemctl", "enable", "--now", "bovtrila")
        self.listens(4014)
        self.assertEqual(self.touches(), ANSWERS)
        self.assertEqual(self.ask("stat", "-c", "%U %G %a %s", f"{FOLDER}/station.journal"),
                         "bovtrila bovtrila 640 64065\n")

    def refuse(self) -> None:
        """A start that the server refuses fails, and says why; the settings are tried before."""
        config, table = self.machine.path("/etc/bovtrila/serve.conf"), self.machine.path(f"{FOLDER}/first.toml")
        good = config.read_text()
        changes: tuple[tuple[Callable[[], object], str, str], ...] = (
                (lambda: config.write_text(good.replace("= first.toml", "= frist.toml")), "  frist.toml: no such file\n",
                 "the server refuses these settings:\nfault file\n  frist.toml: no such file\n"),
                (lambda: config.write_text(f"{good}--tabel x\n"), "'--tabel x' is no setting", "'--tabel x' is no setting"),
                (lambda: config.write_text(good.replace("= first.toml", '= "first.toml')), '"first.toml has quotes',
                 'table: "first.toml has quotes'),
                (lambda: config.write_text(good.replace("cards = 100", "cards = 101")), "fault journal 6 WrongCards\n",
                 "fault journal 6 WrongCards\n"),
                (lambda: table.chmod(0), "  first.toml: Permission denied\n", "  first.toml: Permission denied\n"))
        for change, unit, place in changes:
            change()
            with self.subTest(place):
                checked = self.machine.run("bovtrila-start", "--check")
                self.assertEqual(checked.returncode, 1)
                self.assertTrue(checked.stderr.startswith("start: /etc/bovtrila/serve.conf: line "), checked.stderr)
                self.assertIn(place, checked.stderr)
                begun = time.monotonic()
                self.assertNotEqual(self.machine.run("systemctl", "restart", "bovtrila").returncode, 0)
                self.assertLess(time.monotonic() - begun, TIME)
                self.assertIn(unit, self.told("bovtrila"))
            config.write_text(good)
            table.chmod(0o640)
        self.ask("bovtrila-start", "--check")
        self.ask("systemctl", "restart", "bovtrila")
        # At once, without a wait: the unit has started once the server listens.
        self.assertEqual(self.touches(), ANSWERS)

    def stand_by(self) -> None:
        """A server on standby has started though another one has the journal."""
        config = self.machine.path("/etc/bovtrila/spare.conf")
        config.write_text(self.machine.path("/etc/bovtrila/serve.conf").read_text().replace(":4014", ":4018").replace(
            "= station.journal", f"= {FOLDER}/station.journal").replace("#standby", "standby"))
        self.ask("install", "-d", "-o", "bovtrila", "-g", "bovtrila", f"{FOLDER}/spare")
        self.ask("cp", "-p", f"{FOLDER}/first.toml", f"{FOLDER}/spare/")
        drop = self.machine.path("/etc/systemd/system/bovtrila@spare.service.d/spare.conf")
        drop.parent.mkdir()
        drop.write_text(f"[Service]\nReadWritePaths={FOLDER}\n")
        self.ask("systemctl", "daemon-reload")
        self.ask("systemctl", "start", "bovtrila@spare")
        self.until(lambda: "waiting for " in self.told("bovtrila@spare"), "nobody waits")
        self.ask("systemctl", "stop", "bovtrila@spare")

    def export(self) -> None:
        self.ask("systemctl", "enable", "--now", "bovtrila-exporter")
        self.listens(9814)
        found = self.metrics(up=1, touches=4)
        self.assertEqual((found["halted"], found["room"], found["capacity"]), (0, 996, 1000))
        self.assertEqual((found["journal_missing_bytes"], found["disk_free_bytes"] > 0), (0, True))

    def read_pages(self) -> None:
        """A card's statement and touches, and today's touches: the exporter runs the program for each."""
        self.reads_pages(9814)

    def reads_pages(self, port: int) -> None:
        """The pages of an exporter have what the first try's touches were charged."""
        def page(path: str) -> str:
            return self.ask("/usr/bin/python3", "-c", FETCH.replace(":9814/metrics", f":{port}{path}"))
        self.assertIn('<strong id="charged">£3.50</strong>', page("/card?number=1"))
        self.assertIn('<strong id="count">4</strong>', page("/touches?number=1"))
        self.until(lambda: "being read" not in page("/"), "today's touches are never read")
        self.assertRegex(page("/"), '<h2 id="today">Today</h2>\n<p class="of">Fare day ')

    def watch(self) -> None:
        """Without an address the status shows the servers of the machine. Of a server that is stopped it and /health say
        so, and again once it is back."""
        health = FETCH.replace("/metrics", "/health").replace(
            "urllib.request.urlopen(", "__import__('urllib.request').request.build_opener("
            "type('Any', (urllib.request.HTTPErrorProcessor,), {'http_response': lambda self, asked, said: said})).open(")
        # Two servers have settings, and the second one was stopped.
        done = self.machine.run("bovtrila-status")
        self.assertEqual((done.returncode, re.findall(r"^server      (\S+) ", done.stdout, re.M)),
                         (1, ["bovtrila", "bovtrila@spare"]))
        self.ask("rm", "/etc/bovtrila/spare.conf")
        said = self.ask("bovtrila-status").splitlines()
        self.assertEqual(said[1], "server      bovtrila at 127.0.0.1:4014")
        self.assertRegex(said[2], "^up          yes, answered in ")
        self.assertRegex(said[3], r"^unit        active since \d{4}-\d\d-\d\dT\S+Z; restarts 0$")
        self.assertIn("inside      0 of 100 cards", said)
        self.assertIn('{"healthy": true, "why": null, ', self.ask("/usr/bin/python3", "-c", health))
        # systemd starts it again by itself, and says how often.
        self.ask("systemctl", "kill", "--signal=KILL", "bovtrila")
        self.until(lambda: "; restarts 1\n" in self.machine.run("bovtrila-status").stdout, "no restart is shown")
        self.until(lambda: self.shown("bovtrila", "ActiveState") == "active", "it isn't started again")
        self.ask("systemctl", "stop", "bovtrila")
        done = self.machine.run("bovtrila-status")
        self.assertEqual(done.returncode, 1)
        self.assertIn("\nup          NO: Connection refused\nunit        inactive since ", done.stdout)
        self.until(lambda: '{"healthy": false, "why": "' in self.ask("/usr/bin/python3", "-c", health), "it is healthy")
        self.ask("systemctl", "start", "bovtrila")
        self.listens(4014)
        self.metrics(up=1)

    def stop_a_start(self) -> None:
        """A server that is stopped while its start is waited for is stopped; it hasn't failed."""
        delay = self.machine.path("/etc/systemd/system/bovtrila.service.d/delay.conf")
        delay.parent.mkdir(exist_ok=True)
        delay.write_text("[Service]\nExecStartPost=\nExecStartPost=/bin/sleep infinity\n")
        self.ask("systemctl", "daemon-reload")
        self.ask("systemctl", "stop", "bovtrila")
        self.ask("systemctl", "start", "--no-block", "bovtrila")
        self.until(lambda: self.shown("bovtrila", "SubState") == "start-post", "its start isn't waited for")
        self.ask("systemctl", "stop", "bovtrila")
        self.assertEqual((self.shown("bovtrila", "ActiveState"), self.shown("bovtrila", "Result")),
                         ("inactive", "success"))
        delay.unlink()
        self.ask("systemctl", "daemon-reload")
        self.ask("systemctl", "start", "bovtrila")

    def fill_a_disk(self) -> None:
        """A journal without its whole size, on a disk that something else has filled: the server answers, and is not
        up, since its next touch halts it."""
        self.ask("bash", "-ec", "mkdir /root/small; mount -t tmpfs -o size=1m tmpfs /root/small; "
                 "cp /root/first.toml /root/small; systemd-run --unit=small --working-directory=/root/small "
                 "--property=Restart=no bovtrila serve --table first.toml --journal small.journal --cards 10 "
                 "--capacity 100000 --listen 127.0.0.1:4030 --lines 2")
        self.listens(4030)
        words = ["bovtrila-status", "127.0.0.1:4030", "--journal", "/root/small/small.journal"]
        self.assertIn("the disk has less room than the journal needs", self.ask(*words))
        self.machine.run("dd", "if=/dev/zero", "of=/root/small/other", "bs=4096")
        done = self.machine.run(*words)
        self.assertEqual(done.returncode, 1)
        self.assertRegex(done.stdout, r"\nup          NO: the disk is full: 0 bytes are free, and the journal needs "
                         r"[\d,]+ more\. The next touch halts the server\n")
        self.ask("bash", "-ec", "systemctl stop small; umount /root/small")

    def copy(self) -> None:
        self.ask("systemctl", "enable", "--now", "bovtrila-copies.timer")
        self.ask("systemctl", "start", "bovtrila-copies")
        self.assertIn("sealed 4 ", self.told("bovtrila-copies"))
        copies = self.ask("ls", f"{FOLDER}/copies").split()
        self.assertEqual(len(copies), 2, copies)
        self.ask("cmp", f"{FOLDER}/copies/{copies[1]}", f"{FOLDER}/station.journal")
        self.assertLess(self.metrics(up=1)["seal_age_seconds"], 100)

    def copy_by_root(self) -> None:
        """By the staff, as root: the next run by the timer's unit goes on from it."""
        time.sleep(1)
        self.assertIn("held against the seal of ", self.ask("bovtrila-keep-copies"))
        time.sleep(1)
        self.ask("systemctl", "start", "bovtrila-copies")
        self.assertEqual(self.told("bovtrila-copies").count("held against the seal of "), 1)
        self.assertEqual(set(self.ask("find", f"{FOLDER}/copies", "-printf", "%u\n").split()), {"bovtrila"})

    def find_a_change(self) -> None:
        """A byte of a sealed slot that no touch needs."""
        change = "printf '\\{}' | dd of={}/station.journal bs=1 seek=120 conv=notrunc status=none"
        self.ask("sh", "-c", change.format("001", FOLDER))
        time.sleep(1)
        self.assertNotEqual(self.machine.run("systemctl", "start", "bovtrila-copies").returncode, 0)
        self.assertIn("fault copy 5 Differs\n", self.told("bovtrila-copies"))
        self.assertEqual(self.machine.run("systemctl", "is-failed", "bovtrila-copies").stdout, "failed\n")
        self.ask("sh", "-c", change.format("000", FOLDER))
        time.sleep(1)
        self.ask("systemctl", "start", "bovtrila-copies")

    def restore_a_copy(self) -> None:
        """The kind of a touch is none: the newest copy takes the journal's place, and the server runs on it."""
        copy = self.ask("sh", "-c", f"ls {FOLDER}/copies/station.journal-*Z").split()[-1]
        self.ask("sh", "-c", f"printf '\\377' | dd of={FOLDER}/station.journal bs=1 seek=193 conv=notrunc status=none")
        before = self.ask("sha256sum", f"{FOLDER}/station.journal")
        said = self.ask("bovtrila-restore", copy, "--dry-run")
        self.assertIn("station.journal isn't sound: fault journal 7 Damaged 2\n", said)
        self.assertEqual(self.ask("sha256sum", f"{FOLDER}/station.journal"), before)
        # A unit that was given up is started all the same.
        self.machine.run("systemctl", "kill", "--signal=KILL", "bovtrila")
        said = self.ask("bovtrila-restore", copy)
        self.assertIn("step 5 of 6, the server: the server at 127.0.0.1:4014 answers, with 4 touches\n", said)
        self.assertEqual(self.ask("systemctl", "is-active", "bovtrila"), "active\n")
        self.assertEqual(self.touches(), ANSWERS)
        self.assertEqual(self.ask("stat", "-c", "%U %G %a %s", f"{FOLDER}/station.journal"),
                         "bovtrila bovtrila 640 64065\n")
        aside = self.ask("sh", "-c", f"ls {FOLDER}/station.journal.before-*").strip()
        self.assertEqual(self.ask("sha256sum", aside).split()[0], before.split()[0])
        time.sleep(1)
        self.ask("systemctl", "start", "bovtrila-copies")

    def send_copies(self) -> None:
        """To a computer that is this one, by the commands of the page and those that they print."""
        self.ask("sh", "-c", "mkdir -p /run/sshd; ssh-keygen -q -A; rm -f /run/nologin; /usr/sbin/sshd")
        self.listens(22)
        # Before --begin the timer does nothing.
        self.ask("systemctl", "start", "bovtrila-send-copy")
        self.assertNotEqual(self.machine.run("test", "-e", f"{FOLDER}/remote").returncode, 0)
        said = self.ask("bovtrila-send-copy", "--begin", "127.0.0.1")
        self.assertIn(self.ask("ssh-keygen", "-lf", "/etc/ssh/ssh_host_ed25519_key.pub").split()[1], said)
        self.assertNotEqual(self.machine.run("bovtrila-send-copy").returncode, 0)
        self.assertEqual(self.metrics(up=1)["remote_copy_age_seconds"], float("inf"))
        printed = re.search(r"^there    (.*)\n^next     (.*)\n^         (.*)$", said, re.M)
        assert printed, said
        there, then = printed.groups()[0::2]
        self.ask("bash", "-ec", there)
        self.ask("systemctl", "start", "bovtrila-send-copy")
        self.ask("bash", "-ec", then)
        self.assertLess(self.metrics(up=1)["remote_copy_age_seconds"], 100)
        copy, = self.ask("sh", "-c", "ls /var/lib/bovtrila-copies/*/station.journal-*").split()
        self.ask("cmp", "--bytes=320", copy, f"{FOLDER}/station.journal")
        self.assertIn("\nsound\n", self.ask("bovtrila", "verify", "--journal", copy))
        self.assertEqual(self.machine.run("systemctl", "is-active", "bovtrila-send-copy.timer").stdout, "active\n")
        self.assertEqual(self.told("bovtrila-send-copy").count("fault"), 0)
        # A user of the station gets no shell there.
        done = self.machine.run("ssh", "-F", "/etc/bovtrila/serve.remote/ssh_config", "copies", "id")
        self.assertEqual((done.returncode, done.stdout), (2, ""))

    def begin_several(self) -> None:
        """Two servers more, each with copies and metrics of its own."""
        for place, name in enumerate(("alder-1", "alder-2"), 5):
            self.ask("bovtrila-setup", "--table", "/root/first.toml", "--cards", "100", "--capacity", "1000", "--listen",
                     f"127.0.0.1:402{place}", "--name", name)
        page = PAGE.partition("\n## Several servers on a machine\n")[2]
        command = re.search(r"^systemctl enable --now bovtrila@alder-1 .*$", page, re.M)
        assert command, "the page has the command"
        for name in ("alder-1", "alder-2"):
            self.ask("bash", "-ec", command[0].replace("alder-1", name))
            time.sleep(1)
            self.ask("systemctl", "start", f"bovtrila-copies@{name}")
            self.assertEqual(len(self.ask("ls", f"{FOLDER}/{name}/copies").split()), 2)
        for port in (9825, 9826):
            self.listens(port)
        self.assertEqual(self.touches("127.0.0.1:4026"), ANSWERS)
        self.until(lambda: "bovtrila_touches 4.0" in self.ask("/usr/bin/python3", "-c", FETCH.replace("9814", "9826")),
                   "the second exporter has other touches")
        self.assertIn("bovtrila_touches 0.0", self.ask("/usr/bin/python3", "-c", FETCH.replace("9814", "9825")))
        self.reads_pages(9826)
        self.assertEqual(self.machine.run("systemctl", "is-active", "bovtrila-copies@alder-2.timer").stdout, "active\n")

    def secure(self) -> None:
        """The commands of the page, as far as nothing is fetched."""
        self.ask("bovtrila-authority", "begin", "/root/tls", "--name", "localhost")
        self.ask("bovtrila-authority", "gate", "/root/tls", "7", "8", "9")
        self.commands("## Who may connect", 6)
        self.listens(4015)
        self.assertEqual(self.touches("localhost:4015", *self.tls("9")), ANSWERS)
        self.ask("systemctl", "disable", "--now", "bovtrila-haproxy")
        self.commands("### stunnel instead of HAProxy", 5)
        self.listens(4015)
        self.assertEqual(self.touches("localhost:4015", *self.tls("8")), ANSWERS)
        # Both families of addresses are listened on by one socket, so that nothing clashes.
        self.assertNotIn("Address already in use", self.told("bovtrila-stunnel"))
        self.ask("systemctl", "restart", "bovtrila-exporter")
        self.listens(9814)
        ends = {name: round((end - time.time()) / 86_400) for name, end in self.metrics(up=1).items()
                if name.startswith("certificate_end")}
        self.assertEqual(ends, {f'certificate_end_timestamp_seconds{{certificate="{name}"}}': days for name, days in (
            ("server", 1095), ("gate 7", 1095), ("gate 8", 1095), ("gate 9", 1095), ("authority", 7300),
            ("revocation list", 7300))})
        self.assertNotEqual(self.machine.run("bovtrila-gate", "localhost:4015", REQUESTS, "--tries", "1").returncode, 0)

    def commands(self, section: str, count: int) -> None:
        """Runs so many commands of a section of the page, as they are there: all but those that fetch packages."""
        part = PAGE.partition(f"\n{section}\n")[2].partition("\n### ")[0]
        found = re.findall(r"^ *((?:install|systemctl|haproxy) .*|echo '.*)$", part, re.M)
        self.assertEqual(len(found), count)
        self.ask("bash", "-ec", "cd /root\n" + "\n".join(found))

    def tls(self, name: str) -> list[str]:
        return ["--tls", "/root/tls/authority.pem", f"/root/tls/gates/{name}.pem", f"/root/tls/gates/{name}.key"]

    def revoke(self) -> None:
        self.ask("bash", "-ec", "cd /root; cp tls/gates/8.key tls/gates/8.pem .; bovtrila-authority revoke tls 8; "
                 "cp tls/revoked.pem /etc/bovtrila/tls/; systemctl reload bovtrila-stunnel")
        words = ["bovtrila-gate", "localhost:4015", REQUESTS, "--tries", "1", "--tls", "/root/tls/authority.pem",
                 "/root/8.pem", "/root/8.key"]
        # While stunnel reads its configuration nobody listens for a moment: then a gate is refused for another reason.
        self.until(lambda: self.machine.run(*words).returncode == 1 and "CERT: Pre-verification error: certificate revoked"
                   in self.told("bovtrila-stunnel"), "a revoked gate is answered")
        self.assertEqual(self.machine.run(*words).returncode, 1)
        self.assertEqual(self.touches("localhost:4015", *self.tls("7")), ANSWERS)

    def limit(self) -> None:
        """The commands of the page from stunnel to HAProxy. A gate that has two connections gets no third one."""
        self.commands("### From stunnel to HAProxy", 6)
        self.listens(4015)
        self.assertEqual(self.machine.run("systemctl", "is-active", "bovtrila-stunnel").stdout, "inactive\n")
        self.assertEqual(self.touches("localhost:4015", *self.tls("7")), ANSWERS)
        self.assertNotEqual(self.machine.run("bovtrila-gate", "localhost:4015", REQUESTS, "--tries", "1").returncode, 0)
        self.ask("systemd-run", "--unit=held", "bash", "-c", "sleep 100 | openssl s_client -connect localhost:4015 -quiet "
                 "-cert /root/tls/gates/9.pem -key /root/tls/gates/9.key & sleep 100 | openssl s_client -connect "
                 "localhost:4015 -quiet -cert /root/tls/gates/9.pem -key /root/tls/gates/9.key")
        self.until(lambda: "key=9 use=2" in self.ask("bash", "-ec", STATUS), "gate 9 has no two connections")
        words = ["bovtrila-gate", "localhost:4015", REQUESTS, "--tries", "1", *self.tls("9")]
        self.assertEqual(self.machine.run(*words).returncode, 1)
        self.reports("bovtrila-haproxy", r"gate 9 at \S+: refused: 3 connections at once, the limit is 2 ")
        self.assertEqual(self.touches("localhost:4015", *self.tls("7")), ANSWERS)
        self.ask("systemctl", "stop", "held")
        self.commands("### What a certificate may do", 4)

    def revoke_beside(self) -> None:
        """With HAProxy, by a reload. One that is refused leaves everything as it is."""
        self.ask("bash", "-ec", "cd /root; cp tls/gates/9.key tls/gates/9.pem .; bovtrila-authority revoke tls 9; "
                 "cp tls/revoked.pem /etc/bovtrila/tls/; systemctl reload bovtrila-haproxy")
        words = ["bovtrila-gate", "localhost:4015", REQUESTS, "--tries", "1", "--tls", "/root/tls/authority.pem",
                 "/root/9.pem", "/root/9.key"]
        self.until(lambda: self.machine.run(*words).returncode and re.search(
            r"gate 9 at \S+: refused: certificate revoked ", self.told("bovtrila-haproxy")), "a revoked gate is answered")
        self.ask("bash", "-ec", "cp -p /etc/bovtrila/haproxy.cfg /root; echo nonsense >>/etc/bovtrila/haproxy.cfg")
        self.assertNotEqual(self.machine.run("systemctl", "reload", "bovtrila-haproxy").returncode, 0)
        self.assertEqual(self.touches("localhost:4015", *self.tls("7")), ANSWERS)
        self.ask("cp", "-p", "/root/haproxy.cfg", "/etc/bovtrila/haproxy.cfg")

    def follow(self) -> None:
        said = self.ask("bovtrila-next-journal", "station.journal", "--dry-run")
        self.assertIn("run 'systemctl stop bovtrila'", said)
        said = self.ask("bovtrila-next-journal", "station.journal", "--settled", "--watch", "0", "--journal",
                        "next.journal", "--capacity", "2000")
        self.assertIn("next.journal follows station.journal.\n", said)
        self.assertIn("carried   1650 pence to 1 cards, by 2 requests of gate 65535, numbers 100000 to 100001, ", said)
        self.assertEqual(self.ask("systemctl", "is-active", "bovtrila"), "active\n")
        found = self.metrics(up=1, touches=2)
        self.assertEqual((found["capacity"], found["room"]), (2000, 1998))
        time.sleep(1)
        self.ask("systemctl", "start", "bovtrila-copies")
        self.assertIn("no seal of next.journal stands in ", self.told("bovtrila-copies"))

    def follow_alone(self) -> None:
        """By the timer's unit: below 90 % nothing is changed. A change that fails leaves the old server running."""
        part = PAGE.partition("\n### Unattended\n")[2]
        command = re.search(r"^systemctl enable --now .*$", part, re.M)
        assert command, "the page has the command"
        self.ask("bash", "-ec", command[0])
        self.metrics(up=1, next_journal_enabled=1, next_journal_failed=0)
        self.ask("systemctl", "start", "bovtrila-next-journal")
        self.assertIn("next.journal is 0.1 % full, with 2 of 2000 touches: a new journal follows from 90 % on\n",
                      self.told("bovtrila-next-journal"))
        lines = "".join(f"{codec.touch(codec.TOP_UP, 7, 100 + count, 1, 10, 1736150400).hex()}\n" for count in range(20))
        self.machine.path("/root/lines").write_text(lines)
        self.ask("bovtrila-gate", "127.0.0.1:4014", "/root/lines")
        early = self.machine.path("/etc/systemd/system/bovtrila-next-journal.service.d/early.conf")
        early.parent.mkdir()
        early.write_text("[Service]\nExecStart=\nExecStart=/usr/bin/bovtrila-next-journal --when-above 1 --watch 1\n")
        hindrance = self.machine.path("/etc/systemd/system/bovtrila.service.d/hindrance.conf")
        hindrance.write_text("[Service]\nExecStartPre=/bin/sh -c '! grep ^journal.*next-2 /etc/bovtrila/serve.conf'\n")
        self.ask("systemctl", "daemon-reload")
        self.assertNotEqual(self.machine.run("systemctl", "start", "bovtrila-next-journal").returncode, 0)
        self.assertIn("; the server runs on next.journal again\n", self.told("bovtrila-next-journal"))
        self.metrics(up=1, touches=22, next_journal_failed=1)
        hindrance.unlink()
        self.ask("systemctl", "daemon-reload")
        self.ask("systemctl", "start", "bovtrila-next-journal")
        self.assertRegex(self.ask("cat", "/etc/bovtrila/serve.conf"), r"\njournal = next-\d{8}\.journal\n")
        self.assertEqual(self.metrics(up=1, touches=2, next_journal_failed=0)["capacity"], 2000)
        self.assertEqual(set(self.ask("sh", "-c", f"stat -c %U:%a {FOLDER}/next-*.journal").split()), {"bovtrila:640"})

    def revise(self) -> None:
        """New fares in one command: a file as `cp` by root leaves it is the server's user's then. A server that doesn't
        start with the new table runs again without it."""
        table, config = f"{FOLDER}/prices.toml", self.machine.path("/etc/bovtrila/serve.conf")
        self.ask("sh", "-c", f"umask 027; cp /usr/share/bovtrila/docs/vectors-revised.toml {table}")
        self.assertEqual(self.ask("stat", "-c", "%U %a", table), "root 640\n")
        words = ["bovtrila-new-fares", table, "--from", "2099-01-05", "--far", "--yes"]
        before = config.read_text()
        self.assertIn("Nothing was changed.\n", self.ask(*words, "--dry-run"))
        hindrance = self.machine.path("/etc/systemd/system/bovtrila.service.d/hindrance.conf")
        hindrance.parent.mkdir(exist_ok=True)
        hindrance.write_text("[Service]\nExecStartPre=/bin/sh -c '! grep ^revised /etc/bovtrila/serve.conf'\n")
        self.ask("systemctl", "daemon-reload")
        done = self.machine.run(*words)
        self.assertEqual(done.returncode, 1)
        self.assertIn("with prices.toml the server wasn't started: 'systemctl restart bovtrila' ended with status 1; "
                      "it runs again without it\n", done.stderr)
        self.assertEqual(config.read_text(), before)
        self.assertEqual(self.ask("systemctl", "is-active", "bovtrila"), "active\n")
        hindrance.unlink()
        self.ask("systemctl", "daemon-reload")
        self.assertIn("from Monday 2099-01-05 at 04:30 on prices.toml counts\n", self.ask(*words))
        self.assertEqual(self.ask("stat", "-c", "%U %G %a", table), "bovtrila bovtrila 640\n")
        self.assertIn("\nrevised = prices.toml\n", config.read_text())
        self.metrics(up=1, touches=3)
        self.assertIn("on already\n", self.ask(*words))
