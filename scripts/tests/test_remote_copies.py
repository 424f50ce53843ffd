"""Tests bovtrila-send-copy and bovtrila-receive-copy with the built program and a real rsync: over a real ssh on this
machine alone, with separate keys, and over a fake ssh that starts the other end directly.
"""
import contextlib
import hashlib
import math
import os
import pathlib
import pwd
import re
import shutil
import signal
import socket
import subprocess
import tempfile
import time
import unittest
from collections.abc import Iterator

import harness
import killing
from bovtrila import codec, copies, layout, model
from harness import EXAMPLE, PROGRAM, TIME, TOP

SEND, RECEIVE = TOP / "bin" / "bovtrila-send-copy", TOP / "bin" / "bovtrila-receive-copy"
DIGEST = model.Table(EXAMPLE.read_text()).digest
USER = pwd.getpwuid(os.geteuid()).pw_name
SSHD = shutil.which("sshd", path="/usr/sbin:/usr/bin")
# What starts the other end as ssh would: the last word is the command, or the last words.
STAND_IN = """#!/bin/sh
while [ "$1" != copies ]; do shift; done
shift
echo "$*" >>{folder}/asked
SSH_ORIGINAL_COMMAND="$*" exec {receive} {folder}/there --program {program}
"""


def paid(number: int) -> bytes:
    return codec.touch(codec.TOP_UP, 7, number, 1, 1, 1_736_150_400 + number)


def journal_of(touches: int, capacity: int = 100) -> bytes:
    """A journal of so many touches in its whole size."""
    content = layout.journal_of([paid(number) for number in range(touches)], capacity, 10, DIGEST)
    return content.ljust(65 + 64 * capacity, b"\0")


class Folder(harness.ProgramTest):
    """Each test has a station's folder, and one of the other computer."""

    maxDiff = None

    @classmethod
    def setUpClass(cls) -> None:
        super().setUpClass()
        if not shutil.which("rsync"):
            raise unittest.SkipTest("copies to another computer: rsync isn't installed")

    def setUp(self) -> None:
        room = tempfile.TemporaryDirectory(prefix="remote-copies-")
        self.addCleanup(room.cleanup)
        self.folder = pathlib.Path(room.name)
        self.config, self.there = self.folder / "serve.conf", self.folder / "there"
        self.journal, self.remote = self.folder / "station.journal", self.folder / "remote"
        self.there.mkdir()
        self.config.write_text('SERVE="--table first.toml --journal station.journal --cards 10 --capacity 100 '
                               '--listen 127.0.0.1:1 --lines 1"\n')
        self.env = dict(os.environ)
        self.put(4)

    def put(self, touches: int) -> None:
        self.journal.write_bytes(journal_of(touches))

    def words(self, *more: object) -> list[str]:
        return [str(word) for word in ("--config", self.config, "--folder", self.folder, "--user", USER, *more)]

    def send(self, *more: object) -> tuple[int, str, str]:
        """Status, standard output and standard error of a run."""
        done = subprocess.run([SEND, *self.words(*more)], capture_output=True, text=True, timeout=TIME, env=self.env)
        self.assertNotIn("Traceback", done.stderr)
        return done.returncode, done.stdout, done.stderr

    def sent(self) -> pathlib.Path:
        """The one file on the other computer that was sent last."""
        return copies.kept(self.there)[-1][1]

    def verified(self, path: pathlib.Path) -> list[str]:
        """What verify says of a file."""
        return subprocess.run([PROGRAM, "verify", "--journal", path, "--table", EXAMPLE], capture_output=True, text=True,
                              timeout=TIME).stdout.splitlines()


class Sent(Folder):
    """Over the stand-in for ssh."""

    def setUp(self) -> None:
        super().setUp()
        self.config.with_suffix(".remote").mkdir()
        (self.folder / "bin").mkdir()
        ssh = self.folder / "bin" / "ssh"
        ssh.write_text(STAND_IN.format(folder=self.folder, receive=RECEIVE, program=PROGRAM))
        ssh.chmod(0o755)
        self.env["PATH"] = f"{ssh.parent}:{self.env['PATH']}"

    def test_new_touches_are_added_and_verified(self) -> None:
        for touches in (4, 4, 9, 100):
            self.put(touches)
            status, out, err = self.send()
            name = self.sent().name
            self.assertEqual((status, out, err), (0, f"sent     {name}: {touches} touches, verified there\n", ""))
            front = self.journal.read_bytes()[:64 + 64 * touches]
            # A whole journal by itself: the touches, and the mark that ends them.
            self.assertEqual(self.sent().read_bytes(), front + b"\0")
            self.assertEqual(self.verified(self.sent())[-1], "sound")
            digest = hashlib.sha256(front).hexdigest()
            self.assertRegex((self.remote / "sent").read_text(),
                             rf"^\d{{8}}T\d{{6}}Z {name} sealed {touches} {digest}\n$")
            self.assertRegex((self.there / "seals").read_text(),
                             rf"^\d{{8}}T\d{{6}}Z {name} sealed {touches} {digest}\n$")
            self.assertTrue(0 <= copies.sent_age(self.remote) < 60)
        self.assertEqual(len(copies.kept(self.there)), 1)
        self.assertRegex(name, r"^station\.journal-\d{8}T\d{6}Z$")
        # rsync is asked to add, each time, and never to do anything else.
        asked = (self.folder / "asked").read_text().splitlines()
        self.assertEqual(len(asked), 8)
        self.assertTrue(all(line.startswith(("rsync --server -e", f"verify {name} ")) for line in asked), asked)

    def test_bytes_that_are_there_stay_and_are_compared(self) -> None:
        self.assertEqual(self.send()[0], 0)
        content = bytearray(self.sent().read_bytes())
        content[64 + 2 * 64 + 15] ^= 1
        self.sent().write_bytes(content)
        noted = (self.remote / "sent").read_text()
        self.put(9)
        status, out, err = self.send()
        self.assertEqual((status, out, err.splitlines()[0]), (1, "", "fault remote 4 Refused"))
        self.assertIn("fault seal 2 Changed", err)
        self.assertEqual(self.sent().read_bytes()[:len(content) - 1], content[:-1])
        self.assertEqual((self.remote / "sent").read_text(), noted)

    def test_a_journal_that_changed_is_not_sent(self) -> None:
        self.assertEqual(self.send()[0], 0)
        there, noted = self.sent().read_bytes(), (self.remote / "sent").read_text()
        changed = bytearray(journal_of(9))
        changed[64 + 64 + 60] ^= 1
        header = bytearray(journal_of(9))
        header[60] ^= 1
        for content in (journal_of(3), changed, header):
            self.journal.write_bytes(content)
            status, out, err = self.send()
            self.assertEqual((status, out, err.splitlines()[0]), (1, "", "fault remote 2 Differs"))
            self.assertIn(f"  {self.journal}: it doesn't begin with the touches of {self.remote}/station.journal-", err)
            self.assertEqual((self.sent().read_bytes(), (self.remote / "sent").read_text()), (there, noted))
        # Replaced on purpose it begins a file of its own; the old one stays there.
        old = self.sent()
        self.put(3)
        time.sleep(1)
        self.assertEqual(self.send("--anew")[0], 0)
        self.assertNotEqual(self.sent(), old)
        self.assertEqual((old.read_bytes(), self.sent().read_bytes()), (there, journal_of(3)[:64 + 3 * 64] + b"\0"))
        self.put(5)
        self.assertEqual(self.send()[0], 0)
        self.assertEqual(len(copies.kept(self.there)), 2)

    def test_a_journal_that_is_none_is_told(self) -> None:
        for content, said in ((b"no journal", "this is no journal"), (None, "No such file or directory"),
                              (layout.journal_of([paid(1)], 100, 10, DIGEST, b"OYSTERJ1"), "no journal of today's format")):
            self.journal.unlink(missing_ok=True)
            if content is not None:
                self.journal.write_bytes(content)
            status, out, err = self.send()
            self.assertEqual((status, out, err.splitlines()[0], said in err), (1, "", "fault remote 1 Unread", True), err)
        self.assertEqual((list(self.there.iterdir()), copies.sent_age(self.remote)), ([], math.inf))

    def test_the_other_computer_is_away(self) -> None:
        (self.folder / "bin" / "ssh").write_text("#!/bin/sh\necho 'no route to host' >&2\nexit 255\n")
        status, out, err = self.send()
        self.assertEqual((status, out, err.splitlines()[0]), (1, "", "fault remote 3 Unsent"))
        self.assertIn("no route to host", err)
        self.assertEqual(copies.sent_age(self.remote), math.inf)
        # Under systemd each line is an error of the log.
        self.env["JOURNAL_STREAM"] = "8:1"
        self.assertTrue(all(line.startswith("<3>") for line in self.send()[2].splitlines()))

    def test_a_run_that_was_killed_is_made_whole_by_the_next(self) -> None:
        """The one that sends, before each of its calls that change a disk or start a program."""
        for place in range(1, 60):
            self.put(min(4 + place, 100))
            done = subprocess.run(killing.words(place, SEND, *self.words()), capture_output=True, text=True, timeout=TIME,
                                  env=self.env)
            if done.returncode == 0:
                break
            with self.subTest(place):
                self.assertEqual(done.returncode, -signal.SIGKILL, done.stderr)
                status, _, err = self.send()
                self.assertEqual((status, err), (0, ""))
                self.assertEqual(self.sent().read_bytes(), self.journal.read_bytes()[:64 + 64 * (4 + place)] + b"\0")
        self.assertGreater(place, 5)

    def test_the_other_end_that_was_killed(self) -> None:
        """What it may leave: no mark behind the touches, and a part of a slot."""
        self.assertEqual(self.send()[0], 0)
        for left in (64 + 4 * 64, 64 + 3 * 64 + 17, 64 + 3 * 64, 64, 30, 0):
            with self.subTest(left):
                os.truncate(self.sent(), left)
                self.assertEqual(self.send()[0], 0)
                self.assertEqual(self.sent().read_bytes(), self.journal.read_bytes()[:64 + 4 * 64] + b"\0")
        self.put(6)
        ended = subprocess.run(killing.words(1, RECEIVE, self.there), capture_output=True, text=True, timeout=TIME,
                               env={**self.env, "SSH_ORIGINAL_COMMAND": f"verify {self.sent().name} 4 {'0' * 64}"})
        self.assertEqual(ended.returncode, -signal.SIGKILL)
        self.assertEqual(self.send()[0], 0)
        self.assertEqual(self.verified(self.sent())[-1], "sound")

    def test_a_key_lets_nothing_else_be_done(self) -> None:
        self.assertEqual(self.send()[0], 0)
        before = {path: path.read_bytes() for path in self.there.iterdir()}
        name = self.sent().name
        for wanted in ("", "sh", "cat /etc/passwd", f"rsync --server --sender -e.LsfxCIvu . {name}",
                       f"rsync --server -e.LsfxCIvu --timeout=60 . {name}",
                       f"rsync --server -e.LsfxCIvu --timeout=60 --append . ../{name}",
                       f"rsync --server -e.LsfxCIvu --timeout=60 --append . /etc/{name}",
                       f"rsync --server -e.LsfxCIvu --timeout=60 --append . .{name}",
                       f"rsync --server -e.LsfxCIvu --timeout=60 --append --delete . {name}",
                       f"rsync --server -re.LsfxCIvu --timeout=60 --append . {name}",
                       f"rsync --server -e.LsfxCIvu --timeout=60 --append . {name}; id",
                       f"verify ../{name} 4 {'0' * 64}", f"verify {name} 4 {'0' * 64} --table /etc/passwd",
                       f"verify {name} 4 {'0' * 64}\nid"):
            done = subprocess.run([RECEIVE, self.there], capture_output=True, text=True, timeout=TIME,
                                  stdin=subprocess.DEVNULL, env={**self.env, "SSH_ORIGINAL_COMMAND": wanted})
            self.assertEqual((done.returncode, done.stdout, "isn't let be done by this key\n" in done.stderr),
                             (2, "", True), wanted)
        self.assertEqual({path: path.read_bytes() for path in self.there.iterdir()}, before)

    def test_wrong_words_are_told(self) -> None:
        sent: tuple[tuple[list[str | pathlib.Path], int, str], ...] = (
                                   (["--begin", "x y"], 2, "no [USER@]HOST[:PORT]"),
                                   (["--begin", "x:0"], 2, "no [USER@]HOST[:PORT]"),
                                   (["--begin", "x", "--anew"], 2, "not allowed with"),
                                   (["--config", self.folder / "none.conf"], 1,
                                    f"{self.folder}/none.remote isn't there: make it by "))
        for words, status, said in sent:
            found, _, err = self.send(*words)
            self.assertEqual((found, said in err), (status, True), err)
        received: tuple[tuple[list[str], str], ...] = (
                           ([], "either FOLDER or"), (["--allow", "a/b", "ssh-ed25519 AAAA x"], "no name of a folder"),
                           (["--allow", "a", 'ssh-ed25519 AAAA" x'], "no line of a public key"))
        for asked, said in received:
            done = subprocess.run([RECEIVE, *asked], capture_output=True, text=True, timeout=TIME)
            self.assertEqual((done.returncode, said in done.stderr), (2, True), done.stderr)


class OverSsh(Folder):
    """Over a real ssh on a port of 127.0.0.1, from --begin on."""

    @classmethod
    def setUpClass(cls) -> None:
        super().setUpClass()
        if not SSHD or not shutil.which("ssh-keygen"):
            raise unittest.SkipTest("copies over ssh: openssh-server isn't installed")

    @contextlib.contextmanager
    def sshd(self) -> Iterator[int]:
        """A server of ssh with keys of its own, which lets in by the file `allowed`: its port."""
        folder, port = self.folder / "sshd", harness.free_port()
        folder.mkdir()
        subprocess.run(["ssh-keygen", "-q", "-t", "ed25519", "-N", "", "-f", folder / "host"], check=True)
        (folder / "config").write_text(
            f"Port {port}\nListenAddress 127.0.0.1\nHostKey {folder}/host\nAuthorizedKeysFile {folder}/allowed\n"
            "StrictModes no\nPermitRootLogin yes\nPasswordAuthentication no\nKbdInteractiveAuthentication no\n"
            f"UsePAM no\nPidFile none\n")
        if not os.geteuid():
            pathlib.Path("/run/sshd").mkdir(mode=0o755, exist_ok=True)
        with open(folder / "log", "wb") as log, subprocess.Popen([SSHD or "sshd", "-D", "-e", "-f", folder / "config"],
                                                                 stderr=log) as process:
            try:
                limit = time.monotonic() + TIME
                while time.monotonic() < limit and process.poll() is None:
                    with contextlib.suppress(OSError), socket.create_connection(("127.0.0.1", port), 1):
                        break
                    time.sleep(0.05)
                yield port
            finally:
                process.terminate()
                process.wait(TIME)

    def test_from_a_key_to_a_verified_copy(self) -> None:
        with self.sshd() as port:
            status, out, err = self.send("--begin", f"{USER}@127.0.0.1:{port}")
            self.assertEqual((status, err), (0, ""))
            said = subprocess.run(["ssh-keygen", "-lf", self.folder / "sshd" / "host.pub"], check=True, text=True,
                                  capture_output=True).stdout.split()[1]
            # The fingerprint of the computer, the command for it, and what comes next.
            self.assertIn(f"host     256 {said} ", out)
            allowed = re.search(r"^there    bovtrila-receive-copy --allow \S+ '(ssh-ed25519 .*)'$", out, re.M)
            assert allowed, out
            key = allowed[1]
            self.assertIn("systemctl enable --now bovtrila-send-copy.timer\n", out)
            settings = self.config.with_suffix(".remote")
            self.assertEqual(sorted(path.name for path in settings.iterdir()),
                             ["key", "key.pub", "known_hosts", "ssh_config"])
            # Nobody is let in before that command is given.
            status, _, err = self.send()
            self.assertEqual((status, err.splitlines()[0]), (1, "fault remote 3 Unsent"))
            self.assertIn("Permission denied (publickey)", err)
            (self.folder / "sshd" / "allowed").write_text(
                f'restrict,command="{RECEIVE} {self.there} --program {PROGRAM}" {key}\n')
            for touches in (4, 7):
                self.put(touches)
                status, out, err = self.send()
                self.assertEqual((status, err), (0, ""))
                self.assertEqual(self.sent().read_bytes(), self.journal.read_bytes()[:64 + 64 * touches] + b"\0")
            # The same command once more makes nothing anew; for another computer it is refused.
            again = self.send("--begin", f"{USER}@127.0.0.1:{port}")
            self.assertEqual((again[0], "made " in again[1], key in again[1]), (0, False, True))
            self.assertIn("is there, for another computer", self.send("--begin", "elsewhere")[2])
            # The key gives nobody a shell, and another computer in the place of this one gets nothing.
            shell = subprocess.run(["ssh", "-F", settings / "ssh_config", "copies", "id"], capture_output=True, text=True,
                                   timeout=TIME)
            self.assertEqual((shell.returncode, shell.stdout), (2, ""))
            (settings / "known_hosts").write_text(re.sub(r"(ssh-ed25519 A.*)....$", r"\1AAAA", (
                settings / "known_hosts").read_text().splitlines()[0]) + "\n")
            status, _, err = self.send()
            self.assertEqual((status, err.splitlines()[0]), (1, "fault remote 3 Unsent"))

    def test_no_computer_answers(self) -> None:
        status, _, err = self.send("--begin", f"127.0.0.1:{harness.free_port()}")
        self.assertEqual((status, "no ssh server answers there" in err), (1, True), err)
        self.assertFalse(self.config.with_suffix(".remote").exists())
