"""Tests bovtrila-exporter with running servers, its metrics in a real Prometheus, and the alert rules of
packaging/alerts.yml. All traffic stays on 127.0.0.1.
"""
import contextlib
import json
import math
import os
import pathlib
import re
import resource
import shutil
import signal
import socket
import subprocess
import tempfile
import time
import unittest
import urllib.error
import urllib.parse
import urllib.request
from collections.abc import Iterator
from typing import Any

import harness
import doors
from bovtrila import codec, layout, model, table_file
from harness import EXAMPLE, TIME, TOP
from running import Server
from servers_dashboard import ServersDashboard  # noqa: F401 (tests)

EXPORTER, ALERTS = TOP / "bin" / "bovtrila-exporter", TOP / "packaging" / "alerts.yml"
CASES = TOP / "packaging" / "alerts-test.yml"
FIRST = [bytes.fromhex(asked) for asked, _ in harness.vectors()["first example"]]
DIGEST = table_file.read(EXAMPLE).digest


def has_client() -> bool:
    """Whether Debian's Python has the client of Prometheus."""
    return not subprocess.run(["/usr/bin/python3", "-c", "import prometheus_client"],
                              stderr=subprocess.DEVNULL).returncode


def fetch(url: str) -> str:
    with urllib.request.urlopen(url, timeout=TIME) as answer:
        text: str = answer.read().decode()
    return text


def metrics_of(text: str) -> dict[str, float]:
    """The value of each line of metrics."""
    found: dict[str, float] = {}
    for line in text.splitlines():
        if not line.startswith("#"):
            name, _, value = line.rpartition(" ")
            found[name.removeprefix("bovtrila_")] = float(value)
    return found


class Exporter:
    """A running exporter."""

    def __init__(self, *words: object) -> None:
        # A server that is there has answered by then, however busy the machine is.
        command = [str(word) for word in (EXPORTER, "--listen", "127.0.0.1:0", "--every", "0.05", "--timeout", TIME / 2,
                                          *words)]
        self.process = subprocess.Popen(command, stderr=subprocess.PIPE, text=True)
        assert self.process.stderr, "a pipe"
        self.said = [self.process.stderr.readline()]
        while self.said[-1] and not self.said[-1].startswith("listening "):
            self.said.append(self.process.stderr.readline())
        self.url = f"http://{self.said[-1].split()[1]}/metrics"

    def now(self) -> dict[str, float]:
        return metrics_of(fetch(self.url))

    def hear(self, line: str) -> None:
        """Reads standard error until a line has this text. The metrics show what is reported some moments before it is."""
        assert self.process.stderr, "a pipe"
        while line not in self.said[-1]:
            self.said.append(self.process.stderr.readline())
            if not self.said[-1]:
                raise AssertionError(f"{line!r} isn't in {self.said}")

    def until(self, **wanted: float | None) -> dict[str, float]:
        """The metrics, once these have these values, or after a minute whatever they are."""
        limit = time.monotonic() + TIME
        while True:
            found = self.now()
            if time.monotonic() > limit or all(found.get(name) == value for name, value in wanted.items()):
                return found
            time.sleep(0.02)

    def end(self) -> str:
        if self.process.poll() is None:
            self.process.kill()
        return self.process.communicate(timeout=TIME)[1]


class InAFolder(unittest.TestCase):
    def setUp(self) -> None:
        room = tempfile.TemporaryDirectory(prefix="watched-servers-")
        self.addCleanup(room.cleanup)
        self.folder = pathlib.Path(room.name)


class Metrics(InAFolder, harness.ProgramTest):
    """What the exporter tells of servers."""

    @classmethod
    def setUpClass(cls) -> None:
        super().setUpClass()
        if not has_client():
            raise unittest.SkipTest("the metrics: python3-prometheus-client isn't installed")

    def serve(self, **words: Any) -> Server:
        options: dict[str, Any] = {"connections": None, "lines": 2, **words}
        server = Server(self.folder, **options)
        self.addCleanup(server.kill)
        return server

    def export(self, server: Server | None = None, *more: object) -> Exporter:
        words: list[object] = ["--server", "%s:%d" % server.address, "--journal", server.journal] if server else []
        exporter = Exporter(*words, *more)
        self.addCleanup(exporter.end)
        return exporter

    def touches(self, server: Server) -> int:
        """How many touches the server's journal holds."""
        return len(model.journal(server.journal.read_bytes(), table_file.read(EXAMPLE), 10)[0])

    def test_a_running_server_is_followed(self) -> None:
        server = self.serve()
        exporter = self.export(server)
        found = exporter.until(up=1)
        self.assertEqual({name: found.get(name) for name in ("up", "halted", "touches", "capacity", "room",
                                                             "last_touch_timestamp_seconds")},
                         {"up": 1, "halted": 0, "touches": 0, "capacity": 1000, "room": 1000,
                          "last_touch_timestamp_seconds": None})
        with server.connect() as gate:
            for count, frame in enumerate(FIRST, 1):
                gate.ask(frame)
                found = exporter.until(touches=count, room=1000 - count, halted=0)
                self.assertEqual((found["touches"], found["room"], found["halted"]), (count, 1000 - count, 0))
        self.assertLess(abs(time.time() - found["last_touch_timestamp_seconds"]), TIME)
        # The times of all enquiries stand in the histogram, each below the highest bound.
        harness.until(lambda: exporter.now()["enquiry_seconds_count"] > 4)
        found = exporter.now()
        enquiries = found["enquiry_seconds_count"]
        self.assertGreater(enquiries, 4)
        self.assertEqual(found['enquiry_seconds_bucket{le="+Inf"}'], enquiries)
        self.assertLess(0, found["enquiry_seconds_sum"] / enquiries)
        bounds = [value for name, value in found.items() if name.startswith("enquiry_seconds_bucket")]
        self.assertEqual((bounds, len(bounds)), (sorted(bounds), 15))
        # What it asks was recorded nowhere.
        self.assertEqual(self.touches(server), 4)

    def test_it_keeps_one_connection_and_changes_nothing(self) -> None:
        server = self.serve(lines=1, connections=1)
        exporter = self.export(server)
        exporter.until(up=1)
        limit = time.monotonic() + TIME
        while exporter.now()["enquiry_seconds_count"] < 5 and time.monotonic() < limit:
            time.sleep(0.02)
        exporter.end()
        status, report, _ = server.end()
        self.assertEqual((status, report[0], report[-1]), (0, "opened 0", "closed 0"))
        reported = re.fullmatch(r"line 1 connections 1 requests (\d+) answers (\d+)", report[1])
        assert reported, report[1]
        line, answers = reported.groups()
        self.assertGreaterEqual(int(line), 10)
        self.assertEqual(line, answers)

    def test_a_halted_server_is_told(self) -> None:
        """Behind the header and two slots the file can't grow."""
        server = self.serve(more=["--stay-halted"], restore_signals=False, preexec_fn=lambda: resource.setrlimit(
            resource.RLIMIT_FSIZE, (65 + 2 * 64, 65 + 2 * 64)))
        exporter = self.export(server)
        with server.connect() as gate:
            answers = [gate.ask(frame) for frame in FIRST[:3]]
        self.assertEqual([answer[2] for answer in answers], [codec.REPLY, codec.REPLY, codec.FAULT])
        found = exporter.until(halted=1, touches=2)
        self.assertEqual((found["up"], found["halted"], found["touches"]), (1, 1, 2))
        exporter.hear("the server is halted\n")

    def test_a_server_that_is_down_and_comes_back(self) -> None:
        server = self.serve(listen=f"127.0.0.1:{harness.free_port()}")
        exporter = self.export(server)
        with server.connect() as gate:
            gate.ask(FIRST[0])
        self.assertEqual(exporter.until(up=1, touches=1)["up"], 1)
        heard = len(exporter.said)
        server.kill()
        found = exporter.until(up=0)
        # The journal tells what the server doesn't; whether it is halted isn't known.
        self.assertEqual((found["up"], found["touches"], found["room"], "halted" in found), (0, 1, 999, False))
        again = self.serve(listen="%s:%d" % server.address)
        self.assertEqual(exporter.until(up=1)["up"], 1)
        exporter.hear("doesn't answer")
        exporter.hear("the server answers\n")
        again.kill()
        said = "".join(exporter.said[heard:]) + exporter.end()
        self.assertEqual(said.count("the server answers\n"), 1)

    def test_a_server_whose_lines_are_all_taken_does_not_answer(self) -> None:
        server = self.serve(lines=1)
        with server.connect() as gate:
            gate.ask(FIRST[0])
            exporter = self.export(server, "--timeout", 0.5)
            self.assertEqual(exporter.now()["up"], 0)
        self.assertEqual(exporter.until(up=1)["up"], 1)

    def test_another_servers_journal_is_told(self) -> None:
        server = self.serve()
        with server.connect() as gate:
            gate.ask(FIRST[0])
        other = self.folder / "other"
        other.write_bytes(layout.journal_of([], 1000, 10, DIGEST))
        exporter = self.export(None, "--server", "%s:%d" % server.address, "--journal", other)
        found = exporter.until(up=1)
        self.assertEqual((found["up"], found["touches"], "room" in found), (1, 1, False))
        self.assertIn(f"{other} has 0 touches, and the server 1: it's another's journal\n", "".join(exporter.said))

    def test_a_server_by_its_words_is_followed_to_its_next_journal(self) -> None:
        server = self.serve()
        (self.folder / "next").mkdir()
        following = Server(self.folder / "next", connections=None, lines=2, capacity=77)
        self.addCleanup(following.kill)
        config = self.folder / "serve.conf"
        words = 'SERVE="--table t --journal {} --cards 10 --capacity 9 --listen {}:{} --lines 2"\n'
        config.write_text(words.format("journal", *server.address))
        exporter = self.export(None, "--config", config, "--folder", self.folder)
        self.assertEqual(exporter.until(up=1)["capacity"], 1000)
        config.write_text(words.format("next/journal", *following.address))
        self.assertEqual(exporter.until(capacity=77, up=1)["capacity"], 77)
        config.unlink()
        self.assertEqual(exporter.until(up=0)["up"], 0)

    def test_a_server_is_not_down_because_a_line_of_its_settings_is_wrong(self) -> None:
        """It runs on, and gates are answered: the line is reported on standard error."""
        server, config = self.serve(), self.folder / "serve.conf"
        good = ("table = t\njournal = journal\ncards = 10\ncapacity = 1000\nlisten = %s:%d\n" % server.address)
        config.write_text(f"{good}lines = 2\n")
        exporter = self.export(None, "--config", config, "--folder", self.folder)
        exporter.until(up=1)
        config.write_text(f"{good}lines = two\n")
        exporter.hear(f"{config}: line 6: lines: 'two' is no number from 1 to 64")
        found = exporter.now()
        self.assertEqual((found["up"], found["capacity"]), (1, 1000))
        answer = json.loads(fetch(exporter.url.replace("/metrics", "/health")))
        self.assertEqual((answer["healthy"], answer["why"]), (True, None))

    def test_a_journal_that_grows_and_is_replaced(self) -> None:
        journal, address = self.folder / "journal", "127.0.0.1:1"
        frames = [codec.touch(codec.TOP_UP, 7, number, 1, 1, 1736150400) for number in range(9000)]
        journal.write_bytes(layout.journal_of(frames[:4096], 9000, 10, DIGEST))
        exporter = self.export(None, "--server", address, "--journal", journal)
        self.assertEqual(exporter.now()["touches"], 4096)
        for count in (4097, 8191, 9000):
            # In place, as a server writes; behind the last slot stands a mark of before the journal had its whole size.
            with open(journal, "r+b") as file:
                file.write(layout.journal_of(frames[:count], 9000, 10, DIGEST)[: 65 + 64 * count])
            found = exporter.until(touches=count)
            self.assertEqual((found["touches"], found["room"]), (count, 9000 - count))
        other = self.folder / "other"
        other.write_bytes(layout.journal_of(frames[:3], 500, 10, DIGEST))
        os.replace(other, journal)
        found = exporter.until(touches=3)
        self.assertEqual((found["touches"], found["capacity"]), (3, 500))
        journal.write_bytes(b"no journal")
        self.assertNotIn("room", exporter.until(touches=None))

    def test_the_ages_of_copies_and_seals(self) -> None:
        copies = self.folder / "copies"
        copies.mkdir()
        exporter = self.export(None, "--server", "127.0.0.1:1", "--copies", copies)
        found = exporter.now()
        self.assertEqual((found["copy_age_seconds"], found["seal_age_seconds"]), (math.inf, math.inf))
        moment = time.strftime("%Y%m%dT%H%M%SZ", time.gmtime(time.time() - 5000))
        (copies / f"station.journal-{moment}").touch()
        (copies / "station.journal-20200101T000000Z").touch()
        (copies / "seals").write_text(f"20200101T000000Z station.journal-20200101T000000Z sealed 4 {'0' * 64}\n"
                                      f"{moment} station.journal-{moment} sealed 4 {'0' * 64}\n")
        found = exporter.now()
        for name in ("copy_age_seconds", "seal_age_seconds"):
            self.assertLess(abs(found[name] - 5000), TIME, name)
        # A copy of a clock that was ahead is none of them, and no age is below 0.
        ahead = time.strftime("%Y%m%dT%H%M%SZ", time.gmtime(time.time() + 5000))
        (copies / f"station.journal-{ahead}").touch()
        with open(copies / "seals", "a") as seals:
            seals.write(f"{ahead} station.journal-{ahead} sealed 4 {'0' * 64}\n")
        found = exporter.now()
        for name in ("copy_age_seconds", "seal_age_seconds"):
            self.assertLess(abs(found[name] - 5000), TIME, name)

    def test_copies_of_another_journal_do_not_count(self) -> None:
        """As of the full journal that the server's journal followed."""
        copies, server = self.folder / "copies", self.serve()
        copies.mkdir()
        exporter = self.export(server, "--copies", copies)
        exporter.until(up=1)
        moment = time.strftime("%Y%m%dT%H%M%SZ", time.gmtime(time.time() - 500))
        for name, age in (("old.journal", math.inf), (server.journal.name, 500)):
            (copies / f"{name}-{moment}").write_bytes(server.journal.read_bytes())
            with open(copies / "seals", "a") as seals:
                seals.write(f"{moment} {name}-{moment} sealed 4 {'0' * 64}\n")
            found = exporter.now()
            for metric in ("copy_age_seconds", "seal_age_seconds"):
                self.assertTrue(found[metric] == age or abs(found[metric] - age) < TIME, (name, metric, found[metric]))

    def test_the_age_of_copies_on_another_computer(self) -> None:
        """Before the first run of bovtrila-send-copy there is none, and from then on until one was verified it is
        infinite."""
        remote = self.folder / "remote"
        exporter = self.export(None, "--server", "127.0.0.1:1", "--remote", remote)
        self.assertNotIn("remote_copy_age_seconds", exporter.now())
        remote.mkdir()
        self.assertEqual(exporter.now()["remote_copy_age_seconds"], math.inf)
        moment = time.strftime("%Y%m%dT%H%M%SZ", time.gmtime(time.time() - 500))
        (remote / "sent").write_text(f"{moment} station.journal-{moment} sealed 4 {'0' * 64}\n")
        self.assertLess(abs(exporter.now()["remote_copy_age_seconds"] - 500), TIME)
        (remote / "sent").write_text("other\n")
        self.assertEqual(exporter.now()["remote_copy_age_seconds"], math.inf)

    def test_the_timer_for_a_new_journal_and_its_failure_are_told(self) -> None:
        timers, config, failed = self.folder / "timers", self.folder / "serve.conf", self.folder / "next-journal.failed"
        timers.mkdir()
        config.write_text('SERVE="--table t --journal j --cards 10 --capacity 9 --listen 127.0.0.1:1 --lines 2"\n')
        exporter = self.export(None, "--config", config, "--folder", self.folder, "--timers", timers)
        found = exporter.now()
        self.assertEqual((found["next_journal_enabled"], found["next_journal_failed"]), (0, 0))
        (timers / "bovtrila-next-journal.timer").symlink_to("/lib/systemd/system/bovtrila-next-journal.timer")
        failed.touch()
        found = exporter.now()
        self.assertEqual((found["next_journal_enabled"], found["next_journal_failed"]), (1, 1))
        # With an address of its own a server has no folder, and one of several has a timer of its own.
        self.assertNotIn("next_journal_failed", self.export(None, "--server", "127.0.0.1:1").now())
        exporter = self.export(None, "--config", config, "--folder", self.folder, "--timers", timers, "--name", "a")
        self.assertEqual(exporter.now()["next_journal_enabled"], 0)

    def test_one_of_several_servers_has_a_port_of_its_own(self) -> None:
        """That of the server and 5800 more: so two exporters of a machine don't meet."""
        listens = harness.free_port()
        port = listens - 5800
        config = self.folder / "alder-2.conf"
        config.write_text('SERVE="--table first.toml --journal station.journal --cards 10 --capacity 10 --listen '
                          f'192.168.7.2:{port} --lines 2"\n')
        words = [EXPORTER, "--name", "alder-2", "--config", config, "--folder", self.folder, "--timeout", "0.2"]
        with subprocess.Popen([str(word) for word in words], stderr=subprocess.PIPE, text=True) as process:
            assert process.stderr, "a pipe"
            try:
                said = [process.stderr.readline()]
                while said[-1] and not said[-1].startswith("listening "):
                    said.append(process.stderr.readline())
                self.assertEqual(said[-1], f"listening 127.0.0.1:{listens}\n")
            finally:
                process.kill()

    def health(self, exporter: Exporter, healthy: bool) -> tuple[int, dict[str, Any]]:
        """The status and the line of JSON at /health, once it says so, or after a minute whatever it says."""
        limit = time.monotonic() + TIME
        while True:
            try:
                with urllib.request.urlopen(exporter.url.replace("/metrics", "/health"), timeout=TIME) as answer:
                    status, body = answer.status, answer.read()
            except urllib.error.HTTPError as refused:
                with refused:
                    status, body = refused.code, refused.read()
            self.assertEqual((body.count(b"\n"), body[-1:]), (1, b"\n"))
            found = json.loads(body)
            if found["healthy"] == healthy or time.monotonic() > limit:
                return status, found
            time.sleep(0.02)

    def test_health_is_200_or_503_with_a_line_of_json(self) -> None:
        server = self.serve(capacity=2, lines=3)
        exporter = self.export(server)
        status, found = self.health(exporter, True)
        self.assertEqual((status, found["why"], found["up"], found["halted"], found["touches"], found["room"]),
                         (200, None, 1, 0, 0, 2))
        with server.connect() as gate:
            for frame in FIRST[:2]:
                gate.ask(frame)
        status, found = self.health(exporter, False)
        self.assertEqual((status, found["why"], found["up"]), (503, "the journal is full: it takes no new touch", 1))
        server.kill()
        status, found = self.health(exporter, False)
        exporter.until(up=0)
        status, found = self.health(exporter, False)
        self.assertEqual((status, found["up"]), (503, 0))
        self.assertIn("doesn't answer: ", found["why"])

    def test_a_halted_server_is_not_healthy(self) -> None:
        """Behind the header and two slots the file can't grow."""
        server = self.serve(more=["--stay-halted"], restore_signals=False, preexec_fn=lambda: resource.setrlimit(
            resource.RLIMIT_FSIZE, (65 + 2 * 64, 65 + 2 * 64)))
        exporter = self.export(server)
        with server.connect() as gate:
            for frame in FIRST[:3]:
                gate.ask(frame)
        status, found = self.health(exporter, False)
        self.assertEqual((status, found["why"], found["up"], found["halted"]), (
            503, "it is halted: the journal's disk has failed, and no touch is recorded", 1, 1))

    def test_the_disk_of_the_journal_is_told(self) -> None:
        """A journal without its whole size lacks the most of its 64,065 bytes; one with its whole size lacks nothing."""
        server = self.serve()
        exporter = self.export(server)
        found = exporter.until(up=1)
        missing = found["journal_missing_bytes"]
        self.assertTrue(64_065 - 2 * 4096 <= missing < 64_065, missing)
        disk = os.statvfs(self.folder)
        self.assertLess(abs(found["disk_free_bytes"] - disk.f_bavail * disk.f_frsize), disk.f_blocks * disk.f_frsize / 4)
        with open(server.journal, "r+b") as file:
            os.posix_fallocate(file.fileno(), 0, 64_065)
        self.assertEqual(exporter.until(journal_missing_bytes=0)["journal_missing_bytes"], 0)

    def test_the_ends_of_certificates_are_told(self) -> None:
        """By the files that the authority gives to the server's machine; gate 8's certificate was revoked."""
        if shutil.which("openssl") is None:
            self.skipTest("the ends of certificates: openssl isn't installed")
        made = self.folder / "made"
        commands: tuple[tuple[str | int | pathlib.Path, ...], ...] = (
                     ("begin", made, "--name", "a.station", "--days", 90), ("gate", made, 7, "--days", 10),
                     ("gate", made, 8, 9), ("revoke", made, 8))
        for words in commands:
            self.assertEqual(doors.authority(*words)[0], 0)
        tls = self.folder / "tls"
        tls.mkdir()
        for name in ("server.pem", "authority.pem", "revoked.pem", "certificates"):
            shutil.copy(made / name, tls)
        found = self.export(None, "--server", "127.0.0.1:1", "--tls", tls).now()
        ends = {name.split('"')[1]: round((value - time.time()) / 86_400)
                for name, value in found.items() if name.startswith("certificate_end")}
        self.assertEqual(ends, {"server": 90, "authority": 7300, "revocation list": 7300, "gate 7": 10, "gate 9": 1095})
        (tls / "server.pem").write_text("no certificate")
        (tls / "certificates").unlink()
        exporter = self.export(None, "--server", "127.0.0.1:1", "--tls", tls)
        left = [name for name in exporter.now() if name.startswith("certificate_end")]
        self.assertEqual(len(left), 2)
        self.assertIn(f"{tls}/server.pem: openssl reads no certificate in it", "".join(exporter.said))
        # Where there is no TLS there is nothing to tell.
        exporter = self.export(None, "--server", "127.0.0.1:1", "--tls", self.folder / "none")
        self.assertNotIn("none", "".join(exporter.said))

    def test_what_is_asked_elsewhere_is_refused(self) -> None:
        exporter = self.export(None, "--server", "127.0.0.1:1")
        with self.assertRaises(urllib.error.HTTPError) as refused:
            fetch(exporter.url.replace("/metrics", "/other"))
        self.assertEqual(refused.exception.code, 404)
        refused.exception.close()
        # It goes on after one that sends nothing, and one that hangs up.
        where = exporter.url.split("/")[2].split(":")
        for sent in (b"", b"GET /metr", b"\0\r\n\r\n"):
            with socket.create_connection((where[0], int(where[1])), TIME) as line:
                line.sendall(sent)
        self.assertEqual(exporter.now()["up"], 0)
        exporter.process.send_signal(signal.SIGTERM)
        exporter.process.wait(TIME)
        self.assertEqual(exporter.process.returncode, 0)

    def test_a_wrong_command_line_is_told(self) -> None:
        runs: tuple[tuple[list[str | pathlib.Path], int, str], ...] = (
                                   (["--journal", "x"], 2, "--journal goes with --server"),
                                   (["--every", "0"], 2, "above 0"),
                                   (["--config", self.folder / "none"], 1, "there is no such file"),
                                   (["--server", "127.0.0.1:1", "--listen", "192.0.2.1:1"], 1, "can't listen on"))
        for asked, status, said in runs:
            done = subprocess.run([str(word) for word in (EXPORTER, *asked)], capture_output=True, text=True,
                                  timeout=TIME)
            self.assertEqual((done.returncode, said in done.stderr, "Traceback" in done.stderr), (status, True, False),
                             done)

    def test_it_says_what_it_lacks(self) -> None:
        done = subprocess.run(["/usr/bin/python3", "-S", EXPORTER], capture_output=True, text=True, timeout=TIME)
        self.assertEqual((done.returncode, done.stderr), (
            1, "exporter: prometheus_client isn't there: apt-get install python3-prometheus-client\n"))


class Rules(InAFolder):
    """The alert rules, by promtool."""

    @classmethod
    def setUpClass(cls) -> None:
        if shutil.which("promtool") is None:
            raise unittest.SkipTest("alert rules: promtool isn't installed (prometheus)")

    def holds(self, rules: str) -> bool:
        """Whether rules of this text do what their cases say."""
        (self.folder / "alerts.yml").write_text(rules)
        shutil.copy(CASES, self.folder / "alerts-test.yml")
        done = subprocess.run(["promtool", "test", "rules", self.folder / "alerts-test.yml"], capture_output=True,
                              text=True)
        return done.returncode == 0

    def test_the_rules_are_valid(self) -> None:
        done = subprocess.run(["promtool", "check", "rules", ALERTS], capture_output=True, text=True)
        self.assertEqual(done.returncode, 0, done.stdout + done.stderr)
        self.assertIn("SUCCESS: 12 rules found", done.stdout)

    def test_the_rules_tell_what_their_cases_say(self) -> None:
        self.assertTrue(self.holds(ALERTS.read_text()))

    def test_another_rule_in_the_place_of_one_is_found(self) -> None:
        text = ALERTS.read_text()
        for name in re.findall(r"- alert: (\w+)", text):
            changed = re.sub(rf"(- alert: {name}\n(?: +#.*\n)* +expr: ).*", r"\g<1>vector(0) == 1", text)
            with self.subTest(name):
                self.assertNotEqual(changed, text)
                self.assertFalse(self.holds(changed))
        for was, other in (("> 3600", "> 7200"), ("-7 * delta", "-8 * delta"), ("-7 * delta", "-6 * delta"),
                           ("< 22", "< 23"), ("< 30 * 86400", "< 29 * 86400"), ("< 30 * 86400", "< 31 * 86400"),
                           ("free_bytes < bov", "free_bytes <= bov"),
                           ("<= -7", "< -7"), (' or absent(up{job="bovtrila"})', ""),
                           (' or up{job="bovtrila"} == 0', ""), ("> 300", "> 600"), ("> 300", "> 200"),
                           ("< 0.05", "<= 0.05"), ("< 0.05", "< 0.04"), (" and bovtrila_next_journal_enabled == 1", ""),
                           ("total[3m]", "total[15m]"), ("for: 10m", "for: 5m"), ("for: 10m", "for: 20m")):
            with self.subTest(was, other=other):
                self.assertIn(was, text)
                self.assertFalse(self.holds(text.replace(was, other)))


class Scraped(InAFolder, harness.ProgramTest):
    """The metrics in a real Prometheus."""

    @classmethod
    def setUpClass(cls) -> None:
        super().setUpClass()
        if not has_client() or shutil.which("prometheus") is None:
            raise unittest.SkipTest("a real Prometheus: prometheus and python3-prometheus-client aren't installed")

    @contextlib.contextmanager
    def prometheus(self, target: str) -> Iterator[None]:
        """A Prometheus that asks the exporter each second, and tries the alert rules."""
        self.at = f"127.0.0.1:{harness.free_port()}"
        rules = ALERTS.read_text().replace("for: 1m", "for: 1s")
        (self.folder / "alerts.yml").write_text(rules)
        (self.folder / "prometheus.yml").write_text(
            "global: {scrape_interval: 1s, evaluation_interval: 1s}\nrule_files: [alerts.yml]\nscrape_configs:\n"
            f"  - {{job_name: bovtrila, static_configs: [{{targets: ['{target}']}}]}}\n")
        words = ["prometheus", f"--config.file={self.folder}/prometheus.yml", f"--storage.tsdb.path={self.folder}/data",
                 f"--web.listen-address={self.at}"]
        with open(self.folder / "log", "wb") as log, subprocess.Popen(words, stdout=log, stderr=log) as process:
            try:
                yield
            finally:
                process.terminate()
                process.wait(TIME)

    def value(self, query: str, wanted: str | None) -> str | None:
        """What Prometheus has for this query, once it is what is wanted, or after a minute whatever it is."""
        limit = time.monotonic() + TIME
        found: str | None = None
        while found != wanted and time.monotonic() < limit:
            try:
                answer = json.loads(fetch(f"http://{self.at}/api/v1/query?query={urllib.parse.quote(query)}"))
                rows = answer["data"]["result"]
                found = rows[0]["value"][1] if rows else None
            except (OSError, KeyError):
                pass
            if found != wanted:
                time.sleep(0.2)
        return found

    def test_a_server_that_goes_down_is_told_by_an_alert(self) -> None:
        server = Server(self.folder, connections=None, lines=2)
        self.addCleanup(server.kill)
        exporter = Exporter("--server", "%s:%d" % server.address, "--journal", server.journal)
        self.addCleanup(exporter.end)
        with self.prometheus(exporter.url.split("/")[2]):
            with server.connect() as gate:
                for frame in FIRST:
                    gate.ask(frame)
            for query, wanted in (("bovtrila_up", "1"), ("bovtrila_touches", "4"), ("bovtrila_room", "996"),
                                  ("bovtrila_halted", "0"), ("bovtrila_enquiry_seconds_count > bool 3", "1"),
                                  ("count(ALERTS{alertname='BovtrilaDown'})", None)):
                self.assertEqual(self.value(query, wanted), wanted, query)
            server.kill()
            self.assertEqual(self.value("bovtrila_up", "0"), "0")
            self.assertEqual(self.value("ALERTS{alertname='BovtrilaDown', alertstate='firing'}", "1"), "1")
