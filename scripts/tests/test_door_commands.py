"""Tests the commands on a server's machine with a server that has a door and --proxy: they write the header themselves, send
nothing that the door refuses, and find a wrong door before a server is stopped.
"""
import json
import pathlib
import subprocess
import tempfile
import time

import harness
import test_new_fares as new_fares
import test_watched_servers as watched
from bovtrila import codec, serving, settings, wire
from harness import TIME, TOP
from test_door_rules import MORNING, REFUSED, rule

DOOR = (rule("barrier-7", 'gates = [7]\nkinds = ["in", "out", "enquiry"]\n')
        + rule("back-office", 'gates = [65535]\nkinds = ["revise"]\n') + rule("*", 'kinds = ["enquiry"]\n'))
# Gate 7's next touch after those of the journal, and what it is answered.
TOUCH = codec.touch(codec.ENTER, 7, 5, 1, 2, MORNING + 7200)
# A server that is there has answered by then, however busy the machine is.
PATIENT = ("--timeout", TIME / 2)


class Commands(harness.ProgramTest):
    """A station with a door, whose server runs."""

    def setUp(self) -> None:
        room = tempfile.TemporaryDirectory(prefix="door-commands-")
        self.addCleanup(room.cleanup)
        pathlib.Path(room.name).chmod(0o755)
        self.station = new_fares.Station(pathlib.Path(room.name) / "station")
        self.station.before += "door = door.toml\nproxy = yes\n"
        self.station.config.write_text(self.station.before)
        self.door = self.station.folder / "door.toml"
        self.door.write_text(DOOR)
        self.addCleanup(self.station.stop)

    def start(self) -> None:
        self.station.start()
        self.assertEqual(serving.front_of(settings.words_of(self.station.config)), 4)

    def log(self, count: int) -> str:
        """What the server has reported, once there are so many lines, and no further one comes for some seconds."""
        path = self.station.top / "log"
        harness.until(lambda: self.reported(path.read_text()).count("\n") >= count)
        time.sleep(2.5)
        return self.reported(path.read_text())

    @staticmethod
    def reported(said: str) -> str:
        return said.partition("\n")[2] if said.startswith("listening ") else said

    def run_command(self, name: str, *words: object, given: str = "") -> tuple[int, str, str]:
        done = subprocess.run([str(word) for word in (TOP / "bin" / f"bovtrila-{name}", *words)], input=given, text=True,
                              capture_output=True, timeout=TIME)
        self.assertNotIn("Traceback", done.stderr)
        return done.returncode, done.stdout, done.stderr

    def test_the_status(self) -> None:
        self.start()
        places = ("--config", self.station.config, "--folder", self.station.folder)
        for words in (places, (self.station.listen, "--proxy")):
            with self.subTest(words):
                status, out, err = self.run_command("status", "--json", *PATIENT, *words)
                found = json.loads(out)
                self.assertEqual((status, err, found["up"], found["touches"], found["halted"]), (0, "", True, 4, None))
        # The settings name the door: only the server that was named by its address was asked whether it is halted.
        self.assertEqual(self.log(2), "opened 4\nnot allowed kind 65535 1 *\n")

    def test_a_door_that_lets_no_enquiry_through(self) -> None:
        self.door.write_text(rule("*", 'gates = [7]\nkinds = ["in"]\n'))
        self.station.start()
        status, out, _ = self.run_command("status", "--json", *PATIENT, "--config", self.station.config, "--folder",
                                          self.station.folder)
        self.assertEqual((status, json.loads(out)["why"]), (
            1, "its door lets no enquiry of this machine through: the rule * needs the kind enquiry"))

    def test_the_exporter(self) -> None:
        if not watched.has_client():
            self.skipTest("metrics: python3-prometheus-client isn't installed")
        self.start()
        exporter = watched.Exporter("--config", self.station.config, "--folder", self.station.folder)
        self.addCleanup(exporter.end)
        found = exporter.until(up=1, touches=4)
        self.assertEqual((found["up"], found["touches"], found.get("halted")), (1, 4, None))
        self.assertEqual(self.log(1), "opened 4\n")

    def test_requests_by_hand(self) -> None:
        self.start()
        for name, wanted in (("barrier-7", codec.REPLY), ("-", codec.FAULT), ("back-office", codec.FAULT)):
            with self.subTest(name):
                status, out, err = self.run_command("gate", self.station.listen, "-", *PATIENT, "--proxy", name,
                                                    given=TOUCH.hex())
                self.assertEqual((status, err), (0, ""))
                answer = bytes.fromhex(out.split()[0])
                self.assertEqual(answer[2], wanted)
                self.assertEqual(wire.is_fault(answer, REFUSED), wanted == codec.FAULT)
        status, _, err = self.run_command("gate", self.station.listen, "-", *PATIENT, "--tries", 1, given=TOUCH.hex())
        self.assertEqual(status, 1, err)
        self.assertEqual(serving.front_of(settings.words_of(self.station.config)), 5)

    def test_new_fares(self) -> None:
        self.start()
        process = self.station.process()
        status, _, err = self.station.run("--yes", "--as", "barrier-7")
        self.assertEqual(status, 1)
        self.assertIn("the server would refuse the revision; nothing was changed:\n", err)
        self.assertIn("fault 7: not allowed", err)
        self.assertEqual((self.station.process(), self.station.revisions()), (process, []))
        self.assertEqual(self.station.config.read_text(), self.station.before)
        self.assertEqual(self.station.run("--yes")[::2], (0, ""))
        self.assertEqual(self.station.revisions(), [("2026-01-05", "96cc50b0", "Revised")])
        self.assertEqual(self.station.config.read_text(), f"{self.station.before}revised = prices-2026.toml\n")

    def test_what_a_start_would_refuse_is_found_with_its_line(self) -> None:
        rows = (("door = door.toml", "door = none.toml", "line 9: the server refuses these settings:\nfault file\n"
                                                         "  none.toml: no such file\n"),
                (f"listen = {self.station.listen}", "listen = 0.0.0.0:0",
                 "line 6: listen: 0.0.0.0:0: with `proxy = yes` it has to be an address of this machine alone"))
        for was, other, said in rows:
            with self.subTest(other):
                self.station.config.write_text(self.station.before.replace(was, other))
                status, _, err = self.check()
                self.assertEqual((status, said in err), (1, True), err)
        self.station.config.write_text(self.station.before)
        self.door.write_text(rule("barrier-7", 'gates = [7]\nkinds = ["enter"]\n'))
        self.assertIn("line 9: the server refuses these settings:\nfault door 6 Range kinds 1\n  door.toml: line 4: ",
                      self.check()[2])
        self.door.write_text(DOOR)
        self.assertEqual(self.check()[::2], (0, ""))

    def check(self) -> tuple[int, str, str]:
        return self.run_command("start", "--check", "--config", self.station.config, "--folder", self.station.folder,
                                "--program", harness.PROGRAM, "--user", new_fares.USER)
