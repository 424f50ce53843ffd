"""Tests the command bovtrila-stand-in with the file of a barrier: a named pipe or standard input, and what it refuses. For
scripts/tests/test_stand_in.py.
"""
import os
import pathlib
import subprocess
import tempfile
import unittest

import harness
from bovtrila import wire
from harness import BIN, TIME
from standing_in import MORNING, travel


class Command(unittest.TestCase):
    """The command, with its named pipe."""

    def setUp(self) -> None:
        folder = tempfile.TemporaryDirectory()
        self.addCleanup(folder.cleanup)
        self.folder = pathlib.Path(folder.name)
        self.script = self.folder / "script"
        self.script.write_text("reply 1 -900 1100\nfault 7\nrest reply 24 0 0\n")

    def start(self, file: str | pathlib.Path) -> tuple[subprocess.Popen[str], wire.Address]:
        """The stand-in with this file of the barrier, and its address."""
        running = subprocess.Popen(
            [BIN / "bovtrila-stand-in", "127.0.0.1:0", self.script, "--barrier", file, "--linger", str(TIME)], text=True,
            stdin=subprocess.PIPE, stdout=subprocess.PIPE, stderr=subprocess.PIPE)
        self.addCleanup(running.communicate)
        self.addCleanup(running.kill)
        assert running.stderr, "a pipe"
        return running, wire.address(harness.first_line(running.stderr).split()[1])

    def ask(self, address: wire.Address, frame: bytes) -> None:
        with wire.Connection(address, TIME) as line:
            line.send(frame)
            line.take()

    def played(self, *lines: str, again: bytes) -> list[str]:
        """The faults that the command finds of a gate that gives up its second touch, and sends this touch after its start;
        these lines come at the end."""
        pipe = self.folder / "opened"
        os.mkfifo(pipe)
        running, address = self.start(pipe)
        assert running.stderr, "a pipe"
        # A writer for each line, as a rig's shell has it.
        for frame, line in ((travel(1), "7 1"), (travel(2, MORNING + 1), "given-up 7 2"), (None, "start 7")):
            if frame is not None:
                self.ask(address, frame)
            pipe.write_text(f"{line}\n")
        self.assertEqual(running.stderr.readline(), "started 7\n")
        self.ask(address, again)
        pipe.write_text("".join(f"{line}\n" for line in (*lines, "start 8")))
        self.assertEqual(running.stderr.readline(), "started 8\n")
        running.terminate()
        out, err = running.communicate(timeout=TIME)
        faults = [line.removeprefix("failed: ") for line in out.splitlines() if line.startswith("failed: ")]
        self.assertEqual((running.returncode, err), (int(bool(faults)), ""), out)
        return faults

    def test_a_gate_that_gave_a_touch_up_and_does_not_send_it_again_is_right(self) -> None:
        self.assertEqual(self.played(again=travel(3, MORNING + 2)), [])

    def test_a_gate_that_sends_it_again_after_its_start_is_found(self) -> None:
        self.assertEqual(self.played("given-up 7 9", again=travel(2, MORNING + 1)), [
            "'7 9' was given up, which is no touch sent", "gate 7 number 2: it was sent again after it was given up"])

    def test_lines_are_read_from_standard_input_too(self) -> None:
        running, address = self.start("-")
        assert running.stdin and running.stderr, "pipes"
        self.ask(address, travel(1))
        running.stdin.write("7 1\nstart 7\n")
        running.stdin.flush()
        self.assertEqual(running.stderr.readline(), "started 7\n")
        running.terminate()
        out, _ = running.communicate(timeout=TIME)
        self.assertIn("right: gate 7 number 1: sent 1 times, in; change -900, balance 1100, opened 1 times\n", out)

    def test_a_barrier_s_file_that_is_no_named_pipe_is_refused(self) -> None:
        missing, kind = self.folder / "missing", "this is no named pipe; name one that 'mkfifo FILE' has made, or -"
        self.check_refused(1, f"stand-in: {missing}: No such file or directory; make a named pipe with 'mkfifo {missing}'\n",
                           self.script, missing)
        for file in (self.script, self.folder, pathlib.Path(os.devnull)):
            with self.subTest(file):
                self.check_refused(1, f"stand-in: {file}: {kind}", self.script, file)

    def test_standard_input_is_not_the_script_and_the_barrier_s_file(self) -> None:
        self.check_refused(2, "SCRIPT and --barrier can't both be standard input", "-", "-")

    def check_refused(self, status: int, said: str, script: str | pathlib.Path, file: str | pathlib.Path) -> None:
        done = subprocess.run([BIN / "bovtrila-stand-in", "127.0.0.1:0", script, "--barrier", file], capture_output=True,
                              text=True, stdin=subprocess.DEVNULL, timeout=TIME)
        self.assertEqual((done.returncode, done.stdout), (status, ""), done.stderr)
        self.assertIn(said, done.stderr)
        self.assertNotIn("listening", done.stderr)
        self.assertNotIn("Traceback", done.stderr)
