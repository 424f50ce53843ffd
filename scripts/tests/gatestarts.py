"""The tests of the results after a gate's start, for scripts/tests/test_gate_library.py: touches that were made before it,
and the mark of a touch whose reply the caller has acted on (docs/reference/GATE_LIBRARY.md, "The mark")."""
import errno
import os
import pathlib
import subprocess
import time

import clients
import test_gate_makers as makers
from bovtrila import codec, wire
from clients import CAUSE, CLIENT, FIRST, RESULT, SOURCE, GateTest, Line, Told, replied_to
from harness import EXAMPLE, PROGRAM, TIME

MONDAY = 1736121600
# The mark has room for the longest frame, that of a revision.
MARK_SIZE = 53


def mark_of(frame: bytes) -> bytes:
    """The bytes of the mark of a touch: its frame, and zeros behind it."""
    return frame.ljust(MARK_SIZE, b"\0")


class Starts(GateTest):
    """Touches that were made before a start, and the mark."""

    def setUp(self) -> None:
        super().setUp()
        self.mark = self.file.with_name("7.done")
        self.server = Told(self)

    def asked(self, *frames: bytes, done: bool = False) -> bytes:
        """Opens the gate, asks for these touches, marks the last one as done if it is to be, and closes the gate."""
        with self.open(self.server.text) as asker:
            for frame in frames:
                self.server.answers = [replied_to(frame)]
                self.assertEqual(asker.ask(clients.act_of(frame))[0], RESULT["ACCEPTED"])
            if done:
                self.assertEqual(asker.ask("done"), [1])
        return self.file.read_bytes()

    def told_at_a_start(self, answer: bytes) -> Line:
        """What a gate is told of the touch that waits when it is opened, by this answer of the station."""
        self.server.answers = [answer]
        with self.open(self.server.text) as asker:
            told = asker.ask("resend")
            self.assertEqual(asker.ask("waiting"), [])
            asker.ask("settled")
            self.assertEqual(asker.line(), told)
        return told

    def test_a_touch_of_before_the_start_is_told_by_a_result_of_its_own(self) -> None:
        self.create()
        self.asked(*FIRST[:3])
        reply = codec.framed(">BHIBiq", codec.REPLY, 7, 3, 1, -900, 1100)
        self.assertEqual(self.told_at_a_start(reply), [RESULT["ACCEPTED_EARLIER"], 3, 1, 0, -900, 1100])
        # A verdict that has no meaning yet is told in the same way, and a refusal as ever.
        reply = codec.framed(">BHIBiq", codec.REPLY, 7, 3, 19, 0, 1100)
        self.assertEqual(self.told_at_a_start(reply), [RESULT["ACCEPTED_EARLIER"], 3, 19, 0, 0, 1100])
        reply = codec.framed(">BHIBiq", codec.REPLY, 7, 3, 24, 0, 200)
        self.assertEqual(self.told_at_a_start(reply), [RESULT["REFUSED"], 3, 24, 0, 0, 200])

    def test_a_touch_of_this_start_is_told_as_such_behind_one_of_before(self) -> None:
        self.create()
        self.asked(FIRST[0])
        self.server.answers = [replied_to(FIRST[0]), codec.fault(4, 7, 2), replied_to(FIRST[1])]
        with self.open(self.server.text) as asker:
            self.assertEqual(asker.ask(clients.act_of(FIRST[1]))[0], RESULT["EARLIER_SETTLED"])
            asker.ask("settled")
            self.assertEqual(asker.line()[:2], [RESULT["ACCEPTED_EARLIER"], 1])
            self.assertEqual(asker.ask(clients.act_of(FIRST[1]))[:2], [RESULT["FAULT"], 2])
            self.assertEqual(asker.ask("resend")[:2], [RESULT["ACCEPTED"], 2])

    def test_lines_of_the_gate_s_own_tell_it_too(self) -> None:
        self.create()
        self.asked(FIRST[0])
        with self.open([]) as asker:
            told = asker.ask(f"hear {replied_to(FIRST[0]).hex()}")
            self.assertEqual(told, [RESULT["ACCEPTED_EARLIER"], 1, 8, 0, 0, 0])

    def test_a_touch_that_is_done_is_not_told_again(self) -> None:
        for place, frame in enumerate(FIRST):
            with self.subTest(frame.hex()):
                if place == 0:
                    self.create()
                before = self.asked(frame, done=True)
                self.assertEqual(before, clients.file_of(FIRST[:place + 1], 1000, 7))
                self.assertEqual(self.mark.read_bytes(), mark_of(frame))
                with self.open(self.server.text) as asker:
                    self.assertEqual(asker.ask("waiting"), [])
                    self.assertEqual(asker.ask("resend"), [RESULT["NONE_WAITS"], 0, 0, 0, 0, 0])
                    asker.ask("settled")
                    self.assertEqual(asker.line()[0], RESULT["NOTHING"])
                self.assertEqual(self.file.read_bytes(), before)
        self.assertEqual(self.server.asked, FIRST)

    def test_a_revision_may_be_done(self) -> None:
        revision = codec.touch(codec.REVISE, 7, 1, 0, bytes(range(32)), -3, MONDAY)
        self.create()
        self.asked(revision, done=True)
        self.assertEqual(self.mark.read_bytes(), revision)
        with self.open([]) as asker:
            self.assertEqual(asker.ask("waiting"), [])

    def test_only_the_whole_mark_of_the_last_touch_counts(self) -> None:
        self.create()
        self.asked(*FIRST[:2])
        right = mark_of(FIRST[1])
        rows = [right[:size] for size in range(MARK_SIZE)]
        rows += [right[:at] + bytes([right[at] ^ 1]) + right[at + 1:] for at in range(MARK_SIZE)]
        rows += [mark_of(FIRST[0]), mark_of(FIRST[2]), bytes(MARK_SIZE), b"\xff" * MARK_SIZE]
        for mark in [None, *rows]:
            with self.subTest(mark):
                if mark is not None:
                    self.mark.write_bytes(mark)
                with self.open([]) as asker:
                    self.assertEqual(asker.ask("waiting")[:2], [codec.TOP_UP, 2])
        self.mark.write_bytes(right)
        with self.open([]) as asker:
            self.assertEqual(asker.ask("waiting"), [])

    def test_a_mark_that_loses_its_power_is_whole_or_none(self) -> None:
        # Of a touch's writes the first two are the file's, and the third is the mark's.
        for cut in range(MARK_SIZE + 1):
            with self.subTest(cut):
                self.file.unlink(missing_ok=True)
                self.mark.unlink(missing_ok=True)
                self.create()
                log = clients.Log(clients.program("calls"), CUT=f"3:{cut}")
                self.server.answers = [replied_to(FIRST[0])]
                with self.open(self.server.text, **log.options()) as asker:
                    self.assertEqual(asker.ask(clients.act_of(FIRST[0]))[0], RESULT["ACCEPTED"])
                    with self.assertRaises(clients.Gone):
                        asker.ask("done")
                with self.open([]) as asker:
                    self.assertEqual(asker.opened, [CAUSE["OK"], 0, 0])
                    self.assertEqual(asker.ask("waiting") == [], cut == MARK_SIZE)

    def test_a_mark_is_not_waited_for(self) -> None:
        self.create()
        log = clients.Log(clients.program("calls"))
        self.server.answers = [replied_to(FIRST[0])]
        with self.open(self.server.text, **log.options()) as asker:
            asker.ask(clients.act_of(FIRST[0]))
            before = len(log.lines())
            self.assertEqual(asker.ask("done"), [1])
            calls = [name for name, _, _ in log.calls()[before:] if name != "memory"]
            self.assertEqual(calls, ["open", "pwrite"])
            before = len(log.lines())
            self.assertEqual(asker.ask("done"), [1])
            self.assertEqual([name for name, _, _ in log.calls()[before:]], ["pwrite"])

    def test_a_mark_that_cannot_be_written_or_read_leaves_the_touch_waiting(self) -> None:
        self.create()
        self.mark.mkdir()
        self.server.answers = [replied_to(frame) for frame in FIRST[:2]]
        with self.open(self.server.text) as asker:
            for frame in FIRST[:2]:
                self.assertEqual(asker.ask(clients.act_of(frame))[0], RESULT["ACCEPTED"])
                self.assertEqual((asker.ask("done"), asker.ask("error")), ([0], [errno.EISDIR]))
        with self.open([]) as asker:
            self.assertEqual(asker.ask("waiting")[:2], [codec.TOP_UP, 2])
            self.assertEqual(asker.ask("error"), [errno.EISDIR])
        # A pipe isn't waited for.
        self.mark.rmdir()
        os.mkfifo(self.mark)
        with self.open([]) as asker:
            self.assertEqual(asker.ask("waiting")[:2], [codec.TOP_UP, 2])

    def test_nothing_is_marked_that_was_not_settled(self) -> None:
        self.create()
        with self.open(self.server.text) as asker:
            self.assertEqual(asker.ask("done"), [0])
            self.server.answers = [codec.fault(4, 7, 1)]
            asker.ask(clients.act_of(FIRST[0]))
            self.assertEqual(asker.ask("done"), [0])
        self.assertFalse(self.mark.exists())
        # A touch that waits, or that the disk failed for, isn't marked by the one before it.
        self.server.answers = [replied_to(FIRST[0]), codec.fault(4, 7, 2)]
        with self.open(self.server.text) as asker:
            asker.ask("resend")
            asker.ask(clients.act_of(FIRST[1]))
            self.assertEqual((asker.ask("done"), self.mark.read_bytes()), ([1], mark_of(FIRST[0])))
        with self.open([]) as asker:
            self.assertEqual(asker.ask("waiting")[:2], [codec.TOP_UP, 2])

    def test_a_touch_that_the_disk_failed_for_is_not_marked(self) -> None:
        log = clients.Log(clients.program("calls"))
        self.create()
        self.server.answers = [replied_to(FIRST[0]), replied_to(FIRST[1]), replied_to(FIRST[0])]
        with self.open(self.server.text, **log.options()) as asker:
            asker.ask(clients.act_of(FIRST[0]))
            asker.ask(clients.act_of(FIRST[1]))
        # The last sync is that of the second touch's mark: the touch is in the file.
        self.file.unlink()
        self.create()
        refusing = clients.Log(clients.program("calls"), REFUSE=log.numbers("fdatasync")[3])
        with self.open(self.server.text, **refusing.options()) as asker:
            self.assertEqual(asker.ask(clients.act_of(FIRST[0]))[0], RESULT["ACCEPTED"])
            self.assertEqual(asker.ask(clients.act_of(FIRST[1]))[0], RESULT["DEVICE"])
            asker.ask("done")
        with self.open([]) as asker:
            self.assertEqual(asker.ask("waiting")[:2], [codec.TOP_UP, 2])


class StartedExamples(GateTest):
    """The two example programs that are killed and started again, with a real server."""

    def setUp(self) -> None:
        super().setUp()
        self.server = self.serve()
        with wire.Connection(self.server.address, TIME) as line:
            for frame in (codec.touch(codec.ISSUE, 1, 1, 1, MONDAY), codec.touch(codec.TOP_UP, 1, 2, 1, 2000, MONDAY)):
                line.send(frame)
                line.take()

    def example(self, name: str, right: str = "", planted: str = "") -> pathlib.Path:
        """An example and its file, with this fault planted in the place of what is right there."""
        text, source = (CLIENT / "examples" / f"{name}.c").read_text(), self.folder / f"{name}.c"
        self.assertIn(right, text)
        source.write_text(text.replace(right, planted))
        program = clients.built(self.folder / name, [source, SOURCE])
        subprocess.run([program, "--create", self.file, "7", "100"], check=True)
        return program

    def started(self, program: pathlib.Path, *words: str | pathlib.Path) -> subprocess.Popen[str]:
        gate = subprocess.Popen([program, self.file, "7", *words, self.server.text], stdin=subprocess.PIPE,
                                stdout=subprocess.PIPE, stderr=subprocess.DEVNULL, text=True, bufsize=1)
        self.addCleanup(gate.communicate)
        self.addCleanup(gate.kill)
        return gate

    @staticmethod
    def next_line(gate: subprocess.Popen[str]) -> str:
        """The next line that an example prints."""
        assert gate.stdout, "a pipe"
        return gate.stdout.readline()

    @staticmethod
    def write_line(gate: subprocess.Popen[str], text: str) -> None:
        assert gate.stdin, "a pipe"
        gate.stdin.write(f"{text}\n")

    def let_through(self, program: pathlib.Path, reader: pathlib.Path) -> None:
        """Lets card 1 through, and ends the gate as a loss of power may: without the mark."""
        gate, mark = self.started(program, "2", reader, os.devnull), self.file.with_name("7.done")
        with open(reader, "w") as entering:
            entering.write("1\n")
            entering.flush()
            self.assertEqual(self.next_line(gate), "open in 1\n")
            self.assertTrue(clients.wait_for(mark.exists))
            gate.kill()
            gate.wait(TIME)
        mark.unlink()

    def is_marked(self) -> bool:
        """Whether the gate has marked its last touch."""
        mark = self.file.with_name("7.done")
        return mark.exists() and mark.stat().st_size == MARK_SIZE

    def two_readers(self, *planted: str) -> tuple[pathlib.Path, pathlib.Path]:
        """The gate, and its reader for passengers who come in."""
        reader = self.folder / "in"
        os.mkfifo(reader)
        return self.example("two_readers", *planted), reader

    def kinds(self) -> list[int]:
        """The kinds of the gate's own touches in the journal."""
        return [frame[2] for frame in self.recorded() if wire.number_at(frame, 3, 2) == 7]

    def test_a_gate_that_is_started_again_keeps_its_barrier_closed(self) -> None:
        program, reader = self.two_readers()
        self.let_through(program, reader)
        gate = self.started(program, "2", reader, os.devnull)
        with open(reader, "w"):
            self.assertEqual(self.next_line(gate), "closed 1: accepted, before this start\n")
            # The staff is told first, and then the mark is written.
            self.assertTrue(clients.wait_for(self.is_marked))
        gate.kill()
        gate.wait(TIME)
        # With the mark nothing is told again: the next card is the first.
        gate = self.started(program, "2", reader, os.devnull)
        with open(reader, "w") as entering:
            time.sleep(1.5)
            entering.write("9\n")
            entering.flush()
            self.assertEqual(self.next_line(gate), "closed 9: no such card\n")
        self.assertEqual(self.kinds(), [codec.ENTER, codec.ENTER])

    def test_a_passenger_of_before_the_start_is_charged_once_and_left_to_the_staff(self) -> None:
        program, reader = self.two_readers()
        self.let_through(program, reader)
        gate = self.started(program, "2", reader, os.devnull)
        with open(reader, "w") as entering:
            self.assertEqual(self.next_line(gate), "closed 1: accepted, before this start\n")
            entering.write("1\n")
            entering.flush()
            self.assertEqual(self.next_line(gate), "closed 1: accepted, before this start\n")
        self.assertEqual(self.kinds(), [codec.ENTER])

    def judged(self, said: str, *planted: str) -> tuple[int, list[str]]:
        """What bovtrila-stand-in says of the gate and its barrier, over a loss of power. After its start the gate says this
        of its first touch."""
        rig, (program, reader) = makers.Rig(self, "rest reply 1 -900 1100\n"), self.two_readers(*planted)
        self.server = rig.running
        self.let_through(program, reader)
        rig.tell("7 1")
        rig.start()
        gate = self.started(program, "2", reader, os.devnull)
        with open(reader, "w") as entering:
            self.assertEqual(self.next_line(gate), said)
            if said == "open in 1\n":
                rig.tell("7 1")
            entering.write("2\n")
            entering.flush()
            self.assertEqual(self.next_line(gate), "open in 2\n")
            rig.tell("7 2")
        status, lines = rig.end()
        return status, lines

    def test_the_stand_in_finds_a_gate_right_that_is_started_again(self) -> None:
        status, said = self.judged("closed 1: accepted, before this start\n")
        self.assertEqual((status, said[-1]), (0, "2 passed, 0 failed"), said)

    def test_the_stand_in_finds_a_gate_that_opens_its_barrier_again_after_its_start(self) -> None:
        status, said = self.judged(
            "open in 1\n", "answer.result == BOVTRILA_ACCEPTED && (uint32_t)time(NULL) - moment <= STILL_THERE",
            "(answer.result == BOVTRILA_ACCEPTED || answer.result == BOVTRILA_ACCEPTED_EARLIER) && moment != 0")
        fault = "failed: gate 7 number 1: the barrier was opened after the gate's start for a touch of before it"
        self.assertEqual((status, said[-2:]), (1, [fault, "1 passed, 1 failed"]), said)

    def test_a_top_up_that_was_given_back_is_no_debt_after_a_start(self) -> None:
        program = self.example("top_up_machine")
        machine = self.started(program)
        self.write_line(machine, "1 48001")
        self.assertEqual([self.next_line(machine) for _ in range(2)],
                         ["card 1 holds 2000\n", "given back: above the balance limit\n"])
        # It waits for the next line by then, with the mark written.
        self.assertTrue(clients.wait_for(self.is_marked))
        machine.kill()
        machine.wait(TIME)
        machine = self.started(program)
        self.write_line(machine, "1 500")
        self.assertEqual([self.next_line(machine) for _ in range(2)],
                         ["card 1 holds 2000\n", "kept: the card holds 2500\n"])

    def test_a_top_up_that_was_promised_and_is_refused_is_owed_also_after_a_start(self) -> None:
        program, text = self.example("top_up_machine"), self.server.text
        self.server.kill()
        nobody = self.started(program)
        self.write_line(nobody, "1 48001")
        self.assertEqual(self.next_line(nobody), "kept: it will be on the card later (no answer)\n")
        nobody.kill()
        nobody.wait(TIME)
        self.server = self.start(PROGRAM, "serve", "--table", EXAMPLE, "--journal",
                                 self.folder / "journal", "--cards", 10, "--capacity", 1000, "--listen", text,
                                 "--lines", 4)
        for said in (["owed: card 1, 48001 pence\n", "card 1 holds 2000\n", "kept: the card holds 2500\n"],
                     ["card 1 holds 2500\n", "kept: the card holds 3000\n"]):
            machine = self.started(program)
            self.write_line(machine, "1 500")
            self.assertEqual([self.next_line(machine) for _ in said], said)
            machine.communicate()
