"""Tests docs/vectors.txt and the scripts for gate manufacturers: gate, certify, lossy and stand-in.

It needs crates/tap_server/out/tap_server, which `rt ci` leaves there. The vectors are calculated by bovtrila.model and
sent to the program; 10,000 touches go through the relay; and servers and gates with planted faults must be found. All
traffic stays on 127.0.0.1.
"""
import argparse
import collections
import contextlib
import hashlib
import io
import os
import pathlib
import struct
import subprocess
import tempfile
import unittest
from collections.abc import Callable, Container, Iterable, Sequence
from typing import TYPE_CHECKING, Any

import harness
from bovtrila import codec, model, places, stand_in_judge, stand_in_script, vector_file, wire
from bovtrila.commands import stand_in
from bovtrila.commands.gate import Gate, day, revision
from bovtrila.commands.gate import options as gate_options
from bovtrila.wire import Wrong
from harness import BIN, EXAMPLE, PROGRAM, REVISED, TIME, TOP
from planted import Planted

if TYPE_CHECKING:
    from clients import GateTest

MONDAY = 1736121600
# Gates and touches of the relay's run, and how many touches a card has.
GATES, TOUCHES, OF_A_CARD = 4, 10_000, 20
# A folder in memory, where there is one: 10,000 touches sync a disk 20,000 times.
FAST = harness.in_memory(200)


def script(name: str, *words: object, **options: Any) -> subprocess.CompletedProcess[str]:
    """Runs a script to its end."""
    return subprocess.run([BIN / f"bovtrila-{name}", *map(str, words)], capture_output=True, text=True, timeout=TIME,
                          **options)


class Running:
    """A program that says 'listening ADDR' on standard error, and runs until it is ended."""

    def __init__(self, *words: object) -> None:
        self.process = subprocess.Popen([str(word) for word in words], stdin=subprocess.DEVNULL, stdout=subprocess.PIPE,
                                        stderr=subprocess.PIPE, text=True)
        assert self.process.stderr, "a pipe"
        said = harness.first_line(self.process.stderr)
        if not said.startswith("listening "):
            raise AssertionError(f"{words[0]} said {said!r}, status {self.process.wait(TIME)}")
        self.text = said.split()[1]
        self.address = wire.address(self.text)

    def end(self, terminate: bool = False) -> tuple[int, list[str], str]:
        """The status and the lines of the output."""
        if terminate:
            self.process.terminate()
        out, err = self.process.communicate(timeout=TIME)
        return self.process.returncode, out.split("\n")[:-1], err

    def kill(self) -> None:
        if self.process.poll() is None:
            self.process.kill()
        self.process.communicate()


class MakersTest(harness.ProgramTest):
    """Each test has a folder of its own, and what it starts is ended with it."""

    def setUp(self) -> None:
        folder = tempfile.TemporaryDirectory(dir=FAST)
        self.addCleanup(folder.cleanup)
        self.folder = pathlib.Path(folder.name)

    def start(self, *words: object) -> Running:
        running = Running(*words)
        self.addCleanup(running.kill)
        return running

    def serve(self, table: pathlib.Path = EXAMPLE, cards: int = 10, capacity: int = 1000, lines: int = 1,
              connections: int = 10_000, more: Iterable[object] = ()) -> Running:
        return self.start(PROGRAM, "serve", "--table", table, "--journal", self.folder / "journal", "--cards", cards,
                          "--capacity", capacity, "--listen", "127.0.0.1:0", "--lines", lines,
                          "--connections", connections, *more)

    def write(self, name: str, text: str) -> pathlib.Path:
        file = self.folder / name
        file.write_text(text)
        return file


class Vectors(unittest.TestCase):
    """The vectors, by the rules."""

    stations = vector_file.read()

    def test_each_answer_is_what_the_model_works_out(self) -> None:
        for station in self.stations:
            worked = station.model()
            for vector in station.vectors:
                with self.subTest(f"line {vector.line}"):
                    whole = wire.is_request(vector.request)
                    wanted = worked.answer(vector.request) if whole else codec.fault(codec.BAD_FRAME)
                    self.assertEqual(vector.answer.hex(), wanted.hex())

    def test_there_is_each_verdict_fault_state_and_kind(self) -> None:
        pairs = [(vector.request, vector.answer) for station in self.stations for vector in station.vectors]
        self.assertEqual({answer[9] for _, answer in pairs if answer[2] == codec.REPLY}, set(wire.VERDICTS))
        # No request brings faults 3, 4 and 7 about; the file says so.
        self.assertEqual({answer[3] for _, answer in pairs if answer[2] == codec.FAULT},
                         set(wire.FAULTS) - {codec.HALTED, codec.MEMORY, codec.NOT_ALLOWED})
        self.assertEqual({answer[3] for _, answer in pairs if answer[2] == codec.HOLDING}, set(wire.STATES))
        self.assertEqual({asked[2] for asked, _ in pairs if wire.is_request(asked)}, set(wire.REQUESTS))
        self.assertEqual({answer[2] for _, answer in pairs}, set(wire.ANSWERS))

    def test_there_are_the_boundary_values_of_each_field(self) -> None:
        seen = collections.defaultdict(set)
        for station in self.stations:
            for vector in station.vectors:
                if wire.is_touch(vector.request) and wire.is_request(vector.request):
                    for field, value in wire.fields_of(vector.request).items():
                        seen[field].add(value)
        for field, values in (("gate", (0, 65535)), ("number", (0, 1, 2**32 - 1)), ("moment", (0, 2**32 - 1)),
                              ("card", (0, 1, 10, 11, 100_000, 100_001, 2**32 - 1)), ("station", (0, 1, 5, 6, 65535)),
                              ("pence", (0, 1, 9000, 9001, 50_000, 50_001, 2**32 - 1)),
                              ("day", (-2**31, -1, 0, 2**31 - 1))):
            self.assertLessEqual(set(values), seen[field], field)

    def test_the_examples_of_the_page_are_what_the_model_works_out(self) -> None:
        page = (places.VECTORS.parent / "reference" / "PROTOCOL.md").read_text()
        pairs, station = 0, next(each for each in self.stations if each.name == "revised").model()
        for block in page.split("```\n")[1::2]:
            frames = block.replace(" ", "").strip().split("\n")
            if not all(set(frame) <= set("0123456789abcdef") for frame in frames):
                continue
            for asked, answered in zip(frames[::2], frames[1::2], strict=True):
                with self.subTest(asked):
                    request, pairs = bytes.fromhex(asked), pairs + 1
                    whole = wire.is_request(request)
                    worked = station.answer(request) if whole else codec.fault(codec.BAD_FRAME)
                    self.assertEqual(answered, worked.hex())
        self.assertGreaterEqual(pairs, 10)

    def test_the_revised_table_has_two_other_prices(self) -> None:
        text = EXAMPLE.read_text()
        for old, new in (("high = 2, peak = 350, off_peak = 290", "high = 2, peak = 380, off_peak = 300"),
                         ("maximum_peak = 900", "maximum_peak = 1000")):
            self.assertEqual(text.count(old), 1)
            text = text.replace(old, new)
        self.assertEqual(REVISED.read_text(), text)

    def test_the_bad_beginnings_are_all_that_there_are(self) -> None:
        good = {struct.pack(">HB", length, kind) for kind, length in wire.REQUESTS.items()}
        bad, waiting = set(), {b""}
        for _ in range(3):
            longer = {beginning + bytes([byte]) for beginning in waiting for byte in range(256)}
            waiting = {beginning for beginning in longer if any(whole.startswith(beginning) for whole in good)}
            bad |= longer - waiting
        self.assertEqual(set(self.stations[0].bad), bad)
        self.assertEqual(len(self.stations[0].bad), len(bad))


class Certify(MakersTest):
    """bovtrila-certify, with the program and with planted faults."""

    def assertCertified(self, done: subprocess.CompletedProcess[str], least: int) -> None:
        self.assertEqual((done.returncode, done.stderr), (0, ""), done.stdout)
        last = done.stdout.split("\n")[-2]
        self.assertRegex(last, r"^\d+ passed, 0 failed$")
        self.assertGreaterEqual(int(last.split()[0]), least)

    def test_the_program_is_certified_for_each_server_of_the_vectors(self) -> None:
        for station in vector_file.read():
            with self.subTest(station.name):
                server = self.serve(station.table, station.cards, station.capacity, lines=2, more=station.revised)
                done = script("certify", server.text, "--server", station.name, "--lines", 2)
                self.assertCertified(done, len(station.vectors) + len(station.bad) + 100)
                server.kill()
                server = self.serve(station.table, station.cards, station.capacity, more=station.revised)
                restarted = script("certify", server.text, "--server", station.name, "--lines", 2, "--restarted")
                self.assertCertified(restarted, 5)
                again = script("certify", server.text, "--server", station.name)
                self.assertIn("start it with a new journal", again.stderr)
                self.assertEqual(again.returncode, 1)
                server.kill()
                (self.folder / "journal").unlink()

    def test_the_program_without_its_journal_is_found(self) -> None:
        server = self.serve()
        self.assertCertified(script("certify", server.text, "--vectors", self.few()), 400)
        server.kill()
        (self.folder / "journal").unlink()
        done = script("certify", self.serve().text, "--vectors", self.few(), "--restarted")
        self.assertEqual(done.returncode, 1)
        self.assertRegex(done.stdout, r"was sent (\d+) touches that it recorded, and has 0: it lost \1\.")

    def few(self) -> pathlib.Path:
        """The vectors of the first server, with four of the bad beginnings."""
        (self.folder / "example.toml").write_text(EXAMPLE.read_text())
        lines = [line for line in places.VECTORS.read_text().partition("#! server limits")[0].split("\n")
                 if not line.startswith("#! bad")]
        return self.write("vectors", "\n".join([*lines, "#! bad 01 0012 001106 000f05"]))

    def test_the_program_is_certified_through_a_relay_that_makes_no_trouble(self) -> None:
        relay = self.start(BIN / "bovtrila-lossy", "127.0.0.1:0", self.serve(lines=4).text, "--rate", 0)
        self.assertCertified(script("certify", relay.text, "--vectors", self.few(), "--lines", 2), 400)
        self.assertEqual(relay.end(terminate=True)[1][-7:], [f"{kind} 0" for kind in (
            "drop", "cut", "delay", "pieces", "silent", "close", "refuse")])

    def test_a_right_server_is_certified_and_each_planted_fault_is_found(self) -> None:
        few = self.few()
        self.assertCertified(script("certify", Planted().text, "--vectors", few, "--lines", 2), 400)
        for flaw, group in (("judges repeats again", "repeats"), ("takes a conflict for a repeat", "vectors"),
                            ("waits for a whole bad frame", "bad beginnings"), ("shows an older front", "fronts"),
                            ("goes on behind a bad frame", "bad beginnings"),
                            ("records a table that is not there", "unknown tables"),
                            ("answers one request of a read", "many at once")):
            with self.subTest(flaw):
                done = script("certify", Planted(flaw).text, "--vectors", few, "--timeout", 1)
                self.assertEqual((done.returncode, done.stderr), (1, ""), done.stdout)
                self.assertRegex(done.stdout, rf"(?m)^{group}: \d+ passed, [1-9]")

    def test_the_list_has_the_words_of_each_server(self) -> None:
        done = script("certify", "--list")
        self.assertEqual((done.returncode, done.stderr), (0, ""))
        self.assertIn(f"revised: --table {EXAMPLE} --cards 10 --capacity 1000 {REVISED}\n", done.stdout)

    def test_a_server_that_is_not_there_is_told(self) -> None:
        done = script("certify", f"127.0.0.1:{harness.free_port()}")
        self.assertEqual((done.returncode, done.stdout), (1, ""))
        self.assertIn("start the server first", done.stderr)


def touches_of(gate: int, cards: Iterable[int]) -> list[bytes]:
    """The touches of a gate's cards, card after card: an issue, a top-up, then in and out each quarter of an hour."""
    frames: list[bytes] = []
    for card in cards:
        for place in range(OF_A_CARD):
            name, moment = (gate, len(frames) + 1, card), MONDAY + 6 * 3600 + 900 * place
            if place < 2:
                frames.append(codec.touch(codec.TOP_UP, *name, 9000, moment) if place else
                              codec.touch(codec.ISSUE, *name, moment))
            else:
                kind = codec.LEAVE if place % 2 else codec.ENTER
                frames.append(codec.touch(kind, *name, 1 + place * card % 5, moment))
    return frames


def faults_of(recorded: Iterable[bytes], sent: Sequence[bytes]) -> list[str]:
    """What a history lacks of the touches that gates sent, and what it has beside them."""
    found = collections.Counter(recorded)
    wanted = set(sent)
    lost = [f"lost: {frame.hex()}" for frame in sent if not found[frame]]
    more = [frame.hex() for frame, times in found.items() if times > 1 or frame not in wanted]
    return lost + [f"charged again: {frame}" for frame in more]


class Relay(MakersTest):
    """bovtrila-lossy between bovtrila-gate and the program."""

    def recorded(self, cards: int) -> list[bytes]:
        return model.journal((self.folder / "journal").read_bytes(), model.Table(EXAMPLE.read_text()), cards)[0]

    def test_ten_thousand_touches_are_neither_lost_nor_charged_twice(self) -> None:
        each = TOUCHES // OF_A_CARD // GATES
        sent = [touches_of(gate, range(1 + (gate - 1) * each, 1 + gate * each)) for gate in range(1, GATES + 1)]
        self.assertEqual(sum(map(len, sent)), TOUCHES)
        server = self.serve(cards=GATES * each, capacity=TOUCHES + 1, lines=2 * GATES, connections=100_000)
        relay = self.start(BIN / "bovtrila-lossy", "127.0.0.1:0", server.text, "--rate", 0.02, "--delay", 0.02, "--seed", 5)
        gates = [subprocess.Popen(
            [BIN / "bovtrila-gate", relay.text, self.write(f"gate{gate}", "".join(f"{frame.hex()}\n" for frame in frames)),
             "--timeout", "0.2", "--backoff", "0.002", "--tries", "100", "--quiet"],
            stdout=subprocess.PIPE, text=True) for gate, frames in enumerate(sent)]
        for gate in gates:
            self.addCleanup(gate.kill)
        answers = [gate.communicate(timeout=5 * TIME)[0].split("\n")[:-1] for gate in gates]
        self.assertEqual([gate.returncode for gate in gates], [0] * GATES)
        station = model.Station(model.Table(EXAMPLE.read_text()), GATES * each)
        for frames, lines in zip(sent, answers):
            self.assertEqual([line.split()[0] for line in lines], [station.answer(frame).hex() for frame in frames])
        with wire.Connection(server.address, TIME) as line:
            for card in range(1, GATES * each + 1):
                line.send(codec.enquiry(card))
                self.assertEqual(line.take().hex(), station.answer(codec.enquiry(card)).hex())
        status, out, _ = relay.end(terminate=True)
        counts = dict(line.split() for line in out)
        self.assertEqual(status, 0)
        for kind, count in counts.items():
            self.assertGreater(int(count), 0, f"{kind} of {counts}")
        recorded = self.recorded(GATES * each)
        self.assertEqual(faults_of(recorded, sum(sent, [])), [])
        for number, frames in enumerate(sent, 1):
            self.assertEqual([frame for frame in recorded if wire.number_at(frame, 3, 2) == number], frames)

    def test_a_server_that_is_gone_is_told_once_and_that_it_is_back_once(self) -> None:
        text = f"127.0.0.1:{harness.free_port()}"
        relay, lines = self.start(BIN / "bovtrila-lossy", "127.0.0.1:0", text, "--rate", 0), []
        assert relay.process.stderr, "a pipe"
        for outage in range(2):
            for _ in range(30):
                with wire.Connection(relay.address, TIME) as line:
                    self.assertEqual(line.take(), b"")
            listening, _ = wire.listener(wire.address(text))
            with listening, wire.Connection(relay.address, TIME):
                listening.accept()[0].close()
            lines += [harness.first_line(relay.process.stderr).rstrip("\n") for _ in range(2)]
        self.assertEqual(relay.end(terminate=True)[2], "")
        gone, back = f"lossy: {text}: ", f"lossy: {text}: answers again; 30 connections were closed meanwhile"
        self.assertEqual([line for line in lines if line != back and not line.startswith(gone)], [])
        self.assertEqual([line == back for line in lines], [False, True] * 2)
        self.assertRegex(lines[0], "Connection refused; until it answers again, each gate's connection is closed$")

    def test_a_gate_that_repeats_under_a_new_number_charges_twice(self) -> None:
        sent = touches_of(1, range(1, 11))
        server = self.serve(lines=4)
        relay = self.start(BIN / "bovtrila-lossy", "127.0.0.1:0", server.text, "--rate", 0.2, "--troubles", "cut,pieces")
        for frame in sent:
            NewNumber(relay.address, options(timeout=2)).ask(frame)
        faults = faults_of(self.recorded(10), sent)
        self.assertTrue(any(fault.startswith("charged again") for fault in faults), faults)


def options(**more: Any) -> argparse.Namespace:
    """What bovtrila-gate is asked for, as its own reader of options gives it."""
    asked = gate_options(["127.0.0.1:1", "-", "--repeat", "--quiet"])
    return argparse.Namespace(**{**vars(asked), "timeout": 0.2, "backoff": 0.001, "tries": 30, "secured": None, **more})


class NewNumber(Gate):
    """A gate that repeats under a new number."""

    def again(self, request: bytes) -> bytes:
        return request[:5] + struct.pack(">I", wire.number_at(request, 5, 4) + 1_000_000) + request[9:]


class NewMoment(Gate):
    """A gate that repeats with the moment of the repeat."""

    def again(self, request: bytes) -> bytes:
        return request[:-4] + struct.pack(">I", wire.number_at(request, len(request) - 4, 4) + 2)


class GivesUp(Gate):
    """A gate that sends nothing again."""

    def ask(self, request: bytes, loses: bool = False) -> bytes:
        try:
            answer: bytes = self.ask_once(request, loses)
            return answer
        except OSError:
            self.hang_up()
            return codec.fault(codec.MEMORY, *struct.unpack(">HI", request[3:9]))


class Rig:
    """A test rig: a stand-in with this script, a gate, and the pipe by which the stand-in is told of the barrier."""

    def __init__(self, test: "MakersTest | GateTest", text: str, gate: type[Any] = Gate, timeout: float = TIME) -> None:
        self.test, self.pipe, steps = test, test.folder / "opened", test.folder / "script"
        self.pipe.unlink(missing_ok=True)
        os.mkfifo(self.pipe)
        steps.write_text(text)
        # It waits for the test, however slow that is, and not the other way round.
        self.running = test.start(BIN / "bovtrila-stand-in", "127.0.0.1:0", steps, "--barrier", self.pipe, "--linger", TIME,
                                  "--patience", TIME)
        self.gate = gate(self.running.address, options(timeout=timeout))
        self.held = open(self.pipe, "wb", buffering=0)
        test.addCleanup(self.held.close)

    def tell(self, *lines: str | bytes) -> None:
        for line in lines:
            self.held.write(line + b"\n" if isinstance(line, bytes) else f"{line}\n".encode())

    def start(self, gate: int = 7) -> None:
        """Starts a gate again, once the stand-in has heard of it."""
        self.gate.hang_up()
        self.tell(f"start {gate}")
        assert self.running.process.stderr, "a pipe"
        self.test.assertEqual(self.running.process.stderr.readline(), f"started {gate}\n")

    def ask(self, *frames: bytes, opens: Container[int] = ()) -> None:
        """Asks for these touches, until each has its reply. The barrier opens for the touches of these numbers."""
        for frame in frames:
            self.gate.ask(frame)
            number = wire.number_at(frame, 5, 4)
            if number in opens:
                self.tell(f"7 {number}")

    def lose(self, frame: bytes) -> None:
        """Asks for a touch once, and gets no reply."""
        self.test.assertRaises(OSError, self.gate.ask_once, frame, False)

    def end(self) -> tuple[int, list[str]]:
        """What the stand-in says, once it has read each line of the pipe."""
        self.start(65_535)
        status, out, err = self.running.end(terminate=True)
        self.test.assertEqual(err, "")
        return status, out


class StandIn(MakersTest):
    """bovtrila-stand-in, with bovtrila-gate and with gates that do wrong."""

    touches = [bytes.fromhex(asked) for asked, _ in harness.vectors()["first example"]]

    def judged(self, text: str, gate: type[Any] = Gate,
               opens: Callable[[bytes, bytes], bool] = wire.opens) -> tuple[int, list[str]]:
        """What the stand-in says of a gate that sends the first example. It waits for an answer that comes, however busy the
        machine is."""
        rig = Rig(self, text, gate, timeout=0.2 if "late" in text else 3 if "silence" in text else TIME)
        for frame in self.touches:
            try:
                answer = rig.gate.ask(frame)
            except Wrong:
                break
            if opens(frame, answer):
                rig.tell("%d %d" % struct.unpack(">HI", frame[3:9]))
        return rig.end()

    def test_a_right_gate_is_found_right(self) -> None:
        for name, text in (("answers", "rest answer\n"), ("fault 3", "fault 3\nrest answer\n"),
                           ("fault 4", "answer\nanswer\nfault 4\nfault 4\nrest answer\n"),
                           ("silence", "answer\nanswer\nsilence\nsilence\nrest answer\n"),
                           ("another touch's answer", "answer\nanswer\nanother answer\nrest answer\n"),
                           ("cut frames", "cut 1 answer\ncut 3 answer\nanswer\ncut 21 answer\nrest answer\n"),
                           ("late", "late 0.4 answer\nrest answer\n"), ("close", "close\nrest answer\n"),
                           ("a refusal", "answer\nanswer\nreply 24 0 0\nreply 5 -900 1100\n")):
            with self.subTest(name):
                status, out = self.judged(text)
                self.assertEqual((status, out[-1]), (0, "4 passed, 0 failed"), out)

    def test_scripts_gate_with_its_options_is_found_right(self) -> None:
        pipe = self.folder / "opened"
        os.mkfifo(pipe)
        text = "answer\nsilence\nanswer\nfault 3\nfault 200\nfault 1\ncut 7 answer\nanother answer\nrest answer\n"
        # It ends by itself, once nothing has come for this long.
        running = self.start(BIN / "bovtrila-stand-in", "127.0.0.1:0", self.write("script", text), "--barrier", pipe,
                             "--linger", 6)
        done = script("gate", running.text, TOP / "crates/tap_server/stdin", "--repeat", "--timeout", 5, "--backoff",
                      0.01, "--barrier", pipe)
        self.assertEqual((done.returncode, done.stderr.count("again")), (0, 6), done.stderr)
        self.assertEqual(running.end()[:2][1][-1], "4 passed, 0 failed")

    def test_the_gate_sends_a_touch_no_more_after_fault_1_twice_or_a_lasting_fault(self) -> None:
        for text, again in (("fault 1\nfault 1\nrest answer\n", 1), ("fault 7\nrest answer\n", 0)):
            with self.subTest(text):
                running = self.start(BIN / "bovtrila-stand-in", "127.0.0.1:0", self.write("script", text), "--linger",
                                     TIME)
                done = script("gate", running.text, TOP / "crates/tap_server/stdin", "--repeat", "--timeout", TIME / 2,
                              "--backoff", 0.01)
                self.assertEqual((done.returncode, done.stderr.count("again")), (0, again), done.stdout + done.stderr)
                self.assertEqual(running.end(True)[1][-1], "4 passed, 0 failed")

    def test_a_gate_that_does_wrong_is_found(self) -> None:
        lost = "answer\nanswer\nsilence\nrest answer\n"
        for gate, text, opens, said in (
                (NewNumber, lost, wire.opens, "number 3: it was sent again under a new number"),
                (NewNumber, lost.replace("silence", "fault 3"), wire.opens, "number 3: it was sent again under a new"),
                (NewMoment, lost, wire.opens, "number 3: it was sent again with other bytes"),
                (GivesUp, lost, wire.opens, "number 3: the last that it had was no answer, and it wasn't sent again"),
                (GivesUp, lost, lambda frame, answer: frame[2] == codec.ENTER,
                 "number 3: the barrier was opened on: no answer"),
                (Gate, "rest answer\n", lambda frame, answer: True, "number 1: the barrier was opened on: issued"),
                (Gate, "answer\nanswer\nreply 24 0 2000\nrest answer\n", lambda frame, answer: frame[2] < 3,
                 "number 3: the barrier was opened on: refused: the balance is too low"),
                (Gate, "rest answer\n", lambda frame, answer: False, "number 3: the barrier wasn't opened")):
            with self.subTest(said, gate=gate.__name__):
                status, out = self.judged(text, gate, opens)
                self.assertEqual(status, 1, out)
                self.assertTrue(any(line.startswith("failed: ") and said in line for line in out), out)


class Restarted(MakersTest):
    """bovtrila-stand-in, and gates that are started again (docs/reference/PROTOCOL.md, "After a gate's start")."""

    issue, top_up, enter, leave = StandIn.touches
    OPENED = "the barrier was opened after the gate's start for a touch of before it"

    def assertRight(self, rig: Rig, passed: int = 4) -> None:
        status, out = rig.end()
        self.assertEqual((status, out[-1]), (0, f"{passed} passed, 0 failed"), out)

    def assertFound(self, rig: Rig, *faults: str, passed: int = 3) -> None:
        """The stand-in finds exactly these faults."""
        status, out = rig.end()
        self.assertEqual((status, [line for line in out if line.startswith("failed: ")]),
                         (1, [f"failed: {fault}" for fault in faults]), out)
        self.assertEqual(out[-1], f"{passed} passed, {len(faults)} failed")

    def test_a_right_gate_that_is_started_again_is_found_right(self) -> None:
        for name, text, is_answered in (("with a reply", "rest answer\n", True),
                                        ("without one", "answer\nanswer\nclose\nrest answer\n", False),
                                        ("after fault 3", "answer\nanswer\nfault 3\nrest answer\n", False),
                                        ("after a part", "answer\nanswer\ncut 9 answer\nrest answer\n", False)):
            for opens in ((3, 4), (4,)) if is_answered else ((4,),):
                with self.subTest(name, opens=opens):
                    rig = Rig(self, text)
                    rig.ask(self.issue, self.top_up)
                    if is_answered:
                        rig.ask(self.enter, opens=opens)
                    else:
                        rig.lose(self.enter)
                    rig.start()
                    rig.ask(self.enter)
                    rig.ask(self.leave, opens=opens)
                    self.assertRight(rig)

    def test_a_gate_that_has_marked_its_touch_as_done_need_not_send_it_again(self) -> None:
        rig = Rig(self, "rest answer\n")
        rig.start()
        rig.ask(self.issue, self.top_up, self.enter, opens=(3,))
        rig.start()
        rig.ask(self.leave, opens=(4,))
        self.assertRight(rig)

    def test_a_touch_without_a_reply_that_is_not_the_last_need_not_open_after_a_start(self) -> None:
        rig = Rig(self, "answer\nanswer\nclose\nanswer\nreply 1 -900 1100\n")
        rig.ask(self.issue, self.top_up)
        rig.lose(self.enter)
        rig.gate.hang_up()
        rig.ask(self.leave, opens=(4,))
        rig.start()
        rig.ask(self.enter, self.leave)
        self.assertRight(rig)

    def test_a_second_start_asks_for_no_opening_of_before_the_first(self) -> None:
        rig = Rig(self, "answer\nanswer\nclose\nrest answer\n")
        rig.ask(self.issue, self.top_up)
        rig.lose(self.enter)
        rig.start()
        rig.ask(self.enter)
        rig.ask(self.leave, opens=(4,))
        rig.start()
        rig.ask(self.leave)
        self.assertRight(rig)

    def test_the_start_of_another_gate_changes_nothing(self) -> None:
        rig = Rig(self, "rest answer\n")
        rig.ask(self.issue, self.top_up, self.enter)
        rig.start(8)
        rig.tell("7 3")
        rig.ask(self.leave, opens=(4,))
        self.assertRight(rig)

    def test_an_opening_after_the_start_for_a_touch_of_before_is_found(self) -> None:
        fault = f"gate 7 number 3: {self.OPENED}"
        for name, text, before in (("for the second time", "rest answer\n", (3,)), ("for the first", "rest answer\n", ()),
                                   ("for a reply after it", "answer\nanswer\nclose\nrest answer\n", None)):
            with self.subTest(name):
                rig = Rig(self, text)
                rig.ask(self.issue, self.top_up)
                if before is None:
                    rig.lose(self.enter)
                else:
                    rig.ask(self.enter, opens=before)
                rig.start()
                rig.ask(self.enter, self.leave, opens=(3, 4))
                self.assertFound(rig, fault)

    def test_a_touch_that_does_not_open_is_found_before_and_after_a_start(self) -> None:
        for opens, number in (((3,), 4), ((4,), 3)):
            with self.subTest(number):
                rig = Rig(self, "rest answer\n")
                rig.ask(self.issue, self.top_up)
                if number == 4:
                    rig.ask(self.enter, opens=opens)
                    rig.start()
                    rig.ask(self.enter, self.leave)
                else:
                    rig.ask(self.enter, self.leave, opens=opens)
                    rig.start()
                state = wire.in_words(*map(bytes.fromhex, harness.vectors()["first example"][number - 1]))
                self.assertFound(rig, f"gate 7 number {number}: the barrier wasn't opened on: {state}")

    def test_a_new_touch_after_a_start_is_judged_as_before(self) -> None:
        rig = Rig(self, "answer\nanswer\nanswer\nreply 24 0 0\n")
        rig.ask(self.issue, self.top_up, self.enter, opens=(3,))
        rig.start()
        rig.ask(self.enter)
        rig.ask(self.leave, opens=(4,))
        refused = wire.in_words(self.leave, codec.framed(">BHIBiq", codec.REPLY, 7, 4, 24, 0, 0))
        self.assertFound(rig, f"gate 7 number 4: the barrier was opened on: {refused}")

    def test_the_first_new_touch_after_a_start_may_open_or_not(self) -> None:
        # The gate may have stored it before the start, and stopped before it was sent.
        for opens in ((), (3,)):
            with self.subTest(opens=opens):
                rig = Rig(self, "rest answer\n")
                rig.ask(self.issue, self.top_up)
                rig.start()
                rig.ask(self.enter, opens=opens)
                rig.ask(self.leave, opens=(4,))
                # A second start asks for no opening of it either.
                rig.start()
                rig.ask(self.leave)
                self.assertRight(rig)

    def test_the_second_new_touch_after_a_start_has_to_open(self) -> None:
        rig = Rig(self, "rest answer\n")
        rig.ask(self.issue, self.top_up)
        rig.start()
        rig.ask(self.enter, self.leave)
        state = wire.in_words(*map(bytes.fromhex, harness.vectors()["first example"][3]))
        self.assertFound(rig, f"gate 7 number 4: the barrier wasn't opened on: {state}")

    def test_a_verdict_on_another_kind_of_touch_may_open_or_not(self) -> None:
        for verdict in (7, 8, 9):
            for opens in ((), (3,)):
                with self.subTest(verdict, opens=opens):
                    rig = Rig(self, f"answer\nanswer\nreply {verdict} 0 0\nrest answer\n")
                    rig.ask(self.issue, self.top_up)
                    rig.ask(self.enter, opens=opens)
                    self.assertRight(rig, passed=3)

    def test_scripts_gate_opens_again_in_its_second_run_and_is_found(self) -> None:
        requests = self.write("requests", "".join(f"{frame.hex()}\n" for frame in StandIn.touches))
        rig = Rig(self, "rest answer\n")
        # The pipe has no other writer between the runs.
        rig.held.close()
        words = ("gate", rig.running.text, requests, "--barrier", rig.pipe, "--timeout", TIME)
        for _ in range(2):
            done = script(*words)
            self.assertEqual((done.returncode, done.stderr), (0, ""))
            # Without a reader this would be refused, and isn't waited for.
            rig.held = os.fdopen(os.open(rig.pipe, os.O_WRONLY | os.O_NONBLOCK), "wb", buffering=0)
            rig.start()
            rig.held.close()
        rig.held = os.fdopen(os.open(rig.pipe, os.O_WRONLY | os.O_NONBLOCK), "wb", buffering=0)
        self.addCleanup(rig.held.close)
        self.assertFound(rig, *(f"gate 7 number {number}: {self.OPENED}" for number in (3, 4)), passed=2)

    def test_a_line_that_is_none_of_the_three_is_told(self) -> None:
        rows: tuple[tuple[str | bytes, str], ...] = (
            ("start", "'start'"), ("start x", "'start x'"), ("start 65536", "'start 65536'"),
            ("start -1", "'start -1'"), ("start 7 3", "'start 7 3'"), ("starts 7", "'starts 7'"), ("7", "'7'"),
            ("", "''"), ("7 3 1", "'7 3 1'"), ("7 4294967296", "'7 4294967296'"), (b"7 \xff", r"'7 \xff'"),
            ("given-up 7", "'given-up 7'"), ("given-up 7 3 1", "'given-up 7 3 1'"), ("given 7 3", "'given 7 3'"))
        for line, said in rows:
            with self.subTest(line):
                rig = Rig(self, "rest answer\n")
                rig.ask(self.issue, self.top_up)
                rig.tell(line)
                self.assertFound(rig, f"the barrier's line {said} is none of 'GATE NUMBER', 'given-up GATE NUMBER' and "
                                 "'start GATE'", passed=2)
        rig = Rig(self, "rest answer\n")
        rig.ask(self.issue, self.top_up)
        rig.tell("7 3")
        self.assertFound(rig, "the barrier was opened for '7 3', which is no touch sent", passed=2)

    def test_a_gate_that_is_started_again_is_waited_for_until_it_sends_a_touch(self) -> None:
        steps, said = [stand_in_script.Step(["rest", "close"])], io.StringIO()
        judge = stand_in_judge.Judge(steps, stand_in.station_of([]))
        with contextlib.redirect_stderr(said):
            for line, request, is_done in (
                    (None, self.issue, True), ("start 7\n", None, False), (None, codec.enquiry(1), False),
                    (None, codec.touch(codec.ISSUE, 8, 1, 1, MONDAY), False), ("7 1\n", None, False),
                    (None, self.issue, True), ("start 8\n", None, False)):
                judge.hear(line) if line else judge.next(request or b"")
                self.assertEqual(judge.is_done(), is_done, (line, request))
        self.assertEqual(said.getvalue(), "started 7\nstarted 8\n")


class Revised(MakersTest):
    """Revisions that bovtrila-gate sends: to the stand-in, and to the program."""

    ASKED = ("--revise", REVISED, "--from", "2025-01-07", "--yes")

    def revise(self, text: str, *words: object, revised: Iterable[pathlib.Path] = (REVISED,),
               asked: Iterable[object] = ASKED) -> tuple[subprocess.CompletedProcess[str], str]:
        """What the gate says, and the stand-in of it, by this script."""
        more = [word for path in revised for word in ("--revision", path)]
        running = self.start(BIN / "bovtrila-stand-in", "127.0.0.1:0", self.write("script", text), *more, "--linger", TIME,
                             "--patience", TIME)
        done = script("gate", running.text, *asked, "--timeout", 3 if "silence" in text else TIME / 2, "--backoff", 0.01,
                      *words)
        return done, running.end(terminate=True)[1][-1]

    def test_the_frame_is_the_tables_digest_from_that_day_on(self) -> None:
        # Gate 65535, the number of the day, no card, the digest, the day, and midnight of it.
        digest = hashlib.sha256(REVISED.read_bytes()).hexdigest()
        frame = f"003306ffff00004e7f00000000{digest}00004e7f677c6e80"
        self.assertEqual(revision(options(revise=REVISED, first=day("2025-01-07"), gate=65_535,
                                          number=None)).hex(), frame)
        done, _ = self.revise("answer\n")
        self.assertEqual(done.returncode, 0)
        self.assertEqual(done.stdout, "001481ffff00004e7f09000000000000000000000000  revised; change 0, balance 0\n")

    def test_days_before_1970_and_far_ones_have_a_number_and_a_moment(self) -> None:
        for text, tail in (("1969-12-31", "ffffffff00000000"), ("1970-01-01", "0000000000000000"),
                           ("0001-01-01", "fff506c600000000"), ("9999-12-31", "002cc0a0ffffffff")):
            with self.subTest(text):
                asked = options(revise=REVISED, first=day(text), gate=7, number=None)
                frame = revision(asked).hex()
                self.assertEqual((len(frame), frame[:18], frame[-16:]), (106, "0033060007" + tail[:8], tail))

    def test_an_answer_that_was_lost_is_asked_for_by_the_same_bytes(self) -> None:
        for text in ("silence\nanswer\n", "cut 5 answer\nanswer\n", "close\nanswer\n", "fault 3\nanswer\n"):
            with self.subTest(text):
                done, said = self.revise(text, "--repeat")
                self.assertEqual((done.returncode, done.stdout.count("revised; change 0, balance 0")), (0, 1))
                self.assertEqual(said, "1 passed, 0 failed")

    def test_each_refusal_is_told_in_words(self) -> None:
        for text, revised, words in (("answer\n", (), "unknown table: the server wasn't started with it"),
                                     ("reply 27 0 0\n", (), "refused: a day with travel, or not above the last"),
                                     ("fault 2\n", (), "conflict: the number stands for another touch"),
                                     ("fault 5\n", (), "full: the journal takes no new touch"),
                                     ("fault 7\n", (), "not allowed: the server's door didn't let this request through"),
                                     ("fault 3\n", (), "halted: the station's disk has failed")):
            with self.subTest(words):
                done, _ = self.revise(text, revised=revised)
                self.assertEqual(done.returncode, 1)
                self.assertIn(words, done.stdout)
                self.assertIn(f"{REVISED} doesn't count from 2025-01-07 on: ", done.stderr)
                self.assertIn(words, done.stderr)

    def test_a_wrong_command_line_is_told(self) -> None:
        rows: tuple[tuple[list[object], int, str], ...] = (
            (["--revise", REVISED], 2, "--from DATE go together"),
            (["--from", "2025-01-07"], 2, "name a file of request lines"),
            (["requests.txt", *self.ASKED], 2, "name a file of request lines"),
            (["--revise", REVISED, "--from", "2025-02-29"], 2, "'2025-02-29' is no date"),
            (["--revise", REVISED, "--from", "20250107"], 2, "'20250107' is no date"),
            (["--revise", REVISED, "--from", "7"], 2, "write it as 2026-01-05"),
            ([*self.ASKED, "--gate", "65536"], 2, "'65536' is no number from 0 to 65535"),
            ([*self.ASKED, "--number", "-1"], 2, "--number"),
            (["--revise", "/nowhere", "--from", "2025-01-07"], 1, "name the file of a fare"))
        for words, status, said in rows:
            with self.subTest(words):
                done = script("gate", "127.0.0.1:1", *words)
                self.assertEqual((done.returncode, done.stdout), (status, ""))
                self.assertIn(said, done.stderr)
                self.assertNotIn("Traceback", done.stderr)

    def test_the_program_takes_a_revision_once_it_has_the_table(self) -> None:
        server = self.serve(connections=1)
        refused = script("gate", server.text, *self.ASKED)
        self.assertEqual((refused.returncode, refused.stdout.split()[0]), (1, "0008ff06ffff00004e7f"))
        self.assertEqual(server.end()[1][-1], "closed 0")
        server = self.serve(connections=3, more=[REVISED])
        for _ in range(2):
            done = script("gate", server.text, *self.ASKED)
            self.assertEqual((done.returncode, done.stdout.split()[0][18:20]), (0, "09"), done.stderr)
        done = script("gate", server.text, *self.ASKED, "--number", 1)
        self.assertEqual((done.returncode, done.stdout.split()[0][18:20]), (1, "1b"), done.stderr)
        self.assertEqual(server.end()[:2], (0, ["opened 0", "line 1 connections 3 requests 3 answers 3", "closed 2"]))


class Servers(MakersTest):
    """bovtrila-gate --servers: cards that are dealt out to several servers."""

    def serve_three(self, revised: Iterable[bool] = (True, True, True)) -> tuple[pathlib.Path, list[Running]]:
        """Three servers of 10, 10 and 5 cards, their journals, and the file that deals cards 1 to 25 out to them."""
        running = []
        for place, has_it in enumerate(revised):
            home = self.folder / f"server{place}"
            home.mkdir()
            running.append(self.start(
                PROGRAM, "serve", "--table", EXAMPLE, "--journal", home / "journal", "--cards", 10, "--capacity", 1000,
                "--listen", "127.0.0.1:0", "--lines", 1, *([REVISED] if has_it else [])))
        shares = zip(("1-10", "11-20", "21-25"), running)
        file = self.write("servers", "# cards and server\n\n" + "".join(
            f"{cards} {server.text}\n" for cards, server in shares))
        return file, running

    def recorded(self, place: int) -> list[bytes]:
        content = (self.folder / f"server{place}" / "journal").read_bytes()
        return model.journal(content, model.Table(EXAMPLE.read_text()), 10)[0]

    def test_each_touch_goes_to_the_server_of_its_card_under_its_own_number(self) -> None:
        file, _ = self.serve_three()
        frames = [codec.touch(codec.ISSUE, 7, card, card, MONDAY) for card in (25, 1, 10, 11, 20, 21)]
        frames += [codec.touch(codec.TOP_UP, 7, 100 + card, card, 100 * card, MONDAY) for card in (1, 11, 21)]
        frames += [codec.enquiry(card) for card in (1, 11, 21)]
        requests = self.write("requests", "".join(f"{frame.hex()}\n" for frame in frames))
        for _ in range(2):
            done = script("gate", "--servers", file, requests, "--drop", 2, "--backoff", 0.01, "--quiet")
            self.assertEqual((done.returncode, done.stderr), (0, ""))
            said = [line.split("  ")[1] for line in done.stdout.splitlines()]
            self.assertEqual(said, ["issued; change 0, balance 0"] * 6 + [
                f"topped up; change {pence}, balance {pence}" for pence in (100, 1100, 2100)] + [
                f"card {card} outside; balance {pence}, after {front} touches"
                for card, pence, front in ((1, 100, 3), (11, 1100, 3), (21, 2100, 3))])
        # The names of touches stay; each server has its own cards' numbers.
        for place, cards in enumerate(((1, 10, 1), (1, 10, 1), (5, 1, 1))):
            self.assertEqual(tuple(wire.number_at(frame, 9, 4) for frame in self.recorded(place)), cards)
        self.assertEqual([wire.number_at(frame, 5, 4) for frame in self.recorded(2)], [25, 21, 121])

    def test_a_revision_goes_to_every_server_and_one_that_refuses_it_is_named(self) -> None:
        file, running = self.serve_three((True, False, True))
        words = ("--servers", file, "--revise", REVISED, "--from", "2025-01-07", "--yes", "--backoff", 0.01)
        done = script("gate", *words)
        self.assertEqual(done.returncode, 1)
        self.assertEqual([line.split("  ")[1].split(": ")[0] for line in done.stdout.splitlines()],
                         [server.text for server in running])
        self.assertEqual(done.stdout.count("revised; change 0, balance 0"), 2)
        self.assertIn(f"{running[1].text}: fault 6: unknown table", done.stderr)
        # One that isn't there keeps it from no other.
        running[0].kill()
        done = script("gate", *words, "--tries", 2)
        self.assertEqual((done.returncode, done.stdout.count("revised; change 0, balance 0")), (1, 1))
        self.assertIn(f"{running[0].text}: no answer after 2 tries", done.stderr)
        # As a request of a file it goes to all too.
        self.assertEqual([frame[2] for frame in self.recorded(2)], [codec.REVISE])

    def test_what_cant_be_dealt_out_is_told_in_a_line(self) -> None:
        requests = self.write("requests", codec.enquiry(26).hex() + "\n")
        for text, status, said in (("1-25 127.0.0.1:1\n", 1, "line 1: no server has card 26"),
                                   ("", 1, "there is no server in it"),
                                   ("1-25\n", 1, "line 1: '1-25' isn't as 1-100000 127.0.0.1:4014"),
                                   ("1-10 127.0.0.1:1\n10-20 127.0.0.1:2\n", 1,
                                    "the cards 10-20 can't be one server's alone"),
                                   ("0-10 127.0.0.1:1\n", 1, "the cards 0-10 can't be"),
                                   ("5-4 a:1\n", 1, "the cards 5-4 can't"),
                                   ("1-9 127.0.0.1\n", 1, "line 1: '127.0.0.1' is no address")):
            with self.subTest(said):
                done = script("gate", "--servers", self.write("servers", text), requests)
                self.assertEqual((done.returncode, done.stdout, done.stderr.count("\n")), (status, "", 1))
                self.assertIn(said, done.stderr)
        for words, said in ((("--servers", "file"), "name a file of request lines"), ((), "or --servers FILE"),
                            (("--servers", "file", "127.0.0.1:1", requests), "takes the place of the address"),
                            (("--servers", "file", "--vectors", "other"), "doesn't go with --vectors")):
            with self.subTest(said):
                done = script("gate", *words)
                self.assertEqual((done.returncode, done.stdout), (2, ""))
                self.assertIn(said, done.stderr)
        bad = script("gate", "--servers", self.write("servers", "1-9 127.0.0.1:1\n"), self.write("requests", "0011\n"))
        self.assertIn("line 1: this is no request's frame", bad.stderr)


class Clients(MakersTest):
    """bovtrila-gate by itself, and what docs/reference/PROTOCOL.md says of gates."""

    def test_what_is_wrong_with_the_command_line_or_a_file_is_told_in_a_line(self) -> None:
        broken = self.write("broken", "000505000000zz\n")
        rows: tuple[tuple[list[object], int, str], ...] = (
            (["127.0.0.1:1", "/nowhere"], 1, "/nowhere: No such file or directory"),
            (["127.0.0.1:1", broken], 1, "line 1: '000505000000zz' is no text of hexadecimal"),
            (["127.0.0.1", broken], 2, "'127.0.0.1' is no address"),
            (["127.0.0.1:x", broken], 2, "'127.0.0.1:x' is no address"),
            (["127.0.0.1:1"], 2, "name a file of request lines"),
            (["127.0.0.1:1", "--vectors", broken], 1, "before the first line '#! server'"),
            (["127.0.0.1:1", TOP / "crates/tap_server/stdin", "--tries", 2, "--backoff", 0], 1,
             "line 1: no answer after 2 tries"))
        for words, status, said in rows:
            with self.subTest(said):
                done = script("gate", *words)
                self.assertEqual((done.returncode, done.stdout), (status, ""))
                self.assertIn(said, done.stderr)
                self.assertNotIn("Traceback", done.stderr)

    def test_vectors_are_compared(self) -> None:
        done = script("gate", self.serve().text, "--vectors", places.VECTORS)
        self.assertEqual((done.returncode, done.stderr), (0, ""))
        self.assertEqual(done.stdout.count("\n"), len(vector_file.read()[0].vectors))
        self.assertIn("000e8501000000000000067200000004  card 1 outside; balance 1650, after 4 touches\n", done.stdout)
        text = places.VECTORS.read_text().replace("< 00148100070000000408", "<").replace(
            "< 000e8501000000000000067200000004", "< 000e8501000000000000067200000005")
        (self.folder / "journal").unlink()
        file = self.write("vectors", text)
        (self.folder / "example.toml").write_text(EXAMPLE.read_text())
        done = script("gate", self.serve().text, "--vectors", file)
        self.assertEqual(done.returncode, 1)
        self.assertIn("the answer should be 000e8501000000000000067200000005", done.stderr)

    def test_a_file_with_comments_is_sent(self) -> None:
        done = script("gate", self.serve().text, places.VECTORS)
        self.assertEqual(done.returncode, 0, done.stderr)

    def test_a_gate_waits_silently_while_all_lines_are_taken(self) -> None:
        server = self.serve()
        first, second = wire.Connection(server.address, TIME), wire.Connection(server.address, 0.3)
        with second:
            with first:
                second.send(self.touches[0])
                self.assertRaises(TimeoutError, second.take)
            second.socket.settimeout(TIME)
            self.assertEqual(second.take(), self.answers[0])

    def test_a_silent_gate_is_given_up_for_one_that_waits(self) -> None:
        server = self.serve(more=["--idle", 1])
        with wire.Connection(server.address, TIME) as first, wire.Connection(server.address, TIME) as second:
            second.send(self.touches[0])
            self.assertEqual(first.take(), b"")
            self.assertEqual(second.take(), self.answers[0])

    touches = StandIn.touches
    answers = [bytes.fromhex(answered) for _, answered in harness.vectors()["first example"]]

    def test_a_replaced_gate_finds_a_free_number_by_touches_of_card_0(self) -> None:
        server = self.serve()
        with wire.Connection(server.address, TIME) as line:
            def ask(frame: bytes) -> bytes:
                line.send(frame)
                return line.take()

            for number in range(1, 38):
                ask(codec.touch(codec.TOP_UP, 7, number, 1, 1, MONDAY))
            number, tried = 1, 1
            while wire.is_fault(ask(codec.touch(codec.LEAVE, 7, number, 0, 0, MONDAY + 9)), codec.CONFLICT):
                number, tried = 2 * number, tried + 1
            self.assertEqual((number, tried), (64, 7))
            self.assertEqual(ask(codec.touch(codec.ISSUE, 7, 65, 1, MONDAY))[9], 8)

    def test_a_touch_in_that_overtook_its_top_up_stays_refused(self) -> None:
        """The drawing of docs/reference/PROTOCOL.md, "Several touches without an answer"."""
        paid = codec.touch(codec.TOP_UP, 7, 5, 1, 2000, MONDAY + 8 * 3600)
        early, later = (codec.touch(codec.ENTER, 7, number, 1, 2, MONDAY + 8 * 3600 + seconds)
                        for number, seconds in ((6, 2), (7, 5)))
        with wire.Connection(self.serve().address, TIME) as line:
            answers = []
            for frame in (codec.touch(codec.ISSUE, 7, 4, 1, MONDAY), early, paid, early, later):
                line.send(frame)
                answers.append(tuple(wire.fields_of(line.take()).values())[1:])
        self.assertEqual(answers, [(4, 8, 0, 0), (6, 24, 0, 0), (5, 7, 2000, 2000), (6, 24, 0, 0), (7, 1, -900, 1100)])

    def test_a_repeat_to_a_new_journal_is_charged_again(self) -> None:
        balances = []
        for _ in range(2):
            server = self.serve()
            with wire.Connection(server.address, TIME) as line:
                for frame in self.touches[:3]:
                    line.send(frame)
                    balances.append(wire.number_at(line.take(), 10, 4, signed=True))
            server.kill()
            (self.folder / "journal").unlink()
        self.assertEqual(balances, [0, 2000, -900] * 2)
