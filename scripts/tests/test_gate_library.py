"""Tests the library for gates in C, clients/c, and the dissector, clients/wireshark.

Expected values are those of docs/vectors.txt, docs/reference/GATE_LIBRARY.md and docs/reference/JOURNAL.md, and of
bovtrila.model, which is written separately from both. clients/c/tests/asker.c, which uses only the library's header, calls
the library. Tested are: frames and answers; a gate's file with each byte changed, cut at each byte of each write, and as
losses of power leave it; touches that are given up; each call of the system refused, and the gate killed before it; one
file that gate_send and the library use in turn; gates that are killed while the relay loses their answers; the sanitizers,
arm, the examples, and libraries with a planted fault, each of which must be found.

It needs gcc, and crates/tap_server/out/tap_server, which `rt ci` leaves there, and for the tests of both
crates/gate_send/out/gate_send. If a package of packaging/debian-packages isn't installed, a line 'not run: ..' reports
that. All traffic stays on 127.0.0.1.
"""
import concurrent.futures
import ctypes
import errno
import os
import pathlib
import random
import re
import socket
import struct
import subprocess
import threading
import time
from collections.abc import Iterable, Sequence
from typing import Any

import harness
import clients
import gategivenup
import gategivenupfiles
import test_gate_makers as makers
from bovtrila import codec, model, vector_file, wire
from clients import (CAUSE, CLIENT, FIRST, HEADER, QUICK, REPLIES, RESULT, SOURCE, TESTS, Asker, Careful, GateTest,
                     Gone, Line, Told, journey, needs, of, replied_to)
# Its tests are run with those that stand here.
from harness import EXAMPLE, PROGRAM, TIME, TOP
from dissecting import Dissector  # noqa: F401
from dissectingtls import Apart  # noqa: F401
from gatecancels import WAYS, Cancels
from gatefiles import Files, Power, Refused, Shared, Steps  # noqa: F401
from gategivenup import GivingUp
from gategivenupfiles import GivenUpFiles
from gatestarts import StartedExamples, Starts  # noqa: F401
from listening import Door
from troubles import TROUBLES

MONDAY = 1736121600
# The relay's run: gates, touches in all, and how often a gate is killed.
GATES, TOUCHES, KILLS = 10, 10_000, 200
SANITIZED = ("-g", "-O1", "-fsanitize=address,undefined", "-fno-sanitize-recover=all")


class Frames(GateTest):
    """Frames and answers, by docs/vectors.txt."""

    pairs = [(vector.request, vector.answer) for station in vector_file.read() for vector in station.vectors]
    touches = sorted({asked for asked, _ in pairs if wire.is_touch(asked) and wire.is_request(asked)})

    def frames(self, lines: Iterable[str]) -> list[str]:
        """What the library's own functions print for each line."""
        program = self.folder / "frames"
        clients.built(program, [TESTS / "frames.c"])
        done = subprocess.run([program], input="".join(f"{line}\n" for line in lines), capture_output=True, text=True)
        self.assertEqual((done.returncode, done.stderr), (0, ""))
        return done.stdout.split("\n")[:-1]

    def test_the_frame_of_each_touch_is_that_of_the_vectors(self) -> None:
        lines, wanted = [], []
        for frame in self.touches:
            kind, gate, number, card, *more = struct.unpack(codec.FORMS[frame[2]], frame[2:])
            fields: dict[str, Any] = {"station": 0, "pence": 0, "day": 0, "digest": bytes(32), "moment": more[-1]}
            fields |= dict(zip(wire.FIELDS[kind].split()[3:], more))
            rest = (f"{fields['station']} {fields['pence']} {fields['moment']} {fields['day']} "
                    f"{fields['digest'].hex()}")
            lines.append(f"frame {gate} {kind} {number} {card} {rest}")
            wanted.append(f"{frame.hex()} {kind} {number} {card} {rest}")
        for got, line in zip(self.frames(lines), wanted, strict=True):
            with self.subTest(line):
                self.assertEqual(got, line)

    @staticmethod
    def answers_to(request: bytes) -> re.Pattern[str]:
        """Each beginning of an answer to a request, as a pattern over its digits."""
        name, none = request[3:9].hex(), "000000000000"
        if request[2] == codec.ENQUIRE:
            return re.compile(rf"000e85([0-9a-f]{{26}})|0008ff([0-9a-f]{{2}}){none}")
        return re.compile(rf"001481{name}([0-9a-f]{{26}})|0008ff(01{none}|(?!01)[0-9a-f]{{2}}{name})")

    def letters(self, request: bytes, data: bytes) -> str:
        """For each beginning of these bytes whether it begins an answer (m), is one with or without more (w), or
        neither."""
        pattern, said = self.answers_to(request), ""
        for held in range(len(data) + 1):
            digits = data[:held].hex()
            # Padded by what any answer may have, a beginning is a whole one.
            padded = (digits + whole[len(digits):] for whole in (
                f"001481{request[3:9].hex()}{'0' * 26}", f"000e85{'0' * 26}", f"0008ff02{request[3:9].hex()}",
                f"0008ff01{'0' * 12}", f"0008ff{digits[6:8]}{'0' * 12}", f"0008ff{digits[6:8]}{request[3:9].hex()}"))
            is_whole = pattern.match(digits)
            said += "w" if is_whole else "m" if any(pattern.fullmatch(each) for each in padded) else "s"
        return said

    def test_an_answer_is_known_by_each_of_its_bytes(self) -> None:
        asked = [(request, answer) for request, answer in self.pairs if wire.is_request(request)]
        # Each answer to its own request, to another one, with another byte at each place, and with bytes behind it.
        rows = asked + [(request, other) for (request, _), (_, other) in zip(asked, asked[1:])]
        rows += [(request, answer + b"\0") for request, answer in asked[:20]]
        for request, answer in asked[:4] + asked[-4:]:
            rows += [(request, answer[:place] + bytes([answer[place] ^ flip]) + answer[place + 1:])
                     for place in range(len(answer)) for flip in (1, 0x80, 0xFF)]
            rows += [(request, codec.fault(code, *struct.unpack(">HI", name))) for code in (0, 1, 2, 3, 7, 255)
                     for name in (request[3:9].ljust(6, b"\0"), bytes(6))]
        lines = [f"judge {request.hex()} {answer.hex()}" for request, answer in rows]
        for (request, answer), got in zip(rows, self.frames(lines), strict=True):
            with self.subTest(f"{request.hex()} {answer.hex()}"):
                self.assertEqual(got, self.letters(request, answer))

    def test_a_gate_sends_each_touch_of_the_vectors_and_tells_its_answer(self) -> None:
        # The gate's file has the touches before it; the last of them waits, and is answered first.
        server = Told(self)
        for request, answer in self.pairs:
            if not wire.is_request(request) or not wire.is_touch(request):
                continue
            gate, number, card = struct.unpack(">HII", request[3:13])
            # A gate counts from 1 on, and its revisions name no card: `frames` has made the others.
            if not 1 <= number <= 1000 or request[2] == codec.REVISE and card != 0:
                continue
            with self.subTest(request.hex()):
                before = [codec.touch(codec.ISSUE, gate, each, 1, 0) for each in range(1, number)]
                self.write(clients.file_of(before, 1000, gate))
                server.answers = [replied_to(frame) for frame in before[-1:]] + [answer]
                server.asked.clear()
                with self.open(server.text, gate) as asker:
                    if before:
                        self.assertEqual(asker.ask("resend")[0], RESULT["ACCEPTED_EARLIER"])
                    self.assertEqual(asker.ask(clients.act_of(request)), clients.told_by(answer, number))
                self.assertEqual(server.asked, [*before[-1:], request])
                self.assertEqual(self.file.read_bytes(), clients.file_of([*before, request], 1000, gate))

    def test_a_gate_sends_each_enquiry_of_the_vectors_and_tells_its_answer(self) -> None:
        server = Told(self)
        self.create()
        for request, answer in self.pairs:
            if wire.is_request(request) and request[2] == codec.ENQUIRE:
                with self.subTest(request.hex()), self.open(server.text) as asker:
                    server.answers, server.asked = [answer], []
                    self.assertEqual(asker.ask(clients.act_of(request)), clients.told_by(answer, 0))
                    self.assertEqual(server.asked, [request])

    def test_an_enquiry_that_is_answered_by_a_fault_or_for_a_touch_shows_nothing(self) -> None:
        server = Told(self)
        self.create()
        for answer, wanted in ((codec.fault(3), [RESULT["FAULT"], 0, 3, 0, 0]),
                               (replied_to(FIRST[0]), [RESULT["STRAY"], 0, 0, 0, 0]),
                               (codec.fault(3, 7, 1), [RESULT["STRAY"], 0, 0, 0, 0])):
            with self.subTest(answer.hex()), self.open(server.text) as asker:
                server.answers = [answer]
                self.assertEqual(asker.ask("enquire 1"), wanted)


class Words(GateTest):
    """The words for a log, and calls without a gate."""

    def said(self, word: str) -> list[str]:
        done = subprocess.run([self.asker, word], capture_output=True, text=True)
        self.assertEqual((done.returncode, done.stderr), (0, ""))
        return done.stdout.split("\n")[:-1]

    def test_each_code_has_its_words(self) -> None:
        verdicts = {code: words.removeprefix("refused: ") for code, words in wire.VERDICTS.items()}
        for line in self.said("words"):
            code, _, rest = line.partition(" ")
            verdict, fault, result, cause = rest.split("|")
            with self.subTest(code):
                later = f"{'accepted' if int(code) < 20 else 'refused'}, by a later version's rule"
                self.assertEqual(verdict, verdicts.get(int(code), later))
                for said, known in ((fault, wire.FAULTS), (result, set(RESULT.values())), (cause, set(CAUSE.values()))):
                    self.assertEqual(said != "unknown", int(code) in known)

    def test_a_call_without_a_gate_is_misuse(self) -> None:
        self.assertEqual(self.said("null"), [f"{' '.join([str(RESULT['MISUSE'])] * 7)} {CAUSE['MISUSE']} "
                                             f"{CAUSE['MISUSE']} {CAUSE['MISUSE']} 0 0 0 0 "
                                             f"{RESULT['MISUSE']} 0 {RESULT['MISUSE']} "
                                             f"0 0 {RESULT['MISUSE']} 0 0 {RESULT['MISUSE']}"])


class Repeats(GateTest):
    """What a gate does where no answer comes, or another one: bovtrila-stand-in judges it as docs/reference/PROTOCOL.md
    asks."""

    def judged(self, script: str, frames: Sequence[bytes] = FIRST,
               gate: type[Careful] = Careful) -> tuple[tuple[int, list[str], str], Careful]:
        """What the stand-in says of a gate that asks for these touches, and the gate."""
        steps, opened = self.folder / "script", self.folder / "opened"
        steps.write_text(script + "rest answer\n")
        os.mkfifo(opened)
        try:
            running = self.start(TOP / "bin" / "bovtrila-stand-in", "127.0.0.1:0", steps, "--barrier", opened,
                                 "--linger", TIME, "--patience", TIME)
            self.create()
            asking = gate(frames)
            with self.open(running.text, times=(20_000, 100, 1, 4)) as asker, open(opened, "w") as barrier:
                asking.run(asker)
                barrier.write("".join(f"7 {number}\n" for number in asking.opens) + "start 65535\n")
            # With this it has read all lines.
            assert running.process.stderr.readline() == "started 65535\n"
            return running.end(terminate=True), asking
        finally:
            opened.unlink()
            self.file.unlink(missing_ok=True)

    def check_row(self, name: str) -> None:
        (status, said, err), asking = self.judged(TROUBLES[name])
        assert (status, said[-1], err) == (0, f"{len(FIRST)} passed, 0 failed", ""), "\n".join(said)
        assert None not in asking.told()

    def test_a_gate_repeats_the_same_bytes_and_opens_on_replies_alone(self) -> None:
        def found(name: str) -> str | None:
            """What is wrong in a row, if anything is. A row waits more than it works."""
            try:
                with of(Repeats, self.asker) as case:
                    case.check_row(name)
            except (AssertionError, Gone) as error:
                return str(error)
            return None

        with concurrent.futures.ThreadPoolExecutor(6) as rows:
            for name, wrong in zip(TROUBLES, rows.map(found, TROUBLES)):
                with self.subTest(name):
                    self.assertIsNone(wrong)

    def test_each_cause_is_told_and_the_touch_waits_on(self) -> None:
        replied = replied_to(FIRST[0])
        for name, answer, wanted in (("conflict", codec.fault(2, 7, 1), [RESULT["FAULT"], 1, 0, 2, 0, 0]),
                                     ("halted", codec.fault(3, 7, 1), [RESULT["FAULT"], 1, 0, 3, 0, 0]),
                                     ("full", codec.fault(5, 7, 1), [RESULT["FAULT"], 1, 0, 5, 0, 0]),
                                     ("bad frame", codec.fault(1), [RESULT["FAULT"], 1, 0, 1, 0, 0]),
                                     ("bad frame by name", codec.fault(1, 7, 1), [RESULT["STRAY"], 1, 0, 0, 0, 0]),
                                     ("another number", codec.fault(3, 7, 2), [RESULT["STRAY"], 1, 0, 0, 0, 0]),
                                     ("another gate", codec.fault(3, 8, 1), [RESULT["STRAY"], 1, 0, 0, 0, 0]),
                                     ("two answers", replied + replied, clients.told_by(replied, 1))):
            with self.subTest(name):
                self.file.unlink(missing_ok=True)
                self.create()
                server = Told(self, [answer, replied])
                with self.open(server.text) as asker:
                    self.assertEqual(asker.ask(clients.act_of(FIRST[0])), wanted)
                    is_settled = wanted[0] in REPLIES
                    if wanted[0] == RESULT["STRAY"]:
                        self.assertEqual(asker.ask("error"), [errno.EPROTO])
                    self.assertEqual(asker.ask("waiting")[:2], [] if is_settled else [codec.ISSUE, 1])
                    if not is_settled:
                        self.assertEqual(asker.ask("resend"), clients.told_by(replied, 1))
                    self.assertEqual(asker.ask("resend"), [RESULT["NONE_WAITS"], 0, 0, 0, 0, 0])
                    self.assertEqual(asker.ask("settled"), [4, 1, 1, 1736149800, 0, 0, 0, "00" * 32])
                    self.assertEqual(asker.line(), clients.told_by(replied, 1))
                self.assertEqual(server.asked, [FIRST[0]] * (1 if is_settled else 2))

    def test_no_touch_is_asked_while_one_waits(self) -> None:
        self.create()
        server = Told(self, [codec.fault(4, 7, 1), codec.fault(4, 7, 1), replied_to(FIRST[0]), replied_to(FIRST[1])])
        with self.open(server.text) as asker:
            self.assertEqual(asker.ask(clients.act_of(FIRST[0]))[0], RESULT["FAULT"])
            before = self.file.read_bytes()
            self.assertEqual(asker.ask(clients.act_of(FIRST[1])), [RESULT["EARLIER_WAITS"], 0, 0, 0, 0, 0])
            self.assertEqual(asker.ask(clients.act_of(FIRST[1])), [RESULT["EARLIER_SETTLED"], 0, 0, 0, 0, 0])
            self.assertEqual(self.file.read_bytes(), before)
            self.assertEqual(asker.ask(clients.act_of(FIRST[1])), clients.told_by(replied_to(FIRST[1]), 2))
        self.assertEqual(server.asked, [FIRST[0]] * 3 + [FIRST[1]])

    def test_a_call_keeps_to_its_time(self) -> None:
        self.create()
        port = harness.free_port()
        silent, _ = wire.listener(("127.0.0.1", port))
        with silent:
            for times, least in (((300, 60_000, 1, 1), 0.29), ((500, 100, 20, 20), 0.4)):
                with self.subTest(times), self.open(f"127.0.0.1:{port}", times=times) as asker:
                    begun = time.monotonic()
                    self.assertEqual(asker.ask("enquire 1")[0], RESULT["NO_ANSWER"])
                    self.assertGreater(time.monotonic() - begun, least)
                    self.assertLess(time.monotonic() - begun, 20)
        with self.open(f"127.0.0.1:{port}", times=(400, 100, 10, 10)) as asker:
            begun = time.monotonic()
            self.assertEqual(asker.ask("enquire 1")[0], RESULT["NO_ANSWER"])
            self.assertLess(time.monotonic() - begun, 20)
            self.assertIn(asker.ask("error"), ([errno.ECONNREFUSED], [errno.ETIMEDOUT]))

    def test_waits_grow_and_stay_below_the_longest(self) -> None:
        # A server that hangs up at once: the times of its connections show the waits.
        self.create()
        taken: list[float] = []

        def hang_up(connection: socket.socket) -> None:
            taken.append(time.monotonic())
            connection.close()

        with Door(hang_up) as door, self.open(door.text, times=(6000, 4000, 50, 200)) as asker:
            begun = time.monotonic()
            self.assertEqual(asker.ask("enquire 1")[0], RESULT["NO_ANSWER"])
        # 50, 100, 200, 200 .. milliseconds, each shorter by up to a half; a busy machine is late, and never early.
        for place, least in enumerate((0, 0.024, 0.073, 0.172, 0.271)):
            self.assertGreater(taken[place] - begun, least, taken)
        # Without a longest wait there are 8 at most, however fast the machine is.
        self.assertGreater(len(taken), 12, taken)

    def test_the_addresses_are_tried_in_turn(self) -> None:
        self.create()
        closed = f"127.0.0.1:{harness.free_port()}"
        halted, right = Told(self, [codec.fault(3, 7, 1)]), Told(self, [replied_to(frame) for frame in FIRST])
        with self.open([closed, halted.text, right.text]) as asker:
            self.assertEqual(asker.ask(clients.act_of(FIRST[0]))[0], RESULT["FAULT"])
            self.assertEqual(asker.ask("resend")[0], RESULT["ACCEPTED"])
            # It stays with the one that answered.
            self.assertEqual(asker.ask(clients.act_of(FIRST[1]))[0], RESULT["ACCEPTED"])
        self.assertEqual((halted.asked, right.asked), ([FIRST[0]], FIRST[:2]))

    def test_a_host_may_be_a_name_and_of_either_family(self) -> None:
        for host, address in (("127.0.0.1", "localhost"), ("::1", "[::1]")):
            try:
                server = Told(self, [replied_to(FIRST[0])], host)
            except wire.Wrong:
                continue
            with self.subTest(host=host, address=address):
                self.file.unlink(missing_ok=True)
                self.create()
                with self.open(f"{address}:{server.text.rpartition(':')[2]}") as asker:
                    self.assertEqual(asker.ask(clients.act_of(FIRST[0]))[0], RESULT["ACCEPTED"])

    def test_a_connection_that_was_idle_and_ended_is_made_anew_at_once(self) -> None:
        self.create()
        server = self.serve()
        with self.open(server.text, times=(60_000, 10_000, 60_000, 60_000)) as asker:
            self.assertEqual(asker.ask("enquire 1")[0], RESULT["SHOWN"])
            server.kill()
            again = self.start(PROGRAM, "serve", "--table", EXAMPLE, "--journal", self.folder / "journal",
                               "--cards", 10, "--capacity", 1000, "--listen", server.text, "--lines", 4)
            begun = time.monotonic()
            self.assertEqual(asker.ask("enquire 1")[0], RESULT["SHOWN"])
            self.assertLess(time.monotonic() - begun, 20)
        again.kill()


class Lossy(GateTest):
    """A real server behind bovtrila-lossy, which loses four answers of ten, and gates that are killed."""

    killed: int

    def run_gate(self, place: int, relay: str, frames: list[bytes], draw: random.Random, kills: int) -> Careful:
        """Runs a gate to the end of its touches, through so many kills, each at a touch drawn before."""
        file, asking = self.folder / f"gate{place}", Careful(frames)
        assert clients.create(self.asker, file, place, len(frames)) == [CAUSE["OK"], 0, 0]
        at = sorted(draw.sample(range(len(frames)), kills))
        while True:
            asker = Asker(self.asker, file, place, [relay], QUICK)

            def ask(line: str) -> Line:
                """Asks, and kills the gate where its turn has come."""
                if line == "resend" or not at or place_of(line) < at[0]:
                    return asker.ask(line)
                at.pop(0)
                self.killed += 1
                asker.write(line)
                time.sleep(draw.choice((0, 0.0005, 0.002, 0.01, 0.04, 0.1)) * draw.random())
                asker.kill()
                raise Gone("killed")

            place_of = {clients.act_of(frame): number for number, frame in enumerate(frames)}.__getitem__
            try:
                asking.run(asker, ask)
                asker.end()
                return asking
            except Gone:
                asker.kill()

    def test_each_touch_is_recorded_once_in_the_gate_s_order_and_told_by_its_reply(self) -> None:
        cards = TOUCHES // makers.OF_A_CARD
        each = cards // GATES
        frames = [journey(gate, range(1 + (gate - 1) * each, 1 + gate * each)) for gate in range(1, GATES + 1)]
        self.assertEqual(sum(map(len, frames)), TOUCHES)
        server = self.serve(cards=cards, capacity=TOUCHES + 1, lines=64)
        # Of five answers that are lost three end the connection, so that the gate needn't wait for them.
        relay = self.start(TOP / "bin" / "bovtrila-lossy", "127.0.0.1:0", server.text, "--rate", 0.4, "--seed", 52,
                           "--troubles", "cut,cut,cut,drop,silent")
        self.killed = 0
        ended: dict[int, Careful] = {}

        def run(place: int) -> None:
            draw = random.Random(f"52 {place}")
            ended[place] = self.run_gate(place, relay.text, frames[place - 1], draw, KILLS // GATES)
        gates = [threading.Thread(target=run, args=(place,)) for place in range(1, GATES + 1)]
        for gate in gates:
            gate.start()
        for gate in gates:
            gate.join()
        self.assertEqual((sorted(ended), self.killed), (list(range(1, GATES + 1)), KILLS))
        out = relay.end(terminate=True)[1]
        counts = {what: int(count) for what, count in map(str.split, out)}
        self.assertGreater(counts["answers"], TOUCHES)
        self.assertGreater(counts["drop"] + counts["cut"] + counts["silent"], 0.38 * counts["answers"])
        recorded, station = self.recorded(cards), model.Station(model.Table(EXAMPLE.read_text()), cards)
        self.assertEqual(len(recorded), TOUCHES)
        for place, sent in enumerate(frames, 1):
            self.assertEqual([frame for frame in recorded if wire.number_at(frame, 3, 2) == place], sent)
            replies = [clients.told_by(station.answer(frame), number) for number, frame in enumerate(sent, 1)]
            self.assertEqual(ended[place].told(), replies)
            kept = clients.file_of(sent, len(sent), place) + bytes(1)
            self.assertEqual((self.folder / f"gate{place}").read_bytes(), kept)
            self.check_compared(self.folder / f"gate{place}", place, len(sent))

    def check_compared(self, file: pathlib.Path, gate: int, count: int) -> None:
        """What an auditor finds between the file and the journal: nothing."""
        script = TOP / "bin" / "bovtrila-compare-gate"
        counts = "other 0, more 0, order 0, twice 0, lacks 0, waits 0, given-up 0\n"
        done = subprocess.run([script, file, self.folder / "journal"], capture_output=True, text=True, timeout=TIME)
        self.assertEqual((done.returncode, done.stdout, done.stderr),
                         (0, f"gate {gate}, file {count}, journal {count}, alike {count}, {counts}", ""))


class FileOpened(ctypes.Structure):
    """A bovtrila_file."""
    _fields_ = [("cause", ctypes.c_int), ("place", ctypes.c_uint32), ("error", ctypes.c_int)]


class OptionsOf10(ctypes.Structure):
    """The options of version 1.0."""
    _fields_ = [("file", ctypes.c_char_p), ("gate", ctypes.c_uint16), ("addresses", ctypes.c_void_p),
                ("address_count", ctypes.c_size_t), *((name, ctypes.c_uint32) for name in (
                    "limit", "patience", "backoff_first", "backoff_most"))]


class Options(ctypes.Structure):
    """Those of today, with their size before them."""
    _fields_ = [("size", ctypes.c_size_t), *OptionsOf10._fields_]


class LaterOptions(ctypes.Structure):
    """Those of a version to come, with a field more."""
    _fields_ = [("options", Options), ("more", ctypes.c_uint64)]


class Builds(GateTest):
    """How the library is built and installed, and what its tools say of it."""

    library: ctypes.CDLL
    sources = [SOURCE, TESTS / "asker.c", TESTS / "openings.c", TESTS / "rate.c", TESTS / "frames.c", TESTS / "fuzz.c",
               CLIENT / "examples" / "two_readers.c", CLIENT / "examples" / "top_up_machine.c"]

    def make(self, *words: object) -> str:
        done = subprocess.run(["make", "-s", "-C", CLIENT, *map(str, words)], capture_output=True, text=True)
        self.assertEqual((done.returncode, done.stderr), (0, ""), done.stdout)
        return done.stdout

    def compiled(self, compiler: str, *flags: str) -> None:
        for source in self.sources:
            with self.subTest(f"{compiler} {source.name}"):
                words = [compiler, *clients.WARNINGS, "-Wshadow", "-Wconversion", *flags, "-I", str(CLIENT), "-c"]
                done = subprocess.run([*words, "-o", os.devnull, str(source)], capture_output=True, text=True)
                self.assertEqual((done.returncode, done.stderr), (0, ""))

    def test_gcc_says_nothing(self) -> None:
        self.compiled("gcc", "-O2")

    @needs("clang")
    def test_clang_says_nothing(self) -> None:
        self.compiled("clang", "-O2")

    @needs("cppcheck")
    def test_cppcheck_says_nothing(self) -> None:
        done = subprocess.run(["cppcheck", "--std=c99", "--enable=warning,style,performance,portability", "--quiet",
                               "--error-exitcode=1", "--suppress=missingIncludeSystem", "-I", CLIENT, *self.sources[:4],
                               *self.sources[-2:]], capture_output=True, text=True)
        self.assertEqual((done.returncode, done.stderr), (0, ""))

    @needs("g++")
    def test_the_header_is_taken_by_cpp(self) -> None:
        source, made, program = self.folder / "cpp.cc", self.folder / "gate.o", self.folder / "cpp"
        kinds = ("options", "touch", "answer", "holding", "settlement", "file")
        source.write_text('#include "bovtrila_gate.h"\nint main() {\n' + "".join(
            f"    bovtrila_{kind} {kind} = {{}};\n" for kind in kinds) + "    options.size = sizeof options;\n"
            "    return options.gate + touch.card + answer.number + holding.front + settlement.answer.number + file.place;\n"
            "}\n")
        subprocess.run(["gcc", "-std=c99", "-c", "-o", made, SOURCE], check=True)
        for standard in ("c++98", "c++11", "c++20"):
            flags = [] if standard == "c++98" else clients.WARNINGS[1:]
            with self.subTest(standard):
                done = subprocess.run(["g++", f"-std={standard}", *flags, "-I", CLIENT, "-o", program, source, made],
                                      capture_output=True, text=True)
                self.assertEqual((done.returncode, done.stderr), (0, ""))
                self.assertEqual(subprocess.run([program]).returncode, 0)

    # What version 1.0 of the library had: a program that was built with it asks for these, with this node.
    OF_1_0 = {f"bovtrila_{name}" for name in (
        "close", "create", "enquire", "fault_text", "file_text", "issue", "last_error", "open", "resend", "result_text",
        "revise", "room", "settled", "top_up", "touch_in", "touch_out", "verdict_text", "waiting")}

    @needs("make", "readelf", "pkg-config")
    def test_it_is_installed_found_and_taken_away(self) -> None:
        to, out = self.folder / "usr", f"OUT={self.folder / 'out'}"
        words = [out, f"PREFIX={to}"]
        # The prefix of the installation counts, and not that of the build before it.
        self.make(out)
        self.make("install", *words)
        shown = subprocess.run(["readelf", "--dyn-syms", "-W", to / "lib" / "libbovtrila_gate.so"], check=True,
                               capture_output=True, text=True).stdout
        declared = set(re.findall(r"\b(bovtrila_[a-z_]+)\(", re.sub(r"/\*.*?\*/", "", HEADER.read_text(), flags=re.S)))
        defined = set(re.findall(r"FUNC +GLOBAL +DEFAULT +\d+ (\S+)", shown))
        nodes = {name: "_1" if name in self.OF_1_0 - {"bovtrila_open"} else "_1.1" for name in declared}
        self.assertEqual(defined, {f"{name}@@BOVTRILA_GATE{node}" for name, node in nodes.items()} | {
            "bovtrila_open@BOVTRILA_GATE_1"})
        env = dict(os.environ, PKG_CONFIG_PATH=str(to / "lib" / "pkgconfig"), LD_LIBRARY_PATH=str(to / "lib"))
        for flags in (["--cflags", "--libs"], ["--static", "--cflags", "--libs"]):
            found = subprocess.run(["pkg-config", *flags, "bovtrila_gate"], check=True, capture_output=True, text=True,
                                   env=env)
            program = self.folder / "asker"
            clients.built(program, [TESTS / "asker.c", *found.stdout.split()], include=self.folder)
            made = subprocess.run([program, "create", self.file, "7", "5"], capture_output=True, text=True, env=env)
            self.assertEqual(made.stdout, "0 0 0\n")
            self.file.unlink()
        licence = (to / "share" / "doc" / "bovtrila_gate" / "LICENSE").read_text()
        self.assertRegex(licence, r"\A\s+Apache License\n\s+Version 2.0, January 2004\n")
        self.assertIn("END OF TERMS AND CONDITIONS", licence)
        self.make("uninstall", *words)
        self.assertEqual([file for file in to.rglob("*") if not file.is_dir()], [])

    @needs("make")
    def test_without_the_licence_nothing_is_installed(self) -> None:
        to = self.folder / "usr"
        done = subprocess.run(["make", "-s", "-C", CLIENT, "install", f"OUT={self.folder / 'out'}", f"PREFIX={to}",
                               "LICENCE="], capture_output=True, text=True)
        self.assertEqual((done.returncode, done.stderr.split("\n")[0]),
                         (2, "the licence's text is missing: give its path by LICENCE=FILE"))
        self.assertFalse(to.exists())

    def test_each_file_names_its_licence(self) -> None:
        files = [path for path in (TOP / "clients").rglob("*") if path.is_file() and path.suffix != ".md"]
        self.assertGreater(len(files), 12)
        for path in files:
            with self.subTest(path.name):
                self.assertIn("SPDX-License-Identifier: Apache-2.0", path.read_text().split("\n")[0])

    def test_the_version_is_one(self) -> None:
        text = HEADER.read_text()
        parts = [re.findall(rf"#define BOVTRILA_VERSION_{part} (\d+)", text)[0] for part in ("MAJOR", "MINOR", "PATCH")]
        said = subprocess.run([self.asker, "version"], capture_output=True, text=True).stdout
        self.assertEqual([said], [re.findall(r'#define BOVTRILA_VERSION "(.*)"', text)[0] + "\n"])
        self.assertEqual(said, ".".join(parts) + "\n")

    def shared(self) -> ctypes.CDLL:
        """The shared library, for calls by ctypes."""
        self.make(f"OUT={self.folder / 'out'}")
        return ctypes.CDLL(str(self.folder / "out" / "libbovtrila_gate.so"))

    def opened(self, call: Any, options: ctypes.Structure) -> int:
        """What an opening by these options comes to; the gate is closed again."""
        call.restype, gate = FileOpened, ctypes.c_void_p(1)
        said = call(ctypes.byref(options), ctypes.byref(gate))
        self.assertEqual(gate.value is not None, said.cause == CAUSE["OK"])
        self.library.bovtrila_close(gate)
        cause: int = said.cause
        return cause

    @needs("make")
    def test_options_of_each_size(self) -> None:
        self.library, whole = self.shared(), ctypes.sizeof(Options)
        self.create()
        for size, more, cause in ((whole, 0, "OK"), (0, 0, "MISUSE"), (whole - 1, 0, "MISUSE"), (whole + 8, 0, "OK"),
                                  (whole + 8, 1, "MISUSE"), (whole + 4, 1 << 32, "OK")):
            with self.subTest(size=size, more=more):
                options = LaterOptions(Options(size, str(self.file).encode(), 7), more)
                self.assertEqual(self.opened(self.library.bovtrila_open, options), CAUSE[cause])

    @needs("make")
    def test_a_program_of_version_1_0_opens_by_options_without_a_size(self) -> None:
        self.library, libc = self.shared(), ctypes.CDLL(None)
        libc.dlvsym.restype = ctypes.c_void_p
        old = libc.dlvsym(ctypes.c_void_p(self.library._handle), b"bovtrila_open", b"BOVTRILA_GATE_1")
        call = ctypes.CFUNCTYPE(FileOpened, ctypes.c_void_p, ctypes.c_void_p)(old)
        self.create()
        for gate, cause in ((7, "OK"), (8, "ANOTHER")):
            options = OptionsOf10(str(self.file).encode(), gate)
            self.assertEqual(self.opened(call, options), CAUSE[cause])

    def test_it_is_as_small_as_the_page_says(self) -> None:
        page = (TOP / "docs" / "reference" / "GATE_LIBRARY.md").read_text()
        stated = {what: int(number.replace(",", "")) for what, number in
                  re.findall(r"(?m)^\| (code|memory of a gate|stack) \| at most ([0-9,]+) bytes", page)}
        built = self.folder / "gate.o"
        subprocess.run(["gcc", "-std=c99", "-Os", "-fstack-usage", "-c", "-o", built, SOURCE], check=True)
        sizes = subprocess.run(["size", built], check=True, capture_output=True, text=True).stdout.split("\n")[1]
        self.assertLessEqual(int(sizes.split()[0]), stated["code"])
        program = clients.built(self.folder / "frames", [TESTS / "frames.c"])
        size = subprocess.run([program], input="size\n", capture_output=True, text=True).stdout
        self.assertLessEqual(int(size), stated["memory of a gate"])
        # The deepest call is less than the sum of the four largest.
        uses = sorted(int(line.split("\t")[1]) for line in (self.folder / "gate.su").read_text().split("\n")[:-1])
        self.assertLessEqual(sum(uses[-4:]), stated["stack"])


class Sanitized(GateTest):
    """The same checks under the sanitizers."""

    rows = ("no answer, twice", "a connection that ends", "an answer that is cut after 9 bytes", "everything")

    def test_address_and_undefined_behaviour(self) -> None:
        program = clients.built(self.folder / "sane", [TESTS / "asker.c", SOURCE], flags=SANITIZED)
        for name in self.rows:
            with self.subTest(name), of(Repeats, program) as case:
                case.check_row(name)
        for owner, check in ((Files, "test_each_cause_of_an_opening_is_told"), (Files, "test_a_long_file_is_opened"),
                             (Steps, "test_touches_over_lines_of_the_gate_s_own"), (Steps, "test_what_is_no_reply"),
                             (Steps, "test_enquiries_over_lines_of_the_gate_s_own"),
                             (Starts, "test_only_the_whole_mark_of_the_last_touch_counts"),
                             (Starts, "test_a_touch_that_is_done_is_not_told_again"),
                             (GivingUp, "test_a_gate_with_lines_of_its_own"), (GivingUp, "check_other_answers"),
                             (GivingUp, "test_a_full_file_gives_nothing_up"), (GivenUpFiles, "check_reading"),
                             (Cancels, "check_any_moment"), (Cancels, "check_before"), (Cancels, "check_many")):
            with self.subTest(check), of(owner, program) as case:
                getattr(case, check)()

    @needs("clang")
    def test_any_bytes_as_a_file_and_as_an_answer(self) -> None:
        program = self.folder / "fuzz"
        flags = ("-g", "-O1", "-fsanitize=fuzzer,address,undefined", "-fno-sanitize-recover=all")
        try:
            clients.built(program, [TESTS / "fuzz.c"], "clang", flags)
        except AssertionError as error:
            if "fuzzer" not in str(error):
                raise
            self.skipTest("libFuzzer (libclang-rt-14-dev): not installed (packaging/debian-packages)")
        seeds = self.folder / "seeds"
        seeds.mkdir()
        for count in range(4):
            (seeds / str(count)).write_bytes(clients.file_of(Files.frames[:count], 4, 7))
            (seeds / f"given-up{count}").write_bytes(gategivenup.CONTENTS[count])
        for place, (_, answer) in enumerate(Frames.pairs[:5]):
            (seeds / f"answer{place}").write_bytes(answer)
        words = [str(program), "-seed=52", "-runs=30000", "-max_len=400", str(seeds)]
        done = subprocess.run(words, capture_output=True, text=True, cwd=self.folder, timeout=TIME * 3)
        self.assertEqual(done.returncode, 0, done.stderr[-2000:])

    def test_gates_in_threads(self) -> None:
        program = clients.built(self.folder / "threads", [TESTS / "rate.c", SOURCE],
                                flags=("-g", "-O1", "-fsanitize=thread", "-pthread"))
        server = self.serve(cards=8, lines=16, capacity=2000)
        for place, kind in enumerate(("touch", "enquiry")):
            done = subprocess.run([program, server.text, self.folder, kind, "8", "800", "20", str(1 + 8 * place)],
                                  capture_output=True, text=True, timeout=TIME)
            self.assertEqual((done.returncode, done.stderr), (0, ""))
            self.assertEqual(done.stdout.split()[0], "800")
        self.assertEqual(len(self.recorded(8)), 808)

    def test_cancels_of_threads_and_handlers(self) -> None:
        program = clients.built(self.folder / "asker", [TESTS / "asker.c", SOURCE],
                                flags=("-g", "-O1", "-fsanitize=thread", "-pthread"))
        for check in ("check_any_moment", "check_many"):
            with self.subTest(check), of(Cancels, program) as case:
                getattr(case, check)()
        for check in ("check_answer", "check_repeat", "check_connecting"):
            for way in WAYS:
                with self.subTest(f"{check} {way}"), of(Cancels, program) as case:
                    getattr(case, check)(way)


class Arm(GateTest):
    """The library as it is built for a gate's processor, run by qemu-user."""

    @needs("arm-linux-gnueabihf-gcc", "qemu-arm")
    def test_it_sends_the_same_and_keeps_the_same(self) -> None:
        where = "/usr/arm-linux-gnueabihf"
        if not os.path.isdir(where + "/include"):
            self.skipTest("libc6-dev-armhf-cross: not installed (packaging/debian-packages)")
        program = clients.built(self.folder / "asker", [TESTS / "asker.c", SOURCE], "arm-linux-gnueabihf-gcc")
        run = "qemu-arm", "-L", where
        made = subprocess.run([*run, program, "create", self.file, "7", "1000"], capture_output=True, text=True)
        self.assertEqual((made.stdout, self.file.read_bytes()), ("0 0 0\n", clients.file_of([], 1000, 7)))
        frames, server, asking = journey(7, [1]), self.planted(), Careful(journey(7, [1]))
        for count in (5, len(frames)):
            asking.frames = frames[:count]
            with Asker(program, self.file, 7, [server.text], run=run) as asker:
                asking.run(asker)
                self.assertEqual(asker.ask("enquire 1"), clients.told_by(server.station.answer(codec.enquiry(1)), 0))
        self.assertEqual(server.station.history, frames)
        self.assertEqual(asking.told(), clients.worked_out(frames))
        self.assertEqual(self.file.read_bytes(), clients.file_of(frames, 1000, 7))
        # The file goes on with a gate on this processor.
        with self.open(server.text) as asker:
            self.assertEqual(asker.ask("waiting")[1], len(frames))
            last = asking.told()[-1]
            assert last is not None, "it was told"
            self.assertEqual(asker.ask("resend"), clients.earlier(last))


class Examples(GateTest):
    """The two example programs, with a real server."""

    def example(self, name: str) -> pathlib.Path:
        program = clients.built(self.folder / name, [CLIENT / "examples" / f"{name}.c", SOURCE])
        done = subprocess.run([program, "--create", self.file, "7", "100"], capture_output=True, text=True)
        self.assertEqual((done.returncode, done.stdout + done.stderr), (0, ""))
        return program

    def test_a_gate_with_two_readers(self) -> None:
        program, server = self.example("two_readers"), self.serve()
        with wire.Connection(server.address, TIME) as line:
            for frame in (codec.touch(codec.ISSUE, 1, 1, 1, MONDAY), codec.touch(codec.TOP_UP, 1, 2, 1, 2000, MONDAY)):
                line.send(frame)
                line.take()
        readers = self.folder / "in", self.folder / "out"
        for reader in readers:
            os.mkfifo(reader)
        gate = subprocess.Popen([program, self.file, "7", "2", *readers, server.text], stdout=subprocess.PIPE,
                                stderr=subprocess.PIPE, text=True)
        self.addCleanup(gate.kill)
        assert gate.stdout, "a pipe"
        # A pipe's opening waits for its other end.
        with open(readers[0], "w") as entering, open(readers[1], "w") as leaving:
            for pipe, card, said in ((entering, 1, "open in 1"), (leaving, 1, "open out 1"),
                                     (entering, 9, "closed 9: no such card")):
                pipe.write(f"{card}\n")
                pipe.flush()
                self.assertEqual(gate.stdout.readline(), f"{said}\n")
        self.assertEqual((gate.communicate(timeout=TIME), gate.returncode), (("", f"{self.file}: ok\n"), 0))
        own = [frame for frame in self.recorded() if wire.number_at(frame, 3, 2) == 7]
        kinds = [(frame[2], wire.number_at(frame, 5, 4)) for frame in own]
        self.assertEqual(kinds, [(codec.ENTER, 1), (codec.LEAVE, 2), (codec.ENTER, 3)])

    def test_a_passenger_who_had_no_answer_is_let_through_once_it_comes(self) -> None:
        program, server = self.example("two_readers"), self.serve()
        with wire.Connection(server.address, TIME) as line:
            for frame in (codec.touch(codec.ISSUE, 1, 1, 1, MONDAY), codec.touch(codec.TOP_UP, 1, 2, 1, 2000, MONDAY)):
                line.send(frame)
                line.take()
        server.kill()
        reader = self.folder / "in"
        os.mkfifo(reader)
        gate = subprocess.Popen([program, self.file, "7", "2", reader, os.devnull, server.text], stdout=subprocess.PIPE,
                                stderr=subprocess.PIPE, text=True)
        self.addCleanup(gate.kill)
        assert gate.stdout, "a pipe"
        with open(reader, "w") as entering:
            entering.write("1\n")
            entering.flush()
            self.assertEqual(gate.stdout.readline(), "closed 1: no answer\n")
            again = self.start(PROGRAM, "serve", "--table", EXAMPLE, "--journal", self.folder / "journal",
                               "--cards", 10, "--capacity", 1000, "--listen", server.text, "--lines", 4)
            self.assertEqual(gate.stdout.readline(), "open in 1\n")
        gate.communicate(timeout=TIME)
        again.kill()
        self.assertEqual([frame[2] for frame in self.recorded()], [codec.ISSUE, codec.TOP_UP, codec.ENTER])

    def test_a_top_up_machine(self) -> None:
        program, server = self.example("top_up_machine"), self.serve()
        with wire.Connection(server.address, TIME) as line:
            line.send(codec.touch(codec.ISSUE, 1, 1, 1, MONDAY))
            line.take()
        done = subprocess.run([program, self.file, "7", server.text], input="1 2000\n1 7001\n2 500\n", text=True,
                              capture_output=True, timeout=TIME)
        self.assertEqual((done.returncode, done.stderr), (0, ""))
        self.assertEqual(done.stdout.split("\n")[:-1], [
            "card 1 holds 0", "kept: the card holds 2000", "card 1 holds 2000", "given back: above the balance limit",
            "card 2 was never issued", "given back: no such card"])


class WrongLibraries(GateTest):
    """Libraries with a planted fault: what a maker gets wrong. Each has to be found."""

    # What a change makes wrong: the text of the source, what stands in its place, and the check that finds it.
    FLAWS: dict[str, tuple[Any, ...]] = {
        "it sends before it keeps": (
            "    if (!append(gate, gate->last)) {\n",
            "    gate->waits = 1;\n    settle(gate);\n    if (!append(gate, gate->last)) {\n",
            Power, "check_kept_first"),
        "it leaves out the sync before the mark": (
            "    return write_synced(gate->file, slot, SLOT_SIZE,", "    return write_at(gate->file, slot, SLOT_SIZE,",
            Power, "check_torn"),
        "it leaves out the sync behind the mark": (
            "&& write_synced(gate->file, &open_mark, 1,", "&& write_at(gate->file, &open_mark, 1,",
            Power, "check_kept_first"),
        "it makes the header in one write": (
            "             || !write_synced(file, header + 1, START_SIZE - 1, 1, &error)\n"
            "             || !write_synced(file, header, 1, 0, &error))",
            "             || !write_synced(file, header, START_SIZE, 0, &error))", Power, "check_torn"),
        "it doesn't close the next slot's mark": (
            "slot, SLOT_SIZE, slot_at(gate->asked) + 1, &gate->error)",
            "slot, SLOT_SIZE - 1, slot_at(gate->asked) + 1, &gate->error)", Power, "check_torn"),
        "nothing waits after an opening": (
            "    gate->asked++;\n    return HOLDS;", "    gate->asked++;\n    gate->waits = 0;\n    return HOLDS;",
            Power, "check_cut", 4, 1),
        "it counts from the opening": (
            "    touch->number = gate->asked + 1;", "    static uint32_t count;\n    touch->number = ++count;",
            Power, "check_counting"),
        "it takes a second touch while one waits": (
            "    if (gate->waits) {\n        settle(gate);", "    if (0) {\n        settle(gate);",
            Repeats, "test_no_touch_is_asked_while_one_waits"),
        "it keeps a second touch while one waits": (
            "    if (gate->waits)\n        return cause_of(BOVTRILA_EARLIER_WAITS, 0);\n", "",
            Steps, "test_a_second_touch_is_not_kept"),
        "it goes on after the disk failed": (
            "        gate->stopped = 1;\n", "", Refused, "check_all_refused"),
        "it sends again with the present moment": (
            "    answer.result = ask(gate, gate->last, bytes);",
            "    put(gate->last + frame_size(gate->last) - 4, 4, (uint32_t)now());\n"
            "    answer.result = ask(gate, gate->last, bytes);", Power, "check_cut", 4, 1),
        "it goes on behind a part of a request": (
            "    if (heard != ANSWER) {\n        gate->error = errno;\n        hang_up(gate);\n    }",
            "    if (heard != ANSWER)\n        gate->error = errno;", Refused, "check_parts"),
        "it doesn't compare the number": (
            "        known = 9;\n", "        known = 5;\n", Repeats, "check_row", "the answer to another touch"),
        "it doesn't compare a fault's number": (
            "        known = LENGTH_SIZE + FAULT_SIZE;", "        known = 3;",
            Repeats, "test_each_cause_is_told_and_the_touch_waits_on"),
        "it gives up at a fault": (
            "        answer.fault = bytes[3];\n        return answer;\n",
            "        answer.fault = bytes[3], gate->waits = 0;\n        return answer;\n",
            Repeats, "check_row", "a halted server"),
        "it doesn't look at the numbers in the file": (
            "        && (take(frame + 3, 2) != gate->number || take(frame + 5, 4) != gate->asked + 1))",
            "        && take(frame + 3, 2) != gate->number)", Files, "test_each_cause_of_an_opening_is_told"),
        "it takes another gate's file": (
            "    if (cards != CARDS || memcmp(header + GATE_AT, wanted + GATE_AT, GATE_SIZE) != 0)",
            "    if (cards != CARDS)",
            Files, "test_each_cause_of_an_opening_is_told"),
        "it takes an old file for its own": (
            "        return BOVTRILA_FILE_OLD_TAG;", "        return BOVTRILA_FILE_OK;",
            Files, "test_each_cause_of_an_opening_is_told"),
        "it hears a part of a reply": (
            "    if (beginning == WHOLE)\n        return take_answer(gate, bytes);",
            "    if (beginning != STRAY && size > 9)\n        return take_answer(gate, bytes);",
            Steps, "test_touches_over_lines_of_the_gate_s_own"),
        "it takes a station's journal": (
            "    return memcmp(header + TAG_AT, TAG, sizeof TAG - 1) == 0 ? BOVTRILA_FILE_OK : BOVTRILA_FILE_ANOTHER;",
            "    return BOVTRILA_FILE_OK;", Files, "test_each_cause_of_an_opening_is_told"),
        "it takes a refusal for an acceptance": (
            "    FIRST_REFUSAL = 20,\n", "    FIRST_REFUSAL = 200,\n",
            Repeats, "check_row", "verdicts that have no meaning yet"),
        "it tells a touch of before the start as one of this start": (
            "answer.number <= gate->opened", "answer.number == 0",
            Starts, "test_a_touch_of_before_the_start_is_told_by_a_result_of_its_own"),
        "it takes any mark for that of the last touch": (
            "memcmp(mark, gate->last, sizeof mark) == 0", "memcmp(mark, gate->last, 5) == 0",
            Starts, "test_only_the_whole_mark_of_the_last_touch_counts"),
        "it marks a touch that wasn't answered": (
            "    write_touch(mark, gate->number, &gate->settled.touch);", "    memcpy(mark, gate->last, sizeof mark);",
            Starts, "test_a_touch_that_the_disk_failed_for_is_not_marked"),
        "it doesn't look at the mark": (
            "gate->waits && is_marked_done(gate)", "is_marked_done(gate) && 0",
            Starts, "test_a_touch_that_is_done_is_not_told_again"),
        "it lets two programs have a file": (
            "flock(*file, LOCK_EX | LOCK_NB) != 0", "flock(*file, LOCK_SH | LOCK_NB) != 0",
            Files, "test_a_file_is_opened_once_at_a_time"),
        "it hears no cancel while it waits": (
            "        int ready = poll(both, 2,", "        int ready = poll(both, 1 + (left <= 0),",
            Cancels, "check_answer", "a thread", 1000),
        "it hears no cancel before a repeat": (
            "    while ((event = await(gate, POLLIN, until)) == READY)\n        hang_up(gate);\n    if",
            "    sleep_until(until);\n    while ((event = await(gate, POLLIN, until)) == READY)\n        hang_up(gate);\n"
            "    if", Cancels, "check_repeat", "a thread", 1000),
        "it hears no cancel while it connects": (
            "    if (await(gate, POLLOUT, until) != READY ||",
            "    struct pollfd one = {gate->line, POLLOUT, 0};\n    if (poll(&one, 1, (int)(until - now())) != 1 ||",
            Cancels, "check_connecting", "a thread", 1000),
        "it forgets a cancel of before the call": (
            "    int64_t deadline = now() + gate->limit;\n\n",
            "    int64_t deadline = now() + gate->limit;\n\n    bovtrila_clear_cancel(gate);\n",
            Cancels, "check_before", 1000),
        "it goes on over the connection of a cancelled call": (
            "    if (heard != ANSWER) {\n        gate->error = errno;\n        hang_up(gate);\n    }",
            "    if (heard != ANSWER) {\n        gate->error = errno;\n        if (heard != CALLED_OFF)\n"
            "            hang_up(gate);\n    }",
            Cancels, "check_late_answer", "a thread"),
        "it gives a touch up when its call is cancelled": (
            "    if (answer.result == BOVTRILA_SHOWN || answer.result == BOVTRILA_FAULT)\n        return take",
            "    gate->waits &= answer.result != BOVTRILA_CANCELLED;\n"
            "    if (answer.result == BOVTRILA_SHOWN || answer.result == BOVTRILA_FAULT)\n        return take",
            Cancels, "check_answer", "a thread", 1000),
        "it clears one cancel of many": (
            "    while (some > 0);\n    return (some", "    while (0);\n    return some > 0 || (some",
            Cancels, "check_many"),
    } | gategivenupfiles.FLAWS

    def test_each_is_found(self) -> None:
        whole = SOURCE.read_text()
        for place, (name, (old, new, owner, check, *words)) in enumerate(self.FLAWS.items()):
            with self.subTest(name):
                self.assertEqual(whole.count(old), 1, "the source has changed")
                source = self.folder / f"wrong{place}.c"
                source.write_text(whole.replace(old, new))
                program = clients.built(self.folder / f"wrong{place}", [TESTS / "asker.c", source], flags=("-O1",))
                with self.assertRaises((AssertionError, Gone)), of(owner, program) as case:
                    getattr(case, check)(*words)
