"""Runs the built server over TCP: gates that repeat, vanish and misbehave, kills under load, and its journal's file.

It needs crates/tap_server/out/tap_server, which `rt ci` leaves there. Answers are compared with a reference model of
the station, and that model reads the journal's file. All traffic stays on 127.0.0.1.
"""
import os
import pathlib
import random
import resource
import signal
import socket
import struct
import subprocess
import tempfile
import threading
from collections.abc import Iterable
from typing import Any

import harness
from bovtrila import codec, layout, model
from harness import EXAMPLE, PROGRAM, REVISED, TIME
from running import Gate, Server

VECTORS = harness.vectors()
FIRST = [(bytes.fromhex(asked), bytes.fromhex(answered)) for asked, answered in VECTORS["first example"]]
# The frames of a server that was given a revised table, which begin with the first example.
REVISING = {section: [(bytes.fromhex(asked), bytes.fromhex(answered)) for asked, answered in pairs]
            for section, pairs in harness.vectors("revised").items()}
# The revision that is accepted, which has one that is refused before it.
REFUSED, ACCEPTED = REVISING["a revision"][:2]
MONDAY = 1736121600
KILLS = 20


# Kills the process before its n-th call of those that write to a disk or settle it, STOP_AT being n.
STOP = r"""
typedef unsigned long size;
extern char *getenv(const char *);
extern int atoi(const char *);
extern long syscall(long, ...);

static int at, count;

__attribute__((constructor)) static void start(void) { at = atoi(getenv("STOP_AT")); }

static void pass(void) {
    if (__sync_add_and_fetch(&count, 1) == at) syscall(62, syscall(39), 9);
}

long pwrite(int file, const void *from, size many, long place) { pass(); return syscall(18, file, from, many, place); }
int fsync(int file) { pass(); return syscall(74, file); }
int fdatasync(int file) { pass(); return syscall(75, file); }
"""

# Tells each option of a socket that is set to a number: its level, its name and the number.
OPTIONS = r"""
typedef unsigned long size;
extern long syscall(long, ...);
extern int dprintf(int, const char *, ...);

int setsockopt(int socket, int level, int name, const int *value, unsigned many) {
    long done = syscall(54, socket, level, name, value, many);
    if (done == 0 && (level == 6 || name == 9)) dprintf(2, "%d %d %d\n", level, name, *value);
    return done;
}
"""


def day_of(gate: int, card: int, journeys: int) -> list[bytes]:
    """The touches of a gate's card on a working day: an issue, a top-up, and journeys with gaps."""
    def name(number: int) -> tuple[int, int, int]:
        return gate, number, card
    frames = [codec.touch(codec.ISSUE, *name(1), MONDAY), codec.touch(codec.TOP_UP, *name(2), 9000, MONDAY)]
    moment = MONDAY + 6 * 3600
    for journey in range(journeys):
        moment += 600 + 37 * journey
        for kind, station in ((codec.ENTER, 2 + journey % 3), (codec.LEAVE, 1 + journey % 4)):
            frames.append(codec.touch(kind, *name(len(frames) + 1), station, moment))
            moment += 900
    return frames


def answers(frames: Iterable[bytes], cards: int = 10, capacity: int = 1000) -> list[bytes]:
    """What the model answers to these requests."""
    station = model.Station(model.Table(EXAMPLE.read_text()), cards, capacity)
    return [station.answer(frame) for frame in frames]


class ServerTest(harness.ProgramTest):
    """Each test has a folder of its own."""

    def setUp(self) -> None:
        folder = tempfile.TemporaryDirectory()
        self.addCleanup(folder.cleanup)
        self.folder = folder.name
        self.table = model.Table(EXAMPLE.read_text())

    def serve(self, **options: Any) -> Server:
        server = Server(self.folder, **options)
        self.addCleanup(server.kill)
        return server

    def recorded(self, cards: int = 10) -> list[bytes]:
        """The touches that the journal's file holds."""
        return model.journal((pathlib.Path(self.folder) / "journal").read_bytes(), self.table, cards)[0]


class Sessions(ServerTest):
    """Gates that are served."""

    def test_the_first_example_is_answered_and_reported(self) -> None:
        server = self.serve()
        with server.connect() as gate:
            for asked, answered in FIRST:
                self.assertEqual(gate.ask(asked).hex(), answered.hex())
        status, out, err = server.end()
        self.assertEqual((status, out, err), (0, ["opened 0", "line 1 connections 1 requests 4 answers 4", "closed 4"], ""))
        self.assertEqual(self.recorded(), [asked for asked, _ in FIRST])

    def test_an_enquiry_after_a_touch_has_seen_it(self) -> None:
        server = self.serve()
        enquiry, held = (bytes.fromhex(frame) for frame in VECTORS["enquiries"][0])
        with server.connect() as gate:
            for asked, answered in FIRST:
                self.assertEqual(gate.ask(asked), answered)
            self.assertEqual(gate.ask(enquiry).hex(), held.hex())

    def test_enquiries_beside_touches_know_each_gates_own(self) -> None:
        server = self.serve(lines=4)
        wrong: list[tuple[int, str, int]] = []
        fronts: dict[int, int] = {}

        def drive(number: int) -> None:
            frames = day_of(number, number, 20)
            front = 0
            with server.connect() as gate:
                for committed, (frame, answer) in enumerate(zip(frames, wanted[number]), 1):
                    if gate.ask(frame) != answer:
                        wrong.append((number, "touch", committed))
                    # The card is this gate's alone: its balance is that of the gate's last answer.
                    _, kind, _, balance, now = struct.unpack(">HBBqI", gate.ask(codec.enquiry(number)))
                    if (kind, balance) != (codec.HOLDING, struct.unpack(">q", answer[-8:])[0]):
                        wrong.append((number, "balance", committed))
                    if now < front or now < committed:
                        wrong.append((number, "front", committed))
                    front = now
            fronts[number] = front

        wanted = {number: answers(day_of(number, number, 20)) for number in range(1, 5)}
        drivers = [threading.Thread(target=drive, args=(number,)) for number in wanted]
        for driver in drivers:
            driver.start()
        for driver in drivers:
            driver.join(TIME)
        self.assertEqual((wrong, max(fronts.values())), ([], 4 * 42))
        status, out, _ = server.end()
        self.assertEqual((status, out[-1]), (0, f"closed {4 * 42}"))

    def test_a_repeat_after_a_restart_gets_its_first_answer(self) -> None:
        for opened in (0, 4, 4):
            server = self.serve()
            with server.connect() as gate:
                for asked, answered in FIRST:
                    self.assertEqual(gate.ask(asked), answered)
            status, out, _ = server.end()
            self.assertEqual((status, out[0], out[-1]), (0, f"opened {opened}", "closed 4"))

    def test_frames_may_come_in_any_pieces(self) -> None:
        server = self.serve(connections=2)
        whole = b"".join(asked for asked, _ in FIRST)
        for size in (1, 7):
            with server.connect() as gate:
                for place in range(0, len(whole), size):
                    gate.send(whole[place:place + size])
                for _, answered in FIRST:
                    self.assertEqual(gate.take(), answered)

    def test_eight_lines_are_served_at_once(self) -> None:
        server = self.serve(lines=8)
        wanted = {gate: answers(day_of(gate, gate, 12)) for gate in range(1, 9)}
        wrong: list[tuple[int, str, str, str]] = []

        def drive(number: int) -> None:
            with server.connect() as gate:
                for frame, answer in zip(day_of(number, number, 12), wanted[number]):
                    got = gate.ask(frame)
                    if got != answer:
                        wrong.append((number, frame.hex(), got.hex(), answer.hex()))

        # Each line is held by a connection before any of them ends.
        drivers = [threading.Thread(target=drive, args=(number,)) for number in wanted]
        for driver in drivers:
            driver.start()
        for driver in drivers:
            driver.join(TIME)
        self.assertEqual(wrong, [])
        status, out, _ = server.end()
        self.assertEqual((status, out[0], out[-1]), (0, "opened 0", f"closed {8 * 26}"))
        self.assertEqual(sorted(out[1:-1]),
                         sorted(f"line {line} connections 1 requests 26 answers 26" for line in range(1, 9)))
        recorded = self.recorded()
        for number in wanted:
            self.assertEqual([frame for frame in recorded if frame[3:5] == struct.pack(">H", number)],
                             day_of(number, number, 12))

    def test_two_gates_wait_for_each_others_answers(self) -> None:
        server = self.serve(lines=2)
        both = threading.Barrier(2)
        got: dict[int, list[bytes]] = {}

        def drive(number: int) -> None:
            frames = [codec.touch(codec.ISSUE, number, 1, number, MONDAY),
                      codec.touch(codec.TOP_UP, number, 2, number, 100, MONDAY)]
            with server.connect() as gate:
                first = gate.ask(frames[0])
                # The second request goes out once the other gate has its first answer as well.
                both.wait(TIME)
                got[number] = [first, gate.ask(frames[1])]

        drivers = [threading.Thread(target=drive, args=(number,)) for number in (1, 2)]
        for driver in drivers:
            driver.start()
        for driver in drivers:
            driver.join(TIME)
        self.assertEqual(got, {number: [codec.framed(">BHIBiq", codec.REPLY, number, 1, 8, 0, 0),
                                        codec.framed(">BHIBiq", codec.REPLY, number, 2, 7, 100, 100)] for number in (1, 2)})
        status, out, _ = server.end()
        self.assertEqual((status, out[1:]), (0, ["line 1 connections 1 requests 2 answers 2",
                                                 "line 2 connections 1 requests 2 answers 2", "closed 4"]))

    def test_a_gate_that_loses_every_third_answer_repeats_and_loses_nothing(self) -> None:
        frames = day_of(1, 1, 30)
        wanted = answers(frames)
        server = self.serve(connections=len(frames))
        gate = server.connect()
        for place, (frame, answer) in enumerate(zip(frames, wanted)):
            if place % 3 == 2:
                # It vanishes before the answer is read, comes back, and repeats.
                gate.send(frame)
                gate.socket.close()
                gate = server.connect()
            self.assertEqual(gate.ask(frame), answer)
        gate.socket.close()
        server.kill()
        self.assertEqual(self.recorded(), frames)

    def test_a_full_history_answers_repeats_alone(self) -> None:
        server = self.serve(capacity=2)
        with server.connect() as gate:
            for asked, answered in FIRST[:2]:
                self.assertEqual(gate.ask(asked), answered)
            self.assertEqual(gate.ask(FIRST[2][0]), codec.fault(codec.FULL, 7, 3))
            self.assertEqual(gate.ask(FIRST[0][0]), FIRST[0][1])

    def test_a_bad_frame_is_answered_and_ends_its_session_alone(self) -> None:
        server = self.serve(lines=2)
        bad = bytes.fromhex("001106")
        with server.connect() as quiet, server.connect() as loud:
            self.assertEqual(quiet.ask(FIRST[0][0]), FIRST[0][1])
            loud.send(bad)
            self.assertEqual((loud.take(), loud.take()), (codec.fault(codec.BAD_FRAME), b""))
            self.assertEqual(quiet.ask(FIRST[1][0]), FIRST[1][1])

    def test_an_answer_instead_of_a_request_is_a_bad_frame(self) -> None:
        server = self.serve()
        with server.connect() as gate:
            gate.send(FIRST[0][1])
            self.assertEqual((gate.take(), gate.take()), (codec.fault(codec.BAD_FRAME), b""))

    def test_hostile_gates_hold_up_nobody(self) -> None:
        server = self.serve(lines=3, connections=2000)
        draw = random.Random(7)
        stop = threading.Event()

        def attack() -> None:
            left = 50_000
            while left and not stop.is_set():
                try:
                    with server.connect() as gate:
                        for _ in range(draw.randint(1, 200)):
                            left -= 1
                            gate.send(draw.choice((draw.randbytes(draw.randint(1, 40)), b"\0" * 4000, FIRST[0][1][:9],
                                                   FIRST[0][0][:5])))
                        if draw.random() < 0.5:
                            # A reset in place of a close.
                            gate.socket.setsockopt(socket.SOL_SOCKET, socket.SO_LINGER, struct.pack("ii", 1, 0))
                except OSError:
                    pass
                if left <= 0:
                    break

        attackers = [threading.Thread(target=attack, daemon=True) for _ in range(2)]
        for attacker in attackers:
            attacker.start()
        frames = day_of(1, 1, 200)
        with server.connect() as gate:
            for frame, answer in zip(frames, answers(frames)):
                self.assertEqual(gate.ask(frame).hex(), answer.hex())
        stop.set()
        for attacker in attackers:
            attacker.join(TIME)


class Lines(ServerTest):
    """What holds a line, and what it outlives."""

    def ask_first(self, server: Server) -> None:
        with server.connect() as gate:
            for asked, answered in FIRST:
                self.assertEqual(gate.ask(asked).hex(), answered.hex())

    def end_of_first(self, server: Server, connections: int = 1) -> str:
        """The server ends with the report of the first example, over these connections, and all else is said."""
        status, out, told = server.end()
        self.assertEqual((status, out[1:]), (0, [f"line 1 connections {connections} requests 4 answers 4", "closed 4"]))
        return told

    def test_a_gate_that_sends_no_byte_is_no_connection(self) -> None:
        server = self.serve()
        for _ in range(200):
            server.connect().socket.close()
        self.ask_first(server)
        self.assertEqual(self.end_of_first(server), "")

    def test_a_silent_gate_is_given_up_where_that_is_asked_for(self) -> None:
        server = self.serve(connections=2, more=["--idle", "1"])
        with server.connect() as gate:
            self.assertEqual(gate.take(), b"")
        with server.connect() as gate:
            gate.send(FIRST[0][0][:7])
            self.assertEqual(gate.take(), b"")
        self.ask_first(server)
        self.end_of_first(server, 2)

    def test_a_gate_that_takes_no_answers_is_given_up_where_that_is_asked_for(self) -> None:
        server = self.serve(connections=2, more=["--idle", "1"])
        with server.connect() as gate:
            with self.assertRaises(OSError):
                gate.send(codec.enquiry(1) * 10_000_000)
            self.ask_first(server)
        _, out, _ = server.end()
        self.assertRegex(out[1], "^line 1 connections 2 requests [0-9]+ answers [0-9]+$")
        self.assertEqual(out[2], "closed 4")

    def limit(self, server: Server, descriptors: int) -> int:
        """Lets a server have so many open files, and gives how many it might have before."""
        before, most = resource.prlimit(server.process.pid, resource.RLIMIT_NOFILE)
        resource.prlimit(server.process.pid, resource.RLIMIT_NOFILE, (descriptors, most))
        return before

    def test_a_shortage_of_descriptors_is_told_and_outlived(self) -> None:
        # A server has three standard streams, its journal and its listener, and two descriptors for each connection: so
        # with five there is none for a connection, and with six one that isn't served.
        server = self.serve(lines=2, connections=4)
        for descriptors in (5, 6):
            before = self.limit(server, descriptors)
            with server.connect() as gate:
                assert server.process.stderr, "a pipe"
                self.assertEqual(server.process.stderr.readline(), b"no descriptors\n")
                self.limit(server, before)
            self.ask_first(server)
        with server.connect(), server.connect() as gate:
            gate.send(FIRST[0][0])
            self.assertEqual(gate.take(), FIRST[0][1])

    def few(self, descriptors: int) -> dict[str, Any]:
        """What lets a program have so many open files from its start on, and more if it is let."""
        most = resource.getrlimit(resource.RLIMIT_NOFILE)[1]
        return {"preexec_fn": lambda: resource.setrlimit(resource.RLIMIT_NOFILE, (descriptors, most))}

    def test_a_server_without_descriptors_for_its_journal_does_not_begin(self) -> None:
        """Beside its standard streams it needs a second descriptor for a moment, to open the journal's file."""
        journal = pathlib.Path(self.folder) / "journal"
        words = ["serve", "--table", EXAMPLE, "--journal", journal, "--cards", 10, "--capacity", 1000, "--listen",
                 "127.0.0.1:0", "--lines", 1, "--connections", 1]
        refused = 1, b"", f"fault file\n  {journal}: too many open files\n"
        self.assertEqual(harness.run_whole(list(map(str, words)), **self.few(4)), refused)
        # It held no touch, so the next server begins on it as on a new one.
        server = self.serve()
        self.ask_first(server)
        self.end_of_first(server)
        before = journal.read_bytes()
        self.assertEqual(harness.run_whole(list(map(str, words)), **self.few(4)), refused)
        self.assertEqual(journal.read_bytes(), before)

    def test_a_server_that_begins_with_few_descriptors_tells_it_and_goes_on(self) -> None:
        """With five there is none for a connection, and with six one that isn't served."""
        for descriptors in (5, 6):
            with self.subTest(descriptors=descriptors):
                (pathlib.Path(self.folder) / "journal").unlink(missing_ok=True)
                server = self.serve(**self.few(descriptors))
                with server.connect():
                    assert server.process.stderr, "a pipe"
                    self.assertEqual(server.process.stderr.readline(), b"no descriptors\n")
                    self.limit(server, 64)
                self.ask_first(server)
                self.assertEqual(self.end_of_first(server), "")
        # Seven are enough for one line.
        (pathlib.Path(self.folder) / "journal").unlink()
        server = self.serve(**self.few(7))
        self.ask_first(server)
        self.assertEqual(self.end_of_first(server), "")

    def test_the_system_asks_after_a_gate_that_is_gone(self) -> None:
        library = harness.library(pathlib.Path(self.folder), "options", OPTIONS)
        server = self.serve(env=dict(os.environ, LD_PRELOAD=str(library)))
        self.ask_first(server)
        told = self.end_of_first(server).split("\n")
        # SO_KEEPALIVE; TCP_KEEPIDLE, TCP_KEEPINTVL and TCP_KEEPCNT: 60 s, and 5 times 10 s; TCP_USER_TIMEOUT: 110 s.
        for option in ("1 9 1", "6 4 60", "6 5 10", "6 6 5", "6 18 110000", "6 1 1"):
            self.assertIn(option, told)


class Revisions(ServerTest):
    """Fare tables that are revised while a server runs, and after."""

    def ask_all(self, pairs: Iterable[tuple[bytes, bytes]], **options: Any) -> tuple[int, list[str], str]:
        """Asks a server for each of these, and gives its report."""
        server = self.serve(**options)
        with server.connect() as gate:
            for asked, answered in pairs:
                self.assertEqual(gate.ask(asked).hex(), answered.hex(), asked.hex())
        return server.end()

    def test_a_revision_is_answered_and_found_again_with_its_table(self) -> None:
        pairs = [pair for section in REVISING.values() for pair in section]
        status, out, err = self.ask_all(pairs, revised=[REVISED])
        self.assertEqual((status, out[0], out[-1], err), (0, "opened 0", "closed 23", ""))
        kept = self.recorded()
        self.assertEqual(len(kept), 23)
        # Each touch with a reply, each once and in its order.
        touches = [asked for asked, answered in pairs if answered[2] == codec.REPLY]
        self.assertEqual(kept, list(dict.fromkeys(touches)))
        again = [(asked, answered) for asked, answered in pairs if answered[2] == codec.REPLY]
        status, out, err = self.ask_all(again, revised=[REVISED])
        self.assertEqual((status, out[0], out[-1], err), (0, "opened 23", "closed 23", ""))
        self.assertEqual(self.recorded(), kept)

    def test_fares_go_on_by_the_table_in_force_after_a_restart(self) -> None:
        status, _, _ = self.ask_all(FIRST + REVISING["a revision"][:3], revised=[REVISED])
        self.assertEqual(status, 0)
        # It went in before the new table counts, and comes out in a server that was started anew.
        status, out, _ = self.ask_all(REVISING["a revision"][3:], revised=[REVISED])
        self.assertEqual((status, out[0], out[-1]), (0, "opened 7", "closed 10"))

    def test_a_table_that_was_not_given_is_asked_for_again_after_a_restart(self) -> None:
        asked, answered = ACCEPTED
        unknown = codec.fault(codec.UNKNOWN_TABLE, 7, 6)
        enquiry, held = (bytes.fromhex(frame) for frame in VECTORS["enquiries"][0])
        pairs = [*FIRST, (asked, unknown), (enquiry, held), (asked, unknown)]
        status, out, _ = self.ask_all(pairs)
        self.assertEqual((status, out), (0, ["opened 0", "line 1 connections 1 requests 7 answers 7", "closed 4"]))
        journal = pathlib.Path(self.folder) / "journal"
        before = journal.read_bytes()
        self.assertEqual(self.recorded(), [asked for asked, _ in FIRST])
        # A server without the table leaves the journal as it is, and one with it records the same touch.
        self.ask_all([(asked, unknown)])
        self.assertEqual(journal.read_bytes(), before)
        status, out, _ = self.ask_all([ACCEPTED, FIRST[0]], revised=[REVISED])
        self.assertEqual((status, out[0], out[-1]), (0, "opened 4", "closed 5"))

    def test_an_unknown_table_comes_before_a_full_history_and_behind_a_conflict(self) -> None:
        known, unknown = ACCEPTED[0][:13] + self.table.digest + ACCEPTED[0][45:], ACCEPTED[0]
        used = unknown[:5] + struct.pack(">I", 1) + unknown[9:]
        self.ask_all([*FIRST[:2], (known, codec.fault(codec.FULL, 7, 6)),
                      (unknown, codec.fault(codec.UNKNOWN_TABLE, 7, 6)), (used, codec.fault(codec.CONFLICT, 7, 1)),
                      FIRST[1]], capacity=2)

    def test_a_halted_server_answers_a_revision_as_any_touch(self) -> None:
        def limit() -> None:
            signal.signal(signal.SIGXFSZ, signal.SIG_IGN)
            # A journal without touches has 65 bytes, and the first touch's write ends at byte 128.
            resource.setrlimit(resource.RLIMIT_FSIZE, (100, resource.RLIM_INFINITY))

        asked, _ = ACCEPTED
        halted = codec.fault(codec.HALTED, 7, 6)
        server = self.serve(preexec_fn=limit, revised=[REVISED], more=["--stay-halted"])
        with server.connect() as gate:
            self.assertEqual(gate.ask(asked), halted)
            # Halted comes before all else, so before a table that isn't there too.
            self.assertEqual(gate.ask(asked[:13] + bytes(32) + asked[45:]), halted)
        self.assertEqual(server.end()[0], 1)

    def test_gates_beside_a_revision_are_charged_by_the_table_in_force(self) -> None:
        wanted = {number: answers(day_of(number, number, 8)) for number in range(1, 5)}
        wrong: list[tuple[int, str]] = []

        def drive(number: int) -> None:
            with server.connect() as gate:
                for frame, answer in zip(day_of(number, number, 8), wanted[number]):
                    if gate.ask(frame) != answer:
                        wrong.append((number, frame.hex()))

        server = self.serve(lines=5, revised=[REVISED])
        drivers = [threading.Thread(target=drive, args=(number,)) for number in wanted]
        for driver in drivers:
            driver.start()
        digest = model.Table(REVISED.read_text()).digest
        verdicts = []
        with server.connect() as staff:
            for number in range(40):
                # Days behind all travel, one above the other: the fares of the day before stay.
                frame = codec.touch(codec.REVISE, 9, number, 0, digest, 20100 + number, MONDAY)
                verdicts.append(staff.ask(frame)[9])
        for driver in drivers:
            driver.join(TIME)
        self.assertEqual((wrong, set(verdicts)), ([], {codec.REVISED}))
        self.assertEqual(server.end()[0], 0)


class Kills(ServerTest):
    """A server that is killed under load."""

    def test_every_answer_that_a_gate_had_is_found_again(self) -> None:
        draw = random.Random(11)
        gates = {number: day_of(number, number, 400) for number in range(1, 5)}
        wanted = {number: answers(frames) for number, frames in gates.items()}
        had = {number: 0 for number in gates}
        wrong: list[tuple[int, int, str]] = []
        kills = 0
        # A slow disk takes more of them until each gate was answered often enough.
        while kills < KILLS or min(had.values()) <= 10:
            kills += 1
            self.assertLess(kills, 10 * KILLS, had)
            server = self.serve(lines=4, connections=10, capacity=10_000)

            def drive(number: int) -> None:
                try:
                    with server.connect() as gate:
                        # What was answered before the kill is asked again first, from its last ten touches on.
                        for place in range(max(0, had[number] - 10), len(gates[number])):
                            answer = gate.ask(gates[number][place])
                            if len(answer) < 22:
                                return
                            if answer != wanted[number][place]:
                                wrong.append((number, place, answer.hex()))
                                return
                            had[number] = max(had[number], place + 1)
                except OSError:
                    pass

            drivers = [threading.Thread(target=drive, args=(number,)) for number in gates]
            for driver in drivers:
                driver.start()
            threading.Event().wait(draw.uniform(0.02, 0.15))
            server.kill()
            for driver in drivers:
                driver.join(TIME)
            self.assertEqual(wrong, [])
            recorded = self.recorded()
            for number in gates:
                kept = [frame for frame in recorded if frame[3:5] == struct.pack(">H", number)]
                # The answered touches are there, and at most the one in flight beside them.
                self.assertEqual(kept, gates[number][:len(kept)])
                self.assertIn(len(kept) - had[number], (0, 1))
        server = self.serve(lines=4, capacity=10_000)
        with server.connect() as gate:
            for number, frames in gates.items():
                for frame, answer in zip(frames[:had[number]], wanted[number]):
                    self.assertEqual(gate.ask(frame), answer)

    def test_a_journal_that_cannot_grow_halts_and_keeps_what_was_answered(self) -> None:
        def limit() -> None:
            signal.signal(signal.SIGXFSZ, signal.SIG_IGN)
            # The third touch's slot ends at byte 256, and the second's write at byte 192.
            resource.setrlimit(resource.RLIMIT_FSIZE, (224, resource.RLIM_INFINITY))

        server = self.serve(preexec_fn=limit, more=["--stay-halted"])
        with server.connect() as gate:
            self.assertEqual(gate.ask(FIRST[0][0]), FIRST[0][1])
            self.assertEqual(gate.ask(FIRST[1][0]), FIRST[1][1])
            halted = gate.ask(FIRST[2][0])
            self.assertEqual(halted, codec.fault(codec.HALTED, 7, 3))
            # A repeat is refused too: the server has to be started again.
            self.assertEqual(gate.ask(FIRST[0][0]), codec.fault(codec.HALTED, 7, 1))
            # An enquiry is answered by what was committed: the issue and the top-up of 2000 pence.
            self.assertEqual(gate.ask(codec.enquiry(1)), codec.framed(">BBqI", codec.HOLDING, 1, 2000, 2))
        status, out, _ = server.end()
        self.assertEqual((status, out[-1]), (1, "halted 2"))
        server = self.serve()
        with server.connect() as gate:
            for asked, answered in FIRST:
                self.assertEqual(gate.ask(asked), answered)


class Stops(ServerTest):
    """A server that is killed before each of its calls on the journal's disk in turn."""

    def stopped_at(self, library: pathlib.Path, number: int) -> tuple[int | None, bool]:
        """Runs a server that is killed before that call: how many answers came, or None where it never listened."""
        env = dict(os.environ, LD_PRELOAD=str(library), STOP_AT=str(number))
        try:
            server = self.serve(env=env, revised=[REVISED])
        except AssertionError:
            return None, True
        had = 0
        with server.connect() as gate:
            for asked, answered in [*FIRST, ACCEPTED]:
                try:
                    answer = gate.ask(asked)
                except OSError:
                    answer = b""
                if len(answer) < len(answered):
                    break
                self.assertEqual(answer, answered)
                had += 1
        return had, server.process.wait(TIME) == -signal.SIGKILL

    def test_the_journal_opens_with_every_answered_touch(self) -> None:
        library = harness.library(pathlib.Path(self.folder), "stop", STOP)
        journal = pathlib.Path(self.folder) / "journal"
        found = set()
        for number in range(1, 100):
            journal.unlink(missing_ok=True)
            had, was_killed = self.stopped_at(library, number)
            if not was_killed:
                break
            with self.subTest(call=number, answers=had):
                try:
                    server = self.serve(revised=[REVISED])
                except AssertionError as said:
                    # A making that was cut short: no touch was answered, and the file is no journal.
                    self.assertIsNone(had)
                    self.assertIn("fault journal 3 NotAJournal", str(said))
                    continue
                with server.connect() as gate:
                    for asked, answered in [*FIRST, ACCEPTED]:
                        self.assertEqual(gate.ask(asked), answered)
                status, out, _ = server.end()
                opened = int(out[0].split()[1])
                found.add(opened)
                self.assertIn(opened - (had or 0), (0, 1))
        self.assertFalse(was_killed)
        # Each number of touches was found by some opening.
        self.assertEqual(found, {0, 1, 2, 3, 4, 5})


class Faults(ServerTest):
    """What a server doesn't start on, with the file untouched."""

    def run_serve(self, journal: str | pathlib.Path, table: str | pathlib.Path = EXAMPLE, cards: int = 10,
                  listen: str = "127.0.0.1:0", capacity: int = 1000,
                  revised: Iterable[str | pathlib.Path] = ()) -> harness.Ran:
        return harness.run(["serve", "--table", str(table), "--journal", str(journal), "--cards", str(cards),
                            "--capacity", str(capacity), "--listen", listen, "--lines", "1", "--connections", "1",
                            *map(str, revised)])

    def made(self) -> pathlib.Path:
        """A journal of the first example."""
        server = self.serve()
        with server.connect() as gate:
            for asked, _ in FIRST:
                gate.ask(asked)
        server.end()
        return server.journal

    def test_a_journal_that_is_not_this_stations_is_refused(self) -> None:
        journal = self.made()
        good = journal.read_bytes()
        other = pathlib.Path(self.folder) / "other.toml"
        other.write_text(EXAMPLE.read_text() + "# Another digest.\n")
        rows: tuple[tuple[str, bytes, dict[str, Any], str], ...] = (
                ("another table", good, {"table": other}, "5 WrongTable"),
                ("other cards", good, {"cards": 11}, "6 WrongCards"),
                ("another version", good[:8] + b"9" + good[9:], {}, "4 WrongVersion"),
                ("the version of slots of 32 bytes", good[:8] + b"1" + good[9:], {}, "4 WrongVersion"),
                ("another file", b"#!/bin/sh\n" * 20, {}, "3 NotAJournal"),
                ("a making that was cut short", b"\0", {}, "3 NotAJournal"),
                ("a limit", good[:9] + b"\0\0\0\0" + good[13:], {}, "10 BadLimit"),
                ("a damaged slot", good[:65] + b"\x09" + good[66:], {}, "7 Damaged 0"),
                ("a cut slot", good[:64 + 64 * 3 + 9], {}, "7 Damaged 3"),
                ("no closed mark", good[:64 + 64 * 4], {}, "7 Damaged 4"),
                ("a touch twice", good[:128] + good[64:128] + good[192:], {}, "7 Damaged 1"))
        for name, content, options, line in rows:
            with self.subTest(name):
                journal.write_bytes(content)
                self.assertEqual(self.run_serve(journal, **options), (1, b"", f"fault journal {line}\n"))
                self.assertEqual(journal.read_bytes(), content)

    def write(self, touches: Iterable[bytes], capacity: int = 1000) -> pathlib.Path:
        """The journal's file of these touches, closed behind them."""
        journal = pathlib.Path(self.folder) / "journal"
        slots = b"".join(map(layout.slot_of, touches))
        journal.write_bytes(layout.header_of(capacity, 10, self.table.digest) + slots + bytes(1))
        return journal

    def test_a_journal_is_laid_out_as_the_model_writes_it(self) -> None:
        good = self.made().read_bytes()
        self.assertEqual(self.write([asked for asked, _ in FIRST]).read_bytes(), good)

    def test_a_journal_needs_each_table_that_it_names(self) -> None:
        first, (refused, _), (accepted, _) = [asked for asked, _ in FIRST], REFUSED, ACCEPTED
        # The refused revision names its table too. Of two faults the first place is told, and at one place the name.
        twice = accepted[:5] + struct.pack(">I", 1) + accepted[9:]
        other = accepted[:5] + struct.pack(">I", 8) + bytes(4) + bytes(32) + accepted[45:]
        example = accepted[:5] + struct.pack(">I", 9) + bytes(4) + self.table.digest + accepted[45:]
        rows: tuple[tuple[list[bytes], list[pathlib.Path], str], ...] = (
                                       ([*first, refused, accepted], [], "13 MissingTable 4"),
                                       ([accepted], [], "13 MissingTable 0"),
                                       ([*first, twice], [], "7 Damaged 4"),
                                       ([*first, accepted, first[0]], [], "13 MissingTable 4"),
                                       ([*first, first[0], accepted], [], "7 Damaged 4"),
                                       ([*first, accepted, other], [REVISED], "13 MissingTable 5"),
                                       ([*first, example, accepted], [], "13 MissingTable 5"))
        for touches, revised, line in rows:
            with self.subTest(line, touches=len(touches)):
                schedule = model.Schedule(self.table, [model.Table(path.read_text()) for path in revised])
                self.assertEqual(" ".join(map(str, model.fault_of(touches, schedule) or ())), line)
                journal = self.write(touches)
                before = journal.read_bytes()
                self.assertEqual(self.run_serve(journal, revised=revised), (1, b"", f"fault journal {line}\n"))
                self.assertEqual(journal.read_bytes(), before)
        # The header's faults come before it.
        journal = self.write([accepted])
        self.assertEqual(self.run_serve(journal, cards=11), (1, b"", "fault journal 6 WrongCards\n"))
        # Given in the place of the first table, it isn't the one that the journal was made with.
        self.assertEqual(self.run_serve(journal, table=REVISED), (1, b"", "fault journal 5 WrongTable\n"))

    def test_refused_revisions_are_told_before_the_journal_is_looked_at(self) -> None:
        zone = pathlib.Path(self.folder) / "zone.toml"
        zone.write_text(EXAMPLE.read_text().replace("GMT0BST,M3.5.0/1,M10.5.0", "GMT0"))
        empty = pathlib.Path(self.folder) / "empty.toml"
        empty.write_text("")
        nowhere = "/nowhere/journal"
        rows: tuple[tuple[list[str | pathlib.Path], str], ...] = (
                              ([EXAMPLE], "supply 2 Twice 1"), ([REVISED, REVISED], "supply 2 Twice 2"),
                              ([zone], "supply 3 OtherZone 1"), ([REVISED, zone, empty], "supply 3 OtherZone 2"),
                              ([REVISED, empty, zone], "table 3 Missing zone 0"), (["/nowhere/table"], "file"))
        for revised, line in rows:
            with self.subTest(line):
                self.assertEqual(self.run_serve(nowhere, revised=revised), (1, b"", f"fault {line}\n"))
        # The table is looked at before them.
        self.assertEqual(self.run_serve(nowhere, table=empty, revised=[zone]),
                         (1, b"", "fault table 3 Missing zone 0\n"))

    def test_faults_come_in_their_order(self) -> None:
        journal = self.made()
        refused = pathlib.Path(self.folder) / "refused.toml"
        refused.write_text("")
        nowhere = "/nowhere/journal"
        busy = socket.create_server(("127.0.0.1", 0))
        taken = "127.0.0.1:%d" % busy.getsockname()[1]
        rows: tuple[tuple[dict[str, Any], str], ...] = (
                              ({"journal": nowhere, "table": refused, "listen": taken}, "fault table 3 Missing zone 0"),
                              ({"journal": nowhere, "table": "/nowhere/table", "listen": taken}, "fault file"),
                              ({"journal": nowhere, "cards": 11, "listen": taken}, "fault file"),
                              ({"journal": journal, "cards": 11, "listen": taken}, "fault journal 6 WrongCards"),
                              ({"journal": journal, "listen": taken}, "fault listen"),
                              ({"journal": journal, "listen": "nonsense"}, "fault listen"))
        for options, line in rows:
            with self.subTest(line):
                self.assertEqual(self.run_serve(**options), (1, b"", f"{line}\n"))
        busy.close()

    def test_a_second_server_on_a_journal_is_refused(self) -> None:
        server = self.serve()
        self.assertEqual(self.run_serve(server.journal), (1, b"", "fault file\n"))

    def test_closed_standard_streams_leave_the_journal_whole(self) -> None:
        journal = self.made()
        before = journal.read_bytes()
        # Standard input isn't read, and what is written to a closed stream is lost.
        for closed in ("0<&-", ">&-", "2>&-", "0<&- 2>&-", "0<&- >&- 2>&-"):
            with self.subTest(closed):
                address = "127.0.0.1", harness.free_port()
                words = " ".join(["serve", "--table", str(EXAMPLE), "--journal", str(journal), "--cards", "10",
                                  "--capacity", "1000", "--listen", "%s:%d" % address, "--lines", "1",
                                  "--connections", "1"])
                server = subprocess.Popen(["sh", "-c", f"exec {PROGRAM} {words} {closed}"], stdin=subprocess.DEVNULL,
                                          stdout=subprocess.DEVNULL, stderr=subprocess.DEVNULL)
                self.addCleanup(server.kill)
                # It serves one connection, if any.
                for _ in range(1000):
                    if server.poll() is not None:
                        break
                    try:
                        with Gate(address) as gate:
                            gate.send(b"\0")
                    except OSError:
                        pass
                    threading.Event().wait(0.02)
                self.assertEqual(server.wait(TIME), 0)
                self.assertEqual(journal.read_bytes(), before)
