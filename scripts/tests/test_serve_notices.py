"""Runs the built server over TCP: its notices, and its end after its disk has failed.

It needs crates/tap_server/out/tap_server, which `rt ci` leaves there. A small library before the C library's makes disk
calls fail with EIO. Answers are compared with a reference model of the station, and that model reads the journal's
file. All traffic stays on 127.0.0.1.
"""
import errno
import fcntl
import os
import pathlib
import resource
import select
import socket
import subprocess
import tempfile
import threading
import time
from collections.abc import Iterable, Sequence
from typing import Any

import harness
from bovtrila import codec, model
from harness import EXAMPLE, PROGRAM, TIME
from running import Gate, Server

FIRST = [(bytes.fromhex(asked), bytes.fromhex(answered)) for asked, answered in harness.vectors()["first example"]]
MONDAY = 1736121600
# Noon on 2 January 2099.
FAR = 4071038400
# How many seconds a server may take to end once its disk has failed: the second that a silent gate's line waits, and some.
SOON = 10

# Has the n-th call fail with EIO of those that write to a disk or settle it, FAIL_AT being n.
FAIL = r"""
extern char *getenv(const char *);
extern int atoi(const char *);
extern int *__errno_location(void);
extern long syscall(long, ...);

static int at, count;

__attribute__((constructor)) static void start(void) { at = atoi(getenv("FAIL_AT")); }

static int fails(void) {
    if (__sync_add_and_fetch(&count, 1) != at) return 0;
    *__errno_location() = 5;
    return 1;
}

long pwrite(int file, const void *from, unsigned long many, long place) {
    return fails() ? -1 : syscall(18, file, from, many, place);
}
int fsync(int file) { return fails() ? -1 : (int)syscall(74, file); }
int fdatasync(int file) { return fails() ? -1 : (int)syscall(75, file); }
"""


class NoticeTest(harness.ProgramTest):
    """Each test has a folder of its own."""

    def setUp(self) -> None:
        folder = tempfile.TemporaryDirectory()
        self.addCleanup(folder.cleanup)
        self.folder = folder.name
        self.table = model.Table(EXAMPLE.read_text())

    def serve(self, connections: int | None = None, **options: Any) -> Server:
        """A server whose lines are never done, where no number of connections is given."""
        server = Server(self.folder, connections=connections, **options)
        self.addCleanup(server.kill)
        return server

    def failing(self, at: int, **options: Any) -> Server:
        """A server whose disk call of this number fails."""
        library = harness.library(pathlib.Path(self.folder), "fail", FAIL)
        return self.serve(env=dict(os.environ, LD_PRELOAD=str(library), FAIL_AT=str(at)), **options)

    def calls_of_making(self) -> int:
        """How many disk calls a server makes before it listens on a new journal: the first that fails behind them is a
        touch's."""
        for at in range(1, 100):
            (pathlib.Path(self.folder) / "journal").unlink(missing_ok=True)
            try:
                server = self.failing(at)
            except AssertionError:
                continue
            server.kill()
            (pathlib.Path(self.folder) / "journal").unlink()
            return at - 1
        raise AssertionError("no server listened")

    def ends(self, server: Server, halted: int) -> list[str]:
        """The server ends by itself, soon, as one whose disk has failed with so many entries."""
        begun = time.monotonic()
        status, out, err = server.end()
        self.assertLess(time.monotonic() - begun, SOON)
        told = f"halted {halted}\n  {self.folder}/journal: Input/output error\n"
        self.assertEqual((status, out[-1], err), (1, f"halted {halted}", told))
        return out

    def recorded(self) -> list[bytes]:
        """The touches that the journal's file holds."""
        return model.journal((pathlib.Path(self.folder) / "journal").read_bytes(), self.table, 10)[0]

    def told(self, server: Server) -> str:
        """What standard error has now, and nothing more within a while."""
        file = server.process.stderr
        assert file, "a pipe"
        os.set_blocking(file.fileno(), False)
        time.sleep(0.1)
        return (file.read() or b"").decode()

    def comes(self, server: Server) -> str:
        """What standard error has once something is there, and nothing more within a while."""
        select.select([server.process.stderr], [], [], TIME)
        return self.told(server)

    def asked_all(self, server: Server, pairs: Iterable[tuple[bytes, bytes]] = FIRST) -> None:
        """Each of these is answered so, over a connection of its own."""
        with server.connect() as gate:
            for asked, answered in pairs:
                self.assertEqual(gate.ask(asked).hex(), answered.hex())


class Halts(NoticeTest):
    """A server whose disk has failed."""

    def test_a_failed_disk_ends_the_server_and_loses_nothing(self) -> None:
        making = self.calls_of_making()
        journal = pathlib.Path(self.folder) / "journal"
        halts = 0
        for at in range(making + 1, making + 1 + 4 * len(FIRST)):
            journal.unlink(missing_ok=True)
            with self.subTest(call=at):
                server = self.failing(at, lines=2)
                had = 0
                with server.connect() as gate:
                    for asked, answered in FIRST:
                        answer = gate.ask(asked)
                        if answer != answered:
                            self.assertEqual(answer, codec.fault(codec.HALTED, 7, had + 1))
                            halts += 1
                            break
                        had += 1
                    self.assertLess(had, len(FIRST))
                    # The server ends while the gate is still connected.
                    self.ends(server, had)
                # What was answered is there, and at most the touch that failed beside it.
                self.assertIn(len(self.recorded()) - had, (0, 1))
                again = self.serve(connections=1)
                self.asked_all(again)
                status, out, err = again.end()
                self.assertEqual((status, out[-1], err), (0, "closed 4", ""))
                self.assertIn(int(out[0].split()[1]) - had, (0, 1))
                self.assertEqual(self.recorded(), [asked for asked, _ in FIRST])
        self.assertEqual(halts, 4 * len(FIRST))

    def test_lines_that_wait_end_too(self) -> None:
        server = self.failing(self.calls_of_making() + 5, lines=5)
        with server.connect() as silent, server.connect() as cut, server.connect() as unheard:
            # One is answered and silent, one is inside a frame, one has sent nothing, and two lines wait for a gate.
            self.asked_all(server, FIRST[:1])
            silent.send(codec.enquiry(1))
            self.assertEqual(len(silent.take()), 16)
            cut.send(FIRST[1][0][:5])
            self.assertTrue(harness.until(lambda: server.unread() == 0))
            with server.connect() as gate:
                self.assertEqual(gate.ask(FIRST[1][0]), codec.fault(codec.HALTED, 7, 2))
                self.ends(server, 1)
                for waiting in (gate, silent, cut, unheard):
                    waiting.socket.settimeout(SOON)
                    self.assertEqual(waiting.take(), b"")

    def test_what_a_gate_has_sent_is_answered_first(self) -> None:
        server = self.failing(self.calls_of_making() + 5)
        with server.connect() as gate:
            gate.send(FIRST[0][0], FIRST[1][0], FIRST[0][0], codec.enquiry(1))
            self.assertEqual(gate.take(), FIRST[0][1])
            self.assertEqual(gate.take(), codec.fault(codec.HALTED, 7, 2))
            # A repeat is refused too, and an enquiry is answered: card 1 is issued, by one touch.
            self.assertEqual(gate.take(), codec.fault(codec.HALTED, 7, 1))
            self.assertEqual(gate.take(), codec.framed(">BBqI", codec.HOLDING, 1, 0, 1))
            self.assertEqual(gate.take(), b"")
        self.ends(server, 1)

    def test_a_gate_that_takes_no_answers_holds_up_no_end(self) -> None:
        server = self.failing(self.calls_of_making() + 5, lines=2)
        with server.connect() as deaf, server.connect() as gate:
            self.assertEqual(gate.ask(FIRST[0][0]), FIRST[0][1])
            deaf.socket.setblocking(False)
            asked = codec.enquiry(1) * 10_000
            try:
                for _ in range(1_000):
                    deaf.socket.send(asked)
                    time.sleep(0.001)
            except BlockingIOError:
                pass
            self.assertEqual(gate.ask(FIRST[1][0]), codec.fault(codec.HALTED, 7, 2))
            self.ends(server, 1)

    def test_a_gate_that_goes_on_asking_holds_up_no_end(self) -> None:
        server = self.failing(self.calls_of_making() + 5, lines=3)
        stop = threading.Event()

        def flood(gate: Gate) -> None:
            try:
                while not stop.is_set():
                    gate.send(codec.enquiry(1) * 1_000)
                    gate.socket.recv(1_000_000)
            except OSError:
                pass

        with server.connect() as first, server.connect() as second, server.connect() as gate:
            self.assertEqual(gate.ask(FIRST[0][0]), FIRST[0][1])
            floods = [threading.Thread(target=flood, args=(asks,)) for asks in (first, second)]
            for thread in floods:
                thread.start()
            time.sleep(0.2)
            self.assertEqual(gate.ask(FIRST[1][0]), codec.fault(codec.HALTED, 7, 2))
            self.ends(server, 1)
            stop.set()
            for thread in floods:
                thread.join(TIME)

    def test_a_halted_server_stays_where_that_is_asked_for(self) -> None:
        server = self.failing(self.calls_of_making() + 5, connections=3, more=["--stay-halted"])
        with server.connect() as gate:
            self.assertEqual(gate.ask(FIRST[0][0]), FIRST[0][1])
            self.assertEqual(gate.ask(FIRST[1][0]), codec.fault(codec.HALTED, 7, 2))
            # It is told at once.
            assert server.process.stderr, "a pipe"
            self.assertEqual(server.process.stderr.readline(), b"halted 1\n")
            self.assertEqual(server.process.stderr.readline().decode(),
                             f"  {self.folder}/journal: Input/output error\n")
            self.assertEqual(gate.ask(FIRST[1][0]), codec.fault(codec.HALTED, 7, 2))
        for _ in range(2):
            time.sleep(1.5)
            with server.connect() as gate:
                self.assertEqual(gate.ask(codec.enquiry(1)), codec.framed(">BBqI", codec.HOLDING, 1, 0, 1))
                self.assertEqual(gate.ask(FIRST[0][0]), codec.fault(codec.HALTED, 7, 1))
        status, out, err = server.end()
        self.assertEqual((status, out[-1], err), (1, "halted 1", ""))


class Rooms(NoticeTest):
    """A journal that is nearly full, and full."""

    def top_ups(self, count: int) -> list[bytes]:
        """So many touches of gate 7: an issue, and then top-ups of a penny."""
        return [codec.touch(codec.ISSUE, 7, 1, 1, MONDAY),
                *(codec.touch(codec.TOP_UP, 7, number, 1, 1, MONDAY) for number in range(2, count + 1))]

    def test_a_journal_is_told_nearly_full_and_full_once_each(self) -> None:
        for capacity, nearly in ((1, 1), (2, 2), (9, 9), (10, 9), (11, 10), (20, 18)):
            with self.subTest(capacity=capacity):
                (pathlib.Path(self.folder) / "journal").unlink(missing_ok=True)
                server = self.serve(capacity=capacity, lines=2)
                frames = self.top_ups(capacity)
                with server.connect() as gate, server.connect() as other:
                    for place, frame in enumerate(frames, 1):
                        self.assertEqual(gate.ask(frame)[2], codec.REPLY)
                        if place == nearly:
                            self.assertEqual(self.comes(server), f"nearly full {nearly}\n")
                    self.assertEqual(self.told(server), "")
                    late = codec.touch(codec.TOP_UP, 7, capacity + 1, 1, 1, MONDAY)
                    for asks in (gate, other, gate):
                        self.assertEqual(asks.ask(late), codec.fault(codec.FULL, 7, capacity + 1))
                    self.assertEqual(self.comes(server), f"full {capacity}\n")
                    # A repeat and an enquiry are answered, and nothing more is told.
                    self.assertEqual(gate.ask(frames[0])[2], codec.REPLY)
                    self.assertEqual(len(gate.ask(codec.enquiry(1))), 16)
                    self.assertEqual(self.told(server), "")
                server.kill()

    def test_each_start_tells_it_again_by_the_journals_own_capacity(self) -> None:
        server = self.serve(capacity=10, connections=1)
        frames = self.top_ups(10)
        with server.connect() as gate:
            for frame in frames:
                gate.ask(frame)
        self.assertEqual(server.end()[2], "nearly full 9\n")
        server = self.serve(capacity=1000, connections=1)
        with server.connect() as gate:
            self.assertEqual(gate.ask(frames[0])[2], codec.REPLY)
            self.assertEqual(gate.ask(codec.touch(codec.TOP_UP, 7, 11, 1, 1, MONDAY)), codec.fault(codec.FULL, 7, 11))
        self.assertEqual(server.end()[2], "nearly full 10\nfull 10\n")

    def fill(self, file: int) -> None:
        """Fills a pipe."""
        flags = fcntl.fcntl(file, fcntl.F_GETFL)
        fcntl.fcntl(file, fcntl.F_SETFL, flags | os.O_NONBLOCK)
        try:
            while True:
                os.write(file, b"x" * 4096)
        except OSError as error:
            self.assertEqual(error.errno, errno.EAGAIN)
        fcntl.fcntl(file, fcntl.F_SETFL, flags)

    def words(self, address: tuple[str, int]) -> list[str]:
        return ["serve", "--table", str(EXAMPLE), "--journal", f"{self.folder}/journal", "--cards", "10", "--capacity",
                "4", "--listen", "%s:%d" % address, "--lines", "1", "--connections", "1"]

    def connected(self, address: tuple[str, int]) -> Gate:
        """A gate's connection, once the server listens."""
        for _ in range(1000):
            try:
                return Gate(address)
            except OSError:
                time.sleep(0.02)
        raise AssertionError("nobody listens")

    def assert_full_and_ended(self, server: subprocess.Popen[bytes], address: tuple[str, int]) -> None:
        with self.connected(address) as gate:
            begun = time.monotonic()
            for asked, answered in FIRST:
                self.assertEqual(gate.ask(asked), answered)
            self.assertEqual(gate.ask(codec.touch(codec.TOP_UP, 7, 5, 1, 1, MONDAY)), codec.fault(codec.FULL, 7, 5))
            self.assertLess(time.monotonic() - begun, SOON)
        self.assertEqual(server.wait(TIME), 0)

    def free_address(self) -> tuple[str, int]:
        return "127.0.0.1", harness.free_port()

    def test_standard_error_that_nobody_reads_holds_up_no_touch(self) -> None:
        reads, writes = os.pipe()
        address = self.free_address()
        server = subprocess.Popen([PROGRAM, *self.words(address)], stdin=subprocess.DEVNULL, stdout=subprocess.DEVNULL,
                                  stderr=writes)
        self.addCleanup(server.kill)
        with open(reads, "rb", buffering=0, closefd=False) as pipe:
            self.assertTrue(harness.first_line(pipe).startswith("listening "))
        self.fill(writes)
        self.assert_full_and_ended(server, address)
        os.close(writes)
        with open(reads, "rb") as pipe:
            self.assertEqual(set(pipe.read()), {ord("x")})

    def test_a_closed_standard_error_holds_up_no_touch(self) -> None:
        address = self.free_address()
        words = " ".join(self.words(address))
        server = subprocess.Popen(["sh", "-c", f"exec {PROGRAM} {words} 2>&-"], stdin=subprocess.DEVNULL,
                                  stdout=subprocess.DEVNULL, stderr=subprocess.DEVNULL)
        self.addCleanup(server.kill)
        self.assert_full_and_ended(server, address)
        self.assertEqual(self.recorded(), [asked for asked, _ in FIRST])

    def test_no_notice_goes_to_a_gate_where_standard_streams_are_closed(self) -> None:
        """A connection would else have the number of a closed stream: the program holds those itself."""
        late = codec.touch(codec.TOP_UP, 7, 5, 1, 1, MONDAY)
        whole = [*FIRST, (late, codec.fault(codec.FULL, 7, 5)), FIRST[0]]
        for numbers in ((2,), (0, 2), (1, 2), (0, 1, 2), (0,), (1,)):
            closed = " ".join(f"{number}>&-" for number in numbers)
            with self.subTest(closed):
                (pathlib.Path(self.folder) / "journal").unlink(missing_ok=True)
                address = self.free_address()
                words = " ".join([*self.words(address), "--lines", "2"]).replace("--lines 1 ", "")
                server = subprocess.Popen(["sh", "-c", f"exec {PROGRAM} {words} {closed}"], stdin=subprocess.DEVNULL,
                                          stdout=subprocess.DEVNULL, stderr=subprocess.DEVNULL)
                self.addCleanup(server.kill)
                with self.connected(address) as gate, self.connected(address) as other:
                    other.send(codec.enquiry(1))
                    # A touch is answered by a journal that is nearly full, and a further one by a full one.
                    got = [gate.ask(asked) for asked, _ in whole]
                    held = other.take()
                    streams = [os.readlink(f"/proc/{server.pid}/fd/{number}") for number in numbers]
                    for asks in (gate, other):
                        asks.socket.shutdown(socket.SHUT_WR)
                    # Nothing else comes before the connection ends.
                    self.assertEqual((gate.read(1000), other.read(1000)), (b"", b""))
                self.assertEqual(got, [answered for _, answered in whole])
                self.assertEqual(len(held), 16)
                self.assertEqual(streams, ["/dev/null"] * len(streams))
                self.assertEqual(server.wait(TIME), 0)
                self.assertEqual(self.recorded(), [asked for asked, _ in FIRST])


class Threads(NoticeTest):
    """A server that the system makes too few threads for."""

    def size(self, lines: int) -> int:
        """How much address space a server with so many lines takes, once it serves."""
        server = self.serve(lines=lines)
        self.asked_all(server, FIRST[:1])
        # Its threads are all there once it takes no more.
        sizes = [self.address_space(server)]
        while len(sizes) < 5 or len(set(sizes[-5:])) > 1:
            time.sleep(0.1)
            sizes.append(self.address_space(server))
        server.kill()
        return sizes[-1]

    def address_space(self, server: Server) -> int:
        status = pathlib.Path(f"/proc/{server.process.pid}/status").read_text().split()
        return 1024 * int(status[status.index("VmSize:") + 1])

    def test_lines_without_a_thread_are_told(self) -> None:
        lines = 40
        most = (self.size(1) + self.size(lines)) // 2
        server = self.serve(lines=lines, preexec_fn=lambda: resource.setrlimit(resource.RLIMIT_AS, (most, most)))
        with server.connect() as gate:
            self.assertEqual(gate.ask(FIRST[0][0]), FIRST[0][1])
            time.sleep(1.2)
            self.assertEqual(gate.ask(FIRST[1][0]), FIRST[1][1])
            assert server.process.stderr, "a pipe"
            said = server.process.stderr.readline().decode().split()
            self.assertEqual((said[0], said[2:]), ("lines", ["of", str(lines)]))
            served = int(said[1])
            self.assertTrue(1 <= served < lines, said)
            # So many gates are served at once, and one more waits until one of them has gone.
            others = [server.connect() for _ in range(served - 1)]
            for other in others:
                self.assertEqual(len(other.ask(codec.enquiry(1))), 16)
            others.append(server.connect())
            others[-1].send(codec.enquiry(1))
            others[-1].socket.settimeout(0.5)
            with self.assertRaises(TimeoutError):
                others[-1].take()
        others[-1].socket.settimeout(TIME)
        self.assertEqual(len(others[-1].take()), 16)
        for other in others:
            other.socket.close()
        server.process.terminate()
        # On a busy machine the gate that waited may have done so at two looks, a second apart.
        self.assertRegex(server.end()[2], rf"\A(all lines taken {served}\n(lines free\n)?)?\Z")

    def test_lines_that_all_serve_are_not_told(self) -> None:
        server = self.serve(lines=40)
        time.sleep(1.2)
        with server.connect() as gate, server.connect() as other:
            for asks in (gate, other, gate):
                self.assertEqual(asks.ask(FIRST[0][0]), FIRST[0][1])
        server.process.terminate()
        self.assertEqual(server.end()[2], "")


class Waiting(NoticeTest):
    """Gates that wait for a line."""

    def connected(self, server: Server) -> Gate:
        """A gate that asks for a card, whether or not it is answered yet."""
        gate = server.connect()
        self.addCleanup(gate.socket.close)
        gate.send(codec.enquiry(1))
        return gate

    def assert_taken_and_free(self, server: Server, leaves: Gate, waits: Gate, lines: int) -> None:
        """A gate waits: that is told once. Another one leaves, and it is served: that is told as well."""
        self.assertEqual(self.comes(server), f"all lines taken {lines}\n")
        time.sleep(1.5)
        self.assertEqual(self.told(server), "")
        leaves.socket.close()
        self.assertEqual(len(waits.take()), 16)
        self.assertEqual(self.comes(server), "lines free\n")

    def test_all_lines_taken_is_told_while_a_gate_waits(self) -> None:
        server = self.serve(lines=2)
        first, second = (self.connected(server) for _ in range(2))
        self.assertEqual((len(first.take()), len(second.take())), (16, 16))
        time.sleep(2.5)
        self.assertEqual(self.told(server), "")
        third = self.connected(server)
        self.assert_taken_and_free(server, first, third, 2)
        self.assert_taken_and_free(server, third, self.connected(server), 2)
        server.process.terminate()
        self.assertEqual(server.end()[2], "")

    def test_a_silent_gate_takes_a_line(self) -> None:
        server = self.serve()
        silent = server.connect()
        self.addCleanup(silent.socket.close)
        time.sleep(0.2)
        self.assert_taken_and_free(server, silent, self.connected(server), 1)


class Clocks(NoticeTest):
    """Gates whose clocks are wrong."""

    def test_a_gate_whose_clock_is_ahead_is_told_once(self) -> None:
        issue, top_up = codec.ISSUE, codec.TOP_UP
        far = "ahead 9 2099-01-02\n"
        # A touch, whether it is accepted, and what is told at it.
        touches = [(codec.touch(issue, 9, 1, 2, FAR), True, ""), (codec.touch(issue, 7, 1, 1, MONDAY), True, far),
                   (codec.touch(top_up, 9, 2, 2, 1, FAR), True, ""), (codec.touch(top_up, 8, 1, 1, 1, MONDAY), True, ""),
                   (codec.touch(codec.ENTER, 8, 2, 3, 2, 4294967295), False, ""),
                   (codec.touch(top_up, 8, 3, 1, 1, 4294967295), True, "ahead 8 2106-02-07\n")]
        server = self.serve(lines=2)
        self.assert_told(server, touches)
        server.process.terminate()
        self.assertEqual(server.end()[2], "")
        # What the journal held before counts neither by itself nor by its repeats.
        server = self.serve(lines=2)
        self.assert_told(server, [(asked, accepted, "") for asked, accepted, _ in touches])
        self.assert_told(server, [(codec.touch(top_up, 7, 2, 1, 1, MONDAY), True, ""),
                                  (codec.touch(top_up, 9, 3, 2, 1, FAR), True, far)])

    def assert_told(self, server: Server, touches: Sequence[tuple[bytes, bool, str]]) -> None:
        for asked, accepted, line in touches:
            with server.connect() as gate:
                answer = gate.ask(asked)
            self.assertEqual((answer[2], answer[9] < 20), (codec.REPLY, accepted))
            self.assertEqual(self.comes(server) if line else self.told(server), line)


class Reports(NoticeTest):
    """How a server stands."""

    def test_how_it_stands_is_told_each_so_many_seconds(self) -> None:
        server = self.serve(lines=2, more=["--report", "2"])
        with server.connect() as gate:
            for asked, answered in FIRST:
                self.assertEqual(gate.ask(asked), answered)
            time.sleep(1.5)
            begun = time.monotonic()
            self.told(server)
            time.sleep(5)
            lines = self.told(server).splitlines()
            seconds = time.monotonic() - begun
        self.assertEqual(set(lines), {"touches 4 room 996 taken 1 of 2 connections 1"})
        self.assertIn(len(lines), range(1, int(seconds / 2) + 2))

    def test_nothing_is_reported_where_nobody_asks(self) -> None:
        server = self.serve(lines=2)
        self.asked_all(server)
        time.sleep(3)
        self.assertEqual(self.told(server), "")


class Slow(NoticeTest):
    """Gates that are slow, and gates whose program is wrong."""

    def test_a_request_that_is_not_whole_in_time_ends_its_connection(self) -> None:
        server = self.serve(more=["--idle", "2"])
        with server.connect() as gate:
            begun = time.monotonic()
            with self.assertRaises((ConnectionError, TimeoutError)):
                for place in range(len(FIRST[0][0])):
                    gate.send(FIRST[0][0][place:place + 1])
                    gate.socket.settimeout(0.3)
                    try:
                        if gate.socket.recv(1) == b"":
                            raise ConnectionError
                    except TimeoutError:
                        pass
            self.assertTrue(1.5 < time.monotonic() - begun < SOON)
        server.kill()
        # A gate that sends whole requests may go on as long as it likes.
        with self.serve(more=["--idle", "6"]).connect() as gate:
            for asked, answered in FIRST:
                time.sleep(1.5)
                gate.send(asked[:5])
                time.sleep(0.3)
                gate.send(asked[5:])
                self.assertEqual(gate.take(), answered)

    def test_an_answer_to_bad_bytes_is_read_whatever_comes_behind_them(self) -> None:
        server = self.serve(lines=2)
        for behind in (1, 1_000, 300_000):
            with server.connect() as gate:
                gate.send(bytes.fromhex("001106"))
                select.select([gate.socket], [], [], TIME)
                gate.send(b"\0" * behind)
                time.sleep(0.2)
                self.assertEqual((gate.take(), gate.take()), (codec.fault(codec.BAD_FRAME), b""))
        # A gate that goes on sending holds its line for a second.
        with server.connect() as loud, server.connect() as other:
            loud.send(bytes.fromhex("001106"))
            begun = time.monotonic()
            with self.assertRaises(OSError):
                while time.monotonic() - begun < SOON:
                    loud.send(b"\0")
                    time.sleep(0.05)
            self.assertTrue(0.5 < time.monotonic() - begun < SOON)
            self.assertEqual(other.ask(FIRST[0][0]), FIRST[0][1])

    def test_lines_go_on_where_no_number_of_connections_is_named(self) -> None:
        server = self.serve(lines=2)
        wrong: list[Gate] = []

        def drive() -> None:
            for _ in range(500):
                with server.connect() as gate:
                    if gate.ask(FIRST[0][0]) != FIRST[0][1]:
                        wrong.append(gate)

        drivers = [threading.Thread(target=drive) for _ in range(2)]
        for driver in drivers:
            driver.start()
        for driver in drivers:
            driver.join(TIME)
        self.assertEqual((wrong, server.process.poll()), ([], None))
        server.process.terminate()
        status, out, err = server.end()
        self.assertEqual((status, out), (-15, ["opened 0"]))
        # A gate that is quicker than the line of the one before it may wait at two looks, a second apart.
        self.assertLessEqual(set(err.splitlines()), {"all lines taken 2", "lines free"})
