"""The tests of cancelled calls, for scripts/tests/test_gate_library.py: a signal's handler or another thread ends a call
that waits for a server (docs/reference/GATE_LIBRARY.md, "To end a call that waits")."""
import contextlib
import errno
import os
import pathlib
import random
import re
import signal
import socket
import subprocess
import threading
import time
import unittest
from collections.abc import Iterator, Sequence

import clients
from bovtrila import codec, vector_file, wire
from clients import CAUSE, CLIENT, FIRST, RESULT, SOURCE, Asker, Careful, GateTest, Line, journey
from harness import TIME, TOP
from listening import Door

# What the asker does at a signal: it cancels in its handler, or in a thread that waits for the signal.
WAYS = {"a handler": signal.SIGUSR1, "a thread": signal.SIGUSR2}
# A call that isn't cancelled takes this long.
LIMIT = 60_000
CANCELLED = [RESULT["CANCELLED"], 1, 0, 0, 0, 0]
# The answer to an enquiry that was cancelled.
NOT_SHOWN = [RESULT["CANCELLED"], 0, 0, 0, 0]
# More cancels than the library's sockets hold.
MANY = 2000


class Holding:
    """A server over the model that records each touch when it comes, and sends its answer when the test asks for it."""

    def __init__(self, test: unittest.TestCase) -> None:
        self.station, self.came = vector_file.read()[0].model(), threading.Condition()
        self.asked: list[bytes] = []
        self.answers: list[bytes] = []
        self.lines: list[socket.socket] = []
        self.ended: list[socket.socket] = []
        door = Door(self.serve)
        self.text = door.text
        test.addCleanup(door.shut)

    def serve(self, line: socket.socket) -> None:
        with line, contextlib.suppress(OSError):
            while len(head := line.recv(2, socket.MSG_WAITALL)) == 2:
                frame = head + line.recv(wire.number_at(head, 0, 2), socket.MSG_WAITALL)
                with self.came:
                    self.asked.append(frame)
                    self.answers.append(self.station.answer(frame))
                    self.lines.append(line)
                    self.came.notify_all()
        self.ended.append(line)

    def wait_for(self, count: int) -> None:
        """Waits until so many requests have come."""
        with self.came:
            assert self.came.wait_for(lambda: len(self.asked) >= count, TIME), f"{len(self.asked)} requests came"

    def send(self, place: int) -> None:
        """Answers a request. The gate may have closed its connection."""
        with contextlib.suppress(OSError):
            self.lines[place].sendall(self.answers[place])

    def has_ended(self, place: int) -> bool:
        return clients.wait_for(lambda: self.lines[place] in self.ended)


def is_asleep(process: subprocess.Popen[str]) -> bool:
    """Whether the first thread of a process waits for something."""
    return pathlib.Path(f"/proc/{process.pid}/stat").read_text().rpartition(")")[2].split()[0] == "S"


def is_connecting(process: subprocess.Popen[str]) -> bool:
    """Whether a process waits for a connection to be made."""
    rows = [line.split() for line in pathlib.Path("/proc/net/tcp").read_text().split("\n")[1:-1]]
    waiting = {f"socket:[{row[9]}]" for row in rows if row[3] == "02"}
    held: set[str] = set()
    folder = f"/proc/{process.pid}/fd"
    for name in os.listdir(folder):
        with contextlib.suppress(OSError):
            held.add(os.readlink(f"{folder}/{name}"))
    return bool(waiting & held)


class Cancels(GateTest):
    """Calls that are cancelled while they wait, and before."""

    @contextlib.contextmanager
    def opened(self, server: str | Sequence[str], limit: int = LIMIT, backoff: int = 1) -> Iterator[Asker]:
        """A gate whose calls may be cancelled in either way."""
        with self.open(server, times=(limit, limit, backoff, max(4, backoff))) as asker:
            self.assertEqual((asker.opened, asker.ask("watch")), ([CAUSE["OK"], 0, 0], [1]))
            yield asker
            # A sanitizer that finds a fault ends it by another status.
            self.assertEqual(asker.end(), 0)

    def new_file(self) -> None:
        self.file.unlink(missing_ok=True)
        self.create()

    def cancelled(self, asker: Asker, way: str, limit: int) -> Line:
        """What a call that waits returns once it is cancelled, long before its time is over."""
        self.assertTrue(clients.wait_for(lambda: is_asleep(asker.process)))
        begun = time.monotonic()
        asker.process.send_signal(WAYS[way])
        told = asker.line()
        self.assertLess(time.monotonic() - begun, limit / 2000)
        return told

    def check_kept(self, asker: Asker, frame: bytes = FIRST[0]) -> None:
        """The touch is in the file, and waits."""
        self.assertEqual(self.file.read_bytes(), clients.file_of([frame], 1000, 7))
        self.assertEqual((asker.ask("error"), asker.ask("waiting")[:2]), ([errno.ECANCELED], [frame[2], 1]))

    def check_answer(self, way: str, limit: int = LIMIT) -> None:
        """A touch and its repeat wait for a silent server. The touch is recorded once, and its reply comes at last."""
        self.new_file()
        server = Holding(self)
        with self.opened(server.text, limit) as asker:
            for count, line in enumerate((clients.act_of(FIRST[0]), "resend"), 1):
                asker.write(line)
                server.wait_for(count)
                self.assertEqual(self.cancelled(asker, way, limit), CANCELLED)
                self.check_kept(asker)
                self.assertTrue(server.has_ended(count - 1))
                self.assertEqual(asker.ask("clear"), [1])
            asker.write("resend")
            server.wait_for(3)
            server.send(2)
            self.assertEqual(asker.line(), clients.worked_out(FIRST[:1])[0])
            self.assertEqual(asker.ask("resend")[0], RESULT["NONE_WAITS"])
        self.assertEqual((server.asked, server.station.history), (FIRST[:1] * 3, FIRST[:1]))

    def test_a_call_that_waits_for_an_answer_is_cancelled(self) -> None:
        for way in WAYS:
            with self.subTest(way):
                self.check_answer(way)

    def check_late_answer(self, way: str) -> None:
        """The answer to a cancelled enquiry comes when the next one waits. No answer to an enquiry names its card."""
        self.new_file()
        server = Holding(self)
        for frame in FIRST[:2]:
            server.station.answer(frame)
        with self.opened(server.text) as asker:
            asker.write("enquire 1")
            server.wait_for(1)
            self.assertEqual(self.cancelled(asker, way, LIMIT), NOT_SHOWN)
            self.assertEqual((asker.ask("waiting"), asker.ask("clear")), ([], [1]))
            asker.write("enquire 2")
            server.wait_for(2)
            server.send(0)
            server.send(1)
            self.assertEqual(asker.line(), [RESULT["SHOWN"], 0, 0, 0, 2])
        self.assertNotEqual(*server.answers)

    def test_an_answer_that_comes_after_a_cancel_is_not_taken_for_the_next_one(self) -> None:
        for way in WAYS:
            with self.subTest(way):
                self.check_late_answer(way)

    def check_repeat(self, way: str, limit: int = LIMIT) -> None:
        """A call that waits before its next repeat, since the server has hung up."""
        self.new_file()
        ended = threading.Event()

        def hang_up(connection: socket.socket) -> None:
            with connection, contextlib.suppress(OSError):
                connection.recv(100)
                connection.shutdown(socket.SHUT_WR)
                while connection.recv(100):
                    pass
            ended.set()

        with Door(hang_up) as door, self.opened(door.text, limit, 10 * limit) as asker:
            asker.write(clients.act_of(FIRST[0]))
            self.assertTrue(ended.wait(TIME))
            self.assertEqual(self.cancelled(asker, way, limit), CANCELLED)
            self.check_kept(asker)

    def test_a_call_that_waits_before_a_repeat_is_cancelled(self) -> None:
        for way in WAYS:
            with self.subTest(way):
                self.check_repeat(way)

    def check_connecting(self, way: str, limit: int = LIMIT) -> None:
        """A call whose connection isn't made, since others fill the queue of the server."""
        self.new_file()
        with contextlib.ExitStack() as stack:
            listening = stack.enter_context(socket.socket())
            listening.bind(("127.0.0.1", 0))
            listening.listen(0)
            for _ in range(4):
                other = stack.enter_context(socket.socket())
                other.setblocking(False)
                other.connect_ex(listening.getsockname())
            asker = stack.enter_context(self.opened(clients.address_text(listening.getsockname()), limit))
            asker.write(clients.act_of(FIRST[0]))
            self.assertTrue(clients.wait_for(lambda: is_connecting(asker.process)))
            self.assertEqual(self.cancelled(asker, way, limit), CANCELLED)
            self.assertFalse(is_connecting(asker.process))
            self.check_kept(asker)

    def test_a_call_that_waits_for_a_connection_is_cancelled(self) -> None:
        for way in WAYS:
            with self.subTest(way):
                self.check_connecting(way)

    def check_before(self, limit: int = LIMIT) -> None:
        """Each call after a cancel ends at once and sends nothing, until the cancel is cleared."""
        self.new_file()
        server = Holding(self)
        with self.opened(server.text, limit) as asker:
            self.assertEqual(asker.ask("cancel"), [1])
            self.assertEqual(asker.ask(clients.act_of(FIRST[0])), CANCELLED)
            self.check_kept(asker)
            self.assertEqual(asker.ask("resend"), CANCELLED)
            self.assertEqual(asker.ask("enquire 1"), NOT_SHOWN)
            self.assertEqual(asker.ask(clients.act_of(FIRST[1])), [RESULT["EARLIER_WAITS"], 0, 0, 0, 0, 0])
            self.check_kept(asker)
            self.assertEqual((server.asked, asker.ask("clear")), ([], [1]))
            asker.write("resend")
            server.wait_for(1)
            server.send(0)
            self.assertEqual(asker.line(), clients.worked_out(FIRST[:1])[0])
        self.assertEqual((server.asked, server.station.history), (FIRST[:1], FIRST[:1]))

    def test_a_cancel_before_a_call_holds_until_it_is_cleared(self) -> None:
        self.check_before()

    def test_a_signal_that_comes_while_no_call_is_under_way_ends_the_next_one(self) -> None:
        self.new_file()
        server = Holding(self)
        with self.opened(server.text) as asker:
            # The asker waits for a line, and its handler runs before it reads one.
            self.assertTrue(clients.wait_for(lambda: is_asleep(asker.process)))
            asker.process.send_signal(signal.SIGUSR1)
            self.assertEqual(asker.ask("enquire 1"), NOT_SHOWN)
        self.assertEqual(server.asked, [])

    def check_many(self) -> None:
        self.new_file()
        server = self.planted()
        with self.opened(server.text) as asker:
            self.assertEqual((asker.ask("clear"), asker.ask("enquire 1")[0]), ([1], RESULT["SHOWN"]))
            for _ in range(MANY):
                self.assertEqual(asker.ask("cancel"), [1])
            # The library's sockets are full: a handler leaves errno alone there too.
            asker.process.send_signal(signal.SIGUSR1)
            self.assertEqual((asker.ask("enquire 1"), asker.ask("clear")), (NOT_SHOWN, [1]))
            self.assertEqual(asker.ask("enquire 1")[0], RESULT["SHOWN"])

    def test_any_number_of_cancels_is_cleared_at_once(self) -> None:
        self.check_many()

    def check_any_moment(self, cancels: int = 200) -> None:
        """Touches whose calls are cancelled at moments that are drawn: each is recorded once and gets its reply."""
        self.new_file()
        frames, server = journey(7, [1]), self.planted()
        asking = Careful(frames)
        with self.opened(server.text) as asker:
            often = Often(asker, cancels)
            asking.run(often)
        self.assertGreater(often.cancelled, 0)
        self.assertEqual((server.station.history, asking.told()), (frames, clients.worked_out(frames)))
        self.assertEqual(self.file.read_bytes(), clients.file_of(frames, 1000, 7))

    def test_cancels_at_any_moment_lose_nothing(self) -> None:
        self.check_any_moment()

    def test_a_gate_without_addresses_is_not_cancelled(self) -> None:
        # Its calls wait for nothing, and return as ever.
        self.new_file()
        with self.opened([]) as asker:
            self.assertEqual((asker.ask("cancel"), asker.ask("clear"), asker.ask("cancel")), ([1], [1], [1]))
            self.assertEqual(asker.ask(f"keep-{clients.act_of(FIRST[0])}"), [RESULT["KEPT"], 1, 0, 0, 0, 0])
            self.assertEqual(asker.ask("resend"), [RESULT["NO_ANSWER"], 1, 0, 0, 0, 0])
            self.assertEqual(asker.ask(f"hear {clients.replied_to(FIRST[0]).hex()}")[0], RESULT["ACCEPTED"])

    def test_what_the_system_refuses_is_told(self) -> None:
        library, server = clients.program("calls"), self.planted()
        self.new_file()
        log = clients.Log(library)
        with self.open(server.text, **log.options()) as asker:
            self.assertEqual((asker.ask("cancel"), asker.ask("clear")), ([1], [1]))
        numbers = {name: log.numbers(name)[0] for name in ("socketpair", "send", "recv")}

        def refusing(**more: int) -> Asker:
            return self.open(server.text, **clients.Log(library, **more).options())

        with refusing(REFUSE=numbers["socketpair"]) as asker:
            self.assertEqual(asker.opened, [CAUSE["DEVICE"], 0, errno.EMFILE])
        with refusing(REFUSE=numbers["send"], ERROR=errno.ENOMEM) as asker:
            self.assertEqual((asker.ask("cancel"), asker.ask("enquire 1")[0]), ([0], RESULT["SHOWN"]))
            self.assertEqual((asker.ask("cancel"), asker.ask("enquire 1")), ([1], NOT_SHOWN))
        with refusing(REFUSE=numbers["recv"], ERROR=errno.EIO) as asker:
            self.assertEqual((asker.ask("cancel"), asker.ask("clear"), asker.ask("error")), ([1], [0], [errno.EIO]))
            self.assertEqual((asker.ask("enquire 1"), asker.ask("clear")), (NOT_SHOWN, [1]))
            self.assertEqual(asker.ask("enquire 1")[0], RESULT["SHOWN"])
        with refusing(INTERRUPT=1) as asker:
            self.assertEqual((asker.ask("cancel"), asker.ask("enquire 1"), asker.ask("clear")), ([1], NOT_SHOWN, [1]))
            self.assertEqual(asker.ask("enquire 1")[0], RESULT["SHOWN"])

    def test_no_descriptor_passes_to_another_program(self) -> None:
        self.new_file()
        with self.open(self.planted().text) as asker:
            self.assertEqual(asker.ask("enquire 1")[0], RESULT["SHOWN"])
            folder, own = pathlib.Path(f"/proc/{asker.process.pid}/fdinfo"), 0
            for each in folder.iterdir():
                if int(each.name) > 2:
                    [digits] = re.findall(r"(?m)^flags:\s+(\d+)$", each.read_text())
                    flags = int(digits, 8)
                    self.assertTrue(flags & os.O_CLOEXEC, each.name)
                    own += 1
        # The gate's file, the connection, and the two sockets of cancels.
        self.assertEqual(own, 4)

    def test_the_example_of_the_page_ends_at_a_signal_and_leaves_its_touch(self) -> None:
        page = (TOP / "docs" / "reference" / "GATE_LIBRARY.md").read_text()
        source = self.folder / "example.c"
        shown = re.search(r"## To end a call that waits\n.*?```c\n(.*?)```", page, re.S)
        assert shown, "the page has an example"
        source.write_text(shown[1])
        program = clients.built(self.folder / "example", [source, SOURCE], include=CLIENT)
        server, frame = Holding(self), codec.touch(codec.ENTER, 7, 1, 3, 2, 0)
        self.new_file()
        # Of its two cards the second is never asked for.
        gate = subprocess.Popen([program, self.file, server.text, "3", "4"], stdout=subprocess.PIPE, text=True)
        self.addCleanup(gate.communicate)
        self.addCleanup(gate.kill)
        server.wait_for(1)
        self.assertTrue(clients.wait_for(lambda: is_asleep(gate)))
        gate.terminate()
        assert gate.stdout, "a pipe"
        self.assertEqual((gate.stdout.read(), gate.wait(TIME)), ("closed: cancelled\n", 0))
        # All but the moment, which is that of the example's clock.
        self.assertEqual([asked[:-4] for asked in server.asked], [frame[:-4]])
        self.assertEqual(self.file.read_bytes(), clients.file_of(server.asked, 1000, 7))
        with self.open(server.text) as asker:
            self.assertEqual(asker.ask("waiting")[:3], [codec.ENTER, 1, 3])


class Often:
    """An asker of which so many calls are cancelled, each at a moment that is drawn."""

    def __init__(self, asker: Asker, cancels: int) -> None:
        self.asker, self.opened, self.left, self.cancelled = asker, asker.opened, cancels, 0
        self.draw = random.Random(52)

    def ask(self, line: str) -> Line:
        self.asker.write(line)
        if self.left > 0 and line != "waiting":
            self.left -= 1
            time.sleep(self.draw.choice((0, 0.0002, 0.001, 0.004)) * self.draw.random())
            self.asker.process.send_signal(self.draw.choice(list(WAYS.values())))
        told = self.asker.line()
        if told and told[0] == RESULT["CANCELLED"]:
            self.cancelled += 1
            self.asker.ask("clear")
        return told
