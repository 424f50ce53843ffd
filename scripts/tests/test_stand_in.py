"""Tests what bovtrila-stand-in finds of gates (docs/reference/PROTOCOL.md, "Faults", "To give a touch up", "After a gate's
start" and "When to repeat, and how often"): a right gate is found right, and a wrong one wrong.

The tests play the gates over connections on 127.0.0.1. In most of them the stand-in runs in the test's own process, so that
a test knows which requests it has read. scripts/tests/standpipes.py runs the command.
"""
import contextlib
import re
import socket
import struct
import threading
import unittest
from collections.abc import Iterable, Sequence
from unittest import mock

from bovtrila import codec, wire
from bovtrila.commands import stand_in
from harness import TIME, TOP
from standing_in import ACCEPTED, MARK, MARK_LINE, MORNING, REFUSED, Within, travel, words
from standpipes import Command  # noqa: F401

PAGE = (TOP / "docs/reference/PROTOCOL.md").read_text()
# The steps after which the stand-in closes the connection.
CLOSES = re.compile(r"cut .*|close|fault 1|bytes 0008ff01000000000000")


class Settled(unittest.TestCase):
    """After which answers a gate has to send a touch again."""

    def play(self, *rows: str, opens: Iterable[int] = ()) -> list[str]:
        """What the stand-in finds of a gate that sends a touch once for each step of a row, and then goes on with the touch
        of the next row. They have the numbers from 1 on, and it opens its barrier for some of them. OWN stands for the gate
        and the number of the touch."""
        rows = tuple(row.replace("OWN", struct.pack(">HI", 7, number).hex()) for number, row in enumerate(rows, 1))
        lines = [[line.strip() for line in row.split("|")] for row in rows]
        text = "".join(f"{line}\n" + MARK_LINE * (CLOSES.fullmatch(line) is None) for row in lines for line in row)
        station = Within(self, text)
        for number, row in enumerate(lines, 1):
            for line in row:
                with station.connect() as gate:
                    gate.send(travel(number, MORNING + number), codec.enquiry(1))
                    said = b""
                    while not said.endswith(MARK) and (more := self.more(gate)):
                        said += more
        station.tell(*(f"7 {number}" for number in opens))
        return station.faults()

    def more(self, gate: wire.Connection) -> bytes:
        with contextlib.suppress(ConnectionError):
            return gate.socket.recv(100)
        return b""

    def check_wrong(self, rows: Sequence[tuple[str, str]]) -> None:
        self.assertEqual(self.play(*(row for row, _ in rows)), [
            f"gate 7 number {number}: the last that it had was {state}, and it wasn't sent again"
            for number, (_, state) in enumerate(rows, 1)])

    def test_a_touch_with_its_reply_or_a_lasting_fault_need_not_be_sent_again(self) -> None:
        own = "0014 81 OWN 18 00000000 0000000000000000"
        self.assertEqual(self.play(
            "answer", "reply 24 0 0", "fault 2", "fault 5", "fault 6", "fault 7", "fault 3 | answer", "fault 4 | fault 7",
            "fault 9 | fault 200 | answer", "silence | fault 5", "close | answer", "another answer | answer",
            "another fault 7 | fault 7", "holding 1 5 5 | answer", "fault 1 | answer", "fault 1 | fault 7",
            "fault 1 | fault 1", "fault 1 | silence | fault 1",
            # Whole answers, however they are sent, and whatever follows them.
            "cut 22 answer", "cut 100 answer", "cut 10 fault 7", f"bytes {own}", f"bytes {own} 00ff", f"bytes {own} {own}",
            "bytes 0008 ff 07 OWN", "bytes 0008 ff 02 OWN 0008 ff 03 OWN",
            "bytes 0008ff01000000000000 | bytes 0008ff01000000000000"), [])

    def test_after_another_fault_a_touch_that_is_not_sent_again_is_found(self) -> None:
        rows = [(f"fault {code}", words(code)) for code in (0, 1, 3, 4, 8, 9, 10, 200)]
        rows += [("fault 7 | fault 3", words(3)), ("fault 1 | fault 3", words(3)), ("fault 3 | fault 3", words(3)),
                 ("fault 3 | fault 1", words(1)), ("fault 2 | fault 9", words(9)), ("cut 10 fault 4", words(4)),
                 ("bytes 0008 ff 03 OWN", words(3)), ("bytes 0008ff01000000000000", words(1)),
                 ("bytes 0008 ff 03 OWN 0008 ff 07 OWN", words(3))]
        self.check_wrong(rows)

    def test_without_an_answer_to_this_touch_it_has_to_be_sent_again(self) -> None:
        own = "14 81 OWN 18 00000000 0000000000000000"
        rows = ("silence", "close", "fault 7 | silence", "fault 2 | close", "fault 1 | fault 1 | silence",
                "holding 1 5 5", "fault 7 | holding 0 0 0", "another answer", "another fault 7", "another fault 2",
                "cut 0 answer", "cut 21 answer", "cut 9 fault 7", "cut 9 fault 5",
                # Another gate, another number, a part, another kind or length, and bytes before the answer.
                "bytes 0014 81 0008 00000014 18 00000000 0000000000000000", "bytes 0008 ff 07 0007 00000063",
                "bytes 00", "bytes 0008 ff 07 0007", "bytes 0014 82 OWN 18 00000000 0000000000000000",
                "bytes 0015 81 OWN 18 00000000 0000000000000000 00", "bytes 0009 ff 07 OWN 00", f"bytes ff00 {own}",
                # Fault 1 has no gate and number, another fault has them, and an enquiry answer may have such bytes.
                "bytes 0008 ff 01 OWN", "bytes 0008 ff 07 000000000000", "bytes 000e 85 OWN 000000 00000001")
        self.check_wrong([(row, "no answer") for row in rows])

    def test_the_situations_of_the_page(self) -> None:
        """A gate that sends its touch once for each line of a row is right, and one that stops before the last line isn't,
        but after fault 7. It opens its barrier exactly on a reply below 20."""
        table = PAGE.partition("\n### Situations to try\n")[2].partition("\n| Lines |")[2].partition("\n\n")[0]
        # This gate waits for no late answer: it closes the connection.
        rows = [[line.replace("late 5 answer", "close") for line in re.findall("`([^`]+)`", row.split("|")[1])]
                for row in table.splitlines()[2:]]
        self.assertEqual(len(rows), 8)
        opens = [number for number, row in enumerate(rows, 1) if row[-1] in ("reply 1 -900 1100", "reply 12 0 0")]
        self.assertEqual(self.play(*map(" | ".join, rows), opens=opens), [])
        longer = [" | ".join(row[:-1]) for row in rows if len(row) > 1 and row[0] != "fault 7"]
        self.assertEqual(len(self.play(*longer)), len(longer))

    def test_a_gate_that_goes_on_under_a_new_number_is_found(self) -> None:
        for code, is_wrong in ((1, True), (3, True), (4, True), (9, True), (200, True), (2, False), (7, False)):
            with self.subTest(code):
                station = Within(self, f"fault {code}\nreply 24 0 0\n")
                station.ask(travel(1), travel(2))
                self.assertEqual(station.faults(), [
                    f"gate 7 number 1: it was sent again under a new number: {travel(2).hex()}",
                    f"gate 7 number 1: the last that it had was {words(code)}, and it wasn't sent again"] * is_wrong)


class Late(unittest.TestCase):
    """Answers to a gate that has closed its connection, or ended its half of it."""

    def setUp(self) -> None:
        # Late answers wait until the test lets them be sent, and not for some time.
        self.are_due = threading.Event()
        self.enterContext(mock.patch.object(stand_in, "pause", lambda seconds: seconds and self.are_due.wait(TIME)))

    def begun(self, text: str) -> tuple[Within, wire.Connection]:
        """A stand-in that has read a touch, and waits with its late answer, and the touch's connection."""
        self.are_due.clear()
        station = Within(self, text)
        return station, station.begin(travel(1))

    def play(self, *lines: str, is_reset: bool = False) -> tuple[list[str], list[str]]:
        """What the stand-in prints of a gate that closes the connection before a late answer, and sends the touch again if
        there is another line; and the faults among it."""
        station, line = self.begun("".join(f"{line}\n" for line in lines))
        if is_reset:
            assert isinstance(line.socket, socket.socket), "it has no TLS"
            line.socket.setsockopt(socket.SOL_SOCKET, socket.SO_LINGER, struct.pack("ii", 1, 0))
        line.close()
        self.are_due.set()
        for _ in lines[1:]:
            station.ask(travel(1))
        station.send_all()
        found = station.found()
        return found, [said.removeprefix("failed: ") for said in found if said.startswith("failed: ")]

    def test_an_answer_to_a_closed_connection_is_none(self) -> None:
        for answer in ("fault 3", "fault 200", "reply 1 -900 1100", "fault 1"):
            for is_reset in (False, True):
                with self.subTest(answer, is_reset=is_reset):
                    found, faults = self.play(f"late 1 {answer}", "fault 7", is_reset=is_reset)
                    self.assertEqual((found, faults), ([f"right: gate 7 number 1: sent 2 times, {words(7)}"], []))

    def test_a_gate_that_closes_its_connection_has_to_send_the_touch_again(self) -> None:
        for answer in ("reply 24 0 0", "fault 7"):
            with self.subTest(answer):
                _, faults = self.play(f"late 1 {answer}")
                self.assertEqual(faults, ["gate 7 number 1: the last that it had was no answer, and it wasn't sent again"])

    def half_closed(self, *openings: str) -> list[str]:
        """What is found of a gate that ends its half, and reads the late reply."""
        station, line = self.begun("late 1 reply 1 -900 1100\n")
        line.end_sending()
        self.are_due.set()
        self.assertEqual(line.take()[9], ACCEPTED)
        # It opens at once, before it is known that nothing comes back.
        station.tell(*openings)
        station.send_all()
        return station.faults()

    def test_a_gate_that_has_only_ended_its_half_has_the_answer(self) -> None:
        self.assertEqual(self.half_closed("7 1"), [])
        self.assertEqual(self.half_closed(), [
            "gate 7 number 1: the barrier wasn't opened on: in; change -900, balance 1100"])

    def test_a_gate_that_sends_and_ends_its_half_at_once_has_its_answers(self) -> None:
        station = Within(self, "reply 1 -900 1100\nfault 7\nfault 9\n")
        with station.connect() as line:
            line.send(travel(1), travel(2, MORNING + 1), travel(3, MORNING + 2))
            line.end_sending()
            answers = [line.take() for _ in range(3)]
        self.assertEqual([answer[2:4].hex() for answer in answers], ["8100", "ff07", "ff09"])
        station.tell("7 1", "given-up 7 2")
        self.assertEqual(station.faults(), [
            f"gate 7 number 3: the last that it had was {words(9)}, and it wasn't sent again"])

    def test_a_late_answer_over_an_open_connection_is_that_of_its_own_send(self) -> None:
        for first, second, wrong in ((3, "fault 7", None), (7, "fault 3", words(3)), (7, "close", "no answer")):
            with self.subTest(second):
                station, line = self.begun(f"late 1 fault {first}\n{second}\n")
                with station.connect() as other:
                    other.send(travel(1))
                    other.take()
                self.are_due.set()
                self.assertEqual(line.take()[3], first)
                self.assertEqual(station.faults(), [
                    f"gate 7 number 1: the last that it had was {wrong}, and it wasn't sent again"] if wrong else [])

    def test_the_end_waits_for_an_answer_that_is_to_be_sent(self) -> None:
        station, line = self.begun("late 1 fault 7\n")
        self.assertFalse(station.judge.is_over(0, 0))
        self.are_due.set()
        self.assertEqual(line.take()[3], codec.NOT_ALLOWED)
        station.send_all()
        self.assertTrue(station.judge.is_over(0, 0))
        self.assertFalse(station.judge.is_over(TIME, 0))
        self.assertEqual(station.faults(), [])


class GivenUp(unittest.TestCase):
    """Touches that are given up."""

    def play(self, *lines: str) -> Within:
        """A gate that sends a touch once for each line."""
        station = Within(self, "".join(f"{line}\n" for line in lines) + "rest reply 24 0 0\n")
        for _ in lines:
            with station.connect() as gate:
                gate.send(travel(1))
                gate.take()
        return station

    def test_a_touch_may_be_given_up_after_a_lasting_fault_to_its_last_send(self) -> None:
        rows: tuple[list[str], ...] = (
            ["fault 2"], ["fault 5"], ["fault 6"], ["fault 7"], ["close", "fault 7"], ["fault 3", "fault 5"],
            ["fault 200", "fault 7"], ["fault 1", "fault 1", "fault 7"])
        for lines in rows:
            with self.subTest(lines):
                station = self.play(*lines)
                station.tell("given-up 7 1")
                station.ask(travel(2))
                station.tell("start 7", "given-up 7 1")
                station.ask(travel(2))
                self.assertEqual(station.found(), [
                    f"right: gate 7 number 1: sent {len(lines)} times, {words(int(lines[-1][-1]))}, given up",
                    "right: gate 7 number 2: sent 2 times, refused: the balance is too low; change 0, balance 0"])

    def test_a_touch_that_is_given_up_after_something_else_is_found(self) -> None:
        told = "refused: the balance is too low; change 0, balance 0"
        rows: tuple[tuple[list[str], str], ...] = (
            (["close"], "no answer"), (["fault 7", "close"], "no answer"), (["fault 1"], words(1)),
            (["fault 1", "fault 1"], words(1)), (["fault 3"], words(3)), (["fault 7", "fault 4"], words(4)),
            (["fault 200"], words(200)), (["another fault 7"], "no answer"), (["holding 0 0 0"], "no answer"),
            (["reply 24 0 0"], told), (["fault 7", "reply 24 0 0"], told))
        for lines, state in rows:
            with self.subTest(lines):
                station = self.play(*lines)
                station.tell("given-up 7 1", "given-up 7 1")
                station.ask(travel(2, MORNING + 1))
                self.assertEqual(station.faults(), [
                    f"gate 7 number 1: the last that it had was {state}, and it was given up"])

    def test_a_touch_that_was_given_up_and_is_sent_again_is_found(self) -> None:
        for lines in (["given-up 7 1"], ["given-up 7 1", "start 7"]):
            with self.subTest(lines):
                station = self.play("fault 7")
                station.tell(*lines)
                station.ask(travel(1))
                self.assertEqual(station.faults(), ["gate 7 number 1: it was sent again after it was given up"])

    def test_a_barrier_that_opens_for_a_touch_that_was_given_up_is_found(self) -> None:
        station = self.play("fault 7")
        station.tell("given-up 7 1", "7 1")
        self.assertEqual(station.faults(), ["gate 7 number 1: the barrier was opened after the touch was given up"])

    def test_another_touch_of_the_card_may_have_the_same_moment(self) -> None:
        station = self.play("fault 7")
        station.tell("given-up 7 1")
        station.ask(travel(2))
        self.assertEqual(station.faults(), [])

    def test_a_touch_that_was_never_sent_cannot_be_given_up(self) -> None:
        station = self.play("fault 7")
        station.tell("given-up 7 2", "given-up 8 1")
        self.assertEqual(station.faults(), ["'7 2' was given up, which is no touch sent",
                                            "'8 1' was given up, which is no touch sent"])


class Soon(unittest.TestCase):
    """A second touch of a card after a start."""

    FAULT = ("it is less than 30 seconds after gate 7 number 1, a touch of the same card from before the gate's start, "
             "which was accepted, and for which the barrier wasn't opened")

    def play(self, touch: bytes, before: Iterable[str] = (), is_answered: bool = True, verdict: int = ACCEPTED) -> list[str]:
        """What is found of a gate that stops after its first touch, in at MORNING, and after its start fetches the reply
        again and sends this touch. The barrier's file has the lines of `before` before the last start."""
        station = Within(self, "close\n" * (not is_answered) + f"reply {verdict} 0 0\nrest reply 24 0 0\n")
        if is_answered:
            station.ask(travel(1))
        else:
            station.begin(travel(1)).close()
        station.tell(*before, "start 7")
        station.ask(travel(1), touch)
        # A further send of it is no further fault.
        station.ask(touch)
        return station.faults()

    def test_a_card_that_was_accepted_before_the_start_is_refused_for_30_seconds(self) -> None:
        for kind in (codec.ENTER, codec.LEAVE):
            for seconds, is_answered in ((0, True), (29, True), (29, False), (-5, True)):
                with self.subTest(kind=kind, seconds=seconds, is_answered=is_answered):
                    found = self.play(travel(2, MORNING + seconds, kind=kind), is_answered=is_answered)
                    self.assertEqual(found, [f"gate 7 number 2: {self.FAULT}"])

    def test_after_30_seconds_the_card_is_accepted(self) -> None:
        for is_answered in (True, False):
            for seconds in (30, 31, 86_400):
                with self.subTest(seconds, is_answered=is_answered):
                    self.assertEqual(self.play(travel(2, MORNING + seconds), is_answered=is_answered), [])

    def test_other_cards_other_gates_and_other_kinds_may_come_at_once(self) -> None:
        for touch in (travel(2, MORNING + 1, card=2), travel(1, MORNING + 1, gate=8),
                      codec.touch(codec.TOP_UP, 7, 2, 1, 2000, MORNING + 1), codec.touch(codec.ISSUE, 7, 2, 1, MORNING + 1)):
            with self.subTest(touch.hex()):
                self.assertEqual(self.play(touch), [])

    def test_a_touch_that_opened_the_barrier_or_was_refused_sets_no_time(self) -> None:
        self.assertEqual(self.play(travel(2, MORNING + 1), before=["7 1"]), [])
        self.assertEqual(self.play(travel(2, MORNING + 1), verdict=REFUSED), [])

    def test_a_further_start_does_not_end_the_time(self) -> None:
        for starts in (["start 7"], ["start 7", "start 8", "start 7"]):
            with self.subTest(starts):
                found = self.play(travel(2, MORNING + 29), before=starts)
                self.assertEqual(found, [f"gate 7 number 2: {self.FAULT}"])

    def test_without_a_start_there_is_no_time(self) -> None:
        station = Within(self, "reply 1 0 0\nrest reply 24 0 0\n")
        station.ask(travel(1))
        station.tell("start 8")
        station.ask(travel(2, MORNING + 1))
        self.assertEqual(station.faults(), ["gate 7 number 1: the barrier wasn't opened on: in; change 0, balance 0"])


class Script(unittest.TestCase):
    """Lines of a script that are no step."""

    def test_a_time_or_a_length_that_cannot_be_is_refused(self) -> None:
        for line in ("late -1 answer", "late nan answer", "late inf answer", "cut -1 answer", "cut x answer"):
            with self.subTest(line), self.assertRaises(wire.Wrong) as raised:
                Within(self, f"answer\n{line}\n")
            self.assertIn(f"line 2: '{line}' is no step", str(raised.exception))
