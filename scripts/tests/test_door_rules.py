"""Tests what the door of the built program lets through and what it refuses, over plain sockets: each attack is tried on
a server without a door, on one whose connections have the rule *, and on one whose connections have a certificate's
name. Expected answers are worked out by hand. All traffic stays on 127.0.0.1.
"""
import contextlib
import hashlib
import pathlib
import time
from collections.abc import Sequence
from typing import Any

import harness
import test_serve_notices as notices
from bovtrila import codec, proxied, wire
from harness import EXAMPLE, REVISED, TIME, TOP
from running import Server

NO_DOOR, STAR, NAMED = "no door", "the rule *", "a certificate's rule"
WAYS = (NO_DOOR, STAR, NAMED)
# 08:00 of Monday 2025-01-06, and the last moment of all: 2106-02-07.
MORNING, LAST = 1736150400, 2**32 - 1
ALL = 'gates = [7]\nkinds = ["in", "out", "top-up", "issue", "enquiry"]\n'
ENQUIRY = codec.enquiry(1)
REFUSED = codec.NOT_ALLOWED
# 2030-01-07, a Monday, as a day and as a moment.
DAY = 21_921


def reply(number: int, verdict: int, change: int, balance: int, gate: int = 7) -> bytes:
    return codec.framed(">BHIBiq", codec.REPLY, gate, number, verdict, change, balance)


def issue(number: int, gate: int = 7, moment: int = MORNING) -> bytes:
    return codec.touch(codec.ISSUE, gate, number, 1, moment)


def enter(number: int, moment: int = MORNING, card: int = 1) -> bytes:
    """A touch in at station 2."""
    return codec.touch(codec.ENTER, 7, number, card, 2, moment)


def top_up(number: int, pence: int = 5, gate: int = 7, moment: int = MORNING) -> bytes:
    return codec.touch(codec.TOP_UP, gate, number, 1, pence, moment)


def rule(name: str, terms: str) -> str:
    return f'[[rule]]\nname = "{name}"\n{terms}\n'


class DoorTest(notices.NoticeTest):
    """A server with a door, and connections to it."""

    def door(self, text: str) -> str:
        path = pathlib.Path(self.folder) / "door.toml"
        path.write_text(text)
        return str(path)

    def serve_with(self, text: str, *more: str, lines: int = 8, **options: Any) -> Server:
        return self.serve(lines=lines, more=["--door", self.door(text), *more], **options)

    def serve_way(self, way: str, terms: str, others: str = "", **options: Any) -> Server:
        """A server with a new journal, whose connections have these terms, or no door."""
        (pathlib.Path(self.folder) / "journal").unlink(missing_ok=True)
        if way == NO_DOOR:
            return self.serve(lines=8, **options)
        if way == STAR:
            return self.serve_with(rule("*", terms) + others, **options)
        return self.serve_with(rule("gate-7", terms) + others, "--proxy", **options)

    def line(self, server: Server, way: str, name: str | None = "gate-7") -> wire.Connection:
        line = wire.Connection(server.address, TIME, header=proxied.header(name) if way == NAMED else b"")
        self.addCleanup(line.close)
        return line

    def ask(self, line: wire.Connection, *requests: bytes) -> list[bytes]:
        """The answers to requests that are sent together."""
        line.send(*requests)
        return [line.take() for _ in requests]

    def assert_ended(self, line: wire.Connection) -> None:
        """The connection ends without an answer."""
        with contextlib.suppress(ConnectionError), line:
            self.assertEqual(line.read(1), b"")

    def assert_recorded(self, touches: Sequence[bytes], *revised: pathlib.Path, capacity: int = 1000) -> None:
        """The journal has these touches alone, also by `verify` and `history`."""
        tables = ["--table", str(EXAMPLE), "--journal", f"{self.folder}/journal"]
        status, out, err = harness.run(["history", "--format", "frames", *tables, *map(str, revised)])
        self.assertEqual((status, err), (0, ""))
        asked = [text.partition(b" ")[0].decode() for text in out.splitlines()]
        self.assertEqual([text for text in asked if text], [touch.hex() for touch in touches])
        status, out, err = harness.run(["verify", *tables, *map(str, revised)])
        self.assertEqual((status, err), (0, ""))
        self.assertIn(f"touches {len(touches)}\n".encode(), out)
        self.assertEqual(out.splitlines()[-1], b"sound")


class Attacks(DoorTest):
    """What one gate can do to a station, and what is left of it behind a door."""

    def test_another_gates_number(self) -> None:
        for way in WAYS:
            with self.subTest(way):
                server = self.serve_way(way, ALL)
                line, attack = self.line(server, way), top_up(1, gate=8)
                self.assertEqual(self.ask(line, issue(1)), [reply(1, 8, 0, 0)])
                if way == NO_DOOR:
                    # Gate 8's own first touch gets fault 2 from then on.
                    self.assertEqual(self.ask(line, attack, top_up(1, 7, gate=8)),
                                     [reply(1, 7, 5, 5, 8), codec.fault(codec.CONFLICT, 8, 1)])
                    self.assert_recorded([issue(1), attack])
                    continue
                # The session goes on, and what is recorded is answered again.
                self.assertEqual(self.ask(line, attack, top_up(2), issue(1), attack, ENQUIRY)[:4],
                                 [codec.fault(REFUSED, 8, 1), reply(2, 7, 5, 5), reply(1, 8, 0, 0),
                                  codec.fault(REFUSED, 8, 1)])
                self.assert_recorded([issue(1), top_up(2)])

    def test_a_moment_in_2106(self) -> None:
        """It would make the card unusable: each later touch in or out is refused by verdict 23."""
        attack, later = enter(3, LAST), enter(4, MORNING)
        for way in WAYS:
            with self.subTest(way):
                line = self.line(self.serve_way(way, ALL + "ahead = 300\n"), way)
                answers = self.ask(line, issue(1), top_up(2, 2000), attack, later)
                self.assertEqual(answers[:2], [reply(1, 8, 0, 0), reply(2, 7, 2000, 2000)])
                if way == NO_DOOR:
                    self.assertEqual([answer[9] for answer in answers[2:]], [1, 23])
                else:
                    # As docs/vectors.txt has the touch at 08:00.
                    self.assertEqual(answers[2:], [codec.fault(REFUSED, 7, 3), reply(4, 1, -900, 1100)])
                self.assert_recorded([issue(1), top_up(2, 2000), *([attack] if way == NO_DOOR else []), later])

    def test_how_far_a_moment_may_be_ahead(self) -> None:
        line = self.line(self.serve_way(STAR, ALL + "ahead = 300\n"), STAR)
        now = int(time.time())
        self.assertEqual(self.ask(line, issue(1, moment=now), top_up(2, moment=now + 250), top_up(3, moment=now + 1000)),
                         [reply(1, 8, 0, 0), reply(2, 7, 5, 5), codec.fault(REFUSED, 7, 3)])

    def test_a_revision_from_a_barrier(self) -> None:
        digest = hashlib.sha256(REVISED.read_bytes()).digest()
        revision = codec.touch(codec.REVISE, 7, 1, 0, digest, DAY, 86_400 * DAY)
        for way in WAYS:
            with self.subTest(way):
                line = self.line(self.serve_way(way, ALL, revised=[REVISED]), way)
                wanted = reply(1, codec.REVISED, 0, 0) if way == NO_DOOR else codec.fault(REFUSED, 7, 1)
                self.assertEqual(self.ask(line, revision), [wanted])
                self.assert_recorded([revision] if way == NO_DOOR else [], REVISED)

    def test_a_flood(self) -> None:
        """Forty touches at once: those of the burst are let through, and two in each second from then on. A touch that was
        refused is let through later, with the same bytes."""
        touches = [top_up(number) for number in range(2, 42)]
        for way in WAYS:
            with self.subTest(way):
                line = self.line(self.serve_way(way, ALL + "rate = 2\nburst = 6\n"), way)
                begun = time.monotonic()
                got = self.ask(line, issue(1), *touches)
                gained = 2 * (time.monotonic() - begun)
                through = [place for place, answer in enumerate(got[1:]) if answer[2] == codec.REPLY]
                if way == NO_DOOR:
                    self.assertEqual(len(through), 40)
                    continue
                # The issue took one of the six.
                self.assertTrue(5 <= len(through) <= 5 + gained, f"{len(through)} in {gained / 2} s")
                self.assertEqual([answer for answer in got[1:] if answer[2] != codec.REPLY],
                                 [codec.fault(REFUSED, 7, place + 2) for place in range(40) if place not in through])
                # Enquiries take nothing from the rate.
                self.assertEqual([answer[2] for answer in self.ask(line, *[ENQUIRY] * 50)], [codec.HOLDING] * 50)
                time.sleep(1.1)
                late = next(place for place in range(40) if place not in through)
                self.assertEqual(self.ask(line, touches[late]), [reply(late + 2, 7, 5, 5 * (len(through) + 1))])
                self.assert_recorded([issue(1), *(touches[place] for place in through), touches[late]])

    def ask_alone(self, server: Server, way: str, request: bytes) -> bytes:
        """The answer to a request over a connection of its own, by a rule that allows one at once: the server lets it in
        once it has noticed the end of the one before."""
        limit = time.monotonic() + TIME
        while time.monotonic() < limit:
            with contextlib.suppress(ConnectionError), self.line(server, way) as line:
                line.send(request)
                if answer := line.take():
                    return answer
        self.fail(f"no connection is let in for {TIME} s")

    def test_a_flood_over_many_connections(self) -> None:
        """Each connection begins with what the one before it has left."""
        for way in (STAR, NAMED):
            with self.subTest(way):
                server = self.serve_way(way, ALL + "rate = 1\nburst = 5\nconnections = 1\n")
                begun, through = time.monotonic(), 0
                for number in range(1, 31):
                    through += self.ask_alone(server, way, issue(number))[2] == codec.REPLY
                self.assertTrue(5 <= through <= 5 + (time.monotonic() - begun), through)

    def test_touches_of_no_card_until_the_reserve_is_left(self) -> None:
        """Thirty touches of card 0 for a journal of twenty. Behind the door five places are left, which a gate without a
        reserve may use."""
        touches = [enter(number, card=0) for number in range(1, 31)]
        other = rule("machine-3", 'gates = [3]\nkinds = ["issue"]\n')
        for way in WAYS:
            with self.subTest(way):
                server = self.serve_way(way, ALL + "reserved = 5\n", other, capacity=20)
                line, count = self.line(server, way), 20 if way == NO_DOOR else 15
                fault = codec.FULL if way == NO_DOOR else REFUSED
                self.assertEqual(self.ask(line, *touches), [
                    *(reply(number, 20, 0, 0) for number in range(1, count + 1)),
                    *(codec.fault(fault, 7, number) for number in range(count + 1, 31))])
                # What is recorded is answered again.
                self.assertEqual(self.ask(line, touches[0], touches[14]), [reply(1, 20, 0, 0), reply(15, 20, 0, 0)])
                recorded = touches[:count]
                if way == NAMED:
                    self.assertEqual(self.ask(self.line(server, way, "machine-3"), issue(1, 3)), [reply(1, 8, 0, 0, 3)])
                    recorded.append(issue(1, 3))
                self.assert_recorded(recorded)

    def test_more_connections_than_allowed(self) -> None:
        for way in WAYS:
            with self.subTest(way):
                server = self.serve_way(way, ALL + "connections = 2\n")
                lines = [self.line(server, way) for _ in range(2)]
                for line in lines:
                    self.assertEqual(self.ask(line, ENQUIRY)[0][2], codec.HOLDING)
                third = self.line(server, way)
                if way == NO_DOOR:
                    self.assertEqual(self.ask(third, ENQUIRY)[0][2], codec.HOLDING)
                    continue
                # The server looks at a connection from its first byte on.
                third.send(ENQUIRY)
                self.assert_ended(third)
                for line in lines:
                    self.assertEqual(self.ask(line, ENQUIRY)[0][2], codec.HOLDING)
                lines[0].close()
                self.assertTrue(harness.until(lambda: self.is_answered(server, way)))

    def is_answered(self, server: Server, way: str) -> bool:
        """Whether a new connection is answered."""
        with contextlib.suppress(ConnectionError), self.line(server, way) as line:
            line.send(ENQUIRY)
            return line.take()[2:3] == bytes([codec.HOLDING])
        return False


class Kinds(DoorTest):
    """Each kind of request by its own name."""

    def test_enquiries_alone(self) -> None:
        for way in (STAR, NAMED):
            with self.subTest(way):
                line = self.line(self.serve_way(way, 'kinds = ["enquiry"]\n'), way)
                answers = self.ask(line, issue(1), ENQUIRY, top_up(2), ENQUIRY)
                self.assertEqual([answer[2] for answer in answers[1::2]], [codec.HOLDING] * 2)
                self.assertEqual(answers[::2], [codec.fault(REFUSED, 7, 1), codec.fault(REFUSED, 7, 2)])
                self.assert_recorded([])

    def test_each_kind(self) -> None:
        digest = hashlib.sha256(REVISED.read_bytes()).digest()
        requests = {"issue": issue(1), "top-up": top_up(2), "in": enter(3),
                    "out": codec.touch(codec.LEAVE, 7, 4, 1, 1, MORNING),
                    "revise": codec.touch(codec.REVISE, 7, 5, 0, digest, DAY, 0), "enquiry": ENQUIRY}
        for kind in requests:
            with self.subTest(kind):
                server = self.serve_way(STAR, f'gates = [7]\nkinds = ["{kind}"]\n', revised=[REVISED])
                answers = self.ask(self.line(server, STAR), *requests.values())
                through = [name for name, answer in zip(requests, answers) if not wire.is_fault(answer)]
                self.assertEqual(through, [kind])
                self.assertEqual([answer for answer in answers if wire.is_fault(answer)], [
                    codec.fault(REFUSED) if name == "enquiry" else codec.fault(REFUSED, 7, place)
                    for place, name in enumerate(requests, 1) if name != kind])

    def test_ranges_of_gates(self) -> None:
        line = self.line(self.serve_way(STAR, 'gates = [7, [100, 120]]\nkinds = ["issue"]\n'), STAR)
        for gate, is_allowed in ((0, 0), (6, 0), (7, 1), (8, 0), (99, 0), (100, 1), (120, 1), (121, 0), (65_535, 0)):
            with self.subTest(gate):
                [answer] = self.ask(line, issue(1, gate))
                self.assertEqual(wire.is_fault(answer), not is_allowed)

    def test_bad_bytes_end_the_session_as_before(self) -> None:
        line = self.line(self.serve_way(STAR, ALL), STAR)
        line.send(bytes.fromhex("001106"))
        self.assertEqual(line.take(), codec.fault(codec.BAD_FRAME))
        self.assert_ended(line)


class Names(DoorTest):
    """Whose certificate a connection has."""

    DOOR = (rule("barrier-7", 'gates = [7]\nkinds = ["issue"]\n') + rule("barrier-8", 'gates = [8]\nkinds = ["issue"]\n')
            + rule("*", 'kinds = ["enquiry"]\n'))

    def test_each_name_has_its_rule(self) -> None:
        server = self.serve_with(self.DOOR, "--proxy")
        for name, gates in (("barrier-7", [7]), ("barrier-8", [8]), ("barrier-70", []), ("Barrier-7", []), ("*", []),
                            (None, [])):
            with self.subTest(name):
                line = self.line(server, NAMED, name)
                through = [gate for gate in (7, 8) if not wire.is_fault(self.ask(line, issue(1, gate))[0])]
                self.assertEqual(through, gates)
                self.assertEqual(wire.is_fault(self.ask(line, ENQUIRY)[0]), bool(gates))

    def test_without_a_proxy_no_connection_has_a_name(self) -> None:
        line = self.line(self.serve_with(self.DOOR), STAR)
        self.assertEqual(self.ask(line, issue(1)), [codec.fault(REFUSED, 7, 1)])
        self.assertEqual(self.ask(line, ENQUIRY)[0][2], codec.HOLDING)

    def test_a_name_without_a_rule_is_shut_out(self) -> None:
        server = self.serve_with(rule("barrier-7", ALL), "--proxy")
        for name in ("barrier-8", None):
            self.assert_ended(self.line(server, NAMED, name))
        self.assertEqual(self.ask(self.line(server, NAMED, "barrier-7"), issue(1)), [reply(1, 8, 0, 0)])

    def test_a_proxy_without_a_door_lets_all_through(self) -> None:
        server = self.serve(lines=8, more=["--proxy"])
        for place, name in enumerate(("barrier-7", None), 1):
            self.assertEqual(self.ask(self.line(server, NAMED, name), issue(1, place)),
                             [reply(1, 8 if place == 1 else 21, 0, 0, place)])

    def test_the_header_that_commands_write(self) -> None:
        begins = "0d0a0d0a000d0a515549540a"
        self.assertEqual(proxied.header(None).hex(), begins + "20000000")
        # 12 bytes of addresses, and a TLV of 14 bytes: its bits, the result of the verification, and a TLV with 6 bytes.
        self.assertEqual(proxied.header("gate-7").hex(), begins + "2111001d" + "7f0000017f00000100000000"
                         + "20000e" + "0300000000" + "220006" + b"gate-7".hex())


class Examples(harness.ProgramTest):
    """The door that comes with the program."""

    def test_the_example_is_a_door(self) -> None:
        self.assertEqual(harness.run(["check", "--door", str(TOP / "docs" / "door.toml")]), (0, harness.lines((
            "rule 1 barrier-7: gates 7; in out enquiry; ahead 300; rate 5 burst 20; reserved 1000; connections 2",
            "rule 2 machine-3: gates 3; top-up issue enquiry; ahead 300; rate 2 burst 10; reserved 100; connections 2",
            "rule 3 back-office: gates 65535; revise enquiry; connections 2", "rule 4 *: enquiry; connections 4",
            "rules 4")), ""))
