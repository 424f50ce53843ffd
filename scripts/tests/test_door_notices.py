"""Tests what the built program reports about its door: beginnings of connections that are no header, doors and addresses
that are refused at the start, and the notices of a running server. All traffic stays on the loopback.
"""
import pathlib
import re
import select
import time

import harness
from bovtrila import codec, door_reports, proxied, wire
from bovtrila.door_reports import Found, Refused
from harness import EXAMPLE, TIME
from running import Server
from test_door_rules import ALL, ENQUIRY, LAST, NAMED, NO_DOOR, STAR, DoorTest, issue, rule, top_up

SIGNATURE = "0d0a0d0a000d0a515549540a"
ADDRESSES = "7f0000017f00000100000000"
ONLY_ENQUIRIES = rule("*", 'kinds = ["enquiry"]\n')
# Bytes that are no header, whether the gate's half ends after them, and what is reported.
NO_HEADERS = (
    ("a request", issue(1), False, "no signature of the PROXY protocol, version 2"),
    ("a request and the end", ENQUIRY, True, "the connection ended inside the header"),
    ("version 1", b"PROXY TCP4 127.0.0.1 127.0.0.1 40122 4014\r\n", False, "no signature of the PROXY protocol, version 2"),
    ("version 3", bytes.fromhex(SIGNATURE + "3111000c" + ADDRESSES), False, "version 3, not 2"),
    ("command 2", bytes.fromhex(SIGNATURE + "2211000c" + ADDRESSES), False, "command 2, neither LOCAL nor PROXY"),
    ("UDP", bytes.fromhex(SIGNATURE + "2112000c" + ADDRESSES), False, "unknown address family and transport 0x12"),
    ("cut off", bytes.fromhex(SIGNATURE + "2111000c" + ADDRESSES[:-2]), True, "the connection ended inside the header"),
    ("short", bytes.fromhex(SIGNATURE + "2111000b" + ADDRESSES[:-2]), False,
     "length 11, but the addresses of its family have 12 bytes"),
    ("too long", bytes.fromhex(SIGNATURE + "21110209" + ADDRESSES + "00" * 509), False,
     "length 521, over the limit of 520 bytes"),
    ("a TLV over its end", bytes.fromhex(SIGNATURE + "2111000f" + ADDRESSES + "200001"), False,
     "a TLV goes over its end, or a second SSL or CN TLV follows the first"),
    ("a name of two lines", proxied.header("gate\n7"), False,
     "a name that is empty, longer than 64 bytes, not UTF-8 or has a control character"))


class Headers(DoorTest):
    """Connections to a server with --proxy that don't begin with a header."""

    def test_without_a_header_nothing_is_answered(self) -> None:
        for title, given, ends, said in NO_HEADERS:
            with self.subTest(title):
                server = self.serve_way(NAMED, ALL)
                line = wire.Connection(server.address, TIME)
                line.send(given)
                if ends:
                    line.end_sending()
                self.assert_ended(line)
                reported = self.comes(server)
                self.assertEqual(reported, f"no proxy header: {said}\n")
                # The exporter counts such a line.
                self.assertEqual(door_reports.added(door_reports.NOTHING, reported[:-1], 0), Found({}, 1, 0))
                # The server goes on.
                self.assertEqual(self.ask(self.line(server, NAMED), ENQUIRY)[0][2], codec.HOLDING)
                self.assert_recorded([])
                server.kill()

    def test_a_silent_connection_is_closed_after_idle(self) -> None:
        server = self.serve_with(ONLY_ENQUIRIES, "--proxy", "--idle", "1")
        for given in (b"", bytes.fromhex(SIGNATURE)):
            with self.subTest(given=given):
                begun, line = time.monotonic(), wire.Connection(server.address, TIME)
                line.send(given)
                self.assert_ended(line)
                self.assertTrue(0.5 < time.monotonic() - begun < 10)
        self.assertEqual(self.comes(server), "no proxy header: a read failed inside the header\n")

    def test_a_connection_that_ends_before_its_first_byte_is_not_reported(self) -> None:
        server = self.serve_with(ONLY_ENQUIRIES, "--proxy")
        line = wire.Connection(server.address, TIME)
        line.end_sending()
        self.assert_ended(line)
        self.assertEqual(self.ask(self.line(server, NAMED), ENQUIRY)[0][2], codec.HOLDING)
        self.assertEqual(self.told(server), "")

    def test_headers_are_reported_once_in_a_minute(self) -> None:
        server = self.serve_with(ONLY_ENQUIRIES, "--proxy")
        for _ in range(20):
            line = wire.Connection(server.address, TIME)
            line.send(b"\r")
            line.end_sending()
            self.assert_ended(line)
        self.assertEqual(self.comes(server), "no proxy header: the connection ended inside the header\n")
        time.sleep(2)
        self.assertEqual(self.told(server), "")

    def test_a_header_that_comes_byte_by_byte(self) -> None:
        server = self.serve_with(ONLY_ENQUIRIES, "--proxy")
        line = wire.Connection(server.address, TIME)
        self.addCleanup(line.close)
        for byte in proxied.header("gate-7") + ENQUIRY:
            line.send(bytes([byte]))
        self.assertEqual(line.take()[2], codec.HOLDING)

    def test_a_header_is_part_of_no_request_without_a_proxy(self) -> None:
        """As when only HAProxy's configuration was changed: each connection ends by fault 1."""
        line = wire.Connection(self.serve(lines=2).address, TIME)
        line.send(proxied.header("gate-7"), ENQUIRY)
        self.assertEqual(line.take(), codec.fault(codec.BAD_FRAME))
        self.assert_ended(line)


class Starts(DoorTest):
    """What a start refuses, before it makes or opens a journal."""

    def refused(self, *more: str, listen: str = "127.0.0.1:0") -> tuple[int, str]:
        """The status, and all that is on standard error. There is no journal afterwards."""
        status, out, err = harness.run_whole([
            "serve", "--table", str(EXAMPLE), "--journal", f"{self.folder}/journal", "--cards", "10", "--capacity", "10",
            "--listen", listen, "--lines", "1", *more])
        self.assertEqual(out, b"")
        self.assertFalse((pathlib.Path(self.folder) / "journal").exists())
        return status, err

    def test_a_wrong_door(self) -> None:
        rows = (
            ("", "4 Missing rule 0", "no rule; a list of"),
            ("[[rule]", "3 NotToml", "line "),
            (rule("a", "gates = [7]\n"), "4 Missing kinds 1", "line 1: rule 1: no kinds; one or more of"),
            (rule("a", 'kinds = ["in"]\n'), "4 Missing gates 1", "line 1: rule 1: no gates; gate numbers from 1 to 65535"),
            (rule("a", 'gates = [65536]\nkinds = ["in"]\n'), "6 Range gates 1", "line 3: rule 1: gates: 65536; gate"),
            (rule("a", 'gates = [[9, 7]]\nkinds = ["in"]\n'), "6 Range gates 1", "line 3: rule 1: gates: a list of 2;"),
            (rule("a", 'gates = 7\nkinds = ["in"]\n'), "5 WrongType gates 1", "line 3: rule 1: gates: 7; gate numbers"),
            (rule("a", 'gates = [7]\nkinds = ["enter"]\n'), "6 Range kinds 1", 'line 4: rule 1: kinds: "enter";'),
            (rule("a", ALL + "rate = 0\n"), "6 Range rate 1", "line 5: rule 1: rate: 0; a whole number from 1 to 1000"),
            (rule("a", ALL + "burst = 5\n"), "4 Missing rate 1", "line 1: rule 1: no rate; a whole number from 1 to 1000"),
            (rule("a", ALL) + rule("b", ALL) + rule("a", ALL), "7 Twice name 3",
             'line 12: rule 3: name: "a"; a name that no earlier rule has'),
            # A key that is misspelled opens no door.
            (rule("a", ALL + "reserve = 5\n"), "8 UnknownKey 1", "line 1: rule 1: unknown key reserve; the keys of a rule"))
        for text, fault, place in rows:
            with self.subTest(fault, text=text):
                status, err = self.refused("--door", self.door(text))
                first, second = err.split("\n", 1)
                self.assertEqual((status, first, second.count("\n")), (1, f"fault door {fault}", 1))
                self.assertTrue(second.startswith(f"  {self.folder}/door.toml: {place}"), second)

    def test_a_door_that_is_not_there(self) -> None:
        self.assertEqual(self.refused("--door", f"{self.folder}/none.toml"),
                         (1, f"fault file\n  {self.folder}/none.toml: no such file\n"))

    def test_a_wrong_door_leaves_a_running_server_alone(self) -> None:
        """The lock of its journal isn't touched: the fault is the door's."""
        server = self.serve(lines=2)
        before = server.journal.read_bytes()
        status, err = harness.run_whole(["serve", "--table", str(EXAMPLE), "--journal", str(server.journal), "--cards", "10",
                                         "--capacity", "1000", "--listen", "127.0.0.1:0", "--lines", "1", "--door",
                                         self.door(rule("a", "gates = 7\n"))])[::2]
        self.assertEqual((status, err.partition("\n")[0]), (1, "fault door 5 WrongType gates 1"))
        self.assertEqual(server.journal.read_bytes(), before)

    def test_a_proxy_needs_a_loopback_address(self) -> None:
        for listen in ("0.0.0.0:0", "[::]:0", "192.0.2.1:4014", "localhost:0"):
            with self.subTest(listen):
                self.assertEqual(self.refused("--proxy", listen=listen), (
                    1, f"fault listen\n  {listen}: --proxy needs a loopback address, such as 127.0.0.1:4014\n"))
        for listen in ("127.0.0.1:0", "127.3.2.1:0", "[::1]:0"):
            with self.subTest(listen):
                self.serve(lines=1, more=["--proxy"], listen=listen).kill()


class Notices(DoorTest):
    """What a running server reports."""

    def lines(self, server: Server, count: int) -> list[str]:
        """The next lines of standard error, once there are so many, and no further one comes for two seconds."""
        said, limit = "", time.monotonic() + TIME
        while said.count("\n") < count and time.monotonic() < limit:
            select.select([server.process.stderr], [], [], 1)
            said += self.told(server)
        time.sleep(2)
        return (said + self.told(server)).splitlines()

    def assert_lines(self, server: Server, wanted: list[str]) -> None:
        """These lines are reported, which have here the gate numbers of all that was refused, in their order. The server
        reports once a second what it has refused so far: what it refuses just after that is counted in the line of a
        minute later. So a count may be lower, and the gate number that of an earlier request."""
        said = sorted(self.lines(server, len(wanted)))
        self.assertEqual(len(said), len(wanted), said)
        for found, want in zip(said, wanted):
            had, has = found.split(" ", 5), want.split(" ", 4)
            self.assertEqual((had[:3], had[5:]), (has[:3], has[4:]), found)
            gates, count = has[3].split(","), int(had[4])
            self.assertIn(count, range(1, len(gates) + 1), found)
            # A request that is refused while the line is made has set the number, and isn't counted.
            self.assertIn(had[3], gates[count - 1:], found)
            # The exporter reads such a line.
            counted, = door_reports.added(door_reports.NOTHING, found, 0).refused.items()
            name = "" if has[2] == "rule" else has[4]
            self.assertEqual(counted, ((name, has[2]), Refused(count, int(had[3]), has[4], 0)))

    def test_each_reason_has_a_line(self) -> None:
        terms = 'gates = [7, 9]\nkinds = ["issue", "top-up"]\nahead = 300\nreserved = 8\nconnections = 1\n'
        server = self.serve_way(NAMED, terms, rule("slow", ALL + "rate = 1\nburst = 1\n"), capacity=10)
        line = self.line(server, NAMED)
        self.ask(line, issue(1), top_up(2), codec.touch(codec.ENTER, 7, 3, 1, 2, 0), ENQUIRY, top_up(4, gate=8),
                 top_up(5, gate=65_535), top_up(6, gate=9, moment=LAST), top_up(7), top_up(8))
        self.assert_ended(self.line(server, NAMED))
        self.ask(self.line(server, NAMED, "slow"), *[ENQUIRY, issue(1)])
        self.ask(self.line(server, NAMED, "slow"), *[issue(1)] * 3)
        self.assert_ended(self.line(server, NAMED, "gate-70"))
        self.assert_lines(server, [
            "not allowed ahead 9 gate-7", "not allowed connections 0 gate-7", "not allowed gate 8,65535 gate-7",
            "not allowed kind 7,0 gate-7", "not allowed rate 7,7,7 slow", "not allowed reserve 7,7 gate-7",
            "not allowed rule 0 gate-70"])

    def test_a_connection_without_a_name(self) -> None:
        server = self.serve_way(STAR, 'kinds = ["enquiry"]\n')
        self.ask(self.line(server, STAR), issue(1), issue(2))
        self.assert_lines(server, ["not allowed kind 7,7 *"])
        server = self.serve_way(NAMED, ALL)
        self.assert_ended(self.line(server, NAMED, None))
        self.assertEqual(self.lines(server, 1), ["not allowed rule 0 1 -"])

    def test_a_rule_and_a_reason_have_a_line_in_a_minute(self) -> None:
        """A flood fills no log: the count of what was refused meanwhile is in the next line."""
        server = self.serve_way(STAR, 'gates = [7]\nkinds = ["issue"]\n')
        line, begun = self.line(server, STAR), time.monotonic()
        refused = [codec.touch(codec.TOP_UP, 7, number, 1, 5, 0) for number in range(1, 101)]
        self.ask(line, *refused)
        said = self.lines(server, 1)
        self.ask(line, *refused)
        time.sleep(max(0, begun + 50 - time.monotonic()))
        said += self.told(server).splitlines()
        self.assertEqual(len(said), 1, said)
        self.ask(line, *refused)
        said += self.lines(server, 1)
        counts = [re.fullmatch(r"not allowed kind 7 (\d+) \*", text) for text in said]
        self.assertEqual(sum(int(count[1]) for count in counts if count), 300, said)
        self.assertEqual(len(said), 2)

    def test_what_is_let_through_is_not_reported(self) -> None:
        server = self.serve_way(NAMED, ALL + "ahead = 300\nrate = 1000\nreserved = 1\nconnections = 1\n")
        line = self.line(server, NAMED)
        self.ask(line, issue(1), top_up(2), issue(1), ENQUIRY)
        time.sleep(2)
        self.assertEqual(self.told(server), "")

    def test_what_a_server_without_a_door_reports_stays(self) -> None:
        server = self.serve_way(NO_DOOR, "")
        self.ask(self.line(server, NO_DOOR), issue(1), top_up(2, gate=8))
        time.sleep(2)
        self.assertEqual(self.told(server), "")
