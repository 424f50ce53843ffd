"""Tests the door of the built program behind a real HAProxy with packaging/haproxy and certificates of bovtrila-authority:
each attack of one certificate, with and without a door, while gate 8 sends touches that all have to be answered. The
limits of HAProxy hold as before, also where HAProxy gives the server the names of certificates.
"""
import hashlib
import socket
import time
from typing import Any

import harness
import test_gate_front as front
from bovtrila import codec, secured, wire
from doors import authority
from fronted import BAD, ENQUIRY, GOOD, Behind, Line
from harness import REVISED, TIME
from test_door_rules import DAY, LAST, MORNING, REFUSED, issue, reply, rule

BARRIER = 'gates = [7]\nkinds = ["in", "out", "issue", "top-up", "enquiry"]\nahead = 300\n'
# Gate 8 behaves, gate 9 only asks, and so does whoever else has a certificate.
OTHERS = rule("8", 'gates = [8]\nkinds = ["issue", "top-up"]\n') + rule("*", 'kinds = ["enquiry"]\n')


class At(Line):
    """A gate's connection to an address that isn't in the server's certificate."""

    def __init__(self, host: str, port: int, tls: secured.Tls) -> None:
        self.timeout = TIME
        self.socket = tls.over(socket.create_connection((host, port), TIME), GOOD)


class Floods(front.Floods):
    has_names = True


class Gates(front.Gates):
    has_names = True


class Doors(front.Doors):
    has_names = True


class Attacks(Behind):
    """What the certificate barrier-7 does."""

    has_names = True

    def setUp(self) -> None:
        super().setUp()
        self.assertEqual(authority("gate", self.tls, "barrier-7", "machine-3")[0], 0)

    def served(self, has_door: bool, terms: str = BARRIER, **values: Any) -> None:
        """A server with a new journal, with a door or without one."""
        more: list[str] = []
        if has_door:
            path = self.folder / "door.toml"
            path.write_text(rule("barrier-7", terms) + OTHERS)
            more = ["--door", str(path)]
        (self.folder / "journal").unlink(missing_ok=True)
        self.serve({"more": more, "revised": [REVISED], "capacity": 2000}, **values)

    def barrier(self, name: str = "barrier-7") -> Line:
        return Line(self.front.port, self.known(name, self.tls / "gates"), BAD)

    def ask(self, line: Line, *requests: bytes) -> list[bytes]:
        line.send(*requests)
        return [line.take() for _ in requests]

    def touches_of(self, gate: int) -> list[str]:
        """The touches of a gate in the journal."""
        status, out, err = harness.run(["history", "--format", "frames", "--table", str(harness.EXAMPLE), "--journal",
                                        str(self.server.journal), str(REVISED)])
        self.assertEqual((status, err), (0, ""))
        frames = [text.partition(b" ")[0].decode() for text in out.splitlines()]
        return [frame for frame in frames if frame[6:10] == f"{gate:04x}"]

    def test_attacks_on_the_accounts(self) -> None:
        """Gate 8's number, a moment in 2106, and a revision: with a door each is refused, and the session goes on."""
        digest = hashlib.sha256(REVISED.read_bytes()).digest()
        attacks = (codec.touch(codec.TOP_UP, 8, 900_000, 2, 1, 5), codec.touch(codec.ISSUE, 7, 1, 2, LAST),
                   codec.touch(codec.REVISE, 7, 2, 0, digest, DAY, 0))
        for has_door in (True, False):
            with self.subTest(has_door=has_door):
                self.served(has_door)
                with self.steady(), self.barrier() as line:
                    answers = self.ask(line, *attacks, ENQUIRY)
                    self.assertEqual(answers[3][2], codec.HOLDING)
                    faults = [codec.fault(REFUSED, 8, 900_000), codec.fault(REFUSED, 7, 1), codec.fault(REFUSED, 7, 2)]
                    if has_door:
                        self.assertEqual(answers[:3], faults)
                        self.assertEqual(self.ask(line, codec.touch(codec.ISSUE, 7, 3, 3, MORNING)), [reply(3, 8, 0, 0)])
                    else:
                        self.assertEqual([answer[2] for answer in answers[:3]], [codec.REPLY] * 3)
                mine = [codec.touch(codec.ISSUE, 7, 3, 3, MORNING)] if has_door else list(attacks[1:])
                self.assertEqual(self.touches_of(7), [frame.hex() for frame in mine])
                self.assertEqual(attacks[0].hex() in self.touches_of(8), not has_door)
                self.front.end()
                self.server.kill()

    def test_a_flood(self) -> None:
        self.served(True, BARRIER + "rate = 5\nburst = 10\n", BYTES=1_000_000)
        with self.steady(), self.barrier() as line:
            begun = time.monotonic()
            # Of a card that gate 8 doesn't use.
            answers = self.ask(line, *[codec.touch(codec.TOP_UP, 7, number, 9, 5, 0) for number in range(1, 501)])
            through = sum(answer[2] == codec.REPLY for answer in answers)
            self.assertTrue(10 <= through <= 10 + 5 * (time.monotonic() - begun), through)
            self.assertEqual(sum(wire.is_fault(answer, REFUSED) for answer in answers), 500 - through)
        self.assertEqual(len(self.touches_of(7)), through)

    def test_a_journal_that_is_filled(self) -> None:
        """Touches of card 0 fill the journal up to the reserve: gate 8 is answered on."""
        self.served(True, BARRIER + "reserved = 1600\n", BYTES=1_000_000)
        with self.steady(), self.barrier() as line:
            answers = self.ask(line, *[codec.touch(codec.ENTER, 7, number, 0, 2, MORNING) for number in range(1, 601)])
            through = sum(answer[2] == codec.REPLY for answer in answers)
            # The touches of gate 8 take places too, at most 50 in a second.
            self.assertTrue(20 <= through <= 400, through)
            self.assertEqual(answers[-1], codec.fault(REFUSED, 7, 600))
            self.assertEqual(self.ask(line, codec.touch(codec.ENTER, 7, 1, 0, 2, MORNING)), [reply(1, 20, 0, 0)])

    def test_more_connections_than_the_rule_allows(self) -> None:
        """HAProxy would let two through."""
        self.served(True, BARRIER + "connections = 1\n")
        with self.steady(), self.barrier() as line:
            self.assertEqual(line.ask()[2], codec.HOLDING)
            self.assertEqual(self.barrier().ask(), b"")
            self.assertEqual(line.ask()[2], codec.HOLDING)

    def test_each_certificate_has_its_rule(self) -> None:
        """Also over IPv6, whose addresses are longer in the header."""
        port = harness.free_port()
        self.served(True, LISTEN=f"127.0.0.1:{port},::1:{port}")
        self.front.port = port
        with self.steady():
            for name, gates in (("barrier-7", [7]), ("machine-3", []), ("7", [])):
                known = self.known(name, self.tls / "gates")
                for host in (GOOD, "::1"):
                    with self.subTest(name, host=host), At(host, port, known) as line:
                        line.send(issue(1), ENQUIRY)
                        self.assertEqual(wire.is_fault(line.take(), REFUSED), not gates)
                        self.assertEqual(line.take()[2], codec.HOLDING)

    def test_the_port_behind_haproxy(self) -> None:
        """A program of this machine that writes no header gets no answer, and an attack that begins with a header, through
        TLS, is a request that is none."""
        self.served(True)
        with self.steady():
            with Line(self.server.address[1], None, BAD) as plain:
                plain.send(issue(1))
                self.ended(plain)
            with self.barrier() as line:
                line.send(bytes.fromhex("0d0a0d0a000d0a515549540a20000000"), issue(1))
                self.assertEqual(line.take(), codec.fault(codec.BAD_FRAME))
        self.assertEqual(self.touches_of(7), [])

    def test_a_revoked_certificate_has_no_rule_any_more(self) -> None:
        self.served(True)
        line = self.barrier()
        self.assertEqual(line.ask()[2], codec.HOLDING)
        known = self.known("barrier-7", self.tls / "gates")
        self.assertEqual(authority("revoke", self.tls, "barrier-7")[0], 0)
        self.front.reload()
        with self.assertRaises((OSError, wire.Wrong)):
            with Line(self.front.port, known, BAD) as late:
                late.send(issue(1))
                self.assertEqual(late.take(), b"")
                raise OSError("it was let in and out again")
        self.assertEqual(self.until("refused: certificate revoked "), ["barrier-7"])

    def test_only_one_of_the_two_is_changed(self) -> None:
        """HAProxy that writes no header: each connection is closed. HAProxy that does, and a server that reads none: each
        connection ends by fault 1. No touch is recorded."""
        self.served(True, PROXY="no")
        self.assertEqual(self.barrier().ask(issue(1)), b"")
        self.assertEqual(self.touches_of(7), [])
        self.front.end()
        self.server.kill()
        self.has_names = False
        self.served(True, PROXY="yes")
        self.assertEqual(self.barrier().ask(issue(1)), codec.fault(codec.BAD_FRAME))
        self.assertEqual(self.touches_of(7), [])
