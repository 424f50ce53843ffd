"""Tests what HAProxy lets one gate do to the others: the built program behind a real HAProxy with packaging/haproxy,
with certificates of bovtrila-authority. While somebody attacks from 127.0.0.2, gate 8 sends touches from 127.0.0.1:
each has to get the reference model's answer, and soon. All traffic stays on the loopback, with at most 120 connections
and some seconds for each attack.
"""
import concurrent.futures
import contextlib
import re
import select
import shutil
import socket
import ssl
import subprocess
import time
import warnings

import harness
from bovtrila import codec, secured, vector_file, wire
from doors import Stunnel, authority, signed, signed_by_itself
from fronted import BAD, ENQUIRY, GOOD, SOON, Behind, Line
from harness import TIME, TOP

CERTIFY = TOP / "bin" / "bovtrila-certify"
# What the configuration has, by hand.
CONNECTIONS, NEW, BYTES, ADDRESS_NEW, LOGGED = 2, 30, 4000, 60, 10


class Doors(Behind):
    """Who is let in, beside a gate that sends touches."""

    def refused(self, name: str, known: secured.Tls, reason: str, logged: str) -> None:
        """One that TLS refuses: no connection is made to the server, and a line has the name of its certificate."""
        with self.subTest(reason):
            before = self.relay.connections
            with self.assertRaises((OSError, wire.Wrong)):
                with Line(self.front.port, known, BAD) as line:
                    line.send(ENQUIRY)
                    self.assertEqual(line.take(), b"")
                    raise OSError("it was let in and out again")
            self.assertEqual(self.relay.connections, before)
            self.assertEqual(self.until(f"refused: {logged}"), [name])

    def test_certificates_that_are_refused(self) -> None:
        authority("revoke", self.tls, "7")
        signed(self.tls, "expired", "gate", "-startdate", "20200101000000Z", "-enddate", "20200201000000Z")
        signed(self.tls, "early", "gate", "-startdate", "20900101000000Z", "-enddate", "20910101000000Z")
        signed(self.tls, "as-server", "server", "-days", "30")
        signed_by_itself(self.tls, "own", "gate\n7")
        self.serve()
        with self.steady():
            for name, folder, title, reason in (
                    ("9", self.made / "other" / "gates", "9", "certificate of another authority"),
                    ("7", self.gates, "7", "certificate revoked"),
                    ("expired", self.tls / "gates", "expired", "certificate expired"),
                    ("early", self.tls / "gates", "early", "certificate not valid yet"),
                    ("as-server", self.tls / "gates", "as-server", "certificate isn't a gate's"),
                    # A name that nobody has checked makes no second line of the log.
                    ("own", self.tls / "gates", r"gate\n7", "certificate signed by itself")):
                self.refused(title, self.known(name, folder), reason, re.escape(reason))

    def test_without_a_certificate(self) -> None:
        """TLS without one, TLS 1.1, and plain TCP get nothing, ten times each."""
        self.serve()
        old = self.known("7").context
        with warnings.catch_warnings():
            warnings.simplefilter("ignore", DeprecationWarning)
            old.minimum_version, old.maximum_version = ssl.TLSVersion.TLSv1, ssl.TLSVersion.TLSv1_1
        old.set_ciphers("ALL:@SECLEVEL=0")
        none = ssl.create_default_context(cafile=self.tls / "authority.pem")
        with self.steady():
            before = self.relay.connections
            for name, context in (("TLS without a certificate", none), ("TLS 1.1", old), ("plain TCP", None)):
                with self.subTest(name):
                    for _ in range(10):
                        self.assertNotIn(bytes([codec.HOLDING]), self.came(context)[2:3])
            self.assertEqual(self.relay.connections, before)
            self.assertEqual(set(self.until("refused: no certificate, or TLS failed ", 30)), {"-"})
            self.assertEqual(len(self.logged(r"refused: .*peer did not return a certificate")), 10)

    def came(self, context: ssl.SSLContext | None) -> bytes:
        """What is answered to an enquiry."""
        with socket.create_connection((GOOD, self.front.port), TIME, source_address=(BAD, 0)) as plain:
            with contextlib.suppress(OSError):
                line = context.wrap_socket(plain, server_hostname=GOOD) if context else plain
                line.sendall(ENQUIRY)
                return line.recv(100)
        return b""

    def test_a_handshake_that_does_not_come(self) -> None:
        """Neither its first byte nor the rest of it: the connection ends after HANDSHAKE, and its address may have only so
        many at once."""
        self.serve(HANDSHAKE="6s", ADDRESS_CONNECTIONS=12)
        with self.steady():
            begun, before = time.monotonic(), self.relay.connections
            silent: list[Line] = []
            for _ in range(20):
                # One that ends at once may do so before the system reports that it was made.
                with contextlib.suppress(ConnectionError):
                    silent.append(Line(self.front.port, None, BAD))
            unmade = 20 - len(silent)
            for line in silent[:5]:
                # The beginning of a ClientHello.
                line.send(bytes.fromhex("16030100a0"))
            # Those above the limit of an address end at once, whichever of HAProxy's threads has them, and no others.
            sockets = [line.socket for line in silent]
            harness.until(lambda: unmade + len(select.select(sockets, [], [], 0)[0]) >= 8)
            time.sleep(0.5)
            self.assertEqual(unmade + len(select.select(sockets, [], [], 0)[0]), 8)
            for line in silent:
                self.ended(line)
            self.assertTrue(6 <= time.monotonic() - begun < 6 + SOON)
            self.assertEqual(self.relay.connections, before)
            self.assertEqual(self.until(r"refused: .*Timeout during SSL handshake", 12), ["-"] * 12)

    def test_a_silent_connection(self) -> None:
        """One that never sent a byte, and one that was answered: both end after SILENT, and a line has each one's name. A
        machine that stops for some seconds still ends each handshake in time, and gate 8 isn't silent for so long."""
        self.serve(HANDSHAKE="5s", SILENT="8s")
        with self.steady():
            begun, lines = time.monotonic(), [self.line("7"), self.line("7")]
            self.assertEqual(lines[1].ask()[2], codec.HOLDING)
            for line in lines:
                self.assertGreater(self.ended(line) - begun, 7.5)
            self.assertLess(time.monotonic() - begun, 8 + SOON)
            self.assertEqual(self.until(r"ended \([cs][DR], ", 2), ["7", "7"])

    def test_a_server_that_closes_silent_connections_first(self) -> None:
        """As the values of the configuration are: `idle` of the server is shorter, and nothing is logged."""
        # A machine that stops for some seconds still sends the enquiry in time.
        self.serve({"more": ("--idle", "4")})
        line = self.line("7")
        self.assertEqual(line.ask()[2], codec.HOLDING)
        begun = time.monotonic()
        self.assertLess(self.ended(line) - begun, 4 + SOON)
        self.assertEqual(self.logged(""), [])

    def test_no_session_is_resumed(self) -> None:
        self.serve()
        for version in (ssl.TLSVersion.TLSv1_2, ssl.TLSVersion.TLSv1_3):
            context = self.known("7").context
            context.minimum_version = context.maximum_version = ssl.TLSVersion.TLSv1_2
            context.maximum_version = context.minimum_version = version
            last: ssl.SSLSession | None = None
            for _ in range(2):
                with socket.create_connection((GOOD, self.front.port), TIME) as plain:
                    with context.wrap_socket(plain, server_hostname=GOOD, session=last) as line:
                        line.sendall(ENQUIRY)
                        self.assertEqual(line.recv(100)[2], codec.HOLDING)
                        self.assertFalse(line.session_reused)
                        last = line.session


class Floods(Behind):
    """What one certificate does to the others."""

    def test_more_connections_than_allowed(self) -> None:
        self.serve()
        with self.steady():
            lines = [line for line in (self.answered() for _ in range(10)) if line]
            self.assertEqual(len(lines), CONNECTIONS)
            # One may come before the one before it is no more counted.
            self.assertEqual(self.until("refused: (?:[3-9]|10) connections at once, the limit is 2 ", 8), ["7"] * 8)
            # They are answered all the time, on each connection that is allowed. The others are answered beside.
            limit = time.monotonic() + 2
            while time.monotonic() < limit:
                for line in lines:
                    self.assertEqual(line.ask()[2:3], bytes([codec.HOLDING]), self.front.log.read_text())
            self.assertRegex(self.front.shown("show table gates"), r"key=7 use=2 .* conn_cur=2\n")
            lines[0].close()
            self.again()

    def again(self) -> None:
        """Gate 7 is let in again, soon."""
        limit = time.monotonic() + 3 * SOON
        # So seldom that it stays below its new connections.
        while not (line := self.answered()) and time.monotonic() < limit:
            time.sleep(0.5)
        self.assertIsNotNone(line, self.front.log.read_text())

    def test_new_connections(self) -> None:
        """A hundred, each closed once it was answered: those above the limits are refused. Of the refusals that have a name
        only the first ones are logged."""
        # On a busy machine some come before those before them are no more counted, and one at a time would be too few.
        self.serve(CONNECTIONS=12)
        form, made, count, begun = r"refused: \d+ (?:new connections|connections at once)", 0, 0, time.monotonic()
        with self.steady(), concurrent.futures.ThreadPoolExecutor(4) as pool:
            while made < 100 or len(self.logged(form)) < LOGGED and time.monotonic() < begun + TIME:
                count += sum(pool.map(lambda _: self.comes_and_goes(), range(20)))
                made += 20
            windows = 1 + (time.monotonic() - begun) / 10
            self.assertTrue(NEW // 2 <= count <= NEW * windows, f"{count} in {windows} times 10 s")
            said = self.until(form, LOGGED)
            self.assertEqual(said, ["7"] * len(said))
            # The others of the four may be counted before the first one is compared with the limit.
            counted = re.findall(rf"refused: (\d+) new connections in 10 s, the limit is {NEW} ", self.front.log.read_text())
            self.assertIn(min(map(int, counted)), range(NEW + 1, NEW + 5))
            self.assertLessEqual(len(said), LOGGED * windows)
            # An address may do more than a certificate, and less than that.
            self.assertLessEqual(self.tried(), ADDRESS_NEW * windows)

    def tried(self) -> int:
        """How many connections of gate 7 came through the handshake."""
        found = re.search(r"key=7 .* gpc0=(\d+) ", self.front.shown("show table gates"))
        assert found, "the table has gate 7"
        return int(found[1])

    def test_frames(self) -> None:
        """Two connections that send enquiries without waiting for answers, for four seconds."""
        self.serve()
        with self.steady():
            lines = self.line(), self.line()
            # Fewer come through while the machine stops. Four other seconds are whole.
            passed = (self.passed_in(4, BYTES, lines) for _ in range(5))
            self.assertTrue(any(count >= BYTES * 3 for count in passed))
        self.assertEqual(re.findall(r"^gate (\S+): slowed down to 4000 bytes a second$", self.front.log.read_text(), re.M),
                         ["7"])

    def test_silence_after_a_flood(self) -> None:
        """Once a connection that was slowed down is silent, HAProxy rests."""
        self.serve()
        with self.steady():
            self.flooded, line, limit = 0, self.line(), time.monotonic() + TIME
            # While the machine stops it may send too little to be slowed down.
            while not self.front.told("gate 7: slowed down to 4000 bytes a second\n") and time.monotonic() < limit:
                self.flood(line, time.monotonic() + 2)
            self.assertEqual(self.front.told("gate 7: slowed down to 4000 bytes a second\n"), 1)
            time.sleep(1.5)
            shown = self.front.shown("show sess all")
            # How often in the last second each connection's task was woken for nothing: both halves of gates 7 and 8.
            woken = [int(rate) for rate in re.findall(r"^  task=.* calls=\d+ rate=(\d+) ", shown, re.M)]
            self.assertGreaterEqual(len(woken), 4, shown)
            self.assertLess(max(woken), 300, shown)

    def test_all_slots_taken(self) -> None:
        """By two certificates together: as many connections wait as WAITING says, and no longer than WAIT. The server gets
        no more than SLOTS, and the first one that waits gets the slot that becomes free."""
        self.serve(SLOTS=2, WAITING=2, WAIT="20s")
        taken = [self.line("7"), self.line("9")]
        for line in taken:
            self.assertEqual(line.ask()[2], codec.HOLDING)
        waiting = [self.line("8", GOOD), self.line("9")]
        for count, line in enumerate(waiting, 1):
            line.send(ENQUIRY)
            self.waits(count)
        self.assertIsNone(self.answered("7"))
        self.assertEqual(self.until("refused: the server has no slot, and 2 connections wait "), ["7"])
        taken[0].close()
        self.assertEqual(waiting[0].take()[2], codec.HOLDING)
        self.ended(waiting[1])
        self.assertEqual(self.until(r"ended \(sQ, "), ["9"])
        # By HAProxy's clock, which stands still while the machine does.
        [after] = re.findall(r": ended \(sQ, after (\d+) ms\)$", self.front.log.read_text(), re.M)
        self.assertLess(int(after), (20 + SOON) * 1000)
        self.assertEqual(self.relay.connections, 2 + 1)

    def waits(self, count: int) -> None:
        """Waits until so many connections wait for a slot."""
        limit = time.monotonic() + TIME
        while f"\nstation,BACKEND,{count}," not in self.front.shown("show stat") and time.monotonic() < limit:
            time.sleep(0.05)
        self.assertIn(f"\nstation,BACKEND,{count},", self.front.shown("show stat"))


class Reloads(Behind):
    """What a reload does to the connections that are there."""

    def test_a_certificate_that_is_revoked(self) -> None:
        """No new connection from the reload on. The one that is there continues, and so do all others, until OLD."""
        self.serve(OLD="8s")
        gate, revoked = self.line("8", GOOD), self.line("7")
        for line in (gate, revoked):
            self.assertEqual(line.ask()[2], codec.HOLDING)
        self.assertEqual(authority("revoke", self.tls, "7")[0], 0)
        other = self.answered("7")
        self.front.reload()
        begun = time.monotonic()
        while time.monotonic() < begun + 2:
            for line in (gate, revoked):
                self.assertEqual(line.ask()[2], codec.HOLDING)
            time.sleep(0.1)
        self.assertIsNone(self.answered("7"))
        self.assertEqual(self.until("refused: certificate revoked "), ["7"])
        self.assertIsNotNone(self.answered("8", GOOD))
        assert other, "it was answered before the reload"
        for line in (gate, revoked, other):
            self.assertLess(self.ended(line) - begun, 8 + SOON)
        # It connects again, as a gate does.
        self.assertIsNotNone(self.answered("8", GOOD))
        self.assertEqual(authority("gate", self.tls, "7")[0], 0)
        new = Line(self.front.port, self.known("7", self.tls / "gates"), BAD)
        with new:
            self.assertEqual(new.ask()[2], codec.HOLDING)

    def test_touches_beside_a_reload(self) -> None:
        """A connection from before it isn't interrupted, and the server's new certificate is shown from then on."""
        self.serve()
        with self.steady():
            before = self.serial()
            self.assertEqual(authority("renew", self.tls)[0], 0)
            shutil.copy(self.tls / "server.key", self.tls / "server.pem.key")
            self.front.reload()
            shown = self.serial()
            self.assertNotEqual(shown, before)
            self.assertEqual(self.serial(), shown)

    def serial(self) -> object:
        """The serial number of the certificate that the server shows to gate 9."""
        with socket.create_connection((GOOD, self.front.port), TIME) as plain:
            with self.known("9").context.wrap_socket(plain, server_hostname=GOOD) as line:
                shown = line.getpeercert()
                assert shown, "the server has a certificate"
                return shown["serialNumber"]

    def test_a_configuration_that_is_refused_changes_nothing(self) -> None:
        self.serve()
        self.front.config.write_text("nonsense\n")
        check = subprocess.run(["haproxy", "-c", "-q", "-f", self.front.config], capture_output=True, timeout=TIME)
        self.assertEqual(check.returncode, 1)
        with self.steady():
            self.front.begin_reload()
            time.sleep(1)
        self.assertIsNotNone(self.answered("7"))


class Gates(Behind):
    """All that a gate may do through HAProxy."""

    # As many connections, in as short a time, as bovtrila-certify makes.
    WIDE = {"CONNECTIONS": 50, "NEW": 10_000, "ADDRESS_NEW": 10_000, "BYTES": 10_000_000}

    def words(self, name: str = "7") -> list[object]:
        return ["--tls", self.tls / "authority.pem", self.gates / f"{name}.pem", self.gates / f"{name}.key"]

    def test_a_server_is_certified(self) -> None:
        """Ends of the gate's half, bad beginnings and hang-ups too: nothing of the protocol is lost."""
        station = next(station for station in vector_file.read() if station.name == "full")
        self.serve({"cards": station.cards, "capacity": station.capacity, "table": station.table}, **self.WIDE)
        words = (CERTIFY, f"{GOOD}:{self.front.port}", "--server", "full", "--timeout", TIME / 2, *self.words())
        done = subprocess.run([str(word) for word in words], capture_output=True, text=True, timeout=5 * TIME)
        self.assertEqual(done.returncode, 0, done.stdout + done.stderr)
        self.assertRegex(done.stdout.splitlines()[-1], r"^[1-9]\d* passed, 0 failed$")

    def test_a_gate_that_ends_its_half_above_its_bytes(self) -> None:
        """It gets every answer at once, and its next connection waits for as long as that would have taken. On a busy
        machine HAProxy ends some of these connections before it has passed on what it holds: then a gate repeats."""
        self.serve(BYTES=700)
        begun, whole = time.monotonic(), 0
        for _ in range(20):
            with self.line() as line:
                line.send(ENQUIRY * 300)
                self.assertEqual(line.take()[2], codec.HOLDING)
                line.end_sending()
                rest = self.rest(line)
            self.assertEqual(rest, [codec.HOLDING] * len(rest))
            whole += len(rest) == 299
            if whole == 2:
                break
        self.assertEqual(whole, 2)
        self.assertEqual(self.line().ask()[2], codec.HOLDING)
        # 4,200 bytes are five seconds' bytes beyond the first.
        self.assertGreater(time.monotonic() - begun, 4.5)

    def rest(self, line: Line) -> list[int]:
        """The kinds of the answers until the connection ends."""
        kinds = []
        with contextlib.suppress(OSError):
            while answer := line.take():
                kinds.append(answer[2])
        return kinds

    def test_a_gate_without_tls_has_a_stunnel_of_its_own(self) -> None:
        self.serve()
        near = Stunnel(self.folder, "gate.conf", (
            ("accept = 127.0.0.1:4014", f"accept = 127.0.0.1:{harness.free_port()}"),
            ("gates.station:4015", f"127.0.0.1:{self.front.port}"),
            ("checkHost = gates.station", "checkHost = localhost"),
            ("/etc/bovtrila/authority.pem", self.tls / "authority.pem"),
            ("/etc/bovtrila/gate.pem", self.gates / "7.pem"), ("/etc/bovtrila/gate.key", self.gates / "7.key")))
        self.addCleanup(near.end)
        with wire.Connection((GOOD, near.port), TIME) as line:
            line.send(ENQUIRY)
            self.assertEqual(line.take()[2], codec.HOLDING)

    def test_both_families_of_addresses(self) -> None:
        port = harness.free_port()
        self.serve(LISTEN=f"0.0.0.0:{port},:::{port}")
        for host in (GOOD, "::1"):
            with socket.create_connection((host, port), TIME) as plain:
                with self.known("7").context.wrap_socket(plain, server_hostname=GOOD) as line:
                    line.sendall(ENQUIRY)
                    self.assertEqual(line.recv(100)[2], codec.HOLDING)

    def test_a_gate_that_vanishes_is_asked_after(self) -> None:
        """The system asks after one that is silent within a minute, as it does for the server."""
        if shutil.which("ss") is None:
            self.skipTest("a gate that vanishes: ss isn't installed (iproute2)")
        self.serve()
        self.assertIsNotNone(self.answered())
        words = ["ss", "-tnoH", "sport", "=", f":{self.front.port}"]
        limit, said = time.monotonic() + TIME, ""
        # What was sent has to be acknowledged first.
        while "keepalive" not in said and time.monotonic() < limit:
            said = subprocess.run(words, capture_output=True, text=True, check=True).stdout
        self.assertRegex(said, r"timer:\(keepalive,(1min|[0-9]+sec),")

    def test_a_server_that_is_down(self) -> None:
        """The gate's connection ends, and a line says why. """
        self.serve()
        self.relay.door.shut()
        line = self.line("7")
        line.send(ENQUIRY)
        self.ended(line)
        self.assertEqual(self.until(r"ended \(SC, "), ["7"])
