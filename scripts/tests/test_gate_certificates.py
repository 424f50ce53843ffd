"""Tests who may connect: the built program behind a real stunnel with packaging/stunnel/bovtrila.conf, with
certificates of bovtrila-authority. A relay between the two counts the bytes that reach the server. All traffic stays on
127.0.0.1.
"""
import pathlib
import re
import shutil
import socket
import ssl
import subprocess
import tempfile
import threading
import time
import unittest
import warnings
from typing import Any

import harness
import killing
from bovtrila import codec, model, secured, table_file, vector_file, wire
from doors import AUTHORITY, Relay, Stunnel, authority, changes, signed, signed_by_itself
from harness import CRATES, TIME, TOP
from running import Server

GATE, CERTIFY = TOP / "bin" / "bovtrila-gate", TOP / "bin" / "bovtrila-certify"
STDIN = CRATES / "tap_server" / "stdin"
# What stunnel says of a certificate that it refuses.
STUNNEL = {"foreign": "CERT: Pre-verification error: ", "revoked": "CERT: Pre-verification error: certificate revoked",
           "expired": "CERT: Pre-verification error: certificate has expired",
           "not valid yet": "CERT: Pre-verification error: certificate is not yet valid",
           "signed by itself": "CERT: Pre-verification error: self.signed certificate",
           "a server's": "CERT: Pre-verification error: "}
ANSWERS = ["issued; change 0, balance 0", "topped up; change 2000, balance 2000", "in; change -900, balance 1100",
           "out; change 550, balance 1650"]


class Behind(harness.ProgramTest):
    """A server behind a stunnel, with an authority that has made certificates of gates 7, 8 and 9."""

    made: pathlib.Path

    @classmethod
    def setUpClass(cls) -> None:
        super().setUpClass()
        for program in ("stunnel4", "openssl"):
            if shutil.which(program) is None:
                raise unittest.SkipTest(f"who may connect: {program} isn't installed")
        room = tempfile.TemporaryDirectory(prefix="gate-certificates-")
        cls.addClassCleanup(room.cleanup)
        cls.made = pathlib.Path(room.name)
        for name in ("tls", "other"):
            authority("begin", cls.made / name, "--name", "localhost", "--name", "127.0.0.1")
            authority("gate", cls.made / name, "7", "8", "9")

    def setUp(self) -> None:
        room = tempfile.TemporaryDirectory(prefix="gate-certificates-")
        self.addCleanup(room.cleanup)
        self.folder = pathlib.Path(room.name)
        shutil.copytree(self.made / "tls", self.folder / "tls")
        # What was signed names the folder of the authority by its configuration alone, which is made anew.
        self.tls = self.folder / "tls"

    def serve(self, **words: Any) -> None:
        """A server, a relay to it and a stunnel in front."""
        options: dict[str, Any] = {"connections": None, "lines": 3, **words}
        self.server = Server(self.folder, **options)
        self.addCleanup(self.server.kill)
        self.relay = Relay(self.server.address)
        self.addCleanup(self.relay.door.shut)
        self.front = Stunnel(self.folder, "bovtrila.conf", changes(self.tls, self.relay.port))
        self.addCleanup(self.front.end)

    def words(self, name: str = "7", folder: pathlib.Path | None = None) -> list[str | pathlib.Path]:
        """The words of --tls for a gate."""
        folder = folder or self.tls
        return ["--tls", self.tls / "authority.pem", folder / "gates" / f"{name}.pem", folder / "gates" / f"{name}.key"]

    def gate(self, *words: object, host: str = "127.0.0.1", port: int | None = None) -> tuple[int, list[str], str]:
        """Sends the four touches by bovtrila-gate: status, what was answered, and what was told."""
        done = subprocess.run([str(word) for word in (GATE, f"{host}:{port or self.front.port}", STDIN, "--timeout",
                                                      "5",
                                                      "--tries", "2", "--backoff", "0.01", *words)],
                              capture_output=True, text=True, timeout=TIME)
        self.assertNotIn("Traceback", done.stderr)
        return done.returncode, [line.partition("  ")[2] for line in done.stdout.splitlines()], done.stderr


class Doors(Behind):
    """Who is let in."""

    def test_a_gate_with_a_certificate_is_answered(self) -> None:
        self.serve()
        for _ in range(2):
            self.assertEqual(self.gate(*self.words()), (0, ANSWERS, ""))
        # By the server's name, and with another gate's certificate, the answers are the first ones.
        self.assertEqual(self.gate(*self.words("8"), host="localhost"), (0, ANSWERS, ""))
        self.assertEqual(len(model.journal(self.server.journal.read_bytes(), table_file.read(harness.EXAMPLE), 10)[0]), 4)
        self.assertGreaterEqual(self.relay.connections, 3)

    def test_nobody_else_reaches_the_server(self) -> None:
        """Each is refused by TLS; no connection is made to the server, and no byte reaches it."""
        authority("revoke", self.tls, "9")
        revoked = next((self.tls / "private").glob("9-*.pem"))
        shutil.copy(revoked, self.tls / "gates" / "9.pem")
        shutil.copy(self.made / "tls" / "gates" / "9.key", self.tls / "gates" / "9.key")
        signed(self.tls, "expired", "gate", "-startdate", "20200101000000Z", "-enddate", "20200201000000Z")
        signed(self.tls, "early", "gate", "-startdate", "20900101000000Z", "-enddate", "20910101000000Z")
        signed(self.tls, "as-server", "server", "-days", "30")
        signed_by_itself(self.tls, "own", "7")
        self.serve()
        for name, words, reason in (("foreign", self.words("7", self.made / "other"), "CA"),
                                    ("revoked", self.words("9"), "REVOKED"),
                                    ("expired", self.words("expired"), "EXPIRED"),
                                    ("not valid yet", self.words("early"), ""),
                                    ("signed by itself", self.words("own"), "CA"),
                                    ("a server's", self.words("as-server"), "")):
            with self.subTest(name):
                said = len(self.front.log.read_text())
                status, answers, told = self.gate(*words)
                self.assertEqual((status, answers), (1, []))
                # The alert may be lost where the connection is closed over the bytes that the gate has sent by then.
                self.assertTrue("TLS: " in told and reason in told or "reset by peer" in told, told)
                self.assertEqual((self.relay.connections, self.relay.bytes), (0, 0))
                # stunnel itself has a reason for each, which it may write after the gate has its alert.
                self.assertTrue(harness.until(lambda: re.search(STUNNEL[name], self.front.log.read_text()[said:])),
                                self.front.log.read_text()[said:])
        self.assertEqual(self.gate(*self.words()), (0, ANSWERS, ""))

    def test_whoever_shows_no_certificate_gets_nothing(self) -> None:
        self.serve()
        context = ssl.create_default_context(cafile=self.tls / "authority.pem")
        old = ssl.create_default_context(cafile=self.tls / "authority.pem")
        old.load_cert_chain(self.tls / "gates" / "7.pem", self.tls / "gates" / "7.key")
        with warnings.catch_warnings():
            warnings.simplefilter("ignore", DeprecationWarning)
            old.minimum_version, old.maximum_version = ssl.TLSVersion.TLSv1, ssl.TLSVersion.TLSv1_1
        old.set_ciphers("ALL:@SECLEVEL=0")
        for name, made in (("TLS without a certificate", context), ("TLS 1.1", old), ("plain TCP", None)):
            with self.subTest(name):
                came = b""
                with socket.create_connection(("127.0.0.1", self.front.port), TIME) as plain:
                    try:
                        line = made.wrap_socket(plain, server_hostname="127.0.0.1") if made else plain
                        line.sendall(bytes.fromhex(STDIN.read_text().split()[0]))
                        came = line.recv(100)
                    except OSError:
                        pass
                # A server of TLS may answer plain bytes by an alert of its own, but by no frame.
                self.assertNotIn(b"\x81", came[:3])
                self.assertEqual((self.relay.connections, self.relay.bytes), (0, 0))
        status, answers, _ = self.gate()
        self.assertEqual((status, answers, self.relay.bytes), (1, [], 0))

    def test_a_revoked_gate_is_kept_out_from_the_reload_on(self) -> None:
        self.serve()
        words = self.words("8")
        kept = [shutil.copy(path, self.folder) for path in words[2:]]
        context = ssl.create_default_context(cafile=words[1])
        context.load_cert_chain(*kept)
        frame = bytes.fromhex(STDIN.read_text().split()[0])

        def session(before: ssl.SSLSession | None = None) -> tuple[bytes, ssl.SSLSession | None]:
            """What is answered over a new connection, which may go on with the session of an earlier one."""
            with socket.create_connection(("127.0.0.1", self.front.port), TIME) as plain:
                with context.wrap_socket(plain, server_hostname="127.0.0.1", session=before) as line:
                    line.sendall(frame)
                    return line.recv(100), line.session

        for version in (ssl.TLSVersion.TLSv1_2, ssl.TLSVersion.TLSv1_3):
            context.minimum_version = context.maximum_version = ssl.TLSVersion.TLSv1_2
            context.maximum_version = context.minimum_version = version
            answer, last = session()
            self.assertEqual(answer[2], codec.REPLY)
        # One that is connected stays so; each new connection is refused, also one that goes on with a session.
        with socket.create_connection(("127.0.0.1", self.front.port), TIME) as plain:
            with context.wrap_socket(plain, server_hostname="127.0.0.1") as line:
                line.sendall(frame)
                self.assertEqual(line.recv(100)[2], codec.REPLY)
                self.assertEqual(authority("revoke", self.tls, "8")[0], 0)
                self.front.reload()
                before = self.relay.connections
                for went in (None, last):
                    with self.assertRaises(OSError):
                        self.assertEqual(session(went)[0], b"")
                        raise OSError("nothing came")
                self.assertEqual(self.relay.connections, before)
                line.sendall(frame)
                self.assertEqual(line.recv(100)[2], codec.REPLY)
        self.assertEqual(self.gate(*self.words("7")), (0, ANSWERS, ""))
        # A new certificate under its name lets it in again.
        self.assertEqual(authority("gate", self.tls, "8")[0], 0)
        self.assertEqual(self.gate(*self.words("8")), (0, ANSWERS, ""))

    def test_a_gate_sends_nothing_to_a_server_that_it_does_not_know(self) -> None:
        """One with a certificate of another authority, one that is of another name, and one that is a gate's."""
        self.serve()
        with self.subTest("foreign"):
            front = Stunnel(self.folder, "bovtrila.conf", changes(self.made / "other", self.relay.port))
            self.addCleanup(front.end)
            status, answers, told = self.gate(*self.words(), port=front.port)
            self.assertEqual((status, answers, self.relay.bytes), (1, [], 0))
            self.assertIn("the server's certificate: ", told)
        with self.subTest("another name"):
            front = Stunnel(self.folder, "bovtrila.conf", changes(self.tls, self.relay.port, "127.0.0.2"))
            self.addCleanup(front.end)
            status, answers, told = self.gate(*self.words(), host="127.0.0.2", port=front.port)
            self.assertEqual((status, answers, self.relay.bytes), (1, [], 0))
            self.assertIn("the server's certificate: IP address mismatch", told)
        with self.subTest("a gate's"):
            front = Stunnel(self.folder, "bovtrila.conf", (
                ("cert = /etc/bovtrila/tls/server.pem", f"cert = {self.tls}/gates/9.pem"),
                ("key = /etc/bovtrila/tls/server.key", f"key = {self.tls}/gates/9.key"),
                *changes(self.tls, self.relay.port)))
            self.addCleanup(front.end)
            status, answers, told = self.gate(*self.words(), port=front.port)
            self.assertEqual((status, answers, self.relay.bytes), (1, [], 0))
            self.assertIn("the server's certificate: ", told)

    def test_both_families_of_addresses_are_listened_on_without_a_clash(self) -> None:
        self.serve()
        front = Stunnel(self.folder, "bovtrila.conf", (
            (":::4015", f":::{harness.free_port()}"), ("/etc/bovtrila/tls", self.tls),
            ("127.0.0.1:4014", f"127.0.0.1:{self.relay.port}")))
        self.addCleanup(front.end)
        for host in ("127.0.0.1", "localhost"):
            self.assertEqual(self.gate(*self.words(), host=host, port=front.port), (0, ANSWERS, ""))
        socket.create_connection(("::1", front.port), TIME).close()
        self.assertNotIn("Address already in use", front.log.read_text())

    def test_a_gate_that_vanishes_is_asked_after(self) -> None:
        """The system asks after one that is silent, as the server lets it: within a minute."""
        if shutil.which("ss") is None:
            self.skipTest("a gate that vanishes: ss isn't installed (iproute2)")
        self.serve()
        with wire.Connection(("127.0.0.1", self.front.port), TIME, secured.Tls(*map(str, self.words()[1:]))) as line:
            line.send(codec.enquiry(1))
            line.take()
            limit, said = time.monotonic() + TIME, ""
            # What was sent has to be acknowledged first.
            while "keepalive" not in said and time.monotonic() < limit:
                said = subprocess.run(["ss", "-tnoH", "sport", "=", f":{self.front.port}"], capture_output=True,
                                      text=True,
                                      check=True).stdout
        self.assertRegex(said, r"timer:\(keepalive,(1min|[0-9]+sec),")

    def test_a_gate_without_tls_has_a_stunnel_of_its_own(self) -> None:
        self.serve()
        near = Stunnel(self.folder, "gate.conf", (
            ("accept = 127.0.0.1:4014", f"accept = 127.0.0.1:{harness.free_port()}"),
            ("gates.station:4015", f"127.0.0.1:{self.front.port}"),
            ("checkHost = gates.station", "checkHost = localhost"),
            ("/etc/bovtrila/authority.pem", self.tls / "authority.pem"),
            ("/etc/bovtrila/gate.pem", self.tls / "gates" / "7.pem"),
            ("/etc/bovtrila/gate.key", self.tls / "gates" / "7.key")))
        self.addCleanup(near.end)
        self.assertEqual(self.gate(port=near.port), (0, ANSWERS, ""))

    def test_a_server_through_tls_is_certified(self) -> None:
        """Ends of the gate's half, bad beginnings and hang-ups too: nothing of the protocol is lost."""
        station = next(station for station in vector_file.read() if station.name == "full")
        self.serve(cards=station.cards, capacity=station.capacity, table=station.table)
        done = subprocess.run([str(word) for word in (CERTIFY, f"127.0.0.1:{self.front.port}", "--server", "full",
                                                      *self.words())],
                              capture_output=True, text=True, timeout=5 * TIME)
        self.assertEqual(done.returncode, 0, done.stdout + done.stderr)
        self.assertRegex(done.stdout.splitlines()[-1], r"^[1-9]\d* passed, 0 failed$")

    def test_wrong_files_are_told(self) -> None:
        self.serve()
        for place in (1, 2, 3):
            words = self.words()
            words[place] = self.folder / "none"
            status, answers, told = self.gate(*words)
            self.assertEqual((status, answers, str(words[place]) in told), (1, [], True), told)
        words = self.words("7")
        words[3] = self.tls / "gates" / "8.key"
        self.assertEqual(self.gate(*words)[0], 1)


class Certificates(unittest.TestCase):
    """What bovtrila-authority makes."""

    def setUp(self) -> None:
        if shutil.which("openssl") is None:
            self.skipTest("certificates: openssl isn't installed")
        room = tempfile.TemporaryDirectory(prefix="gate-certificates-")
        self.addCleanup(room.cleanup)
        self.folder = pathlib.Path(room.name) / "tls"

    def begin(self, *more: str) -> tuple[int, str, str]:
        return authority("begin", self.folder, "--name", "gates.station", "--name", "192.168.7.2", *more)

    def told(self, path: pathlib.Path, *words: str) -> str:
        return subprocess.run(["openssl", "x509", "-noout", *words, "-in", path], check=True, capture_output=True,
                              text=True).stdout

    def test_what_is_there_stays(self) -> None:
        self.assertEqual(self.begin()[0], 0)
        self.assertEqual(authority("gate", self.folder, "7")[0], 0)
        before = {path: path.read_bytes() for path in self.folder.rglob("*") if path.is_file()}
        self.assertEqual((self.begin(), authority("gate", self.folder, "7")),
                         ((0, "", ""), (0, f"{self.folder}/gates/7.pem is there already\n", "")))
        self.assertEqual({path: path.read_bytes() for path in self.folder.rglob("*") if path.is_file()}, before)
        status, _, err = authority("begin", self.folder, "--name", "other.station")
        self.assertEqual((status, "was begun for DNS:gates.station, IP:192.168.7.2" in err), (1, True))

    def test_certificates_say_what_they_are_for(self) -> None:
        self.begin()
        authority("gate", self.folder, "7", "--days", "10")
        server, gate = self.folder / "server.pem", self.folder / "gates" / "7.pem"
        self.assertIn("DNS:gates.station, IP Address:192.168.7.2", self.told(server, "-ext", "subjectAltName"))
        self.assertIn("TLS Web Server Authentication", self.told(server, "-ext", "extendedKeyUsage"))
        self.assertIn("TLS Web Client Authentication", self.told(gate, "-ext", "extendedKeyUsage"))
        self.assertEqual(self.told(gate, "-subject").strip(), "subject=CN = 7")
        self.assertEqual(self.told(gate, "-ext", "basicConstraints").split()[-1], "CA:FALSE")
        self.assertIn("CA:TRUE", self.told(self.folder / "authority.pem", "-ext", "basicConstraints"))
        for path, is_over in ((gate, 1), (server, 0)):
            done = subprocess.run(["openssl", "x509", "-noout", "-checkend", str(11 * 86_400), "-in", path],
                                  capture_output=True)
            self.assertEqual(done.returncode, is_over, path)

    def test_a_wait_for_an_answer_ends_when_it_is_told_to(self) -> None:
        """As bovtrila-certify waits a moment for a server that must not answer yet, and reads on after that."""
        authority("begin", self.folder, "--name", "127.0.0.1")
        authority("gate", self.folder, "7")
        context = ssl.create_default_context(ssl.Purpose.CLIENT_AUTH, cafile=self.folder / "authority.pem")
        context.load_cert_chain(self.folder / "server.pem", self.folder / "server.key")
        listening, goes_on = socket.create_server(("127.0.0.1", 0)), threading.Event()
        self.addCleanup(listening.close)

        def answer() -> None:
            with context.wrap_socket(listening.accept()[0], server_side=True) as line:
                goes_on.wait(TIME)
                line.sendall(b"\1")

        answering = threading.Thread(target=answer, daemon=True)
        answering.start()
        gate = self.folder / "gates" / "7.pem"
        tls = secured.Tls(str(self.folder / "authority.pem"), str(gate), str(gate.with_suffix(".key")))
        with wire.Connection(listening.getsockname(), TIME, tls) as line:
            line.socket.settimeout(0.05)
            self.assertRaises(TimeoutError, line.read, 1)
            line.socket.settimeout(TIME)
            goes_on.set()
            self.assertEqual(line.read(1), b"\1")
        answering.join(TIME)

    def test_keys_are_read_by_their_owner_alone(self) -> None:
        self.begin()
        authority("gate", self.folder, "7")
        for path in self.folder.rglob("*.key"):
            self.assertEqual(path.stat().st_mode & 0o777, 0o600, path)
        for name in ("private", "gates"):
            self.assertEqual((self.folder / name).stat().st_mode & 0o777, 0o700)

    def test_the_list_tells_what_is_revoked(self) -> None:
        self.begin()
        authority("gate", self.folder, "7", "8")
        self.assertEqual(authority("revoke", self.folder, "8")[0], 0)
        status, _, err = authority("revoke", self.folder, "8")
        self.assertEqual((status, "gate 8 has no certificate" in err), (1, True))
        rows = [line.split()[:2] for line in authority("list", self.folder)[1].splitlines()]
        self.assertEqual(rows, [["server", "valid"], ["7", "valid"], ["8", "revoked"]])
        said = subprocess.run(["openssl", "crl", "-noout", "-text", "-in", self.folder / "revoked.pem"], check=True,
                              capture_output=True, text=True).stdout
        self.assertEqual(said.count("Serial Number:"), 1)

    def test_what_ends_soon_is_listed(self) -> None:
        self.begin("--days", "400")
        authority("gate", self.folder, "7", "9", "--days", "30")
        authority("gate", self.folder, "8", "--days", "31")
        authority("gate", self.folder, "10", "--days", "500")
        authority("revoke", self.folder, "9")
        for days, names in ((29, []), (30, ["7"]), (31, ["7", "8"]), (400, ["server", "7", "8"]),
                            (500, ["server", "7", "8", "10"]),
                            (7300, ["authority", "revocation list", "server", "7", "8", "10"])):
            with self.subTest(days):
                status, out, err = authority("list", self.folder, "--ending", str(days))
                self.assertEqual((status, [line[:16].strip() for line in out.splitlines()], err),
                                 (3 if names else 0, names, ""))
        # A certificate that was made anew no longer ends soon; the old one still counts.
        self.assertEqual(authority("renew", self.folder, "7")[0], 0)
        self.assertEqual([line.split()[0] for line in
                          authority("list", self.folder, "--ending", "40")[1].splitlines()], ["8"])
        rows = [line.split()[:2] for line in authority("list", self.folder)[1].splitlines()]
        self.assertEqual(rows.count(["7", "valid"]), 2)
        # Revoked, both are.
        authority("revoke", self.folder, "7")
        rows = [line.split()[:2] for line in authority("list", self.folder)[1].splitlines()]
        self.assertEqual((rows.count(["7", "valid"]), rows.count(["7", "revoked"])), (0, 2))
        self.assertEqual(authority("renew", self.folder, "7")[0], 1)

    def test_the_list_for_the_servers_machine_has_each_end(self) -> None:
        self.begin()
        authority("gate", self.folder, "7", "8", "--days", "30")
        authority("revoke", self.folder, "8")
        rows = [line.split(",") for line in (self.folder / "certificates").read_text().splitlines()]
        self.assertEqual([row[:2] for row in rows], [["name", "state"], ["server", "valid"], ["7", "valid"],
                                                     ["8", "revoked"]])
        said = self.told(self.folder / "gates" / "7.pem", "-serial", "-enddate", "-dateopt", "iso_8601")
        self.assertEqual(said, f"serial={rows[2][3]}\nnotAfter={rows[2][2].replace('T', ' ')}\n")

    def test_numbers_that_no_gate_has_are_refused(self) -> None:
        self.begin()
        for name, said in (("65536", "they go from 0 to 65535"), ("4294967296", "they go from 0 to 65535"),
                           ("007", "write 7")):
            status, _, err = authority("gate", self.folder, name)
            self.assertEqual((status, said in err), (2, True), err)
        self.assertEqual(list((self.folder / "gates").iterdir()), [])
        self.assertEqual(authority("gate", self.folder, "0", "65534", "office-2")[0], 0)
        self.assertEqual(len(list((self.folder / "gates").glob("*.pem"))), 3)

    def test_the_server_is_given_a_new_certificate(self) -> None:
        self.begin()
        before = self.told(self.folder / "server.pem", "-serial")
        self.assertEqual(authority("renew", self.folder)[0], 0)
        self.assertNotEqual(self.told(self.folder / "server.pem", "-serial"), before)
        subprocess.run(["openssl", "verify", "-CAfile", self.folder / "authority.pem", self.folder / "server.pem"],
                       check=True,
                       capture_output=True)

    def test_a_run_that_was_killed_is_given_again(self) -> None:
        for place in range(1, 100):
            shutil.rmtree(self.folder, ignore_errors=True)
            done = subprocess.run(killing.words(place, AUTHORITY, "begin", self.folder, "--name", "a.station"),
                                  capture_output=True,
                                  timeout=TIME)
            if done.returncode == 0:
                break
            self.assertEqual(authority("begin", self.folder, "--name", "a.station")[0], 0, place)
            for made in ("authority", "server"):
                subprocess.run(["openssl", "verify", "-CAfile", self.folder / "authority.pem",
                                self.folder / f"{made}.pem"],
                               check=True, capture_output=True)
        self.assertGreater(place, 10)
        for place in range(1, 100):
            authority("gate", self.folder, "7")
            done = subprocess.run(killing.words(place, AUTHORITY, "revoke", self.folder, "7"), capture_output=True,
                                  timeout=TIME)
            if done.returncode == 0:
                break
            authority("revoke", self.folder, "7")
            rows = [line.split()[:2] for line in authority("list", self.folder)[1].splitlines()]
            self.assertNotIn(["7", "valid"], rows, place)
        self.assertGreater(place, 3)

    def test_a_wrong_command_line_makes_nothing(self) -> None:
        wrong: tuple[list[str | pathlib.Path], ...] = (
            ["begin", self.folder], ["begin", self.folder, "--name", "a b"], ["gate", self.folder],
            ["other", self.folder],
            ["gate", self.folder, "../7"], ["begin", self.folder, "--name", "a", "--days", "0"])
        for words in wrong:
            self.assertEqual(authority(*words)[0], 2, words)
        self.assertEqual(authority("gate", self.folder, "7")[0], 1)
        self.assertFalse(self.folder.exists())
