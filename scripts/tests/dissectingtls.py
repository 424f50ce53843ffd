"""The tests of clients/wireshark/bovtrila.lua on what passes below TLS and to several servers, for
scripts/tests/test_gate_library.py."""
import concurrent.futures
import os
import pathlib
import re
import signal
import socket
import ssl
import subprocess
import tempfile
import time
import unittest
import xml.etree.ElementTree as ElementTree
from collections.abc import Iterable, Sequence

import clients
from bovtrila import vector_file
from dissecting import Line, SCRIPT, fields_of
from harness import TIME, TOP

README = TOP / "clients" / "wireshark" / "README.md"
VERSIONS = ssl.TLSVersion.TLSv1_2, ssl.TLSVersion.TLSv1_3


class SecuredLine(Line):
    """Both ends of a connection over the loopback below TLS of a version, whose keys go to a file."""

    def __init__(self, listening: socket.socket, version: ssl.TLSVersion, certificate: pathlib.Path,
                 keys: pathlib.Path) -> None:
        super().__init__(listening)
        of_server, of_gate = ssl.SSLContext(ssl.PROTOCOL_TLS_SERVER), ssl.SSLContext(ssl.PROTOCOL_TLS_CLIENT)
        for context in (of_server, of_gate):
            context.minimum_version = context.maximum_version = version
        of_server.load_cert_chain(certificate)
        of_gate.check_hostname, of_gate.verify_mode = False, ssl.CERT_NONE
        of_gate.keylog_filename = str(keys)
        self.gate = of_gate.wrap_socket(self.gate, do_handshake_on_connect=False)
        self.server = of_server.wrap_socket(self.server, server_side=True, do_handshake_on_connect=False)
        # Each end waits for the other.
        with concurrent.futures.ThreadPoolExecutor(2) as both:
            for done in [both.submit(end.do_handshake) for end in (self.gate, self.server)]:
                done.result(TIME)

    def together(self, frames: Sequence[bytes]) -> None:
        """Sends frames to the server in a record each, and all records in one packet."""
        self.gate.setsockopt(socket.IPPROTO_TCP, socket.TCP_CORK, 1)
        for frame in frames:
            self.gate.sendall(frame)
        self.gate.setsockopt(socket.IPPROTO_TCP, socket.TCP_CORK, 0)
        left = sum(map(len, frames))
        while left:
            left -= len(self.server.recv(left))


@unittest.skipUnless(clients.there("tshark", "openssl"), "tshark, openssl: not installed (packaging/debian-packages)")
class Apart(unittest.TestCase):
    """One capture of two plain servers that get the same touches, and of sessions below TLS."""

    first = [(vector.request, vector.answer) for vector in vector_file.read()[0].vectors[:4]]
    other = first[0][0][:-1] + b"\0"
    folder: pathlib.Path
    file: pathlib.Path
    keys: pathlib.Path
    certificate: pathlib.Path
    listening: list[socket.socket]
    ports: list[int]
    shown: dict[int, list[tuple[str, dict[str, str]]]]

    @classmethod
    def setUpClass(cls) -> None:
        folder = tempfile.TemporaryDirectory()
        cls.addClassCleanup(folder.cleanup)
        cls.folder = pathlib.Path(folder.name)
        cls.file, cls.keys, cls.certificate = (cls.folder / name for name in ("capture.pcapng", "keys", "server.pem"))
        subprocess.run(["openssl", "req", "-x509", "-newkey", "rsa:2048", "-nodes", "-subj", "/CN=server", "-days", "2",
                        "-keyout", cls.certificate, "-out", cls.folder / "only.pem"], check=True, capture_output=True)
        with open(cls.certificate, "a") as whole:
            whole.write((cls.folder / "only.pem").read_text())
        cls.listening = [socket.create_server(("127.0.0.1", 0)) for _ in range(4)]
        for each in cls.listening:
            cls.addClassCleanup(each.close)
        cls.ports = [each.getsockname()[1] for each in cls.listening]
        # On a busy machine a capture begins and ends late, and then it lacks packets.
        for pause in (1, 3, 10):
            cls.file.unlink(missing_ok=True)
            cls.keys.unlink(missing_ok=True)
            cls.capture(pause)
            cls.shown = cls.dissected()
            if all(cls.shown.values()):
                break

    @classmethod
    def capture(cls, pause: float) -> None:
        """Captures what passes while all is sent, and for a pause before and behind it."""
        ports = " or ".join(f"tcp port {port}" for port in cls.ports)
        words = ["tshark", "-q", "-i", "lo", "-f", ports, "-w", str(cls.file)]
        with tempfile.TemporaryFile("w+") as said:
            running = subprocess.Popen(words, stdin=subprocess.DEVNULL, stderr=said, env=dict(os.environ, LANG="C"))
            cls.addClassCleanup(running.kill)
            clients.wait_for(lambda: running.poll() is not None or cls.file.exists())
            if running.poll() is not None:
                said.seek(0)
                raise unittest.SkipTest(f"capturing on the loopback: {said.read().strip().splitlines()[-1:]}")
            time.sleep(pause)
            cls.send_plain()
            cls.send_secured()
            time.sleep(pause)
            running.send_signal(signal.SIGINT)
            running.wait(TIME)

    @classmethod
    def send_plain(cls) -> None:
        """The first touches to each of two servers; then one again, another one under its name, and one that isn't
        answered."""
        for listening in cls.listening[:2]:
            line = Line(listening)
            for request, answer in cls.first:
                line.move(line.gate, line.server, request)
                line.move(line.server, line.gate, answer)
            line.move(line.gate, line.server, cls.first[0][0])
            line.move(line.server, line.gate, cls.first[0][1])
            line.move(line.gate, line.server, cls.other)
            line.move(line.server, line.gate, bytes.fromhex("0008ff02000700000001"))
            line.move(line.gate, line.server, cls.first[1][0])
            line.end()

    @classmethod
    def send_secured(cls) -> None:
        """The first touches below TLS: one by one, all in one record, and a record each in one packet."""
        requests, answers = zip(*cls.first)
        for listening, version in zip(cls.listening[2:], VERSIONS):
            line = SecuredLine(listening, version, cls.certificate, cls.keys)
            for request, answer in cls.first:
                line.move(line.gate, line.server, request)
                line.move(line.server, line.gate, answer)
            line.move(line.gate, line.server, b"".join(requests))
            line.move(line.server, line.gate, b"".join(answers))
            line.together(requests)
            line.move(line.server, line.gate, b"".join(answers))
            line.end()

    @classmethod
    def words(cls, *more: str) -> list[str]:
        """The arguments with which tshark reads the capture."""
        plain, secured = cls.ports[:2], cls.ports[2:]
        words = ["tshark", "-X", f"lua_script:{SCRIPT}", "-r", str(cls.file), "-o", f"tls.keylog_file:{cls.keys}", *more]
        for port in plain:
            words += ["-d", f"tcp.port=={port},bovtrila"]
        for port in secured:
            words += ["-d", f"tcp.port=={port},tls", "-d", f"tls.port=={port},bovtrila"]
        return words

    @classmethod
    def dissected(cls) -> dict[int, list[tuple[str, dict[str, str]]]]:
        """What is shown of each server's sessions, by its port: the packet's number and the fields of each frame, in
        order."""
        done = subprocess.run(cls.words("-2", "-T", "pdml"), capture_output=True, text=True, timeout=TIME * 2)
        wrong = [line for line in (done.stderr + done.stdout).split("\n") if re.search("Lua:? Error", line)]
        assert not wrong, wrong[:2]
        found: dict[int, list[tuple[str, dict[str, str]]]] = {port: [] for port in cls.ports}
        for packet in ElementTree.fromstring(done.stdout).iter("packet") if done.returncode == 0 else ():
            values = {field.get("name", ""): field.get("show", "") for field in packet.iter("field")}
            port, = {int(values["tcp.srcport"]), int(values["tcp.dstport"])} & set(cls.ports)
            for part in packet.iter("proto"):
                if part.get("name") == "bovtrila":
                    fields = {field.get("name", "").removeprefix("bovtrila."): field.get("show", "")
                              for field in part.iter("field") if field.get("name", "").startswith("bovtrila.")}
                    found[port].append((values["frame.number"], fields))
        return found

    def check_shown(self, port: int, frames: Sequence[bytes]) -> None:
        """Each frame is shown, by its fields but the moment, whose form is a matter of tshark."""
        self.assertEqual(len(self.shown[port]), len(frames))
        for (number, fields), frame in zip(self.shown[port], frames):
            for name, value in fields_of(frame):
                if name != "moment":
                    self.assertEqual(fields[name], value, f"packet {number}, {frame.hex()}")

    def test_sessions_below_tls_are_shown(self) -> None:
        singly = [frame for pair in self.first for frame in pair]
        at_once = [request for request, _ in self.first] + [answer for _, answer in self.first]
        for port in self.ports[2:]:
            with self.subTest(port=port):
                self.check_shown(port, singly + at_once + at_once)

    def check_tied(self, port: int, pairs: Iterable[tuple[int, int]]) -> None:
        for asked, answered in pairs:
            with self.subTest(port=port, asked=asked):
                request, answer = self.shown[port][asked], self.shown[port][answered]
                self.assertEqual((request[1].get("response_in"), answer[1].get("response_to")), (answer[0], request[0]))

    def test_answers_are_tied_to_the_requests_of_their_connection(self) -> None:
        pairs = [(2 * place, 2 * place + 1) for place in range(6)]
        for port in self.ports[:2]:
            self.check_tied(port, pairs)
            self.assertNotIn("response_in", self.shown[port][12][1])

    def test_answers_below_tls_are_tied_to_their_requests(self) -> None:
        pairs = [(2 * place, 2 * place + 1) for place in range(4)]
        pairs += [(start + place, start + 4 + place) for start in (8, 16) for place in range(4)]
        for port in self.ports[2:]:
            self.check_tied(port, pairs)
        # What was sent at first isn't marked, and all that came again is.
        shown = self.shown[self.ports[2]]
        marked = [place for place, (_, fields) in enumerate(shown) if "repeat_of" in fields]
        self.assertEqual(marked, [*range(8, 12), *range(16, 20)])

    def test_the_same_touch_to_another_server_is_no_repeat(self) -> None:
        plain = [frame for pair in self.first for frame in pair]
        plain += [*self.first[0], self.other, bytes.fromhex("0008ff02000700000001"), self.first[1][0]]
        for port in self.ports[:2]:
            with self.subTest(port=port):
                self.check_shown(port, plain)
                marks = {place: sorted({"repeat_of", "is_repeat", "is_other"} & set(fields))
                         for place, (_, fields) in enumerate(self.shown[port])}
                self.assertEqual({place: names for place, names in marks.items() if names},
                                 {8: ["is_repeat", "repeat_of"], 10: ["is_other"], 12: ["is_repeat", "repeat_of"]})
                self.assertEqual(self.shown[port][8][1]["repeat_of"], self.shown[port][0][0])

    def test_the_command_of_the_page_shows_what_has_no_answer(self) -> None:
        command, = re.findall(r"^\$ tshark (-2 .*-Y '(.*)')$", README.read_text(), re.M)
        self.assertIn(f"`{command[1]}`", README.read_text())
        done = subprocess.run(self.words("-2", "-Y", command[1], "-T", "fields", "-e", "frame.number"), check=True,
                              capture_output=True, text=True)
        self.assertEqual(done.stdout.split(), [self.shown[port][12][0] for port in self.ports[:2]])
