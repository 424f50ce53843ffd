"""The tests of clients/wireshark/bovtrila.lua, for scripts/tests/test_gate_library.py: tshark on a capture that is made
here."""
import os
import pathlib
import re
import signal
import socket
import struct
import subprocess
import tempfile
import time
import unittest
import xml.etree.ElementTree as ElementTree
from collections.abc import Callable, Iterable
from typing import Any, TypeAlias

import clients
from bovtrila import codec, vector_file, wire
from harness import TIME, TOP

SCRIPT = TOP / "clients" / "wireshark" / "bovtrila.lua"
PAGE = TOP / "docs" / "reference" / "PROTOCOL.md"
# The fields of each kind behind its length, in the order of the page's table, with the bytes of each.
FORMS = {
    0x01: "gate number card station moment", 0x02: "gate number card station moment",
    0x03: "gate number card pence moment", 0x04: "gate number card moment", 0x05: "card",
    0x06: "gate number card digest day moment",
    0x81: "gate number verdict change balance", 0x85: "state balance front", 0xFF: "fault gate number",
}
ANSWERS = {0x81: ">HIBiq", 0x85: ">BqI", 0xFF: ">BHI"}
# What is shown of a frame: its packet's number and time, and each field's name, value and text.
Packet: TypeAlias = tuple[int, float, list[tuple[str, str, str]]]
STATES = {0: "vacant", 1: "outside", 2: "inside"}


def words_of(section: str) -> dict[int, str]:
    """The names that a table of the page gives to its codes."""
    text = PAGE.read_text().partition(f"\n## {section}\n")[2].partition("\n## ")[0]
    return {int(code): name for code, name in re.findall(r"(?m)^\| (\d+) \| (\w+) \|", text)}


def shown(name: str, value: Any) -> str:
    """How a field of this value is shown."""
    if name == "digest":
        return ":".join(f"{byte:02x}" for byte in value)
    if name == "moment":
        return time.strftime("%Y-%m-%d %H:%M:%S", time.gmtime(value))
    return str(value)


def fields_of(frame: bytes) -> list[tuple[str, str]]:
    """The fields that a frame has to be shown with."""
    kind = frame[2]
    values = struct.unpack(ANSWERS.get(kind) or codec.FORMS[kind].replace("B", "", 1), frame[3:])
    found = [("length", str(len(frame) - 2)), ("kind", f"0x{kind:02x}")]
    return found + [(name, shown(name, value)) for name, value in zip(FORMS[kind].split(), values, strict=True)]


class Line:
    """Both ends of a connection over the loopback."""

    def __init__(self, listening: socket.socket) -> None:
        self.gate = socket.create_connection(listening.getsockname())
        self.server = listening.accept()[0]
        for end in (self.gate, self.server):
            end.setsockopt(socket.IPPROTO_TCP, socket.TCP_NODELAY, 1)

    def end(self) -> None:
        self.gate.close()
        self.server.close()

    @staticmethod
    def move(sender: socket.socket, receiver: socket.socket, data: bytes, size: int | None = None) -> None:
        """Passes bytes from one end to the other, in pieces of a size."""
        size = size or len(data)
        for place in range(0, len(data), size):
            sender.sendall(data[place:place + size])
            left = len(data[place:place + size])
            while left:
                left -= len(receiver.recv(left))


@unittest.skipUnless(clients.there("tshark"), "tshark: not installed (packaging/debian-packages)")
class Dissector(unittest.TestCase):
    """What is shown of every vector, sent whole, many at once, and in pieces of a byte."""

    vectors = [(vector.request, vector.answer) for station in vector_file.read() for vector in station.vectors]
    first = vectors[:4]
    file: pathlib.Path
    port: int
    packets: list[Packet]

    @classmethod
    def setUpClass(cls) -> None:
        folder = tempfile.TemporaryDirectory()
        cls.addClassCleanup(folder.cleanup)
        cls.file = pathlib.Path(folder.name) / "capture.pcapng"
        with socket.create_server(("127.0.0.1", 0)) as listening:
            cls.port = listening.getsockname()[1]
            # On a busy machine a capture begins and ends late, and then it lacks packets.
            for pause in (1, 3, 10):
                cls.file.unlink(missing_ok=True)
                cls.capture(lambda: cls.send_all(listening), pause)
                cls.packets = cls.dissected()
                if len(cls.packets) == len(cls.expected()):
                    break

    @classmethod
    def capture(cls, send: Callable[[], object], pause: float) -> None:
        """Captures what passes while something is sent, and for a pause before and behind it."""
        words = ["tshark", "-q", "-i", "lo", "-f", f"tcp port {cls.port}", "-w", str(cls.file)]
        with tempfile.TemporaryFile("w+") as said:
            running = subprocess.Popen(words, stdin=subprocess.DEVNULL, stderr=said, env=dict(os.environ, LANG="C"))
            cls.addClassCleanup(running.kill)
            clients.wait_for(lambda: running.poll() is not None or cls.file.exists())
            if running.poll() is not None:
                said.seek(0)
                raise unittest.SkipTest(f"capturing on the loopback: {said.read().strip().splitlines()[-1:]}")
            time.sleep(pause)
            send()
            time.sleep(pause)
            running.send_signal(signal.SIGINT)
            running.wait(TIME)

    @classmethod
    def send_all(cls, listening: socket.socket) -> None:
        """The vectors, one by one; then the first example at once, and in pieces of a byte."""
        line = Line(listening)
        for request, answer in cls.vectors:
            line.move(line.gate, line.server, request)
            line.move(line.server, line.gate, answer)
            if wire.is_fault(answer, codec.BAD_FRAME):
                line.end()
                line = Line(listening)
        line.end()
        for size in (None, 1):
            line = Line(listening)
            line.move(line.gate, line.server, b"".join(request for request, _ in cls.first), size)
            line.move(line.server, line.gate, b"".join(answer for _, answer in cls.first), size)
            line.end()

    @classmethod
    def dissected(cls) -> list[Packet]:
        """Each part of the protocol that is shown, in order: its packet's number, time and length, its fields and
        notes."""
        words = ["tshark", "-2", "-X", f"lua_script:{SCRIPT}", "-r", str(cls.file), "-T", "pdml",
                 "-d", f"tcp.port=={cls.port},bovtrila"]
        done = subprocess.run(words, capture_output=True, text=True, timeout=TIME * 2, env=dict(os.environ, TZ="UTC"))
        wrong = [line for line in (done.stderr + done.stdout).split("\n") if re.search("Lua:? Error", line)]
        assert not wrong, wrong[:2]
        if done.returncode != 0:
            return []
        found: list[Packet] = []
        for packet in ElementTree.fromstring(done.stdout).iter("packet"):
            values = {field.get("name", ""): field.get("show", "") for field in packet.iter("field")}
            for part in packet.iter("proto"):
                if part.get("name") == "bovtrila":
                    fields = [(field.get("name", "").removeprefix("bovtrila."), field.get("show", ""),
                               field.get("showname", ""))
                              for field in part.iter("field") if field.get("name", "").startswith("bovtrila.")]
                    found.append((int(values["frame.number"]), float(values["frame.time_epoch"]), fields))
        return found

    @classmethod
    def expected(cls) -> list[bytes]:
        """What has to be shown of each vector and then of the first example, twice: requests and answers in order."""
        singly = [frame for pair in cls.vectors for frame in pair]
        at_once = [request for request, _ in cls.first] + [answer for _, answer in cls.first]
        return singly + 2 * at_once

    GENERATED = ("accepted", "response_in", "response_to", "response_time", "repeat_of", "bad_frame", "is_repeat",
                 "is_other", "is_fault")

    def test_each_field_is_shown_by_its_name(self) -> None:
        expected = self.expected()
        self.assertEqual(len(self.packets), len(expected))
        for (number, _, fields), frame in zip(self.packets, expected):
            with self.subTest(packet=number, frame=frame.hex()):
                got = [(name, show) for name, show, _ in fields if name not in self.GENERATED]
                got = [(name, re.sub(r'"|\.0+\b| UTC', "", show) if name == "moment" else show) for name, show in got]
                got = [(name, self.as_day(show) if name == "moment" else show) for name, show in got]
                is_whole = len(frame) > 2 and frame[2] in FORMS and wire.number_at(frame, 0, 2) == len(frame) - 2 and (
                    wire.is_request(frame) or frame[2] in ANSWERS)
                wanted = fields_of(frame) if is_whole else [("bad", ":".join(f"{byte:02x}" for byte in frame))]
                self.assertEqual(got, wanted)

    @staticmethod
    def as_day(text: str) -> str:
        """A moment as tshark writes it, in the form of `shown`."""
        for form in ("%b %d, %Y %H:%M:%S", "%Y-%m-%d %H:%M:%S", "%Y-%m-%dT%H:%M:%S"):
            try:
                return time.strftime("%Y-%m-%d %H:%M:%S", time.strptime(re.sub(r"\s+", " ", text), form))
            except ValueError:
                pass
        return text

    def test_verdicts_faults_and_states_are_shown_in_words(self) -> None:
        words = {"verdict": words_of("Verdicts"), "fault": words_of("Faults"), "state": STATES}
        seen: dict[str, set[int]] = {name: set() for name in words}
        for number, _, fields in self.packets:
            for name, show, showname in fields:
                if name in words:
                    self.assertIn(f"{words[name][int(show)]} ({show})", showname, number)
                    seen[name].add(int(show))
        self.assertEqual((seen["verdict"], seen["state"]), (set(words["verdict"]), set(STATES)))
        self.assertGreaterEqual(seen["fault"], {1, 2, 6})

    def test_answers_are_tied_to_their_requests(self) -> None:
        pairs = [(2 * place, 2 * place + 1) for place in range(len(self.vectors))]
        for start in (2 * len(self.vectors), 2 * len(self.vectors) + 8):
            pairs += [(start + place, start + 4 + place) for place in range(4)]
        for asked, answered in pairs:
            request, answer = self.packets[asked], self.packets[answered]
            with self.subTest(packet=request[0]):
                ties = {name: show for name, show, _ in request[2] + answer[2] if name.startswith("response")}
                self.assertEqual((ties["response_in"], ties["response_to"]), (str(answer[0]), str(request[0])))
                self.assertAlmostEqual(float(ties["response_time"]), answer[1] - request[1], 6)

    def test_repeats_and_conflicts_are_marked(self) -> None:
        first: dict[bytes, tuple[int, bytes]] = {}
        for (number, _, fields), frame in zip(self.packets, self.expected()):
            if not wire.is_touch(frame) or not wire.is_request(frame):
                continue
            marks = {name: show for name, show, _ in fields if name in ("repeat_of", "is_repeat", "is_other")}
            before, same = first.setdefault(frame[3:9], (number, frame))
            wanted: set[str] = set()
            if before != number or same is not frame:
                wanted = {"repeat_of", "is_repeat"} if same == frame else {"is_other"}
            with self.subTest(packet=number, frame=frame.hex()):
                self.assertEqual(set(marks), wanted)
                self.assertEqual(marks.get("repeat_of", str(before)), str(before))

    def test_a_new_kind_is_shown_by_the_rows_of_the_tables(self) -> None:
        text = SCRIPT.read_text()
        for table, row in (("kinds", '[0x07] = "Block",'), ("lengths", "[0x07] = 15,"),
                           ("fields", '[0x07] = { { "gate", 2 }, { "number", 4 }, { "card", 4 }, { "moment", 4 } },')):
            self.assertEqual(text.count(f"-- end: {table}\n"), 1)
            text = text.replace(f"-- end: {table}\n", f"{row}\n")
        script, dump, capture = (self.file.with_name(name) for name in ("new.lua", "new.txt", "new.pcapng"))
        script.write_text(text)
        dump.write_text("0000 " + bytes.fromhex("000f 07 0007 00000009 00000003 677b8b28").hex(" ") + "\n")
        subprocess.run(["text2pcap", "-q", "-T", "50000,4014", dump, capture], check=True, capture_output=True, timeout=TIME)
        fields = ["-T", "fields", "-e", "bovtrila.gate", "-e", "bovtrila.number", "-e", "bovtrila.card"]
        rows: list[tuple[list[str], str]] = [([], "Block 7/9: card 3\n"), (fields, "7\t9\t3\n")]
        for more, wanted in rows:
            done = subprocess.run(["tshark", "-X", f"lua_script:{script}", "-r", str(capture), *more], capture_output=True,
                                  text=True, timeout=TIME)
            self.assertIn(wanted, done.stdout, done.stderr)

    def read_behind(self, pieces: Iterable[bytes]) -> list[list[str]]:
        """What is shown of a connection whose requests come in these packets: of each packet the line, the name of the
        certificate and the gate, and the address family that Wireshark itself shows of a header."""
        dump, capture = self.file.with_name("pieces.txt"), self.file.with_name("pieces.pcapng")
        dump.write_text("".join(f"0000 {piece.hex(' ')}\n" for piece in pieces))
        subprocess.run(["text2pcap", "-q", "-T", "50000,4014", dump, capture], check=True, capture_output=True, timeout=TIME)
        words = ["tshark", "-2", "-X", f"lua_script:{SCRIPT}", "-r", str(capture), "-T", "fields"]
        for field in ("_ws.col.Info", "bovtrila.certificate", "bovtrila.gate", "proxy.v2.addr_family"):
            words += ["-e", field]
        done = subprocess.run(words, capture_output=True, text=True, check=True, timeout=TIME)
        self.assertNotRegex(done.stderr, "Lua:? Error")
        rows = [line.split("\t") for line in done.stdout.splitlines()]
        # Its form, 1 or 0x01, is a matter of tshark.
        return [[*row[:3], row[3] and str(int(row[3], 0))] for row in rows]

    def test_the_header_of_haproxy_is_shown_with_the_certificates_name(self) -> None:
        signature = "0d0a0d0a000d0a515549540a"
        issue, enquiry = bytes.fromhex("000f0400070000000100000001677b8b28"), bytes.fromhex("00050500000001")
        # TCP over IPv4 from 10.0.0.7 port 50000 to 10.0.0.1 port 4015, and TLS with the name gate-7.
        named = bytes.fromhex(f"{signature} 21 11 001d 0a000007 0a000001 c350 0faf"
                              "20 000e 03 00000000 22 0006 676174652d37")
        # TCP over IPv6, a number of the connection, and TLS with its version and the name barrier-12.
        longer = bytes.fromhex(f"{signature} 21 21 004a {'00' * 15} 07 {'00' * 15} 01 c350 0faf 05 0004 00000009"
                               "20 001c 03 00000000 21 0007 544c5376312e33 22 000a 626172726965722d3132")
        local = bytes.fromhex(f"{signature} 20 00 0000")
        touched, asked = "Issue 7/1: card 1", "Enquiry of card 1"
        for name, pieces, wanted in (
            ("in one packet", [named + issue], [[f"PROXY header of gate-7; {touched}", "gate-7", "7", "1"]]),
            ("another address", [longer, enquiry],
             [["PROXY header of barrier-12", "barrier-12", "", "2"], [asked, "", "", ""]]),
            ("no certificate", [local + enquiry, issue],
             [[f"PROXY header; {asked}", "", "", "0"], [touched, "", "7", ""]]),
        ):
            with self.subTest(name):
                self.assertEqual(self.read_behind(pieces), wanted)

    def test_a_header_in_pieces_is_shown_once(self) -> None:
        whole = bytes.fromhex("0d0a0d0a000d0a515549540a 20 00 0000 00050500000001")
        lines = self.read_behind(whole[place:place + 1] for place in range(len(whole)))
        shown = [line[0] for line in lines if not re.search(r"reassembled|→", line[0])]
        self.assertEqual(shown, ["PROXY header", "Enquiry of card 1"])

    def test_a_header_behind_a_request_is_no_frame(self) -> None:
        header, enquiry = bytes.fromhex("0d0a0d0a000d0a515549540a 20 00 0000"), bytes.fromhex("00050500000001")
        self.assertEqual([line[0] for line in self.read_behind([enquiry, header])], ["Enquiry of card 1", "No frame"])
        self.assertEqual([line[0] for line in self.read_behind([header + header])], ["PROXY header; No frame"])

    def test_the_pieces_were_of_a_byte(self) -> None:
        words = ["tshark", "-r", str(self.file), "-Y", "tcp.len == 1", "-T", "fields", "-e", "frame.number"]
        lines = subprocess.run(words, capture_output=True, text=True, check=True).stdout.split()
        self.assertGreaterEqual(len(lines), sum(len(request) + len(answer) for request, answer in self.first) - 20)
