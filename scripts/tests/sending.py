"""Shared by the tests of gate_send: a folder with a gate's file and a server's journal, and touches with their
answers."""
import pathlib
import shutil
import socket
import struct
import subprocess
import tempfile
import threading
from collections.abc import Iterable, Sequence
from typing import Any, TypeAlias

import harness
from bovtrila import codec, layout
from harness import CRATES, EXAMPLE, PROGRAM, TIME
from running import Server

# A run's status, the lines that it printed, and what stands on standard error.
Ended: TypeAlias = tuple[int, list[str], str]

GATE_SEND = CRATES / "gate_send" / "out" / "gate_send"
# A card's first morning, and what it is answered: docs/reference/PROTOCOL.md, "Requests and their answers".
MORNING = ["at 1736149800 issue 1", "at 1736150100 top-up 1 2000", "at 1736150400 in 1 2", "at 1736151900 out 1 1"]
ANSWERED = ["7,1,1,issue,,,Issued,0,0", "7,2,1,top-up,,2000,ToppedUp,2000,2000", "7,3,1,in,2,,Entered,-900,1100",
            "7,4,1,out,1,,Exited,550,1650"]
FRAMES = [codec.touch(codec.ISSUE, 7, 1, 1, 1736149800), codec.touch(codec.TOP_UP, 7, 2, 1, 2000, 1736150100),
          codec.touch(codec.ENTER, 7, 3, 1, 2, 1736150400), codec.touch(codec.LEAVE, 7, 4, 1, 1, 1736151900)]


class SendTest(harness.ProgramTest):
    """A folder with a gate's file and a station's journal."""

    # Where the folder is made: where temporary files are, unless another place is named.
    ROOM: str | None = None

    @classmethod
    def setUpClass(cls) -> None:
        super().setUpClass()
        if not GATE_SEND.is_file():
            raise FileNotFoundError(f"{GATE_SEND} isn't there: run 'rt run' in crates/gate_send, or 'rt ci'")

    def setUp(self) -> None:
        room = tempfile.TemporaryDirectory(prefix="gate-sends-", dir=self.ROOM)
        self.addCleanup(room.cleanup)
        self.folder = pathlib.Path(room.name)
        self.file = self.folder / "gate7.touches"

    def station(self, listen: str = "127.0.0.1:0", **options: Any) -> Server:
        """A station on this address, with its journal in the folder."""
        server = Server(self.folder, connections=None, lines=4, listen=listen, **options)
        self.addCleanup(server.kill)
        return server

    # A station that is there has answered by then, however busy the machine and its disk are.
    TIMEOUT = 30_000

    def words(self, *more: object, gate: int | str = 7, timeout: int = TIMEOUT, pause: int = 5) -> list[str]:
        return [str(GATE_SEND), "--gate", str(gate), "--file", str(self.file), "--timeout", str(timeout),
                "--pause", str(pause), *map(str, more)]

    def send(self, lines: Iterable[str], *more: object, gate: int | str = 7, timeout: int = TIMEOUT,
             pause: int = 5) -> Ended:
        """A run on these lines: its status, the lines that it printed, and what stands on standard error."""
        given = "".join(f"{line}\n" for line in lines)
        words = self.words(*more, gate=gate, timeout=timeout, pause=pause)
        done = subprocess.run(words, input=given, capture_output=True, text=True, timeout=TIME)
        return done.returncode, done.stdout.splitlines(), done.stderr

    def assertFault(self, ended: Ended, fault: str, out: Iterable[str] = ()) -> list[str]:
        status, said, err = ended
        self.assertEqual((status, said, err.splitlines()[0] if err else ""), (1, list(out), fault), err)
        behind = err.splitlines()[1:]
        self.assertTrue(all(line.startswith("  ") for line in behind), err)
        return behind

    def history(self) -> list[str]:
        """The station's history, each row from the field of the gate on."""
        journal = self.folder / "copied"
        shutil.copy(self.folder / "journal", journal)
        done = subprocess.run([PROGRAM, "history", "--table", EXAMPLE, "--journal", journal], capture_output=True,
                              text=True, timeout=TIME, check=True)
        return [row.split(",", 3)[3] for row in done.stdout.splitlines()[1:]]

    def kept(self) -> list[bytes]:
        """The frames of the touches in the gate's file."""
        return touches_in(self.file.read_bytes(), tag(7)) or [] if self.file.is_file() else []


class Scripted:
    """A station that answers each request by the next of some bytes, and hangs up where these are None."""

    def __init__(self, answers: Iterable[bytes | None]) -> None:
        self.answers = list(answers)
        self.requests: list[bytes] = []
        self.listening = socket.create_server(("127.0.0.1", 0))
        self.address = f"127.0.0.1:{self.listening.getsockname()[1]}"
        threading.Thread(target=self.serve, daemon=True).start()

    def serve(self) -> None:
        while self.answers:
            gate, _ = self.listening.accept()
            with gate:
                while self.answers:
                    head = gate.recv(2, socket.MSG_WAITALL)
                    if len(head) < 2:
                        break
                    self.requests.append(head + gate.recv(int.from_bytes(head, "big"), socket.MSG_WAITALL))
                    answer = self.answers.pop(0)
                    if answer is None:
                        break
                    gate.sendall(answer)
        self.listening.close()


def reply(number: int, verdict: int, change: int, balance: int, gate: int = 7) -> bytes:
    return codec.framed(">BHIBiq", codec.REPLY, gate, number, verdict, change, balance)


def touches_in(data: bytes, digest: bytes) -> list[bytes] | None:
    """The frames of the touches in a journal with this digest, or in a gate's file with it as its tag, read by the format of
    docs/reference/JOURNAL.md; `None` where these bytes are none."""
    if len(data) < 65 or data[0] != 0xA5:
        return None
    if data[1:9] != b"OYSTERJ2" or data[17:49] != digest:
        raise AssertionError(f"another header: {data[:64].hex()}")
    found: list[bytes] = []
    capacity = int.from_bytes(data[9:13], "big")
    sizes = {codec.ISSUE: 15, codec.TOP_UP: 19, codec.ENTER: 17, codec.LEAVE: 17}
    while len(found) < capacity:
        slot = data[64 + 64 * len(found):][:64]
        if slot and slot[0] != 0xA5:
            break
        if len(slot) < 64 or slot[1] not in sizes:
            raise AssertionError(f"slot {len(found)} is damaged: {slot.hex()}")
        size = sizes[slot[1]]
        found.append(size.to_bytes(2, "big") + slot[1:1 + size])
    return found


def tag(gate: int) -> bytes:
    """What stands in a gate's file in the place of a digest (docs/reference/JOURNAL.md, "A gate's file")."""
    return b"touches of one gate, by number" + gate.to_bytes(2, "big")


def file_of(frames: Sequence[bytes], capacity: int, gate: int) -> bytes:
    """The bytes of a gate's file with the touches of these frames."""
    content = layout.journal_of(frames, capacity, 1, tag(gate))
    return content if len(frames) < capacity else content[:-1]


def address_of(server: Server) -> str:
    host, port = server.address
    return f"{host}:{port}"


def free_address() -> str:
    """An address on which nobody listens."""
    return f"127.0.0.1:{harness.free_port()}"


def town(count: int) -> tuple[list[str], list[bytes], list[str]]:
    """So many touches, four for each card as on the morning of the page: their lines, their frames, and what they are
    answered."""
    acts = ["issue {}", "top-up {} 2000", "in {} 2", "out {} 1"]
    told = [row.split(",", 3)[3] for row in ANSWERED]
    moments = [line.split()[1] for line in MORNING]
    lines, frames, wanted = [], [], []
    for at in range(count):
        card, part = at // 4 + 1, at % 4
        lines.append(f"at {moments[part]} {acts[part].format(card)}")
        frames.append(FRAMES[part][:5] + struct.pack(">II", at + 1, card) + FRAMES[part][13:])
        wanted.append(f"7,{at + 1},{card},{told[part]}")
    return lines, frames, wanted
