# SPDX-License-Identifier: Apache-2.0
"""Frames in words, connections, and files of requests: for the commands that talk with a server.

The lines between a comment `generated` and a comment `end` are generated from the server's code: don't edit them by hand.
codec.py, by which the reference model and tests write frames, has tables of its own.
"""
import argparse
import datetime
import pathlib
import socket
import struct
from typing import TYPE_CHECKING, Any, Self

from bovtrila import codec

if TYPE_CHECKING:
    from bovtrila import secured

# Host and port.
Address = tuple[str, int]

# generated: frames
# What each kind of request and of answer is called, and the fields and the form (struct) of its body.
KINDS = {
    0x01: "touch in", 0x02: "touch out", 0x03: "top-up", 0x04: "issue", 0x05: "enquiry", 0x06: "revision",
}
ANSWER_KINDS = {
    0x81: "reply", 0x85: "enquiry answer", 0xff: "fault",
}
FIELDS = {
    0x01: "gate number card station moment", 0x02: "gate number card station moment",
    0x03: "gate number card pence moment", 0x04: "gate number card moment", 0x05: "card",
    0x06: "gate number card digest day moment", 0x81: "gate number verdict change balance", 0x85: "state balance front",
    0xff: "code gate number",
}
FORMS = {
    0x01: ">BHIIHI", 0x02: ">BHIIHI", 0x03: ">BHIIII", 0x04: ">BHIII", 0x05: ">BI", 0x06: ">BHII32siI", 0x81: ">BHIBiq",
    0x85: ">BBqI", 0xff: ">BBHI",
}
# end: frames
# How many bytes the body of each kind has.
REQUESTS = {kind: struct.calcsize(FORMS[kind]) for kind in KINDS}
ANSWERS = {kind: struct.calcsize(FORMS[kind]) for kind in ANSWER_KINDS}

VERDICTS = {
    # generated: verdicts
    1: "in",
    2: "in, the journey goes on",
    3: "in, the last touch in was left open",
    4: "out",
    5: "out without a touch in",
    6: "out too late",
    7: "topped up",
    8: "issued",
    9: "revised",
    20: "refused: no such card",
    21: "refused: issued already",
    22: "refused: no such station",
    23: "refused: earlier than the card's last touch",
    24: "refused: the balance is too low",
    25: "refused: no such amount",
    26: "refused: above the balance limit",
    27: "refused: a day with travel, or not above the last revision's",
    # end: verdicts
}
# From this verdict on a touch is refused.
# generated: limits
FIRST_REFUSAL = 20
# end: limits
# A touch in or out opens the barrier by these verdicts, and by those that accept and have no meaning yet.
# generated: opening
OPENING = (1, 2, 3, 4, 5, 6)
# end: opening
# After these faults to its last send a gate may give a touch up: a repeat at once doesn't change them.
LASTING = (codec.CONFLICT, codec.FULL, codec.UNKNOWN_TABLE, codec.NOT_ALLOWED)
STATES = {0: "vacant", 1: "outside", 2: "inside"}
FAULTS = {
    # generated: faults
    1: "bad frame, the session ends",
    2: "conflict: the number stands for another touch",
    3: "halted: the station's disk has failed",
    4: "no memory, send it again",
    5: "full: the journal takes no new touch",
    6: "unknown table: the server wasn't started with it, and recorded nothing",
    7: "not allowed: the server's door didn't let this request through, which changed nothing",
    # end: faults
}


class Wrong(Exception):
    """What was given or answered can't be right. The text says what, and where."""


def number_at(frame: bytes, start: int, size: int, signed: bool = False) -> int:
    """The number at a place of a frame, big-endian."""
    return int.from_bytes(frame[start : start + size], "big", signed=signed)


def is_touch(frame: bytes) -> bool:
    """Whether a request's frame begins as a touch does: it has a gate and a number, as each but an enquiry."""
    return len(frame) > 2 and frame[2] in REQUESTS and frame[2] != codec.ENQUIRE


def is_request(frame: bytes) -> bool:
    """Whether these bytes are exactly one request's frame."""
    return len(frame) > 2 and REQUESTS.get(frame[2]) == number_at(frame, 0, 2) == len(frame) - 2


def is_fault(answer: bytes, *codes: int) -> bool:
    """Whether an answer is a fault of one of these codes, or any fault where none is named."""
    return answer[2] == codec.FAULT and (not codes or answer[3] in codes)


def name_of(frame: bytes) -> bytes:
    """The six bytes of gate and number, of a touch or of the answer to one."""
    start = 4 if frame[2] == codec.FAULT else 3
    return frame[start : start + 6]


def gate_and_number(name: bytes) -> str:
    return f"gate {number_at(name, 0, 2)} number {number_at(name, 2, 4)}"


def opens(request: bytes, answer: bytes) -> bool:
    """Whether a gate opens its barrier by this answer to this request."""
    if request[2:3] not in (bytes([codec.ENTER]), bytes([codec.LEAVE])) or answer[2] != codec.REPLY:
        return False
    if name_of(answer) != request[3:9]:
        return False
    return answer[9] in OPENING or answer[9] < FIRST_REFUSAL and answer[9] not in VERDICTS


def in_words(request: bytes, answer: bytes) -> str:
    """What the answer to a request says."""
    if answer[2] == codec.REPLY:
        verdict, change = answer[9], number_at(answer, 10, 4, signed=True)
        told = VERDICTS.get(verdict, f"verdict {verdict}")
        return f"{told}; change {change}, balance {number_at(answer, 14, 8, signed=True)}"
    if answer[2] == codec.HOLDING:
        card = f"card {number_at(request, 3, 4)} " if request[2] == codec.ENQUIRE else ""
        state = STATES.get(answer[3], f"state {answer[3]}")
        balance, front = number_at(answer, 4, 8, signed=True), number_at(answer, 12, 4)
        return f"{card}{state}; balance {balance}, after {front} touches"
    return f"fault {answer[3]}: {FAULTS.get(answer[3], 'unknown')}"


# What a field's number stands for.
MEANINGS = {"verdict": VERDICTS, "state": STATES, "code": FAULTS}


def fields_of(frame: bytes) -> dict[str, Any]:
    """The fields of a frame behind its kind, by their names: numbers, and of a revision the bytes of a digest."""
    _, *values = struct.unpack(FORMS[frame[2]], frame[2:])
    return dict(zip(FIELDS[frame[2]].split(), values, strict=True))


def value_in_words(name: str, value: int | bytes) -> str:
    """A field's value, with what it stands for."""
    if isinstance(value, bytes):
        return value.hex()
    if name == "moment":
        clock = datetime.datetime.fromtimestamp(value, datetime.timezone.utc)
        return f"{value} ({clock:%Y-%m-%d %H:%M:%S} UTC)"
    said = MEANINGS.get(name, {}).get(value)
    return f"{value} ({said})" if said else str(value)


def fields(frame: bytes) -> str:
    """A whole frame by its kind and its fields."""
    kind = KINDS.get(frame[2]) or ANSWER_KINDS[frame[2]]
    return f"{kind}: " + ", ".join(f"{name} {value_in_words(name, value)}" for name, value in fields_of(frame).items())


def differences(got: bytes, wanted: bytes) -> str:
    """What is otherwise in an answer than in the wanted one."""
    if got[2] != wanted[2]:
        return f"is {fields(got)}. It should be {fields(wanted)}"
    right = fields_of(wanted)
    other = [f"{name} {value_in_words(name, value)} and should have {value_in_words(name, right[name])}"
             for name, value in fields_of(got).items() if value != right[name]]
    name = f" to {gate_and_number(name_of(wanted))}" if wanted[2] != codec.HOLDING else ""
    return f"({ANSWER_KINDS[wanted[2]]}{name}) has " + "; ".join(other)


def address(text: str) -> Address:
    """Host and port of an address on the command line."""
    host, _, port = text.rpartition(":")
    if not host or not port.isdecimal() or int(port) > 65535:
        raise argparse.ArgumentTypeError(f"'{text}' is no address: name a host and a port, as 127.0.0.1:4014")
    return host.strip("[]"), int(port)


def listener(where: Address) -> tuple[socket.socket, str]:
    """A socket that listens at an address, with the address that it really has."""
    try:
        made = socket.create_server(where, family=socket.AF_INET6 if ":" in where[0] else socket.AF_INET, backlog=128)
    except OSError as error:
        raise Wrong(f"can't listen on {where[0]}:{where[1]}: {error}; name another address") from None
    host, port = made.getsockname()[:2]
    return made, f"[{host}]:{port}" if ":" in host else f"{host}:{port}"


class Connection:
    """A connection to a server, through TLS where that is named, on which each read waits at most so many seconds. It
    begins with these bytes: a header for a server with --proxy (proxied.py), or none."""

    def __init__(self, where: Address, timeout: float, tls: "secured.Tls | None" = None, header: bytes = b"") -> None:
        self.timeout = timeout
        plain = socket.create_connection(where, timeout)
        plain.setsockopt(socket.IPPROTO_TCP, socket.TCP_NODELAY, 1)
        plain.sendall(header)
        self.socket: "socket.socket | secured.Secured" = plain if tls is None else tls.over(plain, where[0])

    def __enter__(self) -> Self:
        return self

    def __exit__(self, *_: object) -> None:
        self.close()

    def close(self) -> None:
        self.socket.close()

    def send(self, *frames: bytes) -> None:
        self.socket.sendall(b"".join(frames))

    def end_sending(self) -> None:
        """Ends the gate's half of the connection."""
        self.socket.shutdown(socket.SHUT_WR)

    def read(self, size: int) -> bytes:
        """So many bytes, or fewer where the connection ends before."""
        taken = b""
        while len(taken) < size:
            try:
                more = self.socket.recv(size - len(taken))
            except TimeoutError:
                had = f", {len(taken)} bytes of it came" if taken else ""
                raise TimeoutError(f"no answer within {self.timeout:g} s{had}") from None
            if not more:
                break
            taken += more
        return taken

    def take(self) -> bytes:
        """The next answer's frame, or no bytes where the connection has ended between two."""
        head = self.read(3)
        if not head:
            return head
        if len(head) == 3 and ANSWERS.get(head[2]) != number_at(head, 0, 2):
            raise Wrong(f"no answer begins with {head.hex()}")
        frame = head + (self.read(number_at(head, 0, 2) - 1) if len(head) == 3 else b"")
        if len(frame) < 3 or len(frame) < 2 + number_at(frame, 0, 2):
            raise ConnectionError(f"the connection ended inside an answer, after {len(frame)} bytes: {frame.hex()}")
        return frame


def hexadecimal(text: str, line: int) -> bytes:
    """The bytes of a text of digits."""
    try:
        return bytes.fromhex(text)
    except ValueError:
        raise Wrong(f"line {line}: '{text[:40]}' is no text of hexadecimal digits, two for each byte") from None


def lines_of(path: str | pathlib.Path) -> list[tuple[int, str]]:
    """The lines of a text file, numbered from 1; - is standard input."""
    try:
        with open(0 if path == "-" else path, encoding="utf-8") as file:
            return list(enumerate(file.read().split("\n"), 1))
    except OSError as error:
        raise Wrong(f"{path}: {error.strerror}; name a file that can be read") from None
    except UnicodeDecodeError:
        raise Wrong(f"{path}: this is no text file") from None


def requests(path: str | pathlib.Path) -> list[tuple[int, bytes]]:
    """The requests of a file, each with its line's number. Comments, sections and answers' lines are passed over."""
    found = []
    for line, text in lines_of(path):
        text = text.strip()
        if not text or text[0] in "#[<":
            continue
        frame = hexadecimal(text.removeprefix(">").strip(), line)
        if not frame:
            raise Wrong(f"line {line}: there is no request behind the >")
        found.append((line, frame))
    return found
