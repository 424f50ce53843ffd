# SPDX-License-Identifier: Apache-2.0
"""Relays connections between gates and a server, and loses answers by a seed: to try a real gate with a real server.

Gates connect to LISTEN, and the relay passes each connection on to SERVER over a separate one. At each answer, or
each request, it may cause one of these troubles:

    drop     an answer is lost; the connection stays open
    cut      an answer's first bytes are passed on, and the connection ends
    delay    an answer arrives --delay seconds late
    pieces   an answer arrives in pieces of one byte
    close    the connection ends after some bytes of a request, none or all of them
    silent   after some answer no further answer is passed on, until the gate disconnects
    refuse   a connection is reset as soon as it is made

--rate is the share of the answers, requests and connections with trouble; --troubles names the kinds
that may happen. The same seed causes the same troubles, connection by connection, as long as the gates' requests
are the same. The relay runs until it is interrupted or terminated. Then it prints how many connections, requests
and answers there were, and how many troubles of each kind.

    bovtrila-lossy 127.0.0.1:4015 127.0.0.1:4014
    bovtrila-lossy 127.0.0.1:4015 127.0.0.1:4014 --seed 7 --rate 0.3 --troubles drop,close
    bovtrila-lossy 127.0.0.1:4015 127.0.0.1:4014 & bovtrila-gate 127.0.0.1:4015 requests.txt --timeout 1
"""
import argparse
import collections
import os
import random
import select
import signal
import socket
import struct
import sys
import threading
import time
from collections.abc import Sequence

from bovtrila import wire

OF_ANSWERS = ("drop", "cut", "delay", "pieces", "silent")
TROUBLES = (*OF_ANSWERS, "close", "refuse")
# The longest frame that is waited for: longer ones are passed on as they come.
LONGEST_FRAME = 64
# The signals that end the relay.
ENDS = signal.SIGINT, signal.SIGTERM


class Ended(Exception):
    """The connection is over."""


class Counts:
    """How much there was of what, over all connections."""

    def __init__(self) -> None:
        self.lock, self.numbers = threading.Lock(), collections.Counter[str]()

    def add(self, what: str) -> None:
        with self.lock:
            self.numbers[what] += 1

    def tell(self) -> None:
        with self.lock:
            for what in ("connections", "requests", "answers", *TROUBLES):
                print(f"{what} {self.numbers[what]}", flush=True)


class Outage:
    """Says once that the server can't be reached, and once that it can again, however many gates ask for it."""

    def __init__(self, server: wire.Address) -> None:
        self.lock, self.closed, self.server = threading.Lock(), 0, f"{server[0]}:{server[1]}"

    def begin(self, error: OSError) -> None:
        with self.lock:
            self.closed += 1
            if self.closed == 1:
                self.say(f"{error}; until it answers again, each gate's connection is closed")

    def end(self) -> None:
        with self.lock:
            if self.closed:
                self.say(f"answers again; {self.closed} connections were closed meanwhile")
            self.closed = 0

    def say(self, text: str) -> None:
        print(f"lossy: {self.server}: {text}", file=sys.stderr, flush=True)


def frames(held: bytes, data: bytes) -> tuple[list[bytes], bytes]:
    """The whole frames of the bytes held and the new ones, and the bytes left, which begin a frame."""
    held, found = held + data, list[bytes]()
    while len(held) >= 2:
        size = 2 + wire.number_at(held, 0, 2)
        if size > LONGEST_FRAME:
            return [*found, held], b""
        if len(held) < size:
            break
        found.append(held[:size])
        held = held[size:]
    return found, held


class Session:
    """One gate's connection, and the one to the server that it is passed on to."""

    def __init__(self, gate: socket.socket, relay: "Relay", number: int) -> None:
        self.gate, self.asked, self.counts, self.outage = gate, relay.asked, relay.counts, relay.outage
        self.draw = random.Random(f"{self.asked.seed} {number}")
        self.server: socket.socket | None = None
        self.held, self.silent, self.deaf = b"", False, False
        # Of the request that is passed on: its first byte alone, the bytes left, and those left before the end.
        self.first, self.left = b"", 0
        self.stop: int | None = None

    def meets(self, kinds: Sequence[str]) -> str | None:
        """The trouble that comes now, of those that may, or None."""
        kinds = [kind for kind in kinds if kind in self.asked.troubles]
        if self.draw.random() >= self.asked.rate or not kinds:
            return None
        trouble = self.draw.choice(kinds)
        self.counts.add(trouble)
        return trouble

    def run(self) -> None:
        self.counts.add("connections")
        try:
            if self.meets(["refuse"]):
                # A reset in place of a close.
                self.gate.setsockopt(socket.SOL_SOCKET, socket.SO_LINGER, struct.pack("ii", 1, 0))
                return
            self.server = self.reach()
            for end in (self.gate, self.server):
                end.setsockopt(socket.IPPROTO_TCP, socket.TCP_NODELAY, 1)
            self.pass_on()
        except (OSError, Ended):
            pass
        finally:
            self.gate.close()
            if self.server is not None:
                self.server.close()

    def reach(self) -> socket.socket:
        """A connection to the server."""
        try:
            server = socket.create_connection(self.asked.server, 10)
        except OSError as error:
            self.outage.begin(error)
            raise Ended from None
        self.outage.end()
        return server

    def pass_on(self) -> None:
        """Passes on what comes from either end, until both have ended."""
        open_ends = [self.gate, self.server]
        while open_ends:
            for end in select.select(open_ends, [], [])[0]:
                data = self.taken(end)
                if not data:
                    open_ends.remove(end)
                if end is self.gate:
                    self.from_gate(data)
                else:
                    self.from_server(data)

    def taken(self, end: socket.socket) -> bytes:
        """The next bytes of an end: none where it has closed, and where it has closed over bytes that it left unread."""
        try:
            return end.recv(4096)
        except ConnectionError:
            return b""

    def send(self, data: bytes, last: bool = False) -> None:
        """Sends bytes to the server. One that takes no more may still have answered: its answers are waited for."""
        try:
            if self.server and not self.deaf:
                self.server.sendall(data)
            if self.server and last and not self.deaf:
                self.server.shutdown(socket.SHUT_WR)
        except OSError:
            self.deaf = True

    def from_gate(self, data: bytes) -> None:
        """Passes requests on, up to the place at which a trouble ends the connection."""
        if not data:
            if self.silent:
                # A gate that hangs up ends the silence.
                raise Ended
            return self.send(self.first, last=True)
        data, self.first = self.first + data, b""
        while data:
            if self.left == 0 and data == b"\0":
                # The request's length is known with its next byte.
                self.first = data
                return
            if self.left == 0:
                self.begin(data)
            many = min(self.left, len(data)) if self.stop is None else min(self.stop, self.left, len(data))
            self.send(data[:many])
            data, self.left = data[many:], self.left - many
            if self.stop is not None:
                self.stop -= many
                if self.stop == 0:
                    raise Ended

    def begin(self, data: bytes) -> None:
        """Notes how long the request is that these bytes begin, and after how many of them the connection ends."""
        size = 2 + wire.number_at(data, 0, 2)
        # Bytes that begin no request are passed on as they came.
        self.left = size if size <= LONGEST_FRAME and len(data) > 1 else len(data)
        self.counts.add("requests")
        if self.meets(["close"]):
            self.stop = self.draw.randint(0, self.left)
            if self.stop == 0:
                raise Ended

    def from_server(self, data: bytes) -> None:
        """Passes answers on."""
        if not data:
            self.gate.sendall(b"" if self.silent else self.held)
            if not self.silent:
                raise Ended
            return
        found, self.held = frames(self.held, data)
        for answer in found:
            self.counts.add("answers")
            trouble = None if self.silent else self.meets(OF_ANSWERS)
            if trouble == "silent":
                self.silent = True
            if trouble == "delay":
                time.sleep(self.asked.delay)
            if trouble == "cut":
                self.gate.sendall(answer[: self.draw.randint(1, len(answer) - 1)])
                raise Ended
            if trouble == "pieces":
                for place in range(len(answer)):
                    self.gate.sendall(answer[place : place + 1])
            elif trouble != "drop" and not self.silent:
                self.gate.sendall(answer)


class Relay:
    """The relay, with what it was asked for and its counts."""

    def __init__(self, asked: argparse.Namespace) -> None:
        self.asked, self.counts, self.outage = asked, Counts(), Outage(asked.server)

    def serve(self, listening: socket.socket) -> None:
        """Takes connections, each served by a thread of its own. If no more can be taken, the relay is terminated."""
        try:
            for number in range(1 << 62):
                gate, _ = listening.accept()
                threading.Thread(target=Session(gate, self, number).run, daemon=True).start()
        except (OSError, RuntimeError) as error:
            print(f"lossy: no further connection can be taken: {error}", file=sys.stderr, flush=True)
            os.kill(os.getpid(), signal.SIGTERM)


def kinds(text: str) -> list[str]:
    """The troubles that a list names."""
    found = text.split(",")
    for kind in found:
        if kind not in TROUBLES:
            raise argparse.ArgumentTypeError(f"'{kind}' is no trouble; there are {', '.join(TROUBLES)}")
    return found


def main() -> None:
    parser = argparse.ArgumentParser(description=__doc__, formatter_class=argparse.RawTextHelpFormatter)
    parser.add_argument("listen", type=wire.address, help="HOST:PORT for the gates; port 0 means a free one")
    parser.add_argument("server", type=wire.address, help="HOST:PORT of the server")
    parser.add_argument("--seed", type=int, default=1, help="decides which troubles happen (1)")
    parser.add_argument("--rate", type=float, default=0.1, help="the share that meets with trouble, from 0 to 1 (0.1)")
    parser.add_argument("--delay", type=float, default=0.5, metavar="SECONDS",
                        help="how late a delayed answer comes (0.5)")
    parser.add_argument("--troubles", type=kinds, default=list(TROUBLES), metavar="KIND,..",
                        help="the kinds that may happen (all)")
    asked = parser.parse_args()
    if not 0 <= asked.rate <= 1 or asked.delay < 0:
        parser.error("--rate has to be from 0 to 1, and --delay not below 0")
    relay = Relay(asked)
    try:
        listening, said = wire.listener(asked.listen)
    except wire.Wrong as wrong:
        sys.exit(f"lossy: {wrong}")
    # Waited for by this thread alone: a handler that runs just before `accept` wouldn't end it.
    signal.pthread_sigmask(signal.SIG_BLOCK, ENDS)
    print(f"listening {said}", file=sys.stderr, flush=True)
    threading.Thread(target=relay.serve, args=(listening,), daemon=True).start()
    signal.sigwait(ENDS)
    relay.counts.tell()
