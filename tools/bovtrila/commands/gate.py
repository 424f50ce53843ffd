# SPDX-License-Identifier: Apache-2.0
"""Sends the requests of a file to a server, as a gate does, and prints each answer with its meaning. It also sends
the staff's revision of the fare table.

The file has one request frame per line, in hexadecimal digits, as `replay` reads them (- is standard
input). Lines that are empty, or begin with #, [ or <, are skipped, and a > before a frame is ignored.
Therefore /usr/share/bovtrila/docs/vectors.txt can be sent. With --vectors each answer is compared with the one in the file.

With --revise FILE --from DATE it sends one request: from the fare day DATE on, the table in FILE is in
force. The server has to be started with the file as one of its last arguments. The revision is a touch of
gate --gate, a number that no gate of the station may have. Its number is --number, or that of the day (days
since 1970-01-01); its moment is midnight of DATE. The same command sends the same bytes, so it may be
repeated. Before it sends, the script shows the day, shows with --against FILE what changes from the table in
that file (the program compares the two: --program), and asks; with --yes it doesn't ask. A day more than 90
days ahead also needs --far.

A touch whose answer didn't come is sent again over a new connection, with the same bytes: first after
--backoff seconds, then after twice as long each time. The status is 0 if all requests were answered. It is 1
if the server couldn't be reached, the file is wrong, a revision wasn't accepted, or an answer is wrong
(another answer to a repeat, another gate or number, no answer frame). It is 2 for a wrong command line.

With --barrier FILE it writes a line 'GATE NUMBER' for each touch that opens the barrier; bovtrila-stand-in reads them.
It stores no touches between two runs. Therefore a second run with the same touches opens the barrier for them again,
which a real gate must not do after its start (PROTOCOL.md, "After a gate's start").

A server with --proxy reads a header at the beginning of each connection, which HAProxy writes for gates. On the
server's machine --proxy NAME writes it for this script: the door then applies the rule of this certificate's name.

With --servers FILE instead of the address, the cards are shared out among several servers. A line of FILE such as
`1-100000 127.0.0.1:4014` says that the network's cards 1 to 100000 are the cards of that server, from its card 1 on.
Requests have the network's card numbers. Each goes to the server of its card, with that server's number for the card;
a revision goes to every server, in the file's order.

    bovtrila-gate 127.0.0.1:4014 requests.txt
    bovtrila-gate --servers servers.txt requests.txt
    bovtrila-gate 127.0.0.1:4014 requests.txt --drop 3
    bovtrila-gate 127.0.0.1:4014 --vectors /usr/share/bovtrila/docs/vectors.txt
    bovtrila-gate gates.station:4015 requests.txt --tls authority.pem gate-7.pem gate-7.key
    bovtrila-gate 127.0.0.1:4014 --revise prices-2026.toml --from 2026-01-05 --against first.toml
    echo 00050500000001 | bovtrila-gate 127.0.0.1:4014 - --timeout 2 --tries 3
"""
import argparse
import datetime
import hashlib
import os
import pathlib
import random
import re
import sys
import time
from collections.abc import Callable, Sequence
from typing import Protocol, TextIO

from bovtrila import codec, fare_changes, proxied, secured, vector_file, wire
from bovtrila.wire import Wrong

# The longest wait before a touch is sent again, in seconds.
LONGEST = 30
# The gate under which the staff's revisions are sent where no other is named.
STAFF = 65_535


def fault_in(request: bytes, answer: bytes) -> str | None:
    """What is wrong with an answer to this request, or None."""
    if wire.is_fault(answer, codec.BAD_FRAME):
        return None
    if not wire.is_touch(request):
        return "an enquiry was answered as a touch" if answer[2] == codec.REPLY else None
    if answer[2] == codec.HOLDING or wire.name_of(answer) != request[3:9]:
        return f"the answer is for another touch: {answer.hex()}"
    return None


class Taker(Protocol):
    """A server that is asked, and what stands before what it said."""
    label: str

    def ask(self, request: bytes, loses: bool = False) -> bytes: ...


class Gate:
    """A gate with its connection, which is made anew where it is lost."""

    # What stands before what its server said, where there are several.
    label = ""

    def __init__(self, address: wire.Address, options: argparse.Namespace) -> None:
        self.address, self.options, self.repeats, self.got_fault_1 = address, options, 0, b""
        self.connection: wire.Connection | None = None
        self.first_answers: dict[bytes, bytes] = {}

    def hang_up(self) -> None:
        """Closes the connection, if there is one."""
        if self.connection is not None:
            self.connection.close()
            self.connection = None

    def ask_once(self, request: bytes, loses: bool) -> bytes:
        """The answer to a request that is sent once. Loses it where that is asked for."""
        if self.connection is None:
            self.connection = wire.Connection(self.address, self.options.timeout, self.options.secured, self.options.header)
        self.connection.send(request)
        if loses:
            raise ConnectionError("the answer was dropped")
        answer = self.connection.take()
        if not answer:
            raise ConnectionError("the server closed the connection")
        if wrong := fault_in(request, answer):
            raise ConnectionError(wrong) if self.options.repeat else Wrong(wrong)
        if self.options.repeat and self.is_sent_again(request, answer):
            raise ConnectionError(wire.in_words(request, answer))
        return answer

    def is_sent_again(self, request: bytes, answer: bytes) -> bool:
        """Whether a gate sends this touch again: after a fault that may pass, and once after fault 1."""
        if not wire.is_touch(request) or answer[2] != codec.FAULT or wire.is_fault(answer, *wire.LASTING):
            return False
        before, self.got_fault_1 = self.got_fault_1, request if wire.is_fault(answer, codec.BAD_FRAME) else b""
        return self.got_fault_1 != request or before != request

    def wait(self, tries: int) -> None:
        """Waits before the next try: twice as long after each, and not as long as any other gate."""
        time.sleep(min(LONGEST, self.options.backoff * 2**tries) * random.uniform(0.5, 1))

    def takers(self, _: bytes) -> Sequence["Taker"]:
        """Who is asked: this one server."""
        return [self]

    def again(self, request: bytes) -> bytes:
        """What is sent where no answer came: the same bytes."""
        return request

    def ask(self, request: bytes, loses: bool = False) -> bytes:
        """The answer to a request, sent again for as long as none comes."""
        for tries in range(self.options.tries):
            try:
                answer = self.ask_once(request, loses and tries == 0)
                break
            except OSError as error:
                self.hang_up()
                if tries + 1 == self.options.tries:
                    raise Wrong(f"no answer after {self.options.tries} tries: {error}") from None
                if not self.options.quiet:
                    print(f"{request.hex()}  again: {error}", file=sys.stderr)
                self.wait(tries)
                self.repeats += 1
                request = self.again(request)
        if wire.is_fault(answer, codec.BAD_FRAME):
            self.hang_up()
        self.compare(request, answer)
        return answer

    def compare(self, request: bytes, answer: bytes) -> None:
        """Ends with an error where a touch had another reply before."""
        if wire.is_touch(request) and answer[2] == codec.REPLY:
            first = self.first_answers.setdefault(bytes(request), answer)
            if first != answer:
                raise Wrong(f"the first answer to this touch was {first.hex()}, and now it is {answer.hex()}")


class Share:
    """One server of several, and the cards of the network that are its own, from the first to the last."""

    def __init__(self, first: int, last: int, address: wire.Address, options: argparse.Namespace) -> None:
        self.first, self.last = first, last
        self.label, self.gate = f"{address[0]}:{address[1]}: ", Gate(address, options)

    def own(self, request: bytes) -> bytes:
        """The request with the server's own number of its card. A revision is of no card."""
        if request[2] == codec.REVISE:
            return request
        start = place_of_card(request)
        card = wire.number_at(request, start, 4) - self.first + 1
        return request[:start] + card.to_bytes(4, "big") + request[start + 4:]

    def ask(self, request: bytes, loses: bool = False) -> bytes:
        try:
            return self.gate.ask(self.own(request), loses)
        except Wrong as wrong:
            raise Wrong(f"{self.label}{wrong}") from None


class Dealt:
    """A gate that deals requests out to several servers by their cards."""

    def __init__(self, shares: Sequence[Share]) -> None:
        self.shares = shares

    def hang_up(self) -> None:
        for share in self.shares:
            share.gate.hang_up()

    def takers(self, request: bytes) -> Sequence["Taker"]:
        """Who is asked: the server of the card, and of a revision every one."""
        if not wire.is_request(request):
            raise Wrong("this is no request's frame, so no card says which server it is for")
        card = wire.number_at(request, place_of_card(request), 4)
        found = [share for share in self.shares if request[2] == codec.REVISE or share.first <= card <= share.last]
        if not found:
            raise Wrong(f"no server has card {card}")
        return found


def place_of_card(request: bytes) -> int:
    """Where a request's frame has its card."""
    return 9 if wire.is_touch(request) else 3


def dealt(path: str, options: argparse.Namespace) -> Dealt:
    """The gate of a file of servers."""
    shares: list[Share] = []
    for line, text in wire.lines_of(path):
        match = re.fullmatch(r"([0-9]+)-([0-9]+) +(\S+)", text.partition("#")[0].strip())
        try:
            if match:
                shares.append(Share(int(match[1]), int(match[2]), wire.address(match[3]), options))
        except argparse.ArgumentTypeError as error:
            raise Wrong(f"{path}: line {line}: {error}") from None
        if not match and text.partition("#")[0].strip():
            raise Wrong(f"{path}: line {line}: '{text[:40]}' isn't as 1-100000 127.0.0.1:4014")
    shares.sort(key=lambda share: share.first)
    if not shares:
        raise Wrong(f"{path}: there is no server in it")
    for before, share in zip([None, *shares], shares):
        if not 1 <= share.first <= share.last < 2**32 or before and share.first <= before.last:
            raise Wrong(f"{path}: the cards {share.first}-{share.last} can't be one server's alone")
    return Dealt(shares)


def day(text: str) -> datetime.date:
    """A date of the command line."""
    try:
        if re.fullmatch(r"\d{4}-\d\d-\d\d", text, re.ASCII):
            return datetime.date.fromisoformat(text)
    except ValueError:
        pass
    raise argparse.ArgumentTypeError(f"'{text}' is no date; write it as 2026-01-05")


def whole(most: int) -> Callable[[str], int]:
    """What reads a number of the command line, from 0 to the most."""
    def read(text: str) -> int:
        if not text.isdecimal() or int(text) > most:
            raise argparse.ArgumentTypeError(f"'{text}' is no number from 0 to {most}")
        return int(text)
    return read


def parser() -> argparse.ArgumentParser:
    parser = argparse.ArgumentParser(description=__doc__, formatter_class=argparse.RawTextHelpFormatter)
    parser.add_argument("address", nargs="?", help="HOST:PORT of the server, without --servers")
    parser.add_argument("file", nargs="?", help="request lines, or - for standard input")
    parser.add_argument("--servers", metavar="FILE", help="the servers among which the cards are shared out")
    parser.add_argument("--vectors", metavar="FILE", help="send a file of vectors, and compare each answer")
    parser.add_argument("--server", metavar="NAME", help="send the vectors of this server (the first)")
    parser.add_argument("--revise", metavar="FILE", help="send a revision to the fare table in this file")
    parser.add_argument("--from", metavar="DATE", type=day, dest="first",
                        help="the fare day from which it is in force, as 2026-01-05")
    fare_changes.add_options(parser)
    parser.add_argument("--gate", metavar="N", type=whole(2**16 - 1), default=STAFF,
                        help=f"the gate number of the revision ({STAFF})")
    parser.add_argument("--number", metavar="N", type=whole(2**32 - 1), help="the revision's number (that of its day)")
    parser.add_argument("--drop", type=int, metavar="N", help="drop every Nth answer, and send its request again")
    parser.add_argument("--timeout", type=float, default=2, metavar="SECONDS", help="how long an answer may take (2)")
    parser.add_argument("--backoff", type=float, default=0.2, metavar="SECONDS",
                        help="the wait before the first repeat (0.2)")
    parser.add_argument("--tries", type=int, default=10, help="how many times a request is sent at most (10)")
    parser.add_argument("--repeat", action="store_true",
                        help="send a touch again after each fault that may pass, and after another touch's answer, too")
    secured.add_option(parser)
    parser.add_argument("--proxy", metavar="NAME", type=proxied.certificate,
                        help="the server has --proxy: begin each connection with a header that has this\n"
                        "certificate's name, or - for none")
    parser.add_argument("--barrier", metavar="FILE",
                        help="write a line 'GATE NUMBER' to FILE for each touch that opens the barrier")
    parser.add_argument("--quiet", action="store_true", help="don't report each repeat")
    return parser


def options(words: Sequence[str] | None = None) -> argparse.Namespace:
    """What these words ask for, or those of the command line."""
    reader = parser()
    asked = reader.parse_args(words)
    if asked.servers is not None:
        if asked.file is not None or asked.vectors is not None:
            reader.error("--servers FILE takes the place of the address, and doesn't go with --vectors")
        asked.address, asked.file = None, asked.address
    elif asked.address is None:
        reader.error("name a server's address, or --servers FILE")
    else:
        try:
            asked.address = wire.address(asked.address)
        except argparse.ArgumentTypeError as error:
            reader.error(f"argument address: {error}")
    if sum(named is not None for named in (asked.file, asked.vectors, asked.revise)) != 1:
        reader.error("name a file of request lines, or --vectors FILE, or --revise FILE --from DATE")
    if (asked.revise is None) != (asked.first is None):
        reader.error("--revise FILE and --from DATE go together")
    if asked.proxy is not None and asked.tls is not None:
        reader.error("--proxy is for the server itself, and doesn't go with --tls")
    asked.header = b"" if asked.proxy is None else proxied.header(None if asked.proxy == "-" else asked.proxy)
    if asked.timeout <= 0 or asked.backoff < 0 or asked.tries < 1:
        reader.error("--timeout and --tries have to be above 0, and --backoff not below it")
    return asked


def revision(asked: argparse.Namespace) -> bytes:
    """The frame of the revision that is asked for."""
    try:
        digest = hashlib.sha256(pathlib.Path(asked.revise).read_bytes()).digest()
    except OSError as error:
        raise Wrong(f"{asked.revise}: {error.strerror}; name the file of a fare table") from None
    first = codec.days(asked.first)
    number = first % 2**32 if asked.number is None else asked.number
    moment = min(max(86_400 * first, 0), 2**32 - 1)
    return codec.touch(codec.REVISE, asked.gate, number, 0, digest, first, moment)


def revise(gate: Gate | Dealt, asked: argparse.Namespace) -> None:
    """Sends the revision, and prints each answer. Ends with an error where one doesn't accept it."""
    request, faults = revision(asked), list[str]()
    for taker in gate.takers(request):
        try:
            answer = taker.ask(request)
        except Wrong as wrong:
            # The others shouldn't lack it as well.
            faults.append(str(wrong))
            continue
        said = f"{taker.label}{wire.in_words(request, answer)}"
        print(f"{answer.hex()}  {said}", flush=True)
        if answer[2] != codec.REPLY or answer[9] >= wire.FIRST_REFUSAL:
            faults.append(f"{asked.revise} doesn't count from {asked.first} on: {said}")
    if faults:
        raise Wrong("; ".join(faults))


def asked_for(asked: argparse.Namespace) -> list[tuple[int, bytes, bytes | None]]:
    """The requests to be sent, each with its line's number and the answer that it should have, or None."""
    if asked.vectors is None:
        return [(line, request, None) for line, request in wire.requests(asked.file)]
    stations = vector_file.read(asked.vectors)
    names = [station.name for station in stations]
    name = asked.server or names[0]
    if name not in names:
        raise Wrong(f"{asked.vectors} has no vectors of a server {name}; it has {', '.join(names)}")
    return [(vector.line, vector.request, vector.answer) for vector in stations[names.index(name)].vectors]


def opener(path: str | None) -> TextIO | None:
    """Where openings of the barrier are written, or None."""
    try:
        return open(path, "w", buffering=1, encoding="ascii") if path else None
    except OSError as error:
        raise Wrong(f"{path}: {error.strerror}; name a file that can be written") from None


def send_all(gate: Gate | Dealt, asked: argparse.Namespace) -> int:
    """Sends the requests one after the other: how many answers weren't those of the vectors."""
    barrier, others = opener(asked.barrier), 0
    for count, (line, request, wanted) in enumerate(asked_for(asked), 1):
        try:
            for taker in gate.takers(request):
                answer = taker.ask(request, bool(asked.drop) and count % asked.drop == 0)
                print(f"{answer.hex()}  {wire.in_words(request, answer)}", flush=True)
        except Wrong as wrong:
            raise Wrong(f"line {line}: {wrong}") from None
        if barrier and wire.opens(request, answer):
            barrier.write(f"{wire.number_at(request, 3, 2)} {wire.number_at(request, 5, 4)}\n")
        if wanted is not None and wanted != answer:
            others += 1
            print(f"gate: line {line}: the answer should be {wanted.hex()}  {wire.in_words(request, wanted)}",
                  file=sys.stderr)
    return others


def main() -> None:
    asked = options()
    gate: Gate | Dealt | None = None
    others = 0
    try:
        asked.secured = secured.tls_of(asked)
        gate = Gate(asked.address, asked) if asked.servers is None else dealt(asked.servers, asked)
        if asked.revise is not None:
            fare_changes.agree(asked)
            revise(gate, asked)
        else:
            others = send_all(gate, asked)
    except Wrong as wrong:
        sys.exit(f"gate: {wrong}")
    except BrokenPipeError:
        # Whoever reads the output has gone.
        os.dup2(os.open(os.devnull, os.O_WRONLY), sys.stdout.fileno())
        sys.exit(1)
    except KeyboardInterrupt:
        sys.exit(130)
    finally:
        if gate is not None:
            gate.hang_up()
    if others:
        sys.exit(f"gate: {others} answers aren't those of {asked.vectors}")
