# SPDX-License-Identifier: Apache-2.0
"""Checks from outside that a server follows PROTOCOL.md, with /usr/share/bovtrila/docs/vectors.txt and with
requests of its own.

Start the server with an empty journal, and with the table, cards, capacity and revised tables that the vectors
name: --list prints them for each server of the file. The script opens some 2400 connections, one after the other.
Start Bovtrila without --connections, which limits them. With --lines 2 the script also opens two connections at once,
for a server that serves two.

It checks: each vector's answer, to the byte; repeats and conflicts over new connections; touches of a gate that
disconnects before the answer; revisions to a table that no server has; many requests at once; frames in pieces; the
end of the gate's half of a connection; each bad beginning of a frame, and each for which the server has to wait for
more bytes; fronts. The expected answers are those of the vectors, and elsewhere those of the reference model. A failure
names the fields that differ. If the server seems to be started in another way than the vectors need, the script
reports this first, once.

With --restarted, and the other arguments as before, it checks a server that was certified and then started again with
the same journal. The history must have as many touches as were sent. Each touch must be known: another touch with its
gate and number is a conflict. Each must get its first reply. If the number of touches is wrong, the script sends
nothing else, so that the journal stays as it is.

It doesn't check faults 3, 4 and 7, what a server does at a loss of power, or how long an answer takes.

The last line is 'N passed, M failed'. The status is 1 if something failed.

    bovtrila-certify --list
    bovtrila-certify 127.0.0.1:4014
    bovtrila-certify 127.0.0.1:4014 --lines 2
    bovtrila-certify gates.station:4015 --tls authority.pem gate-7.pem gate-7.key
    bovtrila-certify 127.0.0.1:4014 --restarted
    bovtrila-certify 127.0.0.1:4014 --server full
"""
import argparse
import contextlib
import functools
import sys
from collections.abc import Callable, Iterator, Sequence

from bovtrila import codec, places, secured, vector_file, wire
from bovtrila.wire import Wrong

# The gate of the requests that certify makes itself, and the first of their moments, behind those of the vectors.
OWN_GATE, OWN_MOMENT = 60_000, 1_772_000_000
# A digest that no table has.
NO_TABLE = bytes(32)
# A group of checks is given up after so many failures.
MOST_FAILURES = 3
# How long a server is watched that has to wait for more bytes, in seconds.
WATCHED = 0.05
# The checks of a group: the name of each, and what makes it.
Checks = Iterator[tuple[str, Callable[[], None]]]


class Other(Wrong):
    """Another answer than the one that is wanted."""

    def __init__(self, got: bytes, wanted: bytes, place: int | None = None) -> None:
        which = "the answer" if place is None else f"answer {place}"
        said = wire.differences(got, wanted) if got else (
            f"is missing: the connection ended. It should be {wire.fields(wanted)}")
        super().__init__(f"{which} {said}")
        self.got, self.wanted = got, wanted


def expect(got: bytes, wanted: bytes, place: int | None = None) -> None:
    """Fails unless this is the answer."""
    if got != wanted:
        raise Other(got, wanted, place)


def expect_end(line: wire.Connection, why: str) -> None:
    """Fails unless the connection has ended."""
    try:
        more = line.read(1)
    except TimeoutError:
        raise Wrong(f"the server has to close the connection {why}, and doesn't") from None
    except ConnectionError:
        more = b""
    if more:
        raise Wrong(f"behind the last answer the server has to write nothing {why}, and writes {more.hex()}..")


class Certificate:
    """The checks of one server, with the plain model of it, which is asked the same."""

    def __init__(self, asked: argparse.Namespace, station: vector_file.Station) -> None:
        self.asked, self.station, self.model = asked, station, station.model()
        self.line: wire.Connection | None = None
        self.made, self.passed, self.failed = 0, 0, 0
        self.connections, self.said = 0, set[str]()

    def connect(self) -> wire.Connection:
        try:
            line = wire.Connection(self.asked.address, self.asked.timeout, self.asked.secured)
        except ConnectionRefusedError:
            if self.connections:
                raise Gone(f"the server refuses connections after the first {self.connections}: it has ended, or it "
                           "serves no more. For Bovtrila: start it without --connections") from None
            raise
        self.connections += 1
        return line

    def opened(self) -> contextlib.AbstractContextManager[wire.Connection | None]:
        """A connection that stays while checks of a group are made."""
        return self.connect()

    def session(self, sent: bytes, wanted: Sequence[bytes], half: bool = False, ends: str | None = None,
                size: int | None = None) -> None:
        """Sends bytes over a new connection, in pieces of a size, and expects these answers, and maybe the end."""
        with self.connect() as line:
            size = size or len(sent) or 1
            for place in range(0, len(sent), size):
                line.send(sent[place : place + size])
            if half:
                line.end_sending()
            for place, answer in enumerate(wanted, 1):
                expect(line.take(), answer, place)
            if half or ends:
                expect_end(line, ends or "once the gate has ended its half")

    def own(self) -> bytes:
        """A new touch of certify's own: of the first card, in turn a top-up of a penny, a touch in and a touch out."""
        self.made += 1
        kind = (codec.TOP_UP, codec.ENTER, codec.LEAVE)[self.made % 3]
        return codec.touch(kind, OWN_GATE, self.made, 1, 1, OWN_MOMENT + 60 * self.made)

    def unknown(self) -> bytes:
        """A new revision of certify's own, to a table that no server has."""
        self.made += 1
        return codec.touch(codec.REVISE, OWN_GATE, self.made, 1, NO_TABLE, OWN_MOMENT // 86_400, OWN_MOMENT)

    def answers(self, frames: Sequence[bytes]) -> list[bytes]:
        return [self.model.answer(frame) for frame in frames]

    def front(self) -> None:
        """Fails unless the server's history has as many touches as the model's."""
        self.session(codec.enquiry(1), [self.model.answer(codec.enquiry(1))])

    def recorded(self) -> list[vector_file.Vector]:
        """The vectors of touches that have a reply, each touch once."""
        found = {vector.request: vector for vector in self.station.vectors
                 if wire.is_request(vector.request) and vector.answer[2] == codec.REPLY}
        return list(found.values())

    # Groups of checks: each gives the checks' names, with what makes them.

    def vectors(self) -> Checks:
        for vector in self.station.vectors:
            whole = wire.is_request(vector.request)
            asked = wire.fields(vector.request) if whole else f"the bytes {vector.request.hex()}"
            yield f"line {vector.line} [{vector.section}]: {asked}", functools.partial(self.vector, vector)

    def vector(self, vector: vector_file.Vector) -> None:
        """Sends a vector's request over the connection of the one before, where that goes on."""
        if wire.is_request(vector.request):
            worked_out = self.model.answer(vector.request)
            if worked_out != vector.answer:
                raise Wrong(f"the reference model works out {wire.fields(worked_out)}, and the file has "
                            f"{wire.fields(vector.answer)}")
        line, self.line = self.line or self.connect(), None
        try:
            line.send(vector.request)
            expect(line.take(), vector.answer)
            if wire.is_fault(vector.answer, codec.BAD_FRAME):
                expect_end(line, "after fault 1")
            else:
                self.line = line
        finally:
            if self.line is None:
                line.close()

    def repeats(self) -> Checks:
        if self.line is not None:
            self.line.close()
        for vector in self.recorded():
            yield f"line {vector.line} again, over a new connection", functools.partial(
                self.session, vector.request, [vector.answer])
        for vector in self.recorded():
            # Another last byte is another moment.
            other = vector.request[:-1] + bytes([vector.request[-1] ^ 1])
            yield f"line {vector.line} with another moment, which is a conflict", functools.partial(
                self.session, other + vector.request, [*self.answers([other]), vector.answer])
        yield "nothing was recorded by repeats and conflicts", self.front

    def lost_answers(self) -> Checks:
        for _ in range(10):
            yield "a gate that hangs up before the answer, and repeats", functools.partial(self.lost, self.own())
        yield "each such touch is recorded once", self.front

    def lost(self, frame: bytes) -> None:
        wanted = self.answers([frame])
        with self.connect() as line:
            line.send(frame)
        self.session(frame, wanted)
        self.session(frame, wanted)

    def unknown_tables(self) -> Checks:
        frame = self.unknown()
        for _ in range(2):
            yield "a revision to a table that no server has", lambda: self.session(frame, self.answers([frame]))
        # Its gate and number are free: nothing was recorded under them.
        other = frame[:13] + bytes([255]) * 32 + frame[45:]
        yield "another such revision under its number", lambda: self.session(other, self.answers([other]))
        yield "nothing was recorded by them", self.front

    def many_at_once(self) -> Checks:
        asked = [vector.request for vector in self.station.vectors if wire.is_request(vector.request)]
        yield "all requests of the vectors at once", lambda: self.session(b"".join(asked), self.answers(asked))
        mixed = [frame for _ in range(100) for frame in (self.own(), codec.enquiry(1))]
        yield "200 new requests at once, touches and enquiries in turn", lambda: self.session(
            b"".join(mixed), self.answers(mixed))

    def pieces(self) -> Checks:
        frames = [self.own(), codec.enquiry(1), self.own()]
        yield "bytes one by one", lambda: self.session(b"".join(frames), self.answers(frames), size=1)
        whole = self.own() + codec.enquiry(1)
        for size in range(2, len(whole)):
            yield f"two requests in pieces of {size} bytes", functools.partial(self.in_pieces, size)
        longest = self.unknown()
        for size in range(1, len(longest)):
            yield f"a revision in pieces of {size} bytes", functools.partial(
                self.session, longest, self.answers([longest]), size=size)

    def in_pieces(self, size: int) -> None:
        frames = [self.own(), codec.enquiry(1)]
        self.session(b"".join(frames), self.answers(frames), size=size)

    def half_closed(self) -> Checks:
        yield "the gate ends its half at once: no answer", lambda: self.session(b"", [], half=True)
        frames = [self.own(), self.own(), codec.enquiry(1)]
        yield "the gate ends its half behind three requests: their answers", lambda: self.session(
            b"".join(frames), self.answers(frames), half=True)
        frame = self.own()
        for cut in (self.own(), self.unknown()):
            for size in range(1, len(cut)):
                yield f"it ends its half {size} bytes into a request of {len(cut)}: that is dropped", functools.partial(
                    self.session, frame + cut[:size], self.answers([frame]), half=True)
        yield "a dropped request isn't recorded", self.front

    def bad_beginnings(self) -> Checks:
        ended = [codec.fault(codec.BAD_FRAME)]
        for beginning in self.station.bad:
            yield f"the bad beginning {beginning.hex()}", functools.partial(
                self.session, beginning, ended, ends="after fault 1")
        for beginning in self.station.bad[:1] + self.station.bad[-1:]:
            yield f"{beginning.hex()} behind a request, and a touch behind it", functools.partial(
                self.bad_between, beginning, ended)
        yield "nothing behind a bad beginning is recorded", self.front

    def bad_between(self, beginning: bytes, ended: list[bytes]) -> None:
        frame = self.own()
        self.session(frame + beginning + self.own(), self.answers([frame]) + ended, ends="after fault 1")

    def waited_for(self) -> Checks:
        for beginning in self.station.waits:
            yield f"the beginning {beginning.hex()} has no answer yet", functools.partial(self.waits, beginning)

    def waits(self, beginning: bytes) -> None:
        with self.connect() as line:
            line.send(beginning)
            line.socket.settimeout(WATCHED)
            try:
                more = line.read(1)
            except TimeoutError:
                line.socket.settimeout(self.asked.timeout)
                line.end_sending()
                return expect_end(line, "once the gate has ended its half")
            raise Wrong(f"the server writes {more.hex()}.." if more else "the server closes the connection")

    def fronts(self) -> Checks:
        with self.opened() as line:
            for frame in (frame for _ in range(10) for frame in (self.own(), codec.enquiry(1), codec.enquiry(1))):
                yield "an enquiry behind each touch has it", functools.partial(self.over, line, frame)

    def over(self, line: wire.Connection, frame: bytes) -> None:
        wanted, = self.answers([frame])
        line.send(frame)
        expect(line.take(), wanted)

    def two_lines(self) -> Checks:
        with self.opened():
            yield "a silent gate holds up no other", self.front
        for _ in range(20):
            yield "a touch over two connections at once: one reply, twice", functools.partial(self.both, self.own())
        yield "each is recorded once", self.front

    def both(self, frame: bytes) -> None:
        wanted, = self.answers([frame])
        with self.connect() as one, self.connect() as other:
            one.send(frame)
            other.send(frame)
            expect(one.take(), wanted, 1)
            expect(other.take(), wanted, 2)

    def run(self, name: str, checks: Checks) -> None:
        """Makes the checks of a group, and tells each that fails."""
        passed, failed = 0, 0
        for check, make in checks:
            try:
                make()
                passed += 1
            except Gone:
                raise
            except (OSError, Wrong) as wrong:
                failed += 1
                self.tell_start(wrong)
                print(f"failed: {check}: {wrong}", flush=True)
            if failed == MOST_FAILURES:
                print(f"the other checks of '{name}' are passed over", flush=True)
                break
        self.passed, self.failed = self.passed + passed, self.failed + failed
        print(f"{name}: {passed} passed, {failed} failed", flush=True)

    def tell_start(self, wrong: Exception) -> None:
        """Tells once what a failure says of the server's start, where it may come of that."""
        said = started_otherwise(self.station, wrong) if isinstance(wrong, Other) else None
        if said and not self.said:
            words = " ".join(map(str, self.station.words()))
            print(f"the server seems to be started otherwise than the vectors of '{self.station.name}' need: {said}. "
                  f"They need: {words}, and an empty journal", flush=True)
            self.said.add(said)

    def begin(self) -> None:
        """Ends where the server can't be asked, or has a history already."""
        try:
            with self.connect() as line:
                line.send(codec.enquiry(1))
                answer = line.take()
        except OSError as error:
            raise Wrong(f"{self.asked.address[0]}:{self.asked.address[1]}: {error}; start the server first") from None
        front = wire.number_at(answer, 12, 4) if answer and answer[2] == codec.HOLDING else 0
        if front and not self.asked.restarted:
            raise Wrong(f"the server's history has {front} touches already: start it with a new journal, or say "
                        "--restarted where it was certified before")

    def groups(self) -> list[Callable[[], Checks]]:
        """The groups of checks of a server that begins with an empty journal."""
        groups = [self.vectors, self.repeats, self.lost_answers, self.unknown_tables, self.many_at_once, self.pieces,
                  self.half_closed, self.bad_beginnings, self.waited_for, self.fronts]
        return groups + [self.two_lines] if self.asked.lines > 1 else groups

    def all(self) -> int:
        """Makes all checks: the status."""
        self.begin()
        if self.asked.restarted:
            rehearsal = Rehearsal(self.asked, self.station)
            rehearsal.all()
            self.model = rehearsal.model
        for group in [self.kept, self.known, self.again] if self.asked.restarted else self.groups():
            self.run(group.__name__.replace("_", " "), group())
            if group == self.kept and self.failed:
                print("nothing else is asked, so that the server's journal stays as it is", flush=True)
                break
            if group == self.vectors and self.failed:
                print("what fails from here on may come of the vectors' failures: mend those first", flush=True)
        print(f"{self.passed} passed, {self.failed} failed")
        return 1 if self.failed or not self.passed else 0

    # Groups of a server that was certified, and started again: the model has the touches that it was sent.

    def kept(self) -> Checks:
        yield "the history after a restart has each touch", self.all_kept

    def all_kept(self) -> None:
        wanted = len(self.model.history)
        with self.connect() as line:
            line.send(codec.enquiry(1))
            answer = line.take()
        if not answer or answer[2] != codec.HOLDING:
            return expect(answer, self.model.answer(codec.enquiry(1)))
        front = wire.number_at(answer, 12, 4)
        if front != wanted:
            how = f"it lost {wanted - front}" if front < wanted else f"{front - wanted} were added"
            raise Wrong(f"the server was sent {wanted} touches that it recorded, and has {front}: {how}. (Were "
                        "--server and --lines the same when it was certified?)")
        return expect(answer, self.model.answer(codec.enquiry(1)))

    def known(self) -> Checks:
        for frame in self.model.history:
            # Another last byte is another moment. A server that lost the touch takes this one for new.
            other = frame[:-1] + bytes([frame[-1] ^ 1])
            yield f"another touch under {wire.gate_and_number(frame[3:9])}", functools.partial(
                self.session, other, self.answers([other]))

    def again(self) -> Checks:
        for frame in self.model.history:
            yield f"again, after a restart: {wire.fields(frame)}", functools.partial(
                self.session, frame, self.answers([frame]))
        yield "nothing was recorded by all that", self.front


class Gone(Wrong):
    """The server takes no connection any more."""


class Rehearsal(Certificate):
    """The checks of an empty server, made of the model alone: it has what the server was sent then."""

    def opened(self) -> contextlib.AbstractContextManager[None]:
        return contextlib.nullcontext()

    def all(self) -> int:
        for group in self.groups():
            for _, make in group():
                make()
        return 0

    def session(self, *_: object, **__: object) -> None:
        pass

    def vector(self, vector: vector_file.Vector) -> None:
        if wire.is_request(vector.request):
            self.model.answer(vector.request)

    def lost(self, frame: bytes) -> None:
        self.answers([frame])

    def over(self, _: object, frame: bytes) -> None:
        self.answers([frame])

    def both(self, frame: bytes) -> None:
        self.answers([frame])

    def waits(self, _: bytes) -> None:
        pass


def started_otherwise(station: vector_file.Station, wrong: Other) -> str | None:
    """What the first wrong answer says of how the server was started, or None."""
    got, wanted = wrong.got, wrong.wanted
    if not got:
        return None
    if wire.is_fault(got, codec.NOT_ALLOWED):
        return "it has a door, which doesn't let this connection send all that the vectors have"
    if wire.is_fault(got, codec.UNKNOWN_TABLE) and not wire.is_fault(wanted, codec.UNKNOWN_TABLE):
        return f"a fare table isn't there that it should have ({', '.join(map(str, station.revised)) or station.table})"
    if wire.is_fault(wanted, codec.UNKNOWN_TABLE) and not wire.is_fault(got, codec.UNKNOWN_TABLE):
        return "it has a fare table that it shouldn't have"
    if wire.is_fault(got, codec.FULL):
        return f"its capacity is below {station.capacity}"
    if wire.is_fault(wanted, codec.FULL):
        return f"its capacity is above {station.capacity}"
    if got[2] != codec.REPLY or wanted[2] != codec.REPLY:
        return None
    verdict, right = got[9], wanted[9]
    if (verdict == 20) != (right == 20):
        return f"it has {'fewer' if verdict == 20 else 'more'} cards than {station.cards}"
    if (verdict == 22) != (right == 22):
        return "its fare table has other stations"
    return None


def main() -> int:
    parser = argparse.ArgumentParser(description=__doc__, formatter_class=argparse.RawTextHelpFormatter)
    parser.add_argument("address", nargs="?", type=wire.address, help="HOST:PORT of the server")
    parser.add_argument("--list", action="store_true", help="print the servers that the vectors are for")
    parser.add_argument("--server", metavar="NAME", help="which of these servers this is (the first)")
    parser.add_argument("--vectors", metavar="FILE", default=places.VECTORS, help="another file of vectors")
    parser.add_argument("--timeout", type=float, default=5, metavar="SECONDS", help="how long an answer may take (5)")
    parser.add_argument("--lines", type=int, default=1, help="how many connections are served at once (1)")
    secured.add_option(parser)
    parser.add_argument("--restarted", action="store_true",
                        help="the server was certified with the same arguments, and started again")
    asked = parser.parse_args()
    if asked.address is None and not asked.list:
        parser.error("name the server's address, or --list")
    try:
        asked.secured = secured.tls_of(asked)
        stations = {station.name: station for station in vector_file.read(asked.vectors)}
        if asked.list:
            for station in stations.values():
                print(f"{station.name}:", *station.words())
            return 0
        name = asked.server or next(iter(stations))
        if name not in stations:
            raise Wrong(f"{asked.vectors} has no vectors of a server {name}; it has {', '.join(stations)}")
        return Certificate(asked, stations[name]).all()
    except Wrong as wrong:
        sys.exit(f"certify: {wrong}")
