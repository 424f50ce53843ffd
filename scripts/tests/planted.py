"""A server over the reference model of the station, for the tests that plant faults: in its protocol, and in its fares."""
import socket
import struct
import threading
from collections.abc import Collection

from bovtrila import codec, model, vector_file, wire
from listening import Door


class Planted:
    """A server over the model of one server of docs/vectors.txt, with a planted fault, on a free port. Without one it
    is right. It takes its rules from bovtrila.model as it stands: a test that replaces a rule there gets a server
    with that rule."""

    def __init__(self, flaw: str | None = None, server: str = "example") -> None:
        self.flaw, self.lock = flaw, threading.Lock()
        self.described = next(station for station in vector_file.read() if station.name == server)
        self.station = self.described.model()
        self.whole: list[bytes] | None = None
        self.shown: model.Station | None = None
        # A test may put another serve in its place.
        self.door = Door(lambda connection: self.serve(connection))
        self.text = self.door.text

    def end(self) -> None:
        """Takes no connection any more."""
        self.door.shut()

    def lose(self, lost: Collection[int], tells_all: bool = False) -> None:
        """Begins anew with what it had when this was called first, but for the touches of these places, as a server
        that was started again. Where it tells all, it answers enquiries as if it had lost none."""
        self.whole = self.whole or list(self.station.history)
        self.station, shown = self.described.model(), self.described.model()
        for place, frame in enumerate(self.whole):
            shown.answer(frame)
            if place not in lost:
                self.station.answer(frame)
        self.shown = shown if tells_all else None

    def answer(self, frame: bytes) -> bytes:
        with self.lock:
            if self.flaw == "judges repeats again":
                self.station.named.clear()
            elif self.flaw == "takes a conflict for a repeat" and wire.is_touch(frame):
                gate, number = struct.unpack(">HI", frame[3:9])
                first = self.station.named.get((gate, number))
                if first:
                    return first[1]
            elif self.flaw == "records a table that is not there" and frame[2] == codec.REVISE:
                return codec.framed(">BHIBiq", codec.REPLY, *struct.unpack(">HI", frame[3:9]), codec.REVISED, 0, 0)
            elif self.flaw == "shows an older front" and frame[2] == codec.ENQUIRE and self.station.history:
                return codec.framed(">BBqI", codec.HOLDING, *struct.unpack(">BqI", self.station.answer(frame)[3:])[:2],
                                    len(self.station.history) - 1)
            return (self.shown if self.shown and frame[2] == codec.ENQUIRE else self.station).answer(frame)

    def serve(self, connection: socket.socket) -> None:
        held = b""
        with connection:
            try:
                while data := connection.recv(512):
                    left = self.answer_all(connection, held + data)
                    if left is None:
                        return
                    held = left
            except OSError:
                pass

    def answer_all(self, connection: socket.socket, held: bytes) -> bytes | None:
        """Answers the whole requests of these bytes: those left, or None where the session ends."""
        while True:
            is_begun = any(held.startswith(whole[: len(held)]) for whole in (
                struct.pack(">HB", length, kind) for kind, length in wire.REQUESTS.items()))
            if len(held) >= 3:
                is_begun = wire.REQUESTS.get(held[2]) == wire.number_at(held, 0, 2)
            if not is_begun and (self.flaw != "waits for a whole bad frame" or len(held) > 6):
                connection.sendall(codec.fault(codec.BAD_FRAME))
                if self.flaw == "goes on behind a bad frame":
                    return b""
                return None
            if len(held) < 3 or len(held) < 2 + wire.number_at(held, 0, 2):
                return held
            size = 2 + wire.number_at(held, 0, 2)
            connection.sendall(self.answer(held[:size]))
            held = held[size:]
            if self.flaw == "answers one request of a read":
                return b""
