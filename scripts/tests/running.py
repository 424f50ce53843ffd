"""A server that runs, and a gate's connection to it: for the scripts that serve over TCP."""
import os
import pathlib
import socket
import struct
import subprocess
from collections.abc import Iterable
from typing import Any, Self

from harness import EXAMPLE, PROGRAM, TIME, first_line


class Server:
    """A running server on a free port, with its journal in the folder."""

    def __init__(self, folder: str | os.PathLike[str], lines: int = 1, connections: int | None = 1, cards: int = 10,
                 capacity: int = 1000, table: str | os.PathLike[str] = EXAMPLE, more: Iterable[str] = (),
                 revised: Iterable[str | os.PathLike[str]] = (),
                 listen: str = "127.0.0.1:0", **options: Any) -> None:
        self.journal = pathlib.Path(folder) / "journal"
        words = ["serve", "--table", str(table), "--journal", str(self.journal), "--cards", str(cards),
                 "--capacity", str(capacity), "--listen", listen, "--lines", str(lines)]
        if connections is not None:
            words += ["--connections", str(connections)]
        words += [*more, *map(str, revised)]
        self.process: subprocess.Popen[bytes] = subprocess.Popen([PROGRAM, *words], stdin=subprocess.DEVNULL,
                                                                 stdout=subprocess.PIPE,
                                                                 stderr=subprocess.PIPE, **options)
        # The notes that it began with.
        self.notes: list[str] = []
        assert self.process.stderr, "a pipe"
        said = first_line(self.process.stderr)
        while said.startswith("note: "):
            self.notes.append(said.rstrip("\n"))
            said = first_line(self.process.stderr)
        if not said.startswith("listening "):
            raise AssertionError(f"the server said {said!r}, status {self.process.wait(TIME)}")
        host, _, port = said.split()[1].rpartition(":")
        self.address = host, int(port)

    def connect(self) -> "Gate":
        return Gate(self.address)

    def unread(self) -> int:
        """How many bytes that gates have sent the server hasn't read yet, by the system's list of connections."""
        port, count = f":{self.address[1]:04X}", 0
        for line in pathlib.Path("/proc/net/tcp").read_text().splitlines()[1:]:
            # Behind the line's number stand both addresses, the state, and the bytes to be acknowledged and to be read.
            fields = line.split()
            if fields[1].endswith(port) and fields[3] == "01":
                count += int(fields[4].partition(":")[2], 16)
        return count

    def end(self) -> tuple[int, list[str], str]:
        """The status and the output, once all connections were served."""
        out, err = self.process.communicate(timeout=TIME)
        return self.process.returncode, out.decode().split("\n")[:-1], err.decode()

    def kill(self) -> None:
        self.process.kill()
        self.process.communicate(timeout=TIME)


class Gate:
    """A gate's connection."""

    def __init__(self, address: tuple[str, int]) -> None:
        self.socket = socket.create_connection(address, TIME)

    def __enter__(self) -> Self:
        return self

    def __exit__(self, *_: object) -> None:
        self.socket.close()

    def send(self, *frames: bytes) -> None:
        self.socket.sendall(b"".join(frames))

    def take(self) -> bytes:
        """The next answer's frame, or what came of it before the connection ended."""
        head = self.read(2)
        return head + self.read(struct.unpack(">H", head)[0]) if len(head) == 2 else head

    def read(self, size: int) -> bytes:
        taken = b""
        while len(taken) < size:
            piece = self.socket.recv(size - len(taken))
            if not piece:
                break
            taken += piece
        return taken

    def ask(self, frame: bytes) -> bytes:
        self.send(frame)
        return self.take()
