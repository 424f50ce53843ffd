# SPDX-License-Identifier: Apache-2.0
"""Files of vectors: for each of several servers, requests with their answers to the byte (docs/vectors.txt)."""
import pathlib
from typing import NamedTuple

from bovtrila import places, table_file
from bovtrila.model import Station as Model
from bovtrila.wire import Wrong, hexadecimal, lines_of

Vector = NamedTuple("Vector", [("line", int), ("section", str), ("request", bytes), ("answer", bytes)])


class Station:
    """The vectors of one server, which begins with an empty journal."""

    def __init__(self, folder: pathlib.Path, line: int, words: list[str]) -> None:
        self.name, self.vectors, self.sections = words[0], list[Vector](), list[str]()
        # Beginnings of frames: bad ones, and those behind which a server waits for more bytes.
        self.bad, self.waits = list[bytes](), list[bytes]()
        self.revised: list[pathlib.Path] = []
        options = dict(word.partition("=")[::2] for word in words[1:])
        numbers = options.get("cards", ""), options.get("capacity", "")
        if set(options) != {"table", "cards", "capacity"} or not all(number.isdecimal() for number in numbers):
            raise Wrong(f"line {line}: a server's line has a name, and then table=, cards= and capacity=")
        self.table = folder / options["table"]
        self.cards, self.capacity = map(int, numbers)

    def words(self) -> list[str | pathlib.Path | int]:
        """The words with which this server is started, the tables of its revisions last."""
        return ["--table", self.table, "--cards", self.cards, "--capacity", self.capacity, *self.revised]

    def model(self) -> Model:
        """The plain model of this server."""
        supplied = [table_file.read(path) for path in self.revised]
        try:
            return Model(table_file.read(self.table), self.cards, self.capacity, supplied)
        except ValueError as error:
            raise Wrong(f"{self.name}: {error}") from None


def beginnings(text: str, line: int) -> list[bytes]:
    """The beginnings from the one to the other of a text FROM..TO, or the one that it names."""
    first, _, last = text.partition("..")
    low, high = hexadecimal(first, line), hexadecimal(last or first, line)
    if len(low) != len(high) or low > high:
        raise Wrong(f"line {line}: '{text}' doesn't go from a beginning up to another of its length")
    numbers = range(int.from_bytes(low, "big"), int.from_bytes(high, "big") + 1)
    return [number.to_bytes(len(low), "big") for number in numbers]


class Reader:
    """Reads the lines of a file of vectors, whose form its own first lines tell."""

    def __init__(self, folder: pathlib.Path) -> None:
        self.folder, self.stations = folder, list[Station]()
        self.asked: bytes | None = None

    def add(self, line: int, text: str) -> None:
        mark, _, rest = text.partition(" ")
        if mark == "#!":
            self.instruct(line, rest.split())
        elif not text or mark.startswith("#"):
            return
        elif not self.stations:
            raise Wrong(f"line {line}: '{text[:40]}' stands before the first line '#! server'")
        elif text.startswith("[") and text.endswith("]"):
            self.stations[-1].sections.append(text[1:-1])
        elif mark == ">" and self.asked is None and self.stations[-1].sections:
            self.asked = hexadecimal(rest, line)
        elif mark == "<" and self.asked is not None:
            station = self.stations[-1]
            answer = hexadecimal(rest, line)
            station.vectors.append(Vector(line, station.sections[-1], self.asked, answer))
            self.asked = None
        else:
            raise Wrong(f"line {line}: '{text[:40]}' is no line of vectors: a section's [NAME], and then '> HEX' and "
                        "'< HEX' in turn")

    def instruct(self, line: int, words: list[str]) -> None:
        """Takes a line that begins with #!."""
        if words[:1] == ["server"] and len(words) > 1:
            self.stations.append(Station(self.folder, line, words[1:]))
        elif words[:1] == ["revision"] and len(words) == 2 and self.stations:
            self.stations[-1].revised.append(self.folder / words[1])
        elif words[:1] == ["bad"] and self.stations:
            self.stations[-1].bad += [one for word in words[1:] for one in beginnings(word, line)]
        elif words[:1] == ["waits"] and self.stations:
            self.stations[-1].waits += [one for word in words[1:] for one in beginnings(word, line)]
        else:
            raise Wrong(f"line {line}: '#! {' '.join(words)[:40]}' is neither server, revision, bad nor waits")


def read(path: str | pathlib.Path = places.VECTORS) -> list[Station]:
    """The servers of a file of vectors, each with its vectors, in the file's order."""
    reader = Reader(pathlib.Path(path).resolve().parent)
    try:
        for line, text in lines_of(path):
            reader.add(line, text.strip())
    except Wrong as wrong:
        raise wrong if str(wrong).startswith(str(path)) else Wrong(f"{path}: {wrong}") from None
    if not any(station.vectors for station in reader.stations):
        raise Wrong(f"{path}: there are no vectors in it")
    return reader.stations
