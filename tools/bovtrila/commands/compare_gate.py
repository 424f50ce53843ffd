# SPDX-License-Identifier: Apache-2.0
"""Compares the touches that a gate stored with those in the station's journals, for an auditor.

GATE_FILE is a gate's file, or a copy of it: each touch that the gate was asked for, in order (JOURNAL.md,
"A gate's file"). JOURNAL is the station's journal. If a new journal followed a full one, name all of them, the oldest
first. The script only reads the files, and gate and server may continue. The touches that the file had before the
journals were opened have to be in the journals. Then the script reads the rest of the file, in which the journals'
touches of this gate have to be.

The script prints a line for each finding, with the touch's number, card, act and moment. First come the findings for
the journals' touches of this gate, in their order, and then those for touches of the file that no journal has:

    other   both have the number, with other bytes
    more    the journal has this touch, and the file has none with this number
    order   in the journal it follows a touch with a higher number
    twice   the journals have its number a second time
    lacks   the file has this touch, and no journal has its number
    waits   the same for the last touch of the file. If it waits for its reply, this is no fault
    given-up
            the gate gave this touch up. The line has its place in a journal, or `no journal has this number`: neither is
            a fault. The gate never uses the next number: a journal's touch with that number is `more`

The last line has the counts: how many touches the file has, how many touches of this gate the journals have, how many
of these are the same in both, and how many of each finding. With --csv the findings are comma-separated values with
a heading, as in a history, and the counts are on standard error.

The status is 0 if there is no finding, or only `waits` and `given-up`; 1 if something differs; and 2 for a wrong command
line, or for a file that can't be read or isn't valid, such as one with a damaged slot. Then a line on standard error
names the file, and there are no counts.

    bovtrila-compare-gate gate-7.file copy.journal
    bovtrila-compare-gate gate-7.file station.journal station-20261129.journal
    bovtrila-compare-gate gate-7.file copy.journal --csv > gate-7.csv
"""
import argparse
import array
import csv
import datetime
import os
import struct
import sys
from collections.abc import Iterator, Sequence
from typing import Any

from bovtrila import codec, layout, wire
from bovtrila.journal_tail import Tail
from bovtrila.wire import Wrong

# What stands in a gate's file before the gate's number, and what stood there in files of older libraries.
TAG, OLD_TAG = b"touches of one gate, by number", b"Bovtrila: the touches of gate "
CAPACITY, CARDS = 1_000_000, 100_000
# How many slots are read at a time.
SLOTS = 4096
SIZES = {kind: size for kind, size in wire.REQUESTS.items() if kind != codec.ENQUIRE}
FINDINGS = ("other", "more", "order", "twice", "lacks", "waits", "given-up")
# Those that are no difference.
HARMLESS = ("waits", "given-up")
HEADING = ("finding", "number", "card", "act", "station", "pence", "day", "moment", "journal", "place", "note")


class Journal:
    """A journal's file, read alone. It has the touches that it had when it was opened, and with `read_on` those since."""

    def __init__(self, path: str) -> None:
        self.path, self.tail = path, Tail(path)
        self.tail.read()
        self.header = self.tail.header[0]
        self.size = layout.SLOTS[self.header[1:9]]
        self.capacity, self.cards = struct.unpack(">II", self.header[9:17])
        self.tag, self.gate = self.header[17:47], struct.unpack(">H", self.header[47:49])[0]
        if not 1 <= self.capacity <= CAPACITY or not 1 <= self.cards <= CARDS:
            raise Wrong(f"{path}: its header has a capacity of {self.capacity} and {self.cards} cards, which can't be")
        self.count = self.tail.touches

    def read_on(self) -> None:
        """Counts the touches that came since."""
        before = self.tail.header
        self.tail.read()
        if self.tail.header != before:
            raise Wrong(f"{self.path}: it is another file than before; compare copies")
        self.count = self.tail.touches

    def pieces(self, first: int = 0) -> Iterator[tuple[int, bytes]]:
        """The slots from a place on, so many at a time: the place of each piece's first, and the piece. Each holds a
        touch."""
        try:
            with open(self.path, "rb") as file:
                file.seek(layout.HEADER + self.size * first)
                while first < self.count:
                    piece = file.read(self.size * min(SLOTS, self.count - first))
                    self.check(first, piece)
                    yield first, piece
                    first += len(piece) // self.size
                if first < self.capacity and not file.read(1):
                    raise Wrong(f"{self.path}: slot {first} is damaged: the file ends before its mark")
        except OSError as error:
            raise Wrong(f"{self.path}: {error.strerror}") from None

    def names(self, piece: bytes) -> Iterator[tuple[int, int]]:
        """The gate and the number of each slot of a piece."""
        found: Iterator[Any] = struct.iter_unpack(f">2xHI{self.size - 8}x", piece)
        return found

    def check(self, first: int, piece: bytes) -> None:
        """Whether each slot of a piece is whole and holds a touch."""
        known = bytes(kind for kind, size in SIZES.items() if size < self.size)
        kinds = piece[1::self.size]
        if len(piece) % self.size == 0 and piece and not kinds.translate(None, known):
            return
        place = next((place for place, kind in enumerate(kinds) if kind not in known), len(piece) // self.size)
        is_cut = place >= len(piece) // self.size
        why = "it is cut short" if is_cut else f"it has kind {kinds[place]}, which no touch has"
        raise Wrong(f"{self.path}: slot {first + place} is damaged: {why}")


class GateFile(Journal):
    """A gate's file, of which each touch is found by its number."""

    def __init__(self, path: str) -> None:
        super().__init__(path)
        if self.tag == OLD_TAG:
            raise Wrong(f"{path}: a gate's file of an older library; change a copy over "
                        "(GATE_LIBRARY.md, \"To change an old file over\")")
        if self.tag != TAG or self.header[1:9] != layout.VERSION or self.cards != 1:
            raise Wrong(f"{path}: this is no gate's file; name that first, and then the journals")
        # The slots that were read last, and the place of the first of them.
        self.first, self.piece = -SLOTS, b""
        # For each number 1 if its touch is given up: the next slot has it once more. One number more than there are slots.
        self.given_up = bytearray(1)
        self.look_through(0)

    def look_through(self, first: int) -> None:
        """Whether the touches from a place on are this gate's, numbered by their places, or give up the ones before them."""
        self.given_up += bytes(self.count - first)
        before = self.slots(first - 1, first) if first else b""
        for first, piece in self.pieces(first):
            slots, begin = before + piece, first - len(before) // self.size
            for place, (gate, number) in enumerate(self.names(piece), first):
                if number == place > begin and self.is_repeated(slots, place - begin):
                    self.given_up[number] = 1
                elif number != place + 1 or gate != self.gate:
                    raise Wrong(f"{self.path}: slot {place} holds number {number} of gate {gate}, and has to hold "
                                f"number {place + 1} of gate {self.gate}")
            before = piece[-self.size:]

    def is_repeated(self, slots: bytes, place: int) -> bool:
        """Whether the slot at this place of some slots has the touch of the slot before it."""
        return body_in(slots, self.size * place) == body_in(slots, self.size * (place - 1))

    def has(self, number: int) -> bool:
        """Whether the file has a touch of this number. The number behind that of a given-up touch is never used."""
        return 1 <= number <= self.count and not self.given_up[number - 1]

    def read_on(self) -> None:
        before = self.count
        super().read_on()
        self.look_through(before)

    def slots(self, begin: int, end: int) -> bytes:
        """The slots from a place to before another, as many as there are."""
        piece = b""
        for first, more in self.pieces(begin):
            piece += more
            if first + SLOTS >= end:
                break
        return piece[:self.size * (end - begin)]

    def body(self, number: int) -> bytes:
        """The bytes of the touch of this number, which the file has."""
        if not self.first < number <= self.first + SLOTS:
            self.first = (number - 1) // SLOTS * SLOTS
            self.piece = self.slots(self.first, self.first + SLOTS)
        return body_in(self.piece, self.size * (number - 1 - self.first))


def body_in(piece: bytes, at: int) -> bytes:
    """The bytes of the touch in the slot that begins at this byte of a piece."""
    return piece[at + 1:at + 1 + SIZES[piece[at + 1]]]


def moment_text(moment: int) -> str:
    return f"{datetime.datetime.fromtimestamp(moment, datetime.timezone.utc):%Y-%m-%dT%H:%M:%SZ}"


def words_of(body: bytes) -> str:
    """A touch in words, but for its gate and number."""
    fields = wire.fields_of(b"\0\0" + body)
    where = {codec.ENTER: "in at {station}", codec.LEAVE: "out at {station}", codec.TOP_UP: "top-up of {pence}",
             codec.ISSUE: "issue", codec.REVISE: "revision to {table} from day {day}"}[body[0]]
    table = fields["digest"].hex() if "digest" in fields else ""
    return f"card {fields['card']} {where.format(table=table, **fields)} of {moment_text(fields['moment'])}"


class Told:
    """The findings, a line each, and how many there are of each."""

    def __init__(self, as_csv: bool) -> None:
        self.counts = dict.fromkeys(FINDINGS, 0)
        self.rows = csv.writer(sys.stdout, lineterminator="\r\n") if as_csv else None
        if self.rows is not None:
            self.rows.writerow(HEADING)

    def tell(self, finding: str, body: bytes, journal: str, place: int | str, note: str) -> None:
        """Tells a finding of a touch. The journal is a name, or nothing where the touch is the file's."""
        self.counts[finding] += 1
        number = wire.number_at(body, 3, 4)
        if self.rows is None:
            where = f"place {place} of {journal}, {note}" if journal else note
            print(f"{finding:5}  number {number} {words_of(body)}: {where}")
            return
        fields = wire.fields_of(b"\0\0" + body)
        card, station = fields["card"], fields.get("station", "")
        if body[0] == codec.REVISE:
            # It is of no card.
            card, station = "", fields["digest"].hex()
        self.rows.writerow((finding, number, card, codec.ACTS[body[0]], station, fields.get("pence", ""),
                            fields.get("day", ""), moment_text(fields["moment"]), journal, place, note))


class Comparison:
    """A gate's file beside the touches of the journals that are of its gate."""

    def __init__(self, file: GateFile, journals: Sequence[Journal], told: Told) -> None:
        self.file, self.journals, self.told = file, journals, told
        # What the file had before the journals were opened has to be in them, and what they have, in the file by now.
        self.last = file.count
        file.read_on()
        # For each number of the file where it was found: one more than how many touches stand before it in all journals.
        self.found = array.array("I", bytes(4 * file.count))
        self.touches, self.alike, self.before = 0, 0, 0

    def run(self) -> bool:
        """Compares all, and returns whether something differs."""
        behind = 0
        for journal in self.journals:
            for first, piece in journal.pieces():
                places = [place for place, (gate, _) in enumerate(journal.names(piece)) if gate == self.file.gate]
                if places and not self.take_row(journal, behind + first, piece, places):
                    for place in places:
                        self.take(journal, first + place, behind, body_in(piece, journal.size * place))
            behind += journal.count
        for number in range(1, self.last + 1):
            if not self.found[number - 1] and self.file.has(number):
                self.lacking(number)
        return any(count for finding, count in self.told.counts.items() if finding not in HARMLESS)

    def lacking(self, number: int) -> None:
        """Tells of a touch of the file whose number no journal has."""
        finding, note = "lacks", "no journal has this number"
        if self.file.given_up[number]:
            finding = "given-up"
        elif number == self.last:
            finding, note = "waits", "no journal has it yet: it waits for its reply"
        self.told.tell(finding, self.file.body(number), "", "", note)

    def take_row(self, journal: Journal, behind: int, piece: bytes, places: Sequence[int]) -> bool:
        """Takes the touches at these places of a journal's piece at once, where their slots are those of the file that
        come next, and none is given up: whether they are."""
        size, begin, end = journal.size, self.before, self.before + len(places)
        slots = b"".join([piece[size * place:size * (place + 1)] for place in places])
        if 1 in self.file.given_up[begin:end + 1] or begin < len(self.found) and any(self.found[begin:end]):
            return False
        if slots != self.file.slots(begin, end):
            return False
        self.found[begin:end] = array.array("I", [behind + place + 1 for place in places])
        self.touches, self.alike, self.before = self.touches + len(places), self.alike + len(places), end
        self.last = max(self.last, end)
        return True

    def take(self, journal: Journal, place: int, behind: int, body: bytes) -> None:
        """Compares a touch of a journal, behind so many of the journals before it."""
        self.touches += 1
        number = wire.number_at(body, 3, 4)
        if not self.file.has(number):
            self.told.tell("more", body, journal.path, place, "the gate's file has no such number")
            return
        if self.found[number - 1]:
            self.told.tell("twice", body, journal.path, place, f"and {self.where(self.found[number - 1] - 1)}")
            return
        self.found[number - 1], self.last = behind + place + 1, max(self.last, number)
        kept, is_given_up = self.file.body(number), self.file.given_up[number]
        self.alike += kept == body
        if kept != body:
            note = f"the gate's file has {words_of(kept)}" + ", given up" * is_given_up
            self.told.tell("other", body, journal.path, place, note)
        elif is_given_up:
            self.told.tell("given-up", body, journal.path, place, "the gate gave it up")
        if number > self.before or not is_given_up:
            if number < self.before:
                self.told.tell("order", body, journal.path, place, f"behind number {self.before}")
            self.before = number

    def where(self, behind: int) -> str:
        """The place of a touch before which so many stand in all journals."""
        for journal in self.journals:
            if behind < journal.count:
                return f"place {behind} of {journal.path}"
            behind -= journal.count
        raise AssertionError(behind)

    def counts(self) -> str:
        """The line of counts."""
        touches = self.last - self.file.given_up[:self.last].count(1)
        counts = {"gate": self.file.gate, "file": touches, "journal": self.touches, "alike": self.alike,
                  **self.told.counts}
        return ", ".join(f"{name} {count}" for name, count in counts.items())


def options() -> argparse.Namespace:
    parser = argparse.ArgumentParser(description=__doc__, formatter_class=argparse.RawTextHelpFormatter)
    parser.add_argument("file", metavar="GATE_FILE", help="the gate's file")
    parser.add_argument("journals", metavar="JOURNAL", nargs="+", help="the station's journals, the oldest first")
    parser.add_argument("--csv", action="store_true", help="print the findings as comma-separated values")
    return parser.parse_args()


def opened(asked: argparse.Namespace) -> tuple[GateFile, list[Journal]]:
    """The gate's file, and then the journals."""
    file = GateFile(asked.file)
    journals = [Journal(path) for path in asked.journals]
    for place, journal in enumerate(journals):
        if journal.tag in (TAG, OLD_TAG):
            raise Wrong(f"{journal.path}: this is a gate's file; name one of them, and behind it the station's journals")
        for other in journals[:place]:
            if os.path.samefile(journal.path, other.path):
                raise Wrong(f"{journal.path}: this is {other.path}, which is named before it")
    return file, journals


def main() -> int:
    asked = options()
    try:
        comparison = Comparison(*opened(asked), Told(asked.csv))
        differs = comparison.run()
        sys.stdout.flush()
        print(comparison.counts(), file=sys.stderr if asked.csv else sys.stdout, flush=True)
    except Wrong as wrong:
        sys.stdout.flush()
        print(f"compare-gate: {wrong}", file=sys.stderr)
        return 2
    except BrokenPipeError:
        # Whoever reads the lines has gone.
        os.dup2(os.open(os.devnull, os.O_WRONLY), sys.stdout.fileno())
        return 2
    except OSError as error:
        os.dup2(os.open(os.devnull, os.O_WRONLY), sys.stdout.fileno())
        print(f"compare-gate: standard output: {error.strerror}; the lines aren't whole", file=sys.stderr)
        return 2
    return 1 if differs else 0
