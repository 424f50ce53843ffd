# SPDX-License-Identifier: Apache-2.0
"""The rows of a history in CSV, as `bovtrila history` writes them, for the scripts that read them: each is held against
those before it. A file saved by a spreadsheet, with quotes around its fields, is read too."""
import csv
import datetime
import os
import re
import sys
import time
from collections.abc import Iterator
from typing import NamedTuple, Protocol

HEADING = "place,moment,day,gate,number,card,act,station,pence,verdict,change,balance"
NATURAL, WHOLE, DATE = "0|[1-9][0-9]{0,9}", "0|-?[1-9][0-9]{0,17}", "[0-9]{4}-[0-9]{2}-[0-9]{2}"
# The lines between a comment `generated` and a comment `end` are made from the server's code: they aren't edited by hand.
# generated: acts
# Whether the fields card, station and pence are filled, by act.
FILLED = {
    "in": (True, True, False), "out": (True, True, False), "top-up": (True, False, True), "issue": (True, False, False),
    "revision": (False, True, False),
}
# The verdicts of FARES.md by act: those that accept it, and those that refuse it.
ACCEPTED = {
    "in": ("Entered", "EnteredContinued", "EnteredOverOpen"), "out": ("Exited", "ExitedUnstarted", "ExitedLate"),
    "top-up": ("ToppedUp",), "issue": ("Issued",), "revision": ("Revised",),
}
REFUSED = {
    "in": ("UnknownCard", "UnknownStation", "Backwards", "LowBalance"),
    "out": ("UnknownCard", "UnknownStation", "Backwards"), "top-up": ("UnknownCard", "BadAmount", "OverLimit"),
    "issue": ("UnknownCard", "AlreadyIssued"), "revision": ("BadDay",),
}
# end: acts
# What each field of a row looks like. Only a revision's day may be a number, or lie before the year 0.
FIELDS = {"place": NATURAL, "moment": f"{DATE}T[0-9]{{2}}:[0-9]{{2}}:[0-9]{{2}}Z",
          "day": f"{DATE}|-[0-9]{{6}}-[0-9]{{2}}-[0-9]{{2}}|{WHOLE}", "gate": NATURAL, "number": NATURAL,
          "card": f"{NATURAL}|", "act": "|".join(FILLED), "station": f"{NATURAL}|[0-9a-f]{{64}}|",
          "pence": f"{NATURAL}|", "verdict": "[A-Za-z]+", "change": WHOLE, "balance": WHOLE}
ROW = re.compile(",".join(f"({form})" for form in FIELDS.values()))


class Row(NamedTuple):
    """A row, by FIELDS: its moment in seconds since 1970-01-01 00:00:00 UTC, its change and its balance in pence."""
    place: int
    moment: int
    day: str
    gate: int
    number: int
    card: int | None
    act: str
    station: str
    pence: str
    verdict: str
    change: int
    balance: int


# The verdicts of a touch of a card that was inside.
ENDS_OPEN = ("EnteredOverOpen", "Exited", "ExitedLate")
# How many seconds pass between two lines on how far the reading is.
TOLD = 2

# A card's balance behind its last row, the gaps before that row, and the card's open touch in.
Link = NamedTuple("Link", [("balance", int), ("gaps", int), ("entry", Row | None)])


class Wrong(Exception):
    """What was given can't be right. The text says what, and where."""


class Digest(Protocol):
    """A digest of hashlib, which takes the bytes that are read."""

    def update(self, content: bytes, /) -> object: ...


def unquoted(text: str) -> str:
    """A line without the quotes of its fields."""
    try:
        return ",".join(next(csv.reader([text], strict=True)))
    except csv.Error:
        raise Wrong("its quotes don't go together") from None


def row_of(text: str) -> Row:
    """The row that a line has; its moment in seconds since 1970-01-01 00:00:00 UTC. A revision has no card."""
    match = ROW.fullmatch(text)
    if not match:
        fields = text.split(",")
        if len(fields) != len(FIELDS):
            raise Wrong(f"it has {len(fields)} fields, and the heading {len(FIELDS)}")
        name, field = next((name, field) for (name, form), field in zip(FIELDS.items(), fields)
                           if not re.fullmatch(form, field))
        raise Wrong(f"the {name} '{field[:40]}' can't be one")
    place, moment, day, gate, number, card, act, station, pence, verdict, change, balance = match.groups()
    try:
        seconds = int(datetime.datetime.fromisoformat(moment[:-1] + "+00:00").timestamp())
        if act != "revision":
            datetime.date.fromisoformat(day)
    except ValueError:
        raise Wrong(f"the calendar has no moment '{moment}' or no day '{day}'") from None
    row = Row(int(place), seconds, day, int(gate), int(number), int(card) if card else None, act, station, pence, verdict,
              int(change), int(balance))
    check_row(row)
    return row


def check_row(row: Row) -> None:
    """Whether the fields of a row go together."""
    is_filled = row.card is not None, row.station != "", row.pence != ""
    if is_filled != FILLED[row.act] or (len(row.station) == 64) != (row.act == "revision"):
        card = "" if row.card is None else row.card
        raise Wrong(f"card '{card}', station '{row.station[:12]}' and pence '{row.pence}' don't go with {row.act}")
    accepted = row.verdict in ACCEPTED[row.act]
    if not accepted and row.verdict not in REFUSED[row.act]:
        raise Wrong(f"the verdict {row.verdict} is none of {row.act}")
    if not accepted or row.act in ("issue", "revision"):
        right = row.change == 0
    elif row.act == "top-up":
        right = row.change == int(row.pence)
    else:
        right = row.change >= 0 if row.verdict == "Exited" else row.change <= 0
    if not right:
        raise Wrong(f"a change of {row.change} doesn't go with {row.verdict}")


def lines_of(path: str, digest: Digest) -> Iterator[tuple[int, str]]:
    """The lines of a file, numbered from 1, without their ends. The digest takes their bytes."""
    try:
        with open(0 if path == "-" else path, "rb") as file:
            for line, content in enumerate(file, 1):
                digest.update(content)
                if not content.endswith(b"\n"):
                    raise Wrong(f"line {line}: no end of the line stands behind it, so the file was cut off")
                # Spreadsheets begin a file by a mark of its encoding.
                content = content.removeprefix(b"\xef\xbb\xbf") if line == 1 else content
                if not content.isascii():
                    raise Wrong(f"line {line}: it has characters that no history has")
                yield line, content.decode("ascii").removesuffix("\n").removesuffix("\r")
    except OSError as error:
        raise Wrong(f"{error.strerror}; name a file that can be read") from None


class Progress:
    """Says on standard error, every few seconds, how far the reading of a file is."""

    def __init__(self, path: str, script: str) -> None:
        self.script = script
        self.size = os.path.getsize(path) if path != "-" and os.path.isfile(path) else 0
        self.name = "standard input" if path == "-" else os.path.basename(path)
        self.read, self.told = 0, time.monotonic()

    def add(self, line: int, text: str) -> None:
        """Counts a line."""
        self.read += len(text) + 2
        if line % 1000 == 0 and time.monotonic() - self.told >= TOLD:
            share = f" of {self.name}, {min(99, 100 * self.read // self.size)} %" if self.size else f" of {self.name}"
            print(f"{self.script}: {line:,} lines{share}", file=sys.stderr, flush=True)
            self.told = time.monotonic()


class Chain:
    """What the rows of a file so far say of each card: its balance, and its last touch in that is open. Of a part of a
    history rows may be left out: there a touch in before the gap counts only if the balances still agree."""

    def __init__(self, is_part: bool = False, begins: bool = True) -> None:
        """Of a whole history, or of one that may begin later."""
        self.links: dict[int | None, Link] = {}
        self.next, self.gaps, self.is_part, self.begins = 0, 0, is_part, begins

    def follow(self, place: int) -> None:
        """Counts a gap before this place, or fails where there may be none."""
        if place < self.next:
            raise Wrong(f"place {place} stands behind place {self.next - 1}")
        if place == self.next:
            return
        is_late = self.next == 0 and not self.begins
        if not self.is_part and not is_late:
            lost = f"place {self.next} is" if place == self.next + 1 else f"places {self.next} to {place - 1} are"
            how = "a history of one day needs --day, and one" if self.next == 0 else "one"
            raise Wrong(f"{lost} missing before place {place}; {how} from which rows were left out on purpose --part")
        self.gaps += 1

    def add(self, row: Row) -> Row | None:
        """The card's open touch in before this row, or None where there is none in the file."""
        self.follow(row.place)
        self.next = row.place + 1
        if row.act == "revision":
            return None
        before = self.links.get(row.card, Link(0, 0, None))
        agrees = before.balance + row.change == row.balance
        if not agrees and before.gaps == self.gaps:
            raise Wrong(f"card {row.card} had {before.balance}, and a change of {row.change} doesn't make it "
                        f"{row.balance}")
        entry = before.entry if agrees else None
        travels = row.act in ("in", "out") and row.verdict in ACCEPTED[row.act]
        if travels and not self.gaps and (entry is not None) != (row.verdict in ENDS_OPEN):
            raise Wrong(f"{row.verdict} doesn't go with card {row.card}, which is {'inside' if entry else 'outside'}")
        after = (row if row.act == "in" else None) if travels else entry
        self.links[row.card] = Link(row.balance, self.gaps, after)
        return entry


def rows_of(path: str, chain: Chain, digest: Digest, script: str) -> Iterator[tuple[Row, Row | None]]:
    """The rows of a file, each with its card's open touch in before it, as the chain has them. The digest takes the
    file's bytes, and on a long file the script of this name says how far it is."""
    progress, line = Progress(path, script), 0
    for line, text in lines_of(path, digest):
        progress.add(line, text)
        try:
            text = unquoted(text) if '"' in text else text
            if line > 1:
                row = row_of(text)
                yield row, chain.add(row)
            elif text != HEADING:
                raise Wrong(f"'{text[:60]}' isn't the heading {HEADING}")
        except Wrong as wrong:
            raise Wrong(f"line {line}: {wrong}") from None
    if line == 0:
        raise Wrong("line 1: the file is empty, and begins with no heading")
