# SPDX-License-Identifier: Apache-2.0
"""The rows of `history`, as the table `touches` of the network's database has them."""
import collections
import contextlib
import datetime
import io
import itertools
import re
import shutil
import tempfile
from collections.abc import Iterator
from typing import IO, TypedDict

from bovtrila.network import commands

EPOCH = datetime.date(1970, 1, 1)
# A month so far from the middle one of a load has no partition of its own: a gate's clock is wrong.
FAR = 12
# How much of a file is copied at a time, in bytes.
PIECE = 1 << 20


class Revision(TypedDict):
    """A row of the table `revisions`. first_day is in days since 1970-01-01."""

    place: int
    digest: str
    first_day: int
    verdict: str


def days_of(text: str) -> int:
    """The days from 1970-01-01 to a day of `history`: a date of any year, or that number itself."""
    match = re.fullmatch(r"(-\d+|\d{4})-(\d\d)-(\d\d)", text)
    if not match:
        return int(text)
    year, month, day = map(int, match.groups())
    # The calendar repeats itself each 400 years, which have 146,097 days.
    cycles, year = divmod(year - 1, 400)
    return (datetime.date(year + 1, month, day) - EPOCH).days + 146_097 * cycles


def month_of(day: str) -> int:
    """The months from year 0 to that of a date."""
    return 12 * int(day[:4]) + int(day[5:7])


class Rows:
    """The touches of a journal from a place on, up to the one that its seal ends with."""

    def __init__(self, file: IO[str], first: int, end: int) -> None:
        self.file, self.first, self.end = file, first, end
        # By month, as 2025-01: a day of it, and how many touches it has.
        self.days: dict[str, str] = {}
        self.counts: collections.Counter[str] = collections.Counter()
        self.revisions: list[Revision] = []
        for line in self.lines():
            fields = line.split(",", 8)
            day = fields[2]
            if fields[6] == "revision":
                place, day, verdict = int(fields[0]), fields[1][:10], fields[8].split(",")[1]
                self.revisions.append({"place": place, "digest": fields[7], "first_day": days_of(fields[2]),
                                       "verdict": verdict})
            self.days[day[:7]] = day
            self.counts[day[:7]] += 1

    def lines(self) -> Iterator[str]:
        """The lines of these touches, after the heading and the touches before them."""
        self.file.seek(0)
        return itertools.islice(self.file, 1 + self.first, 1 + self.end)

    def near_days(self) -> list[str]:
        """A day of each month that is near the middle one of these touches."""
        middle, count = "", 0
        for month in sorted(self.counts):
            if 2 * count <= self.end - self.first:
                middle = self.days[month]
            count += self.counts[month]
        return [day for _, day in sorted(self.days.items()) if abs(month_of(day) - month_of(middle)) <= FAR]

    def of_journal(self, journal: int) -> Iterator[str]:
        """The rows of the table `touches`, as comma-separated values. A revision has card 0, which is no card's number."""
        for line in self.lines():
            if ",revision," in line:
                place, moment, _, gate, number, card, act, _, *rest = line.split(",")
                line = ",".join((place, moment, moment[:10], gate, number, card or "0", act, "", *rest))
            yield f"{journal},{line}"


@contextlib.contextmanager
def copied(journal: str) -> Iterator[commands.Inherited]:
    """A copy of a journal: its path, and the descriptor that its readers have to inherit. The file has no name, so whatever
    ends this process removes it."""
    with tempfile.TemporaryFile() as copy, commands.opened(journal) as file:
        shutil.copyfileobj(file, copy, PIECE)
        copy.flush()
        yield commands.Inherited(f"/dev/fd/{copy.fileno()}")


@contextlib.contextmanager
def history(name: str, journal: commands.Inherited, tables: commands.Tables) -> Iterator[io.TextIOWrapper]:
    """What `history` writes of a journal, in a file that has no name."""
    with tempfile.TemporaryFile() as file:
        words = commands.words_of_tables(journal, tables)
        commands.said(name, "history", "--journal", journal, *words, output=file)
        yield io.TextIOWrapper(file, encoding="ascii", newline="\n")
