# SPDX-License-Identifier: Apache-2.0
"""Compares what the network's database has of a journal with the journal itself, touch by touch and card by card."""
import itertools
from collections.abc import Callable, Iterable, Iterator
from typing import NamedTuple, TypedDict, TypeVar

from bovtrila.network import commands, rows
from bovtrila.network.database import Database

# How many differences are named.
NAMED = 10
TOUCHES = """
SELECT journal, place, {moment}, day, gate, number, card, act, station_number, pence, verdict, change, balance
FROM touches WHERE journal = {journal} AND place >= {first} AND place < {end} ORDER BY place
"""
CARDS = """
SELECT card, state, balance, transferred + paid_in AS paid_in, charged FROM balances
WHERE journal = {journal} AND stage = 'loaded' ORDER BY card
"""
# What lines are ordered by: a number, or several.
Order = TypeVar("Order", int, tuple[int, ...])


class Loaded(commands.Sealed):
    """What the database has of a journal: its number there, how many touches were loaded, and their seal."""

    journal: int


class Other(Loaded):
    """A journal that another one is compared with."""

    version: int


class Month(TypedDict):
    """A detached month, by its first day."""

    month: str


class Pair(NamedTuple):
    """Lines of both sides that differ. One of them may be missing."""

    stored: str | None
    true: str | None

    def line(self) -> str:
        """One of the lines, that of the database where there is one."""
        return self.stored or self.true or ""


def stored(base: Database, journal: int, first: int, end: int) -> Iterator[str]:
    """The database's rows of a journal from a place up to another, as lines."""
    return base.lines(TOUCHES.format(moment=base.MOMENT, journal=journal, first=first, end=end))


def paired(stored_lines: Iterable[str], true_lines: Iterable[str], place: Callable[[str], Order]) -> Iterator[Pair]:
    """The lines of both sides that differ, in pairs of which one may be missing. `place` is what a line is ordered by."""
    ours, theirs = (map(str.rstrip, lines) for lines in (stored_lines, true_lines))
    one, other = next(ours, None), next(theirs, None)
    while one is not None or other is not None:
        if one == other:
            one, other = next(ours, None), next(theirs, None)
            continue
        has_one = other is None or one is not None and place(one) <= place(other)
        has_other = one is None or other is not None and place(other) <= place(one)
        yield Pair(one if has_one else None, other if has_other else None)
        one, other = next(ours, None) if has_one else one, next(theirs, None) if has_other else other


def differences(base: Database, name: str, copy: commands.Inherited, tables: commands.Tables,
                loaded: Loaded) -> tuple[list[str], int]:
    """How the database differs from a journal, whose row of `journals` is given: lines, and how many differences there
    are."""
    journal, end = loaded["journal"], loaded["touches"]
    months = {row["month"][:7] for row in base.rows(Month, "SELECT month FROM detached_months")}
    with rows.history(name, copy, tables) as file:
        read = rows.Rows(file, 0, end)
        true = (line for line in read.of_journal(journal) if line.split(",", 4)[3][:7] not in months)
        found = [(f"place {place_of(pair, 1)}", *pair)
                 for pair in paired(stored(base, journal, 0, end + 1), true, lambda line: int(line.split(",", 2)[1]))]
    words: list[commands.Word] = ["balances", "--journal", copy, "--at", end, *commands.words_of_tables(copy, tables)]
    cards = commands.said(name, *words)[0].splitlines(keepends=True)[1:]
    of_base = base.lines(CARDS.format(journal=journal))
    found += [(f"card {place_of(pair, 0)}", *pair)
              for pair in paired(of_base, cards, lambda line: int(line.split(",", 1)[0]))]
    lines = [f"{where}: the database has {shown(one)}, the journal {shown(other)}" for where, one, other in found[:NAMED]]
    return lines, len(found)


def place_of(pair: Pair, column: int) -> str:
    return pair.line().split(",")[column]


def shown(line: str | None) -> str:
    return f"'{line}'" if line else "nothing"


def same_beginning(base: Database, copy: commands.Inherited, facts: commands.Facts, read: rows.Rows, other: Other) -> bool:
    """Whether a journal begins with the touches of another one of the database, or that one with these."""
    if other["touches"] <= facts["touches"] and other["version"] == facts["version"]:
        return commands.matches(copy, other)
    end = min(other["touches"], facts["touches"])
    first = max(0, end - 100)
    ours = {*map(str.rstrip, stored(base, other["journal"], first, end))}
    theirs = {*map(str.rstrip, itertools.islice(read.of_journal(other["journal"]), first, end))}
    # The rows of detached months aren't there: then as many as there are have to be the same.
    return bool(ours) and ours <= theirs
