# SPDX-License-Identifier: Apache-2.0
"""The tables of docs/operate/PERFORMANCE.md: rows and columns of the tables of docs/develop/MEASUREMENTS.md.
scripts/dev/measure-all writes both pages, and `scripts/dev/measure-all --excerpts` this one alone.

A column is named by its head in the table of the measurements. Where heads are equal, a number follows: `Through TLS 2` is
the second of them."""
import typing
from collections.abc import Iterator, Mapping, Sequence

import measuring


class Wrong(Exception):
    """A table that the page of the measurements lacks, or a row or a column of it."""


class Rows(typing.NamedTuple):
    """Rows of a table of the measurements: those whose cells begin with one of `keys`, or all. `label` replaces the first
    cell."""
    table: str
    columns: tuple[str, ...]
    keys: tuple[tuple[str, ...], ...] = ()
    label: str = ""


class Excerpt(typing.NamedTuple):
    """A table for users: its heads, and the rows that it takes from the measurements."""
    heads: tuple[str, ...]
    rows: tuple[Rows, ...]


FLUSHES = ("Touches stored by", "A second, 1 gate", "99th percentile, ms", "A second, 8 gates", "99th percentile, ms 2",
           "A second, 64 gates", "99th percentile, ms 3")
OVER_TLS = ("Asked", "Gates", "Median of an answer, us", "Through TLS 2", "99th percentile, us", "Through TLS 3")
FILES = ("Asked", "Gates", "Median of an answer, us", "By load.c 2")
AUDITED = ("the opening", "`replay`", "`verify`", "`verify --seal`", "`balances`", "`history`", "`statement --card 1`")
ON_A_DISK, SHARED = "touches, journal on a disk", "touch, files on the server's disk"

EXCERPTS = {
    "answers": Excerpt(("A flush takes", "A second, 1 gate", "99 % within, ms", "A second, 8 gates", "99 % within, ms",
                        "A second, 64 gates", "99 % within, ms"),
                       tuple(Rows(table, FLUSHES, (("Bovtrila",),), label) for table, label in
                             (("stored-on-disk", "as on this disk"), ("stored-10-ms", "10 ms")))),
    "opened": Excerpt(("Command", "Seconds", "Memory, MiB"),
                      (Rows("audits", ("Command", "Seconds", "MiB at most"), tuple((key,) for key in AUDITED)),)),
    "over-tls": Excerpt(("Asked", "Gates", "Median, us", "Through TLS", "99 % within, us", "Through TLS"),
                        (Rows("tls", OVER_TLS, (("enquiries", "1"), (ON_A_DISK, "1"), (ON_A_DISK, "8"))),)),
    "gate-files": Excerpt(("Asked", "Gates", "Median with the library, us", "Without a gate's file"),
                          (Rows("gates", FILES, (("enquiry", "1"), ("touch, files in memory", "1"), (SHARED, "1"))),)),
}


def cells(line: str) -> list[str]:
    """The cells of a table's line."""
    return [cell.strip() for cell in line.strip().strip("|").split("|")]


def places(heads: Sequence[str], names: Sequence[str], table: str) -> list[int]:
    """Where the columns with these names are."""
    found = []
    for name in names:
        head, _, number = name.rpartition(" ") if name[-1].isdigit() and name not in heads else (name, "", "1")
        at = [place for place, one in enumerate(heads) if one == head]
        if len(at) < int(number):
            raise Wrong(f"the table '{table}' of the measurements has no column '{name}'")
        found.append(at[int(number) - 1])
    return found


def taken(rows: Rows, tables: Mapping[str, list[str]]) -> Iterator[list[str]]:
    """The lines that an excerpt takes from one table."""
    if len(lines := tables.get(rows.table, [])) < 3:
        raise Wrong(f"the measurements have no table '{rows.table}'")
    heads, every = cells(lines[0]), [cells(line) for line in lines[2:]]
    columns = places(heads, rows.columns, rows.table)
    for key in rows.keys or [()]:
        found = [row for row in every if tuple(row[: len(key)]) == key]
        if not found:
            raise Wrong(f"the table '{rows.table}' of the measurements has no row '{' | '.join(key)}'")
        for row in found:
            shown = [row[column] for column in columns]
            yield [rows.label, *shown[1:]] if rows.label else shown


def excerpts(measured: str) -> dict[str, list[str]]:
    """The tables for users, by their names, of the page of the measurements."""
    tables = measuring.tables(measured)
    return {name: [measuring.line(excerpt.heads), "|" + "---|" * len(excerpt.heads),
                   *(measuring.line(row) for rows in excerpt.rows for row in taken(rows, tables))]
            for name, excerpt in EXCERPTS.items()}
