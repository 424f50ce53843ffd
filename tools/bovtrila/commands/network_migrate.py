# SPDX-License-Identifier: Apache-2.0
"""Upgrades the network's database to the version of these programs, in one transaction.

The steps are the files of /usr/share/bovtrila/network/migrations, one for each version, in order. Then the views are made
anew. If a step fails, the database stays as it was. The owner of the tables has to run this command, while nothing is
being loaded. In PostgreSQL the step to version 4 creates the schema bovtrila, for which this owner needs the right to
create schemas.

The status is 0 if the database now has this version, 1 if it can't be used or a step failed, and 2 for a wrong command
line.

    bovtrila-network-migrate
    bovtrila-network-migrate --database service=bovtrila
"""
import argparse
import collections
import contextlib
import sys
from collections.abc import Callable
from typing import TypedDict

from bovtrila.network import accounts, compare, database, fares, gates, journeys
from bovtrila.network.fields import Stage


class Refused(Exception):
    """A step failed. The text says why."""


# What the command ends with.
FAULTS: tuple[type[Exception], ...] = (Refused, *database.FAULTS)
ENDS = "SELECT journal, touches, checked, base FROM journals ORDER BY journal"


class Asked(argparse.Namespace):
    """The command line."""

    database: str


class Journal(TypedDict):
    """A journal."""

    journal: int
    server: str
    name: str


class Ends(accounts.Ends):
    """How many touches of a journal each stage has."""

    journal: int


class Table(TypedDict):
    """A fare table."""

    digest: str
    content: bytes


def fill_balances(base: database.Database) -> None:
    """The balances of all journals, which version 1 hadn't."""
    for row in base.rows(Journal, "SELECT journal, server, name FROM journals ORDER BY journal"):
        unlike = accounts.advance(base, row["journal"], "loaded", 0)
        if unlike:
            raise Refused(f"{row['server']} {row['name']}: the changes of card {unlike['card']} come to "
                          f"{unlike['balance']}, and its last touch says {unlike['told']}; remove the journal's rows, "
                          "migrate, and load it again")


def fill_gates(base: database.Database) -> None:
    """The gates of all journals, which version 2 hadn't, after the touches that were loaded, checked and detached."""
    for row in base.rows(Ends, ENDS):
        ends: dict[Stage, int] = {"loaded": row["touches"], "checked": row["checked"], "detached": row["base"]}
        for stage, end in ends.items():
            gates.advance(base, row["journal"], stage, 0, end)


def fill_journeys(base: database.Database) -> None:
    """The stations of all fare tables and the journeys of all journals, which version 4 hadn't."""
    for row in base.rows(Table, "SELECT digest, content FROM fare_tables ORDER BY digest"):
        fares.keep_stations(base, row["digest"], row["content"])
    base.match_months()
    for ends in base.rows(Ends, ENDS):
        journal = ends["journal"]
        journeys.load(base, journal, 0, compare.stored(base, journal, 0, ends["touches"]))
        later: dict[Stage, int] = {"checked": ends["checked"], "detached": ends["base"]}
        for stage, end in later.items():
            lines = compare.stored(base, journal, 0, end)
            journeys.advance(base, journal, stage, 0, lines, lambda settled: collections.deque(settled, 0))


# What a version needs beside its file, once the views are there.
STEPS: dict[int, Callable[[database.Database], None]] = {2: fill_balances, 3: fill_gates, 5: fill_journeys}


def migrate(base: database.Database) -> tuple[int, int]:
    """The versions before and after."""
    base.begin()
    base.hold_off()
    before = base.version()
    if before == 0:
        raise Refused("there are no tables yet; bovtrila-network-load makes them")
    if before > database.VERSION:
        base.fit()
    versions = range(before + 1, database.VERSION + 1)
    for version in versions:
        base.run_file(f"migrations/{version}.sql")
    base.run_file("views.sql")
    for version in versions:
        if version in STEPS:
            STEPS[version](base)
    base.execute("UPDATE schema_version SET version = :version", version=database.VERSION)
    base.commit()
    return before, database.VERSION


def main() -> None:
    parser = argparse.ArgumentParser(description=__doc__, formatter_class=argparse.RawTextHelpFormatter)
    parser.add_argument("--database", default="network.db", metavar="DATABASE",
                        help="a URL or connection string of PostgreSQL, or SQLite's file (network.db)")
    asked = parser.parse_args(namespace=Asked())
    try:
        with contextlib.closing(database.existing(asked.database)) as base:
            before, after = migrate(base)
    except FAULTS as error:
        sys.exit(f"migrate: {str(error).strip()}")
    print(f"version {after}" if before == after else f"version {before} -> {after}")
