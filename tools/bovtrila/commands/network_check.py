# SPDX-License-Identifier: Apache-2.0
"""Checks the touches in the network's database across rows, and compares the cards' balances with them.

It checks the touches that were loaded since the last check, or with --all every touch in the database. It prints a line
of comma-separated values for each broken promise; a correct database has none. A journal without such a line counts as
checked. For a journal with one nothing changes, so that the next check finds it again.

The status is 0 if nothing was found, 3 if something was, 1 if the database can't be used, 2 for a wrong command line,
and 141 if nobody reads the output.

    bovtrila-network-check
    bovtrila-network-check --all --database postgresql://127.0.0.1/bovtrila
"""
import argparse
import contextlib
import csv
import sys
from collections.abc import Callable
from typing import TypedDict

from bovtrila.network import accounts, database, output

JOURNALS = """
SELECT journal, station, servers.name AS server, journals.name AS name FROM journals
JOIN servers ON servers.name = journals.server ORDER BY station, server, name
"""


class Asked(argparse.Namespace):
    """The command line."""

    all: bool
    database: str


class Journal(TypedDict):
    """A journal and its server."""

    journal: int
    station: str
    server: str
    name: str


def check(base: database.Database, everything: bool, write: Callable[[list[str | int]], object]) -> bool:
    """Checks the journals one by one, each in a transaction: whether something was found."""
    found = False
    for journal in base.rows(Journal, JOURNALS):
        base.begin()
        breaches = accounts.check(base, journal["journal"], everything)
        if breaches:
            base.rollback()
        else:
            base.commit()
        for place, breach in breaches:
            write([journal["station"], journal["server"], journal["name"], "" if place is None else place, breach])
            found = True
    return found


def run() -> None:
    parser = argparse.ArgumentParser(description=__doc__, formatter_class=argparse.RawTextHelpFormatter)
    parser.add_argument("--all", action="store_true", help="check every touch in the database")
    parser.add_argument("--database", default="network.db", metavar="DATABASE",
                        help="a URL or connection string of PostgreSQL, or SQLite's file (network.db)")
    asked = parser.parse_args(namespace=Asked())
    lines = csv.writer(sys.stdout, lineterminator="\n")
    try:
        with contextlib.closing(database.reading(asked.database)) as base:
            lines.writerow(["station", "server", "journal", "place", "breach"])
            sys.exit(3 if check(base, asked.all, lines.writerow) else 0)
    except database.FAULTS as error:
        sys.exit(f"check: {str(error).strip()}")


def main() -> None:
    output.run(run)
