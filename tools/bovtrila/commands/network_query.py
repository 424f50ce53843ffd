# SPDX-License-Identifier: Apache-2.0
"""Runs a query on the network's database, and prints comma-separated values.
/usr/share/bovtrila/network/queries.sql has the queries.

    bovtrila-network-query --list
    bovtrila-network-query held --card 100007
    bovtrila-network-query journeys --from 2025-01-06 --database postgresql://127.0.0.1/bovtrila

A query covers the fare days from --from to --to; without --to, the day --from alone. `inside` is for the moment --at,
and reads touches in from --from on. The status is 0 if the query was answered, 1 if the database can't be used, 2 for a
wrong command line, 3 if `freshness` has a server without touches, and 141 if nobody reads the output.
"""
import argparse
import contextlib
import csv
import datetime
import sys
from collections.abc import Mapping

from bovtrila.network import database, output, queries
from bovtrila.network.fields import Field

# The options that give a query's parameters.
OPTIONS = {"card": "--card", "first": "--from", "last": "--from", "day_before": "--at"}


class Asked(argparse.Namespace):
    """The command line."""

    name: str | None
    list: bool
    card: int | None
    first: str | None
    last: str | None
    at: datetime.datetime | None
    database: str


def moment(text: str) -> datetime.datetime:
    try:
        return datetime.datetime.strptime(text, "%Y-%m-%dT%H:%M:%SZ")
    except ValueError:
        raise argparse.ArgumentTypeError(f"'{text}' is no moment; write it as 2025-01-06T08:00:00Z") from None


def day(text: str) -> str:
    try:
        return datetime.date.fromisoformat(text).isoformat()
    except ValueError:
        raise argparse.ArgumentTypeError(f"'{text}' is no date; write it as 2025-01-06") from None


def values_of(asked: Asked, query: str, parser: argparse.ArgumentParser) -> dict[str, Field]:
    """The parameters of the query that is asked for."""
    before = (asked.at - datetime.timedelta(days=1)).strftime("%Y-%m-%dT%H:%M:%SZ") if asked.at else None
    values: dict[str, Field] = {"card": asked.card, "first": asked.first, "last": asked.last or asked.first,
                                "day_before": before}
    for name in sorted(queries.known()[query].wanted):
        if values[name] is None:
            parser.error(f"{query} needs {OPTIONS[name]}")
    return values


def answer(base: database.Database, name: str, values: Mapping[str, Field]) -> int:
    """Writes the rows of a query: the status."""
    names, rows = queries.stream(base, name, **values)
    lines, status = csv.writer(sys.stdout), 0
    lines.writerow(names)
    for row in rows:
        lines.writerow(row)
        status = 3 if name == "freshness" and row[-1] == "no touches" else status
    return status


def run() -> None:
    known = queries.known()
    parser = argparse.ArgumentParser(description=__doc__, formatter_class=argparse.RawTextHelpFormatter)
    parser.add_argument("name", nargs="?", choices=known, metavar="QUERY", help=", ".join(known))
    parser.add_argument("--list", action="store_true", help="describe each query")
    parser.add_argument("--card", type=int, help="a card, by its number in the network")
    parser.add_argument("--from", type=day, dest="first", metavar="DATE", help="the first fare day, as 2025-01-06")
    parser.add_argument("--to", type=day, dest="last", metavar="DATE", help="the last fare day (the first one)")
    parser.add_argument("--at", type=moment, metavar="MOMENT", help="a moment, as 2025-01-06T08:00:00Z")
    parser.add_argument("--database", default="network.db", metavar="DATABASE",
                        help="a URL or connection string of PostgreSQL, or SQLite's file (network.db)")
    asked = parser.parse_args(namespace=Asked())
    if asked.list:
        print("\n".join(f"{name}: {query.words}" for name, query in known.items()))
        return
    if asked.name is None:
        parser.error("name a query, or --list")
    values = values_of(asked, asked.name, parser)
    try:
        with contextlib.closing(database.reading(asked.database)) as base:
            sys.exit(answer(base, asked.name, values))
    except database.FAULTS as error:
        sys.exit(f"query: {str(error).strip()}")


def main() -> None:
    output.run(run)
