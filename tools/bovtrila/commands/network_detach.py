# SPDX-License-Identifier: Apache-2.0
"""Detaches old months from the network's database in PostgreSQL: the partitions before MONTH become separate tables.

First it checks every touch (bovtrila-network-check --all). If the check finds something, nothing is detached. The cards'
balances stay right, because they have a table of their own; a later check of everything begins with the touches that
come after. A detached table can be archived (pg_dump -t bovtrila.touches_2024_01) and dropped. Everything is one
transaction, which the owner of the tables has to run.

The status is 0 if the months are detached, 3 if the check found something, 1 if the database can't be used, and 2 for a
wrong command line.

    bovtrila-network-detach --before 2025-01 --database service=bovtrila --dry-run
    bovtrila-network-detach --before 2025-01 --database service=bovtrila
"""
import argparse
import contextlib
import re
import sys
from typing import TypedDict

from bovtrila.network import accounts, database

MONTHS = """
SELECT parentrelid::text AS parent, relid::text AS name, right(relid::text, 7) AS month
FROM (SELECT * FROM pg_partition_tree('touches') UNION ALL SELECT * FROM pg_partition_tree('journeys')) AS parts
WHERE isleaf AND relid::text ~ '_[0-9]{4}_[0-9]{2}$' AND right(relid::text, 7) < :before ORDER BY month, name
"""


class Asked(argparse.Namespace):
    """The command line. The month is as 2025_01."""

    before: str
    dry_run: bool
    database: str


class Journal(TypedDict):
    """A journal."""

    journal: int
    server: str
    name: str


class Part(TypedDict):
    """A partition of a month, as 2025_01, and the table that it is a part of."""

    parent: str
    name: str
    month: str


def month(text: str) -> str:
    if not re.fullmatch(r"\d{4}-(0[1-9]|1[0-2])", text):
        raise argparse.ArgumentTypeError(f"'{text}' is no month; write it as 2025-01")
    return f"{text[:4]}_{text[5:]}"


def detach(base: database.Database, before: str, dry_run: bool) -> int:
    """The status; what was done or found is printed."""
    base.execute("LOCK TABLE touches IN SHARE UPDATE EXCLUSIVE MODE")
    base.execute("LOCK TABLE journals IN SHARE MODE")
    journals = base.rows(Journal, "SELECT journal, server, name FROM journals ORDER BY journal")
    found = [(row, breach) for row in journals for breach in accounts.check(base, row["journal"], everything=True)]
    for row, (place, breach) in found:
        print(f"{row['server']} {row['name']}: {'' if place is None else f'place {place}: '}{breach}")
    if found:
        return 3
    parts = base.rows(Part, MONTHS, before=before)
    for row in journals if parts else ():
        accounts.copy_stage(base, row["journal"], "checked", "detached")
    base.execute("UPDATE journals SET base = touches")
    for part in parts:
        base.execute(f"ALTER TABLE {part['parent']} DETACH PARTITION {part['name']}")
        base.execute("INSERT INTO detached_months (month) VALUES (to_date(:month, 'YYYY_MM')) ON CONFLICT DO NOTHING",
                     month=part["month"])
        print(f"{part['name']}: {'would be detached' if dry_run else 'detached'}")
    if parts and not dry_run:
        base.commit()
    return 0


def main() -> None:
    parser = argparse.ArgumentParser(description=__doc__, formatter_class=argparse.RawTextHelpFormatter)
    parser.add_argument("--before", required=True, type=month, metavar="MONTH",
                        help="the first month that stays, as 2025-01")
    parser.add_argument("--dry-run", action="store_true", help="check everything, and print what would be detached")
    parser.add_argument("--database", required=True, metavar="DATABASE", help="a URL or connection string of PostgreSQL")
    asked = parser.parse_args(namespace=Asked())
    if not database.is_postgres(asked.database):
        parser.error("SQLite has no partitions; name a database of PostgreSQL")
    try:
        with contextlib.closing(database.reading(asked.database)) as base:
            sys.exit(detach(base, asked.before, asked.dry_run))
    except database.FAULTS as error:
        sys.exit(f"detach: {str(error).strip()}")
