# SPDX-License-Identifier: Apache-2.0
"""Writes files out of the network's database: the touches of each fare day, or a ledger for hledger.

`days` writes a file of comma-separated values for each fare day into a folder, as 2025-01-06.csv, with each touch and its
reply. Amounts are in pence, and moments in UTC.

`ledger` writes a journal of hledger over all fare days. It has a transaction for each server's journal and fare day, with
accounts for the cards' balances, the cash from top-ups, the entry charges that are held, the fares and the maxima. Each
transaction asserts the sum of the cards' balances at the end of the day, or with --cards the balance of each card that
changed. Check it with `hledger -f FILE check --strict ordereddates`.

A file is written under another name first, and replaces an older one once it is whole. The status is 0 if all files were
written; 1 if the database can't be used, a file can't be written, or days are in months that were detached; and 2 for a
wrong command line.

    bovtrila-network-export days --from 2025-01-06 --to 2025-01-12 --folder csv
    bovtrila-network-export ledger -o network.journal --database postgresql://127.0.0.1/bovtrila
"""
import argparse
import contextlib
import csv
import datetime
import pathlib
import sys
from collections.abc import Sequence

from bovtrila.network import compare, database, ledger, output

TOUCHES = """
SELECT station, history.server, journals.name AS journal, place, moment, day, gate, number, card, server_card, act,
       station_number, pence, verdict, change, balance, CASE WHEN transfer THEN 1 ELSE 0 END AS transfer
FROM history JOIN journals ON journals.journal = history.journal
WHERE day = :day
ORDER BY station, history.server, history.journal, place
"""
DETACHED = "SELECT month FROM detached_months ORDER BY month"


class Asked(argparse.Namespace):
    """The command line. The days and the folder are there for `days`, and the output for `ledger`."""

    what: str
    first: datetime.date | None
    last: datetime.date | None
    folder: str | None
    output: str | None
    cards: bool
    database: str


def day(text: str) -> datetime.date:
    try:
        return datetime.date.fromisoformat(text)
    except ValueError:
        raise argparse.ArgumentTypeError(f"'{text}' is no date; write it as 2025-01-06") from None


def refuse_detached(base: database.Database, days: Sequence[str] | None = None) -> None:
    """Refuses days whose touches aren't in the database any more: a file without them would look like a day without
    touches."""
    months = [row["month"][:7] for row in base.rows(compare.Month, DETACHED)]
    gone = [month for month in months if days is None or any(day[:7] == month for day in days)]
    if gone:
        raise database.Unfit(f"the month {gone[0]} was detached (bovtrila-network-detach), so its touches are missing; "
                             + ("a ledger needs all of them" if days is None else "name other days, or read its table"))


def write_days(base: database.Database, asked: Asked) -> None:
    """Writes a file for each fare day."""
    first, last, folder = asked.first, asked.last, asked.folder
    assert first and last and folder, "options() refuses a command line without one of them"
    days = [(first + datetime.timedelta(place)).isoformat() for place in range((last - first).days + 1)]
    refuse_detached(base, days)
    for each in days:
        touches = 0
        with output.whole(pathlib.Path(folder) / f"{each}.csv") as file:
            lines = csv.writer(file, lineterminator="\n")
            names, rows = base.stream(base.own(TOUCHES), day=each)
            lines.writerow(names)
            for touches, row in enumerate(rows, 1):
                lines.writerow(row)
        print(f"{each}.csv: {touches} touches")


def write_ledger(base: database.Database, asked: Asked) -> None:
    refuse_detached(base)
    assert asked.output, "options() refuses a command line without it"
    with output.whole(pathlib.Path(asked.output)) as file:
        file.writelines(ledger.lines(base, asked.cards))


def options() -> Asked:
    parser = argparse.ArgumentParser(description=__doc__, formatter_class=argparse.RawTextHelpFormatter)
    parser.add_argument("what", choices=("days", "ledger"), help="a file of touches for each fare day, or a ledger")
    parser.add_argument("--from", type=day, dest="first", metavar="DATE", help="the first fare day, for days")
    parser.add_argument("--to", type=day, dest="last", metavar="DATE", help="the last fare day (the first one)")
    parser.add_argument("--folder", metavar="FOLDER", help="where the files of days are written")
    parser.add_argument("-o", metavar="FILE", dest="output", help="the file of the ledger")
    parser.add_argument("--cards", action="store_true", help="an account for each card in the ledger")
    parser.add_argument("--database", default="network.db", metavar="DATABASE",
                        help="a URL or connection string of PostgreSQL, or SQLite's file (network.db)")
    asked = parser.parse_args(namespace=Asked())
    if asked.what == "ledger" and not asked.output:
        parser.error("ledger needs -o")
    if asked.what == "days" and not (asked.first and asked.folder):
        parser.error("days needs --from and --folder")
    asked.last = asked.last or asked.first
    if asked.what == "days" and asked.first and asked.last and asked.last < asked.first:
        parser.error("--to is before --from")
    return asked


def run() -> None:
    asked = options()
    try:
        with contextlib.closing(database.reading(asked.database)) as base:
            {"days": write_days, "ledger": write_ledger}[asked.what](base, asked)
    except database.FAULTS as error:
        sys.exit(f"export: {str(error).strip()}")
    except BrokenPipeError:
        raise
    except OSError as error:
        sys.exit(f"export: {error.filename or asked.folder or asked.output}: {error.strerror}")


def main() -> None:
    output.run(run)
