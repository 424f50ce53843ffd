# SPDX-License-Identifier: Apache-2.0
"""Makes a page about a station's day, for a station manager or an auditor.

HISTORY.csv is the output of `bovtrila history` (- is standard input). At the top of the page are tiles: the touches, the
money charged and paid in, the refusals, the maximum charges, the cards inside at the end, and the silent gates. With
--day each tile also has the number of the same weekday before. Below are charts, with their rows folded up: the touches
per quarter of an hour, the money, the refusals by verdict, each maximum charge with its reason, each card that was
inside, and the ten cards that were charged most. The page is one HTML file that needs nothing else. The same history
makes the same page.

With --day the page covers the touches of this fare day, or of the last whole one for `yesterday`; otherwise all touches
of the file. A maximum charge counts on the day of the touch that was charged it, even if a touch of a later day shows
it. Clock times are in --zone; fare days are those of the file. With --table stations have the names that the fare table
gives them.

The file has to be whole. These are faults: a place that is missing, a first place above 0 without --day, and a balance
that isn't the card's balance before plus the change. With --part rows may be missing on purpose, as from
`history --card`; then the script compares only rows with nothing missing between them. It also reads a file that
a spreadsheet saved, with quotes around the fields. For a long file it reports its progress on standard error. If
the day has no touch, it reports that there too.

The status is 0 if the page was made; 1 if the file or the table is wrong or can't be read, the page can't be
written, or matplotlib or Jinja2 is missing; and 2 for a wrong command line.

    bovtrila history --table first.toml --journal station.journal > history.csv
    bovtrila-day-report history.csv -o report.html --day 2025-01-06 --table first.toml
    bovtrila-day-report history.csv -o report.html --day yesterday --table first.toml
"""
import argparse
import datetime
import os
import sys
import zoneinfo

from bovtrila.day_page import Stations, page, stations_of
from bovtrila.day_tally import BEGINS, Report, days_before, read
from bovtrila.history_rows import Wrong
from bovtrila.options import day, zone
from bovtrila.report_page import find_libraries

YESTERDAY = "yesterday"


def day_or_yesterday(text: str) -> str:
    """A date of the command line, or the word for the last whole fare day."""
    return text if text == YESTERDAY else day(text)


def yesterday(now: float, zone: zoneinfo.ZoneInfo) -> str:
    """The fare day before that of a moment."""
    return days_before((datetime.datetime.fromtimestamp(now, zone) - BEGINS).date().isoformat(), 1)


def options() -> argparse.Namespace:
    parser = argparse.ArgumentParser(description=__doc__, formatter_class=argparse.RawTextHelpFormatter)
    parser.add_argument("file", metavar="HISTORY.csv", help="the history, or - for standard input")
    parser.add_argument("-o", metavar="FILE", dest="output", required=True, help="the page's file")
    parser.add_argument("--day", type=day_or_yesterday, metavar="DATE",
                        help="the fare day of the page, as 2025-01-06 or\nyesterday")
    parser.add_argument("--table", metavar="FILE", help="a fare table with the names of the stations")
    parser.add_argument("--part", action="store_true", help="rows are missing from the file on purpose")
    parser.add_argument("--zone", type=zone, default="Europe/London", help="the zone of the clock (Europe/London)")
    asked = parser.parse_args()
    if asked.day == YESTERDAY:
        asked.day = yesterday(datetime.datetime.now().timestamp(), asked.zone)
    return asked


def tell_of_nothing(report: Report, name: str) -> None:
    """Says that no touch is of the day, and which is the last day that has one."""
    if not report.tally.touches_by_day:
        last = f"the last touch of the file is of {report.last_day}" if report.last_day else "the file has no touch at all"
        print(f"day-report: {name}: no touch of the fare day {report.day}; {last}" if report.day else
              f"day-report: {name}: no touch of a card", file=sys.stderr)


def main() -> None:
    asked = options()
    find_libraries("day-report")
    name = "standard input" if asked.file == "-" else os.path.basename(asked.file)
    try:
        stations = stations_of(asked.table) if asked.table else Stations()
    except Wrong as wrong:
        sys.exit(f"day-report: {wrong}")
    try:
        report, digest = read(asked.file, asked.day, asked.zone, asked.part)
    except Wrong as wrong:
        sys.exit(f"day-report: {name}: {wrong}")
    try:
        with open(asked.output, "w", encoding="utf-8") as file:
            file.write(page(report, digest, name, stations))
    except OSError as error:
        sys.exit(f"day-report: {asked.output}: {error.strerror}; name a file that can be written")
    tell_of_nothing(report, name)
