# SPDX-License-Identifier: Apache-2.0
"""Makes a page about a fare day at all stations of the network, from its database.

The page begins with the servers that have no touch of the day in the database. It compares the stations' touches and
money. For all stations together it has the sections of a page of bovtrila-day-report: the touches per quarter of an hour,
the refusals, the money paid in and charged, the cards that were charged most, and the journeys that cost a maximum. Then
follow the revisions that a server lacks, the gates whose clocks go back, and the journals that the page was made from.
The page is one HTML file that needs nothing else. The same rows make the same page.

The status is 0 if the page was made; 3 if it was, and a server has no touch of the day; 1 if the database can't be used,
the page can't be written, or matplotlib or Jinja2 is missing; and 2 for a wrong command line.

    bovtrila-network-report --day 2025-01-06 -o day.html
    bovtrila-network-report --day 2025-01-06 -o day.html --database postgresql://127.0.0.1/bovtrila
"""
import argparse
import collections
import contextlib
import datetime
import pathlib
import sys
import zoneinfo

from bovtrila import options
from bovtrila.day_charts import COLOURS, Pence, bars_chart
from bovtrila.day_page import SHOWN, below_the_first, cards_section, money_section, refusals_section, touches_section
from bovtrila.day_tally import MAXIMA
from bovtrila.network import database
from bovtrila.network.day_sums import Day
from bovtrila.report_page import Cell, Page, Section, Table, find_libraries


class Asked(argparse.Namespace):
    """The command line."""

    day: str
    output: str
    zone: zoneinfo.ZoneInfo
    database: str


# What the table of stations has of the figures at the head of a page, and the heads of its columns.
COLUMNS = {"Touches of cards": "Touches", "and refused": "Refused", "Paid in": "Paid in", "Charged": "Charged",
           "Journeys found to cost a maximum": "Maxima", "Cards inside at the end": "Inside"}


def silent_section(day: Day) -> Section:
    """The servers without a touch of the day."""
    rows = [(row["station"], row["server"], f"no touches since {row['last_touch']}" if row["last_touch"] else "no touches",
             f"loaded at {row['loaded']}" if row["loaded"] else "never loaded") for row in day.silent]
    return Section("Servers without touches of the day", "Their journals were not loaded since, or their gates sent "
                   "nothing: the page doesn't count them.", tables=[Table(["Station", "Server", "Touches", "Load"], rows)])


def stations_section(day: Day) -> Section:
    """Each station beside the others."""
    servers = collections.Counter(server.station for server in day.servers.values())
    figures = {station: day.figures(station) for station in sorted(servers)}
    charged = [(station, of["Charged"]) for station, of in figures.items()]
    chart = bars_chart("stations", charged, COLOURS["in"], lambda pence: str(Pence(pence)))
    rows: list[tuple[Cell, ...]] = [(station, servers[station], *(of[name] for name in COLUMNS))
                                    for station, of in figures.items()]
    return Section("Stations", "What each station's servers charged, less what they gave back.", chart,
                   [Table(["Station", "Servers", *COLUMNS.values()], rows)])


def maxima_section(day: Day) -> Section:
    """The journeys that cost a maximum."""
    sums = [(*key, MAXIMA[key[1]], count, Pence(entry), Pence(out))
            for key, (count, entry, out) in sorted(day.maxima_sums.items())]
    rows = [(row["server"], str(row["place"]), str(row["card"]), row["verdict"], row["moment"],
             Pence(row["at_entry"] or 0), Pence(row["at_exit"])) for row in day.maxima]
    heads = ["Server", "Place", "Card", "Verdict", "This touch", "At touch in", "At touch out"]
    tables = [Table(["Station", "Verdict", "Means", "Journeys", "At touch in", "At touch out"], sums)]
    return Section("Journeys that cost a maximum", "Each stands by the touch that tells it; the charge of its touch in may "
                   "be of an earlier day.", "", [*tables, Table(heads, rows)] if rows else tables,
                   below_the_first(sum(count for count, _, _ in day.maxima_sums.values()), "database"))


def revisions_section(day: Day) -> Section:
    """The servers that lack a revision which others have."""
    rows = [(row["station"], row["server"], str(row["first_day"]), row["digest"]) for row in day.revisions]
    said = "Another server of the network charges by this table from this day on, in days since 1970-01-01; these don't."
    return Section("Revisions that a server lacks", said, tables=[Table(["Station", "Server", "First day", "Table"], rows)])


def clocks_section(day: Day) -> Section:
    """The gates whose clocks are off."""
    rows = [(row["station"], row["server"], str(row["gate"]), row["times"], row["most_seconds"], str(row["first_place"]))
            for row in day.clocks]
    return Section("Gates whose moments go back", "A gate sends its touches in their order: so its clock was put back.",
                   tables=[Table(["Station", "Server", "Gate", "Times", "Most seconds", "First at place"], rows)])


def journals_section(day: Day) -> Section:
    """The journals that the page was made from."""
    rows = [(row["station"], row["server"], row["name"], row["touches"], row["seal"]) for row in day.journals]
    return Section("Journals", "How many touches of each were loaded, and the seal of these.",
                   tables=[Table(["Station", "Server", "Journal", "Touches", "Seal"], rows)])


def page(day: Day) -> str:
    """The whole page."""
    parts = [silent_section(day)] if day.silent else []
    if day.servers:
        parts += [stations_section(day), touches_section(day.all), refusals_section(day.all), money_section(day.all),
                  cards_section(day.all), maxima_section(day)]
    parts += [revisions_section(day)] if day.revisions else []
    parts += [clocks_section(day)] if day.clocks else []
    parts.append(journals_section(day))
    sums = [Table(["", ""], [*day.figures().items()])] if day.servers else []
    notes = [] if day.servers else ["No touch of a card bears this day."]
    return Page(f"Network report: {datetime.date.fromisoformat(day.day):%A} {day.day}", parts, sums=sums, notes=notes).html()


def main() -> None:
    parser = argparse.ArgumentParser(description=__doc__, formatter_class=argparse.RawTextHelpFormatter)
    parser.add_argument("--day", required=True, type=options.day, metavar="DATE", help="the fare day, as 2025-01-06")
    parser.add_argument("-o", metavar="FILE", dest="output", required=True, help="the page's file")
    parser.add_argument("--zone", type=options.zone, default="Europe/London",
                        help="the zone of the clock (Europe/London)")
    parser.add_argument("--database", default="network.db", metavar="DATABASE",
                        help="a URL or connection string of PostgreSQL, or SQLite's file (network.db)")
    asked = parser.parse_args(namespace=Asked())
    find_libraries("report")
    try:
        with contextlib.closing(database.reading(asked.database)) as base:
            day = Day(base, asked.day, asked.zone, SHOWN)
        pathlib.Path(asked.output).write_text(page(day), encoding="utf-8")
    except database.FAULTS as error:
        sys.exit(f"report: {str(error).strip()}")
    except OSError as error:
        sys.exit(f"report: {asked.output}: {error.strerror}; name a file that can be written")
    sys.exit(3 if day.silent else 0)
