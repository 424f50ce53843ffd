# SPDX-License-Identifier: Apache-2.0
"""Does the daily work of a network: for all servers of the file of the fleet, with the copies that
bovtrila-network-fetch fetched.

ACT is one of

- load: load each journal into the database (bovtrila-network-load). A journal that another one follows is closed;
- check: check the database (bovtrila-network-check), and compare each journal with what was loaded of it
  (bovtrila-network-load --compare);
- audit: audit the newest journal of each server (bovtrila-network-audit), and compare it with the database. The
  report is the file audit.json in the folder of the fleet;
- report: make the page of a day (bovtrila-network-report), the file pages/DAY.html in that folder. The day is yesterday,
  or --day.

The journals of a server are ordered by the moments of their copies. What the tools print is printed. If a server fails,
the others are done. The status is 0 if all is well; 1 if something failed; 3 if nothing failed, but a check or an audit
found something, or a server has no touch of the day; and 2 for a wrong command line.

systemd starts each act once a day: bovtrila-network-load.timer and so on. FOLDER/metrics has a file for each act but
report, with the moments of each server's last success, for Prometheus (NETWORK.md, "Alerts").

    bovtrila-network-fleet load
    bovtrila-network-fleet report --day 2025-01-06
    bovtrila-network-fleet audit --fleet fleet.toml
"""
import argparse
import datetime
import pathlib
import re
import subprocess
import sys
from collections.abc import Callable, Iterable, Mapping, Sequence
from typing import TypeAlias

from bovtrila import places
from bovtrila.network import fleet_file, fleet_metrics

# The statuses of the tools, from the best to the worst: well, something was found, failed.
RANK = {0: 0, 3: 1}
# What an audit prints of a server whose touches aren't those that were sealed, and of one that is sound.
CHANGED = re.compile(r"^(\S+): (?:fault seal |it is the journal of |warning: another journal )", re.M)
SOUND = re.compile(r"^(\S+): sound, ", re.M)


class Missing(Exception):
    """A server has no copy. The text says so."""


class Asked(argparse.Namespace):
    """The command line. The day is as 2025-01-06."""

    act: str
    fleet: pathlib.Path
    day: str


# An argument of a tool.
Word: TypeAlias = str | int | pathlib.Path


def worst(statuses: Iterable[int]) -> int:
    """The status of several runs."""
    ranked = max((RANK.get(status, 2) for status in statuses), default=0)
    return (0, 3, 1)[ranked]


def well(statuses: Mapping[str, int]) -> list[str]:
    """The servers without a fault."""
    return [server for server, status in statuses.items() if status == 0]


def run(tool: str, *words: Word) -> int:
    """Runs a tool, which prints: its status."""
    sys.stdout.flush()
    return subprocess.run([places.command(f"network-{tool}"), *map(str, words)], stdin=subprocess.DEVNULL).returncode


def journals(fleet: fleet_file.Fleet, server: fleet_file.Server) -> list[pathlib.Path]:
    """The copies of a server's journals, the oldest first."""
    folder = fleet.copies / server.name
    found = sorted(folder.glob("*.journal"), key=lambda path: (path.stat().st_mtime_ns, path.name))
    if not found:
        raise Missing(f"fleet: {server.name}: {folder} has no copy of a journal; fetch it first (bovtrila-network-fetch)")
    return found


def words_of(fleet: fleet_file.Fleet, server: fleet_file.Server, journal: pathlib.Path) -> list[Word]:
    """The arguments of bovtrila-network-load for a journal."""
    return ["--station", server.station, "--server", server.name, "--first-card", server.first_card, "--journal", journal,
            "--table", *fleet.tables, "--database", fleet.database]


def for_each(fleet: fleet_file.Fleet,
             act: Callable[[fleet_file.Server, list[pathlib.Path]], Iterable[int]]) -> dict[str, int]:
    """Does an act for the journals of each server: the statuses by the server. A server without copies has failed."""
    statuses = {}
    for server in fleet.servers:
        try:
            statuses[server.name] = worst(act(server, journals(fleet, server)))
        except Missing as missing:
            print(missing, file=sys.stderr)
            statuses[server.name] = 1
    return statuses


def load(fleet: fleet_file.Fleet, asked: Asked) -> int:
    def load_one(server: fleet_file.Server, found: Sequence[pathlib.Path]) -> list[int]:
        closed = [run("load", *words_of(fleet, server, journal), "--closed") for journal in found[:-1]]
        return [*closed, run("load", *words_of(fleet, server, found[-1]))]
    statuses = for_each(fleet, load_one)
    fleet_metrics.write(fleet, "load", well(statuses))
    return worst(statuses.values())


def check(fleet: fleet_file.Fleet, asked: Asked) -> int:
    status = run("check", "--database", fleet.database)
    compared = for_each(fleet, lambda server, found: [run("load", "--compare", *words_of(fleet, server, journal))
                                                      for journal in found])
    fleet_metrics.write(fleet, "check", [] if status else well(compared))
    return worst([status, *compared.values()])


def audit(fleet: fleet_file.Fleet, asked: Asked) -> int:
    named: dict[str, pathlib.Path] = {}

    def name(server: fleet_file.Server, found: Sequence[pathlib.Path]) -> list[int]:
        named[server.name] = found[-1]
        return [0]
    statuses = for_each(fleet, name)
    words = [places.command("network-audit"), *(f"{name}={journal}" for name, journal in named.items()), "--table",
             *fleet.tables, "--report", fleet.folder / "audit.json", "--database", fleet.database]
    if named:
        done = subprocess.run(words, stdin=subprocess.DEVNULL, stdout=subprocess.PIPE, text=True)
        print(done.stdout, end="")
        sound, changed = SOUND.findall(done.stdout), CHANGED.findall(done.stdout)
        fleet_metrics.write(fleet, "audit", sound, bovtrila_network_seal_changed={
            name: int(name in changed) for name in {*sound, *changed}})
        statuses["audit"] = done.returncode
    return worst(statuses.values())


def report(fleet: fleet_file.Fleet, asked: Asked) -> int:
    pages = fleet.folder / "pages"
    pages.mkdir(parents=True, exist_ok=True)
    return run("report", "--day", asked.day, "-o", pages / f"{asked.day}.html", "--database", fleet.database)


ACTS: dict[str, Callable[[fleet_file.Fleet, Asked], int]] = {"load": load, "check": check, "audit": audit, "report": report}


def day(text: str) -> str:
    try:
        return datetime.date.fromisoformat(text).isoformat()
    except ValueError:
        raise argparse.ArgumentTypeError(f"'{text}' is no date; write it as 2025-01-06") from None


def main() -> None:
    yesterday = (datetime.datetime.now(datetime.UTC) - datetime.timedelta(days=1)).date().isoformat()
    parser = argparse.ArgumentParser(description=__doc__, formatter_class=argparse.RawTextHelpFormatter)
    parser.add_argument("act", choices=ACTS, metavar="ACT", help=", ".join(ACTS))
    parser.add_argument("--fleet", type=pathlib.Path, default=pathlib.Path(fleet_file.PLACE), metavar="FILE",
                        help=f"the file of the fleet ({fleet_file.PLACE})")
    parser.add_argument("--day", type=day, default=yesterday, metavar="DATE", help="the fare day of the page (yesterday)")
    asked = parser.parse_args(namespace=Asked())
    try:
        sys.exit(ACTS[asked.act](fleet_file.read(asked.fleet), asked))
    except fleet_file.Wrong as wrong:
        sys.exit(f"fleet: {wrong}")
    except OSError as error:
        sys.exit(f"fleet: {error.filename}: {error.strerror}")
