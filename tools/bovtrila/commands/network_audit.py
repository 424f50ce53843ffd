# SPDX-License-Identifier: Apache-2.0
"""Audits the journals of many servers at once: verifies, seals and balances each one, and makes one report.

Name a journal by its file, or with its server as SERVER=FILE. Without the name, the server's name is the file's name,
less a date and '.journal'. For a file station.journal or a copy of it, the server's name is that of its folder.

Each journal has to be sound, and has to begin with the bytes of its seal in the last report (--report, a JSON file). It
is audited with those of the tables that it names. Standard output has a line for each journal, the sums, and what
changed since the last report. Then the new report replaces the old one. If a journal can't be read, or the program fails
on it, its line has the fault, and the audit continues. The report still has its last seal, so the journal stays a fault
until it is repaired. The seals of a server that isn't named stay in the report too.

The program runs on all processors of this machine, or --workers times at once. With --scheduler the workers of a Dask
scheduler run it. They need the journals, the tables and the program at the same paths. If a worker dies, others do its
journals.

With --database each sound journal is compared with what was loaded of it, as bovtrila-network-load --compare does.

The status is 0 if all journals are sound; 3 if they are, and a server has another journal than before; 1 if one isn't or
there was no scheduler; and 2 for a wrong command line.

    bovtrila-network-audit copies/*/station.journal --table first.toml prices-2026.toml
    bovtrila-network-audit alder=alder.journal birch=birch.journal --table first.toml --scheduler tls://10.0.0.5:8786
"""
import argparse
import contextlib
import pathlib
import sys
from collections.abc import Mapping, Sequence

from bovtrila.network import commands, compare, database, seals, workers
from bovtrila.network.rows import copied

MONEY = ("cards", "balance", "paid_in", "charged")
LOADED = "SELECT journal, touches, seal, version, digest, capacity, cards FROM journals WHERE touches > 0"
# What an audit can't be made for.
FAULTS: tuple[type[Exception], ...] = (seals.Unfit, *database.FAULTS)


class Asked(argparse.Namespace):
    """The command line, as options() completes it: `files` are those of the journals, by their servers."""

    journal: list[str]
    table: list[str]
    report: str
    database: str | None
    workers: int | None
    scheduler: str | None
    patience: int
    program: str
    files: dict[str, str]


class Loaded(compare.Other):
    """What the database has of a journal."""

    digest: str
    capacity: int
    cards: int


def results(asked: Asked, files: Mapping[str, str], servers: seals.Entries) -> workers.Findings:
    """What was found of each server's journal, by the server."""
    tables = commands.by_digest([pathlib.Path(file).resolve() for file in asked.table])
    known = {server: entry["seals"] for server, entry in servers.items()}
    tasks: workers.Tasks = {
        server: (asked.program, str(pathlib.Path(file).resolve()), tables, server, known)
        for server, file in files.items()}
    if asked.scheduler:
        return workers.on_scheduler(tasks, asked.scheduler, asked.patience)
    return workers.in_pool(tasks, asked.workers)


def compare_all(asked: Asked, name: str, found: workers.Findings) -> None:
    """Gives a journal that the database differs from, or hasn't, that fault."""
    tables = commands.by_digest([pathlib.Path(file).resolve() for file in asked.table])
    with contextlib.closing(database.reading(name)) as base:
        loaded = base.rows(Loaded, LOADED)
        for server, facts in found.items():
            if "fault" not in facts and (fault := difference(base, asked, tables, server, facts, loaded)):
                found[server] = {"fault": fault}


def difference(base: database.Database, asked: Asked, tables: commands.Tables, server: str, facts: commands.Sound,
               loaded: Sequence[Loaded]) -> str | None:
    """How the database differs from a sound journal, in a line, or None."""
    try:
        with copied(asked.files[server]) as copy:
            for row in loaded:
                alike = (row["version"], row["digest"], row["capacity"], row["cards"]) == (
                    facts["version"], facts["digest"], facts["capacity"], facts["cards"])
                if alike and commands.matches(copy, row):
                    lines, count = compare.differences(base, asked.program, copy, tables, row)
                    return f"{lines[0]} ({count} differences)" if count else None
    except commands.Fault as fault:
        return str(fault)
    return "the database has none of its touches" if facts["touches"] else None


def is_another(facts: commands.Finding, known: Sequence[commands.Seal]) -> bool:
    """Whether a sound journal is none of those that were audited of its server before."""
    return "fault" not in facts and bool(known) and facts["behind_seal"] is None


def line_of(server: str, facts: commands.Finding, known: Sequence[commands.Seal]) -> str:
    if "fault" in facts:
        return f"{server}: {facts['fault']}"
    before = facts["behind_seal"]
    more = f" (+{facts['touches'] - before[0]})" if before else ""
    sums = ", ".join(f"{name} {facts['sums'][name]}" for name in MONEY)
    line = f"{server}: sound, touches {facts['touches']}{more}, {sums}, seal {facts['seal']}"
    if is_another(facts, known):
        line += f"\n{server}: warning: another journal than the one audited on {known[-1]['audited']}"
    return line


def changes(found: workers.Findings, sums: seals.Sums, report: seals.Report) -> list[str]:
    """What changed since the last report, in lines."""
    lines = [f"{name} {report['sums'][name]} -> {sums[name]}" for name in sums if report["sums"][name] != sums[name]]
    last = report["servers"]
    for server in sorted(found.keys() | last.keys()):
        if server not in found:
            lines.append(f"{server}: not asked for this time")
        elif server not in last:
            lines.append(f"{server}: new")
        elif ("fault" in last[server]["facts"]) != ("fault" in found[server]):
            lines.append(f"{server}: {'was sound' if 'fault' in found[server] else 'is sound again'}")
    return lines or ["nothing"]


def told(found: workers.Findings, sums: seals.Sums, report: seals.Report) -> None:
    """Prints the report's lines."""
    servers = report.get("servers", {})
    for server, facts in found.items():
        print(line_of(server, facts, seals.seals_of(servers, server)))
    print("\nin all: " + ", ".join(f"{name} {number}" for name, number in sums.items()))
    if report:
        print("\n".join([f"since {report['made']}:", *(f"  {line}" for line in changes(found, sums, report))]))


def options() -> Asked:
    parser = argparse.ArgumentParser(description=__doc__, formatter_class=argparse.RawTextHelpFormatter)
    parser.add_argument("journal", nargs="+", metavar="[SERVER=]FILE", help="the journals, or copies of them")
    parser.add_argument("--table", required=True, nargs="+", metavar="FILE",
                        help="the fare tables that the journals name")
    parser.add_argument("--report", default="audit.json", metavar="FILE", help="the last report and the next (audit.json)")
    parser.add_argument("--database", metavar="DATABASE", help="the database that the journals are compared with")
    parser.add_argument("--workers", type=int, metavar="N",
                        help="how many journals are audited at once (one per processor)")
    parser.add_argument("--scheduler", metavar="URL", help="a running Dask scheduler, as tls://10.0.0.5:8786")
    parser.add_argument("--patience", type=int, default=30, metavar="SECONDS", help="how long the scheduler may take (30)")
    parser.add_argument("--program", metavar="FILE", help="the program (the installed one, or the clone's)")
    asked = parser.parse_args(namespace=Asked())
    asked.program = commands.found(asked.program)
    try:
        asked.files = seals.asked_for(asked.journal)
    except seals.Unfit as unfit:
        parser.error(str(unfit))
    return asked


def audit(asked: Asked) -> int:
    """The status of an audit, whose lines it prints."""
    report = seals.read(asked.report)
    servers, made = report.get("servers", {}), seals.now()
    found = results(asked, asked.files, servers)
    if asked.database:
        compare_all(asked, asked.database, found)
    sums = seals.sums_of([*found.values()])
    told(found, sums, report)
    entries = seals.merged(servers, {server: (asked.files[server], facts) for server, facts in found.items()}, made)
    seals.write(asked.report, entries, sums)
    if any("fault" in facts for facts in found.values()):
        return 1
    return 3 if any(is_another(facts, seals.seals_of(servers, server)) for server, facts in found.items()) else 0


def main() -> None:
    asked = options()
    try:
        sys.exit(audit(asked))
    except ImportError:
        sys.exit("audit: --scheduler needs Dask: apt-get install python3-distributed")
    except OSError as error:
        sys.exit(f"audit: {error.filename}: {error.strerror}" if error.filename else f"audit: {error}")
    except FAULTS as error:
        sys.exit(f"audit: {str(error).strip()}")
