# SPDX-License-Identifier: Apache-2.0
"""Loads a journal's new touches, with their replies, into the network's database.

First the journal is verified, and compared with the seal of what was loaded of it before. If a sealed byte has changed,
the journal is refused, and its rows stay. Then the new touches are copied in one transaction, with the new seal.
Therefore a repeated command changes nothing, and a command that is ended at any moment has loaded everything or nothing.
Two loads of one server wait for each other. The server may continue: the script first makes a copy, and loads that.

--database names the database: a URL postgresql://.., or SQLite's file (network.db). If it has no tables, they are made.
The default name of a server is its station's, and that of a journal its file's. If cards are shared out among several
servers, --first-card is the network's number of the server's card 1 (NETWORK.md). A journal uses those of the
tables that it names, so you can name all tables of the network. Use --closed for a journal that another one follows,
once its last touches are loaded: its balances then count no more. The balances come into the next journal by top-ups of
gate 65535, or of --transfer-gate. The database counts these top-ups as transferred and not as paid in.

--compare loads nothing. It compares what was loaded of the journal with the journal, touch by touch and card by card.

The status is 0 if everything is loaded, or nothing differs; 1 if the journal, a table or the database was refused; 2 for
a wrong command line; and 3 if the database differs from the journal.

    bovtrila-network-load --station Alder --journal alder/station.journal --table first.toml prices-2026.toml
    bovtrila-network-load --station Alder --server alder-2 --first-card 100001 --journal alder-2/station.journal \\
        --table first.toml --database postgresql://127.0.0.1/bovtrila
    bovtrila-network-load --compare --station Alder --journal alder/station.journal --table first.toml
"""
import argparse
import contextlib
import pathlib
import sys
from typing import TypedDict

from bovtrila.network import accounts, commands, compare, database, fares, gates, journeys
from bovtrila.network.rows import Rows, copied, history

COLUMNS = "journal, touches, seal, digest, capacity, cards, version, closed, transfer_gate"


class Refused(Exception):
    """What was given can't be loaded. The text says why."""


# What a load ends with, but for what main() tells otherwise.
FAULTS: tuple[type[Exception], ...] = (commands.Fault, Refused, *database.ERRORS)


class Asked(argparse.Namespace):
    """The command line, as options() completes it."""

    station: str
    server: str
    first_card: int | None
    journal: str
    name: str
    table: list[str]
    database: str
    closed: bool
    transfer_gate: int | None
    compare: bool
    program: str


class Server(TypedDict):
    """What was said of a server when it was entered."""

    station: str
    first_card: int


class Loaded(compare.Other):
    """The row of a journal, as it was loaded before."""

    digest: str
    capacity: int
    cards: int
    closed: bool
    transfer_gate: int


class Named(TypedDict):
    """A journal's name."""

    name: str


class Other(compare.Other):
    """A journal of the database, with its name and its server."""

    server: str
    name: str


def known(base: database.Database, asked: Asked) -> Loaded | None:
    """The row of the journal as it was loaded before, or None. What was said of its server then has to be so still."""
    server = base.row(Server, "SELECT station, first_card FROM servers WHERE name = :name", name=asked.server)
    if server and server["station"] != asked.station:
        raise Refused(f"the server {asked.server} belongs to the station {server['station']}")
    if server and asked.first_card not in (None, server["first_card"]):
        raise Refused(f"the cards of the server {asked.server} begin with {server['first_card']}")
    journal = base.row(Loaded, f"SELECT {COLUMNS} FROM journals WHERE server = :server AND name = :name",
                       server=asked.server, name=asked.name)
    if journal and asked.transfer_gate not in (None, journal["transfer_gate"]):
        raise Refused(f"its transfers were loaded as those of gate {journal['transfer_gate']}")
    return journal


def keep_server(base: database.Database, asked: Asked) -> None:
    """Enters the station and the server, where they aren't there."""
    base.execute("INSERT INTO stations (name) VALUES (:name) ON CONFLICT DO NOTHING", name=asked.station)
    base.execute("INSERT INTO servers (name, station, first_card) VALUES (:name, :station, :first)"
                 " ON CONFLICT DO NOTHING", name=asked.server, station=asked.station, first=asked.first_card or 1)


def refuse_second(base: database.Database, asked: Asked) -> None:
    """Refuses a new journal of a server that has an open one."""
    others = base.row(Named, "SELECT name FROM journals WHERE server = :server AND NOT closed", server=asked.server)
    if others:
        raise Refused(f"the server {asked.server} has the open journal {others['name']}: load that one with --closed "
                      "first, once this one follows it")


def keep_journal(base: database.Database, asked: Asked, facts: commands.Facts) -> int:
    """Enters a journal that is new, with no touch so far: its number."""
    gate = 65_535 if asked.transfer_gate is None else asked.transfer_gate
    base.execute("INSERT INTO journals (server, name, version, capacity, cards, digest, touches, seal, transfer_gate)"
                 " VALUES (:server, :name, :version, :capacity, :cards, :digest, 0, :seal, :gate)",
                 server=asked.server, name=asked.name, gate=gate, version=facts["version"], capacity=facts["capacity"],
                 cards=facts["cards"], digest=facts["digest"], seal=facts["seal"])
    return base.one(compare.Loaded, "SELECT journal, touches, seal FROM journals WHERE server = :server AND name = :name",
                    server=asked.server, name=asked.name)["journal"]


def keep_tables(base: database.Database, journal: commands.Inherited, tables: commands.Tables) -> None:
    """Enters the fare tables that a journal names, in one order for all loads, so that none waits for another in a ring."""
    for digest in sorted(commands.named_tables(journal)):
        content = commands.content_of(tables[digest])
        base.execute("INSERT INTO fare_tables (digest, content) VALUES (:digest, :content) ON CONFLICT DO NOTHING",
                     digest=digest, content=content)
        if not fares.keep_stations(base, digest, content):
            print(f"load: {tables[digest]}: note: Python's module tomllib can't read this table: the database has no names"
                  " of its stations, and no fares of its journeys", file=sys.stderr)


def refuse_twin(base: database.Database, asked: Asked, copy: commands.Inherited, facts: commands.Facts, rows: Rows) -> None:
    """Refuses a journal whose touches the database has under another name: its money would count twice."""
    others = base.rows(Other, "SELECT journal, server, name, touches, seal, version FROM journals WHERE touches > 0"
                       " AND NOT (server = :server AND name = :name)", server=asked.server, name=asked.name)
    for other in others if facts["touches"] else ():
        if compare.same_beginning(base, copy, facts, rows, other):
            raise Refused(f"its touches were loaded as the journal {other['name']} of the server {other['server']}; "
                          "name that server, or remove that journal's rows first (NETWORK.md, \"Loading\")")


def add(base: database.Database, asked: Asked, copy: commands.Inherited, tables: commands.Tables, facts: commands.Facts,
        before: Loaded | None) -> None:
    """Adds the touches that a journal has since its last load, in one transaction."""
    first = before["touches"] if before else 0
    with history(asked.program, copy, tables) as file:
        rows = Rows(file, first, facts["touches"])
        if before is None:
            refuse_second(base, asked)
        if not first:
            refuse_twin(base, asked, copy, facts, rows)
        base.make_months(rows.near_days())
        keep_server(base, asked)
        keep_tables(base, copy, tables)
        journal = before["journal"] if before else keep_journal(base, asked, facts)
        base.copy(rows.of_journal(journal))
        for revision in rows.revisions:
            base.execute("INSERT INTO revisions (journal, place, digest, first_day, verdict)"
                         " VALUES (:journal, :place, :digest, :first_day, :verdict)", journal=journal, **revision)
        journeys.load(base, journal, first, rows.of_journal(journal))
    unlike = accounts.advance(base, journal, "loaded", first)
    if unlike:
        raise Refused(f"the changes of card {unlike['card']} in the database come to {unlike['balance']}, and its last "
                      f"touch says {unlike['told']}; compare the journal with what was loaded (--compare)")
    gates.advance(base, journal, "loaded", first, facts["touches"])
    base.execute("UPDATE journals SET touches = :touches, seal = :seal, closed = closed OR :closed,"
                 " loaded = CURRENT_TIMESTAMP, last_table = coalesce("
                 "(SELECT digest FROM revisions WHERE revisions.journal = journals.journal AND verdict = 'Revised'"
                 " ORDER BY first_day DESC LIMIT 1), digest) WHERE journal = :journal", touches=facts["touches"],
                 seal=facts["seal"], closed=asked.closed, journal=journal)


def load(base: database.Database, asked: Asked, tables: commands.Tables) -> str:
    """Loads a journal: the line that says how many of its touches are new."""
    base.make_tables()
    base.lock(asked.server)
    # Only now, so that no copy is older than what a load before this one has loaded.
    with copied(asked.journal) as copy:
        before = known(base, asked)
        facts = commands.verified(asked.program, copy, tables, (before["touches"], before["seal"]) if before else None)
        if facts["behind"] > commands.BEHIND:
            print(f"load: {asked.server}: {asked.journal}: note: {commands.open_behind(facts)}", file=sys.stderr)
        first = before["touches"] if before else 0
        if before and facts["touches"] == first and (before["closed"] or not asked.closed):
            base.execute("UPDATE journals SET loaded = CURRENT_TIMESTAMP WHERE journal = :journal",
                         journal=before["journal"])
        else:
            add(base, asked, copy, tables, facts, before)
    base.commit()
    return f"{asked.server} {asked.name}: {facts['touches'] - first} touches loaded, {facts['touches']} in all"


def compared(base: database.Database, asked: Asked, tables: commands.Tables) -> tuple[str, int]:
    """Compares a journal with what was loaded of it: the line that says so, and the status."""
    loaded = known(base, asked)
    if loaded is None:
        raise Refused(f"the database has no journal {asked.name} of the server {asked.server}; load it first")
    with copied(asked.journal) as copy:
        commands.verified(asked.program, copy, tables, (loaded["touches"], loaded["seal"]))
        lines, count = compare.differences(base, asked.program, copy, tables, loaded)
    print("".join(f"{asked.server} {asked.name}: {line}\n" for line in lines), end="")
    return f"{asked.server} {asked.name}: {loaded['touches']} touches compared, {count} differences", 3 if count else 0


def options() -> Asked:
    parser = argparse.ArgumentParser(description=__doc__, formatter_class=argparse.RawTextHelpFormatter)
    parser.add_argument("--station", required=True, metavar="NAME", help="the server's station")
    parser.add_argument("--server", metavar="NAME", help="the server's name (the station's)")
    parser.add_argument("--first-card", type=int, metavar="N", help="the network's number of the server's card 1 (1)")
    parser.add_argument("--journal", required=True, metavar="FILE", help="the server's journal, or a copy of it")
    parser.add_argument("--name", metavar="NAME", help="the journal's name, unique for each server (its file's)")
    parser.add_argument("--table", required=True, nargs="+", metavar="FILE",
                        help="the fare tables that the journal names")
    parser.add_argument("--database", default="network.db", metavar="DATABASE",
                        help="a URL or connection string of PostgreSQL, or SQLite's file (network.db)")
    parser.add_argument("--closed", action="store_true", help="another journal of the server follows this one")
    parser.add_argument("--transfer-gate", type=int, metavar="N", choices=range(65_536),
                        help="the gate whose top-ups are transfers from the journal before (65535)")
    parser.add_argument("--compare", action="store_true", help="compare the journal with what was loaded of it")
    parser.add_argument("--program", metavar="FILE", help="the program (the installed one, or the clone's)")
    asked = parser.parse_args(namespace=Asked())
    if asked.first_card is not None and asked.first_card < 1:
        parser.error("--first-card counts from 1")
    asked.server = asked.server or asked.station
    asked.name = asked.name or pathlib.Path(asked.journal).name
    asked.program = commands.found(asked.program)
    return asked


def run(asked: Asked) -> tuple[str, int]:
    """The line that is printed, and the status."""
    tables = commands.by_digest(asked.table)
    if asked.compare:
        with contextlib.closing(database.reading(asked.database)) as base:
            return compared(base, asked, tables)
    with contextlib.closing(database.connect(asked.database)) as base:
        return load(base, asked, tables), 0


def main() -> None:
    asked = options()
    try:
        line, status = run(asked)
    except database.Unfit as unfit:
        sys.exit(f"load: {unfit}")
    except OSError as error:
        sys.exit(f"load: {error.filename or 'the copy of the journal'}: {error.strerror}")
    except FAULTS as fault:
        sys.exit(f"load: {asked.server}: {asked.journal}: {str(fault).strip()}")
    print(line)
    sys.exit(status)
