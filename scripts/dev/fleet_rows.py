"""A network's database of many servers for scripts/dev/measure-network, whose sound rows PostgreSQL itself makes."""
import contextlib
import sys
from typing import TypedDict


from bovtrila.network import accounts, compare, database, fares, gates, journeys

# The first of the fare days, and how many cards each server has.
FIRST, CARDS = "2025-01-01", 2_000
# The stations, between which every journey costs 350.
STATIONS = 128
TABLE = """zone = "GMT0BST,M3.5.0/1,M10.5.0"
evening_rule = true
single = [{low = 1, high = 1, peak = 350, off_peak = 350}]
""" + "".join(f"[[station]]\nid = {number}\nname = 'Station {number}'\nzones = [1]\n" for number in range(1, STATIONS + 1))
# Each server has so many touches, evenly over so many days. A card is issued, is topped up by 5000 pence, and then goes in
# for 900 and comes out with 550 back; each fiftieth card comes out without having gone in, for 700.
ROWS = """
INSERT INTO stations (name) VALUES ('Many');
INSERT INTO servers (name, station, first_card)
    SELECT 'server ' || n, 'Many', 1 + {cards} * (n - 1) FROM generate_series(1, {servers}) AS n;
INSERT INTO fare_tables (digest, content) VALUES (encode(sha256(%(content)s), 'hex'), %(content)s);
INSERT INTO journals (server, name, version, capacity, cards, digest, touches, seal, last_table)
    SELECT name, 'journal', 2, 1000000, {cards}, digest, {touches}, digest, digest FROM servers, fare_tables;
SELECT make_month(day::date) FROM generate_series(DATE '{first}', DATE '{first}' + {days}, interval '1 day') AS day;
INSERT INTO touches
    SELECT journal, place, moment, moment::date, 1 + place % 8, place, card,
           (CASE WHEN turn = 0 THEN 'issue' WHEN turn = 1 THEN 'top-up' WHEN turn % 2 = 0 AND card % 50 <> 0 THEN 'in'
            ELSE 'out' END)::act,
           CASE WHEN turn > 1 THEN 1 + (hashint4(place) & {stations} - 1) END, CASE WHEN turn = 1 THEN 5000 END,
           (CASE WHEN turn = 0 THEN 'Issued' WHEN turn = 1 THEN 'ToppedUp' WHEN card % 50 = 0 THEN 'ExitedUnstarted'
            WHEN turn % 2 = 0 THEN 'Entered' ELSE 'Exited' END)::verdict,
           CASE WHEN turn = 0 THEN 0 WHEN turn = 1 THEN 5000 WHEN card % 50 = 0 THEN -700 WHEN turn % 2 = 0 THEN -900
           ELSE 550 END,
           CASE WHEN turn = 0 THEN 0 WHEN card % 50 = 0 THEN 5000 - 700 * (turn - 1)
           ELSE 5000 - 350 * ((turn - 1) / 2) - 900 * ((turn + 1) % 2) END
    FROM (SELECT journal, place, place / {cards} AS turn, 1 + place % {cards} AS card,
                 TIMESTAMPTZ '{first} 08:00:00Z' + place * (interval '{days} days' / {touches}) AS moment
          FROM journals, generate_series(0, {touches} - 1) AS place) AS places;
"""


class Table(TypedDict):
    """The fare table of all servers."""

    digest: str


class Journal(TypedDict):
    """The journal of a server."""

    journal: int


def make(name: str, servers: int, touches: int, days: int) -> None:
    """Fills an empty database."""
    with contextlib.closing(database.Postgres(name)) as base:
        base.make_tables()
        content = TABLE.encode()
        rows = ROWS.format(servers=servers, touches=touches, days=days, cards=CARDS, first=FIRST, stations=STATIONS)
        base.cursor().execute(rows.replace("%", "%%").replace("%%(content)s", "%(content)s"), {"content": content})
        fares.keep_stations(base, base.one(Table, "SELECT digest FROM fare_tables")["digest"], content)
        for row in base.rows(Journal, "SELECT journal FROM journals ORDER BY journal"):
            unlike = accounts.advance(base, row["journal"], "loaded", 0)
            if unlike:
                sys.exit(f"measure-network: the rows of card {unlike['card']} are wrong: {unlike}")
            gates.advance(base, row["journal"], "loaded", 0, touches)
            journeys.load(base, row["journal"], 0, compare.stored(base, row["journal"], 0, touches))
        base.commit()
        base.connection.autocommit = True
        base.execute("VACUUM ANALYZE")
