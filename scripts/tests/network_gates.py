"""Tests of the table `gates` and of the query `clocks`, which reads the touches of some gates alone. For
scripts/tests/test_network.py."""
import collections
import contextlib
import hashlib
import random
from collections.abc import Iterable, Iterator, Sequence
from typing import ClassVar, TypeAlias

import town
from bovtrila.network import database, gates, queries
from network_base import BaseTest, OnPostgres, OnSqlite, OverBoth

# A touch's moment, its gate, and whether it is a revision.
Touch: TypeAlias = tuple[int, int, bool]

# Monday 2025-01-06 at 00:00 UTC; the journals, the touches of each, and their gates, of which the odd ones have clocks that
# are put forward and back.
MONDAY, JOURNALS, TOUCHES, GATES = 1736121600, 3, 300, 6
# How far a clock is put from the true time, in seconds.
PUT = (0, 0, 1, -1, 3600, -5400, 86_400, -200_000)
# A pass over all touches of the days, of which `clocks` has to give the rows.
ALL_TOUCHES = """
SELECT station, server, gate, count(*) AS times, max(before - seconds) AS most_seconds, min(place) AS first_place
FROM (SELECT station, server, gate, place, seconds,
             lag(seconds) OVER (PARTITION BY journal, gate ORDER BY place) AS before
      FROM history
      WHERE day BETWEEN :first AND :last AND act <> 'revision') AS touched
WHERE seconds < before
GROUP BY station, server, gate
ORDER BY station, server, gate
"""


def histories() -> Iterator[tuple[int, list[Touch]]]:
    """Touches of each journal: a moment, a gate, and whether it is a revision."""
    draws = random.Random(4014)
    for journal in range(1, JOURNALS + 1):
        moment = MONDAY
        off: collections.Counter[int] = collections.Counter()
        touches: list[Touch] = []
        for _ in range(TOUCHES):
            moment += draws.randrange(0, 2400, 10)
            gate = draws.randint(1, GATES)
            if gate % 2 and draws.random() < 0.1:
                off[gate] = draws.choice(PUT)
            touches.append((moment + off[gate], gate, draws.random() < 0.05))
        yield journal, touches


def day_of(moment: int) -> str:
    return town.date_text(moment // town.DAY)


def lines_of(journal: int, touches: Iterable[Touch], first: int) -> Iterator[str]:
    """The rows of these touches, as the table `touches` has them: issues that were refused, and revisions."""
    for place, (moment, gate, revision) in enumerate(touches, first):
        act = "0,revision,,,Revised" if revision else "7,issue,,,AlreadyIssued"
        yield f"{journal},{place},{town.moment_text(moment)},{day_of(moment)},{gate},{place},{act},0,0\n"


class Gates(OverBoth):
    """Over both databases."""

    base: ClassVar[str]
    touches: ClassVar[dict[int, list[Touch]]]

    @classmethod
    def setUpClass(cls) -> None:
        super().setUpClass()
        cls.base, cls.touches = cls.fresh("gates"), dict(histories())
        with contextlib.closing(database.connect(cls.base)) as base:
            base.make_tables()
            base.begin()
            digest = hashlib.sha256(b"table").hexdigest()
            base.execute("INSERT INTO stations (name) VALUES ('Alder')")
            base.execute("INSERT INTO fare_tables (digest, content) VALUES (:digest, :content)", digest=digest,
                         content=b"table")
            base.make_months(["2025-01-06"])
            for journal, touches in cls.touches.items():
                base.execute("INSERT INTO servers (name, station, first_card) VALUES (:name, 'Alder', 1)",
                             name=f"alder-{journal}")
                base.execute("INSERT INTO journals (server, name, version, capacity, cards, digest, touches, seal)"
                             " VALUES (:server, 'journal', 2, 1000, 10, :digest, :touches, :digest)",
                             server=f"alder-{journal}", digest=digest, touches=len(touches))
                cls.add(base, journal, touches)
            base.commit()

    @staticmethod
    def add(base: database.Database, journal: int, touches: Sequence[Touch]) -> None:
        """Adds the touches of a journal in many parts, as loads do. Some moments go back from a part to the next."""
        ends = [*range(0, len(touches), 7), len(touches)]
        for first, end in zip(ends, ends[1:]):
            base.copy(lines_of(journal, touches[first:end], first))
            gates.advance(base, journal, "loaded", first, end)

    def steps(self, days: tuple[str, str] | None) -> dict[tuple[int, int], list[tuple[int, int]]]:
        """The steps back between a gate's touches of these days, by journal and gate: pairs of seconds and a place."""
        found: dict[tuple[int, int], list[tuple[int, int]]] = collections.defaultdict(list)
        last: dict[tuple[int, int], int] = {}
        for journal, touches in self.touches.items():
            for place, (moment, gate, revision) in enumerate(touches):
                if not revision and (days is None or days[0] <= day_of(moment) <= days[1]):
                    if moment < last.get((journal, gate), moment):
                        found[journal, gate].append((last[journal, gate] - moment, place))
                    last[journal, gate] = moment
        return found

    def test_each_gate_has_its_last_moment_and_the_times_that_it_went_back(self) -> None:
        steps = self.steps(None)
        last = {(journal, gate): moment for journal, touches in self.touches.items()
                for moment, gate, revision in touches if not revision}
        wanted = [(*key, "loaded", town.moment_text(last[key]), len(steps[key])) for key in sorted(last)]
        self.assertEqual(len(wanted), JOURNALS * GATES)
        self.assertEqual([gate for _, gate, *_, times in wanted if times], [1, 3, 5] * JOURNALS)
        self.assertEqual(self.asked(self.base, "SELECT journal, gate, stage, moment, times_back FROM gates ORDER BY 1, 2"),
                         wanted)

    def test_clocks_has_the_rows_of_a_pass_over_all_touches(self) -> None:
        days = sorted({day_of(moment) for touches in self.touches.values() for moment, *_ in touches})
        self.assertGreater(len(days), 5)
        answers = set()
        with contextlib.closing(database.reading(self.base)) as base:
            for place, first in enumerate(days):
                for last in days[place:]:
                    rows = queries.ask(base, "clocks", first=first, last=last)[1]
                    wanted = [("Alder", f"alder-{journal}", gate, len(steps), max(steps)[0], min(at for _, at in steps))
                              for (journal, gate), steps in sorted(self.steps((first, last)).items())]
                    with self.subTest(first=first, last=last):
                        self.assertEqual(rows, wanted)
                        self.assertEqual(rows, base.table(ALL_TOUCHES, first=first, last=last)[1])
                    answers.add(tuple(rows))
        self.assertGreater(len(answers), 10)


class SqliteGates(Gates, OnSqlite, BaseTest):
    """In SQLite."""


class PostgresGates(Gates, OnPostgres, BaseTest):
    """In PostgreSQL."""
