# SPDX-License-Identifier: Apache-2.0
"""The table `gates` of the network's database: how it follows the touches, and how it is checked."""
from typing import TypedDict

from bovtrila.network.database import Database
from bovtrila.network.fields import Breach, Stage

COLUMNS = ("gate", "moment", "times_back")
# The rows of a stage after further touches of a journal, those of the places from :first up to :end.
ADVANCE = """
INSERT INTO gates (journal, stage, gate, moment, times_back)
SELECT moved.journal, :stage, moved.gate, max(CASE WHEN next_place IS NULL THEN moved.moment END),
       max(coalesce(old.times_back, 0))
           + count(CASE WHEN moved.moment < coalesce(last_moment, old.moment) THEN 1 END)
FROM (SELECT journal, gate, moment, lag(moment) OVER in_order AS last_moment, lead(place) OVER in_order AS next_place
      FROM touches
      WHERE journal = :journal AND place >= :first AND place < :end AND act <> 'revision'
      WINDOW in_order AS (PARTITION BY gate ORDER BY place)) AS moved
LEFT JOIN gates AS old ON old.journal = moved.journal AND old.stage = :stage AND old.gate = moved.gate
WHERE moved.journal = :journal
GROUP BY moved.journal, moved.gate
ON CONFLICT (journal, stage, gate) DO UPDATE SET moment = excluded.moment, times_back = excluded.times_back
"""
# The gates whose rows after the load aren't those that follow from the touches.
DIFFERENT = """
SELECT DISTINCT gate
FROM (SELECT gate FROM gates WHERE journal = :journal AND stage IN ('loaded', 'checked')
      GROUP BY gate, moment, times_back HAVING count(*) <> 2) AS unlike
ORDER BY gate
"""


class Gate(TypedDict):
    """A gate, by its number at the server."""

    gate: int


def advance(base: Database, journal: int, stage: Stage, first: int, end: int) -> None:
    """Adds a journal's touches from a place on, up to another, to the gates of a stage."""
    base.execute(ADVANCE, journal=journal, stage=stage, first=first, end=end)


def breaches(base: Database, journal: int) -> list[Breach]:
    """The gates whose rows were changed after the load, as the breaches that bovtrila-network-check finds."""
    return [(None, f"the row of gate {row['gate']} in gates was changed or removed after its load")
            for row in base.rows(Gate, DIFFERENT, journal=journal)]
