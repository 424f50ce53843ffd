# SPDX-License-Identifier: Apache-2.0
"""The table `balances` of the network's database: how it follows the touches, and how the touches are checked."""
from typing import TypedDict

from bovtrila import places
from bovtrila.network import gates, journeys
from bovtrila.network.database import Database
from bovtrila.network.fields import Breach, Stage

COLUMNS = ("card", "place", "state", "balance", "transferred", "paid_in", "charged", "travel_moment", "travel_day")
# The rows of a stage after further touches of a journal, from the place :first on.
ADVANCE = """
INSERT INTO balances (journal, stage, card, place, state, balance, transferred, paid_in, charged, travel_moment, travel_day)
SELECT moved.journal, :stage, moved.card, moved.place,
       coalesce(CASE WHEN last_in > coalesce(last_out, -1) THEN 'inside' WHEN last_out IS NOT NULL THEN 'outside' END,
                old.state, 'outside'),
       coalesce(old.balance, 0) + change, coalesce(old.transferred, 0) + moved.transferred,
       coalesce(old.paid_in, 0) + moved.paid_in, coalesce(old.charged, 0) + moved.charged,
       coalesce(moved.moment, old.travel_moment), coalesce(moved.day, old.travel_day)
FROM (SELECT history.journal, server_card AS card, max(place) AS place, sum(change) AS change,
             max(CASE act WHEN 'in' THEN place END) AS last_in, max(CASE act WHEN 'out' THEN place END) AS last_out,
             sum(CASE WHEN transfer THEN change ELSE 0 END) AS transferred,
             sum(CASE WHEN act = 'top-up' AND NOT transfer THEN change ELSE 0 END) AS paid_in,
             -sum(CASE WHEN act IN ('in', 'out') THEN change ELSE 0 END) AS charged,
             max(CASE WHEN act IN ('in', 'out') THEN moment END) AS moment,
             max(CASE WHEN act IN ('in', 'out') THEN day END) AS day
      FROM history
      WHERE history.journal = :journal AND place >= :first AND accepted AND act <> 'revision'
      GROUP BY history.journal, server_card) AS moved
LEFT JOIN balances AS old ON old.journal = moved.journal AND old.stage = :stage AND old.card = moved.card
WHERE moved.journal = :journal
ON CONFLICT (journal, stage, card) DO UPDATE SET
    place = excluded.place, state = excluded.state, balance = excluded.balance, transferred = excluded.transferred,
    paid_in = excluded.paid_in, charged = excluded.charged, travel_moment = excluded.travel_moment,
    travel_day = excluded.travel_day
"""
# The cards whose balance isn't that of their last accepted touch, among those that had one from the place :first on.
UNLIKE = """
SELECT balances.card, balances.balance, touches.balance AS told FROM balances
JOIN touches ON touches.journal = balances.journal AND touches.place = balances.place AND touches.card = balances.card
WHERE balances.journal = :journal AND stage = :stage AND balances.place >= :first AND touches.balance <> balances.balance
ORDER BY balances.card LIMIT 1
"""
# The cards whose balances after the load aren't those that follow from the touches.
DIFFERENT = """
SELECT loaded.place, 'the balance of the card was changed after its load' AS breach FROM balances AS loaded
LEFT JOIN balances AS checked
    ON checked.journal = loaded.journal AND checked.stage = 'checked' AND checked.card = loaded.card
WHERE loaded.journal = :journal AND loaded.stage = 'loaded'
    AND (checked.card IS NULL OR checked.place <> loaded.place OR checked.state <> loaded.state
         OR checked.balance <> loaded.balance OR checked.transferred <> loaded.transferred
         OR checked.paid_in <> loaded.paid_in OR checked.charged <> loaded.charged)
UNION ALL
SELECT checked.place, 'the balance of the card was removed after its load' FROM balances AS checked
LEFT JOIN balances AS loaded ON loaded.journal = checked.journal AND loaded.stage = 'loaded' AND loaded.card = checked.card
WHERE checked.journal = :journal AND checked.stage = 'checked' AND loaded.card IS NULL
ORDER BY 1
"""


class Unlike(TypedDict):
    """A card whose balance in pence isn't `told`, that of its last accepted touch."""

    card: int
    balance: int
    told: int


class Found(TypedDict):
    """A breach."""

    place: int | None
    breach: str


class Ends(TypedDict):
    """How many touches of a journal were loaded and checked, and the place that a check of everything begins with."""

    touches: int
    checked: int
    base: int


def advance(base: Database, journal: int, stage: Stage, first: int) -> Unlike | None:
    """Adds a journal's touches from a place on to the balances of a stage: the first card whose balance isn't that of its
    last touch, or None."""
    base.execute(ADVANCE, journal=journal, stage=stage, first=first)
    return base.row(Unlike, UNLIKE, journal=journal, stage=stage, first=first)


def copy_stage(base: Database, journal: int, old: Stage, new: Stage) -> None:
    """Gives a stage of a journal the rows of another."""
    for table, columns in (("balances", COLUMNS), ("gates", gates.COLUMNS), ("last_journeys", journeys.NAMES)):
        base.execute(f"DELETE FROM {table} WHERE journal = :journal AND stage = :stage", journal=journal, stage=new)
        names = ", ".join(columns)
        base.execute(f"INSERT INTO {table} (journal, stage, {names}) SELECT journal, :new, {names} FROM {table}"
                     " WHERE journal = :journal AND stage = :old", journal=journal, old=old, new=new)


def check(base: Database, journal: int, everything: bool = False) -> list[Breach]:
    """Checks a journal's touches that weren't checked so far, or all of them: the breaches, in pairs of a place and words.
    Where there are none, the journal counts as checked. It has to be committed."""
    row = base.one(Ends, "SELECT touches, checked, base FROM journals WHERE journal = :journal", journal=journal)
    first = row["checked"]
    if everything:
        first = row["base"]
        copy_stage(base, journal, "detached", "checked")
    text = base.own((places.NETWORK / "violations.sql").read_text())
    found: list[Breach] = [(each["place"], each["breach"])
                           for each in base.rows(Found, text, journal=journal, first=first, stage="checked")]
    if found:
        return found
    unlike = advance(base, journal, "checked", first)
    found = [(None, f"the balance of card {unlike['card']} is not that of its last touch")] if unlike else []
    found += [(each["place"], each["breach"]) for each in base.rows(Found, DIFFERENT, journal=journal)]
    gates.advance(base, journal, "checked", first, row["touches"])
    found += gates.breaches(base, journal)
    found += journeys.breaches(base, journal, first, row["touches"])
    if not found:
        base.execute("UPDATE journals SET checked = touches WHERE journal = :journal", journal=journal)
    return found
