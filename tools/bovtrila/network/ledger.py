# SPDX-License-Identifier: Apache-2.0
"""A ledger for hledger out of the network's database: a transaction for each journal and fare day.

The postings are added up from the touches' changes, and the asserted balances of the cards from the touches' balances. So
hledger finds a row of which one was changed without the other.
"""
import collections
import re
from collections.abc import Iterable, Iterator, Mapping, Sequence
from typing import TypeAlias, TypedDict

from bovtrila.network.database import Database
from bovtrila.network.fields import Fields, made

# Each accepted touch of a card: what it does to the entry charges that are held, to fares and to maxima. `step` is what the
# card's balance says that it changed. Whoever is inside has the charge of the touch in held, until the next touch in or out
# tells what it was for.
TOUCHES = """
SELECT journal, day, {card} AS card, act, verdict, transfer, change, balance - coalesce(lag(balance)
           OVER (PARTITION BY journal, server_card ORDER BY place), 0) AS step,
       CASE WHEN act = 'in' THEN -change ELSE 0 END AS taken,
       CASE WHEN act IN ('in', 'out')
                AND lag(act) OVER (PARTITION BY journal, server_card, act IN ('in', 'out') ORDER BY place) = 'in'
           THEN -lag(change) OVER (PARTITION BY journal, server_card, act IN ('in', 'out') ORDER BY place)
           ELSE 0 END AS before
FROM history
WHERE accepted AND act <> 'revision'
"""
# The sums of a fare day by journal and card; where {card} is 0, by journal alone.
SUMS = f"""
SELECT day, journal, card, sum(step) AS step, sum(change) AS change,
       sum(CASE WHEN act = 'top-up' AND NOT transfer THEN change ELSE 0 END) AS paid_in,
       sum(CASE WHEN transfer THEN change ELSE 0 END) AS transferred, sum(taken - before) AS held,
       sum(CASE WHEN verdict = 'Exited' THEN before - change ELSE 0 END) AS fares,
       sum(CASE verdict WHEN 'EnteredOverOpen' THEN before WHEN 'ExitedLate' THEN before - change
               WHEN 'ExitedUnstarted' THEN -change ELSE 0 END) AS maxima
FROM ({TOUCHES}) AS touched
GROUP BY day, journal, card
ORDER BY day, journal, card
"""
JOURNALS = """
SELECT journals.journal, server, journals.name, CASE WHEN closed THEN (
           SELECT max(day) FROM history WHERE history.journal = journals.journal AND accepted AND act <> 'revision')
           END AS ends
FROM journals JOIN servers ON servers.name = journals.server ORDER BY journals.journal
"""
HEAD = """\
; The accounts of a network of stations, by bovtrila-network-export ledger. \
Check it with: hledger -f FILE check --strict ordereddates
commodity GBP 1,000.00
account assets:cash from top-ups    ; type: A
account liabilities:cards           ; type: L
account liabilities:entry charges   ; type: L
account equity:transfers            ; type: E
account income:fares                ; type: R
account income:maxima               ; type: R
"""
CASH, CARDS, HELD = "assets:cash from top-ups", "liabilities:cards", "liabilities:entry charges"
TRANSFERS, FARES, MAXIMA = "equity:transfers", "income:fares", "income:maxima"


# A posting: an account, pence, and the balance in pence that is asserted after it.
Posting: TypeAlias = tuple[str, int, int | None]


class JournalRow(TypedDict):
    """A journal. `ends` is the last fare day of a closed one."""

    journal: int
    server: str
    name: str
    ends: str | None


class SumsRow(TypedDict):
    """The sums in pence of a fare day by journal and card. Card 0 is for all cards of the journal."""

    day: str
    journal: int
    card: int
    step: int
    change: int
    paid_in: int
    transferred: int
    held: int
    fares: int
    maxima: int


class Journal:
    """A journal's accounts, and what the last day left in them."""

    def __init__(self, row: JournalRow) -> None:
        self.name = f"{plain(row['server'])}:{plain(row['name'])}"
        self.ends, self.held = row["ends"], 0
        self.cards: collections.Counter[int] = collections.Counter()

    def card(self, card: int) -> str:
        """The account of a card, or of all the journal's cards."""
        return f"{CARDS}:{self.name}" + (f":{card}" if card else "")

    def postings(self, rows: Iterable[SumsRow]) -> Iterator[Posting]:
        """The postings of a fare day: accounts, pence, and the balances that are asserted, or None."""
        sums: collections.Counter[str] = collections.Counter()
        for row in rows:
            sums.update(paid_in=row["paid_in"], transferred=row["transferred"], held=row["held"], fares=row["fares"],
                        maxima=row["maxima"])
            self.cards[row["card"]] += row["step"]
            yield self.card(row["card"]), -row["change"], -self.cards[row["card"]]
        self.held += sums["held"]
        for account, pence in ((CASH, sums["paid_in"]), (TRANSFERS, sums["transferred"]), (HELD, -sums["held"]),
                               (FARES, -sums["fares"]), (MAXIMA, -sums["maxima"])):
            if pence:
                yield f"{account}:{self.name}", pence, None

    def closing(self) -> Iterator[Posting]:
        """The postings that empty a closed journal: the balances went into the next one, which begins no journey as
        inside. So an entry charge that is held stays a maximum."""
        for card, balance in sorted(self.cards.items()):
            yield self.card(card), balance, 0
        yield f"{TRANSFERS}:{self.name}", -sum(self.cards.values()), None
        yield f"{HELD}:{self.name}", self.held, 0
        yield f"{MAXIMA}:{self.name}", -self.held, None


def plain(name: str) -> str:
    """A name as a part of an account: without what separates accounts, amounts and comments."""
    return re.sub(r"[:;]", "-", " ".join(name.split()))


def pounds(pence: int) -> str:
    return f"GBP {'-' * (pence < 0)}{abs(pence) // 100}.{abs(pence) % 100:02}"


def entry(day: str, words: str, postings: Iterable[Posting]) -> Iterator[str]:
    """A transaction's lines."""
    yield f"\n{day} {words}\n"
    for account, pence, asserted in postings:
        yield f"    {account}  {pounds(pence)}" + ("\n" if asserted is None else f" = {pounds(asserted)}\n")


def grouped(names: Sequence[str], rows: Iterable[Fields]) -> Iterator[list[SumsRow]]:
    """The rows of each fare day and journal."""
    group: list[SumsRow] = []
    for row in made(SumsRow, names, rows):
        if group and (group[0]["day"], group[0]["journal"]) != (row["day"], row["journal"]):
            yield group
            group = []
        group.append(row)
    if group:
        yield group


def lines(base: Database, by_card: bool) -> Iterator[str]:
    """The ledger's lines."""
    journals = {row["journal"]: Journal(row) for row in base.rows(JournalRow, JOURNALS)}
    yield HEAD
    for journal in journals.values():
        for account in (CASH, CARDS, HELD, TRANSFERS, FARES, MAXIMA):
            yield f"account {account}:{journal.name}\n"
    names, rows = base.stream(base.own(SUMS.format(card="card" if by_card else "0")))
    last: str | None = None
    for group in grouped(names, rows):
        day, journal = group[0]["day"], journals[group[0]["journal"]]
        if last not in (None, day):
            yield from closed(journals, last)
        if by_card:
            yield from (f"account {journal.card(row['card'])}\n" for row in group if row["card"] not in journal.cards)
        yield from entry(day, journal.name, journal.postings(group))
        last = day
    yield from closed(journals, last)


def closed(journals: Mapping[int, Journal], day: str | None) -> Iterator[str]:
    """The transactions of the journals that end with a day."""
    for journal in journals.values():
        if day is not None and journal.ends == day:
            yield from entry(day, f"{journal.name} is closed", journal.closing())
