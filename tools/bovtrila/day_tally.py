# SPDX-License-Identifier: Apache-2.0
"""The counts of bovtrila-day-report over a station's history: the touches of a fare day or of a whole file, with what the
days around it show about them."""
import collections
import datetime
import hashlib
import zoneinfo
from typing import NamedTuple, TypeVar

from bovtrila.history_rows import ACCEPTED, Chain, Row, rows_of

REFUSALS = {
    # generated: refusals
    "UnknownCard": "no such card, or it wasn't issued", "AlreadyIssued": "the card was issued before",
    "UnknownStation": "no such station", "Backwards": "earlier than the card's last touch in or out",
    "LowBalance": "the balance is below the entry minimum", "BadAmount": "no amount that can be paid in",
    "OverLimit": "above the balance limit", "BadDay": "a day with travel, or not above the last revision's",
    # end: refusals
}
MAXIMA = {"EnteredOverOpen": "a touch in was left open", "ExitedUnstarted": "a touch out without a touch in",
          "ExitedLate": "a touch out too late for its touch in"}
# Why a touch was charged a maximum, by the verdict of the touch that tells it and by whether it is one in or out.
REASONS = {("EnteredOverOpen", "in"): "no touch out followed: the next was another touch in",
           ("ExitedLate", "in"): "its touch out came too late",
           ("ExitedLate", "out"): "too late for its touch in",
           ("ExitedUnstarted", "out"): "no touch in before it"}
# The minute of the clock with which a fare day begins.
# generated: fare day
FARE_DAY = 270
# end: fare day
# The same as a time, and how many quarters of an hour a fare day is cut into.
BEGINS, QUARTERS = datetime.timedelta(minutes=FARE_DAY), 96
ACTS = ("in", "out", "top-up", "issue")
# How many cards stand among those charged most, and on how many days before a gate is looked for that is silent.
MOST, WEEK = 10, 7

Key = TypeVar("Key")
# Paid in and charged, in pence.
Sums = tuple[int, int]
# A touch that tells a maximum, the touch in that it ends where the file has that, and what both were charged in pence.
Maximum = NamedTuple("Maximum", [("row", Row), ("entry", Row | None), ("at_entry", int), ("at_exit", int)])
# A maximum that was charged: the touch that was charged it, the touch that tells so, and the pence.
Charge = NamedTuple("Charge", [("touch", Row), ("told", Row), ("pence", int)])


def added(sums: dict[Key, Sums], key: Key, row: Row) -> None:
    """Adds the change of a touch to the sums that have this key."""
    paid, charged = sums.get(key, (0, 0))
    sums[key] = (paid + row.change, charged) if row.act == "top-up" else (paid, charged - row.change)


class Tally:
    """What is counted of the rows that a page is of."""

    def __init__(self, zone: zoneinfo.ZoneInfo) -> None:
        self.zone, self.rows, self.strange = zone, 0, 0
        self.touches = {act: [0] * QUARTERS for act in ACTS}
        # Of these the ones in an hour that the clock showed for the second time.
        self.second = {act: [0] * QUARTERS for act in ACTS}
        self.verdicts, self.maxima, self.revisions = collections.Counter[str](), list[Maximum](), list[Row]()
        # The cards whose last touch is one in, with what that was charged, and with that touch.
        self.inside, self.open = dict[int, int](), dict[int, Row]()
        # Paid in and charged, by quarter of an hour since 1970, by fare day and by card; and touches by these two.
        self.by_quarter, self.by_day, self.by_card = dict[int, Sums](), dict[str, Sums](), dict[int, Sums]()
        self.touches_by_day, self.touches_by_card = collections.Counter[str](), collections.Counter[int]()

    def add(self, row: Row, entry: Row | None) -> None:
        """Counts a row; `entry` is the card's open touch in before it, where the file has it."""
        self.rows += 1
        self.verdicts[row.verdict] += 1
        if row.card is None:
            self.revisions.append(row)
            return
        shown = datetime.datetime.fromtimestamp(row.moment, self.zone)
        begun = shown - BEGINS
        self.strange += begun.date().isoformat() != row.day
        self.touches[row.act][4 * begun.hour + begun.minute // 15] += 1
        self.second[row.act][4 * begun.hour + begun.minute // 15] += shown.fold
        self.touches_by_day[row.day] += 1
        accepted = row.verdict in ACCEPTED[row.act]
        if accepted:
            self.touches_by_card[row.card] += 1
        added(self.by_quarter, row.moment // 900, row)
        added(self.by_day, row.day, row)
        added(self.by_card, row.card, row)
        if accepted and row.act in ("in", "out"):
            self.travel(row, entry)

    def travel(self, row: Row, entry: Row | None) -> None:
        """Counts an accepted touch in or out."""
        if row.verdict in MAXIMA:
            at_entry = None if row.verdict == "ExitedUnstarted" or entry is None else -entry.change
            at_exit = -row.change if row.act == "out" else 0
            self.maxima.append(Maximum(row, entry if at_entry is not None else None, at_entry or 0, at_exit))
        if row.card is None:
            return
        if row.act == "in":
            self.inside[row.card], self.open[row.card] = -row.change, row
        else:
            self.inside.pop(row.card, None)
            self.open.pop(row.card, None)

    def money(self) -> Sums:
        """Paid in and charged, in pence."""
        return sum(paid for paid, _ in self.by_day.values()), sum(charged for _, charged in self.by_day.values())

    def refused(self) -> dict[str, int]:
        """How many touches were refused, by verdict, in the order of their codes."""
        return {name: self.verdicts[name] for name in REFUSALS}

    def most_charged(self) -> list[tuple[int, Sums]]:
        """The ten cards that were charged most, each with what was paid in and charged. Of equal ones the lower comes
        first."""
        charged = [(card, pair) for card, pair in self.by_card.items() if pair[1] > 0]
        return sorted(charged, key=lambda row: (-row[1][1], row[0]))[:MOST]

    def cut_off(self) -> tuple[int, int] | None:
        """Of the cards that were charged as much as the last of these ten: how many there are, and how many stand among
        the ten. None where all do."""
        shown = self.most_charged()
        if len(shown) < MOST:
            return None
        least = shown[-1][1][1]
        equal = sum(pair[1] == least for pair in self.by_card.values())
        among = sum(pair[1] == least for _, pair in shown)
        return (equal, among) if equal > among else None

    def maxima_of(self, verdict: str) -> tuple[int, int, int, int]:
        """The journeys of a verdict that cost a maximum: how many, how many of their touches in aren't in the file, and
        the pence that were charged at the touch in and at the touch out."""
        found = [each for each in self.maxima if each.row.verdict == verdict]
        lost = sum(each.entry is None for each in found) if verdict != "ExitedUnstarted" else 0
        return len(found), lost, sum(each.at_entry for each in found), sum(each.at_exit for each in found)

    def days(self) -> list[str]:
        """The fare days of the touches, in order."""
        return sorted(self.touches_by_day)

    def cards(self) -> tuple[int, int]:
        """How many touches of cards there are, and how many of them were refused."""
        refused = sum(self.refused().values()) - self.verdicts["BadDay"]
        return sum(sum(counts) for counts in self.touches.values()), refused


def charges_of(row: Row, entry: Row | None) -> list[Charge]:
    """The maxima that this touch tells: its own, and that of the card's open touch in before it, where the file has it."""
    found: list[Charge] = []
    if row.verdict in ("EnteredOverOpen", "ExitedLate") and entry is not None:
        found.append(Charge(entry, row, -entry.change))
    if row.verdict in ("ExitedLate", "ExitedUnstarted"):
        found.append(Charge(row, row, -row.change))
    return found


def days_before(day: str, count: int) -> str:
    """The date so many days before."""
    return (datetime.date.fromisoformat(day) - datetime.timedelta(count)).isoformat()


class Report:
    """What a page is of: a fare day, or all of a file where none is named, and what other days tell of it."""

    def __init__(self, day: str | None, zone: zoneinfo.ZoneInfo) -> None:
        self.day, self.tally = day, Tally(zone)
        # The same weekday before.
        self.before = Tally(zone) if day else None
        # Each maximum, under the day of the touch that was charged it; and how many touches in of earlier days aren't in
        # the file.
        self.charges, self.lost = list[Charge](), 0
        # Of each gate its days, and its last touch up to the end of the day.
        self.gate_days: dict[int, set[str]] = collections.defaultdict(set)
        self.gate_last: dict[int, Row] = {}
        # The next touch in or out of a card behind the day, where the file has it, and the last day of the file.
        self.next: dict[int, Row] = {}
        self.last_day: str | None = None

    def add(self, row: Row, entry: Row | None) -> None:
        """Counts a row of the file; `entry` is the card's open touch in before it."""
        if self.day is None or row.day == self.day:
            self.tally.add(row, entry)
        elif self.before is not None and row.day == days_before(self.day, WEEK):
            self.before.add(row, entry)
        if row.card is None:
            return
        self.last_day = max(self.last_day or row.day, row.day)
        self.gate_days[row.gate].add(row.day)
        if self.day is None or row.day <= self.day:
            self.gate_last[row.gate] = row
        if row.act in ("in", "out") and row.verdict in ACCEPTED[row.act]:
            self.charges += charges_of(row, entry)
            is_lost = row.verdict in ("EnteredOverOpen", "ExitedLate") and entry is None
            self.lost += is_lost and self.day in (None, row.day)
            if self.day is not None and row.day > self.day:
                self.next.setdefault(row.card, row)

    def maxima(self, day: str | None = None) -> list[Charge]:
        """The maxima that touches of a day were charged, or of the page's own, in the order of these touches."""
        day = day or self.day
        return sorted((each for each in self.charges if day in (None, each.touch.day)),
                      key=lambda each: each.touch.place)

    def silent(self) -> list[tuple[int, Row]]:
        """The gates without a touch on the day, or on the file's last one, which had one in the seven days before: each
        with its last touch."""
        day = self.day or self.last_day
        if day is None:
            return []
        first = days_before(day, WEEK)
        return [(gate, self.gate_last[gate]) for gate, days in sorted(self.gate_days.items())
                if day not in days and any(first <= other < day for other in days)]

    def has_week(self) -> bool:
        """Whether the file has a touch of the seven days before the day, or before the file's last one."""
        day = self.day or self.last_day
        return day is not None and any(days_before(day, WEEK) <= other < day
                                       for days in self.gate_days.values() for other in days)

    def gates(self) -> int:
        """How many gates had a touch on the day, or on the file's last one."""
        day = self.day or self.last_day
        return sum(day in days for days in self.gate_days.values())

    def open(self) -> list[tuple[Row, Row | None]]:
        """The touches in that were open at the end, each with the card's next touch, where the file has it."""
        return [(row, self.next.get(card)) for card, row in sorted(self.tally.open.items())]


def read(path: str, day: str | None, zone: zoneinfo.ZoneInfo, is_part: bool = False) -> tuple[Report, str]:
    """The report of a file's rows, and the digest of the file's bytes."""
    digest, report = hashlib.sha256(), Report(day, zone)
    for row, entry in rows_of(path, Chain(is_part, day is None), digest, "day-report"):
        report.add(row, entry)
    return report, digest.hexdigest()
