# SPDX-License-Identifier: Apache-2.0
"""The HTML of the page of bovtrila-exporter, from its facts. The templates are in the folder templates/ beside this file."""
import pathlib
import zoneinfo
from collections.abc import Sequence
from typing import NamedTuple

from bovtrila import day_tally, door_reports
from bovtrila.day_charts import COLOURS, Pence, clock, shown
from bovtrila.day_page import Stations
from bovtrila.day_tally import QUARTERS
from bovtrila.door_reports import Found
from bovtrila.templating import environment
from bovtrila.web.facts import AHEAD, Now
from bovtrila.web.history import Day, Touches
from bovtrila.web.statement import Statement

FOLDER = pathlib.Path(__file__).resolve().parent / "templates"
# The size of the chart of quarters, of its upper half, and of what is below and left of it.
WIDTH, HALF, BELOW, LEFT = 480, 80, 18, 34
# A gate is remarked from so many refusals on, if so many of a hundred touches were refused.
REFUSALS, SHARE = 5, 20


class Bar(NamedTuple):
    """A bar of a chart: its place and size, its kind, and its value in words."""

    x: float
    y: float
    width: float
    height: float
    kind: str
    words: str


class Chart(NamedTuple):
    """The chart of touches per quarter of an hour: touches in above the line, touches out below it."""

    width: int
    height: int
    left: int
    middle: int
    half: int
    most: int
    bars: Sequence[Bar]
    hours: Sequence[tuple[float, str]]


class GateRow(NamedTuple):
    """A row of the table of gates."""

    number: int
    last: str
    touches: int
    refused: int
    share: int | None
    remarks: Sequence[str]


class DoorRow(NamedTuple):
    """A row of the table of what the door refused."""

    name: str
    reason: str
    gate: str
    times: str
    at: str


class Width(NamedTuple):
    """A row of a table with bars: what it is, its number, the text after it, and the bar's length of 100."""

    name: str
    number: int
    more: str
    length: float


def chart(ins: Sequence[int], outs: Sequence[int]) -> Chart:
    """The chart of a day's touches in and out."""
    most = max(1, *ins, *outs)
    step = (WIDTH - LEFT) / QUARTERS
    bars = []
    for kind, counts in (("in", ins), ("out", outs)):
        for place, count in enumerate(counts):
            height = round(HALF * count / most, 2)
            y = HALF - height if kind == "in" else HALF
            if count:
                bars.append(Bar(round(LEFT + step * place, 2), round(y, 2), round(step * 0.86, 2), height, kind,
                                f"{clock(place)}: {count:,} {kind}"))
    hours = [(round(LEFT + step * place, 2), clock(place)) for place in range(6, QUARTERS, 12)]
    return Chart(WIDTH, 2 * HALF + BELOW, LEFT, HALF, HALF, most, bars, hours)


def lengths(rows: Sequence[tuple[str, int, str]]) -> list[Width]:
    """Rows with bars, the longest of which has the length 100."""
    most = max((count for _, count, _ in rows), default=1)
    return [Width(name, count, more, round(100 * count / most, 1)) for name, count, more in rows]


def remarks_of(refused: int, touches: int, ahead: float, is_known: bool) -> list[str]:
    """What is remarkable about a gate."""
    said = ["clock ahead"] if ahead >= AHEAD else []
    if is_known and touches == 0:
        said.append("no touch today")
    if refused >= REFUSALS and 100 * refused >= SHARE * touches:
        said.append("many refusals")
    return said


def gate_rows(now: Now, day: Day | None) -> list[GateRow]:
    """The gates with their last touch and their refusals of the day."""
    made = []
    for gate in now.gates:
        touches, refused = day.gates.get(gate.number, (0, 0)) if day else (0, 0)
        share = round(100 * refused / touches) if touches else None
        made.append(GateRow(gate.number, gate.last, touches, refused, share,
                            remarks_of(refused, touches, gate.ahead, day is not None)))
    return made


def quarters(day: Day) -> list[tuple[str, int, int]]:
    """The quarters of an hour that had touches in or out."""
    rows = zip(range(QUARTERS), day.touches["in"], day.touches["out"])
    return [(clock(place), one, other) for place, one, other in rows if one or other]


def slots_in_words(now: Now) -> str:
    """The slots of connections, in words."""
    if now.slots is None:
        return "not known"
    waiting = f", {now.slots.waiting} wait" if now.slots.waiting else ""
    return f"{now.slots.busy}{'' if now.slots.lines is None else f' of {now.slots.lines}'}{waiting}"


class Pages:
    """The templates, and the clock and the stations' names that the pages show."""

    def __init__(self, zone: zoneinfo.ZoneInfo, stations: Stations, every: int) -> None:
        self.zone, self.stations, self.every = zone, stations, every
        self.environment = environment(FOLDER)

    def rendered(self, name: str, **values: object) -> str:
        """A template with these values."""
        return str(self.environment.get_template(name).render(**values))

    def clock(self, moment: float) -> str:
        """A moment by the clock of the zone."""
        return shown(int(moment), self.zone, "%Y-%m-%d %H:%M:%S %Z")

    def door_rows(self, found: Found) -> list[DoorRow]:
        """What the door refused, the last report first."""
        rows = [(refused.moment, DoorRow(refused.name, door_reports.REASONS[reason], str(refused.gate or ""),
                                         f"{refused.times:,}", self.clock(refused.moment)))
                for (_, reason), refused in found.refused.items()]
        if found.without_header:
            # Each line is about one connection or more.
            rows.append((found.last_without, DoorRow("", "connections without HAProxy's header", "",
                                                     f"{found.without_header:,} or more", self.clock(found.last_without))))
        return [row for _, row in sorted(rows, key=lambda each: each[0], reverse=True)]

    def station(self, now: Now | None, day: Day | None, trouble: str | None, is_refreshed: bool = True) -> str:
        """The page of the server now and of today."""
        day = day if day and now and day.day == now.day else None
        return self.rendered(
            "station.html.jinja", refreshes=self.every if is_refreshed else None, now=now, day=day, trouble=trouble,
            warnings=[*(now.warnings if now else ()), *(day.notes if day else ())],
            slots=slots_in_words(now) if now else None, gates=gate_rows(now, day) if now else [],
            chart=chart(day.touches["in"], day.touches["out"]) if day else None, quarters=quarters(day) if day else [],
            refusals=lengths([(name, count, "") for name, count in day.refusals]) if day else [],
            maxima=lengths([(name, count, str(pence)) for name, count, pence in day.maxima]) if day else [],
            at=self.clock(now.moment) if now else None, begun=self.clock(now.begun) if now and now.begun else None,
            day_at=self.clock(day.moment) if day else None, begins=clock(0),
            door=self.door_rows(now.refused) if now and now.refused else [])

    def card(self, path: str, number: str, found: Statement | Touches | None, fault: str | None,
             command: str | None) -> str:
        """The page of a card's statement or of its touches, or of the question which card."""
        begun = (self.clock(found.begun[0]), found.begun[1]) if found and found.begun else None
        if path == "/touches":
            rows = [(self.clock(row.moment), row.act, self.stations.named(row.station) if row.station else "", str(row.gate),
                     str(row.number), row.verdict, row.change, row.balance)
                    for row in (found.rows if isinstance(found, Touches) else ())]
            return self.rendered("touches.html.jinja", refreshes=None, number=number, found=found, rows=rows, fault=fault,
                                 command=command, begun=begun)
        top_ups, refused = self.beside(found) if isinstance(found, Statement) else ([], [])
        return self.rendered("card.html.jinja", refreshes=None, number=number, found=found, top_ups=top_ups, refused=refused,
                             fault=fault, command=command, begun=begun)

    def beside(self, found: Statement) -> tuple[list[tuple[str, Pence]], list[tuple[str, str, str]]]:
        """A statement's top-ups and refused touches, in words: when, and how much; when, what was asked, and why not."""
        refused = []
        for moment, verdict, act, station, pence in found.refused:
            words = act if act in ("issue", "top-up") else f"touch {act}"
            words += f" of {pence}" if pence is not None else ""
            words += f" at {self.stations.named(station)}" if station is not None else ""
            refused.append((self.clock(moment), words, day_tally.REFUSALS.get(verdict, verdict)))
        return [(self.clock(moment), pence) for moment, pence in found.top_ups], refused

    def style(self) -> str:
        """The style sheet of the pages."""
        return self.rendered("style.css", colours=COLOURS)
