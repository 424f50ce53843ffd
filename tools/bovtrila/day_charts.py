# SPDX-License-Identifier: Apache-2.0
"""The charts of bovtrila-day-report, and the clock and the money as its page shows them."""
import datetime
import io
import itertools
import re
from collections.abc import Callable, Sequence
from typing import TYPE_CHECKING

from bovtrila.day_tally import BEGINS, FARE_DAY, QUARTERS, Tally

if TYPE_CHECKING:
    from matplotlib.axes import Axes

COLOURS = {"in": "#0072B2", "out": "#E69F00", "top-up": "#009E73", "issue": "#CC79A7"}
# What stands behind a time that the clock showed before: in October it goes back over an hour.
SECOND = " (second)"


class Pence(int):
    """An amount of money, which a page has in pounds."""

    def __str__(self) -> str:
        pounds, pence = divmod(abs(self), 100)
        return f"{'−' if self < 0 else ''}£{pounds:,}.{pence:02}"


def drawn(name: str, draw: Callable[["Axes"], None], height: float) -> str:
    """The SVG of a chart: `draw` is given its axes."""
    import matplotlib
    from matplotlib.figure import Figure
    with matplotlib.rc_context({"svg.fonttype": "none", "svg.hashsalt": name, "font.size": 10, "axes.axisbelow": True}):
        # So wide that its words can be read on a phone, where it is as wide as the screen.
        figure = Figure(figsize=(6, height), layout="constrained")
        axes = figure.add_subplot()
        axes.spines[["top", "right"]].set_visible(False)
        draw(axes)
        file = io.StringIO()
        figure.savefig(file, format="svg", metadata={"Date": None})
    svg = re.sub(r"<metadata>.*?</metadata>", "", file.getvalue()[file.getvalue().index("<svg"):], flags=re.S)
    # Ids of its own, since a page has several charts.
    svg = re.sub(r'( id="|href="#|url\(#)', rf"\g<1>{name}-", svg)
    return svg.replace("<svg", f'<svg role="img" aria-label="{name}"', 1)


def shown(moment: int, zone: datetime.tzinfo, form: str) -> str:
    """The clock at a moment, marked where the clock had gone back and shows the time for the second time."""
    time_shown = datetime.datetime.fromtimestamp(moment, zone)
    return f"{time_shown:{form}}{SECOND if time_shown.fold else ''}"


def clock(quarter: int) -> str:
    """The clock time at which a quarter of a fare day begins."""
    minute = (FARE_DAY + 15 * quarter) % 1440
    return f"{minute // 60:02}:{minute % 60:02}"


def touches_chart(tally: Tally) -> str:
    """The touches of each quarter of a fare day, by act."""
    def draw(axes: "Axes") -> None:
        below = [0] * QUARTERS
        for act, counts in tally.touches.items():
            axes.bar([place + 0.5 for place in range(QUARTERS)], counts, 0.9, below, color=COLOURS[act], label=act)
            below = [one + other for one, other in zip(below, counts)]
        axes.set_xlim(0, QUARTERS)
        axes.set_xticks(range(6, QUARTERS, 12), [clock(place) for place in range(6, QUARTERS, 12)])
        axes.set_ylabel("touches")
        axes.yaxis.get_major_locator().set_params(integer=True)
        axes.yaxis.set_major_formatter("{x:,.0f}")
        axes.grid(axis="y", color="#dddddd")
        axes.legend(ncols=4, frameon=False, loc="lower right", bbox_to_anchor=(1, 1))
    return drawn("touches", draw, 2.6)


def bars_chart(name: str, rows: Sequence[tuple[str, int]], colour: str, words: Callable[[int], str]) -> str:
    """Bars of pairs of a name and a number, the first on top, with the number in words behind each."""
    def draw(axes: "Axes") -> None:
        bars = axes.barh([label for label, _ in rows], [number for _, number in rows], color=colour, height=0.7)
        axes.bar_label(bars, [words(number) for _, number in rows], padding=4)
        axes.invert_yaxis()
        axes.margins(x=0.12)
        axes.tick_params(axis="y", length=0)
        axes.xaxis.set_visible(False)
        axes.spines["bottom"].set_visible(False)
    return drawn(name, draw, 0.4 + 0.28 * len(rows))


def money_chart(tally: Tally) -> str:
    """What was paid in and charged so far, at the end of each quarter of an hour."""
    def draw(axes: "Axes") -> None:
        from matplotlib.dates import AutoDateLocator, ConciseDateFormatter, DateFormatter, HourLocator
        places = sorted(tally.by_quarter)
        ends = [places[0], *(place + 1 for place in places), places[-1] + 2]
        times = [datetime.datetime.fromtimestamp(900 * end, tally.zone) for end in ends]
        for side, label, colour in ((0, "paid in", COLOURS["top-up"]), (1, "charged", "#D55E00")):
            sums = [0, *itertools.accumulate(tally.by_quarter[place][side] / 100 for place in places)]
            axes.plot(times, [*sums, sums[-1]], drawstyle="steps-post", color=colour, label=label, linewidth=1.8)
        locator = AutoDateLocator(tz=tally.zone)
        form = ConciseDateFormatter(locator, tally.zone, ["%Y", "%b %Y", "%d %b", "%H:%M", "%H:%M", "%S"],
                                    zero_formats=["", "%Y", "%d %b", "%d %b", "%H:%M", "%H:%M"], show_offset=False)
        if len(tally.days()) == 1 and not tally.strange:
            first = datetime.datetime.fromisoformat(tally.days()[0]).replace(tzinfo=tally.zone) + BEGINS
            axes.set_xlim(first, first + datetime.timedelta(days=1))
            locator, form = HourLocator(range(0, 24, 3), tz=tally.zone), DateFormatter("%H:%M", tz=tally.zone)
        axes.xaxis.set_major_locator(locator)
        axes.xaxis.set_major_formatter(form)
        axes.yaxis.get_major_locator().set_params(integer=True)
        axes.yaxis.set_major_formatter("£{x:,.0f}")
        axes.grid(axis="y", color="#dddddd")
        axes.legend(ncols=2, frameon=False, loc="lower right", bbox_to_anchor=(1, 1))
    return drawn("money", draw, 2.6)
