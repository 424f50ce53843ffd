"""The lines of each marked region, from the facts of the Rattle code and the words of scripts/dev/facts.toml."""
import pathlib
import re
import textwrap

import fact_code
import fact_frame_texts
import fact_packaging
import fact_page_texts
from fact_code import Coded
from fact_regions import Region
from fact_words import CARRYING, HEADER, LUA, PAGE, SOURCE, TALLY, WIDTH, WIRE, filled, quoted, words_of


class Verdicts:
    """The regions of verdicts."""

    def __init__(self, top: pathlib.Path, limits: dict[str, int]) -> None:
        self.verdicts = fact_code.verdicts(top)
        self.words = words_of(top, "verdict", limits, [one.name for one in self.verdicts])

    def said(self, one: Coded, *uses: str) -> str:
        """The words of a verdict for the first of these uses that has any, else those of the code's comment."""
        row = self.words.get(one.name, {})
        return next((row[use] for use in uses if use in row), one.comment)

    def page(self) -> tuple[str, ...]:
        rows = [f"| {one.code} | {one.name} | {self.said(one, 'page')} |" for one in self.verdicts]
        return "", "| Code | Verdict | Returned for |", "|---|---|---|", *rows, ""

    def short(self, one: Coded) -> str:
        return ("" if one.accepts else "refused: ") + self.said(one, "short")

    def regions(self) -> list[Region]:
        refusals = [one for one in self.verdicts if not one.accepts]
        return [
            Region(PAGE, "verdicts", self.page()),
            Region(SOURCE, "verdicts", filled((f"[{one.code}] = {quoted(self.said(one, 'short'))}" for one in self.verdicts), 8)),
            Region(LUA, "verdicts", filled((f"[{one.code}] = {quoted(one.name)}" for one in self.verdicts), 4)),
            Region(WIRE, "verdicts", tuple(f"    {one.code}: {quoted(self.short(one))}," for one in self.verdicts)),
            Region(TALLY, "refusals", filled(
                (f"{quoted(one.name)}: {quoted(self.said(one, 'day', 'short'))}" for one in refusals), 4)),
        ]


class Faults:
    """The regions of the faults that answer a request."""

    def __init__(self, top: pathlib.Path, limits: dict[str, int]) -> None:
        self.faults = fact_code.faults(top)
        self.words = words_of(top, "fault", limits, [one.name for one in self.faults])

    def said(self, one: Coded, use: str) -> str:
        """The words of a fault for a use, else those of the code's comment."""
        return self.words.get(one.name, {}).get(use, one.comment)

    def page(self) -> tuple[str, ...]:
        rows: list[str] = []
        for one in self.faults:
            row = {"names": "the touch's", "after": "the session continues", **self.words.get(one.name, {})}
            rows.append(f"| {one.code} | {one.name} | {row.get('page', one.comment)} | {row['names']} | {row['after']} |")
        return "", "| Code | Fault | Means | Gate and number | Afterwards |", "|---|---|---|---|---|", *rows, ""

    def header(self) -> tuple[str, ...]:
        lines: list[str] = []
        for one in self.faults:
            name = re.sub(r"(?<!^)(?=[A-Z])", "_", one.name).upper()
            comma = "," if one is not self.faults[-1] else ""
            begin = f"    BOVTRILA_FAULT_{name} = {one.code}{comma}".ljust(38)
            lines += textwrap.wrap(self.said(one, "header") + " */", WIDTH, initial_indent=f"{begin}/* ",
                                   subsequent_indent=" " * 41, break_on_hyphens=False)
        return tuple(lines)

    def regions(self) -> list[Region]:
        return [
            Region(PAGE, "faults", self.page()),
            Region(HEADER, "faults", self.header()),
            Region(SOURCE, "faults", filled((f"[{one.code}] = {quoted(self.said(one, 'log'))}" for one in self.faults), 8)),
            Region(LUA, "faults", filled((f"[{one.code}] = {quoted(one.name)}" for one in self.faults), 4)),
            Region(WIRE, "faults", tuple(f"    {one.code}: {quoted(self.said(one, 'short'))}," for one in self.faults)),
        ]


def carrying(limits: dict[str, int]) -> Region:
    """The limits that bovtrila-carry-over keeps to."""
    found = ", ".join(f"{limits[name]:_}" for name in ("CARDS_LIMIT", "TOP_UP_LIMIT", "HIGHEST_BALANCE"))
    return Region(CARRYING, "limits", (f"CARDS, TOP_UP, LIMITS = {found}",))


def fare_day(limits: dict[str, int]) -> Region:
    """The minute with which a fare day begins, for pages and messages."""
    return Region(TALLY, "fare day", (f"FARE_DAY = {limits['FARE_DAY_START']}",))


def regions(top: pathlib.Path) -> list[Region]:
    """All regions of a tree, as they have to be."""
    limits = fact_code.limits(top)
    return [*Verdicts(top, limits).regions(), *Faults(top, limits).regions(), *fact_frame_texts.regions(top, limits),
            *fact_page_texts.regions(top), *fact_packaging.regions(top), carrying(limits), fare_day(limits)]
