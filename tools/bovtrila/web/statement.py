# SPDX-License-Identifier: Apache-2.0
"""What the page of bovtrila-exporter shows of a card's charges: the statement that `bovtrila statement` prints as JSON. The
command runs with limits of time and memory, and what it prints has a limit too."""
import dataclasses
import datetime
import json
import subprocess
import threading
from collections.abc import Mapping, Sequence
from typing import Any

from bovtrila.day_charts import Pence
from bovtrila.day_tally import FARE_DAY
from bovtrila.journal_view import Carried
from bovtrila.web.history import BESIDE, Source, check, stop
from bovtrila.wire import Wrong

# How many bytes of a statement are read. A journey takes some 250 of them.
MOST = 16 * 2**20
# How many fare days, top-ups and refused touches a page shows of each: the newest ones.
SHOWN = 400
# What the page says for each reason of an incomplete touch (FARES.md, "Statement").
REASONS = {
    "Open": "touched in at {}, and no touch in or out followed",
    "EnteredOver": "touched in at {}, and the next touch was another touch in",
    "NotLeftInTime": "touched in at {}, and touched out after the time limit",
    "Late": "touched out at {} after the time limit",
    "Unstarted": "touched out at {} without a touch in",
}


@dataclasses.dataclass(frozen=True)
class Journey:
    """A journey in words, and its fare."""

    clock: str
    route: str
    zones: str
    band: str
    is_covered: bool
    fare: Pence


@dataclasses.dataclass(frozen=True)
class Day:
    """What a fare day is charged. `cap` is the daily cap in words, with its price, if one lowers the charge. `maxima` has
    the clock, the reason in words and the charge of each incomplete touch."""

    day: str
    journeys: Sequence[Journey]
    fares: Pence
    cap: tuple[str, Pence] | None
    for_journeys: Pence
    maxima: Sequence[tuple[str, str, Pence]]
    charge: Pence


@dataclasses.dataclass(frozen=True)
class Statement:
    """A card's statement, the newest day first. `begun` has the moment and the pence of the balance with which the journal
    began, if the card had one: that isn't paid in. Of days, top-ups (moment and pence) and refused touches (moment, verdict,
    act, station and pence) it has the newest ones, and `counts` has how many there are."""

    card: int
    is_inside: bool
    paid_in: Pence
    charged: Pence
    balance: Pence
    days: Sequence[Day]
    top_ups: Sequence[tuple[int, Pence]]
    refused: Sequence[tuple[int, str, str, int | None, Pence | None]]
    counts: Mapping[str, int]
    begun: tuple[int, Pence] | None = None


def printed(source: Source, words: Sequence[str], most: int) -> bytes:
    """What a run of `statement` prints, if it is no more than so many bytes."""
    late = threading.Event()
    with subprocess.Popen([*BESIDE, *words], stdin=subprocess.DEVNULL, stdout=subprocess.PIPE,
                          stderr=subprocess.PIPE) as process:
        timer = threading.Timer(source.seconds, stop, [process, late])
        timer.start()
        assert process.stdout is not None and process.stderr is not None
        try:
            content = process.stdout.read(most + 1)
        finally:
            # A program that has more to print ends by the closed pipe.
            process.stdout.close()
            said = process.stderr.read().decode(errors="replace")
            process.wait()
            timer.cancel()
    if len(content) > most and not late.is_set():
        raise Wrong(f"a statement of more than {most:,} bytes is too long for this page: print it by bovtrila statement")
    check("statement", process.returncode, said, None, source.seconds if late.is_set() else None)
    return content


def statement_of(source: Source, card: int) -> Statement:
    """A card's statement."""
    content = printed(source, words_of(source, card, "json"), MOST)
    try:
        return read(json.loads(content), source.carried)
    except (ValueError, KeyError, TypeError, AttributeError, RecursionError) as error:
        raise Wrong(f"what bovtrila statement printed isn't a statement: {error!r}") from None


def words_of(source: Source, card: int, form: str) -> list[str]:
    """The command that prints a card's statement in a format."""
    return source.words("statement", "--card", str(card), "--format", form)


def newest(rows: Sequence[Any]) -> list[Any]:
    """The newest rows, the newest first."""
    return [*reversed(rows)][:SHOWN]


def read(found: Mapping[str, Any], carried: Carried = Carried()) -> Statement:
    """A statement by its JSON, and by what the journal began with."""
    card, paid = int(found["card"]), list(found["top_ups"])
    first = [row for row in paid[: carried.top_ups.get(card, 0)] if moment_of(row) == carried.moment]
    begun = (carried.moment, Pence(sum(row["pence"] for row in first))) if card in carried.top_ups else None
    found = {**found, "top_ups": paid[len(first) :], "paid_in": found["paid_in"] - (begun[1] if begun else 0)}
    is_inside = any(touch["reason"] == "Open" for day in found["days"] for touch in day["touches"])
    top_ups = [(moment_of(row), Pence(row["pence"])) for row in newest(found["top_ups"])]
    refused = [(moment_of(row), str(row["verdict"]), str(row["act"]),
                None if row["station"] is None else int(row["station"]),
                None if row["pence"] is None else Pence(row["pence"])) for row in newest(found["refused"])]
    paid_in, charged, balance = (Pence(found[name]) for name in ("paid_in", "charged", "balance"))
    return Statement(card, is_inside, paid_in, charged, balance,
                     [day_of(day) for day in newest(found["days"])], top_ups, refused,
                     {name: len(found[name]) for name in ("days", "top_ups", "refused")}, begun)


def moment_of(row: Mapping[str, Any]) -> int:
    """The moment of a row, in seconds since 1970-01-01 00:00:00 UTC."""
    return int(datetime.datetime.fromisoformat(row["moment"]).timestamp())


def zones(row: Mapping[str, Any]) -> str:
    """A range of zones, in words."""
    return f"zones {int(row['low'])} to {int(row['high'])}"


def name_of(touch: Mapping[str, Any]) -> str:
    """The station of a touch: its name, or its number if it has none."""
    return str(touch["name"] or f"station {int(touch['station'])}")


def minute_of(touch: Mapping[str, Any]) -> int:
    """The minute of the day that the clock shows at a touch."""
    hour, minute = map(int, touch["time"].split(":"))
    return 60 * hour + minute


def clock_below(first: Mapping[str, Any], touch: Mapping[str, Any]) -> str:
    """The clock at a touch below the fare day of the first touch of its row, and how many dates later it is, if it is
    later: a fare day begins at FARE_DAY, and between two moments the clock may go forward or back."""
    since = moment_of(touch) - moment_of(first) + 60 * (minute_of(first) - minute_of(touch))
    later = (minute_of(first) < FARE_DAY) + round(since / 86_400)
    return f"{touch['time']} (+{later})" if later else str(touch["time"])


def day_of(row: Mapping[str, Any]) -> Day:
    """A fare day by its JSON."""
    cap = row["cap"]
    journeys = [Journey(f"{clock_below(each['from'], each['from'])} to {clock_below(each['from'], each['to'])}",
                        f"{name_of(each['from'])} to {name_of(each['to'])}", zones(each),
                        "off-peak" if each["off_peak"] else "peak", bool(each["covered"]), Pence(each["pence"]))
                for each in row["journeys"]]
    words = None if cap is None else f"daily cap of {zones(cap)}, {'off-peak' if cap['off_peak'] else 'anytime'}"
    maxima = [(clock_below(each["at"], each["at"]), REASONS[each["reason"]].format(name_of(each["at"])),
               Pence(each["pence"])) for each in row["touches"]]
    return Day(str(row["day"]), journeys, Pence(row["fares"]), (words, Pence(cap["pence"])) if words else None,
               Pence(row["charge_for_journeys"]), maxima, Pence(row["charge"]))
