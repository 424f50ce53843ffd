# SPDX-License-Identifier: Apache-2.0
"""A fare table as its TOML has it: the keys of TABLE.md that tools/bovtrila/model.py reads. Prices are in pence."""
import tomllib
from typing import Any, NotRequired, TypedDict

Station = TypedDict("Station", {"id": int, "name": str, "zones": list[int]})
# The price from zone to zone, and the zones `low` and `high`.
Single = TypedDict("Single", {"low": int, "high": int, "peak": int, "off_peak": int})
# The price from station to station, the zones of the journey, and the minutes that a leg may take.
Pair = TypedDict("Pair", {"from": int, "to": int, "peak": int, "off_peak": int, "lo": int, "hi": int,
                          "minutes": NotRequired[int]})
Interchange = TypedDict("Interchange", {"a": int, "b": int, "minutes": int})
# The most that the journeys of a day within zones cost.
Cap = TypedDict("Cap", {"lo": int, "hi": int, "kind": str, "price": int})


class Fares(TypedDict):
    """A whole table, with its arrays by their names in the singular."""
    zone: str
    station: list[Station]
    single: list[Single]
    pair: NotRequired[list[Pair]]
    interchange: NotRequired[list[Interchange]]
    cap: NotRequired[list[Cap]]
    holidays: NotRequired[list[str]]
    evening_rule: bool
    # In minutes.
    leg_minutes: int
    maximum_peak: int
    maximum_off_peak: int
    entry_minimum: int
    balance_limit: int


def read(text: str) -> Fares:
    """A table as its text has it. The program's `check` says whether the keys have such values; here nothing does."""
    parsed: Any = tomllib.loads(text)
    fares: Fares = parsed
    return fares
