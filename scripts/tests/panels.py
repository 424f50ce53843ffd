"""The panels of a dashboard of Grafana, as tests read them."""
import json
import pathlib
from collections import Counter
from typing import Any, TypeAlias

Panel: TypeAlias = dict[str, Any]
# How many columns a dashboard has.
COLUMNS = 24


def of(file: pathlib.Path) -> list[Panel]:
    """The panels of a dashboard's file."""
    found: list[Panel] = json.loads(file.read_text())["panels"]
    return found


def targets(panels: list[Panel], kind: str) -> dict[str, list[dict[str, Any]]]:
    """The titles of the panels of a kind of data source, with their queries."""
    return {panel["title"]: panel["targets"] for panel in panels if panel.get("datasource", {}).get("type") == kind}


def faults(panels: list[Panel]) -> list[str]:
    """What is wrong with the panels' numbers, places and data sources."""
    cells = Counter((x, y) for panel in panels for at in [panel["gridPos"]]
                    for x in range(at["x"], at["x"] + at["w"]) for y in range(at["y"], at["y"] + at["h"]))
    numbers = Counter(panel["id"] for panel in panels)
    return [*(f"{count} panels have the id {number}" for number, count in numbers.items() if count > 1),
            *(f"{count} panels are at {cell}" for cell, count in cells.items() if count > 1),
            *(f"a panel is at column {x}" for x, _ in cells if x >= COLUMNS),
            *(f"{panel['title']} asks another data source" for panel in panels for target in panel.get("targets", ())
              if target["datasource"] != panel["datasource"])]
