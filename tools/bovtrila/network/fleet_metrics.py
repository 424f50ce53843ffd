# SPDX-License-Identifier: Apache-2.0
"""The metrics of a network's daily work, in files for the textfile collector of Prometheus's node exporter. Each act has a
file, which is written whole. The file also has the values of the servers that failed this time, from earlier runs.
"""
import os
import pathlib
import re
import time
from collections.abc import Iterable, Mapping
from typing import TypeAlias

from bovtrila.network.fleet_file import Fleet

# The metrics of each act: the first one is the moment of a server's last success.
METRICS = {
    "fetch": {"bovtrila_network_fetched_timestamp_seconds": "When the copies of the server's journals were last fetched."},
    "load": {"bovtrila_network_loaded_timestamp_seconds": "When the server's journals were last loaded."},
    "check": {"bovtrila_network_checked_timestamp_seconds": "When the database last had no fault, and was as the server's "
                                                            "journals."},
    "audit": {"bovtrila_network_audited_timestamp_seconds": "When the server's journal was last audited and sound.",
              "bovtrila_network_seal_changed": "1 if the last audit found other touches than those that were sealed "
                                               "before."}}
VALUE = re.compile(r'^(\w+)\{server="([^"]+)",.*\} (\d+)$', re.M)

# The values of metrics, by the metric and the server.
Values: TypeAlias = dict[tuple[str, str], int]


def path_of(fleet: Fleet, act: str) -> pathlib.Path:
    """The file of an act."""
    return fleet.folder / "metrics" / f"bovtrila-network-{act}.prom"


def values(path: pathlib.Path) -> Values:
    """The values that a file has, by the metric and the server. A file that can't be read has none."""
    try:
        return {(name, server): int(number) for name, server, number in VALUE.findall(path.read_text())}
    except (OSError, UnicodeDecodeError):
        return {}


def label(text: str) -> str:
    """The value of a label."""
    return text.replace("\\", r"\\").replace('"', r"\"")


def text_of(fleet: Fleet, act: str, known: Values) -> str:
    """The text of a file: each metric with a line for each server, 0 where nothing is known of it."""
    lines = []
    for name, words in METRICS[act].items():
        lines += [f"# HELP {name} {words}", f"# TYPE {name} gauge"]
        lines += [f'{name}{{server="{server.name}",station="{label(server.station)}"}} {known.get((name, server.name), 0)}'
                  for server in fleet.servers]
    return "".join(f"{line}\n" for line in lines)


def write(fleet: Fleet, act: str, succeeded: Iterable[str], **found: Mapping[str, int]) -> None:
    """Writes the file of an act: the servers that succeeded now, and other metrics with their values by the server."""
    path, known = path_of(fleet, act), values(path_of(fleet, act))
    known.update({(next(iter(METRICS[act])), server): int(time.time()) for server in succeeded})
    known.update({(name, server): value for name, of_servers in found.items() for server, value in of_servers.items()})
    path.parent.mkdir(parents=True, exist_ok=True)
    # The exporter runs as another user. These files name servers and moments alone.
    path.parent.chmod(0o755)
    unfinished = path.with_suffix(".new")
    with open(unfinished, "w", encoding="utf-8") as file:
        file.write(text_of(fleet, act, known))
        file.flush()
        os.fchmod(file.fileno(), 0o644)
        os.fsync(file.fileno())
    unfinished.replace(path)
