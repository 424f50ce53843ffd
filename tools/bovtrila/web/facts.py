# SPDX-License-Identifier: Apache-2.0
"""What the page of bovtrila-exporter shows of a server now: what bovtrila-status finds, since when the server has been in
its state, today's touches, the slots of connections in use, and warnings."""
import bisect
import dataclasses
import datetime
import itertools
import pathlib
import re
import shutil
import socket
import subprocess
from collections.abc import Mapping, Sequence
from typing import Any, NamedTuple

from bovtrila import condition, due, overview
from bovtrila.door_reports import Found
from bovtrila.journal_view import STAFF, Journal, Tables, date, utc

# From how many seconds on a gate's last touch is reported as ahead of this machine's clock.
AHEAD = 300
# From which age in seconds on a copy is reported, here and on another computer: as packaging/alerts.yml does.
COPY_AGE, REMOTE_AGE = 86_400, 300
# The states of connections that use a slot (established, and half closed by the gate), in the system's list of connections.
IN_USE = {"01", "08"}
CONNECTIONS = ("/proc/self/net/tcp", "/proc/self/net/tcp6")
# A line of the server's log that says why it ended or records nothing. An indented line after it has the system's message.
REASON = re.compile(r"(?:halted|fault|full) .*")
DAYS = 2 * 86_400


class Since(NamedTuple):
    """From which moment on a server has been in its state. The first state may have begun earlier."""

    moment: float
    is_first: bool

    def __str__(self) -> str:
        if self.is_first:
            return f"since {utc(self.moment)} or earlier: then this program began to watch"
        return f"since {utc(self.moment)}"


class Slots(NamedTuple):
    """The slots of connections: how many there are, if that is known, how many are in use, and how many connections wait."""

    lines: int | None
    busy: int
    waiting: int


class Gate(NamedTuple):
    """A gate's last touch in the journal, in words, and how many seconds it is ahead of this machine's clock."""

    number: int
    last: str
    ahead: float


@dataclasses.dataclass(frozen=True)
class Now:
    """What is known of a server: `found` has the names of `status --json`, and `rows` the lines of `status`."""

    moment: float
    found: Mapping[str, Any]
    rows: Sequence[tuple[str, str]]
    since: Since
    day: str
    today: int | None
    slots: Slots | None
    gates: Sequence[Gate]
    warnings: Sequence[str]
    # The moment at which the journal began with the balances of the journal before it, if it did.
    begun: int | None = None
    # If the server has a door: what that refused today, or why it isn't known.
    refused: Found | None = None
    unread: str | None = None


def connections(files: Sequence[str] = CONNECTIONS) -> list[tuple[int, int, str]]:
    """The TCP connections of this machine: the port at this end, that at the other end, and the state."""
    found = []
    for file in files:
        try:
            rows = pathlib.Path(file).read_text().splitlines()[1:]
        except OSError:
            continue
        for row in rows:
            _, here, there, state, *_ = row.split()
            found.append((int(here.rpartition(":")[2], 16), int(there.rpartition(":")[2], 16), state))
    return found


def slots_of(own: socket.socket, lines: int | None, files: Sequence[str] = CONNECTIONS) -> Slots | None:
    """The slots in use of the server to which this connection leads, or `None` if the server isn't on this machine."""
    try:
        here, port = own.getsockname()[1], own.getpeername()[1]
    except OSError:
        return None
    rows = connections(files)
    if not any(row[:2] == (port, here) for row in rows):
        return None
    count = sum(row[0] == port and row[2] in IN_USE for row in rows)
    busy = count if lines is None else min(count, lines)
    return Slots(lines, busy, count - busy)


def begin_of(tables: Tables, day: int, now: float) -> int:
    """The moment at which a fare day begins that is today's or the next one."""
    first = int(now) - DAYS
    return first + bisect.bisect_left(range(first, first + 2 * DAYS), day, key=tables.day)


def today(journal: Journal, tables: Tables, now: float) -> int:
    """How many touches of cards the journal has of today's fare day. The balances that it began with are none."""
    begin, end = (begin_of(tables, tables.day(now) + more, now) for more in (0, 1))
    return sum(begin <= moment < end for moment in itertools.islice(journal.moments, journal.carried.count, None))


def gates_of(found: Mapping[str, Any], journal: Journal | None, now: float) -> list[Gate]:
    """The gates of the journal, each with its last touch. The staff's gate is none if the journal began with its touches."""
    staff = {STAFF} if journal is not None and journal.carried.count else set()
    return [Gate(touch["gate"], f"number {touch['number']}, {overview.touch_in_words(touch, now)}",
                 datetime.datetime.fromisoformat(touch["moment"]).timestamp() - now)
            for touch in found.get("gates", ()) if touch["gate"] not in staff]


def reason_of(unit: str | None) -> str | None:
    """Why a server is halted or has ended, with the system's message: the last such line of its log, if this user may read
    the log."""
    if unit is None or not shutil.which("journalctl"):
        return None
    words = ["journalctl", "--quiet", "--no-pager", "--unit", unit, "--lines", "100", "--output", "cat"]
    try:
        lines = subprocess.run(words, stdin=subprocess.DEVNULL, capture_output=True, text=True, errors="replace",
                               timeout=2).stdout.splitlines()
    except (OSError, subprocess.TimeoutExpired):
        return None
    places = [place for place, line in enumerate(lines) if REASON.fullmatch(line)]
    if not places:
        return None
    second = lines[places[-1] + 1] if places[-1] + 1 < len(lines) else ""
    return lines[places[-1]] + (f": {second.strip()}" if second.startswith("  ") else "")


def copy_warnings(found: Mapping[str, Any]) -> list[str]:
    """What is wrong with the ages of the copies."""
    said = []
    for key, most, name in (("copy", COPY_AGE, "copy of the journal"), ("seal", COPY_AGE, "seal of the journal"),
                            ("remote_copy", REMOTE_AGE, "copy on another computer")):
        age = found.get(f"{key}_age_seconds", 0)
        if age is None:
            said.append(f"there is no {name}")
        elif age > most:
            said.append(f"the newest {name} is {overview.span(age)} old")
    return said


def warnings_of(found: Mapping[str, Any], gates: Sequence[Gate], slots: Slots | None,
                folder: pathlib.Path | None) -> list[str]:
    """What needs attention, beside a server that takes no touches."""
    said = [str(note) for note in found["notes"]]
    said += [f"the clock of gate {gate.number} is ahead of this machine's clock by {overview.span(gate.ahead)} or more"
             for gate in gates if gate.ahead >= AHEAD]
    said += copy_warnings(found)
    if slots is not None and slots.waiting:
        said.append(f"all {slots.busy} slots of connections are in use, and {slots.waiting} connections wait")
    if folder is not None and (folder / due.FAILED).exists():
        said.append("the last unattended change to a new journal failed: the server runs on the old journal")
    return said


def answered(target: Any, now: float, answer: Mapping[str, Any]) -> dict[str, Any]:
    """What a server answered, by the names of `status --json`."""
    host, port = target.address
    return {**overview.nothing(now), "server": target.unit, "address": f"{f'[{host}]' if ':' in host else host}:{port}",
            "cards_inside": None, "unit": None, **answer}


def now_of(target: Any, journal: Journal | None, tables: Tables, found: dict[str, Any], since: Since, slots: Slots | None,
           folder: pathlib.Path | None, now: float) -> Now:
    """What is known of a server whose answers are in `found`."""
    overview.complete(target, journal, tables, now, found)
    if not found["up"]:
        found["why"] = found["why"] or condition.hindrance(found)
        reason = reason_of(target.unit)
        found["why"] = f"{found['why']}; its log: {reason}" if reason else found["why"]
    gates = gates_of(found, journal, now)
    count = today(journal, tables, now) if journal is not None else None
    return Now(now, found, overview.screen_rows(found, now), since, date(tables.day(now)), count, slots, gates,
               warnings_of(found, gates, slots, folder),
               journal.carried.moment if journal is not None and journal.carried.count else None)
