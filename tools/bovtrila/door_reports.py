# SPDX-License-Identifier: Apache-2.0
"""What a server's door refused, by the lines that the server's unit has in systemd's journal (FAULTS.md, "What a door
refuses"). Debian's python3-systemd reads the journal.
"""
import os
import pathlib
import re
import time
from collections.abc import Mapping
from typing import Any, NamedTuple

from bovtrila.wire import Wrong

try:
    from systemd import journal

    HAS_PACKAGE = True
except ImportError:
    # A server without a door needs no such package.
    HAS_PACKAGE = False

# Why a door refuses, by the word of the line.
REASONS = {
    "kind": "a kind of request that the rule doesn't allow",
    "gate": "a gate number that isn't in the rule",
    "rate": "touches above the rule's rate",
    "ahead": "a moment ahead of the server's clock",
    "reserve": "only reserved places are left",
    "connections": "too many connections",
    "rule": "a connection whose name has no rule",
}
REFUSED = re.compile(rf"not allowed ({'|'.join(REASONS)}) ([0-9]{{1,5}}) ([0-9]{{1,20}}) (.{{1,64}})")
NO_HEADER = "no proxy header: "
# Where systemd's journal has its files: in memory, and on the disk.
FOLDERS = (pathlib.Path("/run/log/journal"), pathlib.Path("/var/log/journal"))
# The files of people's own lines, which aren't needed.
OF_USERS = "user-"
REMEDY = "run the exporter as a user of the group systemd-journal"
# For how many seconds lines are read at once. The next call reads further ones.
SECONDS = 0.5


class Refused(NamedTuple):
    """How many requests or connections a rule refused for a reason; and the last line's gate number (0 for none), name, and
    moment."""

    times: int
    gate: int
    name: str
    moment: float


class Found(NamedTuple):
    """What the lines report: what was refused, by the name of the rule and the reason, and the lines about connections
    without HAProxy's header, with the moment of the last one. A connection without a rule has the name ''."""

    refused: Mapping[tuple[str, str], Refused]
    without_header: int
    last_without: float


NOTHING = Found({}, 0, 0.0)


class Reports:
    """The lines of a server's unit in systemd's journal, or in the files of its journal in a folder."""

    def __init__(self, folder: pathlib.Path | None) -> None:
        self.folder, self.place = folder, f"systemd's journal{'' if folder is None else f' in {folder}'}"
        self.unit: str | None = None
        self.since: float | None = None
        # Why the lines aren't known, and what to do.
        self.trouble: str | None = None
        self.reader: Any = None
        self.found = NOTHING

    def read(self, unit: str, since: float | None = None) -> Found | None:
        """What the lines of a unit report since a moment, or else since the machine's last start; `None` if that isn't
        known, or not yet. It raises nothing, and reads each line once."""
        if (unit, since) != (self.unit, self.since):
            self.unit, self.since, self.reader = unit, since, None
        try:
            if self.reader is None:
                self.reader, self.found = self.opened(unit), NOTHING
            # This notices files that journald has begun or removed.
            self.reader.wait(0)
            is_whole = self.read_on()
        except Exception as error:
            # The caller goes on, whatever the library raises. The next call reads all lines again.
            self.reader = None
            why = getattr(error, "strerror", None) or error
            self.trouble = str(error) if isinstance(error, Wrong) else f"{self.place} can't be read: {why}"
            return None
        self.trouble = None
        return self.found if is_whole else None

    def opened(self, unit: str) -> Any:
        """A reader before the first line of a unit that counts."""
        if not HAS_PACKAGE:
            raise Wrong("python3-systemd isn't there: apt-get install python3-systemd, and start the exporter again")
        check_files(self.folder)
        path = None if self.folder is None else str(self.folder)
        reader = journal.Reader(path=path, converters={"__REALTIME_TIMESTAMP": int})
        reader.seek_tail()
        newest = reader.get_previous()
        if not newest:
            raise Wrong(f"{self.place} has no line that this user may read: {REMEDY}")
        # Only journald writes these fields: nobody else can put a line into the unit's log.
        reader.add_match(_SYSTEMD_UNIT=f"{unit.removesuffix('.service')}.service", _TRANSPORT="stdout")
        if self.since is None:
            # The exporter's unit hides the file from which `this_boot` reads the number of this start.
            reader.add_match(_BOOT_ID=newest["_BOOT_ID"].hex)
            reader.seek_head()
        else:
            reader.seek_realtime(float(self.since))
        return reader

    def read_on(self) -> bool:
        """Reads the lines that are new, for some time: whether these are all."""
        until = time.monotonic() + SECONDS
        while time.monotonic() < until:
            entry = self.reader.get_next()
            if not entry:
                return True
            message, moment = entry.get("MESSAGE"), entry["__REALTIME_TIMESTAMP"] / 1e6
            if isinstance(message, str) and (self.since is None or moment >= self.since):
                self.found = added(self.found, message, moment)
        return False


def check_files(folder: pathlib.Path | None) -> None:
    """Raises `Wrong` if this user may not read a file of systemd's journal: the library would leave it out."""
    for place in FOLDERS if folder is None else (folder,):
        for file in place.rglob("*.journal"):
            if not file.name.startswith(OF_USERS) and not os.access(file, os.R_OK):
                raise Wrong(f"{file}: this user may not read it: {REMEDY}")


def added(found: Found, message: str, moment: float) -> Found:
    """What the lines report with a further one. A line of another form changes nothing."""
    if message.startswith(NO_HEADER):
        return found._replace(without_header=found.without_header + 1, last_without=moment)
    line = REFUSED.fullmatch(message)
    if line is None:
        return found
    reason, name = line[1], line[4]
    # The count of such a line is that of all connections without a rule. It has the name of the last one.
    rule = "" if reason == "rule" else name
    before = found.refused.get((rule, reason))
    times = int(line[3]) + (before.times if before else 0)
    return found._replace(refused={**found.refused, (rule, reason): Refused(times, int(line[2]), name, moment)})
