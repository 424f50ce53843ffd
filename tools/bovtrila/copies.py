# SPDX-License-Identifier: Apache-2.0
"""The folder of a journal's copies and seals: how its files are named, and how old the newest are."""
import datetime
import math
import pathlib
import re
import time
from collections.abc import Iterable
from typing import NamedTuple

from bovtrila import layout
from bovtrila.wire import Wrong

# A copy's name behind that of its journal: the moment at which it was begun. One that was refused has an ending more.
MOMENT = "%Y%m%dT%H%M%SZ"
NAMED = re.compile(r"(?P<journal>.+)-(?P<moment>\d{8}T\d{6}Z)$")
REFUSED = ".refused"
# The file with a line for each seal: the moment, the copy's name, and the seal as `verify` writes it. A line with
# `restored` in place of `sealed` says that the journal was replaced by that copy, and has its touches from then on.
SEALS = "seals"
# The folder, in that of a server, of what is sent to another computer, and the file there with the last seal that was
# compared.
REMOTE, SENT = "remote", "sent"
SEALED = re.compile(r"(\d{8}T\d{6}Z) (\S+) (?:sealed|restored) (\d{1,7}) ([0-9a-f]{64})")
# A line of that file: how many touches the journal had then, and their digest.
Seal = NamedTuple("Seal", [("moment", str), ("copy", str), ("touches", int), ("digest", str)])


def moment_of(text: str) -> float:
    """The seconds since 1970 of such a moment."""
    year, month, day, hour, minute, second = (
        int(text[at:at + size]) for at, size in ((0, 4), (4, 2), (6, 2), (9, 2), (11, 2), (13, 2)))
    return datetime.datetime(year, month, day, hour, minute, second, tzinfo=datetime.timezone.utc).timestamp()


def text_of(moment: float) -> str:
    """Such a moment in a file's name."""
    return time.strftime(MOMENT, time.gmtime(moment))


def kept(folder: pathlib.Path, ending: str = "") -> list[tuple[float, pathlib.Path]]:
    """The copies of a folder with their moments, the oldest first; with an ending those that have it."""
    found = []
    for path in folder.iterdir():
        match = path.name.endswith(ending) and NAMED.fullmatch(path.name.removesuffix(ending))
        if match and path.is_file():
            try:
                found.append((moment_of(match["moment"]), path))
            except ValueError:
                pass
    return sorted(found)


def journal_of(path: pathlib.Path) -> str | None:
    """The name of the journal that a file is a copy of, by its own name; nothing where it says none."""
    match = NAMED.fullmatch(path.name)
    return match["journal"] if match else None


def whole(size: int) -> int:
    """How many bytes the header and the whole slots are of a file of this size."""
    return size if size < layout.HEADER else layout.HEADER + (size - layout.HEADER) // layout.SLOT * layout.SLOT


def seals(folder: pathlib.Path, name: str = SEALS) -> list[Seal]:
    """The lines of the seals of a folder, the oldest first: moment, copy, number of touches and digest. A file that
    isn't there has none; one that can't be read, or has another line, is `Wrong`."""
    path = folder / name
    try:
        lines = path.read_text().splitlines()
    except FileNotFoundError:
        return []
    except (OSError, UnicodeDecodeError) as error:
        raise Wrong(f"{path}: {getattr(error, 'strerror', None) or error}") from None
    found = []
    for place, line in enumerate(lines, 1):
        match = SEALED.fullmatch(line)
        try:
            if match is None:
                raise ValueError(line)
            moment_of(match[1])
        except ValueError:
            raise Wrong(f"{path}: line {place} is no seal: correct it by what was written down elsewhere") from None
        found.append(Seal(match[1], match[2], int(match[3]), match[4]))
    return found


def beginning(path: str | pathlib.Path) -> bytes | None:
    """The header of a journal or a copy, and the slot of its first touch if it has one; nothing where it has no header
    or can't be read."""
    try:
        with open(path, "rb") as file:
            found = file.read(layout.HEADER + layout.SLOT)
    except OSError:
        return None
    if len(found) < layout.HEADER or found[0] != layout.MARK or found[1:9] not in layout.SLOTS:
        return None
    slot = found[layout.HEADER:layout.HEADER + layout.SLOTS[found[1:9]]]
    return found[:layout.HEADER] + (slot if slot[:1] == bytes([layout.MARK]) else b"")


def is_named(copy: str | pathlib.Path, journal: str | pathlib.Path) -> bool:
    """Whether a copy has the name of a copy of this journal."""
    return journal_of(pathlib.Path(copy)) == pathlib.Path(journal).name


def is_of(copy: pathlib.Path, journal: str | pathlib.Path) -> bool:
    """Whether a copy is one of this journal, by its name and by what both begin with. A copy that was made before the
    journal's first touch counts too. Where the journal can't be read, the name alone decides."""
    there, begins = beginning(journal), beginning(copy)
    return is_named(copy, journal) and (there is None or (begins is not None and there.startswith(begins)))


def ages(folder: pathlib.Path, journal: str | pathlib.Path | None = None) -> tuple[float, float]:
    """How many seconds old the newest copy and the newest seal are, of this journal where one is named; infinite where
    there is none. One from a moment that is still to come, as of a clock that was ahead, isn't counted."""
    now = time.time()
    try:
        made = [moment for moment, path in kept(folder) if journal is None or is_of(path, journal)]
    except OSError:
        made = []
    try:
        sealed = [moment_of(seal.moment) for seal in seals(folder) if journal is None or is_named(seal.copy, journal)]
    except Wrong:
        sealed = []
    return youngest(made, now), youngest(sealed, now)


def youngest(moments: Iterable[float], now: float) -> float:
    """The age of the newest of these moments that has come."""
    return min((now - moment for moment in moments if moment <= now), default=math.inf)


def sent_age(folder: pathlib.Path, journal: str | pathlib.Path | None = None) -> float:
    """How many seconds ago the journal was read whose copy was verified on another computer last, of this journal where
    one is named; infinite where none was."""
    try:
        return youngest([moment_of(seal.moment) for seal in seals(folder, SENT)
                         if journal is None or is_named(seal.copy, journal)], time.time())
    except Wrong:
        return math.inf
