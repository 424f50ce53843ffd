# SPDX-License-Identifier: Apache-2.0
"""What bovtrila's commands say of a journal, for the scripts that stand above several of them.

It needs nothing but Python and the program, so that a task of it can be sent to another machine.
"""
# A task takes this module along without its types: an annotation is text here, and no class of a TypedDict is called.
from __future__ import annotations

import errno
import hashlib
import os
import pathlib
import re
import shutil
import stat
import subprocess
from collections.abc import Iterable, Mapping
from typing import IO, BinaryIO, TypeAlias, TypedDict, final

from bovtrila import places

# The header of a journal and the slots of its two formats, in bytes; the mark of a slot that counts; where a slot has its
# touch's kind, the kind of a revision, and where its table's digest stands (JOURNAL.md).
HEADER, SLOTS, MARK = 64, {b"OYSTERJ1": 32, b"OYSTERJ2": 64}, b"\xa5"
KIND, REVISION, DIGEST = 1, 6, slice(12, 44)
# How many open slots crashes leave behind a journal's end at most.
BEHIND = 2

# A file's name, an argument of a command, and the files of fare tables by their digests.
Name: TypeAlias = str | pathlib.Path
Word: TypeAlias = str | int | pathlib.Path
Tables: TypeAlias = Mapping[str, str]
# A number of touches, and the digest of their bytes and the header's.
Pair: TypeAlias = tuple[int, str]


class Fault(Exception):
    """The program refused a journal, or failed on it. The text is its fault's line, or how it ended."""


class Sealed(TypedDict):
    """What names the first touches of a journal: how many there are, and their seal."""

    touches: int
    seal: str


class Seal(Sealed):
    """A seal in the report of an audit. `begins` is the digest of the journal's header and first touch; None where the
    journal had no touch, or an older version made the report. `audited` is the moment of the audit."""

    begins: str | None
    audited: str


class Facts(Sealed):
    """What `verify` says of a journal."""

    version: int
    capacity: int
    cards: int
    behind: int
    digest: str


@final
class Sound(Facts):
    """What an audit finds of a sound journal. `behind_seal` is the seal that it matched, if there was one."""

    begins: str | None
    behind_seal: Pair | None
    sums: dict[str, int]


@final
class Unsound(TypedDict):
    """What an audit finds of another journal: the fault's line."""

    fault: str


Finding: TypeAlias = Sound | Unsound


def found(name: str | None = None) -> str:
    """The program: that of this name; in the repository the one on the path, or the repository's; and where these tools
    are installed, that of the package bovtrila, which has the same version."""
    if places.IS_CLONE:
        return name or shutil.which("bovtrila") or str(places.PROGRAM)
    return name or str(places.PROGRAM)


class Inherited(str):
    """The path /dev/fd/N of an open file, which the program inherits."""

    @property
    def descriptor(self) -> int:
        return int(self.rpartition("/")[2])


def said(program: str, *words: Word, output: int | IO[bytes] = subprocess.PIPE) -> tuple[str, str]:
    """What a command wrote on its two outputs; a fault where its status is that of one."""
    inherited = [word.descriptor for word in words if isinstance(word, Inherited)]
    done = subprocess.run([program, *map(str, words)], stdin=subprocess.DEVNULL, stdout=output, stderr=subprocess.PIPE,
                          pass_fds=inherited)
    told = done.stderr.decode(errors="replace")
    # By 3 `verify` says that a journal is sound, and that more than two open slots stand behind its end.
    if done.returncode > 0 and done.returncode != 3:
        line, _, more = told.strip().partition("\n  ")
        # Where the second line only names a file, that is the one that was asked about.
        known = not more or more in map(str, words)
        raise Fault((line if known else f"{line}: {more}") or f"{program} ended with status {done.returncode}")
    if done.returncode < 0:
        raise Fault(f"{program} was ended by signal {-done.returncode}")
    return (done.stdout or b"").decode(), told


def opened(path: Name) -> BinaryIO:
    """A file, opened to be read. A pipe would make the reader wait, and a device may have no end: both are refused at once,
    in the words of FAULTS.md, "The second line"."""
    mode = os.stat(path).st_mode
    if not stat.S_ISREG(mode):
        words = "is a folder" if stat.S_ISDIR(mode) else "is a device or a pipe"
        raise OSError(errno.EINVAL, f"{words}; name a file", str(path))
    return open(path, "rb")


def content_of(path: Name) -> bytes:
    with opened(path) as file:
        return file.read()


def named_tables(journal: Name) -> list[str]:
    """The digests that a journal's file names: that of its first table, and of each revision's, in their order. Of a file
    that is no journal there may be none: the program says what it is."""
    content = content_of(journal)
    size = SLOTS.get(content[1:9])
    if size is None or len(content) < HEADER:
        return []
    marks = content[HEADER::size]
    touches = len(marks) - len(marks.lstrip(MARK))
    kinds = content[HEADER + KIND::size][:touches]
    digests, place = [content[17:49].hex()], kinds.find(REVISION)
    while place >= 0:
        slot = HEADER + size * place
        digests.append(content[slot:slot + size][DIGEST].hex())
        place = kinds.find(REVISION, place + 1)
    return list(dict.fromkeys(digests))


def words_of_tables(journal: Name, tables: Tables) -> list[str]:
    """The words that name a journal's tables, out of these files by their digests. A table that isn't there is left out:
    the program says which touch names it, and of a first one that it is another."""
    files = [tables[digest] for digest in named_tables(journal) if digest in tables]
    return ["--table", *(files or list(tables.values())[:1])]


def by_digest(files: Iterable[Name]) -> dict[str, str]:
    """The files of fare tables, by the digests of their bytes."""
    return {hashlib.sha256(content_of(file)).hexdigest(): str(file) for file in files}


def verified(program: str, journal: Name, tables: Tables, seal: Pair | None = None) -> Facts:
    """What `verify` says of a journal: its lines by their first words, with a seal of all its touches. Where a seal of
    before is given, a number of touches and a digest, the journal has to have it still."""
    words, named = ["verify", "--journal", journal], words_of_tables(journal, tables)
    asked: list[Word] = ["--seal"] if seal is None else ["--sealed", *seal]
    facts = dict(line.partition(" ")[::2] for line in said(program, *words, *asked, *named)[0].splitlines())
    numbers = {name: int(facts.get(name, 0)) for name in ("version", "capacity", "cards", "touches", "behind")}
    # One run gives no more than one seal. The new one is worked out here, as any program can.
    size = SLOTS[b"OYSTERJ%d" % numbers["version"]]
    new = sealed(journal, HEADER + size * numbers["touches"]) if seal else facts["sealed"].split()[1]
    return {"version": numbers["version"], "capacity": numbers["capacity"], "cards": numbers["cards"],
            "touches": numbers["touches"], "behind": numbers["behind"], "digest": facts["digest"], "seal": new}


def open_behind(facts: Facts) -> str:
    """What is said of a journal where more than two open slots stand behind its end."""
    return f"{facts['behind']} open slots behind the end"


def sealed(journal: Name, size: int) -> str:
    """The SHA-256 digest of a file's first bytes, so many."""
    with opened(journal) as file:
        return hashlib.sha256(file.read(size)).hexdigest()


def balanced(program: str, journal: Name, tables: Tables, touches: int) -> dict[str, int]:
    """The sums that `balances` tells after so many touches: cards, balance, paid_in and charged."""
    words = ["balances", "--journal", journal, "--at", touches, *words_of_tables(journal, tables)]
    _, told = said(program, *words, output=subprocess.DEVNULL)
    return {name: int(number) for name, number in re.findall(r"^([a-z_]+) (-?\d+)$", told, re.M)}


def audited(program: str, journal: Name, tables: Tables, server: str, seals: Mapping[str, list[Seal]]) -> Finding:
    """What an audit finds of a server's journal: what it holds, its seal and its sums, or the fault. `seals` has those of
    each server. It raises nothing."""
    try:
        known = known_seal(journal, server, seals)
        before = (known["touches"], known["seal"]) if known else None
        facts = verified(program, journal, tables, before)
        if facts["behind"] > BEHIND:
            return {"fault": open_behind(facts)}
        return {"version": facts["version"], "capacity": facts["capacity"], "cards": facts["cards"],
                "touches": facts["touches"], "behind": facts["behind"], "digest": facts["digest"], "seal": facts["seal"],
                "begins": beginning(journal), "behind_seal": before,
                "sums": balanced(program, journal, tables, facts["touches"])}
    except Fault as fault:
        return {"fault": str(fault)}
    except OSError as error:
        return {"fault": error.strerror}


def known_seal(journal: Name, server: str, seals: Mapping[str, list[Seal]]) -> Seal | None:
    """The seal that a server's journal has to match, or None where none of them is of this journal."""
    of_server = seals.get(server, [])
    matching = [seal for seal in of_server if matches(journal, seal)]
    if matching:
        return max(matching, key=lambda seal: seal["touches"])
    for other, of_other in seals.items():
        for seal in of_other:
            if other != server and seal["touches"] and matches(journal, seal):
                raise Fault(f"it is the journal of {other}, as it was audited on {seal['audited']}")
    # A seal that doesn't match is of this journal where both begin alike: then `verify` says how it was changed.
    first = beginning(journal)
    return next((seal for seal in reversed(of_server) if seal["begins"] in (first, None)), None)


def matches(journal: Name, seal: Sealed) -> bool:
    """Whether a journal's first touches are those of a seal."""
    size = slot_size(journal)
    return size is not None and sealed(journal, HEADER + size * seal["touches"]) == seal["seal"]


def beginning(journal: Name) -> str | None:
    """The digest of a journal's header and its first touch, or None where it has no touch."""
    size = slot_size(journal)
    with opened(journal) as file:
        content = file.read(HEADER + (size or 0))
    if size is None or len(content) < HEADER + size or content[HEADER:HEADER + 1] != MARK:
        return None
    return hashlib.sha256(content).hexdigest()


def slot_size(journal: Name) -> int | None:
    """The bytes of a journal's slots, by its format; None where the file is no journal."""
    with opened(journal) as file:
        return SLOTS.get(file.read(9)[1:])
