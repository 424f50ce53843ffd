# SPDX-License-Identifier: Apache-2.0
"""Replaces a server's journal with a copy, and starts the server on it.

COPY is a copy made by bovtrila-keep-copies, or one that bovtrila-send-copy sent to another computer. The script first
checks everything, while the server may continue. The first step that fails ends the run with status 1 and a reason.
If that is before step 4, nothing was changed; from step 4 on, the old journal is put back.

    1  the copy is copied beside the journal, with the owner, the mode and the whole size of a journal. It is verified
       with the server's tables, and compared with its seal: the one in the file seals beside it, or that of --sealed
    2  the gates' files that --gate names are compared with it. The script lists the touches that a gate had answers for
       and the copy lacks
    3  the server is stopped
    4  the old journal is renamed to JOURNAL.before-MOMENT, and the copy gets its name
    5  the server is started, and has to answer. If it doesn't, it is started on the old journal again
    6  the seals get a line, so that bovtrila-keep-copies compares the next copy with this one

A copy from before a revision of the fares undoes it. The last lines name each revised table of the settings to which
the copy has no revision.

If a run is cut off at any step, by a loss of power too, run the same command again: it continues there. A sound journal
is replaced only with --discard: the touches that the journal has and the copy lacks don't count any more. With
--dry-run steps 1 and 2 are done in a temporary folder, and nothing is changed.

The status is 0 if the server answers on the copy, or if the journal is sound and has all touches of the copy; 3 for the
same if a gate had answers to touches that are missing; 1 if the copy was refused, or the old journal was put back; and
2 for a wrong command line.

    bovtrila-restore /var/lib/bovtrila/copies/station.journal-20260105T033000Z --dry-run
    bovtrila-restore /var/lib/bovtrila/copies/station.journal-20260105T033000Z --gate gate-7.file --gate gate-8.file
    bovtrila-restore station.journal-20260105T033000Z --sealed 4711 DIGEST --name alder-1
    bovtrila-restore /var/lib/bovtrila/station.journal.before-20260106T101500Z --discard
"""
import argparse
import fcntl
import hashlib
import os
import pathlib
import re
import subprocess
import sys
import tempfile
import time
from collections.abc import Callable, Sequence
from typing import BinaryIO, NotRequired, TypedDict

from bovtrila import copies, handover, layout, places, serving
from bovtrila.journal_view import Journal
from bovtrila.wire import Wrong

# How long a server may take to end, or to answer, in seconds, and how much is read at a time.
PATIENCE, PIECE = 60, 1 << 20


class Plan(TypedDict):
    """What a run was begun with: the copy, the moment, and the number (inode) of the old journal, if there was one."""
    copy: str
    moment: str
    new: None
    old: NotRequired[int | None]


def options() -> argparse.Namespace:
    parser = argparse.ArgumentParser(description=__doc__, formatter_class=argparse.RawTextHelpFormatter)
    parser.add_argument("copy", metavar="COPY", type=pathlib.Path, help="the copy that replaces the journal")
    parser.add_argument("--gate", metavar="FILE", action="append", default=[],
                        help="a gate's file, or a copy of it, that is compared with COPY")
    parser.add_argument("--older", metavar="JOURNAL", action="append", default=[],
                        help="a full journal that COPY's journal followed, for --gate; the oldest first")
    parser.add_argument("--sealed", metavar=("N", "DIGEST"), nargs=2,
                        help="the copy's seal, if no file seals is beside it")
    parser.add_argument("--discard", action="store_true", help="replace a sound journal")
    parser.add_argument("--dry-run", action="store_true", help="change nothing, and report what would be done")
    parser.add_argument("--name", metavar="NAME", help="the server's name, if it is one of several")
    parser.add_argument("--folder", metavar="FOLDER", help="the server's folder (/var/lib/bovtrila)")
    parser.add_argument("--config", metavar="FILE", help="the server's settings (/etc/bovtrila/serve.conf)")
    parser.add_argument("--user", help="the server's user, if root starts this (bovtrila)")
    parser.add_argument("--stop", metavar="COMMAND", help="stops the server; '' if you stop it by hand")
    parser.add_argument("--start", metavar="COMMAND", help="starts the server")
    parser.add_argument("--program", metavar="FILE", help="the program, if the script doesn't find it")
    asked = parser.parse_args()
    if asked.sealed and not (re.fullmatch(r"\d{1,7}", asked.sealed[0], re.ASCII)
                             and re.fullmatch("[0-9a-fA-F]{64}", asked.sealed[1])):
        parser.error("--sealed has a number of touches and 64 hexadecimal digits")
    unit = f"bovtrila@{asked.name}" if asked.name else "bovtrila"
    asked.stop = f"systemctl stop {unit}" if asked.stop is None else asked.stop
    # A unit that has failed too often isn't started before that is forgotten.
    asked.start = (f"systemctl reset-failed {unit} 2>/dev/null; systemctl start {unit}" if asked.start is None
                   else asked.start)
    asked.folder = serving.folder_of(asked.folder, asked.name)
    asked.config = serving.config_of(asked.config, asked.name)
    asked.copy = asked.copy.absolute()
    return asked


def told(text: str) -> None:
    print(text, flush=True)


def by_shell(command: str) -> int:
    """The status of a command."""
    return subprocess.run(["sh", "-c", command], stdin=subprocess.DEVNULL).returncode


def alike(one: pathlib.Path, other: pathlib.Path, touches: int) -> int:
    """How many of so many touches two journals have alike, from the front on."""
    at, end = 0, copies.whole(layout.HEADER + layout.SLOT * touches)
    with open(one, "rb") as first, open(other, "rb") as second:
        while at < end:
            piece, there = first.read(min(PIECE, end - at)), second.read(min(PIECE, end - at))
            if piece != there or not piece:
                same = next((place for place, (a, b) in enumerate(zip(piece, there)) if a != b),
                            min(len(piece), len(there)))
                return max(0, copies.whole(at + same) - layout.HEADER) // layout.SLOT
            at += len(piece)
    return touches


class Restoring:
    """The steps, from a copy to a server that answers on it."""

    def __init__(self, asked: argparse.Namespace, folder: pathlib.Path) -> None:
        self.asked, self.program = asked, serving.program(asked.program)
        self.owner, self.words = serving.Owner(asked.user), serving.words_of(asked.config)
        self.journal: pathlib.Path = asked.folder / self.words["journal"]
        self.kept: pathlib.Path = asked.folder / "copies"
        self.work, self.lacking = handover.Work(folder, self.owner), 0
        self.lock: BinaryIO | None = None
        self.staged = self.work / "journal"
        if not asked.copy.is_file():
            raise Wrong(f"{asked.copy}: no such file; name a copy of {self.words['journal']}")
        if self.journal.exists() and asked.copy.samefile(self.journal):
            raise Wrong(f"{asked.copy}: this is the server's journal; name a copy of it")
        # The old journal of an earlier run has the name JOURNAL.before-MOMENT.
        name = copies.journal_of(asked.copy)
        if name is not None and name.removesuffix(".before") != self.journal.name:
            raise Wrong(f"{asked.copy}: this is a copy of {name.removesuffix('.before')}, and {asked.config} names "
                        f"{self.words['journal']}; name a copy of {self.words['journal']}. To go back to the other "
                        "journal, first write its settings (journal, table, cards, capacity) to that file")
        for table in self.words.tables():
            if not (asked.folder / table).is_file():
                raise Wrong(f"{asked.folder / table}: there is no such file, and {asked.config} names it as a fare table; "
                            "put the table there first")
        copies.seals(self.kept)

    def verify(self, path: pathlib.Path, *more: object) -> tuple[bool, dict[str, str], str]:
        """Whether a journal is sound, what verify says of it by its lines' names, and its fault."""
        words = [self.program, "verify", "--journal", path, "--table", self.words["table"], *more, *self.words.revised]
        status, out, err = serving.run(words, cwd=self.asked.folder)
        # The fault's next line names the file, which is a copy of the copy at times.
        faults = [line for line in err.splitlines() if line.startswith("fault ")]
        said = faults[0] if faults else " ".join((err or out).split())
        return status == 0, dict(line.partition(" ")[::2] for line in out.splitlines()), said

    def seal(self) -> tuple[Sequence[object] | None, str | None]:
        """The copy's seal as arguments of verify, and where it is from."""
        if self.asked.sealed:
            return self.asked.sealed, "--sealed"
        folder = self.asked.copy.parent
        found = [seal for seal in copies.seals(folder) if seal[1] == self.asked.copy.name]
        return (found[-1][2:], f"{folder / copies.SEALS}") if found else (None, None)

    # The steps, in their order.

    def stage(self) -> str:
        """Copies the copy to where it is renamed from, and verifies that."""
        size = copies.whole(self.asked.copy.stat().st_size)
        with open(self.asked.copy, "rb") as reading, open(self.staged, "wb") as writing:
            header = reading.read(layout.HEADER)
            if len(header) < layout.HEADER or header[0] != layout.MARK or header[1:9] != layout.VERSION:
                raise Wrong(f"{self.asked.copy}: this is no journal of today's format")
            capacity = int.from_bytes(header[9:13], "big")
            whole = layout.HEADER + layout.SLOT * capacity + 1
            if not 1 <= capacity <= 1_000_000:
                raise Wrong(f"{self.asked.copy}: its header has a capacity of {capacity}, which can't be")
            writing.write(header)
            left = min(size, whole) - layout.HEADER
            while left > 0 and (piece := reading.read(min(PIECE, left))):
                writing.write(piece)
                left -= len(piece)
            writing.flush()
            # A dry run needs no room for what the journal will hold.
            if self.asked.dry_run:
                writing.truncate(whole)
            else:
                os.posix_fallocate(writing.fileno(), 0, whole)
            os.fsync(writing.fileno())
        self.owner.take(self.staged, 0o640)
        seal, where = self.seal()
        is_sound, lines, said = self.verify(self.staged, "--seal", *(("--sealed", *seal) if seal else ()))
        if not is_sound:
            raise Wrong(f"{self.asked.copy}: {said}{f'; its seal is from {where}' if seal else ''}")
        if lines["cards"] != self.words["cards"]:
            raise Wrong(f"{self.asked.copy}: it is of {lines['cards']} cards, and {self.asked.config} names "
                        f"{self.words['cards']}")
        self.touches, self.sealed = int(lines["touches"]), lines["sealed"]
        against = (f"as it was sealed ({where})" if seal
                   else "without a seal: nothing says that its bytes are as they were")
        return f"{self.asked.copy.name} is sound, {against}: {self.touches} touches, {whole} bytes"

    def look(self) -> tuple[str, bool]:
        """What is in the copy's place. Nothing has to be done where it is sound and has all that the copy has."""
        if not self.journal.exists():
            return f"there is no {self.journal}", True
        is_sound, lines, said = self.verify(self.journal)
        if not is_sound:
            return f"{self.journal.name} isn't sound: {said}", True
        count, same = int(lines["touches"]), alike(self.staged, self.journal, self.touches)
        first, there = ((copies.beginning(path) or b"")[layout.HEADER:] for path in (self.staged, self.journal))
        if first and there and first != there:
            raise Wrong(f"{self.asked.copy}: this is a copy of another journal: its first touch isn't that of "
                        f"{self.journal}, which is sound and has {count} touches. Name a copy of this journal; to "
                        "replace it all the same, rename it first")
        has = f"{self.journal.name} is sound, with {count} touches; the first {same} are those of the copy"
        if same == count < self.touches:
            has = (f"{self.journal.name} is sound; the copy has all {count} touches of the journal and "
                   f"{self.touches - count} more")
            if not self.asked.discard:
                raise Wrong(f"{has}. To replace the journal, say --discard: none of its touches is lost")
            return f"{has}; none is lost", True
        if self.asked.discard:
            return f"{has}, and {count - same} are discarded", True
        if same == self.touches:
            return f"{has}: nothing has to be restored", False
        raise Wrong(f"{has}. To replace it all the same, and lose the {count - same} others, say --discard")

    def compare(self) -> str:
        """Compares the gates' files with the copy, and lists what the copy lacks."""
        for file in self.asked.gate:
            words = [places.command("compare-gate"), file, *self.asked.older, self.staged]
            status, out, err = serving.run(words)
            if status == 2:
                raise Wrong(err.strip() or f"compare-gate {file}")
            *lines, last = out.splitlines()
            counts = dict(pair.split(" ") for pair in last.split(", "))
            self.lacking += int(counts["lacks"])
            told(f"          {last}")
            for line in lines:
                told(f"            {line.replace(str(self.staged), self.asked.copy.name)}")
        return (f"{self.lacking} touches that gates had answers for are lacking" if self.asked.gate
                else "no gate's file is named (--gate)")

    def is_placed(self) -> bool:
        """Whether the copy is in the journal's place already, by a run that was cut off."""
        return self.journal.exists() and self.journal.stat().st_ino != self.plan["old"]

    def stop(self) -> str:
        """Stops the server. From then on this run has the lock of the journal, so that no server takes it."""
        if self.asked.stop and by_shell(self.asked.stop):
            raise Wrong(f"'{self.asked.stop}' failed: stop the server, and name --stop ''")
        if not self.journal.exists():
            return "there is no journal that it could have"
        self.lock, limit = open(self.journal, "rb"), time.monotonic() + (PATIENCE if self.asked.stop else 1)
        while True:
            try:
                fcntl.flock(self.lock, fcntl.LOCK_EX | fcntl.LOCK_NB)
                return "it has ended"
            except BlockingIOError:
                if time.monotonic() > limit:
                    raise Wrong(f"a server has {self.journal}: stop it, and give the same command again") from None
                time.sleep(0.1)

    def place(self) -> str:
        """Gives the copy the journal's place. At each moment that has the one or the other."""
        if self.is_placed():
            return "the copy is in its place already"
        if self.journal.exists() and not self.aside.exists():
            os.link(self.journal, self.aside)
            serving.sync(self.asked.folder)
        os.replace(self.staged, self.journal)
        serving.sync(self.asked.folder)
        return f"the old one is {self.aside}" if self.aside.exists() else "there was no old one"

    def start(self) -> str:
        """Starts the server, which has to answer with the touches of the copy. Else all is undone."""
        if self.lock:
            self.lock.close()
        status, limit = by_shell(self.asked.start), time.monotonic() + PATIENCE
        while not status and time.monotonic() < limit:
            front = serving.front_of(self.words) if serving.has_server(self.journal) else None
            if front is not None and front >= self.touches:
                return f"the server at {self.words['listen']} answers, with {front} touches"
            time.sleep(0.1)
        why = f"'{self.asked.start}' failed" if status else f"it doesn't answer within {PATIENCE} seconds"
        raise Wrong(f"the server didn't start on the copy: {why}; its log says more. {self.undo()}")

    def undo(self) -> str:
        """Gives the old journal its place back, and starts the server on it."""
        if self.asked.stop:
            by_shell(self.asked.stop)
        if self.aside.exists():
            os.replace(self.aside, self.journal)
        else:
            self.journal.unlink(missing_ok=True)
        serving.sync(self.asked.folder)
        self.finish()
        if self.plan["old"] is None:
            return "The copy was taken away again"
        return "The old journal has its place back, and the server " + (
            "could not be started on it" if by_shell(self.asked.start) else "was started on it")

    def note(self) -> str:
        """Notes the seal from which the next copies go on. What is sent to another computer begins anew where it isn't
        the copy's."""
        line = f"{self.plan['moment']} {self.journal.name}-{self.plan['moment']} restored {self.sealed}\n"
        path = self.kept / copies.SEALS
        before = path.read_text() if path.exists() else ""
        if line not in before:
            # On a new disk there is no such folder yet.
            self.owner.make(self.kept)
            serving.write(path, before + line, 0o640, self.owner.ids)
        remote = self.asked.folder / copies.REMOTE
        for _, file in copies.kept(remote) if remote.is_dir() else []:
            count = (copies.whole(file.stat().st_size) - layout.HEADER) // layout.SLOT
            if copies.journal_of(file) == self.journal.name and alike(file, self.journal, count) < count:
                file.unlink()
        return f"{path} has the line {line.strip()}"

    def lacked(self, journal: pathlib.Path) -> list[str]:
        """The tables of the settings to which a journal has no revision, each with what to do, as lines."""
        found = Journal(journal)
        found.read()
        there = {found.digest, *(digest for _, digest, _, _ in found.revisions)}
        lines = []
        for name in self.words.revised:
            table = self.asked.folder / name
            if hashlib.sha256(table.read_bytes()).digest() not in there:
                lines += [f"The copy has no revision to {name}, which {self.asked.config} names: these fares don't count.",
                          f"Revise the fares again, from a fare day without touches: bovtrila-new-fares {table} --from DATE"
                          + (f" --name {self.asked.name}" if self.asked.name else "")]
        return lines

    def finish(self) -> None:
        """Takes away what a run that is cut off goes on with, the plan last."""
        self.staged.unlink(missing_ok=True)
        (self.work / "plan.json").unlink(missing_ok=True)

    STEPS: Sequence[tuple[str, Callable[["Restoring"], str]]] = (
        ("the server's end", stop), ("the journal", place), ("the server", start), ("the seals", note))

    def run(self) -> None:
        """Does all steps. Where nothing was begun, nothing is left behind."""
        try:
            self.go_on()
        finally:
            if not self.work.has("plan.json"):
                self.staged.unlink(missing_ok=True)

    def go_on(self) -> None:
        """Does each step. One that was done by a run that was cut off isn't done again."""
        asked = self.asked
        told(f"step 1 of 6, the copy: {self.stage()}")
        was_begun, lacked = self.work.has("plan.json"), self.lacked(self.staged)
        old = self.journal.stat().st_ino if self.journal.exists() else None
        if not was_begun:
            said, goes_on = self.look()
            told(f"          {said}")
            if not goes_on:
                return
        told(f"step 2 of 6, the gates: {self.compare()}")
        if asked.dry_run:
            told(f"step 3 of 6, the server's end: would run '{asked.stop}'\n"
                 f"step 4 of 6, the journal: would put the copy in the place of {self.journal}\n"
                 f"step 5 of 6, the server: would run '{asked.start}'\n"
                 f"step 6 of 6, the seals: would add a line 'restored {self.sealed}' to {self.kept / copies.SEALS}\n"
                 + "".join(f"{line}\n" for line in lacked) + "Nothing was changed.")
            return
        plan: Plan = {"copy": str(asked.copy), "moment": copies.text_of(time.time()), "new": None}
        if not was_begun:
            plan["old"] = old
        self.plan = self.work.plan(plan)
        self.aside = self.journal.with_name(f"{self.journal.name}.before-{self.plan['moment']}")
        for number, (name, step) in enumerate(self.STEPS, 3):
            told(f"step {number} of 6, {name}: {step(self)}")
        self.finish()
        for line in lacked:
            told(line)


def main() -> int:
    asked = options()
    try:
        if asked.dry_run:
            with tempfile.TemporaryDirectory(prefix="restore-") as folder:
                restoring = Restoring(asked, pathlib.Path(folder))
                restoring.run()
        else:
            with handover.at_work(asked.folder / f"restore-{serving.words_of(asked.config)['journal']}",
                                  serving.Owner(asked.user)) as folder:
                restoring = Restoring(asked, folder)
                restoring.run()
    except Wrong as wrong:
        sys.exit(f"restore: {wrong}")
    except OSError as error:
        sys.exit(f"restore: {error.filename or asked.folder}: {error.strerror or error}")
    return 3 if restoring.lacking else 0
