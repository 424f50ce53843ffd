# SPDX-License-Identifier: Apache-2.0
"""Copies a server's journal, verifies the copy, compares it with the last seal, and seals it. It removes old copies
after some days. The server continues to run. A systemd timer runs this script once a day
(bovtrila-copies.timer).

Started by root, it continues as the server's user, as in the timer's unit. Therefore runs by hand and runs of the timer
can alternate.

A copy's name has the journal's name and the moment: COPIES/station.journal-20260105T033000Z. Blocks of zeros in it take
no room on the disk. The file COPIES/seals has a line for each seal:

    20260105T033000Z station.journal-20260105T033000Z sealed 4711 DIGEST

The next copy has to begin with the bytes of that seal (AUDIT.md, "A seal"). If something is wrong, standard error
has one of these lines, and then a line with details. In that case nothing is sealed, no old copy is removed, and the
status is 1. A copy that is refused gets the name station.journal-20260105T033000Z.refused:

    fault copy 1 Unread      the journal can't be read, or a copy can't be written
    fault copy 2 Unsound     `verify` refuses the copy
    fault copy 3 Behind 7    7 valid slots follow the copy's end, in a second copy too
    fault copy 4 Cards 500   the journal has 500 cards, and the server's settings name another number
    fault copy 5 Differs     the copy has fewer touches than were sealed, or other bytes
    fault copy 6 Clock       the last seal has a moment in the future, or one more than 31 days ago: nothing was copied

Copies older than --days are removed, but the newest ones of each journal always stay, as many as --keep says. The
status is 0 if all is well, and 2 for a wrong command line.

    bovtrila-keep-copies
    bovtrila-keep-copies --to /mnt/copies --days 90
    bovtrila-keep-copies --name alder-1
    bovtrila-keep-copies --far
"""
import argparse
import fcntl
import os
import pathlib
import sys
import time
from typing import NoReturn

from bovtrila import copies, serving
from bovtrila.wire import Wrong

# How much is read at a time, and is left out of a copy where it is zeros.
PIECE = 64 * 1024
DAY = 86_400
# How far the last seal may lie ahead of the clock and behind it, in seconds.
AHEAD, BEHIND = 3600, 31 * DAY


class Fault(Exception):
    """What isn't as it has to be: the fault's line, and what says more."""

    def __init__(self, line: str, more: str) -> None:
        super().__init__(f"fault copy {line}\n  {more}")


def options() -> argparse.Namespace:
    parser = argparse.ArgumentParser(description=__doc__, formatter_class=argparse.RawTextHelpFormatter)
    parser.add_argument("--config", metavar="FILE", help="the server's settings (/etc/bovtrila/serve.conf)")
    parser.add_argument("--folder", metavar="FOLDER", help="the server's folder (/var/lib/bovtrila)")
    parser.add_argument("--name", metavar="NAME", help="the server's name, if it is one of several")
    parser.add_argument("--to", metavar="COPIES", type=pathlib.Path,
                        help="the folder of the copies (copies/ in --folder)")
    parser.add_argument("--days", metavar="N", type=serving.whole(1, 36_500), default=30,
                        help="after how many days a copy is removed (30)")
    parser.add_argument("--keep", metavar="N", type=serving.whole(1, 10_000), default=7,
                        help="how many of the newest copies always stay (7)")
    parser.add_argument("--far", action="store_true",
                        help="trust this machine's clock, however far the last seal is from now")
    parser.add_argument("--user", help="the server's user, if root starts this (bovtrila)")
    parser.add_argument("--program", metavar="FILE", help="the program, if the script doesn't find it")
    asked = parser.parse_args()
    asked.folder = serving.folder_of(asked.folder, asked.name)
    asked.config = serving.config_of(asked.config, asked.name)
    asked.to = (asked.to or asked.folder / "copies").absolute()
    return asked


def copy(old: pathlib.Path, new: pathlib.Path) -> None:
    """Copies a file from its front on, as it is while a server may write it. Pieces of zeros become holes."""
    with open(old, "rb") as reading, open(new, "wb", opener=lambda name, flags: os.open(name, flags, 0o640)) as writing:
        while piece := reading.read(PIECE):
            if piece.count(0) == len(piece):
                writing.seek(len(piece), os.SEEK_CUR)
            else:
                writing.write(piece)
        writing.truncate()
        writing.flush()
        os.fsync(writing.fileno())


class Copying:
    """A copy of the journal of a server's settings."""

    def __init__(self, asked: argparse.Namespace) -> None:
        self.asked, self.program, self.words = asked, serving.program(asked.program), serving.words_of(asked.config)
        self.journal: pathlib.Path = asked.folder / self.words["journal"]
        self.now, self.to = time.time(), pathlib.Path(asked.to)
        self.moment = copies.text_of(self.now)
        self.copying, self.made = self.to / ".copying", self.to / f"{self.journal.name}-{self.moment}"
        self.refused = self.made.with_name(self.made.name + copies.REFUSED)

    def clock(self) -> None:
        """Whether this machine's clock can be right, by the last seal. One that is ahead would let copies go."""
        found = copies.seals(self.to)
        if not found or self.asked.far:
            return
        last = copies.moment_of(found[-1][0])
        if not self.now - BEHIND <= last <= self.now + AHEAD:
            days = abs(self.now - last) / DAY
            raise Fault("6 Clock", f"{self.to / copies.SEALS}: the last seal is of {found[-1][0]}, and this machine's "
                        f"clock shows {self.moment}, {days:.1f} days {'later' if last < self.now else 'earlier'}; "
                        "nothing was copied. Correct the clock, or say --far where it is right")

    def verify(self, *more: object) -> tuple[bool, dict[str, str], str]:
        """The status of a verification of the copy, and its lines."""
        words = [self.program, "verify", "--journal", self.copying, "--table", self.words["table"], *more,
                 *self.words.revised]
        status, out, err = serving.run(words, cwd=self.asked.folder)
        # 3: sound, with more open slots behind the end than crashes leave, which is told of by itself.
        is_sound = status in (0, 3)
        return is_sound, dict(line.partition(" ")[::2] for line in out.splitlines()), " ".join(err.split("\n")).strip()

    def take(self) -> dict[str, str]:
        """Makes a copy under the name .copying, and verifies it: its lines."""
        try:
            for last in (False, True):
                copy(self.journal, self.copying)
                is_sound, lines, said = self.verify("--seal")
                # Touches that came while the file was read leave some; they are gone when the file is read again.
                if is_sound and "behind" not in lines:
                    break
        except OSError as error:
            raise Fault("1 Unread", f"{error.filename or self.journal}: {error.strerror}") from None
        if not is_sound:
            self.refuse("2 Unsound", said)
        # By its last line: "sound, but look behind".
        if "sound," in lines:
            self.refuse(f"3 Behind {lines['behind']}", "AUDIT.md, \"What the lines say\"")
        if lines["cards"] != self.words["cards"]:
            self.refuse(f"4 Cards {lines['cards']}", f"{self.asked.config} names {self.words['cards']}")
        return lines

    def refuse(self, line: str, more: str) -> NoReturn:
        """Gives the copy a name by which it never counts as a good one."""
        os.replace(self.copying, self.refused)
        serving.sync(self.to)
        raise Fault(line, f"{self.refused}: {more}")

    def hold(self) -> None:
        """Compares the copy with the last seal of the same journal."""
        before = [seal for seal in copies.seals(self.to) if copies.journal_of(self.to / seal[1]) == self.journal.name]
        if not before:
            print(f"no seal of {self.journal.name} stands in {self.to / copies.SEALS}: this is the first")
            return
        moment, _, touches, digest = before[-1]
        is_sound, _, said = self.verify("--sealed", touches, digest)
        if not is_sound:
            self.refuse("5 Differs", f"{said}; it was sealed at {moment} with {touches} touches")
        print(f"held against the seal of {moment}: its {touches} touches are as they were")

    def name(self, lines: dict[str, str]) -> None:
        """Gives the copy its name, once it is a good one."""
        os.replace(self.copying, self.made)
        serving.sync(self.to)
        print(f"copied {self.made.name}: {lines['touches']} touches, {512 * self.made.stat().st_blocks} bytes on the "
              "disk")

    def seal(self, lines: dict[str, str]) -> None:
        """Adds the seal to those before it."""
        path = self.to / copies.SEALS
        before = path.read_text() if path.exists() else ""
        serving.write(path, f"{before}{self.moment} {self.made.name} sealed {lines['sealed']}\n", 0o640)
        print(f"sealed {lines['sealed']}")

    def let_go(self) -> None:
        """Removes the copies that are too old, but for the newest of each journal. One from a moment to come is none of
        the newest."""
        found, left = copies.kept(self.to), dict[str | None, list[pathlib.Path]]()
        for moment, path in reversed(found):
            if moment <= self.now:
                left.setdefault(copies.journal_of(path), []).append(path)
        stay = {path for paths in left.values() for path in paths[:self.asked.keep]}
        for moment, path in [*found, *copies.kept(self.to, copies.REFUSED)]:
            if moment < self.now - self.asked.days * DAY and path not in stay:
                path.unlink()
                print(f"removed {path.name}")
        serving.sync(self.to)

    def run(self) -> None:
        self.clock()
        lines = self.take()
        self.hold()
        self.name(lines)
        self.seal(lines)
        self.let_go()


def main() -> None:
    asked = options()
    try:
        serving.Owner(asked.user).work_in(asked.to)
        copying = Copying(asked)
        held = os.open(asked.to, os.O_RDONLY)
        fcntl.flock(held, fcntl.LOCK_EX | fcntl.LOCK_NB)
        copying.run()
    except BlockingIOError:
        sys.exit(f"keep-copies: {asked.to}: another run makes a copy there")
    except (Wrong, OSError) as error:
        said = f"{error.filename or asked.to}: {error.strerror}" if isinstance(error, OSError) else str(error)
        sys.exit(f"keep-copies: {said}")
    except Fault as fault:
        sys.exit(str(fault))
