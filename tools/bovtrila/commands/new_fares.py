# SPDX-License-Identifier: Apache-2.0
"""Gives a station new fares from a fare day on: the steps of "New fares" in OPERATING.md.

FILE is the new fare table, and --from its first fare day. The server of this machine continues until everything was
tried. Each step reports what it does. The first step that fails ends the run with status 1, and reports what to do.

    1  the table is checked; a note on it is a fault, unless --with-notes is there
    2  it is compared with the table in force until that day, and the changes are shown
    3  the revision is rehearsed, by a server with the new table, on a copy of the journal and on a free port
    4  the script asks whether to continue, unless --yes is there
    5  the file is copied to the server's folder, and belongs to the server's user
    6  the server's settings get a line for the table, and the server is restarted. If no answer comes, the settings are
       put back, and the server is restarted with them
    7  the revision is sent. Once it is accepted it can't be taken back

Nothing is changed before step 5. If a run is cut off at any step, by a loss of power too, run the same command again:
it does what is left. If the fares are revised already, the script reports that and changes nothing. With --dry-run it
ends after the rehearsal.

If the server has a door, the door has to let the revision through. With `proxy = yes` in the settings the script sends it
under the certificate's name back-office, or the name of --as; without it the rule * counts.

Never change the file later: the journal identifies it by its bytes. A server that shares its disk with a spare computer
(`standby`) is refused: OPERATING.md has the steps by hand.

The status is 0 if the fares are revised, or could be; 1 if something was refused or failed; and 2 for a wrong command
line.

    bovtrila-new-fares prices-2026.toml --from 2026-01-05 --dry-run
    bovtrila-new-fares prices-2026.toml --from 2026-01-05
    bovtrila-new-fares prices-2026.toml --from 2026-01-05 --yes --name alder-1
"""
import argparse
import contextlib
import datetime
import fcntl
import os
import pathlib
import subprocess
import sys
import time
from collections.abc import Callable, Iterator, Sequence

from bovtrila import fare_changes, places, proxied, rehearsal, serving, settings, wire
from bovtrila.day_charts import clock
from bovtrila.wire import Wrong

# How many seconds a server may take until it answers.
PATIENCE = 60
UNKNOWN = "unknown table"


def date(text: str) -> datetime.date:
    try:
        return datetime.date.fromisoformat(text)
    except ValueError:
        raise argparse.ArgumentTypeError(f"'{text}' is no day, as 2026-01-05") from None


def options() -> argparse.Namespace:
    parser = argparse.ArgumentParser(description=__doc__, formatter_class=argparse.RawTextHelpFormatter)
    parser.add_argument("table", metavar="FILE", type=pathlib.Path, help="the new fare table")
    parser.add_argument("--from", metavar="DATE", dest="first", type=date, required=True,
                        help="its first fare day, as 2026-01-05")
    parser.add_argument("--dry-run", action="store_true", help="change nothing, and end after the rehearsal")
    parser.add_argument("--yes", action="store_true", help="don't ask")
    parser.add_argument("--far", action="store_true", help=f"accept a day more than {fare_changes.FAR} days ahead")
    parser.add_argument("--with-notes", action="store_true", help="accept a table on which `check` has notes")
    parser.add_argument("--gate", metavar="N", type=serving.whole(0, 65_535), default=65_535,
                        help="the gate number of the revision, which no gate of the station has (65535)")
    parser.add_argument("--number", metavar="N", type=serving.whole(0, 2**32 - 1),
                        help="the revision's number (that of the day)")
    parser.add_argument("--as", metavar="NAME", dest="certificate", type=proxied.certificate, default="back-office",
                        help="the certificate's name whose rule of the door counts, if the settings have\n"
                        "`proxy` (back-office)")
    parser.add_argument("--name", metavar="NAME", help="the server's name, if it is one of several")
    parser.add_argument("--folder", metavar="FOLDER", help="the server's folder (/var/lib/bovtrila)")
    parser.add_argument("--config", metavar="FILE", help="the server's settings (/etc/bovtrila/serve.conf)")
    parser.add_argument("--user", help="the server's user, if root starts this (bovtrila)")
    parser.add_argument("--restart", metavar="COMMAND", help="restarts the server (systemctl restart of its unit)")
    parser.add_argument("--program", metavar="FILE", help="the program, if the script doesn't find it")
    asked = parser.parse_args()
    unit = f"bovtrila@{asked.name}" if asked.name else "bovtrila"
    asked.restart = f"systemctl restart {unit}" if asked.restart is None else asked.restart
    asked.folder = serving.folder_of(asked.folder, asked.name)
    asked.config = serving.config_of(asked.config, asked.name)
    return asked


def told(text: str) -> None:
    """Prints what a step did."""
    print("".join(f"          {line}\n" for line in text.splitlines()), end="", flush=True)


class Fares:
    """The new table, the server that gets it, and the steps."""

    def __init__(self, asked: argparse.Namespace) -> None:
        self.asked, self.program, self.owner = asked, serving.program(asked.program), serving.Owner(asked.user)
        self.folder, self.config = pathlib.Path(asked.folder), pathlib.Path(asked.config)
        self.words = settings.words_of(self.config)
        self.journal = self.folder / self.words["journal"]
        try:
            self.content: bytes = asked.table.read_bytes()
        except OSError as error:
            raise Wrong(f"{asked.table}: {error.strerror}; name the file of a fare table") from None
        self.named = self.named_already()
        self.name = self.named or asked.table.name
        fault = settings.refusal(settings.REVISED, self.name)
        if fault:
            raise Wrong(f"{asked.table}: {fault}")
        self.place = self.folder / self.name
        if self.place.exists() and self.place.read_bytes() != self.content:
            raise Wrong(f"{self.place} is there already, and is another table: give {asked.table} another name")
        if "--standby" in self.words.flags:
            raise Wrong(f"{self.config} has standby = yes: the other computer would take over while this server is "
                        "started again; OPERATING.md, \"New fares by hand\", has the steps for both")

    def named_already(self) -> str | None:
        """The name by which the settings name this very table already, as a run that was cut off leaves it."""
        for name in self.words.tables():
            path = self.folder / name
            if path.exists() and path.read_bytes() == self.content:
                return name
        return None

    def following(self) -> settings.Words:
        """The settings with the new table among them."""
        words = self.words.copy()
        if self.named is None:
            words.revised.append(self.name)
        return words

    # The steps, in their order.

    def check(self) -> str:
        """Checks the table."""
        status, out, err = serving.run([self.program, "check", "--strict", "--table", self.asked.table])
        if status and not out.startswith("fault") and not err.startswith("fault") and self.asked.with_notes:
            status = 0
        if status:
            raise Wrong(f"{self.asked.table} isn't as it has to be; mend it:\n{out}{err}".rstrip())
        notes = "".join(f"\n{line}" for line in err.splitlines() if line.startswith("note:"))
        return f"{self.asked.table}: {', '.join(out.split(chr(10))[:3])}{notes}"

    def revisions(self) -> list[tuple[str, str]]:
        """The days and digests of the journal's accepted revisions, oldest first."""
        words = ["--table", self.words["table"], "--journal", self.journal, *self.words.revised]
        found: list[tuple[str, str]] = []
        with subprocess.Popen([self.program, "history", *map(str, words)], cwd=self.folder, text=True,
                              stdout=subprocess.PIPE, stderr=subprocess.PIPE) as history:
            assert history.stdout and history.stderr  # they are pipes
            for line in history.stdout:
                if ",revision," in line and ",Revised," in line:
                    _, _, day, _, _, _, _, digest, *_ = line.split(",")
                    found.append((day, digest))
            said = history.stderr.read().strip()
        if history.returncode:
            raise Wrong(f"{self.journal}: history can't be read:\n{said}")
        return found

    def compare(self) -> str:
        """Finds the table in force until the day, and what changes."""
        day, before = self.asked.first.isoformat(), self.words["table"]
        digest = fare_changes.digest_of(self.asked.table)
        files = {fare_changes.digest_of(self.folder / name): name for name in self.words.tables()}
        self.is_done = False
        for other, revised in self.revisions():
            if (other, revised) == (day, digest):
                self.is_done = True
                return f"the fares are revised to {self.name} from {day} on already"
            # A day that the calendar hasn't is a number of days: one in front of it is far in the past.
            if not other.lstrip("-").isdecimal() and not other.startswith("-") and other >= day:
                raise Wrong(f"the fares are revised from {other} on already, to {files[revised]}: name a later day")
            before = files[revised]
        self.against = self.folder / before
        status, out, err = serving.run([self.program, "check", "--against", self.against, self.asked.table])
        if status:
            raise Wrong(f"{self.asked.table} can't follow {before}, which is in force until then:\n{out}{err}".rstrip())
        return (f"{before} is in force until {day}; what changes:\n{out.rstrip()}\n"
                f"{fare_changes.heading(self.revision(), datetime.date.today()).rstrip(':')}")

    def send(self, address: wire.Address) -> tuple[bool, str]:
        """Sends the revision to a server at an address: whether it was accepted, and what it said."""
        host, port = address
        words = [places.command("gate"), f"[{host}]:{port}" if ":" in host else f"{host}:{port}", "--revise",
                 self.asked.table, "--from", self.asked.first, "--against", self.against, "--program", self.program,
                 "--yes", "--far", "--gate", self.asked.gate, "--tries", "6"]
        if self.asked.number is not None:
            words += ["--number", self.asked.number]
        if "--proxy" in self.words.flags:
            words += ["--proxy", self.asked.certificate]
        status, out, err = serving.run(words)
        return status == 0, out.partition("  ")[2].strip() or [*err.splitlines(), ""][-2].strip()

    def rehearse(self) -> str:
        """Sends the revision to a server that nobody else reaches."""
        words = self.following()
        tables = {} if self.named else {self.name: self.asked.table}
        try:
            with rehearsal.rehearsed(self.program, words, self.folder, self.owner, tables) as server:
                is_good, said = self.send(server.address)
        except Wrong as wrong:
            raise Wrong(f"a server with {self.name} would be refused; nothing was changed:\n{wrong}") from None
        if not is_good:
            raise Wrong(f"the server would refuse the revision; nothing was changed:\n{said}")
        if self.named is None and serving.front_of(self.words) is None:
            raise Wrong(f"no server answers at {self.words['listen']}: start it, or see that one of its lines is free, "
                        "and give the same command again; nothing was changed")
        return f"a server with it, on a copy of the journal, said: {said}"

    def revision(self) -> argparse.Namespace:
        """The revision, as fare_changes shows it and asks for it."""
        return argparse.Namespace(revise=self.name, first=self.asked.first, yes=self.asked.yes, far=self.asked.far)

    def agree(self) -> str:
        """Asks whether the revision shall be sent."""
        fare_changes.ask(self.revision(), datetime.date.today())
        return "agreed"

    def install(self) -> str:
        """Puts the file into its place, as its owner's."""
        if self.place.exists():
            self.owner.take(self.place, 0o640)
        else:
            serving.write(self.place, self.content, 0o640, self.owner.ids)
        return f"{self.place}, read by the server's user and group"

    def restart(self) -> str:
        """Lets the server know the table: unless it does, it is started again with one more line of settings."""
        if self.named is not None and self.knows():
            return "the running server knows it already"
        before, words = settings.text_of(self.config), self.following()
        serving.write(self.config, settings.written(words, before))
        reason = self.begin()
        if reason is None:
            return f"{self.config} has a line 'revised = {self.name}', and the server answers"
        raise Wrong(f"with {self.name} the server {reason}; {self.put_back(before)}")

    def put_back(self, before: str) -> str:
        """Starts the server again as it was before, unless the journal needs the table: what came of it."""
        without = self.words.copy()
        if self.name in without.revised:
            # A run that was cut off has left the line.
            without.revised.remove(self.name)
            before = settings.written(without, before)
        try:
            with rehearsal.rehearsed(self.program, without, self.folder, self.owner):
                pass
        except Wrong as wrong:
            return f"without it the server would be refused too:\n{wrong}"
        serving.write(self.config, before)
        again = self.begin()
        return "it runs again without it" if again is None else f"without it the server {again}"

    def begin(self) -> str | None:
        """Starts the server again: why it doesn't answer, or nothing."""
        status = subprocess.run(["sh", "-c", self.asked.restart], stdin=subprocess.DEVNULL).returncode
        if status:
            return f"wasn't started: '{self.asked.restart}' ended with status {status}"
        limit = time.monotonic() + PATIENCE
        while not serving.has_server(self.journal) or serving.front_of(self.words) is None:
            if time.monotonic() > limit:
                return f"didn't answer at {self.words['listen']} for {PATIENCE} seconds"
            time.sleep(0.1)
        return None

    def knows(self) -> bool:
        """Whether the running server knows the table. The revision is sent to it, so it may be accepted by this."""
        if serving.front_of(self.words) is None:
            return False
        return UNKNOWN not in self.send(serving.reached_at(self.words["listen"]))[1]

    def revise(self) -> str:
        """Sends the revision to the server."""
        is_good, said = self.send(serving.reached_at(self.words["listen"]))
        if not is_good:
            raise Wrong(f"the server didn't accept the revision. {self.name} stays among the settings, since the journal "
                        f"may name it. {said}")
        return f"{said}\nfrom {self.asked.first:%A} {self.asked.first} at {clock(0)} on {self.name} counts"

    STEPS: Sequence[tuple[str, Callable[["Fares"], str]]] = (
        ("the table", check), ("what changes", compare), ("a rehearsal", rehearse), ("your word", agree),
        ("the file", install), ("the server", restart), ("the revision", revise))

    def run(self) -> None:
        for number, (name, step) in enumerate(self.STEPS, 1):
            if number == 4 and self.asked.dry_run:
                return told("next: the same command without --dry-run\nNothing was changed.")
            print(f"step {number} of 7, {name} ..", flush=True)
            told(step(self))
            if number == 2 and self.is_done:
                return None
        return None


@contextlib.contextmanager
def alone(folder: pathlib.Path) -> Iterator[None]:
    """Sees to it that no other run is at work in the folder."""
    held = os.open(folder, os.O_RDONLY)
    try:
        fcntl.flock(held, fcntl.LOCK_EX | fcntl.LOCK_NB)
        yield
    except BlockingIOError:
        raise Wrong(f"{folder}: another run is at work there") from None
    finally:
        os.close(held)


def main() -> None:
    asked = options()
    try:
        with alone(asked.folder):
            Fares(asked).run()
    except Wrong as wrong:
        sys.exit(f"new-fares: {wrong}")
    except OSError as error:
        sys.exit(f"new-fares: {error.filename or asked.folder}: {error.strerror or error}")
    except KeyboardInterrupt:
        sys.exit(130)
