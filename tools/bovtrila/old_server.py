# SPDX-License-Identifier: Apache-2.0
"""The server of the old journal in a change to a new one: how it is watched and stopped, and how it runs again if a later
step fails. For bovtrila-next-journal.
"""
import argparse
import contextlib
import fcntl
import pathlib
import signal
import subprocess
import time
from collections.abc import Iterator
from types import FrameType
from typing import TYPE_CHECKING, BinaryIO, NoReturn

from bovtrila import journal_tail, serving, settings
from bovtrila.wire import Wrong

if TYPE_CHECKING:
    from bovtrila import handover

PAGES = "OPERATING.md, \"A full journal\""
# What work that isn't finished leaves in its folder, if a server was stopped for it.
STOPPED = "stopped"


class Ending:
    """What a signal does that ends this run: the step that is under way fails, and the server runs again."""

    def __init__(self) -> None:
        # Whether an end is delayed, and the signal that came, or 0.
        self.is_held, self.came = False, 0

    def watch(self) -> None:
        for number in (signal.SIGTERM, signal.SIGINT, signal.SIGHUP):
            signal.signal(number, self)

    def __call__(self, number: int, _: FrameType | None) -> None:
        self.came = number
        if not self.is_held:
            self.fail()

    def fail(self) -> NoReturn:
        raise Wrong(f"this run was ended by {signal.Signals(self.came).name}")

    @contextlib.contextmanager
    def held(self) -> Iterator[None]:
        """Delays the end while a command runs that has to end by itself."""
        was, self.is_held = self.is_held, True
        try:
            yield
        finally:
            self.is_held = was
        if self.came and not self.is_held:
            self.fail()

    def ignore(self) -> None:
        """Ends nothing any more: the server is being started again."""
        self.is_held = True


ENDING = Ending()


def by_shell(command: str) -> int:
    """The status of a command, which runs to its end."""
    with ENDING.held():
        return subprocess.run(["sh", "-c", command], stdin=subprocess.DEVNULL).returncode


def touches_of(journal: pathlib.Path) -> tuple[int, int]:
    """How many touches a journal has, and how many it has room for in all."""
    tail = journal_tail.Tail(journal)
    tail.read()
    return tail.touches, tail.capacity


def locked(journal: pathlib.Path, patience: float) -> BinaryIO | None:
    """The file of a journal, with its lock, or nothing if a server or another run has the lock for so long."""
    file, limit = open(journal, "rb"), time.monotonic() + patience
    while True:
        try:
            fcntl.flock(file, fcntl.LOCK_EX | fcntl.LOCK_NB)
            return file
        except BlockingIOError:
            if time.monotonic() > limit:
                file.close()
                return None
            time.sleep(0.1)


def start(asked: argparse.Namespace, journal: pathlib.Path, words: settings.Words) -> str | None:
    """Starts the server of a journal if none has it: what is wrong, or nothing once it answers."""
    if not serving.has_server(journal) and by_shell(asked.start):
        return f"'{asked.start}' failed, so no server has {journal.name}"
    limit = time.monotonic() + asked.patience
    while serving.front_of(words) is None:
        if time.monotonic() > limit:
            return f"the server of {journal.name} at {words['listen']} doesn't answer"
        time.sleep(0.1)
    return None


class OldServer:
    """The server of the old journal."""

    def __init__(self, asked: argparse.Namespace, work: "handover.Work", journal: pathlib.Path,
                 words: settings.Words) -> None:
        self.asked, self.work, self.journal, self.words = asked, work, journal, words
        self.listen = words["listen"]
        # How many touches it has shown last, and the journal with its lock, once it is stopped.
        self.front: int | None = None
        self.lock: BinaryIO | None = None

    def now(self) -> int:
        """How many touches it has. An unattended run changes no server that doesn't answer: somebody may have stopped
        it."""
        front = serving.front_of(self.words)
        if front is None:
            raise Wrong(f"no server answers at {self.listen}, or all its connection slots are taken: start it, or raise "
                        "`lines`. Nothing was changed")
        return front

    def wait_for_quiet(self, limit: float) -> str:
        """Waits until no touch has come for some time. By then each gate that reaches the server has its answers."""
        while True:
            front, since = self.now(), time.monotonic()
            while self.now() == front:
                if time.monotonic() - since >= self.asked.watch:
                    self.front = front
                    return f"the server has {front} touches, and for {self.asked.watch} s none came"
                time.sleep(min(1, self.asked.watch))
            self.check_time(limit)

    def check_time(self, limit: float) -> None:
        if time.monotonic() > limit:
            raise Wrong(f"for {self.asked.within} s there were never {self.asked.watch} s without a touch: choose another "
                        "hour. Nothing was changed")

    def look(self) -> str:
        """Checks that no touch comes, as somebody has confirmed."""
        self.front = serving.front_of(self.words)
        if self.front is None:
            return "no server answers: nothing can come"
        time.sleep(self.asked.watch)
        again = serving.front_of(self.words)
        if again is not None and again != self.front:
            raise Wrong(f"{again - self.front} touches came within {self.asked.watch} s: wait until each gate has its "
                        f"answers ({PAGES})")
        return f"the server has {self.front} touches, and for {self.asked.watch} s none came"

    def stop(self) -> None:
        """Stops it. From then on this run has the journal's lock, so that no server is started with the journal."""
        if self.asked.stop:
            if serving.has_server(self.journal):
                self.work.write(STOPPED, "")
            if by_shell(self.asked.stop):
                raise Wrong(f"'{self.asked.stop}' failed: stop the server, and name --stop ''")
        self.lock = locked(self.journal, self.asked.patience if self.asked.stop else 1)
        if self.lock is None:
            raise Wrong(f"a server has {self.journal}: stop it, and give the same command again")
        touches, _ = touches_of(self.journal)
        if self.front is not None and touches > self.front:
            raise Wrong(f"{touches - self.front} touches came while the server was being stopped, and their gates may "
                        "lack the answers: run this again")

    def is_stopped(self) -> bool:
        return self.work.has(STOPPED)

    def forget(self) -> None:
        """Its time is over: nothing has to be started again."""
        (self.work / STOPPED).unlink(missing_ok=True)

    def back(self) -> str:
        """Lets it run again: what was done, in words."""
        if self.lock is not None:
            self.lock.close()
        wrong = start(self.asked, self.journal, self.words)
        if wrong:
            return f"and {wrong}: start it by hand"
        self.forget()
        return f"the server runs on {self.journal.name} again"

    def take_back(self, new: pathlib.Path, sent: int) -> str:
        """Puts the old settings back after the new server was to be started, and lets the old one run again. A new
        journal that has touches of gates stays: what was answered counts."""
        by_shell(self.asked.stop)
        lock = locked(new, self.asked.patience)
        if lock is None:
            return f"and a server has {new.name}, which '{self.asked.stop}' doesn't stop: stop it by hand"
        with lock:
            touches, _ = touches_of(new)
            if touches <= sent:
                config = self.asked.config
                serving.write(config, settings.written(self.words, settings.text_of(config)))
                return self.back()
        wrong = start(self.asked, new, self.words)
        return (f"{new.name} has {touches - sent} touches of gates already, so the server stays on it"
                + (f", and {wrong}: start it by hand" if wrong else ""))
