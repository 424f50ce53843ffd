"""A station with a full journal, for tests of bovtrila-next-journal."""
import os
import pathlib
import pwd
import shutil
import subprocess
import tempfile
import time
from collections.abc import Iterable, Mapping, Sequence
from typing import Any, TypeAlias

import harness
from bovtrila import codec, layout, model, serving, wire
from harness import BIN, EXAMPLE, PROGRAM, REVISED, TIME, TOP

# An argument of the script.
Word: TypeAlias = str | pathlib.Path

SCRIPT = TOP / "bin" / "bovtrila-next-journal"
FIRST, PRICES = model.Table(EXAMPLE.read_text()), model.Table(REVISED.read_text())
# How many seconds a run of the script may take, which starts the program a dozen times.
RUN = 10 * TIME
# Monday 2025-01-06 at 08:00 UTC, and 2099-01-05, a day to come.
MORNING, FAR = 1736150400, 47_121
# What each card holds, worked out by docs/reference/FARES.md: card 1 as in the first example; card 2 paid 200 and touched
# out without a touch in, for 900; card 3 was topped up while it was inside; card 4 is inside, after the entry charge of 900
# of 2000.
HELD = {1: 1650, 2: -700, 3: 9550, 4: 1100, 5: 0}
CARRIED = {1: 1650, 2: 0, 3: 9000, 4: 1100, 5: 0}


def touches() -> list[bytes]:
    """The frames of a history that comes to it. The last two are revisions: to the prices from 2025-01-07, and back."""
    acts = [(codec.ISSUE, card, 0) for card in HELD]
    acts += [(codec.TOP_UP, 1, 2000), (codec.ENTER, 1, 2), (codec.LEAVE, 1, 1), (codec.TOP_UP, 2, 200),
             (codec.LEAVE, 2, 1),
             (codec.TOP_UP, 3, 9000), (codec.ENTER, 3, 2), (codec.TOP_UP, 3, 900), (codec.LEAVE, 3, 1),
             (codec.TOP_UP, 4, 2000), (codec.ENTER, 4, 2)]
    frames = []
    for number, (kind, card, value) in enumerate(acts, 1):
        words = [MORNING + number] if kind == codec.ISSUE else [value, MORNING + number]
        frames.append(codec.touch(kind, 7, number, card, *words))
    frames.append(codec.touch(codec.REVISE, 65_535, 20_095, 0, PRICES.digest, 20_095, 0))
    frames.append(codec.touch(codec.REVISE, 65_535, FAR, 0, FIRST.digest, FAR, 0))
    return frames


class Station:
    """A station in a folder, with a full journal of such a history, and how its server is started and stopped."""

    def __init__(self, folder: pathlib.Path, capacity: int | None = None, frames: Sequence[bytes] | None = None,
                 more: Iterable[Word] = (), cards: int = 10) -> None:
        self.folder, self.config, self.pid = folder / "lib", folder / "serve.conf", folder / "pid"
        self.folder.mkdir()
        shutil.copy(EXAMPLE, self.folder / "first.toml")
        shutil.copy(REVISED, self.folder / "prices.toml")
        frames = touches() if frames is None else frames
        self.old = self.folder / "station.journal"
        self.old.write_bytes(layout.journal_of(frames, capacity or len(frames), cards, FIRST.digest))
        self.listen = f"127.0.0.1:{harness.free_port()}"
        self.config.write_text(f"table = first.toml\njournal = station.journal\ncards = {cards}\ncapacity = 9\n"
                               f"listen = {self.listen}\nlines = 4\nrevised = prices.toml\n")
        starter = folder / "start"
        starter.write_text(f"exec >/dev/null 2>&1 </dev/null\nsetsid {BIN}/bovtrila-start --config {self.config} --folder "
                           f"{self.folder} --program {PROGRAM} --user {pwd.getpwuid(os.geteuid()).pw_name} &\n"
                           f"echo $! >{self.pid}\n")
        stopper = f"test ! -e {self.pid} || kill $(cat {self.pid}) 2>/dev/null; rm -f {self.pid}"
        self.words: list[Word] = ["station.journal", "--folder", self.folder, "--config", self.config, "--program", PROGRAM,
                                  "--user", pwd.getpwuid(os.geteuid()).pw_name, "--stop", stopper, "--start",
                                  f"sh {starter}", "--watch", "0", "--journal", "next.journal", "--capacity", "5000", *more]

    def start(self) -> None:
        """Starts the server by the words that are there now, and waits until it answers."""
        subprocess.run(["sh", "-c", self.word_after("--start")], check=True)
        limit = time.monotonic() + TIME
        while serving.front_at(self.listen) is None and time.monotonic() < limit:
            time.sleep(0.02)

    def stop(self) -> None:
        subprocess.run(["sh", "-c", self.word_after("--stop")])

    def ask(self, frame: bytes) -> bytes:
        with wire.Connection(wire.address(self.listen), TIME) as line:
            line.send(frame)
            return line.take()

    def run(self, *more: Word, how: str = "--settled") -> tuple[int, str, str]:
        """Status, standard output and standard error of a run to its end."""
        return self.ended(*self.words, how, *more)

    def alone(self, *more: Word, percent: str = "90%", **options: Any) -> tuple[int, str, str]:
        """The same of a run that nobody attends, without a terminal. Later words count."""
        return self.ended("--when-above", percent, *self.words[1:], *more, stdin=subprocess.DEVNULL,
                          start_new_session=True, **options)

    @staticmethod
    def ended(*words: Word, env: Mapping[str, str] | Iterable[tuple[str, str]] = (), **options: Any) -> tuple[int, str, str]:
        here = {name: value for name, value in os.environ.items() if name != "JOURNAL_STREAM"}
        done = subprocess.run([str(word) for word in (SCRIPT, *words)], capture_output=True, text=True, timeout=RUN,
                              env={**here, **dict(env)}, **options)
        if "Traceback" in done.stderr:
            raise AssertionError(done.stderr)
        return done.returncode, done.stdout, done.stderr

    def word_after(self, option: str) -> str:
        """The argument of an option of the words that are there now."""
        return str(self.words[self.words.index(option) + 1])

    def other_start(self, text: str) -> tuple[str, str]:
        """A command that starts the server, but does this if the settings name the new journal."""
        starter = self.folder.parent / f"start-{abs(hash(text))}"
        start = self.word_after("--start")
        starter.write_text(f"if grep -q next.journal {self.config}; then\n{text}\nelse\n{start}\nfi\n")
        return "--start", f"sh {starter}"

    def other_program(self, text: str) -> tuple[str, pathlib.Path]:
        """The program, but with this in the place of the balances of the new journal: `$*` are its arguments."""
        program = self.folder.parent / "program"
        program.write_text(f'#!/bin/sh\ncase "$*" in\nbalances*new.journal*) {text} ;;\n*) exec {PROGRAM} "$@" ;;\nesac\n')
        program.chmod(0o755)
        return "--program", program

    def tree(self) -> dict[pathlib.Path, bytes]:
        """Each file of the station with its bytes."""
        return {path: path.read_bytes() for path in sorted(self.folder.parent.rglob("*")) if path.is_file()}


class Stations(harness.ProgramTest):
    """Tests with such stations."""

    def setUp(self) -> None:
        room = tempfile.TemporaryDirectory(prefix="full-journals-")
        self.addCleanup(room.cleanup)
        self.room, self.made = pathlib.Path(room.name), 0

    def station(self, **options: Any) -> Station:
        self.made += 1
        (self.room / str(self.made)).mkdir()
        station = Station(self.room / str(self.made), **options)
        self.addCleanup(station.stop)
        return station

    def assert_carried(self, station: Station, count: int = 8) -> None:
        """The server runs on the new journal, in which each card has what was carried."""
        work = station.folder / "after-station.journal"
        self.assertEqual(str(serving.words_of(station.config)), "--table prices.toml --journal next.journal --cards 10 "
                         f"--capacity 5000 --listen {station.listen} --lines 4 first.toml")
        self.assertTrue(serving.has_server(station.folder / "next.journal"))
        for card, pence in CARRIED.items():
            self.assertEqual(wire.in_words(codec.enquiry(card), station.ask(codec.enquiry(card))),
                             f"card {card} outside; balance {pence}, after {count} touches")
        content = (station.folder / "next.journal").read_bytes()
        self.assertEqual(len(content), 65 + 64 * 5000)
        self.assertEqual(len(model.journal(content, PRICES, 10)[0]), count)
        old = layout.journal_of(touches(), 18, 10, FIRST.digest)
        self.assertEqual((station.old.read_bytes(), (work / "old.journal").read_bytes()), (old, old))
        self.assertEqual((work / "page").read_text().splitlines()[0], "next.journal follows station.journal.")
        self.assertFalse((work / "stopped").exists())
