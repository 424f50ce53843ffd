"""Replaces a journal of 1,000,000 touches and 10,000 cards by bovtrila-next-journal, which is killed while it sends and
started again, and compares each card with the balance that follows from the touches. It takes some minutes, so
scripts/test leaves it out; it prints the time that it took.
"""
import os
import pathlib
import pwd
import shutil
import signal
import subprocess
import tempfile
import time
from collections.abc import Sequence

import harness
from bovtrila import codec, layout, model, serving, wire
from harness import EXAMPLE, PROGRAM, TOP

SCRIPT = TOP / "bin" / "bovtrila-next-journal"
CARDS, WEEKS = 10_000, 33
# Tuesday 2025-01-07 at 08:00 UTC: no Tuesday up to August is a holiday, and 08:00 UTC is peak in summer too.
TUESDAY, WEEK = 1_736_236_800, 604_800
# How many seconds a run may take.
PATIENCE = 3600


def acts(card: int) -> tuple[list[tuple[int, int, int]], int]:
    """The hundred acts of a card, and what it holds at their end: a fare of 350 is what the top-up before each journey
    but the first pays. Of 100 cards one is inside at the end, and one touched out twice without a touch in, for 900
    each."""
    paid = 1000 + card % 5000
    made, held = [(codec.ISSUE, 0, 0), (codec.TOP_UP, 0, paid)], paid
    for week in range(WEEKS):
        if week:
            made.append((codec.TOP_UP, week, 350))
            held += 350
        if week < WEEKS - 1 or card % 100 > 2 or card % 100 == 0:
            made += [(codec.ENTER, week, 2), (codec.LEAVE, week, 1)]
            held -= 350
        elif card % 100 == 1:
            made += [(codec.ENTER, week, 2), (codec.TOP_UP, week, 10)]
            held += 10 - 900
        else:
            made += [(codec.LEAVE, week, 1), (codec.LEAVE, week + 1, 1)]
            held -= 2 * 900
    return made, held


def generated() -> tuple[list[bytes], dict[int, int]]:
    """The frames of all touches, and what each card holds behind them."""
    frames: list[bytes] = []
    held: dict[int, int] = {}
    for card in range(1, CARDS + 1):
        made, held[card] = acts(card)
        for place, (kind, week, value) in enumerate(made):
            moment = TUESDAY + WEEK * week + (1500 if kind == codec.LEAVE else place)
            words: tuple[int, ...] = (moment,) if kind == codec.ISSUE else (value, moment)
            frames.append(codec.touch(kind, 7, len(frames) + 1, card, *words))
    return frames, held


class Large(harness.ProgramTest):
    def setUp(self) -> None:
        room = tempfile.TemporaryDirectory(prefix="large-journal-", dir="/var/tmp")
        self.addCleanup(room.cleanup)
        self.top = pathlib.Path(room.name)
        self.folder, self.config = self.top / "lib", self.top / "serve.conf"
        self.folder.mkdir()
        shutil.copy(EXAMPLE, self.folder / "first.toml")
        self.listen = f"127.0.0.1:{harness.free_port()}"
        self.config.write_text(f"table = first.toml\njournal = station.journal\ncards = {CARDS}\ncapacity = 1000000\n"
                               f"listen = {self.listen}\nlines = 4\n")
        start = self.top / "start"
        start.write_text(f"exec >/dev/null 2>&1 </dev/null\nsetsid {TOP}/bin/bovtrila-start --config {self.config} --folder "
                         f"{self.folder} --program {PROGRAM} --user {pwd.getpwuid(os.geteuid()).pw_name} &\n"
                         f"echo $! >{self.top}/pid\n")
        stop = f"test ! -e {self.top}/pid || kill $(cat {self.top}/pid); rm -f {self.top}/pid"
        self.addCleanup(lambda: subprocess.run(["sh", "-c", stop]))
        self.words = [str(word) for word in (
            SCRIPT, "station.journal", "--settled", "--folder", self.folder, "--config", self.config, "--program",
            PROGRAM, "--user",
            pwd.getpwuid(os.geteuid()).pw_name, "--stop", stop, "--start", f"sh {start}", "--watch", "0", "--journal",
            "next.journal")]

    def timed(self, words: Sequence[str], killed_at: str | None = None) -> int:
        """Runs the script, and prints what each step took: its status. It is killed a second into a step."""
        begun = time.monotonic()
        with subprocess.Popen(words, stdout=subprocess.PIPE, text=True) as running:
            assert running.stdout, "a pipe"
            for line in running.stdout:
                print(f"{time.monotonic() - begun:7.1f} s  {line.rstrip()}", flush=True)
                if killed_at and line.startswith(killed_at):
                    time.sleep(1)
                    running.send_signal(signal.SIGKILL)
                    break
        print(f"{time.monotonic() - begun:7.1f} s  status {running.returncode}", flush=True)
        return running.returncode

    def test_a_million_touches_are_followed(self) -> None:
        frames, held = generated()
        self.assertEqual((len(frames), len(held)), (1_000_000, CARDS))
        (self.folder / "station.journal").write_bytes(
            layout.journal_of(frames, 1_000_000, CARDS, model.Table(EXAMPLE.read_text()).digest))
        print(f"{sum(pence < 0 for pence in held.values())} cards owe, {sum(card % 100 == 1 for card in held)} are "
              "inside")
        self.assertEqual(self.timed(self.words, killed_at="step 6"), -signal.SIGKILL)
        self.assertEqual(self.timed(self.words), 0)
        page = (self.folder / "after-station.journal" / "page").read_text()
        carried = {card: max(pence, 0) for card, pence in held.items()}
        count = CARDS + sum(pence > 0 for pence in carried.values())
        self.assertIn(f"\ncarried   {sum(carried.values())} pence to {CARDS} cards, by {count} requests of gate 65535",
                      page)
        owed = sum(-pence for pence in held.values() if pence < 0)
        self.assertIn(f"\nowed      {owed} pence of {sum(pence < 0 for pence in held.values())} cards: ", page)
        with wire.Connection(serving.reached_at(self.listen), 60) as line:
            for card, pence in carried.items():
                line.send(codec.enquiry(card))
                found = wire.fields_of(line.take())
                self.assertEqual((found["state"], found["balance"], found["front"]), (1, pence, count), card)
