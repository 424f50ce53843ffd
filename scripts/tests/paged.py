"""A day at a station with its touches, as bovtrila.model judges them, for the page of bovtrila-exporter; and a program that
prints histories and statements in the place of bovtrila, so that a test can make it fail, hang or print anything."""
import html.parser
import http.client
import json
import pathlib
import random
import struct
import subprocess
import time

from bovtrila import codec, history_rows, layout, model, table_file
from bovtrila.journal_view import date, utc
from harness import EXAMPLE, TIME, TOP
from statement_forms import Forms
from statement_model import statement

DAY = 86_400
# Gate 4 is broken: it sends another station's number. The clock of gate 3 is ahead by these seconds.
BROKEN, FAST, AHEAD, NOWHERE = 4, 3, 720, 99
# How many of a day's journeys fall into each hour from 05:00 to 24:00.
BUSY = (1, 4, 10, 16, 9, 5, 4, 4, 5, 4, 5, 8, 15, 17, 9, 5, 4, 3, 2)

STAND_IN = """#!/usr/bin/python3
import json, sys, time
{begin}
words = sys.argv[1:]
named = {{words[place]: words[place + 1] for place in range(1, len(words) - 1) if words[place].startswith("--")}}
rows = []
if words[0] == "statement":
    found = json.load(open({json!r}))
    if named["--card"] not in found["statements"]:
        above = int(named["--card"]) > found["cards"]
        sys.exit(f"fault card {{named['--card']}} " + (f"above {{found['cards']}}" if above else "not issued"))
    json.dump(found["statements"][named["--card"]], sys.stdout)
else:
    rows = open({csv!r}, newline="").read().split("\\r\\n")[:-1]
for place, row in enumerate(rows):
    fields = row.split(",")
    if place and named.get("--card", fields[5]) != fields[5]:
        continue
    if place and named.get("--day", fields[2]) != fields[2]:
        continue
    sys.stdout.write(row + "\\r\\n")
{end}
"""


class Page(html.parser.HTMLParser):
    """What a page shows: the text of each element with an id, and the rows of a table that is or follows such an element."""

    def __init__(self, text: str) -> None:
        super().__init__()
        self.texts: dict[str, str] = {}
        self.tables: dict[str, list[list[str]]] = {}
        self.kinds: set[str] = set()
        self.attributes: set[str] = set()
        self.last, self.open, self.is_cell = "", "", False
        self.feed(text)

    def handle_starttag(self, tag: str, attrs: list[tuple[str, str | None]]) -> None:
        self.kinds.add(tag)
        self.attributes |= {name for name, _ in attrs}
        name = dict(attrs).get("id")
        if name:
            self.last = self.open = name
            self.texts[name] = ""
        if tag == "tr":
            self.tables.setdefault(self.last, []).append([])
        if tag in ("td", "th"):
            self.is_cell = True
            self.tables[self.last][-1].append("")

    def handle_endtag(self, tag: str) -> None:
        self.open = ""
        self.is_cell = self.is_cell and tag not in ("td", "th")

    def handle_data(self, data: str) -> None:
        if self.open:
            self.texts[self.open] += data
        if self.is_cell:
            self.tables[self.last][-1][-1] += data

    def numbers(self, name: str) -> dict[str, list[str]]:
        """The rows of a table after its heading: the first cell, and the others that have a text."""
        return {first.strip(): [cell.strip() for cell in cells if cell.strip()] for first, *cells in self.tables[name]}


class Exporter:
    """A running exporter, with its page."""

    def __init__(self, *words: object, every: str = "0.05", env: dict[str, str] | None = None) -> None:
        # A check that lasts four times as long is shown as one that hangs.
        command = [str(TOP / "bin" / "bovtrila-exporter"), "--listen", "127.0.0.1:0", "--every", every, "--timeout", "30"]
        self.process = subprocess.Popen([*command, *map(str, words)], stderr=subprocess.PIPE, text=True, env=env)
        assert self.process.stderr is not None
        self.said = [self.process.stderr.readline()]
        while self.said[-1] and not self.said[-1].startswith("listening "):
            self.said.append(self.process.stderr.readline())
        host, _, port = self.said[-1].split()[1].rpartition(":")
        self.address = host, int(port)

    def ask(self, path: str) -> tuple[int, str]:
        """The status and the text of the answer to a request."""
        line = http.client.HTTPConnection(*self.address, timeout=TIME)
        try:
            line.request("GET", path)
            answer = line.getresponse()
            return answer.status, answer.read().decode()
        finally:
            line.close()

    def page(self, path: str = "/") -> Page:
        """A page that is served with status 200."""
        status, text = self.ask(path)
        if status != 200:
            raise AssertionError(f"{path} has status {status}: {text}")
        return Page(text)

    def whole(self) -> Page:
        """The page, once today's touches are read or can't be, or after some seconds whatever it has."""
        limit = time.monotonic() + TIME
        while "are being read" in self.ask("/")[1] and time.monotonic() < limit:
            time.sleep(0.1)
        return self.page()

    def end(self) -> str:
        if self.process.poll() is None:
            self.process.kill()
        said: str = self.process.communicate(timeout=TIME)[1]
        return said


class Town:
    """The touches of a fare day that begins at this moment, until another moment, and their answers."""

    def __init__(self, begin: int, until: int, cards: int = 40, seed: int = 7) -> None:
        self.begin, self.until, self.random = begin, until, random.Random(seed)
        self.cards, self.numbers = cards, dict.fromkeys(range(1, 8), 0)
        self.touches: list[tuple[int, ...]] = []
        self.station = model.Station(table_file.read(EXAMPLE), cards)
        for card in range(1, cards + 1):
            self.touches.append((begin - 4000 + card, 7, codec.ISSUE, card))
            self.touches.append((begin - 3000 + card, 7, codec.TOP_UP, card, 500 if card % 9 == 0 else 5000))
        for hour, count in enumerate(BUSY):
            for _ in range(count):
                self.journey(begin + 1800 + 3600 * hour + self.random.randrange(3600))
        self.frames = [self.frame(*touch) for touch in sorted(self.touches) if touch[0] < until]
        self.answers = [self.station.answer(frame) for frame in self.frames]

    def journey(self, moment: int) -> None:
        """A card goes in, and mostly out again."""
        card, start, finish = self.random.randint(1, self.cards + 1), self.random.randint(1, 4), self.random.randint(1, 4)
        self.touches.append((moment, self.random.choice((1, 1, 2, FAST, FAST, BROKEN)), codec.ENTER, card, start))
        if self.random.random() < 0.94:
            out = moment + self.random.randint(600, 3000)
            self.touches.append((out, self.random.choice((5, 5, 6)), codec.LEAVE, card, finish))

    def frame(self, moment: int, gate: int, kind: int, card: int, *more: int) -> bytes:
        """The request of a touch: that of a broken gate names no station, and that of a fast gate has a later moment."""
        self.numbers[gate] += 1
        more = (NOWHERE,) if gate == BROKEN and kind == codec.ENTER else more
        moment += AHEAD if gate == FAST else 0
        return codec.touch(kind, gate, self.numbers[gate], card, *more, moment)

    def rows(self) -> list[str]:
        """The rows of the history."""
        made = []
        for place, (frame, answer) in enumerate(zip(self.frames, self.answers)):
            kind, gate, number, card, *act = struct.unpack(codec.FORMS[frame[2]], frame[2:])
            verdict, change, balance = struct.unpack(">Biq", answer[9:])
            station = act[0] if kind in (codec.ENTER, codec.LEAVE) else ""
            pence = act[0] if kind == codec.TOP_UP else ""
            day = date(self.station.schedule.stamp(act[-1]).day)
            made.append(",".join(map(str, (place, utc(act[-1]), day, gate, number, card, codec.ACTS[kind], station, pence,
                                           model.VERDICTS[verdict], change, balance))))
        return made

    def lay(self, folder: pathlib.Path, begin: str = "", end: str = "") -> pathlib.Path:
        """Lays the journal, its history and the statements of its cards into a folder, and a program there that prints
        these: its path."""
        digest = table_file.read(EXAMPLE).digest
        (folder / "journal").write_bytes(layout.journal_of(self.frames, 1000, self.cards, digest))
        text = "".join(f"{row}\r\n" for row in (history_rows.HEADING, *self.rows()))
        (folder / "history.csv").write_text(text, newline="")
        forms, cards = Forms(self.station.schedule), self.station.cards
        found = {number: forms.json(statement(self.station, number)) for number in cards if cards[number].issued}
        (folder / "statements.json").write_text(json.dumps({"cards": self.cards, "statements": found}))
        return stand_in(folder, begin, end)


def stand_in(folder: pathlib.Path, begin: str = "", end: str = "") -> pathlib.Path:
    """A program that prints the history and the statements of a folder, after and before these lines of Python."""
    program = folder / "stand-in"
    program.write_text(STAND_IN.format(csv=str(folder / "history.csv"), json=str(folder / "statements.json"), begin=begin,
                                       end=end))
    program.chmod(0o755)
    return program
