# SPDX-License-Identifier: Apache-2.0
"""What the page of bovtrila-exporter shows of touches: those of a fare day, and those of a card. Both are rows of
`bovtrila history`, which runs with limits of time and memory, as `bovtrila statement` does (statement.py)."""
import collections
import dataclasses
import hashlib
import io
import pathlib
import struct
import subprocess
import threading
import time
import zoneinfo
from collections.abc import Iterator, Mapping, Sequence

from bovtrila import day_page, history_rows, serving
from bovtrila.day_charts import Pence
from bovtrila.day_page import Stations, figures
from bovtrila.day_tally import REASONS, REFUSALS, Report
from bovtrila.history_rows import ACCEPTED, Chain, Row, rows_of
from bovtrila.journal_view import Carried
from bovtrila.wire import Wrong

# How many seconds a run of a command may take, and how many bytes of memory.
SECONDS, MEMORY = 20, 2**30
# The status of the program if nobody reads its output any more.
CLOSED = 141
# How many of a card's touches a page shows.
SHOWN = 1000
# What is put before the program, so that the server goes first. The exporter's unit forbids setpriv, so that a
# program whose exporter was killed ends by these limits, or because nobody reads its output.
BESIDE = ["nice", "-n", "19", "prlimit", f"--as={MEMORY}", f"--cpu={2 * SECONDS}", "--core=0", "--"]


@dataclasses.dataclass(frozen=True)
class Source:
    """The program, and the journal and the tables of a server, the first table first. `carried` has what the journal
    began with."""

    program: str
    journal: str
    tables: Sequence[str]
    seconds: float = SECONDS
    carried: Carried = dataclasses.field(default_factory=Carried)

    def words(self, command: str, *options: str) -> list[str]:
        """A command that reads the journal, with these options."""
        first, *revised = self.tables
        return [self.program, command, "--table", first, "--journal", self.journal, *options, *revised]


@dataclasses.dataclass(frozen=True)
class Day:
    """The touches of a fare day: per quarter of an hour by act, sums in words, refusals by reason, maximum charges by reason
    with their pence, and each gate's touches and refusals."""

    day: str
    moment: float
    took: float
    touches: Mapping[str, Sequence[int]]
    figures: Sequence[tuple[str, str]]
    refusals: Sequence[tuple[str, int]]
    maxima: Sequence[tuple[str, int, Pence]]
    gates: Mapping[int, tuple[int, int]]
    notes: Sequence[str]


@dataclasses.dataclass(frozen=True)
class Touches:
    """A card's touches, the newest first, of which a page may show fewer, and its sums in pence. `begun` has the moment and
    the pence of the balance with which the journal began, if the card had one."""

    card: int
    rows: Sequence[Row]
    count: int
    balance: Pence
    paid: Pence
    charged: Pence
    is_inside: bool
    begun: tuple[int, Pence] | None = None


def check(command: str, status: int, said: str, broken: Exception | None, late: float | None) -> None:
    """Raises `Wrong` if a run of a command failed: by its status, a fault of what it printed, or after some seconds."""
    if late is not None:
        raise Wrong(f"bovtrila {command} took more than {late:g} seconds")
    if status not in (0, CLOSED):
        text = "; ".join(line.strip() for line in said.splitlines()[-2:])
        raise Wrong(f"bovtrila {command} failed: {text or f'status {status}'}")
    if broken is not None:
        raise Wrong(f"what bovtrila {command} printed isn't a {command}: {broken}")


def stop(process: subprocess.Popen[bytes], late: threading.Event) -> None:
    """Ends a run that takes too long."""
    late.set()
    process.kill()


def rows(source: Source, options: Sequence[str], chain: Chain, notes: list[str]) -> Iterator[tuple[Row, Row | None]]:
    """The rows that `history` prints with these options, each with its card's open touch in before it."""
    late, broken = threading.Event(), None
    words = [*BESIDE, *source.words("history", *options)]
    with subprocess.Popen(words, stdin=subprocess.DEVNULL, stdout=subprocess.PIPE, stderr=subprocess.PIPE) as process:
        timer = threading.Timer(source.seconds, stop, [process, late])
        timer.start()
        assert process.stdout is not None and process.stderr is not None
        try:
            yield from rows_of(f"/dev/fd/{process.stdout.fileno()}", chain, hashlib.sha256(), "exporter")
        except history_rows.Wrong as wrong:
            broken = wrong
        finally:
            process.stdout.close()
            said = process.stderr.read().decode(errors="replace")
            process.wait()
            timer.cancel()
    check("history", process.returncode, said, broken, source.seconds if late.is_set() else None)
    notes += [line.removeprefix("note: ") for line in said.splitlines() if line.startswith("note: ")]


def day_of(source: Source, day: str, zone: zoneinfo.ZoneInfo) -> Day:
    """The touches of a fare day. The balances that the journal began with are none."""
    begun, moment, notes = time.monotonic(), time.time(), list[str]()
    report, gates = Report(day, zone), collections.defaultdict[int, list[int]](lambda: [0, 0])
    # Between the touches of a day there may be others: a gate's late ones of an earlier day, and revisions.
    for row, entry in rows(source, ["--day", day], Chain(is_part=True), notes):
        if row.place < source.carried.count:
            continue
        report.add(row, entry)
        if row.act != "revision" and row.day == day:
            gates[row.gate][0] += 1
            gates[row.gate][1] += row.verdict not in ACCEPTED[row.act]
    tally, sums = report.tally, collections.defaultdict[str, list[int]](lambda: [0, 0])
    for each in report.maxima():
        reason = sums[f"touch {each.touch.act}: {REASONS[each.told.verdict, each.touch.act]}"]
        reason[0] += 1
        reason[1] += each.pence
    return Day(day, moment, time.monotonic() - begun, dict(tally.touches),
               [(name, str(value) if isinstance(value, Pence) else f"{value:,}") for name, value in figures(tally)],
               [(REFUSALS[name], count) for name, count in tally.refused().items() if count],
               [(reason, count, Pence(pence)) for reason, (count, pence) in sorted(sums.items())],
               {gate: (counts[0], counts[1]) for gate, counts in sorted(gates.items())}, notes)


def touches_of(source: Source, card: int) -> Touches:
    """A card's touches and balance."""
    kept, count, paid, charged, balance, is_inside = collections.deque[Row](maxlen=SHOWN), 0, 0, 0, 0, False
    begun: tuple[int, Pence] | None = None
    for row, _ in rows(source, ["--card", str(card)], Chain(True), []):
        kept.appendleft(row)
        count, balance = count + 1, row.balance
        if row.place < source.carried.count:
            begun = row.moment, Pence(row.balance)
            continue
        paid, charged = (paid + row.change, charged) if row.act == "top-up" else (paid, charged - row.change)
        if row.act in ("in", "out") and row.verdict in ACCEPTED[row.act]:
            is_inside = row.act == "in"
    return Touches(card, tuple(kept), count, Pence(balance), Pence(paid), Pence(charged), is_inside, begun)


def zone_of(text: str) -> zoneinfo.ZoneInfo:
    """The clock of a fare table's zone, as GMT0BST,M3.5.0/1,M10.5.0: that of a file of zones with this rule alone."""
    head = struct.Struct(">4sc15x6l")
    rule = head.pack(b"TZif", b"2", *[0] * 6) + head.pack(b"TZif", b"2", 0, 0, 0, 0, 1, 4) + struct.pack(">lbb", 0, 0, 0)
    try:
        return zoneinfo.ZoneInfo.from_file(io.BytesIO(rule + b"UTC\0" + f"\n{text}\n".encode()), key=text)
    except ValueError:
        raise Wrong(f"this program knows no clock of the zone {text}") from None


def stations_of(tables: Sequence[str]) -> Stations:
    """The names of the stations, by the first table."""
    try:
        found: Stations = day_page.stations_of(tables[0]) if tables else Stations()
    except history_rows.Wrong as wrong:
        raise Wrong(str(wrong)) from None
    return found


def program_of(asked: str | None) -> str | None:
    """The program's path, if it is there."""
    try:
        return str(serving.program(asked))
    except Wrong:
        return None


def is_there(source: Source) -> bool:
    """Whether the files are there that `history` reads."""
    return all(pathlib.Path(path).is_file() for path in (source.journal, *source.tables))
