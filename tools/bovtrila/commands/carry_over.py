# SPDX-License-Identifier: Apache-2.0
"""Transfers balances to a new journal: makes the requests that give each card the balance that it had.

OLD.csv is the output of `bovtrila balances` for the old journal (- is standard input). The script prints
request lines, which bovtrila-gate sends and `replay` reads: for each card an issue, and top-ups of at most
50000 pence each that add up to its balance. They are touches of gate --gate, numbered from --first on, with
the moment --moment. The same command prints the same bytes, so they may be sent again, and nothing is paid
in twice. No other touch of the new journal may have their gate and numbers. A revision uses gate 65535 and
the number of its day, about 20000. If a note says that the numbers overlap, name another gate or a higher
--first.

Standard error lists what isn't transferred, one line each:
  - what a card owes: a card with a negative balance is issued, and nothing is paid in;
  - what a card has above --limit. Name the balance_limit of the new journal's table with this option;
  - the journey of a card that is inside: the balance after the entry charge is transferred, and the touch
    out is charged in the new journal as one without a touch in. Therefore transfer balances while no card
    is inside;
  - days under way, in one line: what was charged on them doesn't count towards the caps in the new journal,
    and no journey continues at an interchange.

The last lines are sums in pence. `balances` is the sum of the file's balances, `carried` of all top-ups,
`left` of what is above the limit, and `owed` of what is below 0. `balances` equals `carried` plus `left`
minus `owed`.

The status is 0 if the lines were printed, also if something isn't transferred; 1 if the file is wrong, and
then nothing was written to standard output; and 2 for a wrong command line.

    bovtrila balances --table first.toml --journal old.journal > old.csv
    bovtrila-carry-over old.csv --moment 2026-01-05T03:00:00Z --limit 9000 > lines
    bovtrila-gate 127.0.0.1:4014 lines
"""
import argparse
import datetime
import os
import re
import sys
import tomllib
from collections.abc import Callable, Iterable, Iterator, Sequence
from typing import NamedTuple

from bovtrila import codec, places, wire
from bovtrila.wire import Wrong

HEADING = "card,state,balance,paid_in,charged"
# How many cards a station may have, the most pence that a top-up may pay in, and the highest balance limit that a fare
# table may have.
# generated: limits
CARDS, TOP_UP, LIMITS = 100_000, 50_000, 1_000_000
# end: limits
# The gate of the staff, as in bovtrila-gate, and the highest number of a touch.
STAFF, NUMBERS = 65_535, 2**32 - 1
WHOLE = re.compile(r"-?[1-9][0-9]{0,17}|0", re.ASCII)

Holding = NamedTuple("Holding", [("card", int), ("is_inside", bool), ("balance", int)])


def whole(least: int, most: int) -> Callable[[str], int]:
    """What reads a number of the command line."""
    def read(text: str) -> int:
        if not re.fullmatch("[0-9]{1,10}", text, re.ASCII) or not least <= int(text) <= most:
            raise argparse.ArgumentTypeError(f"'{text}' is no number from {least} to {most}")
        return int(text)
    return read


def moment(text: str) -> int:
    """A moment of the command line, in seconds since 1970-01-01 00:00:00 UTC."""
    try:
        if re.fullmatch(r"\d{4}-\d\d-\d\dT\d\d:\d\d:\d\dZ", text, re.ASCII):
            seconds = int(datetime.datetime.fromisoformat(text).timestamp())
            if 0 <= seconds < 2**32:
                return seconds
    except ValueError:
        pass
    raise argparse.ArgumentTypeError(f"'{text}' is no moment from 1970 to 2106-02-07; write it as 2026-01-05T03:00:00Z")


def options() -> argparse.Namespace:
    parser = argparse.ArgumentParser(description=__doc__, formatter_class=argparse.RawTextHelpFormatter)
    parser.add_argument("file", metavar="OLD.csv", help="the old journal's balances, or - for standard input")
    parser.add_argument("--moment", type=moment, required=True,
                        help="the moment of the requests, as 2026-01-05T03:00:00Z")
    parser.add_argument("--gate", metavar="N", type=whole(0, STAFF), default=STAFF,
                        help=f"the gate number of the requests ({STAFF})")
    parser.add_argument("--first", metavar="N", type=whole(0, NUMBERS), default=1,
                        help="the number of the first request (1)")
    parser.add_argument("--limit", metavar="PENCE", type=whole(1, LIMITS),
                        help="the balance limit of the new table (that of /usr/share/bovtrila/docs/example.toml)")
    asked = parser.parse_args()
    if asked.limit is None:
        if not places.EXAMPLE.is_file():
            parser.error("the example table isn't there: name the balance limit by --limit")
        asked.limit = tomllib.loads(places.EXAMPLE.read_text())["balance_limit"]
    return asked


def holding(text: str, before: int) -> Holding:
    """What a row says that a card holds. The rows go up by card; `before` is the card of the last one."""
    fields = text.split(",")
    if len(fields) != 5:
        raise Wrong(f"it has {len(fields)} fields, and the heading 5")
    card, state, *sums = fields
    for name, field in zip(("card", "balance", "paid_in", "charged"), (card, *sums)):
        if not WHOLE.fullmatch(field):
            raise Wrong(f"the {name} '{field[:40]}' is no whole number")
    balance, paid_in, charged = map(int, sums)
    if not 1 <= int(card) <= CARDS:
        raise Wrong(f"card {card} is none from 1 to {CARDS}")
    if int(card) <= before:
        raise Wrong(f"card {card} stands behind card {before}: each card has one row, by ascending number")
    if state not in ("outside", "inside"):
        raise Wrong(f"the state '{state[:40]}' is neither outside nor inside")
    if paid_in < 0:
        raise Wrong(f"the paid_in {paid_in} is below 0")
    if paid_in - charged != balance:
        raise Wrong(f"paid_in less charged is {paid_in - charged}, and the balance is {balance}")
    return Holding(int(card), state == "inside", balance)


def holdings(path: str) -> list[Holding]:
    """What each card of a file holds."""
    lines, found, before = wire.lines_of(path), list[Holding](), 0
    if lines[0][1] != HEADING:
        raise Wrong(f"{path}: line 1: '{lines[0][1][:60]}' isn't the heading {HEADING}")
    for line, text in lines[1:-1]:
        try:
            found.append(holding(text, before))
        except Wrong as wrong:
            raise Wrong(f"{path}: line {line}: {wrong}") from None
        before = found[-1].card
    if lines[-1][1] or len(lines) == 1:
        raise Wrong(f"{path}: line {len(lines)}: no end of the line stands behind it, so the file was cut off")
    return found


def carried_of(held: Holding, limit: int) -> int:
    """How much of a card's balance is carried: none of a debt, and nothing above the limit."""
    return min(max(held.balance, 0), limit)


def payments(pence: int) -> list[int]:
    """Amounts of top-ups that come to so many pence."""
    return [min(TOP_UP, pence - paid) for paid in range(0, pence, TOP_UP)]


def requests(found: Iterable[Holding], asked: argparse.Namespace) -> list[bytes]:
    """The request frames that begin the new journal."""
    frames, number = list[bytes](), asked.first
    for held in found:
        acts: list[tuple[int, ...]] = [
            (codec.ISSUE,), *((codec.TOP_UP, pence) for pence in payments(carried_of(held, asked.limit)))]
        for kind, *pence in acts:
            if number > NUMBERS:
                raise Wrong(f"card {held.card} would need number {number}, and the highest is {NUMBERS}; "
                            "name a lower --first")
            frames.append(codec.touch(kind, asked.gate, number, held.card, *pence, asked.moment))
            number += 1
    return frames


def not_carried(found: Iterable[Holding], limit: int) -> Iterator[str]:
    """A line for each thing that isn't carried."""
    for held in found:
        if held.is_inside:
            yield (f"card {held.card}: it is inside: its journey isn't carried, and its touch out will be one without "
                   "a touch in")
        if held.balance < 0:
            yield f"card {held.card}: it owes {-held.balance}: it is issued, and nothing is paid in"
        if held.balance > limit:
            yield (f"card {held.card}: {held.balance - limit} of its {held.balance} are left: "
                   f"the balance limit is {limit}")
    yield ("days under way aren't carried: what was charged on them doesn't count towards caps in the new journal, and "
           "no journey goes on at an interchange")


def sums(found: Sequence[Holding], limit: int) -> list[str]:
    """The lines of the sums. A debt stands by itself, so that it hides nothing that is left of another card."""
    balances = sum(held.balance for held in found)
    carried = sum(carried_of(held, limit) for held in found)
    left = sum(held.balance - limit for held in found if held.balance > limit)
    owed = sum(-held.balance for held in found if held.balance < 0)
    assert balances == carried + left - owed
    return [f"cards {len(found)}", f"balances {balances}", f"carried {carried}", f"left {left}", f"owed {owed}"]


def names(asked: argparse.Namespace, count: int) -> list[str]:
    """The lines on the gate and the numbers of so many requests."""
    if not count:
        return []
    last, day = asked.first + count - 1, asked.moment // 86_400
    told = [f"gate {asked.gate} numbers {asked.first} to {last}"]
    if asked.gate == STAFF and last >= day:
        told.append(f"note: bovtrila-gate --revise takes the number of its day, from {day} on, and the same gate: where "
                    "one of these has it, name another --number there")
    return told


def main() -> None:
    asked = options()
    try:
        found = holdings(asked.file)
        frames = requests(found, asked)
    except Wrong as wrong:
        sys.exit(f"carry-over: {wrong}")
    try:
        sys.stdout.write("".join(f"{frame.hex()}\n" for frame in frames))
        sys.stdout.flush()
    except OSError as error:
        os.dup2(os.open(os.devnull, os.O_WRONLY), sys.stdout.fileno())
        sys.exit(f"carry-over: standard output: {error.strerror}; the lines aren't whole")
    for line in (*not_carried(found, asked.limit), *names(asked, len(frames)), *sums(found, asked.limit)):
        print(line, file=sys.stderr)
