# SPDX-License-Identifier: Apache-2.0
"""The transfer from an old journal to the next one: the folder for its files, the balance of each card, the fare table in
force, and the page at the end. For bovtrila-next-journal.
"""
import contextlib
import csv
import datetime
import fcntl
import hashlib
import io
import json
import os
import pathlib
import shutil
from collections.abc import Callable, Iterable, Iterator, Mapping, Sequence
from typing import TYPE_CHECKING, TypedDict, TypeVar

from bovtrila import codec, model, serving, table_file, wire
from bovtrila.wire import Wrong

if TYPE_CHECKING:
    from bovtrila import handover_steps

# How many cards of a kind the page names, and how many requests wait for their answers at once.
MOST, WINDOW = 20, 64
# Why something isn't carried, and what to do.
OWED = "a debt isn't carried: the card is issued and holds 0. Collect it by hand, or let it go"
LEFT = "above the balance limit. Pay it out, or top the card up once there is room for it"
INSIDE = ("the journey isn't carried, but the balance after its entry charge is. A touch out in the new journal is "
          "charged a maximum beside it: pay back what is over the fare")
DAYS = ("the days under way: what was charged on them doesn't count towards caps in the new journal, and no journey "
        "goes on at an interchange")
# What the gates do after it, by hand and unattended.
BY_HAND = (
    "Next: start the gates. First each of them sends the last touch of its file, unless that is marked as done. The new",
    "      journal charges this touch: it has to be one that was answered by fault 5, or one of card 0. Any other gate",
    "      needs a new number and a new file before its start (PROTOCOL.md, \"A new journal\").")
UNATTENDED = (
    "Next: nothing, the gates connect again by themselves.",
    "      A gate that is started before it has sent a new touch sends the last one of its file again. The new journal",
    "      charges it, unless it is marked as done or of card 0 (PROTOCOL.md, \"A new journal\").")
# What a piece of work is begun with, by its names.
Plan = TypeVar("Plan", bound=Mapping[str, object])
# Of each card its balance in pence, and whether it is inside.
Held = dict[int, tuple[int, bool]]


class Tables(TypedDict):
    """The fare table in force, by its name, the later ones with the days from which they count, and the balance limit
    in pence."""
    now: str
    later: list[tuple[str, str]]
    limit: int


@contextlib.contextmanager
def at_work(folder: pathlib.Path, owner: serving.Owner) -> Iterator[pathlib.Path]:
    """The folder of a piece of work, made where it isn't there, in which no other run is at work."""
    if owner.make(folder):
        serving.sync(folder.parent)
    held = os.open(folder, os.O_RDONLY)
    try:
        fcntl.flock(held, fcntl.LOCK_EX | fcntl.LOCK_NB)
    except BlockingIOError:
        raise Wrong(f"{folder}: another run is at work there") from None
    try:
        yield folder
    finally:
        os.close(held)
        if not any(folder.iterdir()):
            folder.rmdir()


class Work:
    """The folder of a handover. Each file in it is written whole; what is there was done and checked."""

    def __init__(self, folder: pathlib.Path, owner: serving.Owner) -> None:
        self.folder, self.owner = folder, owner

    def __truediv__(self, name: str) -> pathlib.Path:
        return self.folder / name

    def has(self, *names: str) -> bool:
        return all((self.folder / name).exists() for name in names)

    def read(self, name: str) -> str:
        return (self.folder / name).read_text()

    def write(self, name: str, content: str) -> None:
        serving.write(self.folder / name, content, 0o640, self.owner.ids)

    def plan(self, asked: Plan) -> Plan:
        """What was asked for when it was begun, which has to be what is asked for now."""
        if not self.has("plan.json"):
            self.write("plan.json", json.dumps(asked, indent=1) + "\n")
        plan: Plan = json.loads(self.read("plan.json"))
        for name, value in asked.items():
            if plan.get(name) != value and name not in ("unattended", "moment", "new", "words"):
                raise Wrong(f"{self.folder} was begun with {name} {plan.get(name)}, not {value}: give the same words, "
                            "or remove that folder and begin again")
        return plan


def copy(old: pathlib.Path, new: pathlib.Path, owner: serving.Owner) -> None:
    """Copies a file whole, and compares the two."""
    beside = new.with_name(new.name + ".new")
    shutil.copyfile(old, beside)
    owner.take(beside, 0o640)
    serving.sync(beside)
    digests = []
    for path in (old, beside):
        with open(path, "rb") as file:
            digests.append(hashlib.file_digest(file, "sha256").digest())
    if digests[0] != digests[1]:
        raise Wrong(f"{new}: the copy isn't {old}; is something writing it?")
    beside.replace(new)
    serving.sync(new.parent)


def sums_of(text: str) -> dict[str, int]:
    """The numbers behind the names of lines as `cards 392`."""
    found: dict[str, int] = {}
    for line in text.splitlines():
        name, _, value = line.partition(" ")
        if value.lstrip("-").isdecimal():
            found[name] = int(value)
    return found


def balances_of(text: str) -> Held:
    """What each card of a table of `balances` holds, and whether it is inside."""
    rows = csv.DictReader(io.StringIO(text, newline=""))
    return {int(row["card"]): (int(row["balance"]), row["state"] == "inside") for row in rows}


def carried_of(balance: int, limit: int) -> int:
    """How much of a balance is carried: none of a debt, and nothing above the limit."""
    return min(max(balance, 0), limit)


def tables_of(lines: Iterable[str], tables: Sequence[tuple[str, pathlib.Path]], moment: int) -> Tables:
    """Which table is in force at a moment, and which come later with the days from which they count, by the rows of a
    history. The tables are pairs of a name and a path, the first one first."""
    read = {name: table_file.read(path) for name, path in tables}
    names = {table.digest.hex(): name for name, table in read.items()}
    first = read[tables[0][0]]
    # The civil time is that of the last table that was read: all tables of a station have one zone.
    today = datetime.date(1970, 1, 1) + datetime.timedelta(model.Schedule(first).stamp(moment).day)
    now, later = names[first.digest.hex()], list[tuple[str, str]]()
    for line in lines:
        if ",revision," in line and ",Revised," in line:
            _, _, day, *_, digest, _, _, _, _ = line.split(",")
            # A day that the calendar doesn't have is told by its number.
            is_number, is_early = day.lstrip("-").isdecimal(), day.startswith("-")
            is_ahead = int(day) > 0 if is_number else not is_early and day > today.isoformat()
            if is_ahead:
                later.append((names[digest], day))
            else:
                now = names[digest]
    return {"now": now, "later": later, "limit": read[now].table["balance_limit"]}


def check_printed(sums: str, table: str) -> None:
    """Compares the sums that `balances` prints with those of its lines."""
    rows, said = list(csv.DictReader(io.StringIO(table, newline=""))), sums_of(sums)
    found = {"cards": len(rows), **{name: sum(int(row[name]) for row in rows) for name in ("balance", "paid_in", "charged")}}
    for name, value in found.items():
        if said.get(name) != value:
            raise Wrong(f"balances: {name} is {said.get(name)}, and that of its lines {value}")


def check_sums(old: Held, sums: dict[str, int]) -> None:
    """Compares the sums of the requests with those of the old journal's balances."""
    total = sum(pence for pence, _ in old.values())
    if sums["balances"] != total or sums["carried"] + sums["left"] - sums["owed"] != total:
        raise Wrong(f"the old journal's balances come to {total}, and the requests carry {sums['carried']} of "
                    f"{sums['balances']}, leave {sums['left']}, and drop debts of {sums['owed']}")


def revision(table: pathlib.Path, day: str, gate: int) -> bytes:
    """The request that revises fares to a table from a day on, with the bytes that `bovtrila-gate --revise` sends. The day
    is a date, or a number where the calendar has none."""
    first = int(day) if day.lstrip("-").isdecimal() else codec.days(datetime.date.fromisoformat(day))
    moment = min(86_400 * first, 2**32 - 1)
    return codec.touch(codec.REVISE, gate, first, 0, table_file.read(table).digest, first, moment)


def differences(old: Held, new: Held, limit: int) -> Iterator[str]:
    """What is wrong with the cards of the new journal, as sentences."""
    for card in sorted(old.keys() | new.keys()):
        if card not in new:
            yield f"card {card} isn't issued in the new journal"
        elif card not in old:
            yield f"card {card} is issued in the new journal alone"
        elif new[card] != (carried_of(old[card][0], limit), False):
            yield f"card {card} held {old[card][0]}, and holds {new[card][0]} in the new journal"


def answered(line: wire.Connection, requests: Sequence[bytes]) -> Iterator[str]:
    """The line of each answer that comes over a connection, once it is found to be the right one: each card's first
    request issues it, and each top-up adds to what it has."""
    sent, paid = 0, dict[int, int]()
    for place, request in enumerate(requests):
        if sent <= place:
            line.send(*requests[sent : sent + WINDOW])
            sent += WINDOW
        fields = wire.fields_of(request)
        change = fields.get("pence", 0)
        paid[fields["card"]] = balance = paid.get(fields["card"], 0) + change
        verdict = {codec.TOP_UP: 7, codec.ISSUE: 8, codec.REVISE: codec.REVISED}[request[2]]
        wanted = codec.framed(">BHIBiq", codec.REPLY, fields["gate"], fields["number"], verdict, change, balance)
        answer = line.take()
        if answer != wanted:
            said = wire.differences(answer, wanted) if answer else "is missing: the connection ended"
            raise Wrong(f"line {place + 1} of the requests, {wire.fields(request)}: the answer {said}")
        yield f"{answer.hex()}  {wire.in_words(request, answer)}\n"


def rows(name: str, why: str, cards: Sequence[tuple[int, int]]) -> Iterator[str]:
    """The lines of the page on one kind of what isn't carried."""
    if not cards:
        return
    count = f"{len(cards)} card{'s' if len(cards) > 1 else ''}"
    amount = f"{sum(pence for _, pence in cards)} pence of " if name != "inside" else ""
    yield f"{name:<9} {amount}{count}: {why}"
    for card, pence in cards[:MOST]:
        yield f"          card {card}" + (f": {pence}" if name != "inside" else f", which holds {pence}")
    if len(cards) > MOST:
        yield f"          and {len(cards) - MOST} more: the file `left` has them all"


def not_carried(old: Held, limit: int, tables: Tables, sending: Callable[[str, str], str],
                is_sent: bool = False) -> Iterator[str]:
    """The lines of the page on what isn't carried, and why. Revisions to come may be sent already; else there is a command
    that sends one, by its table and its day."""
    held = [(card, *what) for card, what in sorted(old.items())]
    yield from rows("owed", OWED, [(card, -pence) for card, pence, _ in held if pence < 0])
    yield from rows("left", LEFT, [(card, pence - limit) for card, pence, _ in held if pence > limit])
    yield from rows("inside", INSIDE, [(card, pence) for card, pence, is_inside in held if is_inside])
    yield f"days      {DAYS}"
    for name, day in tables["later"]:
        said = "it was sent again" if is_sent else f"send it again: {sending(name, day)}"
        yield f"revision  to {name} from {day} on: {said}"


def following(handover: "handover_steps.Handover") -> list[str]:
    """What is to be done after the change, as lines."""
    if handover.plan["unattended"]:
        return [*UNATTENDED]
    later = [f"      {handover.sending(name, day)}" for name, day in handover.found["later"]]
    if not later:
        return [*BY_HAND]
    return ["Next: send the new fares again, which the new journal doesn't have:", *later,
            BY_HAND[0].replace("Next:", "Then"), *BY_HAND[1:]]


def page(handover: "handover_steps.Handover") -> str:
    """The page at the end: what was carried, what wasn't and why."""
    plan, count, old = handover.plan, len(handover.lines), handover.old.name
    seal, limit = handover.work.read("seal").split(), handover.found["limit"]
    numbers = f", numbers {plan['first']} to {plan['first'] + count - 1}" if count else ""
    return "\n".join([
        f"{plan['new']} follows {old}.", "",
        f"carried   {handover.sums['carried']} pence to {len(handover.held)} cards, by {count} requests of gate "
        f"{plan['gate']}{numbers}, of {plan['moment']}",
        f"balances  {handover.sums['balances']} pence in {old}: carried plus left, minus owed",
        f"compared  each card's balance in {plan['new']} with the one in {old}",
        f"old       {old}: {seal[1]} touches, sealed {seal[2]}",
        f"new       {plan['new']}: {plan['cards']} cards, room for {plan['capacity'] - handover.sent} more touches, fare "
        f"table {handover.found['now']}", "", "Not carried:",
        *not_carried(handover.held, limit, handover.found, handover.sending, plan["unattended"]), "",
        *following(handover),
        f"Keep {handover.work.folder} with {old}: nothing else says what wasn't carried.", ""])
