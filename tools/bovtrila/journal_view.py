# SPDX-License-Identifier: Apache-2.0
"""The content of a server's journal, which is read without a lock: its touches, each gate's last one, their pace, and the
fare table in force. For bovtrila-status."""
import datetime
import pathlib
import struct
from collections.abc import Iterable
from typing import Any

from bovtrila import codec, layout, model, table_file, wire
from bovtrila.wire import Wrong

# Over how many seconds the pace is taken.
WEEK = 7 * 86_400
# Where the moment of a touch stands in its body, by kind.
MOMENTS = {codec.ENTER: 13, codec.LEAVE: 13, codec.TOP_UP: 15, codec.ISSUE: 11, codec.REVISE: 47}
TRAVEL = (codec.ENTER, codec.LEAVE)
# The gate of the staff, as bovtrila-carry-over and bovtrila-gate have it.
STAFF = 65_535


class Carried:
    """The balances that a journal begins with if it follows another one. They are the issues and top-ups of the staff's
    gate before all other touches, with one moment (bovtrila-carry-over)."""

    def __init__(self) -> None:
        # How many touches they are, their moment, and how many top-ups each card has among them.
        self.count, self.moment, self.top_ups = 0, 0, dict[int, int]()

    def add(self, place: int, kind: int, body: bytes, moment: int) -> None:
        """Takes the touch at this place, if it is one of them."""
        is_such = kind in (codec.ISSUE, codec.TOP_UP) and int.from_bytes(body[1:3], "big") == STAFF
        if is_such and place == self.count and moment == (self.moment if self.count else moment):
            card = int.from_bytes(body[7:11], "big")
            self.count, self.moment = self.count + 1, moment
            self.top_ups[card] = self.top_ups.get(card, 0) + (kind == codec.TOP_UP)


class Journal:
    """What a journal's file holds so far. It is read on from where it was read to."""

    # Of its header: the bytes of a slot, how many touches it has room for, how many cards, and its first table.
    slot: int
    capacity: int
    cards: int
    digest: bytes

    def __init__(self, path: str | pathlib.Path) -> None:
        # How many touches there are, and of those of cards the moments, the last one, and each gate's last one.
        self.path, self.touches, self.moments, self.gates = path, 0, list[int](), dict[bytes, bytes]()
        self.header: bytes | None = None
        self.last: bytes | None = None
        # The latest moment of a touch in or out, and that touch. Each revision has its place, and that moment before.
        self.newest: int | None = None
        self.latest: bytes | None = None
        self.revisions: list[tuple[int, bytes, int, int | None]] = []
        # The cards with a touch in: no other card is inside.
        self.entered: set[int] = set()
        self.carried = Carried()

    def read(self) -> None:
        """Reads what came since the last time."""
        try:
            with open(self.path, "rb") as file:
                header = file.read(layout.HEADER)
                version = header[1:9]
                if len(header) < layout.HEADER or header[0] != layout.MARK or version not in layout.SLOTS:
                    raise Wrong(f"{self.path}: this is no journal; name the file behind --journal of the server")
                if self.header not in (None, header):
                    raise Wrong(f"{self.path}: it is another journal than before; start anew")
                self.header, self.slot = header, layout.SLOTS[version]
                self.capacity, self.cards = struct.unpack(">II", header[9:17])
                self.digest = header[17:49]
                file.seek(layout.HEADER + self.slot * self.touches)
                while self.touches < self.capacity:
                    slots = file.read(4096 * self.slot)
                    if not self.take(slots, self.slot):
                        break
        except OSError as error:
            raise Wrong(f"{self.path}: {error.strerror}; name a journal that can be read") from None

    def whole_size(self) -> int:
        """How many bytes the file has once the journal is full: with a closed mark behind the last slot."""
        return layout.HEADER + self.slot * self.capacity + 1

    def take(self, slots: bytes, size: int) -> bool:
        """Takes the touches of these slots: whether more may follow."""
        for start in range(0, len(slots) - size + 1, size):
            if slots[start] != layout.MARK or self.touches == self.capacity:
                return False
            kind = slots[start + 1]
            if kind not in MOMENTS:
                raise Wrong(f"{self.path}: slot {self.touches} holds no touch; bovtrila verify says more")
            self.add(kind, slots[start + 1 : start + size])
            self.touches += 1
        return len(slots) == 4096 * size

    def add(self, kind: int, body: bytes) -> None:
        """Takes a touch, by its body."""
        place = MOMENTS[kind]
        moment = int.from_bytes(body[place : place + 4], "big")
        if kind == codec.REVISE:
            digest, day = body[11:43], int.from_bytes(body[43:47], "big", signed=True)
            self.revisions.append((self.touches, digest, day, self.newest))
            return
        self.carried.add(self.touches, kind, body, moment)
        self.moments.append(moment)
        self.last = self.gates[body[1:3]] = body
        if kind == codec.ENTER:
            self.entered.add(int.from_bytes(body[7:11], "big"))
        if kind in TRAVEL and (self.newest is None or moment > self.newest):
            self.newest, self.latest = moment, body


def told(body: bytes) -> dict[str, Any]:
    """A touch of a journal by its fields."""
    frame = struct.pack(">H", wire.REQUESTS[body[0]]) + body[: wire.REQUESTS[body[0]]]
    fields = {name: value for name, value in wire.fields_of(frame).items() if name != "digest"}
    return {"kind": wire.KINDS[body[0]], **fields, "moment": utc(fields["moment"])}


def utc(moment: float) -> str:
    return f"{datetime.datetime.fromtimestamp(moment, datetime.timezone.utc):%Y-%m-%dT%H:%M:%SZ}"


def date(day: int) -> str:
    """A day by its date, or by its number where the calendar has none."""
    try:
        return (datetime.date(1970, 1, 1) + datetime.timedelta(day)).isoformat()
    except OverflowError:
        return str(day)


class Tables:
    """The tables that are named, by their digests; the clock is that of the first."""

    def __init__(self, paths: Iterable[str | pathlib.Path]) -> None:
        tables = [(str(path), table_file.read(path)) for path in paths]
        self.names = {table.digest: path for path, table in reversed(tables)}
        self.schedule = model.Schedule(tables[0][1]) if tables else None
        if tables:
            # The civil time is that of the last table that was read.
            table_file.read(tables[0][0])

    def day(self, moment: float) -> int:
        """The fare day of a moment, by the first table's clock, or about that where no table is named."""
        return self.schedule.stamp(int(moment)).day if self.schedule else (int(moment) - 16_200) // 86_400

    def table(self, digest: bytes, first: int | None = None) -> dict[str, str | None]:
        return {"file": self.names.get(digest), "digest": digest.hex(), "from": None if first is None else date(first)}


def revised(journal: Journal, tables: Tables, now: float, found: dict[str, Any]) -> None:
    """The table in force and the next ones, as far as the journal tells them."""
    accepted: list[tuple[int | None, bytes]] = [(None, journal.digest)]
    unsure: list[int] = []
    for place, digest, day, newest in journal.revisions:
        # A touch in or out counts where it was accepted, and the journal alone doesn't tell that.
        reached = newest is not None and day <= max(tables.day(newest), tables.day(max(newest - 7200, 0)))
        if accepted[-1][0] is not None and day <= accepted[-1][0]:
            continue
        if reached:
            unsure.append(place)
        else:
            accepted.append((day, digest))
    today = tables.day(now)
    began = [each for each in accepted if each[0] is None or each[0] <= today]
    found["table"] = tables.table(began[-1][1], began[-1][0])
    found["next"] = [tables.table(digest, day) for day, digest in accepted if day is not None and day > today]
    if unsure:
        found["notes"].append(f"whether the revision at place {unsure[-1]} was accepted isn't known here: touches in "
                              "or out of its day or a later one stand before it. `bovtrila history` says")
    if journal.revisions and not tables.schedule:
        found["notes"].append("without --table fare days go by the clock of UTC")
    last, _ = accepted[-1]
    if found["next"] and last is not None and last - today > 366:
        found["notes"].append(f"the last revision counts from {date(last)}: none from an earlier day can be made")


def pace(journal: Journal, now: float, found: dict[str, Any]) -> None:
    """How many touches a day there were in the last 7 days, and how long the room lasts at that pace. The balances that the
    journal began with aren't touches of a day."""
    past = [moment for moment in journal.moments[journal.carried.count :] if moment <= now + 3600]
    lately = sum(moment >= now - WEEK for moment in past)
    found["touches_a_day"] = found["days_until_full"] = found["full_on"] = None
    found["newest"] = utc(max(past)) if past else None
    if not lately:
        return
    # A journal's first day counts as a whole one.
    days = min(WEEK, max(now - min(past), 86_400)) / 86_400
    found["touches_a_day"] = round(lately / days, 1)
    left = found["room"] * days / lately
    found["days_until_full"] = round(left, 1)
    if left < 36_500:
        found["full_on"] = utc(now + 86_400 * left)[:10]
