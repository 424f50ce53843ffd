"""A network of six servers with generated days, and the answers that a reference program calculates from its requests: for
scripts/tests/test_network.py.

The answers expected of queries are made from the requests by bovtrila.model, and from no output of the program or of a
database.
"""
import collections
import datetime
import random
import struct
from collections.abc import Collection, Iterator, Sequence
from typing import NamedTuple, TypeAlias

from bovtrila import codec, model
from harness import EXAMPLE, REVISED

# Thursday 2025-01-30 at 00:00 UTC, on which cards are issued; they travel on the two days after it, over a month's end.
THURSDAY, DAY = 1738195200, 86_400
FRIDAY, SATURDAY = "2025-01-31", "2025-02-01"
# How many cards a server has, and how many servers.
CARDS = 36
SERVERS = {"alder-1": "Alder", "alder-2": "Alder", "birch-1": "Birch", "birch-2": "Birch", "cedar-1": "Cedar",
           "cedar-2": "Cedar"}
# The server that lacks the revision, the one with a gate of a wrong clock, that gate, and how far its clock is ahead.
LACKS, WRONG, GATE, AHEAD = "alder-2", "birch-2", 3, 7_500
# Gate and number of the revision.
STAFF, FIRST_DAY = 65_535, 20_120

MAXIMA = ("EnteredOverOpen", "ExitedUnstarted", "ExitedLate")


class Touch(NamedTuple):
    """A touch of the network, with its reply."""

    station: str
    server: str
    place: int
    moment: int
    day: str
    gate: int
    number: int
    card: int
    own: int
    act: str
    station_number: int | None
    pence: int | None
    verdict: str
    change: int
    balance: int
    accepted: bool


# A touch that is made: its moment, its kind, its card and its value, where it has one. What a card holds: the card, its
# station, server and own number, its state, and the sums of its money.
Act: TypeAlias = tuple[int, ...]
Held: TypeAlias = tuple[int, str, str, int, str, int, int, int, int]


def moment_text(moment: int) -> str:
    return f"{datetime.datetime.fromtimestamp(moment, datetime.timezone.utc):%Y-%m-%dT%H:%M:%SZ}"


def date_text(day: int) -> str:
    return (datetime.date(1970, 1, 1) + datetime.timedelta(day)).isoformat()


class Server:
    """One server's requests, in the order in which they are sent, and the model that answers them."""

    def __init__(self, name: str, first_card: int, tables: Sequence[model.Table]) -> None:
        self.name, self.station_name, self.first_card = name, SERVERS[name], first_card
        self.random = random.Random(name)
        self.station = model.Station(tables[0], CARDS, supplied=tables[1:])
        self.numbers: collections.Counter[int] = collections.Counter()
        self.parts: tuple[list[bytes], list[bytes]] = ([], [])
        self.fronts: list[int] = []
        self.make()

    def make(self) -> None:
        """Makes the requests of all days, and has them answered. Moments are the true ones; a gate's clock may tell
        another. Who wasn't let in doesn't go out. The first part ends with Friday."""
        touches: list[Act] = []
        for card in range(1, CARDS + 1):
            touches += [(THURSDAY + 40_000 + card, codec.ISSUE, card)] if card % 13 else []
            touches.append((THURSDAY + 50_000 + card, codec.TOP_UP, card, self.random.choice((150, 4000, 6000, 9000, 9500))))
            for day in (1, 2):
                for hour in (self.random.gauss(8, 1), self.random.gauss(17, 1), self.random.uniform(9, 26))[card % 2:]:
                    touches += self.journey(card, THURSDAY + day * DAY + int(3600 * hour))
        if self.name != LACKS:
            # Before any card travels on a day from which it counts.
            touches.append((THURSDAY + 2 * DAY - 3600, codec.REVISE, 0))
        turned_away: set[int] = set()
        for moment, kind, card, *more in sorted(touches):
            if kind == codec.LEAVE and card in turned_away:
                turned_away.remove(card)
                continue
            part = moment >= THURSDAY + 2 * DAY + 2 * 3600
            if part and not self.fronts:
                self.fronts.append(len(self.station.history))
            self.parts[part].append(self.frame(moment, kind, card, *more))
            if self.station.answer(self.parts[part][-1])[9] >= 20 and kind == codec.ENTER:
                turned_away.add(card)
        self.fronts.append(len(self.station.history))

    def frame(self, moment: int, kind: int, card: int, *more: int) -> bytes:
        if kind == codec.REVISE:
            digest = model.Table(REVISED.read_text()).digest
            return codec.touch(kind, STAFF, FIRST_DAY, card, digest, FIRST_DAY, FIRST_DAY * DAY)
        gate = self.random.randint(1, 4)
        self.numbers[gate] += 1
        wrong = self.name == WRONG and gate == GATE and moment > THURSDAY + DAY and moment % DAY < 17 * 3600
        return codec.touch(kind, gate, self.numbers[gate], card, *more, moment + AHEAD * wrong)

    def journey(self, card: int, begins: int) -> list[Act]:
        """The touches of a journey, with one of the two forgotten or too late now and then, or at no station."""
        draw, start, finish = self.random.random(), self.random.randint(1, 5), self.random.randint(1, 5)
        ends = begins + self.random.randint(600, 4200) + (6000 if draw > 0.95 else 0)
        touches: list[Act] = [(begins, codec.ENTER, card, start), (ends, codec.LEAVE, card, finish if draw > 0.02 else 9)]
        if self.random.random() < 0.1:
            touches.append((ends + 60, codec.TOP_UP, card, self.random.choice((1000, 2000, 60_000))))
        if 0.02 < draw < 0.14:
            touches.pop(draw < 0.08)
        return touches

    def sent(self, part: int) -> Iterator[bytes]:
        """The frames of a part as a gate sends them: each tenth is sent again."""
        for place, frame in enumerate(self.parts[part]):
            yield from [frame] * (1 + (place % 10 == 9))

    def touches(self, front: int) -> Iterator[Touch]:
        """The touches of the history up to a front, with their replies."""
        for place, frame in enumerate(self.station.history[:front]):
            kind, gate, number, card, *act = struct.unpack(codec.FORMS[frame[2]], frame[2:])
            answer = self.station.named[gate, number][1]
            verdict, change, balance = struct.unpack(">Biq", answer[9:])
            day = act[-1] // DAY if kind == codec.REVISE else self.station.schedule.stamp(act[-1]).day
            yield Touch(self.station_name, self.name, place, act[-1], date_text(day), gate, number,
                        self.first_card + card - 1, card, codec.ACTS[kind],
                        act[0] if kind in (codec.ENTER, codec.LEAVE) else None,
                        act[0] if kind == codec.TOP_UP else None, model.VERDICTS[verdict], change, balance, verdict < 20)


class Town:
    """The network. A server's front says how many of its touches a database has: so the answers are of those."""

    def __init__(self) -> None:
        tables = [model.Table(path.read_text()) for path in (EXAMPLE, REVISED)]
        self.servers = {name: Server(name, 1 + CARDS * place, tables) for place, name in enumerate(SERVERS)}
        self.fronts = {name: server.fronts[1] for name, server in self.servers.items()}

    def touches(self) -> Iterator[Touch]:
        for name, server in self.servers.items():
            yield from server.touches(self.fronts[name])

    def held(self, card: int) -> list[Held]:
        return sorted(row for row in self.all_held() if row[0] == card)

    def all_held(self) -> list[Held]:
        """What each issued card holds, by the sums of its own accepted touches."""
        sums: dict[tuple[int, str, str, int], list[int]] = collections.defaultdict(lambda: [0, 0])
        states: dict[tuple[int, str, str, int], str] = {}
        for touch in self.touches():
            key = touch.card, touch.station, touch.server, touch.own
            if not touch.accepted or touch.act == "revision":
                continue
            states.setdefault(key, "outside")
            sums[key][touch.act != "top-up"] += touch.change
            if touch.act in ("in", "out"):
                states[key] = "inside" if touch.act == "in" else "outside"
        # Nothing was transferred into these journals.
        return [(*key, states[key], paid + travel, 0, paid, -travel) for key, (paid, travel) in sums.items()]

    def holdings(self) -> list[tuple[int, ...]]:
        # Each card of this network is on one server.
        return [(card, 1, int(state == "inside"), *money) for card, _, _, _, state, *money in sorted(self.all_held())]

    def journeys(self, days: Collection[str]) -> list[tuple[str, str, int, int, int, int]]:
        sums: dict[tuple[str, str], list[int]] = collections.defaultdict(lambda: [0, 0, 0, 0])
        for touch in self.touches():
            if touch.day in days and touch.accepted and touch.act != "revision":
                row = sums[touch.station, moment_text(touch.moment // 900 * 900)]
                row[0] += touch.verdict in ("Entered", "EnteredOverOpen")
                row[1] += touch.change if touch.act == "top-up" else 0
                row[3] -= touch.change if touch.act in ("in", "out") else 0
        return [(*key, row[0], row[1], row[2], row[3]) for key, row in sorted(sums.items())]

    def refusals(self, days: Collection[str]) -> list[tuple[str, str, int, str, int]]:
        counts = collections.Counter((touch.station, touch.server, touch.gate, touch.verdict)
                                     for touch in self.touches() if touch.day in days and not touch.accepted)
        return sorted((*key, count) for key, count in counts.items())

    def maxima(self, days: Collection[str]) -> list[tuple[str, str, int, int, str, str, int, int]]:
        rows: list[tuple[str, str, int, int, str, str, int, int]] = []
        entries: dict[int, Touch] = {}
        for touch in self.touches():
            if not touch.accepted or touch.act not in ("in", "out"):
                continue
            if touch.verdict in MAXIMA and touch.day in days:
                entry = 0 if touch.verdict == "ExitedUnstarted" else -entries[touch.card].change
                rows.append((touch.station, touch.server, touch.place, touch.card, touch.verdict,
                             moment_text(touch.moment), entry, -touch.change if touch.act == "out" else 0))
            if touch.act == "in":
                entries[touch.card] = touch
        return sorted(rows)

    def inside(self, first: str, before: int) -> list[tuple[str, str, int, int, str, int | None, int]]:
        """The cards whose last accepted touch in or out is a touch in, on a day from the first on and before a moment."""
        last = {touch.card: touch for touch in self.touches() if touch.accepted and touch.act in ("in", "out")}
        return sorted((touch.station, touch.server, touch.card, touch.place, moment_text(touch.moment),
                       touch.station_number, -touch.change) for touch in last.values()
                      if touch.act == "in" and touch.day >= first and touch.moment < before)

    def revisions(self) -> list[tuple[int, str, str, str, str]]:
        digest = model.Table(REVISED.read_text()).digest.hex()
        return [(FIRST_DAY, digest, station, server, "lacks it" if server == LACKS else "has it")
                for server, station in sorted(SERVERS.items(), key=lambda item: item[::-1])]

    def clocks(self, days: Collection[str]) -> list[tuple[str, str, int, int, int, int]]:
        rows: dict[tuple[str, str, int], list[tuple[int, int]]] = collections.defaultdict(list)
        last: dict[tuple[str, int], int] = {}
        for touch in self.touches():
            if touch.day in days and touch.act != "revision":
                back = last.get((touch.server, touch.gate), touch.moment) - touch.moment
                last[touch.server, touch.gate] = touch.moment
                if back > 0:
                    rows[touch.station, touch.server, touch.gate].append((back, touch.place))
        return sorted((*key, len(steps), max(steps)[0], min(place for _, place in steps)) for key, steps in rows.items())
