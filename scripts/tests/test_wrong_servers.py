"""Tests that bovtrila-certify finds servers with a wrong rule of fares, servers that have lost touches, and servers that
were started in another way than its vectors need.

Each server is the reference model (bovtrila.model): in those with wrong fares, one rule of docs/reference/FARES.md is
replaced. It doesn't need the program. All traffic stays on 127.0.0.1.
"""
import collections
import datetime
import pathlib
import socket
import subprocess
import tempfile
import time
import unittest
import unittest.mock
from collections.abc import Callable, Sequence
from typing import Any, Literal, TypeAlias

from bovtrila import codec, places, vector_file, wire
from bovtrila.model import EARLY, EVENING, OFF, Card, Fare, Journey, Schedule, Stamp, Station, Table, Tap, Window
from bovtrila.table_rows import Cap
from harness import TIME, TOP
from planted import Planted

# A price, and the zones that it is for.
Choice: TypeAlias = tuple[int, int, int]

CERTIFY = TOP / "bin" / "bovtrila-certify"


def stamped(early: tuple[int, int] = (390 * 60, 570 * 60), evening: tuple[int, int] = (960 * 60, 1140 * 60),
            begins: int = 270, week: int = 5, holidays: bool = True,
            clock: Callable[[int], time.struct_time] = time.localtime) -> Callable[[Schedule, int], Stamp]:
    """A rule of stamps with other windows (in seconds of the day), another beginning of the fare day (in minutes),
    another week, no holidays, or another clock."""
    def stamp(schedule: Schedule, moment: int) -> Stamp:
        shown = clock(moment)
        civil = codec.days(datetime.date(shown.tm_year, shown.tm_mon, shown.tm_mday))
        second = 3600 * shown.tm_hour + 60 * shown.tm_min + shown.tm_sec
        day = civil - 1 if second < 60 * begins else civil
        window: Window = OFF
        if shown.tm_wday < week and not (holidays and civil in schedule.on(day).holidays):
            window = EARLY if early[0] <= second < early[1] else OFF
            window = EVENING if evening[0] <= second < evening[1] else window
        return Stamp(moment, day, window)
    return stamp


def priced(evening: Sequence[Window] = (EVENING,), inwards: Callable[[list[int], list[int]], bool] = lambda origin,
           destination: 1 not in origin and 1 in destination,
           choose: Callable[[list[Choice]], Choice] = min, zones: Callable[[list[int]], list[int]] = lambda zones: zones,
           pairs: bool = True, is_two_way: bool = True, own_zones: bool = False) -> Callable[[Table, int, int, Window],
                                                                                             Fare]:
    """A rule of fares with another evening exception, another choice of zones or other named pairs."""
    def fare(table: Table, start: int, finish: int, window: Window) -> Fare:
        origin, destination = table.stations[start], table.stations[finish]
        off_peak = window == OFF or (window in evening and table.table["evening_rule"] and inwards(origin, destination))
        band: Literal["peak", "off_peak"] = "off_peak" if off_peak else "peak"
        choices = [(table.singles[min(one, other), max(one, other)][band], one, other)
                   for one in zones(origin) for other in zones(destination)]
        pence, one, other = choose(choices)
        pair = table.pairs.get(frozenset((start, finish))) if pairs else None
        if pair and (is_two_way or pair["from"] == start):
            low, high = (min(one, other), max(one, other)) if own_zones else (pair["lo"], pair["hi"])
            return Fare(pair[band], low, high, off_peak)
        return Fare(pence, min(one, other), max(one, other), off_peak)
    return fare


def charged(late: bool = True, open_entries: bool = True, late_window: str | None = None, band: str | None = None,
            by_leg: bool = False, day: str | None = None, capped: bool = False) -> Callable[[Card], int]:
    """A rule of what travel costs, in which one part is another."""
    def cost(card: Card) -> int:
        journeys: dict[int, Journey] = {}
        incomplete = 0
        loose: dict[int, list[Fare]] = collections.defaultdict(list)
        for place, tap in enumerate(card.taps):
            if tap.is_entry and not (place + 1 < len(card.taps) and card.ends_leg(place + 1)):
                start, is_last = card.first(place), place + 1 == len(card.taps)
                kept = card.of_entry(start, tap).maximum(start.stamp.window) if open_entries or is_last else 0
                incomplete += kept
                loose[start.stamp.day].append(Fare(kept, 1, 1, False))
            elif not tap.is_entry and not card.ends_leg(place):
                is_late = place > 0 and card.taps[place - 1].is_entry
                window = card.taps[place - 1].stamp.window if is_late and late_window else tap.stamp.window
                taken = card.of_late(tap).maximum(window) if late or not is_late else 0
                incomplete += taken
                loose[tap.stamp.day].append(Fare(taken, 1, 1, False))
            elif not tap.is_entry:
                start = card.taps[place - 1] if by_leg else card.first(place - 1)
                journeys[id(start)] = Journey(start, tap)
        fares: dict[int, list[Fare]] = collections.defaultdict(list)
        for start, finish in journeys.values():
            window = (finish if band else start).stamp.window
            fare = card.of_fare(start, finish).fare(start.station, finish.station, window)
            fares[(finish if day else start).stamp.day].append(fare)
        if capped:
            days = {*fares, *loose}
            return sum(card.of_day(each).day_charge(fares[each] + loose[each]) for each in days)
        return sum(card.of_day(each).day_charge(of_it) for each, of_it in fares.items()) + incomplete
    return cost


def late_by(seconds: int) -> Callable[[Card, int], bool]:
    """A rule of legs whose limit is so many seconds off."""
    def ends_leg(card: Card, place: int) -> bool:
        if place == 0 or card.taps[place].is_entry or not card.taps[place - 1].is_entry:
            return False
        start, finish = card.taps[place - 1], card.taps[place]
        limit = 60 * card.of_leg(start, finish).leg_minutes(start.station, finish.station) + seconds
        return finish.stamp.moment - start.stamp.moment <= limit
    return ends_leg


def going_on(is_any: bool = False, is_two_way: bool = True, seconds: int = 0, of_late: bool = False,
             is_same: bool = False) -> Callable[[Card, int], bool]:
    """A rule of interchanges with another limit, one direction, or other touches out before."""
    def continues(card: Card, place: int) -> bool:
        taps = card.taps
        if place < 2 or not taps[place].is_entry or taps[place - 1].is_entry or not taps[place - 2].is_entry:
            return False
        if not of_late and not card.ends_leg(place - 1):
            return False
        before, start = taps[place - 1], taps[place]
        rows = card.of_interchange(before, start).table.get("interchange", [])
        ways = {(row["a"], row["b"]): row["minutes"] for row in rows}
        if is_two_way:
            ways |= {(row["b"], row["a"]): row["minutes"] for row in rows}
        if is_any or is_same and before.station == start.station:
            ways[before.station, start.station] = 10
        limit = ways.get((before.station, start.station))
        return limit is not None and start.stamp.moment - before.stamp.moment <= 60 * limit + seconds
    return continues


def own_window(card: Card, start: Tap, tap: Tap) -> object:
    """The maximum of a touch in that goes on, by the window of that touch."""
    class Own:
        maximum = staticmethod(lambda _: card.schedule.of(start.stamp).maximum(tap.stamp.window))
    return Own


def lowered(table: Table, window: Window) -> int:
    """The maximum, with the evening as off-peak where the table has the evening rule."""
    is_off_peak = window == OFF or window == EVENING and table.table["evening_rule"]
    return table.table["maximum_off_peak"] if is_off_peak else table.table["maximum_peak"]


def capped(covers: Callable[[Cap, Fare], bool]) -> Callable[[Table, Sequence[Fare]], int]:
    """A rule of caps with another test of what a cap covers."""
    def day_charge(table: Table, fares: Sequence[Fare]) -> int:
        charges = [sum(fare.pence for fare in fares)]
        for cap in table.caps:
            charges.append(cap["price"] + sum(fare.pence for fare in fares if not covers(cap, fare)))
        return min(charges)
    return day_charge


def is_within(cap: Cap, fare: Fare) -> bool:
    return cap["lo"] <= fare.low and fare.high <= cap["hi"]


def summed_caps(table: Table, fares: Sequence[Fare]) -> int:
    """Each cap applied by itself to what the ones before it left."""
    left, total = list(fares), 0
    for cap in table.caps:
        covered = [fare for fare in left if is_within(cap, fare) and (cap["kind"] == "anytime" or fare.off_peak)]
        if sum(fare.pence for fare in covered) > cap["price"]:
            total += cap["price"]
            left = [fare for fare in left if fare not in covered]
    return total + sum(fare.pence for fare in left)


def refusing(change: Callable[[Card, int, Sequence[int], int | None], int | None]) -> Callable[[Card, int, Sequence[int]],
                                                                                               int | None]:
    """A rule of refusals in which some are others."""
    def refusal(card: Card, kind: int, values: Sequence[int],
                right: Callable[[Card, int, Sequence[int]], int | None] = Card.refusal) -> int | None:
        return change(card, kind, values, right(card, kind, values))
    return refusal


def by_the_moment(card: Card, kind: int, values: Sequence[int], right: int | None) -> int | None:
    if right == 23 and values[1] >= card.taps[-1].stamp.moment:
        return None
    return right


def balance_first(card: Card, kind: int, values: Sequence[int], right: int | None) -> int | None:
    if right in (22, 23) and kind == codec.ENTER and card.balance() < card.of_refusal(values[1]).table["entry_minimum"]:
        return 24
    return right


def above_the_minimum(card: Card, kind: int, values: Sequence[int], right: int | None) -> int | None:
    if right is None and kind == codec.ENTER:
        return 24 if card.balance() == card.of_refusal(values[1]).table["entry_minimum"] else None
    return right


def below_the_limit(card: Card, kind: int, values: Sequence[int], right: int | None) -> int | None:
    if right is None and kind == codec.TOP_UP:
        return 26 if card.balance() + values[0] == card.of_refusal(values[1]).table["balance_limit"] else None
    return right


FARES, EXAMPLE, LIMITS, REVISED = "fares", "example", "limits", "revised"
# Of each section of docs/reference/FARES.md the wrong rules: the server of docs/vectors.txt that finds it, and what is
# replaced.
RULES: dict[str, dict[str, tuple[str, type, str, Callable[..., object]]]] = {
    "Stamp": {
        "holidays ignored": (EXAMPLE, Schedule, "stamp", stamped(holidays=False)),
        "a peak at the weekend": (EXAMPLE, Schedule, "stamp", stamped(week=7)),
        "a peak on Saturdays": (EXAMPLE, Schedule, "stamp", stamped(week=6)),
        "an early peak from 06:31": (EXAMPLE, Schedule, "stamp", stamped(early=(391 * 60, 570 * 60))),
        "09:30 inclusive": (EXAMPLE, Schedule, "stamp", stamped(early=(390 * 60, 570 * 60 + 1))),
        "evening from 16:01": (EXAMPLE, Schedule, "stamp", stamped(evening=(961 * 60, 1140 * 60))),
        "19:00 inclusive": (EXAMPLE, Schedule, "stamp", stamped(evening=(960 * 60, 1140 * 60 + 1))),
        "a fare day from midnight": (EXAMPLE, Schedule, "stamp", stamped(begins=0)),
        "a fare day from 04:31": (EXAMPLE, Schedule, "stamp", stamped(begins=271)),
        "no summer time": (EXAMPLE, Schedule, "stamp", stamped(clock=time.gmtime)),
    },
    "Band": {
        "no evening rule": (EXAMPLE, Table, "fare", priced(evening=())),
        "the evening rule with an origin in zone 1": (
            EXAMPLE, Table, "fare", priced(inwards=lambda origin, destination: 1 in destination)),
        "the evening rule out of zone 1": (
            EXAMPLE, Table, "fare", priced(inwards=lambda origin, destination: 1 in origin and 1 not in destination)),
        "the evening rule for destinations of zone 1 alone": (
            FARES, Table, "fare", priced(inwards=lambda origin, destination: 1 not in origin and destination == [1])),
        "the evening rule in the morning": (EXAMPLE, Table, "fare", priced(evening=(EARLY, EVENING))),
        "the band by the touch out": (EXAMPLE, Card, "charged", charged(band="touch out")),
    },
    "Single fare": {
        "the dearest zones": (EXAMPLE, Table, "fare", priced(choose=max)),
        "the first zone alone": (EXAMPLE, Table, "fare", priced(zones=lambda zones: zones[:1])),
    },
    "Fare by a table": {
        "named pairs ignored": (EXAMPLE, Table, "fare", priced(pairs=False)),
        "one-way pairs": (EXAMPLE, Table, "fare", priced(is_two_way=False)),
        "a named pair with its stations' zones": (FARES, Table, "fare", priced(own_zones=True)),
        "a tie that takes the higher zone": (
            EXAMPLE, Table, "fare", priced(
                choose=lambda choices: min(choices, key=lambda choice: (choice[0], -choice[1], -choice[2])))),
    },
    "Leg": {
        "a leg's last second too late": (EXAMPLE, Card, "ends_leg", late_by(-1)),
        "a leg a second longer": (EXAMPLE, Card, "ends_leg", late_by(1)),
        "pair.minutes ignored": (
            FARES, Table, "leg_minutes", lambda table, start, finish: table.table["leg_minutes"]),
        "one-way pair.minutes": (
            FARES, Table, "leg_minutes", lambda table, start, finish: next(
                (pair.get("minutes", table.table["leg_minutes"]) for pair in table.pairs.values()
                 if (pair["from"], pair["to"]) == (start, finish)), table.table["leg_minutes"])),
    },
    "Journey": {
        "no interchanges": (EXAMPLE, Card, "continues", lambda card, place: False),
        "one-way interchanges": (EXAMPLE, Card, "continues", going_on(is_two_way=False)),
        "an interchange's last second too late": (EXAMPLE, Card, "continues", going_on(seconds=-1)),
        "an interchange a second longer": (EXAMPLE, Card, "continues", going_on(seconds=1)),
        "an interchange at the same station": (EXAMPLE, Card, "continues", going_on(is_same=True)),
        "an interchange behind a late touch out": (EXAMPLE, Card, "continues", going_on(of_late=True)),
        "legs added up": (EXAMPLE, Card, "charged", charged(by_leg=True)),
    },
    "Entry charge": {
        "a continued entry by its own window": (EXAMPLE, Card, "of_entry", own_window),
        "an entry charge lowered in the evening": (EXAMPLE, Table, "maximum", lowered),
    },
    "Incomplete": {
        "a touch in left open that costs nothing": (EXAMPLE, Card, "charged", charged(open_entries=False)),
        "a late touch out that costs nothing": (EXAMPLE, Card, "charged", charged(late=False)),
        "a late touch out by the window of its touch in": (EXAMPLE, Card, "charged", charged(late_window="in")),
    },
    "Daily cap": {
        "no caps": (EXAMPLE, Table, "day_charge", lambda table, fares: sum(fare.pence for fare in fares)),
        "an off-peak cap that covers the peak": (EXAMPLE, Table, "day_charge", capped(is_within)),
        "a cap whatever the zones": (
            EXAMPLE, Table, "day_charge", capped(lambda cap, fare: cap["kind"] == "anytime" or fare.off_peak)),
        "an off-peak cap that stands for the whole day": (
            EXAMPLE, Table, "day_charge", capped(lambda cap, fare: cap["kind"] == "off-peak" or is_within(cap, fare))),
        "several caps on one day": (EXAMPLE, Table, "day_charge", summed_caps),
        "journeys of the day of their touch out": (EXAMPLE, Card, "charged", charged(day="touch out")),
        "maximum charges inside the caps": (EXAMPLE, Card, "charged", charged(capped=True)),
    },
    "Verdicts": {
        "an entry minimum to be exceeded": (EXAMPLE, Card, "refusal", refusing(above_the_minimum)),
        "a balance limit that can't be reached": (EXAMPLE, Card, "refusal", refusing(below_the_limit)),
        "earlier by the moment alone": (LIMITS, Card, "refusal", refusing(by_the_moment)),
        "a low balance before other refusals": (EXAMPLE, Card, "refusal", refusing(balance_first)),
    },
    "Revision": {
        "a fare by the table at the touch out": (
            REVISED, Card, "of_fare", lambda card, start, finish: card.schedule.of(finish.stamp)),
        "a revision from the day after": (
            REVISED, Schedule, "on", lambda schedule, day, on=Schedule.on: on(schedule, day - 1)),
        "a revision of a day with travel": (REVISED, Station, "travelled", lambda station: []),
        "a revision of the day of the last one": (REVISED, Station, "revised", lambda station: []),
    },
}


def certify(server: Planted, *words: object) -> subprocess.CompletedProcess[str]:
    return subprocess.run([CERTIFY, server.text, *map(str, words)], capture_output=True, text=True, timeout=5 * TIME)


class CertifyTest(unittest.TestCase):
    """Each test has the vectors without their bad beginnings, which take a thousand connections, and without those that
    are waited for."""

    def setUp(self) -> None:
        room = tempfile.TemporaryDirectory(prefix="wrong-servers-")
        self.addCleanup(room.cleanup)
        self.vectors = pathlib.Path(room.name) / "vectors.txt"
        lines = places.VECTORS.read_text().split("\n")
        self.vectors.write_text("\n".join(line for line in lines if not line.startswith(("#! bad", "#! waits"))))
        for table in places.VECTORS.parent.glob("*.toml"):
            (self.vectors.parent / table.name).write_text(table.read_text())

    def certified(self, server: Planted, name: str, *words: object) -> tuple[int, list[str]]:
        """What certify says of a server."""
        done = certify(server, "--vectors", self.vectors, "--server", name, "--timeout", 30, *words)
        self.assertEqual(done.stderr, "")
        return done.returncode, done.stdout.split("\n")[:-1]

    def planted(self, *words: Any) -> Planted:
        server = Planted(*words)
        self.addCleanup(server.end)
        return server


class Fares(CertifyTest):
    """Servers with one wrong rule."""

    def test_each_section_of_the_rules_has_a_wrong_one(self) -> None:
        page = (TOP / "docs" / "reference" / "FARES.md").read_text()
        for section in RULES:
            self.assertIn(f"\n## {section}\n", page)
        self.assertGreaterEqual(sum(map(len, RULES.values())), 25)

    def test_right_servers_are_certified(self) -> None:
        for station in vector_file.read():
            with self.subTest(station.name):
                status, said = self.certified(self.planted(None, station.name), station.name)
                self.assertEqual((status, said[-1].split(", ")[1]), (0, "0 failed"), said)

    def test_each_wrong_rule_is_found_by_the_vectors(self) -> None:
        for section, rules in RULES.items():
            for name, (server, owner, rule, wrong) in rules.items():
                with self.subTest(f"{section}: {name}"), unittest.mock.patch.object(owner, rule, wrong):
                    status, said = self.certified(self.planted(None, server), server)
                    self.assertEqual(status, 1, said[-1])
                    counts = next(line for line in said if line.startswith("vectors: "))
                    self.assertRegex(counts, r"^vectors: \d+ passed, [1-9]\d* failed$")


class Restarted(CertifyTest):
    """Servers that were certified, and then have lost touches."""

    def lost(self, server: Planted, *words: object) -> tuple[int, list[str], str]:
        """The status of a server that was started again, and what fails."""
        status, said = self.certified(server, "revised", "--restarted", *words)
        return status, [line for line in said if line.startswith("failed: ")], said[-1]

    def test_a_server_that_kept_all_is_certified_again_and_again(self) -> None:
        lines: tuple[tuple[object, ...], ...] = ((), ("--lines", 2))
        for words in lines:
            server = self.planted(None, "revised")
            self.assertEqual(self.certified(server, "revised", *words)[0], 0)
            count = len(server.station.history)
            for _ in range(2):
                server.lose(())
                # The number of touches; of each another one under its name, and a repeat; and the number again.
                self.assertEqual(self.lost(server, *words), (0, [], f"{2 * count + 2} passed, 0 failed"))

    def test_a_server_that_lost_touches_fails_by_its_front(self) -> None:
        server = self.planted(None, "revised")
        self.assertEqual(self.certified(server, "revised")[0], 0)
        count = len(server.station.history)
        self.assertGreater(count, 150)
        losses: tuple[Sequence[int], ...] = (range(count), range(0, count, 2), range(count // 2, count),
                                             range(count - 30, count), [0], [count - 1], [count // 2])
        for lost in losses:
            with self.subTest(len(lost)):
                server.lose(lost)
                status, failed, last = self.lost(server)
                self.assertEqual((status, last), (1, "0 passed, 1 failed"))
                self.assertIn(f"the server was sent {count} touches that it recorded, and has {count - len(lost)}: "
                              f"it lost {len(lost)}.", failed[0])
                self.assertEqual(len(server.station.history), count - len(lost), "it was changed by being looked at")

    def test_a_server_that_lost_touches_and_hides_it_fails_by_a_conflict(self) -> None:
        server = self.planted(None, "revised")
        self.assertEqual(self.certified(server, "revised")[0], 0)
        count = len(server.station.history)
        losses: tuple[Sequence[int], ...] = (range(count), range(0, count, 2), range(count - 30, count), [0], [count - 1],
                                             [count // 2])
        for lost in losses:
            with self.subTest(len(lost)):
                server.lose(lost, tells_all=True)
                status, failed, _ = self.lost(server)
                assert server.whole, "it lost some"
                name = wire.gate_and_number(server.whole[lost[0]][3:9])
                self.assertEqual(status, 1)
                self.assertTrue(any(f"failed: another touch under {name}: " in line for line in failed), failed)

    def test_another_number_of_lines_is_told(self) -> None:
        server = self.planted(None, "full")
        self.assertEqual(self.certified(server, "full")[0], 0)
        server = self.planted(None, "revised")
        self.assertEqual(self.certified(server, "revised", "--lines", 2)[0], 0)
        status, failed, _ = self.lost(server)
        self.assertEqual(status, 1)
        self.assertIn("20 were added. (Were --server and --lines the same", failed[0])


class Told(CertifyTest):
    """What certify says of a wrong server."""

    def started(self, server: str, **words: Any) -> tuple[int, list[str]]:
        """What certify says first of a server of other vectors, or with other words."""
        planted = self.planted(None, words.pop("name", server))
        station = planted.station
        if "cards" in words:
            station.cards = {number: Card(station.schedule) for number in range(1, words["cards"] + 1)}
        station.capacity = words.get("capacity", station.capacity)
        return self.certified(planted, server)

    def test_a_server_that_was_started_otherwise_is_told_first_and_once(self) -> None:
        rows: tuple[tuple[str, dict[str, Any], str], ...] = (
                (EXAMPLE, {"cards": 5}, "it has fewer cards than 10"),
                (EXAMPLE, {"cards": 11}, "it has more cards than 10"),
                (EXAMPLE, {"capacity": 20}, "its capacity is below 1000"),
                ("full", {"capacity": 3}, "its capacity is above 2"),
                (REVISED, {"name": EXAMPLE}, "a fare table isn't there that it should have"),
                (EXAMPLE, {"name": REVISED}, "it has a fare table that it shouldn't have"),
                (FARES, {"name": EXAMPLE}, "its fare table has other stations"))
        for server, words, said in rows:
            with self.subTest(said):
                status, lines = self.started(server, **words)
                self.assertEqual(status, 1)
                self.assertIn(f"the server seems to be started otherwise than the vectors of '{server}' need: {said}",
                              lines[0])
                self.assertIn("They need: --table ", lines[0])
                self.assertEqual(sum("started otherwise" in line for line in lines), 1)

    def test_a_wrong_answer_is_told_by_its_fields(self) -> None:
        with unittest.mock.patch.object(Schedule, "stamp", stamped(week=7)):
            _, said = self.certified(self.planted(), EXAMPLE)
        self.assertRegex(said[0], r"^failed: line \d+ \[days without a peak\]: touch in: gate 10, number 17, card 2, "
                         r"station 2, moment 1736582400 \(2025-01-11 08:00:00 UTC\): the answer \(reply to gate 10 "
                         r"number 17\) has change -900 and should have -700; balance 860 and should have 1060$")

    def test_another_kind_of_answer_is_told_by_its_fields(self) -> None:
        right = bytes.fromhex("00148100070000000404000002260000000000000672")
        self.assertEqual(wire.differences(bytes.fromhex("0008ff02000700000004"), right),
                         "is fault: code 2 (conflict: the number stands for another touch), gate 7, number 4. It "
                         "should be reply: gate 7, number 4, verdict 4 (out), change 550, balance 1650")
        held, other = (bytes.fromhex(f"000e8501000000000000067200{front}") for front in ("000004", "000003"))
        self.assertEqual(wire.differences(other, held), "(enquiry answer) has front 3 and should have 4")

    def test_a_server_that_ends_is_told_once(self) -> None:
        server = self.planted()
        answered: list[socket.socket] = []
        serve = server.serve

        def few(connection: socket.socket) -> None:
            answered.append(connection)
            if len(answered) == 40:
                server.end()
            serve(connection)
        vars(server)["serve"] = few
        done = certify(server, "--vectors", self.vectors, "--timeout", 30)
        self.assertEqual(done.returncode, 1)
        self.assertRegex(done.stderr, r"certify: the server refuses connections after the first \d+: it has ended, or it "
                                      r"serves no more\. For Bovtrila: start it without --connections\n$")
        self.assertEqual(done.stdout.count("refused"), 0)
