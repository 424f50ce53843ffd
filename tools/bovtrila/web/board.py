# SPDX-License-Identifier: Apache-2.0
"""Keeps what the page of bovtrila-exporter shows up to date while somebody reads it, and answers requests for it."""
import dataclasses
import pathlib
import re
import shlex
import socket
import threading
import time
from collections.abc import Callable
from typing import Any, NamedTuple

from bovtrila import condition, settings, wire
from bovtrila.door_reports import Reports
from bovtrila.journal_view import Journal, Tables
from bovtrila.web.facts import Now, Since, answered, begin_of, now_of, slots_of
from bovtrila.web.history import Day, Source, Touches, day_of, is_there, program_of, stations_of, touches_of, zone_of
from bovtrila.web.server import Answer, Refused, number_of, refusal
from bovtrila.web.statement import Statement, statement_of, words_of
from bovtrila.web.view import Pages
from bovtrila.wire import Wrong

# For how many seconds after a request the page is kept up to date, and how many seconds a request waits for the first facts.
WANTED, WAIT = 120, 5
# What is costly is done again only after so many times the seconds that it took.
REST = 20
# How many cards are read at once, and how many seconds a further one waits.
CARDS, CARD_WAIT = 2, 10
HTML, CSS = "text/html; charset=utf-8", "text/css; charset=utf-8"


class Target(NamedTuple):
    """A server, as bovtrila-status has it, the number of its slots of connections, if that is known, its folder, and the
    folder of systemd's journal if that isn't the usual one."""

    server: Any
    lines: int | None
    folder: pathlib.Path | None
    logs: pathlib.Path | None = None


class Board:
    """The facts of the page. The exporter's thread calls `look`; a thread of its own reads today's touches."""

    def __init__(self, find: Callable[[], Target], program: str | None, every: float, patience: float) -> None:
        self.find, self.program, self.every, self.patience = find, program_of(program), every, patience
        self.changed, self.wake = threading.Condition(), threading.Event()
        self.wanted_until, self.looked, self.since, self.is_up = 0.0, 0.0, Since(time.time(), True), False
        self.now: Now | None = None
        self.day: Day | None = None
        self.trouble: str | None = None
        self.target: Target | None = None
        self.journal: Journal | None = None
        self.reports = Reports(None)
        self.tables, self.pages = Tables(()), Pages(zone_of("UTC0"), stations_of([]), 1)
        self.inside: tuple[int | None, int | None, float] = (None, None, 0.0)
        self.read: tuple[object, ...] = ()
        self.next_day, self.cards = 0.0, threading.BoundedSemaphore(CARDS)

    def begin(self) -> None:
        """Starts the thread that reads today's touches."""
        threading.Thread(target=self.go_on, daemon=True).start()

    def want(self) -> None:
        """Notes that somebody reads the page."""
        self.wanted_until = time.monotonic() + WANTED
        if time.monotonic() - self.looked > self.every:
            self.wake.set()

    def is_wanted(self) -> bool:
        return time.monotonic() < self.wanted_until

    def notice(self, is_up: bool, now: float, is_first: bool = False) -> None:
        """Notes whether the server is up. A change begins a state."""
        if is_first or is_up != self.is_up:
            self.since, self.is_up = Since(now, is_first), is_up

    def aim(self) -> Target:
        """The server by its settings now, with its tables and its journal."""
        target = self.find()
        with self.changed:
            if target != self.target:
                tables = Tables(target.server.tables)
                zone = zone_of(tables.schedule.first.table["zone"] if tables.schedule else "UTC0")
                self.pages = Pages(zone, stations_of(target.server.tables), max(5, round(3 * self.every)))
                self.tables, self.target, self.journal, self.reports = tables, target, None, Reports(target.logs)
                self.day, self.read, self.inside = None, (), (None, None, 0.0)
        return target

    def look(self, line: wire.Connection | None, answer: dict[str, Any], now: float) -> None:
        """Works out the facts of now, by what the server answered over this connection."""
        target = self.aim()
        try:
            if self.journal is not None:
                self.journal.read()
            elif target.server.journal:
                self.journal = self.opened(target)
        except Wrong:
            # The file may be another journal by now: it is read from its beginning the next time.
            self.journal = None
            raise
        found, slots = answered(target.server, now, answer), None
        if line is not None:
            if isinstance(line.socket, socket.socket):
                slots = slots_of(line.socket, target.lines)
            if self.journal is not None and found["answers"]:
                found["cards_inside"] = self.count(line, self.journal, found["touches"])
        facts = now_of(target.server, self.journal, self.tables, found, self.since, slots, target.folder, now)
        # Without an answer, only the settings report whether the server has a door.
        if target.server.unit and (target.server.has_door or answer["answers"] and answer["halted"] is None):
            refused = self.reports.read(target.server.unit, begin_of(self.tables, self.tables.day(now), now))
            unread = self.reports.trouble or "the lines of the server are still being read"
            facts = dataclasses.replace(facts, refused=refused, unread=None if refused else unread)
        self.put(facts)

    @staticmethod
    def opened(target: Target) -> Journal:
        """A server's journal, read to its end."""
        journal = Journal(target.server.journal)
        journal.read()
        return journal

    def fail(self, answer: dict[str, Any], why: str, now: float) -> None:
        """Notes that the facts can't be worked out."""
        if self.target is not None:
            found = {**answered(self.target.server, now, answer), "up": False, "why": why}
            day = self.now.day if self.now else ""
            self.put(Now(now, found, [("up", f"NO: {why}")], self.since, day, None, None, [], []))

    def put(self, now: Now) -> None:
        with self.changed:
            self.now, self.looked = now, time.monotonic()
            self.changed.notify_all()

    def count(self, line: wire.Connection, journal: Journal, front: int | None) -> int | None:
        """How many cards are inside. Many cards aren't counted at each look."""
        count, before, later = self.inside
        if front == before or time.monotonic() < later:
            return count
        begun = time.monotonic()
        count = condition.count_inside(line, journal.entered)
        ended = time.monotonic()
        self.inside = count, front, ended + REST * (ended - begun)
        return count

    def go_on(self) -> None:
        """Reads today's touches after each change of the journal, while somebody reads the page."""
        while True:
            with self.changed:
                self.changed.wait(self.every)
                now, target = self.now, self.target
            if now is not None and target is not None and self.is_wanted() and time.monotonic() >= self.next_day:
                self.read_day(now, target)

    def source(self, target: Target) -> Source:
        """What `history` reads of a server."""
        if self.program is None:
            raise Wrong("the program bovtrila isn't there: name it by --program")
        if not target.server.journal or not target.server.tables:
            raise Wrong("the journal or the tables aren't known: name them by --journal and --table")
        found = Source(self.program, target.server.journal, target.server.tables)
        if not is_there(found):
            raise Wrong("the journal or a table isn't there")
        return dataclasses.replace(found, carried=(self.journal or self.opened(target)).carried)

    def read_day(self, now: Now, target: Target) -> None:
        """Reads today's touches, if the journal or the day has changed."""
        mark = target, now.day, self.journal.touches if self.journal else None
        if mark == self.read:
            return
        begun, trouble, day = time.monotonic(), None, None
        try:
            day = day_of(self.source(target), now.day, self.pages.zone)
        except Exception as error:
            # The thread goes on, and tries again after the next change.
            trouble = str(error)
        ended = time.monotonic()
        with self.changed:
            self.day, self.trouble, self.read = day, trouble, () if trouble else mark
            self.next_day = ended + max(self.every, REST * (ended - begun))
            self.changed.notify_all()

    def facts(self) -> tuple[Now | None, Day | None, str | None]:
        """The newest facts. The first reader waits for them some seconds."""
        self.want()
        until = time.monotonic() + WAIT
        with self.changed:
            while self.is_old() and time.monotonic() < until:
                self.changed.wait(until - time.monotonic())
            now, day, trouble, age = self.now, self.day, self.trouble, time.monotonic() - self.looked
        if now is not None and age > self.patience:
            why = f"the last check of the server was {age:.0f} seconds ago, and hangs"
            now = dataclasses.replace(now, found={**now.found, "up": False, "why": why},
                                      rows=[("up", f"NO: {why}"), *(row for row in now.rows if row[0] != "up")])
        return now, day, trouble

    def is_old(self) -> bool:
        """Whether the facts are from before the present readers, or today's touches weren't read yet."""
        is_read = self.day is not None or self.trouble is not None
        return self.now is None or not is_read or time.monotonic() - self.looked > 2 * self.every + 1

    def answer(self, path: str, query: str) -> Answer:
        """The answer to a request for the page."""
        if path == "/":
            if query not in ("", "refresh=off"):
                return refusal(400, "this page has no such part")
            now, day, trouble = self.facts()
            return Answer(200, HTML, self.pages.station(now, day, trouble, not query).encode())
        if path in ("/card", "/touches"):
            return self.card(path, query)
        if path == "/style.css" and not query:
            return Answer(200, CSS, self.pages.style().encode(), {"Cache-Control": "max-age=3600"})
        return refusal(404, "look at /, /card, /touches, /metrics or /health")

    def card(self, path: str, query: str) -> Answer:
        """The page of the statement, or of the touches, of the card that a query names."""
        try:
            number = number_of(query)
        except Refused as refused:
            return Answer(400, HTML, self.pages.card(path, "", None, refused.answer.body.decode().strip(), None).encode())
        found, status = None, 200
        fault: str | None = None
        command: str | None = None
        try:
            target = self.aim()
            if number is not None:
                found, command = self.found(target, path, number)
        except (Wrong, OSError) as wrong:
            unknown = why_unknown(number, str(wrong))
            status, fault = (404, unknown) if unknown else (500, str(wrong))
        text = self.pages.card(path, "" if number is None else str(number), found, fault, command)
        return Answer(status, HTML, text.encode())

    def found(self, target: Target, path: str, number: int) -> tuple[Statement | Touches, str]:
        """A card's statement or its touches, and the command that prints all of them."""
        first, last = settings.RANGES["cards"]
        if not first <= number <= last:
            raise Wrong(f"fault card {number} above {last}")
        source = self.source(target)
        if not self.cards.acquire(timeout=CARD_WAIT):
            raise Refused(refusal(503, "other cards are being read: try again in some seconds", **{"Retry-After": "10"}))
        try:
            if path == "/touches":
                return touches_of(source, number), shlex.join(source.words("history", "--card", str(number)))
            return statement_of(source, number), shlex.join(words_of(source, number, "text"))
        finally:
            self.cards.release()


def why_unknown(number: int | None, said: str) -> str | None:
    """In words, why a command knows no such card, if that is what it said."""
    match = re.search(r"fault card [0-9]+ (?:above (?P<most>[0-9]+)|not issued)", said)
    if match is None:
        return None
    if match["most"]:
        return f"no card has the number {number}: the cards of this server have the numbers 1 to {match['most']}"
    return f"card {number} was never issued: this journal has no accepted issue of it"
