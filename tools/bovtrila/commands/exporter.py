# SPDX-License-Identifier: Apache-2.0
"""Serves metrics of a running server to Prometheus, and a page for people at http://127.0.0.1:9814/. The metrics are whether
the server answers and how fast, whether it is halted, how many touches it has, how much room its journal and its disk have
left, how old the last copies and the last seal of its journal are, when the certificates of its TLS end, and what its door
refuses.

The page shows the facts of bovtrila-status with warnings; today's touches, refusals and maximum charges; the gates with
their last touch and their share of refusals; what the door refused today; and a card's statement and touches. It
refreshes itself, needs no JavaScript, and changes nothing. `bovtrila history` prints the touches and `bovtrila statement`
the statement, each in at most 20 seconds and 1 GiB of memory. Anyone who can connect to the address can read the page.
OPERATING.md, "A page for the staff", describes how to put it behind a password.

It opens one connection to the server, which takes one connection slot (--lines), and sends requests over it at a fixed
interval. An enquiry changes nothing. The second request is a revision to a table that no server has. A halted server
answers it with fault 3 and any other with fault 6; none records it (PROTOCOL.md, "Revisions"). A server with a door isn't
sent the second request, and its door needs a rule * with enquiries. The exporter also reads the journal's file, without a
lock. /metrics returns the values that it found last.

/health is for programs such as curl. It returns one line of JSON that says whether the server takes new touches, with
status 200 if it does. The status is 503 if the server doesn't answer, is halted or full, or has a full disk; "why" has
the reason.

    bovtrila_up                 1 if the server answers, else 0
    bovtrila_halted             1 if its disk has failed: it records no touch.
                                It isn't there for a server with a door
    bovtrila_enquiry_seconds    how long enquiries took, a histogram
    bovtrila_touches            how many touches its history has
    bovtrila_capacity           how many touches its journal has room for
    bovtrila_room               how many more it has room for
    bovtrila_last_touch_timestamp_seconds
                                when the journal was last written, by this
                                machine's clock
    bovtrila_journal_missing_bytes
                                how many bytes the journal still lacks of its
                                whole size
    bovtrila_disk_free_bytes    how many bytes are free on its disk
    bovtrila_copy_age_seconds   how old the newest copy is (bovtrila-keep-copies)
    bovtrila_seal_age_seconds   how old its newest seal is
    bovtrila_remote_copy_age_seconds
                                how old the newest touches are that another
                                computer has (bovtrila-send-copy)
    bovtrila_next_journal_enabled
                                1 if the timer is enabled that changes to a new
                                journal (bovtrila-next-journal), else 0
    bovtrila_next_journal_failed
                                1 if the last unattended change to a new journal
                                failed, else 0: the server runs on the old one
    bovtrila_certificate_end_timestamp_seconds
                                when a certificate in the folder --tls ends:
                                of the server, of the authority, of its
                                revocation list, and of each gate in the
                                authority's list there
    bovtrila_not_allowed_total  how many requests and connections its door has
                                refused since the machine started, by the rule
                                and the reason (FAULTS.md, "What a door
                                refuses"). The reason "rule" has no rule
    bovtrila_no_proxy_header_total
                                how many lines `no proxy header` it has printed
                                since then, at most one a minute

A metric is left out if its value isn't known, such as the age of remote copies before bovtrila-send-copy first ran, or
with --server, which names no folder, the two of bovtrila-next-journal. If there is no copy or no seal, its age is
infinite. The last two metrics count lines that the server's unit has in systemd's journal. They need python3-systemd, a
user in the group systemd-journal, and with --server or --config the option --unit.

The server and its journal are those in the settings (--config), which are read again each time. Therefore the exporter
follows a server to its next journal.

It listens on 127.0.0.1:9814. With --name, for one of several servers, the port is the server's port plus 5800: 9816 for
the server at port 4016.

It needs python3-prometheus-client, and for the page python3-jinja2. It prints `listening ADDR` on standard error. The
status is 1 if it can't start, for example if the settings name no address, and 2 for a wrong command line.

    bovtrila-exporter
    bovtrila-exporter --name alder-1 --listen 127.0.0.1:9816
    bovtrila-exporter --server 127.0.0.1:4014 --journal station.journal --copies /mnt/copies --every 2
    bovtrila-exporter --server 127.0.0.1:4014 --journal station.journal --table first.toml
    bovtrila-exporter --server 127.0.0.1:4014 --proxy --unit bovtrila-trial
    curl http://127.0.0.1:9814/health
"""
import argparse
import json
import pathlib
import signal
import sys
import threading
import time
from collections.abc import Iterator
from typing import Any


try:
    from prometheus_client import CollectorRegistry, Histogram
    from prometheus_client.exposition import CONTENT_TYPE_LATEST, generate_latest

    from bovtrila import metrics

    HAS_CLIENT = True
except ImportError:
    # --help is there all the same.
    HAS_CLIENT = False

from bovtrila import certificates, condition, copies, due, journal_tail, overview, proxied, serving, settings, wire
from bovtrila.door_reports import Found, Reports
from bovtrila.web import server as web_server
from bovtrila.web.server import Answer
from bovtrila.wire import Wrong

try:
    from bovtrila.web.board import Board, Target

    HAS_PAGE = True
except ImportError:
    # The metrics are there all the same.
    HAS_PAGE = False

# For how many seconds the certificates' ends are taken to be as they were.
HOUR = 3600
ELSEWHERE = "/metrics and /health are there all the same"
# Where it listens for the server at port 4014.
PLACE = ("127.0.0.1", 9814)


class Watch:
    """What is known of the server, and how it is asked."""

    def __init__(self, asked: argparse.Namespace) -> None:
        self.asked, self.lock = asked, threading.Lock()
        self.line: wire.Connection | None = None
        self.at: tuple[wire.Address, bytes] | None = None
        self.has_door = False
        self.tail: journal_tail.Tail | None = None
        # The server's journal, by the settings that were read last.
        self.journal: str | None = None
        self.found: dict[str, float] = {}
        self.looked, self.took = time.monotonic(), 0.0
        self.front: int | None = None
        self.said: str | None = None
        self.ends: dict[str, float] = {}
        self.ends_read: float | None = None
        self.ends_wrong: list[str] = []
        self.reports = Reports(asked.logs)
        self.refused: Found | None = None
        self.board: Board | None = None
        if HAS_PAGE:
            self.board = Board(self.target, asked.program, asked.every, 3 * asked.every + 4 * asked.timeout)
        self.registry = CollectorRegistry()
        self.taken = Histogram("bovtrila_enquiry_seconds", "How long the server took to answer an enquiry.",
                               buckets=metrics.BUCKETS, registry=self.registry)
        collector: Any = self
        self.registry.register(collector)

    def last(self) -> tuple[dict[str, float], str | None]:
        """What was found last, and what is wrong with it."""
        with self.lock:
            found, looked, said = dict(self.found), self.looked, self.said
        # Where a look hangs, as on a disk that answers nothing, what it found before says nothing of now.
        ago = time.monotonic() - looked
        if ago > 3 * self.asked.every + 4 * self.asked.timeout:
            return {"up": 0}, f"the last look at the server was {ago:.0f} seconds ago, and hangs"
        return found, said

    def collect(self) -> Iterator[Any]:
        """The metrics, as Prometheus asks for them."""
        found, _ = self.last()
        if self.asked.copies:
            ages = copies.ages(self.asked.copies, self.journal)
            found["copy_age_seconds"], found["seal_age_seconds"] = ages
        if self.asked.remote and self.asked.remote.is_dir():
            found["remote_copy_age_seconds"] = copies.sent_age(self.asked.remote, self.journal)
        if not self.asked.server:
            found["next_journal_enabled"] = int(due.is_enabled(self.asked.name, self.asked.timers))
            found["next_journal_failed"] = int((self.asked.folder / due.FAILED).exists())
        yield from metrics.gauges(found, self.ends)
        yield from metrics.counters(self.refused)

    def health(self) -> tuple[bool, dict[str, Any]]:
        """Whether the server takes new touches, and what is known of it."""
        found, said = self.last()
        why = condition.hindrance({**found, "answers": found.get("up"), "why": said})
        return why is None, {"healthy": why is None, "why": why, **found}

    def target(self) -> "Target":
        """The server that the page shows."""
        asked = self.asked
        if asked.server:
            return Target(self.where()._replace(tables=tuple(asked.table), copies=asked.copies), None, None, asked.logs)
        server = overview.target_of(asked.name, asked.config, asked.folder)
        server = server._replace(copies=asked.copies or server.copies, unit=asked.unit or server.unit)
        lines = settings.known_of(asked.config)[0]["lines"]
        return Target(server, int(lines[0]) if lines else None, asked.folder, asked.logs)

    def where(self) -> overview.Target:
        """The server that is asked for, or that of the settings. One that runs isn't down because a line of them is
        wrong."""
        asked = self.asked
        if asked.server:
            header = proxied.WITHOUT if asked.proxy else b""
            return overview.Target(asked.unit, asked.server, asked.journal, (), None, None, header)
        target = overview.target_of(asked.name, asked.config, asked.folder)
        return target._replace(journal=target.journal or self.journal, unit=asked.unit or target.unit)

    def listens_at(self) -> tuple[str, int]:
        """Where Prometheus asks: of one of several servers at a port that goes by the server's own."""
        if self.asked.listen or not self.asked.name:
            return self.asked.listen or PLACE
        return PLACE[0], self.where().address[1] + PLACE[1] - 4014

    def look(self) -> None:
        """Asks the server and reads the journal, once."""
        found: dict[str, float] = {"up": 0}
        wrongs: list[str] = []
        try:
            server = self.where()
            self.journal = server.journal
            wrongs += [server.wrong] if server.wrong else []
            self.read_reports(server)
            wrongs += self.ask(server, found)
            if server.journal:
                wrongs += self.read(server.journal, found)
        except Wrong as wrong:
            wrongs.append(str(wrong))
        self.show(found, "; ".join(wrongs) or None)
        with self.lock:
            self.found, self.looked = found, time.monotonic()
        wrongs += self.read_ends()
        said = "; ".join(wrongs) or "the server answers"
        if said != self.said:
            self.said = said
            print(said, file=sys.stderr, flush=True)

    def show(self, found: dict[str, float], wrong: str | None) -> None:
        """Gives the page what was found, if somebody reads it."""
        if self.board is None:
            return
        now, is_up = time.time(), bool(found["up"]) and condition.hindrance({**found, "answers": True}) is None
        self.board.notice(is_up, now, is_first=not self.found)
        if not self.board.is_wanted():
            return
        answer = {"answers": bool(found["up"]), "halted": bool(found["halted"]) if "halted" in found else None,
                  "touches": self.front, "why": wrong,
                  "answer_milliseconds": round(1000 * self.took, 2) if found["up"] else None}
        try:
            self.board.look(self.line, answer, now)
        except Exception as error:
            # The metrics go on, whatever the page lacks.
            self.board.fail(answer, str(error), now)
            self.hang_up()

    def ask(self, server: overview.Target, found: dict[str, float]) -> list[str]:
        """Asks over the connection that is kept, or over a new one: what is wrong."""
        self.front, at = None, (server.address, server.header)
        try:
            if self.line is None or self.at != at:
                self.hang_up()
                self.line, self.at = wire.Connection(server.address, self.asked.timeout, header=server.header), at
                self.has_door = False
            front, is_halted, took = condition.ask(self.line, self.has_door or server.has_door)
        except (OSError, Wrong) as error:
            self.hang_up()
            return [f"the server at {server.address[0]}:{server.address[1]} doesn't answer: {error}"]
        # A door would refuse the question again, and report it each time.
        self.has_door = is_halted is None
        if front is not None:
            found["up"], found["touches"] = 1, front
            self.front, self.took = front, took
            self.taken.observe(took)
        if is_halted is not None:
            found["halted"] = int(is_halted)
        return ["the server is halted"] if is_halted else []

    def hang_up(self) -> None:
        if self.line is not None:
            self.line.close()
            self.line = None

    def read(self, journal: str, found: dict[str, float]) -> list[str]:
        """Reads the journal: what is wrong."""
        if self.tail is None or self.tail.path != journal:
            self.tail = journal_tail.Tail(journal)
        self.tail.read()
        touches = self.tail.touches
        if touches < found.get("touches", 0):
            # The server's answer may be of a moment before a journal that replaces the old one.
            return [f"{journal} has {touches} touches, and the server {found['touches']}: it's another's journal"]
        found.setdefault("touches", touches)
        found.update(capacity=self.tail.capacity, room=self.tail.capacity - touches)
        try:
            free, missing = condition.disk_of(journal, self.tail.whole_size())
        except OSError as error:
            return [f"{journal}: {error.strerror}"]
        found.update(disk_free_bytes=free, journal_missing_bytes=missing)
        if touches:
            found["last_touch_timestamp_seconds"] = self.tail.written
        return []

    def read_reports(self, server: overview.Target) -> None:
        """Reads what the server's door refused, if the server may have one and its unit is known."""
        before = self.reports.trouble
        is_wanted = server.unit and (self.asked.unit or server.has_door or server.header)
        self.refused = self.reports.read(server.unit) if server.unit and is_wanted else None
        if self.reports.trouble not in (None, before):
            print(f"what the server's door refused isn't known: {self.reports.trouble}", file=sys.stderr, flush=True)

    def read_ends(self) -> list[str]:
        """Reads when the certificates end, once an hour: what is wrong."""
        now = time.monotonic()
        if self.asked.tls and (self.ends_read is None or now - self.ends_read > HOUR):
            self.ends, self.ends_wrong = certificates.ends(self.asked.tls)
            self.ends_read = now
        return self.ends_wrong

    def go_on(self) -> None:
        wake = self.board.wake if self.board else threading.Event()
        while True:
            self.look()
            wake.wait(self.asked.every)
            wake.clear()

    def answer(self, path: str, query: str) -> Answer:
        """The answer to a request for this path."""
        if path == "/metrics":
            return Answer(200, CONTENT_TYPE_LATEST, generate_latest(self.registry))
        if path == "/health":
            is_healthy, found = self.health()
            return Answer(200 if is_healthy else 503, "application/json", f"{json.dumps(found)}\n".encode())
        if self.board is None:
            return web_server.refusal(503, f"the page needs python3-jinja2: apt-get install python3-jinja2. {ELSEWHERE}")
        return self.board.answer(path, query)


def options() -> argparse.Namespace:
    parser = argparse.ArgumentParser(description=__doc__, formatter_class=argparse.RawTextHelpFormatter)
    parser.add_argument("--config", metavar="FILE", help="the server's settings (/etc/bovtrila/serve.conf)")
    parser.add_argument("--folder", metavar="FOLDER", help="the server's folder (/var/lib/bovtrila)")
    parser.add_argument("--name", metavar="NAME", help="the server's name, if it is one of several")
    parser.add_argument("--server", metavar="ADDR", type=wire.address,
                        help="HOST:PORT of the server, instead of the settings")
    parser.add_argument("--proxy", action="store_true", help="with --server: the server has --proxy")
    parser.add_argument("--journal", metavar="FILE", help="its journal, with --server")
    parser.add_argument("--table", metavar="FILE", action="append", default=[],
                        help="with --journal: a fare table of the server, for the page; the first one first")
    parser.add_argument("--program", metavar="FILE", help="the program bovtrila, for the page")
    parser.add_argument("--host", metavar="NAME", action="append", default=[],
                        help="a name by which browsers reach the page, beside localhost and addresses")
    parser.add_argument("--copies", metavar="FOLDER", type=pathlib.Path, help="where bovtrila-keep-copies stores copies")
    parser.add_argument("--remote", metavar="FOLDER", type=pathlib.Path,
                        help="where bovtrila-send-copy writes what it sent")
    parser.add_argument("--timers", metavar="FOLDER", type=pathlib.Path, default=due.TIMERS,
                        help=f"where systemd links enabled timers ({due.TIMERS})")
    parser.add_argument("--unit", metavar="NAME", help="the server's unit of systemd, for what its door refused")
    parser.add_argument("--logs", metavar="FOLDER", type=pathlib.Path,
                        help="where systemd's journal has its files, if they are copied, for what the door refused")
    parser.add_argument("--tls", metavar="FOLDER", type=pathlib.Path, help="the folder with the certificates of its TLS")
    parser.add_argument("--listen", metavar="ADDR", type=wire.address,
                        help="the address for Prometheus and for browsers (127.0.0.1:9814)")
    parser.add_argument("--every", metavar="SECONDS", type=float, default=5,
                        help="the interval between requests to the server (5)")
    parser.add_argument("--timeout", metavar="SECONDS", type=float, default=2, help="how long an answer may take (2)")
    asked = parser.parse_args()
    if asked.every <= 0 or asked.timeout <= 0:
        parser.error("--every and --timeout have to be above 0")
    if asked.proxy and not asked.server:
        parser.error("--proxy goes with --server; without it the settings have `proxy`")
    if asked.journal and not asked.server:
        parser.error("--journal goes with --server; without it the settings name the journal")
    if asked.table and not asked.journal:
        parser.error("--table goes with --journal")
    asked.folder = serving.folder_of(asked.folder, asked.name)
    asked.config = serving.config_of(asked.config, asked.name)
    return asked


def main() -> None:
    asked = options()
    if not HAS_CLIENT:
        sys.exit("exporter: prometheus_client isn't there: apt-get install python3-prometheus-client")
    signal.signal(signal.SIGTERM, lambda *_: sys.exit(0))
    watch = Watch(asked)
    try:
        watch.where()
        names = frozenset(name.lower() for name in asked.host)
        web = web_server.Web(watch.listens_at(), watch.answer, names, ("/metrics", "/health"))
    except Wrong as wrong:
        sys.exit(f"exporter: {wrong}")
    watch.look()
    threading.Thread(target=watch.go_on, daemon=True).start()
    if watch.board:
        watch.board.begin()
    print(f"listening {web.said}", file=sys.stderr, flush=True)
    try:
        web.serve_forever()
    except KeyboardInterrupt:
        sys.exit(130)
