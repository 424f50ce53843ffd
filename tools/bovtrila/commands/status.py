# SPDX-License-Identifier: Apache-2.0
"""Shows one screen about each running server: whether it answers and takes new touches, how much room its journal and
its disk have left, how old the last copy is, how often systemd has started it again, each gate's last touch, how many
cards are inside, and which fare table is in force.

Without an address it shows all servers of this machine: those of /etc/bovtrila/serve.conf and /etc/bovtrila/NAME.conf,
with the address, the journal and the tables in these files. --name NAME shows one of them.

With an address it shows the server there. Add --journal FILE, the server's journal on this machine, for what the
server's answers don't have. Add --table FILE once for the first table, and once for each further table with which the
server was started. Fare days are worked out with this machine's clock.

The script sends enquiries, and a revision to a table that no server has. A halted server answers the revision with
fault 3, and no server records it. This changes nothing, and no touch waits. A server whose settings name a door isn't
sent the revision, and its door needs a rule * with enquiries. The script takes one connection slot for that moment. If
all slots are taken, the script waits, and reports this. It reads the journal without a lock.

"up" is NO, with the reason, if the server doesn't answer, is halted or full, or if the disk is full and the journal
lacks a part of its whole size: the next touch would halt the server. The time until the journal is full is worked out
from the pace of the last 7 days. Moments of touches are by the gates' clocks.

With --watch the screen is shown again every few seconds (2) until you end it. With --json there is one line of JSON for
each server each time, for programs. A value that isn't known is null.

The status is 0 if each server takes new touches, 1 if one doesn't or a file can't be read, and 2 for a wrong command
line. With --watch the script continues in any case; Ctrl-C ends it with status 0.

    bovtrila-status
    bovtrila-status --name alder-1 --watch 5
    bovtrila-status 127.0.0.1:4014
    bovtrila-status 127.0.0.1:4014 --journal station.journal --table first.toml --table prices-2026.toml
    bovtrila-status --json
"""
import argparse
import functools
import json
import os
import pathlib
import signal
import sys
import time
from collections.abc import Callable, Iterable

from bovtrila import proxied, serving, wire
from bovtrila.journal_view import Journal, Tables
from bovtrila.overview import Found, Target, look, nothing, screen, target_of
from bovtrila.wire import Wrong

# A clear terminal.
CLEAR = "\033[H\033[2J"


class Server:
    """A server that is shown, again and again with --watch."""

    def __init__(self, label: str | None, find: Callable[[], Target]) -> None:
        # What finds it: its words may name another journal next time.
        self.label, self.find, self.tables = label, find, Tables(())
        self.before: Target | None = None
        self.journal: Journal | None = None

    def look(self, timeout: float, now: float) -> Found:
        """All that is known of it now."""
        target = self.find()
        if target != self.before:
            self.journal = Journal(target.journal) if target.journal else None
            self.tables = Tables(target.tables)
            self.before = target
        return look(target, timeout, self.journal, self.tables, now)

    def missing(self, wrong: Wrong, now: float) -> Found:
        """What is known of one whose files can't be read. It may run if only this user may not read them."""
        is_up = None if isinstance(wrong.__context__, PermissionError) else False
        return {**nothing(now), "server": self.label, "up": is_up, "why": str(wrong)}


def seconds(text: str) -> float:
    """A number of seconds of the command line, above 0."""
    try:
        if 0 < float(text) <= 86_400:
            return float(text)
    except ValueError:
        pass
    raise argparse.ArgumentTypeError(f"'{text}' is no number of seconds from 0 to 86400")


def options() -> argparse.Namespace:
    parser = argparse.ArgumentParser(description=__doc__, formatter_class=argparse.RawTextHelpFormatter)
    parser.add_argument("address", type=wire.address, nargs="?",
                        help="HOST:PORT of the server (all servers of this\nmachine)")
    parser.add_argument("--name", metavar="NAME", help="show only the server of this name")
    parser.add_argument("--config", metavar="FILE", help="the server's settings (/etc/bovtrila/serve.conf)")
    parser.add_argument("--folder", metavar="FOLDER", help="the server's folder (/var/lib/bovtrila)")
    parser.add_argument("--proxy", action="store_true", help="with an address: the server has --proxy")
    parser.add_argument("--journal", metavar="FILE", help="with an address: the server's journal, on this machine")
    parser.add_argument("--table", metavar="FILE", action="append", default=[],
                        help="with --journal: a fare table of the server, the first one\nfirst")
    parser.add_argument("--timeout", type=seconds, default=2, metavar="SECONDS", help="how long an answer may take (2)")
    parser.add_argument("--watch", type=seconds, nargs="?", const=2, metavar="SECONDS", help="show it again and again")
    parser.add_argument("--json", action="store_true", help="print a line of JSON for each server each time")
    asked = parser.parse_args()
    if asked.proxy and not asked.address:
        parser.error("--proxy goes with an address; without one the settings have `proxy`")
    if asked.journal and not asked.address:
        parser.error("--journal goes with an address; without one the settings name the journal")
    if asked.table and not asked.journal:
        parser.error("--table goes with --journal")
    if asked.address and (asked.name or asked.config or asked.folder):
        parser.error("--name, --config and --folder name a server by its settings: leave out the address")
    return asked


def servers(asked: argparse.Namespace) -> list[Server]:
    """The servers that are asked for, as they are found each time."""
    if asked.address:
        header = proxied.WITHOUT if asked.proxy else b""
        target = Target(None, asked.address, asked.journal, tuple(asked.table), None, None, header)
        return [Server(None, lambda: target)]
    known: list[tuple[str | None, pathlib.Path, pathlib.Path]]
    if asked.name or asked.config or asked.folder:
        known = [(asked.name, serving.config_of(asked.config, asked.name), serving.folder_of(asked.folder, asked.name))]
    else:
        known = [(name, serving.config_of(None, name), serving.folder_of(None, name)) for name in serving.names()]
    if not known:
        raise Wrong("no server is set up on this machine: there is no /etc/bovtrila/serve.conf. Begin by "
                    "bovtrila-setup, or name an address")
    return [Server(f"bovtrila@{name}" if name else "bovtrila", functools.partial(target_of, name, config, folder))
            for name, config, folder in known]


def show(asked: argparse.Namespace, shown: Iterable[Server], now: float) -> bool:
    """Shows each server once: whether all take new touches."""
    texts, are_up = list[str](), True
    for server in shown:
        try:
            found = server.look(asked.timeout, now)
        except Wrong as wrong:
            if asked.address:
                raise
            found = server.missing(wrong, now)
        are_up = are_up and bool(found["up"])
        texts.append(json.dumps(found) if asked.json else "\n".join(screen(found, now)))
    between = "\n" if asked.watch and not asked.json else ""
    text = ("\n" if asked.json else "\n\n").join(texts)
    print((CLEAR if asked.watch and sys.stdout.isatty() else "") + text + between, flush=True)
    return are_up


def main() -> int:
    asked = options()
    signal.signal(signal.SIGTERM, signal.default_int_handler)
    try:
        shown = servers(asked)
        are_up = show(asked, shown, time.time())
        while asked.watch:
            time.sleep(asked.watch)
            show(asked, shown, time.time())
    except Wrong as wrong:
        sys.exit(f"status: {wrong}")
    except BrokenPipeError:
        # Whoever reads the output has gone.
        os.dup2(os.open(os.devnull, os.O_WRONLY), sys.stdout.fileno())
        return 1
    except KeyboardInterrupt:
        return 0
    return 0 if are_up else 1
