# SPDX-License-Identifier: Apache-2.0
"""Fetches the newest copy of each server's journals, by rsync: from folders, or from other computers over ssh.

The servers are those of the file of the fleet, /etc/bovtrila-network/fleet.toml. Of each journal in a server's folder
`from` the newest copy is fetched: a file that ends in .journal, or in .journal and the moment of the copy, as
station.journal-20260105T033000Z. It becomes the file FOLDER/copies/SERVER/station.journal.

A copy is fetched whole or not at all: it gets its name when all of it is on the disk. Until that moment, and after a
failure, the earlier copy stays. rsync sends only what changed. If a server fails, standard error has a line with its name
and the reason, and the other servers are fetched. Standard output has a line for each copy.

ssh is the user's own: it asks no questions, so the user needs a key without a passphrase, and the other computer in
~/.ssh/known_hosts. FOLDER/metrics/bovtrila-network-fetch.prom has the moment of each server's last fetch, for Prometheus.
The status is 0 if all copies were fetched, 1 if one wasn't or the file of the fleet can't be used, and
2 for a wrong command line.

    bovtrila-network-fetch --check
    bovtrila-network-fetch
    bovtrila-network-fetch alder birch --fleet fleet.toml
"""
import argparse
import concurrent.futures
import contextlib
import fcntl
import os
import pathlib
import re
import shutil
import subprocess
import sys
from collections.abc import Iterable, Iterator, Sequence

from bovtrila.network import fleet_file, fleet_metrics

# How many servers are asked at once, and for how many seconds rsync waits for an answer.
AT_ONCE, PATIENCE = 4, 60
RSYNC = ("rsync", f"--timeout={PATIENCE}", "-e", "ssh -o BatchMode=yes -o ConnectTimeout=20")
# A line of rsync's list that is of a file, and the name of a journal or of a copy of it.
LISTED = re.compile(r"-\S{9} +[\d,]+ \d{4}/\d\d/\d\d \d\d:\d\d:\d\d (.+)")
COPY = re.compile(r"(?P<journal>\w[\w.+-]*\.journal)(?:-(?P<moment>\d{8}T\d{6}Z))?", re.ASCII)
# The folder of a file that isn't whole yet.
UNFINISHED = ".unfinished"


class Failed(Exception):
    """A server's copies couldn't be fetched. The text says why."""


class Asked(argparse.Namespace):
    """The command line."""

    server: list[str]
    fleet: pathlib.Path
    check: bool


def said(*words: str | pathlib.Path) -> str:
    """What rsync writes; it has to succeed."""
    try:
        done = subprocess.run([*RSYNC, *map(str, words)], stdin=subprocess.DEVNULL, capture_output=True, text=True,
                              errors="replace", env={**os.environ, "LC_ALL": "C"})
    except FileNotFoundError:
        raise Failed("rsync isn't installed: apt-get install rsync openssh-client") from None
    if done.returncode:
        lines = [line.strip() for line in done.stderr.splitlines() if line.strip()]
        raise Failed("; ".join(lines) or f"rsync ended with status {done.returncode}")
    return done.stdout


def newest(names: Iterable[str]) -> dict[str, str]:
    """By the name of each journal its newest copy. A file without a moment is the journal itself, or its only copy."""
    # By journal: the moment of each copy, and its name.
    found: dict[str, list[tuple[str, str]]] = {}
    for name in names:
        match = COPY.fullmatch(name)
        if match:
            found.setdefault(match["journal"], []).append((match["moment"] or "~", name))
    return {journal: max(copies)[1] for journal, copies in sorted(found.items())}


def fetch(server: fleet_file.Server, folder: pathlib.Path) -> list[str]:
    """Fetches a server's copies into a folder: a line for each."""
    lines = LISTED.findall(said("--list-only", f"{server.source}/"))
    copies = newest(lines)
    if not copies:
        raise Failed("it has no copy of a journal: a file that ends in .journal or .journal-20260105T033000Z")
    # What an interrupted run has left there.
    unfinished = folder / UNFINISHED
    shutil.rmtree(unfinished, ignore_errors=True)
    unfinished.mkdir(parents=True)
    told = []
    for journal, copy in copies.items():
        said("--times", "--chmod=F640", "--fsync", f"--temp-dir={unfinished}", f"{server.source}/{copy}", folder / journal)
        told.append(f"{server.name} {journal}: {copy}, {(folder / journal).stat().st_size} bytes")
    unfinished.rmdir()
    return told


def outcome(server: fleet_file.Server, fleet: fleet_file.Fleet) -> tuple[list[str], bool]:
    """What is printed about a server, and whether it failed."""
    try:
        return fetch(server, fleet.copies / server.name), False
    except Failed as failed:
        return [f"fetch: {server.name}: {server.source}: {failed}"], True
    except OSError as error:
        return [f"fetch: {server.name}: {error.filename}: {error.strerror}"], True


def fetch_all(fleet: fleet_file.Fleet, servers: Sequence[fleet_file.Server]) -> int:
    """Fetches the copies of servers, and prints a line for each copy or fault: the status."""
    fetched = []
    with concurrent.futures.ThreadPoolExecutor(AT_ONCE) as pool:
        for server, (lines, has_failed) in zip(servers, pool.map(lambda server: outcome(server, fleet), servers)):
            print("\n".join(lines), file=sys.stderr if has_failed else sys.stdout, flush=True)
            fetched += [] if has_failed else [server.name]
    fleet_metrics.write(fleet, "fetch", fetched)
    return 0 if len(fetched) == len(servers) else 1


@contextlib.contextmanager
def alone(folder: pathlib.Path) -> Iterator[None]:
    """Holds off another run."""
    folder.mkdir(parents=True, exist_ok=True)
    opened = os.open(folder, os.O_RDONLY)
    try:
        fcntl.flock(opened, fcntl.LOCK_EX | fcntl.LOCK_NB)
        yield
    finally:
        os.close(opened)


def options() -> tuple[argparse.ArgumentParser, Asked]:
    parser = argparse.ArgumentParser(description=__doc__, formatter_class=argparse.RawTextHelpFormatter)
    parser.add_argument("server", nargs="*", metavar="SERVER", help="fetch the copies of these servers alone (all)")
    parser.add_argument("--fleet", type=pathlib.Path, default=pathlib.Path(fleet_file.PLACE), metavar="FILE",
                        help=f"the file of the fleet ({fleet_file.PLACE})")
    parser.add_argument("--check", action="store_true", help="fetch nothing: check the file, and print its servers")
    return parser, parser.parse_args(namespace=Asked())


def main() -> None:
    parser, asked = options()
    try:
        fleet = fleet_file.read(asked.fleet)
        unknown = sorted(set(asked.server) - {server.name for server in fleet.servers})
        if unknown:
            parser.error(f"{asked.fleet} has no server {', '.join(unknown)}")
        servers = [server for server in fleet.servers if not asked.server or server.name in asked.server]
        if asked.check:
            for server in servers:
                print(f"{server.name}: station {server.station}, cards from {server.first_card} on, from {server.source}")
            return
        with alone(fleet.copies):
            sys.exit(fetch_all(fleet, servers))
    except fleet_file.Wrong as wrong:
        sys.exit(f"fetch: {wrong}")
    except BlockingIOError:
        sys.exit(f"fetch: {fleet.copies}: another run fetches copies; wait for its end")
    except OSError as error:
        sys.exit(f"fetch: {error.filename}: {error.strerror}")
