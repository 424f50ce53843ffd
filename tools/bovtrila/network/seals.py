# SPDX-License-Identifier: Apache-2.0
"""The report of bovtrila-network-audit: what was found of each server's journals, and the seals that they have to match
next time.

A seal belongs to a server and not to a path, and no audit drops one. A server has a seal for each of its journals, since
a full journal is followed by another one. A journal is found among the seals by its bytes: the touches of a seal that
matches are the journal's first touches.
"""
import datetime
import json
import pathlib
import re
from collections.abc import Collection, Iterable, Mapping
from typing import TypeAlias, TypedDict, final

from bovtrila.network import commands

# How copies of a journal are named (OPERATING.md, "Nightly copies and seals"), and what a server's own journal
# is named.
COPY = r"(?:\.journal)?(?:[-.]\d{8}(?:T\d{6}Z)?|-\d{4}-\d\d-\d\d)?(?:\.journal)?"
USUAL = ("station", "journal", "")


# Sums in pence and counts, by their names.
Sums: TypeAlias = dict[str, int]


@final
class OldFinding(TypedDict, total=False):
    """What an audit of an older version found of a journal."""

    fault: str
    touches: int
    sums: Sums
    sealed: commands.Pair


Known: TypeAlias = commands.Sound | commands.Unsound | OldFinding


class Entry(TypedDict):
    """What a report has of a server: the journal's file and what was found of it, and the seals of all its journals."""

    file: str
    facts: Known
    seals: list[commands.Seal]


Entries: TypeAlias = dict[str, Entry]


@final
class Report(TypedDict, total=False):
    """The report. Where there was none, it has nothing."""

    made: str
    sums: Sums
    servers: Entries


@final
class OldReport(TypedDict):
    """A report of an older version, with the journals by their paths."""

    made: str
    journals: dict[str, OldFinding]


class Unfit(Exception):
    """The report or the arguments can't be used. The text says why, and what to do."""


def server_of(argument: str) -> tuple[str, str]:
    """The server of an argument, and the journal's file: 'alder=FILE' names both. Without the name it is that of the
    file, less a date and '.journal'; or that of its folder, where the file has the usual name of a journal."""
    named = re.fullmatch(r"([^/=]+)=(.+)", argument)
    if named:
        return named[1], named[2]
    path = pathlib.Path(argument).absolute()
    stem = re.sub(rf"{COPY}\Z", "", path.name)
    return (path.parent.name if stem in USUAL else stem), argument


def asked_for(arguments: Iterable[str]) -> dict[str, str]:
    """The files of the arguments, by their servers."""
    found: dict[str, str] = {}
    for argument in arguments:
        server, file = server_of(argument)
        if server in found:
            raise Unfit(f"{found[server]} and {file} are both of the server {server}; name each as SERVER=FILE")
        found[server] = file
    return found


def read(path: str) -> Report:
    """The last report, or an empty one."""
    try:
        report: Report | OldReport = json.loads(commands.content_of(path))
    except FileNotFoundError:
        return {}
    except ValueError as error:
        raise Unfit(f"{path}: {error}; name the last report, or a file that isn't there yet") from None
    return by_servers(report) if "journals" in report else report


def by_servers(report: OldReport) -> Report:
    """A report of an older version, which named the journals by their paths."""
    servers: Entries = {}
    for path, facts in report["journals"].items():
        server = servers.setdefault(server_of(path)[0], {"file": path, "facts": facts, "seals": []})
        if "sealed" in facts:
            touches, digest = facts["sealed"]
            server["seals"].append({"begins": None, "touches": touches, "seal": digest, "audited": report["made"]})
    return {"made": report["made"], "servers": servers,
            "sums": sums_of([server["facts"] for server in servers.values()])}


def write(path: str, entries: Entries, sums: Sums) -> None:
    """Puts the new report in the place of the old one."""
    new = pathlib.Path(f"{path}.new")
    new.write_text(json.dumps({"made": now(), "sums": sums, "servers": entries}, indent=1) + "\n")
    new.replace(path)


def now() -> str:
    return datetime.datetime.now(datetime.timezone.utc).strftime("%Y-%m-%dT%H:%M:%SZ")


def sums_of(found: Collection[Known]) -> Sums:
    """How many journals are sound, and the sums over those."""
    sound = [facts for facts in found if "fault" not in facts]
    return {"journals": len(found), "sound": len(sound), "touches": sum(facts["touches"] for facts in sound),
            **{name: sum(facts["sums"][name] for facts in sound) for name in ("cards", "balance", "paid_in", "charged")}}


def merged(entries: Entries, found: Mapping[str, tuple[str, commands.Finding]], made: str) -> Entries:
    """The report's servers after an audit that has found this, by server. Those that weren't asked for stay."""
    result = dict(entries)
    for server, (file, facts) in found.items():
        old = seals_of(entries, server)
        seals = old if "fault" in facts else replaced(old, facts, made)
        result[server] = {"file": file, "facts": facts, "seals": seals}
    return result


def seals_of(entries: Entries, server: str) -> list[commands.Seal]:
    """The seals that a report has of a server."""
    return entries[server]["seals"] if server in entries else []


def replaced(seals: list[commands.Seal], facts: commands.Sound, made: str) -> list[commands.Seal]:
    """A server's seals, with the new one of a sound journal in the place of that journal's last one."""
    new: commands.Seal = {"begins": facts["begins"], "touches": facts["touches"], "seal": facts["seal"], "audited": made}
    return [seal for seal in seals if (seal["touches"], seal["seal"]) != facts["behind_seal"]] + [new]
