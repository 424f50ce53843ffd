# SPDX-License-Identifier: Apache-2.0
"""The file of the fleet: the servers of a network with the places of their journals' copies, the fare tables, the database
and the folder for what is made of these. An operator writes it, in TOML. Every fault names its line.
"""
import pathlib
import re
import tomllib
from collections.abc import Callable, Mapping, Sequence
from typing import Any, TypeAlias, TypeGuard

from bovtrila.network import database

# Where the file is, where the package has one to begin with, and the folder that a file without one has.
PLACE, SAMPLE = "/etc/bovtrila-network/fleet.toml", "/usr/share/bovtrila/fleet.toml"
FOLDER = "/var/lib/bovtrila-network"
# What names a host: a name or an address, which may have a user before it.
HOST = r"(?:[a-z_][\w.-]*@)?(?:[A-Za-z0-9][\w.-]*|\[[0-9a-fA-F:.]+\])"


# The settings of a part of the file, whose values are of any type before they are checked, and those that a part may have:
# each with what finds the fault of a value, of None that of a setting that isn't there.
Settings: TypeAlias = Mapping[str, Any]
Known: TypeAlias = Mapping[str, Callable[[object], str | None]]


class Wrong(Exception):
    """The file can't be used. The text names the place, and says what is allowed there."""


class Server:
    """A server of the network: its name, its station, the network's number of its card 1, and where its copies are."""

    def __init__(self, name: str, station: str, first_card: int, source: str) -> None:
        self.name, self.station, self.first_card, self.source = name, station, first_card, source


class Fleet:
    """What a file of the fleet has, with absolute paths."""

    def __init__(self, path: pathlib.Path, settings: Settings, servers: Sequence[Server]) -> None:
        self.folder = pathlib.Path(settings.get("folder", FOLDER))
        self.database = settings.get("database", str(self.folder / "network.db"))
        self.tables = [str(path.absolute().parent / table) for table in settings["tables"]]
        self.servers = servers

    @property
    def copies(self) -> pathlib.Path:
        """The folder that has a folder with copies for each server."""
        return self.folder / "copies"


def is_text(value: object) -> TypeGuard[str]:
    return isinstance(value, str) and value == value.strip() != "" and value.isprintable()


def fault_of_folder(value: object) -> str | None:
    if not (is_text(value) and value.startswith("/")):
        return f'write a folder from / on, as "{FOLDER}"'
    return None


def fault_of_database(value: object) -> str | None:
    if not (is_text(value) and (database.is_postgres(value) or value.startswith("/"))):
        return f'write "service=bovtrila" or a URL of PostgreSQL, or SQLite\'s file from / on, as "{FOLDER}/network.db"'
    return None


def fault_of_tables(value: object) -> str | None:
    if not (isinstance(value, list) and value and all(map(is_text, value))):
        return 'write a list of the files of all fare tables, as ["first.toml", "prices-2026.toml"]'
    return None


def fault_of_servers(value: object) -> str:
    return "begin each server with a line [[server]], without quotes"


def fault_of_name(value: object) -> str | None:
    if not (isinstance(value, str) and re.fullmatch(r"[A-Za-z0-9][A-Za-z0-9._-]{0,62}", value)):
        return 'write up to 63 letters, digits, dots, dashes and underscores, as "alder-2"'
    return None


def fault_of_station(value: object) -> str | None:
    return None if is_text(value) else 'write the station\'s name, as "Alder"'


def fault_of_card(value: object) -> str | None:
    if not (type(value) is int and 1 <= value < 2**31):
        return "write the network's number of the server's card 1, a number from 1 on without quotes, as 100001"
    return None


def fault_of_source(value: object) -> str | None:
    # rsync's own servers, HOST::FOLDER and rsync://HOST, encrypt nothing.
    if not (is_text(value) and (value.startswith("/") or re.fullmatch(rf"(?!rsync://){HOST}:[^:].*", value))):
        return 'write a folder from / on, as "/srv/copies/alder", or "HOST:FOLDER" or "USER@HOST:FOLDER"'
    return None


# The settings of the network and those of a server, each with what finds a fault of its value; and those that are needed.
SETTINGS: Known = {"folder": fault_of_folder, "database": fault_of_database, "tables": fault_of_tables}
OF_SERVER: Known = {"name": fault_of_name, "station": fault_of_station, "first_card": fault_of_card,
                    "from": fault_of_source}
NEEDED, NEEDED_OF_SERVER = ("tables",), ("name", "station", "from")


class Lines:
    """The numbers of the lines of settings: by the server's place, which is None before the first one, and the name."""

    def __init__(self, text: str) -> None:
        self.found: dict[tuple[int | None, str | None], int] = {}
        server: int | None = None
        for number, line in enumerate(text.splitlines(), 1):
            if re.match(r"\s*\[\[\s*server\s*\]\]", line):
                server = 0 if server is None else server + 1
                self.found[server, None] = number
            elif match := re.match(r"\s*([\w-]+)\s*=", line):
                self.found.setdefault((server, match[1]), number)

    def __call__(self, server: int | None, name: str | None = None) -> str:
        """The place of a setting, or of what has it."""
        number = self.found.get((server, name)) or self.found.get((server, None)) or self.found.get((None, "server"))
        return f"line {number}: " if number else ""


def check(settings: Settings, known: Known, needed: Sequence[str], line: Lines, server: int | None = None) -> None:
    """Refuses a setting that there isn't, a value that isn't allowed, and the lack of a setting that is needed."""
    for name, value in settings.items():
        if name not in known:
            raise Wrong(f"{line(server, name)}there is no setting '{name}' here; there are {', '.join(known)}")
        fault = known[name](value)
        if fault:
            raise Wrong(f"{line(server, name)}{name}: {value!r} isn't allowed; {fault}")
    for name in needed:
        if name not in settings:
            raise Wrong(f"{line(server)}{'this [[server]]' if server is not None else 'the file'} has no setting '{name}'; "
                        f"{known[name](None)}")


def servers_of(rows: object, line: Lines) -> list[Server]:
    """The servers, which have different names and places."""
    if not (isinstance(rows, list) and rows and all(isinstance(row, dict) for row in rows)):
        raise Wrong(f"{line(None, 'server')}there is no server; begin each with a line [[server]]")
    seen: dict[tuple[str, str], int] = {}
    for place, row in enumerate(rows):
        check(row, OF_SERVER, NEEDED_OF_SERVER, line, place)
        for name in ("name", "from"):
            other = seen.setdefault((name, row[name]), place)
            if other != place:
                earlier = line(other, name).rstrip(": ") or "another server"
                raise Wrong(f"{line(place, name)}{name}: {earlier} has {row[name]!r} already; each server has a different "
                            "one")
    return [Server(row["name"], row["station"], row.get("first_card", 1), row["from"].rstrip("/") or "/") for row in rows]


def parsed(path: pathlib.Path, text: str) -> Fleet:
    """The fleet of a file's text."""
    try:
        settings = tomllib.loads(text)
    except tomllib.TOMLDecodeError as error:
        said, _, place = str(error).rpartition(" (at ")
        raise Wrong(f"{place.rstrip(')')}: {said}; write NAME = VALUE, with text in quotes") from None
    line, rows = Lines(text), settings.pop("server", None)
    check(settings, {**SETTINGS, "[[server]]": fault_of_servers}, NEEDED, line)
    return Fleet(path, settings, servers_of(rows, line))


def read(path: str | pathlib.Path) -> Fleet:
    """The fleet of a file."""
    try:
        return parsed(pathlib.Path(path), pathlib.Path(path).read_text(encoding="utf-8"))
    except FileNotFoundError:
        raise Wrong(f"{path}: there is no such file; copy {SAMPLE}, and write your servers into it") from None
    except (OSError, UnicodeDecodeError) as error:
        raise Wrong(f"{path}: {getattr(error, 'strerror', None) or error}") from None
    except Wrong as wrong:
        raise Wrong(f"{path}: {wrong}") from None
