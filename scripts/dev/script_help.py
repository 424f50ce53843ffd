"""The command line of a program or of an installed script, read from its own --help: for docs/reference/COMMANDS.md, its
page of the manual and its completion."""
from __future__ import annotations

import os
import pathlib
import re
import subprocess
from collections.abc import Iterable
from typing import NamedTuple, TypeAlias

# A program or a script that has a help.
Command: TypeAlias = str | pathlib.Path


class Item(NamedTuple):
    """A line of the help's lists: what is typed, as `--day DATE`, and what it is for."""

    term: str
    help: str


class Help(NamedTuple):
    """What --help says: how the command is called, what it does, its words, its options, its statuses, and the help of each
    of its acts. `has_help` is true if an act `help` prints the help of another one."""

    usage: str
    text: str
    words: list[Item]
    options: list[Item]
    statuses: list[str]
    acts: dict[str, Help]
    has_help: bool


# The lists of the help, as argparse and clap call them.
LISTS = re.compile(r"^(positional arguments|arguments|options|commands):\n", re.M | re.I)
# The names of values that are files or folders.
FILES = re.compile(r"file|folder|journal|copy|copies|[.]csv$|^(?:CA|CERT|KEY|OLD|NEW|REVISION)$", re.I)


def said_by(command: Command, *acts: str) -> str:
    """What --help prints, in lines of a manual page's width."""
    done = subprocess.run([command, *acts, "--help"], check=True, capture_output=True, text=True,
                          env={**os.environ, "COLUMNS": "78"})
    return done.stdout


def items(text: str) -> list[Item]:
    """The rows of a list of the help. It ends at an empty line."""
    found = []
    for line in text.partition("\n\n")[0].splitlines():
        row = re.fullmatch(r" {2,6}(\S.*?)(?:  +(.*))?", line)
        if row:
            found.append([row[1], row[2] or ""])
        else:
            found[-1][1] = f"{found[-1][1]} {line.strip()}".strip()
    return [Item(*row) for row in found]


def read(said: str) -> tuple[Help, list[Item]]:
    """The parts of what --help printed, and its list of commands."""
    head, *lists = LISTS.split(said)
    named = {name.lower().removeprefix("positional "): items(text) for name, text in zip(lists[::2], lists[1::2])}
    usage = re.search(r"^usage: ((?:.+\n)+)", head, re.M | re.I)
    assert usage, "each help begins with it"
    statuses = re.search(r"^Statuses: ((?:.+\n?)+)", said, re.M)
    numbers = re.findall(r"(?:^|[,;] )(\d+) ", " ".join(statuses[1].split())) if statuses else []
    text = (head[:usage.start()] + head[usage.end():]).strip("\n")
    own = Help(usage[1].strip(), text, named.get("arguments", []), named.get("options", []), numbers, {}, False)
    return own, named.get("commands", [])


def of(command: Command) -> Help:
    """The help of a program or a script, and of each of its acts, where its first word is one of several."""
    found, commands = read(said_by(command))
    acts = [item.term for item in commands if item.term != "help"]
    if found.words and "|" in found.words[0].term:
        acts = found.words[0].term.split("|")
    return found._replace(acts={act: read(said_by(command, act))[0] for act in acts}, has_help=len(commands) > len(acts))


def names(item: Item) -> list[str]:
    """The names of an option, as -h and --help."""
    return [part.split()[0] for part in item.term.split(", ")]


def values(item: Item) -> list[str]:
    """The names of an option's values, or of a word."""
    last = item.term.split(", ")[-1].split()
    return [value.strip("[]<>.") for value in (last[1:] if last[0].startswith("-") else last)]


def choices(item: Item) -> list[str]:
    """What the value of an option may be, where it is one of several words."""
    found = re.search(r"\[possible values: (.*?)\]", item.help)
    return found[1].split(", ") if found else []


def conflicts(options: Iterable[Item]) -> dict[str, list[str]]:
    """By an option those that may not be beside it, whichever of the two says so."""
    found: dict[str, dict[str, None]] = {}
    named = [names(item)[-1] for item in options if names(item)[-1] not in ("--help", "--version")]
    for item in options:
        one = names(item)[-1]
        others = re.findall(r"; not with (--[a-z-]+)", item.help)
        for other in named if "with no other option" in item.help else others:
            if one != other:
                found.setdefault(one, {})[other] = None
                found.setdefault(other, {})[one] = None
    return {one: list(others) for one, others in found.items()}


def is_file(name: str) -> bool:
    """Whether a value of this name is a file or a folder."""
    return bool(FILES.search(name))


def has_files(said: Help) -> bool:
    """Whether a word of the command line is a file or a folder."""
    return any(is_file(value) for item in said.words for value in values(item))
