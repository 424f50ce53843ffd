"""The words of scripts/dev/facts.toml, the files that have regions, and how their lines are written."""
import collections.abc
import pathlib
import tomllib

import fact_code
from fact_code import Wrong

WORDS = "scripts/dev/facts.toml"
PAGE = "docs/reference/PROTOCOL.md"
HEADER = "clients/c/bovtrila_gate.h"
SOURCE = "clients/c/bovtrila_gate.c"
LUA = "clients/wireshark/bovtrila.lua"
WIRE = "tools/bovtrila/wire.py"
TALLY, ROWS, CARRYING = "tools/bovtrila/day_tally.py", "tools/bovtrila/history_rows.py", "tools/bovtrila/commands/carry_over.py"
# The most characters of a line of code.
WIDTH = 120

# What the words of each kind of fact are for.
USES = {"verdict": {"short", "page", "day"}, "fault": {"log", "short", "header", "page", "names", "after"},
        "kind": {"name", "from"}, "length": {"c"}}

Words = dict[str, dict[str, str]]


def words_of(top: pathlib.Path, kind: str, limits: dict[str, int], names: collections.abc.Collection[str]) -> Words:
    """The words of all facts of a kind, each by its name and what they are for."""
    try:
        found: Words = tomllib.loads(fact_code.text_of(top, WORDS)).get(kind, {})
    except tomllib.TOMLDecodeError as error:
        raise Wrong(f"{WORDS}: {error}; correct it") from None
    for name in sorted(found.keys() - names):
        raise Wrong(f"{WORDS}: the code has no {kind} {name}; remove '[{kind}.{name}]', or correct its name")
    for name, row in found.items():
        for use in sorted(row.keys() - USES[kind]):
            raise Wrong(f"{WORDS}: '[{kind}.{name}]' has {use}; the words of a {kind} are {', '.join(sorted(USES[kind]))}")
    return {name: {use: filled_in(text, limits) for use, text in row.items()} for name, row in found.items()}


def filled_in(text: str, limits: dict[str, int]) -> str:
    """A text with the limits that it names."""
    try:
        return text.format(**limits)
    except (KeyError, IndexError, ValueError):
        raise Wrong(f"{WORDS}: '{text}' names no limit in its braces; those are {', '.join(sorted(limits))}") from None


def quoted(text: str) -> str:
    """A text as a string of C, Lua and Python."""
    if set(text) & set('"\\\n'):
        raise Wrong(f"'{text}': words can't have quotation marks, backslashes or ends of lines; write them otherwise")
    return f'"{text}"'


def filled(items: collections.abc.Iterable[str], indent: int) -> tuple[str, ...]:
    """Items with commas, as many on a line as fit."""
    lines: list[str] = []
    for item in items:
        if lines and len(lines[-1]) + len(item) + 2 <= WIDTH:
            lines[-1] += f" {item},"
        else:
            lines.append(f"{' ' * indent}{item},")
    return tuple(lines)
