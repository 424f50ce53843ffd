# SPDX-License-Identifier: Apache-2.0
"""The settings of a server: the file that has them, one a line, and the arguments of `serve` that they are. For the
scripts that run a station.
"""
import argparse
import pathlib
import re
import shlex
from collections.abc import Iterable

from bovtrila import places, proxied, wire
from bovtrila.wire import Wrong

# The options of `serve` with a value, those without, and the one name of the file that is no option: a further argument.
VALUES = ("--table", "--journal", "--cards", "--capacity", "--listen", "--lines", "--connections", "--idle", "--report",
          "--door")
FLAGS = ("--strict", "--standby", "--stay-halted", "--proxy")
REVISED = "revised"
NAMES = (*(option[2:] for option in (*VALUES, *FLAGS)), REVISED)
# Which a server needs, and the least and the most of each number.
NEEDED = ("--table", "--journal", "--cards", "--capacity", "--listen", "--lines")
RANGES = {"cards": (1, 100_000), "capacity": (1, 1_000_000), "lines": (1, 64), "connections": (1, 1_000_000),
          "idle": (1, 1_000_000), "report": (1, 1_000_000)}
LINE = re.compile(r"(#?)\s*([a-z-]+)\s*=\s*(.*?)\s*")
# What an earlier version wrote above its one line of all arguments.
EARLIER = re.compile(r"# (?:The words of the server behind|Revised tables are the last words|The first start makes the "
                     r"journal)|#?SERVE=")


class Words:
    """The arguments of `serve`."""

    def __init__(self, words: Iterable[str]) -> None:
        self.options, self.flags, self.revised = dict[str, str](), list[str](), list[str]()
        left = list(words)
        while left:
            word = left.pop(0)
            if word in VALUES and left:
                self.options[word] = left.pop(0)
            elif word in FLAGS:
                self.flags.append(word)
            elif word.startswith("-"):
                raise Wrong(f"'{word}' is no option of serve that these scripts know")
            else:
                self.revised.append(word)
        for needed in NEEDED:
            if needed not in self.options:
                raise Wrong(f"the arguments of serve lack {needed}")

    def arguments(self) -> list[str]:
        """The arguments, one by one: options in their order, and the revised tables last."""
        found = [word for name in VALUES if name in self.options for word in (name, self.options[name])]
        return [*found, *(flag for flag in FLAGS if flag in self.flags), *self.revised]

    def copy(self) -> "Words":
        return Words(self.arguments())

    def __str__(self) -> str:
        return shlex.join(self.arguments())

    def __eq__(self, other: object) -> bool:
        return str(self) == str(other)

    def is_sample(self) -> bool:
        """Whether these are the settings that come with the program, with or without --strict."""
        found = self.copy()
        found.flags = ["--strict"]
        return found == sample()

    def __getitem__(self, name: str) -> str:
        return self.options[f"--{name}"]

    def header(self, name: str | None = None) -> bytes:
        """The bytes with which a connection to the server begins: a header with this name or none, where it has --proxy."""
        return proxied.header(name) if "--proxy" in self.flags else b""

    def tables(self) -> list[str]:
        """The files of its tables, the first one first."""
        return [self["table"], *self.revised]

    def values(self, name: str) -> list[str]:
        """The values that the file has for a name."""
        if name == REVISED:
            return self.revised
        if f"--{name}" in FLAGS:
            return ["yes"] if f"--{name}" in self.flags else []
        return [self.options[f"--{name}"]] if f"--{name}" in self.options else []


def number(name: str, text: str) -> str | None:
    """What is wrong with a number, or nothing."""
    least, most = RANGES[name]
    if not re.fullmatch("[0-9]{1,10}", text, re.ASCII) or not least <= int(text) <= most:
        return f"'{text}' is no number from {least} to {most}; write it in digits alone, as {min(1000, most)}"
    return None


def refusal(name: str, value: str) -> str | None:
    """What is wrong with the value of a setting, and what to write; or nothing."""
    if not value:
        return "it has no value"
    if value[0] in "\"'" or value[-1] in "\"'":
        return f"{value} has quotes; write the value without: it is all that follows '=', spaces too"
    if name in RANGES:
        return number(name, value)
    if f"--{name}" in FLAGS:
        return None if value in ("yes", "no") else f"'{value}' is neither yes nor no"
    if name == "listen":
        try:
            wire.address(value)
        except argparse.ArgumentTypeError as error:
            return str(error)
        return None
    if " #" in value or not value.isprintable():
        return f"'{value}' can't be a file's name here; a comment has a line of its own"
    return f"'{value}' begins like an option; name the file as ./{value}" if value[0] == "-" else None


def read(text: str) -> Words:
    """The arguments that a file of settings has. A fault names the line."""
    found, places = list[tuple[str, str]](), dict[str, int]()
    for place, line in enumerate(text.splitlines(), 1):
        if not line.strip() or line.lstrip().startswith("#"):
            continue
        match = LINE.fullmatch(line.strip())
        if not match:
            raise Wrong(f"line {place}: '{line.strip()}' is no setting; write NAME = VALUE, or '#' before a comment")
        name, value = match[2], match[3]
        if name not in NAMES:
            raise Wrong(f"line {place}: there is no setting '{name}'; there are {', '.join(NAMES)}")
        if name in places and name != REVISED:
            raise Wrong(f"line {place}: line {places[name]} has '{name}' already; remove one of the two")
        fault = refusal(name, value)
        if fault:
            raise Wrong(f"line {place}: {name}: {fault}")
        places[name] = place
        if value != "no" or f"--{name}" not in FLAGS:
            found.append((name, value))
    missing = [name[2:] for name in NEEDED if name[2:] not in places]
    if missing:
        raise Wrong(f"it has no line '{missing[0]} = ..'")
    options = [word for name, value in found if name != REVISED
               for word in ([f"--{name}"] if f"--{name}" in FLAGS else [f"--{name}", value])]
    return Words([*options, *(value for name, value in found if name == REVISED)])


def is_earlier(text: str) -> bool:
    """Whether a file is as an earlier version had it: all arguments in one line SERVE=\"..\"."""
    return bool(re.search(r"^\s*SERVE=", text, re.M))


def read_earlier(text: str) -> Words:
    """The arguments of a file of an earlier version, as systemd read them. A fault names the line."""
    *_, found = re.findall(r"^\s*SERVE=(.*)$", text.replace("\\\n", " "), re.M)
    place = max(at for at, line in enumerate(text.splitlines(), 1) if is_earlier(line))
    try:
        return Words(" ".join(shlex.split(found)).split())
    except (Wrong, ValueError) as wrong:
        raise Wrong(f"line {place}: {wrong}") from None


def line_of(text: str, name: str, value: str | None = None) -> int:
    """The number of the line that has a setting, or 0."""
    for place, line in enumerate(text.splitlines(), 1):
        match = LINE.fullmatch(line.strip())
        if match and not match[1] and match[2] == name and value in (None, match[3]):
            return place
    return 0


def text_of(path: str | pathlib.Path) -> str:
    """What a file of settings says."""
    try:
        return pathlib.Path(path).read_text()
    except FileNotFoundError:
        raise Wrong(f"{path}: there is no such file; bovtrila-setup makes it") from None
    except (OSError, UnicodeDecodeError) as error:
        said = getattr(error, "strerror", None) or error
        raise Wrong(f"{path}: {said}; name the file of the server's settings") from None


def words_of(path: str | pathlib.Path) -> Words:
    """The arguments of `serve` in a file of settings, in today's form or in that of an earlier version."""
    text = text_of(path)
    try:
        return read_earlier(text) if is_earlier(text) else read(text)
    except Wrong as wrong:
        raise Wrong(f"{path}: {wrong}") from None


def known_of(path: str | pathlib.Path) -> tuple[dict[str, list[str]], str | None]:
    """The values of a file's settings by their names, and what is wrong with the file, if anything: then the values are
    those of its other lines. A server that runs has read the file before."""
    text = text_of(path)
    try:
        words = read_earlier(text) if is_earlier(text) else read(text)
        return {name: words.values(name) for name in NAMES}, None
    except Wrong as wrong:
        found: dict[str, list[str]] = {name: [] for name in NAMES}
        for match in filter(None, (LINE.fullmatch(line.strip()) for line in text.splitlines())):
            if not match[1] and match[2] in NAMES and refusal(match[2], match[3]) is None:
                found[match[2]].append(match[3])
        return found, f"{path}: {wrong}"


def sample_text() -> str:
    """The text of the settings that come with the program."""
    return places.SETTINGS.read_text()


def sample() -> Words:
    return read(sample_text())


def written(words: Words, text: str | None = None) -> str:
    """A text of settings that has these arguments: a text changed where it has other ones, so that its comments stay, or
    the one that comes with the program."""
    if text is None or is_earlier(text):
        own = [line for line in (text or "").splitlines() if line.startswith("#") and not EARLIER.match(line)]
        text = "".join(f"{line}\n" for line in own) + sample_text()
    lines = text.splitlines()
    for name in NAMES:
        lines = with_values(lines, name, words.values(name))
    return "".join(f"{line}\n" for line in lines)


def with_values(lines: list[str], name: str, values: list[str]) -> list[str]:
    """The lines of a text in which a setting has these values: where it had some, else where a comment shows it, else at
    the end. One without a value becomes a comment."""
    found = [(place, match) for place, match in ((place, LINE.fullmatch(line.strip()))
                                                 for place, line in enumerate(lines)) if match and match[2] == name]
    there = [place for place, match in found if not match[1]]
    if [lines[place] for place in there] == [f"{name} = {value}" for value in values]:
        return lines
    shown = [place for place, match in found if match[1]]
    at = (there or shown or [len(lines)])[0]
    new = [f"{name} = {value}" for value in values] or [f"#{lines[at].strip()}"]
    taken = set(there or shown[:1])
    return [*(line for place, line in enumerate(lines[:at]) if place not in taken), *new,
            *(line for place, line in enumerate(lines[at:], at) if place not in taken)]
