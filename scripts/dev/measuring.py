"""Shared by the measuring scripts: their options, runs in turn, figures, and tables. They have no pass or fail.

A table follows a line with its name, both in a script's output and in docs/develop/MEASUREMENTS.md, into which
scripts/dev/measure-all copies the output."""
import argparse
import re
import statistics
import sys
import time
from collections.abc import Callable, Collection, Iterable, Mapping, Sequence
from typing import TypeVar

NAME = "<!-- measured: {} -->"
NAMED = re.compile(r"<!-- measured: ([\w-]+) -->")
# What a script says in place of a table that it can't measure here.
NOT_RUN = "not run: "
# After how many seconds no further round is made where three are there.
ENOUGH = 90

Name = TypeVar("Name")
Result = TypeVar("Result")


class Asked(argparse.Namespace):
    """What a command line asks for: `rounds`, `seconds` and `folder` are there where the script measures by them."""

    quick: bool
    rounds: int
    seconds: float
    folder: str
    realtime: bool
    parts: list[str]


def asked(text: str | None, parts: Collection[str], rounds: int | None = None, seconds: float | None = None,
          has_folder: bool = False, builds: Mapping[str, str] | None = None) -> Asked:
    """What the command line of a script with these parts asks for."""
    reader = argparse.ArgumentParser(description=text, formatter_class=argparse.RawDescriptionHelpFormatter)
    reader.add_argument("--quick", action="store_true", help="one short round on small inputs, to try the script")
    if rounds:
        reader.add_argument("--rounds", type=int, help=f"how often each figure is measured ({rounds})")
    if seconds:
        reader.add_argument("--seconds", type=float, help=f"how long a server is asked in a round ({seconds})")
    if has_folder:
        reader.add_argument("--folder", default="/var/tmp", help="a folder on a real disk (/var/tmp)")
        reader.add_argument("--realtime", action="store_true", help="before other programs (chrt -r 5), as root")
    for flag, what in (builds or {}).items():
        reader.add_argument(flag, metavar="FILE", help=what)
    reader.add_argument("parts", nargs="*", metavar="PART", help=", ".join(parts))
    options = reader.parse_args(namespace=Asked())
    if wrong := [part for part in options.parts if part not in parts]:
        reader.error(f"no part is named {wrong[0]}: {', '.join(parts)}")
    if rounds:
        options.rounds = options.rounds or (1 if options.quick else rounds)
    if seconds:
        options.seconds = options.seconds or (0.2 if options.quick else seconds)
    options.parts = options.parts or list(parts)
    return options


def in_turn(rounds: int, runs: Mapping[Name, Callable[[], Result]]) -> dict[Name, list[Result]]:
    """Runs each of these, by its name, in each round, beginning with another one each time: the results by name. Where
    the rounds take long, three are made at least."""
    results: dict[Name, list[Result]] = {name: [] for name in runs}
    names, end = list(runs), time.monotonic() + ENOUGH
    for number in range(rounds):
        if number >= 3 and time.monotonic() > end:
            print(f"after {ENOUGH} s: {number} rounds in place of {rounds}", file=sys.stderr, flush=True)
            break
        first = number % len(names)
        for name in names[first:] + names[:first]:
            results[name].append(runs[name]())
    return results


def ratio(ones: Iterable[float], others: Iterable[float]) -> str:
    """The median of the ratios of each round, with the least and the greatest."""
    ratios = [one / other for one, other in zip(ones, others)]
    return f"{statistics.median(ratios):.2f} ({min(ratios):.2f} to {max(ratios):.2f})"


def column(runs: Iterable[object], name: str) -> list[float]:
    return [getattr(run, name) for run in runs]


def middle(runs: Iterable[object], name: str, form: str = ",.0f") -> str:
    return format(statistics.median(column(runs, name)), form)


def compared(ones: Sequence[object], others: Sequence[object], name: str, form: str = ",.0f") -> tuple[str, str, str]:
    """The medians of both sides, and their ratio."""
    return middle(ones, name, form), middle(others, name, form), ratio(column(ones, name), column(others, name))


def line(cells: Iterable[object]) -> str:
    """A line of a table with these cells."""
    return "| " + " | ".join(str(cell) for cell in cells) + " |"


def row(*cells: object) -> None:
    print(line(cells), flush=True)


def table(name: str, *heads: object) -> None:
    print(f"\n{NAME.format(name)}\n", flush=True)
    row(*heads)
    print("|" + "---|" * len(heads), flush=True)


def not_run(why: object) -> None:
    print(f"\n{NOT_RUN}{why}", flush=True)


def tables(text: str) -> dict[str, list[str]]:
    """The tables of a text, by their names: the lines of each."""
    found: dict[str, list[str]] = {}
    name: str | None = None
    for line in text.splitlines():
        if match := NAMED.fullmatch(line):
            name = match[1]
            found[name] = []
        elif name and line.startswith("|"):
            found[name].append(line)
        elif line or name and found[name]:
            name = None
    return found


def put(page: str, new: Mapping[str, Iterable[str]]) -> str:
    """A page with these tables in place of those that it had, each after the line with its name."""
    for name, lines in new.items():
        place = re.compile(rf"^({re.escape(NAME.format(name))}\n)(\n(\|.*\n)+)?", re.M)
        page, count = place.subn(lambda found: found[1] + "\n" + "".join(f"{line}\n" for line in lines), page)
        if count == 0:
            print(f"measure-all: the page has no place for the table '{name}'", file=sys.stderr)
    return page
