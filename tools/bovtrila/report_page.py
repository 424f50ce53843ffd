# SPDX-License-Identifier: Apache-2.0
"""The page of bovtrila-day-report or bovtrila-network-report: its parts, and its HTML. The templates are in the folder
templates/, and escape each value."""
import importlib.util
import os
import pathlib
import sys
from collections.abc import Iterable, Sequence
from typing import NamedTuple

from bovtrila.day_charts import Pence

FOLDER = pathlib.Path(__file__).resolve().parent / "templates"
# Where the system has its own Python.
SYSTEM = "/usr/bin/python3"
# What a page is made with. Debian's packages have the same names after `python3-`.
LIBRARIES = ("matplotlib", "jinja2")
# A table that is shown as several has at least so many rows in each.
LEAST = 8
# What a table's cell has: text, a number, or money, which is Pence.
Cell = str | int


class Table(NamedTuple):
    """The heads of the columns, and the rows. A long table is shown as several side by side."""

    heads: Sequence[str]
    rows: Sequence[Sequence[Cell]]
    is_folded: bool = False
    columns: int = 1

    def parts(self) -> list[Sequence[Sequence[Cell]]]:
        """The rows of each table that is shown."""
        size = max(LEAST, -(-len(self.rows) // self.columns))
        return [self.rows[place:place + size] for place in range(0, len(self.rows), size)] or [self.rows]


class Section(NamedTuple):
    """A section of a page: its title, its text, the SVG of its chart, its tables, and a text below them."""

    title: str
    text: str
    chart: str = ""
    tables: Sequence[Table] = ()
    below: str = ""


class Tile(NamedTuple):
    """A number at the head of a page, what it counts, and lines below that."""

    number: str
    name: str
    lines: Sequence[str]


class Page(NamedTuple):
    """A page: its title, its sections, the name of its file, and what is above and below the sections."""

    title: str
    sections: Sequence[Section]
    name: str = ""
    tiles: Sequence[Tile] = ()
    sums: Sequence[Table] = ()
    notes: Sequence[str] = ()
    footer: str = ""

    def html(self) -> str:
        """The page as HTML."""
        # The command reports a library that is missing, so it can't be imported above.
        from bovtrila.templating import environment
        templates = environment(FOLDER)
        templates.filters["words"] = words
        templates.globals["several"] = several
        return templates.get_template("report.html.jinja").render(page=self) + "\n"


def words(value: Cell) -> str:
    """A value as a page shows it: money in pounds, and another number with its thousands."""
    return str(value) if isinstance(value, (str, Pence)) else f"{value:,}"


def plural(count: int, end: str = "s") -> str:
    """The end of a word for so many things."""
    return "" if count == 1 else end


def several(count: int, word: str) -> str:
    """A number with what it counts."""
    return f"{count:,} {word}{plural(count)}"


def folded(heads: Sequence[str], rows: Iterable[Sequence[Cell]], columns: int = 1) -> list[Table]:
    """A table that is folded up, or no table if it has no row."""
    found = list(rows)
    return [Table(heads, found, True, columns)] if found else []


def find_libraries(command: str) -> None:
    """Checks that this Python has the libraries. Where it lacks one, the command goes on with the system's own Python, which
    has the packages that apt-get installs."""
    missing = [name for name in LIBRARIES if not importlib.util.find_spec(name)]
    if not missing:
        return
    if os.access(SYSTEM, os.X_OK) and os.path.realpath(SYSTEM) != os.path.realpath(sys.executable):
        os.execv(SYSTEM, [SYSTEM, *sys.argv])
    packages = " ".join(f"python3-{name}" for name in missing)
    sys.exit(f"{command} needs {' and '.join(missing)}: apt-get install {packages}")
