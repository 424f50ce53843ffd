# SPDX-License-Identifier: Apache-2.0
"""What the Debian packages have, and how a page reads where it is installed: it names what lies there by its place there.
Commands have the same names everywhere, and the Python files are the same ones."""
import functools
import pathlib
import re
from collections.abc import Callable, Iterator

TOP = pathlib.Path(__file__).resolve().parents[2]
# The Debian packages, each with the list of its files.
STATION, NETWORK = "bovtrila", "bovtrila-network"
LISTS = {STATION: TOP / "packaging" / "files", NETWORK: TOP / "packaging" / "network-files"}
# The commands, their modules in the repository, and where Debian has Python's packages.
BIN, MODULES = TOP / "bin", TOP / "tools" / "bovtrila" / "commands"
PYTHON = "usr/lib/python3/dist-packages"
# The commands by which root runs a station's machine.
ADMINISTRATION = {"authority", "exporter", "keep-copies", "new-fares", "next-journal", "receive-copy", "restore",
                  "send-copy", "setup", "start"}
# What a page says of the repository alone stands between two comments.
OF_REPOSITORY = re.compile(r"^<!-- of the repository -->\n.*?^<!-- -->\n", re.M | re.S)
# A path of the repository, alone or in a span of code; a block of code is passed over.
PATH = r"(?<![\w/.<>{}*$-])(?:bench|bin|clients|crates|docs|network|packaging|scripts|tools)/[\w./*@-]*\w/?"
NAMED = re.compile(rf"^```.*?^```$|`[^`\n]*?(?P<code>{PATH})[^`\n]*`|(?P<bare>{PATH})", re.M | re.S)
PAGE = re.compile(r"docs/(?:\w+/)?[A-Z_]+\.md")
# How a page of docs/ begins a link to a page or a picture in another folder: where it is installed, pages lie in one folder.
ELSEWHERE = re.compile(r"(?<=\]\()\.\./(?:(?=pictures/)|\w+/(?=[A-Z_]+\.md))")


def rows(package: str = STATION) -> Iterator[tuple[pathlib.Path, str]]:
    """What a package has: a file of the repository, and its place where the package is installed. The module of a command
    goes with it."""
    for line in LISTS[package].read_text().splitlines():
        if line and not line.startswith("#"):
            pattern, place = line.split()
            # A program may not be built yet.
            found = sorted(TOP.glob(pattern)) or [TOP / pattern] * ("/out/" in pattern)
            if not found:
                raise FileNotFoundError(f"{LISTS[package]}: no {pattern}")
            for file in found:
                yield file, place + file.name if place.endswith("/") else place
                if is_command(file):
                    module = MODULES / f"{name_of(file).replace('-', '_')}.py"
                    yield module, f"{PYTHON}/{module.relative_to(TOP / 'tools')}"


def is_command(file: pathlib.Path) -> bool:
    """Whether a file starts a command bovtrila-NAME."""
    return file.parent == BIN and file.name.startswith("bovtrila-")


def name_of(file: pathlib.Path) -> str:
    """What follows `bovtrila-` in the name of a command."""
    return file.name.removeprefix("bovtrila-")


def commands(package: str = STATION) -> list[str]:
    """The names of a package's commands bovtrila-NAME, without `bovtrila-`."""
    return sorted(name_of(file) for file, _ in rows(package) if is_command(file))


def section(name: str) -> int:
    """The section of the manual in which a command has its page: 8 where root runs the machine by it, else 1."""
    return 8 if name in ADMINISTRATION else 1


@functools.cache
def places(package: str) -> dict[str, str]:
    """What the pages of a package call the installed files, and the folders that have the same name there: by their paths
    in the repository."""
    found = {}
    for other in LISTS:
        for file, place in rows(other):
            path, to = file.relative_to(TOP), pathlib.PurePath("/", place)
            found[str(path)] = file.name if file.suffix == ".md" and other == package else str(to)
            while path.name == to.name and len(path.parts) > 1:
                path, to = path.parent, to.parent
                if path.name == to.name:
                    found.setdefault(str(path), str(to))
    return found


def names(text: str, package: str = STATION) -> str:
    """A text in which each installed file has the name that it has where it is installed, and a page no folder."""
    def name(match: re.Match[str]) -> str:
        path = match[0].rstrip("/")
        if PAGE.fullmatch(path):
            return places(package).get(path, pathlib.PurePath(path).name)
        return places(package)[path] + match[0][len(path):] if path in places(package) else match[0]

    return re.sub(PATH, name, text)


def of_sources(text: str, package: str) -> str:
    """A text in which each file that isn't installed is named as one of the sources where it is first named."""
    seen = set[str]()

    def named(match: re.Match[str]) -> str:
        path = (match["code"] or match["bare"] or "").rstrip("/")
        if not path or path in seen or path in places(package):
            return match[0]
        seen.add(path)
        return match[0] if text[match.end():].lstrip().startswith("of the sources") else f"{match[0]} of the sources"

    return NAMED.sub(named, text)


def page(text: str, package: str = STATION) -> str:
    """A page, without what it says of the repository alone."""
    return names(of_sources(ELSEWHERE.sub("", OF_REPOSITORY.sub("", text)), package), package)


def change_of(file: pathlib.Path) -> Callable[[str, str], str] | None:
    """What a file's text goes through where it is installed, with the name of its package; `None`: it stays as it is."""
    if file.suffix == ".md":
        return page
    return names if file.is_relative_to(TOP / "packaging") or file.suffix == ".sql" else None
