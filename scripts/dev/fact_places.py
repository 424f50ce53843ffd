"""Reads a fact where it is written: pairs of a code and a name, in a part of a file."""
import collections.abc
import dataclasses
import pathlib
import re

Value = int | str | None
Pair = tuple[Value, Value]


@dataclasses.dataclass
class Place:
    """Where a fact is written: files by a pattern of their paths, the part of each file between the matches of `begin` and
    `end`, and the matches of `row` in it. The groups `code` and `name` are compared, as far as `row` has them; `hex` is a
    code in hexadecimal digits. With `some` the place may lack some of them, and with `more` it may have others."""
    files: str
    row: str
    begin: str = ""
    end: str = r"\Z"
    some: bool = False
    more: bool = False

    def parts(self, top: pathlib.Path) -> collections.abc.Iterator[tuple[pathlib.Path, str]]:
        """Each file with its part, but for files without one."""
        for file in sorted(top.glob(self.files)):
            text = file.read_text()
            begin = re.search(self.begin, text, re.M)
            if begin:
                rest = text[begin.end():]
                end = re.search(self.end, rest, re.M)
                yield file.relative_to(top), rest[:end.start()] if end else rest

    def read(self, text: str) -> list[Pair]:
        """The pairs of code and name in a part, in their order."""
        return [(value_of(match, "code"), value_of(match, "name")) for match in re.finditer(self.row, text, re.M)]

    def all(self, top: pathlib.Path) -> list[Pair]:
        """The pairs of all files."""
        return [pair for _, text in self.parts(top) for pair in self.read(text)]


def value_of(match: re.Match[str], group: str) -> Value:
    """A group as a number, or as a name without dashes; `None` where there is no such group."""
    groups = match.groupdict()
    if group == "code" and "hex" in groups:
        return int(groups["hex"], 16)
    text = groups.get(group)
    if text is None:
        return None
    plain = re.sub("[_,](?=\\d)", "", text)
    if re.fullmatch(r"\d+|0x[0-9a-f]+", plain):
        return int(plain, 0) if plain.startswith("0x") else int(plain)
    return text.title().replace("_", "") if text.isupper() else text


def braces(head: str) -> tuple[str, str]:
    """The beginning and the end of what is in the braces after this text."""
    return re.escape(head) + r" \{", r"\}"
