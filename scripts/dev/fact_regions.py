"""The marked regions of a tree: the lines between a comment `generated: NAME` and a comment `end: NAME`.

A table's last columns may be written by hand. They stay as they are, by the first cell of their row."""
import dataclasses
import difflib
import pathlib
import re

from fact_code import Wrong, text_of

# A mark in a comment of C, Lua, Python or Markdown.
MARK = r"^[ \t]*(?:/\*|--|#|<!--) {}: {}(?: \*/| -->)?\n"
NAME = r"(?P<name>[\w -]+?)"
# A cell that somebody has to write.
UNWRITTEN = "(to be written)"


@dataclasses.dataclass(frozen=True)
class Region:
    """The lines that a file has between two marks. With `by_hand` they are a table: the first is its whole heading, and each
    other one a row's cells without the last ones, of which so many are written by hand. Without lines it stays as it is."""
    file: str
    name: str
    lines: tuple[str, ...] | None
    by_hand: int = 0

    def of(self, text: str) -> re.Match[str]:
        """The region in the text of its file, with both marks."""
        name = re.escape(self.name)
        begin, end = MARK.format("generated", name), MARK.format("end", name)
        found = list(re.finditer(rf"(?P<begin>{begin})(?P<content>(?:.*\n)*?)(?P<last>{end})", text, re.M))
        if len(found) != 1:
            raise Wrong(f"{self.file}: the region '{self.name}' is there {len(found)} times; put a comment "
                        f"'generated: {self.name}' before its lines and a comment 'end: {self.name}' after them, once each")
        return found[0]

    def content(self, old: str) -> str:
        """The text between the marks, with what is written by hand in the text that is there."""
        if self.lines is None:
            return old
        if not self.by_hand:
            return "".join(f"{line}\n" for line in self.lines)
        hand = {cells_of(line)[0]: cells_of(line)[-self.by_hand:] for line in old.splitlines() if line.startswith("|")}
        heading, *rows = self.lines
        whole = (" | ".join([row, *hand.get(cells_of(f"| {row} |")[0], [UNWRITTEN] * self.by_hand)]) for row in rows)
        return "\n".join(["", f"| {heading} |", "|---" * (heading.count(" | ") + 1) + "|", *(f"| {row} |" for row in whole), "", ""])


def cells_of(row: str) -> list[str]:
    """The cells of a table's row."""
    return [cell.strip() for cell in re.split(r"(?<!\\)\|", row)[1:-1]]


def written(regions: list[Region], text: str) -> str:
    """The text of a file with these regions as they have to be."""
    for region in regions:
        found = region.of(text)
        text = text[:found.start("content")] + region.content(found["content"]) + text[found.end("content"):]
    return text


def check_marks(file: str, regions: list[Region], text: str) -> None:
    """Fails where a file has a region that nothing writes."""
    marked = {match["name"] for match in re.finditer(MARK.format("generated", NAME), text, re.M)}
    for name in sorted(marked - {region.name for region in regions}):
        raise Wrong(f"{file}: nothing writes the region '{name}'; remove its marks, or add it to scripts/dev/fact_texts.py")


def texts(top: pathlib.Path, regions: list[Region]) -> dict[str, tuple[str, str]]:
    """Each file's text as it is, and as it has to be."""
    found = {}
    for file in dict.fromkeys(region.file for region in regions):
        own, text = [region for region in regions if region.file == file], text_of(top, file)
        check_marks(file, own, text)
        if UNWRITTEN in text:
            line = text[:text.index(UNWRITTEN)].count("\n") + 1
            raise Wrong(f"{file}: line {line} has '{UNWRITTEN}'; write what the row means by hand, and run scripts/dev/facts again")
        found[file] = text, written(own, text)
    return found


def difference(file: str, old: str, new: str) -> str:
    """What changes in a file, as `diff -u` shows it."""
    lines = difflib.unified_diff(old.splitlines(), new.splitlines(), f"{file} (as it is)", f"{file} (as the code has it)",
                                 lineterm="", n=1)
    return "".join(f"{line}\n" for line in lines)
