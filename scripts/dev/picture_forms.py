"""The forms of pictures that a text describes: a sequence of messages, a flow of steps, and a map of places."""
import re
from collections.abc import Sequence
from typing import TypeAlias

from picture_svg import GREY, LINE, WIDTH, Drawing, lines_of

# The upper left corner of a box.
Corner: TypeAlias = tuple[float, float]


class Wrong(Exception):
    """A text of a picture has a fault. The words have the fault and the line."""


def sequence(drawing: Drawing, lines: Sequence[str]) -> float:
    """Columns with a line of time each, and messages between them. Returns the height.

    `columns A | B | C` is the first line. `1 > 2: text` is a message, `2 x 1: text` one that gets lost, `2: text` a note
    at a column, and `-- text` something that happens to all of them."""
    names = [name.strip() for name in lines[0].removeprefix("columns ").split("|")]
    apart = WIDTH / len(names)
    places = [apart * (each + 0.5) for each in range(len(names))]
    top = max(drawing.filled(x - apart / 2 + 4, 4, apart - 8, name, GREY, True, least=38) for x, name in zip(places, names))
    y = top + 8
    for line in lines[1:]:
        match = re.fullmatch(r"(?:(\d) ([>x]) )?(\d): (.+)|-- (.+)", line)
        if not match:
            raise Wrong(f"'{line}' is no line of a sequence")
        start, sign, at, text, event = match.groups()
        if event:
            y = across(drawing, y, event)
        elif start:
            y = message(drawing, y, places[int(start) - 1], places[int(at) - 1], text, sign == "x")
        else:
            y = note(drawing, y, places[int(at) - 1], text)
    for x in places:
        drawing.line(x, top, x, y, is_dashed=True, is_behind=True)
    return y + 4


def message(drawing: Drawing, y: float, x: float, to: float, text: str, is_lost: bool) -> float:
    left, width = min(x, to), abs(x - to)
    words = lines_of(text, width - 14)
    middle = left + width / 2
    if width > WIDTH / 2:
        drawing.clear(middle - 80, y + 1, 160, len(words) * LINE)
    y = drawing.block(middle, y, words) + 6
    if is_lost:
        end = x + (to - x) * 0.55
        drawing.line(x, y, end, y)
        drawing.cross(end, y)
    else:
        drawing.arrow(x, y, to, y)
    return y + 9


def note(drawing: Drawing, y: float, x: float, text: str) -> float:
    width = 116
    left = min(max(2, x - width / 2), WIDTH - width - 2)
    return drawing.filled(left, y + 2, width, text) + 9


def across(drawing: Drawing, y: float, text: str) -> float:
    return drawing.filled(12, y + 3, WIDTH - 24, text, GREY) + 9


def flow(drawing: Drawing, lines: Sequence[str]) -> float:
    """Steps from top to bottom, each a box; `> text` is beside the arrow to the next one. Returns the height."""
    y: float = 4
    left, width = 16, WIDTH - 32
    beside: str | None = None
    is_first = True
    for line in lines:
        if line.startswith("> "):
            beside = line[2:]
            continue
        if not is_first:
            words = lines_of(beside, width - 60) if beside else []
            height = max(18, len(words) * LINE + 8)
            drawing.arrow(left + 24, y, left + 24, y + height)
            drawing.block(left + 38, y + (height - len(words) * LINE) / 2, words, "start")
            y += height
        head, _, rest = line.partition(": ")
        y = step(drawing, left, y, width, head, rest)
        beside, is_first = None, False
    return y + 4


def step(drawing: Drawing, left: float, y: float, width: float, head: str, rest: str) -> float:
    """A box with a heading in bold, and words below it."""
    heads, words = lines_of(head, (width - 16) * 0.9), lines_of(rest, width - 16) if rest else []
    height = (len(heads) + len(words)) * LINE + 10
    drawing.box(left, y, width, height, GREY if not rest else "#fff")
    below = drawing.block(left + 8, y + 4, heads, "start", True)
    drawing.block(left + 8, below, words, "start")
    return y + height


# A box's width and height on a map, what is between two columns, and between two rows.
BOX, HIGH, BETWEEN, BELOW = 148, 54, 76, 44


def places(drawing: Drawing, lines: Sequence[str]) -> float:
    """A map: `NAME COLUMN ROW: text` is a box of two columns, and `NAME > NAME: text` an arrow between neighbours. Returns
    the height."""
    corners: dict[str, Corner] = {}
    last: float = 0
    for line in lines:
        match = re.fullmatch(r"(\w+) ([01]) (\d): (.+)", line)
        if match:
            name, column, row, text = match.groups()
            corners[name] = 4 + int(column) * (BOX + BETWEEN), 4 + int(row) * (HIGH + BELOW)
            last = max(last, corners[name][1])
            drawing.filled(*corners[name], BOX, text, least=HIGH)
            continue
        match = re.fullmatch(r"(\w+) > (\w+): (.+)", line)
        if not match or match[1] not in corners or match[2] not in corners:
            raise Wrong(f"'{line}' is no line of a map, or names a box that is not above it")
        between(drawing, corners[match[1]], corners[match[2]], match[3])
    return last + HIGH + 4


def between(drawing: Drawing, start: Corner, end: Corner, text: str) -> None:
    """An arrow between two boxes that are one below the other or side by side."""
    if start[0] == end[0]:
        is_down = start[1] < end[1]
        x, y, to = start[0] + 24, start[1] + HIGH * is_down, end[1] + HIGH * (not is_down)
        drawing.arrow(x, y, x, to)
        words = lines_of(text, BOX + 20)
        drawing.block(x + 10, (y + to - len(words) * LINE) / 2, words, "start")
    else:
        is_right = start[0] < end[0]
        x, to, y = start[0] + BOX * is_right, end[0] + BOX * (not is_right), start[1] + HIGH - 12
        drawing.arrow(x, y, to, y)
        words = lines_of(text, BETWEEN, 11)
        drawing.block((x + to) / 2, y - 6 - len(words) * 14, words, size=11)
