"""Pictures of bytes, from the constants of the code: the frames of the protocol, and a journal's header and slots."""
import pathlib
import re
from collections.abc import Sequence
from typing import TypeAlias

import fact_code
import fact_frames
from fact_code import Wrong, text_of
from fact_words import words_of
from picture_svg import GREY, WIDTH, Drawing

# A field of a row of bytes: its name and its size in bytes.
Cell: TypeAlias = tuple[str, int]

LAYOUT = "crates/tap_journal/src/layout.rt"
HIGH = 34


def legend(drawing: Drawing) -> float:
    """Says what a box has. Returns the place below."""
    drawing.words(4, 15, "In a box: a field and its bytes. Below: its offset.", "start")
    return 26


def row(drawing: Drawing, y: float, title: str, cells: Sequence[Cell]) -> float:
    """A row of bytes: its title, and a cell with the name, the size and the offset of each field. Returns the place below."""
    drawing.words(4, y + 11, title, "start", True)
    apart, offset = (WIDTH - 8) / len(cells), 0
    for place, (name, size) in enumerate(cells):
        x = 4 + place * apart
        drawing.box(x, y + 17, apart, HIGH, GREY if name in ("length", "mark") else "#fff")
        drawing.words(x + apart / 2, y + 31, name, size=11 if len(name) * 7.8 < apart else 10)
        drawing.words(x + apart / 2, y + 45, str(size), size=11)
        drawing.words(x + 1, y + 17 + HIGH + 10, str(offset), "start", size=9)
        offset += size
    return y + HIGH + 38


def frames(drawing: Drawing, top: pathlib.Path) -> float:
    """The frames: for each layout of fields the kinds that have it."""
    laid: dict[tuple[Cell, ...], list[str]] = {}
    kinds = fact_frames.kinds(top)
    words = words_of(top, "kind", fact_code.limits(top), [kind.name for kind in kinds])
    for kind in kinds:
        cells = (("length", 2), ("kind", 1), *((field.name, field.size) for field in kind.fields))
        laid.setdefault(cells, []).append(f"{kind.number:02x} {words.get(kind.name, {}).get('name', kind.name.lower())}")
    y = legend(drawing)
    for cells, names in laid.items():
        y = row(drawing, y, ", ".join(names), cells)
    return y


def constants(top: pathlib.Path) -> dict[str, int]:
    """The sizes and places of the journal's layout, by their names in the code."""
    text = text_of(top, LAYOUT)
    found = {name: int(value) for name, value in re.findall(r"const (\w+): usize = (\d+);", text)}
    missing = {"NAME_AT", "VERSION_AT", "CAPACITY_AT", "CARDS_AT", "DIGEST_AT", "FREE_AT", "HEADER_SIZE", "SLOT_SIZE"} - set(found)
    if missing:
        raise Wrong(f"{LAYOUT}: no constant {', '.join(sorted(missing))}; scripts/dev/picture_layouts.py has to be changed with it")
    return found


def journal(drawing: Drawing, top: pathlib.Path) -> float:
    """A journal's header and its slots."""
    of = constants(top)
    starts = [0, *(of[name] for name in ("NAME_AT", "VERSION_AT", "CAPACITY_AT", "CARDS_AT", "DIGEST_AT", "FREE_AT", "HEADER_SIZE"))]
    names = ("mark", "name", "version", "capacity", "cards", "digest", "zeros")
    cells = [(name, end - start) for name, start, end in zip(names, starts, starts[1:])]
    y = row(drawing, legend(drawing), f"header, {of['HEADER_SIZE']} bytes", cells)
    bodies = [kind.length for kind in fact_frames.kinds(top) if kind.variant]
    for size in (min(bodies), max(bodies)):
        rest = of["SLOT_SIZE"] - 1 - size
        which = "smallest" if size == min(bodies) else "largest"
        y = row(drawing, y, f"slot with the {which} touch, {of['SLOT_SIZE']} bytes", [("mark", 1), ("touch", size), ("zeros", rest)])
    size, slot = of["HEADER_SIZE"], of["SLOT_SIZE"]
    drawing.words(4, y + 11, f"slot i begins at {size} + {slot} i; open mark a5: the slot counts", "start")
    return y + 20
