"""Reads in the Rattle code the keys of a door's file, what each holds, the words of the kinds of request, and the lines of a
door's faults."""
import pathlib
import re

import fact_faults
import fact_keys
from fact_code import SHARED, Wrong, text_of

KEY, KIND, FAULT = (f"crates/door_file/src/{name}.rt" for name in ("key", "kind", "fault"))
TEXT = re.compile(r'Key::(\w+) => "(\w+)",')
SHAPE = re.compile(r"Key::(?P<name>\w+) => Shape::(?P<shape>\w+)(?:\((?P<low>\w+), (?P<high>\w+)\))?,")
WORD = re.compile(r'Kind::\w+ => "([\w-]+)",')
PROBLEM = re.compile(r'Problem::\w+ => f\.write_str\("([^"]+)"\)')
PLACE = re.compile(r'^impl fmt::Display for Place \{.*?write!\(f, "([^"]+)"\)', re.M | re.S)


def kinds(top: pathlib.Path) -> list[str]:
    """The words of the kinds of request, in their order."""
    return WORD.findall(text_of(top, KIND))


def keys(top: pathlib.Path) -> list[tuple[str, str, str]]:
    """Each key with its type and its range, in words, in the order in which their faults are looked for."""
    text = text_of(top, KEY)
    known = {name: value.replace("_", "") for name, value in fact_keys.constants(text_of(top, SHARED) + text).items()}
    texts, shapes = dict(TEXT.findall(text)), {match["name"]: match for match in SHAPE.finditer(text)}
    words = ", ".join(f"`{word}`" for word in kinds(top))
    ranges = {
        "Rules": ("list of tables", f"1 to {int(known['MOST_RULES']):,} rules"),
        "Name": ("text", f"1 to {known['CERTIFICATE_NAME_LIMIT']} bytes, unlike each other rule's"),
        "Gates": ("list of whole numbers and pairs", f"each number 1 to {int(known['HIGHEST_GATE']):,}; no pair descends"),
        "Kinds": ("list of texts", f"at least one of {words}; none twice"),
    }
    if not texts or texts.keys() != shapes.keys() or not {match["shape"] for match in shapes.values()} <= {*ranges, "Whole"}:
        raise Wrong(f"{KEY}: the texts and the shapes of the keys can't be read; scripts/dev/fact_door.py has to be changed with "
                    "the code")
    for name, match in shapes.items():
        if match["shape"] == "Whole":
            low, high = (int(known.get(limit, limit)) for limit in (match["low"], match["high"]))
            ranges[name] = "whole number", f"{low:,} to {high:,}"
    return [(texts[name], *ranges.get(name, ranges.get(match["shape"], ("", "")))) for name, match in shapes.items()]


def faults(top: pathlib.Path) -> list[str]:
    """The lines of a door's faults, with what is filled in by capital letters."""
    text = text_of(top, FAULT)
    found: list[str] = []
    place, problems = PLACE.search(text), PROBLEM.findall(text)
    if not place or not problems:
        raise Wrong(f"{FAULT}: what Place and Problem print can't be read; scripts/dev/fact_door.py has to be changed with the code")
    filled = re.sub(r"\{(\w+)\}", lambda field: field[1].upper(), place[1])
    for line in fact_faults.lines(fact_faults.displayed(top), "DoorFault"):
        if line in fact_faults.UNPRINTED["bovtrila"]:
            continue
        line = line.replace("PLACE", filled)
        found += [line.replace("PROBLEM", problem) for problem in problems] if "PROBLEM" in line else [line]
    return found
