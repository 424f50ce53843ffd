"""Reads in the Rattle code the lines that a program prints for its faults: what each variant of a fault's enum prints."""
import dataclasses
import pathlib
import re

from fact_code import Wrong

DISPLAY = re.compile(r"^impl fmt::Display for (\w+(?:Fault|Cause)) \{\n(.*?)^\}", re.M | re.S)
ENUM = re.compile(r"^pub(?:\(crate\))? enum (\w+) \{\n(.*?)^\}", re.M | re.S)
# A struct with its fields, of which an enum prints one.
STRUCT = re.compile(r"^pub struct (\w+) \{\n(.*?)^\}", re.M | re.S)
FIELD = re.compile(r"^ {4}pub (\w+): (\w+),", re.M)
# A variant with what it has, in the enum and in a pattern.
VARIANT = re.compile(r"^ {4}(?P<name>\w+)(?:\((?P<types>[^)]*)\))?[,{ ]", re.M)
PRINTED = re.compile(r"\w+(?:Fault|Cause)::(?P<name>\w+)(?:\((?P<fields>[^)]*)\)| \{[^{}]*\})? => (?:\{\s*)?"
                     r"(?:let (?P<part>\w+) = (?P<whole>\w+)\.(?P=part);\s*)?"
                     r'(?:f\.write_str\(|write!\(f, )"(?P<text>[^"]*)"(?:, (?P<other>\w+)::(?P<variant>\w+))?')
# What the programs print their faults by.
PROGRAMS = {"bovtrila": "CommandFault", "gate_send": "SendFault"}
# Lines that can be printed by their type alone: no command fails of them.
UNPRINTED = {"bovtrila": ("fault journal 8 Full", "fault journal 9 NotEmpty", "fault journal 11 Stopped", "fault supply 1 Memory PLACE",
                          "fault door 1 Memory"),
             "gate_send": ("fault gate-file 3 BadLimit", "fault ask 1 Waiting", "fault ask 2 Stopped")}
# A fault that is told as part of another one, whose line cites it.
CITED = ("MigrateCause",)


@dataclasses.dataclass(frozen=True)
class Printed:
    """What a variant prints: its text with fields in braces, the types of these fields, and whose variant it prints instead."""
    text: str
    types: dict[str, str]
    other: tuple[str, str] | None


def displayed(top: pathlib.Path) -> dict[str, dict[str, Printed]]:
    """What each variant of each enum prints."""
    found: dict[str, dict[str, Printed]] = {}
    types: dict[str, dict[str, list[str]]] = {}
    texts = {file: file.read_text() for file in sorted({*top.glob("crates/*/src/*.rt"), *top.glob("crates/*/src/*/fault.rt")})}
    parts = {name: dict(FIELD.findall(body)) for text in texts.values() for name, body in STRUCT.findall(text)}
    for file, text in texts.items():
        for name, body in ENUM.findall(text):
            types[name] = {one["name"]: (one["types"] or "").split(", ") for one in VARIANT.finditer(body)}
        for name, body in DISPLAY.findall(text):
            found[name] = {one["name"]: of_variant(one, types.get(name, {}).get(one["name"], []), parts)
                           for one in PRINTED.finditer(body)}
            if found[name].keys() - types.get(name, {}).keys():
                raise Wrong(f"{file.relative_to(top)}: {name} prints other variants than it has; scripts/dev/fact_faults.py "
                            "has to be changed with the code")
    return found


def of_variant(match: re.Match[str], types: list[str], parts: dict[str, dict[str, str]]) -> Printed:
    """What a variant prints."""
    typed = dict(zip((match["fields"] or "").split(", "), types))
    if match["part"]:
        typed[match["part"]] = parts[typed[match["whole"]]][match["part"]]
    other = (match["other"], match["variant"]) if match["other"] else None
    return Printed(match["text"], typed, other)


def lines(printed: dict[str, dict[str, Printed]], name: str) -> list[str]:
    """The lines of an enum's variants, with what is filled in by capital letters."""
    found: list[str] = []
    for one in printed[name].values():
        one = printed[one.other[0]][one.other[1]] if one.other else one
        inner = [field for field in re.findall(r"\{(\w+)\}", one.text) if one.types.get(field) in printed and name not in CITED]
        texts = [one.text.replace(f"{{{field}}}", text) for field in inner for text in lines(printed, one.types[field])] or [one.text]
        found += [re.sub(r"\{(\w+)\}", lambda field: field[1].upper(), text) for text in texts]
    return [line for line in dict.fromkeys(found) if not re.fullmatch("[A-Z]+", line)]


def faults(top: pathlib.Path, program: str) -> list[str]:
    """The lines of a program's faults."""
    found = lines(displayed(top), PROGRAMS[program])
    for line in UNPRINTED[program]:
        if line not in found:
            raise Wrong(f"the code has no line '{line}'; remove it from UNPRINTED in scripts/dev/fact_faults.py")
    return [line for line in found if line not in UNPRINTED[program]]
