"""Reads in the Rattle code the kinds of frames: their numbers, lengths and fields, and what a history has of touches."""
import dataclasses
import pathlib
import re

import fact_code
from fact_code import Wrong, text_of
from fact_specs import Definitions, Field

TOUCH, FRAME = "crates/oyster_account/src/touch.rt", "crates/gate_session/src/frame.rt"
FIRST, ANSWER = "crates/gate_session/src/first.rt", fact_code.ANSWER
SPECS = ("crates/oyster_account/specs/Touch.antt", "crates/gate_session/specs/Frames.antt",
         "crates/gate_session/specs/Answers.antt")
JUDGING = tuple(f"crates/oyster_account/specs/{name}.antt" for name in ("Touch", "Balance", "Refusal", "Judge"))
ROW = "crates/journal_audit/specs/HistoryRow.antt"
# From this number on a kind is an answer's.
FIRST_ANSWER = 0x80


@dataclasses.dataclass(frozen=True)
class Kind:
    """A kind of frame: its number, the name of its constant, its body's length with that constant's name, and its fields
    after the kind. `variant` is that of a touch, and empty for any other kind."""
    number: int
    name: str
    length: int
    length_name: str
    fields: tuple[Field, ...]
    variant: str

    def is_answer(self) -> bool:
        return self.number >= FIRST_ANSWER


@dataclasses.dataclass(frozen=True)
class Act:
    """What a history has of a kind of touch: its word, which of its fields are filled, and its verdicts."""
    word: str
    filled: tuple[bool, bool, bool]
    accepted: tuple[str, ...]
    refused: tuple[str, ...]


def numbers(top: pathlib.Path) -> dict[str, int]:
    """The number of each kind, by the name of its constant."""
    found: dict[str, int] = {}
    for file in (TOUCH, FRAME):
        text = text_of(top, file)
        found |= {name: int(number, 16) for name, number in re.findall(r"const KIND_(\w+): u8 = (0x\w+);", text)}
    return found


def length_names(top: pathlib.Path) -> dict[str, str]:
    """The name of each kind's length, by the kind's."""
    found = {name: length for length, name in re.findall(r"write_head\(out, (\w+)_LENGTH, KIND_(\w+)\)", text_of(top, ANSWER))}
    for names, length in re.findall(r"^ +(KIND_\w+(?:\s*\|\s*KIND_\w+)*) => length == (\w+)_LENGTH,", text_of(top, FIRST), re.M):
        found |= {name: length for name in re.findall(r"KIND_(\w+)", names)}
    return found


def layouts(top: pathlib.Path) -> dict[str, tuple[str, list[Field]]]:
    """The variant and the fields of each kind, by its name."""
    specs = Definitions(top, SPECS)
    found = {}
    for variant in specs.variants("kind_of"):
        value = specs.of("request_body", "Touch").value
        found[specs.of("kind_of", variant).value] = variant, specs.fields(value, variant)
    for body, other in (("request_body", "Touch"), ("answer_body", "")):
        for variant in specs.variants(body):
            value = specs.of(body, variant).value
            if variant != other:
                found[value.split()[0]] = "", specs.fields(value, variant)
    return {name.removeprefix("KIND_"): layout for name, layout in found.items()}


def kinds(top: pathlib.Path) -> list[Kind]:
    """The kinds of frames, in the order of their numbers."""
    named, laid, text = length_names(top), layouts(top), text_of(top, FRAME)
    lengths = {name: int(length) for name, length in re.findall(r"const (\w+)_LENGTH: \w+ = (\d+);", text)}
    found = []
    for name, number in numbers(top).items():
        if name not in laid or named.get(name) not in lengths:
            missing, file = "length" if name in laid else "fields", FIRST if number < FIRST_ANSWER else ANSWER
            raise Wrong(f"KIND_{name} has no {missing}: {file} has its length, and one of {', '.join(SPECS)} its fields; add "
                        "what is missing")
        variant, fields = laid[name]
        kind = Kind(number, name, lengths[named[name]], named[name], tuple(fields), variant)
        size = 1 + sum(field.size for field in fields)
        if size != kind.length:
            raise Wrong(f"{FRAME}: {kind.length_name}_LENGTH is {kind.length}, and the fields of KIND_{name} take {size} bytes "
                        f"with its own; correct one of them")
        found.append(kind)
    return sorted(found, key=lambda kind: kind.number)


def verdicts_of(judging: Definitions, variant: str) -> set[str]:
    """The names of the verdicts that a touch of this variant may get, with others that the definitions name."""
    if judging.of("is_revision", variant).value == "true":
        return judging.reached("revision_reply", variant)
    if "card_reply" not in judging.of("reply_for", variant).names():
        raise Wrong(f"{JUDGING[-1]}: reply_for answers {variant} by no card_reply; scripts/dev/fact_frames.py has to be changed")
    return judging.reached("acceptance", variant) | {"UnknownCard"} | judging.refusals("refusal_by", variant)


def word_of(row: Definitions, variant: str) -> str:
    """What a history calls an act."""
    word = re.search(r'codes "([\w-]+)"', row.of("act_fields", variant).value)
    if not word:
        raise Wrong(f"{ROW}: act_fields has no word for {variant}; add it")
    return word[1]


def acts(top: pathlib.Path) -> list[Act]:
    """What a history has of each kind of touch, in the order of the kinds' numbers."""
    judging, row, verdicts = Definitions(top, JUDGING), Definitions(top, [ROW]), fact_code.verdicts(top)
    found = []
    for kind in kinds(top):
        if not kind.variant:
            continue
        names, has = verdicts_of(judging, kind.variant), {field.name for field in kind.fields}
        accepted = tuple(one.name for one in verdicts if one.accepts and one.name in names)
        if not accepted:
            raise Wrong(f"no verdict accepts {kind.variant}: {JUDGING[-1]} has no equation of acceptance for it; add it")
        is_of_card = judging.of("is_revision", kind.variant).value == "false"
        found.append(Act(word_of(row, kind.variant), (is_of_card, bool(has & {"station", "digest"}), "pence" in has), accepted,
                         tuple(one.name for one in verdicts if not one.accepts and one.name in names)))
    return found
