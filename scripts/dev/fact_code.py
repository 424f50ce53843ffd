"""Reads in the Rattle code the facts that scripts/dev/facts writes elsewhere: verdicts, faults and limits."""
import dataclasses
import pathlib
import re

from fact_places import Place

VERDICT = "crates/oyster_account/src/verdict.rt"
ANSWER = "crates/gate_session/src/answer.rt"
SHARED = "crates/station_limits/src/limits.rt"
# Where each limit is that the regions name.
LIMITS = {
    "FIRST_REFUSAL": VERDICT,
    "HISTORY_LIMIT": SHARED,
    "TOP_UP_LIMIT": "crates/oyster_account/src/refusal.rt",
    "CARDS_LIMIT": SHARED,
    "HIGHEST_BALANCE": "crates/fare_table/src/key.rt",
    "FARE_DAY_START": "crates/money_time/src/stamp.rt",
}


class Wrong(Exception):
    """A fact can't be read or written. The text has the fault, the place, and what to do."""


@dataclasses.dataclass(frozen=True)
class Coded:
    """A verdict or a fault: a variant of an enum, with its code and what the comment on the variant says."""
    code: int
    name: str
    comment: str
    accepts: bool = False


def text_of(top: pathlib.Path, file: str) -> str:
    """The text of a file of the tree."""
    try:
        return (top / file).read_text()
    except OSError as error:
        raise Wrong(f"{file}: {error.strerror}; this is no tree of the repository") from None


def comments(text: str, enum: str) -> dict[str, str]:
    """What the comment on each variant of an enum says, without the full stop."""
    body = re.search(rf"^pub enum {enum} \{{\n(.*?)^\}}", text, re.M | re.S)
    rows = re.findall(r"((?:^ {4}/// .*\n)+) {4}(\w+)", body[1] if body else "", re.M)
    said = {name: " ".join(re.findall(r"/// (.*)", comment)) for comment, name in rows}
    return {name: (words[0].lower() + words[1:]).removesuffix(".") for name, words in said.items()}


def coded(top: pathlib.Path, file: str, enum: str, accepts: bool = False) -> list[Coded]:
    """The variants of an enum that have a code, in the order of their codes."""
    said = comments(text_of(top, file), enum)
    pairs = Place(file, rf"{enum}::(?P<name>\w+) => (?P<code>\d+),").all(top)
    if not pairs:
        raise Wrong(f"{file}: no line '{enum}::NAME => CODE,' is there; scripts/dev/fact_code.py has to be changed with the code")
    found = [Coded(int(code or 0), str(name), said.get(str(name), ""), accepts) for code, name in pairs]
    return sorted(found, key=lambda one: one.code)


def verdicts(top: pathlib.Path) -> list[Coded]:
    """The verdicts, those that accept first."""
    return coded(top, VERDICT, "Acceptance", True) + coded(top, VERDICT, "Refusal")


def faults(top: pathlib.Path) -> list[Coded]:
    """The faults that answer a request."""
    return coded(top, ANSWER, "FaultCode")


def limits(top: pathlib.Path) -> dict[str, int]:
    """The limits by their names in the code."""
    found = {}
    for name, file in LIMITS.items():
        match = re.search(rf"const {name}: \w+ = ([\d_]+);", text_of(top, file))
        if not match:
            raise Wrong(f"{file}: no constant {name} is there; name its file in scripts/dev/fact_code.py")
        found[name] = int(match[1].replace("_", ""))
    return found
