"""Reads definitions of specs/*.antt: equations, the bytes that they list, and the words that they name."""
import collections.abc
import dataclasses
import pathlib
import re

from fact_code import Wrong, text_of

EQUATION = re.compile(r"^(?P<name>\w+)(?P<pattern>(?: [^=\n]+)?) =(?P<value>.*(?:\n[ ]+.*)*)", re.M)
COMMENT = re.compile(r"^--.*\n", re.M)
SIGNED = re.compile(r"\(cast_unsigned w\d+ ([\w.]+)\)")
# A refusal of a chain: what has to hold for it, and its name.
REFUSE = re.compile(r"refuse (\((?:[^()]|\([^()]*\))*\)|\w+) (\w+)")
# A variant in the pattern of an equation, with arguments or without.
VARIANT = re.compile(r"(?:^|[ (])(?:\w+\.)?([A-Z]\w*)")


@dataclasses.dataclass(frozen=True)
class Field:
    """A field of a frame: a number of so many bytes, big-endian, or so many bytes of no number."""
    name: str
    size: int
    is_signed: bool = False
    is_number: bool = True


@dataclasses.dataclass(frozen=True)
class Equation:
    """An equation of a definition: the pattern of its arguments, and its value."""
    pattern: str
    value: str

    def is_for(self, variant: str) -> bool:
        """Whether it holds for this variant of a type: its pattern names it, or none at all."""
        named = VARIANT.findall(self.pattern)
        return not named or variant in named

    def names(self) -> set[str]:
        """The names in its value, but for its arguments."""
        return set(re.findall(r"\w+", self.value)) - set(re.findall(r"\w+", self.pattern))


class Definitions:
    """The definitions of some files."""

    def __init__(self, top: pathlib.Path, files: collections.abc.Iterable[str]) -> None:
        self.files, self.text = ", ".join(files), ""
        self.equations: dict[str, list[Equation]] = {}
        for file in files:
            text = COMMENT.sub("", text_of(top, file))
            self.text += text
            for match in EQUATION.finditer(text):
                value = " ".join(match["value"].split())
                self.equations.setdefault(match["name"], []).append(Equation(match["pattern"].strip(), value))

    def of(self, name: str, variant: str = "") -> Equation:
        """The equation of a definition for a variant."""
        for equation in self.equations.get(name, []):
            if equation.is_for(variant):
                return equation
        raise Wrong(f"{self.files}: no equation '{name}' is there for {variant or 'every argument'}; add it, or name its file in "
                    "scripts/dev/fact_frames.py")

    def variants(self, name: str) -> list[str]:
        """The variants for which a definition has an equation each."""
        return [VARIANT.findall(one.pattern)[0] for one in self.equations.get(name, [])]

    def fields(self, value: str, variant: str) -> list[Field]:
        """The fields that a list of bytes has, but for the byte of the kind."""
        terms = re.split(r"(∷|\+\+)", re.sub(r"[()]", "", SIGNED.sub(r"-\1", value)))
        found: list[Field] = []
        for term, joint in zip(terms[::2], [*terms[1::2], ""]):
            head, *rest = term.split()
            name = term.split()[-1].lstrip("-").split(".")[-1]
            if head == "to_be_bytes":
                found.append(Field(name, int(rest[0][1:]) // 8, rest[-1].startswith("-")))
            elif head.startswith("KIND_") or head in ("kind_of", "[]"):
                continue
            elif joint == "∷":
                found.append(Field(name, 1))
            elif head in self.equations:
                found += self.fields(self.of(head, variant).value, variant)
            else:
                found.append(Field(name, self.size(name), is_number=False))
        return found

    def size(self, name: str) -> int:
        """How many bytes a list has by the definitions."""
        match = re.search(rf"length {name} ≡ (\d+)", self.text)
        if not match:
            raise Wrong(f"{self.files}: no 'length {name} ≡ ..' says how many bytes {name} has; add it")
        return int(match[1])

    def reached(self, name: str, variant: str) -> set[str]:
        """The names that a definition's value for a variant has, and those of the definitions that it calls."""
        found: set[str] = set()
        waiting, acts = {name}, set(self.variants("kind_of"))
        while waiting - found:
            one = (waiting - found).pop()
            found.add(one)
            for equation in self.equations.get(one, []):
                if equation.is_for(variant) or not acts & set(re.findall(r"\w+", equation.pattern)):
                    waiting |= equation.names()
        return found - {name}

    def is_ruled_out(self, condition: str, variant: str) -> bool:
        """Whether a condition can't hold for a variant: one of the parts that it joins by && is false. One with || always can."""
        if "||" in condition:
            return False
        for part in condition.strip("()").split("&&"):
            words = re.sub(r"[()]", " ", part).split()
            denied = words[0] == "not"
            called = words[1] if denied else words[0]
            # What goes back is travel (the clause `travels` of refusal_by).
            called = "is_travel" if called == "backwards" else called
            if called in self.equations and self.of(called, variant).value == ("true" if denied else "false"):
                return True
        return False

    def refusals(self, chain: str, variant: str) -> set[str]:
        """The names in a chain of refusals that a variant can be refused by."""
        return {name for condition, name in REFUSE.findall(self.of(chain).value) if not self.is_ruled_out(condition, variant)}
