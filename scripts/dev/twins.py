"""Twins: a wrong body beside its function, under a separate name and with the same contract.

One check tries many of them, also several of one function: each has a copy of the function's written answers. Functions
that aren't tried have their contracts and no proofs, so that a check spends no time on them. A method in an impl of a
trait has no twin, and neither has a function whose proof is written as a whole: these are changed in their place.
"""
from __future__ import annotations

import dataclasses
import functools
import pathlib
import re
from collections.abc import Collection, Mapping, Sequence
from typing import TypeAlias

import sources

# The texts of a crate by their paths, and a change of one: the path, the old text and the new one.
Texts: TypeAlias = Mapping[str, str]
Change: TypeAlias = tuple[str, str, str]

ANSWERS = ("Answers.antt", "Invariants.antt")
WHOLE = "Proof.antt"
TYPE = r"^(?:pub(?:\([^)]*\))? )?(?:struct|enum) {}\b"
GOALS = re.compile(r"\bRattle\.\w+\.proofs\.([\w.]+)\.(?:Goals|Given)\b")
# A function that reads the worked examples: they are of no function, and a check of some functions leaves them out.
READER = "examples_are_read"


def texts_of(crate: pathlib.Path) -> dict[str, str]:
    """The texts of a crate that a check reads, by their paths in it."""
    return {str(file.relative_to(crate)): file.read_text() for part in ("src", "specs", "proofs")
            for file in sorted((crate / part).rglob("*")) if file.is_file()}


class Functions:
    """The functions of a crate that may have twins: the file of each, by its path as the checker tells it."""

    def __init__(self, texts: Texts) -> None:
        self.texts = texts
        self.found: dict[str, str] = {}
        # Those whose goals another file names: they stay as they are.
        self.named_elsewhere = {found[1].replace(".", "::") for path, text in texts.items() for found in GOALS.finditer(text)
                                if path.startswith("proofs/") and not path.startswith(f"proofs/{found[1].replace('.', '/')}/")}
        sources_of = {path: text for path, text in texts.items() if path.startswith("src/") and "/tests" not in path}
        for path, text in sources_of.items():
            for match, _ in sources.heads(text, 0):
                self.found["::".join([*filter(None, [sources.module_at(path)]), match["name"]])] = path
            for owner in sources.owners(text):
                if owner.is_trait or owner.trait:
                    continue
                homes = [home for home, other in sources_of.items() if re.search(TYPE.format(owner.name), other, re.M)]
                for match, _ in sources.heads(owner.body, 4):
                    for home in homes[:1]:
                        parts = [*filter(None, [sources.module_at(home)]), owner.name, match["name"]]
                        self.found["::".join(parts)] = path

    def path_of(self, place: str) -> str | None:
        """The path of the function at a place as `sources.function_at` gives it, `None` where that isn't plain."""
        paths = [path for path in self.found if sources.is_place(path, place)]
        return paths[0] if len(paths) == 1 and "*" not in place else None

    def named(self, function: str) -> list[str]:
        """The paths of the functions that a wrong body may name by this."""
        return [path for path in self.found if f"::{path}".endswith(f"::{function}")]


@functools.cache
def span(file: str, text: str, place: str) -> tuple[int, int] | None:
    """Where the function at this place begins, with the attributes above it, and where it ends."""
    name = place.split("::")[-1]
    for indent in (0, 4):
        for match, close in sources.heads(text, indent):
            if match["name"] == name and sources.function_at(file, text, match.start()) == place:
                begin = match.start()
                while (line := text[text.rfind("\n", 0, begin - 1) + 1:begin]).startswith(" " * indent + "#["):
                    begin -= len(line)
                return begin, text.index("\n" + " " * indent + "}", close) + indent + 2
    return None


def path_in_impl(place: str, file: str, text: str, at: int) -> str:
    """The path by which the checker tells the method at this place of a trait's impl: the type, the trait and what that is
    of stand in it as one name. `place` itself where it is that of another function."""
    if "*" not in place:
        return place
    head = [one for one in sources.OWNER.finditer(text) if one.end() <= at][-1]["head"]
    trait, _, subject = sources.GENERICS.sub("", head.strip()).strip().rpartition(" for ")
    named, of = re.match(r"(?:\w+::)*(\w+)(?:<(?:\w+::)*(\w+))?", trait), re.match(r"(?:\w+::)*(\w+)", subject)
    return place.replace("*", "".join([of[1], named[1], named[2] or ""])) if named and of else place


def folder_of(path: str) -> str:
    return "proofs/" + path.replace("::", "/")


@dataclasses.dataclass
class Twin:
    """A changed function beside its own: that one's place and its path, the file of both, and the twin's text and name."""
    place: str
    path: str
    file: str
    text: str
    name: str

    @property
    def own_path(self) -> str:
        return "::".join([*self.path.split("::")[:-1], self.name])


def twin_of(functions: Functions, place: str, changes: Sequence[Change], number: int) -> Twin | None:
    """The twin of the function at this place with these changes. `None` where it can have none."""
    path = functions.path_of(place)
    if path is None or path in functions.named_elsewhere or f"{folder_of(path)}/{WHOLE}" in functions.texts:
        return None
    file = functions.found[path]
    ends = span(file, functions.texts[file], place)
    if ends is None or any(one != file for one, _, _ in changes):
        return None
    text = functions.texts[file][slice(*ends)]
    for _, old, new in changes:
        if text.count(old) != 1:
            return None
        text = text.replace(old, new)
    own = path.split("::")[-1]
    name = f"{own}_tried_{number}"
    return Twin(place, path, file, re.sub(rf"\bfn {own}\b", f"fn {name}", text, count=1), name)


def laid(functions: Functions, crate: str, changes: Sequence[Change], twins: Sequence[Twin], proved: Collection[str],
         reads_examples: bool = False) -> dict[str, str] | None:
    """The crate's texts with these changes in their places and these twins, and without the proofs of all functions but
    these; with a function that reads the examples where that is asked. `None`: a text to change doesn't stand there once."""
    texts = dict(functions.texts)
    for file, old, new in changes:
        if texts[file].count(old) != 1:
            return None
        texts[file] = texts[file].replace(old, new)
    for path in functions.found:
        if path not in proved and path not in functions.named_elsewhere:
            for file in ANSWERS:
                texts.pop(f"{folder_of(path)}/{file}", None)
            texts[f"{folder_of(path)}/{WHOLE}"] = ""
    for twin in twins:
        for file in ANSWERS:
            text = functions.texts.get(f"{folder_of(twin.path)}/{file}")
            if text is not None:
                own, other = (f"Rattle.{crate}.proofs.{one.replace('::', '.')}." for one in (twin.path, twin.own_path))
                texts[f"{folder_of(twin.own_path)}/{file}"] = text.replace(own, other)
        ends = span(twin.file, texts[twin.file], twin.place)
        assert ends, "its own function is there: twin_of has found it"
        end = ends[1]
        texts[twin.file] = f"{texts[twin.file][:end]}\n\n{twin.text}{texts[twin.file][end:]}"
    if reads_examples:
        root = "src/lib.rt" if "src/lib.rt" in texts else "src/main.rt"
        texts[root] += f"\nfn {READER}() {{\n}}\n"
        texts[f"{folder_of(READER)}/Answers.antt"] = f"use Rattle.{crate}.proofs.Examples as examples\n"
    return texts
