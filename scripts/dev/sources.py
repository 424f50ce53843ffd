"""What the scripts read in the sources: the functions of a text, the wrong bodies of a crate, and their dependencies.

crates/tried.json has a row for each wrong body that was tried, with a digest of everything that it depends on: the
toolchain's logic, the wrong body's change, the crate's `src/`, `specs/` and `proofs/`, and of each library of the
repository below it the parts that another crate sees: `specs/`, and `src/` without bodies, comments and private functions.
Tests don't count.
"""
from __future__ import annotations

import collections
import dataclasses
import functools
import hashlib
import json
import pathlib
import re
import subprocess
from collections.abc import Callable, Iterable, Iterator
from typing import TypeAlias

import refusals

# A signature with its clauses: from `fn` to the body, or to the semicolon of a trait's method.
FUNCTION = re.compile(r"^(?P<indent> {0,4})(?:(?P<pub>pub )|pub\([^)]*\) )?(?:const |unsafe )*fn (?P<name>\w+)", re.M)
COMMENT = re.compile(r"^ *(?://|--).*\n", re.M)
# The attributes and comments right above a function.
ABOVE = re.compile(r"(?:^ *(?:#\[.*\]|//.*)\n)+\Z", re.M)
# What no other crate sees: how a function is compiled, and what a file imports for its bodies.
UNSEEN = re.compile(r"^ *(?:#\[inline.*\]|(?:use|mod) [^;]*;)\n", re.M)
FIELDS = re.compile(r"(?<=\{\n)(?: +(?:pub |pub\([^)]*\) )?\w+: .*\n| +ghost .*\n| {8}.*\n)+(?=\})", re.M)
# What a file has that another crate may see.
SEEN = re.compile(r"\b(?:struct|enum|trait|const|static|type|macro_rules)\b|^ *pub |^impl\b[^{]* for |^ *ghost (?!use\b)", re.M)
TESTS = re.compile(r"\n#\[cfg\(test\)\]\nmod tests;\n")
# What holds functions: an impl or a trait, from its first column to the brace that opens it, and to the one that ends it.
HEAD = r"^(?:pub(?:\([^)]*\))? )?(?:unsafe )?(?P<kind>impl|trait)\b(?P<head>[^{\n]*(?:\n[^{}\n]*)*?)\{"
OWNER = re.compile(HEAD + "$", re.M)
BLOCK = re.compile(HEAD + r"\n(?P<body>.*?)^\}", re.M | re.S)
GENERICS = re.compile(r"^<(?:[^<>]|<[^<>]*>)*>")
CLAUSE = re.compile(r"\bensures(?: +(?P<label>\w+))? *\{")
# What an impl or a trait states beside its functions.
MEMBER = re.compile(r"^ {4}ghost (?!use\b)(?P<name>\w+)(?: =|:) \{", re.M)

TRIED = ("scripts/dev/wrong-bodies writes this file: for each wrong body that was tried, a digest of what that rested on (the "
         "toolchain's logic, the change, the crate's code, definitions and proofs, the contracts of the libraries below "
         "it), the goals that stayed open in each function and the written answers that were refused; with the right "
         "body beside it, likewise")


# A function's head, and where it ends in its text.
Function: TypeAlias = tuple[re.Match[str], int]
# The rows of crates/tried.json: by crate and wrong body.
Rows: TypeAlias = dict[str, dict[str, refusals.Row]]


@functools.cache
def heads(text: str, indent: int) -> list[Function]:
    """The functions at this indentation: the match, and where its signature with its clauses ends."""
    # Clauses come before a body's brace on a line of its own; without any, the brace ends the signature.
    end = re.compile(rf"^ {{{indent}}}\{{\}}?$|^ {{{indent}}}[>)].* \{{$|\}};$|^.*\)(?: -> .*)?;$", re.M)
    found = []
    for match in FUNCTION.finditer(text):
        if len(match["indent"]) != indent:
            continue
        close = text.find("\n", match.start())
        if not text.endswith(("{", "}"), 0, close):
            ended = end.search(text, match.start())
            close = ended.end() if ended else len(text)
        found.append((match, close))
    return found


def functions(text: str, indent: int) -> Iterator[tuple[str, bool, list[str]]]:
    """The functions at this indentation, with whether they are public and the labels of their clauses."""
    for match, close in heads(text, indent):
        head = text[match.start():close]
        yield match["name"], bool(match["pub"]), [clause["label"] or "ensures" for clause in CLAUSE.finditer(head)]


def bodies(text: str) -> Iterator[tuple[str, int]]:
    """The functions of a text that have a body, with how many lines stand between its braces."""
    for indent in (0, 4):
        ends = re.compile(rf"^ {{{indent}}}\}}", re.M)
        for match, close in heads(text, indent):
            end = ends.search(text, close)
            if text.endswith("{", 0, close) and end:
                yield match["name"], text.count("\n", close, end.start()) - 1


@dataclasses.dataclass
class Owner:
    """An impl or a trait: the type's name or the trait's own, the name of the trait that it is an impl of, its members and
    its body."""
    name: str
    trait: str  # empty for a trait and for an impl of none
    is_trait: bool
    members: set[str]
    body: str


def owners(text: str) -> Iterator[Owner]:
    """The impls and traits of a text."""
    for block in BLOCK.finditer(text):
        head = GENERICS.sub("", block["head"].strip())
        is_trait = block["kind"] == "trait"
        trait, _, subject = ("", "", head) if is_trait or not re.search(r"\bfor\b", head) else head.rpartition(" for ")
        name, of = re.search(r"\w+", subject), re.match(r"(?:\w+::)*(\w+)", trait.strip())
        assert name and (of or not trait), "an impl names its type, and a trait its name"
        yield Owner(name[0], of[1] if of else "", is_trait, set(MEMBER.findall(block["body"])), block["body"])


@dataclasses.dataclass
class Signature:
    """What is stated of a function: the labels of its clauses, the members of its impl, and of which trait that is one."""
    labels: list[str]
    members: set[str]
    trait: str


@functools.cache
def signatures(top: pathlib.Path, name: str) -> dict[str, list[Signature]]:
    """What is stated of each function of a crate, by `function` and by `Owner::function`. One name may stand for several."""
    found: dict[str, list[Signature]] = collections.defaultdict(list)
    for file in sorted((top / "crates" / name / "src").rglob("*.rt")):
        text = file.read_text()
        for function, _, labels in functions(BLOCK.sub("", text), 0):
            found[function].append(Signature(labels, set(), ""))
        for owner in owners(text):
            members, trait = (set(), owner.name) if owner.is_trait else (owner.members, owner.trait)
            for function, _, labels in functions(owner.body, 4):
                said = Signature(labels, members, trait)
                found[f"{owner.name}::{function}"].append(said)
                found[function].append(said)
    return found


@functools.cache
def trait_labels(top: pathlib.Path) -> dict[str, list[str]]:
    """The labels of the clauses of each trait's functions, by `Trait::function`, in all crates."""
    found: dict[str, list[str]] = {}
    for name in workspace(top):
        for file in sorted((top / "crates" / name / "src").rglob("*.rt")):
            for owner in owners(file.read_text()):
                if owner.is_trait:
                    found |= {f"{owner.name}::{function}": labels for function, _, labels in functions(owner.body, 4)}
    return found


def label_in_goals(top: pathlib.Path, crate: str, function: str, label: str) -> str | None:
    """The label that the goals of a clause have which a wrong body names, `None` where nothing states it. A clause that is
    its function's only one has none in its goals."""
    own = "::".join(function.split("::")[-2:])
    said = signatures(top, crate)
    for one in said.get(own, []) or said.get(own.split("::")[-1], []):
        stated = [one.labels, trait_labels(top).get(f"{one.trait}::{own.split('::')[-1]}", [])]
        for labels in stated:
            if label in labels:
                return label if len(labels) > 1 else "ensures"
        if label in one.members:
            # What a text is printed as is a clause `writes` of the trait's own.
            return "writes" if label == "output" else "ensures"
        # A trait of another crate has its own labels.
        if not one.labels and one.trait and f"{one.trait}::{own.split('::')[-1]}" not in trait_labels(top):
            return label
        if refusals.is_goal(label) and not label.startswith("returns"):
            return label
    return None


def module_at(path: str) -> str:
    """The module of a file of src/, as `rt check --only` takes it. Empty for the crate's root, and outside of src/."""
    parts = pathlib.PurePath(path).with_suffix("").parts
    return "::".join(part for part in parts[1:] if part not in ("lib", "main", "mod")) if parts[0] == "src" else ""


def function_at(path: str, text: str, at: int) -> str | None:
    """The function of a file of src/ that has this place: a free one by its path below the crate, that of a type as
    `Type::name`, and that in an impl of a trait as `module::*::name`, since the checker gives the type a name of its
    own there. `None`: it stands in no function."""
    if pathlib.PurePath(path).parts[0] != "src":
        return None
    module = [module_at(path)] if module_at(path) else []
    found = None
    for indent in (0, 4):
        for match, close in heads(text, indent):
            if text[close - 1] == "{" and match.start() <= at < text.find("\n" + " " * indent + "}", close):
                found = match
    if found is None:
        return None
    if found["indent"]:
        owner = [one for one in OWNER.finditer(text) if one.end() <= at][-1]
        if owner["kind"] == "trait" or re.search(r"\bfor\b", owner["head"]):
            return "::".join([*module, f"*::{found['name']}"])
        subject = GENERICS.sub("", owner["head"].strip())
        name = re.search(r"[A-Za-z_]+", subject)
        assert name, "an impl names its type"
        return f"{name[0]}::{found['name']}"
    return "::".join([*module, found["name"]])


def is_place(path: str, place: str) -> bool:
    """Whether the checker's path of a function is this one of `function_at`."""
    own, wanted = path.split("::")[-len(place.split("::")):], place.split("::")
    return len(own) == len(wanted) and all(one == other or other == "*" for one, other in zip(own, wanted))


def without_bodies(text: str) -> str:
    """The text of a file of src/ without the bodies of its functions: what a caller sees of it."""
    for indent in (4, 0):
        parts, at = [], 0
        for match, close in heads(text, indent):
            if match.start() >= at and text[close - 1] == "{":
                parts.append(text[at:close])
                at = text.index("\n" + " " * indent + "}", close)
        text = "".join(parts) + text[at:]
    return text


def workspace(top: pathlib.Path) -> dict[str, str]:
    """The line of crates.txt for each crate."""
    lines = [line.partition("#")[0].strip() for line in (top / "crates.txt").read_text().split("\n")]
    return {line.split(":")[0].split()[0]: line for line in lines if line}


def libraries(top: pathlib.Path, name: str) -> list[str]:
    """The libraries of the repository that crates.txt names for the crate."""
    named = workspace(top)[name].partition(":")[2].split()
    return [other for other in sorted(named) if (top / "crates" / other).is_dir()]


def below(top: pathlib.Path, name: str) -> list[str]:
    """The libraries of the repository that the crate stands on, also by way of another one."""
    found = libraries(top, name)
    for other in found:
        found += [further for further in libraries(top, other) if further not in found]
    return found


def texts(folder: pathlib.Path, parts: Iterable[str], change: Callable[[str], str] = str) -> Iterator[str]:
    """The texts of these parts of a crate, but for tests and for those of which nothing is left, each behind its path."""
    for part in parts:
        for file in sorted((folder / part).rglob("*")):
            if file.is_file() and not file.relative_to(folder / part).parts[0].startswith("tests"):
                if text := change(TESTS.sub("", file.read_text())):
                    yield f"{file.relative_to(folder.parent)}\n{text}\n"


def without_own_functions(text: str) -> str:
    """The text of a file of src/ without the functions that no other crate can call. Those of traits can be called."""
    for indent in (4, 0):
        owned = [(one.end(), one["kind"] == "impl" and not re.search(r"\bfor\b", one["head"])) for one in OWNER.finditer(text)]
        parts, at = [], 0
        for match, close in heads(text, indent):
            is_own = indent == 0 or [own for end, own in owned if end <= match.start()][-1:] == [True]
            if match["pub"] or not is_own or match.start() < at or text[close - 1] not in "{}":
                continue
            parts.append(ABOVE.sub("", text[at:match.start()]))
            end = close if text[close - 1] == "}" else text.index("\n" + " " * indent + "}", close) + indent + 2
            at = text.find("\n", end) + 1 or len(text)
        text = "".join(parts) + text[at:]
    return text


def without_comments(text: str) -> str:
    return COMMENT.sub("", text)


@functools.cache
def caller_sees(text: str) -> str:
    """What another crate sees of a file of src/: no body, no comment, no function of the crate's own, not how a function
    is compiled, and fields in no order. Nothing of a file that is the crate's own."""
    text = UNSEEN.sub("", without_comments(without_bodies(without_own_functions(text))))
    text = FIELDS.sub(lambda match: "".join(sorted(match[0].splitlines(True))), text)
    return re.sub("\n{2,}", "\n", text) if SEEN.search(text) else ""


@functools.cache
def logic() -> str:
    """The logic of the toolchain, from the line by which it names itself. Kits of one logic aren't told apart."""
    return subprocess.run(["rt", "version"], capture_output=True, check=True, text=True).stdout.partition(" ")[2]


def base_of(top: pathlib.Path, name: str) -> hashlib._Hash:
    """What each text that is tried in a crate rests on, as the beginning of its digest: comments change nothing of it."""
    rests = hashlib.sha256(logic().encode())
    crate = top / "crates" / name
    for text in texts(crate, ("src", "specs", "proofs"), without_comments):
        rests.update(text.encode())
    for library in libraries(top, name):
        seen: dict[str, Callable[[str], str]] = {"src": caller_sees, "specs": without_comments}
        for part, change in seen.items():
            for text in texts(top / "crates" / library, (part,), change):
                rests.update(text.encode())
    return rests


def digest_of(base: hashlib._Hash, changes: Iterable[Iterable[str | None]]) -> str:
    """The digest of these changes, over what they rest on."""
    one = base.copy()
    one.update(repr([tuple(change) for change in changes]).encode())
    return one.hexdigest()[:16]


def digests(top: pathlib.Path, name: str) -> dict[str, str]:
    """The digest of each wrong body of the crate with its right one, whatever clause it names."""
    base = base_of(top, name)
    return {edit.name: digest_of(base, edit.digested()) for edit in refusals.edits_of(top, name)}


def tried(top: pathlib.Path) -> Rows:
    """The rows of crates/tried.json: by crate, for each wrong body its digest and what was said of it."""
    file = top / "crates" / "tried.json"
    rows = json.loads(file.read_text())["tried"] if file.is_file() else []
    found: Rows = {}
    for row in rows:
        name, edit = row.pop("body").split("/")
        found.setdefault(name, {})[edit] = row
    return found


def write_tried(top: pathlib.Path, rows: Rows) -> None:
    """Writes crates/tried.json from these rows, a line each, sorted by name."""
    lines = [json.dumps({"body": f"{name}/{edit}", **rows[name][edit]}) for name in sorted(rows) for edit in sorted(rows[name])]
    text = ",\n".join(lines)
    (top / "crates" / "tried.json").write_text(f'{{"what": {json.dumps(TRIED)}, "tried": [\n{text}\n]}}\n')


def judged(top: pathlib.Path, edit: refusals.Edit, row: refusals.Row) -> tuple[str, str]:
    """How a wrong body went by what was said of it: a word, and what is told of it."""
    if "fault" in row:
        return "unread", row["fault"]
    wrong = {path: refusals.said_of(said) for path, said in row["wrong"].items()}
    right = {path: refusals.said_of(said) for path, said in row["right"].items()} if "right" in row else None
    named = [(function, label_in_goals(top, edit.crate, function, label) or label) for function, label in edit.named]
    return refusals.verdict(dataclasses.replace(edit, named=named), wrong, right,
                            lambda path: refusals.written_for(top / "crates" / edit.crate, path))


def stale(top: pathlib.Path, name: str) -> list[str]:
    """The wrong bodies of the crate that have no row, or one of another digest."""
    rows = tried(top).get(name, {})
    return [edit for edit, digest in digests(top, name).items() if edit not in rows or rows[edit].get("digest") != digest]
