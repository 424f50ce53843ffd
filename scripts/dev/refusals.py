"""The form of a wrong body, the checker's output for it, and whether it is refused for its reason.

A wrong body is a file crates/NAME/must-fail/EDIT.edit or crates/NAME/wrong-bodies/EDIT.edit, with lines that begin so:

  file: src/writes.rt          the file that the lines below change
  old: TEXT                    a text that is in the file once
  new: TEXT                    the text that replaces it
  right: TEXT                  another replacement of the same form that keeps the promise; it follows its `new: `
  answers: NAME.answers        a file in crates/NAME/right-answers/: the written answers of the changed function for the form
                               of both bodies, if that isn't the form of the present body. Its name
                               doesn't end in .antt, since rt refuses such a file that none of its checks reads
  refused by: FUNCTION.LABEL   the clause that stays unproved for this body, as docs/develop/proofs/ names it; several
                               have a space between

Each has the last of these lines. FUNCTION is a function as docs/develop/proofs/ names it, LABEL the label of one of its
clauses, or `ensures` for a clause without one. A function in an impl of a trait may name a clause of the trait's function,
and a `ghost` member of the impl, as `From::from_gives`. The precondition of a call, the invariant of a type, and the
invariant or measure of a loop are named by their goals: `Desk::learn.invariant_of-self`, `spans_of.spans-preserved`,
`write_whole.loop-at-preserved`. `Examples.NAME` is the example of that name in proofs/Examples.antt. `rt` reads only the
first three lines.
"""
from __future__ import annotations

import dataclasses
import pathlib
import re
from collections.abc import Callable, Collection, Iterable, Mapping, Sequence
from typing import NamedTuple, NotRequired, TypeAlias, TypedDict

# The texts of a change, or of what else a wrong body rests on.
Digested: TypeAlias = Sequence[str | None]

NOTE = re.compile(r"note: src/\S+?:\d+:\d+: (?:it is not proved that (?P<what>.*?)(?: \(`(?P<goal>[^`]+)`\))?|"
                  r"`search` found no proof \(`(?P<alone>[^`]+)`\))(?:;.*)?")
# What stands in a verdict where no answers are written.
LEFT = re.compile(r"`search` did not prove (`[^`]+`(?:,? (?:and )?`[^`]+`)*)")
ERROR = re.compile(r"(?:\./)?(?P<file>\S+?):\d+:\d+: error(?:\[[\w-]+\])?: (?:`(?P<name>[^`]*)`)?(?P<said>.*)")
VERDICT = re.compile(r"fn (?P<path>[^ ]+(?: as [^ ]+)?): (?P<said>.*)")
# A step that an answer names isn't there; and what comes of something else that was refused.
NAMES = re.compile(r"that can be named from here|has no field|is not in scope|has no `|\(nearest: ")
FOLLOWS = re.compile(r"was rejected|not admitted|not checked")
# Those that depend on a refused one, in one line: each with what it goes by way of, where that is another.
DEPENDING = re.compile(r"\d+ declarations? that depends? on `(?P<lemma>[^`]+)`, which was rejected, (?:was|were) not checked: "
                       r"(?P<names>.*)")
ANSWER = re.compile(r"^pub (\S+) : goal\.", re.M)
# What a loop keeps, from its start on, and by what it ends; behind it the way through the loop.
LOOP = re.compile(r"(\S+?-(?:init|preserved|smaller))(?:-\S+)?")
# A goal that has to hold for the body to be one at all: what a call asks for, what a type keeps, that a number fits.
CONDITION = re.compile(r"\S+-requires\b|invariant_of-|overflow_|\w*bounds-|div-")
# What makes a step of a body, or a way through it: a call, and the words and signs that branch.
STEP = re.compile(r"\b[a-z_]\w*!?(?=\()|\b(?:return|break|continue|if|match|while|for)\b|\?|&&|\|\|")
PASSES = ("open", "answered")
RIGHT_ANSWERS = "right-answers"


class Kept(TypedDict):
    """What was said of a function, as it is recorded. `fits` is there where it is false."""

    open: list[str]
    answers: list[str]
    fits: NotRequired[bool]


class Row(TypedDict, total=False):
    """What a wrong body has in crates/tried.json: its digest, and what was said of each function with it and with the right
    body; or why that couldn't be read. `body` names it, as CRATE/NAME."""

    body: str
    digest: str
    fault: str
    wrong: dict[str, Kept]
    right: dict[str, Kept]


class Change(NamedTuple):
    """A change of a file's text, with that of the right body, if there is one."""

    file: str
    old: str
    new: str
    right: str | None = None


@dataclasses.dataclass
class Edit:
    """A wrong body: its crate's name, the folder that it stands in, the clauses that it names, and its changes."""
    crate: str
    folder: str
    name: str
    named: list[tuple[str, str]]  # pairs of a function and a label
    changes: list[Change]
    answers: str | None = None  # the name of a file in right-answers/
    answers_text: str | None = None  # what stands there, `None` where there is no such file

    def digested(self) -> list[Digested]:
        """What a row in crates/tried.json of it rests on, beside the crate."""
        return [*self.changes, *([[self.answers, self.answers_text]] if self.answers else [])]

    @property
    def has_right(self) -> bool:
        return any(change.right is not None for change in self.changes)

    def keeps_steps(self) -> bool:
        """Whether the new texts have the steps of the old ones, in their order: a value is changed alone."""
        return all(STEP.findall(old) == STEP.findall(new) for _, old, new, _ in self.changes)


def read_edit(file: pathlib.Path) -> Edit:
    """The wrong body that stands in this file."""
    edit = Edit(file.parent.parent.name, file.parent.name, file.stem, [], [])
    path, old = "", ""
    for line in file.read_text().split("\n"):
        word, _, rest = line.partition(": ")
        if word == "refused by":
            edit.named += [(one.rpartition(".")[0], one.rpartition(".")[2]) for one in rest.split()]
        elif word == "answers":
            edit.answers = rest.strip()
            answers = file.parent.parent / RIGHT_ANSWERS / edit.answers
            edit.answers_text = answers.read_text() if answers.is_file() else None
        elif word == "file":
            path = rest.strip()
        elif word == "old":
            old = rest
        elif line.startswith("new:"):
            edit.changes.append(Change(path, old, line[4:].removeprefix(" ")))
        elif word == "right" and edit.changes:
            edit.changes[-1] = edit.changes[-1]._replace(right=rest)
    return edit


def edits_of(top: pathlib.Path, name: str) -> list[Edit]:
    """The wrong bodies of a crate, those that `rt ci` tries first."""
    folder = top / "crates" / name
    return [read_edit(file) for part in ("must-fail", "wrong-bodies") for file in sorted((folder / part).glob("*.edit"))]


def label_of(goal: str) -> str:
    """The label of the clause that a goal belongs to, whatever the way to it. A loop's goal is that without the way, and
    the condition of a call is itself. The answer to all of a goal has `-whole` behind the goal's name."""
    goal = goal.removesuffix("-whole")
    if not goal.startswith("returns"):
        loop = None if is_condition(goal) else LOOP.fullmatch(goal)
        return loop[1] if loop else goal
    found = re.search(r"-clause-(\w+)", goal)
    return found[1] if found else "ensures"


def is_goal(name: str) -> bool:
    """Whether it is a goal of the checker, and no lemma beside the answers."""
    return name.startswith("returns") or is_condition(name) or LOOP.fullmatch(name) is not None


def is_free(written: set[str] | None, wanted: Iterable[str]) -> bool:
    """Whether none of the wanted labels has a written answer."""
    return written is not None and not covered(written, wanted)


def covered(labels: Iterable[str], named: Iterable[str]) -> set[str]:
    """Those of the labels that these names are of. The name of a condition without the way to it is of each way."""
    return {label for label in labels for name in named
            if label == name or is_condition(name) and label.startswith(f"{name}-")}


def missing(named: Iterable[str], labels: Collection[str]) -> set[str]:
    """Those of the names that none of the labels has."""
    return {name for name in named if not covered(labels, {name})}


def is_condition(label: str) -> bool:
    """Whether it is a goal without which the body is none, as the condition of a call. Clauses and loops are others."""
    return CONDITION.match(label) is not None


@dataclasses.dataclass
class Said:
    """What was said of a function: the goals that the search left open, those whose written answer was refused by its
    type, whether all answers fit the steps that are there, and whether it rests on another function without a proof."""
    open: set[str] = dataclasses.field(default_factory=set)
    answers: set[str] = dataclasses.field(default_factory=set)
    fits: bool = True
    rests: bool = False

    def goals(self) -> set[str]:
        return self.open | self.answers

    def is_clear(self) -> bool:
        return not self.goals() and self.fits

    def kept(self) -> Kept:
        """As it is recorded."""
        kept: Kept = {"open": sorted(self.open), "answers": sorted(self.answers)}
        if not self.fits:
            kept["fits"] = False
        return kept


def said_of(kept: Kept) -> Said:
    return Said(set(kept["open"]), set(kept["answers"]), kept.get("fits", True))


def function_of(file: str) -> str:
    """The function, or the file of lemmas, that a file of proofs/ belongs to."""
    parts = pathlib.PurePath(file).with_suffix("").parts[1:]
    return "::".join(parts[:-1]) if parts[-1] in ("Answers", "Invariants", "Proof") else parts[-1]


def refused(name: str, text: str) -> list[tuple[str, str]]:
    """The declarations that an error is of, each with what is said of it."""
    found = DEPENDING.fullmatch(text)
    if not found:
        return [(name, text)]
    names = re.sub(r" \(via [^)]*\)", "", found["names"]).split(", ")
    return [(one, f"it cites `{found['lemma']}`, which was rejected") for one in names]


def read_told(out: str) -> tuple[dict[str, Said], list[str]]:
    """What a check said of each function, and of each file of lemmas, and the errors that keep it from being read.

    A function that the checker has a verdict on is there, also where nothing is open.
    """
    told: dict[str, Said] = {}
    unread: list[str] = []
    notes: set[str] = set()
    # The function or the file of lemmas, the declaration, and what was said of it.
    errors: list[tuple[str, str, str]] = []
    for line in out.split("\n"):
        if found := NOTE.fullmatch(line):
            notes.add(found["alone"] or found["goal"] or found["what"])
        elif found := ERROR.fullmatch(line):
            if found["file"].startswith("proofs/"):
                errors += [(function_of(found["file"]), name, text) for name, text in refused(found["name"], found["said"])]
            else:
                unread.append(line)
        elif found := VERDICT.fullmatch(line):
            # The notes on a function come right before its verdict.
            said = told.setdefault(found["path"].partition("::")[2], Said())
            left = LEFT.search(found["said"])
            said.open |= notes | set(re.findall(r"`([^`]+)`", left[1]) if left else ())
            said.rests |= "it calls `" in found["said"]
            notes = set()
        elif line.startswith(("error", "rattle: error")):
            unread.append(line)
    for path, name, text in errors:
        said = told.setdefault(path, Said())
        if NAMES.search(text):
            said.fits = False
        elif name and not FOLLOWS.search(text):
            said.answers.add(name)
    behind = [(told[path], name, text) for path, name, text in errors if name and FOLLOWS.search(text)]
    while follow := [(said, name) for said, name, text in behind
                     if name not in said.answers and any(f"`{one}`" in text for one in said.answers)]:
        # What rests on a lemma of the answers that was refused by its type is refused by way of it.
        for said, name in follow:
            said.answers.add(name)
    return told, unread


def is_named(path: str, function: str) -> bool:
    """Whether FUNCTION, as docs/develop/proofs/ has it, is the function that the checker tells by this path. A trait's
    method stands there under the type's name with the trait's behind it."""
    own, wanted = path.split("::"), function.split("::")
    if own[-1] != wanted[-1]:
        return False
    if len(wanted) == 1 or own[-len(wanted):] == wanted:
        return True
    return len(own) > 1 and len(wanted) == 2 and own[-2].startswith(wanted[0])


def matching(told: Mapping[str, Said], function: str) -> list[str]:
    """The paths of the functions of this name: of one whose path has it as it stands, where there is one."""
    paths = [path for path in told if is_named(path, function)]
    return [path for path in paths if f"::{path}".endswith(f"::{function}")] or paths


def written_for(crate: pathlib.Path, path: str) -> set[str] | None:
    """The labels of a function's goals that have written answers: what the search doesn't find for the body as it stands.
    `None`: all of its proof is written."""
    folder = crate / "proofs" / path.replace("::", "/")
    if (folder / "Proof.antt").is_file():
        return None
    file = folder / "Answers.antt"
    return {label_of(goal) for goal in ANSWER.findall(file.read_text())} if file.is_file() else set()


def verdict(edit: Edit, wrong: Mapping[str, Said], right: Mapping[str, Said] | None,
            written: Callable[[str], set[str] | None]) -> tuple[str, str]:
    """How a wrong body went: a word, and what is said of it. `open` and `answered` pass.

    WRONG has what was said with it, RIGHT with the right body, `None` where that wasn't tried. WRITTEN gives the labels of
    a function that have written answers.
      open        the search leaves the named clauses open, and finds them by itself for the body as it stands; or all
                  written answers fit
      answered    they are open, or their answers refused by type, and not so for the right body, or for the body as it
                  stands where the wrong one changes a value alone
      undecided   the answers don't fit, and nothing shows that they would for a right body of this form
      condition   the condition of a call, or an invariant, is open and isn't named
      another     something is open, and not the named clause
      proved      nothing is open
      unnamed     it names no clause
    """
    if not any(said.goals() for said in wrong.values()):
        return ("undecided", "answers name what isn't there, and no more") if any(
            not said.fits for said in wrong.values()) else ("proved", "nothing is open")
    every = sorted(f"{path}.{label}" for path, said in wrong.items() for label in {label_of(goal) for goal in said.goals()})
    if not edit.named:
        return "unnamed", f"open are: {', '.join(every)}"
    if right is None and edit.keeps_steps() and not edit.has_right and all(said.fits for said in wrong.values()):
        right = {}
    spared = {path: right[path].goals() if right and path in right else set() for path in wrong}
    named = {label for _, label in edit.named}
    conditions = {label for said in wrong.values() for label in map(label_of, said.open) if is_condition(label)}
    if conditions := conditions - covered(conditions, named):
        return "condition", f"open besides: {', '.join(sorted(conditions))}"
    word = "open"
    besides: set[str] = set()
    for function in dict.fromkeys(function for function, _ in edit.named):
        wanted = {label for one, label in edit.named if one == function}
        said = {path: wrong[path] for path in matching(wrong, function)}
        searched = {label_of(goal) for one in said.values() for goal in one.open}
        labels = searched | {label_of(goal) for one in said.values() for goal in one.answers}
        if missing(wanted, labels):
            return "another", f"{function}.{', '.join(sorted(missing(wanted, labels)))} isn't open; open are: {', '.join(every)}"
        goals = {label_of(goal) for one in said.values() for goal in one.goals() if is_goal(goal)}
        besides |= goals - covered(goals, wanted)
        if not missing(wanted, searched) and all(
                one.fits and not one.answers or is_free(written(path), wanted) for path, one in said.items()):
            continue
        fresh = {label_of(goal) for path, one in said.items() for goal in one.goals() - spared[path]}
        if right is None or missing(wanted, fresh):
            return "undecided", ("it has no right body" if right is None else "the right body is refused alike")
        word = "answered"
    return word, f"besides: {', '.join(sorted(besides))}" if besides else ""
