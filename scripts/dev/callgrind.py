"""How many instructions a program takes, by valgrind: for scripts/dev/measure."""
import collections
import os
import re
from collections.abc import Callable, Sequence
from typing import TypeAlias

# An argument of a command.
Word: TypeAlias = str | int | os.PathLike[str]

# A line of callgrind's file that names a function, or one that is called, and one with a cost.
NAMED = re.compile(r"(c?)fn=(\(\d+\))(?: (.*))?")
COST = re.compile(r"[-+*\d]\S* (\d+)$")


def taken(folder: str | os.PathLike[str], words: Sequence[Word],
          run: Callable[[list[Word]], object]) -> collections.Counter[str]:
    """The instructions of a command, by the functions in which they stand. It is started by a call."""
    said = os.path.join(folder, "callgrind")
    run(["/usr/bin/env", "valgrind", "--tool=callgrind", f"--callgrind-out-file={said}", *words])
    names: dict[str, str] = {}
    found: collections.Counter[str] = collections.Counter()
    function, is_call = "", False
    with open(said, encoding="utf-8") as file:
        for line in file:
            if match := NAMED.match(line):
                is_called, key, name = match.groups()
                names[key] = name or names[key]
                function = function if is_called else names[key]
            elif line.startswith("calls="):
                # The next line has what the called function takes.
                is_call = True
            elif match := COST.match(line):
                found[function] += 0 if is_call else int(match[1])
                is_call = False
    return found


def crate(function: str) -> str:
    """The crate of a function of the program, or the C library of one that has none."""
    return function.partition("::")[0].lstrip("<") if "::" in function else "the C library"
