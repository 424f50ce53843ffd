# SPDX-License-Identifier: Apache-2.0
"""The changes that a revision of the fares will make, as text, and the question whether to send it: for bovtrila-gate
--revise."""
import argparse
import datetime
import pathlib
import sys

from bovtrila import model, serving
from bovtrila.day_charts import clock
from bovtrila.wire import Wrong

# How many days ahead a revision may count without being asked for by --far.
FAR = 90
# The last lines of `check --against`.
MAY, MAY_NOT = "may revise", "may not revise: "


def add_options(parser: argparse.ArgumentParser) -> None:
    """The options of bovtrila-gate that go with --revise."""
    parser.add_argument("--against", metavar="FILE",
                        help="the fare table in force before the revision: show what changes")
    parser.add_argument("--program", metavar="FILE",
                        help="the program, which compares the two tables, if the script doesn't find it")
    parser.add_argument("--yes", action="store_true", help="send the revision without asking")
    parser.add_argument("--far", action="store_true", help=f"send it even if its day is more than {FAR} days ahead")


def digest_of(path: str | pathlib.Path) -> str:
    """The digest of the fare table in a file, by which a revision names it."""
    try:
        return model.Table(pathlib.Path(path).read_bytes().decode()).digest.hex()
    except OSError as error:
        raise Wrong(f"{path}: {error.strerror}; name the file of a fare table") from None
    except (ValueError, KeyError, TypeError) as error:
        raise Wrong(f"{path}: this is no fare table ({error}); bovtrila check says what is wrong") from None


def changes(program: str, old: str | pathlib.Path, new: str | pathlib.Path) -> list[str]:
    """What a table changes of the one before it, a line each, as the program's `check --against` prints it. Fails where
    fares may not be revised to it. A table that is in force already changes nothing, and may be named again."""
    status, out, err = serving.run([program, "check", "--against", old, new])
    *lines, verdict = out.splitlines() or [""]
    if (status, verdict) == (0, MAY) or (status, verdict) == (1, f"{MAY_NOT}it is the same table"):
        return [] if lines == ["nothing changes"] else lines
    if status == 1 and verdict.startswith(MAY_NOT):
        raise Wrong("\n  ".join([f"{new} can't follow {old}: {verdict.removeprefix(MAY_NOT)}", *lines]))
    raise Wrong(f"{new} can't be compared with {old}; correct the table that has the fault:\n{err or out}".rstrip())


def far_off(days: int) -> str:
    """How far a day is off, in words."""
    if days == 0:
        return "today"
    ahead = "ahead" if days > 0 else "ago"
    return f"{abs(days):,} day{'s' if abs(days) > 1 else ''} {ahead}"


def heading(asked: argparse.Namespace, today: datetime.date) -> str:
    """The line that says from when on which table counts."""
    return (f"From {asked.first:%A} {asked.first} at {clock(0)} on, {far_off((asked.first - today).days)}, the fare "
            f"table {asked.revise} counts:")


def preview(asked: argparse.Namespace, today: datetime.date) -> list[str]:
    """The lines that say what the revision that is asked for will do."""
    digest = digest_of(asked.revise)
    lines = [heading(asked, today), f"  digest {digest}"]
    if asked.against is None:
        return [*lines, "  what changes is shown with --against FILE, the table that counts before"]
    before = digest_of(asked.against)
    found = changes(serving.program(asked.program), asked.against, asked.revise)
    same = "the two are the same, to the byte" if digest == before else "only their texts are others"
    return lines + [f"  {line}" for line in found or [f"nothing changes against {asked.against}: {same}"]]


def agree(asked: argparse.Namespace) -> None:
    """Shows what a revision will change, and asks whether it shall be sent. Ends with an error where it shan't."""
    today = datetime.date.today()
    print("\n".join(preview(asked, today)), file=sys.stderr, flush=True)
    ask(asked, today)


def ask(asked: argparse.Namespace, today: datetime.date) -> None:
    """Asks whether a revision that was shown shall be sent. Ends with an error where it shan't."""
    days = (asked.first - today).days
    if days > FAR and not asked.far:
        raise Wrong(f"{asked.first} is {days:,} days ahead, and no earlier day could have other prices any more: say "
                    "--far as well where that is meant. Nothing was sent")
    if asked.yes:
        return
    if not sys.stdin.isatty():
        raise Wrong("standard input is no terminal to ask at: say --yes. Nothing was sent")
    print("It can't be taken back. Send it? Type yes: ", end="", file=sys.stderr, flush=True)
    if sys.stdin.readline().strip() != "yes":
        raise Wrong("nothing was sent")
