# SPDX-License-Identifier: Apache-2.0
"""Whether a new journal is due, for `bovtrila-next-journal --when-above`: how full the journal is, and what an earlier
unattended run has left. bovtrila-exporter reads whether the last run failed.
"""
import argparse
import contextlib
import datetime
import json
import pathlib
import re
from typing import NotRequired, TypedDict

from bovtrila import old_server, serving, settings
from bovtrila.wire import Wrong

# Where the last unattended run has failed, this file of the server's folder says when and why.
FAILED = "next-journal.failed"
# Where systemd has a link to each timer that is enabled.
TIMERS = pathlib.Path("/etc/systemd/system/timers.target.wants")
NAME = re.compile(r"\w[\w.+-]*")


class Plan(TypedDict):
    """What a change to a new journal was begun with: the file plan.json of its folder."""
    old: str
    capacity: int
    cards: int
    table: str | None
    gate: int
    first: int
    journal: str | None
    unattended: NotRequired[bool]
    # When it was begun, the new journal's name, and the arguments of `serve` until then.
    moment: str
    new: str
    words: str


def percent(text: str) -> int:
    """A number of the command line from 1 to 99, with or without a sign."""
    if not re.fullmatch("[1-9][0-9]?%?", text, re.ASCII):
        raise argparse.ArgumentTypeError(f"'{text}' is no whole number from 1 to 99, as 90 or 90%")
    return int(text.rstrip("%"))


def is_enabled(name: str | None, timers: pathlib.Path = TIMERS) -> bool:
    """Whether the timer of a server is enabled."""
    return (timers / f"bovtrila-next-journal{f'@{name}' if name else ''}.timer").is_symlink()


def name_after(folder: pathlib.Path, old: pathlib.Path, now: datetime.datetime) -> str:
    """The name of the journal that follows: the old one's with the day in the place of its own, and a number if there
    is such a file."""
    stem, suffix = re.sub(r"-\d{8}(-\d+)?$", "", old.stem), old.suffix
    names = (f"{stem}-{now:%Y%m%d}{f'-{again}' if again > 1 else ''}{suffix}" for again in range(1, 1000))
    return next(name for name in names if not (folder / name).exists())


def plan_of(folder: pathlib.Path) -> Plan | None:
    """What work in this folder was begun with, if there is any."""
    try:
        plan: Plan = json.loads((folder / "plan.json").read_text())
    except FileNotFoundError:
        return None
    return plan


def unfinished(folder: pathlib.Path, journal: str) -> str | None:
    """The old journal of an unattended run that was cut off after the settings had named this new one, if there is
    any."""
    for file in sorted(folder.glob("after-*/plan.json")):
        plan = plan_of(file.parent)
        is_finished = (file.parent / "page").exists() and not (file.parent / old_server.STOPPED).exists()
        if plan and plan["new"] == journal and plan.get("unattended") and not is_finished:
            return plan["old"]
    return None


def is_due(asked: argparse.Namespace) -> bool:
    """Whether the journal of the settings is full enough, or an unattended run was cut off: `asked` then names the old
    journal."""
    words = settings.words_of(asked.config)
    if "--standby" in words.flags:
        raise Wrong(f"{asked.config} has standby = yes: the other computer would take over while this server is stopped. "
                    "Change to a new journal by hand")
    begun = unfinished(asked.folder, words["journal"])
    asked.old = begun or words["journal"]
    if not NAME.fullmatch(asked.old):
        raise Wrong(f"{asked.config} names the journal {asked.old}, which isn't a name in {asked.folder}")
    if begun or (asked.folder / f"after-{asked.old}" / old_server.STOPPED).exists():
        return True
    touches, capacity = old_server.touches_of(asked.folder / asked.old)
    if 100 * touches >= asked.when_above * capacity:
        return True
    print(f"{asked.old} is {1000 * touches // capacity / 10} % full, with {touches} of {capacity} touches: a new journal "
          f"follows from {asked.when_above} % on")
    return False


def clear(asked: argparse.Namespace, folder: pathlib.Path) -> None:
    """Removes what an unattended run has left that failed or was cut off before the settings named its new journal. A
    server that it left stopped is started first."""
    plan, words = plan_of(folder), settings.words_of(asked.config)
    if plan is None or words["journal"] == plan["new"]:
        return
    if not plan.get("unattended"):
        if asked.when_above is not None:
            raise Wrong(f"{folder}: a run that was started by hand isn't finished: run it again, or remove that folder")
        return
    new, answers = asked.folder / plan["new"], folder / "answers"
    sent = len(answers.read_text().splitlines()) if answers.exists() else 0
    if new.exists() and old_server.touches_of(new)[0] > sent:
        raise Wrong(f"{new} has touches of gates, and {asked.config} names {plan['old']}: find out which of the two "
                    f"counts, and remove {folder}")
    if (folder / old_server.STOPPED).exists():
        wrong = old_server.start(asked, asked.folder / plan["old"], words)
        if wrong:
            raise Wrong(wrong)
    new.unlink(missing_ok=True)
    for path in folder.iterdir():
        if path.name != "plan.json":
            path.unlink()
    serving.sync(folder)
    (folder / "plan.json").unlink()


def note_failure(folder: pathlib.Path, text: str) -> None:
    """Writes down that an unattended run has failed. A disk without room may still take the name of a file."""
    now = datetime.datetime.now(datetime.timezone.utc)
    with contextlib.suppress(OSError):
        (folder / FAILED).touch(0o644)
        (folder / FAILED).write_text(f"{now:%Y-%m-%dT%H:%M:%SZ} {text}\n")


def forget_failure(folder: pathlib.Path) -> None:
    (folder / FAILED).unlink(missing_ok=True)
