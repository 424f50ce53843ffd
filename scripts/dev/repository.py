"""The commits of this repository, and commands that are run at its top: for scripts/package and scripts/release."""
import os
import pathlib
import subprocess
from typing import Any

from program import TOP

# Git, also where the repository belongs to another user.
GIT = ("git", "-c", "safe.directory=*")


class Failed(Exception):
    """What hindered the making. The text says what."""


def said_by(*words: str | os.PathLike[str], **options: Any) -> str:
    """What a command writes on standard output."""
    done: subprocess.CompletedProcess[str] = subprocess.run(words, capture_output=True, text=True, cwd=TOP, **options)
    if done.returncode:
        raise Failed(f"{pathlib.Path(words[0]).name}: {done.stderr.strip() or done.stdout.strip()}")
    return done.stdout.strip()


def git(*words: str) -> str:
    """What git writes about this repository."""
    return said_by(*GIT, *words)


def commit() -> tuple[str, str] | tuple[None, None]:
    """The last commit, and its moment in seconds: `None` for both if there is no commit."""
    try:
        name, moment = git("log", "-1", "--format=%H %ct").split()
    except (Failed, FileNotFoundError):
        return None, None
    return name, moment


def changes() -> list[str]:
    """The paths of the files that differ from the last commit, and of those that git doesn't know."""
    return [line.split(maxsplit=1)[1] for line in git("status", "--porcelain").splitlines()]
