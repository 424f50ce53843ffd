"""Kills a script of Python at one of its steps: for tests of scripts that are started again.

    python3 scripts/tests/killing.py N SCRIPT [WORD ..]

runs the script with these arguments and kills it, as by `kill -9`, just before the Nth of its calls that change a disk,
start a program or connect. A script with fewer such calls ends normally.
"""
import os
import pathlib
import runpy
import signal
import sys
from typing import Any

# The calls that are counted, by the names under which Python tells of them (its table of audit events).
COUNTED = {"os.rename", "os.mkdir", "os.rmdir", "os.remove", "os.truncate", "subprocess.Popen", "socket.connect"}
WRITING = os.O_WRONLY | os.O_RDWR


class Counter:
    """Counts the calls, and kills this process before the one that is asked for."""

    def __init__(self, last: int) -> None:
        self.left = last

    def __call__(self, event: str, words: tuple[Any, ...]) -> None:
        if event in COUNTED or event == "open" and isinstance(words[2], int) and words[2] & WRITING:
            self.left -= 1
            if self.left == 0:
                os.kill(os.getpid(), signal.SIGKILL)


def words(place: int, script: str | pathlib.Path, *more: object) -> list[str]:
    """The words of a command that kills the script at this place."""
    return [sys.executable, __file__, str(place), str(script), *map(str, more)]


if __name__ == "__main__":
    count, sys.argv = int(sys.argv[1]), sys.argv[2:]
    sys.dont_write_bytecode = True
    sys.addaudithook(Counter(count))
    runpy.run_path(sys.argv[0], run_name="__main__")
