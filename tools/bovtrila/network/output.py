# SPDX-License-Identifier: Apache-2.0
"""What a command writes: its standard output, whose reader may end before it, and files that are written whole or not at
all."""
import contextlib
import os
import pathlib
import sys
from collections.abc import Callable, Iterator
from typing import IO

# The status of a program that SIGPIPE ends.
NO_READER = 141


def run(main: Callable[[], None]) -> None:
    """Runs a command. If nobody reads its output any more, the command ends with the status 141 and prints nothing."""
    try:
        try:
            main()
        finally:
            sys.stdout.flush()
    except BrokenPipeError:
        # The rest of the output has nowhere to go.
        os.dup2(os.open(os.devnull, os.O_WRONLY), sys.stdout.fileno())
        sys.exit(NO_READER)


@contextlib.contextmanager
def whole(path: pathlib.Path) -> Iterator[IO[str]]:
    """A file that replaces the one of this path once it is whole and on the disk. Whatever ends this process earlier, or
    fails, leaves the old one."""
    new = path.with_name(f"{path.name}.new")
    try:
        with open(new, "w", encoding="utf-8", newline="") as file:
            yield file
            file.flush()
            os.fsync(file.fileno())
        new.replace(path)
    except BaseException:
        new.unlink(missing_ok=True)
        raise
