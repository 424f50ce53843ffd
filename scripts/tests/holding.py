"""Delays a call of a program until a test lets it continue, so that the test can do something meanwhile, or does it at each
call."""
import os
import pathlib
import subprocess
import time
from typing import Any

import harness

# Holds up each call of the lock where HOLD_LOCK is set, and each read of a file from the byte HOLD_READ on: from when the
# file HELD is made until the file GO is there. Where REPLACED names a file, each call of the lock first puts a byte behind
# those of HELD, and an empty file in place of the named one.
LIBRARY = r"""
extern long syscall(long, ...);
extern char *getenv(const char *);
extern int atoi(const char *);

static void hold(void) {
    static const long pause[2] = {0, 1000000};
    syscall(3, syscall(257, -100, getenv("HELD"), 0101, 0600));
    while (syscall(21, getenv("GO"), 0) != 0) syscall(35, pause, 0);
}

static void replace(const char *path) {
    long count = syscall(257, -100, getenv("HELD"), 02101, 0600);
    syscall(1, count, ".", 1L);
    syscall(3, count);
    syscall(87, path);
    syscall(3, syscall(85, path, 0600));
}

int flock(int file, int how) {
    if (getenv("HOLD_LOCK")) hold();
    if (getenv("REPLACED")) replace(getenv("REPLACED"));
    return (int)syscall(73, file, how);
}

long read(int file, void *into, unsigned long size) {
    const char *at = getenv("HOLD_READ");
    if (at && syscall(8, file, 0, 1) >= atoi(at)) hold();
    return syscall(0, file, into, size);
}
"""


class Held:
    """A call that is held up, in a folder of the test's own."""

    def __init__(self, folder: pathlib.Path, **which: str) -> None:
        """The call is the lock's with HOLD_LOCK="1", or a read from the byte HOLD_READ on. With REPLACED none is held up."""
        self.held, self.go = folder / "held", folder / "go"
        library = harness.library(folder, "hold", LIBRARY)
        self.env = dict(os.environ, LD_PRELOAD=str(library), HELD=str(self.held), GO=str(self.go), **which)

    def wait(self, process: subprocess.Popen[Any]) -> None:
        """Waits until the process is at that call."""
        limit = time.monotonic() + harness.TIME
        while not self.held.exists():
            if process.poll() is not None or time.monotonic() > limit:
                raise AssertionError(f"the call wasn't made; status {process.returncode}")
            time.sleep(0.01)

    def let_go(self) -> None:
        """Lets the call go on, and each later one at once."""
        self.go.touch()
