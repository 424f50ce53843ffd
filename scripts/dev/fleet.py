"""Several servers on one disk, each with its own gates: for scripts/dev/measure-serve."""
import contextlib
import os
import pathlib
from typing import NamedTuple

from servers import Bench, Figures


class Load(NamedTuple):
    """The touches a second, and the disk's flushes a touch."""

    rate: float
    flushes: float


# A journal's header, its slots and the mark behind the last one, in bytes (docs/operate/OPERATING.md, "Room on the disk").
HEADER, SLOT, END = 64, 64, 1
# Where the statistics of a disk have how many flushes it has ended.
FLUSHES = 15


def flushes(folder: pathlib.Path) -> int | None:
    """How many flushes the disk of a folder has ended so far, or None where the system doesn't count them."""
    device = os.stat(folder).st_dev
    below = pathlib.Path(f"/sys/dev/block/{os.major(device)}:{os.minor(device)}")
    # A part of a disk has no flushes of its own.
    for place in (below, below.resolve().parent):
        with contextlib.suppress(OSError):
            counts = (place / "stat").read_text().split()
            if len(counts) > FLUSHES and int(counts[FLUSHES]):
                return int(counts[FLUSHES])
    return None


def made_ahead(bench: Bench, journal: pathlib.Path, capacity: int) -> None:
    """Makes a journal, and takes its whole room on the disk."""
    with bench.bovtrila(1, journal=journal, capacity=capacity) as server:
        server.let_go()
    with open(journal, "r+b") as file:
        os.posix_fallocate(file.fileno(), 0, HEADER + SLOT * capacity + END)
        os.fsync(file.fileno())


def loaded(bench: Bench, servers: int, gates: int, capacity: int, has_room: bool) -> Load:
    """The touches a second over all of so many servers, with so many gates each, and the disk's flushes a touch."""
    journals = [bench.folder / f"journal-{place}" for place in range(servers)]
    for journal in journals:
        journal.unlink(missing_ok=True)
        if has_room:
            made_ahead(bench, journal, capacity)
    with contextlib.ExitStack() as stack:
        running = [stack.enter_context(bench.bovtrila(gates, journal=journal, capacity=capacity)) for journal in journals]
        before = flushes(bench.folder)
        loads = [bench.load(server, "touch", gates) for server in running]
        figures = [Figures(load) for load in loads]
        after = flushes(bench.folder)
        for server, of in zip(running, figures):
            # Each gate made one touch before the clock started.
            if (said := server.let_go()[-1]) != f"closed {of.requests + gates:.0f}":
                raise SystemExit(f"measure-serve: {of.requests + gates:.0f} touches were answered, and a server said {said}")
    for journal in journals:
        journal.unlink()
    touches = sum(of.requests + gates for of in figures)
    each = (after - before) / touches if before is not None and after is not None else float("nan")
    return Load(sum(of.rate for of in figures), each)
