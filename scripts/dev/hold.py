"""How long threads of a server hold its lock, by the calls of the system that they make: for scripts/dev/measure-serve.

perf records when each call begins and ends. A thread acquires the lock after the call that read the request, or after
the call in which it waited for the lock. It makes the journal's four calls under the lock, and releases it before the
next call: the one that wakes another thread, or the one that sends the answer. Therefore the time between two calls is
known without a change of the program. Recording a call takes time too: the minimal server (bench/bare_server.c), which does
nothing between its calls, shows how much."""
import collections
import os
import re
import shutil
import statistics
import subprocess
import sys
import time
from collections.abc import Callable, Iterable, Iterator, Sequence
from typing import NamedTuple, TypeAlias, TypeVar

import callgrind
from servers import Bench, Server

# The numbers of the calls on x86_64.
SENDTO, RECVFROM, PWRITE, FDATASYNC, FUTEX = 44, 45, 18, 75, 202
EVENTS = "raw_syscalls:sys_enter,raw_syscalls:sys_exit"
EVENT = re.compile(r"\s*(\d+)\s+(\d+)\.(\d{9}):\s+raw_syscalls:sys_(enter|exit): NR (-?\d+) ")
# A sample of the processor: the function, and the file or the part of the system that it is in.
SAMPLE = re.compile(r"\s*[0-9a-f]+ (.*) \((.*)\)$")
# How many seconds of calls are noted, how many are sampled, and how many touches are asked meanwhile at most.
NOTED, SAMPLED, MOST = 0.05, 1, 900_000

# A call of the system: its nanosecond, whether it begins, and its number; and the same with its thread before it.
Call: TypeAlias = tuple[int, bool, int]
Event: TypeAlias = tuple[int, int, bool, int]
Seen = TypeVar("Seen")


class Touch(NamedTuple):
    """Nanoseconds: from having the request and the lock to the first write; the journal's calls; from there to the next
    call. And how many calls of futex there were. Of a touch, or the medians of many with the mean of these calls."""

    before: float
    calls: float
    after: float
    waits: float


def why_not() -> str | None:
    """Why it can't be told here, or None."""
    if os.uname().machine != "x86_64":
        return "the processor isn't x86_64"
    if not shutil.which("perf"):
        return "perf isn't here (apt-get install linux-perf)"
    tried = subprocess.run(["perf", "record", "-q", "-e", EVENTS, "-o", "/dev/null", "--", "true"], capture_output=True)
    return "perf may not note calls (as root it may)" if tried.returncode != 0 else None


def events(bench: Bench, process: int) -> list[Event]:
    """The calls of a process for some time: of each its thread, the nanosecond, whether it begins, and its number."""
    noted = bench.folder / "calls"
    subprocess.run(["perf", "record", "-q", "-m", "4096", "-e", EVENTS, "-p", str(process), "-o", noted, "--", "sleep",
                    str(NOTED)], check=True, stdout=subprocess.DEVNULL, stderr=subprocess.DEVNULL)
    said = subprocess.run(["perf", "script", "--ns", "-i", noted, "-F", "tid,time,event,trace"], check=True, text=True,
                          stdout=subprocess.PIPE, stderr=subprocess.DEVNULL).stdout
    found = (match.groups() for match in map(EVENT.match, said.splitlines()) if match)
    return [(int(thread), int(seconds) * 10**9 + int(rest), which == "enter", int(call))
            for thread, seconds, rest, which, call in found]


def touches(found: Iterable[Event]) -> Iterator[Touch]:
    """Each touch whose calls were all noted."""
    threads: dict[int, list[Call]] = collections.defaultdict(list)
    for thread, moment, begins, call in found:
        threads[thread].append((moment, begins, call))
    for calls in threads.values():
        yield from touches_of(calls)


def touches_of(calls: Iterable[Call]) -> Iterator[Touch]:
    """The touches of one thread, by its calls."""
    seen: list[Call] = []
    for moment, begins, call in calls:
        if call == RECVFROM and not begins:
            seen = [(moment, begins, call)]
        elif seen:
            seen.append((moment, begins, call))
        if call == SENDTO and begins:
            if sum(begun and asked == PWRITE for _, begun, asked in seen) == 2:
                yield touch_of(seen)
            seen = []


def touch_of(calls: Sequence[Call]) -> Touch:
    """A touch, from the end of the call that brought it to the begin of the one that answers it."""
    first = next(place for place, (_, _, call) in enumerate(calls) if call == PWRITE)
    last = max(place for place, (_, _, call) in enumerate(calls) if call == FDATASYNC)
    moments = [moment for moment, _, _ in calls]
    return Touch(moments[first] - moments[first - 1], moments[last] - moments[first], moments[last + 1] - moments[last],
                 sum(begins and call == FUTEX for _, begins, call in calls))


def amid(bench: Bench, start: Callable[[int], Server], connections: int, look: Callable[[Bench, int], Seen]) -> Seen:
    """What a look at a server's process gives while touches are asked."""
    with start(connections) as server:
        load = bench.load(server, "touch", connections, seconds=30, most=MOST)
        time.sleep(0.3)
        seen = look(bench, server.process.pid)
        load.kill()
        load.communicate()
    return seen


def shares(bench: Bench, process: int) -> dict[str, float]:
    """How a process's time of the processor is shared, in per cent: by the program's crates, the C library and the
    system, as perf finds it 4,000 times a second."""
    noted, found = bench.folder / "samples", collections.Counter[str]()
    subprocess.run(["perf", "record", "-q", "-F", "4000", "-e", "cpu-clock", "-p", str(process), "-o", noted, "--", "sleep",
                    str(SAMPLED)], check=True, stdout=subprocess.DEVNULL, stderr=subprocess.DEVNULL)
    said = subprocess.run(["perf", "script", "-i", noted, "-F", "ip,sym,dso"], check=True, text=True, stdout=subprocess.PIPE,
                          stderr=subprocess.DEVNULL).stdout
    for line in said.splitlines():
        if match := SAMPLE.match(line):
            function, place = match.groups()
            found["the system" if place.startswith("[") else callgrind.crate(function)] += 1
    return {name: 100 * count / found.total() for name, count in found.items()}


def held(bench: Bench, start: Callable[[int], Server], connections: int) -> Touch:
    """The medians over the touches of a load: nanoseconds, and the mean of the calls of futex."""
    found = list(touches(amid(bench, start, connections, events)))
    if not found:
        sys.exit("measure-serve: perf noted no whole touch")
    return Touch(statistics.median(touch.before for touch in found), statistics.median(touch.calls for touch in found),
                 statistics.median(touch.after for touch in found), statistics.mean(touch.waits for touch in found))
