#!/usr/bin/env python3
"""Watches the calls of the system that a program makes on its journal, and compares them with docs/operate/DISK.md.

    scripts/tests/watch_disk.py [--inject RULE] FILE COMMAND [WORD]..

runs the command and reports each call that the table of docs/operate/DISK.md, "The file", doesn't allow. FILE is the
path that the command gives its journal. The calls are recorded by `strace`, or without it by a library which is put
before the C library's and is built by the kit's clang. RULE is one of strace, and needs it, as
'fdatasync:error=EIO:when=2'. The last line is 'N passed, M failed'.
"""
import os
import pathlib
import re
import shutil
import subprocess
import sys
import tempfile
from collections.abc import Iterator, Sequence
from typing import TypeAlias

import harness

# Calls of these names go out to somebody: a client, standard output, another file.
TELLING = {"write", "writev", "pwrite64", "sendto", "sendmsg"}

LINE = re.compile(r"^(?P<thread>\d+) +(?P<rest>.*)$")
CALL = re.compile(r"^(?P<name>\w+)\((?P<given>.*)\) += (?P<answer>-?\d+|\?)(?P<more>.*)$")
FIRST = re.compile(r"^(\d+)")

# What a call asked for: its name, and of a read or a write how many bytes, and where.
Asked: TypeAlias = tuple[str, list[int]]


class Call:
    """One call of the system, as strace writes it."""

    def __init__(self, thread: str, name: str, given: str, answer: str, more: str) -> None:
        self.thread, self.name, self.given, self.more = thread, name, given, more
        self.answer = None if answer == "?" else int(answer)
        first = FIRST.match(given)
        self.descriptor = int(first.group(1)) if first else None

    def __str__(self) -> str:
        return f"{self.name}({self.given}) = {self.answer}{self.more}"

    def last_two(self) -> list[int]:
        """The last two numbers of the call: of a read or a write how many bytes, and where."""
        return [int(word) for word in re.findall(r", (\d+)(?=,|$)", self.given)[-2:]]

    def asked(self) -> Asked:
        """What was asked for, without the bytes, which a call that failed doesn't show."""
        return self.name, self.last_two() if self.name in ("pread64", "pwrite64") else []

    def has_failed(self) -> bool:
        return self.answer is not None and self.answer < 0

    def is_interrupted(self) -> bool:
        return self.answer == -1 and "EINTR" in self.more


def calls_of(text: str) -> Iterator[Call]:
    """The calls of a trace, each where it ended."""
    begun: dict[str, str] = {}
    for line in text.split("\n"):
        found = LINE.match(line)
        if not found:
            continue
        thread, rest = found.group("thread"), found.group("rest")
        if rest.endswith("<unfinished ...>"):
            begun[thread] = rest[: -len("<unfinished ...>")].rstrip()
            continue
        resumed = re.match(r"^<\.\.\. \w+ resumed>(.*)$", rest)
        if resumed:
            rest = begun.pop(thread, "") + resumed.group(1)
        call = CALL.match(rest)
        if call:
            yield Call(thread, *call.group("name", "given", "answer", "more"))


# What an opening asks for, behind the clone of the descriptor: the call, and what it has to say.
SETTLING = [
    ("statx", "S_IFREG"),
    ("flock", "LOCK_EX|LOCK_NB"),
    ("fsync", ""),
    ("fadvise64", "0, 0, POSIX_FADV_DONTNEED"),
]


class Watch:
    """What was seen of one journal, and what of it is wrong."""

    def __init__(self, path: str) -> None:
        self.path = path
        self.faults: list[str] = []
        self.opened: int | None = None
        self.descriptor: int | None = None
        self.folder: int | None = None
        # How many calls of an opening there were, and whether it has ended.
        self.settled: list[str] = []
        self.is_ready, self.seen = False, 0
        self.rest: Asked | None = None
        self.again: Asked | None = None
        self.dirty: dict[str, bool] = {}
        self.gave_up = False

    def fault(self, said: str, call: Call) -> None:
        self.faults.append(f"{said}: {call}")

    def take(self, call: Call) -> None:
        """The next call of the trace."""
        if call.name in ("open", "openat") and f'"{self.path}"' in call.given:
            return self.open(call)
        if self.opened is not None and self.descriptor is None:
            if call.name == "fcntl" and call.descriptor == self.opened and "F_DUPFD" in call.given:
                if call.has_failed():
                    self.seen += 1
                    return
                self.descriptor = call.answer
                if call.answer is not None and call.answer < 3:
                    self.fault("the descriptor is below 3", call)
                return
            if call.descriptor == self.opened and call.name != "close":
                self.fault("the first descriptor is used", call)
            return
        if self.descriptor is None:
            return
        if call.descriptor == self.descriptor:
            return self.on_file(call) if self.is_ready else self.settle(call)
        if not self.is_ready:
            return self.on_folder(call)
        if call.name in TELLING and self.dirty.get(call.thread) and (call.answer or 0) > 0:
            self.fault("a thread that wrote to the journal tells something before it synced it", call)

    def open(self, call: Call) -> None:
        self.opened, self.descriptor, self.settled, self.is_ready = call.answer, None, [], False
        self.folder, self.rest, self.again, self.dirty, self.gave_up = None, None, None, {}, False
        if call.answer is None or call.answer < 0:
            self.opened = None
        for flag in ("O_RDWR", "O_NOCTTY", "O_CLOEXEC"):
            if flag not in call.given:
                self.fault(f"opened without {flag}", call)
        if "O_TRUNC" in call.given:
            self.fault("opened with O_TRUNC", call)

    def on_folder(self, call: Call) -> None:
        """The folder is opened before the file is looked at, and synced behind it."""
        if call.name == "openat" and "O_RDONLY" in call.given and (call.answer or -1) >= 0:
            self.folder = call.answer
        elif call.name == "fsync" and call.descriptor == self.folder and not call.is_interrupted():
            if len(self.settled) != len(SETTLING):
                self.fault("the folder is synced before the file is settled", call)
            self.is_ready = call.answer == 0
            self.seen += call.has_failed()

    def settle(self, call: Call) -> None:
        """A call on the file before it is ready."""
        if call.name == "close":
            return self.close()
        if call.is_interrupted():
            return
        place = len(self.settled)
        name, said = SETTLING[place] if place < len(SETTLING) else ("close", "")
        if call.name != name or said not in call.given and not call.has_failed():
            return self.fault(f"an opening calls {name} here", call)
        self.settled.append(call.name)
        if call.has_failed():
            # The opening is refused: nothing but the close may follow.
            self.settled, self.seen = [name for name, _ in SETTLING], self.seen + 1

    def close(self) -> None:
        self.opened = self.descriptor = None
        self.is_ready = False

    def on_file(self, call: Call) -> None:
        """A call on the file that is ready."""
        self.seen += 1
        again, self.again = self.again, None
        if again is not None and call.asked() != again:
            self.fault("a call that was interrupted isn't made again", call)
        if call.is_interrupted():
            self.again = call.asked()
            return
        rest, self.rest = self.rest, None
        if rest is not None and call.asked() != rest:
            self.fault("what was left of a read or a write isn't asked for", call)
        if call.name in ("pread64", "pwrite64"):
            count, at = call.last_two()
            if call.answer is not None and 0 < call.answer < count:
                self.rest = (call.name, [count - call.answer, at + call.answer])
            if call.name == "pwrite64":
                self.dirty[call.thread] = not call.has_failed()
        elif call.name == "fdatasync":
            if self.gave_up:
                self.fault("synced after a sync that failed", call)
            self.gave_up = self.gave_up or call.answer != 0
            # After a failure the thread has to tell of it.
            self.dirty = {} if call.answer == 0 else {**self.dirty, call.thread: False}
        elif call.name == "close":
            self.close()
        elif call.name != "statx":
            self.fault("no call of the table", call)


def faults_of(path: str, text: str) -> list[str]:
    """What is wrong in a trace, or that nothing of the journal is in it."""
    watch = Watch(path)
    for call in calls_of(text):
        watch.take(call)
    if not watch.seen:
        watch.faults.append(f"no call on {path} behind an opening")
    return watch.faults


# Makes each call by its number on x86-64, and says it as strace does.
LIBRARY = r"""
extern long syscall(long, ...);
extern int dprintf(int, const char *, ...);
extern char *getenv(const char *);
extern int *__errno_location(void);

static int tell = -1;

__attribute__((constructor)) static void start(void) {
    long opened = syscall(257, -100, getenv("WATCH_TRACE"), 02001, 0);
    tell = (int)syscall(72, (int)opened, 1030, 200);
    syscall(3, (int)opened);
}

static const char *error(long answer) {
    return answer >= 0 ? "" : *__errno_location() == 4 ? " EINTR" : " failed";
}

#define SAY(answer, ...) do { \
    int kept = *__errno_location(); \
    dprintf(tell, "%ld ", syscall(186)); \
    dprintf(tell, __VA_ARGS__); \
    *__errno_location() = kept; \
    dprintf(tell, " = %ld%s\n", (long)(answer), error(answer)); \
    *__errno_location() = kept; \
} while (0)

int open(const char *path, int how, int mode) {
    long answer = syscall(257, -100, path, how, mode);
    SAY(answer, "openat(AT_FDCWD, \"%s\", %s%s%s%s%s)", path, (how & 3) == 2 ? "O_RDWR" : "O_RDONLY",
        how & 0100 ? "|O_CREAT" : "", how & 0400 ? "|O_NOCTTY" : "", how & 01000 ? "|O_TRUNC" : "",
        how & 02000000 ? "|O_CLOEXEC" : "");
    return (int)answer;
}

int fcntl(int fd, int what, long given) {
    long answer = syscall(72, fd, what, given);
    SAY(answer, "fcntl(%d, %s, %ld)", fd, what == 1030 ? "F_DUPFD_CLOEXEC" : "other", given);
    return (int)answer;
}

int flock(int fd, int how) {
    long answer = syscall(73, fd, how);
    SAY(answer, "flock(%d, %s)", fd, how == 6 ? "LOCK_EX|LOCK_NB" : "other");
    return (int)answer;
}

int posix_fadvise(int fd, long at, long size, int advice) {
    long answer = syscall(221, fd, at, size, advice);
    int number = answer < 0 ? *__errno_location() : 0;
    SAY(answer, "fadvise64(%d, %ld, %ld, %s)", fd, at, size, advice == 4 ? "POSIX_FADV_DONTNEED" : "other");
    return number;
}

int statx(int fd, const char *path, int how, unsigned asked, void *into) {
    long answer = syscall(332, fd, path, how, asked, into);
    unsigned mode = answer == 0 ? ((unsigned short *)into)[14] : 0;
    SAY(answer, "statx(%d, \"%s\", %s)", fd, path, (mode & 0170000) == 0100000 ? "S_IFREG" : "other");
    return (int)answer;
}

#define ONE(name, number) int name(int fd) { \
    long answer = syscall(number, fd); \
    SAY(answer, #name "(%d)", fd); \
    return (int)answer; \
}

ONE(close, 3)
ONE(fsync, 74)
ONE(fdatasync, 75)

#define MOVE(name, said, number, bytes) long name(int fd, bytes *from, unsigned long size, long at) { \
    long answer = syscall(number, fd, from, size, at); \
    SAY(answer, said "(%d, \"\", %lu, %ld)", fd, size, at); \
    return answer; \
}

MOVE(pread, "pread64", 17, void)
MOVE(pwrite, "pwrite64", 18, const void)

#define TELLS(name) long name(int fd, const void *from, unsigned long size) { \
    long answer = syscall(1, fd, from, size); \
    SAY(answer, "write(%d, \"\", %lu)", fd, size); \
    return answer; \
}

TELLS(write)
TELLS(__write)

long send(int fd, const void *from, unsigned long size, int how) {
    long answer = syscall(44, fd, from, size, how, 0, 0);
    SAY(answer, "sendto(%d, \"\", %lu)", fd, size);
    return answer;
}
"""


def by_strace(command: Sequence[str], rules: Sequence[str], trace: pathlib.Path) -> None:
    """Runs the command under strace, which writes the trace."""
    injected = [word for rule in rules for word in ("-e", f"inject={rule}")]
    subprocess.run(["strace", "-f", "-qq", "-s", "8", "-e", "trace=%file,%desc,%network", *injected, "-o", trace,
                    *command], timeout=harness.TIME)


def by_library(command: Sequence[str], folder: pathlib.Path, trace: pathlib.Path) -> None:
    """Runs the command behind the library, which writes the trace."""
    source, built = folder / "watch.c", folder / "watch.so"
    source.write_text(LIBRARY)
    clang = harness.kit() / "toolchain" / "bin" / "clang"
    subprocess.run([clang, "-shared", "-fPIC", "-O1", "-fno-builtin", "-nostdlib", "-fuse-ld=lld", "-o", built, source],
                   check=True)
    subprocess.run(command, env=dict(os.environ, LD_PRELOAD=str(built), WATCH_TRACE=str(trace)), timeout=harness.TIME)


def watch(path: str, command: Sequence[str], rules: Sequence[str]) -> list[str]:
    """Runs the command, and answers what is wrong in its calls."""
    with tempfile.TemporaryDirectory() as name:
        folder = pathlib.Path(name)
        trace = folder / "trace"
        trace.touch()
        if shutil.which("strace"):
            by_strace(command, rules, trace)
        elif rules:
            return ["strace isn't there, and a call can't be made to fail: install the package strace"]
        else:
            by_library(command, folder, trace)
        return faults_of(path, trace.read_text())


def main() -> None:
    words = sys.argv[1:]
    rules: list[str] = []
    while words[:1] == ["--inject"]:
        rules, words = [*rules, words[1]], words[2:]
    if len(words) < 2:
        sys.exit(__doc__)
    faults = watch(words[0], words[1:], rules)
    print("".join(fault + "\n" for fault in faults) + ("0 passed, 1 failed" if faults else "1 passed, 0 failed"))
    sys.exit(1 if faults else 0)


if __name__ == "__main__":
    main()
