"""A server whose calls on its journal and whose answers are noted, whose flushes are slowed down, and which is killed at one
of its calls: by two libraries that are put before the C library's."""
import os
import pathlib
import tempfile
from collections.abc import Iterator
from typing import Any, NamedTuple

import harness
from harness import TOP


class Event(NamedTuple):
    """What a server did: a write on the journal ("pwrite"), a flush that has ended ("fdatasync"), or an answer ("send")."""

    name: str
    at: int
    data: bytes


# Notes each write before it is made, each flush behind its end, and each answer before it is sent, in the file with the
# descriptor NOTED: an image of the disk or an answer is never noted too late. Kills the process just before the call of this
# number, of all writes and flushes. It has no header, since the kit's compiler has none.
LIBRARY = r"""
typedef unsigned long size;
extern char *getenv(const char *);
extern int atoi(const char *);
extern long syscall(long, ...);
extern void *dlsym(void *, const char *);

static int noted, kill_at, calls;
static int (*flush)(int);

__attribute__((constructor)) static void start(void) {
    noted = atoi(getenv("NOTED"));
    kill_at = atoi(getenv("KILL_AT"));
    flush = dlsym((void *)-1, "fdatasync");
}

static void pass(void) {
    if (__sync_add_and_fetch(&calls, 1) == kill_at) syscall(62, syscall(39), 9);
}

static void note(char name, long place, const unsigned char *from, size many) {
    static const char digits[] = "0123456789abcdef";
    char line[512], number[24];
    int at = 0, ends = 0;
    line[at++] = name;
    line[at++] = ' ';
    do number[ends++] = digits[place % 10]; while ((place /= 10) > 0);
    while (ends > 0) line[at++] = number[--ends];
    line[at++] = ' ';
    for (size each = 0; each < many && at + 3 < (int)sizeof line; each++) {
        line[at++] = digits[from[each] >> 4];
        line[at++] = digits[from[each] & 15];
    }
    line[at++] = '\n';
    syscall(1, noted, line, (size)at);
}

long pwrite(int file, const void *from, size many, long place) {
    pass();
    note('w', place, from, many);
    return syscall(18, file, from, many, place);
}

int fdatasync(int file) {
    pass();
    int done = flush(file);
    if (done == 0) note('f', 0, 0, 0);
    return done;
}

long sendto(int socket, const void *from, size many, int how, const void *to, unsigned length) {
    note('s', 0, from, many);
    return syscall(44, socket, from, many, how, to, length);
}

long send(int socket, const void *from, size many, int how) { return sendto(socket, from, many, how, 0, 0); }
"""
NAMES = {"w": "pwrite", "f": "fdatasync", "s": "send"}


class Libraries:
    """The two libraries, built in a folder."""

    def __init__(self, folder: str | pathlib.Path) -> None:
        self.words = [str(harness.library(pathlib.Path(folder), name, text)) for name, text in (
            ("note", LIBRARY), ("slow", (TOP / "bench" / "slow_flushes.c").read_text()))]


class Notes:
    """What one server is noted to do."""

    def __init__(self, libraries: Libraries, delay: int, kill_at: int = 0) -> None:
        """Its flushes take so many microseconds more. It is killed before the call of that number, from 1."""
        self.file = tempfile.TemporaryFile("a+b")
        more = {"LD_PRELOAD": ":".join(libraries.words), "NOTED": self.file.fileno(), "KILL_AT": kill_at,
                "FLUSH_DELAY": delay}
        self.options: dict[str, Any] = {"env": {**os.environ, **{name: str(value) for name, value in more.items()}},
                                        "pass_fds": [self.file.fileno()]}

    def events(self) -> Iterator[Event]:
        """What it did, in order."""
        self.file.seek(0)
        for line in self.file.read().decode().splitlines():
            name, at, digits = line.split(" ")
            yield Event(NAMES[name], int(at), bytes.fromhex(digits))

    def close(self) -> None:
        self.file.close()
