"""Kills a run that writes a journal at each of its calls of the system, and opens the remaining file.

The run is the test 'a_journal_in_a_file_is_carried_on' of crates/journal_tests: it makes a journal in a file, or opens
an existing one, appends up to four touches, and opens it again. After each kill the file must be a journal of the
touches whose append had ended, with the next one or without, or what an interrupted making leaves. The reader below,
which is written from docs/reference/JOURNAL.md alone, checks that. Then the same run must continue from that file to
its end. The script needs `strace`, and crates/journal_tests/out/journal_tests_tests, which `rt test` leaves there.
"""
import os
import pathlib
import re
import subprocess
import tempfile
import unittest
from collections.abc import Iterable

import harness

TESTS = harness.CRATES / "journal_tests" / "out" / "journal_tests_tests"
RUN = [str(TESTS), "tests::of_tap_journal::file::a_journal_in_a_file_is_carried_on"]
FILE = pathlib.Path("tap_journal_test") / "journal"

# The touches of the run, as docs/reference/PROTOCOL.md lays them out.
TOUCHES = [bytes.fromhex(text) for text in (
    "04 0007 00000001 00000001 677b8b28",
    "03 0007 00000002 00000001 000007d0 677b8c54",
    "01 0007 00000003 00000001 0002 677b8d80",
    "02 0007 00000004 00000001 0001 677b935c",
)]

# The calls on the file, which docs/operate/DISK.md, "The calls of a journal", has in words: how many bytes where.
OPENING = ["fdatasync", "pread64 65 0"]
MAKING = ["statx", "pwrite64 1 0", "fdatasync", "pwrite64 64 1", "fdatasync", "pwrite64 1 0", "fdatasync"]
CALL = re.compile(r"^\d+ +(\w+)\((.*)\) += (-?\d+|\?)")


def append(place: int) -> list[str]:
    """The calls of the append of the touch at this place."""
    at = 64 + 64 * place
    return [f"pwrite64 64 {at + 1}", "fdatasync", f"pwrite64 1 {at}", "fdatasync"]


def touches_in(data: bytes) -> list[bytes] | None:
    """The touches of a journal for 10 cards of the digest 0123456789abcdef twice, or None where it is none."""
    if len(data) < 65 or data[0] != 0xA5:
        return None
    if data[1:9] != b"OYSTERJ2" or data[17:49] != b"0123456789abcdef" * 2:
        raise ValueError("another header")
    capacity, cards = (int.from_bytes(data[at : at + 4], "big") for at in (9, 13))
    if capacity != 5 or cards != 10:
        raise ValueError("other numbers")
    found: list[bytes] = []
    for place in range(capacity):
        slot = data[64 + 64 * place : 128 + 64 * place]
        if not slot:
            raise ValueError(f"no mark at place {place}")
        if slot[0] != 0xA5:
            return found
        if len(slot) < 64:
            raise ValueError(f"a cut slot at place {place}")
        sizes = {4: 15, 3: 19, 1: 17, 2: 17, 6: 51}
        found.append(slot[1 : 1 + sizes[slot[1]]])
    return found


def traced(folder: pathlib.Path, more: Iterable[str] = ()) -> tuple[int, list[tuple[str, ...]]]:
    """Runs it under strace: its status, and each call with its words and its answer."""
    trace = folder / "trace"
    words = ["strace", "-f", "-qq", "-e", "signal=none", "-s", "0", *more, "-o", str(trace), *RUN]
    done = subprocess.run(words, cwd=folder, capture_output=True, timeout=harness.TIME)
    return done.returncode, [call.groups() for line in trace.read_text().split("\n") if (call := CALL.match(line))]


def on_the_file(calls: Iterable[tuple[str, ...]]) -> list[str]:
    """The calls on the journal's file, each as its name, and of a read or a write how many bytes and where."""
    opened: str | None = None
    said: list[str] = []
    for name, words, answer in calls:
        if name == "openat" and f'"{FILE}"' in words:
            opened = answer
        elif name == "fcntl" and "F_DUPFD" in words and words.split(",")[0] == opened:
            opened = answer
        elif name in ("pread64", "pwrite64", "fdatasync", "statx") and words.split(",")[0] == opened:
            numbers = words.split(", ")[-2:] if name.startswith("p") else []
            said.append(" ".join([name, *numbers]))
    return said


class Kills(unittest.TestCase):
    @classmethod
    def setUpClass(cls) -> None:
        if not TESTS.is_file():
            raise FileNotFoundError(f"{TESTS} isn't there: run 'rt test' in crates/journal_tests")

    def setUp(self) -> None:
        room = tempfile.TemporaryDirectory(prefix="kill-journal-")
        self.addCleanup(room.cleanup)
        self.folder = pathlib.Path(room.name)

    def test_the_calls_are_those_of_the_page(self) -> None:
        status, calls = traced(self.folder)
        self.assertEqual(status, 0)
        writes = [call for call in on_the_file(calls) if call.split()[0] in ("pwrite64", "fdatasync")]
        opening = ["fdatasync"]
        wanted = opening + MAKING[1:] + opening + [call for place in range(4) for call in append(place)] + opening
        self.assertEqual(writes, wanted)

    def test_a_kill_at_any_call_leaves_a_journal_that_opens(self) -> None:
        _, calls = traced(self.folder)
        names = [name for name, _, _ in calls]
        for name in sorted(set(names) - {"execve", "exit_group"}):
            for number in range(1, names.count(name) + 1):
                with self.subTest(call=name, number=number):
                    self.kill(name, number)

    def test_a_file_of_terabytes_is_opened(self) -> None:
        path = self.folder / FILE
        path.parent.mkdir()
        header = b"\xa5OYSTERJ2" + bytes([0, 0, 0, 5, 0, 0, 0, 10]) + b"0123456789abcdef" * 2 + bytes(15)
        path.write_bytes(header + b"\xa5" + TOUCHES[0].ljust(63, b"\0"))
        os.truncate(path, 8 << 40)
        done = subprocess.run(RUN, cwd=self.folder, capture_output=True, timeout=harness.TIME)
        self.assertEqual(done.returncode, 0, done.stderr.decode())

    def kill(self, name: str, number: int) -> None:
        status, calls = traced(self.folder, ["-e", f"inject={name}:signal=KILL:when={number}"])
        self.assertNotEqual(status, 0, "it was killed")
        # The opening, the making and the second opening sync five times, and each append twice.
        syncs = sum(call == "fdatasync" and answer == "0" for call, _, answer in calls)
        ended = min(max(syncs - 5, 0) // 2, len(TOUCHES))
        path = self.folder / FILE
        found = touches_in(path.read_bytes()) if path.is_file() else None
        if found is None:
            # The run removes its file at its end, behind the sync of its last opening.
            gone = syncs == 5 + 2 * len(TOUCHES) + 1 and not path.is_file()
            self.assertTrue(syncs < 4 or gone, "no journal before the making has ended")
        else:
            self.assertEqual(found, TOUCHES[: len(found)])
            self.assertIn(len(found), (ended, ended + 1))
        again = subprocess.run(RUN, cwd=self.folder, capture_output=True, timeout=harness.TIME)
        self.assertEqual(again.returncode, 0, again.stderr.decode())
