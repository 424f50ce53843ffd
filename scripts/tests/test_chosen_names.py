"""Tests that nobody can choose gates and numbers among which a journal's opening is slow: 100,000 names that the kit's
own hash, which everybody can compute, puts into one place of the map. A journal of them takes the built program no
longer than another of the same size.
"""
import os
import pathlib
import tempfile
from collections.abc import Callable, Iterator, Sequence
from itertools import count, islice

import harness
from bovtrila import codec, layout, model
from harness import EXAMPLE, PROGRAM

TOUCHES, CARDS, GATE = 100_000, 10, 7
MONDAY = 1_736_121_600
# How many groups the map of so many names has, and the first of them, into which the chosen names are put.
GROUPS, FIRST_GROUPS = 1 << 14, 1 << 11
# The kit's FoldHasher: what it begins with, and what it multiplies by.
START, MULTIPLIER = 0x243F_6A88_85A3_08D3, 0x9E37_79B9_7F4A_7C15
# How many times as long as the other journal's reading that of the chosen names may take.
TIMES = 3


def folded(state: int, word: int, size: int) -> int:
    """FoldHasher's state once a word of so many bytes is written."""
    product = (state ^ word) * (MULTIPLIER ^ 2 * size)
    return (product ^ product >> 64) & (1 << 64) - 1


def hash_of_word(number: int) -> int:
    """The hash of a name that is written as one word, as the book does."""
    return folded(START, GATE << 32 | number, 8)


def hash_of_fields(number: int) -> int:
    """The hash of a name that is written as gate and number, as an audit without a table does."""
    return folded(folded(START, GATE | GATE >> 8 << 16, 2), number | number << 32, 4)


def chosen(hash_of: Callable[[int], int]) -> Iterator[int]:
    """The numbers whose names this hash puts into the first groups."""
    for number in count(1):
        found = hash_of(number)
        if (found ^ found >> 32) & GROUPS - 1 < FIRST_GROUPS:
            yield number


def journal(numbers: Sequence[int]) -> bytes:
    """A journal of refused touches, whose card isn't there, with these numbers."""
    frames = [codec.touch(codec.ISSUE, GATE, number, CARDS + 1, MONDAY) for number in numbers]
    return layout.journal_of(frames, TOUCHES, CARDS, model.Table(EXAMPLE.read_text()).digest)


class Chosen(harness.ProgramTest):
    def setUp(self) -> None:
        room = tempfile.TemporaryDirectory(prefix="chosen-names-")
        self.addCleanup(room.cleanup)
        self.folder = pathlib.Path(room.name)

    def work(self, words: Sequence[str], numbers: Sequence[int]) -> float:
        """The seconds of processor that a command takes over a journal of these numbers, at best of three."""
        path = self.folder / "journal"
        path.write_bytes(journal(numbers))
        return min(self.work_of([*words, str(path)]) for _ in range(3))

    def work_of(self, words: Sequence[str]) -> float:
        with open(os.devnull, "wb") as lost:
            actions = [(os.POSIX_SPAWN_DUP2, lost.fileno(), 1), (os.POSIX_SPAWN_DUP2, lost.fileno(), 2)]
            process = os.posix_spawn(PROGRAM, [str(PROGRAM), *words], os.environ, file_actions=actions)
        _, status, used = os.wait4(process, 0)
        self.assertEqual(os.waitstatus_to_exitcode(status), 0, words)
        return float(used.ru_utime + used.ru_stime)

    def assert_as_fast(self, words: Sequence[str], hash_of: Callable[[int], int]) -> None:
        others = self.work(words, range(1, TOUCHES + 1))
        taken = self.work(words, list(islice(chosen(hash_of), TOUCHES)))
        self.assertLess(taken, TIMES * others + 0.1, f"{words[0]}: {others:.3f} s, by chosen names {taken:.3f} s")

    def test_a_book(self) -> None:
        self.assert_as_fast(["balances", "--table", str(EXAMPLE), "--journal"], hash_of_word)

    def test_names_alone(self) -> None:
        self.assert_as_fast(["verify", "--journal"], hash_of_fields)
