"""Runs the built program, and tests of the crates below it, with each of their allocations refused in turn.

Each run of the program must end as it does with ample memory, or with 'fault run 1 Memory', status 1 and a beginning of
the same output. An audit may also end with the journal's fault of memory, and a migration with its own, which leaves no
new journal then. A server may end in this way only before it listens; after that it must continue to serve, store what
it answered, and write its whole report. The tests repeat a call that was refused memory, so they must pass each time. A
library that the kit's clang builds is put before the C library's for that. The script needs
crates/tap_server/out/tap_server, crates/gate_send/out/gate_send and the crates' built tests, which `rt ci` leaves
there. Tests that aren't built, or older than their crate, fail with the command that builds them: from nothing it takes
an hour.
"""
import hashlib
import os
import pathlib
import socket
import struct
import subprocess
import tempfile
import unittest
from collections.abc import Sequence
from typing import IO, ClassVar, TypeAlias

import harness
from bovtrila import codec, layout, model
from harness import CRATES, EXAMPLE, PROGRAM, REVISED, TIME, lines

MOST = 5_000
GATE_SEND = CRATES / "gate_send" / "out" / "gate_send"

# Refuses the allocation of this number, and where it is told to all later ones, and says so by a byte.
LIBRARY = r"""
extern void *__libc_malloc(unsigned long);
extern void *__libc_realloc(void *, unsigned long);
extern char *getenv(const char *);
extern int atoi(const char *);
extern long write(int, const void *, unsigned long);
extern int *__errno_location(void);

static int number, onward, tell, count;

__attribute__((constructor)) static void start(void) {
    number = atoi(getenv("REFUSE_NUMBER"));
    onward = atoi(getenv("REFUSE_ONWARD"));
    tell = atoi(getenv("REFUSE_TELL"));
}

static int is_refused(void) {
    int at = __sync_add_and_fetch(&count, 1);
    if (number == 0 || at < number || (at > number && !onward)) return 0;
    write(tell, "r", 1);
    *__errno_location() = 12;
    return 1;
}

void *malloc(unsigned long size) { return is_refused() ? 0 : __libc_malloc(size); }
void *realloc(void *old, unsigned long size) { return is_refused() ? 0 : __libc_realloc(old, size); }
"""

# What a server came to: its status, its notes, what else it said, its report, the answers and its journal.
Served: TypeAlias = tuple[int, list[str], str, str, list[bytes], pathlib.Path]

TABLE = EXAMPLE.read_text()

# A change of the example table for each fault of a table.
FAULTS = {
    "NotToml": ("zone =", "zone"),
    "Missing": ("entry_minimum", "entry"),
    "WrongType": ("true", "1"),
    "Range": ("price = 850", "price = 0"),
    "Twice": ("id = 2", "id = 1"),
    "UnknownStation": ("b = 4", "b = 9"),
    "MissingSingle": ("low = 3, high = 3", "low = 4, high = 4"),
    "MaximumTooLow": ("maximum_peak = 900", "maximum_peak = 699"),
    "BadZone": ("GMT0BST,M3.5.0/1,M10.5.0", "London"),
    "BadDate": ("2025-12-25", "2025-02-29"),
}


# What a gate sends, what it is answered, and what it is answered where there is no memory for it.
MONDAY = 1736121600
FRAMES: list[tuple[bytes, bytes, bytes | None]] = [
    (codec.touch(codec.ISSUE, 1, 1, 1, MONDAY), codec.framed(">BHIBiq", codec.REPLY, 1, 1, 8, 0, 0),
     codec.fault(codec.MEMORY, 1, 1)),
    (codec.touch(codec.TOP_UP, 1, 2, 1, 100, MONDAY), codec.framed(">BHIBiq", codec.REPLY, 1, 2, 7, 100, 100),
     codec.fault(codec.MEMORY, 1, 2)),
    (codec.touch(codec.REVISE, 1, 3, 0, hashlib.sha256(REVISED.read_bytes()).digest(), 20_095, MONDAY),
     codec.framed(">BHIBiq", codec.REPLY, 1, 3, codec.REVISED, 0, 0), codec.fault(codec.MEMORY, 1, 3)),
    (codec.enquiry(1), codec.framed(">BBqI", codec.HOLDING, 1, 100, 3), None),
]

# How a server may end that found no memory before it listened, as for the opening of a file.
WANTS = ("fault run 1 Memory\n", "fault file\n", "fault journal 1 Memory\n")
# How another command may end so, and an audit, a run of gate_send and a migration.
RUN_WANTS = ("fault run 1 Memory\n",)
AUDIT_WANTS = ("fault run 1 Memory\n", "fault journal 1 Memory\n")
SEND_WANTS = ("fault run 1 Memory\n", "fault file\n", "fault gate-file 1 Memory\n")
MIGRATION_WANTS = ("fault run 1 Memory\n", "fault file\n", "fault migrate 1 Memory\n")
# What a migration tells where the new journal stands, and there is no memory to read the old one once more; and a server
# that has no memory to read on after its journal's end.
UNCOUNTED = "note: open slots behind the end can't be counted\n"


def asked(address: tuple[str, int]) -> list[bytes]:
    """The answers that a gate gets to its requests, one after the other, until one doesn't come."""
    answers: list[bytes] = []
    try:
        with socket.create_connection(address, TIME) as gate:
            for frame, _, _ in FRAMES:
                gate.sendall(frame)
                answer = taken(gate, 2)
                answer += taken(gate, struct.unpack(">H", answer)[0]) if len(answer) == 2 else b""
                if not answer:
                    break
                answers.append(answer)
    except OSError:
        pass
    return answers


def taken(gate: socket.socket, size: int) -> bytes:
    """So many bytes, or what came of them before the connection ended."""
    got = b""
    while len(got) < size:
        piece = gate.recv(size - len(got))
        if not piece:
            break
        got += piece
    return got


def first_lines(stream: IO[bytes]) -> tuple[list[str], str]:
    """The notes that a server begins with, and the line behind them."""
    notes: list[str] = []
    line = harness.first_line(stream)
    while line.startswith("note: "):
        notes.append(line)
        line = harness.first_line(stream)
    return notes, line


class Refusals(unittest.TestCase):
    """Runs with an allocation refused."""

    folder: ClassVar[pathlib.Path]
    library: ClassVar[pathlib.Path]

    @classmethod
    def setUpClass(cls) -> None:
        folder = tempfile.TemporaryDirectory()
        cls.addClassCleanup(folder.cleanup)
        cls.folder = pathlib.Path(folder.name)
        cls.library = harness.library(cls.folder, "refuse", LIBRARY)

    def run_once(self, words: Sequence[harness.Word], given: bytes, number: int, onward: bool) -> tuple[harness.Ran, int]:
        """What a run ends with, and how many allocations were refused in it."""
        reading, writing = os.pipe()
        env = dict(os.environ, LD_PRELOAD=str(self.library), REFUSE_NUMBER=str(number), REFUSE_ONWARD=str(int(onward)),
                   REFUSE_TELL=str(writing))
        done = subprocess.run(words, input=given, capture_output=True, env=env, pass_fds=[writing], cwd=self.folder,
                              timeout=TIME)
        os.close(writing)
        refused = len(os.read(reading, 1 << 16))
        os.close(reading)
        return (done.returncode, done.stdout, done.stderr.decode()), refused


def tells_less(ended: harness.Ran, ample: harness.Ran) -> bool:
    """Whether a run ended as one with ample memory that has a fault, and only what stands beside the fault's line is
    missing on standard error, or its end (docs/reference/FAULTS.md, "The second line")."""
    same = ended[:2] == ample[:2] and harness.fault_of(ended[2]) == harness.fault_of(ample[2])
    whole = ample[2].splitlines()
    return same and ended[0] == 1 and all(any(line.startswith(said) for line in whole) for said in ended[2].splitlines())


class Runs(Refusals, harness.ProgramTest):
    """Runs of each command."""

    def sweep(self, words: Sequence[harness.Word], given: bytes, least: int, wants: Sequence[str] = RUN_WANTS) -> None:
        """Refuses each allocation of a run in turn; at least so many refusals have to be seen in how it ends."""
        words = [PROGRAM, *words]
        ample, refused = self.run_once(words, given, 0, False)
        self.assertEqual(refused, 0)
        for onward in (False, True):
            faults = 0
            for number in range(1, MOST):
                ended, refused = self.run_once(words, given, number, onward)
                if refused == 0:
                    break
                place = f"{words}, allocation {number}{' and later ones' if onward else ''}"
                if ended != ample and not tells_less(ended, ample):
                    faults += 1
                    status, out, err = ended
                    self.assertEqual((status, err in wants), (1, True), f"{place}: {err}")
                    self.assertTrue(ample[1].startswith(out), f"{place}: {out!r} begins no {ample[1]!r}")
            self.assertEqual(refused, 0, f"{words}: more than {MOST} allocations")
            self.assertGreaterEqual(faults, least, f"{words}: refusals seen")

    def test_a_command_line(self) -> None:
        for words in (["replay", "--cards", "0"], ["--help"]):
            with self.subTest(words):
                self.sweep(words, b"", 10)

    def test_a_replay(self) -> None:
        asked = [asked for pairs in harness.vectors().values() for asked, _ in pairs]
        self.sweep(["replay", "--cards", "10"], lines([*asked, "zz"]), 10)

    def test_a_replay_with_a_revised_table(self) -> None:
        asked = [asked for pairs in harness.vectors("revised").values() for asked, _ in pairs]
        self.sweep(["replay", "--cards", "10", str(REVISED)], lines([*asked, "zz"]), 10)

    def test_a_refused_revised_table(self) -> None:
        self.sweep(["replay", "--cards", "10", str(REVISED), str(EXAMPLE)], b"", 10)

    def test_a_check(self) -> None:
        for name, (old, new) in {"Valid": ("", ""), **FAULTS}.items():
            with self.subTest(name):
                table = self.folder / f"{name}.toml"
                text = TABLE.replace(old, new, 1)
                self.assertEqual(text == TABLE, name == "Valid")
                table.write_text(text)
                self.sweep(["check", "--table", str(table)], b"", 100 if name == "Valid" else 50)

    def test_an_audit(self) -> None:
        journal = self.folder / "audited.journal"
        frames = [frame for frame, _, _ in FRAMES[:3]]
        journal.write_bytes(layout.journal_of(frames, 5, 10, hashlib.sha256(EXAMPLE.read_bytes()).digest()))
        tables: list[list[str]] = [["--table", str(EXAMPLE), str(REVISED)], []]
        for more in tables:
            with self.subTest(more):
                self.sweep(["verify", "--journal", str(journal), "--seal", *more], b"", 10, AUDIT_WANTS)
        forms = [["statement", "--card", "1", "--format", form] for form in ("text", "csv", "json")]
        for command in (["history"], ["balances"], *forms, ["statement", "--card", "2"]):
            with self.subTest(command):
                words = ["--table", str(EXAMPLE), "--journal", str(journal), str(REVISED)]
                self.sweep([*command, *words], b"", 10, AUDIT_WANTS)


class Migrations(Refusals, harness.ProgramTest):
    """Runs of `migrate` on a journal of two touches."""

    def migrate(self, number: int, onward: bool) -> tuple[harness.Ran, bytes, bytes, int]:
        """What a run came to, and how many allocations were refused in it."""
        old, new = self.folder / "old.journal", self.folder / "new.journal"
        digest = hashlib.sha256(EXAMPLE.read_bytes()).digest()
        frames = [frame for frame, _, _ in FRAMES[:2]]
        old.write_bytes(layout.journal_of(frames, 5, 10, digest, b"OYSTERJ1"))
        new.unlink(missing_ok=True)
        words: list[harness.Word] = [PROGRAM, "migrate", "--table", EXAMPLE, "--from", old, "--to", new, "--cards", "10"]
        ended, refused = self.run_once(words, b"", number, onward)
        left = new.read_bytes() if new.is_file() else b""
        whole = layout.journal_of(frames, 5, 10, digest)
        return ended, left, whole, refused

    def test_a_migration_is_whole_or_leaves_nothing(self) -> None:
        ample, left, whole, _ = self.migrate(0, False)
        self.assertEqual((ample, left), ((0, b"migrated 2\n", ""), whole))
        for onward in (False, True):
            faults = set()
            for number in range(1, MOST):
                ended, left, whole, refused = self.migrate(number, onward)
                if refused == 0:
                    break
                place = f"migrate, allocation {number}{' and later ones' if onward else ''}"
                if ended in (ample, (*ample[:2], UNCOUNTED)):
                    self.assertEqual(left, whole, place)
                else:
                    status, out, err = ended[0], ended[1], harness.fault_of(ended[2])
                    faults.add(err)
                    self.assertEqual((status, out, left), (1, b"", b""), place)
                    self.assertIn(err, MIGRATION_WANTS, place)
            self.assertEqual(refused, 0, f"migrate: more than {MOST} allocations")
            self.assertEqual(faults, {*MIGRATION_WANTS})


class Servers(Refusals, harness.ProgramTest):
    """Runs of a server, from its start to its report, with a gate that sends three touches, of which the last is a
    revision, and an enquiry."""

    def serve(self, number: int, onward: bool) -> tuple[Served, int]:
        """What a run came to, and how many allocations were refused in it."""
        journal = self.folder / "journal"
        journal.unlink(missing_ok=True)
        reading, writing = os.pipe()
        env = dict(os.environ, LD_PRELOAD=str(self.library), REFUSE_NUMBER=str(number), REFUSE_ONWARD=str(int(onward)),
                   REFUSE_TELL=str(writing))
        words: list[harness.Word] = [PROGRAM, "serve", "--table", EXAMPLE, "--journal", journal, "--cards", "10",
                                     "--capacity", "10",
                                     "--listen", "127.0.0.1:0", "--lines", "1", "--connections", "1", REVISED]
        with subprocess.Popen(words, stdin=subprocess.DEVNULL, stdout=subprocess.PIPE, stderr=subprocess.PIPE, env=env,
                              pass_fds=[writing]) as server:
            os.close(writing)
            try:
                assert server.stderr, "a pipe"
                notes, said = first_lines(server.stderr)
                answers: list[bytes] = []
                if said.startswith("listening "):
                    host, _, port = said.split()[1].rpartition(":")
                    answers = asked((host, int(port)))
                out, err = server.communicate(timeout=TIME)
            finally:
                # One that waits for gates doesn't end by itself.
                server.kill()
        refused = len(os.read(reading, 1 << 16))
        os.close(reading)
        return (server.returncode, notes, said + err.decode(), out.decode(), answers, journal), refused

    def check_begun(self, run: Served, place: str) -> None:
        """It listened: it answered truly, kept what it answered, and wrote its whole report. How many answers came."""
        status, _, _, out, answers, journal = run
        self.assertEqual(status, 0, place)
        opened, line, closed = out.split("\n")[:-1]
        self.assertEqual(opened, "opened 0", place)
        self.assertRegex(line, "^line 1 connections [01] requests [0-4] answers [0-4]$", place)
        recorded = model.journal(journal.read_bytes(), model.Table(TABLE), 10)[0]
        self.assertEqual(closed, f"closed {len(recorded)}", place)
        for (_, wanted, refused), answer in zip(FRAMES, answers):
            self.assertIn(answer, (wanted, refused), place)
            if answer == refused:
                return
        touched = sum(answer[2] == codec.REPLY for answer in answers)
        self.assertIn(len(recorded) - touched, (0, 1), place)

    def test_a_server_that_has_its_memory_serves_on_and_reports(self) -> None:
        ample, refused = self.serve(0, False)
        report = "opened 0\nline 1 connections 1 requests 4 answers 4\nclosed 3\n"
        self.assertEqual((ample[:2], refused, ample[3]), ((0, []), 0, report))
        self.assertEqual(ample[4], [wanted for _, wanted, _ in FRAMES])
        for onward in (False, True):
            kinds: set[str] = set()
            uncounted = 0
            for number in range(1, MOST):
                run, refused = self.serve(number, onward)
                if refused == 0:
                    break
                place = f"serve, allocation {number}{' and later ones' if onward else ''}"
                status, notes, err, out = run[0], run[1], harness.fault_of(run[2]), run[3]
                self.assertIn(notes, ([], [UNCOUNTED]), place)
                uncounted += notes == [UNCOUNTED]
                if err.startswith("listening "):
                    kinds.add("served")
                    self.check_begun(run, place)
                else:
                    kinds.add(err)
                    self.assertEqual((status, out), (1, ""), place)
                    self.assertIn(err, WANTS, place)
            self.assertEqual(refused, 0, f"serve: more than {MOST} allocations")
            self.assertEqual(kinds, {"served", *WANTS})
            # The count of open slots takes memory once. A server goes on without it, but not without what it takes later.
            self.assertEqual(uncounted, 0 if onward else 1)


class Sends(Refusals):
    """Runs of gate_send on a file of no touches."""

    def test_a_gates_program(self) -> None:
        file = self.folder / "gate7.touches"
        start: list[harness.Word] = [GATE_SEND, "--gate", "7", "--file", file]
        subprocess.run([*start, "--new", "127.0.0.1:1"], input=b"", check=True)
        runs: tuple[tuple[list[harness.Word], bytes], ...] = (
            ([*start, "--resend", "127.0.0.1:1"], b""), ([*start, "127.0.0.1:1"], b"issue\n"),
            ([*start, "--tries", "0", "127.0.0.1:1"], b""))
        for words, given in runs:
            ample, refused = self.run_once(words, given, 0, False)
            self.assertEqual(refused, 0)
            for onward in (False, True):
                faults = 0
                for number in range(1, MOST):
                    ended, refused = self.run_once(words, given, number, onward)
                    if refused == 0:
                        break
                    if ended != ample and not tells_less(ended, ample):
                        faults += 1
                        self.assertEqual((ended[0], ended[1]), (1, b""), f"{words}, allocation {number}")
                        self.assertIn(harness.fault_of(ended[2]), SEND_WANTS, f"{words}, allocation {number}")
                self.assertEqual(refused, 0, f"{words}: more than {MOST} allocations")
                self.assertGreater(faults, 10, f"{words}: refusals seen")


class Tests(Refusals):
    """Tests of the reading of a table and of a door, a schedule, a replay, an audit, a statement, the disk in memory, a
    journal on it, and an office on that."""

    def sweep(self, crate: str, test: str, least: int) -> None:
        """Refuses each allocation of a test in turn, of which there are at least so many."""
        tests = CRATES / crate / "out" / f"{crate}_tests"
        self.assertTrue(is_built(CRATES / crate, tests),
                        f"no built tests of {crate} as it is: run 'rt test' in crates/{crate}")
        for number in range(MOST):
            (status, _, _), refused = self.run_once([tests, test], b"", number, False)
            self.assertEqual(status, 0, f"{test}, allocation {number}")
            if number and not refused:
                break
        self.assertFalse(refused, f"{test}: more than {MOST} allocations")
        self.assertGreater(number, least, f"{test}: allocations")

    def test_a_schedule(self) -> None:
        self.sweep("account_tests", "tests::of_fare_schedule::memory::a_refused_growth_leaves_the_schedule", 200)

    def test_a_disk_in_memory(self) -> None:
        self.sweep("tap_disk", "tests::memory::a_refused_growth_makes_no_write", 10)

    def test_a_journal_on_a_disk_in_memory(self) -> None:
        for test in ("a_refused_allocation_is_memory_or_device",
                     "a_migration_is_made_again_where_memory_was_refused"):
            with self.subTest(test):
                self.sweep("journal_tests", f"tests::of_tap_journal::memory::{test}", 10)

    def test_a_gates_file_on_a_disk_in_memory(self) -> None:
        self.sweep("gate_tests", "tests::of_gate_client::memory::a_refused_allocation_is_memory_or_device", 10)

    def test_a_run_of_a_gate(self) -> None:
        self.sweep("gate_command_tests", "tests::memory::a_run_that_was_refused_memory_is_begun_again", 20)

    def test_a_replay_of_a_revision(self) -> None:
        self.sweep("replay_tests", "tests::of_line_replay::memory::a_replay_that_was_refused_memory_is_begun_again", 100)

    def test_an_audit(self) -> None:
        for test in ("of_journal_audit::audit::memory::an_audit_that_was_refused_memory_is_begun_again",
                     "of_journal_audit::history::memory::a_history_that_was_refused_memory_is_begun_again",
                     "of_journal_audit::balances::failing::balances_that_were_refused_memory_are_begun_again"):
            with self.subTest(test):
                self.sweep("journal_tests", f"tests::{test}", 50)

    def test_a_statement(self) -> None:
        self.sweep("statement_tests",
                   "tests::of_statement_command::memory::a_statement_that_was_refused_memory_is_begun_again", 500)

    def test_a_fare_table(self) -> None:
        for test in ("the_example_is_read_again_where_memory_was_refused",
                     "a_fault_is_found_again_where_memory_was_refused"):
            with self.subTest(test):
                self.sweep("account_tests", f"tests::of_fare_table::refused::{test}", 50)

    def test_a_door(self) -> None:
        for test in ("a_door_is_read_again_where_memory_was_refused",
                     "an_unknown_key_is_named_where_memory_was_refused"):
            with self.subTest(test):
                self.sweep("door_file_tests", f"tests::refused::{test}", 10)
        for test in ("a_door_is_checked_again_where_memory_was_refused",
                     "a_door_is_opened_again_where_memory_was_refused"):
            with self.subTest(test):
                self.sweep("door_check_tests", f"tests::refused::{test}", 10)

    def test_an_office_on_a_disk_in_memory(self) -> None:
        for name in (
            "a_full_journal_answers_the_same_where_memory_was_refused",
            "two_seats_are_answered_the_same_where_memory_was_refused",
            "an_opening_has_the_same_cause_where_memory_was_refused",
            "revisions_are_answered_the_same_where_memory_was_refused",
            "a_missing_table_is_told_the_same_where_memory_was_refused",
        ):
            with self.subTest(name):
                self.sweep("office_tests", f"tests::of_tap_office::memory::{name}", 100)


def is_built(crate: pathlib.Path, tests: pathlib.Path) -> bool:
    """Whether the tests are there, and no file of the crate is newer."""
    if not tests.is_file():
        return False
    files = [path for folder in ("src", "specs", "proofs") for path in (crate / folder).rglob("*") if path.is_file()]
    return all(path.stat().st_mtime <= tests.stat().st_mtime for path in files)
