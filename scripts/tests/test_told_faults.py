"""Tests what the built program prints on standard error beside the line of a fault, and beside the report of a table.

The line of each fault, and the status, must be the same as without it. Files are made by hand: journals by
docs/reference/JOURNAL.md, tables from docs/example.toml, keys from docs/reference/TABLE.md. Refusals that the machine
can't be made to give are not tested, and a line reports that.
"""
import hashlib
import os
import pathlib
import re
import shutil
import socket
import subprocess
import tempfile
from collections.abc import Iterable
from typing import IO, Any, TypeAlias

import harness
from bovtrila import codec, layout
from harness import EXAMPLE, PROGRAM, REVISED, TIME, TOP, run_whole

# An argument, and the status and both outputs of a run.
Place: TypeAlias = str | pathlib.Path
Ended: TypeAlias = tuple[int, str, str]

TABLE = EXAMPLE.read_text()
DIGEST = hashlib.sha256(EXAMPLE.read_bytes()).digest()
FOUR = [bytes.fromhex(line) for line in (harness.CRATES / "tap_server" / "stdin").read_text().split()]
COUNTS = "pairs 1\ninterchanges 1\nholidays 1\n"
# The table that docs/reference/TABLE.md begins with, in which each list stands under headings.
SMALL = (TOP / "docs" / "reference" / "TABLE.md").read_text().split("```toml\n")[1].split("```")[0]
# A user who is refused what root is not.
NOBODY = 65534
FIRST, SECOND = b"OYSTERJ1", b"OYSTERJ2"


class Told(harness.ProgramTest):
    """Each test has a folder of its own."""

    def setUp(self) -> None:
        room = tempfile.TemporaryDirectory(prefix="told-faults-")
        self.addCleanup(room.cleanup)
        self.folder = pathlib.Path(room.name)
        self.journal = self.folder / "station.journal"

    def write(self, name: str, text: str | bytes) -> pathlib.Path:
        """The path of a file of this text in the folder."""
        path = self.folder / name
        path.write_bytes(text if isinstance(text, bytes) else text.encode())
        return path

    def changed(self, *pairs: tuple[str, str]) -> pathlib.Path:
        """The example table with texts in it replaced."""
        text = TABLE
        for old, new in pairs:
            self.assertEqual(text.count(old), 1, old)
            text = text.replace(old, new)
        return self.write("changed.toml", text)

    def serving(self, journal: Place | None = None, table: Place = EXAMPLE, listen: str = "127.0.0.1:0",
                revised: Iterable[Place] = ()) -> list[Place]:
        """The words of a server for one connection."""
        return ["serve", "--table", table, "--journal", journal or self.journal, "--cards", "10", "--capacity", "5",
                "--listen", listen, "--lines", "1", "--connections", "1", *revised]

    def strict(self, journal: Place | None = None, **options: Any) -> list[Place]:
        """The words of a server that is strict."""
        return [*self.serving(journal, **options), "--strict"]

    def migrating(self, old: Place, new: Place, table: Place = EXAMPLE) -> list[Place]:
        return ["migrate", "--table", table, "--from", old, "--to", new, "--cards", "10"]

    def by_table(self, command: str, table: Place, journal: Place) -> list[Place]:
        """The words of a command that reads a journal by a table."""
        return [command, "--table", table, "--journal", journal, *(["--card", "1"] if command == "statement" else [])]

    def reading(self, journal: Place) -> list[list[Place]]:
        """The words of each command that reads a journal alone."""
        return [["verify", "--journal", journal], ["verify", "--journal", journal, "--table", EXAMPLE],
                *(self.by_table(command, EXAMPLE, journal) for command in ("history", "balances", "statement"))]

    def start(self, words: Iterable[Place], **options: Any) -> subprocess.Popen[str]:
        """Starts the program, which is ended with the test."""
        process: subprocess.Popen[str] = subprocess.Popen(
            [str(word) for word in (PROGRAM, *words)], stdin=subprocess.DEVNULL, stdout=subprocess.PIPE,
            stderr=subprocess.PIPE, text=True, **options)
        self.addCleanup(process.communicate)
        self.addCleanup(process.kill)
        return process

    def errors(self, server: subprocess.Popen[str]) -> IO[str]:
        """The standard error of a program that was started."""
        assert server.stderr, "a pipe"
        return server.stderr

    def asked(self, before: Iterable[Place], words: Iterable[Place], **options: Any) -> Ended:
        """Status, standard output and standard error of the program, started by these words before it."""
        command = [str(word) for word in (*before, *words)]
        done = subprocess.run(command, capture_output=True, timeout=TIME, text=True, **options)
        return done.returncode, done.stdout, done.stderr

    def as_another(self, words: Iterable[Place]) -> Ended:
        """What is said to a user who is refused what root is not: another one, where root runs this."""
        if os.geteuid() != 0:
            return self.asked([PROGRAM], words)
        # Who has to reach the program and the example table too.
        self.folder.chmod(0o755)
        program = self.folder / "program"
        if not program.exists():
            shutil.copy(PROGRAM, program)
        return self.asked([program], words, user=NOBODY, group=NOBODY, extra_groups=[])

    def mounted(self, mount: str, words: Iterable[Place]) -> Ended:
        """What is said where this was mounted, for the program alone."""
        before = ["unshare", "--mount", "sh", "-c", f'{mount} && exec "$@"', "sh"]
        if not shutil.which("unshare") or self.asked(before, ["true"])[0] != 0:
            self.skipTest("a read-only or full file system needs unshare, and the right to mount")
        return self.asked(before, [PROGRAM, *words])

    def failing(self, call: str, error: str, path: Place, words: Iterable[Place]) -> Ended:
        """What is said where a call of the system on a path fails."""
        if not shutil.which("strace"):
            self.skipTest("calls that fail need strace: apt-get install strace")
        return self.asked(["strace", "-f", "-qq", "-o", "/dev/null", "-P", path, "-e", f"trace={call}", "-e",
                           f"inject={call}:error={error}", PROGRAM], words)

    def assert_told(self, words: Iterable[Place], *lines: str, **options: Any) -> None:
        """Nothing is on standard output, the status is 1, and standard error has these lines alone."""
        told = "".join(f"{line}\n" for line in lines)
        self.assertEqual(run_whole([str(word) for word in words], **options), (1, b"", told))

    def assert_checked(self, path: Place, status: int, out: str, *lines: str) -> None:
        """A check of a table writes this, and tells these lines."""
        told = "".join(f"{line}\n" for line in lines)
        self.assertEqual(run_whole(["check", "--table", str(path)]), (status, out.encode(), told))


class Files(Told):
    """Files that can't be opened, made or read."""

    def commands(self, table: Place) -> dict[str, list[Place]]:
        """The words of each command that reads a table, with this one."""
        self.write("old.journal", layout.journal_of(FOUR, 5, 10, DIGEST, FIRST))
        return {"check": ["check", "--table", table], "replay": ["replay", "--cards", "10", "--table", table],
                "a revised table": ["replay", "--cards", "10", REVISED, table], "serve": self.serving(table=table),
                "migrate": self.migrating(self.folder / "old.journal", self.folder / "new.journal", table)}

    def test_a_table_that_cannot_be_read_is_told_by_every_command(self) -> None:
        places: list[tuple[Place, str]] = [
            (self.folder / "none.toml", "no such file"), ("none.toml", "no such file"),
            (self.folder / "none" / "a.toml", "no such folder"), ("/dev/null/a.toml", "no such folder"),
            (self.folder, "is a folder"), ("", "no such file")]
        for path, why in places:
            for name, words in self.commands(path).items():
                with self.subTest(name, path=path):
                    self.assert_told(words, "fault file", f"  {path}: {why}", cwd=self.folder)
        # Nothing was made of it.
        self.assertFalse(self.journal.exists() or (self.folder / "new.journal").exists())

    def test_a_journal_that_is_no_file_is_told(self) -> None:
        pipe = self.folder / "pipe"
        os.mkfifo(pipe)
        places: list[tuple[Place, str]] = [
            (self.folder, "is a folder"), ("/dev/null", "is a device or a pipe"), ("/dev/full", "is a device or a pipe"),
            (pipe, "is a device or a pipe"), (self.folder / "none" / "journal", "no such folder"),
            ("/dev/null/journal", "no such folder"), ("", "no such file")]
        for path, why in places:
            words = self.serving()
            words[words.index("--journal") + 1] = path
            with self.subTest(path=path):
                self.assert_told(words, "fault file", f"  {path}: {why}")

    def test_a_journal_that_cannot_be_read_is_told_by_every_command_that_reads_it(self) -> None:
        places: list[tuple[Place, str]] = [
            (self.folder / "none", "no such file"), ("none", "no such file"), (self.folder, "is a folder"),
            (self.folder / "none" / "journal", "no such folder"), ("/dev/null/journal", "no such folder")]
        for path, why in places:
            for words in self.reading(path):
                with self.subTest(words[0], path=path):
                    self.assert_told(words, "fault file", f"  {path}: {why}", cwd=self.folder)

    def test_the_files_of_a_migration_are_told(self) -> None:
        old, new = self.folder / "old.journal", self.folder / "new.journal"
        self.assert_told(self.migrating(old, new), "fault file", f"  {old}: no such file")
        self.assertFalse(old.exists() or new.exists())
        old.write_bytes(layout.journal_of(FOUR, 5, 10, DIGEST, FIRST))
        self.assert_told(self.migrating(self.folder, new), "fault file", f"  {self.folder}: is a folder")
        nowhere = self.folder / "none" / "journal"
        self.assert_told(self.migrating(old, nowhere), "fault file", f"  {nowhere}: no such folder")
        self.assert_told(self.migrating(old, old), "fault file", f"  {old}: another server or run has it")

    def test_a_journal_that_another_server_has_is_told(self) -> None:
        server = self.start(self.serving())
        self.assertEqual(self.errors(server).readline(), f"new journal {self.journal}\n")
        self.assertTrue(self.errors(server).readline().startswith("listening "))
        before = self.journal.read_bytes()
        self.assert_told(self.serving(), "fault file", f"  {self.journal}: another server or run has it")
        self.assertEqual(self.journal.read_bytes(), before)
        # The server has its lock still.
        self.assert_told(self.serving(), "fault file", f"  {self.journal}: another server or run has it")

    def test_what_may_not_be_read_or_written_is_told(self) -> None:
        """By a user who isn't root: a file without a right, a folder that may not be entered, and one that may not be
        written."""
        table, shut = self.write("table.toml", TABLE), self.write("shut.toml", TABLE)
        old, kept = self.folder / "old.journal", self.folder / "kept.journal"
        old.write_bytes(layout.journal_of(FOUR, 5, 10, DIGEST, FIRST))
        for journal in (self.journal, kept):
            journal.write_bytes(layout.journal_of(FOUR, 5, 10, DIGEST))
        closed, fixed = self.folder / "closed", self.folder / "fixed"
        closed.mkdir()
        fixed.mkdir()
        self.addCleanup(closed.chmod, 0o700)
        self.addCleanup(fixed.chmod, 0o700)
        for path, mode in ((shut, 0), (self.journal, 0), (closed, 0), (kept, 0o444), (fixed, 0o555), (table, 0o444),
                           (old, 0o444)):
            path.chmod(mode)
        rows: list[tuple[list[Place], pathlib.Path]] = [
                (["check", "--table", shut], shut), (self.serving(kept, table=shut), shut),
                (self.serving(table=table), self.journal), (self.serving(kept, table=table), kept),
                *((self.serving(folder / "journal", table=table), folder / "journal") for folder in (closed, fixed)),
                *((words, self.journal) for words in self.reading(self.journal) if EXAMPLE not in words),
                *((self.by_table(command, table, self.journal), self.journal)
                  for command in ("verify", "history", "balances", "statement")),
                *((self.by_table(command, shut, kept), shut) for command in ("verify", "history", "balances", "statement")),
                (self.migrating(self.journal, fixed / "journal", table), self.journal),
                (self.migrating(old, fixed / "journal", table), fixed / "journal"),
                (self.migrating(old, kept, table), kept)]
        for words, path in rows:
            with self.subTest(words[0], path=path):
                self.assertEqual(self.as_another(words), (1, "", f"fault file\n  {path}: Permission denied\n"))
        # With the right to read alone, what reads alone goes on.
        for command in ("history", "balances", "statement"):
            self.assertEqual(self.as_another(self.by_table(command, table, kept))[0], 0)

    def test_a_read_only_file_system_is_told(self) -> None:
        mounted = self.folder / "mounted"
        mounted.mkdir()
        (mounted / "kept").write_bytes(layout.journal_of(FOUR, 5, 10, DIGEST))
        old = self.write("old.journal", layout.journal_of(FOUR, 5, 10, DIGEST, FIRST))
        mount = f"mount --bind {mounted} {mounted} && mount -o remount,bind,ro {mounted}"
        for name in ("journal", "kept"):
            for words in (self.serving(mounted / name), self.migrating(old, mounted / name)):
                with self.subTest(words[0], name=name):
                    self.assertEqual(self.mounted(mount, words),
                                     (1, "", f"fault file\n  {mounted}/{name}: read-only file system\n"))
        # What reads alone needs no more.
        for words in self.reading(mounted / "kept"):
            self.assertEqual(self.mounted(mount, words)[0], 0)

    def test_a_full_disk_is_told(self) -> None:
        mounted = self.folder / "mounted"
        mounted.mkdir()
        # It has no room for a file beside its own folder.
        mount = f"mount -t tmpfs -o nr_inodes=1 none {mounted}"
        self.assertEqual(self.mounted(mount, self.serving(mounted / "journal")),
                         (1, "", f"fault file\n  {mounted}/journal: no room on the disk\n"))

    def test_calls_that_fail_on_a_journal_are_told(self) -> None:
        """A call that fails once is told as one that goes on failing."""
        content = layout.journal_of(FOUR, 5, 10, DIGEST)
        self.journal.write_bytes(content)
        descriptors = "too many open files"
        for call, error, why in (("openat", "EMFILE", descriptors), ("openat", "ENFILE", descriptors),
                                 ("fcntl", "EMFILE", descriptors), ("openat", "ENOMEM", "no memory"),
                                 ("openat", "ENOSPC", "no room on the disk"), ("openat", "EPERM", "Permission denied"),
                                 ("openat", "EIO", "error 5 of the system"),
                                 ("flock", "EAGAIN", "another server or run has it"),
                                 ("flock", "ENOLCK", "error 37 of the system"), ("fsync", "EIO", "error 5 of the system")):
            for when in ("", ":when=1"):
                with self.subTest(call, error=error, when=when):
                    self.assertEqual(self.failing(call, f"{error}{when}", self.journal, self.serving()),
                                     (1, "", f"fault file\n  {self.journal}: {why}\n"))
                    self.assertEqual(self.journal.read_bytes(), content)

    def test_calls_that_fail_on_a_table_are_told(self) -> None:
        table = self.write("table.toml", TABLE)
        for call, error, why in (("openat", "EMFILE", "too many open files"), ("openat", "ENOMEM", "no memory"),
                                 ("openat", "EIO", "error 5 of the system"), ("read", "EIO", "can't be read to its end")):
            with self.subTest(call, error=error):
                self.assertEqual(self.failing(call, error, table, ["check", "--table", table]),
                                 (1, "", f"fault file\n  {table}: {why}\n"))


class Journals(Told):
    """Journals that are made, that aren't there, and that aren't those of the words."""

    # The days of the first example, and the next one.
    MONDAY, TUESDAY = 20094, 20095

    def reading_by(self, table: Place, *revised: Place) -> list[list[Place]]:
        """The words of each command that reads the journal by this table."""
        return [self.serving(table=table, revised=revised),
                *([*self.by_table(command, table, self.journal), *revised]
                  for command in ("verify", "history", "balances", "statement"))]

    def test_a_journal_that_is_made_is_told(self) -> None:
        starts: list[list[str]] = [[f"new journal {self.journal}\n"], []]
        for told in starts:
            server = self.start(self.serving())
            self.assertEqual([self.errors(server).readline() for _ in told], told)
            self.assertTrue(self.errors(server).readline().startswith("listening "))
            server.kill()
            server.wait(TIME)
        self.assertEqual(self.journal.read_bytes(), layout.journal_of([], 5, 10, DIGEST))
        # An empty file is made a journal too.
        self.journal.write_bytes(b"")
        self.assertEqual(self.errors(self.start(self.serving())).readline(), f"new journal {self.journal}\n")

    def test_a_strict_server_makes_no_journal(self) -> None:
        for path, why in ((self.journal, "no such file"), (self.folder / "none" / "journal", "no such folder"),
                          (self.folder, "is a folder")):
            with self.subTest(path=path):
                self.assert_told(self.strict(path), "fault file", f"  {path}: {why}")
                self.assertEqual(list(self.folder.iterdir()), [])
        # Nor one in an empty file, which stays.
        self.journal.write_bytes(b"")
        self.assert_told(self.strict(), "fault journal 3 NotAJournal", f"  {self.journal}")
        self.assertEqual(self.journal.read_bytes(), b"")

    def test_a_strict_server_opens_a_journal_that_is_there(self) -> None:
        self.journal.write_bytes(layout.journal_of(FOUR, 5, 10, DIGEST))
        server = self.start(self.strict())
        self.assertTrue(self.errors(server).readline().startswith("listening "))

    def test_a_journal_of_another_table_is_told_with_both_digests(self) -> None:
        own, other = DIGEST.hex(), hashlib.sha256(REVISED.read_bytes()).hexdigest()
        self.journal.write_bytes(layout.journal_of(FOUR, 5, 10, DIGEST))
        for words in self.reading_by(REVISED):
            with self.subTest(words[0]):
                self.assert_told(words, "fault journal 5 WrongTable",
                                 f"  {self.journal}: made with the table {own}, and {REVISED} is {other}")
        old, new = self.write("old.journal", layout.journal_of(FOUR, 5, 10, DIGEST, FIRST)), self.folder / "new.journal"
        self.assert_told(self.migrating(old, new, REVISED), "fault migrate 3 Old 5 WrongTable",
                         f"  {old}: made with the table {own}, and {REVISED} is {other}")
        # A table that is damaged further on is another table all the same.
        self.journal.write_bytes(layout.journal_of(FOUR, 5, 10, DIGEST)[:100])
        self.assert_told(self.serving(table=REVISED), "fault journal 5 WrongTable",
                         f"  {self.journal}: made with the table {own}, and {REVISED} is {other}")

    def test_a_journal_of_other_cards_is_told_with_both_numbers(self) -> None:
        self.journal.write_bytes(layout.journal_of(FOUR, 5, 11, DIGEST))
        self.assert_told(self.serving(), "fault journal 6 WrongCards", f"  {self.journal}: made with 11 cards, not 10")
        old, new = self.write("old.journal", layout.journal_of(FOUR, 5, 1, DIGEST, FIRST)), self.folder / "new.journal"
        self.assert_told(self.migrating(old, new), "fault migrate 3 Old 6 WrongCards",
                         f"  {old}: made with 1 cards, not 10")

    def test_a_table_that_is_missing_is_told_with_its_revision(self) -> None:
        """Accepted is one from a day that nobody travelled on, and that no accepted revision reaches; with its date, or
        its number where the calendar has none."""
        third = self.write("third.toml", TABLE + "# A third one.\n")
        digests = {path: hashlib.sha256(path.read_bytes()).digest() for path in (REVISED, third)}

        def revision(number: int, path: pathlib.Path, day: int) -> bytes:
            return codec.touch(codec.REVISE, 9, number, 0, digests[path], day, 0)

        for day, date, judged in ((self.TUESDAY, "2025-01-07", "accepted"), (self.MONDAY, "2025-01-06", "refused"),
                                  (2_000_000_000, "2000000000", "accepted"), (-800_000, "-000221-09-04", "refused")):
            self.journal.write_bytes(layout.journal_of([*FOUR, revision(1, REVISED, day)], 5, 10, DIGEST))
            for words in self.reading_by(EXAMPLE):
                with self.subTest(words[0], day=day):
                    self.assert_told(words, "fault journal 13 MissingTable 4",
                                     f"  {self.journal}: no file has the table {digests[REVISED].hex()}; its revision "
                                     f"from {date} was {judged}")
        # Behind a revision whose table is there, the day has to be a later one.
        for day, date, judged in ((self.TUESDAY, "2025-01-07", "refused"), (self.TUESDAY + 1, "2025-01-08", "accepted")):
            frames = [*FOUR, revision(1, REVISED, self.TUESDAY), revision(2, third, day)]
            self.journal.write_bytes(layout.journal_of(frames, 9, 10, DIGEST))
            for words in self.reading_by(EXAMPLE, REVISED):
                with self.subTest(words[0], day=day):
                    self.assert_told(words, "fault journal 13 MissingTable 5",
                                     f"  {self.journal}: no file has the table {digests[third].hex()}; its revision "
                                     f"from {date} was {judged}")

    def test_what_the_system_answers_of_a_disk_is_told(self) -> None:
        """A journal that can't be made leaves no file, and one that can't be read stays."""
        for error, text in (("ENOSPC", "No space left on device"), ("EIO", "Input/output error"),
                            ("EDQUOT", "Disk quota exceeded")):
            for call in ("pwrite64", "fdatasync"):
                with self.subTest(call, error=error):
                    self.assertEqual(self.failing(call, error, self.journal, self.serving()),
                                     (1, "", f"fault journal 2 Device\n  {self.journal}: {text}\n"))
                    self.assertFalse(self.journal.exists())
        content = layout.journal_of(FOUR, 5, 10, DIGEST)
        self.journal.write_bytes(content)
        for call in ("pread64", "fdatasync"):
            with self.subTest(call):
                self.assertEqual(self.failing(call, "EIO", self.journal, self.serving()),
                                 (1, "", f"fault journal 2 Device\n  {self.journal}: Input/output error\n"))
                self.assertEqual(self.journal.read_bytes(), content)

    def test_a_full_disk_is_told_at_each_start(self) -> None:
        """A file system with room for the names of files, and for no byte of them."""
        mounted = self.folder / "mounted"
        mounted.mkdir()
        mount = f"mount -t tmpfs -o size=8k none {mounted} && head -c 8192 /dev/zero >{mounted}/full"
        told = f"fault journal 2 Device\n  {mounted}/journal: No space left on device\n"
        self.assertEqual(self.mounted(mount, self.serving(mounted / "journal")), (1, "", told))
        # A second start finds no file of the first, and says the same.
        words = " ".join(map(str, (PROGRAM, *self.serving(mounted / "journal"))))
        self.assertEqual(self.mounted(f"{mount}; {words}", self.serving(mounted / "journal")), (1, "", told + told))


class Addresses(Told):
    """Addresses that can't be listened on."""

    def test_an_address_that_is_refused_is_told(self) -> None:
        with socket.create_server(("127.0.0.1", 0)) as busy:
            taken = "127.0.0.1:%d" % busy.getsockname()[1]
            made = [f"new journal {self.journal}"]
            for address, why in ((taken, "address in use"), ("192.0.2.1:4014", "not an address of this machine"),
                                 ("[2001:db8::1]:4014", "not an address of this machine"),
                                 ("nonsense", "not an address and a port"), ("127.0.0.1", "not an address and a port"),
                                 (":4014", "not an address and a port"), ("127.0.0.1:", "not an address and a port"),
                                 ("127.0.0.1:-1", "not an address and a port"),
                                 ("127.0.0.1:65536", "not an address and a port")):
                with self.subTest(address):
                    self.assert_told(self.serving(listen=address), *made, "fault listen", f"  {address}: {why}")
                made = []
        self.assertEqual(self.journal.read_bytes(), layout.journal_of([], 5, 10, DIGEST))

    def test_an_address_of_another_server_is_told(self) -> None:
        server = self.start(self.serving())
        address = harness.first_line(self.errors(server)).split()[1]
        other = self.folder / "other.journal"
        self.assert_told(self.serving(other, listen=address), f"new journal {other}", "fault listen",
                         f"  {address}: address in use")

    def test_a_port_that_this_user_may_not_have_is_told(self) -> None:
        first = int(pathlib.Path("/proc/sys/net/ipv4/ip_unprivileged_port_start").read_text())
        if first <= 1:
            self.skipTest("a port that is refused needs a system that keeps some for root")
        room = self.folder / "room"
        room.mkdir(0o777)
        room.chmod(0o777)
        table = self.write("table.toml", TABLE)
        address = f"127.0.0.1:{min(first, 1024) - 1}"
        told = f"new journal {room}/journal\nfault listen\n  {address}: Permission denied\n"
        self.assertEqual(self.as_another(self.serving(room / "journal", table=table, listen=address)), (1, "", told))


class Tables(Told):
    """Tables that are refused."""

    def assert_refused(self, path: Place, line: str, detail: str) -> None:
        """Each command that takes a table tells this line of the fault, and this one behind it."""
        commands: list[list[Place]] = [
            ["replay", "--cards", "10", "--table", path], ["replay", "--cards", "10", REVISED, path],
            self.serving(table=path), self.serving(revised=[REVISED, path])]
        for words in commands:
            with self.subTest(words[0], line=line):
                self.assert_told(words, line, detail)

    def test_a_table_that_is_refused_is_told_by_its_line_with_what_may_stand_there(self) -> None:
        number, price, zone = (f"a whole number from 1 to {most}" for most in (65535, 10000, 9))
        rows = [("id = 3", "id = 65536", "5 Range station.id 3", f"line 12: 65536; {number}"),
                ("id = 3", 'id = "a\\tb"', "4 WrongType station.id 3", f'line 12: "a\\tb"; {number}'),
                ("price = 600", "price = true", "4 WrongType cap.price 3", f"line 28: true; {price}"),
                ("price = 600", "price = 6.00", "4 WrongType cap.price 3",
                 f"line 28: a number with a decimal point; {price}"),
                ('"2025-12-25"', '"2025-12-26", 2025-12-25', "4 WrongType holidays 2",
                 'line 8: a date without quotes; a date of the calendar, as "2025-12-25"'),
                ('{id = 3, name = "Cedar", zones = [3]}', "3", "4 WrongType station 3", "line 12: 3; a table"),
                ("zones = [2, 3]", "zones = [3, 2]", "5 Range station.zones 5",
                 "line 14: a list of 2; one zone from 1 to 9, or two in ascending order"),
                ('"off-peak"', '"peek"', "5 Range cap.kind 3", 'line 28: "peek"; "anytime" or "off-peak"'),
                ("low = 1, high = 2", "low = 2, high = 1", "5 Range single.high 2",
                 f"line 18: 1; {zone}, not below low"),
                ("lo = 2, hi = 2", "lo = 2, hi = 1", "5 Range pair.hi 1", f"line 24: 1; {zone}, not below lo"),
                ("lo = 1, hi = 3", "lo = 4, hi = 3", "5 Range cap.hi 2", f"line 27: 3; {zone}, not below lo"),
                ("peak = 300, off_peak = 250", "peak = 300, off_peak = 301", "5 Range single.off_peak 1",
                 f"line 17: 301; {price}, not above peak"),
                ("peak = 230, off_peak = 200", "peak = 230, off_peak = 231", "5 Range pair.off_peak 1",
                 f"line 24: 231; {price}, not above peak"),
                ("b = 4", "b = 1", "5 Range interchange.b 1", f"line 30: 1; {number}, not a"),
                ('name = "Birch", ', "", "3 Missing station.name 2", "line 11: no name; a text of 1 to 64 bytes"),
                ("evening_rule = true\n", "", "3 Missing evening_rule 0", "no evening_rule; true or false"),
                ("id = 4", "id = 1", "6 Twice station 4", "line 13: 1; row 1 names the same"),
                ("low = 2, high = 2", "low = 1, high = 2", "6 Twice single 4", "line 20: 1; row 2 names the same"),
                ("b = 4", "b = 9", "7 UnknownStation 9", "line 30: 9; the number of a station of the table"),
                ("zones = [2, 3]", "zones = [2, 4]", "8 MissingSingle 1 4", "no single; one of low 1 and high 4"),
                ("GMT0BST,M3.5.0/1,M10.5.0", "Europe/London", "10 BadZone",
                 'line 1: "Europe/London"; a POSIX TZ rule, as "GMT0BST,M3.5.0/1,M10.5.0"'),
                ("2025-12-25", "2025-12-32", "11 BadDate 1",
                 'line 8: "2025-12-32"; a date of the calendar, as "2025-12-25"')]
        for old, new, fault, told in rows:
            path = self.changed((old, new))
            self.assert_checked(path, 1, f"fault table {fault}\n", f"  {path}: {told}")
        self.assert_refused(path, f"fault table {fault}", f"  {path}: {told}")

    def test_a_fault_under_headings_is_told_by_its_line(self) -> None:
        for old, new, fault, told in (
                ('kind = "anytime"', 'kind = "peek"', "5 Range cap.kind 1", 'line 41: "peek"; "anytime" or "off-peak"'),
                ("id = 2\n", "", "3 Missing station.id 2", "line 15: no id; a whole number from 1 to 65535"),
                ("peak = 350", "peak = [\n  1, # ]\n]", "4 WrongType single.peak 2",
                 "line 29: a list of 1; a whole number from 1 to 10000"),
                ('"Mill Lane"', '"""[[station]]\nid = 2"""\nzone = 3', "5 Range station.zones 2",
                 "line 20: a list of 1; one zone from 1 to 9, or two in ascending order"),
                ('"Mill Lane"\nzones = [2]', "'Mill\\'\nzones = [10]", "5 Range station.zones 2",
                 "line 18: a list of 1; one zone from 1 to 9, or two in ascending order")):
            text = SMALL.replace(old, new, 1)
            if "zone = 3" in new:
                text = text.replace("zones = [2]", "zones = [10]")
            path = self.write("headings.toml", text)
            status, out, err = run_whole(["check", "--table", str(path)])
            with self.subTest(fault):
                self.assertEqual((status, out), (1, f"fault table {fault}\n".encode()))
                self.assertEqual(err.split("\n")[0], f"  {path}: {told}")

    def test_a_number_with_a_zero_in_front_is_told(self) -> None:
        path = self.changed(("= 190\n", "= 0190\n"))
        status, out, err = run_whole(["check", "--table", str(path)])
        self.assertEqual((status, out), (1, b"fault table 2 NotToml\n"))
        self.assertRegex(err, rf"\A  {re.escape(str(path))}: line 2, column \d+: a number may not begin with 0\n\Z")

    def test_a_text_that_is_no_document_is_told_by_its_place(self) -> None:
        # What is no value, bytes that aren't UTF-8, and what is no key; the places count characters.
        for text, place in ((b"zone = \"GMT0\"\nleg_minutes = ?\n", "line 2, column 15"),
                            (b"# caf\xc3\xa9\nx = 1 \xff\n", "line 2, column 7"), (b"\xff", "line 1, column 1"),
                            ("# é\n\n é".encode(), "line 3, column 2")):
            path = self.write("bad.toml", text)
            status, out, err = run_whole(["check", "--table", str(path)])
            with self.subTest(text):
                self.assertEqual((status, out), (1, b"fault table 2 NotToml\n"))
                self.assertRegex(err, rf"\A  {re.escape(str(path))}: {place}: \S.*\n\Z")
                self.assert_refused(path, "fault table 2 NotToml", err[:-1])

    def test_a_price_above_its_maximum_is_told_by_its_line(self) -> None:
        for pairs, said in (([("maximum_off_peak = 700", "maximum_off_peak = 309")],
                             "line 19: 310; at most maximum_off_peak, 309"),
                            ([("maximum_off_peak = 700", "maximum_off_peak = 901")],
                             "line 7: 901; at most maximum_peak, 900"),
                            ([("peak = 400, off_peak = 310", "peak = 901, off_peak = 310")],
                             "line 19: 901; at most maximum_peak, 900"),
                            ([("peak = 230, off_peak = 200", "peak = 901, off_peak = 200")],
                             "line 24: 901; at most maximum_peak, 900"),
                            ([("peak = 230, off_peak = 200", "peak = 900, off_peak = 701")],
                             "line 24: 701; at most maximum_off_peak, 700")):
            path = self.changed(*pairs)
            self.assert_refused(path, "fault table 9 MaximumTooLow", f"  {path}: {said}")
            self.assert_checked(path, 1, "fault table 9 MaximumTooLow\n", f"  {path}: {said}")

    def test_a_revised_table_that_cannot_be_supplied_is_named(self) -> None:
        self.assert_told(self.serving(revised=[EXAMPLE]), "fault supply 2 Twice 1", f"  {EXAMPLE}")
        other = self.changed(("GMT0BST,M3.5.0/1,M10.5.0", "GMT0"))
        commands: list[list[Place]] = [
            self.serving(revised=[REVISED, other]), ["replay", "--cards", "10", REVISED, other]]
        for words in commands:
            self.assert_told(words, "fault supply 3 OtherZone 2", f"  {other}")
        # Nothing was made of it.
        self.assertFalse(self.journal.exists())


class Notes(Told):
    """What a check tells beside its report."""

    def report(self, path: pathlib.Path, caps: int = 3) -> str:
        digest = hashlib.sha256(path.read_bytes()).hexdigest()
        return f"stations 5\nsingles 6\ncaps {caps}\ndigest {digest}\n"

    def test_a_valid_table_is_told_with_its_other_rows(self) -> None:
        self.assert_checked(EXAMPLE, 0, self.report(EXAMPLE), *COUNTS.split("\n")[:-1])
        path = self.changed(('holidays = ["2025-12-25"]', 'holidays = ["2025-12-25", "2025-12-26", "2025-12-25"]'),
                            ("interchange = [{a = 1, b = 4, minutes = 10}]", ""))
        self.assert_checked(path, 0, self.report(path), "pairs 1", "interchanges 0", "holidays 3")

    def test_a_misspelled_key_is_told_with_the_one_that_was_meant(self) -> None:
        rows = [([("pair = [", "pairs = [")], 3, ["note: pairs isn't known; is pair meant?"], "pairs 0"),
                ([("cap = [", "caps = [")], 0, ["note: caps isn't known; is cap meant?"], "pairs 1"),
                ([("lo = 2, hi = 2, peak", "minuets = 5, lo = 2, hi = 2, peak")], 3,
                 ["note: pair.minuets in row 1 isn't known; is minutes meant?"], "pairs 1"),
                ([('kind = "anytime", price = 1000', 'kind = "anytime", price = 1000, to = 1, Price = 1'),
                  ("entry_minimum", "remark = 1\nentry_minimum")], 3,
                 ["note: remark isn't known", "note: cap.Price in row 2 isn't known; is price meant?",
                  "note: cap.to in row 2 isn't known; is lo meant?"], "pairs 1")]
        for pairs, caps, notes, count in rows:
            path = self.changed(*pairs)
            with self.subTest(notes):
                self.assert_checked(path, 0, self.report(path, caps), *notes, count, "interchanges 1", "holidays 1")
        path = self.changed(("holidays =", "holiday ="))
        self.assert_checked(path, 0, self.report(path), "note: holiday isn't known; is holidays meant?", "pairs 1",
                            "interchanges 1", "holidays 0")

    def test_a_refused_table_has_its_notes_and_no_counts(self) -> None:
        path = self.changed(("station = [", "stations = ["))
        self.assert_checked(path, 1, "fault table 3 Missing station 0\n", f"  {path}: no station; a list of 1 to 1000",
                            "note: stations isn't known; is station meant?")

    def test_the_keys_that_are_known_are_those_of_the_documents(self) -> None:
        keys = re.findall(r"^\| ((?:`[a-z_.]+`(?:, )?)+) \|", (TOP / "docs" / "reference" / "TABLE.md").read_text(), re.M)
        keys = [key for group in keys for key in re.findall(r"`([a-z_.]+)`", group)]
        self.assertEqual((len(keys), len(set(keys))), (34, 34))
        for key in keys:
            before, _, name = key.rpartition(".")
            for written, note in ((name, ""), (f"{name}q", f"note: {before and before + '.'}{name}q"
                                               f"{before and ' in row 1'} isn't known")):
                path = self.write("key.toml", f"{before} = [{{{written} = 1}}]" if before else f"{written} = 1")
                with self.subTest(written):
                    status, _, err = run_whole(["check", "--table", str(path)])
                    if note and len(name) > 1:
                        note += f"; is {name} meant?"
                    # The line behind the fault's comes first.
                    told, _, notes = err.partition("\n")
                    self.assertTrue(told.startswith(f"  {path}: no "), told)
                    self.assertEqual((status, notes), (1, f"{note}\n" if note else ""))

    def test_a_key_is_told_in_one_line(self) -> None:
        path = self.write("key.toml", '"a\\nb\\u001b" = 1\n')
        self.assert_checked(path, 1, "fault table 3 Missing zone 0\n", f"  {path}: no zone; a text",
                            "note: a\\nb\\u{1b} isn't known")

    def noted(self, text: str) -> tuple[pathlib.Path, list[str]]:
        """The table of a text that is valid, and the notes on it."""
        path = self.write("noted.toml", text)
        status, _, err = run_whole(["check", "--table", str(path)])
        self.assertEqual(status, 0)
        return path, [line for line in err.split("\n") if line.startswith("note: ")]

    def test_what_may_not_be_meant_is_noted_and_counts_with_strict(self) -> None:
        holidays = SMALL.split("\n")[7]
        self.assertTrue(holidays.startswith("holidays ="))
        moved = SMALL.replace(holidays + "\n", "", 1).replace("zones = [1]\n", "zones = [1]\n" + holidays + "\n", 1)
        low = re.sub(r"^(m\w+|peak|off_peak|price)( = )\d+", r"\1\g<2>7", SMALL, flags=re.M)
        nine, ten = low.replace("price = 7", "price = 9"), low.replace("price = 7", "price = 10")
        pounds = "note: all prices are below 10 pence; are they meant as pounds?"
        cap = "note: cap.price in row 1 is {}, below the {} of the single in row {}"
        off_peak = SMALL.replace('"anytime"', '"off-peak"')
        zone_two, second = SMALL.replace("lo = 1\n", "lo = 2\n"), off_peak.partition("[[cap]]")
        dear = re.sub(r"^(peak|off_peak|price)( = )\d+", r"\1\g<2>7", SMALL, flags=re.M)
        for text, notes in ((SMALL, []), (moved, ["note: holidays belongs above the first [[..]], line 9"]),
                            (low, [pounds]), (nine, [pounds]), (ten, []), (dear, []),
                            (SMALL.replace("850", "350"), []), (SMALL.replace("850", "349"), [cap.format(349, 350, 2)]),
                            (SMALL.replace("850", "299"), [cap.format(299, 300, 1)]),
                            (off_peak.replace("850", "290"), []),
                            (off_peak.replace("850", "289"), [cap.format(289, 290, 2)]),
                            (SMALL.replace("850", "349").replace("hi = 2", "hi = 1"), []),
                            (zone_two.replace("850", "210"), []),
                            (zone_two.replace("850", "209"), [cap.format(209, 210, 3)]),
                            (SMALL + "".join(second[1:]).replace("850", "289"),
                             ["note: cap.price in row 2 is 289, below the 290 of the single in row 2"]),
                            (SMALL.replace("[[cap]]", "[[caps]]"), ["note: caps isn't known; is cap meant?"])):
            path, found = self.noted(text)
            with self.subTest(notes):
                self.assertEqual(found, notes)
                command = ["check", "--table", str(path)]
                plain, strict = run_whole(command), run_whole([*command, "--strict"])
                self.assertEqual((strict[0], strict[1:]), (1 if notes else 0, plain[1:]))

    def test_the_other_commands_are_silent_about_it(self) -> None:
        path = self.changed(("pair = [", "pairs = ["))
        self.assertEqual(run_whole(["replay", "--cards", "10", "--table", str(path)]), (0, b"", ""))
        server = self.start(self.serving(table=path))
        self.assertTrue(harness.first_line(self.errors(server)).startswith("listening "))

    def test_a_closed_standard_error_changes_nothing(self) -> None:
        path = self.changed(("pair = [", "pairs = ["))
        done = subprocess.run(["sh", "-c", f"exec {PROGRAM} check --table {path} 2>&-"], capture_output=True, text=True,
                              timeout=TIME)
        self.assertEqual((done.returncode, done.stdout), (0, self.report(path)))


class Fares(Told):
    """What a journey costs, by docs/reference/FARES.md and the example table."""

    def told(self, start: object, end: object, moment: str, path: Place = EXAMPLE) -> harness.Ran:
        return run_whole(["check", "--table", str(path), "--fare", str(start), str(end), moment])

    def test_a_journey_is_told_with_what_makes_its_price(self) -> None:
        rows = [(1, 3, "2025-01-07T08:30:00Z", 400, "zones", "1 3", "peak", "early", "8:30"),
                (3, 1, "2025-01-07T08:30:00Z", 400, "zones", "1 3", "peak", "early", "8:30"),
                (1, 3, "2025-01-07T10:00:00Z", 310, "zones", "1 3", "off-peak", "off", "10:00"),
                # A Saturday, and a holiday.
                (1, 3, "2025-01-11T08:30:00Z", 310, "zones", "1 3", "off-peak", "off", "8:30"),
                (1, 3, "2025-12-25T08:30:00Z", 310, "zones", "1 3", "off-peak", "off", "8:30"),
                # In the evening into zone 1, and out of it.
                (3, 1, "2025-01-07T17:05:00Z", 310, "zones", "1 3", "off-peak", "evening", "17:05"),
                (1, 3, "2025-01-07T17:05:00Z", 400, "zones", "1 3", "peak", "evening", "17:05"),
                # A named pair, either way.
                (2, 4, "2025-01-07T08:30:00Z", 230, "pair", "2 2", "peak", "early", "8:30"),
                (4, 2, "2025-01-07T12:00:00Z", 200, "pair", "2 2", "off-peak", "off", "12:00"),
                # A station of two zones, by the cheaper one.
                (5, 3, "2025-01-07T08:30:00Z", 210, "zones", "3 3", "peak", "early", "8:30"),
                # Summer time: the last second before 9:30, and 9:30.
                (1, 2, "2025-07-01T08:29:59Z", 350, "zones", "1 2", "peak", "early", "9:29"),
                (1, 2, "2025-07-01T08:30:00Z", 290, "zones", "1 2", "off-peak", "off", "9:30"),
                (1, 1, "2025-01-07T00:00:00Z", 250, "zones", "1 1", "off-peak", "off", "0:00")]
        for start, end, moment, price, by, zones, band, window, clock in rows:
            with self.subTest(start=start, end=end, moment=moment):
                lines = (f"charge {price}\nfare {price}\nby {by}\nzones {zones}\nband {band}\nwindow {window}\n"
                         f"clock {clock}\n")
                self.assertEqual(self.told(start, end, moment), (0, lines.encode(), ""))

    def test_a_cap_below_the_fare_is_the_charge(self) -> None:
        path = self.changed(("price = 1000", "price = 390"))
        for moment, first in (("2025-01-07T08:30:00Z", "charge 390\nfare 400\n"),
                              ("2025-01-07T10:00:00Z", "charge 310\nfare 310\n")):
            status, out, err = self.told(1, 3, moment, path)
            self.assertEqual((status, out.decode()[:len(first)], err), (0, first, ""))

    def test_a_journey_that_the_table_has_not_is_refused(self) -> None:
        for start, end, station in ((1, 9, 9), (9, 1, 9), (8, 9, 8)):
            self.assertEqual(self.told(start, end, "2025-01-07T08:30:00Z"), (1, b"", f"fault station {station}\n"))
        path = self.changed(("id = 3", "id = 65536"))
        self.assertEqual(self.told(1, 3, "2025-01-07T08:30:00Z", path),
                         (1, b"", "fault table 5 Range station.id 3\n"
                                  f"  {path}: line 12: 65536; a whole number from 1 to 65535\n"))

    def test_another_form_of_a_journey_is_a_wrong_command_line(self) -> None:
        for words in ((1, 3, "2025-01-07"), (1, 3, "2025-01-07T08:30:00"), (1, 3, "2025-01-07T24:00:00Z"),
                      (1, 3, "2025-02-29T08:30:00Z"), (1, 3, "1969-12-31T23:59:59Z"), (0, 3, "2025-01-07T08:30:00Z"),
                      (1, "+3", "2025-01-07T08:30:00Z"), (1, 65536, "2025-01-07T08:30:00Z"),
                      (1, 3, "2106-02-07T06:28:16Z")):
            self.assertEqual(self.told(*words)[:2], (2, b""), words)
        self.assertEqual(self.told(1, 3, "2106-02-07T06:28:15Z")[0], 0)


class Changes(Told):
    """What one table changes of another, by docs/reference/COMMANDS.md."""

    def compared(self, old: Place, new: Place) -> harness.Ran:
        return run_whole(["check", "--against", str(old), str(new)])

    def assert_compared(self, old: Place, new: Place, status: int, *lines: str) -> None:
        """A comparison writes these lines, and nothing else."""
        self.assertEqual(self.compared(old, new), (status, harness.lines(lines), ""))

    def test_each_place_that_differs_is_told(self) -> None:
        new = self.changed(("entry_minimum = 190", "entry_minimum = 195"), ("evening_rule = true", "evening_rule = false"),
                           ('name = "Birch"', 'name = "Beech"'),
                           ("high = 2, peak = 350, off_peak = 290", "high = 2, peak = 360, off_peak = 295"),
                           ("pair = [{from = 2, to = 4, lo = 2, hi = 2, peak = 230, off_peak = 200}]",
                            "pair = [{from = 4, to = 2, lo = 2, hi = 2, peak = 230, off_peak = 200, minutes = 30}, "
                            "{from = 3, to = 3, lo = 3, hi = 3, peak = 150, off_peak = 150}]"),
                           ('kind = "off-peak", price = 600', 'kind = "off-peak", price = 590'),
                           ("interchange = [{a = 1, b = 4, minutes = 10}]", ""),
                           ("2025-12-25", "2025-12-26"))
        self.assert_compared(EXAMPLE, new, 0, "entry_minimum: 190 -> 195", "evening_rule: true -> false",
                             'station 2: name "Birch", zones 2 -> name "Beech", zones 2',
                             "single of zones 1 to 2: peak 350, off_peak 290 -> peak 360, off_peak 295",
                             "pair of stations 2 and 4: lo 2, hi 2, peak 230, off_peak 200 -> "
                             "lo 2, hi 2, peak 230, off_peak 200, minutes 30",
                             "off-peak cap of zones 1 to 2: price 600 -> price 590",
                             "interchange of stations 1 and 4: minutes 10 -> none", "holiday 2025-12-25: yes -> none",
                             "pair of stations 3 and 3: none -> lo 3, hi 3, peak 150, off_peak 150",
                             "holiday 2025-12-26: none -> yes", "may revise")

    def test_a_holiday_that_is_listed_twice_has_one_line(self) -> None:
        new = self.changed(('["2025-12-25"]', '["2025-12-25", "2026-01-01", "2026-01-01"]'))
        self.assert_compared(EXAMPLE, new, 0, "holiday 2026-01-01: none -> yes", "may revise")
        self.assert_compared(new, EXAMPLE, 0, "holiday 2026-01-01: yes -> none", "may revise")

    def test_the_same_table_may_not_revise_itself(self) -> None:
        self.assert_compared(EXAMPLE, EXAMPLE, 1, "nothing changes", "may not revise: it is the same table")
        # Nor does a comment change anything, but the digest is another.
        self.assert_compared(EXAMPLE, self.write("other.toml", TABLE + "# another text\n"), 0, "nothing changes",
                             "may revise")

    def test_the_zone_and_the_stations_stay(self) -> None:
        new = self.changed(("M10.5.0", "M10.5.0/3"))
        self.assert_compared(EXAMPLE, new, 1, 'zone: "GMT0BST,M3.5.0/1,M10.5.0" -> "GMT0BST,M3.5.0/1,M10.5.0/3"',
                             "may not revise: it has another zone")
        small = self.write("small.toml", SMALL)
        status, out, err = self.compared(small, EXAMPLE)
        self.assertEqual((status, out.decode().split("\n")[-2], err), (1, "may not revise: it has other stations", ""))
        self.assertIn("station 3: none -> name \"Cedar\", zones 3\n", out.decode())

    def test_a_table_that_is_refused_is_told_with_its_file(self) -> None:
        bad = self.changed(("id = 3", "id = 65536"))
        for words in ((bad, EXAMPLE), (EXAMPLE, bad), (bad, self.folder / "none.toml")):
            self.assert_told(["check", "--against", *words], "fault table 5 Range station.id 3",
                             f"  {bad}: line 12: 65536; a whole number from 1 to 65535")
        self.assert_told(["check", "--against", EXAMPLE, self.folder / "none.toml"], "fault file",
                         f"  {self.folder / 'none.toml'}: no such file")


class Behind(Told):
    """Open slots behind a journal's end."""

    def journal_with(self, version: bytes, size: int, behind: Iterable[int], capacity: int = 9) -> bytes:
        """A journal of four touches, with slots of these marks behind that of its end, and a last one cut short."""
        journal = layout.journal_of(FOUR, capacity, 10, DIGEST, version)[:-1]
        return journal + b"".join(bytes([mark]) + bytes(size - 1) for mark in (0, *behind)) + b"\xa5"

    def test_a_server_tells_of_them_and_goes_on(self) -> None:
        # The last slot, which is cut short, counts where it is within the capacity.
        for behind, capacity, told in (([0, 0], 7, None), ([0, 0], 9, "note: 1 open slot behind the end\n"),
                                       ([0xa5, 0, 0xa5], 9, "note: 3 open slots behind the end\n"),
                                       ([0, 0xa5, 0xa5], 7, "note: 1 open slot behind the end\n"), ([0xa5], 4, None)):
            content = self.journal_with(SECOND, 64, behind, capacity)
            self.journal.write_bytes(content)
            with self.subTest(behind=behind, capacity=capacity):
                server = self.start(self.serving())
                if told:
                    self.assertEqual(self.errors(server).readline(), told)
                address = self.errors(server).readline().split()
                self.assertEqual(address[0], "listening")
                host, _, port = address[1].rpartition(":")
                with socket.create_connection((host, int(port)), TIME) as gate:
                    gate.sendall(b"\0")
                out, err = server.communicate(timeout=TIME)
                self.assertEqual((server.returncode, out.split("\n")[0], err), (0, "opened 4", ""))
                self.assertEqual(self.journal.read_bytes(), content)

    def test_a_strict_server_refuses_more_than_two(self) -> None:
        for behind, capacity, count in (([0xa5, 0, 0xa5], 9, 3), ([0xa5, 0xa5], 9, 3), ([0, 0xa5, 0xa5, 0xa5], 9, 3)):
            content = self.journal_with(SECOND, 64, behind, capacity)
            self.journal.write_bytes(content)
            with self.subTest(behind=behind):
                self.assert_told(self.strict(), f"fault behind {count}",
                                 f"  {self.journal}: answered touches may stand in them; keep a copy of the file, and "
                                 "compare it with the last one")
                self.assertEqual(self.journal.read_bytes(), content)
        # Two are what writes leave that crashes cut short.
        for behind, capacity, told in (([0xa5, 0xa5], 7, "note: 2 open slots behind the end\n"),
                                       ([0xa5], 6, "note: 1 open slot behind the end\n"), ([0], 6, None)):
            self.journal.write_bytes(self.journal_with(SECOND, 64, behind, capacity))
            with self.subTest(behind=behind):
                server = self.start(self.strict())
                if told:
                    self.assertEqual(self.errors(server).readline(), told)
                self.assertTrue(self.errors(server).readline().startswith("listening "))
                server.kill()
                server.wait(TIME)

    def test_a_strict_server_refuses_where_they_are_not_counted(self) -> None:
        content = self.journal_with(SECOND, 64, [0xa5, 0xa5])
        self.journal.write_bytes(content)
        # Two reads give the slots, up to the file's end. The one behind them counts: it fails here. Another server goes on,
        # here up to an address that is none.
        for words, said in (
                (self.strict(),
                 f"fault journal 2 Device\n  {self.journal}: the open slots behind its end can't be counted\n"),
                (self.serving(listen="nonsense"), "note: open slots behind the end can't be counted\nfault listen\n"
                                                  "  nonsense: not an address and a port\n")):
            self.assertEqual(self.failing("pread64", "EIO:when=4", self.journal, words), (1, "", said))
            self.assertEqual(self.journal.read_bytes(), content)

    def test_a_migration_tells_where_they_are_not_counted(self) -> None:
        old, new = self.folder / "old.journal", self.folder / "new.journal"
        content = self.journal_with(FIRST, 32, [0xa5, 0xa5])
        old.write_bytes(content)
        # The old file is opened to be carried over, and then to be counted: that fails here.
        self.assertEqual(self.failing("openat", "EMFILE:when=2", old, self.migrating(old, new)),
                         (0, "migrated 4\n", "note: open slots behind the end can't be counted\n"))
        self.assertEqual(old.read_bytes(), content)
        self.assertEqual(new.read_bytes(), layout.journal_of(FOUR, 9, 10, DIGEST))

    def test_a_migration_tells_of_them(self) -> None:
        old, new = self.folder / "old.journal", self.folder / "new.journal"
        for behind, told in (([0], "note: 1 open slot behind the end\n"),
                             ([0xa5, 0, 0xa5], "note: 3 open slots behind the end\n")):
            old.write_bytes(self.journal_with(FIRST, 32, behind))
            new.unlink(missing_ok=True)
            with self.subTest(behind=behind):
                words = [str(word) for word in self.migrating(old, new)]
                self.assertEqual(run_whole(words), (0, b"migrated 4\n", told))
                self.assertEqual(new.read_bytes(), layout.journal_of(FOUR, 9, 10, DIGEST))

    def test_a_journal_that_is_refused_is_told_with_its_file(self) -> None:
        sound = self.journal_with(SECOND, 64, [0xa5])
        commands: list[list[Place]] = [
            self.serving(), ["verify", "--journal", self.journal],
            *(self.by_table(name, EXAMPLE, self.journal) for name in ("history", "balances"))]
        for content, fault in ((bytes(65), "3 NotAJournal"), (sound[:8] + b"9" + sound[9:], "4 WrongVersion"),
                               (sound[:9] + bytes(4) + sound[13:], "10 BadLimit"),
                               (sound.replace(FOUR[0][2:], bytes(len(FOUR[0]) - 2)), "7 Damaged 0")):
            self.journal.write_bytes(content)
            for words in commands:
                with self.subTest(fault, command=words[0]):
                    self.assert_told(words, f"fault journal {fault}", f"  {self.journal}")

    def test_of_many_slots_each_is_counted(self) -> None:
        # As many as a journal may have: each slot behind the first touch's is open but the end's.
        journal = layout.journal_of(FOUR[:1], 1_000_000, 10, DIGEST)[:-1]
        self.journal.write_bytes(journal + bytes(64) + (b"\xa5" + bytes(63)) * 999_998)
        server = self.start(self.serving())
        self.assertEqual(self.errors(server).readline(), "note: 999998 open slots behind the end\n")
