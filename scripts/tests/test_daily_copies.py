"""Tests bovtrila-keep-copies with the built program: copies of a running server's journal, of one whose bytes were
changed, and of a disk that can't be written.
"""
import hashlib
import os
import math
import pathlib
import pwd
import re
import shutil
import signal
import subprocess
import tempfile
import threading
import time
import unittest

import harness
import killing
from bovtrila import codec, copies, layout, model
from harness import EXAMPLE, PROGRAM, REVISED, TIME, TOP
from running import Server

SCRIPT = TOP / "bin" / "bovtrila-keep-copies"
DIGEST = model.Table(EXAMPLE.read_text()).digest
DAY = 86_400


def paid(number: int) -> bytes:
    return codec.touch(codec.TOP_UP, 7, number, 1, 1, 1_736_150_400 + number)


class Copies(harness.ProgramTest):
    """Each test has a station's folder, with a journal of some touches in it and room for a hundred."""

    def setUp(self) -> None:
        room = tempfile.TemporaryDirectory(prefix="daily-copies-")
        self.addCleanup(room.cleanup)
        self.folder, self.user = pathlib.Path(room.name), pwd.getpwuid(os.geteuid()).pw_name
        self.config, self.copies = self.folder / "serve.conf", self.folder / "copies"
        self.journal = self.folder / "journal"
        shutil.copy(EXAMPLE, self.folder / "first.toml")
        self.put(4)
        self.name("journal")

    def name(self, journal: str, cards: int = 10) -> None:
        self.config.write_text(f'SERVE="--table first.toml --journal {journal} --cards {cards} --capacity 100 '
                               '--listen 127.0.0.1:1 --lines 1"\n')

    def put(self, touches: int, behind: int = 0) -> None:
        """Writes a journal of so many touches with its whole size, and with open slots behind the end."""
        whole = layout.journal_of([paid(number) for number in range(touches)], 100, 10, DIGEST)
        content = bytearray(whole.ljust(6465, b"\0"))
        for slot in range(touches + 1, touches + 1 + behind):
            content[64 + 64 * slot] = layout.MARK
        self.journal.write_bytes(content)

    def words(self, *more: object) -> list[str]:
        return [str(word) for word in ("--config", self.config, "--folder", self.folder, "--program", PROGRAM,
                                       "--user", self.user, *more)]

    def keep(self, *more: object) -> tuple[int, str, str]:
        """Status, standard output and standard error of a run. The next one is a second later at least."""
        done = subprocess.run([SCRIPT, *self.words(*more)], capture_output=True, text=True, timeout=TIME)
        self.assertNotIn("Traceback", done.stderr)
        time.sleep(1)
        return done.returncode, done.stdout, done.stderr

    def kept(self, ending: str = "") -> list[pathlib.Path]:
        return [path for _, path in copies.kept(self.copies, ending)]

    def age(self, path: pathlib.Path, days: float) -> pathlib.Path:
        """Lets a copy be so many days old."""
        moment = copies.text_of(time.time() - days * DAY)
        return path.rename(path.with_name(f"{copies.journal_of(path)}-{moment}"))

    def age_seals(self, days: float) -> None:
        """Lets the seals be so many days older than they are."""
        file = self.copies / "seals"
        file.write_text("".join(f"{copies.text_of(copies.moment_of(line.split()[0]) - days * DAY)} "
                                f"{line.partition(' ')[2]}\n" for line in self.seals()))

    def seals(self) -> list[str]:
        return (self.copies / "seals").read_text().splitlines()

    def test_a_copy_is_made_verified_and_sealed(self) -> None:
        status, out, err = self.keep()
        self.assertEqual((status, err), (0, ""))
        copy, = self.kept()
        self.assertEqual(copy.read_bytes(), self.journal.read_bytes())
        digest = hashlib.sha256(self.journal.read_bytes()[: 64 + 4 * 64]).hexdigest()
        moment = copy.name.partition("-")[2]
        self.assertEqual(self.seals(), [f"{moment} {copy.name} sealed 4 {digest}"])
        self.assertRegex(out, re.compile(rf"^no seal of journal stands in {self.copies}/seals: this is the first\n"
                                         rf"copied {copy.name}: 4 touches, \d+ bytes on the disk\nsealed 4 {digest}\n$"))
        # The journal has grown by the next day.
        self.put(9)
        status, out, err = self.keep()
        self.assertEqual((status, err), (0, ""))
        self.assertIn(f"held against the seal of {moment}: its 4 touches are as they were\n", out)
        self.assertIn("\nsealed 9 ", out)
        self.assertEqual(([line.split()[3] for line in self.seals()], len(self.kept())), (["4", "9"], 2))
        self.assertEqual(copy.stat().st_mode & 0o007, 0)

    def test_a_changed_byte_is_a_fault(self) -> None:
        self.assertEqual(self.keep()[0], 0)
        sealed = self.seals()
        # Of the header behind what a server reads, of a sealed touch's pence, and of the bytes that no touch needs.
        for place in (60, 64 + 2 * 64 + 15, 64 + 3 * 64 + 60):
            with self.subTest(place):
                self.put(9)
                content = bytearray(self.journal.read_bytes())
                content[place] ^= 1
                self.journal.write_bytes(content)
                before, refused = self.kept(), self.kept(".refused")
                status, _, err = self.keep("--days", "1")
                first, second = err.splitlines()
                self.assertEqual((status, first), (1, "fault copy 5 Differs"))
                last = self.kept(".refused")[-1]
                self.assertRegex(second, rf"^  {last}: fault seal 2 Changed.*; it was sealed at \S+ with 4 touches$")
                # The copy stays as it is, under a name of its own, and nothing is sealed.
                self.assertEqual((last.read_bytes(), len(self.kept(".refused"))), (bytes(content), len(refused) + 1))
                self.assertRegex(last.name, r"^journal-\d{8}T\d{6}Z\.refused$")
                self.assertEqual((self.seals(), self.kept()), (sealed, before))
        # A byte behind the sealed touches is no fault: it may be a touch to come.
        self.put(9)
        self.assertEqual(self.keep()[0], 0)

    def test_touches_that_are_missing_are_a_fault(self) -> None:
        self.assertEqual(self.keep()[0], 0)
        self.put(3)
        status, _, err = self.keep()
        self.assertEqual((status, err.splitlines()[0]), (1, "fault copy 5 Differs"))
        self.assertIn("fault seal 1 Shorter", err)
        self.assertEqual(len(self.seals()), 1)

    def test_a_journal_that_is_none_is_a_fault(self) -> None:
        for content, said in ((b"no journal", "fault journal 3 NotAJournal"),
                              (layout.journal_of([paid(1), paid(1)], 100, 10, DIGEST), "fault journal 7 Damaged 1"),
                              (layout.journal_of([], 100, 10, bytes(32)), "fault journal 5 WrongTable")):
            self.journal.write_bytes(content)
            status, _, err = self.keep()
            self.assertEqual((status, err.splitlines()[0], said in err), (1, "fault copy 2 Unsound", True), err)
            self.assertFalse((self.copies / "seals").exists())
        self.put(4)
        self.name("journal", cards=11)
        status, _, err = self.keep()
        self.assertEqual((status, err.splitlines()[0]), (1, "fault copy 4 Cards 10"))
        self.name("other")
        status, _, err = self.keep()
        self.assertEqual(status, 1)
        self.assertEqual(err, f"fault copy 1 Unread\n  {self.folder}/other: No such file or directory\n")

    def test_marks_behind_the_end_are_a_fault(self) -> None:
        self.put(4, behind=3)
        status, _, err = self.keep()
        self.assertEqual((status, err.splitlines()[0]), (1, "fault copy 3 Behind 3"))
        # Two may be what crashes have left.
        for behind in (1, 2):
            self.put(4, behind=behind)
            self.assertEqual(self.keep()[0], 0)

    def test_an_unsound_copy_is_never_the_newest(self) -> None:
        """By its name, and so by its age: what is refused is no copy."""
        self.journal.write_bytes(b"no journal")
        self.assertEqual(self.keep()[0], 1)
        self.assertEqual((self.kept(), len(self.kept(".refused"))), ([], 1))
        self.assertEqual(copies.ages(self.copies), (math.inf, math.inf))
        # The good ones stay, however many were refused since.
        self.put(4)
        self.assertEqual(self.keep()[0], 0)
        good = self.age(self.kept()[0], 20)
        for _ in range(3):
            self.journal.write_bytes(b"no journal")
            self.assertEqual(self.keep("--days", "10", "--keep", "1")[0], 1)
        self.assertEqual(self.kept(), [good])
        self.assertEqual(round(copies.ages(self.copies)[0] / DAY), 20)

    def test_a_clock_that_is_ahead_takes_no_copy(self) -> None:
        """Seven copies of seven nights, and a clock that shows 400 days more: all seven stay."""
        self.assertEqual(self.keep()[0], 0)
        first, = self.kept()
        for days in range(401, 407):
            shutil.copy(first, self.age(pathlib.Path(shutil.copy(first, first.with_name(f"{first.name[:-5]}0000Z"))), days))
        self.age(first, 400)
        self.age_seals(400)
        self.assertEqual(len(self.kept()), 7)
        before, sealed = self.kept(), self.seals()
        status, out, err = self.keep()
        self.assertEqual((status, out, err.splitlines()[0]), (1, "", "fault copy 6 Clock"))
        self.assertRegex(err.splitlines()[1], rf"^  {self.copies}/seals: the last seal is of \S+, and this machine's clock "
                                              r"shows \S+, 400\.0 days later; nothing was copied\. Correct the clock, or "
                                              r"say --far where it is right$")
        self.assertEqual((self.kept(), self.seals(), self.kept(".refused")), (before, sealed, []))
        # A clock that is right goes on, and the newest seven stay whatever their age.
        status, out, _ = self.keep("--far")
        self.assertEqual((status, self.kept()[:-1]), (0, before[1:]))
        self.assertIn(f"removed {before[0].name}\n", out)
        self.assertEqual(self.keep("--keep", "3", "--days", "1")[0], 0)
        self.assertEqual(len(self.kept()), 3)

    def test_a_clock_that_was_ahead_is_told(self) -> None:
        """Two hours and a day: the copy of that moment is none of the newest, and no age is below 0."""
        self.assertEqual(self.keep()[0], 0)
        first, = self.kept()
        ahead = self.age(pathlib.Path(shutil.copy(first, first.with_name(f"{first.name[:-5]}0000Z"))), -1)
        self.age_seals(-1)
        made, sealed = copies.ages(self.copies)
        self.assertTrue(0 <= made < 60 and sealed == math.inf, (made, sealed))
        status, _, err = self.keep()
        self.assertEqual((status, err.splitlines()[0], " days earlier; " in err), (1, "fault copy 6 Clock", True))
        first = self.age(first, 50)
        self.assertEqual(self.keep("--far", "--keep", "1")[0], 0)
        self.assertEqual((first.exists(), ahead.exists(), len(self.kept())), (False, True, 2))
        self.assertLess(copies.ages(self.copies)[1], 60)
        # Within an hour it is a clock that was put right.
        self.age_seals(-0.02)
        self.assertEqual(self.keep()[0], 0)

    def test_seals_that_cannot_be_read_are_no_first_time(self) -> None:
        self.assertEqual(self.keep()[0], 0)
        file = self.copies / "seals"
        sealed, kept = file.read_text(), self.kept()
        for content, said in ((sealed + "a line\n", "line 2 is no seal"), (sealed[:-2] + "\n", "line 1 is no seal"),
                              (sealed.replace("T", "T9"), "line 1 is no seal"), (None, "Is a directory")):
            file.unlink()
            if content is None:
                file.mkdir()
            else:
                file.write_text(content)
            status, out, err = self.keep()
            self.assertEqual((status, out, f"keep-copies: {file}: {said}" in err), (1, "", True), err)
            self.assertEqual((self.kept(), copies.ages(self.copies)[1]), (kept, math.inf))
        file.rmdir()
        self.assertIn("this is the first\n", self.keep()[1])

    @unittest.skipIf(os.geteuid(), "copies by root: this isn't root")
    def test_root_leaves_all_to_the_servers_user(self) -> None:
        """A run by root, and one by the server's user behind it, as by the timer."""
        user = pwd.getpwnam("nobody")
        shutil.chown(self.folder, user.pw_uid, user.pw_gid)
        # What a run by root has left, as before this.
        self.assertEqual(self.keep("--user", "root")[0], 0)
        os.chmod(self.copies, 0o777)
        self.user = "nobody"
        status, out, err = self.keep()
        self.assertEqual((status, err, "held against the seal of " in out), (0, "", True))
        self.assertEqual({path.stat().st_uid for path in self.copies.iterdir()}, {user.pw_uid})
        done = subprocess.run(["/usr/bin/python3", SCRIPT, *self.words()], user="nobody", group=user.pw_gid,
                              extra_groups=[], timeout=TIME, capture_output=True, text=True)
        self.assertEqual((done.returncode, done.stderr, "held against the seal of " in done.stdout), (0, "", True))
        self.assertEqual(len(self.seals()), 3)
        # A folder that it makes is the user's, and one of root's is told.
        self.assertEqual(self.keep("--to", self.folder / "more" / "copies")[0], 0)
        self.assertEqual((self.folder / "more" / "copies" / "seals").stat().st_uid, user.pw_uid)
        roots = self.folder / "of" / "root"
        roots.mkdir(parents=True)
        status, _, err = self.keep("--to", roots)
        self.assertEqual((status, err), (1, f"keep-copies: {roots}: the user nobody may not write there: chown nobody: "
                                            f"{roots}\n"))
        # What is no file of root's in that folder isn't given away.
        os.symlink("/etc/hostname", self.copies / "link")
        os.link(self.config, self.copies / "hard")
        self.assertEqual(self.keep()[0], 0)
        self.assertEqual((os.stat("/etc/hostname").st_uid, self.config.stat().st_uid), (0, 0))

    def test_old_copies_go_and_the_newest_stays(self) -> None:
        self.assertEqual(self.keep()[0], 0)
        old = self.age(self.kept()[0], 40)
        self.assertEqual(self.keep("--keep", "1")[0], 0)
        self.assertFalse(old.exists())
        first, = self.kept()
        # Each journal's newest copy stays, however old; the last seal is of the journal's own copies.
        first = self.age(first, 50)
        other = shutil.copy(first, first.with_name(first.name.replace("journal", "older.journal")))
        letter = self.copies / "a-letter"
        letter.touch()
        self.put(3)
        status, _, _ = self.keep("--days", "45", "--keep", "1")
        # It differs, so nothing goes.
        self.assertEqual((status, first.exists(), other.exists()), (1, True, True))
        self.put(5)
        status, out, _ = self.keep("--days", "45", "--keep", "1")
        self.assertEqual((status, first.exists(), other.exists(), letter.exists()), (0, False, True, True))
        self.assertIn(f"removed {first.name}\n", out)
        self.assertEqual(len(self.seals()), 3)

    def test_a_next_journal_has_seals_of_its_own(self) -> None:
        self.assertEqual(self.keep()[0], 0)
        self.journal.rename(self.folder / "old.journal")
        self.put(1)
        self.journal.rename(self.folder / "next.journal")
        self.name("next.journal")
        for wanted in ("no seal of next.journal stands in ", "its 1 touches are as they were"):
            status, out, err = self.keep()
            self.assertEqual((status, err, wanted in out), (0, "", True))

    def test_copies_of_a_running_server(self) -> None:
        """While touches come all the time, each copy is sound, and begins with the one before it."""
        (self.folder / "journal").unlink()
        server = Server(self.folder, connections=None, capacity=100_000, table=self.folder / "first.toml")
        self.addCleanup(server.kill)
        self.name("journal")
        ended = threading.Event()
        sent: list[None] = []

        def touches() -> None:
            with server.connect() as gate:
                while not ended.is_set():
                    gate.ask(paid(len(sent)))
                    sent.append(None)

        thread = threading.Thread(target=touches)
        thread.start()
        try:
            runs = []
            for _ in range(5):
                # The last copy may have a touch whose answer was on its way. However slow the disk is, a second one follows.
                last = len(sent)
                harness.until(lambda: len(sent) > last + 1)
                count = len(sent)
                runs.append((*self.keep(), count))
        finally:
            ended.set()
            thread.join()
        before = 0
        for status, out, err, count in runs:
            self.assertEqual((status, err), (0, ""))
            [digits] = re.findall(r": (\d+) touches", out)
            copied = int(digits)
            # What was answered before the copy began is in it.
            self.assertGreaterEqual(copied, count)
            self.assertGreater(copied, before)
            before = copied
        contents = [path.read_bytes() for path in self.kept()]
        for earlier, later in zip(contents, contents[1:]):
            size = 64 + 64 * len(model.journal(earlier, model.Table(EXAMPLE.read_text()), 10)[0])
            self.assertEqual(later[:size], earlier[:size])

    def test_zeros_take_no_room(self) -> None:
        content = layout.journal_of([paid(0)], 1_000_000, 10, DIGEST)
        with open(self.journal, "wb") as file:
            file.write(content)
            file.truncate(65 + 64_000_000)
        self.assertEqual(self.keep()[0], 0)
        copy, = self.kept()
        self.assertEqual(copy.stat().st_size, 65 + 64_000_000)
        self.assertLess(512 * copy.stat().st_blocks, 200_000)
        self.assertTrue(copy.read_bytes().startswith(content))

    def test_a_run_that_was_killed_is_made_whole_by_the_next(self) -> None:
        self.assertEqual(self.keep()[0], 0)
        for place in range(1, 60):
            self.put(4 + place)
            done = subprocess.run(killing.words(place, SCRIPT, *self.words()), capture_output=True, text=True,
                                  timeout=TIME)
            if done.returncode == 0:
                break
            with self.subTest(place):
                self.assertEqual(done.returncode, -signal.SIGKILL, done.stderr)
                status, _, err = self.keep()
                self.assertEqual((status, err), (0, ""))
                self.assertEqual(self.seals()[-1].split()[3], str(4 + place))
        self.assertGreater(place, 5)
        for line in self.seals():
            self.assertRegex(line, r"^\d{8}T\d{6}Z journal-\d{8}T\d{6}Z sealed \d+ [0-9a-f]{64}$")
        self.assertEqual([name for name in os.listdir(self.copies) if name.startswith(".") or name.endswith(".new")],
                         [])

    def test_two_runs_at_once_are_one(self) -> None:
        runs = [subprocess.Popen([SCRIPT, *self.words()], stdout=subprocess.DEVNULL, stderr=subprocess.PIPE, text=True)
                for _ in range(4)]
        for run in runs:
            err = run.communicate(timeout=TIME)[1]
            self.assertTrue((run.returncode, err) == (0, "") or "another run makes a copy there" in err, err)
        self.assertEqual(self.keep()[0], 0)

    def test_a_folder_that_cannot_be_written_is_told(self) -> None:
        status, _, err = self.keep("--to", EXAMPLE / "copies")
        self.assertEqual((status, "Traceback" in err), (1, False))
        self.assertIn("Not a directory", err)
        self.assertEqual(self.keep("--days", "0")[0], 2)

    def test_tables_of_revisions_are_looked_at(self) -> None:
        shutil.copy(REVISED, self.folder / "prices.toml")
        digest = model.Table(REVISED.read_text()).digest
        revised = codec.touch(codec.REVISE, 65_535, 20_095, 0, digest, 20_095, 0)
        self.journal.write_bytes(layout.journal_of([revised], 100, 10, DIGEST))
        status, _, err = self.keep()
        self.assertEqual((status, "fault journal 13 MissingTable 0" in err), (1, True), err)
        self.config.write_text(self.config.read_text().replace('lines 1"', 'lines 1 prices.toml"'))
        self.assertEqual(self.keep()[0], 0)
