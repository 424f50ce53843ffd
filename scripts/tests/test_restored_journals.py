"""Tests bovtrila-restore with the built program: a copy in place of a journal that is damaged, gone or sound, with
gates' files beside it; a kill at each of its calls that change something with another start; and what it refuses and
undoes.
"""
import hashlib
import os
import pathlib
import pwd
import shutil
import signal
import struct
import subprocess
import tempfile
import time
from collections.abc import Iterable

import harness
import killing
from bovtrila import codec, copies, layout, model, serving
from harness import BIN, EXAMPLE, PROGRAM, REVISED, TIME

SCRIPT, KEEP, START = (BIN / f"bovtrila-{name}" for name in ("restore", "keep-copies", "start"))
DIGEST = model.Table(EXAMPLE.read_text()).digest
USER = pwd.getpwuid(os.geteuid()).pw_name
CAPACITY = 500
# A whole journal of so many touches (docs/reference/JOURNAL.md, "The format").
SIZE = 65 + 64 * CAPACITY


def paid(number: int, card: int = 1) -> bytes:
    return codec.touch(codec.TOP_UP, 7, number, card, 1, 1_736_150_400 + number)


def touches_of(count: int) -> list[bytes]:
    """An issue of card 1, and top-ups of a penny each: numbers 1, 2 and so on of gate 7."""
    return [codec.touch(codec.ISSUE, 7, 1, 1, 1_736_150_400), *(paid(number) for number in range(2, count + 1))]


def journal_of(count: int, cards: int = 10, capacity: int = CAPACITY, digest: bytes = DIGEST) -> bytes:
    return layout.journal_of(touches_of(count), capacity, cards, digest).ljust(65 + 64 * capacity, b"\0")


def damaged(count: int, place: int) -> bytes:
    """A journal whose slot at a place has a kind that no touch has."""
    content = bytearray(journal_of(count))
    content[65 + 64 * place] = 0xEE
    return bytes(content)


class Station:
    """A station in a folder: its journal, a copy of six touches with its seal, and how its server is started."""

    def __init__(self, room: pathlib.Path) -> None:
        self.room, self.folder, self.config, self.pid = room, room / "lib", room / "serve.conf", room / "pid"
        self.folder.mkdir()
        self.journal, self.kept = self.folder / "station.journal", self.folder / "copies"
        for table in (EXAMPLE, REVISED):
            shutil.copy(table, self.folder)
        self.listen = f"127.0.0.1:{harness.free_port()}"
        self.config.write_text(f"table = {EXAMPLE.name}\njournal = station.journal\ncards = 10\ncapacity = {CAPACITY}\n"
                               f"listen = {self.listen}\nlines = 4\nstrict = yes\nrevised = {REVISED.name}\n")
        self.journal.write_bytes(journal_of(6))
        self.common = [str(word) for word in ("--folder", self.folder, "--config", self.config, "--program", PROGRAM,
                                              "--user", USER)]
        subprocess.run([KEEP, *self.common], check=True, stdout=subprocess.DEVNULL)
        (_, self.copy), = copies.kept(self.kept)
        self.starter = room / "start"
        self.starter.write_text(f"exec >/dev/null 2>&1 </dev/null\nsetsid {START} {' '.join(self.common)} &\n"
                                f"echo $! >{self.pid}\n")
        self.stopper = f"test ! -e {self.pid} || kill $(cat {self.pid}) 2>/dev/null; rm -f {self.pid}"
        self.words = [*self.common, "--stop", self.stopper, "--start", f"sh {self.starter}"]

    def start(self) -> None:
        subprocess.run(["sh", self.starter], check=True)
        limit = time.monotonic() + TIME
        while serving.front_at(self.listen) is None and time.monotonic() < limit:
            time.sleep(0.02)

    def stop(self) -> None:
        subprocess.run(["sh", "-c", self.stopper])

    def restore(self, *more: object, copy: pathlib.Path | None = None, words: Iterable[object] | None = None) -> tuple[int,
                                                                                                                       str,
                                                                                                                       str]:
        """Status, standard output and standard error of a run."""
        done = subprocess.run([str(word) for word in (SCRIPT, copy or self.copy, *(words or self.words), *more)],
                              capture_output=True, text=True, timeout=3 * TIME)
        if "Traceback" in done.stderr:
            raise AssertionError(done.stderr)
        return done.returncode, done.stdout, done.stderr

    def aside(self) -> list[pathlib.Path]:
        """The old journals that were put aside."""
        return sorted(self.folder.glob("station.journal.before-*"))

    def tree(self) -> dict[pathlib.Path, bytes]:
        """Each file of the station with its bytes."""
        return {path: path.read_bytes() for path in sorted(self.folder.rglob("*")) if path.is_file()}


class Restores(harness.ProgramTest):
    def setUp(self) -> None:
        room = tempfile.TemporaryDirectory(prefix="restored-journals-")
        self.addCleanup(room.cleanup)
        self.room, self.made = pathlib.Path(room.name), 0
        self.station = self.another()

    def another(self) -> Station:
        self.made += 1
        (self.room / str(self.made)).mkdir()
        station = Station(self.room / str(self.made))
        self.addCleanup(station.stop)
        return station

    def assert_restored(self, station: Station, old: bytes | None, touches: int = 6) -> None:
        """The server answers on the copy, in a file of a journal's owner, mode and whole size; the old one is aside."""
        self.assertEqual(serving.front_at(station.listen), touches)
        self.assertEqual(station.journal.read_bytes(), journal_of(touches))
        status = station.journal.stat()
        self.assertEqual((status.st_size, status.st_mode & 0o777, status.st_uid), (SIZE, 0o640, os.geteuid()))
        # Its room on the disk is there, and not only promised.
        self.assertGreaterEqual(512 * status.st_blocks, SIZE)
        self.assertEqual([path.read_bytes() for path in station.aside()], [] if old is None else [old])
        self.assertEqual([path.name for path in station.folder.iterdir() if path.name.startswith("restore-")], [])

    def test_a_copy_takes_the_place_of_a_damaged_journal(self) -> None:
        station, old = self.station, damaged(9, 7)
        station.journal.write_bytes(old)
        status, out, err = station.restore()
        self.assertEqual((status, err), (0, ""))
        self.assert_restored(station, old)
        digest = hashlib.sha256(journal_of(6)[:64 + 6 * 64]).hexdigest()
        for line in (f"step 1 of 6, the copy: {station.copy.name} is sound, as it was sealed ({station.kept}/seals): 6 "
                     f"touches, {SIZE} bytes\n", "          station.journal isn't sound: fault journal 7 Damaged 7\n",
                     f"step 4 of 6, the journal: the old one is {station.aside()[0]}\n",
                     f"the server at {station.listen} answers, with 6 touches\n", f"restored 6 {digest}\n"):
            self.assertIn(line, out)
        # The next copy goes on from there, though nine touches were sealed before.
        self.assertRegex((station.kept / "seals").read_text().splitlines()[-1],
                         rf"^\d{{8}}T\d{{6}}Z station\.journal-\d{{8}}T\d{{6}}Z restored 6 {digest}$")
        time.sleep(1)
        done = subprocess.run([KEEP, *station.common], capture_output=True, text=True)
        self.assertEqual((done.returncode, "its 6 touches are as they were" in done.stdout), (0, True), done.stderr)
        # The same command once more finds nothing to do.
        before = station.tree()
        status, out, err = station.restore()
        self.assertEqual((status, err, station.tree()), (0, "", before))
        self.assertIn("is sound, with 6 touches; the first 6 are those of the copy: nothing has to be restored\n", out)

    def test_a_journal_that_is_gone(self) -> None:
        """As on a new disk, with the tables and the copies on it."""
        station = self.station
        station.journal.unlink()
        status, out, err = station.restore()
        self.assertEqual((status, err, "there was no old one\n" in out), (0, "", True))
        self.assert_restored(station, None)

    def test_the_seals_go_on_where_the_copies_were_lost_too(self) -> None:
        """On a new disk, with the copy and its seals in another folder: the next copy is compared with the copy."""
        station, fetched = self.station, self.room / "fetched"
        station.kept.rename(fetched)
        station.journal.unlink()
        status, out, err = station.restore(copy=fetched / station.copy.name)
        self.assertEqual((status, err, f"as it was sealed ({fetched}/seals)" in out), (0, "", True))
        self.assertRegex(out, f"step 6 of 6, the seals: {station.kept}/seals has the line \\S+ \\S+ restored 6 ")
        done = subprocess.run([KEEP, *station.common], capture_output=True, text=True)
        self.assertEqual((done.returncode, done.stderr, "its 6 touches are as they were" in done.stdout), (0, "", True))

    def test_a_sealed_number_above_the_copy_is_no_fault_behind_it(self) -> None:
        """Nine touches were sealed after the copy of six; the next copies go on from the six."""
        station = self.station
        station.journal.write_bytes(journal_of(9))
        time.sleep(1)
        subprocess.run([KEEP, *station.common], check=True, stdout=subprocess.DEVNULL)
        station.journal.write_bytes(damaged(9, 2))
        self.assertEqual(station.restore()[0], 0)
        time.sleep(1)
        done = subprocess.run([KEEP, *station.common], capture_output=True, text=True)
        self.assertEqual((done.returncode, done.stderr, "its 6 touches are as they were" in done.stdout), (0, "", True))

    def test_a_sound_journal_is_not_replaced_unasked(self) -> None:
        station = self.station
        for content, said in ((journal_of(9), None), (layout.journal_of([*touches_of(5), paid(7), paid(8)], CAPACITY, 10,
                                                                        DIGEST).ljust(SIZE, b"\0"), "the first 5 are")):
            station.journal.write_bytes(content)
            station.start()
            before = station.tree()
            status, out, err = station.restore()
            self.assertEqual(station.tree(), before)
            # The server ran on.
            self.assertTrue(serving.has_server(station.journal))
            if said is None:
                self.assertEqual((status, err), (0, ""))
                self.assertIn("with 9 touches; the first 6 are those of the copy: nothing has to be restored\n", out)
            else:
                self.assertEqual(status, 1)
                self.assertIn(f"with 7 touches; {said} those of the copy. To replace it all the same, and lose the 2 "
                              "others, say --discard\n", err)
            status, out, err = station.restore("--discard")
            self.assertEqual((status, err, " are discarded\n" in out), (0, "", True))
            self.assert_restored(station, content)
            station.stop()
            for path in station.aside():
                path.unlink()

    def test_a_copy_of_another_journal_is_refused(self) -> None:
        """As of the full journal that this one followed: by its name, or by its first touch where its name says none."""
        station = self.station
        old, unnamed = station.kept / "old.journal-20250101T033000Z", self.room / "other"
        content = layout.journal_of([codec.touch(codec.ISSUE, 7, 1, 1, 1_700_000_000)], CAPACITY, 10, DIGEST)
        for path in (old, unnamed):
            path.write_bytes(content.ljust(SIZE, b"\0"))
        for journal in (journal_of(6), damaged(9, 7), None):
            station.journal.unlink(missing_ok=True)
            if journal is not None:
                station.journal.write_bytes(journal)
            self.refused(station, f"{old}: this is a copy of old.journal, and {station.config} names station.journal; name "
                         "a copy of station.journal", "--discard", copy=old)
        station.journal.write_bytes(journal_of(6))
        self.refused(station, f"{unnamed}: this is a copy of another journal: its first touch isn't that of "
                     f"{station.journal}, which is sound and has 6 touches", "--discard", copy=unnamed)

    def test_a_journal_that_was_put_aside_comes_back(self) -> None:
        station = self.station
        station.journal.write_bytes(journal_of(9))
        self.assertEqual(station.restore("--discard")[0], 0)
        aside, = station.aside()
        status, _, err = station.restore("--discard", copy=aside)
        self.assertEqual((status, err, serving.front_at(station.listen)), (0, "", 9))

    def test_a_revision_that_the_copy_lacks_is_named(self) -> None:
        station, day = self.station, 20_200
        revision = codec.touch(codec.REVISE, 65_535, day, 0, model.Table(REVISED.read_text()).digest, day, 0)
        revised = layout.journal_of([*touches_of(6), revision], CAPACITY, 10, DIGEST).ljust(SIZE, b"\0")
        lacks = (f"The copy has no revision to {REVISED.name}, which {station.config} names: these fares don't count.\n"
                 "Revise the fares again, from a fare day without touches: bovtrila-new-fares "
                 f"{station.folder / REVISED.name} --from DATE\n")
        station.journal.write_bytes(damaged(9, 7))
        status, out, err = station.restore("--dry-run")
        self.assertEqual((status, err, f"{lacks}Nothing was changed.\n" in out), (0, "", True))
        status, out, err = station.restore()
        self.assertEqual((status, err, out.endswith(lacks)), (0, "", True))
        # A copy that has the revision.
        station.stop()
        copy = self.room / "revised"
        copy.write_bytes(revised)
        station.journal.unlink()
        status, out, err = station.restore(copy=copy)
        self.assertEqual((status, err, "no revision to" in out), (0, "", False))

    def test_a_journal_that_lost_its_last_touches(self) -> None:
        """As by a mark of slot 4 that is closed: the journal is sound, and ends there."""
        station, content = self.station, bytearray(journal_of(6))
        content[64 + 4 * 64] = 0
        station.journal.write_bytes(content)
        has = "station.journal is sound; the copy has all 4 touches of the journal and 2 more"
        self.refused(station, f"{has}. To replace the journal, say --discard: none of its touches is lost\n")
        status, out, err = station.restore("--discard")
        self.assertEqual((status, err, f"          {has}; none is lost\n" in out), (0, "", True))
        self.assert_restored(station, bytes(content))

    def test_a_dry_run_changes_nothing(self) -> None:
        station, old = self.station, damaged(9, 7)
        station.journal.write_bytes(old)
        before = station.tree()
        status, out, err = station.restore("--dry-run")
        self.assertEqual((status, err, station.tree()), (0, "", before))
        for line in ("is sound, as it was sealed", "station.journal isn't sound: fault journal 7 Damaged 7\n",
                     f"step 3 of 6, the server's end: would run '{station.stopper}'\n", "Nothing was changed.\n"):
            self.assertIn(line, out)
        self.assertIsNone(serving.front_at(station.listen))

    def test_what_is_refused_changes_nothing(self) -> None:
        station, other = self.station, self.room / "other"
        station.journal.write_bytes(damaged(9, 7))
        changed = bytearray(journal_of(6))
        changed[64 + 2 * 64 + 15] ^= 1
        seal = (station.kept / "seals").read_bytes()
        shutil.copyfile(station.copy, self.room / "good")
        for content, said in ((bytes(changed), f"{station.copy}: fault seal 2 Changed"),
                              (journal_of(5), f"{station.copy}: fault seal 1 Shorter 5, not 6"),
                              (damaged(6, 3), f"{station.copy}: fault journal 7 Damaged 3"),
                              (b"no journal", f"{station.copy}: this is no journal of today's format")):
            station.copy.write_bytes(content)
            self.refused(station, said)
        for content, said in ((journal_of(6, cards=11), f"it is of 11 cards, and {station.config} names 10"),
                              (journal_of(6, digest=bytes(32)), "fault journal 5 WrongTable"),
                              (layout.journal_of(touches_of(6), CAPACITY, 10, DIGEST, b"OYSTERJ1"),
                               "no journal of today's")):
            other.write_bytes(content)
            self.refused(station, said, copy=other)
        other.write_bytes(journal_of(6))
        self.refused(station, "fault seal 2 Changed", "--sealed", "6", "0" * 64, copy=other)
        self.refused(station, "no such file", copy=self.room / "none")
        self.refused(station, "this is the server's journal", copy=station.journal)
        (station.kept / "seals").write_text("a line\n")
        self.refused(station, "line 1 is no seal", copy=other)
        (station.kept / "seals").write_bytes(seal)
        (station.folder / EXAMPLE.name).rename(station.folder / "away")
        self.refused(station, f"{station.folder / EXAMPLE.name}: there is no such file, and {station.config} names it as a "
                     "fare table; put the table there first", copy=other)
        self.assertEqual(station.restore("--sealed", "6", "x")[0], 2)

    def refused(self, station: Station, said: str, *more: object, copy: pathlib.Path | None = None) -> None:
        before = station.tree()
        status, _, err = station.restore(*more, copy=copy)
        self.assertEqual((status, err.startswith("restore: "), said in err), (1, True, True), err)
        self.assertEqual(station.tree(), before)

    def test_a_run_that_was_killed_goes_on(self) -> None:
        """Killed before each of its calls that change a disk, start a program or connect, and started again."""
        old = damaged(9, 7)
        for place in range(1, 100):
            station = self.another()
            station.journal.write_bytes(old)
            done = subprocess.run(killing.words(place, SCRIPT, station.copy, *station.words), capture_output=True,
                                  text=True, timeout=TIME)
            if done.returncode == 0:
                break
            with self.subTest(place, steps=done.stdout.count("step ")):
                self.assertEqual(done.returncode, -signal.SIGKILL, done.stderr)
                # The journal's name has the one or the other at each moment.
                self.assertIn(station.journal.read_bytes(), (old, journal_of(6)))
                status, _, err = station.restore()
                self.assertEqual((status, err), (0, ""))
                self.assert_restored(station, old)
                self.assertEqual((station.kept / "seals").read_text().count(" restored 6 "), 1)
            station.stop()
            shutil.rmtree(station.room)
        self.assertGreater(place, 12)
        self.assert_restored(station, old)

    def test_a_server_that_does_not_start_has_its_old_journal_back(self) -> None:
        """Its first start fails, as by a table that is gone meanwhile, and the second one doesn't."""
        station, old = self.station, damaged(9, 7)
        for content in (old, journal_of(9)):
            tried = station.room / "tried"
            tried.unlink(missing_ok=True)
            start = f"test -e {tried} && sh {station.starter} || {{ touch {tried}; echo it fails >&2; false; }}"
            station.journal.write_bytes(content)
            before = station.tree()
            status, _, err = station.restore("--discard", words=[*station.words, "--start", start])
            self.assertEqual((status, "restore: the server didn't start on the copy: " in err), (1, True), err)
            self.assertIn("The old journal has its place back, and the server was started on it\n", err)
            self.assertEqual(station.tree(), before)
            # With a sound old journal it serves again.
            limit = time.monotonic() + TIME
            while content != old and serving.front_at(station.listen) is None and time.monotonic() < limit:
                time.sleep(0.05)
            self.assertEqual(serving.front_at(station.listen), None if content == old else 9)
            station.stop()
        # Where there was none there is none again.
        (station.room / "tried").unlink()
        station.journal.unlink()
        status, _, err = station.restore(words=[*station.words, "--start", start])
        self.assertEqual((status, "The copy was taken away again\n" in err, station.journal.exists()), (1, True, False))

    def test_another_copy_is_refused_while_one_is_under_way(self) -> None:
        station = self.station
        station.journal.write_bytes(damaged(9, 7))
        for place in range(1, 100):
            subprocess.run(killing.words(place, SCRIPT, station.copy, *station.words), capture_output=True, timeout=TIME)
            if list(station.folder.glob("restore-*/plan.json")):
                break
        other = self.room / "other"
        other.write_bytes(journal_of(6))
        status, _, err = station.restore(copy=other)
        self.assertEqual((status, f"was begun with copy {station.copy}, not {other}" in err), (1, True), err)
        self.assertEqual(station.restore()[0], 0)

    def gate_file(self, count: int, gate: int = 7) -> pathlib.Path:
        """A gate's file of so many of these touches (docs/reference/JOURNAL.md, "A gate's file")."""
        file = self.room / f"gate-{gate}.file"
        tag = b"touches of one gate, by number" + struct.pack(">H", gate)
        file.write_bytes(layout.journal_of(touches_of(count), 1000, 1, tag))
        return file

    def test_touches_that_gates_have_answers_for_are_listed(self) -> None:
        """The gate has nine touches: the copy lacks three, of which the last may wait for its answer."""
        station = self.station
        station.journal.write_bytes(damaged(9, 7))
        file = self.gate_file(9)
        status, out, _ = station.restore("--gate", file, "--dry-run")
        self.assertEqual(status, 3)
        wanted = ["          gate 7, file 9, journal 6, alike 6, other 0, more 0, order 0, twice 0, lacks 2, waits 1, "
                  "given-up 0",
                  "            lacks  number 7 card 1 top-up of 1 of 2025-01-06T08:00:07Z: no journal has this number",
                  "            lacks  number 8 card 1 top-up of 1 of 2025-01-06T08:00:08Z: no journal has this number",
                  "            waits  number 9 card 1 top-up of 1 of 2025-01-06T08:00:09Z: no journal has it yet: it waits "
                  "for its reply", "step 2 of 6, the gates: 2 touches that gates had answers for are lacking"]
        self.assertIn("\n".join(wanted) + "\n", out)
        status, out, err = station.restore("--gate", file)
        self.assertEqual((status, err, "\n".join(wanted) + "\n" in out), (3, "", True))
        self.assertEqual(serving.front_at(station.listen), 6)
        # A gate with all of its touches in the copy; and a file that is none, before which nothing is changed.
        station.stop()
        station.journal.write_bytes(damaged(9, 7))
        self.assertEqual(station.restore("--gate", self.gate_file(6))[0], 0)
        station.stop()
        station.journal.write_bytes(damaged(9, 7))
        self.refused(station, "compare-gate: ", "--gate", EXAMPLE)

    def test_a_copy_from_another_computer(self) -> None:
        """It has no zeros behind its touches; where sending was cut off it ends within a slot, or without its mark."""
        for end, touches in ((65 + 6 * 64, 6), (64 + 6 * 64, 6), (64 + 5 * 64 + 30, 5), (65 + 5 * 64, 5)):
            with self.subTest(end):
                station = self.another()
                file = station.room / "station.journal-20260105T033000Z"
                file.write_bytes(journal_of(6)[:end])
                station.journal.unlink()
                (station.folder / "remote").mkdir()
                spool = station.folder / "remote" / "station.journal-20260101T000000Z"
                spool.write_bytes(journal_of(9)[:64 + 9 * 64])
                status, out, err = station.restore(copy=file)
                self.assertEqual((status, err), (0, ""))
                self.assertIn("without a seal: nothing says that its bytes are as they were", out)
                self.assert_restored(station, None, touches)
                # What is sent from now on begins anew, since touches that were sent aren't there any more.
                self.assertFalse(spool.exists())
                station.stop()
