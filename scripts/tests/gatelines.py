"""Tests of gate_send: the lines of its input that ask for no touch, and the gate's file as it finds it."""
import os
import subprocess
import time

from bovtrila import codec, layout
from harness import TIME
from sending import (ANSWERED, FRAMES, MORNING, Scripted, SendTest, address_of, file_of, free_address, reply)


class Lines(SendTest):
    """Lines of the input that ask for nothing."""

    BAD = ["", "issue", "issue ", "issue x", "issue 3 ", " issue 3", "issue  3", "issue +3", "issue -3", "issue 4294967296",
           "Issue 3", "in 3", "in 3 ", "in 3 65536", "in 3 +1", "in 3 1 2", "out 3", "top-up 3", "top-up 3 4294967296",
           "top-up 3 1.5", "at 5", "at x issue 3", "at 4294967296 issue 3", "at -1 issue 3", "at 5 at 6 issue 3",
           "enquire", "enquire x", "enquire 3 4", "at 5 enquire 3", "issue 3\r\r", "issue 0x3", "in\t3 17", "revision 3"]

    def test_a_bad_line_is_told_and_nothing_is_asked_for_it(self) -> None:
        station = address_of(self.station())
        for line in self.BAD:
            with self.subTest(line):
                self.file.unlink(missing_ok=True)
                status, out, err = self.send([line, MORNING[0]], "--new", station)
                self.assertEqual((status, out, self.kept()), (1, ANSWERED[:1], FRAMES[:1]))
                self.assertRegex(err, r'\Afault line 1\n  ".*": write issue CARD, .*\n\Z')
        self.assertEqual(self.history(), ANSWERED[:1])

    def test_the_lines_before_and_after_it_are_answered(self) -> None:
        station = address_of(self.station())
        status, out, err = self.send([*MORNING[:2], "isue 3", MORNING[2], "out", MORNING[3]], "--new", station)
        self.assertEqual((status, out, err.splitlines()[::2]), (1, ANSWERED, ["fault line 3", "fault line 5"]))
        self.assertEqual(self.history(), ANSWERED)

    def test_a_fault_after_a_bad_line_ends_the_run(self) -> None:
        status, out, err = self.send(["isue 3", *MORNING], "--new", "--tries", 1, free_address())
        self.assertEqual((status, out, err.splitlines()[0], err.splitlines()[3]), (1, [], "fault line 1", "fault tries 1"))
        self.assertEqual(self.kept(), FRAMES[:1])

    def test_bytes_that_are_no_text_are_a_bad_line(self) -> None:
        given = b"issue \xff\n" + MORNING[0].encode()
        done = subprocess.run(self.words("--new", address_of(self.station())), input=given, capture_output=True,
                              timeout=TIME)
        self.assertEqual((done.returncode, done.stdout.decode(), done.stderr), (1, f"{ANSWERED[0]}\n", b"fault line 1\n"))

    def test_lines_may_end_in_a_carriage_return_and_a_line_feed(self) -> None:
        station = address_of(self.station())
        self.assertEqual(self.send([f"{line}\r" for line in MORNING], "--new", station), (0, ANSWERED, ""))
        self.assertEqual(self.kept(), FRAMES)

    def test_the_highest_numbers_are_taken(self) -> None:
        station = Scripted([reply(1, 20, 0, 0), reply(2, 20, 0, 0)])
        status, out, _ = self.send(["at 4294967295 in 4294967295 65535", "at 0 top-up 0 4294967295"], "--new",
                                   station.address)
        self.assertEqual((status, out), (0, ["7,1,4294967295,in,65535,,UnknownCard,0,0",
                                             "7,2,0,top-up,,4294967295,UnknownCard,0,0"]))
        self.assertEqual(station.requests, [codec.touch(codec.ENTER, 7, 1, 2**32 - 1, 65535, 2**32 - 1),
                                            codec.touch(codec.TOP_UP, 7, 2, 0, 2**32 - 1, 0)])

    def test_a_last_line_without_a_line_feed_is_a_line(self) -> None:
        station = address_of(self.station())
        done = subprocess.run(self.words("--new", station), input=MORNING[0], capture_output=True, text=True, timeout=TIME)
        self.assertEqual((done.returncode, done.stdout), (0, ANSWERED[0] + "\n"))


class Files(SendTest):
    """The gate's file: made, gone on with, made anew and refused."""

    def test_each_cause_of_a_file_is_told(self) -> None:
        whole = file_of(FRAMES[:2], 10, 7)
        for name, content, fault in (
                ("empty", b"", "5 NoFile"), ("text", b"gate 7\n" * 20, "5 NoFile"),
                ("another gate", file_of([], 10, 8), "6 AnotherFile"),
                ("a server's", layout.header_of(10, 10, bytes(32)) + bytes(1), "6 AnotherFile"),
                ("cut", whole[:-2], "7 Damaged 1"),
                ("numbers from 0", file_of([codec.touch(codec.ISSUE, 7, 0, 1, 0)], 10, 7), "8 Foreign 0")):
            with self.subTest(name):
                self.file.write_bytes(content)
                behind = self.assertFault(self.send(MORNING, free_address()), f"fault gate-file {fault}")
                self.assertEqual(behind, [f"  {self.file}"])
                self.assertEqual(self.file.read_bytes(), content)

    def test_a_file_that_is_not_there_is_not_made(self) -> None:
        behind = self.assertFault(self.send(MORNING, free_address()), "fault file")
        self.assertEqual(behind, [f"  {self.file}: No such file or directory (os error 2)"])
        self.assertFalse(self.file.exists())

    def test_a_new_file_is_made_where_there_is_none_or_an_empty_one(self) -> None:
        for content in (None, b""):
            with self.subTest(content):
                self.file.unlink(missing_ok=True)
                if content is not None:
                    self.file.write_bytes(content)
                self.assertEqual(self.send([], "--new", "--capacity", 3, free_address()), (0, [], ""))
                self.assertEqual(self.file.read_bytes(), file_of([], 3, 7))

    def test_a_whole_file_is_gone_on_with(self) -> None:
        station = address_of(self.station())
        self.assertEqual(self.send(MORNING[:2], "--new", "--capacity", 10, station), (0, ANSWERED[:2], ""))
        # Its own capacity stays.
        self.assertEqual(self.send(MORNING[2:], "--new", "--capacity", 3, station), (0, ANSWERED[1:], ""))
        self.assertEqual(self.file.read_bytes(), file_of(FRAMES, 10, 7))

    def test_a_file_whose_making_was_cut_off_is_made_anew(self) -> None:
        whole = file_of([], 10, 7)
        for content in (b"\0", b"\0" * 65, b"\0" + whole[1:], b"\0" + whole[1:20], b"\0OYS\0\0RJ" + bytes(57)):
            with self.subTest(content):
                self.file.write_bytes(content)
                self.assertFault(self.send([], free_address()), "fault gate-file 5 NoFile")
                self.assertEqual(self.file.read_bytes(), content)
                self.assertEqual(self.send([], "--new", "--capacity", 10, free_address()), (0, [], ""))
                self.assertEqual(self.file.read_bytes(), whole)

    def test_what_is_no_unfinished_file_stays(self) -> None:
        whole = file_of(FRAMES[:1], 10, 7)
        for content, fault in ((b"x", "5 NoFile"), (b"\0" * 66, "5 NoFile"), (b"\0" + whole[1:], "5 NoFile"),
                               (b"\0oysterj" + bytes(57), "5 NoFile"), (b"\0\0\0\0\0\0\0x", "5 NoFile"),
                               (b"\1" + bytes(64), "5 NoFile"), (file_of([], 10, 8), "6 AnotherFile"),
                               (whole[:-2], "7 Damaged 0")):
            with self.subTest(content):
                self.file.write_bytes(content)
                behind = self.assertFault(self.send(MORNING, "--new", free_address()), f"fault gate-file {fault}")
                self.assertEqual((behind, self.file.read_bytes()), ([f"  {self.file}"], content))

    def test_what_is_no_file_is_told(self) -> None:
        self.file.mkdir()
        self.assertFault(self.send(MORNING, "--new", free_address()), "fault file")
        self.file.rmdir()
        os.mkfifo(self.file)
        behind = self.assertFault(self.send(MORNING, free_address()), "fault file")
        self.assertEqual(behind, [f"  {self.file}: a device or a pipe"])

    def test_a_file_that_another_run_has_is_told(self) -> None:
        with subprocess.Popen(self.words("--new", free_address()), stdin=subprocess.PIPE) as other:
            while not self.file.is_file() or self.file.stat().st_size < 65:
                time.sleep(0.01)
            behind = self.assertFault(self.send(MORNING, free_address()), "fault file")
            self.assertEqual(behind, [f"  {self.file}: another run or a server has it"])
            assert other.stdin, "a pipe"
            other.stdin.close()
            self.assertEqual(other.wait(TIME), 0)
