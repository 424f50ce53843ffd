"""Runs the built program from end to end: statuses, help, standard error, and how it reads and writes.

It needs crates/tap_server/out/tap_server and crates/table_trial/out/table_trial, which `rt ci` leaves there, or `rt
run` in their folders. Expected values are those of docs/vectors.txt, docs/reference/FARES.md,
docs/reference/COMMANDS.md and docs/reference/FAULTS.md.
"""
import os
import pathlib
import re
import resource
import shutil
import signal
import struct
import subprocess
import tempfile
import threading
from collections.abc import Iterable, Sequence
from typing import IO

import harness
import program
from harness import CRATES, EXAMPLE, PROGRAM, REVISED, TIME, TOP, TRIAL, check, lines, run, valid

REPLAY = ["replay", "--cards", "10"]
SERVE = ["serve", "--table", "a", "--journal", "b", "--cards", "10", "--capacity", "10", "--listen", "127.0.0.1:0",
         "--lines", "1"]
TABLE = EXAMPLE.read_text()
VECTORS = harness.vectors()

# An issue, a top-up of 2000, a touch in at 2 and a touch out at 1, with their answers.
ASKED = [asked for asked, _ in VECTORS["first example"]]
ANSWERED = [answered for _, answered in VECTORS["first example"]]

# An enquiry about that card, and its answer.
ENQUIRY, HELD = VECTORS["enquiries"][0]

# The answer to what is no request.
BAD = "0008ff01000000000000"


def largest_table() -> str:
    """A table with as many rows in each list as there may be; there are 45 pairs of zones."""
    ids = [65 * number + 1 for number in range(1_000)]
    rows = [(one, other) for one in ids for other in ids if one < other]
    zones = [(low, high) for low in range(1, 10) for high in range(low, 10)]
    caps = [(low, high, kind) for low, high in zones for kind in ("anytime", "off-peak")]
    lists = {
        "holidays": ['"2025-12-25"'] * 1_000,
        "station": [f'{{id = {id}, name = "{"N" * 64}", zones = [{id % 8 + 1}, 9]}}' for id in ids],
        "single": [f"{{low = {low}, high = {high}, peak = 300, off_peak = 200}}" for low, high in zones],
        "pair": [f"{{from = {a}, to = {b}, lo = 1, hi = 2, peak = 300, off_peak = 200, minutes = 600}}"
                 for a, b in rows[::40][:10_000]],
        "cap": [f'{{lo = {low}, hi = {high}, kind = "{kind}", price = 800}}' for low, high, kind in caps[:32]],
        "interchange": [f"{{a = {b}, b = {a}, minutes = 10}}" for a, b in rows[::400][:1_000]],
    }
    assert (len(lists["pair"]), len(lists["interchange"])) == (10_000, 1_000)
    head = TABLE.split("holidays")[0]
    return head + "".join(f"{key} = [\n  " + ",\n  ".join(rows) + ",\n]\n" for key, rows in lists.items())


class CommandLine(harness.ProgramTest):
    """Command lines, right and wrong."""

    def test_a_wrong_command_line_is_status_2(self) -> None:
        rows: tuple[Sequence[harness.Word], ...] = (
            [], ["server"], ["replay"], ["replay", "--cards"], ["replay", "--cards", "0"],
            ["replay", "--cards", "100001"], ["replay", "--cards", "x"], ["replay", "--cards", "-1"],
            ["replay", "--cards", "+10"], ["replay", "--cards", "10", "--revision", "a"], ["check"],
            ["check", "--table"], ["check", "table.toml"], ["check", "--table", "a", "b"],
            ["check", "--table", "a", "--table", "b"], ["check", "--cards", "10"],
            *([*SERVE, "--connections", count] for count in ("0", "1000001", "x", "+5", "-1")),
            [b"check", b"--table", b"\xff"], [b"replay", b"--cards", b"10", b"\xff"])
        for words in rows:
            with self.subTest(words):
                status, out, err = run(words)
                self.assertEqual((status, out), (2, b""))
                self.assertTrue(err.strip(), "standard error is empty")

    def test_help_is_status_0_with_an_example(self) -> None:
        for words, wanted in ((["--help"], ["Usage: bovtrila ", "replay", "check", "serve", "migrate", "verify",
                                            "--version"]),
                              (["check", "--help"], ["--table", "Example", "  bovtrila check "]),
                              (["replay", "--help"], ["--cards", "--table", "REVISION", "Example", ASKED[0],
                                                      "  bovtrila replay "]),
                              (["serve", "--help"], ["--connections", "by default a line serves without end", "--report",
                                                     "at this interval in", "--stay-halted", "--strict", "--standby",
                                                     "  bovtrila serve "]),
                              (["migrate", "--help"], ["--from", "--to", "  bovtrila migrate "]),
                              (["verify", "--help"], ["--journal", "--sealed", "  bovtrila verify "])):
            with self.subTest(words):
                status, out, err = run(words)
                self.assertEqual((status, err), (0, ""))
                for word in wanted:
                    self.assertIn(word, out.decode())
                self.assertNotIn("tap_server", out.decode())
                self.assertLessEqual(max(map(len, out.decode().split("\n"))), 100)

    def test_the_version_names_the_toolchain_that_proved_the_program(self) -> None:
        logic = "logic dac8208d650f15bf"
        self.assertEqual(run(["--version"]), (0, f"bovtrila {program.version()}\nproved by Rattle, {logic}\n".encode(), ""))
        kits = re.findall("`(rattle-kit-[^`]*)`", (TOP / "README.md").read_text())
        if shutil.which("rt"):
            kits.append(subprocess.run(["rt", "version"], capture_output=True, check=True, text=True).stdout.strip())
        self.assertEqual({kit.partition(" ")[2] for kit in kits}, {logic})

    def test_the_limits_of_cards_are_allowed(self) -> None:
        for cards in ("1", "100000"):
            with self.subTest(cards):
                self.assertEqual(run(["replay", "--cards", cards], lines(ASKED)), (0, lines(ANSWERED), ""))


class Smaller(harness.ProgramTest):
    """The program of replay and check alone."""

    def test_the_smaller_program_answers_as_the_whole(self) -> None:
        self.assertEqual(harness.run_whole(REPLAY, lines(ASKED), program=TRIAL), (0, lines(ANSWERED), ""))
        rows: tuple[tuple[Sequence[harness.Word], bytes], ...] = (
            (REPLAY, lines([*ASKED, ENQUIRY, "00"])), ([*REPLAY, REVISED], lines(ASKED)),
            (["check", "--table", EXAMPLE], b""), (["check", "--table", TOP / "README.md"], b""),
            (["check", "--table", "/nowhere/table.toml"], b""), (["--help"], b""), (["--version"], b""),
            (["replay"], b""), ([], b""), ([b"check", b"--table", b"\xff"], b""))
        for words, given in rows:
            with self.subTest(words):
                self.assertEqual(harness.run_whole(words, given, program=TRIAL), harness.run_whole(words, given))

    def test_the_smaller_program_refuses_the_other_commands(self) -> None:
        journal = ["--table", "a", "--journal", "b"]
        for words in (SERVE, ["verify", "--journal", "b"], ["history", *journal], ["balances", *journal],
                      ["statement", *journal, "--card", "1"],
                      ["migrate", "--table", "a", "--from", "b", "--to", "c", "--cards", "10"]):
            with self.subTest(words):
                status, out, err = harness.run_whole(words, program=TRIAL)
                self.assertEqual((status, out), (2, b""))
                self.assertIn("this program has replay and check alone; scripts/bovtrila builds the one with all commands",
                              err)


def give(program: IO[bytes], content: bytes) -> None:
    """Writes this to a program's input, which stays open."""
    program.write(content)
    program.flush()


class Replay(harness.ProgramTest):
    """How the command replay reads, answers and ends."""

    def test_a_run_answers_each_line(self) -> None:
        self.assertEqual(run(REPLAY, lines(ASKED)), (0, lines(ANSWERED), ""))

    def test_the_frames_of_the_vectors_get_their_answers(self) -> None:
        pairs = [pair for section in VECTORS if section != "bad frame" for pair in VECTORS[section]]
        self.assertGreater(len(pairs), len(ASKED))
        asked, answered = zip(*pairs)
        self.assertEqual(run(REPLAY, lines(asked)), (0, lines(answered), ""))

    def test_digits_may_be_of_either_case_and_the_last_line_open(self) -> None:
        self.assertEqual(run(REPLAY, lines(ASKED)[:-1].upper()), (0, lines(ANSWERED), ""))

    def test_empty_input_is_answered_by_nothing(self) -> None:
        self.assertEqual(run(REPLAY), (0, b"", ""))

    def test_a_bad_line_ends_the_run_behind_the_answers_before_it(self) -> None:
        asked = ASKED + [ENQUIRY, ENQUIRY, "00050500000001ff", ENQUIRY]
        answered = ANSWERED + [HELD, HELD, BAD]
        self.assertEqual(run(REPLAY, lines(asked)), (1, lines(answered), "fault run 4 BadLine 7\n"))

    def test_what_is_no_request_is_a_bad_line(self) -> None:
        for bad in ("zz", "", "00", ASKED[0] + "\r", ASKED[0] + " ", "0" * 128, "0" * 129, "é", ANSWERED[0]):
            with self.subTest(bad):
                self.assertEqual(run(REPLAY, lines([ENQUIRY, bad])),
                                 (1, lines(["000e8500000000000000000000000000", BAD]), "fault run 4 BadLine 2\n"))
        self.assertEqual(run(REPLAY, b"\xff\xfe\n"), (1, lines([BAD]), "fault run 4 BadLine 1\n"))

    def test_answers_come_before_more_is_read(self) -> None:
        with subprocess.Popen([PROGRAM, *REPLAY], stdin=subprocess.PIPE, stdout=subprocess.PIPE, bufsize=0) as program:
            assert program.stdin and program.stdout, "pipes"
            for asked, answered in zip(ASKED, ANSWERED):
                program.stdin.write(lines([asked]))
                self.assertEqual(program.stdout.readline(), lines([answered]))
            # A line in two pieces.
            program.stdin.write(ENQUIRY[:5].encode())
            program.stdin.write(ENQUIRY[5:].encode() + b"\n")
            self.assertEqual(program.stdout.readline(), lines([HELD]))
            program.stdin.close()
            self.assertEqual((program.stdout.read(), program.wait(TIME)), (b"", 0))

    def test_an_output_that_takes_nothing_is_a_write_fault(self) -> None:
        """Where nobody reads a pipe any more it ends as a tool of the shell: with no line, and the status of SIGPIPE."""
        reading, closed = os.pipe()
        os.close(reading)
        full = os.open("/dev/full", os.O_WRONLY)
        for name, output, ended in (
                ("a closed pipe", closed, (128 + signal.SIGPIPE, "")),
                ("a full disk", full, (1, "fault run 3 Write\n  standard output: no room on the disk\n"))):
            with self.subTest(name):
                done = subprocess.run([PROGRAM, *REPLAY], input=lines(ASKED), stdout=output, stderr=subprocess.PIPE,
                                      timeout=TIME)
                self.assertEqual((done.returncode, done.stderr.decode()), ended)
            os.close(output)

    def test_an_input_that_cannot_be_read_is_a_read_fault(self) -> None:
        folder = os.open("/", os.O_RDONLY)
        done = subprocess.run([PROGRAM, *REPLAY], stdin=folder, capture_output=True, timeout=TIME)
        os.close(folder)
        self.assertEqual((done.returncode, done.stdout, done.stderr.decode()), (1, b"", "fault run 2 Read\n"))

    def test_many_lines_take_few_calls_of_the_system(self) -> None:
        count = 20_000
        asked = lines(ASKED) + lines([ENQUIRY]) * count
        want = lines(ANSWERED) + lines([HELD]) * count
        with subprocess.Popen([PROGRAM, *REPLAY], stdin=subprocess.PIPE, stdout=subprocess.PIPE) as program:
            assert program.stdin and program.stdout, "pipes"
            writer = threading.Thread(target=give, args=(program.stdin, asked))
            writer.start()
            got = program.stdout.read(len(want))
            writer.join(TIME)
            # All answers are here and the input is still open, so the program waits in a read.
            with open(f"/proc/{program.pid}/io") as counts:
                calls = dict(line.split(": ") for line in counts.read().strip().split("\n"))
            program.stdin.close()
            self.assertEqual((got == want, program.stdout.read(), program.wait(TIME)), (True, b"", 0))
        # A pipe gives 64 KiB a read at most, and the input has 300 KB.
        self.assertLess(int(calls["syscr"]), 1_000)
        self.assertLess(int(calls["syscw"]), 1_000)

    def test_a_full_history_answers_repeats_alone(self) -> None:
        most = 1_000_000
        # Touches of a card that isn't there: each is an entry, and refused by verdict 20.
        issue = "000f04" "%04x%08x" "00000000" "677b8b28\n"
        refused = "001481" "%04x%08x" "14" "00000000" "0000000000000000\n"
        asked = "".join(issue % (1, number) for number in range(most + 1))
        answered = "".join(refused % (1, number) for number in range(most))
        asked += issue % (1, 0) + ENQUIRY + "\n"
        answered += "0008ff05" "%04x%08x\n" % (1, most) + refused % (1, 0) + "000e85" "00" "0000000000000000" "%08x\n" % most
        status, out, err = run(REPLAY, asked.encode())
        self.assertEqual((status, err), (0, ""))
        self.assertTrue(out.decode() == answered)


class Tables(harness.ProgramTest):
    """The fare table of the command replay."""

    def replay(self, table: str, given: bytes) -> harness.Ran:
        with tempfile.NamedTemporaryFile() as file:
            file.write(table.encode())
            file.flush()
            return run([*REPLAY, "--table", file.name], given)

    def test_the_example_table_is_the_one_that_stands_in_where_none_is_named(self) -> None:
        self.assertEqual(self.replay(TABLE, lines(ASKED)), (0, lines(ANSWERED), ""))

    def test_fares_are_those_of_the_table(self) -> None:
        dearer = TABLE.replace("high = 2, peak = 350", "high = 2, peak = 380")
        self.assertNotEqual(dearer, TABLE)
        # From 2 to 1 at 08:00 costs 380 in place of 350: the change is 520, and the balance 1620.
        answered = ANSWERED[:3] + ["00148100070000000404" "00000208" "0000000000000654"]
        self.assertEqual(self.replay(dearer, lines(ASKED)), (0, lines(answered), ""))

    def test_a_refused_table_is_told_before_input_is_read(self) -> None:
        refused = TABLE.replace("id = 3", "id = 65536")
        self.assertNotEqual(refused, TABLE)
        with tempfile.NamedTemporaryFile() as file:
            file.write(refused.encode())
            file.flush()
            with subprocess.Popen([PROGRAM, *REPLAY, "--table", file.name], stdin=subprocess.PIPE,
                                  stdout=subprocess.PIPE, stderr=subprocess.PIPE) as program:
                assert program.stdout and program.stderr, "pipes"
                self.assertEqual(program.wait(TIME), 1)
                self.assertEqual(program.stdout.read(), b"")
                self.assertEqual(program.stderr.readline(), b"fault table 5 Range station.id 3\n")

    def test_a_table_that_cannot_be_read_is_a_fault_of_its_file(self) -> None:
        for path in ("/nowhere/table.toml", "/", ""):
            with self.subTest(path):
                self.assertEqual(run([*REPLAY, "--table", path], lines(ASKED)), (1, b"", "fault file\n"))


# Seconds of Monday 2025-01-06 and Saturday 2025-01-11, 00:00 in London.
MONDAY, SATURDAY = 1736121600, 1736553600


class Revisions(harness.ProgramTest):
    """The files of revised tables that the command replay takes as its last words."""

    FRAMES = [pair for section in harness.vectors("revised").values() for pair in section]

    def setUp(self) -> None:
        folder = tempfile.TemporaryDirectory()
        self.addCleanup(folder.cleanup)
        self.folder = pathlib.Path(folder.name)

    def write(self, name: str, text: str) -> str:
        """A file of this text."""
        file = self.folder / name
        file.write_text(text)
        return str(file)

    def changed(self, name: str, *changes: tuple[str, str]) -> str:
        """A file of the example table with these texts replaced."""
        text = TABLE
        for old, new in changes:
            self.assertEqual(text.count(old), 1, old)
            text = text.replace(old, new)
        return self.write(name, text)

    def others(self, count: int) -> list[str]:
        """So many files of valid tables, each of another price."""
        return [self.changed(f"price{price}", ("price = 850", f"price = {price}")) for price in range(1, 1 + count)]

    def test_the_frames_of_a_revision_get_their_answers(self) -> None:
        asked, answered = zip(*self.FRAMES)
        for words in ([str(REVISED)], ["--table", str(EXAMPLE), str(REVISED)],
                      ["--table", str(EXAMPLE), *self.others(3), str(REVISED)]):
            with self.subTest(words):
                self.assertEqual(run([*REPLAY, *words], lines(asked)), (0, lines(answered), ""))

    def test_a_revision_stands_on_a_longer_line_than_any_other(self) -> None:
        revisions = [(asked, answered) for asked, answered in self.FRAMES if asked.startswith("003306")]
        self.assertEqual({len(asked) for asked, _ in revisions}, {106})
        asked, answered = revisions[0]
        for bad in (asked[:-2], asked + "00", asked + "\r", "0034" + asked[4:] + "00"):
            with self.subTest(bad):
                self.assertEqual(run([*REPLAY, str(REVISED)], lines([bad])),
                                 (1, lines([BAD]), "fault run 4 BadLine 1\n"))

    def test_a_table_that_was_not_given_is_answered_and_the_run_goes_on(self) -> None:
        revision = next(asked for asked, answered in self.FRAMES if answered[18:20] == "09")
        asked = [*ASKED, revision, ENQUIRY, revision]
        unknown = "0008ff06" + revision[6:18]
        # An enquiry behind it says that four touches were recorded.
        self.assertEqual(run(REPLAY, lines(asked)), (0, lines([*ANSWERED, unknown, HELD, unknown]), ""))
        wanted = [*ANSWERED, next(answered for asked, answered in self.FRAMES if asked == revision)]
        status, out, err = run([*REPLAY, str(REVISED)], lines(asked))
        self.assertEqual((status, err, out.decode().split("\n")[:5]), (0, "", wanted))

    def test_a_refused_file_is_told_with_its_place_before_input_is_read(self) -> None:
        rule = 'zone = "GMT0BST,M3.5.0/1,M10.5.0"', 'zone = "GMT0"'
        last = '  {id = 5, name = "Elder", zones = [2, 3]},\n'
        zone, fewer, both = self.changed("zone", rule), self.changed("fewer", (last, "")), self.changed(
            "both", rule, (last, ""))
        more = self.changed("more", (last, last + '  {id = 6, name = "Fir", zones = [1]},\n'))
        refused = self.changed("refused", ("id = 3", "id = 65536"))
        revised, others = str(REVISED), self.others(15)
        for words, line in (([str(EXAMPLE)], "supply 2 Twice 1"), ([revised, revised], "supply 2 Twice 2"),
                            ([revised, str(EXAMPLE)], "supply 2 Twice 2"), ([zone], "supply 3 OtherZone 1"),
                            ([revised, zone], "supply 3 OtherZone 2"), ([both], "supply 3 OtherZone 1"),
                            ([fewer], "supply 4 OtherStations 1"), ([more], "supply 4 OtherStations 1"),
                            ([*others, revised], "supply 5 TooMany 16"), ([*others, zone], "supply 3 OtherZone 16"),
                            ([*others, others[0]], "supply 2 Twice 16"), ([refused], "table 5 Range station.id 3"),
                            ([zone, refused], "supply 3 OtherZone 1"), ([refused, zone], "table 5 Range station.id 3"),
                            ([revised, refused], "table 5 Range station.id 3"), (["/nowhere/table.toml"], "file"),
                            ([revised, ""], "file")):
            line = f"fault {line}"
            with self.subTest(line, files=len(words)):
                self.assertEqual(run([*REPLAY, *words], lines(ASKED)), (1, b"", f"{line}\n"))
                self.assertEqual(run([*REPLAY, "--table", str(EXAMPLE), *words], lines(ASKED)), (1, b"", f"{line}\n"))
        self.assertEqual(run([*REPLAY, *others], lines(ASKED)), (0, lines(ANSWERED), ""))

    def test_the_table_comes_before_the_revisions(self) -> None:
        refused = self.changed("refused", ("id = 3", "id = 65536"))
        self.assertEqual(run([*REPLAY, "--table", refused, "/nowhere/table.toml"]),
                         (1, b"", "fault table 5 Range station.id 3\n"))

    def test_a_revised_table_keeps_the_text_of_the_zone(self) -> None:
        # The same rule, by another text.
        same = self.changed("same", ("M3.5.0/1,", "M3.5.0/1:00,"))
        self.assertEqual(run(["check", "--table", same])[0], 0)
        self.assertEqual(run([*REPLAY, same]), (1, b"", "fault supply 3 OtherZone 1\n"))


class Journeys(harness.ProgramTest):
    """Worked journeys of docs/reference/FARES.md over standard input: the verdict, change and balance of each touch."""

    def journeys(self, midnight: int, touches: Iterable[tuple[str, int, str, int, int, int]], paid: int = 2000) -> None:
        """Replays touches (kind, station, time) of a card with so much paid in, and compares what each is answered."""
        asked = [struct.pack(">HBHIII", 15, 4, 7, 1, 1, midnight),
                 struct.pack(">HBHIIII", 19, 3, 7, 2, 1, paid, midnight)]
        answered = [struct.pack(">HBHIBiq", 20, 0x81, 7, 1, 8, 0, 0),
                    struct.pack(">HBHIBiq", 20, 0x81, 7, 2, 7, paid, paid)]
        for number, (kind, station, time, verdict, change, balance) in enumerate(touches, 3):
            hours, minutes, seconds = (int(part) for part in (time + ":00").split(":")[:3])
            moment = midnight + 3600 * hours + 60 * minutes + seconds
            asked.append(struct.pack(">HBHIIHI", 17, {"in": 1, "out": 2}[kind], 7, number, 1, station, moment))
            answered.append(struct.pack(">HBHIBiq", 20, 0x81, 7, number, verdict, change, balance))
        status, out, err = run(REPLAY, lines(frame.hex() for frame in asked))
        self.assertEqual((status, err), (0, ""))
        self.assertEqual(out.decode().split("\n")[:-1], [frame.hex() for frame in answered])

    def test_an_evening_journey_into_zone_1_is_off_peak(self) -> None:
        self.journeys(MONDAY, [("in", 3, "17:00", 1, -900, 1100), ("out", 1, "17:40", 4, 590, 1690)])

    def test_an_evening_journey_out_of_zone_1_is_peak(self) -> None:
        self.journeys(MONDAY, [("in", 1, "17:00", 1, -900, 1100), ("out", 3, "17:40", 4, 500, 1600)])

    def test_the_third_journey_of_a_working_day_meets_the_cap(self) -> None:
        self.journeys(MONDAY, [("in", 2, "06:40", 1, -900, 1100), ("out", 1, "07:05", 4, 550, 1650),
                               ("in", 2, "07:40", 1, -900, 750), ("out", 1, "08:05", 4, 550, 1300),
                               ("in", 2, "08:40", 1, -900, 400), ("out", 1, "09:05", 4, 750, 1150)])

    def test_the_third_journey_of_a_saturday_meets_the_off_peak_cap(self) -> None:
        self.journeys(SATURDAY, [("in", 2, "06:40", 1, -700, 1300), ("out", 1, "07:05", 4, 410, 1710),
                                 ("in", 2, "07:40", 1, -700, 1010), ("out", 1, "08:05", 4, 410, 1420),
                                 ("in", 2, "08:40", 1, -700, 720), ("out", 1, "09:05", 4, 680, 1400)])

    def test_an_interchange_in_time_goes_on_with_the_journey(self) -> None:
        self.journeys(MONDAY, [("in", 2, "08:00", 1, -900, 1100), ("out", 1, "08:25", 4, 550, 1650),
                               ("in", 4, "08:35:00", 2, -900, 750), ("out", 3, "09:00", 4, 1010, 1760)])

    def test_an_interchange_a_second_late_begins_another_journey(self) -> None:
        self.journeys(MONDAY, [("in", 2, "08:00", 1, -900, 1100), ("out", 1, "08:25", 4, 550, 1650),
                               ("in", 4, "08:35:01", 1, -900, 750), ("out", 3, "09:00", 4, 500, 1250)])

    def test_a_leg_over_its_time_is_charged_at_both_ends(self) -> None:
        self.journeys(MONDAY, [("in", 2, "08:00", 1, -900, 1100), ("out", 1, "09:30:00", 4, 550, 1650)])
        self.journeys(MONDAY, [("in", 2, "08:00", 1, -900, 1100), ("out", 1, "09:30:01", 6, -700, 400)])

    def test_a_capped_journey_gives_its_whole_entry_charge_back(self) -> None:
        self.journeys(MONDAY, [("in", 2, "06:40", 1, -900, 1100), ("out", 1, "07:05", 4, 550, 1650),
                               ("in", 2, "07:40", 1, -900, 750), ("out", 1, "08:05", 4, 550, 1300),
                               ("in", 2, "08:40", 1, -900, 400), ("out", 1, "09:05", 4, 750, 1150),
                               ("in", 2, "10:00", 1, -700, 450), ("out", 1, "10:25", 4, 700, 1150),
                               ("out", 1, "10:30", 5, -700, 450)])


class Check(harness.ProgramTest):
    """The command check."""

    def test_the_example_of_the_documents_is_that_of_the_code_and_valid(self) -> None:
        code = (CRATES / "fare_table" / "src" / "example.rt").read_text()
        self.assertEqual(code.split('r#"')[1].split('"#')[0], TABLE)
        self.assertEqual(run(["check", "--table", str(EXAMPLE)]), valid(5, 6, 3, TABLE.encode()))

    def test_a_valid_table_is_told_by_its_rows_and_its_digest(self) -> None:
        other = TABLE.replace("\n", "\r\n").replace("Alder", "Ahornstraße") + "# A comment.\r\n"
        self.assertEqual(check(other.encode(), "Preisliste März.toml"), valid(5, 6, 3, other.encode()))

    def test_a_refused_table_is_told_by_its_first_fault(self) -> None:
        for old, new, line in (("zone =", "zones =", "fault table 3 Missing zone 0"),
                               ("id = 2", "id = 65536", "fault table 5 Range station.id 2"),
                               ("b = 4", "b = 9", "fault table 7 UnknownStation 9"),
                               ("2025-12-25", "2025-12-32", "fault table 11 BadDate 1")):
            with self.subTest(line):
                self.assertIn(old, TABLE)
                self.assertEqual(check(TABLE.replace(old, new).encode()), (1, f"{line}\n".encode(), ""))
        self.assertEqual(check(b""), (1, b"fault table 3 Missing zone 0\n", ""))

    def test_bytes_that_are_no_text_are_no_toml(self) -> None:
        other = TABLE.replace("Alder", "Ahornstraße")
        for table in (b"\xff", other.encode("latin-1"), TABLE.encode("utf-16"), TABLE.encode() + b"# \xc3\n", b"\0"):
            with self.subTest(table[-8:]):
                self.assertEqual(check(table), (1, b"fault table 2 NotToml\n", ""))

    def test_a_file_that_cannot_be_read_is_a_fault(self) -> None:
        for path in ("/nowhere/table.toml", "/", "", "/dev/null/table.toml"):
            with self.subTest(path):
                self.assertEqual(run(["check", "--table", path]), (1, b"", "fault file\n"))

    def test_the_largest_table_is_valid(self) -> None:
        table = largest_table().encode()
        self.assertEqual(check(table), valid(1_000, 45, 32, table))

    def test_one_row_too_many_is_out_of_range(self) -> None:
        table = largest_table()
        for key, row in (("station", '{id = 65_535, name = "X", zones = [1]}'), ("holidays", '"2025-12-25"'),
                         ("pair", "{from = 1, to = 1, lo = 1, hi = 1, peak = 1, off_peak = 1}"),
                         ("cap", '{lo = 9, hi = 9, kind = "anytime", price = 1}'),
                         ("interchange", "{a = 1, b = 66, minutes = 1}")):
            with self.subTest(key):
                before, after = table.split(f"{key} = [\n", 1)
                more = f"{before}{key} = [\n  {row},\n{after}"
                self.assertEqual(check(more.encode()), (1, f"fault table 5 Range {key} 0\n".encode(), ""))

    def test_a_table_that_cannot_be_written_about_is_a_write_fault(self) -> None:
        with open("/dev/full", "wb") as full:
            done = subprocess.run([PROGRAM, "check", "--table", EXAMPLE], stdout=full, stderr=subprocess.PIPE,
                                  timeout=TIME)
        self.assertEqual((done.returncode, done.stderr.decode()),
                         (1, "fault run 3 Write\n  standard output: no room on the disk\n"))

    def test_a_file_without_an_end_ends_a_check_for_want_of_memory(self) -> None:
        size = 256 << 20
        ended = run(["check", "--table", "/dev/zero"],
                    preexec_fn=lambda: resource.setrlimit(resource.RLIMIT_AS, (size, size)))
        self.assertEqual(ended, (1, b"", "fault run 1 Memory\n"))
