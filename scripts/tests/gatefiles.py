"""The tests of a gate's file, for scripts/tests/test_gate_library.py: refused files, losses of power, and calls of the
system that fail."""
import errno
import os
import pathlib
import random
import re
import socket
import struct
import subprocess
import time
from collections.abc import Iterable, Sequence

import clients
import harness
import power
from bovtrila import codec, layout, model, vector_file, wire
from clients import CAUSE, FIRST, RESULT, SOURCE, TESTS, Asker, Careful, GateTest, Gone, Line, Told, journey, replied_to
from harness import EXAMPLE, TIME, TOP
from planted import Planted


class Files(GateTest):
    """The gate's file: what is refused, and by which cause."""

    frames = journey(7, [1])[:5]

    def opening(self, gate: int = 7, addresses: str | Sequence[str] = "127.0.0.1:1") -> Line:
        with self.open(addresses, gate) as asker:
            return asker.opened

    def test_a_file_is_made_by_the_bytes_of_the_page(self) -> None:
        self.assertEqual(self.create(258, 5), [CAUSE["OK"], 0, 0])
        self.assertEqual(self.file.read_bytes(), clients.file_of([], 5, 258))
        section = (TOP / "docs" / "reference" / "JOURNAL.md").read_text().split("## A gate's file\n")[1].split("\n## ")[0]
        blocks = re.findall(r"(?s)```\n(.*?)```", section)
        # The touch waits in the first example, and is given up in the second.
        for block, count, wanted in zip(blocks, (1, 2), (7, 5), strict=True):
            rows = re.findall(r"(?m)^([0-9a-f]{4})  ((?:[0-9a-f]{2} ?)+)", block)
            content = clients.file_of([FIRST[0]] * count, 100_000, 7)
            self.assertEqual(len(rows), wanted)
            for at, digits in rows:
                data = bytes.fromhex(digits)
                self.assertEqual(content[int(at, 16):][:len(data)].hex(), data.hex(), at)

    def test_each_cause_of_a_making_is_told(self) -> None:
        for capacity in (0, 1_000_001):
            self.assertEqual(self.create(capacity=capacity), [CAUSE["BAD_CAPACITY"], 0, 0])
        self.assertFalse(self.file.exists())
        for content in (b"\0", clients.file_of(self.frames, 10, 7)):
            self.write(content)
            self.assertEqual(self.create(), [CAUSE["NOT_EMPTY"], 0, 0])
            self.assertEqual(self.file.read_bytes(), content)
        self.write(b"")
        self.assertEqual(self.create(7, 1_000_000)[0], CAUSE["OK"])
        self.assertEqual(clients.create(self.asker, self.folder, 7, 5), [CAUSE["NOT_PLAIN"], 0, errno.EISDIR])
        for name, error in (("no/file", errno.ENOENT), ("7/file", errno.ENOTDIR)):
            self.assertEqual(clients.create(self.asker, self.folder / name, 7, 5), [CAUSE["NO_FOLDER"], 0, error])

    def test_each_cause_of_an_opening_is_told(self) -> None:
        whole = clients.file_of(self.frames, 10, 7)
        other = layout.header_of(10, 1, bytes(32)) + bytes(1)
        alike = layout.header_of(10, 1, clients.tag(7, bytes(30))) + bytes(1)
        for name, content, wanted in (("empty", b"", "NOT_A_JOURNAL"), ("64 bytes", whole[:64], "NOT_A_JOURNAL"),
                                      ("text", b"gate 7\n" * 20, "NOT_A_JOURNAL"),
                                      ("version 1", whole[:8] + b"1" + whole[9:], "OTHER_VERSION"),
                                      ("another digest", other, "ANOTHER"),
                                      ("a digest that ends as the tag", alike, "ANOTHER"),
                                      ("ten cards", layout.header_of(10, 10, clients.tag(7)) + bytes(1), "ANOTHER"),
                                      ("no cards", layout.header_of(10, 0, clients.tag(7)) + bytes(1), "BAD_LIMIT"),
                                      ("no capacity", layout.header_of(0, 1, clients.tag(7)) + bytes(1), "BAD_LIMIT"),
                                      ("another gate", clients.file_of([], 10, 8), "ANOTHER"),
                                      ("an old file", self.old(7), "OLD_TAG"),
                                      ("another gate's old file", self.old(8), "ANOTHER"),
                                      ("an old file of ten cards", self.old(7, 10), "ANOTHER"),
                                      ("numbers from 0", clients.file_of(
                                          [codec.touch(codec.ISSUE, 7, 0, 1, 0)], 10, 7), "FOREIGN"),
                                      ("another gate's touch", clients.file_of(
                                          [codec.touch(codec.ISSUE, 8, 1, 1, 0)], 10, 7), "FOREIGN")):
            with self.subTest(name):
                self.write(content)
                self.assertEqual(self.opening(), [CAUSE[wanted], 0, 0])
                self.assertEqual(self.file.read_bytes(), content)
        # A damaged slot is told before a foreign one that stands before it.
        self.write(clients.file_of([FIRST[0], FIRST[0], FIRST[0]], 10, 7)[:-2])
        self.assertEqual(self.opening(), [CAUSE["DAMAGED"], 2, 0])
        self.file.unlink()
        self.assertEqual(self.opening(), [CAUSE["MISSING"], 0, errno.ENOENT])
        self.file.mkdir()
        self.assertEqual(self.opening(), [CAUSE["NOT_PLAIN"], 0, errno.EISDIR])
        self.file.rmdir()
        os.mkfifo(self.file)
        self.assertEqual(self.opening(), [CAUSE["NOT_PLAIN"], 0, errno.EINVAL])

    def test_a_missing_folder_and_a_lack_of_permission_are_told(self) -> None:
        whole = self.file
        self.file = self.folder / "no" / "file"
        self.assertEqual(self.opening(), [CAUSE["NO_FOLDER"], 0, errno.ENOENT])
        self.file = whole
        for making in (True, False):
            for error, cause in ((errno.EACCES, "PERMISSION"), (errno.EROFS, "PERMISSION"), (errno.EPERM, "PERMISSION"),
                                 (errno.ENXIO, "NOT_PLAIN"), (errno.EMFILE, "DEVICE"), (errno.EIO, "DEVICE")):
                # Of a making the first call opens the file; of an opening a call takes memory before it.
                log = clients.Log(clients.program("calls"), REFUSE=1 if making else 2, ERROR=error)
                with self.subTest(making=making, error=errno.errorcode[error]):
                    if making:
                        told = self.create(**log.options())
                    else:
                        with self.open("127.0.0.1:1", **log.options()) as asker:
                            told = asker.opened
                    self.assertEqual(told, [CAUSE[cause], 0, error])

    def old(self, gate: int, cards: int = 1) -> bytes:
        """The file of a gate as the library wrote it before version 1.1."""
        return layout.journal_of(self.frames, 10, cards, clients.old_tag(gate))

    def test_an_old_file_is_changed_over_by_the_commands_of_the_page(self) -> None:
        page = (TOP / "docs" / "reference" / "GATE_LIBRARY.md").read_text()
        shown = re.search(r"### To change an old file over.*?```\n(.*?)```", page, re.S)
        assert shown, "the page has commands"
        self.file = self.folder / "gate.file"
        self.write(self.old(7))
        self.assertEqual(self.opening(), [CAUSE["OLD_TAG"], 0, 0])
        self.assertEqual(self.file.read_bytes(), self.old(7))
        done = subprocess.run(["sh", "-e"], input=shown[1], text=True, capture_output=True, cwd=self.folder, timeout=TIME)
        self.assertEqual(done.returncode, 0, done.stderr)
        self.assertEqual(self.file.read_bytes(), clients.file_of(self.frames, 10, 7))
        self.assertEqual([file.name for file in self.folder.iterdir()], ["gate.file"])
        with self.open("127.0.0.1:1") as asker:
            self.assertEqual((asker.opened, asker.ask("waiting")[1]), ([CAUSE["OK"], 0, 0], len(self.frames)))

    def test_a_station_s_journal_is_another_file_and_a_server_refuses_a_gate_s(self) -> None:
        self.serve().kill()
        self.file = self.folder / "journal"
        self.assertEqual(self.opening(), [CAUSE["ANOTHER"], 0, 0])
        self.file = self.folder / "gate"
        self.create()
        status, _, err = harness.run(["serve", "--table", EXAMPLE, "--journal", self.file, "--cards", "1",
                                      "--capacity", "1000", "--listen", "127.0.0.1:0", "--lines", "1"])
        self.assertEqual((status, err), (1, "fault journal 5 WrongTable\n"))

    def test_the_server_s_own_program_reads_it(self) -> None:
        server = self.serve()
        self.create()
        with self.open(server.text) as asker:
            Careful(self.frames).run(asker)
        status, out, err = harness.run(["verify", "--journal", self.file])
        self.assertEqual((status, err), (0, ""))
        said = dict(line.split(" ", 1) for line in out.decode().split("\n")[:-2])
        self.assertEqual(out.decode().split("\n")[-2], "sound")
        self.assertEqual((said["version"], said["capacity"], said["cards"], said["touches"], said["digest"]),
                         ("2", "1000", "1", str(len(self.frames)), clients.tag(7).hex()))

    def test_a_file_is_opened_once_at_a_time(self) -> None:
        self.create()
        with self.open("127.0.0.1:1") as first:
            self.assertEqual(first.opened[0], CAUSE["OK"])
            self.assertEqual(self.opening()[0], CAUSE["IN_USE"])
            self.assertEqual(self.create()[0], CAUSE["IN_USE"])
        self.assertEqual(self.opening()[0], CAUSE["OK"])

    def test_an_address_that_is_none_is_told(self) -> None:
        self.create()
        for place, addresses in enumerate((["x"], ["127.0.0.1:1", ":5"], ["127.0.0.1:1"] * 2 + ["127.0.0.1:"])):
            with self.subTest(addresses):
                self.assertEqual(self.opening(addresses=addresses), [CAUSE["NO_ADDRESS"], place, 0])
        self.assertEqual(self.opening(addresses=["[::1]:5", "127.0.0.1:65535"]), [CAUSE["OK"], 0, 0])
        for port in ("0", "65536", "69550", "4294967297", "18446744073709551617", "port", "+5", "-1", " 5", "5 ", "0x10"):
            with self.subTest(port=port):
                self.assertEqual(self.opening(addresses=[f"127.0.0.1:{port}"]), [CAUSE["NO_ADDRESS"], 0, 0])

    def test_a_host_that_is_not_known_at_the_start_is_looked_up_again(self) -> None:
        self.create()
        server = Told(self, [replied_to(frame) for frame in FIRST])
        log = clients.Log(clients.program("calls"), UNKNOWN=2)
        later = f"later.test:{server.text.rpartition(':')[2]}"
        with self.open([later], **log.options()) as asker:
            self.assertEqual(asker.opened, [CAUSE["OK"], 0, socket.EAI_AGAIN])
            self.assertEqual(asker.ask(clients.act_of(FIRST[0]))[0], RESULT["ACCEPTED"])
            self.assertEqual(asker.ask("error"), [errno.EHOSTUNREACH], (log.calls(), server.asked))
        looked = [data for name, _, data in log.calls() if name == "look-up"]
        self.assertEqual(looked, [b"later.test"] * 3)

    def test_a_known_address_that_answers_is_not_held_up_by_an_unknown_one(self) -> None:
        self.create()
        server = Told(self, [replied_to(frame) for frame in FIRST])
        log = clients.Log(clients.program("calls"), UNKNOWN=1000)
        with self.open([server.text, "later.test:1"], **log.options()) as asker:
            self.assertEqual(asker.opened, [CAUSE["OK"], 1, socket.EAI_AGAIN])
            for frame in FIRST:
                self.assertEqual(asker.ask(clients.act_of(frame))[0], RESULT["ACCEPTED"])
        looked = [data for name, _, data in log.calls() if name == "look-up"]
        self.assertEqual(looked, [b"127.0.0.1", b"later.test"])

    def test_a_call_with_no_known_host_ends_in_its_time(self) -> None:
        self.create()
        log = clients.Log(clients.program("calls"), UNKNOWN=1000)
        with self.open(["later.test:1"], times=(300, 100, 20, 40), **log.options()) as asker:
            begun = time.monotonic()
            self.assertEqual(asker.ask(clients.act_of(FIRST[0])), [RESULT["NO_ANSWER"], 1, 0, 0, 0, 0])
            self.assertLess(time.monotonic() - begun, 20)
            self.assertEqual(asker.ask("error"), [errno.EHOSTUNREACH])

    def test_a_full_file_takes_no_touch(self) -> None:
        self.create(capacity=2)
        with self.open(Told(self, [replied_to(frame) for frame in FIRST]).text) as asker:
            self.assertEqual(asker.ask("room"), [2])
            for place in range(2):
                self.assertEqual(asker.ask(clients.act_of(FIRST[place]))[0], RESULT["ACCEPTED"])
            self.assertEqual(asker.ask(clients.act_of(FIRST[2])), [RESULT["NO_ROOM"], 0, 0, 0, 0, 0])
            self.assertEqual(asker.ask("room"), [0])
        self.assertEqual(self.file.read_bytes(), clients.file_of(FIRST[:2], 2, 7) + bytes(1))
        self.assertEqual(self.opening()[0], CAUSE["OK"])
        # What stands behind a full file isn't looked at.
        self.write(clients.file_of(FIRST[:2], 2, 7))
        self.assertEqual(self.opening()[0], CAUSE["OK"])

    def test_a_long_file_is_opened(self) -> None:
        frames = [codec.touch(codec.ISSUE, 7, number, 1, 0) for number in range(1, 5001)]
        for count in (63, 64, 65, 128, 5000):
            for capacity in (count, count + 1):
                with self.subTest(count):
                    self.write(clients.file_of(frames[:count], capacity, 7))
                    with self.open("127.0.0.1:1") as asker:
                        self.assertEqual((asker.opened, asker.ask("waiting")[:2]), ([0, 0, 0], [codec.ISSUE, count]))

    def check_bytes(self, program: pathlib.Path, frames: Sequence[bytes]) -> int:
        """Each byte of a file changed to each other value."""
        whole = clients.file_of(frames, 10, 7)
        self.write(whole)
        done = subprocess.run([program, self.file, "7", self.folder / "copy"], capture_output=True, text=True)
        assert (done.returncode, done.stderr) == (0, ""), done.stderr
        lines = done.stdout.split("\n")[:-1]
        contents = [whole] + [whole[:at] + bytes([(whole[at] + more) % 256]) + whole[at + 1:]
                              for at in range(len(whole)) for more in range(1, 256)]
        assert len(lines) == len(contents)
        for place, (line, content) in enumerate(zip(lines, contents)):
            cause, at, touches = clients.reading(content, 7)
            wanted = f"{cause} {at} {clients.waiting_in(touches)}"
            assert line == wanted, f"change {place}: {line}, and should be {wanted}"
        return len(lines)

    def test_each_byte_changed_is_read_as_the_page_says(self) -> None:
        program = clients.built(self.folder / "openings", [TESTS / "openings.c", SOURCE])
        given_up = [FIRST[0], FIRST[0], *(codec.touch(codec.TOP_UP, 7, number, 1, 2000, 0) for number in (3, 4, 4))]
        for frames in (self.frames[:4], given_up[:4], given_up):
            self.assertGreater(self.check_bytes(program, frames), 80_000)


class Power(GateTest):
    """Losses of power: a gate that ends in the middle of a write, and what a torn disk may hold."""

    frames = FIRST[:3]

    def check_end(self, server: Planted, asking: Careful) -> None:
        """Opens the file that is left, and goes on to the end of the touches."""
        with self.open(server.text) as asker:
            asking.run(asker)
        assert server.station.history == self.frames, [frame.hex() for frame in server.station.history]
        assert asking.told() == clients.worked_out(self.frames), asking.told()
        assert clients.reading(self.file.read_bytes(), 7) == (CAUSE["OK"], 0, self.frames)

    def test_a_making_that_is_cut_at_each_byte_leaves_no_gate_or_a_whole_one(self) -> None:
        for write, size in ((1, 1), (2, 64), (3, 1)):
            for cut in range(size + 1):
                with self.subTest(write=write, cut=cut):
                    self.file.unlink(missing_ok=True)
                    told = self.create(**clients.Log(clients.program("calls"), CUT=f"{write}:{cut}").options())
                    self.assertEqual(told, [None, 0, 9])
                    is_made = (write, cut) == (3, 1)
                    is_empty = (write, cut) == (1, 0)
                    with self.open("127.0.0.1:1") as asker:
                        self.assertEqual(asker.opened[0], CAUSE["OK" if is_made else "NOT_A_JOURNAL"])
                    self.assertEqual(self.create()[0], CAUSE["OK" if is_empty else "NOT_EMPTY"])

    def check_cut(self, write: int, cut: int) -> None:
        """The power goes in the middle of a write, two for each touch."""
        self.file.unlink(missing_ok=True)
        server, asking = self.planted(), Careful(self.frames)
        assert self.create()[0] == CAUSE["OK"]
        log = clients.Log(clients.program("calls"), CUT=f"{write}:{cut}")
        try:
            with self.open(server.text, **log.options()) as asker:
                asking.run(asker)
            raise AssertionError("the write wasn't made")
        except Gone:
            assert asker.process.returncode == 9
        before = (write - 1) // 2
        kept = before + (write % 2 == 0 and cut == 1)
        assert clients.reading(self.file.read_bytes(), 7) == (CAUSE["OK"], 0, self.frames[:kept])
        assert server.station.history == self.frames[:before]
        self.check_end(server, asking)

    def test_a_touch_that_is_cut_at_each_byte_is_asked_once(self) -> None:
        for write in range(1, 2 * len(self.frames) + 1):
            for cut in range(65 if write % 2 else 2):
                with self.subTest(write=write, cut=cut):
                    self.check_cut(write, cut)

    def check_killed(self, number: int, is_making: bool) -> bool:
        """A making, or a gate's run, that is killed before a call of the system: whether there was such a call."""
        self.file.unlink(missing_ok=True)
        server, asking = self.planted(), Careful(self.frames)
        log = clients.Log(clients.program("calls"), KILL=number)
        told = self.create(**(log.options() if is_making else {}))
        is_killed = told == [None, 0, 9]
        if is_killed and not self.file.exists() or clients.reading(self.file.read_bytes(), 7)[0] != CAUSE["OK"]:
            self.file.unlink(missing_ok=True)
            assert self.create()[0] == CAUSE["OK"]
        if not is_making:
            try:
                with self.open(server.text, **log.options()) as asker:
                    asking.run(asker)
            except Gone as gone:
                is_killed = str(gone) in ("the gate ended by status 9", "the gate takes no line")
                assert is_killed, gone
        self.check_end(server, asking)
        return is_killed

    def test_a_gate_that_is_killed_before_each_call_goes_on(self) -> None:
        for is_making, least in ((True, 12), (False, 30)):
            for number in range(1, 200):
                with self.subTest(number=number, is_making=is_making):
                    is_killed = self.check_killed(number, is_making)
                if not is_killed:
                    break
            self.assertGreater(number, least)

    def check_counting(self) -> None:
        """Touches over three openings."""
        self.create()
        server, asking = self.planted(), Careful(FIRST)
        for count in (1, 2, 4):
            asking.frames = FIRST[:count]
            with self.open(server.text) as asker:
                asking.run(asker)
        assert server.station.history == FIRST

    def test_numbers_go_on_over_openings(self) -> None:
        self.check_counting()

    def logged(self) -> list[tuple[str, int, bytes]]:
        """The calls of a making and of a gate that asks for the touches."""
        log, server = clients.Log(clients.program("calls")), self.planted()
        assert self.create(**log.options())[0] == CAUSE["OK"]
        with self.open(server.text, **log.options()) as asker:
            Careful(self.frames).run(asker)
        return log.calls()

    def check_kept_first(self) -> None:
        """Nothing is sent that isn't durable, and the writes are those of docs/reference/JOURNAL.md."""
        disk = power.Disk()
        sent: list[bytes] = []
        for name, at, data in self.logged():
            disk.call(name, at, data)
            if name == "send":
                sent.append(data)
                assert not disk.pending
                assert clients.reading(disk.durable, 7) == (CAUSE["OK"], 0, sent), f"{data.hex()} isn't kept yet"
        assert sent == self.frames

    def test_nothing_is_sent_before_it_is_durable(self) -> None:
        self.check_kept_first()

    def test_the_calls_on_the_file_are_those_of_the_page(self) -> None:
        calls = [(name, at, len(data)) for name, at, data in self.logged()
                 if name in ("pwrite", "fdatasync", "flock", "fsync", "fadvise", "pread")]
        opening = [("flock", 6, 0), ("fsync", 0, 0), ("fadvise", 4, 0), ("fsync", 0, 0)]
        sync = ("fdatasync", 0, 0)
        wanted = [*opening, ("pwrite", 0, 1), sync, ("pwrite", 1, 64), sync, ("pwrite", 0, 1), sync, *opening,
                  *[("pread", at, 0) for at in (0, 64, 65)]]
        for place in range(3):
            wanted += [("pwrite", 65 + 64 * place, 64), sync, ("pwrite", 64 + 64 * place, 1), sync]
        self.assertEqual(calls, wanted)

    def check_torn(self, seed: int = 1) -> int:
        """Each moment's losses of power, with any bytes where a write wasn't synced."""
        draw, disk, asked, count = random.Random(seed), power.Disk(), 0, 0
        for name, at, data in self.logged():
            disk.call(name, at, data)
            asked += name == "send"
            if name not in ("pwrite", "fdatasync"):
                continue
            for image in disk.images(draw, 8):
                self.check_image(image, asked)
                count += 1
        return count

    def check_image(self, image: bytes, asked: int) -> None:
        """A file that a loss of power has left, with so many touches sent: it has those, and may have one more."""
        self.write(image)
        cause, place, touches = clients.reading(image, 7)
        with self.open("127.0.0.1:1") as asker:
            assert asker.opened == [cause, place, 0], f"{asker.opened} of {image.hex()}"
            if cause == CAUSE["OK"]:
                waiting = asker.ask("waiting")
                assert touches in (self.frames[:asked], self.frames[:asked + 1]), image.hex()
                assert (waiting[1] if waiting else 0) == len(touches)
            else:
                assert cause == CAUSE["NOT_A_JOURNAL"] and asked == 0, f"{cause} of {image.hex()}"

    def test_a_torn_write_leaves_what_was_before(self) -> None:
        self.assertGreater(self.check_torn(), 200)


class Steps(GateTest):
    """A gate with lines of its own: a touch is kept, its frame is handed out, and what came is heard."""

    def keep(self, asker: Asker, frame: bytes) -> Line:
        return asker.ask(f"keep-{clients.act_of(frame)}")

    def frame_of(self, asker: Asker) -> bytes:
        """The frame that waits, or no bytes."""
        asker.write("frame")
        assert asker.process.stdout, "a pipe"
        size, digits = asker.process.stdout.readline().rstrip("\n").split(" ")
        self.assertEqual(2 * int(size), len(digits))
        return bytes.fromhex(digits)

    def test_touches_over_lines_of_the_gate_s_own(self) -> None:
        revision = codec.touch(codec.REVISE, 7, 5, 0, bytes(range(32)), -3, 1736149800)
        frames, station = [*FIRST, revision], vector_file.read()[0].model()
        self.create()
        with self.open([]) as asker:
            self.assertEqual(asker.opened, [CAUSE["OK"], 0, 0])
            self.assertEqual(self.frame_of(asker), b"")
            for place, frame in enumerate(frames):
                self.assertEqual(self.keep(asker, frame), [RESULT["KEPT"], place + 1, 0, 0, 0, 0])
                self.assertEqual(self.file.read_bytes(), clients.file_of(frames[:place + 1], 1000, 7))
                self.assertEqual(asker.ask("waiting")[1], place + 1)
                # As often as it is asked for.
                self.assertEqual([self.frame_of(asker) for _ in range(2)], [frame, frame])
                answer = station.answer(frame)
                told = clients.told_by(answer, place + 1)
                for size in range(len(answer)):
                    if answer[2] == codec.REPLY:
                        self.assertEqual(asker.ask(f"hear {answer[:size].hex()}"),
                                         [RESULT["NO_ANSWER"], place + 1, 0, 0, 0, 0])
                self.assertEqual(asker.ask(f"hear {answer.hex()}"), told)
                self.assertEqual(asker.ask("waiting") == [], answer[2] == codec.REPLY)
            # The example's station has no table for the revision: that is a fault, and the touch waits.
            self.assertEqual((told[0], self.frame_of(asker)), (RESULT["FAULT"], revision))
        with self.open([]) as asker:
            self.assertEqual(self.frame_of(asker), revision)

    def test_enquiries_over_lines_of_the_gate_s_own(self) -> None:
        pairs = [(vector.request, vector.answer) for station in vector_file.read() for vector in station.vectors
                 if wire.is_request(vector.request) and vector.request[2] == codec.ENQUIRE]
        self.assertGreater(len(pairs), 10)
        self.create()
        with self.open([]) as asker:
            self.keep(asker, FIRST[0])
            for request, answer in pairs:
                with self.subTest(request.hex()):
                    asker.write(f"enquiry {wire.number_at(request, 3, 4)}")
                    assert asker.process.stdout, "a pipe"
                    self.assertEqual(asker.process.stdout.readline(), f"7 {request.hex()}\n")
                    for size in range(len(answer)):
                        self.assertEqual(asker.ask(f"hear-enquiry {answer[:size].hex()}"),
                                         [RESULT["NO_ANSWER"], 0, 0, 0, 0])
                    for more in (b"", answer):
                        self.assertEqual(asker.ask(f"hear-enquiry {(answer + more).hex()}"), clients.told_by(answer, 0))
            for answer, wanted in ((codec.fault(3), [RESULT["FAULT"], 0, 3, 0, 0]),
                                   (codec.fault(1), [RESULT["FAULT"], 0, 1, 0, 0]),
                                   (codec.fault(3, 7, 1), [RESULT["STRAY"], 0, 0, 0, 0]),
                                   (replied_to(FIRST[0]), [RESULT["STRAY"], 0, 0, 0, 0]),
                                   (b"\x01", [RESULT["STRAY"], 0, 0, 0, 0])):
                with self.subTest(answer.hex()):
                    self.assertEqual(asker.ask(f"hear-enquiry {answer.hex()}"), wanted)
            # The touch waits on, whatever comes of enquiries.
            self.assertEqual(self.frame_of(asker), FIRST[0])

    def test_what_is_no_reply(self) -> None:
        self.create()
        reply = replied_to(FIRST[0])
        with self.open([]) as asker:
            self.keep(asker, FIRST[0])
            for answer, wanted in ((codec.fault(2, 7, 1), [RESULT["FAULT"], 1, 0, 2, 0, 0]),
                                   (codec.fault(1), [RESULT["FAULT"], 1, 0, 1, 0, 0]),
                                   (codec.fault(3, 7, 2), [RESULT["STRAY"], 1, 0, 0, 0, 0]),
                                   (replied_to(FIRST[1]), [RESULT["STRAY"], 1, 0, 0, 0, 0]),
                                   (b"\x01", [RESULT["STRAY"], 1, 0, 0, 0, 0]),
                                   (b"", [RESULT["NO_ANSWER"], 1, 0, 0, 0, 0])):
                with self.subTest(answer.hex()):
                    self.assertEqual(asker.ask(f"hear {answer.hex()}"), wanted)
                    self.assertEqual(self.frame_of(asker), FIRST[0])
            # The first answer counts, whatever stands behind it.
            self.assertEqual(asker.ask(f"hear {(reply + reply).hex()}"), clients.told_by(reply, 1))
            self.assertEqual(asker.ask(f"hear {reply.hex()}"), [RESULT["NONE_WAITS"], 0, 0, 0, 0, 0])
            self.assertEqual(asker.ask("settled"), [4, 1, 1, 1736149800, 0, 0, 0, "00" * 32])
            self.assertEqual(asker.line(), clients.told_by(reply, 1))

    def test_a_second_touch_is_not_kept(self) -> None:
        self.create(capacity=2)
        with self.open([]) as asker:
            self.keep(asker, FIRST[0])
            before = self.file.read_bytes()
            self.assertEqual(self.keep(asker, FIRST[1]), [RESULT["EARLIER_WAITS"], 0, 0, 0, 0, 0])
            self.assertEqual((self.file.read_bytes(), self.frame_of(asker)), (before, FIRST[0]))
            asker.ask(f"hear {replied_to(FIRST[0]).hex()}")
            self.assertEqual(asker.ask("keep-none 1 1"), [RESULT["MISUSE"], 0, 0, 0, 0, 0])
            self.assertEqual(self.keep(asker, FIRST[1])[:2], [RESULT["KEPT"], 2])
            asker.ask(f"hear {replied_to(FIRST[1]).hex()}")
            self.assertEqual(self.keep(asker, FIRST[2]), [RESULT["NO_ROOM"], 0, 0, 0, 0, 0])

    def test_calls_that_send_keep_and_answer_at_once(self) -> None:
        self.create()
        with self.open([], times=(60_000, 60_000, 60_000, 60_000)) as asker:
            self.assertEqual(asker.ask(clients.act_of(FIRST[0])), [RESULT["NO_ANSWER"], 1, 0, 0, 0, 0])
            self.assertEqual(asker.ask("resend"), [RESULT["NO_ANSWER"], 1, 0, 0, 0, 0])
            self.assertEqual(asker.ask("enquire 1")[0], RESULT["NO_ANSWER"])
            self.assertEqual(asker.ask(clients.act_of(FIRST[1]))[0], RESULT["EARLIER_WAITS"])
            self.assertEqual(self.frame_of(asker), FIRST[0])
        self.assertEqual(self.file.read_bytes(), clients.file_of(FIRST[:1], 1000, 7))

    def test_each_call_on_the_file_fails_in_turn(self) -> None:
        log = clients.Log(clients.program("calls"))
        self.create()
        with self.open([], **log.options()) as asker:
            self.keep(asker, FIRST[0])
        numbers = sorted(log.numbers("pwrite") + log.numbers("fdatasync"))
        self.assertEqual(len(numbers), 4)
        for place, number in enumerate(numbers):
            with self.subTest(number):
                self.file.unlink()
                self.create()
                refusing = clients.Log(clients.program("calls"), REFUSE=number)
                with self.open([], **refusing.options()) as asker:
                    self.assertEqual(self.keep(asker, FIRST[0]), [RESULT["DEVICE"], 1, 0, 0, 0, 0])
                    self.assertEqual((self.frame_of(asker), asker.ask("error")), (b"", [5]))
                    for line in (f"keep-{clients.act_of(FIRST[0])}", f"hear {replied_to(FIRST[0]).hex()}"):
                        self.assertEqual(asker.ask(line), [RESULT["STOPPED"], 0, 0, 0, 0, 0])
                # The mark was written where its sync alone failed.
                with self.open([]) as asker:
                    self.assertEqual(self.frame_of(asker), FIRST[0] if place == 3 else b"")


class Shared(GateTest):
    """One file, used by the program over the crate gate_client and by the library in turn."""

    SENDER = harness.CRATES / "gate_send" / "out" / "gate_send"

    def setUp(self) -> None:
        super().setUp()
        if not self.SENDER.is_file():
            self.skipTest("gate_send: not built")

    def send(self, server: Planted, frames: Iterable[bytes], *more: str) -> list[str]:
        """What gate_send prints of these touches, and of what waited."""
        lines = "".join(f"at {each[-1]} {' '.join(each[:-1])}\n" for each in (clients.act_of(one).split() for one in frames))
        words = [str(self.SENDER), "--gate", "7", "--file", str(self.file), "--tries", "3", *more, server.text]
        done = subprocess.run(words, input=lines, capture_output=True, text=True, timeout=TIME)
        self.assertEqual((done.returncode, done.stderr), (0, ""))
        return done.stdout.split("\n")[:-1]

    @staticmethod
    def line_of(frame: bytes, answer: bytes) -> str:
        """The line of a touch and its answer: the fields of a history's row from the gate on."""
        kind, gate, number, card, *act = struct.unpack(codec.FORMS[frame[2]], frame[2:])
        where, pence = (act[0] if kind == one else "" for one in (kind if kind in (codec.ENTER, codec.LEAVE) else None,
                                                                  codec.TOP_UP))
        verdict, change, balance = struct.unpack(">Biq", answer[9:])
        return f"{gate},{number},{card},{codec.ACTS[kind]},{where},{pence},{model.VERDICTS[verdict]},{change},{balance}"

    def check_turns(self, frames: Sequence[bytes], first: str) -> None:
        """Touches that the two ask in turn, one each, and then the file, the history and each answer."""
        server, station = self.planted(), vector_file.read()[0].model()
        answers = [station.answer(frame) for frame in frames]
        lines = [self.line_of(frame, answer) for frame, answer in zip(frames, answers)]
        if first == "library":
            self.assertEqual(self.create(7, 1000)[0], CAUSE["OK"])
        for place, frame in enumerate(frames):
            if (place % 2 == 0) == (first == "library"):
                with self.open(server.text) as asker:
                    waiting = asker.ask("waiting")
                    self.assertEqual(waiting[1] if waiting else 0, place)
                    if place:
                        told = clients.earlier(clients.told_by(answers[place - 1], place))
                        self.assertEqual(asker.ask("resend"), told)
                    self.assertEqual(asker.ask(clients.act_of(frame)), clients.told_by(answers[place], place + 1))
            else:
                new = ["--new", "--capacity", "1000"] if place == 0 else []
                self.assertEqual(self.send(server, [frame], *new), lines[max(place - 1, 0):place + 1])
            self.assertEqual(self.file.read_bytes(), clients.file_of(frames[:place + 1], 1000, 7))
        self.assertEqual(server.station.history, frames)

    def test_each_goes_on_with_the_other_s_file(self) -> None:
        for first in ("library", "gate_send"):
            with self.subTest(first):
                self.file.unlink(missing_ok=True)
                self.check_turns(journey(7, [1]), first)

    def test_what_the_library_left_waiting_is_sent_by_gate_send(self) -> None:
        frames, server = FIRST[:3], self.planted()
        answers = [server.station.answer(frame) for frame in frames[:2]]
        self.create()
        with self.open(Told(self, [*answers, codec.fault(4, 7, 3)]).text) as asker:
            Careful(frames[:2]).run(asker)
            self.assertEqual(asker.ask(clients.act_of(frames[2])), [RESULT["FAULT"], 3, 0, 4, 0, 0])
        self.assertEqual(self.file.read_bytes(), clients.file_of(frames, 1000, 7))
        said = self.send(server, [])
        self.assertEqual(said, [self.line_of(frames[2], server.station.answer(frames[2]))])
        self.assertEqual(server.station.history, frames)

    def test_what_gate_send_left_waiting_is_sent_by_the_library(self) -> None:
        nobody = f"127.0.0.1:{harness.free_port()}"
        words = [str(self.SENDER), "--gate", "7", "--file", str(self.file), "--new", "--capacity", "1000", "--tries", "1",
                 nobody]
        done = subprocess.run(words, input="at 1736149800 issue 1\n", capture_output=True, text=True, timeout=TIME)
        self.assertEqual((done.returncode, done.stdout), (1, ""))
        self.assertEqual(self.file.read_bytes(), clients.file_of(FIRST[:1], 1000, 7))
        server, asking = self.planted(), Careful(FIRST)
        with self.open(server.text) as asker:
            asking.run(asker)
        self.assertEqual((server.station.history, asking.told()), (FIRST, clients.worked_out(FIRST)))

    def test_what_the_library_gave_up_is_not_sent_by_gate_send(self) -> None:
        third, server = codec.touch(codec.ISSUE, 7, 3, 1, 1736149800), self.planted()
        self.create()
        with self.open([]) as asker:
            asker.ask(f"keep-{clients.act_of(FIRST[0])}")
            asker.ask(f"hear {codec.fault(7, 7, 1).hex()}")
            self.assertEqual(asker.ask("give-up"), [RESULT["GIVEN_UP"], 1, 0, 0, 0, 0])
        self.assertEqual(self.send(server, [], "--resend"), [])
        self.assertEqual(self.send(server, [third]), ["7,3,1,issue,,,Issued,0,0"])
        self.assertEqual((server.station.history, self.file.read_bytes()),
                         ([third], clients.file_of([FIRST[0], FIRST[0], third], 1000, 7)))

    def test_one_of_them_has_it_at_a_time(self) -> None:
        self.create()
        words = [str(self.SENDER), "--gate", "7", "--file", str(self.file), "127.0.0.1:1"]
        with self.open("127.0.0.1:1") as asker:
            self.assertEqual(asker.opened[0], CAUSE["OK"])
            done = subprocess.run(words, input="", capture_output=True, text=True, timeout=TIME)
            self.assertEqual((done.returncode, done.stdout), (1, ""))
        # It has answered its first touch, so it has the file open, and waits for the next line of standard input.
        words[-1] = self.planted().text
        sender = subprocess.Popen(words, stdin=subprocess.PIPE, stdout=subprocess.PIPE, stderr=subprocess.PIPE, text=True)
        self.addCleanup(sender.communicate)
        self.addCleanup(sender.kill)
        assert sender.stdin and sender.stdout, "pipes"
        sender.stdin.write("at 1736149800 issue 1\n")
        sender.stdin.flush()
        answer = vector_file.read()[0].model().answer(FIRST[0])
        self.assertEqual(sender.stdout.readline(), self.line_of(FIRST[0], answer) + "\n")
        with self.open("127.0.0.1:1") as asker:
            self.assertEqual(asker.opened[0], CAUSE["IN_USE"])


class Refused(GateTest):
    """Each call of the system refused in turn, fallen short, or interrupted."""

    frames = FIRST

    def run_once(self, server: Planted, **more: int) -> tuple[bool, Careful]:
        """A making and a gate's run, of which a call is refused: whether one was."""
        log, asking = clients.Log(clients.program("calls"), **more), Careful(self.frames)
        try:
            told = self.create(**log.options())
            if told[0] == CAUSE["OK"]:
                with self.open(server.text, times=(80, 60, 1, 4), **log.options()) as asker:
                    self.ask_all(asker, asking)
                assert asker.end() in (0, 1), asker.process.returncode
        except Gone:
            raise AssertionError(f"the gate ended by status {asker.process.returncode}") from None
        is_refused = any(name == "refused" for name, _, _ in log.calls())
        if told[0] == CAUSE["DEVICE"] and not self.is_whole():
            # A making that was cut short is made again.
            self.file.unlink(missing_ok=True)
            assert self.create()[0] == CAUSE["OK"]
        return is_refused, asking

    def is_whole(self) -> bool:
        return self.file.exists() and clients.reading(self.file.read_bytes(), 7)[0] == CAUSE["OK"]

    def ask_all(self, asker: Asker, asking: Careful) -> None:
        """Asks for the touches as far as the refusal lets it."""
        if asker.opened[0] != CAUSE["OK"]:
            assert asker.opened[0] in (CAUSE["DEVICE"], CAUSE["MEMORY"]), asker.opened
            return
        limited = Limited(asker)
        try:
            asking.run(limited)
        except Gone:
            # After Device the gate is stopped, whatever it is asked.
            if limited.last[0] == RESULT["DEVICE"]:
                for line in (clients.act_of(self.frames[0]), "resend"):
                    assert asker.ask(line) == [RESULT["STOPPED"], 0, 0, 0, 0, 0]

    def check_refused(self, **more: int) -> bool:
        self.file.unlink(missing_ok=True)
        server = self.planted()
        is_refused, asking = self.run_once(server, **more)
        again = Careful(self.frames)
        again.replies = asking.replies
        with self.open(server.text) as asker:
            again.run(asker)
        assert server.station.history == self.frames, [frame.hex() for frame in server.station.history]
        assert again.told() == clients.worked_out(self.frames)
        return is_refused

    def test_each_call_is_refused_once_and_from_then_on(self) -> None:
        for onward in (0, 1):
            for number in range(1, 200):
                with self.subTest(number=number, onward=onward):
                    is_refused = self.check_refused(REFUSE=number, ONWARD=onward)
                if not is_refused:
                    break
            self.assertGreater(number, 45)

    def check_all_refused(self) -> None:
        for number in range(20, 40):
            self.check_refused(REFUSE=number)

    def check_parts(self) -> None:
        """A request of which the connection took the first bytes alone."""
        self.create()
        log = clients.Log(clients.program("calls"), SHORT=1)
        with self.open(self.planted().text, **log.options()) as asker:
            Careful(self.frames[:2]).run(asker)
        numbers = log.numbers("send")
        assert len(numbers) == sum(map(len, self.frames[:2]))
        for number in numbers[::4]:
            assert self.check_refused(SHORT=1, REFUSE=number)

    def test_a_request_that_was_cut_is_sent_again_over_another_connection(self) -> None:
        self.check_parts()

    def test_calls_that_fall_short_are_carried_on(self) -> None:
        for more in ({"SHORT": 1}, {"INTERRUPT": 1}, {"SHORT": 1, "INTERRUPT": 1}):
            with self.subTest(more):
                self.assertFalse(self.check_refused(**more))

    def test_a_connection_sends_at_once_and_is_kept_alive(self) -> None:
        self.create()
        log = clients.Log(clients.program("calls"))
        with self.open(self.planted().text, **log.options()) as asker:
            self.assertEqual(asker.ask("enquire 1")[0], RESULT["SHOWN"])
        settings = [(at, data) for name, at, data in log.calls() if name == "setsockopt"]
        on = struct.pack("=i", 1)
        # The level of TCP is told apart by its first setting, which stands before that of the socket.
        self.assertEqual(settings[:2], [(socket.TCP_NODELAY, on), (socket.SO_KEEPALIVE, on)])
        self.assertIn((socket.TCP_KEEPIDLE, struct.pack("=i", 30)), settings)

    def test_no_memory_is_taken_after_the_opening(self) -> None:
        self.create()
        log, server = clients.Log(clients.program("calls")), self.planted()
        with self.open(server.text, **log.options()) as asker:
            Careful(self.frames).run(asker)
            asker.ask("enquire 1")
        names = [name for name, _, _ in log.calls()]
        self.assertIn("memory", names)
        self.assertNotIn("memory", names[names.index("pwrite"):])


class Limited:
    """An asker that goes no further after three repeats in vain."""

    def __init__(self, asker: Asker) -> None:
        self.asker, self.opened, self.left = asker, asker.opened, 3
        self.last: Line = [None]

    def ask(self, line: str) -> Line:
        told = self.asker.ask(line)
        self.last = told or self.last
        self.left -= bool(told) and told[0] in clients.WAITS
        if not self.left:
            raise Gone("given up")
        return told
