"""Losses of power of a gate's disk: the files that each moment of a run of gate_send may leave, and the runs that continue
from them. For scripts/tests/test_gate_sends.py."""
import random
import re
import shutil
import subprocess
from collections.abc import Iterable, Iterator
from typing import NamedTuple

import power
from bovtrila import codec, layout, model
from harness import EXAMPLE, TIME, in_memory
from running import Server
from sending import SendTest, address_of, tag, touches_in, town

# A call of the system of a trace, with the path or the name of its first descriptor, its bytes and its numbers.
CALL = re.compile(r'\d+ +(?P<name>\w+)\(\d+<(?P<of>[^>]*)>(?:, "(?P<data>[^"]*)", \d+(?:, (?P<at>\d+))?.*)?\) += \d+')
# So many touches have a slot that lies in two sectors of a disk.
LINES, FRAMES, ROWS = town(8)
TABLE = model.Table(EXAMPLE.read_text())


class Event(NamedTuple):
    """What a run did to its file, sent to the station or printed."""

    name: str
    at: int
    data: bytes


class Moment(NamedTuple):
    """What a loss of power at a moment may leave of the file, how many touches were sent by then, and how many were told."""

    images: list[bytes]
    sent: int
    told: int


def bytes_of(text: str | None) -> bytes:
    """The bytes that strace shows in hexadecimal digits."""
    return bytes.fromhex((text or "").replace("\\x", ""))


def moments(events: Iterable[Event], step: int, image: bytes = b"", kept: int = 0) -> Iterator[Moment]:
    """The moments of a run over a file with these bytes and so many touches: before its first call, and after each."""
    draw, disk = random.Random(1), power.Disk(image)
    sent, told = kept, max(kept - 1, 0)
    yield Moment(disk.images(draw, step), sent, told)
    for event in events:
        if event.name == "sendto":
            sent = FRAMES.index(event.data) + 1
        elif event.name == "write":
            told = ROWS.index(event.data.decode().rstrip("\n")) + 1
        disk.call(*event)
        yield Moment(disk.images(draw, step), sent, told)


def kept_in(image: bytes, moment: Moment) -> int | None:
    """How many touches an image has, `None` where it is no gate's file. It has to have each that was sent, and at most the
    one more that is asked for."""
    kept = touches_in(image, tag(7))
    if kept is None:
        assert moment.sent == 0, f"no file, and {moment.sent} touches were sent: {image.hex()}"
        return None
    assert kept == FRAMES[:len(kept)], f"other touches: {image.hex()}"
    assert len(kept) in (moment.sent, moment.sent + 1), f"{len(kept)} are kept of {moment.sent} that were sent"
    return len(kept)


def is_unfinished(image: bytes) -> bool:
    """Whether a file with these bytes is taken for one whose making was cut off: a closed mark, and the journal's name, in
    which zeros may be in the place of bytes."""
    return image[:1] == b"\0" and all(byte in (0, wanted) for byte, wanted in zip(image[1:], b"OYSTERJ"))


class Power(SendTest):
    """Losses of power of the gate's disk. Each image that one may leave is a gate's file whose last touch is settled by
    `--resend`, under its number; then another touch is asked for, which gets the next number."""

    # In memory, where there is such a folder: the program syncs for each image.
    ROOM = in_memory(200)
    # What is asked for once an image is settled: another touch than the run that lost its power would have asked for.
    OTHER, OTHER_TOLD = "at 1736160000 issue 9", "9,issue,,,Issued,0,0"

    def setUp(self) -> None:
        super().setUp()
        if not shutil.which("strace"):
            self.skipTest("there is no strace")

    def events(self, image: bytes = b"", kept: int = 0) -> list[Event]:
        """What a run does that makes its file and asks for all touches, or goes on to their end from an image with so many:
        its calls on the file, what it sends, and what it prints."""
        trace, server = self.folder / "trace", self.station_with(kept)
        self.file.write_bytes(image)
        new: list[str | int] = [] if image else ["--new", "--capacity", 9]
        words = ["strace", "-f", "-qq", "-y", "-xx", "-s", "100", "-e", "trace=pwrite64,fdatasync,fsync,sendto,write", "-o",
                 str(trace), *self.words(*new, address_of(server))]
        done = subprocess.run(words, input="".join(f"{line}\n" for line in LINES[kept:]), capture_output=True, text=True,
                              timeout=TIME)
        server.kill()
        first = max(kept - 1, 0)
        self.assertEqual((done.returncode, done.stdout.splitlines(), done.stderr), (0, ROWS[first:], ""))
        found = []
        for call in CALL.finditer(trace.read_text()):
            is_on_file = bytes_of(call["of"]).decode() == str(self.file)
            if is_on_file or call["name"] in ("sendto", "write"):
                found.append(Event(call["name"], int(call["at"] or 0), bytes_of(call["data"])))
        self.assertEqual([event.data for event in found if event.name == "sendto"], FRAMES[first:])
        self.assertEqual([event.data.decode() for event in found if event.name == "write"],
                         [f"{row}\n" for row in ROWS[first:]])
        return found

    def other(self, number: int) -> bytes:
        """The frame of the other touch under this number."""
        return codec.touch(codec.ISSUE, 7, number, 9, 1736160000)

    def station_with(self, count: int) -> Server:
        """A station whose journal has so many of the touches."""
        (self.folder / "journal").write_bytes(layout.journal_of(FRAMES[:count], 1000, 10, TABLE.digest))
        return self.station()

    def recorded(self) -> list[bytes] | None:
        return touches_in((self.folder / "journal").read_bytes(), TABLE.digest)

    def go_on(self, image: bytes, kept: int, recorded: int) -> None:
        """Goes on from an image with so many touches, with a station that has recorded so many."""
        self.file.write_bytes(image)
        server = self.station_with(recorded)
        try:
            station, last = address_of(server), ROWS[:kept][-1:]
            self.assertEqual(self.send([], "--resend", station), (0, last, ""))
            self.assertEqual(self.recorded(), FRAMES[:kept])
            told = [*last, f"7,{kept + 1},{self.OTHER_TOLD}"]
            self.assertEqual(self.send([self.OTHER], station), (0, told, ""))
        finally:
            server.kill()
        self.assertEqual(self.recorded(), [*FRAMES[:kept], self.other(kept + 1)])
        self.assertEqual(self.kept(), self.recorded())

    def images(self, step: int = 1, content: bytes = b"", had: int = 0) -> list[tuple[bytes, int | None, int]]:
        """Each image that a loss of power may leave in the run, with how many touches it has and how many the station has
        recorded then: what it has answered, and perhaps what was sent to it."""
        found: dict[tuple[bytes, int], int | None] = {}
        for moment in moments(self.events(content, had), step, content, had):
            for image in moment.images:
                kept = kept_in(image, moment)
                found.update(((image, recorded), kept) for recorded in range(moment.told, moment.sent + 1))
        return [(image, kept, recorded) for (image, recorded), kept in found.items()]

    def test_a_run_without_one_of_its_syncs_would_be_seen(self) -> None:
        events = self.events()
        syncs = [at for at, event in enumerate(events) if event.name in ("fdatasync", "fsync")]
        unseen = []
        for at in syncs:
            try:
                for moment in moments(events[:at] + events[at + 1:], 32):
                    for image in moment.images:
                        kept_in(image, moment)
                unseen.append(syncs.index(at))
            except AssertionError:
                pass
        # Nothing rests on that of the opening, where the file is new, nor on the last one of the making: the next sync comes
        # before anything is sent.
        self.assertEqual(unseen, [0, 3])

    def test_an_image_of_a_making_has_no_touch(self) -> None:
        images = [image for image, kept, _ in self.images() if kept is None]
        self.assertGreater(len(images), 300)
        self.assertGreater(sum(map(is_unfinished, images)), 20)
        server = self.station_with(0)
        station, told = address_of(server), [f"7,1,{self.OTHER_TOLD}"]
        for image in images:
            with self.subTest(image=image.hex()):
                self.file.write_bytes(image)
                status, out, err = self.send([], "--resend", station)
                self.assertEqual((status, out, err.splitlines()[0]), (1, [], "fault gate-file 5 NoFile"))
                self.assertEqual(self.file.read_bytes(), image)
                if image and not is_unfinished(image):
                    # The bytes may be somebody's. The remedy: docs/reference/FAULTS.md, "Faults of gate_send".
                    self.assertEqual(self.send([self.OTHER], "--new", station)[0], 1)
                    self.assertEqual(self.file.read_bytes(), image)
                    self.file.unlink()
                self.assertEqual(self.send([self.OTHER], "--new", station), (0, told, ""))
                self.assertEqual((self.kept(), self.recorded()), ([self.other(1)], [self.other(1)]))

    def test_an_image_of_a_run_is_settled_and_no_number_is_used_twice(self) -> None:
        images = [(image, kept, recorded) for image, kept, recorded in self.images() if kept is not None]
        self.assertGreater(len(images), 1000)
        for image, kept, recorded in images:
            with self.subTest(image=image.hex(), recorded=recorded):
                self.go_on(image, kept, recorded)

    def test_a_second_loss_of_power_is_as_the_first(self) -> None:
        """The first one left open marks behind the touches, or whole touches that would count if they weren't closed."""
        whole = layout.journal_of(FRAMES[:5], 9, 1, tag(7))
        stale = layout.slot_of(codec.touch(codec.ISSUE, 7, 9, 3, 0))
        for behind in (b"\xa5" * 200, stale[1:] + 2 * stale):
            image = whole + behind
            for torn, kept, recorded in self.images(32, image, 5):
                with self.subTest(behind=behind[:4].hex(), image=torn.hex(), recorded=recorded):
                    assert kept is not None, "a gate's file"
                    self.go_on(torn, kept, recorded)
