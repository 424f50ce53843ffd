"""The tests of a gate's file with given-up touches, for scripts/tests/test_gate_library.py: what it is read as, and what it
has after a loss of power or a failed call (docs/reference/JOURNAL.md, "A gate's file")."""
import errno
import random
from collections.abc import Iterable
from typing import Any

import clients
import power
from bovtrila import codec, layout
from clients import CAUSE, RESULT, Asker, GateTest, Gone, Line, replied_to
from gategivenup import (CONTENTS, EIGHT, GIVEN_UP, ISSUE, NOT_GIVEN_UP, SLOT_1, THIRD, GivingUp, frame_of, hear, keep)


class GivenUpFiles(GateTest):
    """What a file with a given-up touch is read as, and what a disk that fails leaves of one."""

    def opening(self, frames: Iterable[bytes], behind: bytes = b"\0", capacity: int = 1000) -> tuple[Line, int]:
        """What the opening of a file of these touches comes to, and the number of the touch that waits."""
        self.write(layout.journal_of(frames, capacity, 1, clients.tag(7))[:-1] + behind)
        with self.open([]) as asker:
            if asker.opened[0] != CAUSE["OK"]:
                return asker.opened, 0
            waiting = asker.ask("waiting")
            return asker.opened, waiting[1] if waiting else 0

    def check_reading(self) -> None:
        first, second, third, fourth = (codec.touch(codec.ISSUE, 7, number, 1, EIGHT) for number in range(1, 5))
        zero, foreign = codec.touch(codec.ISSUE, 7, 0, 1, EIGHT), codec.touch(codec.ISSUE, 8, 1, 1, EIGHT)
        for name, frames, place, waiting in (
                ("given up", [first, first], None, 0), ("a touch follows", [first, first, third], None, 3),
                ("given up again", [first, first, third, third], None, 0), ("the second", [first, second, second], None, 0),
                ("before the first", [zero], 0, 0), ("before the first, twice", [zero, zero], 0, 0),
                ("twice", [first, first, first], 2, 0), ("twice, and goes on", [first, first, first, fourth], 2, 0),
                ("its number is used", [first, first, second], 2, 0), ("an older one", [first, second, first], 2, 0),
                ("another gate's", [foreign, foreign], 0, 0), ("a later number", [third, third], 0, 0)):
            with self.subTest(name):
                opened = [CAUSE["OK"], 0, 0] if place is None else [CAUSE["FOREIGN"], place, 0]
                self.assertEqual(self.opening(frames), (opened, waiting))
        # A damaged slot is told before a foreign one.
        self.assertEqual(self.opening([first] * 3, b"\xa5\5" + bytes(62)), ([CAUSE["DAMAGED"], 3, 0], 0))
        # A slot's bytes that follow its touch aren't read.
        self.assertEqual(self.opening([first], layout.slot_of(first)[:-1] + b"\x99\0"), ([CAUSE["OK"], 0, 0], 0))

    def test_what_a_given_up_touch_is_read_as(self) -> None:
        self.check_reading()

    def test_a_touch_that_differs_in_one_field_gives_nothing_up(self) -> None:
        digest = bytes(range(32))
        for kind, fields in ((codec.ENTER, (2, EIGHT)), (codec.LEAVE, (2, EIGHT)), (codec.TOP_UP, (2000, EIGHT)),
                             (codec.ISSUE, (EIGHT,)), (codec.REVISE, (digest, 20_458, EIGHT))):
            values: list[Any] = [kind, 7, 1, 5, *fields]
            frame = codec.touch(*values)
            self.assertEqual(self.opening([frame, frame]), ([CAUSE["OK"], 0, 0], 0))
            for at, value in enumerate(values):
                other = values[:at] + [value[:-1] + b"\0" if isinstance(value, bytes) else value + 1] + values[at + 1:]
                if at == 0 and kind != codec.ENTER:
                    # Only a touch in and a touch out have the same fields.
                    continue
                with self.subTest(kind=kind, at=at):
                    wanted = [CAUSE["OK"], 0, 0] if at == 2 else [CAUSE["FOREIGN"], 1, 0]
                    self.assertEqual(self.opening([frame, codec.touch(*other)])[0], wanted)

    def test_a_given_up_touch_where_the_reading_begins_anew(self) -> None:
        frames = [codec.touch(codec.ISSUE, 7, number, 1, 0) for number in range(1, 300)]
        for count in (62, 63, 64, 65, 128, 299):
            with self.subTest(count):
                self.assertEqual(self.opening(frames[:count] + frames[count - 1:count]), ([CAUSE["OK"], 0, 0], 0))
                with self.open([]) as asker:
                    self.assertEqual(asker.ask("keep-issue 1 0")[:2], [RESULT["KEPT"], count + 2])

    def go_on(self) -> None:
        """Opens the file that is left, and does what is left to do: in the end the first touch is given up once, and the
        next one has number 3."""
        content = self.file.read_bytes()
        cause, _, touches = clients.reading(content, 7)
        assert cause == CAUSE["OK"], content.hex()
        with self.open([]) as asker:
            waiting = asker.ask("waiting")
            assert (waiting[1] if waiting else 0) == (0, 1, 0, 3)[len(touches)], (waiting, touches)
            if not touches:
                assert keep(asker, ISSUE)[:2] == [RESULT["KEPT"], 1]
            if len(touches) < 2:
                assert asker.ask("give-up") == NOT_GIVEN_UP
                hear(asker, codec.fault(2, 7, 1))
                assert asker.ask("give-up") == GIVEN_UP
            if len(touches) < 3:
                assert keep(asker, THIRD)[:2] == [RESULT["KEPT"], 3]
        assert self.file.read_bytes() == CONTENTS[3], self.file.read_bytes().hex()

    def give_up(self, **more: object) -> tuple[clients.Log, list[Line]]:
        """A gate that asks for a touch and gives it up, with a trouble in the calls of the system, as far as it comes: what
        it says of each."""
        self.file.unlink(missing_ok=True)
        self.create()
        log, told = clients.Log(clients.program("calls"), **more), []
        try:
            with self.open([], **log.options()) as asker:
                for line in (f"keep-{clients.act_of(ISSUE)}", f"hear {codec.fault(2, 7, 1).hex()}", "give-up"):
                    told.append(asker.ask(line))
                if told[-1][0] == RESULT["DEVICE"]:
                    self.check_stopped(asker)
        except Gone as gone:
            assert str(gone) in ("the gate ended by status 9", "the gate takes no line"), gone
        return log, told

    @staticmethod
    def check_stopped(asker: Asker) -> None:
        assert (asker.ask("waiting"), frame_of(asker), asker.ask("error")) == ([], b"", [errno.EIO])
        for line in ("give-up", "resend", f"keep-{clients.act_of(THIRD)}", f"hear {replied_to(ISSUE).hex()}"):
            assert asker.ask(line) == [RESULT["STOPPED"], 0, 0, 0, 0, 0]

    def test_a_write_that_is_cut_at_each_byte_leaves_the_touch_waiting_or_given_up(self) -> None:
        for write, size in ((3, 64), (4, 1)):
            for cut in range(size + 1):
                with self.subTest(write=write, cut=cut):
                    _, told = self.give_up(CUT=f"{write}:{cut}")
                    self.assertEqual(len(told), 2)
                    slots = 1 + (write == 4 and cut == 1)
                    self.assertEqual(clients.reading(self.file.read_bytes(), 7)[2], [ISSUE] * slots)
                    self.go_on()

    def test_a_gate_that_is_killed_before_each_call_goes_on(self) -> None:
        for number in range(1, 100):
            with self.subTest(number):
                _, told = self.give_up(KILL=number)
                self.go_on()
            if len(told) == 3:
                break
        self.assertGreater(number, 15)

    def test_the_calls_are_those_of_an_append(self) -> None:
        log, told = self.give_up()
        self.assertEqual((told[-1], self.file.read_bytes()), (GIVEN_UP, CONTENTS[2]))
        self.assertEqual(log.calls()[-4:], [("pwrite", 129, SLOT_1[1:] + b"\0"), ("fdatasync", 0, b""),
                                            ("pwrite", 128, b"\xa5"), ("fdatasync", 0, b"")])

    def check_refusals(self) -> None:
        """Each call on the file is refused while the touch is given up."""
        log, _ = self.give_up()
        numbers = sorted(log.numbers("pwrite") + log.numbers("fdatasync"))
        assert len(numbers) == 8
        for place, number in enumerate(numbers[4:]):
            for onward in (0, 1):
                _, told = self.give_up(REFUSE=number, ONWARD=onward)
                assert told[-1] == [RESULT["DEVICE"], 1, 0, 0, 0, 0], told
                # The touch is given up where the last sync alone failed.
                assert clients.reading(self.file.read_bytes(), 7)[2] == [ISSUE] * (1 + (place == 3))
                self.go_on()

    def test_each_call_on_the_file_fails_in_turn(self) -> None:
        self.check_refusals()
        for more in ({"SHORT": 1}, {"INTERRUPT": 1}, {"SHORT": 1, "INTERRUPT": 1}):
            self.assertEqual(self.give_up(**more)[1][-1], GIVEN_UP)
            self.assertEqual(self.file.read_bytes(), CONTENTS[2])

    def check_torn(self) -> int:
        """Each moment's losses of power, with any bytes where a write wasn't synced."""
        log, _ = self.give_up()
        with self.open([], **log.options()) as asker:
            keep(asker, THIRD)
        draw, disk, syncs, count = random.Random(7), power.Disk(CONTENTS[0]), 0, 0
        for name, at, data in log.calls():
            if name not in ("pwrite", "fdatasync"):
                continue
            disk.call(name, at, data)
            syncs += name == "fdatasync"
            for image in disk.images(draw, 8):
                self.write(image)
                cause, _, touches = clients.reading(image, 7)
                assert cause == CAUSE["OK"] and len(touches) in (syncs // 2, syncs // 2 + 1), image.hex()
                self.go_on()
                count += 1
        return count

    def test_a_torn_write_leaves_what_was_before(self) -> None:
        self.assertGreater(self.check_torn(), 150)


# Planted faults, as in scripts/tests/test_gate_library.py: the text of the source, what stands in its place, and the check
# that finds it.
FLAWS: dict[str, tuple[Any, ...]] = {
    "it waits for a given-up touch after an opening": (
        "    gate->waits = !gives_up(gate, frame);\n    if (foreign->cause == BOVTRILA_FILE_OK && gate->waits\n",
        "    gate->waits = 1;\n    if (foreign->cause == BOVTRILA_FILE_OK && !gives_up(gate, frame)\n",
        GivingUp, "check_fault", 2),
    "it takes another touch of the number for the same": (
        "gate->asked && memcmp(frame, gate->last, sizeof gate->last) == 0;", "gate->asked;",
        GivenUpFiles, "test_a_touch_that_differs_in_one_field_gives_nothing_up"),
    "it reads a touch that is given up twice": (
        "    return take(frame + 5, 4) == gate->asked && memcmp", "    return memcmp", GivenUpFiles, "check_reading"),
    "it gives up after any answer": (
        "    if (!may_be_given_up(gate->fault))\n", "    if (!may_be_given_up(gate->fault) && 0)\n",
        GivingUp, "check_other_answers"),
    "it gives up after a fault to an earlier send": (
        "        if (request == gate->last)\n            gate->fault = 0;\n", "",
        GivingUp, "test_the_answer_to_the_last_send_counts"),
    "it gives up after a fault that it heard before": (
        "    gate->fault = 0;\n    enum beginning", "    enum beginning",
        GivingUp, "test_a_gate_with_lines_of_its_own"),
    "it gives the next touch up by the fault of the one before": (
        "    gate->fault = 0;\n    gate->waits = add_last(gate);", "    gate->waits = add_last(gate);",
        GivingUp, "test_a_gate_with_lines_of_its_own"),
    "it doesn't keep that a touch is given up": (
        "    if (!add_last(gate))\n        return cause_of(BOVTRILA_DEVICE, number);\n", "", GivingUp, "check_fault", 2),
    "it gives up in a full file": (
        "    if (gate->asked == gate->capacity)\n        return cause_of(BOVTRILA_NO_ROOM, number);\n", "",
        GivingUp, "test_a_full_file_gives_nothing_up"),
    "it waits on after the disk failed": (
        "    gate->waits = 0;\n    if (!add_last(gate))\n        return",
        "    if (add_last(gate))\n        gate->waits = 0;\n    else\n        return", GivenUpFiles, "check_refusals"),
    "it waits before the next touch as before a repeat": (
        "    begin_anew(gate);\n    return cause_of(BOVTRILA_GIVEN_UP, number);",
        "    return cause_of(BOVTRILA_GIVEN_UP, number);",
        GivingUp, "test_the_next_touch_does_not_wait_as_a_repeat_does"),
}
