"""The tests of the call that gives a touch up, for scripts/tests/test_gate_library.py: after which answers it does that, and
what is left then (docs/reference/GATE_LIBRARY.md, "To give a touch up"). gategivenupfiles.py has those of the file."""
import signal
import subprocess

import clients
from bovtrila import codec, wire
from clients import CAUSE, CLIENT, FIRST, RESULT, SOURCE, Asker, GateTest, Line, Told, replied_to
from gatecancels import Holding
from harness import TIME

# The faults after which a touch may be given up: Conflict, Full, UnknownTable and NotAllowed.
FAULTS = (2, 5, 6, 7)
ISSUE, EIGHT = FIRST[0], 1736150400
# The touch that follows when the first one is given up: number 2 is never used.
THIRD = codec.touch(codec.TOP_UP, 7, 3, 1, 2000, EIGHT)
GIVEN_UP = [RESULT["GIVEN_UP"], 1, 0, 0, 0, 0]
NOT_GIVEN_UP = [RESULT["NOT_GIVEN_UP"], 1, 0, 0, 0, 0]
NONE_WAITS = [RESULT["NONE_WAITS"], 0, 0, 0, 0, 0]
# A file of gate 7 with room for 1000 touches: the header, the issue of card 1 under number 1, and a top-up under number 3.
HEAD = bytes.fromhex("a5 4f59535445524a 32 000003e8 00000001 746f7563686573206f66206f6e6520676174652c206279206e756d626572"
                     "0007 000000000000000000000000000000")
SLOT_1 = bytes.fromhex("a5 04 0007 00000001 00000001 677b8b28") + bytes(48)
SLOT_3 = bytes.fromhex("a5 03 0007 00000003 00000001 000007d0 677b8d80") + bytes(44)
# The contents that follow one another when a touch is asked for and given up, and the next one is asked for.
CONTENTS = [HEAD + slots + b"\0" for slots in (b"", SLOT_1, 2 * SLOT_1, 2 * SLOT_1 + SLOT_3)]


class Refusing(Told):
    """A server that answers each touch of number 1 by a fault, and shows each card as vacant. On a busy machine the
    examples, whose times are those of the library, send a request again."""

    fault = 7

    def answer(self, frame: bytes) -> bytes | None:
        return codec.fault(self.fault, 7, 1) if wire.is_touch(frame) else codec.framed(">BBqI", codec.HOLDING, 0, 0, 0)


def frame_of(asker: Asker) -> bytes:
    """The frame that waits, or no bytes."""
    told = asker.ask("frame")
    return bytes.fromhex(told[1]) if told[0] else b""


def keep(asker: Asker, frame: bytes) -> Line:
    return asker.ask(f"keep-{clients.act_of(frame)}")


def hear(asker: Asker, answer: bytes) -> Line:
    return asker.ask(f"hear {answer.hex()}")


class GivingUp(GateTest):
    """The call that gives a touch up."""

    def check_given_up(self, asker: Asker) -> None:
        """Nothing waits, and the file has the touch twice."""
        self.assertEqual((asker.ask("waiting"), frame_of(asker), asker.ask("resend")), ([], b"", NONE_WAITS))
        self.assertEqual((asker.ask("give-up"), hear(asker, replied_to(ISSUE))), (NONE_WAITS, NONE_WAITS))
        self.assertEqual((self.file.read_bytes(), asker.ask("room")), (CONTENTS[2], [998]))

    def check_fault(self, code: int) -> None:
        self.file.unlink(missing_ok=True)
        self.create()
        server = Told(self, [codec.fault(code, 7, 1), replied_to(THIRD)])
        with self.open(server.text) as asker:
            self.assertEqual(asker.ask(clients.act_of(ISSUE)), [RESULT["FAULT"], 1, 0, code, 0, 0])
            self.assertEqual((self.file.read_bytes(), asker.ask("give-up")), (CONTENTS[1], GIVEN_UP))
            self.check_given_up(asker)
        for _ in range(2):
            with self.open(server.text) as asker:
                self.assertEqual(asker.opened, [CAUSE["OK"], 0, 0])
                self.check_given_up(asker)
        with self.open(server.text) as asker:
            self.assertEqual(asker.ask(clients.act_of(THIRD)), [RESULT["ACCEPTED"], 3, 8, 0, 0, 0])
        self.assertEqual((self.file.read_bytes(), server.asked), (CONTENTS[3], [ISSUE, THIRD]))
        with self.open([]) as asker:
            self.assertEqual((asker.ask("waiting")[:2], frame_of(asker)), ([codec.TOP_UP, 3], THIRD))

    def test_a_touch_that_a_server_cannot_accept_is_given_up(self) -> None:
        for code in FAULTS:
            with self.subTest(code):
                self.check_fault(code)

    def check_refused(self, asker: Asker) -> None:
        """The call gives nothing up, and the touch waits as before."""
        before = self.file.read_bytes()
        self.assertEqual((asker.ask("give-up"), frame_of(asker)), (NOT_GIVEN_UP, ISSUE))
        self.assertEqual(self.file.read_bytes(), before)

    def test_nothing_is_given_up_where_nothing_waits(self) -> None:
        self.create()
        with self.open(Told(self, [replied_to(ISSUE)]).text) as asker:
            self.assertEqual(asker.ask("give-up"), NONE_WAITS)
            asker.ask(clients.act_of(ISSUE))
            self.assertEqual(asker.ask("give-up"), NONE_WAITS)
        self.assertEqual(self.file.read_bytes(), CONTENTS[1])

    def check_other_answers(self) -> None:
        """After any other answer, or none, the touch may be recorded."""
        faults = [codec.fault(1), *(codec.fault(code, 7, 1) for code in (0, 3, 4, 8, 77, 255))]
        strays = [codec.fault(5, 7, 2), codec.fault(5), replied_to(THIRD)]
        rows = [(each, "FAULT") for each in faults] + [(each, "STRAY") for each in strays] + [(b"", "NO_ANSWER")]
        for answer, result in rows:
            self.file.unlink(missing_ok=True)
            self.create()
            server, times = Told(self, [answer] * bool(answer)), clients.PATIENT if answer else (300, 100, 1, 4)
            with self.open(server.text, times=times) as asker:
                self.assertEqual(asker.ask(clients.act_of(ISSUE))[0], RESULT[result])
                self.check_refused(asker)

    def test_a_touch_that_may_be_recorded_is_not_given_up(self) -> None:
        self.check_other_answers()

    def test_the_answer_to_the_last_send_counts(self) -> None:
        self.create()
        refusal, server = codec.fault(5, 7, 1), Told(self)
        with self.open(server.text) as asker:
            server.answers = [refusal, replied_to(THIRD), refusal, codec.fault(4, 7, 1)]
            self.assertEqual(asker.ask(clients.act_of(ISSUE))[0], RESULT["FAULT"])
            self.assertEqual(asker.ask("resend")[0], RESULT["STRAY"])
            self.check_refused(asker)
            self.assertEqual((asker.ask("resend")[3], asker.ask("resend")[3]), (5, 4))
            self.check_refused(asker)
        with self.open(server.text) as asker:
            # A start forgets the fault.
            self.check_refused(asker)
            # A call for another touch sends the one that waits, and an enquiry sends no touch.
            server.answers = [refusal, codec.framed(">BBqI", codec.HOLDING, 0, 0, 0), codec.fault(3)]
            self.assertEqual(asker.ask(clients.act_of(FIRST[1]))[0], RESULT["EARLIER_WAITS"])
            self.assertEqual((asker.ask("enquire 1")[0], asker.ask("enquire 1")[2]), (RESULT["SHOWN"], 3))
            self.assertEqual(asker.ask("give-up"), GIVEN_UP)
            self.check_given_up(asker)

    def test_a_fault_that_answers_an_enquiry_is_none_of_the_touch(self) -> None:
        self.create()
        server = Told(self, [codec.fault(4, 7, 1), codec.fault(7)])
        with self.open(server.text) as asker:
            asker.ask(clients.act_of(ISSUE))
            self.assertEqual(asker.ask("enquire 1"), [RESULT["FAULT"], 0, 7, 0, 0])
            self.check_refused(asker)

    def test_a_cancel_makes_no_difference(self) -> None:
        self.create()
        server = Told(self, [codec.fault(2, 7, 1)])
        with self.open(server.text) as asker:
            asker.ask(clients.act_of(ISSUE))
            # The cancelled call has sent nothing: the fault is still the answer to the last send.
            self.assertEqual((asker.ask("cancel"), asker.ask("resend")[0]), ([1], RESULT["CANCELLED"]))
            self.assertEqual(asker.ask("give-up"), GIVEN_UP)
            self.check_given_up(asker)
            self.assertEqual(asker.ask(clients.act_of(THIRD)), [RESULT["CANCELLED"], 3, 0, 0, 0, 0])
        self.assertEqual((self.file.read_bytes(), server.asked), (CONTENTS[3], [ISSUE]))

    def test_a_send_that_was_cancelled_has_no_answer(self) -> None:
        self.create()
        server = Holding(self)
        with self.open(server.text, times=(60_000, 60_000, 1, 4)) as asker:
            asker.write(clients.act_of(ISSUE))
            server.wait_for(1)
            recorded, server.answers[0] = server.answers[0], codec.fault(7, 7, 1)
            server.send(0)
            self.assertEqual(asker.line()[:4], [RESULT["FAULT"], 1, 0, 7])
            asker.write("resend")
            server.wait_for(2)
            asker.process.send_signal(signal.SIGUSR1)
            self.assertEqual((asker.line()[0], asker.ask("clear")), (RESULT["CANCELLED"], [1]))
            self.check_refused(asker)
            asker.write("resend")
            server.wait_for(3)
            server.send(2)
            self.assertEqual(asker.line(), clients.told_by(recorded, 1))

    def test_the_next_touch_does_not_wait_as_a_repeat_does(self) -> None:
        self.create()
        server = Told(self, [codec.fault(7, 7, 1), replied_to(THIRD)])
        with self.open(server.text, times=(5000, 5000, 3_600_000, 3_600_000)) as asker:
            self.assertEqual(asker.ask(clients.act_of(ISSUE))[0], RESULT["FAULT"])
            self.assertEqual(asker.ask("give-up"), GIVEN_UP)
            self.assertEqual(asker.ask(clients.act_of(THIRD))[:2], [RESULT["ACCEPTED"], 3])

    def test_a_gate_with_lines_of_its_own(self) -> None:
        self.create()
        refusal = codec.fault(2, 7, 1)
        with self.open([]) as asker:
            keep(asker, ISSUE)
            self.check_refused(asker)
            # What comes after the fault belongs to a later send of the frame.
            for later in (refusal[:3], b"", b"\x01", codec.fault(3, 7, 1)):
                self.assertEqual(hear(asker, refusal)[:4], [RESULT["FAULT"], 1, 0, 2])
                hear(asker, later)
                self.check_refused(asker)
            hear(asker, refusal)
            self.assertEqual(asker.ask("resend")[0], RESULT["NO_ANSWER"])
            self.assertEqual(asker.ask("give-up"), GIVEN_UP)
            self.check_given_up(asker)
            self.assertEqual(keep(asker, THIRD), [RESULT["KEPT"], 3, 0, 0, 0, 0])
            # The old fault doesn't give the next touch up, and the old reply isn't taken for its answer.
            self.assertEqual(asker.ask("give-up"), [RESULT["NOT_GIVEN_UP"], 3, 0, 0, 0, 0])
            self.assertEqual(hear(asker, replied_to(ISSUE)), [RESULT["STRAY"], 3, 0, 0, 0, 0])
            self.assertEqual(hear(asker, replied_to(THIRD))[:2], [RESULT["ACCEPTED"], 3])
        self.assertEqual(self.file.read_bytes(), CONTENTS[3])

    def test_a_full_file_gives_nothing_up(self) -> None:
        self.create(capacity=1)
        with self.open([]) as asker:
            keep(asker, ISSUE)
            self.assertEqual((asker.ask("room"), asker.ask("give-up")), ([0], NOT_GIVEN_UP))
            hear(asker, codec.fault(2, 7, 1))
            self.assertEqual(asker.ask("give-up"), [RESULT["NO_ROOM"], 1, 0, 0, 0, 0])
            self.assertEqual((frame_of(asker), hear(asker, replied_to(ISSUE))[0]), (ISSUE, RESULT["ACCEPTED"]))
        self.assertEqual(self.file.read_bytes(), clients.file_of([ISSUE], 1, 7) + b"\0")
        # The last place is room enough.
        self.file.unlink()
        self.create(capacity=2)
        with self.open([]) as asker:
            keep(asker, ISSUE)
            hear(asker, codec.fault(2, 7, 1))
            self.assertEqual((asker.ask("give-up"), asker.ask("room")), (GIVEN_UP, [0]))
            self.assertEqual(keep(asker, THIRD), [RESULT["NO_ROOM"], 0, 0, 0, 0, 0])
        for behind in (b"\0", b"", b"\xa5" * 100):
            self.write(clients.file_of([ISSUE, ISSUE], 2, 7) + behind)
            with self.open([]) as asker:
                self.assertEqual((asker.opened, asker.ask("waiting"), asker.ask("room")), ([CAUSE["OK"], 0, 0], [], [0]))

    def test_an_earlier_send_that_is_recorded_stands_once_and_is_never_told(self) -> None:
        self.create()
        station = self.planted()
        # The station records the first send, whose answer is lost. Then its door doesn't let the touch through.
        with self.open(Told(self).text, times=(300, 100, 1, 4)) as asker:
            self.assertEqual(asker.ask(clients.act_of(ISSUE))[0], RESULT["NO_ANSWER"])
            station.station.answer(ISSUE)
        with self.open(Told(self, [codec.fault(7, 7, 1)]).text) as asker:
            self.assertEqual((asker.ask("resend")[3], asker.ask("give-up")), (7, GIVEN_UP))
        for _ in range(2):
            with self.open(station.text) as asker:
                self.assertEqual(asker.ask("resend"), NONE_WAITS)
        with self.open(station.text) as asker:
            self.assertEqual(asker.ask(clients.act_of(THIRD)), [RESULT["ACCEPTED"], 3, 7, 0, 2000, 2000])
            asker.ask("settled")
            self.assertEqual(asker.line()[:2], [RESULT["ACCEPTED"], 3])
        self.assertEqual(station.station.history, [ISSUE, THIRD])

    def test_the_mark_of_a_reply_is_of_the_touch_that_was_settled(self) -> None:
        self.create()
        mark, second = self.file.with_name("7.done"), codec.touch(codec.TOP_UP, 7, 2, 1, 2000, EIGHT)
        with self.open([]) as asker:
            keep(asker, ISSUE)
            hear(asker, codec.fault(2, 7, 1))
            self.assertEqual((asker.ask("give-up"), asker.ask("done"), mark.exists()), (GIVEN_UP, [0], False))
        # A touch that is done, and one after it that is given up.
        self.file.unlink()
        self.create()
        with self.open([]) as asker:
            keep(asker, ISSUE)
            hear(asker, replied_to(ISSUE))
            keep(asker, second)
            hear(asker, codec.fault(2, 7, 2))
            self.assertEqual(asker.ask("give-up"), [RESULT["GIVEN_UP"], 2, 0, 0, 0, 0])
            self.assertEqual((asker.ask("done"), mark.read_bytes()), ([1], ISSUE.ljust(53, b"\0")))
            asker.ask("settled")
            self.assertEqual(asker.line(), [RESULT["ACCEPTED"], 1, 8, 0, 0, 0])
        fourth = codec.touch(codec.LEAVE, 7, 4, 1, 2, EIGHT)
        with self.open([]) as asker:
            self.assertEqual((asker.ask("waiting"), keep(asker, fourth)[:2]), ([], [RESULT["KEPT"], 4]))
            hear(asker, replied_to(fourth))
        # A touch after a given-up one waits after a start, until it is done.
        with self.open([]) as asker:
            self.assertEqual(hear(asker, replied_to(fourth))[:2], [RESULT["ACCEPTED_EARLIER"], 4])
            self.assertEqual(asker.ask("done"), [1])
        with self.open([]) as asker:
            self.assertEqual(asker.ask("waiting"), [])

    def test_a_conflict_at_a_real_server(self) -> None:
        server, other = self.serve(), codec.touch(codec.ISSUE, 7, 1, 2, EIGHT)
        with wire.Connection(server.address, TIME) as line:
            line.send(other)
            line.take()
        self.create()
        issue = codec.touch(codec.ISSUE, 7, 3, 1, EIGHT)
        with self.open(server.text) as asker:
            self.assertEqual(asker.ask(clients.act_of(ISSUE)), [RESULT["FAULT"], 1, 0, 2, 0, 0])
            self.assertEqual(asker.ask("give-up"), GIVEN_UP)
            self.assertEqual(asker.ask(clients.act_of(issue)), [RESULT["ACCEPTED"], 3, 8, 0, 0, 0])
        self.assertEqual(self.recorded(), [other, issue])

    def test_the_top_up_machine_gives_up_for_the_staff(self) -> None:
        program = clients.built(self.folder / "machine", [CLIENT / "examples" / "top_up_machine.c", SOURCE])
        subprocess.run([program, "--create", self.file, "7", "100"], check=True)
        server = Refusing(self)

        def said(*words: str, given: str = "") -> tuple[int, str]:
            done = subprocess.run([program, *words, self.file, "7", server.text], input=given, capture_output=True,
                                  text=True, timeout=TIME)
            self.assertEqual(done.stderr, "")
            return done.returncode, done.stdout

        told = "card 1 was never issued\nkept: it will be on the card later (fault)\n"
        self.assertEqual(said(given="1 2000\n"), (0, told))
        server.fault = 4
        self.assertEqual(said("--give-up"), (1, "not given up: number 1\n"))
        server.fault = 7
        told = "given up: number 1, card 1, 2000 pence: give the money back if the history doesn't have it\n"
        self.assertEqual(said("--give-up"), (0, told))
        self.assertEqual(said("--give-up"), (0, "nothing waits\n"))
        self.assertEqual({frame[2:9] for frame in server.asked if wire.is_touch(frame)}, {b"\3\0\7\0\0\0\1"})
