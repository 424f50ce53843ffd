"""The tests of `gate_send --give-up`, for scripts/tests/test_gate_sends.py: a touch that a station refuses each time is
given up, and stays so."""
from bovtrila import codec
from sending import ANSWERED, FRAMES, MORNING, Scripted, SendTest, address_of, free_address, reply

# The faults after which a touch may be given up, and those after which the gate repeats it.
LAST = (codec.CONFLICT, codec.FULL, codec.UNKNOWN_TABLE, codec.NOT_ALLOWED)
GIVEN_UP = "7,1,1,issue,,,given-up,,"


class GivesUp(SendTest):
    """What is printed, stored and sent where a touch is given up."""

    def refused(self, fault: int = codec.NOT_ALLOWED) -> None:
        """Makes the gate's file, whose first touch a station refuses."""
        station = Scripted([codec.fault(fault, 7, 1)])
        self.assertEqual(self.send(MORNING[:1], "--new", station.address)[:2], (1, []))

    def test_a_touch_is_given_up_after_each_fault_that_repeats_do_not_change(self) -> None:
        for fault in LAST:
            with self.subTest(fault):
                self.file.unlink(missing_ok=True)
                self.refused(fault)
                station = Scripted([codec.fault(fault, 7, 1)])
                self.assertEqual(self.send(MORNING[1:], "--give-up", station.address), (0, [GIVEN_UP], ""))
                self.assertEqual(station.requests, FRAMES[:1])
                # It stands behind itself.
                self.assertEqual(self.kept(), [FRAMES[0], FRAMES[0]])

    def test_what_was_given_up_is_never_sent_again(self) -> None:
        self.refused()
        self.assertEqual(self.send([], "--give-up", Scripted([codec.fault(codec.NOT_ALLOWED, 7, 1)]).address)[0], 0)
        for more in (["--resend"], ["--give-up"]):
            # Nothing is sent: there is no station.
            self.assertEqual(self.send([], *more, free_address()), (0, [], ""))
        station = address_of(self.station())
        # The number 2 is used up.
        wanted = ["7,3,1,issue,,,Issued,0,0", "7,4,1,top-up,,2000,ToppedUp,2000,2000"]
        self.assertEqual(self.send(MORNING[:2], station), (0, wanted, ""))
        self.assertEqual(self.history(), wanted)

    def test_a_touch_that_is_answered_is_not_given_up(self) -> None:
        self.refused()
        station = address_of(self.station())
        self.assertEqual(self.send([], "--give-up", station), (0, ANSWERED[:1], ""))
        self.assertEqual(self.kept(), FRAMES[:1])

    def test_a_touch_waits_on_where_no_answer_comes(self) -> None:
        self.refused()
        ended = self.send([], "--give-up", "--tries", 2, free_address())
        self.assertEqual((ended[0], ended[1], ended[2].splitlines()[-2]), (1, [], "fault tries 2"))
        halted = Scripted([codec.fault(codec.HALTED, 7, 1), codec.fault(codec.MEMORY, 7, 1), reply(1, 8, 0, 0)])
        # Each of the two faults ends its connection.
        status, out, err = self.send([], "--give-up", halted.address)
        self.assertEqual((status, out, len(err.splitlines())), (0, ANSWERED[:1], 2), err)
        self.assertEqual(self.kept(), FRAMES[:1])

    def test_a_full_file_gives_up_nothing(self) -> None:
        station = Scripted([codec.fault(codec.FULL, 7, 1)] * 2)
        self.send(MORNING[:1], "--new", "--capacity", 1, station.address)
        self.assertFault(self.send([], "--give-up", station.address), "fault ask 3 Full")
        self.assertEqual(self.kept(), FRAMES[:1])

    def test_it_goes_with_no_other_way_to_send(self) -> None:
        status, out, err = self.send([], "--give-up", "--resend", free_address())
        self.assertEqual((status, out, err[:6]), (2, [], "error:"), err)

    def test_a_touch_that_was_recorded_before_stands_once(self) -> None:
        server = self.station()
        with server.connect() as gate:
            self.assertEqual(gate.ask(FRAMES[0])[2], codec.REPLY)
        self.refused()
        given_up = Scripted([codec.fault(codec.NOT_ALLOWED, 7, 1)])
        self.assertEqual(self.send([], "--give-up", given_up.address), (0, [GIVEN_UP], ""))
        wanted = ["7,3,1,top-up,,2000,ToppedUp,2000,2000"]
        self.assertEqual(self.send(MORNING[1:2], address_of(server)), (0, wanted, ""))
        self.assertEqual(self.history(), ANSWERED[:1] + wanted)
