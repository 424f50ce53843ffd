"""Tests gate_send, a gate's program, with a real server: what it prints, stores and sends, its faults, kills of it
and of the server at each call of the system, losses of power of its disk, and answers that are lost.

    pytest-3 scripts/tests/test_gate_sends.py                         each test, with 1000 touches for the relay
    TOUCHES=10000 pytest-3 scripts/tests/test_gate_sends.py -k Relay  only those with the relay, with this number of touches

It needs crates/gate_send/out/gate_send and crates/tap_server/out/tap_server, which `rt ci` leaves there, and for the
kills and the losses of power `strace`. All traffic stays on 127.0.0.1.
"""
import os
import re
import shutil
import socket
import subprocess
import threading
import time
from collections.abc import Iterable
from typing import IO, Any

from bovtrila import codec
# Their tests are run with those that stand here.
from harness import EXAMPLE, PROGRAM, TIME, TOP
from gategivesup import GivesUp  # noqa: F401
from gatejudged import Judged, Starts  # noqa: F401
from gatelines import Files, Lines  # noqa: F401
from gatepower import Power  # noqa: F401
from sending import ANSWERED, FRAMES, GATE_SEND, MORNING, Scripted, SendTest, address_of, free_address, reply, town

# How many touches go through a relay.
TOUCHES = int(os.environ.get("TOUCHES", 1000))
# Refusals of the example table, at 2025-01-06: each with the number that follows the morning's.
REFUSED = [("at 1736152000 in 99 2", "99,in,2,,UnknownCard,0,0"), ("at 1736152000 issue 1", "1,issue,,,AlreadyIssued,0,0"),
           ("at 1736152000 in 1 9", "1,in,9,,UnknownStation,0,0"), ("at 1736151000 in 1 2", "1,in,2,,Backwards,0,0"),
           ("at 1736152000 top-up 1 0", "1,top-up,,0,BadAmount,0,0"),
           ("at 1736152000 out 1 65535", "1,out,65535,,UnknownStation,0,0")]


class Replies(SendTest):
    """What is printed, kept and recorded."""

    def test_a_morning_is_answered_as_by_the_page(self) -> None:
        station = address_of(self.station())
        self.assertEqual(self.send(MORNING, "--new", station), (0, ANSWERED, ""))
        self.assertEqual(self.history(), ANSWERED)
        self.assertEqual(self.kept(), FRAMES)

    def test_a_further_run_begins_with_the_last_touch(self) -> None:
        station = address_of(self.station())
        self.assertEqual(self.send(MORNING[:2], "--new", station), (0, ANSWERED[:2], ""))
        self.assertEqual(self.send(MORNING[2:], station), (0, ANSWERED[1:], ""))
        self.assertEqual(self.send(MORNING, "--resend", station), (0, ANSWERED[3:], ""))
        self.assertEqual(self.history(), ANSWERED)

    def test_refusals_are_told_by_their_names(self) -> None:
        station = address_of(self.station())
        lines = MORNING + [line for line, _ in REFUSED]
        wanted = ANSWERED + [f"7,{number}," + row for number, (_, row) in enumerate(REFUSED, 5)]
        status, out, err = self.send(lines, "--new", station)
        self.assertEqual((status, err), (0, ""))
        # A refusal has the balance that the card holds, which is 1650 where it is card 1.
        wanted = [row if ",99," in row or number < 4 else row[:-1] + "1650" for number, row in enumerate(wanted)]
        self.assertEqual(out, wanted)
        self.assertEqual(self.history(), wanted)

    def test_a_line_without_a_moment_is_of_now(self) -> None:
        station = address_of(self.station())
        before = int(time.time())
        self.assertEqual(self.send(["issue 2"], "--new", station), (0, ["7,1,2,issue,,,Issued,0,0"], ""))
        moment = int.from_bytes(self.kept()[0][-4:], "big")
        self.assertTrue(before <= moment <= time.time())

    def test_an_enquiry_is_answered_and_stored_nowhere(self) -> None:
        station = address_of(self.station())
        lines = ["enquire 1", *MORNING[:3], "enquire 1", *MORNING[3:], "enquire 1", "enquire 4294967295"]
        wanted = ["7,,1,enquiry,,,vacant,,0", *ANSWERED[:3], "7,,1,enquiry,,,inside,,1100", *ANSWERED[3:],
                  "7,,1,enquiry,,,outside,,1650", "7,,4294967295,enquiry,,,vacant,,0"]
        self.assertEqual(self.send(lines, "--new", station), (0, wanted, ""))
        self.assertEqual(self.history(), ANSWERED)
        self.assertEqual(self.kept(), FRAMES)

    def test_a_file_without_touches_asks_for_none(self) -> None:
        station = free_address()
        self.assertEqual(self.send([], "--new", station), (0, [], ""))
        self.assertEqual(self.send([], "--resend", station), (0, [], ""))
        self.assertEqual(self.kept(), [])

    def test_a_verdict_without_a_name_is_told_by_its_number(self) -> None:
        station = Scripted([reply(1, 12, 5, -5), reply(2, 200, 0, 2**40)])
        status, out, _ = self.send(MORNING[:2], "--new", station.address)
        self.assertEqual((status, out), (0, ["7,1,1,issue,,,verdict 12,5,-5", f"7,2,1,top-up,,2000,verdict 200,0,{2**40}"]))


class Faults(SendTest):
    """The faults of a touch and of the station."""

    def test_a_full_file_is_told_and_asked_no_more(self) -> None:
        station = address_of(self.station())
        ended = self.send(MORNING, "--new", "--capacity", 2, station)
        self.assertFault(ended, "fault ask 3 Full", ANSWERED[:2])
        self.assertEqual(self.history(), ANSWERED[:2])

    def test_a_touch_that_no_station_answers_waits(self) -> None:
        ended = self.send(MORNING, "--new", "--tries", 3, free_address())
        err = ended[2].splitlines()
        self.assertEqual((ended[0], ended[1], err[-2]), (1, [], "fault tries 3"))
        self.assertEqual(err[-1], f"  {self.file}: gate 7 number 1 waits; settle it by --resend")
        self.assertEqual([re.sub(r":\d+", "", line) for line in err[:-2]], ["again 127.0.0.1 connect"] * 3)
        self.assertEqual(self.kept(), FRAMES[:1])
        station = address_of(self.station())
        self.assertEqual(self.send([], "--resend", station), (0, ANSWERED[:1], ""))

    def test_an_enquiry_that_no_station_answers_is_told(self) -> None:
        status, out, err = self.send(["enquire 1", "issue 1"], "--new", "--tries", "2", free_address())
        self.assertEqual((status, out, err.splitlines()[-2:]), (1, [], ["fault enquiry tries 2", "  card 1"]))
        self.assertEqual(self.kept(), [])

    def test_a_conflict_and_a_full_station_are_told_and_the_touch_waits(self) -> None:
        server = self.station(capacity=1)
        other = codec.touch(codec.ISSUE, 7, 1, 5, 1736149800)
        with server.connect() as gate:
            self.assertEqual(gate.ask(other)[2], codec.REPLY)
        for more in (["--new"], ["--resend"]):
            behind = self.assertFault(self.send(MORNING, *more, address_of(server)), "fault answer 2 Conflict")
            self.assertEqual(behind, [f"  {self.file}: gate 7 number 1 waits; settle it by --resend"])
        self.file.unlink()
        self.assertFault(self.send(MORNING, "--new", address_of(server), gate=8), "fault answer 5 Full")

    def test_what_a_door_does_not_let_through_is_told_and_a_touch_waits(self) -> None:
        refused = codec.fault(codec.NOT_ALLOWED, 7, 1)
        station = Scripted([refused, refused, reply(1, 8, 0, 0)])
        for more in (["--new"], ["--resend"]):
            behind = self.assertFault(self.send(MORNING[:1], *more, station.address), "fault answer 7 NotAllowed")
            self.assertEqual(behind, [f"  {self.file}: gate 7 number 1 waits; settle it by --resend"])
        self.assertEqual(self.send([], "--resend", station.address), (0, ANSWERED[:1], ""))
        self.assertEqual(station.requests, FRAMES[:1] * 3)

    def test_an_enquiry_that_a_door_does_not_let_through_is_told(self) -> None:
        station = Scripted([codec.fault(codec.NOT_ALLOWED)])
        behind = self.assertFault(self.send(["enquire 1", "issue 1"], "--new", station.address),
                                  "fault enquiry answer 7 NotAllowed")
        self.assertEqual((behind, station.requests), (["  card 1"], [codec.enquiry(1)]))
        self.assertEqual(self.kept(), [])

    def test_a_new_journal_charges_the_last_touch_again_unless_it_is_of_card_0(self) -> None:
        # docs/reference/PROTOCOL.md, "A new journal".
        refused = ["7,5,0,out,0,,UnknownCard,0,0"]
        rows: list[tuple[list[str], list[str], list[str]]] = [
            ([], ANSWERED, ["7,4,1,out,1,,ExitedUnstarted,-900,750"]),
            (["at 1736160000 out 0 0"], ANSWERED + refused, refused)]
        for last, ends, starts in rows:
            with self.subTest(last=last):
                self.file.unlink(missing_ok=True)
                server = self.station()
                self.assertEqual(self.send([*MORNING, *last], "--new", address_of(server)), (0, ends, ""))
                server.kill()
                (self.folder / "journal").unlink()
                server = self.station()
                with server.connect() as transfer:
                    for frame in (codec.touch(codec.ISSUE, 65_535, 1, 1, 1736140000),
                                  codec.touch(codec.TOP_UP, 65_535, 2, 1, 1650, 1736140000)):
                        self.assertEqual(transfer.ask(frame)[2], codec.REPLY)
                self.assertEqual(self.send([], "--resend", address_of(server)), (0, starts, ""))
                server.kill()
                (self.folder / "journal").unlink()

    def test_a_full_station_keeps_a_last_touch_of_card_0_for_the_new_journal(self) -> None:
        server = self.station(capacity=len(MORNING))
        self.assertFault(self.send([*MORNING, "out 0 0"], "--new", address_of(server)), "fault answer 5 Full", ANSWERED)
        server.kill()
        (self.folder / "journal").unlink()
        self.assertEqual(self.send([], "--resend", address_of(self.station())),
                         (0, ["7,5,0,out,0,,UnknownCard,0,0"], ""))

    def test_other_faults_and_strays_are_told_and_the_touch_is_sent_again(self) -> None:
        first = reply(1, 8, 0, 0)
        answers = [codec.fault(3, 7, 1), codec.fault(4, 7, 1), codec.fault(1, 0, 0), reply(2, 8, 0, 0),
                   reply(1, 8, 0, 0, gate=8), first[:9], None, b"\0\x01x", first]
        station = Scripted(answers[:5] + answers[6:])
        status, out, err = self.send(MORNING[:1], "--new", station.address)
        self.assertEqual((status, out), (0, ANSWERED[:1]))
        said = [line.split(" ", 2)[2] for line in err.splitlines()]
        self.assertEqual(said, ["hear 3 Refused 3", "hear 3 Refused 4", "hear 2 Stray", "hear 2 Stray", "hear 2 Stray",
                                "hear 1 NoAnswer", "hear 1 NoAnswer"])
        self.assertEqual(station.requests, FRAMES[:1] * 8)

    def test_addresses_are_taken_in_turn(self) -> None:
        station = address_of(self.station())
        dead = free_address()
        status, out, err = self.send(MORNING, "--new", dead, dead, station)
        self.assertEqual((status, out, err), (0, ANSWERED, f"again {dead} connect\n" * 2))

    def test_the_next_address_is_tried_without_a_pause(self) -> None:
        """docs/reference/PROTOCOL.md, "When to repeat, and how often". A pause would be of 15 to 30 seconds."""
        words = self.words("--new", free_address(), free_address(), address_of(self.station()), pause=30_000)
        begun = time.monotonic()
        done = subprocess.run(words, input=MORNING[0], capture_output=True, text=True, timeout=TIME)
        self.assertLess(time.monotonic() - begun, 15)
        self.assertEqual((done.returncode, done.stdout, done.stderr.count("\n")), (0, ANSWERED[0] + "\n", 2))

    def test_a_pause_follows_when_each_address_has_failed(self) -> None:
        """The first pause is of 6 to 12 seconds."""
        first, second = free_address(), free_address()
        words = self.words("--new", "--tries", 4, first, second, pause=12_000)
        with subprocess.Popen(words, stdin=subprocess.PIPE, stderr=subprocess.PIPE, text=True) as gate:
            assert gate.stdin is not None and gate.stderr is not None
            gate.stdin.write(MORNING[0])
            gate.stdin.close()
            said = [(line, time.monotonic()) for line in gate.stderr]
        self.assertEqual([line for line, _ in said[:4]], [f"again {address} connect\n" for address in (first, second) * 2])
        gaps = [later - earlier for (_, earlier), (_, later) in zip(said[:3], said[1:4])]
        self.assertLess(gaps[0], 5.5)
        self.assertGreater(gaps[1], 5.9)
        self.assertLess(gaps[2], 5.5)

    def test_a_connection_that_ended_while_it_was_idle_is_no_failure(self) -> None:
        """No pause follows, which would be of 15 to 30 seconds."""
        station = Scripted([reply(1, 8, 0, 0), None, reply(2, 7, 2000, 2000)])
        begun = time.monotonic()
        done = self.send(MORNING[:2], "--new", station.address, pause=30_000)
        self.assertLess(time.monotonic() - begun, 14)
        self.assertEqual(done, (0, ANSWERED[:2], f"again {station.address} hear 1 NoAnswer\n"))
        self.assertEqual(station.requests, [FRAMES[0], FRAMES[1], FRAMES[1]])

    def test_a_station_that_is_silent_is_given_up(self) -> None:
        with socket.create_server(("127.0.0.1", 0)) as silent:
            address = f"127.0.0.1:{silent.getsockname()[1]}"
            words = self.words("--new", address, address_of(self.station()), timeout=3000)
            begun = time.monotonic()
            done = subprocess.run(words, input=MORNING[0], capture_output=True, text=True, timeout=TIME)
            self.assertLess(time.monotonic() - begun, 15)
        self.assertEqual((done.returncode, done.stdout, done.stderr),
                         (0, ANSWERED[0] + "\n", f"again {address} hear 1 NoAnswer\n"))

    def test_a_write_that_fails_is_told_and_the_touch_was_kept(self) -> None:
        station = address_of(self.station())
        with open("/dev/full", "w") as full:
            done = subprocess.run(self.words("--new", station), input="\n".join(MORNING), stdout=full,
                                  stderr=subprocess.PIPE, text=True, timeout=TIME)
        self.assertEqual((done.returncode, done.stderr), (1, "fault run 3 Write\n"))
        self.assertEqual((self.kept(), self.history()), (FRAMES[:1], ANSWERED[:1]))

    def test_wrong_command_lines_have_status_2(self) -> None:
        station = free_address()
        wrong: tuple[list[str], ...] = (
            [], ["--new"], [station, "--capacity", "5"], ["--tries", "0", station], ["--tries", "+3", station],
            ["127.0.0.1"], [":4014"], ["127.0.0.1:65536"], ["--tries", "1000001", station],
            ["--new", "--capacity", "0", station])
        for more in wrong:
            with self.subTest(more):
                status, out, err = self.send([], *more)
                self.assertEqual((status, out, err[:6]), (2, [], "error:"), err)
        for gate in ("65536", "-1", "+7", "x"):
            self.assertEqual(self.send([], station, gate=gate)[0], 2, gate)
        done = subprocess.run([GATE_SEND, "--help"], capture_output=True, text=True, timeout=TIME)
        self.assertEqual((done.returncode, done.stderr), (0, ""))
        self.assertLessEqual(max(map(len, done.stdout.splitlines())), 100)


def give(gate: IO[str]) -> None:
    """Writes the lines of the morning."""
    gate.write("\n".join(MORNING))
    gate.close()


class Kills(SendTest):
    """Kills of gate_send and of the station at each call of the system."""

    def setUp(self) -> None:
        super().setUp()
        if not shutil.which("strace"):
            self.skipTest("there is no strace")

    def traced(self, words: Iterable[object], lines: Iterable[str], more: Iterable[str] = (),
               **options: Any) -> tuple[subprocess.CompletedProcess[str], list[str]]:
        trace = self.folder / "trace"
        traced = ["strace", "-f", "-qq", "-e", "signal=none", "-s", "0", *more, "-o", str(trace), *map(str, words)]
        given = "".join(f"{line}\n" for line in lines)
        done = subprocess.run(traced, input=given, capture_output=True, text=True, timeout=TIME, **options)
        called = re.findall(r"(?m)^\d+ +(\w+)\(", trace.read_text())
        return done, called

    def finish(self, station: str, printed: list[str]) -> list[str]:
        """Runs again until all lines of the morning are answered: what was printed in all."""
        kept = len(self.kept())
        new: list[str] = []
        data = self.file.read_bytes() if self.file.is_file() else b""
        if len(data) < 65 or data[0] != 0xA5:
            # Its making was cut short: no touch was asked for.
            self.file.unlink(missing_ok=True)
            new = ["--new"]
        status, out, err = self.send(MORNING[kept:], *new, station)
        self.assertEqual(status, 0, err)
        return printed + out

    def assertMorning(self, printed: list[str]) -> None:
        """Each touch is in the file and in the history once, in order, and each was told as there."""
        self.assertEqual(self.kept(), FRAMES)
        self.assertEqual(self.history(), ANSWERED)
        self.assertEqual(sorted(set(printed)), ANSWERED)
        # A reply is told again by the next run alone.
        self.assertEqual([row for at, row in enumerate(printed) if at == 0 or printed[at - 1] != row], ANSWERED)

    def test_a_kill_of_the_gate_at_any_call_loses_and_doubles_nothing(self) -> None:
        server = self.station()
        _, called = self.traced(self.words("--new", address_of(server)), MORNING)
        server.kill()
        for name in sorted(set(called) - {"execve", "exit_group"}):
            # The input is read byte by byte: some of these reads stand for all.
            for number in range(1, called.count(name) + 1, 9 if name == "read" else 1):
                with self.subTest(call=name, number=number):
                    self.file.unlink(missing_ok=True)
                    (self.folder / "journal").unlink()
                    server = self.station()
                    station = address_of(server)
                    done, _ = self.traced(self.words("--new", station), MORNING,
                                          ["-e", f"inject={name}:signal=KILL:when={number}"])
                    self.assertNotEqual(done.returncode, 0, "it was killed")
                    printed = done.stdout.splitlines()
                    # What was told or recorded was kept before.
                    self.assertLessEqual(len(printed), len(self.history()))
                    self.assertLessEqual(len(self.history()), len(self.kept()))
                    self.assertMorning(self.finish(station, printed))
                    server.kill()

    def test_a_kill_of_the_station_at_any_call_loses_and_doubles_nothing(self) -> None:
        place = free_address()
        words = [PROGRAM, "serve", "--table", EXAMPLE, "--journal", self.folder / "journal", "--cards", "10", "--capacity",
                 "10", "--listen", place, "--lines", "1"]
        calls = ("pwrite64", "fdatasync", "accept4", "recvfrom", "sendto", "read", "write")
        for name in calls:
            for number in range(1, 40):
                with self.subTest(call=name, number=number):
                    self.file.unlink(missing_ok=True)
                    (self.folder / "journal").unlink(missing_ok=True)
                    if not self.killed(words, place, name, number):
                        break

    def killed(self, words: Iterable[object], place: str, name: str, number: int) -> bool:
        """A morning with a station that is killed at this call and started again: whether it was killed."""
        tracing: list[object] = ["strace", "-f", "-qq", "-e", "signal=none", "-e", f"trace={name}", "-o",
                                 self.folder / "trace", "-e", f"inject={name}:signal=KILL:when={number}", *words]
        gate = subprocess.Popen(self.words("--new", place, timeout=300), stdin=subprocess.PIPE, stdout=subprocess.PIPE,
                                stderr=subprocess.PIPE, text=True)
        first = subprocess.Popen(list(map(str, tracing)), stdin=subprocess.DEVNULL, stdout=subprocess.DEVNULL,
                                 stderr=subprocess.DEVNULL, start_new_session=True)
        again: subprocess.Popen[bytes] | None = None
        assert gate.stdin and gate.stdout and gate.stderr, "pipes"
        try:
            threading.Thread(target=give, args=(gate.stdin,), daemon=True).start()
            while gate.poll() is None and first.poll() is None:
                time.sleep(0.005)
            was_killed = gate.poll() is None or first.poll() is not None
            if first.poll() is not None:
                journal = self.folder / "journal"
                if journal.is_file() and (len(journal.read_bytes()) < 65 or journal.read_bytes()[0] != 0xA5):
                    # Its making was cut short (docs/reference/FAULTS.md, "The first line").
                    journal.unlink()
                again = subprocess.Popen(list(map(str, words)), stdin=subprocess.DEVNULL, stdout=subprocess.DEVNULL,
                                         stderr=subprocess.DEVNULL)
            self.assertEqual(gate.wait(TIME), 0)
            self.assertMorning(gate.stdout.read().splitlines())
            return was_killed and first.poll() is not None
        finally:
            running: list[subprocess.Popen[Any] | None] = [gate, first, again]
            for process in running:
                if process is not None:
                    if process is first and process.poll() is None:
                        os.killpg(process.pid, 9)
                    process.kill()
                    process.wait()
            gate.stdout.close()
            gate.stderr.close()


class Relay(SendTest):
    """bovtrila-lossy between gate_send and a station."""

    def send_through(self, rate: str, troubles: str, least: float) -> None:
        """Sends touches through a relay with this rate of these troubles. At least so many have to be sent again."""
        lines, frames, wanted = town(TOUCHES)
        server = self.station(cards=min(100_000, TOUCHES // 4 + 1), capacity=TOUCHES)
        relaying = [str(TOP / "bin" / "bovtrila-lossy"), "127.0.0.1:0", address_of(server), "--rate", rate, "--seed", "11",
                    "--delay", "0.1", "--troubles", troubles]
        relay = subprocess.Popen(relaying, stdout=subprocess.PIPE, stderr=subprocess.PIPE, text=True)
        self.addCleanup(relay.communicate)
        self.addCleanup(relay.kill)
        assert relay.stderr, "a pipe"
        words = self.words("--new", relay.stderr.readline().split()[1], timeout=60)
        done = subprocess.run(words, input="".join(f"{line}\n" for line in lines), capture_output=True, text=True,
                              timeout=TIME + TOUCHES)
        self.assertEqual((done.returncode, done.stdout.splitlines()), (0, wanted))
        self.assertGreater(done.stderr.count("\n"), least)
        self.assertEqual(self.history(), wanted)
        self.assertEqual(self.kept(), frames)

    def test_each_touch_is_recorded_once_where_four_in_ten_answers_are_lost(self) -> None:
        self.send_through("0.4", "drop,cut", TOUCHES // 2)

    def test_each_touch_is_recorded_once_whatever_a_relay_does(self) -> None:
        self.send_through("0.2", "drop,cut,delay,pieces,close,silent,refuse", TOUCHES // 3)
