"""What gate_send does without an answer, or with another one: bovtrila-stand-in judges it by docs/reference/PROTOCOL.md. For
scripts/tests/test_gate_sends.py."""
import concurrent.futures
import os
import pathlib
import subprocess

from harness import TIME, TOP
from sending import ANSWERED, FRAMES, MORNING, SendTest
from troubles import TROUBLES

# The verdicts for which a barrier opens; of those without a name it opens for each below 20.
OPENING = {"Entered", "EnteredContinued", "EnteredOverOpen", "Exited", "ExitedLate", "ExitedUnstarted"}


def opens(row: str) -> bool:
    """Whether a gate opens its barrier for this line of gate_send."""
    act, verdict = row.split(",")[3:7:3]
    word, _, code = verdict.partition(" ")
    return act in ("in", "out") and (verdict in OPENING or word == "verdict" and int(code) < 20)


def stand_in(case: SendTest, script: str, *more: str | pathlib.Path) -> tuple[subprocess.Popen[str], str]:
    """A stand-in for a server that answers by this script, and its address. It waits for the test, however slow that is."""
    steps = case.folder / "script"
    steps.write_text(script + "rest answer\n")
    words = [str(TOP / "bin" / "bovtrila-stand-in"), "127.0.0.1:0", str(steps), "--linger", str(TIME), "--patience",
             str(TIME), *map(str, more)]
    judge = subprocess.Popen(words, stdout=subprocess.PIPE, stderr=subprocess.PIPE, text=True)
    case.addCleanup(judge.communicate)
    case.addCleanup(judge.kill)
    assert judge.stderr, "a pipe"
    return judge, judge.stderr.readline().split()[1]


class Judged(SendTest):
    """gate_send before a stand-in for the station. A run that ends at a fault is begun again with the lines that
    are left."""

    def told(self, station: str) -> dict[int, str]:
        """The line of each touch, by its number. A line that is told again has to be the same."""
        told: dict[int, str] = {}
        runs, new = 0, ["--new"]
        while len(told) < len(MORNING):
            runs += 1
            self.assertLess(runs, 30, "the touches aren't settled")
            status, out, err = self.send(MORNING[len(self.kept()):], *new, station, timeout=100)
            self.assertIn(status, (0, 1), err)
            for row in out:
                number = int(row.split(",")[1])
                self.assertEqual(told.setdefault(number, row), row)
            new = []
        return told

    def judged(self, script: str) -> tuple[int, str]:
        """What the stand-in says of gate_send: its status, and its last line with all of them."""
        opened = self.folder / "opened"
        os.mkfifo(opened)
        judge, station = stand_in(self, script, "--barrier", opened)
        assert judge.stdout and judge.stderr, "pipes"
        with open(opened, "w") as barrier:
            told = self.told(station)
            barrier.write("".join(f"7 {number}\n" for number, row in told.items() if opens(row)) + "start 65535\n")
        # With this it has read all lines.
        self.assertEqual(judge.stderr.readline(), "started 65535\n")
        judge.terminate()
        said = judge.stdout.read()
        self.assertEqual(self.kept(), FRAMES)
        return judge.wait(TIME), said

    def test_gate_send_repeats_the_same_bytes_and_a_barrier_opens_on_replies_alone(self) -> None:
        def found(name: str) -> str | None:
            """What is wrong with one trouble, if anything is. Each waits more than it works."""
            case = Judged()
            case.setUp()
            try:
                status, said = case.judged(TROUBLES[name])
                case.assertEqual((status, said.splitlines()[-1]), (0, f"{len(MORNING)} passed, 0 failed"), said)
            except (AssertionError, OSError, subprocess.SubprocessError) as error:
                return str(error)
            finally:
                case.doCleanups()
            return None

        with concurrent.futures.ThreadPoolExecutor(6) as rows:
            for name, wrong in zip(TROUBLES, rows.map(found, TROUBLES)):
                with self.subTest(name):
                    self.assertIsNone(wrong)


class Starts(SendTest):
    """A gate over gate_send that is started again (docs/reference/PROTOCOL.md, "After a gate's start")."""

    def test_a_start_isn_t_over_before_a_run_by_resend_ends_with_status_0(self) -> None:
        _, station = stand_in(self, "answer\nanswer\nclose\nfault 5\nanswer\n")
        status, out, _ = self.send(MORNING[:3], "--new", "--tries", 1, station, timeout=1000 * TIME)
        self.assertEqual((status, out), (1, ANSWERED[:2]))
        # The file has a touch, and this run prints no line: a run after it would begin with the reply to that touch.
        status, out, err = self.send([], "--resend", station, timeout=1000 * TIME)
        self.assertEqual((status, out, err.splitlines()[0]), (1, [], "fault answer 5 Full"))
        self.assertEqual(self.send([], "--resend", station, timeout=1000 * TIME), (0, ANSWERED[2:3], ""))
        noted = 3
        status, out, _ = self.send(MORNING[3:], station, timeout=1000 * TIME)
        self.assertEqual((status, out), (0, ANSWERED[2:]))
        self.assertTrue(all(map(opens, out)))
        self.assertEqual([row for row in out if int(row.split(",")[1]) > noted], ANSWERED[3:])
