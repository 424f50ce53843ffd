"""The stand-in in a test's own process, so that a test knows which requests it has read. For
scripts/tests/test_stand_in.py."""
import contextlib
import io
import tempfile
import unittest

import harness
from bovtrila import codec, stand_in_judge, stand_in_script, wire
from bovtrila.commands import stand_in
from harness import TIME

MORNING = 1736150400
# An answer to an enquiry that no server gives to another one: a gate that has it has what came before it, too.
MARK = codec.framed(">BBqI", codec.HOLDING, 2, 77, 77)
MARK_LINE = "holding 2 77 77\n"
REFUSED, ACCEPTED = 24, 1


def travel(number: int, moment: int = MORNING, card: int = 1, kind: int = codec.ENTER, gate: int = 7) -> bytes:
    """The frame of a touch in, or of another kind."""
    return codec.touch(kind, gate, number, card, 2, moment)


def words(code: int) -> str:
    """A fault, as it is printed."""
    return f"fault {code}: {wire.FAULTS.get(code, 'unknown')}"


class Within:
    """The stand-in in the test's own process."""

    def __init__(self, test: unittest.TestCase, text: str) -> None:
        self.test = test
        with tempfile.NamedTemporaryFile("w") as file:
            file.write(text)
            file.flush()
            steps = stand_in_script.steps(file.name)
        self.judge = stand_in_judge.Judge(steps, stand_in.station_of([]))
        listening, said = wire.listener(("127.0.0.1", 0))
        test.addCleanup(listening.close)
        self.address = wire.address(said)
        stand_in.quietly(stand_in.take, listening, self.judge)

    def connect(self) -> wire.Connection:
        line = wire.Connection(self.address, TIME)
        self.test.addCleanup(line.close)
        return line

    def begin(self, frame: bytes) -> wire.Connection:
        """Sends a touch, and returns once the stand-in has read it."""
        place, line = self.judge.place, self.connect()
        line.send(frame)
        self.test.assertTrue(harness.until(lambda: self.judge.place > place))
        return line

    def ask(self, *frames: bytes) -> bytes:
        """Sends each touch over a connection of its own: the last answer."""
        for frame in frames:
            with self.connect() as line:
                line.send(frame)
                answer = line.take()
        return answer

    def tell(self, *lines: str) -> None:
        """Gives these lines of the barrier's file."""
        with contextlib.redirect_stderr(io.StringIO()):
            for line in lines:
                self.judge.hear(line + "\n")

    def send_all(self) -> None:
        """Waits until each answer is sent, or lost."""
        self.test.assertTrue(harness.until(lambda: not self.judge.coming and not self.judge.doubtful))

    def found(self) -> list[str]:
        """What the stand-in prints of each touch."""
        said = io.StringIO()
        with contextlib.redirect_stdout(said):
            status = self.judge.end(True)
        out = said.getvalue().splitlines()
        faults = sum(line.startswith("failed: ") for line in out)
        self.test.assertEqual((status, out[-1].partition(" passed, ")[2]), (int(faults > 0), f"{faults} failed"), out)
        return out[:-1]

    def faults(self) -> list[str]:
        """The faults that the stand-in finds."""
        return [line.removeprefix("failed: ") for line in self.found() if line.startswith("failed: ")]
