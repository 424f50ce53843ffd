# SPDX-License-Identifier: Apache-2.0
"""What bovtrila-stand-in knows of each touch of a gate, and what is wrong with it by PROTOCOL.md."""
import contextlib
import struct
import sys
import threading
import time

from bovtrila import codec, model, wire
from bovtrila.stand_in_script import Step

# How many seconds a gate refuses a card after a touch from before its start that was accepted without an opening.
CLOSED = 30


def own_answer(request: bytes, sent: bytes) -> bytes | None:
    """The whole answer to this touch with which the sent bytes begin, or None: its reply, a fault with its gate and number,
    or fault 1, which has 0 and 0."""
    size = 2 + wire.number_at(sent, 0, 2)
    if not 2 < size <= len(sent) or sent[2] not in (codec.REPLY, codec.FAULT) or wire.ANSWERS[sent[2]] != size - 2:
        return None
    frame = sent[:size]
    name = bytes(6) if wire.is_fault(frame, codec.BAD_FRAME) else request[3:9]
    return frame if wire.name_of(frame) == name else None


class Touch:
    """What a gate did with one touch."""

    def __init__(self, frame: bytes) -> None:
        self.frame, self.opened, self.faults = frame, 0, list[str]()
        # What each send got: None is no answer to this touch.
        self.answers: list[bytes | None] = []
        self.reply: bytes | None = None
        # Whether it came before a start of its gate, and whether no reply has to open the barrier for it.
        self.is_earlier, self.is_excused = False, False
        self.is_given_up = False

    def state(self) -> str:
        """The reply, or what the last send got."""
        answer = self.reply or self.answers[-1]
        return wire.in_words(self.frame, answer) if answer else "no answer"

    def note(self, place: int, answer: bytes | None) -> None:
        """Notes what the send of this place got."""
        self.answers[place] = answer
        if self.reply is None and answer and answer[2] == codec.REPLY:
            self.reply = answer

    def has_last(self, *codes: int) -> bool:
        """Whether the last send got a fault of these codes, and no send the reply."""
        last = self.answers[-1]
        return self.reply is None and last is not None and wire.is_fault(last, *codes)

    def is_settled(self) -> bool:
        """Whether the gate needs to send nothing again. Bytes that got fault 1 twice would get it each time."""
        bad = sum(answer is not None and wire.is_fault(answer, codec.BAD_FRAME) for answer in self.answers)
        return self.reply is not None or self.has_last(*wire.LASTING) or bad > 1 and self.has_last(codec.BAD_FRAME)

    def is_let_through(self) -> bool:
        """Whether the gate had an answer that opens its barrier."""
        return self.reply is not None and wire.opens(self.frame, self.reply)

    def may_open(self) -> bool:
        """Whether the gate had an answer by which it may open its barrier: also by a verdict on another kind of touch."""
        return is_travel(self.frame) and self.reply is not None and self.reply[9] < wire.FIRST_REFUSAL

    def is_closed_to(self, request: bytes) -> bool:
        """Whether the gate may not accept this touch of the same card yet: it doesn't open for this one, which came before
        a start, and the staff may have let the passenger through."""
        return (self.is_earlier and not self.opened and self.is_let_through() and is_travel(request)
                and (request[3:5], request[9:13]) == (self.frame[3:5], self.frame[9:13])
                and moment_of(request) < moment_of(self.frame) + CLOSED)


class Judge:
    """The script's place, and what is known of each touch. One thread at a time is in it."""

    def __init__(self, steps: list[Step], station: model.Station) -> None:
        self.steps, self.place, self.lock = steps, 0, threading.Condition()
        self.station = station
        self.touches, self.loose, self.last = dict[bytes, Touch](), list[str](), time.monotonic()
        # The gates that were started again, and have sent no touch since.
        self.starting: set[bytes] = set()
        # How many answers are to be sent, and of how many it isn't known whether the gate gets them.
        self.coming, self.doubtful = 0, 0

    def is_used_up(self) -> bool:
        return self.place >= len(self.steps) or self.steps[self.place].is_rest

    def is_done(self) -> bool:
        """Whether the script's last line is used, and each gate that was started again has sent a touch."""
        return self.is_used_up() and bool(self.touches) and not self.starting

    def is_over(self, linger: float, patience: float) -> bool:
        """Whether nothing has come for so many seconds, with all that was to be done and without, and no answer is to be
        sent."""
        return not self.coming and time.monotonic() - self.last >= (linger if self.is_done() else patience)

    def next(self, request: bytes) -> tuple[Step | None, bytes, int]:
        """Notes a request, and gives the step for it, its answer's bytes, and which send of the touch it is, from 0."""
        with self.lock:
            self.last = time.monotonic()
            touch = self.note(request) if wire.is_touch(request) else None
            send = len(touch.answers) - 1 if touch else 0
            if touch and touch.reply:
                touch.note(send, touch.reply)
                return None, touch.reply, send
            self.coming += 1
            if self.place >= len(self.steps):
                self.loose.append(f"a request came that no line is for: {request.hex()}")
                return Step(["close"]), b"", send
            step = self.steps[self.place]
            self.place += not step.is_rest
            return step, step.answer(request, self.station), send

    def note(self, request: bytes) -> Touch:
        """Notes a touch, and what is wrong with its being sent."""
        name = request[3:9]
        if name not in self.touches:
            self.touches[name] = self.made(request)
        self.starting.discard(name[:2])
        touch = self.touches[name]
        touch.answers.append(None)
        if touch.frame != request:
            touch.faults.append(f"it was sent again with other bytes: {request.hex()}, before {touch.frame.hex()}")
        if touch.is_given_up:
            touch.faults.append("it was sent again after it was given up")
        return touch

    def made(self, request: bytes) -> Touch:
        """A touch that is sent for the first time, with what is wrong with that."""
        touch = Touch(request)
        for name, other in self.touches.items():
            if not other.is_settled() and blank(other.frame) == blank(request):
                other.faults.append(f"it was sent again under a new number: {request.hex()}")
            if other.is_closed_to(request):
                touch.faults.append(
                    f"it is less than {CLOSED} seconds after {wire.gate_and_number(name)}, a touch of the same card from "
                    "before the gate's start, which was accepted, and for which the barrier wasn't opened")
        # The gate may have stored it before its start: then the barrier stays closed.
        touch.is_excused = request[3:5] in self.starting
        return touch

    def answered(self, request: bytes, send: int, sent: bytes) -> None:
        """Notes what a send of a touch got: these bytes, which may be none, or no answer to this touch."""
        with self.lock:
            self.last = time.monotonic()
            self.coming -= 1
            if wire.is_touch(request):
                self.touches[request[3:9]].note(send, own_answer(request, sent))

    def doubt(self, change: int) -> None:
        """Notes that there is one more answer, or one fewer, of which it isn't known whether the gate gets it."""
        with self.lock:
            self.doubtful += change
            self.lock.notify_all()

    def hear(self, line: str) -> None:
        """Takes a line of the barrier's file."""
        with self.lock:
            # The gate may have read an answer before that is known.
            self.lock.wait_for(lambda: not self.doubtful)
            self.last = time.monotonic()
            words = line.split()
            try:
                if words[:1] == ["start"]:
                    self.start(struct.pack(">H", *map(int, words[1:])))
                elif words[:1] == ["given-up"]:
                    self.give_up(struct.pack(">HI", *map(int, words[1:])))
                else:
                    self.open(struct.pack(">HI", *map(int, words)))
            except (ValueError, struct.error):
                self.loose.append(f"the barrier's line '{line.strip()}' is none of 'GATE NUMBER', 'given-up GATE NUMBER' "
                                  "and 'start GATE'")

    def open(self, name: bytes) -> None:
        """Notes that the barrier was opened for the touch of this name."""
        touch = self.touches.get(name)
        if touch is None:
            return self.loose.append(f"the barrier was opened for '{numbers(name)}', which is no touch sent")
        touch.opened += 1
        if touch.is_earlier:
            touch.faults.append("the barrier was opened after the gate's start for a touch of before it")
        elif touch.is_given_up:
            touch.faults.append("the barrier was opened after the touch was given up")
        elif not touch.may_open():
            touch.faults.append(f"the barrier was opened on: {touch.state()}")
        elif touch.opened > 1:
            touch.faults.append("the barrier was opened twice")

    def give_up(self, name: bytes) -> None:
        """Notes that the gate has given up the touch of this name."""
        touch = self.touches.get(name)
        if touch is None:
            return self.loose.append(f"'{numbers(name)}' was given up, which is no touch sent")
        if touch.has_last(*wire.LASTING):
            touch.is_excused = True
        elif not touch.is_given_up:
            touch.faults.append(f"the last that it had was {touch.state()}, and it was given up")
        touch.is_given_up = True

    def start(self, gate: bytes) -> None:
        """Notes that a gate was started again. These are the two bytes of its number."""
        own = [touch for name, touch in self.touches.items() if name[:2] == gate]
        for touch in own:
            if not touch.is_earlier:
                # The gate may have stopped between the reply to its last touch and the opening.
                touch.is_earlier = True
                touch.is_excused |= touch is own[-1] or not touch.is_let_through()
        self.starting.add(gate)
        # Whoever reads this line may have gone.
        with contextlib.suppress(OSError):
            print(f"started {wire.number_at(gate, 0, 2)}", file=sys.stderr, flush=True)

    def end(self, watches_barrier: bool) -> int:
        """Prints what was found of each touch, and gives the status."""
        with self.lock:
            self.lock.wait_for(lambda: not self.doubtful)
            wrong = [*self.loose]
            if not self.is_used_up():
                wrong.append(f"{len(self.steps) - self.place} lines of the script weren't used: the gate sent too little")
            for name, touch in self.touches.items():
                if not touch.is_settled() and not touch.is_given_up:
                    touch.faults.append(f"the last that it had was {touch.state()}, and it wasn't sent again")
                if watches_barrier and touch.is_let_through() and not touch.opened and not touch.is_excused:
                    touch.faults.append(f"the barrier wasn't opened on: {touch.state()}")
                more = f", opened {touch.opened} times" * (touch.opened > 0) + ", given up" * touch.is_given_up
                said = f"sent {len(touch.answers)} times, {touch.state()}{more}"
                print(f"{'wrong' if touch.faults else 'right'}: {wire.gate_and_number(name)}: {said}")
                wrong += [f"{wire.gate_and_number(name)}: {fault}" for fault in touch.faults]
            for fault in wrong:
                print(f"failed: {fault}")
            passed = sum(not touch.faults for touch in self.touches.values())
            print(f"{passed} passed, {len(wrong)} failed", flush=True)
            return 1 if wrong or not passed else 0


def blank(frame: bytes) -> bytes:
    """A touch's frame without its number."""
    return frame[:5] + frame[9:]


def is_travel(frame: bytes) -> bool:
    """Whether this is a touch in or out."""
    return frame[2] in (codec.ENTER, codec.LEAVE)


def moment_of(frame: bytes) -> int:
    """The moment of a touch, which is its last field."""
    return wire.number_at(frame, len(frame) - 4, 4)


def numbers(name: bytes) -> str:
    """The gate and the number of a touch, as the barrier's file has them."""
    return "{} {}".format(*struct.unpack(">HI", name))
