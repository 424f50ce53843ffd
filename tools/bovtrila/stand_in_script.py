# SPDX-License-Identifier: Apache-2.0
"""The script of bovtrila-stand-in: each line is a step, which gives the answer to one request."""
import struct

from bovtrila import codec, model, wire
from bovtrila.wire import Wrong

# What a line may say, with how many numbers behind it.
PLAIN = {"answer": 0, "reply": 3, "holding": 3, "fault": 1, "silence": 0, "close": 0}
# The longest wait of a late answer, in seconds.
LATEST = 1_000_000


class Step:
    """A line of the script."""

    def __init__(self, words: list[str]) -> None:
        self.cut: int | None = None
        self.bytes: bytes | None = None
        # How many seconds the answer waits.
        self.late: float = 0
        self.is_rest, self.is_another = False, False
        while words and words[0] in ("rest", "another", "cut", "late"):
            word, words = words[0], words[1:]
            self.is_rest |= word == "rest"
            self.is_another |= word == "another"
            if word in ("cut", "late"):
                setattr(self, word, float(words[0]) if word == "late" else int(words[0]))
                words = words[1:]
        self.kind, self.numbers = words[0], list[int]()
        if self.kind == "bytes":
            self.bytes = bytes.fromhex("".join(words[1:]))
        elif PLAIN.get(self.kind) != len(words) - 1:
            raise ValueError
        else:
            self.numbers = [int(word) for word in words[1:]]
        if not 0 <= self.late <= LATEST or self.cut is not None and self.cut < 0:
            raise ValueError
        self.answer(codec.enquiry(1), None)

    def answer(self, request: bytes, station: model.Station | None) -> bytes:
        """The bytes of the answer to a request, as far as they are sent."""
        return self.whole(request, station)[: self.cut]

    def whole(self, request: bytes, station: model.Station | None) -> bytes:
        """The bytes of the answer to a request, before they are cut."""
        is_touch = wire.is_touch(request)
        name = [wire.number_at(request, 3, 2), wire.number_at(request, 5, 4)] if is_touch else [0, 0]
        if self.bytes is not None:
            return self.bytes
        if self.kind == "answer" and station is not None:
            made = station.answer(request)
        elif self.kind == "reply":
            made = codec.framed(">BHIBiq", codec.REPLY, *name, *self.numbers)
        elif self.kind == "holding":
            made = codec.framed(">BBqI", codec.HOLDING, *self.numbers)
        elif self.kind == "fault":
            made = codec.fault(self.numbers[0], *(name if self.numbers[0] != codec.BAD_FRAME else ()))
        else:
            return b""
        if self.is_another and made[2] != codec.HOLDING:
            # The number's last byte stands at a place of its own in each answer.
            place = 9 if made[2] == codec.FAULT else 8
            made = made[:place] + bytes([(made[place] + 1) % 256]) + made[place + 1 :]
        return made


def steps(path: str) -> list[Step]:
    """The steps of a script."""
    found: list[Step] = []
    for line, text in wire.lines_of(path):
        words = text.partition("#")[0].split()
        if words:
            try:
                found.append(Step(words))
            except (ValueError, IndexError, struct.error):
                raise Wrong(f"{path}: line {line}: '{text.strip()[:60]}' is no step; --help has their forms") from None
    if not found:
        raise Wrong(f"{path}: there is no step in it")
    return found
