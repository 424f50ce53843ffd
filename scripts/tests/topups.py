"""Touches of gates that top cards up, with the replies to them, worked out by the rules of docs/reference/FARES.md: for the
scripts that kill a server under load."""
from bovtrila import codec
from collections.abc import Iterable

# How many touches of a card a gate sends, before it takes its next card.
TOUCHES = 100
MONDAY = 1736121600
# The verdicts of an issue and of a top-up.
TOPPED_UP, ISSUED = 7, 8


class Cards:
    """The touches of gates that have so many cards each. Gates and their touches are counted from 1."""

    def __init__(self, each: int) -> None:
        self.each = each

    def most(self) -> int:
        """How many touches a gate has."""
        return self.each * TOUCHES

    def touch(self, gate: int, number: int) -> bytes:
        """The touch of a gate with this number: it issues a card, tops it up by 1 penny, by 2, .. and takes the next
        card."""
        card, place = (gate - 1) * self.each + (number - 1) // TOUCHES + 1, (number - 1) % TOUCHES
        if place == 0:
            return codec.touch(codec.ISSUE, gate, number, card, MONDAY)
        return codec.touch(codec.TOP_UP, gate, number, card, place, MONDAY)

    def touches(self, gate: int, count: int) -> list[bytes]:
        """The first touches of a gate."""
        return [self.touch(gate, number) for number in range(1, count + 1)]

    def reply(self, gate: int, number: int) -> bytes:
        """The reply to that touch: the card holds what was paid in so far, at most 4950 pence, which is below the balance
        limit."""
        place = (number - 1) % TOUCHES
        verdict, balance = (ISSUED, 0) if place == 0 else (TOPPED_UP, place * (place + 1) // 2)
        return codec.framed(">BHIBiq", codec.REPLY, gate, number, verdict, place, balance)


def by_gate(frames: Iterable[bytes]) -> dict[int, list[bytes]]:
    """The touches of each gate, in the order of the history."""
    found: dict[int, list[bytes]] = {}
    for frame in frames:
        found.setdefault(int.from_bytes(frame[3:5], "big"), []).append(frame)
    return found
