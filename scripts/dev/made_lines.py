"""Request lines that are made from a fixed seed, and journals of them: for the measuring scripts."""
import heapq
import random
from typing import IO

from harness import EXAMPLE
from bovtrila import layout, model

SEED = 20250106
FIRST_MOMENT = 1_736_121_600
# The cards of a journal.
CARDS = 10_000


def touch(kind: int, gate: int, number: int, card: int, rest: str) -> str:
    """The line of a touch; its length byte is that of its kind."""
    body = f"{kind:02x}{gate:04x}{number:08x}{card:08x}{rest}"
    return f"{len(body) // 2:04x}{body}\n"


def make_lines(count: int, file: IO[str], cards: int | None = None) -> int:
    """Writes so many request lines: issues, top-ups, journeys, and some repeats and enquiries, but where the cards are
    named. Each is of any card, so most touches out come too late for their leg."""
    chance = random.Random(SEED)
    is_journal = cards is not None
    cards = cards or max(1, count // 20)
    states = [0] * (cards + 1)
    numbers = [0] * 1_001
    moment = FIRST_MOMENT
    last = ""
    for _ in range(count):
        moment += chance.randrange(3)
        card = chance.randrange(1, cards + 1)
        luck = chance.random()
        if luck < 0.01 and last and not is_journal:
            file.write(last)
            continue
        if luck < 0.03 and not is_journal:
            file.write(f"000505{card:08x}\n")
            continue
        gate = chance.randrange(1, 1_001)
        numbers[gate] += 1
        number, state = numbers[gate], states[card]
        if state == 0:
            last = touch(4, gate, number, card, f"{moment:08x}")
        elif state == 1 or luck > 0.95:
            last = touch(3, gate, number, card, f"{chance.randrange(2_000, 5_000):08x}{moment:08x}")
        else:
            kind = 1 if state % 2 == 0 else 2
            last = touch(kind, gate, number, card, f"{chance.randrange(1, 6):04x}{moment:08x}")
        states[card] += 1
        file.write(last)
    return cards


def make_journeys(count: int, file: IO[str]) -> int:
    """Writes so many request lines of passengers: most touches out come 5 to 40 minutes after their touch in, and some
    of those at station 1 are followed by a walk to station 4. 1 of 100 lines is a repeat, 1 another touch under a used
    gate and number, 1 an enquiry, and 1 of 10,000 a revision to the example table, some of which come too late."""
    chance = random.Random(SEED)
    cards = max(1, count // 20)
    steps, numbers = [0] * (cards + 1), [0] * 1_001
    # What is to come of cards that travel: when, of which card, and whether it is a touch out.
    due: list[tuple[int, int, bool]] = []
    moment, last = FIRST_MOMENT, ""
    digest = model.Table(EXAMPLE.read_text()).digest.hex()
    for place in range(count):
        moment += chance.randrange(3)
        luck, gate = chance.random(), chance.randrange(1, 1_001)
        if luck < 0.02 and last:
            file.write(last if luck < 0.01 else last[:-9] + f"{moment - 1:08x}\n")
            continue
        if luck < 0.03:
            file.write(f"000505{chance.randrange(1, cards + 1):08x}\n")
            continue
        numbers[gate] += 1
        if place % 10_000 == 9_999:
            day = moment // 86_400 + chance.randrange(2)
            last = touch(6, gate, numbers[gate], 0, f"{digest}{day:08x}{moment:08x}")
        elif due and due[0][0] <= moment:
            _, card, is_out = heapq.heappop(due)
            station = 4 if not is_out else chance.choice((1, 1, 2, 3, 4, 5))
            if not is_out or station == 1 and luck < 0.5:
                heapq.heappush(due, (moment + (300 if is_out else 900), card, not is_out))
            last = touch(2 if is_out else 1, gate, numbers[gate], card, f"{station:04x}{moment:08x}")
        else:
            card = chance.randrange(1, cards + 1)
            steps[card] += 1
            if steps[card] == 1:
                last = touch(4, gate, numbers[gate], card, f"{moment:08x}")
            elif steps[card] % 9 == 2:
                last = touch(3, gate, numbers[gate], card, f"{chance.randrange(3_000, 4_000):08x}{moment:08x}")
            else:
                heapq.heappush(due, (moment + chance.randrange(300, 2_400), card, True))
                last = touch(1, gate, numbers[gate], card, f"{chance.randrange(1, 6):04x}{moment:08x}")
        file.write(last)
    return cards


def make_journal(lines: str, path: str, count: int) -> None:
    """Writes the journal of the touches of these request lines."""
    with open(lines, encoding="ascii") as given, open(path, "wb") as file:
        file.write(layout.header_of(count, CARDS, model.Table(EXAMPLE.read_text()).digest))
        for line in given:
            file.write(layout.slot_of(bytes.fromhex(line)))
        file.write(b"\0")
