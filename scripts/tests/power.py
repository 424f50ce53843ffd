"""What a loss of power may leave of a file, by the calls on it (docs/reference/JOURNAL.md, "The disk")."""
import itertools
import random
from collections.abc import Iterable, Iterator

# A disk writes whole sectors: what is torn may change at these places.
SECTOR = 512
# What may stand in a torn range in the place of its bytes: a closed mark, an open one, a kind of touch, and all bits.
FILLS = (b"\x00", b"\xa5", b"\x04", b"\xff")


def written(content: bytes, at: int, data: bytes) -> bytes:
    """The content with these bytes at a place."""
    return content.ljust(at, b"\0")[:at] + data + content[at + len(data):]


def torn(content: bytes, at: int, data: bytes, draw: random.Random, step: int) -> Iterator[bytes]:
    """Contents that a write may leave which wasn't synced. Of one byte: without it, and each value that it may have, or with
    steps above 1 those that are next to a mark. Of more: its first bytes and its last ones, cut at each step and between two
    sectors, with what was there before, nothing or zeros in the place of the others; and other bytes in the place of all or
    of the others."""
    yield content
    size = len(data)
    if size == 1:
        values: Iterable[int] = range(256) if step == 1 else (0x00, 0x01, 0xFF, 0xA5, *(0xA5 ^ 1 << bit for bit in range(8)))
        yield from (written(content, at, bytes([value])) for value in values)
        return
    old = content[at:at + size].ljust(size, b"\0")
    cuts = {0, 1, size - 1, size, *range(0, size, step), *(cut for cut in range(size) if (at + cut) % SECTOR == 0)}
    for cut in sorted(cuts):
        yield written(content, at, data[:cut])
        yield written(content, at, old[:cut] + data[cut:])
        for fill in FILLS:
            yield written(content, at, data[:cut] + fill * (size - cut))
    for fill in FILLS:
        yield written(content, at, fill * draw.randrange(size))
    for _ in range(4):
        yield written(content, at, draw.randbytes(size))
        yield written(content, at, draw.randbytes(draw.randrange(size)))


class Disk:
    """A file by the calls on it: what is durable, and the writes since."""

    def __init__(self, durable: bytes = b"") -> None:
        self.durable = durable
        self.pending: list[tuple[int, bytes]] = []

    def call(self, name: str, at: int, data: bytes) -> None:
        if name in ("pwrite", "pwrite64"):
            self.pending.append((at, data))
        elif name in ("fdatasync", "fsync"):
            self.durable, self.pending = self.content(), []

    def content(self) -> bytes:
        content = self.durable
        for at, data in self.pending:
            content = written(content, at, data)
        return content

    def images(self, draw: random.Random, step: int = 1) -> list[bytes]:
        """The contents that a loss of power may leave now, each once: where any bytes may stand, some stand for all."""
        found: dict[bytes, None] = {self.durable: None}
        for at, data in self.pending:
            found = dict.fromkeys(itertools.chain.from_iterable(torn(one, at, data, draw, step) for one in found))
        return list(found)
