# SPDX-License-Identifier: Apache-2.0
"""How a server is: what bovtrila-status and bovtrila-exporter ask it and read beside it, and whether it takes new touches.
"""
import os
import pathlib
import time
from collections.abc import Iterable, Mapping
from typing import Any

from bovtrila import codec, wire

# A revision to no table, under the staff's gate and a number that no day has. A halted server answers it by fault 3, any
# other by fault 6, and none records it (PROTOCOL.md, "Revisions").
NO_TABLE = codec.touch(codec.REVISE, 65_535, 2**32 - 1, 0, bytes(32), 0, 0)
# Below so many free bytes a disk counts as full: a file system gives room by blocks of this size.
BLOCK = 4096
# How many enquiries are sent before their answers are read.
BATCH = 256
INSIDE = 2


def ask(line: wire.Connection, has_door: bool = False) -> tuple[int | None, bool | None, float]:
    """Asks over a connection: how many touches the server shows (`None` for another answer), whether its disk has
    failed, and how many seconds the enquiry took. A server with a door isn't asked whether its disk has failed (`None`):
    the door would refuse the question, and report it. Raises ConnectionError where the connection ends."""
    begun = time.monotonic()
    line.send(codec.enquiry(1))
    answer = line.take()
    took = time.monotonic() - begun
    other = b"" if has_door else answer_to(line, NO_TABLE)
    if not answer or not other and not has_door:
        raise ConnectionError("it closed the connection without an answer")
    if wire.is_fault(answer, codec.NOT_ALLOWED):
        raise wire.Wrong("its door lets no enquiry of this machine through: the rule * needs the kind enquiry")
    front = wire.fields_of(answer)["front"] if answer[2] == codec.HOLDING else None
    if has_door or wire.is_fault(other, codec.NOT_ALLOWED):
        return front, None, took
    return front, wire.is_fault(other, codec.HALTED), took


def answer_to(line: wire.Connection, request: bytes) -> bytes:
    """The answer to a request."""
    line.send(request)
    return line.take()


def count_inside(line: wire.Connection, cards: Iterable[int]) -> int:
    """How many of these cards are inside, by an enquiry for each."""
    numbers, count = sorted(cards), 0
    for place in range(0, len(numbers), BATCH):
        asked = numbers[place : place + BATCH]
        line.send(*map(codec.enquiry, asked))
        for _ in asked:
            answer = line.take()
            if not answer:
                raise ConnectionError("it closed the connection without an answer")
            count += answer[2] == codec.HOLDING and answer[3] == INSIDE
    return count


def disk_of(path: str | pathlib.Path, whole: int) -> tuple[int, int]:
    """How many bytes are free on the disk of a journal, for others than root, and how many of its whole size it has
    not yet got from the disk."""
    system, file = os.statvfs(path), os.stat(path)
    return system.f_bavail * system.f_frsize, max(0, whole - 512 * file.st_blocks)


def hindrance(found: Mapping[str, Any]) -> str | None:
    """Why a server takes no new touch, in words, or `None` where it does, by what was found: what isn't known there
    hinders nothing."""
    if not found.get("answers"):
        return found.get("why") or "it doesn't answer"
    if found.get("halted"):
        return "it is halted: the journal's disk has failed, and no touch is recorded"
    if found.get("room") == 0:
        return "the journal is full: it takes no new touch"
    free, missing = found.get("disk_free_bytes"), found.get("journal_missing_bytes")
    if missing and free is not None and free < BLOCK:
        return (f"the disk is full: {free:,} bytes are free, and the journal needs {missing:,} more. The next touch "
                "halts the server")
    return None
