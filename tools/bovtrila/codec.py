# SPDX-License-Identifier: Apache-2.0
"""The frames of requests and answers (PROTOCOL.md): their kinds and codes, and what writes them. They are written by hand,
and scripts/dev/check-facts compares them with the program's code."""
import datetime
import struct

ENTER, LEAVE, TOP_UP, ISSUE, ENQUIRE, REVISE = 1, 2, 3, 4, 5, 6
REPLY, HOLDING, FAULT = 0x81, 0x85, 0xFF
BAD_FRAME, CONFLICT, HALTED, MEMORY, FULL, UNKNOWN_TABLE, NOT_ALLOWED = 1, 2, 3, 4, 5, 6, 7
REVISED, BAD_DAY = 9, 27
# The words of a history for the kinds of touches and for verdicts.
ACTS = {ENTER: "in", LEAVE: "out", TOP_UP: "top-up", ISSUE: "issue", REVISE: "revision"}
FORMS = {ENTER: ">BHIIHI", LEAVE: ">BHIIHI", TOP_UP: ">BHIIII", ISSUE: ">BHIII", ENQUIRE: ">BI", REVISE: ">BHII32siI"}


def framed(form: str, *values: int | bytes) -> bytes:
    """The frame of a body of these values."""
    body = struct.pack(form, *values)
    return struct.pack(">H", len(body)) + body


def touch(kind: int, gate: int, number: int, card: int, *values: int | bytes) -> bytes:
    """The request frame of a touch: of a touch in or out with station and moment, of a top-up with pence and moment,
    of an issue with its moment, of a revision with the table's digest, its first fare day and a moment."""
    return framed(FORMS[kind], kind, gate, number, card, *values)


def enquiry(card: int) -> bytes:
    return framed(FORMS[ENQUIRE], ENQUIRE, card)


def fault(code: int, gate: int = 0, number: int = 0) -> bytes:
    return framed(">BBHI", FAULT, code, gate, number)


def days(date: datetime.date) -> int:
    """The days from 1970-01-01 to a date."""
    return (date - datetime.date(1970, 1, 1)).days
