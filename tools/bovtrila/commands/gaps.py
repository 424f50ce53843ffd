# SPDX-License-Identifier: Apache-2.0
"""Lists the gaps in each gate's numbers, for an auditor: where touches may have been removed from a journal.

HISTORY.csv is the whole history of a journal, the output of `bovtrila history` (- is standard input). The script
prints a line of comma-separated values for each gate:

    gate       the gate
    first      its lowest number
    last       its highest number
    touches    how many touches it has
    missing    how many numbers between the two have no touch
    numbers    which numbers these are, as '11 25-26'; at most --most parts, then how many more numbers there are

A gap is a reason to ask, and isn't a proof. A gate that counts up one by one has no gap once it has settled every touch
that got no answer. If it gave a touch up, the next number is missing, and the touch's own number too, unless an earlier
send was recorded: '25-26' or '26'. The gate's file shows that (bovtrila-compare-gate). A gate that was replaced, and
found its first number by asking, has larger and larger gaps. The revisions of gate 65535 are numbered by their days, so
they are left out unless --gate names that gate. If a gate's first or last touches were removed, or all of them, there is
no gap: a list of the gates and a seal show that (AUDIT.md).

The status is 0 if no gate has a gap, 3 if one has, 1 if the file is wrong or can't be read, and 2 for a wrong command
line. For a long file the script reports its progress on standard error.

    bovtrila history --table first.toml --journal copy.journal > history.csv
    bovtrila-gaps history.csv
    bovtrila-gaps history.csv --gate 7 --most 1000
"""
import argparse
import hashlib
import os
import sys

from bovtrila.history_rows import Chain, Wrong, rows_of

HEADING = "gate,first,last,touches,missing,numbers"
# The gate of revisions.
STAFF = 65_535
# How many parts of missing numbers stand in a line where no other number is asked for.
MOST = 20


def whole(text: str) -> int:
    """A number of the command line."""
    if not text.isdecimal() or len(text) > 9:
        raise argparse.ArgumentTypeError(f"'{text}' is no number from 0 up")
    return int(text)


def options() -> argparse.Namespace:
    parser = argparse.ArgumentParser(description=__doc__, formatter_class=argparse.RawTextHelpFormatter)
    parser.add_argument("file", metavar="HISTORY.csv", help="the history, or - for standard input")
    parser.add_argument("--gate", metavar="N", type=whole, action="append", help="list only this gate; may be repeated")
    parser.add_argument("--most", metavar="N", type=whole, default=MOST,
                        help=f"how many parts a line's list of missing numbers has at most ({MOST})")
    return parser.parse_args()


def numbers_of(path: str, gates: list[int] | None) -> dict[int, set[int]]:
    """The numbers of each gate, of these alone where some are named. A revision's number is that of its day."""
    found: dict[int, set[int]] = {}
    for row, _ in rows_of(path, Chain(), hashlib.sha256(), "gaps"):
        by_day = row.gate == STAFF and row.act == "revision"
        if row.gate in gates if gates else not by_day:
            numbers = found.setdefault(row.gate, set())
            if row.number in numbers:
                raise Wrong(f"place {row.place}: gate {row.gate} has number {row.number} twice, which no history has")
            numbers.add(row.number)
    return found


def gaps_of(numbers: set[int]) -> list[tuple[int, int]]:
    """The first and the last of each row of missing numbers, in order."""
    ordered = sorted(numbers)
    return [(low + 1, high - 1) for low, high in zip(ordered, ordered[1:]) if high > low + 1]


def line_of(gate: int, numbers: set[int], most: int) -> tuple[str, bool]:
    """A gate's line, and whether it has a gap."""
    gaps = gaps_of(numbers)
    parts = [f"{low}-{high}" if low < high else f"{low}" for low, high in gaps[:most]]
    left = sum(high - low + 1 for low, high in gaps[most:])
    parts += [f"and {left} more"] if left else []
    missing = sum(high - low + 1 for low, high in gaps)
    return f"{gate},{min(numbers)},{max(numbers)},{len(numbers)},{missing},{' '.join(parts)}", bool(gaps)


def main() -> int:
    asked = options()
    name = "standard input" if asked.file == "-" else os.path.basename(asked.file)
    try:
        found = numbers_of(asked.file, asked.gate)
    except Wrong as wrong:
        sys.exit(f"gaps: {name}: {wrong}")
    has_gap = False
    try:
        print(HEADING)
        for gate in sorted(found):
            line, is_open = line_of(gate, found[gate], asked.most)
            has_gap |= is_open
            print(line)
        sys.stdout.flush()
    except BrokenPipeError:
        # Whoever reads the lines has gone.
        os.dup2(os.open(os.devnull, os.O_WRONLY), sys.stdout.fileno())
        return 1
    except OSError as error:
        os.dup2(os.open(os.devnull, os.O_WRONLY), sys.stdout.fileno())
        sys.exit(f"gaps: standard output: {error.strerror}; the lines aren't whole")
    for gate in asked.gate or ():
        if gate not in found:
            print(f"gaps: {name}: no touch of gate {gate}", file=sys.stderr)
    return 3 if has_gap else 0
