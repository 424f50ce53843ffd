# SPDX-License-Identifier: Apache-2.0
"""Values of the command line that several commands read."""
import argparse
import datetime
import re
import zoneinfo

from bovtrila.history_rows import DATE


def day(text: str) -> str:
    """A date of the command line."""
    try:
        if re.fullmatch(DATE, text):
            return datetime.date.fromisoformat(text).isoformat()
    except ValueError:
        pass
    raise argparse.ArgumentTypeError(f"'{text}' is no date; write it as 2025-01-06")


def zone(text: str) -> zoneinfo.ZoneInfo:
    """A zone of the command line."""
    try:
        return zoneinfo.ZoneInfo(text)
    except (OSError, ValueError, zoneinfo.ZoneInfoNotFoundError):
        raise argparse.ArgumentTypeError(f"'{text}' is no zone of this machine (its package tzdata has them); write it "
                                         "as Europe/London") from None
