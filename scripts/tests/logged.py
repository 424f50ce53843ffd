"""Files of systemd's journal, made by Debian's systemd-journal-remote from lines that a test writes."""
import pathlib
import struct
import subprocess
from collections.abc import Sequence
from typing import NamedTuple

from harness import TIME

REMOTE = pathlib.Path("/lib/systemd/systemd-journal-remote")
# The numbers of two starts of a machine.
BOOT, EARLIER_BOOT = "0123456789abcdef0123456789abcdef", "fedcba9876543210fedcba9876543210"
MACHINE = "11111111111111112222222222222222"


class Line(NamedTuple):
    """A line in systemd's journal: its moment in seconds, its text, and who wrote it."""

    moment: float
    text: str | bytes
    unit: str = "bovtrila.service"
    boot: str = BOOT
    transport: str = "stdout"

    def exported(self) -> bytes:
        """The line in the export format of systemd's journal."""
        text = self.text.encode() if isinstance(self.text, str) else self.text
        moment = round(self.moment * 1_000_000)
        fields = (f"__REALTIME_TIMESTAMP={moment}", f"__MONOTONIC_TIMESTAMP={moment % 10**12}", f"_BOOT_ID={self.boot}",
                  f"_MACHINE_ID={MACHINE}", f"_TRANSPORT={self.transport}", f"_SYSTEMD_UNIT={self.unit}")
        message = b"MESSAGE\n" + struct.pack("<Q", len(text)) + text
        return "".join(f"{field}\n" for field in fields).encode() + message + b"\n\n"


def write(folder: pathlib.Path, lines: Sequence[Line], name: str = "system.journal") -> None:
    """Adds lines to a file of a folder, and makes the file if it isn't there."""
    subprocess.run([REMOTE, f"--output={folder / name}", "-"], input=b"".join(line.exported() for line in lines), check=True,
                   capture_output=True, timeout=TIME)
