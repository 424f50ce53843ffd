# SPDX-License-Identifier: Apache-2.0
"""How many touches a journal has, read on from where it was read to: for programs that look again and again."""
import os
import pathlib
import struct
from typing import BinaryIO

from bovtrila import layout
from bovtrila.wire import Wrong

# How many slots are read at a time.
SLOTS = 4096


class Tail:
    """A journal's file, read alone and without a lock."""

    def __init__(self, path: str | pathlib.Path) -> None:
        self.path, self.touches, self.capacity, self.written = path, 0, 0, 0.0
        # The bytes of the header and the number of the file (inode) that were read last.
        self.header = b"", 0
        self.slot = layout.SLOT

    def read(self, known: int = 0) -> None:
        """Reads what came since the last time, or since so many touches that are known to be there. A file that is another
        journal now is read from its beginning."""
        try:
            with open(self.path, "rb") as file:
                header = file.read(layout.HEADER)
                if len(header) < layout.HEADER or header[0] != layout.MARK or header[1:9] not in layout.SLOTS:
                    raise Wrong(f"{self.path}: this is no journal")
                status = os.fstat(file.fileno())
                if (header, status.st_ino) != self.header:
                    self.header, self.touches = (header, status.st_ino), known
                self.capacity, = struct.unpack(">I", header[9:13])
                self.written = status.st_mtime
                self.slot = layout.SLOTS[header[1:9]]
                self.go_on(file, self.slot)
        except OSError as error:
            raise Wrong(f"{self.path}: {error.strerror}") from None

    def whole_size(self) -> int:
        """How many bytes the file has once the journal is full: with a closed mark behind the last slot."""
        return layout.HEADER + self.slot * self.capacity + 1

    def go_on(self, file: BinaryIO, size: int) -> None:
        """Counts the slots with an open mark, up to the first closed one."""
        file.seek(layout.HEADER + size * self.touches)
        while self.touches < self.capacity:
            marks = file.read(SLOTS * size)[::size]
            marked = len(marks) - len(marks.lstrip(bytes([layout.MARK])))
            self.touches = min(self.touches + marked, self.capacity)
            if marked < SLOTS:
                return
