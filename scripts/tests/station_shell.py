"""A shell that looks like a station's machine with the package: the package's commands, /etc/bovtrila, /var/lib/bovtrila and
/usr/share/bovtrila below a folder, and stand-ins for sudo and systemctl, so that a page's commands run without root."""
import contextlib
import os
import pathlib
import signal

import installed
import shown
from harness import PROGRAM, TOP

STAND_INS = TOP / "scripts" / "tests" / "station-commands"
# The folders of the machine that are below the shell's folder.
PLACES = ("/etc/bovtrila", "/var/lib/bovtrila", "/usr/share/bovtrila")


class StationShell(shown.Shell):
    """The folder `machine` below the shell's own has the machine's folders."""

    HOME = "home"

    def __init__(self, folder: pathlib.Path, **more: object) -> None:
        self.machine = folder / "machine"
        for place in PLACES:
            (self.machine / place.lstrip("/")).mkdir(parents=True)
        for file, place in installed.rows():
            if f"/{place}".startswith(PLACES):
                to = self.machine / place
                to.parent.mkdir(parents=True, exist_ok=True)
                to.symlink_to(file)
        super().__init__(folder, MACHINE=self.machine, PROGRAM=PROGRAM, **more)
        for name in ("sudo", "systemctl", *(f"bovtrila-{name}" for name in installed.commands())):
            (folder / "bin" / name).symlink_to(STAND_INS)

    def commands(self) -> list[pathlib.Path]:
        return []

    def names(self) -> dict[str, str]:
        """The machine's folders have their names in the page, and others here."""
        return super().names() | {place: f"{self.machine}{place}" for place in PLACES}

    def end(self) -> None:
        """Ends the shell, and the station's server with it."""
        super().end()
        with contextlib.suppress(FileNotFoundError, ProcessLookupError):
            os.kill(int((self.machine / "pid").read_text()), signal.SIGKILL)
