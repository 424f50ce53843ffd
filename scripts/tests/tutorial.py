"""docs/start/START.md on a new machine: its commands, run as root from its package and under systemd."""
import pathlib
import re
import shlex
import tempfile

import debs
import harness
import machine
import shown

PAGE, FOLDER = "docs/start/START.md", "/root/tutorial"
# The page's commands run under another date here.
AGO = re.compile(r"[\d,]+ days ago")


def plain(text: str) -> str:
    """A text without what differs from day to day."""
    return AGO.sub("DAYS ago", shown.plain(text))


class Tutorial(harness.ProgramTest):
    """A machine that has the package, and `sudo`, which runs a command as it is."""

    machine: machine.Machine

    def setUp(self) -> None:
        if lacking := machine.lacking():
            self.skipTest(lacking)
        room = tempfile.TemporaryDirectory(prefix="tutorial-")
        self.addCleanup(room.cleanup)
        package, _ = debs.make(pathlib.Path(room.name))
        try:
            self.machine = machine.Machine(pathlib.Path(room.name))
        except machine.NotHere as hindered:
            self.skipTest(str(hindered))
        self.addCleanup(self.machine.end)
        sudo = self.machine.path("/usr/local/bin/sudo")
        sudo.write_text('#!/bin/sh\nexec "$@"\n')
        sudo.chmod(0o755)
        self.machine.run("mkdir", FOLDER)
        self.assertEqual(self.machine.run("apt-get", "install", f"/packages/{package.name}").returncode, 0)

    def said(self, command: shown.Command) -> tuple[str, str]:
        """What the machine prints for a command, and what the page shows, without what is typed."""
        text, expected = command.text, command.shown
        if shown.ASKED in expected:
            text = f"printf 'yes\\n' | script -qec {shlex.quote(text)} /dev/null | sed 1d"
            expected = expected.replace(shown.ASKED + shown.TYPED, shown.ASKED)
        done = self.machine.run("bash", "-c", f"cd {FOLDER}; {{ {text}\n}} 2>&1")
        return plain(done.stdout), plain(expected)

    def test_a_newcomer_gets_what_the_page_shows(self) -> None:
        for block in shown.blocks(PAGE):
            for command in block:
                with self.subTest(str(command)):
                    said, expected = self.said(command)
                    self.assertEqual(said, expected)
        with self.subTest("nothing is left"):
            for text in ("systemctl disable --now bovtrila", "apt-get purge bovtrila", "rm -r /var/lib/bovtrila",
                         "userdel bovtrila"):
                self.assertIn(f"\nsudo {text}\n", (harness.TOP / PAGE).read_text())
                self.assertEqual(self.machine.run(*text.split()).returncode, 0, text)
            left = self.machine.run("sh", "-c", "ls -d /etc/bovtrila /var/lib/bovtrila /usr/bin/bovtrila*")
            self.assertEqual(left.stdout, "")
            self.assertNotEqual(self.machine.run("getent", "group", "bovtrila").returncode, 0)
