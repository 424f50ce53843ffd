"""Interactive shells with the package's completion, on separate terminals: how the tabulator completes a line."""
import os
import pathlib
import pty
import re
import select
import signal
import time
from typing import ClassVar, Self

# The tabulator, the key that empties the line, and the one that shows it.
TAB, KILL_LINE, SHOW = b"\t", b"\x15", b"\x07"
PROMPT = "ready> "
# How long a shell may be silent before what it said is taken for all, and how long it may take at all.
SILENCE, TIME = 0.3, 60
SHOWN = "<(.*)>"
CONTROL = re.compile(r"\x1b\[[0-9;?]*[A-Za-z]|\x1b[=>]|[\x07\r]")


class Shell:
    """A shell that runs on a terminal, in a folder, with the completion of a tree where a package was unpacked."""

    NAME: ClassVar[str]
    WORDS: ClassVar[list[str]]

    def __init__(self, tree: pathlib.Path, folder: pathlib.Path) -> None:
        self.process, self.terminal = pty.fork()
        if self.process == 0:
            os.chdir(folder)
            os.environ.update({"TERM": "dumb", "PS1": PROMPT, "LC_ALL": "C.UTF-8", "COLUMNS": "200", "LINES": "50",
                               "HOME": str(folder)})
            os.execvp(self.NAME, [self.NAME, *self.WORDS])
        self.begin(tree)

    def begin(self, tree: pathlib.Path) -> None:
        raise NotImplementedError

    def __enter__(self) -> Self:
        return self

    def __exit__(self, *_: object) -> None:
        os.kill(self.process, signal.SIGKILL)
        os.waitpid(self.process, 0)
        os.close(self.terminal)

    def send(self, keys: bytes) -> None:
        os.write(self.terminal, keys)

    def told(self, until: str | None = None, silence: float = SILENCE) -> str:
        """What the shell writes until something of this form, or until it is silent."""
        said, begun = "", time.monotonic()
        while time.monotonic() < begun + TIME and not (until and re.search(until, said)):
            if select.select([self.terminal], [], [], silence)[0]:
                said += CONTROL.sub("", os.read(self.terminal, 65536).decode(errors="replace"))
            elif until is None:
                break
        return said

    def line(self, text: str) -> str:
        """Enters a line."""
        self.send(text.encode() + b"\n")
        return self.told(PROMPT)

    def completed(self, line: str) -> str:
        """The line that the tabulator makes of this one."""
        self.send(KILL_LINE + line.encode() + TAB + SHOW)
        shown = re.search(SHOWN, self.told(SHOWN))
        assert shown, "the shell shows its line"
        return shown[1]

    def offered(self, line: str) -> list[str]:
        """The words that are offered behind this line. A busy machine may take longer for them than a shell is silent."""
        for silence in (SILENCE, 10 * SILENCE, 100 * SILENCE):
            self.told()
            self.send(KILL_LINE + line.encode() + TAB + TAB)
            words = self.told(silence=silence).split()
            if {word.strip("\b") for word in words} - {"", *line.split(), PROMPT.strip()}:
                break
        return words


class Bash(Shell):
    NAME, WORDS = "bash", ["--norc", "--noprofile", "-i"]

    def begin(self, tree: pathlib.Path) -> None:
        self.told(PROMPT)
        for line in (f'for file in {tree}/usr/share/bash-completion/completions/*; do source "$file"; done',
                     "bind 'set page-completions off'", "bind -x '\"\\C-g\": printf \"<%s>\\n\" \"$READLINE_LINE\"'"):
            self.line(line)


class Zsh(Shell):
    NAME, WORDS = "zsh", ["-f", "-i"]

    def begin(self, tree: pathlib.Path) -> None:
        self.told(PROMPT)
        for line in (f"fpath=({tree}/usr/share/zsh/vendor-completions $fpath)", "autoload -U compinit",
                     "compinit -D -u", "show() { print -r -- \"<$BUFFER>\" }", "zle -N show", "bindkey '^G' show",
                     "unsetopt beep"):
            self.line(line)
