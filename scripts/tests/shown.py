"""The commands that a page shows, each with the lines of output that follow it, and a shell that runs them in turn."""
import contextlib
import os
import pathlib
import pty
import re
import secrets
import signal
import socket
import subprocess
import threading
import time
from collections.abc import Iterator
from typing import Any

from harness import CRATES, PROGRAM, TIME, TOP, free_port

BLOCK = re.compile(r"^(?P<indent> *)```\n(?P<text>(?P=indent)\$ .*?)^(?P=indent)```$", re.M | re.S)

# What differs from run to run, with what stands in its place where a page is compared with what was said.
DIFFERS = (
    ("the time of an answer", re.compile(r"answered in [0-9.]+ ms"), "answered in TIME"),
    ("the clock of a screen", re.compile(r"^time        \S+Z$", re.M), "time        CLOCK"),
    ("the room on a disk", re.compile(r"^disk        \S+ \S+ free; the journal needs .*$", re.M), "disk        ROOM"),
    ("the room on a disk with a whole journal", re.compile(r"^disk        \S+ \S+ free; the journal has", re.M),
     "disk        ROOM; the journal has"),
    ("the start of a unit", re.compile(r"active since \S+Z; "), "active since MOMENT; "),
    ("the moment of a handover", re.compile(r"(numbers \d+ to \d+, of) \S+Z$", re.M), r"\1 MOMENT"),
    ("a carriage return, which a page can't show", re.compile(r"\r"), ""),
)
# The ports of the pages: a free one stands in the place of each.
PORTS = ("4014", "4016")
# What a command asks at a terminal, and what is typed behind it.
ASKED, TYPED = "Type yes: ", "yes\n"


class Command:
    """A command of a page, and the lines that stand behind it there."""

    def __init__(self, page: str, line: int, text: str) -> None:
        self.page, self.line = page, line
        lines = text.split("\n")
        size = next(place for place, each in enumerate(lines, 1) if not each.endswith("\\"))
        self.text, self.shown = "\n".join(lines[:size]), "\n".join(lines[size:])

    def __str__(self) -> str:
        return f"{self.page}, line {self.line}: {self.text}"

    def is_serving(self) -> bool:
        """Whether it is a server in a terminal of its own, which goes on while other commands are given."""
        return " serve " in self.text and not self.text.endswith("&")


def blocks(page: str, text: str | None = None) -> Iterator[list[Command]]:
    """The blocks of a page that have commands, each a list of them."""
    text = (TOP / page).read_text() if text is None else text
    for block in BLOCK.finditer(text):
        line = text.count("\n", 0, block.start()) + 2
        found: list[Command] = []
        for part in re.split(r"^\$ ", re.sub(f"(?m)^{block['indent']}", "", block["text"]), flags=re.M)[1:]:
            found.append(Command(page, line, part))
            line += part.count("\n")
        yield found


def plain(text: str) -> str:
    """A text without what differs from run to run."""
    for _, pattern, instead in DIFFERS:
        text = pattern.sub(instead, text)
    return text


def free_ports(count: int) -> list[str]:
    """So many ports that nobody listens on."""
    found: set[str] = set()
    while len(found) < count:
        found.add(str(free_port()))
    return list(found)


@contextlib.contextmanager
def limited(process: subprocess.Popen[Any]) -> Iterator[None]:
    """Kills a process, and those of its session, where what is done meanwhile takes too long."""
    timer = threading.Timer(TIME, os.killpg, (process.pid, signal.SIGKILL))
    timer.start()
    try:
        yield
    finally:
        timer.cancel()


class Shell:
    """A shell in a folder that looks like the repository, and stays while a page's commands run."""

    # The folder below its own in which commands are given.
    HOME = "."

    def __init__(self, folder: str | pathlib.Path, **more: object) -> None:
        self.folder, self.mark = pathlib.Path(folder), secrets.token_hex(8)
        self.home = self.folder / self.HOME
        self.home.mkdir(exist_ok=True)
        self.ports = dict(zip(PORTS, free_ports(len(PORTS))))
        for name in ("docs", "network", "crates", "clients", "scripts"):
            (self.folder / name).symlink_to(TOP / name)
        # The programs as they are built: whether bin/bovtrila has to build them is no question of the pages.
        path = self.folder / "bin"
        path.mkdir()
        (path / "bovtrila").symlink_to(PROGRAM)
        (path / "gate_send").symlink_to(CRATES / "gate_send" / "out" / "gate_send")
        for command in self.commands():
            (path / command.name).symlink_to(command)
        self.env = {**os.environ, "PATH": f"{path}:{os.environ['PATH']}"}
        self.env.update((name, str(value)) for name, value in more.items())
        self.process = subprocess.Popen(["bash", "--norc"], cwd=self.home, env=self.env, stdin=subprocess.PIPE,
                                        stdout=subprocess.PIPE, stderr=subprocess.STDOUT, text=True,
                                        start_new_session=True)
        assert self.process.stdin and self.process.stdout, "pipes"
        self.given, self.printed = self.process.stdin, self.process.stdout
        self.tell("shopt -s expand_aliases; trap 'kill $(jobs -p) 2>/dev/null; wait' EXIT; true")

    def commands(self) -> list[pathlib.Path]:
        """The files of the commands bovtrila-NAME."""
        return sorted((TOP / "bin").glob("bovtrila-*"))

    def end(self) -> None:
        """Ends the shell, and the servers with it."""
        with limited(self.process), contextlib.suppress(BrokenPipeError):
            self.given.close()
            self.process.wait()
        self.printed.close()

    def tell(self, text: str) -> str:
        """Gives the shell a command, and waits for its output: both streams, as a terminal shows them."""
        (self.folder / ".command").write_text(text + "\n")
        self.given.write(f". {self.folder}/.command </dev/null; s=$?; echo {self.mark}; (exit $s)\n")
        self.given.flush()
        said = ""
        with limited(self.process):
            while not said.endswith(self.mark + "\n"):
                line = self.printed.readline()
                if not line:
                    raise AssertionError(f"the shell has ended, or took too long: {text}\n{said}")
                said += line
        return said.removesuffix(self.mark + "\n")

    def run(self, command: Command) -> str:
        """Runs a command of a page, and gives what was said, with the page's ports."""
        text = command.text
        for name, instead in self.names().items():
            text = text.replace(name, instead)
        if command.is_serving():
            said = self.serve(text, command.shown.count("\n"))
        elif ASKED + TYPED in command.shown:
            said = self.type(text)
        else:
            said = self.tell(text)
        if command.text.endswith("&"):
            self.wait_for_listeners()
        for name, instead in self.names().items():
            said = said.replace(instead, name)
        return said

    def names(self) -> dict[str, str]:
        """The names of a page that have others here: a free port is used in the place of each."""
        return {f"127.0.0.1:{port}": f"127.0.0.1:{free}" for port, free in self.ports.items()}

    def serve(self, text: str, lines: int) -> str:
        """Starts a server, and waits until it has said so many lines, or has ended."""
        file = self.folder / ".served"
        file.unlink(missing_ok=True)
        self.tell(f"{text} >.served 2>&1 &")
        begun = time.monotonic()
        while not (file.exists() and file.read_text().count("\n") >= lines):
            if time.monotonic() > begun + TIME or self.tell("jobs -r") == "":
                break
            time.sleep(0.05)
        # What it says beyond those lines would follow at once.
        time.sleep(0.2)
        return file.read_text()

    def type(self, text: str) -> str:
        """Runs a command at a terminal, and types behind what is asked there."""
        ours, its = pty.openpty()
        process = subprocess.Popen(["bash", "-c", text], cwd=self.home, env=self.env, stdin=its, stdout=its,
                                   stderr=its, start_new_session=True)
        os.close(its)
        said, typed = "", False
        # Where the other end is closed, reading a terminal is an error.
        with open(ours, "r+b", buffering=0) as terminal, contextlib.suppress(OSError), limited(process):
            while piece := terminal.read(4096):
                said += piece.decode()
                if said.endswith(ASKED) and not typed:
                    typed = bool(terminal.write(TYPED.encode()))
        process.wait(TIME)
        return said

    def wait_for_listeners(self) -> None:
        """Waits until each port of the last command takes a connection."""
        begun, text = time.monotonic(), (self.folder / ".command").read_text()
        for port in self.ports.values():
            while port in text and time.monotonic() < begun + TIME:
                try:
                    socket.create_connection(("127.0.0.1", int(port)), TIME).close()
                    break
                except ConnectionRefusedError:
                    time.sleep(0.05)
