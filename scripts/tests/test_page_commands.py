"""Runs each command that README.md and docs/ show, and compares its output with the output that is shown there.

A command is a line that begins with `$ ` in a block of a page. Those of a page run one after the other in one shell and
one folder, with both streams in one, as a terminal shows them. PREPARED makes what a block begins with, by the reference
model (bovtrila.model). scripts/tests/shown.py lists what differs from run to run. NOT_RUN lists the blocks that can't be
run on any machine, with the reason. The commands of STATIONS are those of a machine with the package, and run without root
(scripts/tests/station_shell.py). As root, those of docs/start/START.md also run on a new machine
(scripts/tests/tutorial.py).

The expected lines are the page's.
"""
import pathlib
import shutil
import subprocess
import tempfile
import unittest
from collections.abc import Callable, Iterable
from typing import TypeAlias

import harness
import shown
import statement_examples
import station_shell
from bovtrila import codec, layout, model
from harness import EXAMPLE, REVISED, TOP
from tutorial import Tutorial  # noqa: F401 (a test)

# What makes what a block begins with, and how a block begins: its page, and the first words of its first command.
Preparing: TypeAlias = Callable[[shown.Shell], object]
Begun: TypeAlias = tuple[str, str]

FOUR = [bytes.fromhex(line) for line in (TOP / "crates" / "tap_server" / "stdin").read_text().split()]
TABLE = model.Table(EXAMPLE.read_text())
PAGES = ["README.md", *sorted(str(page.relative_to(TOP)) for page in (TOP / "docs").glob("**/*.md"))]

# The clock of a page whose dates are those of a day of its own, for the scripts in Python.
CLOCKS = {"docs/operate/OPERATING.md": "2026-01-01T22:45:07", "docs/start/START.md": "2026-12-01T10:00:00"}
CLOCK = """import datetime, os, time
began, real = datetime.datetime.fromisoformat(os.environ["CLOCK"] + "+00:00").timestamp(), time.time
start = real()
time.time = lambda: began + real() - start
day = datetime.date
class Dates(type):
    def __instancecheck__(cls, value):
        return isinstance(value, day)
class Date(day, metaclass=Dates):
    @classmethod
    def today(cls):
        return cls.fromisoformat(os.environ["CLOCK"][:10])
datetime.date = Date
"""

# The pages whose commands are given on a station's machine.
STATIONS = ("docs/start/START.md",)

# The blocks that can't be run on any machine, by their page and how their first command begins, with the reason.
NOT_RUN = {
    ("docs/develop/MEASUREMENTS.md", "scripts/dev/measure"): "a measurement takes minutes of an idle machine",
    ("docs/operate/OPERATING.md", "bovtrila-setup"):
        "it sets up this machine; scripts/tests/test_first_start.py uses a folder",
    ("docs/reference/GATE_LIBRARY.md", "make -C clients/c"):
        "it installs below /usr/local; scripts/tests/test_gate_library.py does elsewhere",
}


def journal(folder: pathlib.Path, name: str = "station.journal", frames: Iterable[bytes] = FOUR, capacity: int = 1000,
            cards: int = 10, version: bytes = layout.VERSION) -> None:
    (folder / name).write_bytes(layout.journal_of(frames, capacity, cards, TABLE.digest, version))


def copied(shell: shown.Shell) -> None:
    """The journal of the four touches, and its copy."""
    for name in ("station.journal", "copy.journal"):
        journal(shell.folder, name)


def lowered(shell: shown.Shell) -> None:
    """The journal of the four touches, with a capacity of 2 in its header."""
    journal(shell.folder, "lowered.journal")
    file = shell.folder / "lowered.journal"
    file.write_bytes(layout.header_of(2, 10, TABLE.digest) + file.read_bytes()[layout.HEADER:])


def capped_journal(folder: pathlib.Path) -> None:
    """A journal of a card with three journeys under a cap, and an open touch in."""
    journal(folder, "monday.journal", statement_examples.station_of(statement_examples.EXAMPLES[0].touches).history)


def draft(folder: pathlib.Path) -> None:
    """A table whose third station has a number that is out of range."""
    text = EXAMPLE.read_text()
    assert text.count("{id = 3,") == 1
    (folder / "draft.toml").write_text(text.replace("{id = 3,", "{id = 65536,"))


def old_journal(folder: pathlib.Path) -> None:
    shutil.copy(EXAMPLE, folder / "fares.toml")
    journal(folder, "old.journal", cards=1000, version=b"OYSTERJ1")


def tables(folder: pathlib.Path) -> None:
    shutil.copy(EXAMPLE, folder / "first.toml")
    shutil.copy(REVISED, folder / "prices-2026.toml")


def moment(text: str) -> int:
    return int(subprocess.run(["date", "-u", "-d", text, "+%s"], capture_output=True, check=True, text=True).stdout)


def busy_journal(folder: pathlib.Path) -> None:
    """A journal of 61,204 touches. 10,269 of them are of the seven days up to the last one, and one is the revision to
    the table of 5 January 2026."""
    last = moment("2026-01-01T22:41:07Z")
    frames = [codec.touch(codec.REVISE, 65_535, 20_458, 0, model.Table(REVISED.read_text()).digest, 20_458, last - 100)]
    frames += [codec.touch(codec.ISSUE, 9, number, 1000, last - 30 * 86_400) for number in range(61_204 - 1 - 10_269)]
    frames += [codec.touch(codec.ISSUE, 8, number, 1000, last - 86_400) for number in range(10_268)]
    journal(folder, frames=[*frames, codec.touch(codec.LEAVE, 7, 40_112, 218, 3, last)], capacity=1_000_000, cards=1000)


def journal_with_gaps(folder: pathlib.Path) -> None:
    """A journal of three gates: one has all numbers up to 2040, one lacks three, one has a revision's alone."""
    shutil.copy(EXAMPLE, folder / "first.toml")
    shutil.copy(REVISED, folder / "prices-2025.toml")
    names = [(7, number) for number in range(1, 2041)]
    names += [(9, number) for number in range(1, 1212) if number not in (811, 1003, 1004)]
    frames = [codec.touch(codec.ISSUE, gate, number, 1, moment("2025-01-06T07:50:00Z")) for gate, number in names]
    digest = model.Table(REVISED.read_text()).digest
    frames.append(codec.touch(codec.REVISE, 65_535, 20_095, 0, digest, 20_095, moment("2025-01-06T08:00:00Z")))
    journal(folder, "copy.journal", frames, capacity=10_000)


def gate_file(folder: pathlib.Path) -> None:
    """The file of gate 9 of that journal, with two touches that are missing there, of which the second is given up, and one
    more that waits."""
    frames = [codec.touch(codec.ISSUE, 9, number, 1, moment("2025-01-06T07:50:00Z")) for number in range(1, 1212)]
    frames[810] = codec.touch(codec.TOP_UP, 9, 811, 12, 2000, moment("2025-01-06T07:50:00Z"))
    frames[1002] = codec.touch(codec.ENTER, 9, 1003, 12, 2, moment("2025-01-06T08:00:00Z"))
    frames[1003] = frames[1002]
    frames.append(codec.touch(codec.ISSUE, 9, 1212, 3, moment("2025-01-06T09:00:00Z")))
    tag = b"touches of one gate, by number" + (9).to_bytes(2, "big")
    (folder / "gate-9.file").write_bytes(layout.journal_of(frames, 10_000, 1, tag))


def served(make: Callable[[pathlib.Path], object], *revised: str) -> Preparing:
    """Makes a station's files, and starts a server on its journal."""
    def prepare(shell: shown.Shell) -> None:
        make(shell.folder)
        words = ["bovtrila serve --table first.toml --journal station.journal --cards 1000 --capacity 1000",
                 "--lines 2 --listen 127.0.0.1:" + shell.ports["4014"], *revised]
        said = shell.serve(" ".join(words), 2)
        assert "listening " in said, said
    return prepare


def gone(shell: shown.Shell) -> None:
    """Ends what a block has started, and takes its journals away."""
    shell.tell("kill $(jobs -p) 2>/dev/null; wait; rm -f *.journal")


def held(shell: shown.Shell) -> None:
    """A server that has the journal."""
    journal(shell.folder)
    words = "--journal station.journal --cards 10 --capacity 1000 --listen 127.0.0.1:0 --lines 1"
    shell.serve(f"bovtrila serve --table docs/example.toml {words}", 2)


def all_of(*steps: Callable[..., object]) -> Callable[..., None]:
    """One step after the other."""
    def run(given: object) -> None:
        for step in steps:
            step(given)
    return run


# What a block begins with, by its page and how its first command begins.
PREPARED: dict[Begun, Preparing] = {
    ("docs/reference/COMMANDS.md", "bovtrila check"): lambda shell: draft(shell.folder),
    ("docs/reference/COMMANDS.md", "bovtrila migrate"): lambda shell: old_journal(shell.folder),
    ("docs/reference/COMMANDS.md", "bovtrila verify"): lambda shell: journal(shell.folder),
    ("docs/reference/COMMANDS.md", "bovtrila statement"): lambda shell: capped_journal(shell.folder),
    ("docs/reference/FAULTS.md", "bovtrila serve"): held,
    ("docs/operate/OPERATING.md", "bovtrila-status"):
        served(all_of(tables, busy_journal), "prices-2026.toml"),
    ("docs/operate/OPERATING.md", "bovtrila-gate 127.0.0.1:4014 crates"): all_of(gone, served(tables)),
    ("docs/operate/OPERATING.md", "bovtrila-gate 127.0.0.1:4014 --revise"):
        all_of(gone, served(tables, "prices-2026.toml")),
    ("docs/audit/AUDIT.md", "bovtrila verify --journal copy.journal"): copied,
    ("docs/audit/AUDIT.md", "bovtrila verify --journal lowered.journal"): lowered,
    ("docs/audit/AUDIT.md", "bovtrila verify --journal copy2.journal"):
        lambda shell: journal(shell.folder, "copy2.journal"),
    ("docs/audit/AUDIT.md", "bovtrila history --table first.toml"): lambda shell: journal_with_gaps(shell.folder),
    ("docs/audit/AUDIT.md", "bovtrila balances"): lambda shell: journal(shell.folder, "copy.journal"),
    ("docs/audit/AUDIT.md", "bovtrila-compare-gate"): lambda shell: all_of(journal_with_gaps, gate_file)(shell.folder),
}


def of(table: Iterable[Begun], command: shown.Command) -> Begun | None:
    """What a table has for a command, by how it begins: its key, or nothing."""
    return next((key for key in table if key[0] == command.page and command.text.startswith(key[1])), None)


def fault(shell: shown.Shell, command: shown.Command) -> str | None:
    """What is wrong with what a page shows behind a command, or nothing."""
    said = shell.run(command)
    if shown.plain(said) != shown.plain(command.shown):
        return f"{command}\nthe page shows:\n{command.shown}it said:\n{said}"
    return None


def lacking(command: shown.Command) -> str | None:
    """Why this machine can't run a command, or nothing."""
    if "bovtrila-day-report" in command.text:
        done = subprocess.run(["/usr/bin/python3", "-c", "import jinja2, matplotlib"], capture_output=True)
        return f"{command} needs python3-matplotlib and python3-jinja2" if done.returncode else None
    return None


class Pages(harness.ProgramTest):
    """The pages as they stand."""

    def shell(self, page: str) -> shown.Shell:
        room = tempfile.TemporaryDirectory(prefix="page-commands-")
        self.addCleanup(room.cleanup)
        folder = pathlib.Path(room.name)
        more: dict[str, str | pathlib.Path] = {}
        if page in CLOCKS:
            (folder / "clock").mkdir()
            (folder / "clock" / "sitecustomize.py").write_text(CLOCK)
            more = {"CLOCK": CLOCKS[page], "PYTHONPATH": folder / "clock"}
        shell = (station_shell.StationShell if page in STATIONS else shown.Shell)(folder, **more)
        self.addCleanup(shell.end)
        return shell

    def test_each_command_says_what_its_page_shows(self) -> None:
        used: set[Begun | None] = set()
        for page in PAGES:
            blocks = [block for block in shown.blocks(page) if not of(NOT_RUN, block[0])]
            used |= {of(table, command) for block in shown.blocks(page) for command in block
                     for table in ([*NOT_RUN], [*PREPARED])}
            if not blocks:
                continue
            shell = self.shell(page)
            for block in blocks:
                if begun := of(PREPARED, block[0]):
                    PREPARED[begun](shell)
                for command in block:
                    with self.subTest(str(command)):
                        if why := lacking(command):
                            self.skipTest(why)
                        self.assertIsNone(fault(shell, command))
        with self.subTest("each row of the lists is of a command"):
            self.assertEqual({*NOT_RUN, *PREPARED} - used, set())

    def test_what_a_killed_server_answers_again_is_what_the_readme_says(self) -> None:
        """README.md: killed by `kill -9` and started again, the server opens 4 touches and gives the same answers."""
        shell = self.shell("README.md")
        first = next(shown.blocks("README.md"))
        for command in first:
            self.assertIsNone(fault(shell, command))
        shell.tell("kill -9 $(jobs -p); wait")
        serving = first[1]
        self.assertIn("it writes `opened 4`", (TOP / "README.md").read_text())
        serving.shown = serving.shown.replace("opened 0", "opened 4").replace("new journal station.journal\n", "")
        for command in (serving, first[2]):
            self.assertIsNone(fault(shell, command))


class Lies(unittest.TestCase):
    """Pages that show what isn't so."""

    def faults(self, text: str, kind: type[shown.Shell] = shown.Shell) -> list[bool]:
        with tempfile.TemporaryDirectory(prefix="page-commands-") as folder:
            shell = kind(pathlib.Path(folder))
            try:
                commands = [command for block in shown.blocks("docs/ONE.md", text) for command in block]
                return [fault(shell, command) is not None for command in commands]
            finally:
                shell.end()

    def test_a_line_that_isnt_said_and_one_that_isnt_shown_are_seen(self) -> None:
        self.assertEqual(self.faults("```\n$ echo 1\n1\n$ echo 1; echo 2 >&2\n1\n2\n```\n"), [False, False])
        self.assertEqual(self.faults("```\n$ echo 1\n2\n$ echo 1\n$ echo 1\n1\n2\n$ true\n1\n```\n"), [True] * 4)

    def test_a_status_and_a_name_are_kept_from_command_to_command(self) -> None:
        self.assertEqual(self.faults("```\n$ alias ask='echo 1'\n$ ask; false\n1\n$ echo $?\n1\n```\n"), [False] * 3)
        self.assertEqual(self.faults("1. One:\n\n   ```\n   $ echo 1 \\\n       2\n   1 2\n   ```\n"), [False])

    def test_only_what_is_named_may_differ(self) -> None:
        said = "```\n$ echo answered in 5 ms\nanswered in 0.21 ms\n$ echo took 5 ms\ntook 6 ms\n```\n"
        self.assertEqual(self.faults(said), [False, True])

    def test_a_station_s_machine_has_its_names(self) -> None:
        said = ("```\n$ sudo ls /usr/share/bovtrila/docs/example.toml\n/usr/share/bovtrila/docs/example.toml\n"
                "$ bovtrila-status\nstatus: no server is set up on this machine: there is no /etc/bovtrila/serve.conf. "
                "Begin by bovtrila-setup, or name an address\n```\n")
        self.assertEqual(self.faults(said, station_shell.StationShell), [False, False])

    def test_a_block_without_commands_is_none(self) -> None:
        self.assertEqual(self.faults("```\necho 1\n```\n\n    $ echo 1\n"), [])
