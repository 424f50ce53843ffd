"""Tests that the commands bovtrila-network-NAME refuse pipes, devices and folders at once, in the words of
docs/reference/FAULTS.md. For scripts/tests/test_network.py."""
import os
import pathlib
import subprocess
from collections.abc import Sequence

import harness
from bovtrila import layout, model
from harness import BIN, EXAMPLE, PROGRAM, TOP
from network_base import TABLES, room

# How many seconds a command may take. One that opens a pipe without a writer never ends.
PATIENCE = 60


class Paths(harness.ProgramTest):
    """What is no regular file: a pipe without a writer, a device without an end, and a folder."""

    WORDS = {"pipe": "is a device or a pipe", "/dev/zero": "is a device or a pipe", "folder": "is a folder"}

    def setUp(self) -> None:
        self.room = room("network-paths-")
        os.mkfifo(self.room / "pipe")
        (self.room / "folder").mkdir()
        table = model.Table(EXAMPLE.read_text())
        (self.room / "journal").write_bytes(layout.journal_of([], 10, 10, table.digest))

    def said(self, script: str, *words: object) -> tuple[int, str, str]:
        """The status of a command in the folder, and its output."""
        done = subprocess.run([BIN / f"bovtrila-network-{script}", *map(str, words)], capture_output=True, text=True,
                              timeout=PATIENCE, cwd=self.room)
        self.assertNotIn("Traceback", done.stderr)
        return done.returncode, done.stdout, done.stderr

    def test_the_words_are_those_of_the_page(self) -> None:
        page = (TOP / "docs" / "reference" / "FAULTS.md").read_text()
        self.assertIn("| `is a folder`, `is a device or a pipe` |", page)

    def test_a_load_refuses_them(self) -> None:
        for path, words in self.WORDS.items():
            for journal, table, database, more in ((path, EXAMPLE, "network.db", "name a file"),
                                                   ("journal", path, "network.db", "name a file"),
                                                   ("journal", EXAMPLE, path,
                                                    "name SQLite's file, or a URL postgresql://..")):
                with self.subTest(path=path, database=database, table=str(table)):
                    asked = ("--station", "Alder", "--journal", journal, "--table", table, "--database", database,
                             "--program", PROGRAM)
                    self.assertEqual(self.said("load", *asked), (1, "", f"load: {path}: {words}; {more}\n"))

    def test_an_audit_refuses_them(self) -> None:
        for path, words in self.WORDS.items():
            with self.subTest(path):
                status, out, _ = self.said("audit", f"alder={path}", "birch=journal", *TABLES, "--program", PROGRAM,
                                           "--report", f"report-{words[-1]}")
                self.assertEqual(status, 1)
                self.assertEqual([line.split(",")[0] for line in out.splitlines()[:2]],
                                 [f"alder: {words}; name a file", "birch: sound"])
                commands: list[list[str | pathlib.Path]] = [["--table", path, "--report", "new.json"],
                                                            [*TABLES, "--report", path]]
                for asked in commands:
                    self.assertEqual(self.said("audit", "journal", *asked, "--program", PROGRAM),
                                     (1, "", f"audit: {self.named(path, asked)}: {words}; name a file\n"))

    def named(self, path: str, asked: Sequence[str | pathlib.Path]) -> str | pathlib.Path:
        """A path as an audit names it: that of a table in full, since workers elsewhere read it."""
        return self.room / path if asked[1] == path else path

    def test_the_commands_over_a_database_refuse_them(self) -> None:
        for path, words in self.WORDS.items():
            for command in (["check"], ["migrate"], ["query", "holdings"]):
                with self.subTest(path=path, command=command[0]):
                    self.assertEqual(self.said(*command, "--database", path), (
                        1, "", f"{command[0]}: {path}: {words}; name SQLite's file, or a URL postgresql://..\n"))
