"""Tests the packages without installing them: that they are made from a built program alone and always with the same
bytes, their contents, their scripts in their places, their manual pages and the completion in real shells.

It needs the built program, and the packages of packaging/debian-packages.
"""
import contextlib
import gzip
import os
import pathlib
import pwd
import re
import shutil
import subprocess
import tempfile
import unittest
from collections.abc import Callable, Iterator
from typing import Any

import harness
import debs
import installed
import program
import script_help
import shells
from harness import CRATES, TIME, TOP
from html_linked import Html, faults  # noqa: F401 (tests)
from packaged_base import Package
# Its tests are run with those that stand here.
from packaged_network import NetworkPackage  # noqa: F401


# What stands in for rt: a program is that of this repository, which was proved, and a library nothing.
TOOLCHAIN = """#!/bin/sh
name=$(basename "$PWD")
echo "$name $1" >>"$CALLS"
mkdir -p out/rlib
case "$1" in
    version) echo stand-in ;;
    run) cp "{crates}/$name/out/$name" out/ ;;
esac
"""


class Making(unittest.TestCase):
    """How scripts/package makes one in a fresh clone, and when it refuses to: with a toolchain that builds nothing."""

    def setUp(self) -> None:
        if lacking := debs.lacking():
            self.skipTest(lacking)
        room = tempfile.TemporaryDirectory(prefix="packaged-")
        self.addCleanup(room.cleanup)
        self.room = pathlib.Path(room.name)
        self.top, self.out, self.calls = self.room / "top", self.room / "made", self.room / "calls"
        # What a clone has: no folder out/, in which builds are.
        self.top.mkdir()
        for name in ("bin", "tools", "scripts", "packaging", "docs", "clients", "crates", "network"):
            shutil.copytree(TOP / name, self.top / name, ignore=shutil.ignore_patterns("__pycache__", "out"))
        for name in ("README.md", "HANDLES", "crates.txt", "CHANGELOG.md", "SECURITY.md", "NOTICE", "VERSION"):
            shutil.copy(TOP / name, self.top)
        (self.room / "tools").mkdir()
        (self.room / "tools" / "rt").write_text(TOOLCHAIN.format(crates=CRATES))
        (self.room / "tools" / "rt").chmod(0o755)

    def package(self, has_toolchain: bool = True, **more: Any) -> tuple[int, str, str]:
        """The status, the output and standard error of README's command."""
        self.assertIn("`scripts/package`", (TOP / "README.md").read_text())
        path = f"{self.room}/tools:/usr/bin:/bin" if has_toolchain else "/usr/bin:/bin"
        env = {**os.environ, "PATH": path, "CALLS": str(self.calls), "GIT_CEILING_DIRECTORIES": str(self.room), **more}
        done = subprocess.run([self.top / "scripts" / "package", self.out], env=env, capture_output=True, text=True,
                              timeout=debs.TIME)
        return done.returncode, done.stdout, done.stderr

    def refusal(self, **more: Any) -> str:
        """What is said where no package is made."""
        status, out, err = self.package(**more)
        self.assertEqual((status, out, self.out.exists()), (1, "", False), err)
        return err

    def test_a_fresh_clone_makes_the_package_in_one_command(self) -> None:
        if not harness.PROGRAM.is_file():
            raise FileNotFoundError(f"{harness.PROGRAM} isn't there: run 'rt ci'")
        status, out, err = self.package(SOURCE_DATE_EPOCH="1700000000")
        self.assertEqual(status, 0, err)
        called = self.calls.read_text().splitlines()
        for call in ("tap_server run", "gate_send run"):
            self.assertIn(call, called)
        package = pathlib.Path(out.splitlines()[-1])
        subprocess.run(["dpkg-deb", "--extract", package, self.room / "tree"], check=True)
        for name, place in (("bovtrila", harness.PROGRAM), ("gate_send", CRATES / "gate_send" / "out" / "gate_send")):
            self.assertEqual((self.room / "tree" / "usr" / "bin" / name).read_bytes(), place.read_bytes())

    def test_without_the_toolchain_it_says_what_is_missing(self) -> None:
        said = self.refusal(has_toolchain=False, SOURCE_DATE_EPOCH="0")
        self.assertIn("proved and built by rt of the Rattle kit, which isn't on the path", said)
        self.assertIn("package: tap_server isn't built: see above. `bin/bovtrila serve --help` builds it alone\n", said)

    def test_without_a_commit_the_moment_has_to_be_named(self) -> None:
        self.assertIn("here is no commit: name the moment of the files by SOURCE_DATE_EPOCH", self.refusal())

    def test_a_file_that_is_named_and_is_not_there_is_told(self) -> None:
        (self.top / "docs" / "reference" / "TABLE.md").unlink()
        self.assertIn("no docs/reference/TABLE.md", self.refusal(SOURCE_DATE_EPOCH="0"))


class Licences(unittest.TestCase):
    """What a file that is copied alone says of its licence."""

    def test_each_script_names_its_licence(self) -> None:
        """It is named below the line `#!`, or in the first line where there is none."""
        hooks = (TOP / "packaging" / "debian").glob("bovtrila*.p*")
        listed = [file for package in installed.LISTS for file, _ in installed.rows(package)
                  if file.suffix in (".py", ".sql") or installed.is_command(file)]
        scripts = [*listed, *hooks, TOP / "bin" / "bovtrila", TOP / "bin" / "gate_send"]
        self.assertGreater(len(scripts), 110)
        for file in scripts:
            mark = "--" if file.suffix == ".sql" else "#"
            lines = file.read_text().splitlines()
            with self.subTest(file.relative_to(TOP)):
                self.assertEqual(lines[lines[0].startswith("#!")], f"{mark} SPDX-License-Identifier: Apache-2.0")

    def test_each_template_names_its_licence(self) -> None:
        templates = [file for file, _ in installed.rows(installed.STATION) if file.parent.name == "templates"]
        names = {file.name for file in templates}
        self.assertLessEqual({"report.html.jinja", "report.css", "base.html.jinja", "style.css"}, names)
        for file in templates:
            with self.subTest(file.relative_to(TOP)):
                self.assertEqual(file.read_text().splitlines()[0], "{# SPDX-License-Identifier: Apache-2.0 #}")


class Contents(Package):
    """What is in it."""

    def test_two_runs_make_the_same_bytes(self) -> None:
        self.assertEqual(self.package.name, self.again.name)
        self.assertEqual(self.package.read_bytes(), self.again.read_bytes())
        self.assertRegex(self.package.name, rf"^bovtrila_{re.escape(program.version())}-\d{{8}}\.\d{{6}}_amd64\.deb$")

    def test_lintian_has_nothing_to_say(self) -> None:
        # scripts/package ends with status 1 where it has.
        if not shutil.which("lintian"):
            self.skipTest("lintian isn't installed")
        self.assertEqual(self.told, "")

    def test_its_licence_is_that_of_the_sources(self) -> None:
        """The copyright names Debian's file of the licence, which has the text of LICENSE."""
        named = re.search(r'"(/usr/share/common-licenses/[^"]+)"', (self.pages / "copyright").read_text())
        assert named, "a file of Debian's"
        self.assertEqual((TOP / "LICENSE").read_text(), pathlib.Path(named[1]).read_text())

    def test_each_file_of_the_list_is_there(self) -> None:
        for _, place in installed.rows():
            self.assertTrue((self.tree / place).is_file(), place)
        for name in installed.commands():
            command, own = (folder / f"bovtrila-{name}" for folder in (self.tree / "usr" / "bin", TOP / "bin"))
            self.assertEqual(command.read_bytes(), own.read_bytes())
        self.assertEqual([path.name for path in self.python.iterdir()], ["bovtrila"])
        self.assertEqual((self.tree / "usr" / "bin" / "bovtrila").read_bytes(), harness.PROGRAM.read_bytes())

    def test_the_commands_that_pages_name_are_there(self) -> None:
        """scripts/dev/check-pages has what else they name."""
        # Another package, and its commands: NetworkPackage tests that they are there.
        elsewhere = {"network", *installed.commands(installed.NETWORK)}
        for page in self.pages.glob("*.md"):
            text = page.read_text()
            for named in re.findall(r"\bbovtrila-([a-z-]+)(?:`| [^(]| *$)", text, re.M):
                command = self.tree / "usr" / "bin" / f"bovtrila-{named}"
                unit = self.tree / "lib" / "systemd" / "system" / f"bovtrila-{named}.service"
                self.assertTrue(command.is_file() or unit.is_file() or named in elsewhere, f"{page.name} names {named}")

    def test_the_pages_are_there_in_html(self) -> None:
        self.assertEqual({path.stem for path in (self.pages / "html").glob("*.html")},
                         {"index", *(path.stem for path in self.pages.glob("*.md"))})
        self.assertEqual(list(faults(self.pages / "html")), [])

    def test_the_library_for_gates_is_built_as_its_page_says(self) -> None:
        page, built = (self.pages / "GATE_LIBRARY.md").read_text(), self.room / "built"
        command = re.search(r"^\$ (make -C /usr/share/bovtrila/clients/c OUT=\$PWD/built) ", page, re.M)
        assert command, "the page has the command"
        if not (shutil.which("make") and shutil.which("cc")):
            self.skipTest("the library for gates is built by make and a C compiler")
        done = subprocess.run(command[1].replace(" /usr/", f" {self.tree}/usr/"), shell=True, cwd=self.room, text=True,
                              capture_output=True)
        self.assertEqual((done.returncode, done.stderr), (0, ""))
        names = {path.name for path in built.iterdir()}
        self.assertLessEqual({"libbovtrila_gate.a", "libbovtrila_gate.so", "two_readers", "top_up_machine"}, names)
        # Nothing was written where the sources lie, which only root may change.
        self.assertEqual({path.name for path in (self.share / "clients" / "c").iterdir()},
                         {path.name for path in (TOP / "clients" / "c").iterdir()} - {"tests", "out"})

    def test_the_program_is_named_as_it_lies_there(self) -> None:
        for path in (*self.pages.glob("*.md"), *self.python.rglob("*.py")):
            self.assertNotIn("scripts/bovtrila", path.read_text(), path)
        self.assertNotIn("proves and builds the program", (self.pages / "COMMANDS.md").read_text())
        self.assertIn("\n$ bovtrila check --table draft.toml\n", (self.pages / "COMMANDS.md").read_text())
        self.assertIn("$ bovtrila-gate 127.0.0.1:4014 /usr/share/bovtrila/requests.txt\n",
                      (self.pages / "OPERATING.md").read_text())

    def test_proved_has_the_digests_of_the_program_and_of_each_file(self) -> None:
        lines = (self.pages / "PROVED").read_text().splitlines()
        self.assertEqual(lines[0], f"# bovtrila {program.version()}, proved by Rattle, logic dac8208d650f15bf")
        asked = ["git", "-c", "safe.directory=*", "rev-parse", "HEAD"]
        commit = subprocess.run(asked, cwd=TOP, capture_output=True, text=True).stdout.strip() or "none"
        self.assertTrue(lines[2].startswith(f"# commit: {commit}"), lines[2])
        named = [line.split("  ")[1] for line in lines if not line.startswith("#")]
        self.assertEqual(named[:2], ["/usr/bin/bovtrila", "/usr/bin/gate_send"])
        code = [file.relative_to(TOP) for kind in ("rt", "antt") for file in CRATES.glob(f"**/*.{kind}")
                if "out" not in file.parts]
        self.assertEqual(sorted(named[2:]), sorted(["crates.txt", *map(str, code)]))
        own = (self.pages / "PROVED").read_text().replace("  /usr/bin/", f"  {self.tree}/usr/bin/")
        changes: list[tuple[Callable[[str], str], int]] = [(str, 0),
                                                           (lambda text: text.replace("  crates.txt", "  HANDLES"), 1)]
        for change, status in changes:
            done = subprocess.run(["sha256sum", "--check", "--quiet", "--strict"], cwd=TOP, input=change(own),
                                  text=True, capture_output=True)
            self.assertEqual(done.returncode, status, done.stderr)

    def test_a_unit_is_started_again_for_some_minutes(self) -> None:
        """An address may come late at boot."""
        for name in ("bovtrila.service", "bovtrila@.service"):
            text = (self.tree / "lib" / "systemd" / "system" / name).read_text()
            times = {key: int(value) for key, value in re.findall(r"^(\w+)=(\d+)$", text, re.M)}
            self.assertGreaterEqual(times["RestartSec"] * times["StartLimitBurst"], 300)
            self.assertGreater(times["StartLimitIntervalSec"], times["RestartSec"] * times["StartLimitBurst"])
            self.assertIn("\nWants=network-online.target\nAfter=network-online.target\n", text)


class Scripts(Package):
    """The scripts, where they lie."""

    def said(self, name: str, *words: object) -> subprocess.CompletedProcess[str]:
        done = subprocess.run([self.tree / "usr" / "bin" / f"bovtrila-{name}", *map(str, words)], cwd="/", text=True,
                              capture_output=True, env=self.env(self.tree), timeout=TIME)
        self.assertEqual(done.returncode, 0, done.stderr)
        return done

    @contextlib.contextmanager
    def started(self) -> Iterator[str]:
        """The server as it is set up and started where it is installed, on a free port, and its address."""
        folder, config = self.room / "station", self.room / "serve.conf"
        words: list[str | pathlib.Path] = ["--folder", folder, "--config", config, "--user",
                                           pwd.getpwuid(os.geteuid()).pw_name]
        self.said("setup", "--table", self.share / "docs" / "example.toml", "--cards", "1000", "--capacity", "1000",
                  "--listen", f"127.0.0.1:{harness.free_port()}", *words)
        started: list[str | pathlib.Path] = [self.tree / "usr" / "bin" / "bovtrila-start", *map(str, words)]
        with subprocess.Popen(started, text=True, stdout=subprocess.DEVNULL, stderr=subprocess.PIPE,
                              env=self.env(self.tree)) as server:
            try:
                assert server.stderr, "a pipe"
                said = harness.first_line(server.stderr)
                self.assertTrue(said.startswith("listening 127.0.0.1:"), said)
                yield said.split()[1]
            finally:
                server.kill()

    def test_they_need_nothing_else(self) -> None:
        old = self.room / "old.csv"
        old.write_text("card,state,balance,paid_in,charged\r\n7,outside,9550,9550,0\r\n")
        carried = self.said("carry-over", old, "--moment", "2026-01-05T03:00:00Z")
        # An issue and a top-up of 9000 pence, the limit of the example table: gate 65535, numbers 1 and 2, card 7.
        self.assertEqual(carried.stdout,
                         "000f04ffff0000000100000007695b2930\n001303ffff000000020000000700002328695b2930\n")
        self.assertIn("card 7: 550 of its 9550 are left: the balance limit is 9000\n", carried.stderr)
        with self.started() as address:
            answers = self.said("gate", address, self.share / "requests.txt").stdout.splitlines()
            shown = self.said("status", address, "--journal", self.room / "station" / "station.journal").stdout
        self.assertEqual([answer.split("  ")[1] for answer in answers],
                         ["issued; change 0, balance 0", "topped up; change 2000, balance 2000",
                          "in; change -900, balance 1100", "out; change 550, balance 1650"])
        self.assertIn("touches     4\n", shown)
        self.assertIn(f"full: --table {self.share}/docs/example.toml --cards 1 --capacity 2\n",
                      self.said("certify", "--list").stdout)
        self.assertEqual(list(self.python.rglob("__pycache__")), [])

    def test_each_tells_how_it_is_called_by_its_name(self) -> None:
        for name in installed.commands():
            with self.subTest(name):
                said = self.said(name, "--help").stdout
                self.assertTrue(said.startswith(f"usage: bovtrila-{name} "), said)
                self.assertNotRegex(said, r"(?<![\w/-])(?:network|packaging|scripts|tools|docs)/[a-zA-Z]")


class Manual(Package):
    """The manual pages."""

    def test_each_command_has_a_page(self) -> None:
        names = {path.name for path in (self.tree / "usr" / "bin").iterdir()}
        names |= {f"bovtrila-{command}" for command in self.help.acts}
        # Those by which root runs the machine stand in section 8, as do the pages that units and other pages name.
        root = {f"bovtrila-{name}" for name in installed.commands() if name in installed.ADMINISTRATION}
        self.assertGreaterEqual(root, {f"bovtrila-{name}" for name in ("authority", "exporter", "keep-copies",
                                                                       "next-journal", "setup")})
        self.assertEqual({path.name for path in self.man.glob("man1/*")}, {f"{name}.1.gz" for name in names - root})
        self.assertEqual({path.name for path in self.man.glob("man8/*")}, {f"{name}.8.gz" for name in root})
        named = [match for path in (self.tree / "lib" / "systemd" / "system").iterdir()
                 for match in re.findall(r"man:(bovtrila[a-z-]*)\((\d)\)", path.read_text())]
        self.assertTrue(named)
        for name, section in named:
            self.assertTrue((self.man / f"man{section}" / f"{name}.{section}.gz").is_file(), (name, section))
        self.assertEqual({path.name for path in self.man.glob("man[57]/*")},
                         {"bovtrila-disk.7.gz", "bovtrila-faults.7.gz", "bovtrila-journal.5.gz", "bovtrila-table.5.gz"})

    @property
    def man(self) -> pathlib.Path:
        return self.tree / "usr" / "share" / "man"

    def test_man_and_mandoc_have_nothing_to_say(self) -> None:
        self.check_manual(self.man)

    def test_a_page_has_no_picture(self) -> None:
        for path in sorted(self.man.glob("man*/*")):
            self.assertNotIn("[IMAGE", gzip.decompress(path.read_bytes()).decode(), path.name)

    def test_the_options_and_statuses_are_those_of_the_programs(self) -> None:
        """docs/reference/COMMANDS.md has them from each --help (scripts/dev/facts), and the manual pages are made of it."""
        done = subprocess.run([TOP / "scripts" / "dev" / "facts", "--check"], capture_output=True, text=True)
        self.assertEqual((done.returncode, done.stdout, done.stderr), (0, "", ""))
        self.assertEqual(len(self.help.acts), 8)
        for name, own in [*((f"bovtrila-{act}", own) for act, own in self.help.acts.items()), ("gate_send", self.gate)]:
            page = gzip.decompress((self.man / "man1" / f"{name}.1.gz").read_bytes()).decode()
            for option in (names[-1] for item in own.options if (names := script_help.names(item))[0][:2] == "--"):
                self.assertIn(option.replace("-", r"\-"), page.partition("\n.SH OPTIONS")[2], name)
            self.assertEqual(own.statuses, re.findall(r"^\.TP\n(\d+)$", page.partition("\n.SH EXIT STATUS")[2], re.M), name)


class Completion(Package):
    """The completion, in real shells: what stands on the line once the tabulator was pressed, or what is offered."""

    # A line, and what it becomes.
    COMPLETED = [("bovtrila ser", "bovtrila serve "), ("bovtrila help mig", "bovtrila help migrate "),
                 ("bovtrila history --form", "bovtrila history --format "),
                 ("bovtrila history --format fr", "bovtrila history --format frames "),
                 ("bovtrila state", "bovtrila statement "),
                 ("bovtrila statement --card 7 --format js", "bovtrila statement --card 7 --format json "),
                 ("bovtrila statement --journal sta", "bovtrila statement --journal station.journal "),
                 ("bovtrila statement --card 7 --fro", "bovtrila statement --card 7 --from "),
                 ("bovtrila statement --from fir", "bovtrila statement --from fir"),
                 ("bovtrila check --table fir", "bovtrila check --table first.toml "),
                 ("bovtrila serve --table first.toml --jou", "bovtrila serve --table first.toml --journal "),
                 ("bovtrila serve --journal station.journal --stri", "bovtrila serve --journal station.journal --strict "),
                 ("bovtrila verify --journal sta", "bovtrila verify --journal station.journal "),
                 ("bovtrila replay --cards 10 pri", "bovtrila replay --cards 10 prices.toml "),
                 ("bovtrila check --fare 1 3 2025-01-07T08:30:00Z --tab",
                  "bovtrila check --fare 1 3 2025-01-07T08:30:00Z --table "),
                 # Nothing is known of a number, of an option's second or third value, of what isn't offered a second
                 # time, or of what may not stand beside another option.
                 ("bovtrila serve --cards fir", "bovtrila serve --cards fir"),
                 ("bovtrila verify --sealed 4 fir", "bovtrila verify --sealed 4 fir"),
                 ("bovtrila check --fare fir", "bovtrila check --fare fir"),
                 ("bovtrila check --fare 1 fir", "bovtrila check --fare 1 fir"),
                 ("bovtrila check --fare 1 3 fir", "bovtrila check --fare 1 3 fir"),
                 ("bovtrila check --fare 1 3 --str", "bovtrila check --fare 1 3 --str"),
                 ("bovtrila check --fare 1 3 2025-01-07T08:30:00Z --str",
                  "bovtrila check --fare 1 3 2025-01-07T08:30:00Z --str"),
                 ("bovtrila verify --seal --seal", "bovtrila verify --seal --sealed "),
                 ("bovtrila check --against fir", "bovtrila check --against first.toml "),
                 ("bovtrila check --against first.toml pri", "bovtrila check --against first.toml prices.toml "),
                 ("bovtrila check --against first.toml prices.toml --str",
                  "bovtrila check --against first.toml prices.toml --str"),
                 ("bovtrila verify --gate 7 --tab", "bovtrila verify --gate 7 --tab"),
                 ("bovtrila check --table first.toml --tab", "bovtrila check --table first.toml --tab"),
                 ("gate_send --ga", "gate_send --gate "), ("gate_send --vers", "gate_send --version "),
                 ("gate_send --gate 7 --fi", "gate_send --gate 7 --file "),
                 ("gate_send --gate 7 --file sta", "gate_send --gate 7 --file station.journal "),
                 ("gate_send --gate 7 --new --cap", "gate_send --gate 7 --new --capacity "),
                 ("gate_send 127.0.0.1:4014 --resen", "gate_send 127.0.0.1:4014 --resend "),
                 ("gate_send --gate fir", "gate_send --gate fir"), ("gate_send --timeout fir", "gate_send --timeout fir"),
                 ("gate_send --gate 7 fir", "gate_send --gate 7 fir"),
                 ("gate_send --resend --res", "gate_send --resend --res"),
                 # The scripts, each by its help: options, files where a file is asked for, and what a script may do.
                 ("bovtrila-setup --table fir", "bovtrila-setup --table first.toml "),
                 ("bovtrila-setup --table first.toml --car", "bovtrila-setup --table first.toml --cards "),
                 ("bovtrila-setup --cards fir", "bovtrila-setup --cards fir"),
                 ("bovtrila-status --wat", "bovtrila-status --watch "),
                 ("bovtrila-status 127.0.0.1:4014 --journal sta",
                  "bovtrila-status 127.0.0.1:4014 --journal station.journal "),
                 ("bovtrila-day-report sta", "bovtrila-day-report station.journal "),
                 ("bovtrila-authority rev", "bovtrila-authority revoke "),
                 ("bovtrila-authority list first.toml --end", "bovtrila-authority list first.toml --ending "),
                 ("bovtrila-authority gate fir", "bovtrila-authority gate first.toml ")]

    def setUp(self) -> None:
        self.folder = self.room / "completing"
        self.folder.mkdir(exist_ok=True)
        for name in ("first.toml", "prices.toml", "station.journal"):
            (self.folder / name).touch()

    def completes(self, shell: type[shells.Shell]) -> None:
        if not shutil.which(shell.NAME):
            self.skipTest(f"completion needs {shell.NAME}")
        with shell(self.tree, self.folder) as running:
            for line, wanted in self.COMPLETED:
                with self.subTest(line):
                    self.assertEqual(running.completed(line), wanted)
            offered = running.offered("bovtrila ")
            self.assertEqual([command for command in self.help.acts if command not in offered], [])
            offered = running.offered("gate_send --")
            self.assertEqual([item.term for item in self.gate.options if script_help.names(item)[-1] not in offered], [])
            for name in installed.commands():
                told = set(re.findall(r"^  (?:-\w, )?(--[a-z-]+)", self.said(name), re.M))
                if name != "authority":
                    self.assertLessEqual(told, set(running.offered(f"bovtrila-{name} --")), name)

    def said(self, name: str) -> str:
        """The help of a script."""
        command = self.tree / "usr" / "bin" / f"bovtrila-{name}"
        return subprocess.run([command, "--help"], capture_output=True, text=True, check=True,
                              env=self.env(self.tree)).stdout

    def test_in_bash(self) -> None:
        self.completes(shells.Bash)

    def test_in_zsh(self) -> None:
        self.completes(shells.Zsh)
