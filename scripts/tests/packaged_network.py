"""Tests the package of the tools for a network, together with the station's, which it needs."""
import pathlib
import re
import shutil
import subprocess
import sys
from typing import ClassVar

import debs
import installed
import program
from bovtrila import layout, model
from harness import EXAMPLE, TIME, TOP
from packaged_base import Package

from bovtrila.network import fleet_file

TOOLS = ("audit", "check", "detach", "export", "fetch", "fleet", "load", "migrate", "query", "report")
ANSWERS = (TOP / "docs" / "operate" / "NETWORK.md").read_text()


class NetworkPackage(Package):
    """What is in it, and its commands where they are installed beside the program."""

    file: ClassVar[pathlib.Path]
    page: ClassVar[pathlib.Path]
    both: ClassVar[pathlib.Path]

    @classmethod
    def setUpClass(cls) -> None:
        super().setUpClass()
        cls.file = debs.of_network(cls.package)
        cls.page = cls.network / "usr" / "share" / "doc" / "bovtrila-network" / "NETWORK.md"
        # A machine with both packages.
        cls.both = cls.room / "both"
        if not cls.both.exists():
            for tree in (cls.tree, cls.network):
                shutil.copytree(tree, cls.both, symlinks=True, dirs_exist_ok=True)

    def field(self, name: str) -> str:
        said = subprocess.run(["dpkg-deb", "--field", self.file, name], capture_output=True, text=True, check=True)
        return said.stdout.strip()

    def called(self, name: str, *words: object, folder: str | pathlib.Path = "/") -> subprocess.CompletedProcess[str]:
        """How a tool ends that is called by its installed name, with the programs of the system alone on the path."""
        return subprocess.run([self.both / "usr" / "bin" / f"bovtrila-network-{name}", *map(str, words)], cwd=folder,
                              text=True, capture_output=True, env=self.env(self.both), timeout=TIME)

    def test_two_runs_make_the_same_bytes(self) -> None:
        self.assertEqual(self.file.read_bytes(), debs.of_network(self.again).read_bytes())
        self.assertRegex(self.file.name, rf"^bovtrila-network_{re.escape(program.version())}-\d{{8}}\.\d{{6}}_all\.deb$")

    def test_it_needs_the_program_of_the_same_version(self) -> None:
        version = self.field("Version")
        self.assertIn(f"bovtrila (= {version})", self.field("Depends"))
        self.assertEqual(version, self.package.name.split("_")[1])

    def test_what_the_tools_import_is_a_package_that_it_names(self) -> None:
        """Modules that are neither Python's nor the tools' own, and Debian's package of each."""
        packages = {"psycopg2": "Depends", "distributed": "Suggests", "dask": "Suggests"}
        named = {"psycopg2": "python3-psycopg2", "distributed": "python3-distributed", "dask": "python3-distributed"}
        # They import the station's modules too.
        self.assertRegex(self.field("Depends"), r"\bbovtrila \(= ")
        imported = {name for path in (self.network / installed.PYTHON).rglob("*.py")
                    for name in re.findall(r"^ *(?:import|from) (\w+)", path.read_text(), re.M)}
        self.assertEqual(imported - {"bovtrila"} - sys.stdlib_module_names, set(packages))
        for name, kind in packages.items():
            self.assertIn(named[name], self.field(kind))
        # The charts and the templates of the page of a day, and the programs that fetch copies.
        self.assertIn("python3-matplotlib", self.field("Recommends"))
        self.assertIn("python3-jinja2", self.field("Recommends"))
        self.assertIn("openssh-client", self.field("Recommends"))
        self.assertRegex(self.field("Depends"), r"\brsync\b")

    def test_the_station_s_package_has_none_of_it(self) -> None:
        self.assertEqual([path for path in self.tree.rglob("*network*")
                          if not path.is_relative_to(self.both)], [])
        shared = {str(path.relative_to(tree)) for tree, other in ((self.tree, self.network), (self.network, self.tree))
                  for path in tree.rglob("*") if not path.is_dir() and (other / path.relative_to(tree)).exists()}
        self.assertEqual(shared, set())

    def test_each_file_of_the_list_is_there(self) -> None:
        for _, place in installed.rows(installed.NETWORK):
            self.assertTrue((self.network / place).is_file(), place)
        self.assertEqual(installed.commands(installed.NETWORK), [f"network-{name}" for name in TOOLS])
        for name in TOOLS:
            command, own = (folder / f"bovtrila-network-{name}" for folder in (self.network / "usr" / "bin", TOP / "bin"))
            self.assertEqual(command.read_bytes(), own.read_bytes())
        # Each file of network/ is installed.
        have = {path.name for path in (self.network / "usr" / "share" / "bovtrila" / "network").rglob("*")}
        self.assertEqual({path.name for path in (TOP / "network").rglob("*")} - have, set())

    def test_each_tool_prints_its_help_by_its_name(self) -> None:
        for name in TOOLS:
            with self.subTest(name):
                done = self.called(name, "--help")
                self.assertEqual((done.returncode, done.stderr), (0, ""))
                self.assertTrue(done.stdout.startswith(f"usage: bovtrila-network-{name} "), done.stdout)
                self.assertNotRegex(done.stdout, r"(?<![\w/-])(?:network|packaging|scripts|tools|docs)/[a-zA-Z]")

    def test_the_first_query_of_the_page(self) -> None:
        """The page's loads, query and audit of a journal that the installed program finds by itself."""
        home = self.room / "first-query"
        (home / "alder").mkdir(parents=True)
        table = self.both / "usr" / "share" / "bovtrila" / "docs" / "example.toml"
        self.assertEqual(table.read_bytes(), EXAMPLE.read_bytes())
        journal_of_four(home / "alder" / "station.journal")
        done = self.called("load", "--station", "Alder", "--journal", "alder/station.journal", "--table", table, folder=home)
        self.assertEqual((done.returncode, done.stdout, done.stderr),
                         (0, "Alder station.journal: 4 touches loaded, 4 in all\n", ""))
        held = re.search(r"^\$ bovtrila-network-query held --card 1\n((?:.+\n){2})", ANSWERS, re.M)
        sound = re.search(r"^alder: sound, .*$", ANSWERS, re.M)
        assert held and sound, "the page shows both"
        self.assertEqual(self.called("query", "held", "--card", 1, folder=home).stdout.splitlines(), held[1].splitlines())
        audited = self.called("audit", "alder/station.journal", "--table", table, "--database", "network.db", folder=home)
        self.assertEqual(audited.returncode, 0, audited.stderr)
        self.assertIn(sound[0], audited.stdout)
        self.assertEqual(list(self.both.rglob("__pycache__")), [])

    def test_a_machine_without_the_program_is_told_its_place(self) -> None:
        alone = self.room / "alone"
        shutil.copytree(self.both, alone, symlinks=True)
        (alone / "usr" / "bin" / "bovtrila").unlink()
        journal_of_four(self.room / "lonely.journal")
        done = subprocess.run([alone / "usr" / "bin" / "bovtrila-network-load", "--station", "Alder", "--journal",
                               self.room / "lonely.journal", "--table", EXAMPLE, "--database", self.room / "lonely.db"],
                              text=True, capture_output=True, env=self.env(alone), timeout=TIME)
        self.assertEqual((done.returncode, done.stderr), (1, f"load: {alone}/usr/bin/bovtrila: No such file or directory\n"))

    def test_what_the_page_names_is_there(self) -> None:
        """scripts/dev/check-pages has the pages and the files of the sources that it names."""
        text = self.page.read_text()
        for named in set(re.findall(r"(/usr/share/[\w./-]*\w)", text)):
            self.assertTrue((self.both / named.lstrip("/")).exists(), named)
        for named in set(re.findall(r"`(bovtrila-[a-z-]+)[` ]", text)):
            there = ((self.both / "usr" / "bin" / named).is_file()
                     or (self.both / "lib" / "systemd" / "system" / f"{named}.service").is_file()
                     or named == installed.NETWORK)
            self.assertTrue(there, named)

    def test_each_unit_starts_a_command_that_is_there(self) -> None:
        units = self.network / "lib" / "systemd" / "system"
        services = sorted(path.stem for path in units.glob("*.service"))
        self.assertEqual(services, [f"bovtrila-network-{name}" for name in ("audit", "check", "fetch", "load", "report")])
        self.assertEqual(services, sorted(path.stem for path in units.glob("*.timer")))
        for name in services:
            text = (units / f"{name}.service").read_text()
            started = re.search(r"^ExecStart=(/usr/bin/\S+)", text, re.M)
            assert started, name
            command = started[1]
            self.assertTrue((self.network / command.lstrip("/")).is_file(), command)
            for page, section in re.findall(r"man:(\S+)\((\d)\)", text):
                manual = self.network / "usr" / "share" / "man" / f"man{section}" / f"{page}.{section}.gz"
                self.assertTrue(manual.is_file(), page)

    def test_the_alert_rules_are_those_of_the_repository(self) -> None:
        installed_rules = (self.network / "usr" / "share" / "bovtrila" / "network-alerts.yml").read_text()
        expressions = re.findall(r"^ +expr: .*", installed_rules, re.M)
        self.assertEqual(expressions, re.findall(r"^ +expr: .*", (TOP / "packaging" / "network" / "alerts.yml").read_text(),
                                                 re.M))

    def test_the_sample_of_the_fleet_s_file_is_where_the_tools_name_it(self) -> None:
        done = self.called("fetch", "--check", "--fleet", self.both / fleet_file.SAMPLE.lstrip("/"))
        self.assertEqual((done.returncode, done.stderr, done.stdout.count("station ")), (0, "", 2))

    def test_the_pages_of_the_station_name_this_page_where_it_is(self) -> None:
        place = f"/{self.page.relative_to(self.network)}"
        for page in ("OPERATING.md", "PROTOCOL.md"):
            text = (self.pages / page).read_text()
            self.assertIn(place, text)
            self.assertNotRegex(text, r"(?<!/)\bNETWORK\.md")

    def test_each_tool_has_a_page_of_the_manual_and_completion(self) -> None:
        share = self.network / "usr" / "share"
        self.assertEqual(sorted(path.name for path in (share / "man").rglob("*.gz")),
                         [f"bovtrila-network-{name}.1.gz" for name in TOOLS])
        self.check_manual(share / "man")
        for name in TOOLS:
            self.assertTrue((share / "bash-completion" / "completions" / f"bovtrila-network-{name}").is_file(), name)
            self.assertTrue((share / "zsh" / "vendor-completions" / f"_bovtrila-network-{name}").is_file(), name)


def journal_of_four(path: pathlib.Path) -> None:
    """A journal of the four touches of the page's example."""
    four = [bytes.fromhex(line) for line in (TOP / "crates" / "tap_server" / "stdin").read_text().split()]
    path.write_bytes(layout.journal_of(four, 1000, 10, model.Table(EXAMPLE.read_text()).digest, layout.VERSION))
