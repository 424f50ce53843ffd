"""Tests the commands bovtrila-network-NAME: histories in PostgreSQL and SQLite, the queries over them, the report
of a day and the audit on Dask.

The built program makes a network of six servers with generated days: a revision that one server lacks, a gate with
a wrong clock, a repeat of every tenth touch, and a journal with a flipped bit. The answers of queries are compared with
those that a reference program calculates from the requests (scripts/tests/town.py). The tests start PostgreSQL and Dask on
127.0.0.1, and end them; tests without their packages (packaging/debian-packages) are not run, and a line reports that.

It needs crates/tap_server/out/tap_server, which `rt ci` leaves there.
"""
import os
import pathlib
import pwd
import re
import shutil
import subprocess
import unittest

import harness
import town
from bovtrila import codec, model
from harness import EXAMPLE, PROGRAM, TOP
# The tests of these run with those that stand here.
from bovtrila.network import queries
from network_answers import PostgresAnswers, SqliteAnswers  # noqa: F401
from network_audits import Audits, Reports  # noqa: F401
from network_base import NETWORK, TIME, room
from network_daily import Daily  # noqa: F401
from network_dashboard import Dashboard, DashboardQueries  # noqa: F401
from network_exports import PostgresExports, PostgresLedgers, SqliteExports, SqliteLedgers, Whole  # noqa: F401
from network_fleet import Fetches, FleetFile  # noqa: F401
from network_gates import PostgresGates, SqliteGates  # noqa: F401
from network_journeys import PostgresJourneys, SqliteJourneys, Zones  # noqa: F401
from network_loads import PostgresLoads, SqliteLoads  # noqa: F401
from network_metrics import Alerts, Metrics  # noqa: F401
from network_paths import Paths  # noqa: F401
from network_queries import Plans, PostgresQueries, SqlitePlans, SqliteQueries, Words  # noqa: F401
from network_upgrades import Owners, PostgresMigrations, SqliteMigrations  # noqa: F401


class Units(harness.ProgramTest):
    """Eight servers on one machine, as packaging/bovtrila@.service starts them."""

    UNITS = TOP / "packaging"
    # What the template says otherwise than the unit of one server.
    OTHERWISE = {"Description": "Bovtrila, the account server %i", "StateDirectory": "bovtrila/%i",
                 "WorkingDirectory": "/var/lib/bovtrila/%i", "ExecStart": "/usr/bin/bovtrila-start --name %i",
                 "ExecStartPost": "/usr/bin/bovtrila-start --name %i --wait",
                 "ReadWritePaths": "/var/lib/bovtrila/%i"}

    @staticmethod
    def words(unit: str) -> dict[str, str]:
        """The lines of a unit, but for comments and headings."""
        lines = (TOP / "packaging" / unit).read_text().splitlines()
        parts = (line.partition("=") for line in lines if "=" in line and not line.startswith("#"))
        return {name: value for name, _, value in parts}

    def test_the_template_is_the_unit_with_a_folder_for_each_server(self) -> None:
        self.assertEqual(self.words("bovtrila@.service"), {**self.words("bovtrila.service"), **self.OTHERWISE})

    def test_systemd_takes_an_instance(self) -> None:
        if not shutil.which("systemd-analyze"):
            self.skipTest("a unit is verified by systemd-analyze (apt-get install systemd)")
        folder = room("network-unit-")
        (folder / "bin").mkdir()
        shutil.copy(TOP / "bin" / "bovtrila-start", folder / "bin" / "bovtrila-start")
        unit = folder / "bovtrila@alder-1.service"
        unit.write_text((self.UNITS / "bovtrila@.service").read_text().replace("/usr/bin/", f"{folder}/bin/"))
        done = subprocess.run(["systemd-analyze", "verify", "--man=no", unit], capture_output=True, text=True, timeout=TIME)
        told = [line for line in done.stderr.splitlines() if "bovtrila" in line]
        self.assertEqual((done.returncode, told), (0, []))

    def start(self, folder: pathlib.Path, name: str) -> tuple[pathlib.Path, str]:
        """A server as its instance of the unit starts it, below a folder in the place of the root."""
        words = {key: value.replace("%i", name) for key, value in self.words("bovtrila@.service").items()}
        home = folder / words["WorkingDirectory"].lstrip("/")
        home.mkdir(parents=True)
        shutil.copy(EXAMPLE, home / "first.toml")
        conf = folder / "etc" / "bovtrila" / f"{name}.conf"
        conf.parent.mkdir(parents=True, exist_ok=True)
        conf.write_text((self.UNITS / "serve.conf").read_text().replace(":4014", ":0").replace("= 1000000", "= 1000")
                        .replace("strict = yes", "strict = no"))
        program, *rest = words["ExecStart"].split()
        self.assertEqual((program, rest), ("/usr/bin/bovtrila-start", ["--name", name]))
        started = subprocess.Popen([TOP / "bin" / "bovtrila-start", *rest, "--config", conf, "--folder", home, "--program",
                                    PROGRAM, "--user", pwd.getpwuid(os.geteuid()).pw_name], stdin=subprocess.DEVNULL,
                                   stdout=subprocess.DEVNULL, stderr=subprocess.PIPE, text=True)
        self.addCleanup(started.communicate, timeout=TIME)
        self.addCleanup(started.kill)
        assert started.stderr, "a pipe"
        return home / "station.journal", harness.first_line(started.stderr).removeprefix("listening ").strip()

    def test_eight_instances_serve_each_its_own_cards(self) -> None:
        folder = room("network-units-")
        servers: list[str] = []
        requests: list[str] = []
        running = [self.start(folder, f"server-{place}") for place in range(8)]
        for place, (_, address) in enumerate(running):
            servers.append(f"{1 + 1000 * place}-{1000 * (place + 1)} {address}\n")
            requests += [codec.touch(codec.ISSUE, 7, 2 * place + at, 1000 * place + card, town.THURSDAY).hex() + "\n"
                         for at, card in enumerate((1, 1000))]
        (folder / "servers").write_text("".join(servers))
        done = subprocess.run([TOP / "bin" / "bovtrila-gate", "--servers", folder / "servers", "-"], input="".join(requests),
                              capture_output=True, text=True, timeout=TIME)
        self.assertEqual((done.returncode, done.stdout.count("  issued; ")), (0, 16), done.stderr)
        for place, (journal, _) in enumerate(running):
            touches, _ = model.journal(journal.read_bytes(), model.Table(EXAMPLE.read_text()), 1000)
            self.assertEqual(touches, [codec.touch(codec.ISSUE, 7, 2 * place + at, card, town.THURSDAY)
                                       for at, card in enumerate((1, 1000))])


class Documents(unittest.TestCase):
    """docs/operate/NETWORK.md, whose commands scripts/tests/test_page_commands.py runs."""

    PAGE = (TOP / "docs" / "operate" / "NETWORK.md").read_text()

    def test_the_first_query_is_asked_in_ten_commands(self) -> None:
        begun = self.PAGE.index("## From two servers")
        block = self.PAGE[begun:].split("```\n")[1]
        self.assertLessEqual(len(re.findall(r"^\$ ", block, re.M)), 10)
        self.assertIn("bovtrila-network-query", block.split("$ ")[-1])

    def test_each_query_and_each_table_stands_on_the_page(self) -> None:
        for name in queries.known():
            self.assertIn(f"| `{name}", self.PAGE)
        for name in re.findall(r"^CREATE (?:TABLE|VIEW) (\w+)", (NETWORK / "schema.sql").read_text(), re.M):
            self.assertIn(f"`{name}`", self.PAGE)
