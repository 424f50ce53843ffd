"""Tests the metrics of a network's daily work, and the alert rules for them, by promtool."""
import os
import pathlib
import re
import shutil
import subprocess
import tempfile
import time
import unittest
from unittest import mock

from bovtrila import codec
from harness import TOP
from network_base import flip
from network_daily import MOMENT, OfFleet

from bovtrila.network import fleet_file, fleet_metrics

ALERTS, CASES = TOP / "packaging" / "network" / "alerts.yml", TOP / "packaging" / "network" / "alerts-test.yml"
SEAL = "bovtrila_network_seal_changed"


class Metrics(OfFleet):
    """What the files say after each act."""

    def fleet(self) -> fleet_file.Fleet:
        return fleet_file.read(self.room / "fleet.toml")

    def values(self, act: str) -> fleet_metrics.Values:
        return fleet_metrics.values(fleet_metrics.path_of(self.fleet(), act))

    def done(self, act: str, status: int) -> dict[str, bool]:
        """Runs an act: by the server whether it has a new moment."""
        begun = int(time.time())
        self.assertEqual(self.run_act(act)[0], status)
        name = next(iter(fleet_metrics.METRICS[act]))
        return {server: begun <= moment <= time.time() for (metric, server), moment in self.values(act).items()
                if metric == name}

    def earlier(self, act: str) -> None:
        """Sets all moments of an act to 1000."""
        path = fleet_metrics.path_of(self.fleet(), act)
        path.write_text(re.sub(r" \d{9,}$", " 1000", path.read_text(), flags=re.M))

    def test_each_act_notes_the_servers_that_succeeded(self) -> None:
        for act in ("load", "check", "audit"):
            self.assertEqual(self.done(act, 0), {"alder": True, "birch": True})
            path = fleet_metrics.path_of(self.fleet(), act)
            self.assertEqual((path.stat().st_mode & 0o777, path.parent.stat().st_mode & 0o777), (0o644, 0o755))
            self.assertIn(',station="Alder"} ', path.read_text())
            self.earlier(act)
        shutil.rmtree(self.folder / "copies" / "alder")
        for act in ("load", "check", "audit"):
            self.assertEqual(self.done(act, 1), {"alder": False, "birch": True})
            self.assertIn(1000, self.values(act).values())

    def test_a_server_that_never_succeeded_has_the_moment_0(self) -> None:
        shutil.rmtree(self.folder / "copies")
        for act in ("load", "audit"):
            self.assertEqual(self.run_act(act)[0], 1)
        self.assertEqual(set(self.values("load").values()), {0})
        self.assertFalse(fleet_metrics.path_of(self.fleet(), "audit").exists())

    def test_a_seal_that_changed(self) -> None:
        self.run_act("load")
        self.assertEqual(self.done("audit", 0), {"alder": True, "birch": True})
        self.earlier("audit")
        flip(self.folder / "copies" / "alder" / "station.journal", 1)
        self.put("birch", "station.journal", [codec.touch(codec.ISSUE, 9, 7, 5, MOMENT)])
        # The database has none of birch's new journal, so that isn't sound either.
        self.assertEqual(self.done("audit", 1), {"alder": False, "birch": False})
        self.assertEqual({server: value for (name, server), value in self.values("audit").items() if name == SEAL},
                         {"alder": 1, "birch": 0})

    def test_another_journal_is_a_seal_that_changed_until_the_next_audit(self) -> None:
        self.run_act("load")
        self.run_act("audit")
        self.put("birch", "next.journal", [codec.touch(codec.ISSUE, 9, 7, 5, MOMENT)], MOMENT + 60)
        self.run_act("load")
        for status, changed in ((3, 1), (0, 0)):
            self.assertEqual(self.done("audit", status), {"alder": True, "birch": True})
            self.assertEqual((self.values("audit")[SEAL, "alder"], self.values("audit")[SEAL, "birch"]), (0, changed))

    def test_a_file_is_written_whole_or_not_at_all(self) -> None:
        self.folder.mkdir(exist_ok=True)
        fleet_metrics.write(self.fleet(), "load", ["alder"])
        before = self.values("load")
        for call in ("fsync", "fchmod"):
            with mock.patch.object(os, call, side_effect=OSError("no room")), self.assertRaises(OSError):
                fleet_metrics.write(self.fleet(), "load", ["alder", "birch"])
            self.assertEqual(self.values("load"), before)
        fleet_metrics.write(self.fleet(), "load", ["birch"])
        self.assertEqual([path.name for path in (self.folder / "metrics").iterdir()], ["bovtrila-network-load.prom"])

    def test_prometheus_reads_them(self) -> None:
        if shutil.which("promtool") is None:
            self.skipTest("metrics: promtool isn't installed (prometheus)")
        file = self.room / "fleet.toml"
        file.write_text(file.read_text().replace('"Alder"', r'"Alder \"East\" \\ 2"'))
        for act in fleet_metrics.METRICS:
            fleet_metrics.write(self.fleet(), act, ["alder"])
            text = fleet_metrics.path_of(self.fleet(), act).read_text()
            self.assertIn(r'{server="alder",station="Alder \"East\" \\ 2"} ', text)
            done = subprocess.run(["promtool", "check", "metrics"], input=text, capture_output=True, text=True)
            self.assertEqual((done.returncode, done.stdout + done.stderr), (0, ""))
            self.assertEqual(len(self.values(act)), 2 * len(fleet_metrics.METRICS[act]))


class Alerts(unittest.TestCase):
    """The alert rules, by promtool."""

    def setUp(self) -> None:
        if shutil.which("promtool") is None:
            self.skipTest("alert rules: promtool isn't installed (prometheus)")
        room = tempfile.TemporaryDirectory(prefix="network-alerts-")
        self.addCleanup(room.cleanup)
        self.folder = pathlib.Path(room.name)

    def holds(self, rules: str) -> bool:
        """Whether rules of this text do what their cases say."""
        (self.folder / "alerts.yml").write_text(rules)
        shutil.copy(CASES, self.folder / "alerts-test.yml")
        done = subprocess.run(["promtool", "test", "rules", self.folder / "alerts-test.yml"], capture_output=True)
        return done.returncode == 0

    def test_the_rules_are_valid_and_do_what_their_cases_say(self) -> None:
        done = subprocess.run(["promtool", "check", "rules", ALERTS], capture_output=True, text=True)
        self.assertEqual(done.returncode, 0, done.stdout + done.stderr)
        self.assertIn("SUCCESS: 6 rules found", done.stdout)
        self.assertTrue(self.holds(ALERTS.read_text()))

    def test_another_rule_in_the_place_of_one_is_found(self) -> None:
        text = ALERTS.read_text()
        for name in re.findall(r"- alert: (\w+)", text):
            for other in ("vector(0) == 1", "vector(1) == 1"):
                changed = re.sub(rf"(- alert: {name}\n(?: +#.*\n)* +expr: ).*", rf"\g<1>{other}", text)
                with self.subTest(f"{name} {other}"):
                    self.assertNotEqual(changed, text)
                    self.assertFalse(self.holds(changed))
        for was, other in (("> 93600", "> 97200"), ("> 93600", "> 90000"), ("for: 5m", "for: 1h")):
            with self.subTest(other):
                self.assertFalse(self.holds(text.replace(was, other)))

    def test_the_rules_have_the_metrics_that_are_written(self) -> None:
        written = {name for metrics in fleet_metrics.METRICS.values() for name in metrics}
        self.assertEqual(set(re.findall(r"\bbovtrila_network_\w+", ALERTS.read_text())), written)
        page = (TOP / "docs" / "operate" / "NETWORK.md").read_text()
        for name in {*written, *re.findall(r"- alert: (\w+)", ALERTS.read_text())}:
            self.assertIn(f"`{name}`", page)
