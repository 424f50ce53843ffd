"""Tests of packaging/dashboard.json, a dashboard of Grafana for the exporter's metrics: each query by promtool. For
scripts/tests/test_watched_servers.py."""
import json
import pathlib
import re
import shutil
import subprocess
import tempfile
import unittest

import panels
from bovtrila import metrics
from harness import TIME, TOP

PANELS = panels.of(TOP / "packaging" / "dashboard.json")
# What Grafana puts in the place of its variable here: a rate of five minutes.
INTERVAL = "5m"
# The series of two servers for two days, a value a minute, and what each panel shows at the end of them: alder has a touch a
# minute, birch is halted, and answered in up to 5 ms.
SERIES = {
    'bovtrila_up{instance="alder"}': "1x2880", 'bovtrila_up{instance="birch"}': "0x2880",
    'bovtrila_halted{instance="alder"}': "0x2880", 'bovtrila_halted{instance="birch"}': "1x2880",
    'bovtrila_touches{instance="alder"}': "0+1x2880", 'bovtrila_capacity{instance="alder"}': "5760x2880",
    'bovtrila_room{instance="alder"}': "5760-1x2880", 'bovtrila_room{instance="birch"}': "10x2880",
    'bovtrila_enquiry_seconds_bucket{instance="birch",le="0.0025"}': "0x2880",
    'bovtrila_enquiry_seconds_bucket{instance="birch",le="0.005"}': "0+12x2880",
    'bovtrila_enquiry_seconds_bucket{instance="birch",le="+Inf"}': "0+12x2880",
    'bovtrila_next_journal_enabled{instance="alder"}': "1x2880", 'bovtrila_next_journal_enabled{instance="birch"}': "1x2880",
    'bovtrila_next_journal_failed{instance="alder"}': "0x2880", 'bovtrila_next_journal_failed{instance="birch"}': "1x2880",
    'bovtrila_disk_free_bytes{instance="alder"}': "9000x2880",
    'bovtrila_journal_missing_bytes{instance="alder"}': "4000x2880",
    'bovtrila_last_touch_timestamp_seconds{instance="alder"}': "172740x2880",
    'bovtrila_copy_age_seconds{instance="alder"}': "100x2880", 'bovtrila_seal_age_seconds{instance="alder"}': "200x2880",
    'bovtrila_remote_copy_age_seconds{instance="alder"}': "30x2880",
    'bovtrila_certificate_end_timestamp_seconds{instance="alder",certificate="server"}': "259200x2880",
    'bovtrila_not_allowed_total{instance="alder",rule="barrier-7",reason="gate"}': "0+12x2880",
    'bovtrila_no_proxy_header_total{instance="birch"}': "0+1x2880"}
ALDER, BIRCH = '{instance="alder"}', '{instance="birch"}'
SHOWN: dict[str, list[tuple[str, float]]] = {
    "Servers that answer": [("{}", 1)], "Servers that are halted": [("{}", 1)], "Touches a minute": [(ALDER, 1)],
    "Fullest journal": [("{}", 0.5)], "Timers for a new journal, and changes that failed": [("{}", 2), ("{}", 1)],
    "Time of an answer, 99 of 100": [(BIRCH, 0.0025 + 0.99 * 0.0025)],
    "Days until the journal is full": [(ALDER, 2)], "Disk beyond what the journal needs": [(ALDER, 5000)],
    "Since the last touch": [(ALDER, 60)],
    "Age of copies and seals": [('bovtrila_copy_age_seconds{instance="alder"}', 100),
                                ('bovtrila_seal_age_seconds{instance="alder"}', 200),
                                ('bovtrila_remote_copy_age_seconds{instance="alder"}', 30)],
    "Until certificates end": [('{instance="alder",certificate="server"}', 86_400)],
    "Refused by a door, a minute": [('{instance="alder",rule="barrier-7",reason="gate"}', 12)],
    "Reports of connections without HAProxy's header, an hour": [(BIRCH, 60)]}


class ServersDashboard(unittest.TestCase):
    """The panels of the exporter's metrics."""

    def test_each_panel_has_a_place_and_a_data_source_of_its_own(self) -> None:
        self.assertEqual(panels.faults(PANELS), [])

    def test_each_metric_of_the_exporter_is_shown_and_no_other(self) -> None:
        shown = {name.removesuffix("_bucket") for of in panels.targets(PANELS, "prometheus").values() for target in of
                 for name in re.findall(r"bovtrila_(\w+)", target["expr"])}
        self.assertEqual(shown, {*metrics.HELP, "enquiry_seconds", "certificate_end_timestamp_seconds", "not_allowed_total",
                                 "no_proxy_header_total"})

    def test_each_query_of_prometheus_has_its_value(self) -> None:
        if shutil.which("promtool") is None:
            self.skipTest("promtool isn't here (apt-get install prometheus)")
        asked = []
        for title, of in panels.targets(PANELS, "prometheus").items():
            samples = [SHOWN[title]] if len(of) == 1 else [[sample] for sample in SHOWN[title]]
            for target, wanted in zip(of, samples, strict=True):
                asked.append({"expr": target["expr"].replace("$__rate_interval", INTERVAL), "eval_time": "2d",
                              "exp_samples": [{"labels": labels, "value": value} for labels, value in wanted]})
        self.assertEqual(len(asked), sum(map(len, panels.targets(PANELS, "prometheus").values())))
        room = tempfile.TemporaryDirectory(prefix="dashboard-")
        self.addCleanup(room.cleanup)
        file = pathlib.Path(room.name) / "cases.yml"
        # JSON is YAML too.
        file.write_text(json.dumps({"evaluation_interval": "1m", "tests": [{"interval": "1m", "input_series": [
            {"series": series, "values": values} for series, values in SERIES.items()], "promql_expr_test": asked}]}))
        done = subprocess.run(["promtool", "test", "rules", file], capture_output=True, text=True, timeout=TIME)
        self.assertEqual(done.returncode, 0, done.stdout + done.stderr)
