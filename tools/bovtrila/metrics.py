# SPDX-License-Identifier: Apache-2.0
"""The metrics of bovtrila-exporter in the form of Prometheus."""
from collections.abc import Iterator, Mapping
from typing import Any

from prometheus_client.core import CounterMetricFamily, GaugeMetricFamily

from bovtrila.door_reports import Found

BUCKETS = (.0001, .00025, .0005, .001, .0025, .005, .01, .025, .05, .1, .25, .5, 1, 2.5)
HELP = {
    "up": "Whether the server answers.",
    "halted": "Whether the journal's disk has failed, so that the server records no touch.",
    "touches": "How many touches the server's history has.",
    "capacity": "How many touches the journal has room for in all.",
    "room": "How many more touches the journal has room for.",
    "last_touch_timestamp_seconds": "When the journal was written last, by this machine's clock.",
    "journal_missing_bytes": "What the journal hasn't got yet of its whole size.",
    "disk_free_bytes": "What the journal's disk has free, for others than root.",
    "copy_age_seconds": "How old the newest copy of the journal is.",
    "seal_age_seconds": "How old the newest seal of the journal is.",
    "remote_copy_age_seconds": "How old the newest touches are that another computer has.",
    "next_journal_enabled": "Whether the timer is enabled that changes to a new journal.",
    "next_journal_failed": "Whether the last unattended change to a new journal failed.",
}


def gauges(found: Mapping[str, float], ends: Mapping[str, float]) -> Iterator[Any]:
    """The gauges: what was found, and when the certificates end."""
    for name, value in found.items():
        yield GaugeMetricFamily(f"bovtrila_{name}", HELP[name], value)
    family = GaugeMetricFamily("bovtrila_certificate_end_timestamp_seconds", "When a certificate ends.",
                               labels=["certificate"])
    for name, end in sorted(ends.items()):
        family.add_metric([name], end)
    yield family


def counters(found: Found | None) -> Iterator[Any]:
    """The counters of what the server's door refused; none if that isn't known."""
    if found is None:
        return
    # A gate's number is no label: each connection chooses its own.
    family = CounterMetricFamily("bovtrila_not_allowed", "How many requests and connections the server's door refused.",
                                 labels=["rule", "reason"])
    for (rule, reason), refused in sorted(found.refused.items()):
        family.add_metric([rule, reason], refused.times)
    yield family
    yield CounterMetricFamily("bovtrila_no_proxy_header", "How many lines report connections without HAProxy's header.",
                              found.without_header)
