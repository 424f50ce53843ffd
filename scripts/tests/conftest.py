"""How pytest runs these tests: which of them share a worker, what counts, and what is printed.

The last line is 'N passed, M failed', where a test counts as one, and each of its subtests as another. A test that the
machine can't run is skipped, and a line 'not run: REASON' has each reason once: it counts as neither.
"""
import collections
import os
import pathlib
import signal
import sys
import time
from collections.abc import Iterable, Iterator
from typing import Any

import pytest

sys.dont_write_bytecode = True

import harness

# With several workers, a worker runs the tests of a file one after the other, and those of a row too: only one of them sets
# up machines, databases and namespaces at a time, and those that wait for real time leave the processors to the others.
# These rows start first.
ROWS = {
    "machines": ("vanished_gate", "network", "new_machine", "new_station", "full_journals", "watched_servers",
                 "watched_pages"),
    "waiting": ("new_fares", "serve_end_to_end", "serve_notices", "take_over", "killed_under_load", "gate_makers",
                "stand_in", "gate_sends", "gate_front", "door_front", "door_notices", "door_commands", "daily_copies",
                "remote_copies", "restored_journals"),
}
ROW_OF = {f"test_{name}.py": row for row, names in ROWS.items() for name in names}

# Ended from outside, a worker ends its servers and removes its folders, as after Ctrl-C.
signal.signal(signal.SIGTERM, signal.default_int_handler)


@pytest.hookimpl(tryfirst=True)
def pytest_collection_modifyitems(items: list[pytest.Item]) -> None:
    """Gives each test its row, or its file, as the group of pytest-xdist, before that reads it."""
    order = [*ROWS, None]
    items.sort(key=lambda item: order.index(ROW_OF.get(item.path.name)))
    for item in items:
        item.add_marker(pytest.mark.xdist_group(ROW_OF.get(item.path.name, item.path.stem)))
    Zone.name = os.environ.get("TZ")


class Zone:
    """The time zone when all files were read, and the file that was begun in it last."""

    name: str | None = None
    file: pathlib.Path | None = None


@pytest.hookimpl(tryfirst=True)
def pytest_runtest_setup(item: pytest.Item) -> None:
    """Begins each file in the same time zone. A fare table of bovtrila.model sets that of its process, and which files a
    worker has run before differs from run to run."""
    if item.path != Zone.file:
        Zone.file = item.path
        os.environ.pop("TZ", None)
        if Zone.name is not None:
            os.environ["TZ"] = Zone.name
        time.tzset()


@pytest.hookimpl(hookwrapper=True)
def pytest_runtest_call(item: Any) -> Iterator[None]:
    """Counts the subtests of a test: pytest-subtests reports only those that fail."""
    seen: collections.Counter[str] = collections.Counter()
    add = item.addSubTest

    def counted(case: Any, subtest: Any, error: Any) -> None:
        seen["failed" if error else "passed"] += 1
        if error:
            # Text alone, since what a subtest is of may be an object that can't be sent to another process.
            subtest._message, subtest.params = subtest._subDescription(), {}
            add(case, subtest, error)

    item.addSubTest = counted
    yield
    item.user_properties += seen.items()


@pytest.hookimpl(trylast=True)
def pytest_sessionfinish() -> None:
    """A worker that has reported its end is killed ten seconds later: so this is done before."""
    harness.AT_END.close()


def pytest_configure(config: pytest.Config) -> None:
    if not hasattr(config, "workerinput"):
        config.pluginmanager.register(Counts(config))


class File:
    """What is counted of the tests of a file."""

    def __init__(self) -> None:
        self.left = self.passed = self.failed = 0
        self.seconds = 0.0


class Counts:
    """Counts and prints, in the process that the workers report to."""

    def __init__(self, config: pytest.Config) -> None:
        self.config = config
        self.files: dict[str, File] = collections.defaultdict(File)
        self.reasons: set[str] = set()
        self.reported = False

    def say(self, line: str) -> None:
        reporter = self.config.pluginmanager.get_plugin("terminalreporter")
        assert reporter is not None, "pytest prints by it"
        reporter.ensure_newline()
        reporter.write_line(line, flush=True)

    def expect(self, tests: Iterable[str]) -> None:
        """Notes how many tests each file has. Each worker reports the same ones."""
        self.reported = True
        for name, count in collections.Counter(test.partition("::")[0] for test in tests).items():
            self.files[name].left = count

    def pytest_collection_finish(self, session: pytest.Session) -> None:
        self.expect(item.nodeid for item in session.items)

    @pytest.hookimpl(optionalhook=True)
    def pytest_xdist_node_collection_finished(self, ids: list[str]) -> None:
        if not self.reported:
            self.expect(ids)

    def pytest_collectreport(self, report: pytest.CollectReport) -> None:
        if report.failed:
            self.files[report.nodeid].failed += 1
            self.say(f"{report.nodeid}: its tests can't be read")

    @pytest.hookimpl(hookwrapper=True)
    def pytest_report_teststatus(self) -> Iterator[None]:
        """No letter for a test: a line for each file is printed instead."""
        outcome: Any = yield
        category, _, word = outcome.get_result()
        outcome.force_result((category, "", word))

    def pytest_runtest_logreport(self, report: Any) -> None:
        file = self.files[report.nodeid.partition("::")[0]]
        file.seconds += report.duration
        if report.failed:
            file.failed += 1
            of = report.sub_test_description() if hasattr(report, "context") else ""
            self.say(f"failed: {report.nodeid} {of} {report.longreprtext.splitlines()[-1:]}")
        elif report.skipped:
            self.skipped(report.longrepr[2].removeprefix("Skipped: "))
        if report.when == "call" and not hasattr(report, "context"):
            subtests = dict(report.user_properties)
            file.passed += subtests.get("passed", 0) + (report.passed and "failed" not in subtests)
        if report.when == "teardown":
            file.left -= 1
            if not file.left:
                self.say(self.line(report.nodeid.partition("::")[0]))

    def skipped(self, reason: str) -> None:
        if reason not in self.reasons:
            self.reasons.add(reason)
            self.say(f"not run: {reason}")

    def line(self, name: str) -> str:
        file = self.files[name]
        return f"{file.seconds:6.0f} s  {name}: {file.passed} passed, {file.failed} failed"

    def pytest_terminal_summary(self) -> None:
        if len(self.files) > 1:
            self.say("\nThe files by their times:")
            for name in sorted(self.files, key=lambda name: -self.files[name].seconds):
                self.say(self.line(name) + (f", {self.files[name].left} not ended" if self.files[name].left else ""))

    @pytest.hookimpl(trylast=True)
    def pytest_unconfigure(self) -> None:
        passed, failed = (sum(getattr(file, kind) for file in self.files.values()) for kind in ("passed", "failed"))
        self.say(f"{passed} passed, {failed} failed")
