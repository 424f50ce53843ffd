"""Tests of network/dashboard.json: each query of SQL on the network's database. For scripts/tests/test_network.py."""
import contextlib
import unittest
from typing import Any, ClassVar

import network_travel
import panels
import town
from bovtrila import model
from bovtrila.network import database
from harness import EXAMPLE
from network_base import DAYS, NETWORK, DatabaseTest, OnPostgres, load

PANELS = panels.of(NETWORK / "dashboard.json")
# What Grafana puts in the place of its variables here: Friday and Saturday.
RANGE = ("2025-01-31T00:00:00Z", "2025-02-02T04:00:00Z")


class Dashboard(unittest.TestCase):
    """The panels of the network's database."""

    def test_each_panel_has_a_place_and_a_data_source_of_its_own(self) -> None:
        self.assertEqual(panels.faults(PANELS), [])
        self.assertEqual(len(panels.targets(PANELS, "postgres")), len(PANELS))


class DashboardQueries(OnPostgres, DatabaseTest):
    """The panels of the network's database, as a user of the role bovtrila_reader runs their queries."""

    base: ClassVar[str]

    @classmethod
    def setUpClass(cls) -> None:
        super().setUpClass()
        cls.base = cls.fresh("dashboard")
        for name in town.SERVERS:
            load(name, "friday", cls.base)
        for name, server in cls.town.servers.items():
            cls.addClassCleanup(cls.town.fronts.update, {name: cls.town.fronts[name]})
            cls.town.fronts[name] = server.fronts[0]

    def shown(self, title: str) -> list[tuple[Any, ...]]:
        """The rows of a panel."""
        target, = panels.targets(PANELS, "postgres")[title]
        text = target["rawSql"]
        for name, moment in zip(("$__timeFrom()", "$__timeTo()"), RANGE):
            text = text.replace(name, f"'{moment}'")
        self.assertNotIn("$", text)
        with contextlib.closing(database.connect(self.base)) as opened:
            opened.run_file("roles.sql")
            opened.execute("SET ROLE bovtrila_reader")
            # Grafana's own path has no schema of ours.
            opened.execute("SET search_path TO public")
            names, rows = opened.table(text)
        if target["format"] == "time_series":
            self.assertEqual(names[0], "time")
        return rows

    def test_each_query_is_answered(self) -> None:
        for title in panels.targets(PANELS, "postgres"):
            with self.subTest(title):
                self.assertGreater(len(self.shown(title)), 0)

    def within(self) -> list[town.Touch]:
        """The touches of the time that is shown."""
        return [touch for touch in self.town.touches() if RANGE[0] <= town.moment_text(touch.moment) <= RANGE[1]]

    def test_journeys_money_and_maxima_are_those_of_the_requests(self) -> None:
        touches = [touch for touch in self.within() if touch.accepted and touch.act != "revision"]
        began = [touch for touch in touches if touch.verdict in ("Entered", "EnteredOverOpen")]
        self.assertEqual(sum(row[2] for row in self.shown("Journeys that began")), len(began))
        money = self.shown("Paid in and taken, pence")
        self.assertEqual([sum(row[place] for row in money) for place in (1, 2)],
                         [sum(touch.change for touch in touches if touch.act == "top-up"),
                          -sum(touch.change for touch in touches if touch.act in ("in", "out"))])
        self.assertEqual(sum(row[2] for row in self.shown("Journeys that cost a maximum")),
                         sum(touch.verdict in town.MAXIMA for touch in touches))

    def test_takings_and_caps_are_those_of_the_model(self) -> None:
        days = (town.date_text(town.THURSDAY // town.DAY), *DAYS, "2025-02-02")
        takings = network_travel.Takings(self.town, days, model.Table(EXAMPLE.read_text()))
        fares = [(row[1], row[4], *row[6:]) for row in takings.fares()]
        self.assertEqual(self.shown("Takings by origin and destination, pence"),
                         sorted(fares, key=lambda row: (-row[4], *row[:2]))[:20])
        for name in ("origin", "destination"):
            wanted = [(row[1], row[3], *row[5:]) for row in takings.by(name)]
            self.assertEqual(self.shown(f"Takings by {name}, pence"), sorted(wanted, key=lambda row: (-row[2], -row[4])))
        caps = self.shown("Caps: cards for which they saved something, and pence saved")
        self.assertEqual([(row[0][:10], *row[1:]) for row in caps if row[1]],
                         [(row[0], row[5], row[4]) for row in takings.caps() if row[5]])

    def test_refusals_cards_and_loads_are_those_of_the_servers(self) -> None:
        refused = [touch for touch in self.within() if not touch.accepted]
        rows = self.shown("Refused touches")
        self.assertEqual(rows[0][4], max(row[4] for row in rows))
        self.assertLessEqual(sum(row[4] for row in rows), len(refused))
        held = self.town.all_held()
        self.assertEqual([(row[1], row[3]) for row in self.shown("Cards and what they hold, pence")],
                         [(len(own), sum(row[5] for row in own)) for station in sorted(set(town.SERVERS.values()))
                          for own in [[row for row in held if row[1] == station]]])
        self.assertEqual({row[1] for row in self.shown("Last loads")}, set(town.SERVERS))
        self.assertEqual({row[0]: row[2] for row in self.shown("Touches that weren't checked")},
                         {name: server.fronts[0] for name, server in self.town.servers.items()})
