"""Tests bovtrila-network-fleet: what is done each day for all servers of the file of the fleet, on an SQLite database."""
import contextlib
import os
import pathlib
import re
import shutil
import subprocess
import tempfile
from collections.abc import Iterable
from typing import Any

import harness
from bovtrila import codec, layout, model
from bovtrila.network import database
from harness import EXAMPLE, PROGRAM, TOP
from network_base import TIME, flip

FLEET = """\
tables = ["first.toml"]
folder = "{folder}"

[[server]]
name = "alder"
station = "Alder"
from = "/gone/alder"

[[server]]
name = "birch"
station = "Birch"
first_card = 11
from = "/gone/birch"
"""
# An issue and a top-up, an entry and an exit of one card on 2025-01-06.
FOUR = [bytes.fromhex(line) for line in (TOP / "crates" / "tap_server" / "stdin").read_text().split()]
MOMENT = int.from_bytes(FOUR[0][-4:], "big")
DAY = "2025-01-06"


class OfFleet(harness.ProgramTest):
    """Two servers, with the copies that bovtrila-network-fetch would have fetched."""

    maxDiff = None

    def setUp(self) -> None:
        room = tempfile.TemporaryDirectory(prefix="network-daily-")
        self.addCleanup(room.cleanup)
        self.room = pathlib.Path(room.name)
        self.folder, self.bin = self.room / "network", self.room / "bin"
        self.bin.mkdir()
        (self.bin / "bovtrila").symlink_to(PROGRAM)
        (self.room / "fleet.toml").write_text(FLEET.format(folder=self.folder))
        shutil.copy(EXAMPLE, self.room / "first.toml")
        self.put("alder", "station.journal", FOUR)
        self.put("birch", "station.journal", [codec.touch(codec.ISSUE, 9, 1, 3, MOMENT)])

    def put(self, server: str, name: str, frames: Iterable[bytes], moment: int = MOMENT) -> pathlib.Path:
        path = self.folder / "copies" / server / name
        path.parent.mkdir(parents=True, exist_ok=True)
        path.write_bytes(layout.journal_of(frames, 1000, 10, model.Table(EXAMPLE.read_text()).digest, layout.VERSION))
        os.utime(path, (moment, moment))
        return path

    def run_act(self, act: str, *words: str) -> tuple[int, str, str]:
        env = {**os.environ, "PATH": f"{self.bin}:{os.environ['PATH']}"}
        done = subprocess.run([TOP / "bin" / "bovtrila-network-fleet", act, "--fleet", self.room / "fleet.toml", *words],
                              text=True, capture_output=True, env=env, timeout=TIME)
        self.assertNotIn("Traceback", done.stderr)
        return done.returncode, done.stdout, done.stderr

    def rows(self, text: str) -> list[tuple[Any, ...]]:
        with contextlib.closing(database.connect(str(self.folder / "network.db"))) as base:
            return base.table(text)[1]


class Daily(OfFleet):
    """What each act does and prints."""

    LOADED = ("alder station.journal: 4 touches loaded, 4 in all\nbirch station.journal: 1 touches loaded, 1 in all\n")

    def test_a_day(self) -> None:
        self.assertEqual(self.run_act("load"), (0, self.LOADED, ""))
        self.assertEqual(self.rows("SELECT name, station, first_card FROM servers ORDER BY name"),
                         [("alder", "Alder", 1), ("birch", "Birch", 11)])
        self.assertEqual(self.run_act("load"), (0, re.sub(r": \d touches loaded", ": 0 touches loaded", self.LOADED), ""))
        self.assertEqual(self.run_act("check"), (
            0, "station,server,journal,place,breach\nalder station.journal: 4 touches compared, 0 differences\n"
               "birch station.journal: 1 touches compared, 0 differences\n", ""))
        status, out, _ = self.run_act("audit")
        self.assertEqual((status, re.findall(r"^(\w+): sound, ", out, re.M)), (0, ["alder", "birch"]))
        self.assertTrue((self.folder / "audit.json").is_file())

    def test_the_page_of_a_day(self) -> None:
        self.assertEqual(self.run_act("load")[0], 0)
        status, out, err = self.run_act("report", "--day", DAY)
        if "apt-get install" in err:
            self.skipTest(f"the page of a day: {err}")
        self.assertEqual((status, out, err), (0, "", ""))
        self.assertIn(f"Monday {DAY}", (self.folder / "pages" / f"{DAY}.html").read_text())
        self.assertEqual(self.run_act("report", "--day", "2025-01-07")[0], 3)

    def test_a_journal_that_another_one_follows_is_closed(self) -> None:
        """The order is that of the copies' moments, and not that of the names."""
        self.put("birch", "a-new.journal", [codec.touch(codec.ISSUE, 9, 2, 4, MOMENT + 86_400)], MOMENT + 86_400)
        for loaded in (1, 0):
            status, out, err = self.run_act("load")
            self.assertEqual((status, err), (0, ""))
            self.assertIn(f"birch a-new.journal: {loaded} touches loaded, 1 in all\n", out)
        self.assertEqual([(name, bool(closed)) for name, closed in
                          self.rows("SELECT name, closed FROM journals WHERE server = 'birch' ORDER BY name")],
                         [("a-new.journal", False), ("station.journal", True)])
        # The newest journal of each server is audited.
        self.run_act("audit")
        self.assertIn(f'"file": "{self.folder}/copies/birch/a-new.journal"', (self.folder / "audit.json").read_text())

    def test_a_server_that_fails_does_not_stop_the_others(self) -> None:
        shutil.rmtree(self.folder / "copies" / "alder")
        missing = (f"fleet: alder: {self.folder}/copies/alder has no copy of a journal; fetch it first "
                   "(bovtrila-network-fetch)\n")
        self.assertEqual(self.run_act("load"), (1, self.LOADED.splitlines(True)[1], missing))
        self.assertEqual(self.run_act("check")[::2], (1, missing))
        status, out, err = self.run_act("audit")
        self.assertEqual((status, re.findall(r"^(\w+): sound, ", out, re.M)), (1, ["birch"]))
        self.assertIn(missing, err)

    def test_what_a_check_and_an_audit_find(self) -> None:
        self.assertEqual(self.run_act("load")[0], 0)
        self.assertEqual(self.run_act("audit")[0], 0)
        with contextlib.closing(database.connect(str(self.folder / "network.db"))) as base:
            base.begin()
            base.execute("UPDATE touches SET moment = '2025-01-06T07:51:00Z' WHERE place = 0 AND gate = 9")
            base.commit()
        status, out, _ = self.run_act("check")
        self.assertEqual(status, 3, out)
        self.assertIn("birch station.journal: 1 touches compared, 1 differences\n", out)
        flip(self.folder / "copies" / "alder" / "station.journal", 1)
        status, out, _ = self.run_act("audit")
        self.assertEqual(status, 1)
        self.assertIn("alder: fault seal 2 Changed", out)

    def test_what_is_asked_wrong(self) -> None:
        self.assertEqual(self.run_act("sell")[0], 2)
        self.assertEqual(self.run_act("report", "--day", "today")[0], 2)
        (self.room / "fleet.toml").write_text("tables = 7\n")
        status, out, err = self.run_act("load")
        self.assertEqual((status, out), (1, ""))
        self.assertTrue(err.startswith(f"fleet: {self.room}/fleet.toml: line 1: tables: 7 isn't allowed; "), err)
