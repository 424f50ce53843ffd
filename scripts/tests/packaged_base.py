"""What the tests of the packages share: the packages, made twice and unpacked, and the checks of manual pages."""
import concurrent.futures
import functools
import gzip
import os
import pathlib
import shutil
import subprocess
import tempfile
import unittest

import debs
import harness
import installed
import script_help


@functools.cache
def made_twice() -> tuple[pathlib.Path, tuple[pathlib.Path, str], tuple[pathlib.Path, str]]:
    """The folder where the packages of this tree are made twice, side by side, and unpacked; the station's ones, each with
    what was told. The second ones are made by somebody with another clock, another language and other rights for files."""
    room = tempfile.TemporaryDirectory(prefix="packaged-")
    harness.AT_END.callback(room.cleanup)
    folder = pathlib.Path(room.name)
    with concurrent.futures.ThreadPoolExecutor() as side_by_side:
        first, second = [making.result() for making in (
            side_by_side.submit(debs.make, folder / "made"),
            side_by_side.submit(debs.make, folder / "again", 0o077, TZ="Pacific/Auckland", LC_ALL="C", LANGUAGE="de"))]
    subprocess.run(["dpkg-deb", "--extract", first[0], folder / "tree"], check=True)
    subprocess.run(["dpkg-deb", "--extract", debs.of_network(first[0]), folder / "network"], check=True)
    return folder, first, second


class Package(harness.ProgramTest):
    """The packages, made twice and unpacked."""

    room: pathlib.Path
    package: pathlib.Path
    told: str
    again: pathlib.Path
    tree: pathlib.Path
    network: pathlib.Path
    help: script_help.Help
    gate: script_help.Help
    share: pathlib.Path
    pages: pathlib.Path
    python: pathlib.Path

    @classmethod
    def setUpClass(cls) -> None:
        super().setUpClass()
        if lacking := debs.lacking():
            raise unittest.SkipTest(lacking)
        cls.room, (cls.package, cls.told), (cls.again, _) = made_twice()
        cls.tree, cls.network = cls.room / "tree", cls.room / "network"
        cls.help, cls.gate = (script_help.of(cls.tree / "usr" / "bin" / name) for name in ("bovtrila", "gate_send"))
        cls.share, cls.pages = cls.tree / "usr" / "share" / "bovtrila", cls.tree / "usr" / "share" / "doc" / "bovtrila"
        cls.python = cls.tree / installed.PYTHON

    @staticmethod
    def env(tree: pathlib.Path) -> dict[str, str]:
        """The environment of a command of an unpacked package: the system's programs, and the package's own modules."""
        return {"PATH": "/usr/bin:/bin", "PYTHONPATH": str(tree / installed.PYTHON)}

    def check_manual(self, folder: pathlib.Path) -> None:
        """man and mandoc have nothing to say of the manual pages of a folder."""
        if not (shutil.which("man") and shutil.which("mandoc")):
            self.skipTest("manual pages are looked at by man and mandoc (man-db, mandoc)")
        for path in sorted(folder.glob("man*/*")):
            with self.subTest(path.name):
                page = self.room / path.stem
                page.write_bytes(gzip.decompress(path.read_bytes()))
                done = subprocess.run(["mandoc", "-T", "lint", page], capture_output=True, text=True)
                self.assertEqual((done.returncode, done.stdout + done.stderr), (0, ""))
                done = subprocess.run(["man", "--warnings", "-E", "UTF-8", "-l", "-Tutf8", "-Z", page], text=True,
                                      capture_output=True, env={**os.environ, "LC_ALL": "C.UTF-8", "MANWIDTH": "80"})
                self.assertEqual((done.returncode, done.stderr), (0, ""))
                done = subprocess.run(["lexgrog", page], capture_output=True, text=True)
                self.assertTrue(done.stdout.startswith(f'{page}: "{path.name.partition(".")[0]} - '), done.stdout)
