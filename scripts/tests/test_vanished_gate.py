"""Runs the tests of scripts/tests/vanishing.py in a network namespace.

Namespaces need `unshare`, `nsenter` and `ip`, and root or a system that allows users to make namespaces: without these a
line reports that, and nothing is counted.
"""
import shutil
import subprocess
import sys
import unittest

import vanishing
from harness import TIME

# How a namespace is made: by root, or by a user.
WAYS: tuple[list[str], ...] = (["unshare", "--net"], ["unshare", "--map-root-user", "--net"])


class VanishedGate(unittest.TestCase):
    """One run of all tests, which take two minutes side by side."""

    @staticmethod
    def way() -> list[str]:
        """How a namespace is made here; empty if it can't be."""
        if not all(map(shutil.which, ("ip", "nsenter", "unshare"))):
            return []
        return next((way for way in WAYS if subprocess.run([*way, "true"], capture_output=True).returncode == 0), [])

    def test_in_a_namespace(self) -> None:
        way = self.way()
        if not way:
            self.skipTest("a gate that vanishes needs unshare, nsenter and ip, and the right to use them")
        done = subprocess.run([*way, sys.executable, vanishing.__file__], capture_output=True, text=True, timeout=10 * TIME)
        if done.stdout.startswith("not run: "):
            self.skipTest(done.stdout.splitlines()[0].removeprefix("not run: "))
        names = unittest.defaultTestLoader.getTestCaseNames(vanishing.Vanished)
        for name in names:
            with self.subTest(name):
                self.assertNotIn(name, done.stdout)
        self.assertEqual((done.returncode, done.stdout), (0, f"{len(names)} passed, 0 failed\n"), done.stderr)
