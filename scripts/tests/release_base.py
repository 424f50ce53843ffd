"""A repository of its own for each test of scripts/release, where the programs, the toolchain and lintian are stand-ins."""
import functools
import os
import pathlib
import shutil
import subprocess
import sys
import tempfile
import unittest

import debs
import harness
import program
from harness import TOP

VERSION = program.version()
LOGIC = "logic 0123456789abcdef"
KIT = f"stand-in-kit {LOGIC}"
# What a release is made of: of the crates, those whose files a package or its pages are made of.
PARTS = ("bin", "tools", "scripts", "packaging", "docs", "clients", "network", "crates/program_options",
         "crates/command_line", "crates/gate_send", "crates/tap_server")
FILES = (".gitignore", "CHANGELOG.md", "HANDLES", "LICENSE", "NOTICE", "README.md", "SECURITY.md", "VERSION", "crates.txt")
TOOLS = {"rt": f"echo '{KIT}'", "lintian": "exit 0"}
SERVER = f"""#!/bin/sh
case "$1" in
--help) printf 'Answers touches\\n\\nUsage: bovtrila COMMAND\\n' ;;
*) printf 'bovtrila {VERSION}\\nproved by Rattle, {LOGIC}\\n' ;;
esac
"""
NOTES = "import program\nfor name in ('tap_server', 'gate_send'):\n    program.note(name, program.contents())"
# What stands in for scripts/package: a package of one file. The line DO does nothing, unless a test puts a command there.
PACKAGE = f"""#!/bin/sh
set -e
umask=$(umask)
umask 022
cd "$(dirname "$0")/.."
tree=$1/tree
changed=
mkdir -p "$tree/DEBIAN" "$tree/usr/bin" "$tree/usr/share/doc/bovtrila" "$tree/usr/share/bovtrila/docs"
cp crates/tap_server/out/tap_server "$tree/usr/bin/bovtrila"
cp NOTICE "$tree/usr/share/doc/bovtrila/copyright"
find docs -name example.toml -exec cp {{}} "$tree/usr/share/bovtrila/docs/" ';'
find docs -name '[A-Z]*.md' -exec cp {{}} "$tree/usr/share/doc/bovtrila/" ';'
gzip -n "$tree/usr/share/doc/bovtrila/COMMANDS.md"
# DO
cat >"$tree/DEBIAN/control" <<END
Package: bovtrila
Version: {VERSION}-1
Architecture: amd64
Maintainer: Nobody <nobody@example.com>
Pre-Depends: init-system-helpers (>= 1.54~)
Depends: libc6 (>= 2.34), libstdc++6, default-mta | mail-transport-agent
Description: stand-in
END
commit=$(git rev-parse HEAD)
printf '# bovtrila\\n# toolchain\\n# commit: %s%s\\n' "$commit" "$changed" >"$tree/usr/share/doc/bovtrila/PROVED"
dpkg-deb --root-owner-group --build "$tree" "$1/bovtrila_{VERSION}-1_amd64.deb" >/dev/null
rm -r "$tree"
"""


def git(top: pathlib.Path, *words: str) -> str:
    """What git writes, whatever this machine's users have configured."""
    env = {**os.environ, "GIT_CONFIG_GLOBAL": "/dev/null", "GIT_CONFIG_NOSYSTEM": "1"}
    done = subprocess.run(["git", *words], cwd=top, env=env, capture_output=True, text=True, check=True)
    return done.stdout.strip()


def commit(top: pathlib.Path) -> None:
    """Commits all that the working tree has."""
    git(top, "add", "--all")
    git(top, "commit", "--quiet", "--message", "Change")


@functools.cache
def original() -> pathlib.Path:
    """A repository with built stand-ins and a clean working tree, and beside it the tools."""
    room = tempfile.TemporaryDirectory(prefix="releases-")
    harness.AT_END.callback(room.cleanup)
    top, tools = pathlib.Path(room.name) / "top", pathlib.Path(room.name) / "tools"
    for part in PARTS:
        shutil.copytree(TOP / part, top / part, ignore=shutil.ignore_patterns("__pycache__", "out"))
    for file in FILES:
        shutil.copy(TOP / file, top)
    tools.mkdir()
    for name, line in TOOLS.items():
        write(tools / name, f"#!/bin/sh\n{line}\n")
    write(top / "crates" / "tap_server" / "out" / "tap_server", SERVER)
    (top / "crates" / "gate_send" / "out").mkdir()
    shutil.copy(shutil.which("true") or "", top / "crates" / "gate_send" / "out" / "gate_send")
    subprocess.run([sys.executable, "-B", "-c", NOTES], cwd=top / "scripts" / "dev", check=True)
    git(top, "init", "--quiet", "--initial-branch", "main")
    git(top, "config", "user.name", "Nobody")
    git(top, "config", "user.email", "nobody@example.com")
    commit(top)
    return pathlib.Path(room.name)


def write(file: pathlib.Path, text: str) -> None:
    """Writes a script."""
    file.parent.mkdir(exist_ok=True)
    file.write_text(text)
    file.chmod(0o755)


class ReleaseTest(unittest.TestCase):
    """A copy of the repository, and a folder for the release."""

    PACKAGE: str | None = PACKAGE

    def setUp(self) -> None:
        room = tempfile.TemporaryDirectory(prefix="releases-")
        self.addCleanup(room.cleanup)
        self.room = pathlib.Path(room.name)
        shutil.copytree(original(), self.room, dirs_exist_ok=True)
        self.top, self.to = self.room / "top", self.room / "made" / "release"
        self.to.parent.mkdir()
        if self.PACKAGE:
            self.package_does("true")

    def package_does(self, line: str) -> None:
        """Has the stand-in of scripts/package run this line as well."""
        write(self.top / "scripts" / "package", PACKAGE.replace("# DO", line))
        commit(self.top)

    def start(self, *words: str | pathlib.Path) -> subprocess.Popen[str]:
        env = {"PATH": f"{self.room}/tools:/usr/sbin:/usr/bin:/bin", "HOME": str(self.room), "TZ": "UTC",
               "GIT_CONFIG_NOSYSTEM": "1"}
        return subprocess.Popen([self.top / "scripts" / "release", *words], env=env, text=True, stdout=subprocess.PIPE,
                                stderr=subprocess.PIPE)

    def release(self, *words: str | pathlib.Path) -> tuple[int, str, str]:
        """The status, the output and standard error of a run."""
        started = self.start(*words)
        out, err = started.communicate(timeout=debs.TIME)
        return started.returncode, out, err

    def traces(self) -> tuple[str, list[list[str]]]:
        """What a release would leave: tags, and entries of the folders that it may be put into."""
        places = (self.top, self.top / "out", self.to.parent, self.room)
        return git(self.top, "tag"), [sorted(entry.name for entry in place.glob("*")) for place in places]

    def assert_refused(self, *lines: str, words: tuple[str, ...] = (VERSION,)) -> None:
        """It reports these faults and no others, and leaves no trace."""
        before = self.traces()
        status, out, err = self.release(*words, self.to)
        self.assertEqual((status, out, err.splitlines()), (1, "", [f"release: {line}" for line in lines]))
        self.assertEqual(self.traces(), before)

    def assert_made(self, *words: str | pathlib.Path) -> None:
        """It makes a release without a word of a fault."""
        status, out, err = self.release(*words, self.to)
        self.assertEqual((status, out, err), (0, f"{self.to}\n", ""))
