"""Tests how bin/bovtrila builds the program, when it considers it built, and what it prints without the toolchain: in a
repository with its scripts, small sources and programs that print their names, and with a toolchain that builds nothing
else. In such a repository it tests scripts/release as well.
"""
import os
import pathlib
import re
import shutil
import signal
import subprocess
import tempfile
import time
import unittest
from collections.abc import Callable
from typing import Any

from harness import TIME, TOP
# Its tests are run with those that stand here.
from releases import LinkedCrates, ReleaseContents, ReleaseFailed, ReleaseMade, ReleaseRefused  # noqa: F401

# What stands in for rt: it notes what it builds. A library is its own sources and what it was built over, and as by rt it is
# built again if that changed. A program says its name. With a file `CALLS.slow` it takes a minute for a library.
TOOLCHAIN = r"""#!/bin/sh
name=$(basename "$PWD")
under=$(sed -n "s/^$name: *//p" ../../crates.txt)
now=$(echo "$under"; cat $(find src specs -type f 2>/dev/null)
      for one in $under; do cat "../$one/out/rlib/stamp" 2>/dev/null || echo "no $one"; done)
mkdir -p out
[ "$1" != run ] || printf '#!/bin/sh\necho built %s "$@"\n' "$name" >"out/$name"
[ "$1" != run ] || chmod +x "out/$name"
[ "$(cat out/rlib/stamp 2>/dev/null)" != "$now" ] || exit 0
echo "$name $1" >>"$CALLS"
[ ! -e "$CALLS.slow" ] || [ "$1" = run ] || sleep 60
mkdir -p out/rlib && printf '%s\n' "$now" >out/rlib/stamp
"""

# The crates of the small repository, with the libraries that each names. gate_send doesn't name what fare_table needs.
CRATES: dict[str, list[str]] = {"money_time": [], "fare_table": ["money_time"], "tap_disk": [],
                                "table_trial": ["fare_table", "money_time"],
                                "tap_server": ["fare_table", "tap_disk", "money_time"], "gate_send": ["fare_table"]}


class Repository(unittest.TestCase):
    """A repository in a folder of its own."""

    def setUp(self) -> None:
        room = tempfile.TemporaryDirectory(prefix="built-program-")
        self.addCleanup(room.cleanup)
        self.room = pathlib.Path(room.name)
        self.top, self.calls, self.temporary = self.room / "top", self.room / "calls", self.room / "tmp"
        self.temporary.mkdir()
        for script in ("bin/bovtrila", "bin/gate_send", "scripts/bovtrila", "scripts/dev/program.py"):
            (self.top / script).parent.mkdir(parents=True, exist_ok=True)
            shutil.copy(TOP / script, self.top / script)
        for name in CRATES:
            self.source(name).parent.mkdir(parents=True)
            self.source(name).write_text(f"// {name}\n")
        (self.top / "crates.txt").write_text("".join(f"{name}: {' '.join(below)}\n" for name, below in CRATES.items()))
        (self.top / "HANDLES").write_text("Handles allowed: none.\n")
        self.tools = self.room / "tools"
        self.tools.mkdir()
        (self.tools / "rt").write_text(TOOLCHAIN)
        (self.tools / "rt").chmod(0o755)

    def source(self, name: str) -> pathlib.Path:
        return self.top / "crates" / name / "src" / "lib.rt"

    def start(self, *words: str, top: pathlib.Path | None = None, has_toolchain: bool = True) -> subprocess.Popen[str]:
        """A start that goes on beside the test."""
        path = f"{self.tools}:/usr/bin:/bin" if has_toolchain else "/usr/bin:/bin"
        env = {"PATH": path, "CALLS": str(self.calls), "TMPDIR": str(self.temporary)}
        name, *rest = words if words[:1] == ("gate_send",) else ("bovtrila", *words)
        # A shell has what it starts in the background ignore SIGINT.
        return subprocess.Popen([(top or self.top) / "bin" / name, *rest], env=env, text=True,
                                preexec_fn=lambda: signal.signal(signal.SIGINT, signal.SIG_DFL),
                                stdout=subprocess.PIPE, stderr=subprocess.PIPE)

    def run_it(self, *words: str, **options: Any) -> tuple[int, str, str]:
        """The status, the output and standard error of a start."""
        started = self.start(*words, **options)
        out, told = started.communicate(timeout=TIME)
        return started.returncode, out, told

    def called(self) -> list[str]:
        """What the toolchain was called for since the last time."""
        said = self.calls.read_text().split("\n")[:-1] if self.calls.exists() else []
        self.calls.unlink(missing_ok=True)
        return said

    def build(self, *built: str) -> str:
        """Builds the program, and sees that this is what was built: what was told of it."""
        status, out, told = self.run_it("serve", "x")
        self.assertEqual((status, out), (0, "built tap_server serve x\n"), told)
        self.assertEqual(sorted(self.called()), sorted(built))
        self.assertEqual([*self.top.glob("out/*")], [])
        return told

    def assert_built(self, top: pathlib.Path | None = None, has_toolchain: bool = True) -> None:
        self.assertEqual(self.run_it("serve", "x", top=top, has_toolchain=has_toolchain),
                         (0, "built tap_server serve x\n", ""))
        self.assertEqual(self.called(), [])


ALL = ("money_time lib", "fare_table lib", "tap_disk lib", "tap_server run")


class Taken(Repository):
    """A program that is built."""

    def setUp(self) -> None:
        super().setUp()
        self.build(*ALL)

    def test_a_gates_program_is_built_and_started_by_its_name(self) -> None:
        status, out, told = self.run_it("gate_send", "--gate", "7")
        self.assertEqual((status, out), (0, "built gate_send --gate 7\n"), told)
        self.assertEqual(self.called()[-1], "gate_send run")
        self.assert_built()

    def test_what_is_built_is_started_at_once(self) -> None:
        self.assert_built()
        self.assert_built(has_toolchain=False)

    def test_a_link_to_the_command_starts_it(self) -> None:
        (self.room / "linked").mkdir()
        (self.room / "linked" / "bin").symlink_to(self.top / "bin")
        (self.room / "bovtrila").symlink_to(self.top / "bin" / "bovtrila")
        for command in (self.room / "bovtrila", self.room / "linked" / "bin" / "bovtrila"):
            done = subprocess.run([command, "serve", "x"], env={"PATH": "/usr/bin:/bin"}, capture_output=True, text=True)
            self.assertEqual((done.returncode, done.stdout, done.stderr), (0, "built tap_server serve x\n", ""))

    def test_a_touched_file_is_the_same(self) -> None:
        for file in self.top.rglob("*.rt"):
            os.utime(file, (time.time() + 5, time.time() + 5))
        self.assert_built()
        self.assert_built()

    def test_a_copy_is_the_same(self) -> None:
        # New times, as in a clone with out/ copied in, and as from a tar.
        copied, unpacked = self.room / "copied", self.room / "unpacked"
        subprocess.run(["cp", "-r", self.top, copied], check=True)
        for file in copied.rglob("*.rt"):
            os.utime(file, (1, 1))
        unpacked.mkdir()
        packed = subprocess.run(["tar", "-c", "-C", self.top, "."], check=True, capture_output=True).stdout
        subprocess.run(["tar", "-x", "-m", "-C", unpacked], input=packed, check=True)
        for top in (copied, unpacked):
            self.assert_built(top, has_toolchain=False)
            # It noted the times: so the digests aren't looked at again.
            (top / "crates" / "tap_server" / "out" / "tap_server.contents").unlink()
            self.assert_built(top, has_toolchain=False)

    def test_other_contents_are_built_again(self) -> None:
        definition = self.top / "crates" / "tap_disk" / "specs" / "Zone.antt"
        definition.parent.mkdir()
        bottom = ("money_time lib", "fare_table lib", "tap_server run")
        beside = ("tap_disk lib", "tap_server run")
        changes: tuple[tuple[Callable[[], object], tuple[str, ...]], ...] = (
            (lambda: self.source("money_time").write_text("// other\n"), bottom),
            (lambda: definition.write_text("-- a zone\n"), beside), (definition.unlink, beside))
        for change, built in changes:
            change()
            self.assertIn("since the code has changed", self.build(*built))
            self.assert_built()

    def test_back_to_what_was_built_needs_no_building(self) -> None:
        before = self.source("money_time").read_text()
        self.source("money_time").write_text("// other\n")
        self.source("money_time").write_text(before)
        self.assert_built()

    def test_code_that_changes_while_it_is_built_is_built_again(self) -> None:
        source = self.source("tap_disk")
        source.write_text("// other\n")
        change = f"[ -e {source}.done ] || {{ echo more >>{source}; touch {source}.done; }}\n"
        (self.tools / "rt").write_text(TOOLCHAIN + change)
        status, _, told = self.run_it("serve", "x")
        self.assertEqual(status, 0)
        self.assertIn("the code was changed meanwhile: the next start builds it again", told)
        self.called()
        self.build("tap_disk lib", "tap_server run")
        self.assert_built()

    def test_a_folder_that_can_not_be_written_is_looked_at_by_contents(self) -> None:
        if os.geteuid() == 0 and not shutil.which("setpriv"):
            self.skipTest("a user who is refused needs setpriv (apt-get install util-linux)")
        for file in self.top.rglob("*.rt"):
            os.utime(file, (1, 1))
        self.room.chmod(0o755)
        self.temporary.chmod(0o777)
        words = ["setpriv", "--reuid=65534", "--regid=65534", "--clear-groups"] if os.geteuid() == 0 else []
        for _ in range(2):
            done = subprocess.run([*words, self.top / "bin" / "bovtrila", "serve", "x"], capture_output=True,
                                  text=True, timeout=TIME, env={"PATH": "/usr/bin:/bin", "TMPDIR": str(self.temporary)})
            self.assertEqual((done.returncode, done.stdout, done.stderr), (0, "built tap_server serve x\n", ""))


class Building(Repository):
    """A program that isn't built yet."""

    def test_replay_and_check_need_the_smaller_program(self) -> None:
        self.assertEqual(self.run_it("check", "x")[:2], (0, "built table_trial check x\n"))
        self.assertEqual(sorted(self.called()), ["fare_table lib", "money_time lib", "table_trial run"])
        self.build("tap_disk lib", "tap_server run")
        self.assertEqual(self.run_it("check", "x"), (0, "built tap_server check x\n", ""))

    def test_without_the_toolchain_it_says_so_and_leaves_nothing_behind(self) -> None:
        before = sorted(self.room.rglob("*"))
        for words in (("serve",), ("check", "--table", "x"), ()):
            status, out, told = self.run_it(*words, has_toolchain=False)
            self.assertEqual((status, out), (1, ""))
            self.assertEqual(told, "bovtrila: the program is proved and built by rt of the Rattle kit, which isn't on "
                             "the path (README.md, \"Start\").\nbovtrila: A program that was built elsewhere serves "
                             "too: copy the folders crates/*/out along with these sources.\n")
        self.assertEqual(sorted(self.room.rglob("*")), before)

    def test_two_starts_build_once(self) -> None:
        starts = [self.start("serve", str(number)) for number in range(3)]
        for number, start in enumerate(starts):
            out, told = start.communicate(timeout=TIME)
            self.assertEqual((start.returncode, out), (0, f"built tap_server serve {number}\n"), told)
        self.assertEqual(sorted(self.called()), sorted(ALL))

    def test_a_library_that_fails_is_told_and_nothing_of_it_is_kept(self) -> None:
        for name in ("fare_table", "tap_server"):
            (self.tools / "rt").write_text(TOOLCHAIN.replace('echo "$name $1" >>', f"""[ "$name" != {name} ] || {{
                echo "src/lib.rt:1:1: error of $name" >&2; exit 1; }}\necho "$name $1" >>"""))
            status, out, told = self.run_it("serve")
            self.assertEqual((status, out), (1, ""))
            self.assertIn(f"src/lib.rt:1:1: error of {name}\n", told)
            self.assertFalse((self.top / "crates" / name / "out" / "rlib").exists())
            self.assertFalse((self.top / "out" / "proving").exists())
        (self.tools / "rt").write_text(TOOLCHAIN)
        self.called()
        self.build("tap_server run")

    def test_what_was_built_when_it_was_killed_is_whole(self) -> None:
        for signum, status in ((signal.SIGKILL, -signal.SIGKILL), (signal.SIGTERM, 1), (signal.SIGINT, 130)):
            self.calls.with_suffix(".slow").touch()
            started = self.start("serve")
            self.wait_for(lambda: self.calls.exists() and len(self.calls.read_text().split("\n")) == 3)
            started.send_signal(signum)
            started.communicate(timeout=TIME)
            self.assertEqual(started.returncode, status)
            self.assertEqual([*self.top.glob("crates/*/out/rlib")], [])
            self.assertEqual((self.top / "out" / "proving").exists(), signum == signal.SIGKILL)
            self.calls.with_suffix(".slow").unlink()
            self.called()
        self.build(*ALL)

    def test_crates_in_a_circle_are_an_error(self) -> None:
        (self.top / "crates.txt").write_text("tap_server: fare_table\nfare_table: tap_disk\ntap_disk: fare_table\n")
        status, out, told = self.run_it("serve")
        self.assertEqual((status, out), (1, ""))
        self.assertIn("bovtrila: crates.txt: these crates need one another in a circle: fare_table, tap_disk\n", told)
        self.assertFalse((self.top / "out" / "proving").exists())

    def wait_for(self, holds: Callable[[], object]) -> None:
        end = time.monotonic() + TIME
        while not holds():
            self.assertLess(time.monotonic(), end)
            time.sleep(0.02)

    @unittest.skipUnless(os.geteuid() == 0 and shutil.which("unshare"), "a full disk needs root and unshare (util-linux)")
    def test_a_full_disk_is_told_and_nothing_is_half_built(self) -> None:
        line = f"""mount -t tmpfs -o size=200k none {self.room}/small && cp -r {self.top} {self.room}/small/ &&
            cd {self.room}/small/top &&
            {{ bin/bovtrila serve; echo "status $?"; ls -d crates/*/out/rlib out/proving; }}"""
        (self.room / "small").mkdir()
        (self.tools / "rt").write_text(TOOLCHAIN.replace("mkdir -p out/rlib &&", "mkdir -p out/rlib &&\n"
                                                         "head -c 150000 /dev/zero >out/rlib/code || exit 1\n"))
        done = subprocess.run(["unshare", "-m", "sh", "-c", line], capture_output=True, text=True, timeout=TIME,
                              env={"PATH": f"{self.tools}:/usr/sbin:/usr/bin:/bin", "CALLS": str(self.calls)})
        self.assertIn("status 1\n", done.stdout)
        self.assertIn("No space left on device", done.stderr)
        self.assertLessEqual(len(re.findall("out/rlib", done.stdout)), 1)
        self.assertNotIn("proving\n", done.stdout)


class Ours(Repository):
    """The crates of this repository, by their own crates.txt."""

    def test_each_program_is_built_of_all_that_it_needs(self) -> None:
        named = {}
        for line in (TOP / "crates.txt").read_text().splitlines():
            head, _, rest = line.partition(":")
            if not line.startswith("#"):
                named[head.split()[0]] = rest.split()
        shutil.copy(TOP / "crates.txt", self.top)
        for name in named:
            self.source(name).parent.mkdir(parents=True, exist_ok=True)
            self.source(name).write_text(f"// {name}\n")
        built: set[str] = set()
        for words, program in (("check", "table_trial"), ("serve", "tap_server"), ("gate_send", "gate_send")):
            status, out, told = self.run_it(words)
            self.assertEqual((status, out.split()[:2]), (0, ["built", program]), told)
            for name in (call.split()[0] for call in self.called()):
                self.assertEqual({one for one in named[name] if one in named} - built, set(), name)
                built.add(name)
            self.assertIn(program, built)
