"""Tries scripts/release in repositories of its own: what it refuses, what it leaves then, and what a release contains. The
programs, the toolchain and lintian are stand-ins. In most tests scripts/package is one as well.
"""
import hashlib
import json
import os
import pathlib
import re
import shutil
import signal
import subprocess
import sys
import tarfile
import tempfile
import time
import unittest
from collections.abc import Iterable
from typing import Any

import debs
import harness
import sbom
from release_base import KIT, LOGIC, NOTES, VERSION, ReleaseTest, commit, git, write


def digest_of(file: pathlib.Path) -> str:
    return hashlib.sha256(file.read_bytes()).hexdigest()


class ReleaseRefused(ReleaseTest):
    """What is refused before anything is written."""

    def test_a_changed_working_tree(self) -> None:
        (self.top / "README.md").write_text("changed\n")
        (self.top / "docs" / "NEW.md").write_text("new\n")
        self.assert_refused("the working tree has changes: commit or remove README.md, docs/NEW.md")

    def test_another_branch(self) -> None:
        git(self.top, "switch", "--quiet", "--create", "other")
        self.assert_refused("the branch is other, and releases are made on main: git switch main")

    def test_no_branch(self) -> None:
        git(self.top, "switch", "--quiet", "--detach")
        self.assert_refused("the branch is none, and releases are made on main: git switch main")

    def test_another_number_than_that_of_the_file(self) -> None:
        self.assert_refused(f"VERSION has {VERSION}, not 9.8.7: give that number, or change the file",
                            "CHANGELOG.md: the newest entry isn't of 9.8.7: write one below `## 9.8.7, YYYY-MM-DD`",
                            f"the program prints `bovtrila {VERSION}`, not `bovtrila 9.8.7`: run scripts/dev/check-facts",
                            words=("9.8.7",))

    def test_a_version_that_is_no_number(self) -> None:
        for word in ("v1.0.0", "1.0", "1.0.0-1"):
            status, out, err = self.release(word, self.to)
            self.assertEqual((status, out), (2, ""))
            self.assertIn(f"VERSION has to be three numbers, as 1.0.0: {word}\n", err)

    def test_a_changelog_without_an_entry(self) -> None:
        file = self.top / "CHANGELOG.md"
        file.write_text(file.read_text().replace(f"## {VERSION}, ", "## 0.0.1, "))
        commit(self.top)
        self.assert_refused(f"CHANGELOG.md: the newest entry isn't of {VERSION}: write one below `## {VERSION}, YYYY-MM-DD`")

    def test_an_entry_that_does_not_say_how_to_upgrade(self) -> None:
        """Those of older entries don't count."""
        file = self.top / "CHANGELOG.md"
        file.write_text(f"# Changelog\n\n## {VERSION}, 2030-01-02\n\nNew:\n\n- Something.\n\n"
                        f"## {VERSION}, 2030-01-01\n\nTo upgrade:\n\n- Nothing.\n")
        commit(self.top)
        self.assert_refused(f"CHANGELOG.md: the newest entry of {VERSION} has no line `To upgrade:`: add it, and what to do")

    def test_programs_that_are_not_built(self) -> None:
        for name in ("tap_server", "gate_send"):
            shutil.rmtree(self.top / "crates" / name / "out")
        self.assert_refused("tap_server isn't built and proved of these sources: run bin/bovtrila serve --help",
                            "gate_send isn't built and proved of these sources: run bin/gate_send --help")

    def test_a_program_that_is_built_of_other_sources(self) -> None:
        with open(self.top / "crates" / "gate_send" / "src" / "main.rt", "a") as file:
            file.write("// other\n")
        subprocess.run([sys.executable, "-B", "-c", NOTES.replace("'gate_send'", "'tap_server'")],
                       cwd=self.top / "scripts" / "dev", check=True)
        commit(self.top)
        self.assert_refused("gate_send isn't built and proved of these sources: run bin/gate_send --help")

    def test_without_the_toolchain(self) -> None:
        (self.room / "tools" / "rt").unlink()
        if shutil.which("rt", path="/usr/sbin:/usr/bin:/bin"):
            self.skipTest("rt is in a folder of the system")
        self.assert_refused("PROVED has to name the toolchain, and its command rt isn't on the path: add it "
                            '(README.md, "Start")')

    def test_a_toolchain_of_another_logic(self) -> None:
        write(self.room / "tools" / "rt", "#!/bin/sh\necho 'other-kit logic 1'\n")
        self.assert_refused(f"the program is `proved by Rattle, {LOGIC}`, and the toolchain here is `other-kit logic 1`: "
                            "use the one that proved the program")

    def test_a_folder_that_is_there(self) -> None:
        self.to.mkdir()
        self.assert_refused(f"{self.to} is there already: name another folder, or remove it")
        self.to.rmdir()
        self.to.symlink_to("nowhere")
        self.assert_refused(f"{self.to} is there already: name another folder, or remove it")

    def test_a_folder_below_one_that_is_not_there(self) -> None:
        self.to = self.to / "below"
        self.assert_refused(f"{self.to.parent} isn't a folder: make it first")

    def test_a_folder_of_the_working_tree(self) -> None:
        self.to = self.top / "docs" / "release"
        self.assert_refused(f"{self.to} would be a change of the working tree: name one in out/ or outside of the "
                            "repository")

    def test_a_tag_at_another_commit(self) -> None:
        git(self.top, "tag", f"v{VERSION}")
        at = git(self.top, "rev-parse", "HEAD")
        git(self.top, "commit", "--quiet", "--allow-empty", "--message", "Later")
        self.assert_refused(f"the tag v{VERSION} is at another commit, {at}: a released version stays, so raise the number")

    def test_a_tag_that_nobody_makes(self) -> None:
        git(self.top, "config", "--unset", "user.name")
        git(self.top, "config", "user.useConfigOnly", "true")
        status, out, err = self.release(VERSION, self.to)
        self.assertEqual((status, out), (1, ""))
        self.assertTrue(err.startswith("release: git can't name who makes the tag: set user.name and user.email ("), err)
        self.assert_made("--dry-run", VERSION)


class ReleaseFailed(ReleaseTest):
    """What fails on the way, and leaves nothing."""

    def test_packages_that_differ(self) -> None:
        self.package_does('date --utc +%s%N >"$tree/usr/share/doc/bovtrila/moment"')
        self.assert_refused(f"scripts/package made other bytes the second time: bovtrila_{VERSION}-1_amd64.deb. Make it in "
                            "two folders, and compare them with diffoscope")

    def test_a_package_that_depends_on_the_umask_and_the_clock(self) -> None:
        self.package_does('touch "$1/$umask-$(date --date=@0 +%Z)"')
        self.assert_refused("scripts/package made other bytes the second time: 0022-UTC, 0077-NZST. Make it in two folders, "
                            "and compare them with diffoscope")

    def test_a_package_that_can_not_be_made(self) -> None:
        self.package_does("echo 'package: no room' >&2; exit 1")
        before = self.traces()
        told = "package: no room\nrelease: scripts/package failed: see above\n"
        self.assertEqual(self.release(VERSION, self.to), (1, "", told))
        self.assertEqual(self.traces(), before)

    def test_a_working_tree_that_changes_meanwhile(self) -> None:
        self.package_does("changed=', and changes that are not in it'")
        self.assert_refused("the working tree was changed while the package was made: run scripts/release again")

    def test_a_folder_that_another_makes_meanwhile(self) -> None:
        """Its files stay, and the tag is taken back."""
        self.package_does(f"mkdir -p {self.to}; touch {self.to}/other")
        status, out, err = self.release(VERSION, self.to)
        self.assertEqual((status, out), (1, ""))
        self.assertRegex(err, rf"^release: .*Directory not empty: .*{self.to}'\n$")
        self.assertEqual(git(self.top, "tag"), "")
        self.assertEqual([str(file.relative_to(self.to.parent)) for file in self.to.parent.rglob("*")],
                         ["release", "release/other"])

    def test_a_run_that_is_ended(self) -> None:
        begun = self.room / "begun"
        self.package_does(f"touch {begun}; exec sleep 600")
        started = self.start(VERSION, self.to)
        end = time.monotonic() + harness.TIME
        while not begun.exists():
            self.assertLess(time.monotonic(), end)
            time.sleep(0.02)
        begun.unlink()
        before = git(self.top, "tag"), [self.to.parent.name]
        started.send_signal(signal.SIGTERM)
        out, err = started.communicate(timeout=harness.TIME)
        self.assertEqual((started.returncode, out, err), (1, "", ""))
        self.assertEqual((git(self.top, "tag"), [entry.name for entry in self.room.glob("made*")]), before)
        self.assertEqual(list(self.to.parent.iterdir()), [])


class ReleaseMade(ReleaseTest):
    """A release with a stand-in of the package."""

    def test_it_is_tagged(self) -> None:
        self.assert_made(VERSION)
        self.assertEqual(git(self.top, "cat-file", "-t", f"v{VERSION}"), "tag")
        self.assertEqual(git(self.top, "rev-parse", f"v{VERSION}^{{commit}}"), git(self.top, "rev-parse", "HEAD"))
        self.assertEqual(git(self.top, "tag", "--format=%(contents:subject)"), f"Bovtrila {VERSION}")

    def test_a_dry_run_makes_no_tag(self) -> None:
        self.assert_made("--dry-run", VERSION)
        self.assertEqual(git(self.top, "tag"), "")
        self.assertTrue((self.to / "SHA256SUMS").is_file())

    def test_a_tag_of_a_run_that_was_killed_stays(self) -> None:
        git(self.top, "tag", f"v{VERSION}")
        self.assert_made(VERSION)
        self.assertEqual(git(self.top, "cat-file", "-t", f"v{VERSION}"), "commit")

    def test_nothing_stays_beside_it(self) -> None:
        self.assert_made(VERSION)
        self.assertEqual([entry.name for entry in self.to.parent.iterdir()], [self.to.name])
        self.assertEqual(git(self.top, "status", "--porcelain"), "")

    def test_its_place_is_out_unless_another_is_named(self) -> None:
        to = self.top / "out" / f"bovtrila-{VERSION}"
        self.assertEqual(self.release("--dry-run", VERSION), (0, f"{to}\n", ""))
        self.assertEqual(list(to.parent.iterdir()), [to])

    def test_the_same_commit_gives_the_same_files(self) -> None:
        self.assert_made("--dry-run", VERSION)
        first, self.to = self.to, self.to.with_name("again")
        git(self.top, "config", "tar.umask", "0077")
        git(self.top, "config", "core.autocrlf", "true")
        self.assert_made(VERSION)
        self.assertEqual(*({file.name: digest_of(file) for file in folder.iterdir()} for folder in (first, self.to)))

    def test_an_auditor_unpacks_the_program_and_runs_it(self) -> None:
        self.assert_made("--dry-run", VERSION)
        name = f"bovtrila-verify-{VERSION}-x86_64"
        with tarfile.open(self.to / f"{name}.tar.gz") as tar:
            self.assertEqual({(one.mtime, one.uid, one.gid) for one in tar},
                             {(int(git(self.top, "log", "-1", "--format=%ct")), 0, 0)})
        subprocess.run(["tar", "-xf", self.to / f"{name}.tar.gz", "-C", self.room], check=True)
        folder = self.room / name
        pages = {f"doc/{page}.md" for page in ("AUDIT", "COMMANDS", "FARES", "FAULTS", "GLOSSARY", "JOURNAL", "TABLE")}
        self.assertEqual({str(file.relative_to(folder)) for file in folder.rglob("*") if file.is_file()},
                         {"bovtrila", "README", "PROVED", "copyright", "example.toml", *pages})
        said = subprocess.run(["./bovtrila", "--version"], cwd=folder, capture_output=True, text=True, check=True).stdout
        self.assertEqual(said.partition("\n")[0], f"bovtrila {VERSION}")
        self.assertIn(" processor with libc6 (>= 2.34), the\n", (folder / "README").read_text())
        self.assertTrue((folder / "doc" / "COMMANDS.md").read_text().startswith("# "))

    def test_what_the_package_depends_on_is_in_the_bill_of_materials(self) -> None:
        self.assert_made("--dry-run", VERSION)
        bill = json.loads((self.to / f"bovtrila-{VERSION}.spdx.json").read_text())
        needed = {one["relatedSpdxElement"]: one["comment"] for one in bill["relationships"]
                  if one["relationshipType"] == "DEPENDS_ON"}
        self.assertEqual(needed, {"SPDXRef-Debian-init-system-helpers": "init-system-helpers (>= 1.54~)",
                                  "SPDXRef-Debian-libc6": "libc6 (>= 2.34)", "SPDXRef-Debian-libstdc--6": "libstdc++6",
                                  "SPDXRef-Debian-default-mta": "default-mta",
                                  "SPDXRef-Debian-mail-transport-agent": "mail-transport-agent"})
        names = {one["SPDXID"]: one["name"] for one in bill["packages"]}
        self.assertEqual(names["SPDXRef-Debian-libstdc--6"], "libstdc++6")


class ReleaseContents(ReleaseTest):
    """A release with the real scripts/package."""

    PACKAGE = None

    @classmethod
    def setUpClass(cls) -> None:
        if lacking := debs.lacking():
            raise unittest.SkipTest(lacking)

    def setUp(self) -> None:
        super().setUp()
        self.assert_made(VERSION)
        self.package = next(self.to.glob("bovtrila_*.deb"))
        self.network = debs.of_network(self.package)

    def checked(self, file: pathlib.Path, folder: pathlib.Path) -> tuple[int, str]:
        """The status of sha256sum with the digests of a file, in a folder, and what it says."""
        done = subprocess.run(["sha256sum", "--check", "--strict", "--quiet", "--ignore-missing", file], cwd=folder,
                              text=True,
                              capture_output=True, env={**os.environ, "LC_ALL": "C"})
        return done.returncode, done.stdout

    def test_what_is_in_it(self) -> None:
        self.assertRegex(self.package.name, rf"^bovtrila_{re.escape(VERSION)}-\d{{8}}\.\d{{6}}_amd64\.deb$")
        archive, bill = f"bovtrila-{VERSION}.tar.gz", f"bovtrila-{VERSION}.spdx.json"
        for_auditors = f"bovtrila-verify-{VERSION}-x86_64.tar.gz"
        names = {"PROVED", "SHA256SUMS", archive, bill, for_auditors, self.package.name, self.network.name}
        self.assertEqual({file.name for file in self.to.iterdir()}, names)
        self.assert_digests(names - {"SHA256SUMS"})
        sources = self.assert_sources(archive)
        self.assert_proved(sources)
        self.assert_bill(json.loads((self.to / bill).read_text()), archive)

    def assert_digests(self, names: Iterable[str]) -> None:
        sums = self.to / "SHA256SUMS"
        self.assertEqual([line.split("  ")[1] for line in sums.read_text().splitlines()], sorted(names))
        self.assertEqual(self.checked(sums, self.to), (0, ""))
        for name in names:
            file = self.to / name
            before = file.read_bytes()
            file.write_bytes(before[:-1] + bytes([before[-1] ^ 1]))
            self.assertEqual(self.checked(sums, self.to), (1, f"{name}: FAILED\n"))
            file.write_bytes(before)

    def assert_sources(self, archive: str) -> pathlib.Path:
        """The archive has what the commit has: the folder where it is unpacked."""
        with tarfile.open(self.to / archive) as tar:
            self.assertEqual({one.mtime for one in tar}, {int(git(self.top, "log", "-1", "--format=%ct"))})
        (self.room / "sources").mkdir(exist_ok=True)
        subprocess.run(["tar", "-xf", self.to / archive, "-C", self.room / "sources"], check=True)
        sources = self.room / "sources" / f"bovtrila-{VERSION}"
        unpacked = {str(file.relative_to(sources)) for file in sources.rglob("*") if not file.is_dir()}
        self.assertEqual(unpacked, set(git(self.top, "ls-files").splitlines()))
        for name in unpacked:
            self.assertEqual(digest_of(sources / name), digest_of(self.top / name), name)
        return sources

    def assert_proved(self, sources: pathlib.Path) -> None:
        """PROVED is that of the package, and its digests are those of the archive and of the package's programs."""
        tree, proved = self.room / "tree", self.to / "PROVED"
        subprocess.run(["dpkg-deb", "--extract", self.package, tree], check=True)
        self.assertEqual(proved.read_bytes(), (tree / "usr" / "share" / "doc" / "bovtrila" / "PROVED").read_bytes())
        lines = proved.read_text().splitlines()
        self.assertEqual(lines[:3], [f"# bovtrila {VERSION}, proved by Rattle, {LOGIC}", f"# toolchain: {KIT}",
                                     f"# commit: {git(self.top, 'rev-parse', 'HEAD')}"])
        named = {line.split("  ")[1] for line in lines if not line.startswith("#")}
        code = {str(file.relative_to(sources)) for kind in ("rt", "antt") for file in sources.glob(f"crates/**/*.{kind}")}
        self.assertEqual(named, code | {"crates.txt", "/usr/bin/bovtrila", "/usr/bin/gate_send"})
        own = self.room / "PROVED"
        own.write_text(proved.read_text().replace("  /usr/bin/", f"  {tree}/usr/bin/"))
        self.assertEqual(self.checked(own, sources), (0, ""))

    def assert_bill(self, bill: dict[str, Any], archive: str) -> None:
        """The bill of materials is SPDX 2.3, and has the files, the kit's crates and the package's dependencies."""
        said = bill["spdxVersion"], bill["dataLicense"], bill["SPDXID"]
        self.assertEqual(said, ("SPDX-2.3", "CC0-1.0", "SPDXRef-DOCUMENT"))
        self.assertRegex(bill["creationInfo"]["created"], r"^\d{4}-\d\d-\d\dT\d\d:\d\d:\d\dZ$")
        packages = {one["SPDXID"]: one for one in bill["packages"]}
        self.assertEqual(len(packages), len(bill["packages"]))
        for name, one in packages.items():
            self.assertRegex(name, r"^SPDXRef-[A-Za-z0-9.-]+$")
            self.assertLessEqual({"name", "downloadLocation", "filesAnalyzed", "licenseConcluded", "licenseDeclared",
                                  "copyrightText"}, set(one))
        for one in bill["relationships"]:
            self.assertLessEqual({one["spdxElementId"], one["relatedSpdxElement"]}, {*packages, "SPDXRef-DOCUMENT"})
        for name, file in (("SPDXRef-Install-bovtrila", self.package.name), ("SPDXRef-Source-bovtrila", archive),
                           ("SPDXRef-Install-bovtrila-network", self.network.name)):
            digest = digest_of(self.to / file)
            self.assertEqual(packages[name]["packageFileName"], file)
            self.assertEqual(packages[name]["checksums"], [{"algorithm": "SHA256", "checksumValue": digest}])
        self.assertEqual(packages["SPDXRef-Kit-stand-in-kit"]["versionInfo"], KIT)
        linked = self.related(bill, "STATIC_LINK", "bovtrila")
        self.assertEqual(self.related(bill, "STATIC_LINK", "bovtrila-network"), set())
        self.assertLessEqual({"clap", "jiff-core", "libc"}, {name.removeprefix("SPDXRef-Crate-") for name in linked})
        # gate_send's stand-in is a program of the C library.
        self.assertLessEqual({f"SPDXRef-Debian-{name}" for name in ("libc6", "python3", "systemd", "tzdata")},
                             self.related(bill, "DEPENDS_ON", "bovtrila"))
        # The tools need the station's package, which is another one of the release.
        self.assertLessEqual({"SPDXRef-Install-bovtrila", "SPDXRef-Debian-python3-psycopg2"},
                             self.related(bill, "DEPENDS_ON", "bovtrila-network"))
        self.assertNotIn("SPDXRef-Debian-bovtrila", packages)

    def related(self, bill: dict[str, Any], kind: str, package: str) -> set[str]:
        return {one["relatedSpdxElement"] for one in bill["relationships"]
                if (one["relationshipType"], one["spdxElementId"]) == (kind, f"SPDXRef-Install-{package}")}


class LinkedCrates(unittest.TestCase):
    """The kit's crates in the bill of materials."""

    def test_those_of_tests_are_left_out(self) -> None:
        with tempfile.TemporaryDirectory() as top:
            (pathlib.Path(top) / "crates.txt").write_text(
                "# The workspace.\nlow: clap\nmiddle: low toml\nlow_tests: low csv\n"
                "tap_server may_wait=6: middle libc\ngate_send: low os\n")
            self.assertEqual(sbom.crates_of_kit(pathlib.Path(top)), ["clap", "libc", "os", "toml"])
