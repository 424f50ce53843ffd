"""Makes packages for the scripts that try them, by scripts/package."""
import os
import pathlib
import re
import shutil
import subprocess
import unittest
from collections.abc import Callable

import program
from harness import TOP

NEEDED = {"debhelper": "dh", "dpkg-dev": "dpkg-buildpackage", "pandoc": "pandoc"}
TIME = 600


def lacking() -> str | None:
    """What hinders the making of a package here, or nothing."""
    missing = [package for package, command in NEEDED.items() if not shutil.which(command)]
    return f"a package is made by {', '.join(missing)}: not installed" if missing else None


def make(folder: pathlib.Path, umask: int = -1, **environment: str) -> tuple[pathlib.Path, str]:
    """Makes the packages in the folder, with other rights for files or another environment where they are named; the path
    of the station's, and what was told."""
    if reason := lacking():
        raise unittest.SkipTest(reason)
    # scripts/package would prove and build them, which is none of a test's business.
    stale = [name for name in ("tap_server", "gate_send") if not program.is_built(name)]
    if stale:
        raise AssertionError(f"{', '.join(stale)} isn't built of the code as it is: run 'rt ci'")
    # Of a tree without commits as well, as one that was unpacked.
    moment = {} if (TOP / ".git").exists() else {"SOURCE_DATE_EPOCH": "1700000000"}
    done = subprocess.run([TOP / "scripts" / "package", folder], env={**os.environ, **moment, **environment}, umask=umask,
                          capture_output=True, text=True, timeout=TIME)
    if done.returncode:
        raise AssertionError(done.stderr)
    return pathlib.Path(done.stdout.splitlines()[-1]), done.stderr


def of_network(package: pathlib.Path) -> pathlib.Path:
    """The package of the network's tools that was made together with a station's package."""
    version = package.name.split("_")[1]
    return package.with_name(f"bovtrila-network_{version}_all.deb")


# The settings as the version 1.0.0 had them: a file of the package, all arguments in one line, which its unit read.
EARLIER = """\
# The words of the server behind `bovtrila serve` (man bovtrila-serve); paths are below /var/lib/bovtrila.
# Revised tables are the last words, and only ever grow: .. --lines 8 prices-2026.toml
# The first start makes the journal. From the second start on take the other line, so that none makes another journal.
SERVE="--table first.toml --journal station.journal --cards 1000 --capacity 1000000 --listen 127.0.0.1:4014 --lines 8"
#SERVE="--table first.toml --journal station.journal --cards 1000 --capacity 1000000 --listen 127.0.0.1:4014 --lines 8 --strict"
"""  # noqa: E501  # Its lines are those of the file as it was.


def as_earlier(folder: pathlib.Path) -> None:
    """Gives what a package has the settings and the units that the version 1.0.0 had."""
    (folder / "etc" / "bovtrila").mkdir(parents=True)
    (folder / "etc" / "bovtrila" / "serve.conf").write_text(EARLIER)
    (folder / "DEBIAN" / "conffiles").write_text("/etc/bovtrila/serve.conf\n")
    for name, config in (("bovtrila", "serve"), ("bovtrila@", "%i")):
        unit = folder / "lib" / "systemd" / "system" / f"{name}.service"
        text = re.sub(r"^ExecStart(Post)?=.*\n|^TimeoutStartSec=.*\n", "", unit.read_text(), flags=re.M)
        unit.write_text(text.replace("[Service]\n", f"[Service]\nEnvironmentFile=/etc/bovtrila/{config}.conf\n"
                                     "ExecStart=/usr/bin/bovtrila serve $SERVE\n"))


def remade(package: pathlib.Path, version: str, change: Callable[[pathlib.Path], object] | None = None) -> pathlib.Path:
    """The package with another version, of itself and of the packages of the same version that it needs, and with a change
    of what it has: beside it."""
    folder = package.with_suffix("")
    subprocess.run(["dpkg-deb", "--raw-extract", package, folder], check=True)
    control = folder / "DEBIAN" / "control"
    text = re.sub(r"^Version: .*$", f"Version: {version}", control.read_text(), flags=re.M)
    control.write_text(re.sub(r"\(= [^)]*\)", f"(= {version})", text))
    if change:
        change(folder)
    name, _, kind = package.name.split("_")
    made = package.with_name(f"{name}_{version}_{kind}")
    subprocess.run(["dpkg-deb", "--root-owner-group", "--build", folder, made], check=True, stdout=subprocess.DEVNULL)
    shutil.rmtree(folder)
    return made
