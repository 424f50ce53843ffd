# SPDX-License-Identifier: Apache-2.0
"""Receives copies of journals, on the computer to which bovtrila-send-copy sends them.

Run this as root, once for each server, with the name and the key that `bovtrila-send-copy --begin` printed there:

    bovtrila-receive-copy --allow alder 'ssh-ed25519 AAAA.. bovtrila@alder'

It makes the user bovtrila-copies and the folder /var/lib/bovtrila-copies/alder. The key may only start this script for
that folder. ssh then starts it by

    bovtrila-receive-copy /var/lib/bovtrila-copies/alder

and passes the request in SSH_ORIGINAL_COMMAND. The script accepts two requests, and refuses any other with status 2:

    rsync --server .. --append . NAME   adds bytes to the end of the file NAME. Bytes that are there stay
    verify NAME N DIGEST                verifies the file (bovtrila verify), and compares it with this seal

Between two runs each file is a sound journal, which bovtrila-restore accepts as it is. The file seals has the last seal
of each file. The status is that of rsync, or of `bovtrila verify`; and 1 if something can't be made or written.
"""
import argparse
import fcntl
import os
import pathlib
import pwd
import re
import shlex
import shutil
import subprocess
import sys
import time

from bovtrila import copies, layout, places, serving
from bovtrila.wire import Wrong

NAME = r"[\w][\w.+-]{0,150}"
KEY = re.compile(r"(?:ssh-|ecdsa-|sk-)[\w@.-]+ [A-Za-z0-9+/]+={0,2}(?: [\w@.+-]*)?", re.ASCII)
# What rsync's other end asks for when it adds to one file: no option that reads, deletes or writes elsewhere.
ADDING = re.compile(rf"rsync --server -e\.[A-Za-z]* --timeout=\d+ --append \. ({NAME})", re.ASCII)
VERIFYING = re.compile(rf"verify ({NAME}) (\d{{1,7}}) ([0-9a-f]{{64}})", re.ASCII)


def options() -> argparse.Namespace:
    parser = argparse.ArgumentParser(description=__doc__, formatter_class=argparse.RawTextHelpFormatter)
    parser.add_argument("folder", metavar="FOLDER", nargs="?", type=pathlib.Path,
                        help="the folder of one server's copies")
    parser.add_argument("--allow", metavar=("NAME", "KEY"), nargs=2, help="let this key send copies to the folder NAME")
    parser.add_argument("--user", default="bovtrila-copies",
                        help="with --allow: the user who owns the copies (bovtrila-copies)")
    parser.add_argument("--home", type=pathlib.Path, default=pathlib.Path("/var/lib/bovtrila-copies"),
                        help="with --allow: where the folders are (/var/lib/bovtrila-copies)")
    parser.add_argument("--program", metavar="FILE", help="the program, if the script doesn't find it")
    asked = parser.parse_args()
    if bool(asked.allow) == bool(asked.folder):
        parser.error("either FOLDER or --allow NAME KEY")
    if asked.allow and not re.fullmatch(NAME, asked.allow[0], re.ASCII):
        parser.error(f"'{asked.allow[0]}' is no name of a folder: letters, digits, '.', '+', '-' and '_'")
    if asked.allow and not KEY.fullmatch(asked.allow[1]):
        parser.error("this is no line of a public key: give it in quotation marks, as send-copy --begin has printed it")
    return asked


def made_user(name: str, home: pathlib.Path) -> pwd.struct_passwd:
    """The user of the copies, who is made where there is none. Its keys are root's."""
    try:
        return pwd.getpwnam(name)
    except KeyError:
        done = serving.run(["useradd", "--system", "--user-group", "--no-create-home", "--home-dir", home, "--shell",
                            "/bin/sh", "--password", "*", name])
        if done[0]:
            raise Wrong(f"useradd: {done[2].strip()}") from None
        return pwd.getpwnam(name)


def allow(asked: argparse.Namespace) -> None:
    """Lets a key send copies to a folder."""
    if os.geteuid():
        raise Wrong("--allow makes a user and a folder, as root")
    name, key = asked.allow
    user, home = made_user(asked.user, asked.home), asked.home
    folder, keys = home / name, home / ".ssh" / "authorized_keys"
    for path, owner, mode in ((home, 0, 0o755), (keys.parent, 0, 0o755), (folder, user.pw_uid, 0o750)):
        path.mkdir(parents=True, exist_ok=True)
        os.chown(path, owner, user.pw_gid)
        path.chmod(mode)
    script = shutil.which("bovtrila-receive-copy") or places.command("receive-copy")
    line = f'restrict,command="{script} {folder}" {key}'
    before = keys.read_text().splitlines() if keys.exists() else []
    if line not in before:
        serving.write(keys, "\n".join([*before, line]) + "\n")
    print(f"allowed  {key.split()[-1]} sends copies to {folder}")


def hold(folder: pathlib.Path) -> None:
    """Holds the folder until this ends, so that no other run is at work in it."""
    opened = os.open(folder, os.O_RDONLY)
    try:
        fcntl.flock(opened, fcntl.LOCK_EX | fcntl.LOCK_NB)
    except BlockingIOError:
        raise Wrong(f"{folder}: another copy is under way") from None


def add(folder: pathlib.Path, name: str, words: list[str]) -> int:
    """Has rsync add to a file, which ends with whole slots before that, and with a closed mark after it."""
    path = folder / name
    if path.exists():
        os.truncate(path, copies.whole(path.stat().st_size))
    status = subprocess.run(words, cwd=folder).returncode
    if path.exists():
        with open(path, "r+b") as file:
            size = copies.whole(os.fstat(file.fileno()).st_size)
            if size >= layout.HEADER:
                # Behind a kill between these two the copy ends without its mark, which the next run adds.
                file.truncate(size)
                file.truncate(size + 1)
            os.fsync(file.fileno())
    return status


def verify(asked: argparse.Namespace, name: str, touches: str, digest: str) -> int:
    """Verifies a file, and notes its seal."""
    status, out, err = serving.run([serving.program(asked.program), "verify", "--journal", asked.folder / name,
                                    "--sealed", touches, digest])
    if status == 0:
        moment = copies.text_of(time.time())
        lines = [" ".join((when, copy, "sealed", str(count), seal)) for when, copy, count, seal
                 in copies.seals(asked.folder) if copy != name]
        serving.write(asked.folder / copies.SEALS,
                      "\n".join([*lines, f"{moment} {name} sealed {touches} {digest}"]) + "\n", 0o640)
    sys.stdout.write(out)
    sys.stderr.write(err)
    return status


def serve(asked: argparse.Namespace) -> int:
    """Does what the other end asks for."""
    wanted = os.environ.get("SSH_ORIGINAL_COMMAND", "")
    os.umask(0o027)
    if match := ADDING.fullmatch(wanted):
        hold(asked.folder)
        return add(asked.folder, match[1], shlex.split(wanted))
    if match := VERIFYING.fullmatch(wanted):
        hold(asked.folder)
        return verify(asked, *match.groups())
    print(f"receive-copy: '{wanted[:200]}' isn't let be done by this key", file=sys.stderr)
    return 2


def main() -> int | None:
    asked = options()
    try:
        if asked.allow:
            allow(asked)
            return None
        return serve(asked)
    except Wrong as wrong:
        sys.exit(f"receive-copy: {wrong}")
    except OSError as error:
        sys.exit(f"receive-copy: {error.filename or asked.folder}: {error.strerror}")
