# SPDX-License-Identifier: Apache-2.0
"""Sends the new touches of a server's journal to another computer, by rsync over ssh. The other computer verifies its
copy. The server continues to run. A systemd timer runs this script every minute (bovtrila-send-copy.timer).

First run it once as root with --begin. It makes a key, asks the other computer for its own, and prints what to do there:

    bovtrila-send-copy --begin 192.168.7.9

It makes the folder /etc/bovtrila/serve.remote with ssh_config, key, key.pub and known_hosts. After that each run

1. adds the journal's new touches to the file FOLDER/remote/station.journal-20260105T033000Z, which contains only the
   header and the touches, and compares this whole file with the journal;
2. lets rsync add the new bytes to the file of this name on the other computer. Bytes that are there stay;
3. lets the other computer verify its file (bovtrila verify), and compare it with a seal of what was sent;
4. writes that seal to FOLDER/remote/sent, with the moment of step 1. bovtrila-exporter reports its age.

If a step fails, standard error has one of these lines, and then a line with details. The status is then 1:

    fault remote 1 Unread    the journal can't be read, or a file of FOLDER/remote can't be written
    fault remote 2 Differs   the journal doesn't begin with the touches that were sent: nothing was sent
    fault remote 3 Unsent    the other computer can't be reached, or it took no copy
    fault remote 4 Refused   the copy there isn't a sound journal, or differs from what was sent

If a journal was replaced by hand, begin a new file with --anew; bovtrila-restore does that itself. The status is 0 if the
copy was verified, and 2 for a wrong command line.

    bovtrila-send-copy --begin bovtrila-copies@copies.example:2222
    bovtrila-send-copy
    bovtrila-send-copy --name alder-1
    bovtrila-send-copy --anew
"""
import argparse
import fcntl
import hashlib
import os
import pathlib
import re
import shlex
import shutil
import socket
import time
from collections.abc import Sequence
from typing import Any, BinaryIO

from bovtrila import copies, journal_tail, layout, serving
from bovtrila.wire import Wrong

# How much is read at a time, and how many seconds rsync waits for an answer.
PIECE, TIME = 1 << 20, 60
SSH_CONFIG = """\
# The computer that gets copies of the journal (man ssh_config).
Host copies
    HostName {host}
    Port {port}
    User {user}
    IdentityFile "{folder}/key"
    IdentitiesOnly yes
    UserKnownHostsFile "{folder}/known_hosts"
    GlobalKnownHostsFile none
    StrictHostKeyChecking yes
    UpdateHostKeys no
    BatchMode yes
    ConnectTimeout 20
    ServerAliveInterval 15
"""


class Fault(Exception):
    """What isn't as it has to be: the fault's line, and what says more."""

    def __init__(self, line: str, more: object) -> None:
        super().__init__(f"fault remote {line}\n  {more}")


def other_computer(text: str) -> tuple[str, str, str]:
    """User, host and port of an address."""
    match = re.fullmatch(r"(?:([a-z_][\w.-]*)@)?(\[[0-9a-f:]+\]|[A-Za-z0-9][\w.-]*)(?::(\d{1,5}))?", text, re.ASCII)
    if not match or not 0 < int(match[3] or 22) < 65_536:
        raise argparse.ArgumentTypeError(f"'{text}' is no [USER@]HOST[:PORT]")
    return match[1] or "bovtrila-copies", match[2].strip("[]"), match[3] or "22"


def options() -> argparse.Namespace:
    parser = argparse.ArgumentParser(description=__doc__, formatter_class=argparse.RawTextHelpFormatter)
    how = parser.add_mutually_exclusive_group()
    how.add_argument("--begin", metavar="[USER@]HOST[:PORT]", type=other_computer,
                     help="make the key for this computer, and print what to do there")
    how.add_argument("--anew", action="store_true", help="begin a new file: the journal was replaced on purpose")
    parser.add_argument("--config", metavar="FILE", help="the server's settings (/etc/bovtrila/serve.conf)")
    parser.add_argument("--folder", metavar="FOLDER", help="the server's folder (/var/lib/bovtrila)")
    parser.add_argument("--name", metavar="NAME", help="the server's name, if it is one of several")
    parser.add_argument("--user", help="the server's user, if root starts this (bovtrila)")
    asked = parser.parse_args()
    asked.folder = serving.folder_of(asked.folder, asked.name)
    asked.config = serving.config_of(asked.config, asked.name)
    return asked


def asked_of(words: Sequence[object], **more: Any) -> str:
    """What a command writes; it has to succeed."""
    status, out, err = serving.run(words, **more)
    if status:
        raise Wrong(f"{words[0]}: {(err or out).strip() or f'it ended with status {status}'}")
    return out


def begin(asked: argparse.Namespace, settings: pathlib.Path) -> None:
    """Makes the folder of the settings whole, and says what comes next."""
    user, host, port = asked.begin
    owner, made = serving.Owner(asked.user), settings.with_name(settings.name + ".new")
    text = SSH_CONFIG.format(user=user, host=host, port=port, folder=settings)
    if settings.exists():
        if (settings / "ssh_config").read_text() != text:
            raise Wrong(f"{settings} is there, for another computer; remove it first")
    else:
        shutil.rmtree(made, ignore_errors=True)
        made.mkdir(parents=True, mode=0o750)
        (made / "ssh_config").write_text(text)
        asked_of(["ssh-keygen", "-q", "-t", "ed25519", "-N", "", "-C", f"{owner.name}@{socket.gethostname()}", "-f",
                  made / "key"])
        hosts = serving.run(["ssh-keyscan", "-T", "20", "-p", port, host])[1]
        if not hosts:
            raise Wrong(f"{host}:{port}: no ssh server answers there")
        (made / "known_hosts").write_text(hosts)
        if owner.ids:
            for path in (made, *made.iterdir()):
                os.chown(path, *owner.ids)
        serving.sync(made)
        os.rename(made, settings)
        serving.sync(settings.parent)
        print(f"made     {settings}: ssh_config, key, key.pub, known_hosts")
    for line in asked_of(["ssh-keygen", "-l", "-f", settings / "known_hosts"]).splitlines():
        print(f"host     {line}")
    print("         compare one of these with what `ssh-keygen -lf /etc/ssh/ssh_host_ed25519_key.pub` says on that "
          "computer")
    name = re.sub(r"[^\w.-]", "-", asked.name or socket.gethostname())
    print(f"there    bovtrila-receive-copy --allow {name} {shlex.quote((settings / 'key.pub').read_text().strip())}")
    unit = f"bovtrila-send-copy@{asked.name}" if asked.name else "bovtrila-send-copy"
    print(f"next     bovtrila-send-copy{f' --name {asked.name}' if asked.name else ''}\n"
          f"         systemctl enable --now {unit}.timer")


class Sending:
    """The new touches of the journal of a server's settings, on their way to another computer."""

    def __init__(self, asked: argparse.Namespace, settings: pathlib.Path, folder: pathlib.Path) -> None:
        self.asked, self.folder = asked, folder
        self.journal: pathlib.Path = asked.folder / serving.words_of(asked.config)["journal"]
        self.ssh = ["ssh", "-F", str(settings / "ssh_config")]
        self.begun = copies.text_of(time.time())
        self.known = [path for _, path in copies.kept(folder) if copies.journal_of(path) == self.journal.name]
        is_new = asked.anew or not self.known
        self.file = folder / f"{self.journal.name}-{self.begun}" if is_new else self.known[-1]

    def grow(self) -> int:
        """Adds the new touches to the file that is sent, whose touches have to be those of the journal: how many there
        are."""
        try:
            with open(self.journal, "rb") as journal, open(self.file, "a+b") as file:
                file.truncate(copies.whole(file.tell()))
                file.seek(0)
                sent = self.compare(journal, file)
                tail = journal_tail.Tail(str(self.journal))
                tail.read(sent)
                if tail.header[0][1:9] != layout.VERSION:
                    raise Wrong(f"{self.journal}: this is no journal of today's format")
                left = layout.HEADER + layout.SLOT * tail.touches - file.tell()
                while left:
                    piece = journal.read(min(PIECE, left))
                    if not piece:
                        raise Wrong(f"{self.journal}: it ends before its last touch")
                    file.write(piece)
                    self.digest.update(piece)
                    left -= len(piece)
                file.flush()
                os.fsync(file.fileno())
        except OSError as error:
            raise Fault("1 Unread", f"{error.filename or self.file}: {error.strerror}") from None
        except Wrong as wrong:
            raise Fault("1 Unread", wrong) from None
        # A file of another moment is no longer needed.
        for path in self.known:
            if path != self.file:
                path.unlink()
        return tail.touches

    def compare(self, journal: BinaryIO, file: BinaryIO) -> int:
        """Compares what was sent with the journal: how many touches that is."""
        self.digest, at = hashlib.sha256(), 0
        while piece := file.read(PIECE):
            there = journal.read(len(piece))
            if there != piece:
                raise Fault("2 Differs", f"{self.journal}: it doesn't begin with the touches of {self.file}; nothing "
                            "was sent. If it was replaced on purpose, say --anew; else FAULTS.md, \"Faults "
                            "of a copy to another computer\"")
            self.digest.update(piece)
            at += len(piece)
        return max(0, at - layout.HEADER) // layout.SLOT

    def send(self) -> None:
        """Has rsync add what the other computer lacks."""
        words = ["rsync", "--append", f"--timeout={TIME}", "-e", shlex.join(self.ssh), self.file,
                 f"copies:{self.file.name}"]
        self.over(words)

    def over(self, words: Sequence[object]) -> str:
        """What a command that asks the other computer writes."""
        try:
            status, out, err = serving.run(words)
        except FileNotFoundError:
            raise Fault("3 Unsent", f"{words[0]} isn't there: apt-get install rsync openssh-client") from None
        if status:
            said = " ".join((err or out).split()) or f"it ended with status {status}"
            raise Fault("4 Refused" if "fault " in said else "3 Unsent", f"{self.file.name}: {words[0]}: {said}")
        return out

    def verify(self, touches: int) -> None:
        """Has the other computer verify its file, and notes the seal that it holds to."""
        seal = f"sealed {touches} {self.digest.hexdigest()}"
        out = self.over([*self.ssh, "copies", f"verify {self.file.name} {touches} {self.digest.hexdigest()}"])
        if {seal, "sound"} - set(out.splitlines()):
            raise Fault("4 Refused", f"{self.file.name}: the other computer answered '{' '.join(out.split())}'")
        serving.write(self.folder / copies.SENT, f"{self.begun} {self.file.name} {seal}\n", 0o640)
        print(f"sent     {self.file.name}: {touches} touches, verified there")


def main() -> None:
    asked = options()
    settings, folder = asked.config.with_suffix(".remote"), asked.folder / copies.REMOTE
    try:
        if asked.begin:
            return begin(asked, settings)
        if not settings.is_dir():
            raise Wrong(f"{settings} isn't there: make it by bovtrila-send-copy --begin HOST")
        serving.Owner(asked.user).work_in(folder)
        held = os.open(folder, os.O_RDONLY)
        fcntl.flock(held, fcntl.LOCK_EX | fcntl.LOCK_NB)
        sending = Sending(asked, settings, folder)
        touches = sending.grow()
        sending.send()
        sending.verify(touches)
    except BlockingIOError:
        serving.fail(f"send-copy: {folder}: another run sends")
    except OSError as error:
        serving.fail(f"send-copy: {error.filename or folder}: {error.strerror}")
    except Wrong as wrong:
        serving.fail(f"send-copy: {wrong}")
    except Fault as fault:
        serving.fail(str(fault))
