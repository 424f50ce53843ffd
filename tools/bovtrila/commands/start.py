# SPDX-License-Identifier: Apache-2.0
"""Starts a server with its settings file, or tries that file without serving.

The file has one setting per line, NAME = VALUE; /usr/share/bovtrila/serve.conf shows the usual ones. The units bovtrila
and bovtrila@NAME start the server by this command. With --wait they delay the end of `systemctl start` until the server
listens. If a line is wrong, the script reports its number, and doesn't start the server.

With --check nothing is changed, and no server is started that a gate could reach. The script tries the arguments as they
are, as the server's user, on a copy of the journal and on a free port. It finds faults before you stop the running
server: a missing table, one that the user may not read, a number of cards that isn't the journal's, or a revised table
that the journal names and the file lacks. Then it checks whether the server can listen at the address.

With --wait it waits until the server whose process the variable MAINPID names listens, or has ended. It doesn't wait
for a server that is on standby.

With --rewrite it rewrites a file of an earlier version, which had all arguments in one line SERVE="..", with one
setting per line. The station's own comments stay. A file in today's form isn't changed.

The script becomes the server, and its status is then the server's. Otherwise the status is 0; 1 if the server would be
refused, or has ended; and 2 if the settings file or the command line is wrong.

    bovtrila-start --check
    bovtrila-start --check --name alder-1
    bovtrila-start --config try/serve.conf --folder try
"""
import argparse
import contextlib
import os
import select
import sys
from typing import NoReturn

from bovtrila import rehearsal, serving, settings
from bovtrila.wire import Wrong

# How many seconds pass between two looks whether a server listens, and the state of a socket that does.
LOOK, LISTENS = 0.02, "0A"


def options() -> argparse.Namespace:
    parser = argparse.ArgumentParser(description=__doc__, formatter_class=argparse.RawTextHelpFormatter)
    how = parser.add_mutually_exclusive_group()
    how.add_argument("--check", action="store_true", help="try the settings without serving")
    how.add_argument("--wait", action="store_true", help="wait until the server with the process MAINPID listens")
    how.add_argument("--rewrite", action="store_true", help="rewrite a file of an earlier version in today's form")
    parser.add_argument("--name", metavar="NAME", help="the server's name, if it is one of several")
    parser.add_argument("--config", metavar="FILE", help="the server's settings (/etc/bovtrila/serve.conf)")
    parser.add_argument("--folder", metavar="FOLDER", help="the server's folder (/var/lib/bovtrila)")
    parser.add_argument("--user", help="the server's user, if root starts this (bovtrila)")
    parser.add_argument("--program", metavar="FILE", help="the program, if the script doesn't find it")
    asked = parser.parse_args()
    asked.folder = serving.folder_of(asked.folder, asked.name)
    asked.config = serving.config_of(asked.config, asked.name)
    return asked


def check(asked: argparse.Namespace, owner: serving.Owner) -> None:
    words = rehearsal.check(serving.program(asked.program), asked.config, asked.folder, owner)
    print(f"settings {asked.config}: {words}")
    journal = asked.folder / words["journal"]
    if not journal.exists():
        print(f"note     {journal}: there is no such journal; the server makes one")
    print(f"good     a server starts with these settings, and listens at {words['listen']}")


def sockets_of(process: int) -> set[str]:
    """The sockets of a process, by their numbers."""
    folder, found = f"/proc/{process}/fd", set[str]()
    for name in os.listdir(folder):
        try:
            kind, _, number = os.readlink(f"{folder}/{name}").partition(":[")
        except FileNotFoundError:
            continue  # it was closed meanwhile
        if kind == "socket":
            found.add(number.rstrip("]"))
    return found


def listens(process: int) -> bool:
    """Whether a process listens at an address."""
    try:
        own = sockets_of(process)
        for table in ("tcp", "tcp6"):
            with open(f"/proc/{process}/net/{table}") as file:
                for line in file:
                    fields = line.split()
                    if fields[3] == LISTENS and fields[9] in own:
                        return True
    except FileNotFoundError:
        pass  # it has ended, or this machine has no IPv6
    return False


def wait(asked: argparse.Namespace) -> None:
    """Waits until the server listens, unless it is one that may wait for another one."""
    if "--standby" in settings.words_of(asked.config).flags:
        return
    process = int(os.environ["MAINPID"])
    running: int | None = None
    with contextlib.suppress(ProcessLookupError):
        running = os.pidfd_open(process)
    while running is not None and not listens(process):
        if select.select([running], [], [], LOOK)[0]:
            running = None
    if running is None:
        raise Wrong("the server has ended before it served: its lines above say why")


def rewrite(asked: argparse.Namespace) -> None:
    text = settings.text_of(asked.config)
    if not settings.is_earlier(text):
        print(f"settings {asked.config}: it has a setting a line already")
        return
    words = settings.words_of(asked.config)
    serving.write(asked.config, settings.written(words, text))
    print(f"settings {asked.config}: it has a setting a line now, in place of one line SERVE=..")


def start(asked: argparse.Namespace, owner: serving.Owner) -> NoReturn:
    """Becomes the server."""
    program, words = serving.program(asked.program), settings.words_of(asked.config)
    try:
        os.chdir(asked.folder)
    except OSError as error:
        raise Wrong(f"{asked.folder}: {error.strerror}; bovtrila-setup makes it") from None
    if owner.ids:
        os.setgroups([])
        os.setgid(owner.ids[1])
        os.setuid(owner.ids[0])
        os.umask(0o027)
    os.execv(program, [program, "serve", *words.arguments()])


def main() -> None:
    asked = options()
    try:
        owner = serving.Owner(asked.user)
        if asked.check:
            check(asked, owner)
        elif asked.wait:
            wait(asked)
        elif asked.rewrite:
            rewrite(asked)
        else:
            start(asked, owner)
    except Wrong as wrong:
        sys.stderr.write(f"start: {wrong}\n")
        sys.exit(1 if asked.check or asked.wait or asked.rewrite else 2)
    except OSError as error:
        sys.exit(f"start: {error.filename or asked.config}: {error.strerror or error}")
