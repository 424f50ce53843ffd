# SPDX-License-Identifier: Apache-2.0
"""Sets up a station's server: checks its fare table, writes its settings, makes its journal, and gives the journal its
whole size on the disk.

It asks no questions, and replaces nothing that is there. If everything is there as the options say, it reports that,
changes nothing, and ends with status 0. If something there differs, it reports what, changes nothing, and ends with
status 1. If it is cut off, run it again with the same arguments: it makes what is missing.

It makes these files, which belong to the server's user:

    FOLDER/NAME.toml          the fare table, and each revised one, with the names that they have
    /etc/bovtrila/serve.conf  the server's settings, one per line with a comment. A file with the settings of
                              /usr/share/bovtrila/serve.conf is replaced, as long as there is no journal
    FOLDER/station.journal    an empty journal with room for --capacity touches: 65 bytes, and 64 for each touch

With --name NAME it is one of several servers, with /etc/bovtrila/NAME.conf and a separate folder. If root starts the
script, the user is `bovtrila`, who has to exist; otherwise it is the user who starts it.

If another program listens at the address of --listen, the script changes nothing and ends with status 1.

The status is 0 if everything is there; 1 if something differs, can't be had or is refused by the program, whose fault
is then printed; and 2 for a wrong command line. After status 1 everything is as it was.

    bovtrila-setup --table first.toml --cards 1000 --listen 192.168.7.2:4014
    bovtrila-setup --table first.toml --cards 1000 --listen 192.168.7.2:4014 --capacity 300000 --lines 12
    bovtrila-setup --table first.toml --cards 500 --listen 127.0.0.1:4014 --folder try --config try/serve.conf
"""
import argparse
import errno
import fcntl
import hashlib
import os
import pathlib
import re
import shutil
import socket
import struct
import sys

from bovtrila import layout, serving, settings, wire
from bovtrila.wire import Wrong

JOURNAL = "station.journal"
# After how many seconds a silent gate's connection is closed, unless another number is asked for.
IDLE = 300
# What has these names already: the folders of copies in the server's folder, its settings, and those of stunnel.
TAKEN = re.compile(r"copies|remote|serve|stunnel.*")


def address(text: str) -> str:
    """An address as `serve` reads it: the text, once it is one."""
    wire.address(text)
    return text


def server_name(text: str) -> str:
    if not re.fullmatch(r"[A-Za-z0-9][A-Za-z0-9_.-]{0,62}", text, re.ASCII):
        raise argparse.ArgumentTypeError(f"'{text}' is no name of a server: letters, digits, '.', '-' and '_'")
    if TAKEN.fullmatch(text):
        raise argparse.ArgumentTypeError(f"'{text}' can't be a server's name: copies, remote, serve and names that begin "
                                         "with stunnel are names of folders and files that bovtrila uses; choose another")
    return text


def options() -> argparse.Namespace:
    parser = argparse.ArgumentParser(description=__doc__, formatter_class=argparse.RawTextHelpFormatter)
    parser.add_argument("--table", metavar="FILE", required=True, help="the first fare table")
    parser.add_argument("--cards", metavar="N", type=serving.whole(*settings.RANGES["cards"]), required=True,
                        help="how many cards there are")
    parser.add_argument("--listen", metavar="ADDR", type=address, required=True, help="HOST:PORT for the gates")
    parser.add_argument("--capacity", metavar="N", type=serving.whole(*settings.RANGES["capacity"]), default=1_000_000,
                        help="how many touches the journal has room for (1000000)")
    parser.add_argument("--lines", metavar="N", type=serving.whole(*settings.RANGES["lines"]), default=8,
                        help="how many gates are served at once (8)")
    parser.add_argument("--idle", metavar="N", type=serving.whole(1, 1_000_000),
                        help="after how many seconds without a byte a gate's connection is\nclosed (300)")
    parser.add_argument("--revised", metavar="FILE", action="append", default=[], help="a further fare table")
    parser.add_argument("--name", metavar="NAME", type=server_name, help="the server's name, if it is one of several")
    parser.add_argument("--folder", metavar="FOLDER", help="where tables and journal are (/var/lib/bovtrila)")
    parser.add_argument("--config", metavar="FILE", help="the server's settings (/etc/bovtrila/serve.conf)")
    parser.add_argument("--user", help="the server's user, if root starts this (bovtrila)")
    parser.add_argument("--program", metavar="FILE", help="the program, if the script doesn't find it")
    asked = parser.parse_args()
    asked.folder = serving.folder_of(asked.folder, asked.name)
    asked.config = serving.config_of(asked.config, asked.name)
    return asked


class Station:
    """What is asked for, and what of it is there."""

    def __init__(self, asked: argparse.Namespace) -> None:
        self.asked, self.program, self.owner = asked, serving.program(asked.program), serving.Owner(asked.user)
        self.folder, self.config = pathlib.Path(asked.folder), pathlib.Path(asked.config)
        self.journal, self.tables = self.folder / JOURNAL, dict[str, bytes]()
        for path in map(pathlib.Path, (asked.table, *asked.revised)):
            if not re.fullmatch(r"[\w.+-]+", path.name) or path.name.startswith("-") or path.name in (".", ".."):
                raise Wrong(f"{path}: a table's name is of letters, digits, '.', '+', '-' and '_' alone")
            if path.name in self.tables:
                raise Wrong(f"{path}: two tables have this name")
            try:
                self.tables[path.name] = path.read_bytes()
            except OSError as error:
                raise Wrong(f"{path}: {error.strerror}") from None
        first, *revised = self.tables
        words = ["--table", first, "--journal", JOURNAL, "--cards", str(asked.cards), "--capacity", str(asked.capacity),
                 "--listen", asked.listen, "--lines", str(asked.lines), *self.idle(), *self.strict(), *revised]
        self.words, self.digest = settings.Words(words), hashlib.sha256(self.tables[first]).digest()

    def idle(self) -> list[str]:
        """The option by which a silent gate loses its line: what is asked for, or else what the settings of a journal
        that is there have, which may be nothing, or the usual number."""
        is_kept = self.asked.idle is None and self.config.exists() and self.journal.exists()
        if is_kept:
            number = settings.words_of(self.config).options.get("--idle")
            return ["--idle", number] if number else []
        return ["--idle", str(self.asked.idle or IDLE)]

    def strict(self) -> list[str]:
        """The word by which the server makes no journal where there is none, if the program knows that word."""
        return ["--strict"] if "--strict" in serving.run([self.program, "serve", "--help"])[1] else []

    def bound(self) -> OSError | None:
        """What hinders a server from listening at the address now, or nothing. The running server itself doesn't."""
        if self.journal.exists() and serving.has_server(self.journal):
            return None
        host, port = wire.address(self.asked.listen)
        try:
            with socket.socket(socket.AF_INET6 if ":" in host else socket.AF_INET) as tried:
                tried.setsockopt(socket.SOL_SOCKET, socket.SO_REUSEADDR, 1)
                tried.bind((host, port))
        except OSError as error:
            return error
        return None

    def check_address(self) -> None:
        """Fails if another program listens at the address. One that this machine hasn't may still come."""
        error = self.bound()
        if error is not None and error.errno == errno.EADDRINUSE:
            port = wire.address(self.asked.listen)[1]
            raise Wrong(f"--listen {self.asked.listen}: another program listens there; choose another port. This command "
                        f"shows the program: ss -ltnp 'sport = :{port}'")

    def check(self) -> None:
        """Checks the first table, and tells what the program says of it. Revised ones are checked with the journal."""
        status, out, err = serving.run([self.program, "check", "--table", self.asked.table])
        if status:
            raise Wrong(f"{self.asked.table}: {(out + err).strip()}")
        print(f"table    {self.asked.table}: {', '.join(out.split(chr(10))[:3])}")
        for line in err.splitlines():
            print(f"         {line}")

    def look(self) -> tuple[list[pathlib.Path], list[str]]:
        """What is there, as sentences: what is missing, and what is otherwise than asked."""
        missing, otherwise = list[pathlib.Path](), list[str]()
        for name, content in self.tables.items():
            path = self.folder / name
            if not path.exists():
                missing.append(path)
            elif path.read_bytes() != content:
                otherwise.append(f"{path} is there, and is another table")
        has_journal = self.journal.exists() and self.journal.stat().st_size > 0
        if not self.config.exists():
            missing.append(self.config)
        else:
            words = settings.words_of(self.config)
            if words != self.words and (has_journal or not words.is_sample()):
                otherwise.append(f"{self.config} is there, with other settings: {words}")
            elif words != self.words:
                missing.append(self.config)
        if not has_journal:
            missing.append(self.journal)
        else:
            otherwise += self.differing()
        return missing, otherwise

    def differing(self) -> list[str]:
        """What is otherwise in a journal that is there than in the one that is asked for."""
        with open(self.journal, "rb") as file:
            header = file.read(layout.HEADER + 1)
        if len(header) <= layout.HEADER or header[0] != layout.MARK or header[1:9] != layout.VERSION:
            return [f"{self.journal} is there, and is no journal of today's format"]
        capacity, cards = struct.unpack(">II", header[9:17])
        found = [(name, is_there, wanted) for name, is_there, wanted in (
            ("cards", cards, self.asked.cards), ("a capacity of", capacity, self.asked.capacity),
            ("the first table", header[17:49].hex(), self.digest.hex())) if is_there != wanted]
        return [f"{self.journal} is there, and has {name} {is_there}, not {wanted}" for name, is_there, wanted in found]

    def stage(self, staged: pathlib.Path) -> None:
        """Makes the tables and the journal in a folder beside their places. All that `serve` refuses is told here."""
        for name, content in self.tables.items():
            (staged / name).write_bytes(content)
            self.owner.take(staged / name, 0o640)
            serving.sync(staged / name)
        words = self.words.copy()
        words.options["--listen"], words.flags = "127.0.0.1:0", []
        with serving.Started([self.program, "serve", *words.arguments()], cwd=staged, **self.owner.start):
            pass
        with open(staged / JOURNAL, "r+b") as file:
            os.posix_fallocate(file.fileno(), 0, layout.HEADER + layout.SLOT * self.asked.capacity + 1)
            os.fsync(file.fileno())

    def put(self) -> None:
        """Makes what is missing, the journal last."""
        made = self.owner.make(self.folder)
        held = os.open(self.folder, os.O_RDONLY)
        try:
            fcntl.flock(held, fcntl.LOCK_EX | fcntl.LOCK_NB)
        except BlockingIOError:
            raise Wrong(f"{self.folder}: another run sets it up") from None
        staged = self.folder / ".setup"
        try:
            shutil.rmtree(staged, ignore_errors=True)
            self.owner.make(staged)
            self.stage(staged)
            self.move(staged)
        finally:
            shutil.rmtree(staged, ignore_errors=True)
            os.close(held)
            if made and not any(self.folder.iterdir()):
                self.folder.rmdir()

    def move(self, staged: pathlib.Path) -> None:
        """Puts what is missing in its place."""
        for name in self.tables:
            if not (self.folder / name).exists():
                os.replace(staged / name, self.folder / name)
        serving.sync(self.folder)
        self.config.parent.mkdir(parents=True, exist_ok=True)
        before = settings.text_of(self.config) if self.config.exists() else None
        serving.write(self.config, settings.written(self.words, before))
        if not (self.journal.exists() and self.journal.stat().st_size):
            os.replace(staged / JOURNAL, self.journal)
        serving.sync(self.folder)

    def tell(self) -> None:
        """Tells what there is, and what may be amiss."""
        print(f"config   {self.config}: {self.words}")
        size, wanted = self.journal.stat().st_size, layout.HEADER + layout.SLOT * self.asked.capacity + 1
        print(f"journal  {self.journal}: {self.asked.cards} cards, room for {self.asked.capacity} touches, "
              f"{size} bytes")
        if size < wanted:
            print(f"note     its whole size would be {wanted} bytes: OPERATING.md, \"Room on the disk\"")

    @staticmethod
    def reach(host: str) -> str:
        """Who reaches an address, in words."""
        if host == "localhost" or host.startswith("127.") or host == "::1":
            return (": only programs on this machine reach it, as HAProxy and stunnel do. Gates need an address of this "
                    "machine")
        return ": at each address of this machine" if host in ("0.0.0.0", "::") else ""

    def next(self) -> None:
        """Tells what is to be done now."""
        unit = f"bovtrila@{self.asked.name}" if self.asked.name else "bovtrila"
        by_hand = f"bovtrila-start --config {self.config} --folder {self.folder}"
        is_of_unit = self.config == serving.config_of(None, self.asked.name)
        begin = f"systemctl enable --now {unit}" if is_of_unit and shutil.which("systemctl") else by_hand
        host, _ = wire.address(self.asked.listen)
        print(f"listens  {self.asked.listen}, once it is started{self.reach(host)}")
        name = f" --name {self.asked.name}" if self.asked.name else ""
        look = name if is_of_unit else f" --config {self.config} --folder {self.folder}"
        print(f"next     {begin}\n         bovtrila-status{look}")
        error = self.bound()
        if error is not None:
            print(f"note     {self.asked.listen}: {error.strerror or error}; the server isn't started as long as this "
                  "holds")


def main() -> None:
    asked = options()
    try:
        station = Station(asked)
        missing, otherwise = station.look()
        if otherwise:
            sys.exit("".join(f"setup: {line}\n" for line in otherwise) + "setup: nothing was changed")
        station.check_address()
        station.check()
        if missing:
            station.put()
        station.tell()
        print("made     " + ", ".join(map(str, missing)) if missing else "made     nothing: all of it is there already")
        station.next()
    except Wrong as wrong:
        sys.exit(f"setup: {wrong}\nsetup: nothing was changed")
    except OSError as error:
        sys.exit(f"setup: {error.filename or asked.folder}: {error.strerror}")
