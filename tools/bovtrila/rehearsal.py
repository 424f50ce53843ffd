# SPDX-License-Identifier: Apache-2.0
"""A server that is tried before it serves: with its arguments as they are, but on a copy of its journal and on a free
port. The server that runs isn't touched. For bovtrila-start and bovtrila-new-fares.
"""
import contextlib
import ipaddress
import os
import pathlib
import shutil
import socket
import tempfile
from collections.abc import Iterator, Mapping

from bovtrila import serving, settings, wire
from bovtrila.wire import Wrong


@contextlib.contextmanager
def rehearsed(program: str, words: settings.Words, folder: pathlib.Path, owner: serving.Owner,
              tables: Mapping[str, pathlib.Path] | None = None) -> Iterator[serving.Started]:
    """A server by these arguments, as its owner, while the block runs: `serving.Started`, and the folder of its copy.

    `tables` names files that aren't in the server's folder yet, by the names that they will have there. What the server
    refuses is raised, by the names of the server's own files.
    """
    room = pathlib.Path(tempfile.mkdtemp(prefix="bovtrila-rehearsal-"))
    try:
        owner.take(room, 0o700)
        journal, tried = folder / words["journal"], words.copy()
        copied = room / journal.name
        if journal.exists():
            copy(journal, copied, owner)
        tried.options.update({"--journal": str(copied), "--listen": "127.0.0.1:0"})
        tried.flags = [flag for flag in words.flags if flag in ("--strict", "--proxy")]
        for name, path in (tables or {}).items():
            shutil.copyfile(path, room / name)
            owner.take(room / name, 0o640)
            tried.revised = [str(room / name) if one == name else one for one in tried.revised]
        try:
            server = serving.Started([program, "serve", *tried.arguments()], cwd=folder, **owner.start)
        except Wrong as wrong:
            raise Wrong(str(wrong).replace(str(copied), words["journal"]).replace(f"{room}/", "")) from None
        with server:
            yield server
    finally:
        shutil.rmtree(room, ignore_errors=True)


def copy(journal: pathlib.Path, copied: pathlib.Path, owner: serving.Owner) -> None:
    """Copies a journal, as it is while a server may write it; what is zeros takes no room."""
    status, _, err = serving.run(["cp", "--sparse=always", journal, copied])
    if status:
        raise Wrong(f"{journal}: it can't be copied, to be tried: {err.strip()}")
    owner.take(copied, 0o640)


@contextlib.contextmanager
def acting(owner: serving.Owner) -> Iterator[None]:
    """What is done as the owner, where root starts this."""
    if owner.ids:
        os.seteuid(owner.ids[0])
    try:
        yield
    finally:
        if owner.ids:
            os.seteuid(0)


def address_fault(words: settings.Words, journal: pathlib.Path, owner: serving.Owner) -> str | None:
    """Why the server can't listen at its address, or nothing. Its own running server may listen there."""
    host, port = wire.address(words["listen"])
    if "--proxy" in words.flags and not is_loopback(host):
        return "with `proxy = yes` it has to be an address of this machine alone, as 127.0.0.1:4014"
    try:
        with acting(owner), socket.socket(socket.AF_INET6 if ":" in host else socket.AF_INET) as tried:
            tried.setsockopt(socket.SOL_SOCKET, socket.SO_REUSEADDR, 1)
            tried.bind((host, port))
            tried.listen()
    except OSError as error:
        if error.errno == 98 and journal.exists() and serving.has_server(journal):
            return None
        return error.strerror or str(error)
    return None


def is_loopback(host: str) -> bool:
    """Whether this is an address that only programs of this machine reach."""
    try:
        return ipaddress.ip_address(host).is_loopback
    except ValueError:
        return False


def place_of(text: str, said: str, words: settings.Words) -> int:
    """The line of the settings that a fault of a server is about, as far as its second line names a file of theirs."""
    for name, values in ((name, words.values(name)) for name in ("table", "journal", "door", settings.REVISED)):
        for value in values:
            if f"  {value}: " in said:
                return settings.line_of(text, name, value)
    return 0


def check(program: str, config: pathlib.Path, folder: pathlib.Path, owner: serving.Owner) -> settings.Words:
    """Tries the settings of a server without serving: its arguments, once all of it is as it has to be. Raises what
    isn't, with its place."""
    words, text = settings.words_of(config), settings.text_of(config)
    if not folder.is_dir():
        raise Wrong(f"{folder}: there is no such folder; bovtrila-setup makes it")
    try:
        with rehearsed(program, words, folder, owner):
            pass
    except Wrong as wrong:
        place = place_of(text, str(wrong), words)
        raise Wrong(f"{config}: {f'line {place}: ' if place else ''}the server refuses these settings:\n"
                    f"{wrong}") from None
    fault = address_fault(words, folder / words["journal"], owner)
    if fault:
        place = settings.line_of(text, "listen")
        raise Wrong(f"{config}: {f'line {place}: ' if place else ''}listen: {words['listen']}: {fault}")
    return words
