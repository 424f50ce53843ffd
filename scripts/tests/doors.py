"""A real stunnel or HAProxy in front of a server, the authority that lets gates in, and a relay that counts what comes
through: for the scripts that connect through TLS.
"""
import contextlib
import os
import pathlib
import re
import shutil
import signal
import socket
import subprocess
import threading
import time
from collections.abc import Iterable
from typing import TypeAlias

from harness import TIME, TOP, free_port, until
from bovtrila.commands.authority import CONFIG
from listening import Door

# An argument of a script, and what is in the place of a text of a configuration.
Word: TypeAlias = str | int | pathlib.Path
Change: TypeAlias = tuple[str, Word]

AUTHORITY, STUNNEL = TOP / "bin" / "bovtrila-authority", TOP / "packaging" / "stunnel"
HAPROXY = TOP / "packaging" / "haproxy"


def authority(*words: Word) -> tuple[int, str, str]:
    """Runs bovtrila-authority: status, standard output and standard error."""
    done = subprocess.run([str(word) for word in (AUTHORITY, *words)], capture_output=True, text=True, timeout=TIME)
    if "Traceback" in done.stderr:
        raise AssertionError(done.stderr)
    return done.returncode, done.stdout, done.stderr


def signed(tls: pathlib.Path, name: str, kind: str, *dates: str) -> None:
    """A certificate of the authority that is made by openssl itself, in the folder of the gates, of a kind and with a first
    and a last moment that bovtrila-authority doesn't make."""
    config, asked, path = tls / "config", tls / "asked", tls / "gates" / f"{name}.pem"
    config.write_text(CONFIG.format(folder=tls, names="IP:127.0.0.1"))
    openssl("genpkey", "-algorithm", "EC", "-pkeyopt", "ec_paramgen_curve:P-256", "-out", path.with_suffix(".key"))
    openssl("req", "-new", "-config", config, "-key", path.with_suffix(".key"), "-subj", f"/CN={name}", "-out", asked)
    openssl("ca", "-batch", "-notext", "-config", config, "-extensions", kind, *dates, "-in", asked, "-out", path)


def signed_by_itself(tls: pathlib.Path, name: str, title: str) -> None:
    """A certificate that no authority has signed, in the folder of the gates, for a gate of this title."""
    path = tls / "gates" / f"{name}.pem"
    openssl("req", "-x509", "-new", "-newkey", "ec", "-pkeyopt", "ec_paramgen_curve:P-256", "-nodes", "-days", "30",
            "-subj", f"/CN={title}", "-keyout", path.with_suffix(".key"), "-out", path)


def openssl(*words: Word) -> None:
    subprocess.run(["openssl", *map(str, words)], check=True, capture_output=True)


class Relay:
    """Passes connections on to a server, and counts them and the bytes towards it."""

    def __init__(self, server: tuple[str, int]) -> None:
        self.server, self.connections, self.bytes = server, 0, 0
        self.door = Door(self.pass_on)
        self.port = self.door.port

    def pass_on(self, gate: socket.socket) -> None:
        self.connections += 1
        server = socket.create_connection(self.server, TIME)
        for end, other in ((gate, server), (server, gate)):
            end.setsockopt(socket.IPPROTO_TCP, socket.TCP_NODELAY, 1)
            threading.Thread(target=self.carry, args=(end, other, end is gate), daemon=True).start()

    def carry(self, end: socket.socket, other: socket.socket, counts: bool) -> None:
        try:
            while data := end.recv(65536):
                self.bytes += len(data) if counts else 0
                other.sendall(data)
            other.shutdown(socket.SHUT_WR)
        except OSError:
            # Closing alone wakes no thread that reads the socket, and the other end would notice nothing.
            for one in (end, other):
                with contextlib.suppress(OSError):
                    one.shutdown(socket.SHUT_RDWR)
                one.close()


def changes(tls: pathlib.Path, server: int, host: str = "127.0.0.1") -> tuple[Change, ...]:
    """What is otherwise in the configuration of a test's stunnel: where the authority's files lie, a free port of its
    own, and the server's port."""
    return (("/etc/bovtrila/tls", tls), ("accept = :::4015", f"accept = {host}:{free_port()}"),
            ("127.0.0.1:4014", f"127.0.0.1:{server}"))


def listeners(port: int) -> set[str]:
    """The sockets that listen on a port, by their numbers in the system's lists. No connection is made."""
    lists = [path for path in (pathlib.Path("/proc/net/tcp"), pathlib.Path("/proc/net/tcp6")) if path.exists()]
    rows = [line.split() for path in lists for line in path.read_text().splitlines()[1:]]
    # Behind the row's number are the address, the other end's and the state, which is 0A of one that listens.
    return {row[9] for row in rows if row[1].endswith(f":{port:04X}") and row[3] == "0A"}


class Stunnel:
    """A running stunnel by one of the configurations of packaging/stunnel, with other paths and ports."""

    def __init__(self, folder: pathlib.Path, name: str, changes: Iterable[Change]) -> None:
        text = (STUNNEL / name).read_text()
        for was, other in changes:
            if was not in text:
                raise AssertionError(f"{name} has no {was}")
            text = text.replace(was, str(other))
        config = folder / f"{name}-{free_port()}"
        config.write_text(text)
        self.port = int(re.findall(r"^accept = (?:\S+:)?(\d+)$", text, re.M)[0])
        self.log = folder / f"{config.name}.log"
        with open(self.log, "wb") as log:
            self.process = subprocess.Popen(["stunnel4", config], stdin=subprocess.DEVNULL, stdout=log, stderr=log)
        limit = time.monotonic() + TIME
        while "Configuration successful" not in self.log.read_text() and time.monotonic() < limit:
            if self.process.poll() is not None:
                raise AssertionError(self.log.read_text())
            time.sleep(0.02)

    def reload(self) -> None:
        """Returns once it listens with the new configuration. It reports that it has read it, and only then closes the
        socket that listened and makes another one."""
        before = listeners(self.port)
        self.process.send_signal(signal.SIGHUP)
        if not until(lambda: listeners(self.port) - before):
            raise AssertionError(self.log.read_text())

    def end(self) -> None:
        self.process.kill()
        self.process.wait(TIME)


class Haproxy:
    """A running HAProxy by packaging/haproxy/bovtrila.cfg, with other values in its first lines."""

    def __init__(self, folder: pathlib.Path, tls: pathlib.Path, server: int, **values: Word) -> None:
        self.port, self.run = free_port(), folder / f"haproxy-{free_port()}"
        self.run.mkdir()
        self.config, self.log = self.run / "haproxy.cfg", self.run / "log"
        # As docs/operate/OPERATING.md installs it.
        shutil.copy(tls / "server.key", tls / "server.pem.key")
        text = (HAPROXY / "bovtrila.cfg").read_text()
        for name, value in {"LISTEN": f"127.0.0.1:{self.port}", "SERVER": f"127.0.0.1:{server}", "TLS": tls,
                            "SHARE": HAPROXY, "RUN": self.run, **values}.items():
            text, count = re.subn(rf"^(    setenv {name}) .*$", rf"\1 {value}", text, flags=re.M)
            if count != 1:
                raise AssertionError(f"bovtrila.cfg has {count} lines of {name}")
        self.config.write_text(text)
        with open(self.log, "wb") as log:
            self.process = subprocess.Popen(["haproxy", "-W", "-f", self.config], stdin=subprocess.DEVNULL, stdout=log,
                                            stderr=log, start_new_session=True)
        limit = time.monotonic() + TIME
        while not self.told("Loading success"):
            if self.process.poll() is not None or time.monotonic() > limit:
                raise AssertionError(self.log.read_text())
            time.sleep(0.02)

    def reload(self) -> None:
        """Returns once the process from before the reload takes no connection any more. Until then it goes by the files
        that it read at its start."""
        before = {text: self.told(text) for text in ("Loading success", "Proxy gates stopped")}
        self.begin_reload()
        if not until(lambda: all(self.told(text) > count for text, count in before.items())):
            raise AssertionError(self.log.read_text())

    def begin_reload(self) -> None:
        """Returns once it reads its configuration again, which it may refuse."""
        count, limit = self.told("Reloading HAProxy"), time.monotonic() + TIME
        # Shortly after its start HAProxy ignores the signal.
        while self.told("Reloading HAProxy") == count:
            if time.monotonic() > limit:
                raise AssertionError(self.log.read_text())
            self.process.send_signal(signal.SIGUSR2)
            until(lambda: self.told("Reloading HAProxy") > count, 5)

    def told(self, text: str) -> int:
        """How often its log has this text."""
        return self.log.read_text().count(text)

    def shown(self, command: str) -> str:
        """What the socket for the status answers. By itself socat waits half a second for it."""
        done = subprocess.run(["socat", "-t", str(TIME), "-", self.run / "status"], input=f"{command}\n", check=True,
                              capture_output=True, text=True, timeout=TIME)
        return done.stdout

    def end(self) -> None:
        """Ends its processes, those from before a reload as well."""
        try:
            os.killpg(self.process.pid, signal.SIGKILL)
        except ProcessLookupError:
            pass
        self.process.wait(TIME)
