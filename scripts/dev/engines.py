"""Servers that store touches in PostgreSQL, Redis and SQLite (bench/engine_server.c), and the engines that they need: for
scripts/dev/measure-flushes."""
from __future__ import annotations

import pathlib
import shutil
import signal
import socket
import subprocess
import tempfile
import time
from collections.abc import Sequence

import postgres
from harness import free_port
from servers import PATIENCE, Bench, Server

# What bench/engine_server.c is built with: the Debian packages and their libraries.
LIBRARIES = {"libpq-dev": "libpq", "libsqlite3-dev": "sqlite3"}


def why_not() -> str | None:
    """Why the engines can't be measured here, or None."""
    if why := postgres.why_not():
        return why
    for program, package in (("redis-server", "redis-server"), ("pkg-config", "pkg-config")):
        if not shutil.which(program):
            return f"{program} isn't here (apt-get install {package})"
    for package, name in LIBRARIES.items():
        if subprocess.run(["pkg-config", "--exists", name]).returncode != 0:
            return f"{name} has no header here (apt-get install {package})"
    return None


def build(bench: Bench) -> None:
    """Builds the server that stores touches in an engine."""
    said = subprocess.run(["pkg-config", "--cflags", "--libs", *LIBRARIES.values()], check=True, text=True,
                          stdout=subprocess.PIPE).stdout
    bench.build("engine_server", *said.split())


class Redis:
    """A running Redis with a folder of its own. Each command is flushed before it is answered, and its file isn't written
    anew meanwhile."""

    def __init__(self, below: pathlib.Path, before: Sequence[str]) -> None:
        self.folder, self.port = tempfile.mkdtemp(prefix="redis-", dir=below), free_port()
        words: list[str | int] = ["redis-server", "--port", self.port, "--bind", "127.0.0.1", "--dir", self.folder, "--appendonly", "yes",
                                  "--appendfsync", "always", "--auto-aof-rewrite-percentage", 0, "--save", ""]
        self.process = subprocess.Popen([str(word) for word in (*before, *words)], stdin=subprocess.DEVNULL,
                                        stdout=subprocess.DEVNULL, start_new_session=True)
        limit = time.monotonic() + PATIENCE
        while True:
            try:
                socket.create_connection(("127.0.0.1", self.port), PATIENCE).close()
                return
            except OSError:
                if self.process.poll() is not None or time.monotonic() > limit:
                    raise RuntimeError("redis-server takes no connection") from None
                time.sleep(0.05)

    def stop(self) -> None:
        self.process.send_signal(signal.SIGTERM)
        try:
            self.process.wait(PATIENCE)
        except subprocess.TimeoutExpired:
            self.process.kill()
            self.process.wait()
        shutil.rmtree(self.folder)


class Engines:
    """PostgreSQL and Redis with their files below a folder, as long as it is entered, and a file for SQLite there."""

    def __init__(self, bench: Bench, below: pathlib.Path, before: Sequence[str]) -> None:
        self.bench, self.below, self.before = bench, below, before
        self.running: list[postgres.Cluster | Redis] = []
        # By engine, what its client is given: a connection string, a port or a file.
        self.places: dict[str, str | int | pathlib.Path] = {}

    def __enter__(self) -> Engines:
        # Debian's settings have synchronous_commit=on and fsync=on.
        cluster = postgres.Cluster(self.below, [*self.bench.before, *self.before])
        self.running.append(cluster)
        redis = Redis(self.below, [*self.bench.before, *self.before])
        self.running.append(redis)
        self.places = {"postgresql": cluster.database("measured"), "redis": redis.port, "sqlite": self.below / "touches.db"}
        return self

    def __exit__(self, *_: object) -> None:
        for each in self.running:
            each.stop()

    def server(self, name: str, connections: int) -> Server:
        """Starts a server for so many connections that stores touches in the engine of this name, which has none yet."""
        words: list[object] = [self.bench.folder / "engine_server", name, self.places[name], connections, 2]
        return Server([*self.bench.before, *self.before, *words])
