"""Runs of the commands of a network that are measured, and what they leave in PostgreSQL: for scripts/dev/measure-network and
scripts/dev/measure-fleet."""
import os
import pathlib
import subprocess
import sys
import time
from collections.abc import Collection, Sequence
from typing import IO

import postgres
from bovtrila import layout

# What stands before each command that is measured.
BEFORE: list[str] = []


class Run:
    """A command: its seconds, and those of the processors for it and for all that it started. Where it writes into a
    database, those of the database count too."""

    def __init__(self, words: Sequence[object], output: int | IO[bytes] = subprocess.DEVNULL,
                 cluster: postgres.Cluster | None = None, sound: Collection[int] = (0,)) -> None:
        before, start = spent(cluster), time.monotonic()
        with subprocess.Popen([str(word) for word in (*BEFORE, *words)], stdout=output,
                              stderr=subprocess.DEVNULL) as process:
            _, status, used = os.wait4(process.pid, 0)
            process.returncode = os.waitstatus_to_exitcode(status)
        self.seconds = time.monotonic() - start
        self.memory = used.ru_maxrss / 1024
        if process.returncode not in sound:
            sys.exit(f"measuring: {' '.join(map(str, words))} ended with status {process.returncode}")
        self.work = used.ru_utime + used.ru_stime + spent(cluster) - before

    def __str__(self) -> str:
        return f"{self.seconds:.1f} | {self.work:.1f}"


def spent(cluster: postgres.Cluster | None) -> float:
    """The processors' seconds for a PostgreSQL so far, and for its connections that have ended."""
    if cluster is None:
        return 0
    # Until the last connection has ended.
    time.sleep(0.5)
    fields = pathlib.Path(f"/proc/{cluster.process.pid}/stat").read_text().rpartition(")")[2].split()
    return sum(map(int, fields[11:15])) / os.sysconf("SC_CLK_TCK")


def beginning(journal: pathlib.Path, count: int, path: pathlib.Path) -> pathlib.Path:
    """The journal of the first touches of another."""
    with open(journal, "rb") as file:
        path.write_bytes(file.read(layout.HEADER + layout.SLOT * count) + b"\0")
    return path


def sizes(base: str, table: str) -> tuple[float, float]:
    """The bytes of a row of a table in PostgreSQL, and of its entries in the indexes, over all months."""
    asked = (f"select sum(pg_relation_size(relid)), sum(pg_indexes_size(relid)), (select count(*) from bovtrila.{table})"
             f" from pg_partition_tree('bovtrila.{table}') where isleaf")
    folder = postgres.programs()
    assert folder, "the base is one of PostgreSQL"
    said = subprocess.run([folder / "psql", "-At", "-F", " ", "-c", asked, base], check=True, text=True,
                          stdout=subprocess.PIPE).stdout
    of_rows, of_indexes, count = map(int, said.split())
    return of_rows / count, of_indexes / count
