# SPDX-License-Identifier: Apache-2.0
"""Where the tasks of an audit run: in a pool of this machine, or on the workers of a Dask scheduler.

A task waits for the program, which is a process of its own. So a pool of threads uses all processors of a machine, and
opens no port. Dask is needed for several machines alone.
"""
import concurrent.futures
import contextlib
import logging
import os
import sys
from collections.abc import Mapping
from typing import Protocol, TypeAlias

from bovtrila.network import commands

# What Dask's configuration has to name for an address tls://..
CERTIFICATES = ("ca-file", "client.cert", "client.key")

# The arguments of commands.audited, and what it found, by the servers.
Arguments: TypeAlias = tuple[str, str, commands.Tables, str, Mapping[str, list[commands.Seal]]]
Tasks: TypeAlias = Mapping[str, Arguments]
Findings: TypeAlias = dict[str, commands.Finding]


class Future(Protocol):
    """What is used of a task that was given to Dask, which names no types."""

    def exception(self) -> Exception | None: ...

    def result(self) -> commands.Finding: ...


def in_pool(tasks: Tasks, count: int | None) -> Findings:
    """The results of tasks, each the arguments of commands.audited, on so many threads; one for each processor by itself."""
    found = {}
    with concurrent.futures.ThreadPoolExecutor(count or os.cpu_count()) as pool:
        futures = {pool.submit(commands.audited, *arguments): name for name, arguments in tasks.items()}
        for future in concurrent.futures.as_completed(futures):
            found[futures[future]] = future.result()
            print(f"\raudited {len(found)} of {len(tasks)} journals", end="", file=sys.stderr, flush=True)
    print(file=sys.stderr)
    return {name: found[name] for name in tasks}


def on_scheduler(tasks: Tasks, address: str, patience: int) -> Findings:
    """The same on the workers of a scheduler that runs. The certificates of an address tls://.. are those of Dask's
    configuration."""
    import dask
    import distributed
    if address.startswith("tls://") and not all(dask.config.get(f"distributed.comm.tls.{name}") for name in CERTIFICATES):
        raise ConnectionError(f"{address} needs certificates in Dask's configuration (NETWORK.md, \"Auditing "
                              "on several machines\")")
    # Tasks take this module along, since a worker elsewhere hasn't this folder.
    distributed.protocol.pickle.cloudpickle.register_pickle_by_value(commands)
    with distributed.Client(address, timeout=patience) as client:
        logging.getLogger("distributed").setLevel(logging.CRITICAL)
        futures: dict[str, Future] = {name: client.submit(commands.audited, *arguments, pure=False)
                                      for name, arguments in tasks.items()}
        with contextlib.redirect_stdout(sys.stderr):
            distributed.progress(list(futures.values()), notebook=False)
            print()
        # The display ends with the first lost task, while others still run and may cost further workers their life.
        distributed.wait([*futures.values()])
        # Where several workers died, Dask gives up all that waited on them: so each of those is asked for again, by itself.
        # What it finds is fetched at once: a worker holds it, and a task behind it may cost that worker its life.
        found: Findings = {}
        for name in tasks:
            future = futures.pop(name)
            if isinstance(future.exception(), distributed.KilledWorker):
                future = client.submit(commands.audited, *tasks[name], pure=False)
            found[name] = result_of(future)
        return found


def result_of(future: Future) -> commands.Finding:
    """What a task found, or how it was lost."""
    error = future.exception()
    return future.result() if error is None else {"fault": f"its task was lost: {type(error).__name__}: {error}"}
