"""What the tests of a network's commands share: the six servers' journals, the two databases, and how the commands
are run."""
import contextlib
import functools
import pathlib
import shutil
import subprocess
import tempfile
import unittest
from collections.abc import Iterable
from typing import TYPE_CHECKING, Any, ClassVar

import harness
import postgres
import running
import town
from bovtrila.network import database
from harness import BIN, EXAMPLE, PROGRAM, REVISED, TOP

NETWORK = TOP / "network"
# How many seconds a command may take: some start Dask's processes, beside other tests.
TIME = 300
TABLES: list[str | pathlib.Path] = ["--table", EXAMPLE, REVISED]
PYTHON = "/usr/bin/python3"
DAYS = (town.FRIDAY, town.SATURDAY)
AT = town.THURSDAY + 4 * town.DAY
# The server whose journal has a flipped bit, and what is asked of each query.
FLIPPED = "cedar-2"
VALUES = {"first": DAYS[0], "last": DAYS[1], "day_before": town.moment_text(AT - town.DAY)}

# Runs bovtrila-network-load with a call at each step: a statement, each 40 rows of a copy, and both sides of the commit. At
# step WHERE it is killed, or says so and waits for a line.
DRIVER = """
import itertools, os, signal, sys
sys.dont_write_bytecode = True
sys.path.insert(0, {tools!r})
from bovtrila.commands import network_load
from bovtrila.network import database
where, what, sys.argv[:2] = sys.argv[1], sys.argv[2], []
sys.argv[0] = "bovtrila-network-load"
taken = itertools.count(1)

def step(name=None):
    if where in (str(next(taken)), name):
        if what == "kill":
            os.kill(os.getpid(), signal.SIGKILL)
        print("holding", flush=True)
        sys.stdin.readline()

def before(kind, name):
    old = getattr(kind, name)
    def new(self, *words, **values):
        step(name)
        result = old(self, *words, **values)
        if name == "commit":
            step("committed")
        return result
    setattr(kind, name, new)

for kind in (database.Postgres, database.Sqlite):
    before(kind, "execute")
    before(kind, "commit")
    def copy(self, lines, *more, old=kind.copy):
        def stepped():
            for count, line in enumerate(lines):
                if count % 40 == 0:
                    step("copy")
                yield line
        return old(self, stepped(), *more)
    kind.copy = copy

network_load.main()
print("steps", next(taken) - 1)
""".format(tools=str(TOP / "tools"))


def room(prefix: str) -> pathlib.Path:
    """A folder that goes with the tests."""
    folder = pathlib.Path(tempfile.mkdtemp(prefix=prefix, dir=harness.in_memory(2000)))
    harness.AT_END.callback(shutil.rmtree, folder, ignore_errors=True)
    return folder


@functools.cache
def cluster() -> postgres.Cluster:
    made = postgres.Cluster()
    harness.AT_END.callback(made.stop)
    return made


@functools.cache
def network() -> tuple[town.Town, pathlib.Path, list[tuple[str, str, str]]]:
    """The six servers' journals, as they stand after Friday and at the end, with what the servers answered otherwise than
    the model."""
    made, folder = town.Town(), room("network-")
    others: list[tuple[str, str, str]] = []
    for name, server in made.servers.items():
        home = folder / name
        home.mkdir()
        for part, stage in enumerate(("friday", "end")):
            revised = () if name == town.LACKS else [REVISED]
            started = running.Server(home, cards=town.CARDS, revised=revised)
            with started.connect() as gate:
                for frame in server.sent(part):
                    answer = gate.ask(frame)
                    if answer != server.station.answer(frame):
                        others.append((name, frame.hex(), answer.hex()))
            started.end()
            (home / stage).mkdir()
            shutil.copy(started.journal, home / stage / "station.journal")
    flip(folder / FLIPPED / "end" / "station.journal")
    made.fronts[FLIPPED] = made.servers[FLIPPED].fronts[0]
    return made, folder, others


def flip(journal: pathlib.Path, place: int = 30) -> None:
    """Flips the lowest bit of the moment of a touch."""
    content = bytearray(journal.read_bytes())
    content[64 + 64 * place + 16] ^= 1
    journal.write_bytes(content)


def words_of(name: str, stage: str, base: str, *more: object) -> list[str]:
    """The words of bovtrila-network-load for a server's journal."""
    first = 1 + town.CARDS * list(town.SERVERS).index(name)
    journal = network()[1] / name / stage / "station.journal"
    return [str(word) for word in ("--station", town.SERVERS[name], "--server", name, "--first-card", first, "--journal",
                                   journal, "--database", base, "--program", PROGRAM, *more, *TABLES)]


def call(script: str, *words: object, **options: Any) -> subprocess.CompletedProcess[str]:
    """Runs a command bovtrila-network-NAME to its end."""
    return subprocess.run([BIN / f"bovtrila-network-{script}", *map(str, words)], capture_output=True, text=True,
                          timeout=TIME, **options)


def load(name: str, stage: str, base: str, *more: object) -> subprocess.CompletedProcess[str]:
    return call("load", *words_of(name, stage, base, *more))


def driven(where: str | int, what: str, words: Iterable[str], **options: Any) -> subprocess.Popen[str]:
    """bovtrila-network-load with a kill or a hold at a step."""
    return subprocess.Popen([PYTHON, "-c", DRIVER, str(where), what, *words], stdin=subprocess.PIPE,
                            stdout=subprocess.PIPE, stderr=subprocess.PIPE, text=True, **options)


def everything(name: str) -> dict[str, list[tuple[Any, ...]]]:
    """All that a database holds, but for the times of loads: the rows of each table, by its name. Partitions count, and
    tables without rows don't: a load makes them before it begins."""
    with contextlib.closing(database.connect(name)) as base:
        if isinstance(base, database.Postgres):
            tables = base.table("SELECT relname FROM pg_class WHERE relkind IN ('r', 'p')"
                                " AND relnamespace = current_schema()::regnamespace")[1]
        else:
            tables = base.table("SELECT name FROM sqlite_master WHERE type = 'table'")[1]
        found = {}
        for table in sorted(str(name) for name, in tables):
            columns, rows = base.table(f"SELECT * FROM {table}")
            keep = [place for place, column in enumerate(columns) if column != "loaded"]
            found[table] = sorted((tuple(row[place] for place in keep) for row in rows), key=repr)
        return {table: rows for table, rows in found.items() if rows and table != "schema_version"}


class OnPostgres:
    """The database of a test, in PostgreSQL."""

    @classmethod
    def ready(cls) -> None:
        missing = "psycopg2 isn't here (apt-get install python3-psycopg2)"
        why = postgres.why_not() or (missing if database.psycopg2 is None else None)
        if why:
            raise unittest.SkipTest(why)

    @staticmethod
    def fresh(name: str) -> str:
        return cluster().database(name)


class OnSqlite:
    """The database of a test, in SQLite."""

    @classmethod
    def ready(cls) -> None:
        pass

    @staticmethod
    def fresh(name: str) -> str:
        return str(room("network-sqlite-") / f"{name}.db")


class BaseTest(harness.ProgramTest):
    """Tests over one of the two databases."""

    @classmethod
    def ready(cls) -> None:
        """Skips the tests where the database isn't here."""
        raise NotImplementedError

    @staticmethod
    def fresh(name: str) -> str:
        """A new database."""
        raise NotImplementedError

    @classmethod
    def setUpClass(cls) -> None:
        super().setUpClass()
        cls.ready()

    def asked(self, base: str, text: str, **values: Any) -> list[tuple[Any, ...]]:
        with contextlib.closing(database.connect(base)) as opened:
            return opened.table(text, **values)[1]


class DatabaseTest(BaseTest):
    """The same, over the journals of the six servers."""

    town: ClassVar[town.Town]
    folder: ClassVar[pathlib.Path]
    others: ClassVar[list[tuple[str, str, str]]]

    @classmethod
    def setUpClass(cls) -> None:
        super().setUpClass()
        cls.town, cls.folder, cls.others = network()


# Of the classes with tests over both databases only a type checker sees that they are tests.
if TYPE_CHECKING:
    OverBoth = BaseTest
    OverBothWithTown = DatabaseTest
else:
    OverBoth = OverBothWithTown = object
