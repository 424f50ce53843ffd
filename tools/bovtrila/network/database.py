# SPDX-License-Identifier: Apache-2.0
"""The two databases that a network's touches are stored in: PostgreSQL, by a URL or a connection string of libpq, and
SQLite, by its file's name.

Both take one text of SQL (network/schema.sql, network/queries.sql), with parameters as `:name`. This module has what they
don't share: how they are connected to, how a load holds off another, and how rows are copied.
"""
import abc
import csv
import pathlib
import re
import sqlite3
import tempfile
from collections.abc import Callable, Iterable, Iterator, Mapping, Sequence
from typing import IO, ClassVar

try:
    import psycopg2 as psycopg2
    from psycopg2 import extensions
except ImportError:
    # SQLite needs nothing but Python.
    psycopg2 = None  # type: ignore[assignment]  # For mypy an imported name is always a module.

from bovtrila import places
from bovtrila.network.fields import Cast, Connection, Count, Cursor, Field, Fields, PostgresCursor, Row, Version, made, plain

COLUMNS = ("journal", "place", "moment", "day", "gate", "number", "card", "act", "station_number", "pence", "verdict",
           "change", "balance")
# Under which number PostgreSQL holds off whoever else makes the tables, and how long SQLite waits for another load.
MAKING, PATIENCE = 4014, 3600
# The version of network/schema.sql.
VERSION = 5
# The settings of a connection to PostgreSQL. The tables are in the schema bovtrila; those of an earlier version are in the
# first schema that the user's own path has. PostgreSQL would compile a plan for each month's partition, which takes longer
# than running the plan. The sums by two stations fit into this memory, so that no rows are sorted for them.
SETTINGS = """
SET TIME ZONE 'UTC';
SET jit = off;
SET work_mem = '32MB';
SELECT set_config('search_path', concat_ws(', ', 'bovtrila', nullif(current_setting('search_path'), '')), false);
"""
# How a parameter stands in a statement.
PARAMETER = r"(?<!:):([a-z_]+)"
# How much of the rows is handed to COPY at a time, in characters.
PIECE = 1 << 16
# What a database that was connected to may raise.
ERRORS: tuple[type[Exception], ...] = (sqlite3.Error, psycopg2.Error) if psycopg2 else (sqlite3.Error,)


class Unfit(Exception):
    """The database can't be used. The text says why, and what to do."""


# What a database may raise, also before there is a connection.
FAULTS: tuple[type[Exception], ...] = (Unfit, *ERRORS)


class Database(abc.ABC):
    """A connection, in a transaction that nobody else sees before commit()."""

    # A moment as `history` writes it, in this database's words.
    MOMENT: ClassVar[str]
    connection: Connection

    @abc.abstractmethod
    def execute(self, text: str, /, **values: Field) -> Cursor: ...

    @abc.abstractmethod
    def stream(self, text: str, /, **values: Field) -> tuple[list[str], Iterator[Fields]]: ...

    @abc.abstractmethod
    def has(self, table: str) -> bool: ...

    @abc.abstractmethod
    def begin(self) -> None: ...

    @abc.abstractmethod
    def hold_off(self) -> None: ...

    @abc.abstractmethod
    def alone(self) -> None: ...

    @abc.abstractmethod
    def run_file(self, name: str) -> None: ...

    @abc.abstractmethod
    def lock(self, server: str) -> None: ...

    @abc.abstractmethod
    def make_months(self, days: Iterable[str]) -> None: ...

    @abc.abstractmethod
    def match_months(self) -> None: ...

    @abc.abstractmethod
    def lines(self, text: str) -> Iterator[str]: ...

    @abc.abstractmethod
    def copy(self, lines: Iterable[str], table: str = "touches", columns: Sequence[str] = COLUMNS) -> None: ...

    def commit(self) -> None:
        self.connection.commit()

    def rollback(self) -> None:
        self.connection.rollback()

    def close(self) -> None:
        """Ends the connection; what wasn't committed is undone."""
        self.connection.close()

    def version(self) -> int:
        """The version of the tables, 0 where there are none."""
        if not self.has("journals"):
            return 0
        return self.one(Version, "SELECT version FROM schema_version")["version"] if self.has("schema_version") else 1

    def make_tables(self) -> None:
        """Makes the tables where there are none, and commits them. Whoever finds none at the same time waits."""
        if not self.has("journals"):
            self.alone()
            if not self.has("journals"):
                self.run_file("schema.sql")
                self.run_file("views.sql")
            self.connection.commit()
        self.fit()

    def fit(self) -> None:
        """Refuses tables of another version."""
        version = self.version()
        if version < VERSION:
            raise Unfit(f"the database is of version {version}, and these programs need {VERSION}; migrate it: "
                        "bovtrila-network-migrate --database ..")
        if version > VERSION:
            raise Unfit(f"the database is of version {version}, and these programs know {VERSION}; use newer ones")

    def own(self, text: str) -> str:
        """A text of SQL in the database's own words."""
        return text

    def table(self, text: str, /, **values: Field) -> tuple[list[str], list[Fields]]:
        """The names of the columns of a statement, and its rows."""
        cursor = self.execute(text, **values)
        return [column[0] for column in cursor.description], [tuple(map(plain, row)) for row in cursor.fetchall()]

    def rows(self, kind: Callable[..., Row], text: str, /, **values: Field) -> list[Row]:
        """The rows of a statement, each made by the names of its columns."""
        return [*made(kind, *self.table(text, **values))]

    def row(self, kind: Callable[..., Row], text: str, /, **values: Field) -> Row | None:
        """The one row of a statement, or None."""
        found = self.rows(kind, text, **values)
        return found[0] if found else None

    def one(self, kind: Callable[..., Row], text: str, /, **values: Field) -> Row:
        """The one row of a statement that has one always, as a count has."""
        return self.rows(kind, text, **values)[0]


class Postgres(Database):
    """A database of PostgreSQL."""

    # A moment as `history` writes it.
    MOMENT = """to_char(moment AT TIME ZONE 'UTC', 'YYYY-MM-DD"T"HH24:MI:SS"Z"')"""

    def __init__(self, url: str) -> None:
        if psycopg2 is None:
            raise Unfit("PostgreSQL needs psycopg2: apt-get install python3-psycopg2")
        try:
            self.connection: psycopg2.extensions.connection = psycopg2.connect(url)
        except psycopg2.Error as error:
            # The URL may have a password in it.
            raise Unfit(str(error).strip()) from None
        self.cursor().execute(SETTINGS)
        # A rollback would undo the settings.
        self.connection.commit()

    def cursor(self) -> PostgresCursor:
        return self.connection.cursor()

    def execute(self, text: str, /, **values: Field) -> PostgresCursor:
        cursor = self.cursor()
        cursor.execute(self.marked(text, values), values or None)
        return cursor

    @staticmethod
    def marked(text: str, values: Mapping[str, Field]) -> str:
        """A text with its parameters as psycopg2 marks them. Without values psycopg2 leaves the text as it is."""
        return re.sub(PARAMETER, r"%(\1)s", text.replace("%", "%%")) if values else text

    def stream(self, text: str, /, **values: Field) -> tuple[list[str], Iterator[Fields]]:
        """The names of the columns of a SELECT, and its rows one by one. The rows come by COPY, for which PostgreSQL uses
        several processes; for a cursor that returns its rows in parts it uses one."""
        text = text.rstrip().removesuffix(";")
        cursor = self.execute(f"SELECT * FROM (\n{text}\n) AS answer LIMIT 0", **values)
        names = [column.name for column in cursor.description]
        casts = [extensions.string_types.get(column.type_code, extensions.UNICODE) for column in cursor.description]
        file = self.copied(cursor.mogrify(self.marked(text, values), values or None).decode())
        return names, self.typed(file, casts, cursor)

    @staticmethod
    def typed(file: IO[str], casts: Sequence[Cast], cursor: PostgresCursor) -> Iterator[Fields]:
        """The rows of a file of comma-separated values, each field as psycopg2 reads its type. An empty field is NULL: no
        column of the database has empty text."""
        with file:
            for row in csv.reader(file):
                yield tuple(plain(cast(field or None, cursor)) for cast, field in zip(casts, row))

    def has(self, table: str) -> bool:
        # By rows, and not by a name that may be remembered as unknown while another load makes the tables. Another
        # application may have tables of the same names, but no fare tables beside them.
        return self.one(Count, "SELECT count(*) AS found FROM pg_tables WHERE tablename = :table AND schemaname IN"
                        " (SELECT schemaname FROM pg_tables WHERE tablename = 'fare_tables'"
                        "  AND schemaname = ANY (current_schemas(false)))", table=table)["found"] > 0

    def begin(self) -> None:
        """Begins a transaction, which psycopg2 does by itself."""

    def hold_off(self) -> None:
        self.alone()

    def alone(self) -> None:
        """Waits for whoever makes or migrates the tables, and holds off others until the transaction's end."""
        self.execute("SELECT pg_advisory_xact_lock(:key)", key=MAKING)

    def run_file(self, name: str) -> None:
        self.cursor().execute((places.NETWORK / name).read_text())

    def lock(self, server: str) -> None:
        """Waits for a load of the same server, and holds off the next one until the connection's end."""
        self.execute("SELECT pg_advisory_lock(:key, hashtext(:server))", key=MAKING, server=server)
        self.connection.commit()

    def make_months(self, days: Iterable[str]) -> None:
        """Makes the partitions of these days' months, and commits them: a load that made them as it goes on would hold up
        the others."""
        for day in days:
            self.execute("SELECT make_month(:day)", day=day)
        self.connection.commit()

    def lines(self, text: str) -> Iterator[str]:
        """What a SELECT gives, as lines of comma-separated values. All of it is read at once, so that other statements can
        run while the lines are taken."""
        return self.each_of(self.copied(text))

    @staticmethod
    def each_of(file: IO[str]) -> Iterator[str]:
        with file:
            yield from file

    def copied(self, text: str) -> IO[str]:
        """The rows of a SELECT in a file that has no name, as COPY writes them. The memory doesn't grow with the rows."""
        try:
            file = tempfile.TemporaryFile("w+", encoding="utf-8", newline="")
            self.cursor().copy_expert(f"COPY (\n{text}\n) TO STDOUT (FORMAT csv)", file)
            file.seek(0)
        except OSError as error:
            raise Unfit(f"{tempfile.gettempdir()}: {error.strerror}; the answer is stored there: make space, or name another"
                        " folder by TMPDIR") from None
        return file

    def match_months(self) -> None:
        """Makes the partition of `journeys` for each month that has one of `touches`."""
        self.execute("SELECT make_month(to_date(right(relid::text, 7), 'YYYY_MM')) FROM pg_partition_tree('touches')"
                     " WHERE isleaf AND relid::text ~ '[0-9]{4}_[0-9]{2}$'")

    def copy(self, lines: Iterable[str], table: str = "touches", columns: Sequence[str] = COLUMNS) -> None:
        """Copies rows into a table, each a line of comma-separated values."""
        text = f"COPY {table} ({', '.join(columns)}) FROM STDIN (FORMAT csv)"
        self.cursor().copy_expert(text, Pieces(lines))


class Pieces:
    """Lines as a file that is read piece by piece."""

    def __init__(self, lines: Iterable[str]) -> None:
        self.lines, self.rest = iter(lines), ""

    def read(self, size: int = PIECE) -> str:
        parts, length = [self.rest], len(self.rest)
        while length < size and (line := next(self.lines, None)) is not None:
            parts.append(line)
            length += len(line)
        text = "".join(parts)
        self.rest = text[size:]
        return text[:size]


class Sqlite(Database):
    """A database of SQLite, in one file."""

    MOMENT = "moment"

    def __init__(self, path: str | pathlib.Path) -> None:
        try:
            # Transactions begin and end by what is written here alone.
            self.connection: sqlite3.Connection = sqlite3.connect(path, timeout=PATIENCE, isolation_level=None)
            self.execute("PRAGMA foreign_keys = ON")
        except sqlite3.Error as error:
            raise Unfit(f"{path}: {error}; name a file that can be written, or a URL postgresql://..") from None

    def execute(self, text: str, /, **values: Field) -> sqlite3.Cursor:
        return self.connection.execute(text, values)

    def stream(self, text: str, /, **values: Field) -> tuple[list[str], Iterator[Fields]]:
        """The names of the columns of a SELECT, and its rows one by one."""
        cursor = self.execute(text, **values)
        return [column[0] for column in cursor.description], (tuple(map(plain, row)) for row in cursor)

    def has(self, table: str) -> bool:
        return self.one(Count, "SELECT count(*) AS found FROM sqlite_master WHERE name = :table", table=table)["found"] == 1

    def begin(self) -> None:
        self.execute("BEGIN IMMEDIATE")

    def hold_off(self) -> None:
        """The transaction holds off every other writer."""

    def alone(self) -> None:
        """Begins the transaction of a writer: SQLite has one at a time. Whoever reads goes on meanwhile."""
        self.execute("PRAGMA journal_mode = WAL")
        self.execute("BEGIN IMMEDIATE")

    def run_file(self, name: str) -> None:
        for statement in statements(of_sqlite((places.NETWORK / name).read_text())):
            self.execute(statement)

    def own(self, text: str) -> str:
        return of_sqlite(text)

    def lock(self, server: str) -> None:
        """Holds off every other load until the transaction's end."""
        self.alone()

    def make_months(self, days: Iterable[str]) -> None:
        """SQLite has no partitions."""

    def match_months(self) -> None:
        """SQLite has no partitions."""

    def lines(self, text: str) -> Iterator[str]:
        """What a SELECT gives, as lines of comma-separated values."""
        for row in self.execute(text):
            yield ",".join("" if field is None else str(field) for field in row) + "\n"

    def copy(self, lines: Iterable[str], table: str = "touches", columns: Sequence[str] = COLUMNS) -> None:
        text = f"INSERT INTO {table} ({', '.join(columns)}) VALUES ({', '.join('?' * len(columns))})"
        self.connection.executemany(text, ([field or None for field in row] for row in csv.reader(lines)))


def of_sqlite(text: str) -> str:
    """The SQL of SQLite, from that of PostgreSQL and the comments between."""
    text = re.sub(r"/\*pg\*/.*?/\*end\*/", "", text, flags=re.S)
    return re.sub(r"/\*sqlite(.*?)\*/", r"\1", text, flags=re.S)


def statements(text: str) -> Iterator[str]:
    """The statements of a text of SQL."""
    part = ""
    for line in text.splitlines(keepends=True):
        part += line
        if sqlite3.complete_statement(part):
            yield part
            part = ""


def is_postgres(name: str) -> bool:
    """Whether a database's name is a URL of PostgreSQL, or a connection string as service=NAME. Another one is a file's."""
    return re.match(r"postgres(ql)?://|\s*[a-z_]+\s*=", name) is not None


def connect(name: str) -> Database:
    """The database of this name: a URL or a connection string of PostgreSQL, or SQLite's file."""
    if is_postgres(name):
        return Postgres(name)
    path = pathlib.Path(name)
    if path.exists() and not path.is_file():
        # In the words of FAULTS.md, "The second line".
        raise Unfit(f"{name}: {'is a folder' if path.is_dir() else 'is a device or a pipe'}; name SQLite's file, or a URL"
                    " postgresql://..")
    return Sqlite(name)


def existing(name: str) -> Database:
    """The same, which has to be there."""
    if not is_postgres(name) and not pathlib.Path(name).exists():
        raise Unfit(f"{name}: no such file; bovtrila-network-load makes it, or name the database by --database")
    return connect(name)


def reading(name: str) -> Database:
    """The same, to be asked alone: with its tables, of this version."""
    database = existing(name)
    if not database.has("journals"):
        raise Unfit(f"{name}: nothing was loaded there yet (bovtrila-network-load)")
    database.fit()
    return database
