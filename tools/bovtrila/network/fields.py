# SPDX-License-Identifier: Apache-2.0
"""The fields and rows that the two databases of database.py give, and what their connections and cursors have."""
import datetime
import decimal
from collections.abc import Callable, Iterable, Iterator, Mapping, Sequence
from typing import IO, Any, Literal, Protocol, TypeAlias, TypedDict, TypeVar

# A field of a row as both databases give it, or the value of a parameter; and a row of them.
Field: TypeAlias = int | float | str | bytes | None
Fields: TypeAlias = tuple[Field, ...]
# A field as its database gives it.
Raw: TypeAlias = Field | datetime.date | decimal.Decimal | memoryview
# What a row is made into by the names of its columns: a TypedDict that has these.
Row = TypeVar("Row")
# After which touches of a journal a row of `balances`, `gates` or `last_journeys` is as it is.
Stage: TypeAlias = Literal["loaded", "checked", "detached"]
# A promise that the rows of a journal break: the place of the touch, if there is one, and words.
Breach: TypeAlias = tuple[int | None, str]


class Version(TypedDict):
    """The row of the table `schema_version`."""

    version: int


class Count(TypedDict):
    """A row that counts."""

    found: int


class Connection(Protocol):
    """What the connections to both databases have."""

    def commit(self) -> None: ...

    def rollback(self) -> None: ...

    def close(self) -> None: ...


class Described(Protocol):
    """What a cursor says of a column, whose name comes first."""

    def __getitem__(self, place: int, /) -> Any: ...


class Cursor(Protocol):
    """What the cursors of both databases have."""

    @property
    def description(self) -> Sequence[Described]: ...

    def fetchall(self) -> Sequence[Sequence[Raw]]: ...


class Column(Described, Protocol):
    """What a cursor of PostgreSQL says of a column."""

    @property
    def name(self) -> str: ...

    @property
    def type_code(self) -> int: ...


class Readable(Protocol):
    """What COPY reads its rows from."""

    def read(self, size: int = ..., /) -> str: ...


class PostgresCursor(Protocol):
    """A cursor of psycopg2, whose own types leave most of this out."""

    @property
    def description(self) -> Sequence[Column]: ...

    def fetchall(self) -> Sequence[Sequence[Raw]]: ...

    def execute(self, text: str, values: Mapping[str, Field] | None = None, /) -> None: ...

    def mogrify(self, text: str, values: Mapping[str, Field] | None = None, /) -> bytes: ...

    def copy_expert(self, text: str, file: IO[str] | Readable, /) -> None: ...


# What reads a field of one of PostgreSQL's types.
Cast: TypeAlias = Callable[[str | None, PostgresCursor], Raw]


def made(kind: Callable[..., Row], names: Sequence[str], rows: Iterable[Fields]) -> Iterator[Row]:
    """Rows by the names of their columns."""
    return (kind(**dict(zip(names, row))) for row in rows)


def plain(value: Raw) -> Field:
    """A value as both databases give it: whole numbers, and dates and moments as text."""
    if isinstance(value, datetime.datetime):
        return value.astimezone(datetime.timezone.utc).strftime("%Y-%m-%dT%H:%M:%SZ")
    if isinstance(value, datetime.date):
        return value.isoformat()
    if isinstance(value, decimal.Decimal):
        return int(value)
    if isinstance(value, memoryview):
        return bytes(value)
    return value
