# SPDX-License-Identifier: Apache-2.0
"""The queries of network/queries.sql, by their names."""
import re
from collections.abc import Iterator

from bovtrila import places
from bovtrila.network import database
from bovtrila.network.fields import Field, Fields

FILE = places.NETWORK / "queries.sql"
FORM = re.compile(r"^-- name: (\w+)\n((?:-- [^\n]*\n)+?)-- indexes:([^\n]*)\n(.*?;)$", re.M | re.S)


class Query:
    """A query: what it says, the indexes that it goes by, its text, and the parameters that it needs."""

    def __init__(self, words: str, indexes: str, text: str) -> None:
        self.words, self.indexes, self.text = " ".join(words.replace("-- ", "").split()), indexes.split(), text
        self.wanted: set[str] = set(re.findall(database.PARAMETER, text))


def known() -> dict[str, Query]:
    return {name: Query(*rest) for name, *rest in FORM.findall(FILE.read_text())}


def ask(base: database.Database, name: str, **values: Field) -> tuple[list[str], list[Fields]]:
    """The names of a query's columns, and its rows; of the values it takes those that it needs."""
    query = known()[name]
    return base.table(base.own(query.text), **{parameter: values[parameter] for parameter in query.wanted})


def stream(base: database.Database, name: str, **values: Field) -> tuple[list[str], Iterator[Fields]]:
    """The same, with the rows one by one."""
    query = known()[name]
    return base.stream(base.own(query.text), **{parameter: values[parameter] for parameter in query.wanted})
