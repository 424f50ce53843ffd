"""Changes a fare table in one key at a time: `check --against` has to report each change. For
scripts/tests/test_bad_tables.py.

The keys, and what each may hold, are read from the code (scripts/dev/fact_keys.py), so a new key is tried too.
"""
import copy
import json
import pathlib
import tempfile
import tomllib
from collections.abc import Callable, Iterable, Iterator
from typing import Any, TypeAlias

import fact_keys
import harness
from fact_keys import Key

# A fare table as TOML has it, or a row of one.
Table: TypeAlias = dict[str, Any]

KEYS = fact_keys.keys(harness.TOP)


def example() -> Table:
    """The example table with every optional key, and a single fare that no station needs, so that it may go."""
    table = tomllib.loads(harness.EXAMPLE.read_text())
    table["pair"][0]["minutes"] = 30
    table["single"].append({"low": 8, "high": 8, "peak": 100, "off_peak": 90})
    return table


def text_of(table: Table) -> str:
    """A table as TOML: texts, numbers, truth values and lists of them are written as in JSON."""
    lists = {key: rows for key, rows in table.items() if isinstance(rows, list) and rows and isinstance(rows[0], dict)}
    lines = [f"{key} = {json.dumps(value)}" for key, value in table.items() if key not in lists]
    for key, rows in lists.items():
        for row in rows:
            lines += [f"[[{key}]]", *(f"{name} = {json.dumps(value)}" for name, value in row.items())]
    return "\n".join([*lines, ""])


def other_values(key: Key, value: Any) -> list[Any]:
    """Other values that a key may have instead of this one."""
    others: dict[str, Callable[[], list[Any]]] = {
            "Whole": lambda: [value + 1, value - 1], "Truth": lambda: [not value], "Text": lambda: [f"{value}/3"],
            "Name": lambda: [f"{value} Road"], "Kind": lambda: [{"anytime": "off-peak", "off-peak": "anytime"}[value]],
            "Zones": lambda: [[1], [2], [3], [1, 2], [2, 3]],
            "Rows": lambda: [value[:at] + value[at + 1:] for at in range(len(value))]}
    return others[key.shape]()


def holders(key: Key, table: Table) -> list[Table]:
    """What has the key: the table itself, or the rows of the key's list that have it."""
    held = table[key.text.partition(".")[0]] if "." in key.text else [table]
    return [row for row in held if key.key() in row]


def changed(key: Key) -> Iterator[Table]:
    """Tables that differ from the example in this key's value alone; some of them may be refused."""
    for place, held in reversed(list(enumerate(holders(key, example())))):
        for value in other_values(key, held[key.key()]):
            table = example()
            holders(key, table)[place][key.key()] = value
            if table != example():
                yield table


def without(key: Key, table: Table) -> Table:
    """The table without this key."""
    table = copy.deepcopy(table)
    for row in holders(key, table):
        del row[key.key()]
    return table


class KeyChanges(harness.ProgramTest):
    """A table that differs in one key."""

    def setUp(self) -> None:
        folder = tempfile.TemporaryDirectory()
        self.addCleanup(folder.cleanup)
        self.folder = pathlib.Path(folder.name)

    def compared(self, old: Table, new: Table) -> list[str]:
        """What the program prints of the changes from one table to another; nothing, if it refuses one of them."""
        for name, table in (("old", old), ("new", new)):
            (self.folder / name).write_text(text_of(table))
        _, out, err = harness.run_whole(["check", "--against", self.folder / "old", self.folder / "new"])
        self.assertTrue(out or err.startswith("fault table "), err)
        return out.decode().splitlines()[:-1]

    def unreported(self, compared: Callable[[Table, Table], list[str]], keys: Iterable[Key] = KEYS) -> list[str]:
        """The keys of which a change, or the absence, isn't reported."""
        found = []
        for key in keys:
            said = next(filter(None, (compared(example(), table) for table in changed(key))), None)
            self.assertTrue(said, f"{key.text}: no other value makes a valid table; correct `other_values` or `example`")
            absent = said if key.is_required else compared(example(), without(key, example()))
            if ["nothing changes"] in (said, absent):
                found.append(key.text)
        return found

    def test_a_change_of_each_key_is_reported(self) -> None:
        self.assertEqual(self.unreported(self.compared), [])

    def test_a_key_that_is_ignored_is_noticed(self) -> None:
        for key in (one for one in KEYS if not one.is_required):
            with self.subTest(key.text):
                def compared(old: Table, new: Table, key: Key = key) -> list[str]:
                    return self.compared(without(key, old), without(key, new))
                found = self.unreported(compared, [key])
                self.assertEqual(found, [key.text])
