"""Passes bad tables to the program's command check, each with the line that it must print, and valid ones too.

It also changes a table in one key at a time, and checks that `check --against` reports each change (key_changes.py).

The tables are those of bad-tables-*.toml beside this script, by the names of the tests; each file explains its rows.
The lines are worked out by hand from docs/reference/TABLE.md. The script needs crates/tap_server/out/tap_server, which
`rt ci` leaves there, or `rt run` in crates/tap_server.
"""
import pathlib
import re
import tomllib
from collections.abc import Iterable, Sequence
from typing import Any

import harness
from harness import CRATES, EXAMPLE
from key_changes import KeyChanges  # noqa: F401  # its tests run with these

TABLE = EXAMPLE.read_text()
ROWS: dict[str, Any] = {}
for part in ("keys", "rows", "order", "forms"):
    ROWS |= tomllib.loads(pathlib.Path(__file__).with_name(f"bad-tables-{part}.toml").read_text())

# A row of two numbers in each list that is of two stations or of two zones.
OF_TWO = {
    "pair": "{{from = {}, to = {}, lo = 1, hi = 1, peak = 1, off_peak = 1}}",
    "interchange": "{{a = {}, b = {}, minutes = 1}}",
    "single": "{{low = {}, high = {}, peak = 1, off_peak = 1}}",
}


def changed(text: str, old: str, new: str) -> str:
    """A text with another one in the first place of one that stands in it."""
    before, found, after = text.partition(old)
    if not found:
        raise ValueError(f"there is no {old!r}")
    return before + new + after


def with_list(text: str, key: str, rows: Iterable[Sequence[int]]) -> str:
    """A table with a list of these rows, each of two numbers, before one that is ignored."""
    whole = ", ".join(OF_TWO[key].format(*row) for row in rows)
    return changed(text, f"{key} = [", f"{key} = [{whole}]\n{key}s = [")


def of_lists(**lists: list[str]) -> str:
    """A table of these lists, with one station and one single where it has no other ones."""
    row: dict[str, str] = ROWS["row"]
    lists = {"station": [row["station"]], "single": [row["single"]], **lists}
    return row["rates"] + "".join(f"{key} = [\n" + ",\n".join(rows) + "\n]\n" for key, rows in lists.items())


def form(name: str) -> str:
    """The example table in a form that the tests of the code have."""
    code = (CRATES / "account_tests" / "src" / "tests" / "of_fare_table" / "forms.rt").read_text()
    found = re.search(rf'^const {name}: &str = r#"(.*?)"#;$', code, re.M | re.S)
    assert found, f"{name} is there"
    return found[1]


def own_lines(text: str) -> list[str]:
    """The first lines of a table that the example doesn't have, which tell it from others where a test fails."""
    own = [line for line in text.split("\n") if line not in TABLE.split("\n")]
    return own[:4]


class Tables(harness.ProgramTest):
    """What the command check says of a table."""

    def rows(self) -> Any:
        """The rows of the test that runs."""
        return ROWS[self._testMethodName.removeprefix("test_")]

    def refused(self, text: str, line: str) -> None:
        """A table is refused by this line."""
        with self.subTest(line, table=own_lines(text)):
            self.assertEqual(harness.check(text.encode()), (1, f"{line}\n".encode(), ""))

    def valid(self, text: str, stations: int = 5, singles: int = 6, caps: int = 3) -> None:
        """A table is valid, with so many rows."""
        with self.subTest("valid", table=own_lines(text)):
            self.assertEqual(harness.check(text.encode()), harness.valid(stations, singles, caps, text.encode()))

    def changes(self) -> None:
        """The example with each change of the test's rows is refused by its line, or valid."""
        for old, new, line in self.rows().get("refused", []):
            self.refused(changed(TABLE, old, new), line)
        for old, new, *counts in self.rows().get("valid", []):
            self.valid(changed(TABLE, old, new), *counts)

    def texts(self) -> None:
        """Each whole text of the test's rows is refused by its line."""
        for text, line in self.rows()["texts"]:
            self.refused(text, line)


class Keys(Tables):
    """Tables in which one key or value is changed."""

    def test_a_text_that_is_no_toml_is_refused(self) -> None:
        self.changes()
        self.texts()

    def test_a_key_that_is_absent_is_missing(self) -> None:
        self.changes()
        self.texts()

    def test_a_value_of_another_type_is_named(self) -> None:
        self.changes()

    def test_an_element_of_another_type_is_named_by_its_row(self) -> None:
        self.changes()

    def test_four_lists_may_be_absent_or_empty(self) -> None:
        self.changes()

    def test_a_value_past_its_limit_is_out_of_range(self) -> None:
        for old, key, past, line in self.rows()["ranges"]:
            for value in (past, *self.rows()["values"]):
                self.refused(changed(TABLE, old, key + value), line)

    def test_two_keys_in_the_wrong_order_are_named_by_the_second(self) -> None:
        self.changes()

    def test_a_kind_is_one_of_two_texts(self) -> None:
        self.changes()

    def test_a_name_has_1_to_64_bytes(self) -> None:
        self.changes()

    def test_a_station_has_one_zone_or_two_in_ascending_order(self) -> None:
        self.changes()

    def test_a_zone_is_a_posix_rule(self) -> None:
        self.changes()

    def test_a_holiday_is_a_date_of_the_calendar(self) -> None:
        self.changes()


class Rows(Tables):
    """Tables with rows that are right each by itself."""

    def test_a_row_that_repeats_another_is_named(self) -> None:
        self.changes()

    def test_two_stations_are_the_same_in_either_order(self) -> None:
        for ends, row in self.rows()["ends"]:
            for key in ("pair", "interchange"):
                self.refused(with_list(TABLE, key, ends), f"fault table 6 Twice {key} {row}")

    def test_other_stations_are_no_repeat(self) -> None:
        ends = self.rows()["ends"]
        self.valid(with_list(with_list(TABLE, "pair", ends), "interchange", ends))

    def test_rows_must_agree_with_one_another(self) -> None:
        self.changes()

    def test_an_unknown_station_of_a_pair_comes_before_one_of_an_interchange(self) -> None:
        for pairs, interchanges, line in self.rows()["lists"]:
            self.refused(with_list(with_list(TABLE, "pair", pairs), "interchange", interchanges), line)

    def test_the_least_two_zones_without_a_single_are_named(self) -> None:
        for zones, line in self.rows()["singles"]:
            self.refused(with_list(TABLE, "single", zones), line)

    def test_a_zone_of_no_station_needs_no_single(self) -> None:
        text = with_list(TABLE, "single", self.rows()["singles"])
        for old, new in self.rows()["changes"]:
            text = changed(text, old, new)
        self.valid(text, singles=3)

    def test_no_price_is_above_its_maximum(self) -> None:
        def priced(highest: int, highest_off_peak: int, peak: int, off_peak: int) -> str:
            text = changed(TABLE, "maximum_peak = 900", f"maximum_peak = {highest}")
            text = changed(text, "maximum_off_peak = 700", f"maximum_off_peak = {highest_off_peak}")
            return changed(text, "peak = 230, off_peak = 200", f"peak = {peak}, off_peak = {off_peak}")

        for prices, line in self.rows()["refused"]:
            self.refused(priced(*prices), line)
        for prices in self.rows()["valid"]:
            self.valid(priced(*prices))


class Counts(Tables):
    """Tables with as many rows in a list as there may be, or with more."""

    ZONES = [(low, high) for low in range(1, 10) for high in range(low, 10)]
    SINGLES = [OF_TWO["single"].format(*zones) for zones in ZONES]

    def counts(self) -> None:
        for key, count, line in self.rows()["counts"]:
            self.refused(of_lists(**{key: [ROWS["row"][key]] * count}), line)

    def test_a_list_with_a_row_too_many_is_out_of_range(self) -> None:
        self.counts()

    def test_a_list_of_one_row_at_its_most_repeats_it_in_its_second_row(self) -> None:
        self.counts()

    # The keys of the table come before the rows of each list, and its lists' lengths with them.
    def test_a_list_is_counted_before_any_row_is_read(self) -> None:
        station = changed(ROWS["row"]["station"], "id = 1", "id = 0")
        self.refused(of_lists(station=[station], cap=[ROWS["row"]["cap"]] * 33), "fault table 5 Range cap 0")

    def test_nine_zones_have_45_singles(self) -> None:
        self.valid(of_lists(single=self.SINGLES), stations=1, singles=45, caps=0)

    # Nine zones make 45 pairs of zones, and the list has 1,000 rows.
    def test_a_46th_single_is_a_repeat(self) -> None:
        more = [ROWS["row"]["single"]] * 955
        self.refused(of_lists(single=self.SINGLES + more), "fault table 6 Twice single 46")


class Order(Tables):
    """Tables with several faults, in the example's form and in one with the other order of lists and keys."""

    def in_order(self, text: str, rows: Sequence[tuple[str, str, str]]) -> None:
        """A text has the first of these faults, with all the later ones."""
        for old, new, line in reversed(rows):
            text = changed(text, old, new)
            self.refused(text, line)

    def test_the_lowest_cause_is_answered(self) -> None:
        for text in (TABLE, form("REVERSED")):
            self.in_order(text, ROWS["causes"]["backwards"])
            self.in_order(text, ROWS["causes"]["forwards"])

    def test_of_two_causes_the_lower_is_answered(self) -> None:
        for text in (TABLE, form("REVERSED")):
            for rows in (ROWS["causes"]["backwards"], ROWS["causes"]["forwards"]):
                for (old, new, line), (later, other, _) in zip(rows, rows[1:]):
                    self.refused(changed(changed(text, later, other), old, new), line)

    def test_the_first_key_is_that_of_the_walk_and_not_of_the_text(self) -> None:
        for rows in self.rows().values():
            self.in_order(form("REVERSED"), rows)

    def test_a_row_that_is_no_table_lacks_no_key(self) -> None:
        self.in_order(TABLE, self.rows()["faults"])


class Documents(Tables):
    """What docs/reference/TABLE.md shows."""

    def test_the_table_that_the_page_begins_with_is_valid(self) -> None:
        page = (harness.TOP / "docs" / "reference" / "TABLE.md").read_text()
        table = page.split("```toml\n")[1].split("```")[0].encode()
        self.assertEqual(harness.check(table), harness.valid(2, 3, 1, table))
        # No key of it is unknown: notes are of nothing else.
        self.assertNotIn("note", harness.run_whole(["check", "--table", "/dev/stdin"], table)[2])


class Forms(Tables):
    """Tables in other forms of TOML."""

    def test_the_same_tree_is_the_same_table(self) -> None:
        self.changes()

    def test_unknown_keys_are_ignored(self) -> None:
        for value in self.rows()["values"]:
            text = changed(TABLE, "leg_minutes = ", f"other = {value}\nleg_minutes = ")
            text = changed(text, "id = 3, ", f"id = 3, zone.low = {value}, ")
            self.valid(changed(text, "to = 4, ", f"to = 4, via = {value}, "))

    def test_one_table_is_no_list(self) -> None:
        self.changes()
        for old, new, line in self.rows()["in_headers"]:
            self.refused(changed(form("HEADERS"), old, new), line)
