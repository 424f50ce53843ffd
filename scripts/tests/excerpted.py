"""The tables of docs/operate/PERFORMANCE.md that scripts/dev/excerpts.py names: each has rows and columns of
docs/develop/MEASUREMENTS.md."""
import contextlib
import io
import unittest

import excerpts
import measuring
from harness import TOP

USERS, DEVELOPERS = TOP / "docs" / "operate" / "PERFORMANCE.md", TOP / "docs" / "develop" / "MEASUREMENTS.md"

MEASURED = """<!-- measured: tls -->

| Asked | Gates | A second | Through TLS | Median, us | Through TLS |
|---|---|---|---|---|---|
| touches | 1 | 8,763 | 5,051 | 104 | 189 |
| touches | 8 | 8,882 | 7,816 | 850 | 1,006 |
| enquiries | 1 | 61,369 | 14,989 | 16 | 64 |
"""


class Excerpts(unittest.TestCase):
    def taken(self, columns: tuple[str, ...], keys: tuple[tuple[str, ...], ...] = (), label: str = "") -> list[list[str]]:
        return list(excerpts.taken(excerpts.Rows("tls", columns, keys, label), measuring.tables(MEASURED)))

    def test_the_tables_for_users_are_those_of_the_measurements(self) -> None:
        page, measured = USERS.read_text(), DEVELOPERS.read_text()
        shown = {name: lines for name, lines in measuring.tables(page).items() if name in excerpts.EXCERPTS}
        self.assertEqual(excerpts.excerpts(measured), shown, "run scripts/dev/measure-all --excerpts")

    def test_no_table_is_on_both_pages(self) -> None:
        page, measured = USERS.read_text(), DEVELOPERS.read_text()
        self.assertEqual(measuring.tables(page).keys() & measuring.tables(measured).keys(), set())

    def test_rows_by_their_first_cells_and_columns_by_their_heads(self) -> None:
        columns = ("Asked", "Gates", "Through TLS", "Through TLS 2")
        self.assertEqual(self.taken(columns, (("enquiries",), ("touches", "8"))),
                         [["enquiries", "1", "14,989", "64"], ["touches", "8", "7,816", "1,006"]])
        self.assertEqual(self.taken(("Gates", "A second")), [["1", "8,763"], ["8", "8,882"], ["1", "61,369"]])
        self.assertEqual(self.taken(("Asked", "Gates"), (("touches", "8"),), "slow"), [["slow", "8"]])

    def test_what_the_measurements_lack_is_refused(self) -> None:
        rows_of = excerpts.Rows
        for rows, said in ((rows_of("tls", ("Asked", "Gate")), "the table 'tls' of the measurements has no column 'Gate'"),
                           (rows_of("tls", ("Through TLS 3",)),
                            "the table 'tls' of the measurements has no column 'Through TLS 3'"),
                           (rows_of("tls", ("Asked",), (("touches", "64"),)),
                            "the table 'tls' of the measurements has no row 'touches | 64'"),
                           (rows_of("gates", ("Asked",)), "the measurements have no table 'gates'")):
            with self.subTest(said), self.assertRaisesRegex(excerpts.Wrong, "^" + said.replace("|", r"\|") + "$"):
                list(excerpts.taken(rows, measuring.tables(MEASURED)))

    def test_a_table_is_put_in_the_place_of_the_old_one(self) -> None:
        page = "One\n\n<!-- measured: a -->\n\n| old |\n|---|\n| 1 |\n| 2 |\n\nTwo\n\n<!-- measured: b -->\n\nThree\n"
        self.assertEqual(measuring.put(page, {"a": ["| new |", "|---|", "| 3 |"], "b": ["| first |"]}),
                         "One\n\n<!-- measured: a -->\n\n| new |\n|---|\n| 3 |\n\n"
                         "Two\n\n<!-- measured: b -->\n\n| first |\n\nThree\n")
        with contextlib.redirect_stderr(io.StringIO()) as said:
            self.assertEqual(measuring.put(page, {"gone": ["| 3 |"]}), page)
        self.assertEqual(said.getvalue(), "measure-all: the page has no place for the table 'gone'\n")
