"""Runs every row of tests/rows through the program."""

import re

import row_files
import support
from support import PROGRAM, ROOT, outcome_of


class Rows(support.TestCase):
    # How many rows there are at least.
    FLOORS = {"steps": 256, "run": 107, "check": 142}

    def compare(self, mode):
        self.each(support.rows(mode), "rows", self.compare_row, self.FLOORS[mode])

    def compare_row(self, row):
        self.assert_outcome(outcome_of([PROGRAM, row.mode], row.text), row.wanted())


support.add_tests(Rows, Rows.compare, {mode: mode for mode in Rows.FLOORS})


class Files(support.TestCase):
    def test_names_stand_once(self):
        names = [(mode, row.name) for mode in row_files.FOLDERS for row in support.rows(mode)]
        self.assertEqual(len(names), len(set(names)))
        self.says(len(names), "rows", 531)

    def test_texts(self):
        """What the lines of a file stand for."""
        texts = [
            (["agent -"], b"agent -\n"),
            (["3 times: ends {0+2} {1+2}"], b"ends 0 1\nends 2 3\nends 4 5\n"),
            (["2 times: in; left", "done"], b"in\nleft\nin\nleft\ndone\n"),
            (['post 0 - "{5*a}"'], b'post 0 - "aaaaa"\n'),
            (['post 0 - {"a":1}'], b'post 0 - {"a":1}\n'),
            (["fly {byte FF}"], b"fly \xff\n"),
            (["agent -", "take 0{no LF}"], b"agent -\ntake 0"),
            ([], b""),
        ]
        self.each(texts, "texts", lambda it: self.assertEqual(row_files.made_by(it[0]), it[1]))

    def test_tables(self):
        """Each line of a table stands behind the common front, once for each choice."""
        lines = ["// shown", "agent {1|2}", "--- each, status 0", "told", "---"]
        lines += ["x; y -> z", "w -> "]
        found = list(row_files.rows_in("steps", ("name", "derived"), lines))
        self.assertEqual(
            [(row.name, row.text, row.output) for row in found],
            [("name/1", b"agent 1\nx\ny\n", b"told\nz\n"),
             ("name/2", b"agent 2\nx\ny\n", b"told\nz\n"),
             ("name/3", b"agent 1\nw\n", b"told\n"),
             ("name/4", b"agent 2\nw\n", b"told\n")],
        )
        self.says(len(found), "rows")

    def test_example_of_the_page(self):
        """The rows that CONTRIBUTING.md shows are rows, and right."""
        page = (ROOT / "CONTRIBUTING.md").read_text(encoding="utf-8")
        text = re.search(r"```\n(=== .*?)```", page, re.DOTALL)[1]
        found = row_files.read(self.write("steps/page.rows", text))
        self.each(found, "rows", lambda row: Rows.compare_row(self, row), 3)

    def test_bad_files_are_refused(self):
        bad = [
            ["agent -", "--- status 0"],
            ["// shown", "agent -"],
            ["// shown", "--- states 0"],
            ["// shown", "--- each, status 0", "no arrow"],
        ]
        for lines in bad:
            with self.subTest(lines=lines), self.assertRaises(row_files.BadRows):
                list(row_files.rows_in("steps", ("name", "derived"), lines))
        self.says(len(bad), "texts")
