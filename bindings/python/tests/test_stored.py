"""What is stored of the reference is what it gives: the cases for the tests from outside, those of
the program `fieldcases`, and what the programs `engines` and `table` are to print."""

import sys
import unittest
from pathlib import Path

REPOSITORY = Path(__file__).resolve().parents[3]
sys.path.insert(0, str(REPOSITORY / "tests" / "reference"))

import engines
import make_fieldcases
import make_vectors
import reference
import sheets


class Stored(unittest.TestCase):
    def test_vectors(self):
        for name in make_vectors.FILES:
            self.assertTrue(make_vectors.is_stored(name), name)

    def test_fieldcases(self):
        self.assertTrue(make_fieldcases.is_stored())

    def test_sheets(self):
        self.assertTrue(sheets.is_stored())

    def test_engines(self):
        self.assertEqual((REPOSITORY / "crates" / "engines" / "stdout").read_text(), engines.printed())

    def test_table(self):
        job = (REPOSITORY / "crates" / "table" / "stdin").read_bytes()
        self.assertGreater(len(job), 256)
        self.assertEqual((REPOSITORY / "crates" / "table" / "stdout").read_text(), reference.table_program(job))


if __name__ == "__main__":
    unittest.main()
