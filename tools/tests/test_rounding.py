"""How many patterns tests/rounding.py must have tried, and when."""

import importlib.util
import unittest
from pathlib import Path
from unittest import mock

PATH = Path(__file__).resolve().parents[2] / "tests" / "rounding.py"


class Least(unittest.TestCase):
    def setUp(self):
        spec = importlib.util.spec_from_file_location("rounding", PATH)
        self.rounding = importlib.util.module_from_spec(spec)
        spec.loader.exec_module(self.rounding)
        loader = unittest.TestLoader()
        self.tests = loader.loadTestsFromTestCase(self.rounding.Rounding).countTestCases()

    def told(self, patterns, ran, every=1):
        with mock.patch.multiple(self.rounding, seen=range(patterns), every=every):
            return self.rounding.shortfall(ran)

    def test_too_few_patterns_of_all_tests_are_an_error(self):
        self.assertEqual(self.told(99_999, self.tests),
                         "99,999 patterns are too few: all tests together try 100,000 at least")
        self.assertIsNone(self.told(100_000, self.tests))

    def test_fewer_are_right_of_some_tests_and_of_every_nth_pattern(self):
        self.assertIsNone(self.told(99_999, self.tests - 1))
        self.assertIsNone(self.told(99_999, self.tests, every=2))


if __name__ == "__main__":
    unittest.main()
