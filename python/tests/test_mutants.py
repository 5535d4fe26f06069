"""The list of wrong edits, which `python3 -m tests.mutants` tries, fits the sources of the package."""
import unittest

from tests.mutants import MUTANTS, TESTS


class Mutants(unittest.TestCase):
    def test_each_mutant_changes_its_file(self) -> None:
        for mutant in MUTANTS:
            with self.subTest(file=mutant.file, old=mutant.old):
                self.assertTrue(mutant.is_possible())
                self.assertNotEqual(mutant.old, mutant.new)

    def test_each_mutant_has_tests(self) -> None:
        self.assertEqual({mutant.file for mutant in MUTANTS} - TESTS.keys(), set())
