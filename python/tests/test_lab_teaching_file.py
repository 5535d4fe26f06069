"""Teaching with the page as one file that contains the program: models in words, sweeps, films and comparisons."""
import unittest

from tests.lab_files import InFile, lacking
from tests.test_lab_compare import Compared
from tests.test_lab_films import Films
from tests.test_lab_sweeps import SweepsOfThePage
from tests.test_lab_teaching import Teaching

# These import a script of the server, or look at its processes.
OF_THE_SERVER = (
    "test_a_row_is_that_of_a_sweep",
    "test_a_film_is_that_of_the_command",
    "test_a_paused_run_ends_and_goes_on",
    "test_why_a_car_brakes",
    "test_what_is_known_of_a_rule_of_ones_own",
)


class TeachingFile(InFile, Teaching, SweepsOfThePage, Films, Compared):
    """The tests, in one browser."""


for name in OF_THE_SERVER:
    setattr(TeachingFile, name, None)


@unittest.skipIf(lacking("chromium"), lacking("chromium"))
class InChromium(TeachingFile, unittest.TestCase):
    browser = "chromium"


@unittest.skipIf(lacking("firefox"), lacking("firefox"))
class InFirefox(TeachingFile, unittest.TestCase):
    browser = "firefox"


if __name__ == "__main__":
    unittest.main()
