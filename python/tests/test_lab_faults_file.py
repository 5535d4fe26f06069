"""Long roads, numbers that are not accepted, and damaged addresses, in the page as one file that contains the program."""
import unittest

from tests.lab_files import InFile, lacking
from tests.test_lab_faults import Faults


# Only the server translates rules in Python, and one test holds back a response of the server.
OF_THE_SERVER = "test_parameters_of_rules_in_python", "test_a_late_explanation_is_not_shown"


class FaultsFile(InFile, Faults):
    """The tests, in one browser."""


for name in OF_THE_SERVER:
    setattr(FaultsFile, name, None)


@unittest.skipIf(lacking("chromium"), lacking("chromium"))
class InChromium(FaultsFile, unittest.TestCase):
    browser = "chromium"


@unittest.skipIf(lacking("firefox"), lacking("firefox"))
class InFirefox(FaultsFile, unittest.TestCase):
    browser = "firefox"


if __name__ == "__main__":
    unittest.main()
