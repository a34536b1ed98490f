"""The examples of README.md are run as they stand."""

import doctest
import os
import unittest

from helpers import CLIENT, TOP


class Readme(unittest.TestCase):
    def test_each_example(self):
        before = os.getcwd()
        os.chdir(TOP)
        try:
            failed, tried = doctest.testfile(os.path.join(CLIENT, "README.md"), module_relative=False)
        finally:
            os.chdir(before)
        self.assertEqual(failed, 0)
        self.assertGreater(tried, 20)


if __name__ == "__main__":
    unittest.main()
