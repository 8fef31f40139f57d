"""Random lists of calls, beside mongomock."""
import importlib.util
import os
import pathlib
import subprocess
import sys
import unittest

from common import SEED, WithFolder

# How many lists there are, and the number of the first one.
LISTS, FIRST = os.environ.get("FALLOWTIME_LISTS", "100"), os.environ.get("FALLOWTIME_FIRST", str(SEED))


@unittest.skipUnless(importlib.util.find_spec("mongomock"), "python3-mongomock isn't here")
class Beside(WithFolder):
    def test_lists(self):
        script = pathlib.Path(__file__).with_name("beside_mongomock.py")
        found = subprocess.run([sys.executable, script, self.folder / "test.db", LISTS, FIRST], capture_output=True,
                               text=True)
        self.assertEqual((found.returncode, found.stderr), (0, ""))


if __name__ == "__main__":
    unittest.main()
