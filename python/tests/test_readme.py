"""The examples of python/README.md, of README.md and of the package's own text, as they are printed there, and what pip
installs."""
import doctest
import os
import re
import subprocess
import sys
import unittest

from common import PYTHON, ROOT, WithFolder

import fallowtime


class Examples(WithFolder):
    def run_examples(self, text, name):
        here = os.getcwd()
        os.chdir(self.folder)
        try:
            test = doctest.DocTestParser().get_doctest(text, {}, name, name, 0)
            runner = doctest.DocTestRunner(verbose=False)
            said = []
            runner.run(test, out=said.append)
            self.assertEqual(runner.failures, 0, "".join(said))
            return runner.tries
        finally:
            os.chdir(here)

    def test_the_pages(self):
        for page, count in (PYTHON / "README.md", 20), (ROOT / "README.md", 5):
            blocks = re.findall(r"^```python\n(.*?)^```$", page.read_text(), re.M | re.S)
            self.assertGreater(self.run_examples("".join(blocks), str(page)), count)

    def test_the_text_of_the_package(self):
        self.assertGreater(self.run_examples(fallowtime.__doc__, "__init__.py"), 1)

    def test_the_version(self):
        self.assertEqual(fallowtime.__version__, (ROOT / "VERSION").read_text().strip())


class Packing(WithFolder):
    def test_what_pip_installs(self):
        """Without a network, into a folder: the package as it is, with its types."""
        if subprocess.run([sys.executable, "-m", "pip", "--version"], capture_output=True).returncode:
            self.skipTest("there is no pip here")
        done = subprocess.run([sys.executable, "-m", "pip", "install", "--quiet", "--no-index", "--target",
                               self.folder / "there", PYTHON],
                              capture_output=True, text=True)
        self.assertEqual(done.returncode, 0, done.stderr)
        names = {path.name for path in (PYTHON / "fallowtime").iterdir() if path.name != "__pycache__"}
        self.assertIn("py.typed", names)
        self.assertEqual({path.name for path in (self.folder / "there" / "fallowtime").iterdir()} - {"__pycache__"},
                         names)
        script = ("import fallowtime; c = fallowtime.open('x.db')['c']; c.insert_one({'_id': 1}); print(c.find_one(),"
                  " fallowtime.__file__)")
        found = subprocess.run([sys.executable, "-c", script], cwd=self.folder, capture_output=True, text=True,
                               env={**os.environ, "PYTHONPATH": str(self.folder / "there")})
        self.assertEqual((found.stdout, found.stderr),
                         (f"{{'_id': 1}} {self.folder}/there/fallowtime/__init__.py\n", ""))


if __name__ == "__main__":
    unittest.main()
