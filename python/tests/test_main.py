"""`python -m fallowtime`."""
import os
import subprocess
import sys
import unittest

from common import PROGRAM, PYTHON, ROOT, WithFolder


class Main(WithFolder):
    def run_package(self, *words, **environment):
        return subprocess.run([sys.executable, "-m", "fallowtime", *words], capture_output=True, text=True,
                              cwd=self.folder, env={**os.environ, "PYTHONPATH": str(PYTHON), **environment})

    def test_versions(self):
        version = (ROOT / "VERSION").read_text().strip()
        found = self.run_package()
        self.assertEqual((found.returncode, found.stderr), (0, ""))
        package, program = found.stdout.splitlines()
        self.assertRegex(package, rf"^package {version}, of Python [\d.]+: {PYTHON}/fallowtime$")
        self.assertEqual(program, f"program {version}: {PROGRAM}")

    def test_without_a_program(self):
        found = self.run_package(FALLOWTIME="/none/fallowtime")
        self.assertEqual((found.returncode, found.stdout.count("\n")), (1, 1))
        self.assertIn("/none/fallowtime can't be started", found.stderr)

    def test_words(self):
        found = self.run_package("help")
        self.assertEqual((found.returncode, found.stdout, found.stderr), (2, "", "words: python -m fallowtime\n"))


if __name__ == "__main__":
    unittest.main()
