"""The hints of types, as mypy reads them."""
import os
import shutil
import subprocess
import unittest

from common import PYTHON, WithFolder

# A program that uses the package, with what mypy says of its types.
USE = """\
import fallowtime
store = fallowtime.open("x.db")
reveal_type(store.orders)
reveal_type(store.orders.find_one({}))
reveal_type(store.orders.find({}).sort("a")[0])
reveal_type(store.orders.find({})[1:2].explain())
reveal_type(store.orders.update_one({}, {}).matched_count)
reveal_type(store.orders.aggregate([]).to_list())
"""
TYPES = ["fallowtime._collection.Collection", "Union[builtins.dict[builtins.str, Any], None]",
         "builtins.dict[builtins.str, Any]", "builtins.dict[builtins.str, Any]", "builtins.int",
         "builtins.list[builtins.dict[builtins.str, Any]]"]


@unittest.skipUnless(shutil.which("mypy"), "mypy isn't here")
class Types(WithFolder):
    def run_mypy(self, *words):
        return subprocess.run(["mypy", "--strict", "--cache-dir", self.folder / "cache", *words], capture_output=True,
                              text=True, cwd=self.folder, env={**os.environ, "MYPYPATH": str(PYTHON)})

    def test_the_package(self):
        found = self.run_mypy(PYTHON / "fallowtime")
        self.assertEqual((found.returncode, found.stdout.count("\n")), (0, 1), found.stdout)

    def test_a_program_that_uses_it(self):
        (self.folder / "use.py").write_text(USE)
        found = self.run_mypy("use.py")
        types = [line.partition('"')[2].rpartition('"')[0] for line in found.stdout.splitlines() if "Revealed" in line]
        self.assertEqual((found.returncode, types), (0, TYPES), found.stdout)


if __name__ == "__main__":
    unittest.main()
