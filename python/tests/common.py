"""What the tests share."""
import os
import pathlib
import shutil
import struct
import sys
import tempfile
import unittest

PYTHON = pathlib.Path(__file__).resolve().parents[1]
ROOT = PYTHON.parent
sys.path.insert(0, str(PYTHON))

import fallowtime  # noqa: E402

PROGRAM = os.environ.get("FALLOWTIME")
# What random numbers follow from, where a run of all tests names it.
SEED = int(os.environ.get("TEST_SEED") or 20261126)
# Where files of many commands lie: in memory, if there is such a folder, as each change waits for the disk.
MEMORY = "/dev/shm" if os.access("/dev/shm", os.W_OK) and shutil.disk_usage("/dev/shm").free > 1 << 30 else None


def is_same(one, other):
    """Whether two values are of the same kind and the same in all their bits, with their keys in the same order."""
    if type(one) is not type(other):
        return False
    if isinstance(one, float):
        return struct.pack("<d", one) == struct.pack("<d", other)
    if isinstance(one, dict):
        return list(one) == list(other) and all(is_same(one[key], other[key]) for key in one)
    if isinstance(one, list):
        return len(one) == len(other) and all(map(is_same, one, other))
    if isinstance(one, fallowtime.Code):
        return str(one) == str(other) and is_same(one.scope, other.scope)
    return repr(one) == repr(other)


class WithFolder(unittest.TestCase):
    """A test with an empty folder, which is deleted behind it, and stores in it."""

    place = MEMORY

    def setUp(self):
        if PROGRAM is None:
            self.fail("FALLOWTIME has to name the program")
        self.folder = pathlib.Path(tempfile.mkdtemp(prefix="fallowtime-", dir=self.place))
        self.addCleanup(shutil.rmtree, self.folder, ignore_errors=True)

    def open(self, name="test.db", **options):
        """A store, which is closed behind the test if it isn't closed yet."""
        store = fallowtime.open(self.folder / name, **options)
        self.addCleanup(store._session.close_quietly)
        return store

    def assert_same(self, one, other):
        if not is_same(one, other):
            self.fail(f"{one!r} isn't {other!r}")

    def assert_refused(self, kind, call, *arguments, key=None, document=None, at=None, **options):
        with self.assertRaises(fallowtime.Refused) as caught:
            call(*arguments, **options)
        refused = caught.exception
        self.assertEqual((refused.kind, refused.key, refused.document, refused.at), (kind, key, document, at))
        return refused
