#!/usr/bin/python3
"""Runs the tests of the package for Python, those of python/tests, over a program.

tests/python.py PROGRAM [TEST ..]

PROGRAM is the program under the name fallowtime. A TEST is the name of a file of python/tests without its ending, or of
a test in it, as test_collection.Looking. Prints a line for each test, and ends with status 1 if one fails. What
compares with bson wants pymongo's; without it that is left out.
"""
import faulthandler
import os
import pathlib
import sys
import unittest

if len(sys.argv) < 2:
    sys.exit("python.py: the words are PROGRAM [TEST ..]")
PROGRAM = os.path.abspath(sys.argv[1])
if not os.access(PROGRAM, os.X_OK):
    sys.exit(f"python.py: there is no program {PROGRAM}")
os.environ["FALLOWTIME"] = PROGRAM
sys.path.insert(0, str(pathlib.Path(__file__).resolve().parent.parent / "python" / "tests"))
sys.dont_write_bytecode = True
# All of them take a minute or two.
faulthandler.dump_traceback_later(3300, exit=True)

if len(sys.argv) > 2:
    suite = unittest.defaultTestLoader.loadTestsFromNames(sys.argv[2:])
else:
    suite = unittest.defaultTestLoader.discover(sys.path[0])
sys.exit(not unittest.TextTestRunner(stream=sys.stdout, verbosity=2, warnings="error").run(suite).wasSuccessful())
