#!python
"""Becomes the program that the package carries: the command `fallowtime` of a wheel that has it."""
import importlib.util
import os
import signal
import sys

folder = importlib.util.find_spec("fallowtime").submodule_search_locations[0]
program = os.path.join(folder, "program", "fallowtime")
# Python ignores these, and what it starts would, too.
for number in signal.SIGPIPE, signal.SIGXFSZ:
    signal.signal(number, signal.SIG_DFL)
os.execv(program, [program, *sys.argv[1:]])
