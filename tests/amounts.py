"""For the tests: how much each one does, and which random numbers it takes. tests/all.py sets both, for all that it runs, by the
variables TEST_LONG, which is 1 for all that a test has, and TEST_SEED, a number. Without them a test does what a minute of the
processor holds, and takes the seed that it names."""
import os
import shutil
import time

IS_LONG = os.environ.get("TEST_LONG") == "1"
# How many times at the most something is done that has to be quick, and takes long beside others on a busy machine.
TRIES = 5
# What has to be free of a folder in memory: in a container it may be small.
ROOM = 1 << 30


def amount(short, long):
    """How much of something is done: a part, or all."""
    return long if IS_LONG else short


def seed(own):
    """What the random numbers of a test follow from."""
    return int(os.environ.get("TEST_SEED") or own)


def memory_folder():
    """A folder in memory for files whose changes would wait for the disk, or None."""
    there = "/dev/shm"
    return there if os.access(there, os.W_OK) and shutil.disk_usage(there).free > ROOM else None


def least_time(do, enough):
    """The least seconds by the clock that something takes, which is done again if that is more than enough."""
    least = None
    for _ in range(TRIES):
        began = time.monotonic()
        do()
        took = time.monotonic() - began
        least = took if least is None else min(least, took)
        if least <= enough:
            break
    return least
