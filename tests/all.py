#!/usr/bin/python3
"""Holds a built program against all tests of programs and scripts, and the commands of README, USING and FILES against it.

    tests/all.py PROGRAM [--long] [--seed NUMBER] [--at-once NUMBER] [TEST ..]

With names of tests, as program.py, against these alone. As many tests run side by side as there are processors for this process, or as
--at-once says, the longest first. Each one runs to its end, whatever becomes of the others, and has a line when it ends: its time by the
clock, and that of the processor, of all that it started and waited for. Those that failed are named behind that, with the last lines
that they printed, and the last line is `N passed, N failed`. It ends with status 1 if one failed.

Without --long a test does what a minute of the processor holds: fewer random rounds, and of orders and of repeated lines only some, but
each kind of case. All random numbers follow from one seed, another one for each run. If a test fails it is printed, and --seed repeats it.

The program acts by its name, so it is tried under its three names, as links in a folder that is deleted. Each test has a folder of its
own for temporary files, which is deleted, too, unless the test fails and leaves something there, and a session of its own, which is ended
as a whole. Without what the tests call (tests/needs.sh), and without the program, nothing is run.
"""
import argparse
import collections
import os
import pathlib
import random
import shutil
import signal
import subprocess
import sys
import tempfile
import threading
import time

ROOT = pathlib.Path(__file__).resolve().parent.parent
NAMES = ["bson_store", "bson_json", "fallowtime"]
# Each test, the longest first, with the name under which it wants the program.
TESTS = {
    "indexes.py": "fallowtime", "fallowtime.py": "fallowtime", "fallowtime_lines.py": "fallowtime", "release.py": "fallowtime",
    "finds.py": "fallowtime", "front.py": "fallowtime", "terminal.py": "fallowtime", "files.py": "bson_store", "scripts.py": "bson_store",
    "fallowtime_files.py": "fallowtime", "pages.py": "fallowtime", "stack.py": "fallowtime", "stops.py": "fallowtime", "torn.py": "fallowtime", "lists.py": "fallowtime",
    "python.py": "fallowtime", "crud.py": "fallowtime", "crud.py --relay": "fallowtime", "pymongo_programs.py": "fallowtime",
    "relay.py": "fallowtime", "readme.sh": "bson_store", "pipelines.py": "fallowtime", "sorted.py": "fallowtime", "fields.py": "fallowtime",
    "find_and.py": "fallowtime", "upserts.py": "fallowtime", "distinct.py": "fallowtime", "extended_json.py": "bson_json",
    "program.py": "bson_store", "edits.py": None, "docs.py": None, "gate.py": None,
}
# The lines of a failed test that are printed, and the seconds by the clock after which one is ended that hangs.
LAST, LONGEST = 30, 3600
ENDED = threading.Event()


def fail(told):
    print(f"all.py: {told}")
    sys.exit(1)


def read_words():
    reader = argparse.ArgumentParser(usage="tests/all.py PROGRAM [--long] [--seed NUMBER] [--at-once NUMBER] [TEST ..]", add_help=False)
    reader.add_argument("program", nargs="?", default="")
    reader.add_argument("tests", nargs="*")
    reader.add_argument("--long", action="store_true")
    reader.add_argument("--seed", type=int, default=random.SystemRandom().randrange(1, 10 ** 6))
    reader.add_argument("--at-once", type=int, default=len(os.sched_getaffinity(0)))
    words = reader.parse_intermixed_args()
    if not os.path.isfile(words.program) or not os.access(words.program, os.X_OK):
        fail(f"there is no program {words.program}: {reader.usage}")
    for name in words.tests:
        if not any(name in (test, test.split()[0]) for test in TESTS):
            fail(f"there is no test {name}")
    return words


class Run:
    """One run of tests, in a folder of its own."""

    def __init__(self, words, folder):
        self.words, self.folder = words, folder
        wanted = [test for test in TESTS if not words.tests or {test, test.split()[0]} & set(words.tests)]
        self.waiting, self.failed, self.passed = collections.deque(wanted), [], 0
        self.lock, self.groups = threading.Lock(), set()
        for name in NAMES:
            (folder / name).symlink_to(os.path.realpath(words.program))

    def command(self, test):
        name, *more = test.split()
        before = ["/usr/bin/python3"] if name.endswith(".py") else []
        return [*before, f"tests/{name}", *([self.folder / TESTS[test]] if TESTS[test] else []), *more]

    def start(self, test, temporary, printed):
        """Starts a test, as the leader of a session of its own."""
        environment = {**os.environ, "TMPDIR": temporary, "TEST_SEED": str(self.words.seed), "TEST_LONG": "1" if self.words.long else ""}
        with self.lock:
            started = subprocess.Popen(self.command(test), cwd=ROOT, env=environment, stdin=subprocess.DEVNULL, stdout=printed,
                                       stderr=subprocess.STDOUT, start_new_session=True)
            self.groups.add(started.pid)
        return started

    def end(self, group):
        """Ends what a test left of its session."""
        with self.lock:
            self.groups.discard(group)
            kill(group)

    def try_test(self, test):
        """Runs a test to its end; says what came of it, and what it took."""
        temporary = tempfile.mkdtemp(prefix=f"{test.split('.')[0]}-")
        # Some tests start the program as another user.
        os.chmod(temporary, 0o755)
        with open(self.folder / f"{test} printed", "w+b") as printed:
            began, started = time.monotonic(), self.start(test, temporary, printed)
            limit = threading.Timer(LONGEST * (10 if self.words.long else 1), kill, [started.pid])
            limit.start()
            _, status, used = os.wait4(started.pid, 0)
            limit.cancel()
            started.returncode = os.waitstatus_to_exitcode(status)
            self.end(started.pid)
            printed.seek(0)
            last = printed.read().decode(errors="replace").splitlines()[-LAST:]
        left = os.listdir(temporary) if status and not ENDED.is_set() else []
        if left:
            last.append(f"(what it left is in {temporary})")
        else:
            shutil.rmtree(temporary, ignore_errors=True)
        took = f"{time.monotonic() - began:.0f} s, {used.ru_utime + used.ru_stime:.1f} s of the processor"
        with self.lock:
            if ENDED.is_set():
                return
            self.passed += status == 0
            if status:
                self.failed.append((test, started.returncode, last))
            print(f"all.py: {test} {'FAILED' if status else 'passed'}, {took}", flush=True)

    def work(self):
        """Runs tests, one behind the other, as long as there are some."""
        while not ENDED.is_set():
            try:
                test = self.waiting.popleft()
            except IndexError:
                return
            self.try_test(test)

    def run(self):
        workers = [threading.Thread(target=self.work) for _ in range(max(self.words.at_once, 1))]
        for worker in workers:
            worker.start()
        for worker in workers:
            worker.join()

    def report(self):
        for test, status, last in self.failed:
            print(f"\nall.py: FAILED {test}, status {status}, the last that it printed:", *(f"    {line}" for line in last), sep="\n")
        if self.failed:
            again = " ".join(dict.fromkeys(test.split()[0] for test, _, _ in self.failed))
            long = "--long " if self.words.long else ""
            print(f"\nall.py: again: tests/all.py {self.words.program} {long}--seed {self.words.seed} {again}")
        print(f"{self.passed} passed, {len(self.failed)} failed", flush=True)


def kill(group):
    try:
        os.killpg(group, signal.SIGKILL)
    except ProcessLookupError:
        pass


def main():
    words = read_words()
    missing = subprocess.run([ROOT / "tests/needs.sh"], stdin=subprocess.DEVNULL, stdout=subprocess.PIPE, text=True)
    if missing.returncode:
        fail(missing.stdout.rstrip("\n"))
    with tempfile.TemporaryDirectory(prefix="all-", ignore_cleanup_errors=True) as folder:
        run = Run(words, pathlib.Path(os.path.realpath(folder)))

        def stop(number, _):
            ENDED.set()
            for group in list(run.groups):
                kill(group)
            raise SystemExit(128 + number)

        for number in signal.SIGINT, signal.SIGTERM, signal.SIGHUP:
            signal.signal(number, stop)
        print(f"all.py: {len(run.waiting)} tests, {words.at_once} at once, seed {words.seed}", flush=True)
        run.run()
        run.report()
    return 1 if run.failed else 0


if __name__ == "__main__":
    sys.exit(main())
