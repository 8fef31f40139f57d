"""Runs programs on files, and prints the median of their times and their greatest memory.

`measure.py ROUNDS NAME=COMMAND .. -- FILE ..`; the programs take turns, so that a busy machine is busy for all of them.
"""

import os
import shlex
import statistics
import subprocess
import sys
import time


def run(command, path):
    """Seconds by the clock and of the processor."""
    with open(path, "rb") as source, open(os.devnull, "wb") as sink:
        start = time.perf_counter()
        child = subprocess.Popen(command, stdin=source, stdout=sink)
        _, status, usage = os.wait4(child.pid, 0)
        wall = time.perf_counter() - start
    child.returncode = os.waitstatus_to_exitcode(status)
    if child.returncode != 0:
        sys.exit(f"{command}: status {child.returncode} on {path}")
    return wall, usage.ru_utime + usage.ru_stime


def memory(command, path):
    """The greatest memory in use, in kB, as GNU time tells it."""
    with open(path, "rb") as source:
        timed = ["/usr/bin/time", "-f", "%M"] + command
        done = subprocess.run(timed, stdin=source, stdout=subprocess.DEVNULL, stderr=subprocess.PIPE, check=True)
    return int(done.stderr.split()[-1])


def main():
    rounds, split = int(sys.argv[1]), sys.argv.index("--")
    programs = [word.split("=", 1) for word in sys.argv[2:split]]
    print(f"{'input':24} {'program':12} {'clock ms':>9} {'least':>7} {'processor ms':>13} {'least':>7} {'memory kB':>10}")
    for path in sys.argv[split + 1 :]:
        times = {name: [] for name, _ in programs}
        for _ in range(rounds):
            for name, command in programs:
                times[name].append(run(shlex.split(command), path))
        for name, command in programs:
            walls, busy = [[1000 * t for t in column] for column in zip(*times[name])]
            kept = memory(shlex.split(command), path)
            size = f"{os.path.basename(path)} {os.path.getsize(path)}"
            print(
                f"{size:24} {name:12} {statistics.median(walls):9.1f} {min(walls):7.1f}"
                f" {statistics.median(busy):13.1f} {min(busy):7.1f} {kept:10}"
            )


main()
