"""Runs the program and its baselines command by command on the same streams, and prints a table of their times and memory.

`measure.py FOLDER ROUNDS NAME=COMMAND .. -- STREAM ..`; the first program is bson_store itself, the others take the baselines' words. Each round makes the
files anew, and the programs take turns, so that a busy machine is busy for all of them. All programs have to answer alike.
"""

import json
import os
import shlex
import statistics
import subprocess
import sys
import time

TOP = ("customer_name", "Customer 7")
INNER = ("order_lines.0.colour_name", "blue")


def filter_of(path, text):
    keys = ",".join(f'"{key}"' for key in path.split("."))
    return '{"eq":[[%s],"%s"]}' % (keys, text)


def steps(stream):
    """Each command: its name, its standard input, whether it begins with a new file, its words, and the baselines' words."""
    return [
        ("import", stream, True, ["import", "c"], ["import"]),
        ("export", None, False, ["export", "c"], ["export"]),
        ("find, top key", None, False, ["find", "c", filter_of(*TOP)], ["find", *TOP]),
        ("find, in an array", None, False, ["find", "c", filter_of(*INNER)], ["find", *INNER]),
        ("get by id", None, False, ["get", "c", "777"], ["get", "777"]),
        ("dump", None, False, ["dump", "c"], ["dump"]),
        ("load", "dump", True, ["load", "c"], ["load"]),
    ]


def run(command, source, sink):
    """Seconds by the clock and of the processor, and the greatest memory in kB.

    GNU time starts the program, since a child of this process would count this process's own memory as its greatest.
    """
    timed = ["/usr/bin/time", "-f", "%e %U %S %M"] + command
    with open(source or os.devnull, "rb") as stdin, open(sink, "wb") as stdout:
        start = time.perf_counter()
        done = subprocess.run(timed, stdin=stdin, stdout=stdout, stderr=subprocess.PIPE)
        wall = time.perf_counter() - start
    if done.returncode != 0:
        sys.exit(f"{command}: status {done.returncode}")
    _, user, system, memory = done.stderr.split()[-4:]
    return wall, float(user) + float(system), int(memory)


def digest(path, is_text):
    """What a program printed; of JSON the values, as programs differ in blanks, escapes and the order of keys."""
    with open(path, "rb") as file:
        printed = file.read()
    if is_text:
        printed = json.dumps([json.loads(line) for line in printed.splitlines()], sort_keys=True)
    return hash(printed)


def round_of(folder, stream, programs, times, seen):
    for place, (step, source, is_new, ours, theirs) in enumerate(steps(stream)):
        for number, (name, command) in enumerate(programs):
            database = os.path.join(folder, name + ".db")
            if is_new and os.path.exists(database):
                os.remove(database)
            if source == "dump":
                source = os.path.join(folder, programs[0][0] + ".out5")
            sink = os.path.join(folder, f"{name}.out{place}")
            words = ours if number == 0 else theirs
            times.setdefault((step, name), []).append(run(shlex.split(command) + [database] + words, source, sink))
            seen.setdefault(step, set()).add(digest(sink, step in ("dump", "get by id")))


def main():
    folder, rounds, split = sys.argv[1], int(sys.argv[2]), sys.argv.index("--")
    programs = [word.split("=", 1) for word in sys.argv[3:split]]
    for stream in sys.argv[split + 1 :]:
        times, seen = {}, {}
        for _ in range(rounds):
            round_of(folder, stream, programs, times, seen)
        print(f"{os.path.basename(stream)}, {os.path.getsize(stream)} bytes")
        print(f"{'command':18} {'program':11} {'clock ms':>9} {'processor ms':>13} {'memory MB':>10}")
        for (step, name), rows in times.items():
            wall, busy, memory = [statistics.median(column) for column in zip(*rows)]
            print(f"{step:18} {name:11} {1000 * wall:9.0f} {1000 * busy:13.0f} {memory / 1024:10.0f}")
        for step, answers in seen.items():
            if len(answers) > 1:
                print(f"{step}: the programs answer differently")


main()
