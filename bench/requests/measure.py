#!/usr/bin/python3
"""Times programs that do the requests of lines.py on a new file each, by turns.

    measure.py [--list LENGTH] NUMBER ROUNDS NAME=COMMAND NAME=COMMAND ..

With --list the requests come as lists of LENGTH. A command gets the name of the file as its last word, the requests as its input, and prints the answers. Prints the least
processor time and the least time by the clock of each, and how many times that of the second one it is; and compares the
answers with those of the first one, as values of JSON.
"""
import json
import os
import pathlib
import resource
import shlex
import subprocess
import sys
import tempfile
import time

HERE = pathlib.Path(__file__).resolve().parent


def busy():
    used = resource.getrusage(resource.RUSAGE_CHILDREN)
    return used.ru_utime + used.ru_stime


def answers(path):
    with open(path, encoding="utf-8") as lines:
        return [json.loads(line) for line in lines]


def main():
    words = sys.argv[1:]
    length = words[1:2] if words[0] == "--list" else []
    number, rounds, *named = words[2:] if length else words
    programs = dict(word.split("=", 1) for word in named)
    found = {name: [] for name in programs}
    with tempfile.TemporaryDirectory() as folder:
        os.chdir(folder)
        pathlib.Path("lines").write_bytes(subprocess.run([sys.executable, HERE / "lines.py", number, *length], check=True, stdout=subprocess.PIPE).stdout)
        for at in range(int(rounds)):
            for name, command in programs.items():
                file = f"{name}{at}.db"
                with open("lines", "rb") as given, open(f"{name}.out", "wb") as out:
                    began, before = time.perf_counter(), busy()
                    subprocess.run([*shlex.split(command), file], check=True, stdin=given, stdout=out)
                    found[name].append((busy() - before, time.perf_counter() - began))
                for each in pathlib.Path().glob(f"{file}*"):
                    each.unlink()
        first = next(iter(programs))
        wrong = [name for name in programs if answers(f"{name}.out") != answers(f"{first}.out")]
    base = list(found)[min(1, len(found) - 1)]
    for name, times in found.items():
        each = [min(column) for column in zip(*times)]
        print(f"{name:12} processor {each[0]:7.2f} s, {each[0] / min(found[base])[0]:5.2f} times that of {base}; clock {each[1]:7.2f} s")
    if wrong:
        sys.exit(f"other answers than {first}: {wrong}")


main()
