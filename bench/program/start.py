#!/usr/bin/env python3
"""Counts the instructions of commands of fallowtime over a file, each with its start, beside the same in C over libbson
and SQLite.

    bench/program/start.py PROGRAM BASELINE [COUNT]

PROGRAM is fallowtime, BASELINE bench/program/baseline.c as it was built, COUNT how many orders of some 1 kB the file
has, 20000 if not given. Both read copies of one file, which the program made, and its log. Each is run once, under
callgrind (Debian's valgrind), as instructions are the same at each run but for some thousands; what both print of
`count` has to be the same. Prints a row for each command: millions of instructions of both, and the first by the
second.
"""
import pathlib
import re
import shutil
import subprocess
import sys
import tempfile

ROOT = pathlib.Path(__file__).resolve().parent
PATH, TEXT = "order_lines.0.colour_name", "blue"
QUERY = f'{{"{PATH}":"{TEXT}"}}'
DOCUMENT = '{"_id":-1,"customer_name":"Customer 1","order_number":{"$numberLong":"7"}}'
# Of each command what it is called, and the words of both.
COMMANDS = [
    ("get", ["get", "c", "777"], ["get", "777"]),
    ("count of a quarter", ["count", "c", QUERY], ["count", PATH, TEXT]),
    ("find of a quarter as BSON", ["find", "c", QUERY, "--bson"], ["find", PATH, TEXT]),
    ("find of a quarter as lines", ["find", "c", QUERY, "--canonical"], ["lines", PATH, TEXT]),
    ("export", ["export", "c"], ["export"]),
    ("insert", ["insert", "c", DOCUMENT], ["insert", DOCUMENT]),
]


def count(program, file, words, folder):
    """The instructions of a command over a copy of a file with its log, and what it prints."""
    copy = folder / "copy.db"
    for end in "", "-wal":
        shutil.copy(f"{file}{end}", f"{copy}{end}")
    done = subprocess.run(["valgrind", "--tool=callgrind", f"--callgrind-out-file={folder}/callgrind.out", program, copy, *words],
                          capture_output=True, cwd=folder)
    found = re.search(rb"Collected : (\d+)", done.stderr)
    if done.returncode or not found:
        sys.exit(f"{program} {' '.join(words)}: {done.stderr.decode()[-500:]}")
    for part in folder.glob("copy.db*"):
        part.unlink()
    return int(found[1]), done.stdout


def main():
    programs = [pathlib.Path(word).resolve() for word in sys.argv[1:3]]
    orders = sys.argv[3] if len(sys.argv) > 3 else "20000"
    with tempfile.TemporaryDirectory() as folder:
        folder = pathlib.Path(folder)
        # The name under which it is started says which program it is.
        programs[0] = pathlib.Path(shutil.copy(programs[0], folder / "fallowtime"))
        stream = subprocess.run([sys.executable, ROOT / "documents.py", "orders", orders], capture_output=True, check=True).stdout
        file = folder / "orders.db"
        subprocess.run([programs[0], file, "import", "c"], input=stream, check=True, stdout=subprocess.DEVNULL)
        size = file.stat().st_size / 1e6
        print(f"{orders} orders, {size:.1f} MB; millions of instructions: fallowtime, C, and the first by the second")
        for name, ours, theirs in COMMANDS:
            own, printed = count(programs[0], file, ours, folder)
            other, also = count(programs[1], file, theirs, folder)
            if name.startswith("count") and printed != also:
                sys.exit(f"{name}: {printed!r} and {also!r}")
            print(f"{name}: {own / 1e6:.1f}, {other / 1e6:.1f}, {own / other:.2f}", flush=True)


main()
