#!/usr/bin/env python3
"""Times counts by a field without an index, and sorts of all with a limit, in one session of `fallowtime FILE`.

    bench/program/counts.py PROGRAM BASELINE [ROUNDS]

PROGRAM is the program under the name fallowtime, BASELINE what bench/program/baseline.c was built as. The file has 20000 orders of 1 kB
and lies in memory. Prints, as milliseconds of the processor, the least of ROUNDS, 5 if not given, by turns: of each count in the session, after
the opening; of the same by BASELINE, a process for each; and of sorts in the session.
"""
import json
import os
import pathlib
import resource
import shutil
import subprocess
import sys
import tempfile

DOCUMENTS = pathlib.Path(__file__).resolve().parent / "documents.py"
TEXTS = [("customer_name", "Customer 7"), ("ship_address.city_name", "Graz"), ("order_lines.0.colour_name", "blue")]
SORTS = [{"customer_name": -1}, {"order_number": 1}, {"order_number": -1}]


def spent(session, request):
    """The milliseconds of the processor that a request takes, and its answer."""
    busy = pathlib.Path(f"/proc/{session.pid}/schedstat")
    began = int(busy.read_text().split()[0])
    session.stdin.write(json.dumps(request).encode() + b"\n")
    session.stdin.flush()
    answer = json.loads(session.stdout.readline())
    assert "error" not in answer, answer
    return (int(busy.read_text().split()[0]) - began) / 1e6, answer


def counted(baseline, file, path, text):
    """The same of a count by the baseline, with its start."""
    began = resource.getrusage(resource.RUSAGE_CHILDREN)
    printed = subprocess.run([baseline, file, "count", path, text], check=True, capture_output=True).stdout
    ended = resource.getrusage(resource.RUSAGE_CHILDREN)
    return (ended.ru_utime + ended.ru_stime - began.ru_utime - began.ru_stime) * 1000, int(printed)


def measure(program, baseline, rounds, file):
    orders = subprocess.run([sys.executable, DOCUMENTS, "orders", "20000"], check=True, capture_output=True).stdout
    subprocess.run([program, file, "import", "c"], input=orders, check=True, stdout=subprocess.DEVNULL)
    # The session keeps its file for itself.
    copy = f"{file}-copy"
    for end in "", "-wal":
        if os.path.exists(file + end):
            shutil.copy(file + end, copy + end)
    session = subprocess.Popen([program, file], stdin=subprocess.PIPE, stdout=subprocess.PIPE)
    spent(session, ["collections"])
    for path, text in TEXTS:
        rounds_of_both = [(spent(session, ["count", "c", {path: text}]), counted(baseline, copy, path, text)) for _ in range(rounds)]
        ours, theirs = zip(*rounds_of_both)
        assert ours[0][1]["count"] == theirs[0][1], (ours[0], theirs[0])
        print(f"count by {path}, which finds {theirs[0][1]}: {min(one for one, _ in ours):.1f} ms, C {min(one for one, _ in theirs):.1f} ms")
    ours = [spent(session, ["count", "c", {"order_number": {"$lt": 100}}])[0] for _ in range(rounds)]
    print(f"count by a range of numbers: {min(ours):.1f} ms")
    for keys in SORTS:
        ours = [spent(session, ["find", "c", {}, {"sort": keys, "limit": 10}])[0] for _ in range(rounds)]
        print(f"sort by {keys} with limit 10: {min(ours):.1f} ms")
    session.stdin.close()
    session.wait()


def main():
    if len(sys.argv) < 3:
        sys.exit("counts.py: the words are PROGRAM BASELINE [ROUNDS]")
    with tempfile.TemporaryDirectory(dir="/dev/shm") as folder:
        measure(*map(os.path.abspath, sys.argv[1:3]), int(sys.argv[3]) if len(sys.argv) > 3 else 5, f"{folder}/orders.db")


main()
