#!/usr/bin/env python3
"""Kills the program at random moments while it changes a database file, and holds what is found afterwards against the documents
before and after the command.

    tests/crash.py PROGRAM [KILLS]

PROGRAM is bson_store or fallowtime, by its name. fallowtime has `put` too, and reads the files as they were left: it plays back no log.
Each time a copy of the files is opened by SQLite itself (Python's sqlite3), which tests its integrity and reads the bodies, and then
the files are opened by the program, which exports them. Both have to find the documents before the command or those after it; of an
import, all or none. Prints how often which was found, and ends with status 1 at the first file in which another state is found.
"""
import pathlib
import random
import shutil
import signal
import sqlite3
import struct
import subprocess
import sys
import tempfile
import time

PROGRAM = sys.argv[1]
KILLS = int(sys.argv[2]) if len(sys.argv) > 2 else 200
IS_FALLOWTIME = pathlib.Path(PROGRAM).name == "fallowtime"
FOLDER = pathlib.Path(tempfile.mkdtemp())
FILE = FOLDER / "crash.db"
SEED = 20261124
# An import is of so many documents.
STREAM = 2000


def document(number, value, pad=0):
    """The bytes of {_id: number, a: value, t: a text of so many characters}."""
    text = b"x" * pad + b"\0"
    inside = b"\x10_id\0" + struct.pack("<i", number) + b"\x10a\0" + struct.pack("<i", value)
    inside += b"\x02t\0" + struct.pack("<i", len(text)) + text
    return struct.pack("<i", len(inside) + 5) + inside + b"\0"


def json_of(number, value):
    return f'{{"_id":{number},"a":{value},"t":""}}'


class Command:
    """Words, their input, and what they make of the documents by number, which stay in the order in which they came."""

    def __init__(self, kind, words, given, after):
        self.kind, self.words, self.given, self.after = kind, words, given, after


def next_command(generator, state, number):
    kinds = ["insert", "import"] + ["replace"] * bool(state) + ["put"] * IS_FALLOWTIME
    kind = generator.choice(kinds)
    after = dict(state)
    if kind == "insert":
        after[number] = document(number, 0)
        return Command(kind, ["insert", "c", json_of(number, 0)], b"", after)
    if kind in ("replace", "put"):
        chosen = generator.choice([*state, *[number] * (kind == "put")])
        after[chosen] = document(chosen, number)
        return Command(kind, [kind, "c", json_of(chosen, number)], b"", after)
    new = {at: document(at, 0, generator.randrange(400)) for at in range(number, number + STREAM)}
    after.update(new)
    return Command(kind, ["import", "c"], b"".join(new.values()), after)


def seconds_of(command):
    """How long the command takes over a copy of the files."""
    with tempfile.TemporaryDirectory() as folder:
        for file in FOLDER.iterdir():
            shutil.copy(file, folder)
        begin = time.monotonic()
        subprocess.run([PROGRAM, pathlib.Path(folder) / FILE.name, *command.words], input=command.given, capture_output=True, check=True)
        return time.monotonic() - begin


def kill(command, seconds):
    """Kills the command after so many seconds, if it hasn't ended, and returns whether it had."""
    with tempfile.TemporaryFile() as given:
        given.write(command.given)
        given.seek(0)
        process = subprocess.Popen([PROGRAM, FILE, *command.words], stdin=given, stdout=subprocess.DEVNULL, stderr=subprocess.DEVNULL)
        time.sleep(seconds)
        process.send_signal(signal.SIGKILL)
        return process.wait() == 0


def by_sqlite():
    """The bodies that SQLite reads from a copy of the files, in the order of their places, if the table is there."""
    with tempfile.TemporaryDirectory() as folder:
        for file in FOLDER.iterdir():
            shutil.copy(file, folder)
        connection = sqlite3.connect(pathlib.Path(folder) / FILE.name)
        fail_unless(connection.execute("pragma integrity_check").fetchall() == [("ok",)], "integrity")
        if not connection.execute("select 1 from sqlite_schema").fetchall():
            return b""
        return b"".join(body for (body,) in connection.execute("select body from documents order by place"))


def by_program():
    if IS_FALLOWTIME and not FILE.exists():
        return b""
    return subprocess.run([PROGRAM, FILE, "export", "c"], capture_output=True, check=True).stdout


def fail_unless(holds, what):
    if not holds:
        print(f"{what}: see {FOLDER}")
        sys.exit(1)


def main():
    generator = random.Random(SEED)
    state, number, found = {}, 0, {}
    for _ in range(KILLS):
        command = next_command(generator, state, number)
        seconds = seconds_of(command)
        has_ended = kill(command, generator.uniform(0, 1.3 * seconds))
        bodies = by_sqlite()
        before, after = (b"".join(it.values()) for it in (state, command.after))
        fail_unless(bodies in (before, after), f"{command.kind}: SQLite reads neither the documents before nor those after")
        fail_unless(by_program() == bodies, f"{command.kind}: the program reads other documents than SQLite")
        fail_unless(bodies == after or not has_ended, f"{command.kind}: it ended, and isn't there")
        kept = "after" if bodies == after else "before"
        if kept == "after":
            state = command.after
        if len(state) > 3 * STREAM:
            state = {}
            for file in FOLDER.iterdir():
                file.unlink()
        number += STREAM
        found[command.kind, kept] = found.get((command.kind, kept), 0) + 1
    for (kind, kept), count in sorted(found.items()):
        print(f"{kind}: the documents {kept} it {count} times")
    shutil.rmtree(FOLDER)


main()
