#!/usr/bin/python3
"""What requests of many levels take of the stack, and that none is ended by a signal, however little memory or stack there is.

    tests/stack.py PROGRAM [--long | --table]

PROGRAM is the program, under whatever name. Each kind of thing that nests is run with 1, 50 and 100 levels, and the stack that the
process has when it ends is compared with what crates/bson_store_cli/src/stack.rt asks for, and with the table of DECISIONS. Then
requests of 1 to 100 levels are run with 8 to 64 MB of memory (`ulimit -v`) and 64 kB to 8 MB of stack (`ulimit -s`): 400, or with
--long 4000. --table prints the rows of the table, and nothing else is done. Ends with status 1 at the first that isn't as it should be.
Wants python3-pymongo.
"""
import atexit
import ctypes
import os
import pathlib
import random
import re
import resource
import shutil
import signal
import struct
import subprocess
import sys
import tempfile

import bson

ROOT = pathlib.Path(__file__).resolve().parent.parent
FOLDER = pathlib.Path(tempfile.mkdtemp(prefix="stack-"))
atexit.register(shutil.rmtree, FOLDER, ignore_errors=True)
PROGRAM = pathlib.Path(sys.argv[1]).resolve()
LONG, TABLE = "--long" in sys.argv[2:], "--table" in sys.argv[2:]
for name in "fallowtime", "bson_store", "bson_json":
    (FOLDER / name).symlink_to(PROGRAM)
os.chdir(FOLDER)
SEED = 20261201
RUNS = 4000 if LONG else 400
LEVELS = 1, 50, 100
# As much as the worst measured has to stay below what is asked for.
MARGIN = 1.3
# The least memory with which the system loads the program: with less it ends by a signal before it begins.
LEAST = max(8 << 20, PROGRAM.stat().st_size + (1 << 20))
NO_MEMORY = b'{"error":"Memory"}\n'
PTRACE_TRACEME, PTRACE_CONT, PTRACE_SETOPTIONS = 0, 7, 0x4200
PTRACE_O_TRACEEXIT, PTRACE_O_EXITKILL, PTRACE_EVENT_EXIT = 0x40, 0x100000, 6
C = ctypes.CDLL(None, use_errno=True)
C.ptrace.argtypes = [ctypes.c_long, ctypes.c_long, ctypes.c_void_p, ctypes.c_void_p]
C.ptrace.restype = ctypes.c_long


def fail(text):
    print(text)
    sys.exit(1)


def constant(name):
    """A number of stack.rt, in bytes."""
    text = (ROOT / "crates/bson_store_cli/src/stack.rt").read_text(encoding="utf-8")
    found = re.search(rf"^const {name}: usize = (\d+) << (\d+);", text, re.M)
    return int(found[1]) << int(found[2])


BASE, LEVEL, DEEP = map(constant, ("BASE", "LEVEL", "DEEP"))


# ---- What nests. Each returns the words, the input and how many levels the words have.
def around(opening, core, closing, count):
    return opening * count + core + closing * count


def asked(levels, query):
    return ["fallowtime", "shop.db", "count", "c", query], b"", levels


def chain(operator):
    """Queries in which one operator is inside the other, a level each."""
    return lambda levels: asked(levels, '{"a":' * min(levels - 1, 1) + around(f'{{"{operator}":', '{"$gt":0}', "}", max(levels - 2, 0)) + "}"
                                if levels > 1 else '{"a":1}')


def lists(operator):
    """Queries in which one operator has a list of one query, two levels each."""
    return lambda levels: asked(levels, around(f'{{"{operator}":[', '{"a":1}', "]}", (levels - 1) // 2))


def members(levels):
    return asked(levels, around('{"a":', "1", "}", levels))


def items(levels):
    return asked(levels, '{"a":' + around("[", "1", "]", levels - 1) + "}")


def pipeline(levels):
    query = around('{"$nor":[', '{"a":1}', "]}", max(levels - 3, 0) // 2)
    return ["fallowtime", "shop.db", "aggregate", "c", f'[{{"$match":{query}}}]'], b"", levels


def update(levels):
    value = around('{"a":', "1", "}", min(max(levels - 2, 0), 95))
    return ["fallowtime", "shop.db", "update", "changed", '{"_id":1}', f'{{"$set":{{"b":{value}}}}}'], b"", levels


def put(levels):
    return ["fallowtime", "shop.db", "put", "d", '{"_id":1,"a":' + around("[", "1", "]", min(levels - 1, 98)) + "}"], b"", levels


def put_scopes(levels):
    scopes = around('{"$code":"","$scope":{"a":', "1", "}}", min(levels - 1, 96) // 2)
    return ["fallowtime", "shop.db", "put", "d", f'{{"_id":1,"a":{scopes}}}'], b"", levels


def get(levels):
    return ["fallowtime", "shop.db", "get", "c", str(min(levels, 98))], b"", 0


def pattern(levels):
    return ["fallowtime", "shop.db", "count", "c", '{"s":{"$regex":"%s"}}' % around("(", "a", ")", 2 * levels)], b"", 2


def nested_filter(levels):
    return ["bson_store", "shop.db", "count", "c", around('{"not":', '{"all":[]}', "}", max(levels - 2, 0))], b"", levels


def list_of_filters(levels):
    return ["bson_store", "shop.db", "count", "c", around('{"and":[', '{"all":[]}', "]}", max(levels - 2, 0) // 2)], b"", levels


def line(levels):
    query = around('{"a":{"$elemMatch":', '{"a":1}', "}}", max(levels - 3, 0) // 2)
    return ["fallowtime", "shop.db"], b'["count","c",{"a":1}]\n' + f'["count","c",{query}]\n'.encode(), None


def listed(levels):
    query = around('{"$nor":[', '{"a":1}', "]}", max(levels - 3, 0) // 2)
    return ["fallowtime", "shop.db", "apply"], f'["count","c",{query}]\n'.encode(), None


def nested_bson(levels, tag=3, core=b"\x10a\x00\x01\x00\x00\x00"):
    body = struct.pack("<i", len(core) + 5) + core + b"\0"
    for _ in range(levels - 1):
        inner = bytes([tag]) + b"a\0" + body
        body = struct.pack("<i", len(inner) + 5) + inner + b"\0"
    return body


def message(levels):
    command = b"\x02find\0\x02\0\0\0c\0\x03filter\0" + nested_bson(levels) + b"\x02$db\0\x05\0\0\0shop\0"
    payload = bytes(5) + struct.pack("<i", len(command) + 5) + command + b"\0"
    return ["fallowtime", "shop.db", "--messages"], struct.pack("<iiii", 16 + len(payload), 1, 0, 2013) + payload, None


def documents(levels):
    return ["bson_json"], nested_bson(levels), None


def scopes_of_bson(levels):
    body = bson.encode({"a": 1})
    for _ in range(levels // 2):
        inner = b"\x0fa\0" + struct.pack("<ii", len(body) + 9, 1) + b"\0" + body
        body = struct.pack("<i", len(inner) + 5) + inner + b"\0"
    return ["bson_json"], body, None


def texts(levels):
    return ["bson_json", "--to-bson"], around('{"a":', "1", "}", levels).encode() + b"\n", None


KINDS = {
    "a query of `$not`": chain("$not"),
    "a query of `$elemMatch`": chain("$elemMatch"),
    "a query of `$nor`": lists("$nor"),
    "a query of `$and`": lists("$and"),
    "a document in a query": members,
    "an array in a query": items,
    "a pipeline": pipeline,
    "an update": update,
    "a document that is put in": put,
    "scopes that are put in": put_scopes,
    "a document that is printed": get,
    "a pattern, two groups a level": pattern,
    "a filter of `not`": nested_filter,
    "a filter of `and`": list_of_filters,
    "a line of a session": line,
    "a list of requests": listed,
    "a message": message,
    "BSON to JSON": documents,
    "scopes of BSON to JSON": scopes_of_bson,
    "JSON to BSON": texts,
}
# What goes deeper than the levels of JSON: documents that are refused for their levels, and patterns for their groups or brackets.
DEEPEST = [
    ("BSON to JSON, 1001 levels", documents, 1001),
    ("scopes of BSON to JSON, 2002 levels", scopes_of_bson, 2002),
    ("a message, 1001 levels", message, 1001),
    ("a pattern, 240 groups", pattern, 120),
    ("a pattern, 40000 groups", pattern, 20000),
]


# ---- Runs.
def run(words, given, memory=None, stack=None):
    """The status, which is negative if a signal ended it, and what was printed and reported."""
    def limit():
        resource.setrlimit(resource.RLIMIT_CORE, (0, 0))
        for resource_, most in (resource.RLIMIT_AS, memory), (resource.RLIMIT_STACK, stack):
            if most is not None:
                resource.setrlimit(resource_, (most, most))
    done = subprocess.run([f"./{words[0]}", *words[1:]], input=given, capture_output=True, preexec_fn=limit, env={}, timeout=120)
    return done.returncode, done.stdout, done.stderr


def stack_at_end(words, given):
    """How many bytes of stack a process has as it ends, besides its words: it is traced, and stopped there."""
    read, write = os.pipe()
    pid = os.fork()
    if pid == 0:
        os.close(write)
        os.dup2(read, 0)
        nothing = os.open("/dev/null", os.O_WRONLY)
        os.dup2(nothing, 1)
        os.dup2(nothing, 2)
        C.ptrace(PTRACE_TRACEME, 0, None, None)
        os.execve(f"./{words[0]}", words, {})
    os.close(read)
    os.waitpid(pid, 0)
    C.ptrace(PTRACE_SETOPTIONS, pid, None, PTRACE_O_TRACEEXIT | PTRACE_O_EXITKILL)
    C.ptrace(PTRACE_CONT, pid, None, None)
    with open(write, "wb") as pipe:
        pipe.write(given)
    while True:
        _, status = os.waitpid(pid, 0)
        if status >> 8 == signal.SIGTRAP | PTRACE_EVENT_EXIT << 8:
            found = re.search(r"^VmStk:\s*(\d+) kB", pathlib.Path(f"/proc/{pid}/status").read_text(), re.M)
            C.ptrace(PTRACE_CONT, pid, None, None)
            _, status = os.waitpid(pid, 0)
            if os.WIFSIGNALED(status):
                fail(f"{words}: ended by signal {os.WTERMSIG(status)}"[:2000])
            return (int(found[1]) << 10) - sum(len(word) for word in words)
        if not os.WIFSTOPPED(status):
            fail(f"{words}: the end of the process wasn't seen, but {status}")
        C.ptrace(PTRACE_CONT, pid, None, os.WSTOPSIG(status))


def bound_of(words, levels):
    """How many bytes the program asks for."""
    if levels is None:
        return DEEP if words[0] == "bson_json" or "--messages" in words else BASE + 128 * LEVEL
    return BASE + levels * LEVEL


def measured():
    """The rows of the table: of each kind what the levels take, in kB."""
    for kind, make in KINDS.items():
        row = []
        for levels in LEVELS:
            words, given, deep = make(levels)
            taken = stack_at_end(words, given)
            if taken * MARGIN > bound_of(words, deep):
                fail(f"{kind}, {levels} levels: {taken} bytes of stack, with {MARGIN} times as many over {bound_of(words, deep)}")
            row.append(taken >> 10)
        yield kind, row
    for kind, make, levels in DEEPEST:
        words, given, deep = make(levels)
        taken = stack_at_end(words, given)
        if taken * MARGIN > bound_of(words, deep):
            fail(f"{kind}: {taken} bytes of stack, with {MARGIN} times as many over {bound_of(words, deep)}")
        yield kind, [taken >> 10]


def make_store():
    for number in range(1, 99):
        document = '{"_id":%d,"s":"aaa","a":%s}' % (number, around("[", "1", "]", number) if number % 2 else around('{"a":', "1", "}", number))
        if run(["fallowtime", "shop.db", "put", "c", document], b"") != (0, b"", b""):
            fail(f"document {number} isn't put in")
    if run(["fallowtime", "shop.db", "put", "changed", '{"_id":1}'], b"") != (0, b"", b""):
        fail("the document for updates isn't put in")


def rows_of_page(column):
    """The rows of the table of DECISIONS, by their kinds, as this column has them: numbers, or none yet."""
    text = (ROOT / "docs/development/DECISIONS.md").read_text(encoding="utf-8")
    table = text.partition("### The stack of a request")[2].partition("\n### ")[0]
    rows = [[cell.strip() for cell in row.strip("|").split("|")] for row in map(str.strip, table.splitlines()) if row.startswith("|")]
    return {cells[0]: list(map(int, re.findall(r"\d+", cells[column]))) for cells in rows[2:]}


def compare_with_page():
    """No kind may take more than its row of the page says in the column of this build, once that has numbers."""
    quick = PROGRAM.parent.name == "quick"
    page = rows_of_page(1 if quick else 2)
    for kind, row in measured():
        written = page.get(kind)
        if written is None or quick and not written or written and any(map(int.__gt__, row, written)):
            fail(f"{kind}: takes {row} kB, and DECISIONS has {written}")
        print(f"{kind}: {row} kB of stack", flush=True)


def is_well(found, wanted):
    """Whether a run with little memory did as it does with all, or was refused by name; so may be a line of a session, or a message.
    With 127 the system says that it can't load the program."""
    if found == wanted or (found[0] == 1 and found[2].startswith(b"refused: Memory")) or found[0] == 127:
        return True
    lines, whole = found[1].splitlines(keepends=True), wanted[1].splitlines(keepends=True)
    if found[0] == wanted[0] and len(lines) == len(whole) and all(one in (other, NO_MEMORY) for one, other in zip(lines, whole)):
        return True
    return found[0] == 0 and b"ExceededMemoryLimit" in found[1]


def try_little():
    """Random runs with little memory and stack."""
    chance, known, done = random.Random(SEED), {}, {"as with all": 0, "refused": 0, "not loaded": 0}
    for number in range(RUNS):
        kind, make = chance.choice(list(KINDS.items()))
        levels = chance.randint(1, 100)
        words, given, _ = make(levels)
        memory = chance.randint(LEAST, 64 << 20)
        stack = int((64 << 10) * 128 ** chance.random())
        if (kind, levels) not in known or make is update:
            # (a change is another one the first time)
            run(words, given)
            known[kind, levels] = run(words, given)
        found = run(words, given, memory, stack)
        if not is_well(found, known[kind, levels]):
            fail(f"{kind}, {levels} levels, {memory} bytes of memory, {stack} of stack: {found!r}"[:2000])
        done["not loaded" if found[0] == 127 else "as with all" if found == known[kind, levels] else "refused"] += 1
    print(f"{RUNS} runs with little memory and stack: {done}")
    if not done["as with all"] or not done["refused"]:
        fail("they are all alike")


make_store()
if not TABLE and PROGRAM.parent.name != "quick" and not any(rows_of_page(2).values()):
    # (nothing is known of this build: --table measures it)
    print("DECISIONS has no numbers of the proved program yet")
elif TABLE:
    for kind, row in measured():
        print(f"| {kind} | {', '.join(map(str, row))} |")
else:
    compare_with_page()
    try_little()
    print("all as it should be")
