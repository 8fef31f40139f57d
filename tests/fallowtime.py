#!/usr/bin/python3
"""Runs the program fallowtime, one command after the other: each command and option, with what it prints and its status; numbers, ids
and texts that can't be read in all their spellings; queries; and documents made at random, beside Python's bson.

    tests/fallowtime.py PROGRAM [DOCUMENTS]

PROGRAM is fallowtime, under whatever name. DOCUMENTS is how many are made at random, 60 if not given (300 in a long run). Prints one line a step, and ends
with status 1 at the first that isn't as it should be. A command that only reads, or whose words can't be read, must leave each file of
the folder as it is. Files that other processes have, or that can't be had, are for tests/fallowtime_files.py. Wants sqlite3.
"""
import atexit
import base64
import datetime
import itertools
import json
import math
import os
import pathlib
import random
import shutil
import sqlite3
import struct
import subprocess
import sys
import tempfile
import time

try:
    import bson
    from bson import decimal128, json_util
except ImportError:
    sys.exit("fallowtime.py: needs sqlite3 and Python's bson, of Debian: apt-get install sqlite3 python3-pymongo")

sys.path.insert(0, str(pathlib.Path(__file__).resolve().parent))
import amounts  # noqa: E402
from customers import ASKED, CUSTOMERS  # noqa: E402
from page_reader import (ARRAY, BINARY, BOOLEAN, CODE, DATE, DECIMAL, DOCUMENT, DOUBLE, INT32, INT64, MAX_KEY, MIN_KEY, NULL,  # noqa: E402
                         OBJECT_ID, OLD_BINARY, POINTER, REGEX, SCOPED, STRING, SYMBOL, TIMESTAMP, UNDEFINED)
from random_documents import settle, whole, written  # noqa: E402

ROOT = pathlib.Path(__file__).resolve().parent.parent
PROGRAM = os.path.abspath(sys.argv[1])
DOCUMENTS = int(sys.argv[2]) if len(sys.argv) > 2 else amounts.amount(60, 300)
FOLDER = pathlib.Path(tempfile.mkdtemp(prefix="fallowtime-"))
atexit.register(shutil.rmtree, FOLDER, ignore_errors=True)
os.chdir(FOLDER)
FILE = "shop.db"
USAGE = (2, b"", "words: usage\n")
LONGEST = 16777216
# For each command places that fit, and its options beside --wait.
COMMANDS = {
    "insert": (["c", "{}"], ["--canonical"]),
    "put": (["c", '{"_id":1}'], []),
    "replace": (["c", '{"_id":1}'], []),
    "get": (["c", "1"], ["--canonical", "--bson"]),
    "set": (["c", "1", "k", "1"], ["--key"]),
    "unset": (["c", "1", "k"], ["--key"]),
    "update": (["c", "{}", '{"$set":{"a":1}}'], ["--many"]),
    "replace-one": (["c", "{}", "{}"], []),
    "delete": (["c", "{}"], ["--many"]),
    "find-and-update": (["c", "{}", '{"$set":{"a":1}}'], ["--canonical", "--bson", "--sort", "--skip", "--limit", "--after"]),
    "find-and-replace": (["c", "{}", "{}"], ["--canonical", "--bson", "--sort", "--skip", "--limit", "--after"]),
    "find-and-delete": (["c", "{}"], ["--canonical", "--bson", "--sort", "--skip", "--limit"]),
    "remove": (["c", "1"], []),
    "find": (["c"], ["--canonical", "--bson", "--sort", "--skip", "--limit"]),
    "count": (["c"], ["--skip", "--limit"]),
    "import": (["c"], ["--json", "--upsert", "--skip-existing"]),
    "export": (["c"], []),
    "drop": (["c"], []),
    "rename": (["c", "d"], ["--drop"]),
    "copy": (["c", "d"], []),
    "collections": ([], []),
    "check": ([], []),
    "backup": (["copy.db"], []),
    "apply": ([], []),
}
READERS = ["get", "find", "count", "export", "collections", "check"]
chance = random.Random(amounts.seed(20261126))
steps = 0


def holds(step, found, wanted):
    global steps
    steps += 1
    if found != wanted:
        print(f"{step}: {found!r}"[:2000], f"in place of {wanted!r}"[:2000])
        sys.exit(1)
    print(f"{step}: {found!r}"[:150])


def run(*words, given=b"", name="fallowtime"):
    done = subprocess.run([name, FILE, *words], executable=PROGRAM, input=given, capture_output=True)
    return done.returncode, done.stdout, done.stderr.decode()


def state():
    """Each file, byte for byte, with the time of its last change."""
    return {path.name: (path.read_bytes(), path.stat().st_mtime_ns) for path in FOLDER.iterdir()}


def check(line, wanted, given=b""):
    """Runs the words of a line, which are parted at each space, or those of a list, which may have any. Behind a refused change FILE has
    the bytes that it had; behind what only reads, and words that can't be read, each file is as it was.
    """
    words = line.split(" ") if isinstance(line, str) else line
    before = state()
    holds(str(line)[:200], run(*words, given=given), wanted)
    after = state()
    if wanted[0] == 1 and words[0] not in READERS:
        before, after = before.get(FILE, [None])[0], after.get(FILE, [None])[0]
    elif wanted[0] == 0 and words[0] not in READERS:
        return
    if before != after:
        holds(f"{line}: files that changed", after, before)


def done(line, *lines, given=b""):
    check(line, (0, "".join(f"{text}\n" for text in lines).encode(), ""), given)


def refused(line, told, given=b"", out=b""):
    check(line, (1, out, f"refused: {told}\n"), given)


def unread(line, told, given=b""):
    check(line, (2, b"", f"words: {told}\n"), given)


def start(name):
    """The commands behind this are over another file."""
    global FILE
    FILE = name


def body_of(document):
    """The document as BSON, with its keys in their order; bson.encode puts an _id first."""
    elements = b"".join(bson.encode({key: value})[4:-1] for key, value in document.items())
    return struct.pack("<i", len(elements) + 5) + elements + b"\0"


# ---- Words: no command takes a word less or more, nor another's option, nor one twice, and both forms of output exclude each other.
for words in [["frob"], ["frob", "c"], ["Insert", "c", "{}"], ["--canonical"], ["--wait"], ["insert--canonical", "c", "{}"]]:
    check(words, USAGE)
OPTIONS = [["--canonical"], ["--bson"], ["--json"], ["--wait", "0"], ["--wait", "1"], ["--pretty"], ["--sort", "a:-1,b"], ["--skip", "1"], ["--limit", "0"]]


def pairs_of_options(own):
    """Two options, one behind the other: those that fit a command in each order, and of the others a part, or all."""
    pairs = list(itertools.permutations(OPTIONS, 2))
    fitting = [pair for pair in pairs if all(option[0] in [*own, "--wait"] for option in pair)]
    others = [pair for pair in pairs if pair not in fitting]
    return fitting + chance.sample(others, amounts.amount(6, len(others)))


for command, (places, own) in COMMANDS.items():
    start("none/none.db")
    for count in range(len(places)):
        check([command, *places[:count]], USAGE)
    most = [*places, "{}"] if command in ("find", "count") else places
    for word in "{}", "x", "":
        check([command, *most, word], USAGE)
    for options in [(), *itertools.permutations(OPTIONS, 1), *pairs_of_options(own)]:
        names = [option[0] for option in options]
        fits = all(name in [*own, "--wait"] for name in names) and names != ["--wait"] * 2 and sorted(names) != ["--bson", "--canonical"]
        found = run(command, *places, *itertools.chain(*options))
        holds(f"{command} {options}", (found == USAGE, found[0]), (not fits, 1 if fits else 2))
    for seconds in ["", "-1", "+1", "1.5", "1s", " 1", "18446744073709551616", "x"]:
        check([command, *places, "--wait", seconds], USAGE)
    check([command, *places, "--wait"], USAGE)
    lacking = "NoFile" if command in READERS else "NoFolder"
    check([command, "--wait", "0", *places], USAGE if places else (1, b"", f"refused: {lacking}\n"))
start("-shop.db")
check("collections", USAGE)
start("shop.db")
for words in ["insert", "c", b'{"_id":1,"a":"\xff"}'], ["get", "c", b"\xff"], ["get", b"\xff", "1"], ["get", "c", "1", b"\xff"]:
    check(words, USAGE)
holds("bad UTF-8 in the name of a file", subprocess.run(["fallowtime", b"\xff.db", "collections"], executable=PROGRAM, capture_output=True).stderr,
      b"words: usage\n")
holds("nothing was made", os.listdir(), [])

# ---- Each command in turn.
done('insert orders {"_id":1,"price":1.5,"city":"Ulm"}', "1")
done('insert orders {"_id":{"$numberLong":"2"},"price":1.0,"lines":[{"count":3,"article":"tea"}]} --canonical', '{"$numberLong":"2"}')
done('insert orders {"z":1,"_id":"A-4","a":null}', '"A-4"')
ONE = '{"_id":1,"price":1.5,"city":"Ulm"}'
TWO = '{"_id":2,"price":1.0,"lines":[{"count":3,"article":"tea"}]}'
A4 = '{"z":1,"_id":"A-4","a":null}'
CANONICAL = '{"_id":{"$numberInt":"1"},"price":{"$numberDouble":"1.5"},"city":"Ulm"}'
BODIES = [body_of(body) for body in [{"_id": 1, "price": 1.5, "city": "Ulm"}, {"z": 1, "_id": "A-4", "a": None},
                                     {"_id": bson.Int64(2), "price": 1.0, "lines": [{"count": 3, "article": "tea"}]}]]
done("get orders 1", ONE)
done("get orders 1 --canonical", CANONICAL)
check("get orders 1 --bson", (0, BODIES[0], ""))
done('get orders {"$numberLong":"2"}', TWO)
refused("get orders 2", "NotFound _id 2")
done("get orders A-4", A4)
done('get orders "A-4"', A4)
done("find orders", ONE, TWO, A4)
done("find orders --canonical --wait 0", CANONICAL, '{"_id":{"$numberLong":"2"},"price":{"$numberDouble":"1.0"},"lines":[{"count":'
     '{"$numberInt":"3"},"article":"tea"}]}', '{"z":{"$numberInt":"1"},"_id":"A-4","a":null}')
done('find orders {"price":1}', TWO)
done("find orders --sort price", A4, TWO, ONE)
done("find orders --sort price:-1", ONE, TWO, A4)
done("find orders --sort city:-1,_id:1", ONE, TWO, A4)
done("find orders --sort nothing", ONE, TWO, A4)
done("find orders --limit 2", ONE, TWO)
done("find orders --skip 1", TWO, A4)
done("find orders --skip 1 --limit 1 --wait 1", TWO)
done("find orders --limit 1 --sort price:-1 --skip 1", TWO)
done("find orders --skip 18446744073709551615 --limit 18446744073709551615")
done("find orders --limit 0")
done('find orders {"price":{"$gt":1}} --sort _id --limit 9', ONE)
for option in "--skip", "--limit":
    for number in ["", "-1", "+1", "1.5", " 1", "18446744073709551616", "x"]:
        check(["find", "orders", option, number], USAGE)
for option in "--sort", "--skip", "--limit":
    check(["find", "orders", option], USAGE)
    check(["find", "orders", option, "1", option, "1"], USAGE)
check(["count", "orders", "--sort", "1"], USAGE)
check('find orders {"city":"Ulm"} --wait 007 --bson', (0, BODIES[0], ""))
check("find orders --bson", (0, BODIES[0] + BODIES[2] + BODIES[1], ""))
check("export orders", (0, BODIES[0] + BODIES[2] + BODIES[1], ""))
done("count orders", "3")
done('count orders {"price":{"$exists":true}} --wait 18446744073709551615', "2")
for options, count in [("--limit 2", 2), ("--limit 0", 0), ("--limit 9", 3), ("--skip 1", 2), ("--skip 3", 0), ("--skip 9", 0), ("--skip 1 --limit 1", 1), ("--limit 3 --skip 2", 1),
                       ("--skip 18446744073709551615 --limit 18446744073709551615", 0), ('{"price":{"$exists":true}} --limit 1', 1)]:
    done(f"count orders {options}", str(count))
    if options.startswith("--"):
        holds("as many as are found", len(run(*f"find orders {options}".split())[1].splitlines()), count)
done("collections", "orders")
done("check --wait 0", "3")
refused('insert orders {"_id":1}', "DuplicateId _id 1")
refused('replace orders {"_id":9}', "NotFound _id 9")
done('put orders {"_id":9,"b":1,"a":2.5}')
done('put orders {"a":0.1,"_id":1}')
done('replace orders {"_id":"A-4","k":[]}')
done("find orders", '{"a":0.1,"_id":1}', TWO, '{"_id":"A-4","k":[]}', '{"_id":9,"b":1,"a":2.5}')
done('set orders 9 b "x"')
done('set orders 9 c {"z":1,"a":[1.5,{"y":1,"b":2}]}')
done("get orders 9", '{"_id":9,"b":"x","a":2.5,"c":{"z":1,"a":[1.5,{"y":1,"b":2}]}}')
done("unset orders 9 c", "true")
done("unset orders 9 c", "false")
done(["set", "orders", "9", "", "null"])
done('set orders 9 --wait "--json" --wait 0')
done("get orders 9", '{"_id":9,"b":"x","a":2.5,"":null,"--wait":"--json"}')
done(["unset", "orders", "9", ""], "true")
done("unset orders 9 --wait", "true")
# A path of several keys is one of $set and $unset, and with --key it is one key.
done("set orders 9 to.city 1.5")
done("set orders 9 to.name {} --key --wait 0")
done("set orders 9 to.zip 2 --wait 0")
done("get orders 9", '{"_id":9,"b":"x","a":2.5,"to":{"city":1.5,"zip":2},"to.name":{}}')
refused("set orders 9 to.city.x 1", "Through document 0")
for line, fault in [("set orders 9 to..city 1", "$set to..city is no path of keys"), ("set orders 9 to.$city 1", "$set to.$city is no path of keys"),
                    ("unset orders 9 .to", "$unset .to is no path of keys"), ("unset orders 9 _id.x", "$unset _id.x is of the _id, which is never changed")]:
    check(line, (2, b"", f"words: update {fault}\n"))
refused("unset orders 9 to.city.x", "Through document 0")
done("unset orders 9 to.city", "true")
done("unset orders 9 to.city --wait 0", "false")
done("unset orders 9 to.name --key", "true")
done("get orders 9", '{"_id":9,"b":"x","a":2.5,"to":{"zip":2}}')
done("unset orders 9 to --key", "true")
for line in ["set orders 8 a.b 1", "unset orders 8 a.b", "set orders 8 a 1", "unset orders 8 a", "remove orders 8", "get orders 8", "get orders 8 --bson"]:
    refused(line, "NotFound _id 8")
for line in "set orders 9 _id 1", "unset orders 9 _id", "set orders 8 _id 1":
    refused(line, "BadKey")
for line in 'put ups {"_id":1,"n":1}', 'put ups {"_id":2,"n":9223372036854775807}', 'put ups {"_id":3,"n":"x"}':
    done(line)
for line, counts in [("update none {} $", (0, 0)), ("update ups {} $", (1, 1)), ("update ups {} $", (1, 0)), ("update ups {} $ --many", (3, 2)),
                     ("update ups {} $ --many", (3, 0)), ('update ups {"_id":{"$ne":2}} $ --many', (2, 0)), ('update ups {"n":7} $', (0, 0))]:
    done([word.replace("$", '{"$set":{"a.b":1.5},"$unset":{"c":1}}') if word == "$" else word for word in line.split(" ")], '{"matched":%d,"changed":%d}' % counts)
done("find ups", '{"_id":1,"n":1,"a":{"b":1.5}}', '{"_id":2,"n":9223372036854775807,"a":{"b":1.5}}', '{"_id":3,"n":"x","a":{"b":1.5}}')
# A document has the date at which it was updated, by a query that knows a date.
BEFORE = int(time.time() * 1000)
done('update ups {"_id":3} {"$currentDate":{"at":true}}', '{"matched":1,"changed":1}')
for line, count in [('{"$gte":{"$date":{"$numberLong":"%d"}},"$lte":{"$date":{"$numberLong":"%d"}}}' % (BEFORE, time.time() * 1000), 1), ('{"$exists":true}', 1)]:
    done(["count", "ups", '{"at":%s}' % line], str(count))
check('update ups {} {"$currentDate":{"at":1}}', (2, b"", "words: update $currentDate at takes no such value\n"))
done('update ups {"_id":3} {"$unset":{"at":1}}', '{"matched":1,"changed":1}')
# One that is refused refuses all, by its place among those that are selected; and nothing is changed.
for line, kind in [('update ups {} {"$inc":{"n":1}} --many', "Overflow document 1"), ('update ups {"_id":{"$ne":2}} {"$inc":{"n":1}} --many', "NotANumber document 1"),
                   ('update ups {"_id":3} {"$mul":{"n":2}}', "NotANumber document 0"), ('update ups {} {"$set":{"m":1,"n.x":1}} --many', "Through document 0"),
                   ('update ups {"_id":1} {"$push":{"n":1}} --many', "NotAnArray document 0"), ('update ups {} {"$inc":{"n":{"$numberDecimal":"1"}}}', "Decimal document 0"),
                   (["update", "", "{}", "{}"], "BadName"), (["update", "ups", "{}", '{"$set":{"a\\u0000":1}}', "--many"], "Nul document 0")]:
    refused(line, kind)
done("find ups", '{"_id":1,"n":1,"a":{"b":1.5}}', '{"_id":2,"n":9223372036854775807,"a":{"b":1.5}}', '{"_id":3,"n":"x","a":{"b":1.5}}')
done('update ups {"_id":1} {"$inc":{"n":1},"$push":{"l":{"$each":[2,1]}},"$rename":{"a.b":"b"},"$min":{"m":-1}}', '{"matched":1,"changed":1}')
done("get ups 1", '{"_id":1,"n":2,"a":{},"l":[2,1],"b":1.5,"m":-1}')
# The first of those that are selected is replaced, and keeps its _id; a document with another one is refused.
for line in 'put rep {"_id":{"a":1,"b":2},"n":1}', 'put rep {"n":2,"_id":2}', 'put rep {"_id":3,"n":2}':
    done(line)
for line, count, changed in [("replace-one none {} {}", 0, 0), ('replace-one rep {"n":7} {"_id":9}', 0, 0), ('replace-one rep {"n":2} {"x":1.5,"n":[2]}', 1, 1),
                             ('replace-one rep {"n":2} {"x":1.5,"n":[2]}', 1, 0), ('replace-one rep {"_id":3} {"z":{"y":1,"x":2},"_id":3,"a":2}', 1, 1),
                             ('replace-one rep {} {"m":2,"_id":{"b":2,"a":1}}', 1, 1)]:
    done(line, '{"matched":%d,"changed":%d}' % (count, changed))
REPLACED = '{"m":2,"_id":{"a":1,"b":2}}', '{"_id":2,"x":1.5,"n":[2]}', '{"z":{"y":1,"x":2},"_id":3,"a":2}'
done("find rep", *REPLACED)
for line, kind in [('replace-one rep {"_id":3} {"_id":4}', "Id document 0"), ('replace-one rep {"_id":3} {"_id":3.0}', "Id document 0"), ('replace-one rep {"a":2} {"_id":2}', "Id document 0"),
                   (["replace-one", "rep", "{}", '{"a\\u0000":1}'], "Nul document 0"), (["replace-one", "", "{}", "{}"], "BadName")]:
    refused(line, kind)
done("find rep", *REPLACED)
# The first that is found, by the options of find, is changed and printed, as it was or as it is; none found is no refusal.
for line, *printed in [('find-and-update rep {"_id":2} {"$inc":{"x":1}}', REPLACED[1]), ('find-and-update rep {"_id":2} {"$inc":{"x":1}} --after', '{"_id":2,"x":3.5,"n":[2]}'),
                       ('find-and-update rep {"_id":9} {"$inc":{"x":1}} --after',), ('find-and-update rep {} {"$inc":{"x":1}} --limit 0',), ('find-and-delete rep {"_id":9}',),
                       ('find-and-update rep {} {"$set":{"a":7}} --sort _id:-1 --after --fields a', '{"_id":{"a":1,"b":2},"a":7}'),
                       ('find-and-replace rep {"_id":{"$lt":9}} {"q":1} --skip 1 --without _id', '{"z":{"y":1,"x":2},"a":2}'),
                       ('find-and-replace rep {"_id":3} {"x":1.5,"_id":3} --after', '{"x":1.5,"_id":3}'),
                       ('find-and-delete rep {} --sort x --canonical', '{"m":{"$numberInt":"2"},"_id":{"a":{"$numberInt":"1"},"b":{"$numberInt":"2"}},"a":{"$numberInt":"7"}}'),
                       ("find rep", '{"_id":2,"x":3.5,"n":[2]}', '{"x":1.5,"_id":3}')]:
    done(line, *printed)
for line, kind in [('find-and-update rep {} {"$inc":{"n":1}}', "NotANumber document 0"), ('find-and-replace rep {} {"_id":4}', "Id document 0"),
                   (["find-and-replace", "rep", "{}", '{"a\\u0000":1}'], "Nul document 0"), (["find-and-delete", "", "{}"], "BadName")]:
    refused(line, kind)
done("find rep", '{"_id":2,"x":3.5,"n":[2]}', '{"x":1.5,"_id":3}')
done('delete rep {} --many', "2")
for line, count in [('delete ups {"n":7}', 0), ("delete none {} --many", 0), ('delete ups {"_id":{"$gt":1}}', 1), ("delete ups {} --many", 2), ("delete ups {} --many", 0)]:
    done(line, str(count))
    if count == 1:
        done("find ups", '{"_id":1,"n":2,"a":{},"l":[2,1],"b":1.5,"m":-1}', '{"_id":3,"n":"x","a":{"b":1.5}}')
done("find ups")
refused(["delete", "", "{}"], "BadName")
for words in ["put whole {\"_id\":2,\"a\":{}}", "put whole {\"_id\":1}", "put other {\"_id\":1}"]:
    done(words)
for line, printed in [("copy whole copied", "2"), ("find copied", ['{"_id":2,"a":{}}', '{"_id":1}']), ("rename copied moved", "2"), ("find copied", []),
                      ("find moved", ['{"_id":2,"a":{}}', '{"_id":1}']), ("find whole", ['{"_id":2,"a":{}}', '{"_id":1}']), ("drop moved", "2"), ("find moved", []),
                      ("drop moved", "0"), ("drop other", "1"), ("rename whole other", "2"), ("count other", "2"), ("drop other", "2")]:
    done(line, *([printed] if isinstance(printed, str) else printed))
done('put whole {"_id":2}')
for words, kind in [("rename none new", "NotFound"), ("copy none whole", "NotFound"), ("rename whole whole", "DuplicateId"), ("copy whole whole", "DuplicateId"),
                    (["copy", "whole", ""], "BadName"), (["rename", "", "whole"], "BadName"), (["drop", ""], "BadName")]:
    refused(words, kind)
done('put other {"_id":3}')
done('put other {"_id":2}')
for words, kind in [("rename whole other", "DuplicateId"), ("rename whole whole --drop", "DuplicateId"), ("rename none other --drop", "NotFound"), ("rename none none --drop", "NotFound"),
                    (["rename", "whole", "", "--drop"], "BadName")]:
    refused(words, kind)
done("find other", '{"_id":3}', '{"_id":2}')
for words in ["copy whole other --drop", "drop other --drop", "rename whole other --drop --drop"]:
    check(words, USAGE)
done("rename whole other --drop", "1")
done("find other", '{"_id":2}')
done("find whole")
done("rename other whole --drop", "1")
done("drop whole", "1")

# An import of documents whose _id is there, in the collection or in front of it in the input: refused, in the place of the others, left out.
THERE = ['{"_id":1,"a":1}', '{"_id":2,"a":1}']
COMES = ['{"_id":2,"a":2}', '{"_id":3.0,"a":2}', '{"_id":2,"a":3}', '{"_id":4}']
for options, given in [("", "".join(f"{line}\n" for line in COMES).encode()), ("bson", b"".join(bson.encode(json.loads(line)) for line in COMES))]:
    for option, left in [("", THERE), ("--upsert", [THERE[0], COMES[2], COMES[1], COMES[3]]), ("--skip-existing", [*THERE, COMES[1], COMES[3]])]:
        for line in THERE:
            done(f"put imp {line}")
        words = ["import", "imp", *([] if options else ["--json"]), *([option] if option else [])]
        if option:
            check(words, (0, b"4\n", ""), given)
        else:
            holds(f"{words}: refused", run(*words, given=given)[::2][1].split()[:2], ["refused:", "DuplicateId"])
        done("find imp", *left)
        check([*words, "--wait", "1"], (0, b"0\n", ""), b"")
        done("drop imp", str(len(left)))
for option in "--upsert", "--skip-existing":
    check(["import", "imp", option], (1, b"", "refused: NoId document 1\n"), bson.encode({"_id": 1}) + bson.encode({}))
    check(["import", "imp", option], (1, b"", "refused: EndInside document 1\n"), bson.encode({"_id": 1}) + b"\x05\x00")
    check(["import", "", option], (1, b"", "refused: BadName\n"), bson.encode({"_id": 1}))
    check(["import", "imp", option, option], USAGE)
    check(["export", "imp", option], USAGE)
check(["import", "imp", "--upsert", "--skip-existing"], USAGE)
done("find imp")
done("remove orders 9")
refused("remove orders 9", "NotFound _id 9")
for line in ['put orders {"a":1}', 'replace orders {"a":1}', "put orders {}"]:
    refused(line, "NoId")
done("count none", "0")
done("find none")
check("export none", (0, b"", ""))
refused("get none 1", "NotFound _id 1")
for command, (places, _) in COMMANDS.items():
    if places[:1] == ["c"]:
        refused([command, "", *places[1:]], "BadName")

# Words that begin with a hyphen are taken by their place; a QUERY is none that begins with two.
done('insert --canonical {"_id":"--bson"}', '"--bson"')
done("get --canonical --bson", '{"_id":"--bson"}')
check("get --canonical --bson --bson", (0, body_of({"_id": "--bson"}), ""))
done("find --canonical --canonical", '{"_id":"--bson"}')
unread("find --canonical -", "query byte 1 NotJson")
check("find --canonical --", USAGE)
done("remove --canonical --bson")

# Names of collections are in the order of their bytes; one with a control character, or that begins with a quote, is JSON.
NAMES = {"\x1b[2J\r": r'"\u001b[2J\r"', '"': r'"\""', r'"B\nb"': r'"\"B\\nb\""', "-": "-", "B\nb": r'"B\nb"', "a b": "a b", 'a"': 'a"', "a\x7f": r'"a\u007f"',
         "b": "b", "orders": "orders", "\x9b31m": r'"\u009b31m"', "\xa0": "\xa0", "é": "é"}
for name in NAMES.keys() - {"orders"}:
    done(["insert", name, '{"_id":1}'], "1")
done("collections", *NAMES.values())
done("check", str(len(NAMES) - 1 + int(run("count", "orders")[1])))
for name in NAMES.keys() - {"orders"}:
    done(["remove", name, "1"])
done("collections", "orders")

# A back-up is the whole store in a new file.
done('insert more {"_id":1}', "1")
before = state()
done("backup copy.db --wait 0")
holds("one file more", {name: is_now for name, is_now in state().items() if name != "copy.db"} == before, True)
refused("backup copy.db", "Exists")
refused("backup shop.db", "Exists")
shop = [run(*words)[1] for words in (["collections"], ["export", "orders"], ["export", "more"])]
start("copy.db")
holds("what it holds", [run(*words)[1] for words in (["collections"], ["export", "orders"], ["export", "more"])] == shop, True)
done("remove more 1")
start("shop.db")
done("count more", "1")

# ---- Numbers: how one is spelled, what it is, and how it is printed. One that JSON has no numeral for is printed alike in both forms.
LONG = bson.Int64
NUMBERS = [
    ("1", 1, "1"), ("0", 0, "0"), ("-0", 0, "0"), ("-1", -1, "-1"), ("2147483647", 2147483647, "2147483647"),
    ("-2147483648", -2147483648, "-2147483648"), ("2147483648", LONG(2147483648), "2147483648"), ("-2147483649", LONG(-2147483649), "-2147483649"),
    ("9007199254740993", LONG(9007199254740993), "9007199254740993"),
    ("9223372036854775807", LONG(9223372036854775807), "9223372036854775807"),
    ("-9223372036854775808", LONG(-9223372036854775808), "-9223372036854775808"),
    ('{"$numberLong":"1"}', LONG(1), "1"), ('{"$numberInt":"-7"}', -7, "-7"),
    ("1.0", 1.0, "1.0"), ("1e3", 1000.0, "1000.0"), ("1E+3", 1000.0, "1000.0"), ("0.0", 0.0, "0.0"), ("-0.0", -0.0, "-0.0"),
    ("-0e7", -0.0, "-0.0"), ("0.1", 0.1, "0.1"), ("0.10000000000000001", 0.1, "0.1"), ("9007199254740993.0", 9007199254740992.0, "9007199254740992.0"),
    ("9223372036854775808.0", 2.0 ** 63, "9.223372036854776e18"), ("1e15", 1e15, "1000000000000000.0"), ("1e16", 1e16, "1e16"),
    ("0.00001", 1e-5, "0.00001"), ("0.000001", 1e-6, "1e-6"), ("-1.5e-7", -1.5e-7, "-1.5e-7"), ("5e-324", 5e-324, "5e-324"), ("1e-400", 0.0, "0.0"),
    ("1.7976931348623157e308", 1.7976931348623157e308, "1.7976931348623157e308"), ("1.7976931348623158e308", 1.7976931348623157e308, "1.7976931348623157e308"),
    ('{"$numberDouble":"1"}', 1.0, "1.0"), ('{"$numberDouble":"-0.0"}', -0.0, "-0.0"), ('{"$numberDouble":"1e3"}', 1000.0, "1000.0"),
    ('{"$numberDouble":"NaN"}', math.nan, None), ('{"$numberDouble":"Infinity"}', math.inf, None), ('{"$numberDouble":"-Infinity"}', -math.inf, None),
    ('{"$numberDecimal":"1.5"}', decimal128.Decimal128("1.5"), None), ('{"$numberDecimal":"1.0"}', decimal128.Decimal128("1.0"), None),
    ('{"$numberDecimal":"-1E+400"}', decimal128.Decimal128("-1E+400"), None), ('{"$numberDecimal":"NaN"}', decimal128.Decimal128("NaN"), None),
]
NO_NUMBERS = [
    ("9223372036854775808", "NumberOutOfRange"), ("-9223372036854775809", "NumberOutOfRange"), ("1e400", "NumberOutOfRange"),
    ("-1e400", "NumberOutOfRange"), ("1.7976931348623159e308", "NumberOutOfRange"), ('{"$numberDouble":"1e400"}', "NotExtendedJson"),
    ('{"$numberDouble":1.5}', "NotExtendedJson"), ('{"$numberInt":"2147483648"}', "NotExtendedJson"), ('{"$numberInt":1}', "NotExtendedJson"),
    ('{"$numberLong":"9223372036854775808"}', "NotExtendedJson"), ('{"$numberDecimal":"x"}', "NotExtendedJson"), ('{"$numberDouble":""}', "NotExtendedJson"),
]
KINDS = {int: "$numberInt", LONG: "$numberLong", float: "$numberDouble"}


def canonical_number(value, relaxed, spelling):
    return spelling if relaxed is None else json.dumps({KINDS[type(value)]: relaxed}, separators=(",", ":"))


for spelling, value, relaxed in NUMBERS:
    canonical = canonical_number(value, relaxed, spelling)
    done(f'put n {{"_id":0,"v":{spelling},"w":[{spelling}]}}')
    check("get n 0 --bson", (0, body_of({"_id": 0, "v": value, "w": [value]}), ""))
    done("get n 0", f'{{"_id":0,"v":{relaxed or spelling},"w":[{relaxed or spelling}]}}')
    done("get n 0 --canonical", f'{{"_id":{{"$numberInt":"0"}},"v":{canonical},"w":[{canonical}]}}')
    done(f'set n 0 v {{"z":{spelling},"a":1}}')
    check("find n --bson", (0, body_of({"_id": 0, "v": {"z": value, "a": 1}, "w": [value]}), ""))
lines = "".join(f'{{"v":{spelling},"_id":{number}}}\n' for number, (spelling, _, _) in enumerate(NUMBERS))
done("import m --json", str(len(NUMBERS)), given=lines.encode())
check("export m", (0, b"".join(body_of({"v": value, "_id": number}) for number, (_, value, _) in enumerate(NUMBERS)), ""))
for spelling, fault in NO_NUMBERS:
    unread(f'insert n {{"_id":5,"v":{spelling}}}', f"JSON {fault}")
    unread(f"set n 0 v {spelling}", f"JSON {fault}")
    unread(f"get n {spelling}", f"id {fault}")
    unread("import n --json", f"line 2 {fault}", given=f'{{"_id":5}}\n{{"v":{spelling}}}\n'.encode())
done("count n", "1")
done('put n {"_id":0}')

# ---- Texts that can't be read, of documents, values and lines; the byte counts from 1.
FAULTS = [
    ("", "byte 1 NotJson"), (" ", "byte 2 NotJson"), ("{", "byte 2 NotJson"), ('{"_id":1', "byte 9 NotJson"), ('{"_id":x}', "byte 8 NotJson"),
    ("{} {}", "byte 4 NotJson"), ('{"a":1}}', "byte 8 NotJson"), ("{a:1}", "byte 2 NotJson"), ('{"a":01}', "byte 6 NotJson"), ('{"a":+1}', "byte 6 NotJson"),
    ('{"a":.5}', "byte 6 NotJson"), ('{"a":NaN}', "byte 6 NotJson"), ('{"a":"é"x', "byte 10 NotJson"), ("'{}'", "byte 1 NotJson"), ("new", "byte 1 NotJson"),
    ('{"a":1,"b":2,"a":3}', "RepeatedKey"), ('{"x":{"b":2,"\\u0062":3}}', "RepeatedKey"), ('{"x":{"$oid":"12"}}', "InvalidObjectId"),
    ('{"x":{"$oid":"00010203040506070809a0b"}}', "InvalidObjectId"), ('{"x":{"$numberInt":"1","x":1}}', "NotExtendedJson"),
    ('{"x":{"$date":"2020-13-01T00:00:00Z"}}', "NotExtendedJson"), ('{"x":{"$oid":"1","$oid":"2"}}', "NotExtendedJson"),
]
NO_DOCUMENTS = [("[1]", "NotExtendedJson"), ("1", "NotExtendedJson"), ('"x"', "NotExtendedJson"), ("null", "NotExtendedJson")]
for text, fault in FAULTS + NO_DOCUMENTS:
    for command in "insert", "put", "replace":
        unread([command, "n", text], f"JSON {fault}")
    if text:
        unread("import n --json", f"line 3 {fault}", given=b'{"_id":5}\n\n' + text.encode() + b"\n")
for text, fault in FAULTS:
    unread(["set", "n", "0", "v", text], f"JSON {fault}")
unread("import n --json", "line 2 byte 7 Utf8EncodingError", given=b'{"_id":5}\n{"a":"\xff"}\n')
unread("import n --json", "line 2 byte 1 NotJson", given=b'{"_id":5}\n\xef\xbb\xbf{}\n')
unread("import n --json", "line 1 MalformedValue", given=b'{"a\\u0000b":1}')
unread('set n {"$oid":"1"} v x', "id InvalidObjectId")
done("count n", "1")

# What JSON can say and no document can hold: a 00 in a key, a pattern or options, and over 100 levels of the 128 that JSON has.
for text in ['{"_id":5,"a\\u0000b":1}', '{"_id":5,"a":[{"\\u0000":1}]}', '{"_id":5,"a":{"$regularExpression":{"pattern":"\\u0000","options":""}}}',
             '{"_id":5,"a":{"$regularExpression":{"pattern":"","options":"\\u0000"}}}', '{"_id":{"\\u0000":1}}']:
    for command in "insert", "put", "replace":
        refused([command, "n", text], "Nul")
refused(["set", "n", "0", "v", '{"\\u0000":1}'], "Nul")
refused(["get", "n", '{"\\u0000":1}'], 'NotFound _id {"\\u0000":1}')
done(["set", "n", "0", "v", '"\\u0000"'])
done("get n 0", '{"_id":0,"v":"\\u0000"}')


def levels(count):
    return "[" * count + "]" * count


MOST = f'{{"_id":5,"v":{levels(99)}}}'
done(f"insert n {MOST}", "5")
done("get n 5", MOST)
done(f"set n 0 v {levels(99)}")
done("remove n 5")
done("import n --json", "1", given=MOST.encode())
done("remove n 5")
for count in 100, 127:
    line = f'{{"_id":5,"v":{levels(count)}}}'
    for command in "insert", "put", "replace":
        refused(f"{command} n {line}", "TooDeep")
    refused(f"set n 0 v {levels(count)}", "TooDeep")
    refused("import n --json", "TooDeep line 2", given=b"\n" + line.encode())
refused(f"set n 0 v {levels(128)}", "TooDeep")
for count in 128, 5000:
    unread(f'insert n {{"_id":5,"v":{levels(count)}}}', "JSON byte 142 NotJson")
    unread("import n --json", "line 1 byte 134 NotJson", given=f'{{"v":{levels(count)}}}'.encode())
unread(f"set n 0 v {levels(129)}", "JSON byte 130 NotJson")
done("count n", "1")

# ---- Ids: a word that is JSON is its value, and any other the text itself. Here each word with how its id is printed.
IDS = [
    ("42", "42"), ('"42"', '"42"'), ("42.0", "42.0"), ('{"$numberDecimal":"42"}', '{"$numberDecimal":"42"}'), ("0.1", "0.1"), ("1e3", "1000.0"),
    ("9007199254740993", "9007199254740993"), ("A-4", '"A-4"'), ("-", '"-"'), ("-7", "-7"), ("--bson", '"--bson"'), ("", '""'), ("a b", '"a b"'),
    ("null", "null"), ("true", "true"), ('"true"', '"true"'), ("Null", '"Null"'), ("NaN", '"NaN"'), ("+1", '"+1"'), ("01", '"01"'), ("1.", '"1."'),
    ('{"$numberDouble":"NaN"}', '{"$numberDouble":"NaN"}'), ("{", '"{"'), ('"x', '"\\"x"'), ("é", '"é"'), ("a\nb", '"a\\nb"'),
    ('{"b":1,"a":2.5}', '{"b":1,"a":2.5}'), ("[1,2]", "[1,2]"), ("{}", "{}"), ('{"$oid":"650000000000000000000002"}', '{"$oid":"650000000000000000000002"}'),
    ('{"$date":"2020-01-01T00:00:00Z"}', '{"$date":"2020-01-01T00:00:00Z"}'), ('{"$timestamp":{"t":1,"i":2}}', '{"$timestamp":{"t":1,"i":2}}'),
    ('{"$uuid":"00010203-0405-0607-0809-0a0b0c0d0e0f"}', '{"$binary":{"base64":"AAECAwQFBgcICQoLDA0ODw==","subType":"04"}}'),
    (levels(129), f'"{levels(129)}"'), ("x" * 100000, '"' + "x" * 100000 + '"'),
]
for number, (word, printed) in enumerate(IDS):
    document = f'{{"n":{number},"_id":{printed}}}'
    done(["insert", "ids", document], printed)
    done(["get", "ids", word], document)
    refused(["insert", "ids", f'{{"_id":{printed}}}'], f"DuplicateId _id {printed}")
    done(["set", "ids", word, "n", "-1"])
    done(["put", "ids", document])
done("count ids", str(len(IDS)))
# Other spellings of some of these. What means the same is one id, and each kind of numbers has its own.
SPELLED = [('"A-4"', 7), ('"\\u0041-4"', 7), (" 42 ", 0), ('{"a":2.5,"b":1}', 26), ("4.2e1", 2), ('{"$numberInt":"42"}', 0), ('"--bson"', 10)]
for word, number in SPELLED:
    done(["get", "ids", word], f'{{"n":{number},"_id":{IDS[number][1]}}}')
for word, printed in [('{"$numberLong":"42"}', "42"), ('{"$numberDecimal":"42.0"}', '{"$numberDecimal":"42.0"}'), ("a-4", '"a-4"'), ("[2,1]", "[2,1]")]:
    refused(["get", "ids", word], f"NotFound _id {printed}")
for word, printed in IDS:
    done(["remove", "ids", word])
    refused(["remove", "ids", word], f"NotFound _id {printed}")
done('insert ids {"_id":0.0}', "0.0")
refused('insert ids {"_id":-0.0}', "DuplicateId _id -0.0")
done("get ids -0.0", '{"_id":0.0}')
refused("get ids 0", "NotFound _id 0")
for word, fault in [('{"$oid":"12"}', "InvalidObjectId"), ('{"a":1,"a":2}', "RepeatedKey"), ('{"$numberInt":1}', "NotExtendedJson"),
                    ("1e400", "NumberOutOfRange")]:
    for line in ["get", "ids", word], ["set", "ids", word, "k", "1"], ["unset", "ids", word, "k"], ["remove", "ids", word]:
        unread(line, f"id {fault}")

# Ids that are made: an ObjectId of now, in front of the other keys, and each another.
made = set()
for number in range(20):
    status, out, told = run("insert", "made", f'{{"n":{number}}}', *(["--canonical"] if number % 2 else []))
    holds("insert without an _id", (status, list(json.loads(out)), len(out), told), (0, ["$oid"], 36, ""))
    done(["get", "made", out.decode()[:-1]], f'{{"_id":{out.decode()[:-1]},"n":{number}}}')
    made.add(json.loads(out)["$oid"])
holds("its time", all(abs(int(one[:8], 16) - time.time()) < 600 for one in made), True)
done("import made --json", "2001", given=b"".join(b'{"n":%d}\n' % n if n != 1500 else b'{"n":1,"_id":7}\n\n' for n in range(1000, 3001)))
documents = bson.decode_all(run("export", "made")[1])
holds("each has another", len({document["_id"] for document in documents}), 2021)
holds("and it is the first key", {list(document)[0] for document in documents if document["_id"] != 7}, {"_id"})
holds("12 bytes", {len(document["_id"].binary) for document in documents if document["_id"] != 7}, {12})
holds("in the order of the lines", [document["n"] for document in documents[20:]], [1 if n == 1500 else n for n in range(1000, 3001)])

# ---- BSON in and out, beside Python's bson.
MANY = [{"_id": i, "name": f"n{i} ü\n", "list": [i, {"x": True, "a": 0.1 * i}], "big": 2 ** 40 + i} for i in range(500)]
STREAM = b"".join(map(body_of, MANY))
done("import d", "500", given=STREAM)
check("export d", (0, STREAM, ""))
check("find d --bson", (0, STREAM, ""))
check('find d {"list.1.a":0.5} --bson', (0, body_of(MANY[5]), ""))
check("get d 17 --bson", (0, body_of(MANY[17]), ""))
holds("get by Python's json", json.loads(run("get", "d", "17")[1]), MANY[17])
lines = run("find", "d", "--canonical")[1]
holds("find by json_util", [json_util.loads(line) for line in lines.decode().splitlines()], MANY)
done("import e --json", "500", given=lines)
check("export e", (0, STREAM, ""))
relaxed = run("find", "d")[1]
holds("relaxed, by Python's json", [json.loads(line) for line in relaxed.splitlines()], MANY)
done("import f --json", "0", given=b"\n\n\n")
done("import f", "0")
done("import f --json", "2", given=b'{"_id":1}\r\n{"_id":2} ')
check("find f --bson", (0, body_of({"_id": 1}) + body_of({"_id": 2}), ""))
ZERO, GOOD = body_of({"_id": 5}), body_of({"_id": 6})
DEEP = body_of({"_id": 7, "v": json.loads(levels(100))})
for told, bad in [
    ("EndInside document 2", b"\5\0"), ("EndInside document 2", ZERO[:-1]), ("BadLength document 2", b"\4\0\0\0"),
    ("BadLength document 2", struct.pack("<i", LONGEST + 1) + b"x"), ("NotTerminated document 2", ZERO[:-1] + b"\1"),
    ("Faulty document 2", b"\x08\0\0\0\x20a\0\0"), ("TooDeep document 2", DEEP), ("NoId document 2", body_of({"a": 1})),
    ("DuplicateId document 2 _id 5", ZERO), ("DuplicateId document 2 _id 1", body_of({"_id": 1})),
]:
    refused("import f", told, given=ZERO + GOOD + bad)
for told, bad in [("DuplicateId line 4 _id 5", b'{"_id":5}'), ("DuplicateId line 4 _id 1", b'{"_id":1}'), ("TooDeep line 4", b'{"v":%s}' % levels(100).encode())]:
    refused("import f --json", told, given=b'{"_id":5}\n\n{"_id":6}\n' + bad + b'\n{"_id":8}\n')
check("find f --bson", (0, body_of({"_id": 1}) + body_of({"_id": 2}), ""))

# The longest document, and longer ones, in a file of their own.
start("long.db")
full = body_of({"_id": 3, "v": "x" * (LONGEST - 22)})
holds("16 MiB", len(full), LONGEST)
done("import long", "1", given=full)
check("get long 3 --bson", (0, full, ""))
line = b'{"_id":3,"v":"' + b"x" * (LONGEST - 22) + b'"}'
check("get long 3", (0, line + b"\n", ""))
refused("set long 3 w null", "TooLong")
done("set long 3 v 1")
done('put long {"_id":3}')
done("remove long 3")
done("import long --json", "1", given=line)
check("export long", (0, full, ""))
refused("import long --json", "TooLong line 2", given=b'{"_id":4}\n' + line.replace(b'"}', b'x"}').replace(b"3", b"5"))
escaped = b'{"_id":7,"v":"' + rb"\u00e9" * 3400000 + b'"}'
done("import long --json", "1", given=escaped)
check("get long 7 --bson", (0, body_of({"_id": 7, "v": "é" * 3400000}), ""))
done("import long --json", "1", given=b'{"_id":8' + b" " * 20000000 + b"}")
unread("import long --json", "line 2 TooLong", given=b'{"_id":9}\n{"_id":10' + b" " * (64 << 20) + b"}\n")
done("count long", "3")
os.remove("long.db")
start("shop.db")

# Keys that are reserved below the top have no JSON. What comes before such a document is printed.
RESERVED = [{"_id": 1}, {"_id": "x", "a": [{"b": {"$oid": "y"}}]}, {"_id": 3}]
done("import r", "3", given=b"".join(map(body_of, RESERVED)))
refused("find r", 'ReservedKey _id "x" key a.0.b.$oid', out=b'{"_id":1}\n')
refused("get r x --canonical", 'ReservedKey _id "x" key a.0.b.$oid')
check("find r --bson", (0, b"".join(map(body_of, RESERVED)), ""))
done("import odd", "1", given=body_of({"_id": 1, "a\x1b[2J\nrefused: x\r\x9b": {"$oid": "x"}}))
refused("find odd", r'ReservedKey _id 1 key "a\u001b[2J\nrefused: x\r\u009b.$oid"')
check("get r x --bson", (0, body_of(RESERVED[1]), ""))
done('find r {"_id":3}', '{"_id":3}')
done('insert r {"$oid":"at-the-top","_id":4}', "4")
done("get r 4", '{"$oid":"at-the-top","_id":4}')

# ---- Queries: the cases of the table `question`, each by `count`, and by `find` whether it prints the document.
CASES = ROOT / "cases/question"
FAULTS_OF_QUERIES = {"a key comes twice": "RepeatedKey", "a query is an object": "is no object"}
collections = {}
for case, answer in zip((CASES / "stdin").read_text().splitlines(), (CASES / "stdout").read_text().splitlines()):
    query, document = case.split(" | ")
    if document not in collections:
        collections[document] = f"q{len(collections)}"
        done(f"import {collections[document]} --json", "1", given=document.encode())
    name = collections[document]
    if answer in ("true", "false"):
        done(["count", name, query], str(int(answer == "true")))
        check(["find", name, query, "--bson"], (0, run("export", name)[1] if answer == "true" else b"", ""))
        continue
    if answer.startswith("no JSON at byte "):
        answer = f"byte {int(answer.split()[-1]) + 1} NotJson"
    for command in "count", "find":
        unread([command, name, query], f"query {FAULTS_OF_QUERIES.get(answer, answer)}")

# What is asked of arrays, of ranges and of items, of several documents at once. CUSTOMERS and ASKED are those of fallowtime_lines.py, too.
done("import customers --json", str(len(CUSTOMERS)), given="".join(f"{json.dumps(customer)}\n" for customer in CUSTOMERS).encode())
for query, wanted in ASKED:
    done(["count", "customers", query], str(len(wanted)))
    status, printed, told = run("find", "customers", query)
    holds(f"find customers {query}", (status, [json.loads(line)["_id"] for line in printed.splitlines()], told), (0, wanted, ""))

# ---- The same file by bson_store and by sqlite3.


def store(*words, given=b""):
    return run(*words, given=given, name="bson_store")


holds("its export by bson_store", store("export", "d") == (0, STREAM, ""), True)
holds("its collections", store("collections")[1] == run("collections")[1], True)
holds("a document", store("get", "r", "3", "--relaxed"), (0, b'{"_id":3}\n', ""))
holds("insert by bson_store", store("insert", "r", '{"b":1,"a":2,"_id":5}'), (0, b"", ""))
done("get r 5", '{"_id":5,"a":2,"b":1}')
holds("set by bson_store", store("set", "r", "4", "k", '{"$numberLong":"7"}'), (0, b"", ""))
done("get r 4 --canonical", '{"$oid":"at-the-top","_id":{"$numberInt":"4"},"k":{"$numberLong":"7"}}')
start("other.db")
holds("a file that bson_store makes", store("import", "d", given=STREAM), (0, b"500\n", ""))
check("export d", (0, STREAM, ""))
done("count d", "500")
done('put d {"z":0.5,"_id":3}')
holds("is changed by both", store("find", "d", '{"eq":[["_id"],3]}'), (0, body_of({"z": 0.5, "_id": 3}), ""))
start("rows.db")
done('insert c {"b":-1.5,"_id":{"y":1,"x":0.0}}', '{"y":1,"x":0.0}')
done('insert d {"_id":1}', "1")
connection = sqlite3.connect("rows.db")
ROWS = [(1, "c", body_of({"_id": {"x": 0.0, "y": 1}}), body_of({"b": -1.5, "_id": {"y": 1, "x": 0.0}})), (2, "d", *[body_of({"_id": 1})] * 2)]
holds("rows by SQLite", connection.execute("SELECT place, coll, idkey, body FROM documents ORDER BY place").fetchall(), ROWS)
holds("its integrity", connection.execute("PRAGMA integrity_check").fetchall(), [("ok",)])
connection.execute("INSERT INTO documents VALUES (7, 'c', ?, ?)", [body_of({"_id": 2})] * 2)
connection.commit()
connection.close()
done("find c", '{"b":-1.5,"_id":{"y":1,"x":0.0}}', '{"_id":2}')
start("shop.db")
for statement, wanted in [("PRAGMA integrity_check", "ok"), ("SELECT count(*) FROM documents WHERE coll = 'd'", "500")]:
    holds(f"sqlite3: {statement}", subprocess.run(["sqlite3", FILE, statement], capture_output=True, text=True).stdout, f"{wanted}\n")

# ---- Documents of all kinds at random, and their texts as docs/FORMATS.md (4.5 to 4.7) has them.


def numeral(value):
    """A finite double: an exponent if there are more than 16 digits before the dot, or more than 4 zeros behind it."""
    sign = "-" if math.copysign(1, value) < 0 else ""
    mantissa, _, exponent = f"{abs(value)!r}".partition("e")
    before, _, behind = mantissa.partition(".")
    place = len(before) + int(exponent or 0)
    digits = (before + behind).lstrip("0")
    place -= len(before + behind) - len(digits)
    digits = digits.rstrip("0")
    if not digits:
        return sign + "0.0"
    if 0 < place <= 16:
        return sign + digits[:place].ljust(place, "0") + "." + (digits[place:] or "0")
    if -4 <= place <= 0:
        return sign + "0." + "0" * -place + digits
    return sign + digits[0] + "." * (len(digits) > 1) + digits[1:] + f"e{place - 1}"


def text_of(part):
    return json.dumps(part.decode(), ensure_ascii=False)


def double_text(payload, is_relaxed):
    value = struct.unpack("<d", payload)[0]
    if math.isfinite(value):
        return numeral(value) if is_relaxed else f'{{"$numberDouble":"{numeral(value)}"}}'
    name = "NaN" if math.isnan(value) else "Infinity"
    return f'{{"$numberDouble":"{"-" if payload[7] & 0x80 else ""}{name}"}}'


def date_text(payload, is_relaxed):
    millis = struct.unpack("<q", payload)[0]
    if not is_relaxed or not 0 <= millis <= 253402300799999:
        return f'{{"$date":{{"$numberLong":"{millis}"}}}}'
    text = (datetime.datetime(1970, 1, 1) + datetime.timedelta(milliseconds=millis)).isoformat(timespec="milliseconds")
    return f'{{"$date":"{text.rstrip("0").rstrip(".") if millis % 1000 else text[:-4]}Z"}}'


def binary_text(value):
    inner = value[1][4:] if value[0] == OLD_BINARY else value[1]
    return f'{{"$binary":{{"base64":"{base64.b64encode(inner).decode()}","subType":"{value[0]:02x}"}}}}'


def json_text(tag, value, is_relaxed):
    """The text of a value as random_documents makes it."""
    if tag in (DOCUMENT, ARRAY):
        items = (("" if tag == ARRAY else text_of(key) + ":") + json_text(kind, inner, is_relaxed) for kind, key, inner in value)
        return ("[%s]" if tag == ARRAY else "{%s}") % ",".join(items)
    if tag in (INT32, INT64):
        number = int.from_bytes(value, "little", signed=True)
        return str(number) if is_relaxed else f'{{"{"$numberInt" if tag == INT32 else "$numberLong"}":"{number}"}}'
    return {
        DOUBLE: lambda: double_text(value, is_relaxed),
        STRING: lambda: text_of(value),
        BINARY: lambda: binary_text(value),
        UNDEFINED: lambda: '{"$undefined":true}',
        OBJECT_ID: lambda: f'{{"$oid":"{value.hex()}"}}',
        BOOLEAN: lambda: "true" if value == b"\1" else "false",
        DATE: lambda: date_text(value, is_relaxed),
        NULL: lambda: "null",
        REGEX: lambda: f'{{"$regularExpression":{{"pattern":{text_of(value[0])},"options":{text_of(value[1])}}}}}',
        POINTER: lambda: f'{{"$dbPointer":{{"$ref":{text_of(value[0])},"$id":{{"$oid":"{value[1].hex()}"}}}}}}',
        CODE: lambda: f'{{"$code":{text_of(value)}}}',
        SYMBOL: lambda: f'{{"$symbol":{text_of(value)}}}',
        SCOPED: lambda: f'{{"$code":{text_of(value[0])},"$scope":{json_text(DOCUMENT, value[1], is_relaxed)}}}',
        TIMESTAMP: lambda: '{"$timestamp":{"t":%d,"i":%d}}' % struct.unpack("<II", value)[::-1],
        DECIMAL: lambda: f'{{"$numberDecimal":"{decimal128.Decimal128.from_bid(value)}"}}',
        MAX_KEY: lambda: '{"$maxKey":1}',
        MIN_KEY: lambda: '{"$minKey":1}',
    }[tag]()


CANONICAL_TEXTS = json_util.JSONOptions(json_mode=json_util.JSONMode.CANONICAL, tz_aware=False, tzinfo=None)


def again(decode, given):
    """What Python's bson makes of bytes or of a text, as BSON again; None if it has no such values."""
    try:
        return bson.encode(decode(given))
    except Exception:
        return None


compared, bodies, texts = 0, {}, []
start("random.db")
for number in range(DOCUMENTS):
    made = settle(chance, whole(chance))
    body = written(made)[0]
    canonical, relaxed = (json_text(DOCUMENT, made, is_relaxed) for is_relaxed in (False, True))
    the_id = next((tag, value) for tag, key, value in made if key == b"_id")
    name, its_id = f"r{number}", json_text(*the_id, False)
    done(["insert", name, canonical], json_text(*the_id, True))
    done(["get", name, its_id, "--canonical"], canonical)
    check(["find", name, "--bson"], (0, body, ""))
    done(["find", name], relaxed)
    if its_id not in bodies:
        bodies[its_id] = body
        texts.append(canonical + "\n")
    theirs = again(bson.decode, body)
    if theirs and theirs == again(lambda text: json_util.loads(text, json_options=CANONICAL_TEXTS), canonical):
        compared += 1
print(f"{compared} of {DOCUMENTS} documents are read alike by Python's bson from both")
holds("most are", compared > DOCUMENTS // 2, True)
start("random2.db")
done("import c --json", str(len(texts)), given="".join(texts).encode())
check("export c", (0, b"".join(bodies.values()), ""))
check("find c --canonical", (0, "".join(texts).encode(), ""))
done("import d", str(len(texts)), given=run("export", "c")[1])
check("export d", (0, b"".join(bodies.values()), ""))
print(f"{steps} steps, all as they should be")
