#!/usr/bin/python3
"""Types what a new user types at a terminal, over a program as it was installed, with this checkout and the toolchain out of reach:
whether each line is answered, or is told what to do.

    tests/walk.py FOLDER

FOLDER is that of the programs of an installation. tests/release.py calls it. Prints one line a step, and ends with status 1 at the
first that isn't as it should be.
"""
import atexit
import bz2
import gzip
import lzma
import os
import pathlib
import pty
import shutil
import subprocess
import sys
import tempfile
import zipfile

ROOT = pathlib.Path(__file__).resolve().parent.parent
BIN = os.path.abspath(sys.argv[1])
FOLDER = pathlib.Path(tempfile.mkdtemp(prefix="walk-"))
atexit.register(shutil.rmtree, FOLDER, ignore_errors=True)
HERE, EMPTY = FOLDER / "here", FOLDER / "empty"
HERE.mkdir()
EMPTY.mkdir()
ENVIRONMENT = {"PATH": f"{BIN}:/usr/bin:/bin", "HOME": str(FOLDER), "TERM": "xterm", "NO_COLOR": "1", "LC_ALL": "C.UTF-8"}
# What is out of reach, in a namespace of mounts, if one can be had.
HIDDEN = [str(ROOT), *([os.path.dirname(os.path.dirname(os.path.realpath(shutil.which("rt"))))] if shutil.which("rt") else [])]
APART = ["unshare", "-rm", "sh", "-c", 'for hidden in ' + " ".join(f"'{path}'" for path in HIDDEN) + f'; do mount --bind {EMPTY} "$hidden" || exit; done; exec "$@"', "sh"]
if os.path.commonpath([BIN, ROOT]) == str(ROOT) or subprocess.run([*APART, "true"], capture_output=True).returncode:
    APART = []


def type_line(line):
    """What a line that is typed returns and prints, in a shell with all streams at a terminal."""
    ours, theirs = pty.openpty()
    process = subprocess.Popen([*APART, "bash", "-c", line], stdin=theirs, stdout=theirs, stderr=theirs, cwd=HERE, env=ENVIRONMENT, preexec_fn=os.setsid)
    os.close(theirs)
    told = b""
    try:
        while piece := os.read(ours, 4096):
            told += piece
    except OSError:
        pass
    os.close(ours)
    return process.wait(60), told.decode(errors="replace").replace("\r\n", "\n")


ORDERS = """{"_id":{"$oid":"650000000000000000000001"},"customer":{"name":"Ada","city":"Ulm"},"price":4.25,"tags":["vip"],"when":{"$date":"2026-01-02T03:04:05Z"}}
{"_id":{"$oid":"650000000000000000000002"},"customer":{"name":"Max","city":"Bonn"},"price":5,"tags":[],"when":{"$date":"2026-02-02T03:04:05Z"}}
"""
(HERE / "orders.jsonl").write_text(ORDERS)
BSON = subprocess.run([f"{BIN}/bson_json", "--to-bson"], input=ORDERS.encode(), stdout=subprocess.PIPE, env=ENVIRONMENT).stdout
(HERE / "orders.bson").write_bytes(BSON)
(HERE / "table.csv").write_text('name,price\nTea,4.5\n"Pot, big",31\n')
(HERE / "table.txt").write_text("name;price\nTea;4.5\n")
(HERE / "marked.json").write_text("\ufeff" + ORDERS)
(HERE / "laid_out.json").write_text('{\n  "_id": 1,\n  "a": 2\n}\n')
for name, pack in ("gz", gzip.compress), ("bz2", bz2.compress), ("xz", lzma.compress):
    (HERE / f"orders.{name}").write_bytes(pack(BSON))
    (HERE / f"lines.{name}").write_bytes(pack(ORDERS.encode()))
with zipfile.ZipFile(HERE / "orders.zip", "w") as file:
    file.writestr("orders.bson", BSON)
(HERE / "orders.zst").write_bytes(b"\x28\xb5\x2f\xfd" + BSON)
OF_TABLE = "python3 -c 'import csv,json,sys; [print(json.dumps(row)) for row in csv.DictReader(sys.stdin)]' < "
# Each line, its status, and what is told: how it begins, or what is somewhere in it behind "..".
WALK = [
    ("fallowtime", 2, ".. the words are FILE COMMAND ..; fallowtime help lists the commands"),
    ("fallowtime help", 0, "..COLL DOC"),
    ("fallowtime frob", 1, "..with ./ in front one of this name is made"),
    ("man -P cat fallowtime >/dev/null || test ! -x /usr/bin/man", 0, ""),
    # A dump comes in, is looked at, and goes out.
    ("fallowtime shop.db import orders orders.bson", 0, "2\n"),
    ("fallowtime shop.db import orders.bson", 1, "fallowtime: COLL is missing in front of the file"),
    ("fallowtime shop.db import orders.bson < /dev/null", 1, "fallowtime: COLL is missing in front of the file"),
    ("fallowtime shop.db import lines orders.jsonl", 0, "2\n"),
    ("fallowtime shop.db import packed orders.gz", 1, "..these bytes are packed by gzip: gunzip -c PACKED"),
    ("fallowtime shop.db import packed orders.bz2", 1, "fallowtime: the documents are packed by bzip2: bunzip2 -c PACKED"),
    ("cat orders.bz2 | fallowtime shop.db import packed", 1, "..these bytes are packed by bzip2: bunzip2 -c PACKED"),
    ("cat orders.xz | fallowtime shop.db import packed", 1, "..these bytes are packed by xz: xz -dc PACKED"),
    ("fallowtime shop.db import packed orders.zip", 1, "fallowtime: the documents are packed by zip: unzip -p PACKED"),
    ("cat orders.zip | fallowtime shop.db import packed", 1, "..these bytes are packed by zip: unzip -p PACKED"),
    ("fallowtime shop.db import packed < orders.zst", 1, "fallowtime: the documents are packed by zstd: zstd -dc PACKED"),
    ("cat orders.zst | fallowtime shop.db import packed", 1, "..these bytes are packed by zstd: zstd -dc PACKED"),
    ("fallowtime shop.db import packed lines.gz --json", 1, "fallowtime: the documents are packed by gzip: gunzip -c PACKED"),
    ("bunzip2 -c lines.bz2 | fallowtime shop.db import unpacked --json", 0, "2\n"),
    ("fallowtime shop.db import table table.csv", 1, f"fallowtime: a table isn't read: {OF_TABLE}"),
    ("fallowtime shop.db import table --json < table.txt", 1, f"fallowtime: the first line is no document; of a table: {OF_TABLE}"),
    ("cat table.csv | fallowtime shop.db import table --json", 2, "..of a table (CSV) lines are made first"),
    (f"{OF_TABLE}table.csv | fallowtime shop.db import table --json", 0, "2\n"),
    ("fallowtime shop.db import marked marked.json", 1, "fallowtime: the file begins with a byte order mark"),
    ("tail -c +4 marked.json | fallowtime shop.db import marked --json", 0, "2\n"),
    ("cat marked.json | fallowtime shop.db import marked --json", 2, "..a byte order mark goes"),
    ("fallowtime shop.db import laid_out laid_out.json", 0, "1\n"),
    ("cat laid_out.json | fallowtime shop.db import laid_out --json", 2, "..jq -c . makes such lines of documents over several"),
    ("fallowtime shop.db import wrong orders.bson --json", 2, "..BSON goes in without --json"),
    ("cat orders.jsonl | fallowtime shop.db import wrong", 1, "..for lines of JSON say --json"),
    ("fallowtime shop.db export orders", 0, "..what is written is BSON, for a file: fallowtime FILE export COLL > COLL.bson"),
    ("fallowtime shop.db find orders --bson", 0, "..what is written is BSON"),
    ("fallowtime shop.db export orders | cmp - orders.bson", 0, ""),
    # Questions whose answer is nothing, if something else is meant.
    ("fallowtime shop.db count orders '{\"tags\":\"vip\"}'", 0, "1\n"),
    ("fallowtime shop.db count orders '{\"price\":9}'", 0, "0\n"),
    ("fallowtime shop.db find orders '{\"_id\":\"650000000000000000000001\"}'", 0, "fallowtime: nothing is found, and QUERY asks for a text of 24 digits; "),
    ("fallowtime shop.db find orders '{\"when\":{\"$gte\":\"2026-01-01\"}}'", 0, "fallowtime: nothing is found, and QUERY asks for a text; a date is written "),
    ("fallowtime shop.db count orders '{\"price\":{\"$in\":[\"5\",\"6\"]}}'", 0, "0\nfallowtime: nothing is found, and QUERY asks for a text of digits; "),
    ("fallowtime shop.db count orders '{\"price\": {\"gt\": 1}}'", 0, "0\nfallowtime: nothing is found, and QUERY asks for a key; an operator begins with $"),
    ("fallowtime shop.db count orders '{\"customer\":{\"city\":\"Ulm\"}}'", 0, "0\nfallowtime: nothing is found, and QUERY asks for a whole document; "),
    ("fallowtime shop.db count orders '{\"Price\":5}'", 0, "0\nfallowtime: nothing is found, as no document has 'Price'\n"),
    ("fallowtime shop.db distinct orders prize", 0, "fallowtime: nothing is found, as no document has 'prize'\n"),
    ("fallowtime shop.db distinct orders customer.city", 0, '"Bonn"\n"Ulm"\n'),
    ('fallowtime shop.db count orders "{\\"price\\":{\\"$gt\\":1}}"', 0, "0\nfallowtime: nothing is found, and QUERY asks for an empty key: "),
    ("fallowtime shop.db find orders '{\"customer.name\":{\"$regex\":\"d(?=a)\"}}'", 2, "..$regex takes no pattern that looks ahead"),
    ("fallowtime shop.db find ordrs", 0, "fallowtime: there is no collection 'ordrs', but there is orders"),
    ("fallowtime shop.db get orders 65000000000000000000000a", 1, "..this ID is a text; an ObjectId is written "),
    ("fallowtime shop.db remove orders '{\"price\":5}'", 1, "..this ID is a document; find, update and delete take a QUERY"),
    ("fallowtime shop.db find orders '{\"when\":{\"$gt\":{\"$date\":\"2026\"}}}'", 2, "..a date is '{\"$date\":\"2026-01-02T03:04:05Z\"}', with its zone"),
    # What isn't a change, or isn't the one that is meant.
    ("fallowtime shop.db insert orders '{\"_id\":1,\"a\":{\"$regex\":\"^a\"}}'", 0, "1\nfallowtime: the document has the key $regex; "),
    ("fallowtime shop.db put orders '{\"_id\":2,\"$set\":{\"a\":1}}'", 0, "fallowtime: the document has a key that begins with $"),
    ("fallowtime shop.db put orders '{\"_id\":3,\"a\":{\"$oid\":\"650000000000000000000001\"},\"b\":\"$5\"}'", 0, ""),
    ("fallowtime shop.db insert orders '[{\"a\":1},{\"a\":2}]'", 2, "..DOC is one document; import COLL FILE.json takes an array of them"),
    ("fallowtime shop.db insert orders '{\"when\":{\"$date\":\"2026-01-01\"}}'", 2, "..a date is "),
    ("fallowtime shop.db update orders '{}' '{\"a\":2}'", 2, "..an update is an object of operators"),
    # The names of mongosh and of pymongo.
    ("fallowtime shop.db insertOne orders '{\"a\":1}'", 2, "..there is no command 'insertOne', but there is insert; "),
    ("fallowtime shop.db updateMany orders '{}' '{}'", 2, "..there is no command 'updateMany', but there is update, with --many of all that are selected; "),
    ("fallowtime shop.db delete_many orders '{}'", 2, "..but there is delete, with --many of all"),
    ("fallowtime shop.db findOneAndUpdate orders '{}' '{}'", 2, "..but there is find-and-update; "),
    ("fallowtime shop.db 'db.orders.find({})'", 2, "..but there is find; "),
    ("fallowtime shop.db db.orders.countDocuments '{}'", 2, "..but there is count; "),
    ("fallowtime shop.db show collections", 2, "..but there is collections; "),
    ("fallowtime shop.db use shop", 2, "..there is no command 'use'; fallowtime help lists the commands"),
    # The other two programs.
    ("bson_store --explain NoFile", 0, "  `NoFile`: FILE isn't there"),
    ("bson_json --explain 'refused: EndInside document 2'", 0, "  `EndInside`, "),
    ("bson_json --frob", 2, "..words: usage"),
    ("bson_json < orders.jsonl", 1, "bson_json: the input begins as JSON does: bson_json --to-bson reads lines of JSON\n"),
    ("bson_json < orders.bson", 0, '{"_id":{"$oid":"650000000000000000000001"}'),
]
for line, status, told in WALK:
    found = type_line(line)
    is_told = told[2:] in found[1] if told.startswith("..") else found[1].startswith(told) and bool(told) == bool(found[1])
    if found[0] != status or not is_told:
        print(f"{line}: {found!r} in place of {(status, told)!r}"[:3000])
        sys.exit(1)
    print(f"{line}: {found!r}"[:150])
print(f"{len(WALK)} lines as they should be, {'with the checkout out of reach' if APART else 'with the checkout in reach'}")
