#!/usr/bin/python3
"""Runs sessions of the program fallowtime over a file: each request and what is answered, lines that are no request, ids that come back,
long lines, and inputs and outputs that fail.

    tests/fallowtime_lines.py PROGRAM [NUMBER]

PROGRAM is fallowtime, under whatever name. Prints one line a step, and ends with status 1 at the first that isn't as it should be. At the
end a session does NUMBER inserts with a get behind each, a thousand if none is given.
"""
import atexit
import base64
import json
import os
import pathlib
import pty
import resource
import shutil
import subprocess
import sys
import tempfile
import time
import tty

try:
    import bson
except ImportError:
    sys.exit("fallowtime_lines.py: needs Python's bson, of Debian: apt-get install python3-pymongo")

sys.path.insert(0, str(pathlib.Path(__file__).resolve().parent))
import amounts  # noqa: E402
from customers import ASKED, CUSTOMERS  # noqa: E402

FOLDER = pathlib.Path(tempfile.mkdtemp(prefix="fallowtime-lines-"))
atexit.register(shutil.rmtree, FOLDER, ignore_errors=True)
PROGRAM = str(FOLDER / "fallowtime")
os.symlink(pathlib.Path(sys.argv[1]).resolve(), PROGRAM)
LONGEST = 64 << 20
steps = 0


def holds(step, found, wanted):
    global steps
    steps += 1
    if found != wanted:
        print(f"{step}: {found!r}"[:2000], f"in place of {wanted!r}"[:2000])
        sys.exit(1)
    print(f"{step}: {found!r}"[:150])


def run(lines, file="test.db", **more):
    """The status, the answers, and what is on standard error, of a session over these lines."""
    done = subprocess.run([PROGRAM, str(FOLDER / file)], input=lines, stdout=subprocess.PIPE, stderr=subprocess.PIPE, **more)
    return done.returncode, done.stdout.decode().splitlines(), done.stderr.decode()


def line_of(*request):
    return json.dumps(request).encode() + b"\n"


def int32(number):
    return '{"$numberInt":"%d"}' % number


def binary(stream, kind="00"):
    return '{"$binary":{"base64":"%s","subType":"%s"}}' % (base64.b64encode(stream).decode(), kind)


ONE, TWO = bson.encode({"_id": 1}), bson.encode({"_id": 2, "a": 1.5})
NAMED = '{"_id":%s,"b":{"$numberDouble":"1.5"},"a":[null]}' % int32(3)
NESTED = "[" * 100 + "]" * 100

# Each request, what it is answered, and what may stand at its places. They are done in their order over one file.
TABLE = [
    ('["insert","c",{"_id":1}]', '{"_id":%s}' % int32(1)),
    ('["insert","c",{"_id":1}]', '{"error":"DuplicateId"}'),
    ('["insert","c",{"_id":"A-1","p":4.25}]', '{"_id":"A-1"}'),
    ('["insert","",{"_id":1}]', '{"error":"BadName"}'),
    ('["insert","c",{"_id":[1]}]', '{"_id":[%s]}' % int32(1)),
    ('["remove","c",[1]]', "{}"),
    ('["insert","c",{"_id":2,"n":%s}]' % NESTED, '{"error":"TooDeep"}'),
    ('["put","c",{"_id":3,"b":1.5,"a":[null]}]', "{}"),
    ('["get","c",3]', '{"document":%s}' % NAMED),
    ('["get","c",{"$numberInt":"3"}]', '{"document":%s}' % NAMED),
    ('["get","c",3.0]', '{"error":"NotFound"}'),
    ('["get","c","3"]', '{"error":"NotFound"}'),
    ('["put","c",{"_id":1,"x":true}]', "{}"),
    ('["put","c",{"x":true}]', '{"error":"NoId"}'),
    ('["replace","c",{"_id":1,"x":{"$date":"2026-11-26T12:00:00Z"}}]', "{}"),
    ('["get","c",1]', '{"document":{"_id":%s,"x":{"$date":{"$numberLong":"1795694400000"}}}}' % int32(1)),
    ('["replace","c",{"_id":9}]', '{"error":"NotFound"}'),
    ('["set","c",1,"x",-0.0]', "{}"),
    ('["set","c",1,"_id",2]', '{"error":"BadKey"}'),
    ('["set","c",9,"x",2]', '{"error":"NotFound"}'),
    ('["get","c",1]', '{"document":{"_id":%s,"x":{"$numberDouble":"-0.0"}}}' % int32(1)),
    ('["unset","c",1,"x"]', '{"was_there":true}'),
    ('["unset","c",1,"x"]', '{"was_there":false}'),
    ('["unset","c",1,"_id"]', '{"error":"BadKey"}'),
    # A path of several keys is one of $set and $unset, unless it is said to be one key; a key without a dot is as it is.
    ('["set","c",1,"a.b.c",2]', "{}"),
    ('["set","c",1,"a.b.d",3,{"key":false}]', "{}"),
    ('["set","c",1,"a.b",4,{"key":true}]', "{}"),
    ('["set","c",1,"$x",5,{}]', "{}"),
    ('["get","c",1]', '{"document":{"_id":%s,"a":{"b":{"c":%s,"d":%s}},"a.b":%s,"$x":%s}}' % tuple(map(int32, (1, 2, 3, 4, 5)))),
    ('["set","c",1,"$x.y",5]', '{"error":"Usage","at":"update $set $x.y is no path of keys"}'),
    ('["set","c",1,"a.b.c.d",5]', '{"error":"Through","document":0}'),
    ('["set","c",1,"_id.x",5,{"key":true}]', "{}"),
    ('["set","c",9,"a.b",5]', '{"error":"NotFound"}'),
    ('["unset","c",9,"a.b"]', '{"error":"NotFound"}'),
    ('["set","","9","a.b",5]', '{"error":"BadName"}'),
    ('["set","c",1,"n.n",%s]' % NESTED, '{"error":"TooDeep","document":0}'),
    ('["unset","c",1,"a.b.c"]', '{"was_there":true}'),
    ('["unset","c",1,"a.b.c"]', '{"was_there":false}'),
    ('["unset","c",1,"a.b.d.e"]', '{"error":"Through","document":0}'),
    ('["unset","c",1,"b.c"]', '{"was_there":false}'),
    ('["unset","c",1,"a.b",{"key":true}]', '{"was_there":true}'),
    ('["unset","c",1,"_id.x",{"key":true}]', '{"was_there":true}'),
    ('["unset","c",1,"$x",{"key":false}]', '{"was_there":true}'),
    ('["get","c",1]', '{"document":{"_id":%s,"a":{"b":{"d":%s}}}}' % (int32(1), int32(3))),
    ('["unset","c",1,"a",{}]', '{"was_there":true}'),
    ('["update","c",{"p":4.25},{"$inc":{"n":2}}]', '{"matched":1,"changed":1}'),
    ('{"id":7,"do":["update","c",{},{"$inc":{"n":2}},{"many":true}]}', '{"id":7,"matched":3,"changed":3}'),
    ('["update","c",{},{"$min":{"n":2}},{"many":true}]', '{"matched":3,"changed":1}'),
    ('["update","c",{},{"$min":{"n":3}},{"many":false}]', '{"matched":1,"changed":0}'),
    ('["update","c",{"_id":8},{"$min":{"n":3}},{}]', '{"matched":0,"changed":0}'),
    ('["update","c",{},{"$inc":{"a":2}},{"many":true}]', '{"error":"NotANumber","document":2}'),
    ('["update","c",{},{"$unset":{"n":1}},{"many":true}]', '{"matched":3,"changed":3}'),
    ('["update","",{},{"$unset":{"n":1}}]', '{"error":"BadName"}'),
    ('["find","c",{"p":4.25}]', '{"documents":[{"_id":"A-1","p":{"$numberDouble":"4.25"}}]}'),
    ('["find","c"]', '{"documents":[{"_id":%s},{"_id":"A-1","p":{"$numberDouble":"4.25"}},%s]}' % (int32(1), NAMED)),
    ('["find","none"]', '{"documents":[]}'),
    ('["find","c",{},{}]', '{"documents":[{"_id":%s},{"_id":"A-1","p":{"$numberDouble":"4.25"}},%s]}' % (int32(1), NAMED)),
    ('["find","c",{},{"limit":1}]', '{"documents":[{"_id":%s}]}' % int32(1)),
    ('["find","c",{},{"limit":1,"sort":{"p":-1}}]', '{"documents":[{"_id":"A-1","p":{"$numberDouble":"4.25"}}]}'),
    ('["find","c",{},{"skip":2,"sort":{"p":-1,"_id":1}}]', '{"documents":[%s]}' % NAMED),
    ('["find","c",{},{"limit":0}]', '{"documents":[]}'),
    ('["find","c",{"p":4.25},{"skip":1}]', '{"documents":[]}'),
    ('["count","c"]', '{"count":3}'),
    ('["count","c",{"p":{"$exists":true}}]', '{"count":1}'),
    ('["count","c",{"$nor":[{"_id":{"$in":[1,"A-1"]}}]}]', '{"count":1}'),
    ('["put","g",{"_id":1,"n":1}]', "{}"),
    ('["put","g",{"_id":2,"n":2}]', "{}"),
    ('["put","g",{"_id":3,"n":2}]', "{}"),
    ('["replace-one","g",{"n":9},{"_id":2}]', '{"matched":0,"changed":0}'),
    ('{"id":7,"do":["replace-one","g",{"n":2},{"n":2,"p":1.5}]}', '{"id":7,"matched":1,"changed":1}'),
    ('["replace-one","g",{"_id":2},{"p":1.5,"n":2,"_id":2}]', '{"matched":1,"changed":1}'),
    ('["replace-one","g",{},{"_id":2}]', '{"error":"Id","document":0}'),
    ('["replace-one","",{},{}]', '{"error":"BadName"}'),
    ('["get","g",2]', '{"document":{"p":{"$numberDouble":"1.5"},"n":%s,"_id":%s}}' % (int32(2), int32(2))),
    ('{"id":7,"do":["find-and-update","g",{"n":2},{"$inc":{"n":5}},{"sort":{"_id":-1},"after":true}]}', '{"id":7,"document":{"_id":%s,"n":%s}}' % (int32(3), int32(7))),
    ('["find-and-update","g",{"n":7},{"$inc":{"n":-5}},{"fields":{"n":1,"_id":0}}]', '{"document":{"n":%s}}' % int32(7)),
    ('["find-and-update","g",{"n":7},{"$inc":{"n":-5}}]', '{"document":null}'),
    ('["find-and-replace","g",{"_id":1},{"n":1},{}]', '{"document":{"_id":%s,"n":%s}}' % (int32(1), int32(1))),
    ('["find-and-replace","g",{},{"_id":2},{"limit":9}]', '{"error":"Id","document":0}'),
    ('{"id":7,"do":["find-and-delete","g",{},{"limit":0}]}', '{"id":7,"document":null}'),
    ('["find-and-delete","",{}]', '{"error":"BadName"}'),
    ('["delete","g",{"n":3}]', '{"count":0}'),
    ('{"id":7,"do":["delete","g",{"n":2},{"many":false}]}', '{"id":7,"count":1}'),
    ('["find","g"]', '{"documents":[{"_id":%s,"n":%s},{"_id":%s,"n":%s}]}' % tuple(map(int32, (1, 1, 3, 2)))),
    ('["delete","g",{},{"many":true}]', '{"count":2}'),
    ('["delete","g",{}]', '{"count":0}'),
    ('["delete","",{}]', '{"error":"BadName"}'),
    ('["put","w",{"_id":2,"n":1}]', "{}"),
    ('["put","w",{"_id":1}]', "{}"),
    ('["copy","w","v"]', '{"count":2}'),
    ('["copy","w","v"]', '{"error":"DuplicateId"}'),
    ('["rename","v","w"]', '{"error":"DuplicateId"}'),
    ('{"id":7,"do":["rename","v","u"]}', '{"id":7,"count":2}'),
    ('["rename","v","t"]', '{"error":"NotFound"}'),
    ('["copy","u",""]', '{"error":"BadName"}'),
    ('["find","u"]', '{"documents":[{"_id":%s,"n":%s},{"_id":%s}]}' % tuple(map(int32, (2, 1, 1)))),
    ('["count","v"]', '{"count":0}'),
    ('["rename","u","w",{"drop":false}]', '{"error":"DuplicateId"}'),
    ('["rename","w","w",{"drop":true}]', '{"error":"DuplicateId"}'),
    ('["rename","t","w",{"drop":true}]', '{"error":"NotFound"}'),
    ('["count","u",{},{"limit":1}]', '{"count":1}'),
    ('["count","u",{},{"skip":1,"limit":5}]', '{"count":1}'),
    ('["count","u",{},{"limit":0}]', '{"count":0}'),
    ('["count","u",{},{"skip":18446744073709551615}]', '{"count":0}'),
    ('{"id":7,"do":["count","u",{"n":1},{}]}', '{"id":7,"count":1}'),
    ('["put","t",{"_id":9}]', "{}"),
    ('{"id":7,"do":["rename","t","u",{"drop":true}]}', '{"id":7,"count":1}'),
    ('["find","u"]', '{"documents":[{"_id":%s}]}' % int32(9)),
    ('["rename","u","t",{}]', '{"count":1}'),
    ('["copy","w","u"]', '{"count":2}'),
    ('["rename","t","s",{"drop":true}]', '{"count":1}'),
    ('["drop","s"]', '{"count":1}'),
    ('["drop","u"]', '{"count":2}'),
    ('["drop","u"]', '{"count":0}'),
    ('["drop","w"]', '{"count":2}'),
    ('["drop",""]', '{"error":"BadName"}'),
    ('["remove","c","A-1"]', "{}"),
    ('["remove","c","A-1"]', '{"error":"NotFound"}'),
    ('["import","d",%s]' % binary(ONE + TWO), '{"count":2}'),
    ('["import","d",[{"_id":3},{"_id":4,"a":2.5}]]', '{"count":2}'),
    ('["import","d",[{"_id":5},{"_id":4}]]', '{"error":"DuplicateId","document":1}'),
    ('["import","e",[{"_id":1},{"_id":2,"a":1}]]', '{"count":2}'),
    ('["import","e",[{"_id":2,"a":2},{"_id":3},{"_id":3,"a":3}],{"upsert":true}]', '{"count":3}'),
    ('["import","e",[{"_id":2,"a":9},{"_id":4},{"_id":4,"a":9}],{"skip-existing":true}]', '{"count":3}'),
    ('["find","e"]', '{"documents":[{"_id":%s},{"_id":%s,"a":%s},{"_id":%s,"a":%s},{"_id":%s}]}' % tuple(map(int32, (1, 2, 2, 3, 3, 4)))),
    ('["import","e",[{"_id":4}],{"upsert":false}]', '{"error":"DuplicateId","document":0}'),
    ('["import","e",[{"_id":4}],{"skip-existing":false}]', '{"error":"DuplicateId","document":0}'),
    ('["import","e",[{"_id":4}],{}]', '{"error":"DuplicateId","document":0}'),
    ('["import","e",%s,{"upsert":true}]' % binary(ONE[:-1]), '{"error":"EndInside","document":0}'),
    ('["import","",[],{"upsert":true}]', '{"error":"BadName"}'),
    ('["drop","e"]', '{"count":4}'),
    ('["import","d",%s]' % binary(ONE[:-1]), '{"error":"EndInside","document":0}'),
    ('["import","d",[]]', '{"count":0}'),
    ('["export","d"]', '{"bytes":%s}' % binary(ONE + TWO + bson.encode({"_id": 3}) + bson.encode({"_id": 4, "a": 2.5}))),
    ('["export","none"]', '{"bytes":%s}' % binary(b"")),
    ('["export",""]', '{"error":"BadName"}'),
    ('["import","r",%s]' % binary(bson.encode({"_id": 1, "a": {"b": {"$oid": 1}}})), '{"count":1}'),
    ('["get","r",1]', '{"error":"ReservedKey","key":"a.b.$oid"}'),
    ('["find","r"]', '{"error":"ReservedKey","document":0,"key":"a.b.$oid"}'),
    ('["insert","\\"\\n",{"_id":1}]', '{"_id":%s}' % int32(1)),
    ('["collections"]', '{"names":["\\"\\n","c","d","r"]}'),
    ('["check"]', '{"count":8}'),
    ('{"id":7,"do":["check"]}', '{"id":7,"count":8}'),
    ('{"id":7,"do":["count","c"]}', '{"id":7,"count":2}'),
    ('{"do":["count","c"],"id":{"a":[1.50,"\\u00fc"]}}', '{"id":{"a":[1.50,"\u00fc"]},"count":2}'),
    ('{"id":null,"do":["get","c",9]}', '{"id":null,"error":"NotFound"}'),
    ('{"id":1,"do":["remove","c",1]}', '{"id":1}'),
    ('{"id":1,"do":["insert","c",{"_id":1}]}', '{"id":1,"_id":%s}' % int32(1)),
    (' [ "count" , "c" ] ', '{"count":2}'),
    ('["index","d","a"]', "{}"),
    ('["index","d","a"]', "{}"),
    ('["index","none","a.b.0"]', "{}"),
    ('["index","",""]', '{"error":"BadName"}'),
    ('["find","d",{"a":1.5}]', '{"documents":[{"_id":%s,"a":{"$numberDouble":"1.5"}}]}' % int32(2)),
    ('["set","d",4,"a",1.5]', "{}"),
    ('["count","d",{"a":{"$in":[1.5,7]}}]', '{"count":2}'),
    ('{"id":1,"do":["drop_index","d","a"]}', '{"id":1}'),
    ('["drop_index","d","a"]', "{}"),
    ('["drop_index","","a"]', '{"error":"BadName"}'),
    ('["count","d",{"a":1.5}]', '{"count":2}'),
]
# Lines that ask for nothing, and where they are wrong.
WRONG = [
    ("[", "byte 2"), ("nul", "byte 1"), ('["count","c"] 1', "byte 15"), ("\udcff", "byte 1"), ('["count","\udcff"]', "byte 11"),
    ('["insert","c",{"_id":1,"a":1,"a":2}]', "repeated key"), ('{"id":1,"id":2,"do":["collections"]}', "repeated key"),
    ("1", "command"), ("[]", "command"), ("{}", "command"), ('{"do":["collections"]}', "command"), ("[1]", "command"), ('["frob"]', "command"), ('["Count","c"]', "command"),
    ('["count"]', "arguments"), ('["count","c",{},1]', "options"), ('["count","c",{},{},{}]', "arguments"),
    ('["count","c",{},{"limit":-1}]', "options"), ('["count","c",{},{"limit":1.0}]', "options"), ('["count","c",{},{"sort":{"a":1}}]', "options"),
    ('["count","c",{},{"skip":1,"fields":{}}]', "options"), ('["count","c",1,{"limit":"1"}]', "query is no object"),
    ('["insert","c"]', "arguments"), ('["collections","c"]', "arguments"), ('["check","c"]', "arguments"),
    ('["backup","b.db"]', "command"), ('{"do":["collections"],"more":1}', "command"),
    ('["count",1]', "collection"), ('["export",null]', "collection"),
    ('["insert","c",1]', "document"), ('["put","c",{"_id":{"$oid":"x"}}]', "document"), ('["insert","c",{"a":{"$oid":1}}]', "document"),
    ('["import","c",[{"_id":1},2]]', "document 1"), ('["import","c",[],1]', "options"), ('["import","c",[],{"upsert":true,"skip-existing":true}]', "options"),
    ('["import","c",[],{"many":true}]', "options"), ('["import","c",[2],1]', "document 0"), ('["import","c",[],{},{}]', "arguments"),
    ('["import","c",[{"_id":1},{"a":{"$numberInt":"x"}}]]', "document 1"),
    ('["get","c",{"$oid":"x"}]', "id"), ('["set","c",{"$date":1.5},"k",1]', "id"), ('["set","c",1,2,3]', "key"), ('["unset","c",1,null]', "key"),
    ('["set","c",1,"k",{"$numberInt":"x"}]', "value"), ('["index","c",["a"]]', "path"), ('["drop_index","c",1]', "path"),
    ('["index","c"]', "arguments"), ('["index",1,1]', "collection"), ('["drop_index","c","a",1]', "arguments"),
    ('["drop"]', "arguments"), ('["drop","c","d"]', "arguments"), ('["rename","c"]', "arguments"), ('["rename","c","d",1]', "options"),
    ('["rename","c","d",{"drop":1}]', "options"), ('["rename","c","d",{"upsert":true}]', "options"), ('["rename","c","d",{},{}]', "arguments"),
    ('["rename","c",1,1]', "collection"), ('["copy","c","d",{"drop":true}]', "arguments"),
    ('["copy","c",1]', "collection"), ('["rename",1,"c"]', "collection"),
    ('["find","c",1]', "query is no object"), ('["find","c",{"a":{"$near":1}}]', "query no operator $near"),
    ('["find","c",{"a":{"$regex":"x("}}]', "query $regex takes no such value"),
    ('["find","c",{"a":{"$regex":"x","$options":"z"}}]', "query $options takes no such value"),
    ('["count","c",{"a.b":{"$exists":2.5}}]', "query $exists takes no such value"),
    ('["aggregate","c"]', "arguments"), ('["aggregate","c",[],{}]', "arguments"), ('["aggregate",1,1]', "collection"),
    ('["aggregate","c",[{"$match":1}]]', "query is no object"), ('["aggregate","c",[{"$skip":1},{"$match":{"a":{"$near":1}}}]]', "query no operator $near"),
    *[('["aggregate","c",%s]' % pipeline, "stages") for pipeline in (
        "{}", "null", "[1]", "[{}]", '[{"$skip":1,"$limit":1}]', '[{"$out":"d"}]', '[{"skip":1}]', '[{"$skip":-1}]', '[{"$skip":1.0}]', '[{"$limit":0}]',
        '[{"$limit":"1"}]', '[{"$sort":{}}]', '[{"$sort":{"a":2}}]', '[{"$sort":"a"}]', '[{"$project":{}}]', '[{"$project":{"a":1,"b":0}}]',
        '[{"$project":{"a":"$b"}}]', '[{"$count":""}]', '[{"$count":"$a"}]', '[{"$count":"a.b"}]', '[{"$count":"a\\u0000"}]', '[{"$count":1}]',
        '[{"$unwind":"a"}]', '[{"$unwind":"$"}]', '[{"$unwind":"$a..b"}]', '[{"$unwind":"$$ROOT"}]', '[{"$unwind":{}}]',
        '[{"$unwind":{"path":"$a","includeArrayIndex":"i"}}]', '[{"$unwind":{"path":"$a","preserveNullAndEmptyArrays":1}}]',
        '[{"$group":{}}]', '[{"$group":{"a":{"$sum":1}}}]', '[{"$group":{"_id":null,"a":1}}]', '[{"$group":{"_id":null,"a.b":{"$sum":1}}}]',
        '[{"$group":{"_id":null,"a":{"$sum":1,"$avg":1}}}]', '[{"$group":{"_id":null,"a":{"$stdDevPop":1}}}]', '[{"$group":{"_id":null,"a":{"$count":1}}}]',
        '[{"$group":{"_id":[1]}}]', '[{"$group":{"_id":{"a":"$a"}}}]', '[{"$group":{"_id":{"$date":1}}}]', '[{"$group":{"_id":"$a."}}]',
        '[{"$match":{}},{"$match":{},"a":1}]')],
    ('["update","c",{}]', "arguments"), ('["update","c",{},{},{},1]', "arguments"), ('["update","c",1,{}]', "query is no object"), ('["update","c",{},[]]', "update is no object"),
    ('["update","c",{},{"a":1}]', "update no operator a"), ('["update","c",{},{"$currentDate":{"a":false}}]', "update $currentDate a takes no such value"),
    ('["update","c",{},{"$currentDate":{"a":{"$type":"timestamp"}}}]', "update $currentDate a takes no such value"),
    ('["update","c",{},{"$set":1}]', "update $set takes an object of paths"), ('["update","c",{},{"$set":{"a..b":1}}]', "update $set a..b is no path of keys"),
    ('["update","c",{},{"$set":{"_id.a":1}}]', "update $set _id.a is of the _id, which is never changed"),
    ('["update","c",{},{"$set":{"a":1},"$inc":{"a.b":1}}]', "update $inc a.b meets another path"), ('["update","c",{},{"$inc":{"a":"x"}}]', "update $inc a takes no such value"),
    ('["update","c",{},{},1]', "options"), ('["update","c",{},{},{"many":1}]', "options"), ('["update","c",{},{},{"x":true}]', "options"),
    ('["update","c",{},{},{"many":true,"x":true}]', "options"), ('["update","c",{},{"a":1},1]', "update no operator a"),
    ('["replace-one","c",{}]', "arguments"), ('["replace-one","c",{},{},{}]', "arguments"), ('["replace-one",1,{},{}]', "collection"),
    ('["replace-one","c",1,1]', "query is no object"), ('["replace-one","c",{},1]', "document"),
    ('["delete","c"]', "arguments"), ('["delete","c",{},{},1]', "arguments"), ('["delete",1,{}]', "collection"), ('["delete","c",{"$x":1}]', "query no operator $x"),
    ('["delete","c",{},{"many":2}]', "options"),
    ('["find-and-update","c",{}]', "arguments"), ('["find-and-update","c",{},{},{},{}]', "arguments"), ('["find-and-update","c",{},{"a":1}]', "update no operator a"),
    ('["find-and-update","c",{},{},{"many":true}]', "options"), ('["find-and-update","c",{},{},{"after":1}]', "options"), ('["find-and-replace","c",{},1]', "document"),
    ('["find-and-delete","c",{},{"after":true}]', "options"), ('["find-and-delete","c",{},{},1]', "arguments"), ('["find","c",{},{"after":true}]', "options"),
    ('["find","c",{},1]', "options"), ('["find","c",{},{"most":1}]', "options"), ('["find","c",{},{"limit":-1}]', "options"),
    ('["find","c",{},{"skip":1.0}]', "options"), ('["find","c",{},{"skip":18446744073709551616}]', "options"),
    ('["find","c",{},{"limit":"1"}]', "options"), ('["find","c",{},{"sort":["a"]}]', "options"),
    ('["find","c",{},{"sort":{"a":2}}]', "options"), ('["find","c",{},{"sort":{"a":"1"}}]', "options"),
    ('["find","c",{},{"many":true}]', "options"), ('["update","c",{},{},{"limit":1}]', "options"),
    ('["find","c",1,{"limit":"x"}]', "query is no object"), ('["find",1,{},{"limit":"x"}]', "collection"),
    ('["find","c",{},{},1]', "arguments"), ('["count","c",{},{},1]', "arguments"),
    ('["import","c","x"]', "stream"), ('["import","c",%s]' % binary(ONE, "05"), "stream"), ('["import","c",1]', "stream"),
    ('["set","c",1,"a"]', "arguments"), ('["set","c",1,"a",1,{},1]', "arguments"), ('["unset","c",1]', "arguments"), ('["unset","c",1,"a",{},1]', "arguments"),
    ('["set","c",1,"a.b",1,{"key":1}]', "options"), ('["set","c",1,"a.b",1,1]', "options"), ('["unset","c",1,"a.b",{"many":true}]', "options"),
    ('["unset","c",1,"a.b",{"key":true,"x":1}]', "options"), ('["set","c",1,2,3,{"key":true}]', "key"), ('["set","c",1,2,3,{"x":true}]', "key"),
    ('["set","c",1,"a..b",1]', "update $set a..b is no path of keys"), ('["set","c",1,"a.$b",1,{"key":false}]', "update $set a.$b is no path of keys"),
    ('["unset","c",1,".a"]', "update $unset .a is no path of keys"), ('["set","c",1,"_id.a",1]', "update $set _id.a is of the _id, which is never changed"),
]


def words_of(place):
    return '{"error":"Usage","at":%s}' % json.dumps(place)


def encoded(lines):
    return "".join(f"{line}\n" for line in lines).encode(errors="surrogateescape")


holds("each request", run(encoded(line for line, _ in TABLE), "table.db"), (0, [answer for _, answer in TABLE], ""))
for (line, wanted), found in zip(WRONG, run(encoded(line for line, _ in WRONG), "wrong.db")[1]):
    holds(f"where {line[:60]!r} is wrong", found, words_of(wanted))
holds("none of them did anything", run(line_of("collections"), "wrong.db"), (0, ['{"names":[]}'], ""))
holds("a wrong question of an id", run(b'{"id":[7],"do":["frob"]}\n', "wrong.db"), (0, ['{"id":[7],"error":"Usage","at":"command"}'], ""))
# The answer to a line that is no request has its id, if that can be read.
for line, start, place in [
    ('{"id":1}', '"id":1,', "command"), ('{"id":7,"do":["collections"],"more":1}', '"id":7,', "command"), ('{"more":[],"id":"a"}', '"id":"a",', "command"),
    ('{"id":7,"do":["insert","c",{"a":1,"a":2}]}', '"id":7,', "repeated key"), ('{"do":1,"do":[],"id":{"x":[1.50]}}', '"id":{"x":[1.50]},', "repeated key"),
    ('{"id":1,"do":["collections"],"id":1}', "", "repeated key"), ('[{"id":1,"id":2}]', "", "repeated key"), ('{"id":7,"do":[1 2]}', "", "byte 17"),
]:
    holds(f"the id of {line}", run(encoded([line]), "wrong.db")[1], ['{%s"error":"Usage","at":%s}' % (start, json.dumps(place))])
DEEP = ["[" * 200 + "]" * 200, '["insert","c",{"_id":1,"a":%s}]' % ("[" * 150 + "]" * 150)]
for line in DEEP:
    answers = run(encoded([line, '["count","c"]']), "wrong.db")[1]
    holds("a line of many levels", (len(answers), answers[0].startswith('{"error":'), answers[1]), (2, True, '{"count":0}'))

# An `_id` that is made is new each time, the first key, and comes back.
made = [json.loads(answer)["_id"]["$oid"] for answer in run(b'["insert","m",{"a":1}]\n' * 100, "made.db")[1]]
made += [json.loads(answer)["_id"]["$oid"] for answer in run(b'["insert","m",{"a":1}]\n', "made.db")[1]]
holds("ids that are made", (len(set(made)), {len(one) for one in made}), (101, {24}))
holds("the first document", run(line_of("get", "m", {"$oid": made[0]}), "made.db")[1], ['{"document":{"_id":{"$oid":"%s"},"a":%s}}' % (made[0], int32(1))])
holds("of many", run(line_of("import", "n", [{"a": 1}] * 50), "made.db")[1], ['{"count":50}'])
holds("by their seconds", all(abs(int(one[:8], 16) - time.time()) < 3600 for one in made), True)

# The date that an update asks for is the moment at which its line is read, also in a session that is open for long, and one for a list.
def dates_of(document):
    return {int(document[key]["$date"]["$numberLong"]) for key in document if key != "_id"}


holds("documents to be dated", run(line_of("import", "t", [{"_id": number} for number in range(3)]), "dates.db")[1], ['{"count":3}'])
DATED = {"$currentDate": {"a": True, "b": {"$type": "date"}}}
process = subprocess.Popen([PROGRAM, str(FOLDER / "dates.db")], stdin=subprocess.PIPE, stdout=subprocess.PIPE)
for step, request in [
    ("update", ["update", "t", {"_id": 0}, DATED]), ("update of all", ["update", "t", {}, DATED, {"many": True}]),
    ("find-and-update", ["find-and-update", "t", {"_id": 0}, DATED]), ("upsert", ["update", "t", {"_id": 9}, DATED, {"upsert": True}]),
    ("what is asked for twice", ["update", "t", {"_id": 0}, DATED]),
]:
    time.sleep(0.05)
    before = time.time_ns() // 10**6
    process.stdin.write(line_of(*request) + line_of("get", "t", 9 if step == "upsert" else 0))
    process.stdin.flush()
    answers = [json.loads(process.stdout.readline()) for _ in range(2)]
    dates = dates_of(answers[1]["document"])
    holds(f"the date of {step}", (len(dates), before <= min(dates) <= time.time_ns() // 10**6), (1, True))
process.stdin.close()
holds("the end of dates", process.wait(), 0)

# What is asked of arrays, of ranges and of items, without an index and with some: the answers stay.
LISTED = b"".join(b'["%s","customers",%s]\n' % (command, query.encode()) for query, _ in ASKED for command in (b"count", b"find"))
MADE = [line_of("index", "customers", path) for path in ("tags", "age", "orders.article", "orders.0.article", "_id")]
answers = [json.loads(line) for line in run(line_of("import", "customers", CUSTOMERS) + LISTED + b"".join(MADE) + LISTED, "customers.db")[1]]
holds("customers", answers[0], {"count": len(CUSTOMERS)})
holds("indexes of customers", answers[1 + 2 * len(ASKED):][:len(MADE)], [{}] * len(MADE))
for counts in answers[1:], answers[1 + 2 * len(ASKED) + len(MADE):]:
    for (query, wanted), count, found in zip(ASKED, counts[0::2], counts[1::2]):
        ids = [int(document["_id"]["$numberInt"]) for document in found["documents"]]
        holds(f"customers {query}", (count, ids), ({"count": len(wanted)}, wanted))

# The ends of lines and of the input.
INSERT, COUNT = b'["put","c",{"_id":1}]\n', line_of("count", "c")
holds("nothing", run(b""), (0, [], ""))
holds("empty lines", run(b"\n\n" + line_of("collections") + b"\n"), (0, ['{"names":[]}'], ""))
holds("a carriage return alone", run(b"\r\n\n\r\n" + line_of("collections") + b"\r"), (0, ['{"names":[]}'], ""))
holds("no line feed at the end", run(INSERT[:-1]), (0, ["{}"], ""))
holds("it is kept", run(COUNT), (0, ['{"count":1}'], ""))
holds("a carriage return", run(COUNT[:-1] + b"\r\n"), (0, ['{"count":1}'], ""))

# A line of 64 MiB is read, and one byte more is too long; the session goes on.
padded = COUNT[:-1].ljust(LONGEST)
holds("a line of 64 MiB", run(padded + b"\n"), (0, ['{"count":1}'], ""))
holds("one byte more", run(padded + b" \n" + COUNT), (0, [words_of("64 MiB"), '{"count":1}'], ""))
holds("the same at the end", run(padded + b" "), (0, [words_of("64 MiB")], ""))
text = "x" * (20 << 20)
holds("a line of 20 MB", run(line_of("count", text) + line_of("insert", "c", {"_id": 2, "text": text}) + COUNT),
      (0, ['{"count":0}', '{"error":"TooLong"}', '{"count":1}'], ""))
stream = b"".join(bson.encode({"_id": 10 + i, "text": "x" * (1 << 20)}) for i in range(20))
holds("20 MB of documents", [answer[:14] for answer in run(encoded(['["import","wide",%s]' % binary(stream), '["export","wide"]']))[1]], ['{"count":20}', '{"bytes":{"$bi'])
holds("they come back", run(line_of("export", "wide"))[1], ['{"bytes":%s}' % binary(stream)])

# Each answer comes before the next line is asked for.
process = subprocess.Popen([PROGRAM, str(FOLDER / "test.db")], stdin=subprocess.PIPE, stdout=subprocess.PIPE)
for number in range(2, 5):
    process.stdin.write(line_of("insert", "c", {"_id": number}))
    process.stdin.flush()
    holds("an answer", process.stdout.readline(), b'{"_id":%s}\n' % int32(number).encode())
done = subprocess.run([PROGRAM, str(FOLDER / "test.db"), "--wait", "0"], input=COUNT, capture_output=True)
holds("another session meanwhile", (done.returncode, done.stdout, done.stderr), (1, b"", b"refused: Busy\n"))
process.stdin.close()
holds("the end", (process.stdout.read(), process.wait()), (b"", 0))

# An output that fails: no further request is done. First a device that is always full, and then a file that ends with each byte of the
# answers in turn.
with open("/dev/full", "wb") as full:
    done = subprocess.run([PROGRAM, str(FOLDER / "test.db")], input=line_of("remove", "c", 1) + line_of("remove", "c", 2), stdout=full, stderr=subprocess.PIPE)
holds("an output that fails", (done.returncode, done.stderr), (1, b"refused: Writer\n"))
holds("what was done", run(line_of("get", "c", 1) + COUNT), (0, ['{"error":"NotFound"}', '{"count":3}'], ""))
PUTS = b"".join(line_of("put", "c", {"_id": number}) for number in range(3))
ANSWER = b"{}\n"
MOST = 1 << 24


def with_room(room, file):
    """A session with the three requests, whose output has room for so many bytes."""
    path = FOLDER / (file + ".out")
    with open(path, "wb") as output:
        output.truncate(MOST - room)
    with open(path, "ab") as output:
        done = subprocess.run([PROGRAM, str(FOLDER / file)], input=PUTS, stdout=output, stderr=subprocess.PIPE, restore_signals=False,
                              preexec_fn=lambda: resource.setrlimit(resource.RLIMIT_FSIZE, (MOST, MOST)))
    with open(path, "rb") as output:
        output.seek(MOST - room)
        return done.returncode, output.read(), done.stderr


def count_of(file):
    return json.loads(run(COUNT, file)[1][0])["count"]


for room in range(3 * len(ANSWER)):
    file = f"room{room}.db"
    found = with_room(room, file), count_of(file)
    holds(f"an output of {room} bytes", found, ((1, (3 * ANSWER)[:room], b"refused: Writer\n"), room // len(ANSWER) + 1))
holds("an output with room for all", (with_room(3 * len(ANSWER), "all.db"), count_of("all.db")), ((0, 3 * ANSWER, b""), 3))

# An input that fails behind each line, and inside of the next one: all lines before it are answered.
for number in range(4):
    for begun in [b"", PUTS[:10]]:
        file = f"read{number}{len(begun)}.db"
        ours, theirs = pty.openpty()
        tty.setraw(theirs)
        process = subprocess.Popen([PROGRAM, str(FOLDER / file)], stdin=ours, stdout=subprocess.PIPE, stderr=subprocess.PIPE)
        os.close(ours)
        for line in PUTS.splitlines(keepends=True)[:number]:
            os.write(theirs, line)
            holds("an answer", process.stdout.readline(), ANSWER)
        os.write(theirs, begun)
        os.close(theirs)
        found = process.communicate(), process.returncode, count_of(file)
        holds(f"an input that fails behind {number} lines and {len(begun)} bytes", found, ((b"", b"refused: Reader\n"), 1, number))

# Words and files that can't be had.
for words in [[], ["a", "b"], ["a", "--wait"], ["a", "--wait", "s"], ["-a"], ["a", "--json"]]:
    done = subprocess.run([PROGRAM, *words], stdin=subprocess.DEVNULL, capture_output=True)
    holds(f"words {words} of the program", (done.returncode, done.stdout, done.stderr), (2, b"", b"words: usage\n"))
holds("a folder", run(b"", "."), (1, [], "refused: NotPlain\n"))
(FOLDER / "text").write_text("this is no database, but a text" * 100)
holds("no database", run(b"", "text"), (1, [], "refused: NoDatabase\n"))
holds("no folder", run(b"", "none/a.db"), (1, [], "refused: NoFolder\n"))

# Little memory: each line is answered, or refused as out of memory, or the file can't be opened; nothing ends by a signal.
lines = encoded(['["import","c",%s]' % binary(stream), '["count","c"]', '["find","c"]', '["export","c"]'])
wanted = run(lines, "small.db")
found = set()
for megabytes in [*range(400, 40, -amounts.amount(120, 20)), *range(40, 2, -amounts.amount(2, 1))]:
    (FOLDER / "small.db").unlink(missing_ok=True)
    (FOLDER / "small.db-wal").unlink(missing_ok=True)
    status, answers, told = run(lines, "small.db", preexec_fn=lambda: resource.setrlimit(resource.RLIMIT_AS, (megabytes << 20, megabytes << 20)))
    if status == 127:
        break  # with less the system can't load the program
    if status == 0:
        known = [["memory" if answer == '{"error":"Memory"}' else answer == whole for answer, whole in zip(answers, wanted[1])], len(answers)]
        found.add(("answers", len(answers), all(one in ("memory", True) for one in known[0]) or known[0][0] == "memory"))
    else:
        found.add((status, len(answers), told))
holds(f"with {megabytes} to 400 MB", found, {("answers", 4, True), (1, 0, "refused: Memory\n")})

# Many inserts and gets in one session: a thousand of each, or as many as is told.
count = int(sys.argv[2]) if len(sys.argv) > 2 else 1000
began = time.time()
lines = b"".join(line_of("insert", "c", {"_id": n, "n": str(n)}) + line_of("get", "c", n) for n in range(count))
status, answers, told = run(lines, "many.db")
holds("many inserts and gets", (status, len(answers), told, answers[0::2] == ['{"_id":%s}' % int32(n) for n in range(count)]), (0, 2 * count, "", True))
holds("the last", json.loads(answers[-1])["document"]["n"], str(count - 1))
print(f"{time.time() - began:.1f} s")
print(f"{steps} steps, all as they should be")
