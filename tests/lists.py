#!/usr/bin/env python3
"""Runs the program fallowtime: lists of requests, made at random, beside a model in which a store is a list of documents for each
collection.

    tests/lists.py PROGRAM [COUNT [SEED]]

PROGRAM is fallowtime, under whatever name. COUNT is how many lists are made, 2000 if not given. Each is asked as a line of a session,
`["all",[REQUEST,..]]`, with an index made there, and a part of them by `apply`, over a file of its own. A list that is done has the
answers of the model, and leaves its documents in their order; one that is refused says at which request and why, and changes nothing.
Then `apply` of few requests and of a thousand is killed before each of its writes and syncs, and made to fail there: the documents are
those before the list, or those after it. It ends with status 1 at the first answer or state that isn't as it should be. Wants strace.
"""
import atexit
import copy
import json
import os
import pathlib
import random
import re
import shutil
import subprocess
import sys
import tempfile

import amounts

COUNT = int(sys.argv[2]) if len(sys.argv) > 2 else 2000
SEED = int(sys.argv[3]) if len(sys.argv) > 3 else amounts.seed(20261129)
FOLDER = pathlib.Path(tempfile.mkdtemp(prefix="lists-"))
atexit.register(shutil.rmtree, FOLDER, ignore_errors=True)
PROGRAM = str(FOLDER / "fallowtime")
shutil.copy(sys.argv[1], PROGRAM)
# The longest that a call may take here, in seconds.
LONG = 600
COLLECTIONS = ["a", "b"]
IDS = 12
CALLS = "pwrite64,ftruncate,fsync,fdatasync"


def fail(*what):
    print(*what, sep="\n  ")
    sys.exit(1)


# ---- the model


class Refused(Exception):
    """The members of the answer to a request that is refused."""

    def __init__(self, kind, **more):
        super().__init__(kind)
        self.members = {"error": kind, **more}


def place_of(store, name, own):
    for place, document in enumerate(store.get(name, [])):
        if document["_id"] == own:
            return place
    return None


def found(store, name, own):
    place = place_of(store, name, own)
    if place is None:
        raise Refused("NotFound")
    return store[name][place]


def keep(store, name, document):
    store.setdefault(name, []).append(document)


def insert(store, name, document):
    if place_of(store, name, document["_id"]) is not None:
        raise Refused("DuplicateId")
    keep(store, name, document)
    return {"_id": document["_id"]}


def put(store, name, document):
    place = place_of(store, name, document["_id"])
    if place is None:
        keep(store, name, document)
    else:
        store[name][place] = document
    return {}


def replace(store, name, document):
    found(store, name, document["_id"])
    return put(store, name, document)


def get(store, name, own):
    return {"document": found(store, name, own)}


def set_in(document, path, value):
    *keys, last = path.split(".")
    for key in keys:
        document = document.setdefault(key, {})
        if not isinstance(document, dict):
            raise Refused("Through", document=0)
    document[last] = value


def set_value(store, name, own, path, value):
    set_in(found(store, name, own), path, value)
    return {}


def unset(store, name, own, path):
    document = found(store, name, own)
    *keys, last = path.split(".")
    for key in keys:
        document = document.get(key, {})
        if not isinstance(document, dict):
            raise Refused("Through", document=0)
    was_there = last in document
    document.pop(last, None)
    return {"was_there": was_there}


def remove(store, name, own):
    found(store, name, own)
    del store[name][place_of(store, name, own)]
    return {}


def answers(document, query):
    """Whether a document answers a query: a number at each key, or one above a number."""
    for key, wanted in query.items():
        there = numbers_at(document.get(key))
        if not any(it > wanted["$gt"] if isinstance(wanted, dict) else it == wanted for it in there):
            return False
    return True


def selected(store, name, query, options):
    """The documents that answer a query, in the collection's order or the one that is told, and of that a part."""
    found = [document for document in store.get(name, []) if answers(document, query)]
    if "sort" in options:
        found.sort(key=lambda document: document["_id"], reverse=options["sort"]["_id"] < 0)
    found = found[options.get("skip", 0):]
    return found[:options["limit"]] if "limit" in options else found


def find(store, name, query, options):
    return {"documents": selected(store, name, query, options)}


def count(store, name, query, options):
    return {"count": len(selected(store, name, query, options))}


def distinct(store, name, path, query):
    return {"values": sorted(document[path] for document in selected(store, name, query, {}))}


def made_of(document, work):
    """What an update makes of a document, or another one in its place."""
    made = copy.deepcopy(document)
    for path, value in work.get("$set", {}).items():
        set_in(made, path, value)
    for key, number in work.get("$inc", {}).items():
        if key in made and (not isinstance(made[key], int) or isinstance(made[key], bool)):
            raise Refused("NotANumber")
        made[key] = made.get(key, 0) + number
    if any(key.startswith("$") for key in work):
        return made
    if work.get("_id", document["_id"]) != document["_id"]:
        raise Refused("Id")
    return {"_id": document["_id"], **work}


def is_same(document, other):
    """Whether they are the same to the bit: with their keys in one order, and true is no number."""
    return json.dumps(document) == json.dumps(other)


def change_each(store, name, meant, work):
    """Changes these documents of a collection, and returns what they are then."""
    made = []
    for number, document in enumerate(meant):
        try:
            made.append(made_of(document, work))
        except Refused as refusal:
            raise Refused(refusal.members["error"], document=number)
    for document in made:
        store[name][place_of(store, name, document["_id"])] = document
    return made


def update(store, name, query, work, options):
    meant = selected(store, name, query, {} if options.get("many") else {"limit": 1})
    if not meant and options.get("upsert"):
        keep(store, name, made_of({"_id": query["_id"]}, work))
        return {"matched": 0, "changed": 0, "upserted": query["_id"]}
    made = change_each(store, name, meant, work)
    return {"matched": len(meant), "changed": sum(not is_same(*pair) for pair in zip(meant, made))}


def delete(store, name, query, options):
    meant = selected(store, name, query, {} if options.get("many") else {"limit": 1})
    store[name] = [document for document in store.get(name, []) if document not in meant]
    return {"count": len(meant)}


def find_and_update(store, name, query, work, options):
    meant = selected(store, name, query, {**options, "limit": 1})
    made = change_each(store, name, meant, work)
    return {"document": (made if options.get("after") else meant)[0] if meant else None}


def find_and_delete(store, name, query, options):
    meant = selected(store, name, query, {**options, "limit": 1})
    if meant:
        store[name].remove(meant[0])
    return {"document": meant[0] if meant else None}


DONE = {
    "insert": insert, "put": put, "replace": replace, "get": get, "set": set_value, "unset": unset, "remove": remove, "find": find,
    "count": count, "distinct": distinct, "update": update, "replace-one": update, "delete": delete, "find-and-update": find_and_update,
    "find-and-replace": find_and_update, "find-and-delete": find_and_delete,
}


def done(store, requests):
    """What a list makes of a store, and its answers; or the store as it is, and the answer that refuses it."""
    after, answers = copy.deepcopy(store), []
    for position, (kind, name, *rest) in enumerate(requests):
        try:
            if not name:
                raise Refused("BadName")
            answers.append(copy.deepcopy(DONE[kind](after, name, *copy.deepcopy(rest))))
        except Refused as refusal:
            first, *others = refusal.members.items()
            return store, dict([first, ("request", position), *others])
    return after, {"all": answers}


# ---- requests at random


def value():
    return random.choice([random.randrange(100), "x" * random.randrange(20), [1, "two"], {"x": 1}, None, True])


def document_of(own):
    document = {"_id": own}
    for key in random.sample(["n", "t", "s"], random.randrange(4)):
        document[key] = value()
    return document


def query_of(own):
    return random.choice([{}, {"n": random.randrange(100)}, {"n": {"$gt": random.randrange(100)}}, {"_id": own}, {"_id": {"$gt": random.randrange(IDS)}}])


def work_of():
    return random.choice([{"$set": {"n": value()}}, {"$set": {"s.x": random.randrange(3)}}, {"$inc": {"n": 1}}, {"$set": {"t": value()}, "$inc": {"k": 2}}])


def replacement_of(own):
    document = document_of(own)
    if random.random() < 0.9:
        del document["_id"]
    return document


def by_query(kind, name, own):
    """A request about the documents that answer a query."""
    query = query_of(own)
    part = random.choice([{}, {"skip": 1}, {"limit": 2}, {"skip": 1, "limit": 3}])
    order = random.choice([{}, {"sort": {"_id": -1}}])
    after = random.choice([{}, {"after": True}])
    if kind == "find":
        return [kind, name, query, {**order, **part}]
    if kind == "count":
        return [kind, name, query, part]
    if kind == "distinct":
        return [kind, name, "_id", query]
    if kind == "update":
        upsert = random.random() < 0.3
        return [kind, name, {"_id": own} if upsert else query, work_of(), {"many": random.random() < 0.5, "upsert": upsert}]
    if kind == "replace-one":
        return [kind, name, query, replacement_of(own), {"upsert": False}]
    if kind == "delete":
        return [kind, name, query, {"many": random.random() < 0.5}]
    if kind == "find-and-update":
        return [kind, name, query, work_of(), {**order, **after}]
    if kind == "find-and-replace":
        return [kind, name, query, replacement_of(own), {**order, **after}]
    return [kind, name, query, order]


BY_QUERY = ["find", "count", "distinct", "update", "update", "replace-one", "delete", "find-and-update", "find-and-replace", "find-and-delete"]


def request(store):
    """A request that is mostly one that can be done."""
    name = random.choice(COLLECTIONS) if random.random() < 0.98 else ""
    there = [document["_id"] for document in store.get(name, [])]
    own = random.choice(there) if there and random.random() < 0.8 else random.randrange(IDS)
    if random.random() < 0.4:
        return by_query(random.choice(BY_QUERY), name, own)
    kind = random.choice(["insert", "insert", "insert", "put", "replace", "get", "set", "set", "unset", "remove"])
    if kind == "insert":
        free = [it for it in range(IDS) if it not in there]
        return [kind, name, document_of(random.choice(free) if free and random.random() < 0.9 else own)]
    if kind in ("put", "replace"):
        return [kind, name, document_of(own)]
    if kind == "set":
        return [kind, name, own, random.choice(["n", "t", "s.x", "s.y.z"]), value()]
    if kind == "unset":
        return [kind, name, own, random.choice(["n", "t", "n.x", "s.x", "s.y.z"])]
    return [kind, name, own]


def list_of(store):
    """Some requests, each over what those before it leave, so that most lists can be done to their end."""
    requests = []
    for _ in range(random.choice([0, 1, 2, 3, 5, 8, 20])):
        requests.append(request(done(store, requests)[0]))
    return requests


# ---- the program


def plain(tree):
    """What canonical Extended JSON means here."""
    if isinstance(tree, list):
        return [plain(item) for item in tree]
    if isinstance(tree, dict):
        if list(tree) == ["$numberInt"]:
            return int(tree["$numberInt"])
        return {key: plain(item) for key, item in tree.items()}
    return tree


def members(answer):
    """An answer as it is printed, with its members in their order; numbers of answers come as they are."""
    return list(plain(answer).items())


class Session:
    def __init__(self, file):
        self.process = subprocess.Popen([PROGRAM, file], stdin=subprocess.PIPE, stdout=subprocess.PIPE, cwd=FOLDER, text=True)

    def ask(self, tree):
        self.process.stdin.write(json.dumps(tree) + "\n")
        self.process.stdin.flush()
        return json.loads(self.process.stdout.readline())

    def documents(self):
        found = {name: plain(self.ask(["find", name])["documents"]) for name in COLLECTIONS}
        return {name: documents for name, documents in found.items() if documents}

    def end(self):
        self.process.stdin.close()
        if self.process.wait(LONG):
            fail("a session ends with", self.process.returncode)


def apply(file, lines, before=()):
    given = lines if isinstance(lines, str) else "".join(json.dumps(line) + "\n" for line in lines)
    ran = subprocess.run([*before, PROGRAM, file, "apply"], input=given, capture_output=True, text=True, cwd=FOLDER, timeout=LONG)
    return ran.returncode, ran.stdout, ran.stderr


def exported(file):
    """The documents of a file, by words."""
    found = {}
    for name in COLLECTIONS:
        ran = subprocess.run([PROGRAM, file, "find", name, "--canonical"], capture_output=True, text=True, cwd=FOLDER, timeout=LONG)
        if ran.returncode:
            fail(f"find {name}", ran.stderr)
        found[name] = [plain(json.loads(line)) for line in ran.stdout.splitlines()]
    return {name: documents for name, documents in found.items() if documents}


def without_empty(store):
    return {name: documents for name, documents in store.items() if documents}


# ---- what is tried


def try_line(session, store, requests):
    after, expected = done(store, requests)
    answer = session.ask({"id": 7, "do": ["all", requests]})
    if members(answer) != [("id", 7), *expected.items()]:
        fail("a list", json.dumps(requests), "has the answer", json.dumps(answer), "and not", json.dumps(expected))
    found = session.documents()
    if found != without_empty(after):
        fail("a list", json.dumps(requests), "leaves", found, "and not", without_empty(after))
    for name in COLLECTIONS:
        number = random.randrange(100)
        asked = plain(session.ask(["find", name, {"n": number}])["documents"])
        if asked != [it for it in after.get(name, []) if number in numbers_at(it.get("n"))]:
            fail("behind a list", json.dumps(requests), "the index finds", asked)
    return after


def numbers_at(value):
    """The numbers by which a query finds a value: its own, or those of its items."""
    return [it for it in (value if isinstance(value, list) else [value]) if isinstance(it, int) and not isinstance(it, bool)]


TOLD = re.compile(r"refused: (\w+) line (\d+)\n")


def try_apply(file, store, requests):
    after, expected = done(store, requests)
    status, printed, told = apply(file, requests)
    if "all" in expected:
        answers = [members(json.loads(line)) for line in printed.splitlines()]
        if (status, told, answers) != (0, "", [list(it.items()) for it in expected["all"]]):
            fail("apply of", json.dumps(requests), "prints", printed, told, status, "and not", json.dumps(expected))
    else:
        said = TOLD.fullmatch(told)
        if status != 1 or printed or not said or said.groups() != (expected["error"], str(expected["request"] + 1)):
            fail("apply of", json.dumps(requests), "says", status, printed, told, "and not", json.dumps(expected))
    if exported(file) != without_empty(after):
        fail("apply of", json.dumps(requests), "leaves", exported(file), "and not", without_empty(after))
    return after


def try_lines():
    session, store = Session("lines.db"), {}
    for name in COLLECTIONS:
        session.ask(["index", name, "n"])
    kinds = {True: 0, False: 0}
    for _ in range(COUNT):
        requests = list_of(store)
        kinds["all" in done(store, requests)[1]] += 1
        store = try_line(session, store, requests)
    session.end()
    if exported("lines.db") != without_empty(store):
        fail("another process finds", exported("lines.db"))
    if not all(kinds.values()):
        fail("one outcome never comes", kinds)
    return kinds


def try_words():
    store = {}
    for _ in range(max(1, COUNT // 10)):
        store = try_apply("words.db", store, list_of(store))


def try_places():
    """What is said of lists that can't be read, and of requests that lists don't have."""
    session = Session("places.db")
    usage = {"error": "Usage"}
    for line, expected in [
        (["all"], {**usage, "at": "arguments"}),
        (["all", 3], {**usage, "at": "arguments"}),
        (["all", [], []], {**usage, "at": "arguments"}),
        (["all", []], {"all": []}),
        (["all", [["get", "a", 1], ["gte", "a"]]], {"error": "Usage", "request": 1, "at": "command"}),
        (["all", [["get", "a"]]], {"error": "Usage", "request": 0, "at": "arguments"}),
        (["all", [["all", []]]], {"error": "Usage", "request": 0, "at": "command"}),
        (["all", [["insert", 3, {}]]], {"error": "Usage", "request": 0, "at": "collection"}),
        (["all", [["put", "a", {"_id": 1}], ["check"]]], {"error": "Usage", "request": 1, "at": "command"}),
        (["all", [["put", "a", {"_id": 1}], ["collections"]]], {"error": "Usage", "request": 1, "at": "command"}),
        (["count", "a"], {"count": 0}),
    ]:
        answer = session.ask(line)
        if members(answer) != list(expected.items()):
            fail(json.dumps(line), "has the answer", json.dumps(answer), "and not", json.dumps(expected))
    made = session.ask(["all", [["insert", "a", {"n": 1}], ["insert", "a", {"n": 2}]]])["all"]
    if len({json.dumps(it) for it in made}) != 2:
        fail("two documents get one _id", made)
    session.end()
    for lines, status, said in [
        ('["get","a",1]\n\nnot\n', 2, "words: line 3 byte 1\n"),
        ('\r\n["insert","a",{"_id":1,"_id":2}]\n', 2, "words: line 2 repeated key\n"),
        ('["check"]\n', 2, "words: line 1 command\n"),
        ('\n["put","a",{"_id":5}]\n["insert","a"]', 2, "words: line 3 arguments\n"),
        ('["put","a",{"_id":5}]\n\n["insert","a",{"_id":5}]', 1, "refused: DuplicateId line 3\n"),
        ('["put","a",{"_id":5,"t":1}]\n["set","a",5,"t.x",1]\n', 1, "refused: Through line 2\n"),
        ("", 0, ""),
    ]:
        found = apply("places.db", lines)
        if found != (status, "", said):
            fail("apply of", lines, "says", found, "and not", (status, "", said))


# ---- kills


def calls_of(requests, start):
    """How often each call is made by a list, and what it leaves."""
    lay(start)
    log = FOLDER / "calls"
    if apply("kill.db", requests, ["strace", "-f", "-e", f"trace={CALLS}", "-o", str(log)])[0]:
        fail("a list under strace is refused")
    text = log.read_text()
    return {kind: len(re.findall(rf"\b{kind}\(", text)) for kind in CALLS.split(",")}


def lay(start):
    for file in FOLDER.glob("kill.db*"):
        file.unlink()
    for name, content in start.items():
        (FOLDER / name).write_bytes(content)


def try_kills(before, requests):
    """A list is stopped at each of its writes and syncs: by a signal, and by a refusal."""
    for file in FOLDER.glob("kill.db*"):
        file.unlink()
    apply("kill.db", [["put", name, document] for name, documents in before.items() for document in documents])
    start = {file.name: file.read_bytes() for file in FOLDER.glob("kill.db*")}
    after, _ = done(before, requests)
    states = [without_empty(before), without_empty(after)]
    seen = [0, 0]
    for kind, count in calls_of(requests, start).items():
        for at in range(1, count + 1):
            for how in ("signal=SIGKILL", "error=EIO"):
                lay(start)
                status, printed, _ = apply("kill.db", requests, ["strace", "-f", "-o", "/dev/null", "-e", f"trace={CALLS}", "-e", f"inject={kind}:{how}:when={at}"])
                found = exported("kill.db")
                if found not in states or (status == 0 and found != states[1]):
                    fail(f"a list with {how} at {kind} {at}", status, printed, "leaves", found)
                seen[states.index(found)] += 1
    if not all(seen):
        fail("one state is never found", seen)
    return seen


def try_short_and_long():
    """Lists of five requests and of a thousand are stopped."""
    before = {"a": [document_of(own) for own in range(8)], "b": [{"_id": 1, "n": 1}]}
    few = [["insert", "a", {"_id": 9, "t": "y" * 9000}], ["set", "a", 1, "n", 5], ["remove", "a", 2], ["put", "b", {"_id": 1}], ["insert", "b", {"_id": 2}]]
    many = [["insert", "a", {"_id": own, "t": "z" * 90}] for own in range(100, 900)] + [["set", "a", own, "n", own] for own in range(100, 200)] + [["remove", "a", own] for own in range(200, 300)]
    return [sum(pair) for pair in zip(try_kills(before, few), try_kills(before, many))]


def main():
    random.seed(SEED)
    kinds = try_lines()
    try_words()
    try_places()
    seen = try_short_and_long()
    print(f"{kinds[True]} lists done and {kinds[False]} refused; stopped, {seen[0]} as before and {seen[1]} as after")


main()
