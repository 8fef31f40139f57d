#!/usr/bin/python3
"""Runs MongoDB's tests of CRUD for drivers over the package for Python, or over pymongo and the relay.

tests/crud.py PROGRAM [--relay] [--refused]

PROGRAM is the program under the name fallowtime. The tests are those of Debian's golang-mongodb-mongo-driver-dev, in
both of their forms, v1 and unified; left out are those for servers before 5.0, of writes that aren't acknowledged and
of servers that are made to fail. Each one passes, or is refused by name, or is answered otherwise than MongoDB answers.
Of the package a refusal is NotImplementedError. With --relay pymongo asks over `python -m fallowtime.serve`, and a
refusal is one of the errors that docs/DRIVERS.md names, or what this pymongo can't ask for at all. Prints how many there
are of each, and those that are answered otherwise, with --refused also why the others were refused. Ends with status 1
if one is answered otherwise, fewer pass than did before, or the page of the package names others as refused than are.
"""
import collections
import json
import os
import pathlib
import re
import shutil
import sys
import tempfile

import amounts

ROOT = pathlib.Path(__file__).resolve().parent.parent
PAGE = ROOT / "python" / "README.md"
FOLDER = pathlib.Path("/usr/share/gocode/src/go.mongodb.org/mongo-driver/data/crud")
# How many there are, and how many have to pass.
COUNT = 202
IS_RELAYED = "--relay" in sys.argv[2:]
LEAST = 121 if IS_RELAYED else 153
# The version of MongoDB whose answers are wanted.
VERSION = (5, 0)

if len(sys.argv) < 2 or not {"--relay", "--refused"} >= set(sys.argv[2:]):
    sys.exit("crud.py: the words are PROGRAM [--relay] [--refused]")
os.environ["FALLOWTIME"] = os.path.abspath(sys.argv[1])
sys.path.insert(0, str(ROOT / "python"))
sys.dont_write_bytecode = True

if IS_RELAYED:
    import crud_relayed as kit  # noqa: E402
else:
    import crud_packaged as kit  # noqa: E402

# A test: its file, its own line, the collections before it, its operations, and the collections behind it.
Test = collections.namedtuple("Test", "file description before operations behind")
# An operation of a test: on a collection, which may be read in a way of its own, or on the store if that is None.
Operation = collections.namedtuple("Operation", "name collection arguments result error concern", defaults=[None])
# The names of arguments that aren't those of the tests in small letters.
ARGUMENTS = {"fieldName": "key", "maxTimeMS": "maxTimeMS"}
# The methods of the package whose names aren't those of the tests in small letters.
METHODS = {"count": "count_documents"}
TYPES = {"double": float, "int": int, "string": str}
# In the place of a result that a test doesn't name.
ANY = object()


class Otherwise(Exception):
    """An answer that isn't MongoDB's."""


# ---- reading

def version_of(text):
    return tuple(int(part) for part in text.split("."))


def is_for_older(requirements):
    """Whether all of a test's requirements are for servers before VERSION."""
    return bool(requirements) and all("maxServerVersion" in one and version_of(one["maxServerVersion"]) < VERSION
                                      for one in requirements)


def read_v1(path):
    """The tests of a file of the older form, each with one operation on one collection."""
    page = json.loads(path.read_text())
    for test in page["tests"]:
        operation, outcome = test["operation"], test["outcome"]
        error = {"isError": True, "expectResult": outcome.get("result")} if outcome.get("error") else None
        done = Operation(operation["name"], "test" if operation.get("object") != "database" else None,
                         operation["arguments"], ANY if error else outcome.get("result", ANY), error)
        behind = outcome.get("collection")
        yield Test(path.name, test["description"], {"test": page["data"]}, [done],
                   {} if behind is None else {behind.get("name", "test"): behind["data"]})


def read_unified(path):
    """The tests of a file of the newer form."""
    page = json.loads(path.read_text())
    entities = [entity["collection"] for entity in page["createEntities"] if "collection" in entity]
    names = {entity["id"]: entity["collectionName"] for entity in entities}
    concerns = {entity["id"]: entity.get("collectionOptions", {}).get("readConcern") for entity in entities}
    before = {part["collectionName"]: part["documents"] for part in page.get("initialData", [])}
    for test in page["tests"]:
        requirements = test.get("runOnRequirements") or page.get("runOnRequirements")
        operations = [Operation(operation["name"], names.get(operation["object"]), operation.get("arguments", {}),
                                operation.get("expectResult", ANY), operation.get("expectError"),
                                concerns.get(operation["object"]))
                      for operation in test["operations"]]
        if is_for_older(requirements) or any(operation.name == "failPoint" for operation in operations):
            continue
        yield Test(path.name, test["description"], before, operations,
                   {part["collectionName"]: part["documents"] for part in test.get("outcome", [])})


def read_tests():
    for path in sorted(FOLDER.glob("v1/*/*.json")):
        yield from read_v1(path)
    for path in sorted(FOLDER.glob("unified/*.json")):
        if not path.name.startswith("unacknowledged"):
            yield from read_unified(path)


# ---- asking

def snake(name):
    """The name of a method or an argument as Python writes it."""
    return re.sub("([A-Z])", lambda found: "_" + found.group().lower(), name)


def argument(name, value):
    """The value of an argument as pymongo takes it."""
    if name == "requests":
        return [request_of(request) for request in value]
    if name == "sort" or name == "hint" and isinstance(value, dict):
        return list(value.items())
    if name == "returnDocument":
        return getattr(kit.module.ReturnDocument, value.upper())
    return value


def named(arguments):
    """Arguments under pymongo's names."""
    inner = dict(arguments, **arguments.get("options", {}))
    inner.pop("options", None)
    return {ARGUMENTS.get(name, snake(name)): argument(name, value) for name, value in inner.items()}


def request_of(request):
    """One request of bulk_write."""
    name, arguments = (request["name"], request["arguments"]) if "name" in request else next(iter(request.items()))
    kind = getattr(kit.module, name[0].upper() + name[1:])
    return kind(**named(arguments))


def ask(store, operation):
    """The answer to an operation, as the tests write it."""
    thing = store if operation.collection is None else store[operation.collection]
    if operation.concern is not None:
        thing = thing.with_options(read_concern=kit.concern(**operation.concern))
    method = getattr(thing, METHODS.get(operation.name, snake(operation.name)))
    return written(method(**kit.fitting(operation.name, named(operation.arguments))))


def written(answer):
    """An answer as the tests write it."""
    if isinstance(answer, kit.results.UpdateResult):
        own = answer.upserted_id
        counts = {"matchedCount": answer.matched_count, "modifiedCount": answer.modified_count}
        return {**counts, "upsertedCount": 0} if own is None else {**counts, "upsertedCount": 1, "upsertedId": own}
    if isinstance(answer, kit.results.DeleteResult):
        return {"deletedCount": answer.deleted_count}
    if isinstance(answer, kit.results.InsertOneResult):
        return {"insertedId": answer.inserted_id}
    if isinstance(answer, kit.results.InsertManyResult):
        return {"insertedIds": {str(place): own for place, own in enumerate(answer.inserted_ids)}}
    if hasattr(answer, "bulk_api_result"):
        return written_bulk(answer.bulk_api_result)
    return list(answer) if kit.is_cursor(answer) else answer


def written_bulk(counts):
    """The counts of bulk_write, or of its error, as the tests write them. pymongo has no ids of what was put in."""
    return {
        "insertedCount": counts["nInserted"], "matchedCount": counts["nMatched"], "modifiedCount": counts["nModified"],
        "deletedCount": counts["nRemoved"], "upsertedCount": counts["nUpserted"],
        "upsertedIds": {str(one["index"]): one["_id"] for one in counts["upserted"]}}


# ---- comparing

def fits(wanted, found, is_top=False):
    """Whether an answer is the one that a test wants. At the top it may have more members."""
    if isinstance(wanted, dict) and "$$unsetOrMatches" in wanted:
        return found is None or fits(wanted["$$unsetOrMatches"], found, is_top)
    if isinstance(wanted, dict) and "$$type" in wanted:
        return isinstance(found, TYPES[wanted["$$type"]])
    if isinstance(wanted, dict) and isinstance(found, dict):
        names = set(wanted) if is_top else set(wanted) | set(found)
        return all(fits(wanted.get(name), found.get(name)) for name in names)
    if isinstance(wanted, list) and isinstance(found, list):
        return len(wanted) == len(found) and all(fits(*pair) for pair in zip(wanted, found))
    return type(wanted) is kit.type_of(found) and wanted == found


def hold_result(operation, found):
    wanted = operation.result
    if wanted is ANY:
        return
    if operation.name == "bulkWrite" and isinstance(wanted, dict):
        ids = wanted.get("insertedIds", {})
        wanted = {name: value for name, value in wanted.items() if name != "insertedIds"}
        if "$$unsetOrMatches" not in ids and len(ids) != found["insertedCount"] and "insertedCount" in wanted:
            raise Otherwise(f"{found['insertedCount']} in place of {len(ids)} ids")
    if not fits(wanted, found, is_top=not operation.name.startswith("find")):
        raise Otherwise(f"{found!r} in place of {wanted!r}")


def hold_error(operation, error):
    """Whether an error is the one that a test wants: one of the request itself, or one of the server."""
    wanted = operation.error
    if wanted is None:
        raise Otherwise(f"the error {error!r}")
    if wanted.get("isClientError") != isinstance(error, (TypeError, ValueError)) and "isClientError" in wanted:
        raise Otherwise(f"the error {error!r}, with isClientError {wanted['isClientError']}")
    counts = wanted.get("expectResult")
    if counts is not None and not fits(counts, written_bulk(error.details), is_top=True):
        raise Otherwise(f"{error.details!r} in place of {counts!r}")


def hold_documents(store, collections_wanted):
    for name, wanted in collections_wanted.items():
        found = list(store[name].find())
        if not fits(wanted, found):
            raise Otherwise(f"{name} has {found!r} in place of {wanted!r}")


# ---- running

def run(store, test):
    """None if a test passes, and the reason if one is refused. Otherwise if it is answered so."""
    for name, documents in test.before.items():
        if documents:
            store[name].insert_many(documents)
    for operation in test.operations:
        try:
            found = ask(store, operation)
        except Exception as error:
            if kit.is_refusal(error, operation.error):
                if operation.name != "bulkWrite" or not IS_RELAYED:
                    hold_documents(store, test.before)
                return str(error)
            hold_error(operation, error)
            continue
        if operation.error is not None:
            raise Otherwise(f"{found!r} in place of an error")
        hold_result(operation, found)
    hold_documents(store, test.behind)
    return None


def run_all(folder):
    """How many tests pass, those that are refused with their reasons, and those that are answered otherwise."""
    passed, refused, otherwise = 0, [], []
    for number, test in enumerate(read_tests()):
        title = f"{test.file}: {test.description}"
        with kit.opened(folder, number) as store:
            try:
                reason = run(store, test)
            except Otherwise as difference:
                otherwise.append(f"{title}: {difference}")
                continue
        if reason is None:
            passed += 1
        else:
            refused.append(f"{title}: {reason}")
    return passed, refused, otherwise


def named_on_page():
    """The files that the page's table of what is refused names, with how many tests of each."""
    begin = "| what they ask for | tests | files |"
    table = PAGE.read_text().partition(begin)[2].partition("\n\n")[0]
    rows = [line.split("|") for line in table.splitlines()[2:]]
    found = [re.findall(r"`([^`]+)`(?: (\d+))?", row[3]) for row in rows]
    for row, files in zip(rows, found):
        if int(row[2]) != sum(int(number or 1) for _, number in files):
            sys.exit(f"crud.py: {PAGE}: the files of a row have other tests than {row[2].strip()}:{row[1]}")
    return {f"{name}.json": int(number or 1) for files in found for name, number in files}


def main():
    folder = pathlib.Path(tempfile.mkdtemp(prefix="crud-", dir=amounts.memory_folder()))
    try:
        passed, refused, otherwise = run_all(folder)
    finally:
        shutil.rmtree(folder, ignore_errors=True)
    count = passed + len(refused) + len(otherwise)
    for line in [f"refused: {line}" for line in refused] if "--refused" in sys.argv else []:
        print(line)
    for line in otherwise:
        print(f"otherwise: {line}"[:1000])
    print(f"crud.py: of {count} tests {passed} pass, {len(refused)} are refused by name, and {len(otherwise)} are"
          " answered otherwise")
    if count != COUNT or passed < LEAST:
        print(f"crud.py: there are {COUNT} tests, of which {LEAST} passed before")
    by_file = collections.Counter(line.partition(":")[0] for line in refused)
    is_page_right = IS_RELAYED or by_file == named_on_page()
    if not is_page_right:
        print(f"crud.py: {PAGE} names other tests as refused than {dict(by_file)}")
    sys.exit(bool(otherwise) or count != COUNT or passed < LEAST or not is_page_right)


main()
