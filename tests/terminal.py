#!/usr/bin/python3
"""Runs what the script fallowtime does beside the program, in a checkout that is made up, over the program that is given: documents laid
out for the eye, files and folders that are imported and exported, an editor, and the prompt, at a terminal and without one.

    tests/terminal.py FALLOWTIME

FALLOWTIME is the program under that name. Prints one line a step, and ends with status 1 at the first that isn't as it should be.
"""
import atexit
import gzip
import json
import os
import pathlib
import pty
import random
import re
import shutil
import signal
import subprocess
import sys
import tempfile
import termios
import time

import amounts

# Who starts this in the background may have these signals ignored, and what is started here would inherit that.
for number in signal.SIGINT, signal.SIGQUIT, signal.SIGHUP:
    signal.signal(number, signal.SIG_DFL)
ROOT = pathlib.Path(__file__).resolve().parent.parent
PROGRAM = os.path.realpath(sys.argv[1])
FOLDER = pathlib.Path(tempfile.mkdtemp(prefix="terminal-"))
atexit.register(shutil.rmtree, FOLDER, ignore_errors=True)
HERE, THERE = FOLDER / "here", FOLDER / "there"
SCRIPT = THERE / "fallowtime"
USAGE = "words: usage\n"
ORDERS = [{"_id": 1, "customer": {"name": "Ada", "city": "Ulm"}, "price": 4.25, "lines": [], "tags": ["a", {"$oid": "65" * 12}]},
          {"_id": 2, "note": 'a "quote" \\ , {[:]} \\"', "when": {"$date": "2026-01-02T03:04:05Z"}}, {"_id": 3, "": {}, "n": None, "all": [[1], [], [{}]]}]
LINES = "".join(f"{json.dumps(order)}\n" for order in ORDERS)


def holds(step, found, wanted):
    if found != wanted:
        print(f"{step}: {found!r} in place of {wanted!r}"[:3000])
        sys.exit(1)
    print(f"{step}: {found!r}"[:150])


def run(*words, given=None, script=SCRIPT, **more):
    """What the script returns and prints, without a terminal."""
    streams = {"stdin": subprocess.DEVNULL} if given is None else {"input": given.encode()}
    done = subprocess.run([script, *words], capture_output=True, cwd=HERE, env={**ENVIRONMENT, **more}, **streams)
    return done.returncode, done.stdout.decode(), done.stderr.decode()


def start_at_terminal(*words, script=SCRIPT, **more):
    """The script with all of its streams at a terminal, which is its own, and the other end of that."""
    ours, theirs = pty.openpty()
    modes = termios.tcgetattr(theirs)
    modes[3] &= ~termios.ECHO
    termios.tcsetattr(theirs, termios.TCSANOW, modes)
    process = subprocess.Popen([script, *words], stdin=theirs, stdout=theirs, stderr=theirs, cwd=HERE, env={**ENVIRONMENT, **more},
                               preexec_fn=lambda: (os.setsid(), os.close(os.open(os.ttyname(0), os.O_RDWR))))
    os.close(theirs)
    return process, ours


def read_until(ours, end=None):
    """What comes from a terminal, to its end or until it ends so."""
    told = b""
    try:
        while not (end and told.endswith(end.encode())):
            piece = os.read(ours, 4096)
            if not piece:
                break
            told += piece
    except OSError:
        pass
    return told.decode().replace("\r\n", "\n")


def at_terminal(*words, given="", **more):
    """What the script returns and prints at a terminal, which gives it a text."""
    process, ours = start_at_terminal(*words, **more)
    os.write(ours, given.encode())
    told = read_until(ours)
    os.close(ours)
    return process.wait(600), told


def jsons(text):
    """The values of a text that has some, one after the other."""
    found, place = [], 0
    while text[place:].strip():
        place += len(text[place:]) - len(text[place:].lstrip())
        value, place = json.JSONDecoder().raw_decode(text, place)
        found.append(value)
    return found


HERE.mkdir()
THERE.mkdir()
for name in ["fallowtime", "bson_json", "VERSION"]:
    shutil.copy(ROOT / name, THERE)
shutil.copytree(ROOT / "tools", THERE / "tools", ignore=shutil.ignore_patterns("__pycache__"))
(THERE / "program").mkdir()
for name in "fallowtime", "bson_json":
    shutil.copy(PROGRAM, THERE / "program" / name)
ENVIRONMENT = {**{name: text for name, text in os.environ.items() if name not in ("NO_COLOR", "EDITOR", "VISUAL")}, "TERM": "xterm", "LC_ALL": "C.UTF-8",
               "HOME": str(FOLDER), "TMPDIR": str(FOLDER)}
(HERE / "orders.jsonl").write_text(LINES)

# ---- files that are imported
holds("lines of a file", run("shop.db", "import", "orders", "orders.jsonl"), (0, "3\n", ""))
holds("printed as lines", [json.loads(line) for line in run("shop.db", "find", "orders")[1].splitlines()], ORDERS)
(HERE / "orders.bson").write_bytes(subprocess.run([PROGRAM, "shop.db", "export", "orders"], stdout=subprocess.PIPE, cwd=HERE).stdout)
BSON = (HERE / "orders.bson").read_bytes()
holds("BSON of a file", run("a.db", "import", "orders", "orders.bson"), (0, "3\n", ""))
holds("in batches", run("batches.db", "import", "orders", "orders.jsonl", "--batch", "2"), (0, "2\n3\n", ""))
holds("a batch that is refused", run("batches.db", "import", "orders", "--json", "--batch", "1", given='{"_id":9}\n' + LINES), (1, "1\n", "refused: DuplicateId line 1 _id 1\n"))
holds("those before it are in", run("batches.db", "count", "orders"), (0, "4\n", ""))
holds("batches over what is there", run("batches.db", "import", "orders", "orders.jsonl", "--upsert", "--batch", "50"), (0, "3\n", ""))
for words in ["--batch"], ["--batch", "0"], ["--batch", "x"], ["--batch", "1", "--batch", "1"]:
    holds(f"{words}", run("batches.db", "import", "orders", "orders.jsonl", *words), (2, "", "words: usage\n"))
holds("batches of BSON", run("batches.db", "import", "orders", "orders.bson", "--batch", "1"), (1, "", "fallowtime: --batch takes lines of JSON: bson_json --canonical < FILE.bson | fallowtime FILE import COLL --json --batch N\n"))
holds("a file of another name, said to be JSON", run("b.db", "import", "orders", "/dev/fd/0", "--json", given=LINES), (0, "3\n", ""))
holds("standard input", run("b.db", "import", "others", "-", "--json", "--wait", "1", given=LINES), (0, "3\n", ""))
holds("standard input without a file", run("b.db", "import", "more", "--json", given=LINES), (0, "3\n", ""))
for step, text in [("one line", json.dumps(ORDERS)), ("laid out", json.dumps(ORDERS, indent=4) + "\n"), ("with spaces", f" \n{json.dumps(ORDERS)}\n\n"),
                   ("a line an item", "[" + ",\n".join(map(json.dumps, ORDERS)) + "]")]:
    (HERE / "orders.json").write_text(text)
    with open(HERE / "orders.json") as file:
        given = subprocess.run([SCRIPT, "c.db", "import", step, "--json"], stdin=file, capture_output=True, text=True, cwd=HERE, env=ENVIRONMENT)
    holds(f"an array, {step}", (given.returncode, given.stdout, given.stderr), (0, "3\n", ""))
    holds(f"an array of a file, {step}", run("c.db", "import", f"{step} 2", "orders.json"), (0, "3\n", ""))
    for name in step, f"{step} 2":
        holds(f"what is in {name}", [json.loads(line) for line in run("c.db", "find", name)[1].splitlines()], ORDERS)
for text in ["[]", " [ ]\n"]:
    (HERE / "orders.json").write_text(text)
    holds(f"an array of none: {text!r}", run("c.db", "import", "none", "orders.json"), (0, "0\n", ""))
# Documents over several lines each are taken as well, and what is more or less than whole documents isn't.
for step, text in [("laid out", "".join(json.dumps(order, indent=4) + "\n" for order in ORDERS)), ("with lines between", "\n\n".join(json.dumps(order, indent=0) for order in ORDERS)),
                   ("end to end", "".join(json.dumps(order, indent=1) for order in ORDERS)), ("as on Windows", json.dumps(ORDERS[0], indent=2).replace("\n", "\r\n") + LINES.split("\n", 1)[1])]:
    (HERE / "orders.json").write_text(text, newline="")
    holds(f"documents, {step}", run("c.db", "import", f"documents {step}", "orders.json"), (0, "3\n", ""))
    holds(f"what is in documents, {step}", [json.loads(line) for line in run("c.db", "find", f"documents {step}")[1].splitlines()], ORDERS)
whole = "".join(json.dumps(order, indent=1) for order in ORDERS[:2])
for text in [whole + more for more in ("]", "}", "{", ",", "x", '"', "[]", ',{"_id":9}')] + [whole[:-1], whole[:-2], whole.replace("}{", "},{"), '{\n"a":[1}\n]}', '{\n"a":1]\n}']:
    (HERE / "orders.json").write_text(text)
    status, out, errors = run("d.db", "import", "orders", "orders.json")
    if (status, out, errors.startswith("words: line ")) != (2, "", True) or (HERE / "d.db").exists():
        holds(f"no documents: {text}", (status, out, errors), "words: line ..")
# What is more or less than an array of documents isn't taken, by any cut of it.
whole = json.dumps(ORDERS[:2])
for text in [*(whole[:end] for end in range(1, len(whole))), *(f"{whole}{more}" for more in ("]", ",", "1", '{"_id":9}', " [{}]")), "[1]", '["a"]', "[[]]",
             '[{"_id":1},]', '[,{"_id":1}]', '[{"_id":1},,{"_id":2}]', '[{"_id":1} {"_id":2}]', '[{"_id":1}}', '{"_id":1}]', '[{"_id":1}\0]', '[{"_id":tru\ne}]']:
    (HERE / "orders.json").write_text(text)
    status, out, errors = run("d.db", "import", "orders", "orders.json")
    if (status, out, errors.startswith("words: line ")) != (2, "", True) or (HERE / "d.db").exists():
        holds(f"no array: {text}", (status, out, errors), "words: line ..")
chance = random.Random(amounts.seed(1))
words = ['"', "\\", "\\\\", "{", "}", "[", "]", ",", ":", " ", "a", "\n", "\t", "\u20ac", "'", "$x"]
values = [0, -1.5, True, None, {}, [], {"$a": 1}]
for _ in range(40):
    texts = ["".join(chance.choices(words, k=chance.randrange(9))) for _ in range(6)]
    documents = [{"_id": n, texts[0] + "x": texts[1], "b": [texts[2], chance.choice(values[:6]), {texts[3] + "y": [[texts[4]]]}], "c": chance.choice(values[:6])} for n in range(3)]
    (HERE / "orders.json").write_text(json.dumps(documents, indent=chance.choice([None, 0, 2]), ensure_ascii=False))
    (HERE / "random.db").unlink(missing_ok=True)
    status, out, errors = run("random.db", "import", "c", "orders.json")
    found = [json.loads(line) for line in run("random.db", "find", "c")[1].splitlines()]
    laid_out = jsons(run("random.db", "find", "c", "--pretty")[1])
    if (status, found, laid_out) != (0, documents, documents):
        holds("documents by chance", (status, errors, found, laid_out), documents)
print("documents by chance came in and out")
for words, fault in [(["none.bson"], "none.bson isn't there"), (["."], ". is a folder: import-all takes all of a dump's folder")]:
    holds(f"import {words}", run("d.db", "import", "orders", *words), (1, "", f"fallowtime: {fault}\n"))
(HERE / "packed.json").write_bytes(gzip.compress(LINES.encode()))
(HERE / "marked.json").write_bytes(b"\xef\xbb\xbf" + LINES.encode())
for name, fault in [("packed.json", "the documents are packed by gzip: gunzip -c PACKED | fallowtime FILE import COLL --json"),
                    ("marked.json", "the file begins with a byte order mark: tail -c +4 FILE.json | fallowtime FILE import COLL --json")]:
    holds(f"import {name}", run("d.db", "import", "orders", name), (1, "", f"fallowtime: {fault}\n"))
    with open(HERE / name, "rb") as file:
        given = subprocess.run([SCRIPT, "d.db", "import", "orders", "--json"], stdin=file, capture_output=True, text=True, cwd=HERE, env=ENVIRONMENT)
    holds(f"import {name} as standard input", (given.returncode, given.stderr), (1, f"fallowtime: {fault}\n"))
holds("a file in the place of COLL", at_terminal("d.db", "import", "orders.bson"),
      (1, "fallowtime: COLL is missing in front of the file: fallowtime FILE import COLL orders.bson\n"))
holds("a file too many", run("d.db", "import", "orders", "orders.bson", "orders.bson")[::2], (2, USAGE))
holds("nothing was made", (HERE / "d.db").exists(), False)
status, told = at_terminal("e.db", "import", "typed", "--json", given='{"_id":1}\n\x04')
holds("typed at a terminal", (status, told), (0, "fallowtime: documents are read from the terminal, until Ctrl-D; import COLL FILE reads a file\n1\n"))

# ---- laid out for the eye
SHOWN = """{
  "_id": 1,
  "customer": {
    "name": "Ada",
    "city": "Ulm"
  },
  "price": 4.25,
  "lines": [],
  "tags": [
    "a",
    {"$oid": "656565656565656565656565"}
  ]
}
"""
holds("get --pretty", run("shop.db", "get", "orders", "1", "--pretty"), (0, SHOWN, ""))
holds("find --pretty", jsons(run("shop.db", "find", "orders", "--pretty")[1]), ORDERS)
holds("with other options", run("shop.db", "find", "orders", "{}", "--sort", "_id:-1", "--pretty", "--limit", "1", "--fields", "n"), (0, '{\n  "_id": 3,\n  "n": null\n}\n', ""))
holds("canonical", run("shop.db", "get", "orders", "1", "--canonical", "--pretty")[1].splitlines()[1], '  "_id": {"$numberInt": "1"},')
for words in ["get", "orders", "--pretty"], ["get", "orders", "9", "--pretty"]:
    holds(f"{words}", run("shop.db", *words), (1, "", "refused: NotFound _id " + ('"--pretty"\n' if len(words) == 3 else "9\n")))
holds("as a value of an option", run("shop.db", "find", "orders", "--sort", "--pretty"), (2, "", "words: options\n"))
for words in ["find", "orders", "--pretty", "--bson"], ["get", "orders", "1", "--bson", "--pretty"], ["count", "orders", "--pretty"]:
    holds(f"{words}", run("shop.db", *words)[::2], (2, USAGE))
holds("at a terminal, without colours", at_terminal("shop.db", "get", "orders", "1", NO_COLOR="1"), (0, SHOWN))
for name, more in ("a terminal that has none", {"TERM": "dumb"}), ("another one", {"TERM": "vt100"}):
    holds(f"at {name}", at_terminal("shop.db", "get", "orders", "1", **more), (0, SHOWN))
status, told = at_terminal("shop.db", "get", "orders", "1")
holds("with colours", (status, told.split("\n")[1], re.sub(r"\x1b\[[0-9;]*m", "", told)), (0, '  \x1b[1;34m"_id"\x1b[0m: 1,', SHOWN))
holds("a text with a colour", told.split("\n")[3], '    \x1b[1;34m"name"\x1b[0m: \x1b[32m"Ada"\x1b[0m,')
status, told = at_terminal("shop.db", "find", "orders", NO_COLOR="1")
holds("find at a terminal", (status, jsons(told)), (0, ORDERS))
holds("BSON at a terminal isn't laid out", at_terminal("shop.db", "get", "orders", "1", "--bson")[1].startswith("{"), False)
holds("refused at a terminal", at_terminal("shop.db", "get", "orders", "9"),
      (1, "refused: NotFound _id 9\nfallowtime: an ID is 42 for the number and '\"42\"' for the text; fallowtime FILE find COLL shows those that there are\n"))
OBEYED = "".join(map(chr, range(0x7f, 0xa0)))
run("shop.db", "put", "obeyed", json.dumps({"_id": 1, OBEYED: f"\u00a0{OBEYED}\u20ac"}, ensure_ascii=False))
for more in {}, {"NO_COLOR": "1"}:
    told = at_terminal("shop.db", "get", "obeyed", "1", **more)[1]
    holds("characters that a terminal may obey", ([one for one in OBEYED if one in told], json.loads(re.sub(r"\x1b\[[0-9;]*m", "", told))[OBEYED]), ([], f"\u00a0{OBEYED}\u20ac"))
holds("into a pipe they stay", OBEYED in run("shop.db", "get", "obeyed", "1", "--pretty")[1], True)
for awk in "gawk", "busybox", "original-awk":
    if shutil.which(awk):
        bin_folder = FOLDER / awk
        bin_folder.mkdir()
        (bin_folder / "awk").symlink_to(shutil.which(awk))
        path = f"{bin_folder}:{ENVIRONMENT['PATH']}"
        holds(f"by {awk}", (run("shop.db", "get", "orders", "1", "--pretty", PATH=path)[1], jsons(run("shop.db", "find", "orders", "--pretty", PATH=path)[1])), (SHOWN, ORDERS))
        told = at_terminal("shop.db", "get", "obeyed", "1", NO_COLOR="1", PATH=path)[1]
        holds(f"what a terminal may obey, by {awk}", json.loads(told)[OBEYED], f"\u00a0{OBEYED}\u20ac")

# ---- the folder of a dump
NAMES = ["orders", "old orders", "a/b", "50%", "\u00e9\u20ac", "-x", "..", 'q"\\', "$a.b&c+d=e:f@g~h_i"]
ESCAPED = ["orders", "old%20orders", "a%2Fb", "50%25", "%C3%A9%E2%82%AC", "-x", "%2E.", "q%22%5C", "$a.b&c+d=e:f@g~h_i"]
for n, name in enumerate(NAMES):
    holds(f"documents of {name}", run("all.db", "import", name, "orders.bson" if n % 2 == 0 else "-", *(["--json"] if n % 2 else []), given=LINES)[0], 0)
status, out, errors = run("all.db", "export-all", "dump")
holds("export-all", (status, sorted(out.splitlines()), errors), (0, sorted(f"{name} 3" for name in NAMES), ""))
holds("its files", sorted(os.listdir(HERE / "dump")), sorted(f"{name}.{ending}" for name in ESCAPED for ending in ("bson", "metadata.json")))
for name, escaped in zip(NAMES, ESCAPED):
    holds(f"{escaped}.bson", (HERE / "dump" / f"{escaped}.bson").read_bytes() == subprocess.run([PROGRAM, "all.db", "export", name], stdout=subprocess.PIPE, cwd=HERE).stdout, True)
    holds(f"{escaped}.metadata.json", json.loads((HERE / "dump" / f"{escaped}.metadata.json").read_text()),
          {"options": {}, "indexes": [{"v": {"$numberInt": "2"}, "key": {"_id": {"$numberInt": "1"}}, "name": "_id_"}], "collectionName": name, "type": "collection"})
status, out, errors = run("copy.db", "import-all", "dump/", "--wait", "1")
holds("import-all", (status, sorted(out.splitlines()), errors), (0, sorted(f"{name} 3" for name in NAMES), ""))
holds("what came in", sorted(run("copy.db", "collections")[1].splitlines()), sorted(NAMES))
holds("again", run("copy.db", "import-all", "dump"),
      (1, "", f"refused: DuplicateId document 0 _id 1\nfallowtime: dump/{sorted(ESCAPED)[0]}.bson isn't in, and nothing behind it; what is listed is in\n"))
holds("nothing is written over", run("all.db", "export-all", "dump")[:2], (1, ""))
(HERE / "other").mkdir()
(HERE / "other/orders.metadata.json").write_text("{}")
holds("not even beside it", run("all.db", "export-all", "other"), (1, "", "fallowtime: other/orders.metadata.json is there already\n"))
holds("nothing is left", os.listdir(HERE / "other"), ["orders.metadata.json"])
run("odd.db", "put", "a\nb", '{"_id":1}')
holds("a name that no file has", run("odd.db", "export-all", "odd"), (1, "", 'fallowtime: the collection "a\\nb" has no name that a file could have: export writes it\n'))
holds("a FILE that isn't there", run("none.db", "export-all", "none"), (1, "", "refused: NoFile\n"))
(HERE / "dumps/shop").mkdir(parents=True)
holds("no folder", run("none.db", "import-all", "none"), (1, "", "fallowtime: none is no folder\n"))
holds("an empty folder", run("none.db", "import-all", "dumps/shop"), (1, "", "fallowtime: dumps/shop has no .bson\n"))
shutil.copy(HERE / "orders.bson", HERE / "dumps/shop")
holds("the folder of several", run("none.db", "import-all", "dumps"), (1, "", "fallowtime: dumps has no .bson, but dumps/shop has: a dump has a folder for each database\n"))
(HERE / "dumps/shop/b.bson.gz").touch()
holds("a packed dump", run("none.db", "import-all", "dumps/shop"), (1, "", "fallowtime: dumps/shop/b.bson.gz is packed: gunzip dumps/shop/*.gz unpacks all\n"))
(HERE / "dumps/shop/b.bson.gz").unlink()
(HERE / "dumps/shop/p.bson").write_bytes(BSON[:-1])
(HERE / "dumps/shop/q.bson").write_bytes(BSON)
holds("one that is cut off", run("cut.db", "import-all", "dumps/shop"),
      (1, "orders 3\n", "refused: EndInside document 2\nfallowtime: dumps/shop/p.bson isn't in, and nothing behind it; what is listed is in\n"))
holds("what is in then", run("cut.db", "collections")[1], "orders\n")
holds("nothing was made", [name for name in ("none", "none.db") if (HERE / name).exists()], [])
for words in ["import-all"], ["import-all", "a", "b"], ["export-all", "a", "--wait"], ["export-all", "a", "--wait", "x"], ["export-all", "a", "--json", "1"], ["edit", "a"], ["edit", "a", "1", "2"]:
    holds(f"{words}", run("all.db", *words)[::2], (2, USAGE))

# ---- an editor
EDITOR = FOLDER / "an editor"


def edited(text, *words, **more):
    """What the script returns and prints where the editor does this."""
    EDITOR.write_text(f"#!/bin/sh\n{text}\n")
    EDITOR.chmod(0o755)
    return run(*words, EDITOR=f"'{EDITOR}'", **more)


def left():
    """What is left among the temporary files: what was written, and it is deleted."""
    found = []
    for path in FOLDER.glob("tmp.*"):
        found += [file.read_text() for file in path.iterdir()]
        shutil.rmtree(path)
    return found


def order(number):
    return run("shop.db", "get", "orders", str(number), "--canonical")[1]


before = order(1)
holds("edit", edited('sed -i \'s/"Ulm"/"Bonn"/\' "$1"', "shop.db", "edit", "orders", "1"), (0, "", ""))
holds("what came of it", (order(1), left()), (before.replace("Ulm", "Bonn"), []))
holds("edit by --wait and VISUAL", run("shop.db", "edit", "orders", "1", "--wait", "1", EDITOR="false", VISUAL="sed -i 's/Bonn/Ulm/'"), (0, "", ""))
holds("as before", (order(1), left()), (before, []))
holds("nothing is edited", (edited("true", "shop.db", "edit", "orders", "2"), left()), ((0, "", ""), []))
for step, text, fault in [("no JSON", 'echo "{" >"$1"', "words: JSON byte 2 NotJson\n"), ("another _id", 'echo "{\\"_id\\":2}" >"$1"', "fallowtime: the _id of a document stays\n"),
                          ("no _id", 'echo "{}" >"$1"', "refused: NoId\n"), ("an editor that fails", "exit 3", "fallowtime: the editor ended with status 3\n"),
                          ("meanwhile", f'"{PROGRAM}" shop.db set orders 1 price 5; echo "{{\\"_id\\":1}}" >"$1"', "fallowtime: the document was changed meanwhile\n")]:
    status, out, errors = edited(text, "shop.db", "edit", "orders", "1")
    holds(f"edit, {step}", (status, out, errors.startswith(f"{fault}fallowtime: nothing was changed; what you wrote is in ") or errors, len(left())), (1, "", True, 1))
holds("it is as it was, but for what changed meanwhile", order(1), before.replace('{"$numberDouble":"4.25"}', '{"$numberInt":"5"}'))
holds("no such document", (edited("true", "shop.db", "edit", "orders", "9"), left()), ((1, "", "refused: NotFound _id 9\n"), []))
run("shop.db", "put", "orders", json.dumps({"_id": 4, "text": "x" * 120000}))
holds("a long one", edited("true", "shop.db", "edit", "orders", "4"), (1, "", "fallowtime: the document has more than 120 kB: export and import take it\n"))

# ---- the prompt
PROMPT = "fallowtime> "


def at_prompt(*lines, shell="bash", words=("prompt.db",), **more):
    """What is told at each prompt, and the status at the end of the lines."""
    bin_folder = FOLDER / f"bin of {shell}"
    if not bin_folder.exists():
        bin_folder.mkdir()
        for folder in ENVIRONMENT["PATH"].split(":"):
            for path in pathlib.Path(folder).glob("*"):
                if path.name != "bash" or shell == "bash":
                    (bin_folder / path.name).exists() or (bin_folder / path.name).symlink_to(path)
    process, ours = start_at_terminal(*words, PATH=str(bin_folder), NO_COLOR="1", TERM="dumb", **more)
    told = []
    for line in lines:
        told.append(read_until(ours, PROMPT).removesuffix(PROMPT))
        os.write(ours, line.encode())
    told.append(read_until(ours))
    os.close(ours)
    # (readline shows what is typed itself)
    told = [text.removeprefix(line) for text, line in zip(told, ("", *lines))]
    return process.wait(600), told


for shell in "bash", "sh":
    (HERE / "prompt.db").unlink(missing_ok=True)
    (HERE / "prompt.db-wal").unlink(missing_ok=True)
    status, told = at_prompt('put orders {"_id": 1, "name": "O\'Neil"}\n', 'find orders {"name": "O\'Neil"}\n', "  find orders '{\"_id\": 2}' --limit 1\n", '["count","orders"]\n', "\n",
                             'put "old orders" {"_id":"A"}\n', "import 'more orders' orders.bson\n", "get orders 9\n", "fnd orders\n", ".help get\n", "collections\n", ".quit\n", shell=shell)
    holds(f"the prompt by {shell}", (status, told[0]), (0, "prompt.db isn't there, the first document makes it; .help says what a line may be, .quit ends\n"))
    holds(f"what is told by {shell}", told[1:9], ["", '{\n  "_id": 1,\n  "name": "O\'Neil"\n}\n', "", '{"count":1}\n', "", "", "3\n",
                                               "refused: NotFound _id 9\nfallowtime: an ID is 42 for the number and '\"42\"' for the text; fallowtime FILE find COLL shows those that there are\n"])
    holds(f"no such command, by {shell}", told[9].splitlines()[0::1][:2], ["words: usage", "fallowtime: there is no command 'fnd', but there is find; fallowtime help lists the commands"])
    holds(f"help by {shell}", told[10].splitlines()[0], "fallowtime FILE get COLL ID [--canonical | --bson] [--wait SECONDS]")
    holds(f"the collections by {shell}", told[11], 'more orders\nold orders\norders\n')
    status, told = at_prompt(".help\n", "\x04", shell=shell, words=("shop.db", "--wait", "1"))
    holds(f"the greeting by {shell}", told[0], "shop.db has obeyed, orders; .help says what a line may be, .quit ends\n")
    holds(f"the help by {shell}", ("A line is a command without" in told[1], "Commands:\n  insert COLL DOC" in told[1]), (True, True))
    holds(f"the end of the terminal, by {shell}", (status, told[2]), (0, "\n"))
    for word in "quit", "exit", ".exit", ".quit now":
        holds(f"{word} by {shell}", at_prompt(f"{word}\n", shell=shell)[0], 0)
    process, ours = start_at_terminal("prompt.db", NO_COLOR="1", TERM="dumb", PATH=str(FOLDER / f"bin of {shell}"))
    for given, told in [("find ord", "prompt.db has more orders, old orders, orders; .help says what a line may be, .quit ends\n"), ("\x03", None), ("count orders\n", "\n"), (".quit\n", "1\n")]:
        if told:
            found = read_until(ours, PROMPT).removesuffix(PROMPT).removeprefix("find ord").removeprefix("^C").removeprefix("count orders\n")
            holds(f"a line that is given up by {shell}, then {given!r}", found, told)
        os.write(ours, given.encode())
        time.sleep(0.5)
    read_until(ours)
    os.close(ours)
    holds(f"the end of it, by {shell}", process.wait(600), 0)
holds("no store", at_prompt(words=("orders.jsonl",))[1][0].splitlines()[0], "refused: NoDatabase")
holds("lines that don't come from a terminal", run("shop.db", given='["count","orders"]\n'), (0, '{"count":4}\n', ""))
for words in ["frob"], ["frob", "--wait", "1"]:
    status, told = at_terminal(*words)
    holds(f"{words}, which is no file", (status, told.splitlines()[0], "with ./ in front one of this name is made" in told, (HERE / "frob").exists()), (1, "refused: NoFile", True, False))
(HERE / "frob").touch()
holds("one that is a file", at_prompt(".quit\n", words=("frob",))[1][0], "frob has no documents; .help says what a line may be, .quit ends\n")

# ---- what is said at a terminal of what was mistyped or packed
for words, told in [(["find", "ordrs"], "there is no collection 'ordrs', but there is orders"), (["count", "old order", "{}"], "there is no collection 'oldorder', but there is oldorders"),
                    (["export", "frob"], "there is no collection 'frob'; fallowtime FILE collections lists them"), (["remove", "Orders", "1"], "there is no collection 'Orders', but there is orders"),
                    (["update", "order", "{}", '{"$set":{"a":1}}'], "there is no collection 'order', but there is orders")]:
    status, found = at_terminal("prompt.db", *words)
    holds(f"{words}", f"fallowtime: {told}" in found.splitlines() or found, True)
for words in ["find", "orders", '{"_id":9}'], ["count", "orders"], ["put", "new", '{"_id":1}'], ["insert", "ordres", '{"_id":1}'], ["collections"]:
    holds(f"nothing is said of {words}", "there is no" in at_terminal("prompt.db", *words)[1], False)
holds("nor without a terminal", run("prompt.db", "find", "ordrs"), (0, "", ""))
(HERE / "packed.gz").write_bytes(gzip.compress(BSON))
(HERE / "archive").write_bytes(b"\x6d\xe2\x99\x81" + BSON)
for name, told in [("packed.gz", "these bytes are packed by gzip: gunzip -c PACKED | fallowtime FILE import COLL"),
                   ("archive", "this is an archive of mongodump: without --archive it makes a folder, for import-all"), ("orders.jsonl", "import reads BSON: for lines of JSON say --json; ")]:
    with open(HERE / name) as file:
        ours, theirs = pty.openpty()
        done = subprocess.run([SCRIPT, "packed.db", "import", "c"], stdin=file, stdout=subprocess.PIPE, stderr=theirs, cwd=HERE, env=ENVIRONMENT)
    os.close(theirs)
    found = read_until(ours).splitlines()
    os.close(ours)
    holds(f"an import of {name}", (done.returncode, found[-2][:9], found[-1].startswith(f"fallowtime: {told}") or found[-1]), (1, "refused: ", True))

print("all as it should be")
