#!/usr/bin/python3
"""Runs the script fallowtime and what ./install makes of it, in a checkout that is made up, with a program that is made up: which
words it refuses, what it prints of commands and refusals, what is said on a terminal and what it is given of documents, what is put
and taken away, and what bash completes.

    tests/front.py [FALLOWTIME]

FALLOWTIME is the program under that name, which is then held against the same lines. Prints one line a step, and ends with status 1
at the first that isn't as it should be.
"""
import atexit
import itertools
import json
import os
import pathlib
import pty
import random
import re
import shutil
import signal
import stat
import subprocess
import sys
import tempfile
import tty

import amounts
import command_table

# Who starts this in the background may have these signals ignored, and what is started here would inherit that.
signal.signal(signal.SIGINT, signal.default_int_handler)
for number in signal.SIGQUIT, signal.SIGHUP:
    signal.signal(number, signal.SIG_DFL)
ROOT = pathlib.Path(__file__).resolve().parent.parent
PROGRAM = os.path.abspath(sys.argv[1]) if len(sys.argv) > 1 else None
FOLDER = pathlib.Path(tempfile.mkdtemp(prefix="front-"))
atexit.register(shutil.rmtree, FOLDER, ignore_errors=True)
HERE = FOLDER / "here"
HERE.mkdir()
NAMES = ["bson_store", "bson_json", "fallowtime"]
USAGE = "words: usage\n"
# For each command its places, and its options beside --wait.
COMMANDS = command_table.over_a_file()
# With those that the script does by others.
ALL = command_table.over_a_file("Script")
OPTIONS = ["--canonical", "--bson", "--json", "--wait 5", "--sort --skip", "--skip 1", "--after"]
# The program that is made up says how it was started, or which kinds or collections there are, or how many lines it read.
STUB = """#!/bin/sh
if [ "$1" = --explain ]; then echo "fallowtime: the kinds are: Busy NoFile NoFolder" >&2; exit 2; fi
if [ "$2" = collections ]; then printf 'orders\\nold orders\\nmore\\n'; exit; fi
if [ "$2$3" = importlines ]; then exec wc -l; fi
if [ "$3" = long ]; then sleep 3; fi
printf '%s' "$(basename -- "$0")"
printf ' <%s>' "$@"
echo
"""
RECORD = "version 1.2.3\ncommit abcdef0\nbuilt {}\nsources\n"


def holds(step, found, wanted):
    if found != wanted:
        print(f"{step}: {found!r} in place of {wanted!r}"[:3000])
        sys.exit(1)
    print(f"{step}: {found!r}"[:150])


def write(path, text, mode=0o644):
    path.parent.mkdir(parents=True, exist_ok=True)
    path.write_text(text)
    path.chmod(mode)


def files(folder):
    return sorted(str(path) for path in folder.rglob("*") if path.is_symlink() or not path.is_dir())


def lines_of(text):
    return sorted(text.split("\n")[:-1])


def checkout():
    """A checkout with the scripts of this one, and nothing to build from."""
    there = pathlib.Path(tempfile.mkdtemp(dir=FOLDER))
    for name in [*NAMES, "install", "LICENSE", "README.md", "CHANGELOG.md"]:
        shutil.copy(ROOT / name, there)
    for folder in "tools", "man", "completions", "docs", "samples":
        shutil.copytree(ROOT / folder, there / folder, ignore=shutil.ignore_patterns("__pycache__"))
    (there / "python").mkdir()
    shutil.copy(ROOT / "python/README.md", there / "python")
    write(there / "VERSION", "1.2.3\n")
    return there


def build(there, folder, how):
    """Puts the program that is made up into a folder of the checkout, under its names, with its record."""
    for name in NAMES:
        write(there / folder / name, STUB, 0o755)
    write(there / folder / "bson_store.build", RECORD.format(how))


def run(script, *words, **more):
    done = subprocess.run([script, *words], stdin=subprocess.DEVNULL, capture_output=True, cwd=HERE, env={**os.environ, **more})
    return done.returncode, done.stdout.decode(), done.stderr.decode()


def told_at_terminal(script, *words):
    """What is printed on standard error if that is a terminal."""
    ours, theirs = pty.openpty()
    done = subprocess.run([script, *words], stdin=subprocess.DEVNULL, stdout=subprocess.DEVNULL, stderr=theirs, cwd=HERE)
    os.close(theirs)
    told = b""
    try:
        while piece := os.read(ours, 4096):
            told += piece
    except OSError:
        pass
    os.close(ours)
    return done.returncode, told.decode().replace("\r\n", "\n").split("\n")[:-1]


def is_line(words):
    """Whether the words are a line of the table, or a session."""
    if not words or words[0].startswith("-"):
        return False
    command = words[1] if words[1:] and words[1] in COMMANDS else None
    places, forms = COMMANDS.get(command, ("", []))
    rest = words[2:] if command else words[1:]
    for place in places.replace("[INPUT]", "").split():
        if rest and not (place == "[QUERY]" and rest[0].startswith("--")):
            rest = rest[1:]
        elif place != "[QUERY]":
            return False
    given = []
    while rest:
        option, *rest = rest
        if option not in ["--wait", *forms]:
            return False
        if option in command_table.VALUED:
            if not rest or option in ["--wait", "--skip", "--limit"] and (not re.fullmatch("[0-9]+", rest[0]) or int(rest[0]) >= 2 ** 64):
                return False
            rest.pop(0)
        given.append(option)
    return len(given) == len(set(given)) and not {"--canonical", "--bson"} <= set(given)


def is_line_of_script(words):
    """Whether the words are a line of the script: one of the program, or with what the script takes for it."""
    if words[1] == "import" and words[3:4] and not words[3].startswith("--"):
        return is_line(words[:3] + words[4:])
    if words[1] in ALL and words[1] not in COMMANDS:
        return len(words) == 2 + len(ALL[words[1]][0].split())
    return is_line(words)


def lines_of_command(command, places):
    """Lines of a command: with each list of options, its own or another's, and with one word more, less or else."""
    places = places.replace("[INPUT]", "").strip()
    for form in {places, places.replace("[QUERY]", "").strip(), places.replace("[QUERY]", "--q")}:
        line = ["f", command, *form.replace("[QUERY]", "q").split()]
        for count in range(3):
            for some in itertools.permutations(OPTIONS, count):
                yield [*line, *" ".join(some).split()]
        for place in range(len(line)):
            yield line[:place] + line[place + 1:]
            for word in "", "-", "--wait", "--canonical", "insert":
                yield line[:place] + [word] + line[place:]
                yield line[:place] + [word] + line[place + 1:]
        yield [*line, "--wait", "1", "--wait", "2"]


def all_lines():
    """Lines of each command, with numbers of seconds, and by chance."""
    for command, (places, _) in COMMANDS.items():
        yield from lines_of_command(command, places)
    for seconds in ["0", "007", "18446744073709551615", "18446744073709551616", "018446744073709551615", "1844674407370955161", "+5", "5s",
                    "-1", " 5", "", "99999999999999999999", "18446744073809551615", "0" * 30 + "5"]:
        yield ["f", "--wait", seconds]
        yield ["f", "collections", "--wait", seconds]
    chance = random.Random(amounts.seed(1))
    words = [*COMMANDS, *OPTIONS[:3], "--wait", "5", "f", "c", "{}", "", "-", "--", "-x", "insert--canonical", "get c"]
    for _ in range(600):
        yield chance.choices(words, k=chance.randrange(6))


# The help is the program's: of itself, and of each command its words, options, examples and refusals.
there = checkout()
script = there / "fallowtime"
holds("--version", run(script, "--version"), (0, "fallowtime 1.2.3 (not built yet)\n", ""))
holds("no program, and nothing to build one", run(script, "f", "collections"),
      (125, "", f"fallowtime: there is no program in {there}/program: install it anew\n"))
holds("nothing was built or made", ((there / "target").exists(), os.listdir(HERE)), (False, []))
build(there, "target/quick", "quick")
holds("the version", run(script, "--version")[1], "fallowtime 1.2.3 (commit abcdef0, quick)\n")
section = {}
if PROGRAM:
    section = {"fallowtime": run(PROGRAM, "help")[1]}
    for words in ["--help"], ["-h"], ["help"]:
        holds(f"{words}", run(PROGRAM, *words), (0, section["fallowtime"], ""))
    listed = re.findall(r"^  ([a-z][a-z_-]*)((?: [A-Z\[\]]+)*)(?:  |$)", section["fallowtime"], re.M)
    about = dict(re.findall(r'name: "([\w-]+)".*?about: "(.*?)",$', command_table.TABLE.read_text(), re.M | re.S))
    holds("what the commands do", [re.split("  +", line[2:])[1] for line in re.findall(r"^  [a-z][a-z_-]* .*$", section["fallowtime"], re.M)], [about[name] for name in ALL])
    holds("the commands of the help", listed, [(name, f" {places}" if places else "") for name, (places, _) in ALL.items()])
    status, out, errors = run(PROGRAM, "--explain")
    holds("--explain", (status, out, errors.split(": ")[:3]), (2, "", ["words", "usage\nfallowtime", "the kinds are"]))
    kinds = errors.split("the kinds are: ")[1].split()
    every = run(PROGRAM, "help", "export")[1].split("\n\nEach command may be refused")[1]
for name, (places, forms) in ALL.items() if PROGRAM else []:
    out = section[name] = run(PROGRAM, "help", name)[1]
    for words in [name, "--help"], ["--help", name], [name, "-h"], [name, "help"]:
        holds(f"{words}", run(PROGRAM, *words), (0, out, ""))
    usage = " ".join(["fallowtime FILE", name, *places.split(), *([command_table.words_of(forms)] if forms else []), "[--wait SECONDS]"])
    holds(f"{name}: its words", out.split("\n")[0], usage)
    holds(f"{name}: its options", re.findall(r"^  (--[a-z-]+)", out, re.M), [*forms, *command_table.OF_SCRIPT.get(name, []), "--wait"])
    examples = re.findall(rf"^    (?:.* )?fallowtime \S+ {name}(?: .*)?$", out, re.M)
    holds(f"{name}: its examples", len(examples), {"find": 4, "update": 3}.get(name, 2))
    for example in examples:
        text = "set -- " + re.split(" [<>|] ", example)[0] + r"; printf '%s\n' " + '"$@"'
        words = subprocess.run(["bash", "-c", text], capture_output=True, text=True, cwd=HERE).stdout.split("\n")[1:-1]
        holds(f"{name}: {example.strip()} is a line", is_line_of_script(words), True)
    named = re.findall(r"[A-Z][a-z]+[A-Za-z]+|words: [A-Za-z]+", re.search(r"^May be refused: ([^.]*)\.", out, re.M)[1])
    holds(f"{name}: refusals that aren't explained", [kind for kind in named if kind.removeprefix("words: ") not in kinds], [])
    holds(f"{name}: the text of every command", out.endswith("\n\nEach command may be refused" + every), True)
if PROGRAM:
    for name, places, _ in command_table.rows("Session"):
        holds(f"{name}: a line", run(PROGRAM, "help", name)[1].split("\n")[0], f"a line of fallowtime FILE: {name} {places}")
    for name, _, _ in command_table.rows("Alone"):
        holds(f"{name}: alone", run(PROGRAM, "help", name)[1].split("\n")[0], f"fallowtime {name}")
        holds(f"{name} isn't over a file", run(PROGRAM, "f", name), (2, "", USAGE))
    holds("version", run(PROGRAM, "version"), (0, f"fallowtime {(ROOT / 'VERSION').read_text()}", ""))
    named = re.findall(r"[A-Z]\w+", every.split(":", 1)[1].split(" fallowtime ")[0].replace("FILE", ""))
    holds("every command: refusals that aren't explained", [kind for kind in named if kind not in kinds], [])
    holds("the columns of the help", [line for text in section.values() for line in text.split("\n") if len(line) > 90], [])

# Each kind of refusal is explained, in the words of the page, and each kind that the page names.
page = re.sub(r"\[([^\][]*)\]\([^)]*\)", r"\1", (ROOT / "docs/ERRORS.md").read_text())
store = (ROOT / "crates/store_model/src/error.rt").read_text()
fault = re.search(r"pub enum FileError \{(.*?)\n\}", (ROOT / "crates/cli_files/src/fault.rt").read_text(), re.S)[1]
unread = ["JSON", "usage", "id", "query", "line", "Usage", "NotJson", "RepeatedKey", "InvalidObjectId", "NumberOutOfRange", "NotExtendedJson",
          "MalformedValue", "Utf8EncodingError"]
if PROGRAM:
    for kind in [*re.findall(r'^            ErrorKind::.* => "(\w+)",$', store, re.M), *re.findall(r"^    ([A-Z]\w+),$", fault, re.M), *unread]:
        holds(f"{kind} is a kind", kind in kinds, True)
    for kind in kinds:
        status, out, errors = run(PROGRAM, "--explain", kind)
        items = [line[2:] for line in out.split("\n")[:-1]]
        holds(f"--explain {kind}", (status, bool(items), kind in out, [line for line in items if line not in page], errors), (0, True, True, [], ""))
    holds("--explain words: usage", run(PROGRAM, "--explain", "words:", "usage")[1].split()[:2], ["`words:", "usage`:"])
    for words in ["refused: Busy document 7"], ["refused:", "Busy"], ["Busy"]:
        holds(f"--explain {words}", run(PROGRAM, "--explain", *words)[1].split()[:1], ["`Busy`:"])
    for words in ["frob"], [""], ["."], ["busy"], ["NoFil"], []:
        status, out, errors = run(PROGRAM, "--explain", *words)
        holds(f"--explain {words}", (status, out, errors.split("\n")[0], errors.split(": ")[2:3]), (2, "", USAGE[:-1], ["the kinds are"]))
    for words in [], ["--versoin"], ["--explain", "Busy", "x", "y"], ["--help", "frob"], ["frob", "--help"], ["f", "get", "c"], ["f", "frob"], ["-x", "collections"]:
        holds(f"{words}", run(PROGRAM, *words)[::2], (2, USAGE))


def knows_its_name():
    """Whether the program that is given acts as fallowtime yet."""
    if not PROGRAM:
        return False
    done = subprocess.run([PROGRAM, "none.db", "collections"], stdin=subprocess.DEVNULL, capture_output=True, cwd=HERE)
    for path in HERE.iterdir():
        path.unlink()
    return done.stderr.startswith(b"refused: NoFile")


def in_no_folder(words):
    """The words with a FILE in a folder that isn't there, so that nothing is made."""
    return [f"none/{words[0]}", *words[1:]] if words and not words[0].startswith("-") else words


knows = knows_its_name()
count = 0
for words in all_lines():
    count += is_line(words)
    if words and words[1:2] not in (["collections"], ["import"]) and count % 20 == 0:
        told = "fallowtime" + "".join(f" <{word}>" for word in words) + "\n"
        found = run(script, *words)
        if found != (0, told, ""):
            holds(f"the script on {words}", found, told)
    if knows and words:
        done = subprocess.run([PROGRAM, *in_no_folder(words)], stdin=subprocess.DEVNULL, capture_output=True, cwd=HERE)
        if (done.stderr.decode() == USAGE) == is_line(words):
            holds(f"the program on {words}", done.stderr.decode(), "another line" if is_line(words) else USAGE)
print(f"{count} lines of the table, {'also by the program' if knows else 'none of them tried by a program of this name'}")

# On a terminal one line more names what is nearest.
for words, hint in [
    (["t.db", "isnert", "c", "{}"], "there is no command 'isnert', but there is insert; fallowtime help lists the commands"),
    (["t.db", "FIND", "c"], "there is no command 'FIND', but there is find; "),
    (["t.db", "mapReduce", "c"], "there is no command 'mapReduce'; "),
    (["t.db", "a\x1b[31mb\nc"], "there is no command 'a31mbc'; "),
    (["t.db", "rm", "c", "1"], "there is no command 'rm', but there is remove; "),
    (["t.db", "Delete", "c", "1"], "there is no command 'Delete', but there is delete, with --many of all that are selected; "),
    (["t.db", "export"], "the words are fallowtime FILE export COLL "),
    (["t.db", "Update", "c", "1"], "there is no command 'Update', but there is update, with --many of all that are selected; "),
    (["t.db", "show"], "there is no command 'show', but there is collections; "),
    (["t.db", "insertOne", "c", "{}"], "there is no command 'insertOne', but there is insert; "),
    (["t.db", "update_many", "c", "{}", "{}"], "there is no command 'update_many', but there is update, with --many of all that are selected; "),
    (["t.db", "db.old.orders.find({})"], "there is no command 'db.old.orders.find'; "),
    (["t.db", "db.orders.findOneAndDelete({})"], "there is no command 'db.orders.findOneAndDelete', but there is find-and-delete; "),
    (["t.db", "db.orders.fnd", "{}"], "there is no command 'db.orders.fnd', but there is find; "),
    (["t.db", "use", "shop"], "there is no command 'use'; "),
    (["t.db", "mv", "c", "d"], "there is no command 'mv', but there is rename; "),
    (["t.db", "cp", "c", "d"], "there is no command 'cp', but there is copy; "),
    (["t.db", "rename", "c"], "the words are fallowtime FILE rename COLL NEW "),
    (["t.db", "exit"], "there is no command 'exit'; "),
    (["t.db", "quit"], "there is no command 'quit'; "),
    (["t.db", "find", "c", "--limit=2"], "an option and what it takes are two words: --limit 2"),
    (["t.db", "find", "c", "{}", "--wait=2", "--canonical"], "an option and what it takes are two words: "),
    (["t.db", "get", "c", "-a=b", "1", "2"], "the words are fallowtime FILE get COLL ID "),
    (["t.db", "edit", "c"], "the words are fallowtime FILE edit COLL ID [--wait SECONDS]"),
    (["t.db", "import-al", "d"], "there is no command 'import-al', but there is import-all; "),
    (["t.db", "version"], "the words are fallowtime version"),
    (["t.db", "index", "c", "a"], "the words are a line of fallowtime FILE: index COLL PATH"),
    (["t.db", "get", "c"], "the words are fallowtime FILE get COLL ID [--canonical | --bson] [--wait SECONDS]"),
    (["t.db", "import", "c", "--canonical"], "the words are fallowtime FILE import COLL [INPUT] [--json] [--upsert] [--skip-existing] [--wait SECONDS]"),
    (["insert", "orders", "{}"], "FILE comes first: fallowtime FILE insert COLL DOC [--canonical] [--wait SECONDS]"),
    (["-t.db", "collections"], "a FILE that begins with - is written ./-x.db; "),
    (["--versoin"], "a FILE that begins with - is written ./-x.db; --help, --version and "),
    (["t.db", "--wait"], "the words are fallowtime FILE [--messages] [--wait SECONDS]; fallowtime help COMMAND says "),
]:
    if not knows:
        break
    status, told = told_at_terminal(PROGRAM, *words)
    holds(f"a hint for {words}", (status, len(told), told[0], told[1].startswith(f"fallowtime: {hint}") or told[1]), (2, 2, USAGE[:-1], True))
if knows:
    status, told = told_at_terminal(PROGRAM)
    holds("no words at a terminal", (status, told), (2, [USAGE[:-1], "fallowtime: the words are FILE COMMAND ..; fallowtime help lists the commands"]))

# After a refusal of one of the commonest kinds one line more says what mostly helps.
for words, status, advice in [
    (["advice.db", "insert", "c", '{"_id":1}'], 0, None),
    (["advice.db", "insert", "c", '{"_id":1}'], 1, "put replaces the document that is there"),
    (["advice.db", "put", "c", "{}"], 1, "insert and import --json make an _id"),
    (["advice.db", "get", "c", "2"], 1, "an ID is 42 for the number and "),
    (["advice.db", "get", "c", "65000000000000000000000a"], 1, "this ID is a text; an ObjectId is written "),
    (["advice.db", "get", "c", '{"$oid":"12"}'], 2, "an ObjectId is "),
    (["advice.db", "set", "c", "1", "k", "new"], 2, "a text has quotes of its own "),
    (["advice.db", "set", "c", "1", "k", '{"$date":"2026"}'], 2, "a date is "),
    (["advice.db", "find", "c", '{"k":{"$gt":{"$date":"2026-01-01"}}}'], 2, "a date is "),
    (["advice.db", "insert", "c", '[{"a":1}]'], 2, "DOC is one document; "),
    (["advice.db", "get", "c", '{"a":1}'], 1, "this ID is a document; "),
    (["advice.db", "set", "c", "1", "k", '{"$binary":"AAEC","$type":"00"}'], 2, "a binary value is "),
    (["advice.db", "set", "c", "1", "a..b", "1"], 2, "an update is an object of operators, "),
    (["advice.db", "find", "c", "k"], 2, "a query is an object, "),
    (["advice.db", "find", "c", "--sort", "-a"], 2, "a path of --sort, "),
    (["advice.db", "find", "c", "--fields", "a,a"], 2, "paths are keys with dots between them: "),
    (["advice.db", "find", "c", '{"a":"65000000000000000000000a"}'], 0, "nothing is found, and QUERY asks for a text of 24 digits; "),
    (["advice.db", "delete", "c", '{"a":"65000000000000000000000a"}'], 0, "nothing is found, and QUERY asks for a text of 24 digits; "),
    (["advice.db", "find", "c", '{"a":{"$oid":"65000000000000000000000a"}}'], 0, None),
    (["advice.db", "find", "c", '{"$or":[{"_id":1},{"a":"65000000000000000000000a"}]}'], 0, None),
    (["advice.db", "find", "c", '{"a":"6500000000000000000000a"}'], 0, None),
    (["advice.db", "find", "c", '{"a":{"$gte":"2026-01-02T03:04:05Z"}}'], 0, "nothing is found, and QUERY asks for a text; a date is written "),
    (["advice.db", "find", "c", '{"a":{"$gte":{"$date":"2026-01-02T03:04:05Z"}}}'], 0, None),
    (["advice.db", "count", "c", '{"$or":[{"b":"x"},{"a" : "5.5"}]}'], 0, "nothing is found, and QUERY asks for a text of digits; "),
    (["advice.db", "count", "c", '{"5":1,"a":{"$numberLong":"7"}}'], 0, None),
    (["advice.db", "count", "c", '{"a":{"$in":["x","2026-01-02"]}}'], 0, "nothing is found, and QUERY asks for a text; "),
    (["advice.db", "count", "c", '{"_id":{"$binary":{"base64":"1234","subType":"00"}}}'], 0, None),
    (["advice.db", "count", "c", '{"a": {"gt": 5}}'], 0, "nothing is found, and QUERY asks for a key; "),
    (["advice.db", "count", "c", '{"a":{"b":{"$gt":5}}}'], 0, "nothing is found, and QUERY asks for a whole document; "),
    (["advice.db", "count", "c", '{"a":{"$elemMatch":{"b":{"$gt":5}}}}'], 0, None),
    (["advice.db", "count", "c", '{"a":{"$gt":5,"$lt":7}}'], 0, None),
    (["advice.db", "count", "c", '{"_id":{"$gt":"2026-01-01"}}'], 0, "nothing is found, and QUERY asks for a text; "),
    (["advice.db", "put", "c", '{"_id":5,"a":"$set","b":["$5",{"$date":{"$numberLong":"7"}}]}'], 0, None),
    (["advice.db", "put", "c", '{"_id":6,"a":{"$regex":"a"}}'], 0, "the document has the key $regex; "),
    (["advice.db", "insert", "c", '{"_id":7,"$inc" : {"a":1}}'], 0, "the document has a key that begins with $, "),
    (["advice.db", "set", "c", "5", "a", '{"$gt":1}'], 0, "the document has a key that begins with $, "),
    (["advice.db", "replace", "c", '{"_id":9,"$set":1}'], 1, "an ID is 42 for the number and "),
]:
    if knows:
        found, told = told_at_terminal(PROGRAM, *words)
        lines = [line.startswith(f"fallowtime: {advice}") or line for line in told[bool(found):]]
        holds(f"advice after {words}", (found, lines), (status, [True] if advice else []))
for path in HERE.iterdir():
    path.unlink()



def printed(name, words, given=b"", at_terminal=False):
    """What the program under a name prints on standard output, and whether that is a terminal, byte for byte."""
    if not at_terminal:
        return subprocess.run([name, *words], executable=PROGRAM, input=given, stdout=subprocess.PIPE, cwd=HERE).stdout
    ours, theirs = pty.openpty()
    tty.setraw(theirs)
    process = subprocess.Popen([name, *words], executable=PROGRAM, stdin=subprocess.PIPE, stdout=theirs, cwd=HERE)
    os.close(theirs)
    process.stdin.write(given)
    process.stdin.close()
    told = b""
    try:
        while piece := os.read(ours, 4096):
            told += piece
    except OSError:
        pass
    os.close(ours)
    process.wait()
    return told


# What a terminal may obey in a document it is given as JSON has it, whatever prints it, and nothing else is given so.
OBEYED = "\x7f\x80\x85\x9b\x9f"
document = {"_id": 1, f"\x9b31m{OBEYED}": f"\x9b2J{OBEYED}", "k": [f"\xa0 \xa3 \xe9 \xc2\x9b \u20ac ~ \\u009b {OBEYED * 8000}"]}
if PROGRAM:
    line = json.dumps(document, ensure_ascii=False).encode()
    escaped = "".join(f"\\u{ord(one):04x}" if one in OBEYED else one for one in line.decode()).encode()
    printed("fallowtime", ["obeyed.db", "import", "c", "--json"], line)
    bson = printed("fallowtime", ["obeyed.db", "export", "c"])
    for name, words, given in [
        ("fallowtime", ["obeyed.db", "find", "c"], b""),
        ("fallowtime", ["obeyed.db", "get", "c", "1"], b""),
        ("fallowtime", ["obeyed.db"], b'["get","c",1]\n'),
        ("bson_store", ["obeyed.db", "get", "c", "1", "--relaxed"], b""),
        ("bson_store", ["obeyed.db", "dump", "c"], b""),
        ("bson_json", [], bson),
    ]:
        told = [printed(name, words, given, at_terminal) for at_terminal in (False, True)]
        step = " ".join([name, *words])
        obeyed = [[text.decode().count(one) for one in OBEYED] for text in told]
        holds(f"characters that a terminal may obey, of {step}", obeyed, [[8002 + (one == "\x9b") * 3 for one in OBEYED], [0] * len(OBEYED)])
        holds(f"the same in JSON, of {step}", json.loads(told[0]) == json.loads(told[1]), True)
        if words[1:2] == ["find"]:
            holds("the bytes into a pipe", told[0].replace(b" ", b"") == line.replace(b" ", b"") + b"\n", True)
            holds("the bytes at a terminal", told[1].replace(b" ", b"") == escaped.replace(b" ", b"") + b"\n", True)
    for path in HERE.iterdir():
        path.unlink()

# There an import is watched, and a signal reaches the program.
for number in None, signal.SIGINT, signal.SIGTERM:
    ours, theirs = pty.openpty()
    process = subprocess.Popen([script, "t.db", "import", "lines", "--json"], stdin=subprocess.PIPE, stdout=subprocess.PIPE, stderr=theirs, cwd=HERE,
                               env={**os.environ, "TERM": "vt100"}, start_new_session=True)
    os.close(theirs)
    told = b""
    while b"\x1b[A\r" not in told:
        told += os.read(ours, 4096)
    holds("the progress of an import", told.decode().startswith("\r\n\x1b[Kfallowtime: 0 MB read, 0 MB written"), True)
    if number:
        process.send_signal(number)
        holds(f"an import ended by {number.name}", (process.wait(600), process.stdout.read()), (-number, b""))
        process.stdin.close()
    else:
        holds("an import", (process.communicate(b"{}\n{}\n")[0], process.returncode), (b"2\n", 0))
    os.close(ours)



def told_of_long(words, **streams):
    """What a command that takes long prints on a terminal that is its standard error, and where its streams lead if they are given."""
    ours, theirs = pty.openpty()
    streams = {name: theirs if stream == "terminal" else stream for name, stream in streams.items()}
    done = subprocess.run([script, *words], stderr=theirs, cwd=HERE, env={**os.environ, "TERM": "vt100"}, **{"stdin": theirs, **streams})
    os.close(theirs)
    told = b""
    try:
        while piece := os.read(ours, 4096):
            told += piece
    except OSError:
        pass
    os.close(ours)
    return done.returncode, done.stdout, told.decode()


# So is what else may take long, and the line is gone at the end; what is printed on the terminal isn't watched, nor what is short.
for words in ["t.db", "find", "long"], ["t.db", "export", "long"], ["t.db", "count", "long"]:
    status, out, told = told_of_long(words, stdout=subprocess.PIPE)
    holds(f"the progress of {words[1]}", (status, out.decode(), told.startswith("\r\n\x1b[Kfallowtime: 0 MB read"), told.endswith("\x1b[A\r\x1b[J")),
          (0, "fallowtime" + "".join(f" <{word}>" for word in words) + "\n", True, True))
for words in ["t.db", "find", "long"], ["t.db", "export", "long"]:
    printed = told_of_long(words, stdout="terminal")[2]
    told = "\r\nfallowtime: what is written is BSON, for a file: " if words[1] == "export" else ""
    wanted = "fallowtime" + "".join(f" <{word}>" for word in words) + "\r\n" + told
    holds(f"{words[1]} onto the terminal", (printed[:len(wanted)], "0 MB read" in printed), (wanted, False))
for words in ["t.db", "find", "c"], ["t.db", "backup", "b.db"], ["t.db", "get", "long", "1"], ["t.db", "set", "long", "1", "k", "1"]:
    holds(f"no progress of {words[1]}", told_of_long(words, stdout=subprocess.PIPE)[2], "")

# The page for man and the crate have the same commands and options.
man = (ROOT / "man/fallowtime.1").read_text()
shown = []
for name, words in re.findall(r"^\.It Ic ([\w-]+)(.*)$", man, re.M):
    forms = re.findall(r"Fl (-[a-z-]+)", words)
    places = re.sub(r"Oo Ar (\w+) Oc|Op Ar (\w+)$", lambda found: f"Ar [{found[1] or found[2]}]", re.split(" O[op] Fl", words)[0])
    shown.append((name, (" ".join(re.findall(r"[A-Z\[\]]{2,}", places)), [f"-{form}" for form in forms])))
holds("the commands of the page", shown, [(name, (places, forms + command_table.OF_SCRIPT.get(name, []))) for name, (places, forms) in ALL.items()])
holds("the options of the page", sorted(re.findall(r"^\.It Fl -([a-z-]+)", man, re.M)), ["after", "batch", "bson", "canonical", "drop", "explain", "fields", "help", "json", "limit", "many", "pretty", "skip", "skip-existing", "sort", "upsert", "version", "wait", "without"])
for tool, words in ("mandoc", ["-T", "lint", "-W", "warning"]), ("groff", ["-mdoc", "-Tutf8", "-z", "-ww"]):
    if shutil.which(tool):
        done = subprocess.run([tool, *words, ROOT / "man/fallowtime.1"], capture_output=True, text=True)
        holds(f"the page by {tool}", done.stdout + done.stderr, "")


def completions(program, line):
    """What bash completes a line to, whose last word is where the cursor is."""
    words = " ".join(f"'{word}'" for word in ["fallowtime", *line])
    text = f'. "{ROOT}/completions/fallowtime.bash"; COMP_WORDS=({words}); COMP_CWORD={len(line)}; _fallowtime "{program}"; printf "%s\\n" "${{COMPREPLY[@]}}"'
    done = subprocess.run(["bash", "-c", text], capture_output=True, text=True, cwd=HERE)
    return done.stderr or done.stdout.split("\n")[:-1]


(HERE / "shop.db").touch()
(HERE / "my shop.db").touch()
for line, wanted in [
    (["sh"], ["shop.db"]),
    (["--"], ["--help", "--version", "--explain"]),
    (["ins"], ["insert"]),
    (["hel"], ["help"]),
    (["help", "re"], ["replace", "replace-one", "remove", "rename"]),
    (["help", "v"], ["version"]),
    (["--explain", "No"], ["NoFile", "NoFolder"]),
    (["shop.db", ""], list(ALL)),
    (["shop.db", "ex"], ["export", "export-all"]),
    (["shop.db", "re"], ["replace", "replace-one", "remove", "rename"]),
    (["shop.db", "--"], ["--wait", "--help"]),
    (["shop.db", "get", ""], ["orders", "old\\ orders", "more"]),
    (["shop.db", "get", "o"], ["orders", "old\\ orders"]),
    (["shop.db", "get", "old\\ "], ["old\\ orders"]),
    (["my\\ shop.db", "find", "m"], ["more"]),
    (["none.db", "find", "m"], [""]),
    (["shop.db", "find", "more", "--"], ["--sort", "--skip", "--limit", "--fields", "--without", "--canonical", "--bson", "--pretty", "--wait"]),
    (["shop.db", "get", "more", "1", "--bson", "--"], ["--canonical", "--pretty", "--wait"]),
    (["shop.db", "edit", "m"], ["more"]),
    (["shop.db", "edit", "more", "1", ""], ["--wait"]),
    (["shop.db", "import", "more", "sh"], ["shop.db"]),
    (["shop.db", "import", "more", "shop.db", ""], ["--json", "--upsert", "--skip-existing", "--batch", "--wait"]),
    (["shop.db", "import-all", "sh"], ["shop.db"]),
    (["shop.db", "find", "more", "--bson", "--s"], ["--sort", "--skip"]),
    (["shop.db", "find", "more", "--sort", "price", "--s"], ["--skip"]),
    (["shop.db", "find", "more", "--sort", ""], [""]),
    (["shop.db", "insert", "more", "{}", "--"], ["--canonical", "--wait"]),
    (["shop.db", "insert", "more", "--"], [""]),
    (["shop.db", "import", "more", "--"], ["--json", "--upsert", "--skip-existing", "--batch", "--wait"]),
    (["shop.db", "set", "more", "1", "k", "v", ""], ["--key", "--wait"]),
    (["shop.db", "collections", ""], ["--wait"]),
    (["shop.db", "collections", "--wait", ""], [""]),
    (["shop.db", "backup", "sh"], ["shop.db"]),
]:
    holds(f"completed {line}", completions(script, line), wanted)
for path in HERE.iterdir():
    path.unlink()

# ./install prints each file that it puts, and puts none in the place of somebody else's.
prefix = FOLDER / "a prefix"
for words in ["-x"], ["a", "b"], ["--remove", "a", "b"], ["--remove", "--remove"]:
    holds(f"install {words}", run(there / "install", *words), (2, "", "install: the words are [--remove] [PREFIX]\n"))
holds("nothing to remove", run(there / "install", "--remove", prefix), (1, "", f"install: nothing is installed in {prefix}\n"))
for name in "bin/bson_json", "share/man/man1/fallowtime.1":
    write(prefix / name, "somebody else's")
    status, out, errors = run(there / "install", prefix)
    holds(f"{name} is there", (status, out, errors.split("\n")[0], files(prefix)), (1, "", f"{prefix}/{name}", [f"{prefix}/{name}"]))
    (prefix / name).unlink()
os.umask(0o077)
status, out, errors = run(there / "install", prefix)
os.umask(0o022)
holds("installed", (status, errors), (0, f"install: fallowtime 1.2.3 (commit abcdef0, quick)\ninstall: {prefix}/bin isn't on the path: export PATH=\"{prefix}/bin:$PATH\", or for ~/.local on Debian log in anew\n"))
holds("each file is printed", lines_of(out), files(prefix))
for path in map(pathlib.Path, files(prefix)):
    wanted = 0o755 if path.name in [*NAMES, "install"] and "share" not in path.parts else 0o644
    holds(f"the mode of {path.relative_to(prefix)}", oct(stat.S_IMODE(path.stat().st_mode)), oct(wanted))
holds("one program", len({(prefix / "lib/fallowtime/program" / name).stat().st_ino for name in NAMES}), 1)
(there / "target/quick/bson_store.build").unlink()
status, out, errors = run(there / "install", prefix, PATH=f"{prefix}/bin:{os.environ['PATH']}")
holds("without a record", (status, errors, run(prefix / "bin/fallowtime", "--version")[1]),
      (0, "install: fallowtime 1.2.3 (commit unknown, quick)\n", "fallowtime 1.2.3 (commit unknown, quick)\n"))
build(there, "crates/bson_store_cli/out", "proved")
put = files(prefix)
status, out, errors = run(there / "install", os.path.relpath(prefix, HERE), PATH=f"{HERE}/../a prefix/bin:{os.environ['PATH']}")
holds("installed over it, the proved one", (status, errors), (0, "install: fallowtime 1.2.3 (commit abcdef0, proved)\n"))
holds("the same files", (sorted(map(os.path.realpath, lines_of(out))), files(prefix)), (sorted(map(os.path.realpath, put)), put))

# What is put runs without the checkout.
gone = FOLDER / "gone"
there.rename(gone)
holds("a command", run(prefix / "bin/fallowtime", "f", "get", "c", "a b"), (0, "fallowtime <f> <get> <c> <a b>\n", ""))
holds("another program", run(prefix / "bin/bson_json", "--canonical"), (0, "bson_json <--canonical>\n", ""))
for name in NAMES:
    holds(f"{name} --version", run(prefix / "bin" / name, "--version"), (0, f"{name} 1.2.3 (commit abcdef0, proved)\n", ""))
    status, out, errors = run(prefix / "bin" / name, "--help")
    holds(f"{name} --help", (status, out.split()[0], "first steps" in out, errors), (0, name, False, ""))
holds("help is the program's", run(prefix / "bin/fallowtime", "help", "get"), (0, "fallowtime <help> <get>\n", ""))
(HERE / "link").symlink_to(prefix / "bin/fallowtime")
holds("by a link", run(HERE / "link", "f"), (0, "fallowtime <f>\n", ""))
(HERE / "shop.db").touch()
holds("completed", completions(prefix / "bin/fallowtime", ["shop.db", "get", "mo"]), ["more"])
for name in NAMES:
    (prefix / "lib/fallowtime/program" / name).rename(FOLDER / name)
holds("without its program", run(prefix / "bin/fallowtime", "f"),
      (125, "", f"fallowtime: there is no program in {prefix}/lib/fallowtime/program: install it anew\n"))
for name in NAMES:
    (FOLDER / name).rename(prefix / "lib/fallowtime/program" / name)

# It is taken away, also by what was put, and what somebody else put stays.
write(prefix / "bin/other", "somebody else's")
put = files(prefix)
status, out, errors = run(prefix / "lib/fallowtime/install", "--remove", prefix)
holds("removed", (status, lines_of(out), errors), (0, [path for path in put if not path.endswith("/other")], ""))
holds("what is left", (files(prefix), (prefix / "lib/fallowtime").exists()), ([f"{prefix}/bin/other"], False))
home = FOLDER / "home"
holds("by default", (run(gone / "install", HOME=str(home))[0], (home / ".local/bin/fallowtime").is_symlink()), (0, True))
write(home / ".local/lib/fallowtime/notes", "somebody else's")
(home / ".local/bin/bson_json").unlink()
write(home / ".local/bin/bson_json", "somebody else's")
status, out, errors = run(gone / "install", "--remove", HOME=str(home))
holds("files of somebody else", (status, errors.split(" ")[1:], files(home)),
      (1, f"{home}/.local/lib/fallowtime is there still, with what isn't of the installation or can't be deleted\n".split(" "),
       [f"{home}/.local/bin/bson_json", f"{home}/.local/lib/fallowtime/notes"]))
print("all as it should be")
