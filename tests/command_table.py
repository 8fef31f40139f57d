"""The table of the commands of fallowtime, as crates/fallowtime_words has it, for tests that hold pages and programs against it."""
import pathlib
import re

TABLE = pathlib.Path(__file__).resolve().parent.parent / "crates/fallowtime_words/src/table.rt"
# What pages and the help have for each argument; an object of options is no word. The script alone takes INPUT.
ARGUMENTS = {"Collection": "COLL", "Document": "DOC", "Id": "ID", "Key": "PATH", "Value": "VALUE", "Query": "[QUERY]", "Selection": "QUERY", "Update": "UPDATE", "Pipeline": "PIPELINE",
             "Options": "", "Documents": "[INPUT]", "IndexPath": "PATH", "NewName": "NEW", "File": "PATH", "Folder": "DIR"}
# The options beside --wait by the constants of the table.
OPTIONS = {"NO_OPTION": [], "CANONICAL": ["--canonical"], "PRINTED": ["--canonical", "--bson"],
           "FOUND": ["--sort", "--skip", "--limit", "--fields", "--without", "--canonical", "--bson"], "IMPORTED": ["--json", "--upsert", "--skip-existing"], "MANY": ["--many"],
           "FOUND_AFTER": ["--sort", "--skip", "--limit", "--fields", "--without", "--after", "--canonical", "--bson"],
           "MANY_OR_UPSERT": ["--many", "--upsert"], "UPSERT": ["--upsert"], "COUNTED": ["--count", "--canonical"], "LITERAL": ["--key"],
           "PART": ["--skip", "--limit"], "DROPS": ["--drop"]}

# The options that the script takes for the program.
OF_SCRIPT = {"get": ["--pretty"], "find": ["--pretty"], "import": ["--batch"]}

# The options that are more than a word.
VALUED = ["--sort", "--skip", "--limit", "--fields", "--without", "--wait"]


def rows(*places):
    """The commands that are one in one of these places, each with its arguments and its options."""
    for row in re.findall(r"^    Signature \{(.*?)^    \},", TABLE.read_text(), re.M | re.S):
        name, options, place = (re.search(rf"\b{field}([\w-]+)", row)[1] for field in ('name: "', "options: ", "place: Place::"))
        if place in places:
            yield name, " ".join(filter(None, (ARGUMENTS[kind] for kind in re.findall(r"Argument::(\w+)", row)))), OPTIONS[options]


def over_a_file(*more):
    """The commands of a command line over a FILE, and of further places."""
    return {name: (arguments, options) for name, arguments, options in rows("Both", "CommandLine", *more)}


def words_of(options):
    """Options in brackets, as the first line of the help of a command has them: too many for that line aren't named."""
    if set(options) & {*VALUED, "--count"}:
        return "[--OPTION ..]"
    return " ".join(f"[{option}]" for option in options) if "--upsert" in options else f"[{' | '.join(options)}]"
