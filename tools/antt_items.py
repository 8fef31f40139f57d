"""The items of a file .antt that crates above can see."""
import pathlib
import re
import sys

sys.path.insert(0, str(pathlib.Path(__file__).resolve().parent))
from rust_items import leaves

COMMENT = re.compile(r'"(?:[^"\\\n]|\\[^\n])*"|(?<![^ \n(){}.;,@"»])--[^\n]*|\{-.*?-\}', re.DOTALL)
HEAD = re.compile(r"(?:(?:pub|abbrev|unfoldable|opaque|axiom|data|record|infix[lr]?|mutual|module)\s+)*([^\s:(){},]+)")
# What is seen whole, and not by its statement alone.
WHOLE = re.compile(r"(?:pub\s+)?(?:abbrev|unfoldable|data|record)\b|(?:\S+\s+)*?(?:abbrev|unfoldable)\b")
STATEMENT = re.compile(r"(?:pub\s+)?[^\s:]+\s*:|(?:pub|unfoldable|abbrev)\b")
# What has no name that others could mention.
NAMELESS = re.compile(r"(?:pub\s+)?(?:ruleset|syntax|infix[lr]?|open|mutual)\b")
MODULE = re.compile(r"(?:pub\s+)?module\b")
IMPORTS = ("use ", "pub use ", "mod ", "pub mod ")
MEMBER = re.compile(r"(?m)^\s+(?:pub\s+)?([^\s:(){},]+)\s*:")
IN_MODULE = re.compile(r"\s+(?:(?:pub|abbrev|unfoldable)\s+)*([^\s:(){},]+)")


def plain_antt(text):
    """A text without comments and empty lines."""
    kept = COMMENT.sub(lambda found: found.group() if found.group().startswith('"') else "", text)
    return "\n".join(line.rstrip() for line in kept.splitlines() if line.strip())


def chunks_of(text):
    """The items of a text, each from a line that isn't indented to the next one."""
    return [chunk for chunk in re.split(r"(?m)^(?=\S)", plain_antt(text)) if chunk.strip()]


def imports_of(chunk):
    kind = "pub import" if chunk.startswith("pub") else "import"
    return [((leaf,), f"{kind} {path}") for leaf, path in leaves(re.sub(r"^(pub )?(use|mod) ", "", chunk))]


def items_of_module(chunk, is_spec):
    """What a module declares for others: of lemmas the public ones by their statements, of definitions all."""
    head, *parts = re.split(r"(?m)^(?=  \S)", chunk)
    named = [(IN_MODULE.match(part)[1], part) for part in parts if IN_MODULE.match(part)]
    shown = {name for name, part in named if re.match(r"\s+pub\b", part)}
    unfolds = {name for name in shown if re.search(rf"\b(abbrev|unfoldable)\s+(pub\s+)?{re.escape(name)}\s*:", chunk)}
    for name, part in named:
        if is_spec or name in unfolds or re.match(r"\s+pub\b", part):
            yield tuple(names_of(part.strip(), name)), head + part


def names_of(chunk, name):
    """The names that a chunk declares: of a type its constructors and fields, too."""
    is_type = re.search(r"\b(data|record)\b", chunk.split("\n")[0])
    return {name, *MEMBER.findall(chunk)} if is_type else {name}


def items_of_antt(text, is_spec):
    """The items of a file, each a tuple of names and a text. Of a lemma only the statement is seen, of a definition all."""
    found, unfolds = [], set()
    for chunk in chunks_of(text):
        if chunk.startswith(IMPORTS):
            found += imports_of(chunk)
            continue
        head = HEAD.match(chunk)
        name = head[1] if head else chunk
        if NAMELESS.match(chunk):
            found.append(((), chunk))
        elif MODULE.match(chunk):
            found += items_of_module(chunk, is_spec)
        elif is_spec or WHOLE.match(chunk):
            unfolds.add(name)
            found.append((tuple(names_of(chunk, name)), chunk))
        elif name in unfolds or chunk.startswith("pub") and STATEMENT.match(chunk):
            found.append(((name,), chunk))
    return found
