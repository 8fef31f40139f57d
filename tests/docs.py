#!/usr/bin/env python3
"""Checks the pages of this repository, and wraps them.

    tests/docs.py            says what is wrong, a line each, and ends with status 1 if there is anything
    tests/docs.py --wrap [PAGE ..]
                             first wraps each paragraph and list item that has a line over 120 columns, of all pages or of those
                             named

What is wrong: a line over 120 columns outside of blocks of code and tables; a cell of a table over 240, which is a paragraph; a
table whose rows have different numbers of cells; a page over 150 lines without a table of contents; a link to a file or a
heading that isn't there, or to anything outside the repository; a row that stands in two tables; a crate without a page or without
its line in ARCHITECTURE; a refusal without its line in ERRORS; a decision that is cited anywhere by a name that it hasn't, or has
no reason; a page that a script, a test or a page names by a path where it isn't; a command that only one of COMMANDS and `--help`
has, or that README doesn't name; a signature in CALLS that no source has, or a call of a store that isn't there.
"""
import pathlib
import re
import subprocess
import sys

import command_table

# The columns of a line, and of a cell of a table without the targets of its links.
WIDTH, CELL = 120, 240
# The lines of a page that needs no table of contents.
LONG = 150
ROOT = pathlib.Path(__file__).resolve().parent.parent
DECISIONS, PROVING = ROOT / "docs/development/DECISIONS.md", ROOT / "docs/development/PROVING.md"
ITEM = re.compile(r"( *)([-*+]|\d+\.) +")
# A span of code or a link, which stays on one line if it has at most 60 characters.
WHOLE = re.compile(r"`[^`]*`|\[[^\]]*\]\([^)]*\)")
# What would begin a list, a heading or a quotation at the beginning of a line.
BEGINS = re.compile(r"([-+*>#]|\d+[.)])$|#+$|\|")


def pages():
    return [page for folder in ("", "docs/", "docs/development/", "crates/*/", "cases/", "bench/", "python/") for page in sorted(ROOT.glob(folder + "*.md"))]


def fill(text, first, rest):
    """The text in lines, the first of which begins with `first` and all others with `rest`."""
    lines, words = [], []
    text = WHOLE.sub(lambda found: found[0].replace(" ", "\0") if len(found[0]) <= 60 else found[0], text)
    for token in (word.replace("\0", " ") for word in text.split()):
        begin = rest if lines else first
        if words and len(begin) + len(" ".join([*words, token])) > WIDTH:
            # A word that would begin a list takes the one before it along.
            kept = words[:-1] if BEGINS.match(token) and len(words) > 1 else words
            lines.append(begin + " ".join(kept))
            words = words[len(kept):]
        words.append(token)
    return [*lines, (rest if lines else first) + " ".join(words)]


def blocks(lines):
    """The lines of a page in blocks, each with its kind: code, table, text or other."""
    found, kind, inside = [], None, False
    for line in lines:
        if line.lstrip().startswith("```"):
            now, inside = "code", not inside
        elif inside:
            now = "code"
        elif line.startswith("|"):
            now = "table"
        elif not line.strip() or line.startswith(("#", "    ")) and kind != "text":
            now = "other"
        else:
            now = "text"
        if now == kind and not (now == "text" and ITEM.match(line)):
            found[-1][1].append(line)
        else:
            found.append((now, [line]))
        kind = now
    return found


def wrapped(text):
    out = []
    for kind, lines in blocks(text.split("\n")):
        if kind != "text" or max(map(len, lines)) <= WIDTH:
            out += lines
        else:
            item = ITEM.match(lines[0])
            quote = "> " if lines[0].startswith("> ") else ""
            first = item.group() if item else quote or re.match(" *", lines[0]).group()
            rest = " " * len(first) if item else first
            body = [line.strip().removeprefix(quote) if number else line[len(first):] for number, line in enumerate(lines)]
            out += fill(" ".join(body), first, rest)
    return "\n".join(out)


def slug(heading):
    """The name of a heading in a link."""
    return re.sub(r"[^\w\- ]", "", heading.lower()).replace(" ", "-")


def prose(page):
    """The lines of a page without blocks of code, each with its number."""
    inside = False
    for number, line in enumerate(page.read_text().split("\n"), 1):
        if line.lstrip().startswith("```"):
            inside = not inside
        elif not inside:
            yield number, line


def headings(page):
    return {slug(line.lstrip("#").strip()) for _, line in prose(page) if line.startswith("#")}


def wrong_links(page, root=ROOT):
    """Links of a page to what isn't below a folder."""
    for number, line in prose(page):
        for target in re.findall(r"\]\(([^)\s]+)\)", re.sub(r"`[^`]*`", "", line)):
            if "://" in target:
                continue
            path, _, name = target.partition("#")
            there = (page.parent / path).resolve() if path else page
            if root not in there.parents:
                yield number, f"a link to {target}, outside of {root.name}"
            elif not there.exists():
                yield number, f"a link to {target}, which isn't there"
            elif name and name not in headings(there):
                yield number, f"a link to {target}, but no such heading"


def cells(row):
    """The cells of a row of a table."""
    return [cell.strip() for cell in re.split(r"(?<!\\)\|", row.strip().strip("|"))]


def wrong_lines(page):
    """Lines that are too wide, and tables that are none."""
    wanted = 0
    for number, line in prose(page):
        if not line.startswith("|"):
            wanted = 0
            if len(line) > WIDTH:
                yield number, f"{len(line)} columns"
            continue
        row = cells(line)
        wanted = wanted or len(row)
        if len(row) != wanted:
            yield number, f"a row of {len(row)} cells in a table of {wanted}"
        for cell in row:
            if len(re.sub(r"\]\([^)]*\)", "]", cell)) > CELL:
                yield number, f"a cell of {len(cell)} columns"


def wrong_rows(all_pages):
    """Rows that stand twice."""
    seen = {}
    for page in all_pages:
        for number, line in prose(page):
            if line.startswith("|") and len(line) > 40 and set(line) - set("|-: "):
                if line in seen:
                    yield page, number, f"a row that stands in {seen[line]} too"
                seen[line] = page.relative_to(ROOT)


def missing():
    """What has to have its line and hasn't."""
    architecture, refusals = ROOT / "docs/development/ARCHITECTURE.md", ROOT / "docs/ERRORS.md"
    for name in re.findall(r"^([a-z]\w*):", (ROOT / "crates.txt").read_text(), re.M):
        if not (ROOT / "crates" / name / "README.md").exists():
            yield ROOT / "crates.txt", 1, f"{name} has no page crates/{name}/README.md"
        if f"../../crates/{name}/README.md" not in architecture.read_text():
            yield architecture, 1, f"no link to the page of {name}"
    kinds = re.search(r"pub enum ErrorKind \{(.*?)\n\}", (ROOT / "crates/store_model/src/error.rt").read_text(), re.S)
    for kind in re.findall(r"^    ([A-Z]\w*)", kinds[1], re.M):
        if f"`{kind}" not in refusals.read_text():
            yield refusals, 1, f"no line for {kind}"


CITED = re.compile(r'DECISIONS(?:\.md)?(?:\]\([^)]*\))?, +(?:"([^"\n]+)"|(\d+))')


def texts():
    """The repository's files of text, each with what is in it."""
    listed = subprocess.run(["git", "ls-files", "-z"], cwd=ROOT, capture_output=True, check=True).stdout.decode().split("\0")
    for name in filter(re.compile(r"\.(md|rt|antt|py|sh|awk|txt)$|^[^.]*$").search, filter(None, listed)):
        try:
            yield ROOT / name, (ROOT / name).read_text()
        except (UnicodeDecodeError, FileNotFoundError, IsADirectoryError):
            continue


def wrong_citations():
    """Decisions that are cited by a name that isn't there, or by a number, which none has; pages that are named by a path, outside of
    the crates, where they aren't."""
    known = {slug(heading) for heading in re.findall(r"^##+ (.*)$", DECISIONS.read_text(), re.M)}
    for path, text in texts():
        for found in CITED.finditer(text):
            if found[2] or slug(found[1]) not in known:
                yield path, text.count("\n", 0, found.start()) + 1, f"{found[0]}, which isn't there"
        for found in re.finditer(r"\bdocs/[\w/]*[A-Z]+\.md", text):
            if ROOT / "crates" not in path.parents and not (ROOT / found[0]).exists():
                yield path, text.count("\n", 0, found.start()) + 1, f"{found[0]}, which isn't there"


def wrong_decisions():
    """Decisions without a reason."""
    for page in (DECISIONS, PROVING):
        text = page.read_text()
        for entry in re.split(r"^(?=##+ )", text, flags=re.M):
            if "- **Decision**" in entry and "- **Why**: " not in entry:
                yield page, text[:text.index(entry)].count("\n") + 1, f"no reason for {entry.splitlines()[0].lstrip('# ')}"


def wrong_commands():
    """Commands that COMMANDS and a program don't both have: fallowtime by its table, and bson_store by its help."""
    page = ROOT / "docs/COMMANDS.md"
    helped = subprocess.run([ROOT / "bson_store", "--help"], capture_output=True, text=True).stdout
    told = {"fallowtime": {" ".join(filter(None, row[:2])) for row in command_table.rows("Both", "CommandLine", "Alone", "Script")},
            "bson_store": set(re.findall(r"^  ([a-z]+)(?: |$)", helped, re.M))}
    for program, names in told.items():
        table = re.search(rf"^### Commands of `{program}`\n(.*?)^#", page.read_text(), re.M | re.S)[1]
        shown = set(re.findall(r"^\| `(.*?)` " if program == "fallowtime" else r"^\| `([a-z]+)[ `]", table, re.M))
        for name in sorted(shown - names):
            yield page, 1, f"the command {name}, which {program} hasn't"
        for name in sorted(names - shown):
            yield page, 1, f"no command {name}, which {program} has"
    first, commands = ROOT / "README.md", {row[0] for row in command_table.rows("Both", "CommandLine", "Script")}
    listed = re.findall(r"`([a-z-]+)`", re.search(r"^## Commands\n(.*?)^#", first.read_text(), re.M | re.S)[1])
    for name in sorted(commands - {"version", *listed}):
        yield first, 1, f"no command {name} in the section on commands"
    lines = re.search(r"^### Lines over one opening\n(.*?)^#", page.read_text(), re.M | re.S)[1]
    for name, _, _ in command_table.rows("Both", "Session"):
        if f'["{name}"' not in lines:
            yield page, 1, f"no line of {name}, which a session takes"


def signatures(crate):
    """The public functions of a crate's sources, each with the type that it is a method of, on one line."""
    head = re.compile(r"^impl(?:<[^>\n]*>)? (\w+)|^( *)pub fn ((?:.|\n)*?)(?=\s*(?:\{|ensures|requires|decreases))", re.M)
    for source in sorted((ROOT / "crates" / crate / "src").rglob("*.rt")):
        owner = ""
        for found in head.finditer(re.sub(r"^ *//.*$", "", source.read_text(), flags=re.M)):
            owner = found[1] or owner
            if found[3]:
                text = " ".join(found[3].split()).replace("( ", "(").replace(", )", ")").replace(",)", ")")
                yield owner if found[2] else "", "fn " + text


def wrong_calls():
    """Signatures of CALLS that no source has, and calls of a store that it hasn't."""
    page = ROOT / "docs/CALLS.md"
    crates = "bson_store store_question_read store_asked store_question bson_model bson_raw bson_json bson_json_read bson_meaning".split()
    known = {crate: set(signatures(crate)) for crate in crates}
    anywhere = {text for found in known.values() for _, text in found}
    shown = re.findall(r"^fn .*$", page.read_text(), re.M)
    for number, line in enumerate(page.read_text().split("\n"), 1):
        if line.startswith("fn ") and line not in anywhere:
            yield page, number, "a signature that no source has"
    for owner, text in sorted(known["bson_store"]):
        if owner == "Store" and text not in shown:
            yield page, 1, f"no {text}"


def wrong_contents(all_pages):
    """Pages over 150 lines that don't link to each of their sections in front of the first one."""
    for page in all_pages:
        text = page.read_text()
        if text.count("\n") <= LONG:
            continue
        front = text.partition("\n## ")[0]
        for heading in re.findall(r"^## (.*)$", "\n".join(line for _, line in prose(page)), re.M):
            if f"(#{slug(heading)})" not in front:
                yield page, 1, f"no line for {heading} in its table of contents"


def main():
    all_pages = pages()
    if sys.argv[1:2] == ["--wrap"]:
        for page in map(pathlib.Path, sys.argv[2:] or all_pages):
            page.write_text(wrapped(page.read_text()))
    wrong = [(page, number, what) for page in all_pages for number, what in wrong_links(page)]
    wrong += [(page, number, what) for page in all_pages for number, what in wrong_lines(page)]
    wrong += [*wrong_rows(all_pages), *missing(), *wrong_citations(), *wrong_decisions()]
    wrong += [*wrong_commands(), *wrong_calls(), *wrong_contents(all_pages)]
    for page, number, what in wrong:
        print(f"{page.relative_to(ROOT)}:{number}: {what}")
    print(f"docs: {len(all_pages)} pages, {len(wrong)} to mend")
    sys.exit(bool(wrong))


if __name__ == "__main__":
    main()
