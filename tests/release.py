#!/usr/bin/python3
"""Makes the files of a release over a program, in a checkout that is made up: whether they are the same when they are made again,
what is in them, whether each link in them leads to something, and whether each one can be put into an empty folder, runs README's first run there, and is gone when it is taken away. Over the archive a new user's walk is done, too (tests/walk.py).

    tests/release.py FALLOWTIME

FALLOWTIME is the program under that name. Prints one line a step, and ends with status 1 at the first that isn't as it should be.
"""
import atexit
import hashlib
import os
import pathlib
import re
import shutil
import subprocess
import sys
import tempfile
import zipfile

import docs

ROOT = pathlib.Path(__file__).resolve().parent.parent
PROGRAM = os.path.realpath(sys.argv[1])
FOLDER = pathlib.Path(tempfile.mkdtemp(prefix="release-"))
atexit.register(shutil.rmtree, FOLDER, ignore_errors=True)
HERE = FOLDER / "here"
HERE.mkdir()
NAMES = ["bson_store", "bson_json", "fallowtime"]
VERSION = (ROOT / "VERSION").read_text().strip()
# The path and the home of somebody who has nothing of this checkout.
PLAIN = {"PATH": "/usr/sbin:/usr/bin:/sbin:/bin", "HOME": str(FOLDER / "home"), "LC_ALL": "C.UTF-8"}
WHO = {"GIT_AUTHOR_NAME": "The Maintainers", "GIT_AUTHOR_EMAIL": "maintainers@debian.org", "GIT_COMMITTER_NAME": "n",
       "GIT_COMMITTER_EMAIL": "e", "GIT_AUTHOR_DATE": "2026-01-02T03:04:05Z", "GIT_COMMITTER_DATE": "2026-01-02T03:04:05Z"}


def holds(step, found, wanted):
    if found != wanted:
        print(f"{step}: {found!r} in place of {wanted!r}"[:3000])
        sys.exit(1)
    print(f"{step}: {found!r}"[:150])


def run(*words, where=HERE, **more):
    done = subprocess.run(words, stdin=subprocess.DEVNULL, capture_output=True, cwd=where, env={**PLAIN, **more})
    return done.returncode, done.stdout.decode(), done.stderr.decode()


def done(*words, **more):
    """What a command that succeeds prints."""
    status, out, errors = run(*words, **more)
    holds(" ".join(map(str, words))[:80], (status, errors if status else ""), (0, ""))
    return out


def everything(folder):
    return sorted(str(path.relative_to(folder)) for path in folder.rglob("*"))


def checkout():
    """A checkout with what a release is made of, as one commit, and the program as ./prove and ./quick leave it."""
    there = pathlib.Path(tempfile.mkdtemp(dir=FOLDER))
    for name in [*NAMES, "install", "release", "VERSION", "LICENSE", "README.md", "CHANGELOG.md"]:
        shutil.copy(ROOT / name, there)
    for folder in "tools", "docs", "man", "completions", "python", "samples":
        shutil.copytree(ROOT / folder, there / folder, ignore=shutil.ignore_patterns("__pycache__"))
    (there / ".gitignore").write_text("out/\ntarget/\ndist/\n")
    (there / "crates.txt").write_text("bson_store_cli: \n")
    source = there / "crates/bson_store_cli/src/main.rt"
    source.parent.mkdir(parents=True)
    source.write_text("// A source.\n")
    os.utime(source, (1000000000, 1000000000))
    for words in ["init", "-q"], ["add", "."], ["commit", "-q", "-m", "m"]:
        done("git", *words, where=there, **WHO)
    for folder, how in (there / "crates/bson_store_cli/out", "proved"), (there / "target/quick", "quick"):
        folder.mkdir(parents=True)
        for name in NAMES:
            shutil.copy(PROGRAM, folder / name)
        record = f"version {VERSION}\ncommit abcdef0\nbuilt {how}\nsources\nbson_store_cli: \ncrates/bson_store_cli/src/main.rt\n"
        (folder / "bson_store.build").write_text(record)
    return there


def dead_links(folder):
    """The links of the pages below a folder that lead to nothing there, and what isn't in the sources though a page says so."""
    for page in sorted([*folder.rglob("*.md"), *folder.rglob("METADATA")]):
        for number, what in docs.wrong_links(page, folder):
            yield f"{page.relative_to(folder)}:{number}: {what}"
        for named in re.findall(r"\(([^()\s]+) of the sources\)", page.read_text()):
            if not (ROOT / named).exists():
                yield f"{page.relative_to(folder)}: {named}, which isn't in the sources"


def contents(folder):
    return {path.name: hashlib.sha256(path.read_bytes()).hexdigest() for path in sorted(folder.iterdir())}


def runs_first_steps(bin_folder, *pages):
    """Whether README's first run, or other pages, print what they say, with the programs of a folder and nothing of the checkout."""
    status, out, errors = run("bash", ROOT / "tests/readme.sh", bin_folder, *pages or [ROOT / "README.md"])
    holds(f"README's first run over {bin_folder.relative_to(FOLDER)}", (status, out if status else "", errors), (0, "", ""))


def runs_walk(bin_folder):
    """Whether what a new user types is answered, or told what to do, by the programs of a folder."""
    status, out, errors = run("/usr/bin/python3", "-B", ROOT / "tests/walk.py", bin_folder)
    holds(f"the walk over {bin_folder.relative_to(FOLDER)}", (status, out if status else "", errors), (0, "", ""))


def runs_python(python, **more):
    """Whether README's lines of Python print what the page says, and which program they start."""
    where = pathlib.Path(tempfile.mkdtemp(dir=FOLDER))
    status, out, errors = run(python, "-m", "doctest", ROOT / "README.md", where=where, **more)
    holds("README's lines of Python", (status, out, errors), (0, "", ""))
    return done(python, "-c", "import fallowtime; print(fallowtime._program.find_program())", where=where, **more).strip()


# Made again, elsewhere, by somebody with other habits, from files with other times, the files are the same.
there, other = checkout(), checkout()
archive, deb = f"fallowtime-{VERSION}-x86_64-linux.tar.gz", f"fallowtime_{VERSION}-1_amd64.deb"
wheel, plain = f"fallowtime-{VERSION}-py3-none-manylinux_2_36_x86_64.whl", f"fallowtime-{VERSION}-py3-none-any.whl"
out = done(there / "release")
dist = there / "dist"
holds("the files", sorted(os.listdir(dist)), sorted([archive, deb, wheel, plain, "NOTES.md", "SHA256SUMS"]))
os.umask(0o077)
for path in other.rglob("*"):
    if ".git" not in path.parts and not path.is_dir() and "src" not in path.parts:
        os.utime(path)
done(other / "release", where="/", TZ="Asia/Tokyo", LC_ALL="C", HOME="/")
os.umask(0o022)
holds("made again", contents(other / "dist") == contents(dist), True)
holds("the sums", (out, done("sha256sum", "-c", "--quiet", "SHA256SUMS", where=dist)), ((dist / "SHA256SUMS").read_text(), ""))
section = re.split(r"^## ", (ROOT / "CHANGELOG.md").read_text(), flags=re.M)
notes = [re.sub(r"\[([^][]*)\]\(([^()#\s]+)[^()\s]*\)", r"\1 (\2 of the sources)", part.partition("\n")[2].strip()) for part in section if part.startswith(VERSION)]
holds("the notes", notes, [(dist / "NOTES.md").read_text().strip()])
for name in wheel, plain:
    zipfile.ZipFile(dist / name).extractall(FOLDER / "links" / name)
holds("dead links", [*dead_links(dist), *dead_links(FOLDER / "links")], [])

# With the quick program its names say so. What isn't committed isn't in them.
(other / "LICENSE").write_text("an edit\n")
done(other / "release", "--quick")
holds("the files of the quick program", sorted(os.listdir(other / "dist")), sorted([
    f"fallowtime-{VERSION}-quick-x86_64-linux.tar.gz", f"fallowtime_{VERSION}~quick-1_amd64.deb",
    f"fallowtime-{VERSION}-0quick-py3-none-manylinux_2_36_x86_64.whl", plain, "NOTES.md", "SHA256SUMS"]))
holds("an edit", contents(other / "dist")[plain], contents(dist)[plain])

# A program that isn't the one of the sources isn't taken, and nothing is made.
shutil.rmtree(other / "dist")
quick = other / "target/quick"
holds("words", run(other / "release", "--proved"), (2, "", "release: the words are none, or --quick\n"))
record = (quick / "bson_store.build").read_text()
(quick / "bson_store.build").write_text(record.replace("abcdef0", "abcdef0 with edits"))
holds("sources that weren't committed", run(other / "release", "--quick"),
      (1, "", "release: the quick program was built of sources that weren't committed\n"))
(quick / "bson_store.build").write_text(record)
(other / "crates/bson_store_cli/src/main.rt").touch()
holds("sources that are newer", run(other / "release", "--quick"),
      (1, "", "release: sources changed since the quick program was built (crates/bson_store_cli/src/main.rt)\n"))
os.utime(other / "crates/bson_store_cli/src/main.rt", (1000000000, 1000000000))
(quick / "fallowtime").write_bytes((quick / "fallowtime").read_bytes() + b"\0GLIBC_2.99\0")
holds("a program that needs a newer C library", run(other / "release", "--quick"),
      (1, "", "release: the program needs version 2.99 of the C library, newer than 2.36 of the wheel's name\n"))
(quick / "fallowtime").unlink()
holds("no program", run(other / "release", "--quick"), (1, "", "release: there is no quick program: ./quick builds it\n"))
(other / "VERSION").write_text("9.9.9\n")
done("git", "commit", "-q", "-a", "-m", "m", where=other, **WHO)
holds("no notes", run(other / "release"), (1, "", "release: CHANGELOG.md has no section of version 9.9.9\n"))
(other / "CHANGELOG.md").write_text("## 9.9.9\n\n- All.\n")
done("git", "commit", "-q", "-a", "-m", "m", where=other, **WHO)
holds("a program of another version", run(other / "release"),
      (1, "", f"release: the proved program is of version {VERSION}, and not 9.9.9: ./prove builds it anew\n"))
holds("nothing was made", (other / "dist").exists(), False)

# The archive runs where it is unpacked, and puts itself elsewhere, from where it is taken away.
unpacked = FOLDER / "unpacked"
unpacked.mkdir()
done("tar", "xf", dist / archive, where=unpacked)
tree = unpacked / archive.removesuffix(".tar.gz")
shutil.rmtree(there / "crates")
shutil.rmtree(there / "target")
holds("owners and times", done("tar", "tvf", dist / archive, "--numeric-owner", "--full-time", TZ="UTC0").count(" 0/0 "), len(everything(unpacked)))
holds("dead links of the archive", list(dead_links(tree)), [])
runs_first_steps(tree / "bin")
prefix = FOLDER / "home/.local"
status, out, errors = run(tree / "install")
holds("installed", (status, errors.split("\n")[0], sorted(out.split())),
      (0, f"install: fallowtime {VERSION} (commit abcdef0, proved)", sorted(str(path) for path in prefix.rglob("*") if not path.is_dir() or path.is_symlink())))
holds("the same files", [path for path in everything(tree) if path != "install"], everything(prefix))
shutil.rmtree(tree)
runs_first_steps(prefix / "bin", *[prefix / "share/doc/fallowtime" / page for page in ("README.md", "docs/USING.md", "docs/FILES.md")])
runs_walk(prefix / "bin")
for name in NAMES:
    holds(f"{name} --version", done(prefix / "bin" / name, "--version"), f"{name} {VERSION} (commit abcdef0, proved)\n")


# What is installed has pages for man, which have the commands and the options of the help.
def words_of_page(text):
    return set(re.findall(r"^\.It Ic ([\w-]+)", text, re.M)), set(re.findall(r"Fl -([a-z-]+)", text))


for name in NAMES:
    page, help_text = prefix / f"share/man/man1/{name}.1", done(prefix / "bin" / name, "--help")
    holds(f"the page of {name}", done("mandoc", "-T", "lint", "-W", "warning", page), "")
    commands = set(re.findall(r"^  ([a-z][a-z_-]*)(?: |$)", help_text, re.M)) - {name}
    # (the option that prints a help is named by the page, and not by every help)
    options = {"help", *re.findall(r"--([a-z][a-z-]*)", help_text)}
    holds(f"the words of the page of {name}", words_of_page(page.read_text()), (commands, options))


# bash, zsh and fish complete by what was installed.
done(prefix / "bin/fallowtime", "shop.db", "put", "orders", '{"_id":1}')
done(prefix / "bin/fallowtime", "shop.db", "put", "old orders", '{"_id":1}')
COMMANDS = re.findall(r"^  ([a-z][a-z-]*)(?: |$)", done(prefix / "bin/fallowtime", "--help"), re.M)
KINDS = run(prefix / "bin/fallowtime", "--explain")[2].split("the kinds are: ")[1].split()
# What zsh would show of the words that are told, one a line: what it is given to complete by is printed instead.
ZSH = r"""
_files() { print -rl -- *(N) }
_message() { }
_describe() { print -rl -- ${(P)2} }
compadd() { [[ $1 != -a ]] || { print -rl -- ${(P)2}; return }; [[ $1 != -- ]] || shift; print -rl -- "$@" }
words=("$@") CURRENT=$#
autoload -U _fallowtime
_fallowtime
"""


def completed(shell, words):
    """What a shell completes the last of the words to."""
    path = {"PATH": f"{prefix}/bin:{PLAIN['PATH']}"}
    if shell == "fish":
        line = " ".join(word.replace(" ", "\\ ") for word in ["fallowtime", *words])
        out = run("fish", "-c", 'complete -C "$argv"', line, **path)[1]
    else:
        out = run("zsh", "-f", "-c", f"fpath=({prefix}/share/zsh/site-functions $fpath){ZSH}", "zsh", "fallowtime", *words, **path)[1]
    found = {re.split(r"\t|:(?=[a-zA-Z])", line)[0] for line in out.split("\n") if line}
    return sorted(name for name in found if name.startswith(words[-1]))


for words, wanted in [
    (["sh"], ["shop.db", "shop.db-wal"]), (["--"], ["--explain", "--help", "--version"]), (["--explain", "No"], [kind for kind in KINDS if kind.startswith("No")]),
    (["shop.db", ""], COMMANDS), (["shop.db", "re"], [name for name in COMMANDS if name.startswith("re")]), (["shop.db", "--"], ["--help", "--wait"]),
    (["shop.db", "get", ""], ["old orders", "orders"]), (["shop.db", "get", "or"], ["orders"]), (["none.db", "get", ""], []),
    (["shop.db", "get", "orders", ""], []), (["shop.db", "get", "orders", "1", ""], ["--bson", "--canonical", "--pretty", "--wait"]),
    (["shop.db", "get", "orders", "1", "--bson", "--"], ["--canonical", "--pretty", "--wait"]), (["shop.db", "edit", "or"], ["orders"]),
    (["shop.db", "import-all", "shop.db"], ["shop.db", "shop.db-wal"]), (["shop.db", "import", "orders", "shop.db"], ["shop.db", "shop.db-wal"]), (["shop.db", "import", "orders", "--"], ["--batch", "--json", "--skip-existing", "--upsert", "--wait"]), (["shop.db", "find", "orders", "--w"], ["--wait", "--without"]),
    (["shop.db", "find", "orders", "{}", "--wait", ""], []), (["shop.db", "find", "orders", "{}", "--sort", ""], []), (["shop.db", "backup", "shop.db"], ["shop.db", "shop.db-wal"]),
    (["shop.db", "collections", ""], ["--wait"]), (["shop.db", "insert", "orders", "--"], []), (["shop.db", "find", "orders", "--s"], ["--skip", "--sort"]),
]:
    for shell in "zsh", "fish":
        holds(f"{shell} completes {words}", completed(shell, words), sorted(wanted))
for path in HERE.iterdir():
    path.unlink()

# Debian's package has no fault, and is put into an empty root and removed from it. Nothing that it needs is looked for there.
lint = run("lintian", "--fail-on", "error", "--allow-root", dist / deb)
holds("lintian", (lint[0], [line for line in lint[1].splitlines() if line.startswith("E")]), (0, []))
needed = max((int(minor) for minor in re.findall(rb"GLIBC_2\.(\d+)", pathlib.Path(PROGRAM).read_bytes())))
holds("what it depends on", done("dpkg-deb", "-f", dist / deb, "Depends", "Version"), f"Depends: libc6 (>= 2.{needed})\nVersion: {VERSION}-1\n")
root = FOLDER / "root"
(root / "var/lib/dpkg/updates").mkdir(parents=True)
(root / "var/lib/dpkg/info").mkdir()
(root / "var/lib/dpkg/status").touch()
dpkg = ["dpkg", f"--root={root}", "--force-depends", "--force-not-root", "--log=/dev/null"]
done(*dpkg, "-i", dist / deb)
holds("dead links of Debian's package", list(dead_links(root / "usr")), [])
runs_first_steps(root / "usr/bin")
for name in NAMES:
    holds(f"{name} --version", done(root / "usr/bin" / name, "--version"), f"{name} {VERSION} (commit abcdef0, proved)\n")
holds("what dpkg says of its files", done(*dpkg, "--verify", "fallowtime"), "")
done(*dpkg, "--purge", "fallowtime")
holds("what is left", [path for path in everything(root) if not path.startswith("var") and path != "usr"], [])

# The wheel brings the program, which the package takes before any other; the plain wheel takes the one on the path.
env = FOLDER / "env"
done("/usr/bin/python3", "-m", "venv", env)
before = everything(env)
pip = [env / "bin/pip", "--disable-pip-version-check", "--no-cache-dir"]
done(*pip, "install", "-q", "--no-index", dist / wheel)
holds("the program of the wheel", pathlib.Path(runs_python(env / "bin/python", PATH=f"{prefix}/bin:{PLAIN['PATH']}")).parts[-3:],
      ("fallowtime", "program", "fallowtime"))
runs_first_steps(env / "bin")
holds("its command", done(env / "bin/fallowtime", "--version"), f"fallowtime {VERSION} (commit abcdef0, proved)\n")
holds("its page", (env / "share/man/man1/fallowtime.1").read_bytes(), (prefix / "share/man/man1/fallowtime.1").read_bytes())
done(*pip, "uninstall", "-q", "-y", "fallowtime")
holds("what pip leaves", [path for path in everything(env) if path not in before and "fallowtime" in path], [])
done(*pip, "install", "-q", "--no-index", dist / plain)
holds("the program beside the plain wheel", runs_python(env / "bin/python", PATH=f"{prefix}/bin:{PLAIN['PATH']}"), f"{prefix}/bin/fallowtime")
status, out, errors = run(env / "bin/python", "-c", "import fallowtime; fallowtime.open('a.db')")
holds("no program at all", (status, errors.split("\n")[-2].startswith("fallowtime.Ended: there is no program fallowtime: ")), (1, True))

# What was put by the archive is taken away by what it put.
done(prefix / "lib/fallowtime/install", "--remove")
holds("what is left", everything(prefix), [])
print("all as it should be")
