"""Packs the package for pip (PEP 517 and 660, wheels of version 1.0), by Python alone: no other package is needed, and
no network.

    packing.py FOLDER TREE [BUILD]

writes two wheels into FOLDER: the package alone, and the package with the program that ./install put into TREE, with
BUILD in its name."""
import base64
import hashlib
import io
import pathlib
import posixpath
import re
import sys
import tarfile
import zipfile

HERE = pathlib.Path(__file__).resolve().parent
PACKAGE = "fallowtime"
ANYWHERE = "py3-none-any"
# Where the program runs: a C library that is as new as Debian 12's.
LINUX = "py3-none-manylinux_2_36_x86_64"
# What a wheel doesn't carry: the program under its other names, as it would have it three times, with their pages.
LEFT_OUT = ("bson_store", "bson_store.1", "bson_json", "bson_json.1", "install")
# The first date that a zip has: a wheel of the same files is the same.
DATE = (1980, 1, 1, 0, 0, 0)


def value_of(key, text):
    """What stands behind a key, in quotes, on a line of its own."""
    return re.search(rf'^{key} = "([^"]*)"$', text, re.M)[1]


def version():
    return value_of("__version__", (HERE / PACKAGE / "__init__.py").read_text())


def description():
    """The package's page, which stands alone in a wheel: a link to another file becomes the name of that in the sources."""
    def named(link):
        return f"{link[1]} ({posixpath.normpath('python/' + link[2])} of the sources)"

    return re.sub(r"\[([^][]*)\]\((?![^()\s]*://)([^()#\s]+)[^()\s]*\)", named, (HERE / "README.md").read_text())


def metadata():
    project = (HERE / "pyproject.toml").read_text()
    lines = [
        "Metadata-Version: 2.1",
        f"Name: {PACKAGE}",
        f"Version: {version()}",
        f"Summary: {value_of('description', project)}",
        "License: MIT",
        f"Requires-Python: {value_of('requires-python', project)}",
        "Description-Content-Type: text/markdown",
        "",
        description(),
    ]
    return "\n".join(lines).encode()


def sources():
    """The files of the package, by their names in it."""
    return {f"{PACKAGE}/{path.name}": path.read_bytes() for path in sorted((HERE / PACKAGE).iterdir())
            if path.suffix in (".py", ".typed")}


def carried(tree):
    """What ./install put into a folder, by its names in a wheel: beside the package's sources what is the program's own, and
    what pip puts below the folder of an environment. The command there is a script that starts the package's program."""
    files = {f"{PACKAGE}-{version()}.data/scripts/{PACKAGE}": (HERE / "command.py").read_bytes()}
    for path in sorted(path for path in pathlib.Path(tree).rglob("*") if path.is_file() and not path.is_symlink()):
        where, _, name = path.relative_to(tree).as_posix().partition("/")
        if path.name in LEFT_OUT:
            continue
        if where == "lib":
            files[f"{PACKAGE}/program/{name.removeprefix('fallowtime/')}"] = path.read_bytes()
        elif not name.startswith("doc/"):
            files[f"{PACKAGE}-{version()}.data/data/{where}/{name}"] = path.read_bytes()
    return files


def pack(folder, files, tag=ANYWHERE, build=""):
    """Writes a wheel of these files into a folder, and returns its name. What begins as a script or a program does is one
    that can be run."""
    about = f"{PACKAGE}-{version()}.dist-info"
    wheel_of = ["Wheel-Version: 1.0", "Generator: fallowtime", f"Root-Is-Purelib: {str(tag == ANYWHERE).lower()}",
                f"Tag: {tag}", *([f"Build: {build}"] if build else []), ""]
    files = {**files, f"{about}/METADATA": metadata(), f"{about}/WHEEL": "\n".join(wheel_of).encode()}
    licence = HERE.parent / "LICENSE"
    if licence.exists():
        files[f"{about}/LICENSE"] = licence.read_bytes()
    record = ""
    for name, content in files.items():
        digest = base64.urlsafe_b64encode(hashlib.sha256(content).digest()).rstrip(b"=").decode()
        record += f"{name},sha256={digest},{len(content)}\n"
    files[f"{about}/RECORD"] = (record + f"{about}/RECORD,,\n").encode()
    wheel = "-".join([PACKAGE, version(), *([build] if build else []), tag]) + ".whl"
    with zipfile.ZipFile(pathlib.Path(folder) / wheel, "w", zipfile.ZIP_DEFLATED) as packed:
        for name, content in files.items():
            entry = zipfile.ZipInfo(name, DATE)
            entry.compress_type = zipfile.ZIP_DEFLATED
            entry.external_attr = (0o100755 if content.startswith((b"#!", b"\x7fELF")) else 0o100644) << 16
            packed.writestr(entry, content)
    return wheel


def build_wheel(wheel_directory, config_settings=None, metadata_directory=None):
    return pack(wheel_directory, sources())


def build_editable(wheel_directory, config_settings=None, metadata_directory=None):
    """A wheel that names the folder of the checkout, where the package stays."""
    return pack(wheel_directory, {f"{PACKAGE}.pth": f"{HERE}\n".encode()})


def build_sdist(sdist_directory, config_settings=None):
    name = f"{PACKAGE}-{version()}"
    files = {**sources(), "PKG-INFO": metadata()}
    files.update((beside, (HERE / beside).read_bytes()) for beside in ("pyproject.toml", "packing.py", "README.md"))
    with tarfile.open(pathlib.Path(sdist_directory) / f"{name}.tar.gz", "w:gz", format=tarfile.PAX_FORMAT) as packed:
        for path, content in files.items():
            entry = tarfile.TarInfo(f"{name}/{path}")
            entry.size = len(content)
            packed.addfile(entry, io.BytesIO(content))
    return f"{name}.tar.gz"


def main():
    if len(sys.argv) not in (3, 4):
        sys.exit("packing.py: the words are FOLDER TREE [BUILD]")
    folder, tree, *build = sys.argv[1:]
    pack(folder, sources())
    pack(folder, {**sources(), **carried(tree)}, LINUX, *build)


if __name__ == "__main__":
    main()
