"""`python -m fallowtime`: which package this is, and which program it starts."""
from __future__ import annotations

import os
import platform
import sys

from . import __version__
from ._errors import FallowtimeError
from ._program import find_program, run


def main() -> None:
    """Prints the version of the package and where it is, and the same of the program. The status is 1 if there is no
    program, and 2 if there are words; at a terminal a second line says whose words they may be."""
    if len(sys.argv) > 1:
        print("words: python -m fallowtime", file=sys.stderr)
        if sys.stderr.isatty():
            print("python -m fallowtime: commands are words of fallowtime, and python -m fallowtime.serve FILE is for"
                  " drivers", file=sys.stderr)
        sys.exit(2)
    folder = os.path.dirname(os.path.abspath(__file__))
    print(f"package {__version__}, of Python {platform.python_version()}: {folder}")
    try:
        program = find_program()
        version = run(program, ["version"]).decode().split()[-1]
    except FallowtimeError as error:
        sys.exit(f"python -m fallowtime: {error}")
    print(f"program {version}: {program}")


if __name__ == "__main__":
    main()
