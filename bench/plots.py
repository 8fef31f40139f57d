#!/usr/bin/python3
"""Measures commands and requests of `fallowtime` at several sizes, beside Python over sqlite3 and bson, and draws two plots.

    plots.py PROGRAM FOLDER [ROUNDS]

PROGRAM is the program under the name fallowtime. Writes FOLDER/commands.svg and FOLDER/requests.svg, and prints the figures: seconds of
the processor, user and system together, the least of ROUNDS (3 if not given), in which the programs take turns. A point in a plot has
its figure as its title. Wants Debian's python3-pymongo.
"""
import os
import pathlib
import subprocess
import sys
import tempfile

BENCH = pathlib.Path(__file__).resolve().parent
PYTHON = "/usr/bin/python3"
# How many orders of about 1 kB, and how many requests.
ORDERS, REQUESTS = [1000, 5000, 10000, 20000], [1000, 5000, 10000, 20000]
# The plot's size, and the room around it, in units of SVG.
WIDTH, HEIGHT, LEFT, BELOW, TOP, RIGHT = 640, 360, 60, 50, 40, 150
COLOURS = ["#1b6ca8", "#6fa8dc", "#c05a1c", "#e6a57e"]


def seconds(command, given, taken):
    """The processor seconds of a command."""
    with open(given, "rb") as source, open(taken, "wb") as sink:
        process = subprocess.Popen(command, stdin=source, stdout=sink)
        _, status, used = os.wait4(process.pid, 0)
    if status != 0:
        sys.exit(f"plots.py: {command}: status {status}")
    return used.ru_utime + used.ru_stime


def made(command, path):
    """A file with what a command prints."""
    with open(path, "wb") as sink:
        subprocess.run(command, stdout=sink, check=True)
    return path


def fresh(folder, name):
    """The path of a database that isn't there."""
    for ending in "", "-wal", "-shm":
        (folder / (name + ending)).unlink(missing_ok=True)
    return str(folder / name)


def of_commands(program, folder, rounds):
    """The seconds of each series at each number of orders."""
    baseline = [PYTHON, str(BENCH / "program/baseline.py")]
    found = {}
    for count in ORDERS:
        stream = made([PYTHON, str(BENCH / "stream.py"), str(count)], folder / "orders.bson")
        for _ in range(rounds):
            ours, theirs = fresh(folder, "ours.db"), fresh(folder, "theirs.db")
            steps = [("import", [program, ours, "import", "c"], stream), ("import, Python", [*baseline, theirs, "import"], stream),
                     ("export", [program, ours, "export", "c"], os.devnull), ("export, Python", [*baseline, theirs, "export"], os.devnull)]
            for name, command, given in steps:
                took = seconds(command, given, folder / "taken")
                at = found.setdefault(name, {})
                at[count] = min(took, at.get(count, took))
    return found


def of_requests(program, folder, rounds):
    """The same at each number of requests over one opening."""
    found = {}
    for count in REQUESTS:
        lines = made([PYTHON, str(BENCH / "requests/lines.py"), str(count)], folder / "lines")
        for _ in range(rounds):
            steps = [("fallowtime FILE", [program, fresh(folder, "ours.db")]),
                     ("Python", [PYTHON, str(BENCH / "requests/python_sqlite.py"), fresh(folder, "theirs.db")])]
            for name, command in steps:
                took = seconds(command, lines, folder / "taken")
                at = found.setdefault(name, {})
                at[count] = min(took, at.get(count, took))
    return found


def step_of(most):
    """The step of an axis: 1, 2 or 5 times a power of ten, five steps at the most."""
    step = 10.0 ** -6
    while True:
        for times in 1, 2, 5:
            if most <= 5 * step * times:
                return step * times
        step *= 10


def drawn(found, title, axis):
    """A plot of the series, as SVG."""
    most_x, most_y = max(max(at) for at in found.values()), max(max(at.values()) for at in found.values())
    step_x, step_y = step_of(most_x), step_of(most_y)

    def x_of(value):
        return LEFT + value / most_x * (WIDTH - LEFT - RIGHT)

    def y_of(value):
        return HEIGHT - BELOW - value / (-(-most_y // step_y) * step_y) * (HEIGHT - BELOW - TOP)

    out = [f'<svg xmlns="http://www.w3.org/2000/svg" viewBox="0 0 {WIDTH} {HEIGHT}" font-family="sans-serif" font-size="12">',
           f'<rect width="{WIDTH}" height="{HEIGHT}" fill="white"/>', f'<text x="{LEFT}" y="20" font-size="14">{title}</text>']
    for number in range(int(-(-most_y // step_y)) + 1):
        y = y_of(number * step_y)
        out += [f'<line x1="{LEFT}" y1="{y:.1f}" x2="{WIDTH - RIGHT}" y2="{y:.1f}" stroke="#ddd"/>',
                f'<text x="{LEFT - 8}" y="{y + 4:.1f}" text-anchor="end">{number * step_y:g} s</text>']
    for number in range(int(most_x // step_x) + 1):
        out.append(f'<text x="{x_of(number * step_x):.1f}" y="{HEIGHT - BELOW + 18}" text-anchor="middle">{number * step_x:g}</text>')
    out.append(f'<text x="{(LEFT + WIDTH - RIGHT) / 2}" y="{HEIGHT - 10}" text-anchor="middle">{axis}</text>')
    for (name, at), colour in zip(found.items(), COLOURS):
        points = " ".join(f"{x_of(x):.1f},{y_of(y):.1f}" for x, y in at.items())
        last = max(at)
        out.append(f'<polyline points="{points}" fill="none" stroke="{colour}" stroke-width="2"/>')
        out += [f'<circle cx="{x_of(x):.1f}" cy="{y_of(y):.1f}" r="3" fill="{colour}"><title>{name}, {x}: {y:.2f} s</title></circle>' for x, y in at.items()]
        out.append(f'<text x="{x_of(last) + 8:.1f}" y="{y_of(at[last]) + 4:.1f}" fill="{colour}">{name}</text>')
    return "\n".join([*out, "</svg>", ""])


def main():
    if len(sys.argv) not in (3, 4):
        sys.exit("plots.py: the words are PROGRAM FOLDER [ROUNDS]")
    program, rounds = os.path.abspath(sys.argv[1]), int(sys.argv[3]) if len(sys.argv) == 4 else 3
    plots = [("commands", of_commands, "Processor time of a command by the size of the file", "orders of 1 kB in the file"),
             ("requests", of_requests, "Processor time of requests over one opening", "requests, each change on the disk before its answer")]
    for name, measure, title, axis in plots:
        with tempfile.TemporaryDirectory() as folder:
            found = measure(program, pathlib.Path(folder), rounds)
        for series, at in found.items():
            print(f"{name}: {series}: " + ", ".join(f"{count}: {took:.2f} s" for count, took in at.items()))
        (pathlib.Path(sys.argv[2]) / f"{name}.svg").write_text(drawn(found, title, axis))


main()
