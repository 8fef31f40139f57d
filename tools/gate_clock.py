#!/usr/bin/env python3
"""Reckons how long a gate takes by the clock, from what one of them printed.

    tools/gate_clock.py LOG [PROCESSORS ..]

LOG is what .ci/run printed, of a merge or of a whole run: from its lines `seconds of CRATE: ..` and `wrong bodies of CRATE: ..` are taken
what each crate's proof, tests, builds and wrong bodies took of the processor, and from its line of minutes what the other steps took.
They are laid out as the gate does it, the longest way first: in a whole run a proof once those below it have ended, in a merge at once;
tests, builds and wrong bodies of a crate behind its proof; beside them a quick build, and behind it the program of cases and the tests,
a part of which waits, in a whole run, for the proved program. It prints the minutes of the processor, the longest way, and the minutes by
the clock on 2 and 4 processors or on as many as are named. Programs that wait for disks or for each other take longer than is reckoned.
"""
import heapq
import pathlib
import re
import sys

# How many parts the tests have, which run side by side.
PARTS = 8
ROOT = pathlib.Path(__file__).resolve().parent.parent
SECONDS = re.compile(r"^seconds of (\w+): (.*)$", re.MULTILINE)
BODIES = re.compile(r"^wrong bodies of (\w+): .* ([0-9]+) s of the processor$", re.MULTILINE)
MERGE = re.compile(r"^prove_changed\.py: ", re.MULTILINE)
MINUTES = re.compile(r"^minutes of the processor: [0-9]+ \((.*)\)$", re.MULTILINE)


def crates():
    """The crates of crates.txt, each with those of them that it stands on, lowest first."""
    lines = [line.partition("#")[0].partition(":") for line in (ROOT / "crates.txt").read_text(encoding="utf-8").splitlines()]
    found = {name.split()[0]: below.split() for name, _, below in lines if name.strip()}
    return {name: [each for each in below if each in found] for name, below in found.items()}


def ways(tasks):
    """The seconds from the begin of each task to the end of the last one behind it."""
    way = {}
    for name in reversed(list(tasks)):
        way[name] = tasks[name][0] + max((way[each] for each in way if name in tasks[each][1]), default=0)
    return way


def clock(tasks, processors):
    """The seconds until all tasks are done: each a name, its seconds and what it waits for."""
    way, now, done, left, running = ways(tasks), 0.0, set(), set(tasks), []
    while left or running:
        ready = sorted((name for name in left if done.issuperset(tasks[name][1])), key=lambda name: -way[name])
        for name in ready[: processors - len(running)]:
            left.remove(name)
            heapq.heappush(running, (now + tasks[name][0], name))
        now, ended = heapq.heappop(running)
        done.add(ended)
    return now


def in_parts(tasks, name, seconds, behind):
    """Adds a step that runs on all processors, in parts."""
    for number in range(PARTS):
        tasks[f"{name} {number}"] = seconds / PARTS, behind


def tasks_of(log):
    """What a gate did, lowest first."""
    is_merge, tasks = bool(MERGE.search(log)), {}
    took = {name: {part.split()[0]: float(part.split()[1]) for part in parts.split(", ")} for name, parts in SECONDS.findall(log)}
    bodies = {name: float(seconds) for name, seconds in BODIES.findall(log)}
    for name, below in crates().items():
        seconds = took.get(name, {})
        tasks[name] = seconds.pop("proofs", 0.0), set() if is_merge else set(below)
        for part, each in [*seconds.items(), ("wrong bodies", bodies.get(name, 0.0))]:
            tasks[f"{part} of {name}"] = each, {name}
    steps = {step.rpartition(" ")[0]: 60 * float(step.rpartition(" ")[2]) for step in MINUTES.findall(log)[-1].split(", ")}
    quick = max(0.0, steps.get("builds", 0.0) - sum(seconds.get("compilers", 0.0) for seconds in took.values()))
    tasks["./quick"] = quick / 2, set()
    tasks["./quick --cases"] = quick / 2, {"./quick"}
    tests = steps.get("tests", 0.0) / (1 if is_merge else 2)
    in_parts(tasks, "tests", tests, {"./quick"})
    if not is_merge:
        in_parts(tasks, "tests of the proved program", tests, set(crates()))
    return tasks


def main():
    tasks = tasks_of(pathlib.Path(sys.argv[1]).read_text(encoding="utf-8", errors="replace"))
    print(f"minutes of the processor: {sum(seconds for seconds, _ in tasks.values()) / 60:.0f}; the longest way: {max(ways(tasks).values()) / 60:.0f}")
    for processors in [int(word) for word in sys.argv[2:]] or [2, 4]:
        print(f"on {processors} processors: {clock(tasks, processors) / 60:.0f} minutes")


if __name__ == "__main__":
    main()
