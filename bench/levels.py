"""Tells for each call how many levels of documents fit on a stack of 8 MB: python3 -I bench/levels.py PROGRAM (-I since select.py lies beside it). A call that ends the
process with a signal before it tells its line didn't fit; up to MOST levels are tried."""
import resource
import subprocess
import sys

CALLS = ("gate to_document to_array from_reader from_document drop drop_array try_clone eq hash display depth is_plain same_meaning "
         "same_as_raw normalize sorted meaning_key to_canonical to_relaxed from_json drop_json").split()
STACK = 8 << 20
MOST = 1 << 20


def limited():
    resource.setrlimit(resource.RLIMIT_STACK, (STACK, STACK))


def fits(program, call, levels):
    done = subprocess.run([program, call, str(levels)], stdout=subprocess.PIPE, stderr=subprocess.PIPE, preexec_fn=limited)
    if done.stdout.startswith(call.encode()):
        return True
    if done.returncode >= 0:
        raise SystemExit(f"{call} {levels}: {done.stderr.decode()}")
    return False


def greatest(program, call):
    if fits(program, call, MOST):
        return MOST
    low, high = 1, MOST
    while high - low > 1:
        middle = (low + high) // 2
        if fits(program, call, middle):
            low = middle
        else:
            high = middle
    return low


for call in CALLS:
    most = greatest(sys.argv[1], call)
    print(call, f"at least {most}" if most == MOST else most, flush=True)
