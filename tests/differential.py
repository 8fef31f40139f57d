#!/usr/bin/python3
"""Makes documents of all 21 kinds at random, damages most of them, and holds what the program does with them against a
reader written from the pages (page_reader.py), and that beside two other readers: Python's `bson` and libbson.

    tests/differential.py PROGRAM [INPUTS [SEED [SHARD]]]

Every input the program has to refuse with the kind of the page, or to export as the bytes of the page. A document that
was made whole has to come back byte for byte. Where another reader accepts what the page refuses, or refuses what it
accepts, that needs a name out of the tables below, which docs/DIFFERENCES.md explains in section 5. Inputs come in
shards of 1000, all different in a shard, each shard by a generator of its own; with SHARD that one runs alone. Prints
the figures, and ends with status 1 where there was an input that nothing explains, after printing its bytes.
"""
import collections
import ctypes
import multiprocessing
import pathlib
import random
import struct
import subprocess
import sys
import tempfile
import time

try:
    import bson
    from bson.binary import UuidRepresentation
    from bson.codec_options import CodecOptions
    LIBBSON = ctypes.CDLL("libbson-1.0.so.0")
except (ImportError, OSError):
    sys.exit("differential.py: needs Python's bson and libbson, of Debian: "
             "apt-get install python3-bson python3-bson-ext libbson-1.0-0")

from page_reader import INT64, LONGEST, OBJECT_ID, STRING, envelope_kind, read
from random_documents import make_input

SHARD_SIZE = 1000
PROCESSES = 2
# Of so many inputs that the page accepts, one goes through the pipe by itself, the others through import and export in
# streams; so does every one whose `_id` might mean the same as another's.
PIPED = 10
# So many streams of each shard have one document that the page refuses.
BROKEN = 5
PYTHON, LIB = "python3-bson", "libbson"

# The names of differences. For these causes, told by `Reading`, the page refuses what another reader accepts.
ACCEPTED = {
    PYTHON: {"no _id", "more than 100 levels", "options not UTF-8", "array key not UTF-8", "binary beyond its document",
             "closing 00 used up", "options without 00"},
    LIB: {"no _id", "more than 100 levels", "options not UTF-8", "document without 00",
          "document of a length too small", "code before a scope without 00", "scope that begins with 00"},
}
# For these features, told by `Reading`, another reader refuses what the page accepts.
REFUSED = {
    PYTHON: {"date outside the years 1 to 9999", "UUID of other than 16 bytes"},
    LIB: set(),
}


# The other readers.

OPTIONS = CodecOptions(uuid_representation=UuidRepresentation.UNSPECIFIED)
VALIDATE_UTF8, ALLOW_NULL = 1, 8
LIBBSON.bson_init_static.argtypes = [ctypes.c_void_p, ctypes.c_char_p, ctypes.c_size_t]
LIBBSON.bson_init_static.restype = ctypes.c_bool
LIBBSON.bson_validate.argtypes = [ctypes.c_void_p, ctypes.c_int, ctypes.c_void_p]
LIBBSON.bson_validate.restype = ctypes.c_bool
LIBBSON.bson_as_canonical_extended_json.argtypes = [ctypes.c_void_p, ctypes.c_void_p]
LIBBSON.bson_as_canonical_extended_json.restype = ctypes.c_void_p
LIBBSON.bson_free.argtypes = [ctypes.c_void_p]
LIBBSON.bson_free.restype = None
# A bson_t: 128 bytes, at a multiple of 128.
ROOM = ctypes.create_string_buffer(256)
VIEW = (ctypes.addressof(ROOM) + 127) // 128 * 128


def by_python(data):
    """Whether Python's bson reads the bytes, and as what."""
    try:
        return True, bson.decode(data, OPTIONS)
    except Exception:
        # It has errors of many types for bytes that it refuses.
        return False, None


def plain(value):
    """The value in a form in which doubles, and so NaNs, are equal where their patterns are."""
    if isinstance(value, dict):
        return [(key, plain(part)) for key, part in value.items()]
    if isinstance(value, list):
        return [plain(part) for part in value]
    if isinstance(value, bson.Code):
        return str(value), plain(value.scope)
    return struct.pack("<d", value) if isinstance(value, float) else value


def by_libbson(data):
    """Whether libbson validates the bytes, and writes them as Extended JSON. By itself its validation passes a text that
    isn't UTF-8, and whatever is behind one or behind a scope.
    """
    if not LIBBSON.bson_init_static(VIEW, data, len(data)):
        return False
    if not LIBBSON.bson_validate(VIEW, VALIDATE_UTF8 | ALLOW_NULL, None):
        return False
    json = LIBBSON.bson_as_canonical_extended_json(VIEW, None)
    LIBBSON.bson_free(json)
    return json is not None


# The program.

def run(*words, given):
    done = subprocess.run(words, input=given, capture_output=True)
    return done.returncode, done.stdout, done.stderr.decode()


def through_file(program, given):
    """What import of a stream into a new file tells, and then export."""
    with tempfile.TemporaryDirectory() as folder:
        file = pathlib.Path(folder) / "stream.db"
        return run(program, file, "import", "c", given=given), run(program, file, "export", "c", given=b"")


def wanted_of(reading):
    """What the pipe may give."""
    if reading.kinds is None:
        return [(0, reading.written, "")]
    return [(1, b"", f"refused: {kind}\n") for kind in sorted(reading.kinds)]


class Shard:
    """The inputs that one generator makes, what was counted of them, and those that nothing explains."""

    def __init__(self, program, seed, number):
        self.program, self.generator = program, random.Random(f"{seed} {number}")
        self.counts, self.unexplained = collections.Counter(), []
        self.name = f"shard {number}"
        self.stream = {}

    def fail(self, what, data):
        self.unexplained.append(f"{self.name}: {what}: {data.hex()}")

    def take_inputs(self, inputs):
        seen = set()
        while len(seen) < inputs:
            data, is_whole = make_input(self.generator)
            if data not in seen:
                seen.add(data)
                self.take(data, is_whole)
        self.run_stream()
        for _ in range(BROKEN):
            self.run_broken_stream()
        return self.counts, self.unexplained

    def take(self, data, is_whole):
        reading = read(data)
        self.counts["inputs"] += 1
        self.counts["accepted" if reading.kinds is None else "refused"] += 1
        self.counts["bytes of them"] += len(data)
        self.count_kind(data, reading)
        self.counts["made whole"] += is_whole
        if is_whole and (reading.written != data or reading.kinds not in (None, {"TooDeep"})):
            self.fail("made whole, and not in written form", data)
        self.compare(data, reading)
        if reading.kinds is None and self.generator.randrange(PIPED) and self.is_new(reading.identity):
            self.stream[reading.identity] = data, reading.written
        else:
            self.try_pipe(data, reading)

    def is_new(self, identity):
        """Whether no `_id` of the stream means the same: the kind is one of which unlike bytes are unlike values."""
        return identity[0] in (OBJECT_ID, INT64, STRING) and identity not in self.stream

    def count_kind(self, data, reading):
        if reading.kinds:
            self.counts[f"refused: {' or '.join(sorted(reading.kinds))}"] += 1
        elif reading.written == data:
            self.counts["accepted, in written form"] += 1
        elif reading.changes:
            self.counts[f"accepted, comes back otherwise: {' and '.join(sorted(reading.changes))}"] += 1
        else:
            self.fail("comes back otherwise, and nothing says why", data)

    def try_pipe(self, data, reading):
        self.counts["by the pipe"] += 1
        found = run(self.program, given=data)
        if found not in wanted_of(reading):
            self.fail(f"the program gives {found}, the page {wanted_of(reading)}", data)

    def compare(self, data, reading):
        """Holds the page beside the other readers."""
        python, document = by_python(data)
        library = by_libbson(data)
        for peer, accepts in ((PYTHON, python), (LIB, library)):
            self.counts[f"{peer}: {'accepts' if accepts else 'refuses'}"] += 1
            if accepts and reading.kinds:
                self.name_causes(peer, data, reading)
            elif not accepts and not reading.kinds:
                self.name_features(peer, data, reading)
        if python and library:
            self.counts["both accept"] += 1
            back = "comes back" if reading.written == data else "comes back otherwise"
            self.counts[f"both accept, and it {'is refused' if reading.kinds else back}"] += 1
        if python and not reading.kinds and reading.written != data:
            if plain(by_python(reading.written)[1]) != plain(document):
                self.fail("Python reads the written form as another document", data)

    def name_causes(self, peer, data, reading):
        for cause in reading.causes:
            if cause not in ACCEPTED[peer]:
                self.fail(f"{peer} accepts, the page refuses for {reading.causes}", data)
                return
        self.counts[f"difference: {reading.causes[0]}: {peer} accepts"] += 1

    def name_features(self, peer, data, reading):
        for feature in sorted(reading.features & REFUSED[peer]):
            self.counts[f"difference: {feature}: {peer} refuses"] += 1
            return
        self.fail(f"{peer} refuses, the page accepts", data)

    def run_stream(self):
        """Imports all that was put aside, and exports it."""
        given = b"".join(data for data, _ in self.stream.values())
        wanted = b"".join(form for _, form in self.stream.values())
        count = len(self.stream)
        self.counts["by streams"] += count
        told, out = through_file(self.program, given)
        if told != (0, b"%d\n" % count, "") or out != (0, wanted, ""):
            self.fail(f"a stream: import {told}, export {out[0]} {out[2]}", given)
            for data, _ in self.stream.values():
                self.try_pipe(data, read(data))

    def run_broken_stream(self):
        """Imports a stream with one document that the page refuses: the first refused one is told, and nothing kept."""
        pieces = [data for data, _ in self.generator.sample(list(self.stream.values()), min(20, len(self.stream)))]
        spoilt = b""
        while not spoilt or not read(spoilt).kinds:
            spoilt, _ = make_input(self.generator)
        pieces.insert(self.generator.randint(0, len(pieces)), spoilt)
        given = b"".join(pieces)
        wanted = wanted_of_stream(given)
        told, out = through_file(self.program, given)
        self.counts["broken streams"] += 1
        if told not in wanted or out != (0, b"", ""):
            self.fail(f"a broken stream: {told}, the page {wanted}", given)


def wanted_of_stream(data):
    """What import may print of a stream whose `_id`s are all unlike: the first document that is refused decides."""
    at, count = 0, 0
    while at < len(data):
        rest = data[at:]
        kind = envelope_kind(rest, is_slice=False)
        kinds = {kind} if kind else read(rest[:struct.unpack_from("<i", rest)[0]]).kinds
        if kinds:
            return [(1, b"", f"refused: {kind} document {count}\n") for kind in sorted(kinds)]
        at, count = at + struct.unpack_from("<i", rest)[0], count + 1
    return [(0, b"%d\n" % count, "")]


def run_shard(job):
    program, seed, number, inputs = job
    return Shard(program, seed, number).take_inputs(inputs)


def long_inputs():
    """Documents about as long as the page accepts, and one too long as written, as the keys of its array are empty."""
    for length in (LONGEST - 1, LONGEST, LONGEST + 1):
        inside = b"\x0a_id\0\x05b\0" + struct.pack("<i", length - 18) + b"\0" + bytes(length - 18)
        yield struct.pack("<i", length) + inside + b"\0"
    items = b"\x0a\0" * 2200000
    array = struct.pack("<i", len(items) + 5) + items + b"\0"
    yield struct.pack("<i", len(array) + 13) + b"\x0a_id\0\x04a\0" + array + b"\0"


def run_long(program):
    shard = Shard(program, 0, "of long inputs")
    for data in long_inputs():
        found, reading = run(program, given=data), read(data)
        if found not in wanted_of(reading):
            shard.fail(f"{len(data)} bytes: {found[0]} {found[2]}, the page {reading.kinds}", data[:40])
        shard.counts["long inputs"] += 1
        shard.counts[f"long inputs: {reading.kinds or 'accepted'}"] += 1
    return shard.counts, shard.unexplained


def main():
    program = sys.argv[1]
    inputs = int(sys.argv[2]) if len(sys.argv) > 2 else 100000
    seed = int(sys.argv[3]) if len(sys.argv) > 3 else 20261125
    numbers = [int(sys.argv[4])] if len(sys.argv) > 4 else range(-(-inputs // SHARD_SIZE))
    begin = time.monotonic()
    counts, unexplained = run_long(program)
    jobs = [(program, seed, number, min(SHARD_SIZE, inputs)) for number in numbers]
    with multiprocessing.Pool(PROCESSES) as pool:
        for found, failed in pool.imap_unordered(run_shard, jobs):
            counts.update(found)
            unexplained += failed
    for name, count in sorted(counts.items()):
        print(f"{name}: {count}")
    print(f"seed {seed}, {time.monotonic() - begin:.0f} seconds")
    for line in sorted(unexplained, key=len)[:20]:
        print(line)
    if unexplained:
        sys.exit(f"{len(unexplained)} inputs that nothing explains")


if __name__ == "__main__":
    main()
