"""A reader of documents written from the pages (docs/FORMATS.md, sections 1 and 2, docs/development/SCOPE.md, 7.3), for
tests/differential.py: `read` tells of bytes with which kind they have to be refused, or which bytes have to come back.
"""
import struct

DOUBLE, STRING, DOCUMENT, ARRAY, BINARY, UNDEFINED, OBJECT_ID, BOOLEAN, DATE, NULL, REGEX = range(0x01, 0x0C)
POINTER, CODE, SYMBOL, SCOPED, INT32, TIMESTAMP, INT64, DECIMAL, MAX_KEY, MIN_KEY = *range(0x0C, 0x14), 0x7F, 0xFF
TAGS = [*range(0x01, 0x14), MAX_KEY, MIN_KEY]
SIZES = {DOUBLE: 8, UNDEFINED: 0, OBJECT_ID: 12, BOOLEAN: 1, DATE: 8, NULL: 0, INT32: 4, TIMESTAMP: 8, INT64: 8,
         DECIMAL: 16, MAX_KEY: 0, MIN_KEY: 0}
TEXTS = (STRING, CODE, SYMBOL)
OLD_BINARY, OLD_UUID, UUID = 2, 3, 4
# Where Python's dates begin and end, in milliseconds.
FIRST_DATE, LAST_DATE = -62135596800000, 253402300799999
LONGEST = 16777216
DEEPEST = 100


class Structural(Exception):
    """A fault that ends the walk of a level."""


class Frame:
    """A first frame: its tag, its key, and where its payload begins and ends."""

    def __init__(self, tag, key, begin, end):
        self.tag, self.key, self.begin, self.end = tag, key, begin, end


class Reading:
    """What was met in a document: the causes of refusals, how many levels there are, what the written form changes, and
    the features that other readers refuse."""

    def __init__(self):
        self.causes, self.levels, self.changes, self.features = [], 0, set(), set()
        # The kinds of which the program has to tell one, or None where it has to accept; the bytes that it then has to
        # export; the element `_id` of them.
        self.kinds, self.written, self.identity = None, None, None


def number_at(data, at):
    if at + 4 > len(data):
        raise Structural("bytes end inside a length")
    return struct.unpack_from("<i", data, at)[0]


def is_utf8(part):
    try:
        part.decode("utf-8")
        return True
    except UnicodeDecodeError:
        return False


def run_end(data, at, what):
    """Where the 00 stands that closes the UTF-8 run."""
    end = data.find(b"\0", at)
    if end < 0:
        raise Structural(f"{what} without 00")
    if not is_utf8(data[at:end]):
        raise Structural(f"{what} not UTF-8")
    return end


def first_frame(data, at, key="key"):
    """(FORMATS.md, 2.2.)"""
    if at >= len(data) or data[at] not in TAGS:
        raise Structural("unknown tag" if at < len(data) else "closing 00 used up")
    end = run_end(data, at + 1, key)
    begin = end + 1
    return Frame(data[at], data[at + 1:end], begin, extent_end(data, data[at], begin))


def within(data, end, what):
    if end > len(data):
        raise Structural(f"{what} beyond its document")
    return end


def closed(data, at, least, counted, what):
    """The end of bytes whose length stands at the place, is that much at least, and whose last byte is 00."""
    length = number_at(data, at)
    if length < least:
        raise Structural(f"{what} of a length too small")
    end = within(data, at + counted + length, what)
    if data[end - 1] != 0:
        raise Structural(f"{what} without 00")
    return end


def extent_end(data, tag, at):
    """(FORMATS.md, 2.3.)"""
    if tag in SIZES:
        return within(data, at + SIZES[tag], "value")
    if tag in TEXTS:
        return closed(data, at, 1, 4, "text")
    if tag in (DOCUMENT, ARRAY):
        return closed(data, at, 5, 0, "document")
    if tag == POINTER:
        return within(data, closed(data, at, 1, 4, "text") + 12, "pointer")
    if tag == REGEX:
        return run_end(data, run_end(data, at, "pattern") + 1, "options") + 1
    length = number_at(data, at)
    if length < 0:
        raise Structural("length under 0")
    if tag == BINARY:
        return within(data, at + 5 + length, "binary")
    within(data, at + 4, "scope")
    return within(data, at + length, "scope")


def written_level(data, level, reading, tag=DOCUMENT):
    """The written form of the document in an element with that tag, its envelope right (FORMATS.md, 2.4 and 2.8)."""
    is_array = tag == ARRAY
    reading.levels = max(reading.levels, level)
    kept, at, count = {}, 4, 0
    while not (at == len(data) - 1 and data[at] == 0):
        try:
            frame = first_frame(data, at, "array key" if is_array else "key")
        except Structural as fault:
            begins_with_end = tag == SCOPED and at == 4 and data[at] == 0
            reading.causes.append("scope that begins with 00" if begins_with_end else str(fault))
            break
        key = str(count).encode() if is_array else frame.key
        if key != frame.key:
            reading.changes.add("array keys")
        if key in kept:
            reading.changes.add("repeated key")
        value = written_value(frame.tag, data[frame.begin:frame.end], level, reading)
        kept[key] = bytes([frame.tag]) + key + b"\0" + value
        at, count = frame.end, count + 1
    inside = b"".join(kept.values())
    if level == 1:
        reading.identity = kept.get(b"_id")
    return struct.pack("<i", len(inside) + 5) + inside + b"\0"


def written_value(tag, part, level, reading):
    """The payload as written; where it has a fault (FORMATS.md, 2.5), that is noted."""
    if tag in (DOCUMENT, ARRAY):
        return written_level(part, level + 1, reading, tag)
    if tag == REGEX:
        return written_regex(part, reading)
    if tag == SCOPED:
        return written_scoped(part, level, reading)
    if tag in TEXTS and not is_utf8(part[4:-1]):
        reading.causes.append("text not UTF-8")
    if tag == POINTER and not is_utf8(part[4:-13]):
        reading.causes.append("namespace not UTF-8")
    if tag == BOOLEAN and part[0] > 1:
        reading.causes.append("boolean over 1")
    if tag == DATE and not FIRST_DATE <= struct.unpack("<q", part)[0] <= LAST_DATE:
        reading.features.add("date outside the years 1 to 9999")
    if tag == BINARY:
        look_at_binary(part, reading)
    return part


def look_at_binary(part, reading):
    if part[4] in (OLD_UUID, UUID) and len(part) != 21:
        reading.features.add("UUID of other than 16 bytes")
    if part[4] == OLD_BINARY and (len(part) < 9 or number_at(part, 5) != len(part) - 9):
        reading.causes.append("old binary with another inner length")


def written_regex(part, reading):
    pattern, letters = part[:-1].split(b"\0")
    ordered = "".join(sorted(letters.decode())).encode()
    if ordered != letters:
        reading.changes.add("options in another order")
    return pattern + b"\0" + ordered + b"\0"


def written_scoped(part, level, reading):
    if len(part) < 14:
        reading.causes.append("scope of fewer than 14 bytes")
        return part
    try:
        end = closed(part, 4, 1, 4, "code before a scope")
        scope_end = closed(part, end, 5, 0, "document")
        if scope_end != len(part):
            raise Structural("bytes behind a scope")
    except Structural as fault:
        reading.causes.append(str(fault))
        return part
    if not is_utf8(part[8:end - 1]):
        reading.causes.append("text not UTF-8")
    scope = written_level(part[end:], level + 1, reading, SCOPED)
    return struct.pack("<i", end + len(scope)) + part[4:end] + scope


def envelope_kind(data, is_slice):
    """The first of kinds 5 to 8 (SCOPE.md, 7.3), if there is one."""
    if len(data) < 4:
        return "EndInside"
    length = struct.unpack_from("<i", data)[0]
    if length < 5 or length > LONGEST or is_slice and length < len(data):
        return "BadLength"
    if len(data) < length:
        return "EndInside"
    return "NotTerminated" if data[length - 1] else None


def read(data):
    """What the pages say of the bytes of one document."""
    reading = Reading()
    kind = envelope_kind(data, is_slice=True)
    if kind:
        reading.causes, reading.kinds = [f"outermost: {kind}"], {kind}
        return reading
    reading.written = written_level(data, 1, reading)
    if reading.causes:
        reading.kinds = {"Faulty"}
    if reading.levels > DEEPEST:
        reading.causes.append("more than 100 levels")
        reading.kinds = (reading.kinds or set()) | {"TooDeep"}
    if reading.identity is None:
        reading.causes.append("no _id")
        reading.kinds = reading.kinds or {"NoId"}
    if len(reading.written) > LONGEST:
        reading.causes.append("too long as written")
        reading.kinds = reading.kinds or {"TooLong"}
    return reading
