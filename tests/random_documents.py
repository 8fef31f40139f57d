"""Documents of all 21 kinds made at random, and damage to them, for tests/differential.py, tests/extended_json.py and
tests/fallowtime.py: `make_input` gives one input after the other.
"""
import decimal
import math
import struct

from bson import decimal128

from page_reader import (ARRAY, BINARY, BOOLEAN, CODE, DATE, DECIMAL, DEEPEST, DOCUMENT, DOUBLE, FIRST_DATE, INT64,
                         LAST_DATE, LONGEST, NULL, OBJECT_ID, OLD_BINARY, POINTER, REGEX, SCOPED, SIZES, STRING, SYMBOL,
                         TAGS, TEXTS)

# Documents as lists of elements. An element is [tag, key, payload]; the payload is bytes, for a text without length and
# 00, or a list of elements, or for some tags a list of parts.

PIECES = ["a", "b", "zed", " ", "é", "ß", "中", "😀", "\x7f", "\ufffd", "\uffff", "0", "7", "\t", '"', "\x01"]
LETTERS = ["i", "l", "m", "s", "u", "x", "é", "Z", "中"]
BAD_TEXTS = [b"\xff", b"\x80", b"\xc3", b"\xc0\x80", b"\xe0\x80\x80", b"\xed\xa0\x80", b"\xf4\x90\x80\x80",
             b"\xf0\x9f\x98", b"a\xfe"]
# What an old binary can have in place of its inner length and its bytes.
BAD_INNER = [b"", b"\0", bytes(3), struct.pack("<i", 1), struct.pack("<i", 3) + b"ab", struct.pack("<i", -1)]


def text(generator, longest=6, pieces=PIECES):
    return "".join(generator.choices(pieces, k=generator.randrange(longest))).encode()


def options(generator):
    return "".join(sorted(generator.choices(LETTERS, k=generator.randrange(4)))).encode()


def double(generator):
    patterns = [0, 1 << 63, 0x7FF8 << 48, 0xFFF8 << 48, 0x7FF0 << 48, (0x7FF0 << 48) + 1, generator.getrandbits(64)]
    return struct.pack("<Q", generator.choice(patterns))


def date(generator):
    if generator.random() < 0.05:
        return generator.randbytes(8)
    return struct.pack("<q", generator.choice([generator.randint(FIRST_DATE, LAST_DATE), FIRST_DATE, LAST_DATE, 0, -1]))


def binary(generator):
    subtype = generator.choice([*range(10), 0x0A, 0x7F, 0x80, 0xFF, OLD_BINARY, OLD_BINARY])
    bytes_in = generator.randbytes(generator.choice([0, 1, 5, 16]))
    return [subtype, struct.pack("<i", len(bytes_in)) + bytes_in if subtype == OLD_BINARY else bytes_in]


def payload(generator, tag, depth):
    if tag == DOUBLE:
        return double(generator)
    if tag == DATE:
        return date(generator)
    if tag == BOOLEAN:
        return bytes([generator.randrange(2)])
    if tag in SIZES:
        return generator.randbytes(SIZES[tag])
    if tag in TEXTS:
        return text(generator, pieces=PIECES + ["\0"])
    if tag == BINARY:
        return binary(generator)
    if tag == REGEX:
        return [text(generator), options(generator)]
    if tag == POINTER:
        return [text(generator), generator.randbytes(12)]
    if tag == SCOPED:
        return [text(generator), elements(generator, depth + 1)]
    return elements(generator, depth + 1, is_array=tag == ARRAY)


def elements(generator, depth, is_array=False):
    """A list in which every key stands once; of an array the keys of the places."""
    keys = {text(generator, 4) for _ in range(generator.randrange(8 if depth < 2 else 4))}
    keys = [str(place).encode() for place in range(len(keys))] if is_array else sorted(keys)
    if not is_array:
        generator.shuffle(keys)
    tags = TAGS if depth < 4 else [tag for tag in TAGS if tag not in (DOCUMENT, ARRAY, SCOPED)]
    return [[tag, key, payload(generator, tag, depth)] for key in keys for tag in [generator.choice(tags)]]


def whole(generator):
    """A document in written form. It has an `_id`, mostly unlike all others, and mostly as the first element."""
    made = elements(generator, 1)
    tag = generator.choice([OBJECT_ID, OBJECT_ID, INT64, STRING, generator.choice(TAGS)])
    value = generator.randbytes(12).hex().encode() if tag == STRING else payload(generator, tag, 1)
    made.insert(0 if generator.random() < 0.9 else generator.randint(0, len(made)), [tag, b"_id", value])
    return made


# Writing what was made, with the places in the bytes at which damage is worth while.

class Spots:
    """Where lengths, tags, closing 00s, texts, and whole elements with the end of each, stand in the bytes."""

    def __init__(self):
        self.lengths, self.tags, self.closings, self.texts, self.elements = [], [], [], [], []


def write_text(out, part, spots):
    spots.lengths.append(len(out))
    out += struct.pack("<i", len(part) + 1)
    spots.texts.append((len(out), len(out) + len(part)))
    spots.closings.append(len(out) + len(part))
    out += part + b"\0"


def write_run(out, part, spots):
    spots.texts.append((len(out), len(out) + len(part)))
    spots.closings.append(len(out) + len(part))
    out += part + b"\0"


def write_document(out, made, spots):
    begin = len(out)
    spots.lengths.append(begin)
    out += bytes(4)
    for tag, key, value in made:
        at = len(out)
        spots.tags.append(at)
        out.append(tag)
        write_run(out, key, spots)
        write_payload(out, tag, value, spots)
        spots.elements.append((at, len(out)))
    spots.closings.append(len(out))
    out.append(0)
    struct.pack_into("<i", out, begin, len(out) - begin)


def write_payload(out, tag, value, spots):
    if tag in TEXTS:
        write_text(out, value, spots)
    elif tag in (DOCUMENT, ARRAY):
        write_document(out, value, spots)
    elif tag == BINARY:
        spots.lengths.append(len(out))
        out += struct.pack("<i", len(value[1])) + bytes([value[0]])
        if value[0] == OLD_BINARY and len(value[1]) >= 4:
            spots.lengths.append(len(out))
        out += value[1]
    elif tag == REGEX:
        write_run(out, value[0], spots)
        write_run(out, value[1], spots)
    elif tag == POINTER:
        write_text(out, value[0], spots)
        out += value[1]
    elif tag == SCOPED:
        begin = len(out)
        spots.lengths.append(begin)
        out += bytes(4)
        write_text(out, value[0], spots)
        write_document(out, value[1], spots)
        struct.pack_into("<i", out, begin, len(out) - begin)
    else:
        out += value


def written(made):
    out, spots = bytearray(), Spots()
    write_document(out, made, spots)
    return bytes(out), spots


# What Extended JSON keeps of what is made.

def settle(generator, made):
    """Makes what JSON doesn't keep: what is not a number has a sign and no other bits, and a decimal has one form."""
    for element in made:
        tag, _, value = element
        if tag == DOUBLE and math.isnan(struct.unpack("<d", value)[0]):
            element[2] = struct.pack("<Q", 0x7FF8 << 48 | (value[7] & 0x80) << 56)
        elif tag == DECIMAL:
            digits = generator.randrange(10 ** generator.randrange(1, 34))
            number = decimal.Decimal((generator.randrange(2), tuple(map(int, str(digits))), generator.randrange(-6000, 6000)))
            element[2] = decimal128.Decimal128(number).bid
        elif tag in (DOCUMENT, ARRAY):
            settle(generator, value)
        elif tag == SCOPED:
            settle(generator, value[1])
    return made


# Damage to what is written: all lengths fit afterwards.

def lists_in(made):
    """The list itself and all lists of elements in it."""
    found = [made]
    for tag, _, value in made:
        if tag in (DOCUMENT, ARRAY):
            found += lists_in(value)
        elif tag == SCOPED:
            found += lists_in(value[1])
    return found


def elements_of(made, tags):
    return [element for part in lists_in(made) for element in part if element[0] in tags]


def chosen(generator, made, tag):
    """An element with that tag: one that is there, or a new one somewhere."""
    found = elements_of(made, [tag])
    if found:
        return generator.choice(found)
    place = generator.choice(lists_in(made))
    place.append([tag, b"new", payload(generator, tag, 3)])
    return place[-1]


def repeat_key(generator, made):
    parts = [part for part in lists_in(made) if part]
    if parts:
        part, tag = generator.choice(parts), generator.choice(TAGS)
        part.insert(generator.randint(0, len(part)), [tag, generator.choice(part)[1], payload(generator, tag, 3)])


def change_array_keys(generator, made):
    array = chosen(generator, made, ARRAY)[2]
    array.append([NULL, str(len(array)).encode(), b""])
    for item in generator.sample(array, generator.randint(1, len(array))):
        item[1] = generator.choice([b"", b"x", b"01", b"0", b"1", b"-1", b"_id", text(generator)])


def unsort_options(generator, made):
    chosen(generator, made, REGEX)[2][1] = "".join(generator.choices(LETTERS, k=3)).encode()


def break_text(generator, made):
    bad = generator.choice(BAD_TEXTS)
    tag = generator.choice([STRING, CODE, SYMBOL, POINTER, SCOPED, REGEX, None])
    if tag is None:
        generator.choice(elements_of(made, TAGS) or [[0, 0, 0]])[1] = bad
    elif tag in TEXTS:
        chosen(generator, made, tag)[2] = bad
    else:
        chosen(generator, made, tag)[2][generator.randrange(2) if tag == REGEX else 0] = bad


def break_boolean(generator, made):
    chosen(generator, made, BOOLEAN)[2] = bytes([generator.choice([2, 0x80, 0xFF])])


def break_old_binary(generator, made):
    chosen(generator, made, BINARY)[2] = [OLD_BINARY, generator.choice(BAD_INNER)]


def drop_id(generator, made):
    made[:] = [element for element in made if element[1] != b"_id"]


def deepen(generator, made):
    """Puts an element so far down that the levels are about as many as the page accepts."""
    inside = elements(generator, 4, is_array=True)
    for _ in range(generator.randint(DEEPEST - 5, DEEPEST + 2)):
        tag = generator.choice([DOCUMENT, ARRAY, SCOPED])
        inside = [[tag, b"0", [b"", inside] if tag == SCOPED else inside]]
    made += [[tag, b"deep", value] for tag, _, value in inside]


DAMAGE_TO_ELEMENTS = [repeat_key, change_array_keys, unsort_options, break_text, break_boolean, break_old_binary,
                      drop_id]


# Damage to bytes.

def flip_bit(generator, data, spots):
    data[generator.randrange(len(data))] ^= 1 << generator.randrange(8)


def change_byte(generator, data, spots):
    data[generator.randrange(len(data))] = generator.randrange(256)


def change_length(generator, data, spots):
    at = generator.choice(spots.lengths)
    length = struct.unpack_from("<i", data, at)[0]
    near = [length - 1, length + 1, length - 4, length + 4]
    other = generator.choice([*near, generator.randrange(-1, 300), 0, 2 ** 31 - 1, -2 ** 31])
    struct.pack_into("<i", data, at, max(-2 ** 31, min(other, 2 ** 31 - 1)))


def change_outer_length(generator, data, spots):
    near = [len(data) - 1, len(data) + 1, len(data) + 2]
    struct.pack_into("<i", data, 0, generator.choice([*near, -1, 0, 4, 5, LONGEST, LONGEST + 1]))


def swap_tag(generator, data, spots):
    data[generator.choice(spots.tags or [len(data) - 1])] = generator.choice([*TAGS, 0, 0x14, 0x7E, 0x80, 0xFE])


def miss_closing(generator, data, spots):
    data[generator.choice(spots.closings)] = generator.randrange(1, 256)


def break_utf8(generator, data, spots):
    begin, end = generator.choice(spots.texts)
    if begin < end:
        data[generator.randrange(begin, end)] = generator.choice([0, 0x80, 0xC0, 0xED, 0xF5, 0xFF])


def cut(generator, data, spots):
    del data[generator.randrange(len(data)):]


def insert(generator, data, spots):
    at = generator.randint(0, len(data))
    data[at:at] = generator.randbytes(generator.randint(1, 5))


def fit_outer(data):
    if len(data) >= 4:
        struct.pack_into("<i", data, 0, len(data))


def cut_inside(generator, data, spots):
    """Bytes go away somewhere, and the outer length fits again."""
    at = generator.randrange(4, len(data))
    del data[at:at + generator.randint(1, 5)]
    fit_outer(data)


def insert_inside(generator, data, spots):
    at = generator.randint(4, len(data) - 1)
    data[at:at] = generator.randbytes(generator.randint(1, 5))
    fit_outer(data)


def repeat_element(generator, data, spots):
    """An element's bytes stand twice, and the outer length fits again; that of a level inside doesn't."""
    begin, end = generator.choice(spots.elements or [(4, 4)])
    data[end:end] = data[begin:end]
    fit_outer(data)


DAMAGE_TO_BYTES = [flip_bit, change_byte, change_length, change_length, change_outer_length, swap_tag, miss_closing,
                   break_utf8, cut, insert, cut_inside, insert_inside, repeat_element]


def make_input(generator):
    """An input, and whether it was left whole: three tenths are; three tenths have damage to elements, most others to
    bytes, and a few to both.
    """
    made, lot = whole(generator), generator.random()
    if generator.random() < 0.02:
        deepen(generator, made)
    if 0.3 < lot < 0.65:
        for _ in range(generator.choice([1, 1, 2])):
            generator.choice(DAMAGE_TO_ELEMENTS)(generator, made)
    bytes_of, spots = written(made)
    data = bytearray(bytes_of)
    if lot > 0.6:
        for _ in range(generator.choice([1, 1, 1, 2])):
            # The spots of a second damage are gone where the first took bytes away.
            if len(data) > 5 and len(data) >= len(bytes_of):
                generator.choice(DAMAGE_TO_BYTES)(generator, data, spots)
    return bytes(data), lot <= 0.3
