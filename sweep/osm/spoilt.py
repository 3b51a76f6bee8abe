"""Spoils inputs: bytes changed, cut, doubled and joined, lines shuffled, numbers at their limits and one off them,
words of one format in another, and o5c datasets whose lengths are right again after their contents were changed."""

import re

from osm.vectors import dataset, varint

LIMITS = sorted({limit + off for limit in (0, 1, 64, 128, 250, 15_000, 32_000, 100_000, 900_000_000, 999_999_999,
                                           1_800_000_000, 1 << 31, 1 << 32, 1 << 62, 1 << 63, 1 << 64, 10**19)
                 for off in (-1, 0, 1)})
BYTES = b"\x00\x01\x7f\x80\xfe\xff\n\r\t %=,@-.#0129VDTNMnwrxy"
WORDS = (b"sequenceNumber=", b"timestamp=2024-01-01T00\\:00\\:00Z\n", b"\xff\xe0\x04o5c2", b"\xff\xe0\x04o5m2", b"\xff",
         b"\xfe", b"number 1\n", b"n1 v1 dD c1 t2024-01-01T00:00:00Z i1 u T x y\n", b"deliver 1 o5c\n", b"\r\n",
         b"\xef\xbb\xbf", b"%", b"%10ffff%", b"%110000%", b"\xc3", b"\xed\xa0\x80", b"NaN", b"1e9", b"+1",
         b"0" * 19 + b"1")
NUMBER = re.compile(rb"[0-9]+")
OBJECTS = b"\x10\x11\x12"


def change_byte(draws, data, other):
    at = draws.number(0, len(data) - 1)
    return data[:at] + bytes([draws.pick(*BYTES)]) + data[at + 1:]


def flip_bit(draws, data, other):
    at = draws.number(0, len(data) - 1)
    return data[:at] + bytes([data[at] ^ 1 << draws.number(0, 7)]) + data[at + 1:]


def cut_end(draws, data, other):
    return data[:draws.number(0, len(data) - 1)]


def slice_of(draws, data):
    begin = draws.number(0, len(data) - 1)
    return begin, min(len(data), begin + draws.pick(1, 2, 5, 20, 100))


def cut_slice(draws, data, other):
    begin, end = slice_of(draws, data)
    return data[:begin] + data[end:]


def double_slice(draws, data, other):
    begin, end = slice_of(draws, data)
    return data[:end] + data[begin:]


def insert_slice(draws, data, other):
    if not other:
        return data
    begin, end = slice_of(draws, other)
    at = draws.number(0, len(data) - 1)
    return data[:at] + other[begin:end] + data[at:]


def insert_word(draws, data, other):
    at = draws.number(0, len(data))
    return data[:at] + draws.pick(*WORDS) + data[at:]


def join(draws, data, other):
    return draws.pick(data + other, other + data, data + data)


def shuffle_lines(draws, data, other):
    lines = data.splitlines(keepends=True)
    return b"".join(draws.sample(lines, len(lines)))


def number_at_limit(draws, data, other):
    numbers = list(NUMBER.finditer(data))
    if not numbers:
        return data
    number = draws.pick(*numbers)
    return data[:number.start()] + str(draws.pick(*LIMITS)).encode() + data[number.end():]


def read_varint(data, at):
    """The number there and what follows it, or None."""
    number = 0
    for i in range(10):
        if at + i >= len(data):
            return None
        number |= (data[at + i] & 127) << 7 * i
        if data[at + i] < 128:
            return number, at + i + 1
    return None


def datasets(data):
    """The type and the contents of each o5c dataset; the contents are None for one without a length."""
    at, found = 0, []
    while at < len(data):
        kind, at = data[at], at + 1
        if kind >= 0xf0:
            found.append((kind, None))
            continue
        length = read_varint(data, at)
        if length is None:
            break
        size, at = length
        found.append((kind, data[at:at + size]))
        at += size
    return found


def joined(parts):
    return b"".join(bytes([kind]) if contents is None else dataset(kind, contents) for kind, contents in parts)


def spoil_dataset(draws, data, other):
    """Spoils the contents of an o5c dataset, or puts it elsewhere; the lengths are right afterwards."""
    parts = datasets(data)
    objects = [i for i, (kind, contents) in enumerate(parts) if kind in OBJECTS and contents]
    if not objects:
        return data
    i = draws.pick(*objects)
    kind, contents = parts[i]
    choice = draws.number(0, 5)
    if choice == 0:
        parts.insert(draws.number(0, len(parts) - 1), parts.pop(i))
    elif choice == 1:
        parts.insert(draws.number(0, len(parts) - 1), (0xff, None))
    elif choice == 2:
        parts[i] = (draws.pick(*OBJECTS), contents)
    elif choice == 3:
        at = draws.number(0, len(contents))
        parts[i] = (kind, contents[:at] + varint(draws.pick(*LIMITS) % (1 << 64)) + contents[at:])
    else:
        parts[i] = (kind, draws.pick(*PLAIN)(draws, contents, other))
    return joined(parts)


def length_at_limit(draws, data, other):
    """Another length before the contents of an o5c dataset, which stay."""
    parts = datasets(data)
    places = [i for i, (_, contents) in enumerate(parts) if contents is not None]
    if not places:
        return data
    i = draws.pick(*places)
    kind, contents = parts[i]
    length = draws.pick(len(contents) - 1, len(contents) + 1, draws.pick(*LIMITS))
    return joined(parts[:i]) + bytes([kind]) + varint(max(length, 0) % (1 << 64)) + contents + joined(parts[i + 1:])


PLAIN = (change_byte, flip_bit, cut_end, cut_slice, double_slice, insert_slice, insert_word)
TEXT = PLAIN + (join, shuffle_lines, number_at_limit, number_at_limit, number_at_limit)
O5C = PLAIN + (join, spoil_dataset, spoil_dataset, spoil_dataset, length_at_limit)


def spoilt(draws, data, other, is_o5c):
    """The input with up to three spoilings, one of them most often. Seldom a line or a dataset is left out before."""
    data = joined(draws.left(datasets(data))) if is_o5c else b"".join(draws.left(data.splitlines(keepends=True)))
    for _ in range(draws.pick(1, 1, 1, 2, 3)):
        if data:
            data = draws.pick(*(O5C if is_o5c else TEXT))(draws, data, other)
    return data
