"""Tags that the o5c writer's hash puts into one bucket, or gives one hash, made from the hash's definition, and
ordinary tags of the same sizes. A tag is a key of 6 bytes and a value of 39; a short one has 2 and 8."""

import bisect
import itertools
import os
import random
import subprocess
from collections.abc import Callable
from typing import NamedTuple

KEY, SHORT_KEY = b"choice", b"ke"
MODULUS = 1 << 64
# The polynomial's factor, the number that spreads its high bits, and how many buckets there are.
FACTOR = 1_099_511_628_211
SPREAD = 11_400_714_819_323_198_485
BUCKETS = 1 << 15

# The bytes of a value that OPL writes bare.
BARE = frozenset(range(0x21, 0x7f)) - frozenset(b",=@%")
LETTERS = b"ABCDEFGHIJKLMNOPQRSTUVWXYZabcdefghijklmnopqrstuvwxyz0123456789"
LAST = b"_chosen"


def words(text):
    return [int.from_bytes(text[i:i + 8], "little") for i in range(0, len(text) - 7, 8)]


def polynomial(text):
    """The polynomial of a string of at least eight bytes, in its whole words and then its last eight bytes."""
    total = 0
    for word in words(text) + [int.from_bytes(text[-8:], "little")]:
        total = (total * FACTOR + word) % MODULUS
    return total


def bucket(text):
    return (polynomial(text) * SPREAD % MODULUS) // (MODULUS // BUCKETS)


def in_line(value, key=KEY):
    """The string that the writer looks up: with the longer key, words 1 to 4 of it are the value's first 32 bytes."""
    return b"\0" + key + b"\0" + value + b"\0"


def ordinary(count):
    """Values of random letters and digits. Their ends differ, unlike those of the chosen ones."""
    chosen = random.Random(1)
    return [bytes(chosen.choices(LETTERS, k=39)) for _ in range(count)]


def in_one_bucket(first, second, make, key):
    """Values `make(one, other)` whose buckets agree. What the two parts add to the spread polynomial is a sum, so that
    it is sorted for the second, and for each first one those that reach the bucket are found by bisection."""
    none = bytes(len(next(iter(first)))), bytes(len(next(iter(second))))
    base = polynomial(in_line(make(*none), key))

    def spread(one, other):
        return (polynomial(in_line(make(one, other), key)) - base) * SPREAD % MODULUS

    added = sorted((spread(none[0], other), other) for other in second)
    numbers = [number for number, _ in added]
    width = MODULUS // BUCKETS
    for one in first:
        start = -(base * SPREAD + spread(one, none[1])) % MODULUS
        i = bisect.bisect_left(numbers, start)
        while i < len(numbers) and numbers[i] < start + width:
            yield make(one, added[i][1])
            i += 1


def parts(chosen, bare, size, count):
    """So many different parts that the pairs of two such sets reach one bucket `count` times."""
    return {bytes(chosen.choices(bare, k=size)) for _ in range(2 * int((count * BUCKETS) ** 0.5))}


def of_one_bucket(count):
    """Values whose buckets agree, each hash another: their first two words differ."""
    chosen = random.Random(2)
    first, second = (parts(chosen, LETTERS, 8, count) for _ in range(2))
    made = in_one_bucket(first, second, lambda one, other: one + other + b"x" * 16 + LAST, KEY)
    return list(itertools.islice(made, count))


def short(count):
    """Short values of random characters."""
    chosen = random.Random(3)
    return [bytes(chosen.choices(sorted(BARE), k=8)) for _ in range(count)]


def short_of_one_bucket(count):
    """Short values whose buckets agree."""
    chosen = random.Random(4)
    first, second = (parts(chosen, sorted(BARE), 4, count) for _ in range(2))
    return list(itertools.islice(in_one_bucket(first, second, lambda one, other: one + other, SHORT_KEY), count))


def pairs_of_words():
    """Pairs of words of one sum `first * FACTOR + second`. The factor is 2^40 + 435, so 2^24 more in the first word
    are made up for by 435 * 2^24 less in the second; the same holds for each higher byte."""
    first = int.from_bytes(b"AAAAAAAA", "little")
    second = int.from_bytes(b"zzzzzzzz", "little")
    for steps in itertools.product((0, 3, 6, 9), repeat=5):
        more = sum(step << (24 + 8 * i) for i, step in enumerate(steps))
        pair = (((first + more) % MODULUS).to_bytes(8, "little")
                + ((second - more * FACTOR) % MODULUS).to_bytes(8, "little"))
        if BARE.issuperset(pair):
            yield pair


def of_one_hash(count):
    """Values whose polynomials agree, and so all bits of their hashes."""
    pairs = list(pairs_of_words())
    return [one + other + LAST for one, other in itertools.islice(itertools.product(pairs, pairs), count)]


class Sort(NamedTuple):
    """How values of a sort are made, how many different ones, their key and size, and the ordinary sort beside it."""
    make: Callable
    count: int
    key: bytes = KEY
    size: int = 39
    beside: str = "ordinary"


SORTS = {
    "ordinary": Sort(ordinary, 16_000),
    "of one bucket": Sort(of_one_bucket, 16_000),
    "of one hash": Sort(of_one_hash, 16_000),
    "short": Sort(short, 300_000, SHORT_KEY, 8, "short"),
    "short, of one bucket": Sort(short_of_one_bucket, 300_000, SHORT_KEY, 8, "short"),
}


def values(name, count):
    """`count` different values of a sort, which is tested."""
    sort = SORTS[name]
    made = sort.make(count)
    assert len(set(made)) == count and all(len(value) == sort.size and BARE.issuperset(value) for value in made), name
    assert "one bucket" not in name or len({bucket(in_line(value, sort.key)) for value in made}) == 1
    assert name != "of one hash" or len({polynomial(in_line(value)) for value in made}) == 1
    return made


def write(path, size, key, made):
    """A file in OPL of about `size` bytes: nodes of 400 tags, which take the values in turn."""
    turn = itertools.cycle(value.decode("ascii") for value in made)
    with open(path, "w", encoding="ascii") as out:
        written = number = 0
        while written < size:
            number += 1
            tags = ",".join(f"{key.decode()}={value}" for value in itertools.islice(turn, 400))
            written += out.write(f"n{number} v1 dV c1 t2024-01-01T00:00:00Z i1 uann T{tags} x1 y2\n")


def processor_seconds(program, path):
    """The processor time of a conversion to o5c, whose file is removed. User and system time are counted together:
    the kernel tells them apart by the ticks of a clock, of which a short run has few."""
    out = path.with_suffix(".o5c")
    child = subprocess.Popen([str(program), "convert", str(path), str(out)])
    _, status, usage = os.wait4(child.pid, 0)
    child.returncode = os.waitstatus_to_exitcode(status)
    if child.returncode != 0:
        raise subprocess.CalledProcessError(child.returncode, f"convert {path.name}")
    out.unlink()
    return usage.ru_utime + usage.ru_stime


def times(program, files, runs):
    """The least processor seconds of each file's conversion; the files take turns."""
    least = dict.fromkeys(files, float("inf"))
    for _ in range(runs):
        for sort, path in files.items():
            least[sort] = min(least[sort], processor_seconds(program, path))
    return least
