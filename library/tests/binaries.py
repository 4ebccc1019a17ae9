"""Compares the library on random binary files with a reader of this test's own: the same box and the same mesh, or the same fault.

    binaries.py FILES [SEED]

The numbers are hostile: NaNs, infinities, subnormal numbers, -0, halves of a micrometre, and what is just in or out of range. So
are counts and lengths: a file whose count is not that of its facets is a text.
"""

import gc
import math
import random
import re
import struct
import sys
from collections import Counter
from fractions import Fraction

import stlslice

LIMIT, FARTHEST = 1048576, 128000000
FACTORS = {"mm": 1000, "inch": 25400, "cm": 10000, "m": 1000000}
RULES = ("evenodd", "nonzero", "positive")
FACET = "facet normal 0 0 0 outer loop vertex {} {} {} vertex {} {} {} vertex {} {} {} endloop endfacet\n"
# the bits of: zeros; subnormal numbers; the least normal ones; the greatest; infinities; NaNs, quiet and signalling; 1e38; 128,000
# and -128,000 with their neighbours; about 5039.37 and -5039.37, the end of the range in inches, 12,800 and 128, in centimetres and
# metres; half a micrometre, and a sixteenth of a millimetre, with their neighbours
HOSTILE = [0, 1 << 31, 1, 0x7fffff, 0x807fffff, 0x800000, 0x80800000, 0x7f7fffff, 0xff7fffff, 0x7f800000, 0xff800000, 0x7fc00000,
           0xffc00000, 0x7f800001, 0xff800001, 0x7e967699]
HOSTILE += [at + step for at in (0x47fa0000, 0xc7fa0000, 0x459d7af6, 0xc59d7af6, 0x46480000, 0x43000000, 0x3a03126f, 0xba03126f, 0x3d800000, 0xbd800000)
            for step in (-1, 0, 1)]


def nearest(exact):
    """The nearest whole number, halves away from zero."""
    size = math.floor(abs(exact) + Fraction(1, 2))
    return size if exact >= 0 else -size


def coordinate(bits, factor):
    """The coordinate of 32 bits in micrometres, or why there is none."""
    number, = struct.unpack("<f", struct.pack("<I", bits))
    if math.isnan(number):
        return None, "not a number"
    if math.isinf(number):
        return None, "infinite"
    rounded = nearest(Fraction(number) * factor)
    return (rounded, None) if abs(rounded) <= FARTHEST else (None, "out of range")


def refused_text(data):
    """The line for bytes that are read as a text, if there are no facets in them."""
    word = re.search(rb"[^\t-\r ]+", data)
    if word is None:
        return "input ended before solid"
    if word[0].lower() != b"solid":
        return f"expected solid at byte {word.start()}"
    name = re.compile(rb"[^\n\r]*[\n\r]\s*").match(data, word.end())
    if name is None or name.end() == len(data):
        return "input ended before facet or endsolid"
    return f"expected facet or endsolid at byte {name.end()}"


def read(data, factor):
    """The corners of a file's facets, one after the other, or the line of its fault."""
    count = struct.unpack_from("<I", data, 80)[0] if len(data) >= 84 else None
    if count is None or len(data) != 84 + 50 * count:
        return None, refused_text(data)
    if count > LIMIT:
        return None, f"too many facets: {count}"
    corners = []
    for facet in range(count):
        numbers = struct.unpack_from("<9I", data, 84 + 50 * facet + 12)
        for place, bits in enumerate(numbers):
            found, wrong = coordinate(bits, factor)
            if wrong:
                return None, f"{'xyz'[place % 3]} of corner {place // 3} of facet {facet}: {wrong}"
            corners.append(found)
    return [tuple(corners[at:at + 3]) for at in range(0, len(corners), 3)], None


def bits_of(number):
    return struct.unpack("<I", struct.pack("<f", number))[0]


def a_number(dice, hostility):
    if dice.random() < hostility:
        return dice.choice(HOSTILE) if dice.random() < 0.8 else dice.getrandbits(32)
    return bits_of(dice.choice((dice.randint(-40, 40) / 16, dice.uniform(-3, 3), dice.randint(-3000, 3000) / 1000)))


def a_mesh(dice):
    """The corners of some tetrahedra as bits, closed unless a facet is left out or turned."""
    hostility = dice.choice((0, 0, 0, 0.03, 0.2))
    facets = []
    for _ in range(dice.randrange(4)):
        a, b, c, d = ([a_number(dice, hostility) for _ in range(3)] for _ in range(4))
        facets += [(a, b, c), (a, c, d), (a, d, b), (b, d, c)]
    if facets and dice.random() < 0.1:
        facets.pop(dice.randrange(len(facets)))
    if facets and dice.random() < 0.1:
        facets[-1] = facets[-1][::-1]
    if dice.random() < 0.1:
        facets.insert(0, ([0, 1 << 31, 0],) * 3)        # 0 and -0 are one number
    if facets and dice.random() < 0.1:
        facets[dice.randrange(len(facets))][dice.randrange(3)][dice.randrange(3)] = dice.choice(HOSTILE)
    return facets


def a_file(dice):
    """A binary file, whose count or length lies in some cases."""
    facets = a_mesh(dice)
    head = dice.choice((b"solid part".ljust(80), bytes(80), b" " * 80, bytes(dice.getrandbits(8) for _ in range(80)), b"SOLID\n".ljust(80, b"\r"), b"made by a tool".ljust(80)))
    count = len(facets) if dice.random() < 0.8 else dice.choice((0, 1, len(facets) + 1, abs(len(facets) - 1), 2**32 - 1, dice.getrandbits(32)))
    data = head + struct.pack("<I", count)
    for corners in facets:
        normal = [dice.choice(HOSTILE) for _ in range(3)]
        data += struct.pack("<12IH", *normal, *(bits for corner in corners for bits in corner), dice.getrandbits(16))
    if dice.random() < 0.1:
        data += bytes(dice.choice((1, 2, 49, 50, 84)))
    if dice.random() < 0.1:
        data = data[:max(0, len(data) - dice.choice((1, 2, 50, 51, 84, len(data))))]
    return data


def outcome(call, *words):
    """What a call returns, or its status and line."""
    try:
        return call(*words), None
    except stlslice.Fault as fault:
        return None, (fault.status, fault.line)


def box_of(corners):
    columns = list(zip(*corners)) or [(0,)] * 3
    return stlslice.Box(len(corners) // 3, tuple(map(min, columns)), tuple(map(max, columns)))


def compare(data, dice):
    """Holds the library against the reader for one file. Returns what it had: a fault of which status, or a mesh."""
    unit = dice.choice(("mm", "mm", *FACTORS))
    corners, wrong = read(data, FACTORS[unit])
    boxed = outcome(stlslice.box, data, unit)
    if wrong:
        fault = (None, (3, f"stlslice: {wrong}"))
        assert boxed == fault, (boxed, fault)
        assert outcome(stlslice.open, data, 50, 50, "evenodd", None, unit) == outcome(stlslice.read, data, unit) == fault
        return wrong.split(" at ")[0].split(": ")[-1]
    box = box_of(corners)
    assert boxed == (box, None), (boxed, box)
    facets = stlslice.read(data, unit)
    assert [tuple(map(int, corner)) for facet in facets for corner in facet] == corners, facets
    numbers = [struct.unpack_from("<9f", data, at) for at in range(96, len(data), 50)]
    told = stlslice.micrometres([it[at:at + 3] for it in numbers for at in (0, 3, 6)], unit)
    assert [tuple(map(int, point)) for point in told] == corners, told
    size = max(high - low for low, high in zip(box.low, box.high))
    setup = (min(100000, max(1, size // dice.choice((7, 30)))), min(100000, max(1, size // dice.choice((3, 20)))), dice.choice(RULES))
    triangles = [(at, at + 1, at + 2) for at in range(0, len(corners), 3)]
    mesh, fault = outcome(stlslice.open, data, *setup, None, unit)
    told, same = outcome(stlslice.open_mesh, corners, triangles, *setup)
    assert fault == same, (fault, same)
    if fault:
        return f"status {fault[0]}"
    with mesh, told:
        assert (mesh.box, mesh.shape, mesh.origin) == (box, told.shape, told.origin), (mesh.shape, told.shape)
        for k in dice.sample(range(len(mesh)), min(6, len(mesh))):
            assert mesh.area(k) == told.area(k) and mesh.image(k) == told.image(k), k
    return "a mesh"


def as_many_as_may_be():
    """The greatest number of facets of a mesh, and one more, told from the count. `stlslice.read` takes more, of texts too."""
    for count in (LIMIT, LIMIT + 1):
        found = outcome(stlslice.box, bytes(80) + struct.pack("<I", count) + bytes(50 * count))
        wanted = (None, (3, f"stlslice: too many facets: {count}")) if count > LIMIT else (stlslice.Box(count, (0,) * 3, (0,) * 3), None)
        assert found == wanted, (found, wanted)
    gc.disable()  # it would look at millions of tuples again and again
    zeros, last = (0,) * 9, tuple(range(9))
    binary = bytes(80) + struct.pack("<I", LIMIT + 1) + bytes(50 * LIMIT) + struct.pack("<12fH", 0, 0, 0, *last, 0)
    text = "solid\n" + FACET.format(*zeros) * LIMIT + FACET.format(*last) + "endsolid\n"
    for data in (binary, text.encode()):
        facets = stlslice.read(data)
        ends = [[int(it) for corner in facets[at] for it in corner] for at in (0, LIMIT)]
        assert (len(facets), ends) == (LIMIT + 1, [[*zeros], [1000 * it for it in last]]), (len(facets), ends)


def main():
    files, seed = int(sys.argv[1]), int(sys.argv[2]) if len(sys.argv) > 2 else 1
    had = Counter()
    for number in range(files):
        dice = random.Random(seed * 1000003 + number)
        data = a_file(dice)
        try:
            had[compare(data, dice)] += 1
        except AssertionError as wrong:
            sys.exit(f"binaries.py: file {number} of seed {seed}: {wrong}\n{data.hex()}")
    as_many_as_may_be()
    wanted = {"a mesh", "status 4", "status 5", "not a number", "infinite", "out of range", "expected solid", "expected facet or endsolid",
              "input ended before solid", "input ended before facet or endsolid"}
    if files >= 2000 and wanted - set(had):
        sys.exit(f"binaries.py: no file had {wanted - set(had)}")
    print(f"Python: {files} random binary files: {', '.join(f'{count} {what}' for what, count in sorted(had.items()))}")


if __name__ == "__main__":
    main()
