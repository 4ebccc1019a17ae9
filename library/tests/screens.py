"""Compares parts on a printer's screen with a slicer of this test's own, by fractions alone, at the true centres of the pixels.

    screens.py PARTS [SEED]

Each part is a random closed mesh, opened from arrays, and each third from a binary file. It stands on screens with pixels of many
sides, square or not, whole or not, turned by each quarter. Its images, areas and voxels, where it stands, and how many layers it
has, are those that its own facets give, turned, and not multiplied. What does not fit, or has an open edge, is refused with the line
that its own sizes and points give.
"""

import math
import random
import struct
import sys
from collections import Counter
from fractions import Fraction

import stlslice
from random_parts import random_part

RULES = {"evenodd": lambda count: count % 2 != 0, "nonzero": lambda count: count != 0, "positive": lambda count: count > 0}
# as they are told, and the sides of the pixels in micrometres
PITCHES = [((19, 24), (19, 24)), (47.25, ("47.25", "47.25")), (Fraction(120960, 2560), ("47.25", "47.25")), ("18.5", ("18.5", "18.5")),
           (50, (50, 50)), ((24.8, "22"), ("24.8", 22)), ((Fraction(100, 3), Fraction(250, 7)), ("100/3", "250/7")),
           ([30, 10.5], (30, "10.5")), ((7, 64), (7, 64)), (["28.5", 19], ("28.5", 19))]
HALF = Fraction(1, 2)


def along_axes(dice, span, sides):
    """The facets of a box, in the middle or elsewhere, whose faces are halves of pixels apart, so that many go through centres."""
    ends, is_in_middle = [], dice.random() < 0.5
    for side in (*sides, Fraction(20)):
        most = max(1, int(2 * span / side))
        low, high = sorted(dice.sample(range(-most, most + 1), 2))
        ends.append([math.floor(it * side / 2) for it in ((-max(-low, high), max(-low, high)) if is_in_middle else (low, high))])
    corners = [[ends[axis][place >> axis & 1] for axis in range(3)] for place in range(8)]
    return [[corners[int(it)] for it in facet] for facet in "023 031 457 476 015 054 267 273 046 062 137 175".split()]


def turned(facets, quarters):
    """Facets after so many quarter turns, counterclockwise from above."""
    for _ in range(quarters):
        facets = [[(-y, x, z) for x, y, z in facet] for facet in facets]
    return [[tuple(corner) for corner in facet] for facet in facets]


def cut(facets, height):
    """Where facets cut a plane: for each the point on its edge that leads up, and on the one that leads down. Corners on the plane
    are below it."""
    for facet in facets:
        above = [z > height for _, _, z in facet]
        ends = {}
        for at in range(3):
            if above[at - 1] != above[at]:
                (x, y, z), (u, v, w) = facet[at - 1], facet[at]
                share = Fraction(height - z, w - z)
                ends[above[at]] = (x + (u - x) * share, y + (v - y) * share)
        if ends:
            yield ends[True], ends[False]


def before(place, start, side):
    """How many of the centres of pixels, from `start` on, come before a place."""
    return math.ceil((place - start) / side - HALF)


def crossings(facets, height, screen, had):
    """For each pixel, by row from the least y and by column, how often the facets are crossed by the ray along x from its centre:
    once more for each that it leaves, once less for each that it enters. A cut on the ray's line is at a lesser y, and a
    crossing at the centre is behind it."""
    (left, front), (width, depth), (columns, rows) = screen
    # for each row: by how much the crossings of the first pixels change, by the number of these pixels
    changes = [Counter() for _ in range(rows)]
    for (x, y), (u, v) in cut(facets, height):
        for j in range(max(0, before(min(y, v), front, depth)), min(rows, before(max(y, v), front, depth))):
            line = front + depth * (j + HALF)
            crossed = x + (u - x) * (line - y) / (v - y)
            had["crossings on a centre"] += ((crossed - left) / width - HALF).denominator == 1
            changes[j][before(crossed, left, width)] += 1 if y > v else -1
    return [[sum(change for first, change in row.items() if i < first) for i in range(columns)] for row in changes]


def packed(counts, rule):
    """The image of a layer in raw PBM."""
    data = f"P4\n{len(counts[0])} {len(counts)}\n".encode()
    for row in reversed(counts):
        bits = "".join("1" if RULES[rule](count) else "0" for count in row)
        bits += "0" * (-len(bits) % 8)
        data += int(bits, 2).to_bytes(len(bits) // 8, "big")
    return data


def open_edge(facets, turn):
    """The line for the least pair of points, as the facets stand, between which they have not as many edges there as back, or none.
    The points are told as they were before the turn."""
    edges = Counter((facet[at - 1], facet[at]) for facet in turned(facets, turn) for at in range(3))
    pairs = sorted({(min(edge), max(edge)) for edge in edges if edges[edge] != edges[edge[::-1]]})
    for one, other in pairs[:1]:
        words = " to ".join(" ".join(map(str, point)) for point in turned([(one, other, other)], -turn % 4)[0][:2])
        return 4, f"stlslice: open edge {words} there {edges[one, other]} back {edges[other, one]}"


def too_large(size, sides, canvas):
    """The line for a part that does not fit, or none."""
    told = [math.floor(side * count) for side, count in zip(sides, canvas)]
    if any(length > side * count for length, side, count in zip(size, sides, canvas)):
        helps = size[1] <= told[0] and size[0] <= told[1]
        return 9, (f"stlslice: part does not fit: {size[0]} x {size[1]} micrometres on a screen of {told[0]} x {told[1]}; "
                   f"turned by a quarter it {'fits' if helps else 'does not fit either'}")


def boxed(facets):
    columns = list(zip(*(corner for facet in facets for corner in facet)))
    return tuple(map(min, columns)), tuple(map(max, columns))


def opened(facets, pitch, layer, rule, canvas, turn=0, as_file=False):
    """A mesh of facets from arrays, or from a binary file in millimetres, or its fault as status and line."""
    points = [corner for facet in facets for corner in facet]
    try:
        if as_file:
            numbers = (struct.pack("<12fH", 0, 0, 0, *(it / 1000 for corner in facet for it in corner), 0) for facet in facets)
            data = bytes(80) + struct.pack("<I", len(facets)) + b"".join(numbers)
            return stlslice.open(data, pitch, layer, rule, canvas=canvas, turn=turn)
        triangles = [(at, at + 1, at + 2) for at in range(0, len(points), 3)]
        return stlslice.open_mesh(points, triangles, pitch, layer, rule, canvas=canvas, turn=turn)
    except stlslice.Fault as fault:
        assert isinstance(fault, stlslice.FitFault) == (fault.status == 9)
        return fault.status, fault.line


def compare(dice, had, as_file):
    """Holds a random part, in each turn, against this test's own slicer."""
    span = dice.choice((60, 200, 600))
    pitch, sides = dice.choice(PITCHES)
    sides = [Fraction(it) for it in sides]
    facets = random_part(dice, span) if dice.random() < 0.6 else along_axes(dice, span, sides)
    facets += along_axes(dice, span, sides) if dice.random() < 0.5 else []
    if dice.random() < 0.1:
        facets.pop()
    kept = [it for it in facets if all(it[at - 1] != it[at] for at in range(3))]
    # the least whole number that is a whole number of both sides, and how many these are
    one, other = (it.numerator for it in sides)
    common = one * other // math.gcd(one, other)
    times = tuple(int(common / it) for it in sides)
    layer, rule = dice.randint(span // 6, 3 * span), dice.choice(list(RULES))
    for turn in range(4):
        part = turned(kept, turn)
        low, high = boxed(part)
        size = [high[at] - low[at] for at in range(2)]
        spare = dice.choice((-1, 0, 0, 1, 2, 9))
        # now and then a canvas for the part with a quarter turn more
        room = size[::-1] if dice.random() < 0.15 else size
        canvas = [max(1, math.ceil(length / side) + dice.randint(min(spare, 0), max(spare, 0))) for length, side in zip(room, sides)]
        mesh = opened(facets, pitch, layer, rule, canvas, turn, as_file)
        fault = open_edge(facets, turn) or too_large(size, sides, canvas)
        if fault or isinstance(mesh, tuple):
            assert mesh == fault, (mesh, fault)
            had[f"refused with status {fault[0]}{', and turning helps' if fault[1].endswith('it fits') else ''}"] += 1
            continue
        # twice the height of the middle of each layer that is below the top
        middles = [2 * low[2] + layer * (2 * k + 1) for k in range(20)]
        middles = [it for it in middles if it < 2 * high[2]] or middles[:1]
        start = [math.floor((Fraction(low[at] + high[at]) - canvas[at] * sides[at]) / 2 * times[at]) for at in range(2)]
        with mesh:
            assert (mesh.pitch, mesh.times, mesh.layer) == (common, times, layer), (mesh.pitch, mesh.times)
            assert (mesh.shape, mesh.origin) == ((len(middles), *canvas[::-1]), (*start, low[2])), (mesh.shape, mesh.origin)
            assert mesh.box == (len(facets), *boxed(facets)), mesh.box
            screen = [Fraction(it, by) for it, by in zip(start, times)], sides, canvas
            layers = [crossings(part, Fraction(twice, 2), screen, had) for twice in middles]
            for k, counts in enumerate(layers):
                assert mesh.image(k) == packed(counts, rule), (turn, k)
                i, j = dice.randrange(canvas[0]), dice.randrange(canvas[1])
                assert mesh.probe(i, j, k)[0] == counts[j][i], (turn, i, j, k)
            for it, fills in RULES.items():
                assert mesh.areas(it) == [sum(map(fills, sum(counts, []))) for counts in layers], (turn, it)
        had["images of files" if as_file else "images"] += len(layers)


def at_the_limits():
    """What is refused of a screen, and of a part by where it is and how high."""
    def cube(x, size=1000, height=1000):
        a, b, c, d = (x, 0, 0), (x + size, 0, 0), (x, size, 0), (x, 0, height)
        return [(a, c, b), (a, b, d), (a, d, c), (b, c, d)]

    far, many = "part too far from the origin for ", "no whole number of micrometres up to 100000 is a multiple of both sides of a pixel"
    for facets, pitch, layer, canvas, turn, wanted in (
        (cube(0), 50, 50, (0, 9), 0, (1, "screen has no pixels")),
        (cube(0), 50, 50, (16385, 9), 0, (1, "screen too large: 16385 columns, 9 rows")),
        (cube(0), (99991, 99989), 50, (9, 9), 0, (1, many)),
        (cube(0), "0.0000000001", 50, (9, 9), 0, (1, "pitch is out of its range")),
        (cube(0), float("nan"), 50, (9, 9), 0, (1, "pitch is out of its range")),
        (cube(0), 50, 0, (99, 99), 0, (1, "pitch and layer height take 1 to 100000 micrometres")),
        (cube(32000001), "47.25", 50, (99, 99), 0, (5, f"{far}these pixels")),
        (cube(127998000), 50, 50, (99, 99), 1, (5, f"{far}this screen")),
        (cube(0, height=70000), 50, 1, (99, 99), 3, (5, "part too high: 70000 layers")),
        ([((0, 0, 0), (0, 0, 0), (1, 1, 1))], 50, 1, (99, 99), 0, (5, "no facet is left")),
        ([], 50, 50, (99, 99), 0, (5, "no facet is left")),
        (cube(0), 50, 50, (20, 20), 4, (1, "a number is out of its range, or outside the grid")),
    ):
        found = opened(facets, pitch, layer, "evenodd", canvas, turn)
        assert found == (wanted[0], f"stlslice: {wanted[1]}"), (found, wanted)
    assert opened(cube(31000000), "47.25", 50, "evenodd", (99, 99)).times == (4, 4)


def main():
    parts, seed = int(sys.argv[1]), int(sys.argv[2]) if len(sys.argv) > 2 else 1
    had = Counter()
    for number in range(parts):
        try:
            compare(random.Random(seed * 1000003 + number), had, number % 3 == 2)
        except AssertionError as wrong:
            sys.exit(f"screens.py: part {number} of seed {seed}: {wrong}")
    at_the_limits()
    wanted = ("images", "images of files", "crossings on a centre", "refused with status 4", "refused with status 9",
              "refused with status 9, and turning helps")
    if parts >= 300 and any(had[it] < 20 for it in wanted):
        sys.exit(f"screens.py: too few {[it for it in wanted if had[it] < 20]}")
    print(f"Python: {parts} random parts on screens: {', '.join(f'{count} {what}' for what, count in sorted(had.items()))}")


if __name__ == "__main__":
    main()
