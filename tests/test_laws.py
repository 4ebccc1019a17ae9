"""Laws of a slicer, each tried once with bundled parts: slabs joined are the whole; a part and its grid moved together,
facets in another order, and facets turned over give the same images; the rays of two parts together add, and so do
their areas if they share no voxel; and a box holds the centres on its near faces, and none on its far ones."""

import random
import re
from decimal import ROUND_HALF_UP, Decimal

from common import Case, example, same
from parts import box, layers_of, p4_images, text, turned_over

PARTS = ("bracket.stl", "calibration_block.stl", "helical_gear.stl", "supported.stl")
RULES = ("evenodd", "nonzero", "positive")
PITCH, LAYER = 400, 300


def micrometres(word):
    return int((Decimal(word) * 1000).quantize(Decimal(1), ROUND_HALF_UP))


def facets_of(name):
    with open(example(name)) as file:
        places = [tuple(map(micrometres, found)) for found in re.findall(r"vertex (\S+) (\S+) (\S+)", file.read())]
    return list(zip(places[::3], places[1::3], places[2::3]))


def millimetres(number):
    return "%s%d.%03d" % ("-" if number < 0 else "", *divmod(abs(number), 1000))


def moved(facets, by):
    return [tuple(tuple(at + step for at, step in zip(corner, by)) for corner in corners) for corners in facets]


class Grid:
    """A grid handed to the program: its counts of columns, rows and layers, its least corner, and the voxels' sizes."""

    def __init__(self, counts, origin, pitch=PITCH, layer=LAYER):
        self.counts, self.origin, self.pitch, self.layer = counts, origin, pitch, layer

    def words(self, rule="evenodd", *more):
        numbers = ",".join(map(str, (*self.counts, *self.origin)))
        return ["--pitch", str(self.pitch), "--layer", str(self.layer), "--rule", rule, f"--grid={numbers}", *more]

    def moved(self, by):
        return Grid(self.counts, tuple(at + step for at, step in zip(self.origin, by)), self.pitch, self.layer)

    def layers(self, first, end):
        """The grid of the layers from `first` up to, without, `end`."""
        columns, rows, _ = self.counts
        return Grid((columns, rows, end - first), self.origin, self.pitch, self.layer).moved((0, 0, first * self.layer))

    def voxels(self, seed, count):
        draw = random.Random(seed)
        return [tuple(draw.randrange(end) for end in self.counts) for _ in range(count)]


def grid_round(facets):
    """A grid with a voxel to spare on each side, whose centres lie on no face of the parts by design."""
    low, high = ([end(place[axis] for corners in facets for place in corners) for axis in range(3)] for end in (min, max))
    sizes = (PITCH, PITCH, LAYER)
    counts = tuple((b - a) // size + 3 for a, b, size in zip(low, high, sizes))
    return Grid(counts, tuple(a - size for a, size in zip(low, sizes)))


def bundled():
    for name in PARTS:
        facets = facets_of(name)
        yield name, facets, grid_round(facets)


def black(stream):
    """The filled voxels of a stream of images, as (layer, row of the image, column)."""
    layers = layers_of(stream)
    return {(k, j, i) for k, rows in enumerate(layers) for j, row in enumerate(rows) for i, bit in enumerate(row) if bit}


class Laws(Case):
    def sliced(self, facets, words):
        mesh = text([[tuple(map(millimetres, corner)) for corner in corners] for corners in facets])
        return self.room.out("stlslice", *words, input=mesh, text=False)

    def images(self, facets, grid, rule="evenodd"):
        return self.sliced(facets, grid.words(rule))

    def areas(self, facets, grid, rule):
        told = self.sliced(facets, grid.words(rule, "--report")).decode()
        return [int(area) for area in re.findall(r"(?m)^layer \d+ loops \d+ area (\d+)$", told)]

    def rays(self, facets, grid, voxel):
        told = self.sliced(facets, grid.words("evenodd", "--probe", ",".join(map(str, voxel)))).decode()
        found = re.fullmatch(r"voxel (\d+) (\d+) (\d+) x (-?\d+) y (-?\d+)\n", told)
        same(tuple(map(int, found.groups()[:3])), voxel, "the voxel of a probe")
        return int(found[4]), int(found[5])

    def test_slabs_joined_are_the_whole(self):
        for name, facets, grid in bundled():
            layers = grid.counts[2]
            cuts = sorted({0, 1, 8, layers // 2, layers - 1, layers})
            for rule in RULES:
                slabs = [self.images(facets, grid.layers(*ends), rule) for ends in zip(cuts, cuts[1:])]
                assert b"".join(slabs) == self.images(facets, grid, rule), f"{name} by {rule}: other bytes"
                empty = [not any(p4_images(slab)[0][2]) for slab in slabs[1:-1]]
                assert not any(empty), f"{name} by {rule}: a slab in the middle is empty"

    def test_mesh_and_grid_moved_together_give_the_same(self):
        ways = ((150, -250, 1), (1234567, -98765, 4321), (-77777777, 88888888, -99999999), (0, 0, 299))
        for (name, facets, grid), by in zip(bundled(), ways):
            there, grid_there = moved(facets, by), grid.moved(by)
            for rule in RULES:
                assert self.images(there, grid_there, rule) == self.images(facets, grid, rule), f"{name} by {rule}"
            assert self.images(there, grid) != self.images(facets, grid), f"{name}: the same where the grid stays"
            for voxel in grid.voxels(1, 3):
                same(self.rays(there, grid_there, voxel), self.rays(facets, grid, voxel), f"{name}: rays at {voxel}")

    def test_facets_in_another_order_give_the_same(self):
        for name, facets, grid in bundled():
            mixed = random.Random(5).sample(facets, len(facets))
            turned = [corners[n % 3:] + corners[:n % 3] for n, corners in enumerate(mixed)]
            for more in ((), ("--report",)):
                wanted = self.sliced(facets, grid.words("nonzero", *more))
                for other in (facets[::-1], mixed, turned):
                    assert self.sliced(other, grid.words("nonzero", *more)) == wanted, f"{name}: other bytes {more}"

    def test_facets_turned_over_give_the_same(self):
        for name, facets, grid in bundled():
            over = turned_over(facets)
            for rule in ("evenodd", "nonzero"):
                assert self.images(over, grid, rule) == self.images(facets, grid, rule), f"{name} by {rule}"
                same(self.areas(over, grid, rule), self.areas(facets, grid, rule), f"{name} by {rule}: areas")
            found = [self.rays(facets, grid, voxel) for voxel in grid.voxels(2, 12)]
            assert any(ray != (0, 0) for ray in found), f"{name}: all rays are 0"
            negated = [self.rays(over, grid, voxel) for voxel in grid.voxels(2, 12)]
            same(negated, [(-x, -y) for x, y in found], f"{name}: rays of facets turned over")

    def test_rays_of_two_meshes_add(self):
        one, two = facets_of("bracket.stl"), moved(facets_of("supported.stl"), (5003, -1999, -2501))
        grid = grid_round(one + two)
        first, second = black(self.images(one, grid)), black(self.images(two, grid))
        both = [(i, grid.counts[1] - 1 - j, k) for k, j, i in random.Random(6).sample(sorted(first & second), 8)]
        for voxel in both + grid.voxels(3, 16):
            (x, y), (more_x, more_y) = self.rays(one, grid, voxel), self.rays(two, grid, voxel)
            assert x and more_x or voxel not in both, f"{voxel} is in no part"
            same(self.rays(one + two, grid, voxel), (x + more_x, y + more_y), f"rays at {voxel}")
        # so the voxels in just one of them are odd
        assert black(self.images(one + two, grid)) == first ^ second, "evenodd fills other voxels"

    def test_areas_of_meshes_apart_add(self):
        # the gear's box overlaps that of the bracket, and their voxels don't
        one, two = facets_of("bracket.stl"), moved(facets_of("helical_gear.stl"), (16000, 6000, 28000))
        grid = grid_round(one + two)
        for rule in RULES:
            first, second = black(self.images(one, grid, rule)), black(self.images(two, grid, rule))
            assert first and second and not first & second, f"{rule}: a voxel is filled in both, or none is"
            wanted = [a + b for a, b in zip(self.areas(one, grid, rule), self.areas(two, grid, rule))]
            same(self.areas(one + two, grid, rule), wanted, f"areas by {rule}")
            same(sum(wanted), len(first) + len(second), f"voxels by {rule}")

    def test_box_holds_its_near_faces(self):
        """Boxes whose faces lie on centres, between them, on both sides of the grid's ends, and thinner than a voxel."""
        columns, rows, layers = 9, 7, 6
        # centres at -8, -6 .. 8, at -5, -3 .. 7 and at -3, 1 .. 17
        grid = Grid((columns, rows, layers), (-9, -6, -5), 2, 4)
        draw = random.Random(4)
        ends = [((-4, -3, 1), (4, 3, 9)), ((-5, -4, 2), (5, 4, 10)), ((-90, -90, -90), (90, 90, 90)), ((0, 1, 5), (1, 2, 6)),
                ((1, 0, 2), (2, 1, 3)), ((-8, -5, -3), (8, 7, 17))]
        for _ in range(30):
            low = tuple(draw.randint(-10, 8) for _ in range(3))
            ends.append((low, tuple(at + draw.randint(1, 12) for at in low)))
        filled = 0
        for low, high in ends:
            held = {(k, rows - 1 - j, i) for i in range(columns) for j in range(rows) for k in range(layers)
                    if all(a <= centre < b for a, centre, b in zip(low, (-8 + 2 * i, -5 + 2 * j, -3 + 4 * k), high))}
            filled += len(held)
            for rule in RULES:
                found = black(self.images(box(low, high), grid, rule))
                assert found == held, f"{low} to {high} by {rule}: {sorted(found ^ held)} differ"
                same(sum(self.areas(box(low, high), grid, rule)), len(held), f"{low} to {high} by {rule}: areas")
        assert filled > 500, "hardly a voxel is filled"
