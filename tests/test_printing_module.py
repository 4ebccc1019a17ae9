"""The packages of the commands and of Python, as installed, function by function: PNGs joined, shells, values of options, formats,
the table of printers."""

import argparse
import ast
import errno
import functools
import glob
import itertools
import os
import random
import re
import subprocess
import sys
import time
import zlib
from fractions import Fraction
from unittest import mock

from as_installed import PAGE, PNGS, SHARE, SL1, SLABS
from common import Case, same, skip, text_of
from parts import box, pixels_of_p4, pixels_of_png, png_of_p4

import stlslice
from stlslice import images, printers, shells
from stlslice_commands import faults, parts, sl1, words
from stlslice_commands.faults import Refused

PROFILES = "/usr/share/PrusaSlicer/profiles/PrusaResearch.ini"


def rows_of(kind, columns, rows, draw):
    """Bits of an image: dark, lit, drawn, of few runs, of many."""
    stride = (columns + 7) // 8
    spare, whole = 8 * stride - columns, (1 << columns) - 1
    image = b""
    for j in range(rows):
        bits = {"dark": 0, "lit": whole, "drawn": draw.getrandbits(columns), "many": whole // 3 if j % 3 else 0, "runs": 0}[kind]
        for _ in range(draw.randrange(6) if kind == "runs" else 0):
            ends = sorted(draw.randrange(columns + 1) for _ in range(2))
            bits ^= (1 << ends[1]) - (1 << ends[0])
        image += (bits << spare).to_bytes(stride, "big") * (3 if j % 5 == 0 else 1)
    return image[:stride * rows]


def join_and_compare(some, columns, rows, rule, depth):
    numbers = [int.from_bytes(it, "big") for it in some]
    wanted = functools.reduce(int.__xor__ if rule == "evenodd" else int.__or__, numbers)
    png, lit = images.joined([png_of_p4((columns, rows, it), depth) for it in some], list(map(ones, numbers)), rule)
    what = f"{len(some)} images of {columns} x {rows}, {rule}, {depth} bits, blocks of {images.BLOCK}"
    assert pixels_of_png(png) == pixels_of_p4((columns, rows, wanted.to_bytes(len(some[0]), "big"))), f"{what}: pixels differ"
    same((lit, png[:33]), (ones(wanted), png_of_p4((columns, rows, some[0]), depth)[:33]), f"{what}: lit pixels and head")


def ones(number):
    return bin(number).count("1")


def refused(made, status, line):
    try:
        made()
    except (Refused, stlslice.Fault) as fault:
        return same((fault.status, str(fault)), (status, line), "refusal")
    raise AssertionError(f"not refused: {line}")


def fail_within(out):
    with faults.whole_file(out) as file:
        file.write(b"half")
        raise Refused("a fault")


def profile_of(text, kind, name):
    """A section of PrusaSlicer's profiles, with what it inherits."""
    found = {}
    body = re.search(rf"(?m)^\[{kind}:{re.escape(name)}\]\n((?:[^\[\n].*\n|\n)*)", text)[1]
    pairs = dict(line.split(" = ", 1) for line in body.splitlines() if " = " in line and not line.startswith("#"))
    for above in pairs.pop("inherits", "").split(";"):
        found.update(profile_of(text, kind, above.strip()) if above.strip() else {})
    return {**found, **pairs}


class Module(Case):
    def test_pngs_are_joined(self):
        """Images of several texts are joined pixel by pixel, in blocks that end anywhere in a row."""
        draw, usual = random.Random(7), images.BLOCK
        for block, columns, rows in ((1, 9, 2), (1000, 9, 2), (1000, 331, 20), (usual, 1, 1), (usual, 331, 20),
                                     (usual, 2560, 3)):
            bits = [rows_of(kind, columns, rows, draw) for kind in ("drawn", "runs", "lit", "dark", "many")]
            for some in (bits[:1], bits[:2], bits[1:4], bits[3:4], bits):
                for rule, depth in itertools.product(("positive", "nonzero", "evenodd"), (1, 8)):
                    with mock.patch.object(images, "BLOCK", block):
                        join_and_compare(some, columns, rows, rule, depth)
        # one that alone is lit is taken as it is, and so is one if all are dark
        dark, lit = (png_of_p4((64, 9, rows_of(kind, 64, 9, draw)), 8) for kind in ("dark", "lit"))
        for pngs, areas, wanted in (([dark, lit], [0, 576], (lit, 576)), ([dark, dark], [0, 0], (dark, 0))):
            same(images.joined(pngs, areas, "evenodd"), wanted, "one that alone is lit")
        other = png_of_p4((64, 8, rows_of("lit", 64, 8, draw)), 8)
        for pngs, rule in (([], "nonzero"), ([lit, other], "nonzero"), ([lit, lit], "odd")):
            with self.assertRaises(stlslice.RangeFault, msg=f"{len(pngs)} images, {rule}"):
                images.joined(pngs, [1] * len(pngs), rule)
        plain = images._with_data(lit, zlib.compress(zlib.decompress(lit[images.DATA]), 0))
        small = images.smallest(plain)
        same((pixels_of_png(small), len(small) < len(plain)), (pixels_of_png(lit), True), "the same pixels in fewer bytes")

    def test_shells_are_kept_together(self):
        """The facets of each group are those of its shells, in their order. Two more reach through the part's box."""
        bodies = [box((5 * k, 0, 0), (5 * k + 3, 3, 3)) for k in range(7)]
        mixed = [facet for facets in zip(*bodies) for facet in facets]
        for limit, sizes in ((84, [7]), (36, [3, 3, 1]), (12, [1] * 7), (40, [3, 3, 1])):
            with mock.patch.object(shells, "LIMIT", limit):
                places, groups = shells.split(mixed)
            corners = list(zip(places[::3], places[1::3], places[2::3]))
            found = [[tuple(corners[it] for it in group[at:at + 3]) for at in range(0, len(group), 3)] for group in groups]
            begins = itertools.accumulate([0, *sizes])
            wanted = [[it for it in mixed if any(it in body for body in bodies[at:at + size])] for at, size in zip(begins, sizes)]
            same([group[:-2] for group in found], wanted, f"groups of at most {limit} facets")
            same([group[-2:] for group in found], [found[0][-2:]] * len(found), "what is put to each group")
            (low, high, between), turned = found[0][-2:]
            same((low, high, turned), ((0, 0, 0), (33, 3, 3), (low, between, high)), "the two facets that reach through the box")
            assert between not in (low, high), "the two facets are degenerate"
        places, (group,) = shells.split(mixed + [((99, 99, 99), (99, 99, 99), (0, 0, 0))])
        same([list(places[3 * it:3 * it + 3]) for it in group[-6:-4]], [[0, 0, 0], [33, 3, 3]], "ends beside a degenerate facet")
        with mock.patch.object(shells, "LIMIT", 11):
            refused(lambda: shells.split(mixed), 3, "the part has a shell of 12 facets, and at most 11 are taken: export it coarser")
        same([list(it) for it in shells.split([])], [[], []], "points and groups of no facet")
        for facets in ([((0, 0), (1, 1), (2, 2))], [((0, 0, 0), (1, 1, 1))], [((0, 0, 0), (1, 1, 1), (2, 2, 1 << 40))]):
            with self.assertRaises((ValueError, OverflowError), msg=str(facets)):
                shells.split(facets)
        same(list(shells.facets_of([*range(12)], [3, 0, 1])), [[[9, 10, 11], [0, 1, 2], [3, 4, 5]]], "a facet of arrays")
        same(shells.box_of([*range(12)], [3, 1, 1]), (1, (3, 4, 5), (9, 10, 11)), "the box of a facet of arrays")
        # long strips whose facets stand in any order, so that pieces of a strip that were found apart are joined later
        strips = [[((k, 1, 9 * strip), (k, 0, 9 * strip), (k + 1, 0, 9 * strip)) for k in range(300)] for strip in range(3)]
        mixed = [facet for strip in strips for facet in strip]
        random.Random(11).shuffle(mixed)
        with mock.patch.object(shells, "LIMIT", 300):
            places, groups = shells.split(mixed)
        heights = [{places[3 * it + 2] for it in group[:-6]} for group in groups]
        same(sorted(map(list, heights)), [[0], [9], [18]], "strips in groups of their own")
        same([len(group) for group in groups], [906] * 3, "strips")
        same(shells._packed([*"aaaaab", *"b" * (shells.LIMIT - 3), *"ccddd"]), ({"a": 0, "b": 1, "c": 0, "d": 0}, 2), "first fit")

    def test_files_are_whole_or_not_there(self):
        """Two runs for one output, as in containers, whose processes have the same number: each has a file of its own."""
        out = self.room.file("out")
        refused(lambda: fail_within(out), 1, "a fault")
        assert not os.path.exists(out), "a file that failed is there"
        faults.undo()
        same(self.room.files(), [], "files after one that failed")
        with faults.whole_file(out) as file:
            file.write(b"one")
            assert not os.path.exists(out), "a file that isn't ready is there"
            with faults.whole_file(out) as other:
                other.write(b"other")
            same(self.room.get("out"), b"other", "the one that was ready first")
        same((self.room.get("out"), self.room.files()), (b"one", ["out"]), "the one that was ready last")

    def test_faults_have_lines(self):
        name = self.room.file("a")
        path = faults.aside(name)
        for fault, wanted in ((Refused("no", 3), ("no", 3)), (MemoryError(), ("out of memory", 6)),
                              (OSError(errno.ENOMEM, "Cannot allocate memory"), ("out of memory", 6)),
                              (OSError(errno.ENOSPC, "Full"), ("Full", 1)),
                              (OSError(errno.ENOSPC, "Full", "a"), ("Full: a", 1)),
                              (OSError(errno.EACCES, "No", f"{path}/00000.png"), (f"No: {name}/00000.png", 1))):
            same(faults.end_of(fault), wanted, repr(fault))

    def test_a_signal_is_heard_while_the_library_works(self):
        """Here a call of the C library goes on for twenty seconds, whatever signals come."""
        script = ("import ctypes, sys\nsys.path.insert(0, sys.argv[1])\nfrom stlslice_commands.parts import Part\n"
                  "print(flush=True)\nPart.asked(None, lambda: ctypes.CDLL(None).system(b'exec sleep 20'))\n")
        child = subprocess.Popen([sys.executable, "-c", script, SHARE], stdout=subprocess.PIPE, env=self.room.environment)
        child.stdout.readline()
        begun = time.monotonic()
        child.terminate()
        same((child.wait(timeout=60), time.monotonic() - begun < 15), (143, True), "status, and whether it ended soon")
        child.stdout.close()

    def test_formats_are_told(self):
        packed = b"PK\x03\x04" + b"." * 26
        for head, kind in ((packed + bytes(1 << 17) + b"_rels/.rels", "3MF"), (packed + b"part.stl", "zip"),
                           (b"\x1f\x8b\x08\0", "gzip"), (b"ply\nformat ascii 1.0\n", "PLY"), (b"OFF\n8 6 0\n", "OFF"),
                           (b"# by a tool\n" * 5000 + b"mtllib a.mtl\nv 1 2 3\n", "OBJ"), (b"\xef\xbb\xbfv 1 2 3\n", "OBJ"),
                           (b"# by a tool\ro part\r", "OBJ"), (b"solid part\nfacet normal 0 0 1\n", None), (b"  SOLID\n", None),
                           (b"facet", None), (b"", None), (b"\xef\xbb\xbfsolid", None)):
            same(parts.kind_of(head), kind, f"{head!r}")

    def test_values_are_read(self):
        for read, good, bad in (
                (words.canvas, {"1x1": (1, 1), "2560,1620": (2560, 1620), "99999x9": (99999, 9)},
                 ["2560", "0x9", "09x9", "9x100000", "100000x9", "9x9x9", "-9x9", "9 x 9", ""]),
                (words.micrometres, {"1": 1, "007": 7, "100000": 100000}, ["0", "-1", "+1", "0.05", "100001", "\u0661", "all", ""]),
                (words.workers, {"1": 1, "064": 64}, ["0", "65", "1000000", "2.5", "all", ""]),
                (words.millimetres, {"150": 150000, "149.5": 149500, "0.000001": Fraction(1, 1000), "999999": 999999000},
                 ["0", "0.0", "-150", "149,5", "150mm", "1000000", ""]),
                (words.pitch, {"50": (50, 50), "47.25": (47.25, 47.25), "19x24": (19, 24)},
                 ["0", "0.000", "-1", "47.2500", "1e2", "19x0", "19x24x3", "19x", "\u0661", ""]),
                (sl1.SECONDS, {"2.2": 2.2, "99999": 99999}, ["0", "0.0", "-2", "2,2", "2s", "100000", ""]),
                (sl1.COUNT, {"0": 0, "999": 999}, ["-1", "2.5", "1000", "ten", ""])):
            same({word: read(word) for word in good}, good, "values")
            for word in bad:
                with self.assertRaises(argparse.ArgumentTypeError, msg=f"{word!r} beside {list(good)}"):
                    read(word)

    def test_printers_are_those_of_prusaslicer(self):
        known = printers.printers()
        same(sorted(known), ["SL1", "SL1S"], "printers")
        listed = printers.listed()
        for model, it in known.items():
            assert it.source and it.source in listed and it.name in listed, f"{model} has no source"
        if not os.path.exists(PROFILES):
            skip("prusa-slicer is missing (Debian: prusa-slicer): its profiles")
        profiles = text_of(PROFILES)
        # what PrusaSlicer takes if a profile is silent
        usual = {"display_mirror_x": "1", "display_mirror_y": "0", "fast_tilt_time": "5", "slow_tilt_time": "8", "area_fill": "50"}
        for model, it in known.items():
            name = re.search(r"\[printer:([^\]]+)\]", it.source)[1]
            screen = {**usual, **profile_of(profiles, "printer", name)}
            resin = profile_of(profiles, "sla_material", it.material)
            names = screen["printer_model"], name, screen["default_sla_material_profile"]
            same(names, (model, it.name, it.material), "names")
            keys = [f"display_{it}" for it in ("pixels_x", "pixels_y", "width", "height", "mirror_x", "mirror_y")]
            keys += ["max_print_height", "fast_tilt_time", "slow_tilt_time", "area_fill"]
            found = [Fraction(screen[key]) for key in keys]
            found += [Fraction(resin[key]) for key in ("exposure_time", "initial_exposure_time", "initial_layer_height")]
            same([it.columns, it.rows, it.width / 1000, it.depth / 1000, it.mirror_x, it.mirror_y, it.height / 1000,
                  Fraction(str(it.fast_tilt)), Fraction(str(it.slow_tilt)), it.area_fill, Fraction(str(it.exposure)),
                  Fraction(str(it.first_exposure)), Fraction(it.layer, 1000)], found, f"figures of {model}")
            same("portrait" if it.is_portrait else "landscape", screen["display_orientation"], "orientation")

    def test_sources_are_for_old_python(self):
        """Python 3.8 can read them, as the documents say."""
        sources = [*glob.glob(os.path.join(SHARE, "*", "*.py")), SL1, PNGS, PAGE, SLABS]
        assert len(sources) > 16, sources
        for source in sources:
            ast.parse(text_of(source), source, feature_version=(3, 8))
