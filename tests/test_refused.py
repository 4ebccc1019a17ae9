"""docs/refused.md: each fault line on the page is reproduced with its status, each mending command is run on such a file and
what it makes is the part again; each line that the program can write stands on the page. A command whose Debian package
isn't here is left out."""

import codecs
import glob
import gzip
import math
import os
import random
import re

from common import ROOT, Case, bytes_of, example, installed, lacking, same, skip, text_of
from pages import blocks
from parts import SHORT_FACET, SIDES, box, obj, points, text, turned_over
from parts import binary as binary_stl

PAGE = os.path.join(ROOT, "docs", "refused.md")
BLOCKS = blocks(PAGE)
REPORT = ["--pitch", "100", "--layer", "100", "--report"]
TOOLS = {"admesh": "admesh", "assimp-utils": "assimp"}
BRACKET = bytes_of(example("bracket.stl"))


def cube(low=0, high=30):
    return box((low,) * 3, (high,) * 3)


def replaced(old, new, count=0):
    return re.sub(old, new, BRACKET, count=count)


def binary(head):
    corners = re.findall(rb"vertex (\S+) (\S+) (\S+)", BRACKET)
    return binary_stl(list(zip(corners[::3], corners[1::3], corners[2::3])), head.ljust(80))


def moved(facets, size, seed):
    """Facets whose corners are off by up to `size`, each in its own way."""
    draw = random.Random(seed)
    return [tuple(tuple("%.6f" % (x + draw.uniform(-size, size)) for x in corner) for corner in facet) for facet in facets]


def ball(radius, times):
    """A ball of facets: an octahedron, each of whose triangles is cut into four this many times."""
    corner = [(1, 0, 0), (-1, 0, 0), (0, 1, 0), (0, -1, 0), (0, 0, 1), (0, 0, -1)]
    sides = [(0, 2, 4), (2, 1, 4), (1, 3, 4), (3, 0, 4), (2, 0, 5), (1, 2, 5), (3, 1, 5), (0, 3, 5)]
    facets = [tuple(corner[k] for k in side) for side in sides]

    def middle(p, q):
        sum_of = [x + y for x, y in zip(p, q)]
        return tuple(x / math.hypot(*sum_of) for x in sum_of)

    for _ in range(times):
        finer = []
        for a, b, c in facets:
            x, y, z = middle(a, b), middle(b, c), middle(c, a)
            finer += [(a, x, z), (x, b, y), (z, y, c), (x, y, z)]
        facets = finer
    return [tuple(tuple(radius * x for x in point) for point in facet) for facet in facets]


def written(facets):
    return text([tuple(tuple("%.6f" % x for x in point) for point in facet) for facet in facets]).encode()


def cubes(facets):
    return [text(facets).encode()], text(cube()).encode()


ENDS = (0, 0, 0), (9, 9, 9)


def quads():
    corners = points(*ENDS)
    return [text([[corners[k] for k in side] for side in SIDES], "q").encode()], text(box(*ENDS)).encode()


def t_junction():
    (a, b, c), *rest = cube()
    middle = tuple((p + q) / 2 for p, q in zip(a, b))
    return [(a, middle, c), (middle, b, c)] + rest


def open_support():
    whole = bytes_of(example("supported.stl"))
    facets = re.findall(rb"  facet.*?endfacet\n", whole, flags=re.DOTALL)
    return [whole.replace(facets[299], b"", 1)], whole


def before(word, number=0):
    return BRACKET[:[found.start() for found in re.finditer(rb"\b" + word + rb"\b", BRACKET)][number]]


def far():
    return re.sub(rb"vertex (\S+) (\S+) (\S+)",
                  lambda found: b"vertex %.6f %.6f %s" % (float(found[1]) + 4e8, float(found[2]) + 5.8e9, found[3]), BRACKET)


# For each heading: the bad files, one for each line under it and then others that are mended by the same command; and
# the part that they were.
FILES = {
    "Byte order mark": ([codecs.BOM_UTF8 + BRACKET], BRACKET),
    "UTF-16": ([BRACKET.decode().encode("utf-16"), codecs.BOM_UTF16_BE + BRACKET.decode().encode("utf-16-be")], BRACKET),
    "Compressed by gzip": ([gzip.compress(BRACKET, mtime=0)], BRACKET), "Binary STL": ([binary(b"made by a tool")], BRACKET),
    "Binary STL whose header begins with solid": ([binary(b"solid part"), binary(b"SOLID part\nby a tool")], BRACKET),
    "Another format: OBJ, PLY, OFF, AMF, 3MF": ([obj(*ENDS).encode()], text(box(*ENDS)).encode()),
    "NUL or Ctrl-Z at the end": ([BRACKET + b"\0\0\0", BRACKET + b"\x1a"], BRACKET),
    "Comments": ([replaced(rb"\n", rb"\n# made by a tool\n", 1), replaced(rb"\n", rb"\n ; made by a tool\n")], BRACKET),
    "Keywords in two words": ([replaced(rb"end(facet|loop|solid)", rb"end \1"), replaced(rb"end(facet|solid)", rb"END \1")],
                              BRACKET),
    "Several solids without their ends": (
        [re.sub(rb"endsolid.*\n", rb"", BRACKET + text(cube(50, 60)).encode())], BRACKET + text(cube(50, 60)).encode()),
    "No normal, or one that is not three words": (
        [replaced(rb"facet normal.*", b"facet"), replaced(rb"facet normal.*", b"facet normal 0 0"),
         replaced(rb"facet normal.*", b"facet normal 0 0 0 1")], BRACKET),
    "outer without loop": ([replaced(rb"outer loop", b"outer")], BRACKET), "Facets of four and more corners": quads(),
    "Facets of two corners": ([text(cube(0, 9) + [((0, 0, 0), (0, 9, 0))]).encode()], text(cube(0, 9)).encode()),
    "A facet that is not closed": ([replaced(rb" *endfacet\n", b"")], BRACKET),
    "The file was cut": ([before(b"normal", 50), before(b"outer", 50), before(b"loop", 50), before(b"vertex", 151),
                          before(b"vertex", 151) + b"vertex 1 2", before(b"endloop", 50), before(b"endfacet", 50),
                          text(cube()).encode()[:999], BRACKET[:30000]], None),
    "Only endsolid is missing": ([replaced(rb"endsolid.*\n", b""), replaced(rb"\nendsolid.*\n", b"")], BRACKET),
    "An empty file": ([b"", b" \n\n"], None), "Decimal commas": ([BRACKET.replace(b".", b",")], BRACKET),
    "Exponents with D": ([BRACKET.replace(b"e+", b"D+").replace(b"e-", b"D-"),
                          BRACKET.replace(b"e+0", b"d").replace(b"e-", b"d-")], BRACKET),
    "nan or inf as a coordinate": ([replaced(rb"(?s)(vertex.*?vertex.*?vertex.*?)vertex \S+ \S+",
                                             rb"\1vertex " + word + b" 0", 1)
                                    for word in (b"nan", b"-INF", b"1.#QNAN")], BRACKET),
    "Numbers of more than 255 bytes": ([BRACKET.replace(b"2.800000e+01", b"2.800000" + b"0" * 260 + b"e+01"),
                                        BRACKET.replace(b"2.800000e+01", b"27.999999" + b"9" * 260)], BRACKET),
    "Far from the origin": ([far()], BRACKET), "A facet is missing": cubes(cube()[1:]),
    "A facet is turned inside out": cubes(turned_over(cube()[:1]) + cube()[1:]),
    "A facet stands twice": cubes(cube() + [cube()[3]]), "A T-junction": cubes(t_junction()),
    "Corners that nearly meet": cubes(moved(cube(), 0.002, 1)), "Supports with a facet missing": open_support(),
}

def sections():
    """For each heading with a fault line: its status, its lines, and the block of shell that mends."""
    found, heads, status = {}, {}, None
    for line in text_of(PAGE).splitlines():
        if line.startswith("## "):
            told = re.match(r"## Status (\d)", line)
            status = int(told[1]) if told else None
            heads[line[3:].strip()] = status
        elif line.startswith("### "):
            heads[line[4:].strip()] = status
    for block in BLOCKS:
        if block.language == "text":
            part = found.setdefault(block.head, [heads[block.head], [], None, block.before])
            part[1] += block.body.splitlines()
        elif not block.words:
            found[block.head][2] = block.body
    return found


# The enums whose texts a run can end with; those of other faults (a book's, a device's) stay within the program.
TOLD = {"NumFault", "StlFault", "WeldFault", "GridFault", "RunFault", "WordFault"}


def block_of(word):
    return next(block.body for block in BLOCKS if block.words == [word])


def needed(section):
    """The tools that a heading's text says its command needs."""
    return [tool for package, tool in TOOLS.items() if f"Needs `{package}`" in section[3]]


def faulty():
    """The headings of files that are refused, each with its section. Each has files, one for each line."""
    page = {head: section for head, section in sections().items() if section[0] in (3, 4)}
    same(set(page) - {"More than 1,048,576 facets"}, set(FILES), "headings")
    for head, (bad, good) in FILES.items():
        same(page[head][2] is None, good is None, f"{head}: a command that mends")
        assert len(bad) >= len(page[head][1]), f"{head}: a line without a file"
    return page


class Refused(Case):
    def refused(self, bad=None, words=REPORT, **how):
        """Status and line of a run that prints nothing."""
        ran = self.room.run("stlslice", *words, **({"input": bad} if bad is not None else how))
        same(ran.out, "", "standard output")
        return ran.status, ran.fault

    def mended(self, head, mend):
        bad, good = FILES[head]
        words = [*REPORT, "--rule", "positive"]
        wanted = self.room.out("stlslice", *words, input=good)
        for number, data in enumerate(bad):
            folder = re.sub(r"\W", "_", head) + str(number)
            os.mkdir(self.room.file(folder))
            self.room.put(f"{folder}/part.stl", data)
            self.room.done("bash", "-c", mend, cwd=self.room.file(folder))
            told = self.room.out("stlslice", *words, path=self.room.file(folder, "mended.stl"))
            same(told.splitlines()[-1], wanted.splitlines()[-1], f"{head}, file {number}: the mended part")
            if head != "Corners that nearly meet":
                same(told, wanted, f"{head}, file {number}: layers of the mended part")

    def test_files_are_refused(self):
        page = faulty()
        for head, (bad, _) in FILES.items():
            status, lines, _, _ = page[head]
            for number, data in enumerate(bad):
                found = self.refused(data)
                same(found[0], status, f"{head}: status of file {number}")
                if number < len(lines):
                    same(found[1], lines[number] + "\n", head)

    def test_files_are_mended(self):
        plain = {head: section for head, section in faulty().items() if section[2] and not needed(section)}
        assert len(plain) >= 15, f"only {len(plain)} commands need no package"
        for head, section in plain.items():
            self.mended(head, section[2])

    def test_files_are_mended_by_tools(self):
        found = {head: section for head, section in faulty().items() if section[2] and needed(section)}
        assert len(found) >= 8, f"only {len(found)} commands need a package"
        for head, section in found.items():
            if not self.lacks(head, *needed(section)):
                self.mended(head, section[2])

    def test_too_many_facets_are_refused(self):
        status, lines, _, _ = sections()["More than 1,048,576 facets"]
        front = b"solid\n" + SHORT_FACET * 1_048_576
        found = self.refused(front + SHORT_FACET, ["--box"])
        same(found, (status, f"stlslice: too many facets at byte {len(front)}\n"), "too many facets")
        same(lines, [found[1].strip()], "the page's line")

    def test_two_shells_are_joined(self):
        """By the page's command for several shells, on a part of two that overlap: 27 + 27 - 1 cubic centimetres."""
        self.room.put("part.stl", text(cube() + cube(20, 50)))
        env = self.room.with_env(PATH=f"{installed()}:{self.room.environment['PATH']}")
        told = self.room.out("bash", "-c", block_of("shells"), cwd=self.room.path, env=env)
        same(told, "out.sl1: 50.000 x 50.000 x 50.000 mm, 53.000 ml, 1000 layers\n", "two shells")

    def test_a_mesh_is_made_coarser(self):
        """By the page's command, on a ball and by a smaller number: it stays closed, and its volume nearly the same."""
        room = self.room
        if room.run("/usr/bin/python3", "-c", "import open3d").status:
            skip("open3d is missing (Debian: python3-open3d)")
        same(block_of("coarser").count("(1000000)"), 1, "the number of the page")
        room.put("part.stl", written(ball(15, 5)))
        room.done("bash", "-c", block_of("coarser").replace("(1000000)", "(4000)"), cwd=room.path)
        same(len(room.get("mended.stl")), 84 + 50 * 4000, "bytes of 4,000 facets")
        volumes = []
        for name in ("part.stl", "mended.stl"):
            words = ["--printer", "SL1S", "--layer", "500", room.file(name), room.file(name + ".sl1")]
            volumes.append(float(re.search(r", ([\d.]+) ml,", room.done(installed("stlslice-sl1"), *words).out)[1]))
        assert abs(volumes[0] - volumes[1]) < 0.01 * volumes[0], f"volumes {volumes}"

    def test_faults_of_grid_memory_and_devices(self):
        page, part = sections(), self.room.put("part.stl", BRACKET)
        small, coarse = text([((0, 0, 0), (0, 0, 0), (0, 0, 1))]), ["--pitch", "100", "--layer", "100"]
        runs = {"All facets are degenerate": lambda: self.refused(small),
            "The grid is too large": lambda: self.refused(BRACKET, ["--pitch", "1", "--layer", "1"]),
            "The grid has no cells": lambda: self.refused(BRACKET, REPORT + ["--grid", "0,1,1,0,0,0"]),
            "The grid reaches too far":
                lambda: self.refused(BRACKET, ["--pitch", "100000", "--layer", "1", "--grid", "2000,1,1,0,0,0"]),
            "The voxel is outside the grid": lambda: self.refused(BRACKET, [*coarse, "--probe", "320,0,0"]),
            "Status 6: out of memory":
                lambda: self.ended("ulimit -v 20000; exec stlslice --pitch 10 --layer 10 --report", path=part),
            "The input cannot be read": lambda: self.ended("stlslice --box < /"),
            "The output cannot be written": lambda: self.ended("stlslice --pitch 100 --layer 100 > /dev/full", path=part),
            "The help cannot be written": lambda: self.ended("stlslice --help > /dev/full"),
            "The version cannot be written": lambda: self.ended("stlslice --version > /dev/full"),
        }
        same({head for head, section in page.items() if section[0] in (5, 6, 7)}, set(runs), "headings")
        for head, made in runs.items():
            status, fault = made()
            same((status, fault.splitlines()), (page[head][0], page[head][1]), head)

    def ended(self, script, **how):
        ran = self.room.bash(script, **how)
        return ran.status, ran.fault

    def test_faults_of_words(self):
        lines = re.findall(r"(?m)^\| `([^`]+)` \|", text_of(PAGE).split("## Status 2")[1])
        words = [[], ["--pitch", "50"], ["--rule", "EvenOdd"], ["--unit", "cm"], ["--grid=1,1,1,0,0"], ["--probe", "0,0"],
                 ["--png", "--depth", "2"], ["--depth", "8"], [b"\xff"],
                 ["--pitch", "0.05", "--layer", "50"], ["--pitch", "0", "--layer", "50"], ["--grid", "-1,1,1,0,0,0"],
                 ["part.stl"], ["--pitch", "50", "--pitch", "50"], ["--pitch"]]
        same(len(lines), len(words), "lines of words")
        for line, given in zip(lines, words):
            status, fault = self.refused("", given)
            same((status, fault.splitlines()[0]), (2, line), str(given))
            is_number = line.startswith("error: invalid value")
            same("whole micrometres, as in --pitch 50 for 0.05 mm" in fault.splitlines()[-1], is_number, f"last line by {given}")

    def test_each_line_of_the_program_is_on_the_page(self):
        """The texts of faults in the sources, and the lines of `main`."""
        page, templates, words = text_of(PAGE), set(), set()
        for path in glob.glob(f"{ROOT}/crates/*/src/**/*.rt", recursive=True):
            if "/tests/" in path:
                continue
            source = text_of(path)
            for name, body in re.findall(r"(?s)impl Display for (\w+) \{(.*?)\n\}", source):
                if name in TOLD:
                    templates |= set(re.findall(r'"([^"]+)"', body))
            templates |= set(re.findall(r'&"(stlslice: [^"]+)"', source))
            words |= set(re.findall(r'Word::\w+ => "([^"]+)"', source))
        assert len(templates) >= 24 and len(words) == 9, f"the texts of faults aren't found: {templates}, {words}"
        for template in templates:
            if re.fullmatch(r"(stlslice: )?\{\w+\}", template) or "{option}" in template:
                continue
            pattern = re.sub(r"\\\{.*?\\\}", "[^`\n]+", re.escape(template))
            assert re.search(pattern, page), f"not on the page: {template}"
        for word in words:
            assert word == "number" or f"expected {word} at byte" in page, f"not on the page: expected {word}"
            assert f"input ended before {word}\n" in page, f"not on the page: ended before {word}"

    def test_a_place_is_found(self):
        """From a byte to its line, and from an open edge to a marker."""
        room = self.room
        os.symlink(os.path.join(ROOT, "examples"), room.file("examples"))
        room.put("mended.stl", BRACKET)
        ran = room.bash(block_of("look"), cwd=room.path)
        same(ran, (0, "facets 236 box -3964 0 0 28000 12000 27000\ntotal 3077280\n", ""), "a look at the mended part")
        lines = BRACKET.splitlines(keepends=True)
        lines[451] = b"      vertx 1 2 3\n"
        room.put("part.stl", b"".join(lines))
        at = re.fullmatch(r"stlslice: expected vertex at byte (\d+)\n", self.refused(b"".join(lines))[1])[1]
        same(block_of("line")[:9], "AT=16063\n", "the byte of the page")
        ran = room.bash(block_of("line").replace("16063", at), cwd=room.path)
        same(ran, (0, "452\nvertx 1 2 3\n", ""), "the line of a byte")
        for facets in (cube()[1:], cube(-3, 5)[1:], cube(0, 9)[:5] + cube(0, 9)[6:]):
            self.marker_holds(room.put("part.stl", text(facets)))
        line = "%s: no open edge in: stlslice: read failed"
        room.refused(1, line, example("mark_edge.py"), input="stlslice: read failed\n")

    def marker_holds(self, part):
        """The page's marker is a closed body, not too large, with the open edge in its box."""
        same(self.room.bash(block_of("marker"), cwd=self.room.path), (0, "", ""), "marker")
        edge = [int(n) for n in re.findall(r"-?\d+", self.refused(path=part)[1])][:6]
        marker = self.room.file("marker.stl")
        ends = [int(n) for n in self.room.run("stlslice", "--box", path=marker).out.split()[3:]]
        for k in range(3):
            low, high = sorted((edge[k], edge[k + 3]))
            same((ends[k] <= low, ends[k + 3] >= high), (True, True), "the marker's box")
            assert low - ends[k] <= 2000 and ends[k + 3] - high <= 2000, "the marker is too large"
        ran = self.room.run("stlslice", *REPORT, "--rule", "positive", path=marker)
        assert ran.status == 0 and int(ran.out.split()[-1]) > 0, "the marker isn't a closed body"

    def test_repairs_destroy_as_told(self):
        room = self.room
        if lacking("admesh") or "0.98.4" not in room.run("admesh", "--version").out:
            skip("admesh 0.98.4 is missing (Debian: admesh)")
        table = text_of(PAGE).split("## Repairs that destroy parts")[1].split("\n## ")[0]
        rows = re.findall(r"(?m)^\| ([^|]+) \| `(admesh[^`]*)`([^|]*) \| ([\d,]+) to ([\d,]+) \|", table)
        shaken, cut = text(moved(ball(15, 4), 0.01, 7)).encode(), text(cube()).encode()
        files = [(written(ball(15, 4)), shaken)] * 4 + [(cut, cut[:len(cut) // 2])]
        files += [(BRACKET, BRACKET[:len(BRACKET) * 3 // 4]), (BRACKET, BRACKET[:len(BRACKET) // 2])]
        same(len(rows), len(files), "rows")
        for (part, repair, _, whole, made), (good, bad) in zip(rows, files):
            total = room.run("stlslice", *REPORT, input=good).out.split()[-1]
            same(total, whole.replace(",", ""), f"{part}: before")
            assert self.refused(bad)[0] in (3, 4), f"{part}: not refused"
            room.put("part.stl", bad)
            room.done(*repair.split(), "--write-ascii-stl=mended.stl", "part.stl", cwd=room.path)
            total = room.out("stlslice", *REPORT, path=room.file("mended.stl")).split()[-1]
            same(total, made.replace(",", ""), f"{part}: after {repair}")
        for more in ("--exact", "--nearby --tolerance=0.01"):
            room.put("part.stl", shaken)
            room.run("admesh", *more.split(), "--write-ascii-stl=mended.stl", "part.stl", cwd=room.path)
            same(self.refused(path=room.file("mended.stl"))[0], 4, f"status after admesh {more}")
