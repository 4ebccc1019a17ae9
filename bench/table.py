#!/usr/bin/env python3
"""Writes docs/benchmarks.md: time and memory of the built program on meshes that are made here, from one run.

    bench/table.py PROGRAM [OTHER] [--about TEXT] [--runs N] [--case NAME]..

Each case is run N times (5) with one worker and with four, and the least time and memory count. OTHER is another slicer
that takes the same options: each of its runs comes in turn with one of PROGRAM's, the outputs have to be the same bytes,
and the table has the ratios too, PROGRAM's figure over OTHER's. TEXT says what OTHER is. `--case` takes some of the rows.
Without it the table of bench/pngs.py follows. Run it on a machine with nothing else to do. The page goes to standard
output, what is being done to standard error.
"""

import argparse
import datetime
import hashlib
import math
import multiprocessing
import os
import random
import resource
import subprocess
import sys
import tempfile
import time

import pngs
from measure import exit_status

ROOT = os.path.dirname(os.path.dirname(os.path.abspath(__file__)))
WORKERS = (1, 4)

PNGS = ("Each cell has the least time and, in brackets, its ratio to that of raw PBM. One worker slices `examples/supported.stl`. "
        "The pipe's reader keeps nothing.")


class Case:
    """A row of the table: its mesh, by the name and words of its maker, and the options."""

    def __init__(self, name, row, mesh, options):
        self.name, self.row, self.mesh, self.options = name, row, mesh, options

    def words(self, workers):
        return self.options.split() + ([] if "--box" in self.options else ["--workers", str(workers)])


CASES = [
    Case("box327k", "`--box` of a sphere of 327,680 facets", ("sphere", 128, 60000), "--box"),
    Case("box1m", "`--box` of a sphere of a million facets", ("sphere", 224, 60000), "--box"),
    Case("sphere20k", "sphere of 20,480 facets, 1200 x 1200 x 1200", ("sphere", 32, 60000), "--pitch 50 --layer 50"),
    Case("sphere327k", "sphere of 327,680 facets, 1200 x 1200 x 1200", ("sphere", 128, 60000), "--pitch 50 --layer 50"),
    Case("decimals", "the same, short decimals", ("sphere", 128, 60000, "decimals"), "--pitch 50 --layer 50"),
    Case("report", "the same, report", ("sphere", 128, 60000), "--pitch 50 --layer 50 --report"),
    Case("sphere1m", "sphere of a million facets, 1200 x 1200 x 200", ("sphere", 224, 60000), "--pitch 50 --layer 300"),
    Case("wide", "sphere of 1,280 facets, 16384 x 16384 x 20", ("sphere", 8, 163840), "--pitch 10 --layer 8192"),
    Case("tall", "tower of 6,464 facets, 64 x 64 x 65535", ("tower", 32, 100, 6400, 655350), "--pitch 100 --layer 10"),
    Case("heap", "heap of 300 tetrahedra, 90 crossings a row", ("heap", 300, 30000), "--pitch 50 --layer 50"),
]


def sphere(parts, size):
    """The facets of a geodesic sphere, 20 * parts * parts of them, as points in micrometres; its box is `size` wide."""
    golden = (1 + math.sqrt(5)) / 2
    base = [(-1, golden, 0), (1, golden, 0), (-1, -golden, 0), (1, -golden, 0), (0, -1, golden), (0, 1, golden),
            (0, -1, -golden), (0, 1, -golden), (golden, 0, -1), (golden, 0, 1), (-golden, 0, -1), (-golden, 0, 1)]
    faces = [(0, 11, 5), (0, 5, 1), (0, 1, 7), (0, 7, 10), (0, 10, 11), (1, 5, 9), (5, 11, 4), (11, 10, 2), (10, 7, 6),
             (7, 1, 8), (3, 9, 4), (3, 4, 2), (3, 2, 6), (3, 6, 8), (3, 8, 9), (4, 9, 5), (2, 4, 11), (6, 2, 10), (8, 6, 7),
             (9, 8, 1)]
    known = {}

    def point(face, i, j):
        weights = tuple(sorted((corner, weight) for corner, weight in zip(face, (parts - i, i - j, j)) if weight))
        if weights not in known:
            place = [sum(base[corner][axis] * weight for corner, weight in weights) for axis in range(3)]
            length = math.hypot(*place)
            known[weights] = tuple(coordinate / length for coordinate in place)
        return weights

    facets = []
    for face in faces:
        for i in range(parts):
            for j in range(i + 1):
                facets.append((point(face, i, j), point(face, i + 1, j), point(face, i + 1, j + 1)))
                if j < i:
                    facets.append((point(face, i, j), point(face, i + 1, j + 1), point(face, i, j + 1)))
    low = [min(place[axis] for place in known.values()) for axis in range(3)]
    high = [max(place[axis] for place in known.values()) for axis in range(3)]
    whole = {key: tuple(round((place[axis] - low[axis]) * size / (high[axis] - low[axis])) for axis in range(3))
             for key, place in known.items()}
    return [tuple(whole[key] for key in facet) for facet in facets]


def tower(sides, levels, width, height):
    """The facets of a prism whose width goes in and out on its way up."""
    def point(level, side):
        angle = 2 * math.pi * (side % sides) / sides + 0.3
        radius = width / 2 * (0.75 + 0.25 * math.sin(0.7 * level))
        return int(radius * math.cos(angle)), int(radius * math.sin(angle)), height * level // levels

    facets = []
    for side in range(sides):
        for level in range(levels):
            facets.append((point(level, side), point(level, side + 1), point(level + 1, side + 1)))
            facets.append((point(level, side), point(level + 1, side + 1), point(level + 1, side)))
        facets.append(((0, 0, 0), point(0, side + 1), point(0, side)))
        facets.append(((0, 0, height), point(levels, side), point(levels, side + 1)))
    return facets


def heap(count, size):
    """The facets of tetrahedra with corners at random, which face inwards as often as outwards."""
    chance = random.Random(5)
    facets = []
    for _ in range(count):
        corners = [tuple(chance.randint(-size, size) for _ in range(3)) for _ in range(4)]
        facets += [tuple(corners[n] for n in facet) for facet in ((0, 1, 2), (0, 3, 1), (1, 3, 2), (2, 3, 0))]
    return facets


def write(mesh, path):
    """Writes a mesh as ASCII STL, its numbers as `%.6e` or with three decimals."""
    maker, *words = mesh
    form = "%.6e"
    if words[-1] == "decimals":
        form = "%.3f"
        words.pop()
    spelled = {}

    def vertex(point):
        if point not in spelled:
            spelled[point] = "      vertex " + " ".join(form % (coordinate / 1000) for coordinate in point) + "\n"
        return spelled[point]

    normal = "  facet normal " + " ".join([form % 0] * 3) + "\n    outer loop\n"
    with open(path, "w", newline="\n") as file:
        file.write("solid bench\n")
        for facet in {"sphere": sphere, "tower": tower, "heap": heap}[maker](*words):
            file.write(normal + "".join(map(vertex, facet)) + "    endloop\n  endfacet\n")
        file.write("endsolid bench\n")


def make(case, path):
    """Writes the mesh of a case in a process of its own: what a program takes at most is told as no less than what this
    process took before."""
    print(f"making {case.row}", file=sys.stderr)
    maker = multiprocessing.Process(target=write, args=(case.mesh, path))
    maker.start()
    maker.join()
    if maker.exitcode:
        sys.exit(f"{case.name}: its mesh could not be made")


def run(program, words, path):
    """Seconds and the most memory, in MiB, of one run, which has to end well."""
    with open(path, "rb") as source:
        start = time.perf_counter()
        child = subprocess.Popen([program, *words], stdin=source, stdout=subprocess.DEVNULL)
        _, status, used = os.wait4(child.pid, 0)
        seconds = time.perf_counter() - start
    child.returncode = exit_status(status)
    if child.returncode:
        sys.exit(f"{program} {' '.join(words)}: status {child.returncode}")
    return seconds, used.ru_maxrss / 1024


def digest(program, words, path):
    found = hashlib.sha256()
    with open(path, "rb") as source, subprocess.Popen([program, *words], stdin=source, stdout=subprocess.PIPE) as child:
        for piece in iter(lambda: child.stdout.read(1 << 20), b""):
            found.update(piece)
    return found.hexdigest(), child.returncode


def least(programs, words, path, runs):
    """For each program its least time and its least memory, their runs in turns."""
    found = [[] for _ in programs]
    for _ in range(runs):
        for program, rows in zip(programs, found):
            rows.append(run(program, words, path))
    return [(min(row[0] for row in rows), min(row[1] for row in rows)) for rows in found]


def cell(figures):
    """Seconds and MiB of the program, and its ratios to another one's."""
    (seconds, memory), *other = figures
    ratios = f" ({seconds / other[0][0]:.2f}, {memory / other[0][1]:.2f})" if other else ""
    return f"{seconds:.3f} s, {memory:.0f} MiB{ratios}"


def machine():
    with open("/proc/cpuinfo") as told:
        names = [line.split(":")[1].strip() for line in told if line.startswith("model name")]
    memory = os.sysconf("SC_PAGE_SIZE") * os.sysconf("SC_PHYS_PAGES") / 2**30
    return f"{names[0] if names else 'unknown processor'}, {os.cpu_count()} processors, {memory:.0f} GiB"


def commit():
    """The commit that this script's repository is at, with a plus sign if a file but the page itself differs from it."""
    def told(*words):
        return subprocess.run(["git", "-C", ROOT, *words], stdout=subprocess.PIPE, text=True).stdout.strip()

    changes = told("status", "--porcelain", "--untracked-files=no", "--", ".", ":!docs/benchmarks.md")
    return (told("rev-parse", "--short", "HEAD") or "unknown") + "+" * bool(changes)


def cells(about):
    """What the page says of its cells. `about` is what is said of another slicer, or None."""
    if about is None:
        return "Each cell has the time and the peak memory."
    return ("Each cell has the time and the peak memory, and in brackets their ratios to those of another slicer, whose runs come in "
            f"turns: below 1 the program is better. That slicer writes the same bytes. {about}").rstrip()


def head(program, revision, about, runs):
    """The lines of the page before its table."""
    version = subprocess.run([program, "--version"], stdout=subprocess.PIPE, text=True, check=True).stdout.split(" (")[0]
    return f"""# Benchmarks

`bench/table.py` wrote this page from one run. Output goes to `/dev/null`, and the least of {runs} runs counts. {cells(about)}

Memory below {resource.getrusage(resource.RUSAGE_SELF).ru_maxrss / 1024:.0f} MiB is that of the script. The command `make bench` times the program on your machine.

- Program: {version}, commit {revision}
- Machine: {machine()}
- Date: {datetime.date.today()}

| Mesh and grid | 1 worker | 4 workers |
|---|---|---|"""


def row(case, programs, runs, folder):
    """A line of the table."""
    path = os.path.join(folder, "-".join(map(str, case.mesh)) + ".stl")
    if not os.path.exists(path):
        make(case, path)
    found = []
    for workers in WORKERS if "--box" not in case.options else WORKERS[:1]:
        words = case.words(workers)
        print(f"running {case.row}: {' '.join(words)}", file=sys.stderr)
        if len({digest(program, words, path) for program in programs}) > 1:
            sys.exit(f"{case.name}: the two write different bytes")
        found.append(cell(least(programs, words, path, runs)))
    return f"| {case.row} | {found[0]} | {found[1] if len(found) > 1 else 'as with one'} |"


def main():
    words = argparse.ArgumentParser(usage="bench/table.py PROGRAM [OTHER] [--about TEXT] [--runs N] [--case NAME]..")
    words.add_argument("program")
    words.add_argument("other", nargs="?")
    words.add_argument("--about", default="")
    words.add_argument("--runs", type=int, default=5)
    words.add_argument("--case", action="append", choices=[case.name for case in CASES])
    words = words.parse_args()
    programs = [os.path.abspath(it) for it in (words.program, words.other) if it]
    for program in programs:
        if not os.access(program, os.X_OK):
            sys.exit(f"bench/table.py: {program} is no program: build it with make")
    revision = commit()
    with tempfile.TemporaryDirectory() as folder:
        rows = [row(case, programs, words.runs, folder) for case in CASES if not words.case or case.name in words.case]
    print(head(programs[0], revision, words.about if words.other else None, words.runs), *rows, sep="\n")
    if not words.case:
        print("", "## PNGs", "", PNGS, "", *pngs.table(programs[0], runs=words.runs), sep="\n")


if __name__ == "__main__":
    main()
