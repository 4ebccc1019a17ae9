#!/usr/bin/env python3
"""Times the built program on a mesh made here: a ring of about the given number of facets.

    bench/measure.py PROGRAM [FACETS]

Each task runs three times; the least time is printed, with the rate of reading and the most memory.
"""

import math
import os
import random
import subprocess
import sys
import tempfile
import time

TASKS = [
    ("box", ["--box"]),
    ("report", ["--pitch", "100", "--layer", "100", "--report"]),
    ("report, 4 workers", ["--pitch", "100", "--layer", "100", "--report", "--workers", "4"]),
    ("images", ["--pitch", "100", "--layer", "100"]),
    ("images, 4 workers", ["--pitch", "100", "--layer", "100", "--workers", "4"]),
    ("PNGs", ["--pitch", "100", "--layer", "100", "--png"]),
]

RUNS = 3


def ring_of(facets, path):
    """A torus of 60 mm, in scientific notation as many tools write it."""
    around = max(8, int(math.sqrt(facets)))
    across = max(8, facets // (2 * around))
    points = [[place(2 * math.pi * i / around, 2 * math.pi * j / across) for j in range(across)]
              for i in range(around)]
    with open(path, "w", newline="\n") as file:
        file.write("solid ring\n")
        for i in range(around):
            for j in range(across):
                a, b = points[i][j], points[(i + 1) % around][j]
                c, d = points[(i + 1) % around][(j + 1) % across], points[i][(j + 1) % across]
                file.write(facet(a, b, c) + facet(a, c, d))
        file.write("endsolid ring\n")
    return 2 * around * across


def pairs_of(facets, path):
    """Facets that share no edge but with their own reverse, in no order: no closed mesh has more points and edges for its facets."""
    draw = random.Random(facets)
    found = []
    for _ in range(facets // 2):
        a, b, c = (" ".join(f"{draw.uniform(0, 60):.3f}" for _ in range(3)) for _ in range(3))
        found += [facet(a, b, c), facet(a, c, b)]
    draw.shuffle(found)
    with open(path, "w", newline="\n") as file:
        file.write("solid pairs\n" + "".join(found) + "endsolid pairs\n")


def place(t, u):
    radius = 20 + 10 * math.cos(u)
    return "%.6e %.6e %.6e" % (radius * math.cos(t), radius * math.sin(t), 10 * math.sin(u))


def facet(a, b, c):
    return (f"  facet normal 0.000000e+00 0.000000e+00 0.000000e+00\n    outer loop\n      vertex {a}\n"
            f"      vertex {b}\n      vertex {c}\n    endloop\n  endfacet\n")


def exit_status(status):
    """The status of a program from that of os.wait4, negative if a signal ended it."""
    # os.waitstatus_to_exitcode came with 3.9
    return -(status & 0x7F) or status >> 8


def run(program, words, path):
    """Seconds, status, bytes written and the most memory in MiB of one run."""
    with open(path) as source, tempfile.TemporaryFile() as sink:
        start = time.perf_counter()
        child = subprocess.Popen([program] + words, stdin=source, stdout=sink, stderr=subprocess.DEVNULL)
        _, status, used = os.wait4(child.pid, 0)
        seconds = time.perf_counter() - start
        child.returncode = exit_status(status)
        return seconds, child.returncode, os.fstat(sink.fileno()).st_size, used.ru_maxrss / 1024


def main():
    if len(sys.argv) not in (2, 3) or not all(word.isdecimal() for word in sys.argv[2:]):
        sys.exit("use: bench/measure.py PROGRAM [FACETS]")
    program = os.path.abspath(sys.argv[1])
    if not os.access(program, os.X_OK):
        sys.exit(f"bench: {sys.argv[1]} is no program: build it with make")
    facets = int(sys.argv[2]) if len(sys.argv) > 2 else 200_000
    with tempfile.TemporaryDirectory() as folder:
        path = os.path.join(folder, "ring.stl")
        count = ring_of(facets, path)
        size = os.path.getsize(path) / 1e6
        print(f"{count} facets, {size:.1f} MB")
        for name, words in TASKS:
            seconds, status, written, memory = min(run(program, words, path) for _ in range(RUNS))
            if status != 0:
                print(f"{name:20} ended with status {status}")
                continue
            print(f"{name:20} {seconds * 1000:8.0f} ms {size / seconds:8.0f} MB/s in {written / 1e6:8.1f} MB out {memory:8.0f} MiB")


if __name__ == "__main__":
    main()
