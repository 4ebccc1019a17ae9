#!/usr/bin/env python3
"""Writes a table of what the library takes for parts of about a million facets in 800 layers: a ball, a ring, and the ball
beside a needle as high as it, of whose four facets three rise through all layers.

    bench/large.py LIBRARY [FACETS]

Times in lines that name threads are by the clock, all others processor time; each is the least of five, taken in turn. Threads
share one mesh, and each takes the next layer that is left. The hashes, of 64 KB each, say how the machine itself scales: they
take no memory beside a processor's own. It needs numpy, and for the memory glibc 2.33 or later. Run it on a machine with nothing
else to do.
"""

import collections
import ctypes
import functools
import hashlib
import os
import pathlib
import random
import sys
import tempfile
import time
from concurrent.futures import ThreadPoolExecutor

from library import memory, modules, openings, spent, took
from measure import facet, ring_of
from table import machine, write

RUNS, THREADS, STRIPE = 5, (1, 2, 4), 8
BLOCK, ROOM = bytes(1 << 16), 1 << 18


def beside_needle(text):
    """The text of a part that is 60 mm high and wide, with a closed needle beside it."""
    corners = "61 0 0", "61.2 0 0", "61 0.2 0", "61 0 60"
    needle = "".join(facet(*(corners[it] for it in of)) for of in ((0, 2, 1), (0, 1, 3), (1, 2, 3), (2, 0, 3)))
    before, end, name = text.rpartition(b"endsolid")
    return before + needle.encode() + end + name


def parts(facets):
    """The text of each part, and the height of its layers, by its name."""
    with tempfile.TemporaryDirectory() as folder:
        path = pathlib.Path(folder, "part.stl")
        write(("sphere", round((facets / 20) ** 0.5), 60000), path)
        ball = path.read_bytes()
        ring_of(facets, path)
        return {"Ball": (ball, 75), "Ring": (path.read_bytes(), 25), "Ball and needle": (beside_needle(ball), 75)}


def done(ask, numbers):
    collections.deque(map(ask, numbers), 0)


def by_clock(threads, ready, numbers):
    """Seconds that threads take for all of these numbers. `ready` gives each what asks, with a buffer of its own."""
    asks, left = [ready() for _ in range(threads)], iter(numbers)
    with ThreadPoolExecutor(threads) as pool:
        start = time.perf_counter()
        list(pool.map(lambda ask: done(ask, left), asks))
        return time.perf_counter() - start


def each(ask, numbers):
    """The least seconds of each of these numbers, which are asked for in random order."""
    runs = [{k: took(lambda: ask(k)) for k in random.sample(numbers, len(numbers))} for _ in range(RUNS)]
    return [min(run[k] for run in runs) for k in numbers]


def opened(opens):
    start = spent()
    with opens():
        return spent() - start


def calls_of(mesh):
    """What the library is asked for by layer, and what gives a thread a call of its own for that."""
    def ask(*words):
        return mesh._ask(*words) or sys.exit(f"bench: the buffer for {words[0]} is too small")

    def buffered(name, room, *words):
        buffer, size = (ctypes.c_char * room)(), ctypes.c_size_t()
        return lambda k: ask(name, k, *words, buffer, room, size)

    def loops():
        points, ends, counts = (ctypes.c_int64 * 2 * ROOM)(), (ctypes.c_size_t * ROOM)(), [ctypes.c_size_t() for _ in range(2)]
        return lambda k: ask("loops", k, points, ROOM, counts[0], ends, ROOM, counts[1])

    def area():
        pixels = ctypes.c_uint64()
        return lambda k: ask("area", k, pixels)

    found = {"images": functools.partial(buffered, "mask", mesh._size), "areas": area, "loops": loops,
             "PNGs": functools.partial(buffered, "png", mesh._size + 100, 8, 0)}
    return found, functools.partial(buffered, "stripe", STRIPE * mesh._size)


def cells(stlslice, text, layer):
    """A part's column of the table, each cell by the name of its row."""
    opens = dict(openings(stlslice, text, 50, layer))
    held = {name: memory(it) for name, it in opens.items()}
    with opens["a binary file"]() as mesh:
        calls, stripes = calls_of(mesh)
        layers = range(len(mesh))
        shared = {**calls, "hashes": lambda: lambda k: hashlib.sha256(BLOCK).digest()}
        tasks = {
            **{name: functools.partial(opened, it) for name, it in opens.items()},
            "images": lambda: took(lambda: done(calls["images"](), layers)), "areas": lambda: took(mesh.areas),
            **{(name, count): functools.partial(by_clock, count, it, layers) for name, it in shared.items() for count in THREADS},
        }
        turns = [[task() for task in tasks.values()] for _ in range(RUNS)]
        found = dict(zip(tasks, map(min, zip(*turns))))
        # whole stripes alone
        one, eight = each(calls["images"](), layers[:len(mesh) // STRIPE * STRIPE]), each(stripes(), range(len(mesh) // STRIPE))
    told = {"facets, layers": f"{held['arrays'][0]:,}, {len(layers)}"}
    for name, (count, kept, taken) in held.items():
        told[f"opening {name}"] = f"{1000 * found[name]:.0f} ms; {kept / count:.0f} bytes a facet, {taken / count:.0f} meanwhile"
    told["an image in random order"] = f"{1000 * sum(one) / len(one):.3f} ms"
    ratios = [STRIPE * it / eight[k // STRIPE] for k, it in enumerate(one)]
    told["the same, in eighths of its stripe"] = f"{sum(one) / sum(eight):.2f}, at most {max(ratios):.2f}"
    told["all images one by one"] = f"{1000 * found['images']:.0f} ms"
    told["all areas in one call"] = f"{1000 * found['areas']:.0f} ms, {found['areas'] / found['images']:.2f} of the images"
    for name in shared:
        times = [found[name, count] for count in THREADS]
        faster = ", ".join(f"{times[0] / it:.2f}" for it in times[1:])
        told[f"{name} by {', '.join(map(str, THREADS))} threads"] = f"{1000 * times[0]:.0f} ms, {faster} times as fast"
    return told


def main():
    if len(sys.argv) not in (2, 3) or not all(word.isdecimal() for word in sys.argv[2:]):
        sys.exit("use: bench/large.py LIBRARY [FACETS]")
    numpy, stlslice = modules(sys.argv[1])
    load, facets = os.getloadavg()[0], int(sys.argv[2]) if len(sys.argv) > 2 else 1_000_000
    handle, *words = stlslice._lib.stlslice_mask.argtypes
    stlslice._lib.stlslice_stripe.argtypes = [handle, ctypes.c_uint64, *words[1:]]
    points = numpy.random.default_rng(1).uniform(-60, 60, (1_000_000, 3))
    exact = min(took(lambda: stlslice.micrometres(points)) for _ in range(RUNS))
    columns = {name: cells(stlslice, *it) for name, it in parts(facets).items()}
    print(f"| | {' | '.join(columns)} |\n|{'---|' * (len(columns) + 1)}")
    for row in columns["Ball"]:
        print(f"| {row} | {' | '.join(it[row] for it in columns.values())} |")
    print(f"\n`stlslice.micrometres` of a million points: {1000 * exact:.0f} ms\n{machine()}, load {load:.1f} before the run")


if __name__ == "__main__":
    main()
