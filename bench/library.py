#!/usr/bin/env python3
"""Times the library beside the program on a mesh made here, a ring of about the given number of facets: what a preview waits
for, and what a pipeline spends on all layers. And the memory of a mesh that is opened from a text, from arrays and from a binary
file, in a grid and on a screen.

    bench/library.py PROGRAM LIBRARY [FACETS]

Times are processor time, in times of a run of the program with one worker; each is the least of eleven, taken in turn. It
needs numpy, and for the memory glibc 2.33 or later.
"""

import array
import ctypes
import itertools
import os
import re
import resource
import struct
import subprocess
import sys
import tempfile

from measure import ring_of

RUNS = 11
SIZES = {"pitch": 100, "layer": 100}
WORDS = [f"--{name}={value}" for name, value in SIZES.items()]


class Heap(ctypes.Structure):
    """`struct mallinfo2` of glibc."""

    _fields_ = [(name, ctypes.c_size_t) for name in ("arena", "ordblks", "smblks", "hblks", "hblkhd", "usmblks", "fsmblks",
                                                     "uordblks", "fordblks", "keepcost")]


def modules(library):
    """numpy, and the Python module with this library."""
    os.environ["STLSLICE_LIBRARY"] = os.path.abspath(library)
    sys.path.append(os.path.join(os.path.dirname(os.path.abspath(__file__)), "..", "python"))
    try:
        import numpy
    except ImportError:
        sys.exit("bench: numpy is missing (Debian: python3-numpy)")
    import stlslice

    return numpy, stlslice


def in_use():
    """Bytes that malloc has given out."""
    call = ctypes.CDLL(None).mallinfo2
    call.restype = Heap
    told = call()
    return told.uordblks + told.hblkhd


def resident(name):
    with open("/proc/self/status") as told:
        return next(int(line.split()[1]) << 10 for line in told if line.startswith(f"{name}:"))


def spent():
    """Seconds of processor time of this process and of those that it has waited for."""
    return sum(used.ru_utime + used.ru_stime for used in map(resource.getrusage, (resource.RUSAGE_SELF, resource.RUSAGE_CHILDREN)))


def took(task):
    start = spent()
    task()
    return spent() - start


def through_pipe(program, path, shape, numpy):
    """The arrays of all layers, of the program's stream."""
    layers, rows, columns = shape
    header = len(f"P4\n{columns} {rows}\n")
    size = header + rows * ((columns + 7) // 8)
    with open(path) as text, subprocess.Popen([program, *WORDS], stdin=text, stdout=subprocess.PIPE) as child:
        for _ in range(layers):
            packed = numpy.frombuffer(child.stdout.read(size)[header:], numpy.uint8).reshape(rows, -1)
            numpy.unpackbits(packed, axis=1, count=columns).view(bool)


def binary_of(corners):
    """The binary STL of corners, in millimetres."""
    facets = zip(*[itertools.chain.from_iterable(corners)] * 9)
    return bytes(80) + struct.pack("<I", len(corners) // 3) + b"".join(struct.pack("<12fH", 0, 0, 0, *it, 0) for it in facets)


def openings(stlslice, text, pitch=SIZES["pitch"], layer=SIZES["layer"]):
    """What opens a mesh from a text, from the arrays of the same facets, and from their binary file. The module's copies of the
    arrays are made here, so what opens takes the library's memory alone."""
    known = {}
    found = array.array("I", (known.setdefault(row, len(known)) for row in re.findall(rb"vertex (.*)\n", text)))
    points = [[float(it) for it in row.split()] for row in known]
    corners, indices = stlslice._points(stlslice.micrometres(points)), stlslice._triangles(found)
    binary = binary_of([points[k] for k in found])
    options = stlslice._options(pitch, layer, "evenodd", None, "mm", None, 0)
    yield "a text", lambda: stlslice.open(text, pitch, layer)
    yield "arrays", lambda: stlslice.Mesh("open_mesh", (*corners[1:], *indices[1:]), options)
    yield "a binary file", lambda: stlslice.open(binary, pitch, layer)
    yield "a binary file on a screen", lambda: stlslice.open(binary, canvas=(4000, 3200), pitch=(19, 24), layer=layer, turn=1)


def memory(opens):
    """Facets of a mesh, bytes that it keeps when it is open, and bytes that opening takes at most, beside its text or arrays."""
    ctypes.CDLL(None).malloc_trim(0)    # what an earlier mesh gave back would else be taken again without being counted
    before = in_use()
    with open("/proc/self/clear_refs", "w") as peak:
        peak.write("5")
    start = resident("VmRSS")
    with opens() as mesh:
        kept, grown = in_use() - before, resident("VmHWM") - start
        return mesh.box.facets, kept, max(kept, grown)


def main():
    if len(sys.argv) not in (3, 4) or not all(word.isdecimal() for word in sys.argv[3:]):
        sys.exit("use: bench/library.py PROGRAM LIBRARY [FACETS]")
    program, (numpy, stlslice) = os.path.abspath(sys.argv[1]), modules(sys.argv[2])
    with tempfile.TemporaryDirectory() as folder:
        path = os.path.join(folder, "ring.stl")
        facets = ring_of(int(sys.argv[3]) if len(sys.argv) > 3 else 20_000, path)
        with open(path, "rb") as file:
            text = file.read()
        spent_on = [(name, *memory(opens)) for name, opens in openings(stlslice, text)]
        with stlslice.open(text, **SIZES) as mesh:
            shape = mesh.shape

        def run():
            with open(path) as source, tempfile.TemporaryFile() as sink:
                subprocess.run([program, *WORDS], stdin=source, stdout=sink, check=True)

        def opened(ask):
            with stlslice.open(text, **SIZES) as mesh:
                for _ in ask(mesh):
                    pass

        def layer(ask, turns):
            """The middle layer of a mesh that was just opened, when it is asked for the last of some times."""
            with stlslice.open(text, **SIZES) as mesh:
                return [took(lambda: ask(mesh, len(mesh) // 2)) for _ in range(turns)][-1]

        tasks = {
            "a run of the program": lambda: took(run),
            "open": lambda: took(lambda: opened(lambda mesh: ())),
            "the first layer that is asked for, the middle one": lambda: layer(stlslice.Mesh.image, 1),
            "the same as an array": lambda: layer(stlslice.Mesh.__getitem__, 1),
            "the same layer again": lambda: layer(stlslice.Mesh.image, 2),
            "open, all layers one by one": lambda: took(lambda: opened(lambda mesh: map(mesh.image, range(len(mesh))))),
            "open, all layers as arrays": lambda: took(lambda: opened(iter)),
            "the same arrays of the program's stream, through a pipe":
                lambda: took(lambda: through_pipe(program, path, shape, numpy)),
        }
        turns = [[task() for task in tasks.values()] for _ in range(RUNS)]
        found = dict(zip(tasks, map(min, zip(*turns))))
        whole = found["a run of the program"]
        print("{} facets, {} layers of {} by {} pixels; a run of the program takes {:.0f} ms".format(facets, *shape, whole * 1000))
        for name, seconds in found.items():
            print(f"{seconds / whole:8.4f}     {name}")
        for name, count, kept, most in spent_on:
            print(f"{kept / count:8.0f}     bytes a facet of a mesh opened from {name}")
            print(f"{most / count:8.0f}     bytes a facet that opening takes at most, beside what it is given")


if __name__ == "__main__":
    main()
