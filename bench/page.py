#!/usr/bin/env python3
"""Times the page that slices beside the native library, on a mesh made here, a ring of about the given number of facets.

    bench/page.py PREVIEW.html LIBRARY [FACETS]

Times are those of opening the text, and of all images, eight layers at a time. Each is the least of 31, taken in turn, so that
other work on the machine counts little; the ratios to the native library's are printed. It needs Chromium and the folder of
`make library`.
"""

import ctypes
import os
import sys
import tempfile
import time

sys.dont_write_bytecode = True

from measure import ring_of

ROOT = os.path.dirname(os.path.dirname(os.path.abspath(__file__)))
RUNS = 31
SIZES = {"pitch": 100, "layer": 100}

# What the worker takes for opening the text that it has read, and for each eight images, in milliseconds
IN_WORKER = """(() => {
    const times = [performance.now()];
    open({ pitch: 100, layer: 100, rule: 0, unit: 0 });
    times.push(performance.now());
    for (let k = 0; k < shape.layers; k++) {
        bits_of(k);
        if (k % 8 === 7) times.push(performance.now());
    }
    return times.slice(1).map((it, at) => it - times[at]);
})()"""


def natively(stlslice, text):
    """The same of the native library, in milliseconds."""
    times = [time.perf_counter()]
    with stlslice.open(text, **SIZES) as mesh:
        times.append(time.perf_counter())
        image, size = (ctypes.c_char * mesh._size)(), ctypes.c_size_t()
        for k in range(len(mesh)):
            mesh._ask("mask", k, image, len(image), size)
            if k % 8 == 7:
                times.append(time.perf_counter())
    return [1000 * (after - before) for before, after in zip(times, times[1:])]


def least(runs):
    """The least time of opening, and the sum of the least times of all images."""
    opening, *layers = (min(it) for it in zip(*runs))
    return opening, sum(layers)


def main():
    if len(sys.argv) not in (3, 4) or not all(word.isdecimal() for word in sys.argv[3:]):
        sys.exit("use: bench/page.py PREVIEW.html LIBRARY [FACETS]")
    page, library = map(os.path.abspath, sys.argv[1:3])
    os.environ["STLSLICE_LIBRARY"] = os.path.join(library, "libstlslice.so.1")
    sys.path[:0] = [os.path.join(ROOT, "python"), os.path.join(ROOT, "library", "web")]
    import browser
    import stlslice

    with tempfile.TemporaryDirectory(prefix="stlslice-page-") as room, browser.Browser((1280, 800)) as chromium:
        path = os.path.join(room, "ring.stl")
        ring_of(int(sys.argv[3]) if len(sys.argv) > 3 else 20000, path)
        with open(path, "rb") as file:
            text = file.read()
        times = {"native": []}
        for bits in (64, 32):
            chromium.open(f"file://{page}#{bits}", (1280, 800))
            chromium.until("by('version').textContent")
            chromium.value("take = () => {}; 0")
            chromium.choose("#file", path)
            chromium.value("by('file').files[0].arrayBuffer().then((all) => slicer.call('read', { all }, [all]))")
            times[bits] = []
            for _ in range(RUNS):
                times[bits].append(chromium.in_worker(IN_WORKER))
                times["native"].append(natively(stlslice, text))
        for bits in (64, 32):
            opening, layers = (there / here for there, here in zip(least(times[bits]), least(times["native"])))
            print(f"{bits}-bit memory: opening {opening:.2f}, all layers {layers:.2f} times the native library's")


if __name__ == "__main__":
    main()
