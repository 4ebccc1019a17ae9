#!/usr/bin/env python3
"""Times pages that slice, in turn and in one run: those of before and after a change, say.

    library/web/tests/speed.py PREVIEW.html..

For each page: how many layers are shown a second while the slider is moved, on screens of 2560 x 1620 and 11520 x 5120 pixels;
milliseconds of one picture of 11520 x 5120 bits; and how long the areas of 800 layers take, of a ring of a million facets. Of
several runs the best counts. The last line has the processors, and the machine's load before the run, which should be near 0. It
needs Chromium.
"""

import os
import sys
import tempfile

sys.dont_write_bytecode = True

HERE = os.path.dirname(os.path.abspath(__file__))
ROOT = os.path.dirname(os.path.dirname(os.path.dirname(HERE)))
sys.path[:0] = [HERE, os.path.dirname(HERE), os.path.join(ROOT, "bench")]

import browser  # noqa: E402
from common import DESK, Page, example  # noqa: E402
from measure import ring_of  # noqa: E402

RUNS, SECONDS, FACETS = 2, 4, 1000000
SCREENS = [(2560, 1620, 50), (11520, 5120, 19)]

# Moves the slider at each frame, and counts the layers that were shown
SCRUBBED = """(async () => {
    const slider = by("layer"), began = performance.now();
    let count = 0, last = shown;
    while (performance.now() < began + %d) {
        slider.value = (slider.valueAsNumber + 7) %% opened.layers;
        slider.dispatchEvent(new Event("input"));
        await new Promise(requestAnimationFrame);
        count += shown !== last;
        last = shown;
    }
    return 1000 * count / (performance.now() - began);
})()""" % (1000 * SECONDS)

# Milliseconds of the picture of a layer, as the page makes it on a screen of this size
PICTURE = """(() => {
    const bits = bits_of(shape.layers / 2 | 0), side = 8, colours = [[250, 250, 250], [40, 50, 60]];
    const picture = () => picture_of.length < 3 ? picture_of(bits, side) : picture_of(bits, shape, side, colours);
    const times = Array.from({ length: 7 }, () => { const began = performance.now(); picture(); return performance.now() - began; });
    return Math.min(...times);
})()"""

# Finds all areas anew, and notes how long that took
AREAS = """(() => {
    areas = [];
    globalThis.took = 0;
    const began = performance.now();
    (function look() { areas.length === opened.layers ? took = performance.now() - began : setTimeout(look, 2); })();
    find_areas(opened);
})()"""


def take(page, path):
    """Chooses a file, and waits until a layer of it is shown, and all areas are known."""
    page.browser.choose("#file", path)
    page.until("opened && shown && areas.length === opened.layers && !find_areas.is_running?.()", 600)


def placed(page, columns, rows, pitch):
    """Fills the form of this page, or of an earlier one."""
    page.load()
    page.value("by('rule').selectedIndex = 2; by('height').value = 50; 0")
    if page.value("Boolean(by('grid'))"):
        page.value(f"by('grid').value = 'canvas'; by('pitch').value = {pitch}; by('grid').dispatchEvent(new Event('change', {{ bubbles: true }}))")
    else:
        page.value(f"by('printer').value = 'own'; by('width').value = by('depth').value = '{pitch}'; lay_form()")
    page.value(f"by('columns').value = {columns}; by('rows').value = {rows}; 0")
    take(page, example("supported"))


def figures(page, ring):
    found = []
    for screen in SCREENS:
        placed(page, *screen)
        found.append(page.value(SCRUBBED))
    found.append(page.in_worker(PICTURE))
    page.load()
    page.value("by('pitch').value = 50; by('height').value = 25; by('rule').selectedIndex = 2; 0")
    take(page, ring)
    page.value(AREAS)
    page.until("took", 600)
    return [*found, page.value("took")]


def main():
    if len(sys.argv) < 2:
        sys.exit("use: library/web/tests/speed.py PREVIEW.html..")
    load = os.getloadavg()[0]
    with tempfile.TemporaryDirectory(prefix="stlslice-speed-") as room, browser.Browser(DESK) as chromium:
        ring, told = os.path.join(room, "ring.stl"), {}
        ring_of(FACETS, ring)
        for _ in range(RUNS):
            for path in sys.argv[1:]:
                told.setdefault(path, []).append(figures(Page(chromium, os.path.abspath(path)), ring))
    for path, runs in told.items():
        small, large, picture, areas = zip(*runs)
        print(f"{path}: {max(small):.1f} layers a second at 2560 x 1620, {max(large):.1f} at 11520 x 5120, a picture of 12K bits "
              f"{min(picture):.0f} ms, areas of 800 layers {min(areas):.0f} ms")
    print(f"{os.cpu_count()} processors, load {load:.1f} before the run")


if __name__ == "__main__":
    main()
