#!/usr/bin/env python3
"""Makes a marker for an open edge, as an STL to load beside the part in a viewer.

    stlslice --pitch 50 --layer 50 < part.stl 2>&1 > layers.pbm | mark_edge.py > marker.stl

It reads the slicer's line `open edge X0 Y0 Z0 to X1 Y1 Z1 ...` and writes a spindle along that edge, which juts out
by `--size` at both ends. Nothing but Python's standard library is needed.
"""

import argparse
import math
import re
import sys

EDGE = re.compile(r"open edge (-?\d+) (-?\d+) (-?\d+) to (-?\d+) (-?\d+) (-?\d+)")


def main():
    parser = argparse.ArgumentParser(description="Makes a marker STL for the open edge in the slicer's line.")
    parser.add_argument("--size", type=float, default=2.0, metavar="MM", help="by how much it juts out (%(default)s)")
    parser.add_argument("--unit", default="mm", choices=["mm", "inch"], help="unit of the part's numbers (%(default)s)")
    given = parser.parse_args()
    text = sys.stdin.buffer.read().decode("ascii", "replace")
    found = EDGE.search(text)
    if not found:
        is_image = text.startswith(("P4\n", "\ufffdPNG"))
        sys.exit("mark_edge.py: no open edge in: " + ("images (is > layers.pbm missing?)" if is_image else text.strip() or "nothing"))
    unit = 1000 if given.unit == "mm" else 25400
    ends = [int(n) / unit for n in found.groups()]
    sys.stdout.write(spindle(ends[:3], ends[3:], given.size * 1000 / unit))


def spindle(low, high, size):
    """Two pyramids back to back: four points around the edge's middle, and a tip beyond each end."""
    along = unit_of([high[k] - low[k] for k in range(3)])
    least = min(range(3), key=lambda k: abs(along[k]))
    aside = unit_of(cross(along, [float(k == least) for k in range(3)]))
    across = cross(along, aside)
    middle = [(low[k] + high[k]) / 2 for k in range(3)]
    ring = [[middle[k] + size / 4 * (c * aside[k] + s * across[k]) for k in range(3)]
            for c, s in ((1, 0), (0, 1), (-1, 0), (0, -1))]
    tips = [[low[k] - size * along[k] for k in range(3)], [high[k] + size * along[k] for k in range(3)]]
    lines = ["solid marker"]
    for p, q in zip(ring, ring[1:] + ring[:1]):
        for corners in ((p, q, tips[1]), (q, p, tips[0])):
            lines += ["facet normal 0 0 0", "outer loop"]
            lines += ["vertex %.4f %.4f %.4f" % tuple(corner) for corner in corners]
            lines += ["endloop", "endfacet"]
    return "\n".join(lines + ["endsolid marker"]) + "\n"


def unit_of(v):
    length = math.hypot(*v)
    return [x / length for x in v]


def cross(u, v):
    return [u[1] * v[2] - u[2] * v[1], u[2] * v[0] - u[0] * v[2], u[0] * v[1] - u[1] * v[0]]


if __name__ == "__main__":
    main()
