#!/usr/bin/env python3
"""Makes the parts of this folder, of profiles with round holes, extruded. No argument, no packages.

Every corner is computed once and written with the same digits wherever it is used, so each mesh is closed to the
last digit.
"""

import math
import os


def cross(a, b, c):
    """Twice the signed area of a triangle in the plane."""
    return (b[0] - a[0]) * (c[1] - a[1]) - (b[1] - a[1]) * (c[0] - a[0])


def area(ring):
    return sum(p[0] * q[1] - q[0] * p[1] for p, q in zip(ring, ring[1:] + ring[:1])) / 2


def arc(centre, radius, start, end, steps):
    """Points of an arc, both ends included; angles in degrees."""
    angles = [math.radians(start + (end - start) * k / steps) for k in range(steps + 1)]
    return [(centre[0] + radius * math.cos(t), centre[1] + radius * math.sin(t)) for t in angles]


def circle(centre, radius, steps):
    return arc(centre, radius, 0, 360, steps)[:-1]


def bridged(outer, hole):
    """One ring of an outer ring (counterclockwise) and a hole in it (clockwise), joined by a cut between two corners
    that see each other."""
    edges = [pair for ring in (outer, hole) for pair in zip(ring, ring[1:] + ring[:1])]
    for i, j in sorted(((i, j) for i in range(len(outer)) for j in range(len(hole))),
                       key=lambda ij: math.dist(outer[ij[0]], hole[ij[1]])):
        if sees(outer[i], hole[j], edges):
            return outer[:i + 1] + hole[j:] + hole[:j + 1] + outer[i:]
    raise ValueError("no corner of the outer ring sees the hole")


def sees(p, q, edges):
    for a, b in edges:
        if p in (a, b) or q in (a, b):
            continue
        if cross(p, q, a) * cross(p, q, b) <= 0 and cross(a, b, p) * cross(a, b, q) <= 0:
            return False
    return True


def triangles(ring):
    """A counterclockwise ring cut into triangles, ear by ear."""
    ring = list(ring)
    found = []
    while len(ring) > 3:
        ear = next(k for k in range(len(ring)) if is_ear(ring, k))
        found.append((ring[ear - 1], ring[ear], ring[(ear + 1) % len(ring)]))
        del ring[ear]
    found.append(tuple(ring))
    return found


def is_ear(ring, k):
    a, b, c = ring[k - 1], ring[k], ring[(k + 1) % len(ring)]
    if cross(a, b, c) <= 1e-12:
        return False
    for p in ring:
        if p in (a, b, c):
            continue
        if cross(a, b, p) >= 0 and cross(b, c, p) >= 0 and cross(c, a, p) >= 0:
            return False
    return True


def extruded(outer, holes, low, high, place):
    """The facets of a profile between two heights; `place` puts a profile's point and a height into space."""
    rings = [outer] + holes
    whole = outer
    for hole in holes:
        whole = bridged(whole, hole)
    facets = []
    for a, b, c in triangles(whole):
        facets.append((place(a, high), place(b, high), place(c, high)))
        facets.append((place(a, low), place(c, low), place(b, low)))
    for ring in rings:
        for p, q in zip(ring, ring[1:] + ring[:1]):
            facets.append((place(p, low), place(q, low), place(q, high)))
            facets.append((place(p, low), place(q, high), place(p, high)))
    return facets


def twisted(outer, bore, steps, height, degrees):
    """The facets of a profile with a bore, from height 0 up, turned by so many degrees on its way in so many steps."""
    def ring(step):
        t = math.radians(degrees * step / steps)
        return [(x * math.cos(t) - y * math.sin(t), x * math.sin(t) + y * math.cos(t)) for x, y in outer]

    facets = []
    for step in range(steps):
        low, high = ring(step), ring(step + 1)
        z, top = height * step / steps, height * (step + 1) / steps
        for k in range(len(outer)):
            p, q, r, s = low[k], low[(k + 1) % len(low)], high[(k + 1) % len(high)], high[k]
            facets += [((*p, z), (*q, z), (*r, top)), ((*p, z), (*r, top), (*s, top))]
    for p, q in zip(bore, bore[1:] + bore[:1]):
        facets += [((*p, 0), (*q, 0), (*q, height)), ((*p, 0), (*q, height), (*p, height))]
    for a, b, c in triangles(bridged(ring(steps), bore)):
        facets.append(((*a, height), (*b, height), (*c, height)))
    for a, b, c in triangles(bridged(ring(0), bore)):
        facets.append(((*a, 0), (*c, 0), (*b, 0)))
    return facets


def normal(a, b, c):
    u = [b[k] - a[k] for k in range(3)]
    v = [c[k] - a[k] for k in range(3)]
    n = [u[1] * v[2] - u[2] * v[1], u[2] * v[0] - u[0] * v[2], u[0] * v[1] - u[1] * v[0]]
    length = math.hypot(*n) or 1.0
    return [x / length for x in n]


def text(name, facets):
    lines = [f"solid {name}"]
    for facet in facets:
        lines.append("  facet normal " + numbers(normal(*facet)))
        lines.append("    outer loop")
        lines += ["      vertex " + numbers(point) for point in facet]
        lines.append("    endloop")
        lines.append("  endfacet")
    lines.append(f"endsolid {name}")
    return "\n".join(lines) + "\n"


def numbers(values):
    return " ".join("%.6e" % (value + 0.0) for value in values)


def calibration_block():
    """A block of 20 by 20 by 8 mm around the origin, one corner cut off, with a bore of 10 mm."""
    outer = [(-10, -10), (10, -10), (10, 6), (6, 10), (-10, 10)]
    bore = list(reversed(circle((0, 0), 5, 40)))
    return extruded(outer, [bore], 0, 8, lambda p, z: (p[0], p[1], z))


def bracket():
    """An angle of 28 by 27 mm, 4 mm thick and 12 mm wide, rounded inside, with a bore of 5 mm in a round eye."""
    inside = arc((10, 10), 6, 270, 180, 10)
    eye = arc((2, 21), 6, -70.528779366, 180 + 70.528779366, 20)
    outer = [(0, 0), (28, 0), (28, 4)] + inside + eye
    bore = list(reversed(circle((2, 21), 2.5, 24)))
    return extruded(outer, [bore], 0, 12, lambda p, y: (p[0], 12 - y, p[1]))


def supported():
    """The bracket raised by 5 mm on six pillars and a raft, each a closed shell of its own: the pillars reach 1 mm
    into the bracket and into the raft, as supports do."""
    facets = [tuple((x, y, z + 5) for x, y, z in facet) for facet in bracket()]
    facets += pillar_of([(-3, -3), (31, -3), (31, 15), (-3, 15)], 0, 1.5)
    for x in (4, 14, 24):
        for y in (3, 9):
            facets += pillar_of(circle((x, y), 1, 6), 0.5, 6)
    return facets


def pillar_of(ring, low, high):
    return extruded(ring, [], low, high, lambda p, z: (p[0], p[1], z))


def helical_gear():
    """A gear of 12 teeth and 30 mm, 12 mm tall, that turns by 30 degrees on its way, with a bore of 8 mm."""
    outer = []
    for tooth in range(12):
        for degrees, radius in ((-8.5, 12.0), (-3.5, 15.0), (3.5, 15.0), (8.5, 12.0)):
            t = math.radians(30 * tooth + degrees)
            outer.append((radius * math.cos(t), radius * math.sin(t)))
    bore = list(reversed(circle((0, 0), 4, 32)))
    return twisted(outer, bore, 10, 12, 30)


PARTS = (("calibration_block", calibration_block()), ("bracket", bracket()), ("helical_gear", helical_gear()),
         ("supported", supported()))


def main():
    here = os.path.dirname(os.path.abspath(__file__))
    for name, facets in PARTS:
        with open(os.path.join(here, name + ".stl"), "w", newline="\n") as file:
            file.write(text(name, facets))


if __name__ == "__main__":
    main()
