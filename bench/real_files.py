#!/usr/bin/env python3
"""Slices files that others made by stlslice-pngs, and compares each PNG with the program's own of a text of the same micrometres.

    bench/real_files.py PROGRAM [FOLDER..]

Without a folder it takes those of PACKAGES and their tarballs. The status is 1 if a pixel differs, or a file is refused silently.
"""

import argparse
import collections
import concurrent.futures
import os
import re
import subprocess
import sys
import tempfile

ROOT = os.path.dirname(os.path.dirname(os.path.abspath(__file__)))
sys.path[:0] = [os.path.join(ROOT, it) for it in ("python", "commands", "tests")]
from parts import middle, text  # noqa: E402
from stlslice_commands import faults, formats, parts  # noqa: E402
import stlslice  # noqa: E402
from stlslice import shells  # noqa: E402

PACKAGES = "prusa-slicer assimp-testmodels cura libcgal-demo geomview gmsh-doc openscad".split()
WHY = {"open edge": "open", "not STL": "other kind", "is no text": "no text", "no pixel is lit": "dark", "no facet": "no facets"}


def ran(*words, body=None):
    return subprocess.run(words, input=body, stdout=subprocess.PIPE, stderr=subprocess.PIPE)


def below(folder):
    return [os.path.join(at, name) for at, _, names in os.walk(folder) for name in names]


def installed(room):
    for path in ran("dpkg", "-L", *PACKAGES).stdout.decode().splitlines():
        unpack = {".tar.gz": 'tar -xf "$0" -C "$1"', ".stl.gz": 'zcat "$0" > "$1/part.stl"'}.get(path[-7:])
        yield path
        if unpack:
            ran("sh", "-c", unpack, path, tempfile.mkdtemp(dir=room))
    yield from below(room)


def facets_of(data, kind):
    """The facets of a part, but for degenerate ones, in micrometres; or none if it can't be read."""
    try:
        arrays = parts.arrays_of(kind, data, argparse.Namespace(part="-", unit="mm")) if kind else None
        found = shells.facets_of(*arrays) if arrays else stlslice.read(data)
        found = found.tolist() if hasattr(found, "tolist") else found
        return [corners for corners in ([tuple(it) for it in facet] for facet in found) if len(set(corners)) == 3]
    except (faults.Refused, stlslice.Fault):
        return []


def compared(program, path, out):
    """The kind of a file; and how many layers are the program's, or why it is refused, or what is wrong."""
    data = parts.read(path)
    kind = "binary STL" if formats.is_binary(len(data), data[:84]) else formats.kind_of(data) or "ASCII STL"
    facets = facets_of(data, None if "STL" in kind else kind)
    sides = [max(it) - min(it) for it in zip(*(corner for facet in facets for corner in facet))] or [0, 0, 0]
    pitch, layer = (min(side // count + 1, 100_000) for side, count in ((max(sides[:2]), 200), (sides[2], 25)))
    words = ["--pitch", str(pitch), "--layer", str(layer), "--rule", "positive"]
    made = ran(f"{ROOT}/commands/stlslice-pngs", "--canvas", "210x210", *words, path, out)
    if made.returncode:
        line = re.search(r"(?m)^stlslice(?:-pngs)?: (.*)\n\Z", made.stderr.decode())
        return kind, next((why for words, why in WHY.items() if words in line[1]), f"status {made.returncode}") if line else "WRONG"
    body = text([["%.3f" % (it / 1000) for it in corner] for corner in facet] for facet in facets).encode()
    grid = middle(ran(program, "--box", body=body).stdout, (210, 210), pitch, layer)
    is_same = ran("cat", *sorted(below(out))).stdout == ran(program, *words, grid, "--png", body=body).stdout
    return kind, len(below(out)) if is_same else "WRONG: other pixels"


def main():
    program, *folders = sys.argv[1:] or sys.exit(__doc__)
    told = collections.defaultdict(collections.Counter)
    with tempfile.TemporaryDirectory(prefix="stlslice-bench-") as room, concurrent.futures.ThreadPoolExecutor(4) as pool:
        paths = [path for it in folders for path in below(it)] or installed(room)
        paths = (it for it in paths if re.search(r"(?i)\.(stl|obj|3mf|off|ply|amf)$", it))
        paths = sorted({os.path.realpath(it) for it in paths if os.path.isfile(it)})
        made = pool.map(lambda it: compared(program, it, tempfile.mkdtemp(dir=room)), paths)
        for path, (kind, what) in zip(paths, made):
            told[kind].update({"taken": 1, "layers": what} if isinstance(what, int) else {what: 1})
            print(f"{path}: {what}", file=sys.stderr)
    for kind, counts in sorted(told.items()):
        print(f"{kind:12}{', '.join(f'{what}: {count:,}' for what, count in counts.items())}")
    return "WRONG" in str(told)


if __name__ == "__main__":
    sys.exit(main())
