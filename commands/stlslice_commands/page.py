"""Slices a part into one page of HTML that shows its layers, for any browser."""

import base64
import html
import json
import os
import re
from pathlib import Path

from . import words
from .faults import Progress, Refused, command, finish, in_mm, shown, whole_file

MOST = 16_384  # columns and rows of a screen


@command
def run():
    made = words.shared(__doc__, "the page to write, as page.html")
    add = made.add_argument
    add("--pitch", type=words.micrometres, default=50, metavar="N", help="width and depth of a pixel in micrometres (%(default)s)")
    add("--canvas", type=words.canvas, metavar="COLUMNSxROWS",
        help="pixels of a printer's screen, with the part in its middle (without it: the grid that fits the part)")
    add("--title", metavar="TEXT", help="the page's heading (the file's name)")
    given = made.parse_args()
    with whole_file(given.output, given.part) as file:
        from .parts import Part  # only here, so that what is wrong is told at once
        part = Part(given)
        canvas = given.canvas and reached(given, part.box)
        meshes = part.open(canvas=canvas, pitch=given.pitch, layer=given.layer, rule=given.rule)
        if not meshes:
            sides = [count * given.pitch for count in given.canvas]
            raise Refused(f"the part doesn't fit: it is {in_mm(part.size)} mm, the canvas {in_mm(sides)} mm")
        mesh, = meshes
        Progress.show("slicing", is_new=True)
        areas, = part.asked(mesh.areas)
        part.refuse_dark(areas, given.rule)
        volume = sum(areas) * given.pitch ** 2 * given.layer / 1e12
        length = file.write(page_of(given, mesh, areas, f"{in_mm(part.size)} mm", f"{volume:.3f} ml").encode())
        line = f"{len(mesh)} layers, {volume:.3f} ml, {-(-length // 1000)} kB"
        finish(given, line, file, len(mesh), part.size, volume, bytes=length)


def reached(given, box):
    """What the part reaches of the canvas: as many columns and rows less on both sides, so that pixels are the same. A canvas that
    is too large stays so, and the library refuses it."""
    spare = [(count * given.pitch - max(1, after - before)) // (2 * given.pitch)
             for count, before, after in zip(given.canvas, box.low, box.high)]
    return given.canvas if max(given.canvas) > MOST else [count - 2 * max(0, it) for count, it in zip(given.canvas, spare)]


def page_of(given, mesh, areas, size, volume):
    """The page, which asks no network. It has each image once, as stlslice writes it, and for each layer the number of its image
    and how many of its pixels are lit."""
    from stlslice.images import smallest  # only here, as the part
    layers, height, width = mesh.shape
    columns, rows = given.canvas or (width, height)
    name = given.title or ("part" if given.part == "-" else os.path.basename(given.part))
    about = (f"{size}; {columns} x {rows} pixels of {given.pitch} µm, {layers} layers of {given.layer} µm, rule {given.rule}; "
             f"{volume}").replace(" x ", " × ")
    numbers, pngs = {}, Progress.through(mesh.pngs(depth=1, workers=given.workers), layers)
    number_of_each = [numbers.setdefault(smallest(png), len(numbers)) for png in pngs]
    data = {"columns": columns, "rows": rows, "pitch": given.pitch, "layer": given.layer, "z": mesh.origin[2],
            "part": [(columns - width) // 2, (rows - height) // 2, width, height],
            "images": [base64.b64encode(png).decode("ascii") for png in numbers], "layers": list(zip(number_of_each, areas))}
    parts = {"TITLE": html.escape(shown(name)), "ABOUT": about, "DATA": json.dumps(data, separators=(",", ":"))}
    page = Path(__file__).with_name("page.html").read_text(encoding="utf-8")
    return re.sub("@(TITLE|ABOUT|DATA)@", lambda it: parts[it[1]], page)
