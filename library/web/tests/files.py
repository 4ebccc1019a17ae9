"""What people drop on the page: binary files, spoiled ones, several at once, other units, parts that are inside out."""

import base64
import math
import os
import re
import struct
import subprocess
from decimal import Decimal

from common import IDLE, ROOT, area_of, example, holds, images_of, same, script


def single(number):
    return struct.unpack("<f", struct.pack("<f", number))[0]


def exact(number):
    """All digits of a number."""
    return format(Decimal(number), "f")


def text_of(facets, word=exact):
    """Facets of nine numbers as a text, with all digits or other words."""
    lines = ["solid"]
    for facet in facets:
        corners = (" ".join(map(word, facet[at:at + 3])) for at in (0, 3, 6))
        lines += ["facet normal 0 0 0 outer loop", *(f"vertex {it}" for it in corners), "endloop endfacet"]
    return "\n".join([*lines, "endsolid", ""]).encode()


def half_micrometres(number):
    """A number near this one, of single precision, whose decimal of seven digits lies between two micrometres."""
    return single(round(number * 4) / 4 + 0.0005)


def written(program, text, *words):
    return subprocess.run([program, *words], input=text, capture_output=True, check=True).stdout


def facets_of(name, number=single):
    """The facets of an example, nine numbers each."""
    with open(example(name), encoding="ascii") as file:
        words = file.read().split()
    numbers = [number(float(words[at + it])) for at, word in enumerate(words) if word == "vertex" for it in (1, 2, 3)]
    return [numbers[at:at + 9] for at in range(0, len(numbers), 9)]


def gear():
    """The facets of an example, with many numbers near the middle between two micrometres."""
    return facets_of("helical_gear", half_micrometres)


def binary_of(facets):
    head = b"solid but binary".ljust(80) + struct.pack("<I", len(facets))
    return head + b"".join(struct.pack("<12fH", 0, 0, 0, *facet, 0) for facet in facets)


def try_binary(page, room, program):
    """A binary STL is the text with all digits of its numbers; a bad number is reported with its facet."""
    facets, binary = gear(), os.path.join(room, "binary.stl")
    with open(binary, "wb") as file:
        file.write(binary_of(facets))
    page.load()
    page.set(50, 100)
    page.take(binary)
    text = text_of(facets)
    box = written(program, text, "--box")
    holds("the box would be another with fewer digits", written(program, text_of(facets, "{:.7g}".format), "--box") != box)
    same(page.value("[...opened.low, ...opened.high]"), list(map(int, box.split()[3:])), "the box of a binary file")
    same(base64.b64decode(page.in_worker(script("all_layers"))["images"]),
         written(program, text, "--pitch", "50", "--layer", "100", "--rule", "positive"), "images of a binary file")
    holds("the page says that the file is binary", "from a binary file" in page.text("facts"))
    with open(binary, "r+b") as file:
        file.seek(84 + 50 * 6 + 12)
        file.write(struct.pack("<f", math.nan))
    page.take(binary)
    same([page.text("fault_line"), page.text("fault_place")],
         ["x of corner 0 of facet 6: not a number", "Facet 7 of the file, counted from 1."], "what is told of a number that is none")


def try_first_hints(page, room):
    """The word that does not fit tells which hint comes first."""
    page.load()
    with open(example("bracket"), encoding="ascii") as file:
        text = file.read()
    for old, new, title in (
            ("facet normal", "# a remark\nfacet normal", "Comments"), ("facet normal", "solid two\nfacet normal", "Several solids"),
            ("endloop", "end loop", "Keywords in two words"), ("vertex 1.", "vertex 1,", "Decimal commas"),
            ("vertex ", "vertex 1.5D+01 ", "Exponents with D"), ("vertex ", "vertex nan ", "nan or inf"),
            ("endloop", "vertex 0 0 0\nendloop", "Facets of four"), ("endfacet", "", "A facet that is not closed"),
            (text[30000:], "", "The file was cut")):
        changed = text.replace(old, new, 1)
        path = os.path.join(room, "spoiled.stl")
        with open(path, "w", encoding="ascii") as file:
            file.write(changed)
        page.take(path)
        holds(f"the first hint for {page.text('fault_line')} at {page.text('fault_place')}, {title}",
              page.value("by('hints').querySelector('summary').textContent").startswith(title))
    titles = page.value("[...TELLING.map(([, it]) => it), ...Object.values(OF_KINDS), 'The file was cut']")
    known = page.value("data.hints.map((it) => it.title)")
    same([it for it in titles if it not in known], [], "hints that are named but not there")


def try_several(page, room):
    """Of several files that are dropped, the first STL is shown, and it is said which."""
    page.load()
    page.browser.drop([os.path.join(ROOT, "README.md"), example("supported"), example("bracket")], *page.middle("#image"))
    page.until(IDLE)
    same(page.text("name"), "supported.stl", "the part that is shown")
    holds(page.text("warnings"), "3 files were dropped: this is supported.stl. Left out: README.md, bracket.stl" in page.text("warnings"))
    page.take(example("bracket"))
    same(page.text("warnings"), "", "what is said of one file")
    paths = [os.path.join(room, name) for name in ("one.obj", "other.obj")]
    for path in paths:
        with open(path, "wb") as file:
            file.write(b"v 0 0 0\n")
    page.browser.drop(paths, *page.middle("#image"))
    page.until(f"{IDLE} && !by('fault').hidden")
    same([page.text("fault_head"), page.text("warnings")],
         ["one.obj is refused, status 3", "2 files were dropped: this is one.obj. Left out: other.obj"], "what is said of one that is refused")


def try_units(page, room, program):
    """Numbers in cm and m are multiplied exactly, those of a binary file too."""
    binary, facets = os.path.join(room, "binary.stl"), facets_of("bracket")
    with open(example("bracket"), "rb") as file:
        text = file.read()
    with open(binary, "wb") as file:
        file.write(binary_of(facets))
    for unit, power, pitch, path, told in ((2, 1, 1000, example("bracket"), text), (2, 1, 1000, binary, text_of(facets)),
                                           (3, 3, 50000, binary, text_of(facets)), (3, 3, 50000, example("bracket"), text)):
        page.load()
        page.set(pitch, pitch, unit=unit)
        page.take(path)
        page.until("areas.length === opened.layers")
        times = re.sub(rb"(?<=\s)(-?\d+\.?\d*)e?([-+]\d+)?(?=\s)", lambda it: b"%se%d" % (it[1], int(it[2] or 0) + power), told)
        wanted = written(program, times, "--pitch", str(pitch), "--layer", str(pitch), "--rule", "positive")
        same(base64.b64decode(page.in_worker(script("all_layers"))["images"]), wanted, f"images of {path} in unit {unit}")
    holds(page.text("warnings"), "is m the unit of its numbers?" in page.text("warnings"))
    path = os.path.join(room, "spoiled.stl")
    with open(path, "wb") as file:
        file.write(text[:20000].replace(b"endloop", b"endlop")[:19000])
    page.take(path)
    with open(path, "rb") as file:
        line = subprocess.run([program, "--box"], stdin=file, capture_output=True).stderr.decode()
    same(f"stlslice: {page.text('fault_line')}\n", line, "the fault of a text in m")


def turned_out(text):
    """The text with each facet's corners in the other order."""
    return re.sub(rb"(?m)(vertex[^\n]*\n)(\s*vertex[^\n]*\n)(\s*vertex[^\n]*\n)", rb"\1\3\2", text)


def try_inside_out(page, room, program):
    """A part that is dark, or has a shell that is inside out, is warned of, with the commands' figures."""
    with open(example("calibration_block"), "rb") as file:
        whole = file.read()
    with open(example("bracket"), "rb") as file:
        other = file.read()
    page.load()
    for name, text in (("dark", turned_out(whole)), ("partly", whole + turned_out(other)), ("right", whole)):
        path = os.path.join(room, f"{name}.stl")
        with open(path, "wb") as file:
            file.write(text)
        page.set(200, 200)
        page.take(path)
        page.until("areas.length === opened.layers && !find_areas.is_running()")
        told = page.text("warnings")
        if name == "dark":
            holds(told, told.startswith("no pixel is lit by --rule positive: is the part inside out (try --rule nonzero)"))
        elif name == "partly":
            lit = [sum(map(area_of, images_of(program, path, "--pitch", "200", "--layer", "200", "--rule", rule)[0]))
                   for rule in ("positive", "nonzero")]
            positive, nonzero = (f"{it * 200 ** 3 / 1e12:.3f}" for it in lit)
            line = f"a shell is inside out somewhere: {positive} ml by --rule positive, {nonzero} ml by --rule nonzero"
            holds(f"{told} {lit}", line in told)
        else:
            same(told, "", "what is said of a part that is right")


def try_all(page, room, program):
    try_binary(page, room, program)
    try_first_hints(page, room)
    try_several(page, room)
    try_units(page, room, program)
    try_inside_out(page, room, program)
