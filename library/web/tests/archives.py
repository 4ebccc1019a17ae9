"""What the page saves of all layers beside what the commands make: every entry's bytes, and the heads of the zip; and settings
for printers that the page does not place parts for."""

import io
import json
import math
import os
import random
import shlex
import shutil
import struct
import subprocess
import sys
import time
import zipfile
from fractions import Fraction
from types import SimpleNamespace
from unittest import mock

from common import ROOT, example, field_of, holds, same
from files import binary_of, gear
from measure import place

sys.path.append(os.path.join(ROOT, "commands"))

MOMENT = 1795000001  # odd: a zip has even seconds
NUMBERS = 100000
SETTINGS = 400


def cases(room):
    """Parts, what is filled into the form, and the same words for the command: for both printers, a screen of 12K, pixels that are not
    square, a turn, each kind of file, and a million facets."""
    ring, binary = os.path.join(room, "a ring, 1.stl"), os.path.join(room, "gear.stl")
    write_ring(ring)
    with open(binary, "wb") as file:
        file.write(binary_of(gear()))
    own, resin = {"exposure": "7.125", "first_exposure": "30.5", "fade": "3"}, "Tough,  blue\u00e9"
    own_words = ["--exposure", "7.125", "--first-exposure", "30.5", "--fade", "3"]
    bracket, supported = example("bracket"), example("supported")
    return [
        (supported, {"printer": "SL1", "height": 100}, ["--printer", "SL1", "--layer", "100"]),
        (bracket, {"printer": "SL1S", "turn": True, **own, "material": resin},
         ["--printer", "SL1S", "--turn", *own_words, "--material", resin]),
        (bracket, {**screen(701, 403, "100"), "height": 1000, "mirror_x": True, "mirror_y": True, **own, "material": "-x"},
         ["--canvas", "701x403", "--pitch", "100", "--layer", "1000", "--mirror-x", "--mirror-y", *own_words, "--material=-x"]),
        (bracket, {**screen(540, 210, "610"), "height": 3330, "unit": 2},
         ["--canvas", "540x210", "--pitch", "610", "--layer", "3330", "--unit", "cm"]),
        (supported, {**screen(11520, 5120, "19"), "height": 500}, ["--canvas", "11520x5120", "--pitch", "19", "--layer", "500"]),
        (supported, {**screen(11520, 5120, "19", "24"), "height": 500, "mirror_x": True, "mirror_y": True, "turn": True},
         ["--canvas", "11520x5120", "--pitch", "19x24", "--layer", "500", "--mirror-x", "--mirror-y", "--turn"]),
        (binary, {"printer": "SL1S", "height": 500}, ["--printer", "SL1S", "--layer", "500"]),
        (ring, {"printer": "SL1S", "height": 400, "rule": 1}, ["--printer", "SL1S", "--layer", "400", "--rule", "nonzero"]),
    ]


def write_ring(path, around=1000, across=500):
    """A binary STL of a million facets."""
    points = [[struct.pack("<3f", *map(float, place(2 * math.pi * i / around, 2 * math.pi * j / across).split()))
               for j in range(across)] for i in range(around)]
    with open(path, "wb") as file:
        file.write(bytes(80) + struct.pack("<I", 2 * around * across))
        for one, other in zip(points, [*points[1:], points[0]]):
            for j in range(across):
                a, b, c, d = one[j - 1], other[j - 1], other[j], one[j]
                file.write(b"".join([bytes(12), a, b, c, bytes(14), a, c, d, bytes(2)]))


def screen(columns, rows, width, depth=None):
    return {"printer": "own", "columns": columns, "rows": rows, "width": width, "depth": depth or width}


def fill(page, fields):
    """Fills fields as a hand does, those of the archive too."""
    words = []
    for name, value in fields.items():
        what = "selectedIndex" if name in ("rule", "unit") else field_of(value)
        words.append(f"by({json.dumps(name)}).{what} = {json.dumps(value)}")
    page.value("; ".join([*words, "lay_form()", "by('archive').dispatchEvent(new Event('change'))", "0"]))


def ran_command(program, name, *words):
    """A command of this folder that has run, at the moment that the page takes."""
    path = f"{os.path.dirname(program)}:{os.environ['PATH']}"
    return subprocess.run([sys.executable, os.path.join(ROOT, "commands", name), *words], capture_output=True, text=True, errors="replace",
                          env={**os.environ, "PATH": path, "SOURCE_DATE_EPOCH": str(MOMENT)})


def command(program, name, part, output, words):
    ran = ran_command(program, name, "--workers", "4", *words, part, output)
    same(ran.returncode, 0, f"status of {name} {words}: {ran.stderr}")


def head_of(entry):
    return (entry.filename, entry.date_time, entry.create_system, entry.create_version, entry.extract_version, entry.external_attr,
            entry.internal_attr, entry.extra, entry.comment, entry.flag_bits, entry.compress_type, entry.CRC, entry.file_size)


def local_head_of(entry, path):
    """The bytes before an entry's data, up to the end of its name, without the size that depends on who compressed it."""
    with open(path, "rb") as file:
        file.seek(entry.header_offset)
        head = file.read(30 + len(entry.filename.encode()))
    return head[:18] + head[22:]


def same_archive(found, wanted, what):
    with zipfile.ZipFile(found) as mine, zipfile.ZipFile(wanted) as theirs:
        same([head_of(it) for it in mine.infolist()], [head_of(it) for it in theirs.infolist()], f"heads of {what}")
        same([local_head_of(it, found) for it in mine.infolist()], [local_head_of(it, wanted) for it in theirs.infolist()],
             f"heads before the data of {what}")
        for name in theirs.namelist():
            same(mine.read(name), theirs.read(name), f"{name} of {what}")
        return len(theirs.namelist())


def opened_in(page, part, fields):
    page.load()
    page.value(f"moment = () => {MOMENT}; 0")
    fill(page, fields)
    page.take(part)
    holds(f"{part} is opened: {page.text('fault_line')}", page.value("opened !== null"))


def same_copied(page, name, words, archive):
    """The command to copy has these words for a file of this name, and those that the form has without being filled."""
    usual = [it for option, value in (("--layer", "50"), ("--rule", "positive")) if option not in words for it in (option, value)]
    first, *found, file, output = shlex.split(page.text("command"))
    same([first, sorted(found), file, output], ["stlslice-sl1", sorted([*words, *usual]), name, archive], "the command to copy")


def try_archives(page, room, program, every):
    entries = 0
    for part, fields, words in every:
        opened_in(page, part, fields)
        name = f"{os.path.basename(part)[:-4]}.sl1"
        same_copied(page, os.path.basename(part), words, name)
        wanted = os.path.join(room, name)
        command(program, "stlslice-sl1", part, wanted, words)
        entries += same_archive(page.saved(name, "save_archive"), wanted, f"{name} {fields}")
        os.remove(wanted)
    return f"{len(every)} archives with {entries} entries, each as stlslice-sl1 writes it"


def try_pngs(page, room, program):
    """A zip of PNGs has what `stlslice-pngs` puts into a folder."""
    opened_in(page, example("bracket"), {**screen(640, 480, "100"), "height": 500})
    folder = os.path.join(room, "pngs")
    command(program, "stlslice-pngs", example("bracket"), folder, ["--canvas", "640x480", "--pitch", "100", "--layer", "500"])
    with zipfile.ZipFile(page.saved("bracket_pngs.zip", "save_pngs")) as found:
        same(found.namelist(), sorted(os.listdir(folder)), "the names of PNGs")
        for name in found.namelist():
            with open(os.path.join(folder, name), "rb") as file:
                same(found.read(name), file.read(), name)
    shutil.rmtree(folder)
    page.load()
    page.set(500, 1000)
    page.take(example("bracket"))
    with open(example("bracket"), "rb") as text:
        words = [program, "--pitch", "500", "--layer", "1000", "--rule", "positive", "--png", "--depth", "8"]
        stream = subprocess.run(words, stdin=text, stdout=subprocess.PIPE, check=True).stdout
    with zipfile.ZipFile(page.saved("bracket_pngs.zip", "save_pngs")) as found:
        same(found.namelist(), [f"{k:05}.png" for k in range(27)], "the names of PNGs without a printer")
        same(b"".join(map(found.read, found.namelist())), stream, "PNGs without a printer")


def try_wrong_fields(page):
    """A wrong exposure is shown, and nothing is saved by it."""
    opened_in(page, example("bracket"), {**screen(640, 480, "100"), "height": 500, "exposure": "0.0"})
    page.value("by('save_archive').click()")
    page.until("document.activeElement.id === 'exposure' && by('exposure').checkVisibility()")
    same(page.value("save_all.is_running()"), False, "whether it is saved")
    os.remove(page.saved("bracket_pngs.zip", "save_pngs"))  # which has no exposures
    page.value("by('exposure').value = ''; by('archive').dispatchEvent(new Event('change'))")
    os.remove(page.saved("bracket.sl1", "save_archive"))


def try_limits(page):
    """With more entries, or more bytes, than 16 and 32 bits hold a zip is the one that Python's zipfile writes. Here the limits are
    small, and each browser packs such short entries in the same way."""
    names = [f"{number}\u00e9.png" for number in range(9)]
    for entries, most, held in ((9, 999, 999), (8, 999, 999), (9, 200, 0), (9, 500, 100), (0, 40, 50)):
        found = page.in_worker(f"""(async () => {{
            const zip = new Zip({MOMENT}, {{ entries: {entries}, bytes: {most}, held: {held} }});
            for (const name of {json.dumps(names)}) await zip.add(name, new TextEncoder().encode(name[0]));
            return [...new Uint8Array(await zip.blob().arrayBuffer())];
        }})()""")
        made = io.BytesIO()
        with mock.patch.multiple(zipfile, ZIP_FILECOUNT_LIMIT=entries, ZIP64_LIMIT=most), zipfile.ZipFile(made, "w") as archive:
            for name in names:
                archive.writestr(zipfile.ZipInfo(name, time.gmtime(MOMENT)[:6]), name[0], zipfile.ZIP_DEFLATED)
        same(bytes(found), made.getvalue(), f"a zip of limits {entries} and {most}")


def try_no_room(page):
    """A zip for which the browser has no room is not said to be saved."""
    opened_in(page, example("bracket"), {**screen(640, 480, "100"), "height": 500})
    page.value("Blob.prototype.slice = () => ({ arrayBuffer: () => Promise.reject(new Error('no')) }); by('save_pngs').click()")
    page.until("!save_all.is_running()")
    same([page.text("warnings"), page.text("said")], ["bracket_pngs.zip is not saved: the browser has no room for its 1 MB", ""],
         "what is said")
    same("bracket_pngs.zip" in os.listdir(page.browser.saved), False, "whether it is saved")


def numbers():
    """Numbers of many sizes, and exact halves of the last digit that is written."""
    draw = random.Random(54)
    for _ in range(NUMBERS // 4):
        yield draw.random() * 10.0 ** draw.randint(-6, 9)
        yield draw.randint(0, 10 ** draw.randint(1, 9)) / 2 ** draw.randint(0, 30)
        yield draw.randint(0, 10 ** 9) / 10 ** draw.randint(0, 9)
        yield (2 * draw.randint(0, 10 ** 7) + 1) * 5.0 ** draw.randint(0, 3) / 2 ** draw.randint(0, 12)


def try_numbers(page):
    """Numbers are written as Python writes them."""
    every = list(numbers())
    for at in range(0, len(every), 20000):
        some = every[at:at + 20000]
        found = page.in_worker(f"{json.dumps(some)}.map((it) => [general(it), general(it, 10), fixed(it)].join(' ')).join()")
        same(found.split(","), [f"{it:g} {it:.10g} {it:.6f}" for it in some], "numbers")


def try_settings(page):
    """Settings files of the printers that are known by name, and of other screens, are the command's."""
    from stlslice.printers import printers
    from stlslice_commands import sl1
    draw, known = random.Random(7), list(printers().values())
    every, wanted = [], []
    for _ in range(SETTINGS):
        printer = draw.choice([None, *known])
        sides = printer.pitch if printer else tuple(Fraction(draw.randint(1, 100000), draw.choice([1, 10, 100, 1000])) for _ in "xy")
        canvas = printer.canvas if printer else (draw.randint(1, 16384), draw.randint(1, 16384))
        given = SimpleNamespace(
            printer=printer, canvas=canvas, pitch=sides, layer=draw.randint(1, 1000), mirror_x=draw.random() < 0.5,
            mirror_y=draw.random() < 0.5, exposure=round(draw.uniform(0.1, 99), draw.randint(0, 6)), fade=draw.randint(0, 60),
            first_exposure=round(draw.uniform(0.1, 999), draw.randint(0, 6)),
            fast_tilt=draw.choice([5.0, 2.5]), slow_tilt=8.0, area_fill=50)
        layers, lit = draw.randint(1, 3000), draw.randint(0, 16384 ** 2 * 3000)
        volume = float(lit * sides[0] * sides[1] * given.layer / 10 ** 12)
        sliced = SimpleNamespace(given=given, layers=layers, lit=lit, millilitres=lambda _, volume=volume: volume)
        slow, job = draw.randint(0, layers), sl1.job_name("out of \u00e9.sl1")
        material = draw.choice(["", "  a\tb ", "Gr\u00fcn \x7f\u0085x", "a\ufeff b \ufeff"])
        given.material = sl1.NAME(material)
        texts = [sl1.settings(sliced, job, slow, sl1.print_time(given, layers, slow), sl1.time.gmtime(MOMENT)), sl1.profile(given)]
        wanted.append(["".join(f"{key} = {value}\n" for key, value in sorted(it.items())) for it in texts])
        row = printer and {"model": printer.model, "name": printer.name, "is_portrait": printer.is_portrait}
        pitch = [[it.numerator, it.denominator] for it in sides]
        every.append({"given": {**vars(given), "printer": row, "pitch": pitch, "material": material},
                      "layers": layers, "lit": lit, "slow": slow, "now": MOMENT})
    told = page.in_worker(f"{json.dumps(every)}.map((it) => [settings({{ ...it, job: job_of('out of \u00e9.SL1') }}), profile(it.given)])")
    for one, other in zip(told, wanted):
        same(one, other, "settings")


def try_all(page, room, program, every):
    told = try_archives(page, room, program, every)
    try_pngs(page, room, program)
    try_wrong_fields(page)
    try_limits(page)
    try_no_room(page)
    try_numbers(page)
    try_settings(page)
    return told
