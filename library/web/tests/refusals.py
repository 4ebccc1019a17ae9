"""What the page refuses, or warns of, that `stlslice-sl1` refuses or warns of too: the page has the command's line and status."""

import os
import shlex
import struct

from archives import fill, opened_in, ran_command, screen
from common import CHANGED, IDLE, example, holds, same
from files import binary_of, facets_of, text_of, turned_out
from kinds import bodies

CANVAS = screen(640, 480, "100")
WORDS = ["--canvas", "640x480", "--pitch", "100"]
TAKEN = ("3MF", "OBJ")  # kinds that the commands take
TOO_MANY = 1048577
OTHER_LAYERS = "the exposure of "  # of which the page tells in other words


def box(x, y, z, at=(0, 0, 0)):
    """A box as facets, in millimetres."""
    a, b, c = at
    corner = [(a + x * (k & 1), b + y * (k >> 1 & 1), c + z * (k >> 2)) for k in range(8)]
    sides = [(0, 2, 3, 1), (4, 5, 7, 6), (0, 1, 5, 4), (2, 6, 7, 3), (0, 4, 6, 2), (1, 3, 7, 5)]
    return [sum((corner[it] for it in three), ()) for one, two, three, four in sides for three in ((one, two, three), (one, three, four))]


def in_text(*facets):
    return text_of(facets, str)


def parts():
    """Parts that are refused: the name, the bytes, fields of the form, and the command's words for the same."""
    with open(example("bracket"), "rb") as file:
        bracket = file.read()
    tall, far, nan = in_text(*box(10, 10, 200)), in_text(*box(1, 1, 1, (120000, 0, 0))), bytearray(binary_of(facets_of("bracket")))
    nan[84 + 50 * 6 + 12:84 + 50 * 6 + 16] = struct.pack("<f", float("nan"))
    narrow, low = {**screen(240, 640, "50")}, {**screen(640, 10, "100")}
    return [
        ("narrow", bracket, narrow, ["--canvas", "240x640", "--pitch", "50"]),
        ("narrow turned", bracket, {**screen(640, 240, "50"), "turn": True}, ["--canvas", "640x240", "--pitch", "50", "--turn"]),
        ("low", bracket, low, ["--canvas", "640x10", "--pitch", "100"]),
        ("low turned", bracket, {**low, "turn": True}, ["--canvas", "640x10", "--pitch", "100", "--turn"]),
        ("odd pixels", bracket, screen(701, 403, "47.25", "19.125"), ["--canvas", "701x403", "--pitch", "47.25x19.125"]),
        ("wide", in_text(*box(100, 60, 5)), {"printer": "SL1", "turn": True}, ["--printer", "SL1", "--turn"]),
        ("wide turned", in_text(*box(60, 100, 5)), {"printer": "SL1S"}, ["--printer", "SL1S"]),
        ("large", bracket, {"printer": "SL1", "unit": 2}, ["--printer", "SL1", "--unit", "cm"]),
        ("larger", bracket, {"printer": "SL1S", "unit": 3, "turn": True}, ["--printer", "SL1S", "--unit", "m", "--turn"]),
        ("tall", tall, {"printer": "SL1"}, ["--printer", "SL1"]),
        ("tall turned", tall, {"printer": "SL1S", "turn": True}, ["--printer", "SL1S", "--turn"]),
        ("no facets", b"solid\nendsolid\n", CANVAS, WORDS),
        ("no facets, binary", binary_of([]), CANVAS, WORDS),
        ("flat facets", in_text(*box(1, 0.0001, 0.0001)), CANVAS, WORDS),
        ("open", b"\n".join(bracket.split(b"\n")[:1] + bracket.split(b"\n")[8:]), CANVAS, WORDS),
        ("open, small", in_text(*box(0.5, 0.25, 0.3)[1:]), CANVAS, WORDS),
        ("open, large", binary_of(facets_of("bracket")[1:]), {**CANVAS, "unit": 3}, [*WORDS, "--unit", "m"]),
        ("cut", bracket[:30000], CANVAS, WORDS),
        ("nan", bytes(nan), CANVAS, WORDS),
        ("far", far, screen(640, 480, "19", "24"), ["--canvas", "640x480", "--pitch", "19x24"]),
        ("screen too large", bracket, screen(20000, 10000, "1"), ["--canvas", "20000x10000", "--pitch", "1"]),
        ("no common pitch", bracket, screen(640, 480, "22.345", "24.321"), ["--canvas", "640x480", "--pitch", "22.345x24.321"]),
        ("too many layers", in_text(*box(10, 10, 100)), {**CANVAS, "height": 1}, [*WORDS, "--layer", "1"]),
        ("many facets", bytes(80) + struct.pack("<I", TOO_MANY) + bytes(50 * TOO_MANY), CANVAS, WORDS),
        *((name, body, CANVAS, WORDS) for name, body in bodies().items() if not name.startswith("-")),
    ]


def ran(room, program, name, words):
    """The command's lines on a part of this folder, without its name, and its status."""
    here = os.getcwd()
    os.chdir(room)
    try:
        told = ran_command(program, "stlslice-sl1", *words, name, "out.sl1")
    finally:
        os.chdir(here)
    return [line.partition(": ")[2] for line in told.stderr.splitlines()], told.returncode


def put(room, name, body):
    path = os.path.join(room, name if "." in name else f"{name}.stl")
    with open(path, "wb") as file:
        file.write(body)
    return path


def try_parts(page, room, program):
    """Returns the number of parts."""
    every = parts()
    page.load()
    usual = page.value("({ ...told_by(KEPT), rule: 2, unit: 0 })")
    for name, body, fields, words in every:
        path = put(room, name, body)
        fill(page, {**usual, **fields})
        page.take(path)
        lines, status = ran(room, program, os.path.basename(path), words)
        os.remove(path)
        kind = page.value("part.kind")
        if kind in TAKEN:
            told = page.text("fault_line")
            holds(told, told.startswith(f"the part is {kind}, not STL; convert it: ") and "is refused, status 3" in page.text("fault_head"))
            continue
        holds(f"{name} is refused by the command", status)
        lines = [it for it in lines if not it.startswith(OTHER_LAYERS)]
        lines.sort(key=lambda it: "the unit of its numbers?" in it)  # for which the page asks below the fault
        same(page.text("fault_line"), lines[0], f"the line of {name} {words}")
        same(page.text("fault_head"), f"{os.path.basename(path)} is refused, status {status}", f"the status of {name}")
        more = [page.text("fault_place"), page.text("fault_asked")]
        same(lines[1:], [it for it in more if it.startswith(("the part is ", "a mesh has "))], f"more lines of {name}")
    return len(every)


def try_turns(page, room):
    """Beside the command's option the page says what to do about a turn here."""
    path = put(room, "narrow", in_text(*box(20, 10, 5)))
    for turn, columns, rows, words in ((False, 150, 250, "turned"), (True, 250, 150, "not turned")):
        opened = {**screen(columns, rows, "100"), "turn": turn}
        page.load()
        fill(page, opened)
        page.take(path)
        same(page.text("fault_place"), f"It fits if it is {words} by a quarter (below Printer).", "what helps")
        page.change(turn=not turn)
        page.until(f"{IDLE} && opened")


def warned(page):
    page.until("opened && areas.length === opened.layers && !find_areas.is_running()")
    return page.value("[...by('warnings').children].map((it) => it.textContent)")


def try_warnings(page, room, program):
    """A part that is small, large, dark, or inside out somewhere."""
    with open(example("calibration_block"), "rb") as file:
        block = file.read()
    with open(example("bracket"), "rb") as file:
        bracket = file.read()
    for name, body, fields, words in (
            ("small", in_text(*box(0.5, 0.25, 0.3)), screen(640, 480, "10"), ["--canvas", "640x480", "--pitch", "10"]),
            ("huge", in_text(*box(2, 1, 1)), {**screen(640, 480, "10000"), "height": 10000, "unit": 3},
             ["--canvas", "640x480", "--pitch", "10000", "--layer", "10000", "--unit", "m"]),
            ("partly", block + turned_out(bracket), {**CANVAS, "height": 200}, [*WORDS, "--layer", "200"]),
            ("partly, odd", block + turned_out(bracket), {**screen(901, 951, "47.25", "60"), "height": 333},
             ["--canvas", "901x951", "--pitch", "47.25x60", "--layer", "333"])):
        path = put(room, name, body)
        opened_in(page, path, fields)
        lines, status = ran(room, program, os.path.basename(path), words)
        same([warned(page), status], [lines, 0], f"what is said of {name}")
        holds("something was said", lines)
        os.remove(path)
    for rule, unit in (("positive", "mm"), ("positive", "cm"), ("evenodd", "m")):
        body = turned_out(bracket) if rule == "positive" else in_text(*box(0.00002, 0.00001, 0.00001))
        path = put(room, "dark", body)
        chosen = {"rule": ["evenodd", "nonzero", "positive"].index(rule), "unit": {"mm": 0, "cm": 2, "m": 3}[unit]}
        opened_in(page, path, {**screen(640, 480, "1000"), "height": 1000, **chosen})
        lines, status = ran(room, program, os.path.basename(path),
                            ["--canvas", "640x480", "--pitch", "1000", "--layer", "1000", "--rule", rule, "--unit", unit])
        same([warned(page), status], [lines, 1], f"what is said of a dark part, by {rule} in {unit}")
        for _ in range(2):
            page.value("by('save_archive').click()")
            page.until("!save_all.is_running()")
        same(warned(page), [*lines, f"dark.sl1 is not saved: {lines[-1]}"], "what is said of its archive, once")
        os.remove(path)


FIELDS = [  # a field of the page, wrong values, and the command's words for them
    ("height", ["0", "100001", "1.5", ""], "--printer SL1 --layer={}"),
    ("columns", ["0", "100000", "2.5", ""], "--canvas={}x480 --pitch 100"), ("rows", ["0", "100000", ""], "--canvas=640x{} --pitch 100"),
    ("width", ["0", "0.0", "1000000", "1.2345", "-1", "x", ""], "--canvas 640x480 --pitch={}x50"),
    ("depth", ["0", "1000000", "1.2345", "1e2", ""], "--canvas 640x480 --pitch=50x{}"),
    ("exposure", ["0", "100000", "-1", "2,2", "1.2345678"], "--printer SL1 --exposure={}"),
    ("first_exposure", ["0.0", "100000", "x"], "--printer SL1 --first-exposure={}"), ("fade", ["1000", "-1", "1.5"], "--printer SL1 --fade={}"),
]
RIGHT = {"height": "100000", "columns": "640", "rows": "480", "width": "47.25", "depth": "000050.125", "exposure": "99999.999999",
         "first_exposure": "0.000001", "fade": "0"}


def try_fields(page, room, program):
    """A wrong number is not taken, and its field has the command's line. Returns how many were tried."""
    opened_in(page, example("bracket"), {**CANVAS, "height": 500})
    count = 0
    for name, values, words in FIELDS:
        usual = page.value(f"by('{name}').value")
        for value in values:
            lines, status = ran(room, program, "part.stl", [word.format(value) for word in shlex.split(words)])
            page.value(f"by('{name}').value = '{value}'; by('{name}').dispatchEvent(new Event('input')); 0")
            same([status, lines[-1]], [2, f"error: {page.value(f'by(`{name}`).validationMessage')}"], f"the line of {name} {value!r}")
            is_of_archive = page.value(f"by('{name}').form === by('archive')")
            page.value("by('save_archive').click()" if is_of_archive else f"{CHANGED}; 0")
            same(page.value("[opened.options.layer, slice.is_running(), save_all.is_running(), document.activeElement.id]"),
                 [500, False, False, name], f"what runs, and where the keys go on, after {name} {value!r}")
            count += 1
        for value in (RIGHT[name], usual):
            page.value(f"by('{name}').value = '{value}'; by('{name}').dispatchEvent(new Event('input')); 0")
            same(page.value(f"by('{name}').validationMessage"), "", f"what is wrong with {name} {value!r}")
    page.load()
    page.take(example("bracket"))
    for value in ("0", "100001", "2.5", ""):
        lines = ran_command(program, "stlslice-page", f"--pitch={value}", "part.stl", "out.html").stderr.splitlines()
        page.value(f"by('pitch').value = '{value}'; by('pitch').dispatchEvent(new Event('input')); 0")
        same(lines[-1], f"stlslice-page: error: {page.value('by(`pitch`).validationMessage')}", f"the line of a pitch {value!r}")
    return count


def try_all(page, room, program):
    folder = os.path.join(room, "refused")
    os.mkdir(folder)
    count = try_parts(page, folder, program)
    try_turns(page, folder)
    try_warnings(page, folder, program)
    fields = try_fields(page, folder, program)
    for name in os.listdir(folder):
        os.remove(os.path.join(folder, name))
    os.rmdir(folder)
    return f"{count} parts and {fields} numbers refused with the lines of stlslice-sl1, its warnings too"
