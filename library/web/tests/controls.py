"""The page's controls, used as by hand: slider, keys, wheel, plot, screens, hints, examples."""

import base64
import os
import subprocess

from common import IDLE, PHONE, area_of, example, holds, images_of, same, script
from looks import broken

SIGNATURE = b"\x89PNG\r\n\x1a\n"


def try_keys(page):
    """Slider, keys and wheel, and the layer that each leads to."""
    page.load()
    page.set(100, 100)
    page.take(example("bracket"))
    layers = page.value("opened.layers")
    at = layers // 2
    same(page.k(), at, "the layer that comes first")
    page.value("document.activeElement.blur()")
    for key, wanted in [("ArrowRight", at + 1), ("ArrowUp", at + 2), ("ArrowLeft", at + 1), ("ArrowDown", at),
                        ("PageUp", at + 10), ("PageDown", at), ("End", layers - 1), ("ArrowRight", layers - 1), ("Home", 0),
                        ("ArrowLeft", 0)]:
        page.browser.key(key)
        same(page.k(), wanted, f"layer after {key}")
    for name, wanted in (("layer", 1), ("pitch", 1)):
        page.value(f"by('{name}').focus()")
        page.browser.key("ArrowRight")
        same(page.k(), wanted, f"layer after a key in the field {name}")
    page.value("document.activeElement.blur()")
    try_mouse(page, layers)
    try_zoom(page)


def try_mouse(page, layers):
    for selector in ("#image", "#plot", "#layer"):
        x, y = page.middle(selector)
        before = page.k()
        page.browser.mouse("mouseWheel", x, y, deltaX=0, deltaY=-100)
        same(page.k(), before + 1, f"layer after the wheel on {selector}")
        page.browser.mouse("mouseWheel", x, y, deltaX=0, deltaY=100)
        same(page.k(), before, f"layer after the wheel back on {selector}")
    left, top, width, height = page.browser.place("#plot")
    for part in (0.25, 0.75):
        page.browser.click(left + width * part, top + height / 2)
        holds(f"the plot at {part} of its width", abs(page.k() - part * layers) < 0.02 * layers + 1)
    page.browser.click(*page.middle("#layer"))
    holds("the slider's middle", abs(page.k() - layers / 2) < 0.02 * layers + 1)


def try_zoom(page):
    x, y = page.middle("#image")
    page.browser.key("+", "Equal", "+")
    page.browser.mouse("mouseWheel", x, y, deltaX=0, deltaY=-300, modifiers=2)
    holds("Ctrl and the wheel zoom", page.value("look.zoom > 3"))
    before = page.value("[look.x, look.y]")
    page.browser.mouse("mousePressed", x, y, button="left", buttons=1, clickCount=1)
    page.browser.mouse("mouseMoved", x + 30, y - 20, button="left", buttons=1)
    page.browser.mouse("mouseReleased", x + 30, y - 20, button="left")
    moved = [round(now - then, 6) for now, then in zip(page.value("[look.x, look.y]"), before)]
    same(moved, [30, -20], "how far dragging moved the image")
    page.browser.key("0", "Digit0", "0")
    same(page.value("look"), {"zoom": 1, "x": 0, "y": 0}, "the zoom after 0")
    page.browser.key("o", "KeyO", "o")
    same(page.value("by('outlines').checked"), False, "outlines after o")
    before = page.value("by('keys').open")
    page.browser.key("?", "Slash", "?")
    same(page.value("by('keys').open"), not before, "the keys after ?")


# Whether the canvas shows each pixel of the image, one after the other
SHOWN = """(() => {
    const { across, down, left, top } = framed(), pen = by("image").getContext("2d"), { columns, rows } = opened, found = [];
    const middle = (least, at, scale) => Math.floor(least + (at + 0.5) * scale);
    for (let j = 0; j < rows; j++)
        for (let i = 0; i < columns; i++) {
            const [red] = pen.getImageData(middle(left, i, across), middle(top, j, down), 1, 1).data;
            found.push(red < 0xa0 ? 1 : 0);
        }
    return found.join("");
})()"""


def try_told(page, program):
    """The line above the image reports its layer; the picture on the canvas has the image's pixels."""
    images, columns, rows = images_of(program, example("bracket"), "--pitch", "100", "--layer", "100", "--rule", "positive")
    page.value("by('outlines').checked = false; go(37)")
    same(page.k(), 37, "layer")
    page.value("draw()")
    area = area_of(images[37])
    told = page.text("told").replace(",", "")
    same(told, f"Layer 37 of {len(images)} z 3.750 mm area {area / 100:.3f} mm² ({area} pixels) 1 loop", "what is told of the layer")
    page.until("areas.length === opened.layers && !tell_areas.is_waiting()")
    holds("the canvas shows each pixel at least once", page.value("Math.min(framed().across, framed().down) > 1"))
    stride = (columns + 7) // 8
    lines = (images[37][at:at + stride] for at in range(0, stride * rows, stride))
    same(page.value(SHOWN), "".join("".join(f"{byte:08b}" for byte in it)[:columns] for it in lines), "the pixels on the canvas")
    volume = sum(map(area_of, images)) * 100 ** 3 / 1e12
    holds("the volume", f"Volume{volume:.3f} ml" in page.text("facts"))


def try_drop(page):
    page.load()
    page.set(200, 200)
    page.browser.drop([example("supported")], *page.middle("#image"))
    page.until(IDLE)
    same(page.text("name"), "supported.stl", "the part that was dropped")
    page.browser.choose("#file", example("bracket"))
    page.until(f"part.name === 'bracket.stl' && {IDLE}")
    same(page.text("name"), "bracket.stl", "the part after it")


def try_screen(page, program):
    """A screen has the part in its middle. A part that is larger is refused."""
    page.load()
    page.set(100, 100)
    page.take(example("bracket"))
    page.change(printer="own", columns=517, rows=303, width="100", depth="100")
    page.until(f"{IDLE} && opened.columns === 517")
    with open(example("bracket"), "rb") as text:
        box = subprocess.run([program, "--box"], stdin=text, capture_output=True, check=True).stdout.split()
    low_x, low_y, low_z, high_x, high_y, high_z = map(int, box[3:])
    x, y, layers = (low_x + high_x - 51700) // 2, (low_y + high_y - 30300) // 2, (high_z - low_z) // 100
    grid = f"--grid=517,303,{layers},{x},{y},{low_z}"
    images, *_ = images_of(program, example("bracket"), "--pitch", "100", "--layer", "100", "--rule", "positive", grid)
    same(base64.b64decode(page.in_worker(script("all_layers"))["images"]), b"".join(b"P4\n517 303\n" + it for it in images),
         "the images on a screen")
    try_mirrors(page, images[60], columns=517)
    try_places(page)
    try_outlines(page)
    page.change(width="100", depth="100", turn=False, columns=517, rows=303)
    page.until(f"{IDLE} && opened.columns === 517 && opened.sides[1] === 100")
    page.value("by('mirror_y').checked = false; by('mirror_x').checked = true; save()")
    same_png(page, program, 60, 100, "--mirror-x", grid)
    page.value("by('mirror_x').checked = false")
    page.change(rows=10)
    page.until("!by('fault').hidden")
    same([page.text("fault_line"), page.text("fault_place")],
         ["the part doesn't fit: it is 31.964 x 12.000 x 27.000 mm, the canvas 51.700 x 1.000 mm", ""],
         "the fault of a part that is too large")
    page.change(columns=200, rows=400)
    page.until("by('fault_place').textContent.includes('It fits if it is turned by a quarter')")
    page.change(turn=True)
    page.until(f"{IDLE} && opened.columns === 200")
    page.change(turn=False)


def try_mirrors(page, image, columns):
    """The page shows the images of a screen as they are saved: mirrored, if that was chosen."""
    stride = (columns + 7) // 8
    rows = ["".join(f"{byte:08b}" for byte in image[at:at + stride])[:columns] for at in range(0, len(image), stride)]
    page.value("by('outlines').checked = false; go(60)")
    same(page.k(), 60, "layer")
    for x, y in ((True, False), (False, True), (True, True), (False, False)):
        page.value(f"by('mirror_x').checked = {str(x).lower()}; by('mirror_y').checked = {str(y).lower()}; draw()")
        seen = [row[::-1] if x else row for row in (rows[::-1] if y else rows)]
        same(page.value(SHOWN), "".join(seen), f"the pixels with mirrors {x}, {y}")


def try_places(page):
    """The place that is told of a pixel is that in the part, however it is turned and stretched on the screen."""
    for width, depth, turn, right, up in (("100", "100", False, (1, 0), (0, 1)), ("40", "60", False, (1, 0), (0, 1)),
                                          ("60", "47.25", True, (0, -1), (1, 0))):
        page.change(width=width, depth=depth, turn=turn, columns=901, rows=951)
        page.until(f"{IDLE} && opened.sides[1] === {depth} && opened.rows === 951")
        middle = page.value("place_of(450, 475)")
        wanted = page.value("[0, 1].map((axis) => (opened.low[axis] + opened.high[axis]) / 2)")
        holds(f"the middle {middle} is near {wanted}", all(abs(it - other) < 1 for it, other in zip(middle, wanted)))
        for pixel, axis, side in (("450 + 10, 475", right, width), ("450, 475 + 10", up, depth)):
            moved = [round(now - before, 6) for now, before in zip(page.value(f"place_of({pixel})"), middle)]
            same(moved, [10 * float(side) * it for it in axis], f"ten pixels in the part, {turn}")


# Pixels whose middles the outlines enclose on the canvas though the image has them empty, or the other way round
OUTLINED = """(async (bits) => {
    const { stroke } = CanvasRenderingContext2D.prototype, pen = by("image").getContext("2d"), paths = [], { columns, rows } = opened;
    let at = null;
    CanvasRenderingContext2D.prototype.stroke = function (path) {
        paths.push(path);
        at = this.getTransform();
        stroke.call(this, path);
    };
    draw();
    CanvasRenderingContext2D.prototype.stroke = stroke;
    const { across, down, left, top } = framed(), { x, y } = mirrors_now(), stride = columns + 7 >> 3, wrong = [];
    pen.setTransform(at);
    let lit = 0;
    for (let j = 0; j < rows; j++)
        for (let i = 0; i < columns; i++) {
            const there = [left + ((x ? columns - 1 - i : i) + 0.5) * across, top + ((y ? rows - 1 - j : j) + 0.5) * down];
            const is_lit = (bits[j * stride + (i >> 3)] << (i & 7) & 128) > 0;
            lit += is_lit;
            if (paths.filter((it) => pen.isPointInPath(it, ...there)).length % 2 !== Number(is_lit)) wrong.push([i, j]);
        }
    return [lit, wrong.length];
})"""


def try_outlines(page):
    """Outlines lie on the canvas where the image has the part, on a screen that is turned, mirrored and stretched too."""
    page.value("by('outlines').checked = true; go(60)")
    for mirrors in ((False, False), (True, False), (False, True)):
        page.value("[by('mirror_x').checked, by('mirror_y').checked] = [%s, %s]; 0" % tuple(str(it).lower() for it in mirrors))
        for turn in (False, True):
            page.change(width="190", depth="240", columns=201, rows=174, turn=turn)
            page.until(f"{IDLE} && opened.rows === 174 && by('turn').checked === (opened.options.screen.turn === 1)")
            k = page.k()
            lit, wrong = page.value(f"{OUTLINED}({page.in_worker(f'[...bits_of({k})]')})")
            holds(f"{wrong} of {lit} pixels lie on the other side of the outlines", lit > 1000 and wrong <= lit // 500)


# Whether the canvas shows a pixel of the image as filled, when it is near and in the middle
NEAR = """(async () => {
    const { columns, rows } = opened, canvas = by("image");
    look = { zoom: 12, x: 0, y: 0 };
    const { across, down } = framed(), shift = (count, at, scale) => (count / 2 - at - 0.5) * scale / dense();
    look = { zoom: 12, x: shift(columns, %d, across), y: shift(rows, %d, down) };
    await show();
    draw();
    const middle = [canvas.width / 2, canvas.height / 2].map(Math.floor);
    return canvas.getContext("2d").getImageData(...middle, 1, 1).data[0] < 0xa0;
})()"""


def try_large_screen(page, program):
    """The picture of a large screen is made smaller; near by, the image's own pixels are shown."""
    page.load()
    page.set(10, 1000)
    page.take(example("bracket"))
    page.change(printer="own", columns=5000, rows=3000, width="10", depth="10")
    page.until(f"{IDLE} && opened.columns === 5000")
    page.value("by('outlines').checked = false; go(3)")
    same(page.k(), 3, "layer")
    holds("the picture is made smaller", page.value("shown.side > 1 && !shown.bits"))
    grid = "--grid=" + ",".join(map(str, page.value("[opened.columns, opened.rows, opened.layers, ...opened.origin]")))
    images, *_ = images_of(program, example("bracket"), "--pitch", "10", "--layer", "1000", "--rule", "positive", grid)
    row = 1500
    line = "".join(f"{byte:08b}" for byte in images[3][row * 625:(row + 1) * 625])
    ends = [at for at in range(1, 5000) if line[at] != line[at - 1]]
    holds("the row has both kinds of pixels", len(ends) >= 2)
    for column in [it for end in ends for it in (end - 1, end)]:
        same(page.value(NEAR % (column, row)), line[column] == "1", f"the pixel of column {column} near by")


def try_hints(page, room):
    """With a fault shown the keys scroll its hints."""
    page.load(PHONE)
    page.take(broken(room))
    same(page.value("by('fault').tabIndex"), 0, "whether Tab comes to the hints")
    page.value("by('hints').querySelectorAll('details').forEach((it) => { it.open = true; })")
    for key, code in (("ArrowDown", 40), ("PageDown", 34), ("End", 35)):
        page.value("by('fault').scrollTop = 0")
        page.value("by('fault').focus()")
        page.browser.ask("Input.dispatchKeyEvent", type="rawKeyDown", key=key, code=key, windowsVirtualKeyCode=code)
        page.until("by('fault').scrollTop > 0")
        page.browser.ask("Input.dispatchKeyEvent", type="keyUp", key=key, code=key, windowsVirtualKeyCode=code)
    same(page.value("['image', 'plot', 'busy_words', 'fault'].map((id) => by(id).role)"), ["img", "img", "status", "alert"],
         "what the page's parts are")


def same_png(page, program, k, layer, *more):
    """The page saves layer k as the program writes it."""
    path = os.path.join(page.browser.saved, f"bracket_{k:05}.png")
    page.wait_for(path)
    with open(path, "rb") as file, open(example("bracket"), "rb") as part:
        words = [program, "--pitch", "100", "--layer", str(layer), "--rule", "positive", "--png", "--depth", "1", *more]
        pngs = subprocess.run(words, stdin=part, stdout=subprocess.PIPE, check=True).stdout.split(SIGNATURE)
        same(file.read(), SIGNATURE + pngs[k + 1], f"the saved PNG of layer {k}")


def try_demos(page):
    page.load()
    for number in range(page.value("by('demos').children.length")):
        page.load()
        page.value(f"by('demos').children[{number}].click()")
        page.until(IDLE)
        page.k()
        holds(f"{page.text('name')} is shown", page.value("opened.layers > 100 && shown.area > 0"))


def try_all(page, room, program):
    try_keys(page)
    try_told(page, program)
    try_drop(page)
    try_screen(page, program)
    try_large_screen(page, program)
    try_hints(page, room)
    try_demos(page)
