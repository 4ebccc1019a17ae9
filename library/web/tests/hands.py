"""The page for hands and eyes: buttons, swipes, scrolling, the keyboard alone, colours, what is kept, exposures."""

import contextlib
import json
import os

from common import IDLE, PHONE, example, holds, same, script

TWICE = (195, 422), (720, 450), (512, 350)  # PHONE, DESK and 1024 x 700 at 200 %
SHIFT = 8
# The contrast of two colours of style.css, as WCAG 2 defines it
CONTRAST = """((one, other) => {
    const linear = (it) => it / 255 <= 0.04045 ? it / 255 / 12.92 : ((it / 255 + 0.055) / 1.055) ** 2.4;
    const light = (name) => colour_of(name).map(linear).reduce((sum, it, at) => sum + it * [0.2126, 0.7152, 0.0722][at], 0.05);
    return Math.max(light(one), light(other)) / Math.min(light(one), light(other));
})(%s, %s)"""
PAIRS = [("rim", "ground", 3), ("rim", "body", 3), ("hole", "ground", 3), ("hole", "body", 3), ("ground", "body", 3),
         ("edge", "sheet", 3), ("ink", "sheet", 4.5), ("quiet", "sheet", 4.5), ("quiet", "back", 4.5), ("mark", "sheet", 3),
         ("on-mark", "mark", 4.5), ("bad", "bad-back", 4.5), ("ink", "warn-back", 4.5)]


def opened_bracket(page, *how):
    page.load(*how)
    page.set(100, 100)
    page.take(example("bracket"))
    return page.k()


def try_buttons(page):
    k = opened_bracket(page)
    for name, wanted in (("up", k + 1), ("up", k + 2), ("down", k + 1)):
        page.browser.click(*page.middle(f"#{name}"))
        same(page.k(), wanted, f"layer after the button {name}")


def try_swipe(page):
    """A finger that swipes over the picture moves the layers; over a zoomed picture it moves that. Down it scrolls the page."""
    page.browser.ask("Emulation.setTouchEmulationEnabled", enabled=True, maxTouchPoints=2)
    k = opened_bracket(page, PHONE)
    x, y = page.middle("#image")
    page.browser.swipe((x - 60, y), (x + 60, y))
    holds(f"layers after a swipe: {k} to {page.k()}", 8 <= page.k() - k <= 12)
    k = page.k()
    page.browser.swipe((x + 60, y), (x - 60, y))
    holds("layers after a swipe back", 8 <= k - page.k() <= 12)
    k = page.k()
    page.browser.swipe((x, y + 100), (x, y - 100))
    page.until("scrollY > 20")
    same(page.k(), k, "the layer after a swipe upwards")
    page.value("scrollTo(0, 0); zoom(4)")
    page.browser.swipe((x - 60, y), (x + 60, y))
    same(page.k(), k, "the layer after a swipe over a zoomed picture")
    holds("which has moved it", page.value("look.x > 20"))
    page.browser.ask("Emulation.setTouchEmulationEnabled", enabled=False)


def try_scrolling(page):
    """In a small window picture and slider are seen together; wheel and keys scroll the page, unless the picture is in use."""
    for size in (PHONE, *TWICE):
        k = opened_bracket(page, size)
        page.value("scrollTo(0, 0)")
        bottom = page.value("Math.max(...['image', 'layer'].map((id) => by(id).getBoundingClientRect().bottom))")
        holds(f"picture and slider in a window of {size}: {bottom}", bottom <= size[1])
        holds(f"the picture's height: {page.value('by(`image`).clientHeight')}", page.value("by('image').clientHeight >= 70"))
        x, y = page.middle("#image")
        page.browser.mouse("mouseWheel", x, y, deltaX=0, deltaY=60)
        page.until("scrollY > 0")
        page.value("document.activeElement.blur(); scrollTo(0, 0)")
        page.browser.key("PageDown")
        page.until("scrollY > 0")
        same(page.k(), k, "the layer after scrolling")
        page.value("scrollTo(0, 0)")
        page.browser.click(*page.middle("#image"))
        page.browser.mouse("mouseWheel", x, y, deltaX=0, deltaY=-100)
        same(page.k(), k + 1, "the layer after the wheel over a picture in use")
        page.browser.key("PageDown")
        same(page.k(), k - 9, "the layer after a key")
        page.value("go(0)")
        page.k()
        page.browser.mouse("mouseWheel", x, y, deltaX=0, deltaY=60)
        page.until("scrollY > 0")  # beyond the last layer it scrolls the page


def try_keyboard(page):
    """With the keyboard alone: choose, slice, look, save. The window for files is the browser's own: it is seen that a key opens it, and
    the file is handed in."""
    page.load()
    page.browser.key("Tab")
    same(page.value("document.activeElement.id"), "file", "what the first Tab comes to")
    for name, how in (("supported", (" ", "Space", " ")), ("bracket", ("Enter", None, "\r"))):
        go_to(page, "file")
        page.browser.choose_in_window(lambda: page.browser.key(*how), example(name))
        page.until(f"{IDLE} && part.name === '{name}.stl'")
    k = page.k()
    same(page.value("document.activeElement.id"), "image", "where the keys go on")
    page.browser.key("ArrowUp")
    same(page.k(), k + 1, "the layer")
    for _ in range(3):
        page.browser.key("+", "Equal", "+")
    for key, wanted in (("ArrowRight", [-60, 0]), ("ArrowDown", [-60, -60]), ("ArrowLeft", [0, -60]), ("ArrowUp", [0, 0])):
        page.browser.key(key, modifiers=SHIFT)
        same(page.value("[look.x, look.y]"), wanted, f"where the picture is after {key}")
    for _ in range(60):
        page.browser.key("ArrowRight", modifiers=SHIFT)
    holds("the picture is not lost", page.value("look.x + framed().wide / 2 > -by('image').clientWidth / 2"))
    page.browser.key("0", "Digit0", "0")
    try_tabs(page)
    go_to(page, "printer")
    page.browser.key("ArrowDown")
    page.until(f"{IDLE} && opened.columns === 1440")
    go_to(page, "save_archive")
    archive = os.path.join(page.browser.saved, "bracket.sl1")
    with contextlib.suppress(FileNotFoundError):
        os.remove(archive)
    page.browser.key("Enter", text="\r")
    page.wait_for(archive)


def go_to(page, wanted):
    """Presses Tab until a field or a button has the focus."""
    for _ in range(40):
        if page.value("document.activeElement.id") == wanted:
            return
        page.browser.key("Tab")
    holds(f"Tab comes to {wanted}", False)


def try_tabs(page):
    """Tab comes to each field and button, and it is seen where it is."""
    seen = set()
    for _ in range(40):
        page.browser.key("Tab")
        seen.add(page.value("document.activeElement.id"))
        outline = page.value("document.activeElement === document.body || document.activeElement.matches('#file') "
                             "|| getComputedStyle(document.activeElement).outlineStyle !== 'none'")
        holds(f"{page.value('document.activeElement.id')} shows that it has the focus", outline)
    wanted = {"printer", "pitch", "height", "rule", "unit", "save_pngs", "copy", "file", "outlines", "nearer", "farther", "whole", "save",
              "down", "layer", "up"}
    same(wanted - seen, set(), "what Tab does not come to")


def try_colours(page):
    """Outlines stand out on filled and empty pixels, and words on what is below them, in both schemes."""
    for scheme in ("light", "dark"):
        page.browser.media(prefers_color_scheme=scheme)
        opened_bracket(page)
        for one, other, least in PAIRS:
            found = page.value(CONTRAST % (json.dumps(one), json.dumps(other)))
            holds(f"{scheme}: the contrast of {one} on {other}, {found:.2f}", found >= least)
        # in the picture's corner, and in the middle of the part
        dots = page.value("""(() => {
            by("outlines").checked = false;
            draw();
            const { across, down, left, top } = framed(), pen = by("image").getContext("2d");
            const dot = (i, j) => [...pen.getImageData(left + (i + 0.5) * across, top + (j + 0.5) * down, 1, 1).data].slice(0, 3);
            const bits = bits_now(), at = bits.findIndex((it) => it), empty = bits.findIndex((it) => !it), { columns } = opened;
            by("outlines").checked = true;
            return [dot(at % columns, Math.floor(at / columns)), dot(empty % columns, Math.floor(empty / columns))];
        })()""".replace("bits_now()", json.dumps(page.in_worker("[...bits_of(shape.layers / 2 | 0)].flatMap((byte, at) => "
                        "Array.from({ length: Math.min(8, shape.columns - 8 * (at % row_bytes())) }, (_, bit) => byte >> 7 - bit & 1))"))))
        same(dots, page.value("[colour_of('body'), colour_of('ground')]"), f"the dots that are drawn: {scheme}")
    page.browser.media(prefers_color_scheme="light")
    page.until("getComputedStyle(document.body).backgroundColor === 'rgb(238, 241, 245)'")
    page.k()
    animation = "(by('busy').hidden = false, getComputedStyle(by('done')).animationName)"
    same(page.value(animation), "go", "the bar's motion")
    page.browser.media(prefers_color_scheme="light", prefers_reduced_motion="reduce")
    same(page.value(animation), "none", "the bar's motion if less is wanted")
    page.browser.media()


def try_kept(page):
    """What is set in the form is there again at the next visit; what is no value of a field is not taken."""
    page.load()
    page.change(pitch=40, height=25, printer="own", columns=800, rows=600, width="47.25", turn=True)
    page.value("by('exposure').value = '3.5'; by('mirror_y').checked = true; by('archive').dispatchEvent(new Event('change'))")
    page.value("by('outlines').click()")
    page.load(is_kept=True)
    ids = ["pitch", "height", "printer", "columns", "rows", "width", "exposure"]
    same(page.value(f"{json.dumps(ids)}.map((id) => by(id).value)"), ["40", "25", "own", "800", "600", "47.25", "3.5"], "what was kept")
    same(page.value("['mirror_x', 'mirror_y', 'turn', 'outlines'].map((id) => by(id).checked)"), [False, True, True, False],
         "boxes that were kept")
    holds("the screen is seen", page.value("!by('columns').disabled && by('columns').checkVisibility()"))
    for text in ('{"pitch": "-5", "height": "x", "rule": "9", "printer": "X", "turn": 3}', "no JSON", "[]", "null"):
        page.value(f"localStorage.setItem('stlslice', {json.dumps(text)})")
        page.load(is_kept=True)
        same(page.value("['pitch', 'height', 'rule', 'printer'].map((id) => by(id).value)"), ["50", "50", "2", ""],
             f"the form after {text}")
    denied = "Object.defineProperty(window, 'localStorage', { get() { throw new Error('denied'); } })"
    number = page.browser.ask("Page.addScriptToEvaluateOnNewDocument", source=denied)["identifier"]
    page.load(is_kept=True)
    page.browser.ask("Page.removeScriptToEvaluateOnNewDocument", identifier=number)
    page.set(500, 500)
    page.change(height=500)
    page.take(example("bracket"))
    same(page.value("opened.layers"), 54, "a page without storage")


def try_exposures(page):
    """Exposures that were given, or have to be, are seen; of others it is said whose they are."""
    page.load()
    folded = "by('archive').checkVisibility() && !by('exposures').open"
    page.change(printer="SL1S", height=50)
    same([page.value(folded), page.text("exposed")], [True, ""], "the exposures of a printer")
    page.change(height=100)
    holds(page.text("exposed"), page.text("exposed").startswith("2 s is the exposure of Prusa Orange Tough"))
    same(page.value(folded), False, "whether exposures for other layers are folded")
    page.value("by('exposures').open = false")
    page.change(printer="own")
    holds("they are seen for another screen", page.value("['exposure', 'first_exposure', 'exposed'].every((id) => by(id).checkVisibility())"))
    begin = "Exposures depend on the resin: take those of its data sheet."
    for name, value, words in ((None, None, f"{begin} 2.2 s and 25 s for the first layers are placeholders, for no resin."),
                               ("exposure", "3", f"{begin} 25 s for the first layers is a placeholder, for no resin."),
                               ("first_exposure", "30", "")):
        if name:
            page.value(f"by('{name}').value = '{value}'; by('archive').dispatchEvent(new Event('change'))")
        same(page.text("exposed"), words, f"what is said after {name}")
    page.change(printer="SL1")
    page.load(is_kept=True)
    same(page.value("[by('printer').value, by('exposures').open]"), ["SL1", True], "whether exposures of an earlier visit are seen")


def try_latest(page):
    """Of the calls while a task runs only the last counts, and tasks run one at a time."""
    page.load()
    told = page.value("""(async () => {
        const done = [], ends = [];
        const task = latest(async (is_last, word) => {
            await new Promise((end) => ends.push(end));
            done.push([word, is_last()]);
        });
        const all = [task(1), task(2), task(3)];
        for (let k = 0; k < 2; k++) {
            await new Promise((next) => setTimeout(next));
            ends[k]();
        }
        await Promise.all(all);
        done.push(task.is_running());
        task(4);
        ends[2]();
        await new Promise((next) => setTimeout(next));
        return [...done, ends.length];
    })()""")
    same(told, [[1, False], [3, True], False, [4, True], 3], "what ran")


def try_pictures(page):
    page.load()
    same(page.in_worker(script("pictures")), [], "what is wrong with pictures")


def try_all(page):
    try_latest(page)
    try_pictures(page)
    try_buttons(page)
    try_swipe(page)
    try_scrolling(page)
    try_keyboard(page)
    try_colours(page)
    try_kept(page)
    try_exposures(page)
