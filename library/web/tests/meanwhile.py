"""What is asked for while a part is opened: another opening, a field that becomes wrong, saving."""

import os
import zipfile

from archives import fill, opened_in, screen
from common import CHANGED, IDLE, example, same
from controls import same_png
from refusals import box, in_text, put


def at_openings(page, *scripts):
    """Runs a script at each of the next openings, just before the worker is asked for it."""
    page.value("""(() => {
        const scripts = [%s];
        slicer.call = (...words) => {
            if (words[0] === "open") scripts.shift()?.();
            return Slicer.prototype.call.apply(slicer, words);
        };
    })()""" % ", ".join(f"() => {{ {it} }}" for it in scripts))


def try_wrong_fields(page):
    """A wrong field stops nothing when it is hidden. While it is seen nothing is opened, even if it became wrong meanwhile."""
    page.load()
    page.set(100, 100)
    page.take(example("bracket"))
    page.change(printer="own", columns="", width="0.0")
    page.change(printer="", height=200)
    page.until(f"{IDLE} && opened.options.layer === 200")
    same(page.value("by('form').autocomplete"), "off", "what a browser restores of the form")
    at_openings(page, f"by('pitch').value = ''; {CHANGED}")
    page.change(height=300)
    page.until("!slice.is_running()")
    same(page.value("[opened?.options.layer, by('fault').hidden]"), [300, True], "the mesh, and the fault of a field that is cleared")
    page.change(pitch=50)
    page.until(f"{IDLE} && opened.options.pitch === 50")


def try_saving(page, program):
    """A layer that is saved has the program's bytes; if another mesh is opened meanwhile, the file is of that."""
    page.load()
    page.set(100, 100)
    page.take(example("bracket"))
    page.value("go(20)")
    same(page.k(), 20, "layer")
    page.value("document.activeElement.blur()")
    page.browser.key("s", "KeyS", "s")
    same_png(page, program, 20, 100)
    # layer 31 of the mesh before is as high as layers 15 and 7 of these
    page.value("go(31)")
    same(page.k(), 31, "layer")
    at_openings(page, f"by('height').value = 400; {CHANGED}; queueMicrotask(save)", "save()")
    page.change(height=200)
    same_png(page, program, 15, 200)
    page.until(f"{IDLE} && opened.options.layer === 400")
    same_png(page, program, 7, 400)


def try_archive(page):
    """An archive that is asked for while the part is opened anew is of the new mesh."""
    opened_in(page, example("bracket"), {**screen(640, 480, "100"), "height": 500})
    path = os.path.join(page.browser.saved, "bracket.sl1")
    if os.path.exists(path):
        os.remove(path)
    page.value(f"by('height').value = 1000; {CHANGED}; by('save_archive').click()")
    page.wait_for(path)
    with zipfile.ZipFile(path) as found:
        same(sum(it.endswith(".png") for it in found.namelist()), 27, "layers of the archive")
    os.remove(path)


def try_too_high(page, room):
    """A part that is too high is in the worker, so nothing else is shown, though a field became wrong meanwhile."""
    path = put(room, "tall", in_text(*box(10, 10, 200)))
    opened_in(page, path, {**screen(640, 480, "100"), "height": 500})
    at_openings(page, f"by('height').value = ''; {CHANGED}")
    page.change(printer="SL1")
    page.until("!slice.is_running()")
    same([page.value("opened"), page.text("fault_head")], [None, "tall.stl is refused, status 1"], "the mesh, and the fault")
    os.remove(path)


def try_turn(page):
    """The command to copy has the turn of what is opened, though the form has another one by now."""
    opened_in(page, example("bracket"), {"printer": "SL1S", "height": 500})
    page.change(height="", turn=True)
    page.value("by('exposure').value = '3'; by('archive').dispatchEvent(new Event('change'))")
    same([page.value("opened.options.screen.turn"), "--exposure 3" in page.text("command"), "--turn" in page.text("command")],
         [1, True, False], "the turn of the mesh, and the words of the command")


def try_enter(page):
    """Enter in a field that was changed opens the part once."""
    opened_in(page, example("bracket"), {**screen(640, 480, "100"), "height": 500})
    page.value("globalThis.openings = 0; by('height').select(); 0")
    count = "globalThis.openings++"
    at_openings(page, count, count, count)
    page.browser.key("9", "Digit9", "9")
    page.browser.key("Enter", text="\r")
    page.until(f"{IDLE} && opened.options.layer === 9")
    same(page.value("openings"), 1, "openings for Enter")


def try_all(page, room, program):
    try_wrong_fields(page)
    try_saving(page, program)
    try_archive(page)
    try_too_high(page, room)
    try_turn(page)
    try_enter(page)
