"""Stop: what was open stays open, and can be saved at once."""

import os

from archives import MOMENT, fill, opened_in, screen
from common import CHANGED, IDLE, SECONDS, example, holds, same

SMALL = {**screen(640, 480, "100"), "height": 500}
# A worker's opening that never ends. What can't be heard any more ends with the worker alone.
ENDLESS = "calls.open = () => { for (;;); }"
IS_SHOWN = "opened && shown && shown.k === k_now() && !show_layer.is_running()"


def read(path):
    with open(path, "rb") as file:
        return file.read()


def try_saving(page):
    """Saving can be stopped, and the part is still there; another option that is chosen meanwhile ends it too."""
    opened_in(page, example("supported"), {**screen(11520, 5120, "19"), "height": 10})
    for name in os.listdir(page.browser.saved):
        os.remove(os.path.join(page.browser.saved, name))
    for ending in ("by('stop').click()", f"by('width').value = 20; {CHANGED}"):
        page.value("by('save_archive').click()")
        page.until("!by('busy').hidden && parseFloat(by('done').style.width) > 0", SECONDS)
        holds("layers are shown meanwhile", page.value("by('layer').value = 7; show().then(() => shown.k)") == 7)
        page.value(f"{ending}; 0")
        page.until(f"!save_all.is_running() && {IDLE}")
        same(os.listdir(page.browser.saved), [], "what was saved")
        holds("the part is still there", page.value("opened !== null && by('fault').hidden"))
    opened_in(page, example("bracket"), SMALL)
    wanted = read(page.saved("bracket.sl1", "save_archive"))
    same(page.text("said"), "saved: bracket.sl1", "what is said of a file that is saved")
    page.value("by('save_archive').click(); by('stop').click()")
    page.until("!save_all.is_running()")
    same(page.text("said"), "stopped: bracket.sl1 is not saved", "what is said of one that is not")
    same(page.in_worker("saving"), None, "what the worker keeps of it")
    same(read(page.saved("bracket.sl1", "save_archive")), wanted, "the archive that is saved after Stop")


def stopped(page, change, meanwhile="0"):
    """Makes the next opening endless, asks for it, and clicks Stop as soon as that is there."""
    page.value("globalThis.ended = slicer; 0")
    page.in_worker(f"{ENDLESS}; 0")
    page.value(f"{change}; 0")
    page.until("!by('busy').hidden && slice.is_running()")
    page.value(f"{meanwhile}; by('stop').click()")
    holds("the worker is another one", page.value("slicer !== ended"))


def try_options(page):
    """A part that is opened with other options, and stopped, is there as it was: its form, its layer, its archive."""
    opened_in(page, example("bracket"), SMALL)
    wanted = read(page.saved("bracket.sl1", "save_archive"))
    page.value("go(11)")
    same(page.k(), 11, "layer")
    stopped(page, f"by('height').value = 100; by('turn').checked = true; {CHANGED}")
    holds("the slider waits for the mesh", page.value("by('layer').disabled === (opened === null)"))
    page.until(f"{IDLE} && {IS_SHOWN}")
    same(page.value("[opened.options.layer, by('height').value, by('turn').checked, shown.k, document.activeElement.id]"),
         [500, "500", False, 11, "image"], "options, fields, layer and focus after Stop")
    same(page.text("warnings"), "Stopped: this is bracket.stl, as it was before.", "what is said")
    same(read(page.saved("bracket.sl1", "save_archive")), wanted, "the archive after Stop")
    page.change(height=1000)
    page.until(f"{IDLE} && opened.options.layer === 1000 && {IS_SHOWN}")
    same([page.value("shown.k"), page.text("warnings")], [5, ""], "layer and warnings of the next opening")


def try_other_part(page):
    """Another part that is opened and stopped leaves the one before it, also if it is chosen while that is saved."""
    opened_in(page, example("bracket"), SMALL)
    wanted = read(page.saved("bracket.sl1", "save_archive"))
    for change in ("0", "by('save_archive').click()"):
        stopped(page, f"{change}; by('demos').children[0].click()")
        page.until(f"{IDLE} && {IS_SHOWN} && !save_all.is_running()")
        same([page.text("name"), page.text("warnings")], ["bracket.stl", "Stopped: this is bracket.stl, as it was before."],
             "the part after Stop, and what is said")
        same(read(page.saved("bracket.sl1", "save_archive")), wanted, "its archive")


def try_nothing_before(page):
    """If nothing was open, or what was is stopped too, a button opens the part once more, without another choice."""
    page.load()
    page.value(f"moment = () => {MOMENT}; globalThis.script = by('worker').textContent; 0")
    fill(page, SMALL)
    for meanwhile in ("0", f"by('height').value = 1000; {CHANGED}; by('height').value = 500"):
        stopped(page, "by('demos').children[1].click()", meanwhile)
        after_button(page, "bracket.stl")
        page.load()
        page.value(f"moment = () => {MOMENT}; globalThis.script = by('worker').textContent; 0")
        fill(page, SMALL)
    page.value("by('demos').children[1].click()")
    page.until(f"{IDLE} && {IS_SHOWN}")
    page.in_worker(f"{ENDLESS}; 0")
    page.value(f"by('worker').textContent += `;{ENDLESS}`; by('height').value = 100; {CHANGED}; 0")
    page.until("!by('busy').hidden")
    page.value("by('stop').click()")
    page.until("!by('busy').hidden")
    page.value("by('worker').textContent = script; by('stop').click()")
    after_button(page, "bracket.stl")
    same(page.value("opened.options.layer"), 500, "the height of the layers")
    os.remove(page.saved("bracket.sl1", "save_archive"))


def after_button(page, name):
    page.until(f"!by('fault').hidden && by('busy').hidden && {IDLE}")
    same([page.text(it) for it in ("fault_head", "fault_line")], [name, "stopped by hand"], "what is said after Stop")
    same(page.value("[by('again').checkVisibility(), document.activeElement.id]"), [True, "fault"], "the button, and the focus")
    page.value("by('again').click()")
    page.until(f"{IDLE} && {IS_SHOWN}")
    same([page.text("name"), page.value("document.activeElement.id")], [name, "image"], "the part after the button, and the focus")


def try_all(page):
    try_saving(page)
    try_options(page)
    try_other_part(page)
    try_nothing_before(page)
    return "Stop: what was open stays open, and is saved as before"
