"""The page in windows of several sizes, at 200 %, light and dark: nothing is cut or lies over anything else. Pictures of it are kept
to be looked at."""

import os

from common import IDLE, PHONE, example, same, script

# The windows of people, and the same at 200 %: half as wide and high, with two dots for each pixel along a side
WINDOWS = {"desk": ((1440, 900), 1), "laptop": ((1024, 700), 1), "phone": (PHONE, 1),
           "desk_200": ((720, 450), 2), "laptop_200": ((512, 350), 2), "phone_200": ((195, 422), 2)}
STATES = 13
DENIED = "Object.defineProperty(navigator, 'clipboard', { configurable: true, value: undefined }); 0"


def look(page, folder, name):
    same(page.value(script("laid_out")), [], f"what is wrong in the window {name}")
    if folder:
        os.makedirs(folder, exist_ok=True)
        page.browser.picture(os.path.join(folder, f"{name}.png"))


def broken(room):
    """A part with a facet missing."""
    path = os.path.join(room, "broken.stl")
    with open(example("bracket"), "rb") as whole, open(path, "wb") as file:
        lines = whole.read().splitlines(keepends=True)
        file.write(b"".join(lines[:1] + lines[8:]))
    return path


def other_kind(room):
    path = os.path.join(room, "a long name of a part.3mf")
    with open(path, "wb") as file:
        file.write(b"PK\3\4" + bytes(26) + b"_rels/.rels" + bytes(100))
    return path


def try_states(page, room, folder, name):
    """The empty page, a part, a file that is dragged over it, a part on a printer's screen, with exposures for other layers, with a
    copy that failed, on another screen, below it the rest of the page, saving with a warning, the same after
    Stop, an opening that was stopped, a fault, a file that is no STL."""
    look(page, folder, f"{name}_empty")
    page.set(50, 50)
    page.take(example("supported"))
    page.until("areas.length === opened.layers && !find_areas.is_running()")
    page.value("go(150)")
    page.k()
    look(page, folder, f"{name}_part")
    page.browser.drag([example("supported")], *page.middle("#image"))
    look(page, folder, f"{name}_dragging")
    page.browser.drag([example("supported")], *page.middle("#image"), kinds=["drop"])
    page.until(IDLE)
    page.change(printer="SL1S")
    page.until(f"{IDLE} && opened.columns === 1620")
    page.k()
    look(page, folder, f"{name}_printer")
    try_words(page, folder, name)
    page.change(printer="own", columns=11520, rows=5120, width="19", depth="24")
    page.until(f"{IDLE} && opened.columns === 11520")
    page.k()
    page.value("zoom(3)")
    look(page, folder, f"{name}_own")
    page.value("by('archive').querySelector('details').open = true; document.querySelector('aside').scrollTop = 300; scrollTo(0, 1e6)")
    look(page, folder, f"{name}_settings")
    page.value("document.querySelector('aside').scrollTop = 0; scrollTo(0, 0); by('busy').hidden = false; tell_progress(120, 640);"
               "by('busy_words').textContent = 'Saving supported.sl1';"
               "warn(inside_out_line(2.376, 6.556))")
    look(page, folder, f"{name}_saving")
    page.value("by('busy').hidden = true; tell_progress(); part.is_back = true; warn_first(); say('stopped: supported.sl1 is not saved')")
    look(page, folder, f"{name}_back")
    page.value("opened = null; slice(); stop()")
    page.until(IDLE)
    look(page, folder, f"{name}_stopped")
    page.take(broken(room))
    look(page, folder, f"{name}_fault")
    page.take(other_kind(room))
    look(page, folder, f"{name}_kind")


def try_words(page, folder, name):
    """What is said of an exposure, and of a copy that failed."""
    page.change(height=100)
    page.until(f"{IDLE} && opened.options.layer === 100")
    page.k()
    page.value("by('exposed').scrollIntoView({ block: 'center' })")
    look(page, folder, f"{name}_exposure")
    page.value(DENIED)
    page.value("by('copy').scrollIntoView({ block: 'center' }); by('copy').click()")
    page.until("by('said').textContent")
    look(page, folder, f"{name}_not_copied")
    page.value("getSelection().removeAllRanges(); document.querySelector('aside').scrollTop = 0; scrollTo(0, 0)")
    page.change(height=50)


def try_all(page, room, folder):
    """Returns the number of pictures."""
    for scheme in ("light", "dark"):
        page.browser.media(prefers_color_scheme=scheme)
        for name, how in WINDOWS.items():
            page.load(*how)
            try_states(page, room, folder, f"{name}_{scheme}")
    page.browser.media()
    return 2 * len(WINDOWS) * STATES
