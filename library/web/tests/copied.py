"""The command that is copied: its words, and what it makes in a shell, whatever the part's name."""

import os
import shlex
import subprocess

from archives import MOMENT, ran_command, same_archive
from common import IDLE, ROOT, example, holds, same
from files import binary_of, facets_of, written

# Names that a shell reads otherwise if they are not quoted, and those of what a command makes
NAMES = ["plain.stl", "a b's.stl", "-x.stl", "-", "two\nlines.stl", "a  \"$(touch bad)\" `touch bad`.stl", "~", "=x,,y;&.stl", "*.stl",
         "\\n.stl", "#x.stl", "caf\u00e9.stl", "x.pbm", "X.PBM"]
SHELLS = ["bash", "dash"]
# Keeps what is copied
CLIPBOARD = """Object.defineProperty(navigator, "clipboard", { value: { writeText: async (it) => { globalThis.clip = it; } } }); 0"""


def try_words(page):
    """The command names the part, and has the words of what is chosen."""
    page.load()
    page.set(100, 100)
    page.take(example("bracket"))
    page.change(unit=1, height=500)
    page.until(f"{IDLE} && opened.options.unit === 1 && opened.options.layer === 500")
    same(page.text("command").strip(), "stlslice --pitch 100 --layer 500 --rule positive --unit inch < bracket.stl > bracket.pbm",
         "the command of a part")
    page.change(unit=0, printer="own", columns=800, rows=600, width="100.0", depth="47.25")
    page.until(f"{IDLE} && opened.columns === 800")
    page.value("by('mirror_x').checked = true; by('material').value = 'a, ,,b'; by('archive').dispatchEvent(new Event('change'))")
    same(page.text("command").strip(), "stlslice-sl1 --canvas 800x600 --pitch 100x47.25 --mirror-x --layer 500 --rule positive "
         "--material 'a, ,,b' bracket.stl bracket.sl1", "the command of a screen")
    page.change(printer="SL1S", turn=True)
    page.until(f"{IDLE} && opened.columns === 1620")
    same(page.text("command").strip(), "stlslice-sl1 --printer SL1S --turn --layer 500 --rule positive --material 'a, ,,b' bracket.stl "
         "bracket.sl1", "the command of a printer")
    holds("the exposure is that of other layers", page.text("exposed").startswith("2 s is the exposure of Prusa Orange Tough"))
    page.value("by('exposure').value = '2.5'; by('archive').dispatchEvent(new Event('change'))")
    same([page.text("exposed"), "--exposure 2.5" in page.text("command")], ["", True], "the words on an exposure that is given")
    try_copy(page)


def try_other_units(page, program):
    """The command for a unit that the program does not take is another, which finds as much in the part."""
    page.load()
    page.set(2000, 5000, unit=2)
    page.take(example("bracket"))
    page.until("areas.length === opened.layers")
    words = shlex.split(page.text("command"))
    same(words, "stlslice-page --pitch 2000 --layer 5000 --rule positive --unit cm bracket.stl bracket.html".split(), "the command for cm")
    made = os.path.join(page.browser.saved, words[-1])
    ran = ran_command(program, words[0], *words[1:-2], example("bracket"), made)
    holds(f"{ran.stdout} has the page's volume", f"{made}: 54 layers, {page.value('fixed(volume(sum(areas)), 3)')} ml" in ran.stdout)
    os.remove(made)
    page.change(unit=3, pitch=50000, height=50000)
    page.until(f"{IDLE} && opened.options.unit === 3")
    holds(page.text("command"), " --unit m " in page.text("command"))


def try_copy(page):
    """It is said whether the command was copied."""
    page.value(CLIPBOARD)
    page.value("by('copy').click()")
    page.until("by('said').textContent === 'copied'")
    same(page.value("clip"), page.text("command").strip(), "what was copied")
    page.value("navigator.clipboard.writeText = async () => { throw new Error('denied'); }; by('copy').click()")
    page.until("by('said').textContent.startsWith('not copied')")
    same(page.value("getSelection().toString()"), page.text("command"), "what is marked then")


def copied(page):
    page.value("globalThis.clip = null; by('copy').click()")
    page.until("clip !== null")
    return page.value("clip")


def ran_in(shell, text, folder, program):
    """Runs a copied text in a folder, and returns the names of what it has made."""
    before = set(os.listdir(folder))
    path = ":".join([os.path.dirname(program), os.path.join(ROOT, "commands"), os.environ["PATH"]])
    ran = subprocess.run([shell, "-c", text], cwd=folder, capture_output=True, text=True,
                         env={**os.environ, "PATH": path, "SOURCE_DATE_EPOCH": str(MOMENT)})
    same(ran.returncode, 0, f"status of {text!r} in {shell}: {ran.stderr}")
    return [os.path.join(folder, it) for it in sorted(set(os.listdir(folder)) - before)]


def try_made(page, folder, program, name, data, same_as_page):
    """The command makes one file of a part of this name in each shell, which is as the page has it, and leaves the part as it is."""
    part = os.path.join(folder, name)
    with open(part, "wb") as file:
        file.write(data)
    page.take(part)
    text = copied(page)
    for shell in SHELLS:
        made = ran_in(shell, text, folder, program)
        same(len(made), 1, f"files that {text!r} makes in {shell}")
        same_as_page(made[0])
        os.remove(made[0])
        with open(part, "rb") as file:
            same(file.read() == data, True, f"whether {name!r} is as it was")
    os.remove(part)


def try_names(page, room, program):
    """A part of any name stays as it is, and the command makes what it says."""
    folder = os.path.join(room, "copied")
    os.mkdir(folder)
    with open(example("bracket"), "rb") as file:
        data = file.read()
    page.load()
    page.value(f"moment = () => {MOMENT}; {CLIPBOARD}")
    page.set(1000, 1000)
    images = written(program, data, "--pitch", "1000", "--layer", "1000", "--rule", "positive")
    for name in NAMES:
        try_made(page, folder, program, name, data, lambda made: same(read(made), images, "images"))
    for name in ("z.html", "Z.HTML", "b's.stl"):
        try_made(page, folder, program, name, binary_of(facets_of("bracket")), lambda made: holds(made, b"<html" in read(made)))
    page.change(printer="own", columns=400, rows=200, width="100", depth="100")
    for name in ("y.sl1", "Y.SL1", "b's.stl", "caf\u00e9.stl"):
        try_made(page, folder, program, name, data,
                 lambda made: same_archive(page.saved(os.path.basename(made), "save_archive"), made, made))
    os.rmdir(folder)


def read(path):
    with open(path, "rb") as file:
        return file.read()


def try_all(page, room, program):
    try_words(page)
    try_other_units(page, program)
    try_names(page, room, program)
