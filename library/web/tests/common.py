"""What the tests of the page share: the page in a browser, the texts of library/test with what the program writes for them, and
how a test ends."""

import importlib.machinery
import importlib.util
import json
import os
import sys
import time
from concurrent.futures import ThreadPoolExecutor

HERE = os.path.dirname(os.path.abspath(__file__))
WEB = os.path.dirname(HERE)
ROOT = os.path.dirname(os.path.dirname(WEB))
DESK, PHONE = (1440, 900), (390, 844)
IDLE = "!slice.is_running() && part && (opened?.of === part || !by('fault').hidden)"
SECONDS = 240  # for a file to be saved
CHANGED = "by('form').dispatchEvent(new Event('change', { bubbles: true }))"


def stop(why):
    sys.exit(f"library/web/test: {why}")


def same(found, wanted, what):
    """Ends the script if the two differ. `same` of tests/common.py fails one test, and the script goes on."""
    if found != wanted:
        stop(f"{what}: found {str(found)[:600]!r} and wanted {str(wanted)[:600]!r}")


def holds(what, is_so):
    if not is_so:
        stop(f"{what}: not so")


def loaded(name, *path):
    """A script of the repository as a module."""
    loader = importlib.machinery.SourceFileLoader(name, os.path.join(ROOT, *path))
    module = importlib.util.module_from_spec(importlib.util.spec_from_loader(name, loader))
    loader.exec_module(module)
    return module


library_test = loaded("library_test", "library", "test")


def script(name):
    with open(os.path.join(HERE, f"{name}.js"), encoding="utf-8") as file:
        return file.read()


def example(name):
    return os.path.join(ROOT, "examples", f"{name}.stl")


class Case:
    """A text with the program's words, and what the program writes for it."""

    def __init__(self, path, words, program):
        self.path, self.words = path, words
        told = dict(zip(words[::2], words[1::2]))
        grid = next((it[len("--grid="):] for it in words if it.startswith("--grid=")), None)
        self.grid = grid and [int(it) for it in grid.split(",")]
        self.options = {"pitch": int(told["--pitch"]), "layer": int(told["--layer"]),
                        "rule": library_test.RULES.index(told.get("--rule", "evenodd")),
                        "unit": library_test.UNITS.index(told.get("--unit", "mm")), "grid": self.grid}
        self.status, self.stream, self.line = self.ran(program)
        self.report = self.ran(program, "--report")[1].decode() if self.status == 0 else ""

    def ran(self, program, *more):
        with open(self.path, "rb") as text:
            return library_test.ran([program, *self.words, *more], stdin=text)

    def numbers(self, place):
        """A number of each layer's line in the report: 3 is the loops, 5 the area."""
        return [int(line.split()[place]) for line in self.report.splitlines() if line.startswith("layer ")]


def cases(room, program):
    """The meshes of library/test, with the random ones under each rule, and its texts that are refused."""
    every = []
    for path, words in library_test.cases(room):
        is_random = os.path.dirname(path) == room
        rules = library_test.RULES if is_random else [words[words.index("--rule") + 1]]
        every += [(path, [rule if word in library_test.RULES else word for word in words]) for rule in rules]
    with open(example("bracket"), "rb") as file:
        refused = library_test.faulty(file.read())
    for number, (text, words) in enumerate(refused):
        path = os.path.join(room, f"refused{number}.stl")
        with open(path, "wb") as file:
            file.write(text)
        every.append((path, words))
    with ThreadPoolExecutor(os.cpu_count()) as pool:
        return list(pool.map(lambda it: Case(*it, program), every))


def field_of(value):
    return "checked" if isinstance(value, bool) else "value"


class Page:
    """The page in a browser. `set` fills its form, for the file that is chosen next."""

    def __init__(self, browser, path):
        self.browser, self.url = browser, f"file://{path}"
        self.value, self.in_worker, self.until = browser.value, browser.in_worker, browser.until

    def load(self, *how, is_kept=False):
        """Loads the page from nothing, and with nothing that was kept of an earlier visit."""
        if not is_kept:
            self.value("(() => { try { localStorage.clear(); } catch {} })()")
        self.browser.open(self.url, *(how or [DESK]))
        self.until("by('version').textContent || !by('fault').hidden")

    def set(self, pitch, layer, rule=2, unit=0, **_):
        self.value(f"by('pitch').value = {pitch}; by('height').value = {layer}; by('rule').selectedIndex = {rule};"
                   f"by('unit').selectedIndex = {unit}; by('printer').value = ''; lay_form()")

    def change(self, **values):
        """Changes fields of the form, as a hand does."""
        self.value("".join(f"by({json.dumps(name)}).{field_of(value)} = {json.dumps(value)};" for name, value in values.items()) + CHANGED)

    def take(self, path):
        """Chooses a file, and waits until it is opened or refused."""
        self.value("part = null; by('file').value = ''")
        self.browser.choose("#file", path)
        self.until(IDLE)

    def saved(self, name, click):
        """Clicks a button, and returns the path of the file that is saved then."""
        path = os.path.join(self.browser.saved, name)
        if os.path.exists(path):
            os.remove(path)
        self.value(f"by({json.dumps(click)}).click()")
        self.wait_for(path)
        return path

    def wait_for(self, path):
        """Waits until a file is there, whole."""
        end = time.monotonic() + SECONDS
        while time.monotonic() < end and not (os.path.exists(path) and os.path.getsize(path) and not os.path.exists(f"{path}.part")):
            self.value("new Promise((done) => setTimeout(() => done(0), 50))")
        holds(f"{path} was saved", os.path.exists(path))

    def text(self, name):
        return self.value(f"by({json.dumps(name)}).textContent")

    def k(self):
        """The layer that is shown, once it is that of the slider."""
        self.until("opened && shown && shown.k === k_now() && !show_layer.is_running() && !draw_soon.is_waiting()")
        return self.value("shown.k")

    def middle(self, selector):
        left, top, width, height = self.browser.place(selector)
        return left + width / 2, top + height / 2


def images_of(program, part, *words):
    """The bits of the program's images, and their columns and rows."""
    with open(part, "rb") as text:
        status, stream, wrong = library_test.ran([program, *words], stdin=text)
    same(status, 0, f"the program's status of {part}: {wrong}")
    columns, rows = map(int, stream.split(b"\n", 2)[1].split())
    head = len(f"P4\n{columns} {rows}\n")
    size = head + (columns + 7) // 8 * rows
    return [stream[at + head:at + size] for at in range(0, len(stream), size)], columns, rows


def area_of(bits):
    return bin(int.from_bytes(bits, "big")).count("1")
