"""The page in Firefox: layers and faults beside the program's, its keys, what it saves, numbers that it refuses, and Stop."""

import os

import archives
import firefox
import layers
import refusals
import stops
from common import DESK, IDLE, Page, example, holds, same

# What lets the tests look into page and worker
OPENED = [("'unsafe-inline' 'wasm-unsafe-eval'", "'unsafe-inline' 'unsafe-eval' 'wasm-unsafe-eval'"),
          ("const calls = {", "const calls = { evaluate: (words) => (0, eval)(words),")]


def opened_up(path, room):
    """A copy of the page that the tests can look into."""
    with open(path, encoding="utf-8") as file:
        text = file.read()
    for old, new in OPENED:
        same(text.count(old), 1, f"how often the page has {old!r}")
        text = text.replace(old, new)
    copy = os.path.join(room, "page.html")
    with open(copy, "w", encoding="utf-8") as file:
        file.write(text)
    return copy


def try_keys(page):
    page.load()
    page.set(100, 100)
    page.browser.key("Tab")
    same(page.value("document.activeElement.id"), "file", "what the first Tab comes to")
    page.browser.choose_in_window(lambda: page.browser.key("Enter"), example("bracket"))
    page.until(IDLE)
    same([page.text("name"), page.value("document.activeElement.id")], ["bracket.stl", "image"], "the part, and where the keys go on")
    k = page.k()
    for key, wanted in (("ArrowUp", k + 1), ("ArrowRight", k + 2), ("ArrowLeft", k + 1)):
        page.browser.key(key)
        same(page.k(), wanted, f"layer after {key}")
    holds("the picture is drawn", page.value("""(() => {
        const { width, height } = by("image"), dots = by("image").getContext("2d").getImageData(0, 0, width, height).data;
        const [red] = colour_of("body");
        return dots.filter((it, at) => at % 4 === 0 && it === red).length > 1000;
    })()"""))


def try_all(path, room, program, every, stlslice):
    """Says what was tried, or that there is no Firefox."""
    if not firefox.program():
        return "skipped: Firefox is missing (Debian: firefox-esr)"
    with firefox.Browser(DESK) as fox:
        page = Page(fox, opened_up(path, room))
        try_keys(page)
        told = layers.compare(page, every[::9], stlslice)
        saved = archives.try_all(page, room, program, archives.cases(room))
        numbers, kept = refusals.try_fields(page, room, program), stops.try_all(page)
    return f"Firefox: {told}; {saved}; {numbers} numbers refused with the lines of stlslice-sl1; {kept}"
