#!/usr/bin/env python3
"""Makes the page of its parts: one file with the modules, the demo parts, the printers of the commands and the hints of
docs/refused.md in it.

    page.py PAGE.html MODULE64.wasm [MODULE32.wasm]
"""

import base64
import json
import os
import re
import sys
import zlib

HERE = os.path.dirname(os.path.abspath(__file__))
ROOT = os.path.dirname(os.path.dirname(HERE))
sys.path.append(os.path.join(ROOT, "python", "stlslice"))
sys.dont_write_bytecode = True

from printers import printers  # noqa: E402

# Scripts, joined in this order; a name that one declares is seen in all of its list.
ON_PAGE = ["numbers", "lines", "page", "slicer", "settings", "screens", "hints", "view", "plot", "saving", "hands"]
IN_WORKER = ["numbers", "lines", "worker", "parts", "picture", "zip", "formats"]
DEMOS = ["helical_gear", "bracket", "supported", "calibration_block"]


def text_of(*names):
    with open(os.path.join(*names), encoding="utf-8") as file:
        return file.read()


def script_of(names):
    return "\n".join(['"use strict";', *(text_of(HERE, f"{name}.js") for name in names)])


def packed(path):
    with open(path, "rb") as file:
        return base64.b64encode(zlib.compress(file.read(), 9)).decode()


def plain(paragraph):
    """A paragraph of Markdown as its words alone; none for a table."""
    words = re.sub(r"\[([^\]]*)\]\([^)]*\)", r"\1", " ".join(paragraph.split())).replace("`", "").replace("**", "")
    return "" if words.startswith("|") else words


def hint_of(title, body):
    """A section of docs/refused.md: the lines that it is about, what it says, and the command that fixes it."""
    fences = re.findall(r"(?ms)^```(\w+)[^\n]*\n(.*?)^```$", body)
    lines = [it[len("stlslice: "):] for kind, text in fences if kind == "text" for it in text.splitlines()]
    words = filter(None, map(plain, re.sub(r"(?ms)^```.*?^```$", "", body).split("\n\n")))
    return {"title": title, "lines": lines, "words": list(words),
            "command": "".join(text for kind, text in fences if kind == "sh").strip()}


def hints():
    """The sections on what a text, a mesh, a grid and memory are refused for."""
    parts = re.split(r"(?m)^(## .*)$", text_of(ROOT, "docs", "refused.md"))
    found = []
    for head, body in zip(parts[1::2], parts[2::2]):
        if re.match("## Status [3-6]", head):
            titles = re.split(r"(?m)^### (.*)$", body)
            sections = list(zip(titles[1::2], titles[2::2])) or [(head.split(": ")[-1].capitalize(), body)]
            found += [hint_of(*it) for it in sections]
    return [it for it in found if it["lines"]]


def demo(name):
    part = os.path.join(ROOT, "examples", f"{name}.stl")
    return {"name": f"{name}.stl", "title": name.replace("_", " "), "packed": packed(part)}


def printer(it):
    """A printer's screen and exposures. Lengths are micrometres, and the sides of a pixel fractions of whole numbers."""
    told = {name: value for name, value in vars(it).items() if name not in ("columns", "rows", "width", "depth", "source")}
    return {**told, "pitch": [[side.numerator, side.denominator] for side in it.pitch], "height": float(it.height)}


def main():
    page, *modules = sys.argv[1:]
    data = {"modules": [{"bits": bits, "packed": packed(path)} for bits, path in zip((64, 32), modules)],
            "demos": [demo(it) for it in DEMOS], "hints": hints(), "printers": list(map(printer, printers().values()))}
    words = json.dumps(data, ensure_ascii=False, separators=(",", ":")).replace("</", "<\\/")
    parts = {"STYLE": text_of(HERE, "style.css"), "WORKER": script_of(IN_WORKER), "PAGE": script_of(ON_PAGE),
             "DATA": f'<script type="application/json" id="data">{words}</script>'}
    whole = re.sub("@(STYLE|WORKER|PAGE|DATA)@", lambda it: parts[it[1]].rstrip("\n"), text_of(HERE, "preview.html"))
    with open(page, "w", encoding="utf-8") as file:
        file.write(whole)


if __name__ == "__main__":
    main()
