"""Slices a part into a folder of PNGs, one a layer: NAME/00000.png is the lowest. The part stands in the middle of the screen,
white on black; one that doesn't fit is refused. The folder must be new or empty; it is made aside and moved into place when it is
whole."""

import os

from . import words
from .faults import aside, command, named, refuse_if


@command
def run():
    given = words.read(words.parser(__doc__, "the folder to make"))
    folder = given.output = given.output.rstrip("/" + os.sep) or "/"
    line = "a folder can't be standard output; stlslice --png writes all layers there, and ./- is a folder's name"
    refuse_if(folder == "-", line)
    refuse_if(os.path.realpath(folder) == os.path.realpath(os.curdir), f"{folder} is the current folder, which can't be made")
    refuse_if(os.path.lexists(folder) and (not os.path.isdir(folder) or os.listdir(folder)), f"{folder} is there already")
    is_placed = os.path.islink(folder) or os.path.ismount(folder)
    refuse_if(is_placed, f"{folder} is a link or a mount point, in whose place no folder can be moved")
    path = aside(folder)
    os.mkdir(path)
    from .slicing import Sliced  # only here, so that what is wrong is told at once
    sliced = Sliced(given)
    for number, (png, _) in enumerate(sliced.pngs()):
        with named(folder), open(os.path.join(path, f"{number:05}.png"), "xb") as file:
            file.write(png)
    sliced.finish()
    if os.name == "nt" and os.path.isdir(folder):   # Windows moves nothing in the place of an empty folder
        os.rmdir(folder)
    os.rename(path, folder)
