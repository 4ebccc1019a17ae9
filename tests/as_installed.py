"""The commands as `make install` puts them, their modules, and stand-ins for the slicer."""

import os
import sys

from common import BRACKET, bytes_of, installed, name_of, same
from parts import box, text

SL1, PNGS, PAGE, SLABS = (installed(f"stlslice-{it}") for it in ("sl1", "pngs", "page", "slabs"))
SHARE = os.path.join(os.path.dirname(installed()), "share", "stlslice")
# a part of two layers on a canvas of eight pixels, all lit
TINY, TINY_PART = ["--canvas", "8x1", "--pitch", "100", "--layer", "500"], text(box((0, 0, 0), ("0.8", "0.1", 1)))
# a cube without a facet, and the program's line of it
OPEN, OPEN_LINE = text(box((0, 0, 0), (1, 1, 1))[1:]), "stlslice: open edge 0 0 0 to 0 1000 0 there 0 back 1"
# Runs a command, and prints its seconds of a processor and its KiB of memory: as a small process of its own, since a process
# counts the memory of the one that it was forked from.
MEASURED = """import resource, subprocess, sys
status = subprocess.run(sys.argv[1:]).returncode
used = resource.getrusage(resource.RUSAGE_CHILDREN)
print(used.ru_utime + used.ru_stime, used.ru_maxrss)
sys.exit(status)
"""

sys.path.insert(0, SHARE)


def wrong_words(room, line, command, *words):
    """The command refuses its words with this as its last line, and makes nothing."""
    files, ran = room.files(), room.run(command, *words, cwd=room.path)
    # the choices are told in argparse's own way, which is not the same in each Python
    last = ran.fault.splitlines()[-1].split(" (choose from ")[0]
    same((ran.status, ran.out, last), (2, "", f"{name_of(command)}: error: {line}"), f"{name_of(command)} {words}")
    same(room.files(), files, f"files after {words}")


def keeps_the_part(room, command):
    """The part itself, and a link to it, are refused as the output."""
    part, link = room.put("part.stl", bytes_of(BRACKET)), room.file("link.stl")
    os.link(part, link)
    for out in (part, link):
        room.refused(1, f"%s: {out} is the part itself", *command, part, out)
    assert room.get("part.stl") == bytes_of(BRACKET), "the part has changed"
    return part, link


def slicer(room, body, layers=2, start="", box="800 100 1000"):
    """A stand-in for the program: it answers box and report, and slices as `body` says; before all it does `start`."""
    report = "".join(f"layer {k} loops 1 area 8\n" for k in range(layers)) + f"total {8 * layers}\n"
    return room.put("slicer", f"#!/bin/sh\n{start}\ncase \"$*\" in *--box*) echo facets 12 box 0 0 0 {box}; exit;; "
                    f"*--report*) printf '{report}'; exit;; esac\n{body}\n", 0o755)
