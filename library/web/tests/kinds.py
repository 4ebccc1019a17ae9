"""Files that are no STL: the page tells their kinds, as the commands do, and what to do about them."""

import gzip
import json
import os
import random
import re
import struct
import zipfile

from common import example, holds, same

UNPACK = "Unpack it, and choose the STL that is in it. If there is none, export the part as STL from the program that made it. To unpack:"
CONVERT = "Export the part as STL from the program that made it. If you have only this file:"
AGAIN = "Export the part again as STL. Or, on a command line of Linux:"

# Files that are not STLs: what the page says of each first
KINDS = {
    "part.3mf": ("A 3MF file, not an STL", "prusa-slicer --export-stl --output part.stl part.3mf"),
    "part.zip": ("A zip file, not an STL",
                 f"{UNPACK}Windowsright-click it, then Extract AllmacOSdouble-click itLinuxunzip part.zip"),
    "part.stl.gz": ("A gzip file, not an STL", "zcat part.stl.gz > part.stl"),
    "packed.stl": ("A gzip file, not an STL", "zcat packed.stl > packed-2.stl"),
    "other.stl": ("An OBJ file, not an STL", "cp other.stl other.obj && assimp export other.obj other-2.stl"),
    "my part.obj": ("An OBJ file, not an STL", "assimp export 'my part.obj' 'my part.stl'"),
    "part.ply": ("A PLY file, not an STL", "assimp export part.ply part.stl"),
    "part.off": ("An OFF file, not an STL", "assimp export part.off part.stl"),
    "part.amf": ("An AMF file, not an STL", "assimp export part.amf part.stl"),
    "part.step": ("A STEP file, not an STL", "FreeCAD"),
    "part.glb": ("A glTF file, not an STL", "Blender by File > Import"),
    "part.blend": ("A Blender file, not an STL", "Blender, then File > Export"),
    "-part.gcode": ("G-code, not an STL", "made for one printer"),
    "part.html": ("A web page, not an STL", "Download the part itself"),
    "part.png": ("A picture or document, not an STL", "no part in it"),
    "part.scad": ("Another kind of file", "does not begin as an STL does"),
    "long.gcode": ("G-code, not an STL", "made for one printer"),
    "part.ipt": ("A file of a CAD or Office program, not an STL", "export that as STL"),
    "part.skp": ("A SketchUp file, not an STL", "open it in SketchUp"),
    "ascii.fbx": ("An FBX file, not an STL", "Blender by File > Import"),
    "part.dae": ("A COLLADA file, not an STL", "Blender by File > Import"),
    "cut.stl": ("A binary STL that is not whole, or another kind of file", "Get it again"),
    "mark.stl": ("Byte order mark", f"{AGAIN}sed "), "wide.stl": ("UTF-16", f"{AGAIN}iconv "),
}

PACKED = ("part.zip", "part.stl.gz", "packed.stl")
OF_NO_KIND = ("made for one printer", "Download the part itself", "no part in it", "export that as STL")  # the same on each system
LINES = re.compile("^An? (3MF|zip|gzip|OBJ|PLY|OFF|AMF) ")  # kinds for which the commands have a line
NOT_WHOLE = ("the part is no text, and no whole binary STL: its header counts 12 facets, which take 684 bytes, and it has 584")


def bodies():
    """What the files have in them."""
    with open(example("bracket"), "rb") as file:
        text = file.read()
    return {
        "part.3mf": zipped("_rels/.rels"), "part.zip": zipped("part.stl"), "part.stl.gz": gzip.compress(text),
        "packed.stl": gzip.compress(text), "other.stl": b"\nvn 0 0 1\n",
        "my part.obj": b"# by hand\nv 0 0 0\n", "part.ply": b"ply\nformat ascii 1.0\n", "part.off": b"OFF\n8 6 0\n",
        "part.amf": b'\xef\xbb\xbf<?xml version="1.0"?>\n<!DOCTYPE amf>\n<amf unit="millimeter">',
        "part.step": b"ISO-10303-21;\nHEADER;\n",
        "part.glb": b"glTF\2\0\0\0", "part.blend": b"BLENDER-v402", "-part.gcode": b"; sliced\nG28 \nG1 X0\n", "part.html": b"<!DOCTYPE html>\n<html>",
        "part.png": b"\x89PNG\r\n\x1a\n", "cut.stl": bytes(80) + struct.pack("<I", 12) + bytes(500),
        "part.scad": b"cube([1, 2, 3]);\n", "long.gcode": b"; thumbnail begin\n" + 30 * (b"; " + 70 * b"A" + b"\n") + b"G28\n",
        "part.ipt": b"\xd0\xcf\x11\xe0\xa1\xb1\x1a\xe1", "part.skp": b"\xff\xfe\xff\x0eS\0k\0e\0t\0c\0h\0U\0p\0" + bytes(80),
        "ascii.fbx": b"; FBX 7.7.0 project file\n", "part.dae": b'\xef\xbb\xbf<?xml version="1.0"?>\n<COLLADA version="1.4.1">',
        "mark.stl": b"\xef\xbb\xbf" + text, "wide.stl": text.decode().encode("utf-16"),
    }


def zipped(name):
    path = os.path.join(os.environ.get("TMPDIR", "/tmp"), f"stlslice-{os.getpid()}.zip")
    with zipfile.ZipFile(path, "w") as file:
        file.writestr(name, "")
    with open(path, "rb") as file:
        data = file.read()
    os.remove(path)
    return data


def try_kinds(page, room):
    """A file that is no STL is refused with the commands' line or the library's; what it is, and what to do on each system, comes first."""
    page.load()
    same(page.value("by('file').accept"), "", "the endings alone that the window for a file shows")
    for name, body in bodies().items():
        path = os.path.join(room, name)
        with open(path, "wb") as file:
            file.write(body)
        page.take(path)
        title, words = KINDS[name]
        line = NOT_WHOLE if name == "cut.stl" else "the part is " if LINES.search(title) else "expected solid at byte "
        holds(f"the line of {name}: {page.text('fault_line')}", page.text("fault_line").startswith(line))
        same(page.value("by('hints').querySelector('summary').textContent"), title, f"the first hint of {name}")
        told = page.value("by('hints').querySelector('details').textContent")
        holds(f"{told!r} says {words!r}", words in told)
        is_taken = title in ("A 3MF file, not an STL", "An OBJ file, not an STL")
        same("Linuxstlslice-sl1 takes it as it is" in told, is_taken, f"whether the commands take {name}")
        if title.endswith(", not an STL") and words not in OF_NO_KIND:
            same([it in told for it in ("Windows", "macOS", "Linux")], 3 * [True], f"the systems that {told!r} names")
            same([UNPACK in told, CONVERT in told], [name in PACKED, name not in PACKED], f"what {told!r} says first")


# What the beginnings of files are put together of, with all that the commands look for
PIECES = [*(it.encode() for it in (
    "PK\3\4", "[Content_Types].xml", "_rels/.rels", "_rels/", "3D/", "ply", "ST", "C", "N", "4", "n", "OFF", "off", "v", "vn", "vt", "vp",
    "f", "o", "g", "s", "mtllib", "usemtl", "<?xml?>", "<!DOCTYPE amf>", "<!-- > -->", "<amf", "<AMF", ">", "#", "solid", "0", "\0", " ",
    "\t", "\n", "\r", "\v", "\f")), b"\x1f\x8b", b"\xef\xbb\xbf", b"\xa0", b"\xff\xfe", bytes(100), bytes(17)]


def told_by_commands(data):
    """The kind of a file, and the line of one that is neither text nor a whole binary STL."""
    from stlslice_commands import faults, parts
    try:
        return [parts.kind_of(data), None]
    except faults.Refused as fault:
        return [None, fault.line]


def try_kinds_of_commands(page):
    """A file is of a kind that the commands know exactly if they say so, and is refused by its length with their line."""
    from stlslice_commands import formats
    draw, known = random.Random(31), set(formats.KINDS)
    heads = [b"".join(draw.choices(PIECES, k=draw.randint(1, 6))) for _ in range(20000)]
    told = page.in_worker(f"{json.dumps([it.hex() for it in heads])}.map((it) => {{"
                          "const { kind } = read({ all: Uint8Array.from(it.match(/../g), (byte) => parseInt(byte, 16)).buffer });"
                          "return [kind, not_whole]; })")
    wanted = [told_by_commands(it) for it in heads]
    same([[kind if kind in known else None, line] for kind, line in told], wanted, "kinds and lines")
    same({kind for kind, _ in wanted}, {None, *known}, "the kinds that were seen")
    holds("lines by length were seen", 1000 < sum(line is not None for _, line in wanted) < 10000)


def try_all(page, room):
    try_kinds(page, room)
    try_kinds_of_commands(page)
