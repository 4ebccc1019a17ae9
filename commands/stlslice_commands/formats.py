"""The formats of parts, by how their files begin, and the commands that make an STL of them."""

import itertools
import os
import re
import shlex

# Each was tried. {0} is the file, {1} the STL to make.
CONVERTED = {"3MF": "prusa-slicer --export-stl --output {1} {0}", "zip": "unzip {0}", "gzip": "zcat {0} > {1}"}
ASSIMP = "assimp export {0} {1}"  # of all others
END = 1 << 16  # bytes at each end of a file, which tell its kind
KINDS = {
    "PLY": re.compile(rb"ply\s"),
    "OFF": re.compile(rb"(?:\s|#[^\r\n]*[\r\n])*(?:ST)?C?N?4?n?OFF\s"),
    "OBJ": re.compile(rb"(?:\xef\xbb\xbf)?(?:\s|#[^\r\n]*[\r\n])*(?:v|vn|vt|vp|f|o|g|s|mtllib|usemtl)[ \t]"),
    "AMF": re.compile(rb"(?:\xef\xbb\xbf)?\s*(?:<[?!][^>]*>\s*)*<amf[\s>]"),
    "3MF": re.compile(rb"PK\x03\x04(?s:.*)_rels/\.rels"),
    "zip": re.compile(rb"PK\x03\x04"),
    "gzip": re.compile(rb"\x1f\x8b"),
}


def kind_of(data):
    """The format of a file, by its first bytes and its last, or None if it is none of these."""
    ends = data[:END] + data[max(END, len(data) - END):]
    return next((kind for kind, begin in KINDS.items() if begin.match(ends)), None)


def is_binary(size, head):
    """Whether a file of this size is a binary STL: it has 84 bytes, and 50 for each facet that it counts."""
    return size >= 84 and size == 84 + 50 * int.from_bytes(head[80:84], "little")


def command_for(kind, name, made=None):
    """The command that makes an STL of a file, named after it or `made`. The tools that convert take the format from the name's
    ending, so a file with another ending is copied first."""
    stem, copied = re.sub(r"(?i)(\.stl)?\.\w+$", "", name), ""
    if kind not in ("zip", "gzip") and not name.lower().endswith("." + kind.lower()):
        other = free_name(stem, "." + kind.lower())
        copied, name = f"cp {shlex.quote(name)} {shlex.quote(other)} && ", other
    return copied + CONVERTED.get(kind, ASSIMP).format(shlex.quote(name), shlex.quote(free_name(made or stem, ".stl")))


def free_name(stem, ending):
    """A name that no file has yet: a pasted command may not write over a part."""
    names = itertools.chain([stem], (f"{stem}-{k}" for k in itertools.count(2)))
    return next(name + ending for name in names if not os.path.lexists(name + ending))
