"""What people have: an STL, an OBJ, a 3MF, or another format, which is refused with the command that converts it."""

import re
import sys
from concurrent.futures import ThreadPoolExecutor
from functools import cached_property, partial

import stlslice

from . import formats
from .faults import Progress, Refused, in_mm, named, refuse_if, say

SHELLS = "a mesh has at most 1,048,576 facets; --shells slices a larger part in groups of shells, if it has several"
NO_FACETS = "the part has no facets"
OPEN = 4  # the library's status if a mesh is open
ONE_VOXEL = {"pitch": 1000, "layer": 1000, "grid": (1, 1, 1, 0, 0, 0)}


class Part:
    """A part that was read, and can be opened: as one mesh, or with --shells as one for each group of its shells. `unit` is the one
    that was given for its numbers, or None if the file has its own."""

    def __init__(self, given):
        Progress.show("reading", is_new=True)
        self.shells = getattr(given, "shells", None)  # None if there is no such option
        data = read(given.part)
        kind = kind_of(data)
        self.unit = None if kind == "3MF" else given.unit
        arrays = arrays_of(kind, data, given) if kind else None
        if arrays or self.shells:
            from stlslice import shells  # only here, since each start reads what it imports anew
        if self.shells:
            facets = shells.facets_of(*arrays) if arrays else self.asked(partial(stlslice.read, data, given.unit))[0]
            points, groups = read_by(shells.split, facets)
            refuse_if(not groups, NO_FACETS)
            # an open edge is told as it is without the two facets that are put to each group
            self.asked(*(partial(stlslice.open_mesh, points, it[:-6], **ONE_VOXEL) for it in groups))
            self.calls = [partial(stlslice.open_mesh, points, it) for it in groups]
            self.to_box = partial(shells.box_of, points, groups[0][-6:])
        elif arrays:
            self.calls, self.to_box = [partial(stlslice.open_mesh, *arrays)], partial(shells.box_of, *arrays)
        else:
            self.calls, self.to_box = [partial(stlslice.open, data, unit=given.unit)], partial(stlslice.box, data, given.unit)

    def open(self, **how):
        """The meshes, opened as `how` says in the words of `stlslice.open`; none if the part doesn't fit its canvas."""
        meshes = self.asked(*(partial(call, **how) for call in self.calls))
        if meshes:
            self.box = meshes[0].box
        return meshes

    @cached_property
    def box(self):
        """The part's box. It is read by itself if the part isn't opened."""
        return self.asked(self.to_box)[0]

    @property
    def size(self):
        """The sides of the box, in micrometres."""
        return [after - before for before, after in zip(self.box.low, self.box.high)]

    def asked(self, *calls):
        """What the library's calls return, each made in a thread of its own: Python heeds a signal only between its own steps. A
        fault ends the command with its line; of open edges the least of all meshes is told, as if they were one."""
        with ThreadPoolExecutor(len(calls)) as pool:
            made = [pool.submit(call) for call in calls]
        faults = [it.exception() for it in made if it.exception()]
        if not faults:
            return [it.result() for it in made]
        fault = min(faults, key=lambda it: [getattr(it, "status", 0) != OPEN, *map(int, re.findall(r"-?\d+", str(it)))])
        if isinstance(fault, stlslice.FitFault):
            return []
        if isinstance(fault, MemoryError) or not isinstance(fault, stlslice.Fault):
            raise fault
        refuse_if(str(fault) == "no facet is left" and not self.box.facets, NO_FACETS)
        is_large = "too many facets" in str(fault)
        raise Refused(SHELLS if is_large and self.shells is False else None, 3 if is_large else fault.status, fault.line + "\n")

    def refuse_dark(self, areas, rule):
        or_unit = f", or its unit another than {self.unit}" if self.unit else ""
        refuse_if(not any(areas), f"no pixel is lit by --rule {rule}: is the part inside out (try --rule nonzero){or_unit}? "
                  f"It is {in_mm(self.size)} mm")


def read(path):
    """The bytes of a file, or of standard input."""
    name, place = ("standard input", 0) if path == "-" else (path, path)
    refuse_if(place == 0 and not sys.stdin, "standard input is closed")
    if place == 0 and sys.stdin.isatty():
        say("a part is awaited on standard input")
    with named(name), open(place, "rb", buffering=0) as file:
        return file.read()


def kind_of(data):
    """The format of a part, or None if it may be an STL. What is neither text nor a whole binary STL is refused."""
    head, size = data[:84], len(data)
    if formats.is_binary(size, head):
        return None
    kind = formats.kind_of(data)
    # a binary STL has a 0 there, in its count of facets at the latest
    if not kind and b"\0" in head and not head.startswith((b"\xff\xfe", b"\xfe\xff")) and size >= 84:
        count = int.from_bytes(head[80:84], "little")
        raise Refused(f"the part is no text, and no whole binary STL: its header counts {count:,} facets, which take "
                      f"{84 + 50 * count:,} bytes, and it has {size:,}", 3)
    return kind


def arrays_of(kind, data, given):
    """The points and triangles of an OBJ or a 3MF. Those of another format are refused, with the command that converts them."""
    name = "part." + kind.lower() if given.part == "-" else given.part
    advice = f"{'unpack' if kind in ('zip', 'gzip') else 'convert'} it: {formats.command_for(kind, name)}"
    refuse_if(kind not in ("OBJ", "3MF"), f"the part is {kind}, not STL; {advice}", 3)
    refuse_if(kind == "3MF" and given.unit != "mm", "a 3MF has a unit of its own: leave out --unit", 2)
    if kind == "OBJ":
        from stlslice.obj import read_obj  # only here, since each start reads what it imports anew
        return read_by(read_obj, data, given.unit, advice=advice)
    from stlslice.threemf import FACETS, read_3mf
    # of more facets the library takes no mesh, but shells of a larger one
    return read_by(read_3mf, data, most=FACETS * (16 if getattr(given, "shells", False) else 1), advice=advice)


def read_by(read, *words, advice="", **more):
    """What a reader of the module returns. How far it is is shown. Its fault ends the command, with the advice if it may be right."""
    try:
        return read(*words, progress=lambda it: Progress.show(f"reading: {it}"), **more)
    except stlslice.Fault as fault:
        raise Refused(f"{fault}; {advice}" if isinstance(fault, stlslice.FormatFault) else str(fault), fault.status)
