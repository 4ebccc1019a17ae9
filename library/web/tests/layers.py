"""Layers and faults of the page beside the program's, and its loops beside the library's."""

import base64
import ctypes
import json
import os
import re
import struct

from common import holds, library_test, same, script


def loops_of(mesh, k):
    """The library's loops: the points' numbers one after the other, and the end of each loop."""
    points, ends = (ctypes.c_int64 * 0)(), (ctypes.c_size_t * 0)()
    counts = ctypes.c_size_t(), ctypes.c_size_t()
    while not mesh._ask("loops", k, points, len(points) // 2, counts[0], ends, len(ends), counts[1]):
        points, ends = (ctypes.c_int64 * (2 * counts[0].value))(), (ctypes.c_size_t * counts[1].value)()
    return list(points[:2 * counts[0].value]), list(ends[:counts[1].value])


def compare_layers(page, case, stlslice):
    told, name = page.in_worker(script("all_layers")), f"{case.path} {case.words}"
    same(base64.b64decode(told["images"]), case.stream, f"images of {name}")
    same(told["areas"], case.numbers(5), f"areas of {name}")
    same([len(it) for it in told["ends"]], case.numbers(3), f"loops of {name}")
    points = base64.b64decode(told["points"])
    points = list(struct.unpack(f"<{len(points) // 8}d", points))
    options = case.options
    with stlslice.open(case.path, options["pitch"], options["layer"], library_test.RULES[options["rule"]], options["grid"],
                       library_test.UNITS[options["unit"]]) as mesh:
        wanted = [loops_of(mesh, k) for k in range(len(mesh))]
        same(told["together"], [list(map(int, mesh.areas(rule))) for rule in library_test.RULES], f"areas by each rule of {name}")
    same(told["together"][options["rule"]], case.numbers(5), f"areas in one call of {name}")
    same(points, [it for found, _ in wanted for it in found], f"points of {name}")
    same(told["ends"], [ends for _, ends in wanted], f"ends of {name}")


def compare_fault(page, case):
    same(f"stlslice: {page.text('fault_line')}\n", case.line, f"line of {case.path} {case.words}")
    same(page.text("fault_head"), f"{os.path.basename(case.path)} is refused, status {case.status}", f"status of {case.path}")
    holds(f"a hint for {case.line}", page.value("by('hints').children.length > 0"))
    byte = re.search(r"at byte (\d+)", case.line)
    if byte:
        with open(case.path, "rb") as file:
            line = file.read()[:int(byte[1])].count(b"\n") + 1
        holds(f"the place in {case.path}", page.text("fault_place").startswith(f"Line {line}: "))


def open_in_grid(page, case):
    """Opens the case in its grid, for which the form has no field."""
    found = page.value(f"slicer.call('open', {json.dumps(case.options)}).then(() => null, (it) => [it.status, it.message])")
    wanted = [case.status, case.line[len("stlslice: "):-1]] if case.status else None
    same(found, wanted, f"fault of {case.path} {case.words}")


def compare(page, every, stlslice):
    """Opens each case through the form and the file's field, and says how many there were."""
    meshes = faults = size = 0
    for case in every:
        page.set(**case.options)
        page.take(case.path)
        if case.grid:
            open_in_grid(page, case)
        elif case.status:
            compare_fault(page, case)
        if case.status:
            faults += 1
        else:
            compare_layers(page, case, stlslice)
            meshes, size = meshes + 1, size + len(case.stream)
    return (f"{meshes} meshes, {size} bytes of images as the program's, with its areas and the library's loops; {faults} faults "
            "with the program's statuses and lines")
