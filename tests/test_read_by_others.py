"""What stlslice-sl1 and stlslice-pngs make, as installed, read by others. unzip takes an archive apart, pngcheck reports no fault
in an image, and each row of each layer that netpbm reads is that of the program's P4 stream. Beside PrusaSlicer the images of
a printer known by name, and of other screens, have the same pixels; each line of prusaslicer.ini is one that PrusaSlicer
writes too, and PrusaSlicer reads it back. The script that compares both makes the table of docs/printing.md, which also says
how many layers each makes of other heights."""

import itertools
import os
import re
import shutil
import sys

from common import Case, example, installed, needs, same, text_of
from parts import box, centred, mirrored, pixels_of_png, read_by_netpbm, text, zipped
import beside_prusaslicer

LATTICE = text([it for x in range(40) for it in box((x, 0, 0), (x + 0.5, 9 - 0.1 * x, 4))])
BRACKET, GEAR, SUPPORTED = (text_of(example(f"{it}.stl")) for it in ("bracket", "helical_gear", "supported"))
# For each part the options, what they say (the canvas, pitch, layer and rule), and whether the image is mirrored across and
# down.
CASES = [
    (LATTICE, "--printer SL1S --layer 500", ((1620, 2560), 50, 500, "positive"), (True, False)),
    (LATTICE, "--canvas 2049x513 --pitch 20 --layer 500 --depth 1 --mirror-x", ((2049, 513), 20, 500, "positive"),
     (True, False)),
    (BRACKET, "--canvas 331x203 --pitch 200 --layer 250 --rule nonzero", ((331, 203), 200, 250, "nonzero"), (False, False)),
    (GEAR, "--canvas 801x601 --pitch 50 --layer 200 --mirror-y", ((801, 601), 50, 200, "positive"), (False, True)),
    (GEAR, "--canvas 801x601 --pitch 50 --layer 500 --depth 1 --mirror-x", ((801, 601), 50, 500, "positive"), (True, False)),
    (LATTICE, "--canvas 801x601 --pitch 50 --layer 500 --mirror-x", ((801, 601), 50, 500, "positive"), (True, False)),
    (SUPPORTED, "--canvas 1001x801 --pitch 50 --layer 400 --depth 1 --mirror-x --mirror-y",
     ((1001, 801), 50, 400, "positive"), (True, True)),
]


def turned(body):
    """The part turned by a quarter, counterclockwise from above, as it lies on a screen in portrait."""
    return re.sub(r"(vertex\s+)(\S+)(\s+)(\S+)", lambda it: f"{it[1]}{-float(it[4]):.6f}{it[3]}{it[2]}", body)


@needs("unzip", "pngcheck", "pngtopnm")
class ReadBack(Case):
    def compared(self, folder, names, canvas, wanted, what):
        ran = self.room.run("pngcheck", *names, cwd=folder)
        lines = ran.out.splitlines()
        same((ran.status, ran.fault, len(lines)), (0, "", len(names) + 2), f"{what}: pngcheck")
        fine = [f"OK: {name} ({canvas[0]}x{canvas[1]}, " for name in names]
        same([line[:len(start)] for line, start in zip(lines, fine)], fine, f"{what}: lines of pngcheck")
        same(len(names), len(wanted), f"{what}: layers")
        for name, rows in zip(names, wanted):
            _, found = read_by_netpbm(self.room, os.path.join(folder, name))
            differ = [number for number, (one, other) in enumerate(zip(found, rows)) if one != other]
            assert not differ and len(found) == len(rows), f"{what}: rows {differ[:9]} of {name} differ"
        lit = sum(any(255 in row for row in rows) for rows in wanted)
        assert lit > len(names) // 2, f"{what}: {lit} layers of {len(names)} are lit"

    def test_archives_are_read_by_others(self):
        room = self.room
        for body, words, (canvas, *numbers), mirrors in CASES:
            part, out, apart = room.put("part.stl", body), room.file("out.sl1"), room.file("apart")
            wanted = centred(room, turned(body) if "SL1S" in words else body, canvas, *numbers)
            wanted = [mirrored(rows, *mirrors) for rows in wanted]
            room.done(installed("stlslice-sl1"), *words.split(), part, out)
            room.out("unzip", "-d", apart, out)
            names = [f"out{number:05}.png" for number in range(len(wanted))]
            same(sorted(os.listdir(apart)), ["config.ini", *names, "prusaslicer.ini"], "names in the archive")
            self.compared(apart, names, canvas, wanted, words)
            shutil.rmtree(apart)
            room.done(installed("stlslice-pngs"), *words.split(), part, apart)
            names = sorted(os.listdir(apart))
            self.compared(apart, names[:3] + names[-3:], canvas, wanted[:3] + wanted[-3:], f"{words}, a folder")
            shutil.rmtree(apart)


# Of each screen what its profile says: size in mm and in pixels, orientation, mirrors, seconds of a layer and of the first
# ones; and the options for it.
SCREENS = {
    "landscape": ((128, 81), (2560, 1620), "landscape", (0, 0), (2.2, 25), ["--canvas", "2560x1620", "--pitch", "50"]),
    "mirrored in y": ((128, 81), (2560, 1620), "landscape", (0, 1), (2.2, 25),
                      ["--canvas", "2560x1620", "--pitch", "50", "--mirror-y"]),
    "pixels of 24 x 19": ((48, 30.4), (2000, 1600), "landscape", (1, 0), (2.2, 25),
                          ["--canvas", "2000x1600", "--pitch", "24x19", "--mirror-x"]),
    "SL1S": ((128, 81), (2560, 1620), "portrait", (1, 0), (2, 25), ["--printer", "SL1S"]),
    "SL1": ((120.96, 68.04), (2560, 1440), "portrait", (1, 0), (7.5, 35), ["--printer", "SL1"]),
}
PROFILE = beside_prusaslicer.PROFILE + "printer_model = {model}\nfaded_layers = 10\n"
ROW = r"(?m)^\| `(\w+)\.stl` \| (\w+) \| (\d+) \|(?: [\d.]+ s, [\d.]+ MB \|){2,3} \d+ times \| [\d,]+ \| [\d,]+ \|$"


def layers(path):
    files = zipped(path)
    names = sorted(name for name in files if re.search(r"\d{5}\.png$", name))
    same(len(names), 20, f"layers of {path}")
    rows = [[bytes(255 * (pixel > 127) for pixel in row) for row in pixels_of_png(files[names[k]])] for k in (0, 13)]
    return rows, set(files["prusaslicer.ini"].decode().splitlines())


class BesidePrusaSlicer(Case):
    def theirs(self, part, out, *place, **screen):
        """PrusaSlicer's archive of a part, by a profile for this screen."""
        profile = self.room.put("profile.ini", PROFILE.format(**screen))
        ran = self.room.done("prusa-slicer", "--export-sla", "--load", profile, *place, "--output", out, part)
        assert os.path.exists(out), f"prusa-slicer: {ran.fault[-300:]}"

    @needs("prusa-slicer")
    def test_pixels_and_settings_are_those_of_prusaslicer(self):
        room = self.room
        part = room.put("part.stl", text(box((0, 0, 0), (5, 20, 1)) + box((5, 0, 0), (12, 5, 1))))
        theirs, ours, again = map(room.file, ("theirs.sl1", "ours.sl1", "again"))
        for name, (size, pixels, orientation, mirrors, exposures, options) in SCREENS.items():
            self.theirs(part, theirs, "--center", f"{size[0] / 2:g},{size[1] / 2:g}", size=size, pixels=pixels,
                        orientation=orientation, mirrors=mirrors, exposures=exposures,
                        model=options[1] if "--printer" in options else "")
            room.out(installed("stlslice-sl1"), *options, part, ours)
            (found, lines), (wanted, lines_there) = layers(ours), layers(theirs)
            assert found == wanted, f"{name}: pixels differ"
            same(lines - lines_there, set(), f"{name}: lines that PrusaSlicer doesn't write")
            settings = room.put("prusaslicer.ini", zipped(ours)["prusaslicer.ini"])
            room.done("prusa-slicer", "--load", settings, "--save", again)
            same(lines - set(text_of(again).splitlines()), set(), f"{name}: lines that are read back otherwise")
            os.remove(theirs)

    @needs("prusa-slicer")
    def test_the_last_layer_is_made_or_not(self):
        """Of a part that isn't a whole number of layers high, as docs/printing.md says."""
        assert "20 and 21 of a box of 1.030 mm, 20 and 20 of one of 1.020 mm" in text_of("docs/printing.md"), "the page says otherwise"
        size, pixels, orientation, mirrors, options = beside_prusaslicer.SCREENS["small"]
        ours, theirs = map(self.room.file, ("ours.sl1", "theirs.sl1"))
        # of the second the last layer's middle, 1.025, is above the part
        for height, wanted in (("1.03", (True, 21, 20)), ("1.02", (True, 20, 20)), ("1", (True, 20, 20))):
            part = self.room.put("part.stl", text(box((20, 20, 0), (30, 30, height))))
            self.room.out(installed("stlslice-sl1"), *options, part, ours)
            self.theirs(part, theirs, "--dont-arrange", size=size, pixels=pixels, orientation=orientation, mirrors=mirrors,
                        exposures=(2.2, 25), model="")
            found = [list(beside_prusaslicer.pngs(it)) for it in (ours, theirs)]
            is_lit = b"\xff" in beside_prusaslicer.rows_of(found[0][-1])[1]
            same((is_lit, *map(len, found)), wanted, f"layers of a box of {height} mm")
            os.remove(theirs)

    def test_the_table_has_a_row_for_each_part_and_screen(self):
        rows = [row[:2] for row in re.findall(ROW, text_of("docs/printing.md"))]
        pairs = itertools.product(beside_prusaslicer.SCREENS, beside_prusaslicer.PARTS)
        same(rows, [(part, screen) for screen, part in pairs], "rows of the table")

    @needs("prusa-slicer")
    def test_the_script_makes_such_a_row(self):
        words = [beside_prusaslicer.__file__, "--screen", "small", "--part", "calibration_block"]
        same(re.findall(ROW, self.room.out(sys.executable, *words)), re.findall(ROW, text_of("docs/printing.md"))[:1], "its row")
