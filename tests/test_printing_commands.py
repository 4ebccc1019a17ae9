"""stlslice-sl1 and stlslice-pngs, as installed, by what a printer's owner has: printers by name, parts that fit if turned,
pixels that aren't square, binary STL and other formats, units, shells inside out, more facets than the program takes."""

import gzip
import json
import os
import pty
import re
import shutil
import struct
import subprocess
import sys
import zipfile

from as_installed import MEASURED, PAGE, PNGS, SHARE, SL1, wrong_words
from common import Case, bytes_of, example, name_of, same
from parts import SHORT_FACET, archived, binary, box, centred, formats, lit, mirrored, pixels_of_png, text, turned_over
from terminal import shown_on_a_terminal

SCREEN = ["--canvas", "160x120", "--pitch", "250", "--layer", "500"]
# A foot to the right, a stem at the left, a knob on top: no turn and no mirror image of it is the same.
SHAPE = box((0, 0, 0), (5, 20, 3)) + box((5, 0, 0), (12, 5, 2)) + box((1, 16, 3), (3, 19, 5))


def turned(facets, quarters):
    for _ in range(quarters):
        facets = [tuple((-y, x, z) for x, y, z in corners) for corners in facets]
    return facets


def changed(facets, change):
    return [tuple(tuple(map(change, corner)) for corner in corners) for corners in facets]


LIMITED = """import sys
sys.argv[0], limit = "stlslice-sl1", int(sys.argv.pop(1))
sys.path.insert(0, sys.argv.pop(1))
from stlslice import shells
from stlslice_commands import sl1
shells.LIMIT = limit
sl1.run()
"""


class Commands(Case):
    def part(self, facets, spelled=text, name="part.stl"):
        return self.room.put(name, spelled(facets))

    def made(self, *words, command=SL1):
        """What a command prints and says, and the archive's settings, profile and images; or a folder's images."""
        out = self.room.file("out")
        ran = self.room.done(command, *words, out, env=self.room.with_env(SOURCE_DATE_EPOCH="1700000000"))
        if command == PNGS:
            images = [pixels_of_png(bytes_of(out, name)) for name in sorted(os.listdir(out))]
            shutil.rmtree(out)
            return ran.out, ran.fault, images
        made = archived(out)
        os.remove(out)
        return (ran.out, ran.fault, *made)

    def images(self, *words):
        return self.made(*words)[-1]

    def said(self, *words):
        return self.made(*words)[1]

    def refused(self, status, line, *words, command=SL1):
        self.room.refused(status, line, command, *words, self.room.file("out"))

    def refusal(self, status, *words, command=SL1):
        ran = self.room.run(command, *words, self.room.file("out"))
        same(ran.status, status, f"status of {words} ({ran.fault})")
        assert not os.path.lexists(self.room.file("out")), "something is left"
        return ran.fault

    def centred(self, facets, canvas=(160, 120), pitch=250, layer=500, rule="positive"):
        return centred(self.room, text(facets), canvas, pitch, layer, rule)

    def test_a_printer_brings_its_screen(self):
        part = self.part(SHAPE)
        keys = ("width", "height", "pixels_x", "pixels_y", "orientation", "mirror_x", "mirror_y")
        for model, (columns, rows), pitch, times, size, exposures in (
                ("SL1S", (1620, 2560), 50, 1, ("128", "81"), ("2", "25")),
                ("SL1", (1440, 2560), 189, 4, ("120.96", "68.04"), ("7.5", "35"))):
            told, said, settings, profile, images = self.made("--printer", model, "--layer", "500", part)
            large = [tuple((times * x, times * y, z) for x, y, z in corners) for corners in turned(SHAPE, 1)]
            wanted = [mirrored(image, True, False) for image in self.centred(large, (columns, rows), pitch)]
            assert images == wanted, f"{model}: pixels differ"
            same((settings["printerModel"], profile["printer_model"]), (model, model), "the printer's name")
            same([profile["display_" + key] for key in keys], [*size, str(rows), str(columns), "portrait", "1", "0"], "the screen")
            volume = lit(images) * (pitch / times) ** 2 * 500 / 1e12
            out = self.room.file("out")
            same(told, f"{out}: 12.000 x 20.000 x 5.000 mm, {volume:.3f} ml, 10 layers\n", "last line")
            same((settings["expTime"], settings["expTimeFirst"]), exposures, "exposures")
            line = f"the exposure of {settings['expTime']} s is that of Prusa Orange Tough"
            assert line in said and said.count("\n") == 1, said
            found = self.made("--printer", model.lower(), "--layer", "500", part, command=PNGS)[2]
            assert found == wanted, f"{model}: pixels of PNGs differ"
        same(self.said("--printer", "SL1S", part), "", "what is said of layers that the exposure is for")

    def test_a_printer_is_asked_for(self):
        part = self.part(SHAPE)
        missing = ("the printer is missing: --printer MODEL for one that --printer help lists; for another --canvas "
                   "COLUMNSxROWS and --pitch N (its screen in pixels, and a pixel in micrometres)")
        brings = "--printer SL1S brings its own: leave out "
        for command in (SL1, PNGS):
            for words, line in (([part], missing), (["--canvas", "9x9", part], missing), (["--pitch", "50", part], missing),
                    (["--printer", "Mars", part], "--printer takes SL1 or SL1S (--printer help says more); for another "
                     "printer take --canvas and --pitch"),
                    (["--printer", "SL1S", "--canvas", "9x9", part], brings + "--canvas"),
                    (["--printer", "SL1S", "--mirror-x", part], brings + "--mirror-x"),
                    (["--printer", "SL1S", "--height", "9", part], brings + "--height")):
                wrong_words(self.room, line, command, *words, "out")
            self.room.put("printers.py", "1 / 0")  # a module of this name that is not ours
            told = self.room.out(command, "--printer", "help", env=self.room.with_env(STLSLICE_LIBRARY="/none", PYTHONPATH=self.room.path))
            for word in ("SL1S  Original Prusa SL1S SPEED: 2560 x 1620 pixels, 128 x 81 x 150 mm\n    "
                         "from PrusaSlicer 2.5.0", "SL1  Original"):
                assert word in told, told
        settings, profile = self.made(*SCREEN, part)[2:4]
        names = [settings[key] for key in ("printerModel", "printerProfile", "printerVariant")] + [profile["printer_model"]]
        same(names, [""] * 4, "names")

    def test_a_part_is_turned(self):
        part = self.part(SHAPE)
        for words, quarters in (([], 0), (["--turn"], 1), (["--turn", "auto"], 0)):
            assert self.images(*SCREEN, *words, part) == self.centred(turned(SHAPE, quarters)), f"{words}: pixels differ"
        size = "%s: the part doesn't fit: it is 12.000 x 20.000 x 5.000 mm, the canvas"
        narrow = ["--canvas", "90x60", "--pitch", "250", "--layer", "500", part]
        self.refused(1, f"{size} 22.500 x 15.000 mm; turned by a quarter it fits: --turn", *narrow)
        for words, note in ((["--turn"], ""),
                            (["--turn", "auto"], "stlslice-sl1: the part is turned by a quarter: it fits only so\n")):
            found = self.made(*words, *narrow)
            assert found[4] == self.centred(turned(SHAPE, 1), (90, 60)), f"{words}: pixels differ"
            same(found[1], note, "note")
        # a degenerate facet counts for the size that is told, and not for the fit
        far = self.part(SHAPE + [((50, 50, 0),) * 3], name="far.stl")
        found = self.made("--turn", "auto", *narrow[:-1], far)
        assert found[4] == self.centred(turned(SHAPE, 1), (90, 60)), "with a degenerate facet: pixels differ"
        assert " 50.000 x 50.000 x 5.000 mm" in found[0], found[0]
        wide = ["--canvas", "60x90", "--pitch", "250", "--layer", "500", part]
        self.refused(1, f"{size} 15.000 x 22.500 mm; it fits without --turn", "--turn", *wide)
        small = ["--canvas", "60x60", "--pitch", "250", part]
        for words, more in (([], ""), (["--turn"], "; turned by a quarter it doesn't fit either"), (["--turn", "auto"], "")):
            self.refused(1, f"{size} 15.000 x 15.000 mm{more}", *words, *small)

    def test_a_part_lies_as_prusaslicer_lays_it(self):
        """On a screen in portrait, x along the long side."""
        long = self.part(box((0, 0, 0), (100, 72, 1)))
        same(len(self.images("--printer", "SL1S", "--layer", "500", long)), 2, "layers")
        line = "%s: the part doesn't fit: it is {} mm, the SL1S 128.000 x 81.000 x 150.000 mm{}".format
        self.refused(1, line("100.000 x 72.000 x 1.000", "; it fits without --turn"), "--printer", "SL1S", "--turn", long)
        high = self.part(box((0, 0, 0), (1, 1, "150.001")))
        self.refused(1, line("1.000 x 1.000 x 150.001", ""), "--printer", "SL1S", high)

    def test_pixels_need_not_be_square(self):
        facets = box(("0.0005", "-1", 0), ("1.9005", "1.4", 1)) + box((2, 0, 0), (3, "0.7003", "0.5"))
        part = self.part(facets)
        for pitch, (a, b), whole in (("19x24", (24, 19), 456), ("47.25x50", (200, 189), 9450), ("24x19", (19, 24), 456)):
            large = [tuple((f"{a * float(x):.6f}", f"{b * float(y):.6f}", z) for x, y, z in corners) for corners in facets]
            words = ["--canvas", "200x180", "--pitch", pitch, "--layer", "250", part]
            told, said, settings, profile, images = self.made(*words)
            assert images == self.centred(large, (200, 180), whole, 250), f"{pitch}: pixels differ"
            width, depth = map(float, pitch.split("x"))
            volume = lit(images) * width * depth * 250 / 1e12
            line = f"{self.room.file('out')}: 2.999 x 2.400 x 1.000 mm, {volume:.3f} ml, 4 layers\n"
            same((told, said), (line, ""), "last line")
            same(float(settings["usedMaterial"]), round(volume, 6), "material")
            sides = profile["display_width"], profile["display_height"]
            same(sides, (f"{200 * width / 1000:g}", f"{180 * depth / 1000:g}"), "the screen")
        # 1.9 mm are just 100 pixels of 19, 2.4 mm just 100 of 24
        one = self.part(facets[:12])
        rows = [row.count(255) for row in self.images("--canvas", "200x180", "--pitch", "19x24", "--layer", "250", one)[0]]
        same((max(rows), len([row for row in rows if row])), (100, 100), "pixels across and down")

    def test_corners_stay_together_and_parts_are_near_by_any_pitch(self):
        # two spellings of a corner that are the same micrometre, and not the same quarter of one
        near = self.part([tuple(tuple("0.0002" if k % 2 and x == 0 else "0.0001" if x == 0 else x for x in corner)
                                for corner in corners) for k, corners in enumerate(box((0, 0, 0), (3, 3, 1)))])
        whole = self.part(box((0, 0, 0), (3, 3, 1)), name="whole.stl")
        for words in (SCREEN, ["--canvas", "200x180", "--pitch", "47.25"]):
            found, wanted = self.made(*words, near), self.made(*words, whole)
            same((found[1], found[4]), ("", wanted[4]), f"corners that nearly meet, {words}")
        far = self.part(box((1000, 0, 0), (1001, 1, 1)))
        self.refused(5, "stlslice: part too far from the origin for these pixels", "--canvas", "200x180", "--pitch", "47.25x50", far)
        for pitch in ("22.345x24.321", "200000", "123456.789"):
            self.refused(1, "stlslice: no whole number of micrometres up to 100000 is a multiple of both sides of a pixel",
                         "--canvas", "99x99", "--pitch", pitch, whole)

    def test_as_many_layers_as_have_their_middle_in_the_part(self):
        """And at least one, which is dark, so that the part is refused."""
        for height, layers in (("0.251", 1), ("0.75", 1), ("0.751", 2), ("1.03", 2), ("5", 10)):
            same(len(self.images(*SCREEN, self.part(box((0, 0, 0), (3, 3, height))))), layers, f"layers of {height} mm")
        for height in ("0.001", "0.25"):
            said = self.refusal(1, *SCREEN, self.part(box((0, 0, 0), (3, 3, height))))
            assert "no pixel is lit" in said, f"{height} mm: {said}"

    def test_binary_stl_is_read(self):
        facets = changed(SHAPE, lambda x: float("%.4g" % (0.37 * x)))
        plain, other = self.part(facets, name="plain.stl"), self.part(facets, binary)
        for words in ([], ["--turn"], ["--pitch", "19x24", "--canvas", "999x999"]):
            wanted, found = (self.made(*SCREEN, *words, part) for part in (plain, other))
            same((wanted[1], found[1]), ("", ""), "what is said")
            assert (found[0], found[2:]) == (wanted[0], wanted[2:]), "the archive of a binary part differs"
        self.room.out(PNGS, *SCREEN, "-", self.room.file("pngs"), path=other)
        cut = self.room.put("cut.stl", bytes_of(other)[:1000])
        self.refused(3, "%s: the part is no text, and no whole binary STL: its header counts 36 facets, which take 1,884 "
                     "bytes, and it has 1,000", *SCREEN, cut)
        hole = self.refusal(4, *SCREEN, self.part(facets[1:], binary))
        assert hole.startswith("stlslice: open edge "), "an open binary STL"
        for number, line in (("nan", "not a number"), ("-inf", "infinite"), ("128001", "out of range")):
            for words in ([], ["--shells"]):
                self.refused(3, f"stlslice: z of corner 1 of facet 0: {line}", *SCREEN, *words,
                             self.part([((0, 0, 0), (0, 0, number), (1, 1, 1))], binary))

    def test_numbers_of_binary_stl_are_exact_values(self):
        """0.0005 in single precision is a little more than half a micrometre, and 1.0005 a little less than 1000 and a half."""
        for number, micrometres in ((0.0005, 1), (1.0005, 1000), (-1.0005, -1000), (0.1, 100), (0.0625, 63)):
            exact = struct.unpack("<f", struct.pack("<f", number))[0]
            assert abs(exact * 1000 - micrometres) <= 0.5, f"{number} is {exact}"
            told = json.loads(self.made("--canvas", "99x99", "--pitch", "100", "--json",
                                        self.part(box((number, 0, 0), (5, 5, 5)), binary))[0])
            same(told["size"], [(5000 - micrometres) / 1000, 5, 5], f"size from {number}")

    def test_other_formats_are_told_with_a_command(self):
        """If its tool is here, that is run, and its STL gives the part's images."""
        room, facets = self.room, SHAPE[:12]
        files = {kind: room.put(f"my part.{kind}", body) for kind, body in formats((0, 0, 0), (5, 20, 3)).items()}
        for kind, part in files.items():
            command = f"assimp export '{part}' '{part[:-4]}.stl'"
            self.refused(3, f"%s: the part is {kind.upper()}, not STL; convert it: {command}", *SCREEN, part)
            if not self.lacks(f"converting {kind}", command.split()[0]):
                room.done("bash", "-c", command)
                assert self.images(*SCREEN, room.file("my part.stl")) == self.centred(facets), f"{kind}: pixels differ"
                os.remove(room.file("my part.stl"))
        packed = room.file("packed.zip")
        with zipfile.ZipFile(packed, "w") as archive:
            archive.writestr("part.stl", text(SHAPE))
        self.refused(3, f"%s: the part is zip, not STL; unpack it: unzip {packed}", *SCREEN, packed)
        packed = room.put("my part.stl.gz", gzip.compress(text(SHAPE).encode()))
        command = f"zcat '{packed}' > '{packed[:-3]}'"
        self.refused(3, f"%s: the part is gzip, not STL; unpack it: {command}", *SCREEN, packed)
        room.done("bash", "-c", command)
        assert self.images(*SCREEN, packed[:-3]) == self.centred(SHAPE), "gzip: pixels differ"

    def test_commands_of_refusals_keep_the_part(self):
        """Each makes a file that isn't there yet, of whatever name the part is, and works for that name."""
        room, ends = self.room, ((0, 0, 0), (1, 1, 1))
        for kind, body, way, command in (
                ("gzip", gzip.compress(text(box(*ends)).encode()), "unpack", "zcat part.stl > part-2.stl"),
                ("OFF", formats(*ends)["off"], "convert", "cp part.stl part.off && assimp export part.off part-2.stl")):
            room.put("part.stl", body)
            line = f"%s: the part is {kind}, not STL; {way} it: {command}"
            room.refused(3, line, SL1, *SCREEN, "part.stl", "out", cwd=room.path)
            if not self.lacks(f"converting {kind}", command.split("&& ")[-1].split()[0]):
                room.done("bash", "-c", command, cwd=room.path)
                body = room.get("part-2.stl")
                same(body.count(b"endfacet") or int.from_bytes(body[80:84], "little"), 12, f"facets of {kind}")
                os.remove(room.file("part-2.stl"))
        room.put("part-2.stl", b"")
        packed = room.put("part.stl.gz", gzip.compress(b""))
        for word, name in (("part.stl.gz", "part.stl.gz"), ("-", "part.gzip")):
            line = f"%s: the part is gzip, not STL; unpack it: zcat {name} > part-3.stl"
            room.refused(3, line, SL1, *SCREEN, word, "out", cwd=room.path, path=packed)

    def test_units_are_exact(self):
        wanted = self.made(*SCREEN, self.part(SHAPE))
        for unit, by in (("cm", 10), ("m", 1000), ("inch", 25.4)):
            found = self.made(*SCREEN, "--unit", unit, self.part(changed(SHAPE, lambda x: f"{x / by:.9f}")))
            assert found == wanted, f"{unit}: the archive differs"
        tiny = self.part(changed(SHAPE, lambda x: x / 100))
        line = ("stlslice-sl1: the part is 0.120 x 0.200 x 0.050 mm: is mm the unit of its numbers? --unit takes mm, cm, m "
                "or inch\n")
        same(self.said("--canvas", "99x99", "--pitch", "5", "--layer", "5", tiny), line, "a part below a millimetre")
        hole = self.part(changed(SHAPE[1:], lambda x: x / 100))
        said = self.refusal(4, *SCREEN, hole)
        assert said.startswith(line + "stlslice: open edge "), f"an open part below a millimetre: {said}"
        said = self.refusal(1, *SCREEN, self.part(box((0, 0, 0), (1001, 1, 1))))
        assert said.startswith("stlslice-sl1: the part is 1001.000 x 1.000 x 1.000 mm: is mm the unit of its numbers?"), said
        metre = self.part(box((0, 0, 0), (1000, 1, 1)))
        same(self.said("--canvas", "1000x9", "--pitch", "1000", "--layer", "500", metre), "", "a part of just a metre")

    def test_a_shell_inside_out_is_told(self):
        one, other = box((0, 0, 0), (6, 6, 6)), box((4, 0, 0), (10, 6, 6))
        part = self.part(one + turned_over(other))
        for command in (SL1, PNGS):
            said = self.made(*SCREEN, part, command=command)[1]
            same(said, f"{name_of(command)}: a shell is inside out somewhere: 0.144 ml by --rule positive, "
                 "0.288 ml by --rule nonzero; look at the layers\n", "warning")
        for words, facets in ((["--rule", "nonzero"], one + turned_over(other)),
                              (["--rule", "evenodd"], one + turned_over(other)),
                              ([], one + other), ([], one + turned_over(box((2, 2, 2), (4, 4, 4))))):
            same(self.said(*SCREEN, *words, self.part(facets)), "", f"nothing to warn of {words}")

    def joined(self, rule, facets, *more, spelled=text, limit=24):
        words = [*SCREEN, *more, "--shells", "--rule", rule, self.part(facets, spelled)]
        out = self.room.file("out")
        return self.room.run(sys.executable, "-c", LIMITED, str(limit), SHARE, *words, out, cwd=self.room.path), out

    def images_joined(self, rule, facets, *more, spelled=text):
        ran, out = self.joined(rule, facets, *more, spelled=spelled)
        same((ran.status, ran.fault), (0, ""), "status and what is said")
        images = archived(out)[2]
        os.remove(out)
        assert f", {lit(images) * 250 * 250 * 500 / 1e12:.3f} ml, " in ran.out, ran.out
        return images

    def test_shells_are_joined(self):
        """Shells that overlap, one in the other, touch and stand apart, joined image by image."""
        overlap = box((0, 0, 0), (6, 6, 6)) + box((4, 1, 1), (10, 5, 5)) + box((5, 3, 2), (8, 9, 8))
        overlap += box((12, 0, 0), (14, 2, 2))
        hollow = box((0, 0, 0), (9, 9, 9)) + box((10, 0, 0), (12, 2, 2)) + turned_over(box((3, 3, 3), (6, 6, 6)))
        for rule in ("positive", "nonzero", "evenodd"):
            wanted = self.centred(overlap, rule=rule)
            for spelled in (text, binary):
                assert self.images_joined(rule, overlap, spelled=spelled) == wanted, f"{rule}: pixels differ"
        wanted = [mirrored(rows, True, True) for rows in self.centred(overlap)]
        for depth in ("1", "8"):
            found = self.images_joined("positive", overlap, "--mirror-x", "--mirror-y", "--depth", depth)
            assert found == wanted, f"mirrored, {depth} bits: pixels differ"
        assert self.images_joined("evenodd", hollow) == self.centred(hollow, rule="evenodd"), "hollow: pixels differ"
        for rule in ("positive", "nonzero"):
            line = ("stlslice-sl1: a shell is inside out, or bounds a hollow: --shells joins such shells by --rule evenodd "
                    "alone\n")
            same(self.joined(rule, hollow)[0], (1, "", line), f"hollow by {rule}")
        ran = self.joined("evenodd", overlap[:-1])[0]
        assert ran.status == 4 and ran.fault.startswith("stlslice: open edge "), f"an open shell: {ran}"
        for words in ([], ["--shells"]):
            found = self.images(*SCREEN, *words, self.part(overlap))
            assert found == self.centred(overlap), "shells within the limit: pixels differ"

    def test_of_open_shells_the_least_edge_is_told(self):
        bodies = [box((x, 0, 0), (x + 3, 3, 3)) for x in (9, 5, 1)]
        for missing in ((0,), (0, 1), (0, 1, 2), (1, 2)):
            facets = [facet for k, body in enumerate(bodies) for facet in body[k in missing:]]
            status, _, line = self.room.run("stlslice", "--pitch", "500", "--layer", "500", input=text(facets))
            # the second screen is too small for the part, which is told later
            for canvas in ("99x99", "3x3"):
                ran = self.joined("positive", facets, "--canvas", canvas, "--pitch", "500", limit=12)[0]
                same((status, ran), (4, (4, "", line)), f"without a facet of {missing}, {canvas}")

    def test_shells_are_of_a_whole_text_alone(self):
        """A text that was cut between two shells, or is no STL, or has too large numbers, is refused at once."""
        bodies = [text(box((9 * k, 0, 0), (9 * k + 3, 3, 3))) for k in range(2)]
        front = bodies[0].replace("endsolid part\n", "")
        whole = front + bodies[1].replace("solid part\n", "", 1)
        ended, at = "input ended before facet or endsolid", whole.index("vertex 12")
        for body, line in ((front, ended), (whole[11:], "expected solid at byte 0"), (whole[:-14], ended),
                ("hello", "expected solid at byte 0"), ("", "input ended before solid"),
                (whole.replace("vertex 12", "vertx 12", 1), f"expected vertex at byte {at}"),
                (whole.replace("vertex 12", "vertex 1e999", 1), f"number at byte {at + 7}: out of range"),
                (whole.replace("vertex 12", "vertex nan"), f"number at byte {at + 7}: not a number")):
            part = self.room.put("part.stl", body)
            for command in (SL1, PNGS):
                self.refused(3, f"stlslice: {line}", *SCREEN, "--shells", part, command=command)
        empty = self.room.put("part.stl", "solid\nendsolid\n")
        self.refused(1, "%s: the part has no facets", *SCREEN, "--shells", empty)
        found = self.images(*SCREEN, "--shells", self.room.put("part.stl", whole))
        assert found == self.centred(box((0, 0, 0), (3, 3, 3)) + box((9, 0, 0), (12, 3, 3))), "pixels differ"
        small = self.part(changed(SHAPE, lambda x: f"{x / 25.4:.9f}"))
        assert self.images(*SCREEN, "--unit", "inch", "--shells", small) == self.centred(SHAPE), "inches: pixels differ"

    def test_too_many_facets_are_told(self):
        count = 1_048_577
        for body, place in ((b"solid\n" + SHORT_FACET * count, r" at byte \d+"),
                            (bytes(80) + count.to_bytes(4, "little") + bytes(50 * count), f": {count}")):
            said = self.refusal(3, *SCREEN, self.room.put("part.stl", body))
            assert re.fullmatch(rf"stlslice: too many facets{place}\nstlslice-sl1: a mesh has at most 1,048,576 facets; "
                                r"--shells slices a larger part in groups of shells, if it has several\n", said), said


class Terminals(Case):
    def test_phases_are_shown_at_once(self):
        """A part with tens of thousands of layers is stopped while it is sliced; the line is taken away then."""
        part = self.room.put("part.stl", text(box((0, 0, 0), (70, 70, 60))))
        for command in (SL1, PNGS, PAGE):
            words = [command, "--canvas", "9999x9999", "--pitch", "10", "--layer", "1", part, self.room.file("out")]
            found = shown_on_a_terminal(words, b"slicing")
            same(found, (143, "", b"\r\x1b[Kreading\r\x1b[Kslicing\r\x1b[K"), name_of(command))
        same(self.room.files(), ["part.stl"], "files")

    def test_progress_is_shown(self):
        words = [SL1, "--canvas", "3000x3000", "--pitch", "20", "--layer", "4", example("supported.stl")]
        status, told, shown = shown_on_a_terminal([*words, self.room.file("out")])
        same((status, told.count("\n")), (0, 1), "run")
        drawn = [int(it.replace(b",", b"")) for it in re.findall(rb"\r\x1b\[Klayer ([\d,]+) of 8,000, \d+ s left", shown)]
        assert len(drawn) >= 3 and drawn == sorted(drawn), shown
        assert shown.startswith(b"\r\x1b[Kreading\r\x1b[Kslicing\r\x1b[K"), "the first phases aren't shown"
        assert shown.endswith(b"\r\x1b[K"), "the line is not taken away in the end"

    def test_a_part_is_awaited(self):
        ours, theirs = pty.openpty()
        words = [SL1, *SCREEN, "-", self.room.file("out")]
        child = subprocess.Popen(words, stdin=theirs, stderr=subprocess.PIPE, env=self.room.environment)
        same(child.stderr.readline(), b"stlslice-sl1: a part is awaited on standard input\n", "line")
        child.terminate()
        same(child.wait(timeout=60), 143, "status")
        child.stderr.close()
        os.close(ours)
        os.close(theirs)

    def test_memory_is_small(self):
        """A large screen, and a binary part of 64,000 facets: at most 150 bytes a facet and 60 MB."""
        grid = [box((x, y, 0), (x + 0.5, y + 0.5, 0.1)) for x in range(73) for y in range(73)]
        part = self.room.put("part.stl", binary([facet for facets in grid for facet in facets]))
        words = [SL1, "--canvas", "11520x5120", "--pitch", "19x24", "--layer", "50", part, self.room.file("out")]
        most = int(self.room.done(sys.executable, "-c", MEASURED, *words).out.split()[-1])
        assert 10_000 < most < 60_000 + 0.150 * 12 * 73 * 73, f"{most} KiB"
