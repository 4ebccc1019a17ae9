"""docs/usage.md: each status with its command and its line, the canvas, and what is said of the options' details. And what is
said of words that are refused, and where a part is awaited from a terminal; and names that are no UTF-8. README's first run, and
its archive for a printer, do as it says, with the output that stands below them."""

import os
import pty
import re
import shutil
import struct

from common import BRACKET, PROGRAM, ROOT, Case, Together, same, skip, text_of
from parts import p4_images, pixels_of_p4, zipped

USAGE = text_of("docs/usage.md")
STEPS = ["--pitch=9", "--layer=9"]


class Usage(Case):
    def test_each_status_has_its_command_and_line(self):
        shutil.copy(os.path.join(ROOT, "README.md"), self.room.file("README.md"))
        os.symlink(os.path.join(ROOT, "examples"), self.room.file("examples"))
        table = USAGE.split("## Statuses")[1].split("\n## ")[0]
        rows = re.findall(r"(?m)^\| (\d) \|[^|]*\| `([^`]+)` \| ?(?:`([^`]+)`)? ?\|$", table)
        same([int(row[0]) for row in rows], [0, 2, 3, 4, 5, 6, 7], "statuses with a sample line")
        for status, command, line in rows:
            ran = self.room.bash(command, cwd=self.room.path)
            same((ran.status, ran.fault), (int(status), line + "\n" if line else ""), f"status and line of: {command}")
            assert int(status) == 0 or ran.out == "", f"standard output of: {command}"

    def test_the_canvas_has_the_part_in_its_middle_whole(self):
        """The canvas is the one that the recipe of docs/printing.md computes for examples/bracket.stl."""
        section = USAGE.split("## Units, pitch, canvas")[1].split("\n## ")[0]
        grid = re.search(r"`--grid=([-\d,]+)`", section)[1]
        assert f"\n{grid}\n" in text_of("docs/printing.md"), "the recipe gives another canvas"
        columns, rows, layers, x0, y0, z0 = map(int, grid.split(","))
        assert f"{columns} x {rows} pixels and {layers} layers" in section, "the page doesn't tell its size"
        assert f"{x0 / 1000:g}, {y0 / 1000:g}, {z0 / 1000:g} mm" in section, "the page doesn't tell its corner"
        words = "--pitch 50 --layer 50 --rule positive".split()
        found = p4_images(self.room.run("stlslice", *words, f"--grid={grid}", path=BRACKET, text=False).out)
        same((len(found), {image[:2] for image in found}), (layers, {(columns, rows)}), "layers, columns and rows")
        wider = f"2760,1820,{layers + 20},{x0 - 5000},{y0 - 5000},{z0 - 500}"
        report = self.room.run("stlslice", *words, f"--grid={wider}", "--report", path=BRACKET)
        black = sum(bin(int.from_bytes(bits, "big")).count("1") for _, _, bits in found)
        same(f"total {black}", report.out.splitlines()[-1], "the pixels of the canvas, and of a wider one")
        held = [k for k, row in enumerate(pixels_of_p4(found[0])) if 255 in row]
        assert abs(held[0] - (rows - 1 - held[-1])) <= 1, f"the part is in rows {held[0]} to {held[-1]}"

    def test_details_of_words(self):
        """Of an empty input a good line says status 3."""
        rows = [
            (3, [*STEPS, "--grid=1,1,1,-1000,0,0"]), (2, [*STEPS, "--grid", "-1000,1,1,0,0,0"]),
            (2, ["--pitch=9", *STEPS]), (2, ["--pit=9", "--layer=9"]), (2, [*STEPS, "part.stl"]),
            (2, [*STEPS, "--rule=EVENODD"]), (2, [*STEPS, "--unit=MM"]), (2, [*STEPS, "--rule="]),
            (3, ["--pitch=+9", "--layer=009"]), (2, [*STEPS, "--grid=+1,1,1,0,0,0"]), (2, [*STEPS, "--probe=+1,0,0"]),
            (3, [*STEPS, "--grid=1,1,1,-0,000000009,0"]), (2, [*STEPS, "--grid=-0,1,1,0,0,0"]),
            (2, [*STEPS, "--grid=1,1,1,0000000000,0,0"]), (2, [*STEPS, "--grid=1,1,1,128000001,0,0"]),
            (2, ["--box", "--rule=odd"]), (2, ["--box", "--grid=1"]), (0, ["--pitch=9", "--help"]), (0, ["--box", "-V"])]
        for status, words in rows:
            same(self.room.run("stlslice", *words).status, status, f"status of {' '.join(words)}")
        for words, line in ((["--rule=odd", "--unit=m"], "--rule takes"), (["--unit=m", "--grid=1"], "--unit takes"),
                            (["--grid=1", "--probe=1"], "--grid takes"), (["--probe=1"], "--probe takes"),
                            ([], "--pitch is missing"), (["--pitch=9"], "--layer is missing")):
            fault = self.room.run("stlslice", *words).fault
            assert fault.startswith(f"stlslice: {line}"), f"{' '.join(words)}: {fault}"

    def test_box_goes_before_probe_and_probe_before_report(self):
        """Also for a voxel outside the grid; a count of nine digits is a fault of the grid."""
        steps = ["--pitch=500", "--layer=500"]
        for words, status, start in ((["--box", "--probe=999,999,999", "--report"], 0, "facets "),
                                     (["--probe=1,1,1", "--report"], 0, "voxel 1 1 1 x "),
                                     (["--report"], 0, "layer 0 loops "), (["--grid=999999999,1,1,0,0,0"], 5, "")):
            ran = self.room.run("stlslice", *steps, *words, path=BRACKET)
            same((ran.status, ran.out[:len(start)]), (status, start), f"status and start of {' '.join(words)}")


NUMBERS = ("stlslice: --pitch and --layer take whole micrometres, as in --pitch 50 for 0.05 mm; --workers takes a whole "
           "number")
PART = "stlslice: the part is read from standard input, as in stlslice --pitch 50 --layer 100 < part.stl"
EQUALS = ("stlslice: a value that begins with a minus needs an equals sign; --grid takes three counts first, as in "
          "--grid=400,300,120,-9500,-7500,0")
AWAITED = "stlslice: a part in ASCII STL is awaited on standard input, as in stlslice --pitch 50 --layer 100 < part.stl"
HELP = "For more information, try '--help'."
SLICE = ["--pitch", "50", "--layer", "100"]

# Words, and the last line of what is said of them: that of the option parser, or the one that follows it.
LAST = [(["part.stl"], PART), (["--box", "part.stl"], PART), ([*SLICE, "a b.stl", "--report"], PART), ([*SLICE, "7"], PART),
        ([*SLICE, "--grid", "-1,1,1,0,0,0"], EQUALS), ([*SLICE, "--probe", "-1,0,0"], EQUALS), (["--pitch", "-5"], EQUALS),
        (["--pitch", "0.05", "--layer", "1"], NUMBERS), (["--bo"], HELP), (["--box", "-x"], HELP),
        (["--box", "--box"], HELP), ([*SLICE, "--rule", "odd"], "stlslice: --rule takes evenodd, nonzero or positive")]


class Hints(Case):
    def run_on_a_terminal(self, *words):
        """A run whose input is a terminal that has nothing to say."""
        ours, theirs = pty.openpty()
        try:
            os.write(ours, b"\x04")
            return self.room.run("stlslice", *words, stdin=theirs, timeout=60)
        finally:
            os.close(ours)
            os.close(theirs)

    def test_the_last_line_says_what_to_write(self):
        for words, last in LAST:
            told = self.room.run("stlslice", *words)
            same((told.status, told.out), (2, ""), f"status and output of {' '.join(words)}")
            same(told.fault.splitlines()[-1], last, f"the last line on {' '.join(words)}")

    def test_a_part_is_awaited_on_a_terminal_alone(self):
        ended = "stlslice: input ended before solid\n"
        for words in (["--box"], SLICE):
            same(self.run_on_a_terminal(*words), (3, "", AWAITED + "\n" + ended), f"{words} on a terminal")
            same(self.room.run("stlslice", *words).fault, ended, f"{words} on no terminal")
        same(self.run_on_a_terminal("--help")[::2], (0, ""), "no part is awaited for --help")
        missing = (2, "", "stlslice: --pitch is missing\n")
        same(self.run_on_a_terminal("--layer", "1"), missing, "no part is awaited by refused words")

    def test_help_says_what_reads_binary_stl(self):
        told = self.room.run("stlslice", "--help").out
        assert "stlslice-sl1, stlslice-pngs and stlslice-page read it" in told, told

    def test_a_path_may_be_no_utf_8_and_a_word_may_not(self):
        copy = os.path.join(os.fsencode(self.room.path), b"stl\xff")
        try:
            shutil.copy(PROGRAM, copy)
        except OSError as fault:
            skip(f"no such name can be made here: {fault.strerror}")
        told = self.room.out(copy, b"--box", path=BRACKET)
        same(told[:7], "facets ", "--box")
        self.room.refused(2, "stlslice: the words are not UTF-8", copy, b"--b\xff")


README = text_of("README.md")
SECTION = README.split("## First run")[1].split("\n## ")[0]
RUNS = re.split(r"(?m)^\$ ", "".join(re.findall(r"(?ms)^```console\n(.*?)^```$", SECTION)))[1:]


class FirstRun(Together):
    @classmethod
    def make_ready(cls, room):
        for folder in ("examples", "commands"):
            os.symlink(os.path.join(ROOT, folder), room.file(folder))
        cls.ran = [room.bash(run.partition("\n")[0], cwd=room.path) for run in RUNS]

    def test_each_command_prints_what_stands_below_it(self):
        assert len(RUNS) >= 6, f"README's first run is {RUNS}"
        for run, ran in zip(RUNS, self.ran):
            command, _, wanted = run.partition("\n")
            same((ran.status, ran.out.rstrip("\n"), ran.fault), (0, wanted.rstrip("\n"), ""), command)

    def test_the_printers_archive_has_an_image_a_layer(self):
        line, _, shown = RUNS[-1].partition("\n")
        canvas = tuple(map(int, re.search(r"--canvas (\d+)x(\d+)", line).groups()))
        told = re.fullmatch(r"part\.sl1: [\d.x ]+ mm, [\d.]+ ml, (\d+) layers\n*", shown)
        assert told, f"what README shows of: {line}"
        files = zipped(self.room.file("part.sl1"))
        wanted = ["config.ini"] + [f"part{k:05}.png" for k in range(int(told[1]))] + ["prusaslicer.ini"]
        same(sorted(files), wanted, "names in the archive")
        sizes = {struct.unpack(">II", files[name][16:24]) for name in wanted[1:-1]}
        same(sizes, {canvas}, "sizes of the images")

    def test_the_images_are_as_many_as_told(self):
        assert re.search(r"`layers\.pbm` holds 24 raw PBM images", README), "README doesn't tell the images"
        same(len(self.room.get("layers.pbm")), 24 * (len(b"P4\n300 300\n") + 38 * 300), "bytes of layers.pbm")
