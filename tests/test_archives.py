"""stlslice-sl1 and stlslice-pngs, as installed: each pixel beside the slicer's own P4 stream, the place on the canvas, what
is refused, and that a fault leaves nothing."""

import itertools
import os
import re
import shutil
import signal
import subprocess
import sys
import time
import zipfile

from as_installed import OPEN, OPEN_LINE, PAGE, PNGS, SL1, SLABS, TINY, TINY_PART, keeps_the_part, wrong_words
from common import BRACKET, GEAR, Case, alone, bytes_of, example, name_of, same, text_of, waited
from parts import archived, box, centred, layers_of, lit, middle, pixels_of_png, text, turned_over, zipped

SMALL = ["--canvas", "331x203", "--pitch", "200", "--layer", "500", "--workers", "2"]
CUBE = box((0, 0, 0), (1, 1, 1))


def opened(path):
    """The settings and the images of an archive, the lowest layer first. Its two files of settings agree."""
    settings, profile, images = archived(path)
    with zipfile.ZipFile(path) as archive:
        same(archive.testzip(), None, "a damaged entry")
        names = [name for name in archive.namelist() if name not in ("config.ini", "prusaslicer.ini")]
        same(len(archive.namelist()), len(images) + 2, "entries")
    same(names, [f"{settings['jobDir']}{k:05}.png" for k in range(len(images))], "names of images")
    for one, other in (("expTime", "exposure_time"), ("expTimeFirst", "initial_exposure_time"), ("numFade", "faded_layers"),
                       ("layerHeight", "layer_height"), ("printerModel", "printer_model")):
        same(profile[other], settings[one], other)
    size = str(len(images[0][0])), str(len(images[0]))
    same((profile["display_pixels_x"], profile["display_pixels_y"]), size, "screen")
    return settings, images


class Archives(Case):
    def sliced(self, *words, command=SL1, **how):
        return self.room.run(command, *SMALL, *words, **how)

    def refused(self, status, line, *words, command=SL1, **how):
        self.room.refused(status, line, command, *SMALL, *words, **how)

    def made(self, *words, **how):
        out = self.room.file("out.sl1")
        same(self.sliced(*words, out, **how)[::2], (0, ""), f"an archive by {words}")
        return opened(out)

    def test_an_archive_is_the_stream(self):
        part = example("supported.stl")
        for depth in ("8", "1"):
            for rule in ("evenodd", "positive"):
                settings, images = self.made("--rule", rule, "--depth", depth, part)
                same(len(images), 64, "layers")
                wanted = centred(self.room, bytes_of(part), (331, 203), 200, 500, rule)
                assert images == wanted, f"pixels ({rule}, depth {depth})"
                same(settings["usedMaterial"], f"{lit(images) * 200 * 200 * 500 / 1e12:.6f}", "material")
                assert lit(images) > 0, "nothing is lit"

    def test_settings_are_those_asked_for(self):
        env, out = self.room.with_env(SOURCE_DATE_EPOCH="1700000000"), self.room.file("my part.SL1")
        words = ["--exposure", "2.5", "--first-exposure", "30", "--fade", "4", "--material", "grey", BRACKET, out]
        same(self.sliced(*words, env=env)[::2], (0, ""), "archive")
        settings, images = opened(out)
        same(len(images), 54, "layers")
        wanted = {"action": "print", "expTime": "2.5", "expTimeFirst": "30", "expUserProfile": "0", "hollow": "0",
                  "fileCreationTimestamp": "2023-11-14 at 22:13:20 UTC", "jobDir": "my_part", "layerHeight": "0.5",
                  "materialName": "grey", "numFade": "4", "numFast": "54", "numSlow": "0", "printProfile": "0.5 mm",
                  # three layers of 30 s; 24.5, 19, 13.5 and 8 s; 47 of 2.5 s; and 5 s after each
                  "printTime": f"{90 + 24.5 + 19 + 13.5 + 8 + 47 * 2.5 + 54 * 5:.6f}",
                  "printerModel": "", "printerProfile": "", "printerVariant": "",
                  "prusaSlicerVersion": "stlslice", "usedMaterial": settings["usedMaterial"]}
        same(settings, wanted, "settings")
        lines = zipped(out)["prusaslicer.ini"].decode().splitlines()
        same([line for line in lines if line.startswith("display_")], [
            "display_height = 40.6", "display_mirror_x = 0", "display_mirror_y = 0", "display_orientation = landscape",
            "display_pixels_x = 331", "display_pixels_y = 203", "display_width = 66.2"], "the screen")
        same(lines, sorted(lines), "the order of the names")
        first = bytes_of(out)
        self.sliced(*words, env=env)
        assert bytes_of(out) == first, "a second run with the same date wrote other bytes"

    def test_dates_are_those_of_a_zip(self):
        """A date that a zip can't hold becomes the nearest that it can, and what is no date is refused at once."""
        out = self.room.file("out.sl1")
        words = [SL1, *TINY, self.room.put("part.stl", TINY_PART), out]
        for date, wanted, said in (("0", (1980, 1, 1, 0, 0, 0), "1970-01-01 at 00:00:00 UTC"),
                                   ("1700000000", (2023, 11, 14, 22, 13, 20), "2023-11-14 at 22:13:20 UTC"),
                                   ("9999999999", (2107, 12, 31, 23, 59, 58), "2286-11-20 at 17:46:39 UTC")):
            self.room.out(*words, env=self.room.with_env(SOURCE_DATE_EPOCH=date))
            with zipfile.ZipFile(out) as archive:
                same({it.date_time for it in archive.infolist()}, {wanted}, f"dates of {date}")
                assert f"fileCreationTimestamp = {said}\n" in archive.read("config.ini").decode(), f"{date}: another date"
            os.remove(out)
        line = "%s: SOURCE_DATE_EPOCH takes whole seconds since 1970, of at most eleven digits"
        for date in ("x", "", "-1", "1.5", "999999999999", "１"):
            self.room.refused(1, line, *words, env=self.room.with_env(SOURCE_DATE_EPOCH=date))

    def test_large_layers_are_slow(self):
        part = self.room.put("part.stl", text(CUBE) + text(box((0, 0, 1), (1, "0.5", 2))))
        settings, _ = self.made("--canvas", "10x10", "--pitch", "100", "--layer", "250", part)
        same((settings["numSlow"], settings["numFast"]), ("4", "4"), "slow and fast layers")

    def test_a_part_is_upright_and_in_the_middle(self):
        """A part of an L's shape, far from the origin: its foot points to the right, its stem stands at the left."""
        part = self.room.put("part.stl", text(box((100, -50, 7), (101, -47, 8)) + box((101, -50, 7), (102, -49, 8))))
        wanted = [b"\0" * 6] + [b"\0\0\xff\0\0\0"] * 2 + [b"\0\0\xff\xff\0\0"] + [b"\0" * 6]
        left = [row[::-1] for row in wanted]
        for more, image in (([], wanted), (["--mirror-x"], left), (["--mirror-y"], wanted[::-1]),
                            (["--mirror-x", "--mirror-y"], left[::-1])):
            found = self.made("--canvas", "6x5", "--pitch", "1000", "--layer", "1000", *more, part)[1]
            same(found, [image], f"image {more}")

    def test_a_folder_is_the_stream(self):
        out = self.room.file("pngs")
        same(self.sliced(BRACKET, out + "/", command=PNGS)[::2], (0, ""), "folder")
        names = sorted(os.listdir(out))
        same(names, [f"{k:05}.png" for k in range(54)], "names")
        images = [pixels_of_png(bytes_of(out, name)) for name in names]
        assert images == centred(self.room, bytes_of(BRACKET), (331, 203), 200, 500), "pixels differ"
        same(self.room.files(), ["pngs"], "files")
        self.refused(1, f"%s: {out} is there already", BRACKET, out, command=PNGS)
        same(sorted(os.listdir(out)), names, "names after that")
        os.mkdir(out + "2")
        same(self.sliced(BRACKET, out + "2", command=PNGS).status, 0, "an empty folder")
        same(len(os.listdir(out + "2")), 54, "layers")

    def test_a_part_that_is_too_large_is_refused(self):
        for command in (SL1, PNGS):
            for words, size in (("640x239", "32.000 x 11.950 mm"), ("639x240", "31.950 x 12.000 mm"),
                                ("240x639", "12.000 x 31.950 mm"), ("640x240 --height 26.9", "32.000 x 12.000 x 26.900 mm"),
                                ("240x640 --height 26.9", "12.000 x 32.000 x 26.900 mm"),
                                ("240x640", "12.000 x 32.000 mm; turned by a quarter it fits: --turn")):
                words = ["--canvas", *words.split(), "--pitch", "50", BRACKET, self.room.file("out")]
                line = f"%s: the part doesn't fit: it is 31.964 x 12.000 x 27.000 mm, the canvas {size}"
                self.refused(1, line, *words, command=command)
        self.made("--canvas", "640x240", "--pitch", "50", "--height", "27", "--layer", "1000", BRACKET)

    def test_faults_of_the_part_are_handed_on(self):
        dark = "no pixel is lit by --rule positive: is the part inside out (try --rule nonzero), or its unit another than mm? It is"
        small = "0.020 x 0.027 x 0.030 mm"
        for bad, status, line in (("facet", 3, "stlslice: expected solid at byte 0"), (OPEN, 4, OPEN_LINE),
                ("solid\nendsolid\n", 1, "%s: the part has no facets"),
                (text(turned_over(CUBE)), 1, f"%s: {dark} 1.000 x 1.000 x 1.000 mm"),
                (text(box((0, 0, 0), ("0.02", "0.027", "0.03"))), 1,
                 f"%s: the part is {small}: is mm the unit of its numbers? --unit takes mm, cm, m or inch\n"
                 f"%s: {dark} {small}")):
            part = self.room.put("part.stl", bad)
            for command in (SL1, PNGS):
                self.refused(status, line, part, self.room.file("out"), command=command)
            self.refused(status, line, "-", self.room.file("out"), input=bad)

    def test_a_fault_keeps_what_was_there(self):
        self.made(BRACKET)
        before = self.room.get("out.sl1")
        self.refused(4, OPEN_LINE, self.room.put("part.stl", OPEN), self.room.file("out.sl1"))
        assert self.room.get("out.sl1") == before, "the archive that was there has changed"

    def test_an_output_that_is_no_plain_file_is_refused(self):
        pipe, link = self.room.file("pipe"), self.room.file("link")
        os.mkfifo(pipe)
        os.symlink("elsewhere", link)
        for out in (pipe, link, self.room.path):
            self.refused(1, f"%s: {out} is no plain file", BRACKET, out)
        # before the part is looked at
        os.mkdir(self.room.file("empty"))
        os.symlink("empty", self.room.file("link to it"))
        for command, name, line in (*((it, "none/out", "No such file or directory: {}") for it in (SL1, PNGS, PAGE)),
                (PNGS, "link", "{} is there already"),
                (PNGS, "link to it", "{} is a link or a mount point, in whose place no folder can be moved")):
            out = self.room.file(name)
            self.refused(1, f"%s: {line.format(out)}", "none.stl", out, command=command)

    def test_the_part_is_not_overwritten(self):
        part, link = keeps_the_part(self.room, [SL1, *SMALL])
        for out, command in itertools.product((part, link), (SL1, PAGE)):
            self.refused(1, f"%s: {out} is the part itself", "-", out, command=command, path=part)
        assert self.room.get("part.stl") == bytes_of(BRACKET), "the part has changed"
        line = "%s: . is the current folder, which can't be made"
        self.refused(1, line, BRACKET, ".", command=PNGS, cwd=self.room.path)

    def test_a_pitch_of_quarters_is_exact(self):
        """A pixel of 47.25: the part four times as large in x and y, with a pixel of 189, has the same image. The part is 80
        pixels wide but for a quarter of a micrometre, so any error of the pitch adds or takes a column."""
        small = box(("-1.5", "+2.0e0", ".5"), ("2.27975", "4.", "1")) + box(("2.5", "2", "0.5"), ("3", "2.3", "0.9"))
        large = box(("-6.0", "8", ".5"), ("9.119", "16", "1")) + box(("10", "8", "0.5"), ("12", "9.2", "0.9"))
        words = ["--canvas", "301x101", "--pitch", "47.25", "--layer", "100"]
        part = self.room.put("part.stl", text(small, "vertex of all"))
        grid = f"--grid=301,101,5,{(-6000 + 12000 - 301 * 189) // 2},{(8000 + 16000 - 101 * 189) // 2},500"
        stream = self.room.out("stlslice", "--pitch", "189", "--layer", "100", grid, input=text(large), text=False)
        settings, images = self.made(*words, part)
        assert images == layers_of(stream), "pixels differ"
        same(images[0][50].count(255), 80, "pixels of a row that is 80 wide")
        same(settings["usedMaterial"], f"{lit(images) * 47.25 * 47.25 * 100 / 1e12:.6f}", "material")
        for bad, status, line in ((OPEN, 4, OPEN_LINE), ("solid\nfacet normal 0 0 0\nouter loop\nvertex 0 x 0", 3,
                                                        "stlslice: number at byte 45: not a number")):
            self.refused(status, line, *words, self.room.put("part.stl", bad), self.room.file("out2"))

    def test_pngs_are_taken_as_they_are(self):
        out = self.room.file("out")
        grid = middle(self.room.out("stlslice", "--box", path=GEAR), (331, 203), 200, 500)
        for more in (["--depth", "8"], ["--depth", "1", "--mirror-x"], ["--depth", "8", "--mirror-x", "--mirror-y"]):
            words = ["--pitch", "200", "--layer", "500", "--rule", "positive", grid, "--png", *more]
            wanted = self.room.out("stlslice", *words, path=GEAR, text=False)
            same(self.sliced(*more, GEAR, out).status, 0, "archive")
            with zipfile.ZipFile(out) as archive:
                entries = [it for it in archive.infolist() if it.filename.endswith(".png")]
                assert b"".join(map(archive.read, entries)) == wanted, f"{more}: the archive has other PNGs"
                for it in entries:
                    assert it.compress_type == zipfile.ZIP_DEFLATED and it.compress_size < it.file_size, "not deflated"
            os.remove(out)
            same(self.sliced(*more, GEAR, out, command=PNGS).status, 0, "folder")
            found = b"".join(bytes_of(out, name) for name in sorted(os.listdir(out)))
            assert found == wanted, f"{more}: the folder has other PNGs"
            shutil.rmtree(out)

    def test_pipes_and_units(self):
        wanted = self.made(BRACKET)[1]
        words = ["--canvas", "331x203", "--pitch", "200", "--layer", "500"]
        script = 'exec "$1" "${@:4}" <(cat "$2") "$3"'
        self.room.out("bash", "-c", script, "bash", SL1, BRACKET, self.room.file("b.sl1"), *words)
        same(opened(self.room.file("b.sl1"))[1], wanted, "images of a pipe")
        first = self.made("--unit", "inch", self.room.put("inch.stl", text(box((0, 0, 0), (2, 1, 1)))))[1][0]
        same((sum(255 in row for row in first), max(row.count(255) for row in first)), (127, 254), "a box of 2 x 1 inches")


WHOLE = "it takes a whole number, 1 to 100000"
SECONDS = "it takes seconds above 0 and below 100000, as 2.2"
WRONG = {
    "--canvas=2560": "it takes COLUMNSxROWS, each 1 to 99999, as in 2560x1620", "--layer=0.05": WHOLE,
    "--workers=65": "it takes a whole number, 1 to 64",
    "--pitch=0": "it takes micrometres above 0 and below 1000000, with at most three digits after the point, as 50, 47.25 "
                 "or 19x24",
    "--height=0": "it takes millimetres above 0 and below 1000000, as 150 or 149.5",
    "--exposure=0": SECONDS, "--first-exposure=-2": SECONDS, "--fade=1000": "it takes a whole number, 0 to 999",
    "--turn=half": "it takes auto, or no value", "--turn=quarter": "it takes auto, or no value",
    "--rule=xor": "invalid choice: 'xor'", "--unit=foot": "invalid choice: 'foot'", "--depth=2": "it takes 1 or 8"}


class Words(Case):
    def test_wrong_words_are_refused(self):
        """A value of each option; others are in test_printing_module.py."""
        cases = [([word, "part.stl", "out"], f"argument {word.split('=')[0]}: {line}") for word, line in WRONG.items()]
        for words, line in (*cases, ([], "the following arguments are required: part, output"),
                            (["part.stl", "out", "--expo", "2"], "unrecognized arguments: --expo 2"),
                            (["part.stl", "out", "--fade"], "argument --fade: expected one argument")):
            wrong_words(self.room, line, SL1, *words)

    def test_empty_names_are_refused(self):
        for command in (SL1, PNGS, PAGE):
            for words, which in ((["", "out"], "part"), ([BRACKET, ""], "output")):
                line = f"argument {which}: it takes a name"
                wrong_words(self.room, line, command, "--canvas", "99x99", "--pitch", "50", *words)

    def test_a_missing_library_is_told(self):
        room, line = self.room, "none.so: cannot open shared object file: No such file or directory"
        for name in map(name_of, (SL1, PNGS, PAGE)):
            words = [sys.executable, alone(name, room), *SMALL, BRACKET, room.file("out")]
            ran = room.run(*words, env=room.with_env(STLSLICE_LIBRARY="none.so"))
            same((ran.status, ran.out), (1, ""), f"{name} without a library")
            same(ran.fault, f"{name}: {line}: install the library, or name it in STLSLICE_LIBRARY\n", name)

    def test_another_exposure_is_asked_for(self):
        """A printer's exposure is that of a resin whose layers have one height; the command goes on."""
        none, out = self.room.file("none.stl"), self.room.file("out")
        for model, line in (("SL1", "the exposure of 7.5 s is that of Prusa Orange Tough @0.05"),
                            ("SL1S", "the exposure of 2 s is that of Prusa Orange Tough @0.05 SL1S")):
            line = f"stlslice-sl1: {line}, whose layers are 50 micrometres high; --exposure takes another\n"
            for words, said in (([], line), (["--exposure", "3"], "")):
                line_of_file = f"{said}%s: No such file or directory: {none}"
                self.room.refused(1, line_of_file, SL1, "--printer", model, "--layer", "100", *words, none, out)

    def test_workers_are_the_processors_at_hand(self):
        one = str(min(os.sched_getaffinity(0)))
        for command in (SL1, PNGS, PAGE):
            told = self.room.run("taskset", "-c", one, command, "--help").out
            assert "1 to 64 (1)" in " ".join(told.split()), told

    def test_options_are_those_of_the_page(self):
        """The table of docs/printing.md has those of stlslice-sl1, with their defaults."""
        told = {}
        for names, defaults in re.findall(r"(?m)^\| (`--[^|]*) \| ([^|]*) \|", text_of("docs/printing.md")):
            names = re.findall(r"--[a-z-]+", names)
            defaults = defaults.replace("`", "").split(", ")
            told.update(zip(names, defaults if len(defaults) == len(names) else [None] * len(names)))
        shown = " ".join(self.room.run(SL1, "--help", env=self.room.with_env(COLUMNS="80")).out.split())
        same(set(told), set(re.findall(r"\[(--[a-z-]+)", shown)), "options of stlslice-sl1")
        tried = 0
        for name, default in told.items():
            said = re.search(rf"(?<!\[){name} (?:[A-Z][A-Za-z]*|\{{\S*\}}) .*?\(([^ ,)]+)", shown)
            if default and re.match(r"[\dA-Z]|positive$|mm$", default):
                number = re.fullmatch(r"[\d.]+", default)
                same(float(said[1]) if number else said[1], float(default) if number else default, f"default of {name}")
                tried += 1
        same(tried, 5, "defaults that were compared")


FULL, TO_FULL = "%s: No space left on device: standard output", 'exec env -u PYTHONUNBUFFERED "$@" > /dev/full'


class Faults(Case):
    def setUp(self):
        super().setUp()
        self.part, self.out = self.room.put("part.stl", TINY_PART), self.room.file("out")
        self.tiny = [*TINY, self.part]

    def test_a_full_disk_is_told(self):
        """A limit of no bytes for each file stands for it. A full standard output is told once, and is no success."""
        full, refused = f"%s: File too large: {self.room.path}", self.room.refused
        for command in (SL1, PNGS, PAGE):
            words = [command, *self.tiny]
            refused(1, f"{full}/out", *words, self.out, script='ulimit -f 0; exec "$@"')
            refused(1, FULL, command, "--help", script=TO_FULL)
            ran = self.room.bash('exec "$@" >&-', command, "--help")
            same((ran.status, "Traceback" in ran.fault), (0, False), f"{name_of(command)} --help without a standard output")
        refused(1, full, SL1, *SMALL, BRACKET, "-", script='ulimit -f 1; exec "$@"')

    def test_a_command_that_is_stopped_leaves_nothing(self):
        """By each signal, and by further ones that come at once. A signal that nohup ignores is none."""
        signals, out = (signal.SIGHUP, signal.SIGINT, signal.SIGTERM), self.room.file("out")
        self.room.put("part.stl", text(box((0, 0, 0), ("0.8", "0.1", 60))))
        words = ["--canvas", "8x1", "--pitch", "100", "--layer", "1", "part.stl", "out"]
        for command in (SL1, PNGS, PAGE):
            for number in signals:
                def listen():
                    for other in signals:
                        signal.signal(other, signal.SIG_IGN if other == signal.SIGHUP != number else signal.SIG_DFL)

                child = subprocess.Popen([command, *words], cwd=self.room.path, env=self.room.environment,
                                         stderr=subprocess.PIPE, preexec_fn=listen)
                waited(lambda: any(name.endswith(".part") for name in self.room.files()), wait=0.001)
                child.send_signal(signal.SIGHUP if number != signal.SIGHUP else number)
                while child.poll() is None:
                    child.send_signal(number)
                    time.sleep(0.0005)
                same((child.returncode, child.stderr.read()), (128 + number, b""), f"{name_of(command)}, signal {number}")
                child.stderr.close()
                same(self.room.files(), ["part.stl"], "files")

    def test_a_signal_within_a_library_is_no_fault(self):
        """A signal that comes while `zipfile` ends an entry."""
        self.room.put("sitecustomize.py", "import os, signal, zipfile\n"
                      "zipfile._ZipWriteFile.close = lambda _: os.kill(os.getpid(), signal.SIGTERM)\n")
        env = self.room.with_env(PYTHONPATH=self.room.path)
        self.room.refused(143, "", SL1, *self.tiny, "out", cwd=self.room.path, env=env)

    def test_an_early_signal_is_no_fault(self):
        """A signal that comes while the modules are read."""
        self.room.put("fractions.py", "import os, signal\nos.kill(os.getpid(), signal.SIGINT)\n")
        for command in (SL1, PNGS, PAGE, SLABS):
            words = ["env", "--default-signal=INT", command, "part", "out"]
            self.room.refused(130, "", *words, env=self.room.with_env(PYTHONPATH=self.room.path))

    def test_ctrl_c_at_once_prints_no_traceback(self):
        """In each millisecond of the first fifty, and some later ones."""
        self.room.put("part.stl", text(box((0, 0, 0), ("0.8", "0.1", 60))))
        slabs = [] if self.lacks("stlslice-slabs", "parallel") else [[SLABS, "-l", "1"]]
        for command, *more in (*([it, *TINY[:-1], "1"] for it in (SL1, PNGS, PAGE)), *slabs):
            for wait in (*range(50), 75, 100, 200):
                words = ["env", "--default-signal=INT", command, *more, "part.stl", "out"]
                child = subprocess.Popen(words, cwd=self.room.path, env=self.room.environment, stderr=subprocess.PIPE)
                time.sleep(wait / 1000)
                child.send_signal(signal.SIGINT)
                said = child.communicate(timeout=60)[1]
                assert said == b"" and child.returncode in (130, -signal.SIGINT), f"{name_of(command)}, {wait} ms: {said}"
            same(self.room.files(), ["part.stl"], "files")

    def test_standard_error_may_be_closed_or_full(self):
        """The status is the same then. A closed standard input has no part."""
        room, part, out = self.room, self.part, self.room.file("out")
        for command in (SL1, PNGS, PAGE):
            name = name_of(command)
            words = [command, *TINY]
            for place in ("2>&-", "2> /dev/full"):
                for given, status in (([part, out], 0), (["none", out], 1), ([part, part], 1), ([], 2)):
                    ran = room.bash(f'exec "$@" {place}', *words, *given, cwd=room.path)
                    same((ran.status, ran.fault), (status, ""), f"{name} {given} {place}")
                shutil.rmtree(out) if command == PNGS else os.remove(out)
            room.refused(1, "%s: standard input is closed", *words, "-", out, script='exec "$@" <&-')
            for place in ("2>&-", "2> /dev/full"):
                bad = room.put("bad.stl", OPEN)
                room.refused(4, "", *words, bad, out, script=f'exec "$@" {place}')

    def test_little_memory_is_told(self):
        """A part that is larger than the memory, of zeros on no disk."""
        os.truncate(self.room.put("large.stl", "solid"), 1 << 32)
        for command in (SL1, PNGS, PAGE):
            words = [command, *TINY, self.room.file("large.stl"), self.out]
            self.room.refused(6, "%s: out of memory", *words, script='ulimit -v 2000000; exec "$@"')

    def test_standard_output_may_be_full(self):
        """The last line is written before the result has its name."""
        for command, out in ((SL1, "out"), (PAGE, "out"), (PNGS, "pngs")):
            self.room.put("out", "before")
            self.room.refused(1, FULL, command, *self.tiny, out, script=TO_FULL, cwd=self.room.path)
            same(self.room.get("out"), b"before", "the file that was there")

    def test_a_dash_is_standard_output(self):
        """It gets the bytes of the file, whole, and the last line is on standard error. With a fault nothing is written."""
        env = self.room.with_env(SOURCE_DATE_EPOCH="1700000000")
        here = {"cwd": self.room.path, "env": env}
        for command in (SL1, PAGE):
            words = [command, *SMALL, BRACKET]
            told = self.room.out(*words, "part", **here)
            found = self.room.run(*words, "-", text=False, **here)
            same((found.status, found.fault), (0, told.replace("part: ", "-: ", 1)), "status and line")
            assert found.out == self.room.get("part"), "other bytes"
            os.remove(self.room.file("part"))
            self.room.refused(1, FULL, *words, "-", script=TO_FULL, **here)
            self.room.refused(1, "%s: No such file or directory: none", *words[:-1], "none", "-", **here)
            self.room.refused(1, "%s: standard output is closed", *words, "-", script='exec "$@" >&-', **here)
        line = "%s: a folder can't be standard output; stlslice --png writes all layers there, and ./- is a folder's name"
        self.room.refused(1, line, PNGS, *SMALL, BRACKET, "-", **here)
        same(self.room.files(), ["part.stl"], "files")
        self.room.put("-.sl1", self.room.run(SL1, *SMALL, BRACKET, "-", text=False).out)
        same(opened(self.room.file("-.sl1"))[0]["jobDir"], "part", "an archive names no job after a dash")

    def test_names_of_any_bytes_are_told(self):
        """Names with a line feed, and names that aren't UTF-8, on one line of text."""
        name, shown = b"a\n\xff\x1b\xc3\xa4.sl1", "a\\x0a\\xff\\x1b\u00e4.sl1"
        here, env = os.fsencode(self.room.path), self.room.with_env(PYTHONIOENCODING="utf-8:strict")
        out, part, none = (os.path.join(here, it + name) for it in (b"", b"part", b"no"))
        for command, more in ((SL1, [b"--material", b"grey\xff\x01"]), (PNGS, []), (PAGE, [])):
            line = f"%s: No such file or directory: {self.room.path}/no{shown}"
            self.room.refused(1, line, command, *TINY, *more, none, out, env=env)
            shutil.copy(self.part, part)
            told = self.room.out(command, *TINY, *more, part, out, env=env)
            assert told.startswith(f"{self.room.path}/{shown}: ") and told.count("\n") == 1, told
            if command == SL1:
                settings = zipped(os.fsdecode(out))["config.ini"].decode()
                assert "materialName = grey\\xff\\x01\n" in settings and "jobDir = a___\u00e4\n" in settings, settings
            elif command == PAGE:
                assert f"<title>part{shown}: layers</title>" in text_of(os.fsdecode(out)), "another title"
            shutil.rmtree(out) if command == PNGS else os.remove(out)
