"""docs/printing.md: each block of shell is run as it stands, in a folder of its own, and prints what stands under it; what
it leaves is looked at too. A block whose Debian packages aren't here is left out."""

import gzip
import io
import os
import re
import shutil
import stat
import struct
import zipfile
import zlib

from common import BRACKET, PROGRAM, ROOT, Case, add_batch_system, bytes_of, example, installed, lacking, same, text_of
from pages import blocks
from parts import (box, chunks_at, lit, p4_images, pixels_of_p4, pixels_of_png, png_of_p4, pngs, read_by_netpbm, text,
                   turned_over, zipped)

PAGE = os.path.join(ROOT, "docs", "printing.md")
BLOCKS = blocks(PAGE)
TOOLS = {"python3": ["python3"], "netpbm": ["pamsplit", "pnminvert", "pnmtopng"], "gnuplot-nox": ["gnuplot"],
         "imagemagick": ["montage", "identify"], "zstd": ["zstd"], "parallel": ["parallel"], "rsync": [], "unzip": ["unzip"],
         "prusa-slicer": ["prusa-slicer"]}


def shown(png):
    """Width and height of a PNG of any kind, and whether it has more than one colour."""
    chunks, _ = chunks_at(png)
    body = zlib.decompress(b"".join(it for kind, it in chunks if kind == b"IDAT"))
    return (*struct.unpack_from(">II", chunks[0][1]), len(set(body)) > 2)


# The method that looks at what a block leaves, by the last file that it writes.
LEFT = {"layers/%d.pbm": "netpbm_pngs", "out.sl1\n": "archive", "screen17.png": "layer_of_archive",
        "layer17.png": "one_layer", "canvas.pbm": "fixed_canvas", "area.png": "plot", "eight.png": "sheet_of_eight",
        "layers.gz": "streams", "slabs/*.pbm": "slurm"}


def needed(block):
    """The tools of the Debian packages that the text before a block says it needs."""
    named = re.search(r"\bNeeds (.*?)(?:\.|;)", block.before)
    packages = re.findall(r"`([\w-]+)`", named[1]) if named else []
    same(set(packages) - set(TOOLS), set(), "packages that the test doesn't know")
    return [tool for package in packages for tool in TOOLS[package]]


def recipes():
    """Each block to run, with its number, what it prints, and what is looked at besides."""
    for number, block in enumerate(BLOCKS):
        if block.language != "sh" or block.words == ["setup"]:
            continue
        follows = BLOCKS[number + 1] if number + 1 < len(BLOCKS) else None
        wanted = follows.body if follows and follows.language == "text" and not follows.before else None
        refused = wanted is not None and wanted.startswith("stlslice-sl1: the part doesn't fit")
        check = next((name for name in LEFT if name in block.body and not refused), None)
        assert wanted is not None or check, f"{block.head}: nothing says what this block gives"
        yield number, block, wanted, check, refused


def block_of(word):
    return next(block for block in BLOCKS if block.words == [word])


class Printing(Case):
    def setUp(self):
        super().setUp()
        bin, rest = self.room.environment["PATH"].split(":", 1)
        self.room.environment.update(PATH=f"{bin}:{installed()}:{rest}", SOURCE_DATE_EPOCH="1700000000")

    def sliced(self, *words):
        return self.room.out("stlslice", *words, path=BRACKET, text=False)

    def netpbm_pngs(self, here):
        names = sorted(os.listdir(os.path.join(here, "layers")))
        same(names, [f"{k:05}.png" for k in range(54)], "names")
        for name, image in zip(names, p4_images(self.sliced("--pitch", "100", "--layer", "500"))):
            path = os.path.join(here, "layers", name)
            same(shown(bytes_of(path))[:2], image[:2], "size of a PNG")
            assert read_by_netpbm(self.room, path)[1] == pixels_of_p4(image), f"{name} differs, or its part isn't white"

    def archive(self, here):
        files = zipped(os.path.join(here, "out.sl1"))
        same(len(files), 542, "entries")
        rows = pixels_of_png(files["out00017.png"])
        same((len(rows), len(rows[0])), (2560, 1620), "canvas")

    def layer_of_archive(self, here):
        found, files = bytes_of(here, "screen17.png"), zipped(os.path.join(here, "out.sl1"))
        names = sorted(name for name in files if name.endswith(".png"))
        same(names, [f"out{k:05}.png" for k in range(540)], "names of images")
        assert found == files["out00017.png"], "not the archive's layer 17"
        rows = pixels_of_png(found)
        same((len(rows), len(rows[0])), (2560, 1620), "canvas")
        assert lit([rows]), "nothing is lit"

    def one_layer(self, here):
        words, found = ["--pitch", "50", "--layer", "50", "--rule", "positive"], bytes_of(here, "layer17.png")
        assert pixels_of_png(found) == pixels_of_p4(p4_images(self.sliced(*words))[17]), "not the pixels of layer 17"
        whole = pngs(self.sliced(*words, "--png"))
        same(len(whole), 540, "PNGs of the whole")
        assert found == whole[17], "not the bytes of layer 17 in the whole"

    def fixed_canvas(self, here):
        images = p4_images(bytes_of(here, "canvas.pbm"))
        same((len(images), images[0][:2]), (540, (2560, 1620)), "images")
        held = [j for j, row in enumerate(pixels_of_p4(images[0])) if 255 in row]
        same((held[0], len(held)), (690, 240), "rows above the part, and rows of it")

    def plot(self, here):
        same(shown(bytes_of(here, "area.png")), (640, 480, True), "the plot")

    def sheet_of_eight(self, here):
        width, height, varied = shown(bytes_of(here, "eight.png"))
        assert width > 100 and height > 100 and varied, "no picture"

    def streams(self, here):
        whole = self.sliced("--pitch", "50", "--layer", "50")
        for tool, name in (("zstd", "layers.zst"), ("gzip", "layers.gz")):
            found = self.room.run(tool, "-d", "-c", os.path.join(here, name), text=False).out
            assert found == whole, f"{name} is another stream"

    def slurm(self, here):
        assert bytes_of(here, "layers.pbm") == self.sliced("--pitch", "50", "--layer", "50"), "bytes differ"
        same(len(os.listdir(os.path.join(here, "slabs"))), 7, "files: six slabs and the words")

    def folder(self, name):
        """A folder with the sample part, as the page's first block leaves it."""
        here = self.room.file(str(name))
        os.mkdir(here)
        os.symlink(os.path.join(ROOT, "examples"), os.path.join(here, "examples"))
        shutil.copy(BRACKET, os.path.join(here, "part.stl"))
        return here

    def try_recipe(self, number, block, wanted, check, refused):
        here = self.folder(number)
        if block.words == ["slurm"]:
            add_batch_system(self.room)
        ran = self.room.bash(block.body, cwd=here)
        same(ran.status, 1 if refused else 0, f"{block.head}: status ({ran.fault})")
        if wanted is not None:
            same(ran.out + ran.fault, wanted, f"{block.head}: what is printed")
        if check:
            getattr(self, LEFT[check])(here)
        if refused:
            same(sorted(os.listdir(here)), ["examples", "part.stl"], "files behind a refusal")

    def test_recipes_do_what_they_say(self):
        found = list(recipes())
        same({check for _, _, _, check, _ in found} - {None}, set(LEFT), "what is left by blocks")
        plain = [recipe for recipe in found if set(needed(recipe[1])) <= {"python3"}]
        assert len(plain) >= 10, f"only {len(plain)} blocks need no package"
        for recipe in plain:
            self.try_recipe(*recipe)

    def test_recipes_with_tools_do_what_they_say(self):
        found = [recipe for recipe in recipes() if not set(needed(recipe[1])) <= {"python3"}]
        assert len(found) >= 5, f"only {len(found)} blocks need a package"
        for recipe in found:
            if not self.lacks(recipe[1].head, *needed(recipe[1])):
                self.try_recipe(*recipe)

    def test_commands_of_the_tables_run(self):
        """Each whole command in the tables by printer and by what people have; S stands for seconds."""
        tables = text_of(PAGE).split("## By printer")[1].split("## An archive for the printer")[0]
        commands = [cell.replace("\\|", "|").replace(" S ", " 2.5 ") for line in tables.splitlines() if line.startswith("|")
                    for cell in re.findall(r"`([^`]*stlslice-(?:sl1|pngs) [^`]*)`", line) if ".." not in cell]
        same(len(commands), 5, "commands of the tables")
        for number, command in enumerate(commands):
            here = self.folder(number)
            self.room.put(f"{number}/part.stl.gz", gzip.compress(bytes_of(here, "part.stl")))
            told = self.room.out("bash", "-c", command, cwd=here)
            same(told.split(": ")[1].split(", ")[::2], ["31.964 x 12.000 x 27.000 mm", "540 layers\n"], command)

    def linked(self, here):
        """A folder with build/, examples/ and commands/, as the page's first block takes it."""
        os.makedirs(os.path.join(here, "build"))
        os.symlink(PROGRAM, os.path.join(here, "build", "stlslice"))
        for name in ("examples", "commands"):
            os.symlink(os.path.join(ROOT, name), os.path.join(here, name))

    def test_recipes_follow_one_another(self):
        """The page pasted from its first block to its last, in one shell and one folder, by a reader who has all packages
        but those that are missing here. Each block gives the same as alone."""
        add_batch_system(self.room)
        here = self.room.file("here")
        self.linked(here)
        pasted, wanted = "exec 2>&1\n" + block_of("setup").body, []
        for _, block, told, _, refused in recipes():
            if not lacking(*needed(block)):
                pasted += f"{block.body}echo == $?\n"
                wanted.append((block.head, told, 1 if refused else 0))
        found = re.findall(r"(?s)(.*?)== (\d+)\n", self.room.bash(pasted, cwd=here).out)
        same(len(found), len(wanted), "blocks that were run")
        for (head, printed, ended), (told, status) in zip(wanted, found):
            same((int(status), told if printed is not None else None), (ended, printed), f"{head}, behind the others")

    def test_old_slabs_are_not_mixed_in(self):
        """The lines for Slurm, in a folder where slabs of another part stand: nothing is run."""
        here = self.folder("here")
        os.mkdir(os.path.join(here, "slabs"))
        ran = self.room.bash(block_of("slurm").body, cwd=here)
        assert ran.status != 0 and ran.fault.startswith("mkdir:"), ran
        same((os.listdir(os.path.join(here, "slabs")), "layers.pbm" in os.listdir(here)), ([], False), "files")

    def test_the_first_block_sets_the_folder_up(self):
        self.linked(self.room.path)
        script = block_of("setup").body + "command -v stlslice stlslice-sl1"
        told = self.room.out("bash", "-c", script, cwd=self.room.path, env={"PATH": "/usr/bin:/bin"})
        same(told.splitlines(), [self.room.file(name) for name in ("build/stlslice", "commands/stlslice-sl1")], "setup")
        assert self.room.get("part.stl") == bytes_of(BRACKET), "another part"

    def test_a_canvas_that_is_too_small_is_refused(self):
        here = self.folder("here")
        block = next(block for block in BLOCKS if block.head == "A fixed canvas" and block.language == "sh")
        same(block.body.count("W=2560 H=1620"), 1, "the canvas of the block")
        ran = self.room.bash(block.body.replace("W=2560 H=1620", "W=640 H=239"), cwd=here)
        same(ran, (1, "", "the part doesn't fit: 31964 x 12000 micrometres\n"), "a canvas that is too small")
        same(sorted(os.listdir(here)), ["examples", "part.stl"], "files")

    def test_a_refused_part_stops_recipes(self):
        """With a part that is no STL, and with one that is open, the slicer's line is told and no file gets its name."""
        heads = ("By printer", "An archive for the printer", "A folder of PNGs", "A layer out of an archive",
                 "One layer alone", "A fixed canvas", "Compressed streams", "Many processors, many machines")
        names = {"out.sl1", "turned.sl1", "pngs", "screen17.png", "layer17.png", "canvas.pbm", "layers.zst", "layers.gz", "layers.pbm"}
        seen = set()
        for number, block in enumerate(BLOCKS):
            if block.language != "sh" or block.head not in heads or block.words or lacking(*needed(block)):
                continue
            # of a part that stands turned, as in portrait, another edge may be the least
            for bad, *lines in (("nothing", "expected solid at byte 0"),
                                (text(box((0, 0, 0), (9, 9, 9))[1:]), "open edge 0 0 0 to 0 9000 0 there 0 back 1",
                                 "open edge 0 9000 0 to 9000 9000 0 there 0 back 1")):
                here = self.folder(f"{number}{bad[0]}")
                self.room.put(f"{number}{bad[0]}/part.stl", bad)
                fault, firsts = self.room.bash(block.body, cwd=here).fault, tuple(f"stlslice: {it}\n" for it in lines)
                assert fault.startswith(firsts), f"{block.head}: {fault!r}"
                left = set(os.listdir(here))
                same(left & names, set(), f"{block.head}: files")
                layers = os.listdir(os.path.join(here, "layers")) if "layers" in left else []
                same([name for name in layers if name.endswith(".png")], [], "PNGs")
            seen.add(block.head)
        assert len(seen) >= 3, f"only {seen} were tried"

    def test_rules_are_as_in_the_table(self):
        """Which rules give the volume that the table of shells and supports names: 1,000 voxels to a cubic centimetre."""
        outer, inner = box((0, 0, 0), (30, 30, 30)), box((10, 10, 10), (20, 20, 20))
        beside, across, out = box((40, 0, 0), (50, 10, 10)), box((20, 20, 20), (40, 40, 40)), turned_over
        rows = [
            ("one shell", outer, (27, 27, 27)),
            ("shells that don't overlap", outer + beside, (28, 28, 28)),
            ("bodies that overlap", outer + across, (33, 34, 34)),
            ("hollow, inner shell turned outside in", outer + out(inner), (26, 26, 26)),
            ("hollow, inner shell turned like the outer one", outer + inner, (26, 27, 27)),
            ("inside out", out(outer), (27, 27, 0)),
            ("inside out, bodies that overlap", out(outer + across), (33, 34, 0)),
            ("one of two bodies inside out, apart", outer + out(beside), (28, 28, 27)),
            # together they have 34
            ("one of two bodies inside out, overlapping", outer + out(across), (33, 33, 26)),
        ]
        for name, facets, volumes in rows:
            for rule, volume in zip(("evenodd", "nonzero", "positive"), volumes):
                words = ["--pitch", "1000", "--layer", "1000", "--rule", rule, "--report"]
                ran = self.room.run("stlslice", *words, input=text(facets))
                same((ran.status, ran.out.split()[-1]), (0, str(1000 * volume)), f"{name} by {rule}")

    def test_examples_tell_what_they_cannot_read(self):
        png = png_of_p4((16, 1, b"\x12\x34"), 8)
        sound = archive_of(png)
        listed = sound.index(b"PK\1\2")
        for body in (sound.replace(b"out00000.png", b"out00009.png", 1), sound[:45] + bytes([sound[45] ^ 1]) + sound[46:],
                     sound[:listed + 10] + b"\x63" + sound[listed + 11:], archive_of(png[:20]), archive_of(png[:35]),
                     archive_of(b""), archive_of(png[:45] + b"\0\0\0" + png[48:])):
            self.room.put("bad.sl1", body)
            ran = self.room.run(example("contact_sheet.py"), "bad.sl1", "bad.png", cwd=self.room.path)
            same((ran.status, ran.out), (1, ""), "status and output")
            assert re.fullmatch(r"contact_sheet.py: the archive can't be read: .*\n", ran.fault), ran.fault
            same(self.room.files(), ["bad.sl1"], "files")
        for images in (b"P4\n8 1\n\xff", png):
            line = "%s: no open edge in: images (is > layers.pbm missing?)"
            self.room.refused(1, line, example("mark_edge.py"), input=images)

    def test_examples_and_commands_are_executable(self):
        for name in ("examples/mark_edge.py", "examples/slabs.sbatch", "commands/stlslice-sl1", "commands/stlslice-pngs",
                     "commands/stlslice-page", "commands/stlslice-slabs"):
            assert os.stat(os.path.join(ROOT, name)).st_mode & stat.S_IXUSR, f"{name} isn't executable"


def archive_of(png):
    body = io.BytesIO()
    with zipfile.ZipFile(body, "w") as archive:
        archive.writestr("out00000.png", png, zipfile.ZIP_DEFLATED)
    return body.getvalue()
