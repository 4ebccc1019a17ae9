"""The wheel has module, library and licence, with the hashes that it gives. Made twice it is the same bytes. pip installs
it, without a network, into an environment that has nothing else, where the module answers the program's images and faults.
With numpy beside it the lines of README and of docs/embedding.md run. Then arguments that lie: bytes that tell another length,
and arrays of which numbers are masked."""

import array
import base64
import csv
import glob
import hashlib
import importlib
import io
import os
import re
import sys
import zipfile

from common import BRACKET, GEAR, ROOT, Case, Together, bytes_of, library, python_with, same, skip, text_of, version
from parts import FACES, box, lines, obj, points, text, zipped

USE = """
import hashlib, os, sys, stlslice
assert os.path.realpath(stlslice.__file__).startswith(os.path.realpath(sys.prefix)), stlslice.__file__
with stlslice.open(sys.argv[1], pitch=100, layer=500) as mesh:
    print(stlslice.__version__, len(mesh), hashlib.sha256(b"".join(map(mesh.image, range(len(mesh))))).hexdigest())
try:
    stlslice.open(b"solid")
except stlslice.Fault as fault:
    print(fault.status, fault.line)
"""
LACKING = "import os, signal; del signal.SIGHUP, signal.pthread_sigmask, os.sched_getaffinity; "
NAMES = "http://schemas.microsoft.com/3dmanufacturing"  # of 3MF
FILES = {f"{os.path.basename(folder)}/{it}" for folder in ("python/stlslice", "commands/stlslice_commands")
         for it in os.listdir(os.path.join(ROOT, folder)) if "." in it}


def made(room, name):
    os.mkdir(room.file(name))
    wheel = room.out(sys.executable, "python/wheel_of_library.py", version(), library(), room.file(name)).rstrip("\n")
    same(os.listdir(room.file(name)), [os.path.basename(wheel)], "what wheel_of_library.py made")
    return wheel


class Wheel(Together):
    @classmethod
    def make_ready(cls, room):
        library()
        for name in ("STLSLICE_LIBRARY", "PYTHONPATH"):
            room.environment.pop(name, None)
        cls.wheel, cls.python = made(room, "one"), room.file("own/bin/python")
        own = room.run(python_with("venv"), "-m", "venv", room.file("own"))
        if own.status:
            skip("venv is missing (Debian: python3-venv)")
        words = ["-m", "pip", "install", "-q", "--disable-pip-version-check", "--no-index", cls.wheel]
        cls.pip = room.run(cls.python, *words)

    def test_it_is_made_alike_again(self):
        assert bytes_of(self.wheel) == bytes_of(made(self.room, "another")), "other bytes"

    def test_its_record_has_each_file_with_hash_and_size(self):
        info, files = f"stlslice-{version()}.dist-info", zipped(self.wheel)
        wanted = FILES | {"stlslice/libstlslice.so.1"}
        wanted |= {f"{info}/{it}" for it in ("LICENSE", "METADATA", "RECORD", "WHEEL", "entry_points.txt")}
        same(sorted(files), sorted(wanted), "files")
        assert files["stlslice/libstlslice.so.1"] == bytes_of(library()), "its library isn't the one that was built"
        rows = {name: (told, size) for name, told, size in csv.reader(io.StringIO(files[f"{info}/RECORD"].decode()))}
        same(sorted(rows), sorted(files), "names of the record")
        for name, body in files.items():
            told = "sha256=" + base64.urlsafe_b64encode(hashlib.sha256(body).digest()).rstrip(b"=").decode()
            same(rows[name], ("", "") if name.endswith("/RECORD") else (told, str(len(body))), f"hash and size of {name}")
        for told in (f"Version: {version()}", "Requires-Dist: numpy >=1.17 ; extra == 'numpy'"):
            assert f"\n{told}\n" in files[f"{info}/METADATA"].decode(), f"it doesn't tell {told}"
        tag = re.search(r"(?m)^Tag: (.*)$", files[f"{info}/WHEEL"].decode())[1]
        same(os.path.basename(self.wheel), f"stlslice-{version()}-{tag}.whl", "its name")
        told = tuple(map(int, re.search(r"manylinux_(\d+)_(\d+)_x86_64", tag).groups()))
        named = re.findall(rb"GLIBC_([\d.]+)\0", files["stlslice/libstlslice.so.1"])
        newest = max(tuple(map(int, it.split(b"."))) for it in named)
        assert newest <= told, f"the library wants the C library {newest}, and the wheel tells {told}"

    def test_pip_installs_it_and_it_answers_as_the_program(self):
        same((self.pip.status, self.pip.out), (0, ""), "status of pip")
        told = self.room.out(self.python, "-c", USE, GEAR, cwd=self.room.path)
        stream = self.room.run("stlslice", "--pitch", "100", "--layer", "500", path=GEAR, text=False).out
        refused = self.room.run("stlslice", "--pitch", "50", "--layer", "50", input="solid")
        same(told.splitlines(), [f"{version()} 24 {hashlib.sha256(stream).hexdigest()}",
                                    f"{refused.status} {refused.fault.rstrip()}"], "its images and its fault")

    def test_its_commands_slice(self):
        """As installed, and without three names that Windows' Python lacks."""
        for name, out in (("sl1", "{}.sl1"), ("pngs", "{}"), ("page", "{}.html")):
            for way, words in (("plain", [self.room.file("own/bin", f"stlslice-{name}")]),
                               ("lacking", [self.python, "-c", LACKING + f"from stlslice_commands.{name} import run; run()"])):
                words += ["--canvas", "800x400", "--pitch", "50", "--layer", "1000", BRACKET, out.format(way)]
                told = self.room.out(*words, cwd=self.room.path)
                assert "27 layers" in told, f"stlslice-{name}: {told}"
        archives = (zipped(self.room.file(f"{it}.sl1")) for it in ("lacking", "plain"))
        same(*([png for name, png in it.items() if name.endswith(".png")] for it in archives), "PNGs of the archives")
        same(*(bytes_of(self.room.file(it, "00026.png")) for it in ("lacking", "plain")), "a PNG")

    def test_the_module_of_the_tree_takes_the_library_that_is_named(self):
        for named, wanted in ((library(), (0, f"{version()}\n", "")), (self.room.file("none"), (1, "", "ImportError"))):
            env = self.room.with_env(PYTHONPATH=os.path.join(ROOT, "python"), STLSLICE_LIBRARY=named)
            ran = self.room.run(sys.executable, "-c", "import stlslice; print(stlslice.__version__)", env=env)
            last = ran.fault.splitlines()[-1] if ran.fault else ""
            same((ran.status, ran.out, last.split(":")[0]), wanted, f"the module with {named}")
            assert not last or "STLSLICE_LIBRARY" in last, f"its last line doesn't say what is missing: {last}"

    def test_the_lines_of_documents_run(self):
        """The Python of README runs as it stands, and so does the preview, which shows the gear."""
        python, env = python_with("numpy"), self.room.with_env(PYTHONPATH=glob.glob(self.room.file("own/lib/*/site-packages"))[0])
        if self.room.run(python, "-c", "import numpy").status:
            skip("numpy is missing (Debian: python3-numpy)")
        readme = re.search(r"(?ms)^```python\n(.*?)^```$", text_of("README.md"))[1]
        part = self.room.put("part.stl", bytes_of("examples/bracket.stl"))
        shown = ("print(mask.shape, mask.dtype, int(mask.sum()) == area > 0, image[:11], len(image), "
                 "[len(it) > 2 for it in loops])")
        told = self.room.out(python, "-c", readme + shown, cwd=self.room.path, env=env)
        report = self.room.run("stlslice", *"--pitch 50 --layer 50 --rule positive --report".split(), path=part).out
        count = int(re.search(r"(?m)^layer 120 loops (\d+) ", report)[1])
        wanted = f"(240, 640) bool True b'P4\\n640 240\\n' {11 + 80 * 240} {[True] * count}\n"
        same(told, wanted, "README's lines")
        preview = re.search(r"(?ms)^## A preview in Python\n.*?^```python\n(.*?)^```$", text_of("docs/embedding.md"))[1]
        picture = self.room.out(python, "-c", preview, path=GEAR, env=env, text=False)
        same((picture[:15], len(picture)), (b"P5\n300 300\n255\n", 15 + 90000), "a picture of 300 by 300 pixels")
        others = re.search(r"(?ms)^## Other parts in Python\n.*?^```python\n(.*?)^```$", text_of("docs/embedding.md"))[1]
        self.room.put("part.stl", text(box((0, 0, 0), (10, 20, 30)) + box((5, 5, 5), (20, 10, 40))))
        self.room.put("part.obj", obj((0, 0, 0), (1, 2, 3)))
        mesh = '<object id="1">' + lines('<vertex x="%d" y="%d" z="%d"/>', points((0, 0, 0), (1, 2, 3)))
        mesh += lines('<triangle v1="%d" v2="%d" v3="%d"/>', FACES) + "</object>"
        with zipfile.ZipFile(self.room.file("part.3mf"), "w") as file:
            file.writestr("_rels/.rels", f'<a><a Type="{NAMES}/2013/01/3dmodel" Target="/a"/></a>')
            file.writestr("a", f'<model unit="inch" xmlns="{NAMES}/core/2015/02">{mesh}<item objectid="1"/></model>')
        shown = "print(len(pngs), sum(lit for _, lit in pngs) == sum(stlslice.open('part.stl', **how).areas()))"
        told = self.room.out(python, "-c", others + shown, cwd=self.room.path, env=env)
        same(told, "1524 layers\n600 layers\n800 True\n", "lines on other parts")


TEXT = bytes_of(BRACKET)


class Lying(bytes):
    """Bytes that tell and give another length than they have."""

    told = 0

    def __len__(self):
        return self.told

    def __bytes__(self):
        return b"another text"

    def __getitem__(self, at):
        return b"another text"[at]


MASKED = """import sys
import numpy
import stlslice
points = numpy.array([[0, 0, 0], [1000, 0, 0], [0, 1000, 0], [0, 0, 1000]])
triangles = numpy.array([[0, 2, 1], [0, 1, 3], [1, 2, 3], [2, 0, 3]])
masked, bare = (lambda rows: numpy.ma.masked_equal(rows, 3 if rows is triangles else 1000)), numpy.ma.array
area = stlslice.open_mesh(points, triangles, 10, 10).area(0)
assert stlslice.open_mesh(bare(points), bare(triangles), 10, 10).area(0) == area > 0
assert (stlslice.micrometres(bare(points)) == stlslice.micrometres(points)).all()
for name, call in (("points", lambda: stlslice.open_mesh(masked(points), triangles)),
                   ("points", lambda: stlslice.open_mesh(list(masked(points)), triangles)),
                   ("triangles", lambda: stlslice.open_mesh(points, masked(triangles))),
                   ("points", lambda: stlslice.micrometres(masked(points) / 7)),
                   ("points", lambda: stlslice.micrometres(masked(points).astype("float32")))):
    try:
        call()
    except stlslice.RangeFault as fault:
        assert (str(fault), fault.status) == (f"{name} has masked numbers", 1), fault
    else:
        sys.exit(f"{name} that are masked were taken")
"""


class HostileArguments(Case):
    def setUp(self):
        os.environ["STLSLICE_LIBRARY"] = library()
        super().setUp()
        self.stlslice = importlib.import_module("stlslice")

    def test_their_own_bytes_are_read(self):
        stlslice, opened = self.stlslice, lambda source: self.stlslice.open(source, pitch=1000, layer=1000)
        wanted, file = stlslice.box(TEXT), io.BytesIO()
        for told in (0, 1, len(TEXT) - 1, len(TEXT) + 1, 1 << 30, sys.maxsize):
            source = Lying(TEXT)
            source.told = told
            file.read = lambda: source
            for it in (source, file):
                same(stlslice.box(it), wanted, f"told {told}")
                with opened(it) as mesh, opened(TEXT) as other:
                    same([mesh.image(k) for k in range(len(mesh))], [other.image(k) for k in range(len(other))], "images")

    def test_views_and_arrays_of_bytes_are_read_as_they_lie(self):
        twice = bytearray(2 * len(TEXT))
        twice[::2] = TEXT
        for source in (bytearray(TEXT), memoryview(TEXT), memoryview(bytes(twice))[::2], memoryview(array.array("B", TEXT))):
            same(self.stlslice.box(source), self.stlslice.box(TEXT), "box")

    def test_masked_arrays_are_refused(self):
        """A masked number stands for a missing one. A masked array of which none is masked is taken."""
        python = python_with("numpy")
        if self.room.run(python, "-c", "import numpy").status:
            skip("numpy is missing (Debian: python3-numpy)")
        env = self.room.with_env(PYTHONPATH=os.path.join(ROOT, "python"))
        same(self.room.out(python, "-c", MASKED, env=env), "", "what is printed")
