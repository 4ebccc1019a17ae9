"""make install puts each file into its place below DESTDIR and PREFIX, and make uninstall removes them and no other. Of header,
libraries and stlslice.pc alone the preview of docs/embedding.md is made, shared and static. It shows what the program slices,
and a refused part's line."""

import gzip
import os
import re
import shlex
import stat

from common import GEAR, PROGRAM, ROOT, Together, bytes_of, commands_work, library, links_hold, needs, same, text_of, version
from parts import layers_of

COMMANDS = ("stlslice", "stlslice-sl1", "stlslice-pngs", "stlslice-slabs", "stlslice-page")
# For each place the file that is copied there. stlslice-pngs has the completions of stlslice-sl1.
PLACES = {"share/stlslice/stlslice/printers.csv": "python/stlslice/printers.csv",
          **{f"share/doc/stlslice/{it}": it for it in ("README.md", "LICENSE", "CHANGELOG.md", "SECURITY.md")}}
for name in COMMANDS:
    words = name.replace("pngs", "sl1")
    PLACES.update({f"bin/{name}": f"commands/{name}" if name != "stlslice" else PROGRAM,
                   f"share/bash-completion/completions/{name}": f"completions/{words}.bash",
                   f"share/zsh/site-functions/_{words}": f"completions/_{words}",
                   f"share/fish/vendor_completions.d/{name}.fish": f"completions/{words}.fish"})


def files_below(folder):
    return sorted(os.path.relpath(os.path.join(at, name), folder) for at, _, names in os.walk(folder) for name in names)


def mode_of(path):
    return stat.S_IMODE(os.stat(path).st_mode)


@needs("make")
class Install(Together):
    @classmethod
    def make_ready(cls, room):
        cls.words = [f"DESTDIR={room.file('root')}", "PREFIX=/opt/here"]
        library()
        cls.below = room.file("root/opt/here")
        os.makedirs(room.file("root/opt/here/bin"))
        room.put("root/opt/here/bin/other", "")
        room.make("install", *cls.words)

    def in_place(self, *names):
        return os.path.join(self.below, *names)

    def test_each_file_is_in_its_place(self):
        for place, source in PLACES.items():
            same(bytes_of(self.below, place), bytes_of(source), f"bytes of {place}")
            same(mode_of(self.in_place(place)), 0o755 if place.startswith("bin/") else 0o644, f"mode of {place}")
        for folder, more in (("commands/stlslice_commands", []), ("python/stlslice", ["libstlslice.so.1"])):
            files = [it for it in os.listdir(os.path.join(ROOT, folder)) if "." in it] + more
            place = self.in_place("share/stlslice", os.path.basename(folder))
            same(sorted(os.listdir(place)), sorted(files), f"files of {folder}")
            same([mode_of(os.path.join(place, it)) for it in files if it not in more], [0o644] * (len(files) - len(more)), "modes")
        assert os.path.samefile(self.in_place("share/stlslice/stlslice/libstlslice.so.1"), self.in_place("lib/libstlslice.so.1"))
        for folder in ("docs", "examples"):
            wanted = [it for it in files_below(os.path.join(ROOT, folder)) if "." in it and "__pycache__" not in it]
            same(files_below(self.in_place("share/doc/stlslice", folder)), wanted, f"files of {folder}")
        outside = [it for it in files_below(self.room.file("root")) if not it.startswith("opt/here/")]
        same(outside, [], "files outside the prefix")

    def test_the_manuals_are_there_and_name_places_that_are(self):
        manuals = os.listdir(os.path.join(ROOT, "man"))
        same(sorted(os.listdir(self.in_place("share/man/man1"))), sorted(f"{name}.gz" for name in manuals), "manuals")
        for name in manuals:
            found = gzip.decompress(bytes_of(self.below, "share/man/man1", f"{name}.gz"))
            same(found, bytes_of("man", name), f"the manual {name}")
        named = re.findall(r"\bPa (\S+)", text_of("man/stlslice.1"))
        assert len(named) > 4, f"the manual names {named}"
        for place in named:
            found = place if place.startswith("share/") else os.path.join("share/doc/stlslice/docs", place)
            assert os.path.exists(self.in_place(found)), f"{place}, which the manual names, isn't there"

    def test_links_of_documents_hold(self):
        links_hold(self.in_place("share/doc/stlslice"))

    @needs("man")
    def test_man_finds_the_manuals(self):
        for name in COMMANDS:
            shown = self.room.run("man", "-M", self.in_place("share/man"), name)
            assert shown.status == 0 and "EXIT STATUS" in shown.out.replace("\x08", ""), f"{name}: {shown}"

    def test_the_commands_find_program_and_library(self):
        commands_work(self.in_place("bin"), self.room)

    def test_uninstall_removes_them_and_no_other(self):
        other = [f"DESTDIR={self.room.file('other')}", "PREFIX=/opt/here"]
        self.room.make("install", *other)
        self.room.put("other/opt/here/bin/other", "")
        self.room.make("uninstall", *other)
        same(files_below(self.room.file("other")), ["opt/here/bin/other"], "files after make uninstall")


WARNINGS = ["-O2", "-Wall", "-Wextra", "-Wpedantic", "-Wconversion", "-Wshadow", "-Wcast-align", "-Werror"]


def by_program(room, part):
    """The picture of the preview, out of the program's stream: of each pixel the shade of its highest filled layer."""
    words = ["--pitch", "100", "--layer", "100", "--rule", "positive"]
    layers = layers_of(room.run("stlslice", *words, path=part, text=False).out)
    columns, rows = len(layers[0][0]), len(layers[0])
    shade = bytearray(columns * rows)
    for k, layer in enumerate(layers):
        for it in re.finditer(b"\xff", b"".join(layer)):
            shade[it.start()] = 55 + 200 * k // len(layers)
    return b"P5\n%d %d\n255\n" % (columns, rows) + shade


@needs("make", "pkg-config", "cc", "readelf")
class Library(Together):
    @classmethod
    def make_ready(cls, room):
        cls.beside, cls.words = os.path.dirname(library()), [f"DESTDIR={room.file('root')}", "PREFIX=/opt/here"]
        cls.prefix = room.file("root/opt/here")
        room.make("install", *cls.words)
        room.environment.update(PKG_CONFIG_PATH=f"{cls.prefix}/lib/pkgconfig", PKG_CONFIG_SYSROOT_DIR=room.file("root"))
        source = re.search(r"(?ms)^## A preview in C\n.*?^```c\n(.*?)^```$", text_of("docs/embedding.md"))[1]
        room.put("preview.c", source)

    def pkg_config(self, *words):
        return self.room.out("pkg-config", *words, "stlslice").split()

    def compiled(self, name, *words):
        compiler = shlex.split(os.environ.get("CC", "cc"))
        built = self.room.run(*compiler, *WARNINGS, self.room.file("preview.c"), *words, "-o", self.room.file(name))
        same(built, (0, "", ""), f"what the compiler says of {name}")
        return self.room.file(name)

    def static(self):
        return self.compiled("static", *self.pkg_config("--cflags"), f"{self.prefix}/lib/libstlslice.a")

    def test_each_file_is_in_its_place_as_built(self):
        shared = f"libstlslice.so.{version()}"
        found = [it for it in files_below(self.prefix) if it.startswith(("include/", "lib/"))]
        wanted = ["libstlslice.a", "libstlslice.so", "libstlslice.so.1", shared, "pkgconfig/stlslice.pc"]
        same(found, ["include/stlslice.h", *(f"lib/{it}" for it in wanted)], "files of the library")
        for place, source, mode in (("include/stlslice.h", "include/stlslice.h", 0o644),
                                    ("lib/libstlslice.a", f"{self.beside}/libstlslice.a", 0o644),
                                    (f"lib/{shared}", f"{self.beside}/{shared}", 0o755)):
            assert bytes_of(self.prefix, place) == bytes_of(source), f"{place} hasn't the bytes that were built"
            same(mode_of(os.path.join(self.prefix, place)), mode, f"mode of {place}")
        for link, target in (("libstlslice.so", "libstlslice.so.1"), ("libstlslice.so.1", shared)):
            same(os.readlink(os.path.join(self.prefix, "lib", link)), target, f"what {link} leads to")
        same(mode_of(os.path.join(self.prefix, "lib/pkgconfig/stlslice.pc")), 0o644, "mode of stlslice.pc")
        told = self.room.run("readelf", "-d", os.path.join(self.prefix, "lib", shared)).out
        same(re.findall(r"soname: \[(.*)\]", told), ["libstlslice.so.1"], "name of the shared library")
        same(re.findall(r"NEEDED\).*\[(.*)\]", told), ["libc.so.6"], "libraries that it needs")

    def test_pkg_config_finds_it(self):
        same(self.pkg_config("--modversion"), [version()], "version of stlslice.pc")
        words = [f"-I{self.prefix}/include", f"-L{self.prefix}/lib", "-lstlslice"]
        same(self.pkg_config("--cflags", "--libs"), words, "words of pkg-config")

    def test_the_preview_shows_the_programs_layers(self):
        shared, static = self.compiled("shared", *self.pkg_config("--cflags", "--libs")), self.static()
        same(self.room.run(shared, path=GEAR).status, 127, "status where the shared library isn't in its place")
        wanted, env = by_program(self.room, GEAR), self.room.with_env(LD_LIBRARY_PATH=f"{self.prefix}/lib")
        for program in (shared, static):
            shown = self.room.out(program, path=GEAR, text=False, env=env if program == shared else self.room.environment)
            assert shown == wanted, f"another picture by {program}"
        ran = self.room.bash(f"{{ head -c {1 << 27} /dev/zero | tr '\\0' ' '; cat {GEAR}; }} | {static}", text=False)
        assert ran.status == 0 and ran.out == wanted, "another picture behind 128 MiB of white space, through a pipe"

    @needs("pngtopnm")
    def test_the_documents_picture_is_that_of_the_preview(self):
        drawn = self.room.run("pngtopnm", "docs/preview.png", text=False)
        assert drawn.status == 0 and drawn.out == by_program(self.room, GEAR), "another picture"

    def test_the_preview_of_a_bad_part_tells_the_programs_line(self):
        cut, static = self.room.put("cut.stl", bytes_of(GEAR)[:9000]), self.static()
        line = self.room.run("stlslice", "--box", path=cut).fault
        told = self.room.run(static, path=cut)
        same((told.status, told.out, "stlslice: " + told.fault), (1, "", line), "the preview of a part that is cut")
        same(self.room.run(static).status, 1, "the preview of nothing")
