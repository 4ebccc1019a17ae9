"""--version gives the version that stands in the source, and what the program was proved with: the toolchain that is
here, by the name that the documents give too. CHANGELOG.md has that version, and make takes it from the source. The
library gives it too, by its call and in stlslice.pc, and so does the wheel, if they are built. Without the toolchain make,
make test, make demo, make library and make wheel say so in one line. The built program needs nothing but the C library, of at
most the version that this line gives."""

import ctypes
import os
import re
import sys

from common import LIBRARY, PROGRAM, ROOT, Case, bytes_of, library, needs, number_of, same, text_of, version
from parts import zipped

COMMAND = text_of("crates/task_words/src/command.rt")
PROVED = re.search(r'(?m)^const VERSION: &str = "[^ ]+ \(proved with (.*)\)";$', COMMAND)[1]


class Version(Case):
    def test_the_program_tells_it(self):
        told = (0, f"stlslice {version()} (proved with {PROVED})\n", "")
        for word in ("--version", "-V"):
            same(self.room.run("stlslice", word), told, word)

    def test_documents_and_make_tell_it(self):
        for place, name in (("README.md", PROVED), ("docs/PROVED.md", PROVED), ("Makefile", PROVED.split()[0]),
                            ("CONTRIBUTING.md", PROVED.split()[0]), ("CHANGELOG.md", f"\n## [{version()}] - 20")):
            assert name in text_of(place), f"{place} doesn't tell of {name}"
        dist = self.room.run("make", "-s", "-n", "-o", "build/stlslice", "dist")
        assert f" {version()} " in dist.out, "make dist doesn't take it"

    @needs("rt")
    def test_it_was_proved_with_the_toolchain_that_is_here(self):
        """A kit's name may have a letter more: kits of one logic prove the same."""
        here = self.room.run("rt", "version").out
        same(re.sub(r"^(rattle-kit-\d+)[a-z]? ", r"\1 ", here), f"{PROVED}\n", "rt version")

    def test_the_librarys_source_and_header_have_it(self):
        stated = re.search(r"(?m)^const VERSION: u32 = ([\d_]+);$", text_of("crates/stlslice_c/src/lib.rt"))[1]
        same(int(stated.replace("_", "")), number_of(version()), "the version in the library's source")
        example = re.search(r"(\d+) for ([\d.]+)\.", text_of("include/stlslice.h"))
        same(int(example[1]), number_of(example[2]), "the header's example of a version")

    def test_the_library_tells_it(self):
        built = ctypes.CDLL(library())
        built.stlslice_version.restype = ctypes.c_uint32
        same(built.stlslice_version(), number_of(version()), "stlslice_version")
        assert f"\nVersion: {version()}\n" in text_of(os.path.join(os.path.dirname(library()), "stlslice.pc")), "stlslice.pc"

    def test_the_wheel_tells_it(self):
        library()
        made = self.room.run("make", "-s", "-n", "-o", LIBRARY, "wheel").out
        assert f"wheel_of_library.py {version()} {LIBRARY} build\n" in made, "make wheel doesn't take it"
        build = "import sys, wheel_of_library as it; print(it.build_wheel(sys.argv[1]))"
        name = self.room.out(sys.executable, "-c", build, self.room.path, cwd=os.path.join(ROOT, "python")).rstrip("\n")
        assert name.startswith(f"stlslice-{version()}-"), f"the wheel's name is {name}"
        told = zipped(self.room.file(name))[f"stlslice-{version()}.dist-info/METADATA"].decode()
        assert f"\nVersion: {version()}\n" in told, "the wheel doesn't tell it"


TOLD = re.search(r"glibc ([\d.]+) or later", text_of("Makefile"))[1]


class Toolchain(Case):
    def test_documents_tell_the_c_library(self):
        for place in ("README.md", "tools/deb"):
            is_told = re.search(rf"(glibc|libc6 \(>=) {re.escape(TOLD)}\b", text_of(place))
            assert is_told, f"{place} tells no C library {TOLD}"

    def test_make_without_it_says_one_line(self):
        names = "sh", "bash", "make", "cat", "find", "python3", "test", "dirname", "mktemp", "sed"
        self.room.environment["PATH"] = self.room.tools(*names)
        for target in ("all", "test", "demo", "library", "wheel"):
            words = ["-s", target, f"PROGRAM={self.room.file('none')}", f"LIBRARY={self.room.file('none.so')}"]
            ran = self.room.run("make", *words)
            lines = [it for it in ran.fault.splitlines() if not it.startswith("make:")]
            same((ran.status, ran.out, len(lines)), (2, "", 1), f"make {target} says one line")
            for word in ("rt is missing", PROVED.split()[0], f"glibc {TOLD}"):
                assert word in lines[0], f"make {target} doesn't tell of {word}: {lines[0]}"

    def test_the_program_needs_that_c_library_alone(self):
        body = bytes_of(PROGRAM)
        wanted = {tuple(map(int, it.split(b"."))) for it in re.findall(rb"GLIBC_([\d.]+)\0", body)}
        same(max(wanted), tuple(map(int, TOLD.split("."))), "the newest version of the C library that the program names")
        named = set(re.findall(rb"\b[\w+-]+\.so[.\d]*", body)) - {b"ld-linux-x86-64.so.2"}
        same(named, {b"libc.so.6"}, "libraries that the program names")
