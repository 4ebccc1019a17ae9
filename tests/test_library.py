"""The library, if it is built, answers in C, C++ and Python what the program answers (library/test, which
runs calls.c, hostile.c, layers.c, threads.c, and meshes.py, binaries.py and screens.py), in no more memory than docs/embedding.md
says. library/build makes the same bytes of the same proved library in any folder."""

import os
import re
import sys

from common import PROGRAM, ROOT, Case, library, needs, python_with, same, text_of, version

MEASURE = """
import sys, library, measure, stlslice
getattr(measure, sys.argv[3])(int(sys.argv[1]), sys.argv[2])
with open(sys.argv[2], "rb") as file:
    for name, opens in library.openings(stlslice, file.read()):
        print(*library.memory(opens), name)
"""


@needs("cc", "c++", "objcopy", "rt")
class Library(Case):
    def setUp(self):
        super().setUp()
        self.beside = os.path.dirname(library())

    def made(self, name):  # without symbolic links: if there is one, its name is missed below
        proved = os.path.join(self.beside, "proved.a")
        told = self.room.out("library/build", "native", proved, self.room.file(name), version(), "/usr/local")
        same(told, "", "what library/build says")
        return {it.name: self.room.get(name, it.name) for it in os.scandir(self.room.file(name)) if not it.is_symlink()}

    def test_it_is_made_alike_in_any_folder(self):
        first = self.made("one")
        wanted = [f"libstlslice.{it}" for it in ("a", "so", "so.1", f"so.{version()}")]
        same(sorted(first), sorted([*wanted, "proved.a", "stlslice.pc"]), "files of library/build")
        assert first == self.made("another"), "other bytes"

    def test_it_keeps_and_takes_the_memory_that_is_told(self):
        """Meshes of several sizes, opened from a text, arrays and a binary file, and put on a screen."""
        told = r"at most (\d+) bytes a facet, .* takes up to (\d+) bytes a facet, and a mebibyte"
        most, peak = map(int, re.search(told, text_of("docs/embedding.md")).groups())
        env = self.room.with_env(PYTHONPATH=f"{ROOT}/bench:{ROOT}/python", STLSLICE_LIBRARY=library())
        for size, kind in ((1000, "ring_of"), (20000, "ring_of"), (70000, "ring_of"), (1000, "pairs_of"), (70000, "pairs_of")):
            told = self.room.out(sys.executable, "-c", MEASURE, str(size), self.room.file("made.stl"), kind, env=env)
            rows = [row.split(" ", 3) for row in told.splitlines()]
            same([row[3] for row in rows], ["a text", "arrays", "a binary file", "a binary file on a screen"], "what is opened")
            for *numbers, name in rows:
                facets, kept, taken = map(int, numbers)
                assert 0 < kept <= most * facets, f"{name} of {facets} facets keeps {kept} bytes"
                assert taken <= peak * facets + (1 << 20), f"{name} of {facets} facets takes {taken} bytes"

    def test_it_answers_what_the_program_answers(self):
        ran = self.room.run(python_with("numpy"), "library/test", self.beside, PROGRAM)
        print(ran.out + ran.fault)
        same((ran.status, ran.out.splitlines()[-1:]), (0, ["passed"]), "status and last line of library/test")
        if "numpy is missing" in ran.out:
            self.leave_out("numpy is missing (Debian: python3-numpy): the Python of docs/embedding.md")
        if "ThreadSanitizer is missing" in ran.out:
            self.leave_out("ThreadSanitizer is missing (Debian: libtsan2): 64 threads on one mesh were not watched")
