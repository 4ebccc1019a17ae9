"""The library for ARM Linux, under qemu, and the one for Windows, under Wine, answer what the program and the native library
answer. They are built of the LLVM module of the native one, which `make library` leaves. The programs in C are those of
library/tests. The wheel for ARM runs in Debian's Python, which tests/install_packages keeps."""

import os
import re
import runpy
import sys
import types
import zipfile
from concurrent.futures import ThreadPoolExecutor

from common import (BRACKET, GEAR, PROGRAM, ROOT, TELLS_VERSION, Case, Room, Together, bytes_of, example, library, links_hold,
                    needs, number_of, released, same, skip, text_of, version)
from parts import zipped

PAGE = os.path.join(ROOT, "build", "web", "preview.html")
PYTHON = os.path.join(os.environ.get("XDG_CACHE_HOME") or os.path.expanduser("~/.cache"), "stlslice", "python-arm64")
# of how many random parts each answer is compared; more can be asked for by hand
PARTS = int(os.environ.get("STLSLICE_PARTS", "12"))
# a step that C does not define stops the program
SANE = ["-g", "-O1", "-fsanitize=undefined", "-fsanitize-undefined-trap-on-error"]


library_test = types.SimpleNamespace(**runpy.run_path(os.path.join(ROOT, "library", "test")))


def two_at_a_time(call, *lists):
    with ThreadPoolExecutor(2) as pool:
        return list(pool.map(call, *lists))


def parts(room):
    for name in ("bracket", "calibration_block", "helical_gear", "supported"):
        yield example(f"{name}.stl"), library_test.words_for(500, 500, 2)
    yield GEAR, [*library_test.words_for(12700, 12700, 0), "--unit", "inch"]
    for seed in range(PARTS):
        text, step, layer, rule = library_test.random_mesh(seed)
        yield room.put(f"random{seed}.stl", text), library_test.words_for(step, layer, rule)


def refused(room):
    """Each text that the program refuses as a file, with the program's words."""
    for number, (text, words) in enumerate(library_test.faulty(bytes_of(BRACKET))):
        yield room.put(f"refused{number}.stl", text), words


class Tried:
    """What is tried of a TARGET. CC compiles a program for it, with the files of MORE, and RUN are the words that run one.
    SHARED is its shared library, which is IN_WHEEL in the wheel with the TAG, and LINKS are the files to link with it."""

    MORE = []

    @classmethod
    def make_ready(cls, room):
        library()
        cls.folder = room.file("library")
        told = room.out("library/build", cls.TARGET, "build/made/module.bc", cls.folder, version(), "/usr/local")
        same(told, "", "what library/build says")
        cls.files = sorted(os.listdir(cls.folder))

    def compiled(self, cc, name, place, *words):
        """A program of library/tests, compiled with all warnings."""
        same(self.room.out(*cc, "-std=c11", "-Wstrict-prototypes", *library_test.WARN, "-Iinclude",
                           f"library/tests/{name}.c", *words, "-o", place), "", f"what the compiler says of {name}.c")
        return place

    def static(self, name, *words):
        return self.compiled([*self.CC, *SANE], name, self.room.file(f"{name}.exe"), *self.MORE,
                             os.path.join(self.folder, "libstlslice.a"), "-static", "-pthread", *words)

    def by_program(self, case, *more):
        return self.room.run(PROGRAM, *case[1], *more, path=case[0], text=False)

    def by_target(self, *words, run=Room.run):
        return run(self.room, *self.RUN, *words, text=False)

    def wheel(self):
        shared = os.path.join(self.folder, self.SHARED)
        path = self.room.file(f"stlslice-{version()}-py3-none-{self.TAG}.whl")
        told = self.room.out(sys.executable, "python/wheel_of_library.py", version(), shared, self.room.path)
        same(told, f"{path}\n", "what wheel_of_library.py says")
        with zipfile.ZipFile(path) as wheel:
            wheel.extractall(self.room.file("installed"))

    def test_the_files_are_there_and_the_library_shows_the_calls_of_the_header(self):
        same(self.files, sorted(["libstlslice.a", self.SHARED, *self.LINKS, "stlslice.h", "stlslice.pc"]), "files")
        same(bytes_of(self.folder, "stlslice.h"), bytes_of("include", "stlslice.h"), "the header")
        calls, needed = self.seen()
        same(calls, re.findall(r"(?m)^ +(stlslice_\w+);$", text_of("library/exports.map")), "names")
        same(needed, self.NEEDED, "libraries that it needs")

    def test_each_call_answers_and_each_failed_allocation_is_told(self):
        ran = self.by_target(self.static("calls", library_test.FAILING), version(), library_test.step_text(), run=Room.done)
        assert re.fullmatch(rb"\d+ tests of the calls\n", ran.out), ran.out

    def test_hostile_arguments_are_refused_and_no_memory_is_told(self):
        line = library_test.memory_line(PROGRAM)[len("stlslice: "):-1]
        told = self.by_target(self.static("hostile", library_test.FAILING), BRACKET, line, run=Room.out)
        assert int(told.split()[0]) > 100, told

    def test_threads_ask_one_mesh_at_the_same_time(self):
        told = self.by_target(self.static("threads"), BRACKET, "200", "500", run=Room.out)
        same(told, b"64 threads, 40 answers each\n", "what the program says")

    def test_layers_stripes_and_arrays_have_the_program_s_bytes_and_faults_its_lines(self):
        layers, cases = self.static("layers"), [*parts(self.room), *refused(self.room)]
        wanted = two_at_a_time(self.by_program, cases)
        same({it.status for it in wanted}, {0, 3, 4, 5}, "statuses of the program")
        words = [library_test.options_of(it) for _, it in cases]
        arrays = list(library_test.with_arrays(self.room.path, cases, wanted))
        found = two_at_a_time(lambda case, of, its: self.by_target(layers, case[0], of, *its), cases, arrays, words)
        for case, *answers in zip(cases, found, wanted):
            same(*answers, f"layers of {case}")

    def test_images_pngs_areas_and_loops_are_the_program_s_and_the_native_library_s(self):
        """The target's shared library; the loops are those of the native library, since the program writes none."""
        own = self.compiled(["cc"], "answers", self.room.file("own"), os.path.join(os.path.dirname(library()), "libstlslice.a"))
        program = self.compiled(self.CC, "answers", os.path.join(self.folder, "answers.exe"), *self.MORE, f"-L{self.folder}",
                                "-lstlslice", "-Wl,-rpath,$ORIGIN")
        cases = list(parts(self.room))
        words = [[path, *library_test.options_of(it)] for path, it in cases]
        natives = two_at_a_time(lambda its: self.room.run(own, *its, text=False), words)
        found = two_at_a_time(lambda its: self.by_target(program, *its), words)
        for case, *answers in zip(cases, found, natives):
            same(*answers, f"answers for {case}")
            lines = b"".join(re.findall(rb"layer .*\n", self.by_program(case, "--report").out))
            written = self.by_program(case).out + self.by_program(case, "--png").out + lines
            same(answers[0].out[:len(written)], written, f"images, PNGs, areas and numbers of loops of {case}")
            assert lines.count(b"\n") > 3 and len(answers[0].out) > len(written) + 100, f"{case}: few answers"

    def test_the_wheel_has_the_library(self):
        self.wheel()
        found = self.room.get("installed", "stlslice", self.IN_WHEEL)
        scripts = self.room.get("installed", f"stlslice-{version()}.dist-info", "entry_points.txt").decode()
        same(re.findall(r"= stlslice_commands[.](\w+):run\n", scripts), ["sl1", "pngs", "page"], "commands of the wheel")
        assert os.path.exists(self.room.file("installed", "stlslice_commands", "sl1.py")), "the wheel has no commands"
        same(found, bytes_of(self.folder, self.SHARED), "the library of the wheel")
        info = self.room.get("installed", f"stlslice-{version()}.dist-info", "WHEEL").decode()
        assert f"\nTag: py3-none-{self.TAG}\n" in info, info


@needs("cc", "rt", "aarch64-linux-gnu-gcc", "qemu-aarch64")
class Arm(Tried, Together):
    TARGET, TAG, IN_WHEEL = "aarch64-linux", "manylinux_2_17_aarch64", "libstlslice.so.1"
    SHARED = f"libstlslice.so.{version()}"
    CC, RUN = ["aarch64-linux-gnu-gcc"], ["qemu-aarch64", "-L", "/usr/aarch64-linux-gnu"]
    LINKS, NEEDED = ["libstlslice.so", "libstlslice.so.1"], ["libc.so.6"]

    @classmethod
    def make_ready(cls, room):
        if not os.path.exists("/usr/aarch64-linux-gnu/include/stdlib.h"):
            skip("the C library for ARM is missing (Debian: libc6-dev-arm64-cross)")
        super().make_ready(room)

    def seen(self):
        shared = os.path.join(self.folder, self.SHARED)
        told = self.room.run("aarch64-linux-gnu-readelf", "-dV", shared).out
        same(set(re.findall(r"GLIBC_([\d.]+)", told)), {"2.17"}, "versions of the C library that it asks for")
        names = self.room.run("aarch64-linux-gnu-nm", "-D", "--defined-only", shared).out
        return re.findall(r" T (\w+)", names), re.findall(r"NEEDED\).*\[(.*)\]", told)

    def listed(self):
        """The list that library/tests/meshes.py takes: a few parts, since this Python is slow, and refused texts."""
        cases = [list(parts(self.room))[it] for it in (1, 4, 5)] + list(refused(self.room))[::9]
        wanted = two_at_a_time(self.by_program, cases)
        arrays = library_test.with_arrays(self.room.path, cases, wanted)
        for number, (case, ran, array) in enumerate(zip(cases, wanted, arrays)):
            stream, (path, words) = self.room.put(f"stream{number}", ran.out), case
            if ran.status == 0:
                self.room.put(f"stream{number}.report", self.by_program(case, "--report").out)
                box = self.room.run(PROGRAM, "--box", *library_test.unit_of(words), path=path)
                self.room.put(f"stream{number}.box", box.out)
            yield "\t".join([path, stream, str(ran.status), " ".join(words), ran.fault.strip(), array]) + "\n"

    def python(self, *words):
        """What Debian's Python says, with the wheel."""
        if not os.path.exists(PYTHON):
            skip("missing: Debian's Python for arm64 (tests/install_packages)")
        self.wheel()
        lapack = ":".join(f"/usr/lib/aarch64-linux-gnu/{it}" for it in ("blas", "lapack"))
        within = f"PYTHONPATH={self.room.file('installed')},LD_LIBRARY_PATH={lapack}"
        return self.room.out("qemu-aarch64", "-L", PYTHON, f"{PYTHON}/usr/bin/python3", *words,
                             env=self.room.with_env(QEMU_SET_ENV=within, SOURCE_DATE_EPOCH="0"))

    def test_the_wheel_runs_in_debian_s_python(self):
        told = self.python("library/tests/meshes.py", self.room.put("list", "".join(self.listed())), version())
        assert told.startswith("Python: 3 meshes as bytes, PNGs and arrays"), told

    def test_the_wheel_s_command_makes_the_archives_of_this_machine(self):
        script = "import sys; sys.argv[0] = 'stlslice-sl1'; from stlslice_commands import sl1; sl1.run()"
        for place in ("here", "there"):
            os.mkdir(self.room.file(place))
        for name in ("bracket", "helical_gear", "supported"):
            words, archive = ["--printer", "SL1S", example(f"{name}.stl")], f"{name}.sl1"
            here = self.room.out("commands/stlslice-sl1", *words, self.room.file("here", archive),
                                 env=self.room.with_env(SOURCE_DATE_EPOCH="0"))
            there = self.python("-c", script, *words, self.room.file("there", archive))
            same(there.replace("/there/", "/here/"), here, f"what is said of {archive}")
            found, wanted = (zipped(self.room.file(place, archive)) for place in ("there", "here"))
            assert len(wanted) > 100, f"{archive} has {len(wanted)} entries"
            same(found, wanted, f"entries of {archive}")


@needs("cc", "rt", "x86_64-w64-mingw32-gcc", "wine")
class Windows(Tried, Together):
    TARGET, TAG, IN_WHEEL = "x86_64-windows", "win_amd64", "stlslice.dll"
    SHARED = IN_WHEEL
    CC, RUN, MORE = ["x86_64-w64-mingw32-gcc"], ["wine"], ["library/tests/binary_output.c"]
    LINKS, NEEDED = ["libstlslice.dll.a"], ["KERNEL32.dll", "msvcrt.dll"]

    @classmethod
    def make_ready(cls, room):
        super().make_ready(room)
        # Wine's folder lies in the room's home. Its server stays, so that none ends as a program begins, and holds no pipe.
        room.environment.update(WINEDEBUG="-all", WINEDLLOVERRIDES="mscoree,mshtml,winemenubuilder.exe=")
        cls.addClassCleanup(room.run, "wineserver", "--kill")
        begun = room.bash("(mkdir ~/.wine; wineserver --persistent=900; wine cmd /c exit 3) > /dev/null 2>&1")
        same(begun.status, 3, "status of a program under Wine")

    def seen(self):
        told = self.room.run("x86_64-w64-mingw32-objdump", "-p", os.path.join(self.folder, self.SHARED)).out
        return re.findall(r"(?m)^\s+\[ *\d+\] (\w+)$", told), re.findall(r"DLL Name: (.*)", told)

    def test_a_program_is_made_with_what_the_zip_has(self):
        if not os.path.exists(PAGE):
            skip("the page isn't built (make web)")
        one, other = (released(self.room, f"copy{it}", it, os.path.join(self.folder, self.SHARED), PAGE) for it in (22, 77))
        assert bytes_of(one) == bytes_of(other), "other bytes"
        with zipfile.ZipFile(one) as packed:
            packed.extractall(self.room.file("unzipped"))
        folder = self.room.file("unzipped", f"stlslice-{version()}-x86_64-windows")
        summed = "".join(f"{it}: OK\n" for it in ("stlslice.dll", "libstlslice.dll.a", "stlslice.h", "preview.html"))
        same(self.room.out("sha256sum", "-c", "SHA256SUMS", cwd=folder), summed, "sha256sum -c")
        links_hold(folder)
        source, program = self.room.put("told.c", TELLS_VERSION), os.path.join(folder, "told.exe")
        self.room.out(*self.CC, source, f"-I{folder}", f"-L{folder}", "-lstlslice", "-o", program)
        same(int(self.by_target(program, run=Room.out)), number_of(version()), "the version that a program tells")


class Beside(Case):
    def test_documents_tell_how_many_lines_of_llvm_are_trusted(self):
        lines = text_of("library/rattle_heap.ll").count("\n")
        for name in ("docs/PROVED.md", "docs/embedding.md", "docs/decisions/page-from-the-native-module.md"):
            same(re.findall(r"(\d+) lines of LLVM\b", text_of(name)), [str(lines)], f"lines of LLVM in {name}")

    @needs("rt")
    def test_a_missing_compiler_is_named_with_its_package(self):
        tools = self.room.tools(*"bash basename cat dirname echo grep ln ls mktemp python3 realpath rm rt sed".split())
        for target, packages in (("aarch64-linux", "gcc-aarch64-linux-gnu, libc6-dev-arm64-cross"),
                                 ("x86_64-windows", "gcc-mingw-w64-x86-64")):
            line = f"library/build: the C compiler for {target} is missing (Debian: {packages})"
            self.room.refused(1, line, "library/build", target, "README.md", self.room.file("made"), version(), "/usr/local",
                              env=self.room.with_env(PATH=tools))
