"""The Debian packages of the program and of the library have what belongs there, in Debian's places. Made twice they are the
same bytes. lintian reports no fault in them beyond what the packages' overrides explain. make dist gives the same bytes at
another time, in another place and under another umask. What is in the tarball has the SHA-256 that stands beside it, and runs, and
pkg-config finds the library there."""

import glob
import os
import re
import tarfile

from common import (LIBRARY, PROGRAM, TELLS_VERSION, Together, bytes_of, commands_work, library, links_hold, needs, number_of,
                    released, same, version)

PLACES = """./usr/bin/stlslice ./usr/share/man/man1/stlslice.1.gz ./usr/share/doc/stlslice/copyright
./usr/share/doc/stlslice/changelog.gz ./usr/share/doc/stlslice/examples/bracket.stl
./usr/share/bash-completion/completions/stlslice ./usr/share/zsh/vendor-completions/_stlslice
./usr/share/fish/vendor_completions.d/stlslice.fish ./usr/bin/stlslice-sl1 ./usr/bin/stlslice-pngs
./usr/bin/stlslice-slabs ./usr/share/stlslice/stlslice/printers.csv ./usr/share/man/man1/stlslice-sl1.1.gz
./usr/share/zsh/vendor-completions/_stlslice-sl1 ./usr/share/bash-completion/completions/stlslice-pngs
./usr/bin/stlslice-page ./usr/share/man/man1/stlslice-page.1.gz ./usr/share/zsh/vendor-completions/_stlslice-page""".split()

LIB = "usr/lib/x86_64-linux-gnu"
SHARED = f"{LIB}/libstlslice.so.{version()}"
# For each package of the library its places, with the file whose bytes they have.
FILES = {
    "libstlslice1": {SHARED: LIBRARY, f"{LIB}/libstlslice.so.1": "link", "usr/share/doc/libstlslice1/copyright": "LICENSE"},
    "libstlslice-dev": {f"{LIB}/libstlslice.so": "link", f"{LIB}/libstlslice.a": None, f"{LIB}/pkgconfig/stlslice.pc": None,
                        "usr/include/stlslice.h": "include/stlslice.h", "usr/share/doc/libstlslice-dev/embedding.md": None,
                        "usr/share/doc/libstlslice-dev/preview.png": "docs/preview.png",
                        "usr/share/doc/libstlslice-dev/page.png": "docs/page.png",
                        "usr/share/doc/libstlslice-dev/copyright": "LICENSE"},
}


def listed(room, package):
    lines = [line.split() for line in room.run("dpkg-deb", "-c", package).out.splitlines()]
    return {line[5]: (line[0], line[1]) for line in lines}


@needs("dpkg-deb", "dpkg", "make")
class Packages(Together):
    NAMES = ["stlslice", *FILES]

    @classmethod
    def make_ready(cls, room):
        cls.packages = cls.made(room, "one")
        for package in cls.packages:
            room.run("dpkg-deb", "-x", package, room.file("opened"))

    @classmethod
    def made(cls, room, name):
        """The packages, in an own folder of the room."""
        room.out("tools/deb", PROGRAM, version(), room.file(name), library())
        wanted = [f"{it}_{version()}-1_amd64.deb" for it in cls.NAMES]
        same(sorted(os.listdir(room.file(name))), sorted(wanted), "packages")
        return [room.file(name, it) for it in wanted]

    def test_they_are_made_alike_again(self):
        again = self.made(self.room, "again")
        assert list(map(bytes_of, self.packages)) == list(map(bytes_of, again)), "other bytes"

    @needs("lintian")
    def test_lintian_finds_no_fault(self):
        same(self.room.run("lintian", "--allow-root", *self.packages).out, "", "what lintian has to say")

    def test_the_programs_places_are_roots(self):
        files = listed(self.room, self.packages[0])
        for place in PLACES:
            assert place in files and files[place][1] == "root/root", f"{place}: {files.get(place)}"
        beside = [it for it in files if it.startswith(("./usr/lib/", "./usr/include/"))]
        same(beside, [], "what it has of the library, which is a package of its own")
        depends = self.room.run("dpkg-deb", "-f", self.packages[0], "Depends").out
        assert f"libstlslice1 (= {version()}-1)" in depends, f"it wants the library: {depends}"

    def test_the_commands_run(self):
        commands_work(self.room.file("opened/usr/bin"), self.room)

    def test_links_of_documents_hold(self):
        links_hold(self.room.file("opened/usr/share/doc/stlslice"))

    def test_each_file_is_in_one_of_them_as_built(self):
        seen = set()
        for package, (name, wanted) in zip(self.packages[1:], FILES.items()):
            files = {place[2:]: told for place, told in listed(self.room, package).items() if not told[0].startswith("d")}
            same(seen & set(files), set(), f"what {name} has of the other's")
            seen |= set(files)
            for place, source in wanted.items():
                mode = "lrwxrwxrwx" if source == "link" else "-rw-r--r--"
                same(files.get(place), (mode, "root/root"), f"mode and owner of {place} in {name}")
                if source not in (None, "link"):
                    assert self.room.get("opened", place) == bytes_of(source), f"{place} isn't as built"

    def test_their_texts_name_places_as_installed(self):
        told = self.room.get("opened", LIB, "pkgconfig/stlslice.pc").decode().splitlines()
        same(told[:3], ["prefix=/usr", f"libdir=/{LIB}", "includedir=/usr/include"], "places in stlslice.pc")
        linked = re.findall(r"\]\(([^)#]+)", self.room.get("opened/usr/share/doc/libstlslice-dev/embedding.md").decode())
        same(sorted(linked), ["page.png", "preview.png"], "what its document links to")
        depends = self.room.run("dpkg-deb", "-f", self.packages[2], "Depends").out
        assert f"libstlslice1 (= {version()}-1)" in depends, f"one wants the other, of just its version: {depends}"

    @needs("cc")
    def test_a_program_is_built_with_them(self):
        source, program, opened = self.room.put("told.c", TELLS_VERSION), self.room.file("told"), self.room.file("opened")
        self.room.out("cc", source, f"-I{opened}/usr/include", f"-L{opened}/{LIB}", "-lstlslice", "-o", program)
        self.room.out(program, env=self.room.with_env(LD_LIBRARY_PATH=self.room.file("opened", LIB)))


class Tarball(Together):
    @classmethod
    def made(cls, room, name, umask):
        return released(room, name, umask, PROGRAM, library())

    @classmethod
    def make_ready(cls, room):
        cls.tarball = cls.made(room, "one", 22)
        with tarfile.open(cls.tarball) as archive:
            archive.extractall(room.file("opened"))
        cls.folder, = glob.glob(room.file("opened", "*"))

    def test_it_is_made_alike_again(self):
        assert bytes_of(self.tarball) == bytes_of(self.made(self.room, "another", 77)), "other bytes"

    def test_its_commands_run_where_it_is_unpacked(self):
        commands_work(self.folder, self.room)

    def test_it_has_what_goes_with_the_program(self):
        for name in ("README.md", "LICENSE", "stlslice.1", "completions/_stlslice", "docs/PROVED.md", "CONTRIBUTING.md",
                     "SECURITY.md", "stlslice-sl1.1", "stlslice-page.1", "completions/_stlslice-page",
                     "stlslice_commands/sl1.py", "python/stlslice/__init__.py", "completions/stlslice-sl1.fish",
                     "examples/bracket.stl"):
            assert os.path.exists(os.path.join(self.folder, name)), f"{name} isn't in it"
        links_hold(self.folder)

    def test_its_sums_and_links_are_right(self):
        same(os.path.basename(self.folder), os.path.basename(self.tarball)[:-len(".tar.gz")], "the folder's name")
        shared = f"libstlslice.so.{version()}"
        wanted = [f"{name}: OK" for name in ("stlslice", "include/stlslice.h", "lib/libstlslice.a", f"lib/{shared}")]
        same(self.room.run("sha256sum", "-c", "SHA256SUMS", cwd=self.folder).out.splitlines(), wanted, "sha256sum -c")
        links = [os.readlink(os.path.join(self.folder, "lib", it)) for it in ("libstlslice.so", "libstlslice.so.1")]
        same(links, ["libstlslice.so.1", shared], "what the links lead to")

    @needs("pkg-config", "cc")
    def test_a_program_is_made_with_what_was_unpacked(self):
        self.room.put("told.c", TELLS_VERSION)
        env = self.room.with_env(PKG_CONFIG_PATH=f"{self.folder}/lib/pkgconfig", LD_LIBRARY_PATH=f"{self.folder}/lib")
        script = "cc told.c $(pkg-config --cflags --libs stlslice) -o told && ./told"
        told = self.room.bash(script, env=env, cwd=self.room.path)
        same(told, (0, f"{number_of(version())}\n", ""), "a program made with the library")
