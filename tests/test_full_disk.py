"""The commands on a full disk, which is a small file system of the test's own: one line, status 1, and what was there before
stays. GNU parallel doesn't look at its own writes, so stlslice-slabs has to. And the program under a limit of the size of
files (`ulimit -f`), which ends it by its signal, as it ends any other. If the signal is ignored, the write fails, and the line
counts the bytes that went out."""

import os
import re
import resource
import shutil
import signal
import subprocess

from as_installed import PAGE, PNGS, SL1, SLABS, slicer
from common import BRACKET, PROGRAM, Case, needs, same, skip
from parts import box, text

FULL = "No space left on device"
LAYER = 13 + 1000 * 125  # bytes of an image of 1000 x 1000 pixels
LARGE = ["--canvas", "900x900", "--pitch", "50"]


class FullDisk(Case):
    def setUp(self):
        super().setUp()
        self.disk, self.out = self.room.file("disk"), self.room.file("disk", "out")
        os.mkdir(self.disk)
        ran = self.room.run("mount", "-t", "tmpfs", "-o", f"size={1 << 20}", "stlslice-test", self.disk)
        if ran.status:
            skip(f"a small file system can't be mounted here: {ran.fault.strip()}")
        self.addCleanup(self.room.out, "umount", self.disk)

    def leave(self, size):
        """The disk has a file from before, and is filled but for so many bytes."""
        for name in os.listdir(self.disk):
            path = os.path.join(self.disk, name)
            shutil.rmtree(path) if os.path.isdir(path) else os.remove(path)
        self.room.put("disk/out", "what was there before")
        free = os.statvfs(self.disk)
        self.room.put("disk/filling", bytes(max(0, free.f_bavail * free.f_frsize - size)))

    def holds_as_before(self):
        same((sorted(os.listdir(self.disk)), self.room.get("disk", "out")), (["filling", "out"], b"what was there before"), "the disk")

    def slabs(self, out, *more, length=LAYER, **how):
        """By a stand-in for the slicer, whose slabs of one layer have this length."""
        path = slicer(self.room, f"head -c {length} /dev/zero 2> /dev/null || "
                      "{ echo 'stlslice: write failed after 0 bytes' >&2; exit 7; }", box="50000 50000 400")
        return self.room.run(SLABS, "-l", "100", "-n", "1", "-P", path, *more, BRACKET, out, **how)

    @needs("parallel")
    def test_slabs_on_a_full_disk_are_told_and_leave_nothing(self):
        """Full from the first byte on, within the first slab, in the last one, and at the last byte."""
        line = f"stlslice-slabs: {self.out} can't be written: {FULL}\n"
        for size in (0, 60_000, 400_000, 4 * LAYER // 4096 * 4096):
            for jobs in ("1", "4"):
                self.leave(size)
                same(self.slabs(self.out, "-j", jobs), (1, "", line), f"{size} bytes, {jobs} jobs")
                self.holds_as_before()
        self.leave(1 << 20)
        same(self.slabs(self.out), (0, "", ""), "with room")
        same(os.path.getsize(self.out), 4 * LAYER, "with room: bytes")

    @needs("parallel")
    def test_slabs_with_a_full_temporary_folder_are_told(self):
        """Full before the slabs begin, and within the first of them, however long the others take."""
        out, env = self.room.file("slabs"), self.room.with_env(TMPDIR=self.disk)
        line = f"stlslice-slabs: the temporary folder {self.disk} can't be used: {FULL}\n"
        self.leave(0)
        same(self.slabs(out, "-j", "4", env=env), (1, "", line), "full at once")
        self.holds_as_before()
        self.leave(100_000)
        ran = self.slabs(out, "-j", "4", env=env)
        slab = rf"stlslice-slabs: slab \d of 4 ended with status 7 and no line: is the temporary folder {self.disk} full, or .*"
        lines = {1: "stlslice-slabs: GNU parallel or ssh failed", 7: f"{slab}|stlslice: write failed after 0 bytes"}
        assert ran.out == "" and re.fullmatch(lines[ran.status], ran.fault.splitlines()[-1]), ran
        assert ran.status == 7 or ran.fault.startswith("parallel: Error: "), ran
        self.holds_as_before()
        assert not os.path.exists(out), "something is left"

    @needs("parallel")
    def test_slabs_that_are_too_short_are_told(self):
        """A slicer that gives less than its slab has, and says nothing."""
        out = self.room.file("short")
        line = (f"stlslice-slabs: {out} can't be written: images of slabs are lost; "
                f"is the temporary folder {self.room.path} full?\n")
        for more in ((), ("--png",)):
            same(self.slabs(out, *more, length=LAYER - 1), (1, "", line), f"short slabs {more}")
            assert not os.path.exists(out), "something is left"

    def test_archive_page_and_folder_on_a_full_disk(self):
        for command, out in ((SL1, self.out), (PAGE, self.out), (PNGS, self.out + "2")):
            self.leave(20_000)
            self.room.refused(1, f"%s: {FULL}: {out}", command, *LARGE, BRACKET, out)
            self.holds_as_before()

    def test_full_temporary_folder_of_an_archive_for_standard_output(self):
        self.leave(20_000)
        env = self.room.with_env(TMPDIR=self.disk)
        self.room.refused(1, f"%s: {FULL}: {self.disk}", SL1, *LARGE, BRACKET, "-", env=env)
        self.holds_as_before()


LIMIT = 100_000
WORDS = [PROGRAM, "--pitch", "10", "--layer", "1000"]
CUBE = text(box((0, 0, 0), (10, 10, 10))).encode()


def limited(handler):
    """What a child does before the program: the limit, and what its signal does."""
    def prepare():
        signal.signal(signal.SIGXFSZ, handler)
        resource.setrlimit(resource.RLIMIT_FSIZE, (LIMIT, LIMIT))
    return prepare


class FileSize(Case):
    def test_a_limit_of_file_size_ends_a_run(self):
        whole = self.room.out(*WORDS, input=CUBE, text=False)
        line = b"stlslice: write failed after %d bytes\n" % LIMIT
        for handler, wanted in ((signal.SIG_DFL, (-signal.SIGXFSZ, b"")), (signal.SIG_IGN, (7, line))):
            with open(self.room.file("images"), "wb") as sink:
                done = subprocess.run(WORDS, input=CUBE, stdout=sink, stderr=subprocess.PIPE, preexec_fn=limited(handler), timeout=60)
            same((done.returncode, done.stderr), wanted, f"status and fault, {handler!r}")
            same(self.room.get("images"), whole[:LIMIT], f"what was written, {handler!r}")
