"""What the tests share: the program, a room for each test, comparing, and what can't be tried here.

A test file is tests/test_*.py: its classes are of `Case`, and each method test_* is a test, named after what holds."""

import atexit
import functools
import hashlib
import os
import re
import shutil
import subprocess
import sys
import tempfile
import time
import unittest
from collections import namedtuple

ROOT = os.path.dirname(os.path.dirname(os.path.abspath(__file__)))
PROGRAM = os.path.abspath(os.environ.get("STLSLICE", os.path.join(ROOT, "build", "stlslice")))

# modules that tests import
sys.path += [os.path.join(ROOT, it) for it in ("bench", "library/web", "python", "tools")]

# The Debian packages of tools, where they have another name.
PACKAGES = {
    "aarch64-linux-gnu-gcc": "gcc-aarch64-linux-gnu", "assimp": "assimp-utils", "c++": "g++", "cc": "gcc",
    "convert": "imagemagick", "emacs": "emacs-nox", "gnuplot": "gnuplot-nox", "identify": "imagemagick", "man": "man-db",
    "montage": "imagemagick", "objcopy": "binutils", "pamsplit": "netpbm", "pkg-config": "pkgconf", "pngtopnm": "netpbm",
    "pnminvert": "netpbm", "pnmtopng": "netpbm", "qemu-aarch64": "qemu-user", "readelf": "binutils", "ssh": "openssh-client",
    "ssh-keygen": "openssh-client", "/usr/sbin/sshd": "openssh-server", "x86_64-w64-mingw32-gcc": "gcc-mingw-w64-x86-64"}

# Other names of a tool.
ALSO = {"chromium": ("chromium-browser", "google-chrome")}


def same(found, wanted, what):
    """Fails the test if the two differ. A long value is shown from shortly before the first difference."""
    if found != wanted:
        one, other = repr(found), repr(wanted)
        at = max(0, len(os.path.commonprefix([one, other])) - 80)
        one, other = (("..." if at else "") + it[at:at + 400] + ("..." if len(it) > at + 400 else "") for it in (one, other))
        raise AssertionError(f"{what}:\n   found {one}\n  wanted {other}")


def lacking(*tools):
    """Which of these tools aren't here, in one line, or an empty text."""
    missing = [tool for tool in tools if not any(map(shutil.which, (tool, *ALSO.get(tool, ()))))]
    named = ["rt, of the Rattle toolchain" if it == "rt" else f"{it} (Debian: {PACKAGES.get(it, it)})" for it in missing]
    return f"missing: {', '.join(named)}" if missing else ""


def needs(*tools):
    """Skips a test, or all of a class, if one of these tools isn't here."""
    return unittest.skipIf(lacking(*tools), lacking(*tools))


def skip(why):
    """Ends the test: it can't be tried here."""
    raise unittest.SkipTest(why)


Ran = namedtuple("Ran", "status out fault")


class Room:
    """A folder `path`, empty at first, with an environment whose PATH begins with the program, called stlslice, and that has
    a home of its own, so that nothing depends on the user's settings. Both are removed in the end."""

    def __init__(self):
        self.folder = tempfile.TemporaryDirectory(prefix="stlslice-test-")
        self.path, self.home, bin = (os.path.join(self.folder.name, it) for it in ("room", "home", "bin"))
        for folder in (self.path, self.home, bin):
            os.mkdir(folder)
        os.symlink(PROGRAM, os.path.join(bin, "stlslice"))
        self.environment = {**os.environ, "PATH": f"{bin}:{os.environ['PATH']}", "HOME": self.home, "TMPDIR": self.path,
                            "LC_ALL": "C.UTF-8", "PYTHONDONTWRITEBYTECODE": "1"}
        # a make above the tests hands its own words down
        for name in ("MAKEFLAGS", "MFLAGS", "MAKELEVEL", "DESTDIR", "PREFIX", "SOURCE_DATE_EPOCH"):
            self.environment.pop(name, None)
        self.remove = self.folder.cleanup

    def file(self, *names):
        """The path of a file in the room."""
        return os.path.join(self.path, *names)

    def files(self):
        return sorted(os.listdir(self.path))

    def put(self, name, body, mode=0o644):
        """Writes a file of the room, of a text or of bytes, and returns its path."""
        path = self.file(name)
        with open(path, "wb") as file:
            file.write(body.encode() if isinstance(body, str) else body)
        os.chmod(path, mode)
        return path

    def get(self, *names):
        return bytes_of(self.path, *names)

    def tools(self, *names):
        """A folder of the room with these tools alone."""
        os.makedirs(self.file("tools"), exist_ok=True)
        for name in names:
            os.symlink(shutil.which(name), self.file("tools", name))
        return self.file("tools")

    def with_env(self, **more):
        return {**self.environment, **more}

    def run(self, *words, text=True, input=None, path=None, **how):
        """Status, standard output and standard error of a run in the repository's folder. Standard input is `input`, a text
        or bytes, or the file at `path`, or `stdin`; else it is empty. Without `text`, standard output is bytes."""
        how = {"cwd": ROOT, "env": self.environment, "timeout": 890, **how}
        if input is not None:
            how["input"] = input.encode() if isinstance(input, str) else input
        elif path is not None:
            with open(path, "rb") as file:
                return self.run(*words, text=text, stdin=file, **how)
        else:
            how.setdefault("stdin", subprocess.DEVNULL)
        ran = subprocess.run(words, stdout=subprocess.PIPE, stderr=subprocess.PIPE, **how)
        return Ran(ran.returncode, ran.stdout.decode() if text else ran.stdout, ran.stderr.decode(errors="backslashreplace"))

    def done(self, *words, **how):
        """A run that ends with status 0."""
        ran = self.run(*words, **how)
        same(ran.status, 0, f"status of {' '.join(map(str, words))}, which says {ran.fault!r}")
        return ran

    def out(self, *words, **how):
        """The standard output of a run that ends with status 0 and says nothing else."""
        ran = self.done(*words, **how)
        same(ran.fault, "", f"faults of {' '.join(map(str, words))}")
        return ran.out

    def bash(self, script, *words, **how):
        """A run of a script, whose words are "$@"."""
        return self.run("bash", "-c", script, "bash", *words, **how)

    def refused(self, status, line, *words, script=None, **how):
        """A run, by a script if there is one, ends with this status, prints nothing, says this line alone, or nothing, and
        leaves the room's files as they were. In the line %s stands for the command's name."""
        files, line = self.files(), line.replace("%s", name_of(os.fsdecode(words[0]))) + "\n" * bool(line)
        ran = self.bash(script, *words, **how) if script else self.run(*words, **how)
        same(ran, (status, "", line), f"{script or 'a run'} of {words}")
        same(self.files(), files, f"files after {words}")

    def make(self, *words):
        """make with the program at hand in the place of build/stlslice; it is taken as built, and so is a library."""
        return self.out("make", "-o", PROGRAM, "-o", LIBRARY, f"PROGRAM={PROGRAM}", *words)


class Case(unittest.TestCase):
    """Tests that each have a room of their own."""

    def setUp(self):
        self.room = Room()
        self.addCleanup(self.room.remove)

    def leave_out(self, why):
        """Goes on. The test counts as skipped, since this could not be tried."""
        with self.subTest(why):
            self.skipTest(why)

    def lacks(self, what, *tools):
        """Whether one of these tools isn't here. What needs them is then left out."""
        if lacking(*tools):
            self.leave_out(f"{what}: {lacking(*tools)}")
        return bool(lacking(*tools))


class Together(Case):
    """Tests that share one room, in which `make_ready` has made what they look at."""

    @classmethod
    def setUpClass(cls):
        cls.room = Room()
        cls.addClassCleanup(cls.room.remove)
        cls.make_ready(cls.room)

    def setUp(self):
        pass


def bytes_of(*path):
    with open(os.path.join(ROOT, *path), "rb") as file:
        return file.read()


def text_of(name):
    with open(os.path.join(ROOT, name), encoding="utf-8") as file:
        return file.read()


def example(name):
    return os.path.join(ROOT, "examples", name)


BRACKET, GEAR = example("bracket.stl"), example("helical_gear.stl")


def version():
    """The version that the program is built with, as it stands in the source."""
    return re.search(r'(?m)^const VERSION: &str = "([^ ]+) ', text_of("crates/task_words/src/command.rt"))[1]


def number_of(text):
    """A version as a number, of which minor and patch take three digits each."""
    major, minor, patch = map(int, text.split("."))
    return major * 1000000 + minor * 1000 + patch


LIBRARY = os.path.join("build", "library", f"libstlslice.so.{version()}")
# a program in C that prints the library's version
TELLS_VERSION = '#include <stdio.h>\n#include <stlslice.h>\nint main(void) { return printf("%u\\n", stlslice_version()) < 0; }\n'


def is_old(target):
    """Whether make would make this file anew."""
    words = ["env", "-u", "MAKEFLAGS", "-u", "MFLAGS", "-u", "MAKELEVEL", "make", "-q", target]
    return subprocess.run(words, cwd=ROOT, stdout=subprocess.DEVNULL, stderr=subprocess.DEVNULL).returncode != 0


@functools.lru_cache()
def why_no_library():
    """Why there is no library to be tested, or an empty text if `make library` left one of the sources as they are."""
    if not os.path.exists(os.path.join(ROOT, LIBRARY)):
        return "the library isn't built (make library)"
    return "the library is older than its sources (make library)" if is_old(LIBRARY) else ""


def library():
    """The shared library that `make library` left, beside the static one and stlslice.pc. A test without it is skipped."""
    return skip(why_no_library()) if why_no_library() else os.path.join(ROOT, LIBRARY)


def python_with(*modules):
    """A Python that has these modules, else the one that runs this."""
    found = [it for it in (sys.executable, "/usr/bin/python3") if os.path.exists(it)]
    asked = ["-c", f"import {', '.join(modules)}"]
    has_all = (it for it in found if subprocess.run([it, *asked], stderr=subprocess.DEVNULL).returncode == 0)
    return next(has_all, sys.executable)


def links_hold(folder):
    """Each link in a document below the folder leads to a file below it."""
    count = 0
    for at, _, names in os.walk(folder):
        for name in (it for it in names if it.endswith(".md")):
            for place in re.findall(r"\]\(([^)#:\s]+)(?:#[^)]*)?\)", without_blocks(text_of(os.path.join(at, name)))):
                count += 1
                assert os.path.exists(os.path.join(at, place)), f"{os.path.join(at, name)}: {place} isn't there"
    assert count > 20, f"only {count} links of documents were found"


def without_blocks(text):
    return re.sub(r"(?ms)^```.*?^```$", "", text)


@functools.lru_cache()
def installed(name=""):
    """The path of a command as `make install` puts it, in a folder of this process; with no name, the folder of all."""
    if name:
        return os.path.join(installed(), name)
    room = Room()
    atexit.register(room.remove)
    library()
    room.make("-s", "install", f"DESTDIR={room.path}", "PREFIX=/usr")
    return room.file("usr", "bin")


def name_of(command):
    return os.path.basename(command)


def alone(name, room):
    """A copy of a command as installed, with its module, and no program beside it."""
    os.makedirs(room.file("alone", "bin"), exist_ok=True)
    if not os.path.lexists(room.file("alone", "share")):
        os.symlink(os.path.join(os.path.dirname(installed()), "share"), room.file("alone", "share"))
    return shutil.copy(installed(name), room.file("alone", "bin"))


def commands_work(folder, room):
    """The program and the commands of a folder slice a part, and each finds program and library: no other is on PATH."""
    part, env = ["--layer", "1000", BRACKET], room.with_env(PATH="/usr/local/bin:/usr/bin:/bin")
    for name, told, *words in (("", "facets ", "--box"), ("-page", "27 layers", *part, "page.html"),
                               ("-sl1", "27 layers", "--canvas", "800x400", "--pitch", "50", *part, "part.sl1"),
                               ("-pngs", "27 layers", "--printer", "SL1", *part, "pngs"),
                               ("-slabs", "--grid=", "--words", BRACKET)):
        found = room.out(os.path.join(folder, f"stlslice{name}"), *words, path=BRACKET, cwd=room.path, env=env)
        assert told in found, f"stlslice{name}: {found}"


def released(room, name, umask, main, *beside, told=""):
    """What tools/dist makes of what was built, in a copy of the repository's files whose times differ."""
    copy = room.file(name)
    shutil.copytree(ROOT, copy, ignore=shutil.ignore_patterns(".git", "crates", "build", "__pycache__"))
    room.out("find", copy, "-exec", "touch", "-d", f"@{umask}000", "{}", "+")
    ran = room.bash(f'umask {umask:03}; exec tools/dist "$@"', main, version(), f"{copy}/out", *beside, cwd=copy)
    made, = os.listdir(f"{copy}/out")
    same(ran, (0, f"{hashlib.sha256(bytes_of(copy, 'out', made)).hexdigest()}  {made}\n", told), f"what tools/dist says in {name}")
    return os.path.join(copy, "out", made)


def has_ended(pid):
    """Whether a process is gone, or waits only for its parent to ask for its status."""
    try:
        return text_of(f"/proc/{pid}/stat").rpartition(")")[2].split()[0] == "Z"
    except (FileNotFoundError, ProcessLookupError):
        return True


def waited(is_so, seconds=60, wait=0.05):
    for _ in range(int(seconds / wait)):
        if is_so():
            return
        time.sleep(wait)
    raise AssertionError(f"it was not so within {seconds} seconds")


# A stand-in for Slurm's sbatch, which runs each task of the array, the last first, and ends with the greatest status.
SBATCH = """#!/bin/bash
set -eu
[[ $1 == --wait && $2 =~ ^--array=([0-9]+)(-([0-9]+))?$ ]]
first=${BASH_REMATCH[1]} last=${BASH_REMATCH[3]:-${BASH_REMATCH[1]}} greatest=0
name=$(sed -n 's/^#SBATCH --job-name=//p' "$3")
echo Submitted batch job 1
for ((task = last; task >= first; task--)); do
  status=0
  SLURM_ARRAY_TASK_ID=$task SLURM_JOB_ID=$((task + 1)) bash "${@:3}" > "$name-1-$task.log" 2>&1 || status=$?
  ((status <= greatest)) || greatest=$status
done
exit "$greatest"
"""


def add_batch_system(room):
    """Adds `sbatch` to a room: Slurm's own if a controller gives a machine within seconds that sees the room and the
    program; else a stand-in. Which one it is, is printed."""
    if not lacking("sbatch", "srun"):
        words = ["srun", "--quiet", "--immediate=5", "--time=1", "bash", "-c", 'test -w "$0" && test -x "$1"']
        try:
            if room.run(*words, room.path, PROGRAM, timeout=30).status == 0:
                print("sbatch: Slurm's own")
                return
        except subprocess.TimeoutExpired:
            pass
    room.put("../bin/sbatch", SBATCH, 0o755)
    print("sbatch: a stand-in, since no Slurm answers here")
