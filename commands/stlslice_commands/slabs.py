"""Slices an ASCII STL slab by slab, several slabs at once, on this machine or on several over ssh, with GNU parallel.
The slabs' images, joined, are those of the whole. For layers.pbm - is standard output, written when all slabs are made."""

import argparse
import contextlib
import os
import re
import shutil
import signal
import subprocess
import sys
import threading
import time
from functools import partial
from shlex import quote

from . import formats, words
from .faults import BLOCK, HEARD, UNDONE, Refused, aside, command, look_at_output, pour, refuse_if, whole_file

USAGE = "%(prog)s [OPTIONS] part.stl layers.pbm\n       %(prog)s [OPTIONS] --words part.stl"
WHOLE = words.whole(999_999)
RULE = words.taking("evenodd, nonzero or positive", "evenodd|nonzero|positive", str)
UNIT = words.taking("mm or inch", "mm|inch", str)
HOSTS = words.taking("machines, as host1,host2,:", r"[][A-Za-z0-9\\ @%,:/._+=~-]+", str)
END = b"IEND\xaeB`\x82"  # of a PNG; it has no end of a line


class Parser(words.Parser):
    def error(self, message):
        """Ends with one line, as `-p takes a value`."""
        raise Refused(re.sub(r"^argument (\S+): (it )?", r"\1 ", message.replace("expected one argument", "takes a value")), 2)


def words_given():
    """The options, and the names of part and output, which may begin with a dash."""
    made = Parser(description=__doc__, usage=USAGE, allow_abbrev=False)
    add = made.add_argument
    add("-p", dest="pitch", type=WHOLE, default=50, metavar="N", help="pitch in micrometres (%(default)s)")
    add("-l", dest="layer", type=WHOLE, default=50, metavar="N", help="layer height in micrometres (%(default)s)")
    add("-n", dest="per", type=WHOLE, default=64, metavar="N", help="layers of a slab (%(default)s)")
    add("-r", dest="rule", type=RULE, default="evenodd", metavar="RULE", help="evenodd, nonzero or positive (%(default)s)")
    add("-u", dest="unit", type=UNIT, default="mm", metavar="UNIT", help="mm or inch (%(default)s)")
    add("-j", dest="jobs", default="100%", metavar="JOBS",
        help="slabs at once on each machine, as GNU parallel takes it (one for each processor)")
    add("-S", dest="hosts", type=HOSTS, metavar="HOSTS",
        help="machines, as GNU parallel takes them: host1,host2,: where : is this one")
    add("-P", dest="program", metavar="PATH",
        help="the slicer, here and there (stlslice beside this command, else on PATH; with -S, on PATH)")
    add("--png", action="store_true", help="write PNGs in place of P4 images, with these of the slicer's options:")
    add("--depth", type=words.taking("8 or 1", "[81]", str), metavar="N", help="bits of a pixel, 8 or 1 (8)")
    add("--mirror-x", action="store_true", help="swap left and right")
    add("--mirror-y", action="store_true", help="swap top and bottom")
    add("--words", action="store_true", help="only write the slicer's arguments for each slab, a line each")
    add("names", nargs=argparse.REMAINDER, help=argparse.SUPPRESS)
    given, unknown = made.parse_known_args()
    unknown += [it for it in given.names[:1] if it.startswith("-")]
    if unknown:
        raise Refused(f"there is no option {unknown[0]}", 2)
    refuse_if(len(given.names) != (1 if given.words else 2), "it takes part.stl and layers.pbm, or --words and part.stl", 2)
    refuse_if(given.names[1:] == [""], "the output has no name", 2)
    of_pngs = given.depth or given.mirror_x or given.mirror_y
    refuse_if(of_pngs and not given.png, "--depth, --mirror-x and --mirror-y go with --png", 2)
    given.part, given.output = (*given.names, None)[:2]
    return given


def look_at_part(given):
    part = given.part
    refuse_if(not os.access(part, os.R_OK) or os.path.isdir(part), f"{part} can't be read")
    if not os.path.isfile(part):
        refuse_if(not given.words, f"{part} is no plain file, and each slab reads the part anew")
        return
    with open(part, "rb") as file:
        is_binary = formats.is_binary(os.path.getsize(part), file.read(84))
    line = formats.command_for("STL", part, "text")
    refuse_if(is_binary, f"the part is binary STL, and text is taken; convert it: {line}", 3)


def slicer_of(given):
    """The slicer that was named, else the one beside this command or on PATH; with -S the one on PATH, here and there."""
    beside = os.path.dirname(os.path.realpath(sys.argv[0]))
    places = [os.path.join(beside, "stlslice"), "stlslice", os.path.join(beside, "../build/stlslice")]
    missing = "stlslice is neither beside this command nor on PATH; -P says where it is"
    if given.program:
        places, missing = [given.program], f"no program at {given.program}"
    elif given.hosts:
        places, missing = ["stlslice"], "stlslice is not on PATH; -P says where it is, here and there"
    found = next(filter(shutil.which, places), None)
    refuse_if(not found, missing)
    # parallel runs in another folder
    return found if given.hosts and "/" not in found else os.path.abspath(shutil.which(found))


class Slabs:
    """The slicer's words for each slab; how many layers all slabs have, and how many bytes the P4 image of one."""

    def __init__(self, given, slicer):
        with open(given.part, "rb") as file:
            child = started(slicer, [slicer, "--box", "--unit", given.unit], stdin=file, stderr=subprocess.PIPE)
            told, faults = child.communicate()
        if child.returncode:
            line = None if faults else f"{slicer} --box ended with status {status_of(child)} and no line"
            raise Refused(line, status_of(child), faults.decode(errors="backslashreplace"))
        told = re.fullmatch(rb"facets \d+(?: box((?: -?\d{1,10}){6}))?\n", told)
        refuse_if(not told, f"{slicer} is no stlslice")
        refuse_if(not told[1], "the part has no facets")
        box = list(map(int, told[1].split()))
        sides = zip(box[:3], box[3:], (given.pitch, given.pitch, given.layer))
        columns, rows, self.layers = (max(1, -(-(after - before) // step)) for before, after, step in sides)
        self.size = len(f"P4\n{columns} {rows}\n") + rows * ((columns + 7) // 8)
        shared = f"--pitch {given.pitch} --layer {given.layer} --rule {given.rule} --unit {given.unit}"
        shared += " --png" * given.png + (f" --depth {given.depth}" if given.depth else "")
        shared += " --mirror-x" * given.mirror_x + " --mirror-y" * given.mirror_y
        self.words = [f"{shared} --grid={columns},{rows},{min(given.per, self.layers - k)},"
                      f"{box[0]},{box[1]},{box[2] + k * given.layer}" for k in range(0, self.layers, given.per)]

    def are_whole(self, given, file):
        """Whether the images are as many as the layers: P4 images by their bytes, PNGs by their ends."""
        if not given.png:
            return file.tell() == self.layers * self.size
        file.seek(0)
        return sum(line.count(END) for line in file) == self.layers


def status_of(ended):
    """The status of a process, as a shell has it, also of one that a signal ended."""
    return 128 - ended.returncode if ended.returncode < 0 else ended.returncode


@contextlib.contextmanager
def told(line):
    """Gives a fault of the system a line before its reason."""
    try:
        yield
    except OSError as fault:
        raise Refused(f"{line}: {fault.strerror}")


def call_of_parallel(given, slicer, slabs, folder):
    """The call by which GNU parallel runs the slabs, in a folder that has their commands. These are whole, since parallel would
    find marks of its own, such as {}, in names."""
    call = [os.path.abspath(shutil.which("parallel")), "--plain", "--will-cite", "--keep-order", "--null", "--halt", "now,fail=1",
            "--jobs", given.jobs, "--arg-file", "commands", *["--bar"] * sys.stderr.isatty()]
    # parallel prints what slabs say in their order, so it would leave out the fault of one that ends before one below it
    files = f"2>> {quote(os.path.join(folder, 'faults'))} < {quote(os.path.realpath(given.part))}"
    if given.hosts:
        # By rsync, and ssh without a password. A copy under a name of its own, relative to the login folder there: --cleanup
        # removes that and never the part.
        copy = f"stlslice-{os.urandom(8).hex()}.stl"
        shutil.copyfile(given.part, os.path.join(folder, copy))
        call += ["--sshlogin", given.hosts, "--basefile", copy, "--cleanup"]
        files = f"< {copy}"
    with open(os.path.join(folder, "commands"), "wb") as file:
        file.write(b"\0".join(os.fsencode(f"{quote(slicer)} {it} {files}") for it in slabs.words))
    return call


def passed_on(given, call, folder, file):
    """Writes what the slabs give, since GNU parallel doesn't look at its own writes. Returns its status, the first line that slabs
    said, and what it said itself. With -S the line of a slab that fails may be lost if one below it still runs."""
    environment = {**os.environ, "TMPDIR": os.path.dirname(folder), **({} if given.hosts else {"PARALLEL_SHELL": "/bin/sh"})}
    # in memory, since the folder may be full
    with open(os.memfd_create("parallel"), "r+", errors="backslashreplace") as own:
        child = started("GNU parallel", call, cwd=folder, env=environment, stdin=subprocess.DEVNULL,
                        stderr=sys.stderr if given.hosts or sys.stderr.isatty() else own)
        shutil.copyfileobj(child.stdout, file, BLOCK)
        child.wait()
        own.seek(0)
        faults = os.path.join(folder, "faults")
        with open(faults if os.path.exists(faults) else os.devnull, errors="backslashreplace") as said:
            return status_of(child), said.readline(), own.read()


def started(name, call, **how):
    """A process that ends with the command. A signal waits until it is known what it has to end."""
    signal.pthread_sigmask(signal.SIG_BLOCK, HEARD)
    with told(f"{name} can't be started"):
        child = subprocess.Popen(call, stdout=subprocess.PIPE, bufsize=0, preexec_fn=begin, **how)
    UNDONE.append(partial(end, child))
    signal.pthread_sigmask(signal.SIG_UNBLOCK, HEARD)
    return child


def begin():
    """What a process does first: Ctrl-C is the command's alone to answer."""
    signal.signal(signal.SIGINT, signal.SIG_IGN)
    signal.pthread_sigmask(signal.SIG_UNBLOCK, HEARD)


def end(child):
    """Ends a process, and parallel its slabs. It hears this as soon as it has begun, and is killed if it hasn't ended 5 seconds
    later. What is still written is lost."""
    if not child.stdout.closed:
        threading.Thread(target=shutil.copyfileobj, args=(child.stdout, open(os.devnull, "wb")), daemon=True).start()
    with contextlib.suppress(ProcessLookupError, ChildProcessError):
        for number in [*10 * [signal.SIGTERM], signal.SIGKILL]:
            if child.returncode is not None or os.waitpid(child.pid, os.WNOHANG)[0]:
                return
            os.kill(child.pid, number)
            time.sleep(0.5)


def make(given, slicer, slabs):
    """Makes the output, whole or not at all. The first slab that fails halts all others, and its line and status are passed on."""
    place, name = os.environ.get("TMPDIR") or "/tmp", "standard output" if given.output == "-" else given.output
    folder = aside(os.path.abspath(f"{place}/stlslice"))
    with told(f"{name} can't be written"), whole_file(given.output, given.part) as file:
        with told(f"the temporary folder {place} can't be used"):
            os.mkdir(folder, 0o700)
            call = call_of_parallel(given, slicer, slabs, folder)
        status, line, of_parallel = passed_on(given, call, folder, file)
        if status == 255:
            raise Refused("GNU parallel or ssh failed", 1, line + of_parallel)
        if status and (line or given.hosts):
            raise Refused(None, status, line)
        # parallel tells the command of the slab that failed
        numbers = [k for k, it in enumerate(slabs.words, 1) if f" {it} " in of_parallel]
        which = f"slab {numbers[0]} of {len(slabs.words)}" if numbers else "a slab"
        line = f"{which} ended with status {status} and no line: is the temporary folder {place} full, or memory short?"
        refuse_if(status, line, status)
        line = f"{name} can't be written: images of slabs are lost; is the temporary folder {place} full?"
        refuse_if(not slabs.are_whole(given, file), line)
        if given.output == "-":
            pour(file)


@command
def run():
    given = words_given()
    look_at_part(given)
    slicer = slicer_of(given)
    slabs = Slabs(given, slicer)
    if given.words:
        print("\n".join(slabs.words))
        return
    refuse_if(not shutil.which("parallel"), "GNU parallel is missing (Debian: apt-get install parallel)")
    look_at_output(given.output, given.part)
    into = os.path.dirname(given.output) or "."
    refuse_if(given.output != "-" and not (os.path.isdir(into) and os.access(into, os.W_OK)),
              f"{given.output} can't be written: no file can be made in {into}")
    make(given, slicer, slabs)
