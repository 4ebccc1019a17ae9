"""How the commands end, and what they say."""

import contextlib
import errno
import functools
import os
import re
import shutil
import signal
import sys
import time

UNSHOWN = re.compile("[\0-\x1f\x7f-\x9f\udc80-\udcff]")  # control characters, and bytes of a name that are no UTF-8
BLOCK = 1 << 20
HEARD = [getattr(signal, it) for it in ("SIGHUP", "SIGINT", "SIGTERM") if hasattr(signal, it)]  # Windows has no SIGHUP
UNDONE = []  # what is called, the last first, when the command ends, or a signal ends it


class Refused(Exception):
    """What ends a command: its own line, or None, the status, and what the library or another program said before, if anything."""

    def __init__(self, line, status=1, told=""):
        super().__init__(line)
        self.line, self.status, self.told = line, status, told


def refuse_if(is_wrong, line, status=1):
    if is_wrong:
        raise Refused(line, status)


def shown(text):
    """The text on one line, with what isn't shown as it is as \\xNN."""
    return UNSHOWN.sub(lambda it: f"\\x{ord(it[0]) & 0xff:02x}", text)


def tell(text):
    """Writes on standard error. If that is full, nothing is said."""
    with contextlib.suppress(OSError):
        print(text, end="", file=sys.stderr, flush=True)


def say(line, before=""):
    """Writes a line, if there is one, on standard error, after the command's name. What another program said comes before it."""
    Progress.clear()
    tell(before + (shown(f"{os.path.basename(sys.argv[0])}: {line}") + "\n" if line else ""))


def in_mm(lengths):
    return " x ".join(f"{float(n) / 1000:.3f}" for n in lengths)


def look_at_output(output, part):
    """Refuses an output that is there and no plain file, or is the part. The name - is standard output, which may be closed."""
    if output == "-":
        refuse_if(not sys.__stdout__, "standard output is closed")
        return
    is_other = output.endswith("/") or os.path.islink(output) or os.path.exists(output) and not os.path.isfile(output)
    refuse_if(is_other, f"{output} is no plain file")
    with contextlib.suppress(OSError):  # of what isn't there
        refuse_if(os.path.samefile(output, 0 if part == "-" else part), f"{output} is the part itself")


def undo():
    """Ends and removes what is under way. If a signal comes meanwhile, all of it is done once more."""
    for it in reversed(UNDONE):
        it()


def aside(output):
    """A path that an output has until it is whole, and no other run takes. What is there when the command ends is removed."""
    path = f"{output}.{os.urandom(4).hex()}.part"
    UNDONE.append(functools.partial(remove, path))
    return path


def remove(path):
    """Removes a file or a folder, if there is one."""
    with contextlib.suppress(OSError):
        os.remove(path)
    shutil.rmtree(path, ignore_errors=True)


@contextlib.contextmanager
def whole_file(output, part=""):
    """A file of bytes, made aside, that gets the output's name once the block has ended well. With - it has no name."""
    look_at_output(output, part)
    if output == "-":
        import tempfile  # only here, since each start reads what it imports anew
        with named("TMPDIR"), named(tempfile.gettempdir()), tempfile.TemporaryFile() as file:
            yield file
        return
    path = aside(output)
    with named(output), open(path, "x+b") as file:
        yield file
    look_at_output(output, part)
    os.replace(path, output)


def finish(given, plain, file, layers, size, volume, **more):
    """Writes the last line before the output has its name: if it can't be written, what was there before is left. With - the bytes
    of the file go to standard output, and then the line to standard error."""
    line = shown(f"{given.output}: {plain}")
    if given.json:
        import json  # only here, since each start reads what it imports anew
        sides = [round(length / 1000, 3) for length in size]
        line = json.dumps({"output": given.output, "layers": layers, "size": sides, "millilitres": round(volume, 6), **more})
    if file:
        file.flush()
    with named("standard output"):
        if given.output != "-":
            print(line, flush=True)
            return
        pour(file)
    tell(line + "\n")


def pour(file):
    """Writes the bytes of a file to standard output."""
    file.seek(0)
    shutil.copyfileobj(file, sys.stdout.buffer, BLOCK)
    sys.stdout.flush()


@contextlib.contextmanager
def named(place):
    """Gives a fault without a name, such as that of a full disk, the name of the place. A fault of opening a file has a name."""
    try:
        yield
    except OSError as fault:
        fault.filename = fault.filename or place
        raise


class Progress:
    """One line on standard error that is drawn anew. It is shown on a terminal alone."""

    CLEAR = "\r\x1b[K"
    moment = 0.0  # when it was drawn, or 0 if it isn't there

    @classmethod
    def show(cls, text, is_new=False):
        """Draws the line: that of a new phase at once, since it may stand for long, others ten times a second at most."""
        now = time.monotonic()
        if (is_new or now - cls.moment >= 0.1) and sys.stderr.isatty():
            tell(f"{cls.CLEAR}{text}")
            cls.moment = now

    @classmethod
    def through(cls, layers, count):
        """The layers as they come, `count` of them; the line says how many are done, and how long the others will take."""
        begin = time.monotonic()
        for number, layer in enumerate(layers, 1):
            yield layer
            left = (time.monotonic() - begin) / number * (count - number)
            cls.show(f"layer {number:,} of {count:,}, {left:.0f} s left")
        cls.clear()

    @classmethod
    def clear(cls):
        tell(cls.CLEAR if cls.moment else "")
        cls.moment = 0.0


def stop(number, _):
    """Ends the command by a signal, and removes what isn't whole. Further signals are ignored meanwhile. No exception is raised:
    it would end whatever the signal came upon, such as `zipfile` in the middle of an entry, which then raises its own."""
    listen(signal.SIG_IGN)
    undo()
    if Progress.moment:
        with contextlib.suppress(OSError):
            os.write(sys.stderr.fileno(), Progress.CLEAR.encode())
    os._exit(128 + number)


def listen(how):
    """Has signals answered so, but for those that are ignored, as by nohup."""
    for number in HEARD:
        if signal.getsignal(number) != signal.SIG_IGN:
            signal.signal(number, how)


listen(stop)  # while the other modules are read, too
# It is blocked while Python starts, by the commands' first line, since Python would end with a traceback. Windows blocks none.
if hasattr(signal, "pthread_sigmask"):
    signal.pthread_sigmask(signal.SIG_UNBLOCK, [signal.SIGINT])


def end_of(fault):
    """The line and the status of a fault."""
    if isinstance(fault, Refused):
        return fault.line, fault.status
    if isinstance(fault, ImportError):
        return str(fault), 1
    if isinstance(fault, MemoryError) or fault.errno == errno.ENOMEM:
        return "out of memory", 6
    # the line has the name that was given, not the one that an output has until it is whole
    name = re.sub(r"\.[0-9a-f]{8}\.part", "", str(fault.filename or ""))
    return f"{fault.strerror}: {name}" if name else str(fault.strerror), 1


def command(main):
    """What runs a command and ends the process: with status 0, the library's, or that of a fault."""
    def run():
        sys.stdout, sys.stderr = (it or open(os.devnull, "w") for it in (sys.stdout, sys.stderr))
        sys.stdout.reconfigure(errors="backslashreplace")
        status = 0
        try:
            with contextlib.suppress(SystemExit):  # of argparse, after --help
                main()
            with named("standard output"):
                sys.stdout.flush()
        except (Refused, ImportError, MemoryError, OSError) as fault:
            line, status = end_of(fault)
            say(line, getattr(fault, "told", ""))
        finally:
            undo()
        os._exit(status)  # Python would write once more to a standard output that is full

    return run
