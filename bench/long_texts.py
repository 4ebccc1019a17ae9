#!/usr/bin/env python3
"""Runs the built program on texts that are long in one place: white space, a name, the rest of a line, a word, a number.

    bench/long_texts.py PROGRAM [PART]

Each is 2 GB long there; PART takes one part in PART of it. A text is written to the program as it takes it, and is held
nowhere. The answer has to be right, and the memory at most 20 MB, 4 for --box. A line a text: its length, seconds of processor
time, seconds a gigabyte, the most memory. A text of a quarter of the length shows whether the time grows with the length alone.
"""

import os
import resource
import subprocess
import sys
import time

sys.path.insert(0, os.path.join(os.path.dirname(os.path.dirname(os.path.abspath(__file__))), "tests"))
from parts import box, text  # noqa: E402

MB = 1_000_000
LENGTH = 2_000 * MB
# what the program may take, in bytes: --box holds a window of the text, several workers hold two rounds
ROOM, BOX_ROOM = 20 * MB, 4 * MB
# the seconds within which two times aren't told apart, and how often a text is tried: what else the machine does makes runs longer
NOISE, TRIES = 0.3, 3
SLICE = ["--pitch", "100", "--layer", "1000"]

CUBE = box((0, 0, 0), (1, 1, 1))
MESH = text(CUBE).encode()
FACETS = MESH[len("solid part\n"):-len("endsolid part\n")]
HEAD = b"solid part\nfacet normal 0 0 "
TAIL = FACETS[len("facet normal 0 0 0"):] + b"endsolid\n"
BOX = b"facets 12 box 0 0 0 1000 1000 1000\n"
IMAGE = b"P4\n10 10\n" + b"\xff\xc0" * 10


class Text:
    """A text whose middle is one filling, `length` times the byte `fill`."""

    def __init__(self, name, front, fill, length, back, words, answer):
        self.name, self.front, self.fill, self.length, self.back = name, front, fill, length, back
        self.words, self.answer = words, answer


def texts(part):
    """Every text with its length, the words, and status, output and fault."""
    length = LENGTH // part
    done, image = (0, BOX, b""), (0, IMAGE, b"")

    def fault(said):
        return 3, b"", b"stlslice: " + said + b"\n"

    number = b"solid part\nfacet normal 0 0 0 outer loop vertex 0 0 "
    sliced = [([*SLICE, "--workers", workers], image) for workers in ("1", "4", "64")]
    for words, good in [(["--box"], done), *sliced]:
        yield Text("white space in a mesh", MESH[:-len(b"endsolid part\n")], b" ", length, b"endsolid part\n", words, good)
        yield Text("a name", b"solid ", b"a", length, b"\n" + FACETS + b"endsolid\n", words, good)
        yield Text("the rest of a line", MESH[:-1], b"b", length, b"\n", words, good)
        yield Text("a word of a normal", HEAD, b"7", length, TAIL, words, good)
        yield Text("a number", number, b"1", length, b" x", words, fault(b"number at byte %d: too long" % len(number)))
        yield Text("a number at the end", number, b"0", length, b"", words, fault(b"number at byte %d: too long" % len(number)))
        yield Text("a word for facet", b"solid part\n", b"f", length, b"", words, fault(b"expected facet or endsolid at byte 11"))
        yield Text("a word that begins as facet", b"solid part\nfacet", b"t", length, b" normal", words,
                   fault(b"expected facet or endsolid at byte 11"))
        yield Text("a word for vertex", number[:-len(b"vertex 0 0 ")], b"v", length, b" 0 0 0", words,
                   fault(b"expected vertex at byte %d" % (len(number) - len(b"vertex 0 0 "))))
        yield Text("zero bytes alone", b"", b"\0", length, b"", words, fault(b"expected solid at byte 0"))
        yield Text("bytes 255 alone", b"", b"\xff", length, b"", words, fault(b"expected solid at byte 0"))
        yield Text("white space alone", b"", b"\n", length, b"", words, fault(b"input ended before solid"))
        yield Text("white space behind a fault", b"solid part\nfacets", b" ", length, b"", words,
                   fault(b"expected facet or endsolid at byte 11"))


def chunks(text, length):
    """The text with a filling of this length, in chunks."""
    yield text.front
    whole = text.fill * min(length, 4 * MB)
    for _ in range(length // len(whole) if whole else 0):
        yield whole
    yield whole[:length % len(whole)] if whole else b""
    yield text.back


def most_memory(child):
    """The most memory that a running program has taken so far, in bytes; 0 if it has ended."""
    try:
        with open(f"/proc/{child.pid}/status") as status:
            found = [line for line in status if line.startswith("VmHWM:")]
    except OSError:
        found = []
    return int(found[0].split()[1]) * 1024 if found else 0


def spent():
    """Seconds of processor time of the programs that have ended."""
    used = resource.getrusage(resource.RUSAGE_CHILDREN)
    return used.ru_utime + used.ru_stime


def run(program, text, length):
    """Seconds of processor time, the most memory, and status, output and fault of a run."""
    before = spent()
    with subprocess.Popen([program, *text.words], stdin=subprocess.PIPE, stdout=subprocess.PIPE,
                          stderr=subprocess.PIPE) as child:
        for chunk in chunks(text, length):
            child.stdin.write(chunk)
        child.stdin.flush()
        memory = most_memory(child)
        child.stdin.close()
        while now := most_memory(child):
            memory = max(memory, now)
            time.sleep(0.001)
        said, fault = child.stdout.read(), child.stderr.read()
    return spent() - before, memory, (child.returncode, said, fault)


def is_slow(seconds, quarter):
    """Whether a text takes too long beside one of a quarter of its length. It may take four times as long; if the time grew as the
    square of the length, it would take sixteen times as long."""
    return seconds > 6 * quarter + NOISE


def try_text(program, text):
    """Tries a text; answers what went wrong, a line each."""
    quarter = min(run(program, text, text.length // 4)[0] for _ in range(TRIES))
    seconds, memory, answer = run(program, text, text.length)
    for _ in range(TRIES - 1):
        if is_slow(seconds, quarter):
            seconds = min(seconds, run(program, text, text.length)[0])
    label = f"{text.name}, {' '.join(text.words[-2:])}"
    print(f"{label:42} {text.length / MB:8.0f} MB {seconds:7.2f} s {seconds / text.length * 1000 * MB:6.2f} s/GB "
          f"{memory / MB:7.1f} MB", flush=True)
    wrong = []
    if answer != text.answer:
        wrong.append(f"{label}: {answer} in place of {text.answer}")
    if memory > (BOX_ROOM if text.words == ["--box"] else ROOM):
        wrong.append(f"{label}: {memory} bytes of memory")
    if is_slow(seconds, quarter):
        wrong.append(f"{label}: {seconds:.2f} s, and {quarter:.2f} s for a quarter of the length")
    return wrong


def try_all(program, part):
    """Tries every text; answers what went wrong, a line each."""
    return [it for text in texts(part) for it in try_text(program, text)]


def main():
    part = int(sys.argv[2]) if len(sys.argv) > 2 else 1
    wrong = try_all(os.path.abspath(sys.argv[1]), part)
    sys.exit("\n".join(wrong) or 0)


if __name__ == "__main__":
    main()
