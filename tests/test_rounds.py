"""A text that is read in several rounds by several workers answers what one worker answers: reports, and faults wherever
they stand. The rounds are of a mebibyte for each worker and at most 7, and this text is longer than one. So it does through
a pipe in packet mode (O_DIRECT), which gives a packet of at most PIPE_BUF bytes to each read, and drops what doesn't fit."""

import os
import random
import select
import subprocess
import threading

from common import PROGRAM, Together, same
from measure import ring_of

FACETS = 40_000
WORKERS = ("1", "2", "3", "4", "64")
REPORT = ["--pitch", "500", "--layer", "2000", "--report", "--workers"]


def packets(text, length_of):
    at = 0
    while at < len(text):
        length = length_of()
        yield text[at:at + length]
        at += length


def run_by_packets(words, parts):
    source, sink = os.pipe2(os.O_DIRECT | os.O_CLOEXEC)
    cut = []

    def write():
        try:
            cut.extend(packet for packet in parts if os.write(sink, packet) != len(packet))
        except BrokenPipeError:
            pass  # the answer says that the program ended early
        finally:
            os.close(sink)

    with subprocess.Popen([PROGRAM, *words], stdin=source, stdout=subprocess.PIPE, stderr=subprocess.PIPE, text=True) as child:
        os.close(source)
        writer = threading.Thread(target=write)
        writer.start()
        said, fault = child.communicate(timeout=120)
        writer.join()
    same(len(cut), 0, "packets that were not taken whole")
    return child.returncode, said, fault


class Rounds(Together):
    @classmethod
    def make_ready(cls, room):
        ring_of(FACETS, room.file("ring.stl"))
        cls.text = room.get("ring.stl")
        assert len(cls.text) > 9 * 2**20, "no more than a round"

    def test_workers_answer_what_one_does(self):
        text, half = self.text, self.text.index(b"endfacet", len(self.text) // 2)
        # whole; with one facet less, whose edges are open; cut in a word; with a wrong word in each quarter; in two solids
        open_mesh = text[:half + 9] + text[text.index(b"endfacet", half + 9) + 9:]
        solids = text[:half + 9] + b"endsolid ring\nsolid behind endfacet facet normal\n" + text[half + 9:]
        wrong = [text[:at] + b" vortex " + text[at:] for at in (len(text) * quarter // 4 + 1 for quarter in range(4))]
        statuses = set()
        for case in (text, open_mesh, text[:half + 3], solids, text.upper().replace(b"SOLID RING", b"SOLID ring"), *wrong):
            one = self.room.run("stlslice", *REPORT, "1", input=case)
            statuses.add(one.status)
            for workers in WORKERS:
                same(self.room.run("stlslice", *REPORT, workers, input=case), one, f"{workers} workers")
        same(statuses, {0, 3, 4}, "the statuses that were met")

    def test_packets_are_read_whole(self):
        draw = random.Random(37)
        cuts = {"the longest": lambda: select.PIPE_BUF, "a byte less": lambda: select.PIPE_BUF - 1,
                "drawn": lambda: draw.randint(1, select.PIPE_BUF)}
        for task in (["--box"], *([*REPORT, workers] for workers in WORKERS)):
            wanted = self.room.run("stlslice", *task, input=self.text)
            same(wanted.status, 0, "the status through another pipe")
            for name, length_of in cuts.items():
                found = run_by_packets(task, packets(self.text, length_of))
                same(found, wanted, f"packets: {name}, {' '.join(task)}")
