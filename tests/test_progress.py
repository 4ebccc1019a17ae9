"""--progress: it shows layers and bytes on standard error, and changes neither standard output nor the status."""

import os
import re

from common import GEAR, PROGRAM, ROOT, Case, same
from parts import box, text
from terminal import shown_on_a_terminal

SLICE = ["--pitch", "100", "--layer", "50"]
LAYERS = 240
SHOWN = r"(slicing|writing) (\d+) %, (\d+) of (\d+) (layers|bytes)(?:, \d+ s left)?"

# Words of runs that end well and of runs that fail, with the input of each.
RUNS = [(SLICE, GEAR), (SLICE + ["--workers", "4"], GEAR), (SLICE + ["--report"], GEAR), (["--box"], GEAR),
        (SLICE + ["--png"], GEAR), (SLICE + ["--png", "--depth", "1", "--workers", "4"], GEAR),
        (SLICE + ["--probe", "1,1,1"], GEAR), (SLICE + ["--probe", "999,1,1"], GEAR), (["--pitch", "100"], GEAR),
        (SLICE, os.path.join(ROOT, "README.md")), (["--pitch", "1", "--layer", "1"], GEAR)]


class Progress(Case):
    def ran(self, words, path=GEAR):
        return self.room.run("stlslice", *words, path=path, text=False)

    def test_nothing_else_changes(self):
        for words, path in RUNS:
            plain, watched = self.ran(words, path), self.ran(words + ["--progress"], path)
            name = f"{' '.join(words)} < {os.path.basename(path)}"
            same(watched.status, plain.status, f"status by {name}")
            assert watched.out == plain.out, f"other bytes by {name}"
            same(plain.fault.count("\n"), 1 if plain.status else 0, f"one line where it fails by {name}")
            assert watched.fault.endswith(plain.fault), f"the fault isn't behind the progress by {name}"

    def lines_elsewhere(self, words, last, path=GEAR):
        """Without a terminal: a line for each tenth, of counts that rise to the whole in each phase."""
        found, name = [], " ".join(words)
        for line in self.ran(words + ["--progress"], path).fault.splitlines():
            shown = re.fullmatch("stlslice: " + SHOWN, line)
            assert shown, f"no line of progress: {line}"
            found.append((shown[1], int(shown[2]), int(shown[3]), int(shown[4])))
        phases = [phase for phase, _ in last]
        same([it[0] for it in found], sorted((it[0] for it in found), key=phases.index), f"phases in their order by {name}")
        for phase, total in last:
            steps = [it for it in found if it[0] == phase]
            assert 0 < len(steps) <= 10, f"{len(steps)} lines on {phase} by {name}"
            rise = all(a[2] < b[2] and a[1] // 10 < b[1] // 10 for a, b in zip(steps, steps[1:]))
            assert rise, f"counts on {phase} don't rise by {name}: {steps}"
            same(steps[-1][1:], (100, total, total), f"{phase} ends with the whole by {name}")

    def test_lines_tell_tenths_where_no_terminal_is(self):
        images = len(self.ran(SLICE).out)
        for workers in ("1", "4"):
            self.lines_elsewhere(SLICE + ["--workers", workers], [("slicing", LAYERS), ("writing", images)])
        for words in (["--png"], ["--png", "--workers", "4", "--mirror-x"]):
            self.lines_elsewhere(SLICE + words, [("slicing", LAYERS), ("writing", LAYERS)])
        self.lines_elsewhere(SLICE + ["--report"], [("slicing", LAYERS)])
        for words in (["--box"], SLICE + ["--probe", "1,1,1"]):
            same(self.ran(words + ["--progress"]).fault, "", f"what {words[0]} shows")

    def test_pngs_in_pages_are_counted(self):
        """Several workers make PNGs of many spans in pages, each of which is written by one call."""
        teeth = [box((20 * k, 0, 0), (20 * k + 11, 2600, 200)) for k in range(10)]
        path = self.room.put("comb.stl", text(sum(teeth, [])))
        for workers in ("1", "2", "4"):
            words = ["--pitch", "1000", "--layer", "1000", "--png", "--workers", workers]
            self.lines_elsewhere(words, [("slicing", 200), ("writing", 200)], path)

    def test_a_bar_is_drawn_anew_on_a_terminal(self):
        for words, below, output in ((SLICE, [""], os.devnull), (SLICE + ["--report"], [""], os.devnull),
                                     (SLICE + ["--png"], [""], os.devnull),
                                     (SLICE, ["stlslice: write failed after 0 bytes", ""], "/dev/full")):
            with open(GEAR, "rb") as part, open(output, "wb") as sink:
                shown = shown_on_a_terminal([PROGRAM, *words, "--progress"], stdin=part, stdout=sink)[2]
            bar, *rest = shown.decode().replace("\r\n", "\n").split("\n")
            name = f"{' '.join(words)} > {output}"
            same(rest, below, f"what stands below the bar by {name}")
            first, *drawn = bar.split("\r")
            same(first, "", f"what stands before the bar by {name}")
            assert len(drawn) >= 20, f"the bar is drawn {len(drawn)} times by {name}"
            for shape in drawn:
                shown = re.fullmatch(r"\[((#*) *)\] " + SHOWN + r"\x1b\[K", shape)
                assert shown and len(shown[2]) == int(shown[4]) * len(shown[1]) // 100, f"no bar: {shape!r}"

    def test_standard_error_may_be_closed(self):
        closed = self.room.bash('exec "$@" 2>&-', PROGRAM, *SLICE, "--progress", path=GEAR, text=False)
        same((closed.status, len(closed.out)), (0, len(self.ran(SLICE).out)), "a run with standard error closed")
