#!/usr/bin/env python3
"""The gate: every proof, what ships, and the tests of what people touch.

    gate.py PROGRAM

1. `rt ci` proves each crate and its tests, tries the edits in must-fail/, and builds and runs PROGRAM. refused.py then looks
   whether it was a clause or an invariant that refused each edit.
2. `make library wheel web` builds what ships beside the program.
3. tests/run tests what people touch.

What each printed is kept in build/gate. What an earlier run left at PROGRAM is removed first, so nothing older is tested. The
last lines say how long each part took, what was skipped or failed, and 'N passed, N failed'. The status is 0 if nothing failed.
"""

import glob
import os
import re
import subprocess
import sys
import time

ROOT = os.path.dirname(os.path.dirname(os.path.abspath(__file__)))
KEPT = os.path.join(ROOT, "build", "gate")
COUNTS = re.compile(r"(\d+) passed, (\d+) failed(?:, (\d+) skipped)?")
TOLD = re.compile(r"rt: FAILED: |.*(NOT PROVED|NOT REFUSED|BAD EDIT)|rt: note: Rattle's own compiler did not | *skipped: |failed: ")


class Part:
    """A command, run in the repository's folder: its lines are shown as they come, and kept."""

    def __init__(self, name, *words):
        self.name, lines, begun, used = name, [], time.monotonic(), os.times()
        how = {"stdin": subprocess.DEVNULL, "stdout": subprocess.PIPE, "stderr": subprocess.STDOUT, "errors": "replace"}
        with open(self.file(), "w", encoding="utf-8") as file, subprocess.Popen(words, cwd=ROOT, text=True, **how) as child:
            for line in child.stdout:
                print(line, end="", flush=True)
                file.write(line)
                lines.append(line.rstrip("\n"))
        counts = COUNTS.match(lines[-1]) if lines else None
        self.passed, self.failed, self.skipped = (int(it or 0) for it in counts.groups()) if counts else (child.returncode == 0, 0, 0)
        self.failed = self.failed or int(child.returncode != 0)
        self.told = [it for it in lines if TOLD.match(it)]
        if self.failed and not self.told:
            self.told = [f"failed: {' '.join(words)}"]
        now = os.times()
        processor = now.children_user + now.children_system - used.children_user - used.children_system
        self.minutes = f"{(time.monotonic() - begun) / 60:6.1f} minutes, {processor / 60:6.1f} of processor time: {name}"

    def file(self):
        return os.path.join(KEPT, f"{self.name.split()[0].strip(',')}.txt")


def main():
    program = os.path.abspath(sys.argv[1])
    os.makedirs(KEPT, exist_ok=True)
    if os.path.exists(program):
        os.remove(program)
    parts = [Part("proofs and edits", "rt", "ci")]
    parts.append(Part("refusals by a clause", "tools/refused.py", parts[0].file()))
    # what `rt ci` kept stands there with an old time, by which library/proved.py would judge it
    for library in glob.glob(f"{ROOT}/crates/*/out/rlib/*.rlib") if not parts[0].failed else []:
        os.utime(library)
    if os.access(program, os.X_OK):
        parts.append(Part("library, wheel and page", "make", "library", "wheel", "web"))
        parts.append(Part("tests of what people touch", "tests/run", program))
    told = [line for it in parts for line in it.told] + ["failed: rt ci built no program"] * (len(parts) < 4)
    print(*(it.minutes for it in parts), *told, sep="\n")
    failed, skipped = sum(it.failed for it in parts) + (len(parts) < 4), sum(it.skipped for it in parts)
    print(f"{sum(it.passed for it in parts)} passed, {failed} failed" + f", {skipped} skipped" * (skipped > 0))
    return 1 if failed else 0


if __name__ == "__main__":
    sys.exit(main())
