#!/usr/bin/env python3
"""Compares PNGs with raw PBM: all layers of a part on a large canvas, written through a pipe, in turns.

    bench/pngs.py PROGRAM [--other COMMAND] [--runs N] [--layers N]

The part is examples/supported.stl, in the middle of 11520 x 5120 pixels of 19 micrometres; it has 640 layers. The reader of
the pipe keeps nothing. One worker slices, and the least times of N runs (5) count. COMMAND is another slicer that writes PNGs: it
gets the part's path, then the options of slicing. Run it on a machine with nothing else to do.
"""

import argparse
import os
import re
import shlex
import subprocess
import time

from measure import exit_status

ROOT = os.path.dirname(os.path.dirname(os.path.abspath(__file__)))
PART = os.path.join(ROOT, "examples", "supported.stl")
COLUMNS, ROWS, LAYERS, PITCH, HEIGHT = 11520, 5120, 640, 19, 50


def options(program, layers):
    """The options of slicing the part in the middle of the canvas."""
    with open(PART, "rb") as source:
        told = subprocess.run([program, "--box"], stdin=source, stdout=subprocess.PIPE, text=True, check=True).stdout
    low_x, low_y, low_z, high_x, high_y, _ = map(int, re.search(r"box (.*)", told)[1].split())
    x, y = ((low + high - count * PITCH) // 2 for low, high, count in ((low_x, high_x, COLUMNS), (low_y, high_y, ROWS)))
    grid = f"--grid={COLUMNS},{ROWS},{layers},{x},{y},{low_z}"
    return ["--pitch", str(PITCH), "--layer", str(HEIGHT), "--rule", "positive", grid]


def run(words):
    """Seconds by the clock and of processor time of one run, and the bytes that it wrote."""
    began, size = time.perf_counter(), 0
    with open(PART, "rb") as source:
        child = subprocess.Popen(words, stdin=source, stdout=subprocess.PIPE)
        piece = bytearray(1 << 20)
        while count := child.stdout.readinto(piece):
            size += count
        _, status, used = os.wait4(child.pid, 0)
    child.returncode = exit_status(status)
    if child.returncode:
        raise SystemExit(f"{' '.join(words)}: status {child.returncode}")
    return time.perf_counter() - began, used.ru_utime + used.ru_stime, size


def table(program, other=None, runs=5, layers=LAYERS):
    """The lines of a table: for each output its times, each with its ratio to the first row's, and its bytes a layer."""
    words = options(program, layers)
    rows = {"P4": [program, *words], "`--png`": [program, *words, "--png"], "`--png --depth 1`": [program, *words, "--png", "--depth", "1"]}
    if other:
        rows["PNGs of the other slicer"] = [*shlex.split(other), PART, *words]
    found = {name: [] for name in rows}
    for _ in range(runs):
        for name, row in rows.items():
            found[name].append(run(row))
    least = {name: [min(column) for column in zip(*figures)] for name, figures in found.items()}
    first = least["P4"]
    yield f"| {layers} layers of {COLUMNS} x {ROWS}, through a pipe | By the clock | Processor time | Bytes a layer |"
    yield "|---|---|---|---|"
    for name, (clock, processor, size) in least.items():
        yield (f"| {name} | {clock:.3f} s ({clock / first[0]:.3f}) | {processor:.3f} s ({processor / first[1]:.3f}) "
               f"| {size // layers:,} |")


def main():
    words = argparse.ArgumentParser(usage="bench/pngs.py PROGRAM [--other COMMAND] [--runs N] [--layers N]")
    words.add_argument("program")
    words.add_argument("--other")
    words.add_argument("--runs", type=int, default=5)
    words.add_argument("--layers", type=int, default=LAYERS)
    words = words.parse_args()
    print(*table(os.path.abspath(words.program), words.other, words.runs, words.layers), sep="\n")


if __name__ == "__main__":
    main()
