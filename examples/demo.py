#!/usr/bin/env python3
"""Slices a bundled part and shows what comes out: its box, its images as a contact sheet, its report.

    demo.py PROGRAM OUT

It runs PROGRAM if it is built. Else the toolchain's `rt try` runs the sources with no proof and with run-time checks,
which takes about a minute. The results are left in the folder OUT.
"""

import io
import os
import shutil
import subprocess
import sys
import tempfile

sys.dont_write_bytecode = True

import contact_sheet  # noqa: E402

HERE = os.path.dirname(os.path.abspath(__file__))
CRATE = os.path.join(os.path.dirname(HERE), "crates", "stlslice_program")
PART = os.path.join(HERE, "helical_gear.stl")
SLICING = ["--pitch", "100", "--layer", "500"]
# The images come last: their bytes are all that follows.
TASKS = {"box": ["--box"], "report": [*SLICING, "--report"], "slices": SLICING}


def built(program):
    """What the built program writes for each task."""
    wrote = {}
    for name, words in TASKS.items():
        with open(PART, "rb") as part:
            wrote[name] = subprocess.run([program, *words], stdin=part, stdout=subprocess.PIPE, check=True).stdout
    return wrote


def tried():
    """What the unproved program writes for each task: built once with checks, and run for each."""
    with tempfile.TemporaryDirectory(prefix="stlslice-demo-") as cases:
        for name, words in TASKS.items():
            shutil.copyfile(PART, os.path.join(cases, name))
            with open(os.path.join(cases, name + ".args"), "w") as file:
                file.write("".join(word + "\n" for word in words))
        ran = subprocess.run(["rt", "try", "--cases", cases], cwd=CRATE, stdin=subprocess.DEVNULL,
                             stdout=subprocess.PIPE, stderr=subprocess.PIPE)
    said = ran.stderr.decode(errors="replace")
    if ran.returncode or any(f"case={name} run=ended status=0 " not in said for name in TASKS):
        sys.exit(f"{said}demo: rt try did not run the program")
    wrote, rest = {}, ran.stdout
    names = list(TASKS)
    for name, after in zip(names, [*names[1:], None]):
        begin = rest.index(f"== {name}\n".encode()) + len(f"== {name}\n")
        end = rest.index(f"\n== {after}\n".encode()) + 1 if after else len(rest)
        wrote[name], rest = rest[begin:end], rest[end:]
    wrote["slices"] = wrote["slices"][:whole(wrote["slices"])]
    return wrote


def whole(stream):
    """The length of the images of a stream, after which rt try may have put a line feed."""
    width, height, begin = contact_sheet.header(io.BytesIO(stream))
    size = begin + (width + 7) // 8 * height
    return len(stream) - 1 if len(stream) % size == 1 and stream.endswith(b"\n") else len(stream)


def show(words, of, text):
    print(f"$ stlslice {' '.join(words)} < {os.path.relpath(PART)}{of}")
    print(text, end="", flush=True)


def main():
    program, out = sys.argv[1], sys.argv[2]
    if os.access(program, os.X_OK):
        wrote = built(os.path.abspath(program))
    else:
        print(f"{program} isn't built yet (make): rt try runs the sources, not proved but checked as they run; "
              "that takes about a minute", flush=True)
        wrote = tried()
    os.makedirs(out, exist_ok=True)
    images, report, sheet = (os.path.join(out, name) for name in ("layers.pbm", "report.txt", "sheet.png"))
    with open(images, "wb") as file:
        file.write(wrote["slices"])
    with open(report, "wb") as file:
        file.write(wrote["report"])
    with open(sheet, "wb") as file:
        file.write(contact_sheet.png(contact_sheet.sheet(*contact_sheet.layers(images, 8))))
    show(TASKS["box"], "", wrote["box"].decode())
    show(TASKS["slices"], f" > {images}", "")
    show(TASKS["report"], f" > {report}; tail -n 1 {report}", wrote["report"].decode().splitlines()[-1] + "\n")
    print(f"eight of the layers, as a picture: {sheet}")


if __name__ == "__main__":
    try:
        main()
    except subprocess.CalledProcessError as fault:
        sys.exit(f"demo: {fault.cmd[0]} ended with status {fault.returncode}")
    except OSError as fault:
        sys.exit(f"demo: {fault.strerror}: {fault.filename}")
