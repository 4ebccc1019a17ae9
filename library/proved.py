#!/usr/bin/env python3
"""Compiles the proved library for C, and keeps the LLVM module from which that comes.

    library/proved.py ARCHIVE MODULE

`rattle build` checks crates/stlslice_c over the libraries below, as their last proofs left them, and has clang compile the
module that was proved. Unless `rt ci` has proved these since their sources changed, `rt check` does first. The toolchain
that `rattle build` gets is a folder of links, in which a script in clang's place copies the module, and then runs clang. The
toolchain does not document that it gives clang one module. If that has changed, one line says so, and the status is 1.
"""

import os
import shutil
import subprocess
import sys
import tempfile

ROOT = os.path.dirname(os.path.dirname(os.path.abspath(__file__)))
CRATE = "stlslice_c"
CLANG = """#!/bin/sh
for word; do
    case $word in
        *.bc) cp "$word" "$(mktemp {room}/modules/XXXXXX)" || exit 1 ;;
    esac
done
exec {toolchain}/bin/clang "$@"
"""


def must(*words, **how):
    """Runs a command, which has to end with status 0."""
    ran = subprocess.run(words, stdin=subprocess.DEVNULL, **how)
    if ran.returncode:
        sys.exit(f"library/proved.py: {' '.join(words[:2])} ended with status {ran.returncode}")
    return ran


def crates():
    """For each crate the libraries that crates.txt lists for it, the kit's too."""
    with open(f"{ROOT}/crates.txt", encoding="utf-8") as file:
        rows = [line.partition(":") for line in file if line.strip() and not line.startswith("#")]
    return {head.split()[0]: tail.split() for head, _, tail in rows}


def below(listed, crate):
    """The repository's libraries that a crate depends on, directly or through others."""
    own = {it for it in listed[crate] if it in listed}
    return own.union(*(below(listed, it) for it in own))


def rlib(crate):
    return f"{ROOT}/crates/{crate}/out/rlib/{crate}.rlib"


def newest(crate):
    """When the crate's newest source changed."""
    return max(os.path.getmtime(os.path.join(at, it)) for part in ("src", "specs", "proofs")
               for at, _, names in os.walk(f"{ROOT}/crates/{crate}/{part}") for it in names)


def are_proved(listed):
    """Whether `rt ci` has left each library, newer than its sources. Beside what another command left lies a stamp; `rt check` judges it."""
    libraries = below(listed, CRATE)
    stamps = [f"{os.path.dirname(rlib(it))}/stamp" for it in libraries]
    return all(os.path.isdir(rlib(it)) for it in libraries) and not any(map(os.path.exists, stamps)) and all(
        os.path.getmtime(rlib(it)) > max(newest(low) for low in {it} | below(listed, it)) for it in libraries)


def toolchain_of_links(toolchain, room):
    """The toolchain's folder once more, with the script in clang's place."""
    os.makedirs(f"{room}/modules")
    shutil.copytree(f"{toolchain}/bin", f"{room}/toolchain/bin", ignore=shutil.ignore_patterns("clang"), copy_function=os.symlink)
    os.symlink(f"{toolchain}/lib", f"{room}/toolchain/lib")
    with open(f"{room}/toolchain/bin/clang", "w", encoding="utf-8") as file:
        file.write(CLANG.format(room=room, toolchain=toolchain))
    os.chmod(f"{room}/toolchain/bin/clang", 0o755)
    return f"{room}/toolchain"


def main():
    if len(sys.argv) != 3:
        sys.exit("use: library/proved.py ARCHIVE MODULE")
    archive, module = map(os.path.abspath, sys.argv[1:])
    kit = os.path.dirname(must("rt", "doc", stdout=subprocess.PIPE, text=True).stdout.strip())
    listed, folder = crates(), f"{ROOT}/crates/{CRATE}"
    if not are_proved(listed):
        must("rt", "check", cwd=folder)
    words = ["--crate-name", CRATE, "src/lib.rt", "-L", f"dependency={kit}/rlibs"]
    for it in ["std", *listed[CRATE]]:
        words += ["--extern", f"{it}={rlib(it) if it in listed else f'{kit}/rlibs/{it}.rlib'}"]
    for it in sorted(below(listed, CRATE)):
        words += ["-L", f"dependency={os.path.dirname(rlib(it))}"]
    words += ["--antt-project", f"{kit}/rattle/logic/antt-project.json", "--logic-built", f"{kit}/logic_built"]
    with tempfile.TemporaryDirectory(prefix="stlslice-library-") as room:
        words += ["--crate-type", "staticlib", "--toolchain", toolchain_of_links(f"{kit}/toolchain", room), "-o", archive]
        words += ["--jobs", str(min(4, len(os.sched_getaffinity(0))))]
        must(f"{kit}/bin/rattle", "build", *words, cwd=folder)
        modules = os.listdir(f"{room}/modules")
        if len(modules) != 1:
            sys.exit(f"library/proved.py: the toolchain has changed: it gave clang {len(modules)} modules, and not one")
        shutil.copyfile(f"{room}/modules/{modules[0]}", module)


if __name__ == "__main__":
    main()
