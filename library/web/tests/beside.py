"""What is tried beside the page, without a browser: its heap, and the messages of library/proved.py."""

import os

from common import HERE, ROOT, holds, library_test, same

# What stands for `rattle` in a toolchain that has changed, and what proved.py says then
CLANG = "for word; do [ $before = --toolchain ] && kit=$word; before=$word; done; $kit/bin/clang"
CHANGED = [
    ("exit 0", "the toolchain has changed: it gave clang 0 modules, and not one"),
    ("exit 3", "/bin/rattle build ended with status 3"),
    (f"touch a.bc b.bc; before=-; {CLANG} a.bc b.bc", "the toolchain has changed: it gave clang 2 modules, and not one"),
]


def try_heap(room):
    """The page's heap as a native program, under sanitizers."""
    program = os.path.join(room, "heap")
    library_test.must([*library_test.LANGUAGES["C"], "-Wall", "-Wextra", "-Werror", *library_test.SANE,
                       os.path.join(HERE, "heap.c"), "-o", program])
    return library_test.must([program]).decode().strip()


def put(path, body):
    os.makedirs(os.path.dirname(path), exist_ok=True)
    with open(path, "w", encoding="ascii") as file:
        file.write(f"#!/bin/sh\n{body}\n")
    os.chmod(path, 0o755)


def try_changed_toolchains(room):
    """If the toolchain's names have changed, one line says so."""
    for number, (body, wanted) in enumerate(CHANGED):
        kit = os.path.join(room, f"kit{number}")
        put(f"{kit}/bin/rt", f'test "$1" != doc || echo {kit}/START-HERE.md')
        put(f"{kit}/bin/rattle", f"cd {room}; {body}")
        put(f"{kit}/toolchain/bin/clang", "exit 0")
        status, _, wrong = library_test.ran([os.path.join(ROOT, "library", "proved.py"), f"{kit}/lib.a", f"{kit}/module.bc"],
                                            env={**os.environ, "PATH": f"{kit}/bin:{os.environ['PATH']}"})
        same(status, 1, f"status in a changed toolchain: {wrong}")
        holds(f"{wrong!r} says {wanted!r}", wanted in wrong)
        holds("there is no module", not os.path.exists(f"{kit}/module.bc"))
