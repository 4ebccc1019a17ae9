#!/usr/bin/env -S python3 -B
"""Plants fifteen wrong bodies, one at a time, in a copy of the sources, and shows that the test named for each fails there; with
words, those whose names hold one of them. Tests alone speak of what a lock is held for, of workers at the same time, of memory and
of devices. Each takes some minutes, so this is no part of `make test`. In a copy as it is, the tests have to pass."""
import os
import re
import shutil
import subprocess
import sys
import tempfile

ROOT = os.path.dirname(os.path.dirname(os.path.abspath(__file__)))
POOL, COUNTED, LOCK = "layer_pool/src/pool.rt", "devices/src/counted.rt", "= shared.book.lock(shared.rt);"
HELD, BYTES = "slicing_tests pool::one_worker_is_held", "slicing_tests byte_writers::a_byte_at_a_time_from_reader_to_writer"
COUNT = r"Ok\(count\) => Ok\(count\),(\s+Err\(_\) => Err\(self\.fail\(\)\),\s+\}\s+\}\s+"
FAIL = r"Ok(_) => Err(self.fail()),\1"
# Of each: its name, the file, a pattern of what stands there once, what is planted, and the crate and the test that fails.
BAD = [
    ("a serial pool", POOL, r"(?s)let started = scope\.spawn\(.*?drop\(started\);", "run_worker(shared, worker, pass);",
     f"{HELD}_while_the_other_works"),
    ("a pool that holds the lock while arrived runs", POOL, r"shared\.gate\.arrived\(worker, stripe\);",
     rf"{{ let _book {LOCK} \g<0> }}", f"{HELD}_while_the_other_works"),
    ("a pool that holds the lock while a piece is made", POOL,
     r"(if let Ok\(piece\) = slicer\.slice\(stripe\) \{\s+shared\.gate\.made\(.*?\);\s+)shared\.book\.lock\(.*?\)",
     rf"let mut book {LOCK} \1book", f"{HELD}_with_its_piece_while_the_other_works"),
    ("a pool that holds the lock while it slices", POOL, r"if let Ok\(piece\) = (slicer\.slice\(stripe\))",
     rf"let sliced = {{ let _book {LOCK} \1 }}; if let Ok(piece) = sliced", f"{HELD}_in_a_slice_while_the_other_works"),
    ("workers that make nothing", POOL, r"if let Ok\(piece\) = (slicer\.slice\(stripe\)) \{",
     r"if let (Ok(piece), false) = (\1, true) {", f"{HELD}_with_its_piece_while_the_other_works"),
    ("a build that always answers out of memory", POOL, r"(book\.into_inner\(\)\.into_book\(\)\.finish_own\(\))",
     r"let _build = \1; Err(AllocError)", f"{HELD}_while_the_other_works"),
    ("a finish that leaves stripes empty", "build_book/src/places.rt", r"for s in 0(\.\.job\.stripes\(\) \{\s+late \+=)",
     r"for s in 1\1", "slicing_tests book::two_cubes_by_each_rule"),
    ("a probe that gives one ray twice", "mesh_weld/src/probing.rt", r"(crossings\(solid, centre\), crossings)_along_y",
     r"\1", "welding_tests rays::probes_of_meshes"),
    ("a weld that always answers out of memory", "mesh_weld/src/welding.rt", r"let mut welder = Welder::new\(alloc\);",
     r"if facets.len() < usize::MAX { return Err(WeldFault::Memory); } \g<0>", "welding_tests welding::closed_meshes"),
    ("a fill that always answers out of memory", "raster/src/filler.rt", r"(Filler::new\(alloc\)\.fill\(.*?\))\n",
     r"let _spans = \1; Err(AllocError)\n", "slicing_tests filling::layers_of_two_cubes"),
    ("a run_watched that always answers out of memory", "stlslice/src/running.rt",
     r"match \*task \{\s+Task::Box \{ unit \} => run_box\(",
     r"let end: Result<(), RunFault> = Err(RunFault::Memory); if end.is_err() { return end; } \g<0>", "run_tests box_runs::boxes"),
    ("a Counted whose reads always fail", COUNTED, COUNT + r"\}\s+impl<T: Write> Sink)", FAIL, BYTES),
    ("a Counted whose writes always fail", COUNTED, COUNT + r"fn settle)", FAIL, BYTES),
    ("a Counted that can't be flushed", COUNTED, r"self\.is_settled = true;\s+Ok\(\(\)\)", "Err(self.fail())",
     "slicing_tests byte_writers::an_interrupted_flush_is_not_tried_again"),
    ("a Counted that never flushes", COUNTED, r"self\.inner\.flush\(\)", "Ok::<(), Failed>(())",
     "run_tests device_runs::writers_with_little_room"),
]

def passes(test, path=None, body=""):
    """Whether a test passes in a copy of the sources, where one file may have another body."""
    with tempfile.TemporaryDirectory() as room:
        shutil.copytree(f"{ROOT}/crates", f"{room}/crates", ignore=shutil.ignore_patterns("out", "must-fail"))
        for name in ("crates.txt", "HANDLES"):
            shutil.copy(f"{ROOT}/{name}", room)
        if path:
            with open(f"{room}/crates/{path}", "w", encoding="utf-8") as file:
                file.write(body)
        crate, name = test.split()
        words = ["nice", "rt", "try", "--test", "--seconds", "600", "--", name.split("::")[1]]
        ran = subprocess.run(words, cwd=f"{room}/crates/{crate}", stdin=subprocess.DEVNULL, stdout=subprocess.PIPE,
                             stderr=subprocess.STDOUT, encoding="utf-8", errors="replace")
    ended = dict(re.findall(r"(?m)^test (\S+) \.\.\. (\w+)", ran.stdout))
    return ended[name] == "ok" if name in ended else sys.exit(f"{test} was not run:\n{ran.stdout[-2000:]}")


def main():
    chosen = [bad for bad in BAD if not sys.argv[1:] or any(word in bad[0] for word in sys.argv[1:])]
    wrong = [test for test in sorted({bad[4] for bad in chosen}) if not passes(test)]
    for name, path, old, new, test in chosen:
        with open(f"{ROOT}/crates/{path}", encoding="utf-8") as file:
            body, count = re.subn(old, new, file.read())
        wrong += [] if count == 1 and not passes(test, path, body) else [name]
        print(f"{name}: {'NOT CAUGHT by' if name in wrong else 'fails'} {test}", flush=True)
    return f"fails unchanged, or is not caught: {', '.join(wrong)}" if wrong or not chosen else 0


if __name__ == "__main__":
    sys.exit(main())
