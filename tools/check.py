#!/usr/bin/env python3
"""Checks what a change touches: the loop between two runs of the gate, which alone tries all.

    check.py [REV]

The change is all that differs from where HEAD left REV (HEAD). `rt ci` proves each changed crate, with its edits and tests, and
the crates above if they see the change: anything but a function's body, or a proof that none of them names. The tests of the
crate above with the fewest libraries run too, unproved, and so do those in tests/ that name a changed file, with what ships.
"""
import os
import re
import subprocess
import sys

SHIPS = ("library, wheel and page", ["make", "library", "wheel", "web"], "")
# a function's head has no blank line and no line that ends in a semicolon; its body's braces have one indentation
HEAD = r"(?:pub(?:\([\w:]+\))? )?(?:const |unsafe |extern \"C\" )*fn \w(?:(?!.*;$).+\n)*?(?!\s*(?:ensures|requires)\b).*"
BODY = re.compile(rf"(?m)^([ \t]*)({HEAD})\{{\n(?:(?!\1\}}).*\n)*\1\}}$")


def git(*words):
    return subprocess.run(["git", *words], stdout=subprocess.PIPE, stderr=subprocess.DEVNULL, text=True).stdout


def text_of(name):
    return open(name, encoding="utf-8").read() if os.path.isfile(name) else ""


def is_seen_from_above(name, base):
    """Whether crates above may see the change of a source."""
    if name.endswith(".rt"):
        texts = (re.sub(r"(?m)^\s*//.*\n", "", it) for it in (text_of(name), git("show", f"{base}:{name}")))
        return len({BODY.sub(r"\1\2{}", it) for it in texts}) > 1
    module = re.sub(r"\Acrates/|\.antt\Z", "", name).replace("/", ".")
    return "/specs/" in name or bool(git("grep", "-lF", f"Rattle.{module}", "--", "crates", f":!crates/{module.split('.')[0]}"))


def of_crates(files, base):
    """The steps for the crates that have these files: what each is, its command and its folder."""
    below = {it.split()[0].strip(":"): it.partition(":")[2].split() for it in text_of("crates.txt").splitlines() if it[:1] != "#"}
    def all_below(crate):  # directly or through others
        return {it for low in below[crate] if low in below for it in {low, *all_below(low)}}
    changed = [it for it in below if {"crates.txt", "HANDLES"} & {*files} or any(file.startswith(f"crates/{it}/") for file in files)]
    seen = {it.split("/")[1] for it in files if re.match(r"crates/\w+/(src|specs|proofs)/", it) and is_seen_from_above(it, base)}
    names = [it for it in below if it in changed or seen & all_below(it)]
    print(f"changed crates: {' '.join(changed) or 'none'}; with those above that see the change: {' '.join(names) or 'none'}")
    bodies = {it.split("/")[1] for it in files if re.match(r"crates/\w+/src/", it)}
    tests = [it for it in below if it.endswith("_tests") and it not in names and bodies & all_below(it)]
    tests.sort(key=lambda it: len(all_below(it)))
    return ([(f"proofs, edits and tests of {' '.join(names)}", ["rt", "ci", *names], "")] * bool(names)
            + [(f"tests of {it}", ["rt", "try", "--test"], f"crates/{it}") for it in tests[:1]])


def tests_of(file):
    """The tests in tests/ that name a file, or are that file: a plain word names it with its folder, and a module if it is imported."""
    name = os.path.basename(file) if re.search("[.-]", os.path.basename(file)) else "/".join(file.split("/")[-2:])
    named = re.compile(rf"(?m)(?<![\w-]){re.escape(name)}(?![\w-])|^(?:from|import)\b.*\b{re.escape(name.replace('.py', ''))}\b")
    return {it for it in os.listdir("tests") if it.startswith("test_") and named.search(f"{it} {text_of(f'tests/{it}')}")}


def main():
    os.chdir(os.path.dirname(os.path.dirname(os.path.abspath(__file__))))
    rev = sys.argv[1] if len(sys.argv) > 1 else "HEAD"
    base = (git("merge-base", rev, "HEAD") or sys.exit(f"check.py: no revision {rev}")).strip()
    told = git("diff", "--name-only", "--no-renames", base) + git("ls-files", "--others", "--exclude-standard")
    named = {it: tests_of(it) for it in sorted({*told.splitlines()})}
    tests, failed = sorted(set().union(*named.values())), []
    steps = of_crates(named, base) + [SHIPS] * any(it.startswith(("library/", "python/", "include/")) for it in named)
    steps += [("make", ["make"], "")] * (bool(tests) and any(it.startswith("crates/") for it in named))
    steps += [("tests that name a changed file", ["tests/run", "build/stlslice", *tests], "")] * bool(tests)
    print(*(f"no step tries {it}\n" for it in named if not named[it] and not it.startswith("crates/")), sep="", end="")
    for what, words, folder in steps:
        print(f"== {what}", flush=True)
        failed += [what] * (subprocess.run(words, cwd=folder or ".", stdin=subprocess.DEVNULL).returncode != 0)
    print(*(f"failed: {it}" for it in failed), f"{len(steps) - len(failed)} passed, {len(failed)} failed", sep="\n")
    return 1 if failed else 0


if __name__ == "__main__":
    sys.exit(main())
