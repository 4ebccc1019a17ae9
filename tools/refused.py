#!/usr/bin/env python3
"""Reads what `rt ci` or `rt must-fail` says of all edits. It fails if nothing is said of one, or if something else refuses one
than a clause or an invariant, and refused_otherwise.txt, beside it, does not say why; or if that file names what is no edit.

    rt must-fail | tools/refused.py [--list] [FILE..]     at the top; --list: of each edit the function that is not proved, its
                                                          name, the goal, and whether the name is another function's"""
import fileinput
import glob
import re
import sys

TOLD = re.compile(r"rt: must-fail ((\w+)/(\S+))\.edit: (refused)?[^:\n]*:? ?(.*)")
ANSWER = re.compile(r"\./proofs/(\S+)/Answers\.antt:\d+:\d+: error: `([^`]+)`")
CODE = re.compile(r"note: (src/\S+):(\d+):\d+: (?:it is not proved that|`search` found no proof) (.*)")
# `rt` cuts what it quotes: where the goal's name is gone, the sentence says what it is
CLAUSE = re.compile(r"returns|invariant_of|loop-(\S+-)?(init|preserved)\b|what the function ensures|the `?invariant")


def function_at(file, row):
    """The name of the function on this row of a source file, or below the attributes there."""
    lines = open(file, encoding="utf-8").read().split("\n")
    while lines[row - 1].lstrip().startswith("#["):
        row += 1
    return next(it[1] for line in lines[row - 1 :: -1] for it in re.finditer(r"\bfn (\w+)", line))


otherwise = {*re.findall(r"(?m)^(\w+/\S+):", open(f"{sys.path[0]}/refused_otherwise.txt", encoding="utf-8").read())}
told = TOLD.findall("".join(fileinput.input([it for it in sys.argv[1:] if it != "--list"])))
names = {it.replace("/must-fail", "")[7:-5] for it in glob.glob("crates/*/must-fail/*.edit")}
failed = [f"{it}: nothing is said of it" for it in sorted(names.difference(it[0] for it in told))]
failed += [f"{it}: refused_otherwise.txt names it, and it is no edit" for it in sorted(otherwise - names)]
for name, crate, edit, is_refused, said in told:
    answer, code = ANSWER.match(said), CODE.match(said)
    goal = answer[2] if answer else [*re.findall(r"\(`([^`]+)", code[3]), code[3]][0] if code else said
    failed += [f"{name}: {said}"] * (not is_refused or (name in otherwise) == bool((answer or code) and CLAUSE.match(goal)))
    if "--list" in sys.argv:
        place = answer[1].replace("/", "::") if answer else function_at(f"crates/{crate}/{code[1]}", int(code[2])) if code else "?"
        print(f"{crate}::{place}  {edit}  {goal}" + "  (of another function)" * (edit.split(".")[-2] != place.split("::")[-1]))
print(*failed, f"edits: {len(names)}; not refused by a clause or an invariant, nor listed: {len(failed)}", sep="\n")
sys.exit(bool(failed or not told))
