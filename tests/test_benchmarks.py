"""bench/table.py writes a page with commit, machine, date and a row for each case; beside another slicer it shows ratios too, and
ends with a fault if that one writes other bytes. The rows of docs/benchmarks.md are the script's. bench/large.py has a figure
of each part in each row."""

import datetime
import re

from common import PROGRAM, ROOT, Case, library, python_with, same, skip, text_of

NAMED = re.findall(r'(?m)^    Case\("(\w+)", "([^"]+)"', text_of("bench/table.py"))
TABLE = "bench/table.py"
FEW = ["--runs=1", "--case=sphere20k"]
LARGE = "import large; large.RUNS = 1; large.main()"


def rows(page):
    return re.findall(r"(?m)^\| ([^|]+) \| ([^|]+) \| ([^|]+) \|$", page)[1:]


def png_rows(page):
    """The names and the bytes a layer of the table of bench/pngs.py."""
    return re.findall(r"(?m)^\| ([^|]+) \| \d+\.\d{3} s [^|]+ \| \d+\.\d{3} s [^|]+ \| ([\d,]+) \|$", page)


class Benchmarks(Case):
    def test_the_page_has_the_rows_of_the_scripts(self):
        assert len(NAMED) >= 10, f"the script has {len(NAMED)} cases"
        page = text_of("docs/benchmarks.md")
        same([row[0] for row in rows(page)], [row for _, row in NAMED], "rows of docs/benchmarks.md")
        same([row[0] for row in png_rows(page)], ["P4", "`--png`", "`--png --depth 1`"], "its rows of PNGs")

    def test_a_table_has_date_machine_times_and_memory(self):
        days = [datetime.date.today()]
        ran = self.room.done(TABLE, PROGRAM, *FEW)
        days.append(datetime.date.today())
        assert any(f"\n- Date: {it}\n" in ran.out for it in days), f"no date: {ran.out}"
        assert re.search(r", commit \w+\+?\n- Machine: .+, \d+ processors, \d+ GiB\n", ran.out), f"no commit or machine: {ran.out}"
        (name, *cells), = rows(ran.out)
        same(name, dict(NAMED)["sphere20k"], "its row")
        assert all(re.fullmatch(r"\d+\.\d{3} s, \d+ MiB", it) for it in cells), cells

    def test_a_table_beside_another_slicer_has_ratios(self):
        ran = self.room.done(TABLE, PROGRAM, PROGRAM, "--about=It is the same.", *FEW)
        (_, *cells), = rows(ran.out)
        assert all(re.fullmatch(r"\d+\.\d{3} s, \d+ MiB \(\d+\.\d\d, \d\.\d\d\)", it) for it in cells), cells
        assert " That slicer writes the same bytes. It is the same.\n" in ran.out, "it doesn't say what the other one is"

    def test_a_slicer_that_writes_other_bytes_is_refused(self):
        other = self.room.put("other", f"#!/bin/sh\n'{PROGRAM}' \"$@\"\nprintf x\n", 0o755)
        ran = self.room.run(TABLE, PROGRAM, other, *FEW)
        assert ran.status == 1 and "different bytes" in ran.fault and not ran.out, ran

    def test_a_table_of_large_parts_has_their_figures(self):
        env = self.room.with_env(PYTHONPATH=f"{ROOT}/bench")
        ran = self.room.run(python_with("numpy"), "-c", LARGE, library(), "1000", env=env)
        if "numpy is missing" in ran.fault:
            skip(ran.fault)
        head, _, facets, *figures = [it.strip("| ").split(" | ") for it in ran.out.splitlines() if it.startswith("|")]
        same((ran.status, ran.fault, head), (0, "", ["Ball", "Ring", "Ball and needle"]), "status, faults, and the parts")
        ball, ring, both = (int(it.split(", ")[0].replace(",", "")) for it in facets[1:])
        assert ring > 500 and both == ball + 4 > 500, f"facets: {facets}"
        assert len(figures) > 10 and all(len(row) == 4 and re.match(r"\d", it) for row in figures for it in row[1:]), figures

    def test_a_table_of_pngs_has_their_sizes(self):
        other = f"--other=sh -c 'shift; exec {PROGRAM} --png \"$@\" <examples/supported.stl' x"
        names, sizes = zip(*png_rows(self.room.out("bench/pngs.py", PROGRAM, "--runs=1", "--layers=10", other)))
        same(names, ("P4", "`--png`", "`--png --depth 1`", "PNGs of the other slicer"), "its rows")
        sizes = [int(it.replace(",", "")) for it in sizes]
        same(sizes[0], 11520 // 8 * 5120 + len("P4\n11520 5120\n"), "bytes of a P4 image")
        assert sizes[2] < sizes[1] <= 62000, f"PNGs are large, or those of one bit are: {sizes}"
        same(sizes[3], sizes[1], "bytes of the other slicer's")
