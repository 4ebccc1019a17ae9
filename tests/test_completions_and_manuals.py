"""The completions of the program and of the commands, in each shell: what a Tab writes into the line, and what it lists. mandoc
finds no fault in the manuals, and shows the program's with each heading. Their examples run as they are shown."""

import glob
import re
import shutil

from common import ROOT, Case, bytes_of, needs, same, text_of
from terminal import bash_in, fish_lists, zsh_in

COMPLETED = ["stlslice", "stlslice-sl1", "stlslice-slabs", "stlslice-page"]
# What is typed before a Tab, and behind the bar what the Tab adds.
LINES = dict(it.split("|") for it in (
    "stlslice --pi|tch ", "stlslice --rule po|sitive ", "stlslice --rule=ev|enodd ", "stlslice --unit i|nch ",
    "stlslice --unit=m|m ", "stlslice --pitch 50 --workers 3|2 ", "stlslice --gr|id=", "stlslice --rep|ort ",
    "stlslice --report --re|", "stlslice --pitch 5|", "stlslice --box < part-of-t|his-test.stl ",
    "stlslice --rule positive > part-of-t|his-test.stl ", "stlslice-sl1 --pri|nter ",
    "stlslice-sl1 --printer SL1S --ru|le ", "stlslice-sl1 --rule po|sitive ", "stlslice-sl1 --first|-exposure ",
    "stlslice-pngs --unit=i|nch ", "stlslice-pngs --fir|", "stlslice-pngs part-of-t|his-test.stl ",
    "stlslice-page --can|vas ", "stlslice-page --rule=po|sitive ", "stlslice-page part-of-t|his-test.stl ",
    "stlslice-slabs -r ev|enodd ", "stlslice-slabs --wo|rds ", "stlslice-slabs -n 9 part-of-t|his-test.stl ",
    # an option that was given is not offered again
    "stlslice-sl1 --mirror-x --mir|ror-y ", "stlslice-pngs --shells --sh|", "stlslice-slabs --mirror-x --mir|ror-y ",
    "stlslice-slabs --png --pn|", "stlslice-page --pitch 50 --pi|"))
FLAGS = ("--report ", "--mirror-y ", "--words ")  # they take no value
FISH = {
    "stlslice --pi": {"--pitch"}, "stlslice --rule ": {"evenodd", "nonzero", "positive"},
    "stlslice --rule=po": {"--rule=positive"}, "stlslice --unit ": {"mm", "inch"}, "stlslice --workers 3": {"32"},
    "stlslice --pitch ": set(), "stlslice-sl1 --printer ": {"SL1", "SL1S", "help"},
    "stlslice-pngs --rule=po": {"--rule=positive"}, "stlslice-pngs --fade": set(), "stlslice-sl1 --fad": {"--fade"},
    "stlslice-page --rule=po": {"--rule=positive"}, "stlslice-page --unit ": {"mm", "cm", "m", "inch"},
    "stlslice-slabs -r ": {"evenodd", "nonzero", "positive"}}


class Completions(Case):
    def setUp(self):
        super().setUp()
        self.room.put("part-of-this-test.stl", "")

    @needs("bash")
    def test_bash_completes_words_and_lists_them(self):
        with bash_in(self.room, *COMPLETED) as shell:
            for typed, added in LINES.items():
                same(shell.completed(typed), typed + added, f"{typed!r} and Tab")
            shell.keys("stlslice --rule \t\t")
            shell.until(r"evenodd +nonzero +positive")
            shell.clear()
            shell.keys("stlslice --\t\t")
            # the words stand in columns, so the last of them may stand before others: the list ends at the next prompt
            listed = shell.until(r"--workers\s[^>]*> stlslice --$")
            assert all(f"--{it}" in listed for it in ("pitch", "grid", "probe", "box", "help")), listed

    @needs("zsh")
    def test_zsh_completes_words_and_tells_what_a_rule_is_for(self):
        with zsh_in(self.room) as shell:
            for typed, added in LINES.items():
                found, wanted = shell.completed(typed), typed + added
                if re.search("--[a-z-]+[ =]$", wanted) and not wanted.endswith(FLAGS):
                    # behind a word that takes a value an equals sign may stand, or nothing: its value may follow at once
                    found, wanted = found.rstrip("= "), wanted.rstrip("= ")
                same(found, wanted, f"{typed!r} and Tab")
            shell.keys("stlslice --rule \t\t")
            shell.until(r"positive +-- overlaps are filled, as supports need")

    @needs("fish")
    def test_fish_completes_words_and_tells_what_each_is_for(self):
        for line, wanted in FISH.items():
            same({row[0] for row in fish_lists(self.room, line, *COMPLETED)}, wanted, f"{line!r} and Tab")
        same(fish_lists(self.room, "stlslice --rule p", "stlslice"), [["positive", "overlaps are filled, as supports need"]],
             "what a rule is for")
        listed = fish_lists(self.room, "stlslice --", "stlslice")
        assert len(listed) > 9 and all(len(it) == 2 for it in listed), f"a word isn't told with what it is for: {listed}"


HEADINGS = ["NAME", "SYNOPSIS", "DESCRIPTION", "EXIT STATUS", "EXAMPLES", "DIAGNOSTICS", "SEE ALSO", "CAVEATS"]
COMMANDS = ["stlslice-sl1", "stlslice-pngs", "stlslice-page", "stlslice-slabs"]


@needs("mandoc")
class Manuals(Case):
    def shown(self, name):
        return re.sub(".\x08", "", self.room.run("mandoc", "-T", "utf8", "-O", "width=78", f"man/{name}.1").out)

    def examples(self, name):
        """The examples as a reader pastes them: what follows a prompt, with the lines that go on after a backslash."""
        part = re.split(r"\n[A-Z]", self.shown(name).split("\nEXAMPLES\n")[1])[0]
        return re.findall(r"(?m)^ +\$ ((?:.*\\\n)*.*)$", part)

    def test_mandoc_finds_no_fault(self):
        for path in sorted(glob.glob(f"{ROOT}/man/*.1")):
            told = self.room.run("mandoc", "-T", "lint", path).out.splitlines()
            # the manuals that these refer to needn't be installed here
            said = [line for line in told if "referenced manual not found: Xr stlslice" not in line]
            same(said, [], f"what mandoc has to say of {path}")

    def test_each_heading_is_shown(self):
        shown = self.shown("stlslice")
        for heading in HEADINGS:
            assert re.search(rf"(?m)^{heading}$", shown), f"no heading {heading}"

    def test_the_line_of_an_open_mesh_is_the_programs(self):
        fault = re.search(r"(?m)^\.Dl (stlslice: .*)$", text_of("man/stlslice.1"))[1]
        broken = self.room.bash("stlslice --pitch 50 --layer 50 < <(sed 2,8d examples/bracket.stl)")
        same(broken.fault, fault + "\n", "the line of an open mesh")

    def test_the_statuses_of_signals_are_told(self):
        for name in COMMANDS:
            told = " ".join(text_of(f"man/{name}.1").split())
            assert "129, 130 or 143 if SIGHUP, SIGINT or SIGTERM ended it" in told, name

    def test_examples_run_as_they_are_shown(self):
        lines = self.examples("stlslice")
        same(len(lines), 5, "examples of stlslice")
        for name in COMMANDS:
            found = self.examples(name)
            assert found and all(f"{name} " in line for line in found), f"{name}: examples {found}"
            if name != "stlslice-slabs" or not self.lacks("the examples of stlslice-slabs", "parallel"):
                lines += found
        same(len(re.findall(r"(?m)^\.Dl \$ (.*)$", text_of("man/stlslice-page.1"))), 2, "examples of stlslice-page")
        self.room.put("part.stl", bytes_of("examples/bracket.stl"))
        bin, rest = self.room.environment["PATH"].split(":", 1)
        for line in lines:
            shutil.rmtree(self.room.file("layers"), ignore_errors=True)
            env = self.room.with_env(PATH=f"{bin}:{ROOT}/commands:{rest}")
            self.room.out("bash", "-c", line, cwd=self.room.path, env=env)
