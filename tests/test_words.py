"""Words, values, defaults and statuses are the same in --help, the manual, the three completions and docs/usage.md. So are the
options of the commands, and the printers, rules and units of stlslice-sl1. Each shell can read the completions."""

import os
import re

from common import ROOT, Case, Together, same, text_of

LONG = r"--[a-z]+(?:-[a-z])?"


def plain(text):
    """A text with its numbers as bare digits, and with no marks of Markdown or mdoc between words."""
    return re.sub(r"(?<=\d),(?=\d{3}(?!\d))", "", text)


def of_help(text):
    """For each word of --help its value's name and what is said of it; and the statuses."""
    listed = re.search(r"\nOptions:\n((?:(?: .*)?\n)*)", text)[1]
    options = re.split(r"(?m)^ {2,6}(?=(?:-\w, )?--[a-z])", listed)[1:]
    words, said = {}, {}
    for option in options:
        name = re.search(LONG, option)[0]
        value = re.search(name + r" <([^>]+)>", option)
        words[name], said[name] = value[1] if value else None, " ".join(option.split())
    return words, said, statuses(re.split(r"(?mi)^exit status.*$", text)[1])


def statuses(text):
    return {int(number): meaning for number, meaning in re.findall(r"(?m)^ *(\d) +(\S.*)$", text)}


def of_manual(text):
    listed = text.split(".Bl -tag -width Ds\n")[1].split("\n.El")[0]
    words, said = {}, {}
    for option in listed.split(".It ")[1:]:
        name = "--" + re.search(r"Fl -([a-z-]+)", option)[1]
        value = re.match(r".*? Ar (\S+)$", option.split("\n")[0])
        words[name], said[name] = value[1] if value else None, " ".join(option.split())
    ended = text.split(".Sh EXIT STATUS")[1].split(".El")[0]
    return words, said, {int(number): meaning for number, meaning in re.findall(r"\.It (\d)\n(.*)\n", ended)}


def of_usage(text):
    rows = [[cell.strip() for cell in line.strip("|").split("|")] for line in text.splitlines() if line.startswith("|")]
    words, said, ended = {}, {}, {}
    for row in rows:
        name = re.match(r"(?:`-\w`, )?`(--[a-z-]+)(?: ([^`]+))?`$", row[0])
        if name:
            words[name[1]], said[name[1]] = name[2], " ".join(row[1:])
        elif re.fullmatch(r"\d", row[0]):
            ended[int(row[0])] = row[1]
    return words, said, ended


def of_bash(text):
    words = dict.fromkeys(re.findall(rf"(?m)^ +({LONG})$", text))
    choices = {name: values.split() for name, values in re.findall(rf"(?m)^ +({LONG})\) .*compgen -W '([^']*)'", text)}
    taken = set(choices) | set(re.findall(LONG, re.search(rf"(?m)^ +({LONG}(?: \| {LONG})*)\) ;;", text)[1]))
    return words, choices, taken


def of_zsh(text):
    specs = re.findall(rf"(?m)^  '.*?({LONG})(=?)(.*)$", text)
    choices = {}
    for name, _, rest in specs:
        # either (ONE TWO) or ((ONE\:"what it is" TWO\:"what it is"))
        found = re.search(r":\((\(?)([^()]*)\)\)?'", rest)
        if found:
            choices[name] = re.findall(r'([^\s":]+)\\:"[^"]*"', found[2]) if found[1] else found[2].split()
    return {name for name, _, _ in specs}, choices, {name for name, takes, _ in specs if takes}


def of_fish(text):
    words, choices, taken = set(), {}, set()
    for line in text.splitlines():
        name = re.search(r" -l ([a-z-]+)", line)
        if name:
            words.add("--" + name[1])
            taken |= {"--" + name[1]} if " -x" in line else set()
            found = re.search(r" -a '([^']*)'", line)
            # either ONE TWO or ONE\t"what it is" TWO\t"what it is"
            values = re.sub(r'\\t"[^"]*"', "", found[1]).split() if found else []
            choices.update({"--" + name[1]: values} if values else {})
    return words, choices, taken


def default_of(text):
    found = re.search(r"\[default: (\w+)\]|The default is (?:\.Cm )?(\w+)|default `?(\w+)`?", text)
    return next(filter(None, found.groups())) if found else None


def limits(said):
    return {name: tuple(map(int, re.search(r"(\d+) to (\d+)", said[name]).groups())) for name in ("--pitch", "--layer", "--workers")}


def choices_of(text):
    found = [it for it in ("evenodd", "nonzero", "positive", "mm", "inch") if re.search(rf"\b{it}\b", text)]
    return found or list(re.search(r"\b(8) or (1)\b", text).groups())


CHOOSING = ("--rule", "--unit", "--depth")
SHELLS = {"bash": ("completions/stlslice.bash", of_bash), "zsh": ("completions/_stlslice", of_zsh),
          "fish": ("completions/stlslice.fish", of_fish)}
TAKEN = {"--rule": ["evenodd", "nonzero", "positive"], "--unit": ["mm", "inch"], "--workers": ["1", "64"],
         "--pitch": ["1", "100000"], "--layer": ["1", "100000"], "--probe": ["0,0,0"],
         "--grid": ["16384,16384,65535,-128000000,-128000000,128000000"], "--depth": ["8", "1"]}
REFUSED = {"--rule": ["odd"], "--unit": ["m"], "--workers": ["0", "65"], "--pitch": ["0", "100001"],
           "--layer": ["0", "100001"], "--probe": ["0,0"], "--grid": ["1,1,1,0,0,128000001"], "--depth": ["2"]}


class Words(Together):
    @classmethod
    def make_ready(cls, room):
        cls.words, cls.said, cls.ended = of_help(plain(room.out("stlslice", "--help")))
        assert len(cls.words) > 9 and cls.words["--pitch"] == "N", cls.words

    def compared(self, place, other, tells, statuses_told):
        words, said, ended = self.words, self.said, self.ended
        same(other, words, f"words and values of {place}")
        same(sorted(statuses_told), sorted(ended), f"statuses of {place}")
        for number in ended:
            same(statuses_told[number].rstrip("."), ended[number].rstrip("."), f"meaning of status {number} in {place}")
        for name in words:
            same(default_of(tells[name]), default_of(said[name]), f"default of {name} in {place}")
        for name, (least, most) in limits(said).items():
            assert re.search(rf"\b{least} to {most}\b", tells[name]), f"{name} in {place} doesn't take {least} to {most}"
        counts = re.search(r"\b\d+, \d+ and \d+\b", said["--grid"])[0]
        assert counts in tells["--grid"], f"--grid in {place} doesn't take counts of {counts}"
        for name in CHOOSING:
            for value in choices_of(said[name]):
                assert re.search(rf"\b{value}\b", tells[name]), f"{name} in {place} hasn't {value}"

    def test_manual_and_usage_tell_what_help_tells(self):
        usage, manual = plain(text_of("docs/usage.md")), plain(text_of("man/stlslice.1"))
        self.compared("the manual", *of_manual(manual))
        self.compared("docs/usage.md", *of_usage(usage))
        summary = set(re.findall(r"Fl -([a-z-]+)", manual.split(".Sh SYNOPSIS")[1].split(".Sh DESCRIPTION")[0]))
        same(sorted("--" + it for it in summary), sorted(self.words), "words of the manual's synopsis")

    def test_completions_have_what_help_tells(self):
        takers = {name for name in self.words if self.words[name]}
        for shell, (path, read) in SHELLS.items():
            other, choices, taken = read(text_of(path))
            same(sorted(other), sorted(self.words), f"words that {shell} completes")
            same(sorted(taken), sorted(takers), f"words that take a value for {shell}")
            for name in CHOOSING:
                same(sorted(choices[name]), sorted(choices_of(self.said[name])), f"values of {name} for {shell}")
            for name in (*CHOOSING, "--workers") if shell != "bash" else ():
                stated = re.search(rf"(?m)^.*-l? ?{name.lstrip('-')}\b.*\(default (\w+)\)", text_of(path))
                same(stated and stated[1], default_of(self.said[name]), f"default of {name} for {shell}")
            counts = sorted(map(int, choices["--workers"]))
            same((counts[0], counts[-1]), limits(self.said)["--workers"], f"least and most workers for {shell}")

    def test_the_program_takes_these_values_and_none_beside_them(self):
        """An empty input then gives status 3."""
        for status, values in ((3, TAKEN), (2, REFUSED)):
            for name in values:
                for value in values[name]:
                    needed = [it for it in ("--pitch=9", "--layer=9", "--png") if not it.startswith(name)]
                    same(self.room.run("stlslice", *needed, f"{name}={value}").status, status, f"status of {name}={value}")


ARCHIVE = {"--exposure", "--first-exposure", "--fade", "--material"}
OF_PAGE = {f"--{it}" for it in "pitch layer rule unit canvas title workers json help".split()}
SL1, PNGS, PAGE, SLABS = (f"stlslice-{it}" for it in ("sl1", "pngs", "page", "slabs"))


def options_of_manual(name):
    listed = text_of(f"man/{name}.1").split(".Bl -tag -width Ds\n")[1].split("\n.El")[0]
    words = re.findall(r"(?m)^\.It .*?Fl (-?[\w-]+)(?: |$)", listed) + re.findall(r"(?m)^\.It Fl h , Fl (-help)", listed)
    return [("--" if word[0] == "-" else "-") + word.strip("-") for word in words if word != "h"]


def options_of_bash(text):
    return re.findall(r"(?<![\w-])--?[A-Za-z][\w-]*", text.split("options=(")[1].split("local option ")[0])


def options_of_zsh(text):
    return re.findall(r"(?m)^ +(?:['\"](?:\([^)]*\))?|'\(- \*\)'\{-h,)(--?[\w-]+)", text)


def options_of_fish(text):
    found = re.findall(r" -(s|l) ([\w-]+)", re.sub(r" -d '.*", "", text))
    return [("-" if kind == "s" else "--") + word for kind, word in found if word not in ("h", "-x")]


# of each shell the completions of a command, and how their options are read
COMPLETIONS = {"bash": ("completions/{}.bash", options_of_bash), "zsh": ("completions/_{}", options_of_zsh),
          "fish": ("completions/{}.fish", options_of_fish)}


class WordsOfCommands(Case):
    def help_of(self, name):
        return self.room.out(os.path.join(ROOT, "commands", name), "--help", env=self.room.with_env(COLUMNS="300"))

    def test_options_agree_and_each_is_told_once(self):
        shown = {it: sorted(re.findall(r"(?m)^  (?:-h, )?(--?[\w-]+)", self.help_of(it))) for it in (SL1, PNGS, PAGE, SLABS)}
        same(set(shown[SL1]) - set(shown[PNGS]), ARCHIVE, "options of archives")
        same(set(shown[PAGE]), OF_PAGE, "options of stlslice-page")
        for name, wanted in shown.items():
            same(sorted(options_of_manual(name)), wanted, f"manual of {name}")
            for shell, (path, read) in COMPLETIONS.items() if name != PNGS else ():
                same(sorted(read(text_of(path.format(name)))), wanted, path.format(name))
                if not self.lacks(f"reading {path.format(name)}", shell):
                    same(self.room.run(shell, "-n", path.format(name)).fault, "", f"{shell} reads {path.format(name)}")

    def test_printers_rules_and_units_agree(self):
        bash, zsh, fish = (text_of(path.format(SL1)) for path, _ in COMPLETIONS.values())
        listing = self.room.run("commands/stlslice-sl1", "--printer", "help").out
        printers = set(re.findall(r"(?m)^(\w+)  ", listing))
        for shell, text in (("bash", bash), ("zsh", zsh), ("fish", fish)):
            for word in ("evenodd", "nonzero", "positive", "auto"):
                assert re.search(rf"\b{word}\b", text), f"{shell} doesn't complete {word}"
            same(set(re.findall(r"\bSL\d\w*", text)), printers, f"{shell}: printers")
        shown = self.help_of(SL1)
        for told, units in ((shown, "{mm,cm,m,inch}"), (bash, "'mm cm m inch'"), (zsh, "(mm cm m inch)"),
                            (fish, "'mm cm m inch'")):
            assert units in told, f"no {units}"
        assert "{evenodd,nonzero,positive}" in shown, "no rules"
