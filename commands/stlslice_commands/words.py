"""The options of the commands."""

import argparse
import os
import re
import sys
from fractions import Fraction
from importlib.util import find_spec

from .faults import Refused

MOST_WORKERS = 64


def taking(told, pattern, value):
    """What reads an option's value: a text of this pattern, by a function that returns None for one that isn't taken."""
    def read(text):
        found = value(text) if re.fullmatch(pattern, text, re.ASCII) else None
        if found is None:
            raise argparse.ArgumentTypeError(f"it takes {told}")
        return found

    return read


def whole(most):
    return taking(f"a whole number, 1 to {most}", r"0*[1-9]\d{0,5}", lambda text: int(text) if int(text) <= most else None)


def sides(text):
    """Width and depth of a pixel."""
    found = [Fraction(it) for it in text.split("x")]
    return (found[0], found[-1]) if all(found) else None


workers, micrometres = whole(MOST_WORKERS), whole(100_000)
nonempty, turn = taking("a name", r"(?s:.+)", str), taking("auto, or no value", "(?:auto)?", str)
canvas = taking("COLUMNSxROWS, each 1 to 99999, as in 2560x1620", r"[1-9]\d{0,4}[x,][1-9]\d{0,4}",
                lambda text: tuple(map(int, re.split("[x,]", text))))
pitch = taking("micrometres above 0 and below 1000000, with at most three digits after the point, as 50, 47.25 or 19x24",
               r"\d{1,6}(?:\.\d{1,3})?(?:x\d{1,6}(?:\.\d{1,3})?)?", sides)
# as micrometres
millimetres = taking("millimetres above 0 and below 1000000, as 150 or 149.5", r"\d{1,6}(?:\.\d{1,6})?",
                     lambda text: 1000 * Fraction(text) or None)


def processors():
    """As many workers as there are processors to be used, and as are taken."""
    return min(len(os.sched_getaffinity(0)) if hasattr(os, "sched_getaffinity") else os.cpu_count() or 1, MOST_WORKERS)


class Parser(argparse.ArgumentParser):
    def error(self, message):
        """Ends as argparse does by itself, with the same status also if standard error is full."""
        raise Refused(f"error: {message}", 2, self.format_usage())


class Listing(argparse.Action):
    """`--printer help` lists the printers and ends; another word has to be a model of the list."""

    def __call__(self, parser, given, word, option=None):
        # here, so that others start faster; the table alone, as the module needs its library; __import__ tells if that is missing
        sys.path.insert(0, (find_spec("stlslice") or __import__("stlslice").__spec__).submodule_search_locations[0])
        from printers import listed, printers
        if word == "help":
            print(listed(), end="")
            parser.exit()
        known = printers()
        if word.upper() not in known:
            parser.error(f"--printer takes {' or '.join(known)} (--printer help says more); for another printer take --canvas "
                         "and --pitch")
        given.printer = known[word.upper()]


def shared(description, output):
    """A parser of the options that all commands take; `output` is what the second word names."""
    made = Parser(description=description, allow_abbrev=False)
    add = made.add_argument
    add("part", type=nonempty, help="an STL, ASCII or binary, an OBJ or a 3MF, or - for standard input; another format, zip and gzip are "
        "refused with the command that converts or unpacks them")
    add("output", type=nonempty, help=output)
    add("--rule", default="positive", choices=["evenodd", "nonzero", "positive"],
        help="which pixels are lit (%(default)s, which joins shells that overlap, as supports do)")
    add("--layer", type=micrometres, default=50, metavar="N", help="height of a layer in micrometres (%(default)s)")
    add("--unit", default="mm", choices=["mm", "cm", "m", "inch"], help="unit of the part's numbers (%(default)s)")
    add("--workers", type=workers, default=processors(), metavar="N", help="threads of the slicer, 1 to 64 (%(default)s)")
    add("--json", action="store_true", help="write the last line as JSON")
    return made


def parser(description, output):
    """A parser of the options that `stlslice-sl1` and `stlslice-pngs` take."""
    made = shared(description, output)
    add = made.add_argument
    add("--printer", action=Listing, metavar="MODEL",
        help="a printer that is known by name: it brings canvas, pitch, mirrors and height; 'help' lists the printers")
    add("--canvas", type=canvas, metavar="COLUMNSxROWS", help="pixels of the screen, as its images have them")
    add("--pitch", type=pitch, metavar="N",
        help="a pixel in micrometres: 50, 47.25, or 19x24 for width and depth in the image, after any turn")
    add("--height", type=millimetres, metavar="MM", help="the printer's height in mm; a higher part is refused")
    add("--turn", type=turn, metavar="[auto]",
        help="turn the part by a quarter, counterclockwise from above; 'auto' does so only if it doesn't fit otherwise, and says so")
    add("--shells", action="store_true",
        help="slice the shells in groups and join the images, for a part of more than 1,048,576 facets")
    add("--mirror-x", action="store_true", help="swap left and right in each image")
    add("--mirror-y", action="store_true", help="swap top and bottom in each image")
    add("--depth", type=taking("1 or 8", "[18]", int), default=8, choices=[1, 8], help="bits of a PNG's pixel (%(default)s)")
    return made


def read(made):
    """The options given, as the parser reads them, with what a printer brings in its place."""
    given = made.parse_args(quarters(sys.argv[1:]))
    for name in ("canvas", "pitch", "mirror_x", "mirror_y", "height") if given.printer else ():
        if getattr(given, name):
            made.error(f"--printer {given.printer.model} brings its own: leave out --{name.replace('_', '-')}")
        setattr(given, name, getattr(given.printer, name))
    if not given.canvas or not given.pitch:
        made.error("the printer is missing: --printer MODEL for one that --printer help lists; for another --canvas COLUMNSxROWS "
                   "and --pitch N (its screen in pixels, and a pixel in micrometres)")
    return given


def quarters(words):
    """The words with a value of each `--turn`, since argparse would take the part as one: with none it is empty."""
    return ["--turn=" if word == "--turn" and after != "auto" else word for word, after in zip(words, [*words[1:], ""])]
