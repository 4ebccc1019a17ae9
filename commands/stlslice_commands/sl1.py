"""Slices a part into an SL1 archive for a resin printer. The part stands in the middle of the screen, white on black; one that
doesn't fit is refused. The archive is made aside and moved into place when it is whole, so a fault leaves what was there before."""

import os
import re
import time
import zipfile

from . import words
from .faults import command, refuse_if, say, shown, whole_file

LATEST = (2107, 12, 31, 23, 59, 58)  # the last moment that a zip can hold
LEVEL = 1  # of deflating the library's PNGs once more: long runs of pixels are bytes 0 in them
NAME = words.taking("a name", "(?s:.*)", lambda text: shown(" ".join(text.split())))
COUNT = words.taking("a whole number, 0 to 999", r"\d{1,3}", int)
SECONDS = words.taking("seconds above 0 and below 100000, as 2.2", r"\d{1,5}(?:\.\d{1,6})?", lambda text: float(text) or None)
FIRST = 3  # layers with the first exposure, before it fades to that of the others
# What PrusaSlicer takes if nothing is given: seconds, layers, and the percentage of the screen from which a layer is slow.
DEFAULTS = dict(exposure=2.2, first_exposure=25.0, fade=10, material="", fast_tilt=5.0, slow_tilt=8.0, area_fill=50)


@command
def run():
    parser = words.parser(__doc__, "the archive to write, as out.sl1")
    add = parser.add_argument
    add("--exposure", type=SECONDS, metavar="S",
        help="seconds a layer is exposed (the printer's, else 2.2); a line says if that is for layers of another height")
    add("--first-exposure", type=SECONDS, metavar="S", help="the same of the first layers (the printer's, else 25)")
    add("--fade", type=COUNT, metavar="N", help="layers over which the exposure fades from the first to the other (10)")
    add("--material", type=NAME, metavar="NAME", help="the resin's name, for the printer to show (the printer's, else resin)")
    given = words.read(parser)
    fill_in(given)
    now = moment()
    with whole_file(given.output, given.part) as file:
        from .slicing import Sliced  # only here, so that what is wrong is told at once
        sliced = Sliced(given)
        with zipfile.ZipFile(file, "w") as archive:
            seconds = fill(archive, sliced, job_name(given.output), now)
        sliced.finish(file, seconds=round(seconds, 1))


def fill_in(given):
    """Exposures, resin and tilts that weren't given: the printer's, else those of DEFAULTS."""
    it = given.printer
    if it and given.exposure is None and given.layer != it.layer:
        say(f"the exposure of {it.exposure:g} s is that of {it.material}, whose layers are {it.layer} micrometres high; "
            "--exposure takes another")
    for name, usual in DEFAULTS.items():
        if getattr(given, name, None) is None:
            setattr(given, name, getattr(it, name, usual))


def moment():
    """The time that is written into the archive: that of SOURCE_DATE_EPOCH if it is set."""
    told = os.environ.get("SOURCE_DATE_EPOCH", str(int(time.time())))
    refuse_if(not re.fullmatch(r"[0-9]{1,11}", told), "SOURCE_DATE_EPOCH takes whole seconds since 1970, of at most eleven digits")
    return time.gmtime(int(told))


def fill(archive, sliced, job, now):
    """Writes what PrusaSlicer has in an SL1 archive: a PNG for each layer, a config.ini for the printer, and a prusaslicer.ini for
    programs that read the archive again. Returns the seconds that the print takes."""
    def entry(name, body):
        head = zipfile.ZipInfo(name, min(max(now[:6], (1980, 1, 1, 0, 0, 0)), LATEST))
        archive.writestr(head, body, zipfile.ZIP_DEFLATED, LEVEL)

    given, slow = sliced.given, 0
    for number, (png, lit) in enumerate(sliced.pngs()):
        entry(f"{job}{number:05}.png", png)
        slow += 100 * lit > given.area_fill * given.canvas[0] * given.canvas[1]
    seconds = print_time(given, sliced.layers, slow)
    for name, pairs in (("config.ini", settings(sliced, job, slow, seconds, now)), ("prusaslicer.ini", profile(given))):
        entry(name, "".join(f"{key} = {value}\n" for key, value in sorted(pairs.items())))
    return seconds


def print_time(given, layers, slow):
    """The seconds of all exposures, and of the tilts after them."""
    seconds, step = 0.0, (given.first_exposure - given.exposure) / (given.fade + 1)
    for number in range(layers):  # one after the other, as the page adds them up: newer Pythons' sum rounds otherwise
        faded = max(0, number - FIRST + 1)
        seconds += given.exposure if faded > given.fade else given.first_exposure - faded * step
    return seconds + given.fast_tilt * (layers - slow) + given.slow_tilt * slow


def settings(sliced, job, slow, seconds, now):
    """What stands in config.ini. Without a printer's name it names none, as PrusaSlicer does."""
    given, printer = sliced.given, sliced.given.printer
    return {
        "action": "print", "jobDir": job, "prusaSlicerVersion": "stlslice",
        "fileCreationTimestamp": time.strftime("%Y-%m-%d at %H:%M:%S UTC", now),
        "printerModel": printer.model if printer else "", "printerProfile": printer.name if printer else "",
        "printerVariant": "default" if printer else "",
        "materialName": given.material or "resin", "usedMaterial": f"{sliced.millilitres(sliced.lit):.6f}",
        "expTime": f"{given.exposure:g}", "expTimeFirst": f"{given.first_exposure:g}", "expUserProfile": 0,
        "numFade": given.fade, "numFast": sliced.layers - slow, "numSlow": slow, "printTime": f"{seconds:.6f}",
        "layerHeight": f"{given.layer / 1000:g}", "printProfile": f"{given.layer / 1000:g} mm", "hollow": 0,
    }


def profile(given):
    """What stands in prusaslicer.ini: the layers, and the screen as it is built in, from which the images can be placed in space
    again. Without a printer their rows are those of the screen, which is `landscape`."""
    (columns, rows), (width, depth), orientation = given.canvas, given.pitch, "landscape"
    if given.printer and given.printer.is_portrait:
        columns, rows, width, depth, orientation = rows, columns, depth, width, "portrait"
    return {
        "printer_technology": "SLA", "printer_model": given.printer.model if given.printer else "",
        "display_pixels_x": columns, "display_width": f"{float(columns * width / 1000):.10g}",
        "display_pixels_y": rows, "display_height": f"{float(rows * depth / 1000):.10g}", "display_orientation": orientation,
        "display_mirror_x": int(given.mirror_x), "display_mirror_y": int(given.mirror_y), "gamma_correction": 0,
        "exposure_time": f"{given.exposure:g}", "initial_exposure_time": f"{given.first_exposure:g}", "faded_layers": given.fade,
        "layer_height": f"{given.layer / 1000:g}", "initial_layer_height": f"{given.layer / 1000:g}",
    }


def job_name(output):
    """The archive's name without its ending and without what isn't a letter, a digit, `_`, `-` or `.`."""
    name = re.sub(r"\.sl1s?$|^-$", "", os.path.basename(output), flags=re.IGNORECASE)
    return re.sub(r"[^\w.-]", "_", name) or "part"
