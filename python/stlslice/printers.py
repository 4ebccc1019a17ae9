"""The printers that are known by name. `printers.csv` has a row for each, with its source: a printer whose figures nobody could
look up is not there."""

import csv
from fractions import Fraction
from pathlib import Path
from typing import Dict


class Printer:
    """A screen as it is built in, how its images lie on it, and the exposures of one resin, in micrometres and seconds. A screen
    in `portrait` shows images that are turned by a quarter, so `canvas` and `pitch`, which are those of images, are turned too."""

    def __init__(self, row: Dict[str, str]) -> None:
        self.model, self.name, self.material, self.source = (row[key] for key in ("model", "name", "material", "source"))
        self.columns, self.rows = int(row["columns"]), int(row["rows"])
        self.width, self.depth, self.height = (1000 * Fraction(row[key]) for key in ("width", "depth", "height"))
        self.is_portrait = row["orientation"] == "portrait"
        order = -1 if self.is_portrait else 1
        self.canvas = (self.columns, self.rows)[::order]
        self.pitch = (self.width / self.columns, self.depth / self.rows)[::order]
        self.mirror_x, self.mirror_y = row["mirror_x"] == "1", row["mirror_y"] == "1"
        self.layer, self.fade, self.area_fill = (int(row[key]) for key in ("layer", "fade", "area_fill"))
        self.exposure, self.first_exposure = float(row["exposure"]), float(row["first_exposure"])
        self.fast_tilt, self.slow_tilt = float(row["fast_tilt"]), float(row["slow_tilt"])


def printers() -> Dict[str, Printer]:
    """Each printer of the table by its model."""
    with Path(__file__).with_name("printers.csv").open(encoding="utf-8", newline="") as file:
        return {row["model"]: Printer(row) for row in csv.DictReader(file)}


def listed() -> str:
    """The printers as `stlslice-sl1 --printer help` prints them."""
    lines = []
    for it in printers().values():
        sides = " x ".join(f"{float(side) / 1000:g}" for side in (it.width, it.depth, it.height))
        lines.append(f"{it.model}  {it.name}: {it.columns} x {it.rows} pixels, {sides} mm\n    from {it.source}\n")
    return "".join(lines)
