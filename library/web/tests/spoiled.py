"""Spoiled files, text and binary: the page shows the command's answer or its line, and its worker goes on."""

import os
import random
from concurrent.futures import ThreadPoolExecutor

from archives import MOMENT, fill, ran_command, same_archive
from common import IDLE, example, holds, same
from files import binary_of, facets_of

EACH = 100  # files of each kind
SCREEN = {"printer": "own", "columns": 300, "rows": 150, "width": "150", "depth": "150", "height": 1500}
WORDS = ["--canvas", "300x150", "--pitch", "150", "--layer", "1500"]


def changed(draw, data):
    """A few bytes are others, lost, written twice, or in each other's place; at times the end is lost too."""
    data = bytearray(data)
    for _ in range(draw.choice([1, 1, 2, 5])):
        at, size = draw.randrange(len(data)), draw.choice([1, 2, 4, 50, 250])
        piece, other = data[at:at + size], draw.randrange(len(data))
        how = draw.randrange(6)
        if how == 0:
            data[at] = draw.randrange(256)
        elif how == 1:
            data[at] ^= 1 << draw.randrange(8)
        elif how == 2:
            del data[at:at + size]
        elif how == 3:
            data[at:at] = piece
        elif how == 4:
            data[at:at + size], data[other:other + size] = data[other:other + size], piece
        else:
            data[at:at + size] = bytes(draw.choice(b" \n0.-e19solidfacet") for _ in piece)
    return bytes(data[:draw.randrange(len(data))] if draw.random() < 0.1 else data)


def harmless(draw, data, is_binary):
    """What no reader looks at is another."""
    if is_binary:
        at = draw.choice([draw.randrange(80), 84 + 50 * draw.randrange((len(data) - 84) // 50) + draw.choice([*range(12), 48, 49])])
        return data[:at] + bytes([draw.randrange(256)]) + data[at + 1:]
    return data.replace(b"\n", draw.choice([b"\r\n", b"\n\n", b" \t\n"])).replace(b"facet", draw.choice([b"facet", b"FACET", b"Facet"]))


def files(room):
    """The paths of spoiled files, and of some that are as good as whole."""
    draw = random.Random(54)
    with open(example("bracket"), "rb") as file:
        text = file.read()
    for kind, whole in (("text", text), ("binary", binary_of(facets_of("bracket")))):
        for number in range(EACH):
            path = os.path.join(room, f"{kind}{number}.stl")
            with open(path, "wb") as file:
                file.write(harmless(draw, whole, kind == "binary") if number % 5 == 0 else changed(draw, whole))
            yield path


def command(program, path):
    """The command's line, or none if it made the archive beside the file."""
    ran = ran_command(program, "stlslice-sl1", "--workers", "1", *WORDS, path, f"{path[:-4]}.sl1")
    return (ran.stderr.splitlines()[-1].partition(": ")[2], ran.returncode) if ran.returncode else None


def same_refusal(page, path, line, status):
    """The page has the command's line and status."""
    same(page.text("fault_line"), line, f"the line of {path}")
    same(page.text("fault_head"), f"{os.path.basename(path)} is refused, status {status}", f"the status of {path}")


def try_all(page, room, program):
    """Returns the numbers of archives and of refusals."""
    every = list(files(room))
    with ThreadPoolExecutor(os.cpu_count()) as pool:
        told = list(pool.map(lambda it: command(program, it), every))
    page.load()
    fill(page, {**SCREEN, "rule": 2, "unit": 0})
    page.value(f"moment = () => {MOMENT}; globalThis.first = slicer; 0")
    for path, refused in zip(every, told):
        page.take(path)
        if refused:
            same_refusal(page, path, *refused)
        else:
            holds(f"{path} is opened: {page.text('fault_line')}", page.value("opened !== null"))
            archive = f"{path[:-4]}.sl1"
            same_archive(page.saved(os.path.basename(archive), "save_archive"), archive, path)
    holds("the worker is the same from the first to the last", page.value("slicer === first"))
    page.until(IDLE)
    return told.count(None), len(told) - told.count(None)
