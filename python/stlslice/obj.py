"""OBJ: the points and triangles that a file means."""

import io
import itertools
import re
from array import array
from typing import BinaryIO, Iterator, List, Tuple

from . import FACTORS, NOT_READ, Arrays, Fault, FormatFault, Progress, Source, Triple, Unit, _bytes, _choice
from ._exact import cross, dot, front, in_micrometres, minus, refuse_if

FLAT = 5  # micrometres by which a polygon may be off a plane, and off being convex
CORNERS = 10_000  # of a face, at most
LINE = 1 << 18  # bytes of a line
INDEX = re.compile(rb"(-?\d{1,9})(?:/-?\d*)?(?:/-?\d+)?")
IGNORED = {b"vn", b"vt", b"g", b"o", b"s", b"usemtl", b"mtllib", b"l", b"p"}


def read_obj(source: Source, unit: Unit = "mm", progress: Progress = None) -> Arrays:
    """The points of an OBJ, in whole micrometres, and its triangles, as `open_mesh` takes them.

    `source` is given as in `open`, and `unit` is that of the file's numbers. Each `v` is a point, whose coordinates are rounded to
    the nearest micrometre, halves away from zero. Each `f` is a triangle, or a polygon that is cut into triangles if it is flat and
    convex, within 5 micrometres. `progress`, if given, is called now and then with how far it is, as `line 4,096`.

    Raises a `Fault` of status 3 that names the line if a number, an index or a face is wrong. It is a `FormatFault` if the file may
    be right: if a polygon is not flat and convex, or a line is of another kind, such as a curve.
    """
    points, triangles = array("i"), array("I")
    times = FACTORS[_choice("unit", unit, Unit)]
    data = _bytes(source)
    if re.search(rb"\r(?!\n)", data):
        data = data.replace(b"\r\n", b"\n").replace(b"\r", b"\n")
    if data.startswith(b"\xef\xbb\xbf"):
        data = data[3:]
    for at, (word, *words) in _lines_of(io.BytesIO(data), progress):
        try:
            if word == b"v":
                points.extend([in_micrometres(it, times) for it in words[:3]])
                refuse_if(len(words) < 3, "v has fewer than three numbers")
            elif word == b"f":
                refuse_if(len(words) > CORNERS, f"a face has more than {CORNERS:,} corners")
                triangles.extend(_fan(points, [_index(it, len(points) // 3) for it in words]))
            elif word not in IGNORED:
                raise FormatFault(NOT_READ, f"{front(word)!r} isn't taken")
        except Fault as fault:
            raise type(fault)(NOT_READ, f"line {at:,} of the OBJ: {fault}") from None
    return points, triangles


def _lines_of(file: BinaryIO, progress: Progress) -> Iterator[Tuple[int, List[bytes]]]:
    """The words of each line that has some, with its number. A line may go on after a backslash."""
    held, size = bytearray(), 0
    for at, line in enumerate(itertools.chain(file, [b"\n"]), 1):
        size += len(line)
        if size > LINE:
            raise Fault(NOT_READ, f"line {at:,} of the OBJ has more than {LINE:,} bytes")
        if b"#" in line:
            line = line.partition(b"#")[0]
        if b"\\" in line and line.rstrip().endswith(b"\\"):
            held += line.rstrip()[:-1] + b" "
            continue
        words, size = (bytes(held) + line).split() if held else line.split(), 0
        held.clear()
        if words:
            yield at, words
        if progress and at % 4096 == 0:
            progress(f"line {at:,}")


def _index(word: bytes, count: int) -> int:
    """The point that a corner of a face names, from 0: `7`, `7/1`, `7//3`, `7/1/3`, or a negative number, from the last back."""
    found = INDEX.fullmatch(word)
    number = int(found[1]) if found else 0
    at = number - 1 if number > 0 else count + number
    if not number or not 0 <= at < count:
        raise Fault(NOT_READ, f"there is no point {front(word)!r}")
    return at


def _fan(points: "array[int]", corners: List[int]) -> List[int]:
    """The triangles of a polygon that is flat and convex, from its first corner."""
    if len(corners) == 3:
        return corners
    refuse_if(len(corners) < 3, "a face has fewer than three corners")
    places: List[Triple] = [tuple(points[3 * at:3 * at + 3]) for at in corners]
    if not (len(places) == 4 and _is_plain(*places) or _is_fan(places)):
        raise FormatFault(NOT_READ, "a face isn't flat and convex")
    return [at for pair in zip(corners[1:], corners[2:]) for at in (corners[0], *pair)]


def _is_plain(a: Triple, b: Triple, c: Triple, d: Triple) -> bool:
    """Whether four corners are flat and convex; then `_is_fan` takes them too, which is slower. `False` says nothing."""
    across, other, side = minus(c, a), minus(d, b), minus(b, a)
    normal = cross(across, other)
    # each diagonal cuts the polygon into two triangles, whose normals add up to this one
    whole = dot(normal, normal)
    return (whole > 0 and dot(normal, side) ** 2 <= FLAT ** 2 * whole
            and 0 <= dot(normal, cross(side, across)) <= whole and 0 <= dot(normal, cross(minus(c, b), other)) <= whole)


def _is_fan(corners: List[Triple]) -> bool:
    """Whether a polygon is flat and convex, but for FLAT micrometres: all corners lie in a plane, each three in a row turn to the
    left, and so do the triangles of the fan."""
    first, triangles = corners[0], [(corners[0], *pair) for pair in zip(corners[1:], corners[2:])]
    turns = zip(corners, corners[1:] + corners[:1], corners[2:] + corners[:2])
    normal = tuple(map(sum, zip(*(_normal_of(*it) for it in triangles))))
    slack = FLAT ** 2 * dot(normal, normal)

    def is_left(a: Triple, b: Triple, c: Triple) -> bool:
        """Whether the way from a over b to c turns to the left, or b is near the line through a and c."""
        left, across = dot(normal, _normal_of(a, b, c)), minus(c, a)
        return left >= 0 or left ** 2 <= slack * dot(across, across)

    return (slack > 0 and all(dot(normal, minus(it, first)) ** 2 <= slack for it in corners)
            and all(is_left(*it) for it in itertools.chain(turns, triangles)))


def _normal_of(a: Triple, b: Triple, c: Triple) -> Triple:
    return cross(minus(b, a), minus(c, a))
